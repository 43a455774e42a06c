"""Counts the instructions of `sgt` on an input in the whole, by valgrind's callgrind."""

import os
import re
import shutil
import subprocess
import tempfile

SUMMARY = re.compile(r"^summary: (\d+)", re.MULTILINE)


def is_there():
    return shutil.which("valgrind") is not None


def instructions(words, path, statuses=(0,), within=()):
    """The instructions of one run over an input, which ends with one of these statuses; where functions are named, of their calls
    alone, with all that these call."""
    with tempfile.TemporaryDirectory() as folder, open(path) as lines, open(os.devnull, "w") as nothing:
        profile = os.path.join(folder, "profile")
        valgrind = ["valgrind", "--tool=callgrind", f"--callgrind-out-file={profile}"]
        valgrind += [f"--toggle-collect={name}" for name in within]
        ran = subprocess.run(valgrind + words, stdin=lines, stdout=nothing, stderr=nothing, check=False)
        if ran.returncode not in statuses:
            raise subprocess.CalledProcessError(ran.returncode, words)
        with open(profile) as reported:
            return int(SUMMARY.search(reported.read())[1])


def each(words, opening, whole, count):
    """The instructions for each of so many lines, without the opening's."""
    return (instructions(words, whole) - instructions(words, opening)) / count


def each_event(program, opening, script, events):
    """The same, for each event of a script."""
    return each([program, "script"], opening, script, events)
