"""What the test programs share: how cases run and are reported, and a program of which calls fail."""

import faulthandler
import os
import pathlib
import subprocess
import tempfile

TESTS = pathlib.Path(__file__).resolve().parent.parent
C_SOURCES = TESTS / "c"

# Limits of time, which only what has no end passes, on any machine: of a run of a program, and of a case. A case that passes its limit
# ends the test program with status 1, and with no counts in its last line.
SECONDS = 600
CASE_SECONDS = 10_000

# No program makes that many allocations.
FOREVER = 10**18


class Differs(Exception):
    """What came is not what was wanted."""


def same(what, wanted, came):
    if wanted != came:
        raise Differs(f"{what}: wanted {wanted!r:.400}, came {came!r:.400}")


def first_line(came):
    """What a run came to, with the first line of its standard error alone. The second one explains an error, and has tests of its own."""
    status, out, reported, *rest = came
    lines = reported.splitlines(True)
    if len(lines) > 2:
        raise Differs(f"more than two lines: {reported!r:.400}")
    return status, out, "".join(lines[:1]), *rest


def run_cases(cases, *given, of="sgt"):
    """Runs each case on what is given, reports how it went, counts them in a last line, and gives the status."""
    failed = 0
    for case in cases:
        name = case.__name__.replace("_", " ")
        faulthandler.dump_traceback_later(CASE_SECONDS, exit=True)
        try:
            reported = case(*given)
            print(f"{of} {name}" + (f": {reported}" if reported else ""), flush=True)
        except (Differs, OSError, ValueError, LookupError, subprocess.SubprocessError) as why:
            failed += 1
            print(f"FAILED: {of} {name}: {why if isinstance(why, Differs) else repr(why)}", flush=True)
    faulthandler.cancel_dump_traceback_later()
    print(f"{len(cases) - failed} passed, {failed} failed")
    return 1 if failed else 0


class Failing:
    """A program, at its path, with the library that fails its calls."""

    def __init__(self, path, library):
        self.path = os.path.abspath(path)
        self.library = library

    def run(self, *words, given=b"", **failing):
        """Status, standard output and standard error, where the calls that these names say fail."""
        env = {"LD_PRELOAD": self.library} | {name.upper(): str(number) for name, number in failing.items()}
        given = given.encode() if isinstance(given, str) else given
        try:
            ran = subprocess.run([self.path, *words], input=given, env=env, capture_output=True, timeout=SECONDS, check=False)
        except subprocess.TimeoutExpired:
            raise Differs(f"{words} {failing}: no end after {SECONDS} seconds") from None
        return ran.returncode, ran.stdout.decode(), ran.stderr.decode()

    def allocations(self, *words, given=""):
        """How many allocations a run makes."""
        _, _, reported = self.run(*words, given=given, count_allocations=1)
        if not reported:
            raise Differs("the library that fails calls is not loaded")
        return int(reported.splitlines()[-1])


def run_failing_cases(cases, *paths, of="sgt"):
    """As `run_cases`, with each of these programs under the library of `failing.c`, which is made first."""
    with tempfile.TemporaryDirectory() as folder:
        library = os.path.join(folder, "failing.so")
        made = ["cc", "-O1", "-shared", "-fPIC", "-o", library, str(C_SOURCES / "failing.c"), "-ldl"]
        try:
            subprocess.run(made, check=True)
        except (OSError, subprocess.CalledProcessError) as why:
            print(f"FAILED: no library that fails calls, which takes a compiler for C: {why}")
            print(f"0 passed, {len(cases)} failed")
            return 1
        return run_cases(cases, *(Failing(path, library) for path in paths), of=of)
