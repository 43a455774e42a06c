#!/usr/bin/env python3
"""Measures what the gate costs, by crate: a table of processor seconds in Markdown, for README.md and CONTRIBUTING.md.

    tools/gate_times.py [--every SECONDS] [COMMAND WORD..]

It runs `./test` of the repository, or the command that is named, and shows its output. Meanwhile it looks at the processes
of that run every half second, and reads from their words what each prover works on. The table has a row for each crate:

    Proof       the crate
    Mutants     its mutants, which must be refused, and what the functions that they change call
    Programs    what two compilers make of a proved program

A last row has what is in no other: the programs that run, Python's tests, compilers of other languages, and rt itself. The line below
has the whole time, as the system counts it when the run has ended, the clock, the processors, and the load of the machine before.
A process that ends between two looks loses its last half second to the last row. What an earlier run has proved is not proved
again, so a whole measurement needs a machine on which nothing is kept. The status is that of the command.
"""
import argparse
import os
import resource
import subprocess
import sys
import threading
import time
from collections import Counter
from pathlib import Path

ROOT = Path(__file__).resolve().parent.parent
TICKS = os.sysconf("SC_CLK_TCK")
PARTS = ["Proof", "Mutants", "Programs"]


def work_of(words, folder):
    """The crate and the part of the table that a process with these words in this folder works for, or None."""
    if not words or os.path.basename(words[0]) != "rattle" or "--crate-name" not in words:
        return None
    crate = words[words.index("--crate-name") + 1]
    if os.path.basename(folder).startswith("mutants-"):
        return crate, "Mutants"
    return crate, "Programs" if "--crate-checked" in words else "Proof"


def processes():
    """Each process that runs: its number, with its parent, when it began, and its processor seconds."""
    found = {}
    for name in os.listdir("/proc"):
        if name.isdigit():
            try:
                text = Path("/proc", name, "stat").read_text()
            except OSError:
                continue
            fields = text[text.rindex(")") + 2 :].split()
            found[int(name)] = (int(fields[1]), int(fields[19]), (int(fields[11]) + int(fields[12])) / TICKS)
    return found


class Meter:
    """The processor seconds of each prover below one process, by crate and part."""

    def __init__(self, top):
        self.top = top
        self.works = {}
        self.seconds = {}

    def look(self):
        """Looks at the processes once. A child of a prover works for what that one works for."""
        now = processes()
        children = {}
        for number, (parent, _, _) in now.items():
            children.setdefault(parent, []).append(number)
        waiting = [(self.top, None)]
        while waiting:
            number, work = waiting.pop()
            if number in now:
                _, began, seconds = now[number]
                work = self.work(number, began, work)
                if work:
                    self.seconds[number, began] = (work, seconds)
            waiting += [(child, work) for child in children.get(number, [])]

    def work(self, number, began, of_parent):
        """What a process works for. Its words are read once: they may be those of its parent at first."""
        if self.works.get((number, began)) is None:
            try:
                words = Path(f"/proc/{number}/cmdline").read_bytes().decode(errors="replace").split("\0")
                found = work_of(words, os.readlink(f"/proc/{number}/cwd"))
            except OSError:
                found = None
            self.works[number, began] = found or of_parent
        return self.works[number, began]

    def sums(self):
        """The seconds by crate and part."""
        total = Counter()
        for work, seconds in self.seconds.values():
            total[work] += seconds
        return total


def row(name, numbers):
    return f"| {name} | " + " | ".join(f"{it:.0f}" if it >= 0.5 else "" for it in numbers) + " |"


def table(sums, whole):
    """The table, with the dearest crate first."""
    lines = [f"| Crate | {' | '.join(PARTS)} | All |", "|---" * (len(PARTS) + 2) + "|"]
    by_crate = {crate: [sums[crate, part] for part in PARTS] for crate, _ in sums}
    for crate, numbers in sorted(by_crate.items(), key=lambda it: -sum(it[1])):
        lines.append(row(f"`{crate}`", [*numbers, sum(numbers)]))
    of_parts = [sum(numbers[at] for numbers in by_crate.values()) for at in range(len(PARTS))]
    lines.append(row("all crates", [*of_parts, sum(of_parts)]))
    lines.append(row("all else", [0] * len(PARTS) + [whole - sum(of_parts)]))
    return lines


def main(words):
    parser = argparse.ArgumentParser(description="Measures what the gate costs, by crate.")
    parser.add_argument("--every", type=float, default=0.5, metavar="SECONDS", help="how often it looks at the processes")
    parser.add_argument("command", nargs="*", default=["./test"], help="the command to measure; ./test if none is named")
    given = parser.parse_args(words)
    load, began = os.getloadavg()[0], time.monotonic()
    run = subprocess.Popen(given.command, cwd=ROOT)
    meter, ended = Meter(run.pid), threading.Event()

    def watch():
        while not ended.wait(given.every):
            meter.look()

    watcher = threading.Thread(target=watch)
    watcher.start()
    status = run.wait()
    ended.set()
    watcher.join()
    used = resource.getrusage(resource.RUSAGE_CHILDREN)
    whole, clock = used.ru_utime + used.ru_stime, time.monotonic() - began
    print("\n".join(table(meter.sums(), whole)))
    print(
        f"\n{whole:.0f} s of processor time ({used.ru_utime:.0f} in programs, {used.ru_stime:.0f} in the system), {clock:.0f} s by the clock, "
        f"{os.cpu_count()} processors, load {load:.1f} before."
    )
    return status


if __name__ == "__main__":
    sys.exit(main(sys.argv[1:]))
