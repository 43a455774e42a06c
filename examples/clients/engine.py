#!/usr/bin/env python3
"""Records what the jobs of a bank see of this engine, for `sgt check --model list-append`.

    engine.py ./sgt | ./sgt check --model list-append

The engine stores numbers and no lists. So a list is a number, and its digits are its values: 0 is the empty list, and
an append of 5 makes 12 to 125. A list has at most nine values, 1 to 9, each once. A record that is not there is an
empty list.

A bank runs the jobs on threads and reports their answers, but not when they ran. So the history has only ends. Its last
one reads all keys: it is the committed database, which the bank prints when its jobs are done.
"""

from __future__ import annotations

import argparse
import json
import random
import subprocess
import sys

sys.dont_write_bytecode = True
from recorder import History, Operation, stop  # noqa: E402

TABLE = 3
KEYS, WORKERS = 3, 8


def read(register, argument):
    return ["find", register, TABLE, ["arg", argument], 0]


def append(key, value):
    """Reads the list of the key into register 3, and writes it with the value added."""
    return [read(3, key), ["put", TABLE, ["arg", key], ["sum", ["product", ["reg", 3], 10], ["arg", value]]]]


ANSWERS = [["answer", ["reg", 0]], ["answer", ["reg", 1]]]
# Append, then read another list; read, then append to another; read two lists. Their arguments: key, value, key; key,
# key, value; key, key.
PROCEDURES = [
    [3, [*append(0, 1), read(0, 2), ANSWERS[0]]],
    [3, [read(0, 0), *append(1, 2), ANSWERS[0]]],
    [2, [read(0, 0), read(1, 1), *ANSWERS]],
]


class Lists:
    """The next value of each key in use. A key that has all its values is replaced."""

    def __init__(self, draw):
        self.draw, self.fresh = draw, KEYS + 1
        self.keys = [[key, 0] for key in range(1, KEYS + 1)]

    def keys_of_two(self):
        return self.draw.sample(range(KEYS), 2)

    def value(self, place):
        key, last = self.keys[place]
        self.keys[place] = [key, last + 1]
        if last == 8:
            self.keys[place], self.fresh = [self.fresh, 0], self.fresh + 1
        return [key, last + 1]

    def job(self):
        """A procedure's number, its arguments, and its operations."""
        (one, other), kind = self.keys_of_two(), self.draw.randrange(3)
        other = self.keys[other][0]
        if kind == 2:
            key = self.keys[one][0]
            return 7, [key, other], [["r", key], ["r", other]]
        key, value = self.value(one)
        operations = [["append", key, value], ["r", other]]
        return (5, [key, value, other], operations) if kind == 0 else (6, [other, key, value], operations[::-1])


def digits(number: str) -> list[int]:
    """The list that a number is."""
    return [int(digit) for digit in number if digit != "0"]


def as_seen(operations: list[Operation], answers: list[str]) -> list[Operation]:
    """The operations of a job that committed, with what its reads were answered."""
    left = iter(answers)
    return [it if it[0] == "append" else [*it, digits(next(left))] for it in operations]


def main() -> int:
    options = argparse.ArgumentParser(description=__doc__, formatter_class=argparse.RawDescriptionHelpFormatter)
    options.add_argument("program", help="the built sgt")
    options.add_argument("--jobs", type=int, default=400)
    options.add_argument("--seed", type=int, default=1)
    chosen = options.parse_args()
    lists = Lists(random.Random(chosen.seed))
    jobs = [lists.job() for _ in range(chosen.jobs)]
    opening = {"limits": [32, 100 * chosen.jobs], "accounts": [], "procedures": PROCEDURES}
    lines = [opening, *(["job", number, arguments] for number, arguments, _ in jobs)]
    given = "".join(json.dumps(it) + "\n" for it in lines)
    words = [chosen.program, "bank", "--workers", str(WORKERS)]
    ran = subprocess.run(words, input=given, capture_output=True, text=True, check=False)
    if ran.returncode:
        stop(f"{chosen.program} says: {ran.stderr.strip()}")
    history, reported = History(), [line.split() for line in ran.stdout.splitlines()]
    for (_, _, operations), (number, outcome, *answers) in zip(jobs, reported):
        committed = outcome == "committed"
        history.add("ok" if committed else "fail", int(number), as_seen(operations, answers) if committed else [])
    records = dict(reported[len(jobs):])
    reads = [["r", key, digits(records.get(f"{TABLE}/{key}", ""))] for key in range(1, lists.fresh)]
    history.add("ok", len(jobs), reads)
    return history.finish()


if __name__ == "__main__":
    sys.exit(main())
