#!/usr/bin/env python3
"""Compares the reports of `sgt check --model list-append` with the definitions, as `helpers/appends.py` has them.

    tests/clients.py crates/sgt/out/sgt
    tests/clients.py crates/sgt/out/sgt 100000      # draws so many histories

Every order of the transactions is tried: the report has to say yes, and one of these orders, exactly where there is one. Of each no
the witness is tested by what was observed. So are the levels of isolation, by the definitions in `helpers/levels.py`. The last line
counts the cases.
"""

import contextlib
import itertools
import json
import os
import random
import re
import shutil
import subprocess
import sys
import tempfile
import xml.etree.ElementTree as ElementTree
from concurrent.futures import ThreadPoolExecutor

sys.dont_write_bytecode = True
from helpers.anomalies import counted  # noqa: E402
from helpers.appends import (  # noqa: E402
    COMMITTED, Transaction, all_small, drawn, entries_of, keeps_time, lines_of, precedences, serial_orders, shortest_cycle)
from helpers.cases import SECONDS, TESTS, Differs, same, run_cases  # noqa: E402
from helpers.levels import drawn_split, is_committed_run, is_ordered_isolated, is_read_committed, is_read_uncommitted, is_snapshot_isolated, is_snapshot_run, is_write_order, keeps, may_have_no_write_order, may_stay_open  # noqa: E402
from helpers.machines import Postgres  # noqa: E402
from pictures import Drawing  # noqa: E402

CLIENTS = TESTS.parent / "examples" / "clients"
DRAWN = int(sys.argv[2]) if len(sys.argv) > 2 else 3_000


def check(program, given, *options):
    """Status, standard output and standard error."""
    words = [program, "check", "--model", "list-append", *options]
    given = given.encode() if isinstance(given, str) else given
    ran = subprocess.run(words, input=given, capture_output=True, timeout=SECONDS, close_fds=False, check=False)
    return ran.returncode, ran.stdout.decode(), ran.stderr.decode()


# What standard error may say after a report.
NOTES = re.compile(r"(?m)^(?:[0-9]+ committed reads? (?:is|are) null, and|the end in line [0-9]+ has no invocation, and is|[0-9]+ ends have no invocation, the first in line [0-9]+: each is) taken for .*\n")


def notes_on(entries):
    """What standard error says after a report: how many committed reads are null, and how many ends have no invocation among others."""
    nulls = sum(word == "r" and seen is None for it in entries if it["type"] == "ok" for word, _, seen in it["value"])
    alone, running = [], set()
    for line, it in enumerate(entries, 1):
        if it["type"] == "invoke":
            running.add(it["process"])
        elif it["process"] in running:
            running.discard(it["process"])
        else:
            alone.append(line)
    notes = f"{nulls} committed read{' is' if nulls == 1 else 's are'} null, and taken for the empty list\n" * (nulls > 0)
    if len(alone) == 1 and len(entries) > 1:
        notes += f"the end in line {alone[0]} has no invocation, and is taken for a transaction by itself\n"
    elif alone and any(it["type"] == "invoke" for it in entries):
        notes += f"{len(alone)} ends have no invocation, the first in line {alone[0]}: each is taken for a transaction by itself\n"
    return notes


# A report, by the definitions

PLACED = r"t(\d+)(?: \((?:line|entry) \d+\))?"
STEP = re.compile(f"  {PLACED} before {PLACED}: (.*)")
READ = rf"{PLACED} read key (\S+) as \[([0-9 ]*)\]"
UNSEEN = rf"read key (\S+) at the end: it would show the order of (\d+) of {PLACED} and (\d+) of {PLACED}"


class Reported:
    """What a report says of a history, tested by what was observed."""

    def __init__(self, history, spans, strict):
        self.history, self.spans, self.strict = history, spans, strict

    def compare(self, status, text, orders):
        lines = text.splitlines()
        lines = lines[:next(it for it, line in enumerate(lines) if line.startswith("strongest level: "))]
        counts = [sum(it.status == status for it in self.history) for status in ("ok", "fail", "info")]
        same("counts", "transactions {}: {} committed, {} aborted, {} unknown".format(len(self.history), *counts), lines[0])
        head = "strictly serializable" if self.strict else "serializable"
        if orders:
            same("status", 0, status)
            reported = tuple(int(it[1:]) - 1 for it in lines[1].removeprefix(f"{head} yes:").split() if it != "none")
            same("line", f"{head} yes:" + "".join(f" t{it + 1}" for it in reported) + ("" if reported else " none"), lines[1])
            if reported not in orders or len(lines) != 2:
                raise Differs(f"no such order: {text!r}")
            return
        same("status", 1, status)
        if STEP.fullmatch(lines[2]):
            name = self.compare_cycle(lines[2:])
        else:
            same("lines", 3, len(lines))
            name = self.compare_fault(lines[2].strip())
        same("verdict", f"{head} no: {name}", lines[1])

    def compare_cycle(self, lines):
        """Tests its steps, and gives its name."""
        steps = [STEP.fullmatch(it).groups() for it in lines]
        froms, tos = [int(it[0]) - 1 for it in steps], [int(it[1]) - 1 for it in steps]
        same("ends of the steps", froms[1:] + froms[:1], tos)
        for one, other, (_, _, why) in zip(froms, tos, steps):
            if one == other or not self.shows(one, other, why):
                raise Differs(f"t{one + 1} before t{other + 1} does not follow from {why!r}")
        self.compare_reads()
        if not self.strict:
            self.compare_length(len(steps))
        return name_of_cycle([why for _, _, why in steps])

    def compare_length(self, steps):
        """The search for a short cycle promises nothing. Of small histories it finds a shortest one, or one step more."""
        shortest = shortest_cycle(precedences(self.history))
        if not shortest <= steps <= shortest + 1:
            raise Differs(f"{steps} steps, and the shortest cycle has {shortest}")

    def compare_reads(self):
        """A cycle is reported only if, of two reads of a key, one is always a prefix of the other."""
        longest = {}
        for one in self.history:
            for _, key, seen in (it for it in one.operations if it[0] == "r" and one.status == COMMITTED):
                before = longest.get(key, ())
                if before[:len(seen)] != seen[:len(before)]:
                    raise Differs(f"key {key} was read as {before} and as {seen}")
                longest[key] = max(before, seen, key=len)

    def appends(self, transaction, key, value):
        return ("append", int(key), int(value)) in self.history[transaction].operations

    def reads(self, transaction, key, seen):
        one = self.history[transaction]
        return one.status == COMMITTED and ("r", int(key), tuple(map(int, seen.split()))) in one.operations

    def shows(self, one, other, why):
        if why == f"t{one + 1} ended before t{other + 1} began":
            return self.strict and self.spans[one][1] < self.spans[other][0]
        why, waits = re.fullmatch(r"(.*?)(?:, and both append to key (\S+))?", why).groups()
        if waits and not all(it.status != "fail" and any(op[:2] == ("append", int(waits)) for op in it.operations)
                             for it in (self.history[one], self.history[other])):
            return False
        reader, key, seen, rest = re.fullmatch(READ + ", (.*)", why).groups()
        reader, values = int(reader) - 1, list(map(int, seen.split()))
        if not self.reads(reader, key, seen):
            return False
        if reported := re.fullmatch(r"with (\d+), which t(\d+) appended", rest):
            value, by = int(reported[1]), int(reported[2]) - 1
            return reader == other and by == one and value in values and self.appends(one, key, value)
        if reported := re.fullmatch(r"without (\d+), which t(\d+) appended", rest):
            value, by = int(reported[1]), int(reported[2]) - 1
            return reader == one and by == other and value not in values and self.appends(other, key, value)
        if reported := re.fullmatch(r"with (\d+) of t(\d+) and without (\d+) of t(\d+)", rest):
            first, by, second, then = map(int, reported.groups())
            return (by - 1, then - 1) == (one, other) and self.appends(one, key, first) and self.appends(other, key, second) \
                and first in values and second not in values
        first, by, second, then = map(int, re.fullmatch(r"with (\d+) of t(\d+) before (\d+) of t(\d+)", rest).groups())
        return (by - 1, then - 1) == (one, other) and self.appends(one, key, first) and self.appends(other, key, second) \
            and first in values and second in values[values.index(first) + 1:]

    def compare_fault(self, why):
        """Tests what is said of a read, and gives its name."""
        reader, key, seen, rest = re.fullmatch(READ + ", (.*)", why).groups()
        reader, values = int(reader) - 1, list(map(int, seen.split()))
        name = self.name_of_fault(reader, key, values, rest) if self.reads(reader, key, seen) else None
        if name is None:
            raise Differs(f"no fault: {why!r}")
        return name

    def name_of_fault(self, reader, key, values, rest):
        """The name of a fault of a read, or None if there is no such fault."""
        own = [it[2] for it in self.history[reader].operations if it[0] == "append" and it[1] == int(key)]
        if reported := re.fullmatch(r"but no transaction that may have committed appends (\d+)", rest):
            written = any(self.appends(it, key, reported[1]) for it in range(len(self.history)))
            return "unwritten" if int(reported[1]) in values and not written else None
        if reported := re.fullmatch(rf"with (\d+) of {PLACED}, which aborted", rest):
            aborted = self.history[int(reported[2]) - 1].status == "fail" and self.appends(int(reported[2]) - 1, key, reported[1])
            return "G1a" if int(reported[1]) in values and aborted else None
        if reported := re.fullmatch(r"with a value twice: (\d+)", rest):
            return "duplicate-elements" if values.count(int(reported[1])) > 1 else None
        if reported := re.fullmatch(rf"with (\d+), which t{reader + 1} appended only later", rest):
            return "internal" if int(reported[1]) in values and int(reported[1]) in own else None
        if rest == f"which does not end with what t{reader + 1} had appended":
            return "internal" if own else None
        return "incompatible-order" if self.is_other_order(key, values, rest) else None

    def is_other_order(self, key, values, rest):
        """Whether another read saw another order, or the transaction that appended two of the values, of which none is there twice."""
        if reported := re.fullmatch(f"but {READ}", rest):
            other = list(map(int, reported[3].split()))
            return reported[2] == key and self.reads(int(reported[1]) - 1, key, reported[3]) and other[:len(values)] != values[:len(other)]
        reported = re.fullmatch(rf"with (\d+) before (\d+), but {PLACED} appended \2 first", rest)
        later, first, by = int(reported[1]), int(reported[2]), int(reported[3]) - 1
        mine = [it[2] for it in self.history[by].operations if it[0] == "append" and it[1] == int(key)]
        return mine.index(first) < mine.index(later) and values.index(later) < values.index(first) and len(set(values)) == len(values)


def name_of_cycle(reasons):
    """As Adya and Elle name it, by its steps: ww, wr, rw, and real time."""
    missed = [it.split(", without ")[0] for it in reasons if ", without " in it]
    seen = [it.split(", with ")[0] for it in reasons if it.endswith(" appended") and ", with " in it]
    timed = any(" ended before " in it for it in reasons)
    kinds = [", without " in it for it in reasons]
    if len(missed) > 1:
        name = "G2-item" if any(one and other for one, other in zip(kinds, kinds[1:] + kinds[:1])) else "G-nonadjacent"
    elif missed and len(reasons) == 2 and seen == missed:
        name = "G1b"
    elif missed:
        name = "G-single"
    else:
        name = "G1c" if seen else "G0"
    return name + "-realtime" * timed


def compare(program, draw, history, strict):
    entries, spans = entries_of(draw, history)
    orders = set(serial_orders(history))
    if strict:
        orders = {it for it in orders if keeps_time(spans, it)}
    given = lines_of(entries)
    try:
        status, text, errors = check(program, given, *(["--strict"] if strict else []))
        same("standard error", notes_on(entries), errors)
        Reported(history, spans, strict).compare(status, text, orders)
    except (Differs, ValueError, AttributeError) as why:
        raise Differs(f"{why}\n{given}") from None
    return bool(orders)


def compare_each(program, histories, strict):
    draw = random.Random(7)
    with ThreadPoolExecutor(os.cpu_count()) as pool:
        tried = list(pool.map(lambda it: compare(program, random.Random(it[0]), it[1], strict), enumerate(histories)))
    return f"{len(tried):,} histories, {tried.count(False):,} of them not"


# Levels of isolation

LEVELS = ["read-uncommitted", "read-committed", "snapshot-isolation", "serializable", "strict-serializable"]
STATUS = {"yes": 0, "no": 1, "undecided": 3}


def compare_levels(program, draw, history):
    """Each level's answer and evidence by the definitions, with real time or without; and the exit status of one level."""
    entries, spans = entries_of(draw, history)
    entries, owners = in_sessions(draw, entries)
    given, options = lines_of(entries), ["--strict"] * (draw.random() < 0.3)
    level = draw.choice(LEVELS[:4] + LEVELS[4:] * len(options))
    try:
        status, text, errors = check(program, given, "--json", "--level", level, *options)
        same("standard error", "", errors)
        reported = json.loads(text)
        found = {it: reported["levels"][it]["holds"] for it in reported["levels"]}
        same("levels", LEVELS[:4 + len(options)], list(found))
        same("status", STATUS[found[level]], status)
        compare_answers(found, history, spans)
        evidence = Evidence(history, spans, bool(options))
        evidence.compare(reported["levels"])
        evidence.compare_orders(reported, owners)
        evidence.compare_anomalies(reported["anomalies"], found["serializable"] == "yes")
        strongest = [it for it in found if found[it] == "yes"][-1:]
        is_least = "undecided" in [found[it] for it in found if not strongest or LEVELS.index(it) > LEVELS.index(strongest[0])]
        same("strongest", ((strongest or [None])[0], is_least), (reported["strongest"], reported["at_least"]))
        line = f"strongest level: {'at least ' * is_least}{(strongest or ['none'])[0].replace('-', ' ')}"
        lines = check(program, given, *options)[1].splitlines()
        same("report", [line], [it for it in lines if it.startswith("strongest level: ")])
        same("lines of anomalies", [f"anomaly {it['anomaly']}: {it['count']}, the first:" for it in reported["anomalies"]],
             [it for it in lines if it.startswith("anomaly ")])
    except (Differs, ValueError, AttributeError, KeyError) as why:
        raise Differs(f"{why}\n{given}") from None
    return (strongest or ["none"])[0] if "undecided" not in found.values() else "undecided"


def in_sessions(draw, entries):
    """The entries, with processes that go on after an end; and the process of each transaction."""
    running, free, owners, renamed = {}, [], [], []
    for it in entries:
        if it["type"] == "invoke":
            process = free.pop() if free and draw.random() < 0.8 else f"c{len(owners)}"
            running[it["process"]] = process
            owners.append(process)
        else:
            process = running.pop(it["process"])
            free.insert(draw.randrange(len(free) + 1), process)
        renamed.append(it | {"process": process})
    return renamed, owners


def compare_answers(found, history, spans):
    orders = list(serial_orders(history))
    holds = {"serializable": bool(orders), "read-uncommitted": is_read_uncommitted(history), "read-committed": is_read_committed(history), "snapshot-isolation": is_snapshot_isolated(history),
             "strict-serializable": any(keeps_time(spans, it) for it in orders)}
    for level, answer in found.items():
        if (answer, level) == ("undecided", "read-uncommitted"):
            same("read uncommitted may be undecided", True, may_have_no_write_order(history))
        elif answer == "undecided":
            same(f"{level} may be undecided", (True, False, "snapshot-isolation"), (may_stay_open(history), holds["serializable"], level))
        else:
            same(level, "yes" if holds[level] else "no", answer)


class Evidence(Reported):
    """The evidence of each level in the object of JSON, tested by what was observed."""

    def compare(self, levels):
        writes, committed, snapshot = (levels[it] for it in LEVELS[:3])
        if "order" in writes:
            same("a write order", True, is_write_order(self.history, [it - 1 for it in writes["order"]]))
        if "cycle" in writes:
            same("a cycle of writes", set(), {it["because"] for it in writes["cycle"]} - {"in order", "late"})
            self.compare_ties("writes", writes["cycle"])
        if "order" in committed:
            same("a run of committed reads", True, is_committed_run(self.history, [it - 1 for it in committed["order"]]))
        if "order" in snapshot:
            same("a snapshot run", True, is_snapshot_run(self.history, [it - 1 for it in snapshot["order"]], snapshot["starts"]))
        for level, found in (("committed", committed), ("snapshot", snapshot)):
            if "cycle" in found:
                self.compare_ties(level, found["cycle"])
            elif found["holds"] == "undecided":
                self.compare_unseen(found)
            elif "why" in found:
                self.compare_read(found)
            elif found["holds"] == "no":
                same("ruled out by read committed", ("snapshot", "no"), (level, committed["holds"]))

    def compare_ties(self, level, ties):
        kinds = [it["because"] for it in ties]
        same("ends of the ties", [it["from"] for it in ties[1:] + ties[:1]], [it["to"] for it in ties])
        if level == "committed":
            same("kinds", set(), set(kinds) - {"seen", "in order", "late"})
        if any(one == other == "missed" for one, other in zip(kinds, kinds[1:] + kinds[:1])):
            raise Differs(f"two misses are next to one another: {kinds}")
        for it in ties:
            if not self.shows(it["from"] - 1, it["to"] - 1, it["why"]):
                raise Differs(f"t{it['from']} before t{it['to']} does not follow from {it['why']!r}")

    def compare_orders(self, reported, owners):
        """Strong and session snapshot isolation, if real time is kept."""
        names = ["strong-snapshot-isolation", "session-snapshot-isolation"]
        same("orders", names if self.strict else [], [it for it in names if it in reported])
        ended = [(one, other) for one, before in enumerate(self.history) for other in range(len(self.history))
                 if before.status == COMMITTED and self.spans[one][1] < self.spans[other][0]]
        sessions = [(one, other) for one, other in ended if owners[one] == owners[other]]
        for name, before in zip(names, (ended, sessions)) if self.strict else ():
            self.compare_order(name, reported[name], before)

    def compare_order(self, name, found, before):
        if found["holds"] == "undecided":
            same(f"{name} may be undecided", True, may_stay_open(self.history))
        else:
            same(name, "yes" if is_ordered_isolated(self.history, before) else "no", found["holds"])
        if "order" in found:
            order = [it - 1 for it in found["order"]]
            same(f"a run of {name}", (True, True), (is_snapshot_run(self.history, order, found["starts"]), keeps(before, order, found["starts"])))
        if "cycle" in found:
            timed = [(it["from"] - 1, it["to"] - 1) for it in found["cycle"] if it["because"] == "real time"]
            same("steps of time", set(), set(timed) - set(before))
            self.compare_ties("snapshot", found["cycle"])

    def compare_anomalies(self, listed, is_serial):
        same("anomalies", {} if is_serial else counted(self.history), {it["anomaly"]: it["count"] for it in listed})
        for it in listed:
            if "cycle" in it:
                same("a lost update", ("lost-update", 2, {"wait"}), (it["anomaly"], len(it["cycle"]), {tie["because"] for tie in it["cycle"]}))
                self.compare_ties("snapshot", it["cycle"])
            else:
                self.compare_read(it)

    def compare_unseen(self, found):
        """The read that would show the order of two appends that nobody saw."""
        key, *appends = re.fullmatch(UNSEEN, found["why"]).groups()
        values, transactions = list(map(int, appends[::2])), [int(it) - 1 for it in appends[1::2]]
        seen = {value for one in self.history for it in one.effective() if it[0] == "r" and it[1] == int(key) for value in it[2]}
        same("two appends that nobody saw", (True, True, False, set()), (
            *(self.appends(one, key, value) for one, value in zip(transactions, values)), transactions[0] == transactions[1], seen & set(values)))

    def compare_read(self, found):
        reader, key, seen, rest = re.fullmatch(READ + ", (.*)", found["why"]).groups()
        values = list(map(int, seen.split()))
        same("reader", found["reader"], int(reader))
        if part := re.fullmatch(rf"with (\d+) and without (\d+), both of {PLACED}", rest):
            there, missed, by = int(part[1]), int(part[2]), int(part[3]) - 1
            same("a partial read", ("G1b", True), (found["anomaly"], self.reads(int(reader) - 1, key, seen) and there in values
                 and missed not in values and self.appends(by, key, there) and self.appends(by, key, missed) and by != int(reader) - 1))
        else:
            same("name", self.compare_fault(found["why"]), found["anomaly"])


def compare_all_levels(program, histories):
    with ThreadPoolExecutor(os.cpu_count()) as pool:
        reported = list(pool.map(lambda it: compare_levels(program, random.Random(it[0]), it[1]), enumerate(histories)))
    return f"{len(reported):,} histories: " + ", ".join(f"{reported.count(it):,} {it}" for it in [*LEVELS[::-1], "none", "undecided"])


# Cases


def levels_of_all_small_histories(program):
    return compare_all_levels(program, itertools.chain(all_small(2, 2), all_small(3, 1)))


def levels_of_drawn_histories(program):
    draw = random.Random(73)
    return compare_all_levels(program, (draw.choice([drawn, drawn_split, drawn_split])(draw) for _ in range(DRAWN)))


def on_all_small_histories(program):
    return compare_each(program, itertools.chain(all_small(2, 2), all_small(3, 1)), False)


def on_drawn_histories(program):
    draw = random.Random(58)
    return compare_each(program, (drawn(draw) for _ in range(DRAWN)), False)


def on_drawn_histories_strictly(program):
    draw = random.Random(59)
    return compare_each(program, (drawn(draw) for _ in range(DRAWN)), True)


def one(status, *operations):
    return Transaction(status, [tuple(it) for it in operations])


A, R = "append", "r"

# Histories by the name of their anomaly, as Adya and Elle name it.
NAMED = {
    "G0": [one("ok", (A, 1, 1), (A, 2, 1)), one("ok", (A, 1, 2), (A, 2, 2)), one("ok", (R, 1, (1, 2))), one("ok", (R, 2, (2, 1)))],
    "G1a": [one("fail", (A, 1, 1)), one("ok", (R, 1, (1,)))],
    "G1b": [one("ok", (A, 1, 1), (A, 1, 2)), one("ok", (R, 1, (1,)))],
    "G1c": [one("ok", (A, 1, 1), (R, 2, (2,))), one("ok", (A, 2, 2), (R, 1, (1,)))],
    "G-single": [one("ok", (A, 1, 1), (A, 2, 2)), one("ok", (R, 1, (1,)), (R, 2, ()))],
    "G2-item": [one("ok", (R, 1, ()), (A, 2, 1)), one("ok", (R, 2, ()), (A, 1, 1))],
    "G-nonadjacent": [one("ok", (A, 1, 1)), one("ok", (A, 2, 1)), one("ok", (R, 1, (1,)), (R, 2, ())), one("ok", (R, 1, ()), (R, 2, (1,)))],
    "incompatible-order": [one("ok", (A, 1, 1), (A, 1, 2)), one("ok", (R, 1, (2, 1)))],
    "internal": [one("ok", (A, 1, 1), (R, 1, ()))],
    "unwritten": [one("ok", (R, 1, (5,)))],
    "duplicate-elements": [one("ok", (A, 1, 1)), one("ok", (R, 1, (1, 1)))],
}

# The lines of a witness that names its operations in another way than the histories above.
WITNESSES = [
    ([one("fail", (A, 1, 3)), one("ok", (R, 1, (3,)))], "G1a", "t2 (line 4) read key 1 as [3], with 3 of t1 (line 2), which aborted"),
    ([one("ok", (A, 1, 3), (A, 1, 4)), one("ok", (R, 1, (3, 4, 3)))], "duplicate-elements",
     "t2 (line 4) read key 1 as [3 4 3], with a value twice: 3"),
    ([one("ok", (A, 1, 1)), one("ok", (A, 1, 2)), one("ok", (R, 1, (1, 2))), one("ok", (R, 1, (2,)))], "incompatible-order",
     "t4 (line 8) read key 1 as [2], but t3 (line 6) read key 1 as [1 2]"),
]


SKEW = [one("ok", (R, 8, ()), (A, 9, 1)), one("ok", (R, 9, ()), (A, 8, 1))]

# Histories by their strongest level, with the line on the next level, unless the verdict says it. `at least`: that one is undecided.
STRONGEST = [
    ("serializable", None, [one("ok", (A, 1, 1)), one("ok", (R, 1, (1,)))]),
    ("snapshot isolation", None, NAMED["G2-item"]),
    ("read committed", "not snapshot isolation: lost-update",
     [one("ok", (R, 1, ()), (A, 1, 1)), one("ok", (R, 1, ()), (A, 1, 2)), one("ok", (R, 1, (1, 2)))]),
    ("read committed", "not snapshot isolation: lost-update", [one("ok", (R, 1, ()), (A, 1, 1)), one("ok", (R, 1, ()), (A, 1, 2))]),
    ("read committed", "not snapshot isolation: by the lines above", NAMED["G-single"]),
    ("read committed", "not snapshot isolation: by the lines above", NAMED["G-nonadjacent"]),
    ("none", "not read uncommitted: G0", NAMED["G0"]),
    ("read uncommitted", "not read committed: by the lines above", NAMED["G1a"]),
    ("read uncommitted", "not read committed: G1b", NAMED["G1b"]),
    ("read uncommitted", "not read committed: by the lines above", NAMED["G1c"]),
    ("read uncommitted", "not read committed: by the lines above", NAMED["internal"]),
    ("at least none", "read uncommitted undecided", NAMED["incompatible-order"]),
    ("at least read committed", "snapshot isolation undecided: no read saw which of two appends to a key came first",
     [one("ok", (A, 1, 1), (A, 2, 2)), one("ok", (R, 2, ()), (A, 1, 3)), *SKEW]),
]


def names_the_strongest_level(program):
    for strongest, broken, history in STRONGEST:
        lines = check(program, in_turn(history))[1].splitlines()
        place = lines.index(f"strongest level: {strongest}")
        same(f"after {strongest}", broken, (lines[place + 1:] or [None])[0])
        reported = json.loads(check(program, in_turn(history), "--json")[1])
        name = (reported["strongest"] or "none").replace("-", " ")
        same(f"{strongest} in JSON", strongest, "at least " * reported["at_least"] + name)
    stale = in_turn([one("ok", (A, 1, 1)), one("ok", (R, 1, (1,))), one("ok", (R, 1, ()))])
    lines = check(program, stale, "--strict")[1].splitlines()
    place = lines.index("strongest level: serializable")
    same("stale read", ["strong snapshot isolation no: by the lines above", "session snapshot isolation yes"], lines[place + 1:])
    skew = at_once(SKEW).replace('"process": ', '"process": 1')
    for given, broken in ((skew + stale, ["not serializable: by the lines above"]), (stale + skew, ["not serializable: G2-item", *("  t",) * 2])):
        lines = check(program, given, "--strict")[1].splitlines()
        place = lines.index("strongest level: snapshot isolation")
        wanted = [*broken, "strong snapshot isolation no:", *("  t",) * 2, "session snapshot isolation yes"]
        same("stale read and write skew", wanted, ["  t" if it.startswith("  t") else it for it in lines[place + 1:]])
    fresh = in_turn([one("ok", (A, 1, 1)), one("ok", (R, 1, (1,)))])
    same("strict", (0, ["strongest level: strict serializable", "strong snapshot isolation yes", "session snapshot isolation yes"]),
         (lambda ran: (ran[0], ran[1].splitlines()[-3:]))(check(program, fresh, "--level", "strict-serializable")))
    ran = subprocess.run([program, "check", "--level", "serializable"], input=b"", capture_output=True, timeout=SECONDS, check=False)
    same("without the model", (2, b"", True), (ran.returncode, ran.stdout, b"--model list-append" in ran.stderr))


def names_the_read_that_decides(program):
    """Two appends that nobody saw: the report names the read that would decide, and with that read it has an answer."""
    unseen = [one("ok", (A, 1, 1), (A, 2, 2)), one("ok", (R, 2, ()), (A, 1, 3)), *SKEW]
    status, text, _ = check(program, in_turn(unseen), "--level", "snapshot-isolation")
    same("undecided", (3, ["strongest level: at least read committed",
                           "snapshot isolation undecided: no read saw which of two appends to a key came first",
                           "  read key 1 at the end: it would show the order of 1 of t1 (line 2) and 3 of t2 (line 4)"]),
         (status, text.splitlines()[-3:]))
    for seen, answer in (((3, 1), 0), ((1, 3), 1)):
        same(f"with {seen}", answer, check(program, in_turn([*unseen, one("ok", (R, 1, seen))]), "--level", "snapshot-isolation")[0])


def keeps_the_order_of_begins(program):
    """One write skew, and transactions one after another, of which few appends were ever seen."""
    draw, lists, history = random.Random(3), {}, list(SKEW)
    for value in range(1, 400):
        key = draw.randrange(40)
        read = draw.randrange(40, 60) if draw.random() < 0.2 else 60 + draw.randrange(40)
        history.append(one("ok", (R, read, tuple(lists.get(read, ()))), (A, key, value), (A, 20 + key, value)))
        for it in (key, 20 + key):
            lists[it] = [*lists.get(it, ()), value]
    same("status", 0, check(program, in_turn(history), "--level", "snapshot-isolation")[0])


def shortens_a_long_order(program):
    """Of more than 100 transactions the line of a yes has the first 100, and the object of JSON all."""
    for count in (1, 99, 100, 101, 5_000):
        given = in_turn([one("ok", (A, it, 1)) for it in range(count)])
        order = json.loads(check(program, given, "--json")[1])["order"]
        same(f"transactions of {count}", list(range(1, count + 1)), sorted(order))
        shown = " ".join(f"t{it}" for it in order[:100]) + f" .. of {count} (--json has the order)" * (count > 100)
        same(f"line of {count}", f"serializable yes: {shown}", check(program, given)[1].splitlines()[1])


def draws_the_level(program):
    """The picture is of the level that is asked: the cycle that breaks it, or an order. It says how many operations it leaves out."""
    update = [one("ok", (R, 1, ()), (A, 1, 1)), one("ok", (R, 1, ()), (A, 1, 2)), one("ok", (R, 1, (1, 2)))]
    given = in_turn([*SKEW, *update])
    marks = {}
    for level in LEVELS[1:4]:
        drawing = Drawing(check(program, given, "--timeline", "--level", level)[1])
        marks[level] = {int(re.match(r"[a-z]+(\d+)", it.title)[1]) for it in drawing.marks}
        drawn_ones = re.search(r"drawn: (\d+) of (\d+) operations", drawing.description)
        same(f"operations of {level}", (len(drawing.marks), 14) if len(drawing.marks) < 14 else None,
             tuple(map(int, drawn_ones.groups())) if drawn_ones else None)
    same("snapshot isolation", True, {3, 4} <= marks["snapshot-isolation"] <= {3, 4, 5})
    same("read committed", {1, 2, 3, 4, 5}, marks["read-committed"])
    skew = Drawing(check(program, in_turn(SKEW), "--timeline", "--level", "snapshot-isolation")[1])
    same("an order", (6, False), (len(skew.marks), "drawn:" in skew.description))
    long = in_turn([one("ok", (A, it, 1)) for it in range(1_000)])
    drawing = Drawing(check(program, long, "--timeline")[1])
    same("a long order", True, f"drawn: {len(drawing.marks)} of 2000 operations" in drawing.description)


def names_anomalies(program):
    for name, history in NAMED.items():
        entries, spans = entries_of(random.Random(1), history)
        status, text, _ = check(program, lines_of(entries))
        Reported(history, spans, False).compare(status, text, set(serial_orders(history)))
        same("verdict", f"serializable no: {name}", text.splitlines()[1])
        reported = json.loads(check(program, lines_of(entries), "--json")[1])
        same("name", (False, name), (reported["serializable"], reported["anomaly"]))


def in_turn(history):
    """Each transaction ends before the next begins."""
    entries = []
    for process, it in enumerate(history):
        entries.append({"type": "invoke", "process": process, "f": "txn", "value": it.operations})
        entries.append({"type": it.status, "process": process, "f": "txn", "value": it.operations})
    return lines_of(entries)


def at_once(history):
    """Each transaction begins before the first one ends."""
    entries = [{"process": process, "f": "txn", "value": it.operations} for process, it in enumerate(history)]
    return lines_of([it | {"type": "invoke"} for it in entries] + [it | {"type": one.status} for it, one in zip(entries, history)])


def names_the_operations(program):
    for history, name, line in WITNESSES:
        _, text, _ = check(program, in_turn(history))
        same("witness", [f"serializable no: {name}", f"  {line}"], text.splitlines()[1:3])
    stale = [one("ok", (A, 1, 1)), one("ok", (R, 1, (1,))), one("ok", (R, 1, ()))]
    same("stale read", "strictly serializable no: G-single-realtime", check(program, in_turn(stale), "--strict")[1].splitlines()[1])


def shows_values_of_a_long_read(program):
    """Of 30 values the last 16, and before them those of the step: of two steps, since 29 along key 1 are one."""
    values = tuple(range(1, 31))
    history = [one("ok", (A, 1, 1), (A, 2, 1)), *(one("ok", (A, 1, it)) for it in values[1:]), one("ok", (R, 1, values), (R, 2, ()))]
    status, text, _ = check(program, in_turn(history))
    lines = text.splitlines()
    same("status and steps", (1, 4), (status, next(it for it, line in enumerate(lines) if line.startswith("strongest level: "))))
    steps = [it for it in lines if "read key 1 as" in it]
    shown = [re.search(r"\[(.*)\], with (\d+)(?: of t\d+ before (\d+))?", it).groups() for it in steps]
    for listed, *spoken in shown:
        spoken = sorted({int(it) for it in spoken if it})
        wanted = ".." + "".join(f" {it} .." for it in spoken if it <= 14) + "".join(f" {it}" for it in values[14:])
        same("values", wanted, listed)
    return f"{len(steps)} steps"


def shows_where_two_long_reads_part(program):
    """Of two reads of 40 values the last 16, and before them the two at which they differ first."""
    values = list(range(1, 41))
    for place in range(39):
        other = [*values[:place], values[place + 1], values[place], *values[place + 2:]]
        history = [*(one("ok", (A, 1, it)) for it in values), one("ok", (R, 1, tuple(values))), one("ok", (R, 1, tuple(other)))]
        line = check(program, in_turn(history))[1].splitlines()[2]
        shown = re.fullmatch(r"  t42 \(line 84\) read key 1 as \[(.*)\], but t41 \(line 82\) read key 1 as \[(.*)\]", line).groups()
        for listed, seen in zip(shown, (other, values)):
            early = [it for it in seen[:24] if it in values[place:place + 2]]
            same(f"values that part at {place}", ".." + "".join(f" {it} .." for it in early) + "".join(f" {it}" for it in seen[24:]), listed)


def reads_each_form(program):
    """One object a line, one array, objects over several lines, with and without white space: one report."""
    history = NAMED["G2-item"]
    entries, _ = entries_of(random.Random(1), history)
    by_line = check(program, lines_of(entries))
    by_entry = by_line[0], by_line[1].replace("(line ", "(entry "), by_line[2]
    same("compact array", by_entry, check(program, json.dumps(entries, separators=(",", ":"))))
    same("array", by_entry, check(program, json.dumps(entries, indent=2)))
    same("indented", by_entry, check(program, "\n\n".join(json.dumps(it, indent=1) for it in entries)))
    same("one array of lines", by_line, check(program, "[" + ",\n".join(map(json.dumps, entries)) + "]\n"))
    same("no newline", by_line, check(program, lines_of(entries).rstrip()))
    same("no keys of text", by_line, check(program, lines_of(entries).replace('"r", 1', '"r", "1"')))


def edn(it):
    """The data of JSON in EDN. The words of Jepsen, and names without spaces, are keywords."""
    if isinstance(it, dict):
        return "{" + ", ".join(f":{key} {edn(value)}" for key, value in it.items()) + "}"
    if isinstance(it, (list, tuple)):
        return "[" + " ".join(map(edn, it)) + "]"
    if isinstance(it, str):
        return f":{it}" if re.fullmatch("[a-z][a-z0-9-]*", it) else json.dumps(it)
    return "nil" if it is None else str(it).lower()


# What may stand in a map of EDN beside the members that are read.
BESIDE = [
    ":index 5, :time 3291485317", ':error [:timeout "a \\"b\\" {"]', ":x {:a {1 2} [3] #{4 5}, :b ()}", ":c \\{, :d \\newline", ":r 22/7 :n ##NaN :f1 -1.5e3M",
    ":when #inst \"2026-11-28\" :at [clojure.core$f invoke \"core.clj\" 12]", ":e [[] {} #{} ()]", ":b true, ; a comment }\n :m nil",
]


def edn_line(draw, entry):
    """The entry on a line, perhaps with a tag and with members that are not read."""
    text = edn(entry)
    if draw.random() < 0.5:
        beside = draw.choice([it for it in BESIDE if "\n" not in it])
        text = "{" + draw.choice([beside + ", " + text[1:-1], text[1:-1] + " " + beside]) + "}"
    return draw.choice(["", "#jepsen.history.Op"]) + text


def reads_edn(program):
    """A history in EDN and the same one in JSON have the same report, of each form."""
    draw = random.Random(73)
    for number in range(400):
        entries, _ = entries_of(draw, drawn(draw))
        if number % 10 == 0:
            entries.insert(draw.randrange(len(entries) + 1), {"type": "info", "process": "nemesis", "f": "start", "value": None})
        options = draw.choice([(), ("--json",), ("--graph",), ("--timeline",)])
        wanted = check(program, lines_of(entries), *options)
        text = "".join(edn_line(draw, it) + "\n" for it in entries)
        same(f"{text!r}", wanted, check(program, text, *options))
    by_entry = check(program, json.dumps(entries))
    for text in ("[" + "\n,".join(map(edn, entries)) + "]", "; a history\n(" + " ".join(map(edn, entries)) + ")",
                 " ".join(edn(it)[:-1] + draw.choice(BESIDE) + "}" for it in entries)):
        same(f"{text!r}", (by_entry[0], re.sub("line|entry", "", by_entry[1])),
             (lambda ran: (ran[0], re.sub("line|entry", "", ran[1])))(check(program, text)))
    for path in sorted(CLIENTS.glob("*.json")):
        text = "".join(edn(json.loads(it)) + "\n" for it in path.read_text().splitlines() if it.strip(" ,[]"))
        same(f"{path.name} in EDN", check(program, path.read_bytes()), check(program, text))


def notices_a_wrong_bracket_in_edn(program):
    """One bracket that is missing or of another kind is an error, wherever it stands: no entry is lost."""
    draw, others = random.Random(74), {"[": "{", "]": "}", "{": "[", "}": "]"}
    for _ in range(100):
        entries, _ = entries_of(draw, drawn(draw))
        text = "".join(edn({**it, "error": [{"a": [1]}, []]}) + "\n" for it in entries)
        at = draw.choice([at for at, byte in enumerate(text) if byte in others])
        for other in ("", others[text[at]], text[at] * 2):
            changed = text[:at] + other + text[at + 1 :]
            status, report, _ = check(program, changed)
            same(f"{changed!r}", (2, ""), (status, report))


def takes_null_for_the_empty_list(program):
    """A write skew stays one if the reads saw null."""
    entries, _ = entries_of(random.Random(1), NAMED["G2-item"])
    wanted = check(program, lines_of(entries).replace("null", "[]"))
    same("verdict", "serializable no: G2-item", wanted[1].splitlines()[1])
    given = lines_of(entries).replace("[]", "null")
    same("null", (*wanted[:2], notes_on([json.loads(line) for line in given.splitlines()])), check(program, given))


def takes_processes_of_any_name(program):
    """A number stands for its text, and each text for itself."""
    entries, _ = entries_of(random.Random(2), NAMED["G1c"])
    wanted = check(program, lines_of(entries))
    for name in ("{}", "c{}", "client {}", "\u00e9{}", "{}" * 100):
        renamed = [it | {"process": name.format(*[it["process"]] * 100)} for it in entries]
        same(f"process {name}", wanted, check(program, lines_of(renamed)))
    began = entries[0] | {"process": 7}
    reported = "line 2, entry 2: process 7 has invoked another transaction, line 1, entry 1, and has not ended it\n" + RESTART + "\n"
    same("7 and its text", (2, "", reported), check(program, lines_of([began, began | {"process": "7"}])))


def takes_keys_of_any_name(program):
    """Numbers of 15 digits with a sign, and texts, which are strings or keywords in EDN: the same report, with these names."""
    entries, _ = entries_of(random.Random(1), NAMED["G2-item"])
    wanted = check(program, lines_of(entries))
    names = [(999_999_999_999_999, 123_456_789_012_345), ("users/1", "a-1.b:c_D"), ("x" * 64, "0"), ("007", 7),
             (-999_999_999_999_999, -1), ("-7", 0)]
    for first, second in names:
        name = {1: first, 2: second}
        renamed = [it | {"value": [[word, name[key], what] for word, key, what in it["value"]]} if it["value"] else it for it in entries]
        report = re.sub(r"key (\d)", lambda it: f"key {name[int(it[1])]}", wanted[1])
        same(f"keys {name}", (1, report, wanted[2]), check(program, lines_of(renamed)))
        same(f"keys {name} in EDN", (1, report, wanted[2]), check(program, "".join(edn(it) + "\n" for it in renamed)))


def takes_values_with_a_sign(program):
    """Whole numbers of 15 digits with a sign: the same report, with these values."""
    for history in (NAMED["G1b"], NAMED["duplicate-elements"], NAMED["unwritten"], NAMED["incompatible-order"], STRONGEST[2][2]):
        entries, _ = entries_of(random.Random(1), [with_values(one, lambda value: 7_770 + value) for one in history])
        wanted = check(program, lines_of(entries))
        for most in (-7, 4_294_967_296, 999_999_999_999_990, -999_999_999_999_999):
            renamed, _ = entries_of(random.Random(1), [with_values(one, lambda value, most=most: most + value) for one in history])
            report = re.sub(r"\b777(\d)\b", lambda it, most=most: str(most + int(it[1])), wanted[1])
            same(f"values from {most}", (1, report, wanted[2]), check(program, lines_of(renamed)))
            same(f"values from {most} in EDN", (1, report, wanted[2]), check(program, "".join(edn(it) + "\n" for it in renamed)))
    for value in ("-1000000000000000", "-1.0", '"-1"', "1e2", "-0.0"):
        same(f"value {value}", 2, check(program, '{"type":"ok","process":1,"value":[["append",1,' + value + "]]}")[0])


def with_values(transaction, value):
    """The transaction with other values."""
    return Transaction(transaction.status, [
        (word, key, value(what) if word == "append" else tuple(map(value, what))) for word, key, what in transaction.operations])


def skips_what_is_no_transaction(program):
    """It is counted; alone it is nothing to judge."""
    nemesis = '{"type":"info","process":"nemesis","f":"start-partition","value":"majority"}\n'
    other = '{"f":5}\n'
    entries, _ = entries_of(random.Random(1), NAMED["G2-item"])
    status, text, errors = check(program, "".join(lines_of([it]) for it in entries))
    for given, reported in ((nemesis, "1 entry skipped: no transaction"), (nemesis + other, "2 entries skipped: no transactions")):
        lines = text.splitlines()
        wanted = "\n".join([lines[0], reported, *lines[1:]]) + "\n"
        same("report", (status, wanted, errors), check(program, lines_of(entries) + given))
        reported = json.loads(check(program, lines_of(entries) + given, "--json")[1])
        same("skipped", given.count("\n"), reported["skipped"])
        alone = f"no operations; entries skipped, since they are of no transaction: {given.count(chr(10))}\n"
        alone += 'an entry of a transaction has "f":"txn", or no f\n'
        same("alone", (2, "", alone), check(program, given))
    same("none", False, "skipped" in json.loads(check(program, lines_of(entries), "--json")[1]))
    entries[0].pop("f")
    same("no function", (status, text, errors), check(program, lines_of(entries)))


def refuses_nothing(program):
    for given in ("", "\n", "[]\n"):
        for options in ([], ["--strict"], ["--json"], ["--graph"], ["--timeline"]):
            same(f"fault of {given!r}", (2, "", f"no operations\n{AN_ENTRY}\n"), check(program, given, *options))


def refuses_an_end_of_other_operations(program):
    """Of drawn histories one end has another key, value, word, or count of operations."""
    draw, count = random.Random(60), 0
    for _ in range(300):
        entries, _ = entries_of(draw, drawn(draw))
        places = [it for it, entry in enumerate(entries) if entry["type"] == "ok"]
        if not places:
            continue
        place = draw.choice(places)
        began = next(it for it in range(place, -1, -1) if entries[it]["process"] == entries[place]["process"] and it < place)
        value = entries[place]["value"] = [list(it) for it in entries[place]["value"]]
        spoil_operations(draw, value)
        reported = f"the operations are not those of the invocation, line {began + 1}, entry {began + 1}"
        reported += f"\n{SAME_OPERATIONS}"
        same("fault", (2, "", f"line {place + 1}, entry {place + 1}: {reported}\n"), check(program, lines_of(entries)))
        count += 1
    return f"{count} histories"


def spoil_operations(draw, value):
    operation, way = draw.choice(value), draw.randrange(4)
    if way == 0:
        value.remove(operation)
    elif way == 1:
        value.insert(draw.randint(0, len(value)), ["r", 99, []])
    elif way == 2:
        operation[1] += 50
    else:
        operation[:] = ["r", operation[1], []] if operation[0] == "append" else ["append", operation[1], 77]


def keeps_time_only_with_invocations(program):
    """Real time needs the invocation of each transaction: an end without one is an error, whatever end it is."""
    reported = "no invocations: without them it is unknown when transactions began, which --strict needs\n"
    same("ends alone", (2, "", reported), check(program, GOOD, "--strict"))
    began = '{"type":"invoke","process":"c","f":"txn","value":[["r",1,null]]}\n'
    lacks = "no invocation: without it it is unknown when the transaction began, which --strict needs\n"
    for end in ("ok", "fail", "info"):
        alone = GOOD.replace("ok", end)
        same(f"{end} before", (2, "", f"line 1, entry 1: {lacks}"), check(program, alone + began, "--strict"))
        same(f"{end} after", (2, "", f"line 2, entry 2: {lacks}"), check(program, began + alone, "--level", "strict-serializable"))
        same(f"{end} in EDN", (2, "", f"line 1, entry 1: {lacks}"), check(program, EDN.replace("ok", end) + edn(json.loads(began)), "--strict"))
        same(f"{end} without time", 0, check(program, began + alone)[0])
        same(f"{end} with its invocation", 0, check(program, GOOD.replace("ok", "invoke") + alone + began, "--strict")[0])


def says_that_an_end_ends_nothing(program):
    """An end of a process without an open invocation appends again what the invocation of another one appends, or an end before it."""
    began, other = GOOD.replace("ok", "invoke"), GOOD.replace('"process":0', '"process":"other"')
    reported = "line {} appends 1 to key 1 a second time, after line {}: it ends no invocation of its process\n"
    same("another process", (2, "", reported.format(2, 1)), check(program, began + other))
    same("one more end", (2, "", reported.format(3, 2)), check(program, began + GOOD + GOOD))
    for end in ("fail", "info"):
        same(f"one more {end}", (2, "", reported.format(3, 2)), check(program, began + GOOD + GOOD.replace("ok", end)))
    twice = f"line 3 appends 1 to key 1 a second time, after line 2\n{APPENDED_ONCE}\n"
    same("two invocations", (2, "", twice), check(program, began + GOOD + began))


def says_that_an_end_comes_too_early(program):
    """An end of a process whose next entry is the invoke of the same append."""
    began = GOOD.replace("ok", "invoke")
    twice = "line 2 appends 1 to key 1 a second time, after line 1\n"
    early = "the first of them is an end without an invocation, and the second one the invoke of its process: an invoke stands before its end\n"
    for end in ("ok", "fail", "info"):
        same(f"{end} before its invoke", (2, "", twice + early), check(program, GOOD.replace("ok", end) + began))
    same("of another process", (2, "", f"{twice}{APPENDED_ONCE}\n"), check(program, GOOD + began.replace('"process":0', '"process":1')))
    same("two ends", (2, "", f"{twice}{APPENDED_ONCE}\n"), check(program, GOOD + GOOD))


def says_what_it_takes_for_something_else(program):
    """On standard error after a report: committed reads of null, and ends without an invocation among others."""
    read = '{"type":"%s","process":%d,"f":"txn","value":[["r",1,%s],["r",2,%s]]}\n'
    nulls, alone = "committed reads are null, and taken for the empty list", "taken for a transaction by itself"
    began = GOOD.replace("ok", "invoke")
    for given, reported in (
        (read % ("ok", 0, "null", "null"), f"2 {nulls}\n"),
        (read % ("ok", 0, "[]", "null"), f"1 committed read is null, and taken for the empty list\n"),
        (read % ("ok", 0, "[]", "[]"), ""),
        (read % ("invoke", 0, "null", "null") + read % ("ok", 0, "[]", "[]"), ""),
        (read % ("fail", 0, "null", "null"), ""),
        (read % ("info", 0, "null", "null"), ""),
        (began + GOOD + read % ("ok", 0, "[1]", "[]"), f"the end in line 3 has no invocation, and is {alone}\n"),
        (read % ("ok", 1, "[]", "null") + began + read % ("info", 2, "null", "null") + read % ("fail", 2, "null", "null"),
         f"1 committed read is null, and taken for the empty list\n3 ends have no invocation, the first in line 1: each is {alone}\n"),
    ):
        for text in (given, "".join(edn(json.loads(line)) + "\n" for line in given.splitlines())):
            same(f"{text!r}", (0, reported), check(program, text)[::2])
            for option in ("--json", "--graph", "--timeline"):
                same(f"{text!r} {option}", (0, ""), check(program, text, option)[::2])


def names_the_entry_that_is_glued(program):
    """A line that is cut anywhere inside of its value, and goes on with the next one: the column of the next one."""
    entries, _ = entries_of(random.Random(1), NAMED["G2-item"])
    count = 0
    for lines in (lines_of(entries).splitlines(), [edn(it) for it in entries]):
        for place in (0, len(lines) - 2):
            for cut in range(20, len(lines[place])):
                if re.search(r" (n|nu|nul)$", lines[place][:cut]):
                    continue  # The word is wrong before the next entry begins.
                given = "\n".join([*lines[:place], lines[place][:cut] + lines[place + 1], *lines[place + 2:]])
                status, text, errors = check(program, given)
                where, *hint = errors.splitlines()
                same(f"a cut after {lines[place][:cut]!r}", (2, "", True), (status, text, where.startswith(f"line {place + 1}, entry {place + 1}: no JSON from column ")))
                same(f"hint of a cut after {lines[place][:cut]!r}", [f"another entry begins in column {cut + 1}, inside entry {place + 1}: was the line cut off before it?"], hint)
                count += 1
    return f"{count} lines"


def draws_what_the_lines_above_say(program):
    """The picture of a level that the lines above break: their cycle, and no other one."""
    given = "".join(f'{{"type":"ok","process":{number},"f":"txn","value":{value}}}\n' for number, value in
                    enumerate(('[["append","x",1]]', '[["append","x",2]]', '[["r","x",[]],["r","x",[1,2]]]')))
    status, text, _ = check(program, given, "--timeline", "--level", "snapshot-isolation")
    same("status", 1, status)
    if "not snapshot isolation: by the lines above" not in text:
        raise Differs(f"the report is another one: {text}")
    same("the transactions", {"1", "3"}, set(re.findall(r"[rwca](\d+)", " ".join(it.title for it in Drawing(text).marks))))


def says_what_is_left_out_of_an_order(program):
    """Aborted transactions, or those after the first ones of a long order."""
    one = '{"type":"%s","process":%d,"f":"txn","value":[%s]}\n'
    given = one % ("ok", 0, '["append","x",1]') + one % ("fail", 1, '["append","x",2]') + one % ("ok", 2, '["r","x",[1]]')
    for text, said in ((given, "drawn: 4 of 6 operations: those of the order, which has no aborted transactions"),
                       ("".join(one % ("ok", it, f'["append",{it},1]') for it in range(300)), "drawn: 400 of 600 operations: those of the first transactions of the order")):
        if said not in check(program, text, "--timeline")[1]:
            raise Differs(f"not said: {said}")


def answers_without_time_if_asked(program):
    """With --strict the status of --level serializable is that of serializable alone: the report has both."""
    stale = in_turn([one("ok", (A, 1, 1)), one("ok", (R, 1, (1,))), one("ok", (R, 1, ()))])
    for level, wanted in (((), 1), (("--level", "strict-serializable"), 1), (("--level", "serializable"), 0), (("--level", "snapshot-isolation"), 0)):
        status, text, _ = check(program, stale, "--strict", *level)
        same(f"status of {level}", (wanted, "strictly serializable no: G-single-realtime", True),
             (status, text.splitlines()[1], "strongest level: serializable" in text.splitlines()))
    skew = in_turn(SKEW)
    for level in LEVELS[3:]:
        same(f"status of {level}", 1, check(program, skew, "--strict", "--level", level)[0])


def keeps_time_in_little_memory(program):
    """The most memory of a check with --strict is at most one and a half times that of one without."""
    with tempfile.TemporaryFile("w+") as file:
        for number in range(80_000):
            key, count = divmod(number, 8)
            for kind, seen in (("invoke", None), ("ok", list(range(count)))):
                value = [["r", key, seen], ["append", key, count], ["append", -1 - number, 1]]
                file.write(lines_of([{"type": kind, "process": number % 16, "f": "txn", "value": value}]))
        file.flush()
        plain, strict = (most_memory(program, file, options) for options in ((), ("--strict",)))
    same(f"at most one and a half times {plain} KiB", True, strict <= 1.5 * plain)
    return f"{plain // 1024} MiB, {strict // 1024} MiB with --strict"


# Runs a program, and writes its status and the most memory that it had, in KiB. A process counts what the one had that started it.
MEASURED = """
import os, sys
_, status, used = os.wait4(os.posix_spawn(sys.argv[1], sys.argv[1:], os.environ), 0)
print(os.waitstatus_to_exitcode(status), used.ru_maxrss, file=sys.stderr)
"""


def most_memory(program, file, options):
    """The most memory of a check of the file, in KiB."""
    file.seek(0)
    words = [sys.executable, "-c", MEASURED, program, "check", "--model", "list-append", *options]
    ran = subprocess.run(words, stdin=file, stdout=subprocess.DEVNULL, stderr=subprocess.PIPE, timeout=SECONDS, check=False)
    status, most = ran.stderr.split()
    same("status", b"0", status)
    return int(most)


BEGUN = '{"type":"invoke","process":1,"value":[]}\n'
OTHER = '{"type":"invoke","process":2,"value":[]}'
GOOD = '{"type":"ok","process":0,"f":"txn","value":[["append",1,1]]}\n'

# What a second line says of an input without entries, and of an entry of another form.
AN_ENTRY = 'an entry is an object, and its value a list of operations, as {"type":"ok","process":0,"value":[["append",1,2],["r",1,[2]]]}'
SAME_OPERATIONS = "an end has the operations of its invoke, in their order, and in place of null what the reads saw"
APPENDED_ONCE = "each append to a key has a value of its own, as from a counter: else a read does not say which one it saw"
EDN_ENTRY = "an entry is a map, and its value a vector of operations, as {:type :ok, :process 0, :value [[:append 1 2] [:r 1 [2]]]}"
NO_OPERATION = 'is not ["append",key,value] or ["r",key,values]'
NOT_LISTED = "the value is not a list of operations"
IS_JSON = "this entry is JSON, and the first one is EDN: an input has one of them"
IS_NIL = "EDN has nil, not null or None: a read whose list is not known yet, or is empty, may have it"

# Faulty inputs, with what is reported for them.
IS_TEXT = "; text like r1[x] is read without --model list-append"
NO_EDN = re.compile(r"line 2, entry 2: no JSON from column \d+ on")
EDN = "{:type :ok, :process 0, :f :txn, :value [[:append 1 1]]}\n"
KEY, NO_KEY = "the key of operation", "is not a whole number, or a text of 1 to 64 letters, digits and _ . / : -"
RESTART = "a recorder that starts again takes new processes, or first writes an info for each that it left"


def cut_input(entry, line):
    return f"the input ends inside entry {entry}, which begins in line {line}: if its recorder died, leave this entry out"


FAULTS = {
    "{": "line 1, entry 1: no JSON from column 2 on\n" + cut_input(1, 1),
    '{"type":"ok","process":0,"f":"txn","value":[["append",9,1]]\n': "line 1, entry 1: no JSON from column 60 on\n" + cut_input(1, 1),
    GOOD + '[{"type": "invoke", "process": 0, "f": "txn", "value": [["append", 4': "line 2, entry 2: no JSON from column 69 on\n" + cut_input(2, 2),
    GOOD + '{"type":"inv\n' + GOOD: "line 2, entry 2: no JSON from column 13 on\nthe line ends inside the text that begins in column 9: was it cut off?",
    '{"type":"ok", "process":0,\n "value":[\n\n' + GOOD:
        "line 2, entry 1: no JSON from column 11 on\nthe line ends inside entry 1, and line 4 begins another one: was it cut off?",
    '{"type":"ok","process":0,"value":[["r",1,[1}]]}': "line 1, entry 1: no JSON from column 44 on\n} stands here, and [ of line 1, column 42 is not closed",
    GOOD + "}": "line 2, entry 2: no JSON from column 1 on\n} stands here, and nothing is open that it closes",
    "\xef\xbb\xbf" + GOOD: "line 1, entry 1: no JSON from column 1 on\na byte order mark: save the input without it",
    GOOD + "\xc2\xa0" + GOOD: "line 2, entry 2: no JSON from column 1 on\na character that is not ASCII",
    '[{"type":"ok","process":0,"value":[]},{"type" "ok"}]': "line 1, entry 2: no JSON from column 47 on",
    '{"type" "ok","process":0,"value":[]}': "line 1, entry 1: no JSON from column 9 on\na colon is missing before it",
    GOOD + "{'type':'ok'}": "line 2, entry 2: no JSON from column 2 on\na text stands in double quotes in JSON",
    GOOD + "{type:'ok'}": "line 2, entry 2: no JSON from column 2 on\na word stands in double quotes in JSON, but for null, true and false",
    GOOD.replace("[[", "[(").replace("]]", ")]"): "line 1, entry 1: no JSON from column 45 on\na list stands in square brackets in JSON",
    GOOD.replace("]]", "],]"): "line 1, entry 1: no JSON from column 60 on\nan item is missing after the comma, or the comma is too many: JSON has none before a bracket that closes",
    GOOD.strip() + " // one": "line 1, entry 2: no JSON from column 62 on\nJSON has no comments",
    '{"type":"ok","process":0,"value":[["r",1,None]]}': "line 1, entry 1: no JSON from column 42 on\nJSON has null, true and false, in small letters",
    " r1[x]": "line 1, entry 1: no JSON from column 2 on" + IS_TEXT,
    "x": "line 1, entry 1: no JSON from column 1 on" + IS_TEXT,
    "[r1[x]": "line 1, entry 1: no JSON from column 2 on\na word stands in double quotes in JSON, but for null, true and false",
    "{r1[x]": "line 1, entry 1: no JSON from column 2 on\na word stands in double quotes in JSON, but for null, true and false",
    "r1[x] w1[x]": "line 1, entry 1: no JSON from column 1 on" + IS_TEXT,
    "{:type :ok": "line 1, entry 1: no JSON from column 11 on\n" + cut_input(1, 1),
    EDN + "{:type :ok, :process 0, :f :txn, :value [[:append 1 2]]": "line 2, entry 2: no JSON from column 56 on\n" + cut_input(2, 2),
    EDN + "{:type :ok, :process 0, :f :txn, :value [[:append 1 2}]}":
        "line 2, entry 2: no JSON from column 54 on\n} stands here, and [ of line 2, column 42 is not closed",
    EDN + "{:type :invoke, :f :txn, :value [[:append 2 18] [:r 3 nil], :time 29000, :process 2, :index 29}\n" + EDN:
        "line 2, entry 2: no JSON from column 95 on\n} stands here, and [ of line 2, column 33 is not closed",
    EDN.replace("]]", "]") + EDN: "line 1, entry 1: no JSON from column 55 on\n} stands here, and [ of line 1, column 41 is not closed",
    EDN + "{:type :ok, :process 0, :f :txn, :value #_5 [[:append 1 2]]}":
        "line 2, entry 2: no JSON from column 42 on\n#_ is not read: leave out what it discards",
    EDN + "{:type :ok, :process 0, :f :txn, :value}": "line 2, entry 2: no JSON from column 40 on\na map ends here after a key without a value",
    EDN + "}": "line 2, entry 2: no JSON from column 1 on\n} stands here, and nothing is open that it closes",
    EDN + "#{:type :ok}": NO_EDN,
    EDN + ":ok": "line 2, entry 2: no object",
    EDN + EDN.replace("ok", "done"): "line 2, entry 2: the type is not invoke, ok, fail or info\nfound done",
    EDN.replace("[[:append 1 1]]", "[[:r 1 #{1}]]"): f"line 1, entry 1: operation 1 {NO_OPERATION}\n{EDN_ENTRY}",
    EDN.replace("[[:append 1 1]]", "[[:r 1 {1 2}]]"): f"line 1, entry 1: operation 1 {NO_OPERATION}\n{EDN_ENTRY}",
    **{EDN + EDN.replace("[[:append 1 1]]", f"[[:append 9 1] [:r 3 {word}]]"): f"line 2, entry 2: operation 2 {NO_OPERATION}\n{IS_NIL}" for word in ("null", "None")},
    EDN + EDN.replace("[[:append 1 1]]", "5"): f"line 2, entry 2: {NOT_LISTED}\n{EDN_ENTRY}",
    EDN + GOOD.replace(',"f":"txn"', ""): f"line 2, entry 2: the process is not a whole number or a text\n{IS_JSON}",
    GOOD.replace('{"ty', ""): "line 1, entry 1: no JSON from column 1 on\nthe input begins inside an entry: was its head cut off? Leave out the part before the first whole entry",
    EDN.replace("[[:append 1 1]]", "[[:append 1 1N]]"): "line 1, entry 1: operation 1 has a value that is not a whole number of at most 15 digits\nfound 1N",
    GOOD + "{\n": "line 2, entry 2: no JSON from column 2 on\n" + cut_input(2, 2),
    GOOD + '{"type":"ok",\n "process" 1}': "line 3, entry 2: no JSON from column 12 on",
    "5": "line 1, entry 1: no object",
    '"{"': "line 1, entry 1: no object",
    "\xff": None,
    GOOD + GOOD.replace(":", "", 1): "line 2, entry 2: no JSON from column 8 on\na colon is missing before it",
    GOOD + "\n" + '{"process":0}': "line 3, entry 2: the type is not invoke, ok, fail or info\ntype is missing",
    '{"type":"ok"}': "line 1, entry 1: the process is not a whole number or a text\nprocess is missing",
    '{"type":"ok","process":-1.5}': "line 1, entry 1: the process is not a whole number or a text\nfound -1.5",
    EDN.replace(":process 0", ":process [1]"): "line 1, entry 1: the process is not a whole number or a text\nfound [1]",
    GOOD.replace("1,1", "-1.5,1"): f"line 1, entry 1: {KEY} 1 {NO_KEY}\nfound -1.5",
    '{"type":"done","process":1}': 'line 1, entry 1: the type is not invoke, ok, fail or info\nfound "done"',
    '{"type":"ok","process":null,"f":"txn"}': "line 1, entry 1: the process is not a whole number or a text\nfound null",
    '{"type":"ok","process":"c0","f":"txn","value":5}': f"line 1, entry 1: {NOT_LISTED}\nfound 5: {AN_ENTRY}",
    '{"type":"ok","process":1,"value":null}': f"line 1, entry 1: {NOT_LISTED}\nfound null: {AN_ENTRY}",
    '{"type":"invoke","process":1}': "line 1, entry 1: the value is not a list of operations\nvalue is missing",
    '{"type":"ok","process":1,"value":[[]]}': f"line 1, entry 1: operation 1 {NO_OPERATION}\nfound []: {AN_ENTRY}",
    '{"type":"ok","process":1,"value":[["r",1,[]],["w",1,2]]}': f'line 1, entry 1: operation 2 {NO_OPERATION}\nfound ["w",1,2]: {AN_ENTRY}',
    '{"type":"ok","process":1,"value":[["r",1,5]]}': f'line 1, entry 1: operation 1 {NO_OPERATION}\nfound ["r",1,5]: {AN_ENTRY}',
    '{"type":"ok","process":1,"value":[["r",1,["a"]]]}': 'line 1, entry 1: operation 1 has a value that is not a whole number of at most 15 digits\nfound "a"',
    '{"type":"ok","process":1,"value":[["append",1,1000000000000000]]}': "line 1, entry 1: operation 1 has a value that is not a whole number of at most 15 digits\nfound 1000000000000000",
    '{"type":"ok","process":1,"value":[["append",1,1.5]]}': "line 1, entry 1: operation 1 has a value that is not a whole number of at most 15 digits\nfound 1.5",
    '{"type":"ok","process":1,"value":[["append",null,1]]}':
        f"line 1, entry 1: {KEY} 1 {NO_KEY}\nfound null",
    '{"type":"ok","process":1,"value":[["append","a b",1]]}': f'line 1, entry 1: {KEY} 1 {NO_KEY}\nfound "a b"',
    '{"type":"invoke","process":1,"value":[]}' * 2:
        "line 1, entry 2: process 1 has invoked another transaction, line 1, entry 1, and has not ended it\n" + RESTART,
    '{"type":"invoke","process":"c 1","value":[]}' * 2:
        "line 1, entry 2: process c 1 has invoked another transaction, line 1, entry 1, and has not ended it\n" + RESTART,
    BEGUN + OTHER + "\n" + OTHER.replace("2", "3") + BEGUN:
        "line 3, entry 4: process 1 has invoked another transaction, line 1, entry 1, and has not ended it\n" + RESTART,
    GOOD.replace("ok", "invoke") + "\n" + GOOD.replace("]]", '],["r",2,null]]'):
        "line 3, entry 2: the operations are not those of the invocation, line 1, entry 1",
    GOOD.replace("ok", "invoke") + GOOD.replace("ok", "fail").replace("1,1", "1,2"):
        "line 2, entry 2: the operations are not those of the invocation, line 1, entry 1",
    GOOD.replace("ok", "invoke") + GOOD.replace('[["append",1,1]]', "[]").replace("ok", "info"):
        "line 2, entry 2: the operations are not those of the invocation, line 1, entry 1",
    GOOD + GOOD: "line 2 appends 1 to key 1 a second time, after line 1",
    GOOD + '{"type":"info","process":0,"value":[["append",1,2],["append",1,2]]}':
        "line 2 appends 2 to key 1 a second time, after line 2",
    GOOD.strip() * 2: "entry 2 appends 1 to key 1 a second time, after entry 1",
    "[" * 100_000: None,
    '{"a":' * 100_000: None,
}


def reports_faults(program):
    for given, wanted in FAULTS.items():
        status, text, errors = check(program, given.encode("latin-1"))
        if wanted is None:
            same("status", True, status in (0, 2))
            continue
        if isinstance(wanted, re.Pattern):
            wanted = errors.rstrip() if wanted.fullmatch(errors.rstrip()) else wanted.pattern
        wanted += f"\n{AN_ENTRY}" * wanted.endswith("no object")
        wanted += f"\n{SAME_OPERATIONS}" * ("the operations are not those" in wanted) + f"\n{APPENDED_ONCE}" * (" a second time, " in wanted)
        same(f"fault of {given[:80]!r}", (2, "", wanted + "\n"), (status, text, errors))


def names_the_line_that_is_cut(program):
    """A line of JSON or of EDN that is cut anywhere, with lines after it or at the end: its number, and where it is cut."""
    entries, _ = entries_of(random.Random(1), NAMED["G2-item"])
    count = 0
    for lines in (lines_of(entries).splitlines(), [edn(it) for it in entries]):
        for place in (0, 1, len(lines) - 1):
            for cut in range(1, len(lines[place])):
                line = lines[place][:cut]
                given = "\n".join([*lines[:place], line, *lines[place + 1:]])
                status, text, errors = check(program, given)
                where, *hint = errors.splitlines()
                torn = re.search(r" (n|nu|nul)$", line) if place + 1 < len(lines) and "\"" in lines[place] else None
                column = torn.start(1) if torn else len(line.rstrip())
                wanted = f"line {place + 1}, entry {place + 1}: no JSON from column {column + 1} on"
                same(f"a cut after {line!r}", (2, "", wanted), (status, text, where))
                same(f"hint of a cut after {line!r}", True, hint == [] or "ends inside" in hint[0] and "cut off?" in hint[0] or hint == [cut_input(place + 1, place + 1)])
                count += len(hint)
    return f"{count} hints"


def survives_hostile_bytes(program):
    draw = random.Random(3)
    entries, _ = entries_of(draw, drawn(draw))
    good, count = lines_of(entries).encode(), 0
    for _ in range(400):
        bad = bytearray(good)
        for _ in range(draw.randint(1, 4)):
            place = draw.randrange(len(bad))
            bad[place:place + draw.randint(0, 3)] = draw.choice([b"", b"\"", b"{", b"}", b"[", b"]", b"\\", b"\xff", b"9" * 30, b"null"])
        status, text, errors = check(program, bytes(bad))
        errors = errors if status == 2 else NOTES.sub("", errors)
        if (status, bool(text), bool(errors)) not in ((0, True, False), (1, True, False), (2, False, True)):
            raise Differs(f"status {status}, {text!r}, {errors!r} on {bytes(bad)!r}")
        count += status == 2
    return f"400 inputs, {count} of them faulty"


def needs_its_model(program):
    ran = subprocess.run([program, "check", "--strict"], input=b"", capture_output=True, timeout=SECONDS, check=False)
    same("status", 2, ran.returncode)
    same("standard output", b"", ran.stdout)
    if b"--model list-append" not in ran.stderr:
        raise Differs(f"standard error: {ran.stderr!r}")


def hints_at_its_model(program):
    """JSON and EDN without the model."""
    for given in (GOOD, "[" + GOOD + "]", EDN):
        ran = subprocess.run([program, "check"], input=given.encode(), capture_output=True, timeout=SECONDS, check=False)
        same("status", (2, b""), (ran.returncode, ran.stdout))
        if not ran.stderr.endswith(b"; JSON and EDN are read with --model list-append\n"):
            raise Differs(f"standard error: {ran.stderr!r}")


def ends_on_long_ones(program):
    """One transaction of 100,000 operations, and a read of 200,000 values of which two are swapped: each in a few seconds."""
    many = [it for key in range(50_000) for it in (["append", key, 1], ["r", key, [1]])]
    status, text, _ = check(program, lines_of([{"type": "ok", "process": 0, "f": "txn", "value": many}]))
    same("one transaction", (0, "serializable yes: t1"), (status, text.splitlines()[1]))
    entries = [{"type": "ok", "process": 0, "f": "txn", "value": [["append", 1, it], ["append", 1, it + 1]]} for it in range(0, 200_000, 2)]
    seen = [*range(199_998), 199_999, 199_998]
    status, text, _ = check(program, lines_of([*entries, {"type": "ok", "process": 0, "f": "txn", "value": [["r", 1, seen]]}]))
    same("a read", (1, "serializable no: incompatible-order", "strongest level: at least none"), (status, text.splitlines()[1], text.splitlines()[3]))


def late_appends(drawing):
    """The appends that are drawn after a read of another transaction that saw them."""
    titles = [it.title for it in sorted(drawing.marks, key=lambda it: it.place)]
    appends = {(key, value): (place, by) for place, title in enumerate(titles) for by, key, value in re.findall(r"w(\d+)\[(\S+): \+(-?\d+)\]", title)}
    late = []
    for place, title in enumerate(titles):
        for reader, key, seen in re.findall(r"r(\d+)\[(\S+): \[(.*?)\]\]", title):
            for value in seen.split():
                append, by = appends.get((key, value), (0, reader))
                late += [(title, titles[append])] * (by != reader and append > place)
    return late


def draws_its_witness(program):
    entries, _ = entries_of(random.Random(1), NAMED["G2-item"])
    status, text, errors = check(program, lines_of(entries), "--timeline")
    same("status", (1, ""), (status, errors))
    ElementTree.fromstring(text)
    status, text, errors = check(program, lines_of(entries), "--graph")
    same("status", (1, ""), (status, errors))
    same("arrows", 2, text.count(" -> "))
    for name, history in NAMED.items():
        entries, _ = entries_of(random.Random(1), history)
        drawing = Drawing(check(program, lines_of(entries), "--timeline")[1])
        if "The order from left to right is logical, not time." not in drawing.description:
            raise Differs(f"{name}: the picture does not say what its order is")
        ends = [it.label in ("c", "a") for it in drawing.marks]
        same(f"{name}: ends come last", sorted(ends), ends)
        same(f"{name}: appends stand before their reads", [], late_appends(drawing))
    draw = random.Random(75)
    for _ in range(200):
        entries, _ = entries_of(draw, drawn(draw))
        given = lines_of(entries)
        drawing = Drawing(check(program, given, "--timeline")[1])
        same(f"appends stand before their reads\n{given}", [], late_appends(drawing))
    entries, _ = entries_of(random.Random(1), NAMED["G0"])
    steps = [STEP.fullmatch(it).groups()[2] for it in check(program, lines_of(entries))[1].splitlines() if STEP.fullmatch(it)]
    cited = {re.match(r"t(\d+)(?: \(.*?\))? read key (\S+) as \[(.*?)\]", it).groups() for it in steps}
    marks = {it.title for it in Drawing(check(program, lines_of(entries), "--timeline")[1]).marks}
    for reader, key, seen in cited:
        if not any(f"r{reader}[{key}: [{seen}]]" in it for it in marks):
            raise Differs(f"the read of key {key} by t{reader} is not drawn: {marks}")


def recorded_ones(program):
    """What was recorded of databases, with its report, and with its picture where one is stored."""
    reported = []
    for path in sorted(CLIENTS.glob("*.json")):
        status, text, errors = check(program, path.read_bytes())
        same(f"fault of {path.name}", "", errors)
        same(f"report on {path.name}", path.with_suffix(".out").read_text(), text)
        if path.with_suffix(".svg").exists():
            drawn_now = check(program, path.read_bytes(), "--timeline")
            same(f"picture of {path.name}", (status, path.with_suffix(".svg").read_text(), ""), drawn_now)
        reported.append(f"{path.stem} {status}")
    return ", ".join(reported)


# The databases of Debian's packages: their recorders, and a program of the server.
def missing_of(name):
    """What of a database is missing here, if anything is."""
    if name == "postgres.py":
        return Postgres.missing_server() or (None if shutil.which("psql") else "there is no psql on this machine")
    return None if os.path.exists("/usr/sbin/mariadbd") else "there is no mariadbd on this machine"


def records_databases(program):
    """What is recorded anew of each database that is here, at its level SERIALIZABLE, is serializable."""
    reported = []
    for name in ("postgres.py", "mariadb.py"):
        if why := missing_of(name):
            reported.append(f"{name} left out, {why}")
            continue
        is_serializable(program, name, "--temporary", "--level", "serializable", "--transactions", "60")
        reported.append(f"{name} serializable")
    return ", ".join(reported)


def recorded(name, *words, env=None):
    """Status, standard output and standard error of a recorder."""
    how = {"env": {**os.environ, "LC_ALL": "C", **(env or {})}, "capture_output": True, "text": True, "timeout": 10 * SECONDS}
    ran = subprocess.run([sys.executable, CLIENTS / name, *words], check=False, **how)
    return ran.returncode, ran.stdout, ran.stderr


def is_serializable(program, name, *words):
    """A recorder ends well, says no more than which errors aborted, and reads all keys at last. Its history is serializable."""
    status, history, errors = recorded(name, *words)
    same(f"status of {name}", 0, status)
    same(f"what {name} says besides aborts", [], [it for it in errors.splitlines() if not re.match(r"\d+ (aborted: .|more kinds of errors$)", it)])
    status, text, errors = check(program, history)
    same(f"report on {name}", (0, "", True), (status, errors, text.splitlines()[1].startswith("serializable yes: t")))
    entries = [json.loads(it) for it in history.splitlines()]
    keys = {key for it in entries for _, key, _ in it["value"]}
    same(f"the last reads of {name}", sorted(["r", it] for it in keys), sorted(it[:2] for it in entries[-1]["value"]))
    same(f"the last end of {name}", "ok", entries[-1]["type"])


def records_what_is_always_here(program):
    """SQLite by its own recorder and by DB-API 2, and this engine."""
    with tempfile.TemporaryDirectory() as folder:
        by_driver = ("--driver", "sqlite3", "--dsn", os.path.join(folder, "lists.db"), "--begin", "begin")
        for words in (("sqlite.py",), ("dbapi.py", *by_driver), ("engine.py", os.path.abspath(program))):
            is_serializable(program, *words, "--seed", "5")


def recorders_say_what_they_take(_):
    names = [it.name for it in sorted(CLIENTS.glob("*.py")) if it.name != "recorder.py"]
    for name in names:
        status, text, errors = recorded(name, "--help")
        same(f"{name} --help", (0, "", True), (status, errors, text.startswith(f"usage: {name}") and "sgt check --model list-append" in text))
    return ", ".join(names)


def recorders_show_the_error_of_what_does_not_answer(program):
    """The database's own, in one line or more, with status 2, no history and no trace of Python."""
    missing = {"PGHOST": "/missing/folder"}
    asked = [
        (("dbapi.py", "--driver", "sqlite3", "--dsn", "/missing/folder/it.db"), "unable to open database file"),
        (("dbapi.py", "--driver", "sqlite3", "--dsn", "{"), "sqlite3 says: "),
        (("dbapi.py", "--driver", "no_such_driver", "--dsn", "it"), "No module named 'no_such_driver'"),
        (("engine.py", os.path.abspath(program), "--jobs", "0"), "bad limits"),
        *([(("postgres.py",), 'connection to server on socket "/missing/folder')] if shutil.which("psql") else []),
    ]
    for words, wanted in asked:
        status, text, errors = recorded(*words, env=missing)
        same(f"{words}: status and output", (2, ""), (status, text))
        same(f"{words}: {errors!r} has {wanted!r}", True, wanted in errors and "Traceback" not in errors)
    return None if shutil.which("psql") else "without PostgreSQL: there is no psql on this machine"


def recorders_go_on_when_a_client_is_lost(program):
    """A client that ends early is named, and its transaction is unknown; the others go on, and the status is 2."""
    sys.path.insert(0, str(CLIENTS))
    import recorder

    class Lost:
        """A client of lists in memory, which is lost at its third transaction, or aborts each second one."""

        def __init__(self, lists, is_lost):
            self.lists, self.is_lost, self.count = lists, is_lost, 0

        def run(self, operations):
            self.count += 1
            if self.is_lost and self.count == 3:
                raise ConnectionError("the server is gone")
            if self.count % 2 == 0:
                raise recorder.Aborted("it is even")
            return [self.do(*it) for it in operations]

        def do(self, word, key, value):
            if word == "append":
                self.lists.setdefault(key, []).append(value)
                return [word, key, value]
            return [word, key, list(self.lists.get(key, []))]

    lists = {}
    history = recorder.record(recorder.Plan(1), [Lost(lists, True), Lost(lists, False)], 20, Lost(lists, False))
    same("what is said", ["client 0 ended, and its last transaction is unknown: the server is gone"], history.failures)
    same("the aborts", {"it is even": 6}, dict(history.aborts))
    ends = [it["type"] for it in history.entries if it["type"] != "invoke"]
    same("the ends", {"ok": 7, "fail": 6, "info": 1}, {kind: ends.count(kind) for kind in ("ok", "fail", "info")})
    status, text, errors = check(program, history.text())
    same("the report's first line", (0, "transactions 14: 7 committed, 6 aborted, 1 unknown"), (status, text.splitlines()[0]))
    same("the last reads", True, all(word == "r" for word, _, _ in history.entries[-1]["value"]))
    with open(os.devnull, "w", encoding="utf-8") as nowhere, contextlib.redirect_stdout(nowhere), contextlib.redirect_stderr(nowhere):
        same("the status", 2, history.finish())


CASES = [on_all_small_histories, on_drawn_histories, on_drawn_histories_strictly, levels_of_all_small_histories, levels_of_drawn_histories,
         names_the_strongest_level, names_the_read_that_decides, keeps_the_order_of_begins, shortens_a_long_order, draws_the_level, names_anomalies, names_the_operations,
         shows_values_of_a_long_read, shows_where_two_long_reads_part, ends_on_long_ones, reads_each_form, reads_edn, notices_a_wrong_bracket_in_edn,
         takes_null_for_the_empty_list, takes_processes_of_any_name, takes_keys_of_any_name,
         takes_values_with_a_sign, skips_what_is_no_transaction, refuses_nothing,
         refuses_an_end_of_other_operations, keeps_time_only_with_invocations, keeps_time_in_little_memory, says_that_an_end_ends_nothing, says_that_an_end_comes_too_early, says_what_it_takes_for_something_else,
         draws_what_the_lines_above_say, says_what_is_left_out_of_an_order, names_the_entry_that_is_glued, answers_without_time_if_asked, reports_faults, names_the_line_that_is_cut, survives_hostile_bytes, needs_its_model, hints_at_its_model, draws_its_witness, recorded_ones,
         records_databases, records_what_is_always_here, recorders_say_what_they_take, recorders_show_the_error_of_what_does_not_answer,
         recorders_go_on_when_a_client_is_lost]

if __name__ == "__main__":
    sys.exit(run_cases(CASES, sys.argv[1], of="clients"))
