#!/usr/bin/env python3
"""Compares the reports of `sgt check` with the book's definitions, as `helpers/textbook.py` has them.

    tests/check.py crates/sgt/out/sgt

All histories of few operations are checked, up to the names of transactions and items; longer ones that are drawn; and some of up
to a million operations, of which time and memory are reported and not compared. Of all but the last, every order of the committed
transactions is tried: the report has to say yes, and one of these orders, exactly where one gives an equivalent serial history.
Several programs run at once. The last line counts the cases.
"""

import hashlib
import os
import random
import re
import subprocess
import sys
from concurrent.futures import ProcessPoolExecutor
from itertools import chain, islice

sys.dont_write_bytecode = True
from helpers.cases import SECONDS, Differs, same, run_cases  # noqa: E402
from helpers.textbook import ACCESSES, ENDS, History, LongHistory, Operation, equivalent_orders, unjudged  # noqa: E402

# All histories of at most this many transactions, items, accesses of each transaction and operations.
FEW = ((2, 2, 2, 6), (3, 2, 1, 6), (3, 2, 4, 4))
# How many longer ones are drawn, and of how many operations at most before the last commits.
DRAWN, LONGEST_DRAWN = 8_000, 16
NAMES = "xyz"
# The long ones: each transaction has ten operations, an item about a hundred, and this many transactions are live at a time.
LONG, LIVE = 1_000_000, 50
SHARES = 16


# The program


def report_on(program, operations):
    """Its status and report. On standard error it says only how many transactions are active."""
    given = " ".join(map(str, operations)).encode()
    ran = subprocess.run([program, "check"], input=given, capture_output=True, timeout=SECONDS, close_fds=False, check=False)
    report = ran.stdout.decode()
    same("standard error", unjudged(report), ran.stderr.decode())
    return ran.returncode, report


# Starts the program, and reports its status, its milliseconds and its most bytes. It is small itself: a process has at first
# what its parent has.
MEASURE = """import os, subprocess, sys
process = subprocess.Popen(sys.argv[1:])
_, status, used = os.wait4(process.pid, 0)
milliseconds = round(1000 * (used.ru_utime + used.ru_stime))
print(os.waitstatus_to_exitcode(status), milliseconds, 1024 * used.ru_maxrss, file=sys.stderr)
"""


def measured_report_on(program, operations):
    """The same, with the milliseconds that it took and the most bytes that it had."""
    words = [sys.executable, "-ISc", MEASURE, program, "check"]
    given = "\n".join(map(str, operations)).encode()
    ran = subprocess.run(words, input=given, capture_output=True, timeout=SECONDS, check=True)
    status, took, most = map(int, ran.stderr.split())
    return status, ran.stdout.decode(), took, most


# A report, by the definitions


class Report:
    """What the lines of a report have to be. If more than one witness would do, the reported one is taken if it is one."""

    def __init__(self, history):
        self.history = history
        self.order = history.serial_order()
        self.firsts = history.first_violations()

    def status(self):
        return 0 if self.order is not None and self.firsts["breaks_recoverability"] is None else 1

    def compare(self, status, text):
        lines = text.splitlines(keepends=True)
        same("lines", 7, len(lines))
        same("counts", self.counts(), lines[0])
        if self.order is None:
            self.compare_cycle(lines[1])
        else:
            same("serial order", "serializable yes:" + "".join(f" {it}" for it in self.order or ["none"]) + "\n", lines[1])
        for breaks, line in zip(self.history.classes(), lines[2:]):
            self.compare_class(breaks, line)
        same("status", self.status(), status)

    def counts(self):
        number, committed, aborted = self.history.counts()
        return f"transactions {number}: {committed} committed, {aborted} aborted, {number - committed - aborted} active\n"

    def placed(self, place):
        return f"{self.history.operations[place]} ({place + 1})"

    def compare_cycle(self, line):
        """Edges, each of two operations, from one transaction to the next and at last to the first, and no two from one."""
        places = [int(it) - 1 for it in re.findall(r"\((\d+)\)", line)]
        edges, walk = list(zip(places[::2], places[1::2])), []
        for i, j in edges:
            if not self.history.is_edge_by(i, j):
                raise Differs(f"no edge by {self.placed(i)} {self.placed(j)}: {line!r}")
            walk.append((self.history.operations[i].transaction, self.history.operations[j].transaction))
        reported = (f" {one} {other} by {self.placed(i)} {self.placed(j)}" for (one, other), (i, j) in zip(walk, edges))
        same("cycle", "serializable no:" + ",".join(reported) + "\n", line)
        froms, tos = [one for one, _ in walk], [other for _, other in walk]
        same("ends of the cycle's edges", froms[1:] + froms[:1], tos)
        if not walk or len(set(froms)) < len(froms):
            raise Differs(f"no cycle, or one that names a transaction twice: {line!r}")

    def compare_class(self, breaks, line):
        name, why = LINES[breaks.__name__]
        first = self.firsts[breaks.__name__]
        if first is None:
            return same("class", f"{name} yes\n", line)
        reported = {int(it) - 1 for it in re.findall(r"\((\d+)\)", line)} | {self.history.source(first)}
        witnesses = [it for it in reported if it is not None and 0 <= it < first and breaks(it, first)]
        if line not in [f"{name} no: {why(self, it, first)}\n" for it in witnesses]:
            raise Differs(f"{self.placed(first)} is the first that breaks it, and none of {witnesses} is told so: {line!r}")

    # Why not, by the earlier and the later operation

    def of(self, place):
        return self.history.operations[place].transaction

    def reads_uncommitted(self, read, commit):
        writer = self.of(self.history.source(read))
        abort = self.history.aborts.get(writer)
        end = "has not committed" if abort is None else f"aborted: {self.placed(abort)}"
        return f"{self.placed(commit)}, which reads from {writer} by {self.placed(read)}, and {writer} {end}"

    def reads_dirty(self, write, read):
        return f"{self.placed(read)} reads from {self.of(write)}, which has not committed"

    def follows(self, earlier, later):
        return f"{self.placed(later)} follows {self.placed(earlier)}, and {self.of(earlier)} has not ended"

    def commits_later(self, earlier, later):
        both = f"{self.placed(earlier)} {self.placed(later)}"
        return f"{self.of(earlier)} before {self.of(later)} by {both}, and {self.of(later)} committed first"


LINES = {
    "breaks_recoverability": ("recoverable", Report.reads_uncommitted),
    "breaks_avoidance": ("avoids cascading aborts", Report.reads_dirty),
    "breaks_strictness": ("strict", Report.follows),
    "breaks_rigorousness": ("rigorous", Report.follows),
    "breaks_commit_order": ("commit ordered", Report.commits_later),
}


# Short histories


def all_histories(transactions, items, accesses, operations):
    """Those of at most so many, and at least one operation: a transaction or an item is new only as the next one."""

    def following(before, left, used, ended):
        if before:
            yield before
        if len(before) == operations:
            return
        for transaction in range(1, min(len(left) + 1, transactions) + 1):
            if transaction in ended:
                continue
            more = left if transaction in left else {**left, transaction: accesses}
            for kind in ENDS:
                yield from following([*before, Operation(kind, transaction)], more, used, ended | {transaction})
            if not more[transaction]:
                continue
            fewer = {**more, transaction: more[transaction] - 1}
            for item in range(min(used + 1, items)):
                for kind in ACCESSES:
                    done = [*before, Operation(kind, transaction, NAMES[item])]
                    yield from following(done, fewer, max(used, item + 1), ended)

    return following([], {}, 0, frozenset())


def drawn_history(draw):
    """Few transactions on few items, most of which end, half of them early."""
    transactions, items = draw.randint(2, 4), draw.randint(1, 3)
    live, operations = list(range(1, transactions + 1)), []
    ending = draw.choice((0.05, 0.3))
    for _ in range(draw.randint(6, LONGEST_DRAWN)):
        if live:
            transaction = draw.choice(live)
            if draw.random() < ending:
                live.remove(transaction)
                operations.append(Operation(draw.choice("ccca"), transaction))
            else:
                operations.append(Operation(draw.choice(ACCESSES), transaction, NAMES[draw.randrange(items)]))
    draw.shuffle(live)
    return operations + [Operation("c", it) for it in live if draw.random() < 0.8]


def compare_with_orders(operations, text):
    """Compares the report with every serial history of the committed transactions, by the definition of equivalence alone."""
    orders = equivalent_orders(operations)
    line = text.splitlines()[1]
    is_yes = line.startswith("serializable yes:")
    same("whether an order gives an equivalent serial history", bool(orders), is_yes)
    if is_yes and tuple(int(it) for it in line.split()[2:] if it != "none") not in orders:
        raise Differs(f"the serial history in this order is not equivalent: {line!r}")
    return is_yes


def compare_each(program, histories):
    """Compares the reports on them with both models and with all serial histories. Gives how many there were, and how many are not
    serializable."""
    count = cyclic = 0
    for operations in histories:
        report = Report(History(operations))
        try:
            long = LongHistory(operations)
            same("what the models find", (report.order, report.firsts), (long.serial_order(), long.first_violations()))
            status, text = report_on(program, operations)
            report.compare(status, text)
            cyclic += not compare_with_orders(operations, text)
        except Differs as why:
            raise Differs(f"{' '.join(map(str, operations))}: {why}") from None
        count += 1
    return count, cyclic


def compare_all(program, share):
    histories = chain.from_iterable(all_histories(*few) for few in FEW)
    return compare_each(program, islice(histories, share, None, SHARES))


def compare_drawn(program, share):
    draw = random.Random(share)
    return compare_each(program, (drawn_history(draw) for _ in range(DRAWN // SHARES)))


# Long histories


class Drawing:
    """Draws operations of transactions of which so many are live, each with nine accesses and its end."""

    def __init__(self, seed, operations):
        self.draw = random.Random(seed)
        self.transactions, self.items = operations // 10, operations // 100
        self.operations, self.ended = [], set()
        self.readers, self.writers = {}, {}

    def history(self, end):
        starts = iter(range(self.transactions))
        live = [[it, 9] for it in islice(starts, LIVE)]
        while live:
            place = self.draw.randrange(len(live))
            transaction, accesses = live[place]
            if accesses:
                live[place][1] -= 1
                self.operations.append(self.access(transaction))
                continue
            self.ended.add(transaction)
            self.operations.append(Operation(self.draw.choice(end), transaction))
            live[place] = [next(starts, None), 9]
            if live[place][0] is None:
                live.pop(place)
        return self.operations

    def access(self, transaction):
        """One that is let through."""
        while True:
            kind, item = self.draw.choice("rrw"), self.draw.randrange(self.items)
            if self.lets(kind, transaction, item):
                return Operation(kind, transaction, f"account/{item}")

    def lets(self, kind, transaction, item):
        return True


class Locking(Drawing):
    """Nobody reads or writes what another has written that has not ended, or writes what another has read that has not."""

    def lets(self, kind, transaction, item):
        writers = self.live_of(self.writers, item)
        readers = self.live_of(self.readers, item)
        if (writers | readers if kind == "w" else writers) - {transaction}:
            return False
        (writers if kind == "w" else readers).add(transaction)
        return True

    def live_of(self, users, item):
        users[item] = {it for it in users.get(item, ()) if it not in self.ended}
        return users[item]


class Stamping(Drawing):
    """Conflicting operations come in the order of their transactions' numbers, whatever commits first."""

    def lets(self, kind, transaction, item):
        if transaction < max(self.writers.get(item, 0), self.readers.get(item, 0) if kind == "w" else 0):
            return False
        of_kind = self.writers if kind == "w" else self.readers
        of_kind[item] = max(of_kind.get(item, 0), transaction)
        return True


def compare_long(program, drawing, seed, end, number=LONG):
    """What was reported of it, with a digest of the report."""
    operations = drawing(seed, number).history(end)
    same("operations", number, len(operations))
    status, text, took, most = measured_report_on(program, operations)
    report = Report(LongHistory(operations))
    report.compare(status, text)
    digest = hashlib.sha256(text.encode()).hexdigest()
    if drawing is Locking:
        same("digest", hashlib.sha256(rigorous_report(report).encode()).hexdigest(), digest)
    is_of = [name for of, (name, _) in LINES.items() if report.firsts[of] is None]
    classes = ", ".join((["serializable"] if report.order is not None else []) + is_of) or "of no class"
    return f"{classes}; report {digest[:16]}; {took} ms, {most // number} bytes an operation"


def rigorous_report(report):
    """The whole text: all is yes, and the serial order is that of the commits."""
    order = sorted(report.history.commits, key=report.history.commits.get)
    classes = "".join(f"{name} yes\n" for name, _ in LINES.values())
    return report.counts() + "serializable yes:" + "".join(f" {it}" for it in order) + "\n" + classes


# Cases. All are begun at first, so that several programs run at once.


def reported_of(begun):
    count, cyclic = map(sum, zip(*(it.result() for it in begun)))
    return f"{count:,} histories, {cyclic:,} of them not serializable"


def compares_all_short_histories(begun):
    return reported_of(begun["all"])


def compares_drawn_histories(begun):
    return reported_of(begun["drawn"])


def compares_a_million_operations_with_locks(begun):
    return begun["locks"].result()


def compares_a_million_operations_with_time_stamps(begun):
    return begun["stamps"].result()


def compares_many_operations_as_they_come(begun):
    return begun["free"].result()


CASES = (
    compares_all_short_histories,
    compares_drawn_histories,
    compares_a_million_operations_with_locks,
    compares_a_million_operations_with_time_stamps,
    compares_many_operations_as_they_come,
)


def main(arguments):
    if len(arguments) > 2:
        sys.exit(__doc__)
    program = os.path.abspath(arguments[1] if arguments[1:] else "crates/sgt/out/sgt")
    with ProcessPoolExecutor(os.cpu_count()) as pool:
        begun = {
            "locks": pool.submit(compare_long, program, Locking, 1, "cccca"),
            "stamps": pool.submit(compare_long, program, Stamping, 2, "c"),
            "free": pool.submit(compare_long, program, Drawing, 3, "cca", LONG // 10),
            "all": [pool.submit(compare_all, program, share) for share in range(SHARES)],
            "drawn": [pool.submit(compare_drawn, program, share) for share in range(SHARES)],
        }
        return run_cases(CASES, begun, of="check")


if __name__ == "__main__":
    sys.exit(main(sys.argv))
