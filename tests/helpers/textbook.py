"""The classes of histories by their definitions (Bernstein, Hadzilacos and Goodman (1987), chapter 2; rigorousness: Breitbart and
others (1991)), written from these and from no code.

A `History` looks at all pairs of operations. A `LongHistory` goes once over them, and finds the same. Places are counted from 0.
"""

import heapq
import re
from collections import defaultdict
from itertools import permutations
from typing import NamedTuple

ACCESSES, ENDS = "rw", "ca"


def unjudged(report):
    """What standard error says after the report if transactions are active, by its first line."""
    counts = re.match(r"transactions \d+: (\d+) committed, \d+ aborted, (\d+) active\n", report)
    if not counts or counts[2] == "0":
        return ""
    what = "1 transaction is active" if counts[2] == "1" else f"{counts[2]} transactions are active"
    none = ", and none committed" if counts[1] == "0" else ""
    return f"{what}{none}: serializable and recoverable judge committed ones alone\n"


class Operation(NamedTuple):
    """A read `r`, a write `w`, a commit `c` or an abort `a`; of the last two there is no item."""

    kind: str
    transaction: int
    item: str = ""

    def __str__(self):
        return f"{self.kind}{self.transaction}" + (f"[{self.item}]" if self.item else "")


def conflict(one, other):
    """Two operations on one item by two transactions, of which one writes."""
    return one.item == other.item != "" and one.transaction != other.transaction and "w" in (one.kind, other.kind)


# Conflict equivalence. It uses no graph.


def committed_projection(operations):
    """The operations of the transactions that commit."""
    committed = {it.transaction for it in operations if it.kind == "c"}
    return [it for it in operations if it.transaction in committed]


def by_transaction(operations):
    """The operations of each transaction, in their order."""
    own = defaultdict(list)
    for it in operations:
        own[it.transaction].append(it)
    return dict(own)


def ordered_conflicts(operations):
    """Pairs of conflicting operations of transactions that do not abort, the earlier one first. An operation is the n-th of its
    transaction."""
    aborted = {it.transaction for it in operations if it.kind == "a"}
    counts, before, pairs = defaultdict(int), [], set()
    for it in operations:
        counts[it.transaction] += 1
        name = it.transaction, counts[it.transaction]
        if it.transaction not in aborted:
            pairs |= {(other, name) for other, earlier in before if conflict(earlier, it)}
            before.append((name, it))
    return pairs


def are_equivalent(one, other):
    """The two histories have the same operations, those of each transaction in the same order, and order conflicting operations of
    transactions that do not abort the same way."""
    return by_transaction(one) == by_transaction(other) and ordered_conflicts(one) == ordered_conflicts(other)


def serial_history(operations, order):
    """The operations of these transactions, one transaction after another."""
    own = by_transaction(operations)
    return [it for transaction in order for it in own[transaction]]


def equivalent_orders(operations):
    """Every order of the committed transactions in which they are a serial history that is equivalent to the committed projection.
    The history is serializable if there is one."""
    projection = committed_projection(operations)
    orders = permutations(by_transaction(projection))
    return {order for order in orders if are_equivalent(projection, serial_history(projection, order))}


class History:
    """Operations, of which none follows the end of its transaction."""

    def __init__(self, operations):
        self.operations = operations
        self.commits = {it.transaction: place for place, it in enumerate(operations) if it.kind == "c"}
        self.aborts = {it.transaction: place for place, it in enumerate(operations) if it.kind == "a"}

    def counts(self):
        """The transactions, those that have committed and those that have aborted."""
        return len({it.transaction for it in self.operations}), len(self.commits), len(self.aborts)

    # Who has ended

    def has_committed(self, transaction, place):
        return self.commits.get(transaction, place) < place

    def has_aborted(self, transaction, place):
        return self.aborts.get(transaction, place) < place

    def has_ended(self, transaction, place):
        return self.has_committed(transaction, place) or self.has_aborted(transaction, place)

    # Who reads from whom

    def source(self, place):
        """The write that the read at the place reads from, or none: the last one before it of its item whose transaction has not
        aborted by then."""
        read = self.operations[place]
        for earlier in reversed(range(place)):
            write = self.operations[earlier]
            if (write.kind, write.item) == ("w", read.item) and not self.has_aborted(write.transaction, place):
                return earlier
        return None

    def reads_from_another(self, place):
        """The transaction that the operation at the place reads from, where it is a read and that is not its own."""
        operation = self.operations[place]
        source = self.source(place) if operation.kind == "r" else None
        writer = None if source is None else self.operations[source].transaction
        return None if writer == operation.transaction else writer

    # What breaks a class: the operation at place j, by the one at place i before it

    def breaks_recoverability(self, i, j):
        """A transaction commits that has read from another which has not committed."""
        read, commit = self.operations[i], self.operations[j]
        if commit.kind != "c" or read.kind != "r" or read.transaction != commit.transaction:
            return False
        writer = self.reads_from_another(i)
        return writer is not None and not self.has_committed(writer, j)

    def breaks_avoidance(self, i, j):
        """A transaction reads from another that has not committed."""
        if self.operations[j].kind != "r" or self.source(j) != i:
            return False
        writer = self.reads_from_another(j)
        return writer is not None and not self.has_committed(writer, j)

    def follows(self, i, j, kinds):
        """They conflict, are of these kinds, and the transaction of the earlier one has not ended."""
        one, other = self.operations[i], self.operations[j]
        return conflict(one, other) and one.kind + other.kind in kinds and not self.has_ended(one.transaction, j)

    def breaks_strictness(self, i, j):
        """A transaction reads or writes what another has written that has not ended."""
        return self.follows(i, j, ("wr", "ww"))

    def breaks_rigorousness(self, i, j):
        """So it does, or it writes what another has read that has not ended."""
        return self.follows(i, j, ("wr", "ww", "rw"))

    def breaks_commit_order(self, i, j):
        """Two committed transactions conflict, and the later operation's commits first."""
        one, other = self.operations[i], self.operations[j]
        if not conflict(one, other) or one.transaction not in self.commits or other.transaction not in self.commits:
            return False
        return self.commits[other.transaction] < self.commits[one.transaction]

    def first_violation(self, breaks):
        """The place of the first operation that breaks the class, or none."""
        for j in range(len(self.operations)):
            if any(breaks(i, j) for i in range(j)):
                return j
        return None

    def first_violations(self):
        """The same of each class."""
        return {breaks.__name__: self.first_violation(breaks) for breaks in self.classes()}

    def classes(self):
        return (self.breaks_recoverability, self.breaks_avoidance, self.breaks_strictness, self.breaks_rigorousness,
                self.breaks_commit_order)  # fmt: skip

    # The serialization graph

    def is_edge_by(self, i, j):
        """The two operations conflict, in this order, and their transactions have committed."""
        one, other = self.operations[i], self.operations[j]
        return i < j and conflict(one, other) and one.transaction in self.commits and other.transaction in self.commits

    def edges(self):
        """Pairs of transactions."""
        places = range(len(self.operations))
        return {(self.operations[i].transaction, self.operations[j].transaction) for j in places for i in range(j) if self.is_edge_by(i, j)}

    def serial_order(self):
        """A serial order of the committed transactions, of those that may come next always the one that committed first; or none,
        where the serialization graph has a cycle."""
        edges, left, order = self.edges(), set(self.commits), []
        while left:
            free = [it for it in left if not any(one in left and other == it for one, other in edges)]
            if not free:
                return None
            order.append(min(free, key=self.commits.get))
            left.remove(order[-1])
        return order


class LongHistory(History):
    """The same, for histories of many operations."""

    def __init__(self, operations):
        super().__init__(operations)
        self.found = self.search()

    def source(self, place):
        return self.sources.get(place)

    def first_violations(self):
        return self.found

    def search(self):
        """The first operation that breaks each class, and on the way the sources of all reads."""
        found = dict.fromkeys(breaks.__name__ for breaks in self.classes())
        self.sources, self.dirty = {}, defaultdict(list)
        self.standing, self.writers, self.readers = defaultdict(list), defaultdict(set), defaultdict(set)
        self.latest_read, self.latest_write = {}, {}
        for place, operation in enumerate(self.operations):
            for name, is_broken in self.broken_by(place, operation):
                if is_broken and found[name] is None:
                    found[name] = place
        return found

    def broken_by(self, place, operation):
        kind, transaction, item = operation
        if kind == "c":
            dirty = self.dirty.pop(transaction, ())
            yield "breaks_recoverability", any(not self.has_committed(it, place) for it in dirty)
        if kind not in ACCESSES:
            return
        if kind == "r":
            yield "breaks_avoidance", self.read(place, transaction, item)
        after_write = self.others(self.writers, item, transaction, place)
        yield "breaks_strictness", after_write
        after_read = kind == "w" and self.others(self.readers, item, transaction, place)
        yield "breaks_rigorousness", after_write or after_read
        if kind == "w":
            self.standing[item].append(place)
        (self.writers if kind == "w" else self.readers)[item].add(transaction)
        if transaction in self.commits:
            yield "breaks_commit_order", self.use(self.commits[transaction], kind, item)

    def read(self, place, transaction, item):
        """Whether it reads from another that has not committed."""
        writes = self.standing[item]
        while writes and self.has_aborted(self.operations[writes[-1]].transaction, place):
            writes.pop()
        if not writes:
            return False
        self.sources[place] = writes[-1]
        writer = self.operations[writes[-1]].transaction
        if writer == transaction or self.has_committed(writer, place):
            return False
        self.dirty[transaction].append(writer)
        return True

    def others(self, users, item, transaction, place):
        """Whether another of the users of the item has not ended."""
        users[item] = {it for it in users[item] if not self.has_ended(it, place)}
        return not users[item] <= {transaction}

    def use(self, commit, kind, item):
        """Whether one that it conflicts with commits later."""
        latest = self.latest_write.get(item, -1)
        if kind == "w":
            latest = max(latest, self.latest_read.get(item, -1))
        of_kind = self.latest_write if kind == "w" else self.latest_read
        of_kind[item] = max(of_kind.get(item, -1), commit)
        return latest > commit

    def edges(self):
        """From the last writer of an item, and to a writer from the readers since: each other edge is a path of these."""
        writer, readers, edges = {}, defaultdict(set), set()
        for kind, transaction, item in self.operations:
            if kind in ACCESSES and transaction in self.commits:
                before = {writer[item]} if item in writer else set()
                if kind == "w":
                    before |= readers.pop(item, set())
                    writer[item] = transaction
                else:
                    readers[item].add(transaction)
                edges |= {(it, transaction) for it in before if it != transaction}
        return edges

    def serial_order(self):
        following, waits = defaultdict(list), dict.fromkeys(self.commits, 0)
        for one, other in self.edges():
            following[one].append(other)
            waits[other] += 1
        free, order = [(self.commits[it], it) for it, number in waits.items() if not number], []
        heapq.heapify(free)
        while free:
            _, first = heapq.heappop(free)
            order.append(first)
            for it in following[first]:
                waits[it] -= 1
                if not waits[it]:
                    heapq.heappush(free, (self.commits[it], it))
        return order if len(order) == len(waits) else None
