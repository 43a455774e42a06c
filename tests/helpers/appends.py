"""The definitions of list appends: what a serial run is, tried with every order; and histories of a few transactions, drawn or all."""

import itertools
import json

COMMITTED, ABORTED, UNKNOWN = "ok", "fail", "info"
STATUSES = (COMMITTED, ABORTED, UNKNOWN)


class Transaction:
    """Its status, and its operations: ("append", key, value) or ("r", key, values). Only a committed one has reads with values."""

    def __init__(self, status, operations):
        self.status, self.operations = status, operations

    def effective(self):
        return [it for it in self.operations if it[0] == "append" or self.status == COMMITTED and it[2] is not None]


def sees_all(operations, contents):
    """Runs the operations on the lists, and returns whether each read sees what was observed."""
    for word, key, what in operations:
        if word == "append":
            contents[key] = contents.get(key, ()) + (what,)
        elif contents.get(key, ()) != tuple(what):
            return False
    return True


def is_serial_run(history, order):
    if len(set(order)) != len(order) or any(history[it].status == ABORTED for it in order):
        return False
    if any(one.status == COMMITTED and number not in order for number, one in enumerate(history)):
        return False
    contents = {}
    return all(sees_all(history[it].effective(), contents) for it in order)


def keeps_time(spans, order):
    """Whether who ended before another began comes first."""
    places = {it: place for place, it in enumerate(order)}
    return all(places[one] < places[other] for one in order for other in order if spans[one][1] < spans[other][0])


def serial_orders(history):
    """All orders that are serial runs."""
    must = [it for it, one in enumerate(history) if one.status == COMMITTED]
    may = [it for it, one in enumerate(history) if one.status == UNKNOWN]
    for count in range(len(may) + 1):
        for some in itertools.combinations(may, count):
            for order in itertools.permutations(must + list(some)):
                if is_serial_run(history, order):
                    yield order


def precedences(history):
    """The pairs of transactions of which what was read shows that the first comes before the second in each serial run."""
    by = {(key, what): number for number, one in enumerate(history) for word, key, what in one.operations if word == "append"}
    pairs = set()
    for reader, one in enumerate(history):
        for word, key, seen in one.effective():
            if word == "append":
                continue
            pairs |= {(number, reader) if value in seen else (reader, number) for (of, value), number in by.items() if of == key}
            pairs |= {(by[key, first], by[key, second]) for first, second in itertools.combinations(seen, 2)}
    return {(one, other) for one, other in pairs if one != other}


def shortest_cycle(pairs):
    """How many pairs the shortest cycle has, or None if there is none."""
    nodes, walks, length = {it for pair in pairs for it in pair}, set(pairs), 1
    while walks and length <= len(nodes):
        if any(one == other for one, other in walks):
            return length
        walks, length = {(one, then) for one, other in walks for begin, then in pairs if begin == other}, length + 1
    return None


FOREVER = 10**9


def entries_of(draw, history):
    """The history as entries of Jepsen, in a drawn order, and from which entry to which each transaction ran, from 1. Transactions are
    numbered in the order in which they began. Processes are numbers or texts, and an empty list that was read may be null."""
    named = draw.random() < 0.5
    running, waiting, entries, spans = [], list(range(len(history))), [], {}
    while waiting or running:
        if waiting and (not running or draw.random() < 0.6):
            one = waiting.pop(0)
            value = [[word, key, what if word == "append" else None] for word, key, what in history[one].operations]
            entries.append({"type": "invoke", "process": f"c{one}" if named else one, "f": "txn", "value": value})
            spans[one] = (len(entries), FOREVER)
            running.append(one)
            continue
        one = running.pop(draw.randrange(len(running)))
        status = history[one].status
        if status == UNKNOWN and draw.random() < 0.5:
            continue  # it never ends
        value = [as_seen(draw, it) for it in history[one].operations] if status == COMMITTED else None
        entries.append({"type": status, "process": f"c{one}" if named else one, "f": "txn", "value": value})
        if status != UNKNOWN:
            spans[one] = (spans[one][0], len(entries))
    return entries, spans


def as_seen(draw, operation):
    word, key, what = operation
    return [word, key, None if what == () and draw.random() < 0.3 else what]


def lines_of(entries):
    return "".join(json.dumps(it) + "\n" for it in entries)


# Histories


def all_small(transactions, operations):
    """All histories of one key with so many transactions of at most so many operations: a read sees any two values, or one or none,
    of those that are appended and of one that is not."""
    shapes = [it for n in range(1, operations + 1) for it in itertools.product("ar", repeat=n)]
    for statuses in itertools.combinations_with_replacement(STATUSES, transactions):
        for chosen in itertools.product(shapes, repeat=transactions):
            if any("r" in shape and status != COMMITTED for status, shape in zip(statuses, chosen)):
                continue
            count = sum(shape.count("a") for shape in chosen)
            reads = sum(shape.count("r") for shape in chosen)
            values = range(1, count + 2)
            lists = [it for n in range(3) for it in itertools.product(values, repeat=n)]
            for seen in itertools.product(lists, repeat=reads):
                numbers, left = itertools.count(1), iter(seen)
                yield [
                    Transaction(status, [("append", 0, next(numbers)) if it == "a" else ("r", 0, next(left)) for it in shape])
                    for status, shape in zip(statuses, chosen)
                ]


def drawn(draw):
    """Three to five transactions on one or two keys. What they read comes of a run in some order, whole or interleaved, and is spoiled
    at times."""
    number, keys, value = draw.randint(3, 5), draw.choice([1, 2, 2]), itertools.count(1)
    plan = []
    for _ in range(number):
        status = draw.choices(STATUSES, [6, 1, 2])[0]
        words = [draw.choice(("append", "r")) for _ in range(draw.randint(1, 4))]
        plan.append((status, [[word, draw.randrange(keys), next(value) if word == "append" else ()] for word in words]))
    run(draw, plan)
    if draw.random() < 0.3:
        spoil(draw, [it for status, operations in plan for it in operations if it[0] == "r" and status == COMMITTED])
    return [Transaction(status, [tuple(it) for it in operations]) for status, operations in plan]


def run(draw, plan):
    """Fills in what is read, by a run in a drawn order."""
    effective = {COMMITTED: 1.0, UNKNOWN: 0.6, ABORTED: 0.1}
    left = {it: list(operations) for it, (status, operations) in enumerate(plan) if draw.random() < effective[status]}
    contents, now, whole = {}, None, draw.random() < 0.5
    while left:
        if now not in left or not whole and draw.random() < 0.4:
            now = draw.choice(sorted(left))
        operation = left[now].pop(0)
        if not left[now]:
            del left[now]
        word, key, what = operation
        if word == "append":
            contents[key] = contents.get(key, ()) + (what,)
        else:
            operation[2] = contents.get(key, ())


def spoil(draw, reads):
    if not reads:
        return
    operation = draw.choice(reads)
    values = list(operation[2])
    if draw.random() < 0.4:
        values.insert(draw.randint(0, len(values)), draw.randint(1, 8))
    elif draw.random() < 0.5:
        draw.shuffle(values)
    elif values:
        values.pop(draw.randrange(len(values)))
    operation[2] = tuple(values)
