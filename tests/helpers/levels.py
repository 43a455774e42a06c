"""The definitions of snapshot isolation and read committed for list appends, tried with every order of commits."""

import itertools

from .appends import ABORTED, COMMITTED, UNKNOWN, Transaction


def commit_orders(history):
    """Every order of commits: each committed transaction, no aborted one, and any of the unknown ones."""
    must = [it for it, one in enumerate(history) if one.status == COMMITTED]
    may = [it for it, one in enumerate(history) if one.status == UNKNOWN]
    for count in range(len(may) + 1):
        for some in itertools.combinations(may, count):
            yield from itertools.permutations(must + list(some))


def is_order(history, order):
    committed = [it for it, one in enumerate(history) if one.status == COMMITTED]
    return len(set(order)) == len(order) and set(committed) <= set(order) and all(history[it].status != ABORTED for it in order)


def left_by(history, order, key):
    """What the transactions of the order leave at the key."""
    return tuple(it[2] for one in order for it in history[one].operations if it[0] == "append" and it[1] == key)


def keys_of(history, one):
    return {it[1] for it in history[one].operations if it[0] == "append"}


def reads_with_own(one):
    """Each read of the transaction: its key, its own appends before it, and what it saw."""
    own = {}
    for word, key, what in one.effective():
        if word == "append":
            own[key] = own.get(key, ()) + (what,)
        else:
            yield key, own.get(key, ()), tuple(what)


def sees_start(history, order, one, start):
    return all(left_by(history, order[:start], key) + own == seen for key, own, seen in reads_with_own(history[one]))


def is_snapshot_run(history, order, starts):
    """Whether each transaction sees what the first ones of the order have left, as many as its start says, and whoever else appends to
    a key of its appends has committed before it begins or begins after it has committed."""
    return is_order(history, order) and all(
        0 <= start <= place and sees_start(history, order, one, start)
        and not any(keys_of(history, one) & keys_of(history, other) for other in order[start:place])
        for place, (one, start) in enumerate(zip(order, starts, strict=True)))


def snapshot_starts(history, order):
    """The starts of a snapshot run of the order, or None. Each can be chosen by itself."""
    starts = []
    for place, one in enumerate(order):
        fitting = [start for start in range(place + 1) if sees_start(history, order, one, start)
                   and not any(keys_of(history, one) & keys_of(history, other) for other in order[start:place])]
        if not fitting:
            return None
        starts.append(fitting[0])
    return starts


def is_snapshot_isolated(history):
    return any(snapshot_starts(history, order) is not None for order in commit_orders(history))


def keeps(before, order, starts):
    """Whether each begins after those of the order have committed that come before it, by these pairs."""
    places = {it: place for place, it in enumerate(order)}
    return all(places[one] < starts[places[other]] for one, other in before if one in places and other in places)


def is_ordered_isolated(history, before):
    """Whether there is a snapshot run that keeps the pairs. Each start can be chosen by itself, from the last that comes before on."""
    return any(all(any(is_start(history, order, place, start) for start in range(latest(before, order, place), place + 1))
                   for place in range(len(order))) for order in commit_orders(history))


def latest(before, order, place):
    """The place after the last of the order that comes before the transaction at the place."""
    return max((order.index(one) + 1 for one, other in before if other == order[place] and one in order), default=0)


def is_start(history, order, place, start):
    one = order[place]
    return sees_start(history, order, one, start) and not any(keys_of(history, one) & keys_of(history, other) for other in order[start:place])


def is_committed_run(history, order):
    """Whether each read sees what some front of the order has left, without its transaction; after an append of its own to the key, all
    that stand before its transaction."""
    return is_order(history, order) and all(
        any(left_by(history, order[:start], key) + own == seen
            and (not own or left_by(history, order[:start], key) == left_by(history, order[:place], key)) for start in range(place + 1))
        for place, one in enumerate(order) for key, own, seen in reads_with_own(history[one]))


def is_read_committed(history):
    return any(is_committed_run(history, order) for order in commit_orders(history))


def overwrites(history):
    """The pairs of committed transactions of which a committed reader saw a value of the first before one of the second, or one of the
    first and none yet of the second at the same key."""
    by = {(key, what): number for number, one in enumerate(history) if one.status == COMMITTED
          for word, key, what in one.operations if word == "append"}
    pairs = set()
    for one in history:
        for word, key, seen in one.effective():
            if word == "append":
                continue
            there = [it for it in seen if (key, it) in by]
            later = [value for of, value in by if of == key and value not in seen]
            pairs |= {(by[key, first], by[key, second]) for place, first in enumerate(there) for second in there[place + 1:] + later}
    return {(one, other) for one, other in pairs if one != other}


def is_write_order(history, order):
    places = {it: place for place, it in enumerate(order)}
    committed = {it for it, one in enumerate(history) if one.status == COMMITTED}
    return len(places) == len(order) and committed <= set(order) and all(places[one] < places[other] for one, other in overwrites(history))


def is_read_uncommitted(history):
    return any(is_write_order(history, order) for order in
               itertools.permutations(it for it, one in enumerate(history) if one.status == COMMITTED))


def may_have_no_write_order(history):
    """Whether the order of a transaction's own appends is another one in a read, or a value is there twice: no level is decided then."""
    for one in history:
        for word, key, seen in one.effective():
            if word == "append":
                continue
            if len(set(seen)) < len(seen):
                return True
            for other in history:
                mine = [it[2] for it in other.operations if it[0] == "append" and it[1] == key]
                places = [seen.index(it) for it in mine if it in seen]
                if places != sorted(places) or (places and any(it not in seen for it in mine[:len(places)])):
                    return True
    return False


def may_stay_open(history):
    """Whether two transactions that may have committed append to one key values that nobody saw."""
    seen = {(it[1], value) for one in history for it in one.effective() if it[0] == "r" for value in it[2]}
    unseen = [(number, it[1]) for number, one in enumerate(history) if one.status != ABORTED
              for it in one.operations if it[0] == "append" and (it[1], it[2]) not in seen]
    return any(one[1] == other[1] and one[0] != other[0] for one, other in itertools.combinations(unseen, 2))


# Histories


def drawn_split(draw):
    """Three to five transactions on one or two keys, whose reads see the committed lists at the start of each, or at any time before its
    commit. Nothing keeps two that append to one key apart."""
    keys, value, snapshots = draw.choice([1, 2, 2]), itertools.count(1), draw.random() < 0.7
    statuses = [draw.choices((COMMITTED, ABORTED, UNKNOWN), [8, 1, 1])[0] for _ in range(draw.randint(3, 5))]
    words = [[draw.choice(("append", "r")) for _ in range(draw.randint(1, 3))] for _ in statuses]
    history = [Transaction(status, [(it, draw.randrange(keys), next(value) if it == "append" else ()) for it in some])
               for status, some in zip(statuses, words)]
    order = [it for it, status in enumerate(statuses) if status == COMMITTED or status == UNKNOWN and draw.random() < 0.6]
    draw.shuffle(order)
    for place, one in enumerate(order):
        start, own, seen = draw.randint(0, place), {}, []
        for word, key, what in history[one].operations:
            if word == "append":
                own[key] = own.get(key, ()) + (what,)
            else:
                front = start if snapshots else place if own.get(key) else draw.randint(start, place)
                what = left_by(history, order[:front], key) + own.get(key, ())
            seen.append((word, key, what))
        history[one].operations = seen
    return history
