"""How often each anomaly is there that `sgt check --model list-append` counts, by the definitions."""

import collections

from .appends import ABORTED, COMMITTED


def counted(history):
    """The anomalies of a history that are there, each with its count: reads of committed transactions, or lost updates."""
    appends = [(number, place, key, what) for number, one in enumerate(history)
               for place, (word, key, what) in enumerate(one.operations) if word == "append"]
    reads = [(number, place, key, tuple(what)) for number, one in enumerate(history) if one.status == COMMITTED
             for place, (word, key, what) in enumerate(one.operations) if word == "r"]
    counts = collections.Counter(name for it in reads for name, shows in READS.items() if shows(history, appends, reads, *it))
    counts["lost-update"] = lost_updates(history)
    return {name: count for name, count in counts.items() if count}


def unwritten(history, appends, reads, reader, place, key, seen):
    """A value was seen that no transaction appends."""
    return any(all((key, value) != it[2:] for it in appends) for value in seen)


def aborted(history, appends, reads, reader, place, key, seen):
    """A value was seen that an aborted transaction appends."""
    return any(history[by].status == ABORTED and of == key and value in seen for by, _, of, value in appends)


def intermediate(history, appends, reads, reader, place, key, seen):
    """The last value by another transaction that may have committed is one after which it appends to the key a value that was not seen."""
    others = [(by, at) for value in seen for by, at, of, what in appends
              if (of, what) == (key, value) and by != reader and history[by].status != ABORTED]
    return any(by == others[-1][0] and at > others[-1][1] and of == key and value not in seen for by, at, of, value in appends) if others else False


def internal(history, appends, reads, reader, place, key, seen):
    """The list does not end with what its transaction had appended, or has what it appends only later."""
    mine = [(at, value) for by, at, of, value in appends if (by, of) == (reader, key)]
    before = tuple(value for at, value in mine if at < place)
    return seen[len(seen) - len(before):] != before or len(seen) < len(before) or any(at > place and value in seen for at, value in mine)


def twice(history, appends, reads, reader, place, key, seen):
    return len(set(seen)) < len(seen)


def incompatible(history, appends, reads, reader, place, key, seen):
    """The list is no prefix of the first of the longest reads of the key, or, with no value twice, has values of one transaction in
    another order."""
    longest = max((what for _, _, of, what in reads if of == key), key=len)
    at = {value: (by, place) for by, place, of, value in appends if of == key}
    swapped = len(set(seen)) == len(seen) and any(at[one][0] == at[other][0] and at[one][1] > at[other][1] for number, one in enumerate(seen) if one in at
                  for other in seen[number + 1:] if other in at)
    return seen != longest[:len(seen)] or swapped


READS = {"unwritten": unwritten, "G1a": aborted, "G1b": intermediate, "internal": internal, "duplicate-elements": twice,
         "incompatible-order": incompatible}


def lost_updates(history):
    """The transactions that append to a key after they read a version of it, by length and last value, that an earlier one read before
    it appended to it, if neither read has what one of the two appends."""
    updated, lost = {}, 0
    for one in history:
        for version, seen, value in updates(one.operations) if one.status == COMMITTED else ():
            if value in seen:
                continue
            if version in updated:
                before, other = updated[version]
                lost += value not in before and other not in seen
            else:
                updated[version] = seen, value
    return lost


def updates(operations):
    """The versions that a transaction reads before it uses their keys otherwise, and to which it then appends: each with what was seen,
    and the first value that it appends."""
    for key in {it[1] for it in operations}:
        mine = [it for it in operations if it[1] == key]
        appended = [it[2] for it in mine if it[0] == "append"]
        if mine[0][0] == "r" and appended:
            seen = tuple(mine[0][2])
            yield (key, len(seen), seen[-1:] or (0,)), seen, appended[0]
