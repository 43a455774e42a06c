"""Why the transactions of a script were aborted, and for which their commits wait, worked out anew from its lines and their replies.

It knows the accesses by their replies alone, and of procedures those of `legal`, for the access that an aborted transaction was
about to make.
"""

import json
import random
import re

from helpers.legal import EMPTY, IN_TWO_STEPS, REMOVERS, REQUESTS, Run, key_text

OPENING = '{{"limits":[8,100000{asks}],"accounts":[[1,101,500,1000],[2,102,300,200],[3,103,0,90]],"procedures":[' + f"{IN_TWO_STEPS},{REMOVERS}" + "]}}\n"

# What lines may put after line 1: the account that transfers miss, and what the two steps store.
RECORDS = ((0, -60, 104), (1, 104, 70), (2, 104, -7), (3, 7, 100))

# How many arguments each procedure takes.
ARGUMENTS = (1, 2, 2, 2, 2, 0, 0, 1, 0, 1)


def drawn(seed, events):
    """A script of this many events, with cuts now and then."""
    dice = random.Random(seed)
    lines = [OPENING.format(asks=dice.choice(("", ",1")))]
    lines += [f'["record",{table},{number},{value}]\n' for table, number, value in RECORDS if dice.random() < 0.5]
    started = 0
    while len(lines) < events:
        draw = dice.random()
        recent = range(max(0, started - 7), started + 1)
        if draw < 0.05:
            lines.append('["begin"]\n')
            started += 1
        elif draw < 0.15:
            procedure = dice.randrange(10)
            args = [dice.choice((101, 102) if procedure > 6 else (1, 1, 2)), dice.choice((1, 2, 2, -60))][: ARGUMENTS[procedure]]
            lines.append(f'["start",{procedure},{json.dumps(args)}]\n')
            started += 1
        elif draw < 0.7:
            lines.append(f'["step",{dice.choice(recent)}]\n')
        elif draw < 0.85:
            key = dice.choice(((1, 101), (2, 101), (2, 102), (3, 7), (3, 8)))
            kind = dice.choice(("read", "read", "write", "remove"))
            last = [dice.choice((0, 100, 500))] if kind == "write" else []
            lines.append(json.dumps([kind, dice.choice(recent), *key, *last]) + "\n")
        elif draw < 0.995:
            lines.append(f'["{dice.choice(("commit", "commit", "commit", "quit"))}",{dice.choice(recent)}]\n')
        else:
            lines += [f'["quit",{t}]\n' for t in recent] + ['["cut"]\n']
            started = 0
    return "".join(lines)


def explanation(script, replies):
    """The explanations of a script that ends well, by its lines and their replies."""
    reported = []
    part = Part()
    lines = list(enumerate(script.splitlines()[1:], start=2))
    events = [(line, event) for line, event in lines if not event.startswith('["record",')]
    for (line, event), reply in zip(events, replies.splitlines()):
        if reply.startswith("cut "):
            part = Part(part.is_after_cut or reply != "cut 0")
        elif reply != "still live":
            reported += [f"line {line}: {text}\n" for text in part.take(line, json.loads(event), reply)]
    if live := sorted(part.live):
        are = "transaction is" if len(live) == 1 else "transactions are"
        reported.append(f"{len(live)} {are} live at the end: {', '.join(map(str, live))}\n")
    return "".join(reported)


NAMES = ("Balance", "DepositChecking", "TransactSaving", "Amalgamate", "WriteCheck")

# What a code of those five means.
MEANINGS = {
    1: "the name is unknown",
    2: "the amount is negative",
    3: "the saving would be negative",
    4: "both names are the same",
    5: "there is no saving or no checking",
}

RANGE = "and has to be from -999999999999999 to 999999999999999"


def name_of(procedure):
    return NAMES[procedure] if procedure < 5 else f"procedure {procedure}"


def code_text(procedure, code):
    """A code with its words."""
    meaning = "a result is not a value, or a divisor is 0" if code == 1000 else MEANINGS.get(code) if procedure < 5 else None
    return f"code {code} ({meaning})" if meaning else f"code {code}"


def refusal(event, reply):
    """Why an event was refused with this reply."""
    kind, *rest = event
    if reply == "bad args" and kind == "write":
        return f"the value is {rest[-1]}, {RANGE}"
    if reply == "bad args":
        procedure, args = rest
        if len(args) != ARGUMENTS[procedure]:
            return f"{name_of(procedure)} takes {ARGUMENTS[procedure]} argument{'s' * (ARGUMENTS[procedure] != 1)}, found {len(args)}"
        return next(f"argument {place} is {arg}, {RANGE}" for place, arg in enumerate(args) if abs(arg) >= 10**15)
    return {
        "no procedure": f"there is no procedure {rest[0] if rest else ''}",
        "spent": "as many have started as line 1 allows",
        "full": "as many are live as line 1 allows",
        "not ended": f"the procedure of {rest[0] if rest else ''} has not ended: it has another step",
        "over": f"transaction {rest[0] if rest else ''} has ended",
        "unknown": f"no transaction has started with the number {rest[0] if rest else ''}",
    }[reply]


class Part:
    """What stands between two cuts."""

    def __init__(self, is_after_cut=False):
        self.is_after_cut = is_after_cut  # of at least one event
        self.calls = {}  # of each that was started
        self.live = set()
        self.gone = set()  # those that were aborted or fell
        self.accesses = []  # line, whose, "read", "wrote" or "removed", key, what was read or written, from whom a read was

    def take(self, line, event, reply):
        """The texts that tell of an abort."""
        kind, *rest = event
        first = rest[0] if rest else None
        if match := re.fullmatch("started ([0-9]+)", reply):
            self.calls[int(match[1])] = (EMPTY, []) if kind == "begin" else rest
            self.live.add(int(match[1]))
        elif match := re.fullmatch("(read|wrote|removed) ([0-9]+/-?[0-9]+)(?: (.*))?", reply):
            self.accesses.append((line, first, match[1], match[2], match[3], self.source(match[2])))
        elif reply in ("bad args", "no procedure", "spent", "full", "unknown", "not ended"):
            return [refusal(event, reply) + " since the cut" * (reply == "unknown" and self.is_after_cut)]
        elif reply.startswith("over "):
            return [refusal(event, "over")]
        elif reply.startswith("waits "):
            edges = [(t, self.edge(t, first)) for t in sorted(self.live - {first})]
            return [f"{first} waits for {t}: {edge}" for t, edge in edges if edge]
        elif reply.startswith("committed "):
            self.live.remove(first)
        elif match := re.fullmatch("(?:aborted|refused) (.*) fell (.*)", reply):
            walk = [int(t) for t in match[1].split()[1:]] if match[1].startswith("cycle ") else []
            fell = [] if match[2] == "none" else [int(t) for t in match[2].split()]
            codes = re.findall("^(?:asked )?([0-9]+)$", match[1])
            texts = [f"{name_of(self.calls[first][0])} aborted {first} with {code_text(self.calls[first][0], int(code))}" for code in codes]
            texts += self.unsettled(first, self.live - {first, *fell}) * match[1].startswith("asked ")
            texts += [self.edge(t, u) for t, u in zip(walk, walk[1:])] + ([self.pending(walk[-1], walk[0], event)] if walk else [])
            texts += [self.fall(u, {first, *fell}) for u in fell]
            self.gone |= {first, *fell}
            self.live -= {first, *fell}
            return texts
        return []

    def source(self, key):
        """Whose write a read of the key finds, if one of those that were not aborted by now has written it."""
        stores = [whose for _, whose, done, other, *_ in self.accesses if done != "read" and other == key and whose not in self.gone]
        return stores[-1] if stores else None

    def conflicting(self, t, done, key, accesses):
        """The first look and the first store of the key by a transaction that conflict with such an access, as text."""
        own = [(did, line) for line, whose, did, other, *_ in accesses if (whose, other) == (t, key)]
        looks = [(did, line) for did, line in own if did == "read" and done != "read"]
        stores = [(did, line) for did, line in own if did != "read"]
        return " and".join(f" {did} at line {line}" for did, line in looks[:1] + stores[:1])

    def edge(self, t, u):
        """By the first access of the second that conflicts with one of the first before it. None if there is no such."""
        for place, (line, whose, done, key, *_) in enumerate(self.accesses):
            earlier = self.conflicting(t, done, key, self.accesses[:place])
            if whose == u and earlier:
                return f"{u} {done} {key} at line {line}, which {t}{earlier}"
        return None

    def pending(self, t, u, event):
        """By the access that the second was about to make: that of its caller's line, or that of its procedure."""
        if event[0] in REQUESTS:
            would, key = event[0], tuple(event[2:4])
        else:
            run = Run(*self.calls[u])
            for _, whose, done, _, value, _ in self.accesses:
                if whose == u:
                    run.go(None if done != "read" or value == "none" else int(value))
            kind, key, stored = run.access
            would = "read" if kind == "look" else "remove" if stored is None else "write"
        return f"{u} would {would} {key_text(key)}, which {t}{self.conflicting(t, would, key_text(key), self.accesses)}"

    def unsettled(self, u, live):
        """By its first read of a value of each of these."""
        reads = [(line, key, source) for line, whose, done, key, _, source in self.accesses if (whose, done) == (u, "read")]
        firsts = [next(((key, t, line) for line, key, source in reads if source == t), None) for t in sorted(live)]
        return [f"the code may rest on an uncommitted value: {u} read {key} of {t} at line {line}" for key, t, line in filter(None, firsts)]

    def fall(self, u, undone):
        """By its first look that read from another one of these."""
        for line, whose, done, key, _, source in self.accesses:
            if whose == u and done == "read" and source in undone - {u}:
                return f"{u} read {key} of {source} at line {line}"
        raise AssertionError(f"{u} has read from none of {undone}")
