"""What a history of SmallBank's procedures may be, written anew from docs/DEFINITIONS.md and docs/FORMATS.md, and the serial
run.

It knows entries by their texts alone: an event as `["step",0]`, a reply as `wrote 2/101 1100`.
"""

import json
from collections import Counter

MOST = 999_999_999_999_999

# The number of the empty procedure, which every opening has.
EMPTY = 65_535

# What a caller's line does to a record. A removal is a store of none.
REQUESTS = {"read": "look", "write": "store", "remove": "store"}


class Illegal(Exception):
    """A reply that the definitions do not allow, or another end than that of the serial run."""


class Asks(Exception):
    """The procedure aborts with a code."""


# The procedures: each read is given its value, and each write is reported.


def held(value):
    if abs(value) > MOST:
        raise Asks(1000)
    return value


def look(table, number, missing):
    value = yield "look", (table, number), None
    if value is None:
        raise Asks(missing)
    return value


def balance(name):
    customer = yield from look(0, name, 1)
    saving = yield from look(1, customer, 5)
    checking = yield from look(2, customer, 5)
    return held(saving + checking)


def deposit_checking(name, amount):
    if amount < 0:
        raise Asks(2)
    customer = yield from look(0, name, 1)
    checking = yield from look(2, customer, 5)
    checking = held(checking + amount)
    yield "store", (2, customer), checking
    return checking


def transact_saving(name, amount):
    customer = yield from look(0, name, 1)
    saving = yield from look(1, customer, 5)
    saving = held(saving + amount)
    if saving < 0:
        raise Asks(3)
    yield "store", (1, customer), saving
    return saving


def amalgamate(name, other):
    if name == other:
        raise Asks(4)
    first = yield from look(0, name, 1)
    second = yield from look(0, other, 1)
    saving = yield from look(1, first, 5)
    checking = yield from look(2, first, 5)
    both = held(saving + checking)
    yield "store", (1, first), 0
    yield "store", (2, first), 0
    theirs = yield from look(2, second, 5)
    yield "store", (2, second), held(theirs + both)
    return both


def write_check(name, amount):
    if amount < 0:
        raise Asks(2)
    customer = yield from look(0, name, 1)
    saving = yield from look(1, customer, 5)
    checking = yield from look(2, customer, 5)
    fee = 100 if held(saving + checking) < amount else 0
    checking = held(held(checking - amount) - fee)
    yield "store", (2, customer), checking
    return checking


def store_in_two_steps():
    """Stores 0 and then 100: what lies between is in no serial run."""
    yield "store", (3, 7), 0
    yield "store", (3, 7), 100


def find_all():
    """Answers what the two steps store, and asks where it is less."""
    value = yield from look(3, 7, 6)
    if value < 100:
        raise Asks(99)
    return value


def found(table, number, otherwise):
    """The value that is read, or another one where there is none."""
    value = yield "look", (table, number), None
    return otherwise if value is None else value


def open_or_remove(customer):
    """Removes a checking, or makes one where there is none, and answers what was there, or -1."""
    checking = yield from found(2, customer, -1)
    yield "store", (2, customer), 100 if checking == -1 else None
    return checking


def remove_and_find():
    """Removes a record, and answers what it finds of it, which is none: then it answers 5. It writes that to another one."""
    yield "store", (3, 7), None
    value = yield from found(3, 7, 5)
    yield "store", (3, 8), value
    return value


def remove_and_look(customer):
    """Removes a saving and looks for it, which asks. So the removal is undone, at the step or at the commit."""
    yield "store", (1, customer), None
    value = yield from look(1, customer, 77)
    return value


def nothing():
    """Accesses nothing, and has no answer. What such a transaction accesses its caller decides."""
    yield from ()


# The trees of those beyond SmallBank's, which an opening has to bring.
IN_TWO_STEPS = (
    '[0,[["put",3,7,0],["put",3,7,100]]],'
    '[0,[["look",0,3,7,6],["if",["less",["reg",0],100],[["ask",99]],[]],["answer",["reg",0]]]]'
)

REMOVERS = (
    '[1,[["find",0,2,["arg",0],-1],["if",["same",["reg",0],-1],[["put",2,["arg",0],100]],[["remove",2,["arg",0]]]],["answer",["reg",0]]]],'
    '[0,[["remove",3,7],["find",0,3,7,5],["put",3,8,["reg",0]],["answer",["reg",0]]]],'
    '[1,[["remove",1,["arg",0]],["look",0,1,["arg",0],77],["answer",["reg",0]]]]'
)

# Each with how many arguments it takes.
PROCEDURES = (
    (balance, 1),
    (deposit_checking, 2),
    (transact_saving, 2),
    (amalgamate, 2),
    (write_check, 2),
    (store_in_two_steps, 0),
    (find_all, 0),
    (open_or_remove, 1),
    (remove_and_find, 0),
    (remove_and_look, 1),
)


def procedure_at(number):
    """The procedure of a number, with how many arguments it takes."""
    return (nothing, 0) if number == EMPTY else PROCEDURES[number]


class Run:
    """A procedure on its way: what it does next is an access, or the code that it asks, or its end with an answer. After the end
    its caller may decide on accesses."""

    def __init__(self, procedure, args):
        self.call = procedure, args
        self.requests = []  # the accesses on which its caller decided: look or store, key, value
        self.course = procedure_at(procedure)[0](*args)
        self.go(None)

    def go(self, value):
        self.access = self.code = self.answer = None
        try:
            self.access = self.course.send(value)
        except Asks as asks:
            self.code = asks.args[0]
        except StopIteration as end:
            self.answer = end.value

    def reported(self):
        """What its caller gets at the end: its code, or its answer."""
        if self.code is not None:
            return f"asked {self.code}"
        return f"committed {'none' if self.answer is None else self.answer}"


def rows_of(opening):
    """The records that the accounts of an opening have, and those of the record lines after it."""
    first, *records = opening.splitlines()
    rows = {}
    for name, customer, saving, checking in json.loads(first)["accounts"]:
        rows |= {(0, name): customer, (1, customer): saving, (2, customer): checking}
    for _, table, number, value in map(json.loads, records):
        if (table, number) in rows:
            raise Illegal(f"{table}/{number} is put twice")
        rows[table, number] = value
    return rows


def key_text(key):
    return f"{key[0]}/{key[1]}"


def access_text(kind, key, value):
    """The reply to an access that was made."""
    if kind == "store" and value is None:
        return f"removed {key_text(key)}"
    verb = "read" if kind == "look" else "wrote"
    return f"{verb} {key_text(key)} {'none' if value is None else value}"


def stored(rows, accesses):
    """The rows after the stores of these accesses: kind, key, value."""
    changed = rows | {key: value for kind, key, value in accesses if kind == "store"}
    return {key: value for key, value in changed.items() if value is not None}


def database_text(rows):
    return [f"{key_text(key)} {rows[key]}" for key in sorted(rows)]


class Checker:
    """Takes the entries of a history one after another, and reports the first that is not legal."""

    def __init__(self, opening, rows=None):
        """Takes the records from the opening, or these after a cut."""
        first = json.loads(opening.splitlines()[0])
        self.most_live, self.begins, *asks = first["limits"]
        self.asks_at_commit = asks == [1]
        self.procedures = 5 + len(first["procedures"])
        self.opened = rows_of(opening) if rows is None else rows
        self.settled = dict(self.opened)
        self.runs = []  # of each transaction that was started
        self.fates = {}  # of each that has ended, as a reply behind `over`
        self.reported = []  # the calls that were committed or refused, in that order, with what each was answered, and the accesses on which its caller decided
        self.accesses = []  # of those that are live, in their order: who, look or store, key, value
        self.pairs = set()  # among those that are live: of two accesses in conflict the first one's, the second one's
        self.reads = set()  # who read from whom, while both are live
        self.busiest = 0
        self.removals = Counter()  # how many were kept, undone, read by another one before their commit

    def live(self):
        return [t for t in range(len(self.runs)) if t not in self.fates]

    def take(self, event, reply):
        kind, *rest = json.loads(event)
        if kind == "begin":
            wanted = self.start(EMPTY, [])
        else:
            wanted = self.start(*rest) if kind == "start" else self.of_one(kind, *rest, reply=reply)
        if wanted != reply:
            raise Illegal(f"{event} was answered {reply}, in place of {wanted}")
        self.busiest = max(self.busiest, len(self.live()))

    def start(self, procedure, args):
        if procedure >= self.procedures and procedure != EMPTY:
            return "no procedure"
        if len(args) != procedure_at(procedure)[1] or any(abs(arg) > MOST for arg in args):
            return "bad args"
        if len(self.runs) >= self.begins:
            return "spent"
        if len(self.live()) >= self.most_live:
            return "full"
        self.runs.append(Run(procedure, args))
        return f"started {len(self.runs) - 1}"

    def of_one(self, kind, t, *request, reply):
        if t >= len(self.runs):
            return "unknown"
        if t in self.fates:
            return f"over {self.fates[t]}"
        if kind == "quit":
            return self.abort(t, "quit")
        if kind in REQUESTS:
            return self.request(t, REQUESTS[kind], request, reply)
        return self.step(t, reply) if kind == "step" else self.commit(t)

    def step(self, t, reply):
        run = self.runs[t]
        if run.code is not None and not self.asks_at_commit:
            return self.abort(t, f"asked {run.code}")
        if run.access is None:
            return "ended"
        answer, made = self.access(t, *run.access, reply)
        if made:
            run.go(made[2])
        return answer

    def request(self, t, kind, request, reply):
        """An access on which the caller decides: a table, a number, and what is stored."""
        run = self.runs[t]
        if run.access is not None or run.code is not None:
            return "not ended"
        table, number, *value = request
        if value and abs(value[0]) > MOST:
            return "bad args"
        answer, made = self.access(t, kind, (table, number), value[0] if value else None, reply)
        if made:
            run.requests.append(made)
        return answer

    def access(self, t, kind, key, value, reply):
        """What an access is answered, and the access if it is made."""
        rivals = {u for u, other, at, _ in self.accesses if u != t and at == key and "store" in (kind, other)}
        if rivals & self.reached_from(t):
            return self.abort(t, self.walk_in(t, rivals, reply)), None
        self.pairs |= {(u, t) for u in rivals}
        if kind == "look":
            value = self.seen(t, key)
        self.accesses.append((t, kind, key, value))
        return access_text(kind, key, value), (kind, key, value)

    def seen(self, t, key):
        """What a read of t finds: the last write of a live one, or the committed value."""
        for u, kind, at, value in reversed(self.accesses):
            if kind == "store" and at == key:
                if u != t:
                    self.reads.add((t, u))
                    self.removals["read by another"] += value is None
                return value
        return self.settled.get(key)

    def reached_from(self, t):
        reached, new = set(), {t}
        while new:
            new = {b for a, b in self.pairs if a in new} - reached
            reached |= new
        return reached

    def walk_in(self, t, rivals, reply):
        """The cause of an abort by a cycle: any path from t that the access would close will do."""
        words = reply.split()
        if words[:2] != ["aborted", "cycle"] or "fell" not in words:
            return "cycle"
        walk = [int(word) for word in words[2 : words.index("fell")]]
        goes = all(pair in self.pairs for pair in zip(walk, walk[1:]))
        if walk[0] != t or walk[-1] not in rivals or not goes:
            return "cycle by another walk"
        return " ".join(words[1 : words.index("fell")])

    def abort(self, t, cause):
        return f"aborted {cause} fell {self.undo(t, cause)}"

    def undo(self, t, cause):
        """Ends t and those that read from it, and returns these."""
        fell, new = set(), {t}
        while new:
            new = {reader for reader, writer in self.reads if writer in new} - fell
            fell |= new
        self.end(t, f"aborted {cause}")
        for u in fell:
            self.end(u, f"fell {t}")
        return " ".join(map(str, sorted(fell))) or "none"

    def commit(self, t):
        run = self.runs[t]
        if run.access is not None or run.code is not None and not self.asks_at_commit:
            return "not ended"
        before = [u for u, v in self.pairs if v == t]
        if before:
            return f"waits {min(before)}"
        if run.code is not None:
            self.reported.append((run.call, f"asked {run.code}", []))
            return f"refused {run.code} fell {self.undo(t, f'asked {run.code}')}"
        self.settled = stored(self.settled, [access for u, *access in self.accesses if u == t])
        self.end(t, "committed")
        self.reported.append((run.call, run.reported(), run.requests))
        return run.reported()

    def end(self, t, fate):
        removed = sum(u == t and kind == "store" and value is None for u, kind, _, value in self.accesses)
        self.removals["kept" if fate == "committed" else "undone"] += removed
        self.fates[t] = fate
        self.accesses = [access for access in self.accesses if access[0] != t]
        self.pairs = {pair for pair in self.pairs if t not in pair}
        self.reads = {pair for pair in self.reads if t not in pair}

    def serial(self):
        """What the committed and refused ones leave, run one after another. Each has to give what it was answered, and the
        values that its caller read."""
        rows = dict(self.opened)
        for (procedure, args), reported, requests in self.reported:
            run, own = Run(procedure, args), dict(rows)
            while run.access is not None:
                kind, key, _ = run.access
                if kind == "store":
                    own = stored(own, [run.access])
                run.go(own.get(key))
            if run.reported() != reported:
                raise Illegal(f"the serial run of {procedure} {args} gives {run.reported()}, and not {reported}")
            for kind, key, value in requests:
                if kind == "look" and own.get(key) != value:
                    raise Illegal(f"in the serial run {key_text(key)} is {own.get(key)}, and not {value} as its caller was told")
                own = stored(own, [(kind, key, value)])
            if run.code is None:
                rows = own
        return rows


def judge(script, wrote):
    """Takes the replies of a script, whose last lines are its records, and gives how many came to what. At each cut and at the end
    the serial run has to leave what is committed. After a cut transactions are numbered anew."""
    first, *lines = script.splitlines()
    records = [line for line in lines if line.startswith('["record",')]
    events, replies = lines[len(records) :], wrote.splitlines()
    opening = "\n".join([first, *records])
    checker, count, came = Checker(opening), 0, Counter()
    for event, reply in zip(events, replies):
        came[reply.split()[0]] += 1
        if event != '["cut"]':
            checker.take(event, reply)
            count += 1
            continue
        wanted = "still live" if checker.live() else f"cut {count}"
        if reply != wanted:
            raise Illegal(f"a cut was answered {reply}, in place of {wanted}")
        if not checker.live():
            came += ended(checker)
            checker, count = Checker(opening, checker.settled), 0
    if database_text(checker.settled) != replies[len(events) :]:
        raise Illegal(f"the records at the end are {replies[len(events):]}, and not {database_text(checker.settled)}")
    return came + ended(checker)


def ended(checker):
    """What came of removals, where the serial run leaves what is committed."""
    if checker.serial() != checker.settled:
        raise Illegal(f"the serial run leaves {checker.serial()}, and not {checker.settled}")
    return Counter({f"removals {what}": number for what, number in checker.removals.items()})
