#!/usr/bin/env python3
"""Draws hostile lines, runs each in a script after a good line 1, and compares what the script writes and how it ends with what
another reader of lines says, which is written apart: JSON as Python reads it, less what it takes beyond JSON.

    tests/lines.py crates/sgt_bank_runs/out/sgt_bank_runs

The program runs many scripts in one process. The drawn lines are events; records; events, records, openings and trees of JSON that are changed at
some places; trees; texts with escapes; bytes that are no text; deep nesting; long numbers; lines about as long as one may be.
Each case is reported as in `tests/program.py`, and the last line counts them.
"""

import json
import math
import os
import random
import re
import subprocess
import sys
import tempfile
from collections import Counter

sys.dont_write_bytecode = True
from helpers.cases import Differs, same, run_cases  # noqa: E402

SEED, LINES, LINES_OF_A_RUN = 1, 1_000_000, 20_000

# The greatest value, and the number of the empty procedure, which every script has.
MOST, EMPTY = 999_999_999_999_999, 65_535

# The most bytes of a line, and the most lists and objects within each other.
LONGEST_LINE, DEEPEST = 65_536, 127


# Which event a line is


class Refused(ValueError):
    """What JSON has not, and Python takes."""


def no_constant(word):
    raise Refused(word)


def finite(text):
    number = float(text)
    if math.isinf(number):
        raise Refused(text)
    return number


def whole(text):
    """The whole number; `-0` is a float, and so is what does not fit 64 bits."""
    if len(text) > 20:
        return finite(text)
    number = int(text)
    return -0.0 if text == "-0" or not -(2**63) <= number < 2**64 else number


# Python takes one half of a surrogate pair alone. After a backslash that is itself escaped stands no escape.
STRING = re.compile(rb'"(?:[^"\\]|\\.)*"', re.S)
HALF = re.compile(r"[\ud800-\udfff]")
BRACKETS = re.compile(rb"[\[\]{}]")


def depth(line):
    """How many lists and objects stand within each other at most."""
    deepest = now = 0
    for bracket in BRACKETS.findall(STRING.sub(b"", line)):
        now += 1 if bracket in b"[{" else -1
        deepest = max(deepest, now)
    return deepest


def has_half(tree):
    """Whether some text of a tree has one half of a pair alone."""
    rest = [tree]
    while rest:
        one = rest.pop()
        if isinstance(one, str):
            if HALF.search(one):
                return True
        elif isinstance(one, list):
            rest += one
        elif isinstance(one, Pairs):
            for key, value in one.pairs:
                rest += (key, value)
    return False


class Pairs:
    """An object, whose keys may come twice."""

    def __init__(self, pairs):
        self.pairs = pairs


READER = json.JSONDecoder(object_pairs_hook=Pairs, parse_float=finite, parse_int=whole, parse_constant=no_constant)


def tree_of(line):
    """The tree of a line, or an error where it is no JSON."""
    text = line.decode("utf-8").strip(" \t\r\n")
    # Few lines have so many brackets that they may be too deep.
    if line.count(b"[") + line.count(b"{") > DEEPEST and depth(line) > DEEPEST:
        raise Refused(line)
    tree, end = READER.raw_decode(text)
    if end < len(text) or b"\\u" in line and has_half(tree):
        raise Refused(line)
    return tree


def is_number(one, least, most):
    return type(one) is int and least <= one <= most


def is_place(t, table, number):
    """Whether these are a transaction and a record's table and number."""
    return is_number(t, 0, 2**32 - 1) and is_number(table, 0, 7) and is_number(number, -MOST, MOST)


def event_in(tree):
    """The event that a tree spells, if it spells one."""
    if not isinstance(tree, list):
        return None
    if tree == ["begin"]:
        return "start", EMPTY, []
    if len(tree) == 4 and tree[0] in ("read", "remove") and is_place(*tree[1:]):
        return tuple(tree)
    if len(tree) == 5 and tree[0] == "write" and is_place(*tree[1:4]) and is_number(tree[4], -(2**63), 2**63 - 1):
        return tuple(tree)
    if len(tree) == 2 and tree[0] in ("step", "commit", "quit") and is_number(tree[1], 0, 2**32 - 1):
        return tuple(tree)
    if len(tree) == 3 and tree[0] == "start" and is_number(tree[1], 0, 2**16 - 1) and isinstance(tree[2], list):
        if len(tree[2]) <= 4 and all(is_number(arg, -(2**63), 2**63 - 1) for arg in tree[2]):
            return tuple(tree)
    return None


def record_in(tree):
    """The record line that a tree spells, if it spells one."""
    if isinstance(tree, list) and len(tree) == 4 and tree[0] == "record":
        if all(is_number(number, -(2**63), 2**63 - 1) for number in tree[1:]):
            return tuple(tree)
    return None


def read(line):
    """The event or the record of a line, or the name of its fault."""
    if len(line) > LONGEST_LINE:
        return "long line"
    try:
        tree = tree_of(line)
    except (ValueError, RecursionError):
        return "not JSON"
    return event_in(tree) or record_in(tree) or "bad line"


# Where a line stands

UNKNOWN, DEPOSITED, REMOVED = "unknown\n", "committed 1100\n", "committed none\n"
RECORDS = "0/1 101\n0/2 102\n1/101 500\n1/102 0\n2/101 1000\n2/102 200\n"
ACCOUNTS = '"accounts":[[1,101,500,1000],[2,102,0,200]]'


class Place:
    """A line 1 and events after it, and the next replies: to a valid start, and to the step, commit and abort of each transaction,
    by its number. They were written by hand from the formats, for a few calls of SmallBank's procedures and of line 1's. `written` is what reads
    find of records that have been written; `closing` has the writes that would close a cycle, by transaction and record, and their
    replies."""

    def __init__(self, limits, procedures, events, replies, arguments, started, transactions, written=None, closing=None):
        self.before = f'{{"limits":{limits},{ACCOUNTS},"procedures":{procedures}}}\n{events}'.encode()
        self.number = self.before.count(b"\n") + 1
        self.replies, self.arguments, self.started = replies, arguments, started
        self.transactions = transactions
        self.written, self.closing = written or {}, closing or {}

    def taken(self, what):
        """What a record line is here, directly after line 1."""
        _, table, number, value = what
        if self.replies:
            return "bad line"
        if not 0 <= table <= 7 or abs(number) > MOST or abs(value) > MOST or f"{table}/{number} " in RECORDS:
            return "bad record"
        return "record"

    def reply(self, event):
        word, number, *rest = event
        if word != "start":
            if number >= len(self.transactions):
                return UNKNOWN
            if word not in ("step", "commit", "quit"):
                return self.access(number, word, *rest)
            return self.transactions[number][("step", "commit", "quit").index(word)]
        if number >= len(self.arguments) and number != EMPTY:
            return "no procedure\n"
        args = rest[0]
        if len(args) != (0 if number == EMPTY else self.arguments[number]) or any(abs(arg) > MOST for arg in args):
            return "bad args\n"
        return self.started

    def access(self, t, word, table, number, value=None):
        """The reply to an access on which a caller decides. Only BUSY and GONE have transactions whose procedures have ended."""
        ended = self.transactions[t][0]
        if ended != "ended\n":
            return ended if ended.startswith("over") else "not ended\n"
        if value is not None and abs(value) > MOST:
            return "bad args\n"
        key = f"{table}/{number}"
        if word == "read":
            found = dict(row.split(" ") for row in RECORDS.splitlines()) | self.written
            return f"read {key} {found.get(key, 'none')}\n"
        if (t, key) in self.closing:
            return self.closing[t, key]
        return f"removed {key}\n" if word == "remove" else f"wrote {key} {value}\n"


CYCLE, CYCLE_OF_GONE = "aborted cycle 1 2 fell 2\n", "aborted cycle 0 1 fell 1\n"
QUIT = "aborted quit fell none\n"
OF_FIVE = (1, 2, 2, 2, 2)

FRESH = Place("[8,100]", "[]", "", "", OF_FIVE, "started 0\n", ())

# As many have been started as may be.
SPENT = Place(
    "[8,1]", "[]", '["start",0,[1]]\n', "started 0\n", OF_FIVE, "spent\n", (("read 0/1 101\n", "not ended\n", QUIT),)
)

# As many are live as may be. The extra procedure, 5, takes no arguments.
FULL = Place(
    "[1,9]", '[[0,[["put",3,7,4]]]]', '["start",5,[]]\n', "started 0\n", (*OF_FIVE, 0), "full\n", (("wrote 3/7 4\n", "not ended\n", QUIT),)
)

# Transaction 0 is committed; 1 has written 2/101, and 2 has read that and 0/1 and 1/101; 3 has read one record, and 4 was aborted by its
# caller.
BUSY = Place(
    "[8,100]",
    "[]",
    '["start",0,[2]]\n["step",0]\n["step",0]\n["step",0]\n["commit",0]\n["start",1,[1,100]]\n["step",1]\n["step",1]\n["step",1]\n'
    '["start",0,[1]]\n["step",2]\n["step",2]\n["step",2]\n["start",3,[1,2]]\n["step",3]\n["start",2,[2,5]]\n["quit",4]\n',
    "started 0\nread 0/2 102\nread 1/102 0\nread 2/102 200\ncommitted 200\nstarted 1\nread 0/1 101\nread 2/101 1000\n"
    "wrote 2/101 1100\nstarted 2\nread 0/1 101\nread 1/101 500\nread 2/101 1100\nstarted 3\nread 0/1 101\nstarted 4\n" + QUIT,
    OF_FIVE,
    "started 5\n",
    (
        ("over committed\n",) * 3,
        ("ended\n", DEPOSITED, "aborted quit fell 2\n"),
        ("ended\n", "waits 1\n", QUIT),
        ("read 0/2 102\n", "not ended\n", QUIT),
        ("over aborted quit\n",) * 3,
    ),
    {"2/101": "1100"},
    {(1, key): CYCLE for key in ("0/1", "1/101", "2/101")},
)

# Transaction 0 has removed 2/101, and 1 has found that there is none.
GONE = Place(
    "[8,100]",
    '[[0,[["remove",2,101]]],[1,[["find",0,2,["arg",0],7],["answer",["reg",0]]]]]',
    '["start",5,[]]\n["step",0]\n["start",6,[101]]\n["step",1]\n',
    "started 0\nremoved 2/101\nstarted 1\nread 2/101 none\n",
    (*OF_FIVE, 0, 1),
    "started 2\n",
    (("ended\n", REMOVED, "aborted quit fell 1\n"), ("ended\n", "waits 0\n", QUIT)),
    {"2/101": "none"},
    {(0, "2/101"): CYCLE_OF_GONE},
)

REPLIES = {
    *("started 0\n", "started 5\n", "no procedure\n", "bad args\n", "spent\n", "full\n", UNKNOWN, "over committed\n"),
    *("over aborted quit\n", "read 0/1 101\n", "read 0/2 102\n", "wrote 3/7 4\n", "ended\n", "not ended\n", "waits 1\n"),
    *(DEPOSITED, QUIT, CYCLE, "aborted quit fell 2\n"),
    *("started 2\n", "waits 0\n", REMOVED, CYCLE_OF_GONE, "aborted quit fell 1\n"),
}

# The records at the end, if such a commit is the last reply.
LEFT = {DEPOSITED: RECORDS.replace(" 1000", " 1100"), REMOVED: RECORDS.replace("2/101 1000\n", "")}

# A reply to an access of a caller counts by its first word.
ACCESSED = re.compile("read|wrote|removed")

# What stands after a line: nothing, not even its end; its end; that and an empty line; that and a step of one not started.
NOTHING, BREAK, EMPTY_LINE, STEP = b"", b"\n", b"\n\n", b'\n["step",4294967295]\n'


def with_row(records, table, number, value):
    """These records with one more, in their order."""
    rows = [*records.splitlines(), f"{table}/{number} {value}"]
    return "".join(f"{row}\n" for row in sorted(rows, key=lambda row: [int(part) for part in row.split(" ")[0].split("/")]))


def expected(place, line, ending):
    """What the line is, its reply, and what the script writes and how it ends."""
    if not line and ending == NOTHING:
        what, reply = "no line", ""
    else:
        what, reply = read(line), ""
        if what[0] == "record":
            row, what = what[1:], place.taken(what)
        if isinstance(what, str) and what != "record":
            return what, "", f"{place.replies}= line {place.number}: {what}\n"
        if what != "record":
            what, reply = "event", place.reply(what)
    wrote = place.replies + reply
    if ending == EMPTY_LINE:
        return what, reply, f"{wrote}= line {place.number + 1}: not JSON\n"
    if ending == STEP:
        wrote += UNKNOWN
    records = LEFT.get(reply, RECORDS)
    return what, reply, wrote + (with_row(records, *row) if what == "record" else records) + "= done\n"


# Lines that are drawn

SPECIAL = b'[]{},:"\\0123456789-+.eE \t\r/tunrfalsebd\x1f'
OPENING = b'{"limits":[8,100],"accounts":[[1,101,500,1000]],"procedures":[[1,[["ask",1],["answer",["arg",0]]]]]}'
NUMBERS = (
    "-1 -0 4 5 6 65535 65536 4294967295 4294967296 999999999999999 1000000000000000 -999999999999999 -1000000000000000"
    " 99999999999999999 100000000000000000 999999999999999999 1000000000000000000 -999999999999999999"
    " 9223372036854775807 9223372036854775808 -9223372036854775808 -9223372036854775809 18446744073709551615"
    " 18446744073709551616 -18446744073709551616 1.0 0.5 1e2 1E2 1e+2 2e-1 0e0 0e99999999999999999999"
    " 1e99999999999999999999 1e-99999999999999999999 -1e400 1e400 1e308 1e309 1.7976931348623157e308 1.7976931348623158e308"
    " 1.7976931348623159e308 0.00017976931348623159e312 00 01 - +1 .5 1. 1e 0x10 NaN Infinity"
).encode().split()
UNITS = [
    *(rb"a", rb"step", rb"\"", rb"\\", rb"\/", rb"\b", rb"\f", rb"\n", rb"\r", rb"\t", rb"\x", rb"\u0073", rb"\u00e4"),
    *(rb"\ud83d\ude00", rb"\uD83D\uDE00", rb"\ud83d", rb"\ude00", rb"\ud83d\u0041", rb"\ude00\ud83d", rb"\u12"),
    *("\u00e4".encode(), "\u20ac".encode(), "\U0001f600".encode(), b"\x7f"),
]
SCALARS = (b"true", b"false", b"null", b"[]", b"{}", b"0", b'""', b"[ ]", b"nul", b"True")
SPACES = (b" ", b"\t", b"\r", b"  ", b" \r\t")


class Draws:
    """Lines, without a newline."""

    def __init__(self, seed):
        self.dice = random.Random(seed)

    def below(self, bound):
        return int(self.dice.random() * bound)

    def once_in(self, times):
        return self.dice.random() * times < 1

    def pick(self, texts):
        return texts[self.below(len(texts))]

    def byte(self):
        if self.once_in(2):
            return self.pick(SPECIAL)
        byte = self.below(256)
        return 32 if byte == 10 else byte

    def spaces(self):
        return self.pick(SPACES) if self.once_in(16) else b""

    def comma(self):
        """Each third one has the space after it that Python's `json.dumps` writes, and none before it."""
        return b", " if self.once_in(3) else self.spaces() + b"," + self.spaces()

    def digits(self, count):
        """So many digits, of which now and then all are alike."""
        if self.once_in(4):
            return b"%d" % self.below(10) * count
        return b"%0*d" % (count, self.below(10**count) if count < 16 else self.dice.randrange(10**count)) if count else b""

    def number(self):
        return self.pick(NUMBERS) if self.once_in(8) else self.digits(1)

    def length(self):
        """Mostly a few digits, and now and then about as many as the greatest float has."""
        return 300 + self.below(20) if self.once_in(8) else self.below(22)

    def long_number(self):
        """It may have many digits, a point and an exponent."""
        if self.once_in(4):
            return self.number()
        sign = b"-" if self.once_in(3) else b""
        following = b"." + self.digits(self.length()) if self.once_in(3) else b""
        exponent = self.pick((b"e", b"E", b"e+", b"e-")) + self.digits(self.below(4)) if self.once_in(3) else b""
        return sign + self.digits(self.length()) + following + exponent

    def word(self, word):
        """In its quotes. Now and then a letter is escaped."""
        return b'"' + b"".join(b"\\u%04x" % letter if self.once_in(16) else b"%c" % letter for letter in word) + b'"'

    def escaped_text(self):
        units = b""
        for _ in range(self.below(8)):
            kind = self.below(8)
            if kind == 0:
                units += b"%c" % self.byte()
            elif kind == 1:
                units += b"\\u" + b"".join(b"%c" % self.pick(b"0123456789abcdefABCDEF") for _ in range(4))
            else:
                units += self.pick(UNITS)
        return b'"' + units + b'"'

    def arguments(self):
        """A list of at most five numbers."""
        return b"[" + b",".join(self.spaces() + self.number() + self.spaces() for _ in range(self.below(6))) + b"]"

    def item(self):
        return self.pick((lambda: self.word(b"start"), self.arguments, self.number, self.number))()

    def event(self):
        """An event, or a list that is nearly one."""
        name = self.pick((b"start", b"start", b"step", b"step", b"commit", b"quit", b"begin", b"read", b"write", b"remove", b"job", b""))
        line = self.spaces() + b"[" + self.word(name)
        if self.once_in(4):
            for _ in range(self.below(4)):
                line += self.comma() + self.item()
        elif name != b"begin":
            is_access = name in (b"read", b"write", b"remove")
            line += self.comma() + (b"%d" % self.below(5) if is_access else self.number())
            if name == b"start":
                line += self.comma() + self.arguments()
            if is_access:
                line += self.comma() + (b"%d" % self.below(8) if self.once_in(2) else self.number())
                line += self.comma() + (self.pick((b"1", b"101", b"102")) if self.once_in(2) else self.number())
            if name == b"write":
                line += self.comma() + self.number()
        return line + b"]" + self.spaces()

    def opening(self):
        return OPENING

    def record(self):
        """A record line, mostly in the ranges."""
        table = self.number() if self.once_in(4) else b"%d" % self.below(8)
        number = self.long_number() if self.once_in(4) else b"%d" % (100 + self.below(4))
        return b"[" + self.comma().join((self.word(b"record"), table, number, self.number())) + b"]" + self.spaces()

    def scalar(self):
        kind = self.below(4)
        if kind == 0:
            return self.number()
        return self.escaped_text() if kind == 1 else self.pick(SCALARS) + self.spaces()

    def key(self):
        return self.word(b"a") + self.spaces() + b":" + self.spaces()

    def open(self, closing):
        """Begins a list or an object. After it a value has to come."""
        if self.once_in(2):
            closing.append(b"]")
            return b"["
        closing.append(b"}")
        return b"{" + self.key()

    def tree(self):
        """A tree of lists, objects and scalars."""
        line, closing = b"", []
        for _ in range(self.below(30)):
            if self.once_in(3):
                line += self.open(closing)
                continue
            line += self.scalar()
            for _ in range(min(self.below(3), len(closing))):
                line += closing.pop()
            if not closing:
                return line
            line += b"," + self.spaces() + (self.key() if closing[-1] == b"}" else b"")
        return line + self.scalar() + b"".join(reversed(closing))

    def nesting(self):
        """Lists and objects within each other, about as many as there may be, round a number."""
        closing = []
        many = self.below(300) if self.once_in(8) else 120 + self.below(16)
        line = b"".join(self.open(closing) for _ in range(many))
        line += b"" if self.once_in(16) else self.number()
        if self.once_in(16):
            closing.append(b"]")
        return line + b"".join(reversed(closing))

    def text(self):
        """A list of a text and a number."""
        one = self.escaped_text() if self.once_in(2) else self.word(self.pick((b"start", b"step", b"commit", b"quit")))
        return b"[" + one + b",0]"

    def bytes(self):
        return bytes(self.byte() for _ in range(self.below(41)))

    def numbers(self):
        """A start or a step with long numbers."""
        if self.once_in(2):
            return b'["step",' + self.long_number() + b"]"
        return b'["start",1,[1,' + self.long_number() + b"]]"

    def long_line(self):
        """An event, or a text that does not end, filled up to about as many bytes as a line may have."""
        line = self.event() + (b'"' if self.once_in(4) else b"")
        return line.ljust(LONGEST_LINE - 2 + self.below(5))

    def change(self, line):
        """Changes a line at one to three places: it replaces a byte, takes it out, puts one in front of it, repeats it, or cuts the
        line off there."""
        for _ in range(1 + self.below(3)):
            if not line:
                break
            at, kind = self.below(len(line)), self.below(16)
            other = b"%c" % self.byte()
            middle = [other, b"", other + line[at : at + 1], line[at : at + 1] * 2][(kind > 5) + (kind > 9) + (kind > 12)]
            line = line[:at] + (middle + line[at + 1 :] if kind < 15 else b"")
        return line

    def line(self):
        """A line, and the name of its kind."""
        drawn = self.below(1000)
        for most, name, draw, is_changed in self.KINDS:
            if drawn < most:
                line = draw(self)
                return name, self.change(line) if is_changed else line
        raise AssertionError(drawn)

    # How many of a thousand are drawn as one of these kinds or of those before it.
    KINDS = (
        (200, "events", event, False),
        (450, "mutated events", event, True),
        (500, "mutated openings", opening, True),
        (600, "trees", tree, False),
        (700, "mutated trees", tree, True),
        (760, "texts", text, False),
        (790, "records", record, False),
        (800, "mutated records", record, True),
        (850, "bytes", bytes, False),
        (898, "nesting", nesting, False),
        (999, "numbers", numbers, False),
        (1000, "long lines", long_line, False),
    )

    def place(self):
        """Mostly directly after line 1."""
        return (SPENT, FULL, BUSY, GONE, *(FRESH,) * 12)[self.below(16)]

    def ending(self):
        """Mostly the line's end alone."""
        return (EMPTY_LINE, STEP, *(NOTHING,) * 3, *(BREAK,) * 11)[self.below(16)]


# Scripts


def run(program, scripts):
    """What each of these scripts writes, with a line after it that says how it ended."""
    with tempfile.TemporaryFile() as given:  # to a pipe Python writes 4096 bytes at a time
        given.writelines(len(script).to_bytes(4, "big") + script for script in scripts)
        given.seek(0)
        ran = subprocess.run([program, "scripts"], stdin=given, capture_output=True, timeout=600, check=False)
    same("status and standard error", (0, b""), (ran.returncode, ran.stderr))
    reported = re.findall(r"(.*?= .*?\n)", ran.stdout.decode(), re.S)
    same("how many were told", len(scripts), len(reported))
    return reported


def answers_hostile_lines_as_another_reader_does(program):
    draws, kinds, replies = Draws(SEED), Counter(), Counter()
    for _ in range(LINES // LINES_OF_A_RUN):
        scripts, wanted = [], []
        for _ in range(LINES_OF_A_RUN):
            name, line = draws.line()
            place, ending = draws.place(), draws.ending()
            what, reply, written = expected(place, line, ending)
            kinds[name, what] += 1
            word = ACCESSED.match(reply)
            replies[word[0] if word and reply not in REPLIES else reply] += 1
            scripts.append(place.before + line + ending)
            wanted.append(written)
        for script, one, other in zip(scripts, wanted, run(program, scripts)):
            if one != other:
                raise Differs(f"{script!r:.2000}: wanted {one!r:.400}, came {other!r:.400}")
    same("the replies", REPLIES | {"", "read", "wrote", "removed"}, set(replies))
    for what in ("event", "record", "bad record", "bad line", "not JSON", "long line", "no line"):
        reported = [(name, count) for (name, other), count in kinds.items() if other == what]
        print(f"{what}: " + ", ".join(f"{count} {name}" for name, count in sorted(reported)))
        same(f"whether a line is {what}", True, bool(reported))
    return f"{LINES} lines, {sum(replies.values()) - replies['']} of them events, {len(replies) - 1} replies"


CASES = [answers_hostile_lines_as_another_reader_does]


def main():
    if len(sys.argv) != 2:
        sys.exit(__doc__)
    return run_cases(CASES, os.path.abspath(sys.argv[1]), of="sgt_bank_runs")


if __name__ == "__main__":
    sys.exit(main())
