"""The bank: an engine with the procedures of a folder, and the number of its last journaled call."""

import json
import pathlib
import struct
import sys
from collections import deque
from itertools import compress
from typing import Any, Optional, Sequence

sys.path.insert(0, str(pathlib.Path(__file__).resolve().parents[2] / "bindings" / "python"))
from sgt import MOST, Engine, Kind, pack_calls, wrote  # noqa: E402

ENTRIES = 16_000_000  # the history is cut after so many entries, or as many as there are records; a payment makes 28
ROW = struct.Struct("<I4xqq")  # table, number and value of a row
AT_ONCE = 10_000  # calls that are replayed: an outcome takes 384 bytes
COMMITTED = int(Kind.COMMITTED)  # a member of an enum is compared slowly
# The part of an outcome that a client gets, laid out as `sgt_outcome` of sgt.h: its reply's kind, the code, the number of answers, and the
# answers.
OUTCOME = struct.Struct("=8xI8xI24xI12x8q256x")
NO_PROCEDURE = 65_535  # the number of none
# By the word of a file for some of its arguments: the least and the most that these may be, and what is said of others.
BOUNDS = {"accounts": (0, 999_999_999, "an account is a number from 0 to 999999999"), "ids": (1, MOST, "an id is a number from 1 on")}
Call = Sequence[Any]  # the name of a procedure, and its arguments; as JSON it is an entry of the journal


class Unusable(Exception):
    """A journal or a snapshot that can't be trusted, or a file that is no procedure."""


class Procedure:
    """A file of the folder: a procedure, and what clients send and get."""

    def __init__(self, name: str, file: dict[str, Any]) -> None:
        self.name, self.text = name, file["procedure"]  # the text is as docs/FORMATS.md has it
        self.entry = json.dumps([name]).replace("%", "%%")[:-1] + ", %d" * self.text[0] + "]"  # of a call, by its arguments
        self.request: list[str] = file.get("request", [])  # clients can't ask for a procedure without any keys
        self.is_for_administrators: bool = file.get("administration", False)
        self.rights: dict[str, str] = file.get("rights", {})  # by the key that has the account: pay, or read
        # Of a value, by its key: the least and the most that it may be, and what is said of others.
        self.bounds = {key: (*ends, f"{key}: {why}") for word, (*ends, why) in BOUNDS.items() for key in file.get(word, [])}
        self.writes = any(f'["{word}"' in json.dumps(self.text) for word in ("put", "remove"))
        # Replies by how many answers they have, in which %d stands for a number. To put JSON together by `dumps` takes four times as long.
        reported = file.get("reply", [])
        self._list = f", {json.dumps(reported)}: " if isinstance(reported, str) else ""  # of all answers, under one key
        keys = [json.dumps(key).replace("%", "%%") + ": %d" for key in [*(self.request or [""])[:1], *([] if self._list else reported)]]
        done = f", {json.dumps(file['done'])}: true".replace("%", "%%") if "done" in file else ""
        self._begin, self.most = "{" + keys[0], 8 if self._list else len(keys) - 1  # how many answers a client is told
        self._reported = [self._begin + done + "".join([", " + key for key in keys[1 : count + 1]]) + "%s}" for count in range(len(keys))]
        self._reasons = {int(code): reason for code, reason in file.get("refused", {}).items()}
        self._remembers: bool = file.get("remembers", False)  # that a first answer -N is a refusal by code N
        Engine.bare(1, 1).procedure(self.text)  # says what is wrong with it
        if self.request and len(self.request) != self.text[0]:
            raise ValueError(f"the request has {len(self.request)} keys, and the procedure takes {self.text[0]} arguments")
        if unknown := sorted({*self.bounds, *self.rights} - {*self.request}):
            raise ValueError(f"the request has no key {', '.join(unknown)}")

    def reply(self, outcome: Sequence[int], first: int, age: str) -> str:
        """What a client gets: its first argument, and the answers, or why it was refused; and how old that is, if a follower says it."""
        kind, code, count = outcome[:3]
        if kind == COMMITTED:
            code = -outcome[3] if self._remembers and outcome[3] < 0 else 0
        if code or kind != COMMITTED:  # a follower has no procedure that writes
            why = {"refused": self._reasons.get(code, f"code {code}")} if code else {"error": "this server follows another one"}
            return self._begin % first + ", " + json.dumps(why)[1:-1] + age + "}"
        answers = outcome[3 : 3 + min(count, self.most)]
        return self._reported[0] % (first, self._list + str([*answers]) + age) if self._list else self._reported[len(answers)] % (first, *answers, age)


def columns(outcomes: bytes, most: int) -> list[memoryview]:
    """The parts of packed outcomes that clients get: of all outcomes the kinds, the codes, how many answers, and so many of the answers.

    Of a payment they are 28 bytes of 384. To send all of them took a third of what the server does beside the engine.
    """
    short, long = memoryview(outcomes).cast("I"), memoryview(outcomes).cast("q")
    return [*[short[at :: OUTCOME.size // 4] for at in (2, 5, 12)], *[long[at :: OUTCOME.size // 8] for at in range(8, 8 + most)]]


def load_procedures(folder: pathlib.Path) -> dict[str, Procedure]:
    """The procedures of a folder, by name."""
    found: dict[str, Procedure] = {}
    for path in sorted(folder.glob("*.json")):
        try:
            procedure = Procedure(path.stem, json.loads(path.read_text()))
        except (ValueError, LookupError, TypeError, AttributeError) as why:
            raise Unusable(f"{path}: {type(why).__name__}: {why}") from None
        if others := [it.name for it in found.values() if procedure.request and set(it.request) == set(procedure.request)]:
            raise Unusable(f"{path}: {others[0]}.json has the same keys in its request")
        found[path.stem] = procedure
    return found


class Bank:
    """An engine from a snapshot on. `seq` counts the journaled calls from the first opening on."""

    def __init__(self, seq: int, texts: dict[str, list[Any]], rows: bytes) -> None:
        """`texts` are the procedures by name, and `rows` the database as `rows()` returns it."""
        self.seq, self.texts = seq, texts
        self.noted: Optional[deque[bytes]] = None  # what runs is added to it, for a bank that comes after this one
        self.engine, self.records = Engine.bare(1, 4_000_000_000, releases=True), len(rows) // ROW.size  # as the last cut has left them
        self.rows = self.engine.rows_bytes  # of which comes the committed database: 24 bytes a row
        self.engine.put_bytes(rows)
        self.numbers = {name: self.engine.procedure(text) for name, text in sorted(texts.items())}

    def run(self, calls: bytes, entries: Sequence[Any]) -> tuple[bytes, list[Any]]:
        """Runs packed calls one after another, each as a transaction of its own. Their packed outcomes, and the entries of those that wrote."""
        if self.noted is not None:
            self.noted.append(calls)
        outcomes = self.engine.run_bytes(calls)
        written = [*compress(entries, wrote(outcomes))]
        self.seq += len(written)
        return outcomes, written

    def rerun(self, noted: deque[bytes], left: int) -> None:
        """Runs what another bank has noted, until no more than so many parts are left."""
        while len(noted) > left:
            self.seq += sum(wrote(self.engine.run_bytes(noted.popleft())))

    def replay(self, calls: Sequence[Call]) -> None:
        """Runs the next calls of the journal. They committed when they were journaled, so they commit again, or it is not this bank's."""
        for at in range(0, len(calls), AT_ONCE):
            part = calls[at : at + AT_ONCE]
            packed, first = pack_calls([(self.numbers.get(name, NO_PROCEDURE), *args) for name, *args in part]), self.seq + 1
            for number, (call, written) in enumerate(zip(part, [*self.run(packed, part)[1], None]), first):
                if call is not written:
                    raise Unusable(f"call {number} of the journal, {call}, does not commit")

    def day(self) -> Optional[int]:
        """The day, counted from 1970, or None before the first, or if these procedures have no days."""
        return self.engine.get(0, 0) if "day" in self.numbers else None

    def is_long(self) -> bool:
        """Whether it is time to free the history: it costs memory, and a cut costs a pass over the records."""
        return len(self.engine) >= max(ENTRIES, self.records)

    def cut(self) -> None:
        """Frees the history. The database stays. It takes seconds where there are millions of records."""
        self.engine.cut()
        self.records = self.engine.records()
