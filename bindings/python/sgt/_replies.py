"""Events and replies, and how they are made from the structs of C."""

from __future__ import annotations

import ctypes
import enum
import struct
from typing import Callable, NamedTuple, Optional, Union

from ._errors import BadCall, Error
from ._library import HELD, CAccess, CCall, CEvent, COutcome, CReply, written


class Kind(enum.IntEnum):
    """The kind of a reply: see `enum sgt_kind` in sgt.h."""

    STARTED = 1
    NO_PROCEDURE = 2
    BAD_ARGS = 3
    SPENT = 4
    FULL = 5
    UNKNOWN = 6
    OVER = 7
    LOOKED = 8
    WROTE = 9
    ENDED = 10
    NOT_ENDED = 11
    WAITS = 12
    COMMITTED = 13
    ABORTED = 14
    REFUSED = 15


class Cause(enum.IntEnum):
    """How a transaction ended: see `enum sgt_cause` in sgt.h."""

    COMMIT = 0
    CYCLE = 1
    CODE = 2
    QUIT = 3
    FALL = 4


class Asked(enum.IntEnum):
    """The kind of an event: see `enum sgt_asked` in sgt.h."""

    START = 1
    STEP = 2
    COMMIT = 3
    QUIT = 4
    READ = 5
    WRITE = 6
    REMOVE = 7


class Event(NamedTuple):
    """An event. A start has a procedure and arguments, any other a transaction; an access that its caller decided has a record, and a
    write its value."""

    kind: Asked
    tid: Optional[int] = None
    procedure: Optional[int] = None
    args: tuple[int, ...] = ()
    table: Optional[int] = None
    number: Optional[int] = None
    value: Optional[int] = None


class Reply(NamedTuple):
    """A reply. `kind` says which other fields have a meaning; all others are None or empty. If a read found no record, or a write
    removed it, `value` is None."""

    kind: Kind
    tid: Optional[int] = None
    table: Optional[int] = None
    number: Optional[int] = None
    value: Optional[int] = None
    answers: tuple[int, ...] = ()
    cause: Optional[Cause] = None
    code: Optional[int] = None
    walk: tuple[int, ...] = ()
    fell: tuple[int, ...] = ()

    def text(self) -> str:
        """The line that `sgt script` prints for it."""
        return written(HELD.sgt_reply_text, _reported(self))


def _reported(reply: Reply) -> CReply:
    """Returns the fields of a reply."""
    reported = CReply(
        kind=reply.kind,
        cause=reply.cause or 0,
        tid=reply.tid or 0,
        code=reply.code or 0,
        table=reply.table or 0,
        found=reply.value is not None,
        number=reply.number or 0,
        value=reply.value or 0,
        answers=len(reply.answers),
        walked=len(reply.walk),
        fallen=len(reply.fell),
    )
    reported.answer[: reported.answers] = reply.answers
    reported.walk[: reported.walked] = reply.walk
    reported.fell[: reported.fallen] = reply.fell
    return reported


def _ended(reported: CReply, kind: Kind) -> Reply:
    """Returns a reply that reports an end: its cause, and the fields of that cause."""
    cause = Cause(reported.cause)
    return Reply(
        kind,
        tid=reported.tid if cause is Cause.FALL else None,
        cause=cause,
        code=reported.code if cause is Cause.CODE else None,
        walk=tuple(reported.walk[: reported.walked]) if cause is Cause.CYCLE else (),
        fell=tuple(reported.fell[: reported.fallen]) if kind is Kind.ABORTED else (),
    )


_KINDS = [None, *Kind]
_PLAIN = [kind and Reply(kind) for kind in _KINDS]
# The numbers of the kinds with further fields: comparing a number is faster than looking up a member of an enum.
_STARTED, _OVER, _LOOKED, _WROTE, _WAITS, _COMMITTED, _ABORTED, _REFUSED = map(
    int, (Kind.STARTED, Kind.OVER, Kind.LOOKED, Kind.WROTE, Kind.WAITS, Kind.COMMITTED, Kind.ABORTED, Kind.REFUSED)
)
_plain_fields = struct.Struct("6I2q").unpack_from  # the fields before the counts, from a structure or, faster, from its bytes
_made = tuple.__new__


def reply_of(reported: CReply, fields: Union[CReply, memoryview]) -> Reply:
    number, _, tid, code, table, found, key, value = _plain_fields(fields)
    kind = _KINDS[number]
    # tuple.__new__ with all fields: the constructor of a NamedTuple takes twice as long.
    if number == _LOOKED:
        return _made(Reply, (kind, None, table, key, value if found else None, (), None, None, (), ()))
    if number == _WROTE:
        return _made(Reply, (kind, None, table, key, value if found else None, (), None, None, (), ()))
    if number == _STARTED or number == _WAITS:
        return _made(Reply, (kind, tid, None, None, None, (), None, None, (), ()))
    if number == _COMMITTED:
        return _made(Reply, (kind, None, None, None, None, tuple(reported.answer[: reported.answers]), None, None, (), ()))
    if number == _REFUSED:
        return Reply(kind, code=code, fell=tuple(reported.fell[: reported.fallen]))
    if number == _ABORTED or number == _OVER:
        return _ended(reported, kind)
    try:
        return _PLAIN[number]
    except IndexError:
        raise Error(f"sgt: a reply of kind {number}, which this package does not know") from None


# Of each outcome: its transaction, whether it wrote, and of its reply the kind, the code, the number of answers, the number of
# transactions aborted in cascade, and the answers.
_outcome_fields = struct.Struct("=2II8xI24xI4xI4x8q256x").iter_unpack


class BatchOutcome(NamedTuple):
    """The outcome of a call of `run_many`: its transaction's number, if one was started, the last reply, and whether a step of it wrote.
    A committed call that did not write has changed nothing."""

    tid: Optional[int]
    reply: Reply
    wrote: bool


_NOT_STARTED = (Kind.NO_PROCEDURE, Kind.BAD_ARGS, Kind.SPENT, Kind.FULL)


def _rare(reported: COutcome) -> BatchOutcome:
    """Returns an outcome whose reply may be of any kind."""
    reply = reply_of(reported.reply, reported.reply)
    return BatchOutcome(None if reply.kind in _NOT_STARTED else reported.tid, reply, bool(reported.wrote))


_OUTCOME_BYTES = ctypes.sizeof(COutcome)
_committed = Kind.COMMITTED  # a member of an enum is looked up slowly
# Of the bytes of outcomes: the first byte of each one's field that says whether it wrote, and of the kind of its reply. Both are below
# 256, and their first byte is the lowest one. A slice takes a tenth of the time of a struct.
_WROTE_BYTES, _KIND_BYTES = (slice(field.offset, None, _OUTCOME_BYTES) for field in (COutcome.wrote, COutcome.reply))


def _whole_outcomes(data: bytes) -> bytes:
    if len(data) % _OUTCOME_BYTES:
        raise BadCall(f"an outcome takes {_OUTCOME_BYTES} bytes")
    return data


def wrote(data: bytes) -> list[bool]:
    """Returns for each outcome in bytes from `Engine.run_bytes` whether the call was committed and wrote, so that a journal needs it.
    Raises BadCall if the last one is incomplete."""
    return [wrote == 1 and kind == _COMMITTED for wrote, kind in zip(_whole_outcomes(data)[_WROTE_BYTES], data[_KIND_BYTES])]


def unpack_outcomes(data: bytes) -> list[BatchOutcome]:
    """Returns the outcomes in bytes from `Engine.run_bytes`. Raises BadCall if the last one is incomplete."""
    outcomes = []  # commits and refusals are read faster
    for tid, wrote, number, code, many, fallen, *answers in _outcome_fields(_whole_outcomes(data)):
        if number == _COMMITTED:
            reply = _made(Reply, (_committed, None, None, None, None, tuple(answers[:many]), None, None, (), ()))
        elif number == _REFUSED and not fallen:
            reply = _made(Reply, (Kind.REFUSED, None, None, None, None, (), None, code, (), ()))
        else:
            outcomes.append(_rare(COutcome.from_buffer_copy(data, len(outcomes) * _OUTCOME_BYTES)))
            continue
        outcomes.append(_made(BatchOutcome, (tid, reply, wrote == 1)))
    return outcomes


def event_of(asked: CEvent) -> Event:
    kind = Asked(asked.kind)
    if kind is Asked.START:
        return Event(kind, procedure=asked.procedure, args=tuple(asked.arg[: asked.args]))
    if kind in (Asked.READ, Asked.WRITE, Asked.REMOVE):
        value = asked.value if kind is Asked.WRITE else None
        return Event(kind, asked.tid, table=asked.table, number=asked.number, value=value)
    return Event(kind, asked.tid)


class Access(NamedTuple):
    """An access that a transaction's caller decided. `kind` is READ, WRITE or REMOVE; `value` is what was read or written, or None."""

    kind: Asked
    table: int
    number: int
    value: Optional[int]


def access_of(reported: CAccess) -> Access:
    return Access(Asked(reported.kind), reported.table, reported.number, reported.value if reported.found else None)


def all_accesses(ask: Callable[[ctypes.Array[CAccess], int, ctypes.c_uint64], None]) -> list[Access]:
    """Returns the accesses that a call writes. It repeats the call until all fit."""
    count, capacity = ctypes.c_uint64(), 16
    while True:
        reported = (CAccess * capacity)()
        ask(reported, capacity, count)
        if count.value <= capacity:
            return [access_of(access) for access in reported[: count.value]]
        capacity = count.value


class Call(NamedTuple):
    """A call that was committed (`code` is None) or refused, with its answers or its code, and the number of accesses that its caller
    decided."""

    tid: int
    procedure: int
    args: tuple[int, ...]
    answers: tuple[int, ...]
    code: Optional[int]
    accesses: int = 0


def call_of(reported: CCall) -> Call:
    code = reported.code if reported.kind == Kind.REFUSED else None
    args, answers = tuple(reported.arg[: reported.args]), tuple(reported.answer[: reported.answers])
    return Call(reported.tid, reported.procedure, args, answers, code, reported.accesses)


class Buffers:
    """The buffers of a call: for its reply and its arguments. Each call has its own, so that another thread or a signal handler never
    writes into them."""

    __slots__ = ("args", "fields", "tid", "to", "to_tid", "reported", "given")

    def __init__(self) -> None:
        self.reported, self.args, self.tid = CReply(), (ctypes.c_int64 * 4)(), ctypes.c_uint32()
        self.fields = memoryview(self.reported).cast("B")
        self.to, self.given, self.to_tid = map(ctypes.byref, (self.reported, self.args, self.tid))


_FREE_BUFFERS: list[Buffers] = []
free_buffers = _FREE_BUFFERS.append


def buffers() -> Buffers:
    """Returns one that no other call uses. `free_buffers` returns it to the pool."""
    try:
        return _FREE_BUFFERS.pop()
    except IndexError:
        return Buffers()


_SPARE = COutcome * 1024
_SPARE_OUTCOMES: list[ctypes.Array[COutcome]] = []


def outcomes_for(count: int) -> ctypes.Array[COutcome]:
    """Returns an array for so many outcomes that no other call uses. `spare_outcomes` returns it to the pool, if it is small."""
    if count > _SPARE._length_:
        return (COutcome * count)()
    try:
        return _SPARE_OUTCOMES.pop()
    except IndexError:
        return _SPARE()


def spare_outcomes(outcomes: ctypes.Array[COutcome]) -> None:
    if isinstance(outcomes, _SPARE):
        _SPARE_OUTCOMES.append(outcomes)
