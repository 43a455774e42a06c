"""The engine for one thread at a time."""

from __future__ import annotations

import ctypes
import json
import threading
from typing import Any, Callable, Optional, Sequence, Union

from ._errors import BadCall, Busy, NoMemory, NoSuchEntry, OpeningRefused, StillLive, Taken
from ._library import (
    CALL_BYTES,
    FIRST_FAULT,
    FREE,
    HELD,
    IN_A_CALL,
    LEAST,
    MOST,
    NO_MEMORY,
    NO_TID,
    NONE,
    OPEN,
    STILL_LIVE,
    TAKEN,
    AnyRow,
    CCall,
    CEngine,
    CEvent,
    CFault,
    COutcome,
    CReply,
    Row,
    Uncopied,
    all_rows,
    bytes_of,
    check,
    opening_of,
    opening_refused,
    pack_args,
    pack_calls,
    procedure_refused,
    rows_for,
    rows_in,
    rows_of,
    whole,
    written,
)
from ._replies import (
    Access,
    BatchOutcome,
    Call,
    Event,
    Reply,
    all_accesses,
    call_of,
    event_of,
    free_buffers,
    outcomes_for,
    reply_of,
    spare_outcomes,
    buffers,
    unpack_outcomes,
)


def _quick(name: str) -> Callable[..., int]:
    """Returns a function of the library whose arguments are pointers and integers. Without argtypes they are passed three times as fast."""
    return HELD[name]


_start, _run, _step, _commit, _quit = map(_quick, ("sgt_start", "sgt_run", "sgt_step", "sgt_commit", "sgt_quit"))
_begin, _read, _write, _remove = map(_quick, ("sgt_begin", "sgt_read", "sgt_write", "sgt_remove"))
_SIZES = [ctypes.c_size_t(count) for count in range(5)]


def _tid(tid: int) -> int:
    """Returns a transaction's number. Raises BadCall if it is out of range."""
    return whole(tid, 0, 2**32 - 1)


def _record(table: int, number: int) -> tuple[ctypes.c_uint64, ctypes.c_int64]:
    """Returns a record for a call. Raises BadCall if it is out of range."""
    return ctypes.c_uint64(whole(table, 0, 7)), ctypes.c_int64(whole(number, LEAST, MOST))


class EngineReads(Uncopied):
    """What can be read of an engine: its history, and the committed database."""

    _engine: CEngine

    def procedure_text(self, number: int) -> Optional[str]:
        """Returns the JSON text of a procedure, as `procedure` takes it, or None if there is no procedure of that number."""
        number, length = whole(number, 0, 2**64 - 1), ctypes.c_uint64()
        status = HELD.sgt_procedure_text(self._engine, number, None, 0, length)
        if status == NONE:
            return None
        check(status)
        return written(HELD.sgt_procedure_text, self._engine, number)

    def accesses(self, tid: int) -> list[Access]:
        """Returns the accesses that the caller of a transaction decided, in their order."""
        tid = _tid(tid)
        return all_accesses(lambda reported, space, count: check(HELD.sgt_accesses(self._engine, tid, reported, space, count)))

    def get(self, table: int, number: int) -> Optional[int]:
        """Returns the committed value of a record, or None if there is no such record."""
        value = ctypes.c_int64()
        status = HELD.sgt_get(self._engine, whole(table, 0, 7), whole(number, LEAST, MOST), value)
        if status == NONE:
            return None
        check(status)
        return value.value

    def rows(self, table: int = 0, number: int = LEAST) -> list[Row]:
        """Returns the committed database from a record on, in order of tables and then of numbers."""
        table, number = whole(table, 0, 7), whole(number, LEAST, MOST)
        return rows_of(*all_rows(lambda reported, space, count: HELD.sgt_rows(self._engine, table, number, reported, space, count)))

    def rows_bytes(self) -> bytes:
        """Returns the committed database as bytes, for `put_bytes`: 24 for each row, laid out as `sgt_row`. About ten times as fast as `rows`."""
        reported, count = all_rows(lambda reported, space, count: HELD.sgt_rows(self._engine, 0, LEAST, reported, space, count))
        return bytes(bytes_of(reported, count))

    def records(self) -> int:
        """The number of records of the committed database."""
        count = ctypes.c_uint64()
        check(HELD.sgt_records(self._engine, count))
        return count.value

    def live(self) -> list[int]:
        """Returns the numbers of the live transactions, rising."""
        tids, count = (ctypes.c_uint32 * 32)(), ctypes.c_uint64()  # no more are ever live
        check(HELD.sgt_live_tids(self._engine, tids, count))
        return tids[: count.value]

    def limits(self) -> tuple[int, ...]:
        """Returns the three limits, as an opening has them: the most live transactions, the most starts, and when codes are reported."""
        limits = (ctypes.c_uint64 * 3)()
        check(HELD.sgt_limits(self._engine, limits))
        return tuple(limits)

    def part(self) -> int:
        """How often the history was cut. With this number, the number of a transaction is unique."""
        part = ctypes.c_uint64()
        check(HELD.sgt_part(self._engine, part))
        return part.value

    def __len__(self) -> int:
        """The number of entries of the history."""
        count = ctypes.c_uint64()
        check(HELD.sgt_entries(self._engine, count))
        return count.value

    def __bool__(self) -> bool:
        """True, even if the history has no entries."""
        return True

    def entry(self, place: int) -> tuple[Event, Reply]:
        """Returns the entry of the history at an index, oldest first. Raises NoSuchEntry if the history is shorter."""
        if not 0 <= place < 2**64:
            raise NoSuchEntry()
        asked, reported = CEvent(), CReply()
        status = HELD.sgt_entry(self._engine, place, asked, reported)
        if status == NONE:
            raise NoSuchEntry()
        check(status)
        return event_of(asked), reply_of(reported, reported)

    def calls(self, start: int = 0, most: int = 1024) -> tuple[list[Call], int]:
        """Returns the committed and refused calls of the history from an index on, in reply order, at most `most`, and the index to go
        on from. Run one after another, these calls give the same answers. Raises NoSuchEntry if the history is shorter.
        """
        if not 0 <= start < 2**64:
            raise NoSuchEntry()
        calls, count, after = (CCall * whole(most, 1, 2**24))(), ctypes.c_uint64(), ctypes.c_uint64()
        status = HELD.sgt_calls(self._engine, start, calls, most, count, after)
        if status == NONE:
            raise NoSuchEntry()
        check(status)
        return [call_of(call) for call in calls[: count.value]], after.value

    def has_written(self, tid: int) -> bool:
        """Whether a transaction, live or not, has written or removed a record."""
        wrote = ctypes.c_uint32()
        check(HELD.sgt_wrote(self._engine, _tid(tid), wrote))
        return wrote.value == 1


class LentEngine(EngineReads):
    """The engine that the hook `cutting` is passed. After the hook its calls raise Closed."""

    def __init__(self, engine: CEngine) -> None:
        self._engine = engine

    def give_back(self) -> None:
        self._engine = CEngine()


class Engine(EngineReads):
    """An engine. It is closed at the end of a `with` block, by `close`, or when it is collected.

    Each call holds the interpreter's lock, so calls of several threads run one after another. For threads use `SharedEngine`. An engine
    that `bare` opens with `releases` is for one thread, and other threads run beside its long calls.
    """

    _long: Optional[threading.Lock] = None  # has the call that has released the interpreter's lock, if there may be one

    def __init__(
        self,
        limits: Sequence[int],
        accounts: Sequence[Sequence[int]] = (),
        procedures: Sequence[object] = (),
        rows: Sequence[AnyRow] = (),
    ) -> None:
        """Opens an engine: limits (live, begins) or (live, begins, asks), accounts (name, customer, saving, checking).

        The rows are added to the database that the accounts make. Raises OpeningRefused, which explains the fault, NoMemory, or BadCall
        if a row is out of range.
        """
        self._engine = CEngine()
        self._at = ctypes.byref(self._engine)
        line, fault = opening_of(limits, accounts, procedures), CFault()
        status = HELD.sgt_open_with(self._engine, line, len(line), rows_for(rows), len(rows), fault)
        if status >= FIRST_FAULT:
            raise opening_refused(status, fault, line)
        check(status)

    @classmethod
    def bare(cls, live: int, begins: int, asks: bool = True, releases: bool = False) -> Engine:
        """Opens an engine without records and procedures, not even SmallBank's: at most `live` transactions at a time, at most
        `begins` in all; with `asks`, codes are reported at the commit. Raises OpeningRefused or NoMemory.

        With `releases` the calls that may take long release the interpreter's lock: `put`, `put_bytes`, `run_many`, `run_bytes`, `cut` and
        `close`. While one of them runs, each other call to this engine raises Busy.
        """
        engine = cls.__new__(cls)
        engine._long = threading.Lock() if releases else None
        engine._engine = CEngine()
        engine._at = ctypes.byref(engine._engine)
        limits = (whole(number, 0, 2**64 - 1) for number in (live, begins, asks))
        status = HELD.sgt_open_bare(engine._engine, *limits)
        if status >= FIRST_FAULT:
            raise OpeningRefused(status, "bad limits")
        check(status)
        return engine

    def _call(self, name: str, *args: Any) -> Optional[int]:
        """Makes a call that may take long. If it releases the interpreter's lock, all other calls find an engine that is in a call."""
        if self._long is None:
            return getattr(HELD, name)(self._at, *args)
        if not self._long.acquire(blocking=False):
            raise Busy()
        try:
            if self._engine.is_open != OPEN:
                return getattr(HELD, name)(self._at, *args)
            self._engine.is_open = IN_A_CALL
            moved = CEngine.from_buffer_copy(self._engine)  # an engine may move while no call is in it
            moved.is_open = OPEN
            try:
                return getattr(FREE, name)(ctypes.byref(moved), *args)
            finally:
                ctypes.memmove(self._at, ctypes.byref(moved), ctypes.sizeof(moved))
        finally:
            self._long.release()

    def put(self, rows: Sequence[AnyRow]) -> None:
        """Puts new records into the initial database, while the history is empty. Each call goes through all records.

        Raises Begun if the history is not empty, Taken with the index of the first row whose record has a value already, NoMemory, or
        BadCall if a row is out of range. Then nothing has changed.
        """
        at = ctypes.c_uint64()
        status = self._call("sgt_put", rows_for(rows), ctypes.c_size_t(len(rows)), ctypes.byref(at))
        if status == TAKEN:
            raise Taken(at.value)
        check(status)

    def put_bytes(self, rows: Union[bytes, bytearray, memoryview]) -> None:
        """Puts the rows in these bytes, as `rows_bytes` returns them. Raises what `put` raises."""
        at = ctypes.c_uint64()
        reported, count = rows_in(rows)
        status = self._call("sgt_put", reported, ctypes.c_size_t(count), ctypes.byref(at))
        if status == TAKEN:
            raise Taken(at.value)
        check(status)

    def procedure(self, procedure: Union[str, Sequence[object]]) -> int:
        """Adds a procedure, a list or its JSON text, while the history is empty. Returns its number.

        Raises Begun if the history is not empty, ProcedureRefused, which explains the fault, TooMany if no number is left, or NoMemory.
        Then nothing has changed.
        """
        text = (procedure if isinstance(procedure, str) else json.dumps(procedure)).encode()
        number, fault = ctypes.c_uint16(), CFault()
        status = HELD.sgt_procedure(self._engine, text, len(text), number, fault)
        if status >= FIRST_FAULT:
            raise procedure_refused(status, fault, text)
        check(status)
        return number.value

    def start(self, procedure: int, *args: int) -> Reply:
        """Starts a transaction of the procedure, with at most 4 arguments."""
        to = buffers()
        pack_args(to.args, args)
        check(_start(self._at, ctypes.c_uint64(whole(procedure, 0, 65535)), to.given, _SIZES[len(args)], to.to))
        reply = reply_of(to.reported, to.fields)
        free_buffers(to)
        return reply

    def run(self, procedure: int, *args: int) -> tuple[Optional[int], Reply]:
        """Runs a procedure from its start to its commit. Returns its transaction's number, if one was started, and the last reply.

        Raises NoMemory. Then nothing has changed, except that the transaction may have been started and aborted.
        """
        to = buffers()
        to.tid.value = NO_TID
        pack_args(to.args, args)
        check(_run(self._at, ctypes.c_uint64(whole(procedure, 0, 65535)), to.given, _SIZES[len(args)], to.to_tid, to.to))
        tid, reply = to.tid.value, reply_of(to.reported, to.fields)
        free_buffers(to)
        return (None if tid == NO_TID else tid), reply

    def run_many(self, calls: Sequence[Sequence[int]]) -> list[BatchOutcome]:
        """Runs these calls, each a procedure with its arguments, one after another, as `run` does. Returns an outcome for each, also if it
        is refused, aborted or has to wait. Raises NoMemory with the outcomes of the calls before it.

        Each call is a start. When no start is left by the limits, the rest are Kind.SPENT: cut now and then if a journal is longer.
        """
        return unpack_outcomes(self.run_bytes(pack_calls(calls)))

    def run_bytes(self, calls: bytes) -> bytes:
        """Runs calls as `run_many` does, from bytes that `pack_calls` makes, to bytes that `unpack_outcomes` and `wrote` read, also in
        other processes. Raises NoMemory with the outcomes of the calls before it, or BadCall if the last call is incomplete.
        """
        count, rest = divmod(len(calls), CALL_BYTES)
        if rest:
            raise BadCall(f"a call takes {CALL_BYTES} bytes")
        outcomes, size, done = outcomes_for(count), ctypes.c_size_t(count), ctypes.c_uint64()
        status = self._call("sgt_run_many", bytes(calls), size, outcomes, size, ctypes.byref(done))
        ran = ctypes.string_at(outcomes, done.value * ctypes.sizeof(COutcome))
        spare_outcomes(outcomes)
        if status == NO_MEMORY:
            raise NoMemory(unpack_outcomes(ran))
        check(status)
        return ran

    def step(self, tid: int) -> Reply:
        """Makes the next access of the transaction. Like each call with a transaction's number, raises BadCall if it exceeds 32 bits."""
        to = buffers()
        status = _step(self._at, tid if tid.__class__ is int and not tid >> 32 else _tid(tid), to.to)
        if status:
            check(status)
        reply = reply_of(to.reported, to.fields)
        free_buffers(to)
        return reply

    def commit(self, tid: int) -> Reply:
        """Commits the transaction, unless it has to wait."""
        to = buffers()
        status = _commit(self._at, tid if tid.__class__ is int and not tid >> 32 else _tid(tid), to.to)
        if status:
            check(status)
        reply = reply_of(to.reported, to.fields)
        free_buffers(to)
        return reply

    def quit(self, tid: int) -> Reply:
        """Aborts the transaction."""
        to = buffers()
        check(_quit(self._at, _tid(tid), to.to))
        reply = reply_of(to.reported, to.fields)
        free_buffers(to)
        return reply

    def begin(self) -> Reply:
        """Starts a transaction of no procedure: its caller decides all its accesses, by `read`, `write` and `remove`."""
        to = buffers()
        check(_begin(self._at, to.to))
        reply = reply_of(to.reported, to.fields)
        free_buffers(to)
        return reply

    def read(self, tid: int, table: int, number: int) -> Reply:
        """Reads a record for a transaction whose procedure is at its end. The value of the reply is None if there is no such record.
        Like `write` and `remove`, raises BadCall if the record is out of range."""
        to = buffers()
        check(_read(self._at, _tid(tid), *_record(table, number), to.to))
        reply = reply_of(to.reported, to.fields)
        free_buffers(to)
        return reply

    def write(self, tid: int, table: int, number: int, value: int) -> Reply:
        """Writes a record in the same way. If the value is out of range, the reply is Kind.BAD_ARGS."""
        to = buffers()
        check(_write(self._at, _tid(tid), *_record(table, number), ctypes.c_int64(whole(value, -(2**63), 2**63 - 1)), to.to))
        reply = reply_of(to.reported, to.fields)
        free_buffers(to)
        return reply

    def remove(self, tid: int, table: int, number: int) -> Reply:
        """Removes a record in the same way. The reply is Kind.WROTE, and its value None."""
        to = buffers()
        check(_remove(self._at, _tid(tid), *_record(table, number), to.to))
        reply = reply_of(to.reported, to.fields)
        free_buffers(to)
        return reply

    def reserve(self, entries: int) -> None:
        """Allocates memory for this many more entries."""
        check(HELD.sgt_reserve(self._engine, whole(entries, 0, 2**64 - 1)))

    def cut(self) -> None:
        """Cuts the history off. Raises StillLive if a transaction is live; then nothing has changed."""
        live = ctypes.c_uint64()
        status = self._call("sgt_cut", ctypes.byref(live))
        if status == STILL_LIVE:
            raise StillLive(live.value)
        check(status)

    def close(self) -> None:
        """Closes the engine. Later calls raise Closed."""
        self._call("sgt_close")

    def __enter__(self) -> Engine:
        return self

    def __exit__(self, *_: object) -> None:
        self.close()

    def __del__(self) -> None:
        engine = getattr(self, "_engine", None)
        if engine is not None and engine.is_open:
            self.close()
