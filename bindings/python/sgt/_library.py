"""The library and its structs, and the helpers of all calls."""

from __future__ import annotations

import array
import ctypes
import ctypes.util
import itertools
import json
import operator
import os
import pathlib
import struct
import sys
from typing import Callable, NamedTuple, Optional, Sequence, Tuple, Union

from ._errors import (
    BadCall,
    Begun,
    Busy,
    Closed,
    Error,
    Misuse,
    NoMemory,
    OpeningRefused,
    ProcedureRefused,
    SelfWait,
    Stale,
    TimedOut,
    TooMany,
)

# The version of the headers that this package is for.
VERSION = "0.4.0"

# The least and the greatest value, argument and record number.
LEAST, MOST = -999_999_999_999_999, 999_999_999_999_999
EMPTY_PROCEDURE = 65535  # that of a call whose caller decided all its accesses

OK, NO_MEMORY, CLOSED, NONE, BAD_CALL, STILL_LIVE, BEGUN, TAKEN, TOO_MANY = 0, 1, 2, 4, 5, 6, 7, 8, 9
BUSY, SELF_WAIT, TIMED_OUT, STALE, MISUSE, UNDONE, FIRST_FAULT, PROC_SHAPE = 10, 11, 12, 13, 14, 15, 16, 20
NO_TID = 2**32 - 1  # no transaction ever has this number
FOREVER = 2**63 - 1  # a deadline that never comes
NEVER = 2**64 - 1  # as `cut_after`: a history that is never cut off by itself


class Row(NamedTuple):
    """A record of the database, and its value."""

    table: int
    number: int
    value: int


# A row as a caller may pass it.
AnyRow = Union[Row, Tuple[int, int, int]]


class CEngine(ctypes.Structure):
    _fields_ = [("is_open", ctypes.c_uint8), ("at", ctypes.c_void_p)]


OPEN, IN_A_CALL = 1, 2  # values of `is_open`


class CFault(ctypes.Structure):
    _fields_ = [
        ("kind", ctypes.c_uint32),
        ("number", ctypes.c_uint32),
        ("procedure", ctypes.c_uint64),
        ("depth", ctypes.c_uint32),
        ("spare", ctypes.c_uint32),
        ("place", ctypes.c_uint64 * 128),
    ]


class CReply(ctypes.Structure):
    _fields_ = [
        *((name, ctypes.c_uint32) for name in ("kind", "cause", "tid", "code", "table", "found")),
        *((name, ctypes.c_int64) for name in ("number", "value")),
        *((name, ctypes.c_uint32) for name in ("answers", "walked", "fallen", "spare")),
        ("answer", ctypes.c_int64 * 8),
        ("walk", ctypes.c_uint32 * 32),
        ("fell", ctypes.c_uint32 * 32),
    ]


class CEvent(ctypes.Structure):
    _fields_ = [
        *((name, ctypes.c_uint32) for name in ("kind", "tid", "procedure", "args")),
        ("arg", ctypes.c_int64 * 4),
        *((name, ctypes.c_uint32) for name in ("table", "spare")),
        *((name, ctypes.c_int64) for name in ("number", "value")),
    ]


class CRow(ctypes.Structure):
    _fields_ = [
        *((name, ctypes.c_uint32) for name in ("table", "spare")),
        *((name, ctypes.c_int64) for name in ("number", "value")),
    ]


class CTicket(ctypes.Structure):
    _fields_ = [
        *((name, ctypes.c_uint64) for name in ("engine", "part")),
        *((name, ctypes.c_uint32) for name in ("tid", "spare")),
    ]


class CCall(ctypes.Structure):
    _fields_ = [
        *((name, ctypes.c_uint32) for name in ("kind", "tid", "procedure", "code", "args", "answers")),
        ("arg", ctypes.c_int64 * 4),
        ("answer", ctypes.c_int64 * 8),
        ("accesses", ctypes.c_uint64),
    ]


class CAccess(ctypes.Structure):
    _fields_ = [
        *((name, ctypes.c_uint32) for name in ("kind", "table")),
        *((name, ctypes.c_int64) for name in ("number", "value")),
        *((name, ctypes.c_uint32) for name in ("found", "spare")),
    ]


class COutcome(ctypes.Structure):
    _fields_ = [("tid", ctypes.c_uint32), ("wrote", ctypes.c_uint32), ("reply", CReply)]


class CEnded(ctypes.Structure):
    _fields_ = [
        ("sequence", ctypes.c_uint64),
        ("ticket", CTicket),
        ("call", CCall),
        *((name, ctypes.c_uint32) for name in ("wrote", "spare")),
    ]


class CLive(ctypes.Structure):
    _fields_ = [("ticket", CTicket), ("for_ns", ctypes.c_int64), ("procedure", ctypes.c_uint32), ("waits", ctypes.c_uint32)]


INTERRUPTED_HOOK = ctypes.CFUNCTYPE(ctypes.c_uint32, ctypes.c_void_p)
CUTTING_HOOK = ctypes.CFUNCTYPE(None, ctypes.c_void_p, ctypes.POINTER(CEngine), ctypes.c_uint64)


class CSharedConfig(ctypes.Structure):
    _fields_ = [
        ("size", ctypes.c_size_t),
        ("ended", ctypes.c_void_p),
        ("cutting", CUTTING_HOOK),
        ("context", ctypes.c_void_p),
        ("keeps_ended", ctypes.c_uint32),
        ("asks_to_cut", ctypes.c_uint32),
        ("cut_after", ctypes.c_uint64),
        ("cut_wait_ns", ctypes.c_int64),
    ]


class CRunOptions(ctypes.Structure):
    _fields_ = [("size", ctypes.c_size_t), ("wait_ns", ctypes.c_int64), ("tries", ctypes.c_uint32), ("spare", ctypes.c_uint32)]


class CSharedOutcome(ctypes.Structure):
    _fields_ = [
        ("size", ctypes.c_size_t),
        ("tries", ctypes.c_uint32),
        ("waits", ctypes.c_uint32),
        ("ticket", CTicket),
        ("sequence", ctypes.c_uint64),
        ("reply", CReply),
    ]


class CTransactOptions(ctypes.Structure):
    _fields_ = [("size", ctypes.c_size_t), ("wait_ns", ctypes.c_int64), ("tries", ctypes.c_uint32), ("spare", ctypes.c_uint32)]


class CTransaction(ctypes.Structure):
    _fields_ = [
        ("size", ctypes.c_size_t),
        ("shared", ctypes.c_void_p),
        ("ticket", CTicket),
        ("sequence", ctypes.c_uint64),
        ("ends", ctypes.c_uint64),
        *((name, ctypes.c_uint32) for name in ("tries", "waits", "status", "is_live")),
        ("reply", CReply),
    ]


def _path() -> str:
    package = pathlib.Path(__file__).resolve().parent
    near = [package / "libsgt.so", package.parent.parent / "out" / "libsgt.so"]
    found = [str(path) for path in near if path.exists()]
    named = os.environ.get("SGT_LIBRARY")
    if named and os.path.isdir(named):
        named = os.path.join(named, "libsgt.so")
    path = named or (found[0] if found else ctypes.util.find_library("sgt"))
    if not path:
        raise ImportError("sgt: no libsgt.so: set SGT_LIBRARY, or make it by bindings/build")
    return path


_u32, _u64, _i64, _size = ctypes.c_uint32, ctypes.c_uint64, ctypes.c_int64, ctypes.c_size_t
_text, _fault, _row = ctypes.c_char_p, ctypes.POINTER(CFault), ctypes.POINTER(CRow)
_engine, _reply, _count = ctypes.POINTER(CEngine), ctypes.POINTER(CReply), ctypes.POINTER(ctypes.c_uint64)
_shared, _ticket, _transaction = ctypes.c_void_p, ctypes.POINTER(CTicket), ctypes.POINTER(CTransaction)

_ENGINE_CALLS = {
    "sgt_open_with": [_engine, _text, _size, _row, _size, _fault],
    "sgt_open_bare": [_engine, _u64, _u64, _u64],
    "sgt_put": [_engine, _row, _size, _count],
    "sgt_procedure": [_engine, _text, _size, ctypes.POINTER(ctypes.c_uint16), _fault],
    "sgt_procedure_text": [_engine, _u64, _text, _size, _count],
    "sgt_get": [_engine, _u64, _i64, ctypes.POINTER(_i64)],
    "sgt_rows": [_engine, _u64, _i64, _row, _size, _count],
    "sgt_records": [_engine, _count],
    "sgt_live_tids": [_engine, ctypes.POINTER(_u32), _count],
    "sgt_limits": [_engine, ctypes.POINTER(_u64)],
    "sgt_wrote": [_engine, _u32, ctypes.POINTER(_u32)],
    "sgt_part": [_engine, _count],
    "sgt_entries": [_engine, _count],
    "sgt_entry": [_engine, _u64, ctypes.POINTER(CEvent), _reply],
    "sgt_calls": [_engine, _u64, ctypes.POINTER(CCall), _size, _count, _count],
    "sgt_accesses": [_engine, _u32, ctypes.POINTER(CAccess), _size, _count],
    "sgt_reserve": [_engine, _u64],
    "sgt_cut": [_engine, _count],
    "sgt_reply_text": [_reply, _text, _size, _count],
    "sgt_fault_text": [_fault, _text, _size, _count],
    "sgt_explain_opening": [_text, _size, _text, _size, _count],
    "sgt_explain_procedure": [_u64, _text, _size, _text, _size, _count],
    "sgt_close": [_engine],
    "sgt_shared_take": [ctypes.POINTER(_shared), _engine, ctypes.POINTER(CSharedConfig)],
}
_SHARED_CALLS = {
    "sgt_shared_open": [ctypes.POINTER(_shared), _text, _size, _row, _size, ctypes.POINTER(CSharedConfig), _fault],
    "sgt_shared_close": [ctypes.POINTER(_shared)],
    "sgt_shared_run": [_shared, _u64, ctypes.POINTER(_i64), _size, ctypes.POINTER(CRunOptions), ctypes.POINTER(CSharedOutcome)],
    "sgt_shared_start": [_shared, _u64, ctypes.POINTER(_i64), _size, _i64, _ticket, _reply],
    "sgt_shared_step": [_shared, _ticket, _reply],
    "sgt_shared_quit": [_shared, _ticket, _reply],
    "sgt_shared_abandon": [_shared, _ticket],
    "sgt_shared_commit": [_shared, _ticket, _i64, _reply],
    "sgt_shared_accesses": [_shared, _ticket, ctypes.POINTER(CAccess), _size, _count],
    "sgt_shared_try": [_shared, _transaction, ctypes.POINTER(CTransactOptions)],
    "sgt_transaction_read": [_transaction, _u64, _i64, ctypes.POINTER(_i64)],
    "sgt_transaction_write": [_transaction, _u64, _i64, _i64],
    "sgt_transaction_remove": [_transaction, _u64, _i64],
    "sgt_transaction_commit": [_transaction, _i64],
    "sgt_transaction_quit": [_transaction],
    "sgt_shared_live": [_shared, ctypes.POINTER(CLive), _size, _count],
    "sgt_shared_cut": [_shared, _i64],
    "sgt_shared_allow_cut": [_shared],
    "sgt_shared_get": [_shared, _u64, _i64, ctypes.POINTER(_i64)],
    "sgt_shared_rows": [_shared, _u64, _i64, _row, _size, _count],
    "sgt_shared_limits": [_shared, ctypes.POINTER(_u64)],
    "sgt_shared_entries": [_shared, _count, _count],
    "sgt_shared_drain": [_shared, _i64, ctypes.POINTER(CEnded), _size, _count],
    "sgt_shared_watch": [INTERRUPTED_HOOK, ctypes.c_void_p],
}


def _typed(library: ctypes.CDLL, calls: dict[str, list[type]]) -> None:
    for name, types in calls.items():
        function = getattr(library, name)
        function.argtypes = types
        function.restype = None if name in ("sgt_close", "sgt_shared_watch") else ctypes.c_uint32


# Calls to an Engine keep the interpreter's lock, so they never overlap; most are shorter than releasing it. Calls to a SharedEngine
# release it, since they may wait; so do the long calls of an Engine that is made so.
HELD = ctypes.PyDLL(_path())
FREE = ctypes.CDLL(_path())
_version = HELD["sgt_version"]
_version.restype = ctypes.c_char_p


def version() -> str:
    """The version of the library. It ends in `+unproved` if the library was compiled without proof."""
    return bytes(_version()).decode()


def serves(library: str, package: str) -> bool:
    """Whether a library of this version serves the package: it has the same major and minor number, and is not older."""
    given, wanted = ([int(number) for number in text.partition("+")[0].split(".")] for text in (library, package))
    return given[:2] == wanted[:2] and given >= wanted


if not serves(version(), VERSION):
    raise ImportError(f"sgt: the package is of version {VERSION}, and the library {_path()} of {version()}")
_typed(HELD, _ENGINE_CALLS)
_typed(FREE, _SHARED_CALLS)

# sgt_shared_abandon as a function that a weak reference calls. That passes itself too, which the library ignores.
ABANDON = ctypes.CFUNCTYPE(ctypes.c_uint32, _shared, _ticket, ctypes.py_object)(("sgt_shared_abandon", FREE))


def written(write: Callable[..., int], *asked: Union[ctypes.Structure, int, bytes]) -> str:
    """Returns the text that a call writes. Every reply fits into the buffer; for a longer text the call is repeated."""
    capacity, length = 1024, ctypes.c_uint64()
    while True:
        text = ctypes.create_string_buffer(capacity)
        check(write(*asked, text, capacity, length))
        if length.value <= capacity:
            return text.raw[: length.value].decode()
        capacity = length.value


def explained(explain: Callable[..., int], *asked: Union[int, bytes]) -> Optional[str]:
    """Returns in words why a text is refused, or None if there are no words or an allocation failed."""
    try:
        return written(explain, *asked)
    except Error:
        return None


def opening_refused(status: int, fault: CFault, opening: bytes) -> OpeningRefused:
    """The error of an opening that has this fault."""
    return OpeningRefused(status, written(HELD.sgt_fault_text, fault), explained(HELD.sgt_explain_opening, opening, len(opening)))


def procedure_refused(status: int, fault: CFault, text: bytes) -> ProcedureRefused:
    """The error of a procedure's text that has this fault."""
    explanation = explained(HELD.sgt_explain_procedure, fault.procedure, text, len(text))
    part = part_at(text, fault) if status == PROC_SHAPE else None
    return ProcedureRefused(status, written(HELD.sgt_fault_text, fault), explanation, part)


def part_at(text: bytes, fault: CFault) -> str:
    """Returns the part of a procedure's text that has the shape error."""
    part = json.loads(text)
    for position in fault.place[: fault.depth]:
        part = part[position]
    return json.dumps(part)


_ERRORS: dict[int, type[Error]] = {
    NO_MEMORY: NoMemory,
    CLOSED: Closed,
    BAD_CALL: BadCall,
    BEGUN: Begun,
    TOO_MANY: TooMany,
    BUSY: Busy,
    SELF_WAIT: SelfWait,
    TIMED_OUT: TimedOut,
    STALE: Stale,
    MISUSE: Misuse,
}


def check(status: int) -> None:
    """Raises the exception for the status, unless it is OK."""
    if status:
        error = _ERRORS.get(status)
        raise error() if error else Error(f"sgt: status {status}")


def nanoseconds(seconds: Optional[float]) -> int:
    """Returns the deadline for a call. None, infinity, and what is too long: without a limit. Raises BadCall."""
    if seconds is None or seconds >= FOREVER // 10**9:
        return FOREVER
    if not seconds >= 0:  # not a number, too
        raise BadCall(f"a timeout is None, or a number of seconds that is not negative: {seconds}")
    return int(seconds * 1e9)


def whole(number: int, least: int, most: int) -> int:
    """Returns the number. Raises BadCall if it is out of this range."""
    number = operator.index(number)
    if not least <= number <= most:
        raise BadCall()
    return number


def opening_of(limits: Sequence[int], accounts: Sequence[Sequence[int]], procedures: Sequence[object]) -> bytes:
    """Returns the JSON text of an opening."""
    return json.dumps({"limits": list(limits), "accounts": [list(a) for a in accounts], "procedures": list(procedures)}).encode()


def rows_for(rows: Sequence[AnyRow]) -> ctypes.Array[CRow]:
    """Returns the rows as an array for a call: at least one, since the pointer must not be null. Raises BadCall if one is out of range."""
    if any(map((3).__ne__, map(len, rows))):
        raise BadCall("a row is a table, a number and a value")
    try:
        flat = array.array("q", itertools.chain.from_iterable(rows))
    except OverflowError:
        raise BadCall() from None
    if not flat:
        return (CRow * 1)()
    tables, numbers, values = flat[0::3], flat[1::3], flat[2::3]
    if min(tables) < 0 or max(tables) > 7 or min(min(numbers), min(values)) < LEAST or max(max(numbers), max(values)) > MOST:
        raise BadCall()
    return (CRow * len(tables)).from_buffer(flat)  # low bytes come first, and the spare field is 0


if sys.byteorder != "little":
    raise ImportError("sgt: the library is for machines whose low bytes come first")

_unpacked_rows = struct.Struct("=I4xqq").iter_unpack


def rows_of(reported: ctypes.Array[CRow], count: int) -> list[Row]:
    """Returns the first `count` rows that a call wrote."""
    return list(map(Row._make, _unpacked_rows(bytes_of(reported, count))))


def bytes_of(reported: ctypes.Array[CRow], count: int) -> memoryview:
    """Returns the bytes of the first `count` rows that a call wrote."""
    return memoryview(reported).cast("B")[: count * ctypes.sizeof(CRow)]


def rows_in(data: Union[bytes, bytearray, memoryview]) -> tuple[Union[ctypes.Array[CRow], ctypes._Pointer[CRow]], int]:
    """Returns the rows in these bytes for a call, and their number. Raises BadCall if the last one is incomplete."""
    count, rest = divmod(memoryview(data).nbytes, ctypes.sizeof(CRow))
    if rest:
        raise BadCall(f"a row takes {ctypes.sizeof(CRow)} bytes")
    if isinstance(data, bytes):
        return ctypes.cast(data, _row), count  # which keeps them
    data = memoryview(data).cast("B")
    rows = (CRow * max(1, count))()
    memoryview(rows).cast("B")[: len(data)] = data
    return rows, count


def all_rows(ask: Callable[[ctypes.Array[CRow], int, ctypes.c_uint64], int]) -> tuple[ctypes.Array[CRow], int]:
    """Returns the rows that a call writes, and their number. Other threads may add records meanwhile, so it repeats until all fit."""
    count, capacity = ctypes.c_uint64(), 0
    while True:
        reported = (CRow * max(1, capacity))()
        check(ask(reported, capacity, count))
        if count.value <= capacity:
            return reported, count.value
        capacity = count.value


_pack_args = [struct.Struct(f"{count}q").pack_into for count in range(5)]


def pack_args(to: ctypes.Array[ctypes.c_int64], args: Sequence[int]) -> None:
    """Copies the arguments into the array that is passed to a call."""
    try:
        _pack_args[len(args)](to, 0, *args)
    except IndexError:
        raise BadCall("a procedure takes at most 4 arguments") from None
    except struct.error as error:
        raise BadCall(f"an argument is no number of 64 bits: {error}") from None


# The layout of a sgt_call with this many arguments: procedure, number of arguments, arguments.
_pack_call = [struct.Struct(f"=8xI4xI4x{count}q{104 - 8 * count}x").pack for count in range(5)]


CALL_BYTES = ctypes.sizeof(CCall)
_call_fields = struct.Struct("=8xI4xI4x4q72x").iter_unpack


def pack_calls(calls: Sequence[Sequence[int]]) -> bytes:
    """Returns these calls, each a procedure with its arguments, as bytes for `Engine.run_bytes`, laid out as `sgt_call`. Raises BadCall."""
    try:
        return b"".join([_pack_call[len(call) - 1](call[0], len(call) - 1, *call[1:]) for call in calls])
    except IndexError:
        raise BadCall("a call is a procedure with at most 4 arguments") from None
    except struct.error as error:
        raise BadCall(f"a number of a call is out of its range: {error}") from None


def unpack_calls(data: bytes) -> list[tuple[int, ...]]:
    """Returns the calls in bytes that `pack_calls` made. Raises BadCall if the last one is incomplete."""
    if len(data) % CALL_BYTES:
        raise BadCall(f"a call takes {CALL_BYTES} bytes")
    return [(procedure, *args[:count]) for procedure, count, *args in _call_fields(data)]


class Uncopied:
    """An engine or a transaction has one owner: it can be neither copied nor pickled."""

    _noun = "an engine"

    def __copy__(self) -> None:
        raise TypeError(f"sgt: {self._noun} can't be copied")

    def __deepcopy__(self, _: Optional[object]) -> None:
        raise TypeError(f"sgt: {self._noun} can't be copied")

    def __reduce__(self) -> str:
        raise TypeError(f"sgt: {self._noun} can't be pickled")
