"""A transaction of a shared engine whose caller decides the accesses."""

from __future__ import annotations

import ctypes
import functools
import sys
import time
import types
import weakref
from typing import TYPE_CHECKING, Callable, Optional, TypeVar

from ._ended import Ticket, ticket_of
from ._errors import Aborted, Error, Misuse, NotStarted
from ._library import (
    ABANDON,
    FOREVER,
    FREE,
    LEAST,
    MISUSE,
    MOST,
    NONE,
    OK,
    UNDONE,
    CTransaction,
    CTransactOptions,
    Uncopied,
    check,
    nanoseconds,
    whole,
)
from ._replies import Kind, Reply, reply_of

if TYPE_CHECKING:
    from ._shared import SharedEngine

_Result = TypeVar("_Result")

_PLAIN = frozenset((type(None), bool, int, str, tuple, list, dict))  # what most bodies return
_LAZY = (types.GeneratorType, types.AsyncGeneratorType)  # beside what can be awaited


def deadline_in(timeout: Optional[float]) -> Optional[int]:
    """Returns when a call that begins now times out: in nanoseconds, or None."""
    wait_ns = nanoseconds(timeout)
    return None if wait_ns == FOREVER else time.monotonic_ns() + wait_ns


def _left(deadline: Optional[int]) -> int:
    """Returns the nanoseconds that are left until then."""
    return FOREVER if deadline is None else max(0, deadline - time.monotonic_ns())


def _is_lazy(result: object) -> bool:
    """Whether what a body returned may have still to be run, so that it would use a transaction that has ended: if it
    is a generator, can be awaited, or is a future of another thread. (Whoever has such a future has imported its
    module.)"""
    kind = type(result)
    if kind in _PLAIN:
        return False
    future = getattr(sys.modules.get("concurrent.futures"), "Future", ())
    return hasattr(kind, "__await__") or isinstance(result, _LAZY) or isinstance(result, future)


def _not_run(result: object) -> TypeError:
    """The error of a body that returned such a thing."""
    if isinstance(result, types.CoroutineType):
        result.close()  # else Python warns that it was never awaited
    must_not = "it must not be async or a generator, nor return what is awaited or a future"
    return TypeError(f"sgt: the body returned a {type(result).__name__}: {must_not}")


class OwnTransaction(Uncopied):
    """A transaction whose accesses you decide, of `SharedEngine.transaction` or `SharedEngine.transact`.

    The end of a `with` block commits it, unless it has ended before; an exception in the block aborts it. So does the loss of the last
    reference to it, wherever an interrupt comes. Each call raises Aborted if the transaction has been aborted, NoMemory, BadCall if a
    number is out of range, or Misuse once you have committed or aborted it. It can be neither copied nor pickled.

    What it reads may be uncommitted, and be undone afterwards. So act on it only after the commit.
    """

    _noun = "a transaction"
    _guard: Optional[weakref.ref[OwnTransaction]] = None  # aborts it; no Python code runs then, in which an interrupt could come
    _of_hook: Optional[Exception] = None  # what a hook raised last in an access of the body

    def __init__(self, engine: SharedEngine) -> None:
        self._engine, self._reported = engine, CTransaction(size=ctypes.sizeof(CTransaction))
        self._in_body = False  # of `transact`, which commits it
        self._ticket = self._reported.ticket  # in the same memory: always that of the last try
        self._guard = weakref.ref(self, functools.partial(ABANDON, engine._shared, self._ticket))

    @property
    def ticket(self) -> Ticket:
        """Identifies the last try. Once it is committed, this is the `ticket` of its `Ended`: a body may return it for a journal."""
        return ticket_of(self._ticket)

    @property
    def tries(self) -> int:
        """How many transactions were started for it, this one included."""
        return self._reported.tries

    def read(self, table: int, number: int) -> Optional[int]:
        """Returns the value of a record, or None if there is no such record."""
        value = ctypes.c_int64()
        status = self._ask(FREE.sgt_transaction_read, whole(table, 0, 7), whole(number, LEAST, MOST), value)
        if status == NONE:
            return None
        self._check(status)
        return value.value

    def write(self, table: int, number: int, value: int) -> None:
        """Writes a record."""
        words = whole(table, 0, 7), whole(number, LEAST, MOST), whole(value, LEAST, MOST)
        self._check(self._ask(FREE.sgt_transaction_write, *words))

    def remove(self, table: int, number: int) -> None:
        """Removes a record. Does nothing if there is none."""
        self._check(self._ask(FREE.sgt_transaction_remove, whole(table, 0, 7), whole(number, LEAST, MOST)))

    def commit(self, timeout: Optional[float] = None) -> Reply:
        """Commits it, and waits for its predecessors. Raises TimedOut if the deadline comes first, or SelfWait; then it was aborted.

        The body of `transact` must not call it: Misuse.
        """
        if self._in_body:
            raise Misuse("a body must not commit its transaction: `transact` does when the body returns")
        if not self._commits(nanoseconds(timeout)):
            raise self._aborted()
        return self._reply()

    def quit(self) -> None:
        """Aborts it, unless it has ended."""
        if self._reported.is_live:
            self._ends_undone()

    def _ask(self, function: Callable[..., int], *words: object) -> int:
        """Makes an access and returns its status."""
        try:
            return self._engine._made(function, self._reported, *words)
        except Exception as why:
            self._of_hook = why if self._in_body else None
            raise

    def _check(self, status: int) -> None:
        """Raises what the status says, unless it is OK."""
        if status == UNDONE:
            raise self._aborted()
        if status == MISUSE and self._reported.tries and not self._reported.is_live:
            raise Misuse("the transaction has ended")
        check(status)

    def _reply(self) -> Reply:
        return reply_of(self._reported.reply, self._reported.reply)

    def _aborted(self) -> Error:
        return Aborted(self._reply(), self._reported.status == UNDONE)

    def _start(self, tries: int, wait_ns: int) -> None:
        """Starts the next try: alone after `tries` tries. Raises NotStarted if no start is left."""
        options = CTransactOptions(ctypes.sizeof(CTransactOptions), wait_ns, tries)
        check(self._engine._wait(FREE.sgt_shared_try, self._reported, options))
        if self._reported.reply.kind != Kind.STARTED:
            raise NotStarted(self._reply())

    def _run(self, body: Callable[[OwnTransaction], _Result], tries: int, deadline: Optional[int]) -> _Result:
        """Runs the body, again after each conflict, and commits. Raises Aborted if another caller aborted it."""
        self._in_body = True
        while True:
            self._start(tries, _left(deadline))
            self._of_hook = None
            try:
                result = body(self)
                if _is_lazy(result):
                    raise _not_run(result)
            except Exception as why:
                if why is self._of_hook or not self._ends_undone():
                    raise
                continue
            if self._commits(_left(deadline)):
                return result

    def _commits(self, wait_ns: int) -> bool:
        """Commits it. False if it was aborted by a conflict. Raises Aborted if another caller aborted it."""
        status = self._engine._commit(self._ticket, FREE.sgt_transaction_commit, self._reported, wait_ns)
        if status == UNDONE:
            return False
        check(status)
        if self._reported.reply.kind != Kind.COMMITTED:
            raise self._aborted()
        return True

    def _ends_undone(self) -> bool:
        """Aborts it, unless it has ended. Whether it was aborted by a conflict. No hook is called."""
        return FREE.sgt_transaction_quit(self._reported) == UNDONE

    def _abandon(self) -> None:
        """Aborts it, unless it has ended. It may also have been aborted in cascade and cut off, or the engine closed."""
        FREE.sgt_shared_abandon(self._engine._shared, self._ticket)

    def __enter__(self) -> OwnTransaction:
        return self

    def __exit__(self, kind: Optional[type[BaseException]], *_: object) -> None:
        if kind is not None:
            self._abandon()
        elif self._reported.is_live or self._reported.status != OK or self._reported.reply.kind == Kind.OVER:
            self.commit()
