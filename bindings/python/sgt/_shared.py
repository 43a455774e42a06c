"""One engine for many threads."""

from __future__ import annotations

import ctypes
import functools
import sys
import weakref
from typing import Callable, NamedTuple, Optional, Sequence, TypeVar, Union, overload

from ._cutting import NO_HOOK, Cutter, Hook
from ._errors import BadCall, Busy, Error, Misuse, NotStarted
from ._ended import Ended, Stored, Teller, Ticket, ended_of, ticket_of
from ._engine import Engine
from ._interrupts import interruptible
from ._library import (
    ABANDON,
    BUSY,
    CLOSED,
    FIRST_FAULT,
    FREE,
    HELD,
    LEAST,
    MOST,
    NONE,
    OK,
    AnyRow,
    CEnded,
    CFault,
    CLive,
    CSharedOutcome,
    CReply,
    CRunOptions,
    CSharedConfig,
    CTicket,
    Row,
    Uncopied,
    all_rows,
    check,
    nanoseconds,
    opening_of,
    opening_refused,
    pack_args,
    rows_for,
    rows_of,
    whole,
)
from ._own import OwnTransaction, deadline_in
from ._replies import Access, Kind, Reply, all_accesses, reply_of

_Result = TypeVar("_Result")

MOST_LIVE = 32
NEVER_ALONE = 2**32 - 1  # tries: it has but one
_OPEN_HOOKS: list[Optional[Cutter]] = []  # of engines that were collected, but could not be closed


class Live(NamedTuple):
    """A live transaction. `age` is in seconds; `waits` says whether a thread waits for its commit."""

    ticket: Ticket
    procedure: int
    age: float
    waits: bool


class Outcome(NamedTuple):
    """The outcome of a run: the last reply, the last transaction, how many were started for it, and how often it waited. `sequence` is that
    of its Ended, if it was committed or refused."""

    reply: Reply
    ticket: Optional[Ticket]
    tries: int
    waits: int
    sequence: Optional[int]


class SharedEngine(Uncopied):
    """An engine for many threads: any thread may call it at any time. Each call releases the interpreter's lock.

    It is closed at the end of a `with` block, by `close`, or when it is collected. Timeouts are seconds. None and
    infinity wait without a limit, and what is negative or not a number is a BadCall.
    """

    def __init__(
        self,
        limits: Sequence[int],
        accounts: Sequence[Sequence[int]] = (),
        procedures: Sequence[object] = (),
        rows: Sequence[AnyRow] = (),
        *,
        ended: Optional[Callable[[Ended], None]] = None,
        cutting: Optional[Hook] = None,
        keeps_ended: bool = False,
        cut_after: int = 0,
        cut_wait: float = 0,
    ) -> None:
        """Opens an engine as `Engine` does.

        `ended` is called for each committed or refused call, in reply order, one at a time, on any thread, before the call returns. It may
        not call the engine. If it raises an Exception, that is raised by the call that ended, which has been carried out. If it raises
        a KeyboardInterrupt or the like, that is raised at once, and the next call calls it again for the same `sequence`.

        `cutting` is called before each cut with the engine and the number of the part that is cut off, to read its history and database. It is
        called by the call that cuts, on its thread, and nothing else happens meanwhile; it may not call the shared
        engine. If it raises, there is no cut, and that is raised by this call, unless an interrupt is. The call has
        been carried out, but for `cut`, and for the start of a transaction, of which nothing is left live. An abort at
        the end of a body or a block does not call it. If memory is short the cut fails, and the hook is called again
        for the same part later. Calls may be cut off before `ended` is called for them.

        With `keeps_ended` such calls are stored until `drain` takes them. Once the history has `cut_after` entries and no transaction
        is live, it is cut off; new transactions wait at most `cut_wait` seconds for that. NEVER: it never is. 0: never with a hook
        or `keeps_ended`, and else after a million entries, or after four for each record of the opening if these are more.

        If there are two limits, the third one is 1: codes are reported at the commit, so that they are true in the serial order.
        """
        config = self._configured(ended, cutting, keeps_ended, cut_after, cut_wait)
        limits = (*limits, 1) if len(limits) == 2 else limits
        line, fault = opening_of(limits, accounts, procedures), CFault()
        status = FREE.sgt_shared_open(self._shared, line, len(line), rows_for(rows), len(rows), config, fault)
        if status >= FIRST_FAULT:
            raise opening_refused(status, fault, line)
        check(status)

    @classmethod
    def take(
        cls,
        engine: Engine,
        *,
        ended: Optional[Callable[[Ended], None]] = None,
        cutting: Optional[Hook] = None,
        keeps_ended: bool = False,
        cut_after: int = 0,
        cut_wait: float = 0,
    ) -> SharedEngine:
        """Takes over an engine without a history: one that `put` and `procedure` have prepared, say. It is closed afterwards. Its limits
        stay. The options are those of `SharedEngine`.

        Raises Begun if it has a history; then it is as before.
        """
        taker = cls.__new__(cls)
        config = taker._configured(ended, cutting, keeps_ended, cut_after, cut_wait)
        check(HELD.sgt_shared_take(taker._shared, engine._engine, config))
        return taker

    def _configured(
        self,
        ended: Optional[Callable[[Ended], None]],
        cutting: Optional[Hook],
        keeps_ended: bool,
        cut_after: int,
        cut_wait: float,
    ) -> CSharedConfig:
        """Sets all but the engine, and returns the configuration in the library's form."""
        self._shared = ctypes.c_void_p()
        self._keeps = bool(keeps_ended)
        self._stored = Stored()
        self._teller = Teller(self._shared, ended, self._stored if keeps_ended else None) if ended else None
        self._cutter = Cutter(self._shared, cutting) if cutting else None
        return CSharedConfig(
            size=ctypes.sizeof(CSharedConfig),
            cutting=self._cutter.for_c if self._cutter else NO_HOOK,
            asks_to_cut=1,
            keeps_ended=self._keeps or self._teller is not None,
            cut_after=whole(cut_after, 0, 2**64 - 1),
            cut_wait_ns=nanoseconds(cut_wait),
        )

    def _ask(self, function: Callable[..., int], *words: object) -> int:
        """Makes a call and returns its status."""
        return self._made(function, self._shared, *words)

    def _wait(self, function: Callable[..., int], *words: object) -> int:
        """The same for a call that may wait."""
        return self._made(interruptible, function, self._shared, *words)

    def _commit(self, ticket: CTicket, function: Callable[..., int], *words: object) -> int:
        """The same for a call that may commit this transaction: then the hook `ended` is called."""
        self._check_place()
        try:
            status = self._made(interruptible, function, *words)
        except Exception:  # what the hook `cutting` raised: the call may have been carried out all the same
            self._report(ticket)
            raise
        if status == OK:
            self._report(ticket)
        return status

    def _made(self, call: Callable[..., _Result], *words: object) -> _Result:
        """Makes a call. Raises what the hook `cutting` raises in it."""
        self._check_place()
        return self._cutter.made(call, *words) if self._cutter else call(*words)

    def _check_place(self) -> None:
        """Raises Misuse in the hook `ended`."""
        if self._teller and self._teller.is_here():
            raise Misuse()

    def _report(self, ticket: CTicket) -> None:
        """Calls the hook `ended`, if there is one, after a call for this transaction."""
        if self._teller:
            self._made(self._teller.report, ticket_of(ticket))

    def run(self, procedure: int, *args: int, timeout: Optional[float] = None, tries: int = 0) -> Outcome:
        """Runs a procedure from its start to its commit. It waits and tries again as often as needed, or up to `tries` times.

        Raises TimedOut if the deadline comes first; then no transaction of it is left live. An interrupt ends it too, and may come when
        it has been carried out.
        """
        given, outcome = (ctypes.c_int64 * 4)(), CSharedOutcome(size=ctypes.sizeof(CSharedOutcome))
        pack_args(given, args)
        options = CRunOptions(ctypes.sizeof(CRunOptions), nanoseconds(timeout), whole(tries, 0, 2**32 - 1))
        words = self._shared, whole(procedure, 0, 65535), given, len(args), options, outcome
        check(self._commit(outcome.ticket, FREE.sgt_shared_run, *words))
        ticket = ticket_of(outcome.ticket) if outcome.tries else None
        sequence = outcome.sequence if outcome.sequence < 2**64 - 1 else None
        return Outcome(reply_of(outcome.reply, outcome.reply), ticket, outcome.tries, outcome.waits, sequence)

    def transact(self, body: Callable[[OwnTransaction], _Result], *, timeout: Optional[float] = None, tries: int = 8) -> _Result:
        """Runs `body(t)` as a transaction, commits it, and returns what the body returned. The body reads and writes by `t.read`, `t.write`
        and `t.remove`.

        The body is run again after a conflict, so it must have no effects but these. What it reads may be uncommitted, and be undone
        afterwards: act on it after the commit, when this call has returned. An exception of the body aborts the transaction and is
        raised, unless a conflict had come first; it may rest on a value that is undone. To refuse truthfully, return the refusal without a write:
        once that is committed, it is true. To abort, raise an exception of your own.

        The body must not commit the transaction itself: Misuse. A body that is async or a generator, or returns what is
        awaited or a future, is a TypeError.

        What a hook raises is raised in each case, unless the body catches it. Nothing is committed then, unless it was
        raised in the commit.

        After `tries` conflicts the next try is made alone: others wait until it has ended, and it has no conflicts.

        Raises TimedOut if the deadline comes first, which does not interrupt the body; Aborted if another caller aborted the transaction; NotStarted
        if no start is left; SelfWait; NoMemory, also if the body has caught that. Then nothing of it is left live. An interrupt ends the
        call too, and may come when it has been carried out.
        """
        deadline, most = deadline_in(timeout), whole(tries, 0, 2**32 - 1)
        transaction = OwnTransaction(self)
        try:
            return transaction._run(body, most, deadline)
        except BaseException:
            transaction._abandon()
            raise

    @overload
    def transaction(self, *, timeout: Optional[float] = None) -> OwnTransaction: ...

    @overload
    def transaction(self, procedure: int, *args: int, timeout: Optional[float] = None) -> Transaction: ...

    def transaction(
        self, procedure: Optional[int] = None, *args: int, timeout: Optional[float] = None
    ) -> Union[OwnTransaction, Transaction]:
        """Starts a transaction.

        Without a procedure, you decide its accesses: see OwnTransaction. The end of a `with` block commits it, and an exception aborts it.

        With a procedure, its accesses are made one at a time, by `step`. The end of a `with` block aborts it, unless it has ended; so does
        the loss of the last reference to it.

        Raises NotStarted if the start is refused, TimedOut or NoMemory.
        """
        if procedure is not None:
            return self._transaction_of(procedure, args, timeout)
        own = OwnTransaction(self)
        try:
            own._start(NEVER_ALONE, nanoseconds(timeout))
            return own
        except BaseException:
            own._abandon()
            raise

    def _transaction_of(self, procedure: int, args: Sequence[int], timeout: Optional[float]) -> Transaction:
        given, reported, transaction = (ctypes.c_int64 * 4)(), CReply(), Transaction(self, CTicket())
        pack_args(given, args)
        number = whole(procedure, 0, 65535)
        try:
            check(self._wait(FREE.sgt_shared_start, number, given, len(args), nanoseconds(timeout), transaction._ticket, reported))
            reply = reply_of(reported, reported)
            if reply.kind is not Kind.STARTED:
                raise NotStarted(reply)
            return transaction
        except BaseException:
            transaction._abandon()
            raise

    def quit(self, ticket: Ticket) -> Reply:
        """Aborts the transaction of a ticket, which `live` returns."""
        reported = CReply()
        check(self._ask(FREE.sgt_shared_quit, CTicket(ticket.engine, ticket.part, ticket.tid), reported))
        return reply_of(reported, reported)

    def accesses(self, ticket: Ticket) -> list[Access]:
        """Returns the accesses that the caller of a transaction decided, in their order, until the history is cut. Raises Stale then.

        The cost grows with the entries since its start, so ask soon. The hook `ended` may not ask: let the body return what it wrote, and
        `t.ticket`, which is the `ticket` of its `Ended`.
        """
        of = CTicket(ticket.engine, ticket.part, ticket.tid)
        return all_accesses(lambda reported, space, count: check(self._ask(FREE.sgt_shared_accesses, of, reported, space, count)))

    def live(self) -> list[Live]:
        """Returns the live transactions."""
        rows, count = (CLive * MOST_LIVE)(), ctypes.c_uint64()
        check(self._ask(FREE.sgt_shared_live, rows, MOST_LIVE, count))
        return [Live(ticket_of(row.ticket), row.procedure, row.for_ns / 1e9, bool(row.waits)) for row in rows[: count.value]]

    def cut(self, timeout: Optional[float] = None) -> None:
        """Cuts the history off once no transaction is live; new ones wait meanwhile. Raises TimedOut or NoMemory."""
        check(self._wait(FREE.sgt_shared_cut, nanoseconds(timeout)))

    def get(self, table: int, number: int) -> Optional[int]:
        """Returns the committed value of a record, or None if there is no such record."""
        value = ctypes.c_int64()
        status = self._ask(FREE.sgt_shared_get, whole(table, 0, 7), whole(number, LEAST, MOST), value)
        if status == NONE:
            return None
        check(status)
        return value.value

    def rows(self, table: int = 0, number: int = LEAST) -> list[Row]:
        """Returns the committed database from a record on, in order of tables and then of numbers."""
        table, number = whole(table, 0, 7), whole(number, LEAST, MOST)
        return rows_of(*all_rows(lambda reported, space, count: self._ask(FREE.sgt_shared_rows, table, number, reported, space, count)))

    def limits(self) -> tuple[int, ...]:
        """Returns the three limits, as `Engine.limits` does."""
        limits = (ctypes.c_uint64 * 3)()
        check(self._ask(FREE.sgt_shared_limits, limits))
        return tuple(limits)

    def entries(self) -> int:
        """The number of entries of the history since the last cut."""
        count = ctypes.c_uint64()
        check(self._ask(FREE.sgt_shared_entries, count, None))
        return count.value

    def drain(self, most: int = 1024, timeout: Optional[float] = None) -> list[Ended]:
        """Takes at most `most` of the stored calls, oldest first. Returns an empty list if none comes in time.

        Raises BadCall if the engine stores none, and Closed if it is closed meanwhile. What an interrupt keeps it from returning is
        returned by the next call; before Python 3.11, unless the interrupt comes between the return and the next instruction.
        """
        if not self._keeps:
            raise BadCall("the engine stores no calls: open it with keeps_ended")
        wait_ns = nanoseconds(timeout)
        calls, count = (CEnded * whole(most, 1, 2**24))(), ctypes.c_uint64()
        taken: list[CEnded] = []
        try:
            taken = self._stored.take(most)
            if not taken and self._teller:
                self.entries()  # raises Closed
                self._stored.wait(wait_ns)
                taken = self._stored.take(most)
            elif not taken:
                check(self._wait(FREE.sgt_shared_drain, wait_ns, calls, most, count))
                taken = calls[: count.value]
            return list(map(ended_of, taken))
        except BaseException:
            self._stored.put_back(taken or calls[: count.value])
            raise

    def close(self) -> None:
        """Closes the engine. Later calls raise Closed, and so do calls that wait for its lock, or for a call to drain. Raises Busy if one
        waits for something else.
        """
        status = self._made(self._shut)
        if status == BUSY:
            raise Busy("another thread waits in a call, or is in a hook, so the engine stays open")
        if status != CLOSED:
            check(status)

    def _shut(self) -> int:
        """Calls the hook `ended` for the last calls, closes the engine, and returns the status."""
        if self._teller:
            self._teller.report()
        status: int = FREE.sgt_shared_close(self._shared)
        return status

    def __enter__(self) -> SharedEngine:
        return self

    def __exit__(self, _: object, raised: Optional[BaseException], *__: object) -> None:
        """Closes the engine. If it cannot be closed while an exception is raised, it stays open, and the exception has a note of it from
        Python 3.11 on."""
        try:
            self.close()
        except Error as why:
            if raised is None:
                raise
            if sys.version_info >= (3, 11):
                raised.add_note(str(why))

    def __del__(self) -> None:
        if getattr(self, "_shared", None):
            try:
                self.close()
            except (Busy, Misuse):  # a call is under way, or this is a forked child: then it stays open, and so do its hooks
                _OPEN_HOOKS.append(self._cutter)


class Transaction(Uncopied):
    """A transaction of a shared engine. The end of a `with` block aborts it, unless it has ended before; so does the loss of the last
    reference to it, wherever an interrupt comes. It can be neither copied nor pickled."""

    _noun = "a transaction"
    _guard: Optional[weakref.ref[Transaction]] = None  # aborts it; no Python code runs then, in which an interrupt could come

    waits_for: Optional[int] = None
    """The number of the transaction that the last commit waits for, if it raised TimedOut or SelfWait."""

    def __init__(self, engine: SharedEngine, ticket: CTicket) -> None:
        self._engine, self._ticket = engine, ticket
        self._guard = weakref.ref(self, functools.partial(ABANDON, engine._shared, ticket))

    @property
    def ticket(self) -> Ticket:
        return ticket_of(self._ticket)

    def step(self) -> Reply:
        """Makes the next access of the procedure."""
        reported = CReply()
        check(self._engine._ask(FREE.sgt_shared_step, self._ticket, reported))
        return self._replied(reported)

    def commit(self, timeout: Optional[float] = None) -> Reply:
        """Commits it, and waits for its predecessors. Raises TimedOut if the deadline comes first; it is still live then, and `waits_for`
        names the predecessor.
        """
        reported = CReply()
        engine, wait_ns = self._engine, nanoseconds(timeout)
        status = engine._commit(self._ticket, FREE.sgt_shared_commit, engine._shared, self._ticket, wait_ns, reported)
        self.waits_for = reported.tid if reported.kind == Kind.WAITS else None
        check(status)
        return self._replied(reported)

    def quit(self) -> Reply:
        """Aborts it."""
        reported = CReply()
        check(self._engine._ask(FREE.sgt_shared_quit, self._ticket, reported))
        return self._replied(reported)

    def _replied(self, reported: CReply) -> Reply:
        reply = reply_of(reported, reported)
        if reply.kind in (Kind.COMMITTED, Kind.ABORTED, Kind.REFUSED, Kind.OVER):
            self._guard = None
        return reply

    def _abandon(self) -> None:
        """Aborts it, unless it has ended. It may also have been aborted in cascade and cut off, or the engine closed."""
        if self._guard:
            FREE.sgt_shared_abandon(self._engine._shared, self._ticket)
            self._guard = None

    def __enter__(self) -> Transaction:
        return self

    def __exit__(self, *_: object) -> None:
        self._abandon()
