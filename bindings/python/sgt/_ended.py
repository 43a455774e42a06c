"""Calls of a shared engine that ended, and the hook that is called for each.

Before Python 3.11 an interrupt may come where a `with` block releases its lock, and leave it held. Then later calls wait for ever.
"""

from __future__ import annotations

import ctypes
import threading
from typing import Callable, NamedTuple, Optional

from ._library import CLOSED, FOREVER, FREE, CEnded, CTicket, check
from ._replies import Call, call_of

BATCH = 64  # so many calls at most are taken from the library at a time


class Ticket(NamedTuple):
    """Identifies a transaction. `part` is the number of cuts before its start, `tid` its number in that part."""

    engine: int
    part: int
    tid: int


class Ended(NamedTuple):
    """A call that was committed or refused. `sequence` counts these calls from 0 in reply order, over all parts. `wrote` says whether it
    was committed and has written: a call that did not write changes nothing."""

    sequence: int
    ticket: Ticket
    call: Call
    wrote: bool


def ticket_of(ticket: CTicket) -> Ticket:
    return Ticket(ticket.engine, ticket.part, ticket.tid)


def ended_of(reported: CEnded) -> Ended:
    return Ended(reported.sequence, ticket_of(reported.ticket), call_of(reported.call), reported.wrote == 1)


class Stored:
    """Calls that were taken from the library, and that `drain` has still to return."""

    def __init__(self) -> None:
        self._calls: list[CEnded] = []
        self._lock = threading.Lock()
        self._added = threading.Condition(self._lock)

    def add(self, call: CEnded) -> None:
        with self._lock:
            self._calls.append(call)
            self._added.notify_all()

    def wait(self, wait_ns: int) -> None:
        """Waits until there are some, or for so long."""
        seconds = None if wait_ns == FOREVER else min(wait_ns / 1e9, threading.TIMEOUT_MAX)
        with self._lock:
            self._added.wait_for(lambda: self._calls, seconds)

    def take(self, most: int) -> list[CEnded]:
        """Takes at most `most`, oldest first."""
        taken: list[CEnded] = []
        try:
            with self._lock:
                taken, self._calls = self._calls[:most], self._calls[most:]
            return taken
        except BaseException:
            self.put_back(taken)
            raise

    def put_back(self, calls: list[CEnded]) -> None:
        with self._lock:
            self._calls = calls + self._calls


class Teller:
    """Calls the hook of an engine. The library stores the calls that ended, and after each call to the engine they are taken and reported.

    The hook is not called by the library, since an exception cannot pass through it, and a signal that comes where it calls Python would
    be lost, together with the call of the hook.
    """

    def __init__(self, shared: ctypes.c_void_p, hook: Callable[[Ended], None], stored: Optional[Stored]) -> None:
        self._shared, self._hook, self._stored = shared, hook, stored
        self._telling = threading.Lock()
        self._thread: Optional[int] = None  # the thread that has the lock, if any has
        self._calls, self._count, self._reported = (CEnded * BATCH)(), ctypes.c_uint64(), 0
        self._raised: dict[Ticket, Exception] = {}

    def is_here(self) -> bool:
        """Whether this thread is in the hook."""
        return self._thread == threading.get_ident() and self._telling.locked()

    def report(self, ticket: Optional[Ticket] = None) -> None:
        """Calls the hook for all calls that it was not called for yet. Raises what it raised for this one."""
        with self._telling:
            self._thread = threading.get_ident()
            try:
                self._report_all()
            finally:
                self._thread = None
        why = self._raised.pop(ticket, None) if ticket else None
        if why:
            raise why

    def _report_all(self) -> None:
        """An interrupt may come anywhere: then the next call goes on from there."""
        self._report_taken()
        taken = BATCH
        while taken == BATCH:
            self._count.value = 0
            self._reported = 0
            status = FREE.sgt_shared_drain(self._shared, 0, self._calls, BATCH, self._count)
            if status == CLOSED:
                return
            check(status)
            taken = self._count.value
            self._report_taken()

    def _report_taken(self) -> None:
        while self._reported < self._count.value:
            self._report_one(self._calls[self._reported])
            self._reported += 1

    def _report_one(self, reported: CEnded) -> None:
        ended = ended_of(reported)
        try:
            self._hook(ended)
        except Exception as why:
            self._raised[ended.ticket] = why
        if self._stored:
            self._stored.add(CEnded.from_buffer_copy(reported))
