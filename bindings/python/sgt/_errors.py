"""The exceptions of this package. Unless a call says otherwise, a call that raises has changed nothing."""

from __future__ import annotations

from typing import TYPE_CHECKING, Optional, Sequence

if TYPE_CHECKING:
    from ._replies import BatchOutcome, Reply


class Error(Exception):
    """Every error of this package."""


class NoMemory(Error, MemoryError):
    """An allocation failed. After `run_many`, `outcomes` has those of the calls that had run by then."""

    def __init__(self, outcomes: Sequence[BatchOutcome] = ()) -> None:
        super().__init__("sgt: out of memory")
        self.outcomes = outcomes


class Closed(Error, ValueError):
    """The engine is closed."""

    def __init__(self) -> None:
        super().__init__("sgt: the engine is closed")


class BadCall(Error, ValueError):
    """An argument is out of range."""

    def __init__(self, what: str = "a number is out of its range") -> None:
        super().__init__(f"sgt: {what}")


class NoSuchEntry(Error, IndexError):
    """The history has fewer entries."""

    def __init__(self) -> None:
        super().__init__("sgt: there are not so many entries")


class Refused(Error, ValueError):
    """A text has a fault. The message explains it: where the error is, what was expected there and what was found.

    `status` is the kind of the fault, from 16 on, as in `enum sgt_status`, and `fault` its short text, which no later version changes.
    `explanation` is None if an allocation for it failed; the message is then `fault`.
    """

    def __init__(self, status: int, fault: str, explanation: Optional[str] = None) -> None:
        super().__init__(explanation or fault)
        self.status = status
        self.fault = fault
        self.explanation = explanation


class OpeningRefused(Refused):
    """The opening has a fault."""


class ProcedureRefused(Refused):
    """It is that of a procedure that was to be added. Of a shape error, `part` is the JSON of the part that does not fit."""

    def __init__(self, status: int, fault: str, explanation: Optional[str] = None, part: Optional[str] = None) -> None:
        super().__init__(status, fault, explanation)
        self.part = part


class Taken(Error, ValueError):
    """A record has a value already. `at` is the index of the first such row."""

    def __init__(self, at: int) -> None:
        super().__init__(f"sgt: the record of row {at} has a value already")
        self.at = at


class Begun(Error, RuntimeError):
    """The history is not empty, so no record and no procedure can be added."""

    def __init__(self) -> None:
        super().__init__("sgt: there is a history")


class StillLive(Error, RuntimeError):
    """The history cannot be cut off: `live` transactions are live."""

    def __init__(self, live: int) -> None:
        super().__init__("sgt: a transaction is live")
        self.live = live


class TooMany(Error, OverflowError):
    """No number is left for a procedure."""

    def __init__(self) -> None:
        super().__init__("sgt: no number is left for a procedure")


class Busy(Error, RuntimeError):
    """Another call is in the engine. Of a close of a SharedEngine: another thread waits in a call, or is in a hook, so it stays open."""

    def __init__(self, what: str = "another call is in the engine") -> None:
        super().__init__(f"sgt: {what}")


class TimedOut(Error, TimeoutError):
    """The deadline came first."""

    def __init__(self) -> None:
        super().__init__("sgt: the deadline came")


class SelfWait(Error, RuntimeError):
    """The call would wait, without a timeout, for a transaction that its own thread has to end."""

    def __init__(self) -> None:
        super().__init__("sgt: the call would wait for its own thread, without a timeout")


class Stale(Error, RuntimeError):
    """The transaction belongs to a part of the history that was cut off. It has ended."""

    def __init__(self) -> None:
        super().__init__("sgt: the transaction is of a part of the history that was cut off")


class Misuse(Error, RuntimeError):
    """A call from a hook of the same engine, with a ticket of another engine, in a forked child, or of a transaction that its own caller
    has committed or aborted; or a commit by the body of `transact`."""

    def __init__(self, what: str = "the call may not be made from here, or the ticket is of another engine") -> None:
        super().__init__(f"sgt: {what}")


class Aborted(Error, RuntimeError):
    """The transaction was aborted, and nothing of it is in the database. `reply` says why.

    `is_conflict` says whether that was by a conflict, a cycle or a cascading abort: then try it again. Otherwise a caller aborted it.
    """

    def __init__(self, reply: Reply, is_conflict: bool) -> None:
        super().__init__(f"sgt: {reply.text()}")
        self.reply = reply
        self.is_conflict = is_conflict


class NotStarted(Error, RuntimeError):
    """A start was refused. `reply` says why: no such procedure, bad arguments, or no start is left."""

    def __init__(self, reply: Reply) -> None:
        super().__init__(f"sgt: {reply.text()}")
        self.reply = reply
