"""sgt for Python, by ctypes: an in-memory transaction engine that schedules by serialization graph testing.

    with SharedEngine(limits=(8, 1000, 1), accounts=[(1, 101, 500, 1000)]) as bank:
        outcome = bank.run(1, 1, 100)                 # SmallBank's deposit: account 1, 100 cents; from any thread
        if outcome.reply.kind is Kind.COMMITTED:
            print(outcome.reply.answers)              # (1100,)

        def doubles(t):                               # a transaction function of your own: it is run again after a conflict
            value = t.read(2, 101)
            t.write(2, 101, 2 * value)
            return value

        print(bank.transact(doubles))                 # 1100

`SharedEngine` is for many threads. `Engine` has a call for each event of a history, for one thread at a time. sgt_shared.h and sgt.h say
what each call does.

The library is the file that SGT_LIBRARY names, or libsgt.so in the folder that it names. Else it is searched in this package, then in
bindings/out, then where the system has libraries.
"""

from ._engine import Engine, EngineReads
from ._ended import Ended, Ticket
from ._errors import (
    Aborted,
    BadCall,
    Begun,
    Busy,
    Closed,
    Error,
    Misuse,
    NoMemory,
    NoSuchEntry,
    NotStarted,
    OpeningRefused,
    ProcedureRefused,
    Refused,
    SelfWait,
    Stale,
    StillLive,
    Taken,
    TimedOut,
    TooMany,
)
from ._library import EMPTY_PROCEDURE, LEAST, MOST, NEVER, Row, pack_calls, unpack_calls, version
from ._own import OwnTransaction
from ._replies import Access, Asked, BatchOutcome, Call, Cause, Event, Kind, Reply, unpack_outcomes, wrote
from ._shared import Live, Outcome, SharedEngine, Transaction

__version__ = version()

__all__ = [
    "EMPTY_PROCEDURE",
    "LEAST",
    "MOST",
    "NEVER",
    "Aborted",
    "Access",
    "Asked",
    "BadCall",
    "BatchOutcome",
    "Begun",
    "Busy",
    "Call",
    "Cause",
    "Closed",
    "Ended",
    "Engine",
    "EngineReads",
    "Error",
    "Event",
    "Kind",
    "Live",
    "Misuse",
    "NoMemory",
    "NoSuchEntry",
    "NotStarted",
    "OpeningRefused",
    "Outcome",
    "OwnTransaction",
    "ProcedureRefused",
    "Refused",
    "Reply",
    "Row",
    "SelfWait",
    "SharedEngine",
    "Stale",
    "StillLive",
    "Taken",
    "Ticket",
    "TimedOut",
    "TooMany",
    "Transaction",
    "pack_calls",
    "unpack_calls",
    "unpack_outcomes",
    "version",
    "wrote",
]
