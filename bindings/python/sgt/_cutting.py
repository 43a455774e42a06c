"""The hook of a shared engine that is called before each cut.

The library calls it, under its lock. An exception cannot pass through the library, so it is stored, and raised by the
call that was to cut: by `Cutter.made`, through which each call is made. There is a cut only if the hook has returned,
wherever an interrupt comes.
"""

from __future__ import annotations

import ctypes
import threading
from typing import Callable, Optional, TypeVar

from ._engine import EngineReads, LentEngine
from ._library import CUTTING_HOOK, FREE, CEngine, check

_Result = TypeVar("_Result")

Hook = Callable[[EngineReads, int], None]
NO_HOOK = CUTTING_HOOK()


class Cutter:
    """Calls the hook, and stores what it raises."""

    def __init__(self, shared: ctypes.c_void_p, hook: Hook) -> None:
        self._shared, self._hook = shared, hook
        self._raised: dict[int, BaseException] = {}  # by threads
        self.for_c = CUTTING_HOOK(self._cut)

    def _cut(self, _: None, engine: ctypes._Pointer[CEngine], part: int) -> None:
        try:
            lent = LentEngine(engine.contents)
            try:
                self._hook(lent, part)
            finally:
                lent.give_back()
            check(FREE.sgt_shared_allow_cut(self._shared))
        except BaseException as why:
            self._raised[threading.get_ident()] = why

    def made(self, call: Callable[..., _Result], *words: object) -> _Result:
        """Makes a call, and raises what the hook raised in it. If the call raises too, as at an interrupt, that is
        raised, with this as its context."""
        self._taken()  # what an interrupt kept an earlier call from raising is not this one's
        try:
            result = call(*words)
        except BaseException as why:
            why.__context__ = self._taken() or why.__context__
            raise
        raised = self._taken()
        if raised:
            raise raised
        return result

    def _taken(self) -> Optional[BaseException]:
        """Takes what the hook raised on this thread."""
        return self._raised.pop(threading.get_ident(), None) if self._raised else None
