"""Signals that come while the main thread waits in a call of the library.

The interpreter handles signals on the main thread only, and not while that is in a call. So the library asks the main thread ten times a
second while it waits (`sgt_shared_watch`), and the call ends as soon as a handler has raised an exception, as that of Ctrl-C does.
"""

from __future__ import annotations

import threading
from typing import Callable, Generator

from ._library import FREE, INTERRUPTED_HOOK

_raised: list[BaseException] = []


def _asked() -> Generator[int, None, None]:
    """Goes on each time that the library asks. Yields 1 if a signal handler has raised.

    It is a generator, since the interpreter runs handlers wherever Python code begins or goes on. A generator goes on inside its `try`; a
    function begins before any `try` of it, so what a handler raises there would be lost.
    """
    reported = 0
    while True:
        try:
            yield reported
            reported = 0
        except GeneratorExit:
            return
        except BaseException as why:
            _raised.append(why)
            reported = 1


class _Watch:
    """The generator that the library asks on this thread, and the function for C that makes it go on."""

    def __init__(self) -> None:
        self.thread = threading.get_ident()
        self.asked = _asked()
        next(self.asked)
        self.hook = INTERRUPTED_HOOK(self.asked.send)
        self.is_set = False

    def is_usable(self, thread: int) -> bool:
        return self.is_set and self.thread == thread and self.asked.gi_frame is not None


_watches: list[_Watch] = []  # the last one is in use; the library may still have the function of another


def _set_watch(thread: int) -> None:
    """Has the library ask this thread, unless it does already."""
    if _watches and _watches[-1].is_usable(thread):
        return
    watch = _Watch()
    _watches.append(watch)
    FREE.sgt_shared_watch(watch.hook, None)
    watch.is_set = True


def interruptible(call: Callable[..., int], *words: object) -> int:
    """Makes a call that may wait, and returns its status. On the main thread it raises what a signal handler raises meanwhile; the call may
    have been carried out even so."""
    thread = threading.get_ident()
    if thread != threading.main_thread().ident:
        return call(*words)
    _set_watch(thread)
    _raised.clear()
    status = call(*words)
    if _raised:
        raise _raised.pop()
    return status
