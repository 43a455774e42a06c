"""The package for Python: how it is loaded, how its calls end, and how a signal interrupts them."""

import contextlib
import signal
import sys
import threading
import time

from .cases import Differs, same
from .library import BINDINGS


def module():
    """The package for Python."""
    sys.path.insert(0, str(BINDINGS / "python"))
    import sgt

    return sgt


class Interrupted(BaseException):
    """What the handler of a signal raises here."""


@contextlib.contextmanager
def interrupts(seconds):
    """A signal raises Interrupted after this many seconds, unless the block has ended by then."""
    is_on = True

    def handle(*_):
        if is_on:
            raise Interrupted

    before = signal.signal(signal.SIGALRM, handle)
    signal.setitimer(signal.ITIMER_REAL, seconds)
    try:
        yield
    finally:
        is_on = False
        signal.setitimer(signal.ITIMER_REAL, 0)
        signal.signal(signal.SIGALRM, before)


# Seconds: what takes less ends soon, on however busy a machine, and what takes longer has not ended by itself.
SOON, LONG = 300, 900


def interrupted(call, seconds=0.2):
    """Makes a call that waits for longer than `LONG`, and that a signal has to end."""
    began = time.monotonic()
    try:
        with interrupts(seconds):
            call()
    except Interrupted:
        same("that the call ends soon", True, time.monotonic() - began < seconds + SOON)
        return
    raise Differs("a call went on when a signal came")


def interrupted_beside(call, action):
    """The same, and another thread does this as soon as the signal has come: so the call may succeed in the wait that the signal ends."""
    begun = threading.Event()

    def acts():
        begun.wait()
        while signal.getitimer(signal.ITIMER_REAL)[0] > 0:
            time.sleep(0.001)
        action()

    thread = threading.Thread(target=acts)
    thread.start()
    try:
        interrupted(lambda: (begun.set(), call()))
    finally:
        begun.set()
        thread.join()


def elsewhere(call):
    """Makes a call on another thread, and returns its result. So a transaction in it is not of this thread."""
    reported = []
    thread = threading.Thread(target=lambda: reported.append(call()))
    thread.start()
    thread.join()
    return reported[0]


def what(error, call, reported):
    """Returns how a call ended: with this error, or with its result."""
    try:
        return call()
    except error:
        return reported


def refusal(call):
    """Whether the call is refused, by an error or by its result."""
    try:
        return call()
    except (ValueError, IndexError):
        return "refused"
