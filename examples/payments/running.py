"""Runs a server. A bank with a long history is replaced by one without. That takes seconds, in which the old one serves."""

import contextlib
import ctypes
import os
import pathlib
import signal
import socket
import time
from collections import deque
from concurrent.futures import Future, ThreadPoolExecutor
from multiprocessing import connection, reduction
from typing import Optional

from bank import Bank, Unusable
from chain import Chain
from journal import BEAT, Store
from server import Server


def listen_at(path: pathlib.Path) -> socket.socket:
    """A socket at this path. One that an earlier server has left there is replaced."""
    if path.is_socket():
        path.unlink()
    listener = socket.socket(socket.AF_UNIX)
    os.fchmod(listener.fileno(), 0o600)  # of the file, once there is one
    try:
        listener.bind(str(path))
    except OSError as why:  # which does not name the path
        raise Unusable(f"{path}: no socket can be made here: {(why.strerror or str(why)).lower()}") from None
    listener.listen()
    return listener


def run(server: Server, port: int, admin: pathlib.Path, begin: float) -> None:
    """Runs a server until SIGTERM or SIGINT."""
    with listen_at(admin) as listener:
        reduction.send_handle(server.fronts[-1], listener.fileno(), None)
    said = f"serving on port {port} after call {server.chain.bank.seq}, started in {time.perf_counter() - begin:.2f} s, process {os.getpid()}"
    print(f"{said}, {'leads' if server.chain.leads else 'follows another server'}", flush=True)
    renewal: Optional[Renewal] = None
    while not server.chain.ends:
        at = time.monotonic()
        server.turn()
        if renewal:
            # As the new bank has to catch up, the old one works half of the time.
            time.sleep(min(time.monotonic() - at, 0.02) * renewal.catches_up)
            renewal = renewal.end(server) if renewal.made.done() else renewal
        elif server.chain.bank.is_long():
            renewal = Renewal(server)
    server.mark()
    server.flush()
    admin.unlink(missing_ok=True)


def end_by_signals(chain: Chain) -> None:
    """From now on SIGTERM and SIGINT end a server well. Nobody waits for a child that has ended."""
    signal.signal(signal.SIGCHLD, signal.SIG_IGN)
    for number in (signal.SIGTERM, signal.SIGINT):
        signal.signal(number, lambda *_: setattr(chain, "ends", True))


class Renewal:
    """A copy of the process stores a snapshot of the bank. A thread makes another bank of that, and has it run what the old one runs."""

    def __init__(self, server: Server) -> None:
        server.flush()
        self.old, self.number, self.catches_up = server.chain.bank, server.chain.number, False
        self.old.noted = self.noted = deque[bytes]()
        (link, its_link), child = connection.Pipe(duplex=False), -1
        with BEAT, contextlib.suppress(OSError):  # so no other thread holds a lock
            child = os.fork()
        if child == 0:
            ctypes.CDLL(None).prctl(1, signal.SIGKILL)  # PR_SET_PDEATHSIG: if the server dies, it does at once
            its_link.send(server.chain.store.save(self.number, self.old))
            os._exit(0)
        its_link.close()
        self.made: Future[Bank] = ThreadPoolExecutor(1).submit(self._make, server.chain.store, link)

    def _make(self, store: Store, link: connection.Connection) -> Bank:
        if trouble := link.recv():
            raise Unusable(trouble)
        bank = store.load(self.number)
        self.catches_up = True
        bank.rerun(self.noted, left=8)  # requests of fronts: their calls run in some milliseconds
        return bank

    def end(self, server: Server) -> None:
        """The new bank runs the rest, and takes the place of the old one. If there is none, the old one is cut, and clients wait."""
        chain, self.old.noted, server.trouble = server.chain, None, ""
        server.flush()
        if chain.bank is not self.old:
            return  # the journal has gone on with other procedures
        try:
            bank = self.made.result()
            bank.rerun(self.noted, left=0)
            if bank.seq != self.old.seq:
                raise ValueError(f"the calls up to {self.old.seq} end with call {bank.seq} in a bank that is made of a snapshot")
            chain.bank = bank
            ThreadPoolExecutor(1).submit(self.old.engine.close)
        except (EOFError, OSError, MemoryError, Unusable) as why:
            server.trouble = str(why) or "no snapshot, as the process that was to store it has ended"
            return self.old.cut()
        chain.insist(lambda: chain.journal.stored(chain.server, self.number, chain.number + 1))
