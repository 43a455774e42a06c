"""A front process: it reads the lines of some clients, asks the server's process, and writes the replies. It decides nothing by itself."""

import contextlib
import marshal
import os
import resource
import select
import signal
import socket
import ssl
import time
from array import array
from multiprocessing.connection import Connection, Pipe
from multiprocessing.reduction import recv_handle
from typing import Any, Optional

from bank import Procedure
from lines import LONGEST, Client, Line, Reader, Request, Tokens
from sgt import pack_calls

FRONTS = 3  # processes: each waits while the server runs what it has asked, so they are more than are busy at a time
CLIENTS = 1000  # of a front, or fewer if it may open fewer files. Others wait until one of them has gone, or another front takes them
OTHER_FILES = 32  # that a front has open, at most
UNTAKEN = 1 << 18  # bytes of replies that a client may leave. What it is heard of at once has less, unless it is mostly no requests
# At most: how many clients a front hears at once, bytes of each, and seconds in which it waits for more.
AT_ONCE, PART, PAUSE = 64, 16_384, 0.05


class Front:
    """It waits for the replies to what it has asked. What comes in meanwhile is asked next, at once."""

    def __init__(self, listeners: list[socket.socket], server: Connection, reader: Reader, idle: float, tls: Optional[ssl.SSLContext]) -> None:
        """The first listener is its own. Who waits at the others, as their fronts are full, is taken now and then."""
        # And how many clients the last turn had, and until when the next one waits for as many.
        self.listeners, self.server, self.reader, self.idle, self.tls, self.asked, self.until = listeners, server, reader, idle, tls, 0, 0.0
        self.now = self.swept = time.monotonic()
        self.poll, self.clients = select.epoll(), dict[int, Client]()
        self.most = max(1, min(CLIENTS, resource.getrlimit(resource.RLIMIT_NOFILE)[0] - OTHER_FILES))
        self.poll.register(server, select.EPOLLIN)  # it says nothing unasked, but ends

    def run(self) -> None:
        """Runs until the server has ended. Signals are for the server."""
        signal.pthread_sigmask(signal.SIG_BLOCK, {signal.SIGTERM, signal.SIGINT})
        with contextlib.suppress(EOFError, ConnectionError):
            self.numbers: dict[str, int] = marshal.loads(self.server.recv_bytes())  # of the procedures, once the server has recovered
            self.listeners = self.listeners or [socket.socket(fileno=recv_handle(self.server))]
            for it in self.listeners:
                it.setblocking(False)
            self.poll.register(self.listeners[0], select.EPOLLIN)
            while True:
                self.turn()
        os._exit(0)

    def turn(self) -> None:
        """Waits for lines, has the server run what they ask, and replies."""
        asked = self.wait()
        reported = iter(self.reported([it for lines in asked.values() for line in lines for it in (line if type(line) is list else (line,))]))
        # Where the server takes many milliseconds, as by a slow journal, larger batches are worth a wait.
        self.asked, self.until = min(len(asked), AT_ONCE), (now := time.monotonic()) + min((now - self.now) / 2 - 0.001, PAUSE)
        for client, lines in asked.items():
            texts = [f"[{', '.join([next(reported) for _ in line])}]" if type(line) is list else next(reported) for line in lines]
            client.unsent = "\n".join([*texts, ""]).encode()
            self.go_on(client)  # if it does not take them it can ask again, with its ids

    def reported(self, requests: list[Request]) -> list[str]:
        """The reply to each request."""
        calls = [it for it in requests if type(it) is tuple]
        words = [word for it in requests if type(it) is dict for word in it.items()]
        if not calls and not words:
            return [it for it in requests if isinstance(it, str)]  # they are replies
        packed = pack_calls([(self.numbers[procedure.name], *args) for procedure, args in calls])
        most = max([1, *[procedure.most for procedure, _ in calls]])
        self.server.send_bytes(marshal.dumps((packed, [procedure.entry % args for procedure, args in calls], words, most)))
        columns, of_words, age = marshal.loads(self.server.recv_bytes())
        outcomes = zip(*[array("q" if number > 2 else "I", it) for number, it in enumerate(columns)])
        reported = iter([procedure.reply(it, args[0], age) for (procedure, args), it in zip(calls, outcomes)])
        return [next(reported) if type(it) is tuple else it if type(it) is str else of_words.pop(0) for it in requests]

    def wait(self) -> dict[Client, list[Line]]:
        """The next lines of some clients. Meanwhile clients come and go, but none of these: nothing more is read of them before they have replies."""
        asked: dict[Client, list[Line]] = {}
        while not asked or (len(asked) < self.asked and self.now < self.until):
            self.poll.modify(self.listeners[0], select.EPOLLIN * (len(self.clients) < self.most))
            ready, self.now, had = self.poll.poll(self.until - self.now if asked else self.idle / 4, AT_ONCE), time.monotonic(), len(asked)
            for number, _ in ready:
                if client := self.clients.get(number):
                    if client not in asked and (lines := self.go_on(client)):
                        asked[client] = lines
                elif number == self.server.fileno():
                    raise EOFError
                else:
                    self.accept(self.listeners[0])
            if asked and len(asked) == had:
                time.sleep(0.0005)  # for somebody else than who has sent more lines already
            if self.now >= self.swept + self.idle / 4:
                self.sweep()
        return asked

    def accept(self, listener: socket.socket) -> bool:
        """Takes a client, if one waits there."""
        try:
            link, _ = listener.accept()
            link.setblocking(False)
            link = self.tls.wrap_socket(link, server_side=True, do_handshake_on_connect=False) if self.tls else link
        except OSError:
            return False  # another front has it, or it is gone
        self.poll.register(link, select.EPOLLIN)
        self.clients[link.fileno()] = Client(link, self.now, self.reader.first_rights)
        return True

    def drop(self, client: Client) -> list[Line]:
        """A client that is gone, or is to go, has no lines."""
        self.clients.pop(client.link.fileno(), None)
        client.link.close()
        return []

    def sweep(self) -> None:
        """Drops the clients that have asked nothing for so long: parts of a line do not count. Takes those who wait for full fronts."""
        self.swept = self.now
        for client in [it for it in self.clients.values() if it.since < self.now - self.idle]:
            self.drop(client)
        for listener in self.listeners[1:]:
            while len(self.clients) < self.most and self.accept(listener):
                pass

    def go_on(self, client: Client) -> list[Line]:
        """Sends what a client takes now of its replies, or if it has all of them, hears its next lines. One that is gone is dropped."""
        try:
            if not client.unsent:
                return self.hear(client, client.link.recv(PART))
            client.unsent = client.unsent[client.link.send(client.unsent) :]
            if len(client.unsent) > UNTAKEN:
                raise ConnectionResetError
        except (BlockingIOError, ssl.SSLWantReadError, ssl.SSLWantWriteError):
            pass  # it takes no more now, or this was a part of what TLS needs
        except OSError:
            return self.drop(client)
        if client.waits != bool(client.unsent):
            client.waits = not client.waits
            self.poll.modify(client.link, select.EPOLLOUT if client.waits else select.EPOLLIN)
        return []

    def hear(self, client: Client, data: bytes) -> list[Line]:
        """The whole lines that a client has sent. Of one that is too long only the beginning is kept."""
        if not data:
            raise ConnectionResetError
        *texts, heard = (client.heard + data).split(b"\n")
        client.heard = heard[: LONGEST + 1]
        client.since = self.now if texts else client.since
        return [self.reader.read(text, client) for text in texts]


def listen(host: str, port: int) -> list[socket.socket]:
    """A listener for each front, all at one port. The kernel would share its clients with another server, too: so that is refused."""
    # Of servers that start at the same time one gets this name. The others end before they touch the port, where each could stop the other.
    (name := socket.socket(socket.AF_UNIX)).bind(f"\0payments:{port}" if port else "")
    name.detach()  # it stays while the server or a front lives
    with socket.create_server((host, port)) as alone:  # refused if anybody listens there
        port = alone.getsockname()[1]
    listeners = [socket.create_server((host, port), backlog=1024, reuse_port=True) for _ in range(FRONTS)]
    for it in listeners:
        it.setsockopt(socket.IPPROTO_TCP, socket.TCP_NODELAY, 1)  # of the clients, too
    return listeners


def start_fronts(procedures: dict[str, Procedure], host: str, port: int, idle: float = 60, tokens: Tokens = None, tls: Any = None) -> tuple[int, list[Connection]]:
    """Starts the front processes, before anything is opened that they must not share. Their port, and a connection to each.

    After `idle` seconds a client is dropped. The last front is for administrators alone: the server sends it a socket to listen at.
    """
    listeners, fronts = listen(host, port), []
    for number in range(FRONTS + 1):
        front, server = Pipe()
        fronts.append(front)
        if os.fork() == 0:
            for it in fronts:
                it.close()  # else a front would not see the end of the server
            own = listeners[number:] + listeners[:number] if number < FRONTS else []
            Front(own, server, Reader(procedures, tokens, not own), idle, tls if own else None).run()
        server.close()
    return listeners[0].getsockname()[1], fronts
