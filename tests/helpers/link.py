"""A link on loopback between clients and a server, which a test can break: replies are lost, or nothing passes."""

import contextlib
import socket
import threading
import time

PASSES, LOSES, CUT = "passes", "loses replies", "is cut"


class Link:
    """Who connects to `port` speaks to the server at another port, and gets its replies so many seconds later.

    No connection outlives a change, but for the loss of replies.
    """

    def __init__(self, target, late=0.0):
        self.target, self.late, self.state, self.pairs, self.lock = target, late, PASSES, set(), threading.Lock()
        self.listener = socket.create_server(("127.0.0.1", 0))
        self.port = self.listener.getsockname()[1]
        threading.Thread(target=self._accept, daemon=True).start()

    def __enter__(self):
        return self

    def __exit__(self, *_):
        shut(self.listener)
        self.cut()

    def lose_replies(self):
        """From now on requests pass, and replies are lost."""
        self.state = LOSES

    def cut(self):
        """Closes all connections. New ones are closed at once, until the link is whole again."""
        self._become(CUT)

    def heal(self):
        """All passes again, by new connections."""
        self._become(PASSES)

    def _become(self, state):
        with self.lock:
            self.state, pairs, self.pairs = state, self.pairs, set()
        for pair in pairs:
            shut(*pair)

    def _accept(self):
        with contextlib.suppress(OSError):  # until the listener is shut
            while True:
                self._connect(self.listener.accept()[0])

    def _connect(self, client):
        with self.lock, contextlib.suppress(OSError):  # a server may not listen now
            pair = None if self.state == CUT else (client, socket.create_connection(("127.0.0.1", self.target)))
            if not pair:
                return client.close()
            self.pairs.add(pair)
            for source, sink in (pair, pair[::-1]):
                threading.Thread(target=self._pass, args=(source, sink, source is not client), daemon=True).start()
            return None
        return client.close()

    def _pass(self, source, sink, is_reply):
        """Passes bytes on until an end is shut."""
        with contextlib.suppress(OSError):
            while data := source.recv(1 << 16):
                time.sleep(self.late * is_reply)
                if not (is_reply and self.state == LOSES):
                    sink.sendall(data)
        shut(source, sink)


def shut(*ends):
    """Ends connections, also where another thread waits for their bytes. They are closed once no thread has them."""
    for end in ends:
        with contextlib.suppress(OSError):
            end.shutdown(socket.SHUT_RDWR)
