"""What the recorders share: drawn transactions on lists, a history of what their clients did and were answered, and
what is said at the end."""

from __future__ import annotations

import collections
import contextlib
import itertools
import json
import random
import subprocess
import sys
import threading
import time
from typing import Any, Iterable, List, NoReturn, Optional, Protocol, Sequence

# An operation: `append` with its key and value, or `r` with its key and the list that was read, or None before that.
Operation = List[Any]

# How many kinds of a database's errors are shown.
SHOWN = 5


class Aborted(Exception):
    """The database aborted the transaction, for certain. Its text is the database's own error."""


def stop(text: object) -> NoReturn:
    """Ends the recorder with what is wrong: a database's own error, where it does not answer."""
    print(f"{sys.argv[0]}: {text}", file=sys.stderr)
    sys.exit(2)


def call(words: Sequence[object], **how: Any) -> None:
    """Runs a program. If it fails, what it says is the recorder's error."""
    try:
        asked_for = [str(it) for it in words]
        ran = subprocess.run(asked_for, stdin=subprocess.DEVNULL, capture_output=True, text=True, check=False, **how)
    except FileNotFoundError as why:
        stop(f"{why.filename} is missing")
    if ran.returncode:
        stop(f"{words[0]} says: {(ran.stderr or ran.stdout).strip()}")


def piped(words: Sequence[str]) -> subprocess.Popen[str]:
    """A database's shell, which reads statements from a pipe."""
    return subprocess.Popen(words, stdin=subprocess.PIPE, stdout=subprocess.PIPE, stderr=subprocess.STDOUT,
                            text=True, bufsize=1)


def asked(shell: subprocess.Popen[str], statements: str, end: str) -> tuple[list[str], str]:
    """The lines of the shell's answer before the one that begins with this end, and the rest of that one."""
    assert shell.stdin and shell.stdout  # of `piped`
    with contextlib.suppress(BrokenPipeError):  # it has ended, and said why
        shell.stdin.write(statements)
    lines: list[str] = []
    for line in shell.stdout:
        if line.split()[:1] == [end]:
            return lines, line[len(end):].strip()
        lines.append(line.rstrip("\n"))
    raise ConnectionError(f"the database's shell has ended: {' '.join(lines)}")


class Client(Protocol):
    """One client of the database."""

    def run(self, operations: Sequence[Operation]) -> list[Operation]:
        """Runs these as a transaction, and returns them with what was read. It raises Aborted if it was certainly
        aborted; after any other exception its end is unknown, and the client is not used again."""
        ...


class History:
    """Entries as Jepsen writes them, in the order in which they happen; how often which error aborted; and how clients
    ended early."""

    def __init__(self) -> None:
        self.lock, self.began = threading.Lock(), time.monotonic_ns()
        self.entries: list[dict[str, Any]] = []
        self.aborts: collections.Counter[str] = collections.Counter()
        self.failures: list[str] = []

    def add(self, kind: str, process: int, value: Iterable[Operation]) -> None:
        with self.lock:
            entry = {"type": kind, "process": process, "f": "txn", "value": value, "index": len(self.entries)}
            self.entries.append(entry | {"time": time.monotonic_ns() - self.began})

    def text(self) -> str:
        return "".join(json.dumps(it, separators=(",", ":")) + "\n" for it in self.entries)

    def finish(self) -> int:
        """Writes the history, and the database's errors to standard error. The status is 2 if a client ended early."""
        sys.stdout.write(self.text())
        for error, count in self.aborts.most_common(SHOWN):
            print(f"{count} aborted: {error}", file=sys.stderr)
        if len(self.aborts) > SHOWN:
            print(f"{len(self.aborts) - SHOWN} more kinds of errors", file=sys.stderr)
        for failure in self.failures:
            print(failure, file=sys.stderr)
        return 2 if self.failures else 0


class Plan:
    """Drawn transactions: some of them only read. Each value is appended once. Of so many keys that are in use, one is
    replaced after so many appends, so that lists stay short."""

    def __init__(self, seed: int, keys: int = 3, appends: int = 8) -> None:
        self.draw, self.lock = random.Random(seed), threading.Lock()
        self.appends, self.fresh = appends, itertools.count(1)
        self.newest = 0
        self.keys = [[self.key(), 0] for _ in range(keys)]

    def key(self) -> int:
        self.newest = next(self.fresh)
        return self.newest

    def transaction(self) -> list[Operation]:
        with self.lock:
            only_reads = self.draw.random() < 0.2
            return [self.operation(only_reads) for _ in range(self.draw.randint(1, 4))]

    def operation(self, only_reads: bool) -> Operation:
        place = self.draw.randrange(len(self.keys))
        key, count = self.keys[place]
        if only_reads or self.draw.random() < 0.5:
            return ["r", key, None]
        self.keys[place] = [key, count + 1] if count + 1 < self.appends else [self.key(), 0]
        return ["append", key, count + 1]

    def all_reads(self) -> list[Operation]:
        """A read of each key that was in use."""
        return [["r", key, None] for key in range(1, self.newest + 1)]


def most_keys(transactions: int) -> int:
    """No plan of so many transactions has more keys than this."""
    return 3 + transactions * 4 // 8 + 1


def attempt(history: History, client: Client, process: int, operations: Sequence[Operation]) -> bool:
    """Runs a transaction, and notes its beginning and its end. Whether it committed."""
    history.add("invoke", process, operations)
    try:
        done = client.run(operations)
    except Aborted as why:
        history.add("fail", process, operations)
        history.aborts[str(why)] += 1
        return False
    except BaseException:
        history.add("info", process, operations)
        raise
    history.add("ok", process, done)
    return True


def run(history: History, plan: Plan, client: Client, process: int, transactions: int) -> None:
    """Runs so many transactions of the plan, unless the client ends early, which is noted."""
    try:
        for _ in range(transactions):
            attempt(history, client, process, plan.transaction())
    except Exception as why:
        history.failures.append(f"client {process} ended, and its last transaction is unknown: {why or repr(why)}")


def record(plan: Plan, clients: Sequence[Client], transactions: int, last_reader: Optional[Client] = None) -> History:
    """The history of these clients, each in a thread. When they have ended, the last reader reads all keys in one
    transaction, which shows the order of the last appends. That is the first client if none is given and it has not
    ended early."""
    history = History()
    share = transactions // len(clients)
    given = [(history, plan, it, number, share) for number, it in enumerate(clients)]
    threads = [threading.Thread(target=run, args=it) for it in given]
    for thread in threads:
        thread.start()
    for thread in threads:
        thread.join()
    reader = last_reader or (None if history.failures else clients[0])
    if reader is not None:
        read_all(history, plan, reader, len(clients))
    return history


def read_all(history: History, plan: Plan, reader: Client, process: int) -> None:
    """Reads all keys as a process of its own. It is tried again a few times, as the database may still undo what others
    did."""
    try:
        for _ in range(5):
            if attempt(history, reader, process, plan.all_reads()):
                return
    except Exception as why:
        history.failures.append(f"the reads of all keys failed: {why or repr(why)}")
