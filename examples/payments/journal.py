"""What is stored: what a journal is, whatever keeps it; how a batch becomes bytes; how files are written; and snapshots."""

import contextlib
import fcntl
import json
import os
import pathlib
import shutil
import threading
import time
import zlib
from typing import Any, Callable, Iterable, Protocol, Sequence

from bank import Bank, Unusable

AT_ONCE = 200  # batches that are read
FOLLOWING = 50_000  # batches that stay for a server that is away
LEASE = 3  # seconds without a word of the primary, after which another server leads
TRY = 1.5  # seconds until a request is given up
BEAT = threading.Lock()  # has who renews a lease, or forks


class Away(Exception):
    """The journal does not answer now. Whether it has done what it was asked is not known; it may be asked the same again."""


class Fenced(Unusable):
    """Another server has become the primary. This one has to end without a reply."""


class Missing(Unusable):
    """A batch that was deleted, as other servers have snapshots after it. This one needs a copy of a newer one."""


class Journal(Protocol):
    """Numbered batches, from 1 on, each of some bytes. Each call may raise `Away`, and may then be made again with the same arguments."""

    report: str  # what an operator should know after `lead`

    def lead(self) -> bool:
        """Becomes the primary, after which it is not asked again. False if another server is."""

    def append(self, number: int, data: bytes) -> None:
        """Returns once the next batch is safe. `Fenced` if this server does not lead any more: no later try writes it.

        No other server writes the same bytes, as a batch has who writes it. So if they are there, an earlier try has
        written them.
        """

    def check(self) -> None:
        """`Fenced` if this server does not lead any more. Before replies that append nothing, which would report old balances."""

    def read(self, number: int) -> Sequence[bytes]:
        """Some batches from this one on that are safe; none if there is none yet. `Missing` if it was deleted."""

    def stored(self, server: str, number: int, after: int) -> None:
        """Notes that a server has a snapshot after this batch, and deletes the batches before which none is `needed`. The next is batch `after`."""


def needed(stored: Iterable[int]) -> int:
    """Before which batch none is needed: each server has a snapshot after it. One that is far behind a majority is not waited for."""
    numbers = sorted(stored, reverse=True)
    return max(numbers[-1], numbers[len(numbers) // 2] - FOLLOWING)


def keep_alive(renew: Callable[[], object]) -> None:
    """Renews a lease from a thread while this process lives and is not stopped. If that fails, the next append is fenced."""

    def live() -> None:
        while True:
            with BEAT, contextlib.suppress(Away, Unusable):
                renew()
            time.sleep(LEASE / 6)

    threading.Thread(target=live, daemon=True).start()


def seal(body: bytes) -> bytes:
    """JSON as a line without its newline, after a checksum."""
    return b"%08x %b" % (zlib.crc32(body), body)


def is_whole(line: bytes) -> bool:
    """Whether a line is as it was sealed."""
    return line == seal(line.partition(b" ")[2])


def unseal(line: bytes) -> Any:
    """The value of a line, or None if the line is damaged."""
    return json.loads(line.partition(b" ")[2]) if is_whole(line) else None


def from_number(number: int, batches: list[bytes]) -> list[bytes]:
    """What `read` has found from a batch on. `Missing` if it begins later. The last batch is never deleted, so it is found then."""
    first = (unseal(batches[0]) or [number])[0] if batches else number
    if first != number:
        raise Missing(f"batch {number} was deleted, and the first one is {first}: copy a newer snapshot of another server")
    return batches


def store(path: pathlib.Path, *parts: bytes) -> None:
    """Writes a new file, which is on disk when this returns. Until then it has the suffix .new."""
    new = path.with_suffix(".new")
    with open(new, "wb", 0, opener=lambda name, flags: os.open(name, flags, 0o600)) as file:
        for part in map(memoryview, parts):
            while part:
                part = part[file.write(part[: 1 << 23]) :]  # in pieces: a batch that is made safe meanwhile waits for one at most
                os.fsync(file)
    new.rename(path)
    sync_names(path.parent)


def sync_names(folder: pathlib.Path) -> None:
    """Makes the names of a folder's files safe."""
    names = os.open(folder, os.O_RDONLY)
    os.fsync(names)  # if it fails the program ends, or the copy of it that stores a snapshot
    os.close(names)


class Store:
    """A folder of one server: N.snapshot is the bank after batch N.

    First a line that has the procedures' texts, as a journal of calls means nothing without, and then the rows.
    """

    def __init__(self, folder: pathlib.Path, keep: bool = False) -> None:
        self.folder, self.keep = folder, keep

    def claim(self) -> None:
        """Makes the folder, and keeps other servers from it. What a killed server has left of a snapshot is removed."""
        if not self.folder.parent.is_dir():
            raise Unusable(f"{self.folder}: there is no folder {self.folder.parent} to make it in")
        self.folder.mkdir(0o700, exist_ok=True)
        sync_names(self.folder.parent)
        self._claimed = os.open(self.folder, os.O_RDONLY)
        try:
            fcntl.flock(self._claimed, fcntl.LOCK_EX | fcntl.LOCK_NB)
        except BlockingIOError:
            raise Unusable(f"{self.folder}: another server has this folder") from None
        for it in self.folder.glob("*.new"):
            it.unlink()

    def path(self, number: int) -> pathlib.Path:
        return self.folder / f"{number:015}.snapshot"

    def numbers(self) -> list[int]:
        """The batches after which there is a snapshot."""
        return sorted(int(path.stem) for path in self.folder.glob("*.snapshot"))

    def load(self, number: int) -> Bank:
        """The bank after this batch. After batch 0 it is empty. `Unusable` if the snapshot is damaged."""
        if number == 0:
            return Bank(0, {}, b"")
        with open(self.path(number), "rb", 0) as file:  # without a buffer: else all is copied, in which no other thread runs
            header, rows = file.readline(), file.readall()
        seq, texts, length, checksum = unseal(header[:-1]) or [0, {}, 0, -1]
        if length != len(rows) or zlib.crc32(rows) != checksum:
            raise Unusable(f"{self.path(number)}: the snapshot is damaged")
        return Bank(seq, texts, rows)

    def save(self, number: int, bank: Bank) -> str:
        """Stores the bank after this batch, and deletes the snapshots before it, unless they are to be kept. Or says why it can't."""
        try:
            rows = bank.rows()
            if 2 * shutil.disk_usage(self.folder).free < 3 * len(rows):
                raise OSError("it would take most of what is free on the disk, which the journal may need")
            store(self.path(number), seal(json.dumps([bank.seq, bank.texts, len(rows), zlib.crc32(rows)]).encode()) + b"\n", rows)
        except (OSError, MemoryError) as why:
            self.path(number).with_suffix(".new").unlink(missing_ok=True)
            return f"no snapshot {self.path(number)}: {why}"
        for it in [it for it in self.numbers() if it < number and not self.keep]:
            self.path(it).unlink()
        return ""
