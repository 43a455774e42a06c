"""The journal in the files of one machine: N.batches begins with batch N. The link `newest` leads to the last file.

The file `safe` has the number of the last batch that was safe. It is written before anybody is told, and synced at most
once a second. So after a kill it is right, and after a loss of power it may have an earlier batch: what was lost after
that one looks as if it had never been.
"""

import os
import pathlib
import threading
import time
from bisect import bisect_right
from typing import Any, BinaryIO

from bank import Unusable
from journal import Missing, is_whole, seal, store, sync_names, unseal


class FileJournal:
    """The batches of one server, who leads always: its folder is its own."""

    def __init__(self, folder: pathlib.Path, keep: bool = False) -> None:
        self.folder, self.keep, self._newest, self.report = folder, keep, folder / "newest", ""
        self._file: Any = None  # the last one, if this server leads

    def paths(self) -> list[pathlib.Path]:
        return sorted(self.folder.glob("*.batches"))

    def lead(self) -> bool:
        """Opens the last file, and cuts off its torn tail. `Unusable` if it ends before what was safe."""
        if self._newest.is_symlink() and not self._newest.exists():
            raise Unusable(f"{self.folder / os.readlink(self._newest)}: this file is gone, and with it what was acknowledged in it")
        if not self.paths():
            self._open(self._known() + 1)
        path = self.paths()[-1]
        lines, tail = whole_lines(path, self._known())
        self.report = self._reported_of(int(path.stem) + len(lines) - 1, tail)
        self._mark, self._synced = os.open(self.folder / "safe", os.O_RDWR | os.O_CREAT, 0o600), 0.0
        self._open(int(path.stem)).truncate(path.stat().st_size - len(tail))
        return True

    def _known(self) -> int:
        """The last batch that is known to have been safe, by the mark, if there is one, and by snapshots."""
        mark = unseal(path.read_bytes()) if (path := self.folder / "safe").exists() else None
        return max([mark or 0, *(int(it.stem) for it in self.folder.glob("*.snapshot"))])

    def _reported_of(self, number: int, tail: bytes) -> str:
        """What a tail after a batch may have held. A killed server leaves the beginning of a line. Anything else is kept in a file."""
        begin = f"cut off {len(tail)} bytes after batch {number}: "
        if tail.decode("latin-1").isprintable():
            return begin + "the beginning of a batch, not acknowledged unless the file was shortened" if tail else ""
        # The divisor is the length of a batch that has a call.
        path, most = self.folder / f"{number:015}-{time.time_ns()}.tail", (len(tail) + 1) // (len(seal(b'[1, 1, [["a"]]]')) + 2)
        store(path, tail)
        return begin + f"if power was lost, a batch not acknowledged; else at most {most} safe ones. Kept in {path}"

    def append(self, number: int, data: bytes) -> None:
        """An OSError must end the program: nobody knows what a failed fsync has kept. The newline before a line parts it from damage."""
        self._file.write(b"\n%b\n" % data)
        self._file.flush()
        os.fsync(self._file)
        os.pwrite(self._mark, seal(b"%15d" % number), 0)  # not before: what a start has read may be in memory alone
        if time.monotonic() > self._synced + 1:
            os.fsync(self._mark)
            self._synced = time.monotonic()

    def check(self) -> None:
        """Nobody else can lead."""

    def read(self, number: int) -> list[bytes]:
        """The batches from this one on of the file that has it."""
        known, paths = self._known(), self.paths()  # in this order, as a server may go on meanwhile
        at = bisect_right(paths, self.folder / f"{number:015}.batches") - 1
        if at < 0 and paths:
            raise Missing(f"{self.folder}: batch {number} is missing; the first one is {int(paths[0].stem)}")
        if at < 0:
            return []
        first, last = int(paths[at].stem), int(paths[at + 1].stem) - 1 if at + 1 < len(paths) else 0
        lines, tail = whole_lines(paths[at], last or known)  # the last one is known if another file follows
        if last and (tail or first + len(lines) - 1 > last):
            raise Unusable(f"{paths[at]}: more follows batch {last}, the last one of this file")
        return lines[number - first :]

    def stored(self, server: str, number: int, after: int) -> None:
        """Goes on in a new file, and deletes the files of which no batch is needed. Threads do that, as a large one takes a quarter of a second."""
        if not self._file or number < int(self.paths()[-1].stem):
            return
        self._open(after)
        for path in [path for path, later in zip(self.paths(), self.paths()[1:]) if int(later.stem) <= number + 1 and not self.keep]:
            threading.Thread(target=path.unlink).start()

    def _open(self, number: int) -> BinaryIO:
        """Makes the name of the file that begins with a batch safe, and then the link to it, which a start compares."""
        path = self.folder / f"{number:015}.batches"
        self._file = open(path, "ab", opener=lambda name, flags: os.open(name, flags, 0o600))
        sync_names(self.folder)
        (new := self._newest.with_suffix(".new")).unlink(missing_ok=True)  # left by a server that was killed here
        new.symlink_to(path.name)
        new.rename(self._newest)
        sync_names(self.folder)
        return self._file


def whole_lines(path: pathlib.Path, known: int) -> tuple[list[bytes], bytes]:
    """The batches of a file, and what is after them. The batch `known` was safe.

    A line is written when the one before it is safe. So a bad line before a good one is damage, as is one up to batch
    `known`, or that there is none: `Unusable` names the place. What is bad after these may be a batch that a crash has
    torn, and that nobody was told of.
    """
    data, at, found = path.read_bytes(), 0, list[bytes]()
    for line in data.split(b"\n")[:-1]:
        if line and not is_whole(line):
            break
        found += [line] if line else []
        at += len(line) + 1
    if (number := int(path.stem) + len(found)) <= known or any(map(is_whole, data[at:].split(b"\n")[:-1])):
        more = f", as was all up to batch {known}" if number < known else ""
        raise Unusable(f"{path}: the line at byte {at} is damaged or gone; it had batch {number}, which was safe{more}")
    return found, data[at:]
