"""Runs a program of `examples/payments` with small numbers, and notes for each file how long it was when its last fsync returned.

    [NOTE_FSYNC=FILE] [CUT_AFTER=ENTRIES] [LEASE=SECONDS] [PATIENCE=SECONDS] [DAYS_AHEAD=FILE] noting_fsync.py PROGRAM WORD..

Its day is always the same, so that no test depends on when it runs.

A kill loses nothing of the page cache. With these notes a test can take away what only stood there, as a loss of power may.
CUT_AFTER has the bank cut its history after so many entries, LEASE is after how many seconds a primary is replaced, and PATIENCE after how
many it ends if its journal is away. The file of DAYS_AHEAD says how many days
its clock is ahead of that day, each time that it is read. While the file of SNAPSHOT_WAITS is there, no snapshot becomes whole.
"""

import os
import pathlib
import runpy
import sys
import time

DAY = 20_000  # counted from 1970
fsync = os.fsync


def noting(file):
    number = file if isinstance(file, int) else file.fileno()
    name = os.readlink(f"/proc/self/fd/{number}")
    while name.endswith(".new") and os.path.exists(os.environ.get("SNAPSHOT_WAITS", "")):
        time.sleep(0.05)
    fsync(number)
    if "NOTE_FSYNC" in os.environ:
        with open(os.environ["NOTE_FSYNC"], "ab", buffering=0) as note:
            note.write(b"%s %d\n" % (name.encode(), os.fstat(number).st_size))


def days_ahead():
    return int(pathlib.Path(os.environ["DAYS_AHEAD"]).read_text()) if "DAYS_AHEAD" in os.environ else 0


os.fsync = noting
sys.argv = sys.argv[1:]
os.environ.setdefault("GLIBC_TUNABLES", "")  # else the program would start again, without this one
sys.path.insert(0, str(pathlib.Path(sys.argv[0]).resolve().parent))
import server  # noqa: E402

server.today = lambda: DAY + days_ahead()
if "CUT_AFTER" in os.environ:
    import bank

    bank.ENTRIES = int(os.environ["CUT_AFTER"])
if "LEASE" in os.environ:
    import journal

    journal.LEASE = int(os.environ["LEASE"])
if "PATIENCE" in os.environ:
    import chain

    chain.PATIENCE = float(os.environ["PATIENCE"])
runpy.run_path(sys.argv[0], run_name="__main__")
