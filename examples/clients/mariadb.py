#!/usr/bin/env python3
"""Records what clients see of MariaDB, for `sgt check --model list-append`.

    mariadb.py --level serializable | sgt check --model list-append
    mariadb.py --temporary --level "repeatable read" > history.json

A list is a row with a text. Each client is a `mariadb` of its own, which connects to the database `sgt` as its option
files say. It makes a table `sgt_lists`, and drops it first. With --temporary a server of its own is made in a folder,
and removed. The level `snapshot` is repeatable read with innodb_snapshot_isolation.
"""

from __future__ import annotations

import argparse
import os
import pathlib
import random
import re
import shutil
import subprocess
import sys
import tempfile
import time
from contextlib import contextmanager
from typing import Iterator, Sequence

sys.dont_write_bytecode = True
from recorder import Aborted, Operation, Plan, asked, call, piped, record, stop  # noqa: E402

TABLE = "drop table if exists sgt_lists; create table sgt_lists (id int primary key, list text not null) engine=innodb"
LEVELS = ("read uncommitted", "read committed", "repeatable read", "snapshot", "serializable")
SECONDS = 600

# The numbers of the errors of an abort: the record has changed since the snapshot, a lock was not to be had, a
# deadlock.
ABORTS = ("1020", "1205", "1213")


class Client:
    """A connection: a `mariadb` that reads statements from a pipe."""

    def __init__(self, words: Sequence[str], level: str, seed: int) -> None:
        self.draw = random.Random(seed)
        self.mariadb = piped([*words, "--force", "--unbuffered"])
        self.ask("set innodb_lock_wait_timeout = 2")
        if level == "snapshot":
            self.ask("set innodb_snapshot_isolation = on")
        self.ask(f"set session transaction isolation level {level.replace('snapshot', 'repeatable read')}")

    def ask(self, statement: str) -> list[str]:
        """The lines of its answer. An error that is no abort ends the client."""
        lines, _ = asked(self.mariadb, f"{statement};\nselect 'done';\n", "done")
        errors = [it for it in lines if it.startswith("ERROR ")]
        if errors and all(it.split()[1] in ABORTS for it in errors):
            raise Aborted(re.sub(" at line [0-9]+", "", " ".join(errors)))
        if errors:
            raise RuntimeError(" ".join(lines))
        return lines

    def run(self, operations: Sequence[Operation]) -> list[Operation]:
        try:
            self.ask("begin")
            done = [self.do(*it) for it in operations]
            self.ask("commit")
            return done
        except Aborted:
            self.ask("rollback")
            raise

    def do(self, word: str, key: int, value: int) -> Operation:
        time.sleep(self.draw.random() / 300)
        if word == "append":
            self.ask(f"insert into sgt_lists values ({key}, '{value}') "
                     f"on duplicate key update list = concat(list, ' {value}')")
            return [word, key, value]
        rows = self.ask(f"select list from sgt_lists where id = {key}")
        return [word, key, [int(it) for it in " ".join(rows).split()]]


def program(name: str) -> str:
    """The path of a program of MariaDB. Debian has the server where PATH may not look."""
    found = shutil.which(name, path=os.environ.get("PATH", "") + os.pathsep + "/usr/sbin")
    if found is None:
        stop(f"{name} is missing: Debian's packages are mariadb-server-core and mariadb-client-core")
    return found


@contextmanager
def temporary() -> Iterator[list[str]]:
    """A server in a folder of its own: the words that connect to it."""
    scratch = pathlib.Path(tempfile.mkdtemp())
    share = pathlib.Path(program("mariadbd")).resolve().parents[1] / "share"
    own = ["--no-defaults", f"--datadir={scratch}/data", f"--lc-messages-dir={share}/mysql", "--skip-grant-tables",
           "--skip-networking", f"--socket={scratch}/socket", *["--user=root"] * (os.getuid() == 0)]
    words = [program("mariadb"), "--no-defaults", f"--socket={scratch}/socket", "--user=root"]
    server = None
    try:
        (scratch / "data" / "mysql").mkdir(parents=True)
        with open(scratch / "log", "wb") as log:
            server = subprocess.Popen([program("mariadbd"), *own], stdout=subprocess.DEVNULL, stderr=log)
        wait_for(words, server, scratch / "log")
        call([*words, "-e", "create database sgt"])
        yield words
    finally:
        if server is not None:
            server.kill()
            server.wait()
        shutil.rmtree(scratch, ignore_errors=True)


def wait_for(words: Sequence[str], server: subprocess.Popen[bytes], log: pathlib.Path) -> None:
    """Returns once the server answers."""
    until = time.monotonic() + SECONDS
    while subprocess.run([*words, "-e", "select 1"], capture_output=True, check=False).returncode != 0:
        if server.poll() is not None or time.monotonic() > until:
            stop(f"mariadbd did not start: {log.read_text()}")
        time.sleep(0.2)


@contextmanager
def given() -> Iterator[list[str]]:
    """The server that the option files name."""
    yield [program("mariadb")]


def main() -> int:
    options = argparse.ArgumentParser(description=__doc__, formatter_class=argparse.RawDescriptionHelpFormatter)
    options.add_argument("--level", choices=LEVELS, default="serializable")
    options.add_argument("--clients", type=int, default=5)
    options.add_argument("--transactions", type=int, default=200)
    options.add_argument("--seed", type=int, default=1)
    options.add_argument("--temporary", action="store_true", help="make a server in a folder of its own")
    chosen = options.parse_args()
    with (temporary() if chosen.temporary else given()) as where:
        words = [*where, "--batch", "--skip-column-names", "sgt"]
        call([*words, "-e", TABLE])
        clients = [Client(words, chosen.level, chosen.seed + it) for it in range(chosen.clients)]
        history = record(Plan(chosen.seed), clients, chosen.transactions)
        for client in clients:
            client.mariadb.communicate()
    return history.finish()


if __name__ == "__main__":
    sys.exit(main())
