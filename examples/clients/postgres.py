#!/usr/bin/env python3
"""Records what clients see of PostgreSQL, for `sgt check --model list-append`.

    postgres.py --level serializable | sgt check --model list-append
    postgres.py --temporary --level "repeatable read" > history.json

A list is a row with an array. Each client is a `psql` of its own, which connects as PGHOST, PGUSER and so on say. It
makes a table `sgt_lists`, and drops it first. With --temporary a database of its own is made in a folder, and removed.
"""

from __future__ import annotations

import argparse
import os
import pathlib
import pwd
import random
import shutil
import subprocess
import sys
import tempfile
import time
from contextlib import contextmanager
from typing import Iterator, Sequence

sys.dont_write_bytecode = True
from recorder import Aborted, Operation, Plan, asked, call, piped, record, stop  # noqa: E402

TABLE = ("set client_min_messages = warning; drop table if exists sgt_lists; "
         "create table sgt_lists (key int primary key, list int[] not null)")
LEVELS = ("read committed", "repeatable read", "serializable")
DONE = "00000"
# Of the SQLSTATEs of an abort the first five characters, or two: a rollback, a lock that is not to be had, a call that
# was ended.
ABORTS = ("40", "55P03", "57014")


class Client:
    """A connection: a `psql` that reads statements from a pipe."""

    def __init__(self, words: Sequence[str], level: str, seed: int) -> None:
        self.level, self.draw = level, random.Random(seed)
        self.psql = piped(words)

    def ask(self, statement: str) -> list[str]:
        """The lines of its answer. An error that is no abort ends the client."""
        lines, state = asked(self.psql, f"{statement};\n\\echo done :SQLSTATE\n", "done")
        if state.startswith(ABORTS):
            raise Aborted(" ".join(lines))
        if state != DONE:
            raise RuntimeError(" ".join(lines))
        return lines

    def run(self, operations: Sequence[Operation]) -> list[Operation]:
        try:
            self.ask(f"begin isolation level {self.level}")
            done = [self.do(*it) for it in operations]
            self.ask("commit")
            return done
        except Aborted:
            self.ask("rollback")
            raise

    def do(self, word: str, key: int, value: int) -> Operation:
        time.sleep(self.draw.random() / 300)
        if word == "append":
            self.ask(f"insert into sgt_lists values ({key}, array[{value}]) "
                     f"on conflict (key) do update set list = sgt_lists.list || {value}")
            return [word, key, value]
        rows = self.ask(f"select array_to_string(list, ' ') from sgt_lists where key = {key}")
        return [word, key, [int(it) for it in " ".join(rows).split()]]


@contextmanager
def temporary() -> Iterator[list[str]]:
    """A database in a folder of its own: the words that connect to it."""
    found = sorted(pathlib.Path("/usr/lib/postgresql").glob("*/bin/initdb"))
    if not found:
        stop("there is no /usr/lib/postgresql/*/bin/initdb: Debian's package is postgresql")
    user = ["runuser", "-u", "postgres", "--"] if os.getuid() == 0 else []
    scratch = pathlib.Path(tempfile.mkdtemp())

    def server(program: str, *words: object, **how: object) -> None:
        call([*user, found[-1].parent / program, "-D", scratch / "data", *words], cwd=scratch, **how)

    try:
        if user:
            os.chown(scratch, pwd.getpwnam("postgres").pw_uid, -1)
        server("initdb", "-A", "trust", "-U", "postgres")
        # The server keeps what it is given as output, so that of pg_ctl is a file and no pipe.
        with open(scratch / "start", "wb") as said:
            start = ["-o", f"-k {scratch} -h ''", "-l", str(scratch / "log"), "-t", "600", "-w", "start"]
            words = [*user, str(found[-1].parent / "pg_ctl"), "-D", str(scratch / "data"), *start]
            if subprocess.run(words, stdout=said, stderr=said, cwd=scratch, check=False).returncode:
                stop((scratch / "start").read_text() + (scratch / "log").read_text())
        try:
            yield ["-h", str(scratch), "-U", "postgres"]
        finally:
            server("pg_ctl", "-m", "immediate", "stop")
    finally:
        shutil.rmtree(scratch, ignore_errors=True)


@contextmanager
def given() -> Iterator[list[str]]:
    """The database that the environment names."""
    yield []


def main() -> int:
    options = argparse.ArgumentParser(description=__doc__, formatter_class=argparse.RawDescriptionHelpFormatter)
    options.add_argument("--level", choices=LEVELS, default="serializable")
    options.add_argument("--clients", type=int, default=5)
    options.add_argument("--transactions", type=int, default=200)
    options.add_argument("--seed", type=int, default=1)
    options.add_argument("--temporary", action="store_true", help="make a database in a folder of its own")
    chosen = options.parse_args()
    os.environ["LC_ALL"] = "C"  # whatever language is set here, errors are in English
    with (temporary() if chosen.temporary else given()) as where:
        words = ["psql", *where, "-X", "-q", "-A", "-t", "-v", "VERBOSITY=terse"]
        call([*words, "-v", "ON_ERROR_STOP=1", "-c", TABLE])
        clients = [Client(words, chosen.level, chosen.seed + it) for it in range(chosen.clients)]
        history = record(Plan(chosen.seed), clients, chosen.transactions)
        for client in clients:
            client.psql.communicate()
    return history.finish()


if __name__ == "__main__":
    sys.exit(main())
