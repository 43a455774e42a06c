#!/usr/bin/env python3
"""Records what clients see of SQLite, for `sgt check --model list-append`.

    sqlite.py | sgt check --model list-append --strict

A list is a row with a text. Each client is a connection to the same file, in a thread of its own.
"""

from __future__ import annotations

import argparse
import os
import sqlite3
import sys
import tempfile
from typing import Sequence

sys.dont_write_bytecode = True
from recorder import Aborted, Operation, Plan, record  # noqa: E402

APPEND = "insert into lists values (?, ?) on conflict (key) do update set list = list || ' ' || ?"


class Client:
    def __init__(self, path: str) -> None:
        self.database = sqlite3.connect(path, timeout=0.01, isolation_level=None, check_same_thread=False)

    def run(self, operations: Sequence[Operation]) -> list[Operation]:
        try:
            self.database.execute("begin")
            done = [self.do(*it) for it in operations]
            self.database.execute("commit")
            return done
        except sqlite3.OperationalError as why:  # the file is locked
            if self.database.in_transaction:
                self.database.execute("rollback")
            raise Aborted(why) from None

    def do(self, word: str, key: int, value: int) -> Operation:
        if word == "append":
            self.database.execute(APPEND, (key, str(value), value))
            return [word, key, value]
        row = self.database.execute("select list from lists where key = ?", (key,)).fetchone()
        return [word, key, [int(it) for it in row[0].split()] if row else []]


def main() -> int:
    options = argparse.ArgumentParser(description=__doc__, formatter_class=argparse.RawDescriptionHelpFormatter)
    options.add_argument("--clients", type=int, default=4)
    options.add_argument("--transactions", type=int, default=200)
    options.add_argument("--seed", type=int, default=1)
    chosen = options.parse_args()
    with tempfile.TemporaryDirectory() as folder:
        path = os.path.join(folder, "lists.db")
        with sqlite3.connect(path) as database:
            database.execute("create table lists (key integer primary key, list text not null)")
        clients = [Client(path) for _ in range(chosen.clients)]
        return record(Plan(chosen.seed), clients, chosen.transactions).finish()


if __name__ == "__main__":
    sys.exit(main())
