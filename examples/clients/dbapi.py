#!/usr/bin/env python3
"""Records what clients see of a database by its Python driver, for `sgt check --model list-append`.

The driver follows DB-API 2 (PEP 249), as most do.

    dbapi.py --driver sqlite3 --dsn /tmp/lists.db --begin begin > history.json
    dbapi.py --driver psycopg2 --dsn "host=/tmp dbname=test" --begin "set transaction isolation level repeatable read"
    dbapi.py --driver pymysql --dsn '{"host": "localhost", "database": "test"}' --append "concat(list, ' {}')"

A list is a row with a text. All rows are there before the clients begin, so that an append is one UPDATE. Each client
is a connection, in a thread of its own. It makes a table `sgt_lists`, and drops it first. A transaction counts as
aborted if a statement failed and the rollback after it did not: the connection still answers then, so the database has
undone it. Where the rollback fails as well, nobody knows its end.
"""

from __future__ import annotations

import argparse
import importlib
import json
import random
import sys
import time
from typing import Any, Sequence

sys.dont_write_bytecode = True
from recorder import Aborted, Operation, Plan, most_keys, record, stop  # noqa: E402


class Client:
    """A connection, which is made at its first transaction, so by the thread that uses it."""

    def __init__(self, driver: Any, chosen: argparse.Namespace, seed: int) -> None:
        self.driver, self.chosen, self.draw = driver, chosen, random.Random(seed)
        self.connection: Any = None

    def ask(self, statement: str) -> list[Any]:
        """The rows of its answer."""
        cursor = self.connection.cursor()
        try:
            cursor.execute(statement)
            return list(cursor.fetchall()) if cursor.description else []
        finally:
            cursor.close()

    def run(self, operations: Sequence[Operation]) -> list[Operation]:
        if self.connection is None:
            self.connection = connected(self.driver, self.chosen.dsn)
        try:
            if self.chosen.begin:
                self.ask(self.chosen.begin)
            done = [self.do(*it) for it in operations]
            self.connection.commit()
            return done
        except self.driver.Error as why:
            self.connection.rollback()
            raise Aborted((str(why).splitlines() or [repr(why)])[0]) from None

    def do(self, word: str, key: int, value: int) -> Operation:
        time.sleep(self.draw.random() / 300)
        if word == "append":
            self.ask(f"update sgt_lists set list = {self.chosen.append.format(value)} where id = {key}")
            return [word, key, value]
        rows = self.ask(f"select list from sgt_lists where id = {key}")
        return [word, key, [int(it) for it in rows[0][0].split()]]


def connected(driver: Any, dsn: str) -> Any:
    """A connection. A text in braces is an object whose members are the arguments by name."""
    return driver.connect(**json.loads(dsn)) if dsn.startswith("{") else driver.connect(dsn)


def make_rows(driver: Any, dsn: str, count: int) -> None:
    """Makes the table, with an empty list for each of so many keys."""
    connection = connected(driver, dsn)
    cursor = connection.cursor()
    cursor.execute("drop table if exists sgt_lists")
    cursor.execute("create table sgt_lists (id integer primary key, list varchar(200) not null)")
    for key in range(1, count + 1):
        cursor.execute(f"insert into sgt_lists values ({key}, '')")
    connection.commit()
    connection.close()


def main() -> int:
    options = argparse.ArgumentParser(description=__doc__, formatter_class=argparse.RawDescriptionHelpFormatter)
    options.add_argument("--driver", required=True, help="the driver's module, as psycopg2")
    options.add_argument("--dsn", required=True, help="what its connect takes: a text, or a JSON object of arguments")
    options.add_argument("--begin", default="", help="a statement that begins a transaction, or sets its level")
    options.add_argument("--append", default="list || ' {}'", help="the list with a value added, for which {} stands")
    options.add_argument("--clients", type=int, default=5)
    options.add_argument("--transactions", type=int, default=200)
    options.add_argument("--seed", type=int, default=1)
    chosen = options.parse_args()
    try:
        driver = importlib.import_module(chosen.driver)
    except ImportError as why:
        stop(f"{why}: it is a Python package of its own")
    try:
        make_rows(driver, chosen.dsn, most_keys(chosen.transactions))
    except (driver.Error, ValueError) as why:
        stop(f"{chosen.driver} says: {why}")
    clients = [Client(driver, chosen, chosen.seed + it) for it in range(chosen.clients)]
    reader = Client(driver, chosen, 0)  # a connection of its own, made by this thread
    return record(Plan(chosen.seed), clients, chosen.transactions, reader).finish()


if __name__ == "__main__":
    sys.exit(main())
