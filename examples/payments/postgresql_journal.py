"""The journal in a table of PostgreSQL, by Debian's python3-psycopg2. A batch is a row, whose number no other one has.

With `fsync` it is on the disk of its machine before it is accepted, and with `synchronous_standby_names` on those of the standbys. What is
not promised: a standby that is promoted knows nothing of the old server. Whoever promotes it has to end the old one before.
"""

import os
from functools import partial
from select import select
from typing import Any, Optional
from urllib.parse import SplitResult

import psycopg2

from bank import Unusable
from journal import AT_ONCE, LEASE, TRY, Away, Fenced, from_number, keep_alive, needed

# The lock is for servers that make the tables at the same time.
TABLES = """set synchronous_commit = on; select pg_advisory_xact_lock(7501);
create table if not exists batch (number bigint primary key, data bytea not null);
create table if not exists leader (only_row boolean primary key, nonce text not null, until timestamptz not null);
create table if not exists stored (server text primary key, number bigint not null); show fsync"""
LEAD = f"""insert into leader values (true, %(nonce)s, now() + interval '{LEASE} s') on conflict (only_row)
do update set nonce = excluded.nonce, until = excluded.until where leader.until < now() or leader.nonce = excluded.nonce returning 1"""
RENEW = f"update leader set until = now() + interval '{LEASE} s' where nonce = %(nonce)s returning 1"
APPEND = """with ours as (select 1 from leader where nonce = %(nonce)s for share)
insert into batch select %(at)s, %(data)s from ours on conflict (number) do update set data = batch.data where batch.data = excluded.data returning 1"""


def wait(link: Any) -> None:
    """Waits for PostgreSQL, and not for ever. Where it is stopped nothing else would tell, as its machine still answers."""
    while state := link.poll():  # 1 if it would read, 2 if it would write
        if not any(select([link] * (state == 1), [link] * (state == 2), [], TRY)):
            raise psycopg2.OperationalError("it does not answer")


psycopg2.extensions.set_wait_callback(wait)


class PostgresJournal:
    """postgresql://..: the tables `batch`, `leader` and `stored`. The row of who leads is locked while a batch is inserted: that fences."""

    def __init__(self, address: SplitResult) -> None:
        self.address, self.report, self._nonce = address, "", os.urandom(8).hex()
        self._link: Optional[Any] = None

    def _ask(self, text: str, **values: Any) -> list[tuple[Any, ...]]:
        try:
            if self._link is None:
                self._link = psycopg2.connect(self.address.geturl())
                self._link.autocommit = True
                if self._ask(TABLES) != [("on",)]:
                    raise Unusable("PostgreSQL: it must run with fsync on")
            with self._link.cursor() as cursor:
                cursor.execute(text, values)
                return list(cursor.fetchall()) if cursor.description else []
        except psycopg2.Error as why:
            self._link, is_away = None, isinstance(why, (psycopg2.OperationalError, psycopg2.InterfaceError))
            raise (Away if is_away else Unusable)(f"PostgreSQL: {why}") from None

    def lead(self) -> bool:
        if leads := bool(self._ask(LEAD, nonce=self._nonce)):
            keep_alive(partial(PostgresJournal(self.address)._ask, RENEW, nonce=self._nonce))
        return leads

    def append(self, number: int, data: bytes) -> None:
        if not self._ask(APPEND, nonce=self._nonce, at=number, data=psycopg2.Binary(data)):
            raise Fenced(f"PostgreSQL: another primary leads, after batch {number - 1}")

    def check(self) -> None:
        if self._ask("select nonce from leader") != [(self._nonce,)]:
            raise Fenced("PostgreSQL: another primary leads")

    def read(self, number: int) -> list[bytes]:
        rows = f"select data from batch where number >= %(at)s order by number limit {AT_ONCE}"
        return from_number(number, [bytes(data) for data, in self._ask(rows, at=number)])

    def stored(self, server: str, number: int, after: int) -> None:
        self._ask("insert into stored values (%(server)s, %(at)s) on conflict (server) do update set number = %(at)s", server=server, at=number)
        self._ask("delete from batch where number < %(keep)s", keep=needed(it for it, in self._ask("select number from stored")))
