"""The payment of examples/payments in SQLite, with WAL and synchronous FULL.

    sqlite_queue.py serve FILE            behind the same server: one transaction for each batch
    sqlite_queue.py pay FILE CLIENTS SECONDS   processes that pay without a server: one transaction for each payment
"""

import multiprocessing
import pathlib
import random
import sqlite3
import struct
import sys
import threading
import time
from typing import Callable, NamedTuple

PAYMENTS = pathlib.Path(__file__).resolve().parents[2] / "examples" / "payments"
sys.path.insert(0, str(PAYMENTS))
from bank import load_procedures  # noqa: E402
from front import start_fronts  # noqa: E402
from running import end_by_signals, run  # noqa: E402
from server import Server  # noqa: E402
from sgt import Kind, unpack_calls  # noqa: E402

# An outcome as the library has it, for the fronts: whether it wrote, and of its reply the kind, the code and the answers.
OUTCOME = struct.Struct("=4xII8xI24xI12x2q304x").pack
ACCOUNTS, CENTS, DAY, LIMIT = 1000, 100_000_000, 20_000, 1_000_000


def opened(path: str) -> sqlite3.Connection:
    database = sqlite3.connect(path, timeout=60, isolation_level=None, check_same_thread=False)
    database.execute("pragma journal_mode=wal")
    database.execute("pragma synchronous=full")
    return database


def made(path: str) -> sqlite3.Connection:
    database = opened(path)
    database.execute("create table balance(account integer primary key, cents integer not null)")
    database.execute("create table payment(id integer primary key, payer, payee, amount, from_has, to_has)")
    database.execute("create table spent(account, day, cents, primary key(account, day)) without rowid")
    database.execute("begin")
    database.executemany("insert into balance values(?,?)", ((account, CENTS) for account in range(ACCOUNTS)))
    database.execute("commit")
    return database


class Reported(NamedTuple):
    """What pay.json answers: a code, or what payer and payee have."""

    code: int
    answers: tuple = ()


def pay(database: sqlite3.Connection, number: int, payer: int, payee: int, amount: int) -> Reported:
    """As procedures/pay.json."""
    run_one = database.execute
    earlier = run_one("select payer,payee,amount,from_has,to_has from payment where id=?", (number,)).fetchone()
    if earlier:
        return Reported(0, earlier[3:]) if earlier[:3] == (payer, payee, amount) else Reported(7)
    if amount < 1 or number // 1_000_000 != payer:
        return Reported(1 if amount < 1 else 11)
    if payer == payee:
        return Reported(2)
    has = run_one("select cents from balance where account=?", (payer,)).fetchone()
    gets = run_one("select cents from balance where account=?", (payee,)).fetchone()
    fee = amount // 100
    if not has or not gets:
        return Reported(3 if not has else 4)
    if has[0] < amount + fee:
        return Reported(5)
    spent = run_one("select cents from spent where account=? and day=?", (payer, DAY)).fetchone()
    so_far = (spent[0] if spent else 0) + amount
    if so_far > LIMIT:
        return Reported(6)
    run_one("insert or replace into spent values(?,?,?)", (payer, DAY, so_far))
    run_one("update balance set cents=cents-? where account=?", (amount + fee, payer))
    run_one("update balance set cents=cents+? where account=?", (amount, payee))
    run_one("update balance set cents=cents+? where account=0", (fee,))
    answers = (has[0] - amount - fee, gets[0] + amount)
    run_one("insert into payment values(?,?,?,?,?,?)", (number, payer, payee, amount, *answers))
    return Reported(0, answers)


class Bank:
    """In place of the engine, for the server of payments.py."""

    def __init__(self, database: sqlite3.Connection) -> None:
        self.seq, self.numbers, self.database, self.lock = 0, {"pay": 0}, database, threading.Lock()

    def day(self) -> None:
        """It has none."""

    def run(self, packed: bytes, entries: list) -> tuple:
        calls = unpack_calls(packed)
        with self.lock:  # a connection can't commit what others go on with
            if calls and not self.database.in_transaction:
                self.database.execute("begin immediate")
            reported = [pay(self.database, *args) for _, *args in calls]
        outcomes = [OUTCOME(not it.code, Kind.REFUSED if it.code else Kind.COMMITTED, it.code, len(it.answers), *it.answers or (0, 0)) for it in reported]
        return b"".join(outcomes), [entry for entry, it in zip(entries, reported) if not it.code]

    def is_long(self) -> bool:
        return False


class Chain:
    """In place of the journal: the batch is one transaction."""

    def __init__(self, bank: Bank) -> None:
        self.bank, self.leads, self.ends, self.number, self.journal = bank, True, False, 0, self

    def check(self) -> None:
        pass

    def follow(self) -> None:
        """It leads always."""

    def append(self, _calls: list) -> None:
        with self.bank.lock:
            if self.bank.database.in_transaction:
                self.bank.database.execute("commit")

    def insist(self, ask: Callable[[], None]) -> None:
        ask()


def worker(path: str, seconds: float, seed: int, queue: multiprocessing.Queue) -> None:
    database, draw, done, end = opened(path), random.Random(seed), 0, time.monotonic() + seconds
    while time.monotonic() < end:
        payer = draw.randrange(1, ACCOUNTS)
        database.execute("begin immediate")
        pay(database, payer * 1_000_000 + draw.randrange(1_000_000), payer, (payer + draw.randrange(1, ACCOUNTS)) % ACCOUNTS, draw.randrange(1, 100))
        database.execute("commit")
        done += 1
    queue.put(done)


def main() -> None:
    command, path = sys.argv[1:3]
    if command == "serve":
        procedures = {"pay": load_procedures(PAYMENTS / "procedures")["pay"]}
        port, fronts = start_fronts(procedures, "127.0.0.1", 0)
        chain = Chain(Bank(made(path)))
        end_by_signals(chain)
        run(Server(chain, fronts, procedures), port, pathlib.Path(path + ".admin"), time.perf_counter())
        return
    made(path)
    clients, seconds = int(sys.argv[3]), float(sys.argv[4])
    queue: multiprocessing.Queue = multiprocessing.Queue()
    for seed in range(clients):
        multiprocessing.Process(target=worker, args=(path, seconds, seed, queue), daemon=True).start()
    print(sum(queue.get(timeout=120) for _ in range(clients)) / seconds)


if __name__ == "__main__":
    main()
