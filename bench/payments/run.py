#!/usr/bin/env python3
"""Measures durable payments: examples/payments by each journal, beside SQLite behind the same server, and PostgreSQL. It takes five minutes.

    bench/payments/run.py [ROUNDS [SECONDS]] [file] [partitions] [SQLite] [Redis] [etcd] [PostgreSQL] [cut]

1, 8 and 64 clients pay in a closed loop over 1000 accounts, 8 in lists of 100, and 32 in lists of 140. With partitions the clients are
shared out among 2 or 4 servers, each with 1000 accounts and a journal of its own, and no payment is between two. The contestants take
turns, ROUNDS times (2), each for SECONDS (3), as the machine's speed changes. Tables of medians are printed: payments a second, with the
least and the greatest; the median latency; and what a payment takes of the processors: of the servers' processes, which alone run payments,
of their fronts, of the generators of load, each one thread (load.c) or two (pgbench), and of the Redis or the three nodes of etcd, which
are on this machine too.
At last a server with RECORDS records, which forgets old ids, is loaded by 64 clients until it has cut its history: the longest reply. With
names of contestants only those run, and the cut only if it is named, too.

It needs the library of `bindings/build` and `cc`. The servers run by the Python that runs this: Debian's, /usr/bin/python3, is faster than
one that was built without optimization. What else is missing (etcd, Redis, PostgreSQL) is left out, and said. It is no part of the gate.
"""

import contextlib
import json
import os
import pathlib
import pwd
import random
import re
import resource
import shutil
import statistics
import subprocess
import sys
import tempfile
import time
import zlib

HERE = pathlib.Path(__file__).resolve().parent
PAYMENTS = HERE.parents[1] / "examples" / "payments"
sys.path[:0] = [str(HERE.parents[1] / "tests"), str(PAYMENTS)]
from bank import ROW, load_procedures  # noqa: E402
from helpers.machines import Etcd, Redis, running  # noqa: E402
from journal import seal  # noqa: E402

CLIENTS = (1, 8, 64)
# In a closed loop: what the column is called, how many clients there are, and the payments in each list, or 0 if there are none.
COLUMNS = (*((str(clients), clients, 0) for clients in CLIENTS), ("8 in lists of 100", 8, 100), ("32 in lists of 140", 32, 140))
CENTS = 100_000_000
RECORDS, UNTIL_CUT = 5_000_000, 60  # the seconds at most until the history is cut
PARTITIONS = (2, 4)
NAMES = [word for word in sys.argv[1:] if not word.isdigit()] or ["file", "partitions", "SQLite", "Redis", "etcd", "PostgreSQL", "cut"]
RATE, LATENCY, TIME = "Payments a second", "Median latency, ms", "Processor time a payment, microseconds"
reported: dict = {}  # by what is measured, contestant and clients


def note(what, name, clients, value):
    reported.setdefault(what, {}).setdefault(name, {}).setdefault(clients, []).append(value)


def taken():
    """Seconds of processor time that the processes took which have ended here: the generators of load, while the servers run."""
    used = resource.getrusage(resource.RUSAGE_CHILDREN)
    return used.ru_utime + used.ru_stime


def used(processes):
    """Seconds of processor time that processes have taken."""
    times = [pathlib.Path(f"/proc/{process}/stat").read_text().rsplit(")", 1)[1].split()[11:13] for process in processes]
    return sum(int(it) for user_and_system in times for it in user_and_system) / os.sysconf("SC_CLK_TCK")


def fsyncs(scratch):
    """How long an fsync of 60 appended bytes takes, in microseconds."""
    file, times = os.open(scratch / "f", os.O_WRONLY | os.O_CREAT | os.O_APPEND), []
    for _ in range(300):
        begin = time.perf_counter()
        os.write(file, bytes(60))
        os.fsync(file)
        times.append((time.perf_counter() - begin) * 1e6)
    os.close(file)
    note("An fsync of 60 bytes, microseconds", "the disk", "1", statistics.median(times))


def served(name, python, load, seconds, *servers, others=()):
    """Loads servers at the same time, the clients shared out among them. A server is the words of its command; it says its port when it
    serves. Others are processes that work for them."""
    processes = [subprocess.Popen([python, *map(str, words)], stdout=subprocess.PIPE, text=True) for words in servers]
    ports = [re.search(r"port (\d+)", process.stdout.readline())[1] for process in processes]
    pids = [process.pid for process in processes]
    fronts = [it for pid in pids for it in pathlib.Path(f"/proc/{pid}/task/{pid}/children").read_text().split()]
    parts = {"server": pids, "fronts": fronts, **({"journal's processes": others} if others else {})}
    for column, clients, payments in COLUMNS:
        if clients < len(ports):
            continue
        load_before, before = taken(), {part: used(it) for part, it in parts.items()}
        runs = [loading(load, port, clients // len(ports), seconds, random.randrange(10**6), payments) for port in ports]
        answers = [run.communicate() for run in runs]
        if any(run.returncode for run in runs):
            why = " ".join(error.strip() for _, error in answers)
            print(f"{name}, {column}: left out: {why or 'no reply came'}", flush=True)
            continue
        rates, latencies, *_ = zip(*(map(float, text.split()) for text, _ in answers))
        paid = max(1, sum(rates) * seconds)
        note(RATE, name, column, sum(rates))
        note(LATENCY, name, column, statistics.median(latencies))
        for part, it in parts.items():
            note(TIME, f"{name}: {part}", column, (used(it) - before[part]) / paid * 1e6)
        note(TIME, f"{name}: load", column, (taken() - load_before) / paid * 1e6)
    for process in processes:
        process.kill()
        process.wait()


def loading(load, port, clients, seconds, seed, payments):
    """A generator of load that runs: so many clients pay over 1000 accounts, in lists of so many payments if that is not 0."""
    words = [load, port, clients, seconds, 1000, seed, payments]
    return subprocess.Popen([*map(str, words)], stdout=subprocess.PIPE, stderr=subprocess.PIPE, text=True)


def old_payments(records):
    """The rows of a bank with about so many records: 1000 accounts, and payments that came over 90 days ago, so each new one has some forgotten."""
    count, today = (records - 1004) // 9, int(time.time() // 86_400)
    rows = [(0, 0, today), (0, 1, 16 * count), (0, 100_000 + today - 90, 16 * count), (0, 100_000 + today, 16 * count)]
    rows += [(1, account, CENTS) for account in range(1000)]
    ids = [(1 + number % 999) * 1_000_000 + number // 999 for number in range(count)]
    rows += [(4, it, 16 * place) for it, place in sorted(zip(ids, range(1, count + 1)))]
    for place, it in enumerate(ids, 1):
        columns = it, it // 1_000_000, 0, 1, 1, 1, 0, 0
        rows += [(5, 16 * place + column, value) for column, value in enumerate(columns)]
    return b"".join(ROW.pack(*row) for row in rows)


def cut(scratch, python, load):
    """Loads a server that has many records until it has cut its history, and stored a snapshot."""
    folder, rows = scratch / "many", old_payments(RECORDS)
    folder.mkdir()
    texts = {name: it.text for name, it in load_procedures(PAYMENTS / "procedures").items()}
    (folder / f"{1:015}.snapshot").write_bytes(seal(json.dumps([1, texts, len(rows), zlib.crc32(rows)]).encode()) + b"\n" + rows)
    (folder / f"{2:015}.batches").touch()
    process = subprocess.Popen([python, PAYMENTS / "payments.py", "serve", folder], stdout=subprocess.PIPE, text=True)
    port = re.search(r"port (\d+)", process.stdout.readline())[1]
    for _ in range(UNTIL_CUT // 5):
        ran = subprocess.run([load, port, "64", "5", "1000", str(random.randrange(10**6))], capture_output=True, text=True, check=True)
        rate, median, _, longest = map(float, ran.stdout.split())
        print(f"{RECORDS:,} records: {rate:,.0f} payments a second, median {median:.2f} ms, the longest reply {longest:.0f} ms", flush=True)
        if len(list(folder.glob("*.batches"))) > 1 or not (folder / f"{2:015}.batches").exists():
            break
    process.kill()
    process.wait()


class Postgres:
    """A server of its own, in a folder of its own, with synchronous commit, as it is by default."""

    def __init__(self, scratch):
        self.scratch, self.bin = scratch / "postgres", max(pathlib.Path("/usr/lib/postgresql").glob("*/bin"), default=None)
        self.is_there = self.bin is not None and "PostgreSQL" in NAMES
        if not self.is_there:
            return
        self.user = ["runuser", "-u", "postgres", "--"] if os.getuid() == 0 else []
        self.scratch.mkdir()
        if self.user:
            os.chown(self.scratch, pwd.getpwnam("postgres").pw_uid, -1)
        self.run("initdb", "-D", self.scratch / "data", "-A", "trust")
        options = f"-k {self.scratch} -c listen_addresses= -c default_transaction_isolation=serializable -c max_connections=200"
        self.run("pg_ctl", "-D", self.scratch / "data", "-o", options, "-l", self.scratch / "log", "-w", "start")
        script = self.scratch / "postgres.sql"
        shutil.copy(HERE / "postgres.sql", script)
        shutil.copy(HERE / "postgres.pgbench", self.scratch)
        script.chmod(0o644)
        self.run("psql", "-h", self.scratch, "-q", "-v", "ON_ERROR_STOP=1", "-f", script, "postgres")

    def run(self, program, *words):
        command = [*self.user, str(self.bin / program), *map(str, words)]
        return subprocess.run(command, stdout=subprocess.PIPE, stderr=subprocess.STDOUT, text=True, check=True, cwd=self.scratch).stdout

    def turn(self, seconds):
        """With the row of the fees, which every two payments of the same moment want, and without it."""
        for has_fee, name in ((1, "PostgreSQL, SERIALIZABLE, with the row of the fees"), (0, "PostgreSQL, SERIALIZABLE, without it")):
            for clients in CLIENTS:
                words = ("-h", self.scratch, "-n", "-D", f"has_fee={has_fee}", "--max-tries=100000", "-f", self.scratch / "postgres.pgbench")
                said = self.run("pgbench", *words, "-c", clients, "-j", min(clients, 2), "-T", seconds, "postgres")
                note(RATE, name, str(clients), float(re.search(r"tps = ([\d.]+)", said)[1]))
                note(LATENCY, name, str(clients), float(re.search(r"latency average = ([\d.]+)", said)[1]))

    def end(self):
        if self.is_there:
            self.run("pg_ctl", "-D", self.scratch / "data", "-m", "immediate", "stop")


def take_turn(scratch, python, load, seconds):
    """All contestants but PostgreSQL, each with a journal of its own."""
    serve = (PAYMENTS / "payments.py", "serve")
    fsyncs(scratch)
    if "file" in NAMES:
        served("sgt, file", python, load, seconds, (*serve, scratch / "file", "--cents", CENTS))
    for count in PARTITIONS if "partitions" in NAMES else ():
        folders = [scratch / f"partition{number}_of_{count}" for number in range(count)]
        served(f"sgt, file, {count} partitions", python, load, seconds, *((*serve, it, "--cents", CENTS) for it in folders))
    if "SQLite" in NAMES:
        served("SQLite behind the same server", python, load, seconds, (HERE / "sqlite_queue.py", "serve", scratch / "served.db"))
    if "Redis" in NAMES and not Redis.missing():
        (scratch / "redis").mkdir()
        with running(Redis, scratch / "redis") as redis:
            words = (*serve, scratch / "by_redis", "--journal", redis.address, "--cents", CENTS)
            served("sgt, Redis", redis.python, load, seconds, words, others=[redis.process.pid])
    if "etcd" in NAMES and not Etcd.missing():
        with running(Etcd, scratch) as etcd:
            words = (*serve, scratch / "by_etcd", "--journal", etcd.address, "--cents", CENTS)
            served("sgt, etcd", etcd.python, load, seconds, words, others=[it.pid for it in etcd.processes])


def shown(values, is_rate):
    """The median of some values, and of rates the least and the greatest."""
    digits = 0 if is_rate else 2
    text = f"{statistics.median(values):,.{digits}f}"
    return f"{text} ({min(values):,.0f} to {max(values):,.0f})" if is_rate else text


def print_tables():
    for what, names in reported.items():
        columns = [column for column, *_ in COLUMNS if any(column in values for values in names.values())]
        print(f"\n| {what} | {' | '.join(map(str, columns))} |\n|{'---|' * (len(columns) + 1)}")
        for name, values in names.items():
            print(f"| {name} | {' | '.join(shown(values[column], what == RATE) if column in values else '' for column in columns)} |")


def main():
    numbers = [int(word) for word in sys.argv[1:] if word.isdigit()]
    rounds, seconds = (numbers + [2, 3][len(numbers) :])[:2]
    # A folder that other users may enter, for PostgreSQL's.
    scratch = pathlib.Path(tempfile.mkdtemp(prefix="payments-", dir=os.environ.get("ROOM", "/var/tmp")))
    scratch.chmod(0o755)
    load = scratch / "load"
    subprocess.run(["cc", "-O2", "-Wall", "-Wextra", "-o", load, HERE / "load.c"], check=True)
    print(f"Python {sys.version.split()[0]}, {sys.executable}; {os.cpu_count()} processors", flush=True)
    with contextlib.ExitStack() as ends:
        ends.callback(shutil.rmtree, scratch)
        postgres = Postgres(scratch)
        ends.callback(postgres.end)
        for number in range(rounds):
            own = scratch / f"round{number}"
            own.mkdir()
            take_turn(own, sys.executable, load, seconds)
            if postgres.is_there:
                postgres.turn(seconds)
            print(f"round {number + 1}: load {os.getloadavg()[0]:.1f}", flush=True)
        if "cut" in NAMES:
            cut(scratch, sys.executable, load)
    missing = {"etcd": Etcd.missing(), "Redis": Redis.missing(), "PostgreSQL": None if postgres.bin else "it is not on this machine"}
    for name, why in missing.items():
        if why and name in NAMES:
            print(f"{name} was left out: {why}")
    print_tables()


if __name__ == "__main__":
    main()
