#!/usr/bin/env python3
"""Tests the durable queue of payments of `examples/payments`.

    tests/payments.py [ROUNDS [SEED]] [CASE..]

It runs the server as a user does, with the library of `bindings/out`, which has to be made: the replies; a crash under load, ROUNDS
times (30), or one of its front processes, with what no fsync had kept taken away or garbled; a journal cut at each byte and with a flipped
bit in each, and one with a damaged tail, or without its newest file; a full disk; an fsync that fails; large snapshots, and one that fails;
cuts while the server goes on; a clock that jumps; other procedures; a forged journal; clients that vanish, are slow, or ask nothing; what
administrators ask; holds, statements, ids that are forgotten, lists of requests, tokens and TLS; payments between partitions, also simulated
ones; and failovers over etcd, Redis and PostgreSQL, where the machine has them, also of hosts that are cut off. Each case is reported, and the
last line counts them. With names of cases only those run.
"""

import ast
import contextlib
import fcntl
import hashlib
import json
import logging
import marshal
import multiprocessing
import os
import pathlib
import random
import re
import resource
import select
import shutil
import signal
import socket
import ssl
import subprocess
import sys
import tempfile
import threading
import time
import types
from unittest import mock

sys.dont_write_bytecode = True
from helpers.bank_rows import IDS, SPENT, faults, judge, judge_folder, own, payments, tables  # noqa: E402
from helpers.cases import C_SOURCES, TESTS, Differs, same, run_cases  # noqa: E402
from helpers.machines import Etcd, Hosts, Postgres, Redis, free_ports, python_with, running, wait_until  # noqa: E402

PAYMENTS = TESTS.parent / "examples" / "payments"
ADJUSTING = str(TESTS / "helpers" / "noting_fsync.py")
sys.path[:0] = [str(PAYMENTS), str(TESTS.parent / "bench" / "payments")]
import partitions as partition  # noqa: E402
from audit import ask  # noqa: E402
from bank import OUTCOME, ROW, Bank, Unusable, columns, load_procedures  # noqa: E402
from chain import Chain, seal_batch  # noqa: E402
from file_journal import FileJournal  # noqa: E402
from front import AT_ONCE, FRONTS, OTHER_FILES, PART, Front  # noqa: E402
from hundred_partitions import CENTS as CENTS_OF_EACH  # noqa: E402
from hundred_partitions import SHARES, Simulation, accounts_of, partition_of  # noqa: E402
from journal import Fenced, Store, seal, store, unseal  # noqa: E402
from lines import LONGEST, Reader  # noqa: E402
from sgt import Kind, pack_calls, unpack_calls  # noqa: E402

SECONDS = 600  # of a command, a reply or an end: what comes takes less on any machine
PROCEDURES = {name: it.text for name, it in load_procedures(PAYMENTS / "procedures").items()}
FEE_OF = 100  # an amount has a fee of one of so many cents
CLIENTS, ACCOUNTS, CENTS = 32, 200, 5_000
LIMIT = 1_000_000


class Server:
    """A server, killed at the end. Its day is always the same."""

    def __init__(self, *words, port=0, before=None, env=None, python=sys.executable):
        self.folder, self.wanted = words[1], port
        command = [python, ADJUSTING, str(PAYMENTS / "payments.py"), *map(str, words), "--port", str(port)]
        self.process = subprocess.Popen(
            command, stdout=subprocess.PIPE, stderr=subprocess.PIPE, text=True, preexec_fn=before, env={**os.environ, **(env or {})}
        )
        self.said = []
        for line in self.process.stdout:
            if found := re.match(r"serving on port (\d+) after call (\d+), .*, (leads|follows another server)\n", line):
                self.port, self.seq, self.leads = int(found[1]), int(found[2]), found[3] == "leads"
                return
            self.said.append(line)
        raise Differs(f"the server did not start: {self.process.communicate()[1]}")

    def __enter__(self):
        return self

    def __exit__(self, failure, *_):
        self.process.kill()
        try:
            self.process.communicate(timeout=SECONDS)  # until its front processes have ended, too
        except subprocess.TimeoutExpired:
            raise Differs("a front process goes on without the server") from None
        self.await_end()
        if not failure:
            judge_folder(self.folder)

    def await_end(self):
        """Waits until a next one may have its folder, and its port if that was named: its processes end one after another."""
        wait_until(lambda: is_free(self.folder, self.wanted), "a folder and a port that are free")

    def children(self):
        """The numbers of its front processes, and then of its copy that stores a snapshot, if there is one."""
        number = self.process.pid
        return [int(word) for word in pathlib.Path(f"/proc/{number}/task/{number}/children").read_text().split()]

    def fronts(self):
        """The numbers of its front processes."""
        return self.children()[: FRONTS + 1]

    def copies(self):
        """The number of its copy that stores a snapshot, if there is one."""
        return self.children()[FRONTS + 1 :]

    def signal(self, number):
        """Sends a signal to it, and then to its copy: as a stop of the machine does. The first can't make another then."""
        self.process.send_signal(number)
        for copy in self.copies():
            with contextlib.suppress(ProcessLookupError):
                os.kill(copy, number)

    def connect(self):
        return socket.create_connection(("127.0.0.1", self.port), timeout=SECONDS)

    def ask(self, *requests):
        """The replies to these requests, sent at once."""
        with self.connect() as client:
            client.sendall(b"".join((it if isinstance(it, bytes) else json.dumps(it).encode()) + b"\n" for it in requests))
            replies = client.makefile()
            lines = [replies.readline() for _ in requests]
        return [json.loads(line) if line else None for line in lines]

    def end(self):
        """Ends it as a user does. Its status and its standard error."""
        self.process.send_signal(signal.SIGTERM)
        error = self.process.communicate(timeout=SECONDS)[1]
        self.await_end()
        return self.process.returncode, error


def is_free(folder, port):
    """Whether no server has this folder, if there is one, and this port, if it is none of those that the system gives. Else an OSError."""
    if folder:
        own = os.open(folder, os.O_RDONLY)
        try:
            fcntl.flock(own, fcntl.LOCK_EX | fcntl.LOCK_NB)
        finally:
            os.close(own)
    if port:
        with socket.socket(socket.AF_UNIX) as name:
            name.bind(f"\0payments:{port}")
        socket.create_server(("127.0.0.1", port)).close()
    return True


def has_ended(number):
    """Whether a process has ended, also if nobody has fetched its status, as the first process of a container may not."""
    try:
        return pathlib.Path(f"/proc/{number}/stat").read_text().rpartition(")")[2].split()[0] in "ZX"
    except (FileNotFoundError, ProcessLookupError):
        return True


@contextlib.contextmanager
def scratch():
    with tempfile.TemporaryDirectory(prefix="payments-") as folder:
        yield pathlib.Path(folder)


def run(*words, python=sys.executable):
    """Status, standard output and standard error of a command."""
    ran = subprocess.run([python, str(PAYMENTS / "payments.py"), *map(str, words)], capture_output=True, text=True, timeout=SECONDS, check=False)
    return ran.returncode, ran.stdout, ran.stderr


def adjusted(**numbers):
    """How a server is started by tests/helpers/noting_fsync.py with these numbers, which it describes."""
    return {"env": {name: str(number) for name, number in numbers.items()}}


def preloaded(folder, name):
    """The environment that has a program load this C file before the C library."""
    library = folder / f"{name}.so"
    subprocess.run(["cc", "-O1", "-shared", "-fPIC", "-o", library, C_SOURCES / f"{name}.c", "-ldl"], check=True)
    return {"LD_PRELOAD": str(library)}


def pay(number, payer, payee, amount):
    """A payment with this number of the payer's own."""
    return {"id": own(payer, number), "from": payer, "to": payee, "amount": amount}


def asked(server, wanted):
    """Compares the replies to these requests, sent at once, with those that are wanted."""
    for (request, reply), came in zip(wanted, server.ask(*[request for request, _ in wanted])):
        same(str(request), reply, came)


def recovered(folder):
    """The number of the last call, and the records by table, as a start recovers them from a copy of the journal. And what was cut off."""
    with scratch() as aside:
        shutil.copytree(folder, aside / "copy", symlinks=True, ignore=shutil.ignore_patterns("admin"))
        journal = FileJournal(aside / "copy")
        bank = bank_of(aside / "copy", journal)
        return bank.seq, tables(bank.rows()), int(re.match(r"cut off (\d+) bytes", journal.report)[1]) if journal.report else 0


def bank_of(folder, journal):
    """The bank as a start recovers it from the snapshots of a folder and from a journal."""
    chain = Chain(Store(folder), journal, {"procedures": PROCEDURES, "accounts": ACCOUNTS, "cents": CENTS}, "test")
    chain.start()
    return chain.bank


def as_lines(number, seq, calls):
    """A batch as the bytes in a file."""
    return b"\n%b\n" % seal_batch(number, seq, [json.dumps(call) for call in calls])


def replies():
    """Each reply that a client can get."""
    with scratch() as folder, Server("serve", folder / "j", "--accounts", 3, "--cents", 2_000_000) as server:
        day, much = "the payer has reached the limit of the day", "the payer does not have that much"
        account = "an account is a number from 0 to 999999999"
        wanted = [
            (pay(17, 1, 2, 250), {"id": 1_000_017, "paid": True, "from_has": 1_999_748, "to_has": 2_000_250}),
            (pay(17, 1, 2, 250), {"id": 1_000_017, "paid": True, "from_has": 1_999_748, "to_has": 2_000_250}),
            (pay(17, 1, 2, 251), {"id": 1_000_017, "refused": "the id belongs to another payment"}),
            (pay(17, 1, 0, 250), {"id": 1_000_017, "refused": "the id belongs to another payment"}),
            ({**pay(17, 1, 2, 250), "from": 2, "to": 1}, {"id": 1_000_017, "refused": "the id is none of the payer's account"}),
            (pay(18, 1, 2, 0), {"id": 1_000_018, "refused": "the amount is not above zero"}),
            (pay(18, 1, 1, 5), {"id": 1_000_018, "refused": "payer and payee are the same account"}),
            ({**pay(26, 1, 2, 5), "from": -2}, {"error": f"from: {account}"}),
            ({"amount": 250, "to": 2, "id": 1_000_017, "from": 1}, {"id": 1_000_017, "paid": True, "from_has": 1_999_748, "to_has": 2_000_250}),
            (pay(27, 1, -2, 5), {"error": f"to: {account}"}),
            ({**pay(27, 0, 2, 5), "id": 0}, {"error": "id: an id is a number from 1 on"}),
            (pay(-1, 1, 2, 5), {"id": 999_999, "refused": "the id is none of the payer's account"}),
            (pay(18, 1, 2, 10**15 - 1), {"id": 1_000_018, "refused": "a number would pass fifteen digits"}),
            (pay(18, 7, 1, 5), {"id": 7_000_018, "refused": "there is no such payer"}),
            (pay(22, 1, 7, 5), {"id": 1_000_022, "refused": "there is no such payee"}),
            (pay(23, 1, 2, 1_990_000), {"id": 1_000_023, "refused": much}),
            (pay(24, 1, 2, LIMIT - 249), {"id": 1_000_024, "refused": day}),
            (pay(25, 1, 2, LIMIT - 250), {"id": 1_000_025, "paid": True, "from_has": 990_001, "to_has": 3_000_000}),
            (pay(24, 1, 2, LIMIT - 249), {"id": 1_000_024, "refused": day}),
            (pay(24, 1, 2, LIMIT - 248), {"id": 1_000_024, "refused": "the id belongs to another payment"}),
            ({"balance": 0}, {"balance": 0, "has": 2_009_999}),
            ({"balance": 9}, {"balance": 9, "refused": "there is no such account"}),
            ({"balance": -2}, {"error": f"balance: {account}"}),
        ]
        asked(server, wanted)
        opened = [
            ({"open": 9, "amount": 70}, {"open": 9, "opened": True, "has": 70}),
            ({"open": 9, "amount": 70}, {"open": 9, "refused": "there is such an account already"}),
            ({"open": 8, "amount": -1}, {"open": 8, "refused": "the amount is below zero"}),
            ({"open": -1, "amount": 1}, {"error": f"open: {account}"}),
            ({"open": 10, "amount": 999_999_999_999_999}, {"open": 10, "opened": True, "has": 999_999_999_999_999}),
        ]
        for request, reply in opened:  # administrators alone open accounts
            same(f"{request} at the port", [{"error"}], [set(it) for it in server.ask(request)])
            same(str(request), reply, ask(folder / "j" / "admin", *[it for it in request.items()][0], amount=request["amount"]))
        more = [
            (pay(19, 2, 10, 1), {"id": 2_000_019, "refused": "a balance would pass fifteen digits"}),
            ({"balance": 9}, {"balance": 9, "has": 70}),
            (pay(18, 7, 1, 5), {"id": 7_000_018, "refused": "there is no such payer"}),
        ]
        asked(server, more)
        no_request = [b"", b"7", b"[]", b'{"id":1}', b'{"balance":"x"}', b'{"balance":1.0}', b'{"balance":true}', b'{"day":1}', b"\xff", b'{"balance":1} x', b'{"balance":1}{"balance":1}', b'{"balance":1000000000000000}', b'{"balance":1,"balance":2}', b'{"balance":1,"balance":1}']
        if any("error" not in reply for reply in server.ask(*no_request)):
            raise Differs("a line that is no request was taken")
        why = {b"{'id':1}": "a line is one JSON object with keys, or a list of such objects", b'{"id":1,"form":2}': "no request has the keys id, form"}
        why |= {b'{"balance":1.5}': "a value is a whole number of at most fifteen digits", b'{"balance":1,"balance":1}': "no request has the keys balance, balance"}
        why |= dict.fromkeys((b'{"amount":1,"open":5}', b'{"health":true}'), "only administrators may ask for this, at their own socket")
        same("what is wrong", [{"error": it} for it in why.values()], server.ask(*why))
        same("whether it says that it leads", True, server.leads)
        same("the payments", [2_000_020, 2_000_021], [reply["id"] for reply in server.ask(pay(20, 2, 1, 1), pay(21, 2, 1, 1))])
        good, long = {"balance": 9, "has": 70}, {"error": f"a line has at most {LONGEST} bytes"}
        lines = [b'{"balance":9' + b" " * length + b"}" for length in (LONGEST - 13, LONGEST - 12, 0, 10**6, 0)]
        same("lines that are too long, between others", [good, long, good, long, good], server.ask(*lines))
        same("verify", (0, "calls 1 to 10 give the rows of the server\n", ""), run("verify", folder / "j"))
        same("a second server", (1, f"payments: {folder / 'j'}: another server has this folder\n"), (lambda r: (r[0], r[2]))(run("serve", folder / "j")))
        same("the end", (0, ""), server.end())
        same("verify without a server", (0, "calls 1 to 10 give the rows of each snapshot\n", ""), run("verify", folder / "j"))
        shown = run("show", folder / "j")[1].splitlines()
        procedures = f"# batch 1: from here on with the procedures {', '.join(sorted(PROCEDURES))}"
        same("show", [procedures, "2 pay id=1000017 from=1 to=2 amount=250", "6 open open=9 amount=70"], [shown[0], shown[2], shown[6]])
    return f"{len(wanted) + len(opened) + len(more)} replies"


def page():
    """What the page shows of a client, of `show` and of `verify` is what comes, but for the day."""
    blocks = (PAYMENTS / "README.md").read_text().split("```")[1::2]
    (client,), (operator,) = ([it.strip().splitlines() for it in blocks if f"\n$ {word}" in it] for word in ("nc 127.0.0.1", "examples/payments/payments.py show"))
    (held,) = (it.strip().splitlines() for it in blocks if it.startswith("\n{"))
    with scratch() as folder, Server("serve", folder / "j") as server:
        asked(server, [(json.loads(request), json.loads(reply)) for request, reply in zip(client[1::2], client[2::2])])
        came = (run("show", folder / "j")[1] + run("verify", folder / "j")[1]).splitlines()
        wanted = [re.escape(it).replace(re.escape(", .., "), ".*") for it in operator if not it.startswith("$")]
        if len(came) != len(wanted) or not all(map(re.fullmatch, [re.sub(r"arg=\d+", r"arg=\\d+", it) for it in wanted], came)):
            raise Differs(f"the page shows {wanted}, and what comes is {came}")
        asked(server, [(json.loads(request), json.loads(reply)) for request, reply in zip(held[::2], held[1::2])])
    return f"{(len(client) + len(held)) // 2} requests, {len(came)} lines"


def administration():
    """What only administrators may ask: at a socket that nobody else may open, and not at the port."""
    with scratch() as folder:
        admin, words = folder / "j" / "admin", ("serve", folder / "j", "--accounts", 3)
        with Server(*words) as server:
            at_port = server.ask(*[{word: True} for word in ("rows", "health", "figures", "promote")])
            same("words at the port", [{"error"}] * 4, [set(reply) for reply in at_port])
            same("who may open the socket", 0o600, admin.stat().st_mode & 0o777)
            asked(server, [(pay(1, 1, 2, 5), {"id": 1_000_001, "paid": True, "from_has": 99_995, "to_has": 100_005})])
            same("rows", (2, 64), (ask(admin, "rows")["seq"], len(ask(admin, "rows")["sha256"])))
            same("verify", (0, "calls 1 to 2 give the rows of the server\n", ""), run("verify", folder / "j"))
            same("health", {"health": "ok", "leads": True, "seq": 2}, {key: value for key, value in ask(admin, "health").items() if key != "batch"})
            same("the records", 3 + 2 + 9 + 2 + 1 + 1, ask(admin, "rows")["records"])
            figures = ask(admin, "figures")
            same("the figures", {"seq": 2, "records": 3}, {key: figures[key] for key in ("seq", "records")})
            same("an unknown word", [{"error"}] * 2, [set(ask(admin, word)) for word in ("nothing", "promote")])
            same("a word without a number", {"error": "a value is a whole number of at most fifteen digits"}, ask(admin, "day", "x"))
            same("a second server", 1, run(*words)[0])
            same("health beside a second server", "ok", ask(admin, "health")["health"])
        with Server(*words) as server:  # the first one was killed, and left its socket
            same("health", {"health": "ok", "leads": True, "seq": 2}, {key: value for key, value in ask(admin, "health").items() if key != "batch"})
            same("the end", (0, ""), server.end())
            same("whether the socket is there", False, admin.exists())
        for word in ("show", "verify"):
            status, out, error = run(word, folder)
            same(f"{word} where there is no journal", (1, "", True), (status, out, "there is no journal here" in error))


def holds():
    """Two-phase payments, refunds and notes: each the first time and again, whether it is allowed or not; and the money is all there."""
    with scratch() as folder, Server("serve", folder / "j", "--accounts", 4) as server:

        def hold(number, payer, payee, amount):
            return {"hold": own(payer, number), "from": payer, "to": payee, "amount": amount}

        def done(word, number, payee):
            return {word: number, "to": payee}

        no_hold, no_payment = "there is no such hold for this payee", "there is no such payment to this payee"
        wanted = [
            (hold(1, 1, 2, 1000), {"hold": 1_000_001, "held": True, "from_has": 98_990}),
            (hold(1, 1, 2, 1000), {"hold": 1_000_001, "held": True, "from_has": 98_990}),
            (hold(1, 1, 2, 1001), {"hold": 1_000_001, "refused": "the id belongs to another payment"}),
            (pay(1, 1, 2, 1000), {"id": 1_000_001, "refused": "the id belongs to another payment"}),
            ({"balance": 2}, {"balance": 2, "has": 100_000}),
            (done("refund", 1_000_001, 2), {"refund": 1_000_001, "refused": "it was held and not captured"}),
            (done("capture", 1_000_001, 3), {"capture": 1_000_001, "refused": no_hold}),
            (done("capture", 1_000_001, 2), {"capture": 1_000_001, "captured": True, "to_has": 101_000}),
            (done("capture", 1_000_001, 2), {"capture": 1_000_001, "captured": True, "to_has": 101_000}),
            (hold(1, 1, 2, 1000), {"hold": 1_000_001, "held": True, "from_has": 98_990}),
            (done("void", 1_000_001, 2), {"void": 1_000_001, "refused": "the hold was captured"}),
            (hold(2, 1, 2, 500), {"hold": 1_000_002, "held": True, "from_has": 98_485}),
            (done("void", 1_000_002, 2), {"void": 1_000_002, "voided": True, "from_has": 98_990}),
            (done("void", 1_000_002, 2), {"void": 1_000_002, "voided": True, "from_has": 98_990}),
            (done("capture", 1_000_002, 2), {"capture": 1_000_002, "refused": "the hold was voided"}),
            (done("refund", 1_000_002, 2), {"refund": 1_000_002, "refused": "it was held and not captured"}),
            (hold(3, 1, 2, 99_000), {"hold": 1_000_003, "refused": "the payer does not have that much"}),
            (hold(3, 1, 2, 99_000), {"hold": 1_000_003, "refused": "the payer does not have that much"}),
            (done("capture", 1_000_003, 2), {"capture": 1_000_003, "refused": no_hold}),
            (done("refund", 1_000_003, 2), {"refund": 1_000_003, "refused": no_payment}),
            (done("refund", 1_000_001, 2), {"refund": 1_000_001, "refunded": True, "to_has": 100_000}),
            (done("refund", 1_000_001, 2), {"refund": 1_000_001, "refunded": True, "to_has": 100_000}),
            (done("capture", 1_000_001, 2), {"capture": 1_000_001, "captured": True, "to_has": 101_000}),
            (done("void", 1_000_001, 2), {"void": 1_000_001, "refused": "the hold was captured"}),
            (hold(2, 1, 2, 500), {"hold": 1_000_002, "held": True, "from_has": 98_485, "state": 3}),
            (pay(4, 2, 3, 90_000), {"id": 2_000_004, "paid": True, "from_has": 9_100, "to_has": 190_000}),
            (pay(5, 3, 1, 150_000), {"id": 3_000_005, "paid": True, "from_has": 38_500, "to_has": 249_990}),
            (done("refund", 2_000_004, 3), {"refund": 2_000_004, "refused": "the payee does not have that much"}),
            (done("refund", 3_000_005, 1), {"refund": 3_000_005, "refunded": True, "to_has": 99_990}),
            (pay(5, 3, 1, 150_000), {"id": 3_000_005, "paid": True, "from_has": 38_500, "to_has": 249_990}),
            (done("capture", 2_000_004, 3), {"capture": 2_000_004, "refused": no_hold}),
            (done("capture", -1, 2), {"error": "capture: an id is a number from 1 on"}),
            (done("refund", 0, 2), {"error": "refund: an id is a number from 1 on"}),
            (done("refund", 1_000_009, 2), {"refund": 1_000_009, "refused": no_payment}),
        ]
        wanted += [({"balance": account}, {"balance": account, "has": has}) for account, has in enumerate((102_410, 99_990, 9_100, 188_500))]
        asked(server, wanted)
        note, state = {"note": 2_000_004, "from": 2, "time": 1_764_288_000, "reference": 77}, {"from": 2, "to": 3, "amount": 90_000, "state": 0}
        notes = [
            ({"payment": 2_000_004, "account": 3}, {"payment": 2_000_004, **state, "time": 0, "reference": 0}),
            ({**note, "from": 3}, {"note": 2_000_004, "refused": "there is no such payment of this payer"}),
            (note, {"note": 2_000_004, "noted": True}),
            (note, {"note": 2_000_004, "noted": True}),
            ({**note, "reference": 78}, {"note": 2_000_004, "refused": "it has another note"}),
            ({"payment": 2_000_004, "account": 3}, {"payment": 2_000_004, **state, "time": 1_764_288_000, "reference": 77}),
            ({"payment": 2_000_004, "account": 1}, {"payment": 2_000_004, "refused": "there is no such payment of this account"}),
        ]
        notes += [({"payment": number, "account": 1}, {"payment": number, "from": payer, "to": 4 - 2 * (payer == 1) - payer * (payer == 3), "amount": amount, "state": is_so, "time": 0, "reference": 0}) for number, payer, amount, is_so in ((1_000_001, 1, 1000, 5), (1_000_002, 1, 500, 3), (1_000_003, 1, 99_000, -5), (3_000_005, 3, 150_000, 4))]
        asked(server, notes)
        same("the sum of all balances", 400_000, sum(it["has"] for it in server.ask(*[{"balance": account} for account in range(4)])))
        same("verify", 0, run("verify", folder / "j")[0])
    return f"{len(wanted) + len(notes)} replies"


def owing():
    """An account that owes, as one between partitions may, is there: it is paid, and holds are made for it, but it can't pay, nor be opened again."""
    with scratch() as folder, Server("serve", folder / "j", "--accounts", 4) as server:
        between, much = partition.CLEARING + 1, "the payer does not have that much"
        same("an account", {"open": between, "opened": True, "has": 0}, ask(folder / "j" / "admin", "open", between, amount=0))
        wanted = [
            ({"credit": 5_000_001, "from": between, "to": 1, "amount": 500}, {"credit": 5_000_001, "credited": True, "to_has": 100_500}),
            ({"credit": 3_000_001, "from": between, "to": 1, "amount": 5}, {"credit": 3_000_001, "refused": "the id is none of the payer's account"}),
            ({"balance": between}, {"balance": between, "has": -500}),
            ({"hold": 2_000_002, "from": 2, "to": between, "amount": 100}, {"hold": 2_000_002, "held": True, "from_has": 99_899}),
            ({"capture": 2_000_002, "to": between}, {"capture": 2_000_002, "captured": True, "to_has": -400}),
            (pay(3, 2, between, 100), {"id": 2_000_003, "paid": True, "from_has": 99_798, "to_has": -300}),
            (pay(4, between, 2, 1), {"id": own(between, 4), "refused": much}),
            ({"hold": own(between, 5), "from": between, "to": 2, "amount": 1}, {"hold": own(between, 5), "refused": much}),
            ({"credit": 1_000_006, "from": 1, "to": between, "amount": 100}, {"credit": 1_000_006, "refused": "there is no such payee, or it owes"}),
            ({"hold": 2_000_007, "from": 2, "to": 9, "amount": 1}, {"hold": 2_000_007, "refused": "there is no such payee"}),
            ({"credit": 1_000_008, "from": 1, "to": 9, "amount": 1}, {"credit": 1_000_008, "refused": "there is no such payee, or it owes"}),
        ]
        asked(server, wanted)
        same("an account again", "there is such an account already", ask(folder / "j" / "admin", "open", between, amount=0)["refused"])


def statements():
    """The payments of each account, newest first, by pages; no refused one, and none that the account credited."""
    draw, made, outside = random.Random(14), {account: [] for account in range(1, 5)}, []
    with scratch() as folder, Server("serve", folder / "j", "--accounts", 5) as server:
        for number in draw.sample(range(1, 10**6), 60):
            payer, payee = draw.sample(range(1, 5), 2)
            (reply,) = server.ask(pay(number, payer, payee, draw.choice((1, 10, 10**6))))
            if "paid" in reply:
                made[payer].insert(0, reply["id"])
                made[payee].insert(0, reply["id"])
            else:
                outside.append((payer, reply["id"]))
        credit = 10**15 - 1
        same("a credit", True, server.ask({"credit": credit, "from": 1, "to": 4, "amount": 5})[0].get("credited"))
        made[4].insert(0, credit)
        for account, wanted in made.items():
            came, before = [], 0
            while page := server.ask({"statement": account, "before": before})[0]["payments"]:
                came += page
                before = page[-1]
            same(f"the statement of account {account}", wanted, came)
        refused = [
            ({"statement": 9, "before": 0}, {"statement": 9, "refused": "there is no such account"}),
            ({"statement": 1, "before": 5}, {"statement": 1, "refused": "there is no such payment of this account"}),
            ({"statement": 0, "before": made[1][0]}, {"statement": 0, "refused": "there is no such payment of this account"}),
            ({"statement": 0, "before": 0}, {"statement": 0, "payments": []}),
        ]
        for account, number in [*outside, (1, credit)]:
            refused.append(({"statement": account, "before": number}, {"statement": account, "refused": "there is no such payment of this account"}))
        asked(server, refused)
    return f"of {[len(it) for it in made.values()]} payments"


def forgotten():
    """An id is forgotten DAYS days later, some with each payment, but not one that is held. Then it can be paid again."""
    days, paid = 90, 20
    with scratch() as folder, Server("serve", folder / "j", "--accounts", 4) as server:
        admin = folder / "j" / "admin"
        records = ask(admin, "rows")["records"]
        held = {"hold": 1_000_099, "from": 1, "to": 2, "amount": 100}
        first = server.ask(*[pay(number, 1, 2, 100) for number in range(1, paid + 1)], held, pay(98, 3, 2, 10**9))
        day = ask(admin, "day")["day"]
        for after in (1, days):
            same("the day", {"day": day + after}, ask(admin, "day", day + after))
        same("the day before they are forgotten", first, server.ask(*[pay(number, 1, 2, 100) for number in range(1, paid + 1)], held, pay(98, 3, 2, 10**9)))
        same("the day", {"day": day + days + 1}, ask(admin, "day", day + days + 1))
        for number in range(100, 100 + paid):
            same("a new payment", {"paid"}, {"paid"} & set(server.ask(pay(number, 3, 2, 1))[0]))
        same("a forgotten one", "there is no such payment to this payee", server.ask({"refund": 1_000_005, "to": 2})[0]["refused"])
        same("the statement", [], server.ask({"statement": 1, "before": 0})[0]["payments"][1:])
        (again,) = server.ask(pay(5, 1, 2, 1))
        same("one that is paid again", (True, first[-2]["from_has"] - 1), (again["paid"], again["from_has"]))
        same("one that is held", {"capture": 1_000_099, "captured": True, "to_has": 102_121}, server.ask({"capture": 1_000_099, "to": 2})[0])
        # Nine of each payment, and of the held one its state and its second place; the newest payment of three accounts; what two have paid last; three
        # days that began; and how many ids came, and were forgotten.
        same("records", records + 9 * (paid + 2) + 2 + 3 + 2 + 3 + 2, ask(admin, "rows")["records"])
        same("verify", 0, run("verify", folder / "j")[0])


def removals():
    """What is forgotten are only records that are there, as the engine keeps the key of any other until a cut; and all of what is not held."""
    opened = [(1, account, 1_000_000) for account in range(5)]
    bank, day = Bank(0, PROCEDURES, b"".join(ROW.pack(*row) for row in opened)), 20_000
    calls = [("day", day), ("pay", 1_000_001, 1, 2, 100), ("pay", 1_000_002, 1, 2, 10**7), ("hold", 1_000_003, 1, 2, 100), ("hold", 1_000_004, 1, 2, 100), ("capture", 1_000_004, 2)]
    calls += [("hold", 1_000_005, 1, 2, 100), ("void", 1_000_005, 2), ("pay", 1_000_006, 1, 2, 100), ("refund", 1_000_006, 2), ("hold", 1_000_007, 1, 2, 100), ("capture", 1_000_007, 2), ("refund", 1_000_007, 2)]
    calls += [("pay", 2_000_008, 2, 3, 100), ("note", 2_000_008, 2, -1, 0), ("credit", 1_000_009, 1, 2, 100), ("credit", 1_000_010, 1, 9, 100), ("hold", 1_000_011, 1, 2, 10**7), ("pay", 4_000_012, 4, 3, 7)]
    calls += [("note", 1_000_009, 1, 1, 1), ("decline", 7_000_013, 7, 1, 5), ("set_day", day + 1), ("set_day", day + 91), *[("forget",)] * 13]
    bank.replay(calls)
    there, forgets, missing = {row[:2] for row in opened}, set(), []
    for place in range(len(bank.engine)):
        event, reply = bank.engine.entry(place)
        if event.procedure == bank.numbers["forget"]:
            forgets.add(reply.tid)
        if reply.kind == Kind.WROTE:
            record = reply.table, reply.number
            missing += [record] if reply.value is None and event.tid in forgets and record not in there else []
            (there.discard if reply.value is None else there.add)(record)
    same("records that are removed, and were not there", [], missing)
    judge(bank.rows(), 5_000_000)
    same("the payments of which something is left", {1_000_003}, {it[0] for it in payments(tables(bank.rows())).values()})
    same("what was spent", {1, 2, 4}, {number for table, number in there if table == SPENT})
    same("the refusal when nothing is left", [], bank.run(pack_calls([(bank.numbers["forget"],)]), ["forget"])[1])


def lists():
    """A line may be a list of requests, which is answered by a list, in order; each request is a transaction of its own."""
    with scratch() as folder, Server("serve", folder / "j", "--accounts", 3) as server:
        request, has = {"balance": 1}, {"balance": 1, "has": 100_000}
        error, not_here = server.ask(b"x", {"rows": True})
        paid = {"id": 1_000_001, "paid": True, "from_has": 99_995, "to_has": 100_005}
        wanted = [
            ([request], [has]),
            ([pay(1, 1, 2, 5), {"balance": 7}, [request], 7, {"rows": True}, pay(1, 1, 2, 5)], [paid, {"balance": 7, "refused": "there is no such account"}, error, error, not_here, paid]),
            ([], error),
            (request, {"balance": 1, "has": 99_995}),
        ]
        asked(server, wanted)
        (replies,) = server.ask([pay(number, 2, 1, 1) for number in range(100, 300)])
        same("the payments of a long list", list(range(2_000_100, 2_000_300)), [it["id"] for it in replies if "paid" in it])
        same("verify", 0, run("verify", folder / "j")[0])


def tokens():
    """With tokens a client may ask for what its token has a right to, and without one for nothing. Administrators need none."""
    rights = {"shop": {"pay": [[1, 2]], "read": [[0, 3]]}, "clerk": {"read": [[3, 3]]}}
    with scratch() as folder:
        file, own = folder / "tokens", {hashlib.sha256(token.encode()).hexdigest(): right for token, right in rights.items()}
        file.write_text(json.dumps(own))
        shutil.copytree(PAYMENTS / "procedures", folder / "procedures")
        (folder / "procedures" / "few.json").write_text('{"request": ["few"], "reply": ["one"], "procedure": [1, [["answer", ["arg", 0]]]]}')
        words = ("serve", folder / "j", "--accounts", 5, "--tokens", file, "--procedures", folder / "procedures")
        with Server(*words) as server:
            no, yes, gift = {"error": "no right to this"}, {"token": True}, pay(1, 3, 1, 5)
            same("without a token", [no, no], server.ask({"balance": 1}, gift))
            same("wrong tokens", [no, no, no], server.ask({"token": "shops"}, b'{"token": "\\ud800"}', {"balance": 1}))
            wanted = [yes, {"id": 2_000_002, "paid": True, "from_has": 99_995, "to_has": 100_005}, no, {"balance": 3, "has": 100_005}, no, no, [no, {"balance": 0, "has": 100_000}]]
            same("a shop", wanted, server.ask({"token": "shop"}, pay(2, 2, 3, 5), gift, {"balance": 3}, {"balance": 4}, {"capture": 2_000_002, "to": 3}, [gift, {"balance": 0}]))
            same("a clerk", [yes, {"balance": 3, "has": 100_005}, no, no], server.ask({"token": "clerk"}, {"balance": 3}, {"balance": 1}, gift))
            same("what says nothing of rights", [yes, no], server.ask({"token": "shop"}, {"few": 5}))
            same("the same for an administrator", {"few": 5, "one": 5}, ask(folder / "j" / "admin", "few", 5))
            same("a token that is lost", [yes, no, no], server.ask({"token": "shop"}, {"token": "x"}, {"balance": 1}))
            same("an administrator", {"balance": 4, "has": 100_000}, ask(folder / "j" / "admin", "balance", 4))
        for bad in ("[]", "{", '{"x": null}', '{"x": {"pay": [[1]]}}', '{"x": {"pay": [["a", "b"]]}}', '{"x": {"pay": [["1", "2"]]}}', '{"x": {"pay": ["12"]}}'):
            file.write_text(bad)
            status, _, error = run("serve", folder / "j", "--tokens", file)
            if status != 1 or "no file of tokens" not in error:
                raise Differs(f"a start with {bad} for tokens: {status} {error}")
        file.write_text("{}")
        with Server(*words) as server:
            same("with no tokens at all", [no], server.ask({"balance": 1}))


def certificates(folder):
    """Makes server.pem, and client.pem of an authority in clients.pem; and stranger.pem of another one."""

    def openssl(*words):
        subprocess.run(["openssl", *map(str, words)], check=True, capture_output=True, cwd=folder)

    for authority, names in (("clients", ("server", "client")), ("others", ("stranger",))):
        key = ("-newkey", "rsa:2048", "-nodes", "-subj")
        openssl("req", "-x509", *key, f"/CN={authority}", "-keyout", f"{authority}.key", "-out", f"{authority}.pem")
        for name in names:
            (folder / "more").write_text("subjectAltName=IP:127.0.0.1")
            openssl("req", *key, f"/CN={name}", "-keyout", f"{name}.key", "-out", f"{name}.request")
            signs = ("-CA", f"{authority}.pem", "-CAkey", f"{authority}.key", "-CAcreateserial", "-extfile", "more")
            openssl("x509", "-req", "-in", f"{name}.request", *signs, "-out", f"{name}.crt")
            (folder / f"{name}.pem").write_text((folder / f"{name}.key").read_text() + (folder / f"{name}.crt").read_text())


def tls():
    """With TLS only clients with a certificate of the authority are served, and neither others nor those who are slow stop them."""
    if not shutil.which("openssl"):
        return "left out: there is no openssl on this machine"

    def ask_by(server, name, *requests):
        context = ssl.create_default_context(cafile=folder / "clients.pem")
        if name:
            context.load_cert_chain(folder / f"{name}.pem")
        with context.wrap_socket(server.connect(), server_hostname="127.0.0.1") as client:
            client.sendall(b"".join(json.dumps(it).encode() + b"\n" for it in requests))
            replies = client.makefile()
            return [json.loads(replies.readline()) for _ in requests]

    with scratch() as folder:
        certificates(folder)
        with Server("serve", folder / "j", "--accounts", 3, "--cents", 9_000, "--tls", folder) as server, server.connect() as slow:
            slow.sendall(b"\x16\x03")  # the beginning of a greeting
            many = [pay(number, 1, 2, 1) for number in range(1, 141)]
            replies = ask_by(server, "client", many, {"balance": 1}, many)
            same("whether all are paid", [True] * 140, [it.get("paid") for it in replies[0]])
            same("the balance, and the payments again", [{"balance": 1, "has": 8_860}, replies[0]], replies[1:])
            for name in (None, "stranger"):
                with contextlib.suppress(OSError, ValueError):
                    raise Differs(f"a client with the certificate {name} gets {ask_by(server, name, {'balance': 1})}")
            with contextlib.suppress(ConnectionError):
                same("what a client without TLS gets", [None], server.ask({"balance": 1}))
            same("an administrator", {"balance": 1, "has": 8_860}, ask(folder / "j" / "admin", "balance", 1))
            same("a client after the others", [{"balance": 1, "has": 8_860}], ask_by(server, "client", {"balance": 1}))
            same("the end", (0, ""), server.end())
        (folder / "server.pem").write_text("none")
        status, _, error = run("serve", folder / "j", "--tls", folder)
        if status != 1 or "server.pem and clients.pem: " not in error:
            raise Differs(f"a start with a wrong certificate: {status} {error}")
        wanted = "payments: 0.0.0.0: other machines reach it, so it takes --tls, or --plain in a network of its own\n"
        same("a start for other machines without TLS", (1, "", wanted), run("serve", folder / "j", "--host", "0.0.0.0"))
        with Server("serve", folder / "j", "--host", "0.0.0.0", "--plain") as server:
            same("with --plain", [{"balance": 1, "has": 8_860}], server.ask({"balance": 1}))


def second_server():
    """A second server at a port ends and says so, also if both start at the same time. Clients come to each front of the one that serves."""
    with scratch() as folder:
        (port,) = free_ports(1)
        with Server("serve", folder / "0", port=port) as server, contextlib.ExitStack() as clients:
            fronts = server.fronts()[:FRONTS]
            before = [len(os.listdir(f"/proc/{front}/fd")) for front in fronts]
            links = [clients.enter_context(server.connect()) for _ in range(60)]
            for link in links:
                link.sendall(b'{"balance":1}\n')
                same("a reply", b'{"balance": 1, "has": 100000}\n', link.recv(100))
            same("fronts without clients", [], [one for one, were in zip(fronts, before) if len(os.listdir(f"/proc/{one}/fd")) == were])
            status, out, error = run("serve", folder / "1", "--port", port)
            if (status, out) != (1, "") or not re.fullmatch(rf"payments: .*Address already in use.*: port {port}\n", error):
                raise Differs(f"a second server: {status} {out} {error}")
        for number in range(5):
            wait_until(lambda: is_free(None, port), "a port that is free")
            words = [sys.executable, ADJUSTING, str(PAYMENTS / "payments.py"), "serve", "--port", str(port)]
            both = [subprocess.Popen([*words, folder / f"{number}.{at}"], stdout=subprocess.PIPE, stderr=subprocess.PIPE, text=True) for at in range(2)]
            said = [process.stdout.readline() for process in both]
            for process in both:
                process.kill()
            errors = [process.communicate(timeout=SECONDS)[1] for process in both]
            same("servers that serve, and that say why not", (1, 1), (sum(map(bool, said)), sum(f": port {port}\n" in error for error in errors)))


class Load:
    """Clients that pay in a closed loop, each on a connection of its own, and the replies that they got."""

    def __init__(self, draw):
        self.draw, self.ids = draw, 0
        self.acknowledged, self.asked, self.refused, self.unanswered = {}, {}, set(), []
        self.again = self.gone = self.replies = 0

    def request(self):
        """A payment: a new one, or one that had no answer before a crash."""
        if self.unanswered and self.draw.random() < 0.5:
            return self.unanswered.pop()
        self.ids += 1
        payer = self.draw.randrange(ACCOUNTS)
        payee = (payer + self.draw.randrange(1, ACCOUNTS)) % ACCOUNTS
        # Small, so that the money and the limit of the day last; one in twenty may be refused.
        amount = self.draw.randrange(1, 200) if self.draw.randrange(20) else self.draw.randrange(1, 2 * CENTS)
        request = pay(self.ids, payer, payee, amount)
        self.asked[request["id"]] = request
        return request

    def run(self, server, seconds=SECONDS, until=lambda: False):
        """Pays until the server is gone, or this is so, or the time is over."""
        clients, end = {}, time.monotonic() + seconds
        poll = select.epoll()

        def send(client):
            request = self.request()
            clients[client.fileno()] = client, request
            client.sendall(json.dumps(request).encode() + b"\n")

        with contextlib.suppress(ConnectionError):
            for _ in range(CLIENTS):
                client = server.connect()
                poll.register(client, select.EPOLLIN)
                clients[client.fileno()] = client, None
                with contextlib.suppress(ConnectionError):  # one that is dropped already is gone, below
                    send(client)
        while clients and time.monotonic() < end and not until():
            for number, _ in poll.poll(0.1):
                client, request = clients[number]
                try:
                    data = client.recv(4_096)
                    if data:
                        self.note(request, json.loads(data))
                        clients[number] = client, None
                        send(client)
                        continue
                except ConnectionError:
                    pass
                self.gone += 1
                self.close(clients, number)
        for number in list(clients):
            self.close(clients, number)

    def close(self, clients, number):
        client, request = clients.pop(number)
        client.close()
        if request is not None:
            self.unanswered.append(request)

    def kills(self, victim, replies, delay):
        """What `run` asks: whether it ends. It never does, but has this process killed a moment after so many replies."""
        timers, wanted = [], self.replies + replies

        def asked():
            if self.replies >= wanted and not timers:
                timers.append(threading.Timer(delay, os.kill, (victim, signal.SIGKILL)))
                timers[0].start()
            return False

        return asked

    def note(self, request, reply):
        number = request["id"]
        self.replies += 1
        same("the id of a reply", number, reply["id"])
        if "seconds_old" in reply:  # on a slow machine another server leads already
            self.unanswered.append(request)
            return
        if "refused" in reply:
            self.refused.add(number)
            same(f"what payment {number} was answered before", None, self.acknowledged.get(number))
            return
        same(f"whether payment {number} was refused before", False, number in self.refused)
        reported = reply["from_has"], reply["to_has"]
        self.again += number in self.acknowledged
        same(f"the answer to payment {number}", self.acknowledged.get(number, reported), reported)
        self.acknowledged[number] = reported

    def judge(self, seq, found, opened=ACCOUNTS * CENTS):
        """Each acknowledged payment is there once, as it was asked and answered; no refused one is; and no money is lost."""
        same("what is wrong with the database", [], faults(found))
        balance, made = found[1], {it[0]: it for it in payments(found).values()}
        payer, payee, amount, from_has, to_has = [{number: it[column] for number, it in made.items()} for column in range(1, 6)]
        refused = {number for number, code in from_has.items() if code < 0}
        wanted = {account: CENTS for account in range(ACCOUNTS)}
        for number in payer:
            request = self.asked.get(number)
            same(f"payment {number}", request, {"id": number, "from": payer[number], "to": payee[number], "amount": amount[number]})
            if number in refused:
                continue
            fee = amount[number] // FEE_OF
            for account, change in ((payer[number], -amount[number] - fee), (payee[number], amount[number]), (0, fee)):
                wanted[account] += change
        same("the balances", wanted, balance)
        same("the sum of all balances", opened, sum(balance.values()))
        lost = [number for number, reported in self.acknowledged.items() if (from_has.get(number), to_has.get(number)) != reported]
        same("acknowledged payments that are not there", [], lost)
        same("refused payments that are not there as refused", set(), self.refused - refused)


def lose_power(folder, safe, draw):
    """What a loss of power may do to the bytes that were written, but were not on disk. Whether it did."""
    newest = sorted(folder.glob("*.batches"))[-1]
    data = bytearray(newest.read_bytes())
    start = safe.get(newest.name, 0)
    if len(data) <= start:
        # All was on disk. The beginning of a next batch may be there, too.
        data += draw.randbytes(draw.randrange(80))
        newest.write_bytes(data)
        return len(data) > start
    what = draw.randrange(3)
    if what == 0:
        del data[draw.randrange(start, len(data)) :]
    elif what == 1:
        for at in range(draw.randrange(start, len(data)), len(data), draw.randrange(1, 300)):
            data[at] ^= draw.randrange(1, 256)
    newest.write_bytes(data)
    return what < 2


def synced(path):
    """The length of each file when its last fsync returned, as tests/helpers/noting_fsync.py writes it."""
    found = {}
    for line in path.read_text().splitlines() if path.exists() else []:
        name, _, size = line.rpartition(" ")
        if name and size.isdigit():
            found[pathlib.Path(name).name] = int(size)
    return found


def crashes(rounds, seed):
    """Kills the server under load, again and again."""
    draw = random.Random(seed)
    load, torn, early = Load(draw), 0, 0
    with scratch() as folder:
        notes, journal = folder / "synced", folder / "j"
        words = ("serve", journal, "--accounts", ACCOUNTS, "--cents", CENTS, "--keep")
        noting = adjusted(NOTE_FSYNC=notes, CUT_AFTER=20_000)
        for number in range(rounds):
            server = Server(*words, **noting) if number % 10 != 9 else None
            if server is None:
                # Killed while it recovers.
                words_of = [sys.executable, ADJUSTING, str(PAYMENTS / "payments.py"), *map(str, words), "--port", "0"]
                process = subprocess.Popen(words_of, stdout=subprocess.DEVNULL, stderr=subprocess.DEVNULL, env={**os.environ, **noting["env"]})
                time.sleep(draw.random() * 0.3)
                process.kill()
                process.wait()
                early += 1
                continue
            with server:
                # Of five kills one is of a front process.
                victim = draw.choice(server.fronts()) if number % 5 == 2 else server.process.pid
                load.run(server, until=load.kills(victim, draw.randrange(20, 600), draw.random() / 50))
                same("the status", 1 if number % 5 == 2 else -signal.SIGKILL, server.process.wait(SECONDS))
            torn += lose_power(journal, synced(notes), draw)
            if number % 5 == 4:
                seq, found, _ = recovered(journal)
                load.judge(seq, found)
        with Server(*words) as server:
            seq, found, _ = recovered(journal)
            same("the last call", seq, server.seq)
            load.judge(seq, found)
            same("verify", 0, run("verify", journal)[0])
    if len(load.acknowledged) < 10 * rounds:
        raise Differs(f"only {len(load.acknowledged)} payments were acknowledged in {rounds} rounds")
    return f"{rounds} kills, {early} of them in recovery; {len(load.acknowledged)} payments acknowledged, each there once; {torn} torn tails"


def a_journal(folder):
    """A journal with some payments, three of them in one batch, ended well. Its file of calls, and its bytes."""
    with Server("serve", folder, "--accounts", 3) as server:
        server.ask(*[pay(number, 1, 2, 100 + number) for number in (1, 2, 3)])
        for number in range(4, 11):
            server.ask(pay(number, 1, 2, 100 + number))
        server.end()
    calls = sorted(folder.glob("*.batches"))[-1]
    return calls, calls.read_bytes()


def mark(folder, number):
    """Has the mark of a journal say that this batch was safe. Without a number it is gone, as one that a loss of power has taken back."""
    (folder / "safe").unlink(missing_ok=True)
    if number is not None:
        (folder / "safe").write_bytes(seal(b"%15d" % number))


def torn_tails():
    """A journal that is cut at each byte of its last batch recovers all before it."""
    with scratch() as folder:
        calls, data = a_journal(folder / "j")
        whole = data[: data.rindex(b"\n\n") + 1]  # without the mark that the end made
        last = whole.rindex(b"\n\n") + 1
        batch_number, first, (call,), _ = unseal(whole[last + 1 : -1])
        mark(folder / "j", batch_number - 1)
        for length in range(last, len(whole) + 1):
            calls.write_bytes(whole[:length])
            seq, found, torn = recovered(folder / "j")
            is_whole = length == len(whole)
            same(f"cut at byte {length}: the last call", first - (not is_whole), seq)
            same(f"cut at byte {length}: what was cut off", 0 if is_whole else max(0, length - last - 1), torn)
            same(f"cut at byte {length}: the payment", is_whole, call[1] in found[IDS])
        # Of a batch that was not safe any part may be there.
        batch = as_lines(batch_number + 1, first, [("pay", 1_000_100 + more, 1, 2, 5) for more in (1, 2)])
        for at in range(1, len(batch), 3):
            for garbled in (batch[:at] + bytes(len(batch) - at), bytes(at) + batch[at:], batch[:at] + b"\n" + batch[at + 1 :]):
                calls.write_bytes(whole + garbled)
                same(f"a batch that is there in part, at {at}", first + 2 * (garbled == batch), recovered(folder / "j")[0])
        calls.write_bytes(whole + batch)
        same("a batch that is there whole", first + 2, recovered(folder / "j")[0])
    return f"{len(whole) - last + len(batch)} lengths"


def damaged_tails():
    """A start says what a tail may have held, and keeps it: at least the batches that it did hold, but of the beginning of a line none."""
    lost = []
    with scratch() as folder:
        calls, data = a_journal(folder / "j")
        whole = data[: data.rindex(b"\n\n") + 1]  # the last seven batches have a call each, and the last one is call 11
        calls.write_bytes(whole[:-20])
        mark(folder / "j", None)
        with Server("serve", folder / "j") as server:
            said = r"cut off \d+ bytes after batch \d+: the beginning of a batch, not acknowledged unless the file was shortened\n"
            same("whether it says what the beginning of a line is", True, bool(re.fullmatch(said, "".join(server.said))))
        same("what is kept of it", [], list((folder / "j").glob("*.tail")))
        for size in (1, 60, 200, 250):
            calls.write_bytes(whole[:-size] + bytes(size))
            mark(folder / "j", None)
            with Server("serve", folder / "j") as server:
                said = "".join(server.said)
            lost.append(11 - server.seq)
            reported = r"if power was lost, .*; else at most (\d+) safe ones. Kept in (.*)\n"
            found = re.fullmatch(rf"cut off (\d+) bytes after batch \d+: {reported}", said)
            if not found or int(found[2]) < lost[-1]:
                raise Differs(f"of {size} bytes that held {lost[-1]} batches it says {said}")
            same("what is kept", (whole[:-size] + bytes(size))[-int(found[1]) :], pathlib.Path(found[3]).read_bytes())
    return f"of {lost} batches"


def damage():
    """A journal with a flipped bit is refused, and its place is named. Where no mark says that its last batch was safe, that one is cut off."""
    draw, refused = random.Random(5), 0
    with scratch() as folder:
        calls, data = a_journal(folder / "j")
        last = data.rindex(b"\n\n") + 1  # an empty batch, so nothing is lost with it
        wanted = recovered(folder / "j")[:2]
        number = unseal(data[last + 1 : -1])[0]
        later = as_lines(number + 1, wanted[0], [("pay", 1_000_100, 1, 2, 5)])
        first = data.index(b"\n\n")  # the end of the first batch, which has the procedures
        for at in (*range(0, first - 20, 97), *range(first - 20, len(data), 2)):
            flipped = bytearray(data)
            flipped[at] ^= 1 << draw.randrange(8)
            for after, safe in ((b"", number), (later, None), *[(b"", None)] * (at >= last)):
                calls.write_bytes(flipped + after)
                mark(folder / "j", safe)
                try:
                    came = recovered(folder / "j")[:2]
                except Unusable as why:
                    refused += 1
                    found = re.search(r"batches: the line at byte (\d+) is damaged", str(why))
                    if not found or not int(found[1]) <= at <= data.find(b"\n", int(found[1]) + 1):
                        raise Differs(f"byte {at}: {why}") from None
                    continue
                if at < last or after or safe:
                    raise Differs(f"a flipped bit in byte {at} of {len(data)} was not found")
                same(f"a flipped bit in byte {at}, of the last batch", wanted, came)
        calls.write_bytes(data)
        with Server("serve", folder / "j", **adjusted(CUT_AFTER=1)) as server:
            server.ask(pay(100, 1, 2, 5))
            (snapshot,) = wait_until(lambda: list((folder / "j").glob("*.snapshot")), "a snapshot")
            server.process.kill()
        snapshot = min((folder / "j").glob("*.snapshot"))
        data = snapshot.read_bytes()
        for at in range(0, len(data), 97):
            flipped = bytearray(data)
            flipped[at] ^= 1 << draw.randrange(8)
            snapshot.write_bytes(flipped)
            with contextlib.suppress(Unusable):
                Store(folder / "j").load(int(snapshot.stem))
                raise Differs(f"a flipped bit in byte {at} of a snapshot was not found")
        status, out, error = run("serve", folder / "j")
        if status != 1 or out or "the snapshot is damaged" not in error:
            raise Differs(f"a server on a damaged snapshot: {status} {out} {error}")
    return f"{refused} flipped bits refused"


def ends_at_once(server, load):
    """The server ends with status 1 while clients pay. What it said."""
    load.run(server)
    return error_at_end(server)


def error_at_end(server):
    """The server has ended with status 1, or does so now. What it said."""
    try:
        error = server.process.communicate(timeout=SECONDS)[1]
    except subprocess.TimeoutExpired:
        raise Differs("the server goes on") from None
    same("the status", 1, server.process.returncode)
    return error


def full_disk():
    """A journal that can't grow ends the server, and what was acknowledged is there."""
    load = Load(random.Random(7))
    with scratch() as folder:
        words = ("serve", folder / "j", "--accounts", ACCOUNTS, "--cents", CENTS)
        with Server(*words, before=lambda: resource.setrlimit(resource.RLIMIT_FSIZE, (20_000, 20_000))) as server:
            error = ends_at_once(server, load)
        if "File too large" not in error and "full" not in error:
            raise Differs(f"it says {error}")
        with Server(*words) as server:
            load.judge(*recovered(folder / "j")[:2])
            load.run(server, 0.3)
        load.judge(*recovered(folder / "j")[:2])
    return f"{len(load.acknowledged)} acknowledged"


def failing_fsync():
    """An fsync that fails ends the server before it acknowledges, and it is not tried again. What no fsync has kept is gone then."""
    load = Load(random.Random(8))
    with scratch() as folder:
        preload = preloaded(folder, "failing_fsync")
        words = ("serve", folder / "j", "--accounts", ACCOUNTS, "--cents", CENTS)
        for fails_after in (10, 40):
            notes = folder / f"synced{fails_after}"
            with Server(*words, env={**preload, "FSYNC_FAILS_AFTER": str(fails_after), "NOTE_FSYNC": str(notes)}) as server:
                error = ends_at_once(server, load)
            if "Input/output error" not in error:
                raise Differs(f"it says {error}")
            (newest,) = (folder / "j").glob("*.batches")
            os.truncate(newest, synced(notes)[newest.name])
            load.judge(*recovered(folder / "j")[:2])
    return f"{len(load.acknowledged)} acknowledged"


def large_snapshots():
    """A snapshot that is written in many parts, as one of over 2 GB is."""
    load = Load(random.Random(13))
    with scratch() as folder:
        words = ("serve", folder / "j", "--accounts", ACCOUNTS, "--cents", CENTS, "--keep")
        small = adjusted(CUT_AFTER=4000, SHORT_WRITE=1000, **preloaded(folder, "short_write"))
        with Server(*words, **small) as server:
            load.run(server, until=lambda: load.replies >= 2_000 and largest(folder / "j") > 20_000)
            server.process.kill()
        load.judge(*recovered(folder / "j")[:2])
        same("verify", 0, run("verify", folder / "j")[0])
        return f"the largest has {largest(folder / 'j')} bytes"


def largest(folder):
    """The bytes of the largest snapshot."""
    return max((path.stat().st_size for path in folder.glob("*.snapshot")), default=0)


def pieces():
    """A large file becomes safe in pieces: a batch that becomes safe meanwhile waits for one of them at most."""
    sizes, whole, piece = [0], 30_000_000, 10_000_000

    def fsync(file):
        sizes.extend([] if isinstance(file, int) else [os.fstat(file.fileno()).st_size])

    with scratch() as folder, mock.patch("os.fsync", fsync):
        store(folder / "file", b"head", bytes(whole))
        same("the file", (4 + whole, ["file"]), ((folder / "file").stat().st_size, names_in(folder)))
    same("its length at the last fsync", 4 + whole, sizes[-1])
    if max(later - sooner for sooner, later in zip(sizes, sizes[1:])) > piece:
        raise Differs(f"it became safe at these lengths: {sizes}")


def deletions():
    """No batch waits for the deletion of a file, which takes long if the file is large: another thread deletes it."""
    unlink, deletes = pathlib.Path.unlink, []

    def noted(path, missing_ok=False):
        deletes.extend([threading.current_thread() is threading.main_thread()] if path.suffix == ".batches" else [])
        unlink(path, missing_ok)

    with scratch() as folder, mock.patch.object(pathlib.Path, "unlink", noted):
        journal = FileJournal(folder)
        journal.lead()
        journal.append(1, seal_batch(1, 0, ['["day", 5]']))
        journal.stored("test", 1, 2)
        wait_until(lambda: names_in(folder) == ["000000000000002.batches", "newest", "safe"], "a file that is deleted")
        same("whether the thread that appends has deleted it", [False], deletes)


def failed_snapshot():
    """A snapshot that the disk has no space for ends nothing, and leaves nothing. The server says so, and takes the next one."""
    paid, count = [], 120  # at once: as many as have the history cut

    def pay_some(server):
        begin = len(paid) + 1
        paid.extend(server.ask(*[pay(number, number % 100 + 1, number % 100 + 2, 1) for number in range(begin, begin + count)]))

    with scratch() as folder:
        admin = folder / "j" / "admin"
        with Server("serve", folder / "j", "--accounts", 1000, "--cents", CENTS, **adjusted(CUT_AFTER=2000)) as server:
            limits = resource.prlimit(server.process.pid, resource.RLIMIT_FSIZE, (40_000, resource.getrlimit(resource.RLIMIT_FSIZE)[1]))
            pay_some(server)
            health = wait_until(lambda: re.search(r"no snapshot.*", ask(admin, "health")["health"]), "a snapshot that can't be stored")[0]
            if not re.search(r"no snapshot .*\.snapshot: .*too large", health):
                raise Differs(f"health is {health}")
            same("the files", ["000000000000001.batches", "admin", "newest", "safe"], names_in(folder / "j"))
            resource.prlimit(server.process.pid, resource.RLIMIT_FSIZE, limits)
            pay_some(server)
            wait_until(lambda: ask(admin, "health")["health"] == "ok", "a snapshot")
            (snapshot,), (*_, newest) = (sorted((folder / "j").glob(f"*.{kind}")) for kind in ("snapshot", "batches"))
            first = folder / "j" / "000000000000001.batches"
            # If no batch came while the snapshot was stored, none of the first file is needed.
            older = [first] if int(newest.stem) > int(snapshot.stem) + 1 else []
            wanted = sorted(it.name for it in (snapshot, *older, newest, folder / "admin", folder / "newest", folder / "safe"))
            wait_until(lambda: names_in(folder / "j") == wanted, f"the files {wanted}")
            same("whether it goes on in the new file", True, int(snapshot.stem) < int(newest.stem) <= ask(admin, "health")["batch"] + 1)
            wait_until(lambda: pay_some(server) or not first.exists(), "a file of which no batch is needed that is deleted")
            server.process.kill()
        same("the payments", [(it["id"], it["from_has"], it["to_has"]) for it in paid], payments_in(folder / "j"))


def little_space():
    """A snapshot that would take most of what is free on the disk is not begun, as the journal may need that."""
    rows = b"".join(ROW.pack(1, account, CENTS) for account in range(ACCOUNTS))
    bank = Bank(0, PROCEDURES, rows)
    with scratch() as folder:
        for free, wanted in ((3 * len(rows) // 2 - 1, r"no snapshot .*\.snapshot: it would take most of .*"), (3 * len(rows) // 2, "")):
            with mock.patch("shutil.disk_usage", return_value=types.SimpleNamespace(free=free)):
                reported = Store(folder).save(1, bank)
            if not re.fullmatch(wanted, reported):
                raise Differs(f"with {free} bytes free: {reported}")
            same("the files", [] if wanted else ["000000000000001.snapshot"], names_in(folder))


def renewals():
    """While a copy of a server stores a snapshot the server goes on, and what has run meanwhile is there when the bank that is made of it takes over."""
    load = Load(random.Random(15))
    with scratch() as folder:
        admin, waits = folder / "j" / "admin", folder / "waits"
        waits.touch()
        words = ("serve", folder / "j", "--accounts", ACCOUNTS, "--cents", CENTS)
        adjusts = adjusted(CUT_AFTER=1_000, SNAPSHOT_WAITS=waits)
        with Server(*words, **adjusts) as server:
            load.run(server, until=server.copies)
            for _ in range(3):  # there is no snapshot before the file is gone
                load.run(server, 0.3)
                same("copies, and snapshots", (1, []), (len(server.copies()), list((folder / "j").glob("*.snapshot"))))
                same("the records as of the last cut", ACCOUNTS, ask(admin, "figures")["records"])
                same("verify", 0, run("verify", folder / "j")[0])
            many = len(load.acknowledged)
            waits.unlink()
            wait_until(lambda: ask(admin, "figures")["records"] > ACCOUNTS and not server.copies(), "a new bank, and no copy")
            same("verify", 0, run("verify", folder / "j")[0])
            load.run(server, 0.3)
        load.judge(*recovered(folder / "j")[:2])
        # What is killed while a copy stores a snapshot, by which signal; and how the server ends, if it does.
        for kills, number, status in ((False, signal.SIGTERM, 0), (True, signal.SIGKILL, None), (False, signal.SIGKILL, -signal.SIGKILL)):
            waits.touch()
            with Server(*words, **adjusts) as server:
                load.run(server, until=server.copies)
                load.run(server, 0.2)
                (copy,) = server.copies()
                os.kill(copy if kills else server.process.pid, number)
                waits.unlink()
                if status is None:
                    wait_until(lambda: "no snapshot, as the process" in ask(admin, "health")["health"], "a server that says why it has no snapshot")
                    load.run(server, until=lambda: ask(admin, "health")["health"] == "ok")
                    same("verify", 0, run("verify", folder / "j")[0])
                else:
                    load.run(server)
                    same("the status", status, server.process.wait(SECONDS))
                wait_until(lambda: has_ended(copy), "a copy that has ended")  # noqa: B023
            load.judge(*recovered(folder / "j")[:2])
    return f"{len(load.acknowledged)} acknowledged, {many} of them while the first snapshot was stored"


def huge_pages():
    """The server has memory come in huge pages, of which a cut has fewer to copy, unless its user has said how memory is to come."""
    with scratch() as folder:
        for given, wanted in (({}, b"glibc.malloc.hugetlb=1"), ({"GLIBC_TUNABLES": "glibc.malloc.perturb=0"}, b"glibc.malloc.perturb=0")):
            env = {name: value for name, value in os.environ.items() if name != "GLIBC_TUNABLES"} | given
            process = subprocess.Popen([sys.executable, PAYMENTS / "payments.py", "serve", folder / "j"], stdout=subprocess.PIPE, text=True, env=env)
            process.stdout.readline()
            found = pathlib.Path(f"/proc/{process.pid}/environ").read_bytes().split(b"\0")
            process.kill()
            process.communicate(timeout=SECONDS)
            same("what its environment says", [b"GLIBC_TUNABLES=" + wanted], [it for it in found if it.startswith(b"GLIBC_TUNABLES=")])


def begun_snapshots():
    """What is left of a snapshot in which the server was killed is removed by the next start, and nothing else is."""
    with scratch() as folder:
        a_journal(folder / "j")
        for number in (3, 5):
            (folder / "j" / f"{number:015}.new").write_bytes(b"12345678 [")
        (folder / "j" / "notes").write_text("of a user")
        with Server("serve", folder / "j") as server:
            same("the files", ["000000000000001.batches", "admin", "newest", "notes", "safe"], names_in(folder / "j"))
            same("the last call", 11, server.seq)


def newest_file_gone():
    """A start whose newest file is gone is refused, whether an older one is there or none."""
    with scratch() as folder:
        for cut_after in (100, 10**6):
            journal = folder / f"j{cut_after}"
            with Server("serve", journal, "--accounts", 3, "--keep", **adjusted(CUT_AFTER=cut_after)) as server:
                for number in range(1, 21):
                    server.ask(pay(number, 1, 2, 1))
                if cut_after == 100:
                    wait_until(lambda: len(list(journal.glob("*.batches"))) > 1, "a second file")  # noqa: B023
                server.end()
            *older, newest = sorted(journal.glob("*.batches"))
            same("older files", cut_after == 100, bool(older))
            newest.rename(folder / "aside")
            wanted = f"payments: {newest}: this file is gone, and with it what was acknowledged in it\n"
            same("a start without the newest file", (1, "", wanted), run("serve", journal))
            (folder / "aside").rename(newest)
            with Server("serve", journal) as server:
                same("the last call", 21, server.seq)


def jumping_clock():
    """The day goes on by one at a time; a clock that jumps changes nothing until an operator says the day, forwards or back."""
    with scratch() as folder:
        admin, words = folder / "j" / "admin", ("serve", folder / "j", "--accounts", 3, "--cents", 9_000_000)
        skewed = adjusted(DAYS_AHEAD=folder / "ahead")
        set_clock(folder, 0)
        with Server(*words, **skewed) as server:
            first = ask(admin, "day")["day"]
            # As much as one may pay on a day: the days that the clock is ahead, and whether it is paid.
            pays_on(folder, server, ((0, True), (0, False), (1, True), (1, False), (400, False)))
            same("health", f"the clock says day {first + 400}, and the bank has day {first + 1}", ask(admin, "health")["health"])
            same("the day", {"day": first + 1}, ask(admin, "day"))
            same("the day that an operator says", {"day": first + 400}, ask(admin, "day", first + 400))
            pays_on(folder, server, ((400, True), (401, True)))
            same("health", "ok", ask(admin, "health")["health"])
            pays_on(folder, server, ((1, False),))
            same("health", f"the clock says day {first + 1}, and the bank has day {first + 401}", ask(admin, "health")["health"])
            same("days that are none", [{"day": first + 401}] * 2, [ask(admin, "day", day) for day in (-1, 100_000)])
            same("the day that an operator says", {"day": first + 1}, ask(admin, "day", first + 1))
            pays_on(folder, server, ((1, False), (2, True)))
            for days in (3, 4):  # on which nobody asks
                set_clock(folder, days)
                await_day(folder / "j", first + days)
            pays_on(folder, server, ((4, True),))
            same("verify", 0, run("verify", folder / "j")[0])
            server.process.kill()
        set_clock(folder, 6)
        with Server(*words, **skewed) as server:
            pays_on(folder, server, ((6, False),))
            same("the day after a start two days later", {"day": first + 4}, ask(admin, "day"))


def await_day(journal, day):
    """Waits until the journal has this day."""
    end = time.monotonic() + SECONDS
    while not re.search(rf"^\d+ day .*\b{day}$", run("show", journal)[1], re.MULTILINE):
        if time.monotonic() > end:
            raise Differs(f"the bank does not get day {day}")


def set_clock(folder, days):
    """Has the clock of the server be so many days ahead."""
    (folder / "next").write_text(str(days))
    (folder / "next").rename(folder / "ahead")


def pays_on(folder, server, wanted):
    """Pays as much as one may on a day, when the clock is so many days ahead, and compares whether it is paid."""
    for days, is_paid in wanted:
        set_clock(folder, days)
        (reply,) = server.ask(pay(time.time_ns() % 10**6, 1, 2, LIMIT))
        same(f"a payment when the clock is {days} days ahead", is_paid, "paid" in reply)


def names_in(folder):
    return sorted(path.name for path in folder.iterdir())


def payments_in(folder):
    """The id of each payment in a journal, and what both had after it."""
    _, found, _ = recovered(folder)
    return [(it[0], it[4], it[5]) for _, it in sorted(payments(found).items())]


def gift_of_page():
    """The procedure that the page writes."""
    (text,) = [it for it in re.findall(r"```json\n(.*?)```", (PAYMENTS / "README.md").read_text(), re.DOTALL) if '"gift"' in it]
    return json.loads(text)


def other_procedures():
    """A start with other procedures than those of the journal is refused. With --new-procedures it recovers by the old ones, and goes on with its own."""
    with scratch() as folder:
        procedures = folder / "procedures"
        shutil.copytree(PAYMENTS / "procedures", procedures)
        words = ("serve", folder / "j", "--accounts", 3, "--keep")
        with Server(*words) as server:
            asked(server, [(pay(1, 1, 2, 1000), {"id": 1_000_001, "paid": True, "from_has": 98_990, "to_has": 101_000})])
            server.end()
        gift = gift_of_page()
        (procedures / "gift.json").write_text(json.dumps(gift))
        (procedures / "open.json").unlink()
        few = {"request": ["few"], "done": "100 %d", "reply": ["one", "two"], "procedure": [1, [["answer", ["arg", 0]]]]}
        many = {"request": ["many %s"], "reply": ["one"], "procedure": [1, [["answer", ["arg", 0]], ["answer", 9]]]}
        for name, it in (("few", few), ("many", many)):
            (procedures / f"{name}.json").write_text(json.dumps(it))
        own = (*words, "--procedures", procedures)
        before = names_in(folder / "j")
        wanted = "payments: these procedures are not those of the journal: few, gift, many, open. With --new-procedures a server goes on with its own\n"
        same("a start with other procedures", (1, "", wanted), run(*own))
        same("the files", before, names_in(folder / "j"))
        with Server(*own, "--new-procedures") as server:
            asked(server, [({"gift": 2, "amount": 5}, {"gift": 2, "has": 101_005}), ({"balance": 1}, {"balance": 1, "has": 98_990}), ({"gift": 7, "amount": 5}, {"gift": 7, "refused": "there is no such account"})])
            asked(server, [({"few": 5}, {"few": 5, "100 %d": True, "one": 5}), ({"many %s": -7}, {"many %s": -7, "one": -7})])
            server.process.kill()
        with Server(*own) as server:
            asked(server, [({"balance": 2}, {"balance": 2, "has": 101_005})])
            same("verify", 0, run("verify", folder / "j")[0])
            server.end()
        same("a start with the first procedures", (1, "", wanted), run(*words))
        (procedures / "gift.json").write_text(json.dumps({**gift, "procedure": [2, [["ask", 1]]]}))
        status, _, error = run(*own)
        same("a start with a procedure that was changed", (1, True), (status, "of the journal: gift. With" in error))


def bad_procedures():
    """A file that is no procedure ends the start, and is named."""
    look = ["look", 0, 1, ["arg", 0], 1]
    files = [
        ('{"procedure": [', "JSONDecodeError"),
        ({"request": ["gift"]}, "KeyError: 'procedure'"),
        ({"request": ["gift"], "procedure": [1, [look, ["puts", 1, 2, 3]]]}, 'procedure 0, at 1 1: unknown word "puts": a statement starts with look, find, put, remove, let, ask, if or answer'),
        ({"request": ["gift"], "procedure": [1, [["look", 99, 1, ["arg", 0], 1]]]}, "at 1 0 1: register 99 is over 15"),
        ({"request": ["gift", "amount"], "procedure": [1, [look]]}, "the request has 2 keys, and the procedure takes 1 arguments"),
        ({"request": ["gift"], "refused": {"one": "x"}, "procedure": [1, [look]]}, "ValueError"),
        ({"request": ["gift"], "accounts": ["gifts"], "procedure": [1, [look]]}, "ValueError: the request has no key gifts"),
        ({"request": ["gift"], "rights": {"to": "pay"}, "procedure": [1, [look]]}, "ValueError: the request has no key to"),
        ({"request": ["balance"], "procedure": [1, [look]]}, "balance.json has the same keys in its request"),
    ]
    with scratch() as folder:
        shutil.copytree(PAYMENTS / "procedures", folder / "procedures")
        for text, wanted in files:
            (folder / "procedures" / "gift.json").write_text(text if isinstance(text, str) else json.dumps(text))
            status, out, error = run("serve", folder / "j", "--procedures", folder / "procedures")
            if (status, out) != (1, "") or not error.startswith(f"payments: {folder / 'procedures' / 'gift.json'}: ") or wanted not in error:
                raise Differs(f"a start with {text}: {status} {out} {error}")
    return f"{len(files)} files"


def forged(data, amount):
    """A journal whose second line of calls has another amount, with a checksum that fits."""
    lines = data.split(b"\n")
    at = [place for place, line in enumerate(lines) if place > 3 and (unseal(line) or [0, 0, 0])[2]][1]
    number, first, (call, *_), writer = unseal(lines[at])
    lines[at] = seal_batch(number, first - 1, [json.dumps([*call[:4], amount(call[4])])], writer)
    return b"\n".join(lines)


def forged_journal():
    """A call that was changed, with a checksum that fits, is found by `verify`, but for the calls after the last snapshot by the server alone."""
    with scratch() as folder:
        calls, data = a_journal(folder / "j")
        with Server("serve", folder / "j") as server:
            same("verify", 0, run("verify", folder / "j")[0])
            mark(folder / "j", None)  # it has the batch of this start
            calls.write_bytes(forged(data, lambda amount: amount + 1))
            status, _, error = run("verify", folder / "j")
            if status != 1 or "do not give what is served" not in error:
                raise Differs(f"verify of a forged journal: {status} {error}")
        calls.write_bytes(forged(data, lambda _: 0))
        status, _, error = run("serve", folder / "j")
        if status != 1 or "does not commit" not in error:
            raise Differs(f"a start on a call that does not commit: {status} {error}")
        missing = data.split(b"\n\n")
        calls.write_bytes(b"\n\n".join(missing[:2] + missing[3:]))
        status, _, error = run("serve", folder / "j")
        if status != 1 or "where batch" not in error:
            raise Differs(f"a start on a journal without a line: {status} {error}")


def killed_fronts():
    """A front process that is killed ends the server, and with it the others. Nothing that was acknowledged is lost, and the port is free."""
    draw, (port,) = random.Random(11), free_ports(1)
    load = Load(draw)
    with scratch() as folder:
        words = ("serve", folder / "j", "--accounts", ACCOUNTS, "--cents", CENTS)
        for number in range(6):
            with Server(*words, port=port) as server:
                fronts = server.fronts()  # the last one is of the administrators
                same("how many front processes there are", FRONTS + 1, len(fronts))
                load.run(server, until=load.kills(fronts[number % len(fronts)], draw.randrange(20, 300), draw.random() / 50))
                error = error_at_end(server)
            same("what a server without one of its front processes says", "payments: a front process has ended\n", error)
            load.judge(*recovered(folder / "j")[:2])
        with Server(*words, port=port) as server:
            os.kill(server.fronts()[0], signal.SIGKILL)
            same("the status of an idle server without one of its front processes", 1, server.process.wait(SECONDS))
        with Server(*words, port=port) as server:
            server.process.kill()
        with Server(*words, port=port) as server:
            load.run(server, 0.2)
        load.judge(*recovered(folder / "j")[:2])
    return f"{len(load.acknowledged)} acknowledged"


def vanished_clients():
    """Clients whose machines vanish, so that an accept, a receive or a send times out, end nothing."""
    load = Load(random.Random(12))
    with scratch() as folder:
        words = ("serve", folder / "j", "--accounts", ACCOUNTS, "--cents", CENTS)
        with Server(*words, env={**preloaded(folder, "vanishing"), "VANISH_ONE_IN": "50"}) as server:
            for _ in range(4):
                load.run(server)
            same("the end", (0, ""), server.end())
        load.judge(*recovered(folder / "j")[:2])
    same("clients that vanished", 4 * CLIENTS, load.gone)
    return f"{load.gone} of them, {len(load.acknowledged)} acknowledged"


@contextlib.contextmanager
def front_alone():
    """What a front process does, in this process; the server's end of its connection; and where it listens."""
    procedures = load_procedures(PAYMENTS / "procedures")
    own, server = multiprocessing.Pipe()
    with socket.create_server(("127.0.0.1", 0)) as listener:
        front = Front([listener], own, Reader(procedures, None, False), 60, None)
        front.numbers = {name: number for number, name in enumerate(procedures)}
        front.poll.register(listener, select.EPOLLIN)
        yield front, server, listener.getsockname()
    own.close()


def leaving_clients():
    """A client that sends nothing more while its front waits for other lines has its reply. One that is gone by then has none, and nobody else has it."""
    with front_alone() as (front, server, address):
        front.asked, front.until = 3, time.monotonic() + SECONDS
        turn = threading.Thread(target=front.turn)
        turn.start()
        with socket.create_connection(address, timeout=SECONDS) as first, socket.create_connection(address) as gone:
            first.sendall(b'{"balance":1}\n')
            first.shutdown(socket.SHUT_WR)
            gone.sendall(b'{"balance":2}\n')
            gone.close()
            wait_until(lambda: not select.select([first], (), (), 0.5)[0], "a front that waits")
            with socket.create_connection(address, timeout=SECONDS) as last:
                last.sendall(b'{"balance":3}\n')
                calls = unpack_calls(marshal.loads(server.recv_bytes())[0])
                same("the calls", [(front.numbers["balance"], account) for account in (1, 2, 3)], sorted(calls))
                outcomes = [OUTCOME.pack(Kind.COMMITTED, 0, 1, 10 * account, *[0] * 7) for _, account in calls]
                server.send_bytes(marshal.dumps(([it.tobytes() for it in columns(b"".join(outcomes), 1)], [], "")))
                turn.join()
                for number, client in ((1, first), (3, last)):
                    same(f"the reply to client {number}", b'{"balance": %d, "has": %d}\n' % (number, 10 * number), client.recv(1000))


def slow_clients():
    """A client that takes its replies late, and little at a time, has all of them, however many it has asked for. Nobody waits for it."""
    request, reply, count = b'{"balance":1}\n', b'{"balance": 1, "has": 100000}\n', 5_000
    with scratch() as folder, Server("serve", folder / "j", "--accounts", 3) as server, socket.socket() as client:
        client.setsockopt(socket.SOL_SOCKET, socket.SO_RCVBUF, 4096)
        client.setsockopt(socket.IPPROTO_TCP, socket.TCP_MAXSEG, 536)  # as over a network, where little is on its way
        client.settimeout(SECONDS)
        client.connect(("127.0.0.1", server.port))
        sends = threading.Thread(target=client.sendall, args=(request * count,))
        sends.start()
        for _ in range(50):
            same("what another client has", [{"balance": 2, "has": 100_000}], server.ask({"balance": 2}))
        with client.makefile("rb") as replies:
            same("replies", count, sum(line == reply for line in (replies.readline() for _ in range(count))))
        sends.join()
        same("the end", (0, ""), server.end())


def many_lines():
    """Clients that send very much at once are heard in parts: what a front has in memory has a limit."""
    part, count = b'{"balance":1}\n' * 4_000, 2 * AT_ONCE
    with front_alone() as (front, _, address), contextlib.ExitStack() as stack:
        for _ in range(count):
            client = stack.enter_context(socket.create_connection(address))
            wait_until(lambda: front.accept(front.listeners[0]), "a client that is accepted")
            threading.Thread(target=client.sendall, args=(part,), daemon=True).start()
        wait_until(lambda: len(select.select([it.link for it in front.clients.values()], (), (), 0)[0]) == count, "lines of all clients")
        asked = front.wait()
        lines = sum(map(len, asked.values()))
        if not 0 < lines <= AT_ONCE * PART / len(b'{"balance":1}'):
            raise Differs(f"the front has {lines} lines in memory")
    return f"{lines} of {count * 4_000} lines are heard at once"


def greedy_clients():
    """A client that has very many replies, as empty lines have, and takes none, is dropped. What a front has in memory has a limit."""
    with front_alone() as (front, _, address), socket.socket() as client:
        client.setsockopt(socket.SOL_SOCKET, socket.SO_RCVBUF, 4096)
        client.setsockopt(socket.IPPROTO_TCP, socket.TCP_MAXSEG, 536)  # as over a network, where little is on its way
        client.connect(address)
        wait_until(lambda: front.accept(front.listeners[0]), "a client that is accepted")
        for text, are_left in ((b'{"balance"}\n' * (PART // 12), 1), (b"\n" * PART, 0)):
            client.sendall(text)
            front.turn()
            same(f"clients after {len(text)} bytes as {text[:12]}", are_left, len(front.clients))
            while are_left and (it := next(iter(front.clients.values()))).unsent:
                client.recv(1 << 16)
                front.go_on(it)


def full_fronts():
    """A front that has as many clients as it may takes the next one when one has gone, and none before."""
    with front_alone() as (front, _, address), contextlib.ExitStack() as stack:
        front.most, clients = 2, [stack.enter_context(socket.create_connection(address)) for _ in range(3)]
        wait_until(lambda: front.accept(front.listeners[0]), "a client that is accepted")
        for client in clients:
            client.sendall(b'{"balance":1}\n' * 2)
        heard = {client for _ in range(2) for client in front.wait()}
        same("clients that are heard, and that there are", (2, 2), (len(heard), len(front.clients)))
        front.drop(heard.pop())
        same("clients that are heard then, and that there are", (1, 2), (len(front.wait()), len(front.clients)))


def is_dropped(client):
    """Whether the server has dropped a client that has asked nothing. A part of a line does not keep it."""
    client.setblocking(False)
    try:
        client.send(b" ")
        return client.recv(1) == b""
    except BlockingIOError:
        return False
    except ConnectionError:
        return True


def idle_clients():
    """More clients than the server may have files open: those beyond a cap wait, and get their turn when idle ones are dropped."""
    files = 100
    most = FRONTS * (files - OTHER_FILES)
    for idle in (1, 10, 100):  # seconds: if a machine stalls for so long, the one who waits may be dropped before its line is read
        if reply := reply_after_idle_ones(files, most, idle):
            same("the reply to the one who waited", {"balance": 1, "has": 100_000}, reply)
            return f"{most + 100} of them, at most {most} at a time"
    raise Differs("the one who waited had no reply")


def reply_after_idle_ones(files, most, idle):
    """The reply to a client who waits until idle ones are dropped, or None if it was dropped itself."""

    def few_files():
        resource.setrlimit(resource.RLIMIT_NOFILE, (files, files))

    reply = ""
    with scratch() as folder, contextlib.ExitStack() as clients:
        server = clients.enter_context(Server("serve", folder / "j", "--accounts", 3, "--idle", idle, before=few_files))
        others = [clients.enter_context(server.connect()) for _ in range(most + 100)]
        last = others.pop()
        last.sendall(b'{"balance":1}\n')
        end = time.monotonic() + SECONDS
        while others and time.monotonic() < end:
            others = [client for client in others if not is_dropped(client)]
            time.sleep(0.1)
        same("clients that are idle, and not dropped", 0, len(others))
        with contextlib.suppress(ConnectionError):
            reply = last.makefile().readline()
        # On a slow machine a second passes before it asks, so it may be dropped, too.
        wait_until(lambda: server.ask({"balance": 2}) == [{"balance": 2, "has": 100_000}], "a reply to a new client")
        same("the end", (0, ""), server.end())
    return json.loads(reply) if reply else None


# A program that writes the number of the last call, and then the rows, as a server recovers them from its folder and from a journal.
RECOVERS = """
import argparse, pathlib, sys
sys.path.insert(0, sys.argv[1])
import chain as chains
from payments import open_journal
from chain import Chain
from journal import Store
chains.PATIENCE = 600.0
folder = pathlib.Path(sys.argv[3])
chain = Chain(Store(folder), open_journal(argparse.Namespace(journal=sys.argv[2], folder=folder, keep=True)), {}, "test")
chain.insist(chain.catch_up)
sys.stdout.buffer.write(b"%d " % chain.bank.seq + chain.bank.rows())
"""


def rows_after(journal, folder):
    """The number of the last call, and the records by table, as a follower with this folder recovers them."""
    ran = subprocess.run([journal.python, "-c", RECOVERS, PAYMENTS, journal.address, folder], capture_output=True, timeout=SECONDS, check=False)
    if ran.returncode:
        raise Differs(f"a recovery ends with {ran.stderr.decode()}")
    seq, _, rows = ran.stdout.partition(b" ")
    judge(rows)
    return int(seq), tables(rows)


# A program that asks etcd from two threads, and forks between as a server does that stores a snapshot.
FORKS = """
import contextlib, os, sys, threading, time
sys.path.insert(0, sys.argv[1])
from etcd_journal import Nodes, rpc
from journal import BEAT, Away
nodes, others = Nodes([sys.argv[2]]), Nodes([sys.argv[2]])

def asks(its):
    with contextlib.suppress(Away):  # on a slow machine
        its.ask("Range", rpc.RangeRequest(key=b"x"))

def goes_on():
    while True:
        with BEAT:
            asks(others)
        time.sleep(0.01)

threading.Thread(target=goes_on, daemon=True).start()
for _ in range(int(sys.argv[3])):
    asks(nodes)
    with BEAT:
        child = os.fork()
    if child == 0:
        os._exit(0)
    os.waitpid(child, 0)
print("done", flush=True)
os._exit(0)
"""


def forks():
    """A server that speaks to etcd by several threads forks without waiting for any of them."""
    if why := Etcd.missing():
        return f"left out: {why}"
    count = 200
    with scratch() as folder, running(Etcd, folder) as etcd:
        words = [etcd.python, "-c", FORKS, PAYMENTS, f"127.0.0.1:{etcd.ports[0]}", str(count)]
        ran = subprocess.run(words, capture_output=True, text=True, timeout=SECONDS, check=False)
        same("what it says", "done\n", ran.stdout + ran.stderr)
    return f"{count} forks"


class Remembered:
    """A journal in memory, which any server may lead: what fences a primary is that a batch has the number of its next one."""

    report = ""

    def __init__(self):
        self.batches = []

    def lead(self):
        return True

    def append(self, number, data):
        if number <= len(self.batches):
            raise Fenced(f"there is a batch {number}")
        self.batches.append(data)

    def read(self, number):
        return self.batches[number - 1 :]

    def stored(self, server, number, after):
        pass


def promotion():
    """A new primary begins with an empty batch, also if nobody has asked it yet: so the one before it can append nothing more."""
    with scratch() as folder:
        journal, opening = Remembered(), {"procedures": PROCEDURES, "accounts": ACCOUNTS, "cents": CENTS}
        old, new = (Chain(Store(folder / name), journal, opening, name) for name in ("old", "new"))
        old.start()
        old.append(['["day", 20000]'])
        new.start()
        *batches, writers = zip(*map(unseal, journal.batches))
        same("the batches", [(1, 2, 3), (1, 1, 2), (opening, [["day", 20_000]], [])], batches)
        same("who wrote them", [(old.writer, old.writer, new.writer), True], [writers, old.writer != new.writer])
        same("who leads, and after which call", (True, 1, True), (new.leads, new.bank.seq, old.leads))
        with contextlib.suppress(Fenced):
            old.append(['["day", 20001]'])
            raise Differs("a primary that was replaced has appended a batch")
        new.append(['["day", 20001]'])
        same("the last batch", [4, 2, [["day", 20_001]], new.writer], unseal(journal.batches[-1]))
        said, listens = [], logging.Handler()
        listens.emit = lambda record: said.append(record.getMessage())
        logging.getLogger("payments").addHandler(listens)
        for _ in range(2):
            (last := Chain(Store(folder / "last"), journal, opening, "last")).follow()
        same("what one says that follows, and then leads", ["leads now, after call 2"] * 2, said)
        same("whether it leads", True, last.leads)


# A program of two servers that speak to a journal. The first one leads, and says nothing for as long as a lease: then the second one leads,
# and deletes what both have snapshots of. What is written is whether the next batch of the first one is safe.
FENCES = """
import argparse, pathlib, sys, time
sys.path.insert(0, sys.argv[1])
from journal import BEAT, Fenced
from payments import open_journal
old, new = (open_journal(argparse.Namespace(journal=sys.argv[2], folder=pathlib.Path("none"), keep=True)) for _ in range(2))
while not old.lead():
    time.sleep(0.1)
for _ in range(2):  # again, as after a reply that was lost
    old.append(1, b"1")
with BEAT:  # so no lease is renewed
    while not new.lead():
        time.sleep(0.1)
def append():
    try:
        old.append(2, b"old")
        print("safe")
    except Fenced:
        print("fenced")
append()
for number in (2, 3):
    new.append(number, b"new")
new.stored("new", 3, 4)
append()
"""


def fences(kind):
    """A primary that was replaced is fenced, before the new one has appended anything, and where its batches are deleted already."""
    if why := kind.missing():
        return f"left out: {why}"
    for _ in range(10):  # on a slow machine the journal may be late, or the second server be replaced, too
        with scratch() as folder, running(kind, folder) as journal:
            words = [journal.python, "-c", FENCES, PAYMENTS, journal.address]
            ran = subprocess.run(words, capture_output=True, text=True, timeout=SECONDS, check=False)
        if ran.stdout:
            break
    same("the next batch of a primary that was replaced", ("fenced\n" * 2, ""), (ran.stdout, ran.stderr))
    return None


def fenced_over_etcd():
    """Its comparison with the leader fences."""
    return fences(Etcd)


def fenced_over_redis():
    """A batch asks who leads. A stream refuses the numbers of its past, too."""
    return fences(Redis)


def fenced_over_postgresql():
    """The row of the leader fences."""
    return fences(Postgres)


# A program that asks etcd once, and writes which node it has asked.
ASKS = """
import sys
sys.path.insert(0, sys.argv[1])
from etcd_journal import Nodes, rpc
nodes = Nodes(sys.argv[2:])
nodes.ask("Range", rpc.RangeRequest(key=b"x"))
print(nodes.nodes[0])
"""


def asked_node():
    """A server asks the node of etcd that leads, in whatever order they are named, and when that one is killed the next that leads."""
    if why := Etcd.missing():
        return f"left out: {why}"
    with scratch() as folder, running(Etcd, folder) as etcd:
        nodes = [f"127.0.0.1:{port}" for port in etcd.ports[:3]]

        def asks_leader():
            """Whether the leader is asked first, by each order of the nodes. On a slow machine another one may lead meanwhile."""
            words = [[etcd.python, "-c", ASKS, PAYMENTS, *nodes[at:], *nodes[:at]] for at in range(3)]
            leaders = [nodes[it] for it in [etcd.leader()] if it is not None]
            asked = [subprocess.run(it, capture_output=True, text=True, timeout=SECONDS, check=False).stdout.strip() for it in words]
            return asked == leaders * 3

        wait_until(asks_leader, "a leader that is asked")
        etcd.kill(wait_until(lambda: [it for it in [etcd.leader()] if it is not None], "a leader")[0])
        wait_until(asks_leader, "the next leader that is asked")


def silent_nodes():
    """While a node of etcd does not answer, `health` names it: clients see nothing of that."""
    if why := Etcd.missing():
        return f"left out: {why}"
    with scratch() as folder, running(Etcd, folder) as etcd:
        words = ("serve", folder / "j", "--journal", etcd.address)

        def health():
            return ask(folder / "j" / "admin", "health")["health"]

        with started(*words, python=etcd.python, **adjusted(**NEVER)) as server:
            wait_until(lambda: health() == "ok", "a server that is well")
            etcd.kill(2)
            wait_until(lambda: health() == f"no word of the node 127.0.0.1:{etcd.ports[2]} of etcd", "the name of the node that is dead")
            wait_until(lambda: "paid" in server.ask(pay(1, 1, 2, 5))[0], "a payment")
            etcd.start(2)
            wait_until(lambda: health() == "ok", "a server that is well again")
    return None


def missing_modules():
    """A start whose Python lacks the module of a journal says of which package of Debian it is, and for which Python."""
    for scheme, package in (("etcd", "etcd3"), ("redis", "redis"), ("postgresql", "psycopg2")):
        words = [sys.executable, "-S", PAYMENTS / "payments.py", "serve", "none", "--journal", f"{scheme}://127.0.0.1:1/bank"]
        ran = subprocess.run(words, capture_output=True, text=True, check=False, env={**os.environ, "GLIBC_TUNABLES": ""})
        wanted = rf"payments: No module named '\w+', in {re.escape(sys.executable)}. Debian has it for /usr/bin/python3, in python3-{package}\n"
        if ran.returncode != 1 or not re.fullmatch(wanted, ran.stderr):
            raise Differs(f"{scheme}: wanted {wanted}, came {ran.stderr}")


# What ends a server that a slow machine has stalled for longer than its lease: it is started again.
STALLED = "another primary leads|the journal is away"
NEVER = {"LEASE": SECONDS, "PATIENCE": SECONDS}  # is a server stalled for so long


def started(*words, **how):
    """A server that starts, at once or as soon as the machine does not stall it."""
    end = time.monotonic() + SECONDS
    while True:
        try:
            return Server(*words, **how)
        except Differs as why:
            if not re.search(STALLED, str(why)) or time.monotonic() > end:
                raise


class Group:
    """Three servers on one journal, each with a folder of its own. One that has ended is started again, as its supervisor would do."""

    def __init__(self, journal, folder, stack, **numbers):
        self.journal, self.folder, self.servers, self.stack, self.numbers = journal, folder, [None] * 3, stack, numbers
        for number in range(3):
            self.start(number)

    def start(self, number):
        words = ("serve", self.folder / f"{number}", "--journal", self.journal.address, "--accounts", ACCOUNTS, "--cents", CENTS)
        numbers = {"CUT_AFTER": 8_000, "PATIENCE": SECONDS, **self.numbers}  # with snapshots now and then
        self.servers[number] = self.stack.enter_context(started(*words, python=self.journal.python, **adjusted(**numbers)))

    def health(self, number):
        return ask(self.folder / f"{number}" / "admin", "health", timeout=2)

    def primary(self, but=None):
        """The server that leads, once one does. Those that have ended are started before."""

        def found():
            for number in range(3):
                if number != but and self.servers[number].process.poll() is not None:
                    self.start(number)
            return [number for number in range(3) if number != but and self.health(number)["leads"]]

        return wait_until(found, "a server that leads")[0]

    def judge(self, load):
        """What is in the journal is what was acknowledged, for each of the servers."""
        for server in self.servers:
            server.process.kill()
        for number in range(3):
            load.judge(*rows_after(self.journal, self.folder / f"{number}"))


def follower_answers(group, load):
    """A follower answers what does not write, says how old that is, and soon has what the primary has. On a slow machine they may change."""
    payment = pay(999_999, 1, 2, 1)  # which is paid if it leads by then
    load.asked[payment["id"]] = payment

    def has_it():
        primary = group.primary()
        (reported,) = group.servers[primary].ask({"balance": 1})
        came, refused = group.servers[(primary + 1) % 3].ask({"balance": 1}, payment)
        if None in (reported, came, refused) or "seconds_old" in reported or "seconds_old" not in came or "seconds_old" not in refused:
            return False
        if not 0 <= came["seconds_old"] < SECONDS or refused.get("error") != "this server follows another one":
            raise Differs(f"a follower replies {came} and {refused}")
        return came["has"] == reported["has"]

    wait_until(has_it, "a follower that has what the primary has")


def failover(kind):
    """The primary is killed; then the next one is stopped, and wakes; then the journal is away for some time."""
    if why := kind.missing():
        return f"left out: {why}"
    load = Load(random.Random(9))
    with scratch() as folder, running(kind, folder) as journal, contextlib.ExitStack() as stack:
        group = Group(journal, folder, stack)
        for event in (kill_primary, stop_primary, journal_away):
            primary = group.primary()
            load.run(group.servers[primary], 0.3)
            follower_answers(group, load)
            event(group, primary, load)
        load.run(group.servers[group.primary()], 0.3)
        group.judge(load)
        shutil.copytree(PAYMENTS / "procedures", folder / "procedures")
        (folder / "procedures" / "open.json").unlink()
        words = ("serve", folder / "0", "--journal", journal.address, "--procedures", folder / "procedures")
        wanted = "these procedures are not those of the journal: open. "
        same("whether a start with other procedures is refused", True, is_refused(wanted, *words, python=journal.python))
        copied = takes_a_copy(group)
    return f"{len(load.acknowledged)} payments acknowledged, each there once{copied}"


def is_refused(wanted, *words, python=sys.executable):
    """Whether a start is refused, for this reason. It may not be on a machine so slow that no batch was deleted."""
    try:
        with started(*words, python=python):
            return False
    except Differs as why:
        if not re.search(f"payments: {wanted}", str(why)):
            raise
        return True


def takes_a_copy(group):
    """A server that has nothing, and whose batches were deleted, says so. With a copy of another's snapshots, by the page, it follows, or leads."""
    journal, (new, old) = group.journal, (group.folder / "new", group.folder / "0")
    words = ("serve", new, "--journal", journal.address)
    if not is_refused(r"batch 1 was deleted, and the first one is \d+: copy a newer snapshot of another server\n", *words, python=journal.python):
        return ". On so slow a machine no batch was deleted"
    (copies,) = re.findall("^scp .*", (PAYMENTS / "README.md").read_text(), re.MULTILINE)
    subprocess.run(copies.replace("scp /var/lib/payments", f"cp {old}").replace("c:/var/lib/payments", str(new)), shell=True, check=True)
    with Server(*words, python=journal.python, **adjusted(**NEVER)) as server:
        same("the last call", rows_after(journal, old)[0], server.seq)
        same("the status", 0, server.end()[0])
    return ""


def ends_while_away(kind):
    """While the journal is away clients of the primary wait, and a follower answers. SIGTERM ends both."""
    if why := kind.missing():
        return f"left out: {why}"
    with scratch() as folder, running(kind, folder) as journal, contextlib.ExitStack() as stack:
        group = Group(journal, folder, stack, LEASE=SECONDS)  # so that the primary stays it
        primary = group.primary()
        same("who says that it leads", [number == primary for number in range(3)], [it.leads for it in group.servers])
        shutil.copytree(PAYMENTS / "procedures", folder / "other")
        (folder / "other" / "note.json").unlink()
        words = ("serve", folder / "new", "--journal", journal.address, "--procedures", folder / "other")
        same("whether other procedures are refused", True, is_refused("these procedures are not those of the journal: note. ", *words, python=journal.python))
        with group.servers[primary].connect() as client:
            with journal.silent():
                client.sendall(json.dumps(pay(2, 1, 2, 5)).encode() + b"\n")
                time.sleep(6)  # in which all requests to it are given up
            same("what the client has then", {"paid"}, {"paid"} & set(json.loads(client.makefile().readline())))
        with journal.silent(), group.servers[primary].connect() as client:
            client.sendall(json.dumps(pay(1, 1, 2, 5)).encode() + b"\n")
            follower = group.servers[(primary + 1) % 3]
            wait_until(lambda: "the journal is away" in group.health((primary + 1) % 3)["health"], "a follower that says that the journal is away")
            same("a follower's reply", {"balance", "has", "seconds_old"}, set(follower.ask({"balance": 1})[0]))
            same("the end of a follower", 0, follower.end()[0])
            status, error = group.servers[primary].end()
            if status != 1 or "the journal is away" not in error:
                raise Differs(f"the end of the primary: {status} {error}")
            same("what its client has", b"", client.recv(100))
    return None


def ended_while_away():
    """Over etcd, all of whose nodes are stopped."""
    return ends_while_away(Etcd)


def hung_redis():
    """Over a Redis that is stopped."""
    return ends_while_away(Redis)


def hung_postgresql():
    """Over a PostgreSQL that is stopped, all its processes."""
    return ends_while_away(Postgres)


# A program that asks a PostgreSQL, cuts it off, and asks again, with the network of no other program. It writes whether it is away then.
CUT_OFF = """
import pathlib, subprocess, sys
sys.path[:0] = sys.argv[1:3]
from urllib.parse import urlsplit
from helpers.machines import Postgres, running
from journal import Away
from postgresql_journal import PostgresJournal
def network(word):
    subprocess.run(["ip", "link", "set", "lo", word], check=True)
network("up")
with running(Postgres, pathlib.Path(sys.argv[3])) as server:
    journal = PostgresJournal(urlsplit(server.address))
    print(*journal.read(1))
    network("down")
    try:
        journal.read(1)
    except Away:
        print("away")
    network("up")
    print(*journal.read(1))
"""


def cut_off_postgresql():
    """A PostgreSQL that is cut off is away after some seconds, and not for ever."""
    if why := Postgres.missing() or Hosts.missing():
        return f"left out: {why}"
    with scratch() as folder:
        words = ["unshare", "--net", python_with("psycopg2"), "-c", CUT_OFF, PAYMENTS, TESTS, folder]
        begin, ran = time.monotonic(), subprocess.run(words, capture_output=True, text=True, timeout=SECONDS, check=False)
        same("what it says", ("\naway\n\n", ""), (ran.stdout, ran.stderr))
        return f"it takes {time.monotonic() - begin:.0f} s"


def kill_primary(group, primary, load):
    kill = threading.Timer(0.2, group.servers[primary].process.kill)
    kill.start()
    load.run(group.servers[primary], 5)
    kill.join()
    load.run(group.servers[group.primary(primary)], 0.3)


def stop_primary(group, primary, load):
    """A primary that was stopped is replaced, and when it wakes it acknowledges nothing, and ends."""
    old = group.servers[primary]
    stop = threading.Timer(0.2, old.signal, (signal.SIGSTOP,))
    stop.start()
    load.run(old, 0.5)
    stop.join()
    load.run(group.servers[group.primary(primary)], 0.3)
    before = dict(load.acknowledged)
    wake = threading.Timer(0.1, old.signal, (signal.SIGCONT,))
    wake.start()
    load.run(old, 5)  # until it ends
    wake.join()
    wait_until(lambda: old.process.poll() is not None or group.health(primary), "a replaced primary that has ended")
    if old.process.poll() is None:
        return  # it has answered: on a slow machine it was replaced before it was stopped, and has begun anew
    error = old.process.communicate(timeout=SECONDS)[1]
    if old.process.returncode != 1 or not re.search(STALLED, error):
        raise Differs(f"a replaced primary ends with {old.process.returncode} and {error}")
    same("what a replaced primary acknowledges", before, load.acknowledged)


def journal_away(group, primary, load):
    """Clients wait, and the servers go on. Whether another one has become the primary meanwhile depends on the journal."""
    away = threading.Thread(target=group.journal.away, args=(2,))
    away.start()
    load.run(group.servers[primary], 3)
    away.join()
    load.run(group.servers[group.primary()], 0.3)


def over_etcd():
    """The primary is killed, and stopped and wakes; etcd is away for two seconds."""
    return failover(Etcd)


def nodes_die(rounds, seed):
    """Each node of etcd, its leader, two of three and the primary are killed and stopped under load. Clients pay at whoever leads."""
    if why := Etcd.missing():
        return f"left out: {why}"
    draw, events, fenced = random.Random(seed), [], 0
    load, kinds = Load(draw), [(which, is_killed) for which in (0, 1, 2, "the leader", "two nodes", "the primary") for is_killed in (True, False)]
    while len(events) < rounds:
        events += draw.sample(kinds, len(kinds))
    with scratch() as folder, running(Etcd, folder) as etcd, contextlib.ExitStack() as stack:
        group = Group(etcd, folder, stack)
        for which, is_killed in events[:rounds]:
            primary = group.primary()
            if which == "the primary":
                (kill_primary if is_killed else stop_primary)(group, primary, load)
                fenced += not is_killed
                continue
            trouble = threading.Thread(target=strike, args=(etcd, which, is_killed, draw))
            trouble.start()
            load.run(group.servers[primary], 1.5)
            trouble.join()
        load.run(group.servers[group.primary()], 0.3)
        group.judge(load)
    return f"{rounds} events, {fenced} primaries fenced; {len(load.acknowledged)} payments acknowledged, each there once"


def strike(etcd, which, is_killed, draw):
    """Kills or stops nodes of etcd for a second: the one with a number, the one that leads, or two of three."""
    time.sleep(0.2)
    nodes = [which]
    if which == "the leader":
        nodes = wait_until(lambda: [it for it in [etcd.leader()] if it is not None], "an etcd that has a leader")
    elif which == "two nodes":
        nodes = draw.sample(range(3), 2)
    if not is_killed:
        with etcd.stopped(*nodes):
            time.sleep(1)
        return
    for node in nodes:
        etcd.kill(node)
    time.sleep(1)
    for node in nodes:
        etcd.start(node)


def on_host(name, folder):
    """The two commands of the page for a machine, which are those of `a` there."""
    (page,) = [block for block in (PAYMENTS / "README.md").read_text().split("```") if "etcd --name a" in block]
    for of_a in ("--name a ", "--initial-advertise-peer-urls http://a:", "--advertise-client-urls http://a:"):
        page = page.replace(of_a, of_a.replace("a ", f"{name} ").replace("//a:", f"//{name}:"))
    page = page.replace("/var/lib/", f"{folder}/{name}-").replace("/usr/bin/python3 examples/payments/payments.py", f"{python_with('etcd3')} {PAYMENTS / 'payments.py'}")
    etcd, _, server = page.partition("\nuntil ")
    return f"{etcd} &\nuntil {server}"


def partitions():
    """Three hosts with the commands of the page. The host of the primary is cut off, in turns: another one leads, and the old one is silent."""
    if why := Hosts.missing():
        return f"left out: {why}"
    with scratch() as folder, running(Hosts, folder) as hosts:
        for name in hosts.names:
            hosts.start(name, on_host(name, folder))

        def leader(but=""):
            for name in hosts.names.replace(but, "") if but else hosts.names:
                if (reply := hosts.ask(name, {"balance": 1})) and "seconds_old" not in reply[0]:
                    return name
            return None

        def pays(name, number):
            """What a server replies to a payment, if it acknowledges it. On a slow machine it may not."""
            replies = hosts.ask(name, pay(number, 1, 2, 100))
            return replies if replies and "paid" in replies[0] else None

        paid = {}
        for number in (1, 2):
            old = wait_until(leader, "a server that leads")
            paid[2 * number - 1] = pays(old, 2 * number - 1)
            hosts.connect(old, False)
            silent = hosts.ask(old, {"balance": 1}, inside=old)
            if silent and "seconds_old" not in silent[0]:  # on a slow machine it may follow already
                raise Differs(f"a primary that is cut off replies {silent}")
            new = wait_until(lambda: leader(old), "another server that leads")  # noqa: B023
            paid[2 * number] = pays(new, 2 * number)
            hosts.connect(old, True)
        wait_until(lambda: all(hosts.ask(name, {"balance": 1}) for name in hosts.names), "three servers that answer")
        for number, replies in paid.items():
            again = wait_until(lambda: pays(leader(), number), "a payment that is acknowledged")  # noqa: B023
            same("a payment again", replies or again, again)
    return f"{sum(map(bool, paid.values()))} payments acknowledged, each there once"


class Partitions:
    """Two servers, of which each has twenty accounts from a thousand on. Both can be killed and begin anew, at the same ports."""

    HAS = 100_000

    def __init__(self, folder, stack):
        self.folder, self.stack, self.ports, self.servers = folder, stack, free_ports(2), [None, None]
        for number in range(2):
            self.start(number)
            self.admin(number, "open", partition.CLEARING + 1 - number, amount=0)
            for account in self.accounts(number):
                self.admin(number, "open", account, amount=self.HAS)

    def accounts(self, number):
        return range(1000 * (number + 1), 1000 * (number + 1) + 20)

    def start(self, number):
        words = ("serve", self.folder / f"{number}", "--accounts", 1, "--cents", 0)
        self.servers[number] = self.stack.enter_context(Server(*words, port=self.ports[number], **adjusted(CUT_AFTER=4_000)))

    def kill(self, number):
        self.servers[number].process.kill()
        self.servers[number].process.wait(SECONDS)
        self.servers[number].await_end()

    def admin(self, number, word, value, **more):
        return ask(self.folder / f"{number}" / "admin", word, value, **more)

    def ask(self, number, request):
        """What a partition replies, once it does."""

        def reply():
            with socket.create_connection(("127.0.0.1", self.ports[number]), timeout=SECONDS) as client:
                client.sendall(json.dumps(request).encode() + b"\n")
                return json.loads(client.makefile().readline())

        return wait_until(reply, f"a reply of partition {number}")

    def pay(self, request, steps=9):
        """Pays as somebody does who dies after so many steps: then there is no reply."""
        left = [steps]

        def step(number, asked):
            left[0] -= 1
            if left[0] < 0:
                raise BrokenPipeError
            return self.ask(number, asked)

        with contextlib.suppress(BrokenPipeError):
            return partition.pay(step, lambda account: account // 1000 - 1, *request)
        return None


def between_partitions():
    """Payments between two servers that are killed at random, by clients that die on the way: money is conserved, and nothing paid twice."""
    draw, kills, replies = random.Random(21), 12, {}
    with scratch() as folder, contextlib.ExitStack() as stack:
        bank = Partitions(folder, stack)
        everyone = [account for number in range(2) for account in bank.accounts(number)]
        wanted = []
        for number in range(1, 401):  # some are of who does not have that much, or to somebody who is not there
            payer, payee = draw.sample(everyone, 2)
            wanted.append((own(payer, number), payer, draw.choice((payee,) * 9 + (payee + 500,)), draw.choice((7, 150, 2_000, 90_000))))
        plans, over = [(request, draw.choice((1, 2, 3, 9, 9))) for request in wanted], threading.Event()

        def clients(own):
            for request, steps in own:
                if reply := bank.pay(request, steps):
                    replies[request] = reply

        threads = [threading.Thread(target=clients, args=(plans[at::8],)) for at in range(8)]
        for thread in threads:
            thread.start()
        for _ in range(kills):
            over.wait(draw.random() / 4)
            victim = draw.randrange(2)
            bank.kill(victim)
            bank.start(victim)
        for thread in threads:
            thread.join()
        model = dict.fromkeys([*everyone, (0, 0), (0, 1)], bank.HAS) | {(0, 0): 0, (0, 1): 0}
        for request in wanted:  # those without a reply, and all others again
            reply, (_, payer, payee, amount) = bank.pay(request), request
            same(f"payment {request} again", replies.get(request, reply), reply)
            if "paid" in reply:
                model[payer] -= amount + amount // FEE_OF
                model[payee] += amount
                model[0, payer // 1000 - 1] += amount // FEE_OF
        has = {account: bank.ask(account // 1000 - 1, {"balance": account})["has"] for account in everyone}
        has |= {(0, number): bank.ask(number, {"balance": 0})["has"] for number in range(2)}
        same("the balances", model, has)
        owed = [bank.ask(number, {"balance": partition.CLEARING + 1 - number})["has"] for number in range(2)]
        same("what the partitions owe each other, and the money", [0, len(everyone) * bank.HAS], [sum(owed), sum(has.values())])
        for number in range(2):
            same("verify", 0, run("verify", folder / f"{number}")[0])
        early, kinds = len(replies), [len([it for it in wanted if it[1] // 1000 != it[2] // 1000]), len(wanted)]
    return f"{kills} kills; {early} of {kinds[1]} payments were paid or refused at once, {kinds[0]} between partitions"


def figures_of_page(first):
    """The figures of a row of the page, which begins with this."""
    (row,) = re.findall(rf"^\| {first} \| ([\d,]+(?: \| [\d,]+)*) \|$", (PAYMENTS / "README.md").read_text(), re.MULTILINE)
    return [int(figure.replace(",", "")) for figure in row.split(" | ")]


def about(what, wanted, came):
    """Whether figures differ by no more than a tenth."""
    if len(wanted) != len(came) or any(abs(has - must) > must / 10 for must, has in zip(wanted, came)):
        raise Differs(f"{what}: wanted about {wanted}, came {came}")


def hundred_partitions():
    """The simulation of many partitions: the money is as the replies have it, also where servers and clients die; and its figures are those of the page."""
    deadly = Simulation(100, 0.5, 2, 0.02, dies=0.02)
    deadly.run()
    same("where the money is not as the replies have it", {}, deadly.wrong())
    kinds = [sum(kind in it.reply for it in deadly.payments) for kind in ("paid", "refused")]
    same("payments without a reply", len(deadly.payments), sum(kinds))
    if min(*kinds, deadly.deaths) < 10:
        raise Differs(f"only {kinds} payments were paid and refused, and {deadly.deaths} servers died")
    one = [Simulation(1, 0, clients, 0.1, way=25).run()[0] for clients in (1, 8, 64)]
    about("payments a second of one server", figures_of_page("this server"), one)
    two = [Simulation(2, share, 64, 0.05) for share in SHARES]
    about("payments a second of two partitions", figures_of_page("2"), [it.run()[0] for it in two])
    hundred = Simulation(100, SHARES[2], 64, 0.01)
    about("payments a second of a hundred", figures_of_page("100")[2:3], [hundred.run()[0]])
    same("where the money is not as the replies have it", [{}] * 6, [it.wrong() for it in (*two, hundred)])
    for bank in [it.bank for simulation in (deadly, *two, hundred) for it in simulation.partitions]:
        judge(bank.rows(), len(accounts_of(0)) * CENTS_OF_EACH)
    refused = [payment.words for it in (deadly, *two, hundred) for payment in it.payments if "refused" in payment.reply]
    same("refused payments to who is there", [], [it for it in refused if it[2] in accounts_of(partition_of(it[2]))])
    return f"{deadly.deaths} deaths of servers, {kinds[0]} payments, each paid once; {len(hundred.payments)} without deaths"


def over_redis():
    """As over etcd."""
    return failover(Redis)


def over_postgresql():
    """As over etcd."""
    return failover(Postgres)


def forgetful_redis():
    """A Redis that may forget what it has accepted is refused, whether all its configuration is wrong or a part of it."""
    if why := Redis.missing():
        return f"left out: {why}"
    for options in (("--appendonly", "yes"), ("--appendfsync", "always"), ("--appendonly", "yes", "--appendfsync", "no")):
        with scratch() as folder, running(Redis, folder, *options) as journal:
            wanted = "payments: Redis: it must run with appendonly yes and appendfsync always\n"
            came = run("serve", folder / "j", "--journal", journal.address, python=journal.python)
            same(f"a start on Redis with {options}", (1, "", wanted), came)


def forgetful_postgresql():
    """A PostgreSQL without fsync is refused."""
    if why := Postgres.missing():
        return f"left out: {why}"
    with scratch() as folder, running(Postgres, folder, "-c fsync=off") as journal:
        wanted = "payments: PostgreSQL: it must run with fsync on\n"
        same("a start", (1, "", wanted), run("serve", folder / "j", "--journal", journal.address, python=journal.python))


def postgresql_standby():
    """While a synchronous standby is away nothing is acknowledged, and clients wait, until nobody waits for it any more."""
    if why := Postgres.missing():
        return f"left out: {why}"
    with scratch() as folder, running(Postgres, folder) as journal:
        with Server("serve", folder / "j", "--journal", journal.address, python=journal.python, **adjusted(**NEVER)) as server:
            journal.command("alter system set synchronous_standby_names = 'away'")
            for number in range(1, SECONDS):  # PostgreSQL may take a moment to wait for it
                with server.connect() as client:
                    client.settimeout(1)
                    client.sendall(json.dumps(pay(number, 1, 2, 5)).encode() + b"\n")
                    with contextlib.suppress(socket.timeout):
                        client.recv(1)
                        continue
                    journal.command("alter system reset synchronous_standby_names")
                    client.settimeout(SECONDS)
                    reply = json.loads(client.makefile().readline())
                    same("the reply that came then", {"id": own(1, number), "paid": True}, {key: reply[key] for key in ("id", "paid")})
                    return
    raise Differs("a payment was acknowledged, and the standby is away")


# A program that leads a journal in Redis, and writes whether its first batch is safe.
APPENDS = """
import sys
sys.path.insert(0, sys.argv[1])
from urllib.parse import urlsplit
from journal import Away
from redis_journal import RedisJournal
journal = RedisJournal(urlsplit(sys.argv[2]))
try:
    print(journal.lead())
    journal.append(1, b"x")
    print("safe")
except Away as why:
    print(why)
"""


def redis_replicas():
    """Where a replica is asked for, no batch is safe before there is one, and a server waits for it."""
    if why := Redis.missing():
        return f"left out: {why}"
    with scratch() as folder, running(Redis, folder) as journal, contextlib.ExitStack() as stack:
        address = journal.address + "?replicas=1"

        def said():
            words = [journal.python, "-c", APPENDS, PAYMENTS, address.replace("/bank", "/other")]
            return subprocess.run(words, capture_output=True, text=True, timeout=SECONDS, check=False).stdout

        # On a slow machine Redis may be late, and an earlier program may lead still.
        wait_until(lambda: (last := said()) == "True\nRedis: too few replicas have the batch\n" or same("whether it is safe", False, "safe" in last), "too few replicas")
        (folder / "replica").mkdir()
        stack.enter_context(running(Redis, folder / "replica", "--replicaof", "127.0.0.1", str(journal.port)))
        with Server("serve", folder / "j", "--journal", address, python=journal.python, **adjusted(**NEVER)) as server:
            same("a payment", {"paid"}, {"paid"} & set(server.ask(pay(1, 1, 2, 5))[0]))


def sizes():
    """What one copies stays small: at most 1,150 lines of code, without blank lines, comments and docstrings, in files of at most 200 lines."""
    total = 0
    for path in PAYMENTS.glob("*.py"):
        text = path.read_text()
        lines = text.splitlines()
        code = {number for number, line in enumerate(lines, 1) if line.strip() and not line.strip().startswith("#")}
        for it in ast.walk(ast.parse(text)):
            if isinstance(it, (ast.FunctionDef, ast.ClassDef, ast.Module)) and ast.get_docstring(it):
                code -= set(range(it.body[0].lineno, it.body[0].end_lineno + 1))
        if len(lines) > 200:
            raise Differs(f"{path.name} has {len(lines)} lines")
        total += len(code)
    if total > 1_150:
        raise Differs(f"there are {total} lines of code")
    return f"{total} lines of code"


def main():
    numbers = [int(word) for word in sys.argv[1:] if word.isdigit()]
    names = [word for word in sys.argv[1:] if not word.isdigit()]
    rounds, seed = (numbers + [30, 1][len(numbers) :])[:2]

    def crash_test():
        return crashes(rounds, seed)

    def dying_nodes():
        return nodes_die(rounds, seed)

    crash_test.__name__, dying_nodes.__name__ = "crashes", "nodes_die"
    cases = [sizes, replies, page, holds, owing, statements, forgotten, removals, lists, tokens, tls, second_server, between_partitions, hundred_partitions, administration]
    cases += [torn_tails, damaged_tails, damage, newest_file_gone, forged_journal]
    cases += [full_disk, failing_fsync, large_snapshots, pieces, deletions, failed_snapshot, little_space, renewals, huge_pages, begun_snapshots]
    cases += [jumping_clock, other_procedures, bad_procedures]
    cases += [killed_fronts, vanished_clients, leaving_clients, slow_clients, many_lines, greedy_clients, full_fronts, idle_clients]
    cases += [promotion, fenced_over_etcd, fenced_over_redis, fenced_over_postgresql, forks, asked_node, silent_nodes, missing_modules, over_etcd, dying_nodes, ended_while_away, partitions, over_redis, hung_redis, forgetful_redis, redis_replicas, over_postgresql, forgetful_postgresql, hung_postgresql, cut_off_postgresql, postgresql_standby, crash_test]
    return run_cases([case for case in cases if not names or case.__name__ in names], of="payments")


if __name__ == "__main__":
    sys.exit(main())
