#!/usr/bin/env python3
"""Tests failovers of the queue of payments of `examples/payments` by what clients see, and journals that lost batches.

    tests/payments_failover.py crates/sgt/out/sgt [CASE..]

Each client says what it did and saw. `sgt check --model list-append --strict` finds a serial order of that which keeps
real time, or the case fails. The server runs as in tests/payments.py, and beside it etcd, Redis and PostgreSQL, where
the machine has them. The last line counts the cases. With names of cases only those run.
"""

import contextlib
import json
import random
import re
import signal
import subprocess
import sys
import threading
import time

sys.dont_write_bytecode = True
from helpers.books import Books  # noqa: E402
from helpers.cases import Differs, run_cases, same  # noqa: E402
from helpers.link import Link  # noqa: E402
from helpers.machines import Etcd, Postgres, Redis, running, wait_until  # noqa: E402
from payments import (  # noqa: E402
    PAYMENTS, SECONDS, FileJournal, Group, Server, Store, Unusable, adjusted, ask, bank_of, pay, run, scratch, started,
    unseal)
from server import QUICK  # noqa: E402

SGT = sys.argv[1] if len(sys.argv) > 1 else "crates/sgt/out/sgt"
CENTS = 5_000


def judge(books):
    """Whether what primaries replied is serializable in real time; and with what followers replied, serializable."""
    strict, whole = books.texts()
    for text, words in ((whole, ("serializable",)), (strict, ("strictly serializable", "--strict"))):
        command = [SGT, "check", "--model", "list-append", *words[1:]]
        ran = subprocess.run(command, input=text, capture_output=True, text=True, timeout=SECONDS, check=False)
        if ran.returncode or f"\n{words[0]} yes: " not in ran.stdout:
            raise Differs(f"sgt check says {ran.stdout}{ran.stderr}")
    return ran.stdout.splitlines()[0]


class Client:
    """A client with a connection of its own to a server, which asks one thing at a time."""

    def __init__(self, books, process, server):
        self.books, self.process, self.link, self.request = books, process, server.connect(), None

    def ask(self, request):
        """Asks, and does not wait."""
        self.request = request
        self.books.begin(self.process, request)
        self.link.sendall(json.dumps(request).encode() + b"\n")
        return self

    def reply(self):
        """What comes, or None if the server ends without a reply."""
        came = None
        with contextlib.suppress(ConnectionError):
            came = json.loads(self.link.makefile().readline() or "null")
        self.books.end(self.process, self.request, came)
        return came


def linked(journal, node=0, **how):
    """A link to a journal, or to this node of it; and the address of the journal by this link."""
    link = Link(journal.ports[node] if isinstance(journal, Etcd) else journal.port, **how)
    return link, re.sub(r"127\.0\.0\.1:[^/]*", f"127.0.0.1:{link.port}", journal.address)


def old_primary(kind):
    """A primary is cut off after a batch whose reply is lost. It is asked for a balance after another one has paid."""
    if why := kind.missing():
        return f"left out: {why}"
    for _ in range(10):  # on a slow machine the first server may be replaced early
        with contextlib.suppress(Stalled, ConnectionError, FileNotFoundError):
            return cut_off(kind)
    raise Differs("the first server is replaced before it is cut off, each time")


class Stalled(Exception):
    """The machine is so slow that servers changed before they should."""


def cut_off(kind):
    """See `old_primary`. What the old primary replies to the balance in the end, and what `sgt check` says."""
    books = Books(1, CENTS, range(1, 100), in_use=2)
    with scratch() as folder, running(kind, folder) as journal, contextlib.ExitStack() as stack:
        link, address = linked(journal, late=0.002)  # so a thread appends, and the server goes on meanwhile
        stack.enter_context(link)

        def start(name, address, **numbers):
            words = ("serve", folder / name, "--journal", address, "--cents", CENTS, "--accounts", 100)
            return stack.enter_context(started(*words, python=journal.python, **adjusted(PATIENCE=SECONDS, **numbers)))

        def health():
            return ask(folder / "new" / "admin", "health")

        old = start("old", address)
        new = start("new", journal.address, LEASE=SECONDS)
        clients = [Client(books, process, server) for process, server in enumerate((old, old, new, old))]
        account = books.in_use[0]
        for _ in range(3):
            if "paid" not in (clients[0].ask(books.payment()).reply() or {}):
                raise Stalled
        figures = ask(folder / "old" / "admin", "figures")
        same("whether a thread appends", True, figures["append_seconds"] > QUICK * figures["batches"])
        lost = books.payment()
        batch = health()["batch"]
        link.lose_replies()
        clients[1].ask(lost)
        wait_until(lambda: health()["batch"] > batch, "a batch that is safe, and whose reply is lost")
        link.cut()
        wait_until(lambda: health()["leads"], "another server that leads")
        same("a payment at the new primary", True, clients[2].ask(books.payment()).reply().get("paid"))
        clients[3].ask({"balance": account})
        time.sleep(0.5)  # so the old one has it. If it has not, it has nothing to reply wrongly
        link.heal()
        came = clients[3].reply()
        clients[1].reply()
        for request in books.statements():
            clients[2].ask(request).reply()
        return f"the old primary replies {came} in the end; {judge(books)}"


def old_primary_over_etcd():
    """The batch is in etcd, and the next one of both primaries is empty. The old one sees that it is not its own."""
    return old_primary(Etcd)


def old_primary_over_redis():
    """As over etcd."""
    return old_primary(Redis)


def old_primary_over_postgresql():
    """As over etcd."""
    return old_primary(Postgres)


class Servers(Group):
    """Three servers, each with a link of its own to the journal."""

    def __init__(self, journal, folder, stack):
        self.links, self.addresses = zip(*(linked(journal, node) for node in range(3)))
        for link in self.links:
            stack.enter_context(link)
        super().__init__(journal, folder, stack)

    def start(self, number):
        words = ("serve", self.folder / f"{number}", "--journal", self.addresses[number])
        words += ("--cents", CENTS, "--accounts", 3_000)
        how = adjusted(PATIENCE=SECONDS, CUT_AFTER=8_000)
        self.servers[number] = self.stack.enter_context(started(*words, python=self.journal.python, **how))

    def ask(self, draw, request, books):
        """What a primary replies, by who asks any server until one does. What a follower replies is noted."""
        end = time.monotonic() + SECONDS
        while time.monotonic() < end:
            with contextlib.suppress(OSError, ValueError), draw.choice(self.servers).connect() as link:
                link.settimeout(draw.choice((0.5, 2, 8)))  # a patient one waits until a link is whole again
                link.sendall(json.dumps(request).encode() + b"\n")
                reply = json.loads(link.makefile().readline())
                if "error" not in reply and "seconds_old" not in reply:
                    return reply
                books.followers += [(request, reply)] if "error" not in reply else []
            time.sleep(0.02)
        return None


def pays_and_reads(books, process, servers, is_over):
    """A client: of what it asks the half are payments."""
    draw = random.Random(process)
    while not is_over.is_set():
        request = books.payment() if draw.random() < 0.5 else books.reading()
        books.begin(process, request)
        books.end(process, request, servers.ask(draw, request, books))
        time.sleep(0.02)


def is_killed(servers, primary):
    """The primary is killed, and begins anew."""
    servers.servers[primary].process.kill()
    servers.primary(primary)


def is_stopped(servers, primary):
    """The primary is stopped, and wakes when another server leads."""
    servers.servers[primary].signal(signal.SIGSTOP)
    servers.primary(primary)
    servers.servers[primary].signal(signal.SIGCONT)


def loses_link(servers, primary):
    """What the primary appends is safe, and it does not hear of that. Then it is cut off for a time."""
    link = servers.links[primary]
    link.lose_replies()
    time.sleep(0.5)
    link.cut()
    servers.primary(primary)
    time.sleep(2)
    link.heal()


def loses_journal(servers, _):
    """The journal is away for two seconds."""
    servers.journal.away(2)


def histories(kind):
    """Clients pay and read, at any server, while the primary changes in several ways."""
    if why := kind.missing():
        return f"left out: {why}"
    books, is_over = Books(7, CENTS, range(1, 3_000)), threading.Event()
    with scratch() as folder, running(kind, folder) as journal, contextlib.ExitStack() as stack:
        servers = Servers(journal, folder, stack)
        threads = [threading.Thread(target=pays_and_reads, args=(books, it, servers, is_over)) for it in range(6)]
        for thread in threads:
            thread.start()
        try:
            for event in (loses_link, is_killed, is_stopped, loses_link, loses_journal):
                event(servers, servers.primary())
                wanted = books.replies + 60
                wait_until(lambda: servers.primary() + 1 and books.replies > wanted, "replies")  # noqa: B023
        finally:
            is_over.set()
            for thread in threads:
                thread.join()
        draw = random.Random(1)
        for request in books.statements():
            books.begin("last", request)
            books.end("last", request, servers.ask(draw, request, books))
        return f"{judge(books)}; {len(books.followers)} replies of followers"


def history_over_etcd():
    """What primaries reply is serializable in real time, whatever becomes of them."""
    return histories(Etcd)


def history_over_redis():
    """As over etcd."""
    return histories(Redis)


def history_over_postgresql():
    """As over etcd."""
    return histories(Postgres)


# A program that leads a journal in Redis, each of whose connections is gone after what was asked by it. It appends a
# batch until the replica has it, and another one when it is told to.
WAITS = """
import sys
sys.path.insert(0, sys.argv[1])
import journal
journal.LEASE = 600
from urllib.parse import urlsplit
from journal import Away
from redis_journal import RedisJournal
journal = RedisJournal(urlsplit(sys.argv[2]))
pool = journal._redis.connection_pool
release = pool.release
def drop(connection):
    connection.disconnect()
    release(connection)
pool.release = drop
def append(number):
    try:
        if journal.lead():
            journal.append(number, b"x")
            return "safe"
    except Away as why:
        return str(why)
while append(1) != "safe":
    pass
print("leads", flush=True)
sys.stdin.readline()
print(append(2))
"""


def broken_links_to_redis():
    """A batch waits for its replica by its own connection. By another one Redis waits for what came by that one."""
    if why := Redis.missing():
        return f"left out: {why}"
    with scratch() as folder, running(Redis, folder) as journal:
        (folder / "replica").mkdir()
        with running(Redis, folder / "replica", "--replicaof", "127.0.0.1", str(journal.port)) as replica:
            words = [journal.python, "-c", WAITS, PAYMENTS, journal.address + "?replicas=1"]
            with subprocess.Popen(words, stdin=subprocess.PIPE, stdout=subprocess.PIPE, text=True) as program:
                same("the program", "leads\n", program.stdout.readline())
                with replica.silent():
                    said = program.communicate("go on\n", timeout=SECONDS)[0]
    if said == "safe\n" or not said.startswith("Redis: "):
        raise Differs(f"a batch that no replica has is said to be {said}")
    return said.strip()


def lines_of(data):
    """Where each line of a file of batches begins, and where the last one ends."""
    return [found.start() + 1 for found in re.finditer(rb"\n(?=[^\n])", data)] + [len(data)]


def acknowledged(folder, count):
    """A journal of so many acknowledged payments, each in a batch of its own. Its file, and its bytes."""
    with Server("serve", folder, "--accounts", 3) as server, server.connect() as client:
        replies = client.makefile()
        for number in range(1, count + 1):
            client.sendall(json.dumps(pay(number, 1, 2, 1)).encode() + b"\n")
            same("a payment", True, json.loads(replies.readline()).get("paid"))
        server.process.kill()
    (calls,) = folder.glob("*.batches")
    return calls, calls.read_bytes()


def refusal(*words):
    """What a start says that is refused, or that it serves."""
    try:
        with Server(*words):
            return "it serves"
    except Differs as why:
        return str(why).partition("the server did not start: ")[2]


def lost_batches():
    """A journal that lost acknowledged batches is refused, and says which: cut at each byte, or garbled after it."""
    with scratch() as folder:
        calls, data = acknowledged(folder / "j", 4)
        begins = lines_of(data)
        last, count = len(begins) - 1, 0
        for size in (0, 1, 2, begins[1] - 2, *range(begins[1] - 1, len(data))):
            for left in (data[:size], data[:size] + bytes(len(data) - size)):
                calls.write_bytes(left)
                count += 1
                said = refused(folder / "j")
                why = re.fullmatch(r"(.*): the line at byte (\d+) is .*; it had batch (\d+), which was safe(.*)", said)
                if not why:
                    raise Differs(f"a journal of which {size} bytes are left says {said}")
                at, lost = int(why[2]), int(why[3])
                more = f", as was all up to batch {last}" if lost < last else ""
                same("the file, and what was safe", (str(calls), more), why.group(1, 4))
                begin, end = begins[lost - 1] - 1, begins[lost]
                if not (begin <= at <= begin + 1 and begin <= size < end):
                    raise Differs(f"with {size} bytes batch {lost} at byte {at} is named, and it was at {begin}")
                same("the file", left, calls.read_bytes())
        for word in ("verify", "show"):
            same(word, (1, f"payments: {refused(folder / 'j')}\n"), run(word, folder / "j")[::2])
        same("a start", f"payments: {refused(folder / 'j')}\n", refusal("serve", folder / "j"))
        calls.write_bytes(data)
        with Server("serve", folder / "j") as server:
            same("what is said of the whole journal", [], server.said)
            same("the payments", 5, server.seq)  # and the call of the day
    return f"{count} journals"


def refused(folder):
    """Why a journal is refused, or that it is not."""
    try:
        FileJournal(folder).lead()
        return "it is not refused"
    except Unusable as why:
        return str(why)


BEGINNING = "the beginning of a batch, not acknowledged unless the file was shortened\n"


def torn_batch():
    """The beginning of a batch that was never acknowledged is cut off, and the start says so. What was is there."""
    with scratch() as folder:
        calls, data = acknowledged(folder / "j", 4)
        begin, last = lines_of(data)[-2], len(lines_of(data)) - 1
        torn = data[begin:-9]  # as a next one begins
        safe = (folder / "j" / "safe").read_bytes()
        calls.write_bytes(data + b"\n" + torn + data[-9:])
        same("a start that has read a batch that may be in memory alone", "it is not refused", refused(folder / "j"))
        same("the mark", safe, (folder / "j" / "safe").read_bytes())
        calls.write_bytes(data + b"\n" + torn)
        with Server("serve", folder / "j") as server:
            same("what is said", [f"cut off {len(torn)} bytes after batch {last}: {BEGINNING}"], server.said)
            same("the last call", 5, server.seq)
            again = pay(4, 1, 2, 1)
            wanted = {"id": again["id"], "paid": True, "from_has": 99_996, "to_has": 100_004}
            same("a payment again", [wanted], server.ask(again))


def without_mark():
    """Where the mark is gone, damaged or older, a start goes on with what is there, and says no more than it knows."""
    with scratch() as folder:
        calls, data = acknowledged(folder / "j", 4)
        begins, mark = lines_of(data), folder / "j" / "safe"
        safe, last = mark.read_bytes(), data[begins[-3] : begins[-2]].strip()  # what is left last
        _, first, its, _ = unseal(last)
        for text in (None, b"", safe[:-1] + b"7", safe[:9]):
            for left in (data[: begins[-2]], data[:-5]):
                calls.write_bytes(left)
                mark.unlink()
                if text is not None:
                    mark.write_bytes(text)
                with Server("serve", folder / "j") as server:
                    same("the last call", first - 1 + len(its), server.seq)
                    cut = len(left) - begins[-2]
                    said = [f"cut off {cut} bytes after batch {len(begins) - 2}: {BEGINNING}"] if cut else []
                    same("what is said", said, server.said)


def lost_after_snapshot():
    """What a snapshot has was safe: a journal that ends before it is refused, also without a mark, and left alone."""
    with scratch() as folder:
        calls, data = acknowledged(folder / "j", 4)
        begins, journal = lines_of(data), folder / "j"
        bank = bank_of(journal, FileJournal(journal))
        same("the snapshot", "", Store(journal).save(len(begins) - 1, bank))
        for left in (data[: begins[-2]], data[: begins[1]], b""):
            (journal / "safe").unlink(missing_ok=True)
            calls.write_bytes(left)
            wanted = rf"payments: {re.escape(str(calls))}: the line at byte \d+ is .*batch {len(begins) - 1}\b.*\n"
            if not re.fullmatch(wanted, error := refusal("serve", journal)):
                raise Differs(f"a start with {len(left)} bytes says {error}")
            same("the file", left, calls.read_bytes())


def missing_parents():
    """A start whose folder, or whose socket of administration, is to be made in no folder names what is not there."""
    with scratch() as folder:
        none = folder / "none"
        wanted = f"payments: {none / 'j'}: there is no folder {none} to make it in\n"
        same("a folder", (1, "", wanted), run("serve", none / "j"))
        (folder / "file").write_text("")
        wanted = f"payments: {folder / 'file' / 'j'}: there is no folder {folder / 'file'} to make it in\n"
        same("a folder in a file", (1, "", wanted), run("serve", folder / "file" / "j"))
        sockets = {none / "admin": "no such file or directory", folder / "file": "address already in use"}
        for path, why in {**sockets, folder / ("x" * 200): "af_unix path too long"}.items():
            wanted = f"payments: {path}: no socket can be made here: {why}\n"
            same("a socket", wanted, refusal("serve", folder / "j", "--admin", path))


def main():
    names = sys.argv[2:]
    cases = [lost_batches, torn_batch, without_mark, lost_after_snapshot, missing_parents]
    cases += [old_primary_over_etcd, old_primary_over_redis, old_primary_over_postgresql, broken_links_to_redis]
    cases += [history_over_etcd, history_over_redis, history_over_postgresql]
    return run_cases([case for case in cases if not names or case.__name__ in names], of="payments")


if __name__ == "__main__":
    sys.exit(main())
