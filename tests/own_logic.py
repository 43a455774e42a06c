#!/usr/bin/env python3
"""Calls the library with logic of one's own: transactions whose caller decides the accesses, from C, C++, Rust and Python.

    tests/own_logic.py

It takes the library that `bindings/build` has made. Each case is reported, the last line counts them; where something is missing on
this machine, what was left out is reported.
"""

import asyncio
import concurrent.futures
import copy
import functools
import os
import pathlib
import pickle
import random
import re
import shutil
import signal
import sys
import tempfile
import threading
import time

sys.dont_write_bytecode = True
from helpers.cases import C_SOURCES, TESTS, Differs, same, run_cases  # noqa: E402
from helpers.library import (  # noqa: E402
    BINDINGS,
    C_FLAGS,
    CPP_FLAGS,
    OUT,
    SANITIZERS,
    SHARED,
    THREAD_SANITIZER,
    built,
    can,
    compiled,
    refused,
    run,
)
from helpers.package import LONG, Interrupted, elsewhere, interrupted, interrupts, module, refusal, what  # noqa: E402

THREADS, CALLS, SANITIZED_CALLS = 16, 10_000, 1_000
TABLE, RECORDS = 2, (101, 102, 103)
STORE = TESTS.parent / "examples" / "store"
DOCTORS = "Bo, off call after Ada: nobody else is on call\nsomebody is on call in each of 5 wards, and the index has all rows\n"

# C


def all_held(reported):
    """How many checks a program made, all of which held."""
    same("what is told", f"{reported.split()[0]} checks, 0 failed\n", reported)


def reports_the_status_of_each_call(scratch):
    all_held(run([built(scratch, "cc", C_FLAGS, C_SOURCES / "shared_own.c")]))


def transacts(program, calls, seed, wanted=()):
    """Runs the threads on three records: what they count. The program compares what they did with a plain map."""
    counts = dict(line.rsplit(" ", 1) for line in run([program, THREADS, calls, seed]).splitlines())
    same("what did not come", [], [name for name in wanted if counts[name] == "0"])
    return ", ".join(f"{name} {count}" for name, count in counts.items())


def threads_share_three_records(scratch):
    program = built(scratch, "cc", C_FLAGS, C_SOURCES / "shared_transact.c")
    return transacts(program, CALLS, 1, ("committed", "quit", "tried again", "alone"))


def sanitized(scratch, flags):
    """The same under a sanitizer, which also sees the code of the shared engine."""
    compiler = next((name for name in ("cc", "clang", "clang-14") if shutil.which(name) and can(scratch, name, flags)), None)
    if not compiler:
        return f"left out: no compiler here has {flags[1]}"
    all_held(run([built(scratch, compiler, C_FLAGS, C_SOURCES / "shared_own.c", flags, [SHARED])]))
    reported = transacts(built(scratch, compiler, C_FLAGS, C_SOURCES / "shared_transact.c", flags, [SHARED]), SANITIZED_CALLS, 2)
    if compiler == "cc" and shutil.which("c++"):
        shared = compiled(scratch, "cc", C_FLAGS, SHARED, flags)
        all_held(run([built(scratch, "c++", CPP_FLAGS, C_SOURCES / "shared_own.cpp", flags, [shared])]))
    return f"{compiler}: {reported}"


def threads_do_not_race(scratch):
    return sanitized(scratch, THREAD_SANITIZER)


def threads_stay_within_their_memory(scratch):
    return sanitized(scratch, SANITIZERS)


# C++ and Rust


def commits_quits_and_throws_in_cpp(scratch):
    if not shutil.which("c++"):
        return "left out: no c++ here"
    all_held(run([built(scratch, "c++", CPP_FLAGS, C_SOURCES / "shared_own.cpp")]))
    return None


def refuses_bodies_that_replace_their_transaction_in_cpp(_):
    """The compiler refuses each, and says why; it accepts the program without them."""
    if not shutil.which("c++"):
        return "left out: no c++ here"
    source = C_SOURCES / "bodies_refused.cpp"
    run(["c++", *CPP_FLAGS, "-fsyntax-only", source])
    bodies = re.findall(r"^#elif BODY == (\d+) // (.+)$", source.read_text(), re.M)
    for body, wanted in bodies:
        came = refused(["c++", *CPP_FLAGS, "-fsyntax-only", f"-DBODY={body}", source])
        same(f"why body {body} is refused", wanted, wanted if wanted in came else came)
    return f"{len(bodies)} bodies"


def refuses_bodies_that_replace_their_transaction_in_rust(scratch):
    if not shutil.which("rustc"):
        return "left out: no rustc here"
    source, words = C_SOURCES / "bodies_refused.rs", rust_words(scratch)
    words += ["--crate-type", "lib", "--emit", "metadata", "--out-dir", scratch, "-A", "unexpected_cfgs"]
    run([*words, "--cfg", 'body="none"', source])
    bodies = re.findall(r'^ +#\[cfg\(body = "(.+)"\)\] // (.+)$', source.read_text(), re.M)
    for body, wanted in bodies:
        came = refused([*words, "--cfg", f'body="{body}"', source])
        is_so = f"error[{wanted}]" in came or f"error: {wanted}" in came
        same(f"why a body that {body} is refused", wanted, wanted if is_so else came)
    return f"{len(bodies)} bodies"


def rust_words(scratch):
    """Builds the crates of the library, and returns the words by which programs are built with them."""
    rust, find = BINDINGS / "rust", ["-L", f"native={OUT}", "-L", scratch]
    words = ["rustc", "--edition", "2021", "-O", "-D", "warnings"]
    if not (scratch / "libsgt.rlib").exists():
        lib = [*words, "--crate-type", "lib", "--out-dir", scratch]
        run([*lib, "--crate-name", "sgt_sys", *find, "-l", "static=sgt", rust / "sgt-sys" / "src" / "lib.rs"])
        run([*lib, "--crate-name", "sgt", *find, "--extern", "sgt_sys", rust / "src" / "lib.rs"])
    return [*words, *find, "--extern", "sgt"]


def rust_program(scratch, source):
    """Builds a program in Rust with the crates of the library."""
    program = scratch / f"{source.stem}_rust"
    run([*rust_words(scratch), "-o", program, source])
    return program


def commits_quits_and_panics_in_rust(scratch):
    if not shutil.which("rustc"):
        return "left out: no rustc here"
    same("what is told", "all held\n", run([rust_program(scratch, C_SOURCES / "shared_own.rs")]))
    return None


def keeps_a_store_of_ones_own(scratch):
    """The example, in Python and in Rust, some times."""
    env = dict(os.environ, PYTHONPATH=str(BINDINGS / "python"), PYTHONDONTWRITEBYTECODE="1")
    for _ in range(3):
        same("what it tells in Python", DOCTORS, run([sys.executable, "-W", "error", STORE / "doctors.py"], env=env))
    if not shutil.which("rustc"):
        return "but for that in Rust: no rustc here"
    program = rust_program(scratch, STORE / "doctors.rs")
    for _ in range(3):
        same("what it tells in Rust", DOCTORS, run([program]))
    return None


# Python


def bank_of(sgt, **options):
    """An engine with the values 10, 20, 30 in three records. Four may be live."""
    rows = [(TABLE, number, 10 * place) for place, number in enumerate(RECORDS, 1)]
    return sgt.SharedEngine(limits=(4, 1_000_000, 1), rows=rows, **options)


def values(bank):
    return {row.number: row.value for row in bank.rows(TABLE)}


def reads_writes_and_removes_in_python(_):
    sgt = module()
    with bank_of(sgt) as bank:

        def body(t):
            same("what is read", (10, None), (t.read(TABLE, 101), t.read(TABLE, 109)))
            t.write(TABLE, 101, 11)
            t.remove(TABLE, 102)
            same("what is read then", (11, None), (t.read(TABLE, 101), t.read(TABLE, 102)))
            return t.ticket

        ticket = bank.transact(body)
        same("the records", {101: 11, 103: 30}, values(bank))
        read, write, remove = sgt.Asked.READ, sgt.Asked.WRITE, sgt.Asked.REMOVE
        wanted = [(read, 101, 10), (read, 109, None), (write, 101, 11), (remove, 102, None), (read, 101, 11), (read, 102, None)]
        same("the accesses", [sgt.Access(kind, TABLE, number, value) for kind, number, value in wanted], bank.accesses(ticket))
        with bank.transaction() as t:
            t.write(TABLE, 101, t.read(TABLE, 101) + 1)
        same("the block's end", 12, bank.get(TABLE, 101))
        same("a value that an exception undoes", "no", what(KeyError, lambda: quits_by_exception(bank), "no"))
        same("its record", 12, bank.get(TABLE, 101))
        same("who is live", [], bank.live())
        bank.cut()
        same("the third of the limits", 1, bank.limits()[2])
        same("the accesses of another part", "stale", what(sgt.Stale, lambda: bank.accesses(ticket), "stale"))


def quits_by_exception(bank):
    with bank.transaction() as t:
        t.write(TABLE, 101, 99)
        raise KeyError


def answers_single_calls_in_python(_):
    """The calls of the engine for one thread, and its entries and calls."""
    sgt = module()
    Asked, Event, Kind = sgt.Asked, sgt.Event, sgt.Kind
    with sgt.Engine(limits=(4, 100, 1), rows=[(TABLE, 101, 10)]) as engine:
        same("the limits", (4, 100, 1), engine.limits())
        tid, other = engine.begin().tid, engine.begin().tid
        same("who is live", [tid, other], engine.live())
        same("an abort", Kind.ABORTED, engine.quit(other).kind)
        same("who is live then", [tid], engine.live())
        same("a read", (Kind.LOOKED, 101, 10), (engine.read(tid, TABLE, 101)[0], 101, engine.read(tid, TABLE, 101).value))
        same("a write", (Kind.WROTE, 5), (engine.write(tid, TABLE, 102, 5).kind, engine.get(TABLE, 102) or 5))
        removed = engine.remove(tid, TABLE, 101)
        same("a removal", (Kind.WROTE, None), (removed.kind, removed.value))
        same("a value out of range", Kind.BAD_ARGS, engine.write(tid, TABLE, 101, sgt.MOST + 1).kind)
        for call in (lambda: engine.read(tid, 8, 1), lambda: engine.remove(tid, 0, sgt.MOST + 1), lambda: engine.write(-1, 0, 1, 1)):
            same("a record out of range", "refused", refusal(call))
        same("the accesses", [Asked.READ, Asked.READ, Asked.WRITE, Asked.REMOVE], [access.kind for access in engine.accesses(tid)])
        same("the commit", Kind.COMMITTED, engine.commit(tid).kind)
        same("the rows", [(TABLE, 102, 5)], engine.rows())
        same("an entry", Event(Asked.WRITE, tid, table=TABLE, number=102, value=5), engine.entry(5)[0])
        same("another", Event(Asked.REMOVE, tid, table=TABLE, number=101), engine.entry(6)[0])
        same("the call", [sgt.Call(tid, 65535, (), (), None, 4)], engine.calls()[0])


def says_why_in_python(_):
    """Each error of a transaction whose caller decides."""
    sgt = module()
    with bank_of(sgt) as bank:
        writer, reader = bank.transaction(), bank.transaction()
        writer.write(TABLE, 101, 11)
        same("an uncommitted value", 11, reader.read(TABLE, 101))
        same("a commit that waits for its own thread", "self", what(sgt.SelfWait, reader.commit, "self"))
        reader = bank.transaction()
        same("an uncommitted value", 11, reader.read(TABLE, 101))
        same("a commit that waits", "timed out", what(sgt.TimedOut, lambda: reader.commit(0.01), "timed out"))
        same("who is live", [writer.ticket], [live.ticket for live in bank.live()])
        reader = bank.transaction()
        reader.read(TABLE, 101)
        writer.quit()
        removal = lambda: reader.remove(TABLE, 101)  # noqa: E731
        for call in (lambda: reader.read(TABLE, 101), lambda: reader.write(TABLE, 101, 1), removal, reader.commit):
            why = caught(sgt.Aborted, call)
            same("why", (True, sgt.Kind.OVER, sgt.Cause.FALL), (why.is_conflict, why.reply.kind, why.reply.cause))
        quit_by_another = bank.transaction()
        bank.quit(quit_by_another.ticket)
        why = caught(sgt.Aborted, quit_by_another.commit)
        same("why", (False, sgt.Cause.QUIT), (why.is_conflict, why.reply.cause))
        for call in (lambda t: t.read(8, 1), lambda t: t.write(0, 1, sgt.MOST + 1), lambda t: t.remove(0, sgt.LEAST - 1)):
            same("a number out of range", "bad", what(sgt.BadCall, lambda: bank.transact(call), "bad"))
        same("who is live", [], bank.live())
        with_quit = bank.transaction()
        with with_quit as t:
            t.quit()
    same("a closed engine", "closed", what(sgt.Closed, lambda: bank.transact(lambda t: None), "closed"))
    with sgt.SharedEngine(limits=(4, 1, 1)) as bank:
        bank.transact(lambda t: t.write(0, 1, 1))
        same("no start is left", sgt.Kind.SPENT, caught(sgt.NotStarted, lambda: bank.transact(lambda t: None)).reply.kind)


def caught(error, call):
    try:
        call()
    except error as why:
        return why
    raise Differs(f"no {error.__name__}")


def reports_a_use_after_the_end_in_python(_):
    """A body must not commit its transaction. After a commit or an abort, each access says that the transaction has ended."""
    sgt = module()
    with bank_of(sgt) as bank:

        def commits(t):
            t.write(TABLE, 101, 9)
            t.commit()
            t.write(TABLE, 101, 10)

        same("what a body is told", True, "must not commit" in str(caught(sgt.Misuse, lambda: bank.transact(commits))))
        same("that nothing is in the database", ({101: 10, 102: 20, 103: 30}, []), (values(bank), bank.live()))

        def quits(t):
            t.write(TABLE, 101, 9)
            t.quit()
            t.write(TABLE, 101, 10)

        ended = "sgt: the transaction has ended"
        same("what it is told after a quit", ended, str(caught(sgt.Misuse, lambda: bank.transact(quits))))
        same("a quit alone", sgt.Cause.QUIT, caught(sgt.Aborted, lambda: bank.transact(lambda t: t.quit())).reply.cause)
        for ends in (lambda t: t.commit(), lambda t: t.quit()):
            t = bank.transaction()
            ends(t)
            for call in (lambda: t.read(TABLE, 101), lambda: t.write(TABLE, 101, 10), lambda: t.remove(TABLE, 101)):
                same("what it is told after the end", ended, str(caught(sgt.Misuse, call)))
        same("that a block keeps what it committed", ended, str(caught(sgt.Misuse, lambda: goes_on_after_its_commit(bank))))
        same("the records", ({101: 9, 102: 20, 103: 30}, []), (values(bank), bank.live()))


def goes_on_after_its_commit(bank):
    with bank.transaction() as t:
        t.write(TABLE, 101, 9)
        t.commit()
        t.write(TABLE, 101, 10)


class Awaited:
    """What can be awaited, and is of no type of the interpreter."""

    def __await__(self):
        return iter(())


class Later:
    """A callable whose call is async."""

    async def __call__(self, t):
        t.write(TABLE, 101, 9)


def refuses_bodies_that_are_not_run_in_python(_):
    """A body that is async or a generator would commit before it has run, and one that returns a future maybe, too."""
    sgt = module()

    async def later(t):
        t.write(TABLE, 101, 9)

    def one_by_one(t):
        yield t.write(TABLE, 101, 9)

    async def both(t):
        yield t.write(TABLE, 101, 9)

    def returns(result):
        return lambda t: (t.write(TABLE, 101, 9), result)[1]

    loop, heard = asyncio.new_event_loop(), []
    task = loop.create_task(asyncio.sleep(0))
    bodies = [later, one_by_one, both, Later(), functools.partial(later), lambda t: later(t)]
    bodies += [lambda t: (t.read(TABLE, it) for it in RECORDS)]
    bodies += [returns(result) for result in (loop.create_future(), task, Awaited(), concurrent.futures.Future())]
    with bank_of(sgt, ended=lambda ended: heard.append(ended)) as bank:
        for body in bodies:
            same("what is told", True, "must not be async" in str(caught(TypeError, lambda body=body: bank.transact(body))))
        same("the records", ({101: 10, 102: 20, 103: 30}, [], []), (values(bank), bank.live(), heard))
        awaits = lambda t: loop.run_until_complete(asyncio.sleep(0, t.read(TABLE, 101)))  # noqa: E731
        same("a body that awaits meanwhile", 10, bank.transact(awaits))
    loop.close()


def refuses_copies_of_transactions_in_python(_):
    """A copy could be committed where the transaction must not be, or abort it at its own end."""
    sgt = module()
    with sgt.SharedEngine(limits=(4, 1_000_000, 1), procedures=[[0, [["put", TABLE, 101, 7]]]]) as bank:

        def body(t):
            t.write(TABLE, 102, 20)
            refuses_copies(t)

        bank.transact(body)
        with bank.transaction() as own:
            own.write(TABLE, 103, 30)
            refuses_copies(own)
        with bank.transaction(5) as stepped:
            refuses_copies(stepped)
            while stepped.step().kind is not sgt.Kind.ENDED:
                pass
            stepped.commit()
        same("what was committed all the same", {101: 7, 102: 20, 103: 30}, values(bank))


def refuses_copies(one):
    for how, words in ((copy.copy, "copied"), (copy.deepcopy, "copied"), (pickle.dumps, "pickled")):
        same("what is told", f"sgt: a transaction can't be {words}", str(caught(TypeError, lambda how=how: how(one))))


FOR_EVER = (None, float("inf"), 1e300, 10**400)
NO_TIMEOUTS = (-1, -0.001, float("-inf"), float("nan"))


def waits_for_ever_in_python(_):
    """A timeout of infinity, or of centuries, is none: a call that would wait for its own thread says so. A negative
    one is refused."""
    sgt = module()
    for timeout in FOR_EVER:
        with bank_of(sgt, keeps_ended=True, cut_wait=0 if timeout is None else timeout) as bank:
            same("a function", 10, bank.transact(lambda t: t.read(TABLE, 101), timeout=timeout))
            same("what is drained", 1, len(bank.drain(timeout=timeout)))
            bank.cut(timeout)
            writer, reader = bank.transaction(timeout=timeout), bank.transaction()
            writer.write(TABLE, 101, 11)
            same("what was read", 11, reader.read(TABLE, 101))
            reads = lambda: bank.transact(lambda t: t.read(TABLE, 101), timeout=timeout)  # noqa: E731
            for call in (lambda: bank.cut(timeout), reads):
                same("a call that waits for its own thread", "self", what(sgt.SelfWait, call, "self"))
            same("a commit", "self", what(sgt.SelfWait, lambda: reader.commit(timeout), "self"))
    heard = []
    with bank_of(sgt, keeps_ended=True, ended=heard.append) as bank:
        threading.Timer(0.05, lambda: bank.transact(lambda t: t.write(TABLE, 101, 1))).start()
        same("what is waited for", 1, len(bank.drain(timeout=float("inf"))))
        refuses_timeouts(sgt, bank)
    same("how many were committed", 1, len(heard))


def refuses_timeouts(sgt, bank):
    """Each call with a timeout refuses what is no time, before it does anything."""
    with bank.transaction() as own:
        calls = [
            lambda timeout: bank.run(0, 1, timeout=timeout),
            lambda timeout: bank.transact(lambda t: t.write(TABLE, 101, 9), timeout=timeout),
            lambda timeout: bank.transaction(timeout=timeout),
            lambda timeout: bank.transaction(0, 1, timeout=timeout),
            lambda timeout: own.commit(timeout),
            bank.cut,
            lambda timeout: bank.drain(timeout=timeout),
            lambda timeout: bank_of(sgt, cut_wait=timeout),
        ]
        for timeout in NO_TIMEOUTS:
            for call in calls:
                why = caught(ValueError, lambda call=call, timeout=timeout: call(timeout))
                same("what is told", True, f"that is not negative: {timeout}" in str(why))
        same("who is live", [own.ticket], [live.ticket for live in bank.live()])
        own.quit()
    same("what was drained", [], bank.drain(timeout=0))


def keeps_the_exception_of_a_block_in_python(_):
    """An exception leaves the engine's block while a thread waits in a call: it is raised, and the engine stays open."""
    sgt = module()
    bank = bank_of(sgt)
    writer = bank.transaction()
    writer.write(TABLE, 101, 11)
    reported = []
    worker = threading.Thread(target=lambda: reported.append(bank.transact(lambda t: t.read(TABLE, 101))))
    worker.start()
    while not any(live.waits for live in bank.live()):
        time.sleep(0.001)
    why = caught(KeyboardInterrupt, lambda: leaves(bank, KeyboardInterrupt()))
    stays = "sgt: another thread waits in a call, or is in a hook, so the engine stays open"
    if sys.version_info >= (3, 11):
        same("its note", [stays], why.__notes__)
    same("the end of a block that raises nothing", stays, str(caught(sgt.Busy, lambda: leaves(bank))))
    same("the engine", 10, bank.get(TABLE, 101))
    writer.quit()
    worker.join()
    same("what the thread read", [10], reported)
    same("an exception when nobody waits", "raised", what(KeyError, lambda: leaves(bank, KeyError()), "raised"))
    same("the engine", "closed", what(sgt.Closed, lambda: bank.get(TABLE, 101), "closed"))


def leaves(bank, why=None):
    with bank:
        if why:
            raise why


def keeps_a_journal_of_ones_own_in_python(_):
    """What the bodies return, put together with the calls that are drained, gives the database, though the history is cut meanwhile."""
    sgt = module()
    wrote, journal = {}, []
    with bank_of(sgt, keeps_ended=True, cut_after=1) as bank:

        def body(t, number, value):
            t.write(TABLE, number, t.read(TABLE, number) + value)
            return t.ticket, [(number, t.read(TABLE, number))]

        for value in range(1, 21):
            ticket, rows = bank.transact(lambda t, value=value: body(t, RECORDS[value % 3], value))
            wrote[ticket] = rows
            same("the accesses of a part that was cut", "stale", what(sgt.Stale, lambda ticket=ticket: bank.accesses(ticket), "stale"))
        journal = bank.drain()
        same("the procedures", {sgt.EMPTY_PROCEDURE}, {ended.call.procedure for ended in journal})
        same("the order", list(range(20)), [ended.sequence for ended in journal])
        same("the records", values(bank), dict(row for ended in journal for row in wrote[ended.ticket]))


def tries_again_in_python(_):
    """A body is run again after a cycle and after a cascading abort, also if it raises something of what was undone."""
    sgt = module()
    with bank_of(sgt) as bank:
        for ends in ("returns", "raises", "ignores"):
            tries = []

            def body(t, ends=ends, tries=tries):
                tries.append(t.tries)
                other = bank.transaction() if len(tries) < 4 else None
                if other:
                    other.write(TABLE, 101, 99)
                value = t.read(TABLE, 101)
                if other:
                    other.quit()
                if other and ends == "raises":
                    raise ValueError(value)
                if not (other and ends == "ignores"):
                    t.write(TABLE, 102, value)
                return value

            same(f"the result if it {ends}", (10, [1, 2, 3, 4]), (bank.transact(body), tries))
        same("the records", {101: 10, 102: 10, 103: 30}, values(bank))
        same("who is live", [], bank.live())


def runs_alone_at_last_in_python(_):
    sgt = module()
    with bank_of(sgt) as bank:
        tries, begun = [], []

        def body(t):
            tries.append(t.tries)
            t.write(TABLE, 101, len(tries))
            if len(tries) == 4:
                late = threading.Thread(target=lambda: begun.append(bank.transaction().quit()))
                late.start()
                late.join(0.1)
                same("that another start waits", ([], 1), (begun, len(bank.live())))
                return late
            with bank.transaction() as other:
                other.write(TABLE, 102, 1)
                other.read(TABLE, 101)
                caught(sgt.Aborted, lambda: t.read(TABLE, 102))
                other.quit()
            return None

        bank.transact(body, tries=3).join()
        same("the tries", [1, 2, 3, 4], tries)
        same("that it waited no longer", [None], begun)
        same("the deadline of a try that waits to be alone", "timed out", times_out_alone(sgt, bank))


def times_out_alone(sgt, bank):
    """A try that is to be alone at once, while another thread has something live."""
    first = elsewhere(bank.transaction)
    reported = what(sgt.TimedOut, lambda: bank.transact(lambda t: None, timeout=0.01, tries=0), "timed out")
    first.quit()
    same("the next one", 10, bank.transact(lambda t: t.read(TABLE, 101) and 10, tries=0))
    return reported


def is_called_for_commits_in_python(_):
    """The hook is called for each commit, may not call the engine, and what it raises is raised by the call."""
    sgt = module()
    heard = []

    def hook(ended):
        heard.append(ended)
        same("a call in the hook", "misuse", what(sgt.Misuse, lambda: bank.transact(lambda t: None), "misuse"))
        if len(heard) == 2:
            raise ZeroDivisionError

    with bank_of(sgt, ended=hook) as bank:
        ticket = bank.transact(lambda t: (t.write(TABLE, 101, 1), t.ticket)[1])
        same("what the hook was told", (ticket, 1, sgt.EMPTY_PROCEDURE), (heard[0].ticket, heard[0].call.accesses, heard[0].call.procedure))
        same("what the hook raised", "raised", what(ZeroDivisionError, lambda: bank.transact(lambda t: t.write(TABLE, 101, 2)), "raised"))
        same("the record", 2, bank.get(TABLE, 101))


class Disk:
    """A hook before a cut, which raises while the disk is full, and notes each of its calls."""

    def __init__(self, is_full=True):
        self.is_full, self.asked = is_full, 0

    def __call__(self, engine, part):
        self.asked += 1
        if self.is_full:
            raise OSError("full disk")


def makes_four_entries(t):
    """So many that a cut is due where nobody is live any more, if one is due after four."""
    for value in range(4):
        t.write(TABLE, 101, value)


def makes_four_entries_and_fails(t):
    makes_four_entries(t)
    raise KeyError


def drops_one(bank):
    makes_four_entries(bank.transaction())


def quits_one(bank):
    t = bank.transaction()
    makes_four_entries(t)
    t.quit()


def leaves_a_block(bank):
    with bank.transaction() as t:
        makes_four_entries_and_fails(t)


def raises_nothing_of_a_hook_where_it_aborts_in_python(_):
    """An abort on the way out calls no hook: the exception of the body is raised, and a later call makes the cut that
    is due."""
    sgt, disk = module(), Disk()
    fails = lambda bank: bank.transact(makes_four_entries_and_fails)  # noqa: E731
    ways = [(fails, KeyError), (leaves_a_block, KeyError), (drops_one, None), (quits_one, None)]
    with bank_of(sgt, cutting=disk, cut_after=4, keeps_ended=True) as bank:
        for number, (way, error) in enumerate(ways):
            same("how it ends", "raised" if error else None, what(error or (), lambda way=way: way(bank), "raised"))
            same("that no hook was called", number, disk.asked)
            same("what is drained meanwhile", ([], number), (bank.drain(timeout=0), disk.asked))
            same("a later call", "full disk", what(OSError, lambda: bank.get(TABLE, 101), "full disk"))
            same("the next one", (10, number + 1), (bank.get(TABLE, 101), disk.asked))
        disk.is_full = False
        bank.cut()
        same("who is live, and how often the hook was asked", ([], len(ways) + 1), (bank.live(), disk.asked))


def drains_all_whatever_a_hook_raises_in_python(_):
    """What is stored is drained once, though the hook before a cut raises in each call that may cut."""
    sgt, disk, drained = module(), Disk(), []
    with bank_of(sgt, cutting=disk, cut_after=1, keeps_ended=True) as bank:
        for value in range(8):
            writes = lambda t, value=value: t.write(TABLE, 101, value)  # noqa: E731
            same("a function", "full disk", str(caught(OSError, lambda writes=writes: bank.transact(writes))))
            same("that it was carried out", value, bank.get(TABLE, 101))
            drained += bank.drain(timeout=0) if value % 3 == 2 else []
        drained += bank.drain(timeout=0)
        disk.is_full = False
    same("what was drained", list(range(8)), [ended.sequence for ended in drained])


def is_aborted_in_its_access(bank, t):
    """Reads what closes a cycle, so that nobody is live any more, and a cut is due."""
    other = bank.transaction()
    t.write(TABLE, 101, 5)
    other.write(TABLE, 102, other.read(TABLE, 101) + 1)
    return t.read(TABLE, 102)


def passes_on_what_a_hook_raises_in_an_access_in_python(_):
    """A body may catch what the hook before a cut raises in an access. If the access was aborted by a cycle, the body
    is run again. A body that does not catch it is not: its call raises it."""
    sgt, disk, tries = module(), Disk(), []

    def body(t, catches):
        tries.append(t.tries)
        if t.tries == 1:
            access = lambda: is_aborted_in_its_access(bank, t)  # noqa: E731
            if not catches:
                return access()
            same("what the access raises", "full disk", str(caught(OSError, access)))
            same("the next one", True, caught(sgt.Aborted, lambda: t.read(TABLE, 103)).is_conflict)
            if catches == "raises":
                raise ValueError
        t.write(TABLE, 103, t.tries)
        return t.tries

    for catches in ("returns", "raises"):
        with bank_of(sgt, cutting=disk, cut_after=4) as bank:
            tries.clear()
            came = bank.transact(functools.partial(body, catches=catches))
            same(f"what came of a body that {catches}", (2, [1, 2], 2), (came, tries, bank.get(TABLE, 103)))
    with bank_of(sgt, cutting=disk, cut_after=4) as bank:
        tries.clear()
        why = caught(OSError, lambda: bank.transact(functools.partial(body, catches=None)))
        same("a body that does not catch it", "full disk", str(why))
        same("its tries", ([1], {101: 10, 102: 20, 103: 30}, []), (tries, values(bank), bank.live()))


def passes_on_what_both_hooks_raise_in_python(_):
    """A call raises what each hook raised in it, and the next call nothing: one is the context of the other."""
    sgt, disk, heard = module(), Disk(), []

    def hook(ended):
        heard.append(ended.sequence)
        raise ZeroDivisionError

    calls = [lambda bank: bank.transact(makes_four_entries), lambda bank: bank.run(5), commits_in_steps, commits_one]
    hooks, writes = {"cutting": disk, "ended": hook}, [0, [["put", TABLE, 102, 7]] * 4]
    with sgt.SharedEngine(limits=(4, 1_000_000, 1), procedures=[writes], cut_after=4, **hooks) as bank:
        for number, call in enumerate(calls):
            why = caught(ZeroDivisionError, lambda call=call: call(bank))
            same("its context", "full disk", str(why.__context__))
            same("the hooks", (list(range(number + 1)), number + 1), (heard, disk.asked))
            same("the next call", [], bank.live())
        same("the records", {101: 3, 102: 7}, values(bank))
        disk.is_full = False


def commits_one(bank):
    with bank.transaction() as t:
        makes_four_entries(t)


def commits_in_steps(bank):
    t = bank.transaction(5)
    while t.step().kind.name != "ENDED":
        pass
    t.commit()


def cuts_where_each_transaction_is_aborted_in_python(_):
    """Where no call but aborts on the way out could make the cut that is due, the next start does."""
    sgt, ended = module(), []
    fails = lambda bank: what(KeyError, lambda: bank.transact(makes_four_entries_and_fails), ended.append(1))  # noqa: E731
    for way in (drops_one, quits_one, lambda bank: what(KeyError, lambda: leaves_a_block(bank), None), fails):
        with sgt.SharedEngine(limits=(4, 100, 1), cut_after=40) as bank:
            for _ in range(1_000):
                way(bank)
            same("that the history is short", True, bank.entries() <= 40 and not bank.live())
    same("how many functions failed", 1_000, len(ended))


def starts_nothing_where_a_hook_raises_in_python(_):
    """A start that waits for a cut makes it, and the hook raises: nothing stays live, and the body is not called."""
    sgt, reported = module(), []
    for starts in (lambda bank: bank.transact(lambda t: reported.append("called")), lambda bank: bank.transaction()):
        disk = Disk()
        with bank_of(sgt, cutting=disk, cut_after=4, cut_wait=LONG) as bank:
            first = bank.transaction()
            makes_four_entries(first)
            begins = functools.partial(what, OSError, functools.partial(starts, bank), "full disk")
            waiting = threading.Thread(target=lambda begins=begins: reported.append(begins()))
            waiting.start()
            waiting.join(0.1)
            same("that the start waits", [], reported)
            first.quit()
            waiting.join()
            same("what the start raises", (["full disk"], [], 1), (reported, bank.live(), disk.asked))
            reported.clear()


def ends_at_a_signal_in_python(_):
    """A signal ends a body, and a wait for a start, for being alone, and for a commit. It leaves nothing live."""
    sgt = module()

    with bank_of(sgt) as bank:
        interrupted(lambda: bank.transact(lambda t: (t.write(TABLE, 101, 1), time.sleep(LONG))))
        same("who is live after the body", [], bank.live())
        writer = elsewhere(bank.transaction)
        elsewhere(lambda: writer.write(TABLE, 101, 1))
        interrupted(lambda: bank.transact(lambda t: t.read(TABLE, 101)))
        interrupted(lambda: bank.transact(lambda t: None, tries=0))
        same("who is live after the commit", [writer.ticket], [live.ticket for live in bank.live()])
        more = elsewhere(lambda: [bank.transaction() for _ in range(3)])
        interrupted(lambda: bank.transact(lambda t: None))
        interrupted(lambda: with_block(bank))
        same("who is live after the start", 4, len(bank.live()))
        for t in (writer, *more):
            t.quit()
        same("who is live", [], bank.live())


def with_block(bank):
    with bank.transaction():
        pass


def leaves_nothing_live_at_signals(_):
    """Wherever a signal comes, nothing stays live, and each value was added once or not at all."""
    if sys.version_info[:2] < (3, 11):
        return "left out: it is for Python 3.11 and later"
    sgt = module()
    draw, signals, made = random.Random(1), 0, 0
    with sgt.SharedEngine(limits=(4, 4_000_000, 1), rows=[(TABLE, 101, 0)], cut_after=10_000) as bank:
        end = time.monotonic() + 2
        while time.monotonic() < end:
            try:
                with interrupts(draw.uniform(0.0001, 0.002)):
                    while time.monotonic() < end:
                        bank.transact(lambda t: t.write(TABLE, 101, t.read(TABLE, 101) + 1))
                        made += 1
            except Interrupted:
                signals += 1
            same("who is live", [], bank.live())
        total = bank.get(TABLE, 101)
        same("that the call which a signal ended was made or not", True, made <= total <= made + signals)
    return f"{signals} signals"


def stops_at_ctrl_c(_):
    """Ctrl-C ends a program in a body, in which a thread has a transaction too, and its engine is closed."""
    sgt = module()
    with bank_of(sgt) as bank:
        before = signal.signal(signal.SIGINT, signal.default_int_handler)
        later = threading.Timer(0.2, lambda: os.kill(os.getpid(), signal.SIGINT))
        body = lambda t: (t.write(TABLE, 101, 1), later.start(), time.sleep(LONG))  # noqa: E731
        same("how the call ends", "interrupted", what(KeyboardInterrupt, lambda: bank.transact(body), "interrupted"))
        signal.signal(signal.SIGINT, before)
        same("the record", (10, []), (bank.get(TABLE, 101), bank.live()))


PAGE_PROGRAM = """
import os, signal, threading
from sgt import Closed, SharedEngine

def works(bank, number):
    try:
        for made in range(1000):
            bank.transact(lambda t: t.write(2, 101, t.read(2, 101) + 1))
            if made == 100 and number == 0:
                os.kill(os.getpid(), signal.SIGINT)
    except Closed:
        pass

signal.signal(signal.SIGINT, signal.default_int_handler)
try:
    with SharedEngine(limits=(4, 1_000_000, 1), rows=[(2, 101, 0)]) as bank:
        threads = [threading.Thread(target=works, args=(bank, number)) for number in range(8)]
        for thread in threads: thread.start()
        for thread in threads: thread.join()
except KeyboardInterrupt:
    print("interrupted")
"""


def stops_threads_at_ctrl_c(_):
    """Ctrl-C ends the block of a program whose threads are in transactions, whether its engine can be closed then or not."""
    env = dict(os.environ, PYTHONPATH=str(BINDINGS / "python"), PYTHONDONTWRITEBYTECODE="1")
    for _ in range(5):
        same("how it ends", "interrupted\n", run([sys.executable, "-W", "error", "-c", PAGE_PROGRAM], env=env, also_errors=True))


def mixed(draw, noted):
    """A body that reads and writes some of the three records, and notes each."""

    def body(t):
        noted.clear()
        total = 1
        for _ in range(draw.randrange(2, 6)):
            number, kind = draw.choice(RECORDS), draw.randrange(8)
            if kind < 4:
                value = t.read(TABLE, number)
                noted.append(("read", number, value))
                total += value or 0
            elif kind < 7:
                total = total * 3 % 1_000_003
                t.write(TABLE, number, total)
                noted.append(("write", number, total))
            else:
                t.remove(TABLE, number)
                noted.append(("write", number, None))
            if draw.randrange(3) == 0:
                time.sleep(0)
        return t.ticket

    return body


def threads_share_three_records_in_python(_):
    """What each read is that of a plain map, on which the transactions are run in the order of `ended`."""
    sgt = module()
    done, order, again = {}, [], []
    with bank_of(sgt, ended=lambda ended: order.append(ended.ticket), cut_after=2_000, cut_wait=0.001) as bank:

        def works(number):
            draw = random.Random(number)
            for _ in range(300):
                noted, tries = [], []
                body = mixed(draw, noted)
                ticket = bank.transact(lambda t, body=body, tries=tries: (tries.append(1), body(t))[1], tries=3)
                done[ticket] = list(noted)
                again.append(len(tries) > 1)

        threads = [threading.Thread(target=works, args=(number,)) for number in range(THREADS)]
        for thread in threads:
            thread.start()
        for thread in threads:
            thread.join()
        rows = {number: 10 * place for place, number in enumerate(RECORDS, 1)}
        same("how many ended", (len(done), len(done)), (len(order), THREADS * 300))
        for ticket in order:
            for kind, number, value in done[ticket]:
                if kind == "read":
                    same(f"what {ticket} read", rows.get(number), value)
                else:
                    rows[number] = value
        same("the records", {number: value for number, value in rows.items() if value is not None}, values(bank))
    return f"{sum(again)} of {len(again)} were tried again"


CASES = [
    reports_the_status_of_each_call,
    threads_share_three_records,
    threads_do_not_race,
    threads_stay_within_their_memory,
    commits_quits_and_throws_in_cpp,
    commits_quits_and_panics_in_rust,
    refuses_bodies_that_replace_their_transaction_in_cpp,
    refuses_bodies_that_replace_their_transaction_in_rust,
    reads_writes_and_removes_in_python,
    answers_single_calls_in_python,
    says_why_in_python,
    reports_a_use_after_the_end_in_python,
    refuses_bodies_that_are_not_run_in_python,
    refuses_copies_of_transactions_in_python,
    waits_for_ever_in_python,
    keeps_the_exception_of_a_block_in_python,
    keeps_a_journal_of_ones_own_in_python,
    tries_again_in_python,
    runs_alone_at_last_in_python,
    is_called_for_commits_in_python,
    raises_nothing_of_a_hook_where_it_aborts_in_python,
    drains_all_whatever_a_hook_raises_in_python,
    passes_on_what_a_hook_raises_in_an_access_in_python,
    passes_on_what_both_hooks_raise_in_python,
    cuts_where_each_transaction_is_aborted_in_python,
    starts_nothing_where_a_hook_raises_in_python,
    ends_at_a_signal_in_python,
    leaves_nothing_live_at_signals,
    stops_at_ctrl_c,
    stops_threads_at_ctrl_c,
    threads_share_three_records_in_python,
    keeps_a_store_of_ones_own,
]


def main():
    if sys.argv[1:]:
        sys.exit(__doc__)
    if not shutil.which("cc"):
        print("left out: no cc here")
        print("0 passed, 0 failed")
        return 0
    if not (OUT / "libsgt.a").exists():
        print("FAILED: no library: bindings/build makes it")
        print(f"0 passed, {len(CASES)} failed")
        return 1
    with tempfile.TemporaryDirectory() as scratch:
        return run_cases(CASES, pathlib.Path(scratch), of="own logic")


if __name__ == "__main__":
    sys.exit(main())
