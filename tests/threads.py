#!/usr/bin/env python3
"""Runs threads on one shared engine of the library for C, and judges their replies from outside.

    tests/threads.py

It takes the library that `bindings/build` has made. Each case is reported, the last line counts them; where something is missing on
this machine, what was left out is reported.
"""

import json
import pathlib
import random
import shutil
import sys
import tempfile
from collections import Counter, defaultdict

sys.dont_write_bytecode = True
from helpers.cases import C_SOURCES, Differs, same, run_cases  # noqa: E402
from helpers.legal import Checker, Illegal, database_text  # noqa: E402
from helpers.library import (  # noqa: E402
    C_FLAGS,
    CPP_FLAGS,
    OUT,
    SANITIZERS,
    SHARED,
    THREAD_SANITIZER,
    WRAPS,
    WRAPS_CLOCK,
    WRAPS_LOCK,
    built,
    can,
    compiled,
    run,
)

THREADS, CALLS, FEW_CALLS, SANITIZED_CALLS = 16, 200_000, 40_000, 10_000
STEPPED, FEW_STEPPED = 49, 1  # of 100 transactions
MONEY = 5 * 200_000
TURNS, IN_TURN = 20_000, 4  # runs that each of so many threads makes
FUZZED_SECONDS = 30  # for each fuzzer
LIMITS = '{"limits":[8,4000000000,1],"accounts":[%s],"procedures":[]}\n'
ACCOUNTS = ",".join(f"[{n},{100 + n},100000,100000]" for n in range(5))

FUZZER = ["-g", "-fsanitize=fuzzer,address,undefined", "-fno-sanitize-recover=all"]
NO_TARGET = "int LLVMFuzzerTestOneInput(const char *data, unsigned long size) { return data ? 0 : (int)size; }"

# What has to come in a run of this many calls, so that it tests what it is for.
WANTED = ("tried again", "waited", "decided", "transacted", "timed out", "quit", "cuts", "committed")
WANTED_OF_RUNS = ("timed out", "cuts", "committed")


def parts_of(text):
    """The entries of each part: events and replies."""
    parts = []
    for line in text.splitlines():
        if line.startswith("part "):
            same("the number of a part", len(parts), int(line.split()[1]))
            parts.append([])
        else:
            parts[-1].append(tuple(line.split("\t")))
    return parts


def opening_on(rows):
    """An opening on these rows, without accounts."""
    records = "".join(f'["record",{table},{number},{value}]\n' for (table, number), value in sorted(rows.items()))
    return LIMITS % "" + records


def judged(parts):
    """Compares each part with the definitions. The rows at the end, and of all parts who ended, in order, with their replies."""
    opening, ends = LIMITS % ACCOUNTS, []
    for part, entries in enumerate(parts):
        checker, calls = Checker(opening), []
        for event, reply in entries:
            checker.take(event, reply)
            if reply.startswith("started"):
                calls.append(event.removeprefix('["start",').removesuffix("]"))
            elif event.startswith('["commit"') and reply.split()[0] in ("committed", "refused"):
                tid, words = json.loads(event)[1], reply.split()
                reported = f"asked {words[1]}" if words[0] == "refused" else reply
                ends.append(f"{len(ends)} {part} {tid} {calls[tid]}\t{reported}")
        same("who is live behind a part", [], checker.live())
        rows = checker.serial()
        same("the serial run", rows, checker.settled)
        opening = opening_on(rows)
    return rows, ends


def reported_of(folder):
    """The replies to the threads of each transaction, with what they asked."""
    reported = defaultdict(list)
    for path in folder.glob("thread.*"):
        for line in path.read_text().splitlines():
            asked, reply = line.split("\t")
            part, tid, kind = asked.split()
            reported[int(part), int(tid)].append((kind, reply))
    return reported


def entries_of(parts):
    """The same by the history, but for commits that waited: the library asks for these again by itself."""
    entries = defaultdict(list)
    for part, its in enumerate(parts):
        for event, reply in its:
            kind, tid, *_ = json.loads(event)
            if reply.startswith("started"):
                entries[part, int(reply.split()[1])].append((kind, reply))
            elif kind != "start" and not reply.startswith("waits"):
                entries[part, tid].append((kind, reply))
    return entries


def compare_replies(reported, entries):
    """Whoever steps got each reply; whoever runs got the last one. A transaction function whose try was quit, and cut off, is tried
    again: of that try only the quit was told."""
    for ticket, replies in reported.items():
        ran = [reply for kind, reply in replies if kind == "run"]
        if {kind for kind, _ in replies} == {"quit"}:
            same(f"what was told of {ticket}", Counter(), Counter(replies) - Counter(entries[ticket]))
        elif not ran:
            same(f"what was told of {ticket}", Counter(entries[ticket]), Counter(replies))
        if not ran:
            continue
        others = Counter(reply for reply in replies if reply[0] != "run")
        left = Counter(entries[ticket]) - others
        lasts = [reply for kind, reply in left if kind in ("step", "commit", "read", "write", "remove")]
        if len(ran) != 1 or ran[0] not in lasts or others - Counter(entries[ticket]):
            raise Differs(f"a run of {ticket} was told {replies}, in place of {entries[ticket]}")


def judge(folder, are_runs=False):
    """Judges a run by what it wrote. How many entries and parts there are. If all are runs, nobody is ever live between two calls, so
    each transaction was told to the one thread that asked for it, and none is of a thread that was told that it timed out."""
    parts = parts_of((folder / "history").read_text())
    try:
        rows, ends = judged(parts)
    except Illegal as why:
        raise Differs(str(why)) from None
    same("the rows", database_text(rows), (folder / "rows").read_text().splitlines())
    same("what the hook was told", ends, (folder / "ended").read_text().splitlines())
    same("what was drained", ends, (folder / "drained").read_text().splitlines())
    reported, entries = reported_of(folder), entries_of(parts)
    compare_replies(reported, entries)
    if are_runs:
        same("who was carried out, and not told", [], sorted(set(entries) - set(reported)))
    deposited = sum(money_in(end) for end in ends)
    same("the money", MONEY + deposited, sum(value for (table, _), value in rows.items() if table in (1, 2)))
    return f"{sum(map(len, parts))} entries in {len(parts)} parts, {len(ends)} calls ended"


def money_in(end):
    """What a committed deposit or saving brings in."""
    call, reported = end.split("\t")
    procedure, _, args = call.split()[3].partition(",")
    return json.loads(args)[1] if procedure in ("1", "2") and reported.startswith("committed") else 0


def ran(scratch, program, calls, stepped):
    """A run of the program: its folder, and its counts."""
    folder = pathlib.Path(tempfile.mkdtemp(dir=scratch))
    lines = run([program, folder, 1 + stepped, THREADS, calls, stepped]).splitlines()
    return folder, {name: int(count) for name, _, count in (line.rpartition(" ") for line in lines)}


def ran_and_judged(scratch, flags, calls, stepped, wanted):
    folder, counts = ran(scratch, built(scratch, "cc", C_FLAGS, C_SOURCES / "shared_runs.c", flags), calls, stepped)
    missing = [name for name in wanted if counts[name] == 0]
    same("what did not come", [], missing)
    return f"{judge(folder, stepped == 0)}; " + ", ".join(f"{name} {count}" for name, count in counts.items() if count)


def threads_get_the_replies_of_the_history(scratch):
    return ran_and_judged(scratch, [], CALLS, STEPPED, WANTED)


def threads_run_without_steps(scratch):
    return ran_and_judged(scratch, [], FEW_CALLS, 0, WANTED_OF_RUNS)


def threads_run_beside_few_steps(scratch):
    return ran_and_judged(scratch, [], FEW_CALLS, FEW_STEPPED, WANTED)


def sanitized(scratch, flags):
    """Runs the threads under a sanitizer, which also sees the code of the shared engine."""
    compiler = next((name for name in ("cc", "clang", "clang-14") if shutil.which(name) and can(scratch, name, flags)), None)
    if not compiler:
        return f"left out: no compiler here has {flags[1]}"
    run([built(scratch, compiler, C_FLAGS, C_SOURCES / "shared_calls.c", flags, [SHARED])])
    run([built(scratch, compiler, C_FLAGS, C_SOURCES / "shared_hazards.c", [*flags, *WRAPS_LOCK], [SHARED])])
    all_held(run([built(scratch, compiler, C_FLAGS, C_SOURCES / "shared_waits.c", flags, [SHARED]), 2]))
    all_held(run([inside(scratch, compiler, "shared_rests.c", flags)]))
    all_held(run([inside(scratch, compiler, "shared_leaves.c", flags)]))
    if compiler == "cc" and shutil.which("c++"):
        shared = compiled(scratch, "cc", C_FLAGS, SHARED, flags)
        run([built(scratch, "c++", CPP_FLAGS, C_SOURCES / "shared_hazards.cpp", flags, [shared])])
    program = built(scratch, compiler, C_FLAGS, C_SOURCES / "shared_runs.c", flags, [SHARED])
    reported = []
    for stepped in (STEPPED, FEW_STEPPED, 0):
        folder, _ = ran(scratch, program, SANITIZED_CALLS, stepped)
        reported.append(judge(folder, stepped == 0))
    return f"{compiler}: " + "; ".join(reported)


def threads_do_not_race(scratch):
    return sanitized(scratch, THREAD_SANITIZER)


def threads_stay_within_their_memory(scratch):
    return sanitized(scratch, SANITIZERS)


def threads_get_their_turns(scratch):
    """Threads come back for the lock at once, until each has got it often. How often they slept is printed, as it depends on the machine."""
    return run([built(scratch, "cc", C_FLAGS, C_SOURCES / "shared_turns.c"), IN_TURN, TURNS]).strip().replace("\n", ", ")


def reports_the_status_of_each_call(scratch):
    return all_held(run([built(scratch, "cc", C_FLAGS, C_SOURCES / "shared_calls.c")]))


def all_held(reported):
    """How many checks a program made, all of which held."""
    same("what is told", f"{reported.split()[0]} checks, 0 failed\n", reported)
    return f"{reported.split()[0]} checks"


def reports_who_would_wait_for_itself(scratch):
    """Threads that wait for each other, whatever for: an alarm ends the program if one waits for ever."""
    return all_held(run([built(scratch, "cc", C_FLAGS, C_SOURCES / "shared_waits.c"), 1]))


def goes_on_whatever_a_thread_does(scratch):
    """Threads that are cancelled, end in a hook, or begin a call beside the close."""
    return all_held(run([built(scratch, "cc", C_FLAGS, C_SOURCES / "shared_hazards.c", WRAPS_LOCK)]))


def goes_on_whatever_a_hook_throws(scratch):
    if not shutil.which("c++"):
        return "left out: no c++ here"
    return all_held(run([built(scratch, "c++", CPP_FLAGS, C_SOURCES / "shared_hazards.cpp")]))


def inside(scratch, compiler, source, flags=()):
    """A program that is built with the source of the shared engine, and with exceptions of C++ if a compiler has them."""
    if compiler != "cc" or not shutil.which("c++"):
        return built(scratch, compiler, C_FLAGS, C_SOURCES / source, flags)
    tests = compiled(scratch, "cc", C_FLAGS, C_SOURCES / source, [*flags, "-DWITH_CPP"])
    return built(scratch, "c++", CPP_FLAGS, C_SOURCES / "shared_throws.cpp", [*flags, tests])


def wakes_each_call_that_rests(scratch):
    """Each alone, with a watch that ends what it waits for, is held up, interrupts it, does not return, or forks."""
    return all_held(run([inside(scratch, "cc", "shared_rests.c")]))


def gives_back_what_a_hook_leaves(scratch):
    """Hooks that end their thread, jump, throw or fork, in each call that calls one; calls that call none."""
    return all_held(run([inside(scratch, "cc", "shared_leaves.c")]))


def goes_on_where_each_allocation_is_refused(scratch):
    reported = run([built(scratch, "cc", C_FLAGS, C_SOURCES / "shared_refused.c", WRAPS)])
    count = int(reported.split()[2])
    same("what is told", f"{count - 1} of {count} allocations were told as refused, 1 done without\n", reported)
    return f"{count} allocations"


def fuzzed(scratch, source, seconds, flags=(), beside=()):
    """Calls that a fuzzer draws, or, without one, calls drawn at random for as long."""
    have = [name for name in ("clang", "clang-14") if shutil.which(name)]
    compiler = next((name for name in have if can(scratch, name, FUZZER, NO_TARGET, ["-runs=1"])), None)
    if not compiler:
        reported = run([built(scratch, "cc", C_FLAGS, C_SOURCES / source, ["-DDRAWN", *flags]), seconds])
        return f"drawn, as no compiler here has a fuzzer: {reported.strip()}"
    program = built(scratch, compiler, C_FLAGS, C_SOURCES / source, [*FUZZER, *flags], beside)
    corpus = pathlib.Path(tempfile.mkdtemp(dir=scratch))
    for seed in range(4):  # long inputs to begin with, so that engines grow full and histories long
        (corpus / f"seed{seed}").write_bytes(random.Random(seed).randbytes(2048))
    words = [f"-max_total_time={seconds}", "-max_len=4096", "-len_control=0", "-seed=1", "-print_final_stats=1"]
    reported = run([program, *words, corpus], also_errors=True, cwd=scratch)
    executed = "stat::number_of_executed_units"
    count = next(line.split()[-1] for line in reported.splitlines() if line.startswith(executed))
    return f"{compiler}: {count} inputs in {seconds} s, {len(list(corpus.iterdir()))} kept"


def keeps_its_word_whatever_is_called(scratch):
    return fuzzed(scratch, "shared_fuzz.c", FUZZED_SECONDS, beside=[SHARED])


def leaves_nothing_whatever_does_not_return(scratch):
    """The same with hooks, a watch and bodies that jump, make calls, abandon and interrupt."""
    return fuzzed(scratch, "shared_fuzz_left.c", FUZZED_SECONDS, WRAPS_CLOCK)


CASES = [
    reports_the_status_of_each_call,
    reports_who_would_wait_for_itself,
    goes_on_whatever_a_thread_does,
    goes_on_whatever_a_hook_throws,
    wakes_each_call_that_rests,
    gives_back_what_a_hook_leaves,
    threads_get_the_replies_of_the_history,
    threads_run_without_steps,
    threads_run_beside_few_steps,
    threads_get_their_turns,
    threads_do_not_race,
    threads_stay_within_their_memory,
    goes_on_where_each_allocation_is_refused,
    keeps_its_word_whatever_is_called,
    leaves_nothing_whatever_does_not_return,
]


def main():
    if sys.argv[1:]:
        sys.exit(__doc__)
    if not shutil.which("cc"):
        print("left out: no cc here")
        print("0 passed, 0 failed")
        return 0
    if not (OUT / "libsgt.a").exists():
        print("FAILED: no library: bindings/build makes it")
        print(f"0 passed, {len(CASES)} failed")
        return 1
    with tempfile.TemporaryDirectory() as scratch:
        return run_cases(CASES, pathlib.Path(scratch), of="threads")


if __name__ == "__main__":
    sys.exit(main())
