#!/usr/bin/env python3
"""Runs banks with failing allocations, and banks whose workers leave.

    tests/workers.py crates/sgt/out/sgt crates/sgt_bank_runs/out/sgt_bank_runs

The second program writes the history of a bank's report, which is compared with the definitions as `helpers/legal.py`
has them. The library of `c/failing.c` is made with `cc`, as in `tests/hostile.py`. Each case is reported as there, and the last
line counts them.
"""

import random
import sys
from collections import Counter

sys.dont_write_bytecode = True
from helpers.cases import Differs, same, run_failing_cases  # noqa: E402
from helpers.legal import IN_TWO_STEPS, REMOVERS, Checker, Illegal, database_text, rows_of  # noqa: E402

ALL = 10**18
DEPOSITS = ((1, 100), (2, 1), (1, 1))
OPENING = '{"limits":[1,100],"accounts":[[1,101,500,1000],[2,102,0,200]],"procedures":[]}\n'
JOBS = OPENING + "".join(f'["job",1,[{name},{amount}]]\n' for name, amount in DEPOSITS)
BANK = ("bank", "--workers", "1")

# One call among this many is as good as none.
NEVER = 4_000_000_000
BANKS, JOBS_OF_A_BANK, WORKERS, ACCOUNTS = 20, 1_000, 16, 5


# Failing allocations


def report_on(done):
    """What a bank of one worker writes where these of the deposits were done, and the others had no memory."""
    rows, lines = rows_of(OPENING), []
    for number, (name, amount) in enumerate(DEPOSITS):
        if number in done:
            rows[2, 100 + name] += amount
            lines.append(f"{number} committed {rows[2, 100 + name]}\n")
        else:
            lines.append(f"{number} no memory\n")
    return "".join(lines) + "".join(line + "\n" for line in database_text(rows))


def outcome_of(came, what):
    """What became of a bank whose allocations failed: a fault, and nothing was written, or the deposits that were done."""
    status, out, reported = came
    if status == 0:
        done = {int(line.split()[0]) for line in out.splitlines() if line.split()[1] == "committed"}
        same(what, (report_on(done), ""), (out, reported))
        return frozenset(done)
    same(what, (2, ""), (status, out))
    fault = reported.splitlines()[0] if reported else ""
    if fault not in ("no memory", "workers not started"):
        raise Differs(f"{what}: came {reported!r:.400}")
    return fault


def fails_each_allocation_of_a_bank(sgt, _):
    """One allocation fails, or some from one on, or all: never do the receipts differ from the history."""
    count = sgt.allocations(*BANK, given=JOBS)
    came = Counter()
    for number in range(1, count + 1):
        for last in (number, number + 3, number + 10, ALL):
            ran = sgt.run(*BANK, given=JOBS, refuse_first=number, refuse_last=last)
            came[outcome_of(ran, f"allocations {number} to {last}")] += 1
    reports = [done for done in came if isinstance(done, frozenset)]
    for what, found in (
        ("a report of all deposits", frozenset((0, 1, 2)) in reports),
        ("a job that was refused memory", any(len(done) < 3 for done in reports)),
        ("a job behind one that was refused memory", any(0 not in done and done for done in reports)),
        ("the fault of a run that was refused memory", "no memory" in came),
    ):
        if not found:
            raise Differs(f"{what} did not come, but {came}")
    parts = sum(times for done, times in came.items() if isinstance(done, frozenset) and len(done) < 3)
    faults = came["no memory"] + came["workers not started"]
    return f"{count} growths refused, alone and with those behind; {faults} faults, {parts} reports with jobs without memory"


def aborts_while_allocations_fail(sgt, _):
    """A call is refused memory, and so are the next ten allocations: a transaction that has begun is aborted all the same."""
    words, given, refused = (*BANK, "--history"), OPENING + '["job",1,[1,1]]\n' * 20, 11
    count, aborted = sgt.allocations(*words, given=given), 0
    for number in range(1, count + 1):
        status, out, _ = sgt.run(*words, given=given, refuse_first=number, refuse_last=number + refused - 1)
        aborted += status == 0 and any(line.startswith("a") for line in out.splitlines())
    if not aborted:
        raise Differs("no transaction was aborted")
    return f"{aborted} runs of {count}"


# Histories


def opening(limits="32,4000000000", procedures=""):
    """The last account is put by record lines."""
    rows = ",".join(f"[{n},{100 + n},100000,100000]" for n in range(ACCOUNTS - 1))
    last = ACCOUNTS - 1
    records = f'["record",1,{100 + last},100000]\n["record",2,{100 + last},100000]\n["record",0,{last},{100 + last}]\n'
    return f'{{"limits":[{limits}],"accounts":[{rows}],"procedures":[{procedures}]}}\n{records}'


def drawn_jobs(seed, jobs):
    """Calls of SmallBank's procedures."""
    draw = random.Random(seed)
    for _ in range(jobs):
        procedure, name = draw.randrange(5), draw.randrange(ACCOUNTS)
        second = {0: [], 3: [draw.randrange(ACCOUNTS)]}.get(procedure, [draw.randrange(1, 100)])
        yield f'["job",{procedure},{[name, *second]}]\n'.replace(" ", "")


def asks_in(replies):
    """The codes that replies tell, at a step or at a commit."""
    for reply in replies:
        words = reply.split()
        if words[0] == "refused" or words[:2] == ["aborted", "asked"]:
            yield f"asked {words[1 if words[0] == 'refused' else 2]}"


def check_report(checker, replies, outcomes, workers):
    """Compares what became of the jobs with the history, and gives how many came to what."""
    words = [line.partition(" ")[2] for line in outcomes]
    kinds = Counter("no memory" if line == "no memory" else line.split()[0] for line in words)
    commits = Counter(reply for reply in replies if reply.startswith("committed"))
    same("the commits", commits, Counter(line for line in words if line.startswith("committed")))
    same("the asks", Counter(asks_in(replies)), Counter(line for line in words if line.startswith("asked")))
    same("the jobs' numbers", list(range(len(outcomes))), [int(line.split()[0]) for line in outcomes])
    quits = sum(reply.startswith("aborted quit") for reply in replies)
    if quits > kinds["left"] + kinds["no memory"]:
        raise Differs(f"{quits} quits, and {kinds}")
    if kinds["left"] > workers or kinds["untaken"] and kinds["left"] != workers:
        raise Differs(f"{workers} workers, and {kinds}")
    if checker.busiest > workers:
        raise Differs(f"{checker.busiest} were live at a time")
    same("who is live at the end", [], checker.live())
    kinds["quits"] = quits
    kinds["cycles"] = sum(reply.startswith("aborted cycle") for reply in replies)
    kinds["fell"] = sum(fate.startswith("fell") for fate in checker.fates.values())
    kinds["waits"] = sum(reply.startswith("waits") for reply in replies)
    return kinds


def parts_of(reported):
    """The events, their replies, and the report after them."""
    asked = sum(line.startswith("[") for line in reported)
    return reported[: 2 * asked : 2], reported[1 : 2 * asked : 2], reported[2 * asked :]


def check_reported(reported, opened, jobs, workers):
    """Compares a bank's history and report with the definitions, and gives how many jobs came to what."""
    events, replies, report = parts_of(reported)
    checker = Checker(opened)
    try:
        for event, reply in zip(events, replies):
            checker.take(event, reply)
        rows = checker.serial()
    except Illegal as why:
        raise Differs(str(why)) from None
    same("the serial run's database", database_text(rows), report[jobs:])
    same("the settled database", database_text(checker.settled), report[jobs:])
    return check_report(checker, replies, report[:jobs], workers) + Counter(entries=len(replies))


def reported_by(program, seed, odds):
    """The lines of a bank of which one call of so many makes its worker leave, or none."""
    given = opening() + "".join(drawn_jobs(seed, JOBS_OF_A_BANK))
    status, out, reported = program.run("bank", str(WORKERS), "100", str(seed), str(odds), given=given)
    same(f"bank {seed}", (0, ""), (status, reported))
    return out.splitlines()


def replays_banks_whose_workers_leave(_, program):
    """In every fourth bank nobody leaves, and in every fourth all do."""
    total = Counter()
    for seed in range(BANKS):
        reported = reported_by(program, seed, (NEVER, 5_000, 1_000, 100)[seed % 4])
        total += check_reported(reported, opening(), JOBS_OF_A_BANK, WORKERS)
    for kind in ("committed", "left", "untaken", "quits", "cycles", "fell", "waits"):
        if not total[kind]:
            raise Differs(f"none {kind}: {total}")
    return ", ".join(f"{number} {kind}" for kind, number in sorted(total.items()))


PRESSES, PRESSED_WORKERS, PRESSED_JOBS = 5, 8, 200
FIVE_ACCOUNTS = ",".join(f"[{n},{100 + n},500,1000]" for n in range(1, 6))
PRESSED = f'{{"limits":[32,4000000000],"accounts":[{FIVE_ACCOUNTS}],"procedures":[]}}\n'


def pressed_jobs():
    """Calls of four procedures on five accounts, so many for each worker: procedure, arguments, and what a commit puts in."""
    for worker in range(PRESSED_WORKERS):
        x = worker
        for drawn in range(PRESSED_JOBS + 1):
            x = (x * 6_364_136_223_846_793_005 + 1_442_695_040_888_963_407) % 2**64
            if drawn == 0:
                continue
            name = 1 + (x >> 40) % 5
            yield (
                (0, [name], 0),
                (1, [name, 5], 5),
                (2, [name, -3], -3),
                (3, [name, 1 + name % 5], 0),
            )[(x >> 33) % 4]


def presses_five_accounts(_, program):
    """Each job is started once, and nothing is held but what was there and what the committed ones put in."""
    jobs = list(pressed_jobs())
    given = PRESSED + "".join(f'["job",{procedure},{args}]\n'.replace(" ", "") for procedure, args, _ in jobs)
    total = Counter()
    for seed in range(PRESSES):
        status, out, reported = program.run("bank", str(PRESSED_WORKERS), "1", str(seed), str(NEVER), given=given)
        same(f"bank {seed}", (0, ""), (status, reported))
        lines = out.splitlines()
        total += check_reported(lines, PRESSED, len(jobs), PRESSED_WORKERS)
        _, replies, report = parts_of(lines)
        same(f"bank {seed}: starts", len(jobs), sum(reply.startswith("started") for reply in replies))
        committed = [job for job, line in zip(jobs, report) if line.split()[1] == "committed"]
        held = sum(int(line.split()[1]) for line in report[len(jobs) :] if not line.startswith("0/"))
        same(f"bank {seed}: what is held", 5 * 1500 + sum(amount for _, _, amount in committed), held)
    return ", ".join(f"{number} {kind}" for kind, number in sorted(total.items()))


def refusals_are_those_of_the_serial_run(_, program):
    """Jobs that ask where they find what lies between two stores. No serial run has that, and none is reported."""
    opened, total = opening("32,100000,1", IN_TWO_STEPS), Counter()
    for seed in range(BANKS):
        draw = random.Random(seed)
        jobs = [f'["job",{draw.randrange(5, 7)},[]]\n' for _ in range(500)]
        jobs += [f'["job",2,[{draw.randrange(ACCOUNTS)},{-draw.randrange(60_000)}]]\n' for _ in range(100)]
        draw.shuffle(jobs)
        status, out, reported = program.run("bank", str(WORKERS), "100", str(seed), str(NEVER), given=opened + "".join(jobs))
        same(f"bank {seed}", (0, ""), (status, reported))
        lines = out.splitlines()
        total += check_reported(lines, opened, len(jobs), WORKERS)
        same(f"bank {seed}", 0, sum(line.endswith(" asked 99") for line in lines))
    if not total["asked"]:
        raise Differs(f"none asked: {total}")
    return ", ".join(f"{number} {kind}" for kind, number in sorted(total.items()))


def removals_are_those_of_the_serial_run(_, program):
    """Jobs that remove records and make them anew, some of which ask behind their removal. With codes at the commit, it is undone there."""
    opened, total = opening("32,100000,1", f"{IN_TWO_STEPS},{REMOVERS}"), Counter()
    for seed in range(BANKS):
        draw = random.Random(seed)
        customers = [100 + draw.randrange(ACCOUNTS) for _ in range(4)]
        jobs = [f'["job",7,[{draw.choice(customers)}]]\n' for _ in range(300)] + ['["job",8,[]]\n', '["job",5,[]]\n'] * 50
        jobs += [f'["job",9,[{draw.choice(customers)}]]\n' for _ in range(50)]
        jobs += [f'["job",2,[{draw.choice(customers) - 100},{-draw.randrange(600)}]]\n' for _ in range(100)]
        draw.shuffle(jobs)
        status, out, reported = program.run("bank", str(WORKERS), "100", str(seed), str((NEVER, 1_000)[seed % 2]), given=opened + "".join(jobs))
        same(f"bank {seed}", (0, ""), (status, reported))
        lines = out.splitlines()
        total += check_reported(lines, opened, len(jobs), WORKERS) + Counter(removed=sum(line.startswith("removed ") for line in lines))
    same("what did not come", [], [kind for kind in ("committed", "asked", "fell", "waits", "removed") if not total[kind]])
    return ", ".join(f"{number} {kind}" for kind, number in sorted(total.items()))


def refused_at(events, replies):
    """The place of the first reply that is not legal."""
    checker = Checker(opening())
    for place, (event, reply) in enumerate(zip(events, replies)):
        try:
            checker.take(event, reply)
        except Illegal:
            return place
    return None


def changed(reply):
    """The reply with another last number, which nothing has, or without it where it has none."""
    words = reply.split()
    numbers = [at for at, word in enumerate(words) if word.isdigit()]
    if numbers:
        words[numbers[-1]] = "123456789"
    return " ".join(words) if numbers else "unknown"


def knows_a_changed_reply(_, program):
    """Of a history one reply is changed: those before it are legal, and it is not."""
    events, replies, _ = parts_of(reported_by(program, BANKS, 1_000))
    places = {reply.split()[0]: place for place, reply in enumerate(replies)}
    for kind, place in places.items():
        wrong = replies[:place] + [changed(replies[place])]
        same(f"{kind} {place}", place, refused_at(events, wrong))
    return f"{len(places)} kinds of replies"


CASES = [
    fails_each_allocation_of_a_bank,
    aborts_while_allocations_fail,
    replays_banks_whose_workers_leave,
    presses_five_accounts,
    refusals_are_those_of_the_serial_run,
    removals_are_those_of_the_serial_run,
    knows_a_changed_reply,
]


def main():
    if len(sys.argv) != 3:
        sys.exit(__doc__)
    return run_failing_cases(CASES, *sys.argv[1:])


if __name__ == "__main__":
    sys.exit(main())
