#!/usr/bin/env python3
"""Runs the built program with failing allocations, reads and writes, and on malformed lines.

    tests/hostile.py crates/sgt/out/sgt

A library of a few calls, `c/failing.c`, is made with `cc` and loaded before the C library. Each case is reported as
in `tests/program.py`, and the last line counts them.
"""

import sys

sys.dont_write_bytecode = True
from helpers.cases import FOREVER, Differs, first_line, same, run_failing_cases  # noqa: E402

# The most bytes of a line, and of an input.
LONGEST_LINE = 65_536
LONGEST_INPUT = 16_777_216

OPENING = '{"limits":[8,100],"accounts":[[1,101,500,1000],[2,102,0,200]],"procedures":[]}\n'
RECORDS = "0/1 101\n0/2 102\n1/101 500\n1/102 0\n2/101 1000\n2/102 200\n"

# A reader of what is not committed, whose commit has to wait.
EVENTS = (
    '["start",1,[1,100]]\n["step",0]\n["step",0]\n["step",0]\n["start",0,[1]]\n["step",1]\n["step",1]\n["step",1]\n'
    '["commit",1]\n["commit",0]\n["commit",1]\n'
)
REPLIES = (
    "started 0\nread 0/1 101\nread 2/101 1000\nwrote 2/101 1100\nstarted 1\nread 0/1 101\nread 1/101 500\nread 2/101 1100\n"
    "waits 0\ncommitted 1100\ncommitted 1600\n"
)
SCRIPT = OPENING + EVENTS
LEFT = RECORDS.replace("2/101 1000", "2/101 1100")
WRITTEN = REPLIES + LEFT

# The same, cut off behind its end and once more while a transaction is live.
CUT_SCRIPT = SCRIPT + '["cut"]\n["start",0,[2]]\n["cut"]\n["quit",0]\n'
CUT_REPLIES = REPLIES + "cut 11\nstarted 0\nstill live\naborted quit fell none\n"

JOBS = OPENING.replace("[8,", "[1,") + '["job",1,[1,100]]\n["job",1,[2,1]]\n["job",1,[1,1]]\n'
REPORT = "0 committed 1100\n1 committed 201\n2 committed 1101\n" + RECORDS.replace("1000", "1101").replace(" 200", " 201")
BANK = ("bank", "--workers", "1")


# Memory


# The allocations without which the program may succeed: one while the options are parsed, that in which the rows of the opening are
# sorted (they are then sorted in place), and that in which line 1 is copied.
DONE_WITHOUT = 3


def failed_allocations(sgt, script, replies):
    """One allocation fails, or all from one on: what was written is the replies to the first lines, and no database."""
    starts = {"".join(replies.splitlines(True)[:n]) for n in range(len(replies.splitlines()) + 1)}
    count = sgt.allocations("script", given=script)
    done_without = 0
    for number in range(1, count + 1):
        for last in (number, FOREVER):
            came = sgt.run("script", given=script, refuse_first=number, refuse_last=last)
            if came == (0, replies + LEFT, "") and number == last:
                done_without += 1
                continue
            status, out, reported = came
            same(f"allocations {number} to {last}", (2, "no memory\n"), (status, reported))
            if out not in starts:
                raise Differs(f"allocations {number} to {last}: came {out!r:.400}")
    same("allocations that it does without", DONE_WITHOUT, done_without)
    return f"{count} growths refused, one and all from there on; {done_without} done without"


def fails_each_allocation_of_a_script(sgt):
    return failed_allocations(sgt, SCRIPT, REPLIES)


def fails_each_allocation_of_a_script_with_cuts(sgt):
    return failed_allocations(sgt, CUT_SCRIPT, CUT_REPLIES)


FLAWED = OPENING.replace("[]}", '[[1,[["let",0,["arg",1]]]]]}')
FLAWED_AT = FLAWED.index(',1]]]]]}') + 2

# What runs, its replies, its error, and the second line.
FAULTY = (
    (("script",), SCRIPT + '["stop",0]\n', REPLIES, "line 13: bad line\n", 'unknown word "stop": a line starts with start, step, commit, quit (abort), begin, read, write, remove or cut; before the first of these, with record\n'),
    (("script",), FLAWED, "", "line 1: procedure 5 flaw 3\n", f"column {FLAWED_AT}: procedure 5, at 1 0 2 1: argument 1 is not below 1, the number of arguments\n"),
    (("script",), OPENING + '["record",1,101,7]\n', "", "line 2: bad record\n", 'record 1/101 is there already: an account of line 1 or a record line before makes it; where records follow, line 1 may have "accounts":[]\n'),
    (BANK, JOBS + '["job",0,[\n', "", "line 5: not JSON\n", "column 11: the line ends where its JSON has to go on: each line is a JSON text of its own\n"),
)


def fails_each_allocation_of_an_explanation(sgt):
    """It is left out where there is no memory for it. Else a run ends as it does with memory, or with no memory."""
    counts = {"left out": 0, "told": 0, "no memory": 0}
    for words, given, replies, fault, more in FAULTY:
        same(f"{words}", (2, replies, fault + more), sgt.run(*words, given=given))
        for number in range(1, sgt.allocations(*words, given=given) + 1):
            for last in (number, FOREVER):
                status, out, reported = sgt.run(*words, given=given, refuse_first=number, refuse_last=last)
                what = f"{words}, allocations {number} to {last}"
                same(f"{what}: status", 2, status)
                if reported == "no memory\n":
                    same(f"{what}: standard output", replies[: len(out)], out)
                    counts["no memory"] += 1
                    continue
                same(f"{what}: standard output", replies, out)
                same(f"{what}: the fault", fault, reported[: len(fault)])
                if reported[len(fault) :] not in ("", more):
                    raise Differs(f"{what}: came {reported!r:.400}")
                counts["told" if reported[len(fault) :] else "left out"] += 1
    if not counts["left out"]:
        raise Differs("nothing was left out")
    return ", ".join(f"{count} {what}" for what, count in counts.items())


# Writes


def writes_up_to_a_failure(sgt):
    """As much as fits at a time, and a byte at a time; with just enough capacity nothing fails."""
    for words, given, wanted in ((["script"], SCRIPT, WRITTEN), (BANK, JOBS, REPORT)):
        for failing in ("write_fails_after", "write_stops_after"):
            for more in ({}, {"write_at_most": 1}):
                for size in range(len(wanted)):
                    came = sgt.run(*words, given=given, **{failing: size}, **more)
                    same(f"{words[0]}, {failing} {size}", (2, wanted[:size], "writing failed\n"), came)
                came = sgt.run(*words, given=given, **{failing: len(wanted)}, **more)
                same(f"{words[0]}, {failing} {len(wanted)}", (0, wanted, ""), came)


def writes_byte_by_byte(sgt):
    same("script", (0, WRITTEN, ""), sgt.run("script", given=SCRIPT, write_at_most=1))
    same("bank", (0, REPORT, ""), sgt.run(*BANK, given=JOBS, write_at_most=1))


# Reads


def replies_to(given):
    """The replies to the whole lines after the first one."""
    return "".join(REPLIES.splitlines(True)[: max(given.count("\n") - 1, 0)])


def answers_whole_lines_up_to_a_failed_read(sgt):
    for size in range(len(SCRIPT) + 1):
        for more in ({}, {"read_at_most": 7}):
            came = sgt.run("script", given=SCRIPT, read_fails_after=size, **more)
            same(f"after {size} bytes", (2, replies_to(SCRIPT[:size]), "reading failed\n"), came)
    for size in range(len(JOBS) + 1):
        came = sgt.run(*BANK, given=JOBS, read_fails_after=size)
        same(f"bank, after {size} bytes", (2, "", "reading failed\n"), came)


def reads_byte_by_byte(sgt):
    same("script", (0, WRITTEN, ""), sgt.run("script", given=SCRIPT, read_at_most=1))
    same("bank", (0, REPORT, ""), sgt.run(*BANK, given=JOBS, read_at_most=1))


# Lines

BAD_LINES = (
    b'["step",-1]',
    b'["step",4294967296]',
    b'["step",0.5]',
    b'["step","0"]',
    b'["step"]',
    b'["step",0,0]',
    b'["start",65536,[]]',
    b'["start",0,[1,2,3,4,5]]',
    b'["start",0,[1],0]',
    b'["start",0,[9223372036854775808]]',
    b'["job",0,[1]]',
    b'{"step":0}',
    b"7",
    b"null",
)
NO_JSON = (b"", b"\xff", b'["step",0]]', b'["step",0', b"[" * 200, b"\x00", b'["st\xc3(p",0]', b"step 0")


def refuses_bad_lines(sgt):
    for lines, fault in ((BAD_LINES, "bad line"), (NO_JSON, "not JSON")):
        for line in lines:
            came = sgt.run("script", given=OPENING.encode() + line + b"\n" + EVENTS.encode())
            same(f"line 2 {line!r:.60}", (2, "", f"line 2: {fault}\n"), first_line(came))
            came = sgt.run("script", given=SCRIPT.encode() + line + b"\n")
            same(f"last line {line!r:.60}", (2, REPLIES, f"line 13: {fault}\n"), first_line(came))


def padded(size):
    return '["step",9]'.ljust(size)


def takes_lines_up_to_their_limit(sgt):
    """In small pieces and in large ones, with a newline at the end and without."""
    for more in ({}, {"read_at_most": 97}, {"read_at_most": 9_999}):
        for end in ("\n", ""):
            came = sgt.run("script", given=OPENING + padded(LONGEST_LINE) + end, **more)
            same(f"at the limit, {more}", (0, "unknown\n" + RECORDS, ""), came)
            came = sgt.run("script", given=OPENING + padded(LONGEST_LINE + 1) + end, **more)
            same(f"one byte longer, {more}", (2, "", "line 2: long line\n"), first_line(came))
        came = sgt.run("script", given=OPENING + padded(LONGEST_LINE + 1) + "\n" + EVENTS, **more)
        same(f"lines behind it, {more}", (2, "", "line 2: long line\n"), first_line(came))


def takes_an_input_up_to_its_limit(sgt):
    line = padded(LONGEST_LINE) + "\n"
    whole = (LONGEST_INPUT - len(OPENING)) // len(line)
    given = OPENING + line * (whole + 2)
    same("an endless input", (2, "unknown\n" * whole, "input too long\n"), first_line(sgt.run("script", given=given)))


CASES = [
    fails_each_allocation_of_a_script,
    fails_each_allocation_of_a_script_with_cuts,
    fails_each_allocation_of_an_explanation,
    writes_up_to_a_failure,
    writes_byte_by_byte,
    answers_whole_lines_up_to_a_failed_read,
    reads_byte_by_byte,
    refuses_bad_lines,
    takes_lines_up_to_their_limit,
    takes_an_input_up_to_its_limit,
]


def main():
    if len(sys.argv) != 2:
        sys.exit(__doc__)
    return run_failing_cases(CASES, sys.argv[1])


if __name__ == "__main__":
    sys.exit(main())
