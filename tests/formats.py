#!/usr/bin/env python3
"""Runs the built program on tables of lines, openings and procedures, and compares each output with the pages on formats and on the
language.

    tests/formats.py crates/sgt/out/sgt

Each case is reported as in `tests/program.py`, and the last line counts them.
"""

import json
import os
import random
import re
import subprocess
import sys
import tempfile
import threading

sys.dont_write_bytecode = True
from helpers.cases import SECONDS, Differs, first_line, same, run_cases  # noqa: E402

# The most bytes of a line, and of an input.
LONGEST_LINE = 65_536
LONGEST_INPUT = 16_777_216

# The greatest value.
MOST = 999_999_999_999_999


class Program:
    """The program under test, at its path."""

    def __init__(self, path):
        self.path = os.path.abspath(path)

    def run(self, *words, given):
        """Status, standard output and standard error."""
        given = given if isinstance(given, bytes) else given.encode()
        try:
            ran = subprocess.run([self.path, *words], input=given, capture_output=True, timeout=SECONDS, check=False)
        except subprocess.TimeoutExpired:
            raise Differs(f"{given!r:.200}: no end after {SECONDS} seconds") from None
        return ran.returncode, ran.stdout.decode(), ran.stderr.decode()

    def fault(self, *words, given):
        """The same, with the first line of standard error alone."""
        return first_line(self.run(*words, given=given))

    def start(self, *words):
        pipes = {"stdin": subprocess.PIPE, "stdout": subprocess.PIPE, "stderr": subprocess.PIPE}
        return subprocess.Popen([self.path, *words], **pipes)


def opening(limits="[1,1]", accounts="[]", procedures=""):
    """An opening with these procedures, the texts of which are separated by commas."""
    return f'{{"limits":{limits},"accounts":{accounts},"procedures":[{procedures}]}}'


def rows(table):
    """What stands before the first colon of each line, and after it."""
    return [line.split(": ", 1) for line in table.strip("\n").split("\n")]


def are_answered(sgt, first, table):
    """Each line of a table has a line of one script behind this opening, and its reply before it."""
    wanted, lines = zip(*rows(table))
    status, out, err = sgt.run("script", given="\n".join([first, *lines, ""]))
    same("standard error and status", ("", 0), (err, status))
    came = out.splitlines()[: len(lines)]
    for line, one, other in zip(lines, wanted, came):
        same(line, one, other)
    same("how many replies", len(lines), len(came))


# Lines

TWO_ARGUMENTS = '[2,[["answer",["arg",0]],["answer",["arg",1]]]]'

EVENTS = r"""
started 0: ["start",5,[1,-999999999999999]]
started 1: ["start",5,[999999999999999,0]]
started 2: ["start",5,[0,0]]
started 3: [ "start" , 5, [7 ,8]	]
started 4: ["\u0073tart",5,[0,0]]
unknown: ["step",4294967295]
ended: ["step",0]
committed 1 -999999999999999: ["comm\u0069t",0]
over committed: ["commit",0]
aborted quit fell none: ["quit",4]
over aborted quit: ["step",4]
ended: ["step",3]
committed 7 8: ["commit",3]
committed 999999999999999 0: ["commit",1]
"""

STARTS = """
no procedure: ["start", 65534, [1,-1000000000000000]]\r
bad args: ["start", 65535, [1,-1000000000000000]]\r
bad args: ["start", 5, [1,-1000000000000000]]\r
bad args: ["start", 5, [1000000000000000,1]]
bad args: ["start",5,[9223372036854775807,-9223372036854775808]]
bad args: ["start",5,[1]]
bad args: ["start",5,[1,2,3,4]]
no procedure: ["start",6,[1,2]]
started 0: ["start", 5, [1,-999999999999999]]\r
"""

# Behind an opening whose procedure 5 has two answers and no access, and whose procedure 6 writes two records.
TWO_WRITES = '[0,[["put",3,7,5],["put",3,8,6]]]'

ACCESSES = r"""
started 0: ["begin"]
started 1: ["start",65535,[]]
started 2: ["start",5,[1,2]]
started 3: ["start",6,[]]
ended: ["step",0]
read 3/9 none: ["read",0,3,9]
wrote 3/9 41: ["write",0,3,9,41]
read 3/9 41: ["read",0,3,9]
removed 3/9: ["remove",0,3,9]
read 3/9 none: ["read", 0, 3, 9]
removed 4/-1: [ "remove" , 0, 4 ,-1 ]
wrote 7/999999999999999 -999999999999999: ["write", 0, 7, 999999999999999, -999999999999999]
wrote 0/0 0: ["wr\u0069te",0,0,0,0]
bad args: ["write",0,0,0,1000000000000000]
bad args: ["write",0,0,0,-9223372036854775808]
bad args: ["write" ,0,0,0,9223372036854775807]
read 0/0 0: ["read",0,0,0]
wrote 3/1 5: ["write",2,3,1,5]
committed 1 2: ["commit",2]
not ended: ["read",3,3,1]
not ended: ["write",3,3,1,1000000000000000]
wrote 3/7 5: ["step",3]
not ended: ["remove",3,3,1]
wrote 3/8 6: ["step",3]
removed 3/7: ["remove",3,3,7]
read 3/8 6: ["read",3,3,8]
committed none: ["commit",3]
over committed: ["read",3,3,8]
over committed: ["write",3,3,8,1000000000000000]
unknown: ["read",4,3,8]
unknown: ["write",4294967295,3,8,1000000000000000]
committed none: ["commit",0]
aborted quit fell none: ["quit",1]
over aborted quit: ["remove",1,3,8]
started 4: [ "begin" ]
started 5: ["b\u0065gin"]
read 3/8 6: ["read",4,3,8]
read 3/1 5: ["read",5,3,1]
wrote 3/8 7: ["write",5,3,8,7]
aborted cycle 4 5 fell none: ["write",4,3,1,9]
over aborted cycle 4 5: ["remove",4,3,1]
committed none: ["commit",5]
started 6: ["begin"]
started 7: ["begin"]
removed 3/8: ["remove",6,3,8]
read 3/8 none: ["read",7,3,8]
waits 6: ["commit",7]
aborted quit fell 7: ["quit",6]
over fell 6: ["read",7,3,8]
started 8: ["begin"]
read 3/8 7: ["read",8,3,8]
removed 3/8: ["remove",8,3,8]
still live: ["cut"]
committed none: ["commit",8]
cut 53: ["cut"]
started 0: ["begin"]
read 3/8 none: ["read",0,3,8]
read 3/1 5: ["read",0,3,1]
"""

NO_EVENTS = """
["start",0,[1.0]]
["start",0,[1,2,3,4,5]]
["start",65536,[]]
["step",4294967296]
["step",0,0]
["step",-0]
["step",1e0]
["start",0,[1],2]
["start",0,[[1]]]
[["step",0]]
"begin"
["begin",0]
["Begin"]
["begin",[]]
["read",0,3]
["read",0,3,1,1]
["read",0,8,1]
["read",0,-1,1]
["read",0,256,1]
["read",3,0,1000000000000000]
["read",0,3,-1000000000000000]
["read",0,3,9223372036854775808]
["read",4294967296,3,1]
["read",-1,3,1]
["read",0,3,1.0]
["read",0,3,-0]
["read",0,"3",1]
["remove",0,3]
["remove",0,3,1,1]
["remove",0,8,1]
["remove",0,3,1000000000000000]
["write",0,3,1]
["write",0,3,1,1,1]
["write",0,3,1,null]
["write",0,3,1,"1"]
["write",0,3,1,1.5]
["write",0,3,1,9223372036854775808]
["write",0,8,1,1]
["write",0,3,1000000000000000,1]
["write",0,[3,1],1]
["job",0,[]]
"""

NO_JSON = (b"", b'["step",0', b'["step",\xff]')

# A space may stand after a comma, and nowhere inside a number or a word. Numbers are of eighteen digits, and of nineteen.
SPELLINGS = """
bad args: ["start", 5, [999999999999999999, -999999999999999999]]
bad args: ["start",5,[1000000000000000000,-1000000000000000000]]
bad args: ["start", 5, [1, 2, 3]]
no procedure: ["start", 65534, []]
started 0: ["start", 5, [1, -2]]
started 1: ["start",  5,  [3,  -4]]
started 2: ["start", 5 , [5,6 ] ]
ended: ["step", 0]
ended: ["step",  1]
unknown: ["quit", 4294967295]
committed 1 -2: ["commit", 0]
committed 3 -4: ["commit", 1 ]
committed 5 6: ["commit",2]
"""

NO_SPELLINGS = """
["step",1 2]
["step", 1 2]
["step",01]
["step", 00]
["step",-]
["step",- 1]
["start",5,[1 2]]
["start",5,[- 1,2]]
["start",5,[01,2]]
["start",5,[1,]]
["start",5,[,1]]
["step", ]
["step",0]]
"""


def reads_events(sgt):
    are_answered(sgt, opening("[8,100]", procedures=TWO_ARGUMENTS), EVENTS)


def reads_accesses_of_callers(sgt):
    are_answered(sgt, opening("[8,100]", procedures=f"{TWO_ARGUMENTS},{TWO_WRITES}"), ACCESSES)


def takes_any_number_of_accesses_of_a_caller(sgt):
    many = 20_000
    writes = [(f'["write",0,7,{number},{-number}]', f"wrote 7/{number} {-number}") for number in range(many)]
    reads = [(f'["read",0,7,{number}]', f"read 7/{number} {-number}") for number in range(many)]
    table = [('["begin"]', "started 0"), *writes, *reads, ('["commit",0]', "committed none")]
    are_answered(sgt, opening(), "\n".join(f"{reply}: {line}" for line, reply in table))


def reads_either_spelling(sgt):
    are_answered(sgt, opening("[8,100]", procedures=TWO_ARGUMENTS), SPELLINGS)


def takes_no_space_inside_a_number(sgt):
    for line in NO_SPELLINGS.split("\n")[1:-1]:
        same(line, (2, "", "line 2: not JSON\n"), sgt.fault("script", given=f"{opening()}\n{line}\n"))
        job = line.replace("step", "job").replace("start", "job")
        same(job, (2, "", "line 2: not JSON\n"), sgt.fault("bank", "--workers", "1", given=f"{opening()}\n{job}\n"))


def reads_starts(sgt):
    are_answered(sgt, opening("[8,100]", procedures=TWO_ARGUMENTS), STARTS)


def refuses_lines_of_no_event(sgt):
    for line in NO_EVENTS.split("\n")[1:-1]:
        same(line, (2, "", "line 2: bad line\n"), sgt.fault("script", given=f"{opening()}\n{line}\n"))


def refuses_lines_of_no_json(sgt):
    for line in NO_JSON:
        same(line, (2, "", "line 2: not JSON\n"), sgt.fault("script", given=opening().encode() + b"\n" + line + b"\n"))


def reads_jobs(sgt):
    given = f'{opening("[4,9]", procedures=TWO_ARGUMENTS)}\n["job",5,[101,-3]]\n["job",65534,[]]\n["job",5,[]]\n["job",65535,[]]\n'
    same("a bank", (0, "0 committed 101 -3\n1 refused 1\n2 refused 2\n3 committed none\n", ""), sgt.run("bank", given=given))
    for line in NO_EVENTS.replace("start", "job").split("\n")[1:-2]:
        same(line, (2, "", "line 2: bad line\n"), sgt.fault("bank", "--workers", "1", given=f"{opening()}\n{line}\n"))


def numbers_procedures_as_they_stand_in_the_opening(sgt):
    given = opening("[2,2]", procedures=",".join(["[0,[]]"] * 9_000))
    are_answered(sgt, given, 'started 0: ["start",9004,[]]\nno procedure: ["start",9005,[]]')


def numbers_transactions_by_their_starts(sgt):
    many = 100_001
    events = "".join(f'["start",5,[]]\n["commit",{t}]\n' for t in range(many))
    wanted = "".join(f"started {t}\ncommitted none\n" for t in range(many))
    came = sgt.run("script", given=f'{opening("[1,4000000000]", procedures="[0,[]]")}\n{events}')
    same("standard error and status", ("", 0), (came[2], came[0]))
    for one, other in zip(wanted.splitlines(), came[1].splitlines()):
        same("a reply", one, other)
    same("how many replies", 2 * many, came[1].count("\n"))


# Records after line 1

# Behind an opening of the account [1,101,500,1000].
PUT_RECORDS = """
3/7 41: ["record",3,7,41]
0/2 102: ["record",0,2,102]
7/0 0: [ "record" , 7 , 0 , 0 ]
4/0 -5: ["record", 4, 0, -5]
6/8 100: ["record",6, 8,100]
3/-999999999999999 -999999999999999: ["record",3,-999999999999999,-999999999999999]
5/999999999999999 999999999999999: ["r\\u0065cord",5,999999999999999,999999999999999]
"""

BAD_RECORDS = """
["record",8,1,1]
["record",-1,1,1]
["record",256,1,1]
["record",3,1000000000000000,1]
["record",3,-1000000000000000,1]
["record",3,1,1000000000000000]
["record",3,1,-1000000000000000]
["record",9223372036854775807,-9223372036854775808,0]
["record",0,1,101]
["record",1,101,501]
["record",2,101,1000]
["record",4,7,7]
"""

NO_RECORDS = """
["record",3,1]
["record",3,1,1,1]
["record",3,1,1.0]
["record", 3, 1, -0]
["record", 3, 1, [1]]
["record",3,1,9223372036854775808]
["record","3",1,1]
["records",3,1,1]
["Record",3,1,1]
["record",3,1,1e0]
[["record",3,1,1]]
{"record":[3,1,1]}
"""


def key_of(row):
    table, number = row.split(" ")[0].split("/")
    return int(table), int(number)


def puts_records_after_the_opening(sgt):
    first = opening(accounts="[[1,101,500,1000]]")
    accounts = ["0/1 101", "1/101 500", "2/101 1000"]
    table = rows(PUT_RECORDS)
    for row, line in table:
        wanted = "".join(f"{reported}\n" for reported in sorted([*accounts, row], key=key_of))
        same(line, (0, wanted, ""), sgt.run("script", given=f"{first}\n{line}\n"))
        same(line, (0, wanted, ""), sgt.run("bank", "--workers", "1", given=f"{first}\n{line}"))
    wanted = "".join(f"{reported}\n" for reported in sorted([*accounts, *(row for row, _ in table)], key=key_of))
    lines = "".join(f"{line}\n" for _, line in table)
    same("all", (0, wanted, ""), sgt.run("script", given=f"{first}\n{lines}"))


def puts_no_bad_record(sgt):
    first = opening(accounts="[[1,101,500,1000]]") + '\n["record",4,7,8]\n'
    for line in BAD_RECORDS.split("\n")[1:-1]:
        for command in (["script"], ["bank", "--workers", "1"], ["script", "--history"], ["script", "--records"]):
            same(line, (2, "", "line 3: bad record\n"), sgt.fault(*command, given=f"{first}{line}\n[]\n"))


def ends_the_records_at_any_other_line(sgt):
    first = opening("[1,9]", "[[1,101,500,1000]]", "[0,[]]")
    for line in NO_RECORDS.split("\n")[1:-1]:
        for command in (["script"], ["bank", "--workers", "1"]):
            same(line, (2, "", "line 3: bad line\n"), sgt.fault(*command, given=f'{first}\n["record",4,7,8]\n{line}\n["record",4,7,8]\n'))
    record = '["record",3,1,1]\n'
    same("behind an event", (2, "started 0\n", "line 3: bad line\n"), sgt.fault("script", given=f'{first}\n["start",5,[]]\n{record}'))
    same("behind a cut", (2, "cut 0\n", "line 3: bad line\n"), sgt.fault("script", given=f'{first}\n["cut"]\n{record}'))
    same("behind a job", (2, "", "line 3: bad line\n"), sgt.fault("bank", "--workers", "1", given=f'{first}\n["job",5,[]]\n{record}'))
    same("in place of line 1", (2, "", "line 1: bad line\n"), sgt.fault("script", given=record))
    same("behind no JSON", (2, "", "line 2: not JSON\n"), sgt.fault("script", given=f"{first}\n\n{record}"))


def tests_line_1_before_the_records(sgt):
    same("limits", (2, "", "line 1: bad limits\n"), sgt.fault("script", given=opening("[0,1]") + '\n["record",8,1,1]\n'))
    same("a flaw", (2, "", "line 1: procedure 5 flaw 2\n"), sgt.fault("script", given=opening(procedures='[0,[["answer",["reg",0]]]]') + '\n["record",8,1,1]\n'))
    same("a long line", (2, "", "line 2: long line\n"), sgt.fault("script", given=opening() + '\n["record",8,1,1' + " " * LONGEST_LINE + "]\n"))


def numbers_lines_and_jobs_after_records(sgt):
    first = opening("[2,2]", procedures="[0,[]]") + "\n" + "".join(f'["record",3,{number},0]\n' for number in range(3))
    database = "".join(f"3/{number} 0\n" for number in range(3))
    same("an event", (2, "started 0\n", "line 6: bad line\n"), sgt.fault("script", given=f'{first}["start",5,[]]\n[]\n'))
    same("a job", (0, "0 committed none\n1 committed none\n" + database, ""), sgt.run("bank", "--workers", "1", given=first + '["job",5,[]]\n' * 2))
    same("explained", (0, "started 0\n" + database, "1 transaction is live at the end: 0\n"), sgt.run("script", "--explain", given=first + '["start",5,[]]\n'))


def puts_as_many_records_as_an_input_can_hold(sgt):
    """In the order of their keys; and some of them with half after the other half, and against that order."""
    many, few = 600_000, 2_000
    for numbers in (range(many), [*range(1, few, 2), *range(0, few, 2)], range(few, 0, -1)):
        lines = "".join(f'["record",7,{number},{number % 7}]\n' for number in numbers)
        database = "".join(f"7/{number} {number % 7}\n" for number in sorted(numbers))
        status, out, err = sgt.run("script", given=opening() + "\n" + lines)
        same(f"{len(lines)} bytes of records", (0, "", True), (status, err, out == database))
        status, out, err = sgt.run("bank", "--records", given=opening("[4,1]") + "\n" + lines)
        records = "".join(f'["record",7,{number},{number % 7}]\n' for number in sorted(numbers))
        same(f"{len(lines)} bytes of records of a bank", (0, "", True), (status, err, out == records))


def asks_for_a_million_jobs_after_records(sgt):
    given = opening("[1,1]") + '\n["record",3,1,1]\n["record",3,2,1]\n' + '["job",9,[]]\n' * 1_000_000
    status, out, err = sgt.run("bank", "--workers", "1", given=given)
    same("a million", (0, "", "999999 refused 1\n3/1 1\n3/2 1\n"), (status, err, out[-32:][out[-32:].index("999999") :]))
    same("one more", (2, "", "too many jobs\n"), sgt.fault("bank", "--workers", "1", given=given + '["job",9,[]]\n'))


# Openings

NO_SHAPE = """
not JSON: {"limits":[1,1]
bad line: []
bad line: {"limits":[1,1],"accounts":[]}
bad line: {"limits":[1,1],"accounts":[],"procedures":[],"more":0}
bad line: {"limits":[1],"accounts":[],"procedures":[]}
bad line: {"limits":[1,1.0],"accounts":[],"procedures":[]}
bad line: {"limits":[0,1],"accounts":[[1,2,3]],"procedures":[7]}
"""

LIMITS_FIRST = """
bad limits: {"limits":[33,1],"accounts":[[1,2,3,1000000000000000]],"procedures":[]}
bad limits: {"limits":[1,4000000001],"accounts":[],"procedures":[]}
bad limits: {"limits":[-1,4294967297],"accounts":[],"procedures":[]}
bad limits: {"limits":[0,1],"accounts":[],"procedures":[7]}
"""

ACCOUNTS = """
bad opening 1: {"limits":[1,1],"accounts":[[1,101,0,0],[1,101,0,0]],"procedures":[]}
bad opening 2: {"limits":[1,1],"accounts":[[1,101,0,0],[2,101,0,0]],"procedures":[]}
bad opening 3: {"limits":[1,1],"accounts":[[1,101,0,0],[1,101,0,1000000000000000],[1,1,1,1]],"procedures":[]}
bad opening 1: {"limits":[1,1],"accounts":[[1,1,1,1],[1,2,1,1]],"procedures":[7]}
"""

FIRST_FAULT = """
bad opening 1: {"limits":[1,1],"accounts":[[7,9,600,-400],[7,9,600,-400],[7,9,600,1000000000000000]],"procedures":[]}
bad opening 1: {"limits":[1,1],"accounts":[[7,9,600,-400],[7,11,600,-400],[8,9,600,-400]],"procedures":[]}
bad opening 2: {"limits":[1,1],"accounts":[[7,9,600,-400],[8,9,600,-400],[7,11,600,-400]],"procedures":[]}
bad opening 3: {"limits":[1,1],"accounts":[[7,9,600,-400],[7,9,600,1000000000000000],[7,11,600,-400]],"procedures":[]}
"""

REFUSED_PROCEDURES = """
procedure 6 shape 1 0: {"limits":[1,1],"accounts":[],"procedures":[[0,[]],[0,[["jump"]]],7]}
procedure 5 flaw 2: {"limits":[1,1],"accounts":[],"procedures":[[0,[["answer",["reg",0]]]],7]}
"""


def are_refused(sgt, table):
    for fault, line in rows(table):
        same(line, (2, "", f"line 1: {fault}\n"), sgt.fault("script", given=line))


def refuses_openings_of_no_shape(sgt):
    are_refused(sgt, NO_SHAPE)


def tests_limits_before_accounts_and_procedures(sgt):
    are_refused(sgt, LIMITS_FIRST)


def takes_limits_up_to_their_ends(sgt):
    for limits in ("[1,1]", "[32,4000000000]", "[1,1,0]", "[1,1,1]"):
        same(limits, (0, "", ""), sgt.run("script", given=opening(limits)))
    for limits in ("[0,10]", "[33,10]", "[1,0]", "[1,4000000001]", "[1,1,-1]", "[1,1,2]"):
        same(limits, (2, "", "line 1: bad limits\n"), sgt.fault("script", given=opening(limits)))


def refuses_accounts(sgt):
    are_refused(sgt, ACCOUNTS)


def reports_the_first_fault(sgt):
    are_refused(sgt, FIRST_FAULT)


def refuses_procedures(sgt):
    are_refused(sgt, REFUSED_PROCEDURES)


# Procedures as JSON

PLACES = """
shape top: 7
shape top: {}
shape top: []
shape top: [0]
shape top: [0,[],[]]
shape 0: [300,[]]
shape 1: [0,5]
shape 1 0: [0,[["jump"]]]
shape 1 1 2: [0,[["ask",1],["let",0,"x"]]]
shape 1 0 1: [0,[["answer",["sum",1]]]]
shape 1 0 1: [0,[["answer",["product",1,2,3]]]]
shape 1 0 1 2: [0,[["answer",["quotient",1,"x"]]]]
"""

NO_ROW = """
shape 1 0: [0,[[]]]
shape 1 0: [0,[[7,1]]]
shape 1 0: [0,[["Ask",1]]]
shape 1 0: [0,[["arg",1]]]
shape 1 0: [0,[["ask",1,2]]]
shape 1 0: [0,[["look",0,0,0]]]
shape 1 0: [0,[["look",0,0,0,1,1]]]
shape 1 0: [0,[["find",0,0,0]]]
shape 1 0: [0,[["find",0,0,0,1,1]]]
shape 1 0: [0,[["remove",0]]]
shape 1 0: [0,[["remove",0,0,0]]]
shape 1 0: [0,[["Remove",0,0]]]
shape 1 0: [0,[["if",["less",0,1],[]]]]
shape 1 0 1: [0,[["answer",["less",0,1]]]]
shape 1 0 1: [0,[["if",["sum",0,1],[],[]]]]
shape 1 0 1: [0,[["if",["product",0,1],[],[]]]]
shape 1 0: [0,[["quotient",0,1]]]
shape 1 0 1: [0,[["if",["less",0],[],[]]]]
"""

OTHER_KINDS = """
shape 0: ["1",[]]
shape 1: [0,{}]
shape 1 0: [0,["ask"]]
shape 1 0: [0,[{"ask":1}]]
shape 1 0 1: [0,[["answer",null]]]
shape 1 0 1: [0,[["answer",1.0]]]
shape 1 0 1: [0,[["if",true,[],[]]]]
shape 1 0 2: [0,[["if",["less",0,1],5,[]]]]
"""

DEEP_BLOCKS = """
shape 1 1 3 2 2 0: [0,[["ask",1],["if",["less",0,1],[],[["ask",1],["ask",1],["if",["most",0,1],[["jump",1]],[]]]]]]
"""

FIRST_SHAPE_ERROR = """
shape 0: [300,5]
shape 1 0: [0,[["look",256,0,0]]]
shape 1 0 2: [0,[["look",0,256,"x",65536]]]
shape 1 0 1: [0,[["ask",65536],7]]
shape 1 0 1 2: [0,[["if",["same",1,[]],5,5]]]
shape 1 0 2 1 1: [0,[["put",0,["sum",["arg",256],[]],[]]]]
"""

PAST_RANGES = """
shape 0: [256,[]]
shape 0: [-1,[]]
shape 1 0 1: [0,[["ask",65536]]]
shape 1 0 1: [0,[["ask",-1]]]
shape 1 0 1: [0,[["let",256,0]]]
shape 1 0 1: [0,[["put",256,0,0]]]
shape 1 0 1: [0,[["remove",256,"x"]]]
shape 1 0 2: [0,[["remove",0,"x"]]]
shape 1 0 2 1: [0,[["remove",0,["reg",256]]]]
shape 1 0 1: [0,[["look",256,0,0,0]]]
shape 1 0 2: [0,[["look",0,256,0,0]]]
shape 1 0 4: [0,[["look",0,0,0,65536]]]
shape 1 0 1: [0,[["find",256,0,0,0]]]
shape 1 0 2: [0,[["find",0,256,0,0]]]
shape 1 0 3: [0,[["find",0,0,null,"x"]]]
shape 1 0 4: [0,[["find",0,0,0,"x"]]]
shape 1 0 4 1: [0,[["find",0,0,0,["reg",256]]]]
shape 1 0 1 1: [0,[["answer",["arg",256]]]]
shape 1 0 1 1: [0,[["answer",["reg",256]]]]
shape 1 0 1: [0,[["answer",9223372036854775808]]]
shape 1 0 1: [0,[["answer",-9223372036854775809]]]
"""

# They are read, up to the ends of the ranges here, and have flaws.
ENDS_OF_RANGES = """
flaw 3: [0,[["look",0,0,["arg",0],0],["ask",0]]]
flaw 1: [255,[["look",255,255,["arg",255],65535],["ask",65535]]]
flaw 1: [0,[["let",255,["reg",255]],["put",255,0,0]]]
flaw 10: [0,[["put",0,9223372036854775807,-9223372036854775808]]]
"""

EACH_WAY = """
flaw 2: [1,[["if",["less",["arg",0],0],[["let",0,1]],[]],["answer",["reg",0]]]]
no flaw: [1,[["if",["less",["arg",0],0],[["ask",1]],[["let",0,1]]],["answer",["reg",0]]]]
"""

FLAWS = """
flaw 8: [0,[["ask",0]]]
flaw 8: [0,[["ask",1000]]]
flaw 9: [5,[]]
flaw 10: [0,[["answer",1000000000000000]]]
flaw 1: [5,[["let",16,1000000000000000]]]
flaw 3: [0,[["answer",["arg",0]]]]
flaw 4: [0,[["put",8,1,1]]]
flaw 1: [0,[["let",0,["product",1,["reg",16]]]]]
flaw 2: [0,[["let",0,["product",["reg",0],1]]]]
flaw 3: [0,[["let",0,["quotient",["arg",0],1]]]]
flaw 10: [0,[["let",0,["quotient",1,1000000000000000]]]]
no flaw: [0,[["let",0,["quotient",1,0]]]]
flaw 1: [0,[["remove",8,["reg",16]]]]
flaw 2: [0,[["remove",8,["reg",0]]]]
flaw 3: [0,[["remove",8,["arg",0]]]]
flaw 4: [0,[["remove",8,1000000000000000]]]
flaw 10: [0,[["remove",7,1000000000000000]]]
no flaw: [1,[["remove",7,["arg",0]]]]
flaw 1: [0,[["find",16,0,0,0]]]
flaw 2: [0,[["find",0,0,["reg",0],0]]]
flaw 2: [0,[["find",0,0,0,["reg",0]]]]
flaw 3: [0,[["find",0,0,0,["arg",0]]]]
flaw 4: [0,[["find",0,8,0,0]]]
flaw 10: [0,[["find",0,0,0,1000000000000000]]]
no flaw: [0,[["find",0,0,0,1000],["answer",["reg",0]]]]
"""


def says(sgt, text, wanted):
    """Whether this is said of an opening's only procedure."""
    came = sgt.fault("script", given=opening(procedures=text))
    same(text, (0, "", "") if wanted == "no flaw" else (2, "", f"line 1: procedure 5 {wanted}\n"), came)


def say(sgt, table):
    for wanted, text in rows(table):
        says(sgt, text, wanted)


def reports_the_place_of_a_shape_error(sgt):
    say(sgt, PLACES)


def reports_a_list_of_no_row(sgt):
    say(sgt, NO_ROW)


def reports_a_thing_of_another_kind(sgt):
    say(sgt, OTHER_KINDS)


def finds_an_unknown_word_in_deep_blocks(sgt):
    say(sgt, DEEP_BLOCKS)


def reports_the_first_shape_error(sgt):
    say(sgt, FIRST_SHAPE_ERROR)


def reports_numbers_past_their_ranges(sgt):
    say(sgt, PAST_RANGES)


def reads_numbers_up_to_the_ends_of_their_ranges(sgt):
    say(sgt, ENDS_OF_RANGES)


def reports_the_longest_place(sgt):
    """As deep as a line may be, with five lists and objects round the sums."""
    for sums, wanted in ((122, f"procedure 5 shape 1 0 1{' 2' * 61}{' 1' * 61}"), (123, "not JSON")):
        value = "null"
        for depth in range(sums):
            value = f'["sum",{value},0]' if depth < 61 else f'["sum",0,{value}]'
        came = sgt.fault("script", given=opening(procedures=f'[0,[["answer",{value}]]]'))
        same(f"{sums} sums", (2, "", f"line 1: {wanted}\n"), came)


def wants_a_register_set_on_each_way(sgt):
    say(sgt, EACH_WAY)


def reports_the_least_flaw(sgt):
    say(sgt, FLAWS)


def around(before, text, following, times):
    return before * times + text + following * times


def takes_procedures_up_to_their_sizes(sgt):
    depths = [
        ("[0,[", '["if",["less",0,1],[', '["let",0,1]', "],[]]", "]]"),
        *(
            ('[0,[["answer",', before, "1", following, "]]]")
            for before, following in (('["sum",0,', "]"), ('["diff",', ",0]"), ('["product",0,', "]"), ('["quotient",', ",1]"))
        ),
    ]
    sizes = [
        (63, "5", "[0,[", '["let",0,1],', '["let",0,1]', "", "]]"),
        (7, "7", "[0,[", '["answer",1],', '["answer",1]', "", "]]"),
        *((15, "6", *parts) for parts in depths),
    ]
    for times, flaw, front, before, text, following, end in sizes:
        says(sgt, front + around(before, text, following, times) + end, "no flaw")
        says(sgt, front + around(before, text, following, times + 1) + end, f"flaw {flaw}")


def takes_spaces_and_escapes(sgt):
    given = opening(procedures=r' [ 0 , [ [ "a\u0073k" , 1 ] ] ] ')
    are_answered(sgt, given, 'started 0: ["start",5,[]]\naborted asked 1 fell none: ["step",0]')


# Explanations of errors

# What is said of a line whose JSON does not end.
GOES_ON = "the line ends where its JSON has to go on: each line is a JSON text of its own"

# What is said of a line whose JSON ends before the line does, and of what follows it.
ENDS = "the JSON of this line ends before it"
OWN_LINE = "each event, job or record stands on a line of its own"

# What is said of a first line that is too long.
ACCOUNTS_AS_RECORDS = 'accounts may follow as lines, as ["record",0,1,101] for the customer 101 of name 1; 1 and 2 are the tables of saving and checking; procedures stand in line 1 alone'

# What is said of what stands where the name of a member has to.
A_NAME = "the name of a member stands here in double quotes"
A_REQUEST = "an event, a job or a record is a list, in square brackets"

# What is said of a comma with nothing after it, of a bracket that closes nothing, and of a key in one piece.
NO_ITEM = "nothing stands between the comma and this bracket: an item is missing, or the comma is too many"
CLOSES_NOTHING = "an object ends in }, and no list is open: this ] or one before it is too many"
TWO_NUMBERS = "a key is written as two numbers, its table and its number: 2,101 for 2/101"
MADE_BEFORE = 'an account of line 1 or a record line before makes it; where records follow, line 1 may have "accounts":[]'

# Lines that are not JSON, with the column of the first wrong character, and what is said of it.
FIRST_WRONG = (
    # Brackets around the line.
    ('"job",5,[1]', 6, f"{ENDS}: a list stands in square brackets"),
    ('"job": 5', 6, f"{ENDS}: an object stands in {{ }}"),
    ('["begin"],7', 10, f"{ENDS}: {OWN_LINE}"),
    ('["job",5,[1]],["job",5,[1]]', 14, f"{ENDS}: {OWN_LINE}"),
    ('["job",5],[1]]', 10, f"{ENDS}: a ] before it is too many"),
    ('{"limits":[4,1000]},"accounts":[],"procedures":[]}', 20, f"{ENDS}: a }} before it is too many"),
    ('["begin"] # begins', 11, f"{ENDS}: there are no comments"),
    ('["begin"];', 10, ENDS),
    ("]", 1, "nothing is open that this could close"),
    ("}", 1, "nothing is open that this could close"),
    # Objects for lists.
    ('{"job",5,[1]}', 7, f"a colon stands after the name of a member; {A_REQUEST}"),
    ('{"start",0}', 9, f"a colon stands after the name of a member; {A_REQUEST}"),
    ('{"limits",[4,1000]}', 10, "a colon stands after the name of a member"),
    ('{"job":5,[1]}', 10, f"{A_NAME}; {A_REQUEST}"),
    ('["job",5,{1}]', 11, f"{A_NAME}; a list stands in square brackets"),
    ('["job",5,{"a",1}]', 14, "a colon stands after the name of a member"),
    # Separators.
    ('["job":5,[1]]', 7, "a comma separates the items of a list"),
    ('["job",5,[1;2]]', 12, "a comma separates the items of a list"),
    ('["job",5,[1 2]]', 13, "a comma is missing before it"),
    ('["commit"0]', 10, "a comma is missing before it"),
    ('["start"-5,[1]]', 9, "a comma is missing before it"),
    ('["read",0,2/101]', 12, TWO_NUMBERS),
    ('["write",0,2/-101,5]', 13, TWO_NUMBERS),
    ('["read",0,2/x]', 12, "there are no comments"),
    ("0/7 107", 2, 'a record is written as ["record",table,number,value], as --records does'),
    ('{"limits":[4,100],"accounts":[[1,101,500,1000]]],"procedures":[]}', 48, CLOSES_NOTHING),
    ('["step"=0]', 8, "a comma separates the items of a list"),
    ('["step":0]', 8, "a comma separates the items of a list"),
    ('{"limits":[4,1000];"accounts":[]}', 19, "a comma separates the members of an object"),
    ('{"limits":[4,1000],"accounts":[],"procedures":}', 47, "a value is missing after the colon"),
    ('{"limits":[4,1000],"accounts":[],"procedures":]}', 47, "a value is missing after the colon"),
    ('{"limits":,"accounts":[],"procedures":[]}', 11, "a value is missing after the colon"),
    ('{,"limits":[4,1000]}', 2, "nothing stands before the comma"),
    ("[}", 2, "a list ends in ]"),
    ("{]", 2, "an object ends in }"),
    # Lists in lists.
    ('{"limits":[4,1000],"accounts":[],"procedures":[0,[["answer",1]]],[0,[["answer",2]]]}', 66,
     f'{A_NAME}: the list of "procedures" ended at column 64: its own brackets are missing, as in [[1,2],[3,4]]'),
    ('{"limits":[4,1000],"accounts":[1,101,5,5],[2,102,5,5],"procedures":[]}', 43,
     f'{A_NAME}: the list of "accounts" ended at column 41: its own brackets are missing, as in [[1,2],[3,4]]'),
    ('{"limits":[4,1000],"accounts":[[1,101,5,5]],[2,102,5,5]],"procedures":[]}', 45,
     f'{A_NAME}: the list of "accounts" ended at column 43: a ] is too many'),
    ('{"limits":[4],1000],"accounts":[],"procedures":[]}', 15, A_NAME),
    ('{"limits":[4,1000,"accounts":[],"procedures":[]}', 29, "no colon stands in a list: the list that begins at column 11 may lack its ]"),
    ('{"limits":[4,1000],"accounts":[[1,101,5,5],"procedures":[]}', 56, "no colon stands in a list: the list that begins at column 31 may lack its ]"),
    ('{"limits":4,1000,"accounts":[],"procedures":[]}', 13,
     f'{A_NAME}: the value of "limits" ended at column 11, and a list stands in square brackets'),
    # Quotes.
    ('["job,5,[1]]', 2, None),
    ('["start,0,[1]]', 2, None),
    ('{"limits":[4,1000],"accounts":[],"procedures:[]}', 34, None),
    ('["job",5,[1]], "', 14, f"{ENDS}: {OWN_LINE}"),
    ('{"limits":[4,1000],"accounts":[],"procedures":[[1,[["look,0,2,["arg",0],1]]]]}', 65, "the text at column 53 is followed by a word: a quote may be missing in it"),
    ('{"limits:[4,1000],"accounts":[],"procedures":[]}', 20, "the text at column 2 is followed by a word: a quote may be missing in it"),
    ('[job",5,[1]]', 2, "a word stands in double quotes"),
    ("['job',5,[1]]", 2, "a text stands in double quotes"),
    ("[\u00abjob\u00bb,5,[1]]", 2, 'a text stands in plain double quotes, as "step"'),
    ('["job",5,[\u00b51]]', 11, "this is not ASCII"),
    # Values, and what stands in texts.
    ('["job",5,[$5]]', 11, "a value stands here: a number, a text in double quotes, or a list in square brackets"),
    ('["job",5,[None]]', 11, "JSON has null, true and false, in small letters"),
    ('["job",5,(1)]', 10, "a list stands in square brackets"),
    ('["job",5,[1]/* x */]', 13, "there are no comments"),
    ('["jo\tb",5,[1]]', 5, CONTROL := "a tab or another control character stands in a text as \\t, or as \\u and four hexadecimal digits"),
    ('["jo\x1bb",5,[1]]', 5, CONTROL),
    ('["j\\xb",5,[1]]', 4, ESCAPE := 'in a text a backslash stands before ", \\, /, b, f, n, r, t, or u and four hexadecimal digits'),
    ('["j\\u00g0b",5,[1]]', 4, ESCAPE),
    ('["j\\ud800b",5,[1]]', 2, "an escape in this text is half a character"),
)

# A first line, its error, and the explanation.
EXPLAINED_OPENINGS = (
    ("", "not JSON", "column 1: the line is empty: leave it out"),
    ("# mine", "not JSON", "column 1: not JSON from here: there are no comments; a history, which may have some, is read by sgt check"),
    ("// mine", "not JSON", "column 1: not JSON from here: there are no comments"),
    ("/* mine */", "not JSON", "column 1: not JSON from here: there are no comments"),
    ("B1 r1[x] C1", "not JSON", "column 1: not JSON from here: a history like r1[x] is read by sgt check"),
    ("b1 r1[x] c1", "not JSON", "column 1: not JSON from here: a history like r1[x] is read by sgt check"),
    ("{'limits':[1,1]}", "not JSON", "column 2: not JSON from here: a text stands in double quotes"),
    ("{limits:[1,1]}", "not JSON", "column 2: not JSON from here: a word stands in double quotes"),
    ('{"limits":[1,1]', "not JSON", f"column 16: {GOES_ON}"),
    ('{"limits":[1,1],}', "not JSON", f"column 17: not JSON from here: {NO_ITEM}"),
    ('{"limits":[1,1],"accounts":[],"procedures":[[0,[["answer",1]],[0,[]]]}', "not JSON",
     'column 63: ] is expected here: a bracket is missing or too many in or after ["answer",1]] at column 49, a statement of procedure 5, which begins at column 45'),
    ('{"limits":[1,1],"accounts":[],"procedures":[[0,[["ask",1]]],[ 12 , [["answer",["sum",1,2]]]}', "not JSON",
     'column 92: ] is expected here: a bracket is missing or too many in or after ["answer",["sum",1,2]]] at column 69, a statement of procedure 6, which begins at column 61'),
    ('{"limits":[1,1e999],"accounts":[]}', "not JSON", "column 19: the number before it is too large"),
    ("r1[x] w2[x]", "not JSON", "column 1: not JSON from here: a history like r1[x] is read by sgt check"),
    ("{:type :ok, :process 0}", "not JSON", "column 1: not JSON from here: what clients saw is read by sgt check --model list-append"),
    ('{"limits":[1,1] "accounts":[]}', "not JSON", "column 17: not JSON from here: a comma is missing before it"),
    ('{"limits" [1,1]}', "not JSON", "column 11: not JSON from here: a colon is missing before it"),
    ('{"limits"=[1,1]}', "not JSON", "column 10: not JSON from here: a colon stands after the name of a member"),
    ('{"type":"ok","process":0,"value":[]}', "bad line", "an entry of what clients saw stands here: sgt check --model list-append reads it"),
    ("[]", "bad line", 'expected an opening, as {"limits":[16,1000,1],"accounts":[],"procedures":[]}, found []'),
    ('{"limits":[1,1],"accounts":[]}', "bad line", 'the member "procedures" is missing'),
    ('{"limit":[1,1],"accounts":[],"procedures":[]}', "bad line", 'the member "limits" is missing, and "limit" is unknown'),
    ('{"limits":[1,1],"accounts":[],"procedures":[],"more":0}', "bad line", 'the member "more" is unknown'),
    ('{"limits":[1,1],"accounts":[],"procedures":[],"records":[[3,1,7]]}', "bad line",
     'the member "records" is unknown: records are lines after line 1, as ["record",3,1,7]'),
    ('{"limits":[1,1],"accounts":[],"record":[]}', "bad line",
     'the member "procedures" is missing, and "record" is unknown: records are lines after line 1, as ["record",3,1,7]'),
    (opening("@7"), "bad line", '"limits": expected a list of two or three whole numbers, found 7'),
    (opening("@[1]"), "bad line", '"limits": expected a list of two or three whole numbers, found [1]'),
    (opening("[1,@1.5]"), "bad line", '"limits": expected a whole number as the second, found 1.5'),
    (opening("[1, 1 , @null]"), "bad line", '"limits": expected a whole number as the third, found null'),
    (opening(accounts="@{}"), "bad line", '"accounts": expected a list, found {}'),
    ('{"limits":[1,1],"accounts":[],"procedures" : @7}', "bad line", '"procedures": expected a list, found 7'),
    (opening("[0,1]", "[[1,2,3,4],@[1,2,3]]"), "bad line", '"accounts": expected [name,customer,saving,checking] as account 2, found [1,2,3]'),
    (opening(accounts='[[1,2,@"3",4]]'), "bad line", '"accounts": expected a whole number as the saving of account 1, found "3"'),
    (opening(accounts="[@1,101,500,1000]"), "bad line",
     '"accounts": expected [name,customer,saving,checking] as account 1, found 1: an account is a list in the list of accounts, as [[1,101,500,1000]]'),
    (opening("[@33,0]"), "bad limits", '"limits": the first number is 33, and has to be from 1 to 32'),
    (opening("[1,@0]"), "bad limits", '"limits": the second number is 0, and has to be from 1 to 4000000000'),
    (opening("[1,1,@2]"), "bad limits", '"limits": the third number is 2, and has to be from 0 to 1'),
    (opening(accounts="[[1,101,0,0],[@1,101,0,0]]"), "bad opening 1", '"accounts": account 2 has the name 1 of account 1'),
    (opening(accounts="[[1,101,0,0],[2,102,0,0],[3,@102,0,0],[1,1,1,1]]"), "bad opening 2", '"accounts": account 3 has the customer 102 of account 2'),
    (opening(accounts="[[1,101,0,0],[1,101,0,@1000000000000000]]"), "bad opening 3",
     '"accounts": the checking of account 2 is 1000000000000000, and has to be from -999999999999999 to 999999999999999'),
)

# What the explanations of procedures say of their parts.
STATEMENTS = "a statement starts with look, find, put, remove, let, ask, if or answer"
EXPRESSIONS = "an expression starts with arg, reg, sum, diff, product or quotient"
A_STATEMENT = 'a statement is a list that starts with its word, as ["ask",7]'
AN_EXPRESSION = 'an expression is a whole number, or a list that starts with its word, as ["arg",0]'

# An only procedure, its error, and the explanation after its number.
EXPLAINED_PROCEDURES = (
    ("7", "shape top", 'at top: expected [arguments,[statement,..]], found 7: a procedure is a list in the list of procedures, as [[0,[["answer",7]]]]'),
    ("[0,[],[]]", "shape top", "at top: expected [arguments,[statement,..]], found [0,[],[]]"),
    ("[300,[]]", "shape 0", "at 0: expected a number of arguments from 0 to 4, found 300"),
    ("[0,5]", "shape 1", "at 1: expected a list of statements, found 5"),
    ('[0,[["jump"]]]', "shape 1 0", f'at 1 0: unknown word "jump": {STATEMENTS}'),
    ('[0,[["sum",1,2]]]', "shape 1 0", f'at 1 0: "sum" does not begin a statement: {STATEMENTS}'),
    ('[0,[["ask",1,2]]]', "shape 1 0", 'at 1 0: expected ["ask",code], found ["ask",1,2]'),
    ('[0,[["if",["less",1,2],[]]]]', "shape 1 0", 'at 1 0: expected ["if",condition,[statement,..],[statement,..]], found ["if",["less",1,2],[]]'),
    ("[0,[[7,1]]]", "shape 1 0", f"at 1 0: expected a statement, found [7,1]: {A_STATEMENT}"),
    ("[0,[7]]", "shape 1 0", f"at 1 0: expected a statement, found 7: {A_STATEMENT}"),
    ('[0,[[["ask",7]]]]', "shape 1 0", f'at 1 0: expected a statement, found [["ask",7]]: {A_STATEMENT}'),
    ('[0,["ask",7]]', "shape 1 0", 'at 1 0: expected a statement, found "ask": a statement is a list in the list of statements, as [["ask",code]]'),
    ('[0,[["if",["less",1,2],["put",1,2,3],[]]]]', "shape 1 0 2 0",
     'at 1 0 2 0: expected a statement, found "put": a statement is a list in the list of statements, as [["put",table,expression,expression]]'),
    ('[0,["sum",1,2]]', "shape 1 0", f'at 1 0: expected a statement, found "sum": {A_STATEMENT}'),
    ('[0,[["ask",1],["let",0,"x"]]]', "shape 1 1 2", f'at 1 1 2: expected an expression, found "x": {AN_EXPRESSION}'),
    ('[0,[["answer",["times",1,2]]]]', "shape 1 0 1", f'at 1 0 1: unknown word "times": {EXPRESSIONS}'),
    ('[0,[["answer",["sum",1]]]]', "shape 1 0 1", 'at 1 0 1: expected ["sum",expression,expression], found ["sum",1]'),
    ('[0,[["if",true,[],[]]]]', "shape 1 0 1", "at 1 0 1: expected a condition, found true: a condition is a list that starts with its word, as [\"less\",1,2]"),
    ('[0,[["if",["sum",1,2],[],[]]]]', "shape 1 0 1", 'at 1 0 1: "sum" does not begin a condition: a condition starts with less (<), most (<=) or same (=)'),
    ('[0,[["if",["more",1,2],[],[]]]]', "shape 1 0 1", 'at 1 0 1: unknown word "more": a condition starts with less (<), most (<=) or same (=)'),
    ('[0,[["let",256,0]]]', "shape 1 0 1", "at 1 0 1: expected a register from 0 to 15, found 256"),
    ('[0,[["remove",0,1,2]]]', "shape 1 0", 'at 1 0: expected ["remove",table,expression], found ["remove",0,1,2]'),
    ('[0,[["remove",256,0]]]', "shape 1 0 1", "at 1 0 1: expected a table from 0 to 7, found 256"),
    ('[0,[["remove",0,["reg",0]]]]', "flaw 2", "at 1 0 2: register 0 is not set on every path that leads here"),
    ('[0,[["remove",8,0]]]', "flaw 4", "at 1 0 1: table 8 is over 7"),
    ('[0,[["put",-1,0,0]]]', "shape 1 0 1", "at 1 0 1: expected a table from 0 to 7, found -1"),
    ('[0,[["look",0,0,0,65536]]]', "shape 1 0 4", "at 1 0 4: expected a code from 1 to 999, found 65536"),
    ('[0,[["answer",["arg",256]]]]', "shape 1 0 1 1", "at 1 0 1 1: expected an argument from 0 to 3, found 256"),
    ('[0,[["let",0,1],["let",1,["sum",["reg",0],["reg",16]]]]]', "flaw 1", "at 1 1 2 2 1: register 16 is over 15"),
    ('[0,[["look",16,0,0,1]]]', "flaw 1", "at 1 0 1: register 16 is over 15"),
    ('[0,[["let",0,["product",["reg",0],1]]]]', "flaw 2", "at 1 0 2 1: register 0 is not set on every path that leads here"),
    ('[1,[["if",["less",["arg",0],0],[["let",0,1]],[]],["answer",["reg",0]]]]', "flaw 2", "at 1 1 1: register 0 is not set on every path that leads here"),
    ('[0,[["if",["less",1,2],[["ask",1]],[["let",0,1]]],["answer",["reg",0]],["answer",["reg",1]]]]', "flaw 2",
     "at 1 2 1: register 1 is not set on every path that leads here"),
    ('[0,[["if",["less",1,2],[["let",0,1]],[["answer",["reg",0]]]]]]', "flaw 2", "at 1 0 3 0 1: register 0 is not set on every path that leads here"),
    ('[0,[["ask",1],["answer",["reg",0]],["answer",["arg",2]]]]', "flaw 3", "at 1 2 1 1: argument 2 is not below 0, the number of arguments"),
    ('[0,[["find",0,8,0,0]]]', "flaw 4", "at 1 0 2: table 8 is over 7"),
    ('[0,[["look",0,0,0,0]]]', "flaw 8", "at 1 0 4: code 0 is not from 1 to 999"),
    ('[0,[["ask",1000]]]', "flaw 8", "at 1 0 1: code 1000 is not from 1 to 999"),
    ("[5,[]]", "flaw 9", "at 0: 5 arguments are taken, and at most 4 may be"),
    ('[0,[["answer",1000000000000000]]]', "flaw 10", "at 1 0 1: 1000000000000000 has more than fifteen digits"),
)

# What is said of what is meant as a number, and is none.
NUMBERS = "a number is written as 10 or -5, without a plus, a leading zero or other signs"

# What is said of a word with which no line of a script starts.
FIRST_WORDS = "a line starts with start, step, commit, quit (abort), begin, read, write, remove or cut; before the first of these, with record"

# The same of a bank.
A_JOB = 'a job is ["job",procedure,[argument,..]]; before the first job, a line may start with record'

# A line after line 1 of a script and of a bank, and the explanation of its error.
EXPLAINED_EVENTS = (
    ("7", 'expected an event, as ["step",0], found 7'),
    ('["read",0,3,@1.5]', "expected a whole number of at most 15 digits as the number, found 1.5"),
    ('[ "read" , 0 , @"3" , 1 ]', 'expected a table from 0 to 7, found "3"'),
    ('["read","[\\",",3,1]'.replace('"[', '@"['), 'expected a transaction from 0 to 4294967295, found "[\\","'),
    ('["start",@"Balance",[1]]', 'expected a procedure from 0 to 65535, found "Balance": a procedure is named by its number, and those of line 1 are numbered from 5'),
    ("[]", 'expected an event, as ["step",0], found []'),
    (opening().strip(), "an object with limits stands in line 1 alone: leave it out here"),
    ('["step",0,' + "1," * 30 + "1]", 'expected ["step",transaction], found ["step",0,1,1,1,1,1,1,1,1,1,1,1,1,1,1,1,.. with 33 parts, not 2: a bracket may end too early or too late'),
    ('["write",' + "1234567890123," * 6 + "1]",
     'expected ["write",transaction,table,number,value], found ["write",1234567890123,1234567890123,123.. with 8 parts, not 5: a bracket may end too early or too late'),
    ('[["step",0]]', 'expected an event, as ["step",0], found [["step",0]]'),
    ('{"step" : 0, "at" : [ ], "b" : 1}', 'expected an event, as ["step",0], found {"step":0,"at":[],"b":1}'),
    ('["step",@100000000000000000000]', "expected a transaction from 0 to 4294967295, found 100000000000000000000"),
    ('["start",1,[1, @123456789012345678901 ]]', "expected a whole number of at most 15 digits as argument 1, found 123456789012345678901"),
    ('["write",0,3,1,@1E5]', "expected a whole number of at most 15 digits as the value, found 1E5"),
    ('["step",0,"]",{"z":"\\\\","a":1}]', 'expected ["step",transaction], found ["step",0,"]",{"z":"\\\\","a":1}]'),
    ('["stop",0]', f'unknown word "stop": {FIRST_WORDS}'),
    ('["job",0,[]]', 'a job stands in the input of "sgt script", which takes events: ["start",procedure,[argument,..]]'),
    ('["step"]', 'expected ["step",transaction], found ["step"]'),
    ('["commit",0,0]', 'expected ["commit",transaction], found ["commit",0,0]'),
    ('["quit",@"0"]', 'expected a transaction from 0 to 4294967295, found "0"'),
    ('["step",@4294967296]', "expected a transaction from 0 to 4294967295, found 4294967296"),
    ('["cut",0]', 'expected ["cut"], found ["cut",0]'),
    ('["begin",0]', 'expected ["begin"], found ["begin",0]'),
    ('["read",0,3]', 'expected ["read",transaction,table,number], found ["read",0,3]'),
    ('["remove",0,3,1,1]', 'expected ["remove",transaction,table,number], found ["remove",0,3,1,1]'),
    ('["write",0,3,1]', 'expected ["write",transaction,table,number,value], found ["write",0,3,1]'),
    ('["read",@-1,3,1]', "expected a transaction from 0 to 4294967295, found -1"),
    ('["write",0,@8,1,1.5]', "expected a table from 0 to 7, found 8"),
    ('["remove",0,3,@1000000000000000]', "expected a whole number of at most 15 digits as the number, found 1000000000000000"),
    ('["write",0,3,1,@1.5]', "expected a whole number of at most 15 digits as the value, found 1.5"),
    ('["start",0]', 'expected ["start",procedure,[argument,..]], found ["start",0]'),
    ('["start",@65536,[]]', "expected a procedure from 0 to 65535, found 65536"),
    ('["start",0,@1]', "expected a list of arguments, found 1"),
    ('["start",0,@[1,2,3,4,5]]', "5 arguments are given, and at most 4 may be"),
    ('["start",0,[1,@2.5]]', "expected a whole number of at most 15 digits as argument 1, found 2.5"),
)

EXPLAINED_JOBS = (
    ("{}", 'expected a job, as ["job",0,[1]], found {}'),
    (opening().strip(), "an object with limits stands in line 1 alone: leave it out here"),
    ('["jobs",0,[]]', f'unknown word "jobs": {A_JOB}'),
    ('["step",0]', 'an event stands in the input of "sgt bank", which takes jobs: ["job",procedure,[argument,..]]'),
    ('["begin"]', 'an event stands in the input of "sgt bank", which takes jobs: ["job",procedure,[argument,..]]'),
    ('["write",0,3,1,1]', 'an event stands in the input of "sgt bank", which takes jobs: ["job",procedure,[argument,..]]'),
    ('["cut"]', 'an event stands in the input of "sgt bank", which takes jobs: ["job",procedure,[argument,..]]'),
    ('["job",0]', 'expected ["job",procedure,[argument,..]], found ["job",0]'),
    ('["job",@-1,[]]', "expected a procedure from 0 to 65535, found -1"),
    ('["job",0,[@null]]', "expected a whole number of at most 15 digits as argument 0, found null"),
)

# Record lines that put no record behind an opening of the account [1,101,500,1000] and ["record",4,7,8].
EXPLAINED_RECORDS = (
    ('["record",@8,1,1]', "the table is 8, and has to be from 0 to 7"),
    ('["record",@-1,1,1000000000000000]', "the table is -1, and has to be from 0 to 7"),
    ('["record",3,@1000000000000000,1]', "the number is 1000000000000000, and has to be from -999999999999999 to 999999999999999"),
    ('["record",3,@-9223372036854775808,1000000000000000]', "the number is -9223372036854775808, and has to be from -999999999999999 to 999999999999999"),
    ('["record",4,7,@-1000000000000000]', "the value is -1000000000000000, and has to be from -999999999999999 to 999999999999999"),
    ('["record",4,7,7]', f"record 4/7 is there already: {MADE_BEFORE}"),
    ('["record",2,101,1]', f"record 2/101 is there already: {MADE_BEFORE}"),
)

# Lines that are no record lines, and end the records.
EXPLAINED_NO_RECORDS = (
    ('["record",3,1]', 'expected ["record",table,number,value], found ["record",3,1]'),
    ('["record",3,1,1,1]', 'expected ["record",table,number,value], found ["record",3,1,1,1]'),
    ('["record",@"3",1,1]', 'expected a table from 0 to 7, found "3"'),
    ('["record",@9,"1",1]', "expected a table from 0 to 7, found 9"),
    ('["record",3,@"3007",1]', 'expected a whole number of at most 15 digits as the number, found "3007"'),
    ('["record",3,@1000000000000000,null]', "expected a whole number of at most 15 digits as the number, found 1000000000000000"),
    ('["record",3,1,@1.0]', "expected a whole number of at most 15 digits as the value, found 1.0"),
    ('["record",3,1,@9223372036854775808]', "expected a whole number of at most 15 digits as the value, found 9223372036854775808"),
    ('["records",3,1,1]', 'unknown word "records": {starts}'),
)

# What of these lines is shown is cut short, and does nothing to a terminal.
EXPLAINED_TEXTS = (
    (f'["{"x" * 99}",0]', f'unknown word "{"x" * 39}..: {FIRST_WORDS}'),
    (f'["{"x" * 38}",0]', f'unknown word "{"x" * 38}": {FIRST_WORDS}'),
    ('["\\u001b[2J\\n",0]', f'unknown word "\\u001b[2J\\n": {FIRST_WORDS}'),
    ('["\\u007f\\u009b\\u202e\\ud83d\\ude00",0]', f'unknown word "????": {FIRST_WORDS}'),
)


def at_mark(given, more):
    """The input without its mark, and what is said more, after the column at which the marked part begins in its line."""
    before, mark, after = given.partition("@")
    column = len(before) - before.rfind("\n")
    return before + after, f"column {column}: {more}" if mark else more


# What stands before the procedures, and a reader of the parts of one.
BEFORE_PROCEDURES = len(opening(procedures="@").partition("@")[0])
DECODER = json.JSONDecoder()


def begin_of(text, place):
    """The index at which the part at these positions begins in a list without spaces."""
    at = 0
    for position in place:
        at += 1
        for _ in range(position):
            at = DECODER.raw_decode(text, at)[1] + 1
    return at


def of_procedure(text, more, number=5, before=""):
    """What is said more of a place of the procedure of this text, which comes after these, after its column."""
    place = re.match("at ([0-9 ]+|top)", more)[1]
    index = begin_of(text, [] if place == "top" else map(int, place.split()))
    return f"column {BEFORE_PROCEDURES + len(before) + index + 1}: procedure {number}, {more}\n"


def reports_more(sgt, command, given, fault, more):
    """A second line says more of an error, also with the option that explains aborts, where lines of refused events come before it.
    It begins with the column of the part that is marked."""
    if isinstance(given, str):
        given, more = at_mark(given, more)
    status, out, reported = sgt.run(*command, given=given)
    same(f"{given!r:.200}", (2, fault + more), (status, reported))
    *came, reported = sgt.run(*command, "--explain", given=given)
    reported = "".join(line for line in reported.splitlines(True) if ": no transaction has started with the number " not in line)
    same(f"{given!r:.200}: with --explain", (2, out, fault + more), (*came, reported))


def explains_openings(sgt):
    for line, fault, more in EXPLAINED_OPENINGS:
        for command in (["script"], ["bank", "--workers", "1"]):
            reports_more(sgt, command, f"{line}\n", f"line 1: {fault}\n", f"{more}\n")


def explains_too_few_for_the_workers(sgt):
    reports_more(sgt, ["bank"], opening("[@3,1]"), "line 1: bad limits\n", '"limits": the first number is 3, and the workers are 4: more than transactions may be live; take fewer with --workers\n')


def explains_procedures(sgt):
    for procedure, fault, more in EXPLAINED_PROCEDURES:
        given = opening(procedures=procedure)
        reports_more(sgt, ["script"], given, f"line 1: procedure 5 {fault}\n", of_procedure(procedure, more))
    given = opening(procedures='[0,[]],[0,[["jump"]]]')
    more = of_procedure('[0,[["jump"]]]', f'at 1 0: unknown word "jump": {STATEMENTS}', 6, "[0,[]],")
    reports_more(sgt, ["bank"], given.replace("[1,1]", "[4,1]"), "line 1: procedure 6 shape 1 0\n", more)
    spaced = ' { "procedures" : [ [ 0 , [ [ "let" , 0 , 1 ] , @[ "jump" ] ] ] ] , "accounts" : [ ] , "limits" : [ 1 , 1 ] } '
    reports_more(sgt, ["script"], spaced, "line 1: procedure 5 shape 1 1\n", f'procedure 5, at 1 1: unknown word "jump": {STATEMENTS}\n')
    brackets = '{"limits":[1,1],"accounts":[],"procedures":[[0,[["look",0,0,["sum",1,2],@"[,\\"]"]]]]}'
    reports_more(sgt, ["script"], brackets, "line 1: procedure 5 shape 1 0 4\n", 'procedure 5, at 1 0 4: expected a code from 1 to 999, found "[,\\"]"\n')


def explains_brackets(sgt):
    """In which procedure one is missing or too many, in or after which statement, and the column at which the form of procedures ends.
    The statement is marked."""
    first = '{"limits":[1,1],"accounts":[],"procedures":['
    for before, procedures, column, wanted, within, number, start in (
        # One is missing: of the procedure, of its statements, of an expression, of a branch, of the word's list.
        ("", '[0,[@["ask",2]],[0,[]]]}', 16, "]", "in or after", 5, 1),
        ("", '[0,[@["ask",2],[0,[]]]]}', 16, "a word", "in or after", 5, 1),
        ("[0,[]],", '[1,[@["look",0,3,["arg",0,3],["answer",1]]]]}', 26, "]", "in", 6, 8),
        ("", '[0,[@["if",["less",1,2],[["ask",1],[]],["ask",3]]]]}', 36, "a word", "in", 5, 1),
        ("", '[0,[["ask",1],@["let", 2,["sum",3,4],["put",1,2,3]]]]}', 37, "]", "in", 5, 1),
        ("", '[0,[@["if",["less",["sum",1,2],["sum",3,4]],[["ask",1]],[],["ask",3]]]]}', 59, "]", "in", 5, 1),
        ("", '[0,[@["ask",2]]}', 15, "]", "in or after", 5, 1),
        ("", '[0,[@["ask",2}', 13, "]", "in", 5, 1),
        ("", '[0,[@["ask",2]]]}', 16, "]", "in or after", 5, 1),
        ("", '[0,[@["ask",2]}', 14, "]", "in or after", 5, 1),
        ("", '[0,[@["ask"}', 11, "a code from 1 to 999", "in", 5, 1),
        # One is too many: at an end, in an expression, at a start.
        ("", '[0,[@["ask",2]]]],[0,[]]]}', 16, "a comma", "in or after", 5, 1),
        ("", '[0,[@["ask",2]]] ] ]}', 19, "} or a comma", "in or after", 5, 1),
        ("", '[1,[@["look",0,3,["arg",0]],3],["ask",1]]],[0,[]]]}', 26, "a code from 1 to 999", "in", 5, 1),
        ("", '[0,[[["ask",2]]]}', 6, "a word", "in", 5, 1),
        ('[0,[["ask",1]]],', '[[0,[["ask",2]]]}', 2, "a number of arguments from 0 to 4", "in", 6, 17),
        # After a list with an unknown word.
        ("", '[0,[["jump",["a"],[[1],2]],@["ask",2]],[0,[]]]}', 39, "]", "in or after", 5, 1),
    ):
        place = procedures.find("@")
        procedures = procedures.replace("@", "")
        if place >= 0:
            shown = procedures[place:column - 1].replace(" ", "").rstrip(",")
            shown = shown if len(shown) <= 40 else f"{shown[:40]}.."
            within += f" {shown} at column {len(first) + len(before) + place + 1}, a statement of"
        given = first + before + procedures + "\n"
        more = f"{wanted} is expected here: a bracket is missing or too many {within} procedure {number}, which begins at column {len(first) + start}"
        reports_more(sgt, ["script"], given, "line 1: not JSON\n", f"column {len(first) + len(before) + column}: {more}\n")
    # Errors elsewhere, and those that only the end of the line shows.
    for line, more in (
        ('{"limits":[1,1]],"accounts":[],"procedures":[]}', f"column 16: not JSON from here: {CLOSES_NOTHING}"),
        ('{"limits":[1,1],"accounts":[],"procedures":[]]}', f"column 46: not JSON from here: {CLOSES_NOTHING}"),
        ('{"limits":[1,1],"accounts":[[1,2,3,4},"procedures":[[0,[]]]}', "column 37: not JSON from here: a list ends in ]"),
        ('{"limits":[1,1],"accounts":[],"procedures":[[0,[["ask",2,]]]]}', f"column 58: not JSON from here: {NO_ITEM}"),
        ('{"limits":[1,1],"accounts":[],"procedures":[[0,[["ask",2]]]]', f"column 61: {GOES_ON}"),
    ):
        reports_more(sgt, ["script"], f"{line}\n", "line 1: not JSON\n", f"{more}\n")


def explains_procedures_past_their_sizes(sgt):
    """The first statement, the first answer and the first part that is one too many, or too deep."""
    sums = '["answer",' + '["sum",0,' * 16 + "1" + "]" * 16 + "]"
    blocks = '["if",["less",0,1],[],[' * 16 + '["ask",1]' + "]]" * 16
    branches = '["if",["less",0,1],[["answer",1],["answer",2]],[["answer",3]]]'
    for statements, fault, more in (
        (['["let",0,1]'] * 70, 5, "at 1 64: this is statement 65, and at most 64 may be"),
        (['["if",["less",0,1],[["let",0,1],["let",0,2]],[["let",0,3]]]'] * 17, 5, "at 1 16: this is statement 65, and at most 64 may be"),
        ([sums], 6, f"at 1 0 1{' 2' * 15} 1: this is 17 deep, and at most 16 may be"),
        ([blocks], 6, f"at 1 0{' 3 0' * 16}: this is 17 deep, and at most 16 may be"),
        (['["answer",1]'] * 10, 7, "at 1 8: a path has answer 9 here, and at most 8 may be"),
        ([branches] * 5, 7, "at 1 4 2 0: a path has answer 9 here, and at most 8 may be"),
    ):
        procedure = f"[0,[{','.join(statements)}]]"
        reports_more(sgt, ["script"], opening(procedures=procedure), f"line 1: procedure 5 flaw {fault}\n", of_procedure(procedure, more))


def explains_the_place_of_each_shape_error_and_flaw(sgt):
    """A second line comes of each of the tables above, and names the position of a shape error, and the column of that or a flaw."""
    for table in (PLACES, NO_ROW, OTHER_KINDS, DEEP_BLOCKS, FIRST_SHAPE_ERROR, PAST_RANGES, ENDS_OF_RANGES, EACH_WAY, FLAWS):
        for wanted, text in rows(table):
            if wanted == "no flaw":
                continue
            _, _, reported = sgt.run("script", "--explain", given=opening(procedures=text))
            first, second = reported.splitlines()
            place = wanted.removeprefix("shape ") if wanted.startswith("shape") else ""
            same(text, f"line 1: procedure 5 {wanted}", first)
            more = second.partition(" procedure 5, ")[2]
            same(text, f"at {place}", more[: len(f"at {place}")])
            same(text, of_procedure(text, more), f"{second}\n")


def explains_lines(sgt):
    for command, table in (("script", EXPLAINED_EVENTS), ("bank", EXPLAINED_JOBS), ("script", EXPLAINED_TEXTS)):
        for line, more in table:
            given = f"{opening('[4,9]')}\n{line}\n"
            reports_more(sgt, [command], given, "line 2: bad line\n", f"{more}\n")


def explains_records(sgt):
    first = opening("[4,9]", "[[1,101,500,1000]]") + '\n["record",4,7,8]\n'
    for table, fault in ((EXPLAINED_RECORDS, "bad record"), (EXPLAINED_NO_RECORDS, "bad line")):
        for line, more in table:
            for command, starts in (("script", FIRST_WORDS), ("bank", A_JOB)):
                reports_more(sgt, [command], f"{first}{line}\n", f"line 3: {fault}\n", f"{more.replace('{starts}', starts)}\n")


def explains_records_after_others(sgt):
    """Also where the record itself could not be put; a line of another form is explained by its form."""
    for command, before, what in (("script", '["start",0,[1]]', "event or cut"), ("script", '["cut"]', "event or cut"), ("bank", '["job",0,[1]]', "job")):
        for line, more in (
            ('["record",3,1,1]', f"records stand before the first {what}"),
            ('["record",8,1,1]', f"records stand before the first {what}"),
            ('["record",3]', 'expected ["record",table,number,value], found ["record",3]'),
            ('["record",3,1,@"1"]', 'expected a whole number of at most 15 digits as the value, found "1"'),
        ):
            given = f"{opening('[4,9]')}\n{before}\n{line}\n"
            reports_more(sgt, [command], given, "line 3: bad line\n", f"{more}\n")


def explains_lines_of_no_json(sgt):
    deep = b"[" * 130
    for line, more in (
        (b"", "column 1: the line is empty: leave it out"),
        (b" \r", "column 1: the line is empty: leave it out"),
        (b"\xef\xbb\xbf[]", "column 1: a byte order mark: save the input without it"),
        (b'["step",0', f"column 10: {GOES_ON}"),
        (b'["step",0]]', f"column 11: not JSON from here: {ENDS}: this bracket closes nothing, and may be too many"),
        (b'["step",0] ["step",0]', f"column 12: not JSON from here: {ENDS}: {OWN_LINE}"),
        (b'["step",0] # go', f"column 12: not JSON from here: {ENDS}: there are no comments"),
        (b'["step",0]// go', f"column 11: not JSON from here: {ENDS}: there are no comments"),
        (b'["step",0, ]', f"column 12: not JSON from here: {NO_ITEM}"),
        (b'["step" 0]', "column 9: not JSON from here: a comma is missing before it"),
        (b'["step",,0]', "column 9: not JSON from here: nothing stands before the comma"),
        (b'["step";0]', "column 8: not JSON from here: a comma separates the items of a list"),
        (b'("step",0)', "column 1: not JSON from here: a list stands in square brackets"),
        *((b'["start",0,[%s]]' % number, f"column 13: not JSON from here: {NUMBERS}") for number in (b"0x10", b"1_000", b"01", b"+1", b".5", b"-", b"-x")),
        (b'["start",5,[1,2}]', "column 16: not JSON from here: a list ends in ]"),
        (b'["step",0}', "column 10: not JSON from here: a list ends in ]"),
        (b'{"step":[0]],"at":1}', f"column 12: not JSON from here: {CLOSES_NOTHING}"),
        (b"step 0", "column 1: not JSON from here: a word stands in double quotes"),
        *((b'["start",0,[%s]]' % number, "column 13: not JSON from here: JSON has no NaN and no Infinity") for number in (b"NaN", b"Infinity")),
        *((b'["start",0,[%s]]' % word, "column 13: not JSON from here: JSON has null, true and false, in small letters") for word in (b"None", b"True", b"False")),
        (b"['step',0]", "column 2: not JSON from here: a text stands in double quotes"),
        (b"[\xe2\x80\x9cstep\xe2\x80\x9d,0]", "column 2: not JSON from here: a text stands in plain double quotes, as \"step\""),
        (b"# a step", "column 1: not JSON from here: there are no comments"),
        (b"// a step", "column 1: not JSON from here: there are no comments"),
        (b'["step",\xff]', "column 9: not UTF-8 from here"),
        (b'["\xc3\xa9",nil]', "column 7: not JSON from here: a word stands in double quotes"),
        (deep, "column 128: lists and objects are more than 127 deep"),
        (b"[" * 128 + b"]" * 128, "column 128: lists and objects are more than 127 deep"),
    ):
        for command, before in (("script", b'["step",0]\n' * 3), ("bank", b'["job",0,[]]\n' * 3)):
            given = opening("[4,9]").encode() + b"\n" + before + line + b"\n" + before
            reports_more(sgt, [command], given, "line 5: not JSON\n", f"{more}\n")


def explains_the_first_wrong_character(sgt):
    """Its column, on line 1 and on a later one."""
    for line, column, more in FIRST_WRONG:
        more = f"not JSON from here: {more}" if more else "the text that begins here has no closing quote"
        for number, before in ((1, ""), (2, opening("[4,9]") + "\n")):
            reports_more(sgt, ["script"], f"{before}{line}\n", f"line {number}: not JSON\n", f"column {column}: {more}\n")


def finds_the_first_wrong_character_of_drawn_lines(sgt):
    """Where the reader of JSON here does; but a wrong number begins before its wrong character."""
    dice = random.Random(74)
    signs = "[]{}\",:;=ax1 -.\\'#("
    for _ in range(400):
        line = list(dice.choice(('["job",5,[1,2]]', '["start",0,[1]]', '["write",0,3,1,-8]', '{"limits":[4,1000],"accounts":[[1,101,5,5],[2,102,5,5]]}')))
        for _ in range(dice.choice((1, 1, 2))):
            place = dice.randrange(len(line))
            line[place:place + dice.choice((0, 1))] = dice.choice(("", dice.choice(signs)))
        line = "".join(line)
        try:
            json.loads(line)
            continue
        except json.JSONDecodeError as error:
            wanted = error.colno
        if line.startswith("{:"):
            continue  # said to be EDN
        status, out, reported = sgt.run("script", given=f"{opening('[4,9]')}\n{line}\n")
        first, second = reported.splitlines()
        found = re.fullmatch("column ([0-9]+): (.+)", second)
        same(line, (2, "", "line 2: not JSON"), (status, out, first))
        if not found[2].endswith(NUMBERS):
            same(f"{line}: {second}", wanted, int(found[1]))


def explains_no_opening_and_a_long_line(sgt):
    long = opening("[4,9]") + "\n" + "x" * (LONGEST_LINE + 1)
    for command in (["script"], ["bank"]):
        reports_more(sgt, command, "", "line 1: no opening\n", "the input is empty\n")
        reports_more(sgt, command, long, "line 2: long line\n", "a line has at most 65536 bytes\n")
        reports_more(sgt, command, "x" * (LONGEST_LINE + 1), "line 1: long line\n", f"a line has at most 65536 bytes: {ACCOUNTS_AS_RECORDS}\n")


def says_how_to_go_on_from_what_is_too_long(sgt):
    part = "split it, and begin the next part with the record lines of the one before (--records, --json)"
    more = "take more with --most, or"
    reports_more(sgt, ["script"], opening() + "\n" + '["step",0]\n' * 1_600_000, "input too long\n", f"an input has at most 16777216 bytes: {more} {part}\n")
    reports_more(sgt, ["bank"], opening("[4,9]") + "\n" + '["job",0,[]]\n' * 1_000_001, "too many jobs\n", f"a bank has at most 1000000 jobs: {part}\n")


def explains_a_distant_line(sgt):
    """Of an input that is almost as long as one may be."""
    given = opening() + "\n" + '["step",0]\n' * 1_500_000 + '["step"]\n'
    reports_more(sgt, ["script"], given, "line 1500002: bad line\n", 'expected ["step",transaction], found ["step"]\n')


# Arithmetic

PRODUCT = '[2,[["answer",["product",["arg",0],["arg",1]]]]]'

QUOTIENT = '[2,[["answer",["quotient",["arg",0],["arg",1]]]]]'

# It answers the fee of a number of cents at a number of percent, and what is left of the cents.
FEE = (
    '[2,[["let",0,["quotient",["product",["arg",0],["arg",1]],100]],'
    '["answer",["reg",0]],["answer",["diff",["arg",0],["reg",0]]]]]'
)

# The last three products have the last bits of 0, 1 and 3.
PRODUCTS = """
7 6: committed 42
-7 6: committed -42
7 -6: committed -42
-7 -6: committed 42
0 -999999999999999: committed 0
999999999999999 1: committed 999999999999999
999999999999999 -1: committed -999999999999999
333333333333333 3: committed 999999999999999
-3 333333333333333: committed -999999999999999
31622776 31622776: committed 999999961946176
500000000000000 2: asked 1000
-500000000000000 2: asked 1000
2 -500000000000000: asked 1000
31622777 31622777: asked 1000
999999999999999 999999999999999: asked 1000
999999999999999 -999999999999999: asked 1000
-999999999999999 -999999999999999: asked 1000
4294967296 4294967296: asked 1000
274177 67280421310721: asked 1000
274177 201841263932163: asked 1000
"""

QUOTIENTS = """
7 2: committed 3
-7 2: committed -3
7 -2: committed -3
-7 -2: committed 3
6 3: committed 2
-6 3: committed -2
1 2: committed 0
-1 2: committed 0
0 -5: committed 0
999999999999999 999999999999999: committed 1
-999999999999999 -1: committed 999999999999999
999999999999999 -1: committed -999999999999999
0 0: asked 1000
1 0: asked 1000
-1 0: asked 1000
999999999999999 0: asked 1000
"""

FEES = """
1999 3: committed 59 1940
-1999 3: committed -59 -1940
999999999999999 3: asked 1000
"""


def come_to(sgt, procedure, table):
    """Each line of a table has arguments of a procedure that makes no access, and what it comes to."""
    jobs, wanted = "", ""
    for number, (args, outcome) in enumerate(rows(table)):
        jobs += f'["job",5,[{args.replace(" ", ",")}]]\n'
        wanted += f"{number} {outcome}\n"
    given = f'{opening("[4,1000]", procedures=procedure)}\n{jobs}'
    same("what they come to", (0, wanted, ""), sgt.run("bank", given=given))


def gives_products_or_asks_1000(sgt):
    come_to(sgt, PRODUCT, PRODUCTS)


def gives_quotients_towards_zero_or_asks_1000(sgt):
    come_to(sgt, QUOTIENT, QUOTIENTS)


def gives_fees(sgt):
    come_to(sgt, FEE, FEES)


# Accesses

# It finds record 7 of table 3, or one more than its argument where there is none, stores that there and answers it.
UPSERT = '[1,[["find",0,3,7,["sum",["arg",0],1]],["put",3,7,["reg",0]],["answer",["reg",0]]]]'

# It writes its second argument at its first one, a key that may be used once: if that record exists, it aborts with 8.
ONCE = (
    '[2,[["find",0,4,["arg",0],-1],["if",["same",["reg",0],-1],[],[["ask",8]]],'
    '["put",4,["arg",0],["arg",1]],["answer",["arg",1]]]]'
)

# A find in a branch whose value sets the register that it uses, and a find after it.
AGAIN = (
    '[1,[["let",1,5],["if",["less",0,["arg",0]],[["find",1,3,["arg",0],["product",["reg",1],2]]],[]],'
    '["find",2,3,["reg",1],["reg",1]],["answer",["reg",1]],["answer",["reg",2]]]]'
)

# Branches with accesses, Lets and answers in them, one in the other, and statements after each of them.
BRANCHES = (
    '[2,[["let",0,["arg",0]],["if",["less",["arg",0],10],[["let",1,1],["look",0,0,["reg",1],5],'
    '["if",["most",["reg",0],0],[["answer",["reg",0]]],[["put",0,1,["reg",0]],["let",0,7]]],["answer",["reg",0]]],'
    '[["let",1,2],["put",1,2,["arg",1]]]],["look",2,1,["reg",1],6],["answer",["diff",["reg",2],["reg",0]]]]]'
)

# An abort with a code in a branch, and a Let that goes out of range after it.
STOPS = (
    '[1,[["if",["same",["arg",0],0],[["put",0,1,1],["ask",3],["put",0,2,2]],[["put",0,3,3]]],'
    '["let",4,["sum",["arg",0],999999999999999]],["put",0,4,["reg",4]]]]'
)

# It removes record 7 of table 3, finds that it is gone, makes it again where its argument is 1, and looks for it.
GONE = (
    '[1,[["remove",3,7],["find",0,3,7,-5],["if",["same",["arg",0],1],[["put",3,7,["reg",0]]],[]],["look",1,3,7,6],'
    '["answer",["reg",1]]]]'
)

# It removes the record that its first argument less its second one names.
GONE_AT = '[2,[["remove",3,["diff",["arg",0],["arg",1]]]]]'

UPSERTS = """
40;: read 3/7 none, wrote 3/7 41, ended, committed 41
40; 3/7 9: read 3/7 9, wrote 3/7 9, ended, committed 9
40; 3/7 0: read 3/7 0, wrote 3/7 0, ended, committed 0
-1;: read 3/7 none, wrote 3/7 0, ended, committed 0
999999999999998;: read 3/7 none, wrote 3/7 999999999999999, ended, committed 999999999999999
"""

# The value is evaluated before the read, whether there is a record or not.
NO_VALUES = """
999999999999999;: aborted asked 1000 fell none
999999999999999; 3/7 9: aborted asked 1000 fell none
"""

KEYS_OF_ONCE = """
77,5;: read 4/77 none, wrote 4/77 5, ended, committed 5
77,5; 4/77 5: read 4/77 5, aborted asked 8 fell none
"""

FINDS = """
6;: read 3/6 none, read 3/10 none, ended, committed 10 10
6; 3/10 2: read 3/6 none, read 3/10 2, ended, committed 10 2
6; 3/6 8: read 3/6 8, read 3/8 none, ended, committed 8 8
6; 3/6 8, 3/8 3: read 3/6 8, read 3/8 3, ended, committed 8 3
0;: read 3/5 none, ended, committed 5 5
"""

WAYS = """
3,50; 0/1 0, 1/1 4: read 0/1 0, read 1/1 4, ended, committed 0 0 4
3,50; 0/1 9, 1/1 4: read 0/1 9, wrote 0/1 9, read 1/1 4, ended, committed 7 -3
3,50; 0/1 9: read 0/1 9, wrote 0/1 9, read 1/1 none, aborted asked 6 fell none
3,50;: read 0/1 none, aborted asked 5 fell none
30,50;: wrote 1/2 50, read 1/2 50, ended, committed 20
30,-999999999999999;: wrote 1/2 -999999999999999, read 1/2 -999999999999999, aborted asked 1000 fell none
"""

CODES = """
0;: wrote 0/1 1, aborted asked 3 fell none
1;: wrote 0/3 3, aborted asked 1000 fell none
-1;: wrote 0/3 3, wrote 0/4 999999999999998, ended, committed none
"""


REMOVALS = """
1; 3/7 9: removed 3/7, read 3/7 none, wrote 3/7 -5, read 3/7 -5, ended, committed -5
1;: removed 3/7, read 3/7 none, wrote 3/7 -5, read 3/7 -5, ended, committed -5
0; 3/7 9: removed 3/7, read 3/7 none, read 3/7 none, aborted asked 6 fell none
0;: removed 3/7, read 3/7 none, read 3/7 none, aborted asked 6 fell none
"""

REMOVED_KEYS = """
7,0; 3/7 9: removed 3/7, ended, committed none
0,7; 3/-7 9: removed 3/-7, ended, committed none
999999999999999,-1;: aborted asked 1000 fell none
"""


def replies(sgt, procedure, args, records, wanted):
    """What a transaction of this procedure is answered, after another one has stored the records. Each reply is to a step, but that of
    the commit."""
    keys = [record.replace(" ", "/").split("/") for record in records]
    puts = ",".join(f'["put",{table},{number},{value}]' for table, number, value in keys)
    events = ['["start",6,[]]', *['["step",0]'] * len(records), '["commit",0]', f'["start",5,[{args}]]']
    events += ['["commit",1]' if reply.startswith("committed") else '["step",1]' for reply in wanted]
    given = "\n".join([opening("[1,2]", procedures=f"{procedure},[0,[{puts}]]"), *events])
    status, out, err = sgt.run("script", given=given)
    same(f"{args}: standard error and status", ("", 0), (err, status))
    stored = [f"wrote {record}" for record in records]
    reported = ["started 0", *stored, "committed none", "started 1", *wanted]
    same(f"{args}: replies", reported, out.splitlines()[: len(reported)])


def reply(sgt, procedure, table):
    """Each line of a table has arguments, records that are there, and what a transaction of the procedure is answered."""
    for given, wanted in rows(table):
        args, records = given.split(";")
        replies(sgt, procedure, args, [record.strip() for record in records.split(",") if record], wanted.split(", "))


def finds_a_record_or_takes_the_value_in_its_place(sgt):
    reply(sgt, UPSERT, UPSERTS)


def asks_1000_before_the_look(sgt):
    reply(sgt, UPSERT, NO_VALUES)


def uses_a_key_once(sgt):
    reply(sgt, ONCE, KEYS_OF_ONCE)


def lets_finds_follow_one_another(sgt):
    reply(sgt, AGAIN, FINDS)


def removes_a_record(sgt):
    """Its own procedure finds none, whether there was one or not."""
    reply(sgt, GONE, REMOVALS)
    reply(sgt, GONE_AT, REMOVED_KEYS)


def removed_records_are_not_reported(sgt):
    """Neither at the end, nor after a cut, nor of one that was undone."""
    records = '["record",3,7,1]\n["record",3,8,2]\n["record",3,9,3]\n'
    events = '["start",5,[8,0]]\n["step",0]\n["start",5,[9,0]]\n["step",1]\n["quit",1]\n["commit",0]\n'
    reported = "started 0\nremoved 3/8\nstarted 1\nremoved 3/9\naborted quit fell none\ncommitted none\n"
    left = "3/7 1\n3/9 3\n"
    given = opening("[2,9]", procedures=GONE_AT) + "\n" + records + events
    same("at the end", (0, reported + left, ""), sgt.run("script", given=given))
    same("after a cut", (0, reported + "cut 6\n" + left, ""), sgt.run("script", given=given + '["cut"]\n'))
    again = '["cut"]\n["begin"]\n["read",0,3,8]\n["commit",0]\n'
    same("in the next part", (0, reported + "cut 6\nstarted 0\nread 3/8 none\ncommitted none\n" + left, ""), sgt.run("script", given=given + again))
    jobs = opening("[1,9]", procedures=GONE_AT) + "\n" + records + '["job",5,[8,0]]\n["job",5,[9,1]]\n'
    same("of a bank", (0, "0 committed none\n1 committed none\n" + "3/7 1\n3/9 3\n", ""), sgt.run("bank", "--workers", "1", given=jobs))


def enters_and_leaves_branches(sgt):
    reply(sgt, BRANCHES, WAYS)


def ends_by_a_code(sgt):
    reply(sgt, STOPS, CODES)


def leaves_the_deepest_branch_step_by_step(sgt):
    procedure = around('["if",["less",0,1],[', '["look",0,0,1,1]', '],[]],["put",0,1,1]', 15)
    replies(sgt, f"[0,[{procedure}]]", "", ["0/1 1"], ["read 0/1 1", *["wrote 0/1 1"] * 15, "ended", "committed none"])


def makes_64_accesses(sgt):
    looks = ",".join(['["look",0,0,1,1]'] * 64)
    replies(sgt, f"[0,[{looks}]]", "", ["0/1 1"], [*["read 0/1 1"] * 64, "ended", "committed none"])


# SmallBank

# The five procedures, as their page spells them.
SMALLBANK = (
    '[1,[["look",0,0,["arg",0],1],["look",1,1,["reg",0],5],["look",2,2,["reg",0],5],["answer",["sum",["reg",1],["reg",2]]]]]',
    '[2,[["if",["less",["arg",1],0],[["ask",2]],[]],["look",0,0,["arg",0],1],["look",1,2,["reg",0],5],'
    '["let",2,["sum",["reg",1],["arg",1]]],["put",2,["reg",0],["reg",2]],["answer",["reg",2]]]]',
    '[2,[["look",0,0,["arg",0],1],["look",1,1,["reg",0],5],["let",2,["sum",["reg",1],["arg",1]]],'
    '["if",["less",["reg",2],0],[["ask",3]],[]],["put",1,["reg",0],["reg",2]],["answer",["reg",2]]]]',
    '[2,[["if",["same",["arg",0],["arg",1]],[["ask",4]],[]],["look",0,0,["arg",0],1],["look",1,0,["arg",1],1],'
    '["look",2,1,["reg",0],5],["look",3,2,["reg",0],5],["let",4,["sum",["reg",2],["reg",3]]],["put",1,["reg",0],0],'
    '["put",2,["reg",0],0],["look",5,2,["reg",1],5],["let",6,["sum",["reg",5],["reg",4]]],["put",2,["reg",1],["reg",6]],'
    '["answer",["reg",4]]]]',
    '[2,[["if",["less",["arg",1],0],[["ask",2]],[]],["look",0,0,["arg",0],1],["look",1,1,["reg",0],5],["look",2,2,["reg",0],5],'
    '["if",["less",["sum",["reg",1],["reg",2]],["arg",1]],[["let",3,["diff",["diff",["reg",2],["arg",1]],100]]],'
    '[["let",3,["diff",["reg",2],["arg",1]]]]],["put",2,["reg",0],["reg",3]],["answer",["reg",3]]]]',
)

BALANCE = """
started 0: ["start",0,[7]]
read 0/7 9: ["step",0]
read 1/9 600: ["step",0]
read 2/9 -400: ["step",0]
ended: ["step",0]
committed 200: ["commit",0]
"""


def looks_where_the_customer_says(sgt):
    are_answered(sgt, opening(accounts="[[7,9,600,-400]]"), BALANCE)


def drawn_calls(dice):
    """Calls of the five: of four names, one of which has no account, with amounts of which some are the ends of values."""
    for _ in range(400):
        procedure = dice.randrange(5)
        second = dice.choice((dice.randint(-300, 900), dice.randint(-300, 900), MOST, -MOST))
        args = [dice.randint(1, 4), *([] if procedure == 0 else [dice.randint(1, 4) if procedure == 3 else second])]
        yield procedure, args


def does_what_smallbank_does_by_its_trees(sgt):
    """The same calls, step by step, of the program's own procedures and of the same trees in an opening."""
    written = []
    for first in (0, 5):
        events = []
        for t, (procedure, args) in enumerate(drawn_calls(random.Random(7))):
            events += [f'["start",{procedure + first},{args}]', *[f'["step",{t}]'] * 9, f'["commit",{t}]']
        accounts = "[[1,101,500,1000],[2,102,0,200],[3,103,-7,999999999999000]]"
        given = "\n".join([opening("[1,400]", accounts, ",".join(SMALLBANK)), *events])
        status, out, err = sgt.run("script", given=given)
        same("standard error and status", ("", 0), (err, status))
        written.append(out.splitlines())
    for one, other in zip(*written):
        same("a reply", one, other)
    same("how many lines", len(written[0]), len(written[1]))
    for part in ("committed", *(f"aborted asked {code} " for code in (1, 2, 3, 4, 1000))):
        same(f"whether some are answered {part}", True, any(line.startswith(part) for line in written[0]))


# Input

FIRST = opening("[1,10]") + "\n"
EVENT = '["step",9]'
UNKNOWN = "unknown\n"


def lines_of(length, size):
    """An opening and then events, each in a line of so many bytes with spaces at its end, so many bytes in all."""
    line = EVENT.ljust(length) + "\n"
    return (FIRST + line * ((size - len(FIRST)) // len(line) + 1))[:size]


def takes_lines_of_the_greatest_length(sgt):
    """With a newline at the end and without, and with one byte more."""
    for length, ends in ((LONGEST_LINE, (0, UNKNOWN, "")), (LONGEST_LINE + 1, (2, "", "line 2: long line\n"))):
        for size in (len(FIRST) + length + 1, len(FIRST) + length):
            same(f"{length}, {size} bytes", ends, sgt.fault("script", given=lines_of(length, size)))


def names_a_long_line(sgt):
    given = FIRST + 16 * f"{EVENT}\n" + " " * (LONGEST_LINE + 1)
    same("line 18", (2, 16 * UNKNOWN, "line 18: long line\n"), sgt.fault("script", given=given))


def read_of(sgt, given):
    """Status, standard output and standard error, and how many bytes of a file the program has read."""
    with tempfile.TemporaryFile() as file:
        file.write(given.encode())
        file.seek(0)
        ran = subprocess.run([sgt.path, "script"], stdin=file, capture_output=True, timeout=SECONDS, check=False)
        return ran.returncode, ran.stdout.decode(), ran.stderr.decode(), os.lseek(file.fileno(), 0, os.SEEK_CUR)


def takes_an_input_of_the_greatest_length(sgt):
    came = read_of(sgt, lines_of(LONGEST_LINE - 1, LONGEST_INPUT))
    same("at the limit", (0, 256 * UNKNOWN, "", LONGEST_INPUT), came)


def reads_one_byte_beyond_the_limit(sgt):
    for more in (1, 2, 10_000_000):
        came = read_of(sgt, lines_of(LONGEST_LINE - 1, LONGEST_INPUT + more))
        same(f"{more} bytes more", (2, 255 * UNKNOWN, "input too long\n", LONGEST_INPUT + 1), first_line(came))


def fed_without_end(sgt, piece):
    """What a run over an opening and then this piece again and again writes, and how it ends."""
    process = sgt.start("script")

    def feed():
        try:
            process.stdin.write(FIRST.encode())
            while True:
                process.stdin.write(piece)
                process.stdin.flush()
        except OSError:
            pass

    feeder = threading.Thread(target=feed, daemon=True)
    feeder.start()
    clock = threading.Timer(SECONDS, process.kill)
    clock.start()
    out, err = process.stdout.read().decode(), process.stderr.read().decode()
    status = process.wait()
    clock.cancel()
    feeder.join(SECONDS)
    return status, out, err


def ends_on_an_input_that_never_ends(sgt):
    line = EVENT.ljust(LONGEST_LINE - 1) + "\n"
    same("lines", (2, 255 * UNKNOWN, "input too long\n"), first_line(fed_without_end(sgt, line.encode())))
    same("no line", (2, "", "line 2: long line\n"), first_line(fed_without_end(sgt, b" " * 99_999)))


# What is given, and the replies that have to be written before more is given.
TURNS = (
    (FIRST, ""),
    ('["start",0,[1]]\n', "started 0\n"),
    ('["start",0,[1]]\n["step",9]\n["ste', "full\nunknown\n"),
    ('p",0]\n', "read 0/1 none\n"),
    ('["quit",0]', ""),
)


def writes_each_reply_before_it_reads_on(sgt):
    process = sgt.start("script")
    clock = threading.Timer(SECONDS, process.kill)
    clock.start()
    try:
        for piece, reported in TURNS:
            process.stdin.write(piece.encode())
            process.stdin.flush()
            for line in reported.splitlines(True):
                same(f"the reply to {piece}", line, process.stdout.readline().decode())
        out, err = process.communicate()
    finally:
        clock.cancel()
        process.kill()
        process.wait()
    same("the rest", (0, b"aborted quit fell none\n", b""), (process.returncode, out, err))


CASES = [
    reads_events,
    reads_accesses_of_callers,
    takes_any_number_of_accesses_of_a_caller,
    reads_either_spelling,
    takes_no_space_inside_a_number,
    reads_starts,
    refuses_lines_of_no_event,
    refuses_lines_of_no_json,
    reads_jobs,
    numbers_procedures_as_they_stand_in_the_opening,
    numbers_transactions_by_their_starts,
    puts_records_after_the_opening,
    puts_no_bad_record,
    ends_the_records_at_any_other_line,
    tests_line_1_before_the_records,
    numbers_lines_and_jobs_after_records,
    puts_as_many_records_as_an_input_can_hold,
    asks_for_a_million_jobs_after_records,
    refuses_openings_of_no_shape,
    tests_limits_before_accounts_and_procedures,
    takes_limits_up_to_their_ends,
    refuses_accounts,
    reports_the_first_fault,
    refuses_procedures,
    reports_the_place_of_a_shape_error,
    reports_a_list_of_no_row,
    reports_a_thing_of_another_kind,
    finds_an_unknown_word_in_deep_blocks,
    reports_the_first_shape_error,
    reports_numbers_past_their_ranges,
    reads_numbers_up_to_the_ends_of_their_ranges,
    reports_the_longest_place,
    wants_a_register_set_on_each_way,
    reports_the_least_flaw,
    takes_procedures_up_to_their_sizes,
    takes_spaces_and_escapes,
    explains_openings,
    explains_the_first_wrong_character,
    finds_the_first_wrong_character_of_drawn_lines,
    explains_too_few_for_the_workers,
    explains_procedures,
    explains_brackets,
    explains_procedures_past_their_sizes,
    explains_the_place_of_each_shape_error_and_flaw,
    explains_lines,
    explains_records,
    explains_records_after_others,
    explains_lines_of_no_json,
    explains_no_opening_and_a_long_line,
    says_how_to_go_on_from_what_is_too_long,
    explains_a_distant_line,
    gives_products_or_asks_1000,
    gives_quotients_towards_zero_or_asks_1000,
    gives_fees,
    finds_a_record_or_takes_the_value_in_its_place,
    asks_1000_before_the_look,
    uses_a_key_once,
    lets_finds_follow_one_another,
    removes_a_record,
    removed_records_are_not_reported,
    enters_and_leaves_branches,
    ends_by_a_code,
    leaves_the_deepest_branch_step_by_step,
    makes_64_accesses,
    looks_where_the_customer_says,
    does_what_smallbank_does_by_its_trees,
    takes_lines_of_the_greatest_length,
    names_a_long_line,
    takes_an_input_of_the_greatest_length,
    reads_one_byte_beyond_the_limit,
    ends_on_an_input_that_never_ends,
    writes_each_reply_before_it_reads_on,
]


def main():
    if len(sys.argv) != 2:
        sys.exit(__doc__)
    return run_cases(CASES, Program(sys.argv[1]))


if __name__ == "__main__":
    sys.exit(main())
