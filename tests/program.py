#!/usr/bin/env python3
"""Runs the built program as a user does, and compares what it writes to standard output and standard error, and its status.

    tests/program.py crates/sgt/out/sgt

A case that differs is reported with what was wanted and what came. The last line counts the cases. Its help
stands in `expected`.
"""

import json
import os
import random
import re
import resource
import shutil
import signal
import subprocess
import sys
import tempfile
import time
from collections import Counter
from itertools import permutations

sys.dont_write_bytecode = True
from helpers import explained  # noqa: E402
from helpers.cases import SECONDS, TESTS, Differs, first_line, same, run_cases  # noqa: E402
from helpers.legal import Illegal, judge  # noqa: E402
from helpers.textbook import unjudged  # noqa: E402
from helpers.worked import PROGRAMS, Bank, drawn  # noqa: E402

EXAMPLES = TESTS.parent / "examples"
INPUTS = TESTS / "inputs"
EXPECTED = TESTS / "expected"

# The explanations of scripts of those two with `--explain`, each worked out by hand.
EXPLANATIONS = EXPECTED / "explanations"

# The most bytes that an input may have.
LONGEST_INPUT = 16_777_216

# The most bytes that an option can let an input have.
MOST_BYTES = 4_294_967_296

# What is said of an input that is too long.
SPLIT = "take more with --most, or split it, and begin the next part with the record lines of the one before (--records, --json)"

# An invocation of a client.
CLIENT = '{"type":"invoke","process":1,"value":[["append",1,1]]}\n'

OPENING = '{"limits":[4,100],"accounts":[[1,101,500,1000]],"procedures":[]}\n'
EVENTS = '["start",0,[1]]\n["step",0]\n'
REPLIES = "started 0\nread 0/1 101\n"
RECORDS = "0/1 101\n1/101 500\n2/101 1000\n"

HISTORY = "r1[x] r2[y] w2[x] w1[y] c2 r3[y] c1 w4[z] a4\n"
REPORT = """transactions 4: 2 committed, 1 aborted, 1 active
serializable no: 1 2 by r1[x] (1) w2[x] (3), 2 1 by r2[y] (2) w1[y] (4)
recoverable yes
avoids cascading aborts no: r3[y] (6) reads from 1, which has not committed
strict no: r3[y] (6) follows w1[y] (4), and 1 has not ended
rigorous no: w2[x] (3) follows r1[x] (1), and 1 has not ended
commit ordered no: 1 before 2 by r1[x] (1) w2[x] (3), and 2 committed first
"""

GRAPH = """digraph serialization {
  2;
  1;
  1 -> 2 [label="r1[x] (1) w2[x] (3)", color=red];
  2 -> 1 [label="r2[y] (2) w1[y] (4)", color=red];
}
"""


def usage(name):
    return (EXPECTED / f"{name}.txt").read_text()


class Program:
    """The program under test, at its path."""

    def __init__(self, path):
        self.path = os.path.abspath(path)

    def start(self, *words, **streams):
        # As in a shell: a write to a closed pipe stops the program by a signal, where it does not see to that itself.
        return subprocess.Popen([self.path, *words], start_new_session=True, restore_signals=True, **streams)

    def run(self, *words, given="", out=subprocess.PIPE, source=None, address_space=None):
        """The status, standard output (none where it goes elsewhere) and standard error."""
        streams = {"stdin": source or subprocess.PIPE, "stdout": out, "stderr": subprocess.PIPE}
        if address_space:
            limit = (address_space, address_space)
            streams["preexec_fn"] = lambda: resource.setrlimit(resource.RLIMIT_AS, limit)
        process = self.start(*words, **streams)
        try:
            wrote, reported = process.communicate(None if source else given.encode(), timeout=SECONDS)
        except subprocess.TimeoutExpired:
            os.killpg(process.pid, signal.SIGKILL)
            process.communicate()
            raise Differs(f"no end after {SECONDS} seconds") from None
        return process.returncode, (wrote or b"").decode(), reported.decode()

    def expect(self, *words, given="", status=0, out="", err=""):
        """If one line is wanted of an error, a second one may explain it."""
        came = self.run(*words, given=given)
        if status == 2 and err.count("\n") == 1:
            came = first_line(came)
        same("standard error", err, came[2])
        same("standard output", out, came[1])
        same("status", status, came[0])


# Words


def reports_its_version(sgt):
    for word in ("--version", "version"):
        sgt.expect(word, out="sgt 0.1.0\n")


def helps(sgt):
    sgt.expect("--help", out=usage("help"))
    sgt.expect("script", "--help", out=usage("help_script"))
    sgt.expect("bank", "--help", out=usage("help_bank"))
    sgt.expect("check", "--help", out=usage("help_check"))


def helps_where_no_word_is_given(sgt):
    sgt.expect(status=2, err=usage("help"))


def refuses_words(sgt):
    sgt.expect("ship", status=2, err=usage("unknown_command"))
    sgt.expect("script", "one", "more", status=2, err=usage("unexpected_word"))
    sgt.expect("bank", "--jobs", "3", status=2, err=usage("unknown_option"))
    for words in (["--threads", "3"], ["--threads=3"], ["--explain", "--threads"]):
        sgt.expect("bank", *words, status=2, err=usage("threads"))


def refuses_numbers(sgt):
    for option, number, last in (("workers", "0", 16), ("workers", "17", 16), ("tries", "0", 1000), ("tries", "1001", 1000), ("most", "0", MOST_BYTES),
                                 ("most", str(MOST_BYTES + 1), MOST_BYTES)):
        text = usage("bad_number").format(option=option, number=number, last=last)
        sgt.expect("bank", f"--{option}", number, given=OPENING, status=2, err=text)
    for option, last in (("workers", 16), ("tries", 1000), ("most", MOST_BYTES)):
        for word in ("abc", "1.5", "-1"):
            text = usage("bad_number").format(option=option, number=word, last=last).replace(f"{word} is not in 1..={last}", f"a whole number from 1 to {last} is expected")
            sgt.expect("bank", f"--{option}={word}", given=OPENING, status=2, err=text)


# The options of a run that exclude each other.
EXCLUSIVE = [{first, second} for first in ("history", "records") for second in ("explain", "json")]
EXCLUSIVE += [{"history", "records"}]


def refuses_two_forms_of_one_run(sgt):
    for command in ("script", "bank"):
        for first, second in permutations(("history", "records", "explain", "json"), 2):
            if {first, second} not in EXCLUSIVE:
                continue
            text = usage("conflicting_options").format(command=command, first=first, second=second)
            sgt.expect(command, f"--{first}", f"--{second}", given=OPENING, status=2, err=text)
    for first, second in permutations(("progress", "no-progress"), 2):
        text = usage("conflicting_options").format(command="bank", first=first, second=second)
        sgt.expect("bank", f"--{first}", f"--{second}", given=OPENING, status=2, err=text)


def reads_a_named_file(sgt):
    """Each command reads a file as it reads standard input, and nothing of standard input then."""
    with tempfile.TemporaryDirectory() as scratch:
        def named(text, name="an input.txt"):
            path = os.path.join(scratch, name)
            with open(path, "w") as file:
                file.write(text)
            return path

        sgt.expect("script", named(OPENING + EVENTS), given="not read", out=REPLIES + RECORDS)
        sgt.expect("script", named(OPENING + "[]\n"), "--explain", status=2,
                   err=sgt.run("script", "--explain", given=OPENING + "[]\n")[2])
        sgt.expect("bank", "--workers", "2", named(OPENING + '["job",0,[1]]\n'),
                   out=sgt.run("bank", "--workers", "2", given=OPENING + '["job",0,[1]]\n')[1])
        sgt.expect("check", named(HISTORY), status=1, out=REPORT, err=unjudged(REPORT))
        sgt.expect("check", "--graph", named(HISTORY, "-h.txt").replace(scratch, f"{scratch}/."), status=1, out=GRAPH)
        for words, given in ((["script"], OPENING + EVENTS), (["script", "--explain"], OPENING + "[]\n"), (["bank", "--workers", "2"], OPENING + JOB), (["check"], HISTORY)):
            same(f"{words} -", sgt.run(*words, given=given), sgt.run(*words, "-", given=given))
        sgt.expect("script", named(OPENING + EVENTS, "-").replace(scratch, f"{scratch}/."), given="not read", out=REPLIES + RECORDS)
        sgt.expect("script", "--", "-", given=OPENING + EVENTS, out=REPLIES + RECORDS)
        missing = os.path.join(scratch, "none")
        for command in ("script", "bank", "check"):
            sgt.expect(command, missing, given=HISTORY, status=2, err=f"cannot read {missing}: no such file\n")
            sgt.expect(command, scratch, given=HISTORY, status=2, err=f"cannot read {scratch}: it is a directory\n")
            sgt.expect(command, "", given=HISTORY, status=2, err=sgt.run("check", "")[2])
        with open(os.path.join(scratch, "closed"), "w") as closed:
            os.fchmod(closed.fileno(), 0)
        if os.geteuid() != 0:
            sgt.expect("check", closed.name, status=2, err=f"cannot read {closed.name}: no permission\n")


def is_installed_with_its_page_and_completions(sgt):
    """Each command and option of the help stands in the man page and in the completions, and bash completes them."""
    with tempfile.TemporaryDirectory() as scratch:
        made = subprocess.run([TESTS.parent / "tools/install", scratch, sgt.path], capture_output=True, text=True, check=True)
        program, page, *completions = made.stdout.splitlines()
        same("the program", "sgt 0.1.0\n", Program(program).run("--version")[1])
        texts = {path: open(path).read().replace("\\-", "-") for path in (page, *completions)}
        for command in ("script", "bank", "check"):
            for option in re.findall(r"^ .*--([a-z-]+)", usage(f"help_{command}").split("Options:")[1].split("\n\n")[0], re.M):
                for path, text in texts.items():
                    if command not in text or option not in text:
                        raise Differs(f"{path}: no {command} --{option}")
        for words, wanted in (("sgt b", "bank"), ("sgt script --e", "--explain"), ("sgt check --model l", "list-append")):
            count = len(words.split())
            asked = f'. {completions[0]}; COMP_WORDS=({words}); COMP_CWORD={count - 1}; _sgt; echo "${{COMPREPLY[*]}}"'
            same(words, wanted + "\n", subprocess.run(["bash", "-c", asked], capture_output=True, text=True, check=True).stdout)
        if groff := shutil.which("groff"):
            same("the page", "", subprocess.run([groff, "-man", "-ww", "-z", page], capture_output=True, text=True, check=True).stderr)


def refuses_bytes_that_are_no_text(sgt):
    sgt.expect(b"scr\xffipt", status=2, err=usage("no_text"))


# Input


def runs_each_example(sgt):
    for script in sorted(EXAMPLES.glob("*.jsonl")):
        try:
            sgt.expect("script", given=script.read_text(), out=script.with_suffix(".out").read_text())
        except Differs as why:
            raise Differs(f"{script.name}: {why}") from None


def banks():
    """Each bank of the examples, with the words that its page runs it with."""
    for folder, words in (("bank", []), ("bank_one_worker", ["--workers", "1"]), ("bank_eight_workers", ["--workers", "8"])):
        for jobs in sorted((EXAMPLES / folder).glob("*.jsonl")):
            yield jobs, words


def runs_each_bank(sgt):
    for jobs, words in banks():
        try:
            sgt.expect("bank", *words, given=jobs.read_text(), out=jobs.with_suffix(".out").read_text())
        except Differs as why:
            raise Differs(f"{jobs.parent.name}/{jobs.name}: {why}") from None


def runs_each_input(sgt):
    """What stands beside it: `.out` is what is written, and `.err`, where there is one, the fault that it ends in."""
    count = 0
    for folder, words in (("scripts", ["script"]), ("script_faults", ["script"]), ("banks", ["bank", "--workers", "1"]), ("bank_faults", ["bank", "--workers", "2"])):
        for given in sorted((INPUTS / folder).glob("*.jsonl")):
            fault = given.with_suffix(".err")
            err = fault.read_text() if fault.exists() else ""
            count += 1
            try:
                sgt.expect(*words, given=given.read_text(), status=2 if err else 0, out=given.with_suffix(".out").read_text(), err=err)
            except Differs as why:
                raise Differs(f"{folder}/{given.name}: {why}") from None
    return f"{count} inputs"


def refuses_too_much_of_a_bank(sgt):
    opening = '{"limits":[1,10],"accounts":[],"procedures":[]}\n'
    for length, fault in ((12, "too many jobs"), (65_535, "input too long"), (65_537, "line 2: long line")):
        line = '["job",0,[]]'.ljust(length) + "\n"
        given = opening + line * (LONGEST_INPUT // len(line) + 1)
        sgt.expect("bank", "--workers", "1", given=given, status=2, err=fault + "\n")


def runs_the_worked_programs(sgt):
    for name, check in PROGRAMS.items():
        jobs = EXAMPLES / "programs" / f"{name}.jsonl"
        given = jobs.read_text()
        sgt.expect("bank", "--workers", "1", given=given, out=jobs.with_suffix(".out").read_text())
        opening = given.splitlines()[0]
        for workers in ("1", "4", "16"):
            for seed, text in enumerate([given] + [drawn(name, opening, seed, 2000) for seed in range(1, 4)]):
                status, wrote, reported = sgt.run("bank", "--workers", workers, "--tries", "1000", given=text)
                same(f"{name}, {workers} workers, input {seed}: standard error and status", ("", 0), (reported, status))
                try:
                    check(Bank(text, wrote))
                except Differs as why:
                    raise Differs(f"{name}, {workers} workers, input {seed}: {why}") from None


def checks_each_history(sgt):
    for history in sorted((EXAMPLES / "histories").glob("*.txt")):
        report = history.with_suffix(".out").read_text()
        sound = "\nserializable yes" in report and "\nrecoverable yes\n" in report
        try:
            sgt.expect("check", given=history.read_text(), status=0 if sound else 1, out=report, err=unjudged(report))
        except Differs as why:
            raise Differs(f"histories/{history.name}: {why}") from None


def checks_a_history_that_breaks_all_but_one(sgt):
    sgt.expect("check", given=HISTORY, status=1, out=REPORT, err=unjudged(REPORT))


def draws_a_cycle(sgt):
    sgt.expect("check", "--graph", given=HISTORY, status=1, out=GRAPH)


def draws_the_example(sgt):
    drawn = EXAMPLES / "histories" / "write_skew.dot"
    sgt.expect("check", "--graph", given=drawn.with_suffix(".txt").read_text(), status=1, out=drawn.read_text())


def draws_each_edge_once(sgt):
    """By the first two operations that conflict, and those of one later operation from the last earlier one back."""
    # 1 and 3 both come before 2, which commits first, and more than once; 4 aborts, and 5 has not ended.
    history = "w1[x] r3[y] r1[x] w2[x] w2[y] w1[z] w2[z] w4[x] r5[x] w6[x] a4 c2 c6 c3 c1\n"
    graph = """digraph serialization {
  2;
  6;
  3;
  1;
  1 -> 2 [label="w1[x] (1) w2[x] (4)"];
  3 -> 2 [label="r3[y] (2) w2[y] (5)"];
  2 -> 6 [label="w2[x] (4) w6[x] (10)"];
  1 -> 6 [label="w1[x] (1) w6[x] (10)"];
}
"""
    sgt.expect("check", "--graph", given=history, out=graph)


def graph_of(words, report):
    """The graph of these operations by its plainest definition, with the cycle of the report."""
    operations = [re.fullmatch(r"([rwca])(\d+)(.*)", word).groups() for word in words]
    committed = [transaction for kind, transaction, _ in operations if kind == "c"]
    first = {}
    for later, (kind, to, item) in enumerate(operations):
        for earlier, (before, origin, other) in enumerate(operations[:later]):
            conflict = item and item == other and "w" in (kind, before) and origin != to
            if conflict and origin in committed and to in committed and (origin, to) not in first:
                first[origin, to] = (later, earlier)
    red = set()
    if reported := re.search("serializable no: (.*)", report):
        red = {tuple(edge.split()[:2]) for edge in reported[1].split(", ")}
    lines = ["digraph serialization {", *(f"  {transaction};" for transaction in committed)]
    for (origin, to), (later, earlier) in sorted(first.items(), key=lambda edge: (edge[1][0], -edge[1][1])):
        colour = ", color=red" if (origin, to) in red else ""
        lines.append(f'  {origin} -> {to} [label="{words[earlier]} ({earlier + 1}) {words[later]} ({later + 1})"{colour}];')
    return "\n".join([*lines, "}", ""])


def draws_drawn_histories(sgt):
    """Of up to six transactions and four items, compared with the graph by its plainest definition."""
    dice = random.Random(33)
    cycles = 0
    for _ in range(300):
        most = dice.randint(1, 6)
        active = list(range(1, most + 1))
        words = []
        while active and len(words) < 40:
            transaction = dice.choice(active)
            kind = dice.choice("rrrwwwwca")
            if kind in "ca":
                active.remove(transaction)
            words.append(f"{kind}{transaction}" + (f"[{dice.choice('xyzv')}]" if kind in "rw" else ""))
        given = " ".join(words) + "\n"
        status, report, _ = sgt.run("check", given=given)
        cycles += "serializable no" in report
        try:
            sgt.expect("check", "--graph", given=given, status=status, out=graph_of(words, report))
        except Differs as why:
            raise Differs(f"{given}: {why}") from None
    return f"{cycles} of 300 with a cycle"


def draws_what_dot_takes(sgt):
    """Where Graphviz is installed."""
    dot = shutil.which("dot")
    if not dot:
        return "dot is not installed"
    texts = [history.read_text() for history in sorted((EXAMPLES / "histories").glob("*.txt"))]
    for given in (HISTORY, "", "w1[A-z/0.9_:] w4294967295[A-z/0.9_:] c1 c4294967295", *texts):
        _, graph, reported = sgt.run("check", "--graph", given=given)
        same("standard error", "", reported)
        drawn = subprocess.run([dot, "-Tsvg"], input=graph.encode(), capture_output=True, timeout=SECONDS, check=False)
        same(f"{dot}: standard error", b"", drawn.stderr)
        same(f"{dot}: status", 0, drawn.returncode)
        same(f"{dot}: edges", graph.count(" -> "), drawn.stdout.count(b'class="edge"'))
    return None


def writes_a_script_as_a_history(sgt):
    given = OPENING + '["start",1,[1,50]]\n["start",0,[1]]\n' + '["step",0]\n' * 3 + '["step",1]\n' * 3
    given += '["commit",1]\n["quit",0]\n["commit",1]\n["cut"]\n["start",0,[1]]\n["cut"]\n["step",0]\n'
    history = "r0[0/1]\nr0[2/101]\nw0[2/101]\nr1[0/1]\nr1[1/101]\nr1[2/101]\na0\na1\n# cut 11\nr0[0/1]\n"
    sgt.expect("script", "--history", given=given, out=history)
    sgt.expect("script", "--history", given=given + "[]\n", status=2, out=history, err="line 17: bad line\n")


# A caller reads and removes, another one reads what is removed then; and a write in the next part.
ACCESSES = OPENING + """["begin"]
["begin"]
["read",0,1,101]
["remove",1,2,101]
["write",1,3,1,7]
["write",1,3,2,7]
["remove",1,3,2]
["read",0,0,1]
["read",0,2,101]
["commit",0]
["commit",1]
["commit",0]
["cut"]
["begin"]
["write",0,3,1,8]
"""


def answers_accesses_of_callers(sgt):
    replies = "started 0\nstarted 1\nread 1/101 500\nremoved 2/101\nwrote 3/1 7\nwrote 3/2 7\nremoved 3/2\nread 0/1 101\n"
    replies += "read 2/101 none\nwaits 1\ncommitted none\ncommitted none\ncut 12\nstarted 0\nwrote 3/1 8\n"
    sgt.expect("script", given=ACCESSES, out=replies + "0/1 101\n1/101 500\n3/1 7\n")
    sgt.expect("script", "--records", given=ACCESSES, out='["record",0,1,101]\n["record",1,101,500]\n["record",3,1,7]\n')
    history = "r0[1/101]\nw1[2/101]\nw1[3/1]\nw1[3/2]\nw1[3/2]\nr0[0/1]\nr0[2/101]\nc1\nc0\n# cut 12\nw0[3/1]\n"
    sgt.expect("script", "--history", given=ACCESSES, out=history)


def explains_accesses_of_callers(sgt):
    """A write of a caller closes a cycle, and one who read another's write is aborted in cascade."""
    given = OPENING + """["begin"]
["start",0,[1]]
["read",0,1,101]
["step",1]
["step",1]
["step",1]
["write",1,1,101,1]
["remove",0,2,101]
["begin"]
["read",2,1,101]
["quit",1]
["begin"]
"""
    replies = "started 0\nstarted 1\nread 1/101 500\nread 0/1 101\nread 1/101 500\nread 2/101 1000\nwrote 1/101 1\n"
    replies += "aborted cycle 0 1 fell none\nstarted 2\nread 1/101 1\naborted quit fell 2\nstarted 3\n"
    reported = "line 9: 1 wrote 1/101 at line 8, which 0 read at line 4\nline 9: 0 would remove 2/101, which 1 read at line 7\n"
    reported += "line 12: 2 read 1/101 of 1 at line 11\n1 transaction is live at the end: 3\n"
    sgt.expect("script", "--explain", given=given, out=replies + RECORDS, err=reported)


def writes_each_example_as_a_history_of_the_classes_that_are_promised(sgt):
    for script in sorted(EXAMPLES.glob("*.jsonl")):
        if '"cut"' not in script.read_text():
            is_sound(sgt, script.name, "script", "--history", given=script.read_text())


def writes_each_bank_as_a_history_of_the_classes_that_are_promised(sgt):
    for jobs, words in banks():
        is_sound(sgt, jobs.name, "bank", "--history", *words, given=jobs.read_text())


def is_sound(sgt, name, *words, given):
    """Whether the history that these words write is, by `sgt check`, of the classes that are promised of each."""
    status, history, err = sgt.run(*words, given=given)
    same(f"{name}: standard error", "", err)
    same(f"{name}: status", 0, status)
    status, report, err = sgt.run("check", given=history)
    same(f"{name}: standard error of check", unjudged(report), err)
    same(f"{name}: status of check", 0, status)
    for line in ("serializable yes:", "recoverable yes\n", "commit ordered yes\n"):
        if "\n" + line not in report:
            raise Differs(f"{name}: no line {line!r} in {report!r}")


def writes_what_a_script_leaves_as_records(sgt):
    given = OPENING + '["start",1,[1,50]]\n' + '["step",0]\n' * 3 + '["commit",0]\n["cut"]\n'
    given += '["start",2,[1,-600]]\n["start",4,[1,70]]\n' + '["step",1]\n' * 4
    records = '["record",0,1,101]\n["record",1,101,500]\n["record",2,101,1050]\n'
    sgt.expect("script", "--records", given=given, out=records)
    sgt.expect("script", "--records", given=given + "[]\n", status=2, err="line 14: bad line\n")
    sgt.expect("script", "--records", given='{"limits":[1,1],"accounts":[],"procedures":[]}\n')
    sgt.expect("script", "--records", status=2, err="line 1: no opening\n")


def writes_what_each_example_leaves_as_records(sgt):
    for script in sorted(EXAMPLES.glob("*.jsonl")):
        leaves_records(sgt, script, "script", "--records")


def writes_what_each_bank_leaves_as_records(sgt):
    for jobs, words in banks():
        leaves_records(sgt, jobs, "bank", "--records", *words)
    sgt.expect("bank", "--records", given=OPENING + '["job",1,[1,50]]\n["job"]\n', status=2, err="line 3: bad line\n")
    sgt.expect("bank", "--records", status=2, err="line 1: no opening\n")


def opens_on_the_records_that_a_run_leaves(sgt):
    """They are the database of the next run, and what that leaves where nothing is done."""
    for words, given in [(["script"], script) for script in sorted(EXAMPLES.glob("*.jsonl"))] + [(["bank"], jobs) for jobs, _ in banks()]:
        _, left, _ = sgt.run(*words, "--records", given=given.read_text())
        database = "".join("{}/{} {}\n".format(*row) for row in re.findall(r'\["record",([0-7]),(-?[0-9]+),(-?[0-9]+)\]\n', left))
        opening = '{"limits":[8,10],"accounts":[],"procedures":[]}\n' + left
        try:
            for command in ("script", "bank"):
                sgt.expect(command, given=opening, out=database)
                sgt.expect(command, "--records", given=opening, out=left)
        except Differs as why:
            raise Differs(f"{given.parent.name}/{given.name}: {why}") from None


def goes_on_from_the_records_of_an_account(sgt):
    """What accounts put into the database, record lines do as well."""
    records = '{"limits":[4,100],"accounts":[],"procedures":[]}\n["record",2,101,1000]\n["record",0,1,101]\n["record",1,101,500]\n'
    sgt.expect("script", given=records + EVENTS, out=REPLIES + RECORDS)
    sgt.expect("script", "--history", given=records + EVENTS, out="r0[0/1]\n")


def leaves_records(sgt, script, *words):
    """Runs an input with these words, and compares with the database at the end of what it writes without them."""
    database = re.findall(r"^([0-7])/(-?[0-9]+) (-?[0-9]+)$", script.with_suffix(".out").read_text(), re.M)
    try:
        sgt.expect(*words, given=script.read_text(), out="".join(f'["record",{",".join(row)}]\n' for row in database))
    except Differs as why:
        raise Differs(f"{script.parent.name}/{script.name}: {why}") from None


# Lost updates, of which 1 and then 0 is aborted: the second part begins after a cut.
LOST = '["start",1,[1,100]]\n["start",1,[1,50]]\n' + '["step",0]\n["step",0]\n["step",1]\n["step",1]\n["step",0]\n["step",1]\n'
LOST_REPLIES = ("started 0\nstarted 1\nread 0/1 101\nread 2/101 1000\nread 0/1 101\nread 2/101 1000\nwrote 2/101 1100\n"
                "aborted cycle 1 0 fell none\n")
WHY_LOST = ("line {8}: 0 wrote 2/101 at line {7}, which 1 read at line {6}\n"
            "line {8}: 1 would write 2/101, which 0 read at line {4} and wrote at line {7}\n")


def why_lost(first):
    """Why 1 is aborted, where the first of these lines has this number."""
    return WHY_LOST.format(*range(first - 1, first + 8))


def explained_by_hand(script):
    """The explanations of a script of the examples or of the inputs; nothing if no file is there."""
    reported = EXPLANATIONS / f"{script.parent.name}_{script.stem}.txt"
    return reported.read_text() if reported.exists() else ""


def explains_each_example(sgt):
    for script in sorted(EXAMPLES.glob("*.jsonl")):
        out = script.with_suffix(".out").read_text()
        try:
            sgt.expect("script", "--explain", given=script.read_text(), out=out, err=explained_by_hand(script))
        except Differs as why:
            raise Differs(f"{script.name}: {why}") from None


def explains_each_input(sgt):
    """Nothing else of a run changes, and its error is reported as without the option."""
    for folder in ("scripts", "script_faults"):
        for script in sorted((INPUTS / folder).glob("*.jsonl")):
            status, wrote, reported = sgt.run("script", given=script.read_text())
            before = explained_by_hand(script) if folder == "scripts" else ""
            same(f"{folder}/{script.name}", (status, wrote, before + reported), sgt.run("script", "--explain", given=script.read_text()))


# The line of a job that did not commit at its first try; why a try failed; and the summary.
REPORTED_JOB = re.compile(r"job (\d+): (committed|aborted with code (\d+)(?: \([a-z0, ]+\))?|given up|refused: (.*)|no memory)(?: at try (\d+))?((?:; try \d+: [^;]*)*)")
FAILED_TRY = re.compile(r"try (\d+): (?:cycle with job ([\d, ]+)|aborted in cascade with job (\d+))")
REPORTED_CODE = re.compile(r"code (\d+)(?: \([a-z0, ]+\))? of (.*): (\d+) (jobs?)")
SUMMARY = "{} jobs: {} committed, {} aborted with a code, {} given up, {} refused, {} without memory; {} tries"


def says_how_jobs_ended(sgt):
    given = OPENING + '["job",1,[1,50]]\n["job",0,[9]]\n["job",99,[]]\n["job",0,[1]]\n["job",1,[1]]\n["job",4,[1,1000000000000000]]\n'
    out = "0 committed 1050\n1 asked 1\n2 refused 1\n3 committed 1550\n4 refused 2\n5 refused 2\n0/1 101\n1/101 500\n2/101 1050\n"
    err = "job 1: aborted with code 1 (the name is unknown) at try 1\njob 2: refused: there is no procedure 99\n"
    err += "job 4: refused: DepositChecking takes 2 arguments, found 1\n"
    err += f"job 5: refused: argument 1 is 1000000000000000, {explained.RANGE}\ncode 1 (the name is unknown) of Balance: 1 job\n" + SUMMARY.format(6, 2, 1, 0, 3, 0, 3) + "\n"
    sgt.expect("bank", "--explain", "--workers", "1", given=given, out=out, err=err)
    sgt.expect("bank", "--explain", given=OPENING, out=RECORDS, err=SUMMARY.format(0, 0, 0, 0, 0, 0, 0) + "\n")
    own = '{"limits":[4,100],"accounts":[],"procedures":[[1,[]],[0,[]],[4,[["ask",1]]]]}\n'
    jobs = ((5, []), (6, [1]), (7, [1, 2, 3]), (65535, [1, 2]), (8, []), (2, [1]))
    err = "".join(f"job {job}: refused: {words}\n" for job, words in enumerate((
        "procedure 5 takes 1 argument, found 0", "procedure 6 takes 0 arguments, found 1", "procedure 7 takes 4 arguments, found 3",
        "procedure 65535 takes 0 arguments, found 2", "there is no procedure 8", "TransactSaving takes 2 arguments, found 1")))
    same("procedures of line 1", (0, err + SUMMARY.format(6, 0, 0, 0, 6, 0, 0) + "\n"),
         sgt.run("bank", "--explain", given=own + "".join(f'["job",{procedure},{args}]\n' for procedure, args in jobs))[::2])
    one = "1 job: 1 committed, 0 aborted with a code, 0 given up, 0 refused, 0 without memory; 1 try\n"
    sgt.expect("bank", "--explain", given=OPENING + JOB, out=DEPOSITED, err=one)


# Calls that abort, and what is said of their codes: of SmallBank's procedures what they mean.
CODED = (
    (0, [9], 1, " (the name is unknown)"),
    (1, [1, -1], 2, " (the amount is negative)"),
    (2, [1, -501], 3, " (the saving would be negative)"),
    (3, [1, 1], 4, " (both names are the same)"),
    (0, [7], 5, " (there is no saving or no checking)"),
    (1, [1, 999999999999999], 1000, " (a result is not a value, or a divisor is 0)"),
    (5, [], 5, ""),
    (6, [], 1000, " (a result is not a value, or a divisor is 0)"),
)


def says_what_codes_mean(sgt):
    """With the procedure that raised the code, in a script; with the job, in a bank, which counts them."""
    opening = '{"limits":[8,100],"accounts":[[1,101,500,1000]],"procedures":[[0,[["ask",5]]],[0,[["answer",["quotient",1,0]]]]]}\n["record",0,7,107]\n'
    jobs = "".join(f'["job",{procedure},{args}]\n' for procedure, args, _, _ in CODED)
    reported = "".join(f"job {2 * job + again}: aborted with code {code}{words} at try 1\n" for job, (_, _, code, words) in enumerate(CODED) for again in (0, 1))
    reported += "".join(f"code {code}{words} of {explained.name_of(procedure)}: 2 jobs\n" for procedure, _, code, words in sorted(CODED, key=lambda it: (it[0], it[2])))
    twice = "".join(f"{job}\n" * 2 for job in jobs.splitlines())
    same("bank", reported + SUMMARY.format(16, 0, 16, 0, 0, 0, 16) + "\n", sgt.run("bank", "--explain", "--workers", "1", given=opening + twice)[2])
    events = "".join(f'["start",{procedure},{args}]\n' + f'["step",{t}]\n' * 4 for t, (procedure, args, _, _) in enumerate(CODED))
    reported = [f"{explained.name_of(procedure)} aborted {t} with code {code}{words}" for t, (procedure, _, code, words) in enumerate(CODED)]
    for asks, ends in (("", ""), (",1", "".join(f'["commit",{t}]\n' for t in range(8)))):
        came = sgt.run("script", "--explain", given=opening.replace("100]", f"100{asks}]", 1) + events + ends)[2].splitlines()
        same(f"script{asks}", reported, [line.split(": ", 1)[1] for line in came if " aborted " in line])


def takes_words_for_codes(sgt):
    """A line each of a file: for the codes of one's own procedures, and in place of the program's words."""
    opening = '{"limits":[8,100],"accounts":[],"procedures":[[0,[["ask",5]]],[0,[["ask",5]]],[0,[["ask",6]]]]}\n'
    jobs = "".join(f'["job",{procedure},{args}]\n' for procedure, args in ((5, []), (6, []), (7, []), (0, [1])))
    script = "".join(f'["start",{procedure},{args}]\n' + f'["step",{t}]\n' * 2 for t, (procedure, args) in enumerate(((5, []), (6, []), (7, []), (0, [1]))))
    said = {5: " (too little money)", 6: "", 7: " (sch\u00f6n)", 0: " (nobody has this name)"}
    named = {procedure: explained.name_of(procedure) for procedure in said}
    codes = {5: 5, 6: 5, 7: 6, 0: 1}
    with tempfile.TemporaryDirectory() as folder:
        def words(text):
            path = os.path.join(folder, "words of mine")
            with open(path, "w", encoding="utf-8") as file:
                file.write(text)
            return path

        given = words('[5,5,"too little money"]\n [ 7, 6, "sch\\u00f6n" ]\r\n[6,4,"not raised"]\n[0,1,"nobody has this name"]')
        reported = "".join(f"job {job}: aborted with code {codes[procedure]}{said[procedure]} at try 1\n" for job, procedure in enumerate(said))
        reported += "".join(f"code {codes[procedure]}{said[procedure]} of {named[procedure]}: 1 job\n" for procedure in sorted(said))
        came = sgt.run("bank", "--explain", "--words", given, "--workers", "1", given=opening + jobs)
        unsaid = f"{given}: line 3: procedure 6 never aborts with code 4; its codes are 5, 1000\n"
        same("bank", (0, reported + SUMMARY.format(4, 0, 4, 0, 0, 0, 4) + "\n" + unsaid), came[::2])
        same("its output", sgt.run("bank", "--workers", "1", given=opening + jobs)[1], came[1])
        came = sgt.run("script", "--words", given, "--explain", given=opening + script)
        reported = [f"{named[procedure]} aborted {t} with code {codes[procedure]}{said[procedure]}" for t, procedure in enumerate(said)]
        same("script", (0, reported), (came[0], [line.split(": ", 1)[1] for line in came[2].splitlines() if " aborted " in line]))
        same("its output", sgt.run("script", given=opening + script)[1], came[1])
        sgt.expect("script", "--explain", "--words", words(""), given=OPENING, out=RECORDS)
        form = 'expected [procedure,code,"words"], as [5,10,"too little money"]; the words have 1 to 200 bytes'
        good = '[5,5,"x"]\n'
        for text, line in (("{}", 1), ("\n", 1), (f"{good}[5,6]", 2), (f'{good}{good.replace(",5", ",6")}[5,7,""]', 3), ('[5,5,"a\\nb"]', 1), ('["5",5,"x"]', 1),
                           ('[5,-1,"x"]', 1), ('[65536,5,"x"]', 1), (f'[5,5,"{"x" * 201}"]', 1), ('[5,5,"x",1]', 1), ("\ufeff[5,5,\"x\"]", 1)):
            sgt.expect("script", "--explain", "--words", words(text), given=OPENING, status=2, err=f"cannot read {words(text)}: line {line}: {form}\n")
        sgt.expect("bank", "--explain", "--words", words(f'[5,5,"{"x" * 200}"]'), given=OPENING,
                   err=SUMMARY.format(0, 0, 0, 0, 0, 0, 0) + f"\n{os.path.join(folder, 'words of mine')}: line 1: there is no procedure 5\n", out=RECORDS)
        for text, why in ((good + good, "line 2: code 5 of procedure 5 has words already"), (good + " " * 65_536, "it has more than 65536 bytes")):
            sgt.expect("bank", "--explain", "--words", words(text), given=OPENING, status=2, err=f"cannot read {words(text)}: {why}\n")
        for path, why in ((os.path.join(folder, "none"), "no such file"), (folder, "it is a directory")):
            sgt.expect("script", "--explain", "--words", path, given=OPENING, status=2, err=f"cannot read {path}: {why}\n")
        for command in ("script", "bank"):
            sgt.expect(command, "--words", given, given=OPENING, status=2, err=usage("words_alone").format(command=command))


def says_which_words_are_of_no_procedure(sgt):
    """The highest that the file names, if that is not there, after a run that ends well; also of an input that is longer than what is stored."""
    own = '{"limits":[4,100],"accounts":[],"procedures":[[0,[["ask",1]]],[0,[["ask",1]]]]}\n'
    with tempfile.NamedTemporaryFile("w", suffix=".jsonl") as file:
        def words(*procedures):
            file.seek(0)
            file.truncate()
            file.write("".join(f'[{procedure},1,"x"]\n' for procedure in procedures))
            file.flush()

        for opening, procedures, reported in ((OPENING, (0, 4), ""), (OPENING, (0, 5), "line 2: there is no procedure 5"), (own, (6, 5), ""),
                                              (own, (5, 9, 8), "line 2: there is no procedure 9"), (own, (), "")):
            words(*procedures)
            reported = f"{file.name}: {reported}\n" if reported else ""
            for command, first in (("script", ""), ("bank", SUMMARY.format(0, 0, 0, 0, 0, 0, 0) + "\n")):
                same(f"{command} {procedures}", (0, first + reported), sgt.run(command, "--explain", "--words", file.name, given=opening)[::2])
        words(9)
        long = own + '["quit",0]\n' * 200_000
        same("the last line", f"{file.name}: line 1: there is no procedure 9", sgt.run("script", "--explain", "--words", file.name, given=long)[2].splitlines()[-1])
        same("an error", 'line 2: bad line\nexpected ["cut"], found ["cut",0]\n', sgt.run("script", "--explain", "--words", file.name, given=own + '["cut",0]\n')[2])


def says_which_words_are_of_no_code(sgt):
    """The first line of the file with a code that its procedure never raises, also deep inside of it."""
    deep = '[1,[["if",["same",["arg",0],1],[["if",["same",1,1],[["ask",31]],[["look",0,1,["sum",1,2],32]]]],[["ask",33],["find",0,2,1,34]]]]]'
    opening = f'{{"limits":[4,100],"accounts":[],"procedures":[[0,[]],{deep}]}}\n'
    with tempfile.NamedTemporaryFile("w", suffix=".jsonl") as file:
        def words(*named):
            file.seek(0)
            file.truncate()
            file.write("".join(f'[{procedure},{code},"x"]\n' for procedure, code in named))
            file.flush()

        for named, reported in (
            (((6, 31), (6, 32), (6, 33), (6, 1000), (5, 1000), (0, 1), (3, 4), (4, 1000)), ""),
            (((6, 34), (6, 35)), "line 1: procedure 6 never aborts with code 34; its codes are 31, 32, 33, 1000"),
            (((6, 31), (0, 4)), "line 2: procedure 0 never aborts with code 4; its codes are 1, 5, 1000"),
            (((5, 1),), "line 1: procedure 5 never aborts with code 1; its codes are 1000"),
            (((6, 0),), "line 1: procedure 6 never aborts with code 0; its codes are 31, 32, 33, 1000"),
            (((6, 1001),), "line 1: procedure 6 never aborts with code 1001; its codes are 31, 32, 33, 1000"),
            (((65535, 7),), "line 1: procedure 65535 never aborts with code 7"),
            (((6, 34), (7, 1)), "line 2: there is no procedure 7"),
        ):
            words(*named)
            reported = f"{file.name}: {reported}\n" if reported else ""
            for command, first in (("script", ""), ("bank", SUMMARY.format(0, 0, 0, 0, 0, 0, 0) + "\n")):
                same(f"{command} {named}", (0, first + reported), sgt.run(command, "--explain", "--words", file.name, given=opening)[::2])


def says_what_is_wrong_with_words(sgt):
    """In a second line: the part of a line of the file that is wrong, or where it is not JSON."""
    with tempfile.NamedTemporaryFile("w", suffix=".jsonl") as file:
        for line, more in (
            ('[5,30,"tab\\there"]', "the words have a tab, a newline or another control character"),
            ("", "column 1: the line is empty: leave it out"),
            ("[5,31,a]", "column 7: not JSON from here: a word stands in double quotes"),
            ('["5",31,"x"]', 'a procedure is a number from 0 to 65535, found "5"'),
            ('[5,-1,"x"]', "a code is a number from 0 to 65535, found -1"),
            ("[5,31,7]", "the words are a text in double quotes, found 7"),
            ('[5,31,"a"],', "column 11: not JSON from here: the JSON of this line ends before it: each event, job or record stands on a line of its own"),
            ("# mine", "column 1: not JSON from here: there are no comments"),
            ('[5,31]', "found [5,31]"),
            (f'[5,31,"{"x" * 201}"]', "the words are empty, or longer than 200 bytes"),
            ('{"5":["31","too little money there"]}', 'found {"5":["31","too little money the..'),
        ):
            file.seek(0)
            file.truncate()
            file.write(f'[5,1,"x"]\n{line}\n[5,2,"x"]\n')
            file.flush()
            form = 'expected [procedure,code,"words"], as [5,10,"too little money"]; the words have 1 to 200 bytes'
            came = sgt.run("script", "--explain", "--words", file.name, given=OPENING)
            same(line, (2, "", f"cannot read {file.name}: line 2: {form}\n{more}\n"), came)


def says_that_a_procedure_raises_a_code(sgt):
    """Where a caller decides on an access after it, or commits before the code is reported."""
    raises = "the procedure of 0 raises a code: its next step reports it, or with a third limit of 1 its commit"
    events = '["start",5,[1]]\n["step",0]\n["step",0]\n["write",0,3,1,4]\n["commit",0]\n'
    opening = '{"limits":[6,100,1],"accounts":[],"procedures":[[1,[["look",0,3,1,44]]]]}\n'
    sgt.expect("script", "--explain", given=opening + events, out="started 0\nread 3/1 none\nended\nnot ended\nrefused 44 fell none\n",
               err=f"line 5: {raises}\nline 6: procedure 5 aborted 0 with code 44\n")
    events = '["start",5,[1]]\n["step",0]\n["write",0,3,1,4]\n["commit",0]\n["step",0]\n'
    sgt.expect("script", "--explain", given=opening.replace(",1]", "]", 1) + events, out="started 0\nread 3/1 none\nnot ended\nnot ended\naborted asked 44 fell none\n",
               err=f"line 4: {raises}\nline 5: {raises}\nline 6: procedure 5 aborted 0 with code 44\n")


def says_why_events_are_refused(sgt):
    """Each with the line of the event, also after a cut."""
    opening = '{"limits":[2,3],"accounts":[],"procedures":[[1,[["find",0,1,1,0],["answer",["arg",0]]]]]}\n'
    events = ['["step",7]', '["start",1,[1]]', '["start",5,[1,2]]', '["start",6,[]]', '["start",4,[1,-1000000000000000]]', '["begin"]',
              '["write",0,3,1,1000000000000000]', '["begin"]', '["begin"]', '["quit",0]', '["quit",1]', '["begin"]', '["begin"]', '["quit",2]', '["cut"]',
              '["commit",0]', '["start",5,[1]]', '["commit",0]', '["read",0,1,1]', '["step",0]', '["commit",0]', '["commit",0]', '["step",0]', '["step",4294967295]',
              '["read",4294967295,0,1]', '["quit",4294967294]']
    replies = ["unknown", "bad args", "bad args", "no procedure", "bad args", "started 0", "bad args", "started 1", "full", "aborted quit fell none",
               "aborted quit fell none", "started 2", "spent", "aborted quit fell none", "cut 14", "unknown", "started 0", "not ended", "not ended", "read 1/1 none", "committed 1", "over committed",
               "over committed", "unknown", "unknown", "unknown"]
    reported = {2: "no transaction has started with the number 7", 3: "DepositChecking takes 2 arguments, found 1", 4: "procedure 5 takes 1 argument, found 2",
            5: "there is no procedure 6", 6: f"argument 1 is -1000000000000000, {explained.RANGE}", 8: f"the value is 1000000000000000, {explained.RANGE}",
            10: "as many are live as line 1 allows", 14: "as many have started as line 1 allows", 17: "no transaction has started with the number 0 since the cut",
            19: "the procedure of 0 has not ended: it has another step", 20: "the procedure of 0 has not ended: it has another step",
            23: "transaction 0 has ended", 24: "transaction 0 has ended",
            **{line: f"no transaction has started with the number {number} since the cut" for line, number in ((25, 4294967295), (26, 4294967295), (27, 4294967294))}}
    sgt.expect("script", "--explain", given=opening + "\n".join(events), out="".join(f"{reply}\n" for reply in replies),
               err="".join(f"line {line}: {words}\n" for line, words in reported.items()))


def says_for_whom_a_commit_waits(sgt):
    """A line for each live transaction before its own, with the first accesses that make the edge."""
    opening = '{"limits":[4,9],"accounts":[],"procedures":[]}\n'
    events = ['["begin"]', '["begin"]', '["begin"]', '["begin"]', '["read",0,3,7]', '["write",1,3,8,5]', '["read",2,3,8]', '["write",2,3,7,1]',
              '["commit",2]', '["commit",0]', '["commit",2]', '["commit",1]', '["commit",2]', '["commit",3]']
    replies = ["started 0", "started 1", "started 2", "started 3", "read 3/7 none", "wrote 3/8 5", "read 3/8 5", "wrote 3/7 1",
               "waits 0", "committed none", "waits 1", "committed none", "committed none", "committed none"]
    late = "2 waits for 1: 2 read 3/8 at line 8, which 1 wrote at line 7\n"
    err = f"line 10: 2 waits for 0: 2 wrote 3/7 at line 9, which 0 read at line 6\nline 10: {late}line 12: {late}"
    sgt.expect("script", "--explain", given=opening + "\n".join(events), out="".join(f"{reply}\n" for reply in replies) + "3/7 1\n3/8 5\n", err=err)


def says_on_which_values_a_code_may_rest(sgt):
    """If the code comes at the step, and the value is of a live transaction: it may be undone later, as here."""
    procedures = '[[1,[["find",0,3,7,0],["find",0,3,7,0],["if",["less",["reg",0],["arg",0]],[["ask",9]],[]]]]]'
    events = '["begin"]\n["write",0,3,7,5]\n["start",5,[6]]\n["step",1]\n["step",1]\n["step",1]\n'
    replies = "started 0\nwrote 3/7 5\nstarted 1\nread 3/7 5\nread 3/7 5\n"
    aborted = "procedure 5 aborted 1 with code 9\n"
    undone = '["quit",0]\n["start",5,[0]]\n["step",2]\n["step",2]\n["commit",2]\n'
    sgt.expect("script", "--explain", given='{"limits":[4,9],"accounts":[],"procedures":' + procedures + "}\n" + events + undone,
               out=replies + "aborted asked 9 fell none\naborted quit fell none\nstarted 2\nread 3/7 none\nread 3/7 none\ncommitted none\n",
               err=f"line 7: {aborted}line 7: the code may rest on an uncommitted value: 1 read 3/7 of 0 at line 5\n")
    committed = events.replace('["start"', '["commit",0]\n["start"', 1)
    sgt.expect("script", "--explain", given='{"limits":[4,9],"accounts":[],"procedures":' + procedures + "}\n" + committed,
               out=replies.replace("started 1", "committed none\nstarted 1") + "aborted asked 9 fell none\n3/7 5\n", err=f"line 8: {aborted}")
    at_commit = events.replace('["step",1]\n', "", 1) + '["commit",1]\n["commit",0]\n["commit",1]\n'
    sgt.expect("script", "--explain", given='{"limits":[4,9,1],"accounts":[],"procedures":' + procedures + "}\n" + at_commit.replace('["commit",1]', '["step",1]\n["commit",1]', 1),
               out=replies + "ended\nwaits 0\ncommitted none\nrefused 9 fell none\n3/7 5\n",
               err=f"line 8: 1 waits for 0: 1 read 3/7 at line 5, which 0 wrote at line 3\nline 10: {aborted}")


def ends_well_whatever_the_replies(sgt):
    """Also if every start is refused. A program that wants another status reads the replies."""
    opening = '{"limits":[1,1],"accounts":[],"procedures":[]}\n'
    script = '["begin"]\n["quit",0]\n' + '["begin"]\n' * 50 + '["step",9]\n["start",9,[]]\n'
    sgt.expect("script", given=opening + script, out="started 0\naborted quit fell none\n" + "spent\n" * 50 + "unknown\nno procedure\n")
    jobs = '["job",65535,[]]\n' * 3 + '["job",9,[]]\n'
    sgt.expect("bank", "--workers", "1", "--tries", "1", given=opening + jobs, out="0 committed none\n1 refused 3\n2 refused 3\n3 refused 1\n")


def says_what_json_does_not_have(sgt):
    """In a second line, of what clients saw: numbers that are none, numbers written otherwise, and EDN among JSON."""
    entry = '{"type":"ok","process":0,"value":[["append",1,1]]}\n'
    number = "a number is written as 10 or -5 in JSON, without a plus, a leading zero or other signs"
    for value, words in (
        *((value, "JSON has no NaN and no Infinity") for value in ("NaN", "Infinity", "-Infinity")),
        *((value, "JSON has null, true and false, in small letters") for value in ("None", "True", "False")),
        *((value, number) for value in (".5", "+1", "01", "0x1F", "-.5", "-01")),
    ):
        given = entry + f'{{"type":"ok","process":1,"value":[["r",1,[1]]],"time":{value}}}\n'
        same(value, (2, f"line 2, entry 2: no JSON from column 55 on\n{words}\n"), sgt.run("check", "--model", "list-append", given=given)[::2])
    given = entry + "{:type :ok, :process 1, :value [[:r 1 [1]]]}\n"
    sgt.expect("check", "--model", "list-append", given=given, status=2,
               err="line 2, entry 2: no JSON from column 2 on\nthis entry is EDN, and the first one is JSON: an input has one of them\n")


def says_how_each_job_of_the_examples_ended(sgt):
    for jobs, words in banks():
        status, wrote, reported = sgt.run("bank", "--explain", *words, given=jobs.read_text())
        try:
            same("standard output and status", (jobs.with_suffix(".out").read_text(), 0), (wrote, status))
            tried(wrote.splitlines(), reported.splitlines(), [0, 0])
        except Differs as why:
            raise Differs(f"{jobs.parent.name}/{jobs.name}: {why}") from None


# Of two procedures that read a record many times and then write it, so that two which overlap close a cycle: the one reads
# first what the other has stored.
LOOKS = ",".join(['["look",0,1,101,5]'] * 60) + ',["put",1,101,["sum",["reg",0],1]]'
OVERLAPPING = ('{"limits":[16,4000000],"accounts":[[1,101,0,0]],"procedures":'
               f'[[0,[["look",1,2,101,5],{LOOKS}]],[0,[["put",2,101,7],{LOOKS}]]]}}\n')


def reports_by_whom_tries_were_aborted(sgt):
    given = OVERLAPPING + '["job",5,[]]\n["job",6,[]]\n' * 200
    for tries in ("1000", "2"):
        tally = [0, 0]
        for _ in range(500):
            status, wrote, reported = sgt.run("bank", "--explain", "--workers", "16", "--tries", tries, given=given)
            same("status", 0, status)
            tried(wrote.splitlines(), reported.splitlines(), tally)
            if 0 not in tally:
                break
        else:
            raise Differs(f"of the tries that failed {tally[0]} were in a cycle, and {tally[1]} fell")


def tried(report, lines, tally):
    """Compares the lines of jobs with the report: those that did not commit at their first try, in order, with the jobs that aborted their
    failed tries; and the summary. Counts tries in a cycle, and those aborted in cascade."""
    outcomes = [line.split() for line in report if "/" not in line.split()[0]]
    counts, tries, last = Counter(), 0, -1
    silent = set(range(len(outcomes)))
    codes = [REPORTED_CODE.fullmatch(line) for line in lines if line.startswith("code ")]
    for line in lines[:-1 - len(codes)]:
        if not (reported := REPORTED_JOB.fullmatch(line)):
            raise Differs(f"came {line!r}")
        job, how, code, _, at, rest = reported.groups()
        same(f"order: {line}", True, last < int(job) < len(outcomes))
        last = int(job)
        silent.remove(last)
        failed = [FAILED_TRY.fullmatch(one).groups() for one in rest.split("; ")[1:]]
        same(line, [str(number) for number in range(1, len(failed) + 1)], [number for number, _, _ in failed])
        outcome = outcomes[last]
        wanted = {"committed": "committed", "asked": f"aborted with code {outcome[-1]}", "gave": "given up", "refused": f"refused: {reported[4]}", "no": "no memory"}
        same(line, wanted[outcome[1]], how.split(" (")[0])
        ends = outcome[1] in ("committed", "asked")
        if outcome[1] != "refused":
            same(line, str(len(failed) + ends), at)
        if outcome[1] == "gave":
            same(line, outcome[2], str(len(failed)))
        for _, cycle, cascade in failed:
            if any(int(other) >= len(outcomes) for other in (cycle or cascade).split(", ")):
                raise Differs(f"no such job: {line}")
        tries += len(failed) + ends
        tally[0] += sum(cycle is not None for _, cycle, _ in failed)
        tally[1] += sum(cascade is not None for _, _, cascade in failed)
    same("who is silent", {"committed"}, {outcomes[job][1] for job in silent} | {"committed"})
    same("the codes", codes, [code for code in codes if code and (code[3] == "1") == (code[4] == "job")])
    same("how often", Counter(outcome[2] for outcome in outcomes if outcome[1] == "asked"), sum((Counter({code[1]: int(code[3])}) for code in codes), Counter()))
    counts = Counter(outcome[1] for outcome in outcomes)
    summary = [counts[kind] for kind in ("committed", "asked", "gave", "refused", "no")]
    same("the summary", SUMMARY.format(len(outcomes), *summary, tries + len(silent)), lines[-1])


def reports_on_a_terminal_how_many_jobs_have_ended(sgt):
    """At most each second, and behind these lines as where it is none."""
    jobs = 40_000
    ours, theirs = os.openpty()
    with tempfile.TemporaryFile() as given, tempfile.TemporaryFile() as out:
        given.write((OVERLAPPING + '["job",6,[]]\n' * jobs).encode())
        given.seek(0)
        began = time.monotonic()
        process = sgt.start("bank", "--explain", stdin=given, stdout=out, stderr=theirs)
        os.close(theirs)
        reported = read_terminal(ours).splitlines()
        same("status", 0, process.wait(SECONDS))
        seconds = time.monotonic() - began
        out.seek(0)
        report = out.read().decode().splitlines()
    counts = [int(line.split()[0]) for line in reported if re.fullmatch("[0-9]+ jobs have ended", line)]
    same("the counts", sorted({count for count in counts if 0 < count <= jobs}), counts)
    if len(counts) > seconds:
        raise Differs(f"{len(counts)} counts in {seconds} seconds")
    tried(report, reported[len(counts):], [0, 0])
    return f"{len(counts)} counts in {seconds:.1f} seconds"


def read_terminal(terminal):
    """What is written to it until nobody has it open any more. It ends lines as terminals do."""
    text = b""
    try:
        while some := os.read(terminal, 65_536):
            text += some
    except OSError:
        pass
    os.close(terminal)
    return text.decode()


def explains_drawn_scripts(sgt):
    """By their replies alone, as the definitions have it."""
    edges = falls = 0
    for seed in range(60):
        given = explained.drawn(seed, 600)
        status, wrote, reported = sgt.run("script", given=given)
        same(f"script {seed}: standard error and status", ("", 0), (reported, status))
        reported = explained.explanation(given, wrote)
        try:
            # The replies alone do not say whether a procedure has another step or raises a code.
            came = sgt.run("script", "--explain", given=given)
            same("standard output and status", (0, wrote), came[:2])
            same("standard error", reported, re.sub(r"(the procedure of \d+) raises a code: .*", r"\1 has not ended: it has another step", came[2]))
        except Differs as why:
            raise Differs(f"script {seed}: {why}") from None
        edges += reported.count(", which ")
        falls += reported.count(" of ")
    return f"{edges} edges, {falls} that fell"


def judges_drawn_scripts(sgt):
    """Procedures and callers that remove, with cascades, cuts, and codes at the step or at the commit: each reply is one that the
    definitions allow, and the records at each cut and at the end are those of the serial run."""
    came = Counter()
    for seed in range(120):
        given = explained.drawn(seed, 600)
        status, wrote, reported = sgt.run("script", given=given)
        same(f"script {seed}: standard error and status", ("", 0), (reported, status))
        try:
            came += judge(given, wrote)
        except Illegal as why:
            raise Differs(f"script {seed}: {why}") from None
    wanted = ("cut", "refused", "aborted", "waits", "removed", "removals kept", "removals undone", "removals read by another")
    same("what did not come", [], [what for what in wanted if not came[what]])
    return ", ".join(f"{came[what]} {what}" for what in wanted)


def reports_who_is_live_at_the_end(sgt):
    starts = OPENING + '["start",0,[1]]\n' * 4
    replies = "".join(f"started {t}\n" for t in range(4))
    sgt.expect("script", "--explain", given=OPENING + EVENTS, out=REPLIES + RECORDS, err="1 transaction is live at the end: 0\n")
    sgt.expect("script", "--explain", given=starts + '["quit",1]\n["quit",2]\n', out=replies + "aborted quit fell none\n" * 2 + RECORDS,
               err="2 transactions are live at the end: 0, 3\n")
    sgt.expect("script", "--explain", given=OPENING + EVENTS + '["quit",0]\n', out=REPLIES + "aborted quit fell none\n" + RECORDS)
    sgt.expect("script", "--explain", given=OPENING, out=RECORDS)


def explains_up_to_a_fault(sgt):
    sgt.expect("script", "--explain", given=OPENING + LOST + "no JSON\n" + LOST, status=2, out=LOST_REPLIES, err=why_lost(2) + "line 10: not JSON\ncolumn 1: not JSON from here: a word stands in double quotes\n")
    sgt.expect("script", "--explain", given=OPENING + EVENTS + '["jump",0]\n', status=2, out=REPLIES, err='line 4: bad line\nunknown word "jump": a line starts with start, step, commit, quit (abort), begin, read, write, remove or cut; before the first of these, with record\n')
    sgt.expect("script", "--explain", status=2, err="line 1: no opening\nthe input is empty\n")


def reports_of_a_bank_that_has_a_fault_no_more_than_that(sgt):
    sgt.expect("bank", "--explain", given=OPENING + JOB + '["step",0]\n', status=2,
               err='line 3: bad line\nan event stands in the input of "sgt bank", which takes jobs: ["job",procedure,[argument,..]]\n')


def explains_by_the_lines_of_the_whole_script(sgt):
    """Also after a cut, where transactions are numbered from 0 again, and after a cut that is refused."""
    given = OPENING + LOST + '["cut"]\n["quit",0]\n["cut"]\n' + LOST
    out = LOST_REPLIES + "still live\naborted quit fell none\ncut 9\n" + LOST_REPLIES + RECORDS
    sgt.expect("script", "--explain", given=given, out=out, err=why_lost(2) + why_lost(13) + "1 transaction is live at the end: 0\n")


def explains_before_it_reads_on(sgt):
    process = sgt.start("script", "--explain", stdin=subprocess.PIPE, stdout=subprocess.PIPE, stderr=subprocess.PIPE)
    watch = signal.signal(signal.SIGALRM, lambda *_: process.kill())
    signal.alarm(SECONDS)
    try:
        process.stdin.write((OPENING + LOST).encode())
        process.stdin.flush()
        for reply in LOST_REPLIES.splitlines(True):
            same("the reply", reply, process.stdout.readline().decode())
        for line in why_lost(2).splitlines(True):
            same("the explanation", line, process.stderr.readline().decode())
        _, rest = process.communicate()
    finally:
        signal.alarm(0)
        signal.signal(signal.SIGALRM, watch)
        process.kill()
        process.wait()
    same("the end", b"1 transaction is live at the end: 0\n", rest)


def runs_on_where_an_explanation_cannot_be_written(sgt):
    cut = LOST + '["cut"]\n'
    runs = (("script", cut, 0, LOST_REPLIES + "still live\n" + RECORDS), ("script", LOST + "[]\n", 2, LOST_REPLIES), ("bank", JOB, 0, DEPOSITED))
    with open("/dev/full", "wb") as full:
        for command, given, status, out in runs:
            process = sgt.start(command, "--explain", stdin=subprocess.PIPE, stdout=subprocess.PIPE, stderr=full)
            wrote, _ = process.communicate((OPENING + given).encode(), timeout=SECONDS)
            same("standard output and status", (out, status), (wrote.decode(), process.returncode))


def refuses_no_operations(sgt):
    for options in ((), ("--graph",), ("--timeline",), ("--model", "list-append")):
        for given in ("", "\n"):
            sgt.expect("check", *options, given=given, status=2, err="no operations\n")
    sgt.expect("check", given="# r1[x]", status=2, err="no operations\n")


def names_the_fault_of_a_history(sgt):
    # The first 32 bytes of a word are shown, and none of them where it is not printable.
    for word, reported in (("r1x", "r1x"), ("r01[x]", "r01[x]"), ("c4294967296", "c4294967296"), ("w1[]", "w1[]"), ("\x01r1[\x7f]", "?r1[?]"),
                       ("r1[" + "x" * 65 + "]", "r1[" + "x" * 29)):
        sgt.expect("check", given=f"r1[x]\n\nc1 {word} c1", status=2, err=f"line 3: no operation: {reported}\n")
    for word in ("r1[x]", "w1[x]", "c1", "a1"):
        sgt.expect("check", given=f"r1[x] c1\nc2 # c1\n{word}", status=2, err="line 3: transaction 1 has ended\n")


def refuses_a_history_that_is_too_long(sgt):
    most = 268_435_456
    sgt.expect("check", given="c1" + " " * (most - 1), status=2, err="input too long\n")
    sgt.expect("check", given=" " * (most - 4) + "c1c1", status=2, err="line 1: no operation: c1c1\n")


def takes_longer_inputs_if_asked(sgt):
    """Up to the bytes that an option says. A script does not read more than one byte behind them."""
    event, job = '["step",9]\n', '["job",9,[]]      \n'
    events, jobs = LONGEST_INPUT // len(event) + 1, LONGEST_INPUT // len(job) + 1
    script, bank = OPENING + event * events, OPENING + job * jobs
    refused = "".join(f"{number} refused 1\n" for number in range(jobs))
    for words, given, replies, out in ((["script"], script, "unknown\n" * (events - 1), "unknown\n" * events + RECORDS), (["bank", "--workers", "1"], bank, "", refused + RECORDS)):
        size = len(given)
        sgt.expect(*words, "--most", str(size), given=given, out=out)
        for limit, option in ((LONGEST_INPUT, []), (size - 1, ["--most", str(size - 1)])):
            status, wrote, reported = sgt.run(*words, *option, given=given)
            same(f"{words} {option}", (2, f"input too long\nan input has at most {limit} bytes: {SPLIT}\n"), (status, reported))
        same(f"{words}: what was answered", replies, wrote)
    sgt.expect("script", "--most", str(len(OPENING)), given=OPENING, out=RECORDS)
    sgt.expect("script", "--most", "1", given=OPENING, status=2, err=f"input too long\nan input has at most 1 bytes: {SPLIT}\n")


def says_what_an_operation_looks_like(sgt):
    """In a second line, with its column, and with a hint if it is plain what was meant."""
    form = "an operation is r1[x], w1[x], c1 or a1"
    small = "an operation starts with a small letter: r1[x], w1[x], c1 or a1"
    item = "an item is 1 to 64 letters, digits and _ . / : -"
    named = "a read and a write name an item in square brackets, without a space, as in r1[x]"
    long = "y" * 64
    for given, column, words in (
        ("A1", 1, small),
        ("r1[x] w1[x]\n  C1", 3, small),
        ("r1(x)", 1, "an item stands in square brackets, as in r1[x]"),
        ("r1[x]\tw2(y)", 7, "an item stands in square brackets, as in r1[x]"),
        ("c1 r2", 4, named),
        ("r1 [x]", 1, named),
        ("b1 r1[x]", 1, f"{form}; a transaction begins with its first one, without a word"),
        ("# none\nc1 x9", 4, form),
        ("r1[x], w2[x]", 6, "operations are separated by spaces or newlines, without commas"),
        ("r1[x];", 6, "operations are separated by spaces or newlines, without commas"),
        ("r1[x],w1[x],c1", 6, "operations are separated by spaces or newlines, without commas"),
        ("c1 r1[x]w1[x]c1", 9, "a space or a newline has to follow an operation"),
        ("r2[x] c1c1", 9, "a space or a newline has to follow an operation"),
        ("r01[x]", 2, "the number of a transaction has no leading zeros"),
        ("r0[x] c00", 8, "the number of a transaction has no leading zeros"),
        ("r4294967295[x] r4294967296[x]", 17, "a transaction is a number from 0 to 4294967295"),
        ("c99999999999999999999999", 2, "a transaction is a number from 0 to 4294967295"),
        ("r1[a,b]", 5, f"a history has no values: {item}"),
        ("r1[]", 4, item),
        ("w1[x:=5]", 6, f"a history has no values: {item}"),
        ("r1[a b]", 5, f"a ] is missing here; {item}"),
        ("r1[ x ]", 4, f"a ] is missing here; {item}"),
        ("c2 w1[x", 8, f"a ] is missing here; {item}"),
        ("c2 r1[na\u00efve]", 9, "U+00EF is not ASCII"),
        ("r1[x]\u00a0w1[x]", 6, "U+00A0 is not ASCII"),
        ("r1[x]\u200b w1[x]", 6, "U+200B is not ASCII"),
        ("r\u2081[x]", 2, "U+2081 is not ASCII"),
        ("r1\uff3bx\uff3d", 3, "U+FF3B is not ASCII"),
        ("r1[\U0001f600]", 4, "U+1F600 is not ASCII"),
        ("\ufeffr1[x]", 1, "a byte order mark: save the input without it"),
        ("c1 r22[x] r2#", 11, named),
        ("c1 // none", 4, "a comment starts with #"),
        ("--none", 1, "a comment starts with #"),
        ("r1[x] - r2[x]", 7, form),
        ("w1[x=5]", 5, f"a history has no values: {item}"),
        (f"r1[x] r2[{long}]\r\nw2[x] r2[{long}y]", 10, item),
        ("c1 \x01\x7f \x01", 4, form),
    ):
        status, out, reported = sgt.run("check", given=given)
        same(given, (2, "", f"column {column}: {words}"), (status, out, reported.splitlines()[1]))
    for column, given in ((4, "c1 x9 " + " " * 3_000_000), (3_000_003, "c1" + " " * 3_000_000 + "x9")):
        status, out, reported = sgt.run("check", given=given)
        same("a line of three megabytes", (2, "", f"column {column}: {form}"), (status, out, reported.splitlines()[1]))


def hints_at_the_kind_of_another_input(sgt):
    """Given to a check of a history: a script and a bank, and what clients saw; but not other JSON."""
    script = "; sgt script --history or sgt bank --history writes the history of such an input"
    clients = "; JSON and EDN are read with --model list-append"
    for given in (OPENING + EVENTS, OPENING + JOB):
        status, out, reported = sgt.run("check", given=given)
        same("of a script", (2, "", True, f"{script}\n"), (status, out, reported.startswith("line 1: no operation: {"), reported[reported.index("; "):]))
    for given in ('[\n {"process":1}]', '{"a":{"type":1}}', "[{:f :txn\n :type :ok}]"):
        same(given, (2, "", clients), (*(it := sgt.run("check", given=given))[:2], it[2][it[2].index("; "):].strip()))
    for given in ("{}", "[1]", "{'type': 'ok', 'process': 0}"):
        same(given, (2, "", clients), (*(it := sgt.run("check", given=given))[:2], it[2][it[2].index("; "):].strip()))
    commented = "line 1, entry 1: no object; JSON has no comments, and text like r1[x] is read without --model list-append\n"
    for given in ("# a note\nr1[x] c1\n", '# a note\n{"type":"ok","process":0,"f":"txn","value":[]}\n'):
        sgt.expect("check", "--model", "list-append", given=given, status=2, err=commented)
    reported = "line 1, entry 1: the process is not a whole number or a text\nthis is a script: sgt script --history writes its history, for sgt check\n"
    sgt.expect("check", "--model", "list-append", given=OPENING + EVENTS, status=2, err=reported)


def says_how_many_are_not_judged(sgt):
    """After the report on a history with active transactions, but not where a graph or a picture is drawn."""
    what = ": serializable and recoverable judge committed ones alone\n"
    for given, reported in (
        ("r1[x] r2[x] w1[x] w2[x]", f"2 transactions are active, and none committed{what}"),
        ("r1[x] r2[x] w1[x] c1 w2[x]", f"1 transaction is active{what}"),
        ("r1[x] a1 r2[x]", f"1 transaction is active, and none committed{what}"),
        ("r1[x] a1", ""),
        ("c1", ""),
    ):
        same(given, (0, reported), sgt.run("check", given=given)[::2])
        for option in ("--graph", "--timeline"):
            same(f"{given} {option}", (0, ""), sgt.run("check", option, given=given)[::2])


def says_more_of_each_other_error(sgt):
    """In a second line, which comes without an option."""
    too_long = f"an input has at most 16777216 bytes: {SPLIT}"
    history = "a history has operations: r1[x], w1[x], c1 or a1"
    last = "the commit or abort of a transaction is its last operation"
    for words, given, reported in (
        (["script"], OPENING + " " * LONGEST_INPUT, "line 2: long line\na line has at most 65536 bytes"),
        (["script"], OPENING + ('["step",9]' + " " * 60_000 + "\n") * 300, f"input too long\n{too_long}"),
        (["script"], "\ufeff" + OPENING, "line 1: not JSON\ncolumn 1: a byte order mark: save the input without it"),
        (["bank"], OPENING + '["job",1]\n', 'line 2: bad line\nexpected ["job",procedure,[argument,..]], found ["job",1]'),
        (["check"], "", f"no operations\n{history}"),
        (["check"], "c1 c1", f"line 1: transaction 1 has ended\ncolumn 4: c1 comes after c1 (1); {last}"),
        (["check"], "r3[x] a3 # w3[x]\n\n r1[x]\t w3[x1] c1", f"line 3: transaction 3 has ended\ncolumn 9: w3[x1] comes after a3 (2); {last}"),
        (["check"], "r33[x] c3 w33[x] c33 w3[y]", f"line 1: transaction 3 has ended\ncolumn 22: w3[y] comes after c3 (2); {last}"),
        (["check"], "c1\n" * 1 + "r2[x]\n" * 2000 + "c1", f"line 2002: transaction 1 has ended\n{last}"),
    ):
        same(f"{words} {given[:40]!r}", (2, f"{reported}\n"), sgt.run(*words, given=given)[::2])


def shows_what_was_typed(sgt):
    """Numbers digit by digit, members in their order; without the spaces."""
    for line, shown in (
        ('["start",1,[100000000000000000000,1]]', "column 13: expected a whole number of at most 15 digits as argument 0, found 100000000000000000000"),
        ('["start",1,[1, 123456789012345678901 ]]', "column 16: expected a whole number of at most 15 digits as argument 1, found 123456789012345678901"),
        ('{"step" : 0, "at" : 1, "b" : [ ]}', 'expected an event, as ["step",0], found {"step":0,"at":1,"b":[]}'),
        ('["write",0,3,1,1E5]', "column 16: expected a whole number of at most 15 digits as the value, found 1E5"),
        ('["quit", "1e5"]', 'column 10: expected a transaction from 0 to 4294967295, found "1e5"'),
        ('["step",0,"]",{"z":"\\"","a":1}]', 'expected ["step",transaction], found ["step",0,"]",{"z":"\\"","a":1}]'),
    ):
        same(line, f"line 2: bad line\n{shown}\n", sgt.run("script", given=OPENING + line + "\n")[2])
    line = '{"procedures":[],"limits":[1,10],"accounts":{"b":1,"a":2}}\n'
    same(line, 'line 1: bad line\ncolumn 45: "accounts": expected a list, found {"b":1,"a":2}\n', sgt.run("script", given=line)[2])


def finds_a_faulty_line_after_many(sgt):
    """Of an input that is much longer than what is stored of it."""
    given = OPENING + '["step",0]\n' * 500_000 + '["step"]\n' + '["step",0]\n' * 20_000
    reported = 'line 500002: bad line\nexpected ["step",transaction], found ["step"]\n'
    same("standard error", reported, sgt.run("script", given=given)[2])


def asks_for_input_on_a_terminal(sgt):
    """Where standard input is a terminal, and no file is named."""
    ours, theirs = os.openpty()
    with tempfile.NamedTemporaryFile("w") as history:
        history.write("c1\n")
        history.flush()
        for words, reported in ((["check"], "reading standard input; ^D ends\n"), (["check", "-"], "reading standard input; ^D ends\n"), (["check", history.name], "")):
            process = sgt.start(*words, stdin=theirs, stdout=subprocess.PIPE, stderr=subprocess.PIPE)
            os.write(ours, b"c1\n\x04")
            _, err = process.communicate(timeout=SECONDS)
            same(f"{words}", (0, reported), (process.returncode, err.decode()))
    os.close(ours)
    os.close(theirs)


def writes_objects_of_json(sgt):
    """An object for each reply or outcome, with the same values as its line, and then the records."""
    for words, folder in ((["script"], EXAMPLES), (["bank", "--workers", "1"], EXAMPLES / "bank_one_worker")):
        for given in sorted(folder.glob("*.jsonl")):
            plain = sgt.run(*words, given=given.read_text())[1].splitlines()
            status, wrote, reported = sgt.run(*words, "--json", given=given.read_text())
            same(f"{given.name}: standard error and status", ("", 0), (reported, status))
            same(given.name, plain, [line_of(json.loads(line)) for line in wrote.splitlines()])
            if words == ["script"]:
                same(f"{given.name}: transactions", *transactions(given.read_text(), wrote))
            records = "".join(line for line in wrote.splitlines(True) if line.startswith("["))
            same(f"{given.name}: records", sgt.run(*words, "--records", given=given.read_text())[1], records)
    given = OPENING + '["job",1,[1,50]]\n["job",0,[9]]\n["job",99,[]]\n'
    out = '{"job":0,"outcome":"committed","answers":[1050],"event":5,"tries":1}\n{"job":1,"outcome":"asked","code":1,"event":8,"tries":1}\n'
    out += '{"job":2,"outcome":"refused","reason":"no procedure","tries":0}\n["record",0,1,101]\n["record",1,1,500]\n["record",2,1,1050]\n'
    out = out.replace('["record",1,1,500]\n["record",2,1,1050]', '["record",1,101,500]\n["record",2,101,1050]')
    sgt.expect("bank", "--json", "--workers", "1", given=given, out=out)
    sgt.expect("script", "--json", given=OPENING + EVENTS + "[]\n", status=2, err="line 4: bad line\n",
               out='{"transaction":0,"reply":"started"}\n{"transaction":0,"reply":"read","table":0,"number":1,"value":101}\n')


def writes_each_reply_as_an_object(sgt):
    """Those that no example has. Each has the transaction that its event names or has started, also if there is none of that number."""
    given = """["begin"]
["begin"]
["cut"]
["write",0,3,1,7]
["read",1,3,1]
["read",1,3,2]
["commit",1]
["quit",0]
["commit",1]
["step",0]
["step",9]
["start",9,[]]
["start",0,[]]
["cut"]
"""
    out = """{"transaction":0,"reply":"started"}
{"transaction":1,"reply":"started"}
{"reply":"still live"}
{"transaction":0,"reply":"wrote","table":3,"number":1,"value":7}
{"transaction":1,"reply":"read","table":3,"number":1,"value":7}
{"transaction":1,"reply":"read","table":3,"number":2,"value":null}
{"transaction":1,"reply":"waits","for":0}
{"transaction":0,"reply":"aborted","cause":"quit","cascade":[1]}
{"transaction":1,"reply":"over","fate":"cascade","with":0}
{"transaction":0,"reply":"over","fate":"aborted","cause":"quit"}
{"transaction":9,"reply":"unknown"}
{"reply":"no procedure"}
{"reply":"bad args"}
{"reply":"cut","events":12}
"""
    records = '["record",0,1,101]\n["record",1,101,500]\n["record",2,101,1000]\n'
    sgt.expect("script", "--json", given=OPENING + given, out=out + records)


def counts_the_tries_in_json(sgt):
    """As --explain does, on jobs that abort one another."""
    opening = '{"limits":[16,100000],"accounts":[[1,1,500,1000],[2,2,500,1000]],"procedures":[]}\n'
    given = opening + '["job",3,[1,2]]\n["job",3,[2,1]]\n["job",1,[1,1]]\n' * 400
    status, wrote, reported = sgt.run("bank", "--json", "--explain", "--workers", "16", "--tries", "1000", given=given)
    same("status", 0, status)
    jobs = [json.loads(line) for line in wrote.splitlines() if line.startswith("{")]
    same("the jobs", list(range(1200)), [job["job"] for job in jobs])
    same("the tries in all", int(reported.splitlines()[-1].split()[-2]), sum(job["tries"] for job in jobs))
    tries = dict.fromkeys(range(1200), 1)
    for line in reported.splitlines()[:-1]:
        match = re.fullmatch(r"job (\d+): .* at try (\d+)(?:;.*)?", line)
        tries[int(match[1])] = int(match[2])
    same("each", [tries[number] for number in range(1200)], [job["tries"] for job in jobs])


def transactions(given, wrote):
    """The transaction of each event and cut of a script, and that of each object: the one that it names, or, of a start, the next one."""
    objects = [json.loads(line) for line in wrote.splitlines() if line.startswith("{")]
    events = [event for event in map(json.loads, given.splitlines()[1:]) if event[0] != "record"]
    wanted, next_one = [], 0
    for event, one in zip(events, objects, strict=True):
        is_started = one["reply"] == "started"
        wanted.append(next_one if is_started else event[1] if event[0] not in ("start", "begin", "cut") else None)
        next_one = 0 if one["reply"] == "cut" else next_one + is_started
    return wanted, [one.get("transaction") for one in objects]


REASONS = {"no procedure": 1, "bad args": 2, "spent": 3, "full": 4}


def line_of(one):
    """The line of the output that this object, or record, stands for."""
    def joined(numbers):
        return " ".join(map(str, numbers)) or "none"

    if isinstance(one, list):
        return "{}/{} {}".format(*one[1:])
    if "job" in one:
        words = [str(one["job"]), one["outcome"]]
        words += [str(one["code"])] if "code" in one else [str(REASONS[one["reason"]])] if "reason" in one else []
        words += [joined(one["answers"])] if "answers" in one else [str(one["tries"])] if one["outcome"] == "gave" else []
        return " ".join(words)
    words = [one["reply"]]
    if "table" in one:
        words.append(f"{one['table']}/{one['number']}")
    if "value" in one:
        words.append("none" if one["value"] is None else str(one["value"]))
    if "fate" in one:
        words.append({"cascade": "fell"}.get(one["fate"], one["fate"]))
    if "cause" in one:
        words.append({"code": "asked"}.get(one["cause"], one["cause"]))
    words += [str(one["transaction"])] if one["reply"] == "started" else []
    words += [str(one[name]) for name in ("for", "events", "code", "with") if name in one]
    words += [joined(one[name]) for name in ("answers", "cycle") if name in one]
    return " ".join(words + (["fell", joined(one["cascade"])] if "cascade" in one else []))


def gives_signs_of_life(sgt):
    """How many jobs of a bank have ended, or events of a script are answered, at most once a second: on a terminal, or with an option. There
    are more jobs each time until they take so long that there is a line, on however quick or slow a machine."""
    for words, terminal, shows in ((["--progress"], False, True), ([], True, True), ([], False, False), (["--no-progress"], True, False)):
        for jobs in (40_000, 80_000, 160_000, 320_000, 640_000, 1_280_000) if shows else (40_000,):
            lines, seconds = signs_of_life(sgt, words, terminal, jobs)
            same(f"{words}, a terminal: {terminal}", [], [line for line in lines if not re.fullmatch("[0-9]+ jobs have ended", line)])
            if len(lines) > (seconds if shows else 0):
                raise Differs(f"{words}, a terminal: {terminal}: {len(lines)} lines in {seconds} seconds")
            if lines:
                break
        same(f"{words}, a terminal: {terminal}: whether there is a line", shows, bool(lines))


def signs_of_life(sgt, words, terminal, jobs):
    """What a bank with so many jobs says on standard error, and the seconds that it takes."""
    ours, theirs = os.openpty() if terminal else os.pipe()
    with tempfile.TemporaryFile() as given:
        given.write((OVERLAPPING + '["job",6,[]]\n' * jobs).encode())
        given.seek(0)
        began = time.monotonic()
        process = sgt.start("bank", *words, stdin=given, stdout=subprocess.DEVNULL, stderr=theirs)
    os.close(theirs)
    lines = read_terminal(ours).splitlines()
    same("status", 0, process.wait(SECONDS))
    return lines, time.monotonic() - began


def says_how_far_a_script_is(sgt):
    """Events and bytes, of how many if it is a file: before a read that comes a second after the last line, on a terminal or with an option."""
    for words, terminal, shows in ((["--progress"], False, True), (["--progress", "--explain"], False, True), ([], True, True), ([], False, False), (["--no-progress"], True, False)):
        ours, theirs = os.openpty() if terminal else os.pipe()
        began = time.monotonic()
        process = sgt.start("script", *words, stdin=subprocess.PIPE, stdout=subprocess.PIPE, stderr=theirs)
        os.close(theirs)
        process.stdin.write((OPENING + EVENTS).encode())
        process.stdin.flush()
        same("the first replies", REPLIES, "".join(process.stdout.readline().decode() for _ in REPLIES.splitlines()))
        took = time_until_it_waits(process, began)
        time.sleep(1.2)
        process.stdin.write(b'["commit",0]\n["cut"]\n["quit",0]\n')
        process.stdin.close()
        lines = read_terminal(ours).splitlines()
        same("the other replies", "not ended\nstill live\naborted quit fell none\n" + RECORDS, process.stdout.read().decode())
        same("status", 0, process.wait(SECONDS))
        size = len(OPENING + EVENTS) + 32
        wanted = [f"4 events are answered: {size} bytes"] if shows else []
        reasons = ["line 4: the procedure of 0 has not ended: it has another step"] if "--explain" in words else []
        if shows and took >= 1 and lines[:1] == [f"2 events are answered: {size - 32} bytes"]:  # a slow machine took a second for these
            del lines[0]
        same(f"{words}, a terminal: {terminal}", reasons + wanted, [line for line in lines if "transaction" not in line])
    with tempfile.TemporaryDirectory() as folder:
        given = os.path.join(folder, "given")
        with open(given, "w", encoding="ascii") as script:
            script.write(OPENING + '["step",9]\n' * 1_400_000)
        size = os.path.getsize(given)
        began = time.monotonic()
        lines = sgt.run("script", "--progress", given)[2].splitlines()
        seconds = time.monotonic() - began
        came = [re.fullmatch(f"([0-9]+) events are answered: ([0-9]+) of {size} bytes", line) for line in lines]
        if None in came or len(came) > seconds or any(int(one[2]) != len(OPENING) + 11 * int(one[1]) for one in came):
            raise Differs(f"{lines} in {seconds} seconds")


def time_until_it_waits(process, began):
    """The seconds until a program sleeps, as it does where it reads what nobody has written yet."""
    while (took := time.monotonic() - began) < SECONDS:
        with open(f"/proc/{process.pid}/stat", encoding="ascii") as stat:
            if stat.read().rpartition(")")[2].split()[0] == "S":
                break
        time.sleep(0.01)
    return took


def wants_an_opening(sgt):
    for command in ("script", "bank"):
        sgt.expect(command, status=2, err="line 1: no opening\n")


def names_the_faulty_line(sgt):
    given = OPENING + EVENTS + "no JSON\n" + EVENTS
    sgt.expect("script", given=given, status=2, out=REPLIES, err="line 4: not JSON\n")
    sgt.expect("bank", given=OPENING + '["job",0,[1]]\n["step",0]\n', status=2, err="line 3: bad line\n")


def answers_before_it_reads_on(sgt):
    process = sgt.start("script", stdin=subprocess.PIPE, stdout=subprocess.PIPE)
    watch = signal.signal(signal.SIGALRM, lambda *_: process.kill())
    signal.alarm(SECONDS)
    try:
        process.stdin.write(OPENING.encode())
        for event, reply in zip(EVENTS.splitlines(True), REPLIES.splitlines(True)):
            process.stdin.write(event.encode())
            process.stdin.flush()
            same("the reply", reply, process.stdout.readline().decode())
        rest, _ = process.communicate()
    finally:
        signal.alarm(0)
        signal.signal(signal.SIGALRM, watch)
        process.kill()
        process.wait()
    same("the database", RECORDS, rest.decode())


# Options of a bank

JOB = '["job",1,[1,50]]\n'
DEPOSITED = "0 committed 1050\n0/1 101\n1/101 500\n2/101 1050\n"


def limits(live):
    return OPENING.replace("[4,", f"[{live},")


def takes_the_workers(sgt):
    # As many have to be allowed live as there are workers, of which there are four where none are named.
    for live, words, is_enough in (
        (4, [], True),
        (3, [], False),
        (3, ["--workers", "3"], True),
        (3, ["--workers", "4"], False),
        (1, ["--workers", "1", "--tries", "16"], True),
        (1, ["--tries", "16", "--workers=1"], True),
        (15, ["--workers", "16", "--tries", "1"], False),
    ):
        if is_enough:
            sgt.expect("bank", *words, given=limits(live) + JOB, out=DEPOSITED)
        else:
            sgt.expect("bank", *words, given=limits(live) + JOB, status=2, err="line 1: bad limits\n")


def takes_the_tries(sgt):
    """Each job reads a record many times and then writes it, so two that overlap close a cycle. On a busy machine it takes more jobs.
    With one try such a job is given up. With three it is tried again, and given up if it is aborted three times."""
    look = ",".join(['["look",0,1,101,5]'] * 60)
    procedure = f'[0,[{look},["put",1,101,["sum",["reg",0],1]],["answer",["reg",0]]]]'
    opening = f'{{"limits":[16,4000000],"accounts":[[1,101,0,0]],"procedures":[{procedure}]}}\n'
    for tries in (1, 3):
        for draw in range(30):
            given = opening + '["job",5,[]]\n' * (400 << draw // 5)
            status, out, err = sgt.run("bank", "--workers", "16", "--tries", str(tries), "--json", given=given)
            same("status", (0, ""), (status, err))
            jobs = [job for job in map(json.loads, out.splitlines()) if isinstance(job, dict)]
            ended = sorted((job for job in jobs if job["outcome"] == "committed"), key=lambda job: job["event"])
            same("the answers in commit order", list(range(len(ended))), [job["answers"][0] for job in ended])
            gave = {job["tries"] for job in jobs if job["outcome"] == "gave"}
            same("the tries that were given up", set(), gave - {tries})
            same("the tries that a job took", set(), {job["tries"] for job in jobs} - set(range(1, tries + 1)))
            same("the outcomes", set(), {job["outcome"] for job in jobs} - {"committed", "gave"})
            if gave or any(job["tries"] > 1 for job in jobs):
                break
        else:
            raise Differs(f"no job was aborted with {tries} tries")


def reports_threads_that_could_not_be_made(sgt):
    """Each thread takes its stack from the address space. With a little more of it from run to run the first thread is refused,
    then the second, then the third, and then none. With no more than the stacks need, the threads run and the job's outcome is
    `no memory`."""
    unchanged = sgt.run("bank", given=OPENING)[1]
    refused = 0
    for megabytes in range(4, 2048):
        came = sgt.run("bank", "--workers", "3", given=OPENING + JOB, address_space=megabytes << 20)
        if came == (0, DEPOSITED, ""):
            break
        if came != (0, "0 no memory\n" + unchanged, ""):
            same("standard output", "", came[1])
            if came != (2, "", "no memory\n"):
                reported = "workers not started\neach worker is a thread, and the system did not start so many: take fewer with --workers\n"
                same("status and standard error", (2, reported), (came[0], came[2]))
                refused += 1
    else:
        raise Differs("no run of three workers ended well")
    if refused < 3:
        raise Differs(f"only {refused} runs were refused a thread")


# Output


def reports_a_full_disk(sgt):
    for words, given in ((["script"], OPENING + EVENTS), (["bank"], OPENING + JOB), (["script", "--records"], OPENING), (["bank", "--records"], OPENING + JOB), (["check"], HISTORY), (["check", "--graph"], HISTORY), (["check", "--timeline"], HISTORY), (["--help"], ""), (["--version"], ""), (["version"], "")):
        with open("/dev/full", "w", encoding="ascii") as full:
            status, _, reported = sgt.run(*words, given=given, out=full)
        full = "writing failed\nno space is left where standard output goes\n"
        same(f"{words}: standard error", full, reported)
        same(f"{words}: status", 2, status)


def ends_in_silence_if_nobody_reads(sgt):
    for words, given in ((["script"], OPENING + EVENTS), (["bank"], OPENING + JOB), (["check"], HISTORY), (["check", "--graph"], HISTORY), (["check", "--timeline"], HISTORY),
                         (["help"], ""), (["--help"], ""), (["check", "--help"], ""), (["version"], ""), (["--version"], "")):
        reader, writer = os.pipe()
        os.close(reader)
        status, _, reported = sgt.run(*words, given=given, out=writer)
        os.close(writer)
        same(f"{words}: standard error", "", reported)
        same(f"{words}: status", 2, status)


def reports_a_failed_read(sgt):
    # A folder can be opened, and not be read.
    for command in ("script", "bank", "check"):
        with tempfile.TemporaryDirectory() as scratch:
            folder = os.open(scratch, os.O_RDONLY)
            status, out, reported = sgt.run(command, source=folder)
            os.close(folder)
        same(f"{command}: standard error", "reading failed\nstandard input is a directory\n", reported)
        same(f"{command}: standard output", "", out)
        same(f"{command}: status", 2, status)


CASES = [
    reports_its_version,
    helps,
    helps_where_no_word_is_given,
    refuses_words,
    refuses_numbers,
    refuses_two_forms_of_one_run,
    reads_a_named_file,
    is_installed_with_its_page_and_completions,
    refuses_bytes_that_are_no_text,
    runs_each_example,
    runs_each_bank,
    runs_each_input,
    refuses_too_much_of_a_bank,
    runs_the_worked_programs,
    checks_each_history,
    checks_a_history_that_breaks_all_but_one,
    draws_a_cycle,
    draws_the_example,
    draws_each_edge_once,
    draws_drawn_histories,
    draws_what_dot_takes,
    writes_a_script_as_a_history,
    answers_accesses_of_callers,
    explains_accesses_of_callers,
    writes_each_example_as_a_history_of_the_classes_that_are_promised,
    writes_each_bank_as_a_history_of_the_classes_that_are_promised,
    writes_what_a_script_leaves_as_records,
    writes_what_each_example_leaves_as_records,
    writes_what_each_bank_leaves_as_records,
    opens_on_the_records_that_a_run_leaves,
    goes_on_from_the_records_of_an_account,
    explains_each_example,
    explains_each_input,
    explains_drawn_scripts,
    judges_drawn_scripts,
    says_how_jobs_ended,
    says_what_codes_mean,
    takes_words_for_codes,
    says_which_words_are_of_no_procedure,
    says_which_words_are_of_no_code,
    says_what_is_wrong_with_words,
    says_that_a_procedure_raises_a_code,
    says_why_events_are_refused,
    says_for_whom_a_commit_waits,
    says_on_which_values_a_code_may_rest,
    ends_well_whatever_the_replies,
    says_what_json_does_not_have,
    says_how_each_job_of_the_examples_ended,
    reports_by_whom_tries_were_aborted,
    reports_on_a_terminal_how_many_jobs_have_ended,
    reports_who_is_live_at_the_end,
    explains_up_to_a_fault,
    reports_of_a_bank_that_has_a_fault_no_more_than_that,
    explains_by_the_lines_of_the_whole_script,
    explains_before_it_reads_on,
    runs_on_where_an_explanation_cannot_be_written,
    refuses_no_operations,
    names_the_fault_of_a_history,
    refuses_a_history_that_is_too_long,
    takes_longer_inputs_if_asked,
    says_what_an_operation_looks_like,
    hints_at_the_kind_of_another_input,
    says_how_many_are_not_judged,
    says_more_of_each_other_error,
    shows_what_was_typed,
    finds_a_faulty_line_after_many,
    asks_for_input_on_a_terminal,
    writes_objects_of_json,
    writes_each_reply_as_an_object,
    counts_the_tries_in_json,
    gives_signs_of_life,
    says_how_far_a_script_is,
    wants_an_opening,
    names_the_faulty_line,
    answers_before_it_reads_on,
    takes_the_workers,
    takes_the_tries,
    reports_threads_that_could_not_be_made,
    reports_a_full_disk,
    ends_in_silence_if_nobody_reads,
    reports_a_failed_read,
]


def main():
    if len(sys.argv) != 2:
        sys.exit(__doc__)
    return run_cases(CASES, Program(sys.argv[1]))


if __name__ == "__main__":
    sys.exit(main())
