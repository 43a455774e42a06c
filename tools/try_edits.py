#!/usr/bin/env python3
"""Tries mutants: the prover has to refuse each.

    tools/try_edits.py [CRATE..]            those of tools/edits, which the test command does not try
    tools/try_edits.py in-test [CRATE..]    those of tests/must-fail, as the test command does

A mutant is a file CRATE/NAME.edit: lines that begin with `#` say what the wrong body does, a `file:` line names a file of the crate, and
pairs of `old:` and `new:` lines change it. The prover checks the functions that the lines change, and what they call. A mutant is refused
if one of them is not proved, for a goal that stays open and not only since a proof file names what is gone. Those of a crate that change
different functions are tried in one check. Where the functions are still proved, as those without a contract are, the whole crate is
checked. `rt must-fail` would prove the whole crate for the first mutant of each.

It takes the libraries of the crates below as `rt ci` left them; `rt lib` makes those that are missing, or that `rt check` left. The last
line counts the mutants, and the status is 1 where one is not refused.

Each mutant of tools/edits that was refused gets a line in tools/edits/TRIED: its crate, its name, and the commit at which it was tried. A
commit ends in `+` where the crates or the mutants differed from it. One that the prover does not refuse loses its line.
"""
import os
import re
import shutil
import subprocess
import sys
import tempfile
import threading
from concurrent.futures import ThreadPoolExecutor
from contextlib import suppress
from pathlib import Path

from edits_apply import CRATES, EDITS, IN_TEST, ROOT, TRIED, applied, function_at, module_of

KIT = Path(os.path.realpath(shutil.which("rt") or "rt")).parent.parent
PARTS = ("src", "specs", "proofs")
# Set once somebody interrupts: no further mutant is tried then.
INTERRUPTED = threading.Event()
NOT_PROVED = re.compile(r"fn \w+::(\S+): (?:not proved|no proof: .*`search` did not prove)")
# A goal that stays open, at a place of src or in a function's proof.
OPEN = re.compile(r"(?:note: )?(?:\./)?(?:(src/\S+?):(\d+):\d+: it is not proved that|proofs/(\S+)/\w+\.antt:\d+:\d+: error)")
# A file that does not compile, or a name that fits no function, or several.
BROKEN = re.compile(r"(src/\S+?):\d+:\d+: error\[|rattle: error: .*? `([\w:]+)`: help")
# What a proof file is told that names what an edit took away, or that rests on another declaration that was refused.
LOST_NAME = re.compile(r"(?:\./)?proofs/.*(?:has no field|is not in scope|has no `|was not admitted|\(nearest: |which was rejected)")


def libraries():
    """The libraries that each crate uses, by its name, as crates.txt has them."""
    lines = (ROOT / "crates.txt").read_text(encoding="utf-8").splitlines()
    listed = (line.split(":") for line in lines if line and not line.startswith("#"))
    return {name: used.split() for name, used in listed}


def make_libraries(used):
    """Has `rt lib` make libraries, unless `rt ci` has just left them: only those of `rt check` and `rt lib` have stamps."""
    for name in used:
        rlib = CRATES / name / "out" / "rlib"
        if (CRATES / name).is_dir() and (not (rlib / f"{name}.rlib").is_dir() or (rlib / "stamp").exists()):
            subprocess.run(["rt", "lib"], cwd=CRATES / name, check=True)


def command(crate, used):
    """The prover's command for a crate, in a folder that holds its files."""
    root = "src/main.rt" if (CRATES / crate / "src" / "main.rt").is_file() else "src/lib.rt"
    words = [KIT / "bin" / "rattle", "check", "--crate-name", crate, root, "--jobs", "1", "--incremental", "kept"]
    words += ["--antt-project", KIT / "rattle" / "logic" / "antt-project.json", "--logic-built", KIT / "logic_built"]
    for name in ["std", *used]:
        folder = CRATES / name / "out" / "rlib" if (CRATES / name).is_dir() else KIT / "rlibs"
        words += ["--extern", f"{name}={folder}/{name}.rlib"]
    for folder in [KIT / "rlibs", *sorted(CRATES.glob("*/out/rlib"))]:
        words += ["-L", f"dependency={folder}"]
    return words


class Answer:
    """What the prover says, with its status: the functions that are not proved, and the goals that stay open, but for lost names."""

    def __init__(self, ran):
        self.status, self.lines = ran.returncode, ran.stdout.splitlines()
        self.refused = [found[1] for found in map(NOT_PROVED.match, self.lines) if found]
        self.open_goals = [found for found in map(OPEN.match, self.lines) if found and not LOST_NAME.match(found.string)]

    def verdict(self):
        """Whether a mutant that was tried by itself is refused, and the words for it. None if the prover gave no verdict."""
        if self.status == 0:
            return False, "NOT REFUSED: the crate is still proved"
        if self.status != 1 or not self.refused:
            return None, f"NOT TRIED: status {self.status}: " + " | ".join(self.lines[-12:])
        if not self.open_goals:
            return False, "REFUSED BY A NAME ALONE: a proof file names what the edit took away, so this says nothing of the contract"
        return True, words_for(self.refused, self.open_goals[0])


def words_for(refused, goal):
    return f"refused in {', '.join(refused)}: {goal.string[:160]}"


def ends_with(name, end):
    """Whether the name of a function, as the prover prints it, ends with these words."""
    return f"::{name}".endswith(f"::{end}")


class Bench:
    """A folder with a copy of a crate, in which its mutants are tried. What the prover has once proved there it keeps."""

    def __init__(self, folder, crate, used):
        self.folder, self.crate, self.words = folder, CRATES / crate, command(crate, used)
        for part in PARTS:
            if (self.crate / part).is_dir():
                shutil.copytree(self.crate / part, folder / part)

    def check(self, texts, functions=()):
        """What the prover says of these functions, or of the whole crate, with these texts in place of the crate's own."""
        only = [word for name in functions for word in ("--only", name)]
        how = {"stdin": subprocess.DEVNULL, "stdout": subprocess.PIPE, "stderr": subprocess.STDOUT, "errors": "replace"}
        for path, text in texts.items():
            (self.folder / path).write_text(text, encoding="utf-8")
        ran = subprocess.run([*self.words, *only], cwd=self.folder, check=False, **how)
        for path in texts:
            shutil.copyfile(self.crate / path, self.folder / path)
        return Answer(ran)

    def attempt(self, edit):
        """Tries a mutant by itself. Whether it is refused, and the words for it."""
        try:
            texts, places = applied(edit, self.crate)
        except ValueError as why:
            return None, f"DOES NOT APPLY: {why}"
        functions = sorted(places - {""})
        said = self.check(texts, functions)
        if functions and said.status == 2:
            # A name fits no function, or several.
            said = self.check(texts, sorted({module_of(path) for path in texts if path.startswith("src/")}))
        if functions and said.status == 0:
            said = self.check(texts)
        return said.verdict()

    def attempt_together(self, edits):
        """Tries in one check as many of the mutants as change different functions. Whether these are refused, and the words for it.

        Some are tried again, each by itself: a function that calls one which is not proved may have no verdict of its own. One that changes
        more than bodies, as an import or a type, is not tried beside others, whose functions it could break."""
        texts, together, busy = {}, {}, set()
        for edit in edits:
            with suppress(ValueError):
                changed, functions = applied(edit, self.crate, texts)
                if "" not in functions and busy.isdisjoint(functions):
                    together[edit] = functions, {path for path in changed if changed[path] != texts.get(path)}
                    texts = changed
                    busy.update(functions)
        if len(together) < 2:
            return {}
        said = self.check(texts, sorted(busy))
        broken = {found[1] or found[2] for found in map(BROKEN.match, said.lines) if found}
        if broken:
            return {edit: self.attempt(edit) for edit, (functions, paths) in together.items() if broken & {*functions, *paths}}
        found = {edit: self.refusal(functions, said, texts) for edit, (functions, _) in together.items()}
        return {edit: (True, words) if words else self.attempt(edit) for edit, words in found.items()}

    def refusal(self, functions, said, texts):
        """The words for a mutant that changes these functions, if one of them is refused with an open goal of its own."""
        for name in said.refused:
            if any(ends_with(name, it) for it in functions):
                for goal in said.open_goals:
                    if ends_with(name, self.owner(goal, texts)):
                        return words_for([name], goal)
        return ""

    def owner(self, goal, texts):
        """The function that an open goal is of, or the end of its name."""
        path, row, folder = goal.groups()
        if folder:
            return folder.replace("/", "::")
        text = texts.get(path) or (self.crate / path).read_text(encoding="utf-8")
        lines, before = text.splitlines(True), int(row) - 1
        # A goal of a whole function is placed at its first attribute.
        while lines[before].lstrip().startswith(("#[", "//")):
            before += 1
        return function_at(path, text, len("".join(lines[:before])))


def try_crate(edits, used, found):
    """Tries the mutants of a crate's folder, prints what came of each, and notes in `found` whether it was refused."""
    left = sorted(edits.glob("*.edit"))
    with tempfile.TemporaryDirectory(prefix=f"mutants-{edits.name}-") as made:
        bench = Bench(Path(made), edits.name, used)
        while left and not INTERRUPTED.is_set():
            tried = bench.attempt_together(left) or {left[0]: bench.attempt(left[0])}
            for edit, (is_refused, words) in tried.items():
                print(f"{edits.name}/{edit.stem}: {words}", flush=True)
                found[edits.name, edit.stem] = is_refused
            left = [it for it in left if it not in tried]


def git(*words):
    return subprocess.run(["git", *words], cwd=ROOT, capture_output=True, text=True, check=False).stdout


def commit():
    """The commit that the mutants are tried at."""
    altered = git("status", "--porcelain", "crates", "tools/edits").splitlines()
    return git("rev-parse", "--short=8", "HEAD").strip() + "+" * any(not line.endswith("/TRIED") for line in altered)


def record(found, at):
    """Writes the results into TRIED, in the place of earlier ones, and drops the lines of mutants that are gone."""
    lines = {}
    for line in TRIED.read_text(encoding="utf-8").splitlines() if TRIED.is_file() else []:
        crate, name, _ = line.split(" ")
        lines[crate, name] = line
    for (crate, name), is_refused in found.items():
        if is_refused:
            lines[crate, name] = f"{crate} {name} {at}"
        elif is_refused is False:
            lines.pop((crate, name), None)
    there = [line for (crate, name), line in sorted(lines.items()) if (EDITS / crate / f"{name}.edit").is_file()]
    TRIED.write_text("".join(f"{line}\n" for line in there), encoding="utf-8")


def main(words):
    in_test = words[:1] == ["in-test"]
    names, top = words[in_test:], IN_TEST if in_test else EDITS
    there = {it.name: it for it in sorted(top.iterdir()) if it.is_dir()}
    unknown = [it for it in names if it not in there]
    if unknown:
        print(f"no mutants of {', '.join(unknown)}; there are some of {', '.join(there)}", file=sys.stderr)
        return 2
    at, uses = commit(), libraries()
    # Those with the most come first: they take longest.
    chosen = sorted(names or there, key=lambda name: -len([*there[name].iterdir()]))
    for name in chosen:
        make_libraries(uses[name])
    found = {}
    with ThreadPoolExecutor(int(os.environ.get("RT_JOBS", os.cpu_count() or 1))) as pool:
        try:
            for _ in pool.map(lambda name: try_crate(there[name], uses[name], found), chosen):
                pass
        except KeyboardInterrupt:
            INTERRUPTED.set()
    if not in_test:
        record(found, at)
    if INTERRUPTED.is_set():
        return 130
    passed = [*found.values()].count(True)
    print(f"{passed} passed, {len(found) - passed} failed")
    return 1 if passed < len(found) else 0


if __name__ == "__main__":
    sys.exit(main(sys.argv[1:]))
