#!/usr/bin/env python3
"""Checks that every mutant still applies: that each of its `old:` texts stands exactly once in the file that it names.

Run it anywhere in the repository: tools/edits_apply.py [CRATE..]. It reads the mutants of tests/must-fail/CRATE and of
tools/edits/CRATE, and proves nothing, so it takes less than a second. It prints each mutant that does not apply, with the reason.
The last line counts them, and the status is 1 where one does not apply. Whether the prover refuses a mutant is tried by
tools/try_edits.py.

It also reads tools/edits/TRIED, where tools/try_edits.py notes what it tried. A line whose mutant is gone fails too. How many mutants of
tools/edits have no line is printed, and fails nothing.
"""
import os
import re
import sys
from pathlib import Path

ROOT = Path(__file__).resolve().parent.parent
CRATES = ROOT / "crates"
EDITS = ROOT / "tools" / "edits"
IN_TEST = ROOT / "tests" / "must-fail"
TRIED = EDITS / "TRIED"
# The head of a function, and that of the impl which a method stands in.
FUNCTION = re.compile(r"^( *)(?:pub(?:\(\w+\))? )?(?:const )?fn (\w+)", re.MULTILINE)
METHODS = re.compile(r"^impl(?:<[^>]*>)? (?:(\w+)(?:<.*>)? for )?&?(\w+)", re.MULTILINE)


def module_of(path):
    """The module of a file of src, or "" if that is the crate itself."""
    words = path.removeprefix("src/").removesuffix(".rt").split("/")
    return "::".join(word for word in words if word not in ("lib", "main", "mod"))


def function_at(path, text, place):
    """The function that a place of a file of src stands in, as the end of its name that the prover prints, or "" if in none."""
    heads = [*FUNCTION.finditer(text, 0, text.index("\n", place))]
    if not heads or f"\n{heads[-1][1]}}}\n" in text[heads[-1].start() : place]:
        return ""
    indent, name = heads[-1].groups()
    methods = [*METHODS.finditer(text, 0, heads[-1].start())]
    if indent and methods:
        of_trait, kind = methods[-1].groups()
        return f"{kind[0].upper()}{kind[1:]}{of_trait or ''}::{name}"
    return f"{module_of(path)}::{name}".removeprefix("::")


def applied(edit, crate, changed=None):
    """The texts of the files that a mutant changes, by their paths, and the functions, "" for what is in none. It is applied to a crate, or
    to `changed` texts of it. An error says why it does not apply."""
    path, old, texts, functions, is_changed = None, None, dict(changed or {}), set(), False
    for line in edit.read_text(encoding="utf-8").split("\n"):
        if line.startswith("file: "):
            path = line.removeprefix("file: ").strip()
            if os.path.normpath(path) != path or not path.startswith(("src/", "specs/", "proofs/")):
                raise ValueError(f"{path} is no file below src/, specs/ or proofs/")
        elif line.startswith("old: "):
            old = line.removeprefix("old: ")
        elif line.startswith("new:"):
            if path is None or not old:
                raise ValueError("a `new:` line has no `file:` or `old:` line before it")
            if path not in texts:
                if not (crate / path).is_file():
                    raise ValueError(f"there is no file {path}")
                texts[path] = (crate / path).read_text(encoding="utf-8")
            found = texts[path].count(old)
            if found != 1:
                raise ValueError(f"{path} has {found} times the text {old}")
            place = texts[path].index(old)
            texts[path] = texts[path].replace(old, line.removeprefix("new:").removeprefix(" "))
            functions.add(function_at(path, texts[path], place) if path.startswith("src/") else "")
            old, is_changed = None, True
    if not is_changed:
        raise ValueError("it has no pair of `old:` and `new:` lines")
    return texts, functions


def lost_lines():
    """The lines of TRIED whose mutant is gone, and how many mutants of tools/edits have no line."""
    lines = TRIED.read_text(encoding="utf-8").splitlines() if TRIED.is_file() else []
    noted = {tuple(line.split(" ")[:2]): line for line in lines}
    there = {(edit.parent.name, edit.stem) for edit in EDITS.glob("*/*.edit")}
    return [line for key, line in noted.items() if key not in there], len(there - noted.keys())


def main(names):
    found = [(edit, CRATES / edit.parent.name) for top in (IN_TEST, EDITS) for edit in sorted(top.glob("*/*.edit"))]
    tried = [(edit, crate) for edit, crate in found if not names or crate.name in names]
    failed = 0
    for edit, crate in tried:
        try:
            applied(edit, crate)
        except ValueError as why:
            failed += 1
            print(f"{edit.relative_to(ROOT)}: {why}")
    lost, untried = lost_lines()
    for line in lost:
        print(f"{TRIED.relative_to(ROOT)}: there is no such mutant: {line}")
    print(f"{untried} mutants of tools/edits have no line in TRIED")
    failed += len(lost)
    print(f"{len(tried) + len(lost) - failed} passed, {failed} failed")
    return 1 if failed else 0


if __name__ == "__main__":
    sys.exit(main(sys.argv[1:]))
