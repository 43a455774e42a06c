#!/usr/bin/env python3
"""Compares the clauses of public functions with those of another commit, so that a change of form shows whether it changes a promise.

    tools/clauses.py COMMIT [CRATE..]

A public function is a `pub fn`, or a method of a trait or of an `impl` of one. It is known by its crate, the type or trait that it
stands in, and its name, so it may move to another file. For each it lists, compared by text with blanks joined: `-` a clause that is
gone, `+` one that is new. A clause that says the same in other words is listed as both. The last lines count functions and clauses.
The status is 1 if an `ensures` is gone, a `requires` is new, or a function is gone: then somebody has to read why.
"""
import re
import subprocess
import sys
from pathlib import Path

ROOT = Path(__file__).resolve().parent.parent
BLOCK = re.compile(r"^(?:pub(?:\([a-z]+\))? )?(?:unsafe )?(impl\b.*|trait\b.*|mod\b.*)$")
FUNCTION = re.compile(r"^( *)(pub )?(?:const |unsafe |extern \"C\" )*fn (\w+)")
CLAUSE = re.compile(r"^ *(requires|ensures|ensures_unwind|terminates)\b")
GENERICS = re.compile(r"<[^<>]*>")


def name_of(block):
    """The type or trait of a block, without its parameters: `Records for SlabRecords`, say."""
    text = block.split(" where ")[0].split("{")[0]
    while (shorter := GENERICS.sub("", text)) != text:
        text = shorter
    return re.sub(r"^(?:impl|trait)\b|:.*", "", " ".join(text.split())).strip()


def header_of(lines, at, indent):
    """The lines of a function before its body."""
    found = []
    for line in lines[at:]:
        if line == indent + "{":
            break
        found.append(line)
        if line.rstrip().endswith((";", "{", "}")) and not CLAUSE.match(line) and not line.startswith(indent + "     "):
            break
        if line.rstrip().endswith("};"):
            break
    return found


def clauses_of(header):
    """The clauses of a header, each on one line."""
    found = []
    for line in header:
        if CLAUSE.match(line):
            found.append(line)
        elif found:
            found[-1] += " " + line
    return {" ".join(clause.split()).rstrip(";").strip() for clause in found}


def functions_of(text):
    """The public functions of a file: the type or trait, the name, and the clauses."""
    lines, block, is_shared = text.split("\n"), "", False
    for at, line in enumerate(lines):
        if line == "}":
            block, is_shared = "", False
        elif BLOCK.match(line):
            block = name_of(BLOCK.match(line)[1])
            is_shared = line.lstrip("pub ").startswith("trait") or " for " in block
        found = FUNCTION.match(line)
        if found and (found[2] or (is_shared and found[1])):
            yield block, found[3], clauses_of(header_of(lines, at, found[1]))


def read(paths, text_of):
    """The clauses of each public function of these files by its name."""
    found = {}
    for path in paths:
        crate = Path(path).parts[1]
        for block, name, clauses in functions_of(text_of(path)):
            found.setdefault(" ".join(word for word in (crate, f"{block}::{name}" if block else name) if word), set()).update(clauses)
    return found


def git(*words):
    return subprocess.run(["git", *words], cwd=ROOT, capture_output=True, text=True, check=True).stdout


def main(words):
    if not words:
        print(__doc__.split("\n\n")[1].strip(), file=sys.stderr)
        return 2
    commit, names = words[0], words[1:]

    def is_asked(path):
        parts = Path(path).parts
        return path.endswith(".rt") and parts[0] == "crates" and parts[2] == "src" and (not names or parts[1] in names)

    before = read(filter(is_asked, git("ls-tree", "-r", "--name-only", commit).split("\n")), lambda path: git("show", f"{commit}:{path}"))
    there = (str(path.relative_to(ROOT)) for path in sorted(ROOT.glob("crates/*/src/**/*.rt")))
    after = read(filter(is_asked, there), lambda path: (ROOT / path).read_text(encoding="utf-8"))
    is_weaker = False
    for name in sorted(before.keys() | after.keys()):
        gone, new = before.get(name, set()) - after.get(name, set()), after.get(name, set()) - before.get(name, set())
        if name not in after:
            print(f"- {name}: the function is gone, with {len(gone)} clauses")
        elif name in before:
            for mark, clauses in (("-", gone), ("+", new)):
                for clause in sorted(clauses):
                    print(f"{mark} {name}: {clause}")
        is_weaker |= name not in after or any(it.startswith("ensures") for it in gone)
        is_weaker |= name in before and any(it.startswith("requires") for it in new)
    for when, found in (("before", before), ("now", after)):
        print(f"{when}: {len(found)} public functions, {sum(map(len, found.values()))} clauses")
    return 1 if is_weaker else 0


if __name__ == "__main__":
    sys.exit(main(sys.argv[1:]))
