#!/usr/bin/env python3
"""Makes the lists of docs/PROOFS.md from the sources: the laws of each crate, and how many mutants it has.

Run it anywhere in the repository: tools/proof_lists.py. Between each line `<!-- lists CRATE.. -->` and the next empty line it
writes these lists. It prints how many laws and mutants there are. A law is a public function without parameters and
result, whose contract is the law. The tables of the page name the mutants that teach; all are files, named after what they do.
"""
import re
import sys
import textwrap
from pathlib import Path

ROOT = Path(__file__).resolve().parent.parent
PAGE = ROOT / "docs" / "PROOFS.md"
WIDTH = 120

# A law: a public function without parameters and result, with clauses. Its body is empty or calls other laws.
LAW = re.compile(r"^pub fn (\w+)(?:<[^>]*>)?\(\)\n(?:    [^\n]*\n)+\{", re.MULTILINE)
MARK = re.compile(r"^<!-- lists (.+) -->$")


def laws_of(crate):
    """The names of the crate's laws, in the order of its files."""
    sources = sorted((ROOT / "crates" / crate / "src").rglob("*.rt"))
    return [name for source in sources for name in LAW.findall(source.read_text(encoding="utf-8"))]


def mutants_of(crate):
    """The names of the crate's mutants: those that the test command tries, and those that it does not."""
    tried = sorted(path.stem for path in (ROOT / "tests" / "must-fail" / crate).glob("*.edit"))
    others = sorted(path.stem for path in (ROOT / "tools" / "edits" / crate).glob("*.edit"))
    return tried, others


def marked_mutants_of(crate):
    """The names as the page has them: those that the test command does not try in brackets."""
    tried, others = mutants_of(crate)
    return [f"`{name}`" for name in tried] + [f"(`{name}`)" for name in others]


def item(title, parts):
    """The wrapped lines of a list item; none if it has no parts."""
    if not parts:
        return []
    return textwrap.wrap(f"- **{title}**: " + "; ".join(parts) + ".", WIDTH, subsequent_indent="  ", break_on_hyphens=False)


def lists_of(crates):
    """The lines of these crates' lists."""
    laws, mutants = [], []
    for crate in crates:
        prefix = f"`{crate}` " if len(crates) > 1 else ""
        names = laws_of(crate)
        if names:
            laws.append(prefix + ", ".join(f"`{name}`" for name in names))
        tried, others = map(len, mutants_of(crate))
        if tried or others:
            mutants.append(prefix + " and ".join([str(tried)] * bool(tried) + [f"({others})"] * bool(others)))
    return item("Laws", laws) + item("Mutants", mutants)


def made(text):
    """The page with its lists made anew: what stands between a mark and the next empty line."""
    lines, inside = [], False
    for line in text.split("\n"):
        found = MARK.match(line)
        if found:
            lines += [line, *lists_of(found.group(1).split())]
            inside = True
        elif not line:
            inside = False
        if not inside:
            lines.append(line)
    return "\n".join(lines)


def main():
    text = PAGE.read_text(encoding="utf-8")
    PAGE.write_text(made(text), encoding="utf-8")
    crates = sorted(path.name for path in (ROOT / "crates").iterdir() if path.is_dir())
    laws = sum(len(laws_of(crate)) for crate in crates)
    tried, others = (sum(len(mutants_of(crate)[which]) for crate in crates) for which in (0, 1))
    print(f"{laws} laws, {tried} mutants that the test command tries, {others} others")


if __name__ == "__main__":
    sys.exit(main())
