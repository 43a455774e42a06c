#!/usr/bin/env python3
"""Lists the lemmas of crates/*/proofs that nothing uses.

Run it anywhere in the repository: tools/unused_lemmas.py [CRATE..]. It reads the repository alone, and proves nothing. Each line
of its answer is a file, a line and a name. It ends with status 1 where it lists any.

A lemma is used if an answer, an invariant, a definition of specs/, a `using(..)` in src/, or a worked history names it, or a
lemma that is used does. So lemmas that only name each other are listed as well, and so is what stands in a file for them alone.
A name counts where it is defined or imported; after a dot it is a field, and does not count. Worked histories and wrong replies
(Examples*.antt, WrongReplies.antt) are there for their own sake and are never listed.

A lemma that a tactic finds unnamed is listed too: check a crate after taking one out.
"""
import re
import sys
from pathlib import Path

ROOT = Path(__file__).resolve().parent.parent
GIVEN = {"Answers.antt", "Invariants.antt", "Proof.antt", "Send.antt", "Sync.antt", "Lib.antt"}
SIGNATURE = re.compile(r"^(?:(?:abbrev|unfoldable|pattern|axiom) )*(?:pub )?(?:(?:abbrev|unfoldable) )?(record )?([^\s(){}\[\],;.]+)(.*)$")
IMPORT = re.compile(r"^\s*(?:pub )?use ([\w.']+)(?:\.\{([^}]*)\}| as (\S+))?\s*$")
USING = re.compile(r"\b((?:crate|\w+)::proofs(?:::[^\s:,()\]]+)+)")
WORD = re.compile(r"(\.?)([^\s(){}\[\],;.:=λ]+)")


def is_for_its_own_sake(path):
    return path.name.startswith("Examples") or path.name == "WrongReplies.antt"


def module_of(path):
    """The module that a file is, as `use` lines name it."""
    parts = path.relative_to(ROOT / "crates").with_suffix("").parts
    return ".".join(("Rattle",) + parts)


def imports_of(lines):
    """What each imported name stands for: a module and a name in it; and the modules imported under a name of their own."""
    names, modules = {}, {}
    for line in lines:
        found = IMPORT.match(line)
        if not found:
            continue
        module, listed, alias = found.groups()
        if listed is None:
            modules[alias or module.split(".")[-1]] = module
        else:
            for item in filter(None, (part.strip() for part in listed.split(","))):
                name, _, other = item.partition(" as ")
                names[other.strip() or name] = (module, name)
    return names, modules


class Definition:
    """A definition at the top of a file or of a `module _` in it: its name, its line, and the lines that make it up."""

    def __init__(self, name, line, around):
        self.name, self.line, self.text = name, line, list(around)


def is_signature(found):
    return bool(found) and (bool(found.group(1)) or re.match(r"\s*(\{[^}]*\}\s*)?:(\s|$)", found.group(3)))


def definitions_of(lines):
    """The definitions of a file, also those in its `module _` and `mutual`. What a module takes belongs to each of its own."""
    definitions, current, blocks = [], None, [(0, [])]
    for number, line in enumerate(lines, 1):
        if not line.strip() or line.strip().startswith("--") or IMPORT.match(line):
            continue
        indent = len(line) - len(line.lstrip())
        while len(blocks) > 1 and indent < blocks[-1][0]:
            blocks.pop()
            current = None
        if indent > blocks[-1][0]:
            (current.text if current else blocks[-1][1]).append(line)
            continue
        word = line.split()[0]
        if word in ("module", "mutual"):
            blocks.append((indent + 2, blocks[-1][1] + [line]))
            current = None
            continue
        found = SIGNATURE.match(line.strip())
        if is_signature(found):
            current = Definition(found.group(2), number, blocks[-1][1])
            definitions.append(current)
        (current.text if current else blocks[-1][1]).append(line)
    return definitions


class Source:
    """A file of antt, with its definitions if it is one of lemmas."""

    def __init__(self, path):
        self.path, self.module = path, module_of(path)
        self.lines = path.read_text(encoding="utf-8").split("\n")
        self.names, self.modules = imports_of(self.lines)
        in_proofs = "proofs" in path.relative_to(ROOT / "crates").parts
        self.has_lemmas = in_proofs and path.name not in GIVEN
        self.definitions = definitions_of(self.lines) if self.has_lemmas else []
        self.own = {definition.name for definition in self.definitions}

    def named_in(self, lines):
        """The lemmas, as pairs of a module and a name, that these lines of the file may name."""
        for line in lines:
            line = line.split(" -- ")[0]
            if line.strip().startswith("--") or IMPORT.match(line):
                continue
            before = None
            for dot, word in WORD.findall(line):
                if dot and before in self.modules:
                    yield self.modules[before], word
                elif not dot and word in self.own:
                    yield self.module, word
                elif not dot and word in self.names:
                    yield self.names[word]
                before = word


def named_in_code(path):
    """The lemmas that the `using(..)` of a source file name."""
    crate = path.relative_to(ROOT / "crates").parts[0]
    for way in USING.findall(path.read_text(encoding="utf-8")):
        parts = way.split("::")
        if parts[0] == "crate":
            parts[0] = crate
        yield "Rattle." + ".".join(parts[:-1]), parts[-1]


def unused(sources):
    """The definitions that nothing used reaches, each with its file."""
    lemmas, reached, waiting = {}, set(), []
    for source in sources:
        for definition in source.definitions:
            lemmas.setdefault((source.module, definition.name), []).append((source, definition))
        if not source.has_lemmas or is_for_its_own_sake(source.path):
            waiting.extend(source.named_in(source.lines))
    for path in ROOT.glob("crates/*/src/**/*.rt"):
        waiting.extend(named_in_code(path))
    while waiting:
        name = waiting.pop()
        if name in reached:
            continue
        reached.add(name)
        for source, definition in lemmas.get(name, []):
            waiting.extend(source.named_in(definition.text))
    for name, places in lemmas.items():
        for source, definition in places:
            if name not in reached and not is_for_its_own_sake(source.path):
                yield source, definition


def main():
    crates = sys.argv[1:]
    paths = [p for p in ROOT.glob("crates/*/**/*.antt") if "out" not in p.relative_to(ROOT).parts]
    listed = sorted(unused([Source(path) for path in paths]), key=lambda pair: (str(pair[0].path), pair[1].line))
    count = 0
    for source, definition in listed:
        where = source.path.relative_to(ROOT)
        if not crates or where.parts[1] in crates:
            print(f"{where}:{definition.line}: {definition.name}")
            count += 1
    sys.exit(1 if count else 0)


if __name__ == "__main__":
    main()
