#!/usr/bin/env python3
"""Compares the pages with the repository and with the built program.

    tests/pages.py crates/sgt/out/sgt

Commands on a page give what stands below them; links lead somewhere; named files, crates, contracts, laws and mutants exist; lists
that a script makes are as it makes them; the grammar of lines accepts the examples, and the program accepts what it draws; lines
are short, and words are the field's. The last line counts the cases.
"""

import json
import os
import random
import re
import subprocess
import sys
import tempfile
from functools import cache

sys.dont_write_bytecode = True
from helpers.cases import SECONDS, TESTS, Differs, same, run_cases  # noqa: E402

TOP = TESTS.parent
sys.path.insert(0, str(TOP / "tools"))
import proof_lists  # noqa: E402

CRATES = TOP / "crates"
EXAMPLES = TOP / "examples"
INPUTS = TESTS / "inputs"

# The pages that are checked, and the most lines of those that are kept short.
LONGEST = {"README.md": 90, "docs/ARCHITECTURE.md": 180, "bench/FIGURES.md": 140}
PAGES = [
    "README.md",
    "CONTRIBUTING.md",
    *(f"docs/{name}.md" for name in ("ARCHITECTURE", "COMPARED", "DECISIONS", "DEFINITIONS", "FORMATS", "HEADLINE", "LANGUAGE", "LIBRARY", "PROOFS")),
    "bench/FIGURES.md",
    "examples/README.md",
    "examples/programs/README.md",
    "tests/README.md",
    "tools/README.md",
]
# Pages of worked programs, which are not among the lines that are counted.
WORKED = ["examples/clients/README.md", "examples/cookbook/README.md", "examples/payments/README.md", "examples/store/README.md"]
PAGES += WORKED
ALL_LINES = 3000
LINE = 120
HELP_LINE = 100


def text_of(page):
    return (TOP / page).read_text(encoding="utf-8")


@cache
def parts_of(page):
    """The page's lines, numbered: those outside fenced blocks, and the blocks with their languages."""
    prose, blocks, block = [], [], None
    for number, line in enumerate(text_of(page).split("\n"), 1):
        if line.startswith("```"):
            if block is None:
                block = (line[3:], [])
                blocks.append(block)
            else:
                block = None
        elif block is not None:
            block[1].append(line)
        else:
            prose.append((number, line))
    return prose, blocks


def blocks_of(page, language):
    return [lines for found, lines in parts_of(page)[1] if found == language]


def fail_if(found):
    """Differs if something was found, which is a list of texts."""
    if found:
        raise Differs(f"{len(found)}: " + "; ".join(found[:12]))


# Sizes


def are_short(_sgt):
    found = [f"{page} has {len(text_of(page).splitlines())} lines" for page, most in LONGEST.items() if len(text_of(page).splitlines()) > most]
    lines = sum(len(text_of(page).splitlines()) for page in PAGES if page not in WORKED)
    if lines > ALL_LINES:
        found.append(f"all pages have {lines} lines")
    fail_if(found)
    return f"{lines} lines"


def have_short_lines(_sgt):
    fail_if([f"{page}:{number}" for page in PAGES for number, line in enumerate(text_of(page).split("\n"), 1) if len(line) > LINE])
    helps = sorted((TESTS / "expected").glob("help*.txt"))
    fail_if([f"{path.name}:{number}" for path in helps for number, line in enumerate(path.read_text().split("\n"), 1) if len(line) > HELP_LINE])


# Links and names


@cache
def anchors_of(page):
    """The anchors of a page's headings, as GitHub makes them."""
    found = set()
    for _, line in parts_of(page)[0]:
        if line.startswith("#"):
            heading = line.lstrip("#").strip().lower()
            found.add(re.sub(r"[^\w\- ]", "", heading).replace(" ", "-"))
    return found


def have_links_that_lead_somewhere(_sgt):
    found, count = [], 0
    for page in PAGES:
        for number, line in parts_of(page)[0]:
            for target in re.findall(r"\]\(([^)\s]+)\)", line):
                count += 1
                path, _, anchor = target.partition("#")
                there = (TOP / page).parent / path if path else TOP / page
                if not there.exists():
                    found.append(f"{page}:{number} {target}")
                elif anchor and anchor not in anchors_of(os.path.relpath(there, TOP)):
                    found.append(f"{page}:{number} {target}")
    fail_if(found)
    return f"{count} links"


def spans_of(page):
    """The code spans outside fenced blocks, with the numbers of their lines."""
    text = "\n".join(line for _, line in parts_of(page)[0])
    numbers = [number for number, _ in parts_of(page)[0]]
    for found in re.finditer(r"`([^`]+)`", text):
        yield numbers[text.count("\n", 0, found.start())], found.group(1)


PATH = re.compile(r"^[\w.*+-]+(/[\w.*+-]+)+/?$")
FILE = re.compile(r"^\w[\w.-]*\.(py|rt|antt|md|txt|jsonl|h|hpp|c|json|edit|rs)$")


def is_there(page, name):
    """Whether a file or folder of that name stands where pages name files from."""
    bases = [TOP, (TOP / page).parent, (TOP / page).parent / "procedures", TOP / "docs", TOP / "tools", TOP / "bindings", TESTS / "helpers", TESTS / "c", EXAMPLES / "histories", CRATES]
    names = [name.rstrip("/"), f"{name}.antt"]
    if any(any(base.glob(one)) for base in (*bases, TESTS, *CRATES.iterdir()) for one in names):
        return True
    return "/" not in name and any(any(CRATES.glob(f"*/{folder}/**/{name}")) for folder in ("src", "specs", "proofs"))


# Words with a slash, or an ending, that are no files.
NO_FILES = {"-Ibindings/c", "-Ibindings/cpp", "bank.c", ".../bindings/rust", "procedures/gift.json"}
PLACEHOLDERS = re.compile(r"NAME|CRATE|FILE|FUNCTION|\.\.\.")


def name_files_that_exist(_sgt):
    found, count = [], 0
    for page in PAGES:
        for number, span in spans_of(page):
            for word in span.split():
                if word in NO_FILES or PLACEHOLDERS.search(word) or re.match(r"^\d+/", word) or "/out/" in word:
                    continue
                if PATH.match(word) or FILE.match(word):
                    count += 1
                    if not is_there(page, word):
                        found.append(f"{page}:{number} {word}")
    fail_if(found)
    return f"{count} names"


@cache
def sources():
    """The text of all sources by which a name may be defined."""
    paths = [*CRATES.glob("*/src/**/*.rt"), *CRATES.glob("*/specs/**/*.antt"), *CRATES.glob("*/proofs/**/*.antt")]
    for pattern in ("bindings/**/*.h", "bindings/**/*.hpp", "bindings/python/**/*.py", "bindings/rust/**/*.rs", "tests/**/*.py"):
        paths += TOP.glob(pattern)
    return {path: path.read_text(encoding="utf-8") for path in paths if "/out/" not in str(path)}


@cache
def words_of_sources():
    found = set()
    for path, text in sources().items():
        found |= set(re.findall(r"\w+", text)) | {path.stem}
    return found | {path.name for path in CRATES.iterdir()}


NAME = re.compile(r"^[A-Za-z_]\w*(::\w+)*$")

# Names of other programs, or made up on the page.
NO_NAMES = {"pkg_config", "SGT_LIB_DIR", "RUNS", "SGT", "DESTDIR", "LIBDIR", "PYTHONPATH", "RT_JOBS", "TRIED", "crossbeam_channel",
            "atomic_table", "fast_float", "find_package", "target_link_libraries", "PGHOST", "PGUSER", "sgt_lists"}


def name_code_that_exists(_sgt):
    found, count = [], 0
    for page in PAGES:
        for number, span in spans_of(page):
            if not NAME.match(span) or span in NO_NAMES or not ("_" in span or "::" in span or re.search(r"[A-Z]", span)):
                continue
            count += 1
            if not all(part in words_of_sources() or f"sgt_shared{part}" in words_of_sources() for part in span.split("::")):
                found.append(f"{page}:{number} {span}")
    fail_if(found)
    return f"{count} names"


# Crates, contracts, laws and mutants


def crates():
    return sorted(path.name for path in CRATES.iterdir() if path.is_dir())


def name_each_crate(_sgt):
    page = text_of("docs/ARCHITECTURE.md")
    rows = "\n".join(line for line in page.split("\n") if line.startswith("| `sgt"))
    fail_if([f"no row for {crate}" for crate in crates() if f"`{crate}`" not in rows])
    marks = " ".join(re.findall(r"<!-- lists (.+) -->", text_of("docs/PROOFS.md"))).split()
    missing = [crate for crate in crates() if crate not in marks and (proof_lists.laws_of(crate) or any(proof_lists.mutants_of(crate)))]
    fail_if([f"no lists of {crate} in PROOFS.md" for crate in missing])


def draw_the_crates_in_order(_sgt):
    """In the picture of the crates each uses only those of lower lines, and of its own line to its right."""
    drawn = re.findall(r"\bsgt\w*", "\n".join(blocks_of("docs/ARCHITECTURE.md", "")[0]))
    for line in (TOP / "crates.txt").read_text(encoding="utf-8").split("\n"):
        crate, colon, uses = line.partition(":")
        if not colon or line.startswith("#") or "test" in crate or "runs" in crate:
            continue
        for used in uses.split():
            if used.startswith("sgt") and drawn.index(used) < drawn.index(crate):
                raise Differs(f"{crate} uses {used}, which stands above it")
    return f"{len(drawn)} crates"


def have_the_lists_that_a_script_makes(_sgt):
    page = text_of("docs/PROOFS.md")
    if proof_lists.made(page) != page:
        raise Differs("docs/PROOFS.md is not as tools/proof_lists.py makes it")
    mutants = [proof_lists.mutants_of(crate) for crate in crates()]
    named = re.findall(r"\(`([a-z0-9-]+-[a-z0-9-]+)`\)|(?<!\()`([a-z0-9]+-[a-z0-9-]+)`", page)
    there = [name for crate in crates() for name in proof_lists.marked_mutants_of(crate)]
    on_page = {f"(`{other}`)" if other else f"`{name}`" for other, name in named}
    fail_if([f"there is no mutant {name}" for name in sorted(on_page - set(there))])
    tried = sum(len(first) for first, _ in mutants)
    if f"the {tried} of now" not in text_of("CONTRIBUTING.md"):
        raise Differs(f"CONTRIBUTING.md does not say that the test command tries {tried} mutants")
    return f"{tried} mutants that the test command tries, {sum(len(second) for _, second in mutants)} others"


def name_the_files_to_trust(_sgt):
    listed = (CRATES / "sgt_model/specs/Lib.antt").read_text(encoding="utf-8").split("-- ---- Part 2")[0]
    count = len(re.findall(r"^pub mod ", listed, re.MULTILINE))
    for page, words in (("README.md", f"{count} short files"), ("docs/DEFINITIONS.md", f"| {count}: "), ("docs/PROOFS.md", f"the {count} files")):
        if words not in text_of(page):
            raise Differs(f"{page} does not say {words!r}")


@cache
def contracts():
    """For each function the texts between its name and its body, wherever one of that name stands."""
    found = {}
    for path, text in sources().items():
        if path.suffix != ".rt":
            continue
        starts = [(match.start(), match.group(1)) for match in re.finditer(r"\bfn (\w+)", text)]
        for place, (start, name) in enumerate(starts):
            end = starts[place + 1][0] if place + 1 < len(starts) else len(text)
            found.setdefault(name, []).append(text[start:end])
    return found


def has_clause(name, clause):
    """Whether a function of that name has the clause, or a file that defines that name has a field so called."""
    name = name.split("::")[-1]
    labelled = re.compile(rf"\b(?:ensures|requires) {clause}\b|\b{clause} = \\{{")
    if any(labelled.search(text) for text in contracts().get(name, [])):
        return True
    defined = re.compile(rf"^(?:\w+ )*pub (?:\w+ )*{name}\b|\b(?:struct|trait|enum|impl[^\n]*) {name}\b", re.MULTILINE)
    return name[0].isupper() and any(defined.search(text) and re.search(rf"\b{clause}\b", text) for text in sources().values())


def name_clauses_that_exist(_sgt):
    """In a contract's cell, names before a colon are functions and definitions, and those after it are their clauses."""
    found, count = [], 0
    for number, line in parts_of("docs/PROOFS.md")[0]:
        cells = line.split(" | ")
        if not line.startswith("| ") or len(cells) < 2:
            continue
        for group in cells[1].rstrip(" |").split(";"):
            before, colon, after = re.sub(r"\([^)]*\)", "", group).partition("`: ")
            if not colon:
                continue
            functions = re.findall(r"`([\w:]+)", before + "`")
            for clause in re.findall(r"`(\w+)`", after):
                count += 1
                if not any(has_clause(function, clause) for function in functions):
                    found.append(f"PROOFS.md:{number} {functions} {clause}")
    fail_if(found)
    return f"{count} clauses"


def claim_of_statuses_what_each_contract_says(_sgt):
    """Each call of the library that visits an engine says when it is refused, and what is unchanged. docs/PROOFS.md says so of all."""
    found, count = [], 0
    for name, texts in contracts().items():
        for text in texts:
            if not name.startswith("sgt_") or name == "sgt_close" or "engine: &mut Handle" not in text:
                continue
            count += 1
            found += [f"{name} has no clause {what}" for what in ("visits", "unchanged|same") if not re.search(rf"ensures (?:{what}) ", text)]
    fail_if(found)
    if "`unchanged`, or `same`, of each call" not in text_of("docs/PROOFS.md"):
        raise Differs("docs/PROOFS.md does not say what a status leaves unchanged")
    return f"{count} calls"


def have_the_headline_word_for_word(_sgt):
    headline = re.search(r"> (For every list.*?)\n\n", text_of("docs/HEADLINE.md"), re.DOTALL).group(1)
    words = " ".join(headline.replace("\n> ", " ").split())
    if words not in " ".join(text_of("README.md").split()):
        raise Differs("README.md does not have the headline of docs/HEADLINE.md")


def name_each_test_and_tool(_sgt):
    run = text_of("test")
    for path in sorted(TESTS.glob("*.py")):
        if f"tests/{path.name}" not in run:
            raise Differs(f"./test does not run {path.name}")
        if f"tests/{path.name}" not in text_of("tests/README.md"):
            raise Differs(f"tests/README.md does not name {path.name}")
    for path in sorted((TOP / "tools").glob("*.py")):
        if f"tools/{path.name}" not in text_of("tools/README.md"):
            raise Differs(f"tools/README.md does not name {path.name}")
    for path in sorted([*EXAMPLES.glob("*.jsonl"), *EXAMPLES.glob("bank*/*.jsonl"), *(EXAMPLES / "histories").glob("*.txt")]):
        if path.name not in text_of("examples/README.md"):
            raise Differs(f"examples/README.md does not name {path.name}")


# Limits: a constant of a source, a page, and what the page says of it.
LIMITS = [
    ("sgt_model/src/key.rt", "MOST", "docs/FORMATS.md", "to {}."),
    ("sgt_model/src/key.rt", "LAST_TABLE", "docs/LANGUAGE.md", "a table is over {}"),
    ("sgt_model/src/limits.rt", "MOST_LIVE", "README.md", "| 1 to {};"),
    ("sgt_model/src/limits.rt", "MOST_LIVE", "docs/FORMATS.md", "from 1 to {};"),
    ("sgt_model/src/limits.rt", "MOST_LIVE", "docs/COMPARED.md", "At most {} are live"),
    ("sgt_model/src/limits.rt", "MOST_LIVE", "docs/COMPARED.md", "| {} live |"),
    ("sgt_model/src/limits.rt", "MOST_BEGINS", "README.md", "at most {} started"),
    ("sgt_model/src/limits.rt", "MOST_BEGINS", "docs/FORMATS.md", "from 1 to {}"),
    ("sgt_proc/src/sizes.rt", "MOST_STATEMENTS", "README.md", "{} statements"),
    ("sgt_proc/src/sizes.rt", "MOST_STATEMENTS", "docs/LANGUAGE.md", "over {} statements"),
    ("sgt_proc/src/flaw.rt", "MOST_ARGUMENTS", "docs/LANGUAGE.md", "more than {} arguments"),
    ("sgt_proc/src/answers.rt", "MOST_ANSWERS", "docs/LANGUAGE.md", "more than {} `Answer`"),
    ("sgt_proc/src/depths.rt", "DEEPEST", "docs/LANGUAGE.md", "over {} deep"),
    ("sgt_proc/src/numbers.rt", "LAST_REGISTER", "docs/LANGUAGE.md", "a register is over {}"),
    ("sgt_proc/src/numbers.rt", "LAST_CODE", "docs/LANGUAGE.md", "0 or over {}"),
    ("sgt_input/src/lines.rt", "LONGEST_LINE", "docs/FORMATS.md", "newline | {} bytes"),
    ("sgt_input/src/lines.rt", "DEFAULT_BYTES", "README.md", "| {} bytes"),
    ("sgt_input/src/lines.rt", "DEFAULT_BYTES", "docs/FORMATS.md", "bank | {} bytes"),
    ("sgt_input/src/lines.rt", "MOST_BYTES", "docs/FORMATS.md", "up to {} bytes"),
    ("sgt_check/src/input.rt", "LONGEST_INPUT", "docs/FORMATS.md", "at most {} bytes"),
    ("sgt_dispatch/src/queue.rt", "MOST_JOBS", "docs/FORMATS.md", "jobs of a bank | {}"),
    ("sgt_workers/src/bank.rt", "MOST_WORKERS", "docs/FORMATS.md", "W is from 1 to {}"),
    ("sgt_workers/src/bank.rt", "MOST_TRIES", "docs/FORMATS.md", "from 1 to {} (default 100)"),
    ("sgt_notation/src/spelled.rt", "LONGEST_ITEM", "docs/FORMATS.md", "1 to {} bytes"),
    ("sgt_line_errors/src/grammar.rt", "DEEPEST", "docs/FORMATS.md", "one another | {};"),
    ("sgt_line_errors/src/excerpt.rt", "LONGEST", "docs/FORMATS.md", "at most {} characters"),
    ("sgt_timeline/src/drawn.rt", "MOST", "docs/FORMATS.md", "more than {} operations"),
    ("sgt_check/src/checked.rt", "SCREEN", "docs/FORMATS.md", "more than {} operations"),
    ("sgt_timeline/src/drawn.rt", "MOST_PAIRS", "docs/FORMATS.md", "first {} edges"),
    ("sgt_smallbank/src/tables.rt", "PENALTY", "docs/FORMATS.md", "WriteCheck takes {} more"),
]


def have_the_limits_of_the_sources(_sgt):
    found = []
    for source, name, page, words in LIMITS:
        text = (CRATES / source).read_text(encoding="utf-8")
        number = int(re.search(rf"\bconst {name}: \w+ = ([\d_]+);", text).group(1).replace("_", ""))
        says = words.format(f"{number:,}")
        if says not in " ".join(text_of(page).split()) and words.format(number) not in " ".join(text_of(page).split()):
            found.append(f"{page} does not say {says!r}")
    fail_if(found)
    return f"{len(LIMITS)} limits"


def compare_the_same_databases_throughout(_sgt):
    """Each table of the comparison has a row for each database of its title, in that order, and says where each side is ahead."""
    title, *lines = text_of("docs/COMPARED.md").split("\n")
    wanted = re.findall(r"[\w]+", title.replace(" or ", " "))
    tables = "\n".join(line for line in lines if not line or line.startswith("|")).split("\n\n")
    rows = [[line.split("|")[1].strip() for line in table.split("\n")[2:]] for table in map(str.strip, tables) if table]
    same("the rows", [wanted, wanted], rows)
    same("who is ahead", ["Where the others are ahead:", "Where sgt is ahead:"], [line for line in lines if line.endswith(" ahead:")])


# Commands


def consoles():
    """Each command of the pages' consoles, with what stands below it."""
    for page in PAGES:
        for lines in blocks_of(page, "console"):
            for line in lines:
                if line.startswith("$ "):
                    command = [page, line[2:], []]
                    yield command
                else:
                    command[2].append(line)


def run_as_they_say(sgt):
    commands = list(consoles())
    for page, command, wanted in commands:
        command = re.sub(r"(?<!\S)\./sgt(?= )", sgt, command)
        env = dict(os.environ, PATH=f"{os.path.dirname(sgt)}:{os.environ['PATH']}")
        ran = subprocess.run(["sh", "-c", command], cwd=TOP, env=env, stdout=subprocess.PIPE, stderr=subprocess.STDOUT, timeout=SECONDS, check=False)
        same(f"{page}: {command}", "".join(line + "\n" for line in wanted), ran.stdout.decode())
    return f"{len(commands)} commands"


def name_commands_that_exist(_sgt):
    found, count = [], 0
    for page in PAGES:
        for lines in blocks_of(page, "sh"):
            for line in lines:
                for word in re.findall(r"(?:tests|tools|bindings|bench|examples|crates)/[\w./-]*\w", line.split("#")[0]):
                    count += 1
                    if "/out/" not in word and not (TOP / word).exists() and not (TOP / "crates" / "sgt" / word).exists():
                        found.append(f"{page}: {word}")
    fail_if(found)
    return f"{count} names"


# Lines


class Grammar:
    """The grammar of a page's blocks, which recognizes texts and draws them."""

    DRAWN = {"table": 7, "byte": 255, "short": 65_535, "long": 4_294_967_295}

    def __init__(self, blocks):
        self.rules = {}
        for rule in "\n".join("\n".join(block) for block in blocks).split(";\n"):
            if "=" in rule:
                name, _, body = rule.partition("=")
                self.rules[name.strip()] = self.parsed(re.findall(r"'[^']*'|\w+|[|,()\[\]{}]", body))

    def parsed(self, tokens):
        """Alternatives, each a list of items: a text, a name, or a group with how often it may come."""
        closing = {"(": ")", "[": "]", "{": "}"}
        stack = [([[]], None)]
        for token in tokens:
            choices, _ = stack[-1]
            if token == "|":
                choices.append([])
            elif token in closing:
                stack.append(([[]], token))
            elif token in closing.values():
                inner, opened = stack.pop()
                same("the bracket of a grammar", closing[opened], token)
                stack[-1][0][-1].append((opened, inner))
            elif token != ",":
                choices[-1].append(token)
        return stack[0][0]

    def pattern(self, name, depth=0):
        """A regular expression for a rule that is not recursive, or none below some depth."""
        if name == "table":
            return "[0-7]"
        if name in ("byte", "short", "long"):
            return r"\d+"
        if name == "value":
            return r"-?\d{1,15}"
        if name == "int":
            return r"-?\d+"
        if name == "item":
            return r"[A-Za-z0-9_./:-]{1,64}"
        if depth > 9:
            return r"(?!)"
        return self.of_choices(self.rules[name], depth + 1)

    def of_choices(self, choices, depth):
        return "(?:" + "|".join("".join(self.of_item(item, depth) for item in choice) for choice in choices) + ")"

    def of_item(self, item, depth):
        if isinstance(item, tuple):
            return self.of_choices(item[1], depth) + {"(": "", "[": "?", "{": "*"}[item[0]]
        return re.escape(item[1:-1]) if item.startswith("'") else self.pattern(item, depth)

    def drawn(self, name, by, depth=0):
        if name in self.DRAWN:
            return str(by.choice((0, 1, 7, self.DRAWN[name])))
        if name == "int":
            return str(by.choice((0, 1, -1, 10**15, -(2**63), 2**63 - 1)))
        if name == "value":
            return str(by.choice((0, 1, -1, 10**15 - 1, 1 - 10**15)))
        choices = self.rules[name]
        if depth > 6 and name in ("expr", "block"):
            return "7" if name == "expr" else "[]"
        return self.drawn_choice(choices, by, depth + 1)

    def drawn_choice(self, choices, by, depth):
        out = []
        for item in by.choice(choices):
            if isinstance(item, tuple):
                times = {"(": 1, "[": by.randrange(2), "{": by.randrange(3)}[item[0]]
                out += [self.drawn_choice(item[1], by, depth) for _ in range(times)]
            else:
                out.append(item[1:-1] if item.startswith("'") else self.drawn(item, by, depth))
        return "".join(out)


@cache
def grammar():
    return Grammar(blocks_of("docs/FORMATS.md", "ebnf"))


def have_a_grammar_of_the_examples(_sgt):
    """Each line of the examples' inputs and outputs is one of the grammar's."""
    compiled = {name: re.compile(grammar().pattern(name)) for name in ("line1", "record", "event", "cut", "job", "reply", "row", "outcome", "operation")}
    found, count = [], 0
    inputs = [*EXAMPLES.glob("*.jsonl"), *EXAMPLES.glob("bank*/*.jsonl"), *(INPUTS / "scripts").glob("*.jsonl"), *(INPUTS / "banks").glob("**/*.jsonl")]
    for path in inputs:
        for number, line in enumerate(path.read_text().splitlines(), 1):
            tree = json.loads(line)
            if number == 1:
                tree = {key: tree[key] for key in ("limits", "accounts", "procedures")}
            compact = json.dumps(tree, separators=(",", ":"))
            names = ("line1",) if number == 1 else ("record", "event", "cut", "job")
            if not any(compiled[name].fullmatch(compact) for name in names):
                found.append(f"{path.name}:{number}")
            count += 1
        bank = path.parent.name.startswith("bank")
        for number, line in enumerate(path.with_suffix(".out").read_text().splitlines(), 1):
            if not any(compiled[name].fullmatch(line) for name in (("outcome", "row") if bank else ("reply", "row"))):
                found.append(f"{path.stem}.out:{number} {line}")
            count += 1
    fail_if(found)
    return f"{count} lines"


def have_a_grammar_that_refuses_bad_lines(_sgt):
    """No line of the inputs that is a bad line, or a procedure with an error of shape, is one of the grammar's."""
    compiled = {name: re.compile(grammar().pattern(name)) for name in ("line1", "record", "event", "cut", "job")}
    found, count = [], 0
    for path in [*(INPUTS / "script_faults").glob("*.err"), *(INPUTS / "bank_faults").glob("**/*.err")]:
        fault = re.match(r"line (\d+): (bad line|procedure \d+ shape)", path.read_text())
        line = fault and path.with_suffix(".jsonl").read_text().splitlines()[int(fault.group(1)) - 1]
        if fault and '"record"' not in line and "\\u" not in line:
            names = ("line1",) if fault.group(1) == "1" else ("job",) if "bank" in path.parts[-2] else ("event", "cut")
            compact = json.dumps(json.loads(line), separators=(",", ":"))
            numbers = [abs(int(number)) for number in re.findall(r"\d+", compact)]
            if any(compiled[name].fullmatch(compact) for name in names) and max(numbers, default=0) < 256:
                found.append(f"{path.name} {line}")
            count += 1
    fail_if(found)
    return f"{count} lines"


def accepted(sgt, lines):
    """The first line of a script's error, if there is one."""
    ran = subprocess.run([sgt, "script"], input="\n".join(lines).encode(), capture_output=True, timeout=SECONDS, check=False)
    return ran.stderr.decode().split("\n")[0]


OPENING = '{"limits":[8,100],"accounts":[],"procedures":[]}'


def have_a_grammar_that_the_program_accepts(sgt):
    """What is drawn from the grammar has no error of shape: each drawn event, record and procedure."""
    by = random.Random(60)
    events = [grammar().drawn(name, by) for _ in range(300) for name in ("event", "cut")]
    same("the errors of drawn events", "", accepted(sgt, [OPENING, *events]))
    jobs = [grammar().drawn("job", by) for _ in range(200)]
    ran = subprocess.run([sgt, "bank"], input="\n".join([OPENING, *jobs]).encode(), capture_output=True, timeout=SECONDS, check=False)
    same("the errors of drawn jobs", "", ran.stderr.decode())
    for _ in range(150):
        error = accepted(sgt, [OPENING[:-2] + grammar().drawn("procedure", by) + "]}"])
        if error and " flaw " not in error:
            raise Differs(f"a drawn procedure: {error}")
        error = accepted(sgt, [OPENING, grammar().drawn("record", by)])
        if error and error != "line 2: bad record":
            raise Differs(f"a drawn record: {error}")
        error = accepted(sgt, [grammar().drawn("line1", by)])
        if error in ("line 1: bad line", "line 1: not JSON") or " shape " in error:
            raise Differs(f"a drawn line 1: {error}")
    return "800 events and jobs, 450 openings, procedures and records"


# The order of refusals


def order_of(what):
    """The replies that refuse such an event, in the order that the page has: behind the words up to the next semicolon or stop."""
    text = " ".join(text_of("docs/FORMATS.md").split())
    found = re.search(rf"{what}: ((?:`[a-z ]+`(?:, )?)+)[;.]", text)
    if not found:
        raise Differs(f"docs/FORMATS.md has no order of refusals of {what!r}")
    return re.findall(r"`([^`]+)`", found.group(1))


# Each event with all replies that could refuse it: transaction 0 was aborted in the middle of its procedure, 1 is there, and has
# overwritten what 2 wrote, who is at its end. No start is left.
REFUSED = [
    ('["write",9,3,1,1000000000000000]', {"unknown", "bad args"}),
    ('["write",0,3,1,1000000000000000]', {"over", "not ended", "bad args"}),
    ('["write",1,3,1,1000000000000000]', {"not ended", "bad args"}),
    ('["write",2,3,1,1000000000000000]', {"bad args"}),
    ('["remove",1,3,1]', {"not ended"}),
    ('["commit",9]', {"unknown"}),
    ('["commit",0]', {"over", "not ended"}),
    ('["commit",1]', {"not ended", "waits"}),
    ('["start",99,[1000000000000000]]', {"no procedure", "bad args", "spent", "full"}),
    ('["start",5,[1000000000000000]]', {"bad args", "spent", "full"}),
    ('["start",5,[]]', {"spent", "full"}),
]
REFUSING = '{"limits":[2,3],"accounts":[],"procedures":[[0,[["put",3,1,1],["put",3,2,1]]]]}'
REFUSED_BEHIND = ['["start",5,[]]', '["step",0]', '["quit",0]', '["start",5,[]]', '["begin"]', '["write",2,3,1,7]', '["step",1]']


def have_the_order_of_refusals(sgt):
    """Of all replies that could refuse an event the first one comes, in the order of the page. A record out of range has no reply."""
    orders = {"start": order_of("a start")}
    others = order_of("any other event")
    orders |= {"write": others + order_of("then a caller's access"), "commit": others + order_of("a commit")}
    orders["remove"] = orders["write"]
    lines = [REFUSING, *REFUSED_BEHIND, *(line for line, _ in REFUSED)]
    ran = subprocess.run([sgt, "script"], input="\n".join(lines).encode(), capture_output=True, timeout=SECONDS, check=False)
    replies = ran.stdout.decode().split("\n")[len(REFUSED_BEHIND) :]
    for (line, could), reply in zip(REFUSED, replies):
        order = orders[json.loads(line)[0]]
        same(f"the reply to {line}", next(it for it in order if it in could), "over" if reply.startswith("over ") else reply)
    for line in ('["read",9,8,1]', '["read",9,3,1000000000000000]', '["write",9,8,1,1]', '["remove",9,3,-1000000000000000]'):
        same(line, "line 2: bad line", accepted(sgt, [OPENING, line]))
    return f"{len(REFUSED)} events"


# What is past the specification

# The words of its grammar, its replies, commands and errors.
SPECIFIED = set(
    "limits accounts procedures start step commit quit cut job look put let ask if answer arg reg sum diff less most same".split()
)
SPECIFIED_REPLIES = set(
    "started,no procedure,bad args,spent,full,unknown,over,read,none,wrote,ended,not ended,waits,committed,aborted,fell,refused,cut,"
    "still live,quit,asked,cycle,gave,no memory".split(",")
)
SPECIFIED_COMMANDS = {"script", "bank", "help"}
SPECIFIED_ERRORS = set(
    "no opening,not JSON,bad line,bad limits,bad opening,procedure,shape,flaw,long line,input too long,too many jobs,workers not started,"
    "receipts differ,reading failed,writing failed,no memory".split(",")
)


def name_all_that_is_past_the_specification(_sgt):
    """The list of DECISIONS.md has each word of the grammar, reply, command and error that the specification does not have."""
    listed = text_of("docs/DECISIONS.md").split("past, its specification")[1]
    rules = "\n".join("\n".join(block) for block in blocks_of("docs/FORMATS.md", "ebnf")).split("operation =")[0]
    words = set(re.findall(r'\["(\w+)"', rules))
    words |= {word for group in re.findall(r"'\[\"' , \(([^)]*)\)", rules) for word in re.findall(r"\w+", group)}
    replies = "\n".join(rules.split("reply     =")[1].split(";\n")[:4])
    replies = {word.strip() for word in re.findall(r"'([^']+)'", replies) if word.strip()}
    faults = (CRATES / "sgt_input/src/fault.rt").read_text(encoding="utf-8").split("fn words")[1]
    errors = {re.sub("^line 1: ", "", text).strip() for text in re.findall(r'=> "([^"]+)"', faults.split("}\n    }")[0])}
    commands = set(re.findall(r"^  (\w+)  +[A-Z]", (TESTS / "expected" / "help.txt").read_text(), re.MULTILINE))
    past = {
        *(f"`{word}`" for word in words - SPECIFIED),
        *(f"`{word}`" for word in replies - SPECIFIED_REPLIES),
        *(f"`{word}`" for word in errors - SPECIFIED_ERRORS),
        *(f"`sgt {word}`" for word in commands - SPECIFIED_COMMANDS),
    }
    fail_if([f"DECISIONS.md does not list {word}" for word in sorted(past) if word not in listed])
    return f"{len(past)} words"


def have_the_five_procedures(sgt):
    """The texts of the page run as the program's own: the same calls give the same replies."""
    texts = "\n".join(blocks_of("docs/FORMATS.md", "json")[0]).split("\n\n")
    procedures = [json.loads(text) for text in texts]
    same("how many procedures there are", 5, len(procedures))
    opening = {"limits": [8, 1000], "accounts": [[1, 101, 500, 1000], [2, 102, 30, -20]], "procedures": procedures}
    calls = [(0, [1]), (0, [9]), (1, [1, 50]), (1, [1, -5]), (2, [1, -501]), (2, [2, 40]), (3, [1, 2]), (3, [1, 1]), (4, [2, 70]), (4, [2, 10**6])]

    def ran(first):
        jobs = [json.dumps(["job", first + number, args]) for number, args in calls]
        words = [sgt, "bank", "--workers", "1"]
        return subprocess.run(words, input="\n".join([json.dumps(opening), *jobs]).encode(), capture_output=True, timeout=SECONDS, check=False).stdout

    same("what the procedures of the page do", ran(0).decode(), ran(5).decode())


def have_the_procedures_of_the_cookbook(_sgt):
    """Each procedure of the page is the one of its jobs, in their order."""
    opening = json.loads((EXAMPLES / "cookbook" / "jobs.jsonl").read_text().split("\n", 1)[0])
    shown = [json.loads("\n".join(lines)) for lines in blocks_of("examples/cookbook/README.md", "json")]
    same("the procedures", opening["procedures"], shown)
    return f"{len(shown)} procedures"


def have_recipes_that_can_be_pasted(sgt):
    """`examples/cookbook/opening` joins recipes, by their headings and out of files, to a line that the program accepts."""
    page, make = text_of("examples/cookbook/README.md"), EXAMPLES / "cookbook" / "opening"
    headings = [part.split("\n", 1)[0] for part in page.split("\n## ")[1:] if "```json" in part]
    wanted = [json.loads("\n".join(lines)) for lines in blocks_of("examples/cookbook/README.md", "json")]
    with tempfile.TemporaryDirectory() as folder:
        pasted = os.path.join(folder, "mine.json")
        with open(pasted, "w", encoding="utf-8") as file:
            file.write("\n".join(blocks_of("examples/cookbook/README.md", "json")[0]) + "\n")
        made = subprocess.run([make, *headings, pasted], capture_output=True, text=True, check=True).stdout
        same("the procedures", [*wanted, wanted[0]], json.loads(made)["procedures"])
        same("the lines", 1, made.count("\n"))
        same("a run", "0 committed 1\n7/9 1\n", answered(sgt, made + '["job",9,[9]]\n'))
        for name, why in (("nothing", "is no recipe and no file"), (os.path.join(folder, "mine"), "is no recipe"), (str(make), "is no JSON")):
            ran = subprocess.run([make, name], capture_output=True, text=True, check=False)
            same(f"what is said of {name}", (2, "", True), (ran.returncode, ran.stdout, why in ran.stderr and ran.stderr.count("\n") == 1))
    parts = [json.loads(it) for it in re.findall(r"^- `(\[.*\])`$", page, re.M)]
    opening = {"limits": [1, 9], "accounts": [], "procedures": [[4, [["answer", it] for it in parts]]]}
    same("a number that is taken apart", "0 committed 21 1234\n", answered(sgt, json.dumps(opening) + '\n["job",5,[0,0,0,21000001234]]\n'))
    return f"{len(wanted)} recipes"


def answered(sgt, text):
    """What a bank of this input writes."""
    return subprocess.run([sgt, "bank", "--workers", "1"], input=text, capture_output=True, text=True, timeout=SECONDS, check=True).stdout


def have_the_positions_that_the_program_gives(sgt):
    rows = [line for _, line in parts_of("docs/FORMATS.md")[0] if re.match(r"^\| `(\[|\d)[^`]*` \| `(top|[\d ]+)` \|", line)]
    for row in rows:
        tree, position = re.findall(r"`([^`]*)`", row)[:2]
        same(tree, f"line 1: procedure 5 shape {position}", accepted(sgt, [OPENING[:-2] + tree + "]}"]))
    return f"{len(rows)} trees"


def main(path):
    cases = [
        are_short,
        have_short_lines,
        have_links_that_lead_somewhere,
        name_files_that_exist,
        name_code_that_exists,
        name_each_crate,
        draw_the_crates_in_order,
        have_the_lists_that_a_script_makes,
        name_the_files_to_trust,
        name_clauses_that_exist,
        claim_of_statuses_what_each_contract_says,
        have_the_headline_word_for_word,
        name_each_test_and_tool,
        have_the_limits_of_the_sources,
        compare_the_same_databases_throughout,
        run_as_they_say,
        name_commands_that_exist,
        have_a_grammar_of_the_examples,
        have_a_grammar_that_refuses_bad_lines,
        have_a_grammar_that_the_program_accepts,
        have_the_order_of_refusals,
        name_all_that_is_past_the_specification,
        have_the_five_procedures,
        have_the_procedures_of_the_cookbook,
        have_recipes_that_can_be_pasted,
    have_the_positions_that_the_program_gives,
    ]
    return run_cases(cases, os.path.abspath(path), of="pages")


if __name__ == "__main__":
    if len(sys.argv) != 2:
        sys.exit("usage: tests/pages.py SGT")
    sys.exit(main(sys.argv[1]))
