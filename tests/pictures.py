#!/usr/bin/env python3
"""Compares the pictures that `sgt check --timeline` draws: each example's to the byte, and drawn histories' with the book's definitions.

    tests/pictures.py crates/sgt/out/sgt
    tests/pictures.py crates/sgt/out/sgt write      # draws the pictures of the examples anew

An XML reader says of each picture whether it is well formed. Its marks, its arrows and what is red are compared with what the
operations and the report say, and the boxes with each other and with the size of the picture.
"""

import random
import re
import resource
import sys
import xml.etree.ElementTree as ElementTree

sys.dont_write_bytecode = True
from helpers.cases import TESTS, Differs, same, run_cases  # noqa: E402
from helpers.textbook import unjudged  # noqa: E402
from program import Program  # noqa: E402

HISTORIES = TESTS.parent / "examples" / "histories"
SVG = "{http://www.w3.org/2000/svg}"

# The most operations that are drawn, with --all.
MOST = 400

# The kinds of marks and of lines, as the legend lists them.
KINDS = ["read", "write", "commit", "abort", "reads", "undone", "cycle", "violation"]


def spelled(text):
    """The operations of a history: letter, transaction and item."""
    words = " ".join(line.split("#")[0] for line in text.splitlines()).split()
    return [re.fullmatch(r"([rwca])(\d+)(?:\[(.*)\])?", word).groups() for word in words]


def word(operation):
    kind, transaction, item = operation
    return f"{kind}{transaction}" + (f"[{item}]" if item else "")


class Mark:
    """A mark of a picture: the place of its operation, from 1, its words and where its box is."""

    def __init__(self, element):
        self.classes = element.get("class").split()
        self.title = element.find(SVG + "title").text
        self.place = int(element.find(SVG + "text[@class='place']").text)
        box = element.find(SVG + "rect")
        self.left, self.top, self.width, self.height = (int(box.get(name)) for name in ("x", "y", "width", "height"))
        self.right, self.bottom = self.left + self.width, self.top + self.height
        self.label = element.findall(SVG + "text")[-1].text


class Drawing:
    """A picture as its readers see it."""

    def __init__(self, text):
        root = ElementTree.fromstring(text)
        self.width, self.height = int(root.get("width")), int(root.get("height"))
        self.title, self.description = root.find(SVG + "title").text, root.find(SVG + "desc").text
        self.marks = [Mark(element) for element in root.findall(f"{SVG}g[{SVG}title]")]
        self.names = ["".join(element.itertext()) for element in root.findall(SVG + "text[@class='name']")]
        self.notes = [element.text or "" for element in root.findall(SVG + "text") if not element.get("class")]
        legend = root.find(f"{SVG}g[@transform]")
        self.legend = [element.get("class") for element in legend if element.get("class") != "words"]
        self.lines = {}
        for line in root.findall(SVG + "polyline"):
            points = [tuple(map(int, point.split(","))) for point in line.get("points").split()]
            self.lines.setdefault(line.get("class"), []).append(points)

    def ends(self, kind):
        """The places that the lines of this kind join, from the earlier to the later."""
        return [(self.at(points[0]), self.at(points[-1])) for points in self.lines.get(kind, [])]

    def at(self, point):
        """The place of the mark at whose box a line begins or ends."""
        x, y = point
        near = [m.place for m in self.marks if m.left <= x <= m.right and m.top - 4 <= y <= m.bottom + 4]
        same("marks at the end of a line", 1, len(near))
        return near[0]


def reads_from(operations):
    """For each read of another's write the places of both, from 1, and whether the writer aborts, by the book's definition."""
    found = []
    aborts = {t for kind, t, _ in operations if kind == "a"}
    for later, (kind, reader, item) in enumerate(operations):
        if kind != "r":
            continue
        gone = {t for kind, t, _ in operations[:later] if kind == "a"}
        writes = [i for i, (k, t, x) in enumerate(operations[:later]) if k == "w" and x == item and t not in gone]
        if writes and operations[writes[-1]][1] != reader:
            found.append((writes[-1] + 1, later + 1, operations[writes[-1]][1] in aborts))
    return found


def places(line):
    return [int(number) for number in re.findall(r"\((\d+)\)", line)]


def highlights(report, operations):
    """The two operations of each edge of the cycle of a report, and those of the first violation of each other class, each pair once."""
    lines = report.splitlines()
    cycle = []
    if lines[1].startswith("serializable no"):
        cycle = [tuple(places(edge)) for edge in lines[1].split(", ")]
    violations = set()
    for line in lines[2:]:
        if " no: " not in line:
            continue
        reported = places(line)
        if line.startswith("avoids cascading aborts"):
            violations |= {(write, read) for write, read, _ in reads_from(operations) if read == reported[0]}
        else:
            violations.add(tuple(sorted(reported[:2])))
    return cycle, sorted(violations)


def compare(operations, report, text):
    """A picture of a whole history with what the history and its report say."""
    drawing = Drawing(text)
    marks = drawing.marks
    same("marks", [(i + 1, word(operation)) for i, operation in enumerate(operations)], [(m.place, m.title) for m in marks])
    same("labels", [re.sub(r"\d+", "", word(o).split("[")[0]) + (f"[{o[2]}]" if o[2] else "") for o in operations], [m.label for m in marks])
    same("rows", list(dict.fromkeys("T" + t for _, t, _ in operations)), drawing.names)
    tops = {t: {m.top for m, o in zip(marks, operations) if o[1] == t} for _, t, _ in operations}
    same("tops of each transaction", {1}, {len(found) for found in tops.values()} or {1})
    same("transactions of one top", len(tops), len({top for found in tops.values() for top in found}))
    for mark, after in zip(marks, marks[1:]):
        if mark.right + 8 > after.left:
            raise Differs(f"the boxes of {mark.title} and {after.title} meet")
    for mark in marks:
        if mark.width < 8 * len(mark.label) or mark.right > drawing.width or mark.bottom > drawing.height:
            raise Differs(f"the box of {mark.title} is too small, or outside")
    reads = reads_from(operations)
    same("reads", sorted(r[:2] for r in reads if not r[2]), sorted(drawing.ends("reads")))
    same("reads of what is undone", sorted(r[:2] for r in reads if r[2]), sorted(drawing.ends("undone")))
    cycle, violations = highlights(report, operations)
    ends = {place for pair in cycle for place in pair}
    others = {place for pair in violations for place in pair} - ends
    for kind, pairs, marked in (("cycle", cycle, ends), ("violation", violations, others)):
        same(f"lines of the {kind}", sorted(pairs), sorted(drawing.ends(kind)))
        same(f"marks of the {kind}", sorted(marked), [m.place for m in marks if f"in-{kind}" in m.classes])
    crossings(drawing)
    kinds = {m.classes[0] for m in marks} | set(drawing.lines)
    same("the legend", [kind for kind in KINDS if kind in kinds], drawing.legend)
    same("the report", report.split(), drawing.description.split())
    same("the caption", report.split(), " ".join(drawing.notes).split())
    return drawing


def crossings(drawing):
    """No line crosses a box."""
    for lines in drawing.lines.values():
        for points in lines:
            for (x, y), (to_x, to_y) in zip(points, points[1:]):
                low_x, high_x, low_y, high_y = min(x, to_x), max(x, to_x), min(y, to_y), max(y, to_y)
                for m in drawing.marks:
                    if low_x < m.right and high_x > m.left and low_y < m.bottom and high_y > m.top:
                        raise Differs(f"a line crosses the box of {m.title} ({m.place})")


def drawn_history(dice, transactions, most, items, ends="ca"):
    active = [str(t) for t in range(1, transactions + 1)]
    operations = []
    while active and len(operations) < most:
        transaction = dice.choice(active)
        kind = dice.choice("rrrrwwwwww" + ends)
        if kind in "ca":
            active.remove(transaction)
        operations.append((kind, transaction, dice.choice(items) if kind in "rw" else None))
    return operations


def picture_of(sgt, operations, *words, status=None):
    given = " ".join(map(word, operations)) + "\n"
    ended, report, reported = sgt.run("check", given=given)
    drawn, text, reported_too = sgt.run("check", "--timeline", *words, given=given)
    same("status", status if status is not None else ended, drawn)
    same("standard error", unjudged(report), reported + reported_too)
    return report, text


def draws_each_example(sgt):
    for history in sorted(HISTORIES.glob("*.txt")):
        given = history.read_text()
        report = history.with_suffix(".out").read_text()
        status = 0 if "\nserializable yes" in report and "\nrecoverable yes\n" in report else 1
        picture = history.with_suffix(".timeline.svg").read_text()
        try:
            sgt.expect("check", "--timeline", given=given, status=status, out=picture)
            compare(spelled(given), report, picture)
        except Differs as why:
            raise Differs(f"{history.name}: {why}") from None


def draws_drawn_histories(sgt):
    dice = random.Random(59)
    cycles = violations = 0
    for _ in range(100):
        operations = drawn_history(dice, dice.randint(1, 8), dice.randint(1, 60), ["x", "y", "z", "2/101", "a-long_item.1"])
        report, text = picture_of(sgt, operations)
        try:
            compare(operations, report, text)
        except Differs as why:
            raise Differs(f"{' '.join(map(word, operations))}: {why}") from None
        cycles += 'class="cycle"' in text.split("</defs>")[1].split("translate")[0]
        violations += "in-violation" in text.split("</style>")[1]
    return f"{cycles} of 100 with a cycle, {violations} with a violation alone"


def draws_no_empty_history(sgt):
    for given in ("", "# nothing\n"):
        reported = sgt.run("check", "--timeline", given=given)
        same("status, output and error", (2, "", "no operations\na history has operations: r1[x], w1[x], c1 or a1\n"), reported)


def draws_the_widest(sgt):
    items = [letter * 64 for letter in "xW-"]
    dice = random.Random(1)
    operations = drawn_history(dice, 5, 40, items)
    operations += [("c", "4294967295", None)]
    report, text = picture_of(sgt, operations)
    drawing = Drawing(text)
    same("marks", [word(o) for o in operations], [m.title for m in drawing.marks])
    same("least left", True, min(m.left for m in drawing.marks) >= 12 + 8 * 11)
    same("the report", report.split(), drawing.description.split())


def draws_the_longest_whole(sgt):
    dice = random.Random(2)
    operations = drawn_history(dice, 30, MOST - 30, list("xyzuv"), ends="")
    operations += [(dice.choice("cca"), str(t), None) for t in range(1, 31)]
    before = time_of_programs()
    report, text = picture_of(sgt, operations, "--all")
    took = time_of_programs() - before
    compare(operations, report, text)
    if took > 2:
        raise Differs(f"a report and a picture of {MOST} operations took {took:.1f} s of processor time")
    return f"{1000 * took:.0f} ms, a report with it"


def time_of_programs():
    """Seconds of processor time that the programs took which have ended here. On a busy machine the clock tells more of other programs."""
    used = resource.getrusage(resource.RUSAGE_CHILDREN)
    return used.ru_utime + used.ru_stime


def draws_a_cycle_of_a_long_history(sgt):
    """The transactions of the cycle, among others that stay away from their items."""
    others = [o for t in range(10, 510) for o in (("r", str(t), "q"), ("c", str(t), None))]
    cycle = [("r", "1", "x"), ("r", "2", "y"), ("w", "2", "x"), ("w", "1", "y"), ("c", "1", None), ("c", "2", None)]
    operations = others[:600] + cycle[:3] + others[600:] + cycle[3:]
    report, text = picture_of(sgt, operations, status=1)
    drawing = Drawing(text)
    same("marks", list(map(word, cycle)), [m.title for m in drawing.marks])
    same("red lines", sorted(highlights(report, operations)[0]), sorted(drawing.ends("cycle")))
    same("left out", f"drawn: 6 of {len(operations)} operations: those of the transactions that stand out", drawing.notes[-1])


def draws_what_a_screen_has_room_for(sgt):
    """A history of over 60 operations: those of the transactions of the violations, and all with an option."""
    others = [o for t in range(10, 38) for o in (("r", str(t), "q"), ("c", str(t), None))]
    for first in ([("w", "1", "x"), ("r", "2", "x"), ("c", "2", None), ("a", "1", None)], [("r", "1", "x"), ("w", "2", "x"), ("c", "2", None), ("c", "1", None)]):
        for count, drawn in ((56, 60), (57, 4)):
            operations = first + (others + [("r", "99", "q")])[:count]
            report, text = picture_of(sgt, operations)
            drawing = Drawing(text)
            same(f"{count} others", list(map(word, operations[:drawn])), [m.title for m in drawing.marks])
            same("orange lines", highlights(report, operations)[1], sorted(drawing.ends("violation")))
            if drawn == 4:
                same("left out", "drawn: 4 of 61 operations: those of the transactions that stand out", drawing.notes[-1])
            compare(operations, *picture_of(sgt, operations, "--all"))


def draws_a_long_history_without_a_violation(sgt):
    operations = [o for t in range(1, 301) for o in (("w", str(t), "q"), ("c", str(t), None))]
    _, text = picture_of(sgt, operations, status=0)
    drawing = Drawing(text)
    same("marks", list(map(word, operations[:MOST])), [m.title for m in drawing.marks])
    same("left out", "drawn: 400 of 600 operations: the first ones", drawing.notes[-1])


def draws_what_stands_out_of_long_transactions(sgt):
    operations = [("r", "1", "x"), ("w", "2", "x")] + [("r", "1", "z")] * 500 + [("c", "2", None), ("w", "1", "x"), ("c", "1", None)]
    report, text = picture_of(sgt, operations, status=1)
    drawing = Drawing(text)
    same("marks", sorted({p for pairs in highlights(report, operations) for pair in pairs for p in pair}), [m.place for m in drawing.marks])
    same("left out", f"drawn: {len(drawing.marks)} of 505 operations: those that stand out", drawing.notes[-1])


def draws_a_long_report(sgt):
    """What does not fit below the picture is left out, and what was left out of the picture is said nevertheless."""
    items = [f"{number:02}" + "x" * 62 for number in range(80)]
    operations = [("r", str(t), items[t]) for t in range(80)]
    operations += [("w", str((t + 1) % 80), items[t]) for t in range(80)]
    operations += [("c", str(t), None) for t in range(80)] + [("r", "99", "q")] * 200
    report, text = picture_of(sgt, operations, status=1)
    drawing = Drawing(text)
    same("red lines", sorted(highlights(report, operations)[0]), sorted(drawing.ends("cycle")))
    same("lines", 42, len(drawing.notes))
    same("the last lines", ["..", "drawn: 240 of 440 operations: those of the transactions that stand out"], drawing.notes[-2:])


def refuses_what_is_no_history(sgt):
    sgt.expect("check", "--timeline", given="r1[<b>]\n", status=2, err="line 1: no operation: r1[<b>]\n")
    sgt.expect("check", "--timeline", given="c1 r1[x]\n", status=2, err="line 1: transaction 1 has ended\n")


def stands_beside_no_graph(sgt):
    status, text, reported = sgt.run("check", "--timeline", "--graph", given="")
    same("status", 2, status)
    same("standard output", "", text)
    same("told", True, "cannot be used with" in reported)


def needs_a_picture(sgt):
    for words in (["--all"], ["--graph", "--all"]):
        status, text, reported = sgt.run("check", *words, given="c1")
        same(f"{words}", (2, "", "error: the option '--all' needs '--timeline'"), (status, text, reported.splitlines()[0]))


def brings_nothing_along(sgt):
    """No script, and no font or image from elsewhere."""
    for picture in sorted(HISTORIES.glob("*.timeline.svg")):
        text = picture.read_text().replace('xmlns="http://www.w3.org/2000/svg"', "")
        for word_of in ("script", "href", "http", "@import", "@font-face", "<image", "<!ENTITY", "foreignObject"):
            same(f"{picture.name}: {word_of}", False, word_of in text)
        same("dark", True, "prefers-color-scheme:dark" in text)


CASES = [
    draws_each_example,
    draws_drawn_histories,
    draws_no_empty_history,
    draws_the_widest,
    draws_the_longest_whole,
    draws_a_cycle_of_a_long_history,
    draws_what_a_screen_has_room_for,
    draws_a_long_history_without_a_violation,
    draws_what_stands_out_of_long_transactions,
    draws_a_long_report,
    refuses_what_is_no_history,
    stands_beside_no_graph,
    needs_a_picture,
    brings_nothing_along,
]


def write_examples(sgt):
    for history in sorted(HISTORIES.glob("*.txt")):
        _, text, _ = sgt.run("check", "--timeline", given=history.read_text())
        history.with_suffix(".timeline.svg").write_text(text)


def main():
    sgt = Program(sys.argv[1])
    if sys.argv[2:] == ["write"]:
        write_examples(sgt)
        return 0
    return run_cases(CASES, sgt)


if __name__ == "__main__":
    sys.exit(main())
