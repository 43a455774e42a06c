#!/usr/bin/env python3
"""Writes the crate of the functions that the library for C exports: each calls the proved function of its name in crates/sgt_c.

    bindings/exports.py SOURCES FILE        SOURCES: crates/sgt_c/src; FILE: src/lib.rt of the crate that is written, or src/main.rt

A program, main.rt, has a `main` that mentions each of them, so that all are compiled. It is never run.

The calls of sgt.h are defined by c/sgt_checked.c, which tests pointers first, so `proved_` stands before their names here. A function
passes on what it is given, in its order, and returns what it gets. So no contract is needed here: those of crates/sgt_c hold.
"""
from __future__ import annotations

import pathlib
import re
import sys
from typing import NamedTuple

HEAD = """//! The functions of the library for C, written by bindings/exports.py: each calls that of its name in `sgt_c`.
#![tactic(auto)]

use sgt_c::{%s};
use std::alloc::Global;
"""

EXPORT = """
/// Calls `%(name)s` of `sgt_c`.
#[unsafe(no_mangle)]
pub extern "C" fn %(export)s(%(parameters)s)%(result)s {
    sgt_c::%(name)s(%(arguments)s)%(end)s
}
"""


MENTION = """
fn any<T>() -> T {
    loop {}
}

fn main() {
%s}
"""


class Function(NamedTuple):
    """A public function of sgt_c."""

    name: str
    # Each is a name and a type.
    parameters: list[tuple[str, str]]
    # Empty, or an arrow and the type of the result.
    result: str

    def export(self) -> str:
        """The name under which C calls it."""
        return self.name if self.name.startswith("sgt_desk_") else f"proved_{self.name}"


def functions_in(text: str) -> list[Function]:
    """The public functions sgt_* of a file, in its order."""
    found = re.finditer(r"^pub fn (sgt_\w+)\((.*?)\)( -> \w+)?$", text, re.M | re.S)
    return [Function(it[1], re.findall(r"(\w+): ([^,]+)", it[2]), it[3] or "") for it in found]


def text_of(functions: list[Function]) -> str:
    """The text of the crate."""
    types = {word for it in functions for _, kind in it.parameters for word in re.findall(r"\b[A-Z]\w*", kind)}
    text = HEAD % ", ".join(sorted(types - {"Global"}))
    for it in functions:
        text += EXPORT % {
            "name": it.name,
            "export": it.export(),
            "parameters": ", ".join(f"{name}: {kind}" for name, kind in it.parameters),
            "arguments": ", ".join(name for name, _ in it.parameters),
            "result": it.result,
            "end": "" if it.result else ";",
        }
    return text


def main_of(functions: list[Function]) -> str:
    """A program's `main` that mentions each function."""
    lines = ""
    for it in functions:
        lines += f"    {'let _ = ' if it.result else ''}{it.export()}({', '.join('any()' for _ in it.parameters)});\n"
    return MENTION % lines


def main() -> None:
    """Writes the file. Each function that lib.rt makes public has to be found, and no other."""
    if len(sys.argv) != 3:
        sys.exit(__doc__)
    sources, file = map(pathlib.Path, sys.argv[1:])
    functions = [it for source in sorted(sources.rglob("*.rt")) for it in functions_in(source.read_text("utf-8"))]
    uses = re.findall(r"^pub use [\w:]+::(\w+|\{[^}]*\});$", (sources / "lib.rt").read_text("utf-8"), re.M)
    public = re.findall(r"\bsgt_\w+", " ".join(uses))
    if sorted(it.name for it in functions) != sorted(public):
        sys.exit(f"{sys.argv[0]}: the functions that are found are not those that {sources}/lib.rt makes public")
    file.parent.mkdir(parents=True, exist_ok=True)
    file.write_text(text_of(functions) + (main_of(functions) if file.name == "main.rt" else ""), "utf-8")


if __name__ == "__main__":
    main()
