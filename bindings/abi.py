#!/usr/bin/env python3
"""Writes what a program that was built with the headers relies on: where fields of structs are, numbers, and calls.

    bindings/abi.py > bindings/abi.txt

`abi.txt` is that of this version's major and minor number, which are in its first line and in the name of the shared
library. A library of a higher patch number serves the programs of a lower one. So if the minor number is the same,
calls and numbers may be added, and nothing else may change. `tests/bindings.py` compares. It takes a C compiler: CC, or
cc.
"""
from __future__ import annotations

import os
import pathlib
import re
import subprocess
import sys
import tempfile

HERE = pathlib.Path(__file__).resolve().parent
HEADERS = (HERE / "sgt.h", HERE / "c" / "sgt_shared.h")

PROGRAM = """#include <stdio.h>
#include "sgt_shared.h"
#define FIELD(type, name) printf(" %%s %%zu %%zu,", #name, offsetof(type, name), sizeof ((type *)0)->name)
int main(void)
{
%s    return 0;
}
"""


def text_of_headers() -> str:
    """The text of the headers, without comments."""
    return re.sub(r"/\*.*?\*/", "", "".join(header.read_text("utf-8") for header in HEADERS), flags=re.S)


def version_in(text: str) -> str:
    """The major and the minor number."""
    numbers = dict(re.findall(r"^#define SGT_VERSION_(MAJOR|MINOR) (\d+)$", text, re.M))
    return f"{numbers['MAJOR']}.{numbers['MINOR']}"


def structs_in(text: str) -> dict[str, list[str]]:
    """The fields of each struct."""
    found = re.findall(r"^typedef struct (\w+) \{(.*?)^\} \1;$", text, re.M | re.S)
    return {name: [field_in(field.strip()) for field in body.split(";")[:-1]] for name, body in found}


def field_in(declaration: str) -> str:
    """The name that a declaration gives: of a value, a list or a function."""
    return re.sub(r"\[\d+\]$|\)\(.*\)$", "", declaration).split()[-1].lstrip("(*")


def numbers_in(text: str) -> list[str]:
    """The names of the numbers: those of enums, and the macros that are no version."""
    enums = re.findall(r"^enum \w+ \{(.*?)\};$", text, re.M | re.S)
    macros = re.findall(r"^#define (SGT_\w+) (?:-?\d+|U?INT64_(?:C\(.*\)|MAX))$", text, re.M)
    names = [name for body in enums for name in re.findall(r"(SGT_\w+) =", body)]
    return names + [name for name in macros if not name.startswith("SGT_VERSION")]


def calls_in(text: str) -> list[str]:
    """The types of each call, and of each function that a caller passes, without the names of parameters."""
    found = re.findall(r"^(?:typedef )?(?:uint32_t|void|const char \*) ?(?:\(\*)?sgt_\w+\)?\([^;]*\);$", text, re.M)
    parameter = re.compile(r"(\w |\*)\w+(\[\d+\])?(?=[,)](?!\())")  # after a type, which ends with a word or a star
    return [parameter.sub(lambda it: it[1].rstrip() + (it[2] or ""), " ".join(call.split())) for call in found]


def printed(text: str) -> str:
    """What a C program prints of structs and numbers."""
    lines = []
    for name, fields in structs_in(text).items():
        lines.append(f'    printf("struct {name} %zu:", sizeof({name}));')
        lines += [*(f"    FIELD({name}, {field});" for field in fields), '    puts("");']
    lines += [f'    printf("number {name} %lld\\n", (long long){name});' for name in numbers_in(text)]
    with tempfile.TemporaryDirectory() as folder:
        source, program = pathlib.Path(folder) / "abi.c", pathlib.Path(folder) / "abi"
        source.write_text(PROGRAM % "".join(f"{line}\n" for line in lines))
        compiler = [os.environ.get("CC", "cc"), "-std=c11", f"-I{HERE}", f"-I{HERE / 'c'}"]
        subprocess.run([*compiler, "-o", str(program), str(source)], check=True)
        return subprocess.run([str(program)], check=True, capture_output=True, text=True).stdout.replace(",\n", "\n")


def made() -> str:
    """The whole text."""
    text = text_of_headers()
    return f"version {version_in(text)}\n{printed(text)}" + "".join(f"call {call}\n" for call in calls_in(text))


if __name__ == "__main__":
    if len(sys.argv) != 1:
        sys.exit(__doc__)
    sys.stdout.write(made())
