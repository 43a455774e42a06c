#!/usr/bin/env python3
"""Lists the lines of proofs that are longer than 140 characters.

Run it anywhere in the repository: tools/long_lines.py [CRATE..]. It reads crates/*/proofs alone. Each line of its answer is a file, a
line and how many characters it has; the last line counts them. It ends with status 1 where there are any. Imports do not
count: a `use` is one line.
"""
import sys
from pathlib import Path

ROOT = Path(__file__).resolve().parent.parent
MOST = 140


def main():
    crates = sys.argv[1:]
    count = 0
    for path in sorted(ROOT.glob("crates/*/proofs/**/*.antt")):
        where = path.relative_to(ROOT)
        if crates and where.parts[1] not in crates:
            continue
        for number, line in enumerate(path.read_text(encoding="utf-8").split("\n"), 1):
            if len(line) > MOST and not line.startswith(("use ", "pub use ")):
                print(f"{where}:{number}: {len(line)}")
                count += 1
    print(f"{count} lines of more than {MOST} characters")
    sys.exit(1 if count else 0)


if __name__ == "__main__":
    main()
