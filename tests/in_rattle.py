#!/usr/bin/env python3
"""Compiles the tests in Rattle with a sanitizer of addresses, and runs them.

    tests/in_rattle.py

They are not proved, as nothing rests on them. `rt ci` proves each .rt file of a repository, so theirs end in .rt.in: they are a crate in a
folder that is made for the run, beside a copy of the crates without their proofs. The last line counts them.
"""

import os
import re
import shutil
import subprocess
import sys
import tempfile
from pathlib import Path

HERE = Path(__file__).resolve().parent
TOP = HERE.parent
# The crates that the tests use: of this repository, and of the kit.
USES = (
    "sgt_model sgt_log sgt_proc sgt_proc_json sgt_smallbank sgt_cycle sgt_graph sgt_access sgt_records sgt_cascade sgt_sched sgt_engine"
    " sgt_session sgt_dispatch sgt_audit sgt_format sgt_input sgt_assembly json serde_json"
)
# How long the tests may run: only what has no end runs that long.
SECONDS = "600"
ENDED = re.compile(r"test (\S+) \.\.\. (.*)")


def make_crates(room: Path) -> Path:
    """Puts the crates into a folder, with that of the tests, which is returned."""
    for crate in (TOP / "crates").iterdir():
        for part in ("src", "specs"):
            if (crate / part).is_dir():
                shutil.copytree(crate / part, room / "crates" / crate.name / part)
    listed = (TOP / "crates.txt").read_text(encoding="utf-8")
    (room / "crates.txt").write_text(f"{listed}sgt_tests: {USES}\n", encoding="utf-8")
    tests = room / "crates" / "sgt_tests"
    for file in (HERE / "in_rattle").rglob("*.rt.in"):
        to = tests / "src" / file.relative_to(HERE / "in_rattle").with_suffix("")
        to.parent.mkdir(parents=True, exist_ok=True)
        shutil.copyfile(file, to)
    return tests


def main() -> int:
    with tempfile.TemporaryDirectory() as room:
        words, env = ["rt", "try", "--test"], {**os.environ, "RT_SECONDS": SECONDS}
        ran = subprocess.run(words, cwd=make_crates(Path(room)), env=env, stdout=subprocess.PIPE, stderr=subprocess.STDOUT, text=True, check=False)
    ended = dict(found.groups() for found in map(ENDED.match, ran.stdout.splitlines()) if found)
    failed = [name for name, how in ended.items() if how != "ok"]
    if failed or ran.returncode or not ended:
        print(ran.stdout, end="")
        failed = failed or ["the run"]
    for name in ended:
        print(f"{'FAILED: ' * (name in failed)}in_rattle {name.replace('_', ' ')}")
    print(f"{list(ended.values()).count('ok')} passed, {len(failed)} failed")
    return 1 if failed else 0


if __name__ == "__main__":
    sys.exit(main())
