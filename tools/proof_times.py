#!/usr/bin/env python3
"""Says for which functions of a crate the prover takes longest.

    tools/proof_times.py CRATE [COUNT]

It proves the crate from nothing, by one process, as `rt check --jobs 1` does, and prints the COUNT (20) dearest functions: the seconds
of each, and of these the seconds of its steps, of the proof that they keep its contract, and of the rest. The first line has the
seconds of all, and of what is no function's. What earlier checks of the crate have kept is dropped; the crates below are built first.

The prover keeps a module for each part of a function's proof. How long one took is the time since the one before it was kept, so what
else runs on the machine adds to it, and a module has in it the loading of the libraries that it is the first to use.
"""

import argparse
import shutil
import subprocess
import sys
from collections import Counter
from pathlib import Path

CRATES = Path(__file__).resolve().parent.parent / "crates"
STEPS, PROOF = {"Lts"}, {"Proof", "Answers", "Goals", "Invariants"}
OTHERS = {"Carried", "Code", "Given", "Kinds", "Layout", "Met", "Named", "Reads", "Statement", "Symbol", "TheLink", "Tie"}


def kept_modules(folder):
    """The modules that the prover keeps there, in the order in which it kept them, each after the time, in seconds, at which it did."""
    return sorted((it.stat().st_mtime, it.name) for it in folder.rglob("*.oantt"))


def function_and_part(crate, module):
    """The function that a module is of, or "", and whether it has its steps, its proof or the rest."""
    head, *words = module.split(".")
    for place, word in enumerate(words):
        part = word.partition("-")[0]
        if place and head == f"Rattle-{crate}-proofs" and part in STEPS | PROOF | OTHERS:
            return ".".join(words[:place]), "steps" if part in STEPS else "proof" if part in PROOF else "rest"
    return "", "rest"


def main(words):
    parser = argparse.ArgumentParser(description="Says for which functions of a crate the prover takes longest.")
    parser.add_argument("crate", choices=sorted(it.name for it in CRATES.iterdir()), metavar="CRATE")
    parser.add_argument("count", nargs="?", type=int, default=20, metavar="COUNT", help="how many functions are printed")
    given = parser.parse_args(words)
    folder = CRATES / given.crate
    kept = folder / "out" / "incremental"
    shutil.rmtree(kept, ignore_errors=True)
    status = subprocess.run(["rt", "check", "--jobs", "1"], cwd=folder, check=False).returncode
    seconds, modules = Counter(), kept_modules(kept)
    for (before, _), (now, module) in zip(modules, modules[1:]):
        seconds[function_and_part(given.crate, module)] += now - before
    whole = Counter()
    for (function, _), took in seconds.items():
        whole[function] += took
    print(f"{sum(whole.values()):.0f} s, of which {whole.pop('', 0):.0f} are of no function\n\nseconds  steps  proof   rest  function")
    for function, took in whole.most_common(given.count):
        parts = "  ".join(f"{seconds[function, part]:5.1f}" for part in ("steps", "proof", "rest"))
        print(f"{took:7.1f}  {parts}  {function}")
    return status


if __name__ == "__main__":
    sys.exit(main(sys.argv[1:]))
