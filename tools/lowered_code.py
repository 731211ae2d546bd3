#!/usr/bin/env python3
"""Counts what the prover has to read: the functions of the libraries and the statements that their code is lowered to.

    tools/lowered_code.py [--largest N] [CRATE ..]

It reads the libraries that tools/build.py left in out/libraries. What the prover makes of a function's borrows is some 144 kB, and 48 kB
for each statement; the last column is that sum. --largest lists the functions with the most statements.
"""
import argparse
import json
import sys
from pathlib import Path

sys.dont_write_bytecode = True
from build import TOP, libraries_of

MB_OF_A_FUNCTION, MB_OF_A_STATEMENT = 0.144, 0.048


def functions_of(library):
    """The functions of a library that have code, each with its number of statements."""
    lowered = json.loads((library / "toolchain/mir.json").read_text("utf-8"))
    return {name: sum(isinstance(it, dict) for it in function["body"]) for name, function in lowered if "body" in function}


def tell(name, counts):
    """Prints how many functions and statements there are, and what the prover makes of them."""
    made = len(counts) * MB_OF_A_FUNCTION + sum(counts) * MB_OF_A_STATEMENT
    print(f"{name:<16} {len(counts):>5} functions {sum(counts):>6} statements {made:>6.0f} MB")


def main():
    asked = argparse.ArgumentParser(description="Counts the functions and statements of the libraries, which the prover has to read.")
    asked.add_argument("--largest", type=int, default=0, metavar="N", help="list the N largest functions")
    asked.add_argument("wanted", nargs="*", metavar="CRATE", help="only these libraries")
    words = asked.parse_args()
    found = {it.stem: functions_of(it) for it in sorted(libraries_of(TOP).glob("*.rlib")) if not words.wanted or it.stem in words.wanted}
    if not found:
        sys.exit("no library in out/libraries: make build first")
    for name, functions in found.items():
        tell(name, functions.values())
    every = {name: count for functions in found.values() for name, count in functions.items()}
    tell("all", every.values())
    for name in sorted(every, key=lambda it: -every[it])[: words.largest]:
        print(f"{every[name]:>5} {name}")


if __name__ == "__main__":
    main()
