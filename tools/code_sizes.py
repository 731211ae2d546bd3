#!/usr/bin/env python3
"""Finds functions whose bodies have 40 lines or more between their braces, files of code, definitions or proofs of 800
lines or more, and tests in crates that aren't of tests alone (decision 3 in docs/DECISIONS.md).

    tools/code_sizes.py

The last line is `N passed, M failed`: files.
"""
import re
import sys
from pathlib import Path

sys.dont_write_bytecode = True
from function_bodies import blanked, bodies_of_file
from verdict import say

TOP = Path(__file__).resolve().parent.parent
MOST_IN_BODY, MOST_IN_FILE = 39, 799
TEST = re.compile(r"^\s*#\[(?:test|cfg\(test\))\]", re.M)


def long_functions(file, text):
    """Each function of a file whose body is too long, with the lines of that."""
    crate = file.relative_to(TOP).parts[1]
    path = file.relative_to(TOP / "crates" / crate).as_posix()
    for start, end, name in bodies_of_file(crate, path, blanked(text)):
        lines = text.count("\n", start, end) - 1
        if lines > MOST_IN_BODY:
            yield f"the body of {name} has {lines} lines, and at most {MOST_IN_BODY} are right"


def faults_of(file):
    text = file.read_text("utf-8")
    if file.suffix == ".rt":
        yield from long_functions(file, text)
        if TEST.search(text) and not file.relative_to(TOP).parts[1].startswith("worked_"):
            yield "has tests, which belong into a crate of tests"
    lines = text.count("\n")
    if lines > MOST_IN_FILE:
        yield f"has {lines} lines, and at most {MOST_IN_FILE} are right"


def main():
    files = sorted(it for part in ("src", "specs", "proofs") for it in TOP.glob(f"crates/*/{part}/**/*") if it.suffix in (".rt", ".antt"))
    wrong = {file: found for file in files for found in [list(faults_of(file))] if found}
    for file, found in wrong.items():
        print(f"{file.relative_to(TOP)}: {'; '.join(found)}")
    return say(len(files) - len(wrong), len(wrong))


if __name__ == "__main__":
    sys.exit(main())
