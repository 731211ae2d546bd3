#!/usr/bin/env python3
"""Runs `make check` in a copy of the repository, as somebody who has just cloned it, and in a small repository of which a
crate can't be proved; looks at what `make try` runs; and sees that the gate (`make test`) ends once its time is up.

    check_make.py [COPY]

What `make try` runs is run by tools/differing_rows.py, together with its own rows, since each run of the interpreter
reads all crates first.

The last line is `N passed, M failed`.
"""
import importlib.machinery
import importlib.util
import shutil
import subprocess
import sys
import tempfile
import time
from pathlib import Path

sys.dont_write_bytecode = True
from faults_of_check import Faults, is_early_cause
from verdict import say

TOP = Path(__file__).resolve().parent.parent
# The files of demo/ that `make try` searches, its words for the program, what that prints, and the last line of all.
TRIED_FILES = ("mairixrc", "m.mbox", "lists.mbox", "work.mbox")
TRIED_WORDS = ("-f", "mairixrc", "--once", "-r", "s:lunch")
FOUND = "0 270 work.mbox\n270 316 work.mbox\n"
UNPROVED = "not proved yet: make run proves it\n"
# A small repository. The first crate's `one` isn't as its contract says, and two functions rest on it, one of them in another crate.
HEAD = "//! Functions that return one.\n#![tactic(auto)]\n"
USE = "ghost use Rattle.std.specs.Prelude.{◌≡◌};\n\n"
FUNCTION = "pub fn {}() -> u64\n    ensures {{ result ≡ 1 }}\n{{\n    {}\n}}\n"
SMALL = {
    "crates.txt": "low:\nhigh: low\n",
    "crates/low/src/lib.rt": HEAD + USE + FUNCTION.format("one", "2") + "\n" + FUNCTION.format("same", "one()"),
    "crates/low/must-fail/wrong.edit": "file: src/lib.rt\nold: one()\nnew: one() + 1\n# refused by: returns\n",
    "crates/high/src/lib.rt": HEAD + USE + "use low::one;\n\n" + FUNCTION.format("again", "one()"),
}
# What a check says of a definition that can't be read, a lemma that is wrong, and what rests on them.
SAID = """so far: 0 of 62 functions checked; the verdict comes last
so far: ./specs/Words.antt:22:14: error: `word_limit`: `limit_of` is not in scope
so far: ./specs/Words.antt:58:18: error: 1 declaration that depends on `word_limit`, which was rejected, was not checked: is_word
./specs/Words.antt:22:14: error: `word_limit`: `limit_of` is not in scope
./proofs/Lengths.antt:11:1: error: 5 declarations that depend on `is_word`, which was not admitted, were not checked: short
./proofs/ascii/is_joiner/Answers.antt:8:87: error: `returns`: the two types differ
  expected type `0 ≡ 1`
enum words::Flag: proved
fn words::ascii::is_joiner: not proved
fn words::after_gap: not proved
fn words::next: no proof: it calls `words::ascii::is_joiner`, which is not proved
fn words::fold: no proof: its contract rests on `is_word`, which antt did not admit: help: fix that first
statements std: modules loaded=224 checked=0
crate words: modules loaded=91 checked=1901
logic=not-proved
rattle build: nothing was built, since only a proved crate is built"""
REPORTED = """./specs/Words.antt:22:14: error: `word_limit`: `limit_of` is not in scope
./proofs/ascii/is_joiner/Answers.antt:8:87: error: `returns`: the two types differ
  expected type `0 ≡ 1`
fn words::ascii::is_joiner: not proved
5 more lines name what only rests on these, and are left out.
Look at it alone: tools/check_crate.py words --only ascii::is_joiner"""


def make(copy, *words):
    """The status of a run of make, and what it prints."""
    how = {"stdin": subprocess.DEVNULL, "stdout": subprocess.PIPE, "stderr": subprocess.STDOUT, "text": True, "errors": "replace", "timeout": 1200}
    run = subprocess.run(["make", "--no-print-directory", "-C", copy, *words], **how)
    return run.returncode, run.stdout


def tries(copy):
    """Whether `make try` runs the kit's interpreter with its words, in the program's folder; and what it prints."""
    data = [word for name in TRIED_FILES for word in ("--data", f"{name}=../../demo/{name}")]
    wanted = " ".join(["try", *data, "--", *TRIED_WORDS])
    with tempfile.TemporaryDirectory(prefix="make-") as room:
        stub = Path(room) / "rt"
        stub.write_text('#!/bin/sh\necho "$PWD: $*"\n')
        stub.chmod(0o755)
        status, printed = make(copy, "try", f"RT={stub}")
    folder = (Path(copy) / "crates/mairix").resolve()
    return status == 0 and printed == f"{folder}: {wanted}\n{UNPROVED}", printed


def reports_causes_first():
    """Whether the causes alone are reported, whole and once, and the first of them at once."""
    reported = "\n".join(Faults(SAID.split("\n")).report("words"))
    early = [it for it in SAID.split("\n") if is_early_cause(it)]
    return reported == REPORTED and len(early) == 1, reported


def checks_of_a_wrong_crate():
    """Each check in a repository whose lowest crate can't be proved, whether it is well, and what it printed."""
    with tempfile.TemporaryDirectory(prefix="make-") as room:
        for path, text in SMALL.items():
            (Path(room) / path).parent.mkdir(parents=True, exist_ok=True)
            (Path(room) / path).write_text(text, "utf-8")
        shutil.copy(TOP / "Makefile", room)
        shutil.copytree(TOP / "tools", Path(room) / "tools")
        status, printed = make(room, "check", "CRATE=low", "JOBS=1")
        lines = printed.splitlines()
        is_whole = any(it.startswith("fn low::one: no proof") for it in lines) and "Look at it alone: tools/check_crate.py low --only one" in lines
        ends_there = "high" not in printed and "low::same" not in printed and "edits" not in printed
        yield "a crate that can't be proved", status != 0 and is_whole and ends_there and lines[-2:-1] == ["0 passed, 1 failed"], printed
        file = Path(room) / "crates/low/src/lib.rt"
        file.write_text(file.read_text("utf-8").replace("    2\n", "    1\n"), "utf-8")
        status, printed = make(room, "check", "CRATE=low", "ONLY=one", "JOBS=1")
        yield "one function", status == 0 and printed.endswith("only=1 proved=1\n"), printed


def gate_ends():
    """Whether the gate ends what runs once its time is up, takes what had ended, and names what hadn't."""
    loader = importlib.machinery.SourceFileLoader("gate", str(TOP / "tools/gate"))
    tool = importlib.util.module_from_spec(importlib.util.spec_from_loader("gate", loader))
    loader.exec_module(tool)
    gate = tool.Gate()
    beside = tool.Beside(gate)
    for name, words in (("short", ["echo", "1 passed, 0 failed"]), ("long", ["sleep", "600"]), ("late", ["sleep", "600"])):
        beside.begin(name, words)
    started, unfinished = time.monotonic(), []
    gate.end_after(1 / 30)
    try:
        gate.run(["sleep", "600"])
    except tool.TimeIsUp:
        unfinished = beside.take_whole()
        beside.pool.shutdown()
    took = time.monotonic() - started
    return unfinished == ["long", "late"] and gate.passed == 1 and took < 60, f"{unfinished} after {took:.0f} s"


def main(copy):
    tried, printed = tries(copy)
    checks = [("make try", tried, printed), ("errors", *reports_causes_first()), ("the end of the gate", *gate_ends()), *checks_of_a_wrong_crate()]
    # A crate without code is proved at once: what is looked at is that the target works, and proves nothing the second time.
    for name, proved in (("make check", None), ("a second make check", 0)):
        status, printed = make(copy, "check", "CRATE=contract_words", "ALONE=1", "JOBS=1")
        is_well = status == 0 and printed.endswith("1 passed, 0 failed\n") and proved in (None, printed.count(" of 1: contract_words"))
        checks.append((name, is_well, printed))
    for name, is_well, printed in checks:
        if not is_well:
            print(f"check_make: {name}: printed {printed[-2000:]!r}")
    passed = sum(is_well for _, is_well, _ in checks)
    return say(passed, len(checks) - passed)


if __name__ == "__main__":
    sys.exit(main(sys.argv[1] if len(sys.argv) == 2 else TOP))
