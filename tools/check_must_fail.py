#!/usr/bin/env python3
"""Tries tools/must_fail.py itself, on a small crate of its own: it has to tell the edits that the prover refuses from
those that are harmless, don't compile, aren't there, or only take away a name that a proof has. The last line is `N
passed, M failed`."""
import re
import subprocess
import sys
import tempfile
from pathlib import Path

sys.dont_write_bytecode = True
from must_fail import Verdict
from verdict import say

TOOL = Path(__file__).resolve().parent / "must_fail.py"

SOURCE = """\
//! Numbers.
#![tactic(auto)]

ghost use Rattle.std.specs.Prelude.{◌≡◌, ◌≤◌, ◌<◌, ◌+◌, ◌⊎◌};

/// The largest number.
pub const MOST: u32 = 100;

/// The smallest number.
pub const LEAST: u32 = 1;

/// The larger of two numbers.
pub fn larger(a: u32, b: u32) -> u32
    ensures first { a ≤ result }
    ensures second { b ≤ result }
    ensures either { (result ≡ a) ⊎ (result ≡ b) }
{
    if b < a { a } else { b }
}

/// The smaller of two numbers.
pub fn smaller(a: u32, b: u32) -> u32
    ensures first { result ≤ a }
    ensures second { result ≤ b }
    ensures either { (result ≡ a) ⊎ (result ≡ b) }
{
    if a < b { a } else { b }
}

/// The largest of three numbers.
pub fn largest(a: u32, b: u32, c: u32) -> u32
    ensures first { a ≤ result }
    ensures second { b ≤ result }
    ensures third { c ≤ result }
{
    larger(larger(a, b), c)
}

/// The number, and none above the largest.
pub fn at_most(n: u32) -> u32
    ensures { result ≤ 100 }
{
    smaller(n, MOST)
}

/// The number, and none below the smallest.
pub fn at_least(n: u32) -> u32
    ensures { 1 ≤ result }
{
    larger(n, LEAST)
}

/// A count.
pub struct Counter {
    count: u32,
}

impl Counter {
    /// A counter at 0.
    pub fn new() -> Self
        ensures { result.count ≡ 0 }
    {
        Counter { count: 0 }
    }

    /// One more.
    pub fn step(&mut self)
        requires { self.old.count < 100 }
        ensures { self.new.count ≡ self.old.count + 1 }
    {
        self.count += 1;
    }
}

/// What gives a small number.
pub trait Giver {
    /// The number.
    fn give(&self) -> u32
        ensures { result ≤ 100 };
}

impl Giver for Counter {
    fn give(&self) -> u32
        ensures most { result ≤ 100 }
        ensures count { self.now.count ≤ 100 → result ≡ self.now.count }
    {
        smaller(self.count, 100)
    }
}

/// What there is without a count.
pub struct Nothing {}

impl Giver for Nothing {
    fn give(&self) -> u32 {
        smaller(7, 100)
    }
}

/// What is left of a number where 1 is taken away as often as it can be.
pub fn none_of(n: u32) -> u32
    ensures { result ≡ 0 }
{
    if n == 0 { 0 } else { none_of(n - 1) }
}

/// What is left of a number where 2 is taken away as often as it can be.
#[cycle(halving)]
pub fn rest_of(n: u32) -> u32
    ensures less { result < 2 }
    ensures most { result ≤ n }
{
    if n < 2 { n } else { rest_after(n) }
}

/// The same of a number that 2 can be taken away from.
#[cycle(halving)]
fn rest_after(n: u32) -> u32
    requires { 2 ≤ n }
    ensures less { result < 2 }
    ensures most { result ≤ n }
{
    rest_of(n - 2)
}

/// The sum of a number with itself, in so many steps.
pub fn doubled(n: u32) -> u32
    requires { n < 100 }
    ensures { result ≡ n + n }
{
    let mut sum = n;
    for i in 0..n {
        sum += 1;
    }
    let whole = sum;
    whole
}
"""

INVARIANTS = """\
use Rattle.std.proofs.Common.{◌≡◌, ◌+◌}
use Rattle.counters.proofs.doubled.Given as goal

abbrev pub invariant-loop-i : goal.invariant-loop-i
invariant-loop-i l = l.sum ≡ l.fn.n + l.i
"""

# A written answer.
ANSWERS = """\
use Rattle.std.proofs.Common.{rules}
use Rattle.counters.proofs.at_most.Goals as goal

pub returns : goal.returns
returns = search rules
"""

# The invariants of the functions that call one another.
CYCLE = """\
use Rattle.std.proofs.Common.{◌+◌, ◌*◌}
use Rattle.counters.proofs.+halving.Given as goal

abbrev pub decreases-rest_of : goal.decreases-rest_of
decreases-rest_of l = 2 * l.n + 1

abbrev pub decreases-rest_after : goal.decreases-rest_after
decreases-rest_after l = 2 * l.n
"""

# That of the function that calls itself.
CALLS_ITSELF = """\
use Rattle.counters.proofs.+none_of.Given as goal

abbrev pub decreases-none_of : goal.decreases-none_of
decreases-none_of l = l.n
"""

# What a check says of a function whose proof names what an edit took away, where the name of the record is long.
LONG_NAMES = """\
./proofs/counter/step/Answers.antt:1:1: error: `returns`: record `Rattle.counters.proofs.counter.step.Lts.View`
  has no field `new-count`
  the fields that can be named here are `before`
fn counters::counter::step: not proved
logic=not-proved"""

# What a check says of a function that is proved together with those that it calls, where another function isn't proved.
IN_A_CYCLE = """\
fn counters::even: no proof: in `counters::odd`, of this cycle of calls: it calls `counters::larger`, \
which is not proved
fn counters::odd: no proof: in `counters::odd`, of this cycle of calls: expected answers in ./proofs/+even/Answers.antt
fn counters::left: no proof: expected answers in ./proofs/+left/Answers.antt; `search` did not prove `right-returns`
fn counters::right: no proof: expected answers in ./proofs/+left/Answers.antt; `search` did not prove `right-returns`
fn counters::itself: no proof: expected answers in ./proofs/+itself/Answers.antt; `search` did not prove `returns`
logic=not-proved"""

TOGETHER, ALONE = "refused: ", "refused (alone): "
HARMLESS = "NOT refused: the crate is still proved"

# Each edit: its pairs of an old text and a new one, the clause that it names, and how its line begins.
EDITS = {
    "a_counter_begins_at_one": ([("Counter { count: 0 }", "Counter { count: 1 }")], "returns", ALONE),
    "a_lost_name": (
        [("let mut sum = n;", "let mut total = n;"), ("sum += 1;", "total += 1;"), ("= sum;", "= total;")],
        "returns",
        "NOT refused but by names",
    ),
    "a_lost_text": ([("n > 1", "n > 2")], "returns", "NOT refused: BAD EDIT: an 'old:' text is in src/lib.rt 0 times"),
    "a_private_function_gives_less": (
        [("pub fn at_least", "pub(crate) fn at_least"), ("larger(n, LEAST)", "larger(n, 0)")],
        "returns",
        "NOT refused: BAD EDIT: an 'old:' text of src/lib.rt is in no body",
    ),
    "a_step_is_none": ([("self.count += 1;", "self.count += 0;")], "returns", TOGETHER),
    "a_step_is_two": ([("self.count += 1;", "self.count += 2;")], "returns", TOGETHER),
    "larger_gives_the_first": ([("if b < a { a } else { b }", "if b < a { a } else { a }")], "second", TOGETHER),
    "larger_gives_the_smaller": (
        [("if b < a { a } else { b }", "if b < a { b } else { a }")],
        "either",
        "NOT refused by either, but by first, second",
    ),
    "doubled_in_fewer_steps": ([("in 0..n {", "in 1..n {")], "loop-i-init", TOGETHER),
    "harmless_at_a_goal": ([("larger(larger(a, b), c)", "larger(larger(b, a), c)")], "third", HARMLESS),
    "harmless_changes": (
        [("larger(larger(a, b), c)", "larger(a, larger(b, c))"), ("rest_of(n - 2)", "rest_of(n - 1)")],
        "third",
        HARMLESS,
    ),
    "largest_of_the_first_two": ([("larger(larger(a, b), c)", "larger(larger(a, b), b)")], "third", ALONE),
    "less_than_the_least": ([("LEAST: u32 = 1", "LEAST: u32 = 0")], "returns", TOGETHER),
    "more_than_the_most": ([("MOST: u32 = 100", "MOST: u32 = 101")], "returns", TOGETHER),
    "given_one_more": ([("smaller(self.count, 100)", "smaller(self.count, 101)")], "most", TOGETHER),
    "given_none": ([("smaller(self.count, 100)", "smaller(self.count, 0)")], "count", TOGETHER),
    "nothing_gives_too_much": ([("smaller(7, 100)", "larger(7, 101)")], "returns", TOGETHER),
    "one_is_left": ([("if n == 0 { 0 }", "if n == 0 { 1 }")], "returns", TOGETHER),
    "rest_is_two": ([("if n < 2 { n }", "if n < 3 { n }")], "less", TOGETHER),
    "rest_is_whole": ([("rest_after(n) }", "rest_after(n) + n }")], "less", TOGETHER),
    "unknown_name": (
        [("if a < b { a } else { b }", "if a < c { a } else { b }")],
        "either",
        "NOT refused: it didn't reach the prover",
    ),
    "without_a_clause": (
        [("let whole = sum;", "let whole = n;")],
        "",
        "NOT refused by a clause that it names, but by returns",
    ),
}

# The goals that some of these edits name. One isn't a goal of the function as it is, and at one the wrong function
# isn't refused: these two edits are tried alone. One edit that names a goal is harmless, and one goal has a written
# answer.
GOALS = {
    "a_step_is_two": ["returns"],
    "a_counter_begins_at_one": ["returns-in-Ok"],
    "doubled_in_fewer_steps": ["loop-i-init"],
    "harmless_at_a_goal": ["returns-clause-third"],
    "larger_gives_the_first": ["returns-else-b-a-clause-second"],
    "largest_of_the_first_two": ["returns-clause-first"],
    "more_than_the_most": ["returns"],
}


def write_repository(root):
    """A repository of the one crate, with its edits."""
    crate = root / "crates/counters"
    proofs = ("proofs/at_most", "proofs/doubled", "proofs/+halving", "proofs/+none_of")
    for folder in ("src", "specs", *proofs, "must-fail"):
        (crate / folder).mkdir(parents=True)
    (root / "crates.txt").write_text("counters:\n")
    (crate / "src/lib.rt").write_text(SOURCE, "utf-8")
    (crate / "specs/Lib.antt").write_text("")
    (crate / "proofs/at_most/Answers.antt").write_text(ANSWERS, "utf-8")
    (crate / "proofs/doubled/Invariants.antt").write_text(INVARIANTS, "utf-8")
    (crate / "proofs/+halving/Invariants.antt").write_text(CYCLE, "utf-8")
    (crate / "proofs/+none_of/Invariants.antt").write_text(CALLS_ITSELF, "utf-8")
    for name, (pairs, clause, _) in EDITS.items():
        named = [f"# refused by: {clause}"] if clause else []
        named += [f"# at: {it}" for it in GOALS.get(name, [])]
        lines = [*named, "file: src/lib.rt", *[line for old, new in pairs for line in (f"old: {old}", f"new: {new}")]]
        (crate / f"must-fail/{name}.edit").write_text("\n".join(lines) + "\n", "utf-8")


def main():
    with tempfile.TemporaryDirectory(prefix="check-must-fail-") as folder:
        write_repository(Path(folder))
        ran = subprocess.run(
            [sys.executable, TOOL, "--jobs", "1"], cwd=folder, capture_output=True, text=True, errors="replace"
        )
    said = dict(re.findall(r"^must-fail counters/(\w+)\.edit: (.*)", ran.stdout, re.M))
    passed = failed = 0
    for name, (_, _, wanted) in EDITS.items():
        is_well = said.get(name, "").startswith(wanted)
        passed, failed = passed + is_well, failed + (not is_well)
        print(f"the tool on {name}: {'well' if is_well else 'WRONG'}: {said.get(name, 'no line')}")
    refused = sum(wanted in (TOGETHER, ALONE) for _, _, wanted in EDITS.values())
    counts = f"{refused} passed, {len(EDITS) - refused} failed"
    is_well = ran.returncode == 1 and ran.stdout.rstrip("\n").endswith(counts)
    passed, failed = passed + is_well, failed + (not is_well)
    last = ran.stdout.rstrip().rpartition("\n")[2]
    print(f"the tool's last line: {'well' if is_well else 'WRONG'}: {last}{ran.stderr[-600:]}")
    verdict = Verdict(1, LONG_NAMES.splitlines())
    is_well = (
        not verdict.trouble
        and not verdict.reasons["counters::counter::step"]
        and "counters::counter::step" in verdict.by_names
    )
    passed, failed = passed + is_well, failed + (not is_well)
    print(f"the tool on a lost name that is told on two lines: {'well' if is_well else 'WRONG'}")
    reasons = Verdict(1, IN_A_CYCLE.splitlines()).reasons
    is_well = not reasons["counters::even"] and reasons["counters::odd"].endswith(
        "expected answers in ./proofs/+even/Answers.antt"
    )
    is_well = (
        is_well and not reasons["counters::left"] and bool(reasons["counters::right"] and reasons["counters::itself"])
    )
    passed, failed = passed + is_well, failed + (not is_well)
    print(f"the tool on functions that call one another: {'well' if is_well else 'WRONG'}")
    return say(passed, failed)


if __name__ == "__main__":
    sys.exit(main())
