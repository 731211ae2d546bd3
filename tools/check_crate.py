#!/usr/bin/env python3
"""Proves a function, or a crate; then tries the crate's edits, and proves and tests the crates that depend on it.

    tools/check_crate.py [--jobs N] CRATE --only FUNCTION
    tools/check_crate.py [--jobs N] --alone CRATE
    tools/check_crate.py [--jobs N] CRATE

The first is what to begin with: it takes seconds. The second proves the whole crate, and then tries its edits, the third goes on with what depends on
it. All errors of the first crate that isn't proved are printed, their causes first, and the check ends there.

What is proved already isn't proved again: neither what tools/build.py has made, nor what a check of the same crate has kept. Other words of the
prover may be in the place of --only, such as --start FUNCTION: they ask it just that of the crate.

The last line of a check is `N passed, M failed`.
"""
import argparse
import re
import subprocess
import sys

sys.dont_write_bytecode = True
from build import TOP, Build, kept_of
from commands import Commands
from crates import Crates
from machine import checks_side_by_side
from verdict import say


def above(crates, name):
    """The crates that stand on a crate, lowest first."""
    found = [it for it in crates.libraries if name in crates.below(it)]
    return sorted(found, key=lambda it: len(crates.below(it)))


class Check:
    """A check of a crate and of what stands on it: how much has passed and failed so far. Where a crate isn't proved, nothing follows."""

    def __init__(self, crates, jobs):
        self.crates, self.jobs = crates, jobs
        self.passed = self.failed = 0
        self.is_proved = True

    def take(self, what, is_passed):
        print(f"{what}: {'passed' if is_passed else 'failed'}", flush=True)
        self.passed, self.failed = self.passed + is_passed, self.failed + (not is_passed)

    def build(self, names, worked_on):
        """Proves crates, and what isn't proved yet below them."""
        build = Build(self.crates, names, self.jobs, worked_on)
        self.is_proved = build.run() == 0
        return build

    def prove(self, names):
        """Proves crates, and ends with the first that isn't proved: no more is said of the others, which may depend on it."""
        if self.is_proved:
            build = self.build(names, names)
            for name in names:
                if name not in build.unmade:
                    self.take(f"proof of {name}", True)
            if build.refused:
                self.take(f"proof of {build.refused}", False)

    def try_edits(self, name):
        if self.is_proved and (self.crates.folder(name) / "must-fail").is_dir():
            words = [str(TOP / "tools/must_fail.py"), "--jobs", str(self.jobs), name]
            _, lines = Commands.run(words, TOP, lambda line: print(line, flush=True))
            counts = re.fullmatch(r"(\d+) passed, (\d+) failed", lines[-1])
            passed, failed = map(int, counts.groups() if counts else (0, 1))
            print(f"edits of {name}: {lines[-1]}", flush=True)
            self.passed, self.failed = self.passed + passed, self.failed + failed

    def test(self, name):
        """Proves the tests of a crate, and runs them."""
        if self.is_proved:
            build = self.build(self.crates.below(name), [])
            lines = build.test(name) if self.is_proved else []
            print(*lines, sep="\n", end="\n" if lines else "")
            self.take(f"tests of {name}", self.is_proved and not lines)


def has_tests(name):
    return name.startswith("worked_")


def ask(crates, name, jobs, words):
    """Asks the prover something of a crate, and returns its status."""
    build = Build(crates, crates.below(name), jobs)
    if build.run():
        return 1
    return subprocess.call([*build.command("check", name, jobs), "--incremental", kept_of(crates, name), *words], cwd=crates.folder(name))


def main():
    Commands.stop_with_this()
    asked = argparse.ArgumentParser(description="Proves a crate, tries its edits, and proves and tests the crates that stand on it.")
    asked.add_argument("--jobs", type=int, default=checks_side_by_side(), help="how many processes prove")
    asked.add_argument("--alone", action="store_true", help="look at nothing that stands on it")
    asked.add_argument("crate", help="the crate's name")
    words, of_prover = asked.parse_known_args()
    crates = Crates(TOP)
    if words.crate not in crates.libraries:
        asked.error(f"crates.txt has no crate {words.crate!r}")
    if of_prover:
        return ask(crates, words.crate, words.jobs, of_prover)
    check = Check(crates, words.jobs)
    others = [] if words.alone else above(crates, words.crate)
    check.prove([it for it in [words.crate] if not has_tests(it)])
    check.try_edits(words.crate)
    check.prove([it for it in others if not has_tests(it)])
    for name in [it for it in [words.crate, *others] if has_tests(it)]:
        check.test(name)
    return say(check.passed, check.failed)


if __name__ == "__main__":
    sys.exit(main())
