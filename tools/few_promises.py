#!/usr/bin/env python3
"""Counts the promises (`ensures`) of each public function, and of each method of a trait. None has more than eight:
promises that belong together are one relation, a record whose parts have names (decision 117 in docs/DECISIONS.md).

    tools/few_promises.py

Only functions whose promises are rows that are worked by hand may have more. The last line is `N passed, M failed`:
files of code.
"""
import re
import sys
from pathlib import Path

sys.dont_write_bytecode = True
from function_bodies import blanked, block_end, body_of
from verdict import say

TOP = Path(__file__).resolve().parent.parent
MOST = 8
ROWS = re.compile(r"_as_worked_by_hand$")
FUNCTION = re.compile(r"^ *(pub )?fn (\w+)", re.M)
OWNER = re.compile(r"^(?:pub(?:\([^)]*\))? )?(trait|impl)\b([^{;]*)\{", re.M)
PROMISE = re.compile(r"^ *ensures\b", re.M)


def owners_in(text):
    """Each trait and each impl: where it begins and ends, its name, and whether its methods are those of a trait."""
    for found in OWNER.finditer(text):
        head = found[2].replace("->", "")
        while "<" in head:
            head = re.sub(r"<[^<>]*>", "", head)
        _, is_impl, owner = head.rpartition(" for ")
        name = re.search(r"\w+", owner)[0]
        yield found.start(), block_end(text, found.end() - 1), name, found[1] == "trait" or bool(is_impl)


def calls_in(text):
    """Each public function and each method of a trait, and how many promises it has."""
    text = blanked(text)
    owners = list(owners_in(text))
    heads = [*FUNCTION.finditer(text)]
    for head, after in zip(heads, [*[it.start() for it in heads[1:]], len(text)]):
        inside = ((name, of_trait) for start, end, name, of_trait in owners if start < head.start() < end)
        owner, of_trait = next(inside, ("", False))
        if head[1] or of_trait:
            body = body_of(text, head.end())
            until = min(after, body[0]) if body else after
            yield f"{owner}::{head[2]}".removeprefix("::"), len(PROMISE.findall(text, head.end(), until))


def main():
    wrong, files = [], sorted(TOP.glob("crates/*/src/**/*.rt"))
    for file in files:
        many = [f"{name} has {n}" for name, n in calls_in(file.read_text("utf-8")) if n > MOST and not ROWS.search(name)]
        wrong += [f"{file.relative_to(TOP)}: {', '.join(many)}"] if many else []
    print(*wrong, sep="\n", end="\n" if wrong else "")
    if wrong:
        print(f"At most {MOST} are right (MOST in tools/few_promises.py): make those that belong together a record, whose parts have names.")
    return say(len(files) - len(wrong), len(wrong))


if __name__ == "__main__":
    sys.exit(main())
