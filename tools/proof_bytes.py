#!/usr/bin/env python3
"""Counts the bytes of each crate's written proofs, and compares them with those that are kept. A proof that says the
same in fewer words is easier to own, so none grows without somebody who sees it.

    proof_bytes.py [--write]

The layout of a file isn't counted (decision 124 in docs/DECISIONS.md): neither its comments, line breaks and
indentation, nor the path of an import that goes on in the next line.

What is kept is bench/results/kept-proof-bytes.txt. --write writes it anew: where a crate's proofs have shrunk, or where
they show something more. The last line is `N passed, M failed`: crates.
"""
import re
import sys
from pathlib import Path

sys.dont_write_bytecode = True
from verdict import say

TOP = Path(__file__).resolve().parent.parent
KEPT = TOP / "bench/results/kept-proof-bytes.txt"
HEAD = "Bytes of each crate's written proofs without their layout, as tools/proof_bytes.py counts them.\n"
LINE = re.compile(r"(\w+): ([\d,]+)")
COMMENT = re.compile(r"(?m)(^|\s)--(?= |$).*$")
IMPORT = re.compile(r"((?:pub )?use [^{}]*\.)\{([^{}]*)\}")


def bytes_of(text):
    """How many bytes a proof file has but for its layout."""
    text = COMMENT.sub("", text)
    paths = {found[1]: None for found in IMPORT.finditer(text)}
    names = [name.strip() for found in IMPORT.finditer(text) for name in found[2].split(",")]
    rest = IMPORT.sub("", text).split()
    return len(" ".join([*paths, *names, *rest]).encode())


def counts():
    """The bytes of each crate's proofs."""
    crates = sorted(it.parent for it in TOP.glob("crates/*/proofs"))
    return {it.name: sum(bytes_of(file.read_text("utf-8")) for file in it.rglob("proofs/**/*.antt")) for it in crates}


def main(words):
    now = counts()
    if words == ["--write"]:
        KEPT.write_text(HEAD + "".join(f"{name}: {count:,}\n" for name, count in now.items()), "utf-8")
    kept = {found[1]: int(found[2].replace(",", "")) for found in LINE.finditer(KEPT.read_text("utf-8"))}
    wrong = [
        f"{name}: {now.get(name, 0):,} bytes of proofs, and {kept.get(name, 0):,} are kept"
        for name in sorted({*now, *kept})
        if now.get(name, 0) > kept.get(name, 0) or name not in now
    ]
    print(*wrong, sep="\n", end="\n" if wrong else "")
    if wrong:
        print("If these proofs show more than before, tools/proof_bytes.py --write keeps the new numbers.")
    return say(len(now) - len(wrong), len(wrong))


if __name__ == "__main__":
    sys.exit(main(sys.argv[1:]))
