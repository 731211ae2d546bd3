#!/usr/bin/env python3
"""Finds definitions of `specs/` whose names say nothing of what they are, or that several files define, and the private
word "behind" in names. A definition is a noun or a claim, and a name means one thing (Style in docs/CONTRIBUTING.md).

    tools/names.py

A name of one word that is a participle (`known`, `shown`) is no noun. Some nouns look like one, and are excepted; each
has to be there. The last line is `N passed, M failed`: files.
"""
import re
import sys
from collections import defaultdict
from pathlib import Path

sys.dont_write_bytecode = True
from verdict import say

TOP = Path(__file__).resolve().parent.parent
# Endings of participles, and those that have none of these.
PARTICIPLE = re.compile(
    r"[a-z]+(ed|en|wn|ought|aught|ound|old|eld|elt|eft|ept)"
    r"|begun|bent|built|cut|done|gone|hit|laid|lent|lost|made|met|put|read|run|said|sent|set|split|spent"
)
# Nouns that look like participles, and what they are.
NOUNS = {
    "feed": "a line feed",
}
# Names that several files define, and why each of them may.
SHARED = {}
# A definition of the file, or of a module of it, whose definitions have two spaces before them.
DEFINITION = re.compile(r"^(?:  )?(?:(?:pub|abbrev|unfoldable|opaque|record|data) )+(?!(?:pub|mod|use|record) )([A-Za-z][\w'-]*)(?= )", re.M)
FIELD = re.compile(r"  pub [\w'-]+")
BEHIND = re.compile(r"[\w'-]*behind[\w'-]*", re.I)
# What isn't code: comments and texts.
NO_CODE = {
    ".antt": re.compile(r'(?:(?<=\s)|^)--(?=\s|$).*|"(?:\\.|[^"\\])*"', re.M),
    ".rt": re.compile(r"""//.*|'(?:\\.|[^'\\\n])'|"(?:\\(?:.|\n)|[^"\\])*\"""", re.M),
    # Of an edit only the name of its file is looked at.
    ".edit": re.compile(r"(?s).+"),
}


def code_of(file):
    return NO_CODE[file.suffix].sub("", file.read_text("utf-8"))


def definitions_in(file):
    """The names that a file of definitions defines, without fields of records."""
    return {it[1] for it in DEFINITION.finditer(code_of(file)) if not FIELD.fullmatch(it[0])}


def main():
    files = [it for part in ("src", "specs", "proofs", "must-fail") for it in sorted(TOP.glob(f"crates/*/{part}/**/*")) if it.suffix in NO_CODE]
    homes, told = defaultdict(list), defaultdict(list)
    for file in files:
        if file.relative_to(TOP).parts[2] == "specs":
            for name in definitions_in(file):
                homes[name].append(file)
    for name, defining in sorted(homes.items()):
        if PARTICIPLE.fullmatch(name) and name not in NOUNS:
            told[defining[0]].append(f"{name} is a bare participle")
        if len(defining) > 1 and name not in SHARED:
            others = " and ".join(str(it.relative_to(TOP)) for it in defining[1:])
            told[defining[0]].append(f"{name} is defined in {others} too")
    for file in files:
        for name in sorted({*BEHIND.findall(code_of(file)), *BEHIND.findall("/".join(file.relative_to(TOP).parts[2:]))}):
            told[file].append(f'{name}: the word is "after"')
    for file, said in sorted(told.items()):
        print(f"{file.relative_to(TOP)}: {', '.join(said)}")
    stale = [name for name in NOUNS if name not in homes] + [name for name in SHARED if len(homes[name]) < 2]
    for name in stale:
        print(f"tools/names.py: {name} is excepted, and needn't be")
    failed = len(told) + len(stale)
    return say(len(files) - len(told), failed)


if __name__ == "__main__":
    sys.exit(main())
