#!/usr/bin/env python3
"""Looks for private words in the comments of all crates and on some pages. tools/plain_words.txt lists the words, each
with the usual one, and the pages. Also finds files of proofs that don't begin with a comment: it says what they show.

    tools/plain_words.py [CRATE ..]

With names of crates, the comments of these are looked at, and nothing else. The last line is `N passed, M failed`:
crates and pages.
"""
import re
import sys
from pathlib import Path

sys.dont_write_bytecode = True
from function_bodies import HIDDEN
from verdict import say

TOP = Path(__file__).resolve().parent.parent
WORDS = TOP / "tools/plain_words.txt"
# In a file of definitions: a text, or a comment.
DEFINED = re.compile(r'"(?:\\.|[^"\\\n])*"|(?<!\S)--[^\n]*')
# Names of code in a comment or on a page.
CODE = re.compile(r"```.*?```|`[^`\n]*`", re.S)


def spaces(found):
    return re.sub(r"\S", " ", found[0])


class Words:
    """The private words with the usual ones, and the pages on which they are looked for."""

    def __init__(self, text):
        lines = [it.strip() for it in text.splitlines() if it.strip() and not it.startswith("#")]
        self.pages = [it.split()[1] for it in lines if it.startswith("page ")]
        self.usual = dict(it.split(" = ") for it in lines if " = " in it)
        # The longest first: "in front of" has "in front" in it.
        longest = sorted(self.usual, key=len, reverse=True)
        self.pattern = re.compile(rf"(?<![\w'-])(?:{'|'.join(longest)})(?![\w'-])".replace(" ", r"\s+"), re.I)

    def faults(self, text):
        """Each private word of a text: the number of its line, the word, and the usual one."""
        for found in self.pattern.finditer(CODE.sub(spaces, text)):
            word = " ".join(found[0].split())
            yield text.count("\n", 0, found.start()) + 1, word, self.usual[word.lower()]


def comments_of(file):
    """The comments of a file of code or of definitions, each at its place; all else is spaces."""
    text = file.read_text("utf-8")
    pattern = HIDDEN if file.suffix == ".rt" else DEFINED
    kept = [" " if it != "\n" else it for it in text]
    for found in pattern.finditer(text):
        if found[0].startswith(("//", "/*", "--")):
            said = re.sub(r"^(//[/!]?|/\*|--)", spaces, found[0])
            kept[found.start() : found.end()] = said
    return "".join(kept)


def files_of(crate):
    folder = TOP / "crates" / crate
    return [*sorted(folder.glob("src/**/*.rt")), *sorted(folder.glob("specs/**/*.antt")), *sorted(folder.glob("proofs/**/*.antt"))]


def all_crates():
    return sorted(it.name for it in (TOP / "crates").iterdir() if it.is_dir())


def uncommented(crate):
    """The files of proofs of a crate that don't begin with a comment. A page has none."""
    proofs = sorted((TOP / "crates" / crate / "proofs").glob("**/*.antt"))
    return [it for it in proofs if not it.read_text("utf-8").startswith("-- ")]


def main(crates):
    words = Words(WORDS.read_text("utf-8"))
    looked_at = {it: [(file, comments_of(file)) for file in files_of(it)] for it in crates or all_crates()}
    if not crates:
        looked_at |= {it: [(TOP / it, (TOP / it).read_text("utf-8"))] for it in words.pages}
    failed = 0
    for name, texts in looked_at.items():
        wrong = [(file, *fault) for file, text in texts for fault in words.faults(text)]
        for file, line, word, usual in wrong:
            print(f"{file.relative_to(TOP)}:{line}: {word}: {usual}")
        silent = uncommented(name)
        for file in silent:
            print(f"{file.relative_to(TOP)}: doesn't begin with a comment")
        failed += bool(wrong or silent) or not texts
    return say(len(looked_at) - failed, failed)


if __name__ == "__main__":
    sys.exit(main(sys.argv[1:]))
