#!/usr/bin/env python3
"""Finds lemmas and records that no proof, definition or contract cites, names that a proof file imports and doesn't use, and proof files that
say nothing. What a crate's proofs make public can be cited by the crates that stand on it; anything else only in its own file.

    tools/uncited.py [--remove] [CRATE ..]

A worked row (its file has Rows in its name) is cited by nothing, and an answer only by its goal: these don't count. With --remove lemmas and
names are taken out until none is left; the prover then has to look at the crates again. The last line is `N passed, M failed`: the crates without
such findings, and those with.
"""
import argparse
import re
import sys
from collections import Counter
from pathlib import Path

sys.dont_write_bytecode = True
from crates import Crates
from lemmas import lemmas_of
from verdict import say

TOP = Path(__file__).resolve().parent.parent
WORD = re.compile(r"[^\s(){}\[\],;:.|]+")
IMPORT = re.compile(r"^((?:unfoldable )?(?:pub )?use [\w.+-]+\.\{)([^}]*)\}$")
# A line that is neither a comment nor an import.
SAYS = re.compile(r"^(?! *use\b)(?! *--) *[^ \n]", re.M)
# What goals name, and the modules that only hand on words.
NO_LEMMAS = {"Answers.antt", "Invariants.antt", "Measures.antt", "Proof.antt", "Lib.antt"}
HANDING_ON = {"Words.antt", "Imports.antt"}


def crate_of(file):
    return file.relative_to(TOP).parts[1]


def is_proof(file):
    return file.relative_to(TOP).parts[2] == "proofs"


def words_of(text):
    return Counter(WORD.findall(text))


class Texts:
    """The files of all crates that may cite a lemma, and how often each word stands in them."""

    def __init__(self):
        files = [it for part in ("src", "specs", "proofs") for it in sorted(TOP.glob(f"crates/*/{part}/**/*")) if it.suffix in (".rt", ".antt")]
        self.texts = {it: it.read_text("utf-8") for it in files}
        crates = Crates(TOP)
        self.above = {name: [it for it in crates.libraries if name in crates.below(it)] for name in crates.libraries}
        # By crates, of all their files and of their proofs.
        self.words = {name: Counter() for name in crates.libraries}
        self.proved = {name: Counter() for name in crates.libraries}
        for file, text in self.texts.items():
            self.add(file, words_of(text))

    def add(self, file, words):
        self.words[crate_of(file)] += words
        if is_proof(file):
            self.proved[crate_of(file)] += words

    def take(self, file, words):
        self.words[crate_of(file)] -= words
        self.proved[crate_of(file)] -= words

    def proofs(self, crates):
        return [it for it in self.texts if is_proof(it) and (not crates or crate_of(it) in crates)]

    def uncited(self, file):
        """The lemmas of a file that nothing cites, and the names that it imports in vain."""
        lines = self.texts[file].split("\n")
        lemmas = [] if file.name in NO_LEMMAS | HANDING_ON or "Rows" in file.name else lemmas_of(lines)
        own = words_of(self.texts[file])
        return [it for it in lemmas if self.count(file, it, own) <= it.own], self.unused_imports(file)

    def count(self, file, lemma, own):
        """How often a lemma's name stands where the lemma can be cited, given the words of its file."""
        if not lemma.is_public:
            return own[lemma.name]
        crate = crate_of(file)
        return self.words[crate][lemma.name] + sum(self.proved[it][lemma.name] for it in self.above[crate])

    def unused_imports(self, file):
        text = self.texts[file]
        own = words_of(text)
        named = [it for line in text.split("\n") for found in [IMPORT.match(line)] if found for it in found[2].split(", ")]
        plain = [it for it in named if "◌" not in it and WORD.fullmatch(it)]
        if file.name in HANDING_ON:
            taken = self.taken_from(file)
            return [it for it in plain if it not in taken]
        return [it for it in plain if own[it] <= 1]

    def taken_from(self, file):
        """The words that the other proof files of a crate have."""
        folder = next(it for it in file.parents if it.name == "proofs")
        return set().union(*(words_of(text) for it, text in self.texts.items() if folder in it.parents and it != file))

    def remove(self, file, lemmas, names):
        """Takes lemmas and imported names out of a file."""
        lines = self.texts[file].split("\n")
        for lemma in sorted(lemmas, key=lambda it: -it.start):
            end = lemma.end + (lemma.end < len(lines) and not lines[lemma.end])
            del lines[lemma.start : end]
        kept = [self.without(line, set(names)) for line in lines]
        text = re.sub(r"\n\n\n+", "\n\n", "\n".join(it for it in kept if it is not None)).rstrip("\n") + "\n"
        self.take(file, words_of(self.texts[file]))
        self.add(file, words_of(text))
        self.texts[file] = text
        file.write_text(text, "utf-8")

    def without(self, line, names):
        """An import without some names, or None where nothing is left of it; any other line as it is."""
        found = IMPORT.match(line)
        if not found or not names:
            return line
        kept = [it for it in found[2].split(", ") if it not in names]
        return f"{found[1]}{', '.join(kept)}}}" if kept else None


def main():
    asked = argparse.ArgumentParser(description="Finds lemmas that nothing cites, and imports that nothing uses.")
    asked.add_argument("--remove", action="store_true", help="take them out")
    asked.add_argument("crates", nargs="*", metavar="CRATE", help="the crates to look at; none: all")
    words = asked.parse_args()
    texts = Texts()
    while True:
        proofs = texts.proofs(words.crates)
        silent = [it for it in proofs if not SAYS.search(texts.texts[it])]
        found = {it: told for it in proofs for told in [texts.uncited(it)] if any(told)}
        for file, (lemmas, names) in found.items():
            said = ", ".join([it.name for it in lemmas] + [f"{it} (imported)" for it in names])
            print(f"{file.relative_to(TOP)}: {said}")
            if words.remove:
                texts.remove(file, lemmas, names)
        if not (words.remove and found):
            break
    for file in silent:
        print(f"{file.relative_to(TOP)}: says nothing")
    failed = len({crate_of(it) for it in [*found, *silent]})
    return say(len({crate_of(it) for it in proofs}) - failed, failed)


if __name__ == "__main__":
    sys.exit(main())
