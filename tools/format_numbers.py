#!/usr/bin/env python3
"""The numbers of the index format are written once in mail_index: in the definitions Places and Limits.
docs/INDEX-FORMAT.md has each of them before its name. No other definition or contract of the crate has one of them
bare, or reads a field at a bare offset.

    tools/format_numbers.py

The last line is `N passed, M failed`: names, and files of definitions and contracts.
"""
import re
import sys
from pathlib import Path

sys.dont_write_bytecode = True
from function_bodies import blanked, block_end

TOP = Path(__file__).resolve().parent.parent
CRATE = TOP / "crates/mail_index"
HOMES = [CRATE / "specs/Places.antt", CRATE / "specs/Limits.antt"]
PAGE = TOP / "docs/INDEX-FORMAT.md"
# A smaller number is everywhere, so it counts only as the offset of a field.
LEAST = 8
# What is the same only by chance: a kind, the bytes of a number, how much a builder keeps apart, the slots of a window
# and the hashes that there are.
OTHERS = {
    "specs/Kinds.antt": {8},
    "specs/Versions.antt": {8},
    "specs/Fields.antt": {8},
    "src/fields.rt": {8},
    "specs/Inside/KeyFronts.antt": {8},
    "specs/Inside/KeyMaps.antt": {16},
    "specs/Inside/KeyTables.antt": {16, 2**32},
    "src/build/key_table.rt": {2**32},
    "src/build/short_bytes.rt": {15},
}
NUMBER = r"\b\d[\d,]*(?: ?\^ ?\d+)?"
OFFSET = re.compile(r"\b(?:byte|u32|u64|are_zeros)_at (?:[\w.]+|\((?:[^()]|\([^()]*\))*\)) (\d+)")
CLAUSE = re.compile(r"\b(?:ensures|requires|ghost)\b[^{};]*(?=\{)")


def value(text):
    base, _, power = re.sub("[ ,]", "", text).partition("^")
    return int(base) ** int(power or 1)


def values(pattern, text):
    return [value(it) for it in re.findall(pattern, text)]


def named_numbers():
    text = "".join(it.read_text("utf-8") for it in HOMES)
    return {name: value(number) for name, number in re.findall(rf"(?m)^(\w+) = ({NUMBER})$", text)}


def faults_of_the_page(named):
    """Each name comes once, after its number, and no other name comes."""
    text = PAGE.read_text("utf-8")
    for name, number in named.items():
        if values(rf"({NUMBER})[^\d`\n]*`{name}`", text) != [number] or text.count(f"`{name}`") != 1:
            yield f"{PAGE.name} hasn't {name} once, after {number}"
    for name in sorted({*re.findall(r"`([a-z]+(?:_[a-z]+)+)`", text)} - {*named}):
        yield f"{PAGE.name} has {name}, which isn't the name of a number"


def statements(file):
    """The definitions or the contracts of a file, without comments."""
    text = file.read_text("utf-8")
    if file.suffix == ".antt":
        return re.sub("--.*", "", text)
    text = blanked(text)
    return "\n".join(text[it.end() : block_end(text, it.end())] for it in CLAUSE.finditer(text))


def faults_of_files(files, named):
    refused = {it for it in named.values() if it >= LEAST}
    for file in files:
        path, text = file.relative_to(CRATE).as_posix(), statements(file)
        # What OTHERS has and the file hasn't is wrong too.
        bare = (refused.intersection(values(NUMBER, text)) ^ OTHERS.get(path, set())).union(values(OFFSET, text))
        if bare:
            yield f"crates/mail_index/{path}: bare numbers {sorted(bare)}"


def main():
    named = named_numbers()
    files = [it for part in ("specs/**/*.antt", "src/**/*.rt") for it in sorted(CRATE.glob(part)) if it not in HOMES]
    faults = [*faults_of_the_page(named), *faults_of_files(files, named)]
    print(*faults, f"{len(named) + len(files) - len(faults)} passed, {len(faults)} failed", sep="\n")
    return 1 if faults else 0


if __name__ == "__main__":
    sys.exit(main())
