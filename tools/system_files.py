#!/usr/bin/env python3
"""Looks where the code names the files of the system: std's modules for files, and the trait by which a runtime gives them. Only the files
that are listed here may, and each of them has to. So whoever wants to know what the program does with files reads these alone, and all
other code goes through the trait `Folder`.

    tools/system_files.py

The last line is `N passed, M failed`: files of code.
"""
import re
import sys
from pathlib import Path

sys.dont_write_bytecode = True
from function_bodies import blanked
from verdict import say

TOP = Path(__file__).resolve().parent.parent
# What a path to them goes through: std::fs, std::os::unix::fs, std::os::fd, std::rt::Files.
PARTS = {"fs", "fd", "Files"}
# The files of code that may name them, and the test that makes a folder of its own.
FILES = {
    *(f"crates/kit_system/src/{it}.rt" for it in ("answers", "kit_system")),
    *(f"crates/mairix_files/src/{it}.rt" for it in ("kit_file", "kit_folder", "kit_new", "recorded_calls")),
    "crates/worked_runs/src/program_runs.rt",
}
IMPORT = re.compile(r"(?<!ghost )\buse\s+([^;]+);")
PATH = re.compile(r"\b\w+(?:\s*::\s*\w+)+")


def parts_of(tree):
    """The parts of a list in an import, parted by the commas that aren't in a list of their own."""
    depth, part = 0, ""
    for letter in tree:
        depth += (letter == "{") - (letter == "}")
        if letter == "," and not depth:
            yield part
            part = ""
        else:
            part += letter
    yield part


def paths_of(tree, before=""):
    """Each path of an import, whole: `std::{fs, io}` is `std::fs` and `std::io`."""
    head, brace, rest = tree.partition("{")
    path = before + "".join(head.partition(" as ")[0].split())
    if not brace:
        return [path.removesuffix("::self")]
    return [it for part in parts_of(rest[: rest.rindex("}")]) if part.strip() for it in paths_of(part, path)]


def names_in(text):
    """The paths of a file of code that lead to files of the system."""
    text = blanked(text)
    imported = [path for found in IMPORT.finditer(text) for path in paths_of(found[1])]
    written = ["".join(it.split()) for it in PATH.findall(IMPORT.sub("", text))]
    return sorted({it for it in imported + written if PARTS & {*it.split("::")}})


def main():
    files = {str(it.relative_to(TOP)): names_in(it.read_text("utf-8")) for it in sorted(TOP.glob("crates/*/src/**/*.rt"))}
    wrong = [f"{file}: names {', '.join(names)}" for file, names in files.items() if names and file not in FILES]
    wrong += [f"{file}: names no file of the system, or isn't there" for file in sorted(FILES) if not files.get(file)]
    print(*wrong, sep="\n", end="\n" if wrong else "")
    return say(len(files) - len(wrong), len(wrong))


if __name__ == "__main__":
    sys.exit(main())
