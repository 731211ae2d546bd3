#!/usr/bin/env python3
"""Takes each crate into another repository, as its page says, and proves the caller there that the page shows.

    tools/crates_elsewhere.py [--jobs N] [--proved FOLDER] [CRATE ..]

The repository has the folders that the page names, for each of them the line of crates.txt that its own page has, and the caller: the files
`crates/caller/..` and the line `caller: ..` that stand under the page's title "A caller". `rt` reads the whole of it. A caller that names a crate
which its line lacks is refused.

Then all callers are proved in one check, each as a module: a check reads for many seconds before its first function. If they aren't proved, each is
tried by itself, which shows whose fault it is. They are proved over the libraries of this repository: with --proved those of FOLDER, a copy of it
whose crates `rt ci` has just proved and left built, and else those that tools/build.py makes.

The last line is `N passed, M failed`.
"""
import argparse
import os
import re
import shutil
import sys
import tempfile
from concurrent.futures import ThreadPoolExecutor
from pathlib import Path

sys.dont_write_bytecode = True
from build import TOP, Proved
from commands import Commands
from crates import PARTS, Crates
from kit import RT
from machine import checks_side_by_side
from verdict import say

# Where the files of a caller stand, and how its modules begin.
FOLDER, MODULES = "crates/caller", "Rattle.caller."
ROOT = "src/lib.rt"
# A line that only the file of a crate's root has.
OF_ROOT = "#![tactic(auto)]\n"
# All that a line of crates.txt names here.
LIBRARIES = {library for name, libraries in Crates(TOP).libraries.items() for library in [name, *libraries]}


class Page:
    """What a crate's page says of the crate in another repository, and its caller."""

    def __init__(self, name):
        self.name = name
        text = (TOP / "crates" / name / "README.md").read_text("utf-8")
        rows = dict(re.findall(r"(?m)^\| (folders|its line of crates.txt|libraries of the kit) \| (.*) \|$", text))
        self.folders = re.findall(r"`([^`]+)`", rows.get("folders", ""))
        self.line = rows.get("its line of crates.txt", "").strip("`")
        self.of_kit = [it for it in rows.get("libraries of the kit", "").split(", ") if it != "none"]
        self.files = files_of_caller(text)
        self.line_of_caller = next(iter(re.findall(r"`(caller:[^`]+)`", text)), "")

    def libraries(self):
        """The crates that the caller's line names."""
        return self.line_of_caller.partition(":")[2].split()

    def lines(self):
        """The lines of crates.txt of the folders: each folder's own page has its own."""
        return [Page(Path(it).name).line for it in self.folders]

    def unnamed(self):
        """The crates that the caller's files name, and its line doesn't."""
        text = "".join(self.files.values())
        named = {*re.findall(r"\b(\w+)::", text), *re.findall(r"\bRattle\.(\w+)\.", text)}
        return sorted(named & LIBRARIES - {*self.libraries()})

    def as_module(self):
        """The caller's files as those of a module of a crate, which has the page's crate for its name."""
        for path, text in self.files.items():
            part, _, rest = path.removeprefix(f"{FOLDER}/").partition("/")
            moved = f"src/{self.name}.rt" if f"{part}/{rest}" == ROOT else f"{part}/{self.name}/{rest}"
            yield f"{FOLDER}/{moved}", text.replace(OF_ROOT, "").replace(f"{MODULES}{part}.", f"{MODULES}{part}.{self.name}.")


def files_of_caller(text):
    """The files of the caller on a page: each block of code behind a line that names it."""
    return dict(re.findall(r"`(crates/caller/[^`]+)`[^`\n]*(?:`[^`\n]*`[^`\n]*)*:\n\n```\w+\n(.*?\n)```", text, re.S))


def write_repository(root, lines, files):
    """Makes a repository of a crate `caller`: with these lines of crates.txt, and these files."""
    for path, text in {"crates.txt": "".join(f"{it}\n" for it in lines), **files}.items():
        (root / path).parent.mkdir(parents=True, exist_ok=True)
        (root / path).write_text(text, "utf-8")
    return Crates(root)


def faults_of(page, proved):
    """What a page lacks, or what `rt` doesn't take of its repository."""
    if not page.files or not page.line_of_caller:
        return ["its page has no caller"]
    with tempfile.TemporaryDirectory(prefix="elsewhere-") as room:
        root = Path(room)
        crates = write_repository(root, [*page.lines(), page.line_of_caller], page.files)
        of_kit = sorted({library for libraries in crates.libraries.values() for library in libraries} - crates.libraries.keys())
        if of_kit != page.of_kit:
            return [f"libraries without a line: {', '.join(of_kit)}; libraries of the kit on its page: {', '.join(page.of_kit)}"]
        unmade = proved.unmade & {*crates.below("caller")}
        if unmade:
            return [f"not proved: {', '.join(sorted(unmade))}"]
        if page.unnamed():
            return [f"its line of crates.txt lacks {', '.join(page.unnamed())}"]
        for folder in page.folders:
            for part in PARTS:
                if (TOP / folder / part).is_dir():
                    shutil.copytree(TOP / folder / part, root / folder / part)
        for words in ([RT, "fmt"], [RT, "expand"]):
            status, lines = Commands.run(words, crates.folder("caller"))
            if status:
                return lines[-20:]
        return [f"rt fmt changes {path}" for path, text in page.files.items() if (root / path).read_text("utf-8") != text]


def unproved(pages, proved, jobs):
    """What a check says of the callers of these pages, if it doesn't prove them, with its status: one that was ended may have said nothing."""
    libraries = dict.fromkeys(library for page in pages for library in page.libraries())
    lines = dict.fromkeys(line for page in pages for line in page.lines())
    modules = "".join(f"pub mod {page.name};\n" for page in pages)
    files = {f"{FOLDER}/{ROOT}": f"{OF_ROOT}\n{modules}", **{path: text for page in pages for path, text in page.as_module()}}
    with tempfile.TemporaryDirectory(prefix="callers-") as room:
        crates = write_repository(Path(room), [*lines, f"caller: {' '.join(libraries)}"], files)
        status, said = Commands.run([*proved.checking(crates, "caller"), "--jobs", str(jobs)], crates.folder("caller"))
        wrong = [it for it in said if not it.startswith("statements ")][-20:]
        return [*wrong, f"the check ended with status {status}"] if status else []


def main():
    Commands.stop_with_this()
    asked = argparse.ArgumentParser(description="Takes each crate into another repository, as its page says, and proves a caller there.")
    asked.add_argument("--jobs", type=int, help="how many repositories are read at a time")
    asked.add_argument("--proved", metavar="FOLDER", help="a copy of the repository that rt ci has just proved")
    asked.add_argument("crates", nargs="*", metavar="CRATE", help="a crate; none: all that have a page")
    words = asked.parse_args()
    jobs = words.jobs or int(os.environ.get("RT_JOBS") or checks_side_by_side())
    names = words.crates or sorted(it.parent.name for it in (TOP / "crates").glob("*/README.md"))
    proved = Proved(Path(words.proved or TOP).resolve(), names, jobs, bool(words.proved))
    pages = [Page(it) for it in names]
    with ThreadPoolExecutor(jobs) as pool:
        wrong = dict(zip(names, pool.map(lambda it: faults_of(it, proved), pages)))
    sound = [it for it in pages if not wrong[it.name]]
    if sound and unproved(sound, proved, jobs):
        wrong.update({it.name: unproved([it], proved, jobs) for it in sound})
    for name, faults in wrong.items():
        if faults:
            print(f"{name} in another repository:", *faults, sep="\n", flush=True)
    failed = sum(map(bool, wrong.values()))
    return say(len(names) - failed, failed)


if __name__ == "__main__":
    sys.exit(main())
