#!/usr/bin/env python3
"""Compares docs/ARCHITECTURE.md with the crates. The functions of each walk exist, each is called by the one above it,
and those of one caller are in the order of its code. "What a reader has to believe" names the definitions that the two
runs of the program depend on, and no others. "The crates" has each crate with the crates that crates.txt gives it, and
PERFORMANCE.md names no other.

    tools/architecture.py
    tools/architecture.py --modules [CRATE ..]

With --modules it lists each module and each file of definitions, of all crates or of some, with the first sentence of
its comment; it compares nothing. Otherwise the last line is `N passed, M failed`.
"""
import re
import sys
from pathlib import Path

sys.dont_write_bytecode = True
from crates import Crates
from function_bodies import blanked, block_end, bodies_of_file
from verdict import say

TOP = Path(__file__).resolve().parent.parent
PAGE, TIMES = (TOP / "docs" / name for name in ("ARCHITECTURE.md", "PERFORMANCE.md"))
WALKS, BELIEVED, THE_CRATES = "## The walks", "## What a reader has to believe, in this order", "## The crates"
# A line of a walk: a function, its crate and its module.
STEP = re.compile(r"( *)(?:(\w+)::)?(\w+) +(\w+) +([\w/]+)(?:  .*)?")
# The calls whose clauses are the headline: the whole program, and what it asks for an answer.
RUNS = {"run_program": "mairix_run/src/program.rt", "once_run": "mairix_tool/src/once.rt", "search_run": "mairix_tool/src/stored.rt"}
USE = re.compile(r"^\s*(?:ghost )?use Rattle\.(\w+)\.specs\.([\w.]+?)(?:\.\{([^}]*)\}| as (\w+))?;?\s*$", re.M)


def first_sentence(text, sign):
    """What a file says of itself in the comment at its front."""
    lines = []
    for line in text.splitlines():
        if not line.startswith(sign):
            break
        lines.append(line[len(sign) :].strip())
    told = re.match(r"(.*?[.:])(?: |$)", " ".join(lines) + " ")
    return (told[1] if told else " ".join(lines)).rstrip(":.")


def names_in(folder, suffix):
    """The files of a folder by their paths without suffix, those of a folder after the file of its name."""
    files = {str(it.relative_to(folder))[: -len(suffix)]: it for it in folder.rglob(f"*{suffix}") if it.is_file()}
    return dict(sorted(files.items()))


def modules_of(folder):
    return names_in(folder / "src", ".rt")


def definitions_of(folder):
    """A crate's files of definitions, but for the list of them and for those that serve proofs alone."""
    found = names_in(folder / "specs", ".antt") if (folder / "specs").is_dir() else {}
    return {name: file for name, file in found.items() if name != "Lib" and not name.startswith("Inside")}


def uses_in(text):
    """What a text takes of definitions: for each name in it the crate and the file."""
    found = {}
    for crate, path, names, renamed in USE.findall(text):
        path = path.replace(".", "/")
        for name in [it for it in names.split(",") if it.strip()] or [renamed or path.rpartition("/")[2]]:
            found[name.rpartition(" as ")[2].strip()] = (crate, path)
    return found


# ---- the list of modules


def modules_listed(crates, name):
    """The lines on a crate: its modules with the definitions that their contracts name, and what these are about."""
    folder, definitions = crates.folder(name), definitions_of(crates.folder(name))
    yield f"\n{name}"
    for path, file in modules_of(folder).items():
        text = file.read_text("utf-8")
        named = sorted({at for crate, at in uses_in(text).values() if crate == name and at in definitions})
        yield f"  {path}: {first_sentence(text, '//!')}" + (f" ({', '.join(named)})" if named else "")
    for path, file in definitions.items():
        yield f"  specs {path}: {first_sentence(file.read_text('utf-8'), '--')}"


def list_modules(crates, asked):
    """Prints the modules of crates, lowest first, or of all."""
    names = sorted(asked or crates.libraries, key=lambda it: (it.startswith("worked_"), len(crates.below(it)), it))
    for name in names:
        print(*modules_listed(crates, name), sep="\n")


# ---- the walks


def walks_of(page):
    """The walks, each as its lines."""
    return [it.splitlines() for it in re.findall(r"(?m)^```text\n(.*?)^```$", section(page, WALKS), re.S | re.M)]


def section(page, title):
    return page[page.index(f"{title}\n") :].partition("\n## ")[0]


class Bodies:
    """The bodies of the functions of all crates."""

    def __init__(self, crates):
        self.crates = crates
        self.files = {}

    def body(self, owner, function, crate, module):
        """The body of a function, or None where the module has none of this name."""
        file = self.crates.folder(crate) / "src" / f"{module}.rt"
        if file not in self.files:
            self.files[file] = self.read(crate, file) if file.is_file() else {}
        names = self.files[file]
        wanted = rf"{owner}(?:[A-Z]\w*)?::{function}" if owner else function
        return next((body for name, body in names.items() if re.fullmatch(wanted, name)), None)

    def read(self, crate, file):
        text = blanked(file.read_text("utf-8"))
        found = bodies_of_file(crate, file.relative_to(self.crates.folder(crate)).as_posix(), text)
        own = {name: re.match(r".*?((?:[A-Z]\w*::)?\w+)$", name)[1] for _, _, name in found}
        return {own[name]: text[start:end] for start, end, name in found}


def call_after(body, owner, function, at):
    """Where the first call of a function ends that ends after a place in a body, or None. A function that is passed as
    an argument counts as called."""
    front = rf"(?:\.|\b{owner}::)" if owner else r"(?<![\w.:])(?:\w+::)?"
    calls = [it.end() for it in re.finditer(rf"{front}{function}(?=[(,)])", body)]
    ends = [end_of_brackets(body, it) if body[it] == "(" else it for it in calls]
    return min((it for it in ends if it > at), default=None)


def end_of_brackets(text, at):
    depth = 0
    for bracket in re.compile(r"[()]").finditer(text, at):
        depth += 1 if bracket[0] == "(" else -1
        if not depth:
            return bracket.end()
    return len(text)


def faults_of_walk(lines, bodies, known):
    """What is wrong with a walk. Its first function has to be known, and all of its functions are known after it."""
    # The callers of a line, outermost first: indentation, name, body, and where the last call ends that a line names.
    above = []
    for line in lines:
        step = STEP.fullmatch(line)
        if not step:
            yield f"{line.strip()!r} isn't a function, a crate and a module"
            return
        indent, owner, function, crate, module = step.groups()
        name = f"{owner}::{function}" if owner else function
        body = bodies.body(owner, function, crate, module)
        if body is None:
            yield f"{crate} {module} has no function {name}"
            return
        while above and above[-1][0] >= len(indent):
            above.pop()
        if above:
            caller = above[-1]
            end = call_after(caller[2], owner, function, caller[3])
            if end is None:
                yield f"{caller[1]} doesn't call {name} there"
            else:
                caller[3] = end
        elif (name, crate, module) not in known:
            yield f"{name} is in no earlier walk"
        known.add((name, crate, module))
        above.append([len(indent), name, body, 0])


def faults_of_walks(page, crates):
    bodies, known = Bodies(crates), {("main", "mairix", "main")}
    walks = walks_of(page)
    return [fault for lines in walks for fault in faults_of_walk(lines, bodies, known)] if walks else ["there is none"]


# ---- what a reader has to believe


def clauses_of(text, function):
    """The clauses of a function."""
    start = re.search(rf"(?m)^pub fn {function}\b", text).start()
    return text[start : text.index("\n{", start)]


def closure(crates):
    """The files of definitions that the clauses of the runs name, directly or by another."""
    found, waiting = set(), []
    for function, path in RUNS.items():
        text = (crates.root / "crates" / path).read_text("utf-8")
        clauses = clauses_of(text, function)
        words = set(re.findall(r"[\w-]+", clauses))
        waiting += [place for name, place in uses_in(text).items() if name in words]
    while waiting:
        crate, path = waiting.pop()
        if crate not in crates.libraries or path.startswith("declared"):
            continue
        file = crates.folder(crate) / "specs" / f"{path}.antt"
        if not file.is_file():
            # A type of the file has its variants at a path of its own.
            path, file = path.rpartition("/")[0], file.parent.with_suffix(".antt")
        if (crate, path) not in found:
            found.add((crate, path))
            waiting += uses_in(file.read_text("utf-8")).values()
    return {(crate, path) for crate, path in found if not path.startswith("Inside")}


def believed(page, crates):
    """The definitions that the page names there."""
    listed = "\n".join(re.findall(r"(?m)^(?:\d+\. |   ).*", section(page, BELIEVED)))
    found, crate = set(), None
    for word in re.findall(r"`\w+`|\b[a-z]+_[a-z]+\b", listed):
        if word in crates.libraries:
            crate = word
        elif word.startswith("`") and crate and re.match(r"[A-Z]", word[1:]):
            found.add((crate, word.strip("`")))
    return found


def difference(want, got):
    shown = lambda places: ", ".join(f"{crate} {path}" for crate, path in sorted(places))
    told = (("missing", want - got), ("too many", got - want))
    return "; ".join(f"{what}: {shown(places)}" for what, places in told if places)


# ---- the crates


def faults_of_table(page, crates):
    """What is wrong with the table of crates: each crate is there, with the crates that crates.txt gives it; a crate of
    tests with none."""
    rows = re.findall(r"(?m)^\| (`.*`) \| .* \|(.*)\|$", section(page, THE_CRATES))
    told = {name: set(re.findall(r"\w+", below)) for names, below in rows for name in re.findall(r"`(\w+)`", names)}
    for name, libraries in crates.libraries.items():
        want = set() if name.startswith("worked_") else {it for it in libraries if it in crates.libraries}
        if told.get(name) != want:
            yield f"{name} depends on {', '.join(sorted(want)) or 'none'}"
    yield from (f"{it} is no crate" for it in told.keys() - crates.libraries.keys())


def crates_in_tables(page):
    """What the tables of a page have in columns `Crate`: the word at the front of each cell."""
    columns = []
    for line in page.splitlines():
        cells = [it.strip() for it in line.strip("|").split("|")] if line.startswith("|") else []
        if "Crate" in cells or not cells:
            columns = [at for at, cell in enumerate(cells) if cell == "Crate"]
        else:
            yield from (word for at in columns for word in re.findall(r"^\w+", cells[at]))


def main(words):
    crates = Crates(TOP)
    if words[:1] == ["--modules"]:
        return list_modules(crates, words[1:])
    page, timed = PAGE.read_text("utf-8"), list(crates_in_tables(TIMES.read_text("utf-8")))
    wrong = {
        "walks": "; ".join(faults_of_walks(page, crates)),
        "what a reader has to believe": difference(closure(crates), believed(page, crates)),
        "the crates": "; ".join(faults_of_table(page, crates)),
        "crates in PERFORMANCE.md": ", ".join(f"{it} is no crate" for it in timed if it not in crates.libraries),
    }
    for name, why in wrong.items():
        if why:
            print(f"architecture: {name}: {why}")
    failed = sum(1 for why in wrong.values() if why)
    return say(len(wrong) - failed, failed)


if __name__ == "__main__":
    sys.exit(main(sys.argv[1:]))
