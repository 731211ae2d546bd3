#!/usr/bin/env python3
"""Lines of definitions, of proofs and of the tools that try edits above 120 columns, and lines of contracts in the code
above 100. None is right, unless one text or name makes it so long, or it is an import of a proof: all names of one path
are on one line there, since nobody reads them.

    long_lines.py [--write]

A contract's lines are those of a `requires`, of an `ensures`, and of what begins with `ghost`, up to the closing brace;
`ghost use` is an import, and none of them.

--write breaks those of definitions, proofs and contracts at spaces, each at the last place before the limit where the
fewest brackets are open, and indents what follows by four columns more. A text of antt's means the same with such
breaks, as long as what follows a declaration's first line is indented more than that line.

The last line is `N passed, M failed`: files with and without such lines.
"""
import re
import sys
from pathlib import Path

sys.dont_write_bytecode = True
from verdict import say

TOP = Path(__file__).resolve().parent.parent
MOST = 120
MOST_IN_CONTRACT = 100
STEP = 4
# What the gate runs to try edits.
TOOLS_OF_EDITS = ("check_must_fail", "edits", "function_bodies", "must_fail")
CONTRACT = re.compile(r"\s*(?:requires|ensures|(?:pub )?ghost (?!use ))\b")
IMPORT = re.compile(r"((?:unfoldable )?(?:pub )?use [^{}]*\.\{)([^{}]*)\}")
TEXT = re.compile(r'"(?:[^"\\]|\\.)*"')
OPEN, CLOSE = "([{", ")]}"
# A line is best broken in front of one of these, or after one of those.
BEFORE = ("→", "×", "⊎", "≡", "∙", "in", "where", "then", "else", "=")
AFTER = ("=", ",", ";")


def files():
    """The files, each with the most columns of its lines, and what says whether the limit is for a line."""
    for part, limited in (("specs", each_line), ("proofs", no_imports)):
        for file in TOP.glob(f"crates/*/{part}/**/*.antt"):
            yield file, MOST, limited
    for file in TOP.glob("crates/*/src/**/*.rt"):
        yield file, MOST_IN_CONTRACT, contract_lines
    for name in TOOLS_OF_EDITS:
        yield TOP / f"tools/{name}.py", MOST, each_line


def each_line(lines):
    return [True] * len(lines)


def no_imports(lines):
    """Whether each line is no import of names."""
    return [not IMPORT.fullmatch(line) for line in lines]


def contract_lines(lines):
    """Whether each line is one of a contract."""
    marks, depth = [], 0
    for line in lines:
        is_in = depth > 0 or bool(CONTRACT.match(line))
        depth += is_in * (blanked(line).count("{") - blanked(line).count("}"))
        marks.append(is_in)
    return marks


def is_long(line, most):
    """Whether a line is too long, and not only for one text or name that it has."""
    imported = IMPORT.fullmatch(line)
    if imported and ", " not in imported[2]:
        return False
    return len(line) > most and any(at <= most for at, _ in places(line, len(line) - len(line.lstrip(" "))))


def blanked(line):
    """The line without its texts, in which nothing can be broken."""
    return TEXT.sub(lambda text: "_" * len(text[0]), line)


def places(line, indent):
    """The spaces at which a line can be broken, each with how many brackets are open there."""
    depth = 0
    for at, sign in enumerate(blanked(line)):
        if sign in OPEN:
            depth += 1
        elif sign in CLOSE:
            depth -= 1
        elif sign == " " and at > indent:
            yield at, depth


def cost(line, at, depth):
    """How bad a break at this space is: by the brackets that are open, and then by the words around it."""
    following = line[at + 1 :].split(" ", 1)[0]
    preceding = line[:at].rsplit(" ", 1)[-1]
    is_good = following in BEFORE or preceding.endswith(AFTER)
    return depth, not is_good, -at


def imports(head, names):
    """The lines of an import of many names."""
    lines, line = [], head
    for name in names.split(", "):
        if line != head and len(line) + len(name) + 3 > MOST:
            lines, line = [*lines, line + "}"], head
        line += name if line == head else f", {name}"
    return [*lines, line + "}"]


def broken(line, most, first_indent=None):
    """The lines that a long line becomes."""
    indent = len(line) - len(line.lstrip(" "))
    follows = (indent if first_indent is None else first_indent) + STEP
    if len(line) <= most:
        return [line]
    imported = IMPORT.fullmatch(line)
    if imported:
        return imports(*imported.groups())
    if line.lstrip().startswith("--"):
        at = line.rfind(" ", indent + 4, most + 1)
        if at < 0:
            return [line]
        return [line[:at].rstrip(), *broken(" " * indent + "-- " + line[at + 1 :], most)]
    comment = blanked(line).find(" -- ")
    if comment >= 0:
        remark = " " * indent + line[comment + 1 :].strip()
        return [*broken(remark, most), *broken(line[:comment].rstrip(), most, first_indent)]
    # Not so early that what follows is hardly shorter.
    least = indent + (most - indent) // 3
    within = [(at, depth) for at, depth in places(line, indent) if at <= most]
    late = [it for it in within if it[0] >= least]
    if not within:
        return [line]
    at = min(late or within, key=lambda it: cost(line, *it))[0]
    return [line[:at].rstrip(), *broken(" " * follows + line[at + 1 :].lstrip(), most, follows - STEP)]


def main(is_written):
    passed = failed = 0
    for file, most, limited in sorted(files()):
        lines = file.read_text("utf-8").split("\n")
        long = [is_in and is_long(line, most) for line, is_in in zip(lines, limited(lines))]
        if any(long) and is_written and file.suffix != ".py":
            parts = [broken(line, most) if is_bad else [line] for line, is_bad in zip(lines, long)]
            file.write_text("\n".join(part for each in parts for part in each), "utf-8")
        elif any(long):
            for number, line in enumerate(lines, 1):
                if long[number - 1]:
                    print(f"{file.relative_to(TOP)}:{number}: {len(line)} columns, and at most {most} are right")
        passed, failed = passed + (not any(long)), failed + any(long)
    status = say(passed, failed)
    return 0 if is_written else status


if __name__ == "__main__":
    sys.exit(main("--write" in sys.argv[1:]))
