#!/usr/bin/env python3
"""Prints the signatures of the public calls of crates: functions first, and then the calls of each type and trait, with
what they require. The traits that a type has are heads without calls. Laws are functions that take nothing.

    tools/signatures.py CRATE ..
"""
import re
import sys
from itertools import groupby
from pathlib import Path

CRATES = Path(__file__).resolve().parent.parent / "crates"
# Traits whose implementations no caller needs to know of.
MINOR_TRAITS = {"Model", "Drop", "From", "fmt::Display", "Error"}


def joined(signature):
    """A signature on one line, wherever its lines are broken."""
    return re.sub(r",? \)", ")", " ".join(signature.split()).replace("( ", "("))


def end_of_bracket(text, start):
    """Where the bracket that opens here is closed."""
    depth = 0
    for place in range(start, len(text)):
        depth += (text[place] in "({") - (text[place] in ")}")
        if depth == 0:
            return place + 1
    return len(text)


def signature_at(text, start):
    """The signature that begins here, with each `requires` of it, and without its other clauses."""
    end = end_of_bracket(text, text.index("(", start))
    end += re.match(r"[^\n{]*", text[end:]).end()
    found = [text[start:end].rstrip(" ;")]
    while clause := re.compile(r"\s*(requires|ensures\*?)(?: \w+)? (?=\{)").match(text, end):
        end = end_of_bracket(text, clause.end())
        if clause[1] == "requires":
            found.append(text[clause.start() : end])
    return joined("".join(found))


def name_of_head(head):
    """The name after `trait`, after `impl`, or after `impl TRAIT for`; and in this last case the trait."""
    while "<" in head:
        head = re.sub(r"<[^<>]*>", "", head)
    words = head.split()
    if words[0] == "impl":
        return words[-1], words[1] if "for" in words else ""
    return words[words.index("trait") + 1].rstrip(":"), ""


def signatures_in(text):
    """What a text declares for others: each call as the head above it, or none, and its signature. An implementation
    of a trait is a head without a signature."""
    for call in re.finditer(r"(?m)^pub fn ", text):
        yield "", signature_at(text, call.start())
    for head in re.finditer(r"(?m)^(?:(?:pub )?trait|impl)\b[^{\n]*", text):
        if name_of_head(head[0])[1]:
            yield joined(head[0]), ""
            continue
        body = text[head.end() : text.find("\n}", head.end())]
        for call in re.finditer(r"(?m)^    (?:pub )?fn " if "trait " in head[0] else r"(?m)^    pub fn ", body):
            yield joined(head[0]), signature_at(body, call.start() + 4)


def exported_names(crate):
    """The names that a crate's lib.rt declares, or exports from its own modules, each with the file that has it."""
    text = (CRATES / crate / "src/lib.rt").read_text("utf-8")
    yield from ((name, f"{crate}/src/lib.rt") for name in re.findall(r"(?m)^pub (?:fn|struct|enum|trait) (\w+)", text))
    for path, names in re.findall(r"(?m)^pub use ([\w:]+)::(\w+|\{[^}]*\});", text):
        if re.search(rf"(?m)^mod {path.partition('::')[0]};", text):
            yield from ((name, f"{crate}/src/{path.replace('::', '/')}.rt") for name in re.findall(r"\w+", names))


def public_signatures(crate):
    """The calls that a crate exports: functions, calls of types and traits, and the traits that its types have."""
    exported = dict(exported_names(crate))
    for name, path in exported.items():
        declared = signatures_in((CRATES / path).read_text("utf-8"))
        yield from (it for it in declared if not it[0] and re.match(rf"pub fn {name}\b", it[1]))
    for path in sorted((CRATES / crate / "src").rglob("*.rt")):
        for head, signature in signatures_in(path.read_text("utf-8")):
            name, trait = name_of_head(head) if head else ("", "")
            if name in exported and trait not in MINOR_TRAITS:
                yield head, signature


def lines_of(crate):
    """The signatures of a crate as they are printed."""
    for head, calls in groupby(public_signatures(crate), key=lambda it: it[0]):
        signatures = [it for _, it in calls if it]
        indent = "    " if head else ""
        yield f"{head} {{" if head and signatures else head
        for signature in signatures:
            call, *required = re.split(r" (?=requires(?: \w+)? \{)", signature)
            yield from [f"{indent}{call}", *(f"{indent}    {it}" for it in required)]
        yield "}" if head and signatures else ""


def main(crates):
    if not crates or any(not (CRATES / it / "src/lib.rt").exists() for it in crates):
        sys.exit(__doc__)
    for crate in crates:
        print(*(it for it in lines_of(crate) if it), sep="\n")


if __name__ == "__main__":
    main(sys.argv[1:])
