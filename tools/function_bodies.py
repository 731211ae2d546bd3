"""Where the bodies of functions stand in a file of Rattle, each under the name by which a check prints its function.

A function `f` of the module `m` of the crate `c` is `c::m::f`, a method `c::m::Type::f`, and a method of a trait's impl
`c::m::TypeTrait::f`. A function inside another's body belongs to that body.
"""
import re

# What may hide braces: comments, strings, characters.
HIDDEN = re.compile(r'//[^\n]*|/\*.*?\*/|\bb?r(#*)".*?"\1|b?"(?:\\.|[^"\\])*"|b?\'(?:\\[^\n]{1,9}?|[^\\\n])\'', re.S)
ITEM = re.compile(r"^( *)(?:pub(?:\([^)]*\))? )?(?:(impl\b[^{;]*)\{|(?:const |unsafe )*fn (\w+))", re.M)
# A brace behind one of these words opens a clause, and not the body.
CLAUSE = re.compile(r"\b(ensures|requires|ghost)\b[^{}]*$")


def blanked(text):
    """The text, with spaces in place of what may hide braces."""
    return HIDDEN.sub(lambda hidden: re.sub(r"[^\n]", " ", hidden[0]), text)


def block_end(text, at):
    """The place behind the block that opens at `at`."""
    depth = 0
    for brace in re.compile(r"[{}]").finditer(text, at):
        depth += 1 if brace[0] == "{" else -1
        if depth == 0:
            return brace.end()
    return len(text)


def impl_name(head):
    """The name that a check gives an impl: `TypeTrait`, or `Type` where it is of no trait."""
    generic = re.match(r"impl\s*(<(?:[^<>]|<[^<>]*>)*>)?", head.strip())
    parameters = re.findall(r"(?:^<|,)\s*(\w+)", generic[1] or "")
    head = head.strip()[generic.end() :]
    trait, _, owner = re.sub(r"\bwhere\b.*", "", head, flags=re.S).rpartition(" for ")
    # The parameters of a trait's own parameters are no part of the name.
    trait = re.sub(r"(?<=\w)<[^<>]*>(?=.*>)", "", trait)
    base = re.match(r"[\w:]*", owner.strip())[0].rpartition("::")[2]
    return base + "".join(it for it in re.findall(r"\w+", re.sub(r"'\w+|\b\w+::", "", trait)) if it not in parameters)


def inherent(impl):
    """The head of a trait's impl, and its imports for contracts, as those of an impl of no trait."""
    head, _, inside = impl.partition("{")
    parameters = re.match(r"\s*impl\s*(<(?:[^<>]|<[^<>]*>)*>)?", head)[0].strip()
    return f"{parameters} {head.rpartition(' for ')[2].strip()}", re.findall(r"^ *ghost use [^;]*;", inside, re.M)


def body_of(text, at):
    """The start and the end of the body of the function whose name ends at `at`, or None where it has no body."""
    depth = 0
    mark = re.compile(r"[{;(\[\])]").search(text, at)
    while mark:
        at, sign = mark.start(), mark[0]
        depth += (sign in "([") - (sign in ")]")
        if sign == ";" and not depth:
            return None
        if sign == "{" and not depth:
            end = block_end(text, at)
            if not CLAUSE.search(text[:at]):
                return at, end
            at = end - 1
        mark = re.compile(r"[{;(\[\])]").search(text, at + 1)
    return None


def bodies(text, module, in_impl=False):
    """Yields the start, the end and the name of each function's body. The text is blanked."""
    for item in ITEM.finditer(text):
        indent, impl, function = item.groups()
        start = item.end()
        if impl:
            inside = text[start : block_end(text, start - 1)]
            for begins, ends, name in bodies(inside, f"{module}::{impl_name(impl)}", in_impl=True):
                yield start + begins, start + ends, name
        elif in_impl or not indent:
            body = body_of(text, start)
            if body:
                yield *body, f"{module}::{function}"


def module_of(crate, path):
    """The module that a file below src/ is, as `c::m::n`."""
    module = re.sub(r"(^|/)(lib|main|mod)$", "", path[len("src/") : -len(".rt")]).replace("/", "::")
    return f"{crate}::{module}".removesuffix("::")


def bodies_of_file(crate, path, text):
    """The bodies of the functions of a file of this crate, in its order; none outside src/."""
    if not (path.startswith("src/") and path.endswith(".rt")):
        return []
    return list(bodies(blanked(text), module_of(crate, path)))


def item_of(text, body):
    """Where the item of a function starts whose body begins at `body`, with its comments and attributes, and the start
    and the end of the trait's impl that it stands in, or None."""
    blank = blanked(text)
    heads = [it for it in ITEM.finditer(blank) if it.end() <= body]
    start = next(it.start() for it in reversed(heads) if it[3])
    lines = text[:start].split("\n")[:-1]
    while lines and lines[-1].lstrip().startswith(("//", "#[")):
        start -= len(lines.pop()) + 1
    impls = [(it.start(), block_end(blank, it.end() - 1)) for it in heads if it[2] and re.search(r"\bfor\b", it[2])]
    return start, next((it for it in impls if body < it[1]), None)
