"""What a check by the prover says is wrong with a crate: first the causes, whole, and then only how much else rests on them."""
import re

# What a check says while it goes on; it says the same again at its end.
EARLY = "so far: "
# A line that says nothing of what is wrong.
SILENT = re.compile(
    r"(?:logic|statements|crate) \S+ .*|logic=not-proved|only=.*|rattle build: nothing was built.*|\w+ \S+: (?:proved|assumed)|\d+ of \d+ functions checked.*"
    r"|test \S+ \.\.\. ok|\s*"
)
# What isn't proved only since something else isn't, or a definition can't be read.
RESTING = re.compile(
    r"depends? on `[^`]*`, which was (?:rejected|not admitted)|it (?:calls|passes) .*, which (?:is|are) not proved|its contract rests on "
    r"|waits? for (?:the proof of|a callee's proof)"
)
# A function or a type that isn't proved, where other lines say why.
UNPROVED = re.compile(r"\w+ \w+::(\S+): not proved")
# A function whose goals `search` doesn't find.
UNFOUND = re.compile(r"fn \w+::(\S+): no proof: (?!.*(?:it calls|its contract rests on) )")
# A definition that can't be read: no contract that names it can be proved.
REFUSED_DEFINITION = re.compile(r"(?:so far: )?\./specs/\S+: error\b(?!.*depends? on )")


def items_of(lines):
    """What a check says, each item with the indented lines that go on with it, and each of them once."""
    items = []
    for line in lines:
        line = line.removeprefix(EARLY)
        if items and line[:1] in ("", " "):
            items[-1] += f"\n{line}"
        else:
            items.append(line)
    return [it.rstrip() for it in dict.fromkeys(items)]


class Faults:
    """What is wrong with a crate: the causes in the order of the check, the functions that have one of their own, and how many others rest on
    them."""

    def __init__(self, lines):
        said = [it for it in items_of(lines) if not SILENT.fullmatch(it)]
        causes = [it for it in said if not RESTING.search(it.partition("\n")[0])]
        unproved = {it: found[1] for it in causes for found in [UNPROVED.fullmatch(it)] if found}
        others = [it for it in causes if it not in unproved]
        own = {it: name for it, name in unproved.items() if any(f"proofs/{name.replace('::', '/')}/" in other for other in others)}
        # Where everything seems to rest on something else, all of it is printed.
        self.causes = [it for it in causes if it in own or it not in unproved] or said
        self.resting = len(said) - len(self.causes)
        unfound = [found[1] for it in causes for found in [UNFOUND.match(it)] if found]
        self.functions = list(dict.fromkeys([*own.values(), *unfound]))

    def report(self, crate):
        """The lines to print of the crate."""
        yield from (line for it in self.causes for line in it.split("\n"))
        if self.resting:
            yield f"{self.resting} more lines name what only rests on these, and are left out."
        yield from (f"Look at it alone: tools/check_crate.py {crate} --only {it}" for it in self.functions[:3])


def is_early_cause(line):
    """Whether this is an error that a check reports before its end, and not only of what rests on another."""
    return line.startswith(EARLY) and ": error" in line and not RESTING.search(line)


def ends_check(line):
    """Whether nothing that a check could say after this line is worth the wait."""
    return bool(REFUSED_DEFINITION.match(line))
