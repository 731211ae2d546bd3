"""The lemmas and the records of a proof file."""
import re

# A lemma or a definition with a body: its head, and each of its clauses stands in the same column.
HEAD = re.compile(r"^( *)((?:pub |abbrev |unfoldable |opaque )*)((?:[^\s():{}◌]|::)+) :")
RECORD = re.compile(r"^( *)((?:pub )?record )([^\s():{}◌]+)")


def begins_with(line, indent, name):
    """Whether a line in the column of a lemma is one of its clauses."""
    return line.startswith(indent + name) and line[len(indent + name) :][:1] in ("", " ")


class Lemma:
    """A lemma or a record of a file: its name, whether it is public, its lines from the comment in front of it on, how often it names itself to be
    what it is, and the line of its first clause, if it stands in no module of the file and others don't see what it is."""

    def __init__(self, lines, at, head):
        indent, words, name = head.groups()
        self.name, self.start, self.end = name, at, at + 1
        self.is_public, self.is_record = "pub " in words, "record " in words
        while self.start and lines[self.start - 1].startswith(f"{indent}-- ") and not lines[self.start - 1].startswith(f"{indent}-- ----"):
            self.start -= 1
        self.own, self.proof = 1, None
        while self.end < len(lines) and self.goes_on(lines[self.end], indent):
            if begins_with(lines[self.end], indent, name):
                self.own += 1
                self.proof = self.proof or self.end
            self.end += 1
        if indent or {"abbrev", "unfoldable"} & {*words.split()}:
            self.proof = None

    def goes_on(self, line, indent):
        """Whether a line behind the head is still the lemma's."""
        deeper = line.startswith(indent + " ")
        closes = line[len(indent) :][:1] in (")", "]", "}") and line.startswith(indent)
        return deeper or closes or line.startswith(f"{indent}unfolding ") or begins_with(line, indent, self.name)

    def has_body(self):
        return self.is_record or self.own > 1


def lemmas_of(lines):
    """The lemmas and records of a file that have a body: a field of a record has none."""
    heads = [(at, RECORD.match(line) or HEAD.match(line)) for at, line in enumerate(lines)]
    found = [Lemma(lines, at, head) for at, head in heads if head]
    return [it for it in found if it.has_body()]
