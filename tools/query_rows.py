#!/usr/bin/env python3
"""A second reader of queries, with which the rows of crates/mail_query/proofs/Rows*.antt and the tables of
crates/worked_parts/src are compared.

It filters over the grammars: the readings of a text are all its derivations, and a fault shows at the first token behind
which nothing leads to a reading. Words and dates are of the rows' own lexicon, proofs/RowLexicon.antt, or of mail's.
The last line says how many texts were compared; the status is 0 if each row says what this reader does.
"""
import os, re, sys

CRATES = os.path.join(os.path.dirname(os.path.abspath(__file__)), "..", "crates")
PROOFS = os.path.join(CRATES, "mail_query", "proofs")
TABLES = os.path.join(CRATES, "worked_parts", "src")
FEWEST = 490  # texts, in all
MOST_WAITING = 30
SIZE_LIMIT = 2**63 - 1
KINDS = ["to", "cc", "bcc", "from", "subject", "body", "name", "own_id"]


class Fault(Exception):
    """Why a pattern or a term is refused: args[0] is the kind."""


# ---- lexicons


class Lexicon:
    """Words, pieces of words, and the dates that the rows name."""

    def __init__(self, word, piece, size, dates):
        self.word, self.piece, self.size, self.dates = word, piece, size, dates

    def is_word(self, text):
        return len(text.encode()) <= self.size and re.fullmatch(self.word, text) is not None

    def is_piece(self, text):
        return 1 <= len(text.encode()) <= self.size and re.fullmatch(self.piece, text) is not None

    def date(self, text):
        if text not in self.dates:
            raise Fault("BadDate")
        return ("Date", self.dates[text])


ROW_LEXICON = Lexicon("[A-Za-z]+", "[A-Za-z-]*", 6, {"ok": "every_date"})
# a letter or a digit, and joiners between them; the first and the last second of a month
MAIL_LEXICON = Lexicon(r"[^\W_]+([-_.+@]+[^\W_]+)*", r"[\w.+@-]*", 128, {"2003-02": "1044057600 1046476799", "mar": "1046476800 1049155199"})
lexicon = ROW_LEXICON  # main sets the one of the rows that it compares


# ---- queries as laws write them


def codes(text):
    escapes = {"\\": "\\\\", '"': '\\"', "\n": "\\n", "\t": "\\t"}
    return '(codes "%s")' % "".join(escapes.get(c, c) for c in text) if text else "[]"


def joined(name, members):
    return members[0] if len(members) == 1 else (name, members)


def shown(query):
    name, *parts = query
    if name in ("Word", "Part", "Prefix"):
        fields = "; ".join("%s = true" % kind for kind in KINDS if kind in parts[0])
        return "%s (record no_kinds { %s }) %s" % (name, fields, codes(parts[1]))
    if name == "Size":
        return "Size %s %s" % (parts[0], "None" if parts[1] is None else "(Some %d)" % parts[1])
    if name in ("All", "Either"):
        members = "".join("(More %s " % nested(q) for q in parts[0])
        return "%s %sEnd%s" % (name, members, ")" * len(parts[0]))
    return " ".join([name] + [part if isinstance(part, str) else nested(part) for part in parts])


def nested(query):
    return shown(query) if len(query) == 1 else "(%s)" % shown(query)


def row_answer(query, refused):
    return "Asks " + nested(query) if query else "Shows %d %s" % refused


# ---- queries as tables tell them

KIND_LETTERS = {"to": "t", "cc": "c", "bcc": "h", "from": "f", "subject": "s", "body": "b", "name": "n", "own_id": "m"}
FAULT_TEXTS = {
    "NoPattern": "no pattern",
    "BadPrefix": "bad prefix",
    "BadWord": "bad word",
    "Approximate": "approximate match not supported",
    "BadDate": "bad date",
    "BadSize": "bad size",
    "BadFlag": "bad flag",
    "NeedsOperator": "operator needed",
    "BadParenthesis": "bad parenthesis",
    "MissingTerm": "term missing",
    "TooDeep": "too deep",
    "Phrase": "phrase not supported",
}


def told(query):
    name, *parts = query
    if name in ("Word", "Part", "Prefix"):
        letters = "".join(KIND_LETTERS[kind] for kind in KINDS if kind in parts[0])
        return "%s %s %s" % (name.lower(), letters, parts[1])
    if name == "Size":
        return "size %d %s" % (parts[0], "-" if parts[1] is None else parts[1])
    if name == "HasFlag":
        return "flag %s%s" % ("" if parts[1] == "true" else "-", parts[0][0].lower())
    if name in ("All", "Either"):
        return "%s(%s)" % (name.lower(), ", ".join(told(q) for q in parts[0]))
    return " ".join([name.lower()] + [part if isinstance(part, str) else told(part) for part in parts])


def told_answer(query, refused):
    return told(query) if query else "query item %d: %s" % (refused[0], FAULT_TEXTS[refused[1]])


# ---- mairix patterns

LETTERS = {"t": ["to"], "c": ["cc"], "f": ["from"], "s": ["subject"], "b": ["body"], "a": ["to", "cc", "from"], "n": ["name"]}
FLAGS = {"s": "Seen", "r": "Replied", "f": "Flagged"}


class Words:
    """What stands behind the word prefixes: words and pieces of words, folded."""

    def __init__(self, kinds):
        self.kinds = kinds

    def words(self, text):
        return [text.casefold()] if lexicon.is_word(text) else []

    def parts(self, text):
        return [text.casefold()] if lexicon.is_piece(text) else []


class Ids:
    """What stands behind `m:`: texts without a sign of the grammar, as they are written."""

    kinds = ["own_id"]

    def words(self, text):
        angled = len(text) > 1 and text[0] == "<" and text[-1] == ">"
        return [part[1:-1] if angled else part for part in self.parts(text) if not angled or len(text) > 2]

    def parts(self, text):
        return [text] if re.fullmatch("[^~,/=^]+", text) else []


def atoms(forms, text):
    found = [("Word", forms.kinds, word) for word in forms.words(text)]
    if text.endswith("="):
        found += [("Part", forms.kinds, part) for part in forms.parts(text[:-1])]
        if text.startswith("^"):
            found += [("Prefix", forms.kinds, part) for part in forms.parts(text[1:-1])]
    return found


def terms(forms, text):
    return atoms(forms, text) + ([("Not", q) for q in atoms(forms, text[1:])] if text[:1] == "~" else [])


def chains(text, sign, readings):
    """The readings of a text as one member or more, with the sign between them."""
    found = [[q] for q in readings(text)]
    for i in (i for i, c in enumerate(text) if c == sign):
        found += [[q] + qs for q in readings(text[:i]) for qs in chains(text[i + 1 :], sign, readings)]
    return found


def rest(forms, text):
    alls = lambda part: [joined("All", qs) for qs in chains(part, ",", lambda term: terms(forms, term))]
    found = [joined("Either", qs) for qs in chains(text, "/", alls)]
    if found:
        assert len(found) == 1, text
        return found[0]
    faulty = next(term for term in re.split("[/,]", text) if not terms(forms, term))
    raise Fault("Approximate" if re.search(r"=[0-9]+\Z", faulty) else "BadWord")


def size(text):
    found = re.fullmatch("([0-9]{1,18})([kKmM]?)", text)
    value = int(found[1]) * {"": 1, "k": 1024, "m": 1048576}[found[2].lower()] if found else SIZE_LIMIT + 1
    if value > SIZE_LIMIT:
        raise Fault("BadSize")
    return value


def sizes(text):
    found = re.fullmatch("([^-]*)-([^-]*)", text)
    if not found:
        raise Fault("BadSize")
    low, high = found.groups()
    return ("Size", size(low) if low else 0, size(high) if high else None)


def flags(text):
    if not re.fullmatch("(-?[srfSRF])+", text):
        raise Fault("BadFlag")
    asked = re.findall("(-?)([srfSRF])", text)
    return joined("All", [("HasFlag", FLAGS[letter.lower()], "false" if dash else "true") for dash, letter in asked])


def pattern(text):
    prefix, colon, behind = text.partition(":")
    if not colon:
        return rest(Words(["to", "cc", "from", "subject", "body"]), text)
    if prefix in ("m", "d", "z", "F"):
        return {"m": lambda part: rest(Ids(), part), "d": lexicon.date, "z": sizes, "F": flags}[prefix](behind)
    if not prefix or set(prefix) - set(LETTERS):
        raise Fault("BadPrefix")
    return rest(Words([kind for letter in prefix for kind in LETTERS[letter]]), behind)


def patterns_answer(texts):
    """The query of patterns and None, or None and their fault."""
    queries = []
    for number, text in enumerate(texts, 1):
        try:
            queries.append(pattern(text))
        except Fault as refused:
            return None, (number, refused.args[0])
    return (joined("All", queries), None) if queries else (None, (1, "NoPattern"))


# ---- boolean queries

FIELDS = {"from": ["from"], "to": ["to", "cc", "bcc"], "subject": ["subject"], "body": ["body"]}
PREFIXES = [*FIELDS, "id", "date"]
SIGNS = ("(", ")", "and", "or", "not")


def tokens(text):
    runs = re.findall(r"[()]|[^() \t\n]+", text)
    return [run.lower() if run.lower() in SIGNS else run for run in runs]


def prefix_of(term):
    return term.partition(":")[0] if ":" in term else None


def word(kinds, text):
    if lexicon.is_word(text):
        return ("Word", kinds, text.casefold())
    if text.endswith("*") and lexicon.is_piece(text[:-1]):
        return ("Prefix", kinds, text[:-1].casefold())
    raise Fault("BadWord")


def term_query(term):
    """What a term asks; a quotation mark and a prefix of no field are seen before."""
    prefix, colon, behind = term.partition(":")
    if term == "*":
        return ("Any",)
    if not colon:
        if term.lower() == "xor":
            raise Fault("BadWord")
        return word(KINDS[: KINDS.index("name")], term)
    if not behind or (prefix == "id" and behind == "<>"):
        raise Fault("MissingTerm")
    if prefix == "id":
        return ("Word", ["own_id"], behind[1:-1] if re.fullmatch("<.*>", behind) else behind)
    return lexicon.date(behind) if prefix == "date" else word(FIELDS[prefix], behind)


class Grammar:
    """The derivations of a list of tokens: `each` is a list of pairs (is `and` before it, some)."""

    def __init__(self, ts):
        self.ts, self.known = ts + [None], {}

    def derive(self, symbol, i):
        """All pairs of a derivation of the symbol from token i on, and where it ends."""
        if (symbol, i) not in self.known:
            self.known[symbol, i] = list(getattr(self, symbol)(i))
        return self.known[symbol, i]

    def some(self, i):
        t = self.ts[i]
        if t == "not":
            yield from ((("not", inner), end) for inner, end in self.derive("some", i + 1))
        elif t == "(":
            yield from ((("(", inner), end + 1) for inner, end in self.derive("either", i + 1) if self.ts[end] == ")")
        elif t is not None and t not in SIGNS:
            yield ("term", t), i + 1

    def each(self, i):
        for first, end in self.derive("some", i):
            yield [(False, first)], end
            for by_and in (False, True) if self.ts[end] == "and" else (False,):
                for more, last in self.derive("each", end + by_and):
                    yield [(False, first), (by_and, more[0][1])] + more[1:], last

    def either(self, i):
        for first, end in self.derive("each", i):
            yield [first], end
            if self.ts[end] == "or":
                yield from (([first] + more, last) for more, last in self.derive("either", end + 1))


def is_allowed(tree, waiting):
    """Whether few enough `(` and `not` wait in a tree, its terms ask something, and no run in it has two of one prefix."""
    name, inner = tree
    if name == "term":
        try:
            return bool(term_query(inner))
        except Fault:
            return False
    if waiting == MOST_WAITING:
        return False
    return is_allowed(inner, waiting + 1) if name == "not" else are_allowed(inner, waiting + 1)


def are_allowed(eaches, waiting):
    for each in eaches:
        seen = set()
        for by_and, some in each:
            seen = set() if by_and else seen
            prefix = prefix_of(some[1]) if some[0] == "term" else None
            if prefix in seen or not is_allowed(some, waiting):
                return False
            seen |= {prefix} - {None}
    return True


def query_of(tree):
    name, inner = tree
    if name == "term":
        return term_query(inner)
    if name == "not":
        return ("Not", query_of(inner))
    return joined("Either", [joined("All", [query_of(some) for _, some in each]) for each in inner])


def reading(ts):
    """The tree of tokens that the grammar reads, as a group, or None."""
    found = [eaches for eaches, end in Grammar(ts).derive("either", 0) if end == len(ts)]
    assert len(found) <= 1, ts
    return ("(", found[0]) if found and are_allowed(found[0], 0) else None


def closed(ts):
    return ts + [")"] * (ts.count("(") - ts.count(")"))


def leads_on(ts):
    """Whether something behind the tokens leads to a reading: a term if one must stand, and the parentheses that are open."""
    return reading(closed(ts)) is not None or reading(closed(ts + ["x"])) is not None


def kind_at(before, t):
    """The kind of the fault at a token, where the tokens before it lead on and with it they don't."""
    prefix = prefix_of(t) if t else None
    if t not in SIGNS and t and '"' in t:
        return "Phrase"
    if prefix is not None and prefix not in PREFIXES:
        return "BadPrefix"
    if t in ("(", "not"):
        return "TooDeep"
    if t == ")" and before.count("(") == before.count(")"):
        return "BadParenthesis"
    if t in ("and", "or", ")", None):
        return "MissingTerm" if reading(closed(before)) is None else "BadParenthesis"
    if prefix and not leads_on(before + [prefix + ":" + (next(iter(lexicon.dates)) if prefix == "date" else "x")]):
        return "NeedsOperator"
    try:
        raise AssertionError(term_query(t))
    except Fault as refused:
        return refused.args[0]


def is_phrase_or_unknown(t):
    return t not in SIGNS and ('"' in t or (prefix_of(t) is not None and prefix_of(t) not in PREFIXES))


def boolean_answer(text):
    """The query of a text and None, or None and its first fault."""
    ts = tokens(text)
    if not ts:
        return None, (1, "NoPattern")
    for k, t in enumerate(ts):
        if is_phrase_or_unknown(t) or not leads_on(ts[: k + 1]):
            return None, (k + 1, kind_at(ts[:k], t))
    tree = reading(ts)
    return (query_of(tree), None) if tree else (None, (len(ts) + 1, kind_at(ts, None)))


# ---- the rows


def unquoted(text):
    return [
        re.sub(r"\\(.)", lambda found: {"n": "\n", "t": "\t"}.get(found[1], found[1]), quoted)
        for quoted in re.findall(r'codes "((?:[^"\\]|\\.)*)"|\[\](?= ∷)', text)
    ]


def rows(name):
    """The rows of a file: a text, or the list of patterns, and what it asks, or the fault that it shows."""
    row = r'^(?:rows :|    ×) (Asks|Shows) (\[\]|\((?:codes "(?:[^"\\]|\\.)*"|\[\]| ∷ )+\)) (.*)$'
    with open(os.path.join(PROOFS, name), encoding="utf-8") as f:
        # A row may have several lines.
        lines = re.sub(r"\n +(?![ ×])", " ", f.read())
    return [(text, "%s %s" % (word, answer)) for word, text, answer in re.findall(row, lines, re.M)]


def table(name):
    """The rows of a table: the text, and what is told of it."""
    with open(os.path.join(TABLES, name), encoding="utf-8") as f:
        (text,) = re.findall(r'const \w+: &str = "\\\n((?:[^"\\]|\\.|\\\n)*)";', f.read())
    lines = re.sub(r"\\(?:\n\s*|(.))", lambda found: found[1] or "", text).splitlines()
    return [tuple(line.split(" => ")) for line in lines]


def main():
    global lexicon
    wrong, texts = [], set()

    def compare(text, wanted, answer):
        texts.add(text)
        if wanted != answer:
            wrong.append((text, wanted, answer))

    for text, answer in rows("RowsMairix.antt"):
        compare("patterns " + text, row_answer(*patterns_answer(unquoted(text))), answer)
    for text, answer in rows("RowsBoolean.antt"):
        compare("boolean " + text, row_answer(*boolean_answer("".join(unquoted(text)))), answer)
    lexicon = MAIL_LEXICON
    for text, answer in table("patterns.rt"):
        compare("patterns %s of mail" % text, told_answer(*patterns_answer(text.split(", ") if text else [])), answer)
    for text, answer in table("boolean_texts.rt"):
        compare("boolean %s of mail" % text, told_answer(*boolean_answer(text)), answer)
    for text, wanted, answer in wrong:
        print("%s: %s, and the row says %s" % (text, wanted, answer))
    print("%d texts, %d rows that say something else" % (len(texts), len(wrong)))
    return 1 if wrong or len(texts) < FEWEST else 0


if __name__ == "__main__":
    sys.exit(main())
