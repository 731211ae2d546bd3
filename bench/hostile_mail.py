"""Hostile mail, rcfiles and queries: what bench/hostile.py lets the program index and search, with the answers, worked out by hand.

Each shape writes its files for any size, and says what is then searched and how many messages are found.
"""
import os
from dataclasses import dataclass, field

SEPARATOR = b"From a@x.org Thu Jan  2 10:00:00 2003\n"
SEARCHED = b"Subject: behind\n\nlast\n"

# What docs/DECISIONS.md says that is kept: of a header so many bytes, and of a word.
HEADER_LIMIT = 262_144
WORD_LIMIT = 128
# Linux takes no longer word of a command line, and not more of all words with a pointer to each.
LONGEST_WORD = 131_071


@dataclass
class Search:
    """A search: its words behind the rcfile's, how many messages it finds, and its status where that isn't 0 for some and 1 for none."""

    name: str
    words: list
    found: int
    refused: int = 0

    @property
    def status(self):
        return self.refused or int(not self.found)


@dataclass
class Room:
    """A folder in which the program runs: its archives and its rcfile."""

    folder: str
    archives: list = field(default_factory=lambda: ["m.mbox"])
    before: str = ""

    def path(self, name):
        return os.path.join(self.folder, name)

    def archive(self, *messages, name="m.mbox"):
        """Writes an archive. A message is its text, or its text in pieces."""
        with open(self.path(name), "wb") as out:
            for message in messages:
                out.write(SEPARATOR)
                out.writelines([message] if isinstance(message, bytes) else message)
                out.write(b"\n")

    def settings(self):
        """The lines of the rcfile that C mairix reads too."""
        return "mbox=%s\n" % ":".join(self.archives)

    def rcfiles(self):
        """Writes the rcfile, and that of C mairix."""
        with open(self.path("rc"), "w") as out:
            out.write(self.before + self.settings() + "database=m.idx\nmfolder=hits\n")
        with open(self.path("c-rc"), "w") as out:
            out.write(self.before + "base=%s\n" % self.folder + self.settings() + "database=c.idx\nmfolder=c-hits\nmformat=mbox\n")

    def size(self):
        """The bytes of all that a run reads but the index."""
        return sum(os.path.getsize(self.path(name)) for name in ["rc"] + self.archives)


def many(piece, count):
    """So many copies of a few bytes, in pieces."""
    most = max(1, 1_000_000 // len(piece))
    return [piece * most] * (count // most) + [piece * (count % most)]


def letters(number, width):
    """A number as a word of letters."""
    word = bytearray()
    for _ in range(width):
        number, last = divmod(number, 26)
        word.append(ord("a") + last)
    return bytes(reversed(word))


# Shapes of one message, behind which an ordinary one comes.


def nested_multiparts(room, count):
    parts = [b"Content-Type: multipart/mixed; boundary=b%d\n\n--b%d\n" % (n, n) for n in range(count)]
    room.archive(parts + [b"\ndeep\n"], SEARCHED)
    # Parts more than 16 deep give nothing.
    return [Search("b:deep/last", ["b:deep/last"], 1)]


def delimiters(room, count):
    parts = [b"Content-Type: multipart/mixed; boundary=b%d\n\n--b%d\n" % (n, n) for n in range(16)]
    room.archive(parts[:15] + many(b"--b14\n\nx\n", count) + [b"--b14\n\ndeep\n"], SEARCHED)
    return [Search("b:deep/last", ["b:deep/last"], 2)]


def empty_parts(room, count):
    opened = b"Content-Type: multipart/mixed; boundary=b\n\n"
    room.archive([opened] + many(b"--b\n\n", count) + [b"--b\n\ndeep\n--b--\noutside\n"], SEARCHED)
    return [Search("b:deep/last/outside", ["b:deep/last/outside"], 2)]


def parameters_of_one_part(room, count):
    head = [b"Content-Type: multipart/mixed"] + [b";\n p%d=v" % n for n in range(count)] + [b";\n boundary=b\n"]
    room.archive(head + [b"\n--b\nContent-Type: text/html\n\n<deep>\n"], SEARCHED)
    # Where the boundary isn't kept the message is text, and the tag a word.
    return [Search("b:deep/last", ["b:deep/last"], 1 + (sum(map(len, head)) > HEADER_LIMIT))]


def parameters_of_five_parts(room, count):
    kept = [b";\n p%d=v" % n for n in range(count // 5)]
    part = [b"\n--b\nContent-Type: multipart/mixed"] + kept + [b";\n boundary=c\n\n--c\nContent-Type: text/html\n\n<none>deep\n--c--\n"]
    if sum(map(len, part)) > HEADER_LIMIT:
        part = [b"\n--b\nContent-Type: text/plain", *kept, b"; none=deep\n\ndeep\n"]
    room.archive([b"Content-Type: multipart/mixed; boundary=b\n"] + part * 5 + [b"--b--\n"], SEARCHED)
    return [Search("b:deep/last", ["b:deep/last"], 2)]


def subject_of_one_line(room, count):
    room.archive([b"Subject: front "] + many(b"word ", count // 5) + [b"outside\n\ndeep\n"], SEARCHED)
    return [Search("s:front,~outside b:deep", ["s:front,~outside", "b:deep"], 1)]


def folded_subject(room, count):
    room.archive([b"Subject: front\n"] + many(b" word word\n", count // 11) + [b" outside\n\ndeep\n"], SEARCHED)
    return [Search("s:front,~outside b:deep", ["s:front,~outside", "b:deep"], 1)]


def line_of_words(room, count):
    room.archive([b"\n"] + many(b"word ", count // 5) + [b"deep\n"], SEARCHED)
    return [Search("b:deep,word", ["b:deep,word"], 1)]


def line_of_one_word(room, count):
    room.archive([b"\n"] + many(b"a", count) + [b" deep\n"], SEARCHED)
    # A word of too many bytes is none.
    return [Search("b:deep", ["b:deep"], 1)]


def line_of_joiners(room, count):
    room.archive([b"\n"] + many(b"a-", count // 2) + [b" deep\n"], SEARCHED)
    return [Search("b:deep,a", ["b:deep,a"], 1)]


def line_of_base64(room, count):
    # The letters spell `wordword` and so on: one word.
    room.archive([b"Content-Transfer-Encoding: base64\n\n"] + many(b"d29yZCB3b3Jk", count // 12) + [b"\n"], SEARCHED)
    return [Search("b:word/last", ["b:word/last"], 2)]


def open_tags(room, count):
    room.archive([b"Content-Type: text/html\n\n"] + many(b"<a <b <c\n", count // 9) + [b"none\n"], SEARCHED)
    return [Search("b:none/last", ["b:none/last"], 1)]


def references_of_one_message(room, count):
    head = [b"Message-ID: <start@x>\nReferences:\n"] + [b" <%d@x>\n" % n for n in range(count)]
    room.archive(head + [b"\nx\n"], b"Message-ID: <0@x>\n\nx\n", b"Message-ID: <%d@x>\n\nx\n" % (count - 1))
    # The last is linked where the header is kept whole.
    return [Search("-t m:start@x", ["-t", "m:start@x"], 2 + (sum(map(len, head)) <= HEADER_LIMIT))]


def almost_separators(room, count):
    """Lines that begin as separators do, behind an empty line each, and have many times in them and no year."""
    line = b"\nFrom " + b"10:00 " * 1_000 + b"\n"
    room.archive([b"\n"] + many(line, count // len(line)) + [b"deep\n"], SEARCHED)
    return [Search("b:deep/last", ["b:deep/last"], 2)]


# Shapes of many messages.


def many_fields(room, count):
    fields = b"a:b\n" * 60_000
    room.archive(*[fields + b"Subject: front\n\nx\n"] * count)
    return [Search("s:front", ["s:front"], count)]


def kept_references(room, count):
    each = 20_000
    starts = range(0, count, each)
    # Each message shares its last reference with the next one.
    messages = [[b"Message-ID: <m%d@x>\nReferences:\n" % n] + [b" <%d@x>\n" % k for k in range(n, n + each + 1)] + [b"\nx\n"] for n in starts]
    room.archive(*messages)
    return [Search("-t m:m0@x", ["-t", "m:m0@x"], len(starts))]


def encoded_words_without_end(room, count):
    subjects = [b"Subject: front\n" + b"".join(b" " + word * 6_000 + b"\n" for _ in range(4)) + b"\nx\n" for word in (b"=?utf-8?q?", b"=?utf-8?b?QQ")]
    room.archive(*(subjects[n % 2] for n in range(count)))
    return [Search("s:front", ["s:front"], count)]


def long_words(room, count):
    """Words of as many bytes as are kept, each of which shares all but its last letter with a next one."""
    front, each = b"a" * (WORD_LIMIT - 5), 1_000
    room.archive(*([b"\n"] + [front + letters(n, 5) + b"\n" for n in range(start, start + each)] for start in range(0, count, each)))
    last = (front + letters(count - 1, 5)).decode()
    return [Search("b: one of them", ["b:" + last], 1), Search("b:^a=", ["b:^a="], count // each)]


def falling_words(room, count):
    """Words that are all distinct, each before the last in order."""
    each = 1_000
    room.archive(*([b"\n"] + [letters(n, 5) + b"\n" for n in range(start - 1, start - each - 1, -1)] for start in range(count, 0, -each)))
    return [Search("b:aaaaa", ["b:aaaaa"], 1), Search("b:a=", ["b:a="], count // each)]


def messages_of_one_line(room, count):
    room.archive(*[b"\nx\n"] * count)
    return [Search("b:x", ["b:x"], count)]


def chain(room, count):
    room.archive(*(b"Message-ID: <%d@x>\nIn-Reply-To: <%d@x>\n\nx\n" % (n + 1, n) for n in range(count)))
    return [Search("-t m:1@x", ["-t", "m:1@x"], count)]


def star(room, count):
    room.archive(*(b"Message-ID: <%d@x>\nIn-Reply-To: <0@x>\n\nx\n" % (n + 1) for n in range(count)))
    return [Search("-t m:1@x", ["-t", "m:1@x"], count)]


def many_archives(room, count):
    room.archives = ["m%d" % n for n in range(count)]
    for name in room.archives:
        room.archive(b"Subject: hello\n\nhi\n", name=name)
    return [Search("s:hello", ["s:hello"], count)]


# Shapes of rcfiles and queries, over few messages.


def long_rcfile(room, count):
    room.before = ("#" * 63 + "\n") * (count // 64)
    room.archive(SEARCHED)
    return [Search("b:last", ["b:last"], 1)]


def message_of_all_words(room):
    """A message in which many short words are, none of them an operator; they are returned."""
    words = ["w" + letters(n, 3).decode() for n in range(26**3)]
    room.archive(("\n" + "\n".join(words) + "\n").encode(), SEARCHED)
    return words


def cycled(words, count):
    return [words[n % len(words)] for n in range(count)]


def many_patterns(room, count):
    words = cycled(message_of_all_words(room), count)
    return [Search("patterns", ["b:" + word for word in words], 1)]


def boolean_words(room, count):
    words = cycled(message_of_all_words(room), count // 2)
    ors = [it for word in words for it in (word, "or")]
    # Of `not` and `(` at most 30 may wait for their end.
    return [Search("or", ["--boolean"] + ors + ["last"], 2), Search("not", ["--boolean"] + ["not"] * count + ["last"], 0, refused=2)]


def long_pattern(room, count):
    words = cycled(message_of_all_words(room), count // 5)
    # A word of more bytes than any word of an index is refused.
    return [
        Search("one of", ["b:last/" + "/".join(words)], 2),
        Search("each of", ["b:" + ",".join(words)], 1),
        Search("one word", ["b:" + "a" * count], 0, refused=2),
        Search("a part", ["b:" + "a" * count + "="], 0, refused=2),
    ]


@dataclass
class Shape:
    """A shape, its size, and what the size counts; it is tried at this size and at twice that."""

    name: str
    count: int
    make: object


SHAPES = [
    Shape("nested multiparts", 10_000, nested_multiparts),
    Shape("delimiters, 16 deep", 1_000_000, delimiters),
    Shape("empty parts", 1_000_000, empty_parts),
    Shape("parameters of one part", 100_000, parameters_of_one_part),
    Shape("parameters of five parts", 100_000, parameters_of_five_parts),
    Shape("bytes of Subject, one line", 100_000_000, subject_of_one_line),
    Shape("bytes of Subject, folded", 100_000_000, folded_subject),
    Shape("bytes of one line, words", 100_000_000, line_of_words),
    Shape("bytes of one line, a word", 100_000_000, line_of_one_word),
    Shape("bytes of one line, a-a-a-", 100_000_000, line_of_joiners),
    Shape("bytes of one line, base64", 60_000_000, line_of_base64),
    Shape("bytes of tags left open", 30_000_000, open_tags),
    Shape("bytes of almost separators", 30_000_000, almost_separators),
    Shape("headers of 60,000 fields", 100, many_fields),
    Shape("headers of open encoded words", 100, encoded_words_without_end),
    Shape("References of one message", 200_000, references_of_one_message),
    Shape("References, all kept", 200_000, kept_references),
    Shape("words of 128 bytes", 100_000, long_words),
    Shape("distinct words, falling", 2_000_000, falling_words),
    Shape("messages of one line", 500_000, messages_of_one_line),
    Shape("messages, a chain", 100_000, chain),
    Shape("messages, a star", 100_000, star),
    Shape("archives", 10_000, many_archives),
    Shape("bytes of rcfile", 100_000_000, long_rcfile),
    Shape("patterns", 50_000, many_patterns),
    Shape("words of a boolean query", 50_000, boolean_words),
    Shape("bytes of one pattern", 65_000, long_pattern),
]
