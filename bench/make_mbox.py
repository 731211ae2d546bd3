#!/usr/bin/env python3
"""Writes a made mbox of about so many megabytes, or of so many messages, to a file: always the same bytes for the same words.

    make_mbox.py [--lists|--scripts|--attachments|--html|--crlf] MEGABYTES FILE
    make_mbox.py [--lists|--scripts|--attachments|--html|--crlf] --messages COUNT FILE..

Its mail is letters of plain text, one in twenty in base64, over a vocabulary that is there from the start. With --lists it is mail as
mailing lists send it: a third of the messages is multipart with HTML, a fifth has base64, one in ten has quoted-printable, fields stand
as lists write them, and words are new the more rarely the longer the text is (Heaps' law). With --scripts it is mail in four scripts over a
vocabulary of 300,000 words by Zipf's law, with HTML, attachments in base64, quoted-printable, and threads of up to 200 messages. With
--attachments two in three messages have a file of 2 to 80 KB in base64, with --html all text is HTML, and with --crlf the lines of letters end in
CR and LF. Of several files each has COUNT messages, and goes on where the one before ends.
"""
import base64, itertools, math, quopri, random, sys, textwrap

LETTERS = "abcdefghijklmnopqrstuvwxyz"
SEPARATOR = "From %s Thu Jan  2 10:00:00 2003"


def new_word(rng):
    return "".join(rng.choice(LETTERS) for _ in range(rng.randint(2, 11)))


def letters(rng):
    """Messages of plain text."""
    vocabulary = [new_word(rng) for _ in range(200_000)]
    people = ["%s@%s.example" % (rng.choice(vocabulary), rng.choice(vocabulary)) for _ in range(2_000)]

    # Words come by Zipf's law, as in real text.
    def words(count):
        return [vocabulary[min(int(len(vocabulary) ** rng.random()) - 1, len(vocabulary) - 1)] for _ in range(count)]

    for number in itertools.count(1):
        sender = rng.choice(people)
        lines = [
            SEPARATOR % sender,
            "From: %s" % sender,
            "To: %s" % rng.choice(people),
            "Subject: %s" % " ".join(words(rng.randint(2, 8))),
            "Date: Thu, 2 Jan 2003 10:00:00 +0000",
            "Message-ID: <%d@bench.example>" % number,
            "",
        ]
        if number % 20 == 0:
            lines[-1:] = ["Content-Type: text/plain; charset=utf-8", "Content-Transfer-Encoding: base64", ""]
            body = " ".join(words(3_000)).encode()
            text = base64.b64encode(body).decode()
            lines += [text[i : i + 76] for i in range(0, len(text), 76)]
        else:
            for _ in range(rng.randint(5, 120)):
                lines.append(" ".join(words(rng.randint(4, 12))))
        yield lines


class GrowingVocabulary:
    """Words by Zipf's law, of which after n words about 30 times n to the power of 0.6 are distinct."""

    def __init__(self, rng):
        self.rng, self.told, self.known = rng, 0, [new_word(rng) for _ in range(50)]

    def word(self):
        self.told += 1
        if self.rng.random() < 18 * self.told**-0.4:
            self.known.append(new_word(self.rng))
            return self.known[-1]
        return self.known[int(len(self.known) ** self.rng.random()) - 1]

    def words(self, least, most):
        return " ".join(self.word() for _ in range(self.rng.randint(least, most)))


def quoted(line):
    """A line in quoted-printable, with some letters that need it."""
    return "".join("=C3=BC" if at % 40 == 39 else letter for at, letter in enumerate(line.replace("=", "=3D")))


def encoded(lines):
    text = base64.b64encode("\n".join(lines).encode()).decode()
    return textwrap.wrap(text, 76)


def part(kind, transfer, lines):
    """The fields and the lines of an entity."""
    fields = ["Content-Type: text/%s; charset=UTF-8" % kind, "Content-Transfer-Encoding: %s" % transfer, ""]
    if transfer == "base64":
        return fields + encoded(lines)
    return fields + [quoted(line) for line in lines] if transfer == "quoted-printable" else fields + lines


def list_fields(rng, vocabulary, number, sender, group):
    """The fields of a message of a mailing list, as it arrives."""
    hosts = [vocabulary.word() for _ in range(3)]
    answers = ["<%d@%s.example>" % (max(number - rng.randint(1, 200), 1), hosts[0]) for _ in range(rng.randint(0, 5))]
    fields = ["Return-Path: <%s-bounces@lists.example>" % group, "Delivered-To: me@home.example"]
    fields += [
        "Received: from %s.example (%s.example [10.0.%d.%d])\n\tby mx.%s.example with ESMTPS id %x\n\tfor <me@home.example>; Thu, 2 Jan 2003 10:00:0%d +0000"
        % (host, host, number % 256, at, host, rng.getrandbits(48), at)
        for at, host in enumerate(hosts)
    ]
    fields += [
        "DKIM-Signature: v=1; a=rsa-sha256; c=relaxed/relaxed; d=%s.example;\n\tb=%s" % (hosts[0], base64.b64encode(rng.randbytes(96)).decode()),
        "From: %s <%s>" % (vocabulary.words(2, 2), sender),
        "To: %s@lists.example" % group,
        "Subject: %s[%s] %s" % ("Re: " if answers else "", group, vocabulary.words(3, 9)),
        "Date: Thu, 2 Jan 2003 10:00:00 +0000",
        "Message-ID: <%d@%s.example>" % (number, hosts[0]),
        "MIME-Version: 1.0",
    ]
    if answers:
        fields += ["In-Reply-To: %s" % answers[-1], "References: %s" % "\n\t".join(answers)]
    return fields + [
        "Precedence: list",
        "List-Id: <%s.lists.example>" % group,
        "List-Post: <mailto:%s@lists.example>" % group,
        "List-Unsubscribe: <https://lists.example/%s>,\n\t<mailto:%s-request@lists.example?subject=unsubscribe>" % (group, group),
    ]


def list_mail(rng):
    """Messages of mailing lists."""
    vocabulary = GrowingVocabulary(rng)
    people = ["%s@%s.example" % (new_word(rng), new_word(rng)) for _ in range(2_000)]
    groups = [new_word(rng) for _ in range(20)]
    for number in itertools.count(1):
        sender, turn = rng.choice(people), number * 7 % 30
        lines = [SEPARATOR % sender] + list_fields(rng, vocabulary, number, sender, rng.choice(groups))
        text = [vocabulary.words(4, 12) for _ in range(rng.randint(5, 60))]
        # Of thirty ten are multipart, two of these with base64 and one with quoted-printable; four more have base64, and two quoted-printable.
        transfer = "base64" if turn in (0, 1, 10, 11, 12, 13) else "quoted-printable" if turn in (2, 14, 15) else "7bit"
        if turn < 10:
            page = (
                ["<html><body>"] + ['<p style="margin:0;color:#%06x">%s<br></p>' % (rng.getrandbits(24), line) for line in text] + ["</body></html>"]
            )
            border = "=_%x" % rng.getrandbits(64)
            lines += [
                'Content-Type: multipart/alternative; boundary="%s"' % border,
                "",
                "This is a message of several parts.",
                "--" + border,
                *part("plain", transfer, text),
                "--" + border,
                *part("html", transfer, page),
                "--%s--" % border,
            ]
        else:
            lines += part("plain", transfer, text)
        yield lines


# The first letters of Latin, Greek, Cyrillic and Devanagari that words are made of, and how many of them.
SCRIPTS = ((0x61, 26), (0x3B1, 25), (0x430, 32), (0x915, 37))


def script_words(rng):
    """300,000 words, most of them Latin."""
    found = []
    for number in range(300_000):
        first, count = SCRIPTS[number % 8 if number % 8 < 4 else 0]
        found.append("".join(chr(first + rng.randrange(count)) for _ in range(rng.randint(2, 10))))
    return found


def transferred(text, transfer):
    """The lines of a text in a transfer encoding."""
    if transfer == "base64":
        return textwrap.wrap(base64.b64encode(text.encode()).decode(), 76)
    if transfer == "quoted-printable":
        return quopri.encodestring(text.encode()).decode("ascii").splitlines()
    return text.splitlines()


def attached_file(rng, most):
    """A file of so many bytes at most, in base64."""
    data = textwrap.wrap(base64.b64encode(rng.randbytes(rng.randint(2_000, most))).decode(), 76)
    return [
        'Content-Type: application/pdf; name="%s.pdf"' % new_word(rng),
        "Content-Transfer-Encoding: base64",
        'Content-Disposition: attachment; filename="%s %s.pdf"' % (new_word(rng), new_word(rng)),
        "",
        *data,
    ]


def script_mail(rng):
    """Messages in four scripts, in threads."""
    vocabulary = script_words(rng)
    people = ["%s@%s.example" % (new_word(rng), new_word(rng)) for _ in range(3_000)]
    words = lambda least, most: " ".join(vocabulary[int(len(vocabulary) ** rng.random()) - 1] for _ in range(rng.randint(least, most)))
    ids, subject = [], ""
    for number in itertools.count(1):
        sender = rng.choice(people)
        if not ids or len(ids) >= 200 or rng.random() < 0.15:
            ids, subject = [], words(2, 7)
        own = "<%d.%x@%s>" % (number, rng.getrandbits(48), sender.partition("@")[2])
        lines = [
            SEPARATOR % sender,
            "From: =?utf-8?Q?%s?= <%s>" % (quopri.encodestring(words(2, 2).encode(), header=True).decode("ascii").replace("\n", ""), sender),
            "To: %s" % ", ".join(rng.sample(people, rng.randint(1, 4))),
            "Subject: =?utf-8?B?%s?=" % base64.b64encode((("Re: " if ids else "") + subject).encode()).decode(),
            "Date: Thu, 2 Jan 2003 10:00:00 +0000",
            "Message-ID: %s" % own,
            "MIME-Version: 1.0",
        ]
        if ids:
            lines += ["In-Reply-To: %s" % ids[-1], "References: %s" % "\n\t".join(ids[-20:])]
        ids.append(own)
        text = "\n".join(words(4, 14) for _ in range(rng.randint(3, 50))) + "\n"
        transfer = ("8bit", "quoted-printable", "base64")[number % 3]
        plain = ["Content-Type: text/plain; charset=utf-8", "Content-Transfer-Encoding: " + transfer, "", *transferred(text, transfer)]
        if number % 4:
            yield lines + plain
            continue
        border = "=_%x" % rng.getrandbits(64)
        page = "<html><body>" + "".join('<p class="x%d">%s</p>\n' % (at, line) for at, line in enumerate(text.splitlines())) + "</body></html>\n"
        parts = [
            plain,
            ["Content-Type: text/html; charset=utf-8", "Content-Transfer-Encoding: quoted-printable", "", *transferred(page, "quoted-printable")],
        ]
        if number % 12 == 0:
            parts.append(attached_file(rng, 40_000))
        lines += ['Content-Type: multipart/mixed; boundary="%s"' % border, ""]
        for part_lines in parts:
            lines += ["--" + border, *part_lines]
        yield lines + ["--%s--" % border]


def mail_with_files(rng):
    """Messages of mailing lists, of which two in three have a file."""
    for number, lines in enumerate(list_mail(rng)):
        if number % 3 == 0:
            yield lines
            continue
        border = "=_%x_files" % number
        at = next(at for at, line in enumerate(lines) if line.startswith("Content-Type: "))
        files = attached_file(rng, 80_000)
        content = ['Content-Type: multipart/mixed; boundary="%s"' % border, "", "--" + border]
        yield lines[:at] + content + lines[at:] + ["--" + border, *files, "--%s--" % border]


def html_mail(rng):
    """Messages whose only text is HTML, with as much in tags as in words."""
    vocabulary = GrowingVocabulary(rng)
    people = ["%s@%s.example" % (new_word(rng), new_word(rng)) for _ in range(2_000)]
    for number in itertools.count(1):
        sender = rng.choice(people)
        rows = [
            '<tr><td class="x%d" style="padding:%dpx;color:#%06x"><a href="https://%s.example/%x">%s</a></td></tr>'
            % (at % 9, at % 20, rng.getrandbits(24), vocabulary.word(), rng.getrandbits(64), vocabulary.words(4, 14))
            for at in range(rng.randint(5, 80))
        ]
        page = ["<html><head><style>", *("td.x%d { margin: %dpx }" % (at, at) for at in range(9)), "</style></head><body><table>"]
        fields = list_fields(rng, vocabulary, number, sender, "news")
        yield [SEPARATOR % sender, *fields, *part("html", "7bit", page + rows + ["</table></body></html>"])]


# What writes the messages of a kind, and what ends its lines.
KINDS = {
    "--lists": (list_mail, "\n"),
    "--scripts": (script_mail, "\n"),
    "--attachments": (mail_with_files, "\n"),
    "--html": (html_mail, "\n"),
    "--crlf": (letters, "\r\n"),
}


def main(kind, most_bytes, most_messages, paths):
    messages, line_end = kind
    made = messages(random.Random(20030518))
    for path in paths:
        written = number = 0
        with open(path, "wb") as out:
            while written < most_bytes and number < most_messages:
                written += out.write((line_end.join(next(made)) + 2 * line_end).encode())
                number += 1


if __name__ == "__main__":
    asked = sys.argv[1:]
    kind = (letters, "\n")
    if asked and asked[0] in KINDS:
        kind, asked = KINDS[asked[0]], asked[1:]
    if len(asked) >= 3 and asked[0] == "--messages":
        main(kind, math.inf, int(asked[1]), asked[2:])
    elif len(asked) == 2:
        main(kind, int(asked[0]) * 1_000_000, math.inf, asked[1:])
    else:
        sys.exit(__doc__)
