#!/usr/bin/env python3
"""Writes an mbox of about so many megabytes, or of so many messages, of mail that people wrote: the tests of two of Debian's source packages,
notmuch and libmail-mbox-messageparser-perl, over and over, each time with new ids.

    real_mail.py MEGABYTES FILE
    real_mail.py --messages COUNT FILE

apt fetches the packages, once, into out/real_mail; it needs the network. Nothing of them is part of this repository.
"""
import os, re, subprocess, sys, tarfile
from glob import glob

HERE = os.path.dirname(os.path.abspath(__file__))
STORE = os.path.join(HERE, "..", "out", "real_mail")
PACKAGES = ("notmuch", "libmail-mbox-messageparser-perl")
SOURCES = "deb-src http://deb.debian.org/debian bookworm main\n"
# Files of one message each, and archives.
SINGLE = re.compile(r"[^/]+/test/corpora/(default|lkml|html|attachment|threading)/.*[^/]$")
ARCHIVES = re.compile(r"[^/]+/t/mailboxes/(mailarc-[123]|vm-emacs)\.txt$")
SEPARATOR = b"From somebody@example.org Thu Jan  2 10:00:00 2003\n"
IDS = re.compile(rb"(?im)^(message-id|in-reply-to|references):.*(?:\n[ \t].*)*")


def fetch():
    """Has apt fetch the packages' sources, where they aren't there yet."""
    if all(glob(os.path.join(STORE, f"{it}_*.orig.tar.*")) for it in PACKAGES):
        return
    os.makedirs(os.path.join(STORE, "lists"), exist_ok=True)
    with open(os.path.join(STORE, "sources.list"), "w") as out:
        out.write(SOURCES)
    options = {"Dir::Etc::SourceList": "sources.list", "Dir::Etc::SourceParts": "/dev/null", "Dir::State::Lists": "lists"}
    words = [word for key, value in options.items() for word in ("-o", f"{key}={os.path.join(os.path.abspath(STORE), value)}")]
    subprocess.run(["apt-get", *words, "update"], cwd=STORE, check=True, stdout=subprocess.DEVNULL)
    subprocess.run(["apt-get", *words, "source", "--download-only", "--tar-only", *PACKAGES], cwd=STORE, check=True, stdout=subprocess.DEVNULL)


def messages():
    """The messages, without the lines that separate them."""
    found = []
    for package in PACKAGES:
        with tarfile.open(glob(os.path.join(STORE, f"{package}_*.orig.tar.*"))[0]) as source:
            for member in sorted((it for it in source.getmembers() if it.isfile()), key=lambda it: it.name):
                if SINGLE.match(member.name):
                    found.append(re.sub(rb"\AFrom .*\n", b"", source.extractfile(member).read()))
                if ARCHIVES.match(member.name):
                    found += [it.partition(b"\n")[2] for it in re.split(rb"(?m)^(?=From \S+ .*\d\d:\d\d)", source.extractfile(member).read())[1:]]
    return [it for it in found if b"\n\n" in it]


def with_new_ids(message, round_number):
    """The message with other ids in its header, alike in all messages of a round."""
    head, gap, body = message.partition(b"\n\n")
    return IDS.sub(lambda field: field[0].replace(b"<", b"<%d." % round_number), head) + gap + body


def written(message):
    """The message as it stands in an archive."""
    lines = re.sub(rb"(?m)^(?=From )", b">", message)
    return SEPARATOR + lines + (b"\n" if lines.endswith(b"\n") else b"\n\n")


def main(words):
    by_count = words[:1] == ["--messages"]
    most, file = words[-2:]
    fetch()
    mail, count, size, round_number = messages(), 0, 0, 0
    with open(file, "wb") as out:
        while True:
            for message in mail:
                if by_count and count >= int(most) or not by_count and size >= float(most) * 1e6:
                    return
                size += out.write(written(with_new_ids(message, round_number)))
                count += 1
            round_number += 1


if __name__ == "__main__":
    main(sys.argv[1:]) if len(sys.argv) in (3, 4) else sys.exit(__doc__)
