#!/usr/bin/env python3
"""Compares the tables of single-byte charsets with those of Python's codecs, over all 256 bytes.

It reads the definitions in crates/header_text/specs/Charsets.antt and the tables of its test in
crates/worked_parts/src/header_texts.rt. With --print it writes the test's tables anew.
"""
import os
import re
import sys

TOP = os.path.dirname(os.path.dirname(os.path.abspath(__file__)))
SPEC = os.path.join(TOP, "crates/header_text/specs/Charsets.antt")
TEST = os.path.join(TOP, "crates/worked_parts/src/header_texts.rt")
# Each charset by the name of its table in the test, with Python's codec and the definition of its characters: a list of
# those of the bytes from 80 on, or the characters of single bytes, or none if each byte is the character of its number.
CHARSETS = {
    "LATIN_1": ("iso-8859-1", None),
    "LATIN_9": ("iso-8859-15", "latin9_character"),
    "WINDOWS_1252": ("cp1252", "windows_1252_upper"),
}


def python_table(codec):
    """The characters of all bytes, U+FFFD where there is none."""
    return [ord(bytes([b]).decode(codec, "replace")) for b in range(256)]


def defined_table(text, name):
    """The characters of all bytes, as the definition of this name says."""
    if name is None:
        return list(range(256))
    body = re.search(rf"(?m)^{name}(?: b)? =((?:.|\n(?! *$))*)", text)[1]
    singles = re.findall(r"b == 0x([0-9A-F]+) then 0x([0-9A-F]+)", body)
    listed = [] if singles else re.findall(r"0x([0-9A-F]+)\s+∷", body)
    others = {int(b, 16): int(c, 16) for b, c in singles} or {0x80 + n: int(c, 16) for n, c in enumerate(listed)}
    return [others.get(b, b) for b in range(256)]


def tested_table(text, name):
    """The characters of bytes 80 to FF in the crate's test, after ASCII."""
    lines = re.split(r"const %s: &str =\s" % name, text)[1].split(";")[0]
    return list(range(128)) + [int(c, 16) for c in re.findall(r"\\u\{([0-9A-F]+)\}", lines)]


def main():
    if "--print" in sys.argv[1:]:
        for name, (codec, _) in CHARSETS.items():
            upper = python_table(codec)[128:]
            print('    const %s: &str = "%s";' % (name, "".join("\\u{%X}" % c for c in upper)))
        return 0
    with open(SPEC, encoding="utf-8") as file:
        definitions = file.read()
    with open(TEST, encoding="utf-8") as file:
        test = file.read()
    wrong = 0
    for name, (codec, definition) in CHARSETS.items():
        expected = python_table(codec)
        for source, table in (("definition", defined_table(definitions, definition)), ("test", tested_table(test, name))):
            same = table == expected
            wrong += not same
            print("%s: the %s %s over %d bytes" % (name, source, "agrees" if same else "DIFFERS", len(table)))
    return 1 if wrong else 0


sys.exit(main())
