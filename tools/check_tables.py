#!/usr/bin/env python3
"""Compares tables of this repository with outside sources: charsets with Python's codecs, header dates with email.utils, and
the rows of queries with a second reader. And looks for code that counts its steps for itself, which no clause and no type refuses.
docs/PROVED.md says how many dates and queries these are.

    tools/check_tables.py [--write]

With --write these numbers are written into the page. The last line is `N passed, M failed`.
"""
import os, re, subprocess, sys
from pathlib import Path

sys.dont_write_bytecode = True
from function_bodies import blanked, bodies_of_file
from verdict import say

TOOLS = os.path.dirname(os.path.abspath(__file__))
DATES = os.path.join(TOOLS, "..", "crates", "worked_parts", "src", "header_dates.rt")
PROVED = Path(TOOLS, "..", "docs", "PROVED.md")


def output_of(script):
    """Whether a script passes, and its lines."""
    run = subprocess.run([sys.executable, os.path.join(TOOLS, script)], stdout=subprocess.PIPE, text=True)
    return run.returncode == 0, run.stdout.splitlines()


def same_charsets():
    return subprocess.run([sys.executable, os.path.join(TOOLS, "charsets.py")]).returncode == 0


def same_header_dates():
    """The table that the tests run over is the one that the script writes, but for its layout."""
    passed, written = output_of("header_dates.py")
    with open(DATES, encoding="utf-8") as f:
        kept = f.read()
    bare = lambda text: "".join(text.split()).replace(",)", ")").replace(",]", "]")
    return passed and bare("".join(written)) == bare(kept)


def same_query_rows():
    passed, lines = output_of("query_rows.py")
    print("\n".join(lines))
    return passed


def numbers():
    """How many rows the two scripts compare, by what docs/PROVED.md calls them."""
    table = "\n".join(output_of("header_dates.py")[1]).split(' = "\\\n')[-1].splitlines()
    texts = re.match(r"(\d+) texts,", output_of("query_rows.py")[1][-1])
    return {"header dates": sum(1 for line in table if not line.startswith(("#", '"'))), "queries": int(texts[1])}


def numbers_of_the_page(write=False):
    """The page has these numbers."""
    kept = page = PROVED.read_text(encoding="utf-8")
    counts = {what: f"{count} {what}," for what, count in numbers().items()}
    for what, told in counts.items():
        page = re.sub(rf"\d+ {what},", told, page)
    if write:
        PROVED.write_text(page, encoding="utf-8")
    good = all(told in page for told in counts.values()) and (write or page == kept)
    if not good:
        print("tables: tools/check_tables.py --write writes today's numbers into PROVED.md")
    return good


# The functions that begin a count of steps, each one: `matches`, `with_threads` and `answer` have no caller's count.
COUNTING = ["mail_answer::cursor::matches", "mail_answer::numbers::Numbers::chosen", "mail_answer::threads::with_threads"]


def only_whole_searches_begin_counts():
    """What a cursor looks at is to be on its caller's count. What has an allocator and a view of an index, or bytes of one in the program's text,
    could begin another count."""
    crate, found = Path(TOOLS, "..", "crates", "mail_answer"), []
    for file in sorted(crate.glob("src/**/*.rt")):
        text, path = blanked(file.read_text(encoding="utf-8")), file.relative_to(crate).as_posix()
        named = [it.start() for it in re.finditer(r"\bSteps\s*(?:::\s*new\b|\{|\bas\b)", text)]
        bodies = bodies_of_file(crate.name, path, text)
        for place in named:
            found.append(next((name for start, end, name in bodies if start <= place < end), path))
    if sorted(found) != COUNTING:
        print("tables: these begin a count of steps: %s" % ", ".join(sorted(found)))
    return sorted(found) == COUNTING


def main(write):
    if write:
        numbers_of_the_page(write=True)
    passed = failed = 0
    for check in (same_charsets, same_header_dates, same_query_rows, numbers_of_the_page, only_whole_searches_begin_counts):
        good = check()
        passed, failed = passed + good, failed + (not good)
        print("tables: %s: %s" % (check.__name__, "yes" if good else "NO"))
    return say(passed, failed)


if __name__ == "__main__":
    sys.exit(main(sys.argv[1:] == ["--write"]))
