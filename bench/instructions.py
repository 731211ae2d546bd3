#!/usr/bin/env python3
"""Counts the instructions of index runs and searches at two sizes, by valgrind, so that a change shows without a quiet machine.

    instructions.py [--kinds KIND,..] [PROGRAM]
    instructions.py --small [PROGRAM]

Each line is a run and its instructions in millions. The mail is of the four kinds of bench/rounds.py, with 500 and 1,000 messages, and the searches
are of one word, of what no message has, of a part of words that most messages have, of a negation, and of the three outputs. Then come shapes of
hostile mail, each at a hundredth of the size that bench/hostile.py gives them, and at twice that. At the larger size a line says where the
instructions of each index run and of the search for one word go, and where C mairix is installed as `mairix`, how many it takes for each index run,
for nothing and for the part. With --small the runs are over 200 messages of two kinds, and each is also told without SHA-256, which would hide what
the rest takes. bench/compare.py compares two results.
"""
import argparse, os, platform, re, subprocess, sys, tempfile, time
from shutil import copy, which

from hostile_mail import SHAPES, Room
from rounds import KINDS, OWN, furnish

SIZES = (500, 1_000)
SEARCHES = {
    "a word, raw": ["-r", "b:pq"],
    "nothing, raw": ["-r", "b:nowhereatall"],
    "a part, raw": ["-r", "b:e="],
    "a negation, raw": ["-r", "s:~pq"],
    "a part, excerpts": ["-x", "b:e="],
    "a part, mbox": ["--stdout", "b:e="],
    "a word with its threads, raw": ["-r", "-t", "b:pq"],
    "a word, raw, verified": ["-r", "--verify", "b:pq"],
    "a word, raw, without an index": ["-r", "--once", "b:pq"],
}
# The search whose instructions are told by what they do, and those that C mairix takes too.
TOLD_WHERE = "a word, raw"
OF_BOTH = ("nothing, raw", "a part, raw")
# Those that take longer than in C mairix, and a part over very many keys.
HOSTILE = ("delimiters, 16 deep", "empty parts", "bytes of tags left open", "messages, a chain", "messages, a star", "distinct words, falling")
SMALLER = 100
# The small runs: mail with HTML and transfer encodings, and with letters beyond ASCII.
SMALL_KINDS, SMALL = ("lists", "scripts"), 200
THEIRS = which("mairix")
# What functions do, by the beginnings of their names. The first that fits counts. Finding words is a part of `give_text` in the built program.
PURPOSES = {
    "SHA-256": ("sha2::",),
    "words and folding": ("mail_words::", "mime_text::sink::give_text", "index_job::term_sink", "index_job::folding_room"),
    "keys and postings": ("mail_index::", "index_job::batch"),
    "lines, headers and parts": ("mbox_cutter::", "header_text::", "mime_text::", "mail_dates::", "index_job::", "index_run::", "memchr::"),
}
TOLD = re.compile(r"^ *([\d,]+) \(.*?\) +[^:\n]*:(\S+)", re.M)


def counted(command, folder):
    """The instructions of a run, in all and by function. Its environment is empty, since what stands there shifts the counts."""
    with tempfile.NamedTemporaryFile() as profile:
        how = {"cwd": folder, "env": {}, "stdin": subprocess.DEVNULL, "stdout": subprocess.DEVNULL, "stderr": subprocess.PIPE, "text": True}
        run = subprocess.run([which("valgrind"), "--tool=callgrind", f"--callgrind-out-file={profile.name}", *command], **how)
        if run.returncode not in (0, 1):
            sys.exit(f"{' '.join(command)}: status {run.returncode}")
        listing = subprocess.run(["callgrind_annotate", "--threshold=100", profile.name], capture_output=True, text=True).stdout
    functions = [(name, int(count.replace(",", ""))) for count, name in TOLD.findall(listing)]
    return int(re.search(r"Collected : (\d+)", run.stderr)[1]), functions


def tell(name, command, folder):
    """Prints a line for a run, and returns what it took."""
    count, functions = counted(command, folder)
    print(f"{name}: {count / 1e6:.1f} million", flush=True)
    return count, functions


def tell_where(name, count, functions):
    """Prints where the instructions of a run go."""
    taken = dict.fromkeys(PURPOSES, 0)
    for function, own in functions:
        purpose = next((it for it, fronts in PURPOSES.items() if function.startswith(fronts)), None)
        if purpose:
            taken[purpose] += own
    shares = [f"{purpose} {100 * own / count:.0f} %" for purpose, own in taken.items()]
    print(f"{name}, where: {', '.join(shares)}, all else {100 * (1 - sum(taken.values()) / count):.0f} %", flush=True)


def tell_index_run(name, program, folder, has_where):
    told = tell(f"{name}, an index run", [program, "-f", "rc"], folder)
    if has_where:
        tell_where(f"{name}, an index run", *told)
        if THEIRS:
            tell(f"{name}, an index run of C mairix", [THEIRS, "-f", "c-rc"], folder)


def tell_search(run, name, program, folder, has_where):
    words = SEARCHES[name]
    told = tell(f"{run}, {name}", [program, "-f", "rc", *words], folder)
    if has_where and name == TOLD_WHERE:
        tell_where(f"{run}, {name}", *told)
    if has_where and name in OF_BOTH and THEIRS:
        tell(f"{run}, {name}, of C mairix", [THEIRS, "-f", "c-rc", *words], folder)


def tell_kind(kind, program):
    """The runs over a kind of mail."""
    title, script = KINDS[kind]
    for count in SIZES:
        with tempfile.TemporaryDirectory() as folder:
            furnish(folder, script, count)
            run = f"{count} messages, {title}"
            tell_index_run(run, program, folder, count == SIZES[-1])
            for name in SEARCHES:
                tell_search(run, name, program, folder, count == SIZES[-1])


def tell_small(program):
    """The small runs. The program has the same name in each folder, since its length shifts the counts too."""
    for title, script in (KINDS[kind] for kind in SMALL_KINDS):
        with tempfile.TemporaryDirectory() as folder:
            furnish(folder, script, SMALL)
            copy(program, os.path.join(folder, "program"))
            for name, words in {"an index run": [], **SEARCHES}.items():
                count, functions = counted(["./program", "-f", "rc", *words], folder)
                rest = count - sum(own for function, own in functions if function.startswith(PURPOSES["SHA-256"]))
                print(f"{SMALL} messages, {title}, {name}: {count / 1e6:.3f} million", flush=True)
                print(f"{SMALL} messages, {title}, {name}, without SHA-256: {rest / 1e6:.3f} million", flush=True)


def tell_hostile(shape, program):
    """The runs over a shape of hostile mail."""
    for count in (shape.count // SMALLER, 2 * shape.count // SMALLER):
        with tempfile.TemporaryDirectory() as folder:
            room = Room(folder)
            searches = shape.make(room, count)
            room.rcfiles()
            name = f"{count} {shape.name}"
            tell_index_run(name, program, folder, count > shape.count // SMALLER)
            for search in searches:
                tell(f"{name}, {search.name}", [program, "-f", "rc", "-r", *search.words], folder)


def main():
    asked = argparse.ArgumentParser(description="Counts the instructions of index runs and searches at two sizes.")
    asked.add_argument("--kinds", default=",".join([*KINDS, "hostile"]), help="the kinds of mail, by their names in bench/rounds.py, and `hostile`")
    asked.add_argument("--small", action="store_true", help="only the small runs, as bench/compare.py keeps them")
    asked.add_argument("program", nargs="?", default=OWN)
    words = asked.parse_args()
    program = os.path.abspath(words.program)
    valgrind = subprocess.run(["valgrind", "--version"], capture_output=True, text=True, check=True).stdout.strip()
    print(f"{time.strftime('%Y-%m-%d')}, {valgrind}, {' '.join(platform.libc_ver())}", flush=True)
    if words.small:
        return tell_small(program)
    for kind in words.kinds.split(","):
        if kind in KINDS:
            tell_kind(kind, program)
    if "hostile" in words.kinds.split(","):
        for shape in (it for it in SHAPES if it.name in HOSTILE):
            tell_hostile(shape, program)


if __name__ == "__main__":
    main()
