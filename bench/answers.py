#!/usr/bin/env python3
"""Counts the instructions and system calls of mbox answers beside their search and `cat` of the same bytes, by valgrind and strace.

    answers.py [PROGRAM]

The mail is 2,000 messages of made mail. One answer has a third of them, which are scattered, and one has nearly all. Each goes to the rcfile's file
and to a file as standard output. `cat` goes to a file, to which it may copy inside the system, and through a pipe, where it reads and writes. The
counts of an answer are less those of its search, and those of `cat` less those of `cat` of nothing; then come the functions and the calls that most
of them go to.
"""
import collections, os, re, subprocess, sys, tempfile, time
from shutil import which

from instructions import counted
from rounds import KINDS, OWN, furnish
from stored import frequent_word

MESSAGES = 2_000
TOLD = 8
CALL = re.compile(r"(?m)^\d+ +(\w+)\(")


def calls(command, folder, piped=False):
    """How often a run calls the system, by the names of the calls. What it writes goes to a file, or into a pipe."""
    with open(os.path.join(folder, "answer"), "wb") as answer:
        out = subprocess.PIPE if piped else answer
        subprocess.run(["strace", "-f", "-o", "calls", *command], cwd=folder, stdin=subprocess.DEVNULL, stdout=out, check=True)
    with open(os.path.join(folder, "calls"), encoding="utf-8", errors="replace") as file:
        return collections.Counter(CALL.findall(file.read()))


def taken(command, folder, piped=False):
    """The instructions of a run, the same by function, and its calls."""
    count, functions = counted(command, folder)
    own = collections.Counter()
    for name, instructions in functions:
        own[name.partition("::<#")[0]] += instructions
    return count, own, calls(command, folder, piped)


def tell(name, run, less):
    """Prints what a run takes more than another."""
    (count, functions, made), (other, its_functions, its_calls) = run, less
    functions, made = functions - its_functions, made - its_calls
    print(f"  {name}: {(count - other) / 1e6:.2f} million instructions, {made.total()} calls")
    most = [f"{it} {own / 1e6:.2f}" for it, own in functions.most_common(TOLD) if own >= 1e4]
    print("    " + ", ".join([*most, *(f"{it} {times}" for it, times in made.most_common(TOLD) if times > 1)]), flush=True)


def tell_answer(title, program, part, folder):
    """The answer of a search to both places, and `cat` of it."""
    raw = [program, "-f", "rc", "-r", part]
    search = taken(raw, folder)
    count = len(subprocess.run(raw, cwd=folder, capture_output=True, check=True).stdout.splitlines())
    subprocess.run([program, "-f", "rc", part], cwd=folder, check=True, capture_output=True)
    print(f"{title}: {count} of {MESSAGES} messages, {os.path.getsize(os.path.join(folder, 'hits'))} bytes")
    for name, words in ("to the rcfile's file", [part]), ("to standard output", ["--stdout", part]):
        tell(name, taken([program, "-f", "rc", *words], folder), search)
    nothing, copy = [which("cat"), os.devnull], [which("cat"), "hits"]
    for name, piped in ("cat, to a file", False), ("cat, through a pipe", True):
        tell(name, taken(copy, folder, piped), taken(nothing, folder, piped))


def main(program):
    print(f"{time.strftime('%Y-%m-%d')}, {MESSAGES} messages, {KINDS['made'][0]}")
    with tempfile.TemporaryDirectory() as folder:
        furnish(folder, KINDS["made"][1], MESSAGES)
        subprocess.run([program, "-f", "rc"], cwd=folder, check=True)
        tell_answer("a third", program, "b:" + frequent_word(os.path.join(folder, "m.mbox"))[0], folder)
        tell_answer("nearly all", program, "b:e=", folder)


if __name__ == "__main__":
    main(os.path.abspath(sys.argv[1] if len(sys.argv) > 1 else OWN))
