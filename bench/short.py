#!/usr/bin/env python3
"""Counts the instructions of short runs, by valgrind: `--once` over ten messages of each kind of bench/rounds.py that can be made.

    short.py [PROGRAM ..]

Each line has a kind of mail, the length of the archive, and millions of instructions, in all and without SHA-256, of each program.
"""
import os, sys, tempfile, time

from instructions import counted
from rounds import KINDS, OWN, furnish

MESSAGES = 10
WORDS = ["-f", "rc", "--once", "-r", "b:nowhereatall"]
DIGEST = "sha2::"


def main():
    programs = [os.path.abspath(it) for it in sys.argv[1:] or [OWN]]
    print(time.strftime("%Y-%m-%d"))
    for title, script in (KINDS[kind] for kind in KINDS if kind != "real"):
        with tempfile.TemporaryDirectory() as folder:
            furnish(folder, script, MESSAGES)
            size = os.path.getsize(os.path.join(folder, "m.mbox"))
            figures = []
            for program in programs:
                count, functions = counted([program, *WORDS], folder)
                digest = sum(own for name, own in functions if name.startswith(DIGEST))
                figures.append(f"{count / 1e6:.2f}, {(count - digest) / 1e6:.2f} without SHA-256")
            print(f"{MESSAGES} messages, {title}, {size} bytes: {'; '.join(figures)}", flush=True)


if __name__ == "__main__":
    main()
