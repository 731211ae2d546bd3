#!/usr/bin/env python3
"""Counts the instructions of an index run, of a search, and of a search with --verify, beside those of `sha256sum` over the same archive.

    digests.py [PROGRAM [BEFORE]]

BEFORE is a program of before a change, for comparison. The archive is made mail of 600 messages, some 3 MB. valgrind counts, so that the figures
don't depend on what else the machine does; `sha256sum` shouldn't use instructions of the processor for SHA-256, which are few.
"""
import os, re, subprocess, sys, tempfile

HERE = os.path.dirname(os.path.abspath(__file__))
COUNT = ["valgrind", "--tool=callgrind", "--callgrind-out-file=/dev/null"]


def instructions(command, folder):
    run = subprocess.run(COUNT + command, cwd=folder, stdin=subprocess.DEVNULL, capture_output=True, text=True, errors="replace")
    assert run.returncode == 0, run.stderr
    return int(re.search(r"Collected : (\d+)", run.stderr)[1])


def main(program, before=None):
    with tempfile.TemporaryDirectory() as folder:
        subprocess.run([sys.executable, os.path.join(HERE, "make_mbox.py"), "--messages", "600", os.path.join(folder, "m.mbox")], check=True)
        with open(os.path.join(folder, "rc"), "w") as out:
            out.write("mbox=m.mbox\ndatabase=m.idx\nmfolder=hits\n")
        runs = [("sha256sum of the archive", ["sha256sum", "m.mbox"])]
        runs += [("index run before", [before, "-f", "rc"])] if before else []
        runs += [("index run", [program, "-f", "rc"]), ("search", [program, "-f", "rc", "-r", "b:bn"])]
        runs += [("search with --verify", [program, "-f", "rc", "-r", "--verify", "b:bn"])]
        counts = {name: instructions(command, folder) for name, command in runs}
    for name, count in counts.items():
        print("%-26s %7.1f million instructions" % (name, count / 1e6))
    digest = counts["sha256sum of the archive"]
    print("--verify beside the search: %.2f of sha256sum" % ((counts["search with --verify"] - counts["search"]) / digest))
    if before:
        print("the index run: %.2f of the one before and sha256sum" % (counts["index run"] / (counts["index run before"] + digest)))


if __name__ == "__main__":
    here = os.path.join(HERE, "../crates/mairix/out/mairix")
    main(*[os.path.abspath(path) for path in sys.argv[1:] or [here]])
