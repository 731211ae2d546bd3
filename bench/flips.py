#!/usr/bin/env python3
"""Flips one bit of an index at each of 400 places, and counts how a search ends: with the right answer, with another one, refused, or by a signal.
Does the same with C mairix where it is installed.

    flips.py [PROGRAM]

The archives are those of demo/, and the places are the same each time. Each search begins with the whole index but for one bit, and has ten seconds.
Past results are in docs/RELIABILITY.md.
"""
import collections, os, random, shutil, subprocess, sys, tempfile

HERE = os.path.dirname(os.path.abspath(__file__))
DEMO = os.path.join(HERE, "..", "demo")
ARCHIVES = ["m.mbox", "lists.mbox", "work.mbox"]
PATTERN, FLIPS, SECONDS = "s:lunch", 400, 10
ENDS = ["right", "wrong", "refused", "ended by a signal", "without an end in %d seconds" % SECONDS]


def search(program, folder):
    """The status of a search, and what it prints; without a status if it doesn't end."""
    try:
        run = subprocess.run([program, "-f", "rc", "-r", PATTERN], cwd=folder, stdin=subprocess.DEVNULL, capture_output=True, timeout=SECONDS)
    except subprocess.TimeoutExpired:
        return None, b""
    return run.returncode, run.stdout


def end_of(answer, right):
    """How a search ended. A status above 1 is a refusal, in C mairix too."""
    status = answer[0]
    if status is None or status < 0:
        return ENDS[4] if status is None else ENDS[3]
    return ENDS[2] if status > 1 else ENDS[0] if answer == right else ENDS[1]


def ends(program, folder):
    """How many searches ended in each way."""
    for archive in ARCHIVES:
        shutil.copy(os.path.join(DEMO, archive), folder)
    with open(os.path.join(folder, "rc"), "w") as out:
        out.write("base=.\nmbox=%s\ndatabase=index\nmfolder=hits\nmformat=mbox\n" % ":".join(ARCHIVES))
    subprocess.run([program, "-f", "rc"], cwd=folder, check=True, capture_output=True)
    index = os.path.join(folder, "index")
    with open(index, "rb") as file:
        whole = file.read()
    right, counts, places = search(program, folder), collections.Counter(), random.Random(1)
    for _ in range(FLIPS):
        damaged, bit = bytearray(whole), places.randrange(8 * len(whole))
        damaged[bit // 8] ^= 1 << bit % 8
        with open(index, "wb") as file:
            file.write(damaged)
        counts[end_of(search(program, folder), right)] += 1
        # What a run of C mairix leaves that was ended.
        for name in os.listdir(folder):
            if name.endswith("lock"):
                os.remove(os.path.join(folder, name))
    return counts


def main(program):
    for name, path in (("mairix", program), ("C mairix", shutil.which("mairix"))):
        if not path:
            print("%s isn't installed" % name)
            continue
        with tempfile.TemporaryDirectory() as folder:
            counts = ends(path, folder)
            print("%-8s" % name, ", ".join("%d %s" % (counts[it], it) for it in ENDS))


if __name__ == "__main__":
    main(os.path.abspath(sys.argv[1] if len(sys.argv) > 1 else os.path.join(HERE, "..", "crates", "mairix", "out", "mairix")))
