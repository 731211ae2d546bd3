#!/usr/bin/env python3
"""Says what grew between two results of bench/instructions.py, or beside the kept result, which has the small runs.

    compare.py BEFORE AFTER
    compare.py [--write] PROGRAM

Prints each line whose instructions differ by a hundredth or more. A line fails if it grew by more than three hundredths, or if only one result has
it. With --write the kept result is written: the counts of this program, which are those that later ones must not exceed.
"""
import os, re, shutil, subprocess, sys

HERE = os.path.dirname(os.path.abspath(__file__))
KEPT = os.path.join(HERE, "results", "kept-instructions.txt")
LINE = re.compile(r"(?m)^(.+?): +([\d.]+) million$")
SHOWN, MOST = 0.01, 0.03


def read(path):
    with open(path, encoding="utf-8") as file:
        return file.read()


def small_runs(program):
    """The result of the small runs of a program. Without valgrind there is none, which is a failure."""
    if not shutil.which("valgrind"):
        print("compare: there is no valgrind here, so no instructions were counted\n0 passed, 1 failed")
        sys.exit(1)
    words = [sys.executable, os.path.join(HERE, "instructions.py"), "--small", program]
    return subprocess.run(words, stdout=subprocess.PIPE, text=True, check=True).stdout


def compare(before, after, is_kept=False):
    """Prints what differs and how many lines passed and failed, which is also the status. `is_kept` says whether the former result is the kept one."""
    old, new = ({name: float(count) for name, count in LINE.findall(text)} for text in (before, after))
    alone = sorted(old.keys() ^ new.keys())
    for name in alone:
        print(f"{name}: only {'before' if name in old else 'after'}")
    changes = {name: new[name] / old[name] - 1 for name in old.keys() & new.keys()}
    for name, change in sorted(changes.items(), key=lambda it: -it[1]):
        if abs(change) >= SHOWN:
            print(f"{name}: {old[name]} to {new[name]} million, {100 * change:+.1f} %{', too much' if change > MOST else ''}")
    failed = len(alone) + sum(change > MOST for change in changes.values())
    if is_kept and (failed or any(change < -MOST for change in changes.values())):
        print("If the change is worth what grew, or to keep what was won: bench/compare.py --write crates/mairix/out/mairix")
    if failed:
        print("before: {}; after: {}".format(*(text.partition("\n")[0] for text in (before, after))))
    print(f"{len(old.keys() | new.keys()) - failed} passed, {failed} failed")
    return 1 if failed or not changes else 0


def main(words):
    if words[:1] == ["--write"] and len(words) == 2:
        with open(KEPT, "w", encoding="utf-8") as file:
            file.write(small_runs(words[1]))
    elif not 1 <= len(words) <= 2 or words[0].startswith("-"):
        sys.exit(__doc__)
    elif len(words) == 1:
        return compare(read(KEPT), small_runs(words[0]), is_kept=True)
    else:
        return compare(read(words[0]), read(words[1]))


if __name__ == "__main__":
    sys.exit(main(sys.argv[1:]))
