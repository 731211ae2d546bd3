#!/usr/bin/env python3
"""Refuses each allocation of each test named `sweep_..` in turn.

    sweep.py [FOLDER]

FOLDER has the crates whose tests were built; without it they are those of this repository.

Such a test accepts, at each call, the whole answer or this call's own want of memory with the state that it leaves, and ends
well where a fixture of its own has no memory. With a preloaded library allocation 1 is refused, then 2, and so on, until a run
meets no refusal. A test that fails, or a sweep in which nothing was refused, fails. A test `sweep_.._takes_no_more` does what the
one named without that ending does, and then makes calls that take no memory: it fails where it meets another number of refusals.
The last line is `N passed, M failed`.
"""
import glob, os, subprocess, sys, tempfile

sys.dont_write_bytecode = True
from verdict import say

MOST = 5000
NO_MORE = "_takes_no_more"


def main():
    here = os.path.dirname(os.path.abspath(__file__))
    crates = sys.argv[1] if len(sys.argv) == 2 else os.path.join(here, "..", "crates")
    passed = failed = 0
    refused = {}
    with tempfile.TemporaryDirectory() as room:
        shim, log = os.path.join(room, "refuse.so"), os.path.join(room, "log")
        subprocess.run(["cc", "-O2", "-fPIC", "-shared", "-o", shim, os.path.join(here, "refuse_allocation.c"), "-ldl"], check=True)
        for tests in sorted(glob.glob(os.path.join(crates, "*", "out", "*_tests"))):
            listed = subprocess.run([tests, "--list"], capture_output=True, text=True, check=True).stdout
            for name in [line[:-6] for line in listed.splitlines() if line.endswith(": test") and "::sweep_" in line]:
                number, bad = 0, None
                while bad is None:
                    number += 1
                    if os.path.exists(log):
                        os.remove(log)
                    env = dict(os.environ, LD_PRELOAD=shim, REFUSE_ALLOCATION=str(number), REFUSED_LOG=log)
                    run = subprocess.run([tests, name], capture_output=True, text=True, env=env, timeout=60)
                    if run.returncode != 0:
                        bad = "allocation %d refused: status %d: %s" % (number, run.returncode, (run.stdout + run.stderr).strip()[:400])
                    elif not os.path.exists(log):
                        break
                    elif number == MOST:
                        bad = "still refused at allocation %d" % number
                if bad is None and number == 1:
                    bad = "nothing was refused"
                refused[tests, name] = number - 1
                alike = refused.get((tests, name.removesuffix(NO_MORE)), "no sweep")
                if bad is None and alike != number - 1:
                    bad = "%d refused allocations, and %s without its last calls" % (number - 1, alike)
                passed, failed = passed + (bad is None), failed + (bad is not None)
                print("sweep %s: %s" % (name, bad or "%d refused allocations, each answered" % (number - 1)))
    if not refused:
        failed += 1
        print("sweep: nothing was refused at all")
    print("sweep: %d allocations refused" % sum(refused.values()))
    return say(passed, failed)


if __name__ == "__main__":
    sys.exit(main())
