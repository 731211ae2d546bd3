#!/usr/bin/env python3
"""Times a search without an index beside other programs that go over the same archive, in one run.

    search.py [MEGABYTES]

Prints the processor seconds, the peak memory, and the ratio to `wc -l`, which is the least that one pass costs. C mairix is timed
where it is installed as `mairix`.
"""
import os, shutil, subprocess, sys, tempfile, time


def measured(measure, command, folder):
    """Processor seconds, peak megabytes and status of one run."""
    told = subprocess.run([measure, "answer"] + command, cwd=folder, stdin=subprocess.DEVNULL, capture_output=True, check=True).stdout.split()
    return float(told[0]), int(told[1]) / 1024, int(told[2])


def main(megabytes):
    here = os.path.dirname(os.path.abspath(__file__))
    program = os.path.join(here, "..", "crates", "mairix", "out", "mairix")
    with tempfile.TemporaryDirectory() as folder:
        archive, measure = os.path.join(folder, "m.mbox"), os.path.join(folder, "measure")
        subprocess.run(["cc", "-O2", "-o", measure, os.path.join(here, "measure.c")], check=True)
        subprocess.run([sys.executable, os.path.join(here, "make_mbox.py"), str(megabytes), archive], check=True)
        with open(os.path.join(folder, "rc"), "w") as f:
            f.write("mbox=m.mbox\ndatabase=m.idx\nmfolder=hits\n")
        commands = [
            ("wc -l", ["wc", "-l", "m.mbox"]),
            ("cat", ["cat", "m.mbox"]),
            ("grep -c '^From '", ["grep", "-c", "^From ", "m.mbox"]),
            ("mairix --once", [program, "-f", "rc", "--once", "-r", "s:ab"]),
        ]
        if shutil.which("mairix"):
            with open(os.path.join(folder, "c-rc"), "w") as f:
                f.write("base=%s\nmbox=m.mbox\ndatabase=c.idx\nmfolder=c-hits\nmformat=mbox\n" % folder)
            commands += [("C mairix, index", ["mairix", "-f", "c-rc"]), ("C mairix, search", ["mairix", "-f", "c-rc", "-r", "s:ab"])]
        size = os.path.getsize(archive) / 1e6
        print("%s, %.0f MB, seconds are the least of three" % (time.strftime("%Y-%m-%d"), size))
        base = None
        for name, command in commands:
            runs = [measured(measure, command, folder) for _ in range(3)]
            seconds = max(min(run[0] for run in runs), 1e-3)
            base = base or seconds
            print(
                "%-20s %7.3f s %7.1f MB  %6.1f times wc -l  %6.0f MB/s  status %d"
                % (name, seconds, runs[0][1], seconds / base, size / seconds, runs[0][2])
            )


if __name__ == "__main__":
    main(int(sys.argv[1]) if len(sys.argv) > 1 else 100)
