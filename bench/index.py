#!/usr/bin/env python3
"""Times index runs and searches of one word beside C mairix, which has to be installed as `mairix`, over the same archives in one run.

    index.py [PROGRAM]

The archives are made mail of two kinds and several sizes, and a hostile one whose words are all distinct. Each program makes its index afresh,
without an old one. Prints the processor seconds, the peak memory, the rate, the size of the index or the count of messages found, and
the ratios of seconds and of memory to C mairix.
"""
import os, random, subprocess, sys, tempfile, time

HERE = os.path.dirname(os.path.abspath(__file__))
WORD = "b:bn"
# C mairix refuses an archive of more than 65,536 messages: a longer text is cut into two archives.
LONGEST = 400_000_000


def made(*words):
    return lambda path: subprocess.run([sys.executable, os.path.join(HERE, "make_mbox.py"), *words, path], check=True)


def distinct_words(path):
    """1,000 messages of 1,500 words, no word twice."""
    rng, seen = random.Random(20030518), set()
    while len(seen) < 1_500_000:
        seen.add("".join(rng.choices("abcdefghijklmnopqrstuvwxyz", k=rng.randint(6, 12))))
    left = iter(sorted(seen, key=lambda word: rng.random()))
    with open(path, "w") as out:
        for number in range(1_000):
            out.write("From a@x.org Thu Jan  2 10:00:00 2003\nMessage-ID: <%d@bench.example>\n\n" % number)
            out.writelines(" ".join(next(left) for _ in range(10)) + "\n" for _ in range(150))
            out.write("\n")


SHAPES = [
    ("10,000 messages", made("--messages", "10000"), 3),
    ("50,000 messages", made("--messages", "50000"), 3),
    ("10,000 messages of lists", made("--lists", "--messages", "10000"), 3),
    ("50,000 messages of lists", made("--lists", "--messages", "50000"), 3),
    ("100 MB", made("100"), 3),
    ("250 MB", made("250"), 3),
    ("500 MB", made("500"), 1),
    ("1,500,000 distinct words", distinct_words, 3),
]


def cut(folder):
    """The names of the archives that the text is cut into."""
    path = os.path.join(folder, "m.mbox")
    if os.path.getsize(path) <= LONGEST:
        return ["m.mbox"]
    with open(path, "rb") as file:
        text = file.read()
    middle = text.index(b"\n\nFrom ", len(text) // 2) + 2
    for name, part in ("m.mbox", text[:middle]), ("n.mbox", text[middle:]):
        with open(os.path.join(folder, name), "wb") as out:
            out.write(part)
    return ["m.mbox", "n.mbox"]


def measured(command, folder, index):
    """Processor seconds, peak megabytes, status, and the lines of the answer of one run; it starts without the file `index`."""
    if index and os.path.exists(os.path.join(folder, index)):
        os.remove(os.path.join(folder, index))
    told = subprocess.run(["./measure", "answer"] + command, cwd=folder, stdin=subprocess.DEVNULL, capture_output=True, check=True).stdout.split()
    with open(os.path.join(folder, "answer"), "rb") as answer:
        return float(told[0]), int(told[1]) / 1024, int(told[2]), sum(1 for _ in answer)


def compare(folder, size, times, rows):
    """Prints a line for each program; their runs take turns, and the last is C mairix."""
    runs = [[] for _ in rows]
    for _ in range(times):
        for (_, command, index), told in zip(rows, runs):
            told.append(measured(command, folder, index))
    best = [(max(min(run[0] for run in told), 1e-3), max(run[1] for run in told)) for told in runs]
    for (name, _, index), told, (seconds, memory) in zip(rows, runs, best):
        if index:
            result = "%5.1f MB/s, %5.1f MB of index" % (size / seconds, os.path.getsize(os.path.join(folder, index)) / 1e6)
        else:
            result = "%d found" % told[0][3]
        print(
            "  %-22s %7.3f s %7.1f MB  status %d  %-31s %8.3g of C's seconds %6.3g of its memory"
            % (name, seconds, memory, told[0][2], result, seconds / best[-1][0], memory / best[-1][1]),
            flush=True,
        )


def main(program):
    print(
        "%s, processor seconds (user and system) are the least of three runs, and of one for 500 MB; peak memory is the most"
        % time.strftime("%Y-%m-%d")
    )
    print("other work went on: load %.1f on %d processors" % (os.getloadavg()[0], os.cpu_count()))
    for title, make, times in SHAPES:
        with tempfile.TemporaryDirectory() as folder:
            subprocess.run(["cc", "-O2", "-o", os.path.join(folder, "measure"), os.path.join(HERE, "measure.c")], check=True)
            make(os.path.join(folder, "m.mbox"))
            archives = cut(folder)
            size = sum(os.path.getsize(os.path.join(folder, name)) for name in archives) / 1e6
            count = sum(line.startswith(b"From ") for name in archives for line in open(os.path.join(folder, name), "rb"))
            with open(os.path.join(folder, "rc"), "w") as out:
                out.write("mbox=%s\ndatabase=m.idx\nmfolder=hits\n" % ":".join(archives))
            with open(os.path.join(folder, "c-rc"), "w") as out:
                out.write("base=%s\nmbox=%s\ndatabase=c.idx\nmfolder=c-hits\nmformat=mbox\n" % (folder, ":".join(archives)))
            print("%s: %.0f MB, %d messages, %d archive(s)" % (title, size, count, len(archives)))
            compare(folder, size, times, [("mairix, index", [program, "-f", "rc"], "m.idx"), ("C mairix, index", ["mairix", "-f", "c-rc"], "c.idx")])
            compare(
                folder,
                size,
                times,
                [
                    ("mairix --once", [program, "-f", "rc", "--once", "-r", WORD], None),
                    ("C mairix, stored index", ["mairix", "-f", "c-rc", "-r", WORD], None),
                ],
            )


if __name__ == "__main__":
    main(os.path.abspath(sys.argv[1] if len(sys.argv) > 1 else os.path.join(HERE, "..", "crates", "mairix", "out", "mairix")))
