#!/usr/bin/env python3
"""Lets the program index and search hostile mail, each shape at a size and at twice that size, beside tame mail of as many bytes.

    hostile.py [--quick] [--only WORD,..] [PROGRAM]

Prints a line for each run: its processor seconds and its peak memory at both sizes, and at the second one how many times those of a tame
archive it takes, and of C mairix over the same files, where that is installed as `mairix`. Of an index run it says so too without the time of
`sha256sum` over the archives, which C mairix doesn't take. No run is refused for its time or memory; one with another status or count of
messages than was worked out by hand has failed. With `--quick` each shape has a hundredth of its size and nothing is measured. With `--only`
no shapes are tried but those with one of these words in their names. The last line is `N passed, M failed`.
"""
import argparse, os, resource, shutil, subprocess, sys, tempfile, time
from dataclasses import dataclass

from hostile_mail import SHAPES, Room, Search

HERE = os.path.dirname(os.path.abspath(__file__))
# A run that is shorter is run three times.
SHORT = 0.5
# C mairix takes more than linear time for some: it is let go on for so many processor seconds, and has so many bytes.
C_SECONDS, C_BYTES = 30, 8_000_000_000
TAME_WORD = "b:bn"


@dataclass
class Told:
    """What a run took, its status, and how many lines it printed."""

    seconds: float
    megabytes: float
    status: int
    lines: int


def limits():
    resource.setrlimit(resource.RLIMIT_CPU, (C_SECONDS, C_SECONDS))
    resource.setrlimit(resource.RLIMIT_AS, (C_BYTES, C_BYTES))


def run(folder, tools, command, limit=None):
    """One run of a command."""
    words = [os.path.join(tools, "measure"), "answer", *command]
    streams = {"stdin": subprocess.DEVNULL, "stdout": subprocess.PIPE, "stderr": subprocess.DEVNULL}
    told = subprocess.run(words, cwd=folder, check=True, preexec_fn=limit, **streams)
    seconds, kilobytes, status = told.stdout.split()
    with open(os.path.join(folder, "answer"), "rb") as answer:
        lines = sum(piece.count(b"\n") for piece in iter(lambda: answer.read(1 << 20), b""))
    return Told(float(seconds), int(kilobytes) / 1024, int(status), lines)


def measured(folder, tools, command, index=None, limit=None, most=3):
    """The run of the least processor seconds, of some where it is short. It starts without the file `index`."""
    runs = []
    while len(runs) < most and sum(it.seconds for it in runs) < SHORT:
        if index and os.path.exists(os.path.join(folder, index)):
            os.remove(os.path.join(folder, index))
        runs.append(run(folder, tools, command, limit))
    return min(runs, key=lambda it: it.seconds)


def runs_of(folder, tools, program, searches, rcfile="rc", index="m.idx", **how):
    """An index run, and then the searches."""
    yield measured(folder, tools, [program, "-f", rcfile], index, **how)
    for search in searches:
        yield measured(folder, tools, [program, "-f", rcfile, "-r", *search.words], **how)


class Tame:
    """Fronts of one made archive, and what their index run and a search of them take, by their size in megabytes."""

    def __init__(self, tools, program):
        self.tools, self.program, self.made, self.told = tools, program, os.path.join(tools, "tame.mbox"), {}

    def of(self, size):
        """Of a front of about so many bytes."""
        if not os.path.exists(self.made) or os.path.getsize(self.made) < size:
            most = max(1, -(-size // 1_000_000))
            subprocess.run([sys.executable, os.path.join(HERE, "make_mbox.py"), str(most), self.made], check=True)
        size = int(float("%.1e" % size))
        if size not in self.told:
            with tempfile.TemporaryDirectory() as folder, open(self.made, "rb") as whole:
                room = Room(folder)
                front = whole.read(size)
                with open(room.path("m.mbox"), "wb") as out:
                    out.write(front[: front.rfind(b"\n\nFrom ") + 2] or front)
                room.rcfiles()
                self.told[size] = list(runs_of(folder, self.tools, self.program, [Search("", [TAME_WORD], 0)]))
        return self.told[size]


def size_named(bytes):
    return "%.3g MB" % (bytes / 1e6)


def times(value, base):
    return "%8.3g" % (value / base) if base else "%8s" % "-"


HEAD = "%-43s %-21s %9s %7s %7s %6s %8s %8s %8s %7s %7s %8s %8s  %s" % (
    "shape, at n and 2n",
    "run",
    "2n is",
    "s at n",
    "at 2n",
    "ratio",
    "of tame",
    "of C",
    "less sha",
    "MB at n",
    "at 2n",
    "of tame",
    "of C",
    "found",
)


def row(shape, name, size, first, second, tame, c, digest):
    """A line of the table; `c` is what C mairix took, or a word that says why there is none; `digest` is the seconds of `sha256sum`, if they count."""
    took = c if isinstance(c, Told) else None
    seconds = took and max(took.seconds, 1e-3)
    note = "" if took else ", C mairix: " + c
    return "%-43s %-21s %9s %7.2f %7.2f %6.1f %s %s %s %7.1f %7.1f %s %s  %d%s" % (
        shape,
        name,
        size_named(size),
        first.seconds,
        second.seconds,
        second.seconds / max(first.seconds, 1e-3),
        times(second.seconds, max(tame.seconds, 1e-3)),
        times(second.seconds, seconds),
        times(second.seconds - digest, seconds if digest else None),
        first.megabytes,
        second.megabytes,
        times(second.megabytes, tame.megabytes),
        times(second.megabytes, took and took.megabytes),
        second.lines,
        note,
    )


def of_c(folder, tools, searches):
    """What C mairix took for each run, or a word that says why there is none."""
    if not shutil.which("mairix"):
        return ["not installed"] * (1 + len(searches))
    told = list(runs_of(folder, tools, "mairix", searches, "c-rc", "c.idx", limit=limits))
    said = [it if it.status < 2 else why_none(it) for it in told]
    return said if isinstance(said[0], Told) else said[:1] + ["no index"] * len(searches)


def why_none(told):
    if told.status != 128:
        return "status %d" % told.status
    return "over %d s" % C_SECONDS if told.seconds >= C_SECONDS - 1 else "killed"


class Hostile:
    """Runs the shapes, and counts the runs that passed and failed."""

    def __init__(self, program, quick, tools):
        self.program, self.quick, self.tools = program, quick, tools
        self.passed = self.failed = self.runs = 0
        self.tame = None if quick else Tame(tools, program)

    def judge(self, name, size, search, told):
        """Whether a run has the status and the count that it has to have."""
        self.runs += 1
        status, found = (0, 0) if search is None else (search.status, search.found)
        if (told.status, told.lines) == (status, found):
            self.passed += 1
        else:
            self.failed += 1
            what = "%s, %d, %s" % (name, size, search.name if search else "index")
            print("hostile: %s: status %d, %d found, wanted %d, %d" % (what, told.status, told.lines, status, found), flush=True)

    def at(self, shape, count, beside):
        """The runs of a shape at a size: the bytes that they read, their names, what they took, and what C mairix and `sha256sum` took."""
        with tempfile.TemporaryDirectory() as folder:
            room = Room(folder)
            searches = shape.make(room, count)
            room.rcfiles()
            told = list(runs_of(folder, self.tools, self.program, searches, most=1 if self.quick else 3))
            for search, it in zip([None, *searches], told):
                self.judge(shape.name, count, search, it)
            words = max(sum(len(word) + 1 for word in search.words) for search in searches)
            size = room.size() + (words if words > 1000 else 0)
            names = ["index", *(it.name for it in searches)]
            if not beside:
                return size, names, told, [None] * len(told), 0
            return size, names, told, of_c(folder, self.tools, searches), measured(folder, self.tools, ["sha256sum", *room.archives]).seconds

    def shape(self, shape):
        count = max(1, shape.count // 100) if self.quick else shape.count
        _, _, first, _, _ = self.at(shape, count, False)
        size, names, second, c, digest = self.at(shape, 2 * count, not self.quick)
        if self.quick:
            return
        tame = self.tame.of(size)
        for number, name in enumerate(names):
            said = "{:,} {}".format(count, shape.name)
            told = first[number], second[number], tame[min(number, 1)], c[number]
            print(row("" if number else said, name, size, *told, 0 if number else digest), flush=True)


def machine():
    """The processor's name, the count of processors, and the memory."""
    with open("/proc/cpuinfo") as file:
        names = [line.partition(":")[2].strip() for line in file if line.startswith("model name")]
    memory = os.sysconf("SC_PAGE_SIZE") * os.sysconf("SC_PHYS_PAGES")
    return "%d processors (%s), %.0f GB" % (os.cpu_count(), names[0] if names else "unknown", memory / 1e9)


NOTES = """Processor seconds (user and system) are the least of three runs, and of one where that takes half a second or more.
Sizes count what stands behind them: 10,000 nested multiparts are n. The last columns are those of 2n. A tame archive is made mail of as many
bytes as rcfile, archives and words of the query; its search is of one word. Linux takes no word of a command line of more than 131,071 bytes, and
2 MB of all words with their pointers: so patterns end at 100,000 and one pattern at 130,000 bytes. C mairix was given
%d s and %.0f GB a run.""" % (
    C_SECONDS,
    C_BYTES / 1e9,
)


def main(program, quick, wanted):
    with tempfile.TemporaryDirectory() as tools:
        subprocess.run(["cc", "-O2", "-o", os.path.join(tools, "measure"), os.path.join(HERE, "measure.c")], check=True)
        hostile = Hostile(program, quick, tools)
        if not quick:
            print("%s, %s, load %.1f" % (time.strftime("%Y-%m-%d"), machine(), os.getloadavg()[0]))
            print(NOTES)
            print(HEAD, flush=True)
        shapes = [shape for shape in SHAPES if any(word in shape.name for word in wanted)]
        for shape in shapes:
            hostile.shape(shape)
    print("hostile: %d runs over %d shapes at two sizes" % (hostile.runs, len(shapes)))
    print("%d passed, %d failed" % (hostile.passed, hostile.failed))
    return 1 if hostile.failed else 0


if __name__ == "__main__":
    asked = argparse.ArgumentParser(description="Lets the program index and search hostile mail.")
    asked.add_argument("--quick", action="store_true", help="a hundredth of each size, and nothing is measured")
    asked.add_argument("--only", default="", help="words, by commas: shapes with one of them in their names")
    asked.add_argument("program", nargs="?", default=os.path.join(HERE, "..", "crates", "mairix", "out", "mairix"))
    WORDS = asked.parse_args()
    sys.exit(main(os.path.abspath(WORDS.program), WORDS.quick, WORDS.only.split(",")))
