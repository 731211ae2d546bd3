#!/usr/bin/env python3
"""Changes an archive while the built program runs over it.

    changing_files.py PROGRAM [RUNS]

At each call of a run on an archive that is changed: it grows, is cut, is written over, has its name taken by another file or taken away,
or is touched; so too in the midst of each read. Then a writer changes it beside RUNS runs of each search (20 without that number). Each
time the run gives the whole answer of one state of the archive, or it is refused, with a front of such an answer and no file changed;
and a search that verifies what an index run read meanwhile is right or refused. The last line is `N passed, M failed`.
"""
import os, random, subprocess, sys, tempfile, threading, time
from dataclasses import dataclass

from check_program import run, write
from overlapping_runs import OLD, SEPARATOR, read
from program_cases import INDEX, ONCE, STORED, TWO
from sweep_program import shim
from verdict import say

COUNTED = "open create statx read read_at "
# The writer waits longer than a tick of the system's clock, within which a second change can't be told.
PAUSES = (0.012, 0.03)
# Bytes of a torn read that come before the change: some of the first message.
WITHIN = "50"


def message(number):
    return SEPARATOR + b"Message-ID: <%d@x>\nReferences: <0@x>\nSubject: Hello\n\nnumber %d\n\n" % (number, number)


FIRST = message(1) + message(2)
OTHER = message(8) + message(9)
# What becomes of the archive: by which bytes it is changed, and what it is then.
CHANGES = {
    "append": (message(3), FIRST + message(3)),
    "cut": (message(1), message(1)),
    "rewrite": (message(4) + message(5), message(4) + message(5)),
    "exchange": (message(6) + message(7), message(6) + message(7)),
    "remove": (b"", None),
    "touch": (b"", FIRST),
}
SEARCHES = {
    "lines": STORED + ["s:hello"],
    "excerpts": INDEX + ["-x", "s:hello"],
    "an mbox": INDEX + ["--stdout", "s:hello"],
    "an mbox in a file": INDEX + ["s:hello"],
    "threads": INDEX + ["--stdout", "-t", "s:hello"],
    "verified": INDEX + ["--verify", "--stdout", "s:hello"],
    "verified lines": STORED + ["--verify", "s:hello"],
    "lines, indexed in memory": ONCE + ["-r", "s:hello"],
    "an mbox, indexed in memory": ONCE + ["--stdout", "s:hello"],
    "threads in a file, indexed in memory": ONCE + ["-t", "number"],
}


@dataclass(frozen=True)
class Told:
    """What a run did: its status, what it printed and told, and its files."""

    status: int
    out: bytes
    err: bytes
    files: tuple

    @staticmethod
    def of(p, folder):
        made = (os.path.join(folder, name) for name in ("hits", "hits.new"))
        return Told(p.returncode, p.stdout, p.stderr, tuple(read(path) for path in made))

    def wrong(self, wholes):
        """What is wrong with it, if it isn't one of these whole answers, nor a refusal with a front of one."""
        if self in wholes:
            return []
        refused = self.status > 2 and self.err.startswith(b"mairix: ") and self.err.count(b"\n") == 1 and self.files == (OLD, None)
        if refused and any(it.out.startswith(self.out) for it in wholes):
            return []
        return ["status %d, %r, %d bytes: %r" % (self.status, self.err, len(self.out), self.out[:200])]


class Room:
    """A folder with two archives and their index."""

    def __init__(self, program, folder, first=FIRST):
        self.program, self.folder = program, folder
        write(folder, {"rc": TWO, "m.mbox": first, "n": OTHER})
        run(program, INDEX, folder, check=True)
        with open(self.path("m.idx"), "rb") as f:
            self.index = f.read()

    def path(self, name):
        return os.path.join(self.folder, name)

    def lay(self, archive, by=b""):
        """The archive as it is said, of long ago, and all else as before any run."""
        for name in ("m.mbox", "hits", "hits.new"):
            if os.path.lexists(self.path(name)):
                os.remove(self.path(name))
        files = {"hits": OLD, "m.idx": self.index, "with": by}
        if archive is not None:
            files["m.mbox"] = archive
        write(self.folder, files)
        if archive is not None:
            os.utime(self.path("m.mbox"), (1e9, 1e9))

    def run(self, words, **env):
        return Told.of(run(self.program, words, self.folder, capture_output=True, env={**os.environ, **env}), self.folder)

    def over(self, archive, words):
        """What a run does over an archive that nobody changes."""
        self.lay(archive)
        return self.run(words)

    def calls(self, words, library):
        """The numbers of a run's calls on the archive, and which of them read it."""
        self.lay(FIRST)
        log = self.path("log")
        self.run(words, LD_PRELOAD=library, COUNTED=COUNTED, CALLS_LOG=log)
        with open(log) as f:
            found = [(number, line.split()) for number, line in enumerate(f, 1)]
        os.remove(log)
        return [(number, name.startswith("read")) for number, (name, file) in found if file == "m.mbox"]

    def changed(self, words, library, how):
        """What a run does for which the archive is changed so at each of its calls on it, and within each of its reads."""
        by, _ = CHANGES[how]
        for number, reads in self.calls(words, library):
            for within in ("", WITHIN) if reads else ("",):
                self.lay(FIRST, by)
                changing = {"HOW": how, "AT": str(number), "CHANGED": "m.mbox", "WITH": "with", "WITHIN": within}
                yield "%s at call %d%s" % (how, number, within and ", within"), self.run(words, LD_PRELOAD=library, COUNTED=COUNTED, **changing)


def searched(room, library, words):
    """A search whose archive changes at one of its calls."""
    for how, (_, after) in CHANGES.items():
        wholes = [room.over(archive, words) for archive in (FIRST, after)]
        yield from ((where, told.wrong(wholes)) for where, told in room.changed(words, library, how))


def indexed(room, library):
    """An index run whose archive changes at one of its calls, and then a search that verifies what it has read."""
    verify, once = STORED + ["--verify", "s:hello"], ONCE + ["-r", "s:hello"]
    for how in CHANGES:
        for where, told in room.changed(INDEX, library, how):
            bad = [] if told.status in (0, 4) else ["status %d, %r" % (told.status, told.err)]
            right = room.run(once)
            after = room.run(verify)
            if after != right and (after.status not in (3, 4) or after.out):
                bad.append("then status %d, %r, where %r is right" % (after.status, after.out, right.out))
            yield where, bad


class Writer(threading.Thread):
    """Changes the archive again and again, to one of its states, at most once within a tick of the clock."""

    def __init__(self, room, base, choose):
        super().__init__()
        self.room, self.choose, self.ending, self.changes = room, choose, False, 0
        first, second = len(message(1000)), 2 * len(message(1000))
        self.states = {
            "whole": base,
            "grown": base + message(5000),
            "cut": base[:-first],
            "rewritten": base[:first] + message(7000) + base[second:],
        }
        self.place, self.written = first, message(7000)

    def run(self):
        archive, other, state = self.room.path("m.mbox"), self.room.path("other"), "whole"
        while not self.ending:
            time.sleep(self.choose.uniform(*PAUSES))
            steps = [("exchange", it) for it in self.states]
            if state == "whole":
                steps += [("append", "grown"), ("cut", "cut"), ("rewrite", "rewritten")] * 2
            how, state = self.choose.choice(steps)
            if how == "cut":
                os.truncate(archive, len(self.states["cut"]))
            else:
                with open(*{"append": (archive, "ab"), "rewrite": (archive, "r+b"), "exchange": (other, "wb")}[how], buffering=0) as f:
                    if how == "rewrite":
                        f.seek(self.place)
                    f.write({"append": message(5000), "rewrite": self.written, "exchange": self.states[state]}[how])
            if how == "exchange":
                os.rename(other, archive)
            self.changes += 1


def beside_a_writer(program, top, runs):
    """Runs of each search beside a writer, and of one that verifies what an index run beside it has read: how many gave a whole answer, how
    many were refused, and what was wrong."""
    choose = random.Random(2003)
    base = b"".join(message(number) for number in range(1000, 2000))
    indexed = "an mbox, indexed and verified"
    for name, words in {**SEARCHES, indexed: SEARCHES["verified"]}.items():
        room = Room(program, tempfile.mkdtemp(dir=top), base)
        writer = Writer(room, base, choose)
        right = SEARCHES["an mbox, indexed in memory"] if name == indexed else words
        wholes = {room.over(it, right) for it in writer.states.values()}
        room.lay(base)
        writer.start()
        told = []
        for _ in range(runs):
            write(room.folder, {"hits": OLD})
            if name == indexed:
                room.run(INDEX)
            told.append(room.run(words))
        writer.ending = True
        writer.join()
        bad = [text for it in told for text in it.wrong(wholes)]
        whole = sum(it in wholes and it.status == 0 for it in told)
        yield "%s beside a writer: %d whole, %d refused, %d changes" % (name, whole, len(told) - whole, writer.changes), bad


def main(program, runs=20):
    program = os.path.abspath(program)
    passed = failed = tried = 0

    def take(name, bad):
        nonlocal passed, failed
        passed, failed = passed + (not bad), failed + bool(bad)
        if bad:
            print("changing files: %s: %s" % (name, "; ".join(bad[:3])))

    with tempfile.TemporaryDirectory() as top:
        library = shim(top, "at_call")
        room = Room(program, tempfile.mkdtemp(dir=top))
        for name, words in SEARCHES.items():
            results = list(searched(room, library, words))
            tried += len(results)
            take(name, ["%s: %s" % (where, text) for where, bad in results for text in bad] if results else ["nothing was tried"])
        results = list(indexed(room, library))
        tried += len(results)
        take("an index run", ["%s: %s" % (where, text) for where, bad in results for text in bad] if results else ["nothing was tried"])
        print("changing files: %d runs with a change at one of their calls" % tried, flush=True)
        for name, bad in beside_a_writer(program, top, int(runs)):
            print("changing files: " + name, flush=True)
            take(name, bad)
    return say(passed, failed)


if __name__ == "__main__":
    sys.exit(main(*sys.argv[1:]) if len(sys.argv) in (2, 3) else __doc__)
