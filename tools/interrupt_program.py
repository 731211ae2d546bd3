#!/usr/bin/env python3
"""Ends runs of the built program at many of their calls on files, and fills the disk below them.

    interrupt_program.py PROGRAM

An index run and an mbox answer are ended by SIGKILL, SIGTERM and SIGINT, and find the disk full from some call on; and they run on a real
small disk that has room for a part of their file. Each time the file of the run before stays as it was, byte by byte, until the new one is
whole; nothing but what a killed run couldn't remove is left; and the next run leaves what a run without a fault leaves. The last line is
`N passed, M failed`.
"""
import os, signal, stat, subprocess, sys, tempfile
from dataclasses import dataclass

from check_program import contents, mode, run, write
from overlapping_runs import SEPARATOR, shim
from program_cases import INDEX, RC, fault
from sweep_program import COUNTED
from verdict import say

# How many calls of a run, or sizes of a disk, are tried for each fault.
POINTS = 50
# The calls that want room on a disk.
ROOM_COUNTED = "create write fsync rename "
OLD = b"MAIRIX\r\nwhat an earlier run made\n" * 1000
MESSAGES, WORDS = 60, 31_200
# What runs a command that may mount a disk, which the command alone sees and which ends with it.
MOUNTING = ["unshare", "--mount", "--map-root-user"]
MOUNT = ["mount", "-t", "tmpfs", "-o", "size=32m", "tmpfs"]


def mail():
    """An archive whose index and whose messages are each written in more than POINTS pieces: few words, and the longest that are kept. Each
    message has more bytes than are gathered before they are written."""
    words = [b"w" * 123 + b"%05d" % n for n in range(WORDS)]
    each = WORDS // MESSAGES
    return b"".join(SEPARATOR + b"Subject: every\n\n" + b"\n".join(words[n * each : (n + 1) * each]) + b"\n\n" for n in range(MESSAGES))


@dataclass(frozen=True)
class Made:
    """A run that makes a file: what it is, the file's name, and the words."""

    what: str
    name: str
    words: list

    @property
    def temporary(self):
        """The name that the file has until it is whole."""
        return self.name + ".new"


AN_INDEX = Made("an index run", "m.idx", INDEX)
AN_ANSWER = Made("an mbox answer", "found", INDEX + ["-o", "found", "s:every"])


def heed_signals():
    """What a shell puts in the background is started with SIGINT ignored, and hands that on."""
    for number in (signal.SIGTERM, signal.SIGINT):
        signal.signal(number, signal.SIG_DFL)


class Room:
    """A folder with an archive, its index and its rcfile, in which runs make a file again and again."""

    def __init__(self, program, made, folder):
        self.program, self.made, self.folder = program, made, folder
        write(folder, {"rc": RC, "m.mbox": mail()})
        for words in (INDEX, made.words):
            self.run(words)
        self.whole = contents(folder)
        self.before = {**self.whole, made.name: OLD}
        # What runs have left from which the next one was tried: where another leaves the same files, it does the same.
        self.went_on_from = []

    def path(self, name):
        return os.path.join(self.folder, name)

    def run(self, words, **env):
        return run(self.program, words, self.folder, capture_output=True, env={**os.environ, **env}, preexec_fn=heed_signals)

    def calls(self, library, counted):
        """The names of the calls of a run over an old file."""
        self.lay_old()
        with tempfile.NamedTemporaryFile() as log:
            self.run(self.made.words, LD_PRELOAD=library, COUNTED=counted, CALLS_LOG=log.name)
            return [line.split()[0] for line in log.read().decode().splitlines()]

    def lay_old(self):
        with open(self.path(self.made.name), "wb") as out:
            out.write(OLD)

    def wrong(self, p, status, err, files, may_stay=False):
        """What is wrong with a run that was to end so, and with the run after it."""
        left = contents(self.folder)
        temporary = left.pop(self.made.temporary, None)
        bad = []
        if (p.returncode, p.stdout, p.stderr) != (status, b"", err):
            bad.append("status %d, %r" % (p.returncode, p.stderr))
        if left != files:
            bad.append("it changed %s" % [name for name in set(left) | set(files) if left.get(name) != files.get(name)])
        if (temporary is not None) != may_stay:
            bad.append("it left %s" % sorted(os.listdir(self.folder)))
        elif may_stay and not mode(self.path(self.made.temporary)) & stat.S_ISVTX:
            bad.append("what it left isn't marked")
        if temporary is None and left in self.went_on_from:
            return bad
        if temporary is None:
            self.went_on_from.append(left)
        return bad + self.next_run()

    def next_run(self):
        """What is wrong with the run after another."""
        p = self.run(self.made.words)
        is_well = (p.returncode, p.stdout, p.stderr) == (0, b"", b"") and contents(self.folder) == self.whole
        return [] if is_well else ["the next run has status %d, %r" % (p.returncode, p.stderr)]


def spread(calls):
    """The numbers of POINTS calls: of each that is neither a read nor a write, nor the look at an archive behind a read of it, and of others in
    equal steps."""
    moves = [n for n, (before, name) in enumerate(zip(["", *calls], calls), 1) if name in ("read", "read_at", "write") or before == "read_at"]
    others = [n for n in range(1, len(calls) + 1) if n not in moves]
    wanted = max(2, POINTS - len(others))
    return sorted({*others, *(moves[k * (len(moves) - 1) // (wanted - 1)] for k in range(wanted))})


def ended(room, library, number, how):
    """A run that a signal ends at many of its calls."""
    calls = room.calls(library, COUNTED)
    created, renamed = (calls.index(name) + 1 for name in ("create", "rename"))
    for n in spread(calls):
        room.lay_old()
        p = room.run(room.made.words, LD_PRELOAD=library, COUNTED=COUNTED, AT=str(n), HOW=how)
        # The signal comes before the call.
        files = room.before if n <= renamed else room.whole
        yield "call %d, %s" % (n, calls[n - 1]), room.wrong(p, -number, b"", files, created < n <= renamed)


def full_disk(room, library):
    """A run whose disk is full from one call on."""
    calls = room.calls(library, ROOM_COUNTED)
    for n in spread(calls):
        room.lay_old()
        p = room.run(room.made.words, LD_PRELOAD=library, COUNTED=ROOM_COUNTED, AT="%d-" % n, HOW="full")
        text = b"cannot open " + room.made.temporary.encode() if calls[n - 1] == "create" else b"output failed"
        # Where the folder alone can't be brought to the disk, the file has its name.
        files = room.before if n <= calls.index("rename") + 1 else room.whole
        yield "call %d, %s" % (n, calls[n - 1]), room.wrong(p, 4, fault(text), files)


def small_disk(room):
    """A run on a disk that has room for a part of its file."""
    disk = os.statvfs(room.folder)
    pages = -(-len(room.whole[room.made.name]) // disk.f_frsize)
    for n in range(POINTS):
        room.lay_old()
        free = os.statvfs(room.folder).f_bavail - n * pages // POINTS
        # The filler is none of the room's files.
        with open(room.path("filler"), "wb") as filler:
            os.posix_fallocate(filler.fileno(), 0, free * disk.f_frsize)
            os.unlink(room.path("filler"))
            p = room.run(room.made.words)
        yield "%d of %d pages" % (n * pages // POINTS, pages), room.wrong(p, 4, fault(b"output failed"), room.before)


SIGNALS = (("SIGKILL", signal.SIGKILL, "kill"), ("SIGTERM", signal.SIGTERM, "terminate"), ("SIGINT", signal.SIGINT, "interrupt"))


def tell(what, made, results):
    """Prints a line of a fault of a run: what was wrong, or how many points were tried."""
    results = list(results)
    bad = ["%s: %s" % (where, "; ".join(it)) for where, it in results if it]
    failed = bad or len(results) < POINTS
    print("interrupt_program: %s, %s: %d tried%s" % (made.what, what, len(results), "; wrong: " + "; ".join(bad[:3]) if bad else ""), flush=True)
    return failed


def main(program):
    program = os.path.abspath(program)
    verdicts = []
    with tempfile.TemporaryDirectory() as top:
        library = shim(top, "at_call")
        for made in (AN_INDEX, AN_ANSWER):
            room = Room(program, made, tempfile.mkdtemp(dir=top))
            for name, number, how in SIGNALS:
                verdicts.append(tell(name, made, ended(room, library, number, how)))
            verdicts.append(tell("a full disk", made, full_disk(room, library)))
            disk = tempfile.mkdtemp(dir=top)
            if may_mount(disk):
                words = [sys.executable, os.path.abspath(__file__), "--small-disk", made.name, disk, program]
                verdicts.append(subprocess.run(MOUNTING + words).returncode != 0)
            else:
                print("interrupt_program: %s, a small disk: skipped, since none can be mounted here" % made.what)
    return say(verdicts.count(False), len(verdicts) - verdicts.count(False))


def may_mount(folder):
    """Whether a disk can be mounted here at all."""
    try:
        return not subprocess.run(MOUNTING + MOUNT + [folder], capture_output=True).returncode
    except OSError:
        return False


def on_small_disk(name, folder, program):
    """What a child of this program does: it mounts a small disk on a folder, and runs on it."""
    subprocess.run(MOUNT + [folder], check=True)
    made = next(it for it in (AN_INDEX, AN_ANSWER) if it.name == name)
    return 1 if tell("a small disk", made, small_disk(Room(program, made, folder))) else 0


if __name__ == "__main__":
    if sys.argv[1:2] == ["--small-disk"]:
        sys.exit(on_small_disk(*sys.argv[2:]))
    sys.exit(main(sys.argv[1]) if len(sys.argv) == 2 else __doc__)
