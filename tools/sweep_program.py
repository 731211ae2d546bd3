#!/usr/bin/env python3
"""Lets the built program meet each fault of memory and of files in turn.

    sweep_program.py PROGRAM

Each allocation of a run is refused in turn; each of its calls on files fails in turn, by EIO and by ENOSPC, or takes nothing; and each moves
one byte in place of many, or is interrupted by a signal. The run then gives its whole answer, or it tells this very fault with its status: a
front of the answer went to standard output, and its files are as they were. The last line is `N passed, M failed`.
"""
import os, subprocess, sys, tempfile
from dataclasses import dataclass, field

from check_program import contents, run, write
from overlapping_runs import HELLO, OLD, shim
from program_cases import ALICE, ALICE_EXCERPT, CHANGED, FIRST_OF_THREAD, HELLO_INDEX, INDEX, ONCE, RC, SECOND_OF_THREAD, STORED, THREAD, fault
from verdict import say

MOST = 20_000
COUNTED = "open update create statx realpath flock read read_at write print tell fchmod fsync unlink rename "
# Those of them that write: into a file, to standard output, and to standard error.
WRITES = ("write", "print", "tell")
# The last name of the folder of a run, by which its calls on it are told.
ROOM = "room"


def unopened(name):
    return fault(b"cannot open " + name.encode())


UNINDEXED = fault(b"archive 1: read failed")
UNREAD = fault(b"archive read failed")
UNWRITTEN = fault(b"output failed")
WANT_OF_MEMORY = fault(b"out of memory")


class InPlace(bytes):
    """What is told where a file has its name, but may not be on the disk."""


# Where standard error takes only a front of what is told.
UNTOLD = object()

# What is told where a call fails, by its name and the last name of its path: of the first such call, of the second, and so on, and of all
# others what the list ends with. By None nothing is told, and so where a call isn't named: the answer is whole.


def whole(name):
    """The calls that read a file whole. Where a file is made, both of its names are compared with this one."""
    return {**{call + name: [unopened(name)] for call in ("open ", "read ")}, "statx " + name: [unopened(name), None]}


def searched(name, looks=0):
    """The calls on an archive of a stored index: it is opened, looked at and closed, its length is asked, and it is read where a message
    stands, and looked at again. Where a file is made, both of its names are compared with the archive's."""
    return {"open " + name: [unopened(name), UNREAD], "statx " + name: [unopened(name)] + [None] * looks + [UNREAD], "read_at " + name: [UNREAD]}


def indexed(name):
    """The calls on an archive that is indexed: it is opened, looked at and closed, and read to its end. Both names of the index are compared
    with the archive's."""
    return {"open " + name: [unopened(name), UNINDEXED], "statx " + name: [unopened(name), None], "read " + name: [UNINDEXED]}


def looked_at(name):
    """The calls on an old index that is to be replaced: it is looked at, its beginning is read, and it is looked at again."""
    read = {call + name: [unopened(name)] for call in ("open ", "read ")}
    return {**read, "statx " + name: [unopened(name), *[None] * INDEX_COMPARED, unopened(name), None, InPlace(UNWRITTEN)]}


def found(name, compared):
    """The calls that come before a file is written: both its names are compared with this many names, what it replaces is looked at, what was
    left is looked for, it is made, locked, seen to be the one that was locked, and marked. Without the mark it is private alone."""
    new = name + ".new"
    told = {call + new: [unopened(new)] for call in ("create ", "flock ")}
    seen = [None] * compared + [unopened(name), None]
    return {**told, "statx " + name: seen, "statx " + new: [None] * compared + [unopened(new)] * 3 + [None]}


def made(name, compared):
    """And those after that: what it replaces and it itself are looked at for its mode, it gets its name, is looked at under it, loses its mark, and
    the name is brought to the disk. Without what the looks show it is private."""
    new = name + ".new"
    told = {call + new: [UNWRITTEN] for call in ("write ", "fsync ", "rename ")}
    in_place = {call: [InPlace(UNWRITTEN)] for call in ("fchmod " + name, "open .", "fsync " + ROOM)}
    seen = {
        "statx " + name: [None] * compared + [unopened(name), None, InPlace(UNWRITTEN)],
        "statx " + new: [None] * compared + [unopened(new)] * 3 + [None, UNWRITTEN],
    }
    return {**found(name, compared), **told, **in_place, **seen}


# With how many names the temporary name of a file is compared: the rcfile, one archive and the file's own; and of an answer the index too.
INDEX_COMPARED, ANSWER_COMPARED = 3, 4
STORED_CALLS = {**whole("rc"), **whole("m.idx"), **searched("m.mbox")}
# And those of a search that makes a file.
STORED_FILE_CALLS = {**STORED_CALLS, **searched("m.mbox", looks=2)}
ONCE_CALLS = {
    **whole("rc"),
    **indexed("m.mbox"),
    "open m.mbox": [unopened("m.mbox"), UNINDEXED, UNREAD],
    "statx m.mbox": [unopened("m.mbox"), None, None, UNINDEXED, UNINDEXED, UNREAD],
    "read_at m.mbox": [UNREAD],
}
PRINT_CALLS = {"print output": [UNWRITTEN]}


@dataclass
class Swept:
    """A run: the files that it finds, its words, its status, what it prints and tells, the files that it changes, and what it tells where a
    call of it fails."""

    name: str
    files: dict
    words: list
    status: int = 0
    out: bytes = b""
    err: bytes = b""
    changes: dict = field(default_factory=dict)
    told: dict = field(default_factory=dict)

    def run(self, program, **env):
        """What it does: its status, what it prints and tells, and the files then."""
        with tempfile.TemporaryDirectory() as top:
            folder = os.path.join(top, ROOM)
            os.mkdir(folder)
            write(folder, {"rc": RC, **self.files})
            p = run(program, self.words, folder, capture_output=True, env={**os.environ, **env})
            return p.returncode, p.stdout, p.stderr, contents(folder)

    def wrong(self, got, fault=None, may_stay=""):
        """What is wrong with what it did, where it was to tell this fault, and without one to give its whole answer. A file of its own may stay
        where that can't be removed."""
        status, out, err, files = got
        files = {name: body for name, body in files.items() if name != may_stay}
        before = {"rc": RC, **self.files}
        after = {**before, **self.changes}
        if fault is None:
            good = (status, out, err, files) == (self.status, self.out, self.err, after)
        elif fault is UNTOLD:
            good = (status, out, files) == (self.status, self.out, after) and self.err.startswith(err)
        elif isinstance(fault, InPlace):
            good = (status, out, err, files) == (4, b"", fault, after)
        else:
            good = (status, err, files) == (5 if fault == WANT_OF_MEMORY else 4, fault, before) and self.out.startswith(out)
        return [] if good else ["status %d, %r, %r, left %s, wanted %r" % (status, out[:100], err, sorted(files), fault or "all")]


def index_of(files, program):
    return Swept("", files, INDEX).run(program)[3]["m.idx"]


def verified_runs(program):
    """Searches that read the archives through before they answer."""
    hello = {"m.mbox": HELLO, "m.idx": index_of({"m.mbox": HELLO}, program), "hits": OLD}
    world = {**hello, "m.mbox": HELLO.replace(b"Hello", b"World")}
    verify = INDEX + ["--verify", "s:hello"]
    return [
        Swept("lines, verified", hello, STORED + ["--verify", "s:hello"], out=b"0 58 m.mbox\n", told={**STORED_CALLS, **PRINT_CALLS}),
        Swept("an mbox, verified", hello, verify, changes={"hits": HELLO}, told={**STORED_FILE_CALLS, **made("hits", ANSWER_COMPARED)}),
        Swept("an archive with another letter", world, verify, 3, err=CHANGED, told={**STORED_FILE_CALLS, **found("hits", ANSWER_COMPARED)}),
    ]


def swept_runs(program):
    """The runs that are swept. Some indexes and the parser's own texts are the program's: those are shown elsewhere."""
    hello = {"m.mbox": HELLO, "m.idx": HELLO_INDEX, "hits": OLD}
    alice = {"m.mbox": ALICE, "m.idx": index_of({"m.mbox": ALICE}, program), "hits": OLD}
    thread = {**THREAD, "m.idx": index_of(THREAD, program), "hits": OLD}
    threads = FIRST_OF_THREAD + SECOND_OF_THREAD
    return [
        Swept(
            "an index run",
            {**hello, "m.idx": OLD},
            INDEX,
            changes={"m.idx": HELLO_INDEX},
            told={**whole("rc"), **indexed("m.mbox"), **made("m.idx", INDEX_COMPARED), **looked_at("m.idx")},
        ),
        Swept("lines", hello, STORED + ["s:hello"], out=b"0 58 m.mbox\n", told={**STORED_CALLS, **PRINT_CALLS}),
        Swept("excerpts", alice, INDEX + ["-x", "t:alice"], out=ALICE_EXCERPT, told={**STORED_CALLS, **PRINT_CALLS}),
        Swept("threads", thread, INDEX + ["--stdout", "-t", "b:hi"], out=threads, told={**STORED_CALLS, **searched("n"), **PRINT_CALLS}),
        Swept("an mbox", hello, INDEX + ["s:hello"], changes={"hits": HELLO}, told={**STORED_FILE_CALLS, **made("hits", ANSWER_COMPARED)}),
        Swept("no message", hello, INDEX + ["s:goodbye"], 1, changes={"hits": b""}, told={**STORED_FILE_CALLS, **made("hits", ANSWER_COMPARED)}),
        Swept(
            "an index in memory",
            {"m.mbox": HELLO, "hits": OLD},
            ONCE + ["--boolean", "hi"],
            changes={"hits": HELLO},
            told={**ONCE_CALLS, **made("hits", ANSWER_COMPARED)},
        ),
        Swept(
            "a bad query",
            hello,
            INDEX + ["q:x"],
            2,
            err=fault(b"query item 1: bad prefix"),
            told={
                **whole("rc"),
                **whole("m.idx"),
                "open m.mbox": [unopened("m.mbox")],
                "statx m.mbox": [unopened("m.mbox"), None],
                **found("hits", ANSWER_COMPARED),
            },
        ),
        Swept(
            "an archive that has grown",
            {**hello, "m.mbox": HELLO + HELLO},
            INDEX + ["s:hello"],
            3,
            err=CHANGED,
            told={**STORED_FILE_CALLS, **found("hits", ANSWER_COMPARED)},
        ),
        Swept("bad words", {}, ["-z"], 2, err=Swept("", {}, ["-z"]).run(program)[2]),
        Swept("help", {}, ["-h"], out=Swept("", {}, ["-h"]).run(program)[1], told=PRINT_CALLS),
        *verified_runs(program),
    ]


def refused(swept, program, room):
    """Each allocation is refused in turn, until a run meets no refusal."""
    log, bad, number = os.path.join(room, "refused"), [], 0
    while len(bad) < 3:
        number += 1
        got = swept.run(program, LD_PRELOAD=shim(room, "refuse_allocation"), REFUSE_ALLOCATION=str(number), REFUSED_LOG=log)
        if not os.path.exists(log):
            return number - 1, bad + swept.wrong(got)
        os.remove(log)
        # What an index run keeps to use again, it may as well not keep: then the answer is whole.
        if swept.wrong(got):
            bad += ["allocation %d: %s" % (number, it) for it in swept.wrong(got, WANT_OF_MEMORY)]
        if number == MOST:
            bad += ["still refused at allocation %d" % number]
    return number, bad


def calls(swept, program, room):
    """The calls of the run, each by its name, the last name of its path, and how many such there were before."""
    log = os.path.join(room, "calls")
    swept.run(program, LD_PRELOAD=shim(room, "at_call"), COUNTED=COUNTED, CALLS_LOG=log)
    with open(log) as f:
        names = f.read().splitlines()
    os.remove(log)
    return [(name, names[:n].count(name)) for n, name in enumerate(names)]


def met(how, swept, program, room, moves):
    """Each call, or each that moves bytes alone, meets what is said."""
    bad, tried = [], 0
    for number, (call, before) in enumerate(calls(swept, program, room), 1):
        kind, _, name = call.partition(" ")
        if kind in moves:
            tried += 1
            told = swept.told.get(call, [None])
            fault = told[min(before, len(told) - 1)]
            if how in ("short", "break"):
                fault = None
            elif kind == "tell":
                fault = UNTOLD
            got = swept.run(program, LD_PRELOAD=shim(room, "at_call"), COUNTED=COUNTED, AT=str(number), HOW=how)
            # A file of which this can't be told any more isn't removed, since it may be another run's.
            may_stay = name if kind in ("flock", "statx", "unlink") and name.endswith(".new") else ""
            bad += ["%s (%d): %s" % (call, before + 1, it) for it in swept.wrong(got, fault, may_stay)]
    return tried, bad


def one_byte(swept, program, room):
    """Every call moves one byte alone."""
    return 1, swept.wrong(swept.run(program, LD_PRELOAD=shim(room, "at_call"), COUNTED=COUNTED, AT="each", HOW="short"))


SWEEPS = (
    ("refused allocations", refused),
    ("failing calls", lambda *run: met("fail", *run, moves=COUNTED.split())),
    ("calls on a full disk", lambda *run: met("full", *run, moves=("create", *WRITES, "fsync", "rename"))),
    ("writes that take nothing", lambda *run: met("none", *run, moves=WRITES)),
    ("short reads and writes", lambda *run: met("short", *run, moves=("read", "read_at", *WRITES))),
    ("interrupted writes", lambda *run: met("break", *run, moves=WRITES)),
    ("run of single bytes", one_byte),
)


def main(program):
    program = os.path.abspath(program)
    passed = failed = 0
    tried = {name: 0 for name, _ in SWEEPS}
    with tempfile.TemporaryDirectory() as room:
        for swept in swept_runs(program):
            for name, sweep in SWEEPS:
                count, bad = sweep(swept, program, room)
                tried[name] += count
                # Some runs have no such call.
                passed, failed = passed + bool(count and not bad), failed + bool(bad)
                if bad:
                    print("sweep_program: %s: %s: %s" % (swept.name, name, "; ".join(bad[:3])))
    for name, count in tried.items():
        failed += not count
        print("sweep_program: %d %s" % (count, name))
    return say(passed, failed)


if __name__ == "__main__":
    sys.exit(main(sys.argv[1]) if len(sys.argv) == 2 else __doc__)
