#!/usr/bin/env python3
"""Lets two runs that make one file overlap, two index runs or two searches: the first is stopped before each of its calls in turn,
and meanwhile the second runs to its end, is stopped too, is killed or fails at one of its own.

    overlapping_runs.py PROGRAM

After each step the file is the one before it or the whole one of the run that took the step, and whole is what was laid out by
hand. The last line is `N passed, M failed`.
"""
import hashlib, os, signal, struct, subprocess, sys, tempfile, time
from dataclasses import dataclass

sys.dont_write_bytecode = True
from verdict import say

SEPARATOR = b"From a@x.org Thu Jan  2 10:00:00 2003\n"
HELLO = SEPARATOR + b"Subject: Hello\n\nhi\n\n"
# What an older run made, which is replaced: it begins as an index does, and as an answer it may be anything.
OLD = b"MAIRIX\r\nold"
FIRST, SECOND = "m.mbox", "n.mbox"
COUNTED = "open update create statx flock write fchmod fsync unlink rename "
UNWRITTEN = b"mairix: output failed\n"


def hello_index(path, version=2, digest=hashlib.sha256(HELLO).digest(), begins=0):
    """The index file of an archive of this path that has HELLO from an offset on, to its end, laid out by hand: counts, the archive, its
    message, the keys `hello` of subjects and `hi` of texts, and the digest of all that. Behind an archive's path version 2 has the digest
    of its bytes."""
    behind = digest if version == 2 else b""
    index = (
        b"MAIRIX\r\n"
        + struct.pack(">IIIIQQQ", version, 1, 1, 2, 12 + len(path) + len(behind), 7, 2)
        + struct.pack(">QI", begins + 58, len(path))
        + path.encode()
        + behind
        + struct.pack(">IIQQQq", 0, 0, begins, 58, 19, 0)
        + struct.pack(">IIQQ", 5 << 24, 5, 0, 0)
        + struct.pack(">IIQQ", 6 << 24, 2, 5, 1)
        + b"hellohi"
        + b"\1\1"
    )
    return index + hashlib.sha256(index).digest()


def rcfile(archive):
    return b"mbox=%s\ndatabase=m.idx\nmfolder=hits\n" % archive.encode()


@dataclass(frozen=True)
class Made:
    """A file that two runs want to make: its name, the words of such a run behind the rcfile's name, by the archive of a run what that
    holds and what the whole file is, what a killed run may leave, and how many pairs of calls in eleven are tried."""

    what: str
    name: str
    words: tuple
    mail: dict
    whole: dict
    half: bytes
    pairs: int

    @property
    def temporary(self):
        """The name that it has until it is whole."""
        return self.name + ".new"

    @property
    def busy(self):
        """What a run tells that finds another one at work."""
        return b"mairix: cannot open %s\n" % self.temporary.encode()


AN_INDEX = Made("index", "m.idx", (), {FIRST: HELLO, SECOND: HELLO}, {it: hello_index(it) for it in (FIRST, SECOND)}, hello_index(FIRST)[:99], 3)
TWO_ANSWERS = {FIRST: HELLO, SECOND: HELLO + HELLO}
# Both files are made by the same steps, so that fewer pairs of calls of a search tell enough.
AN_ANSWER = Made("answer", "hits", ("--once", "s:hello"), TWO_ANSWERS, TWO_ANSWERS, HELLO[:50], 1)


def shim(room, name):
    """A library that is loaded before the program's."""
    built = os.path.join(room, name + ".so")
    if not os.path.exists(built):
        source = os.path.join(os.path.dirname(os.path.abspath(__file__)), name + ".c")
        subprocess.run(["cc", "-O2", "-fPIC", "-shared", "-o", built, source, "-ldl"], check=True)
    return built


def read(path):
    if not os.path.exists(path):
        return None
    with open(path, "rb") as f:
        return f.read()


class Run:
    """A run of the program over one archive, until it ends or stops before a call."""

    def __init__(self, room, archive, at=0, how="stop", again=0, log=""):
        env = dict(os.environ, LD_PRELOAD=room.shim, COUNTED=COUNTED, AT=str(at), HOW=how, AGAIN=str(again), CALLS_LOG=log)
        self.room, self.whole = room, room.made.whole[archive]
        self.process = subprocess.Popen(
            [room.program, "-f", "rc." + archive, *room.made.words],
            cwd=room.folder,
            env=env,
            stdin=subprocess.DEVNULL,
            stdout=subprocess.DEVNULL,
            stderr=subprocess.PIPE,
        )
        self.ended = self.has_made = False
        self.wait(room.file())

    def go_on(self):
        """Lets a stopped run go on until it ends or stops again."""
        if not self.ended:
            before = self.room.file()
            self.process.send_signal(signal.SIGCONT)
            self.wait(before)

    def kill(self):
        if not self.ended:
            before = self.room.file()
            self.process.kill()
            self.wait(before)

    def wait(self, before):
        until = time.monotonic() + 30
        while True:
            pid, status = os.waitpid(self.process.pid, os.WUNTRACED | os.WNOHANG)
            if pid:
                break
            if time.monotonic() > until:
                self.process.kill()
                raise RuntimeError("a run doesn't end")
            time.sleep(0.0002)
        self.ended = not os.WIFSTOPPED(status)
        if self.ended:
            self.process.returncode = self.status = os.waitstatus_to_exitcode(status)
            self.text = self.process.stderr.read()
            self.process.stderr.close()
        self.judge(before)

    def judge(self, before):
        """What the file has become by this step."""
        file, bad = self.room.file(), self.room.bad
        if file not in (before, self.whole):
            bad.append("the file became %r" % file)
        # Another run may replace it once it is made.
        self.has_made = self.has_made or file == self.whole
        if not self.ended:
            return
        if self.status == 0 and (not self.has_made or self.text):
            bad.append("a run of status 0 left %r and told %r" % (file, self.text))
        elif self.status not in (0, 4, -signal.SIGKILL):
            bad.append("status %d" % self.status)
        elif (
            self.status == 4
            and (file != before or not self.text.startswith(b"mairix: ") or self.text.count(b"\n") != 1)
            and not self.is_unsynced(file)
        ):
            bad.append("a run of status 4 told %r" % self.text)

    def is_unsynced(self, file):
        """Whether it has made its file, and told that this may not be on the disk."""
        return file == self.whole and self.text == UNWRITTEN


class Room:
    """A folder with two archives and an rcfile for each, both of one index and one answer, with what has the file's name, and its
    temporary name: nothing, or the bytes of a file that is marked there."""

    def __init__(self, program, shim, top, made, old, left):
        self.program, self.shim, self.made, self.bad = program, shim, made, []
        self.folder = tempfile.mkdtemp(dir=top)
        files = {**made.mail, "rc." + FIRST: rcfile(FIRST), "rc." + SECOND: rcfile(SECOND), "other": b"mine"}
        self.at_end = sorted([*files, made.name])
        for name, body in {**files, made.name: old, made.temporary: left}.items():
            if body is not None:
                with open(os.path.join(self.folder, name), "wb") as f:
                    os.chmod(f.fileno(), 0o1600 if name == made.temporary else 0o644)
                    f.write(body)

    def file(self):
        return read(os.path.join(self.folder, self.made.name))

    def new(self):
        """Which file lies under the temporary name, and what is in it."""
        path = os.path.join(self.folder, self.made.temporary)
        return (os.lstat(path).st_ino, read(path)) if os.path.lexists(path) else None

    def close(self):
        """A later run makes its file whatever was left, and leaves nothing else."""
        last = Run(self, FIRST)
        if last.status != 0:
            self.bad.append("a later run has status %d and tells %r" % (last.status, last.text))
        if sorted(os.listdir(self.folder)) != self.at_end or read(os.path.join(self.folder, "other")) != b"mine":
            self.bad.append("left is %s" % sorted(os.listdir(self.folder)))
        return self.bad


def calls(room):
    """The calls of a run by their names."""
    log = os.path.join(room.folder, "log")
    Run(room, FIRST, log=log)
    names = [line.split()[0] for line in read(log).decode().splitlines()]
    os.remove(log)
    return names


def second_runs(room, names, n):
    """The second run has its whole time while the first waits before call n: it is refused where the first has its lock. If the first has given its
    file the name, and not looked whether it is there, it finds the second one's."""
    first = Run(room, FIRST, n)
    new = room.new()
    second = Run(room, SECOND)
    created, locked, renamed = (names.index(name) + 1 for name in ("create", "flock", "rename"))
    refused = locked < n <= renamed
    if refused != (second.status == 4) or (refused and (second.text != room.made.busy or room.new() != new)):
        room.bad.append("the second has status %d and tells %r" % (second.status, second.text))
    first.go_on()
    if (first.status == 4) != (n in (locked, renamed + 1)):
        room.bad.append("the first has status %d and tells %r" % (first.status, first.text))


def second_clears_too(room, names, n):
    """As before, where a killed run left a file: one of them makes the file."""
    first = Run(room, FIRST, n)
    second = Run(room, SECOND)
    first.go_on()
    if first.status != 0 and second.status != 0:
        room.bad.append("neither makes the file: %r, %r" % (first.text, second.text))


def first_is_killed(room, names, n):
    """The first is killed before call n, and the second makes its file."""
    Run(room, FIRST, n, "kill")
    second = Run(room, SECOND)
    if second.status != 0:
        room.bad.append("the second has status %d and tells %r" % (second.status, second.text))


def first_fails(room, names, n):
    """Call n of the first fails, and it tells of it, but for calls whose failure says nothing; the second makes its file."""
    first = Run(room, FIRST, n, "fail")
    told = {"create": room.made.busy, "flock": room.made.busy, "write": UNWRITTEN, "fsync": UNWRITTEN, "rename": UNWRITTEN}
    # What comes once the file has its name. Before that it is private alone without the mark, and without its mode too.
    if n > names.index("rename") + 1:
        told.update(dict.fromkeys(("statx", "fchmod", "open"), UNWRITTEN))
    want = told.get(names[n - 1]) if n <= len(names) else None
    if want and (first.status, first.text) != (4, want):
        room.bad.append("the first has status %d and tells %r" % (first.status, first.text))
    second = Run(room, SECOND)
    if second.status != 0:
        room.bad.append("the second has status %d and tells %r" % (second.status, second.text))


def both_wait(room, names, n, m):
    """The first waits before call n and the second before call m; the first ends, then the second."""
    first, second = Run(room, FIRST, n), Run(room, SECOND, m)
    first.go_on()
    second.go_on()


def second_ends_first(room, names, n, m):
    """The first waits before call n and the second before call m; the second ends, then the first."""
    first, second = Run(room, FIRST, n), Run(room, SECOND, m)
    second.go_on()
    first.go_on()


def second_is_killed(room, names, n, m):
    """The second is killed before its call m while the first waits before call n."""
    first = Run(room, FIRST, n)
    Run(room, SECOND, m, "kill")
    first.go_on()


def second_fails(room, names, n, m):
    """Call m of the second fails while the first waits before call n."""
    first = Run(room, FIRST, n)
    Run(room, SECOND, m, "fail")
    first.go_on()


def waiting_is_killed(room, names, n, m):
    """The first is killed while it waits before call n and the second before call m."""
    first, second = Run(room, FIRST, n), Run(room, SECOND, m)
    first.kill()
    second.go_on()


def first_waits_twice(room, names, n):
    """The first waits before call n until the second waits to give its file the name, and then two calls on until that has ended."""
    first, second = Run(room, FIRST, n, again=n + 2), Run(room, SECOND, "rename")
    first.go_on()
    second.go_on()
    first.go_on()


PAIRS = (both_wait, second_ends_first, second_is_killed, second_fails, waiting_is_killed)


def order(names):
    """A file is marked before anything is written, and all of it is on the disk, with its mode, before it takes its name; then it is looked at
    under its name, its mark is taken away, and its folder is brought to the disk."""
    last_write = len(names) - 1 - names[::-1].index("write")
    renamed = names.index("rename")
    before = names[last_write + 1 : renamed]
    ok = (
        names.index("fchmod") < names.index("write")
        and before.index("fchmod") < before.index("fsync")
        and names[renamed + 1 :] == ["statx", "statx", "fchmod", "open", "fsync"]
    )
    return [] if ok else ["the calls were %s" % " ".join(names)]


def overlaps_of(names, made):
    """Each overlap of two runs with these calls: what the two do, what was left, and at which calls; of pairs of calls so many in eleven."""
    # What was left adds calls: its owner is looked at, it is opened, looked at as it is open, opened for writing, locked, looked at by name
    # and as it is open, and removed.
    each = range(1, len(names) + 9)
    lefts = (None, b"", made.half)
    yield from ((second_runs, None, (n,)) for n in each[: len(names)])
    yield from ((first_fails, None, (n,)) for n in each[: len(names)])
    yield from ((f, left, (n,)) for f in (second_clears_too, first_is_killed, first_waits_twice) for left in lefts for n in each)
    # What was left is each in turn.
    yield from ((f, lefts[(n + m) // 11 % 3], (n, m)) for f in PAIRS for n in each for m in each if (n + 3 * m) % 11 < made.pairs)


def checks(program):
    """Each check, by its name: how many overlaps it tried, and what was wrong in them."""
    with tempfile.TemporaryDirectory() as top:
        library = shim(top, "at_call")
        for made in (AN_INDEX, AN_ANSWER):
            names = {old: calls(Room(program, library, top, made, old, None)) for old in (None, OLD)}
            yield made.what + ": order of the calls", 2, [text for it in names.values() for text in order(it)]
            found = {}
            for number, (f, left, at) in enumerate(overlaps_of(max(names.values(), key=len), made)):
                old = OLD if number % 2 else None
                room = Room(program, library, top, made, old, left)
                f(room, names[old], *at)
                tried, bad = found.setdefault(f, (0, []))
                found[f] = tried + 1, bad + ["at %s: %s" % (at, text) for text in room.close()]
            for f, (tried, bad) in found.items():
                yield made.what + ": " + f.__name__.replace("_", " "), tried, bad


def main(program):
    passed = failed = overlaps = 0
    for name, tried, bad in checks(os.path.abspath(program)):
        passed, failed, overlaps = passed + (not bad), failed + bool(bad), overlaps + tried
        if bad:
            print("overlapping runs: %s: %d of %d: %s" % (name, len(bad), tried, "; ".join(bad[:3])))
    print("overlapping runs: %d overlaps" % overlaps)
    return say(passed, failed)


if __name__ == "__main__":
    sys.exit(main(sys.argv[1]) if len(sys.argv) == 2 else __doc__)
