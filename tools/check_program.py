#!/usr/bin/env python3
"""Runs the built program on real files, and compares status, streams and files with what was worked out by hand.

    check_program.py PROGRAM

The last line is `N passed, M failed`.
"""
import hashlib, os, resource, stat, subprocess, sys, tempfile, time

import overlapping_runs
from overlapping_runs import HELLO, OLD, SEPARATOR, hello_index, shim
from program_cases import CASES, CHANGED, HELLO_INDEX, INDEX, LEFT, LINK, ONCE, OWN, RAW, RC, STORED, TWO, fault
from verdict import say_of


def write(folder, files):
    for name, body in files.items():
        path = os.path.join(folder, name)
        if body is None:
            os.mkdir(path)
        elif isinstance(body, LINK):
            os.symlink(body[0], path)
        else:
            with open(path, "wb") as f:
                f.write(body)
            if isinstance(body, (LEFT, OWN)):
                os.chmod(path, 0o1600 if isinstance(body, LEFT) else 0o600)


def same(want, got):
    return bool(got) if want is ... else want == got


def mode(path):
    """Who may do what with a file, and not with what a link leads to."""
    return stat.S_IMODE(os.lstat(path).st_mode)


def left_out(what):
    """Says aloud what isn't tried here. Nothing is wrong with it."""
    print("left out: " + what, flush=True)
    return []


def run(program, words, folder, **to):
    return subprocess.run([program] + words, cwd=folder, stdin=subprocess.DEVNULL, timeout=60, **to)


def limited(program, limit, words, folder):
    """A run under a limit of the shell."""
    return run("/bin/sh", ["-c", limit + '; exec "$0" "$@"', program] + words, folder, capture_output=True)


def contents(folder):
    """What lies in a folder: each file's bytes, where each link leads, and None for a folder."""
    found = {}
    for name in os.listdir(folder):
        path = os.path.join(folder, name)
        if os.path.islink(path):
            found[name] = LINK([os.readlink(path)])
        elif os.path.isdir(path):
            found[name] = None
            found.update({name + "/" + inner: body for inner, body in contents(path).items()})
        else:
            with open(path, "rb") as f:
                found[name] = f.read()
    return found


def differences(want, got):
    """How the files of a folder differ from those that are wanted; an Ellipsis stands for any that isn't empty."""
    for name in sorted(set(want) | set(got)):
        if name not in got:
            yield "%s is gone" % name
        elif name not in want:
            yield "it left %s" % name
        elif not same(want[name], got[name]):
            yield "%s is %r" % (name, got[name][:200])


def case(program, files, words, status, out, err, changes={}):
    with tempfile.TemporaryDirectory() as folder:
        write(folder, {"rc": RC, **files})
        want = {**contents(folder), **changes}
        want = {name: body for name, body in want.items() if name not in changes or body is not None}
        p = run(program, words, folder, capture_output=True)
        bad = []
        if p.returncode != status:
            bad.append("status %d, wanted %d" % (p.returncode, status))
        if not same(out, p.stdout):
            bad.append("standard output %r, wanted %r" % (p.stdout[:200], out))
        if not same(err, p.stderr):
            bad.append("standard error %r, wanted %r" % (p.stderr[:200], err))
        return bad + list(differences(want, contents(folder)))


def killed_run(program):
    """An index run that is killed while it reads: the old index stays, and the next run replaces what was left."""
    with tempfile.TemporaryDirectory() as folder:
        write(folder, {"rc": RC, "m.idx": OLD})
        archive, index, new = (os.path.join(folder, name) for name in ("m.mbox", "m.idx", "m.idx.new"))
        # A pipe with an end that stays open: whoever reads it waits.
        os.mkfifo(archive)
        end = os.open(archive, os.O_RDWR)
        p = subprocess.Popen([program] + INDEX, cwd=folder, stdin=subprocess.DEVNULL)
        until = time.monotonic() + 30
        while not os.path.exists(new) and time.monotonic() < until:
            time.sleep(0.01)
        p.kill()
        p.wait()
        os.close(end)
        left = sorted(os.listdir(folder))
        with open(index, "rb") as f:
            bad = [] if left == ["m.idx", "m.idx.new", "m.mbox", "rc"] and f.read() == OLD else ["it left %s" % left]
        if mode(new) != 0o1600:
            bad.append("its own file has mode %o" % mode(new))
        os.remove(archive)
        write(folder, {"m.mbox": HELLO})
        p = run(program, INDEX, folder, capture_output=True)
        if p.returncode != 0 or contents(folder) != {"rc": RC, "m.mbox": HELLO, "m.idx": HELLO_INDEX}:
            bad.append("then status %d, %r" % (p.returncode, p.stderr))
        return bad


MADE = (("m.idx", INDEX, HELLO_INDEX), ("hits", ONCE + ["s:hello"], HELLO))


def private_file(program):
    """A new index and a new answer are private whatever the umask, and all may read them if all may read what they replace."""
    bad = []
    shared = ((0o077, old, 0o644) for old in (0o644, 0o604, 0o444, 0o777, 0o1644))
    private = ((0, old, 0o600) for old in (0o600, 0o640, 0o660, 0o400, 0o751, 0o1600))
    modes = ((0o022, None, 0o600), (0, None, 0o600), (0o777, None, 0o600), *shared, *private, (0o022, LINK(["other"]), 0o600))
    for umask, old, want in modes:
        for name, words, whole in MADE:
            with tempfile.TemporaryDirectory() as folder:
                path = os.path.join(folder, name)
                write(folder, {"rc": RC, "m.mbox": HELLO, "other": OLD})
                if isinstance(old, LINK):
                    write(folder, {name: old})
                elif old is not None:
                    write(folder, {name: OLD})
                    os.chmod(path, old)
                p = run(program, words, folder, capture_output=True, umask=umask)
                if p.returncode != 0 or mode(path) != want or contents(folder) != {"rc": RC, "m.mbox": HELLO, "other": OLD, name: whole}:
                    bad.append("%s, umask %o: status %d, %r, mode %o, wanted %o" % (name, umask, p.returncode, p.stderr, mode(path), want))
    return bad


def file_of_another(program):
    """An old file of another owner doesn't say who may read the new one, and the group of one doesn't matter. Only root can try that."""
    bad = []
    if os.geteuid() != 0:
        return left_out("old files of other owners: only root can make some")
    another = 65534
    for owner, group, old, want in ((another, -1, 0o666, 0o600), (-1, another, 0o640, 0o600), (-1, another, 0o664, 0o644)):
        for name, words, _ in MADE:
            with tempfile.TemporaryDirectory() as folder:
                path = os.path.join(folder, name)
                write(folder, {"rc": RC, "m.mbox": HELLO, name: OLD})
                os.chown(path, owner, group)
                os.chmod(path, old)
                p = run(program, words, folder, capture_output=True)
                if p.returncode != 0 or mode(path) != want:
                    bad.append("%s of %d:%d, %o: status %d, mode %o, wanted %o" % (name, owner, group, old, p.returncode, mode(path), want))
    return bad


def appended_answers(program):
    """An answer that would go to the end of a file that the run reads: nothing is written there, as by `cat`. To the end of another file it goes."""
    bad = []
    runs = (
        RAW + ["s:hello"],
        ONCE + ["--stdout", "s:hello"],
        STORED + ["s:hello"],
        INDEX + ["-x", "s:hello"],
        INDEX + ["--verify", "--stdout", "s:hello"],
    )
    for words in runs:
        for name in ("m.mbox", "rc", "m.idx", "other"):
            with tempfile.TemporaryDirectory() as folder:
                write(folder, {"rc": RC, "m.mbox": HELLO, "m.idx": HELLO_INDEX, "other": OLD})
                before = contents(folder)
                with open(os.path.join(folder, name), "ab") as out:
                    p = run(program, words, folder, stdout=out, stderr=subprocess.PIPE)
                is_read = name in ("m.mbox", "rc") or name == "m.idx" and "--once" not in words
                good = (p.returncode, p.stderr) == ((4, fault(b"cannot open " + name.encode())) if is_read else (0, b""))
                after = contents(folder)
                if not good or is_read and after != before or len(after[name]) < len(before[name]):
                    bad.append("%s >> %s: status %d, %r" % (words, name, p.returncode, p.stderr))
    return bad


def name_of_a_pipe(program):
    """A pipe that has the name of the index or of the answer keeps it, and so does a link to one."""
    bad = []
    for pipe in ("m.idx", "hits", "pipe"):
        for name, words, _ in MADE:
            with tempfile.TemporaryDirectory() as folder:
                write(folder, {"rc": RC, "m.mbox": HELLO})
                os.mkfifo(os.path.join(folder, pipe))
                if pipe != name:
                    write(folder, {name: LINK([pipe])})
                before = sorted(os.listdir(folder))
                p = run(program, words, folder, capture_output=True)
                if (p.returncode, p.stdout, p.stderr) != (4, b"", fault(b"cannot open " + name.encode())):
                    bad.append("%s: status %d, %r" % (name, p.returncode, p.stderr))
                if not stat.S_ISFIFO(os.stat(os.path.join(folder, name)).st_mode) or sorted(os.listdir(folder)) != before:
                    bad.append("%s: it left %s" % (name, sorted(os.listdir(folder))))
    return bad


def foreign_leftovers(program):
    """A file under the temporary name that holds what a run makes, but without the mark, or of another owner, stays, and the run is refused."""
    bad = []
    another = [(0o1600, 65534)] if os.geteuid() == 0 else left_out("a leftover of another owner: only root can make one")
    modes = (0o600, 0o400, 0o601, 0o620, 0o640, 0o644, 0o700, 0o2600, 0o4600, 0o6600)
    for mode_left, owner in [*((it, -1) for it in modes), *another]:
        for name, words, whole in MADE:
            with tempfile.TemporaryDirectory() as folder:
                write(folder, {"rc": RC, "m.mbox": HELLO, name: OLD, name + ".new": whole})
                path = os.path.join(folder, name + ".new")
                os.chown(path, owner, -1)
                os.chmod(path, mode_left)
                before, number = contents(folder), os.lstat(path).st_ino
                p = run(program, words, folder, capture_output=True)
                kept = contents(folder) == before and os.lstat(path).st_ino == number and mode(path) == mode_left
                if (p.returncode, p.stderr) != (4, fault(b"cannot open %s.new" % name.encode())) or not kept:
                    bad.append("%s, mode %o of %d: status %d, %r" % (name, mode_left, owner, p.returncode, p.stderr))
    return bad


def large_no_index(program):
    """A large file or a device that is no index, or one of another version, is refused by its first bytes; what begins as an index is read."""
    bad = []
    texts = {b"": (3, b"index: bad magic"), HELLO_INDEX[:8] + bytes(4): (3, b"index: unknown version"), HELLO_INDEX[:99]: (5, b"out of memory")}
    for front, (status, text) in texts.items():
        with tempfile.TemporaryDirectory() as folder:
            write(folder, {"rc": RC, "m.mbox": HELLO, "m.idx": front, "hits": OLD})
            # Without blocks of its own, so that it costs nothing.
            os.truncate(os.path.join(folder, "m.idx"), 1 << 30)
            for words in (["s:hello"], ["-r", "s:hello"]):
                p = limited(program, "ulimit -v 200000", INDEX + words, folder)
                with open(os.path.join(folder, "hits"), "rb") as f:
                    left = f.read()
                if (p.returncode, p.stdout, p.stderr, left, len(os.listdir(folder))) != (status, b"", fault(text), OLD, 4):
                    bad.append("%r: status %d, %r" % (front, p.returncode, p.stderr))
    for pattern, status, text in (("s:hello", 3, b"index: bad magic"), ("q:x", 2, b"query item 1: bad prefix")):
        with tempfile.TemporaryDirectory() as folder:
            write(folder, {"rc": RC, "m.mbox": HELLO, "m.idx": LINK(["/dev/zero"])})
            p = limited(program, "ulimit -v 200000", STORED + [pattern], folder)
            if (p.returncode, p.stdout, p.stderr) != (status, b"", fault(text)):
                bad.append("/dev/zero, %s: status %d, %r" % (pattern, p.returncode, p.stderr))
    return bad


LIMITS = {
    "ulimit -n 5": (
        INDEX,
        INDEX + ["s:hello"],
        INDEX + ["--verify", "s:hello"],
        ONCE + ["s:hello"],
        ONCE + ["-x", "s:hello"],
        STORED + ["-t", "s:hello"],
    ),
    "ulimit -n 4": (STORED + ["s:hello"], INDEX + ["-x", "s:hello"], INDEX + ["--verify", "--stdout", "s:hello"], RAW + ["-t", "s:hello"]),
}


def low_limits(program):
    """Five descriptors are enough for any run and four for any that makes no file, also where a killed one left its file."""
    bad = []
    for limit, runs in LIMITS.items():
        for words in runs:
            with tempfile.TemporaryDirectory() as folder:
                write(folder, {"rc": TWO, "m.mbox": HELLO, "n": HELLO * 3000})
                run(program, INDEX, folder)
                write(folder, {"m.idx.new": LEFT(HELLO_INDEX[:99]), "hits.new": LEFT(HELLO[:50])})
                before = contents(folder)
                want = run(program, words, folder, capture_output=True)
                made = contents(folder)
                for name in set(made) - set(before):
                    os.remove(os.path.join(folder, name))
                write(folder, {name: LEFT(body) if name.endswith(".new") else body for name, body in before.items()})
                got = limited(program, limit, words, folder)
                if (got.returncode, got.stdout, got.stderr, contents(folder)) != (want.returncode, want.stdout, want.stderr, made):
                    bad.append("%s: %s: status %d, %r" % (limit, words, got.returncode, got.stderr))
    return bad


SMALL_STACK = (
    INDEX,
    STORED + ["s:hello"],
    INDEX + ["s:hello"],
    INDEX + ["--verify", "-x", "s:hello"],
    ONCE + ["-t", "--boolean", "subject:hel* or (hi and not x)"],
    ["-h"],
    ["-z"],
)


def small_stacks(program):
    """A stack of 64 kB is enough for any run, with as much more as its arguments and environment take: each of them its bytes, and nine
    more."""
    bad = []
    for count in (0, 2, 10):
        environment = {"X%d" % n: "x" * 10_000 for n in range(count)}
        for words in SMALL_STACK:
            taken = sum(len(it) + 9 for it in [program, *words]) + count * (10_000 + 4 + 8)
            with tempfile.TemporaryDirectory() as folder:
                write(folder, {"rc": TWO, "m.mbox": HELLO, "n": HELLO * 3000})
                run(program, INDEX, folder)
                want = run(program, words, folder, capture_output=True)
                write(folder, {"m.idx.new": LEFT(b"left"), "hits.new": LEFT(b"left")})
                size = (64 << 10) + taken
                small = lambda: resource.setrlimit(resource.RLIMIT_STACK, (size, resource.getrlimit(resource.RLIMIT_STACK)[1]))
                got = run(program, words, folder, capture_output=True, env=environment, preexec_fn=small)
                if (got.returncode, got.stdout, got.stderr) != (want.returncode, want.stdout, want.stderr):
                    bad.append("%s and %d words more: status %d, %r" % (words, count, got.returncode, got.stderr))
    return bad


def memory(program):
    """A search needs no more memory than the index, 3,500 kB, 400 bytes for each archive (750 with --once) and four times its path, and 5,500
    bytes for each word of the query."""
    bad = []
    count = 20_000
    for name in ("m", "m" * 100):
        with tempfile.TemporaryDirectory() as folder:
            write(folder, {"rc": b"mbox=%s\ndatabase=d\nmfolder=h\n" % b":".join([name.encode()] * count), name: b""})
            run(program, INDEX, folder)
            index = os.path.getsize(os.path.join(folder, "d"))
            for words, each in ((STORED, 400), (INDEX, 400), (RAW, 750)):
                most = 3_500_000 + index + count * (each + 4 * len(name))
                p = limited(program, "ulimit -v %d" % (most >> 10), words + ["s:hello"], folder)
                if (p.returncode, p.stderr) != (1, b""):
                    bad.append("%d archives, %s: status %d, %r" % (count, words, p.returncode, p.stderr))
    with tempfile.TemporaryDirectory() as folder:
        write(folder, {"rc": RC, "m.mbox": HELLO, "m.idx": HELLO_INDEX})
        for count, word in ((1, "hello"), (3_000, "hello"), (3_000, "s:hello"), (1_000, "a,~b/c=")):
            most = 3_500_000 + len(HELLO_INDEX) + 5_500 * count * (3 if "," in word else 1)
            p = limited(program, "ulimit -v %d" % (most >> 10), STORED + [word] * count, folder)
            if (p.returncode, p.stderr) != (int("," in word), b""):
                bad.append("%d times %s: status %d, %r" % (count, word, p.returncode, p.stderr))
    return bad


def long_command_lines(program):
    """A command line and an environment as long as the system takes them under a stack of 8 MB: the run answers as it does without them."""
    # So many bytes the system takes, with a place for each word; and so many in one word.
    most, most_in_one = 2 << 20, 128 << 10
    environment = {"X%02d" % n: "x" * (most_in_one - 5) for n in range(14)}
    long, found = "x" * (most_in_one - 1), (0, b"0 58 m.mbox\n", b"")
    runs = [
        (RAW + ["s:hello"], {**environment, "Y": long[2:], "Z": long[6000:]}, found),
        (RAW + ["s:hello"] * (most // 17), {}, found),
        (RAW + ["a"] * (most // 11), {}, (1, b"", b"")),
        (RAW + ["s:hello" + "/hello" * (most_in_one // 6 - 2)] * 15, {}, found),
        (RAW + ["--boolean", "subject:hello"] + ["and subject:hello"] * (most // 27), {}, found),
        (["-z"] * (most // 12), {}, (2, b"", ...)),
        (ONCE + ["-o", long, "s:hello"], environment, (4, b"", fault(b"cannot open " + long.encode()))),
        (["-f", long, *[long] * 14], {}, (4, b"", fault(b"cannot open " + long.encode()))),
    ]
    bad = []
    for words, told, want in runs:
        with tempfile.TemporaryDirectory() as folder:
            write(folder, {"rc": RC, "m.mbox": HELLO})
            eight = lambda: resource.setrlimit(resource.RLIMIT_STACK, (8 << 20, resource.getrlimit(resource.RLIMIT_STACK)[1]))
            p = run(program, words, folder, capture_output=True, env=told, preexec_fn=eight)
            if not all(map(same, want, (p.returncode, p.stdout, p.stderr))):
                bad.append("%d words, %s: status %d, %r, %r" % (len(words), words[-1][:20], p.returncode, p.stdout[:80], p.stderr[:80]))
    return bad


def odd_folder(program):
    """An index run in a folder whose name is no UTF-8, where the system doesn't tell it paths."""
    bad = []
    with tempfile.TemporaryDirectory() as top:
        folder = os.path.join(top, "\udcff")
        os.mkdir(folder)
        for index, link, status, err in (
            ("m.idx", None, 0, b""),
            ("m.mbox", None, 4, fault(b"cannot open m.mbox")),
            ("l", "m.mbox", 4, fault(b"cannot open l")),
        ):
            write(folder, {"rc": b"mbox=m.mbox\ndatabase=%s\nmfolder=h\n" % index.encode(), "m.mbox": HELLO})
            if link:
                os.symlink(link, os.path.join(folder, index))
            p = run(program, INDEX, folder, capture_output=True)
            if (p.returncode, p.stderr, contents(folder)["m.mbox"]) != (status, err, HELLO):
                bad.append("%s: status %d, %r" % (index, p.returncode, p.stderr))
    return bad


def no_room(program):
    """An index or an answer that can't be written whole: the old one stays, and nothing else is left."""
    bad = []
    for name, words, _ in MADE:
        with tempfile.TemporaryDirectory() as folder:
            write(folder, {"rc": RC, "m.mbox": HELLO, name: OLD})
            before = contents(folder)
            p = limited(program, 'trap "" XFSZ; ulimit -f 0', words, folder)
            if p.returncode != 4 or p.stderr != fault(b"output failed") or contents(folder) != before:
                bad.append("%s: status %d, %r, left %s" % (name, p.returncode, p.stderr, sorted(os.listdir(folder))))
    return bad


def want_of_memory(program):
    """An rcfile or an index of more bytes than there is memory for: nothing is made, and an old answer stays."""
    bad = []
    for name in ("rc", "m.idx"):
        with tempfile.TemporaryDirectory() as folder:
            write(folder, {"rc": RC, "m.mbox": HELLO, "m.idx": HELLO_INDEX, "hits": OLD})
            # Without blocks of its own, so that it costs nothing.
            os.truncate(os.path.join(folder, name), 1 << 40)
            p = limited(program, "ulimit -v 1000000", INDEX + ["s:hello"], folder)
            with open(os.path.join(folder, "hits"), "rb") as f:
                left = f.read()
            if p.returncode != 5 or p.stderr != fault(b"out of memory") or left != OLD or len(os.listdir(folder)) != 4:
                bad.append("%s: status %d, %r" % (name, p.returncode, p.stderr))
    return bad


def long_answers(program):
    """Answers of more bytes than are gathered before they go out: to a file, to standard output, of an index in memory and a stored one."""
    bad = []
    count = 20000
    answers = {
        "-r": b"".join(b"%d 58 m.mbox\n" % (58 * n) for n in range(count)),
        "-x": b"m.mbox\nTo:\nCc:\nFrom:\nSubject: Hello\nDate:\n" * count,
        "--stdout": HELLO * count,
    }
    with tempfile.TemporaryDirectory() as folder:
        files = {"rc": RC, "m.mbox": HELLO * count}
        write(folder, files)
        if run(program, INDEX, folder).returncode != 0:
            bad.append("no index")
        for words in (INDEX, ONCE):
            for option, answer in answers.items():
                p = run(program, words + [option, "s:hello"], folder, capture_output=True)
                if (p.returncode, p.stdout, p.stderr) != (0, answer, b""):
                    bad.append("%s: status %d, %r, %d bytes" % (words + [option], p.returncode, p.stderr, len(p.stdout)))
            p = run(program, words + ["s:hello"], folder, capture_output=True)
            if (p.returncode, p.stdout, p.stderr, contents(folder).get("hits")) != (0, b"", b"", HELLO * count):
                bad.append("%s: status %d, %r" % (words, p.returncode, p.stderr))
    return bad


def index_then_search(program):
    """An index run, a change, and a search of that index."""
    index = {"m.mbox": HELLO, "n": HELLO, "rc": TWO}
    both, second = b"0 58 m.mbox\n0 58 n\n", fault(b"archive 2: changed since it was indexed")
    changes = [
        ("nothing", {}, 0, both, b""),
        ("another answer", {"rc": TWO + b"mfolder=other\nmformat=raw\n"}, 0, both, b""),
        ("the second grew", {"n": HELLO + HELLO}, 3, b"", second),
        ("the second shrank", {"n": HELLO[:-1]}, 3, b"", second),
        ("both grew", {"m.mbox": HELLO + HELLO, "n": HELLO + HELLO}, 3, b"", CHANGED),
        ("the second is gone", {"n": None}, 4, b"", fault(b"cannot open n")),
        ("the second isn't named any more", {"rc": RC}, 3, b"", second),
        (
            "a third is named",
            {"rc": b"mbox=m.mbox:n:m.mbox\ndatabase=m.idx\nmfolder=hits\n"},
            3,
            b"",
            fault(b"archive 3: changed since it was indexed"),
        ),
        ("the other order", {"rc": b"mbox=n:m.mbox\ndatabase=m.idx\nmfolder=hits\n"}, 3, b"", CHANGED),
        ("another path of the second", {"rc": b"mbox=m.mbox:./n\ndatabase=m.idx\nmfolder=hits\n"}, 3, b"", second),
    ]
    bad = []
    for name, change, status, out, err in changes:
        with tempfile.TemporaryDirectory() as folder:
            write(folder, index)
            run(program, INDEX, folder)
            for gone in change:
                os.remove(os.path.join(folder, gone))
            write(folder, {name: body for name, body in change.items() if body is not None})
            p = run(program, STORED + ["s:hello"], folder, capture_output=True)
            if (p.returncode, p.stdout, p.stderr) != (status, out, err):
                bad.append("%s: status %d, %r, %r" % (name, p.returncode, p.stdout, p.stderr))
    return bad


def large_index(program):
    """An index of more bytes than are gathered before they are written, twice over."""
    with tempfile.TemporaryDirectory() as folder:
        words = b" ".join(b"w%05d" % n for n in range(20000))
        write(folder, {"rc": RC, "m.mbox": SEPARATOR + b"\n" + b"\n".join(words[k : k + 7000] for k in range(0, len(words), 7000)) + b"\n\n"})
        bad = []
        for _ in range(2):
            p = run(program, INDEX, folder, capture_output=True)
            index = contents(folder).get("m.idx", b"")
            if p.returncode != 0 or len(index) < 500000 or hashlib.sha256(index[:-32]).digest() != index[-32:]:
                bad.append("status %d, %r, %d bytes" % (p.returncode, p.stderr, len(index)))
        return bad


def full_disk(program):
    """An answer, help or version that can't be written."""
    bad = []
    with tempfile.TemporaryDirectory() as folder:
        write(folder, {"rc": RC, "m.mbox": HELLO})
        for words in (RAW + ["s:hello"], ONCE + ["-x", "s:hello"], ONCE + ["--stdout", "s:hello"], ["-h"], ["-V"]):
            with open("/dev/full", "wb") as full:
                p = run(program, words, folder, stdout=full, stderr=subprocess.PIPE)
            if p.returncode != 4 or p.stderr != fault(b"output failed"):
                bad.append("%s: status %d, %r" % (words, p.returncode, p.stderr))
    return bad


def unreadable(program):
    """An archive that may not be read; root may read anything."""
    if os.geteuid() == 0:
        return left_out("an archive that may not be read: root may read anything")
    with tempfile.TemporaryDirectory() as folder:
        write(folder, {"rc": RC, "m.mbox": HELLO})
        os.chmod(os.path.join(folder, "m.mbox"), 0)
        p = run(program, RAW + ["s:hello"], folder, capture_output=True)
        ok = p.returncode == 4 and p.stdout == b"" and p.stderr == fault(b"cannot open m.mbox")
        return [] if ok else ["status %d, %r" % (p.returncode, p.stderr)]


def many_archives(program):
    """More archives than files may be open at once: searched, indexed, and searched by that index."""
    with tempfile.TemporaryDirectory() as folder:
        names = ["m%d" % n for n in range(5000)]
        write(folder, {"rc": ("mbox=" + ":".join(names) + "\ndatabase=d\nmfolder=h\n").encode()})
        for name in names:
            with open(os.path.join(folder, name), "wb") as f:
                f.write(HELLO)
        p = limited(program, "ulimit -n 64", RAW + ["s:hello"], folder)
        ok = p.returncode == 0 and p.stdout == b"".join(b"0 58 %s\n" % name.encode() for name in names)
        bad = [] if ok else ["status %d, %r" % (p.returncode, p.stderr)]
        p = limited(program, "ulimit -n 64", INDEX, folder)
        if p.returncode != 0 or not os.path.exists(os.path.join(folder, "d")):
            bad.append("index run: status %d, %r" % (p.returncode, p.stderr))
        p = limited(program, "ulimit -n 64", INDEX + ["s:hello"], folder)
        with open(os.path.join(folder, "h"), "rb") as f:
            if p.returncode != 0 or f.read() != HELLO * len(names):
                bad.append("stored search: status %d, %r" % (p.returncode, p.stderr))
        return bad


def clock(program):
    """A range of dates that ends now."""
    bad = []
    for days, status in ((-7, 0), (-15, 1), (7, 1)):
        with tempfile.TemporaryDirectory() as folder:
            date = time.strftime("%d %b %Y %H:%M:%S +0000", time.gmtime(time.time() + days * 86400))
            write(folder, {"rc": RC, "m.mbox": SEPARATOR + b"Date: " + date.encode() + b"\n\nx\n\n"})
            p = run(program, RAW + ["d:10d-"], folder, capture_output=True)
            if p.returncode != status or p.stderr:
                bad.append("%d days: status %d, %r" % (days, p.returncode, p.stderr))
    return bad


def failing_clock(program):
    """A range of days that ends now ends at second 0 where the clock fails, or shows a time before 1970 or after 9999."""
    bad = []
    with tempfile.TemporaryDirectory() as folder:
        write(folder, {"rc": RC, "m.mbox": SEPARATOR + b"Date: 31 Dec 1969 23:59:59 +0000\n\nx\n\n"})
        clock = dict(os.environ, LD_PRELOAD=shim(folder, "at_call"), COUNTED="clock ", AT="each")
        for how, days, status in (("fail", "d:10d-", 0), ("fail", "d:1970", 1), ("early", "d:10d-", 0), ("late", "d:10d-", 0), ("none", "d:10d-", 1)):
            p = run(program, RAW + [days], folder, capture_output=True, env=dict(clock, HOW=how))
            if p.returncode != status or p.stderr:
                bad.append("%s, %s: status %d, %r" % (how, days, p.returncode, p.stderr))
    return bad


def far_message(program):
    """A message that begins past 4 GiB of its archive, whose bytes before that lie nowhere, by an index that was laid out by hand."""
    begins = (1 << 32) + 29
    bad = []
    with tempfile.TemporaryDirectory() as folder:
        write(folder, {"rc": RC, "m.idx": hello_index("m.mbox", begins=begins)})
        with open(os.path.join(folder, "m.mbox"), "wb") as f:
            f.seek(begins)
            f.write(HELLO)
        for option, answer in (("-r", b"%d 58 m.mbox\n" % begins), ("-x", b"m.mbox\nTo:\nCc:\nFrom:\nSubject: Hello\nDate:\n"), ("--stdout", HELLO)):
            p = run(program, INDEX + [option, "s:hello"], folder, capture_output=True)
            if (p.returncode, p.stdout, p.stderr) != (0, answer, b""):
                bad.append("%s: status %d, %r, %r" % (option, p.returncode, p.stdout[:200], p.stderr))
    return bad


def neighbours(program):
    """Messages of many lengths, with and without gaps between them: each answer has just their bytes, and those side by side are read together."""
    lengths = [200, 3_000, 200, 20_000, 5, 70_000, 1_500, 65_400, 900, 140_000]
    texts = []
    for number in range(400):
        words = " ".join("w%d" % of for of in (1, 2, 3, 7, 50) if number // of % 2 or of == 1)
        line = b"%07d\n" % number
        texts.append(SEPARATOR + b"Subject: %s\n\n" % words.encode() + line * (lengths[number * 7 % 10] // 8) + b"\n")
    bad = []
    with tempfile.TemporaryDirectory() as folder:
        write(folder, {"rc": RC, "m.mbox": b"".join(texts)})
        if run(program, INDEX, folder).returncode != 0:
            bad.append("no index")
        log = os.path.join(folder, "calls")
        for of in (1, 2, 3, 7, 50):
            chosen = [text for number, text in enumerate(texts) if number // of % 2 or of == 1]
            told = {**os.environ, "LD_PRELOAD": shim(folder, "at_call"), "COUNTED": "read_at ", "CALLS_LOG": log}
            p = run(program, INDEX + ["--stdout", "s:w%d" % of], folder, capture_output=True, env=told)
            if (p.returncode, p.stderr) != (0, b"") or p.stdout != b"".join(chosen):
                bad.append("every %d: status %d, %r, %d bytes" % (of, p.returncode, p.stderr, len(p.stdout)))
            with open(log) as f:
                reads = len(f.readlines())
            os.remove(log)
            if of == 1 and reads > 2 * sum(map(len, texts)) / 65_536:
                bad.append("%d reads" % reads)
    return bad


def main(program):
    program = os.path.abspath(program)
    checks = [(name, lambda c=c: case(program, *c)) for name, *c in CASES]
    others = (
        killed_run,
        private_file,
        file_of_another,
        appended_answers,
        name_of_a_pipe,
        foreign_leftovers,
        large_no_index,
        low_limits,
        small_stacks,
        memory,
        long_command_lines,
        odd_folder,
        no_room,
        want_of_memory,
        large_index,
        long_answers,
        index_then_search,
        full_disk,
        unreadable,
        many_archives,
        clock,
        failing_clock,
        far_message,
        neighbours,
    )
    checks += [(f.__doc__.split(".")[0], lambda f=f: f(program)) for f in others]
    checks += [("overlapping runs: " + name, lambda bad=bad: bad) for name, _, bad in overlapping_runs.checks(program)]
    return say_of("program", ((name, "; ".join(check())) for name, check in checks))


if __name__ == "__main__":
    sys.exit(main(sys.argv[1]) if len(sys.argv) == 2 else __doc__)
