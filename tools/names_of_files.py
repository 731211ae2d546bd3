#!/usr/bin/env python3
"""Gives the built program names that lead around a check: by hard links, mounts, other devices, letters of another case, links into /proc, and
files of other people.

    names_of_files.py PROGRAM

No file that a run reads is replaced, nor what a process has open; and no file is shared by a mode that somebody else chose. What can't be
tried on this machine is said aloud. The last line is `N passed, M failed`.
"""
import os, subprocess, sys, tempfile

from check_program import MADE, contents, left_out, mode, run, write
from overlapping_runs import HELLO, OLD, shim
from program_cases import HELLO_INDEX, INDEX, LEFT, LINK, ONCE, RC, TWO, fault
from verdict import say

# What runs a command that may mount, which the command alone sees and which ends with it.
MOUNTING = ["unshare", "--mount", "--map-root-user"]
# The same where what is mounted is no folder, which only root may mount.
MOUNTING_A_DISK = ["unshare", "--mount"]
# Makes a disk whose files have names in which case doesn't count, and goes into a folder of it.
WITHOUT_CASE = """
truncate -s 16M disk && mkfs.ext4 -q -O casefold -E encoding=utf8 disk && mkdir at && mount -o loop disk at &&
mkdir at/d && chattr +F at/d && cp rc m.mbox m.idx at/d && cd at/d || exit 9
"""
NOBODY = 65534


def refused(name):
    return 4, b"", fault(b"cannot open " + name.encode())


def told(p):
    return p.returncode, p.stdout, p.stderr


def wrong(p, want, folder, before):
    """What is wrong with a run that was to end so and to leave these files."""
    bad = [] if told(p) == want else ["status %d, %r, %r, wanted %r" % (*told(p), want)]
    after = contents(folder)
    return bad + ["%s isn't as it was" % name for name in sorted(set(before) | set(after)) if before.get(name) != after.get(name)]


def rcfile(archive, database, answer):
    return b"mbox=%s\ndatabase=%s\nmfolder=%s\n" % (archive.encode(), database.encode(), answer.encode())


def hard_links(program):
    """A second name (a hard link) of a file that a run reads isn't replaced, nor taken for a file that a killed run left."""
    answers = {"m.mbox": ONCE, "n": ONCE, "rc": ONCE, "m.idx": INDEX}
    cases = [(read, "hits", words + ["s:hello"], "hits") for read, words in answers.items()]
    cases += [(read, "hits.new", words + ["s:hello"], "hits.new") for read, words in answers.items()]
    cases += [(read, name, INDEX, name) for read in ("m.mbox", "n", "rc") for name in ("new.idx", "new.idx.new")]
    for read, linked, words, name in cases:
        with tempfile.TemporaryDirectory() as folder:
            rc = TWO if words != INDEX else TWO.replace(b"m.idx", b"new.idx")
            write(folder, {"rc": rc, "m.mbox": HELLO, "n": HELLO, "m.idx": HELLO_INDEX})
            os.link(os.path.join(folder, read), os.path.join(folder, linked))
            if linked.endswith(".new"):
                os.chmod(os.path.join(folder, linked), 0o1600)
            before = contents(folder)
            yield "%s as %s" % (read, linked), wrong(run(program, words, folder, capture_output=True), refused(name), folder, before)


# Where a folder, or a file, is mounted at a second place: what is mounted there, what the rcfile says, the words, and the name that is told.
MOUNTS = (
    ("the archive as the answer", "real bind", rcfile("real/m.mbox", "m.idx", "bind/m.mbox"), ONCE + ["s:hello"], "bind/m.mbox"),
    ("the archive as the index", "real bind", rcfile("real/m.mbox", "bind/m.mbox", "hits"), INDEX, "bind/m.mbox"),
    ("the archive by -o", "real bind", rcfile("bind/m.mbox", "m.idx", "hits"), ONCE + ["-o", "real/m.mbox", "s:hello"], "real/m.mbox"),
    ("the archive under an answer's new name", "real bind", rcfile("real/n.new", "m.idx", "bind/n"), ONCE + ["s:hello"], "bind/n.new"),
    ("the rcfile by -o", "real bind", rcfile("real/m.mbox", "m.idx", "hits"), ["-f", "real/rc", "--once", "-o", "bind/rc", "s:hello"], "bind/rc"),
    ("the rcfile as the index", "real bind", rcfile("real/m.mbox", "bind/rc", "hits"), ["-f", "real/rc"], "bind/rc"),
    ("the index by -o", "real bind", rcfile("real/m.mbox", "real/m.idx", "hits"), INDEX + ["-o", "bind/m.idx", "s:hello"], "bind/m.idx"),
    (
        "the place of an index by -o",
        "real bind",
        rcfile("real/m.mbox", "real/new.idx", "hits"),
        ONCE + ["-o", "bind/new.idx", "s:hello"],
        "bind/new.idx",
    ),
    (
        "the place of an index under an answer's new name",
        "real bind",
        rcfile("real/m.mbox", "real/hits.new", "hits"),
        ONCE + ["-o", "bind/hits", "s:hello"],
        "bind/hits.new",
    ),
    ("a mounted file as the answer", "real/m.mbox other", rcfile("real/m.mbox", "m.idx", "other"), ONCE + ["s:hello"], "other"),
    ("a mounted file as the index", "real/rc other", rcfile("real/m.mbox", "other", "hits"), ["-f", "real/rc"], "other"),
)


def mounts(program):
    """A mount that shows a folder or a file at a second place hides nothing."""
    if subprocess.run(MOUNTING + ["true"], capture_output=True).returncode:
        left_out("mounts: none can be made here")
        return
    for name, mounted, rc, words, path in MOUNTS:
        with tempfile.TemporaryDirectory() as folder:
            write(
                folder,
                {
                    "rc": rc,
                    "real": None,
                    "real/rc": rc,
                    "bind": None,
                    "other": b"other",
                    "real/m.mbox": HELLO,
                    "real/n.new": HELLO,
                    "real/m.idx": HELLO_INDEX,
                },
            )
            before = contents(folder)
            steps = 'mount --bind %s && exec "$0" "$@"' % mounted
            p = subprocess.run(MOUNTING + ["sh", "-c", steps, program] + words, cwd=folder, capture_output=True)
            yield name, wrong(p, refused(path), folder, before)


# File systems that show the files of another folder under a device of their own: how each is mounted at `at`, and the folders that show the same.
OVERLAY = "mount -t overlay overlay -o lowerdir=low,upperdir=up,workdir=work at"
OTHER_DEVICES = (("an overlay", OVERLAY, "up"), ("what is below an overlay", OVERLAY, "low"), ("bindfs", "bindfs up at", "up"))


def other_devices(program):
    """A file system that shows the files of another one under a device of its own hides nothing."""
    for kind, mounting, real in OTHER_DEVICES:
        for one, two in ((real, "at"), ("at", real)):
            rc, archive, index = one + "/rc", one + "/m.mbox", one + "/m.idx"
            text = rcfile(archive, index, "hits")
            cases = [(["-f", rc, "--once", "-o", two + "/" + name, "s:hello"], two + "/" + name) for name in ("m.mbox", "m.idx", "rc")]
            # A new file is made above what is below.
            if real == "up":
                cases.append((["-f", "other", "--once", "-o", two + "/new.idx", "s:hello"], two + "/new.idx"))
            for words, name in cases:
                with tempfile.TemporaryDirectory() as folder:
                    read = {real + "/rc": text, real + "/m.mbox": HELLO, real + "/m.idx": HELLO_INDEX}
                    write(folder, {"low": None, "up": None, "work": None, "at": None, "other": rcfile(archive, one + "/new.idx", "hits"), **read})
                    before = {it: contents(folder)[it] for it in read}
                    steps = mounting + ' || exit 9; "$0" "$@"; status=$?; umount at; exit $status'
                    p = subprocess.run(MOUNTING_A_DISK + ["sh", "-c", steps, program] + words, cwd=folder, capture_output=True)
                    if p.returncode in (1, 9):
                        left_out("%s: none can be mounted here" % kind)
                        break
                    after = contents(folder)
                    bad = [] if told(p) == refused(name) else ["status %d, %r, %r" % told(p)]
                    yield "%s, %s" % (kind, name), bad + ["%s isn't as it was" % it for it in before if after.get(it) != before[it]]


# Makes a disk of exFAT, where each spelling of a name has an inode number of its own, and goes to it.
EXFAT = """
truncate -s 16M disk && mkfs.exfat disk >made && mkdir at && device=$(losetup -f --show disk) && trap 'cd / && umount $device; losetup -d $device' EXIT &&
mount.exfat-fuse $device at >made 2>&1 && cp rc m.mbox m.idx at && cd at || exit 9
"""


def without_case(program):
    """A file system that takes letters of both cases for the same hides nothing."""
    for kind, disk in (("ext4", WITHOUT_CASE), ("exFAT", EXFAT)):
        for name, words in (("M.MBOX", ONCE), ("RC", ONCE), ("M.IDX", INDEX)):
            with tempfile.TemporaryDirectory() as folder:
                write(folder, {"rc": RC, "m.mbox": HELLO, "m.idx": HELLO_INDEX})
                steps = disk + '"$0" "$@"; status=$?; cat rc m.mbox m.idx; exit $status'
                p = subprocess.run(MOUNTING_A_DISK + ["sh", "-c", steps, program, *words, "-o", name, "s:hello"], cwd=folder, capture_output=True)
                if p.returncode in (1, 9):
                    left_out("letters of both cases that are the same on %s: none can be mounted here" % kind)
                    break
                status, _, err = refused(name)
                yield "%s on %s" % (name, kind), [] if told(p) == (status, RC + HELLO + HELLO_INDEX, err) else [
                    "status %d, %r" % (p.returncode, p.stderr)
                ]


def links_to_processes(program):
    """A link to what a process has open, by whatever text and over whatever other links, keeps its name, as /dev/stdout does."""
    folders = {"p": "/proc/self", "f": "/proc/self/fd"}
    texts = [
        "/proc/self/fd/1",
        "UP/proc/self/fd/1",
        "//proc/self/fd/1",
        "/./proc/self/fd/1",
        "/dev/../proc/self/fd/1",
        "/dev/stdout",
        "/dev/fd/1",
        "p/fd/1",
        "f/1",
        "other_link",
        "UP/proc/self/cwd/other",
        "/proc/1/fd/1",
    ]
    for text in texts:
        with tempfile.TemporaryDirectory() as folder:
            up = os.path.relpath("/", os.path.realpath(folder))
            links = {**folders, "l": text.replace("UP", up), "other_link": "f/1"}
            write(folder, {"rc": rcfile("m.mbox", "l", "hits"), "m.mbox": HELLO, "other": b"other"})
            for name, to in links.items():
                os.symlink(to, os.path.join(folder, name))
            before = {name: os.lstat(os.path.join(folder, name)).st_ino for name in os.listdir(folder)}
            for words, name in ((ONCE + ["-o", "./l", "s:hello"], "./l"), (INDEX, "l")):
                with tempfile.TemporaryFile() as out:
                    p = run(program, words, folder, stdout=out, stderr=subprocess.PIPE)
                    printed = os.fstat(out.fileno()).st_size
                after = {name: os.lstat(os.path.join(folder, name)).st_ino for name in os.listdir(folder)}
                good = (p.returncode, p.stderr, printed, after) == (4, fault(b"cannot open " + name.encode()), 0, before)
                yield "%s, %s" % (text, words), [] if good else ["status %d, %r, left %s" % (p.returncode, p.stderr, sorted(after))]


def other_links(program):
    """A link to a file, over others or to nowhere, is replaced. One that leads in a circle is refused, since the system doesn't show what it
    leads to."""
    for text in ("other", "./other", "other_link", "nowhere", "l"):
        with tempfile.TemporaryDirectory() as folder:
            write(folder, {"rc": RC, "m.mbox": HELLO, "other": b"other", "other_link": LINK(["other"]), "l": LINK([text])})
            before = contents(folder)
            is_replaced = text != "l"
            said = (0, b"", b"") if is_replaced else (4, b"", fault(b"cannot open ./l"))
            want = {**before, "l": HELLO} if is_replaced else before
            yield text, wrong(run(program, ONCE + ["-o", "./l", "s:hello"], folder, capture_output=True), said, folder, want)


def at_each_call(program, counted, files):
    """Runs that make a file, each as often as it makes calls of these names. At that call what has the file's temporary name is exchanged with `swap`,
    at one after the last with nothing. Besides the rcfile and an archive the folder has these files, by the file's name. Gives the name of each run,
    its file, the bytes of that if it is whole, the folder, how the run ended, and the lines of the calls that it made."""
    with tempfile.TemporaryDirectory() as top:
        log = os.path.join(top, "log")
        env = {**os.environ, "LD_PRELOAD": shim(top, "at_call"), "COUNTED": counted, "CALLS_LOG": log, "HOW": "exchange", "WITH": "swap"}
        for name, words, whole in MADE:
            number, calls = 0, [""]
            while number < len(calls):
                number += 1
                with tempfile.TemporaryDirectory() as folder:
                    write(folder, {"rc": RC, "m.mbox": HELLO, **files(name)})
                    p = run(program, words, folder, capture_output=True, env={**env, "AT": str(number), "CHANGED": name + ".new"})
                    with open(log) as f:
                        calls = f.read().splitlines()
                    os.remove(log)
                    yield "%s, at call %d" % (name, number), name, whole, folder, p, calls


def exchanged_leftovers(program):
    """A link that takes the name of a leftover while a run looks at it: where it leads, nothing is opened for writing, nor removed."""
    counted = "open update create statx flock unlink rename "
    for case, name, whole, folder, p, calls in at_each_call(
        program, counted, lambda name: {"other": LEFT(b"other"), name + ".new": LEFT(b"left"), "swap": LINK(["other"])}
    ):
        after, bad = contents(folder), []
        if "update other" in calls:
            bad.append("the other file was opened for writing")
        if after.get("other") != b"other" or mode(os.path.join(folder, "other")) != 0o1600:
            bad.append("the other file was changed")
        if (p.returncode, after.get(name)) not in ((0, whole), (4, None)):
            bad.append("status %d, %r" % (p.returncode, after.get(name)))
        yield case, bad


def exchanged_new_files(program):
    """Another program's file that takes the name of a new one, at any call: never does a run with status 0 leave it under the final name."""
    counted = "statx flock write fchmod fsync rename unlink "
    for case, name, whole, folder, p, _ in at_each_call(program, counted, lambda _: {"swap": b"mine"}):
        after = contents(folder)
        kept = b"mine" in (after.get("swap"), after.get(name), after.get(name + ".new"))
        good = (p.returncode, after.get(name)) in ((0, whole), (4, None), (4, b"mine"), (4, whole)) and kept
        yield case, [] if good else ["status %d, %r, %r" % (p.returncode, p.stderr, after)]


def shared_folders(program):
    """A file that others can have put there doesn't say who may read the new one."""
    cases = [
        (folder_mode, 1, -1, want)
        for folder_mode, want in (
            (0o700, 0o644),
            (0o755, 0o644),
            (0o711, 0o644),
            (0o777, 0o600),
            (0o1777, 0o600),
            (0o775, 0o600),
            (0o757, 0o600),
            (0o720, 0o600),
            (0o702, 0o600),
            (0o2770, 0o600),
        )
    ]
    # In somebody's own folder a second name of the file counts too, as it may be there since the folder was shared.
    cases += [(0o700, 2, -1, 0o600), (0o1777, 2, -1, 0o600)]
    if os.geteuid() == 0:
        cases += [(0o755, 1, NOBODY, 0o600), (0o777, 1, NOBODY, 0o600)]
    else:
        left_out("folders of other owners: only root can make some")
    for folder_mode, names, owner, want in cases:
        for name, words, whole in MADE:
            for within in (".", "share"):
                with tempfile.TemporaryDirectory() as top:
                    folder = os.path.join(top, within)
                    os.makedirs(folder, exist_ok=True)
                    made = os.path.join(folder, name)
                    rc = rcfile("m.mbox", os.path.join(within, "m.idx"), os.path.join("./" + within, "hits"))
                    write(top, {"rc": rc, "m.mbox": HELLO})
                    write(folder, {name: OLD})
                    os.chmod(made, 0o644)
                    for number in range(1, names):
                        os.link(made, os.path.join(folder, "pub%d" % number))
                    os.chmod(folder, folder_mode)
                    os.chown(folder, owner, -1)
                    p = run(program, words, top, capture_output=True)
                    with open(made, "rb") as f:
                        good = (told(p), f.read(), mode(made)) == ((0, b"", b""), whole, want)
                    where = "%s in %s, %o of %d, %d names" % (name, within, folder_mode, owner, names)
                    yield where, [] if good else ["status %d, %r, mode %o, wanted %o" % (p.returncode, p.stderr, mode(made), want)]


def marks(program):
    """A named file doesn't keep the mark of one that isn't whole, and one that has it is replaced as any other."""
    for old in (None, 0o1600, 0o1644, 0o600):
        for name, words, whole in MADE:
            with tempfile.TemporaryDirectory() as folder:
                made = os.path.join(folder, name)
                write(folder, {"rc": RC, "m.mbox": HELLO} | ({name: OLD} if old else {}))
                if old:
                    os.chmod(made, old)
                p = run(program, words, folder, capture_output=True)
                good = (told(p), contents(folder)[name], mode(made)) == ((0, b"", b""), whole, (old or 0o600) & 0o777)
                yield "%s over %s" % (name, old and oct(old)), [] if good else ["status %d, %r, mode %o" % (p.returncode, p.stderr, mode(made))]


def be_nobody():
    """Root may read any folder, and so doesn't try this as root."""
    if os.geteuid() == 0:
        os.setgroups([])
        os.setgid(NOBODY)
        os.setuid(NOBODY)


def unreadable_folders(program):
    """In a folder that a run may not read its name can't be brought to the disk: the run says so, and the new file is in its place."""
    for old in (None, OLD):
        for name, words, whole in MADE:
            with tempfile.TemporaryDirectory() as folder:
                write(folder, {"rc": RC, "m.mbox": HELLO} | ({name: old} if old else {}))
                if os.geteuid() == 0:
                    for path in (folder, *(os.path.join(folder, it) for it in os.listdir(folder))):
                        os.chown(path, NOBODY, NOBODY)
                os.chmod(folder, 0o300)
                try:
                    p = run(program, words, folder, capture_output=True, preexec_fn=be_nobody)
                except (PermissionError, subprocess.SubprocessError):
                    left_out("a folder that a run may not read: the program isn't where others than root reach it")
                    return
                finally:
                    os.chmod(folder, 0o700)
                want = {"rc": RC, "m.mbox": HELLO, name: whole}
                yield "%s over %r" % (name, old), wrong(p, (4, b"", fault(b"output failed")), folder, want)


CHECKS = (
    hard_links,
    mounts,
    other_devices,
    without_case,
    links_to_processes,
    other_links,
    exchanged_leftovers,
    exchanged_new_files,
    shared_folders,
    marks,
    unreadable_folders,
)


def main(program):
    program = os.path.abspath(program)
    passed = failed = 0
    for check in CHECKS:
        results = list(check(program))
        bad = ["%s: %s" % (where, text) for where, texts in results for text in texts]
        passed, failed = passed + (not bad), failed + bool(bad)
        print(
            "names_of_files: %s: %d tried%s" % (check.__name__.replace("_", " "), len(results), "; wrong: " + "; ".join(bad[:5]) if bad else ""),
            flush=True,
        )
    return say(passed, failed)


if __name__ == "__main__":
    sys.exit(main(sys.argv[1]) if len(sys.argv) == 2 else __doc__)
