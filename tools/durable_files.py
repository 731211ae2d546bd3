#!/usr/bin/env python3
"""Looks whether what the built program makes stays after a power cut.

    durable_files.py PROGRAM

The calls of each run that makes a file are recorded, by a preloaded library and by strace: all that is written, the mode, the file brought to
the disk, the rename, the mark taken away, and the folder brought to the disk, in that order, and no other call that changes a file. Then runs make a file on a
disk that is copied as soon as they have ended, as a power cut would leave it: the file is there. What can't be tried on this machine is said
aloud. The last line is `N passed, M failed`.
"""
import os, re, shutil, subprocess, sys, tempfile

from check_program import MADE, left_out, run, write
from names_of_files import MOUNTING_A_DISK
from overlapping_runs import HELLO, OLD, read, shim
from program_cases import INDEX, LEFT, LINK, ONCE, RC
from verdict import say

COUNTED = "open update create write fchmod fsync unlink rename "
# The last name of the folder in which the file is made.
ROOM = "room"
# How often the power is cut of each file.
CUTS = 10
MANY = HELLO * 20_000
# The runs, each by what it is: the file that it makes, its words, the archive, and what is there before.
RUNS = {
    "an index run": ("m.idx", INDEX, HELLO, {}),
    "an index run over an old index": ("m.idx", INDEX, HELLO, {"m.idx": OLD}),
    "an index run over what a killed run left": ("m.idx", INDEX, HELLO, {"m.idx.new": LEFT(b"left")}),
    "an index run over a link": ("m.idx", INDEX, HELLO, {"m.idx": LINK(["other"])}),
    "an index run of many messages": ("m.idx", INDEX, MANY, {"m.idx": OLD}),
    "an answer": ("hits", ONCE + ["s:hello"], HELLO, {}),
    "an answer over an old one": ("hits", ONCE + ["s:hello"], HELLO, {"hits": OLD}),
    "an answer over what a killed run left": ("hits", ONCE + ["s:hello"], HELLO, {"hits.new": LEFT(HELLO)}),
    "an answer of many messages": ("hits", ONCE + ["s:hello"], MANY, {}),
    "an answer without a message": ("hits", ONCE + ["s:goodbye"], HELLO, {"hits": OLD}),
    "an answer by a longer name": ("hits", ONCE + ["-o", "../room/hits", "s:hello"], HELLO, {}),
}
# A call as strace tells it, with the paths of descriptors, and those that change no file but show in the same line.
CALL = re.compile(r"(?:\d+ +)?(\w+)\((.*)")
CHANGING = "open,openat,openat2,creat,write,pwrite64,writev,pwritev,pwritev2,ftruncate,truncate,fallocate,copy_file_range,sendfile,splice,sync_file_range,msync,fsync,fdatasync,sync,syncfs,rename,renameat,renameat2,link,linkat,symlink,symlinkat,unlink,unlinkat,chmod,fchmod,fchmodat,chown,fchown,lchown,fchownat,setxattr,fsetxattr,mkdir,mkdirat,rmdir,utimensat,mmap"


def wanted(name, made, whole_left):
    """The calls that change files, and the opening of the folder, of a run that makes a file of this name."""
    new = name + ".new"
    removed = ["update", "unlink " + new] if whole_left else []
    writes = ["write " + new] * made
    return [
        *removed,
        "create " + new,
        "fchmod " + new,
        *writes,
        "fchmod " + new,
        "fsync " + new,
        "rename " + new,
        "fchmod " + name,
        "open folder",
        "fsync " + ROOM,
    ]


def preloaded(program, words, folder, log, library):
    """The calls of a run, as the preloaded library tells them."""
    env = {**os.environ, "LD_PRELOAD": library, "COUNTED": COUNTED, "CALLS_LOG": log}
    status = run(program, words, folder, capture_output=True, env=env).returncode
    calls = []
    for line in read(log).decode().splitlines():
        kind, _, name = line.partition(" ")
        if kind == "update":
            # By the number under which it is open.
            calls.append(kind)
        elif kind == "open" and name in (".", ROOM):
            calls.append("open folder")
        elif kind != "open":
            calls.append(line)
    return status, calls


def traced(program, words, folder, log, library):
    """The calls of a run, as strace tells them."""
    words = ["strace", "-f", "-y", "-s", "0", "-e", "trace=" + CHANGING, "-o", log, program, *words]
    status = subprocess.run(words, cwd=folder, stdin=subprocess.DEVNULL, capture_output=True).returncode
    return status, list(told_calls(read(log).decode(errors="replace").splitlines()))


def told_calls(lines):
    for line in lines:
        found = CALL.match(line)
        if not found or "= -1" in line:
            continue
        call, rest = found.groups()
        paths = re.findall(r'"([^"]*)"|<([^>]*)>', rest)
        last = [os.path.basename(one or other) for one, other in paths]
        if call == "mmap":
            if "MAP_SHARED" in rest and "PROT_WRITE" in rest:
                yield "mmap"
        elif call.startswith("open"):
            if "O_CREAT" in rest:
                yield "create " + last[-1]
            elif "O_WRONLY" in rest or "O_RDWR" in rest:
                yield "update"
            elif last[-1] == ROOM:
                yield "open folder"
        elif call == "write" and re.match("[12]<", rest):
            continue
        else:
            # Of a rename, the name before it.
            kind = {"renameat": "rename", "renameat2": "rename", "unlinkat": "unlink"}.get(call, call)
            yield "%s %s" % (kind, last[0])


def order(program, record, library):
    """The order of the calls of each run."""
    for what, (name, words, archive, before) in RUNS.items():
        with tempfile.TemporaryDirectory() as top:
            folder, log = os.path.join(top, ROOM), os.path.join(top, "log")
            os.mkdir(folder)
            write(folder, {"rc": RC, "m.mbox": archive, "other": OLD, **before})
            status, calls = record(program, words, folder, log, library)
            made = calls.count("write %s.new" % name)
            goodbye = words[-1] == "s:goodbye"
            good = status == goodbye and calls == wanted(name, made, name + ".new" in before) and (made > 0) != goodbye
            yield what, [] if good else ["status %d, %s" % (status, "; ".join(calls))]


def power_cuts(program, top):
    """Runs on a disk that is copied as soon as they have ended."""
    disk, at, cut = (os.path.join(top, name) for name in ("disk", "at", "cut"))
    for name, words, whole in MADE:
        for number in range(CUTS):
            with open(disk, "wb") as f:
                f.truncate(16 << 20)
            subprocess.run(["mkfs.ext4", "-q", disk], check=True)
            os.makedirs(at, exist_ok=True)
            subprocess.run(["mount", "-o", "loop", disk, at], check=True)
            write(at, {"rc": RC, "m.mbox": HELLO, **({name: OLD} if number % 2 else {})})
            os.sync()
            status = run(program, words, at, capture_output=True).returncode
            shutil.copyfile(disk, cut)
            subprocess.run(["umount", at], check=True)
            subprocess.run(["mount", "-o", "loop", cut, at], check=True)
            after = read(os.path.join(at, name))
            subprocess.run(["umount", at], check=True)
            yield "%s, cut %d" % (name, number), [] if (status, after) == (0, whole) else ["status %d, then %r" % (status, after)]


def may_mount(top):
    """Whether a disk can be made and mounted here, as power cuts want it."""
    disk, at = os.path.join(top, "tried"), os.path.join(top, "tried_at")
    os.mkdir(at)
    steps = 'truncate -s 16M "$0" && mkfs.ext4 -q "$0" && mount -o loop "$0" "$1" && umount "$1"'
    return os.geteuid() == 0 and not subprocess.run(MOUNTING_A_DISK + ["sh", "-c", steps, disk, at], capture_output=True).returncode


def tell(what, results):
    """Prints what was tried, and what was wrong."""
    results = list(results)
    bad = ["%s: %s" % (where, text) for where, texts in results for text in texts]
    print("durable_files: %s: %d tried%s" % (what, len(results), "; wrong: " + "; ".join(bad[:3]) if bad else ""), flush=True)
    return bool(bad) or not results


def main(program):
    program = os.path.abspath(program)
    verdicts = []
    with tempfile.TemporaryDirectory() as top:
        library = shim(top, "at_call")
        verdicts.append(tell("order of calls, as a library tells them", order(program, preloaded, library)))
        if shutil.which("strace"):
            verdicts.append(tell("order of calls, as strace tells them", order(program, traced, library)))
        else:
            left_out("the order of calls as strace tells them: there is no strace here")
        if may_mount(top):
            words = [sys.executable, os.path.abspath(__file__), "--power-cuts", program, top]
            verdicts.append(subprocess.run(MOUNTING_A_DISK + words).returncode != 0)
        else:
            left_out("power cuts: no disk can be mounted here")
    return say(verdicts.count(False), verdicts.count(True))


if __name__ == "__main__":
    if sys.argv[1:2] == ["--power-cuts"]:
        sys.exit(tell("power cuts", power_cuts(*sys.argv[2:])))
    sys.exit(main(sys.argv[1]) if len(sys.argv) == 2 else __doc__)
