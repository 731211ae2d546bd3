#!/usr/bin/env python3
"""Runs the gates of some commits side by side, each on its share of the processors and with nothing kept, and prints what each took.

    gates.py COMMIT [COMMIT ..]

A commit alone is compared with HEAD. Each gate runs in a clone of its own. In place of the folder in which `rt` keeps what it has proved it sees an
empty one, which takes root (`unshare`, `mount`). If there are more processors than shares, the last ones are left free for other work; run nothing
else on the shares. Prints each gate's last lines as it ends, and then the ratio of each gate's processor minutes to those of the one before. On more
processors a gate takes more processor minutes, so only gates of one run can be compared.
"""
import os, re, subprocess, sys, tempfile
from concurrent.futures import ThreadPoolExecutor
from pathlib import Path

TOP = Path(__file__).resolve().parent.parent
RT = os.environ.get("RT", "rt")
TOOK = re.compile(r"gate: (\d+) min, (\d+) processor min")


def said(*words):
    return subprocess.run([str(it) for it in words], stdout=subprocess.PIPE, text=True, check=True).stdout.strip()


def kept_by_rt():
    """The folder beside the kit in which `rt` keeps what it has proved."""
    return Path(said(RT, "doc")).parent.parent / "rattle-kept"


def gate(room, commit, processors):
    """The last lines of the gate of a commit, on these processors."""
    clone, kept = room / commit / "clone", room / commit / "kept"
    said("git", "clone", "-q", "--no-checkout", TOP, clone)
    said("git", "-C", clone, "checkout", "-q", commit)
    kept.mkdir()
    script = 'mount --bind "$1" "$2" && cd "$3" && exec taskset -c "$4" tools/gate'
    words = ["unshare", "--mount", "sh", "-c", script, "gate", kept, kept_by_rt(), clone, ",".join(map(str, processors))]
    run = subprocess.run([str(it) for it in words], stdin=subprocess.DEVNULL, stdout=subprocess.PIPE, stderr=subprocess.STDOUT, text=True)
    (room / f"{commit}.log").write_text(run.stdout)
    return run.stdout.splitlines()[-3:]


def main(words):
    if not words or words[0].startswith("-"):
        sys.exit(__doc__)
    commits = [said("git", "-C", TOP, "rev-parse", "--short", it) for it in (words if len(words) > 1 else [*words, "HEAD"])]
    processors = sorted(os.sched_getaffinity(0))
    share = len(processors) // len(commits)
    if not share:
        sys.exit(f"gates: {len(commits)} commits, and {len(processors)} processors")
    kept_by_rt().mkdir(exist_ok=True)
    room = Path(tempfile.mkdtemp(prefix="gates-"))
    print("the whole of what they print is in", room, flush=True)
    took = {}

    def run(at):
        lines = gate(room, commits[at], processors[at * share : (at + 1) * share])
        print(commits[at], *lines, sep="\n  ", flush=True)
        took[at] = next((int(found[2]) for found in map(TOOK.search, lines) if found), None)

    with ThreadPoolExecutor(len(commits)) as pool:
        list(pool.map(run, range(len(commits))))
    if None in took.values():
        return 1
    for at in range(1, len(commits)):
        print("processor minutes: %d and %d, %.2f of them" % (took[at - 1], took[at], took[at] / took[at - 1]))
    return 0


if __name__ == "__main__":
    sys.exit(main(sys.argv[1:]))
