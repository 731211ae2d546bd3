#!/usr/bin/env python3
"""Measures how an index run and a search grow with the number of messages, beside C mairix, notmuch and mu.

    growth.py [--messages N].. [--programs NAME,..] [--once] [PROGRAM]

The archives are the made mail of make_mbox.py, each of at most 65,536 messages, as C mairix takes them. Each line of the report is a program, a
number of messages, processor seconds (user and system), peak megabytes, and the size of the index in megabytes. Lines `..-search` have a raw search
of one word, and `sha256sum` reads the index of mairix. A run of more than 20 s isn't repeated, and with --once none is; any other takes the least
of three. A program whose index run took more than 60 s isn't tried at a greater number. Programs that aren't installed are left out.
bench/plots.py draws what is kept in bench/results/.
"""
import argparse, os, shutil, subprocess, sys, tempfile, time

import peers

SIZES = (1_000, 2_000, 5_000, 10_000, 20_000, 50_000)
# What C mairix takes in an archive.
MOST_MESSAGES = 65_536
REPEATED, TOO_SLOW, RUNS = 20, 60, 3
# The programs, each with the command that has to be installed.
PROGRAMS = {"mairix": None, "C mairix": "mairix", "notmuch": "notmuch", "mu": "mu"}


def least(run, runs):
    """The least seconds and the most megabytes of some runs."""
    told = [run()]
    while len(told) < runs and told[0][0] < REPEATED:
        told.append(run())
    return min(it[0] for it in told), max(it[1] for it in told)


def tell(what, count, seconds, megabytes, size):
    print("%-15s %7d %9.3f s %8.1f MB %8.2f MB" % (what.replace(" ", "-"), count, seconds, megabytes, size), flush=True)


def make_archives(folder, count):
    """Writes the mail into archives of the same number of messages, and returns their names."""
    parts = next(it for it in range(-(-count // MOST_MESSAGES), count + 1) if count % it == 0)
    names = ["m%d.mbox" % number for number in range(parts)]
    paths = [os.path.join(folder, name) for name in names]
    subprocess.run([sys.executable, os.path.join(peers.HERE, "make_mbox.py"), "--messages", str(count // parts), *paths], check=True)
    return names


def peer_of(name, program, folder, archives):
    """A program over the archives, or over a Maildir of their messages."""
    if name == "mairix":
        return peers.mbox_peer(name, program, folder, ("rc", "m.idx", "hits"), *peers.SOUGHT, archives)
    if name == "C mairix":
        return peers.mbox_peer(name, "mairix", folder, ("c-rc", "c.idx", "c-hits"), *peers.SOUGHT, archives)
    return (peers.notmuch_peer if name == "notmuch" else peers.mu_peer)(folder, *peers.SOUGHT)


def measure(program, count, names, runs, slow):
    """Measures some programs at a number of messages; one that was too slow joins those that are left out from then on."""
    with tempfile.TemporaryDirectory() as folder:
        subprocess.run(["cc", "-O2", "-o", os.path.join(folder, "measure"), os.path.join(peers.HERE, "measure.c")], check=True)
        archives = make_archives(folder, count)
        if "notmuch" in names or "mu" in names:
            peers.make_maildir(folder, archives)
        for peer in (peer_of(name, program, folder, archives) for name in names):
            seconds, megabytes = least(peer.make_index, runs)
            tell(peer.name, count, seconds, megabytes, peer.index_size())
            tell(peer.name + " search", count, *least(lambda: peer.search("body"), runs), peer.index_size())
            if peer.name == "mairix":
                tell("sha256sum", count, *least(lambda: peer.run(["sha256sum", "m.idx"]), runs), peer.index_size())
            if seconds > TOO_SLOW:
                slow.add(peer.name)


def main():
    asked = argparse.ArgumentParser(description="Measures how index runs and searches grow.")
    asked.add_argument("--messages", type=int, action="append", help="may be given again (default: %s)" % ", ".join(map(str, SIZES)))
    asked.add_argument("--programs", default=",".join(PROGRAMS), help="which of %s" % ", ".join(PROGRAMS))
    asked.add_argument("--once", action="store_true", help="repeat no run")
    asked.add_argument("program", nargs="?", default=os.path.join(peers.HERE, "..", "crates", "mairix", "out", "mairix"))
    words = asked.parse_args()
    program = os.path.abspath(words.program)
    installed = [it for it in words.programs.split(",") if not PROGRAMS[it] or shutil.which(PROGRAMS[it])]
    print("%s; %s; load %.1f" % (time.strftime("%Y-%m-%d"), peers.machine(), os.getloadavg()[0]))
    slow = set()
    for count in words.messages or SIZES:
        measure(program, count, [it for it in installed if it not in slow], 1 if words.once else RUNS, slow)


if __name__ == "__main__":
    main()
