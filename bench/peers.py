#!/usr/bin/env python3
"""Measures mairix beside C mairix, notmuch and mu, which have to be installed, over the same 10,000 messages in one run.

    peers.py [PROGRAM]

What is measured: an index made from nothing, the index's size, a search of one word of the body, one of a sender and a word of the subject,
and an answer of more than a third of the messages as an mbox, which mu doesn't have. Seconds are those of the processor, user and system, the
least of five runs, but a run of more than 20 isn't repeated; memory is the most that was resident. The peers of mbox files read the archive itself;
notmuch and mu read a Maildir with the same messages, which is made of it before. That isn't measured, and neither is what a peer
is set up by, as `mu init`. Each line tells how many messages were found: notmuch also finds words of the same stem.
"""
import itertools, os, platform, re, shutil, subprocess, sys, tempfile, time

HERE = os.path.dirname(os.path.abspath(__file__))
RUNS = 5
# The seconds of a run that isn't repeated.
SLOW = 20
# What is sought; the mail is always the same bytes. The first word is in 10 bodies and the second in 3,812, the sender and the word of the subject
# come together in 9 messages.
SOUGHT = ["hpe", "ng", "pq", "ly"]
SEARCHES = {"body": "a word of the body", "sender": "a sender and a word of the subject", "mbox": "an mbox of the messages with a frequent word"}
PACKAGES = {"C mairix": "mairix", "notmuch": "notmuch", "mu": "maildir-utils"}


class Peer:
    """A program with an index of the mail: its commands, the files of its index, and where an mbox of its goes, if not to standard output."""

    def __init__(self, name, folder, index, searches, **more):
        self.name, self.folder, self.index, self.searches = name, folder, index, searches
        self.stored, self.hits = os.path.join(folder, more["stored"]), more.get("hits", "answer")
        self.setup, self.environment = more.get("setup"), dict(os.environ, **more.get("environment", {}))

    def run(self, command):
        """Processor seconds, peak megabytes."""
        how = {"cwd": self.folder, "stdin": subprocess.DEVNULL, "capture_output": True, "check": True, "env": self.environment}
        told = subprocess.run(["./measure", "answer"] + command, **how).stdout.split()
        if told[2] != b"0":
            sys.exit("%s: status %s" % (" ".join(command), told[2].decode()))
        return float(told[0]), int(told[1]) / 1024

    def make_index(self):
        if os.path.isdir(self.stored):
            shutil.rmtree(self.stored)
        elif os.path.exists(self.stored):
            os.remove(self.stored)
        if self.setup:
            subprocess.run(self.setup, cwd=self.folder, check=True, capture_output=True, env=self.environment)
        return self.run(self.index)

    def index_size(self):
        if os.path.isfile(self.stored):
            return os.path.getsize(self.stored) / 1e6
        return sum(os.path.getsize(os.path.join(top, name)) for top, _, names in os.walk(self.stored) for name in names) / 1e6

    def search(self, what):
        """Runs a search, and counts what it found: lines, or messages of an mbox."""
        told = self.run(self.searches[what])
        with open(os.path.join(self.folder, self.hits if what == "mbox" else "answer"), "rb") as file:
            self.count = sum(1 for line in file if what != "mbox" or line.startswith(b"From "))
        return told


# ---- the mail


def make_maildir(folder, archives):
    """The messages of archives as files, as notmuch and mu read them."""
    for part in "cur", "new", "tmp":
        os.makedirs(os.path.join(folder, "maildir", part))
    numbers = itertools.count()
    for archive in archives:
        with open(os.path.join(folder, archive), "rb") as file:
            for text in re.split(rb"\n\n(?=From )", file.read()):
                with open(os.path.join(folder, "maildir", "cur", "%d:2,S" % next(numbers)), "wb") as out:
                    out.write(text.partition(b"\n")[2] + b"\n")


# ---- the peers


def mbox_peer(name, program, folder, files, body, frequent, sender, subject, archives=("m.mbox",)):
    rcfile, index, hits = files
    with open(os.path.join(folder, rcfile), "w") as out:
        out.write("base=%s\nmbox=%s\ndatabase=%s/%s\nmfolder=%s\nmformat=mbox\n" % (folder, ":".join(archives), folder, index, hits))
    start = [program, "-f", rcfile]
    searches = {"body": start + ["-r", "b:" + body], "sender": start + ["-r", "f:" + sender, "s:" + subject], "mbox": start + ["b:" + frequent]}
    return Peer(name, folder, start, searches, stored=index, hits=hits)


def notmuch_peer(folder, body, frequent, sender, subject):
    config = os.path.join(folder, "notmuch-config")
    with open(config, "w") as out:
        out.write("[database]\npath=%s/maildir\n[user]\nname=x\nprimary_email=a@x.org\n" % folder)
    files = ["notmuch", "search", "--output=files"]
    searches = {
        "body": files + ["body:" + body],
        "sender": files + ["from:" + sender, "subject:" + subject],
        "mbox": ["notmuch", "show", "--format=mbox", "body:" + frequent],
    }
    return Peer("notmuch", folder, ["notmuch", "new"], searches, stored="maildir/.notmuch", environment={"NOTMUCH_CONFIG": config, "HOME": folder})


def mu_peer(folder, body, frequent, sender, subject):
    paths = ["mu", "find", "--fields=l"]
    searches = {"body": paths + ["body:" + body], "sender": paths + ["from:" + sender, "subject:" + subject]}
    return Peer(
        "mu",
        folder,
        ["mu", "index"],
        searches,
        stored="mu",
        setup=["mu", "init", "--maildir=%s/maildir" % folder],
        environment={"HOME": folder, "XDG_CACHE_HOME": folder},
    )


# ---- the report


def versions(program):
    told = [subprocess.run([program, "-V"], capture_output=True, text=True, check=True).stdout.strip()]
    for name, package in PACKAGES.items():
        version = subprocess.run(["dpkg-query", "-W", "-f", "${Version}", package], capture_output=True, text=True).stdout
        told.append("%s %s" % (name, version or "of an unknown version"))
    return ", ".join(told)


def machine():
    with open("/proc/cpuinfo") as file:
        model = re.search(r"model name\s*: (.*)", file.read())
    return "%d processors%s, %s %s" % (os.cpu_count(), ", " + model[1] if model else "", platform.system(), platform.release().split("-")[0])


def tell(name, runs, more):
    """Prints the least seconds and the most memory of some runs."""
    print(
        "  %-10s %7.3f s %7.1f MB  %s of %d run%s"
        % (name, min(run[0] for run in runs), max(run[1] for run in runs), more, len(runs), "s" * (len(runs) > 1)),
        flush=True,
    )


def compare(peers, run, more):
    """Runs take turns, so that what else the machine does meets all alike; `more` is what a peer's line tells of its last run."""
    runs = [[] for _ in peers]
    for _ in range(RUNS):
        for peer, told in zip(peers, runs):
            if not told or told[-1][0] < SLOW:
                told.append(run(peer))
    for peer, told in zip(peers, runs):
        tell(peer.name, told, more(peer))


def measure(peers):
    print("index, from nothing")
    compare(peers, Peer.make_index, lambda peer: "%.1f MB of index," % peer.index_size())
    for what, title in SEARCHES.items():
        print(title)
        compare([peer for peer in peers if what in peer.searches], lambda peer: peer.search(what), lambda peer: "%d found," % peer.count)


def main(program):
    print("%s, processor seconds (user and system) are the least of %d runs, peak memory the most" % (time.strftime("%Y-%m-%d"), RUNS))
    print("a run of more than %d s isn't repeated" % SLOW)
    print("%s; load %.1f" % (machine(), os.getloadavg()[0]))
    print(versions(program))
    with tempfile.TemporaryDirectory() as folder:
        archive = os.path.join(folder, "m.mbox")
        subprocess.run(["cc", "-O2", "-o", os.path.join(folder, "measure"), os.path.join(HERE, "measure.c")], check=True)
        subprocess.run([sys.executable, os.path.join(HERE, "make_mbox.py"), "--messages", "10000", archive], check=True)
        make_maildir(folder, ["m.mbox"])
        print("10,000 messages, %.0f MB; sought: %s" % (os.path.getsize(archive) / 1e6, " ".join(SOUGHT)))
        measure(
            [
                mbox_peer("mairix", program, folder, ("rc", "m.idx", "hits"), *SOUGHT),
                mbox_peer("C mairix", "mairix", folder, ("c-rc", "c.idx", "c-hits"), *SOUGHT),
                notmuch_peer(folder, *SOUGHT),
                mu_peer(folder, *SOUGHT),
            ]
        )


if __name__ == "__main__":
    main(os.path.abspath(sys.argv[1] if len(sys.argv) > 1 else os.path.join(HERE, "..", "crates", "mairix", "out", "mairix")))
