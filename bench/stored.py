#!/usr/bin/env python3
"""Times searches of a stored index beside `sha256sum` of that index, `cat` of the answer, and C mairix, notmuch and mu where they are
installed, over the same 10,000 messages in one run.

    stored.py [--kinds] [PROGRAM]

Prints the processor seconds (the least of the runs), the peak memory, and the ratio to what each line is measured by. With `--kinds` it
looks instead for one word in each kind of mail of bench/rounds.py and in 100,000 messages of made mail, by turns with `sha256sum` and `openssl`: the
median seconds, and the median of their ratio to `sha256sum` in the same round with the range of its middle half. Then it looks for a part of a word
in 50,000 messages, and for one among 2,000,000 keys.
"""
import collections, os, re, shutil, statistics, subprocess, sys, tempfile, time

from hostile_mail import Room, falling_words
from peers import make_maildir
from rounds import KINDS, furnish, with_spread

HERE = os.path.dirname(os.path.abspath(__file__))
RUNS = 15


def measured_once(command, folder, environment=None):
    """The processor seconds and the megabytes of a run."""
    env = dict(os.environ, **(environment or {}))
    told = subprocess.run(
        ["./measure", "answer"] + command, cwd=folder, stdin=subprocess.DEVNULL, capture_output=True, check=True, env=env
    ).stdout.split()
    return float(told[0]), int(told[1]) / 1024


def measured(command, folder, environment=None):
    """The least processor seconds and the most megabytes of some runs, and the bytes that went to standard output."""
    runs = [measured_once(command, folder, environment) for _ in range(RUNS)]
    return max(min(run[0] for run in runs), 5e-4), max(run[1] for run in runs), os.path.getsize(os.path.join(folder, "answer"))


def beside_search(answer, search, copy, folder):
    """How many times a copy of its bytes an answer takes beside the search itself: the median over rounds of the three, one after another, since
    what a processor gives changes from one second to the next."""
    rounds = [[measured_once(command, folder)[0] for command in (answer, search, copy)] for _ in range(2 * RUNS)]
    return statistics.median((one - two) / three for one, two, three in rounds)


def frequent_word(path):
    """The word of bodies that is in nearest to a third of the messages, and how many have it."""
    counts, messages = collections.Counter(), 0
    with open(path, "rb") as file:
        for text in re.split(rb"\n\n(?=From )", file.read().replace(b"\r\n", b"\n")):
            messages += 1
            counts.update(set(re.findall(rb"[a-z]+", text.partition(b"\n\n")[2])))
    word = min(counts, key=lambda it: abs(counts[it] - messages / 3))
    return word.decode(), counts[word]


def peers(folder, word):
    """A search of each peer that is installed, after it has indexed the mail: name, command, environment."""
    if shutil.which("mairix"):
        with open(os.path.join(folder, "c-rc"), "w") as out:
            out.write("base=%s\nmbox=m.mbox\ndatabase=c.idx\nmfolder=c-hits\nmformat=mbox\n" % folder)
        subprocess.run(["mairix", "-f", "c-rc"], cwd=folder, check=True, capture_output=True)
        yield "C mairix, raw", ["mairix", "-f", "c-rc", "-r", "b:" + word], None
        yield "C mairix, excerpts", ["mairix", "-f", "c-rc", "-x", "b:" + word], None
        yield "C mairix, mbox", ["mairix", "-f", "c-rc", "b:" + word], None
    if shutil.which("notmuch") or shutil.which("mu"):
        make_maildir(folder, ["m.mbox"])
    if shutil.which("notmuch"):
        environment = {"NOTMUCH_CONFIG": os.path.join(folder, "notmuch"), "HOME": folder}
        with open(environment["NOTMUCH_CONFIG"], "w") as out:
            out.write("[database]\npath=%s/maildir\n[user]\nname=x\nprimary_email=a@x.org\n" % folder)
        subprocess.run(["notmuch", "new"], cwd=folder, check=True, capture_output=True, env=dict(os.environ, **environment))
        yield "notmuch, files", ["notmuch", "search", "--output=files", "body:" + word], environment
    if shutil.which("mu"):
        environment = {"HOME": folder, "XDG_CACHE_HOME": folder}
        for words in ["init", "--maildir=%s/maildir" % folder], ["index"]:
            subprocess.run(["mu"] + words, cwd=folder, check=True, capture_output=True, env=dict(os.environ, **environment))
        yield "mu, paths", ["mu", "find", "--fields=l", "body:" + word], environment


def tell(name, told, base=None):
    ratio = "" if base is None else "  %6.2f times %s" % (told[0] / base[1], base[0])
    print("  %-26s %7.4f s %7.1f MB  %9d bytes%s" % (name, told[0], told[1], told[2], ratio), flush=True)
    return told[0]


def index_of(folder, program):
    """Makes the index of a furnished folder, and C mairix's where it is installed. Tells the seconds of `sha256sum` of the former."""
    subprocess.run(["cc", "-O2", "-o", os.path.join(folder, "measure"), os.path.join(HERE, "measure.c")], check=True)
    subprocess.run([program, "-f", "rc"], cwd=folder, check=True)
    if shutil.which("mairix"):
        subprocess.run(["mairix", "-f", "c-rc"], cwd=folder, capture_output=True)
    return tell("sha256sum of the index", measured(["sha256sum", "m.idx"], folder))


def tell_part(folder, program, part, digest):
    """A search for a part of a word, beside a search that finds nothing, and C mairix's."""
    search = [program, "-f", "rc", "-r"]
    nothing = tell("mairix, raw, no such id", measured(search + ["m:none@example.org"], folder), ("sha256sum", digest))
    own = tell("mairix, raw, " + part, measured(search + [part], folder), ("sha256sum", digest))
    print("  beside the search that finds nothing: %.4f s" % (own - nothing))
    if shutil.which("mairix"):
        tell("C mairix, raw, " + part, measured(["mairix", "-f", "c-rc", "-r", part], folder))


def tell_by_turns(commands, folder):
    """The seconds of each command, and their ratio to those of the first in the same round."""
    rounds = [[measured_once(command, folder)[0] for _, command in commands] for _ in range(2 * RUNS)]
    for at, (name, _) in enumerate(commands):
        shares = (name, statistics.median(it[at] for it in rounds), with_spread([it[at] / it[0] for it in rounds]))
        print("  %-26s %7.4f s, %s of sha256sum" % shares, flush=True)


def compare_kinds(program):
    for messages, (title, script) in [*((10_000, it) for it in KINDS.values()), (100_000, KINDS["made"])]:
        with tempfile.TemporaryDirectory() as folder:
            furnish(folder, script, messages)
            print("%d messages, %s" % (messages, title))
            index_of(folder, program)
            word = frequent_word(os.path.join(folder, "m.mbox"))[0]
            digests = [("sha256sum", ["sha256sum", "m.idx"]), ("openssl", ["openssl", "dgst", "-sha256", "m.idx"])]
            tell_by_turns([*digests, ("mairix, raw, a word", [program, "-f", "rc", "-r", "b:" + word])], folder)
    with tempfile.TemporaryDirectory() as folder:
        furnish(folder, KINDS["made"][1], 50_000)
        print("50,000 messages, made mail")
        tell_part(folder, program, "b:e=", index_of(folder, program))
    with tempfile.TemporaryDirectory() as folder:
        room = Room(folder)
        falling_words(room, 2_000_000)
        room.rcfiles()
        print("2,000,000 keys")
        tell_part(folder, program, "b:a=", index_of(folder, program))


def main(program, by_kinds):
    print("%s, processor seconds (user and system) are the least of %d runs, peak memory the most" % (time.strftime("%Y-%m-%d"), RUNS))
    print("load %.1f on %d processors" % (os.getloadavg()[0], os.cpu_count()))
    if by_kinds:
        return compare_kinds(program)
    with tempfile.TemporaryDirectory() as folder:
        archive = os.path.join(folder, "m.mbox")
        subprocess.run(["cc", "-O2", "-o", os.path.join(folder, "measure"), os.path.join(HERE, "measure.c")], check=True)
        subprocess.run([sys.executable, os.path.join(HERE, "make_mbox.py"), "--messages", "10000", archive], check=True)
        word, count = frequent_word(archive)
        with open(os.path.join(folder, "rc"), "w") as out:
            out.write("mbox=m.mbox\ndatabase=m.idx\nmfolder=hits\n")
        subprocess.run([program, "-f", "rc"], cwd=folder, check=True)
        index = os.path.getsize(os.path.join(folder, "m.idx"))
        print("10,000 messages, %.0f MB; index %.1f MB; the word is in %d" % (os.path.getsize(archive) / 1e6, index / 1e6, count))
        digest = tell("sha256sum of the index", measured(["sha256sum", "m.idx"], folder))
        search = [program, "-f", "rc"]
        tell("mairix, raw", measured(search + ["-r", "b:" + word], folder), ("sha256sum", digest))
        told = dict((name, tell(name, measured(command, folder, environment))) for name, command, environment in peers(folder, word))
        theirs = told.get("C mairix, excerpts")
        tell("mairix, excerpts", measured(search + ["-x", "b:" + word], folder), ("C mairix's", theirs) if theirs else None)
        mbox, streamed, copy = search + ["b:" + word], search + ["--stdout", "b:" + word], ["cat", "hits"]
        tell("mairix, mbox", measured(mbox, folder))
        tell("cat of the answer", measured(copy, folder))
        print("  the mbox answer beside the search itself: %.2f times cat" % beside_search(mbox, search + ["-r", "b:" + word], copy, folder))
        print("  to standard output, as cat writes:        %.2f times cat" % beside_search(streamed, search + ["-r", "b:" + word], copy, folder))
        tell("mairix, part (b:%s=)" % word[0], measured(search + ["-r", "b:%s=" % word[0]], folder))


if __name__ == "__main__":
    words = [it for it in sys.argv[1:] if it != "--kinds"]
    main(os.path.abspath(words[0] if words else os.path.join(HERE, "..", "crates", "mairix", "out", "mairix")), "--kinds" in sys.argv)
