#!/usr/bin/env python3
"""Times index runs of one or more builds beside C mairix, which has to be installed as `mairix`, in rounds: each program once, one after another,
since what a processor gives changes from one minute to the next. With `--once` each build's search without an index is timed too, and mboxgrep and
grepmail, where they are installed. The first build is the one that the others are compared with.

    rounds.py [--rounds N] [--messages N].. [--kinds KIND,..] [--once] [PROGRAM ..]

The archives are of the kinds that --kinds names (bench/make_mbox.py says what they are), and of mail that people wrote (bench/real_mail.py, which
needs the network once). Each program makes its index afresh, without an old one, and `sha256sum` and `openssl` compute the archive's SHA-256 in each
round. Prints for each the median of its processor seconds (user and system); the median over the rounds of the ratio to what C mairix took in the
same round, and the same less the seconds of `sha256sum`, which C mairix doesn't take, each with the range of the middle half of the rounds; and the
peak memory with its ratio. Of several builds, prints the ratio of each later one to the first, in the same way.
"""
import argparse, os, re, shutil, statistics, subprocess, sys, tempfile, time

HERE = os.path.dirname(os.path.abspath(__file__))
NO_MESSAGES = 1
# The kinds of mail: what each is called, and the script that writes it.
KINDS = {
    "made": ("made mail", ["make_mbox.py"]),
    "lists": ("mail of lists", ["make_mbox.py", "--lists"]),
    "scripts": ("mail in four scripts", ["make_mbox.py", "--scripts"]),
    "real": ("mail that people wrote", ["real_mail.py"]),
    "attachments": ("mail with files", ["make_mbox.py", "--attachments"]),
    "html": ("mail in HTML", ["make_mbox.py", "--html"]),
    "crlf": ("made mail with CR and LF", ["make_mbox.py", "--crlf"]),
}
USUAL = "made,lists,scripts,real"
# What searches archives without an index, where it is installed.
SEARCHING = {"mboxgrep": ["-c", "nowhere", "m.mbox"], "grepmail": ["nowhere", "m.mbox"]}
OWN = os.path.join(HERE, "..", "crates", "mairix", "out", "mairix")


def measured(command, folder):
    """The processor seconds and the peak megabytes of a run without an old index."""
    for name in "m.idx", "c.idx":
        if os.path.exists(os.path.join(folder, name)):
            os.remove(os.path.join(folder, name))
    told = subprocess.run(["./measure", os.devnull, *command], cwd=folder, stdin=subprocess.DEVNULL, capture_output=True, check=True).stdout.split()
    if int(told[2]) not in (0, NO_MESSAGES):
        sys.exit("%s: status %s" % (" ".join(command), told[2].decode()))
    return float(told[0]), int(told[1]) / 1024


def furnish(folder, kind, messages):
    """Writes an archive and both rcfiles."""
    words = [sys.executable, os.path.join(HERE, kind[0]), *kind[1:], "--messages", str(messages), os.path.join(folder, "m.mbox")]
    subprocess.run(words, check=True)
    with open(os.path.join(folder, "rc"), "w") as out:
        out.write("mbox=m.mbox\ndatabase=m.idx\nmfolder=hits\n")
    with open(os.path.join(folder, "c-rc"), "w") as out:
        out.write("base=%s\nmbox=m.mbox\ndatabase=c.idx\nmfolder=c-hits\nmformat=mbox\n" % folder)


def with_spread(ratios):
    """A median, and the range of the middle half."""
    least, middle, most = statistics.quantiles(ratios, n=4, method="inclusive")
    return "%.3f (%.3f to %.3f)" % (middle, least, most)


def compare(folder, commands, rounds):
    """Prints a line for each program; the first is C mairix, the second `sha256sum`."""
    runs = [[measured(command, folder) for _, command in commands] for _ in range(rounds)]
    seconds = [[told[number][0] for told in runs] for number in range(len(commands))]
    memory = [max(told[number][1] for told in runs) for number in range(len(commands))]
    for (name, _), own, megabytes in zip(commands, seconds, memory):
        paired = with_spread([one / other for one, other in zip(own, seconds[0])])
        less = with_spread([(one - digest) / other for one, digest, other in zip(own, seconds[1], seconds[0])])
        shares = (name, statistics.median(own), paired, less, megabytes, megabytes / memory[0])
        print("  %-12s %7.3f s, %s of C's, less the digest %s; %6.1f MB, %.3f of C's" % shares, flush=True)
    compare_builds({name: own for (name, _), own in zip(commands, seconds)})


def compare_builds(seconds):
    """Prints the ratio of each later build to the first, of index runs and of searches without an index."""
    for name, own in seconds.items():
        first = re.sub(r"\d+", "1", name)
        if name != first and first in seconds:
            print("  %s of %s: %s" % (name, first, with_spread([one / other for one, other in zip(own, seconds[first])])), flush=True)


def commands_of(words):
    """What is run in each round: what each program is called, and its words."""
    yield "C mairix", ["mairix", "-f", "c-rc"]
    yield "sha256sum", ["sha256sum", "m.mbox"]
    yield "openssl", ["openssl", "dgst", "-sha256", "m.mbox"]
    for number, program in enumerate(words.programs, 1):
        yield "mairix %d" % number, [os.path.abspath(program), "-f", "rc"]
        if words.once:
            yield "%d --once" % number, [os.path.abspath(program), "-f", "rc", "--once", "-r", "b:nowhere"]
    if words.once:
        yield from ((name, [name, *own]) for name, own in SEARCHING.items() if shutil.which(name))


def main():
    asked = argparse.ArgumentParser(description="Times index runs beside C mairix, in rounds.")
    asked.add_argument("--rounds", type=int, default=5)
    asked.add_argument("--messages", type=int, action="append", help="in an archive; may be given again (default: 10,000 and 50,000)")
    asked.add_argument("--kinds", default=USUAL, help="of mail: %s" % ", ".join(KINDS))
    asked.add_argument("--once", action="store_true", help="time searches without an index too")
    asked.add_argument("programs", nargs="*", metavar="PROGRAM", default=[OWN])
    words = asked.parse_args()
    commands = [*commands_of(words)]
    print(
        "%s, %d rounds, load %.1f on %d processors at the beginning" % (time.strftime("%Y-%m-%d"), words.rounds, os.getloadavg()[0], os.cpu_count())
    )
    for messages in words.messages or [10_000, 50_000]:
        for title, kind in [KINDS[it] for it in words.kinds.split(",")]:
            with tempfile.TemporaryDirectory() as folder:
                furnish(folder, kind, messages)
                subprocess.run(["cc", "-O2", "-o", os.path.join(folder, "measure"), os.path.join(HERE, "measure.c")], check=True)
                print("%d messages, %s, %.0f MB" % (messages, title, os.path.getsize(os.path.join(folder, "m.mbox")) / 1e6), flush=True)
                compare(folder, commands, words.rounds)


if __name__ == "__main__":
    main()
