#!/usr/bin/env python3
"""Makes the same calls on a folder in memory and on the system's files, and compares what each answers and what is there afterwards.

    folder_trials.py [--count N] [--seconds S] [--seed NUMBER] PROGRAM

That the calls of a folder in memory do what the trait `Folder` says is proved; of the system's files it is supposed. PROGRAM is `folder_trial`,
which makes the calls of a script on either. Each of N random sequences of calls is made on each file system that this machine has or can
mount. A folder in memory knows no links. So where names are linked, what the calls have to answer is worked out by the rules in `Linked`, and
for a few names that a folder in memory takes otherwise it is in `ROWS`. With --seconds each file system gets further sequences until its time is up.
What differs is printed, with the sequence up to it. The last line is `N passed, M failed`: sequences and rows.
"""
import argparse
import os
import random
import shutil
import signal
import subprocess
import sys
import tempfile
import time
from pathlib import Path

sys.dont_write_bytecode = True
from names_of_files import MOUNTING_A_DISK
from verdict import say

# What a name leads to at first, besides a file (its text), what a killed run left (`Left`), and a link.
FOLDER, PIPE, NOTHING = "folder", "pipe", None
# How many bytes a part has that the program reads.
PIECE = 7
# The names of a sequence are some of these.
NAMES = ("a", "a.new", "b.mbox", "index", "index.new", ".hidden", "-f", "späte", "x" * 200)
# How many sequences one run of the program makes: it looks through all changes of a folder in memory at each call.
MOST_IN_RUN = 150
# A call that waits, as for a pipe, would never end.
MOST_SECONDS = 200


class Left(str):
    """A file of this text that a killed run left."""


class Link(str):
    """A symbolic link with this text."""


class SameAs(str):
    """A second name (a hard link) of the file with this name."""


def some_text(chance):
    """A text in which no piece is like the next one. Some are longer than what is gathered of a new file before it is written."""
    length = chance.choice((0, 1, 6, 7, 8, 13, 14, 40, 400)) if chance.random() < 0.97 else chance.choice((65535, 65536, 65537, 150_000))
    start = chance.randrange(1000)
    return ".".join(str(it) for it in range(start, start + length // 2 + 1))[:length]


class Abilities:
    """What a file system keeps apart, by trying it."""

    def __init__(self, folder):
        self.has_pipes = self.can(os.mkfifo, folder / "pipe")
        self.has_links = self.can(os.symlink, "file", folder / "link")
        (folder / "file").write_text("text")
        self.has_second_names = self.can(os.link, folder / "file", folder / "second")
        self.has_case = not (folder / "FILE").exists()
        self.can(os.chmod, folder / "file", 0o1600)
        self.has_marks = (folder / "file").stat().st_mode & 0o7777 == 0o1600

    @staticmethod
    def can(call, *words):
        try:
            call(*words)
            return True
        except OSError:
            return False

    def lacks(self):
        has = {
            "pipes": self.has_pipes,
            "links": self.has_links,
            "hard links": self.has_second_names,
            "marks of new files": self.has_marks,
            "letters of both cases": self.has_case,
        }
        return [it for it in has if not has[it]]


class Sequence:
    """Files by their names, calls on these names, and what they answer if that is known."""

    def __init__(self, title, files, calls, answers=None):
        self.title, self.files, self.calls, self.answers = title, files, calls, answers
        # How the names are there afterwards: the texts of files, and the kinds of all else.
        self.after = {}

    def make(self, folder):
        """Makes the files in a folder of the system."""
        folder.mkdir()
        for name, file in sorted(self.files.items(), key=lambda it: isinstance(it[1], SameAs)):
            path = folder / name
            if file is FOLDER:
                path.mkdir()
            elif file is PIPE:
                os.mkfifo(path)
            elif isinstance(file, Link):
                path.symlink_to(file)
            elif isinstance(file, SameAs):
                os.link(folder / file, path)
            elif file is not NOTHING:
                path.write_text(file)
                path.chmod(0o1600 if isinstance(file, Left) else 0o600)

    def lines_of_files(self, front):
        """The lines that tell a folder in memory of the files, of which none is a link."""
        for name, file in self.files.items():
            if file in (FOLDER, PIPE):
                yield f"{'folder' if file is FOLDER else 'other'} {front}{name}"
            elif file is not NOTHING:
                yield f"{'left' if isinstance(file, Left) else 'file'} {front}{name} {file}"

    def lines_of_calls(self, front):
        for verb, names, rest in self.calls:
            yield " ".join([verb, *(front + it for it in names), *rest])

    def take_answers_in_memory(self, answers):
        """Takes what was answered in memory. The system opens a folder, and refuses to read it; what reads it doesn't care which."""
        self.answers = list(answers)
        for number, (verb, names, _) in enumerate(self.calls):
            if verb == "open" and self.files.get(names[0]) is FOLDER:
                self.answers[number] = "read failed"

    def take_what_is_there(self):
        """Takes from the last calls what each name leads to in the end: they look at it, read it, and remove it if a killed run left it."""
        answers = {(verb, names[0]): answer for (verb, names, _), answer in zip(self.calls, self.answers)}
        for name in self.files:
            looked, read = answers["look", name], answers["open_plain", name]
            if answers["clear", name] != "free":
                self.after[name] = read.partition(" ")[2] if looked.startswith("file") else looked

    def faults(self, answers, folder):
        """What differs in what was answered, and in what is there afterwards."""
        for number, (wanted, answer) in enumerate(zip(self.answers, answers)):
            if wanted != answer:
                calls = "; ".join(" ".join(map(shown, [verb, *names, *rest])) for verb, names, rest in self.calls[: number + 1][-12:])
                yield f"{self.title}: {shown_files(self.files)}: {calls}: {shown(answer)}, wanted {shown(wanted)}"
                return
        if len(answers) != len(self.answers):
            yield f"{self.title}: {len(answers)} answers to {len(self.answers)} calls"
        found = {it.name: kind_of(it) for it in folder.iterdir()}
        if self.after is not None and found != self.after:
            yield f"{self.title}: afterwards {shown_files(found)}, wanted {shown_files(self.after)}"


def shown(text):
    """A text that is short enough to be printed."""
    return text if len(text) <= 40 else f"{text[:30]}..({len(text)})"


def shown_files(files):
    kinds = {name: "" if type(it) is str else f"{type(it).__name__} " for name, it in files.items() if it is not NOTHING}
    return ", ".join(f"{shown(name)}: {kind}{shown(str(files[name]))!r}" for name, kind in sorted(kinds.items()))


def kind_of(path):
    """The text of a file, or what else has the name: a link with its text."""
    if path.is_symlink():
        return Link(os.readlink(path))
    if path.is_dir():
        return FOLDER
    return path.read_text() if path.is_file() else "other"


class File:
    """A file, whatever names it has."""

    def __init__(self, text, is_left=False):
        self.text, self.is_left = text, is_left


class Linked:
    """What calls have to answer where names may be linked. A name is followed over links to look at it, to read it and to compare it; but what
    makes, renames or removes it changes the name itself, and nothing to which it leads."""

    def __init__(self, files):
        self.entries = {}
        for name, file in sorted(files.items(), key=lambda it: isinstance(it[1], SameAs)):
            if isinstance(file, SameAs):
                self.entries[name] = self.entries[file]
            elif isinstance(file, Link) or file in (FOLDER, PIPE):
                self.entries[name] = file
            elif file is not NOTHING:
                self.entries[name] = File(file, isinstance(file, Left))

    def end(self, name):
        """The name to which one leads over links; None if they lead in a circle."""
        passed = []
        while isinstance(self.entries.get(name), Link):
            if name in passed:
                return None
            passed.append(name)
            name = self.entries[name].removeprefix("./")
        return name

    def file(self, name):
        """The file to which a name leads; None if there is none."""
        found = self.entries.get(self.end(name))
        return found if isinstance(found, File) else None

    def are_one(self, name, other):
        """Whether two names lead to one place, or to one file by other names of it."""
        found = self.file(name)
        return self.end(name) == self.end(other) or found is not None and found is self.file(other)

    def answer(self, verb, names, rest):
        return getattr(self, verb)(*names, *rest)

    def look(self, name):
        found = self.entries.get(self.end(name))
        if self.end(name) is None:
            return "refused"
        if isinstance(found, File):
            return f"file {len(found.text)}"
        return {FOLDER: "folder", PIPE: "other"}.get(found, "nothing")

    def open(self, name):
        return "read failed" if self.entries.get(self.end(name)) is FOLDER else self.open_plain(name)

    def open_plain(self, name):
        return f"read {self.file(name).text}" if self.file(name) else "refused"

    def length(self, name):
        return f"length {len(self.file(name).text)}" if self.file(name) else "refused"

    def state(self, name):
        return "same state" if self.file(name) else "refused"

    def part(self, name, offset):
        return f"read {self.file(name).text[int(offset) :][:PIECE]}" if self.file(name) else "refused"

    def apart(self, name, other):
        return "one" if self.are_one(name, other) else "apart"

    def make(self, name, temporary, text):
        return "refused" if temporary in self.entries else self.replace(name, temporary, text)

    def replace(self, name, temporary, text):
        if temporary in self.entries or self.entries.get(name) is FOLDER:
            return "not named"
        self.entries[name] = File(text)
        return "named"

    def over(self, name, temporary, text):
        before = self.open_plain(name)
        return before if before == "refused" else f"{self.replace(name, temporary, text)}, {before}"

    def discard(self, name, temporary, _):
        return "refused" if temporary in self.entries else f"meanwhile {self.look(name)}"

    def clear(self, name):
        found = self.entries.get(name, NOTHING)
        if found is NOTHING:
            return "free"
        if not isinstance(found, File) or not found.is_left:
            return "refused"
        del self.entries[name]
        return "free"

    def sync(self, _):
        return "synced"

    def after(self):
        kinds = {name: found.text if isinstance(found, File) else found for name, found in self.entries.items()}
        return {name: "other" if kind is PIPE else kind for name, kind in kinds.items()}


VERBS = "look look look open open open_plain length state part apart apart make make make replace replace discard over clear clear sync".split()


class Maker:
    """Makes random sequences from a seed, of what a file system has."""

    def __init__(self, chance, abilities):
        self.chance, self.abilities = chance, abilities

    def first(self):
        """What a name leads to at first: more often than all else a file, or nothing."""
        kinds = [some_text(self.chance)] * 4 + [NOTHING] * 3 + [FOLDER]
        kinds += [PIPE] * self.abilities.has_pipes + [Left(some_text(self.chance))] * 2 * self.abilities.has_marks
        return self.chance.choice(kinds)

    def files(self):
        first, *names = self.chance.sample(NAMES, self.chance.randint(3, 6))
        return {first: NOTHING, **{name: self.first() for name in names}}

    def linked_files(self):
        """The same with links: to a name that is there or isn't, to other links, in a circle."""
        files = self.files()
        linked = self.chance.sample([*files], len(files) // 2)
        whole = [it for it in files if it not in linked and isinstance(files[it], str) and files[it] not in (FOLDER, PIPE)]
        for name in linked:
            if self.abilities.has_second_names and whole and self.chance.random() < 0.5:
                files[name] = SameAs(self.chance.choice(whole))
            elif self.abilities.has_links:
                files[name] = Link(self.chance.choice(("", "", "./")) + self.chance.choice([*files]))
        return files

    def call(self, files):
        """A call: a pipe isn't opened but as a plain file, since that waits, and a folder isn't to be replaced, which a folder in memory does."""
        verb, names = self.chance.choice(VERBS), [*files]
        if verb in ("make", "replace", "over"):
            names = [it for it in names if files[it] is not FOLDER]
        if verb == "open":
            names = [it for it in names if files[it] is not PIPE]
        if not names:
            return "look", [self.chance.choice([*files])], []
        name = self.chance.choice(names)
        others = [it for it in files if it != name]
        # A temporary name is mostly one that nothing had at first.
        free = [it for it in others if files[it] is NOTHING]
        other = self.chance.choice(free if free and self.chance.random() < 0.6 else others)
        if verb == "apart":
            return verb, [name, self.chance.choice([*files])], []
        if verb in ("make", "replace", "discard", "over"):
            return verb, [name, other], [some_text(self.chance)]
        return verb, [name], [str(self.chance.choice((0, 1, 7, 65530, 10**6)))] if verb == "part" else []

    @staticmethod
    def last_calls(files):
        return [(verb, [name], []) for name in files for verb in ("look", "open_plain", "clear")]

    def plain(self, title):
        """A sequence without links, whose answers the folder in memory gives."""
        files = self.files()
        calls = [self.call(files) for _ in range(self.chance.randint(20, 40))]
        return Sequence(title, files, calls + self.last_calls(files))

    def linked(self, title):
        """A sequence with links, whose answers are worked out. Left out is what has no answer: a pipe that is opened over a link, a comparison in
        a circle, and a look at what is being made."""
        files = self.linked_files()
        rules, calls, answers = Linked(files), [], []
        for verb, names, rest in [self.call(files) for _ in range(self.chance.randint(20, 40))] + self.last_calls(files):
            is_pipe = verb == "open" and rules.entries.get(rules.end(names[0])) is PIPE
            in_circle = verb == "apart" and None in map(rules.end, names)
            is_making = verb == "discard" and rules.end(names[0]) == names[1]
            if not (is_pipe or in_circle or is_making):
                calls.append((verb, names, rest))
                answers.append(rules.answer(verb, names, rest))
        sequence = Sequence(title, files, calls, answers)
        sequence.after = rules.after()
        return sequence


# Names that a folder in memory takes for others than the system does: files, calls, and what they answer. `?` is `file 1` where letters of both
# cases are the same, and else `nothing`.
ROWS = (
    ("names that differ in case", {"a": "x"}, "look A => ?; apart a A => one; apart A a => one; apart q Q => one; apart a B => apart"),
    ("another spelling of a name", {"a": "x", "d": FOLDER}, "look ./a => file 1; apart a ./a => one; apart a d/../a => one; apart q .//q => one"),
    ("a name below a file", {"a": "x"}, "look a/b => refused; open a/b => refused; make a/b t y => not named; replace a/b t y => not named"),
    ("a temporary name below a file", {"a": "x"}, "make t a/b y => refused; discard t a/b y => refused; clear a/b => refused; look t => nothing"),
    ("a name in a folder that isn't there", {"a": "x"}, "look m/b => nothing; open m/b => refused; clear m/b => free; make t m/b y => refused"),
    ("to take such a name", {"a": "x"}, "make m/b t y => not named; look t => nothing; sync m/b => refused; apart a m/b => apart"),
    (
        "a name in a folder",
        {"a": "x", "d": FOLDER},
        "make d/b t y => named; open d/b => read y; apart a d/b => apart; make b d/t z => named; open b => read z",
    ),
    ("to take the name of a folder", {"d": FOLDER}, "make d t y => not named; look d => folder; look t => nothing; over d t y => refused"),
    ("a new file that has its name", {"b": "x"}, "make a a y => named; open a => read y; replace a a z => not named; clear a => refused"),
    ("a name that is too long", {"a": "x"}, f"look {'y' * 256} => refused; make {'y' * 256} t z => not named; look t => nothing"),
    (
        "a file with a slash after its name",
        {"a": "x"},
        "look a/ => refused; open a/ => refused; make a/ t y => not named; look t => nothing; open a => read x",
    ),
    (
        "a folder under two names",
        {"d": FOLDER, "l": Link("d")},
        "apart l d => one; apart l/q d/q => one; make l/b t y => named; open d/b => read y; apart l/b d/b => one; make l t z => named; look d => folder",
    ),
    (
        "links to what a process has open",
        {"l": Link("/proc/self/fd/0"), "m": Link("l"), "n": Link("/dev/stdout")},
        "look l => other; look m => other; look n => other",
    ),
    ("a folder with a slash after its name", {"d": FOLDER}, "look d/ => folder; make d/ t y => not named; make t d/ y => refused; look d => folder"),
)


def rows(abilities):
    """The sequences of ROWS that a file system can have."""
    for title, files, calls in ROWS:
        if not abilities.has_links and any(isinstance(it, Link) for it in files.values()):
            continue
        parted, answers = [], []
        for call in calls.split("; "):
            words, _, answer = call.partition(" => ")
            verb, *rest = words.split()
            count = 2 if verb in ("make", "replace", "over", "discard", "apart") else 1
            parted.append((verb, rest[:count], rest[count:]))
            answers.append(answer.replace("?", "nothing" if abilities.has_case else "file 1"))
        sequence = Sequence(title, files, parted, answers)
        # What the calls made is said by their answers.
        sequence.after = None
        yield sequence


class FileSystem:
    """A file system: the commands that make and mount it in an empty folder, those that mount it once files are in it, where files are made in
    it, where the calls are made, and the folder in which all this is; None for the usual temporary folder."""

    def __init__(self, name, before="mkdir at", after="", made="at", called="at", within="/dev/shm"):
        self.name, self.before, self.after, self.made, self.called, self.within = name, before, after, made, called, within

    def is_possible(self):
        return self.within is None or os.path.isdir(self.within)


def disk(name, size, making):
    """A file system on a disk that is a file."""
    return FileSystem(name, f"truncate -s {size} disk && mkdir at && {making} && mount -o loop disk at")


# What is mounted needs root. It is in memory, where it takes no time to bring something to the disk.
SYSTEMS = (
    FileSystem("the temporary folder", within=None),
    FileSystem("tmpfs"),
    disk("ext4", "64M", "mkfs.ext4 -q disk"),
    disk("xfs", "320M", "mkfs.xfs -q disk"),
    disk("btrfs", "128M", "mkfs.btrfs -q disk"),
    disk("vfat", "64M", "mkfs.vfat disk"),
    FileSystem(
        "exFAT",
        "truncate -s 64M disk && mkfs.exfat disk && mkdir at && losetup -f --show disk >device && mount.exfat-fuse $(cat device) at",
    ),
    FileSystem(
        "ext4 without case",
        "truncate -s 64M disk && mkfs.ext4 -q -O casefold -E encoding=utf8 disk && mkdir at && mount -o loop disk at && mkdir at/d && chattr +F at/d",
        made="at/d",
        called="at/d",
    ),
    FileSystem("overlay", "mkdir low up work at", "mount -t overlay overlay -o lowerdir=low,upperdir=up,workdir=work at", made="low"),
    FileSystem(
        "overlay of two file systems",
        "truncate -s 64M disk && mkfs.ext4 -q disk && mkdir low up work at && mount -o loop disk low",
        "mount -t overlay overlay -o lowerdir=low,upperdir=up,workdir=work at",
        made="low",
    ),
    # It would go on to tell an old time of a file's last change for a second after another name of that file was removed.
    FileSystem("bindfs", "mkdir real at", "bindfs -o attr_timeout=0 real at", made="real"),
)
UNMOUNT = "for it in at low; do mountpoint -q $it && umount $it; done; [ ! -e device ] || losetup -d $(cat device)"


class Refused(Exception):
    """The machine can't have this file system."""


class Trials:
    """Sequences on file systems: how many passed and failed."""

    def __init__(self, program, words):
        self.program, self.words = program, words
        self.passed = self.failed = 0

    @staticmethod
    def do(steps, room):
        """Does the steps of a shell in a folder."""
        if steps and subprocess.run(["sh", "-c", steps], cwd=room, stdin=subprocess.DEVNULL, capture_output=True).returncode:
            raise Refused

    def answers(self, folder, word, sequences, lines_of_files=()):
        """What the calls of all sequences answer, for each sequence by itself."""
        calls = [line for number, it in enumerate(sequences) for line in it.lines_of_calls(f"{number}/")]
        script = "".join(f"{it}\n" for it in [*lines_of_files, *([] if lines_of_files else ["none"]), "", *calls])
        run = subprocess.run([self.program, word], cwd=folder, input=script.encode(), capture_output=True, timeout=MOST_SECONDS, check=True)
        lines = run.stdout.decode().split("\n")[:-1]
        for it in sequences:
            yield lines[: len(it.calls)]
            del lines[: len(it.calls)]

    def answer_in_memory(self, sequences):
        """Takes from the folder in memory what the calls of sequences have to answer."""
        files = [line for number, it in enumerate(sequences) for line in it.lines_of_files(f"{number}/")]
        for it, answers in zip(sequences, self.answers(None, "memory", sequences, files)):
            it.take_answers_in_memory(answers)
            it.take_what_is_there()

    def compare(self, system, room, first, count):
        """Makes so many sequences of each kind on a file system in an empty folder, and prints what differs. Returns what the file system lacks."""
        try:
            self.do(system.before, room)
            tried = room / system.made / "tried"
            tried.mkdir()
            abilities = Abilities(tried)
            shutil.rmtree(tried)
            plain, linked = [], []
            for number in range(first, first + count):
                maker = Maker(random.Random(f"{self.words.seed} {number}"), abilities)
                plain.append(maker.plain(f"{system.name}, sequence {number}"))
                linked += [maker.linked(f"{system.name}, sequence {number} with links")] * (abilities.has_links or abilities.has_second_names)
            self.answer_in_memory(plain)
            sequences = [*plain, *linked, *(rows(abilities) if first == 0 else ())]
            for number, it in enumerate(sequences):
                it.make(room / system.made / str(number))
            self.do(system.after, room)
            for number, (it, answers) in enumerate(zip(sequences, self.answers(room / system.called, "system", sequences))):
                self.take([*it.faults(answers, room / system.called / str(number))])
        finally:
            self.do(UNMOUNT, room)
        return abilities.lacks()

    def take(self, faults):
        self.passed, self.failed = self.passed + (not faults), self.failed + bool(faults)
        print(*(f"WRONG: {it}" for it in faults), sep="\n", end="\n" if faults else "", flush=True)

    def try_system(self, system):
        """Makes sequences on a file system until its time is up. Returns its name with what it lacks, or an empty text if it can't be had."""
        ends, first, lacks = time.monotonic() + self.words.seconds, 0, []
        while not first or first < self.words.count or time.monotonic() < ends:
            count = min(MOST_IN_RUN, max(self.words.count - first, 0) or MOST_IN_RUN)
            with tempfile.TemporaryDirectory(dir=system.within) as room:
                try:
                    lacks = self.compare(system, Path(room), first, count)
                except Refused:
                    return ""
                except (subprocess.CalledProcessError, subprocess.TimeoutExpired) as error:
                    self.take([f"{system.name}: {error}"])
                    return ""
            first += count
        return f"{system.name} {first}" + (f" (without {', '.join(lacks)})" if lacks else "")


def hide_mounts():
    """Goes on as a process whose mounts nobody else sees, and which end with it at the latest."""
    if "MOUNTS_ARE_HIDDEN" in os.environ or subprocess.run([*MOUNTING_A_DISK, "true"], capture_output=True).returncode:
        return
    words = [*MOUNTING_A_DISK, sys.executable, *sys.argv]
    os.execvpe(words[0], words, {**os.environ, "MOUNTS_ARE_HIDDEN": "yes"})


def main():
    asked = argparse.ArgumentParser(description="Compares the system's files with a folder in memory.")
    asked.add_argument("--count", type=int, default=15, help="how many sequences on each file system, and as many with links")
    asked.add_argument("--seconds", type=float, default=0, help="for how long each file system gets more of them")
    asked.add_argument("--seed", default="0", help="other sequences")
    asked.add_argument("--only", help="one file system alone, by its name here")
    asked.add_argument("program", type=os.path.abspath)
    words = asked.parse_args()
    hide_mounts()
    signal.signal(signal.SIGTERM, lambda *_: sys.exit(143))
    trials = Trials(words.program, words)
    tried = [trials.try_system(it) for it in SYSTEMS if words.only in (None, it.name) and it.is_possible()]
    print("folder_trials: sequences on", ", ".join(filter(None, tried)))
    return say(trials.passed, trials.failed)


if __name__ == "__main__":
    sys.exit(main())
