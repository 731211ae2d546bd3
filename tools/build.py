#!/usr/bin/env python3
"""Proves crates and builds their libraries and programs, crates that don't stand on one another side by side.

    tools/build.py [--jobs N] CRATE

A crate is made if it is new, if it has changed, or if a library below it was made otherwise. It is proved by this machine, from nothing, and its
library holds what the crate states and none of its proofs, as in the gate. Such libraries are a fifth as large as those with proofs, and are read
in a fifth of the time. A crate on which somebody works is proved over what its checks have kept in out/incremental, and its library has the
proofs too: without them what was kept couldn't be used.

`rt` makes only libraries with proofs, and doesn't take others, so the prover is called here itself, and what HANDLES forbids is looked for here
too. The libraries stand in out/libraries, each beside the digest of all that it was made of.
"""
import argparse
import hashlib
import os
import re
import sys
from concurrent.futures import FIRST_COMPLETED, ThreadPoolExecutor, wait
from pathlib import Path

sys.dont_write_bytecode = True
from commands import Commands
from crates import Crates
from faults_of_check import Faults, ends_check, is_early_cause
from kit import Kit
from machine import checks_side_by_side

TOP = Path(__file__).resolve().parent.parent
# Words of the prover's last line that no crate of this repository may have, since HANDLES allows no handle.
FORBIDDEN = {"foreign", "hides", "partial", "may-abort", "may-serve", "may-wait", "bugs"}
# Calls of the C library that start threads or programs or open sockets.
REACHING = re.compile(
    r"pthread_create|thrd_create|epoll_\w+|eventfd|socket|socketpair|bind|connect|listen|accept4?|getaddrinfo|getnameinfo|gethostby\w+|send|sendto|sendmsg"
    r"|recv|recvfrom|recvmsg|posix_spawn\w*|fork|vfork|clone3?|execv\w*|execl\w*|fexecve|system|popen|waitpid|waitid|wait[34]?"
)


def libraries_of(root):
    """The folder of the libraries that are built here."""
    return Path(root) / "out" / "libraries"


def kept_of(crates, name):
    """The folder in which checks of a crate keep what they proved. Those by `rt` do so too."""
    return crates.folder(name) / "out" / "incremental"


def sum_of(made):
    """The digest of what was made: of a program, or of each file of a library."""
    digest = hashlib.sha256()
    for file in [made] if made.is_file() else sorted(it for it in made.rglob("*") if it.is_file()):
        digest.update(f"{file.relative_to(made)} {file.stat().st_size}\n".encode() + file.read_bytes())
    return digest.hexdigest()


class Build:
    """Crates with all below them: what is still to be made, and what is being made. Those that somebody works on keep what is proved."""

    def __init__(self, crates, names, jobs, worked_on=()):
        self.kit, self.crates, self.jobs, self.worked_on = Kit(), crates, jobs, worked_on
        self.folder = libraries_of(crates.root)
        self.version = self.kit.version()
        names = crates.with_below(names)
        # The crates that aren't made yet, and those of them that haven't been begun with.
        self.unmade = set()
        for name in names:
            if self.unmade & {*crates.below(name)} or not self.is_made(name):
                self.unmade.add(name)
        self.waiting = [it for it in names if it in self.unmade]
        self.count = len(self.waiting)
        # The crate that couldn't be made.
        self.refused = None
        # The crates that are being made, each with its jobs, by what will tell of their end.
        self.running = {}
        # How many bytes of text stand in the longest chain from a crate up: the longest one decides how long all takes.
        self.chain = {}
        for name in reversed(names):
            longest = max((length for above, length in self.chain.items() if name in crates.libraries[above]), default=0)
            self.chain[name] = crates.size(name) + longest

    def library(self, name):
        return self.folder / f"{name}.rlib"

    def made(self, name):
        """What is made of a crate: its library, or the program."""
        return self.crates.folder(name) / "out" / name if self.crates.is_program(name) else self.library(name)

    def stamp(self, name):
        return self.folder / f"{name}.digest"

    def stamped(self, name):
        """What the stamp of a crate says: the digest of what it was made of, and the digest of what was made."""
        return self.stamp(name).read_text("utf-8").split() if self.stamp(name).is_file() else ["", ""]

    def made_of(self, name):
        """The digest of all that a crate is made of: the kit, its texts, and the libraries below it."""
        digest = hashlib.sha256(f"{self.version} {self.crates.libraries[name]}\n".encode())
        for file in self.crates.texts(name):
            digest.update(f"{file.relative_to(self.crates.root)} {file.stat().st_size}\n".encode() + file.read_bytes())
        for library in self.crates.below(name):
            digest.update(f"{library} {self.stamped(library)[1]}\n".encode())
        return digest.hexdigest()

    def is_made(self, name):
        """Whether a crate is proved and built as its texts are now, over the libraries below it, which are made."""
        made_of, made = self.stamped(name)
        if not self.made(name).exists() or made_of != self.made_of(name):
            return False
        # `rt` builds a program in the same place.
        return not self.crates.is_program(name) or made == sum_of(self.made(name))

    def ready(self):
        """The crates that wait for no other, those first that most stands on."""
        ready = [it for it in self.waiting if not self.unmade & {*self.crates.below(it)}]
        return sorted(ready, key=lambda it: -self.chain[it])

    def shares(self):
        """The crates to begin with now, each with its jobs. The longest chain gets two, and what no other crate wants."""
        places = self.jobs - sum(jobs for _, jobs in self.running.values())
        ready = self.ready()
        if places <= 0 or not ready:
            return {}
        is_longest = self.chain[ready[0]] == max(self.chain[it] for it in self.unmade)
        first = min(places, 2 if is_longest else 1)
        others = ready[1 : 1 + places - first]
        shares = {ready[0]: first, **{it: 1 for it in others}}
        for name in ready[: places - sum(shares.values())]:
            shares[name] += 1
        shares[ready[0]] += places - sum(shares.values())
        return shares

    def begin(self, pool):
        for name, jobs in self.shares().items():
            self.waiting.remove(name)
            begun = self.count - len(self.waiting)
            print(f"{begun} of {self.count}: {name}", flush=True)
            self.running[pool.submit(self.make, name, jobs)] = (name, jobs)

    def command(self, verb, name, jobs):
        """The command that checks or builds a crate over the libraries that are built here."""
        return [*self.kit.proof(verb, self.crates, name, lambda _: self.folder), "--jobs", str(jobs)]

    def keeping(self, name):
        """The words by which a crate keeps what is proved, if somebody works on it."""
        kept = kept_of(self.crates, name)
        return ["--incremental", str(kept)] if name in self.worked_on or kept.is_dir() else []

    def make(self, name, jobs):
        """Proves a crate and makes its library, or the program. Returns the lines of what went wrong, if anything did."""
        if self.is_made(name):
            # Only the text of a crate below had changed, and not what its library has.
            return []
        self.stamp(name).unlink(missing_ok=True)
        made_of, keeping = self.made_of(name), self.keeping(name)
        is_program, target = self.crates.is_program(name), self.folder / f"{name}.o"
        words = self.kit.compiling(target) if is_program else [*([] if keeping else ["--statements"]), "-o", str(self.library(name))]
        tells_early = lambda line: print(f"{name}, {line}", flush=True) if is_early_cause(line) else None
        status, lines = Commands.run([*self.command("build", name, jobs), *keeping, *words], self.crates.folder(name), tells_early, ends_check)
        if status:
            return [*Faults(lines).report(name), f"{name}: not proved"]
        verdict = dict(it.partition("=")[::2] for it in lines[-1].split())
        if verdict.get("logic") != "proved" or verdict.get("main") or FORBIDDEN & verdict.keys():
            return [lines[-1], f"{name}: not proved, or beyond what HANDLES allows"]
        if is_program:
            wrong = self.link(name, target)
            if wrong:
                return wrong
        self.stamp(name).write_text(f"{made_of} {sum_of(self.made(name))}\n")
        return []

    def link(self, name, target):
        """Links the program, and looks at what it calls. Returns the lines of what went wrong."""
        linked = self.folder / name
        status, lines = Commands.run(self.kit.linking(target, linked), self.crates.root)
        if status:
            return [*lines, f"{name}: not linked"]
        beyond = sorted(it for it in self.kit.called(linked) if REACHING.fullmatch(it))
        if beyond:
            return [f"{name}: calls what HANDLES doesn't allow: {', '.join(beyond)}"]
        self.made(name).parent.mkdir(parents=True, exist_ok=True)
        os.replace(linked, self.made(name))
        return []

    def test(self, name):
        """Proves the tests of a crate over what is built, and runs them. Returns the lines of what went wrong, if anything did."""
        tests = self.crates.folder(name) / "out" / f"{name}_tests"
        target = tests.with_suffix(".o")
        proof = [*self.command("build", name, self.jobs), "--test", "--incremental", str(kept_of(self.crates, name)), *self.kit.compiling(target)]
        for words in (proof, self.kit.linking(target, tests), self.kit.testing(tests)):
            status, lines = Commands.run(words, self.crates.folder(name))
            if status:
                return [*Faults(lines).report(name), f"{name}: not proved, or not passed"]
        return []

    def run(self):
        """Makes all. Returns 0, or 1 after all that is wrong with the first crate that couldn't be made: then no other is begun with, and those that
        are being made are left."""
        self.folder.mkdir(parents=True, exist_ok=True)
        with ThreadPoolExecutor(self.jobs) as pool:
            while self.waiting or self.running:
                self.begin(pool)
                for ended in wait(self.running, return_when=FIRST_COMPLETED).done:
                    name, _ = self.running.pop(ended)
                    wrong = ended.result()
                    if wrong:
                        self.refused = name
                        Commands.end()
                        print(*wrong, sep="\n", flush=True)
                        return 1
                    self.unmade.discard(name)
        return 0


class Proved:
    """The crates of a repository that are proved and built: by `rt ci`, or else by this, as many side by side as there may be jobs."""

    def __init__(self, root, names, jobs, is_by_ci):
        self.crates, self.is_by_ci = Crates(root), is_by_ci
        if is_by_ci:
            self.kit = Kit()
            self.unmade = {it for it in names if not (self.folder_of(it) / f"{it}.rlib").exists()}
        else:
            build = Build(self.crates, names, jobs)
            build.run()
            self.kit, self.unmade = build.kit, build.unmade

    def folder_of(self, library):
        return self.crates.folder(library) / "out/rlib" if self.is_by_ci else libraries_of(self.crates.root)

    def checking(self, crates, name):
        """The command that checks a crate, also one of other crates, over the libraries that are built."""
        return self.kit.proof("check", crates, name, self.folder_of)


def main():
    Commands.stop_with_this()
    asked = argparse.ArgumentParser(description="Proves a crate and those below it, side by side, and builds them.")
    asked.add_argument("--jobs", type=int, default=checks_side_by_side(), help="how many processes prove")
    asked.add_argument("crate", help="the crate's name")
    words = asked.parse_args()
    return Build(Crates(TOP), [words.crate], words.jobs).run()


if __name__ == "__main__":
    sys.exit(main())
