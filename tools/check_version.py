#!/usr/bin/env python3
"""Sees that the version that the source names is the one in the manual pages, in the tests and in NEWS; and tries tools/version.py in a repository
of its own: before a release, at it, after it, and in what `make dist` packs.

    check_version.py

The last line is `N passed, M failed`.
"""
import os
import re
import shutil
import subprocess
import sys
import tempfile
from pathlib import Path

sys.dont_write_bytecode = True
from verdict import say_of
import version

TOP = version.TOP
# What prints or names the version, besides the source.
NAMING = ("crates/worked_parts/src/command_lines.rt", "crates/worked_runs/src/program_runs.rt", "tools/program_cases.py")
# What a repository needs so that its version can be said.
NEEDED = (".commit", ".gitattributes", "tools/version.py", version.NAMED_IN)


# ---- the version here


def places():
    """The versions that tests and pages name, with where."""
    for path in [*NAMING, *sorted(str(it.relative_to(TOP)) for it in TOP.glob("man/*"))]:
        found = set(re.findall(r"\bmairix (\d[\w.~]*)", (TOP / path).read_text("utf-8")))
        yield path, found


def news_fault(named):
    """A release has its day in NEWS, and no other version that the source names has one."""
    heads = dict(re.findall(r"(?m)^(\d\S*) \((.*)\)$", version.NEWS.read_text("utf-8")))
    released = named.removesuffix(f"~{version.UNRELEASED}")
    has_day = re.fullmatch(r"\d{4}-\d\d-\d\d", heads.get(released, ""))
    if named == released:
        return "" if has_day and next(iter(heads)) == named else f"NEWS doesn't begin with {named} and its day"
    return f"NEWS says that {released} was released" if has_day else ""


def checks_here():
    named = version.named_version()
    yield "form of the version", "" if re.fullmatch(rf"\d+\.\d+\.\d+(~{version.UNRELEASED})?", named) else named
    for path, found in places():
        yield f"version in {path}", "" if found == {named} else f"{sorted(found)}, and {version.NAMED_IN} names {named}"
    yield "version in NEWS", news_fault(named)
    told = subprocess.run([TOP / "tools/version.py"], capture_output=True, text=True, timeout=60)
    yield "version of these files", told.stderr.strip()


# ---- versions of a repository


class Repository:
    """A repository with a source that names a version, a manual page, and the script under test."""

    def __init__(self, room):
        self.folder = Path(room) / "repository"
        for name in NEEDED:
            (self.folder / name).parent.mkdir(parents=True, exist_ok=True)
            shutil.copy(TOP / name, self.folder / name)
        self.write("NEWS", "news")
        self.git("init", "--quiet")

    def write(self, name, text):
        (self.folder / name).parent.mkdir(parents=True, exist_ok=True)
        (self.folder / name).write_text(text)

    def git(self, *words):
        who = {f"GIT_{role}_{what}": "somebody" for role in ("AUTHOR", "COMMITTER") for what in ("NAME", "EMAIL")}
        when = {f"GIT_{role}_DATE": "2003-01-02T23:30:00 -0500" for role in ("AUTHOR", "COMMITTER")}
        # What somebody has set, such as to sign commits, isn't wanted here.
        settings = {f"GIT_CONFIG_{level}": "/dev/null" for level in ("GLOBAL", "SYSTEM")}
        how = {"env": os.environ | who | when | settings, "capture_output": True, "check": True}
        return subprocess.run(["git", "-C", self.folder, *words], **how).stdout

    def commit(self, named="", other=""):
        """Makes a commit, whose source names a version, and returns its digits."""
        if named:
            self.write(version.NAMED_IN, f'.version("{named}")\n')
        self.write("other", other)
        self.git("add", "--all")
        self.git("commit", "--quiet", "--message", "x")
        return self.git("rev-parse", "HEAD").decode()[:10]

    def said(self, *words, folder=None):
        """What the script prints, or that it refuses."""
        run = subprocess.run([(folder or self.folder) / "tools/version.py", *words], capture_output=True, text=True, timeout=60)
        return run.stdout.strip() if run.returncode == 0 else "refused"

    def stamp(self, data):
        """What the script makes of a file."""
        file = self.folder / ".git/stamped"
        file.write_bytes(data)
        return file.read_bytes() if self.said(file) == "" else b"refused"

    def packed(self):
        """What the script prints in the packed last commit."""
        with tempfile.TemporaryDirectory(dir=self.folder.parent) as folder:
            subprocess.run(["tar", "-x", "-C", folder], input=self.git("archive", "HEAD"), check=True)
            return self.said(folder=Path(folder))

    def copied(self):
        """What the script prints in a copy of the files without their repository."""
        with tempfile.TemporaryDirectory(dir=self.folder.parent) as folder:
            shutil.copytree(self.folder, folder, ignore=shutil.ignore_patterns(".git"), dirs_exist_ok=True)
            return self.said(folder=Path(folder))


def checks_of_commits(repository):
    """What is said of commits before a release, at it and after it: each with what is wanted."""
    first = repository.commit("0.2.0~unreleased")
    yield "a commit before a release", repository.said(), f"0.2.0~{first}"
    yield "the same, packed", repository.packed(), f"0.2.0~{first}"
    yield "the same without its repository", repository.copied(), "0.2.0~unreleased"
    yield "a program", repository.stamp(b"a0.2.0~unreleased\0b"), f"a0.2.0~{first}\0b".encode()
    yield "a program of another version", repository.stamp(b"a0.1.0\0b"), b"refused"
    yield "a program that names it twice", repository.stamp(b"0.2.0~unreleased" * 2), b"refused"
    page = b'.TH X 1 "%s" "mairix %s" "User commands"\n.SH NAME\n'
    yield "a page", repository.stamp(page % (b"2001-01-01", b"0.2.0~unreleased")), page % (b"2003-01-03", f"0.2.0~{first}".encode())
    repository.write("other", "changed")
    yield "files that have changed", repository.said(), "0.2.0~unreleased"
    yield "the commit below them", repository.said("--commit"), f"0.2.0~{first}"
    repository.write(version.NAMED_IN, '.version("0.2.0")\n')
    yield "files that will be the release", repository.said(), "0.2.0"
    repository.commit("0.2.0")
    yield "the release", repository.said(), "0.2.0"
    yield "the release, packed", repository.packed(), "0.2.0"
    yield "the release's program", repository.stamp(b"a0.2.0\0b"), b"a0.2.0\0b"
    repository.write("other", "changed after it")
    yield "files that have changed since the release", repository.said(), "refused"
    repository.commit(other="more")
    yield "a commit after the release with its version", repository.said(), "refused"
    yield "the same as a commit", repository.said("--commit"), "refused"
    last = repository.commit("0.3.0~unreleased")
    yield "a commit before the next release", repository.said(), f"0.3.0~{last}"


def all_checks():
    yield from checks_here()
    if not shutil.which("git"):
        print("version: there is no git here, so tools/version.py isn't tried")
        return
    with tempfile.TemporaryDirectory(prefix="version-") as room:
        for name, said, wanted in checks_of_commits(Repository(room)):
            yield name, "" if said == wanted else f"{said!r}, wanted {wanted!r}"


def main():
    return say_of("version", all_checks())


if __name__ == "__main__":
    sys.exit(main())
