#!/usr/bin/env python3
"""Says of which version the files of this repository are, and writes it into what is installed of them.

    version.py             prints the version of the files as they are now
    version.py --commit    prints the version of the last commit, even if files have changed since
    version.py FILE ..     writes the version into a program and manual pages, and the day of the commit into the pages

The source names the version, and the program is proved and built with that name. Only one commit names a version alone, as in `0.2.0`: that is the
release. Each other commit names the release that comes next, as in `0.2.0~unreleased`, and what is installed of it has the commit's first digits in
place of `unreleased`. These are as many, so nothing else of the program changes. Files that are no commit's stay `unreleased`.

A release made by `make dist` has no repository: there git has written the commit into .commit, and has given each file the commit's time.
"""
import os
import re
import subprocess
import sys
import tempfile
from datetime import datetime, timezone
from pathlib import Path

TOP = Path(__file__).resolve().parent.parent
NAMED_IN = "crates/mairix_options/src/command_line.rt"
COMMIT, NEWS = TOP / ".commit", TOP / "NEWS"
UNRELEASED = "unreleased"
# The first line of a manual page, up to its version.
TITLE = re.compile(rb'\A(\.TH \S+ \d) "[^"]*" "mairix [^"]*"')


def git(*words):
    run = subprocess.run(["git", "-C", TOP, *words], stdout=subprocess.PIPE, text=True)
    if run.returncode:
        sys.exit(f"version: git {' '.join(words)} failed")
    return run.stdout.strip()


def has_repository():
    return (TOP / ".git").exists()


def has_changed():
    """Whether files aren't as the last commit has them."""
    return has_repository() and git("status", "--porcelain", "--untracked-files=no") != ""


def last_commit():
    """The last commit, or nothing if it isn't known."""
    if has_repository():
        return git("rev-parse", "HEAD")
    found = re.match(r"[0-9a-f]{40}", COMMIT.read_text("utf-8")) if COMMIT.exists() else None
    return found[0] if found else ""


def seconds():
    """The time of the last commit, in seconds since 1970."""
    return int(git("log", "-1", "--format=%ct") if has_repository() else NEWS.stat().st_mtime)


def day():
    return datetime.fromtimestamp(seconds(), timezone.utc).strftime("%Y-%m-%d")


def named_version(commit=""):
    """The version that the source names, now or in a commit."""
    source = git("show", f"{commit}:{NAMED_IN}") if commit else (TOP / NAMED_IN).read_text("utf-8")
    return re.search(r'\.version\("(.*)"\)', source)[1]


def refuse_older_release(version, commits):
    """A version without `unreleased` is a release, and no commit before it may name the same."""
    if not version.endswith(UNRELEASED) and version in map(named_version, commits):
        sys.exit(f"version: {version} was released by an earlier commit: name the next one in {NAMED_IN}, such as 0.3.0~{UNRELEASED}")


def version_of_commit():
    """The version of the last commit, whatever the files are now."""
    if not has_repository():
        return named_version().replace(UNRELEASED, last_commit()[: len(UNRELEASED)] or UNRELEASED)
    named = named_version("HEAD")
    refuse_older_release(named, git("rev-list", "--parents", "-n", "1", "HEAD").split()[1:])
    return named.replace(UNRELEASED, last_commit()[: len(UNRELEASED)])


def version():
    """The version of the files as they are now."""
    if not has_changed():
        return version_of_commit()
    refuse_older_release(named_version(), ["HEAD"])
    return named_version()


def stamped(data):
    """A program or a manual page with its version, and a page with the day of the commit."""
    if TITLE.match(data):
        return TITLE.sub(rb'\1 "%s" "mairix %s"' % (day().encode(), version().encode()), data)
    named = named_version().encode()
    if data.count(named) != 1:
        sys.exit(f"version: the program names its version {named_version()} {data.count(named)} times: was it built of these files?")
    return data.replace(named, version().encode())


def stamp(file):
    """Writes a file anew, with its mode."""
    data, mode = stamped(file.read_bytes()), file.stat().st_mode
    with tempfile.NamedTemporaryFile(dir=file.parent, delete=False) as new:
        new.write(data)
    os.chmod(new.name, mode & 0o7777)
    os.replace(new.name, file)


def main(words):
    if words in ([], ["--commit"]):
        print(version_of_commit() if words else version())
    for file in words if words != ["--commit"] else []:
        stamp(Path(file))


if __name__ == "__main__":
    sys.exit(main(sys.argv[1:]))
