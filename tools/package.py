#!/usr/bin/env python3
"""Makes packages of the built program, for people without Rattle: an archive for Linux on x86-64, where dpkg-deb is there also a package for Debian,
and a file of their SHA-256 sums.

    package.py PROGRAM FOLDER

One commit and one program give the same bytes each time: all times are the commit's, and order, owners and modes are fixed. An unpacked release gives
the same bytes as its commit. Only another zlib may pack them otherwise. The packages' program has no names of functions (symbols), which no run needs.
"""
import gzip
import hashlib
import io
import os
import re
import shutil
import struct
import subprocess
import sys
import tarfile
import tempfile
import textwrap
from datetime import datetime, timezone
from email.utils import format_datetime
from pathlib import Path

sys.dont_write_bytecode = True
import version
from kit import Kit

TOP = Path(__file__).resolve().parent.parent
LICENSE, NEWS = TOP / "LICENSE", TOP / "NEWS"
# Whom users of the package for Debian should write to. This address reaches nobody: who publishes a package names another.
MAINTAINER = os.environ.get("MAINTAINER") or "mairix-proved maintainers <maintainers@mairix-proved.invalid>"
# The files of demo/, where runs leave others.
DEMO = ("lists.mbox", "m.mbox", "mairixrc", "work.mbox")
# In a program for x86-64: its first bytes, its machine, and the kind of the section that lists the versions that it asks of libraries.
ELF, X86_64, NEEDS = b"\x7fELF\x02\x01", 62, 0x6FFFFFFE

INSTALL = """\
mairix, proved, {version}, for Linux on x86-64 with glibc {glibc} or later.
`man mairix` explains it, and demo/ has mail to try it with.
In this folder, install it below ~/.local (or, as root, below /usr/local):

    mkdir -p ~/.local && cp -R bin share ~/.local
    export PATH="$HOME/.local/bin:$PATH"

To remove it, in this folder:

    find bin share -type f -exec rm -f "$HOME/.local/{{}}" ";"
"""

CONTROL = """\
Package: mairix-proved
Version: {version}
Architecture: amd64
Maintainer: {maintainer}
Installed-Size: {size}
Depends: libc6 (>= {glibc})
Conflicts: mairix
Section: mail
Priority: optional
Description: find mail in mbox archives
 mairix indexes mbox archives once, and prints exactly the messages that match.
 .
 This is a rewrite of C mairix in a language in which each function is proved
 to do what its contract says. It reads mbox only: no Maildir, MH or IMAP.
 .
 It replaces the package mairix, which is C mairix: both have a program of that
 name, so they can't be installed together. The database of C mairix isn't read.
"""

# An entry of Debian's changelog, and how wide its lines are at most.
ENTRY = """\
mairix-proved ({version}) unstable; urgency=medium

{changes}

 -- {maintainer}  {time}
"""
CHANGELOG_WIDTH = 79


# ---- what the program asks


def asked_versions(data):
    """The versions that a program asks of libraries."""
    if data[:6] != ELF or struct.unpack_from("<H", data, 18)[0] != X86_64:
        sys.exit("package: this is no program for x86-64")
    table, size, count = struct.unpack_from("<Q", data, 40)[0], *struct.unpack_from("<HH", data, 58)
    # Of each section its kind, place, the section of its names, and how many libraries it lists.
    sections = [[struct.unpack_from("<IIQQQQII", data, table + number * size)[it] for it in (1, 4, 6, 7)] for number in range(count)]
    for _, library, names, libraries in (it for it in sections if it[0] == NEEDS):
        for _ in range(libraries):
            _, versions, _, at, next_library = struct.unpack_from("<HHIII", data, library)
            at += library
            for _ in range(versions):
                *_, name, next_version = struct.unpack_from("<IHHII", data, at)
                begins = sections[names][1] + name
                yield data[begins : data.index(b"\0", begins)].decode()
                at += next_version
            library += next_library


def needed_glibc(data):
    """The newest version of glibc whose symbols a program asks for. A version of anything else would ask for another package."""
    found = []
    for name in asked_versions(data):
        told = re.fullmatch(r"GLIBC_(\d+(?:\.\d+)+)", name)
        if not told:
            sys.exit(f"package: the program asks for {name}, which is no version of glibc")
        found.append([int(it) for it in told[1].split(".")])
    if not found:
        sys.exit("package: the program asks for no glibc")
    return ".".join(map(str, max(found)))


# ---- what is in a package


def changes(news):
    """The lines of a version in NEWS as Debian has them: titles in brackets, and points with a star."""
    for title, point in re.findall(r"(?m)^(\w.*)$|^- (.*(?:\n  .*)*)", news):
        how = {"initial_indent": "  * ", "subsequent_indent": "    ", "break_long_words": False, "break_on_hyphens": False}
        yield f"\n  [ {title} ]" if title else textwrap.fill(" ".join(point.split()), CHANGELOG_WIDTH, **how)


def changelog(newest):
    """NEWS as Debian's changelog: an entry for each version, of which one that isn't released yet is the newest."""
    heads = re.split(r"(?m)^(\d\S*) \((.*)\)\n", NEWS.read_text("utf-8"))[1:]
    for name, released, news in zip(heads[::3], heads[1::3], heads[2::3]):
        is_released = re.fullmatch(r"\d+-\d+-\d+", released)
        time = datetime.fromisoformat(released) if is_released else datetime.fromtimestamp(version.seconds(), timezone.utc)
        facts = {"version": name if is_released else newest, "changes": "\n".join(changes(news)).strip("\n"), "maintainer": MAINTAINER}
        yield ENTRY.format(**facts, time=format_datetime(time.replace(tzinfo=timezone.utc)))


def installed(program):
    """The files that `make install` puts below a prefix, of which the program is stripped."""
    # A make above this one may share its work with what it runs; here it has nothing to share.
    environment = {name: value for name, value in os.environ.items() if name != "MAKEFLAGS"}
    with tempfile.TemporaryDirectory(prefix="package-") as room:
        words = ["make", "-C", TOP, "-o", "build", "install", f"PROGRAM={program}", f"DESTDIR={room}", "PREFIX="]
        subprocess.run(words, check=True, stdout=subprocess.DEVNULL, env=environment)
        Kit().strip(f"{room}/bin/mairix")
        return {str(it.relative_to(room)): it.read_bytes() for it in Path(room).rglob("*") if it.is_file()}


def demo_files(front):
    return {f"{front}/{name}": (TOP / "demo" / name).read_bytes() for name in DEMO}


def archive_files(program, install):
    return installed(program) | demo_files("demo") | {"INSTALL": install.encode(), "LICENSE": LICENSE.read_bytes(), "NEWS": NEWS.read_bytes()}


def debian_files(program, newest):
    """The same files where Debian has them: manual pages are packed, and zsh looks for completions elsewhere."""
    documents = "usr/share/doc/mairix-proved"
    files = demo_files(f"{documents}/demo") | {f"{documents}/copyright": LICENSE.read_bytes(), f"{documents}/NEWS": NEWS.read_bytes()}
    files[f"{documents}/changelog.gz"] = gzip.compress("\n".join(changelog(newest)).encode(), 9, mtime=0)
    for name, data in installed(program).items():
        name = "usr/" + name.replace("zsh/site-functions/", "zsh/vendor-completions/")
        is_page = "/man/" in name
        files[name + ".gz" if is_page else name] = gzip.compress(data, 9, mtime=0) if is_page else data
    return files


def mode_of(name):
    return 0o755 if Path(name).parent.name == "bin" else 0o644


def folders_of(files):
    return sorted({str(folder) for name in files for folder in Path(name).parents} - {"."})


# ---- making one


def make_archive(file, files, time):
    """Writes a packed archive. Neither its name nor the time of packing is in it."""
    folders = folders_of(files)
    with open(file, "wb") as out, gzip.GzipFile("", "wb", 9, out, 0) as packed:
        with tarfile.open(mode="w", fileobj=packed, format=tarfile.USTAR_FORMAT) as archive:
            for name in sorted([*folders, *files]):
                entry, data = tarfile.TarInfo(name), files.get(name, b"")
                entry.uname = entry.gname = "root"
                entry.type = tarfile.REGTYPE if name in files else tarfile.DIRTYPE
                entry.size, entry.mtime, entry.mode = len(data), time, mode_of(name) if name in files else 0o755
                archive.addfile(entry, io.BytesIO(data))


def make_debian(file, files, control, time):
    """Writes a package for Debian. dpkg-deb sorts what is in it, and takes the time of packing from the environment."""
    with tempfile.TemporaryDirectory(prefix="package-") as room:
        files = files | {"DEBIAN/control": control.encode()}
        for name, data in files.items():
            path = Path(room) / name
            path.parent.mkdir(parents=True, exist_ok=True)
            path.write_bytes(data)
            path.chmod(mode_of(name))
            # dpkg-deb replaces only later times.
            os.utime(path, (time, time))
        # A folder comes after those in it, because they change its time.
        for folder in [*reversed(folders_of(files)), "."]:
            (Path(room) / folder).chmod(0o755)
            os.utime(Path(room) / folder, (time, time))
        words = ["dpkg-deb", "--root-owner-group", "-Zgzip", "-z9", "--build", room, file]
        subprocess.run(words, check=True, stdout=subprocess.DEVNULL, env=os.environ | {"SOURCE_DATE_EPOCH": str(time)})


def installed_kilobytes(files):
    """As Debian counts them: each file in whole kilobytes, and one for each folder."""
    return sum(-(-len(data) // 1024) for data in files.values()) + len(folders_of(files))


def main(program, folder):
    program, folder = Path(program).resolve(), Path(folder)
    folder.mkdir(parents=True, exist_ok=True)
    if version.has_changed():
        print("package: files have changed since the last commit, so these packages aren't its", file=sys.stderr)
    facts = {"version": version.version(), "glibc": needed_glibc(program.read_bytes()), "maintainer": MAINTAINER}
    time, name = version.seconds(), "mairix-{version}-linux-x86_64".format(**facts)
    made = [folder / f"{name}.tar.gz"]
    files = archive_files(program, INSTALL.format(**facts))
    make_archive(made[0], {f"{name}/{it}": data for it, data in files.items()}, time)
    if shutil.which("dpkg-deb"):
        made.append(folder / "mairix-proved_{version}_amd64.deb".format(**facts))
        files = debian_files(program, facts["version"])
        make_debian(made[1], files, CONTROL.format(**facts, size=installed_kilobytes(files)), time)
    else:
        print("package: dpkg-deb isn't here, so there is no package for Debian", file=sys.stderr)
    sums = "".join(f"{hashlib.sha256(it.read_bytes()).hexdigest()}  {it.name}\n" for it in made)
    (folder / "mairix-{version}.sha256".format(**facts)).write_text(sums)
    print(sums, end="")


if __name__ == "__main__":
    sys.exit(main(*sys.argv[1:]) if len(sys.argv) == 3 else __doc__)
