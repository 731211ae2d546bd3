#!/usr/bin/env python3
"""Makes the packages of the built program twice, installs them, and runs README's examples with each installed program, without Rattle on the path,
in each shell of SHELLS that is installed.

    check_package.py PROGRAM

Both times give the same bytes. The archive is installed by the commands of its INSTALL, the package for Debian by dpkg in a root of its own; where there
are no rights for that it is only unpacked. lintian looks at the package for Debian. What isn't here is said aloud. The last line is `N passed, M failed`.
"""
import functools, gzip, hashlib, io, os, re, shutil, struct, subprocess, sys, tarfile, tempfile
from pathlib import Path

sys.dont_write_bytecode = True
from verdict import say_of
import version
from check_pages import COMPLETIONS, DOCUMENTS, MANUAL, NEWS, README, differences, files_in, of_scripts
from page_examples import TOP, Sandbox, checks_of

PACKAGE = TOP / "tools" / "package.py"
DEMO = [TOP / "demo" / name for name in ("lists.mbox", "m.mbox", "mairixrc", "work.mbox")]
DOCUMENTED = "share/doc/mairix-proved"
SHELLS = ("sh", "bash", "zsh", "fish")
# In a program: the kind of a piece that is loaded, that of the section of names, and the bytes of the head of the file.
LOADED, SYMBOLS, HEAD = 1, 2, 64
# What a release needs to make its packages.
PACKED = ("Makefile", "LICENSE", "NEWS", "README.md", "docs", "man", "completions", "demo", "scripts", "tools", version.NAMED_IN)
# What dpkg knows of a package that is installed.
STANZA = "Package: %s\nStatus: install ok installed\nArchitecture: amd64\nVersion: %s\nMaintainer: somebody\nDescription: nothing\n"


def run(words, **how):
    """The status of a command, and what it prints on both streams."""
    done = subprocess.run(words, stdin=subprocess.DEVNULL, stdout=subprocess.PIPE, stderr=subprocess.STDOUT, timeout=300, **how)
    return done.returncode, done.stdout.decode("utf-8", "replace")


def failed(status, printed):
    return "" if status == 0 else f"status {status}, printed {printed!r}"


def contents(folder):
    """The bytes of each file below a folder."""
    return {name: (folder / name).read_bytes() for name in files_in(folder)}


# ---- making them


def made(program, folder, **how):
    """Makes the packages in a folder, and returns what is wrong and what they are."""
    told = run([PACKAGE, program, folder], **how)
    return failed(*told), contents(folder) if folder.exists() else {}


def made_twice(program, room):
    """The same packages come of another folder, time zone, language and mode of new files."""
    first_wrong, first = made(program, room / "first", umask=0o022)
    other = os.environ | {"TZ": "Asia/Tokyo", "LC_ALL": "C", "SOURCE_DATE_EPOCH": "1"}
    second_wrong, second = made(program, room / "second/folder", umask=0o077, cwd="/", env=other)
    wrong = first_wrong + second_wrong + differences("file of both", set(first), set(second))
    return wrong + "; ".join(f"{name} differs" for name in sorted(first) if first[name] != second.get(name))


def of_release(program, room):
    """An unpacked release, whose files have the commit's time, and one of them its digits, gives the same packages as the repository."""
    release = room / "release"
    for name in PACKED:
        copy = shutil.copytree if (TOP / name).is_dir() else shutil.copy
        (release / name).parent.mkdir(parents=True, exist_ok=True)
        copy(TOP / name, release / name)
    (release / ".commit").write_text(commit_of_files() + "\n")
    os.utime(release / "NEWS", (time_of_files(), time_of_files()))
    told = run([release / "tools/package.py", program, room / "third"])
    return failed(*told) or file_faults(contents(room / "first"), contents(room / "third"))


def sum_faults(folder):
    """What is wrong with the file of sums: it has all other files, as `sha256sum -c` reads them."""
    sums = next(folder.glob("*.sha256"))
    lines = [f"{hashlib.sha256(it.read_bytes()).hexdigest()}  {it.name}\n" for it in sorted(folder.iterdir()) if it != sums]
    return "" if "".join(lines) == sums.read_text() else f"it has {sums.read_text()!r}, wanted {lines}"


def member_faults(archive, time):
    """What is wrong with owners, modes, times and order in an archive."""
    with tarfile.open(fileobj=io.BytesIO(archive)) as opened:
        members = opened.getmembers()
    for it in members:
        wanted = 0o755 if it.isdir() or "/bin/" in it.name else 0o644
        if (it.uid, it.gid, it.uname, it.gname, it.mtime, it.mode) != (0, 0, "root", "root", time, wanted):
            yield f"{it.name} has owner {it.uname} ({it.uid}), group {it.gname} ({it.gid}), time {it.mtime}, mode {it.mode:o}"
    names = [it.name.split("/") for it in members]
    yield from ["its files aren't in order"] if names != sorted(names) or not names else []


def time_of_files():
    """The time of the last commit, or of the files of an unpacked release."""
    if not (TOP / ".git").exists():
        return int((TOP / "NEWS").stat().st_mtime)
    return int(subprocess.run(["git", "-C", TOP, "log", "-1", "--format=%ct"], capture_output=True, check=True).stdout)


def commit_of_files():
    """The commit whose files these are, if they are one's."""
    if not (TOP / ".git").exists():
        return "".join(re.findall(r"\A[0-9a-f]{40}\Z", (TOP / ".commit").read_text().strip()))
    changed = subprocess.run(["git", "-C", TOP, "diff", "--quiet", "HEAD"]).returncode
    return "" if changed else subprocess.run(["git", "-C", TOP, "rev-parse", "HEAD"], capture_output=True, check=True, text=True).stdout.strip()


def asked_glibc(program):
    """The newest version of glibc whose symbols readelf finds in the program, if it asks for no other library. Without readelf, what README says."""
    if not shutil.which("readelf"):
        print("package: readelf isn't here: what the program asks for isn't looked at")
        return re.search(r"glibc ([\d.]+\d)", README.read_text(encoding="utf-8"))[1]
    told = run(["readelf", "-W", "-d", "-V", program], env=os.environ | {"LC_ALL": "C"})[1]
    if re.findall(r"\(NEEDED\).*\[(.*)\]", told) != ["libc.so.6"]:
        return "and another library"
    return max(re.findall(r"\bGLIBC_([\d.]+\d)", told), key=lambda it: [int(part) for part in it.split(".")])


# ---- what is installed


def wanted_files(packaged):
    """The bytes of each file below a prefix, of which the program is the packaged one."""
    files = {f"share/man/man{page.suffix[1:]}/{page.name}": version.stamped(page.read_bytes()) for page in MANUAL}
    files |= {f"share/{place}": path.read_bytes() for path, place in (COMPLETIONS | DOCUMENTS).items()}
    return files | of_scripts() | {"bin/mairix": packaged}


def debian_files(packaged):
    """The same as Debian has them, with documents. The changelog is looked at elsewhere."""
    documents = {f"{DOCUMENTED}/copyright": TOP / "LICENSE", f"{DOCUMENTED}/NEWS": NEWS, **{f"{DOCUMENTED}/demo/{it.name}": it for it in DEMO}}
    files = {f"usr/{place}": path.read_bytes() for place, path in documents.items()}
    for name, data in wanted_files(packaged).items():
        name = "usr/" + name.replace("site-functions", "vendor-completions")
        files[name + ".gz" if "/man/" in name else name] = data
    return files


def unpacked(files):
    return {name: gzip.decompress(data) if name.endswith(".gz") else data for name, data in files.items()}


def file_faults(want, got):
    wrong = differences("file of the package", set(want), set(got))
    return wrong + "; ".join(f"{name} isn't as it should be" for name in sorted(want) if got.get(name, want[name]) != want[name])


def loaded(program):
    """What the system loads of a program, without the head of the file: each piece with its address and its rights."""
    place, (size, count) = struct.unpack_from("<Q", program, 32)[0], struct.unpack_from("<HH", program, 54)
    for number in range(count):
        kind, rights, start, address, _, length = struct.unpack_from("<IIQQQQ", program, place + number * size)
        # The head says where the sections are, which nothing loads.
        front = HEAD if start == 0 else 0
        if kind == LOADED:
            yield address, rights, program[start + front : start + length]


def program_faults(built, packaged, named, stated):
    """What is wrong with a packaged program. The system loads the same of it as of the built one, except the version; and it has no names of functions."""
    wanted = [(address, rights, piece.replace(named.encode(), stated.encode())) for address, rights, piece in loaded(built)]
    yield from [] if wanted == list(loaded(packaged)) else ["the system loads something else"]
    table, size, count = struct.unpack_from("<Q", packaged, 40)[0], *struct.unpack_from("<HH", packaged, 58)
    kinds = [struct.unpack_from("<I", packaged, table + number * size + 4)[0] for number in range(count)]
    yield from ["it has names of functions"] if SYMBOLS in kinds else []


@functools.cache
def shells():
    """The shells that are here."""
    for shell in SHELLS:
        if not shutil.which(shell):
            print(f"package: {shell} isn't here, so README's first hour isn't tried in it")
    return [it for it in SHELLS if shutil.which(it)]


def examples(name, program, demo, shell):
    """Runs README's examples in a shell, with an installed program and the demo of its package, without Rattle on the path."""
    name = f"{name}, in {shell}"
    with Sandbox(program, demo, shell) as sandbox:
        others = [it for it in os.environ["PATH"].split(":") if not (Path(it) / "rt").exists()]
        sandbox.environment["PATH"] = ":".join(map(str, [program.parent, sandbox.tools, *others]))
        found = sandbox.shell("command -v mairix; command -v rt", sandbox.home)[1]
        yield f"{name}: programs on the path", "" if found == f"{program}\n" else f"printed {found!r}"
        checks = list(checks_of(README, sandbox))
        yield from ((f"{name}: {what}", wrong) for what, wrong in checks)
        yield f"{name}: examples of README.md", "" if checks else "none was found"


# ---- the archive


def archive_checks(program, folder, stated, glibc):
    """Unpacks the archive, looks at what it has, and installs it from each shell."""
    front = f"mairix-{stated}-linux-x86_64"
    packed = folder / f"{front}.tar.gz"
    yield "members of the archive", "; ".join(member_faults(packed.read_bytes(), time_of_files()))
    yield "time and name of its packing", "" if packed.read_bytes()[3:8] == bytes(5) else f"begins with {packed.read_bytes()[:10].hex()}"
    unpacks = folder / "unpacked"
    unpacks.mkdir()
    yield "tar", failed(*run(["tar", "-xzf", packed, "-C", unpacks]))
    tree = unpacks / front
    packaged = (tree / "bin/mairix").read_bytes()
    yield "program of the archive", "; ".join(program_faults(Path(program).read_bytes(), packaged, version.named_version(), stated))
    other = {"LICENSE": TOP / "LICENSE", "NEWS": NEWS, **{f"demo/{it.name}": it for it in DEMO}, "INSTALL": tree / "INSTALL"}
    want = wanted_files(packaged)
    yield "files of the archive", file_faults(want | {name: path.read_bytes() for name, path in other.items()}, contents(tree))
    install = (tree / "INSTALL").read_text()
    yield "lines of INSTALL", "" if install.count("\n") == 10 and f"glibc {glibc} " in install else install
    for shell in shells():
        yield from install_checks(shell, tree, folder / f"home of {shell}", stated)


def install_checks(shell, tree, home, stated):
    """Does in a shell what INSTALL says, in a home of its own, then README's first hour, and then what INSTALL says of removing."""
    home.mkdir()
    *commands, removing = re.findall(r"(?m)^    (.*)", (tree / "INSTALL").read_text())
    here = {"cwd": tree, "env": {"HOME": str(home), "PATH": os.environ["PATH"]}}
    printed = run([shell, "-c", "\n".join([*commands, "mairix -V"])], **here)
    yield f"commands of INSTALL in {shell}", "" if printed == (0, f"mairix {stated}\n") else f"status and text {printed}"
    prefix = home / ".local"
    want = {name: data for name, data in contents(tree).items() if name.startswith(("bin/", "share/"))}
    yield f"files below the prefix in {shell}", file_faults(want, contents(prefix))
    yield from examples("archive", prefix / "bin/mairix", tree / "demo", shell)
    left = failed(*run([shell, "-c", removing], **here))
    yield f"removing by INSTALL in {shell}", left + ", ".join(files_in(home))


# ---- the package for Debian


def parts(package):
    """The two archives in a package for Debian."""
    return [subprocess.run(["dpkg-deb", part, package], capture_output=True, check=True).stdout for part in ("--ctrl-tarfile", "--fsys-tarfile")]


def dpkg(root, *words):
    # dpkg looks for programs of root's, and writes its log outside of the root, unless it is told.
    path = os.environ["PATH"] + ":/usr/local/sbin:/usr/sbin:/sbin"
    return run(["dpkg", "--root", root, f"--log={root}/log", *map(str, words)], env=os.environ | {"PATH": path, "LC_ALL": "C"})


def new_root(root, **packages):
    """A root in which dpkg believes that these packages are installed."""
    known = root / "var/lib/dpkg"
    for name in ("updates", "info"):
        (known / name).mkdir(parents=True)
    for name in packages:
        (known / "info" / f"{name}.list").touch()
    (known / "status").write_text("\n".join(STANZA % it for it in packages.items()))


def refusals(package, folder, glibc):
    """Neither an older glibc than the program asks for nor another mairix goes with it."""
    older = re.sub(r"\d+$", lambda it: str(int(it[0]) - 1), glibc)
    cases = ("older", {"libc6": f"{older}-9"}, "depends on libc6 "), ("another", {"libc6": glibc, "mairix": "0.24-2"}, "conflicts with mairix")
    for name, packages, reason in cases:
        new_root(folder / name, **packages)
        status, printed = dpkg(folder / name, "--install", package)
        yield f"package where it {reason}", "" if status == 1 and reason in printed else f"status {status}, printed {printed!r}"


def points_of(text):
    """The points of a list, each on one line."""
    return [" ".join(it.split()) for it in re.findall(r"(?ms)^ *[-*] (.*?)(?=^ *[-*] |^$|\Z)", text)]


def changelog_faults(packed, stated):
    """What is wrong with the changelog: it has an entry for each version of NEWS, in its order, with all of its points."""
    news, text = NEWS.read_text(encoding="utf-8"), gzip.decompress(packed).decode()
    wanted = [it if day[0].isdigit() else stated for it, day in re.findall(r"(?m)^(\d\S*) \((.*)\)$", news)]
    heads = re.findall(r"(?m)^mairix-proved \((.*)\) unstable; urgency=medium$", text)
    yield from [] if heads == wanted else [f"it has {heads}, wanted {wanted}"]
    yield from [] if points_of(text) == points_of(news) else ["its points aren't those of NEWS"]


def lintian_faults(package):
    """The errors that lintian finds, or nothing where it isn't installed."""
    if not shutil.which("lintian"):
        print("package: lintian isn't here, so it doesn't look at the package for Debian")
        return ""
    status, printed = run(["lintian", "--allow-root", "--fail-on", "error", package])
    return failed(status, printed)


def debian_checks(program, folder, stated, glibc):
    package = folder / f"mairix-proved_{stated}_amd64.deb"
    for name, part in zip(("control", "files"), parts(package)):
        yield f"{name} of the package", "; ".join(member_faults(part, time_of_files()))
    fields = run(["dpkg-deb", "--field", package, "Version", "Depends", "Conflicts", "Provides"])[1]
    yield "fields of the package", "" if fields == f"Version: {stated}\nDepends: libc6 (>= {glibc})\nConflicts: mairix\n" else fields
    description = run(["dpkg-deb", "--field", package, "Description"])[1]
    yield "description of the package", "" if "It replaces the package mairix" in description else description
    yield "lintian", lintian_faults(package)
    root = folder / "root"
    may_install = os.geteuid() == 0 and bool(shutil.which("dpkg"))
    if may_install:
        print("package: the package for Debian is installed by dpkg --root")
        new_root(root, libc6=glibc)
        yield "dpkg --install", failed(*dpkg(root, "--install", package))
        yield from refusals(package, folder, glibc)
    else:
        print("package: no rights for dpkg --root: the package for Debian is unpacked by dpkg-deb --extract")
        yield "dpkg-deb --extract", failed(*run(["dpkg-deb", "--extract", package, root]))
    got = {name: data for name, data in contents(root).items() if name.startswith("usr/")}
    yield "changelog", "; ".join(changelog_faults(got.pop(f"usr/{DOCUMENTED}/changelog.gz", b""), stated))
    packaged = got.get("usr/bin/mairix", b"")
    yield "program of the package", "" if packaged == (
        folder / "unpacked" / f"mairix-{stated}-linux-x86_64/bin/mairix"
    ).read_bytes() else "the archive has another"
    yield "installed files", file_faults(debian_files(packaged), unpacked(got))
    for shell in shells():
        yield from examples("package", root / "usr/bin/mairix", root / "usr" / DOCUMENTED / "demo", shell)
    if may_install:
        left = failed(*dpkg(root, "--purge", "mairix-proved"))
        yield "dpkg --purge", left + ", ".join(it for it in files_in(root) if it.startswith("usr/"))


def all_checks(program, room):
    yield "the same bytes twice", made_twice(program, room)
    folder = room / "first"
    archives = list(folder.glob("mairix-*-linux-x86_64.tar.gz"))
    if not archives:
        return
    stated, glibc = archives[0].name.split("-")[1], asked_glibc(program)
    commit = commit_of_files()
    wanted = version.named_version().replace("unreleased", commit[:10] or "unreleased")
    yield "version of the packages", "" if stated == wanted else f"they say {stated}, wanted {wanted}"
    yield "packages of an unpacked release", of_release(program, room)
    yield "sums", sum_faults(folder)
    yield "glibc in README.md", "" if f"glibc {glibc} " in README.read_text(encoding="utf-8").replace("\n", " ") else f"the program asks for {glibc}"
    yield from archive_checks(program, folder, stated, glibc)
    if shutil.which("dpkg-deb"):
        yield from debian_checks(program, folder, stated, glibc)
    else:
        print("package: dpkg-deb isn't here: there is no package for Debian")


def main(program):
    with tempfile.TemporaryDirectory(prefix="package-") as room:
        return say_of("package", all_checks(os.path.abspath(program), Path(room).resolve()))


if __name__ == "__main__":
    sys.exit(main(sys.argv[1]) if len(sys.argv) == 2 else __doc__)
