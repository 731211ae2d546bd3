#!/usr/bin/env python3
"""Runs the scripts of scripts/ on real files, with the built program: with this system's shell and awk, and with each other one that is installed.
Compares status, streams and files with what was worked out by hand. Also runs a sample of each kind of mail in RECIPES' part "Where your mail comes
from", in the form in which that program writes it.

    check_scripts.py PROGRAM

Where a program that a case needs isn't installed, a line says what was left out. The last line is `N passed, M failed`.
"""
import os, re, shutil, stat, subprocess, sys, tempfile
from pathlib import Path

sys.dont_write_bytecode = True
import mail_cases, script_cases
from check_program import contents, differences, left_out, same
from mail_cases import rows_of_recipes
from script_cases import LINK, PRIVATE
from verdict import say_of

TOP = Path(__file__).resolve().parent.parent
SCRIPTS = sorted((TOP / "scripts").iterdir())
# A shell as the first line of a script names it, and an awk. Of busybox come all programs that it has.
SYSTEMS = (("/bin/sh", "awk"), ("/bin/bash --posix", "gawk"), ("/usr/bin/busybox sh", "busybox"), ("/bin/ksh", "original-awk"))
# Programs of busybox that the scripts use.
APPLETS = ("awk", "cat", "cut", "find", "grep", "head", "ln", "mkdir", "mktemp", "paste", "rm", "sed", "sort", "tail", "tee", "tr", "wc")


def make_tools(folder, program, shell, awk):
    """A folder for the path: the program, the scripts for this shell, an awk, and what chooses and shows."""
    folder.mkdir()
    (folder / "mairix").symlink_to(Path(program).resolve())
    for script in SCRIPTS:
        _, body = script.read_text(encoding="utf-8").split("\n", 1)
        add_tool(folder, script.name, f"#!{shell}\n{body}")
    if awk == "busybox":
        known = subprocess.run(["busybox", "--list"], capture_output=True, text=True, check=True).stdout.split()
        for name in set(APPLETS) & set(known):
            (folder / name).symlink_to(shutil.which("busybox"))
    else:
        (folder / "awk").symlink_to(shutil.which(awk))
    # Somebody who chooses the first line, and somebody who reads to the end.
    add_tool(folder, "fzf", "#!/bin/sh\nexec head -n 1\n")
    add_tool(folder, "less", "#!/bin/sh\nexec cat\n")


def add_tool(folder, name, text):
    (folder / name).write_text(text, encoding="utf-8")
    (folder / name).chmod(0o755)


def write(folder, files):
    """Makes files with their folders. None is a folder, a LINK is a link."""
    for name, body in files.items():
        path = os.path.join(folder, name)
        os.makedirs(path if body is None else os.path.dirname(path), exist_ok=True)
        if isinstance(body, LINK):
            os.symlink(body[0], path)
        elif body is not None:
            with open(path, "wb") as file:
                file.write(body)


def public_files(home, changes):
    """Which of the files that a case calls private others may read."""
    for name, body in changes.items():
        if isinstance(body, PRIVATE) and stat.S_IMODE(os.stat(os.path.join(home, name)).st_mode) != 0o600:
            yield f"others may read {name}"


def shown(body, home):
    """A file as cases write it: the home is /home/you."""
    if isinstance(body, LINK):
        return LINK([body[0].replace(home, "/home/you")])
    return body.replace(os.fsencode(home), b"/home/you") if body else body


def plain(changes):
    return {name: bytes(body) if isinstance(body, PRIVATE) else body for name, body in changes.items()}


def case_faults(case, tools):
    """What is wrong with a case: it runs in a home of its own, which is shown as /home/you."""
    with tempfile.TemporaryDirectory(prefix="scripts-") as room:
        home, aside = os.path.join(room, "home"), os.path.join(room, "aside")
        os.mkdir(home)
        os.mkdir(aside)
        write(home, case.files)
        changes = plain(case.changes)
        want = {name: body for name, body in {**contents(home), **changes}.items() if name not in changes or body is not None}
        environment = {"HOME": home, "PATH": f"{tools}:{os.environ['PATH']}", "LC_ALL": "C.UTF-8", "TZ": "UTC", "TMPDIR": aside}
        run = subprocess.run(["/bin/sh", "-c", case.command], cwd=home, env=environment, input=case.stdin, capture_output=True, timeout=120)
        if run.returncode != case.status:
            yield f"status {run.returncode}, wanted {case.status}"
        for name, got, wanted in (("output", run.stdout, case.out), ("error", run.stderr, case.err)):
            if not same(wanted, shown(got, home)):
                yield f"standard {name} {shown(got, home)[:600]!r}, wanted {wanted!r}"
        got = {name: shown(body, home) for name, body in contents(home).items()}
        # Folders that files are in aren't named.
        yield from differences({n: b for n, b in want.items() if b is not None}, {n: b for n, b in got.items() if b is not None})
        yield from public_files(home, case.changes)
        if os.listdir(aside):
            yield f"it left {os.listdir(aside)}"


def loses_zeros(tools):
    run = subprocess.run([f"{tools}/awk", "{print length($0)}"], input=b"a\0b\n", capture_output=True, timeout=60)
    return run.stdout != b"3\n"


def system_checks(program, shell, awk, room):
    tools = Path(room) / "bin"
    make_tools(tools, program, shell, awk)
    cases = script_cases.CASES + mail_cases.CASES + (script_cases.WITHOUT_ZEROS if loses_zeros(tools) else script_cases.WITH_ZEROS)
    for case in cases:
        missing = [it for it in case.needs if not shutil.which(it)]
        if missing:
            left_out(f"{case.name}: {', '.join(missing)} isn't installed")
        else:
            yield f"{shell}, {awk}: {case.name}", list(case_faults(case, tools))


def usage_of(script):
    """How a script is used, by its line of usage."""
    usage = re.search(r'"usage: ([^"]*)"', script.read_text(encoding="utf-8"))
    return usage[1] if usage else ""


def usage_checks():
    """Each script can be run, is run by a case, and its first comment says how it is used as its line of usage does."""
    for script in SCRIPTS:
        name, text = script.name, script.read_text(encoding="utf-8")
        used = usage_of(script)
        wrong = [] if used.startswith(name) and text.startswith(f"#!/bin/sh\n# {used}: ") else ["its second line doesn't say how it is used"]
        wrong += [] if os.access(script, os.X_OK) else ["it can't be run"]
        wrong += [] if any(case.name.startswith(f"{name}: ") for case in script_cases.CASES) else ["no case is of it"]
        yield f"form of {name}", wrong
    rows, tried = set(rows_of_recipes()), {case.name.partition(": ")[0] for case in mail_cases.CASES}
    yield "rows of RECIPES.md", [f"{it} is in one of RECIPES.md and the cases only" for it in sorted(rows ^ tried)]


def all_checks(program):
    yield from usage_checks()
    for shell, awk in SYSTEMS:
        if os.access(shell.split()[0], os.X_OK) and shutil.which(awk):
            with tempfile.TemporaryDirectory(prefix="scripts-") as room:
                yield from system_checks(program, shell, awk, room)
        else:
            left_out(f"the scripts with {shell} and {awk}, which aren't both installed")


def main(program):
    return say_of("scripts", ((name, "; ".join(bad)) for name, bad in all_checks(program)))


if __name__ == "__main__":
    sys.exit(main(sys.argv[1]) if len(sys.argv) == 2 else __doc__)
