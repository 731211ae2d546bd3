"""The examples of the manual pages and of the Markdown pages, and how they are run: by a shell, in a folder that has the files of demo/,
with the program as `mairix`.

In a manual page:
- a display (.nf to .fi) behind a line `.\\" run`: each line `$ COMMAND` prints the lines up to the next one;
- a line `.\\" run: COMMAND => REPLY`: it says how the words of its paragraph are answered;
- a display behind a line `.\\" rcfile`: it is one.

In Markdown:
- a block ```console, read like a display; a line `> ..` goes on with the command before it, and `...` stands for any lines;
- a block ```sh is run whole, and prints the block ```text that stands behind it and before the next one, or nothing; one that begins with
  `make` or `sudo` is left out;
- a block ```sh that begins with `#!` and `# NAME` is a script of that name;
- a row of a table whose last two columns are a command in backquotes and a REPLY.

The displays of a page are run in their order, in one shell.

A REPLY is the status and, where more is to be said, a comma and the last line that is printed, or `N lines`.
"""
import os, re, shlex, shutil, subprocess, tempfile
from pathlib import Path

from overlapping_runs import hello_index

TOP = Path(__file__).resolve().parent.parent
MARK = "-- end of a command --"
SIGNS = {r"\-": "-", r"\(ti": "~", r"\(ha": "^", r"\(aq": "'", r"\(dq": '"', r"\e": "\\", r"\&": "", r"\~": " "}
FONTS = r"\\f[BIRP]"


class Sandbox:
    """A home of its own with demo/ and an mbox Mail/inbox in it, an index and an rcfile for demo/, the program on the path, and a shell for what
    pages show."""

    def __init__(self, program, demo=TOP / "demo", shell="sh"):
        self.shown_in = shell
        self.room = tempfile.TemporaryDirectory(prefix="pages-")
        self.home = Path(self.room.name) / "home"
        self.demo = self.home / "demo"
        shutil.copytree(demo, self.demo)
        (self.home / "Mail").mkdir()
        shutil.copy(self.demo / "lists.mbox", self.home / "Mail" / "inbox")
        self.tools = Path(self.room.name) / "bin"
        self.tools.mkdir()
        (self.tools / "mairix").symlink_to(Path(program).resolve())
        for script in (TOP / "scripts").iterdir():
            (self.tools / script.name).symlink_to(script)
        # Somebody who chooses the first line, and somebody who reads to the end.
        self.add_tool("fzf", "#!/bin/sh\nexec head -n 1\n")
        self.add_tool("less", "#!/bin/sh\nexec cat\n")
        path = f"{self.tools}:{os.environ['PATH']}"
        self.environment = {"HOME": str(self.home), "PATH": path, "LC_ALL": "C.UTF-8", "TZ": "UTC"}
        rcfile = (self.demo / "mairixrc").read_text().replace("mail.index", f"{self.home}/index")
        (self.home / ".mairixrc").write_text(f"base={self.demo}\n{rcfile}")
        self.shell("mairix -f mairixrc; mairix -f ~/.mairixrc", self.demo)
        # What an earlier version of the program made of m.mbox.
        (self.demo / "old.index").write_bytes(hello_index("m.mbox", version=1))

    def __enter__(self):
        return self

    def __exit__(self, *_):
        self.room.cleanup()

    def add_tool(self, name, script):
        (self.tools / name).write_text(script)
        (self.tools / name).chmod(0o755)

    def shell(self, script, folder, shell="sh"):
        """Runs a script in a shell, and returns its status and what it prints on both streams, where the home is /home/you."""
        how = {"cwd": folder, "env": self.environment, "stdin": subprocess.DEVNULL, "stdout": subprocess.PIPE, "stderr": subprocess.STDOUT}
        try:
            run = subprocess.run([shell, "-c", script], timeout=60, **how)
        except subprocess.TimeoutExpired:
            return -1, "(no end in a minute)"
        return run.returncode, run.stdout.decode("utf-8", "replace").replace(str(self.home), "/home/you")

    def session(self, steps, folder):
        """Runs commands one after another in one shell, and returns what each prints; where the shell ends early the rest print that."""
        mark = f"printf '\\n%s\\n' '{MARK}'"
        # Only fish has other words for the status of a command, and no page shows it there.
        end = mark if self.shown_in == "fish" else f"last=$?; {mark}; (exit $last)"
        script = "".join(f"{command}\n{end}\n" for command, _ in steps)
        printed = self.shell(script, folder, self.shown_in)[1].split(f"\n{MARK}\n")
        return (printed[:-1] + ["(the shell has ended)"] * len(steps))[: len(steps)]


# ---- reading a page


def roff_text(line):
    """A line of a manual page as it is read: without its macro, quotes and fonts."""
    macro = re.match(r"\.([A-Z]+)(?: |$)", line)
    if macro:
        words = [a or b for a, b in re.findall(r'"([^"]*)"|(\S+)', line[macro.end() :])]
        alternating = len(macro[1]) == 2 and macro[1] not in ("SH", "SS", "TP", "TQ")
        line = ("" if alternating else " ").join(words)
    for sign, letter in SIGNS.items():
        line = line.replace(sign, letter)
    return re.sub(FONTS, "", line)


def steps_of(lines):
    """Pairs of a command and the lines that it prints."""
    steps = []
    for line in lines:
        if line.startswith("$ "):
            steps.append((line[2:], []))
        elif line.startswith("> ") and steps and not steps[-1][1]:
            steps[-1] = (steps[-1][0] + "\n" + line[2:], [])
        elif steps:
            steps[-1][1].append(line)
    return steps


def roff_sessions(lines):
    for place, line in enumerate(lines):
        if line == r".\" run":
            end = lines.index(".fi", place)
            yield place + 1, steps_of([roff_text(it) for it in lines[place + 2 : end]])


def roff_replies(lines):
    """Each `run:`, with the text of its paragraph and whether that stands in DIAGNOSTICS."""
    for place, line in enumerate(lines):
        told = re.fullmatch(r'\.\\" run: (.*) => (\d.*)', line)
        if told:
            is_edge = lambda it: re.match(r"\.(TP|PP|SH|SS)\b", it)
            front = max(at for at in range(place) if is_edge(lines[at]))
            back = next((at for at in range(place, len(lines)) if is_edge(lines[at])), len(lines))
            text = " ".join(roff_text(it) for it in lines[front:back] if not it.startswith(r".\""))
            section = [it for it in lines[:place] if it.startswith(".SH ")][-1]
            yield place + 1, told[1], told[2], (text, section == ".SH DIAGNOSTICS")


def rcfile_faults(lines, sandbox):
    """Why displays behind `rcfile` are refused, if they are; that archives of theirs aren't there is no fault of theirs."""
    for place, line in enumerate(lines):
        if line == r".\" rcfile":
            end = lines.index(".fi", place)
            (sandbox.demo / "shown").write_text("".join(roff_text(it) + "\n" for it in lines[place + 2 : end]))
            status, printed = sandbox.shell("mairix -f shown", sandbox.demo)
            yield place + 1, "" if status == 4 and printed.startswith("mairix: cannot open /") else f"printed {printed!r}"


def markdown_sessions(lines):
    for place, kind, block in blocks_of(lines):
        if kind == "console":
            yield place, steps_of(block)
        if kind == "sh" and not block[0].startswith(("#!", "make ", "sudo ")):
            yield place, [("\n".join(block), text_after(lines, place))]


def blocks_of(lines):
    """Each block of a page: its line, its kind and its lines."""
    place = 0
    while place < len(lines):
        if lines[place].startswith("```"):
            end = lines.index("```", place + 1)
            yield place + 1, lines[place][3:], lines[place + 1 : end]
            place = end
        place += 1


def text_after(lines, place):
    """The lines of the first block behind the one at this line, if it is of text."""
    behind = next((it for it in blocks_of(lines) if it[0] > place), None)
    return behind[2] if behind and behind[1] == "text" else []


def markdown_scripts(lines):
    """Each block ```sh that is a script whose second line begins with `# NAME`."""
    for place, line in enumerate(lines):
        if line == "```sh" and lines[place + 1].startswith("#!"):
            name = re.match(r"# ([\w-]+)", lines[place + 2])[1]
            yield name, "\n".join(lines[place + 1 : lines.index("```", place)]) + "\n"


def markdown_replies(lines):
    for place, line in enumerate(lines):
        told = re.fullmatch(r"\|.*\| `([^`]+)` \| (\d[^|]*) \|", line)
        if told:
            yield place + 1, told[1], told[2].replace("`", ""), None


# ---- comparing


def same_lines(want, got):
    """Whether a command printed these lines, of which one may be `...`."""
    want = "".join(line + "\n" for line in want)
    if "...\n" not in want:
        return want == got
    front, back = want.split("...\n", 1)
    return len(got) >= len(front + back) and got.startswith(front) and got.endswith(back)


def reply_fits(reply, status, printed):
    wanted, _, more = reply.partition(", ")
    lines = printed.splitlines()
    count = re.fullmatch(r"(\d+) lines?", more)
    if count:
        return status == int(wanted) and len(lines) == int(count[1])
    return status == int(wanted) and (more == "" or lines[-1:] == [more])


def is_told(command, reply, text, is_of_fault):
    """Whether a paragraph speaks of what is run for it: one of DIAGNOSTICS of the fault, any other of the patterns of a plain search."""
    bare = lambda it: re.sub(r"\W+", " ", it).strip().casefold()
    fault = re.sub("^(cannot open) .*", r"\1", reply.partition("mairix: ")[2].rpartition(": ")[2])
    if is_of_fault and fault:
        return bare(fault) in bare(text)
    patterns = shlex.split(command)[3:] if command.startswith("mairix -f mairixrc") else []
    return bare(" ".join(it for it in patterns if not it.startswith("-"))) in bare(text)


def sessions_fit(page, steps, sandbox, folder):
    """Runs all displays of a page in one shell, and yields what each command is and what is wrong with it."""
    printed = sandbox.session([step for _, step in steps], folder)
    for (place, (command, want)), got in zip(steps, printed):
        yield f"{page.name}:{place}: {command}", "" if same_lines(want, got) else f"printed {got!r}"


def checks_of(page, sandbox):
    """Runs the examples of a page, and yields what each is and what is wrong with it."""
    lines = page.read_text(encoding="utf-8").splitlines()
    roff = page.suffix != ".md"
    for name, script in markdown_scripts(lines):
        sandbox.add_tool(name, script)
    steps = []
    for place, session in (roff_sessions if roff else markdown_sessions)(lines):
        steps += [(place, step) for step in session]
    # The README begins outside demo/.
    yield from sessions_fit(page, steps, sandbox, sandbox.home if page.name == "README.md" else sandbox.demo)
    for place, wrong in rcfile_faults(lines, sandbox):
        yield f"{page.name}:{place}: the rcfile", wrong
    for place, command, reply, paragraph in (roff_replies if roff else markdown_replies)(lines):
        status, printed = sandbox.shell(command, sandbox.demo)
        wrong = "" if reply_fits(reply, status, printed) else f"status {status}, printed {printed!r}"
        if paragraph and not is_told(command, reply, *paragraph):
            wrong += " its paragraph doesn't speak of it"
        yield f"{page.name}:{place}: {command}", wrong
