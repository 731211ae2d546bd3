#!/usr/bin/env python3
"""Rows on which wrong bodies answer otherwise. That the prover refuses an edit says that it is wrong; a row shows how.

    differing_rows.py [CRATE/NAME ..]

A row has an edit of crates/CRATE/must-fail, small archives or an index file, the words of a run, and the answer and the
status that are right, which were worked out by hand. The code as it is must answer so. With the edit it must answer
otherwise, or stop.

An edit of crates/CRATE/only-tests is wrong too, but no clause can refuse it, because it reports lack of memory. There a
row, with ample memory, is what refuses it.

All edits are tried in one copy of the repository, which the kit builds and runs unproved (`rt try`). There each
edited function has the bodies of its edits beside its own, and a number on standard input chooses the edit. So the
edits change only bodies.

What `make try` runs is one more run of the code as it is.

Each row has a line. The last line is `N passed, M failed`.
"""
import hashlib
import os
import re
import shutil
import struct
import sys
import tempfile
from dataclasses import dataclass
from pathlib import Path

sys.dont_write_bytecode = True
from check_make import FOUND as TRIED, TRIED_FILES, TRIED_WORDS
from commands import Commands
from crates import PARTS
from edits import Crate, read_edit
from overlapping_runs import hello_index
from verdict import say

TOP = Path(__file__).resolve().parent.parent
RT = os.environ.get("RT", "rt")

# Archives, by their names. `^` is the line at which a message starts, and `|` a line feed.
SEPARATOR = "From a@x.org Thu Jan  2 10:00:00 2003|"
HELLO = "^Subject: Hello||hi||"
NESTED = "Content-Type: multipart/mixed; boundary=o||--o|"
MAIL = {
    "hello": HELLO,
    "none": "hello|",
    # A raw answer of one message fills seven bytes.
    "m": HELLO,
    "changed": "^Subject: World||hi||",
    "unclosed": "^Subject: Hello||hi|",
    "two": "^Subject: one||a||From here on we go||From - Sat Jan  4 12:00:00 2003|Subject: two||b||",
    "three": "^Subject: b||x||^Subject: x||x||^Subject: a b||x||",
    "folded": "^Subject: =?iso-8859-1?Q?Gr=FC=DFe?=||x||",
    "coded": "^Content-Type: text/plain; charset=utf-8|Content-Transfer-Encoding: base64||ZsO|8cg==||",
    "nested": f"^{NESTED}{NESTED}|in||--o--|--o||out||",
    "alice": "^To: alice@x.org|Cc: bob@x.org||x||",
    "first": "^Message-ID: <1@x>|References: <0@x>||hi||",
    "second": "^Message-ID: <2@x>|References: <0@x>||ho||",
    "chain": "^In-Reply-To: <2@x>||hi||^References: <1@x>||ho||^References: <1@x> <2@x>||hu||",
}


def text_of(signs):
    return signs.replace("^", SEPARATOR).replace("|", "\n").encode()


def signed(index):
    """An index file with its right digest in place of its last 32 bytes."""
    return index[:-32] + hashlib.sha256(index[:-32]).digest()


def entry(kind, length, text_place, place):
    return struct.pack(">IIQQ", kind << 24, length, text_place, place)


def index_of_subjects(letters):
    """The index file of HELLO with these letters for its keys, each a subject."""
    index, count = hello_index("hello"), len(letters)
    counts = struct.pack(">IIIIQQQ", 2, 1, 1, count, 49, count, count)
    keys = b"".join(entry(5, 1, at, at) for at in range(count))
    return signed(index[:8] + counts + index[48:137] + keys + letters + b"\1" * count + bytes(32))


WHOLE = hello_index("hello")
RISING = entry(5, 5, 0, 0) + entry(6, 2, 5, 1) + b"hellohi"
FALLING = entry(6, 2, 0, 0) + entry(5, 5, 2, 1) + b"hihello"
INDEXES = {
    "whole": WHOLE,
    # Of HELLO, in place of which the archive has as many other bytes.
    "stale": hello_index("changed"),
    "falling": signed(WHOLE.replace(RISING, FALLING)),
    # Its first posting is 0 above the number before the first.
    "zero": signed(WHOLE[:-34] + b"\0\1" + bytes(32)),
}


@dataclass(frozen=True)
class Row:
    """The archives of a run, its words, its right status, and what it prints then; the index that it searches, if there
    is one; how many bytes standard output takes, if not all; and whether a key is looked up in place of a run: then the
    steps that this takes are the status."""

    archives: str
    words: str
    status: int
    prints: str
    index: str = ""
    room: int = 0
    is_look_up: bool = False

    def rcfile(self):
        """The name of its rcfile, and what that has."""
        paths = self.archives.replace(" ", ":")
        text = f"mbox={paths}|database={self.index or 'index'}|mfolder=hits|"
        return f"rc-{self.archives.replace(' ', '-')}-{self.index}", text

    def arguments(self):
        return ["-f", self.rcfile()[0], *([] if self.index else ["--once"]), *self.words.split()]


# What a run does. One that stops has come to what the code never comes to, as an `unreachable!`.
RIGHT, OTHERWISE, STOPS, NOTHING = "answers rightly", "answers otherwise", "stops", "answers nothing"

FOUND = "0 58 hello|"
BOTH = "0 75 two|75 49 two|"
COUSINS = "0 79 first|0 79 second|"
ROWS = {
    "mbox_cutter/separator_without_date": Row("two", "-r s:one/two", 0, BOTH),
    "mbox_cutter/last_message_lost": Row("unclosed", "-r s:hello", 0, "0 57 unclosed|"),
    "index_run/an_archive_at_fault_is_lack_of_memory": Row("none", "-r s:hello", 4, ""),
    "index_job/ascii_words_not_folded": Row("hello", "-r s:hello", 0, FOUND),
    "index_job/words_not_folded": Row("folded", "-r s:GRÜSSE", 0, "0 78 folded|"),
    "index_job/a_subject_waits_as_a_line": Row("hello", "-r s:hello", 0, FOUND),
    "index_job/a_line_that_should_wait_is_lost": Row("hello", "-r b:hi", 0, FOUND),
    "index_job/lines_are_lost_at_the_end": Row("hello", "-r b:hi", 0, FOUND),
    "mime_text/base64_is_read_line_by_line": Row("coded", "-r b:für", 0, "0 124 coded|"),
    "mime_text/the_innermost_boundary_comes_first": Row("nested", "-r b:out", 1, ""),
    "mail_query/every_pattern_refused": Row("hello", "-r bs:hello/hi", 0, FOUND),
    "mail_query/kinds_of_a_group_intersected": Row("alice", "-r tc:bob", 0, "0 72 alice|"),
    "mail_answer/lists_of_a_group_intersected": Row("alice", "-r tc:~bob", 1, ""),
    "mail_answer/complement_ends_with_its_list": Row("two", "-r s:~absent", 0, BOTH),
    "mail_answer/a_message_stands_twice": Row("hello", "-r bs:hello/hi", 0, FOUND),
    "mail_answer/direct_links_alone": Row("chain", "-r -t b:hi", 0, "0 62 chain|62 61 chain|123 67 chain|"),
    "mail_answer/threads_by_held_ids_alone": Row("first second", "-r -t b:hi", 0, COUSINS),
    "mail_answer/writes_nothing": Row("hello", "-r s:hello", 0, FOUND),
    "mail_answer/output_fault_invented": Row("m", "-r s:hello", 0, "0 58 m|"),
    "mail_answer/goes_on_after_a_failed_write": Row("two", "--stdout s:one/two", 4, "From a@x.org ", room=13),
    "mail_answer/an_mbox_answer_is_an_excerpt": Row("hello", "--stdout s:hello", 0, HELLO),
    "mail_answer/span_is_never_closed": Row("unclosed", "--stdout s:hello", 0, HELLO),
    "mail_answer/lengths_alone_are_compared": Row("changed", "-r --verify b:hi", 3, "", index="stale"),
    "mairix_tool/every_answer_is_empty": Row("hello", "-r s:hello", 0, FOUND),
    "mairix_tool/every_index_is_stale": Row("hello", "-r s:hello", 0, FOUND, index="whole"),
    "mairix_tool/archives_are_not_verified": Row("changed", "-r --verify b:hi", 3, "", index="stale"),
    "mairix_tool/threads_are_left_out": Row("chain", "-r -t b:hi", 0, "0 62 chain|62 61 chain|123 67 chain|"),
    "mail_index/each_file_has_a_bad_digest": Row("hello", "-r s:hello", 0, FOUND, index="whole"),
    "mail_index/a_directory_out_of_order_is_accepted": Row("hello", "-r s:hello", 3, "", index="falling"),
    "mail_index/zero_difference_accepted": Row("hello", "-r b:hi", 3, "", index="zero"),
    "mail_index/at_least_is_any": Row("three", "-r s:a,~b", 1, ""),
    # Of seven keys the fourth, the sixth and the last are looked at.
    "mail_index/look_up_from_the_front": Row("hello", "", 3, "", is_look_up=True),
}

# Reads standard input: which edit is chosen, the room of standard output, and whether a key is looked up.
ASKED = """#include <signal.h>
#include <stdio.h>
#include <sys/resource.h>

static unsigned edit, room, looks_up, is_read;

static void read_once(void)
{
    if (is_read)
        return;
    is_read = 1;
    if (scanf("%u %u %u", &edit, &room, &looks_up) == 3 && room > 0) {
        struct rlimit most = {room, room};
        signal(SIGXFSZ, SIG_IGN);
        setrlimit(RLIMIT_FSIZE, &most);
    }
}

unsigned chosen_edit(void)
{
    read_once();
    return edit;
}

unsigned asked_look_up(void)
{
    read_once();
    return looks_up;
}
"""
ASKS = """
unsafe extern "C" {
    safe fn chosen_edit() -> u32;
    safe fn asked_look_up() -> u32;
}

pub fn is_chosen(edit: u32) -> bool {
    chosen_edit() == edit
}

pub fn looks_up() -> bool {
    asked_look_up() > 0
}
"""
LOOK_UP = """
fn steps_of_look_up(alloc: std::alloc::Global) -> u8 {
    let Ok(index) = mail_index::IndexView::open(b"%s") else {
        return 0;
    };
    let mut steps = mail_index::Steps::new(alloc, &index);
    let _numbers = index.look_up(mail_index::Kind::Text(mail_words::TextKind::Subject), b"g", &mut steps);
    steps.count() as u8
}
""" % "".join(
    f"\\x{byte:02x}" for byte in index_of_subjects(b"abcdefg")
)
MAIN = "fn main(rt: HostRuntime) -> ExitCode {\n"
MAKE_TRY = "make-try"
LOOKS_UP = f"{LOOK_UP}\n{MAIN}    if contract_words::looks_up() {{ return ExitCode::from(steps_of_look_up(rt.alloc())); }}\n"


def with_choices(crate, edits):
    """The texts of a crate's files in which each edited function has the bodies of these edits beside its own, each
    under the edit's number."""
    bodies = {}
    for number, edit in edits.items():
        for function in edit.functions:
            path, start, end = crate.every_body[function]
            inside = [it for it in edit.changes if it.path == path and start < it.start and it.end < end]
            bodies.setdefault((path, start, end), []).append((number, inside))
    texts = {path: crate.text(path) for path, _, _ in bodies}
    # From the last on, so that those before it stay where they are.
    for path, start, end in sorted(bodies, reverse=True):
        text, choices = crate.text(path), ""
        for number, changes in bodies[path, start, end]:
            choices += f"if contract_words::is_chosen({number}) {edited(text, start, end, changes)} else "
        texts[path] = f"{texts[path][:start]}{{ {choices}{text[start:end]} }}{texts[path][end:]}"
    return texts


def edited(text, start, end, changes):
    """The body between these places, with the changes in it."""
    behind = len(text) - end
    for change in sorted(changes, key=lambda it: it.start, reverse=True):
        text = text[: change.start] + change.new + text[change.end :]
    return text[start : len(text) - behind]


def change_file(file, change):
    file.write_text(change(file.read_text("utf-8")), "utf-8")


def copy_with(edits, copy):
    """Copies what a build reads, with these edits, of which standard input chooses one."""
    shutil.copy(TOP / "HANDLES", copy)
    shutil.copy(TOP / "crates.txt", copy)
    for folder in (TOP / "crates").glob("*/src"):
        for part in PARTS:
            if (folder.parent / part).is_dir():
                shutil.copytree(folder.parent / part, copy / "crates" / folder.parent.name / part)
    asked = copy / "crates/contract_words/c/asked.c"
    asked.parent.mkdir()
    asked.write_text(ASKED)
    change_file(copy / "crates/contract_words/src/lib.rt", lambda text: text + ASKS)
    change_file(copy / "crates/mairix/src/main.rt", lambda text: text.replace(MAIN, LOOKS_UP))
    libraries = "contract_words mail_index mail_words"
    change_file(copy / "crates.txt", lambda text: text.replace("\nmairix:", f"\nmairix: {libraries}"))
    for name in {it.name.partition("/")[0] for it in edits.values()}:
        own = {number: it for number, it in edits.items() if it.name.startswith(f"{name}/")}
        for path, text in with_choices(crate_of(name), own).items():
            (copy / "crates" / name / path).write_text(text, "utf-8")


def write_tried(cases):
    """Writes what `make try` runs as a case."""
    (cases / MAKE_TRY).write_text("0 0 0\n")
    (cases / f"{MAKE_TRY}.args").write_text("".join(f"{it}\n" for it in TRIED_WORDS))
    (cases / f"{MAKE_TRY}.stdout").write_text(TRIED)


def answers(copy, rows, room):
    """What the runs of these rows do, each with the number of its edit, by their names; and the build's last lines."""
    data = {name: text_of(signs) for name, signs in MAIL.items()} | INDEXES
    cases = room / "cases"
    cases.mkdir()
    for name, (row, number) in rows.items():
        (cases / name).write_text(f"{number} {row.room} {int(row.is_look_up)}\n")
        (cases / f"{name}.args").write_text("".join(f"{it}\n" for it in row.arguments()), "utf-8")
        (cases / f"{name}.stdout").write_bytes(text_of(row.prints))
        rcfile, text = row.rcfile()
        data[rcfile] = text_of(text)
    write_tried(cases)
    data |= {name: (TOP / "demo" / name).read_bytes() for name in TRIED_FILES}
    words = [RT, "try", "--cases", str(cases)]
    for name, content in data.items():
        (room / name).write_bytes(content)
        words += ["--data", f"{name}={room / name}"]
    os.environ["RT_ALLOW_C"] = "contract_words"
    lines = Commands.run(words, copy / "crates/mairix")[1]
    told = {}
    for found in (re.match(r"case=(\S+) run=(?:(fault)\b|ended status=(\d+)\b)(.*)", it) for it in lines):
        if found and found[2]:
            told[found[1]] = STOPS
        elif found:
            wanted = rows[found[1]][0].status if found[1] in rows else 0
            is_right = int(found[3]) == wanted and "output=expected" in found[4]
            told[found[1]] = RIGHT if is_right else OTHERWISE
    return told, lines[-3:]


def crate_of(name):
    return Crate(name, TOP / "crates" / name, 0, [])


def read(name):
    crate, _, edit = name.partition("/")
    folder = TOP / "crates" / crate
    files = [folder / part / f"{edit}.edit" for part in ("must-fail", "only-tests")]
    return read_edit(next(it for it in files if it.is_file()), crate_of(crate))


def wrong_with(edit):
    return edit.wrong or ("it changes a constant" if edit.is_of_constant else "")


def main(wanted):
    Commands.stop_with_this()
    rows = {name: row for name, row in ROWS.items() if not wanted or name in wanted}
    edits = {number: read(name) for number, name in enumerate(rows, 1)}
    wrong = [f"row {it.name}: NOT tried: {wrong_with(it)}" for it in edits.values() if wrong_with(it)]
    if wrong or not rows:
        print("\n".join(wrong or ["no such row"]))
        return say(0, max(1, len(wrong)))
    runs = {f"edit-{number}": (row, number) for number, row in enumerate(rows.values(), 1)}
    right = {row: f"right-{number}" for number, row in enumerate(dict.fromkeys(rows.values()))}
    runs |= {name: (row, 0) for row, name in right.items()}
    with tempfile.TemporaryDirectory(prefix="rows-") as folder:
        copy = Path(folder) / "copy"
        copy.mkdir()
        copy_with(edits, copy)
        told, last = answers(copy, runs, Path(folder))
    passed = 0
    for number, (name, row) in enumerate(rows.items(), 1):
        own, other = told.get(right[row], NOTHING), told.get(f"edit-{number}", NOTHING)
        is_shown = own == RIGHT and other in (OTHERWISE, STOPS)
        passed += is_shown
        print(f"row {name}: {other if is_shown else f'NOT shown: the code {own}, and with the edit it {other}'}")
    if not told:
        print("\n".join(last))
    is_tried = told.get(MAKE_TRY) == RIGHT
    print(f"what make try runs: {told.get(MAKE_TRY, NOTHING)}")
    passed, count = passed + is_tried, len(rows) + 1
    return say(passed, count - passed)


if __name__ == "__main__":
    sys.exit(main(sys.argv[1:]))
