"""What the scripts of scripts/ are run on, and what they have to print and to leave, worked out by hand.

Each case is run by a shell in a home of its own, which has the files, and which output shows as /home/you. It says the status, standard output,
standard error, and the files that change (None: no such file any more). An Ellipsis is anything that isn't empty. `needs` are programs.
"""
from typing import Any, NamedTuple

from overlapping_runs import HELLO, SEPARATOR

LINK = tuple


class PRIVATE(bytes):
    """A file that only its owner may read."""


class Case(NamedTuple):
    name: str
    command: str
    files: dict = {}
    status: int = 0
    out: Any = b""
    err: Any = b""
    changes: dict = {}
    stdin: bytes = b""
    needs: tuple = ()


def usage(text):
    return b"usage: " + text.encode() + b"\n"


BYE = SEPARATOR + b"Subject: Goodbye\nFrom: Bob <bob@x.org>\nMessage-ID: <bye@x>\n\nbye\n\n"
REPLY = SEPARATOR + b"Subject: Re: Goodbye\nMessage-ID: <re@x>\nIn-Reply-To: <bye@x>\n\nso long\n\n"
RC = b"mbox=m.mbox:n.mbox\ndatabase=index\nmfolder=found\n"
TWO = {".mairixrc": RC, "m.mbox": HELLO, "n.mbox": BYE}
INDEXED = "mairix -f .mairixrc && "
# What a case changes that makes an index.
INDEX = {"index": ...}
NAMES = "cannot have this name: make a link with a plain name: "

SETUP = [
    Case("mairix-setup: no archive", "mairix-setup", {}, 2, err=usage("mairix-setup ARCHIVE..")),
    Case("mairix-setup: two archives", "umask 0; mairix-setup inbox 'my lists'", {},
         changes={".mairixrc": PRIVATE(b"base=/home/you/Mail\nmbox=inbox:my lists\ndatabase=/home/you/Mail/.mairix.index\nmfolder=found\n")}),
    Case("mairix-setup: the rcfile works", "mairix-setup inbox 'my lists' && mairix -f ~/.mairixrc && mairix -f ~/.mairixrc -r bye",
         {"Mail/inbox": HELLO, "Mail/my lists": BYE}, out=b"0 103 /home/you/Mail/my lists\n",
         changes={".mairixrc": ..., "Mail/.mairix.index": ...}),
    Case("mairix-setup: an answer would replace a file", "mairix-setup inbox", {"Mail/found": HELLO},
         err=b"mairix-setup: /home/you/Mail/found is there already, and answers will replace it: if you need it, rename it\n", changes={".mairixrc": ...}),
    Case("mairix-setup: an rcfile is there", "mairix-setup inbox", {".mairixrc": b"mine"}, 1, err=...),
    Case("mairix-setup: a link is there that leads nowhere", "mairix-setup inbox", {".mairixrc": LINK(["other"])}, 1, err=...),
    *[Case(f"mairix-setup: a name that an rcfile can't have: {name}", f"mairix-setup inbox '{name}'", {}, 2,
           err=f"mairix-setup: an rcfile {NAMES}{name}\n".encode()) for name in ("a:b", "a*", "a?", "[Gmail]", "$x", "~x", "x...", " x", "x ", "a\nb", "")],
]

ARCHIVES = [
    Case("mairix-archives: wrong use", "mairix-archives x", TWO, 2, err=usage("mairix-archives [NUMBER..]")),
    Case("mairix-archives: all", "mairix-archives", TWO, out=b"m.mbox\nn.mbox\n"),
    Case("mairix-archives: some", "mairix-archives 2 1", TWO, out=b"n.mbox\nm.mbox\n"),
    Case("mairix-archives: one that isn't there", "mairix-archives 2 3", TWO, 1, b"n.mbox\n"),
    Case("mairix-archives: another rcfile", "MAIRIXRC='my rc' mairix-archives 1", {"my rc": b"mbox = a b :/c\nbase=/x\n"}, out=b"/x/a b \n"),
    Case("mairix-archives: blanks, comments, empty names, CR, the last base",
         "mairix-archives", {".mairixrc": b"# mbox=no\n\t mbox =\ta::b: c \r\n\nbase=/x\r\nbase = /y\nmbox=/z\nmbox\n=q\nmh=no\nmbox=last"},
         out=b"/y/a\n/y/b\n/y/ c\n/z\n/y/last\n"),
    Case("mairix-archives: no archive", "mairix-archives", {".mairixrc": b"base=/x\n"}, 1),
    Case("mairix-archives: no rcfile", "mairix-archives", {}, 4, err=b"mairix-archives: cannot open /home/you/.mairixrc\n"),
    Case("mairix-archives: a folder", "mairix-archives", {".mairixrc": None}, 4, err=b"mairix-archives: cannot open /home/you/.mairixrc\n"),
]

FRESH_USAGE = usage("mairix-fresh [OPTION..] PATTERN..")
FRESH = [
    *[Case(f"mairix-fresh: no pattern: {words}", f"mairix-fresh {words}", TWO, 2, err=FRESH_USAGE)
      for words in ("", "-r", "-o found", "-tro hits", "-rohits -t", "--boolean", "--", "''")],
    Case("mairix-fresh: no index yet", "mairix-fresh -r s:hello", TWO, 4, err=b"mairix: cannot open index\n"),
    Case("mairix-fresh: nothing has changed", INDEXED + "mairix-fresh -r s:hello", TWO, out=b"0 58 m.mbox\n", changes=INDEX),
    Case("mairix-fresh: mail has arrived", INDEXED + "cat m.mbox >>n.mbox && mairix-fresh -r s:hello", TWO, out=b"0 58 m.mbox\n103 58 n.mbox\n",
         err=b"mairix-fresh: n.mbox has changed, so all is indexed again\n", changes={**INDEX, "n.mbox": BYE + HELLO}),
    Case("mairix-fresh: nothing matches", INDEXED + "mairix-fresh -r s:none", TWO, 1, changes=INDEX),
    Case("mairix-fresh: an archive less", INDEXED + "echo mbox=m.mbox >rc; grep -v mbox= .mairixrc >>rc; MAIRIXRC=rc mairix-fresh -r s:hello", TWO,
         out=b"0 58 m.mbox\n", err=b"mairix-fresh: the rcfile names other archives now, so all is indexed again\n", changes={**INDEX, "rc": ...}),
    Case("mairix-fresh: it can't be indexed", INDEXED + "cat m.mbox >>n.mbox; echo x >m.mbox; mairix-fresh -r s:hello", TWO, 4,
         err=b"mairix-fresh: m.mbox has changed, so all is indexed again\nmairix: archive 1: not an mbox\n",
         changes={**INDEX, "m.mbox": b"x\n", "n.mbox": BYE + HELLO}),
    Case("mairix-fresh: another file for an index", "mairix-fresh -r s:hello", {**TWO, "index": BYE}, 3, err=b"mairix: index: bad magic\n"),
    Case("mairix-fresh: a damaged index", INDEXED + "printf x >>index; cat m.mbox >>n.mbox; mairix-fresh -r s:hello", TWO, 3,
         err=b"mairix: index: bad digest\n", changes={**INDEX, "n.mbox": BYE + HELLO}),
    Case("mairix-fresh: an answer in a file", INDEXED + "mairix-fresh -ohits s:hello", TWO, changes={**INDEX, "hits": PRIVATE(HELLO)}),
    Case("mairix-fresh: a pattern after --", INDEXED + "mairix-fresh -r -- -1=", TWO, 1, changes=INDEX),
    Case("mairix-fresh: a wrong pattern", INDEXED + "mairix-fresh -r q:x", TWO, 2, err=b"mairix: query item 1: bad prefix\n", changes=INDEX),
    Case("mairix-fresh: no rcfile", "mairix-fresh -r s:hello", {}, 4, err=b"mairix: cannot open /home/you/.mairixrc\n"),
]

BOTH_FILES = {".mairixrc-old": b"mbox=n.mbox\ndatabase=old\nmfolder=f\n", ".mairixrc-inbox": b"mbox=m.mbox\ndatabase=new\nmfolder=g\n",
              "m.mbox": HELLO, "n.mbox": BYE}
BOTH_INDEXED = "mairix -f .mairixrc-old && mairix -f .mairixrc-inbox && "
BOTH = [
    Case("mairix-both: no pattern", "mairix-both", {}, 2, err=usage("mairix-both [OPTION..] PATTERN..")),
    Case("mairix-both: options only", "mairix-both -r", BOTH_FILES, 2, err=FRESH_USAGE),
    Case("mairix-both: one of both", BOTH_INDEXED + "mairix-both -r s:hello", BOTH_FILES, out=b"0 58 m.mbox\n", changes={"old": ..., "new": ...}),
    Case("mairix-both: the other", BOTH_INDEXED + "mairix-both -r s:goodbye", BOTH_FILES, out=b"0 103 n.mbox\n", changes={"old": ..., "new": ...}),
    Case("mairix-both: both", BOTH_INDEXED + "mairix-both -r --boolean '*'", BOTH_FILES, out=b"0 103 n.mbox\n0 58 m.mbox\n",
         changes={"old": ..., "new": ...}),
    Case("mairix-both: none", BOTH_INDEXED + "mairix-both -r s:none", BOTH_FILES, 1, changes={"old": ..., "new": ...}),
    Case("mairix-both: the first fails", "mairix -f .mairixrc-inbox; mairix-both -r s:hello", BOTH_FILES, 4, err=b"mairix: cannot open old\n",
         changes={"new": ...}),
]

GREP_USAGE = usage("mairix-grep [-r|-x] [-t] [--boolean] FILE.. PATTERN")
MAIL = {"m.mbox": HELLO, "my mail": BYE, "-n": REPLY}
GREP = [
    *[Case(f"mairix-grep: wrong use: {words}", f"mairix-grep {words}", MAIL, 2, err=GREP_USAGE)
      for words in ("", "m.mbox", "-r m.mbox", "-o x m.mbox a", "-f rc m.mbox a", "--once m.mbox a")],
    Case("mairix-grep: a message", "mairix-grep m.mbox 'my mail' s:hello", MAIL, out=HELLO),
    Case("mairix-grep: places", "mairix-grep -r m.mbox 'my mail' ./-n s:goodbye", MAIL, out=b"0 103 my mail\n0 109 ./-n\n"),
    Case("mairix-grep: a name like an option", "mairix-grep -r -- -n so", MAIL, out=b"0 109 ./-n\n"),
    Case("mairix-grep: excerpts", "mairix-grep -x 'my mail' bye", MAIL, out=b"my mail\nTo:\nCc:\nFrom: Bob <bob@x.org>\nSubject: Goodbye\nDate:\n"),
    Case("mairix-grep: a thread", "mairix-grep -r -t 'my mail' ./-n b:long", MAIL, out=b"0 103 my mail\n0 109 ./-n\n"),
    Case("mairix-grep: a boolean query", "mairix-grep -r --boolean m.mbox 'my mail' 'subject:hello or body:bye'", MAIL, out=b"0 58 m.mbox\n0 103 my mail\n"),
    Case("mairix-grep: nothing matches", "mairix-grep m.mbox s:none", MAIL, 1),
    Case("mairix-grep: a pattern with a dash", "mairix-grep m.mbox -1=", MAIL, 1),
    Case("mairix-grep: a whole path", "mairix-grep -r ~/m.mbox hi", MAIL, out=b"0 58 /home/you/m.mbox\n"),
    Case("mairix-grep: no such file", "mairix-grep none s:x", MAIL, 4, err=b"mairix: cannot open none\n"),
    Case("mairix-grep: an empty file", "mairix-grep empty s:x", {"empty": b""}, 1),
    Case("mairix-grep: no mbox", "mairix-grep x s:x", {"x": b"Subject: x\n\nx\n"}, 4, err=b"mairix: archive 1: not an mbox\n"),
    *[Case(f"mairix-grep: a name that an rcfile can't have: {name}", f"mairix-grep m.mbox '{name}' s:x", {**MAIL, name: HELLO}, 2,
           err=f"mairix-grep: an rcfile {NAMES}{name}\n".encode()) for name in ("a:b", "a*b", "[Gmail]", "a...", "$HOME", "x ", "a\nb")],
    *[Case(f"mairix-grep: a name that begins oddly: {name}", f"mairix-grep -r '{name}' hi", {name: HELLO}, out=f"0 58 ./{name}\n".encode())
      for name in ("~x", " x")],
    Case("mairix-grep: CRLF", "mairix-grep m s:hello", {"m": HELLO.replace(b"\n", b"\r\n")}, out=HELLO.replace(b"\n", b"\r\n")),
]

FOUND = [
    Case("mairix-found: no pattern", "mairix-found", TWO, 2, err=usage("mairix-found [OPTION..] PATTERN..")),
    Case("mairix-found: options only", "mairix-found -t", TWO, 2, err=FRESH_USAGE),
    Case("mairix-found: a message", INDEXED + "mairix-found s:goodbye", {**TWO, "Mail/inbox": b""}, out=b"1 found\n",
         changes={**INDEX, "Mail/found": PRIVATE(BYE)}),
    Case("mairix-found: nothing", INDEXED + "mairix-found s:none", {**TWO, "Mail/found": BYE}, 1, err=b"nothing found\n",
         changes={**INDEX, "Mail/found": None}),
    Case("mairix-found: a search that fails", "mairix-found s:hello", {**TWO, "Mail/found": BYE}, 4, err=b"mairix: cannot open index\n"),
    Case("mairix-less: no pattern", "mairix-less", TWO, 2, err=usage("mairix-less [OPTION..] PATTERN..")),
    Case("mairix-less: a message", INDEXED + "mairix-less s:goodbye", {**TWO, "Mail/inbox": b""}, out=b"1 found\n" + BYE,
         changes={**INDEX, "Mail/found": BYE}),
    Case("mairix-less: another pager", INDEXED + "PAGER='head -n 1' mairix-less s:goodbye", {**TWO, "Mail/inbox": b""}, out=b"1 found\n" + SEPARATOR,
         changes={**INDEX, "Mail/found": BYE}),
    Case("mairix-less: nothing", INDEXED + "mairix-less s:none", {**TWO, "Mail/inbox": b""}, 1, err=b"nothing found\n", changes=INDEX),
]

THREAD_FILES = {**TWO, "n.mbox": BYE + REPLY, "Mail/inbox": b""}
THREAD = [
    Case("mairix-thread: wrong use", "mairix-thread x", TWO, 2, err=usage("mairix-thread <MESSAGE")),
    Case("mairix-thread: no message", "mairix-thread </dev/null", TWO, 2, err=b"mairix-thread: the message has no Message-ID\n"),
    Case("mairix-thread: an id in the body only", "printf 'Subject: x\\n\\nMessage-ID: <bye@x>\\n' | mairix-thread", TWO, 2,
         err=b"mairix-thread: the message has no Message-ID\n"),
    *[Case(f"mairix-thread: {name}", INDEXED + f"printf '{header}' | mairix-thread", THREAD_FILES, out=b"2 found\n",
           changes={**INDEX, "Mail/found": BYE + REPLY})
      for name, header in (("a message", "Message-ID: <re@x>\\n\\nx\\n"), ("CRLF", "Message-Id: <re@x>\\r\\n\\r\\nx\\r\\n"),
                           ("a folded field", "MESSAGE-ID:\\n <re@x>\\nReferences: <no@x>\\n\\nx\\n"))],
    Case("mairix-thread: a long message", INDEXED + "(cat n.mbox; head -c 300000 /dev/zero | tr '\\000' x) | mairix-thread", THREAD_FILES,
         out=b"2 found\n", changes={**INDEX, "Mail/found": BYE + REPLY}),
    Case("mairix-thread: one that isn't there", INDEXED + "echo 'Message-ID: <no@x>' | mairix-thread", THREAD_FILES, 1, err=b"nothing found\n",
         changes=INDEX),
]

CUT = [
    Case("mairix-cut: wrong use", "mairix-cut x", TWO, 2, err=usage("mairix-cut <PLACES")),
    Case("mairix-cut: nothing", "mairix-cut", TWO),
    Case("mairix-cut: two messages", "mairix-cut", {"m": BYE + HELLO, " a  b ": HELLO}, stdin=b"103 58 m\n0 58  a  b \n", out=HELLO + HELLO),
    Case("mairix-cut: no newline at the end", "mairix-cut", {"m": BYE + HELLO}, stdin=b"103 58 m\n", out=HELLO),
    Case("mairix-cut: all bytes", "mairix-cut", {"m": bytes(range(256))}, stdin=b"0 256 m\n", out=bytes(range(256))),
    *[Case(f"mairix-cut: a line of another form: {line}", "mairix-cut", {"m": HELLO}, 2, stdin=f"0 5 m\n{line}\n0 5 m\n".encode(), out=HELLO[:5],
           err=f"mairix-cut: this is no line of mairix -r: {line}\n".encode()) for line in ("x", "", "1 m", "a 5 m", "0 -5 m")],
    Case("mairix-cut: no such file", "mairix-cut", {"m": HELLO}, 4, stdin=b"0 5 m\n0 5 n\n", out=HELLO[:5], err=b"mairix-cut: cannot open n\n"),
    Case("mairix-cut: an archive that has changed", "mairix-cut", {"m": HELLO}, 4, stdin=b"0 59 m\n", err=b"mairix-cut: the archive has changed: m\n"),
]

PICK = [
    Case("mairix-pick: no pattern", "mairix-pick", TWO, 2, err=usage("mairix-pick [OPTION..] PATTERN..")),
    Case("mairix-pick: options only", "mairix-pick -t", TWO, 2, err=FRESH_USAGE),
    Case("mairix-pick: the first of two", INDEXED + "mairix-pick --boolean '*'", TWO, out=HELLO, changes=INDEX),
    Case("mairix-pick: an archive with spaces", "sed s/n.mbox/my\\ mail/ .mairixrc >rc; export MAIRIXRC=rc; mairix -f rc && mairix-pick bye",
         {**TWO, "my mail": BYE}, out=BYE, changes={**INDEX, "rc": ...}),
    Case("mairix-pick: nothing", INDEXED + "mairix-pick s:none", TWO, 1, err=b"nothing found\n", changes=INDEX),
    Case("mairix-pick: a search that fails", "mairix-pick s:hello", TWO, 4, err=b"mairix: cannot open index\n"),
]

EMACS = [
    Case("mairix-emacs: wrong use", "mairix-emacs --help", TWO, 2, err=usage("mairix-emacs [OPTION..] [PATTERN..]")),
    Case("mairix-emacs: a search", INDEXED + "mairix-emacs -o ./hits s:hello", TWO, out=b"Matched 1 messages\n", changes={**INDEX, "hits": PRIVATE(HELLO)}),
    Case("mairix-emacs: nothing", INDEXED + "mairix-emacs -o ./hits s:none", TWO, 1, b"Matched 0 messages\n", changes={**INDEX, "hits": b""}),
    Case("mairix-emacs: a thread", INDEXED + "mairix-emacs -t -o ./hits b:long", {**TWO, "m.mbox": BYE, "n.mbox": REPLY}, out=b"Matched 2 messages\n",
         changes={**INDEX, "hits": BYE + REPLY}),
    Case("mairix-emacs: an index run", "mairix-emacs -F -Q && mairix-emacs -o ./hits s:hello", TWO, out=b"Matched 1 messages\n",
         changes={**INDEX, "hits": HELLO}),
    Case("mairix-emacs: an error", "mairix-emacs -o ./hits s:hello", TWO, 4, err=b"mairix: cannot open index\n"),
    Case("mairix-emacs: options only", "mairix-emacs -t", TWO, 2, err=FRESH_USAGE),
    Case("mairix-emacs: mairix.el", INDEXED + """emacs --batch -Q -l mairix --eval '(progn (setq mairix-command "mairix-emacs" mairix-file-path "~/"
         mairix-synchronous-update t) (mairix-update-database) (princ (list (mairix-call-mairix "s:goodbye" nil nil)
         (mairix-call-mairix "s:none" "other" nil))))' 2>/dev/null""", TWO, out=b"(t nil)",
         changes={**INDEX, "mairixsearch.mbox": PRIVATE(BYE), "other": b""}, needs=("emacs",)),
]

CHECK_USAGE = usage("mairix-check [ARCHIVE..]")


def summary(name, messages, lines):
    return f"{name}: {messages} message{'' if messages == 1 else 's'} found, {lines} line{' begins' if lines == 1 else 's begin'} with From\n".encode()


def seen(line, reason, text=SEPARATOR[:-1].decode(), name="x"):
    return f"{name}:{line}: {reason}: {text}\n".encode()


FIELD = "a header follows, but "
TEXT = "seems to be text, since "
REFUSED = "mairix refuses the archive, since no message begins here: "


def checked(name, archive, status, out, **more):
    """A case of mairix-check over one archive x."""
    return Case(f"mairix-check: {name}", "mairix-check x", {"x": archive}, status, out, **more)


CHECK = [
    Case("mairix-check: wrong use", "mairix-check --help", TWO, 2, err=CHECK_USAGE),
    Case("mairix-check: archives of the rcfile", "mairix-check", TWO, 0, b"archive 1: " + summary("m.mbox", 1, 1) + b"archive 2: " + summary("n.mbox", 1, 1)),
    Case("mairix-check: no rcfile", "mairix-check", {}, 4, err=b"mairix-archives: cannot open /home/you/.mairixrc\n"),
    Case("mairix-check: no archive", "mairix-check", {".mairixrc": b"base=/x\n"}, 4, err=b"mairix-check: the rcfile names no archive\n"),
    Case("mairix-check: files and no files", "mairix-check none m.mbox folder", {**TWO, "folder": None}, 4,
         b"none: cannot open it\n" + summary("m.mbox", 1, 1) + b"folder: this is a folder, and no mbox\n"),
    *[Case(f"mairix-check: an odd name: {name}", f"mairix-check '{name}'", {name: HELLO}, 0, summary(name, 1, 1))
      for name in ("a b", "a:b", "[x]*", "$HOME", "a\\nb", "ä", " x ")],
    checked("an empty file", b"", 0, summary("x", 0, 0)),
    checked("empty lines only", b"\n\n", 0, summary("x", 0, 0)),
    checked("CRLF", (HELLO + BYE).replace(b"\n", b"\r\n"), 0, summary("x", 2, 2)),
    checked("no empty line", HELLO[:-1] + BYE, 1, seen(5, FIELD + "the line before isn't empty") + summary("x", 1, 2)),
    checked("no empty line, CRLF", (HELLO[:-1] + BYE).replace(b"\n", b"\r\n"), 1, seen(5, FIELD + "the line before isn't empty") + summary("x", 1, 2)),
    checked("a line of spaces", HELLO[:-1] + b" \t\n" + BYE, 1, seen(6, FIELD + "the line before has spaces") + summary("x", 1, 2)),
    checked("a separator in text", HELLO[:-1] + SEPARATOR + b"text\n\n", 1, seen(5, "the line before isn't empty") + summary("x", 1, 2)),
    checked("text", HELLO + b"From here on\ntext\n", 0, seen(6, TEXT + "it has no time", "From here on") + summary("x", 1, 2)),
    checked("text with a time", HELLO + b"From 10:00 on\ntext\n", 0, seen(6, TEXT + "it has no year after its time", "From 10:00 on") + summary("x", 1, 2)),
    checked("a year of two digits", HELLO + b"From a Thu Jan  2 10:00:00 03\nSubject: x\n\n", 1,
            seen(6, FIELD + "its year has two digits", "From a Thu Jan  2 10:00:00 03") + summary("x", 1, 2)),
    checked("an hour of one digit", HELLO + b"From a Thu Jan  2 9:00:00 2003\nSubject: x\n\n", 1,
            seen(6, FIELD + "its time isn't hh:mm or hh:mm:ss", "From a Thu Jan  2 9:00:00 2003") + summary("x", 1, 2)),
    checked("no date", HELLO + b"From a@x.org\nSubject: x\n\n", 1, seen(6, FIELD + "it has no time", "From a@x.org") + summary("x", 1, 2)),
    checked("a year before the time", HELLO + b"From a 2003 10:00:00\nSubject: x\n\n", 1,
            seen(6, FIELD + "it has no year after its time", "From a 2003 10:00:00") + summary("x", 1, 2)),
    checked("the last line", HELLO + b"From", 0, summary("x", 1, 1)),
    checked("a separator that ends the file", HELLO + SEPARATOR[:-1], 0, summary("x", 2, 2)),
    checked("a quoted line", HELLO + b">From here on\n", 0, summary("x", 1, 1)),
    checked("control characters", HELLO + b"From \x1b[31m\x07\x7f\xff\n\n", 0,
            b"x:6: " + TEXT.encode() + b"it has no time: From  [31m  \xff\n" + summary("x", 1, 2)),
    checked("bytes 0", HELLO[:-1] + b"a\0b\n\n\0\0\n\n" + HELLO, 0, summary("x", 2, 2)),
    checked("a long line", HELLO[:-1] + b"a" * 200000 + b"\n\n" + HELLO, 0, summary("x", 2, 2)),
    checked("a preamble", b"\nA list\n\n" + HELLO, 4, seen(2, REFUSED + "it doesn't begin with From", "A list") + summary("x", 0, 1)),
    checked("MMDF", b"\1\1\1\1\n" + HELLO + b"\1\1\1\1\n", 4,
            seen(1, REFUSED + "this is MMDF", "    ") + seen(2, FIELD + "the line before isn't empty") + summary("x", 0, 1)),
    checked("two-digit years from the first on", b"From a 10:00 03\nTo: x\n\n" * 2, 4, seen(1, REFUSED + "its year has two digits", "From a 10:00 03") +
            seen(1, FIELD + "its year has two digits", "From a 10:00 03") + seen(4, FIELD + "its year has two digits", "From a 10:00 03") + summary("x", 0, 2)),
    Case("mairix-check: many messages", "for i in 1 2 3 4 5 6 7 8 9 10 11; do cat x x >y; mv y x; done; mairix-check x", {"x": HELLO},
         out=summary("x", 2048, 2048), changes={"x": HELLO * 2048}),
]

MBOX_USAGE = usage("mairix-mbox [-o NEW] KIND WORD..") + b"""kinds: maildir FOLDER.., notmuch WORD.., messages FILE..,
       content-length FILE.., mend FILE.., pipermail FILE..
"""
DATE = b"Thu Jan  2 10:00:00 2003"
LETTER = b"From: Bob <b@x.org>\nSubject: x\n\nhi\n"
MAILDIR = {
    "M/cur/1041501602.M3P4Q5.host,S=40:2,": LETTER.replace(b"x\n", b"two\n", 1),
    "M/cur/1041501601.M1P2Q3.host,S=40:2,FRS": b"Return-Path: <r@x.org>\nStatus: O\nX-Status: D\n" + LETTER.replace(b"x\n", b"one\n", 1),
    "M/new/1041501603.M5P6Q7.host": LETTER.replace(b"x\n", b"three\n", 1),
    "M/cur/.hidden": LETTER,
    "M/.Sent/cur/1041501600.x:2,S": LETTER,
}
OF_MAILDIR = (b"From r@x.org Thu Jan  2 10:00:01 2003\nReturn-Path: <r@x.org>\nFrom: Bob <b@x.org>\nSubject: one\nStatus: RO\nX-Status: AF\n\nhi\n\n"
              b"From b@x.org Thu Jan  2 10:00:02 2003\nFrom: Bob <b@x.org>\nSubject: two\nStatus: O\n\nhi\n\n"
              b"From b@x.org Thu Jan  2 10:00:03 2003\nFrom: Bob <b@x.org>\nSubject: three\n\nhi\n\n")


def of_maildir(name, file, message, status=0, flags="", **more):
    """A case of one message in a Maildir, whose separator has no time."""
    return Case(f"mairix-mbox: maildir: {name}", "mairix-mbox maildir M", {f"M/cur/a:2,{flags}": file}, status, message, **more)


EPOCH = b"Thu Jan  1 00:00:00 1970\n"
FROM_BOB = b"From b@x.org " + EPOCH + b"From: Bob <b@x.org>\nSubject: x\n"
MBOX = [
    *[Case(f"mairix-mbox: wrong use: {words}", f"mairix-mbox {words}", {"m": HELLO}, 2, err=MBOX_USAGE)
      for words in ("", "mend", "-o n", "-o n mend", "what m", "-x mend m", "-o '' mend m")],
    Case("mairix-mbox: maildir", "mairix-mbox maildir M", MAILDIR, out=OF_MAILDIR),
    Case("mairix-mbox: maildir: two folders", "mairix-mbox maildir ./M/.Sent M | grep -c ^From", MAILDIR, out=b"8\n"),
    Case("mairix-mbox: maildir: is found", "umask 077; mairix-mbox maildir M >m && mairix-grep -r m F:srf && mairix-grep -r m F:-s && mairix-check m", MAILDIR,
         out=b"0 123 m\n123 86 m\n209 78 m\n" + summary("m", 3, 3), changes={"m": OF_MAILDIR}),
    Case("mairix-mbox: maildir: into a file", "umask 0; mairix-mbox -o 'my mail' maildir M", MAILDIR, changes={"my mail": PRIVATE(OF_MAILDIR)}),
    Case("mairix-mbox: a file that is there", "mairix-mbox -o m maildir M", {**MAILDIR, "m": b"mine"}, 4, err=b"mairix-mbox: m is there already\n"),
    Case("mairix-mbox: a link that leads nowhere", "mairix-mbox -o m maildir M", {**MAILDIR, "m": LINK(["n"])}, 4, err=b"mairix-mbox: m is there already\n"),
    Case("mairix-mbox: a file in no folder", "mairix-mbox -o no/m maildir M", MAILDIR, 4, err=b"mairix-mbox: cannot make no/m\n"),
    Case("mairix-mbox: a run that fails leaves no file", "mairix-mbox -o m mend no", {}, 4, err=b"mairix-mbox: cannot open ./no\n"),
    Case("mairix-mbox: a run that is ended leaves no file", """printf '#!/bin/sh\\nsleep 1\\n' >b/awk; chmod +x b/awk
         PATH=$PWD/b:$PATH mairix-mbox -o n mend m & sleep 1.5; ls; kill $!; wait $!; echo $?; rm b/awk""", {"m": HELLO, "b": None}, out=b"b\nm\nn\n130\n"),
    Case("mairix-mbox: a full disk", "mairix-mbox maildir M >/dev/full", MAILDIR, 4, err=...),
    Case("mairix-mbox: no Maildir", "mairix-mbox maildir M/cur", MAILDIR, 4, err=b"mairix-mbox: this is no Maildir, because it has no folder cur: M/cur\n"),
    Case("mairix-mbox: maildir: an empty one", "mairix-mbox maildir M", {"M/cur": None}),
    of_maildir("lines that look like separators", b"From: Bob <b@x.org>\nSubject: x\n\nFrom here\n>From there\n>>From x\nFrom\n  From\n",
               FROM_BOB + b"Status: O\n\n>From here\n>>From there\n>>>From x\nFrom\n  From\n\n"),
    of_maildir("no newline at the end", LETTER[:-1], FROM_BOB + b"Status: O\n\nhi\n\n"),
    of_maildir("a header only", LETTER[:-4], FROM_BOB + b"Status: O\n\n"),
    of_maildir("a header without its end", LETTER[:-5], FROM_BOB + b"Status: O\n\n"),
    of_maildir("an empty file", b"", b"", 1, err=b"mairix-mbox: left out: M/cur/a:2,: it is empty\n"),
    of_maildir("a separator in it", b"From x Thu Jan  2 10:00:00 2003\n" + LETTER, FROM_BOB + b"Status: O\n\nhi\n\n"),
    of_maildir("folded fields", b"Status: R\n O\nContent-Length: 3\nFrom:\n Bob <b@x.org>\nSubject: x\n\nhi\n",
               b"From MAILER-DAEMON " + EPOCH + b"From:\n Bob <b@x.org>\nSubject: x\nStatus: O\n\nhi\n\n"),
    of_maildir("CRLF", LETTER.replace(b"\n", b"\r\n"),
               b"From b@x.org " + EPOCH + b"From: Bob <b@x.org>\r\nSubject: x\r\nStatus: RO\r\nX-Status: AFDT\r\n\r\nhi\r\n\n", flags="DFRST"),
    of_maildir("letters that aren't flags of mail", LETTER, FROM_BOB + b"Status: O\n\nhi\n\n", flags="Pab"),
    of_maildir("a sender without brackets", b"From: c@x.org (Carol)\n\nhi\n", b"From c@x.org " + EPOCH + b"From: c@x.org (Carol)\nStatus: O\n\nhi\n\n"),
    of_maildir("other charsets", b"From: \xe4 <b@x.org>\nSubject: \xff\n\n\xfe\n",
               b"From b@x.org " + EPOCH + b"From: \xe4 <b@x.org>\nSubject: \xff\nStatus: O\n\n\xfe\n\n"),
    *[Case(f"mairix-mbox: maildir: the time {seconds}", "mairix-mbox maildir M | sed -n 1p", {f"M/new/{seconds}.x": b"\nx\n"},
           out=f"From MAILER-DAEMON {time}\n".encode())
      for seconds, time in (("951782400", "Tue Feb 29 00:00:00 2000"), ("951868799", "Tue Feb 29 23:59:59 2000"), ("951868800", "Wed Mar  1 00:00:00 2000"),
                            ("978307199", "Sun Dec 31 23:59:59 2000"), ("978307200", "Mon Jan  1 00:00:00 2001"), ("1709251199", "Thu Feb 29 23:59:59 2024"),
                            ("4102444800", "Fri Jan  1 00:00:00 2100"), ("x", "Thu Jan  1 00:00:00 1970"))],
    Case("mairix-mbox: messages", "mairix-mbox messages b 'a b' ./c=d", {"a b": LETTER, "b": b"Status: RO\n" + LETTER, "c=d": LETTER},
         out=b"From b@x.org " + EPOCH + b"Status: RO\n" + LETTER + b"\n" + (FROM_BOB + b"\nhi\n\n") * 2),
    Case("mairix-mbox: messages: one is empty, one isn't there", "mairix-mbox messages a b; mairix-mbox messages a c", {"a": b"", "b": LETTER}, 4,
         FROM_BOB + b"\nhi\n\n", b"mairix-mbox: left out: ./a: it is empty\nmairix-mbox: cannot open ./c\n"),
    Case("mairix-mbox: notmuch", """export NOTMUCH_CONFIG=$PWD/conf; printf '[database]\\npath=%s\\n[new]\\ntags=unread\\n[maildir]\\nsynchronize_flags=false\\n' "$PWD/M" >conf
         notmuch new >/dev/null 2>&1; rm -rf copy; notmuch tag -unread +replied +flagged 'subject:one' >/dev/null
         mairix-mbox notmuch subject:one or subject:two; rm -r M/.notmuch""",
         {"M/cur/1041501601.a": b"Date: Thu, 2 Jan 2003 10:00:00 +0000\n" + LETTER.replace(b"x\n", b"one\n", 1),
          "M/cur/1041501602.b": b"Date: Thu, 2 Jan 2003 10:00:01 +0000\n" + LETTER.replace(b"x\n", b"two\n", 1), "M/cur/1041501603.c": LETTER},
         out=b"From b@x.org Thu Jan  2 10:00:01 2003\nDate: Thu, 2 Jan 2003 10:00:00 +0000\nFrom: Bob <b@x.org>\nSubject: one\nStatus: RO\nX-Status: AF\n\nhi\n\n"
             b"From b@x.org Thu Jan  2 10:00:02 2003\nDate: Thu, 2 Jan 2003 10:00:01 +0000\nFrom: Bob <b@x.org>\nSubject: two\nStatus: O\n\nhi\n\n",
         changes={"conf": ...}, needs=("notmuch",)),
    Case("mairix-mbox: notmuch isn't installed", "PATH=$(dirname $(command -v mairix)) /bin/sh $(command -v mairix-mbox) notmuch x", {}, 4,
         err=...),
]

PATCH = b"From 0123456789abcdef Mon Sep 17 00:00:00 2001\nFrom: a@x.org\nSubject: [PATCH] x\n\ntext\n"


def sent(body, length, end=b"\n", field=b"Content-Length"):
    return SEPARATOR + b"Subject: x\n" + field + b": " + str(length).encode() + b"\nLines: 7\n\n" + body + end


def by_length(name, archive, out, err=b"", status=0):
    return Case(f"mairix-mbox: content-length: {name}", "mairix-mbox content-length x", {"x": archive}, status, out, err)


def unlike(others, messages):
    return f"mairix-mbox: x: {others} of {messages} messages have no right Content-Length, and stay as they are\n".encode()


TEXT_WITH_PATCH = b"Here it is:\n\n" + PATCH
QUOTED = TEXT_WITH_PATCH.replace(b"From 0", b">From 0")
LENGTH = len(TEXT_WITH_PATCH)
def inside(line, text):
    return seen(line, "this is text of another message, by its Content-Length", text)


FIRST_OF_PATCH = PATCH.split(b"\n")[0].decode()
CHECK_LENGTH = [
    checked("a message in the text of another", sent(TEXT_WITH_PATCH, len(TEXT_WITH_PATCH)) + BYE, 1, inside(8, FIRST_OF_PATCH) + summary("x", 3, 3)),
    checked("CRLF, and several empty lines", (sent(TEXT_WITH_PATCH, len(TEXT_WITH_PATCH) + 7, b"\n\n") + BYE).replace(b"\n", b"\r\n"), 1,
            inside(8, FIRST_OF_PATCH) + summary("x", 3, 3)),
    checked("one at the end, without an empty line", sent(b"\n" + PATCH, len(PATCH) + 1, b""), 1, inside(7, FIRST_OF_PATCH) + summary("x", 2, 2)),
    checked("a length that is too long", sent(b"x\n", 99) + BYE * 2, 0, summary("x", 3, 3)),
    checked("a length that leads into a line", sent(b"x\n", 20) + BYE, 0, summary("x", 2, 2)),
    checked("a length that leads to another line", sent(b"x\n", 3 + len(SEPARATOR)) + BYE, 0, summary("x", 2, 2)),
    checked("a length beyond the end", sent(b"x\n", 9999) + BYE, 0, summary("x", 2, 2)),
    checked("a right length after a wrong one", sent(b"x\n", 9) + sent(TEXT_WITH_PATCH, len(TEXT_WITH_PATCH)) + BYE, 1,
            inside(15, FIRST_OF_PATCH) + summary("x", 4, 4)),
]
BY_LENGTH = [
    by_length("text that looks like separators", sent(TEXT_WITH_PATCH, LENGTH) + BYE, sent(QUOTED, LENGTH + 1) + BYE, unlike(1, 2)),
    by_length("at the end", sent(TEXT_WITH_PATCH, LENGTH), sent(QUOTED, LENGTH + 1)),
    by_length("no empty line at the end", sent(TEXT_WITH_PATCH, LENGTH, b""), sent(QUOTED, LENGTH + 1)),
    by_length("no empty line between", sent(TEXT_WITH_PATCH, LENGTH, b"") + sent(b"x\n", 2), sent(QUOTED, LENGTH + 1) + sent(b"x\n", 2)),
    by_length("several empty lines", sent(b"x\n", 2, b"\n\n\n") + sent(b"y\n", 2), sent(b"x\n", 2, b"\n\n\n") + sent(b"y\n", 2)),
    by_length("an empty body", sent(b"", 0) + sent(b"y\n", 2), sent(b"", 0) + sent(b"y\n", 2)),
    by_length("the empty line counts", sent(b"x\n\n", 3, b"") + sent(b"y\n", 2), sent(b"x\n\n", 3) + sent(b"y\n", 2)),
    by_length("the field in another case", sent(PATCH, len(PATCH), field=b"CONTENT-LENGTH"), sent(b">" + PATCH, len(PATCH) + 1, field=b"CONTENT-LENGTH")),
    by_length("quoted lines too", sent(b">From x\nFrom y\n", 15), sent(b">>From x\n>From y\n", 17)),
    by_length("a length that is too short", sent(b"x\ny\n", 2) + sent(b"z\n", 2), sent(b"x\ny\n", 2) + sent(b"z\n", 2), unlike(1, 2)),
    by_length("a length that ends in a line", sent(b"xx\n", 2) + sent(b"z\n", 2), sent(b"xx\n", 2) + sent(b"z\n", 2), unlike(1, 2)),
    by_length("a length that is too long", sent(b"x\n", 99) + sent(b"z\n", 2), sent(b"x\n", 99) + sent(b"z\n", 2), unlike(1, 2)),
    by_length("a length beyond the end", sent(b"x\n", 9999), sent(b"x\n", 9999), unlike(1, 1)),
    by_length("a length that isn't a number", sent(b"x\n", "x"), sent(b"x\n", "x"), unlike(1, 1)),
    by_length("a header only", SEPARATOR + b"Content-Length: 3\n", SEPARATOR + b"Content-Length: 3\n\n", unlike(1, 1)),
    by_length("an empty file", b"", b""),
    by_length("CRLF", sent(TEXT_WITH_PATCH, LENGTH + 7).replace(b"\n", b"\r\n"), sent(QUOTED, LENGTH + 8).replace(b"\n", b"\r\n")),
    by_length("lines before the first message", b"x\n\n" + sent(b"x\n", 2), b"x\n\n" + sent(b"x\n", 2)),
    Case("mairix-mbox: content-length: two files", "mairix-mbox content-length x ./y=z", {"x": sent(b"x\n", 2, b""), "y=z": sent(b"y\n", 2)},
         out=sent(b"x\n", 2) + sent(b"y\n", 2)),
    Case("mairix-mbox: content-length: a folder", "mairix-mbox content-length x", {"x": None}, 4, err=b"mairix-mbox: cannot open ./x\n"),
]


def mended(name, archive, out, status=0, err=b"", kind="mend"):
    return Case(f"mairix-mbox: {kind}: {name}", f"mairix-mbox {kind} x", {"x": archive}, status, out, err)


ADDED = b" Thu Jan  1 00:00:00 1970\n"
MEND = [
    mended("nothing to mend", HELLO + BYE, HELLO + BYE),
    mended("no empty lines", HELLO[:-1] + BYE[:-1] + HELLO[:-1], HELLO + BYE + HELLO),
    mended("lines of spaces", HELLO[:-1] + b"  \n" + BYE, HELLO[:-1] + b"  \n\n" + BYE),
    mended("no newline at the end", HELLO[:-2], HELLO),
    mended("two-digit years", b"From a Thu Jan  2 10:00:00 03\nTo: x\n\nx\nFrom b Thu Jan  2 10:00 MET 97 \nTo: y\n\ny\n\n",
           b"From a Thu Jan  2 10:00:00 2003\nTo: x\n\nx\n\nFrom b Thu Jan  2 10:00 MET 1997\nTo: y\n\ny\n\n"),
    mended("other dates after an empty line", b"From a 2 Jan 03 9:00\nTo: x\n\nFrom b Jan 10:00\nx\n\n", b"From a 2 Jan 03 09:00" + ADDED + b"To: x\n\nFrom b Jan 10:00\nx\n\n"),
    mended("dates in text", HELLO[:-1] + b"From what I heard on Jan 5 at 10:30 they\nsaid: no\nFrom 10:00 until 2003 it\nsaid: no\n\n",
           HELLO[:-1] + b"From what I heard on Jan 5 at 10:30 they\nsaid: no\nFrom 10:00 until 2003 it\nsaid: no\n\n"),
    mended("the years 49 and 50", b"From a 1 Jan 10:00 49\nTo: x\n\nFrom b 1 Jan 10:00 50\nTo: y\n\n",
           b"From a 1 Jan 10:00 2049\nTo: x\n\nFrom b 1 Jan 10:00 1950\nTo: y\n\n"),
    mended("hours of one digit", b"From a Thu Jan  2 9:05:00 2003\nTo: x\n\n", b"From a Thu Jan  2 09:05:00 2003\nTo: x\n\n"),
    mended("no date", b"From a@x.org\nTo: x\n\nx\n\nFrom -1234567890\nTo: y\n\n", b"From a@x.org" + ADDED + b"To: x\n\nx\n\nFrom -1234567890" + ADDED + b"To: y\n\n"),
    mended("no year", b"From a Jan 2 10:00\nTo: x\n\n", b"From a Jan 2 10:00" + ADDED + b"To: x\n\n"),
    mended("CRLF", b"From a Thu Jan  2 10:00:00 03\r\nTo: x\r\n\r\nx\r\nFrom b\r\n\r\nFrom c\r\nTo: x\r\n\r\n",
           b"From a Thu Jan  2 10:00:00 2003\r\nTo: x\r\n\r\nx\r\nFrom b\r\n\r\nFrom c" + ADDED[:-1] + b"\r\nTo: x\r\n\r\n"),
    mended("text", HELLO[:-1] + b"From here on\nTo: x\n\nFrom here on\nTo: x\n\nFrom here\nto x: y\n\n", HELLO[:-1] + b"From here on\nTo: x\n\nFrom here on\nTo: x\n\nFrom here\nto x: y\n\n"),
    mended("a separator in text", HELLO[:-1] + SEPARATOR + b"text\n\n", HELLO[:-1] + SEPARATOR + b"text\n\n"),
    mended("a preamble", b"\nThe list x.\nIt is old.\n\n" + HELLO, HELLO, 1, b"mairix-mbox: x: 2 lines before the first message left out\n"),
    mended("no message", b"x\n", b"", 1, b"mairix-mbox: x: 1 line before the first message left out\nmairix-mbox: x: no message begins in it\n"),
    mended("an empty file", b"", b""),
    mended("empty lines", b"\n\n", b""),
    mended("MMDF", b"\1\1\1\1\nFrom a Thu Jan  2 10:00:00 03\nTo: x\n\nFrom here\n\n>From b Thu Jan  2 10:00:00 2003\n\1\1\1\1\n\1\1\1\1\nTo: y\n\ny\n\1\1\1\1\n",
           b"From a Thu Jan  2 10:00:00 2003\nTo: x\n\n>From here\n\n>>From b Thu Jan  2 10:00:00 2003\n\nFrom MAILER-DAEMON" + ADDED + b"To: y\n\ny\n\n"),
    mended("MMDF, cut off", b"\1\1\1\1\nTo: y\n\ny", b"From MAILER-DAEMON" + ADDED + b"To: y\n\ny\n\n"),
    Case("mairix-mbox: mend: several files", "mairix-mbox mend x 'y z'", {"x": HELLO[:-1], "y z": BYE}, out=HELLO + BYE),
    Case("mairix-mbox: mend: nothing else is found", "umask 077; mairix-mbox mend x >y; mairix-check y", {"x": HELLO[:-1] + BYE}, out=summary("y", 2, 2),
         changes={"y": HELLO + BYE}),
]

PIPERMAIL_OLD = (b"From alice at example.org  Wed Feb  1 19:06:09 2006\nFrom: alice at example.org (Alice at work)\nDate: Wed Feb  1 19:06:09 2006\n"
                 b"Subject: [x] menu\nIn-Reply-To: <1@example.org>\nMessage-ID: <2@example.org>\n\nbob at example.org wrote:\nDate: Wed Feb  1 19:06:09 2006\n\n"
                 b"From me Thu Jan  2 10:00:00 2003\nyes\n")
PIPERMAIL_NEW = (b"From alice@example.org  Wed Feb  1 19:06:09 2006\nFrom: alice@example.org (Alice at work)\nDate: Wed, 1 Feb 2006 19:06:09 +0000\n"
                 b"Subject: [x] menu\nIn-Reply-To: <1@example.org>\nMessage-ID: <2@example.org>\n\nbob at example.org wrote:\nDate: Wed Feb  1 19:06:09 2006\n\n"
                 b">From me Thu Jan  2 10:00:00 2003\nyes\n\n")
ASIS = b"From b@x.org  Thu Feb  2 09:00:00 2006\nFrom: b@x.org (Bob)\nDate: Thu, 2 Feb 2006 09:00:00 +0100\nSubject: x\n\nFrom: c at x\n\n"
PIPERMAIL = [
    *[Case(f"mairix-pipermail: wrong use: {words}", f"mairix-pipermail {words}", {}, 2, err=usage("mairix-pipermail [-o NEW] FILE..")) for words in ("", "-x", "-o", "-o x")],
    Case("mairix-pipermail: into a file", "umask 0; mairix-pipermail -o 'y z' x", {"x": PIPERMAIL_OLD}, changes={"y z": PRIVATE(PIPERMAIL_NEW)}),
    Case("mairix-pipermail: a file that is there", "mairix-pipermail -o y x", {"x": PIPERMAIL_OLD, "y": b"mine"}, 4, err=b"mairix-mbox: y is there already\n"),
    Case("mairix-pipermail: two messages", "mairix-pipermail x 'y z'", {"x": PIPERMAIL_OLD + ASIS, "y z": PIPERMAIL_OLD[:-1]},
         out=PIPERMAIL_NEW + ASIS + PIPERMAIL_NEW),
    Case("mairix-pipermail: is found", "umask 077; mairix-pipermail x >y; mairix-check y; mairix-grep -r --boolean y 'date:2006-02-01 from:alice@example.org'",
         {"x": PIPERMAIL_OLD * 2 + ASIS}, out=summary("y", 3, 4 - 1) + f"0 {len(PIPERMAIL_NEW)} y\n{len(PIPERMAIL_NEW)} {len(PIPERMAIL_NEW)} y\n".encode(),
         changes={"y": PIPERMAIL_NEW * 2 + ASIS}),
    Case("mairix-pipermail: CRLF", "mairix-pipermail x", {"x": PIPERMAIL_OLD.replace(b"\n", b"\r\n")},
         out=PIPERMAIL_NEW[:-1].replace(b"\n", b"\r\n") + b"\n"),
    Case("mairix-pipermail: no archive of it", "mairix-pipermail x", {"x": b"x\nDate: Wed Feb  1 19:06:09 2006\n"}, 1,
         b"x\nDate: Wed Feb  1 19:06:09 2006\n", b"mairix-mbox: x: no message begins in it\n"),
    Case("mairix-pipermail: an empty file", "mairix-pipermail x", {"x": b""}),
    Case("mairix-pipermail: no file", "mairix-pipermail x", {}, 4, err=b"mairix-mbox: cannot open ./x\n"),
]

BIRD = ".thunderbird/ab.default/"
BIRD_FILES = {
    BIRD + "Mail/Local Folders/Inbox": HELLO, BIRD + "Mail/Local Folders/Inbox.msf": b"x",
    BIRD + "Mail/Local Folders/a b": HELLO, BIRD + "Mail/Local Folders/a b.msf": b"x",
    BIRD + "Mail/Local Folders/a_b": BYE, BIRD + "Mail/Local Folders/a_b.msf": b"x",
    BIRD + "ImapMail/imap.gmail.com/[Gmail].sbd/Gr\u00fc\u00dfe: $1...": BYE, BIRD + "ImapMail/imap.gmail.com/[Gmail].sbd/Gr\u00fc\u00dfe: $1....msf": b"x",
    BIRD + "ImapMail/imap.gmail.com/[Gmail]": b"", BIRD + "ImapMail/imap.gmail.com/[Gmail].msf": b"x",
    BIRD + "ImapMail/imap.gmail.com/online.msf": b"x", BIRD + "ImapMail/imap.gmail.com/filterlog.html": b"x",
}
BIRD_RC = ("base=/home/you/T\nmbox=ab.default_ImapMail_imap.gmail.com__Gmail__Gr\u00fc\u00dfe___1_\nmbox=ab.default_Mail_Local_Folders_Inbox\n"
           "mbox=ab.default_Mail_Local_Folders_a_b\nmbox=ab.default_Mail_Local_Folders_a_b-2\ndatabase=/home/you/T/.mairix.index\n"
           "mfolder=/home/you/T/.mairix.found\n").encode()
BIRD_LINKS = {
    "T/ab.default_ImapMail_imap.gmail.com__Gmail__Gr\u00fc\u00dfe___1_": "ImapMail/imap.gmail.com/[Gmail].sbd/Gr\u00fc\u00dfe: $1...",
    "T/ab.default_Mail_Local_Folders_Inbox": "Mail/Local Folders/Inbox",
    "T/ab.default_Mail_Local_Folders_a_b": "Mail/Local Folders/a b",
    "T/ab.default_Mail_Local_Folders_a_b-2": "Mail/Local Folders/a_b",
}
BIRD_LINKS = {name: LINK(["/home/you/" + BIRD + path]) for name, path in BIRD_LINKS.items()}
INBOX = {BIRD + "Mail/Inbox": HELLO, BIRD + "Mail/Inbox.msf": b"x"}
INBOX_RC = b"base=/home/you/T\nmbox=ab.default_Mail_Inbox\ndatabase=/home/you/T/.mairix.index\nmfolder=/home/you/T/.mairix.found\n"
INBOX_LINK = {"T/ab.default_Mail_Inbox": LINK(["/home/you/" + BIRD + "Mail/Inbox"])}
THUNDERBIRD = [
    *[Case(f"mairix-thunderbird: wrong use: {words}", f"mairix-thunderbird {words}", INBOX, 2, err=usage("mairix-thunderbird FOLDER [PROFILES..]"))
      for words in ("", "-x", "''")],
    Case("mairix-thunderbird: odd names", "mairix-thunderbird T", BIRD_FILES, out=BIRD_RC, changes=BIRD_LINKS),
    Case("mairix-thunderbird: is found", "mairix-thunderbird T >rc; mairix -f rc && mairix -f rc -r bye", BIRD_FILES,
         out=("0 103 /home/you/T/ab.default_ImapMail_imap.gmail.com__Gmail__Gr\u00fc\u00dfe___1_\n"
              "0 103 /home/you/T/ab.default_Mail_Local_Folders_a_b-2\n").encode(), changes={**BIRD_LINKS, "rc": BIRD_RC, "T/.mairix.index": ...}),
    Case("mairix-thunderbird: again", "mairix-thunderbird T >/dev/null; mairix-thunderbird T", INBOX, out=INBOX_RC, changes=INBOX_LINK),
    Case("mairix-thunderbird: other profiles", "mairix-thunderbird ./T 'my profiles' none", {"my profiles/ab.default/Mail/Inbox": HELLO,
         "my profiles/ab.default/Mail/Inbox.msf": b"x"}, out=INBOX_RC,
         changes={"T/ab.default_Mail_Inbox": LINK(["/home/you/my profiles/ab.default/Mail/Inbox"])}),
    Case("mairix-thunderbird: profiles of flatpak", "mairix-thunderbird T", {".var/app/org.mozilla.Thunderbird/" + name: body for name, body in INBOX.items()},
         out=INBOX_RC, changes={"T/ab.default_Mail_Inbox": LINK(["/home/you/.var/app/org.mozilla.Thunderbird/" + BIRD + "Mail/Inbox"])}),
    Case("mairix-thunderbird: a file has the name of a link", "mairix-thunderbird T", {**INBOX, "T/ab.default_Mail_Inbox": b"mine"}, 4,
         err=b"mairix-thunderbird: left out: /home/you/.thunderbird/ab.default/Mail/Inbox: there is another file /home/you/T/ab.default_Mail_Inbox\n"
             b"mairix-thunderbird: there is no mbox of Thunderbird in: /home/you/.thunderbird /home/you/snap/thunderbird/common/.thunderbird "
             b"/home/you/.var/app/org.mozilla.Thunderbird/.thunderbird /home/you/.icedove /home/you/Library/Thunderbird/Profiles\n"),
    Case("mairix-thunderbird: maildir, and no mbox", "mairix-thunderbird T", {**INBOX, BIRD + "Mail/a": None, BIRD + "Mail/a.msf": b"", BIRD + "Mail/b": b"no",
         BIRD + "Mail/b.msf": b""}, 1, INBOX_RC,
         b"mairix-thunderbird: left out: /home/you/.thunderbird/ab.default/Mail/a: this is a folder of mail (maildir): see mairix-mbox\n"
         b"mairix-thunderbird: left out: /home/you/.thunderbird/ab.default/Mail/b: this is no mbox\n", INBOX_LINK),
    Case("mairix-thunderbird: a name that isn't UTF-8", "d=$(printf '.thunderbird/ab.default/Mail/\\374'); cp m $d; : >$d.msf; mairix-thunderbird T; rm $d $d.msf",
         {**INBOX, "m": BYE}, out=INBOX_RC.replace(b"database", b"mbox=ab.default_Mail__\ndatabase"),
         changes={**INBOX_LINK, "T/ab.default_Mail__": LINK(["/home/you/" + BIRD + "Mail/\udcfc"])}),
    Case("mairix-thunderbird: no Thunderbird", "mairix-thunderbird T x", {}, 4, err=b"mairix-thunderbird: there is no mbox of Thunderbird in: x\n"),
    Case("mairix-thunderbird: a folder that an rcfile can't have", "mairix-thunderbird 'a$b'", INBOX, 2,
         err=b"mairix-thunderbird: an rcfile cannot have this name: /home/you/a$b\n"),
]

C_RC = b"""# C mairix
base=~/Mail
mbox=in*:lists...:$MAILS/old:${MAILS}/no\\:pe:gone:link
maildir=md
mh=mh...
omit=lists/spam*:**/junk
mfolder=hits
mformat=maildir
database=~/.mairix.db
"""
C_FILES = {
    ".mairixrc": C_RC, "Mail/inbox": HELLO, "Mail/in.gz": b"\x1f\x8b", "Mail/index": b"x", "Mail/in [1]": HELLO, "Mail/inner/x": HELLO,
    "Mail/lists/a b": HELLO, "Mail/lists/deep/c": BYE, "Mail/lists/spam1": HELLO, "Mail/lists/deep/junk": HELLO, "Mail/lists/empty": b"",
    "Mail/lists/.hidden": HELLO, "Mail/far/old": BYE, "Mail/link": LINK(["inbox"]),
}
C_OUT = (b"base=/home/you/Mail\nmbox=inbox\nmbox=lists/.hidden\nmbox=lists/a b\nmbox=lists/deep/c\nmbox=lists/empty\nmbox=far/old\n"
         b"database=/home/you/.mairix.db.proved\nmfolder=hits.proved\n")
C_ERR = b"".join(b"mairix-from-c: left out: " + it + b"\n" for it in (
    b"far/no:pe: there is no such file", b"gone: there is no such file", b"link: this is a link, which C mairix doesn't follow either",
    b"in [1]: an rcfile cannot have this name: make a link with a plain name", b"in.gz: it is compressed: unpack it", b"index: this is no mbox",
    b"maildir=md", b"mh=mh...", b"mformat=maildir"))
SORTED = " 2>err; status=$?; sort err >&2; rm err; exit $status"


def from_c(name, lines, out, status=0, err=b"", files={}):
    files = {".mairixrc": b"base=/home/you\n", **files}
    return Case(f"mairix-from-c: {name}", "sed -i \"s|/home/you|$HOME|\" .mairixrc; mairix-from-c" + SORTED, {".mairixrc": b"base=/home/you\n" + lines, **files},
                status, out, err)


FROM_C = [
    *[Case(f"mairix-from-c: wrong use: {words}", f"mairix-from-c {words}", C_FILES, 2, err=usage("mairix-from-c [RCFILE]")) for words in ("-x", "a b", "''")],
    Case("mairix-from-c: all of it", "MAILS=far mairix-from-c" + SORTED, C_FILES, 1, C_OUT, b"".join(sorted(C_ERR.splitlines(True)))),
    Case("mairix-from-c: the rcfile works", "MAILS=far mairix-from-c 2>/dev/null >rc; mairix -f rc && mairix -f rc -r bye", C_FILES,
         out=b"0 103 /home/you/Mail/lists/deep/c\n0 103 /home/you/Mail/far/old\n", changes={"rc": C_OUT, ".mairix.db.proved": ...}),
    Case("mairix-from-c: links are followed", "mairix-from-c 'my rc'", {"my rc": b"base=Mail\nmbox=...\nfollow_mbox_symlinks\nmfolder=/x\ndatabase=d\nmformat=RAW\n",
         "Mail/link": LINK(["../m"]), "m": HELLO}, out=b"base=/home/you/Mail\nmbox=link\ndatabase=d.proved\nmfolder=/x.proved\nmformat=raw\n"),
    Case("mairix-from-c: each archive once, CRLF, spaces", "mairix-from-c rc", {"rc": b" base = Mail \r\nmbox = m:*:m \r\n\r\n", "Mail/m": HELLO.replace(b"\n", b"\r\n")},
         out=b"base=/home/you/Mail\nmbox=m\ndatabase=/home/you/Mail/.mairix.proved\nmfolder=found.proved\n"),
    Case("mairix-from-c: wildcards", "mairix-from-c rc", {"rc": b"base=Mail\nmbox=a[xy]?:d*/m:../o*...\n", "Mail/ax1": HELLO, "Mail/az1": HELLO, "Mail/ax": HELLO,
         "Mail/d*/m": HELLO, "Mail/dd/m": HELLO, "old/b": HELLO, "old/c/d": HELLO}, 1,
         b"base=/home/you/Mail\nmbox=ax1\nmbox=../old/b\nmbox=../old/c/d\ndatabase=/home/you/Mail/.mairix.proved\nmfolder=found.proved\n",
         b"mairix-from-c: left out: d*/m: an rcfile cannot have this name: make a link with a plain name\n"),
    Case("mairix-from-c: whole paths", "echo mbox=$HOME/m* >>rc; mairix-from-c rc", {"rc": b"base=/\n", "m1": HELLO, "m2": HELLO},
         out=b"base=/\nmbox=/home/you/m1\nmbox=/home/you/m2\ndatabase=//.mairix.proved\nmfolder=found.proved\n", changes={"rc": ...}),
    *[Case(f"mairix-from-c: {name}", "mairix-from-c rc", {"rc": rc, "Mail/x": b"no"}, status, out, err) for name, rc, status, out, err in (
        ("no base", b"mbox=x\n", 2, b"", b"mairix-from-c: no base or no mbox in rc\n"),
        ("no mbox", b"base=Mail\nmaildir=x\n", 2, b"", b"mairix-from-c: no base or no mbox in rc\n"),
        ("no such base", b"base=none\nmbox=x\n", 4, b"", ...),
        ("an empty variable", b"base=Mail\nmbox=a$NONE\n", 2, ..., b"mairix-from-c: left out: a: there is no such file\nmairix-from-c: no mbox was found\n"))],
    Case("mairix-from-c: no rcfile", "mairix-from-c", {}, 4, err=b"mairix-from-c: cannot open /home/you/.mairixrc\n"),
]

ZEROS = SEPARATOR + b"Subject: a\0b\n\nx\0\0y\n"
# With an awk that keeps bytes 0, and with one that loses what follows them.
WITH_ZEROS = [
    Case(f"mairix-mbox: bytes 0 stay: {kind}", f"mairix-mbox {kind} x", {"x": ZEROS, "M/new/1": LETTER}, out=ZEROS + b"\n", err=err)
    for kind, err in (("mend", b""), ("content-length", unlike(1, 1)))
] + [Case("mairix-mbox: bytes 0 stay: maildir", "mairix-mbox maildir M", {"M/new/1": b"\n\0\0\n"}, out=b"From MAILER-DAEMON " + EPOCH + b"\n\0\0\n\n")]
WITHOUT_ZEROS = [
    Case(f"mairix-mbox: bytes 0 are refused: {kind}", f"mairix-mbox -o n {kind}", {"x": ZEROS, "M/new/1": ZEROS}, 4,
         err=f"mairix-mbox: this system's awk would lose bytes 0 of {file}\n".encode())
    for kind, file in (("mend x", "./x"), ("content-length x", "./x"), ("pipermail x", "./x"), ("messages x", "./x"), ("maildir M", "M/new/1"))
]
CASES = [*SETUP, *ARCHIVES, *FRESH, *BOTH, *GREP, *FOUND, *THREAD, *CUT, *PICK, *EMACS, *CHECK, *CHECK_LENGTH, *MBOX, *BY_LENGTH, *MEND, *PIPERMAIL, *THUNDERBIRD, *FROM_C]
