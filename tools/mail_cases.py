"""A sample of each kind of mail in RECIPES' part "Where your mail comes from", in the form in which that program writes it, and what mairix and
mairix-mbox make of it. The names of cases begin with the names of rows.

mutt 2.2, neomutt 20220429, procmail 3.22, getmail6, dovecot 2.3 and notmuch were run to see what they write; alpine and readpst were read.
"""
import re
from pathlib import Path

from script_cases import PRIVATE, Case, seen, summary

RECIPES = Path(__file__).resolve().parent.parent / "docs" / "RECIPES.md"


def rows_of_recipes():
    """The first cell of each row."""
    part = re.search(r"(?ms)^## Where your mail comes from\n(.*?)^## ", RECIPES.read_text(encoding="utf-8"))
    return re.findall(r"(?m)^\| ([^|]+?) \|", part[1])[1:] if part else []


def lines(*texts, end=b"\n"):
    return b"".join(it.encode() + end for it in texts)


# What a query for each flag finds: seen, replied, flagged.
FLAGS = "; for flag in s r f; do echo $flag $(mairix-grep -r x F:$flag | cut -d ' ' -f 1); done"


def flagged(flags):
    return "".join(f"{flag} {offsets}".rstrip() + "\n" for flag, offsets in zip("srf", flags)).encode()


def read_as_it_is(name, archive, messages, flags):
    """A case of an archive x that is read as it is: all messages are found, and each flag at these offsets."""
    return Case(name, f"mairix-check x{FLAGS}", {"x": archive}, 0, summary("x", messages, messages) + flagged(flags))


def made(name, files, command, archive, messages, flags, err=b"", status=0):
    """A case of mail that a command makes a new archive x of."""
    return Case(name, f"{command}; status=$?; mairix-check x{FLAGS}; exit $status", files, status,
                summary("x", messages, messages) + flagged(flags), err, {"x": archive if archive is ... else PRIVATE(archive)})


NONE = ("", "", "")

# ---- mail programs

BIRD = lines("From - Thu Jan  2 10:00:00 2003", "X-Account-Key: account1", "X-Mozilla-Status: 0001", "X-Mozilla-Status2: 00000000",
             "X-Mozilla-Keys:                                                                                 ", "Return-Path: <a@x.org>",
             "From: a@x.org", "Subject: read", "", "hi", "")
DELETED = BIRD.replace(b"Status: 0001", b"Status: 0009").replace(b"read", b"deleted")
GMAIL = ".thunderbird/ab.default-release/ImapMail/imap.gmail.com/[Gmail].sbd/All Mail"
APPLE = lines("From alice@example.org Thu Jan  2 10:00:00 2003", "X-Uniform-Type-Identifier: com.apple.mail-draft", "From: Alice <alice@example.org>",
              "Subject: one", "Content-Type: text/plain; charset=us-ascii", "", "hi", "", ">From here on", "")
PLIST = """<?xml version="1.0" encoding="UTF-8"?>
<!DOCTYPE plist PUBLIC "-//Apple//DTD PLIST 1.0//EN" "http://www.apple.com/DTDs/PropertyList-1.0.dtd">
<plist version="1.0">
<dict>
\t<key>conversation-id</key>
\t<integer>1</integer>
\t<key>flags</key>
\t<integer>%d</integer>
\t<key>remote-id</key>
\t<string>1</string>
</dict>
</plist>
"""


def emlx(message, flags):
    return b"%-10d\n" % len(message) + message + (PLIST % flags).encode()


LETTER = lines("From: Alice <alice@example.org>", "Subject: one", "", "From here on", "last")
EMLX = "Library/Mail/V10/A/INBOX.mbox/B/Data/Messages/"
OF_EMLX = (b"From alice@example.org Thu Jan  1 00:00:00 1970\nFrom: Alice <alice@example.org>\nSubject: one\n%s\n>From here on\nlast\n\n")
TAKEOUT = [lines("From 1525894863838612345@xxx Thu Mar 24 07:00:37 +0000 2016", "X-GM-THRID: 1525894863838612345",
                 "X-Gmail-Labels: =?UTF-8?Q?Inbox,Opened,Starred?=", "From: Alice <alice@example.org>", "Subject: one", "", "hi", "", ">From here on", "", end=end)
           for end in (b"\r\n", b"\n")]
PATCH = ("From 0123456789abcdef0123456789abcdef01234567 Mon Sep 17 00:00:00 2001", "From: Alice <alice@example.org>", "Subject: [PATCH] x", "", "text")
BODY = lines("Here is a patch:", "", *PATCH)
QUOTED = BODY.replace(b"From 0", b">From 0")


def of_mutt(body, more=""):
    """What mutt and neomutt write for `record`; flags come into fields of their own later."""
    return lines("From alice@example.org Thu Jan  2 10:00:00 2003", "Date: Thu, 2 Jan 2003 10:00:00 +0000", "From: Alice <alice@example.org>",
                 "To: bob@example.org", "Subject: a patch", "Message-ID: <aw3GNn10hf7OjNCL@example.org>", "MIME-Version: 1.0",
                 "Content-Type: text/plain; charset=us-ascii", "Content-Disposition: inline", "Status: RO", *more.split(";")[: bool(more)],
                 f"Content-Length: {len(body)}", f"Lines: {body.count(10)}", "") + body + b"\n"


PROCMAIL = lines("From alice@example.org  Thu Jan  2 10:00:00 2003", "Return-Path: <alice@example.org>", "From: Alice <alice@example.org>", "Subject: one", "",
                 "hi", "", ">From here on", ">From x Mon Sep 17 00:00:00 2001", "end", "")
GETMAIL = lines("From alice@example.org Thu Jan  2 10:00:00 2003", "Return-Path: <alice@example.org>", "Delivered-To: bob@example.org",
                "Received: from mail.example.org by home with POP3 getmail6 for", "  <bob@example.org>; 02 Jan 2003 10:00:00 -0000",
                "From: Alice <alice@example.org>", "Subject: one", "", "hi", "", ">From here on", ">>From there", "end", "")


def of_dovecot(body, number, status, other=""):
    first = ["X-IMAPbase: 1041501600 0000000002"] if number == 1 else []
    return lines("From bob@example.org  Thu Jan  2 10:00:00 2003", "From: Alice <alice@example.org>", "Subject: one", *first, f"X-UID: {number}",
                 f"Status: {status}", "X-Keywords:" + " " * 58, f"Content-Length: {len(body)}", *(["X-Status: " + other] if other else []), "") + body + b"\n"


ALPINE_OWN = lines("From MAILER-DAEMON Thu Jan  2 10:00:00 2003", "Date: 02 Jan 2003 10:00:00 +0000",
                   "From: Mail System Internal Data <MAILER-DAEMON@example.org>", "Subject: DON'T DELETE THIS MESSAGE -- FOLDER INTERNAL DATA",
                   "Message-ID: <1041501600@example.org>", "X-IMAP: 1041501600 0000000002", "Status: RO", "",
                   "This text is part of the internal format of your mail folder, and is not",
                   "a real message.  It is created automatically by the mail system software.",
                   "If deleted, important folder data will be lost, and it will be re-created", "with the data reset to initial values.", "")
ALPINE = lines("From alice@example.org Thu Jan  2 10:00:00 2003", "From: Alice <alice@example.org>", "Subject: one", "Status: RO", "X-Status: AF",
               "X-Keywords:", "X-UID: 1", "", "hi", "", ">From x Mon Sep 17 00:00:00 2001", "")
READPST = lines('From "alice@example.org" Thu Jan  2 10:00:00 2003', "Status: RO", "From: Alice <alice@example.org>", "Subject: one",
                "Date: Thu, 02 Jan 2003 10:00:00 +0000", "MIME-Version: 1.0", "Content-Type: multipart/mixed;",
                '\tboundary="--boundary-LibPST-iamunique-1_-_-"', "", "", "----boundary-LibPST-iamunique-1_-_-",
                'Content-Type: text/plain; charset="utf-8"', "", "hi", ">From here on", "", "----boundary-LibPST-iamunique-1_-_---", "", "")
EVOLUTION = ".local/share/evolution/mail/local/"

# ---- archives of lists

PIPERMAIL = lines("From alice at example.org  Wed Feb  1 19:06:09 2006", "From: alice at example.org (Alice Example)", "Date: Wed Feb  1 19:06:09 2006",
                  "Subject: [x] menu", "Message-ID: <1@example.org>", "", "What is there?")
INBOX = lines("From mboxrd@z Thu Jan  1 00:00:00 1970", "From: Alice <alice@example.org>", "Date: Thu, 2 Jan 2003 10:00:00 +0000", "Subject: one",
              "Message-Id: <1@example.org>", "", ">From here on", ">>From there", "")
GROUPS = lines("From -3786374545471838231", "X-Google-Language: ENGLISH,ASCII-7-bit", "X-Google-Thread: fe0c8,4f6a3d3a4d7c22bc",
               "X-Google-Attributes: gidfe0c8,public", "From: alice@example.org (Alice)", "Subject: one", "Date: 1991/10/12", "", "hi", "")
MMDF = b"\1\1\1\1\n" + lines("From alice@example.org Thu Jan  2 10:00:00 2003", "From: Alice <alice@example.org>", "Subject: one", "Status: RO", "X-Status: AF", "",
                             "From here on") + b"\1\1\1\1\n"
TWO_DIGITS = lines("From alice@example.org Thu Jan  2 10:00:00 97", "From: alice@example.org", "Subject: one", "Status: R", "", "hi", "")
WHOLE = TWO_DIGITS.replace(b":00 97", b":00 1997")
PLAIN = lines("From alice@example.org Thu Jan  2 10:00:00 2003", "Subject: one", "Status: RO", "X-Status: A", "", "hi")
WITH_FLAGS = lines("Subject: one", "", "hi")

CASES = [
    read_as_it_is("Thunderbird: an archive, with deleted mail", BIRD + DELETED, 2, NONE),
    read_as_it_is("Thunderbird: with CRLF", BIRD.replace(b"\n", b"\r\n") * 2, 2, NONE),
    Case("Thunderbird: names of Gmail", "mairix-thunderbird ~/bird >~/bird.rc && export MAIRIXRC=~/bird.rc && mairix -f bird.rc && mairix-fresh -r s:read; rm -r bird",
         {GMAIL: BIRD, GMAIL + ".msf": b"x"}, 0, b"0 260 /home/you/bird/ab.default-release_ImapMail_imap.gmail.com__Gmail__All_Mail\n",
         b"", {"bird.rc": ...}),
    read_as_it_is("Apple Mail: what was exported", APPLE * 2, 2, NONE),
    made("Apple Mail: files .emlx", {EMLX + "1.emlx": emlx(LETTER, 8623750145), EMLX + "2.emlx": emlx(LETTER[:-1], 8590195733), EMLX + "3.partial.emlx": emlx(LETTER, 0)},
         "umask 077; find ~/Library/Mail -name '*.emlx' | sort >names; xargs mairix-mbox messages <names >x; rm names",
         OF_EMLX % b"Status: RO\n" + OF_EMLX % b"Status: RO\nX-Status: AF\n" + OF_EMLX % b"Status: O\n", 3, ("0 125", "125", "125")),
    Case("Apple Mail: with find alone", "find ~/Library/Mail -name '*.emlx' -exec mairix-mbox messages {} + >x", {EMLX + "1.emlx": emlx(LETTER, 1)},
         changes={"x": OF_EMLX % b"Status: RO\n"}),
    Case("Apple Mail: a file .emlx of another form", "mairix-mbox messages x.emlx", {"x.emlx": LETTER}, 1,
         err=b"mairix-mbox: left out: ./x.emlx: no length in its first line\n"),
    *[read_as_it_is("Google Takeout: an archive", archive * 2, 2, NONE) for archive in TAKEOUT],
    Case("Google Takeout: its name", "mairix-setup 'All mail Including Spam and Trash.mbox' && mairix -f .mairixrc && mairix-fresh -x s:one | tail -n 2",
         {"Mail/All mail Including Spam and Trash.mbox": TAKEOUT[0]}, 0, b"Subject: one\nDate:\n", changes={".mairixrc": ..., "Mail/.mairix.index": ...}),
    read_as_it_is("mutt and neomutt: received mail", PLAIN + b"\n" + PLAIN.replace(b"RO\nX-Status: A", b"O\nX-Status: F") + b"\n", 2, ("0", "0", "89")),
    Case("mutt and neomutt: sent mail, as it is", "mairix-check x", {"x": of_mutt(BODY) + of_mutt(b"y\n")}, 1,
         seen(16, "this is text of another message, by its Content-Length", PATCH[0]) + summary("x", 3, 3)),
    made("mutt and neomutt: sent mail", {"sent": of_mutt(BODY) + of_mutt(b"y\n")}, "mairix-mbox -o x content-length sent",
         of_mutt(BODY).replace(BODY, QUOTED).replace(b"h: 146", b"h: 147") + of_mutt(b"y\n"), 2, ("0 475", "", "")),
    read_as_it_is("procmail: an archive", PROCMAIL * 2, 2, NONE),
    read_as_it_is("getmail: an archive", GETMAIL * 2, 2, NONE),
    read_as_it_is("dovecot: an archive", of_dovecot(b"hi\n", 1, "R", "AF") + of_dovecot(b"ho\n", 2, "O"), 2, ("0", "0", "0")),
    made("dovecot: text that looks like separators", {"sent": of_dovecot(BODY, 1, "R", "AF") + of_dovecot(b"ho\n", 2, "O")}, "mairix-mbox -o x content-length sent",
         ..., 2, ("0", "0", "0")),
    read_as_it_is("alpine: an archive", ALPINE_OWN + ALPINE, 2, (f"0 {len(ALPINE_OWN)}", f"{len(ALPINE_OWN)}", f"{len(ALPINE_OWN)}")),
    Case("alpine: another form", "mairix-check x", {"x": b"*mbx*\r\n3df1e1a000000002\r\n"}, 4, ...),
    made("Evolution: folders", {EVOLUTION + "cur/1041501600.1_1.host:2,RS": LETTER, EVOLUTION + ".Sent/cur/1041501601.1_2.host:2,F": LETTER, EVOLUTION + ".Sent/new/y": LETTER},
         f"mairix-mbox -o x maildir ~/{EVOLUTION} ~/{EVOLUTION}.Sent", ..., 3, ("0", "0", "137")),
    read_as_it_is("Evolution: saved as mbox", lines("From alice@example.org Thu Jan  2 10:00:00 2003", "From: Alice <alice@example.org>", "Subject: one",
                                                    "X-Evolution-Source: ", "", ">From here on", "") * 2, 2, NONE),
    read_as_it_is("readpst: an archive", READPST + READPST.replace(b"Status: RO\n", b""), 2, ("0", "", "")),
    made("pipermail: an archive", {"2006-February.txt": PIPERMAIL * 3}, "umask 077; mairix-pipermail 2006-*.txt >x", ..., 3, NONE),
    Case("pipermail: a packed one, its dates and senders", """gzip 2006-February.txt; gunzip 2006-February.txt.gz; umask 077; mairix-pipermail 2006-*.txt >x
         mairix-grep -r x f:alice@example.org; mairix-grep -r x d:20060201""", {"2006-February.txt": PIPERMAIL}, 0, b"0 189 x\n0 189 x\n", changes={"x": ...}),
    Case("pipermail: as it is", "mairix-check x | tail -n 1", {"x": PIPERMAIL * 3}, 0, summary("x", 1, 3)),
    Case("public-inbox: unpacked", "gzip x; gunzip x.gz; mairix-check x", {"x": INBOX * 2}, 0, summary("x", 2, 2)),
    read_as_it_is("public-inbox: flags", INBOX * 2, 2, NONE),
    made("Google Groups: an archive", {"old": GROUPS * 2}, "mairix-mbox -o x mend old",
         GROUPS.replace(b"8231\n", b"8231 Thu Jan  1 00:00:00 1970\n") * 2, 2, NONE),
    made("MMDF: an archive", {"old": MMDF * 2}, "mairix-mbox -o x mend old", (MMDF[5:-5].replace(b"From here", b">From here") + b"\n") * 2, 2, ("0 133", "0 133", "0 133")),
    made("Two-digit years: an archive", {"old": TWO_DIGITS * 2}, "mairix-mbox -o x mend old", WHOLE * 2, 2, (f"0 {len(WHOLE)}", "", "")),
    made("A preamble: an archive", {"old": lines("The archive of the list x.", "", "It began in 1991.", "") + PLAIN + b"\n" + PLAIN}, "mairix-mbox -o x mend old",
         (PLAIN + b"\n") * 2, 2, ("0 89", "0 89", ""), b"mairix-mbox: old: 2 lines before the first message left out\n", 1),
    made("No empty lines: an archive", {"old": PLAIN * 3}, "mairix-mbox -o x mend old", (PLAIN + b"\n") * 3, 3, ("0 89 178", "0 89 178", "")),
    Case("No empty lines: as it is", "mairix-check x | tail -n 1", {"x": PLAIN * 3}, 0, summary("x", 1, 3)),
    made("Maildir, MH and notmuch: a Maildir", {"md/cur/1041501600.a:2,RS": WITH_FLAGS, "md/new/1041501601.b": WITH_FLAGS}, "mairix-mbox -o x maildir md",
         ..., 2, ("0", "0", "")),
    made("Maildir, MH and notmuch: MH", {"inbox/1": WITH_FLAGS, "inbox/2": WITH_FLAGS, "inbox/.mh_sequences": b"unseen: 2\n"},
         "mairix-mbox -o x messages inbox/[0-9]*", ..., 2, NONE),
]
