#!/usr/bin/env python3
"""Writes the table of header dates that the tests of mail_dates run over, with seconds from outside.

    python3 tools/header_dates.py > crates/worked_parts/src/header_dates.rt

The seconds come from Python alone: email.utils.parsedate_tz and mktime_tz read each field, and where the field was
made from a date, datetime's own arithmetic has to agree. Where this product differs by rule, the row is listed under
that rule with the second that the rule gives, computed by datetime, and the script stops if email.utils happened to
give the same (the rule would then be no difference):

- two digits of a year are 1950 to 2049; email.utils takes 00 to 68 as 2000 to 2068;
- three digits of a year count from 1900; email.utils takes them as they stand;
- a zone that isn't in the table (AST, ADT, a sign with other than four digits or out of range) is +0000; email.utils
  knows these names, and takes other numbers as hours and minutes;
- a `(` ends the field wherever it stands, also directly behind a token;
- spaces, tabs and commas part tokens, and nothing else; email.utils also takes dashes, and not every comma;
- a month has three letters; email.utils takes whole names;
- a time has two digits of minutes and of seconds, at least minutes, and is in range; a day exists; else no date.
"""
import datetime
import email.utils

EPOCH = datetime.datetime(1970, 1, 1, tzinfo=datetime.timezone.utc)
DAYS = "Mon Tue Wed Thu Fri Sat Sun".split()
MONTHS = "Jan Feb Mar Apr May Jun Jul Aug Sep Oct Nov Dec".split()
NAMED = {"GMT": 0, "UT": 0, "EST": -5, "EDT": -4, "CST": -6, "CDT": -5, "MST": -7, "MDT": -6, "PST": -8, "PDT": -7}


def second_of(year, month, day, hour=0, minute=0, second=0, offset=0):
    """By datetime; second 60 is the first of the next minute, year 0 and year 10000 are 400 years off."""
    shift = 0
    while year < 400:
        year, shift = year + 400, shift - 146097 * 86400
    at = datetime.datetime(year, month, day, hour, minute, tzinfo=datetime.timezone.utc)
    return (at - EPOCH) // datetime.timedelta(seconds=1) + second - offset + shift


def outside(text):
    """By email.utils; None where it can't be read."""
    parts = email.utils.parsedate_tz(text)
    if parts is None or parts[9] is None:
        return None
    try:
        return email.utils.mktime_tz(parts)
    except (ValueError, OverflowError):
        return None


def sign_of(offset):
    minutes = abs(offset) // 60
    return "%s%02d%02d" % ("-" if offset < 0 else "+", minutes // 60, minutes % 60)


def same_rows():
    """Fields that both read alike."""
    rows = []
    # a date a few months apart, each in one of the usual forms, with offsets east and west
    offsets = [0, 3600, -18000, 19800, -12600, 45900, -43200, 86340, -86340, 1800]
    at = datetime.datetime(1970, 1, 1, 0, 0, 0)
    for n in range(150):
        offset = offsets[n % len(offsets)]
        weekday, month = DAYS[at.weekday()], MONTHS[at.month - 1]
        forms = [
            f"{weekday}, {at.day} {month} {at.year} {at:%H:%M:%S} {sign_of(offset)}",
            f"{at.day:02d} {month} {at.year} {at:%H:%M} {sign_of(offset)}",
            f"{weekday}, {at.day:02d} {month.upper()} {at.year} {at.hour}:{at:%M:%S} {sign_of(offset)} (zone)",
            f"{at.day} {month.lower()} {at.year} {at:%H:%M:%S}   {sign_of(offset)}",
        ]
        text = forms[n % len(forms)]
        seconds = 0 if n % len(forms) == 1 else at.second
        want = second_of(at.year, at.month, at.day, at.hour, at.minute, seconds, offset)
        rows.append((text, want))
        at += datetime.timedelta(days=113, hours=7, minutes=43, seconds=17)
    for name, hours in NAMED.items():
        rows.append((f"Thu, 2 Jan 2003 10:00:00 {name}", second_of(2003, 1, 2, 10, 0, 0, hours * 3600)))
        rows.append((f"2 Jan 2003 10:00 {name.lower()}", second_of(2003, 1, 2, 10, 0, 0, hours * 3600)))
    # months, leap days and the ends of years
    for number, month in enumerate(MONTHS, 1):
        rows.append((f"1 {month} 2004 00:00:00 +0000", second_of(2004, number, 1)))
    for year in (1904, 1972, 2000, 2004, 2096):
        rows.append((f"29 Feb {year} 23:59:59 +0000", second_of(year, 2, 29, 23, 59, 59)))
        rows.append((f"31 Dec {year} 23:59:60 +0000", second_of(year, 12, 31, 23, 59, 60)))
    base = second_of(2003, 1, 2, 10)
    for text in ("2 Jan 2003 10:00 CET", "2 Jan 2003 10:00 A", "2 Jan 2003 10:00", "2 Jan 2003 10:00 (+0000) +0100"):
        rows.append((text, base))
    for text in ("", "Thu", "2 Jan 2003", "2 Sept 2003 10:00 +0000", "2 Jan (at last) 2003 10:00 +0000"):
        rows.append((text, None))
    for digits in ("00", "03", "38", "49", "70", "99"):
        year = int(digits) + (2000 if int(digits) < 50 else 1900)
        rows.append((f"5 Jul {digits} 6:07:08 +0200", second_of(year, 7, 5, 6, 7, 8, 7200)))
    return rows


def other_rows():
    """Rules by which the two differ, and rows of each."""
    base = second_of(2003, 1, 2, 10)
    return [
        (
            "two digits of a year are 1950 to 2049",
            [
                ("5 Jul 50 00:00 +0000", second_of(1950, 7, 5)),
                ("5 Jul 68 00:00 +0000", second_of(1968, 7, 5)),
            ],
        ),
        (
            "three digits of a year count from 1900",
            [
                ("2 Jan 103 10:00 +0000", base),
                ("2 Jan 150 10:00 +0000", second_of(2050, 1, 2, 10)),
                ("31 Dec 999 23:59 +0000", second_of(2899, 12, 31, 23, 59)),
            ],
        ),
        (
            "a zone that isn't in the table is +0000",
            [
                ("2 Jan 2003 10:00 AST", base),
                ("2 Jan 2003 10:00 ADT", base),
                ("2 Jan 2003 10:00 +100", base),
                ("2 Jan 2003 10:00 +2400", base),
                ("2 Jan 2003 10:00 +0160", base),
            ],
        ),
        (
            "a parenthesis ends the field",
            [
                ("2 Jan 2003 10:00(+0100)", base),
            ],
        ),
        (
            "only spaces, tabs and commas part tokens",
            [
                ("2-Jan-2003 10:00 +0000", None),
                ("Thu,2 Jan,2003,10:00,-0100", second_of(2003, 1, 2, 11)),
            ],
        ),
        (
            "a month has three letters",
            [
                ("2 January 2003 10:00 +0000", None),
            ],
        ),
        (
            "times and days have their digits, and are in range",
            [
                ("2 Jan 2003 10.00 +0000", None),
                ("2 Jan 2003 10:0 +0000", None),
                ("2 Jan 2003 24:00 +0000", None),
                ("2 Jan 2003 10:60 +0000", None),
                ("2 Jan 2003 10:00:61 +0000", None),
                ("31 Apr 2003 10:00 +0000", None),
                ("29 Feb 1900 10:00 +0000", None),
                ("0 Jan 2003 10:00 +0000", None),
            ],
        ),
        (
            "four digits of a year are as they stand, from 0000",
            [
                ("1 Jan 0000 00:00 +0000", second_of(0, 1, 1)),
            ],
        ),
    ]


def row(text, want):
    return f"{'none' if want is None else want} {text}"


def main():
    same, other = same_rows(), other_rows()
    for text, want in same:
        assert outside(text) == want, (text, outside(text), want)
    for rule, rows in other:
        for text, want in rows:
            assert outside(text) != want, (rule, text, want)
    print("//! Dates of headers and their seconds, as tools/header_dates.py writes them.")
    print()
    print("/// In each line: a second or `none`, a space, and the field. A line that begins with `#` is a comment.")
    print('pub const HEADER_DATES: &str = "\\')
    print("# email.utils and datetime agree")
    for text, want in same:
        print(row(text, want))
    for rule, rows in other:
        print(f"# email.utils differs: {rule}")
        for text, want in rows:
            print(row(text, want))
    print('";')


if __name__ == "__main__":
    main()
