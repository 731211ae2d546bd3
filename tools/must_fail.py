#!/usr/bin/env python3
"""Tries the edits that the prover must refuse, many of a crate in one check.

    tools/must_fail.py [--jobs N] [--proved FOLDER] [--write] [CRATE or CRATE/NAME ..]

An edit, crates/CRATE/must-fail/NAME.edit, turns the meaning of a function, and its crate must then not be proved. A
function is proved against the contracts of those that it calls, never their bodies. So one check tries up to 140
edits, in a copy of the crate. An edited function stands there as a twin of its own for each edit. Of the clauses with
names, the twin's contract keeps the one that the edit says refuses it, since that one has to do so by itself. All
other functions have an empty loop for a body, except for methods of the crate's own traits, whose bodies stay (decision
127). Their contracts are taken as they stand, and so are the crate's lemmas: one hole is the proof of them all, so that
nothing is proved that is proved already. Each edited function must be refused for a reason of its own. That it calls
another that isn't proved is none, nor is a proof that only lacks a name that the edit took away. An edit of a constant
is looked for in the functions that name the constant, and in those that its lines `# shows in: FUNCTION` name.

An edit of which such a check gives no reason, or only one of other clauses, is tried alone. If its functions get no
reason then either, a check of the whole crate decides, with all bodies and proofs. Alone it fails where the crate is
still proved, where its functions get no reason of their own, and where it doesn't reach the prover. What changes more
than bodies, and constants that these name, is no edit.

Its line `# refused by: CLAUSE` names the clause that refuses it, and that clause has to be one of those that the prover
couldn't show. Some goals are the whole contract, which the prover doesn't part; where a twin's contract is that clause
alone, such a goal is the clause's. --write writes that line where it is missing or wrong.

Its lines `# at: GOAL` name goals at which it is refused. Nothing is tried then at others. At a goal that has a written
answer, that is tried; otherwise `search rules`, and not all that the prover knows, which takes longer at a goal that
doesn't hold. In that case the function as it is has to be proved there in the same check; otherwise the edit is tried
as if it had no such lines (decision 126 in docs/DECISIONS.md). --write adds one to an edit that has none, if it is
refused with it too.

Without --proved, what isn't built yet is proved and built first, by tools/build.py, and the copies go on from what
checks of the crate have kept. With it, FOLDER is a copy of the repository whose crates `rt ci` has just proved and left
built: its texts are edited, and each check has one job.

Each edit has a line as soon as it is tried, and each crate one with its seconds. The last line is `N passed, M failed`.
"""
import argparse
import math
import os
import re
import shutil
import sys
import tempfile
import time
from concurrent.futures import ThreadPoolExecutor
from pathlib import Path

sys.dont_write_bytecode = True
from build import Proved, kept_of
from commands import Commands
from crates import PARTS
from edits import REFUSED, Crate, Stub, Twin, answered, assume_lemmas, is_goal_of, read_edit, refuse_in_place
from machine import checks_side_by_side, processors
from verdict import say

# A check of 110 edits of mairix_run took 3.4 GB of memory.
MOST_IN_A_ROUND = 140
ERROR = re.compile(r"(?:\./)?(\S+?):(\d+):\d+: error\b")
WANTS_MEASURE = "expected a measure in "
# What is said of a proof that names what an edit took away, and of what rests on such a proof.
LOST_NAME = re.compile(
    r"has no field|is not a field of|is not in scope|has no `|was not admitted|: module `[^`]*`$|: record `[^`]*` \(nearest: "
)
# What a check says of a function; the last two where it is proved as far as the contracts of others are met.
TOLD = re.compile(r"fn (\S+): (proved|no proof|not proved|could not tell|no holes|depends on a hole in)(?:: )?(.*)")
# What is said of a function that is refused only since another isn't proved, also where it is proved together with
# those it calls.
ONLY_CALLS = re.compile(r"(?:in `[^`]*`, of this cycle of calls: )?it calls ")
# The folder for the answers of a cycle of calls.
CYCLE = re.compile(r"expected answers in (\S*/\+[^/\s]+)/")
# What is said of a function with goals at which nothing was tried.
NOT_TRIED = "`#[tactic(none)]` leaves"
# What is said before such a line of a goal that is left.
LEFT = re.compile(r"note: src/\S+:\d+:\d+: .* \(`([\w+:.-]+)`\)(?:;|$)")
# The goals that a check couldn't show, as a reason lists them, and as an error names its own.
UNSHOWN = re.compile(r"`search` did not prove ((?:`[^`]*`(?:, )?)+)")
GOAL_OF_ERROR = re.compile(r": error: `([\w+:.-]+)`:")


def idle_processors():
    """How many jobs a check may have: one, and one more for each processor that idles besides, as far as memory
    goes."""
    return max(1, min(processors() - round(os.getloadavg()[0]), checks_side_by_side()))


def joined(lines):
    """The lines of a check, each error in one: a long one says on its next line, indented, that a record lacks a
    field."""
    whole = []
    for line in lines:
        if whole and ERROR.match(whole[-1]) and line.startswith("  has no field"):
            whole[-1] += f" {line.strip()}"
        else:
            whole.append(line)
    return whole


def clause_of(function, goal):
    """The clause that a function's goal is about, or else the goal, in a cycle of calls without the function's name:
    `returns` is a whole contract, whatever the way to the function's end."""
    clause = re.search(r"clause-(\w+)", goal)
    own = goal.partition("-")[2] if is_goal_of(function, goal) else goal
    return clause[1] if clause else "returns" if own.startswith("returns") else own


class Verdict:
    """What a check said: of each function that it names the reason of its own for which it is refused, or an empty
    text, and the clauses that weren't shown. At some functions nothing was tried but at goals that edits name."""

    def __init__(self, status, lines, at_goals=frozenset()):
        self.is_proved = status == 0
        self.reasons = {}
        self.clauses = {}
        # The goals that weren't shown, and for each function of which answers were tried those that were refused.
        self.goals, self.refused = {}, {}
        self.by_names = {}
        # Functions that call one another are proved together, so such a reason tells of none of them by itself.
        self.in_cycles = {}
        self.places = [
            (found[1], int(found[2]), line) for line in joined(lines) for found in [ERROR.match(line)] if found
        ]
        errors = [(path, line) for path, _, line in self.places]
        unread = [line for path, line in errors if path.startswith(("src/", "specs/")) and LOST_NAME.search(line)]
        refused = status == 1 and any(line.startswith(("logic=not-proved", "only=")) for line in lines)
        self.trouble = "" if self.is_proved or refused and not unread else next((line for _, line in errors), lines[-1])
        told, left = [], []
        for line in lines:
            left += LEFT.findall(line)
            found = TOLD.match(line)
            if found:
                told.append((found[1], found[2], found[3], [] if found[1] in at_goals else left))
                left = []
        # The folder of each cycle of calls, once for each of its functions that is told to want answers there.
        self.cycles = [found[1] for it in told for found in [CYCLE.search(it[2])] if found]
        for function, verdict, why, left in told:
            self.take(function, verdict, why, left, errors)

    def is_shared(self, why):
        """Whether more functions than one are told these goals: then they call one another, and each goal begins with
        its function's name. The goals of one that calls itself alone don't."""
        found = CYCLE.search(why)
        return bool(found) and self.cycles.count(found[1]) > 1

    def take(self, function, verdict, why, left, errors):
        """Takes what is said of a function, and the goals that were left."""
        self.reasons[function], self.clauses[function] = "", []
        own = "proofs/" + function.partition("::")[2].replace("::", "/") + "/"
        said = [line for path, line in errors if path.startswith(own)]
        refused = [line for line in said if GOAL_OF_ERROR.findall(line) != [REFUSED]]
        if verdict not in ("no proof", "could not tell"):
            self.refused[function] = {it for line in refused for it in GOAL_OF_ERROR.findall(line)}
        if verdict == "not proved" and said and not refused:
            # Only the declaration is refused that always is, so the goals that are left are the reason, if any is.
            verdict = "no proof"
            why = "`search` did not prove " + ", ".join(f"`{it}`" for it in left) if left else ""
        if verdict == "no proof" and why:
            self.take_left(function, why)
        if verdict == "not proved" and not ONLY_CALLS.match(why):
            of_cycle = [
                line
                for path, line in errors
                if "/+" in path and own.startswith(path.partition("/+")[0] + "/") and not LOST_NAME.search(line)
            ]
            self.take_refused(function, refused, of_cycle)

    def take_left(self, function, why):
        """Takes what is said of a function that has goals without a proof."""
        goals = [it.strip("`") for found in UNSHOWN.findall(why) for it in found.split(", ")]
        is_of_others = goals and self.is_shared(why) and not any(is_goal_of(function, it) for it in goals)
        if not ONLY_CALLS.match(why) and not is_of_others and NOT_TRIED not in why:
            self.reasons[function], self.goals[function] = why, frozenset(goals)
            self.clauses[function] = [clause_of(function, it) for it in goals]

    def take_refused(self, function, refused, of_cycle):
        """Takes what is said of a function of which declarations are refused: these errors, and those of its cycle of
        calls."""
        of_values = [line for line in refused if not LOST_NAME.search(line)]
        of_values += [
            line for line in of_cycle if any(is_goal_of(function, it) for it in GOAL_OF_ERROR.findall(line))
        ]
        goals = [it for line in of_values or of_cycle for it in GOAL_OF_ERROR.findall(line)]
        self.reasons[function], self.goals[function] = next(iter(of_values), ""), frozenset(self.refused[function])
        self.clauses[function] = [clause_of(function, it) for it in goals]
        if of_cycle and not of_values:
            self.in_cycles[function] = of_cycle[0]
        if refused and not of_values:
            self.by_names[function] = refused[0]

    def functions_of(self, edit, is_alone):
        """The functions of an edit that the check names; all of them where it names none of those. A constant may show
        in any function, which says something of an edit that is tried alone."""
        own = edit.functions & self.reasons.keys() if not (edit.is_of_constant and is_alone) else set()
        return [name for name in self.reasons if not own or is_within(name, own)]

    def of(self, edit, reasons, is_alone):
        """The first of these reasons that is one of the edit's functions."""
        return next((reasons[name] for name in self.functions_of(edit, is_alone) if reasons.get(name)), "")

    def clauses_of(self, edit, is_alone):
        """The clauses of the edit's functions that weren't shown, those of contracts first."""
        found = dict.fromkeys(it for name in self.functions_of(edit, is_alone) for it in self.clauses[name])
        return sorted(found, key=lambda it: "-" in it)

    def refuses_others(self, edits):
        """Whether a function that none of the edits changes is refused for a reason of its own. That the empty loop in
        place of its body has no measure is none."""
        functions = {it for edit in edits for it in edit.functions}
        others = (why for name, why in self.reasons.items() if not is_within(name, functions))
        return any(why and not why.startswith(WANTS_MEASURE) for why in others)


def is_within(name, functions):
    """Whether a function is one of these, or a closure in one."""
    return name in functions or any(name.startswith("{0}::fn::{2}::".format(*it.rpartition("::"))) for it in functions)


class Room:
    """Where the edits of a crate are tried, each check in a copy of the crate, over what the checks before kept. It may
    write the clauses that refuse them, and a check may have more jobs than one where that saves time: together these
    take up to a third more of the processors.
    """

    def __init__(self, crate, folder, kept, writes, hurries):
        self.crate, self.folder, self.kept = crate, Path(folder), Path(folder) / "kept"
        self.checks, self.writes, self.hurries = 0, writes, hurries
        # The goals at which edits were refused that name none.
        self.goals = {}
        if kept.is_dir():
            shutil.copytree(kept, self.kept)

    def keep(self):
        """Has each check keep what it did. That takes time, which only later checks make good."""
        self.kept.mkdir(exist_ok=True)

    def copy(self, texts, changes, edited, assumes):
        """Makes a copy of the crate with these texts, and the proofs that the changes behind them need, and the
        functions that are edited in their places. It may assume the crate's lemmas."""
        copy = self.folder / "copy"
        shutil.rmtree(copy, ignore_errors=True)
        for part in PARTS:
            if (self.crate.folder / part).is_dir():
                shutil.copytree(self.crate.folder / part, copy / part)
        for path, text in texts.items():
            (copy / path).write_text(text, "utf-8")
        for change in changes:
            if isinstance(change, (Stub, Twin)):
                change.assume(copy)
        for function in edited:
            refuse_in_place(copy, function)
        if assumes:
            assume_lemmas(self.crate.name, copy)
        return copy

    def check(self, edits, functions=(), edited=()):
        """What a check says of the crate with these edits: of these functions, over the contracts of the others and the
        lemmas as they are stated, or of all where none is named. Of those that are edited in their places it doesn't
        print the goals that are left."""
        changes = [it for edit in edits for it in edit.changes]
        stubs = self.crate.stubs_beside(functions) if functions else []
        words = [word for it in sorted(functions) for word in ("--only", it.partition("::")[2])]
        words += ["--jobs", str(idle_processors() if self.hurries else 1)]
        words += ["--incremental", str(self.kept)] if self.kept.is_dir() else []
        words += ["--allow-holes"] if functions else []
        self.checks += 1
        changes += stubs
        at_goals = {it.name for it in changes if isinstance(it, Twin) and it.goals}
        copy = self.copy(self.crate.changed(changes), changes, edited, bool(functions))
        return Verdict(*Commands.run([*self.crate.command, *words], copy), at_goals)

    def errors_in(self, edit, verdict):
        """The errors that the last check told in the new texts of an edit."""
        return [
            error
            for path, line, error in verdict.places
            for it in edit.changes
            if it.path == path and self.has_line(it, line)
        ]

    def has_line(self, change, line):
        """Whether a line of the last check's copy stands in the new text of a change."""
        text = (self.folder / "copy" / change.path).read_text("utf-8")
        start = text.find(change.new)
        return text.count("\n", 0, start) < line <= text.count("\n", 0, start + len(change.new)) + 1


def rounds_of(edits, crate):
    """Parts edits into rounds of about one size, each for one check."""
    count = math.ceil(len(edits) / MOST_IN_A_ROUND)
    most, rounds = math.ceil(len(edits) / max(count, 1)), []
    for edit in edits:
        fits = (it for it in rounds if len(it) < most and all(edit.fits(other, crate) for other in it))
        together = next(fits, None)
        if together is None:
            rounds.append([edit])
        else:
            together.append(edit)
    return rounds


def try_together(room, edits):
    """The edits of a round that are refused or don't compile, each with what to say of it. Where some don't compile,
    the others are tried without them; where a check fails and tells no place, as for want of memory, by halves."""
    made, as_they_are = room.crate.side_by_side(edits), room.crate.as_they_are(edits)
    tried = [*made.values(), *as_they_are.values()]
    in_place = {it for edit, other in made.items() if edit is other for it in edit.functions}
    edited = {it for it in in_place if not room.crate.calls_itself(it)}
    verdict = room.check(tried, {it for edit in tried for it in edit.functions}, edited)
    if verdict.trouble:
        broken = {edit: (False, unreached(line)) for edit, it in made.items() for line in room.errors_in(it, verdict)}
        left, half = [it for it in edits if it not in broken], len(edits) // 2
        parts = [left] if broken else [left[:half], left[half:]] if half else []
        return broken | {edit: said for part in parts if part for edit, said in try_together(room, part).items()}
    if verdict.is_proved or verdict.refuses_others(tried):
        return {}
    reasons = {
        edit: verdict.of(it, verdict.reasons, False)
        for edit, it in made.items()
        if it.functions & verdict.reasons.keys() and not is_void(edit, as_they_are, verdict)
    }
    for edit, it in made.items():
        if not edit.goals and len(it.functions) == 1 and not edit.functions & room.crate.cycles.keys():
            room.goals[edit] = verdict.goals.get(*it.functions, frozenset())
    told = {edit: refused_by(room, made[edit], verdict, f"refused: {why}") for edit, why in reasons.items() if why}
    # One that seems to be refused by other clauses is tried alone: more is said there of what isn't proved.
    return {edit: said for edit, said in told.items() if said[0]}


def is_void(edit, as_they_are, verdict):
    """Whether the goals that an edit names say nothing of it, since a function as it is was refused there too."""
    plain = [as_they_are[it] for it in edit.functions & as_they_are.keys()] if edit.goals else []
    return any(edit.goals & verdict.refused.get(*it.functions, edit.goals) for it in plain)


def unreached(error):
    return f"NOT refused: it didn't reach the prover: {error}"


def why_alone(room, edit, functions=()):
    """What a check of these functions, or of all, says of an edit, and for which reason it refuses it, if for one of
    its own."""
    verdict = room.check([edit], functions)
    reached = not verdict.is_proved and not verdict.trouble
    return verdict, reached and (verdict.of(edit, verdict.reasons, True) or verdict.of(edit, verdict.in_cycles, True))


def refused_by(room, edit, verdict, said, is_alone=False):
    """Whether an edit that is refused names a clause that refuses it, and what to say of it."""
    clauses = verdict.clauses_of(edit, is_alone)
    kept = [it.kept for it in edit.changes if isinstance(it, Twin)]
    if edit.clause and kept and all(it == {edit.clause} for it in kept):
        # The contract of the twin is that clause alone.
        clauses = [edit.clause if it == "returns" else it for it in clauses]
    if room.writes and clauses and edit.clause not in clauses:
        edit.write_clause(clauses[0])
    if edit.clause in clauses:
        return True, said
    named = f"by {edit.clause}" if edit.clause else "by a clause that it names"
    return False, f"NOT refused {named}, but by {', '.join(clauses) or 'none that the check names'}: {said}"


def try_alone(room, edit):
    """Whether an edit is refused, and what to say of it."""
    verdict, why = why_alone(room, edit, edit.functions)
    if not why:
        verdict, why = why_alone(room, edit)
    if why:
        return refused_by(room, edit, verdict, f"refused (alone): {why}", True)
    if verdict.is_proved:
        return False, "NOT refused: the crate is still proved with it"
    if verdict.trouble:
        return False, unreached(verdict.trouble)
    by_names = verdict.of(edit, verdict.by_names, True)
    if by_names:
        return False, f"NOT refused but by names that it took away, which says nothing of the contract: {by_names}"
    return False, "NOT refused: its functions got no reason of their own"


def try_edits(room, edits):
    """Whether each edit is refused. What there is to say of it is printed as soon as it is known."""
    said = {}

    def say(found):
        for edit, (is_refused, text) in found.items():
            said[edit] = is_refused
            print(f"must-fail {edit.name}: {text[:300]}", flush=True)

    say({edit: (False, f"NOT refused: BAD EDIT: {edit.wrong}") for edit in edits if edit.wrong})
    # Those of one function come into one round, where the function as it is may have to be proved too.
    left = sorted((it for it in edits if not it.wrong), key=lambda it: sorted(it.functions))
    if len(rounds_of(left, room.crate)) > 1 or room.writes:
        room.keep()
    found = True
    while found:
        # A function may wait for the proof of another that is edited too, so a round of what is left can tell more.
        found = {}
        for together in rounds_of(left, room.crate):
            if len(together) > 1:
                told = try_together(room, together)
                say(told)
                found.update(told)
        left = [it for it in left if it not in found]
    for edit in edits:
        if edit not in said:
            say({edit: try_alone(room, edit)})
    if room.writes:
        write_goals(room, [it for it in edits if said[it] and room.goals.get(it)])
    return [*said.values()]


def goals_of_clause(room, edit):
    """The goals at which an edit is refused that are about its clause, or about the whole contract: those that have a
    written answer first, since it fails at once."""
    (function,) = edit.functions
    written = answered(room.crate.answers_of(function))
    found = [it for it in room.goals[edit] if clause_of(function, it) in (edit.clause, "returns")]
    return sorted(found, key=lambda it: (it not in written, it))


def write_goals(room, edits):
    """Writes into edits that are refused a goal at which they are, if they are refused too where nothing is tried but
    its written answer or `search rules`. If they aren't, the next one is tried, but no third."""
    left = {it: goals_of_clause(room, it)[:2] for it in edits}
    while any(left.values()):
        tried = [it for it, goals in left.items() if goals]
        for edit in tried:
            edit.goals = frozenset([left[edit].pop(0)])
        for together in rounds_of(tried, room.crate):
            told = try_together(room, together)
            for edit in together:
                if edit in told and told[edit][0]:
                    edit.write_head()
                    left[edit] = []


def try_crate(proved, name, files, writes):
    """Whether each edit of a crate is refused."""
    started = time.monotonic()
    if name in proved.unmade:
        print(
            *(f"must-fail {name}/{it.name}: NOT tried: the crate isn't proved without it" for it in files),
            sep="\n",
            flush=True,
        )
        return [False] * len(files)
    crate = Crate(name, proved.crates.folder(name), proved.crates.size(name), proved.checking(proved.crates, name))
    edits = [read_edit(it, crate) for it in files]
    with tempfile.TemporaryDirectory(prefix="must-fail-") as folder:
        room = Room(crate, folder, kept_of(proved.crates, name), writes, not proved.is_by_ci)
        tried = try_edits(room, edits)
    print(
        f"must-fail {crate.name}: {len(files)} edits, {room.checks} checks, {time.monotonic() - started:.0f} s",
        flush=True,
    )
    return tried


def find_edits():
    """The edits of each crate, and the files beside them that are none."""
    edits, strays = {}, []
    for file in sorted(it for it in Path("crates").glob("*/must-fail/**/*") if it.is_file()):
        if file.suffix == ".edit" and len(file.parts) == 4:
            edits.setdefault(file.parts[1], []).append(file)
        elif file.suffix != ".md":
            strays.append(file)
    return edits, strays


def wanted_of(edits, wanted):
    """Those of the edits that are asked for, by crates and names."""
    found = {}
    for crate, _, name in (it.removesuffix(".edit").partition("/") for it in wanted):
        found.setdefault(crate, []).extend(it for it in edits.get(crate, []) if not name or it.stem == name)
    return found


def main():
    Commands.stop_with_this()
    asked = argparse.ArgumentParser(
        description="Tries the edits that the prover must refuse, many of a crate in one check."
    )
    asked.add_argument("--jobs", type=int, help="how many crates at a time")
    asked.add_argument("--proved", metavar="FOLDER", help="a copy of the repository that rt ci has just proved")
    asked.add_argument("--write", action="store_true", help="write the clauses that refuse the edits into them")
    asked.add_argument(
        "wanted", nargs="*", metavar="CRATE or CRATE/NAME", help="the edits of a crate, or one of them; none: all"
    )
    words = asked.parse_args()
    edits, strays = find_edits()
    edits = wanted_of(edits, words.wanted) if words.wanted else edits
    jobs = words.jobs or int(os.environ.get("RT_JOBS") or checks_side_by_side())
    proved = Proved(Path(words.proved or ".").resolve(), list(edits), jobs, bool(words.proved))
    passed, failed = 0, len(strays)
    for file in strays:
        print(f"{file}: NOT an edit: those end in .edit, in must-fail/ itself; what is only to be read ends in .md")
    with ThreadPoolExecutor(jobs) as pool:
        largest_first = sorted(edits, key=lambda it: -proved.crates.size(it))
        running = [pool.submit(try_crate, proved, it, edits[it], words.write) for it in largest_first]
        for tried in (it.result() for it in running):
            passed, failed = passed + sum(tried), failed + len(tried) - sum(tried)
    return say(passed, failed)


if __name__ == "__main__":
    sys.exit(main())
