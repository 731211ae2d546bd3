"""Edits of a crate, and the crate with them: what a check needs of a copy in which functions are edited."""
import os
import re
import shutil
from dataclasses import dataclass, field, replace
from functools import cached_property
from pathlib import Path

from function_bodies import (
    blanked,
    bodies_of_file,
    block_end,
    impl_name,
    inherent,
    item_of,
    module_of as module_of_file,
)
from lemmas import begins_with, lemmas_of

TRAIT = re.compile(r"\btrait (\w+)")
# The beginning of an impl of a trait, with the trait's name.
IMPL_OF = re.compile(r"impl\b(?:<[^{]*?>)? ?(?:\w+::)*(\w+)(?:<[^{]*>)? for\b")

# The line of an edit that names the clause which refuses it.
CLAUSE = re.compile(r"^# refused by: (\S+)\n", re.M)
# The lines of an edit that name the goals at which it is refused.
GOAL = re.compile(r"^# at: (\S+)\n", re.M)
# The line of an edit of a constant that names a function which doesn't name the constant, and in which the edit shows
# all the same.
SHOWS_IN = re.compile(r"^# shows in: (\S+)$", re.M)
# What stands above a function that is proved together with others, with a name for all of them.
IN_A_CYCLE = re.compile(r"^ *#\[cycle\((\w+)\)\]\n(?= *(?:pub(?:\([^)]*\))? )?fn )", re.M)
# What opens a clause of a contract that has a name.
CLAUSE_HEAD = re.compile(r"^ *ensures\*? (\w+) (?=\{)", re.M)
# A clause that holds, beside which another one keeps its name in goals.
TRIVIAL = "    ensures beside { record {} }"
# A goal of a clause of a function's own contract that has a name.
GOAL_OF_CLAUSE = re.compile(r"returns\b.*-clause-(\w+)")
# A goal of a function that is proved together with others: what is asked, the function, and the goal.
GOAL_OF_CYCLE = re.compile(r"(invariant-|decreases-|)([^-]+)-?(.*)")
# What a loop of a function has by name only where the function calls itself, directly or in a cycle.
ONLY_IN_A_CYCLE = re.compile(r"\bgoal\.(?:unvisited|no_deeper|left|size)-")
# What says which tactics are tried at the goals of a function that have no answer.
TACTIC = re.compile(r"^ *#\[tactic\([^\n]*\)\]\n", re.M)
# The files of a function's proofs. All others have lemmas.
OF_FUNCTIONS = ("Answers.antt", "Invariants.antt", "Proof.antt")
# A declaration that is always refused: a set of lemmas is no type.
REFUSED = "goals-that-are-left"
# An import of the lemmas that `search` goes by if it is given no others.
RULES = re.compile(r"^use .*[{ ]rules[,}]", re.M)
# A line of a lemma that names definitions of its file of which it sees what they are.
UNFOLDING = re.compile(r"^ *unfolding (.*)")
# A constant of a module, to its end.
CONSTANT = re.compile(r"^(?:pub(?:\([^)]*\))? )?(?:const|static) (\w+).*?;$", re.M | re.S)


@dataclass(frozen=True)
class Change:
    """A new text for a part of a crate's file."""

    path: str
    start: int
    end: int
    new: str


@dataclass(frozen=True)
class Stub(Change):
    """An empty loop for the body of a function that a check doesn't look at, so that the check doesn't look at those
    that it calls either, and the name of its cycle of calls, which ends there."""

    function: str
    cycle: str

    def assume(self, copy):
        """Has a check of this copy of the crate take the function's contract as it stands."""
        folder, name = proofs_of(copy, self.function), self.function.rpartition("::")[2]
        folder.mkdir(parents=True, exist_ok=True)
        for written in OF_FUNCTIONS:
            (folder / written).unlink(missing_ok=True)
        for together in list((copy / "proofs").rglob(f"+{self.cycle}")) if self.cycle else []:
            shutil.rmtree(together)
        proof = use_of_assumed(self.function.partition("::")[0])
        proof += f"use {module_of(self.function)}.Statement.{{statement}}\n\n"
        proof += f"pub {name}_spec : {{M : Type 1}} → statement M\n{name}_spec = assumed\n"
        (folder / "Proof.antt").write_text(proof, "utf-8")


@dataclass(frozen=True)
class Twin(Change):
    """An edited function under a second name, behind the one that it is made of, so that a check tries more than one
    edit of it, the clauses that its contract keeps, None where that is all of them, the name of the other's cycle of
    calls, and the goals at which alone something is tried: their written answer, or else `search rules`. It calls the
    functions of that cycle, and none of them calls it."""

    function: str
    name: str
    kept: frozenset
    cycle: str
    goals: frozenset

    def assume(self, copy):
        """Gives it the written proofs of the other, but for goals of clauses that it doesn't keep."""
        for path, text in written_proofs(copy, self.function, self.cycle, self.name).items():
            file = proofs_of(copy, self.name) / path
            file.parent.mkdir(parents=True, exist_ok=True)
            file.write_text(text if self.kept is None else with_answers(text, self.kept), "utf-8")
        folder = proofs_of(copy, self.name)
        if not (folder / "Proof.antt").is_file():
            folder.mkdir(parents=True, exist_ok=True)
            self.write_answers(folder / "Answers.antt")

    def write_answers(self, file):
        """Writes its answers: of the goals that are named alone, if any are, and a declaration that is refused."""
        text = file.read_text("utf-8") if file.is_file() else ""
        if self.goals:
            text = with_searches(with_declarations(text, self.goals), f"{module_of(self.name)}.Goals", self.goals)
        file.write_text(with_refused(text), "utf-8")


def written_proofs(crate, function, cycle, name):
    """The files of a function's written proofs in this folder of its crate, with their texts under another name of the
    function. Of one that is proved together with others these are its own proofs, as it has them where no other calls
    it."""
    folder = next((crate / "proofs").rglob(f"+{cycle}")) if cycle else proofs_of(crate, function)
    module = f"Rattle.{function.partition('::')[0]}.{'.'.join(folder.relative_to(crate).parts)}"
    texts = {
        it.relative_to(folder): it.read_text("utf-8").replace(f"{module}.", f"{module_of(name)}.")
        for it in folder.rglob("*.antt")
    }
    return {path: with_own_goals(text, function) if cycle else text for path, text in texts.items()}


def with_own_goals(text, function):
    """Of the proofs of a cycle of calls those to this function's goals, as they stand where the function is in no
    cycle: the goals have other names, the answers one parameter less, and its calls don't have to be of something
    smaller."""
    lines, own = text.split("\n"), ""
    for proof in reversed(lemmas_of(lines)):
        kind, owner, goal = GOAL_OF_CYCLE.fullmatch(proof.name).groups()
        if goal and is_goal_of(function, owner) and not goal.endswith("-requires"):
            own = owner
        elif kind or goal:
            del lines[proof.start : proof.end]
    named = (
        re.sub(rf"(?<![\w.-])((?:goal\.)?(?:\w+-)?){re.escape(own)}-", r"\1", "\n".join(lines))
        if own
        else "\n".join(lines)
    )
    return re.sub(r"^((?!invariant-|decreases-)[\w:-]+) t (?=c =)", r"\1 ", named, flags=re.M)


def is_goal_of(function, goal):
    """Whether a goal of a cycle of calls is this function's: its name begins with the function's."""
    return function.endswith(f"::{goal.partition('-')[0].replace('.', '::')}")


def with_answers(text, kept):
    """Answers without those to goals of clauses that aren't kept."""
    lines = text.split("\n")
    for answer in reversed(lemmas_of(lines)):
        found = GOAL_OF_CLAUSE.fullmatch(answer.name)
        if found and found[1] not in kept:
            del lines[answer.start : answer.end]
    return "\n".join(lines)


def with_declarations(text, names):
    """Answers without those that none of these needs."""
    lines = text.split("\n")
    answers = {it.name: it for it in lemmas_of(lines)}
    needed, before = set(names) & answers.keys(), None
    while needed != before:
        before = needed
        texts = ["\n".join(lines[answers[it].start : answers[it].end]) for it in needed]
        needed = needed | {name for name in answers if any(names_it(text, name) for text in texts)}
    for answer in reversed(list(answers.values())):
        if answer.name not in needed:
            del lines[answer.start : answer.end]
    return "\n".join(lines)


def names_it(text, name):
    """Whether a text of a proof has this name."""
    return bool(re.search(rf"(?<![\w.-]){re.escape(name)}(?![\w-])", text))


def answered(text):
    """The goals that have an answer in a text of answers."""
    return {it.name for it in lemmas_of(text.split("\n"))}


def with_searches(text, module, goals):
    """Answers with `search rules` for each of these goals of a module that has no answer."""
    uses = [] if f"use {module} as goal\n" in text else [f"use {module} as goal\n"]
    searches = (f"\npub {it} : goal.{it}\n{it} = search rules\n" for it in sorted(goals - answered(text)))
    return "".join([*uses, text, *searches])


def with_refused(text):
    """Answers with a declaration that is refused, so that the check doesn't print each goal that is left."""
    uses = "" if RULES.search(text) else "use Rattle.std.proofs.Common.{rules}\n"
    return f"{uses}{text}\n{REFUSED} : rules\n{REFUSED} = rules\n"


def use_of_assumed(crate):
    """The import of what stands in this crate for each proof of what a check takes as it is stated."""
    return f"use Rattle.{crate}.proofs.Assumed.{{assumed}}\n"


def assume_lemmas(crate, copy):
    """Has a check of this copy of a crate take its lemmas as they are stated. One hole stands for all their proofs: the
    check would print the goal of each."""
    proofs = copy / "proofs"
    for file in (it for it in proofs.rglob("*.antt") if it.name not in OF_FUNCTIONS):
        file.write_text(use_of_assumed(crate) + without_proofs(file.read_text("utf-8")), "utf-8")
    (proofs / "Assumed.antt").write_text("pub assumed {ℓ} : {A : Type ℓ} → A\nassumed = ?\n", "utf-8")
    with open(proofs / "Lib.antt", "a", encoding="utf-8") as modules:
        modules.write("\npub mod Assumed\n")


def without_proofs(text):
    """Lemmas that are taken as they are stated, but for those of which others see what they are, and those in a module
    of the file."""
    lines = text.split("\n")
    shown = {name for line in lines for found in UNFOLDING.findall(line) for name in found.split()}
    for lemma in reversed(lemmas_of(lines)):
        end = lemma.end
        while end < len(lines) and (not lines[end][:1].strip() or begins_with(lines[end], "", lemma.name)):
            end += 1
        if lemma.proof and lemma.name not in shown:
            lines[lemma.proof : end] = [f"{lemma.name} = assumed", ""]
    return "\n".join(lines)


def refuse_in_place(copy, function):
    """Writes the declaration that is refused into the answers of a function of this copy that is edited in its place.
    One with a proof of its own has no answers."""
    folder = proofs_of(copy, function)
    if not (folder / "Proof.antt").is_file():
        folder.mkdir(parents=True, exist_ok=True)
        file = folder / "Answers.antt"
        file.write_text(with_refused(file.read_text("utf-8") if file.is_file() else ""), "utf-8")


def proofs_of(crate, function):
    """The folder of a function's written proofs in this folder of its crate."""
    return crate / "proofs" / function.partition("::")[2].replace("::", "/")


def module_of(function):
    """The module of a function's proofs."""
    crate, _, path = function.partition("::")
    return f"Rattle.{crate}.proofs.{path.replace('::', '.')}"


@dataclass(eq=False)
class Edit:
    """An edit: its file, its changes, its functions, whether it changes a constant, and the clause that it says refuses
    it; or what is wrong with it."""

    file: Path
    name: str
    clause: str = ""
    changes: list = field(default_factory=list)
    functions: set = field(default_factory=set)
    is_of_constant: bool = False
    goals: frozenset = frozenset()
    wrong: str = ""

    def fits(self, other, crate):
        """Whether one check tries both: where they change the same function, each has a twin of it."""
        return not self.functions & other.functions or crate.can_have_twin(self) and crate.can_have_twin(other)

    def write_clause(self, clause):
        """Writes the line that names the clause which refuses it."""
        self.clause = clause
        self.write_head()

    def write_head(self):
        """Writes the lines in front: the clause that refuses it, and the goals at which it is refused."""
        rest = GOAL.sub("", CLAUSE.sub("", self.file.read_text("utf-8")))
        goals = "".join(f"# at: {it}\n" for it in sorted(self.goals))
        self.file.write_text(f"# refused by: {self.clause}\n{goals}{rest}", "utf-8")


def pairs_of(text):
    """Yields the file, the old text and the new one of each pair of an edit, None for those that it doesn't give."""
    path = old = None
    for line in text.split("\n"):
        if line.startswith("file: "):
            path = line[len("file: ") :].strip()
        elif line.startswith("old: "):
            old = line[len("old: ") :]
        elif line.startswith("new:"):
            yield path, old, line[len("new:") :].removeprefix(" ")
            old = None


def place_in_own(place, length, changes):
    """Where a text stands in the crate's own file that stands at `place` behind these changes of the file; -1 where
    they made a part of it."""
    for start, old, new in reversed(changes):
        if start + new <= place:
            place += old - new
        elif place + length > start:
            return -1
    return place


def read_edit(file, crate):
    """Reads an edit of this crate."""
    text = file.read_text("utf-8")
    edit = Edit(file, f"{crate.name}/{file.name}", *CLAUSE.findall(text)[:1], goals=frozenset(GOAL.findall(text)))
    texts, before = {}, {}
    for path, old, new in pairs_of(text):
        if not path or not old or os.path.normpath(path) != path or not path.startswith(("src/", "specs/", "proofs/")):
            edit.wrong = "a 'new:' line stands behind no 'old:' line, or the 'file:' line names no file of the crate"
            return edit
        now = texts.get(path, crate.text(path))
        if now.count(old) != 1:
            edit.wrong = f"an 'old:' text is in {path} {now.count(old)} times, and not once"
            return edit
        start = place_in_own(now.find(old), len(old), before.setdefault(path, []))
        end = start + len(old)
        before[path].append((now.find(old), len(old), len(new)))
        texts[path] = now.replace(old, new)
        inside = [name for begins, ends, name in crate.bodies(path) if begins < start and end < ends]
        edit.changes.append(Change(path, start, end, new))
        changed = {*inside[-1:]} or crate.functions_naming(edit.changes[-1])
        if not changed:
            edit.wrong = f"an 'old:' text of {path} is in no body, and in no constant that one names"
            return edit
        edit.functions.update(changed)
        edit.is_of_constant = edit.is_of_constant or not inside
    edit.functions.update(f"{crate.name}::{it}" for it in SHOWS_IN.findall(text))
    if not edit.changes:
        edit.wrong = "it has no 'old:' and 'new:' pair"
    return edit


@dataclass
class Crate:
    """A crate whose text is edited: its name, its folder, how many bytes of text it has, and the command of a check in
    a copy of it, but for its jobs and the folder of kept work."""

    name: str
    folder: Path
    size: int
    command: list

    def text(self, path):
        file = self.folder / path
        return file.read_text("utf-8") if file.is_file() else ""

    def bodies(self, path):
        return bodies_of_file(self.name, path, self.text(path))

    @cached_property
    def every_body(self):
        """The file, the start and the end of each function's body."""
        return {name: (path, start, end) for path in self.sources() for start, end, name in self.bodies(path)}

    def sources(self):
        return [str(it.relative_to(self.folder)) for it in (self.folder / "src").rglob("*.rt")]

    def changed(self, changes):
        """The texts of the files that have changes, with them."""
        paths = {it.path for it in changes}
        return {path: changed(self.text(path), [it for it in changes if it.path == path]) for path in paths}

    @cached_property
    def cycles(self):
        """The functions that are proved together with others, each with the file and the place of what says so."""
        marks = ((path, mark) for path in self.sources() for mark in IN_A_CYCLE.finditer(self.text(path)))
        return {
            next(name for start, _, name in self.bodies(path) if start > mark.start()): (path, mark)
            for path, mark in marks
        }

    def cycle_of(self, function):
        """The name of the cycle of calls that a function is in, or an empty text."""
        return self.cycles[function][1][1] if function in self.cycles else ""

    def stubs_beside(self, functions):
        """Changes that make stubs of all functions but these and those that are proved together with one of these."""
        looked_at = {self.cycle_of(it) for it in functions}
        ended = {name: at for name, at in self.cycles.items() if at[1][1] not in looked_at}
        changes = [Change(path, mark.start(), mark.end(), "") for path, mark in ended.values()]
        for name, (path, start, end) in self.every_body.items():
            if name not in functions and (name in ended or name not in self.cycles) and not self.is_of_own_trait(name):
                changes.append(Stub(path, start, end, "{ loop {} }", name, self.cycle_of(name)))
        return changes

    @cached_property
    def own_traits(self):
        """The names of the crate's traits."""
        return {name for path in self.sources() for name in TRAIT.findall(self.text(path))}

    def is_of_own_trait(self, function):
        """Whether a function is a method of one of the crate's traits. An empty loop in its place would want a measure,
        since the crate also calls it through the trait; and what calls it there wouldn't be tried."""
        path, start, _ = self.every_body[function]
        _, impl = item_of(self.text(path), start)
        found = impl and IMPL_OF.match(self.text(path), impl[0])
        return bool(found) and found[1] in self.own_traits

    def can_have_twin(self, edit):
        """Whether the edit is of bodies alone, or of one constant, and each of its functions can have a twin."""
        constant = self.constant_at(edit.changes[0]) if edit.is_of_constant and len(edit.changes) == 1 else None
        is_of_one = constant and self.functions_naming_alone(*constant) == edit.functions
        return bool(is_of_one or not edit.is_of_constant) and all(self.is_doubled(it, edit) for it in edit.functions)

    def is_doubled(self, function, edit):
        """Whether a function can have a twin for an edit: one that calls itself can't, nor one whose contract stands at
        its trait. In a cycle of calls more is required of those that it calls, and its proofs may name what stands only
        there."""
        path, start, _ = self.every_body[function]
        text = self.text(path)
        if function in self.cycles:
            proofs = written_proofs(self.folder, function, self.cycle_of(function), function).values()
            return not edit.clause.endswith("-requires") and not any(ONLY_IN_A_CYCLE.search(it) for it in proofs)
        item, impl = item_of(text, start)
        return not self.calls_itself(function) and not (impl and "ensures" not in text[item:start])

    def calls_itself(self, function):
        """Whether a function calls itself. It has its proofs in another folder then, that of its cycle of calls."""
        path, start, end = self.every_body[function]
        name = function.rpartition("::")[2]
        found = re.search(rf"(?<![.:\w]){name}\(|\b(self\.|Self::){name}\(", self.text(path)[start:end])
        return function in self.cycles or bool(found)

    def twin_of(self, edit, number):
        """The edit with twins of its functions in place of these; one of a constant has a second constant, which they
        name."""
        twins = [self.twin(it, edit, number, self.kept_for(it, edit)) for it in sorted(edit.functions)]
        for change in edit.changes if edit.is_of_constant else []:
            start, end, name = self.constant_at(change)
            inside = replace(change, start=change.start - start, end=change.end - start)
            second = re.sub(
                rf"\b{name}\b", f"{name}_{number}", changed(self.text(change.path)[start:end], [inside]), count=1
            )
            twins.append(Change(change.path, end, end, f"\n{second}"))
        return replace(edit, changes=twins, functions={it.name for it in twins if isinstance(it, Twin)})

    def as_they_are(self, edits):
        """For each function of which some of these edits have twins at goals that say nothing by themselves: it as it
        is, as an edit that changes nothing, with the same answers to these goals. It has to be proved there: otherwise
        they say nothing of the edits."""
        named = {}
        for edit in edits:
            if edit.goals and self.can_have_twin(edit):
                for function in edit.functions - self.cycles.keys():
                    if self.needs_as_it_is(function, edit):
                        named.setdefault(function, []).append(edit)
        found = {}
        for function, of_it in named.items():
            kept = [self.kept_for(function, it) for it in of_it]
            plain = Edit(Path(), function, goals=frozenset().union(*(it.goals for it in of_it)))
            twin = self.twin(function, plain, 0, None if None in kept else frozenset().union(*kept))
            found[function] = replace(plain, changes=[twin], functions={twin.name})
        return found

    def needs_as_it_is(self, function, edit):
        """Whether the goals that an edit names say nothing without the function as it is: one has no written answer, or
        is about the whole contract, of which the twin keeps a part."""
        written, is_cut = answered(self.answers_of(function)), self.kept_for(function, edit) is not None
        of_whole = {it for it in edit.goals if it.startswith("returns") and "-clause-" not in it}
        return bool(edit.goals - written or is_cut and of_whole)

    def kept_for(self, function, edit):
        """Of the clauses with names of a function those that a twin for an edit keeps: the one that refuses the edit,
        where it is said to be one of them, and those that this one's proof names. None where that is all of them."""
        path, body, _ = self.every_body[function]
        text = self.text(path)
        clauses = clauses_of(text[item_of(text, body)[0] : body])
        is_of_one = clauses and edit.clause not in ("", "returns")
        return self.kept_beside(function, edit.clause) & clauses.keys() if is_of_one else None

    def twin(self, function, edit, number, kept):
        """An edited function under another name, whose contract keeps these clauses of those that have names."""
        path, body, end = self.every_body[function]
        text = self.text(path)
        start, impl = item_of(text, body)
        clauses = clauses_of(text[start:body])
        others = [clauses[it] for it in clauses if kept is not None and it not in kept]
        inside = [
            replace(it, start=it.start - start, end=it.end - start)
            for it in edit.changes
            if it.path == path and start <= it.start < end
        ]
        inside += [Change("", *it, TRIVIAL if it == others[0] else "") for it in others]
        item, name = IN_A_CYCLE.sub("", changed(text[start:end], inside)), function.rpartition("::")[2]
        item = re.sub(rf"\bfn {name}\b", f"fn {name}_{number}", item, count=1)
        for change in edit.changes if edit.is_of_constant else []:
            constant, module = self.constant_at(change)[2], module_of_file(self.name, change.path)
            item = re.sub(rf"\b{constant}\b", f"crate{module.removeprefix(self.name)}::{constant}_{number}", item)
        cycle = self.cycle_of(function)
        # In a cycle of calls goals have other names.
        goals = frozenset() if cycle else edit.goals
        item = without_tactics(item, f"{name}_{number}") if goals else item
        rest = (kept, cycle, goals)
        if not impl:
            return Twin(path, end, end, f"\n\n{item}", function, f"{function}_{number}", *rest)
        head, imports = inherent(text[slice(*impl)])
        block = "\n".join([f"\n\n{head} {{", *imports, item, "}"])
        twin = f"{module_of_file(self.name, path)}::{impl_name(head)}::{name}_{number}"
        return Twin(path, impl[1], impl[1], block, function, twin, *rest)

    def answers_of(self, function):
        """The written answers to goals of a function."""
        written = written_proofs(self.folder, function, self.cycle_of(function), function)
        return written.get(Path("Answers.antt"), "")

    def kept_beside(self, function, clause):
        """The clause, and those whose answers stand in the answers that are kept with it."""
        lines = self.answers_of(function).split("\n")
        answers = {it.name: "\n".join(lines[it.start : it.end]) for it in lemmas_of(lines)}
        of_clause = {name: found[1] for name in answers for found in [GOAL_OF_CLAUSE.fullmatch(name)] if found}
        kept, before = frozenset([clause]), None
        while kept != before:
            before = kept
            texts = [text for name, text in answers.items() if of_clause.get(name, clause) in kept]
            kept |= {it for name, it in of_clause.items() if any(names_it(text, name) for text in texts)}
        return kept

    def side_by_side(self, edits):
        """The edits of a round as one check tries them: in twins of their functions, where these can have some."""
        return {
            edit: self.twin_of(edit, number) if self.can_have_twin(edit) else edit
            for number, edit in enumerate(edits, 1)
        }

    def constant_at(self, change):
        """Where the constant starts and ends in which a change stands, and its name; None where it stands in none."""
        constants = ((it.start(), it.end(), it[1]) for it in CONSTANT.finditer(self.text(change.path)))
        return next((it for it in constants if it[0] <= change.start and change.end <= it[1]), None)

    def functions_naming(self, change):
        """The functions that name the constant in which a change stands; none where it stands in no constant."""
        constant = self.constant_at(change)
        named = re.compile(rf"\b{constant[2]}\b" if constant else r"(?!)")
        return {
            name for name, (path, start, end) in self.every_body.items() if named.search(self.text(path), start, end)
        }

    def functions_naming_alone(self, start, end, name):
        """The functions that name a constant, if nothing else names it but imports; none otherwise."""
        named = re.compile(rf"\b{name}\b")
        texts = [
            re.sub(r"(?m)^ *(?:pub(?:\([^)]*\))? )?use .*?;", "", blanked(self.text(it)), flags=re.S)
            for it in self.sources()
        ]
        bodies = {
            it: len(named.findall(self.text(path), start, end)) for it, (path, start, end) in self.every_body.items()
        }
        is_alone = sum(len(named.findall(it)) for it in texts) == 1 + sum(bodies.values())
        return {it for it, count in bodies.items() if count} if is_alone else set()


def without_tactics(item, name):
    """A function of this name of which no goal is proved that has no written answer."""
    return re.sub(
        rf"^( *)(?=(?:pub(?:\([^)]*\))? )?(?:const )?fn {name}\b)",
        r"\1#[tactic(none)]\n\1",
        TACTIC.sub("", item),
        count=1,
        flags=re.M,
    )


def changed(text, changes):
    """The text with these changes."""
    for change in sorted(changes, key=lambda it: -it.start):
        text = text[: change.start] + change.new + text[change.end :]
    return text


def clauses_of(head):
    """Where the clauses stand that have names, in what stands before a function's body."""
    text = blanked(head)
    return {it[1]: (it.start(), block_end(text, it.end())) for it in CLAUSE_HEAD.finditer(text)}
