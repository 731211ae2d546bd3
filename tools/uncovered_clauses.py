#!/usr/bin/env python3
"""Lists the clauses of the main public calls (CALLS) that no edit breaks.

    tools/uncovered_clauses.py [--spare] [CRATE ..]

A clause is covered by an edit of its call's own body whose line `# refused by:` names it. Where a contract is one
clause, any edit of the body covers it that no invariant of a type refuses: `returns` and steps of the proof are of that
clause then. A body that only hands on may be right in itself: then an edit of what it calls has a line
`# clause of: CALL CLAUSE`, with a call as it stands in CALLS, and the name of the clause, `returns` where it has none.
So has an edit that a step of a proof refuses, where the contract has more clauses than one. ALONE names the clauses that
no body can break (decision 134 in docs/DECISIONS.md). --spare prints, for each clause of a call, all edits that cover
it, and then the edits that cover none. The last line is `N passed, M failed`: clauses.
"""
import re
import sys
from pathlib import Path

sys.dont_write_bytecode = True
from edits import Crate, read_edit
from function_bodies import blanked, item_of
from verdict import say

CALLS = {
    "mbox_cutter": "FromRead::new FromReadSource::read_next ToWrite::new ToWriteOut::put MemorySource::new"
    " MemorySourceSource::read_next MemoryOut::new MemoryOut::bytes MemoryOutOut::put is_separator is_empty_line line_end"
    " Cutter::new Cutter::next_event",
    "mail_words": "Words::of WordsIterator::next fold is_one_word is_part_of_word",
    "header_text": "Header::new Header::push_line Header::fields unfold decode_words Charset::of decode message_ids",
    "mail_dates": "Moment::new read_date range_of iso_range Range::has",
    "mime_text": "MessageText::new MessageText::line MessageText::end",
    "mail_query": "Query::root read_mairix read_boolean",
    "mairix_options": "plan_of usage_text read_rc",
    "mail_index": "is_path Builder::new Builder::begin_archive Builder::begin_message Builder::add Builder::end_message"
    " Builder::end_archive Builder::write IndexView::open IndexView::archive_count IndexView::archive"
    " IndexView::message_count IndexView::message IndexView::look_up IndexView::keys Postings::next"
    " Postings::next_at_least Steps::new Steps::tick Steps::count",
    "index_job": "IndexJob::new IndexJob::archive IndexJob::finish",
    "mail_answer": "matches with_threads answer verify",
    "run_faults": "fault_text",
    "index_run": "file_of_archives send_index",
    "mairix_tool": "search_run once_run",
    "named_files": "take_name replace_file",
    "mairix_run": "run_program run_command",
}

# Clauses that no body can break alone, as `CRATE CALL CLAUSE`.
ALONE = {
    "mbox_cutter Cutter::new source",
    "header_text Header::fields bounded",
    "index_job IndexJob::archive stays",
    "index_job IndexJob::finish formed",
    "mail_index Builder::end_archive within",
    "mail_index Builder::write formed",
    "mail_query Query::root bounded",
    "mime_text MessageText::end sizes",
    "mail_answer answer keeps",
    "mail_answer verify keeps",
    "index_run file_of_archives early",
    "mairix_tool search_run by_messages",
    "mairix_tool search_run keeps",
    "mairix_tool once_run reply",
    "named_files take_name others",
    "named_files take_name none",
    "named_files replace_file others",
    "named_files replace_file none",
    "mairix_run run_program none",
    "mairix_run run_command none",
}

ENSURES = re.compile(r"^ *ensures\*?(?: (\w+))? (?=\{)", re.M)
CLAUSE_OF = re.compile(r"^# clause of: (\S+) (\S+)$", re.M)


def clauses_of_calls(crate):
    """The names of the clauses of each call of a crate, with the function as a check prints it."""
    found = {}
    for call in CALLS.get(crate.name, "").split():
        (function,) = (it for it in crate.every_body if f"::{it}".endswith(f"::{call}"))
        path, body, _ = crate.every_body[function]
        text = crate.text(path)
        head = blanked(text[item_of(text, body)[0] : body])
        # A method of a trait may have its contract there.
        found[call] = function, [name or "returns" for name in ENSURES.findall(head)] or ["returns"]
    return found


def covered_by(edit, calls):
    """The calls and clauses that an edit covers."""
    for call, (function, clauses) in calls.items():
        is_of_clause = edit.clause in clauses or len(clauses) == 1 and not edit.clause.startswith("invariant_of-")
        if edit.functions == {function} and is_of_clause:
            yield call, clauses[0] if len(clauses) == 1 else edit.clause
    for call, clause in CLAUSE_OF.findall(edit.file.read_text("utf-8")):
        if clause not in calls.get(call, ("", []))[1]:
            sys.exit(f"{edit.file}: {call} has no clause {clause}, or isn't in CALLS of tools/uncovered_clauses.py")
        yield call, clause


def main(words):
    passed = failed = 0
    is_spare = "--spare" in words
    for name in [it for it in words if it != "--spare"] or CALLS:
        crate = Crate(name, Path("crates") / name, 0, [])
        calls, edits = clauses_of_calls(crate), sorted((crate.folder / "must-fail").glob("*.edit"))
        covering = [(edit, list(covered_by(edit, calls))) for edit in (read_edit(it, crate) for it in edits)]
        for call, clause in ((call, it) for call, (_, clauses) in calls.items() for it in clauses):
            names = [edit.file.stem for edit, covered in covering if (call, clause) in covered]
            is_covered = bool(names) or f"{name} {call} {clause}" in ALONE
            passed, failed = passed + is_covered, failed + (not is_covered)
            if is_spare:
                print(f"{name} {call} {clause}: {', '.join(names)}")
            elif not is_covered:
                print(f"{name}: NOT broken by any edit: {clause} of {call}")
        for edit in (edit for edit, covered in covering if is_spare and not covered):
            print(f"{name}: covers no clause of these calls: {edit.file.stem}, of {' '.join(sorted(edit.functions))}")
    return say(passed, failed)


if __name__ == "__main__":
    sys.exit(main(sys.argv[1:]))
