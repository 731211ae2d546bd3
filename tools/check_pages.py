#!/usr/bin/env python3
"""Compares the pages, the completions and the program's help with the built program and its source. The examples of the manual pages, README.md
and docs/RECIPES.md are run (page_examples.py says how they are written). Each option, text of a fault and prefix stands where readers look for it, and
no others do. Code that a page quotes stands in the file that it names.
A crate's page names each public function, and says what crates.txt says of the crate.
Decisions are in the order of their numbers. README's times and sizes stand in PERFORMANCE.md. mairix(1) names all other manual pages. No page is too
wide, and some aren't too long.

    check_pages.py [PROGRAM]

Without a program all is looked at that needs none: `make lint` does so. The last line is `N passed, M failed`.
"""
import itertools, os, re, shutil, subprocess, sys, tarfile, tempfile
from fnmatch import fnmatch
from pathlib import Path

sys.dont_write_bytecode = True
from verdict import say_of
import version
from crates import Crates
from crates_elsewhere import files_of_caller
from page_examples import TOP, Sandbox, checks_of, roff_text
from signatures import public_signatures

# Texts of faults that no run prints: the parser answers the first two itself, and a job that has failed isn't asked again.
UNTOLD = {"help", "version", "archive N: failed before"}
# How wide the lines of help are at most, and how many tell of a query language, with their title.
WIDTH, LINES_OF_LANGUAGE = 80, 10

COMMANDS, RCFILE, QUERIES, OF_SCRIPTS = (TOP / "man" / name for name in ("mairix.1", "mairixrc.5", "mairix-query.7", "mairix-scripts.7"))
MANUAL = (COMMANDS, RCFILE, QUERIES, OF_SCRIPTS)
SCRIPTS = sorted((TOP / "scripts").iterdir())
README, PROGRESS, NEWS = TOP / "README.md", TOP / "docs" / "PROGRESS.md", TOP / "NEWS"
RECIPES, PERFORMANCE = TOP / "docs" / "RECIPES.md", TOP / "docs" / "PERFORMANCE.md"
MARKDOWN = (README, RECIPES)
# Pages that quote contracts, definitions and edits.
CONTRIBUTING, PROVED = TOP / "docs" / "CONTRIBUTING.md", TOP / "docs" / "PROVED.md"
QUOTING = (PROVED, CONTRIBUTING)
CRATE_PAGES = sorted((TOP / "crates").glob("*/README.md"))
PAGES = (*sorted((TOP / "docs").glob("*.md")), README, *CRATE_PAGES)
# How wide a line of a page is at most, except in tables and checks (NARROW_EXCEPT), and how many words some pages have.
PAGE_WIDTH, MOST_WORDS = 120, {README: 1000, PROGRESS: 900}
NARROW_EXCEPT = ("|", r".\" run: ")
# How many characters a cell of a table has at most, and on which pages.
MOST_IN_CELL, PAGES_OF_CELLS = 300, sorted({*(TOP / "docs").glob("*.md")} - {TOP / "docs/RECIPES.md", TOP / "docs/RELIABILITY.md"})
# How many lines a crate's page has at most without its caller, and how many lines that has.
MOST_LINES, MOST_OF_CALLER = 85, 60
BASH, ZSH, FISH = (TOP / "completions" / name for name in ("mairix.bash", "_mairix", "mairix.fish"))
COMPLETIONS = {BASH: "bash-completion/completions/mairix", ZSH: "zsh/site-functions/_mairix", FISH: "fish/vendor_completions.d/mairix.fish"}
# What else is installed below share/.
DOCUMENTS = {README: "doc/mairix-proved/README.md", RECIPES: "doc/mairix-proved/RECIPES.md"}


def source(path):
    return (TOP / "crates" / path).read_text(encoding="utf-8")


def section(page, name):
    """The lines of a section of a manual page."""
    parts = re.split(r"(?m)^\.SH (.*)\n", page.read_text(encoding="utf-8"))
    return dict(zip((it.strip('"') for it in parts[1::2]), parts[2::2])).get(name, "").splitlines()


def tags(lines):
    """What stands behind .TP and .TQ."""
    return [roff_text(text) for head, text in zip(lines, lines[1:]) if head in (".TP", ".TQ")]


def differences(what, want, got):
    """How one set of names differs from another."""
    told = [f"{name} is missing" for name in sorted(want - got)] + [f"{name} is no {what}" for name in sorted(got - want)]
    return "; ".join(told)


# ---- options


def options_in(text):
    return set(re.findall(r"(?<![\w-])(--?[A-Za-z][a-z]*)\b", text))


def help_text(program):
    return subprocess.run([program, "--help"], capture_output=True, text=True, timeout=60).stdout


def declared_options():
    """The options that the source declares, and those of the parser itself."""
    declared = re.findall(r"""id: "(\w+)",\s+form: Form::(?:Letter\('(\w)'\)|(Name))""", source("mairix_options/src/command_line.rt"))
    return {f"--{id}" if name else f"-{letter}" for id, letter, name in declared} | {"-h", "--help", "-V", "--version"}


def known_options(program):
    """The options that the parser lists."""
    heads = [re.split(r" {2,}", line.strip())[0] for line in help_text(program).splitlines() if re.match(r" +-", line)]
    return set().union(*map(options_in, heads))


def tagged_options():
    return set().union(*map(options_in, tags(section(COMMANDS, "OPTIONS"))))


def synopsis_options():
    return options_in(" ".join(map(roff_text, section(COMMANDS, "SYNOPSIS")))) | {"--help", "--version"}


def completed_by_bash():
    script = f'source "{BASH}"; COMP_WORDS=(mairix -); COMP_CWORD=1; _mairix; printf "%s\\n" "${{COMPREPLY[@]}}"'
    run = subprocess.run(["bash", "--norc", "-c", script], capture_output=True, text=True, timeout=60)
    return set(run.stdout.split())


def completed_by_zsh():
    specs = re.search(r"_arguments(.*?)\n\n", ZSH.read_text(encoding="utf-8") + "\n\n", re.S)[1]
    return set(re.findall(r"(?:'|\)|\{|,)(--?[A-Za-z][a-z]*)(?=[+\[,}])", specs))


def completed_by_fish():
    found = set()
    for line in FISH.read_text(encoding="utf-8").splitlines():
        found |= {"-" + it for it in re.findall(r" -s (\w)\b", line)} | {"--" + it for it in re.findall(r" -l ([\w-]+)", line)}
    return found


def option_checks(expected):
    yield "options of mairix(1)", differences("option", expected, tagged_options())
    yield "its synopsis", differences("option", expected, synopsis_options())
    for shell, completed in (("bash", completed_by_bash), ("zsh", completed_by_zsh), ("fish", completed_by_fish)):
        yield f"options that {shell} completes", differences("option", expected, completed())
    for page in MANUAL + MARKDOWN:
        # A run or a row may be of an option that isn't there.
        lines = [it.replace(r"\-", "-") for it in page.read_text(encoding="utf-8").splitlines() if not it.startswith((r".\"", "|"))]
        used = re.findall(r"(?m)\bmairix(?: (?:-[\w-]+|\S*rc\b))+", "\n".join(lines))
        yield f"options in commands of {page.name}", ", ".join(sorted(options_in(" ".join(used)) - expected))


# ---- texts of faults


FAULT_TEXTS = "run_faults/specs/FaultTexts.antt"


def equations(path, name):
    """The file that defines a function of texts, and its equations there: parameters, and what stands behind `=`."""
    text = source(path)
    found = re.findall(rf"(?m)^{name}((?: .*?)?) =((?:.|\n(?= ))*)", text)
    if found:
        return path, [(atoms(front), behind) for front, behind in found]
    other = re.search(rf"(?m)^use Rattle\.(\w+)\.specs\.([\w.]+)\.\{{[^}}]*\b{name}\b", text)
    return equations(f"{other[1]}/specs/{other[2].replace('.', '/')}.antt", name)


def atoms(expression):
    """The parts of an expression: names, operators, texts, and what stands in parentheses."""
    return re.findall(r'codes "[^"]*"|\((?:[^()]|\([^()]*\))*\)|[^\s()]+', expression)


def printed(path, expression, bound):
    """All texts that an expression of a file of definitions may be. N stands for any number."""
    terms = [[]]
    for part in atoms(expression):
        terms.append([]) if part in ("++", "∷") else terms[-1].append(part)
    return {"".join(it) for it in itertools.product(*(term_texts(path, term, bound) for term in terms))}


def term_texts(path, term, bound):
    """The same of one term: a text, a character by its number, a parameter, or a function with its arguments."""
    head, *arguments = term
    if head.startswith("codes "):
        return {head[len('codes "') : -1]}
    if head == "decimal" or head.isdigit():
        return {"N" if head == "decimal" else chr(int(head))}
    if head.startswith("("):
        return printed(path, head[1:-1], bound)
    if head in bound:
        return printed(*bound[head])
    file, cases = equations(path, head)
    given = [(path, it, bound) for it in arguments]
    return set().union(*(printed(file, behind, dict(zip(front, given))) for front, behind in cases if is_case_of(front, arguments)))


def is_case_of(front, arguments):
    """Whether an equation is for these arguments: one that is a variant stands for itself alone."""
    return all(given == wanted for given, wanted in zip(arguments, front) if given[0].isupper() and wanted[0].isupper())


def told_texts():
    """The texts in which the program tells of faults: what the definition that `fault_text` is proved to meet says of any fault, and the program's
    own texts."""
    texts = printed(FAULT_TEXTS, "text_of_fault fault", {})
    for path in sorted((TOP / "crates/run_faults/src").glob("*.rt")):
        texts |= set(re.findall(r'(?m)^pub const \w+: &str = "([^"]+)";', path.read_text(encoding="utf-8")))
    for path in ("mairix_run/src/ending_report.rt", "mairix/src/main.rt"):
        texts |= {it.strip() for it in re.findall(r'"mairix: ([^"\\{]+)', source(path))}
    return texts - UNTOLD


def fault_tags():
    """The tags of all DIAGNOSTICS, but for the parser's own lines."""
    found = [tag for page in MANUAL for tag in tags(section(page, "DIAGNOSTICS")) if not tag.startswith("error:")]
    return {re.sub(r" FILE$", "", tag) for tag in found}


# ---- prefixes and rcfile options


def pattern_prefixes():
    code = source("mail_query/src/mairix.rt")
    return set(re.findall(r"""(?:^|\s)b?['"](\w)['"] =>""", code))


def boolean_prefixes():
    return set(re.findall(r'codes "(\w+)"\) then Some field\.', source("mail_query/specs/BooleanTerms.antt")))


def tagged_prefixes(name):
    found = " ".join(tags(section(QUERIES, name)))
    return set(re.findall(r"(?<!\w)(\w+):", found))


def rcfile_options():
    return set(re.findall(r'\("(\w+)", Keyword::', source("mairix_options/src/setting.rt")))


def bash_matches(*words):
    """What bash is given to choose from, of which the last word is to be completed."""
    script = f'source "{BASH}"; COMP_WORDS=(mairix "$@"); COMP_CWORD=$#; _mairix; printf "%s\\n" "${{COMPREPLY[@]}}"'
    run = subprocess.run(["bash", "--norc", "-c", script, "bash", *words], capture_output=True, text=True, timeout=60)
    return run.stdout.split()


def bash_words(*words):
    return {it.rstrip(":") for it in bash_matches(*words, "") if it.endswith(":")}


def quotes_left_open():
    """Behind a lone match bash closes a quote that was begun; of several it takes what they share, and closes none."""
    for typed, matches in (("'su", 2), ('"su', 2), ("su", 1), ("'zz", 0)):
        found = bash_matches("--boolean", typed)
        if len(found) != matches or (found and os.path.commonprefix(found) != "subject:"):
            return f"{typed} has {found}"
    return ""


def prefix_checks():
    yield "prefixes of patterns", differences("prefix", pattern_prefixes() | {"tcs"}, tagged_prefixes("PATTERNS"))
    yield "prefixes of boolean queries", differences("prefix", boolean_prefixes(), tagged_prefixes("BOOLEAN QUERIES"))
    yield "prefixes of patterns that bash completes", differences("prefix", pattern_prefixes(), bash_words())
    yield "prefixes of boolean queries that bash completes", differences("prefix", boolean_prefixes(), bash_words("--boolean"))
    yield "a quote in bash", quotes_left_open()
    for path in (ZSH, FISH):
        text = path.read_text(encoding="utf-8")
        missing = [it for it in sorted(pattern_prefixes() | boolean_prefixes()) if not re.search(rf"['( \n]{it}\\?:", text)]
        yield f"prefixes in {path.name}", ", ".join(missing)
    yield "options of the rcfile", differences("option", rcfile_options(), {it.split("=")[0] for it in tags(section(RCFILE, "DESCRIPTION"))})


# ---- help


def help_part(text, title):
    """The lines of the part of help that a line with this title begins, without that line."""
    parts = [part.splitlines() for part in text.split("\n\n")]
    return next((lines[1:] for lines in parts if re.match(rf"{title}\b.*:$", lines[0])), [])


def help_checks(program):
    text = help_text(program)
    yield "width of help", ", ".join(line for line in text.splitlines() if len(line) > WIDTH)
    languages = ("Patterns", pattern_prefixes() | {"tc"}), ("Boolean queries", boolean_prefixes())
    for title, prefixes in languages:
        lines = help_part(text, title)
        found = set(re.findall(r"(?<!\w)(\w+):", "\n".join(lines)))
        yield f"{title} in help", differences("prefix", prefixes, found) or ("" if 0 < len(lines) < LINES_OF_LANGUAGE else f"{len(lines) + 1} lines")
    examples = [line.strip() for line in help_part(text, "Examples")]
    yield "examples of help", "" if len(examples) == 3 else f"{len(examples)} are there"
    with Sandbox(program) as sandbox:
        for example in examples:
            status, printed = sandbox.shell(example, sandbox.demo)
            yield f"help: {example}", "" if status == 0 else f"status {status}, printed {printed!r}"


# ---- the index file

FORMAT = TOP / "docs" / "INDEX-FORMAT.md"


def rows_of_format():
    """The rows of the table of bytes in the page on index files: the offset of each, and its bytes."""
    return re.findall(r"(?m)^\| (\d+) \| `([0-9a-f]+)` \|", FORMAT.read_text(encoding="utf-8"))


def offset_faults():
    rows = rows_of_format()
    places = [sum(len(row) // 2 for _, row in rows[:number]) for number in range(len(rows))]
    return "" if [int(place) for place, _ in rows] == places else "they don't follow one another"


def format_checks(program):
    """The table of bytes in the page on index files is the file that the program writes."""
    told = bytes.fromhex("".join(row for _, row in rows_of_format()))
    with Sandbox(program) as sandbox:
        (sandbox.home / "rc").write_text("mbox=m.mbox\ndatabase=index\nmfolder=found\n")
        (sandbox.home / "m.mbox").write_bytes((sandbox.demo / "m.mbox").read_bytes())
        status, printed = sandbox.shell("mairix -f rc", sandbox.home)
        written = (sandbox.home / "index").read_bytes() if status == 0 else b""
        yield "bytes in INDEX-FORMAT.md", "" if told == written else f"status {status}, printed {printed!r}: the program writes {written.hex()}"


# ---- quotes


def plain(text):
    """A text with each run of white space as one space."""
    return " ".join(text.split())


def part_of_page(page, title):
    """The text under a title of a page, up to the next title."""
    found = re.search(rf"(?ms)^## {title}\n(.*?)(?=^## |\Z)", page.read_text(encoding="utf-8"))
    return found[1] if found else ""


def caller_faults(page):
    """What is wrong with the code on a crate's page: each block is a file of the caller, or stands behind `From FILE:`, and each of its pieces
    stands in that file."""
    text = page.read_text(encoding="utf-8")
    shown = re.findall(r"From `([^`]+)`:\n\n```\w+\n(.*?)\n```", text, re.S)
    callers = files_of_caller(text)
    if not callers or len(shown) + len(callers) != len(re.findall(r"(?m)^```\w+$", text)):
        yield f"{len(callers)} blocks of code are of a caller, and {len(shown)} others name their file"
    for path, block in shown:
        file = plain((TOP / path).read_text(encoding="utf-8")) if (TOP / path).exists() else ""
        yield from (f"{path} has no {piece.splitlines()[0]!r}" for piece in block.split("\n\n") if plain(piece) not in file)


def caller_checks():
    for page in CRATE_PAGES:
        yield f"callers of {page.parent.name}", ", ".join(caller_faults(page))
        text = page.read_text(encoding="utf-8")
        caller = "".join(files_of_caller(text).values()).count("\n")
        lines = text.count("\n") - caller
        wrong = "" if lines <= MOST_LINES and caller <= MOST_OF_CALLER else f"{lines} lines, and {caller} of a caller"
        yield f"length of the page of {page.parent.name}", wrong


def quotes_in(page):
    """Each block ```text behind a paragraph that names a file of a crate: the last file that it names, and the block."""
    for told, block in re.findall(r"((?:.+\n)+)\n```text\n((?:.*\n)*?)```", page.read_text(encoding="utf-8")):
        paths = re.findall(r"crates/[\w/.-]+\w", told)
        if paths:
            yield paths[-1], block.rstrip()


def quote_checks():
    """What pages quote of a file that they name stands in it, where `..` stands for anything."""
    for page in QUOTING:
        quotes = list(quotes_in(page))
        wrong = [] if quotes else ["none was found"]
        for path, block in quotes:
            file = plain((TOP / path).read_text(encoding="utf-8")) if (TOP / path).exists() else ""
            pieces = [plain(it) for unit in re.split(r"\n+(?! )", block) for it in re.split(r" \.\.(?= |$)", plain(unit))]
            wrong += [f"{path} has no {it!r}" for it in pieces if it not in file]
        yield f"quotes of {page.name}", "; ".join(wrong)


def claim_checks():
    """The calls, clauses, their parts and the definitions that the tables of claims name are there."""
    files = [*(TOP / "crates").glob("*/src/**/*.rt"), *(TOP / "crates").glob("*/specs/**/*.antt")]
    text = "\n".join(it.read_text(encoding="utf-8") for it in files)
    declared = set(re.findall(r"(?=\b(?:fn|ensures\*?|struct|enum|trait|record|ghost|pub) (\w+))", text)) | {
        it.name for it in (TOP / "crates").iterdir()
    }
    cells = re.findall(r"(?m)^\|.*\| ([^|]*) \|$", PROVED.read_text(encoding="utf-8"))
    named = {part for cell in cells for it in re.findall(r"`(\w[\w:.]*)(?<!\.)`", cell) for part in re.split(r"::|\.", it)}
    yield "names in PROVED.md", ", ".join(f"nothing is called {it}" for it in sorted(named - declared))


# ---- crates' pages


def unnamed_calls(crate):
    """The public functions of a crate that its page doesn't name. Laws, which return nothing and change nothing, needn't be there."""
    page = TOP / "crates" / crate / "README.md"
    text = page.read_text(encoding="utf-8") if page.exists() else ""
    for head, signature in public_signatures(crate):
        found = re.match(r"pub fn (\w+)\b(?=.*(?:->|&mut\b))", signature)
        if not head and found and not re.search(rf"\b{found[1]}\b", text):
            yield found[1]


def rows_of_crate(crates, name):
    """What to take along with a crate, as its page has it."""
    own = [*crates.below(name), name]
    kit = sorted({it for crate in own for it in crates.libraries[crate]} - set(crates.libraries))
    line = next(it for it in (TOP / "crates.txt").read_text(encoding="utf-8").splitlines() if it.startswith(f"{name}:"))
    yield f"| folders | {', '.join(f'`crates/{it}`' for it in own)} |"
    yield f"| its line of crates.txt | `{line}` |"
    yield f"| libraries of the kit | {', '.join(kit) or 'none'} |"


def crate_checks():
    crates = Crates(TOP)
    for name in sorted(crates.libraries):
        if (crates.folder(name) / "src/lib.rt").exists():
            yield f"calls on the page of {name}", "; ".join(f"{it} is missing" for it in unnamed_calls(name))
    for page in CRATE_PAGES:
        shown = [it for it in part_of_page(page, "In another repository").splitlines() if it.startswith("| ")][1:]
        wanted = list(rows_of_crate(crates, page.parent.name))
        wrong = "" if shown == wanted else "the rows should be " + " ".join(wanted)
        yield f"what to take along with {page.parent.name}", wrong


# ---- tools


def tool_checks():
    """CONTRIBUTING has a line for each script of tools/ and bench/."""
    written = {str(it.relative_to(TOP)) for folder in ("tools", "bench") for it in (TOP / folder).iterdir() if it.is_file()}
    named = re.findall(r"(?m)^\| ((?:tools|bench)/[^|]+?) \|", CONTRIBUTING.read_text(encoding="utf-8"))
    yield "tools in CONTRIBUTING.md", differences("file", written, {it for names in named for it in names.split(", ")})


def report_checks():
    """Each report of bench/ that the repository has is cited by a page."""
    text = "\n".join(page.read_text(encoding="utf-8") for page in PAGES)
    cited = re.findall(r"bench/results/([\w.*-]*\w)", text)
    reports = sorted(it.name for it in (TOP / "bench/results").iterdir())
    yield "bench/results", ", ".join(f"no page cites {it}" for it in reports if not any(fnmatch(it, name) for name in cited))


# ---- scripts


def of_scripts():
    """The bytes that are installed below a prefix: each script, and a page of its name that leads to mairix-scripts(7)."""
    pages = {f"share/man/man1/{it.name}.1": b".so man7/mairix-scripts.7\n" for it in SCRIPTS}
    return pages | {f"bin/{it.name}": it.read_bytes() for it in SCRIPTS}


def script_checks():
    """mairix-scripts(7) has a heading for each script, as its line of usage shows it, and RECIPES names each."""
    headings = {roff_text(it) for it in OF_SCRIPTS.read_text(encoding="utf-8").splitlines() if it.startswith(".SS ")}
    usages = {found for it in SCRIPTS for found in re.findall(r'"usage: ([^"]*)"', it.read_text(encoding="utf-8"))}
    yield "scripts in mairix-scripts.7", differences("script", usages, headings)
    recipes = RECIPES.read_text(encoding="utf-8")
    yield "scripts in RECIPES.md", ", ".join(f"{it.name} isn't there" for it in SCRIPTS if not re.search(rf"\b{it.name}\b", recipes))


# ---- decisions

DECISIONS = TOP / "docs" / "DECISIONS.md"


def numbers_in(cell):
    """The numbers of a cell such as `1 to 13, 91`."""
    for first, last in re.findall(r"(\d+)(?: to (\d+))?", cell):
        yield from range(int(first), int(last or first) + 1)


def decision_checks():
    """The entries are in the order of their numbers, the table of subjects has each of them once, and those that are cited are there."""
    text = DECISIONS.read_text(encoding="utf-8")
    entries = [int(it) for it in re.findall(r"(?m)^- \*\*(\d+)\.", text)]
    yield "order of DECISIONS.md", "" if entries and entries == sorted(set(entries)) else "the numbers don't rise"
    told = [number for cell in re.findall(r"(?m)^\| .* \| (\d[\d, to]*) \|$", text) for number in numbers_in(cell)]
    yield "subjects of DECISIONS.md", "" if sorted(told) == entries else f"{sorted(set(entries) ^ set(told))}, or one of them twice"
    citing = [*PAGES, *(TOP / "crates").glob("*/src/**/*.rt"), *(TOP / "crates").glob("*/specs/**/*.antt")]
    cited = re.findall(r"(?i)\bdecisions? (\d+(?:(?:, | and )\d+)*)", "\n".join(it.read_text(encoding="utf-8") for it in citing))
    missing = {number for cell in cited for number in numbers_in(cell)} - set(entries)
    yield "decisions that are cited", ", ".join(f"there is no decision {it}" for it in sorted(missing))


# ---- figures


def cells(page):
    """The cells of a page's tables."""
    rows = re.findall(r"(?m)^\|(.*)\|$", page.read_text(encoding="utf-8"))
    return [cell.strip() for row in rows for cell in row.split("|")]


def figure_checks():
    """Each time and size in a table of README stands in one of PERFORMANCE.md, which says how it was measured."""
    figures = [it for it in cells(README) if re.match(r"[\d.,]+ (s|MB)\b", it)]
    missing = sorted({*figures} - {*cells(PERFORMANCE)})
    yield "figures of README.md", ", ".join(f"{it} isn't in PERFORMANCE.md" for it in missing) or ("" if figures else "none was found")


# ---- form


def versions(program):
    told = subprocess.run([program, "-V"], capture_output=True, text=True, timeout=60).stdout.strip()
    return [page.name for page in MANUAL if f'"{told}"' not in page.read_text(encoding="utf-8").splitlines()[0]]


def unnamed_pages():
    """The manual pages that mairix(1) doesn't lead to."""
    named = " ".join(map(roff_text, section(COMMANDS, "SEE ALSO")))
    pages = sorted(it for it in (TOP / "man").iterdir() if it != COMMANDS)
    return [it.name for it in pages if f"{it.stem}({it.suffix[1:]})" not in named]


def form_checks(program):
    if program:
        yield "versions in the manual pages", ", ".join(versions(program))
    yield "pages that mairix(1) doesn't name", ", ".join(unnamed_pages())
    for page in PAGES:
        links = re.findall(r"\]\(([^)#:]+)\)", page.read_text(encoding="utf-8"))
        yield f"links of {page.name}", ", ".join(it for it in links if not (page.parent / it).exists())
    for page in (*PAGES, *MANUAL, NEWS):
        lines = enumerate(page.read_text(encoding="utf-8").splitlines(), 1)
        wide = [f"line {number}" for number, line in lines if len(line) > PAGE_WIDTH and not line.startswith(NARROW_EXCEPT)]
        yield f"width of {page.relative_to(TOP)}", ", ".join(wide)
    for page in PAGES_OF_CELLS:
        rows = [(number, line) for number, line in enumerate(page.read_text(encoding="utf-8").splitlines(), 1) if line.startswith("|")]
        large = [f"line {number}" for number, line in rows if any(len(cell) > MOST_IN_CELL for cell in line.strip("| ").split(" | "))]
        yield f"cells of {page.name}", ", ".join(large)
    for page, most in MOST_WORDS.items():
        count = len(page.read_text(encoding="utf-8").split())
        accepts = "; if none can go, MOST_WORDS in tools/check_pages.py has the limit"
        yield f"words of {page.name}", "" if count <= most else f"{count} words, more than {most}{accepts}"
    # Those that are there have a look; none of them has to be.
    tries = [(words, page) for words in (["groff", "-man", "-Tutf8", "-ww"], ["mandoc", "-Tlint", "-Wwarning"]) for page in MANUAL]
    tries += [([shell, "-n"], path) for shell, path in (("bash", BASH), ("zsh", ZSH), ("fish", FISH))]
    for words, path in tries:
        if shutil.which(words[0]):
            run = subprocess.run(words + [path], capture_output=True, text=True, timeout=60)
            yield f"{words[0]} reads {path.name}", run.stderr.strip() or (
                "" if run.returncode == 0 else f"status {run.returncode}, {run.stdout[:500]!r}"
            )


# ---- installing


def files_in(folder):
    return {str(it.relative_to(folder)) for it in Path(folder).rglob("*") if not it.is_dir()}


def make(target, *settings):
    """Runs make as if all were built."""
    run = subprocess.run(["make", "-C", TOP, "-o", "build", target, *settings], capture_output=True, text=True, timeout=300)
    return run.stderr.strip() if run.returncode else ""


def install_checks(program):
    with tempfile.TemporaryDirectory(prefix="pages-") as room:
        kept = Path(room) / "usr/share/man/man1/other.1"
        kept.parent.mkdir(parents=True)
        kept.touch()
        settings = [f"PROGRAM={program}", f"DESTDIR={room}", "PREFIX=/usr"]
        wrong = make("install", *settings)
        want = {"bin/mairix": program, **{f"share/man/man{page.suffix[1:]}/{page.name}": page for page in MANUAL}}
        want = {place: version.stamped(Path(path).read_bytes()) for place, path in want.items()}
        want |= {f"share/{place}": path.read_bytes() for path, place in (COMPLETIONS | DOCUMENTS).items()}
        want |= of_scripts()
        for place, data in want.items():
            put = Path(room) / "usr" / place
            if not put.exists() or put.read_bytes() != data or os.access(put, os.X_OK) != place.startswith("bin/"):
                wrong += f" {place} isn't as it should be"
        others = files_in(room) - {f"usr/{place}" for place in want} - {str(kept.relative_to(room))}
        yield "make install", wrong + " ".join(sorted(others))
        told = subprocess.run([f"{room}/usr/bin/mairix", "-V"], capture_output=True, text=True, timeout=60).stdout
        yield "version of what is installed", "" if told == f"mairix {version.version()}\n" else f"printed {told!r}"
        yield "make uninstall", make("uninstall", *settings) + " ".join(sorted(files_in(room) ^ {str(kept.relative_to(room))}))


def dist_checks():
    """A release has each file that git tracks, and its name the version of the last commit; where there is no repository there is none to make."""
    if not (TOP / ".git").exists():
        return
    tracked = subprocess.run(["git", "-C", TOP, "ls-tree", "-r", "--name-only", "-z", "HEAD"], capture_output=True, text=True, timeout=60)
    with tempfile.TemporaryDirectory(prefix="pages-") as room:
        wrong = make("dist", f"DISTDIR={room}")
        for name in os.listdir(room):
            front = name.removesuffix(".tar.gz") + "/"
            with tarfile.open(Path(room) / name) as release:
                inside = {it.name.removeprefix(front) for it in release.getmembers() if not it.isdir()}
            wrong += differences("file of the repository", set(tracked.stdout.split("\0")) - {""}, inside)
        name = f"mairix-{version.version_of_commit()}.tar.gz"
        yield "make dist", wrong if os.listdir(room) == [name] else f"{wrong} {name} isn't all that it makes"


def example_checks(program):
    for page in MANUAL + MARKDOWN:
        with Sandbox(program) as sandbox:
            examples = list(checks_of(page, sandbox))
        yield from examples
        yield f"examples of {page.name}", "" if examples else "none was found"


def all_checks(program):
    """What is compared, and how it differs. Without a program all that needs none."""
    if program:
        yield from example_checks(program)
        yield "options of help", differences("option", declared_options(), known_options(program))
        yield from help_checks(program)
        yield from format_checks(program)
        yield from install_checks(program)
        yield from dist_checks()
    yield from option_checks(declared_options())
    yield "texts of faults", differences("text of a fault", told_texts(), fault_tags())
    yield from prefix_checks()
    yield "offsets in INDEX-FORMAT.md", offset_faults()
    yield from caller_checks()
    yield from crate_checks()
    yield from quote_checks()
    yield from claim_checks()
    yield from tool_checks()
    yield from report_checks()
    yield from script_checks()
    yield from decision_checks()
    yield from figure_checks()
    yield from form_checks(program)


def main(program):
    return say_of("pages", all_checks(program and os.path.abspath(program)))


if __name__ == "__main__":
    sys.exit(main(next(iter(sys.argv[1:]), None)) if len(sys.argv) <= 2 else __doc__)
