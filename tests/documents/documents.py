#!/usr/bin/env python3
"""Holds the documents against the repository: each file, heading and line of code that they link to, and each file that they name, is there; the pages where a
newcomer begins link to Golly and to what describes the formats; no clause is wider than 100 columns; no line of documents, definitions and proofs is too wide;
the man page has a date; each place that repeats the version has that of the file VERSION; and each place that names the kinds of fault has them all, with their
numbers (scripts/kinds says which places). Each figure with a unit in README is the one of the page that measures it. Each page and each `--help` that gives the
limit of squares gives that of a form too, and both are those of the code. Each tool that lists duplicates, and each page that says so, has the same form where
none is named. Each check in the folders of tests/ is run, by tests/all or by another one. The files that docs/ADDING.md says to extend for a new command have
the names that it gives, as those have that ARCHITECTURE follows a command through. Where a page names a file of a crate after a function, a constant or a
definition, the file has it. ARCHITECTURE has each crate of crates.txt, once, and the front page of a crate names no other crates above it than crates.txt does.
Where a page, the header for C or the help of the program quotes a sentence on a kind of fault, on a file that is no pattern, or of a warning, it is one of the
code. Each type and each relation that CLAIMS, PROOFS and ARCHITECTURE name is in the code or the definitions of a crate. And a check refuses each altered copy
of ALTERED.

usage: tests/documents/documents.py
"""
import glob
import os
import re
import subprocess
import sys
from decimal import ROUND_HALF_UP, Decimal

sys.path.insert(0, os.path.dirname(os.path.dirname(os.path.abspath(__file__))))

from shared import counting  # noqa: E402

TOP = os.path.dirname(os.path.dirname(os.path.dirname(os.path.abspath(__file__))))
TOP_PAGES = ["README.md", "CHANGELOG.md", "CONTRIBUTING.md", "SECURITY.md", "tests/README.md", "packages/npm/README.md", "packages/wheel/README.md"]
DOCUMENTS = [*TOP_PAGES, *sorted(f"docs/{it}" for it in os.listdir(os.path.join(TOP, "docs")) if it.endswith(".md"))]
# A path in backticks: of a folder at the top, or of a crate, whose name may stand without `crates/`.
NAMED = re.compile(r"`((?:docs|tests|scripts|bench|examples|include|completions|packages|python|crates)/[\w./*-]+|(?:[a-z]+_)+[a-z]+/(?:src|specs|proofs)/[\w./+*-]+)`")
LINKED = re.compile(r"\]\(([^)#:\s]*)(?:#([^)\s]+))?\)")
# Where a newcomer looks up what a page speaks of: Golly, and both formats.
ELSEWHERE = ["https://golly.sourceforge.io", "https://conwaylife.com/wiki/Run_Length_Encoded", "https://conwaylife.com/wiki/Macrocell"]
# The most columns of a line, and what stands on one line however wide it is: a row of a table, a line of a program, and an import.
WIDTH, CLAUSE_WIDTH = 160, 100
CLAUSE = re.compile(r"\s*(?:requires|ensures)\b.*\{")
WIDE = re.compile(r"\||    |(?:pub )?use ")
PAGE = "docs/golly_canon.1"
ADDING = "docs/ADDING.md"
HELP = "crates/command_line/src/plans/help.rt"
# A file or folder that a document names by its pattern, as `proofs/MODULE/FUNCTION/`, names no file.
PATTERN = re.compile(r"[A-Z]{3,}/|/[A-Z]{3,}\b(?!\.(?:md|antt))")
# The heading of a step that is made in one crate, and a row of its table: a file of the crate, and what to add to it.
STEP = re.compile(r"\*\*\d+\. `(\w+)`: ")
PLACE = re.compile(r"\| `([\w/]+\.\w+)` \| (.*) \|")
# A row of a table of functions: their names, the file that has them, what they do here, and the clauses that say so.
FUNCTIONS = re.compile(r"(?m)^\| (`[^|]+`) \| `(\w+/src/[\w/]+\.rt)` \| [^|]+ \| ([^|]+) \|$")
# A name and the file of a crate that has it, as "`NAME` (`CRATE/src/FILE.rt`" or "`NAME` of `CRATE/specs/FILE.antt`".
NAME_OF_FILE = re.compile(r"`(?:\w+::)?([A-Za-z_]\w*)`\s(?:\(|in |of )`(\w+/(?:src|specs)/[\w/]+\.(?:rt|antt))`")
# How many names there are at least in each of these pages, so that a table of another form is noticed.
NAMES = 30


# The texts of files that are read in place of those on the disk, by their paths: a copy with a mistake that a check has to notice.
copies = {}


def text_of(path):
    if path in copies:
        return copies[path]
    with open(os.path.join(TOP, path), encoding="utf-8") as it:
        return it.read()


def is_there(path):
    return bool(glob.glob(os.path.join(TOP, path)) or glob.glob(os.path.join(TOP, "crates", path)))


def headings(path):
    """The anchors of a document's headings, as they are made where it is shown."""
    names = re.findall(r"^#+ (.*)$", text_of(path), re.MULTILINE)
    return {re.sub(r"[^\w\- ]", "", name.lower()).replace(" ", "-") for name in names}


def has_line(path, anchor):
    """Whether an anchor is that of a line of code, as `L12`, and the file has it."""
    return bool(re.fullmatch(r"L\d+", anchor)) and int(anchor[1:]) <= text_of(path).count("\n")


def leads_somewhere(document, file, anchor):
    path = os.path.normpath(os.path.join(os.path.dirname(document), file)) if file else document
    return is_there(path) and (not anchor or (anchor in headings(path) if path.endswith(".md") else has_line(path, anchor)))


def wide_lines(path, kept):
    """The numbers of the lines of a file that are too wide, but for those that are kept."""
    return [number for number, line in enumerate(text_of(path).splitlines(), 1) if len(line) > WIDTH and not kept.match(line)]


def widths():
    """Whether no line is too wide: of each document, and of the definitions and proofs of each crate."""
    for document in DOCUMENTS:
        found = wide_lines(document, WIDE)
        yield f"{document}: lines of more than {WIDTH} columns: {found}", not found
    for crate in sorted(os.listdir(os.path.join(TOP, "crates"))):
        files = [it for part in ("specs", "proofs") for it in glob.glob(f"crates/{crate}/{part}/**/*.antt", root_dir=TOP, recursive=True)]
        found = [f"{it}:{number}" for it in files for number in wide_lines(it, re.compile("(?:pub )?use "))]
        yield f"{crate}: lines of more than {WIDTH} columns: {' '.join(found)}", not found


def wide_clauses():
    """Whether no line of a clause is too wide. A clause ends where its braces do."""
    for crate in sorted(os.listdir(os.path.join(TOP, "crates"))):
        found = []
        for path in glob.glob(f"crates/{crate}/src/**/*.rt", root_dir=TOP, recursive=True):
            depth = 0
            for number, line in enumerate(text_of(path).splitlines(), 1):
                if depth or CLAUSE.match(line):
                    depth += line.count("{") - line.count("}")
                    found += [f"{path}:{number}"] * (len(line) > CLAUSE_WIDTH)
        yield f"{crate}: clauses of more than {CLAUSE_WIDTH} columns: {' '.join(found)}", not found


def of_page():
    """Whether the man page has a date."""
    yield f"{PAGE}: a date in line 1", bool(re.match(r'\.TH GOLLY_CANON 1 "\d{4}-\d\d-\d\d" ', text_of(PAGE)))


# Where a file repeats the version that the file VERSION has.
VERSIONED = {
    "crates/command_line/src/plans/commands.rt": r'\.version\("([^"]*)"\)',
    "crates/golly_canon_c/src/names.rt": r'(?m)^const VERSION: .* = b"([^"]*)";$',
    "python/golly_canon.py": r'(?m)^__version__ = "([^"]*)"$',
    "include/golly_canon.h": r"which is that of the program, as `([^`]*)`",
    PAGE: r'"golly_canon ([^"]*)" "User Commands"',
    "CHANGELOG.md": r"(?m)^## (\S+)",
}


def of_version():
    """Whether each place that repeats the version has that of the file VERSION."""
    version = text_of("VERSION").strip()
    yield f"VERSION: {version} is a version", bool(re.fullmatch(r"\d+\.\d+\.\d+", version))
    for path, pattern in VERSIONED.items():
        found = re.search(pattern, text_of(path))
        yield f"{path}: the version {version}, and not {found and found[1]}", bool(found) and found[1] == version


# A figure of a page (the first text, whose groups are figures), and where each of its groups is measured: the page, and the text around the figure there.
SPEED, PROOFS = "docs/SPEED.md", "docs/PROOFS.md"
MEASURED = [
    ("README.md", r"takes ([\d.]+) s for 100,000 small files on a processor of ([\d.]+) GHz",
     [(SPEED, r"\| `keys --form turned` \| ([\d.]+) s \|"), (SPEED, r"a processor of ([\d.]+) GHz")]),
    ("README.md", r"`canon` takes ([\d.]+) s and (\d+) MB of memory for a soup \(random cells\) of 10 MB in RLE, and ([\d.]+) s and (\d+) MB for one of 100 MB, "
     r"on a processor of ([\d.]+) GHz",
     [(SPEED, r"\| a soup of 10 MB in RLE \| ([\d.]+) s \|"), (SPEED, r"\| a soup of 10 MB in RLE \|[^|]+\|[^|]+\|[^|]+\| (\d+) MB \|"),
      (SPEED, r"\| a soup of 100 MB in RLE \| ([\d.]+) s \|"), (SPEED, r"\| a soup of 100 MB in RLE \|[^|]+\|[^|]+\|[^|]+\| (\d+) MB \|"),
      (SPEED, r"a processor of ([\d.]+) GHz")]),
    ("README.md", r"Of the (\d+) pattern files that come with Golly ([\d.]+), `golly_canon` accepts (\d+)\.",
     [(PROOFS, r"It uses the (\d+) pattern files"), (PROOFS, r"`bgolly`, which is Golly ([\d.]+) without"), (PROOFS, r"- (\d+) of the \d+ pattern files are accepted")]),
    ("README.md", r"You need `make`, (\d+) GB of RAM, (\d+) GB of disk, .* The first `make` takes about (an hour) of one processor",
     [("docs/INSTALL.md", r"(\d+) GB of RAM"), ("docs/INSTALL.md", r"(\d+) GB of disk"), ("docs/INSTALL.md", r"four processors, and (an hour) if you have one")]),
    (SPEED, r"For example, `canon` of a soup of 10 MB in RLE takes ([\d.]+) s and (\d+) MB of memory\. The fastest plain program .* takes ([\d.]+) s\.",
     [(SPEED, r"\| a soup of 10 MB in RLE \| ([\d.]+) s \|"), (SPEED, r"\| a soup of 10 MB in RLE \|[^|]+\|[^|]+\|[^|]+\| (\d+) MB \|"),
      (SPEED, r"\| a soup of 10 MB in RLE \|[^|]+\| ([\d.]+) s ")]),
]
# A figure with a unit, as people measure it.
FIGURE = re.compile(r"\b\d[\d.,]* (?:s|ms|seconds|minutes|hours|MB|GB|GHz)\b")


def same_figure(said, measured):
    """Whether a figure is the measured one, rounded to as many digits as the figure has."""
    if not re.fullmatch(r"[\d.]+", said):
        return said == measured
    return Decimal(measured).quantize(Decimal(said), ROUND_HALF_UP) == Decimal(said)


def of_figures():
    """Whether each figure is the one of the page that measures it, and README has no other one with a unit."""
    readme = " ".join(re.sub(r"(?m)^    .*$", "", text_of("README.md")).split())
    measured = set()
    for document, said, places in MEASURED:
        text = readme if document == "README.md" else " ".join(text_of(document).split())
        found = re.search(said, text)
        yield f"{document}: {said}", bool(found)
        if found:
            measured |= set(range(*found.span())) if document == "README.md" else set()
            for figure, (page, around) in zip(found.groups(), places, strict=True):
                at = re.search(around, text_of(page))
                yield f"{document}: {figure} is in {page}: {around}", bool(at) and same_figure(figure, at[1])
    for it in FIGURE.finditer(readme):
        yield f"README.md: {it[0]} is measured on another page, which MEASURED names", it.start() in measured


# The form of the command `duplicates` where none is named, and every other place that has it: the code of the tools, their help, and the pages. The pages are
# read as one line.
DEFAULT = ("crates/command_line/src/plans/requests.rt", r'"duplicates" => match any_files\(alloc, found, Form::(\w+), DUPLICATES\)')
SAME_DEFAULT = [
    ("crates/command_line/src/plans/commands.rt", r'any_files\(alloc, "duplicates", DUPLICATES, (\w+)_UNLESS_GIVEN\)'),
    (HELP, r" (placed|moved|turned) [a-z ]+ \(the default\) turned .* The default is `\1`, because Golly "),
    ("examples/collection.py", r' FORM = "(\w+)" .*add_argument\("--form", choices=FORMS, default=FORM,'),
    ("examples/duplicates.py", r'^.*?\(`(\w+)`, as the command `duplicates` of the program has it\).* FORM = "\1" .* form = words\[2\] if len\(words\) == 3 else FORM '),
    ("packages/npm/command.mjs", r'if it isn\'t given, placed for keys, and (\w+) for duplicates .* takenAll\(words, \[\], "\1", '),
    (PAGE, r"The form is \.B (\w+) if none is given, because Golly "),
    ("docs/FORMATS.md", r"Unless `--form` names another one the form is `(\w+)`, "),
    ("docs/COLLECTIONS.md", r"Without `--form` it takes `(\w+)`, as the command `duplicates` "),
    ("docs/DECISIONS.md", r"\*\*`duplicates` takes the form `(\w+)` by default"),
]


def of_defaults():
    """Whether each tool that lists duplicates, and each page that says so, has the form of the command `duplicates` where none is named."""
    path, pattern = DEFAULT
    form = re.search(pattern, text_of(path))
    yield f"{path}: {pattern}", bool(form)
    for path, pattern in SAME_DEFAULT if form else []:
        found = re.search(pattern, " ".join(text_of(path).split()))
        yield f"{path}: the form {form[1].lower()} by default, and not {found and found[1]}", bool(found) and found[1].lower() == form[1].lower()


# The constants of the two limits of squares, and how pages write them.
MOST_SQUARES = [("crates/pattern_sources/src/patterns.rt", "2^31"), ("crates/life_forms/src/patterns.rt", "2^21")]


def of_squares():
    """Whether the limit of squares of a form is given wherever that of a command is: in each page, and in the status 4 of each help of a command that takes a
    form. And whether both are those of the code."""
    for path, limit in MOST_SQUARES:
        found = re.search(r"(?m)^pub const MOST_SQUARES: u64 = 1 << (\d+);$", text_of(path))
        yield f"{path}: the limit {limit}, and not {found and found[0]}", bool(found) and f"2^{found[1]}" == limit
    for document in [*DOCUMENTS, PAGE]:
        text = text_of(document)
        yield f"{document}: 2^31 squares, and 2^21 of a form", "2^31" not in text or "2^21" in text
    helps = re.split(r"(?m)^pub const (\w+): Help", text_of(HELP))
    named = [(name, text) for name, text in zip(helps[1::2], helps[2::2]) if "--form" in text]
    yield f"{HELP}: the help of the program and of commands that take a form, and not {[name for name, _ in named]}", len(named) == 5
    for name, text in named:
        status = re.search(r"\n  4  (.*?)\n  5  ", text, re.DOTALL)
        yield f"{HELP}: the status 4 of {name} has 2^31 and 2^21", bool(status) and "2^31" in status[1] and "2^21" in status[1]


def of_crates():
    """Whether docs/ARCHITECTURE.md has a row of a table for each crate of crates.txt, once."""
    rows = [name for row in re.findall(r"(?m)^\| ((?:`\w+`(?:, )?)+) \|", text_of("docs/ARCHITECTURE.md")) for name in re.findall(r"`(\w+)`", row)]
    for crate in re.findall(r"(?m)^(\w+)[^:\n]*:", text_of("crates.txt")):
        yield f"docs/ARCHITECTURE.md: {rows.count(crate)} rows for the crate {crate}", rows.count(crate) == 1


def of_fronts():
    """Whether the front page of each crate says what crates.txt says of the crates above it: those that it names after `Above it` use the crate, and where it
    says that there is none, none does."""
    uses = {crate: used.split() for crate, used in re.findall(r"(?m)^(\w+)[^:\n]*: (.*)$", text_of("crates.txt"))}
    found = 0
    for crate in uses:
        lines = [line[4:] for path in (f"crates/{crate}/src/lib.rt", f"crates/{crate}/src/main.rt") if os.path.isfile(os.path.join(TOP, path))
                 for line in text_of(path).splitlines() if line.startswith("//!")]
        for paragraph in "\n".join(lines).split("\n\n"):
            for sentence in re.split(r"(?<=[.:;])\s+", paragraph):
                for other in re.findall(r"`(\w+)`", sentence) if sentence.startswith("Above it") else []:
                    found += other in uses
                    yield f"crates/{crate}/src: {other} is above it", other not in uses or crate in uses[other]
            if "No crate is above it" in paragraph:
                yield f"crates/{crate}/src: no crate is above it", not any(crate in used for used in uses.values())
    yield f"the front pages of crates: {NAMES} crates or more that are above others, and not {found}", found >= NAMES


def of_kinds():
    """What scripts/kinds says: each place that lacks a kind of fault, and how many lack none."""
    said = subprocess.run([sys.executable, "-B", "scripts/kinds", "--check"], cwd=TOP, stdout=subprocess.PIPE, text=True, check=False).stdout.splitlines()
    yield from ((it.removeprefix("FAILED  "), False) for it in said[:-1])
    passed = re.fullmatch(r"(\d+) passed, \d+ failed", said[-1] if said else "")
    yield "scripts/kinds counts its checks", bool(passed)
    yield from [("scripts/kinds", True)] * int(passed[1] if passed else 0)


def of_checks():
    """Whether each script in tests/ is named by tests/all, by a check that tests/all names, or by a target of the Makefile."""
    runs = text_of("tests/all") + text_of("tests/library/library.sh") + text_of("Makefile")
    for path in sorted(glob.glob("tests/*/*.sh", root_dir=TOP) + glob.glob("tests/*/*.py", root_dir=TOP)):
        if "/shared/" not in path and (path.endswith(".sh") or '__name__ == "__main__"' in text_of(path)):
            yield f"{path}: it is run", path in runs


def of_places():
    """Whether each file has what a page says of it: in a row of a table of docs/ADDING.md the names to extend, in the crate of the step; in one of ARCHITECTURE
    the functions of a command and the clauses of their contracts; and anywhere the name that comes before the file."""
    crate, found = "", []
    for line in text_of(ADDING).splitlines():
        if line.startswith(("#", "**")):
            step = STEP.match(line)
            crate = step[1] if step else ""
        row = PLACE.fullmatch(line)
        if crate and row:
            found += in_file(f"{ADDING}: {crate}", f"crates/{crate}/{row[1]}", row[2])
    yield f"{ADDING}: {NAMES} names or more to extend, and not {len(found)}", len(found) >= NAMES
    yield from found
    found = [it for functions, path, clauses in FUNCTIONS.findall(text_of("docs/ARCHITECTURE.md"))
             for it in in_file("docs/ARCHITECTURE.md", f"crates/{path}", functions + clauses)]
    yield f"docs/ARCHITECTURE.md: {NAMES} names of functions and clauses or more, and not {len(found)}", len(found) >= NAMES
    yield from found
    for document in DOCUMENTS:
        for name, path in NAME_OF_FILE.findall(text_of(document)):
            yield from in_file(document, f"crates/{path}", f"`{name}`")


def in_file(document, path, said):
    """Whether a file has each name in backticks, but for one that contains NAME, which the reader replaces."""
    text = text_of(path) if os.path.isfile(os.path.join(TOP, path)) else ""
    said = re.sub(r"\(its part [^)]*\)", "", said)  # a field of the record that a clause is about
    for name in sorted(set(re.findall(r"`(?:\w+::)?([A-Za-z_]\w*)`", said))):
        if "NAME" not in name:
            yield f"{document}: {path} has {name}", bool(re.search(rf"\b{name}\b", text))


# The files of the code that have the sentences of the program, and the page, the header and the help that quote some: each with the variants whose sentences
# it quotes. Any other text that looks like a sentence of the program has to be one too.
KIND_SENTENCES, HEADER = "crates/file_hints/src/sentences.rt", "include/golly_canon.h"
SENTENCES = [KIND_SENTENCES, "crates/file_hints/src/foreign.rt", "crates/file_hints/src/warnings.rt"]
QUOTED = {
    "docs/LIBRARY.md": ["BadChild", "Gzip"],
    "docs/FORMATS.md": ["BadChild", "Memory"],
    HEADER: ["BadChild", "Gzip", "Cut"],
    HELP: ["ZeroCount"],
}
# A text in backticks, the reason of an object of JSON, and the end of a line of Python. (A text that ends in `: N.` is a line with a number, and one that ends
# in `..` isn't a whole sentence.)
QUOTE = re.compile(r'`([A-Z][^`]* [^`]*[^`.]\.)(?<!: N\.)`|\\?"reason\\?":\\?"([^"\\]+)\\?"|# as: (.*?\.)(?= )')
# The beginning of a sentence after its kind, as "`line 4: BadChild: A child number ..`", and a row that says of a kind what it means, in other words.
BEGUN = re.compile(r"`[^`]*\b([A-Z][A-Za-z]+): ([A-Z][^`]*?)(?: \.\.)?`")
MEANING = {
    "docs/FORMATS.md": r"(?m)^\| `(\w+)` \| \d+ \| (.*) \|$",
    HELP: r"(?m)^  ([A-Z]\w+)\s+(\S.*(?:\n {10,}\S.*)*)$",
}
# Why a file can't be opened: the texts that the man page lists.
UNOPENED = re.compile(r"(?m)^\.IP \\\(bu 2\n\.B (.*)$")
LIMIT = re.compile(r"\b2\^\d+")


def sentences_in(path):
    """The sentence of each variant in a file of the code, where a long one is written in pieces."""
    arms = re.findall(r'\b(?:Kind|Foreign|Warning)::(\w+) => (?:\{|concat!\()?((?:\s*"[^"\n]*",?)+)', text_of(path))
    return {name: "".join(re.findall(r'"([^"\n]*)"', said)).replace("\\\\", "\\") for name, said in arms}


def of_sentences():
    """Whether each sentence of the program that a page quotes is one of the code, as a whole or as far as it is quoted, and whether no limit is another one
    where a page says in other words what a kind of fault means."""
    of_kinds = sentences_in(KIND_SENTENCES)
    known = {name: said for path in SENTENCES for name, said in sentences_in(path).items()}
    yield f"{' '.join(SENTENCES)}: sentences of {len(known)} variants", len(known) > 60
    allowed = {*known.values(), *UNOPENED.findall(text_of(PAGE))}
    for path, names in QUOTED.items():
        text = " ".join(re.sub(r"(?m)^ \* ?", "", text_of(path)).split())
        for name in names:
            yield f"{path}: the sentence of {name}: {known.get(name)}", known.get(name, "no sentence") in text
        for found in QUOTE.finditer(text):
            said = next(filter(None, found.groups()))
            yield f"{path}: a sentence of the program: {said}", said in allowed
    for path in DOCUMENTS:
        for kind, said in BEGUN.findall(text_of(path)):
            if kind in of_kinds:
                yield f"{path}: the beginning of the sentence of {kind}: {said}", of_kinds[kind].startswith(said)
        for said in re.findall(r"`(This is [^`]*?) \.\.`", text_of(path)):
            yield f"{path}: the beginning of a sentence on a file: {said}", any(it.startswith(said) for it in known.values())
    for path, row in MEANING.items():
        rows = [(kind, said) for kind, said in re.findall(row, text_of(path)) if kind in of_kinds]
        yield f"{path}: what {len(rows)} kinds of fault mean", len(rows) >= len(of_kinds) - 1
        for kind, said in rows:
            limits = set(LIMIT.findall(of_kinds[kind]))
            yield f"{path}: the limits of {kind}: {said}", not limits or set(LIMIT.findall(said)) <= limits
    part = re.search(r'(?m)^    grep -rniIF "([^"]+)"', text_of(ADDING))
    yield f"{ADDING}: a part of a sentence to look for: {part and part[1]}", bool(part) and any(part[1] in it for it in of_kinds.values())


# The pages whose names of types and relations are looked up, and names that are none of the code's: two handles of the toolchain, and a rule of an example.
TYPED = ["docs/CLAIMS.md", "docs/PROOFS.md", "docs/ARCHITECTURE.md"]
FOREIGN_NAMES = {"Abort", "Wait", "Foo"}


def words_of_code():
    """The words of the code and of the definitions of all crates, without comments."""
    words = set()
    for pattern, comment in (("crates/*/src/**/*.rt", "//"), ("crates/*/specs/**/*.antt", "--")):
        for path in glob.glob(pattern, root_dir=TOP, recursive=True):
            words |= set(re.findall(r"\w+", re.sub(rf"(?m)(?:^|\s){comment}.*$", "", text_of(path))))
    return words


def of_types():
    """Whether each name of a type, a trait, a variant or a relation in backticks is in the code or the definitions of a crate."""
    words = words_of_code()
    for document in TYPED:
        prose = re.sub(r"(?ms)^```.*?^```|^    .*?$", "", text_of(document))
        said = [it for it in re.findall(r"`([^`\n]+)`", prose) if "/" not in it]
        names = {name for it in said for name in re.findall(r"(?<![\w.$-])([A-Z][a-z]\w*)\b(?!\.\w)", it)} - FOREIGN_NAMES
        yield f"{document}: names of types, and not {len(names)}", len(names) >= NAMES
        for name in sorted(names):
            yield f"{document}: {name} is in the code or the definitions of a crate", name in words


# Copies with a mistake: the check that has to refuse each, the file, and a text of it with the one that takes its place.
ALTERED = [
    (of_sentences, "docs/LIBRARY.md", "# as: A child number doesn't refer", "# as: A child number may not refer"),
    (of_sentences, "docs/LIBRARY.md", "`This is a gzip file: unpack it first, with gunzip.`", "`It is a gzip file: unpack it first, with gunzip.`"),
    (of_sentences, "docs/FORMATS.md", '"reason":"Memory was refused."', '"reason":"There is no memory."'),
    (of_sentences, "docs/FORMATS.md", "BadChild: A child number ..`", "BadChild: A quarter ..`"),
    (of_sentences, "docs/FORMATS.md", "or a count above 2^62. |", "or a count above 2^63. |"),
    (of_sentences, "docs/COLLECTIONS.md", "BadChild: A child number ..`", "BadChild: A quarter ..`"),
    (of_sentences, "docs/COLLECTIONS.md", "`This is a zip file: ..`", "`This is a zip archive: ..`"),
    (of_sentences, HEADER, "unpack it first, with gunzip.`", "unpack it, with gunzip.`"),
    (of_sentences, HEADER, "file that was cut off before its end looks like this`", "file that was cut off looks like this`"),
    (of_sentences, HELP, '\\"reason\\":\\"A count is 0.\\"', '\\"reason\\":\\"A count is zero.\\"'),
    (of_sentences, HELP, "a line has more than 2^20 bytes", "a line has more than 2^21 bytes"),
    (of_sentences, KIND_SENTENCES, '"A count is 0."', '"A count may not be 0."'),
    (of_sentences, ADDING, 'grep -rniIF "refer to an earlier', 'grep -rniIF "be that of an earlier'),
    (of_types, "docs/CLAIMS.md", "A `StoreOptions` has", "A `StoreChoices` has"),
    (of_types, "docs/PROOFS.md", "`SharedSquares::seed`", "`SharedStores::seed`"),
    (of_types, "docs/ARCHITECTURE.md", "A `Sixteen` is", "A `FourRows` is"),
    (of_fronts, "crates/key_sink/src/lib.rt", "Above it, `file_keys`", "Above it, `life_cli`"),
    (of_fronts, "crates/life_lanes/src/lib.rt", "Above it, `life_strip`", "No crate is above it: `life_strip`"),
]


def of_altered():
    """Whether each altered copy is refused by the check that it is for, which passes the file itself."""
    for check, path, old, new in ALTERED:
        text = text_of(path)
        before = {what for what, holds in check() if not holds}
        copies[path] = text.replace(old, new, 1)
        after = {what for what, holds in check() if not holds}
        del copies[path]
        yield f"{path}: {check.__name__} refuses {new!r} in place of {old!r}", text.count(old) >= 1 and bool(after - before)


def findings():
    """What was looked at, and whether it holds."""
    for document in DOCUMENTS:
        text = text_of(document)
        for file, anchor in sorted(set(LINKED.findall(text))):
            yield f"{document}: link to {file}#{anchor}", leads_somewhere(document, file, anchor)
        for name in sorted(set(NAMED.findall(text))):
            if not PATTERN.search(name):
                yield f"{document}: {name}", is_there(name)
    for document in ("README.md", "docs/FORMATS.md"):
        for address in ELSEWHERE:
            yield f"{document}: a link to {address}", f"]({address}" in text_of(document)
    yield from wide_clauses()
    yield from of_page()
    yield from of_version()
    yield from of_figures()
    yield from of_squares()
    yield from of_defaults()
    yield from of_crates()
    yield from of_fronts()
    yield from of_kinds()
    yield from of_checks()
    yield from of_places()
    yield from of_sentences()
    yield from of_types()
    yield from of_altered()
    yield from widths()


def main():
    for what, holds in findings():
        counting.check(holds, what)
    return counting.ended()


if __name__ == "__main__":
    sys.exit(main())
