#!/usr/bin/env python3
"""Refuses each request for memory in turn, alone and together with all after it: first those of the built program, PROGRAM, then those of ROWS, the built
program of crates/rows, which is given the rows that come after a line `# Memory:` of its file `stdin`: once those on calls, and once those on squares, which
come after the line `# Squares:`. Together these make each call of the libraries that takes memory. What meets a refusal answers `Memory`, or does without that
memory, and all else is as ever. A join of a square that is stored makes no request. The last line is 'N passed, M failed'. It needs a C compiler, for
tests/devices/refuse_allocation.c.

usage: tests/devices/allocations.py PROGRAM ROWS
"""

import hashlib
import itertools
import json
import os
import re
import subprocess
import sys
import tempfile
from concurrent.futures import ThreadPoolExecutor
from typing import NamedTuple

sys.dont_write_bytecode = True  # nothing is left in tests/
sys.path.insert(0, os.path.dirname(os.path.dirname(os.path.abspath(__file__))))

from independent.commands import File  # noqa: E402
from shared import counting, processes  # noqa: E402
from shared.fixtures import FILES, LIFE, LINE_STEPPED, PAIR_RLE, PAIR_SHOWN, PAIR_TEXT, ROWS, SPREAD_STEPPED, canonical  # noqa: E402
from shared.processes import Answer  # noqa: E402

ALWAYS = 1_000_000_000
SECONDS = 10
HERE = os.path.dirname(os.path.abspath(__file__))
SOURCE = os.path.join(HERE, "refuse_allocation.c")
CRATES = os.path.join(HERE, "../../crates")


class Run(NamedTuple):
    """A run of a program in a folder, and what it does with ample memory; and what else it may do where memory is refused."""
    name: str
    words: list
    answer: Answer
    source: bytes = b""
    others: tuple = ()


# ---- the program: status 4, the one line `Memory` on standard error, and nothing on standard output; or what `keys` tells of single files

# A cell under seven squares, of which one is its least square.
SEVEN = b"....*$$$$$$$$\n4 1 0 0 0\n5 2 0 0 0\n6 3 0 0 0\n7 4 0 0 0\n8 5 0 0 0\n9 0 0 0 6\n"


def many_leaves():
    """A file of 2 MiB, with so many squares in its front that room is made for those of the rest."""
    leaves = b"".join(ROWS[number % 256] + ROWS[number // 256] + b"\n" for number in range(1, 701))
    return b"[M2]\n" + leaves + b"#\n" * 2**20 + b"....*$$$$$$$$\n"


def spread_row():
    """A row of 80 cells, one in each 8 columns and not in the same one: its squares of level 4 and 5 are joined many at once."""
    columns = [8 * number + number * 5 % 8 for number in range(80)]
    gaps = [column - last - 1 for last, column in zip([-1, *columns], columns)]
    return b"x = 640, y = 1, rule = B3/S23\n%s!\n" % b"".join(b"%db" % gap * bool(gap) + b"o" for gap in gaps)


GIVEN = {
    **FILES,
    "row.rle": spread_row(),
    "seven.mc": b"[M2] (golly 4.2)\n#R B3/S23\n" + SEVEN,
    "leaves.mc": many_leaves(),
    "long.rle": b"#C\n" * 1400 + FILES["line.rle"],
    "child.mc": b"[M2]\n#R B3/S23\n....*$$$$$$$$\n4 0 0 0 9\n",
}
TWO_CELLS = b"[M2]\n#R WireWorld\n#G 7\n1 1 25 0 0"

PROGRAM_RUNS = [
    Run("canon FILE", ["canon", "seven.mc"], Answer(0, LIFE + b"....*$$$$$$$$\n4 0 0 0 1\n")),
    Run("canon of RLE", ["canon", "pair.rle"], Answer(0, PAIR_TEXT)),
    Run("canon of a row", ["canon", "row.rle"], Answer(0, File(GIVEN["row.rle"]).text)),
    Run("same A B", ["same", "pair.rle", "pair.mc"], Answer(0, b"same\n")),
    Run("canon FILE --form moved", ["canon", "pair.rle", "--form", "moved"], Answer(0, LIFE + b"*$$$$$$$$\n4 1 1 0 0\n5 0 0 0 2\n")),
    Run("canon FILE --form turned", ["canon", "pair.mc", "--form", "turned"], Answer(0, LIFE + b"*$$$$$$$$\n4 1 0 1 0\n5 0 0 0 2\n")),
    Run("same A B --form moved", ["same", "pair.rle", "pair.mc", "--form", "moved"], Answer(0, b"same\n")),
    Run("same A B --form turned", ["same", "pair.rle", "pair.mc", "--form", "turned"], Answer(0, b"same\n")),
    Run("show FILE", ["show", "pair.rle"], Answer(0, PAIR_SHOWN)),
    Run("show FILE --period MOST", ["show", "line.rle", "--period", "9"],
        Answer(0, b"rule B3/S23\ngeneration 0\npopulation 3\nbox 0 0 3 1\nnodes 1\nperiod 2 oscillator\n")),
    Run("convert FILE --to rle", ["convert", "pair.mc", "--to", "rle"], Answer(0, PAIR_RLE)),
    Run("convert FILE --to mc", ["convert", "pair.rle", "--to", "mc"], Answer(0, PAIR_TEXT)),
    Run("step FILE", ["step", "line.rle"], Answer(0, LINE_STEPPED)),
    Run("step FILE row by row", ["step", "long.rle"], Answer(0, LINE_STEPPED)),
    Run("step FILE --table RULE", ["step", "spread.rle", "--table", "spread.rule"], Answer(0, SPREAD_STEPPED)),
    Run("step FILE --generations N", ["step", "line.rle", "--generations", "1"], Answer(0, LINE_STEPPED)),
    Run("step FILE --table RULE --generations N", ["step", "spread.rle", "--table", "spread.rule", "--generations", "1"], Answer(0, SPREAD_STEPPED)),
    Run("canon of 2 MiB", ["canon", "leaves.mc"], Answer(0, LIFE + b"....*$$$$$$$$\n")),
    Run("canon -", ["canon", "-"], Answer(0, canonical(b"WireWorld", 7) + b"1 1 25 0 0\n"), TWO_CELLS),
    Run("canon of a refused file", ["canon", "child.mc"], Answer(2, b"", b"line 4: BadChild\n")),
    Run("canon of an absent file", ["canon", "absent"], Answer(3, b"", b"ReadFault\n")),
]


NO_CHILD = "A child number doesn't refer to an earlier square one level down."
BAD_CHILD = f"child.mc: line 4: BadChild: {NO_CHILD}\n".encode()


def keys_run(name, words, texts):
    """A run of `keys` over files with these texts, of which a list names the last and words the others. One for which there is no memory is told by
    its name, and the next one is taken."""
    parts = {}
    for file, text in texts.items():
        key = hashlib.sha256(text).hexdigest().encode() if text else b""
        parts[file] = (0, b"%s  %s\n" % (key, file), b"") if text else (2, b"", BAD_CHILD)
    refused = {file: (4, b"", file + b": Memory: Memory was refused.\n") for file in parts}
    answer, others = answers_of(parts, refused)
    *named, last = (file.decode() for file in parts)
    return Run(name, [*words, *named, "--from", "-"], answer, last.encode() + b"\n", others)


def answers_of(parts, refused):
    """What a run answers that comes to these parts, one after another, and what else it may answer where there is no memory for some of them. A part is a
    status and what is written to standard output and to standard error; `refused` has what takes its place."""
    def answer(without):
        found = [refused[name] if name in without else part for name, part in parts.items()]
        return Answer(max(status for status, _, _ in found), b"".join(it for _, it, _ in found), b"".join(it for _, _, it in found))

    counts = range(1, len(parts) + 1)
    return answer(()), tuple(answer(without) for count in counts for without in itertools.combinations(parts, count))


# The patterns of a stream, each with its text, or none if it is BadChild, and its warning. The third one is longer than a read of the program, and the last one
# lacks its end.
NO_SQUARES = "the file has no line of squares, so it is the blank pattern; a macrocell file that lost its line ends looks like this"
PATTERNS = [
    (FILES["pair.mc"], PAIR_TEXT, ""),
    (GIVEN["child.mc"], b"", ""),
    (b"#C\n" * 30_000 + FILES["pair.rle"], PAIR_TEXT, ""),
    (b"[M2]\n", LIFE, NO_SQUARES),
    (GIVEN["seven.mc"], LIFE + b"....*$$$$$$$$\n4 0 0 0 1\n", ""),
]


def stream_run(name, words):
    """A run of `keys` over these patterns, one after another. One for which there is no memory is reported by its number, and the next one is taken."""
    parts, refused = {}, {}
    for number, (_, text, warning) in enumerate(PATTERNS, 1):
        key = f"{hashlib.sha256(text).hexdigest()}  {number}\n".encode()
        warned = f"{number}: warning: {warning}\n".encode() if warning else b""
        parts[number] = (0, key, warned) if text else (2, b"", f"{number}: line 4: BadChild: {NO_CHILD}\n".encode())
        refused[number] = (4, b"", f"{number}: Memory: Memory was refused.\n".encode())
    return Run(name, [*words, "--stream", "-"], *stream_answers(parts, refused))


def objects_run(name, words):
    """The same, which writes objects."""
    parts, refused = {}, {}
    for number, (_, text, warning) in enumerate(PATTERNS, 1):
        found = {"key": hashlib.sha256(text).hexdigest()} if text else {"kind": "BadChild", "line": 4, "reason": NO_CHILD}
        warned = f"{number}: warning: {warning}\n".encode() if warning else b""
        parts[number] = (0 if text else 2, object_of(number, found), warned)
        refused[number] = (4, object_of(number, {"kind": "Memory", "reason": "Memory was refused."}), b"")
    return Run(name, [*words, "--json", "--stream", "-"], *stream_answers(parts, refused))


def stream_answers(parts, refused):
    """What a run over these patterns answers, what it is given, and what else it may answer."""
    answer, others = answers_of(parts, refused)
    return answer, b"\0".join(data for data, _, _ in PATTERNS), others


def object_of(number, members):
    return json.dumps({"name": str(number), **members}, separators=(",", ":")).encode() + b"\n"


def duplicates_run(name, words, groups):
    """A run of `duplicates` over files that are these groups, of which a list names the last and words the others. One for which there is no memory is
    told by its name, and is in no group."""
    files = [(number, file) for number, group in enumerate(groups) for file in group]

    def answer(without):
        """The answer where there is no memory for the files at these places."""
        kept = [[file for place, (number, file) in enumerate(files) if number == group and place not in without] for group in range(len(groups))]
        kept = [group for group in kept if len(group) > 1]
        told = b"".join(files[place][1] + b": Memory: Memory was refused.\n" for place in without)
        text = b"\n".join(b"".join(file + b"\n" for file in group) for group in kept)
        return Answer(4 if without else 0 if kept else 1, text, told)

    counts = range(1, len(files) + 1)
    others = tuple(answer(without) for count in counts for without in itertools.combinations(range(len(files)), count))
    *named, last = (file.decode() for _, file in files)
    return Run(name, [*words, *named, "--from", "-"], answer(()), last.encode() + b"\n", others)


DUPLICATES_RUNS = [
    duplicates_run("duplicates FILE.. --from -", ["duplicates"], [[b"pair.rle", b"pair.mc", b"pair.rle"], [b"seven.mc", b"seven.mc"]]),
    duplicates_run("duplicates FILE.. --form placed --from -", ["duplicates", "--form", "placed"], [[b"seven.mc"], [b"pair.rle", b"pair.mc"]]),
]
KEYS_RUNS = [
    keys_run("keys FILE.. --from -", ["keys"],
             {b"pair.rle": PAIR_TEXT, b"child.mc": b"", b"seven.mc": LIFE + b"....*$$$$$$$$\n4 0 0 0 1\n", b"pair.mc": PAIR_TEXT}),
    keys_run("keys FILE.. --form turned --from -", ["keys", "--form", "turned"],
             {b"pair.rle": LIFE + b"*$$$$$$$$\n4 1 0 1 0\n5 0 0 0 2\n", b"child.mc": b"", b"pair.mc": LIFE + b"*$$$$$$$$\n4 1 0 1 0\n5 0 0 0 2\n"}),
    keys_run("keys FILE.. --ignore-generation --from -", ["keys", "--ignore-generation"],
             {b"pair.rle": PAIR_TEXT, b"child.mc": b"", b"last.rle": LIFE + b"$$$$....***$$$$\n"}),
    stream_run("keys --stream -", ["keys"]),
    objects_run("keys --json --stream -", ["keys"]),
]


def program_runs(program):
    """The rows, and two whose texts are those of the program with ample memory: what they are, tests/program/hostile.py says."""
    texts = [Run("--help", ["--help"], Answer(0)), Run("no file", ["canon"], Answer(5))]
    for run in texts:
        found = processes.run([program, *run.words])
        yield run._replace(answer=found._replace(status=run.answer.status))
    yield from PROGRAM_RUNS
    yield from KEYS_RUNS
    yield from DUPLICATES_RUNS


def program_problem(found, run):
    """What is wrong with a run of the program that met a refusal and didn't answer as ever."""
    return "" if found in (Answer(4, b"", b"Memory\n"), *run.others) else f"{found} and not {run.answer}"


# ---- the rows: `Memory` where a call was refused memory, the right answer to each other one, before and after

# What comes after the `Memory` of a part: that a reader is spent, or how many squares the store holds. A fault says its line, 0, before.
OUT_OF_MEMORY = re.compile(rb"(.*?)(?:0 )?Memory(?: Spent)*(?:, \d+ of \d+ nodes)?")

# A row that got no memory for its own input or answer.
NO_MEMORY = b"no memory"


def rows_runs():
    """The rows on calls that come after the line `# Memory:`, and those on squares, with their answers."""
    runs, is_memory, place = {b"calls": [], b"squares": []}, False, 0
    about = b"calls"
    with open(os.path.join(CRATES, "rows/stdin"), "rb") as rows, open(os.path.join(CRATES, "rows/stdout"), "rb") as it:
        answers = it.read().splitlines()
        for row in rows.read().splitlines():
            if row.startswith(b"# Squares:"):
                about, is_memory = b"squares", False
            elif row.startswith(b"# Memory:"):
                is_memory = True
            elif not row.startswith(b"#"):
                if is_memory:
                    runs[about].append((row, answers[place]))
                place += 1
    for name, pairs in runs.items():
        rows, answers = zip(*pairs)
        yield Run(f"the rows on {name.decode()}", [], Answer(0, b"\n".join([*answers, b"%d rows\n" % len(rows)])), b"\n".join(rows))


def parts_of(line):
    """The answers of the calls of a row."""
    return re.split(b" / | & ", line)


def is_refused(found, wanted):
    """Whether a part says that it is out of memory. What it answered before is as ever."""
    it = OUT_OF_MEMORY.fullmatch(found)
    return bool(it) and found != wanted and wanted.startswith(it[1])


def refused_parts(found, wanted):
    """How many parts of a line were refused memory; nothing, where another part isn't as ever."""
    if found == NO_MEMORY:
        return 0
    pairs = list(itertools.zip_longest(parts_of(found), parts_of(wanted), fillvalue=b""))
    if not all(is_refused(*pair) or pair[0] == pair[1] for pair in pairs):
        return None
    return sum(is_refused(*pair) for pair in pairs)


def refused_rows(found, run):
    """For each row, how many of its parts were refused memory. No row is answered where the rows themselves weren't read."""
    wanted = run.answer.output.splitlines()
    lines = found.output.splitlines()
    if found == Answer(1, b"", b""):
        return [0] * len(wanted)
    if len(lines) != len(wanted) or found._replace(output=b"") != run.answer._replace(output=b""):
        return None
    counts = [refused_parts(*pair) for pair in zip(lines, wanted)]
    return None if None in counts else counts


def rows_problem(found, run):
    """What is wrong with a run of the rows."""
    wrong = [pair for pair in zip(found.output.splitlines(), run.answer.output.splitlines()) if refused_parts(*pair) is None]
    return f"status {found.status}, {found.error!r}, {wrong[:1]}"


# ---- each request of a run refused in turn


class Requests:
    """Runs of one program, each request for memory refused in turn."""

    def __init__(self, program, refuse, folder):
        self.program, self.refuse, self.folder = program, refuse, folder

    def reported(self, run, first, last):
        """What a run answers where these requests are refused, and all numbers that are reported of it."""
        settings = {"FIRST": first, "LAST": last}
        try:
            return processes.preloaded(self.refuse, [self.program, *run.words], settings, 3, run.source, cwd=self.folder, timeout=SECONDS)
        except subprocess.TimeoutExpired:
            return Answer(None, b"", b"it did not end"), [1, 1, 0]

    def ran(self, run, first, last):
        """What a run answers where these requests are refused, how many there were, and how many were refused."""
        found, (requests, refused, *_) = self.reported(run, first, last)
        return found, requests, refused

    def by_line(self, run):
        """How many requests a run makes with ample memory for each line that it writes."""
        _, (_, _, _, *ends) = self.reported(run, 0, 0)
        return [end - start for start, end in zip([0, *ends], ends)]

    def total(self, run):
        """How many requests a run makes, and what is wrong with it with ample memory."""
        found, total, _ = self.ran(run, 0, 0)
        problems = [f"with ample memory: {found}"] if found != run.answer else []
        return total, problems if total else [*problems, "no request for memory was seen"]

    def refusals(self, pool, run, total):
        """For each request, alone and with all behind it: its number, whether it is alone, what the run answers, and how many were refused."""
        ranges = [(number, last) for number in range(1, total + 1) for last in (number, ALWAYS)]
        for (number, last), (found, _, refused) in zip(ranges, pool.map(lambda it: self.ran(run, *it), ranges)):
            yield number, last == number, found, refused


def program_checks(requests, pool, runs):
    """The name of each run of the program, and what is wrong with it."""
    for run in runs:
        total, problems = requests.total(run)
        without = 0
        for number, _, found, refused in requests.refusals(pool, run, total):
            if refused == 0:
                problems.append(f"request {number} was not refused")
            elif found == run.answer:
                without += 1
            elif problem := program_problem(found, run):
                problems.append(f"request {number}: {problem}")
        yield f"{run.name}: each of {total} requests refused, {without} done without", problems


def stored_problems(requests, run):
    """What is wrong with the requests of the first three rows of squares: 64 joins, these twice on one store, and 65 joins. The last one shows that the list of
    levels is full when the others are joined again. The rows take the memory for their answers and their lists of squares before."""
    _, twice, more, *_ = requests.by_line(run)
    row = run.source.splitlines()[0]
    _, once, *_ = requests.by_line(run._replace(source=row + b"\n" + row))  # the first line's requests are those for the rows, too
    problems = [f"joins of stored squares make {twice - once} requests"] if twice != once else []
    return problems if more > once else [*problems, "the join of a new square makes no request"]


def rows_checks(requests, pool, run):
    """The same of the rows. Each meets the refusal of one request, where it is made for the first time."""
    total, problems = requests.total(run)
    without, met = 0, set()
    for number, is_alone, found, refused in requests.refusals(pool, run, total):
        counts = refused_rows(found, run)
        if refused == 0:
            problems.append(f"request {number} was not refused")
        if counts is None:
            problems.append(f"request {number}: {rows_problem(found, run)}")
            continue
        without += not any(counts)
        if is_alone:
            met |= {place for place, count in enumerate(counts) if count}
            if sum(counts) > 1:
                problems.append(f"request {number}: {sum(counts)} calls answered Memory")
    yield f"{run.name}: each of {total} requests refused, {without} done without", problems
    lines = run.source.splitlines()
    yield f"{run.name}: each of {len(lines)} meets a refusal", [row.decode() for place, row in enumerate(lines) if place not in met]


def put_files(folder):
    for name, text in GIVEN.items():
        with open(os.path.join(folder, name), "wb") as file:
            file.write(text)


def main(program, rows):
    program, rows = map(processes.program_of, (program, rows))
    with tempfile.TemporaryDirectory() as folder, tempfile.TemporaryDirectory() as built, ThreadPoolExecutor(os.cpu_count()) as pool:
        refuse = processes.compiled(SOURCE, os.path.join(built, "refuse.so"), "-shared", "-fPIC")
        put_files(folder)
        calls, squares = rows_runs()
        requests = Requests(rows, refuse, folder)
        checks = [
            program_checks(Requests(program, refuse, folder), pool, program_runs(program)),
            rows_checks(requests, pool, calls),
            rows_checks(requests, pool, squares),
            [("a join of a stored square makes no request", stored_problems(requests, squares))],
        ]
        for name, problems in (it for part in checks for it in part):
            counting.row(name, problems[:3])
    return counting.ended()


if __name__ == "__main__":
    if len(sys.argv) != 3:
        sys.exit("usage: tests/devices/allocations.py PROGRAM ROWS")
    sys.exit(main(*sys.argv[1:]))
