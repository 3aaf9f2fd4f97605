#!/usr/bin/env python3
"""Compares the built program with the independent reader of `tests/independent`: standard output, the line on standard error and the status of each
command, on small files of which every byte is cut and changed, and on random files. Where PROGRAM is the shared library, its calls are compared in
place of the commands, which takes half the time.

usage: tests/program/compare.py PROGRAM --cases N --seed SEED [--jobs N] [--first CASE] [--only CASE]

A difference is printed with its seed, its case and its files. `--first` goes on where an earlier run of the seed ended, with random cases alone,
and `--only` repeats one of them. The last line counts the cases.
"""

import argparse
import collections
import functools
import multiprocessing
import os
import random
import signal
import sys
import tempfile
from typing import NamedTuple, Optional

sys.path.insert(0, os.path.dirname(os.path.dirname(os.path.abspath(__file__))))

from independent import commands  # noqa: E402
from independent.fuzz import random_files, small_files  # noqa: E402
from judged import Library, Program  # noqa: E402
from shared import counting, processes  # noqa: E402

REPLACED_BY = [0, 10, ord("$"), ord("9"), ord("o"), ord("!"), ord(","), 127, 128, 255]
# A pattern with more cells than this, and no more than the program takes, is neither stepped nor written as RLE: the reader is slow there.
MOST_CELLS = 2**12
# One with more cells than this, and no more than the program takes, is neither moved nor turned: the reader makes eight of it.
MOST_TURNED = 2**9
# The reader makes one generation after the other, in which a cell can come to (2 n + 1)^2. So the cube of how many there are, times the number of cells,
# is at most this number; and by a table, which the reader looks through for each cell, there are no more than so many.
MOST_WORK = 150_000
MOST_BY_TABLE = 7
# A limit of squares for some of the calls of the library has at most so many binary digits.
MOST_DIGITS = 13
# Files above this size are not respelled, since that could make a line too long.
LARGE = 2**19
# What files and their patterns can be refused by. Want of memory or room, devices and inputs above 2^30 bytes are other tests' part.
KINDS = """NoHeader BadHeader BadRule BoundedGrid UnsupportedRule BirthOnZero BadNumber TooLarge BadItem ZeroCount StateRange OutOfPlane LateHeader
SecondHeader BadNode BadLevel BadChild BadLeaf Timeline LineTooLong NoRuleLine NoTable BadDescriptor UnsupportedNeighborhood UnsupportedSymmetry
BadVariable BadTransition UnboundOutput NotQuiet RuleMismatch NeedsTable Ambiguous TooManyCells GenerationTooLarge StateBeyondTable""".split()
# Comments of 4 KB. With them before it an RLE file is read whole, and stepped row by row if that can be done.
COMMENTS = b"#C\n" * 1400
# What may come in the place of every answer within a limit of squares.
FULL = commands.Answer(4, b"", "Full\n")
# How many cases there are from one line that says how far it is to the next.
STRIDE = 10000
# A folder in memory, where there is one.
FAST_FOLDER = "/dev/shm"


class Case(NamedTuple):
    """A pattern file, another one to compare it with, and a table to step it by."""

    name: str
    pattern: bytes
    other: bytes
    table: Optional[bytes] = None
    only_step: bool = False
    by_pipe: bool = False
    respelling: Optional[bytes] = None


class Finding(NamedTuple):
    """What came of a case: its differences as texts, and how often each status and kind was answered."""

    problems: list
    answers: collections.Counter


# ---- The cases


def changes_of(data):
    """The file cut behind every byte, and with each byte replaced, with what was done."""
    for at in range(len(data)):
        yield f"cut behind {at} bytes", data[:at]
        for byte in REPLACED_BY:
            if data[at] != byte:
                yield f"byte {at} is {byte}", data[:at] + bytes([byte]) + data[at + 1:]


def small_cases():
    for name, data in small_files.LIFE_FILES.items():
        for change, changed in changes_of(data):
            yield Case(f"{name}, {change}", changed, data)
    for name, (data, table) in small_files.NAMED_FILES.items():
        for change, changed in changes_of(data):
            yield Case(f"{name}, {change}", changed, data, table)
    for name, (table, data) in small_files.TABLES.items():
        for change, changed in changes_of(table):
            yield Case(f"{name}, {change}", data, data, changed, only_step=True)


def random_case(seed, number):
    """The case of a number under a seed."""
    source = random.Random(f"{seed} {number}")
    rule, greatest = random_files.rule_text(source)
    table = None
    if source.random() < 0.4:
        name = random_files.name_text(source)
        table, states = random_files.table_file(source, name)
        if source.random() < 0.9:
            rule, greatest = name, min(255, states - (source.random() < 0.9))
        table = random_files.mutated(source, table, (0.7, 0.2, 0.1))
    right = random_files.pattern_file(source, rule, greatest)
    pattern = random_files.mutated(source, right, (0.75, 0.25) if table else (0.5, 0.35, 0.12, 0.03))
    if source.random() < 0.006:
        pattern = random_files.lengthened(source, pattern)
    elif source.random() < 0.04:
        pattern = random_files.shifted(source, pattern)
    elif table is not None and source.random() < 0.006:
        table = random_files.lengthened(source, table)
    other = source.choice([right, random_files.mutated(source, right), random_files.pattern_file(source, rule, greatest)])
    respelling = random_files.respelled(source, pattern) if len(pattern) < LARGE else None
    return Case(f"seed {seed}, case {number}", pattern, other, table, by_pipe=source.random() < 0.3, respelling=respelling)


# ---- One case


def is_slow(file):
    """Whether the reader would take long to list the cells of a file. It refuses more than 2^20 without listing them."""
    return not isinstance(file.reading, commands.Fault) and MOST_CELLS < file.reading.plane.population <= commands.MOST_CELLS


def has_slow_form(file):
    """Whether the reader would take long to make a form of a file. It lists the cells of the form, however many they are."""
    return not isinstance(file.reading, commands.Fault) and MOST_TURNED < file.reading.plane.population


def generations_of(case, file, most=None):
    """How many generations further the pattern of a case is taken. A number of them may be beyond the last generation."""
    source = random.Random(f"generations {case.name}")
    if isinstance(file.reading, commands.Fault):
        return [source.randrange(3)]
    population = file.reading.plane.population
    if population > MOST_CELLS:
        return []
    within = round((MOST_WORK / max(population, 1)) ** (1 / 3))
    few = source.randrange(1 + (within if most is None else min(within, most)))
    return [few, 2**64 - file.reading.generation] if file.reading.generation else [few]


def limit_of(case):
    """A limit of squares, small ones as often as large ones."""
    source = random.Random(f"limit {case.name}")
    return source.randrange(2 ** source.randrange(1, MOST_DIGITS + 1))


def can_be_longer(case, file):
    """Whether comments may stand before the file without another answer: it is in RLE, and isn't refused."""
    return not isinstance(file.reading, commands.Fault) and not case.pattern.startswith(b"[M2]")


def wanted_answers(case):
    """The runs of a case: the words behind the program's name, and what the reader answers."""
    file, other = commands.File(case.pattern), commands.File(case.other)
    name = "-" if case.by_pipe else "pattern"
    if not case.only_step:
        yield ["canon", name], commands.canon(file)
        yield ["show", name], commands.show(file)
        yield ["same", name, "other"], commands.same(file, other)
        if not is_slow(file):
            yield ["convert", name, "--to", "rle"], commands.convert_to_rle(file)
            yield ["step", name], commands.step(file)
            if can_be_longer(case, file):
                yield ["step", "longer"], commands.step(file)
            for number in generations_of(case, file):
                yield ["step", name, "--generations", str(number)], commands.step(file, generations=number)
            for number in generations_of(case, file)[:1]:
                yield ["show", name, "--period", str(number + 1)], commands.show(file, number + 1)
    if case.table is not None and not is_slow(file):
        table = commands.File(case.table)
        yield ["step", name, "--table", "table"], commands.step(file, table)
        if not case.only_step:
            for number in generations_of(case, file, MOST_BY_TABLE)[:1]:
                yield ["step", name, "--generations", str(number), "--table", "table"], commands.step(file, table, number)
    if case.respelling is not None:
        yield ["convert", name, "--to", "mc"], commands.convert_to_mc(file)
        yield ["same", "other", name], commands.same(other, file)
        if not has_slow_form(file):
            yield ["canon", name, "--form", "moved"], commands.canon(file, "moved")
            yield ["canon", name, "--form", "turned"], commands.canon(file, "turned")
            if not has_slow_form(other):
                form = "moved" if len(case.pattern) % 2 else "turned"
                yield ["same", name, "other", "--form", form], commands.same(file, other, form)
            for number in generations_of(case, file)[:1]:
                within = ["--within", str(number + 1), "--form", "phases"]
                yield ["canon", name, *within], commands.canon(file, "phases", number + 1)
                if not has_slow_form(other):
                    yield ["same", name, "other", *within], commands.same(file, other, "phases", number + 1)


def escaped(data):
    """A file as it is printed."""
    return repr(data) if len(data) <= 2000 else f"{data[:1000]!r} .. {data[-1000:]!r} ({len(data)} bytes)"


def told(case, words, program, reader):
    """A difference as a text."""
    files = [("pattern", case.pattern), ("other", case.other), ("table", case.table)]
    files = [f"  {name}: {escaped(data)}" for name, data in files if data is not None and name in [*words, "pattern"]]
    return "\n".join([f"{case.name}: {' '.join(words)}", *files, f"  program: {program}", f"  reader:  {reader}"])


def respelling_problems(judged, case, text):
    """An accepted file, its canonical text and its RLE are one pattern, and so is another spelling of it."""
    judged.put("text", text)
    judged.put("respelling", case.respelling)
    found = judged.answer(["convert", "text", "--to", "rle"], "pattern")
    runs = [
        (["canon", "text"], commands.Answer(0, text)),
        (["same", "pattern", "respelling"], commands.Answer(0, b"same\n")),
    ]
    if found.status == 0:
        judged.put("rle", found.output)
        runs.append((["canon", "rle"], commands.Answer(0, text)))
        runs.append((["same", "rle", "pattern"], commands.Answer(0, b"same\n")))
    for words, wanted in runs:
        got = judged.answer(words, "pattern")
        if got != wanted:
            yield told(case, words, got, wanted)


def compared(judged, case):
    """The finding of a case."""
    files = {"pattern": case.pattern, "other": case.other, "table": case.table}
    for name, data in files.items():
        if data is not None:
            judged.put(name, data)
    problems, answers, text = [], collections.Counter(), None
    for words, wanted in wanted_answers(case):
        if not judged.knows(words):
            continue
        if "longer" in words:
            judged.put("longer", COMMENTS + case.pattern)
        got = judged.answer(words, "pattern")
        if got != wanted:
            problems.append(told(case, words, got, wanted))
        answers[f"status {got.status}"] += 1
        answers.update(got.fault.split()[-1:])
        if judged.limits(words):
            limit = limit_of(case)
            within = judged.answer(words, "pattern", limit)
            if within not in (wanted, FULL):
                problems.append(told(case, [*words, f"within {limit} squares"], within, f"{wanted} or {FULL}"))
            answers.update(within.fault.split()[-1:])
        if words[0] == "canon" and words[-1] == words[1] and got.status == 0:
            text = got.output
    if case.respelling is not None and text is not None:
        problems += respelling_problems(judged, case, text)
    return Finding(problems, answers)


# ---- All cases


def of_number(judged, parent, seed, given):
    """The finding of a case of `small_cases`, or of a random one by its number. Each process works in a folder of its own."""
    folder = os.path.join(parent, str(os.getpid()))
    os.makedirs(folder, exist_ok=True)
    os.chdir(folder)
    return compared(judged, given if isinstance(given, Case) else random_case(seed, given))


def pool_of(jobs):
    """The processes that look at cases. What `main` does with a signal is not for them: one that exits by it may wait for another's lock for ever."""
    return multiprocessing.Pool(jobs, signal.signal, (signal.SIGTERM, signal.SIG_DFL))


def findings(judged, options):
    """The findings of all cases that were asked for, from several processes."""
    if options.only is not None:
        cases = [options.only]
    elif options.first:
        cases = range(options.first, options.first + options.cases)
    else:
        cases = [*small_cases(), *range(options.cases)]
    parent = FAST_FOLDER if os.path.isdir(FAST_FOLDER) else None
    with tempfile.TemporaryDirectory(dir=parent) as folder, pool_of(options.jobs) as pool:
        yield from pool.imap_unordered(functools.partial(of_number, judged, folder, options.seed), cases, 16)


def judged_of(path):
    """The program of that path, or the shared library."""
    return Library(os.path.abspath(path)) if path.endswith(".so") else Program(processes.program_of(path))


def answers_of(all_findings):
    """Counts each case, and how often each answer came. After so many cases a line says how far it is."""
    answers = collections.Counter()
    for finding in all_findings:
        answers += finding.answers
        counting.count(not finding.problems, bool(finding.problems))
        for problem in finding.problems:
            print(f"FAILED  {problem}", flush=True)
        cases = counting.passed + counting.failed
        if cases % STRIDE == 0:
            print(f"{cases} cases, {counting.failed} with a difference", flush=True)
    return answers


def shares(answers):
    """How often each status and each kind was answered, as lines."""
    runs = sum(count for name, count in answers.items() if name.startswith("status"))
    listed = [f"{name} {100 * count / runs:.2f}%" for name, count in sorted(answers.items(), key=lambda it: (not it[0].startswith("status"), -it[1]))]
    return [f"{runs} runs"] + [", ".join(listed[at:at + 8]) for at in range(0, len(listed), 8)]


def main():
    parser = argparse.ArgumentParser(description=__doc__, formatter_class=argparse.RawDescriptionHelpFormatter)
    parser.add_argument("program")
    parser.add_argument("--cases", type=int, default=2000)
    parser.add_argument("--seed", default="1")
    parser.add_argument("--jobs", type=int, default=os.cpu_count())
    parser.add_argument("--first", type=int, default=0)
    parser.add_argument("--only", type=int)
    options = parser.parse_args()
    # So that an interrupted run ends its processes and removes its folder.
    signal.signal(signal.SIGTERM, lambda *_: sys.exit(1))
    judged = judged_of(options.program)
    answers = answers_of(findings(judged, options))
    print("\n".join(shares(answers)))
    kinds = [*KINDS, "Full"] if isinstance(judged, Library) else KINDS
    lacking = [kind for kind in kinds if not answers[kind]] if options.only is None else []
    for kind in lacking:
        counting.check(False, f"nothing was refused as {kind}")
    return counting.ended()


if __name__ == "__main__":
    sys.exit(main())
