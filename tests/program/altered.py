#!/usr/bin/env python3
"""Checks that the definitions allow the texts that the program writes, and no text that differs a little: `canon` and `convert --to rle` write a text of each
of some random files, and each text is altered in many ways (tests/independent/fuzz/altered_texts.py). Where PROGRAM is the shared library, its
calls are used in place of the commands.

usage: tests/program/altered.py PROGRAM [--cases N] [--seed SEED] [--jobs N] [--only CASE]

- A text of the program is the one that `IsCanonicalText` or `IsRleOfFile` allows, by the definitions as `tests/independent/transcribed` says them.
- None of its alterations is, although many are files of the same pattern with no more node lines.
- `canon` writes of each altered text what the definitions allow: the same canonical text again where the pattern is the same, that of another pattern, or
  the line by which the altered text is no file.

A difference is printed with its seed, its case and the altered text. The lines before the last one count the texts and their alterations.
"""

import argparse
import collections
import functools
import os
import random
import sys
import tempfile

sys.path.insert(0, os.path.dirname(os.path.dirname(os.path.abspath(__file__))))

import compare  # noqa: E402
import definitions  # noqa: E402
from independent.fuzz import altered_texts  # noqa: E402
from independent.transcribed import counting  # noqa: E402
from independent.transcribed.planes import Planes  # noqa: E402
from shared import counting as checks  # noqa: E402

# The longest text that is altered, and the most cells of its pattern.
LONGEST, MOST_CELLS = 2**11, 2**9
# The two kinds of text.
CANONICAL, RLE = "canonical texts", "texts in RLE"
# A run of so many random files, of which more than half are small patterns, has to have so many alterations of canonical texts at least, and so many files
# of the same pattern among them.
ENOUGH, LEAST = 120, {"alterations of canonical texts": 2000, "alterations of canonical texts that are files of the same pattern": 1200}


def is_same(read, written):
    return written.fault is None and definitions.same(read, written)


def is_canonical_text(read, written, allowed):
    """`IsCanonicalText` of two files, where the canonical text of the first one is given, but for the rivals that are not at hand."""
    return is_same(read, written) and counting.is_rival(written.pattern.rule, written.data) and written.data == allowed


def is_rle_of_file(_, written, allowed):
    """`IsRleOfFile`, where the text of the first file is given."""
    return written.data == allowed


class Text:
    """A text of a kind that the program writes of a case's pattern, the only one that the definitions allow, and the alterations of it."""

    def __init__(self, judged, case, read, planes):
        self.judged, self.case, self.read, self.planes = judged, case, read, planes
        self.problems, self.answers, self.kind = [], collections.Counter(), ""

    def note(self, what, text):
        self.problems.append(f"{self.case.name}: {what}\n  pattern: {compare.escaped(self.case.pattern)}\n  text: {compare.escaped(text)}")

    def canonical(self):
        allowed = definitions.canonical_text(self.planes, self.read.pattern, self.read.root)
        self.compared(CANONICAL, ["canon", "pattern"], is_canonical_text, allowed, altered_texts.canonical_texts)

    def rle(self):
        allowed = definitions.rle_of_pattern(self.planes, self.read)
        self.compared(RLE, ["convert", "pattern", "--to", "rle"], is_rle_of_file, allowed, altered_texts.rle_texts)

    def compared(self, kind, words, is_allowed, allowed, alterations):
        self.kind = kind
        self.judged.put("pattern", self.case.pattern)
        got = self.judged.answer(words, "pattern")
        if (got.status, got.fault) != (0, "") or not is_allowed(self.read, definitions.reading(self.planes, got.output), allowed):
            self.note(f"the definitions allow {allowed!r}, the program answers {got}", got.output)
            return
        self.answers[kind] += 1
        for name, changed in alterations(random.Random(f"altered {self.case.name}"), got.output):
            written = definitions.reading(self.planes, changed)
            if is_allowed(self.read, written, allowed):
                self.note(f"the definitions allow one of the {kind} with {name}", changed)
            self.answers.update(self.properties_of(written, allowed))
            self.canon_of(written, f"one of the {kind} with {name}")

    def canon_of(self, written, what):
        """The program answers what the definitions say of an altered text."""
        self.judged.put("altered", written.data)
        got = self.judged.answer(["canon", "altered"], "altered")
        if written.fault:
            wanted = (2, b"", definitions.line_of(written.fault))
        else:
            wanted = (0, definitions.canonical_text(self.planes, written.pattern, written.root), "")
        if (got.status, got.output, got.fault) != wanted:
            self.note(f"the definitions say {wanted} of {what}, the program {got}", written.data)

    def properties_of(self, written, allowed):
        name = f"alterations of {self.kind}"
        yield name
        if is_same(self.read, written):
            yield f"{name} that are files of the same pattern"
            is_rival = self.kind == CANONICAL and counting.is_rival(written.pattern.rule, written.data)
            if is_rival and counting.node_lines(written.data) <= counting.node_lines(allowed):
                yield f"{name} that are files of the same pattern with no more node lines"
        else:
            yield f"{name} that are {'no files' if written.fault else 'files of another pattern'}"


def finding(judged, parent, seed, number):
    """What came of the random case of a number, or None where its pattern is no small one."""
    folder = os.path.join(parent, str(os.getpid()))
    os.makedirs(folder, exist_ok=True)
    os.chdir(folder)
    case, planes = compare.random_case(seed, number), Planes()
    read = definitions.reading(planes, case.pattern)
    if read.fault or len(case.pattern) > LONGEST or planes.population(read.root) > MOST_CELLS:
        return None
    text = Text(judged, case, read, planes)
    text.canonical()
    text.rle()
    return definitions.Finding(text.problems, text.answers)


def findings(judged, options):
    numbers = [options.only] if options.only is not None else range(options.cases)
    parent = compare.FAST_FOLDER if os.path.isdir(compare.FAST_FOLDER) else None
    with tempfile.TemporaryDirectory(dir=parent) as folder, compare.pool_of(options.jobs) as pool:
        found = pool.imap_unordered(functools.partial(finding, judged, folder, options.seed), numbers)
        yield from (it for it in found if it is not None)


def main():
    parser = argparse.ArgumentParser(description=__doc__, formatter_class=argparse.RawDescriptionHelpFormatter)
    parser.add_argument("program")
    parser.add_argument("--cases", type=int, default=ENOUGH)
    parser.add_argument("--seed", default="1")
    parser.add_argument("--jobs", type=int, default=os.cpu_count())
    parser.add_argument("--only", type=int)
    options = parser.parse_args()
    compare.signal.signal(compare.signal.SIGTERM, lambda *_: sys.exit(1))
    answers = compare.answers_of(findings(compare.judged_of(options.program), options))
    for name, count in sorted(answers.items()):
        print(f"{count} {name}")
    if options.only is None and options.cases >= ENOUGH:
        for name, least in LEAST.items():
            checks.check(answers[name] >= least, f"{answers[name]} {name}, and {least} are wanted at least")
    return checks.ended()


if __name__ == "__main__":
    sys.exit(main())
