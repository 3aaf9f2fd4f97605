#!/usr/bin/env python3
"""Compares the built program with the definitions of the formats, of rules, of rule tables and of one generation, as `tests/independent/transcribed` says them
once more. Where PROGRAM is the shared library, its calls are compared in place of the commands, which takes half the time.

usage: tests/program/definitions.py PROGRAM [--cases N] [--seed SEED] [--jobs N] [--first CASE] [--only CASE] [--small]

Of each random pattern file, about half of which are refused:

- it is refused at the line and as the kind that `pattern_of` says, and where that says a pattern, it is read;
- what `canon` and `convert` write of it is a file of the same pattern, and exactly the text that `IsTextOfPattern` or `IsRleOfPattern` allows, and `show`
  writes the five lines;
- what `canon` writes of it in a form is exactly the text that `IsTextOfForm` allows, and `same` finds that text and the file the same in the form; in the
  form `phases` a pattern may also be refused, as `LacksClaimedForm` says;
- `same` tells whether it and another file are the same;
- `step` writes a file of the next pattern, or names a reason why there is none, and so it does by a table, which is refused as `table_of` says.

The files of tests/independent/fuzz/edge_files.py come first, unless --first is given. With --small the files are those of small_files.py beside it, of
which every byte is cut and changed. A difference is printed with its seed, its case and its files. The last line counts the cases.
"""

import argparse
import collections
import functools
import os
import random
import sys
import tempfile
from typing import NamedTuple

sys.path.insert(0, os.path.dirname(os.path.dirname(os.path.abspath(__file__))))

import compare  # noqa: E402
from independent.fuzz import edge_files, random_files  # noqa: E402
from independent.transcribed import canonical, counting, files, forms, generation, phases, rle, rle_text, shown, table  # noqa: E402
from independent.transcribed.pattern import EDGE, is_coordinate  # noqa: E402
from independent.transcribed.planes import Planes  # noqa: E402
from independent.transcribed.rules import Counting, Named  # noqa: E402
from shared import counting as checks  # noqa: E402

# The most cells of a pattern that is written as RLE or stepped, as the definitions say it, and of one that is stepped here.
MOST_CELLS = 2**20
MOST_STEPPED = 2**11
# The longest RLE that is read here.
LONGEST_READ = 2**16
# The share of files whose text in a form is compared, beside those of wide patterns, and the most cells of a pattern of which eight images are made.
SHARE_IN_FORM, MOST_TURNED = 0.3, 2**8
# The greatest period that is sought.
MOST_PERIOD = 6
# The greatest level of a square whose canonical text is worked out as the definitions are written, too.
MOST_LEVELS = 4
# The cells of each pattern that are compared one by one: those of a window, and some others.
WINDOW = range(-1, 3)
OTHER_CELLS = 8
# What is stepped by a table at a limit.
STEPPED = b"x = 3, y = 3, rule = Foo\nA.B$2A$B!\n"
# A run of so many random cases has to be refused as each kind, and to have each answer.
ENOUGH = 1600
ANSWERS = ["read", "shown", "same", "different", "written as RLE", "stepped", "changed by a table", "no longer than a rival"]
ANSWERS += ["canonical as written", "moved", "turned", "moved and wide", "turned and wide", "phases", "phases and wide", "several phases", "no phases"]
ANSWERS += [f"stepped by {word.decode()} of {neighbours}" for neighbours in (4, 8) for word in table.symmetries_of(neighbours)]


class Reading(NamedTuple):
    """What the definitions say of a file's bytes: a pattern and its drawing, or a fault."""

    data: bytes
    pattern: object
    root: int
    fault: object


class Finding(NamedTuple):
    problems: list
    answers: collections.Counter


def reading(planes, data):
    try:
        pattern = files.pattern_of(data)
    except files.Fault as fault:
        return Reading(data, None, 0, fault)
    return Reading(data, pattern, planes.of(pattern), None)


def table_reading(data):
    """The table that the bytes are, or a fault."""
    try:
        return table.table_of(data), None
    except files.Fault as fault:
        return None, fault


def line_of(fault, place=""):
    """The line that the program writes of a fault."""
    return f"{place}line {fault.line}: {fault.kind}\n" if fault.line else f"{fault.kind}\n"


# ---- What holds of a pattern


def single_cells(source, planes, read):
    """Places of single cells: a window around a cell that isn't 0, places at the corners of the box and around it, and at the plane's edges and
    behind them."""
    left, top, right, bottom = planes.box(read.root) or (0, 0, 0, 0)
    x, y = planes.some_cell(source, read.root) or (0, 0)
    yield from ((x + dx, y + dy) for dx in WINDOW for dy in WINDOW)
    for _ in range(OTHER_CELLS):
        yield source.choice([left - 1, left, right, right + 1, source.randint(left, right)]), source.choice([top - 1, top, bottom, bottom + 1])
    edges = [-EDGE - 1, -EDGE, EDGE - 1, EDGE, 0, -1]
    yield source.choice(edges), source.choice(edges)
    yield source.choice(edges), y


def drawing_problems(source, planes, read):
    """The drawing has the states that `cell` says, and the sums that were kept are those of the items."""
    for x, y in single_cells(source, planes, read):
        if read.pattern.cell(x, y) != planes.state(read.root, x, y):
            yield f"the drawing of {compare.escaped(read.data)} has another state at {x}, {y} than `cell` says"
    said = read.pattern.said
    if isinstance(said, rle.Rle) and (rle.rows_in(said.items), rle.columns_in(said.items)) != (said.rows, said.columns):
        yield f"the sums kept of {compare.escaped(read.data)} are others than those of its items"


def same(one, other):
    """`Same`, of two files that are read."""
    return one.pattern.rule == other.pattern.rule and one.pattern.generation == other.pattern.generation and one.root == other.root


def text_problems(source, planes, read, text):
    """A text that the program writes of a file is a file of the same pattern."""
    written = reading(planes, text)
    if written.fault:
        yield f"a text refused at {line_of(written.fault).strip()}: {compare.escaped(text)}"
        return
    yield from drawing_problems(source, planes, written)
    if not same(read, written):
        yield f"a text of another pattern: {compare.escaped(text)}"
    for x, y in single_cells(source, planes, read):
        if written.pattern.cell(x, y) != read.pattern.cell(x, y):
            yield f"a text with state {written.pattern.cell(x, y)} at {x}, {y}, where the file has {read.pattern.cell(x, y)}: {compare.escaped(text)}"


# ---- The one text that a definition allows


def canonical_text(planes, pattern, root):
    """The text of `IsTextOfPattern`."""
    made = canonical.Squares()
    return canonical.text_of_pattern(
        pattern.rule, pattern.generation, planes.box(root), lambda level: planes.square_of(made, planes.middle(root, level), level))


def rle_of_pattern(planes, read):
    """The text of `IsRleOfPattern`."""
    cells = sorted(planes.cells(read.root), key=lambda cell: (cell[0][1], cell[0][0]))
    return rle_text.rle_of_pattern(read.pattern.rule, read.pattern.generation, planes.box(read.root), cells)


def text_of_form(planes, read, form):
    """The text of `IsTextOfForm` in the form `moved` or `turned`."""
    def text_of(cells):
        return canonical_text(planes, read.pattern, drawn(planes, cells))

    return {"moved": forms.moved_text, "turned": forms.turned_text}[form](dict(planes.cells(read.root)), text_of)


def text_of_phases(planes, read, found):
    """The text of `IsTextOfForm` in the form `phases`, where these are the phases."""
    return phases.phases_text(found, lambda cells: canonical_text(planes, read.pattern._replace(generation=0), drawn(planes, cells)))


def text_as_written(planes, read):
    """The text of `IsTextOfPattern` by the definitions as they are written, or None where its square has too many cells for that."""
    pattern = read.pattern
    level = canonical.level_of(pattern.rule, planes.box(read.root))
    if level > MOST_LEVELS:
        return None
    square = canonical.middle_square(canonical.Squares(), pattern.cell, level)
    return canonical.square_text_as_written(pattern.rule, pattern.generation, square)


def exact_problems(allowed, text):
    """A text is the one that a definition allows."""
    if text != allowed:
        yield f"the definitions allow {compare.escaped(allowed)}, the program writes {compare.escaped(text)}"


def around(places):
    return {(x + dx, y + dy) for x, y in places for dx in (-1, 0, 1) for dy in (-1, 0, 1)}


class Next(NamedTuple):
    """The reasons against a next pattern, as the lines that the program may write, and its drawing where there is none. A reason that isn't decided
    here, since there are too many cells, may be named or not."""

    reasons: set
    is_decided: bool
    root: int = 0


def general_reasons(planes, read):
    population = planes.population(read.root)
    reasons = set()
    if read.pattern.generation == 2**64 - 1:
        reasons.add("GenerationTooLarge\n")
    if population > MOST_CELLS:
        reasons.add("TooManyCells\n")
    return reasons, population <= MOST_STEPPED


def drawn(planes, states):
    return planes.of_runs((x, y, 1, state) for (x, y), state in states.items())


def next_by_rule(planes, read):
    """`IsNext`."""
    reasons, is_decided = general_reasons(planes, read)
    rule = read.pattern.rule
    if not isinstance(rule, Counting):
        return Next({*reasons, "NeedsTable\n"}, True)
    if not is_decided:
        return Next(reasons, False)
    states = dict(planes.cells(read.root))
    following = {}
    for x, y in around(states):
        following[x, y] = generation.next_life(*rule, lambda x, y: states.get((x, y), 0), x, y)
    outside = [state for (x, y), state in following.items() if not (is_coordinate(x) and is_coordinate(y))]
    if any(outside) or generation.next_life(*rule, lambda x, y: 0, 0, 0) != 0:
        return Next({*reasons, "OutOfPlane\n"}, True)
    return Next(reasons, True, drawn(planes, following))


# ---- By a table


def orders_given(rule_table, centre, neighbours, line):
    """The states that `gives` lists for the symmetry `permute`, each once, without all orders of eight neighbours: the inputs of a line are gone
    along, with the neighbours that are left and the states that its variables took."""
    inputs, output = line.inputs, line.output
    known = {}

    def from_input(at, left, bound):
        if at == len(inputs):
            return frozenset([output.state if isinstance(output, table.Fixed) else dict(bound)[output.number]])
        key = (at, left, bound)
        if key not in known:
            found = set()
            for state in set(left) if at else {centre}:
                after = taking(inputs[at], state, bound)
                if after is not None:
                    place = left.index(state) if at else -1
                    needed = frozenset((n, s) for n, s in after if n in later[at])
                    found |= from_input(at + 1, left[:place] + left[place + 1:] if at else left, needed)
            known[key] = frozenset(found)
        return known[key]

    def taking(entry, state, bound):
        """What the variables have behind an input that takes a state, or None where it doesn't allow it."""
        if isinstance(entry, table.Fixed):
            return bound if entry.state == state else None
        value = dict(bound).get(entry.number, state)
        return bound | {(entry.number, state)} if value == state and state in table.states_of(rule_table.variables, entry) else None

    later = [{e.number for e in (*inputs[at + 1:], output) if isinstance(e, table.VariableEntry)} for at in range(len(inputs))]
    return sorted(from_input(0, tuple(sorted(neighbours)), frozenset()))


def giver(rule_table, problems):
    """`gives` of a table, each answer kept."""
    known = {}
    is_permuted = rule_table.symmetry == b"permute" and rule_table.neighbours == 8

    def giving(rule_table, centre, neighbours, line):
        key = (line.line, centre, tuple(sorted(neighbours)) if is_permuted else neighbours)
        if key not in known:
            known[key] = (orders_given if is_permuted else table.gives)(rule_table, centre, neighbours, line)
            if is_permuted and len(known) < 20 and len(set(neighbours)) <= 2:
                if sorted(set(table.gives(rule_table, centre, neighbours, line))) != known[key]:
                    problems.append(f"orders_given({rule_table}, {centre}, {neighbours}, {line})")
        return known[key]

    return giving


def next_by_table(planes, read, rule_table, problems):
    """`IsNextByTable`."""
    reasons, is_decided = general_reasons(planes, read)
    if read.pattern.rule != Named(rule_table.name):
        return Next({*reasons, "RuleMismatch\n"}, True)
    if not is_decided:
        return Next(reasons, False)
    states = dict(planes.cells(read.root))
    if not all(state < rule_table.n_states for state in states.values()):
        reasons.add("StateBeyondTable\n")
    giving, following = giver(rule_table, problems), {}
    answers = {
        (x, y): generation.decided_at(rule_table, lambda x, y: states.get((x, y), 0), x, y, giving) for x, y in around(states)
    }
    if generation.decided_at(rule_table, lambda x, y: 0, 0, 0, giving) != table.Becomes(0):
        problems.append("the table isn't quiet")
    for (x, y), answer in answers.items():
        if isinstance(answer, table.Ambiguous):
            reasons.add(f"table line {answer.line}: Ambiguous\n")
        elif answer.state and not (is_coordinate(x) and is_coordinate(y)):
            reasons.add("OutOfPlane\n")
        else:
            following[x, y] = answer.state
    return Next(reasons, True, 0 if reasons else drawn(planes, following))


def next_problems(source, planes, read, wanted, got):
    """What the program answers to a step: a reason that holds, or a file of the next pattern."""
    if got.status:
        if got.fault not in wanted.reasons and (wanted.is_decided or got.fault.split()[-1] in ("GenerationTooLarge", "TooManyCells", "NeedsTable")):
            yield f"refused as {got.fault.strip()}, and the reasons are {sorted(wanted.reasons)}"
        return
    if wanted.reasons:
        yield f"stepped, against {sorted(wanted.reasons)}"
    if not wanted.is_decided:
        return
    written = reading(planes, got.output)
    if written.fault:
        yield f"a text refused at {line_of(written.fault).strip()}: {compare.escaped(got.output)}"
        return
    yield from drawing_problems(source, planes, written)
    pattern = written.pattern
    if (pattern.rule, pattern.generation, written.root) != (read.pattern.rule, read.pattern.generation + 1, wanted.root):
        yield f"a text of another pattern than the next one: {compare.escaped(got.output)}"


# ---- One case


class Judge:
    """Compares the answers of the program on the files of a case."""

    def __init__(self, judged, source, case):
        self.judged, self.source, self.case = judged, source, case
        self.planes = Planes()
        self.problems, self.answers = [], collections.Counter()
        self.name = "-" if case.by_pipe else "pattern"
        self.read, self.other = reading(self.planes, case.pattern), reading(self.planes, case.other)
        for name, data in {"pattern": case.pattern, "other": case.other, "table": case.table}.items():
            if data is not None:
                judged.put(name, data)

    def note(self, words, problems):
        given = [("pattern", self.case.pattern), ("other", self.case.other), ("table", self.case.table)]
        given = [f"  {name}: {compare.escaped(data)}" for name, data in given if name in [*words, "pattern"] and data is not None]
        self.problems += ["\n".join([f"{self.case.name}: {' '.join(words)}", *given, f"  {it}"]) for it in problems]

    def answer(self, *words):
        got = self.judged.answer([*words], "pattern")
        self.answers.update(got.fault.split()[-1:])
        return got

    def accepted(self, words, faults):
        """The answer of the program to words that one of these faults refuses, or None where it is refused; any other refusal is a difference."""
        got = self.answer(*words)
        if faults:
            if got.status != 2 or got.output or got.fault not in faults:
                self.note(words, [f"the definitions say {' or '.join(sorted(faults)).strip()}, the program {got}"])
            return None
        return got

    def taken(self, words, faults):
        got = self.accepted(words, faults)
        if got is not None and (got.status or got.fault):
            self.note(words, [f"the definitions say a pattern, the program {got}"])
            return None
        return got

    def canon(self):
        faults = {line_of(self.read.fault)} if self.read.fault else set()
        words = ["canon", self.name]
        text = self.taken(words, faults)
        if text is None:
            return
        self.answers["read"] += 1
        self.note(words, drawing_problems(self.source, self.planes, self.read))
        self.note(words, text_problems(self.source, self.planes, self.read, text.output))
        self.note(words, exact_problems(canonical_text(self.planes, self.read.pattern, self.read.root), text.output))
        as_written = text_as_written(self.planes, self.read)
        if as_written is not None:
            self.answers["canonical as written"] += 1
            self.note(words, exact_problems(as_written, text.output))
        nodes = counting.node_lines(text.output)
        for rival in (self.read, self.other):
            if rival.fault is None and same(self.read, rival) and counting.is_rival(rival.pattern.rule, rival.data):
                self.answers["no longer than a rival"] += 1
                if nodes > counting.node_lines(rival.data):
                    self.note(words, [f"{nodes} node lines, and a rival has {counting.node_lines(rival.data)}"])
        self.show(nodes)

    def show(self, nodes):
        words, pattern = ["show", self.name], self.read.pattern
        text = self.taken(words, set())
        if text is not None:
            self.answers["shown"] += 1
            planes, root = self.planes, self.read.root
            wanted = shown.shown(pattern.rule, pattern.generation, planes.population(root), planes.box(root), nodes)
            if text.output != wanted:
                self.note(words, [f"the definitions say {wanted}, the program {text.output}"])

    def rle(self):
        words = ["convert", self.name, "--to", "rle"]
        faults = {line_of(self.read.fault)} if self.read.fault else set()
        if not faults and self.planes.population(self.read.root) > MOST_CELLS:
            faults = {"TooManyCells\n"}
        text = self.taken(words, faults)
        if text is not None and len(text.output) <= LONGEST_READ:
            self.answers["written as RLE"] += 1
            self.note(words, text_problems(self.source, self.planes, self.read, text.output))
            self.note(words, exact_problems(rle_of_pattern(self.planes, self.read), text.output))

    def is_wide(self):
        """Whether the pattern is wider or higher than half the plane, so that it doesn't fit from (0, 0) on where it is moved."""
        box = self.planes.box(self.read.root)
        return box is not None and EDGE <= max(box[2] - box[0], box[3] - box[1])

    def in_forms(self):
        """A wide pattern in all forms, and another one in one of them."""
        for form in ["moved", "turned", "phases"] if self.is_wide() else [self.source.choice(["moved", "turned", "phases"])]:
            if form == "phases":
                self.in_phases()
            else:
                self.in_form(form)

    def phases_of(self, read, most):
        """The phases of a file that is read; or None where it has none since it leaves the plane."""
        return phases.phases(read.pattern.rule, most, dict(self.planes.cells(read.root)))

    def in_phases(self):
        """The text for all phases, and two comparisons of them, with a random greatest period."""
        most = self.source.randint(1, MOST_PERIOD)
        within, faults = ["--within", str(most), "--form", "phases"], {line_of(self.read.fault)} if self.read.fault else set()
        if not faults and self.planes.population(self.read.root) > MOST_TURNED:
            return
        found = None if faults else self.phases_of(self.read, most)
        if not faults and found is None:
            self.answers["no phases"] += 1
            faults = {"OutOfPlane\n"}
        words = ["canon", self.name, *within]
        text = self.taken(words, faults)
        if text is None:
            return
        self.answers["phases and wide" if self.is_wide() else "phases"] += 1
        self.answers["several phases"] += len(found) > 1
        self.note(words, exact_problems(text_of_phases(self.planes, self.read, found), text.output))
        self.same_in_phases(found, within, most, reading(self.planes, text.output), "written")
        if self.other.fault is None and self.planes.population(self.other.root) <= MOST_TURNED:
            self.same_in_phases(found, within, most, self.other, "other")

    def same_in_phases(self, found, within, most, other, name):
        """Compares the file, whose phases these are, with another one, whatever their generations are."""
        self.judged.put(name, other.data)
        words = ["same", self.name, name, *within]
        got = self.accepted(words, {"OutOfPlane\n"} if self.phases_of(other, most) is None else set())
        if got is not None:
            is_same = self.read.pattern.rule == other.pattern.rule and phases.is_phase(found, dict(self.planes.cells(other.root)))
            wanted = (0, b"same\n") if is_same else (1, b"different\n")
            if (got.status, got.output, got.fault) != (*wanted, ""):
                self.note(words, [f"the definitions say {wanted[1]}, the program {got}"])

    def in_form(self, form):
        words = ["canon", self.name, "--form", form]
        population = 0 if self.read.fault else self.planes.population(self.read.root)
        text = self.taken(words, {line_of(self.read.fault)} if self.read.fault else set())
        if text is not None and population > MOST_TURNED:
            # The text by the definitions would take too long: it goes over the cells.
            found = reading(self.planes, text.output)
            self.note(words, [] if found.fault is None and self.planes.population(found.root) == population else ["the form has other cells"])
        elif text is not None:
            self.answers[f"{form} and wide" if self.is_wide() else form] += 1
            self.note(words, exact_problems(text_of_form(self.planes, self.read, form), text.output))
            self.same_in(form, reading(self.planes, text.output), "written")
            if self.other.fault is None and self.planes.population(self.other.root) <= MOST_TURNED:
                self.same_in(form, self.other, "other")

    def same_in(self, form, other, name):
        """Compares the file with another one, by `IsShift` or `IsTurnedShift`."""
        self.judged.put(name, other.data)
        words = ["same", self.name, name, "--form", form]
        one, cells = dict(self.planes.cells(self.read.root)), dict(self.planes.cells(other.root))
        is_same = self.read.pattern[:2] == other.pattern[:2] and {"moved": forms.is_shift, "turned": forms.is_turned_shift}[form](one, cells)
        got, wanted = self.answer(*words), (0, b"same\n") if is_same else (1, b"different\n")
        if (got.status, got.output, got.fault) != (*wanted, ""):
            self.note(words, [f"the definitions say {wanted[1]}, the program {got}"])

    def same(self):
        words = ["same", self.name, "other"]
        fault = self.read.fault or self.other.fault
        got = self.accepted(words, {line_of(fault)} if fault else set())
        if got is not None:
            wanted = (0, b"same\n") if same(self.read, self.other) else (1, b"different\n")
            self.answers[wanted[1].decode().strip()] += 1
            if (got.status, got.output, got.fault) != (*wanted, ""):
                self.note(words, [f"the definitions say {wanted[1]}, the program {got}"])

    def step(self):
        words = ["step", self.name]
        got = self.accepted(words, {line_of(self.read.fault)} if self.read.fault else set())
        if got is not None:
            self.answers["stepped"] += got.status == 0
            wanted = next_by_rule(self.planes, self.read)
            self.note(words, next_problems(self.source, self.planes, self.read, wanted, got))

    def step_by_table(self):
        words = ["step", self.name, "--table", "table"]
        rule_table, fault = table_reading(self.case.table)
        faults = {line_of(self.read.fault)} if self.read.fault else set()
        got = self.accepted(words, faults | ({line_of(fault, "table ")} if fault else set()))
        if got is not None:
            problems = []
            wanted = next_by_table(self.planes, self.read, rule_table, problems)
            if got.status == 0:
                self.answers[f"stepped by {rule_table.symmetry.decode()} of {rule_table.neighbours}"] += 1
                self.answers["changed by a table"] += wanted.root != self.read.root
            self.note(words, [*next_problems(self.source, self.planes, self.read, wanted, got), *problems])

    def finding(self):
        """Of a file that is refused one command beside `canon` is enough."""
        others = [] if self.case.only_step else [self.rle, self.same, self.step]
        if others and (self.is_wide() or self.source.random() < SHARE_IN_FORM):
            others.append(self.in_forms)
        if self.case.table is not None:
            others.append(self.step_by_table)
        if not self.case.only_step:
            self.canon()
        for compared in [self.source.choice(others)] if self.read.fault else others:
            compared()
        self.answers["cases"] += 1
        self.answers["refused"] += self.read.fault is not None
        return Finding(self.problems, self.answers)


def random_case(seed, number):
    """The case of a number: one of `tests/program/compare.py`, of some of which the pattern is changed once more, or one with a table that fits its pattern."""
    case = compare.random_case(seed, number)
    source = random.Random(f"definitions {seed} {number}")
    if source.random() < 0.2:
        return fitted_case(source, case)
    if source.random() < (0.2 if case.table else 0.7):
        case = case._replace(pattern=random_files.mutated(source, case.pattern, (0, 0.7, 0.3)))
    return case


def edge_cases():
    """Wide patterns with phases, of which the first leaves the plane; and the files of tests/independent/fuzz/edge_files.py. Each has the one before it as the
    other file."""
    other = b"x=1,y=1\no!"
    for columns in (1 << 62, (1 << 62) - 2, (1 << 61) + 2, (1 << 61) + 9, (1 << 61) + 100):
        data = b"#CXRLE Pos=-%d,0 Gen=%d\nx=1,y=1\n" % (columns // 2, columns % 7) + b"$".join([b"o%dbo" % (columns - 2)] * 3) + b"!"
        yield compare.Case(f"two columns, {columns} columns wide", data, other)
        other = data
    for number, data in enumerate(edge_files.pattern_files()):
        yield compare.Case(f"pattern file {number} at a limit", data, other)
        other = data
    for number, data in enumerate(edge_files.table_files()):
        yield compare.Case(f"table {number} at a limit", STEPPED, STEPPED, data, only_step=True)


def fitted_case(source, case):
    """A case with a pattern under a name, and a table with lines that give its cells something."""
    name = random_files.name_text(source)
    pattern = random_files.pattern_file(source, name, source.choice([1, 1, 2, 3, 5]))
    planes = Planes()
    read = reading(planes, pattern)
    if read.fault or not isinstance(read.pattern.rule, Named) or planes.population(read.root) > MOST_STEPPED:
        return case._replace(pattern=pattern, table=None)
    rule_table = fitting_table(source, name, dict(planes.cells(read.root)))
    return case._replace(pattern=pattern, table=random_files.mutated(source, rule_table, (0.9, 0.1)))


def fitting_table(source, name, states):
    """A table of this name with lines made from the cells of a pattern: some of their states give way to variables that have them."""
    neighbours = source.choice([4, 8])
    symmetry = source.choice(table.symmetries_of(neighbours))
    most = max(states.values(), default=1)
    n_states = min(most + source.choice([1, 1, 2]), 256)
    variables = {name: source.sample(range(n_states), source.randint(1, min(n_states, 4))) for name in ["a", "b", "c", "d"]}
    lines = [",".join(["0"] * (neighbours + 2))] if source.random() < 0.9 else []
    places = sorted(around(states)) or [(0, 0)]
    for _ in range(source.choice([1, 2, 4, 8])):
        lines.append(fitting_line(source, states, source.choice(places), (neighbours, symmetry), n_states, variables))
    named = [f"var {it}={{{','.join(map(str, listed))}}}" for it, listed in variables.items()]
    head = ["@TABLE", f"n_states:{n_states}", f"neighborhood:{'Moore' if neighbours == 8 else 'vonNeumann'}", f"symmetries:{symmetry.decode()}"]
    return b"@RULE " + name + b"\n" + "\n".join([*head, *named, *lines]).encode() + b"\n"


def fitting_line(source, states, place, form, n_states, variables):
    """A transition that gives the cell at a place a state."""
    neighbours, symmetry = form
    look = generation.four_around if neighbours == 4 else generation.eight_around
    seen = look(lambda x, y: states.get((x, y), 0), *place)
    seen = (states.get(place, 0), *(source.sample(seen, neighbours) if symmetry == b"permute" else source.choice(table.images(symmetry, seen))))
    share, entries = source.choice([0, 0.2, 0.5, 0.9]), []
    for state in seen:
        fitting = [it for it, listed in variables.items() if state in listed]
        entries.append(source.choice(fitting) if fitting and source.random() < share else str(state))
    bound = [it for it in entries if it in variables]
    output = source.choice(bound) if bound and source.random() < 0.5 else str(source.randrange(n_states))
    return ",".join([*entries, output])


def of_case(judged, parent, seed, given):
    """The finding of a case, or of a random one by its number. Each process works in a folder of its own."""
    folder = os.path.join(parent, str(os.getpid()))
    os.makedirs(folder, exist_ok=True)
    os.chdir(folder)
    case = given if isinstance(given, compare.Case) else random_case(seed, given)
    return Judge(judged, random.Random(f"cells {case.name}"), case).finding()


def findings(judged, options):
    if options.only is not None:
        cases = [options.only]
    else:
        numbers = range(options.first, options.first + options.cases)
        cases = compare.small_cases() if options.small else [*edge_cases(), *numbers] if options.first == 0 else numbers
    parent = compare.FAST_FOLDER if os.path.isdir(compare.FAST_FOLDER) else None
    with tempfile.TemporaryDirectory(dir=parent) as folder, compare.pool_of(options.jobs) as pool:
        yield from pool.imap_unordered(functools.partial(of_case, judged, folder, options.seed), cases, 16)


def main():
    parser = argparse.ArgumentParser(description=__doc__, formatter_class=argparse.RawDescriptionHelpFormatter)
    parser.add_argument("program")
    parser.add_argument("--cases", type=int, default=ENOUGH)
    parser.add_argument("--seed", default="1")
    parser.add_argument("--jobs", type=int, default=os.cpu_count())
    parser.add_argument("--first", type=int, default=0)
    parser.add_argument("--only", type=int)
    parser.add_argument("--small", action="store_true")
    options = parser.parse_args()
    compare.signal.signal(compare.signal.SIGTERM, lambda *_: sys.exit(1))
    answers = compare.answers_of(findings(compare.judged_of(options.program), options))
    listed = [f"{name} {count}" for name, count in answers.most_common()]
    print("\n".join(", ".join(listed[at:at + 8]) for at in range(0, len(listed), 8)))
    is_whole = options.only is None and not options.small and options.cases >= ENOUGH
    lacking = [it for it in [*compare.KINDS, *ANSWERS] if not answers[it]] if is_whole else []
    for it in lacking:
        checks.check(False, f"no answer was {it}")
    return checks.ended()


if __name__ == "__main__":
    sys.exit(main())
