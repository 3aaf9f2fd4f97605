"""What each command has to answer for the bytes of its files: standard output, the line on standard error, and the status, as docs/FORMATS.md and
docs/golly_canon.1 say them."""

from functools import cached_property
from typing import NamedTuple

from .forms import is_same_in, text_in
from .generations import MOST_CELLS, later_by_rule, step_by_rule, step_by_table
from .lines import Fault
from .patterns import canonical_text, listed, read
from .periods import period_line
from .phases import MOST, are_phases, text_of_phases
from .rle import rle_text
from .squares import FIRST, Squares, box_of, cells_of
from .tables import read_table


class Answer(NamedTuple):
    """What a run of the program leaves."""

    status: int
    output: bytes = b""
    fault: str = ""


class File:
    """The bytes of a pattern file or of a rule table. What they say is worked out when it is first asked, and the fault, if any, is kept too."""

    def __init__(self, data):
        self.data = data
        self.squares = Squares()

    @cached_property
    def reading(self):
        return outcome_of(lambda: read(self.squares, self.data))

    @cached_property
    def table_reading(self):
        return outcome_of(lambda: read_table(self.data))

    @property
    def pattern(self):
        return kept(self.reading)

    @property
    def table(self):
        return kept(self.table_reading)

    @cached_property
    def text(self):
        """The canonical text."""
        return canonical_text(self.squares, self.pattern)


def outcome_of(call):
    """What a call returns, or the fault by which it refuses."""
    try:
        return call()
    except Fault as fault:
        return fault


def kept(outcome):
    if isinstance(outcome, Fault):
        raise outcome
    return outcome


def answer_of(call):
    """The answer of a command whose call gives a status and a text."""
    outcome = outcome_of(call)
    return Answer(2, fault=outcome.text()) if isinstance(outcome, Fault) else Answer(*outcome)


def canon(file, form="placed", most=MOST):
    """The canonical text in a form. `most` is the greatest period that the form `phases` seeks."""
    if form == "phases":
        return answer_of(lambda: (0, text_of_phases(file.squares, file.pattern, most)))
    return answer_of(lambda: (0, file.text if form == "placed" else text_in(file.squares, file.pattern, form)))


def convert_to_mc(file):
    return canon(file)


def convert_to_rle(file):
    return answer_of(lambda: (0, rle_of(file.pattern)))


def same(first, second, form="placed", most=MOST):
    return answer_of(lambda: (0, b"same\n") if is_same(first, second, form, most) else (1, b"different\n"))


def show(file, most=None):
    """The five lines of a file, and the line of its period up to `most`, if that is given."""
    return answer_of(lambda: (0, shown(file) + (b"" if most is None else period_line(file.pattern, most))))


def step(file, table=None, generations=None):
    return answer_of(lambda: (0, stepped(file, table, generations)))


def rle_of(pattern):
    if pattern.plane.population > MOST_CELLS:
        raise Fault("TooManyCells")
    cells = sorted(cells_of(pattern.plane), key=lambda cell: (cell[1], cell[0]))
    return rle_text(pattern.rule, pattern.generation, cells)


def is_same(first, second, form, most):
    """Whether two files say one rule, one generation and one state of each cell, in a form. The first file is looked at, and refused, first."""
    one, other = first.pattern, second.pattern
    if form == "phases":
        return are_phases(one, other, most)
    if form != "placed":
        return is_same_in(one, other, form)
    return one.rule == other.rule and one.generation == other.generation and has_same_cells(one.plane, other.plane, set())


def has_same_cells(one, other, compared):
    """Whether two squares of one level have the same cells. `compared` has the pairs that were compared."""
    if one.population != other.population or one.state != other.state:
        return False
    if (one, other) in compared or one.is_blank:
        return True
    compared.add((one, other))
    return all(has_same_cells(*quarters, compared) for quarters in zip(one.quarters, other.quarters))


def shown(file):
    pattern = file.pattern
    box = "none"
    if not pattern.plane.is_blank:
        left, top, right, bottom = box_of(pattern.plane, {})
        box = f"{FIRST + left} {FIRST + top} {right - left + 1} {bottom - top + 1}"
    lines = [
        f"rule {pattern.rule.text.decode()}",
        f"generation {pattern.generation}",
        f"population {pattern.plane.population}",
        f"box {box}",
        f"nodes {len(listed(file.squares, pattern))}",
    ]
    return "".join(f"{line}\n" for line in lines).encode()


def stepped(file, table, generations):
    """The canonical text of the next generation, or of the one that comes so many generations later. A table is read, and refused, before the pattern."""
    if table is None:
        pattern = step_by_rule(file.squares, file.pattern) if generations is None else later_by_rule(file.squares, file.pattern, generations)
        return canonical_text(file.squares, pattern)
    by, pattern = table.table, file.pattern
    for _ in range(1 if generations is None else generations):
        pattern = step_by_table(file.squares, pattern, by)
    return canonical_text(file.squares, pattern)
