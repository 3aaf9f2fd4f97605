"""The forms of a pattern: the section "Forms" of docs/FORMATS.md."""

import itertools

from .patterns import Pattern, canonical_text
from .squares import END, cells_of

FORMS = ("placed", "moved", "turned")


def way(numbers):
    """How far a side of a box is moved into its place."""
    least, greatest = min(numbers), max(numbers)
    return -least if greatest - least < END else END - 1 - greatest


def moved(cells):
    """Cells with their least box in its place."""
    if not cells:
        return []
    columns, rows = way([column for column, _, _ in cells]), way([row for _, row, _ in cells])
    return sorted((column + columns, row + rows, state) for column, row, state in cells)


def images(cells):
    """The cells of the eight images under turns and reflections."""
    for exchange, from_east, from_south in itertools.product((False, True), repeat=3):
        turned = [(row, column, state) for column, row, state in cells] if exchange else cells
        yield [(-1 - column if from_east else column, -1 - row if from_south else row, state) for column, row, state in turned]


def listed(pattern):
    """The cells of a pattern that is to be moved. This reader is asked only for patterns of few cells, so it needs no limit on the squares of a form."""
    return cells_of(pattern.plane)


def text_of(squares, pattern, cells):
    """The canonical text of a pattern with these cells in place of its own."""
    plane = squares.of_runs([(column, row, 1, state) for column, row, state in cells])
    return canonical_text(squares, Pattern(pattern.rule, pattern.generation, plane))


def text_in(squares, pattern, form):
    """The canonical text of a pattern in a form."""
    if form == "placed":
        return canonical_text(squares, pattern)
    cells = listed(pattern)
    if form == "moved":
        return text_of(squares, pattern, moved(cells))
    return min(text_of(squares, pattern, moved(image)) for image in images(cells))


def is_same_in(one, other, form):
    """Whether two patterns are the same in the form moved or turned."""
    if form == "turned" and one.generation != other.generation:
        return False
    cells, others = listed(one), moved(listed(other))
    if one.rule != other.rule or one.generation != other.generation:
        return False
    return any(moved(image) == others for image in (images(cells) if form == "turned" else [cells]))
