"""Patterns and their canonical file: the section "The canonical file" of docs/FORMATS.md."""

from typing import NamedTuple

from .macrocell import is_macrocell, leaf_text, macrocell_text, read_macrocell
from .rle import read_rle
from .rules import Rule
from .squares import Square, rows_of


class Pattern(NamedTuple):
    """A rule, a generation and the square of the whole plane."""

    rule: Rule
    generation: int
    plane: Square


def read(squares, data):
    """The pattern that a file of either format says."""
    return Pattern(*(read_macrocell if is_macrocell(data) else read_rle)(squares, data))


def least_level(rule):
    """The level of the least square of a node line."""
    return 3 if rule.is_life else 1


def walk(square, least, places):
    """Adds a square to the list, behind its quarters, unless it is blank, below the least level, or there. `places` has the place of each square."""
    if square.is_blank or square.level < least or square in places:
        return
    for quarter in square.quarters:
        walk(quarter, least, places)
    places[square] = len(places) + 1


def listed(squares, pattern):
    """The squares of the canonical file with their places, in the order of the list."""
    places = {}
    least = least_level(pattern.rule)
    walk(squares.trimmed(pattern.plane, least), least, places)
    return places


def node_line(rule, square, places):
    """The node line of a square."""
    if rule.is_life and square.level == 3:
        return leaf_text(rows_of(square))
    if square.level == 1:
        numbers = [quarter.state for quarter in square.quarters]
    else:
        numbers = [places.get(quarter, 0) for quarter in square.quarters]
    return b"%d %d %d %d %d" % (square.level, *numbers)


def canonical_text(squares, pattern):
    """The one canonical text of a pattern."""
    places = listed(squares, pattern)
    return macrocell_text(pattern.rule, pattern.generation, [node_line(pattern.rule, square, places) for square in places])
