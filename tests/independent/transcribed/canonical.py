"""The canonical text of a pattern: which squares have a line, in which order, and what each line is.

A square of level 62 has too many cells for the definitions as they are written. So there are two ways to each text, and `definitions.py` compares them
on small squares: `walk`, `first_visits`, `same_square` and `child_number` as they are written, and `visited_squares`, in which equal squares are one
object, so that the walk can turn back at a square that it has visited.
"""

from .library import byte, codes, decimal, list_any, minus, position_or_len
from .rules import is_counting, rule_text


class Square:
    """One cell with a state, or four squares of one size. The level and whether all cells are 0 are kept with it."""

    def __init__(self, state, quarters):
        self.state, self.quarters = state, quarters
        self.level = 0 if quarters is None else quarters[0].level + 1
        self.is_blank = state == 0 if quarters is None else all(it.is_blank for it in quarters)


class Squares:
    """Makes squares, and equal ones once."""

    def __init__(self):
        self.made = {}

    def point(self, state):
        return self.once(state, state, None)

    def quarters(self, *quarters):
        return self.once(quarters, None, quarters)

    def once(self, key, *parts):
        if key not in self.made:
            self.made[key] = Square(*parts)
        return self.made[key]


def square_at(made, cell, level, x, y):
    if level == 0:
        return made.point(cell(x, y))
    side = 2 ** (level - 1)
    corners = (x, y), (x + side, y), (x, y + side), (x + side, y + side)
    return made.quarters(*(square_at(made, cell, level - 1, *corner) for corner in corners))


def middle_square(made, cell, level):
    west = -(2 ** minus(level, 1))
    return square_at(made, cell, level, west, west)


def is_in_middle(level, z):
    half = 2 ** minus(level, 1)
    return -half <= z < half


def holds_all_cells(box, level):
    """`HoldsAllCells` of a pattern by its box, the first column and row and the last ones that have a cell, or None."""
    return box is None or all(is_in_middle(level, z) for z in box)


def least_level(rule):
    return 3 if is_counting(rule) else 1


def square_level(square):
    return square.level


def is_blank_square(square):
    return square.is_blank


def same_square(a, b):
    if a.quarters is None and b.quarters is None:
        return a.state == b.state
    if a.quarters is not None and b.quarters is not None:
        return all(same_square(*pair) for pair in zip(a.quarters, b.quarters))
    return False


def walk(least, square):
    if square.quarters is None:
        return []
    nw, ne, sw, se = square.quarters
    if is_blank_square(square) or square_level(nw) + 1 < least:
        return []
    return walk(least, nw) + walk(least, ne) + walk(least, sw) + walk(least, se) + [square]


def first_visits(visited, squares):
    for square in squares:
        if not list_any(lambda it, square=square: same_square(square, it), visited):
            visited = [*visited, square]
    return visited


def child_number(squares, square):
    if square.quarters is None:
        return square.state
    return 0 if is_blank_square(square) else position_or_len(lambda it: same_square(square, it), squares) + 1


def visited_squares(least, square):
    """`first_visits [] (walk least square)` with the place of each square, counted from 1. A square that was visited is not walked into again, because
    all that the walk would find in it was visited too."""
    places = {}

    def visit(square):
        if square.quarters is None or is_blank_square(square) or square_level(square) < least or square in places:
            return
        for quarter in square.quarters:
            visit(quarter)
        places[square] = len(places) + 1

    visit(square)
    return places


def number_by(places):
    """`child_number` by the places of `visited_squares`."""
    def number(square):
        if square.quarters is None:
            return square.state
        return 0 if is_blank_square(square) else places.get(square, len(places) + 1)

    return number


def state_rows(square):
    if square.quarters is None:
        return [[square.state]]
    nw, ne, sw, se = map(state_rows, square.quarters)
    return [west + east for west, east in [*zip(nw, ne), *zip(sw, se)]]


def without_last(test, text):
    """The text without the bytes at its end that pass a test: of crate life_base's `Text`."""
    while text and test(text[-1]):
        text = text[:-1]
    return text


def leaf_row(row):
    return without_last(lambda b: b == byte("."), bytes(byte("*") if state == 1 else byte(".") for state in row)) + codes("$")


def square_line(rule, number, square):
    """The line of a square. `number` is `child_number` of the list of squares."""
    if square.quarters is None:
        return b""
    level = square_level(square.quarters[0]) + 1
    if is_counting(rule) and level == 3:
        return b"".join(map(leaf_row, state_rows(square))) + codes("\n")
    return decimal(level) + b"".join(codes(" ") + decimal(number(quarter)) for quarter in square.quarters) + codes("\n")


def text_of_lines(rule, generation, number, squares):
    """`square_text` from its squares on."""
    return (
        codes("[M2] (canonical 1)\n#R ") + rule_text(rule) + codes("\n") + (b"" if generation == 0 else codes("#G ") + decimal(generation) + codes("\n"))
        + b"".join(square_line(rule, number, square) for square in squares)
    )


def square_text_as_written(rule, generation, square):
    """`square_text`, for small squares."""
    squares = first_visits([], walk(least_level(rule), square))
    return text_of_lines(rule, generation, lambda quarter: child_number(squares, quarter), squares)


def square_text(rule, generation, square):
    places = visited_squares(least_level(rule), square)
    return text_of_lines(rule, generation, number_by(places), places)


def level_of(rule, box):
    """The level of `IsTextOfPattern`: the first one from the least level on at which the square holds every cell."""
    level = least_level(rule)
    while not holds_all_cells(box, level):
        level += 1
    return level


def text_of_pattern(rule, generation, box, middle):
    """The only text that `IsTextOfPattern` allows, where `middle` gives the square of a level about the middle of the plane."""
    return square_text(rule, generation, middle(level_of(rule, box)))
