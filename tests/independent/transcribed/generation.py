"""One generation."""

from .library import count_by, list_any, unwrap_or
from .table import decided, gives


def four_around(cell, x, y):
    return (cell(x, y - 1), cell(x + 1, y), cell(x, y + 1), cell(x - 1, y))


def eight_around(cell, x, y):
    north, south, west, east = y - 1, y + 1, x - 1, x + 1
    return (
        cell(x, north), cell(east, north), cell(east, y), cell(east, south), cell(x, south), cell(west, south), cell(west, y), cell(west, north),
    )


def next_life(neighbours, births, survivals, cell, x, y):
    around = four_around(cell, x, y) if neighbours == 4 else eight_around(cell, x, y)
    live = count_by(lambda state: state == 1, around)
    counts = births if cell(x, y) == 0 else survivals if cell(x, y) == 1 else ()
    return 1 if list_any(lambda n: n == live, counts) else 0


def decided_at(table, cell, x, y, giving=gives):
    around = four_around(cell, x, y) if unwrap_or(table.neighbours, 0) == 4 else eight_around(cell, x, y)
    return decided(table, cell(x, y), around, table.transitions, giving)
