"""The period of a pattern under a B/S rule: the section "The period" of docs/FORMATS.md."""

from .generations import check_places, next_alive
from .lines import Fault
from .squares import cells_of


def corner_of(alive):
    return min(x for x, _ in alive), min(y for _, y in alive)


def moved(alive, columns, rows):
    return {(x + columns, y + rows) for x, y in alive}


def to_middle(coordinates):
    """By how much coordinates are moved, so that the first and the last of them add up to 0 or to -1."""
    return -((min(coordinates) + max(coordinates) + 1) // 2)


def in_middle(alive):
    """The places, moved to the middle of the plane."""
    return moved(alive, to_middle([x for x, _ in alive]), to_middle([y for _, y in alive]))


def shift_between(first, now):
    """How far the first places are moved in the second ones, if they are the same but for that."""
    if len(first) != len(now):
        return None
    columns, rows = (after - before for before, after in zip(corner_of(first), corner_of(now)))
    return (columns, rows) if moved(first, columns, rows) == now else None


def period_among(rule, alive, most):
    """The least period up to `most` of these places, with the columns and the rows of its shift, or None."""
    if not alive:
        return 1, 0, 0
    first = now = in_middle(alive)
    for generation in range(1, most + 1):
        now = next_alive(rule, now)
        check_places(now)
        if not now:
            return None
        shift = shift_between(first, now)
        if shift is not None:
            return generation, *shift
    return None


def period_line(pattern, most):
    """The line that `show --period` writes after its five lines."""
    if not pattern.rule.is_life:
        raise Fault("NeedsTable")
    found = period_among(pattern.rule, {(x, y) for x, y, _ in cells_of(pattern.plane)}, most)
    if found is None:
        return f"period none up to {most}\n".encode()
    generations, columns, rows = found
    if columns or rows:
        return f"period {generations} spaceship {columns} {rows}\n".encode()
    return f"period {generations} {'still life' if generations == 1 else 'oscillator'}\n".encode()
