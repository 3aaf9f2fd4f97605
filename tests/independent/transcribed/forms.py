"""The forms in which patterns are taken: as they lie, moved, and turned. The nonzero cells of a pattern are a dictionary here, from places to states."""

from .pattern import EDGE


def shift(columns, rows, cells):
    """The cells of `q` where `IsClaimedShift p q` holds with so many columns and rows: `q.cell (x + columns) (y + rows)` is `p.cell x y`."""
    return {(x + columns, y + rows): state for (x, y), state in cells.items()}


def mirrored(is_mirrored, x):
    return -1 - x if is_mirrored else x


def image(exchange, columns, rows, cells):
    """The cells of `image`: the cell (x, y) has the state that the pattern has at the place in which x and y are exchanged or not, and then mirrored or
    not. So a cell of the pattern goes the other way, and a second mirroring takes the first one back."""
    found = {}
    for (a, b), state in cells.items():
        place = mirrored(columns, a), mirrored(rows, b)
        found[place[::-1] if exchange else place] = state
    return found


IMAGES = [(exchange, columns, rows) for exchange in (False, True) for columns in (False, True) for rows in (False, True)]


def box_of(cells):
    """The box of `IsClaimedBoundingBox`, or None where there are no cells."""
    if not cells:
        return None
    columns, rows = [x for x, _ in cells], [y for _, y in cells]
    return min(columns), min(rows), max(columns), max(rows)


def is_in_place(first, last):
    return first == 0 and last < EDGE or first < 0 and last + 1 == EDGE


def first_in_place(first, last):
    """The only first column or row that `IsInClaimedPlace` allows where the last one is as far from it as here."""
    in_place, = {it for it in (0, EDGE - 1 - (last - first)) if is_in_place(it, it + last - first)}
    return in_place


def moved(cells):
    """The cells of the `moved` that `IsClaimedMovedText` allows. A pattern without cells is every shift of itself."""
    box = box_of(cells)
    if box is None:
        return cells
    left, top, right, bottom = box
    return shift(first_in_place(left, right) - left, first_in_place(top, bottom) - top, cells)


def is_up_to(first, second):
    """Texts are compared byte by byte, and one that another goes on from is less than that."""
    return first <= second


def moved_text(cells, text_of):
    """The only text that `IsClaimedMovedText` allows, where `text_of` gives the canonical text of cells."""
    return text_of(moved(cells))


def turned_text(cells, text_of):
    """The only text that `IsClaimedTurnedText` allows: that of the eight which is up to each of them."""
    texts = [moved_text(image(*how, cells), text_of) for how in IMAGES]
    return next(text for text in texts if all(is_up_to(text, other) for other in texts))


def is_shift(one, other):
    """Whether some columns and rows shift the cells of one to those of the other: those by which its box goes to the other box."""
    if not one or not other:
        return not one and not other
    (left, top, *_), (x, y, *_) = box_of(one), box_of(other)
    return shift(x - left, y - top, one) == other


def is_turned_shift(one, other):
    return any(is_shift(image(*how, one), other) for how in IMAGES)
