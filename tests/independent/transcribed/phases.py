"""The phases of a pattern under its B/S rule, and what all of them have in common. The nonzero cells of a pattern are a dictionary here, from places to
states."""

from .forms import box_of, is_shift, is_turned_shift, is_up_to, shift, turned_text
from .generation import next_life
from .pattern import is_coordinate
from .rules import Counting


def after_one(rule, cells):
    """The cells that aren't 0 in the next generation over all pairs of whole numbers."""
    around = {(x + dx, y + dy) for x, y in cells for dx in (-1, 0, 1) for dy in (-1, 0, 1)}
    following = {(x, y): next_life(*rule, lambda x, y: cells.get((x, y), 0), x, y) for x, y in around}
    return {place: state for place, state in following.items() if state}


def first_in_middle(first, last):
    """The only first column or row for which it and the last one add up to 0 or to -1, where they are as far from one another as here."""
    in_middle, = {it for it in (-((last - first) // 2), -((last - first + 1) // 2)) if 2 * it + last - first in (0, -1)}
    return in_middle


def in_middle(cells):
    """The cells with their box in the middle of the plane. Where there are none, they are anywhere."""
    box = box_of(cells)
    if box is None:
        return cells
    left, top, right, bottom = box
    return shift(first_in_middle(left, right) - left, first_in_middle(top, bottom) - top, cells)


def phases(rule, most, cells):
    """The cells of each phase by `HasClaimedPhases`; those of the pattern alone by `HasNoClaimedPhases`; or None by `LacksClaimedPhases`."""
    if not isinstance(rule, Counting):
        return [cells]
    found = [in_middle(cells)]
    while len(found) <= most:
        following = after_one(rule, found[-1])
        if not all(is_coordinate(x) and is_coordinate(y) for x, y in following):
            return None
        if is_shift(found[0], following):
            return found
        found.append(following)
    return found[:1]


def phases_text(found, text_of):
    """The only text that `IsClaimedPhasesText` allows, where `text_of` gives the canonical text of cells in generation 0."""
    texts = [turned_text(cells, text_of) for cells in found]
    return next(text for text in texts if all(is_up_to(text, other) for other in texts))


def is_phase(found, cells):
    """Whether a turn and a shift take one of these phases to other cells."""
    return any(is_turned_shift(phase, cells) for phase in found)
