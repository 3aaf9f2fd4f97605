"""All phases of a pattern as one: the section "All phases" of docs/FORMATS.md."""

from .forms import images, moved, text_of
from .generations import next_alive
from .patterns import canonical_text
from .periods import in_middle, period_among
from .squares import cells_of

# The greatest period that is sought where none is named.
MOST = 128


def phases_of(pattern, most):
    """The cells of each phase, wherever they are: those of one period under a B/S rule, if there is one up to `most`, and otherwise those of the pattern alone."""
    cells = cells_of(pattern.plane)
    if not pattern.rule.is_life or not cells:
        return [cells]
    alive = {(column, row) for column, row, _ in cells}
    found = period_among(pattern.rule, alive, most)
    phases, now = [cells], in_middle(alive)
    for _ in range(1, found[0] if found else 1):
        now = next_alive(pattern.rule, now)
        phases.append([(column, row, 1) for column, row in now])
    return phases


def text_of_phases(squares, pattern, most):
    """The one text of a pattern in all its phases, orientations and places."""
    start = pattern._replace(generation=0)
    if pattern.plane.is_blank:
        return canonical_text(squares, start)
    return min(text_of(squares, start, moved(image)) for cells in phases_of(pattern, most) for image in images(cells))


def are_phases(one, other, most):
    """Whether a turn and a shift take some phase of one pattern to the other, whatever their generations are. This looks at cells, and at no text. Each of the
    two is refused where its period can't be sought."""
    phases, _ = phases_of(one, most), phases_of(other, most)
    others = moved(cells_of(other.plane))
    return one.rule == other.rule and any(moved(image) == others for cells in phases for image in images(cells))
