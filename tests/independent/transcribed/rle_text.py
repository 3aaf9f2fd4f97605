"""The text in extended RLE that is written of a pattern."""

from .library import byte, codes, decimal, signed_decimal
from .rle import Cells, RowEnds
from .rules import is_counting, rule_text


def state_text(rule, state):
    if is_counting(rule):
        return codes("b") if state == 0 else codes("o")
    if state == 0:
        return codes(".")
    if state <= 24:
        return bytes([byte("@") + state])
    return bytes([byte("o") + (state - 1) // 24, byte("A") + (state - 1) % 24])


def item_text(rule, item):
    count = b"" if item.count == 1 else decimal(item.count)
    return count + (codes("$") if isinstance(item, RowEnds) else state_text(rule, item.state))


def gap(count):
    return [] if count == 0 else [Cells(count, 0)]


def after_run(count, state, items):
    """Items after a run, which takes in a first run of the same state. The items are in reverse order, the first one last."""
    if items and isinstance(items[-1], Cells) and state == items[-1].state:
        return items[:-1] + [Cells(count + items[-1].count, state)]
    return [*items, Cells(count, state)]


def items_of_cells(left, x, y, cells):
    """The items of cells, each of which is a place and a state. The recursion is a loop from the last cell on, because each step puts items before those
    of the cells that follow."""
    items = []  # in reverse order
    for at in range(len(cells) - 1, -1, -1):
        (column, row), state = cells[at]
        from_x, from_y = (cells[at - 1][0][0] + 1, cells[at - 1][0][1]) if at else (x, y)
        items[-1:] = after_run(1, state, items[-1:])
        before = gap(abs(column - from_x)) if row == from_y else [RowEnds(abs(row - from_y)), *gap(abs(column - left))]
        items += reversed(before)
    return items[::-1]


def in_lines(line, texts):
    lines = []
    for text in texts:
        if len(line) + len(text) <= 70:
            line += text
        else:
            lines.append(line)
            line = text
    return [*lines, line]


def rle_lines(rule, generation, x, y, width, height, items):
    return [
        codes("#CXRLE Pos=") + signed_decimal(x) + codes(",") + signed_decimal(y) + (b"" if generation == 0 else codes(" Gen=") + decimal(generation)),
        codes("x = ") + decimal(width) + codes(", y = ") + decimal(height) + codes(", rule = ") + rule_text(rule),
        *in_lines(b"", [*(item_text(rule, item) for item in items), codes("!")]),
    ]


def box_lines(rule, generation, box, cells):
    """Of a box by its first column, first row, last column and last row, or of None."""
    if box is None:
        return rle_lines(rule, generation, 0, 0, 0, 0, [])
    left, top, right, bottom = box
    return rle_lines(rule, generation, left, top, abs(right - left) + 1, abs(bottom - top) + 1, items_of_cells(left, left, top, cells))


def rle_of_pattern(rule, generation, box, cells):
    """The only text that `IsRleOfPattern` allows, by the pattern's box, and by its cells in the order of `AreClaimedCells`: by rows, and in a row by columns."""
    return b"".join(line + codes("\n") for line in box_lines(rule, generation, box, cells))
