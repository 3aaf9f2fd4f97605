"""Extended RLE, read and written: the sections "Extended RLE, read" and "Extended RLE, written" of docs/FORMATS.md."""

import itertools
import re

from .lines import WHITESPACE, Broken, Fault, check_generation, check_length, is_blank, is_number, is_word_line, lines_of, value, words_of
from .rules import CONWAY, rule_of
from .squares import END, FIRST, TOP

HEADER = re.compile(rb"x_=_[0-9]+_,_y_=_[0-9]+_(?:,_rule_=(.*))?".replace(b"_", rb"[ \t\r]*"), re.DOTALL)
ITEM = re.compile(rb"([0-9]*)([$bo.A-X]|[p-x][A-X]|y[A-O])?")
LONGEST_WRITTEN = 70


class Reading:
    """What the lines so far say. `column` and `row` are the place of the next item."""

    def __init__(self):
        self.rule = None
        self.corner = 0, 0
        self.generation = 0
        self.column = self.row = 0
        self.runs = []
        self.is_over = False

    def take(self, line):
        """Takes the next line, or tells the first rule that it breaks."""
        if self.is_over:
            return
        check_length(line)
        if is_blank(line):
            return
        if self.rule is None:
            self.take_front(line)
        else:
            self.take_body(line)

    def take_front(self, line):
        """Takes a line before the header, or the header."""
        if is_word_line(line, b"#CXRLE"):
            self.take_position(line)
        elif line.startswith(b"x"):
            self.take_header(line)
        elif not line.startswith(b"#"):
            raise Broken("NoHeader")

    def take_position(self, line):
        self.corner, self.generation = (0, 0), 0
        for field in words_of(line)[1:]:
            if field.startswith(b"Pos="):
                self.corner = corner_of(field[4:])
            elif field.startswith(b"Gen="):
                self.generation = check_generation(field[4:])

    def take_header(self, line):
        match = HEADER.fullmatch(line)
        if not match:
            raise Broken("BadHeader")
        self.rule = CONWAY if match[1] is None else rule_of(match[1])
        self.column, self.row = self.corner

    def take_body(self, line):
        """Takes a line behind the header."""
        if is_word_line(line, b"#CXRLE"):
            raise Broken("LateHeader")
        if line.startswith(b"#"):
            return
        if line.startswith((b"x ", b"x=")):
            raise Broken("SecondHeader")
        self.take_data(line)

    def take_data(self, line):
        """Takes the items of a line up to its end or `!`."""
        at = 0
        while at < len(line) and not self.is_over:
            if line[at] in WHITESPACE:
                at += 1
            elif line[at] == ord("!"):
                self.is_over = True
            else:
                digits, item = ITEM.match(line, at).groups()
                self.take_item(count_of(digits), item)
                at += len(digits) + len(item)

    def take_item(self, count, item):
        """Takes an end of rows or a run."""
        if item is None:
            raise Broken("BadItem")
        if item == b"$":
            self.column, self.row = self.corner[0], self.row + count
            if self.row > END:
                raise Broken("OutOfPlane")
            return
        state = state_of(item)
        if state > self.rule.greatest_state:
            raise Broken("StateRange")
        if self.row >= END or self.column + count > END:
            raise Broken("OutOfPlane")
        if state:
            self.runs.append((self.column, self.row, count, state))
        self.column += count


def corner_of(text):
    """The corner that a field `Pos=` says."""
    numbers = text.split(b",")
    if len(numbers) != 2 or not all(is_number(it.removeprefix(b"-")) for it in numbers):
        raise Broken("BadNumber")
    x, y = (-value(it[1:]) if it.startswith(b"-") else value(it) for it in numbers)
    if not (FIRST <= x < END and FIRST <= y < END):
        raise Broken("OutOfPlane")
    return x, y


def count_of(digits):
    """The count that stands before an item; 1 where none does."""
    if not digits:
        return 1
    if value(digits) == 0:
        raise Broken("ZeroCount")
    if value(digits) > 2**TOP:
        raise Broken("TooLarge")
    return value(digits)


def state_of(item):
    """The state that an item says."""
    if item in (b"b", b"."):
        return 0
    if item == b"o":
        return 1
    prefix = item[0] - ord("p") + 1 if len(item) == 2 else 0
    return 24 * prefix + item[-1] - ord("A") + 1


def read_rle(squares, data):
    """The rule, the generation and the whole plane that a file says."""
    reading = Reading()
    lines = lines_of(data)
    for number, line in enumerate(lines, 1):
        try:
            reading.take(line)
        except Broken as broken:
            raise Fault(str(broken), number) from None
    if reading.rule is None:
        raise Fault("NoHeader", len(lines) + 1)
    return reading.rule, reading.generation, squares.of_runs(reading.runs)


def state_text(rule, state):
    """The text of a state."""
    if rule.is_life:
        return "bo"[state]
    if state == 0:
        return "."
    prefix, letter = divmod(state - 1, 24)
    return (chr(ord("p") + prefix - 1) if prefix else "") + chr(ord("A") + letter)


def item_text(count, text):
    return text if count == 1 else f"{count}{text}"


def row_items(rule, cells, left):
    """The items of one row: its runs from the box's first column to its last cell."""
    runs, column = [], left
    for x, _, state in cells:
        if x > column:
            runs.append([0, x - column])
        if runs and runs[-1][0] == state and x == column:
            runs[-1][1] += 1
        else:
            runs.append([state, 1])
        column = x + 1
    return [item_text(length, state_text(rule, state)) for state, length in runs]


def items_of(rule, cells, left, top):
    """The items of a pattern, `!` too. The cells stand in rows from the top, in each row from the left."""
    items, row = [], top
    for y, in_row in itertools.groupby(cells, key=lambda cell: cell[1]):
        if y > row:
            items.append(item_text(y - row, "$"))
        items += row_items(rule, in_row, left)
        row = y
    return items + ["!"]


def filled(items):
    """Lines of items: an item goes on the current line if it fits there."""
    lines = [""]
    for item in items:
        if len(lines[-1]) + len(item) > LONGEST_WRITTEN:
            lines.append("")
        lines[-1] += item
    return lines


def rle_text(rule, generation, cells):
    """The text of a pattern by its nonzero cells, in rows from the top and in each row from the left."""
    columns, rows = [x for x, _, _ in cells] or [0], [y for _, y, _ in cells] or [0]
    left, top = min(columns), min(rows)
    width, height = (max(columns) - left + 1, max(rows) - top + 1) if cells else (0, 0)
    position = f"#CXRLE Pos={left},{top}" + (f" Gen={generation}" if generation else "")
    header = f"x = {width}, y = {height}, rule = {rule.text.decode()}"
    return "".join(f"{line}\n" for line in [position, header, *filled(items_of(rule, cells, left, top))]).encode()
