"""Extended RLE files."""

from typing import NamedTuple, Union

from .library import Err, byte, codes, drop, is_ascii_digit, minus, prefix_len, slice_split, take_while
from .macrocell import generation_of, is_command
from .pattern import EDGE, is_coordinate
from .rules import DEFAULT_RULE, Counting, Named, largest_state, rule_of
from .text import begins_with, is_blank, is_digit_text, is_empty, is_too_long, trim_start, value_of, words_of


class Position(NamedTuple):
    x: int
    y: int
    generation: int


class Cells(NamedTuple):
    count: int
    state: int


class RowEnds(NamedTuple):
    count: int


class Rle(NamedTuple):
    """What the lines from the header on say. `rows` and `columns` are `rows_in(items)` and `columns_in(items)`, kept."""

    rule: Union[Counting, Named]
    position: Position
    items: list
    rows: int = 0
    columns: int = 0


# ---- The plane


def rows_in(items):
    return sum(item.count for item in items if isinstance(item, RowEnds))


def columns_in(items):
    columns = 0
    for item in items:
        columns = 0 if isinstance(item, RowEnds) else columns + item.count
    return columns


def cell(file, x, y):
    """The state of the cell (x, y): that of the cells that cover it, and 0 where none do."""
    rows, columns = 0, 0
    for item in file.items:
        if isinstance(item, RowEnds):
            rows, columns = rows + item.count, 0
            continue
        column = file.position.x + columns
        if y == file.position.y + rows and column <= x < column + item.count:
            return item.state
        columns += item.count
    return 0


def with_item(file, item):
    """The items with one more behind them: it is put onto the list itself."""
    row, column = file.position.y + file.rows, file.position.x + file.columns
    if isinstance(item, Cells):
        if largest_state(file.rule) < item.state:
            raise Err("StateRange")
        if not (row < EDGE and column + item.count <= EDGE):
            raise Err("OutOfPlane")
        file.items.append(item)
        return file._replace(columns=file.columns + item.count)
    if not row + item.count <= EDGE:
        raise Err("OutOfPlane")
    file.items.append(item)
    return file._replace(rows=file.rows + item.count, columns=0)


# ---- An item


def letter_state(b):
    return minus(b, byte("A")) + 1 if byte("A") <= b <= byte("X") else None


def prefixed(p, state):
    if state is None:
        return None
    all_states = 24 * (minus(p, byte("p")) + 1) + state
    return all_states if byte("p") <= p <= byte("y") and all_states <= 255 else None


def state_of(text):
    if len(text) == 1:
        b = text[0]
        if b in (byte("b"), byte(".")):
            return 0
        return 1 if b == byte("o") else letter_state(b)
    if len(text) == 2:
        return prefixed(text[0], letter_state(text[1]))
    return None


def count_of(digits):
    if is_empty(digits):
        return 1
    value = value_of(digits)
    if value == 0:
        raise Err("ZeroCount")
    if 2**62 < value:
        raise Err("TooLarge")
    return value


def cells_of(count, state):
    if state is None:
        raise Err("BadItem")
    return Cells(count, state)


def item_of(text):
    count = count_of(take_while(is_ascii_digit, text))
    last = drop(prefix_len(is_ascii_digit, text), text)
    return RowEnds(count) if last == codes("$") else cells_of(count, state_of(last))


PREFIXES = range(byte("p"), byte("y") + 1)


def texts_of(line):
    """The texts of a line: each ends behind the first byte that is neither a digit nor a prefix of a state."""
    texts, begin = [], 0
    for at, b in enumerate(line):
        if not (is_ascii_digit(b) or b in PREFIXES):
            texts.append(line[begin:at + 1])
            begin = at + 1
    return [*texts, line[begin:]] if begin < len(line) else texts


# ---- The lines


class BeforeHeader(NamedTuple):
    position: Position


class BehindHeader(NamedTuple):
    file: Rle


class BehindEnd(NamedTuple):
    file: Rle


def with_texts(file, texts):
    for text in texts:
        if is_blank(text):
            continue
        if text == codes("!"):
            return BehindEnd(file)
        file = with_item(file, item_of(text))
    return BehindHeader(file)


def number_of(text):
    digits = drop(1, text) if begins_with(text, codes("-")) else text
    if not is_digit_text(digits):
        raise Err("BadNumber")
    return -value_of(digits) if begins_with(text, codes("-")) else value_of(digits)


def with_corner(position, texts):
    if len(texts) != 2:
        raise Err("BadNumber")
    left, right = texts
    x, y = number_of(left), number_of(right)
    if not (is_coordinate(x) and is_coordinate(y)):
        raise Err("OutOfPlane")
    return position._replace(x=x, y=y)


def with_field(position, field):
    if begins_with(field, codes("Pos=")):
        return with_corner(position, slice_split(lambda b: b == byte(","), drop(4, field)))
    if begins_with(field, codes("Gen=")):
        return position._replace(generation=generation_of(drop(4, field)))
    return position


def with_fields(position, fields):
    for field in fields:
        position = with_field(position, field)
    return position


NO_POSITION = Position(0, 0, 0)


def behind(token, text):
    if not begins_with(text, token):
        raise Err("BadHeader")
    return trim_start(drop(len(token), text))


def behind_number(text):
    if not is_digit_text(take_while(is_ascii_digit, text)):
        raise Err("BadHeader")
    return trim_start(drop(prefix_len(is_ascii_digit, text), text))


def rule_part(text):
    if is_empty(text):
        return DEFAULT_RULE
    rest = behind(codes(","), text)
    rest = behind(codes("rule"), rest)
    rest = behind(codes("="), rest)
    return rule_of(rest)


def header_of(line):
    rest = behind(codes("x"), line)
    rest = behind(codes("="), rest)
    rest = behind_number(rest)
    rest = behind(codes(","), rest)
    rest = behind(codes("y"), rest)
    rest = behind(codes("="), rest)
    rest = behind_number(rest)
    return rule_part(rest)


def before_header(position, line):
    if is_too_long(line):
        raise Err("LineTooLong")
    if is_blank(line):
        return BeforeHeader(position)
    if is_command(codes("#CXRLE"), line):
        return BeforeHeader(with_fields(NO_POSITION, words_of(drop(6, line))))
    if begins_with(line, codes("#")):
        return BeforeHeader(position)
    if begins_with(line, codes("x")):
        return BehindHeader(Rle(header_of(line), position, []))
    raise Err("NoHeader")


def behind_header(file, line):
    if is_too_long(line):
        raise Err("LineTooLong")
    if is_blank(line):
        return BehindHeader(file)
    if is_command(codes("#CXRLE"), line):
        raise Err("LateHeader")
    if begins_with(line, codes("#")):
        return BehindHeader(file)
    if begins_with(line, codes("x ")) or begins_with(line, codes("x=")):
        raise Err("SecondHeader")
    return with_texts(file, texts_of(line))


def with_line(lines, line):
    if isinstance(lines, BeforeHeader):
        return before_header(lines.position, line)
    if isinstance(lines, BehindHeader):
        return behind_header(lines.file, line)
    return lines
