"""Macrocell files."""

from typing import NamedTuple, Union

from .library import Err, byte, codes, drop, list_all, slice_get, slice_index, slice_index_or, slice_split, take
from .rules import DEFAULT_RULE, Counting, Named, largest_state, rule_of
from .text import begins_with, is_blank, is_digit_text, is_empty, is_too_long, trim, value_of, words_of


class Leaf(NamedTuple):
    rows: list


class Quad(NamedTuple):
    level: int
    nw: int
    ne: int
    sw: int
    se: int


class Macrocell(NamedTuple):
    rule: Union[Counting, Named]
    generation: int
    nodes: list


def level_of(node):
    return 3 if isinstance(node, Leaf) else node.level


# ---- A node line


LEAF_BYTES = bytes([byte("."), byte("*"), byte("$")])


def is_leaf_byte(b):
    return b in LEAF_BYTES


def is_end(rows):
    return rows in ([], [b""])


def leaf_of(text):
    rows = slice_split(lambda b: b == byte("$"), text)
    if list_all(is_leaf_byte, text) and list_all(lambda row: len(row) <= 8, rows) and is_end(drop(8, rows)):
        return Leaf(rows)
    raise Err("BadLeaf")


def quad_of(numbers):
    if len(numbers) != 5:
        raise Err("BadNode")
    return Quad(*numbers)


def node_of(text):
    if is_leaf_byte(slice_index(text, 0)):
        return leaf_of(text)
    if list_all(is_digit_text, words_of(text)):
        return quad_of([value_of(word) for word in words_of(text)])
    raise Err("BadNode")


def numbered(nodes, number):
    return None if number == 0 else slice_get(nodes, number - 1)


def has_level(level, node):
    return node is not None and level_of(node) == level


def is_child(nodes, level, number):
    return number == 0 or has_level(level, numbered(nodes, number))


def with_node(rule, nodes, node):
    """The squares with one more behind them: it is put onto the list itself."""
    if isinstance(node, Quad):
        level, *quarters = node
        if level == 0 or 62 < level:
            raise Err("BadLevel")
        if level == 1:
            if not list_all(lambda state: state <= largest_state(rule), quarters):
                raise Err("StateRange")
        elif not list_all(lambda number: is_child(nodes, level - 1, number), quarters):
            raise Err("BadChild")
    nodes.append(node)
    return nodes


# ---- The lines


def is_command(word, line):
    return begins_with(line, word) and is_blank(take(1, drop(len(word), line)))


def generation_of(text):
    if not is_digit_text(text):
        raise Err("BadNumber")
    value = value_of(text)
    if not value < 2**64:
        raise Err("TooLarge")
    return value


def with_line(file, line):
    if is_too_long(line):
        raise Err("LineTooLong")
    if is_blank(line):
        return file
    if begins_with(line, codes("#FRAME")):
        raise Err("Timeline")
    if (is_command(codes("#R"), line) or is_command(codes("#G"), line)) and not is_empty(file.nodes):
        raise Err("LateHeader")
    if is_command(codes("#R"), line):
        return file._replace(rule=rule_of(drop(2, line)))
    if is_command(codes("#G"), line):
        return file._replace(generation=generation_of(trim(drop(2, line))))
    if begins_with(line, codes("#")):
        return file
    node = node_of(trim(line))
    return file._replace(nodes=with_node(file.rule, file.nodes, node))


def first_line(line):
    if is_too_long(line):
        raise Err("LineTooLong")
    if not begins_with(line, codes("[M2]")):
        raise Err("NoHeader")
    return Macrocell(DEFAULT_RULE, 0, [])


# ---- The plane


def leaf_state(rows, column, row):
    return 1 if slice_index(slice_index_or(rows, row, b""), column) == byte("*") else 0


def quarter_at(side, column, row, nw, ne, sw, se):
    if row < side:
        return nw if column < side else ne
    return sw if column < side else se


def state_in(nodes, level, number, column, row):
    if level == 0:
        return number
    node = numbered(nodes, number)
    if node is None:
        return 0
    if isinstance(node, Leaf):
        return leaf_state(node.rows, column, row)
    _, nw, ne, sw, se = node
    side = 2 ** (level - 1)
    return state_in(nodes, level - 1, quarter_at(side, column, row, nw, ne, sw, se), column % side, row % side)


def root_level(nodes):
    return level_of(nodes[-1]) if nodes else 0


def cell(nodes, x, y):
    if is_empty(nodes):
        return 0
    level = root_level(nodes)
    half = 2 ** (level - 1)
    if -half <= x < half and -half <= y < half:
        return state_in(nodes, level, len(nodes), x + half, y + half)
    return 0
