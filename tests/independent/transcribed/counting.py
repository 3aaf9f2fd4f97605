"""What is counted in the text of a macrocell file."""

from .library import count_by, drop, list_any, slice_index
from .macrocell import is_leaf_byte
from .rules import is_counting
from .text import begins_with, is_blank, lines_of, trim


def is_node_line(line):
    return not is_blank(line) and not begins_with(line, b"#")


def node_lines(data):
    return count_by(is_node_line, drop(1, lines_of(data)))


def has_leaves(data):
    return list_any(lambda line: is_node_line(line) and is_leaf_byte(slice_index(trim(line), 0)), drop(1, lines_of(data)))


def is_rival(rule, rival):
    """Whether a file of the same pattern, under this rule, is one that the canonical text has to be no longer than: `IsClaimedRival` without `same`."""
    return begins_with(rival, b"[M2]") and (is_counting(rule) or not has_leaves(rival))
