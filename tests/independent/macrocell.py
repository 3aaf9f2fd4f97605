"""Macrocell files, read and written: the sections "Macrocell files, read" and "Macrocell files, written" of docs/FORMATS.md."""

import re

from .lines import Broken, Fault, bare, check_generation, check_length, is_blank, is_number, is_word_line, lines_of, value, words_of
from .rules import CONWAY, rule_of
from .squares import BLANK, CELLS, TOP


def is_macrocell(data):
    """Whether an input is read as a macrocell file."""
    return data.startswith(b"[M2]")


class Reading:
    """What the lines so far say."""

    def __init__(self, squares):
        self.squares = squares
        self.rule = CONWAY
        self.generation = 0
        self.nodes = []

    def take(self, number, line):
        """Takes the next line, or tells the first rule that it breaks."""
        check_length(line)
        if number == 1:
            if not line.startswith(b"[M2]"):
                raise Broken("NoHeader")
        elif line.startswith(b"#"):
            self.take_note(line)
        elif not is_blank(line):
            self.nodes.append(self.node_of(bare(line)))

    def take_note(self, line):
        """Takes a rule line, a generation line or a comment."""
        if line.startswith(b"#FRAME"):
            raise Broken("Timeline")
        is_rule, is_generation = is_word_line(line, b"#R"), is_word_line(line, b"#G")
        if (is_rule or is_generation) and self.nodes:
            raise Broken("LateHeader")
        if is_rule:
            self.rule = rule_of(line[2:])
        if is_generation:
            self.generation = check_generation(bare(line[2:]))

    def node_of(self, line):
        """The square of a node line."""
        if line[:1] in (b".", b"*", b"$"):
            return self.leaf_of(line)
        words = words_of(line)
        if len(words) != 5 or not all(map(is_number, words)):
            raise Broken("BadNode")
        level, *quarters = map(value, words)
        if not 1 <= level <= TOP:
            raise Broken("BadLevel")
        if level == 1:
            if max(quarters) > self.rule.greatest_state:
                raise Broken("StateRange")
            return self.squares.join(*(CELLS[state] for state in quarters))
        return self.squares.join(*(self.child(number, level - 1) for number in quarters))

    def child(self, number, level):
        """The square of a level that a number names."""
        if number == 0:
            return BLANK[level]
        if number > len(self.nodes) or self.nodes[number - 1].level != level:
            raise Broken("BadChild")
        return self.nodes[number - 1]

    def leaf_of(self, line):
        """The square of a leaf line: up to eight rows, each of up to eight cells."""
        *ended, last = line.split(b"$")
        rows = ended + [last] if last else ended
        if len(rows) > 8 or not all(re.fullmatch(rb"[.*]{0,8}", row) for row in rows):
            raise Broken("BadLeaf")
        rows += [b""] * (8 - len(rows))
        return self.squares.of_rows([[int(byte == ord("*")) for byte in row.ljust(8, b".")] for row in rows])


def read_macrocell(squares, data):
    """The rule, the generation and the whole plane that a file says."""
    reading = Reading(squares)
    for number, line in enumerate(lines_of(data), 1):
        try:
            reading.take(number, line)
        except Broken as broken:
            raise Fault(str(broken), number) from None
    root = reading.nodes[-1] if reading.nodes else BLANK[TOP]
    return reading.rule, reading.generation, squares.on_plane(root)


def leaf_text(rows):
    """A leaf line of eight rows of states."""
    return b"".join(bytes(b".*"[state] for state in row).rstrip(b".") + b"$" for row in rows)


def macrocell_text(rule, generation, node_lines):
    """The text of a file with these node lines."""
    lines = [b"[M2] (canonical 1)", b"#R " + rule.text]
    if generation:
        lines.append(b"#G %d" % generation)
    return b"".join(line + b"\n" for line in lines + node_lines)
