"""Files of either format: what the bytes of a file say, or at which line and why they are no file."""

from . import macrocell, rle
from .library import Err, codes
from .pattern import Pattern
from .text import begins_with, lines_of


class Fault(Exception):
    """A line and a kind."""

    def __init__(self, line, kind):
        super().__init__(line, kind)
        self.line, self.kind = line, kind


def fault_at(number, kind):
    return Fault(min(number, 2**64 - 1), kind)


def on_line(number, step, *given):
    """What a step answers, or the kind that it raises as the fault of a line."""
    try:
        return step(*given)
    except Err as refusal:
        raise fault_at(number, refusal.kind) from None


def read_lines(with_one, at_end, number, said, lines):
    for line in lines:
        said = on_line(number, with_one, said, line)
        number += 1
    return on_line(number, at_end, said)


def macrocell_pattern(file):
    return Pattern(file.rule, file.generation, lambda x, y: macrocell.cell(file.nodes, x, y), file)


def macrocell_of(lines):
    if not lines:
        raise fault_at(1, "NoHeader")
    begun = on_line(1, macrocell.first_line, lines[0])
    return read_lines(macrocell.with_line, macrocell_pattern, 2, begun, lines[1:])


def end_of_rle(lines):
    if isinstance(lines, rle.BeforeHeader):
        raise Err("NoHeader")
    file = lines.file
    return Pattern(file.rule, file.position.generation, lambda x, y: rle.cell(file, x, y), file)


def pattern_of(data):
    if begins_with(data, codes("[M2]")):
        return macrocell_of(lines_of(data))
    return read_lines(rle.with_line, end_of_rle, 1, rle.BeforeHeader(rle.NO_POSITION), lines_of(data))
