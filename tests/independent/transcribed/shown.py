"""The five lines that tell a pattern."""

from .library import codes, decimal, signed_decimal
from .rules import rule_text


def box_line(box):
    """Of a box by its first column, first row, last column and last row, or of None."""
    if box is None:
        return codes("box none\n")
    left, top, right, bottom = box
    sides = decimal(abs(right - left) + 1), decimal(abs(bottom - top) + 1)
    return codes("box ") + b" ".join([signed_decimal(left), signed_decimal(top), *sides]) + codes("\n")


def shown(rule, generation, population, box, nodes):
    """The text of `IsClaimedShown`."""
    return (
        codes("rule ") + rule_text(rule) + codes("\ngeneration ") + decimal(generation) + codes("\npopulation ") + decimal(population) + codes("\n")
        + box_line(box) + codes("nodes ") + decimal(nodes) + codes("\n")
    )
