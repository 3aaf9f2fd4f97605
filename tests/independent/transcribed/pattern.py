"""What a file says, and what plane it is said of."""

from typing import Callable, NamedTuple, Union

from .rules import Counting, Named

EDGE = 2**61


class Pattern(NamedTuple):
    """A rule, a generation, and a state for each pair of whole numbers. `said` is what the file's lines say, by which the pattern is drawn."""

    rule: Union[Counting, Named]
    generation: int
    cell: Callable
    said: object = None


def is_coordinate(z):
    return -EDGE <= z < EDGE
