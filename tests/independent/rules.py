"""Rule texts: the section "Rule texts" of docs/FORMATS.md."""

import re
from typing import NamedTuple, Optional

from .lines import Broken, bare

LONGEST_RULE = 255
# A von Neumann rule: its births, and its survivals.
FOUR_NEIGHBOURS = rb"[Bb]([0-4]*)/?[Ss]([0-4]*)[Vv]"
# Each form with the places of the births and of the survivals in it.
FORMS = (
    (rb"[Bb]([0-8]*)/[Ss]([0-8]*)", 1, 2),
    (rb"[Bb]([0-8]*)[Ss]([0-8]*)", 1, 2),
    (rb"[Ss]([0-8]*)/[Bb]([0-8]*)", 2, 1),
    (rb"[Ss]([0-8]*)[Bb]([0-8]*)", 2, 1),
    (rb"([0-8]*)/([0-8]*)", 2, 1),
)


class Rule(NamedTuple):
    """A rule by its canonical text. A B/S rule has its two sets of counts too, and whether it counts four neighbours or eight."""

    text: bytes
    births: Optional[frozenset] = None
    survivals: Optional[frozenset] = None
    neighbours: Optional[int] = None

    @property
    def is_life(self):
        return self.births is not None

    @property
    def greatest_state(self):
        return 1 if self.is_life else 255


def life(births, survivals, neighbours=8):
    """The B/S rule of two texts of digits, unless cells are born on 0."""
    if b"0" in births:
        raise Broken("BirthOnZero")
    births, survivals = (b"".join(b"%d" % digit for digit in range(9) if b"%d" % digit in digits) for digits in (births, survivals))
    text = b"B%s/S%s%s" % (births, survivals, b"V" if neighbours == 4 else b"")
    return Rule(text, *(frozenset(map(int, digits.decode())) for digits in (births, survivals)), neighbours)


CONWAY = life(b"3", b"23")


def rule_of(text):
    """The rule that a text says, by the six steps."""
    text = bare(text)
    if not text or len(text) > LONGEST_RULE or not all(0x21 <= byte <= 0x7E for byte in text):
        raise Broken("BadRule")
    if b":" in text:
        raise Broken("BoundedGrid")
    for form, births, survivals in FORMS:
        if match := re.fullmatch(form, text):
            return life(match[births], match[survivals])
    if match := re.fullmatch(FOUR_NEIGHBOURS, text):
        return life(match[1], match[2], neighbours=4)
    if any(re.fullmatch(form + rb"[VvHh]", text) for form, _, _ in FORMS) or b"/" in text:
        raise Broken("UnsupportedRule")
    return Rule(text)
