"""Which rule a text names, or why it names none."""

from typing import NamedTuple

from .library import Err, byte, codes, drop, is_ascii_graphic, list_all, slice_split, take, to_ascii_uppercase
from .text import begins_with, is_empty, trim


class Counting(NamedTuple):
    neighbours: int
    births: tuple
    survivals: tuple


class Named(NamedTuple):
    name: bytes


class Digits(NamedTuple):
    births: bytes
    survivals: bytes


COUNTS = (0, 1, 2, 3, 4, 5, 6, 7, 8)


def has(text, b):
    return b in text


def counts_in(text):
    return tuple(n for n in COUNTS if has(text, byte("0") + n))


def is_mark(b):
    return not byte("0") <= b <= byte("8")


def form(marks, texts):
    """The digits of one of the five forms, or None."""
    if len(texts) == 4 and texts[0] == b"" and texts[2] == b"":
        _, d, _, e = texts
        if marks == codes("B/S"):
            return Digits(births=d, survivals=e)
        return Digits(births=e, survivals=d) if marks == codes("S/B") else None
    if len(texts) == 3 and texts[0] == b"":
        _, d, e = texts
        if marks == codes("BS"):
            return Digits(births=d, survivals=e)
        return Digits(births=e, survivals=d) if marks == codes("SB") else None
    if len(texts) == 2:
        d, e = texts
        return Digits(births=e, survivals=d) if marks == codes("/") else None
    return None


def uppercase(text):
    return bytes(map(to_ascii_uppercase, text))


def digits_of(word):
    return form(uppercase(bytes(filter(is_mark, word))), slice_split(is_mark, word))


def counting_rule(neighbours, digits):
    if has(digits.births, byte("0")):
        raise Err("BirthOnZero")
    return Counting(neighbours, counts_in(digits.births), counts_in(digits.survivals))


def are_up_to_four(digits):
    return list_all(lambda n: n <= 4, counts_in(digits.births)) and list_all(lambda n: n <= 4, counts_in(digits.survivals))


def other_rule(word):
    if has(word, byte("/")):
        raise Err("UnsupportedRule")
    return Named(word)


def lettered_rule(word, front, letter, digits):
    if digits is None:
        return other_rule(word)
    if begins_with(front, codes("B")) and letter == codes("V") and are_up_to_four(digits):
        return counting_rule(4, digits)
    if letter in (codes("V"), codes("H")):
        raise Err("UnsupportedRule")
    return other_rule(word)


def word_rule(word, digits):
    if digits is not None:
        return counting_rule(8, digits)
    front, letter = take(len(word) - 1, word), drop(len(word) - 1, word)
    return lettered_rule(word, uppercase(front), uppercase(letter), digits_of(front))


def rule_of(text):
    word = trim(text)
    if is_empty(word) or 255 < len(word) or not list_all(is_ascii_graphic, word):
        raise Err("BadRule")
    if has(word, byte(":")):
        raise Err("BoundedGrid")
    return word_rule(word, digits_of(word))


DEFAULT_RULE = Counting(8, (3,), (2, 3))


def largest_state(rule):
    return 1 if isinstance(rule, Counting) else 255


def is_counting(rule):
    return isinstance(rule, Counting)


def rule_text(rule):
    if isinstance(rule, Counting):
        births, survivals = (bytes(byte("0") + n for n in counts) for counts in (rule.births, rule.survivals))
        return codes("B") + births + codes("/S") + survivals + (codes("V") if rule.neighbours == 4 else b"")
    return rule.name
