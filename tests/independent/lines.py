"""Bytes, lines and numbers, and faults: the sections "Bytes, lines and numbers" and "Kinds of fault" of docs/FORMATS.md."""

import re

WHITESPACE = b" \t\r"
LONGEST_LINE = 2**20
MOST_DIGITS = 40


class Broken(Exception):
    """A line breaks a rule of its format. What it says is the kind of the fault."""


class Fault(Exception):
    """A refusal: its kind, the line that is to blame (0 where none is), and whether that is a line of the rule table."""

    def __init__(self, kind, line=0, in_table=False):
        super().__init__(kind, line, in_table)
        self.kind, self.line, self.in_table = kind, line, in_table

    def text(self):
        if self.line == 0:
            return f"{self.kind}\n"
        return f"{'table ' * self.in_table}line {self.line}: {self.kind}\n"


def lines_of(data):
    """The lines of an input. A line feed ends a line; behind the last one is a line only if there are bytes."""
    lines = data.split(b"\n")
    return lines if lines[-1] else lines[:-1]


def bare(text):
    """A text without the whitespace at its ends."""
    return text.strip(WHITESPACE)


def is_blank(line):
    return not bare(line)


def words_of(line):
    """What whitespace separates in a line."""
    return re.findall(rb"[^ \t\r]+", line)


def is_word_line(line, word):
    """A line that begins with a word, behind which whitespace follows or the line ends."""
    return line.startswith(word) and line[len(word):len(word) + 1] in (b"", b" ", b"\t", b"\r")


def is_number(text):
    """A digit text: one or more of `0` to `9`."""
    return re.fullmatch(rb"[0-9]+", text) is not None


def value(digits):
    """The value of a digit text. One that has more than forty digits, zeros in front aside, counts as 10^40, which is above each limit too."""
    digits = digits.lstrip(b"0")
    return int(digits or b"0") if len(digits) <= MOST_DIGITS else 10**MOST_DIGITS


def check_length(line):
    if len(line) > LONGEST_LINE:
        raise Broken("LineTooLong")


def check_generation(text):
    """The generation that a digit text says."""
    if not is_number(text):
        raise Broken("BadNumber")
    if value(text) >= 2**64:
        raise Broken("TooLarge")
    return value(text)
