"""Bytes, lines and numbers."""

from .library import byte, digits_value, take

WHITESPACE = bytes([byte(" "), byte("\t"), byte("\r")])


def is_whitespace(b):
    return b in WHITESPACE


def is_empty(text):
    return len(text) == 0


def is_blank(text):
    return is_empty(text.strip(WHITESPACE))


def trim_start(text):
    return text.lstrip(WHITESPACE)


def trim_end(text):
    return text.rstrip(WHITESPACE)


def trim(text):
    return trim_end(trim_start(text))


def begins_with(text, front):
    return take(len(front), text) == front


def is_digit_text(text):
    return not is_empty(text) and text.isdigit()


def value_of(text):
    return digits_value(text)


def lines_of(data):
    """Each line ends at a line feed, and the bytes after the last one are a line if there are any."""
    lines, begin = [], 0
    while begin < len(data):
        end = data.find(b"\n", begin)
        end = len(data) if end < 0 else end
        lines.append(data[begin:end])
        begin = end + 1
    return lines


def words_of(text):
    for b in WHITESPACE:
        text = text.replace(bytes([b]), b" ")
    return [word for word in text.split(b" ") if word]


def is_too_long(line):
    return 2**20 < len(line)
