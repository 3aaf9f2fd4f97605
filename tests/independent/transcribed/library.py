"""Words of the language's library that the definitions are written with, and `Outcomes`."""

import functools


class Err(Exception):
    """A refusal: the name of its kind."""

    def __init__(self, kind):
        super().__init__(kind)
        self.kind = kind


@functools.cache
def codes(text):
    return text.encode("ascii")


@functools.cache
def byte(text):
    return codes(text)[0]


def minus(a, b):
    """A natural number less another one: 0 where that is greater."""
    return max(a - b, 0)


def list_all(test, items):
    return all(map(test, items))


def list_any(test, items):
    return any(map(test, items))


def take(n, items):
    return items[:n]


def drop(n, items):
    return items[n:]


def slice_get(items, i):
    """None where there is no such item."""
    return items[i] if i < len(items) else None


def slice_index_or(items, i, other):
    return items[i] if i < len(items) else other


def slice_index(numbers, i):
    return slice_index_or(numbers, i, 0)


def slice_split(test, text):
    """The parts of a text between the bytes that pass a test: one part at least."""
    parts, begin = [], 0
    for at, b in enumerate(text):
        if test(b):
            parts.append(text[begin:at])
            begin = at + 1
    return [*parts, text[begin:]]


def prefix_len(test, text):
    for at, b in enumerate(text):
        if not test(b):
            return at
    return len(text)


def take_while(test, text):
    return take(prefix_len(test, text), text)


def position_or_len(test, items):
    return prefix_len(lambda item: not test(item), items)


def position(test, items):
    found = position_or_len(test, items)
    return found if found < len(items) else None


def before_first(test, text):
    return take(position_or_len(test, text), text)


def after_first(test, text):
    return drop(position_or_len(test, text) + 1, text)


def count_by(test, items):
    return sum(1 for item in items if test(item))


def unwrap_or(option, other):
    return other if option is None else option


def is_ascii_digit(b):
    return 48 <= b <= 57


def is_ascii_graphic(b):
    return 33 <= b <= 126


def to_ascii_uppercase(b):
    return b - 32 if 97 <= b < 123 else b


def digits_value(text):
    """The number that decimal digits write."""
    text = text.lstrip(b"0")
    return int(text or b"0") if len(text) <= LONG else long_value(text)


LONG = 1000


@functools.lru_cache(maxsize=16)
def long_value(text):
    """The same of a long text, by halves: a digit more at a time would take the square of its length."""
    if len(text) <= LONG:
        return int(text)
    half = len(text) // 2
    return long_value.__wrapped__(text[:half]) * 10 ** (len(text) - half) + long_value.__wrapped__(text[half:])


def decimal(n):
    """The last 64 digits at most."""
    return codes(str(n % 10**64) if n < 10**64 else f"{n % 10**64:064}")


def signed_decimal(z):
    return decimal(z) if z >= 0 else codes("-") + decimal(-z)
