"""Patterns that come one after the other, as `keys --stream` takes them: those of the other files here, accepted and refused, and some with other lengths than
a read of the program has bytes. The tests of the Python module and of the command of the package for npm compare what these say of them with what the program
says."""

import re
from typing import NamedTuple

from shared import hints, processes
from shared.fixtures import FILES

GLIDER = b"x = 3, y = 3, rule = 23/3\nbo$2bo$3o!\n"
CHUNK = 65536  # bytes of a read of the program


def padded(length):
    """A glider in so many bytes."""
    return b"#" * (length - len(GLIDER) - 1) + b"\n" + GLIDER


GROUPS = [FILES, hints.WARNED, hints.NOT_WARNED, hints.FOREIGN]
GIVEN = [it[0] if isinstance(it, tuple) else it for group in GROUPS for it in group.values()]
#: No pattern file has a NUL in it: a tar, for example, would be several patterns.
PATTERNS = [it for it in GIVEN if b"\0" not in it] + [padded(CHUNK + more) for more in (-2, -1, 0, 1, 3 * CHUNK)] + [GLIDER, GLIDER]
#: The last one lacks its end.
STREAM = b"\0".join(PATTERNS)


class Said(NamedTuple):
    """What the program writes of a pattern: the digits of its key, the fault as `line 4: BadChild`, the sentences on it, and a warning; empty where it writes
    none."""

    key: str = ""
    fault: str = ""
    reason: str = ""
    warning: str = ""


def said_by(program, form):
    """What the program's `keys --stream` says of each of these patterns, in a form."""
    answer = processes.run([program, "keys", "--stream", "-", "--form", form], STREAM)
    found = {str(number): Said() for number in range(1, len(PATTERNS) + 1)}
    for line in answer.output.decode().splitlines():
        key, number = line.split("  ")
        found[number] = found[number]._replace(key=key)
    for line in answer.error.decode().splitlines():
        number, said = line.split(": ", 1)
        if said.startswith("warning: "):
            found[number] = found[number]._replace(warning=said[9:])
        else:
            fault, reason = re.fullmatch(r"((?:line \d+: )?\w+): (.*)", said).groups()
            found[number] = found[number]._replace(fault=fault, reason=reason)
    return list(found.values())
