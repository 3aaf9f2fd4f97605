r"""The duplicates in a folder: prints `FILE = FILE` for each file that is the same pattern as an earlier one, and `FILE: line N: KIND: SENTENCE` for
each that is no pattern, or why it can't be read, on standard error. Files that gzip packed are unpacked. It keeps the key of each different pattern.
A pattern is the same wherever it is (`moved`, as the command `duplicates` of the program has it). With `placed` it has to be in the same place, and with
`turned` it is also the same whichever way it is turned or reflected. With `phases` an oscillator or a spaceship with a period up to 128 is also the same in
whichever phase it is. A name is written so that it is one line and does nothing to a terminal: a backslash as \\, a line feed as \n, a carriage return as \r,
and each byte of what is no UTF-8 text, of another control character or of one that turns the direction of text as \xHH. The status is 0, or 1 where a file has
no key. usage: duplicates.py FOLDER [placed|moved|turned|phases]"""
import contextlib
import gzip
import os
import pathlib
import re
import signal
import sys
import warnings
import zlib

for it in (signal.SIGINT, signal.SIGPIPE) if __name__ == "__main__" else ():
    signal.signal(it, signal.SIG_DFL)  # so that Ctrl-C, or a reader who leaves, ends it without a word

try:
    import golly_canon
except ImportError as why:
    sys.exit(f"duplicates.py: {why}: docs/LIBRARY.md says where the module and its library are looked for")

FORM = "moved"
FORMS = ("placed", "moved", "turned", "phases")
HIDDEN = re.compile(r"[\\\x00-\x1f\x7f-\x9f\u061c\u200e\u200f\u2028-\u202e\u2066-\u2069\udc80-\udcff]")


def shown(path):
    """A name as it is written."""
    short = {"\\": "\\\\", "\n": "\\n", "\r": "\\r"}
    name = os.fsencode(path).decode("utf-8", "surrogateescape")
    return HIDDEN.sub(lambda it: short.get(it[0]) or "".join(f"\\x{byte:02x}" for byte in it[0].encode("utf-8", "surrogateescape")), name)


def side(path):
    """The same where a `=` is between two names: one in a name that has a space next to it is written as `\\x3d`."""
    return re.sub("(?<= )=|=(?= )", r"\\x3d", shown(path))


def say(what):
    """Writes a line to standard error, as far as that takes it."""
    with contextlib.suppress(OSError):
        os.write(2, f"{what}\n".encode())


def is_packed(path):
    with open(path, "rb") as file:
        return file.read(2) == b"\x1f\x8b"


def contents(path):
    """The bytes of a file."""
    with (gzip.open if is_packed(path) else open)(path, "rb") as file:
        return file.read()


def write_duplicates(folder, form, output):
    """Writes the duplicates in a folder, and returns the status."""
    known, status = {}, 0
    for path in sorted(it for it in pathlib.Path(folder).rglob("*") if it.is_file()):
        try:
            data = contents(path)
            key = golly_canon.key(data, form)
        except (OSError, EOFError, zlib.error, golly_canon.Refused) as why:
            said = f"{why}: {why.sentence}" if isinstance(why, golly_canon.Refused) else getattr(why, "strerror", None) or why
            say(f"{shown(path)}: {said}")
            status = 1
            continue
        warning = golly_canon.warning_of(data)
        if warning is not None:
            say(f"{shown(path)}: warning: {warning}")
        first = known.setdefault(key, path)
        if first != path:
            output.write(f"{side(first)} = {side(path)}\n".encode())
    return status


def main(words):
    form = words[2] if len(words) == 3 else FORM
    if len(words) not in (2, 3) or form not in FORMS or not pathlib.Path(words[1]).is_dir():
        sys.exit(f"usage: duplicates.py FOLDER [{'|'.join(FORMS)}]")
    warnings.simplefilter("ignore", golly_canon.PatternWarning)  # each file has its own
    try:
        with open(1, "wb", closefd=False) as output:
            return write_duplicates(words[1], form, output)
    except OSError as why:
        sys.exit(f"duplicates.py: the output can't be written: {why.strerror}")


if __name__ == "__main__":
    sys.exit(main(sys.argv))
