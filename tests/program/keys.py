#!/usr/bin/env python3
"""Holds the command `keys` of the built program, PROGRAM, to what docs/FORMATS.md says of it. Each key is that which `hashlib.sha256` gives of the
canonical text of the independent reader in tests/independent, each sentence that of the man page, and each line of a key is also compared with that
which `sha256sum` writes of a file of that name with that text.

usage: tests/program/keys.py PROGRAM [--cases N] [--seed SEED]

The rows are: forms and the order of files; generations that are ignored; lists (`--from`), with both ends; streams (`--stream`), each of whose patterns is
compared with a file of these bytes; objects (`--json`), which Python's `json` reads; odd names; files that are refused, and that can't be opened or read; the
statuses; outputs that fail; the line of progress on a terminal; N random files of both formats in one process, and as the patterns of a stream; and 100,000
names in one process, and as many patterns of a stream, within bounds of time and memory. It needs coreutils from 9.0 on, and GNU time. The last line counts the
checks.
"""

import argparse
import functools
import hashlib
import itertools
import json
import multiprocessing
import os
import pty
import random
import re
import shutil
import signal
import subprocess
import sys
import tempfile
import time
import tty

sys.dont_write_bytecode = True  # nothing is left in tests/
sys.path.insert(0, os.path.dirname(os.path.dirname(os.path.abspath(__file__))))

import compare  # noqa: E402
from independent import commands, forms  # noqa: E402
from independent.rle import rle_text  # noqa: E402
from independent.squares import cells_of  # noqa: E402
from shared import counting, processes  # noqa: E402
from shared.fixtures import FILES, HEADER, LIFE, LONGEST, PAIR_TEXT, ROWS, canonical  # noqa: E402
from shared.processes import Answer  # noqa: E402

PAGE = os.path.join(os.path.dirname(os.path.abspath(__file__)), "../../docs/golly_canon.1")
CLOCK = "/usr/bin/time"
# Of how many names a run is measured, and what it may take: processor time in seconds, and peak memory as a multiple of the list, beside what the
# start takes.
NAMES, SECONDS, TIMES, LITTLE = 100_000, 20, 6, 6_000_000
# What a stream of as many patterns of 8 x 8 cells may take of the time of as many files, and of memory, however many they are; and how often both are tried in
# turns, because what else the machine does costs the one or the other more. (It takes 0.42 of that time on a quiet machine. With four other processes beside,
# 0.51 was seen.)
STREAM_SHARE, STREAM_MEMORY, TURNS = 0.6, 12_000_000, 5
# The forms, each of which the independent reader has too. Those of random files have a greatest period that the reader seeks quickly, also of patterns that grow.
FORMS, RANDOM_FORMS = (*forms.FORMS, "phases"), (*forms.FORMS, "phases 6")
# Why a file has no key though the program was not let read it.
ABSENT, LOCKED, FOLDER, OTHER = "no such file", "permission denied", "is a folder", "can't be opened"
# The same of a name that isn't UTF-8 text, and what the end of a run over folders says of such names.
NO_NAME = "the name isn't UTF-8 text (collection.py reads such files)"
LEFT_OUT = b"Files and folders left out because the name isn't UTF-8 text: %d.\n"
DEVICES_LEFT_OUT = b"Devices, pipes and sockets left out: %d.\n"
PIPE = b"pipe is a pipe: it is read when a program writes to it.\n"
# The option by which a file has the key of its pattern with generation 0.
AT_START = "--ignore-generation"
# What a run that is misused answers: a text on standard error.
MISUSED = Answer(5, b"", None)


# ---- what is wanted


@functools.cache
def sentences():
    """What each kind of fault means, as the man page says it."""
    with open(PAGE, encoding="utf-8") as it:
        part = re.search(r'^\.SH "KINDS OF FAULT"$.*?(?=^\.SH FILES)', it.read(), re.MULTILINE | re.DOTALL)[0]
    found = re.findall(r"^\.TP\n\.B (\w+)\n((?:(?!\.TP|\.SS).*\n)+)", part, re.MULTILINE)
    return {kind: " ".join(re.sub(r"^\.\w+ +", "", line) for line in text.splitlines()).replace("\\-", "-") for kind, text in found}


def told(kind, line=""):
    """Why a file is refused, as it is told behind its name."""
    return f"{line}{kind}: {sentences()[kind]}"


# What a file is whose first bytes are these, or nothing.
GOLLY = "open it in Golly, and save it as RLE or as a macrocell file."
FOREIGN = [(re.compile(beginning, re.DOTALL), advice) for beginning, advice in (
    (rb"\x1f\x8b", "This is a gzip file: unpack it first, with gunzip."), (rb"BZh", "This is a bzip2 file: unpack it first, with bunzip2."),
    (rb"\xfd7zXZ\0", "This is an xz file: unpack it first, with unxz."), (rb"PK", "This is a zip file: unpack it first, with unzip."),
    (rb".{257}ustar", "This is a tar file: unpack it first, with tar -xf."),
    (rb"\x89PNG|GIF8|\xff\xd8\xff", "This is an image, not a pattern file."),
    (rb".*\0", "This isn't a text file, so it is no pattern file."), (rb"\Z", "The file is empty: save it or download it again."),
    (rb"[ \t\n\r\f]*<", "This is a web page (HTML): download the file that it links to."),
    (rb"\xef\xbb\xbf", "The file begins with a UTF-8 byte order mark: remove it, or save the file as UTF-8 without one."),
    (rb"#Life 1\.05", f"This is a Life 1.05 file: {GOLLY}"), (rb"#Life 1\.06", f"This is a Life 1.06 file: {GOLLY}"),
    (rb"#MCell", f"This is an MCell file: {GOLLY}"),
    (rb"@RULE", "This is a rule table, not a pattern: name it after the option --table of step."),
    (rb"!|[.O*\r]+(\n|\Z)", f"This is a plaintext file (.cells): {GOLLY}"),
    (rb"(#[^\n]*\n|\n)*(?=[^\n#])(?=[^\n]*o)[0-9bo$!. \t\r\f]+(\n|\Z)",
     "The header is missing: put one before the items, such as x = 0, y = 0, rule = B3/S23."),
    (rb"(?=[^\n]*\r)[^\n]*\Z", "The lines end in a carriage return alone: turn each into a line feed, with tr '\\r' '\\n'."))]


def advice_of(data):
    """What is said of a refused file that is something else than a pattern, after a space, or nothing."""
    return next((f" {advice}" for beginning, advice in FOREIGN if beginning.match(data[:512])), "")


def escaped(name):
    """A name without its backslashes and ends of lines."""
    return name.replace(b"\\", b"\\\\").replace(b"\n", b"\\n").replace(b"\r", b"\\r")


def key_line(key, name, is_zero=False):
    """The line of a key."""
    if is_zero:
        return b"%s  %s\0" % (key.encode(), name)
    return b"%s%s  %s\n" % (b"\\" * (escaped(name) != name), key.encode(), escaped(name))


def key_of(text):
    return hashlib.sha256(text).hexdigest()


def words_of(form):
    """The words for a form, which may have a greatest period after its name."""
    name, *most = form.split()
    return ["--form", name, *(["--within", *most] if most else [])]


@functools.cache
def outcome_of(data, form):
    """The status of a file alone, and its key, or why it has none. A text in place of the bytes says why it can't be read."""
    if isinstance(data, str):
        return 3, data
    name, *most = form.split()
    answer = commands.canon(commands.File(data), name, *map(int, most))
    if answer.status == 0:
        return 0, key_of(answer.output)
    *line, kind = answer.fault.split()
    return answer.status, told(kind, " ".join([*line, ""])) + ("" if kind in ("Full", "Memory") else advice_of(data))


def without_generation(data):
    """A file of the same rule and cells, with generation 0: the canonical text of one that isn't refused, without the line of its generation."""
    return re.sub(rb"^#G \d+\n", b"", commands.canon(commands.File(data)).output, flags=re.MULTILINE)


@functools.cache
def outcome_at_start(data, form):
    """The same as if the file gave no generation."""
    outcome = outcome_of(data, form)
    return outcome_of(without_generation(data), form) if outcome[0] == 0 else outcome


# What is said of a file that has a key, and is probably meant otherwise: a macrocell file, and RLE.
RETURN = b"line 1 has a carriage return inside it: the file seems to have lost its line ends, so that most of it is read as a comment"
SQUARES = b"the file has no line of squares, so it is the blank pattern; a macrocell file that lost its line ends looks like this"
COMMENT = b"a line such as `#RB36/S23` or `#G7`, without a space, is a comment here, and a rule or a generation in Golly"
CELLS = b"the header gives the pattern a size, but no cell is alive, so it is the blank pattern; a file that lost its rows looks like this"
CUT = b"the file has no `!`, and fewer rows than its header says; a file that was cut off before its end looks like this"
JOINED = b"another header follows the `!`, and all that follows the `!` is ignored; a file that several patterns were joined into looks like this"


def rows_of(items):
    """How many rows items have: each ends with a `$`, and the last one with the items, if it has a state."""
    *ended, last = re.split(rb"(?<=\$)", items)
    counts = [int(re.search(rb"(\d*)\$$", row)[1] or 1) for row in ended]
    return sum(counts) + (re.search(rb"[^\s\d]", last) is not None)


def warning_of_rle(data):
    """What is said of RLE with a key, or nothing."""
    lines = data.split(b"\n")
    number, header = next((number, line) for number, line in enumerate(lines) if line.startswith(b"x"))
    sizes = re.match(rb"x\s*=\s*(\d+)\s*,\s*y\s*=\s*(\d+)", header).groups()
    if any(it.strip(b"0") for it in sizes) and commands.File(data).pattern.plane.is_blank:
        return CELLS
    behind = lines[number + 1:]
    last = next((at for at, line in enumerate(behind) if b"!" in line and not line.startswith(b"#")), None)
    if last is None:
        return CUT if rows_of(b" ".join(line for line in behind if not line.startswith(b"#"))) < int(sizes[1]) else None
    rest = [behind[last].split(b"!", 1)[1], *behind[last + 1:]]
    return JOINED if any(re.match(rb"[ \t\r]*x[ \t\r]*=", line) for line in rest) else None


def warning_of(data):
    """What is said of a file with a key, or nothing."""
    first, *rest = data.split(b"\n")
    if not first.startswith(b"[M2]"):
        return warning_of_rle(data)
    if b"\r" in first.rstrip(b"\r"):
        return RETURN
    for number, line in enumerate(rest, 1):
        if line.strip(b" \t\r") and line.strip(b" \t\r")[0] not in b"#\v\f":
            return None
        if number < len(rest) and re.match(rb"#(R([BbSs][0-8]|[0-8]*/)|G[0-9])", line):
            return COMMENT
    return SQUARES


def warned(name, data):
    """The line of a warning of a file with a key, or nothing."""
    warning = warning_of(data)
    return b"" if warning is None else b"%s: warning: %s\n" % (escaped(name), warning)


def wanted(files, form="placed", is_zero=False, outcome=outcome_of):
    """The answer of a run over files, each a name and its bytes, or why it can't be read."""
    statuses, output, errors = [0], [], []
    for name, data in files:
        status, said = outcome(data, form)
        statuses.append(status)
        if status == 0:
            output.append(key_line(said, name, is_zero))
            errors.append(warned(name, data))
        else:
            errors.append(b"%s: %s\n" % (escaped(name), said.encode()))
    return Answer(max(statuses), b"".join(output), b"".join(errors))


def problems_of(found, answer):
    """What is wrong with an answer."""
    if answer == MISUSED:
        return [] if found.status == 5 and not found.output and found.error else [repr(found)]
    return [f"the {what} is {ours!r:.400} and not {its!r:.400}" for what, ours, its in zip(Answer._fields, found, answer) if ours != its]


# ---- a folder with files


class Place:
    """A folder in which the program runs, and the files that were put there."""

    def __init__(self, program, folder):
        self.program, self.here = program, folder
        self.files = {}

    def put(self, name, data):
        """Puts a file there. Its name is bytes."""
        with open(os.path.join(os.fsencode(self.here), name), "wb") as it:
            it.write(data)
        self.files[name] = data

    def run(self, words, source=b"", **how):
        return processes.run([self.program, "keys", *words], source, cwd=self.here, timeout=300, **how)

    def shell(self, script, source=b"", **how):
        """What a shell answers, with the program as $program."""
        settings = {**os.environ, "program": self.program, "LC_ALL": "C"}
        return processes.run(["bash", "-c", script], source, cwd=self.here, timeout=300, env=settings, **how)

    def wanted(self, names, form="placed", is_zero=False, outcome=outcome_of):
        """The answer of a run over files of the place, or that are absent."""
        return wanted([(name, self.files.get(name, ABSENT)) for name in names], form, is_zero, outcome)

    def row(self, name, words, answer, source=b"", **how):
        counting.row(name, problems_of(self.run(words, source, **how), answer))


def listed(names, end=b"\n"):
    """A list of names, each with its end."""
    return b"".join(name + end for name in names)


# ---- files, and keys of texts that were worked out by hand

SMALL = {
    b"pair.rle": FILES["pair.rle"],
    b"pair.mc": FILES["pair.mc"],
    b"named.rle": FILES["named.rle"],
    b"blank": FILES["input"],
    b"empty": FILES["empty"],
    b"bad.rle": FILES["bad.rle"],
    b"child.mc": b"[M2]\n#R B3/S23\n....*$$$$$$$$\n4 0 0 0 9\n",
    b"long": b"[M2]\n#" + b"C" * LONGEST + b"\n",
    b"glider": b"x = 3, y = 3\nbo$2bo$3o!\n",
    b"turned": b"#CXRLE Pos=-70,5\nx = 3, y = 3\n3o$o$bo!\n",
    b"shifted": b"#CXRLE Pos=-7,1000\r\nx = 3, y = 3, rule = 23/3\r\nbo$2bo$3o!\r\n",
}
# A phase of the glider.
PHASE = b"#CXRLE Pos=-70,5 Gen=1\nx = 3, y = 3\nbo$b2o$obo!\n"
ORDER = b"pair.rle empty pair.mc absent child.mc glider pair.rle long blank turned shifted bad.rle".split()
GLIDER = LIFE + b"$$$$.....*$......*$....***$$\n"
WORKED = [
    ("placed", b"pair.rle", PAIR_TEXT),
    ("placed", b"pair.mc", PAIR_TEXT),
    ("moved", b"pair.rle", LIFE + b"*$$$$$$$$\n4 1 1 0 0\n5 0 0 0 2\n"),
    ("turned", b"pair.mc", LIFE + b"*$$$$$$$$\n4 1 0 1 0\n5 0 0 0 2\n"),
    ("placed", b"blank", LIFE),
    ("turned", b"blank", LIFE),
    ("placed", b"named.rle", canonical(b"Life") + b"1 0 0 0 1\n"),
    ("placed", b"glider", GLIDER),
    ("moved", b"shifted", GLIDER),
    ("phases", b"blank", LIFE),
    ("phases", b"glider", LIFE + b"$$$$....*$....*.*$....**$$\n"),
    ("phases", b"turned", LIFE + b"$$$$....*$....*.*$....**$$\n"),
]
# What a fault is told as, also worked out by hand.
REFUSED = [
    (b"child.mc", 2, b"child.mc: line 4: BadChild: A child number doesn't refer to an earlier square one level down.\n"),
    (b"empty", 2, b"empty: line 1: NoHeader: The file begins with no header, neither [M2] nor x = .., or it ends before one. "
     b"The file is empty: save it or download it again.\n"),
    (b"bad.rle", 2, b"bad.rle: line 2: StateRange: A state is above 1 under a B/S rule, or above 255 in a macrocell file.\n"),
    (b"long", 2, b"long: line 2: LineTooLong: A line of the file, or of the rule table, has more than 2^20 bytes.\n"),
    (b"absent", 3, b"absent: no such file\n"),
    (b".", 3, b".: is a folder\n"),
    (b"", 3, b": no such file\n"),
    (b"blank/", 3, b"blank/: can't be opened\n"),
    (b"blank/x", 3, b"blank/x: can't be opened\n"),
    (b"none/x", 3, b"none/x: no such file\n"),
    (b"loop", 3, b"loop: can't be opened\n"),
    (b"n" * 300, 3, b"n" * 300 + b": can't be opened\n"),
]


def form_rows(place):
    for form, name, text in WORKED:
        place.row(f"{name.decode()}, {form}, by hand", ["--form", form, name], Answer(0, key_line(key_of(text), name)))
    place.row("no form", ORDER, place.wanted(ORDER))
    for form in FORMS:
        answer = place.wanted(ORDER, form)
        place.row(f"the files in their order, {form}", [*ORDER, "--form", form], answer)
        place.row(f"the same, with the form behind a =, {form}", [f"--form={form}", *ORDER], answer)
        place.row(f"the same, ended by NULs, {form}", ["--zero", *ORDER, "--form", form], place.wanted(ORDER, form, is_zero=True))
    place.put(b"phase", PHASE)
    for form, count in (("placed", 4), ("moved", 3), ("turned", 2), ("phases", 1)):
        keys = {line[:64] for line in place.run(["--form", form, "glider", "shifted", "turned", "phase"]).output.splitlines()}
        counting.row(f"keys of a glider, one that was moved, one that was turned, and a phase, {form}", [repr(keys)] if len(keys) != count else [])
    for most, count in ((3, 2), (4, 1), (2**64 - 1, 1)):
        keys = {line[:64] for line in place.run(["--within", str(most), "--form", "phases", "glider", "phase"]).output.splitlines()}
        counting.row(f"keys of two phases of a glider, up to {most}", [repr(keys)] if len(keys) != count else [])


# Files that give a generation, of a pattern that is above without one.
LATER = {
    b"later.rle": b"#CXRLE Pos=-4,0 Gen=7\nx = 9, y = 1, rule = 23/3\no7bo!\n",
    b"later.mc": b"[M2]\n#R B3/S23\n#G 12\n....*$\n....*$\n4 0 0 1 2\n",
    b"last.rle": b"#CXRLE Pos=-4,0 Gen=18446744073709551615\nx = 9, y = 1, rule = 23/3\no7bo!\n",
    b"none.mc": b"[M2]\n#R B3/S23\n#G 0\n....*$\n....*$\n4 0 0 1 2\n",
    b"later_named.rle": b"#CXRLE Gen=3\nx = 1, y = 1, rule = Life\no!\n",
    b"later_blank.mc": b"[M2]\n#G 5\n",
    b"beyond.rle": b"#CXRLE Gen=18446744073709551616\nx = 9, y = 1, rule = 23/3\no7bo!\n",
    b"refused.mc": b"[M2]\n#R B3/S23\n#G 12\n....*$\n4 0 0 0 9\n",
}
# Their texts without a generation.
LATER_WORKED = [
    ("placed", b"later.rle", PAIR_TEXT), ("placed", b"later.mc", PAIR_TEXT), ("placed", b"last.rle", PAIR_TEXT), ("placed", b"none.mc", PAIR_TEXT),
    ("moved", b"later.rle", WORKED[2][2]), ("turned", b"later.mc", WORKED[3][2]), ("turned", b"last.rle", WORKED[3][2]),
    ("placed", b"later_named.rle", WORKED[6][2]), ("placed", b"later_blank.mc", LIFE), ("moved", b"later_blank.mc", LIFE),
]


def generation_rows(place):
    for name, data in LATER.items():
        place.put(name, data)
    option = AT_START
    for form, name, text in WORKED + LATER_WORKED:
        answer = Answer(0, key_line(key_of(text), name), warned(name, place.files[name]))
        place.row(f"{name.decode()} without its generation, {form}, by hand", [option, "--form", form, name], answer)
    names = [*ORDER, *LATER]
    for form in FORMS:
        ignored = place.wanted(names, form, outcome=outcome_at_start)
        place.row(f"files without their generations, {form}", [*names, "--form", form, option], ignored)
        place.row(f"the same, of a list, {form}", [option, "--form", form, "--from", "-"], ignored, listed(names))
        place.row(f"the same, ended by NULs, {form}", ["--zero", option, "--form", form, *names],
                  place.wanted(names, form, is_zero=True, outcome=outcome_at_start))
        place.row(f"the same with their generations, {form}", [*names, "--form", form], place.wanted(names, form))
        pairs = [b"pair.rle", b"pair.mc", b"later.rle", b"later.mc", b"last.rle", b"none.mc"]
        keys = [len({line[:64] for line in place.run([*pairs, "--form", form, *more]).output.splitlines()}) for more in ([], [option])]
        counting.row(f"keys of a pattern in four generations, {form}", [] if keys == [1 if form == "phases" else 4, 1] else [repr(keys)])
        found = place.run(["--json", option, "--form", form, *names])
        files = [(name, place.files.get(name, ABSENT)) for name in names]
        counting.row(f"the objects of files without their generations, {form}", object_problems(found, files, form, outcome_at_start))
    place.row("standard input without its generation", [option, "-"], wanted([(b"-", LATER[b"later.mc"])], outcome=outcome_at_start), LATER[b"later.mc"])
    for words in ([option + "=yes", "blank"], [option, "blank", option], ["--ignore", "blank"], [option]):
        place.row(f"an option that is misused: {' '.join(words)}", words, MISUSED)


def refused_rows(place):
    os.symlink("loop", os.path.join(place.here, "loop"))
    for name, status, error in REFUSED:
        place.row(f"{name[:20].decode()!r} is told", [name], Answer(status, b"", error))
        line = key_line(key_of(PAIR_TEXT), b"pair.rle")
        place.row(f"{name[:20].decode()!r} is passed over", ["pair.rle", name, "pair.rle"], Answer(status, line + line, error))
    for name, names in (("first", [b"absent", b"child.mc", b"pair.rle"]), ("last", [b"pair.rle", b"child.mc", b"absent"])):
        place.row(f"the greater status comes {name}", names, place.wanted(names)._replace(status=3))
    os.mkdir(os.path.join(place.here, "locked"), 0)
    place.put(b"unread", PAIR_TEXT)
    os.chmod(os.path.join(place.here, "unread"), 0)
    names = [b"unread", b"locked/x", b"pair.mc"]
    answer = wanted([(b"unread", LOCKED), (b"locked/x", LOCKED), (b"pair.mc", SMALL[b"pair.mc"])])
    # Root may read every file, so root tries this one as nobody.
    place.row("files that may not be read", names, answer, **({"user": 65534, "group": 65534, "extra_groups": []} if os.getuid() == 0 else {}))


def standard_input_rows(place):
    answer = wanted([(b"pair.mc", SMALL[b"pair.mc"]), (b"-", SMALL[b"glider"]), (b"blank", SMALL[b"blank"])])
    place.row("- is standard input", ["pair.mc", "-", "blank"], answer, SMALL[b"glider"])
    place.row("- is standard input behind --", ["--", "pair.mc", "-", "blank"], answer, SMALL[b"glider"])
    place.row("a refused standard input", ["-", "blank"], wanted([(b"-", b"o!\n"), (b"blank", SMALL[b"blank"])]), b"o!\n")
    answer = wanted([(b"blank", SMALL[b"blank"]), (b"-", FOLDER)])
    counting.row("a folder as standard input", problems_of(place.shell('"$program" keys blank - < .'), answer))
    for words in (["-", "-"], ["-", "--from", "-"], ["--from", "-", "blank", "-"], ["-", "blank", "-", "absent"]):
        place.row(f"standard input twice: {' '.join(words)}", words, Answer(5, b"", b"TwoInputs\n"), SMALL[b"blank"])


# ---- lists


def list_rows(place):
    for form, end, more in itertools.product(("placed", "turned"), (b"\n", b"\0"), ([], ["glider", "child.mc"])):
        is_zero = end == b"\0"
        words = ["--form", form, *more, *(["--zero"] if is_zero else [])]
        answer = place.wanted([*map(str.encode, more), *ORDER], form, is_zero)
        name = f"{form}, ends {end!r}, {len(more)} files before"
        place.put(b"list", listed(ORDER, end))
        place.row(f"a list: {name}", ["--from", "list", *words], answer)
        place.row(f"a list from standard input: {name}", [*words, "--from", "-"], answer, listed(ORDER, end))
        place.row(f"a list whose last name has no end: {name}", [*words, "--from=-"], answer, listed(ORDER, end)[:-1])
        place.row(f"empty names in a list: {name}", [*words, "--from", "-"], answer, end * 3 + listed(ORDER, end + end))
    place.row("an empty list", ["--from", "-"], Answer(0))
    place.row("a list of ends", ["--from", "-"], Answer(0), b"\n\n\n")
    place.row("an empty list behind a file", ["blank", "--from", "-"], place.wanted([b"blank"]))
    place.put(b"-", SMALL[b"glider"])
    place.row("the file - in a list", ["--from", "-"], place.wanted([b"-", b"blank", b"-"]), b"-\nblank\n-\n")
    place.put(b"dash", b"-\n")
    answer = wanted([(b"-", SMALL[b"blank"]), (b"-", SMALL[b"glider"])])
    place.row("the file - in a list, and standard input", ["-", "--from", "dash"], answer, SMALL[b"blank"])
    place.put(b"itself", b"itself\nblank\n")
    place.row("a list that names itself", ["--from", "itself"], place.wanted([b"itself", b"blank"]))
    # A list that is a pattern: its first name is that of the header.
    place.put(b"[M2]", SMALL[b"glider"])
    place.put(b"#itself", b"[M2]\n#itself\n")
    place.row("a list that is a pattern and names itself", ["--from", "#itself"], place.wanted([b"[M2]", b"#itself"]))
    place.row("a name of an LF list with a CR behind it", ["--from", "-"], wanted([(b"blank\r", ABSENT)]), b"blank\r\n")
    answer = wanted([(b"blank\0x", OTHER), (b"blank", SMALL[b"blank"])])
    place.row("a name of an LF list with a NUL in it", ["--from", "-"], answer, b"blank\0x\nblank\n")
    place.row("an option in a list is a name", ["--from", "-"], wanted([(b"--zero", ABSENT), (b"--", ABSENT)]), b"--zero\n--\n")
    for name, words in (("absent", ["--from", "absent"]), ("a folder", ["--from", "."]), ("absent, behind a file", ["blank", "--from", "absent"])):
        place.row(f"a list that can't be read: {name}", words, Answer(3, b"", b"ReadFault\n"))


# ---- streams

# How many bytes of a stream are read at once.
CHUNK = 65536


def numbered(pieces):
    """The patterns of a stream as files: each has its number for a name."""
    return [(b"%d" % number, data) for number, data in enumerate(pieces, 1)]


def padded(data, length):
    """A pattern of so many bytes: a comment is put before the first line."""
    return b"#C" + b"c" * (length - len(data) - 3) + b"\n" + data


def stream_rows(place):
    glider, pair = SMALL[b"glider"], SMALL[b"pair.mc"]
    pieces = [*SMALL.values(), b"", *LATER.values(), b"\x1f\x8bx", b"<html>", b"x = 2, y = 2\n2o$\n", glider + glider]
    for form, more, last in itertools.product(FORMS, ([], [AT_START]), ([], [pair], [b"bad"])):
        outcome = outcome_at_start if more else outcome_of
        files = numbered(pieces + last)
        stream = listed(pieces, b"\0") + b"".join(last)
        words = ["--form", form, *more]
        name = f"{form}, {' '.join(more) or 'with generations'}, {len(last)} pattern without its end"
        place.row(f"a stream: {name}", [*words, "--stream", "-"], wanted(files, form, outcome=outcome), stream)
        place.row(f"a stream whose keys end in NUL: {name}", ["--zero", "--stream=-", *words], wanted(files, form, True, outcome), stream)
        found = place.run(["--json", "--stream", "-", *words], stream)
        counting.row(f"the objects of a stream: {name}", object_problems(found, files, form, outcome))
        place.put(b"stream", stream)
        place.row(f"a stream in a file: {name}", [*words, "--stream", "stream"], wanted(files, form, outcome=outcome))
    for name, stream, given in (("empty", b"", []), ("one NUL", b"\0", [b""]), ("NULs alone", b"\0\0\0", [b"", b"", b""]), ("one pattern", glider, [glider]),
                                ("one pattern and its end", glider + b"\0", [glider]), ("nothing between two", glider + b"\0\0" + glider, [glider, b"", glider])):
        place.row(f"a stream: {name}", ["--stream", "-"], wanted(numbered(given)), stream)
        counting.row(f"its objects: {name}", object_problems(place.run(["--json", "--stream", "-"], stream), numbered(given)) if given else [])
    for length in range(CHUNK - 3, CHUNK + 3):
        given = [padded(glider, length), pair, padded(pair[5:], 2 * CHUNK - length), glider, padded(glider, 3 * CHUNK)]
        place.row(f"a pattern of {length} bytes", ["--stream", "-"], wanted(numbered(given)), listed(given, b"\0"))
    for name, why in (("absent", ABSENT), (".", FOLDER)):
        place.row(f"a stream that can't be opened: {name}", ["--stream", name], wanted([(name.encode(), why)]))
        counting.row(f"its object: {name}", object_problems(place.run(["--json", "--stream", name]), [(name.encode(), why)]))
    slow = "; ".join(f"printf '{part}'; sleep 0.05" for part in ("x = 3, y =", " 3\\nbo$2b", "o$3o!\\0x", " = 1, y = 1\\no!", "\\0"))
    answer = wanted(numbered([glider[:-1], b"x = 1, y = 1\no!"]))
    counting.row("a stream that comes slowly", problems_of(place.shell(f'({slow}) | "$program" keys --stream -'), answer))
    for words in (["--stream"], ["--stream", "-", "glider"], ["glider", "--stream", "-"], ["--stream", "-", "--from", "list"], ["--stream", "-", "-r"],
                  ["--stream", "-", "--stream", "-"], ["--stream", "-", "-"], ["--stream", "-", "--form", "mirrored"]):
        place.row(f"a stream that is misused: {' '.join(words)}", words, MISUSED, glider)
    device_answers_of_stream(place, glider)


def device_answers_of_stream(place, glider):
    """A stream whose keys nobody takes, whose reader leaves, and one that is interrupted: what came before is whole."""
    place.put(b"stream", listed([glider] * 1000, b"\0"))
    counting.row("a stream on a full output", problems_of(place.shell('"$program" keys --stream stream > /dev/full'), Answer(3, b"", b"WriteFault\n")))
    found = place.shell('"$program" keys --stream stream | head -n 1; exit ${PIPESTATUS[0]}')
    counting.row("a stream whose reader leaves", problems_of(found, Answer(3, key_line(key_of(GLIDER), b"1"), b"")))
    with subprocess.Popen([place.program, "keys", "--stream", "-"], stdin=subprocess.PIPE, stdout=subprocess.PIPE, stderr=subprocess.PIPE, bufsize=0) as it:
        lines = []
        for _ in range(3):
            it.stdin.write(glider + b"\0")
            lines.append(it.stdout.readline())
        it.send_signal(signal.SIGINT)
        left = it.stdout.read() + it.stderr.read()
        status = it.wait(timeout=60)
    right = [key_line(key_of(GLIDER), b"%d" % number) for number in (1, 2, 3)]
    counting.row("each key is written as soon as its pattern has ended", [] if lines == right else [repr(lines)])
    counting.row("a stream that is interrupted", [] if status == -signal.SIGINT and not left else [repr((status, left))])


# ---- names

ODD = [b"back\\slash", b"line\nfeed", b"carriage\rreturn", b"tab\tname", "\u00e9t\u00e9 \u4e2d\u6587 \U0001f600".encode(), b" spaces ", b"*star",
       b"\\", b"\n", b"\\n", b"'quoted'", b'"both"', b"$(no)", b"-dash", b"--form", b"\x1b[31m", b"a" * 255, b"x\n\n\r\\y"]
NO_TEXT = [b"\xff", b"caf\xe9", b"a\xffb\nc\\", b"\xed\xa0\x80"]


def name_rows(place, texts):
    """Names that are odd, also beside what `sha256sum` writes of files of these names in another folder, which hold the canonical texts."""
    contents = itertools.cycle([SMALL[b"pair.rle"], SMALL[b"glider"], SMALL[b"pair.mc"]])
    for name, data in zip([*ODD, *NO_TEXT], contents):
        place.put(name, data)
        with open(os.path.join(os.fsencode(texts), name), "wb") as it:
            it.write(commands.canon(commands.File(data)).output)
    for is_zero in (False, True):
        words = [*(["--zero"] if is_zero else []), "--", *ODD]
        answer = place.wanted(ODD, is_zero=is_zero)
        theirs = processes.run(["sha256sum", *words], cwd=texts)
        how = "ended by NULs" if is_zero else "ended by LFs"
        place.row(f"odd names, {how}", words, answer)
        counting.row(f"the lines of sha256sum, {how}", problems_of(theirs, answer))
        missing = [name + b"?" for name in ODD if len(name) < 255]
        place.row(f"odd names that are absent, {how}", [*words[:-len(ODD)], *missing], wanted([(name, ABSENT) for name in missing]))
    place.row("odd names in a list", ["--zero", "--from", "-"], place.wanted(ODD, is_zero=True), listed(ODD, b"\0"))
    simple = [name for name in ODD if b"\n" not in name]
    place.row("odd names in a list of lines", ["--from", "-"], place.wanted(simple), listed(simple))
    names = [NO_TEXT[0], ODD[0], *NO_TEXT[1:], ODD[4]]
    files = [(name, NO_NAME if name in NO_TEXT else place.files[name]) for name in names]
    place.row("names in a list that are no UTF-8", ["--zero", "--from", "-"], wanted(files, is_zero=True), listed(names, b"\0"))
    place.row("a word that is no UTF-8", ["pair.rle", NO_TEXT[0]], wanted([(b"pair.rle", SMALL[b"pair.rle"]), ("\ufffd".encode(), NO_NAME)]))


# ---- objects

# What an object says of a file by its text alone, worked out by hand.
OBJECTS = [
    (b"pair.rle", 0, b'{"name":"pair.rle","key":"%s"}\n' % key_of(PAIR_TEXT).encode()),
    (b"child.mc", 2, b'{"name":"child.mc","kind":"BadChild","line":4,"reason":'
     b'"A child number doesn\'t refer to an earlier square one level down."}\n'),
    (b"absent", 3, b'{"name":"absent","kind":"ReadFault","reason":"no such file"}\n'),
    (b".", 3, b'{"name":".","kind":"ReadFault","reason":"is a folder"}\n'),
    (b'q"u\\o', 3, b'{"name":"q\\"u\\\\o","kind":"ReadFault","reason":"no such file"}\n'),
    (bytes(range(1, 32)), 3, b'{"name":"\\u0001\\u0002\\u0003\\u0004\\u0005\\u0006\\u0007\\b\\t\\n\\u000b\\f\\r\\u000e\\u000f\\u0010\\u0011'
     b'\\u0012\\u0013\\u0014\\u0015\\u0016\\u0017\\u0018\\u0019\\u001a\\u001b\\u001c\\u001d\\u001e\\u001f","kind":"ReadFault","reason":"no such file"}\n'),
    ("\u00e9\x7f\u2028\U0001f600".encode(), 3, '{"name":"\u00e9\x7f\u2028\U0001f600","kind":"ReadFault","reason":"no such file"}\n'.encode()),
]
OBJECT_DEVICES = [
    ("the object of a file for which there is no memory", 'ulimit -v 12000; "$program" keys --json large',
     Answer(4, b'{"name":"large","kind":"Memory","reason":"Memory was refused."}\n')),
    ("objects on a full output", '"$program" keys --json absent pair.mc > /dev/full', Answer(3, b"", b"WriteFault\n")),
]


def object_of(name, data, form="placed", outcome=outcome_of):
    """The object of a file, as Python has it."""
    status, said = outcome(data, form)
    name = name.decode(errors="replace")
    if status == 0:
        return {"name": name, "key": said}
    if isinstance(data, str):
        return {"name": name, "kind": "ReadFault", "reason": said}
    line, kind, reason = re.fullmatch(r"(?:line (\d+): )?(\w+): (.*)", said).groups()
    return {"name": name, "kind": kind, **({"line": int(line)} if line else {}), "reason": reason}


def object_problems(found, files, form="placed", outcome=outcome_of):
    """What is wrong with the answer of a run with --json over files, each a name and its bytes, or why it can't be read."""
    # The names of members are held to their order, and each object to a line.
    ours = [list(json.loads(line).items()) for line in found.output.decode().split("\n")[:-1]]
    its = [list(object_of(name, data, form, outcome).items()) for name, data in files]
    status = max((outcome(data, form)[0] for _, data in files), default=0)
    errors = b"".join(warned(name, data) for name, data in files if outcome(data, form)[0] == 0)
    return [f"{a!r:.300} and not {b!r:.300}" for a, b in itertools.zip_longest(ours, its) if a != b] + (
        [] if found.output.endswith(b"\n") or not files else ["the last object has no end"]) + problems_of(
        found._replace(output=b""), Answer(status, b"", errors))


def object_rows(place):
    for name, status, text in OBJECTS:
        place.row(f"the object of {name[:20]!r}", ["--json", name], Answer(status, text))
    files = [(name, place.files.get(name, ABSENT)) for name in ORDER]
    for form in FORMS:
        found = place.run(["--json", "--form", form, *ORDER])
        counting.row(f"the objects of the files in their order, {form}", object_problems(found, files, form))
    place.row("no object of no file", ["--json", "--from", "-"], Answer(0))
    place.row("no object where the list can't be read", ["--json", "blank", "--from", "absent"], Answer(3, b"", b"ReadFault\n"))
    found = place.run(["pair.rle", NO_TEXT[0], "--json"])
    counting.row("the object of a word that is no UTF-8", object_problems(found, [(b"pair.rle", SMALL[b"pair.rle"]), (NO_TEXT[0], NO_NAME)]))
    found = place.run(["--json", "-", "blank"], b"o!\n")
    counting.row("the object of a refused standard input", object_problems(found, [(b"-", b"o!\n"), (b"blank", SMALL[b"blank"])]))
    # A file that is refused is warned of no more than without --json.
    for name, data in ((b"one-line.mc", b"[M2]\r....*$$$$$$$$\r"), (b"one-line-refused.mc", b"[M2]\r....*$$$$$$$$\r\nx\n")):
        place.put(name, data)
        counting.row(f"warnings in addition to objects: {name.decode()}", object_problems(place.run(["--json", name]), [(name, data)]))
    place.put(b"large", leaves(400_000))
    for name, script, answer in OBJECT_DEVICES:
        counting.row(name, problems_of(place.shell(script), answer))


def odd_object_rows(place):
    found = place.run(["--json", "--", *ODD])
    counting.row("the objects of odd names", object_problems(found, [(name, place.files[name]) for name in ODD]))
    names = [*ODD, *NO_TEXT, b"\xffe\xc3", *[bytes([byte]) for byte in range(128, 256)]]
    listed_files = [(name, NO_NAME if name.decode(errors="replace").encode() != name else place.files[name]) for name in names]
    found = place.run(["--json", "--zero", "--from", "-"], listed(names, b"\0"))
    counting.row("the objects of names that end in NUL, some of which are no UTF-8", object_problems(found, listed_files))


# ---- words

MISUSES = [
    ("no file", []), ("no file, but a form", ["--form", "moved"]), ("no file, but NULs", ["--zero"]),
    ("a greatest period of 0", ["--form", "phases", "--within", "0", "blank"]), ("a greatest period for another form", ["--within", "9", "blank"]),
    ("a form that isn't there", ["--form", "still", "blank"]), ("a form twice", ["--form", "moved", "--form", "moved", "blank"]),
    ("a list without its name", ["blank", "--from"]),
    ("a list twice", ["--from", "blank", "--from", "blank"]), ("an option of another command", ["blank", "--to", "mc"]),
    ("an option that isn't there", ["blank", "--fast"]), ("a value for --zero", ["--zero=yes", "blank"]),
    ("no file, but objects", ["--json"]), ("objects twice", ["--json", "blank", "--json"]),
]


def word_rows(place):
    for name, words in MISUSES:
        place.row(name, words, MISUSED)
    for words in (["--help"], ["-h"]):
        found = place.run(words)
        right = found.status == 0 and not found.error and b"Usage: golly_canon keys [OPTIONS]" in found.output
        counting.row(f"keys {words[0]}", [] if right else [repr(found)[:300]])


# ---- devices and files that change


def leaves(count):
    """A macrocell file with as many different leaves."""
    lines = (b"".join(ROWS[byte] for byte in number.to_bytes(8, "big")) for number in range(1, count + 1))
    return b"[M2]\n" + b"\n".join(lines) + b"\n"


PAIR, BLANK = key_line(key_of(PAIR_TEXT), b"pair.mc"), key_line(key_of(LIFE), b"blank")
MEMORY = b"large: Memory: Memory was refused.\n"
WRITE_FAULT = Answer(3, b"", b"WriteFault\n")
# Scripts of bash, and what they answer.
DEVICES = [
    ("a full output", '"$program" keys pair.mc blank > /dev/full', WRITE_FAULT),
    ("a full output behind a refused file", '"$program" keys absent pair.mc > /dev/full', Answer(3, b"", REFUSED[4][2] + b"WriteFault\n")),
    ("a closed output", '"$program" keys pair.mc blank >&-', WRITE_FAULT),
    ("a closed output that nothing is written to", '"$program" keys absent >&-', Answer(3, b"", REFUSED[4][2])),
    ("a full standard error", '"$program" keys absent pair.mc 2> /dev/full', Answer(3, PAIR)),
    ("a closed standard error", '"$program" keys child.mc pair.mc 2>&-', Answer(2, PAIR)),
    ("a list from a closed standard input", '"$program" keys --from - <&-', Answer(3, b"", b"ReadFault\n")),
    ("a closed standard input that isn't read", '"$program" keys pair.mc <&-', Answer(0, PAIR)),
    ("a closed standard input", '"$program" keys - pair.mc <&-', Answer(3, PAIR, b"-: can't be opened\n")),
    ("a closed standard input and a closed standard error", '"$program" keys pair.mc - <&- 2>&-', Answer(3, PAIR)),
    ("a closed standard input, and a folder by its name", '"$program" keys - . <&-', Answer(3, b"", b"-: can't be opened\n.: is a folder\n")),
    ("a pipe by its name", 'mkfifo pipe; cat pair.mc > pipe & "$program" keys pipe blank; status=$?; rm pipe; exit $status',
     Answer(0, PAIR.replace(b"pair.mc", b"pipe") + BLANK)),
    ("a list that is a pipe", 'mkfifo pipe; echo blank > pipe & "$program" keys pair.mc --from pipe; status=$?; rm pipe; exit $status',
     Answer(0, PAIR + BLANK)),
    # The program waits in the pipe, and takes what comes behind it as it is then.
    ("a file that is removed while the run waits", """mkfifo pipe; cp blank gone
        "$program" keys pipe gone put blank & exec 3> pipe; rm gone pipe; cp blank put
        cat pair.mc >&3; exec 3>&-; wait $!; status=$?; rm put; exit $status""",
     Answer(3, PAIR.replace(b"pair.mc", b"pipe") + BLANK.replace(b"blank", b"put") + BLANK, b"gone: no such file\n")),
    ("a list is read whole before a file is opened", """cp blank late; { echo late; rm late; echo pair.mc; } | "$program" keys --from -""",
     Answer(3, PAIR, b"late: no such file\n")),
    ("a file for which there is no memory", 'ulimit -v 12000; "$program" keys pair.mc large blank', Answer(4, PAIR + BLANK, MEMORY)),
    ("the greatest status", 'ulimit -v 12000; "$program" keys child.mc large absent blank', Answer(4, BLANK, REFUSED[0][2] + MEMORY + REFUSED[4][2])),
    ("a file of more than 2^30 bytes", 'truncate -s 1073741825 huge; "$program" keys pair.mc huge blank; status=$?; rm huge; exit $status',
     Answer(2, PAIR + BLANK, b"huge: InputTooLong: A file has more than 2^30 bytes. This isn't a text file, so it is no pattern file.\n")),
]


def device_rows(place):
    place.put(b"large", leaves(400_000))
    for name, script, answer in DEVICES:
        counting.row(name, problems_of(place.shell(script), answer))
    # More lines than a pipe holds.
    names = [b"pair.mc", b"absent"] * 20_000
    place.put(b"list", listed(names))
    found = place.shell('"$program" keys --from list | head -n 1; exit ${PIPESTATUS[0]}')
    right = (found.status, found.output) == (3, PAIR) and re.fullmatch(rb"(absent: no such file\n)*", found.error)
    counting.row("a reader that leaves after a line", [] if right and len(found.error) < 400_000 else [repr(found)[:300]])


# ---- the line of progress

HELD = 1.1  # for how many seconds a run is held: more than the second after which the line is shown
CLEARED = b"\r\x1b[K"


def read_all(end):
    """What comes out of a terminal or a pipe until nobody writes to it."""
    found = b""
    while True:
        try:
            data = os.read(end, 1 << 16)
        except OSError:  # so ends a terminal
            data = b""
        if not data:
            os.close(end)
            return found
        found += data


def on_terminal(place, words, held, shared=False):
    """A run whose standard error is a terminal, and so is its standard output if that is shared. The pipe named `pipe` among its files is fed so many seconds
    after the run has opened it, however late that is."""
    end, terminal = pty.openpty()
    tty.setraw(terminal)  # no end of a line is turned into two bytes
    pipe = os.path.join(place.here, "pipe")
    os.mkfifo(pipe)
    with tempfile.TemporaryFile() as output:
        streams = {"stdin": subprocess.DEVNULL, "stdout": terminal if shared else output, "stderr": terminal}
        with subprocess.Popen([place.program, "keys", *words], cwd=place.here, **streams) as run:
            os.close(terminal)
            with open(pipe, "wb") as it:
                time.sleep(held)
                it.write(SMALL[b"pair.mc"])
            errors = read_all(end)
        os.remove(pipe)
        output.seek(0)
        return Answer(run.returncode, output.read(), errors)


def progress_rows(place):
    place.put(b"names", b"pipe\nblank\nabsent\nblank\n")
    held = PAIR.replace(b"pair.mc", b"pipe")
    absent = REFUSED[4][2]
    words = ["pipe", "blank", "absent", "blank"]
    for name, more, seconds, answer in (
        ("a run that is held", ["pipe", "blank"], HELD, Answer(0, held + BLANK, PIPE + b"\r1 of 2 files" + CLEARED)),
        ("cleared before a fault", words, HELD, Answer(3, held + BLANK + BLANK, PIPE + b"\r1 of 4 files" + CLEARED + absent)),
        ("a list", ["--from", "names"], HELD, Answer(3, held + BLANK + BLANK, PIPE + b"\r1 of 4 files" + CLEARED + absent)),
        ("a quick run", words, 0, Answer(3, held + BLANK + BLANK, PIPE + absent)),
    ):
        counting.row(f"progress on a terminal: {name}", problems_of(on_terminal(place, more, seconds), answer))
    shown = b"\r1 of 4 files" + CLEARED
    answer = Answer(3, b"", PIPE + held + shown + BLANK + absent + BLANK)
    counting.row("progress on a terminal: cleared before a key", problems_of(on_terminal(place, words, HELD, shared=True), answer))
    answer = Answer(3, held + BLANK + BLANK, absent)
    script = f'mkfifo pipe; {{ sleep {HELD}; cat pair.mc; }} > pipe & "$program" keys {" ".join(words)}; status=$?; rm pipe; exit $status'
    counting.row("no progress without a terminal", problems_of(place.shell(script), answer))


# ---- random files

MOST_TURNED = 2**9  # cells of a pattern that the reader turns without taking long


def image_of(data, number):
    """The file of a turned, reflected and shifted image of a pattern, or the same file where that is refused or large."""
    file = commands.File(data)
    if isinstance(file.reading, commands.Fault) or not 0 < file.pattern.plane.population <= MOST_TURNED:
        return data
    image = list(forms.images(cells_of(file.pattern.plane)))[number % 8]
    cells = sorted(forms.moved(image), key=lambda cell: (cell[1], cell[0]))
    return rle_text(file.pattern.rule, file.pattern.generation, cells)


def random_pattern(seed, number):
    """A random file of either format, about a third of them refused. Of five files one is the one before in another spelling, and one is an image."""
    place = number % 5
    case = compare.random_case(seed, number - max(0, place - 2))
    if place == 3 and case.respelling is not None:
        return case.respelling
    return image_of(case.pattern, number) if place == 4 else case.pattern


def random_outcomes(given):
    """A random file, and its outcome in each form, or None where the reader would take long."""
    data = random_pattern(*given)
    is_slow = compare.has_slow_form(commands.File(data))
    forms_of = {False: RANDOM_FORMS, True: ("placed",)}[is_slow]
    counted = {form: outcome_of(data, form) for form in forms_of}
    return data, {**dict.fromkeys(RANDOM_FORMS), **counted, **{(form, AT_START): outcome_at_start(data, form) for form in forms_of}}


def answer_of_random(named, files):
    """The answer of a run over some of these files, each with its outcome."""
    return Answer(
        max(status for status, _ in named.values()),
        b"".join(key_line(said, name) for name, (status, said) in named.items() if status == 0),
        b"".join(b"%s: %s\n" % (name, said.encode()) if status else warned(name, files[name][0]) for name, (status, said) in named.items()),
    )


def random_rows(place, seed, count):
    with multiprocessing.Pool() as pool:
        found = pool.map(random_outcomes, [(seed, number) for number in range(count)], 8)
    files = {b"%d.%s" % (number, b"mc" if data.startswith(b"[M2]") else b"rle"): (data, outcomes) for number, (data, outcomes) in enumerate(found)}
    for name, (data, _) in files.items():
        place.put(name, data)
    counts = []
    for form in RANDOM_FORMS:
        named = {name: outcomes[form] for name, (_, outcomes) in files.items() if outcomes[form] is not None}
        answer = answer_of_random(named, files)
        run = place.run([*words_of(form), "--from", "-"], listed(named))
        keys, lines, their = answer.output.splitlines(), run.output.splitlines(), set(run.error.splitlines())
        wrong = [line for line in keys if line not in lines] + [line for line in answer.error.splitlines() if line not in their]
        different = len({line[:64] for line in keys})
        problems = problems_of(run, answer) + [repr(it) for it in wrong[:3]]
        counting.row(f"{len(named)} random files, {form}: {len(keys)} keys, {different} different", problems)
        counts.append(different)
        counting.row(f"some of them are refused and some doubles, {form}", [] if different < len(keys) < len(named) else ["they are not"])
        double = [line for line in sorted(keys) if sum(other[:64] == line[:64] for other in keys) > 1]
        found = place.shell(f'"$program" keys {" ".join(words_of(form))} --from - 2> told | sort | uniq -w 64 -D', listed(named))
        counting.row(f"their doubles by uniq, {form}", problems_of(found, Answer(0, b"".join(line + b"\n" for line in double))))
    for form in RANDOM_FORMS:
        named = {name: outcomes[form, AT_START] for name, (_, outcomes) in files.items() if (form, AT_START) in outcomes}
        answer = answer_of_random(named, files)
        counting.row(f"{len(named)} random files without their generations, {form}",
                     problems_of(place.run([AT_START, *words_of(form), "--from", "-"], listed(named)), answer))
        pieces = {b"%d" % number: files[name] for number, name in enumerate((name for name in named if b"\0" not in files[name][0]), 1)}
        stream = listed([data for data, _ in pieces.values()], b"\0")
        for words, chosen in (([], form), ([AT_START], (form, AT_START))):
            answer = answer_of_random({number: outcomes[chosen] for number, (_, outcomes) in pieces.items()}, pieces)
            counting.row(f"{len(pieces)} random patterns of a stream, {' '.join([form, *words])}",
                         problems_of(place.run([*words, *words_of(form), "--stream", "-"], stream), answer))
    counting.row("some of them are moved, some turned, and some alike but for that", [] if counts[0] > counts[1] > counts[2] >= counts[3] else [repr(counts)])


# ---- many names


def many_rows(place, measured):
    """A list of many names of few files, and what it takes."""
    names = [name for name in SMALL if name != b"long"]
    few = [names[number % len(names)] for number in range(NAMES)]
    answer = wanted([(name, SMALL[name]) for name in few])
    place.put(b"list", listed(few))
    words = [CLOCK, "-q", "-f", "%e %M %U %S", "-o", measured, place.program, "keys", "--from", "list"]
    found = processes.run(words, cwd=place.here, timeout=300)
    counting.row(f"{NAMES} names of {len(names)} files", problems_of(found, answer))
    with open(measured, encoding="utf-8") as it:
        elapsed, kilobytes, user, system = map(float, it.read().split())
    bound = LITTLE + TIMES * len(listed(few))
    took = f": {elapsed} s, {user + system:.2f} s of processor time, {kilobytes / 1024:.1f} MB"
    counting.row("the time that they take", [] if user + system < SECONDS else [took], took)
    counting.row("the memory that they take", [] if 1024 * kilobytes < bound else [f"{took}, and {bound} bytes are the bound"], took)


def times_of(place, measured, words, answer):
    """The seconds of processor time and the bytes of memory that a run takes, and what is wrong with its answer."""
    clocked = [CLOCK, "-q", "-f", "%M %U %S", "-o", measured, place.program, "keys", *words]
    problems = problems_of(processes.run(clocked, cwd=place.here, timeout=300), answer)
    with open(measured, encoding="utf-8") as it:
        kilobytes, user, system = map(float, it.read().split())
    return user + system, 1024 * kilobytes, problems


def many_pieces_rows(place, measured):
    """A stream of many small patterns, and what it takes beside as many files."""
    chance = random.Random("many")
    rows = [[bytes(chance.choice(b"bo") for _ in range(8)) for _ in range(8)] for _ in range(NAMES // 100)]
    some = [b"x = 8, y = 8, rule = B3/S23\n%s!\n" % b"$".join(soup) for soup in rows]
    names = [b"soup%d" % number for number in range(len(some))]
    for name, data in zip(names, some):
        place.put(name, data)
    keys = [outcome_of(data, "placed")[1] for data in some]
    place.put(b"list", listed(names * 100))
    of_files = Answer(0, b"".join(key_line(key, name) for key, name in zip(keys * 100, names * 100)), b"")
    place.put(b"stream", listed(some * 100, b"\0"))
    of_stream = Answer(0, b"".join(key_line(key, b"%d" % number) for number, key in enumerate(keys * 100, 1)), b"")
    files = stream = float("inf")
    memory, wrong_files, wrong_stream = 0, [], []
    for turn in range(1, TURNS + 1):
        seconds, _, problems = times_of(place, measured, ["--from", "list"], of_files)
        files, wrong_files = min(files, seconds), wrong_files + problems
        seconds, most, problems = times_of(place, measured, ["--stream", "stream"], of_stream)
        stream, memory, wrong_stream = min(stream, seconds), max(memory, most), wrong_stream + problems
        if stream <= STREAM_SHARE * files:
            break
    counting.row(f"{NAMES} files of 8 x 8 cells", wrong_files)
    counting.row(f"{NAMES} patterns of 8 x 8 cells in a stream", wrong_stream)
    took = f": {stream:.2f} s of processor time, {files:.2f} s as files, and {memory / 2**20:.1f} MB, in {turn} of {TURNS} turns"
    counting.row("the time that the patterns of a stream take", [] if stream <= STREAM_SHARE * files else [took], took)
    counting.row("the memory that they take", [] if memory <= STREAM_MEMORY else [took], took)


def main():
    parser = argparse.ArgumentParser(description=__doc__, formatter_class=argparse.RawDescriptionHelpFormatter)
    parser.add_argument("program")
    parser.add_argument("--cases", type=int, default=500)
    parser.add_argument("--seed", default="1")
    options = parser.parse_args()
    if not os.access(CLOCK, os.X_OK):
        sys.exit(f"there is no program {CLOCK}: apt-get install time")
    with tempfile.TemporaryDirectory() as folder:
        os.chmod(folder, 0o755)
        program = shutil.copy(processes.program_of(options.program), os.path.join(folder, "golly_canon"))
        os.chmod(program, 0o755)
        places = []
        for name in ("small", "odd", "random", "texts"):
            os.mkdir(os.path.join(folder, name), 0o755)
            places.append(Place(program, os.path.join(folder, name)))
        small, odd, some, texts = places
        for name, data in SMALL.items():
            small.put(name, data)
            odd.put(name, data)
        form_rows(small)
        generation_rows(small)
        refused_rows(small)
        standard_input_rows(small)
        list_rows(small)
        stream_rows(small)
        name_rows(odd, texts.here)
        odd_object_rows(odd)
        object_rows(small)
        word_rows(small)
        device_rows(small)
        progress_rows(small)
        random_rows(some, options.seed, options.cases)
        many_rows(small, os.path.join(folder, "measured"))
        many_pieces_rows(small, os.path.join(folder, "measured"))
    return counting.ended()


if __name__ == "__main__":
    sys.exit(main())
