#!/usr/bin/env python3
"""Runs the built program, PROGRAM, on files of strangers and on failing devices: each run must end with its exact answer and status, write
nothing to standard output where it refuses, touch no file, and keep within its bounds of time and memory (tests/program/running.py says how).

usage: tests/program/hostile.py PROGRAM

A row of the table is a case. What is wanted was worked out by hand, or follows from the formats (docs/FORMATS.md).
It needs GNU time (package `time`), 2 GB of memory and 2 GB of room for files.
"""

import dataclasses
import functools
import itertools
import os
import random
import re
import shutil
import signal
import sys
import tempfile
import time

sys.dont_write_bytecode = True  # nothing is left in tests/
sys.path.insert(0, os.path.dirname(os.path.dirname(os.path.abspath(__file__))))

from running import ANY, CLOCK, MEGABYTE, Case, Front, Piped, measured, results  # noqa: E402
from shared import counting, processes  # noqa: E402
from shared.fixtures import FILES, HEADER, LIFE, LINE_STEPPED, LONGEST, MANY_TEXT, PAIR_RLE, PAIR_SHOWN, PAIR_TEXT, ROWS, SPREAD_STEPPED, canonical  # noqa: E402

# ---- the formats

HALF = 1 << 61  # of the plane's width


def chain(first, last, line, child=1):
    """A node line for each level from `first` to `last`. In `line` stands each one's level, and behind it, in any number of places, the number of
    the line before it; `child` is the first of these numbers."""
    return b"".join(line.replace(b"L", b"%d" % level).replace(b"C", b"%d" % (child + level - first)) for level in range(first, last + 1))


class Nodes:
    """Squares, each once, and the node lines of one: its quarters' before its own."""

    def __init__(self):
        self.number = {}
        self.squares = [None]

    def join(self, *square):
        """A square by its level and its quarters, or by the text of a leaf; 0 is blank."""
        if not any(square[1:]):
            return 0
        if square not in self.number:
            self.number[square] = len(self.squares)
            self.squares.append(square)
        return self.number[square]

    def lines(self, root):
        """The node lines, of a square of states from level 1 up or of leaves."""
        line_of, lines = {0: 0}, []
        todo = [root]
        while todo:
            level, *quarters = self.squares[todo[-1]]
            below = [it for it in reversed(quarters) if it not in line_of] if level != 1 and len(quarters) == 4 else []
            if below:
                todo.extend(below)
                continue
            it = todo.pop()
            if it in line_of:
                continue
            line_of[it] = len(lines) + 1
            named = [line_of[q] for q in quarters] if level != 1 and len(quarters) == 4 else quarters
            lines.append(b"%d %d %d %d %d\n" % (level, *named) if len(quarters) == 4 else b"%s\n" % quarters[0])
        return lines


# ---- large inputs, and what is wanted of them



def leaf(number):
    """The canonical text of a leaf, a different one for each number."""
    return b"".join(ROWS[byte] for byte in number.to_bytes(8, "big"))


def leaves(count):
    """Leaves in a row, none of them blank and no two alike."""
    for first in range(1, count + 1, 4096):
        yield b"".join(leaf(number) + b"\n" for number in range(first, min(first + 4096, count + 1)))


def once(text):
    """A text that is made once and kept."""
    @functools.cache
    def whole():
        return b"".join(text())
    return lambda: iter([whole()])


@once
def whole_tree():
    """The node lines of a square of level 13, whose 2^20 leaves are all different."""
    line, above = 0, [[] for _ in range(11)]
    for number in range(1, LONGEST + 1):
        yield leaf(number) + b"\n"
        line, level = line + 1, 0
        above[0].append(line)
        while len(above[level]) == 4:
            yield b"%d %d %d %d %d\n" % (level + 4, *above[level])
            above[level].clear()
            line, level = line + 1, level + 1
            above[level].append(line)


def gathered(lines):
    """Lines, many of them in one piece."""
    kept = []
    for line in lines:
        kept.append(line)
        if len(kept) == 10_000:
            yield b"".join(kept)
            kept = []
    yield b"".join(kept)


def chains(count):
    """Chains from a leaf to level 62, each line by its own numbers."""
    for number in range(count):
        yield b"*$\n" + chain(4, 62, b"L C 0 0 0\n", 60 * number + 1)


def random_states(count):
    order = random.Random(1)
    return [order.randrange(1, 256) for _ in range(count)]


def symbol(state):
    """A state in RLE under a name."""
    prefix = b"" if state < 25 else b"pqrstuvwxy"[(state - 25) // 24:][:1]
    return prefix + b"ABCDEFGHIJKLMNOPQRSTUVWX"[(state - 1) % 24:][:1]


def wide_rows(states):
    """Rows over the whole width of the plane, from its first row on, each of one state."""
    yield b"#CXRLE Pos=%d,%d\nx = 1, y = 1, rule = Foo\n" % (-HALF, -HALF)
    yield from gathered(b"%d%s$\n" % (2 * HALF, symbol(state)) for state in states)


def wide_rows_text(states):
    """The canonical text of these rows."""
    nodes = Nodes()
    squares = list(states)
    for level in range(1, 63):
        squares += [0] * (len(squares) % 2)
        squares = [nodes.join(level, north, north, south, south) for north, south in zip(squares[::2], squares[1::2])]
    yield canonical(b"Foo")
    yield from gathered(nodes.lines(squares[0]))


@functools.cache
def deep_cells(count):
    """Single cells anywhere on the plane, one in a row, from the north."""
    order = random.Random(2)
    rows = sorted({order.randrange(-HALF, HALF) for _ in range(count)})
    return [(order.randrange(-HALF, HALF), row) for row in rows]


@functools.cache
def scattered_cells(count):
    """Cells of many states far apart in one row, from the western edge of the plane."""
    order = random.Random(4)
    columns = itertools.accumulate((order.randrange(1 << 43, 1 << 44) for _ in range(count)), initial=-HALF)
    return [(x, 0, order.randrange(1, 256)) for x in columns]


def scattered_rle(cells):
    yield b"#CXRLE Pos=%d,0\nx = 1, y = 1, rule = Foo\n" % -HALF
    column = -HALF
    for x, _, state in cells:
        yield (b"%d." % (x - column) if x > column else b"") + symbol(state)
        column = x + 1


@functools.cache
def blocks(count):
    """Blocks of four cells, which stay as they are under B3/S23."""
    corners = [(i * i % 1_000_003 + 1, 4 * i) for i in range(count)]
    return [(x + i, y + j) for x, y in corners for j in (0, 1) for i in (0, 1)]


def node_lines(cells, least):
    """The node lines of cells, each a column, a row and a state (or 1), with leaves (`least` is 3) or from level 1 up."""
    nodes = Nodes()
    level = next(level for level in range(least, 63) if all(-1 << level - 1 <= it < 1 << level - 1 for cell in cells for it in cell[:2]))
    half = 1 << level - 1
    squares = {(x + half, y + half): state[0] if state else 1 for x, y, *state in cells}
    if least == 3:
        rows = {}
        for x, y in squares:
            rows[x >> 3, y >> 3] = rows.get((x >> 3, y >> 3), 0) | 1 << (63 - 8 * (y & 7) - (x & 7))
        squares = {at: nodes.join(3, leaf(number)) for at, number in rows.items()}
    for up in range(4 if least == 3 else 1, level + 1):
        above = {}
        for (x, y), square in squares.items():
            above.setdefault((x >> 1, y >> 1), [0, 0, 0, 0])[2 * (y & 1) + (x & 1)] = square
        squares = {at: nodes.join(up, *quarters) for at, quarters in above.items()}
    return nodes.lines(squares[0, 0])


@functools.cache
def lines_of(cells, least):
    """The node lines of what a function gives."""
    return node_lines(cells(), least)


def macrocell_of(cells, rule=b"B3/S23", generation=0):
    """The canonical text of live cells."""
    @once
    def text():
        yield canonical(rule, generation)
        yield from lines_of(cells, 3 if rule == b"B3/S23" else 1)
    return [text]


def states_in_nodes(cells, generation=0):
    """The canonical text of cells of many states."""
    @once
    def text():
        yield canonical(b"Foo", generation)
        yield from node_lines(list(cells()), 1)
    return [text]


def runs_of(cells):
    """The runs of cells in order: column, row and length."""
    runs = []
    for x, y in cells:
        if runs and runs[-1][1] == y and runs[-1][0] + runs[-1][2] == x:
            runs[-1][2] += 1
        else:
            runs.append([x, y, 1])
    return runs


def items_of(runs, west, north, live):
    """The items of runs in RLE, from a corner."""
    x, y = west, north
    for column, row, count in runs:
        if row > y:
            yield counted(row - y, b"$")
            x, y = west, row
        if column > x:
            yield counted(column - x, b"b" if live == b"o" else b".")
        yield counted(count, live)
        x = column + count
    yield b"!"


def rle_of(cells, rule=b"B3/S23", generation=0):
    """The text of live cells that `convert --to rle` writes."""
    def text():
        runs = runs_of(cells())
        west, east, north, south = min(it[0] for it in runs), max(it[0] + it[2] for it in runs), runs[0][1], runs[-1][1]
        yield b"#CXRLE Pos=%d,%d" % (west, north) + (b" Gen=%d" % generation if generation else b"") + b"\n"
        yield b"x = %d, y = %d, rule = %s\n" % (east - west, south - north + 1, rule)
        yield from gathered(filled(items_of(runs, west, north, b"o" if b"/" in rule else b"A")))
    return [text]


def shown(cells):
    """What `show` writes of live cells under B3/S23."""
    def text():
        xs, ys = zip(*cells())
        box = min(xs), min(ys), max(xs) - min(xs) + 1, max(ys) - min(ys) + 1
        yield b"rule B3/S23\ngeneration 0\npopulation %d\nbox %d %d %d %d\nnodes %d\n" % (len(xs), *box, len(lines_of(cells, 3)))
    return [text]


def counted(count, item):
    return item if count == 1 else b"%d%s" % (count, item)


def filled(items):
    """Items on lines of at most 70 bytes."""
    line = b""
    for item in items:
        if len(line) + len(item) > 70:
            yield line + b"\n"
            line = b""
        line += item
    yield line + b"\n"


# ---- what is done with the program while it runs


def takes_a_line(process, out):
    """A reader that leaves after a line."""
    out.write(process.stdout.readline())
    process.stdout.close()


def takes_slowly(process, out):
    """A reader that takes a little at a time."""
    while piece := os.read(process.stdout.fileno(), 4096):
        out.write(piece)
        time.sleep(0.002)


def takes_all(process, out):
    shutil.copyfileobj(process.stdout, out)


def kills_it(process, out):
    """Kills the program in the middle of writing: it has begun, and nobody takes the rest."""
    out.write(os.read(process.stdout.fileno(), 4096))
    process.send_signal(signal.SIGKILL)
    process.wait()
    shutil.copyfileobj(process.stdout, out)


def stops_it(process, out):
    """Stops the program again and again, and lets it go on."""
    for _ in range(20):
        process.send_signal(signal.SIGSTOP)
        time.sleep(0.005)
        process.send_signal(signal.SIGCONT)
        out.write(os.read(process.stdout.fileno(), 4096))
    takes_all(process, out)


# ---- the table


def refused(name, text, error, words="canon input", status=2, **more):
    """A file that is refused with this line."""
    return Case(name, words, status, error, files={"input": text}, **more)


def accepted(name, text, output, words="canon input", **more):
    """A file that is accepted, and what is written."""
    return Case(name, words, output=output, files={"input": text}, **more)


FIRST_CASES = [
    refused("the empty file", b"", "line 1: NoHeader"),
    refused("one line feed", b"\n", "line 2: NoHeader"),
    refused("NULs alone", b"\0" * 65536, "line 1: NoHeader"),
    refused("a line of NULs", b"[M2]\n\0\0\0\n", "line 2: BadNode"),
    refused("a NUL in the rule", b"[M2]\n#R B3/S23\0\n", "line 2: BadRule"),
    refused("a NUL in a number", b"[M2]\n$\n4 1 1 1\0 1\n", "line 3: BadNode"),
    accepted("CR LF line ends", b"[M2]\r\n#R B3/S23\r\n#G 7\r\n..*$\r\n4 0 0 0 1\r\n", LIFE + b"#G 7\n$$$$......*$$$$\n"),
    accepted("no last line feed", b"[M2]\n*$\n4 0 0 1 1", LIFE + b"*$$$$$$$$\n4 0 0 1 1\n"),
    refused("cut in its last line", b"[M2]\n$\n4 0 0 1", "line 3: BadNode"),
    refused("a number that wraps round to 1", b"[M2]\n$\n4 0 0 1 18446744073709551617\n", "line 3: BadChild"),
    refused("a generation of 2^64", b"[M2]\n#G 18446744073709551616\n", "line 2: TooLarge"),
    accepted("a generation of 2^64 - 1", b"[M2]\n#G 18446744073709551615\n", LIFE + b"#G 18446744073709551615\n"),
    refused("a level of 256", b"[M2]\n256 1 0 0 0\n", "line 2: BadLevel"),
]

LONG_LINES = [
    accepted("a line of 2^20 bytes", b"[M2]\n#" + b"C" * (LONGEST - 1) + b"\n", LIFE),
    refused("a line of 2^20 + 1 bytes", b"[M2]\n#" + b"C" * LONGEST + b"\n", "line 2: LineTooLong"),
    refused("a header of 2^20 + 1 bytes", b"[M2]" + b"C" * (LONGEST - 3), "line 1: LineTooLong"),
    refused("a line of 2^20 digits", b"[M2]\n" + b"1" * LONGEST + b"\n", "line 2: BadNode"),
    refused("a child of a million digits", b"[M2]\n$\n4 0 0 1 " + b"9" * 1_000_000 + b"\n", "line 3: BadChild"),
    accepted("the child 1 with a million zeros", b"[M2]\n*$\n4 0 0 1 " + b"0" * 999_999 + b"1\n", LIFE + b"*$$$$$$$$\n4 0 0 1 1\n"),
    refused("a generation of a million digits", b"[M2]\n#G " + b"9" * 1_000_000 + b"\n", "line 2: TooLarge"),
    refused("a level of a million digits", b"[M2]\n" + b"9" * 1_000_000 + b" 1 1 1 1\n", "line 2: BadLevel"),
    refused("a rule of a million bytes", b"[M2]\n#R " + b"B" * 1_000_000 + b"\n", "line 2: BadRule"),
    refused("a leaf of 2^20 rows", b"[M2]\n" + b"$" * LONGEST + b"\n", "line 2: BadLeaf"),
]

GLIDER = b"$$..*$...*$.***$$$$\n"
EMPTY_LEAVES = [b"[M2]\n", (b"$\n", LONGEST)]
EMPTY_SQUARES = [b"[M2]\n", (b"4 0 0 0 0\n", LONGEST)]

MANY_LINES = [
    accepted("a million lines #", [b"[M2]\n", (b"#\n", 1_000_000)], LIFE),
    accepted("a million blank lines", [b"[M2]\n", (b"\n", 1_000_000)], LIFE),
    accepted("a million rules", [b"[M2]\n", (b"#R B3/S23\n", 1_000_000)], LIFE),
    accepted("2^20 leaves", [b"[M2]\n", (GLIDER, LONGEST)], LIFE + GLIDER),
    # Of each line its level and its square's Id are kept; the shortest leaf has one byte and a line feed.
    accepted("2^20 leaves of one byte (14 times the input)", EMPTY_LEAVES, LIFE, times=14),
    accepted("2^20 squares of five numbers", EMPTY_SQUARES, LIFE),
    refused("a fault behind 2^20 squares", [*EMPTY_SQUARES, b"4 0 0 0\n"], "line 1048578: BadNode"),
    accepted("2^20 leaves, no two alike", [b"[M2]\n", lambda: leaves(LONGEST)], [LIFE, leaf(LONGEST) + b"\n"], times=3),
    accepted("a square of 2^20 leaves, no two alike", [b"[M2]\n", whole_tree], [LIFE, whole_tree], times=5),
    accepted("17,000 chains of 60 lines", [b"[M2]\n", lambda: chains(17_000)], LIFE + b"*$$$$$$$$\n" + chain(4, 62, b"L C 0 0 0\n"), times=1.5),
]

EACH_LINE = (b"\n#C first\n#CXRLE Gen=3 Pos=1,1 Other=9\n#CXRLE Pos=-4,0\n \t\nx=0,y=0,rule=b3s23\r\n\n#C more\no 3b\n4b o ! and the rest\n"
             b"#CXRLE\nx = 1\n")
CORNERS = b"#CXRLE Pos=%d,%d\nx = 1, y = 1\no%dbo%d$o%dbo!\n" % (-HALF, -HALF, 2 * HALF - 2, 2 * HALF - 1, 2 * HALF - 2)
CORNERS_TEXT = (LIFE + b"*$$$$$$$$\n" + chain(4, 61, b"L C 0 0 0\n", 1) + b".......*$$$$$$$$\n" + chain(4, 61, b"L 0 C 0 0\n", 60)
                + b"$$$$$$$*$\n" + chain(4, 61, b"L 0 0 C 0\n", 119) + b"$$$$$$$.......*$\n" + chain(4, 61, b"L 0 0 0 C\n", 178)
                + b"62 59 118 177 236\n")
WIDE_ROW = b"#CXRLE Pos=%d,0\nx = 1, y = 1\n%do!\n" % (-HALF, 2 * HALF)
WIDE_ROW_TEXT = LIFE + b"********$$$$$$$$\n" + chain(4, 61, b"L C C 0 0\n") + b"62 0 0 59 59\n"
ROW_TEXT = LIFE + b"********$$$$$$$$\n" + chain(4, 20, b"L C C 0 0\n") + b"21 0 0 0 18\n"
COMB_TEXT = LIFE + b"*.*.*.*$$$$$$$$\n" + chain(4, 20, b"L C C 0 0\n") + b"21 0 0 0 18\n"
RLE = [
    accepted("each form of a line of RLE", EACH_LINE, LIFE + b"....*$$$$$$$$\n4 0 0 1 1\n"),
    accepted("an RLE file of a blank plane", HEADER + b"!\n", LIFE),
    accepted("a cell at each corner of the plane", CORNERS, CORNERS_TEXT),
    accepted("a cell in column 2^59", b"#CXRLE Pos=576460752303423488,0\n" + HEADER + b"o!\n",
             LIFE + b"*$$$$$$$$\n" + chain(4, 59, b"L C 0 0 0\n") + b"60 0 57 0 0\n61 0 0 0 58\n"),
    accepted("a row of 2^62 cells", WIDE_ROW, WIDE_ROW_TEXT),
    accepted("255 rows of 2^62 cells, each of another state", [lambda: wide_rows(range(1, 256))], [lambda: wide_rows_text(range(1, 256))]),
    # A tooth of three bytes is a span of 24.
    accepted("a comb of 2^19 teeth (18 times the input)", [HEADER, (b"ob\n", LONGEST // 2)], COMB_TEXT, times=18),
    accepted("lines of 2^20 and of 2^20 + 1 bytes with and behind !",
             HEADER + b"b!" + b"x" * (LONGEST - 2) + b"\n" + b"x" * (LONGEST + 1) + b"\n", LIFE),
    refused("a line of 2^20 + 1 bytes with !", HEADER + b"b!" + b"x" * (LONGEST - 1), "line 2: LineTooLong"),
    refused("a line of 2^20 + 1 bytes before !", HEADER + b"b" * LONGEST + b"!", "line 2: LineTooLong"),
    accepted("a line of 2^20 bytes that ! ends", HEADER + b"b" * (LONGEST - 1) + b"!", LIFE),
    accepted("a line of 2^20 bytes that ! begins", HEADER + b"!" + b"o" * (LONGEST - 1), LIFE),
    refused("a line of 2^20 + 1 bytes that ! begins", HEADER + b"!" + b"o" * LONGEST, "line 2: LineTooLong"),
    accepted("! behind a line of 2^20 bytes, before one of 2^20 + 1", HEADER + b"b" * LONGEST + b"\n!\n" + b"o" * (LONGEST + 1), LIFE),
    accepted("a count of a million digits", HEADER + b"0" * (LONGEST - 3) + b"1o\n!", LIFE + b"$$$$....*$$$$\n"),
    accepted("2^20 lines of one cell (14 times the input)", [HEADER, (b"o\n", LONGEST)], ROW_TEXT, times=14),
    refused("a row below the plane", [HEADER, (b"9$\n", 1_000_000), b"o4611686018427387904$\n"], "line 1000002: OutOfPlane"),
    accepted("2^60 + 1 dead cells", HEADER + b"1152921504606846977b!\n", LIFE),
    refused("a run as wide as the plane from its middle", HEADER + b"4611686018427387904b!\n", "line 2: OutOfPlane"),
    refused("a run of the greatest count from the column behind the plane", b"#CXRLE Pos=2305843009213693951,0\n" + HEADER + b"o4611686018427387904b!\n",
            "line 3: OutOfPlane"),
    refused("a count above the width of the plane", b"x = 1, y = 1, rule = Life\n4611686018427387905b!\n", "line 2: TooLarge"),
    accepted("rows down to the one behind the plane", b"#CXRLE Pos=0,2305843009213693951\n" + HEADER + b"$!\n", LIFE),
    refused("rows down by the greatest count from there", b"#CXRLE Pos=0,2305843009213693951\n" + HEADER + b"$4611686018427387904$!\n",
            "line 3: OutOfPlane"),
    refused("a position behind the plane", b"#CXRLE Pos=2305843009213693952,0\n" + HEADER + b"!\n", "line 1: OutOfPlane"),
]

# Every form of a line: two squares of one text, a leaf that ends early and one that doesn't, squares that the root doesn't reach.
EACH_NODE_LINE = (b"[M2] made by hand\r\n#C first\n\n \t\n#R Foo\n#Rule is a comment\n#G 7\n#R\tb3/s23 \n#G 007\n#CXRLE Pos=1,1\n"
                  b"*$\n  \t\n1 0 1 1 0\n$$\n# more\n........$*\n*.......$.$$$$$$$ \n4\t0 0\t 0 4\r\n 04 0 00 0 01\n5 0 0 0 6\n4 0 0 0 1")


def corners():
    """A cell at each corner of the plane: four chains, level by level from the south-east one on."""
    yield b"[M2]\n$$$$$$$.......*$\n$$$$$$$*\n.......*\n*\n"
    for level in range(4, 62):
        south_east = 4 * (level - 4) + 1
        yield b"%d 0 0 0 %d\n" % (level, south_east) + b"%d 0 0 %d 0\n" % (level, south_east + 1)
        yield b"%d 0 %d 0 0\n" % (level, south_east + 2) + b"%d %d 0 0 0\n" % (level, south_east + 3)
    yield b"62 236 235 234 233\n"


CHAIN = b"[M2]\n*$\n" + chain(4, 62, b"L C 0 0 0\n")
PLANE = b"********$" * 8 + b"\n" + chain(4, 62, b"L C C C C\n")
NAMED_CHAIN = b"1 0 0 0 255\n" + chain(2, 62, b"L 0 0 0 C\n")

DEEP_SQUARES = [
    accepted("each form of a line of macrocell", EACH_NODE_LINE, LIFE + b"#G 7\n$$$$....*$$$$\n"),
    accepted("a macrocell file of a blank plane", b"[M2]\n$\n" + chain(4, 62, b"L C C C C\n"), LIFE),
    accepted("a cell at each corner of the plane, as macrocell", [corners], CORNERS_TEXT),
    accepted("a row of 2^62 cells, as macrocell", b"[M2]\n********\n" + chain(4, 61, b"L C C 0 0\n") + b"62 0 0 59 59\n", WIDE_ROW_TEXT),
    accepted("255 rows of 2^62 cells, as macrocell", [lambda: wide_rows_text(range(1, 256))], [lambda: wide_rows_text(range(1, 256))]),
    accepted("a blank square of the greatest level", b"[M2]\n62 0 0 0 0\n", LIFE),
    refused("a level above the greatest", b"[M2]\n63 0 0 0 0\n", "line 2: BadLevel"),
    accepted("a chain of 62 levels", CHAIN, CHAIN.replace(b"[M2]\n*$\n", LIFE + b"*$$$$$$$$\n")),
    # Each square has its quarters four times over: 2^124 cells in 60 lines.
    accepted("the whole plane", b"[M2]\n" + PLANE, LIFE + PLANE),
    accepted("a chain from level 1", b"[M2]\n#R Foo\n" + NAMED_CHAIN, canonical(b"Foo") + NAMED_CHAIN),
    accepted("a comb over the whole plane", b"[M2]\n" + PLANE.replace(b"********", b"*.*.*.*."), LIFE + PLANE.replace(b"********", b"*.*.*.*")),
]

# Teeth of the whole plane's width apart by 2^43 columns.
TEETH = [b"#CXRLE Pos=%d,0\n" % -HALF, HEADER, (b"o%db\n" % (2 ** 43 - 1), 1 << 19)]
TEETH_TEXT = (LIFE + b"*$$$$$$$$\n" + chain(4, 43, b"L C 0 0 0\n") + chain(44, 61, b"L C C 0 0\n", 41) + b"62 0 0 59 59\n")
ROW_OF_2_24 = LIFE + b"********$$$$$$$$\n" + chain(4, 24, b"L C C 0 0\n") + b"25 0 0 0 22\n"
COMB_OF_2_24 = ROW_OF_2_24.replace(b"********", b".*.*.*.*")
deep = functools.partial(deep_cells, 1 << 13)
DEEP_RLE, DEEP_TEXT = rle_of(deep), macrocell_of(deep)
scattered = functools.partial(scattered_cells, 1 << 13)
loners = functools.partial(deep_cells, 1 << 11)


@functools.cache
def rings():
    """The cells beside each of these."""
    return [(x + i, y + j) for x, y in loners() for j in (-1, 0, 1) for i in (-1, 0, 1) if i or j]


def moved(cells):
    """Cells whose bounding box begins at (0, 0), or ends with the plane where it would leave that."""
    east, south = (min(-min(it), HALF - 1 - max(it)) for it in zip(*cells))
    return [(x + east, y + south) for x, y in cells]


@once
def least_image():
    """The least text of the eight images of these cells."""
    images = [[(x ^ a, y ^ b) for x, y in it] for it in (loners(), [(y, x) for x, y in loners()]) for a in (0, -1) for b in (0, -1)]
    yield min(LIFE + b"".join(node_lines(moved(it), 3)) for it in images)


LARGE_RLE = [
    accepted("2^19 teeth over the width of the plane", TEETH, TEETH_TEXT, times=9),
    accepted("100,000 rows of 2^62 cells", [lambda: wide_rows(random_states(100_000))], [lambda: wide_rows_text(random_states(100_000))]),
    accepted("15 million lines $", [HEADER, (b"$\n", 15_000_000)], LIFE, times=0),
    accepted("lines of 2^20 bytes $", [HEADER, (b"$" * LONGEST + b"\n", 29)], LIFE, times=0),
    accepted("2^24 items 1o", [HEADER, (b"1o" * (LONGEST // 2) + b"\n", 32)], ROW_OF_2_24, times=20),
    accepted("2^23 items bo", [HEADER, (b"bo" * (LONGEST // 2) + b"\n", 16)], COMB_OF_2_24, times=40),
    accepted("2^13 single cells anywhere", DEEP_RLE, DEEP_TEXT, each=4, times=150),
    accepted("2^13 single cells anywhere, as macrocell", DEEP_TEXT, DEEP_TEXT, times=9),
    accepted("2^13 single cells anywhere that are shown", DEEP_RLE, shown(deep), "show input", each=4, times=150),
    accepted("2^13 single cells anywhere, to RLE", DEEP_RLE, DEEP_RLE, "convert input --to rle", each=4, times=100),
    accepted("2^13 single cells anywhere, to macrocell", DEEP_RLE, DEEP_TEXT, "convert input --to mc", each=4, times=150),
    accepted("2^13 single cells anywhere that die", DEEP_RLE, canonical(b"B3/S23", 1), "step input", each=4, times=100),
    accepted("2^11 single cells anywhere that become rings", rle_of(loners, b"B1/S"), [canonical(b"B1/S", 1), lambda: lines_of(rings, 3)], "step input",
             each=6, times=240),
    accepted("2^11 single cells anywhere, moved", rle_of(loners), macrocell_of(lambda: moved(loners())), "canon input --form moved", each=8, times=400),
    accepted("2^11 single cells anywhere, turned", rle_of(loners), [least_image], "canon input --form turned", each=80, times=500),
    accepted("2^13 cells of many states in a row", [lambda: scattered_rle(scattered())], states_in_nodes(scattered), each=6, times=300),
    Case("2^13 single cells anywhere in both formats", "same input other", output=b"same\n", files={"input": DEEP_RLE, "other": DEEP_TEXT}),
]


# ---- inputs as long as may be, and longer


def longest(name, text, error, **more):
    """A text on standard input that is refused, and not kept."""
    return Case(name, "canon -", 2, error, source=Piped(text), times=0, **more)


def endless():
    while True:
        yield b"x\n" * 500_000


TOO_LONG = [(b"x" * LONGEST, 1024), b"x"]

LONGEST_INPUTS = [
    longest("2^30 + 1 bytes on standard input", TOO_LONG, "InputTooLong"),
    longest("2^30 bytes on standard input", TOO_LONG[:1], "line 1: LineTooLong"),
    # A billion lines, by the 30 million a second.
    longest("2^30 + 1 line feeds", [(b"\n" * LONGEST, 1024), b"\n"], "InputTooLong", seconds=240),
    # An input without end is left when it is too long.
    longest("an input without end", [endless], "InputTooLong"),
    # That the second input is too long is told before what is wrong with the first.
    Case("2^30 + 1 bytes that are shown", "show too_long", 2, "InputTooLong", files={"too_long": TOO_LONG}, times=2),
    Case("2^30 + 1 bytes behind a refused file", "same empty too_long", 2, "InputTooLong", files={"empty": b"", "too_long": TOO_LONG}, times=2),
]


# ---- devices



def told(name, words, output=b"", error="", status=0, source=FILES["pair.mc"], **more):
    """A run over the small files."""
    names = words.split() if isinstance(words, str) else words
    files = {it: FILES[it] for it in (word.removeprefix("--table=") for word in names) if it in FILES}
    return Case(name, words, status, error, output, files, source, **more)


def failing(name, words, error, **more):
    """A run over the small files whose source or sink fails."""
    return told(name, words, error=error, status=3, **more)


TO_FULL = 'exec "$@" > /dev/full'
CLOSED = 'exec "$@" >&-'
NO_SOURCE = 'exec "$@" <&-'
UNREADABLE = 'exec "$@" 0> /dev/null'
AS_NOBODY = 'exec setpriv --reuid=65534 --regid=65534 --clear-groups --no-new-privs "$@"' if os.getuid() == 0 else 'exec "$@"'

DEVICES = [
    failing("a closed standard output", "canon input", "WriteFault", by=CLOSED),
    failing("a closed standard output, from standard input", "canon -", "WriteFault", source=FILES["input"], by=CLOSED),
    failing("a full output", "canon input", "WriteFault", by=TO_FULL),
    failing("help to a full output", "--help", "WriteFault", by=TO_FULL),
    Case("words at fault with a full standard error", "canon", 5, by='exec "$@" 2> /dev/full'),
    failing("a full output and a full standard error", "canon input", "", by='exec "$@" > /dev/full 2> /dev/full'),
    Case("a refusal with standard error closed", status=2, files={"input": b"o!\n"}, by='exec "$@" 2>&-'),
    failing("a closed standard input", "canon -", "ReadFault", by=NO_SOURCE),
    failing("a folder", "canon .", "ReadFault"),
    failing("a file that is absent", "canon absent.mc", "ReadFault"),
    failing("a file in a folder that is absent", "canon absent/input", "ReadFault"),
    failing("a file's name with a slash behind it", ["canon", "input/"], "ReadFault", setup="> input"),
    failing("the empty name", ["canon", ""], "ReadFault"),
    failing("a name of 5000 bytes", ["canon", "n" * 5000], "ReadFault"),
    failing("a link to itself", "canon loop", "ReadFault", setup="ln -s loop loop"),
    # Root may read every file, so root tries this one as nobody.
    failing("a file that may not be read", "canon locked", "ReadFault", setup="echo '[M2]' > locked && chmod 000 locked", by=AS_NOBODY),
]

LINE_SHOWN = b"rule B3/S23\ngeneration 0\npopulation 3\nbox 0 0 3 1\nnodes 1\n"
MANY_SHOWN = b"rule B3/S23\ngeneration 0\npopulation 1048577\nbox 0 0 1048577 1\nnodes 38\n"


def faulty(name, words, error, **more):
    return told(name, words, error=error, status=2, **more)


JOBS = [
    told("two formats of one pattern", "same pair.rle pair.mc", b"same\n"),
    told("a file with itself", "same pair.rle pair.rle", b"same\n"),
    told("two patterns", "same pair.rle named.rle", b"different\n", status=1),
    told("a file with standard input", "same pair.rle -", b"same\n"),
    told("standard input with a file", "same - named.rle", b"different\n", status=1),
    faulty("a refused file first", "same bad.rle empty", "line 2: StateRange"),
    faulty("a refused file second", "same pair.mc bad.rle", "line 2: StateRange"),
    faulty("two refused files", "same empty bad.rle", "line 1: NoHeader"),
    failing("an absent file first", "same absent bad.rle", "ReadFault"),
    failing("an absent file second", "same bad.rle absent", "ReadFault"),
    failing("a folder second", "same bad.rle .", "ReadFault"),
    failing("the empty name second", ["same", "pair.rle", ""], "ReadFault"),
    told("standard input twice", "same - -", error="TwoInputs", status=5),
    told("files behind --", "same -- pair.rle pair.mc", b"same\n"),
    told("a file that is shown", "show pair.rle", PAIR_SHOWN),
    told("standard input that is shown", "show -", PAIR_SHOWN),
    faulty("a refused file that is shown", "show bad.rle", "line 2: StateRange"),
    failing("an absent file that is shown", "show absent", "ReadFault"),
    failing("a folder that is shown", "show .", "ReadFault"),
    told("many cells that are shown", "show many.rle", MANY_SHOWN),
    told("a file that is shown with its period", "show line.rle --period 18446744073709551615", LINE_SHOWN + b"period 2 oscillator\n"),
    told("a pattern that dies", "show --period=1000 pair.rle", PAIR_SHOWN + b"period none up to 1000\n"),
    faulty("the period of a refused file", "show bad.rle --period 1", "line 2: StateRange"),
    faulty("the period of a pattern whose rule is a name", "show spread.rle --period 1", "NeedsTable"),
    failing("the period of an absent file", "show absent --period 1", "ReadFault"),
    told("to RLE", "convert pair.mc --to rle", PAIR_RLE),
    told("to RLE, the option first", "convert --to=rle -", PAIR_RLE),
    told("to macrocell", "convert pair.rle --to mc", PAIR_TEXT),
    faulty("to RLE from a refused file", "convert empty --to rle", "line 1: NoHeader"),
    faulty("to macrocell from a refused file", "convert empty --to mc", "line 1: NoHeader"),
    faulty("to RLE with too many cells", "convert many.rle --to rle", "TooManyCells", little=60 * MEGABYTE),
    told("a moved text of many cells", "canon many.rle --form moved", MANY_TEXT),
    told("many cells beside themselves, moved", "same many.rle many.rle --form moved", b"same\n"),
    told("many cells beside few, turned", "same line.rle many.rle --form turned", b"different\n", status=1),
    faulty("a refused file behind many cells", "same many.rle bad.rle --form moved", "line 2: StateRange"),
    told("turned patterns of two generations", "same many.rle last.rle --form turned", b"different\n", status=1),
    told("turned patterns of two generations, the other way about", "same last.rle many.rle --form turned", b"different\n", status=1),
    failing("to RLE from an absent file", "convert absent --to rle", "ReadFault"),
    failing("to macrocell from a folder", "convert . --to mc", "ReadFault"),
]

TABLE = FILES["spread.rule"]

STEPS = [
    told("a step", "step line.rle", LINE_STEPPED),
    told("a step by a table", "step spread.rle --table spread.rule", SPREAD_STEPPED),
    told("a step by a table from standard input", "step spread.rle --table -", SPREAD_STEPPED, source=TABLE),
    told("a step by a table, the option first", "step --table=spread.rule spread.rle", SPREAD_STEPPED),
    faulty("two states for a cell", "step two.rle --table two.rule", "table line 8: Ambiguous"),
    faulty("a name without its table", "step spread.rle", "NeedsTable"),
    faulty("a table of another name", "step line.rle --table spread.rule", "RuleMismatch"),
    faulty("a state that the table lacks", "step beyond.rle --table spread.rule", "StateBeyondTable"),
    faulty("a refused table", "step spread.rle --table bad.rule", "table line 2: NoTable"),
    faulty("a refused table before a refused file", "step bad.rle --table bad.rule", "table line 2: NoTable"),
    faulty("a refused file behind a table", "step bad.rle --table spread.rule", "line 2: StateRange"),
    faulty("a table with a long line", "step bad.rle --table long.rule", "table line 1: LineTooLong"),
    faulty("a file with a long line behind a table", "step long.rule --table spread.rule", "line 1: LineTooLong"),
    faulty("a step of too many cells", "step many.rle", "TooManyCells"),
    failing("a step of an absent file", "step absent", "ReadFault"),
    failing("a step by an absent table", "step bad.rle --table absent", "ReadFault"),
    failing("a step by a folder", "step bad.rle --table .", "ReadFault"),
    told("standard input for both", "step - --table -", error="TwoInputs", status=5),
    faulty("a step from the last generation", "step last.rle", "GenerationTooLarge"),
    faulty("a step over the edge", "step edge.rle", "OutOfPlane"),
    told("many generations", "step line.rle --generations 18446744073709551615", canonical(b"B3/S23", 2**64 - 1) + b"$$$.....*$.....*$.....*$$$\n"),
    told("no generation", "step --generations=0 pair.rle", PAIR_TEXT),
    told("no generation of many cells", "step --generations 0 many.rle", MANY_TEXT),
    told("one generation by a table", "step spread.rle --table spread.rule --generations 1", SPREAD_STEPPED),
    told("many generations by a table that keeps all", "step still --table still.rule --generations 1000", canonical(b"Still", 1000) + b"1 0 0 0 1\n",
         setup="printf 'x = 1, y = 1, rule = Still\nA!\n' > still"),
    faulty("many generations of a name without its table", "step spread.rle --generations 2", "NeedsTable"),
    faulty("many generations from the last one", "step last.rle --generations 2", "GenerationTooLarge"),
    faulty("many generations over the edge", "step edge.rle --generations 18446744073709551615", "OutOfPlane"),
    faulty("many generations by a refused table", "step bad.rle --table bad.rule --generations 2", "table line 2: NoTable"),
    failing("many generations of an absent file", "step absent --generations 2", "ReadFault"),
    told("standard input for both, and no number", "step - --table - --generations x", error="TwoInputs", status=5),
]

# One for each job.
EACH_JOB = ["same pair.rle pair.mc", "same pair.rle named.rle", "show pair.rle", "show line.rle --period 2", "convert pair.mc --to rle", "convert pair.rle --to mc",
            "step line.rle", "step spread.rle --table spread.rule", "step line.rle --generations 5",
            "step spread.rle --table spread.rule --generations 1", "keys pair.rle pair.mc", "keys pair.rle --form turned",
            "keys line.rle --form phases", "same line.rle line.rle --form phases --within 2"]

SINKS = [
    *(failing(f"{words} to a full output", words, "WriteFault", by=TO_FULL) for words in EACH_JOB),
    *(failing(f"{words} with standard output closed", words, "WriteFault", by=CLOSED) for words in EACH_JOB),
    failing("a comparison with a closed standard input", "same pair.rle -", "ReadFault", by=NO_SOURCE),
    failing("a comparison with a closed standard input first", "same - pair.rle", "ReadFault", by=NO_SOURCE),
    failing("a comparison with a standard input that can't be read", "same pair.rle -", "ReadFault", by=UNREADABLE),
    failing("a comparison with all streams closed", "same pair.rle -", "", by='exec "$@" <&- >&- 2>&-'),
    failing("a file with standard input and output closed", "canon pair.rle", "WriteFault", by='exec "$@" <&- >&-'),
    told("a file with standard input closed", "canon pair.rle", PAIR_TEXT, by=NO_SOURCE),
    faulty("a refused comparison with a full standard error", "same empty bad.rle", "", by='exec "$@" 2> /dev/full'),
]

# Commands that read standard input, and commands that read a folder.
SOURCES = [
    *(failing(f"{words} with standard input closed", words, "ReadFault", by=NO_SOURCE)
      for words in ("show -", "convert - --to rle", "convert - --to mc", "step -")),
    *(failing(f"{words} with a standard input that can't be read", words, "ReadFault", by=UNREADABLE)
      for words in ("step spread.rle --table -", "same - pair.rle")),
    *(failing(f"{words}, with a folder", words, "ReadFault") for words in ("canon /", "step .", "same . pair.rle", "convert . --to rle")),
    *(failing(f"{words} from a folder", words, "ReadFault", by='exec "$@" < .') for words in ("canon -", "show -", "same pair.rle -")),
]


# ---- texts longer than a pipe holds

long = functools.partial(blocks, 8000)
LONG_RLE, LONG_TEXT = rle_of(long), macrocell_of(long)
LONG_NAMED = rle_of(long, b"Still")

# What writes such a text: the words, the files, and the text.
LONG_JOBS = [
    ("canon", "canon input", {"input": LONG_RLE}, LONG_TEXT),
    ("convert --to mc", "convert input --to mc", {"input": LONG_RLE}, LONG_TEXT),
    ("convert --to rle", "convert input --to rle", {"input": LONG_TEXT}, LONG_RLE),
    ("step", "step input", {"input": LONG_RLE}, macrocell_of(long, generation=1)),
    ("step --table", "step input --table still.rule", {"input": LONG_NAMED, "still.rule": FILES["still.rule"]}, macrocell_of(long, b"Still", 1)),
]


def long_jobs(name, status, error, wanted, **more):
    """A case for each job that writes a long text. `wanted` is what of it must be written."""
    return [Case(f"{job}: {name}", words, status, error, wanted(text), files, **more) for job, words, files, text in LONG_JOBS]


def with_memory(name, most, cases):
    """The cases, of which those whose name begins so may hold so much memory."""
    return [dataclasses.replace(it, little=most) if it.name.startswith(name) else it for it in cases]


ON_A_SMALL_DISK = """unshare --mount sh -c 'mkdir full && mount -t tmpfs -o size=16k none full || exit 99
"$@" > full/out; status=$?; cat full/out; umount full; rmdir full; exit $status' sh "$@\""""
CAN_MOUNT = os.system("unshare --mount sh -c 'mount -t tmpfs none /mnt' 2> /dev/null") == 0

LONG_TEXTS = [
    Case("a reader that leaves after a line", "canon input", 3, "", LIFE[:19], {"input": LONG_RLE}, plays=takes_a_line),
    *long_jobs("a reader that leaves", 3, "", Front, plays=takes_a_line),
    *long_jobs("a slow reader", 0, "", lambda text: text, plays=takes_slowly),
    *long_jobs("stopped and continued", 0, "", lambda text: text, plays=stops_it),
    *long_jobs("killed while it writes", -signal.SIGKILL, "", Front, plays=kills_it),
    *(with_memory("step: ", 8 * MEGABYTE, long_jobs("a full disk", 3, "WriteFault", Front, by=ON_A_SMALL_DISK)) if CAN_MOUNT else []),
    *long_jobs("little memory", 4, "Memory", lambda text: b"", by='ulimit -v 3800; exec "$@"'),
]


# ---- few lines, many cells


def repeated(front, last, times):
    """The node lines of a square of level 61 that has 4^times times, far apart, the square of these lines, whose level is `last`."""
    single = chain(last + 1, 61 - times, b"L C 0 0 0\n", front.count(b"\n"))
    return front + single + chain(62 - times, 61, b"L C C C C\n", (front + single).count(b"\n"))


def of_the_plane(lines):
    """The node lines of the whole plane with this square of level 61 in its south-eastern quarter."""
    return lines + b"62 0 0 0 %d\n" % lines.count(b"\n")


# Blocks of four cells, rows of three cells that turn, and single cells, far apart over half the plane.
BLOCK = b"**$**$$$$$$$\n"
BLOCKS = repeated(BLOCK, 3, 9)
BLINKERS, TURNED_BLINKERS = repeated(b"$$.***$$$$$$\n", 3, 9), repeated(b"$..*$..*$..*$$$$$\n", 3, 9)
SPECKS = repeated(b"*$$$$$$$$\n", 3, 10)
NAMED_SPECKS = repeated(b"1 1 0 0 0\n", 1, 10)


@once
def mixed_blocks():
    """The node lines of 786,432 cells in blocks: 400 chains of 48 levels, and above them squares of four others, all at random."""
    order, nodes = random.Random(5), Nodes()
    squares = []
    for _ in range(400):
        x, y = order.randrange(1, 6), order.randrange(1, 6)
        squares.append(nodes.join(3, leaf(sum(3 << 56 - 8 * (y + j) + 6 - x for j in (0, 1)))))
    for level in range(4, 52):
        squares = [nodes.join(level, *order.sample((square, 0, 0, 0), 4)) for square in squares]
    for level in range(52, 60):
        squares = [nodes.join(level, *order.choices(squares, k=4)) for _ in range(12_000)]
    yield from gathered(nodes.lines(nodes.join(60, *squares[:3], 0)))


def block_cells():
    """The cells of 2^18 blocks, row by row."""
    corners = [-(1 << 60) + (i << 52) for i in range(1 << 9)]
    return [(x + i, y + j) for y in corners for j in (0, 1) for x in corners for i in (0, 1)]


def few_lines(name, lines, output, words, more_files=(), rule=b"B3/S23", **more):
    """A file of about 60 lines."""
    return Case(name, words, output=output, files={"input": b"[M2]\n#R %s\n" % rule + lines, **dict(more_files)}, **more)


BLOCKS_SHOWN = b"rule B3/S23\ngeneration 0\npopulation 1048576\nbox %d %d %d %d\nnodes 59\n" % (2 * (-HALF // 2,) + 2 * ((511 << 52) + 2,))
STILL = {"still.rule": FILES["still.rule"]}.items()
# The blocks, moved: the first of them is at (0, 0). Each turn or reflection of them, moved, is the same.
MOVED_BLOCKS = BLOCK + chain(4, 52, b"L C 0 0 0\n") + chain(53, 61, b"L C C C C\n", 50) + b"62 0 0 0 59\n"
# The rule's dead cells between 1 and 2, and between 3 and 4, are ambiguous. The latter stand further north, in the square that is stepped later.
AMBIGUOUS = {"two.rule": b"@RULE Spread\n@TABLE\nn_states:5\nneighborhood:vonNeumann\nsymmetries:permute\nvar a={1,2}\nvar b={1,2}\nvar c={3,4}\n"
         b"var d={3,4}\n0,a,b,0,0,a\n0,c,d,0,0,c\n"}.items()
TWO_APART = (b"1 1 0 0 2\n" + chain(2, 50, b"L 0 0 C 0\n") + b"1 3 0 0 4\n" + chain(2, 50, b"L 0 C 0 0\n", 51)
             + b"1 1 0 0 0\n" + chain(2, 44, b"L C 0 0 0\n", 101) + chain(45, 50, b"L C C C C\n", 144) + b"51 50 100 150 150\n")
# A step remembers what it was told of the squares around a square, and so takes no longer than the lines.
FEW_LINES = [
    few_lines("2^20 cells in 60 lines", BLOCKS, LIFE + BLOCKS, "canon input"),
    few_lines("2^20 cells in 60 lines that are shown", BLOCKS, BLOCKS_SHOWN, "show input"),
    few_lines("2^20 cells in 60 lines, to RLE", BLOCKS, rle_of(block_cells), "convert input --to rle", each=4000, little=60 * MEGABYTE),
    few_lines("2^20 cells in 60 lines, moved", BLOCKS, LIFE + MOVED_BLOCKS, "canon input --form moved"),
    few_lines("2^20 cells in 60 lines, turned", BLOCKS, LIFE + MOVED_BLOCKS, "canon input --form turned"),
    few_lines("2^20 cells in 60 lines beside themselves, turned", BLOCKS, b"same\n", "same input input --form turned"),
    few_lines("2^20 cells in 60 lines that stay", BLOCKS, LIFE + b"#G 1\n" + BLOCKS, "step input"),
    few_lines("786,432 cells in 60 lines that turn", BLINKERS, LIFE + b"#G 1\n" + TURNED_BLINKERS, "step input"),
    few_lines("2^20 single cells in 60 lines that die", SPECKS, LIFE + b"#G 1\n", "step input"),
    few_lines("2^20 cells of the whole plane that stay", of_the_plane(BLOCKS), LIFE + b"#G 1\n" + of_the_plane(BLOCKS), "step input"),
    few_lines("786,432 cells of the whole plane that turn", of_the_plane(BLINKERS), LIFE + b"#G 1\n" + of_the_plane(TURNED_BLINKERS), "step input"),
    few_lines("2^20 single cells of the whole plane that die", of_the_plane(SPECKS), LIFE + b"#G 1\n", "step input"),
    accepted("40,000 lines of chains at random, of 786,432 cells that stay", [LIFE, mixed_blocks], [LIFE + b"#G 1\n", mixed_blocks], "step input", each=1,
             little=20 * MEGABYTE),
    few_lines("2^20 single cells in 60 lines that stay by a table", NAMED_SPECKS, canonical(b"Still", 1) + NAMED_SPECKS,
              "step input --table still.rule", STILL, b"Still"),
    few_lines("2^20 single cells of the whole plane that stay by a table", of_the_plane(NAMED_SPECKS), canonical(b"Still", 1) + of_the_plane(NAMED_SPECKS),
              "step input --table still.rule", STILL, b"Still"),
    few_lines("two ambiguous cells far apart, and 2^13 single cells", TWO_APART, b"", "step input --table two.rule", AMBIGUOUS, b"Spread", status=2,
              error="table line 11: Ambiguous"),
]


# ---- phases


def in_phases(name, text, least, words="canon input --form phases", **more):
    """The text for all phases of a pattern that never repeats, or not within so many generations: that of its turned form, of which `least` is the beginning."""
    return Case(f"phases of {name}", words, output=re.compile(rb"\A%s" % re.escape(least)), files={"input": text}, **{"start": 2, "seconds": 20, "each": 0,
                "little": 30 * MEGABYTE, "times": 0, **more})


def soup_of(seed, side, rule):
    """A square of random cells in RLE."""
    source = random.Random(seed)
    rows = "$\n".join("".join(source.choice("bo") for _ in range(side)) for _ in range(side))
    return f"x = {side}, y = {side}, rule = {rule}\n{rows}!\n".encode()


GUN = b"x = 36, y = 9\n24bo$22bobo$12b2o6b2o12b2o$11bo3bo4b2o12b2o$2o8bo5bo3b2o$2o8bo3bob2o4bobo$10bo5bo7bo$11bo3bo$12b2o!\n"
# Three cells in a column at each side of the plane: lying, they are too wide for it.
WIDE_COLUMNS = b"#CXRLE Pos=-2305843009213693952,0\nx = 1, y = 3\n" + b"$".join([b"o4611686018427387902bo"] * 3) + b"!\n"
# Two cells that become ever more.
SEEDS = b"x = 2, y = 1, rule = B2/S\n2o!\n"
SOUP, GROWING_SOUP, WIDE_SOUP = soup_of(1, 64, "B3/S23"), soup_of(2, 64, "B34/S34"), soup_of(3, 700, "B3/S23")
PHASES = [
    in_phases("a gun", GUN, LIFE),
    in_phases("a methuselah", b"x = 7, y = 3\nbo$3bo$2o2b3o!\n", LIFE),
    in_phases("a soup of 64 x 64 cells", SOUP, LIFE),
    in_phases("a soup that grows", GROWING_SOUP, canonical(b"B34/S34")),
    in_phases("two cells of Seeds", SEEDS, canonical(b"B2/S")),
    in_phases("a soup of 700 x 700 cells", WIDE_SOUP, LIFE, seconds=60, start=15, little=250 * MEGABYTE),
    in_phases("a soup of 700 x 700 cells, up to 8", WIDE_SOUP, LIFE, "canon input --form phases --within 8"),
    in_phases("2^11 single cells anywhere, up to 2^63, which die", rle_of(loners), LIFE, "canon input --form phases --within 9223372036854775808", start=5,
              little=100 * MEGABYTE),
    in_phases("a soup beside itself", SOUP, b"same\n", "same input input --form phases"),
    in_phases("a line of 2^20 cells", [HEADER, b"1048576o!\n"], LIFE),
    Case("phases of a pattern that leaves the plane", "canon input --form phases", 2, "OutOfPlane", files={"input": WIDE_COLUMNS}),
    Case("phases of a blinker, up to 2^64 - 1", "canon input --form phases --within 18446744073709551615", output=LIFE + b"$$$$....*$....*$....*$$\n",
         files={"input": b"x = 3, y = 1\n3o!\n"}),
    Case("phases of a soup that grows, in 200 MB", "canon input --form phases --within 1099511627776", 4, "Memory", files={"input": GROWING_SOUP}, seconds=60, start=20,
         by='ulimit -v 200000; exec "$@"', little=220 * MEGABYTE),
]


# ---- forms of many squares


def is_leaf_line(line):
    return not line[:1].isdigit()


def exchanged(lines):
    """Node lines, with columns and rows exchanged."""
    for line in lines:
        if is_leaf_line(line):
            rows = [row.ljust(8, b".") for row in line.rstrip(b"\n").split(b"$")[:8]]
            yield b"".join(bytes(column).rstrip(b".") + b"$" for column in zip(*rows)) + b"\n"
        else:
            level, nw, ne, sw, se = line.split()
            yield b" ".join((level, nw, sw, ne, se)) + b"\n"


def elsewhere(lines):
    """The node lines of a square of level L, and of one of level L + 2 in which it lies south-west of the middle."""
    text = b"".join(lines)
    last, level = text.count(b"\n"), int(text.splitlines()[-1].split()[0])
    yield text + b"%d 0 %d 0 0\n%d 0 0 %d 0\n" % (level + 1, last, level + 2, last + 1)


def chain_to(nodes, text, quarter, level):
    """A square of this level with a leaf in one of its corners."""
    square = nodes.join(3, text)
    for up in range(4, level + 1):
        square = nodes.join(up, *(square if it == quarter else 0 for it in range(4)))
    return square


def rows_along_a_seam(nodes, northern, southern, columns):
    """A square of 2^columns northern squares, repeated, at its southern side, and one of as many southern squares at its northern side."""
    level = nodes.squares[northern[0]][0]
    for up in range(level + 1, level + columns + 1):
        above, below = len(northern), len(southern)
        northern = [nodes.join(up, 0, 0, northern[2 * i % above], northern[(2 * i + 1) % above]) for i in range(above)]
        southern = [nodes.join(up, southern[2 * i % below], southern[(2 * i + 1) % below], 0, 0) for i in range(below)]
    return northern[0], southern[0]


def seam(above, below, columns, level):
    """The node lines of two rows of 2^columns squares, in which two sequences are repeated whose lengths have no common divisor. Few squares
    are different, but most squares across the seam between the rows are."""
    @once
    def text():
        order, nodes = random.Random(3), Nodes()

        def pairs(count, *quarters):
            chains = [[chain_to(nodes, leaf(1 << order.randrange(64)), it, level - 1) for it in quarters] for _ in range(count)]
            return [nodes.join(level, *([0, 0, *it] if 2 in quarters else [*it, 0, 0])) for it in chains]

        north, south = rows_along_a_seam(nodes, pairs(above, 2, 3), pairs(below, 0, 1), columns)
        yield from gathered(nodes.lines(nodes.join(level + columns + 1, 0, north, 0, south)))
    return text


def seam_in_a_margin(count, columns, level):
    """The same of rows that differ in each square, where each square of the moved form has a square of the northern row and one row of the southern
    one: the southern squares are alike in that row. So few squares of the form are different, though most of those across the seam are."""
    @once
    def text():
        order, nodes = random.Random(3), Nodes()
        north, south = rows_along_a_seam(
            nodes, [chain_to(nodes, leaf(order.getrandbits(64)), 2, level) for _ in range(count)],
            [chain_to(nodes, leaf(255 << 56 | order.getrandbits(56)), 0, level) for _ in range(count - 1)], columns)
        first = chain_to(nodes, leaf(1 << 54), 0, level + columns)
        yield from gathered(nodes.lines(nodes.join(level + columns + 1, first, north, 0, south)))
    return text


def seam_of_corners(above, below, columns, level, northern, southern):
    """The same of squares that have a leaf in their north-western corner alone. The moved form begins in the middle of a leaf, so its squares see
    of each northern square all but the first four rows, and of each southern one these alone. `northern` and `southern` say what the leaves are."""
    @once
    def text():
        order, nodes = random.Random(3), Nodes()
        north, south = rows_along_a_seam(
            nodes, [chain_to(nodes, leaf(northern(order)), 0, level) for _ in range(above)],
            [chain_to(nodes, leaf(southern(order)), 0, level) for _ in range(below)], columns)
        first = chain_to(nodes, leaf(1 << 27), 0, level + columns)
        yield from gathered(nodes.lines(nodes.join(level + columns + 1, first, north, 0, south)))
    return text


SEAM, MARGIN_SEAM = seam(128, 129, 14, 12), seam_in_a_margin(64, 12, 40)
# A million pairs of squares, of which more would be in the form than it may have.
LONG_SEAM = seam(1024, 1025, 20, 16)
# Each square across the seam comes again many times, but only after 65,000 others, on each of 20 levels.
SEAM_AGAIN = seam_of_corners(363, 362, 30, 3, lambda order: order.getrandbits(32), lambda order: order.getrandbits(32) << 32)
# A million pairs of squares, all of which differ where nothing of them is seen: the form has few squares.
SEAM_UNSEEN = seam_of_corners(1024, 1023, 20, 12, lambda order: order.getrandbits(24) << 40 | 1 << 7, lambda order: 1 << 63 | order.getrandbits(24))


def random_rows(side):
    """So many rows of as many cells, a third of them live."""
    order, table = random.Random(7), bytes(b"o"[0] if byte < 85 else b"b"[0] for byte in range(256))
    for _ in range(side):
        yield order.randbytes(side).translate(table) + b"$\n"
    yield b"!\n"


@functools.cache
def specks(count):
    """Single cells anywhere in a square of 2^20 columns."""
    order = random.Random(6)
    return [(x, y) for y, x in sorted({(order.randrange(1 << 20), order.randrange(1 << 20)) for _ in range(count)})]


def rle_moved(cells, west, north):
    """The text in RLE of cells that lie so far further east and south."""
    return rle_of(lambda: [(x + west, y + north) for x, y in cells()])


def in_both_forms(name, text, **more):
    """A pattern beside itself at another place, and turned."""
    return [Case(f"{name}, {form}", f"same input other --form {form}", output=b"same\n", files={"input": text, "other": [LIFE, other]}, start=1.5, **more)
            for form, other in (("moved", lambda: elsewhere(text[1]())), ("turned", lambda: exchanged(b"".join(text[1]()).splitlines(keepends=True))))]


hundred_thousand = functools.partial(specks, 100_000)
DUST = rle_moved(hundred_thousand, -777, 12345)
FORMS = [
    *(few_lines(f"2^20 single cells in 60 lines, {form}", SPECKS, LIFE + of_the_plane(SPECKS), f"canon input --form {form}", start=1.5)
      for form in ("moved", "turned")),
    # What is written of fewer such cells is compared above.
    *(accepted(f"10^5 single cells in a square of 2^20, {form}", DUST, re.compile(rb"\A%s[.*$]+\n" % re.escape(LIFE)), f"canon input --form {form}",
               times=400, **more) for form, more in (("moved", {"start": 1.5}), ("turned", {"start": 1.5, "each": 8, "seconds": 20}))),
    Case("10^5 single cells in a square of 2^20 compared with themselves, moved", "same input other --form moved", output=b"same\n",
         files={"input": DUST, "other": rle_of(hundred_thousand)}, start=1.5, each=1.5, times=400),
    *in_both_forms("786,432 cells in chains at random", [LIFE, mixed_blocks], little=60 * MEGABYTE),
    *in_both_forms("a seam of two sequences", [LIFE, SEAM], little=400 * MEGABYTE, each=10),
    *in_both_forms("a seam in a margin", [LIFE, MARGIN_SEAM], little=60 * MEGABYTE, each=15),
    # What each square costs: the bound is the same, however many pairs of squares a file of this kind has.
    *(accepted(f"{name}, {form}", [LIFE, text], re.compile(rb"\A%s" % re.escape(LIFE)), f"canon input --form {form}", little=400 * MEGABYTE, seconds=40,
               start=16, each=0)
      for name, text in (("a seam whose squares come again", SEAM_AGAIN), ("a seam of squares that differ where they aren't seen", SEAM_UNSEEN))
      for form in ("moved", "turned")),
    *(refused(f"a seam of a million pairs of squares, {form}", [LIFE, LONG_SEAM], "Full", f"canon input --form {form}", status=4, little=400 * MEGABYTE,
              seconds=60, start=24, each=0) for form in ("moved", "turned")),
    # Its form would have 2.2 million squares, and the limit is 2^21.
    *(refused(f"10^8 cells at random, {form}", [HEADER, functools.partial(random_rows, 10_240)], "Full", f"canon input --form {form}", status=4,
              little=400 * MEGABYTE, times=0, seconds=20, start=8, each=0) for form in ("moved", "turned")),
]


# ---- files that change while they are read, and slow sources

MOVING = [(b"[M2]\n" + GLIDER, 1), (b"# a comment\n", 2_000_000)]
GROWS = '{ for i in 1 2 3 4 5 6 7 8 9; do echo "# $i" >> input; sleep 0.01; done; } & "$@"; status=$?; wait; exit $status'
SHRINKS = '{ sleep 0.02; truncate -s 1000 input; } & "$@"; status=$?; wait; exit $status'
GOES = '{ sleep 0.02; rm input; } & "$@"; status=$?; wait; exit $status'
BY_PIPES = 'mkfifo one two; { cat pair.rle > one; cat pair.mc > two; } & "$@"; status=$?; kill $! 2> /dev/null; rm one two; exit $status'
BY_A_PIPE = 'mkfifo pipe; { cat pair.mc; sleep 0.1; echo "#"; } > pipe & "$@"; status=$?; kill $! 2> /dev/null; rm pipe; exit $status'


def slowly(text):
    """Writes a text byte by byte."""
    def writes(pipe):
        for byte in text:
            os.write(pipe.fileno(), bytes([byte]))
            time.sleep(0.0005)
    return Piped(b"", writes)


def moving(name, by, words, output, times=0):
    return accepted(name, MOVING, output, words, by=by, changes=True, times=times)


def by_a_pipe(words, output):
    return Case(f"a pipe with a name: {words}", words, output=output, by=BY_A_PIPE, files={it: FILES[it] for it in ("pair.mc", "pair.rle")})


CHANGES = [
    moving("a file that grows while it is read", GROWS, "canon input", LIFE + GLIDER),
    moving("a file that shrinks while it is read", SHRINKS, "canon input", LIFE + GLIDER),
    moving("a file that is removed while it is read", GOES, "canon input", LIFE + GLIDER),
    moving("a file that grows while it is compared", GROWS, "same input input", b"same\n", 4),
    moving("a file that shrinks while it is converted", SHRINKS, "convert input --to mc", LIFE + GLIDER),
    by_a_pipe("canon pipe", PAIR_TEXT),
    by_a_pipe("show pipe", PAIR_SHOWN),
    by_a_pipe("same pair.rle pipe", b"same\n"),
    by_a_pipe("convert pipe --to rle", PAIR_RLE),
    by_a_pipe("step pipe", canonical(b"B3/S23", 1)),
    # Nobody writes to the second pipe until the first was read, so the program hangs where it opens the second one first.
    Case("the first file is opened first", "same one two", output=b"same\n", by=BY_PIPES, files={it: FILES[it] for it in ("pair.mc", "pair.rle")}),
    told("standard input byte by byte", "canon -", PAIR_TEXT, source=slowly(FILES["pair.mc"])),
    told("a table byte by byte", "step spread.rle --table -", SPREAD_STEPPED, source=slowly(TABLE)),
    told("a source without bytes", "canon -", error="line 1: NoHeader", status=2, source=Piped()),
]


# ---- words


def misused(name, *words):
    """Words that ask for nothing: status 5, a text on standard error, nothing on standard output."""
    return Case(name, list(words), 5, ANY, files={"input": FILES["input"]})


def explained(name, message, call, *words):
    """The same, and the text says what is wrong and how the program is called."""
    text = b"error: %s\n\nUsage: %s\n" % (message, call)
    return dataclasses.replace(misused(name, *words), error=re.compile(b"^" + re.escape(text), re.MULTILINE))


def asked(name, text, *words):
    return Case(name, words or name, output=re.compile(text, re.MULTILINE))


NO_TEXT = os.fsdecode(b"a\xffb")  # no UTF-8

MISUSED = [
    misused("no words"),
    misused("no file", "canon"),
    misused("two files", "canon", "input", "input"),
    misused("a command that isn't there", "cannon", "input"),
    misused("an option that isn't there", "canon", "--fast", "input"),
    misused("one file to compare", "same", "input"),
    misused("three files to compare", "same", "input", "input", "input"),
    misused("nothing to show", "show"),
    misused("no format", "convert", "input"),
    misused("a format that isn't there", "convert", "input", "--to", "png"),
    misused("a format in capitals", "convert", "input", "--to", "RLE"),
    misused("the empty format", "convert", "input", "--to", ""),
    misused("an option without its value", "convert", "input", "--to"),
    misused("an option twice", "convert", "input", "--to", "mc", "--to", "mc"),
    misused("an option of another command", "canon", "input", "--to", "mc"),
    misused("a form that isn't there", "canon", "input", "--form", "still"),
    misused("a form in capitals", "same", "input", "input", "--form", "MOVED"),
    misused("a form without its name", "canon", "input", "--form"),
    misused("a form for another command", "show", "input", "--form", "moved"),
    misused("a greatest period without its number", "canon", "input", "--form", "phases", "--within"),
    misused("a greatest period that is no number", "canon", "input", "--form", "phases", "--within", "ten"),
    misused("a greatest period that is empty", "keys", "input", "--form", "phases", "--within", ""),
    misused("a greatest period with a sign", "same", "input", "input", "--form", "phases", "--within", "+1"),
    misused("a greatest period below 0", "canon", "input", "--form", "phases", "--within=-1"),
    misused("a greatest period of 0", "duplicates", "input", "--form", "phases", "--within", "0"),
    misused("a greatest period of 2^64", "canon", "input", "--form", "phases", "--within", "18446744073709551616"),
    misused("a greatest period twice", "canon", "input", "--form", "phases", "--within", "1", "--within", "1"),
    misused("a greatest period without a form", "canon", "input", "--within", "1"),
    misused("a greatest period for another form", "keys", "input", "--form", "turned", "--within", "1"),
    misused("a greatest period for another command", "show", "input", "--within", "1"),
    misused("nothing to step", "step"),
    misused("a table without a file", "step", "--table", "input"),
    misused("a table without its name", "step", "input", "--table"),
    misused("a table twice", "step", "input", "--table", "input", "--table", "input"),
    misused("a table for another command", "show", "input", "--table", "input"),
    misused("generations without their number", "step", "input", "--generations"),
    misused("generations without a file", "step", "--generations", "1"),
    misused("no number of generations", "step", "input", "--generations", "ten"),
    misused("the empty number of generations", "step", "input", "--generations", ""),
    misused("a number of generations with a sign", "step", "input", "--generations", "+1"),
    misused("a number of generations below 0", "step", "input", "--generations=-1"),
    misused("a number of generations with a blank", "step", "input", "--generations", " 1"),
    misused("2^64 generations", "step", "input", "--generations", "18446744073709551616"),
    misused("generations twice", "step", "input", "--generations", "1", "--generations", "1"),
    misused("generations for another command", "show", "input", "--generations", "1"),
    misused("a period without its number", "show", "input", "--period"),
    misused("a period without a file", "show", "--period", "1"),
    misused("no number for a period", "show", "input", "--period", "ten"),
    misused("the empty number for a period", "show", "input", "--period", ""),
    misused("a period with a sign", "show", "input", "--period", "+1"),
    misused("a period below 0", "show", "input", "--period=-1"),
    misused("a period of 0", "show", "input", "--period", "0"),
    misused("a period of 2^64", "show", "input", "--period", "18446744073709551616"),
    misused("a period twice", "show", "input", "--period", "1", "--period", "1"),
    misused("a period for another command", "step", "input", "--period", "1"),
    misused("a second file that is no UTF-8 text", "same", "input", NO_TEXT),
    misused("a format that is no UTF-8 text", "convert", "input", "--to", os.fsdecode(b"\xff")),
    misused("standard input for both files", "same", "-", "-"),
    misused("the empty word", ""),
    misused("a word that is no UTF-8 text", "canon", NO_TEXT),
    misused("a word of 100000 bytes", "n" * 100_000),
    explained("the text for a form that isn't there", b"the value of --form is placed, moved, turned or phases", b"golly_canon canon [OPTIONS] <FILE>",
              "canon", "input", "--form", "still"),
    explained("the text for a comparison in a form that isn't there", b"the value of --form is placed, moved, turned or phases",
              b"golly_canon same [OPTIONS] <A> <B>", "same", "input", "input", "--form", "still"),
    explained("the text for keys in a form that isn't there", b"the value of --form is placed, moved, turned or phases",
              b"golly_canon keys [OPTIONS] [FILE]...", "keys", "input", "--form", "still"),
    *(explained(f"the text for a greatest period of {most}", b"the value of --within is a number from 1 to 2^64 - 1", b"golly_canon canon [OPTIONS] <FILE>",
                "canon", "input", "--form", "phases", "--within", most) for most in ("0", "1e6")),
    explained("the text for a greatest period for another form", b"--within is for --form phases alone", b"golly_canon same [OPTIONS] <A> <B>",
              "same", "input", "input", "--within", "9"),
    explained("the text for a format that isn't there", b"the value of --to is rle or mc", b"golly_canon convert --to <FORMAT> <FILE>",
              "convert", "input", "--to", "png"),
    explained("the text for no number of generations", b"the value of --generations is a number from 0 to 2^64 - 1", b"golly_canon step [OPTIONS] <FILE>",
              "step", "input", "--generations", "1e6"),
    explained("the text for a period of 0", b"the value of --period is a number from 1 to 2^64 - 1", b"golly_canon show [OPTIONS] <FILE>",
              "show", "input", "--period", "0"),
    explained("the text for keys of no file", b"a FILE, --from LIST or --stream STREAM has to be given", b"golly_canon keys [OPTIONS] [FILE]...", "keys"),
    explained("the text for a stream beside a file", b"--stream can't be used with a FILE, with --from or with -r",
              b"golly_canon keys [OPTIONS] [FILE]...", "keys", "--stream", "-", "FILE"),
    explained("the text for duplicates of no file", b"a FILE or --from LIST has to be given", b"golly_canon duplicates [OPTIONS] [FILE]...", "duplicates"),
    Case("the line for a word that is no UTF-8 text", ["canon", NO_TEXT], 5, "error: an argument isn't UTF-8 text: a\ufffdb"),
]

# Standard input, and the file beside the one that is named, hold another pattern.
DASHES = [
    Case("a file whose name begins with a dash", ["canon", "--", "-odd.mc"], output=PAIR_TEXT, files={"-odd.mc": FILES["pair.mc"]}, source=FILES["input"]),
    Case("standard input behind --", ["canon", "--", "-"], output=PAIR_TEXT, files={"-": FILES["input"]}, source=FILES["pair.mc"]),
]

ASKED = [
    asked("--help", rb"Usage: golly_canon <COMMAND>"),
    asked("-h", rb"Usage: golly_canon <COMMAND>"),
    asked("help canon", rb"Usage: golly_canon canon \[OPTIONS\] <FILE>"),
    asked("canon --help", rb"Usage: golly_canon canon \[OPTIONS\] <FILE>"),
    asked("--version", rb"golly_canon "),
    asked("same --help", rb"Usage: golly_canon same \[OPTIONS\] <A> <B>"),
    asked("show --help", rb"Usage: golly_canon show \[OPTIONS\] <FILE>"),
    asked("convert --help", rb"Usage: golly_canon convert \[OPTIONS\] --to <FORMAT> <FILE>"),
    asked("step --help", rb"Usage: golly_canon step \[OPTIONS\] <FILE>"),
    asked("an example of step", rb"  golly_canon step glider\.rle", "step", "--help"),
    asked("an example of many generations", rb"  golly_canon step glider\.rle --generations 1000000", "step", "--help"),
    asked("the statuses of same", rb"  1  they are different patterns", "same", "--help"),
    asked("an example of show", rb"  golly_canon show glider\.rle", "show", "--help"),
    asked("an example of a period", rb"  golly_canon show glider\.rle --period 1000", "show", "--help"),
    asked("what is said of a period", rb"period N oscillator ", "show", "--help"),
    asked("help convert", rb"^mc   macrocell"),
    *(asked(f"a short help that names {command}", rb"^  %s " % command.encode(), "-h")
      for command in ("canon", "convert", "same", "show", "step", "keys")),
    asked("keys --help", rb"Usage: golly_canon keys \[OPTIONS\] \[FILE\]\.\.\."),
    asked("an example of canon", rb"^  golly_canon canon glider\.rle --form turned \| sha256sum$", "canon", "--help"),
    asked("an example of keys", rb"^  golly_canon keys \*\.rle \*\.mc$", "keys", "--help"),
]


# ---- lists of names for `keys` (tests/program/keys.py has the rest)

NAMES = 1_000_000
LISTS = [
    Case("a million empty names", "keys --from -", source=[(b"\n", NAMES)]),
    # Of each name the system is asked, and it is told.
    Case("a million names of a file that is absent", "keys --from -", 3, (NAMES * "x: no such file\n").removesuffix("\n"), source=[(b"x\n", NAMES)],
         each=10, seconds=60),
    Case("a name of a million bytes", "keys --zero --from -", 3, "n" * NAMES + ": can't be opened", source=b"n" * NAMES),
]


# ---- keys chosen against a hasher without secret words, which `indexmap` uses where it is given none (tests/program/crowds.py tries larger ones, and others)

WORD = (1 << 64) - 1
MULTIPLIER = 0x9E37_79B9_7F4A_7C15
SEED = 0x243F_6A88_85A3_08D3  # it is fixed, so that whoever knows it can choose keys for such a hasher


def folded(state, number, size):
    """The hasher's state behind a number of so many bytes."""
    product = (state ^ number) * (MULTIPLIER ^ 2 * size)
    return (product & WORD) ^ product >> 64


def hashed_id(state, number):
    return folded(state, number | number << 32, 4)


def hashed_byte(state, byte):
    return folded(state, byte * 0x10101, 1)


def kept(state):
    """What a table keeps of a hash."""
    return (state ^ state >> 32) & 0xFFFF_FFFF


def crowded_squares(count, bits):
    """Different squares of four states whose hash lacks these bits. The bits are the highest four of those that tell a key's place in the table, so
    that all have their places in a sixteenth of it. A key that finds no room there goes on to the next place, and a new one passes all of them."""
    for triple in itertools.product(range(2, 256), repeat=3):
        state = functools.reduce(hashed_id, triple, SEED)
        for last in range(2, 256):
            if kept(hashed_id(state, last)) & bits == 0:
                yield (*triple, last)
                count -= 1
                if count == 0:
                    return


def crowded_names(count, bits):
    """The same of names of nine bytes."""
    start = folded(SEED, 9, 8)
    letters = b"abcdefghijklmnopqrstuvwxyz"
    for front in itertools.product(letters, repeat=8):
        state = functools.reduce(hashed_byte, front, start)
        for last in letters:
            if kept(hashed_byte(state, last)) & bits == 0:
                yield bytes((*front, last))
                count -= 1
                if count == 0:
                    return


# That they would crowd is seen from the lines of the file, by what the hasher is given of each, written a second time.


def written(*words):
    """The hash of numbers that are written one after another, each with its size in bytes."""
    state = SEED
    for number, size in words:
        bytes_of = number.to_bytes(size, "little")
        first, middle, last = bytes_of[0], bytes_of[size // 2], bytes_of[-1]
        short = first | middle << 8 | last << 16
        long = int.from_bytes(bytes_of[:4], "little") | int.from_bytes(bytes_of[-4:], "little") << 32
        state = folded(state, long if size >= 4 else short, size)
    return kept(state)


def hash_of_square(line):
    """That of a node, which is four numbers of 32 bits, by its line."""
    return written(*((int(quarter), 4) for quarter in line.split()[1:]))


def hash_of_name(line):
    """That of a name, which is a number of bytes and the bytes, by the line of its variable."""
    name = line.split(b"=")[0].split()[1]
    return written((len(name), 8), *((byte, 1) for byte in name))


GROUP, LOAD = 12, 9  # how many keys a group of a table holds, and how many it has on average at most


def passed(hashes):
    """How many groups of a table a key passes on average before the one where it has room, in the order in which they come."""
    count = 1
    while LOAD * count < len(hashes):
        count *= 2
    held, onward, steps = [0] * count, list(range(count)), 0
    for found in hashes:
        at = start = found % count
        while onward[at] != at:
            onward[at] = at = onward[onward[at]]
        steps += (at - start) % count
        held[at] += 1
        if held[at] == GROUP:
            onward[at] = (at + 1) % count
    return steps / len(hashes)


def crowds(lines, hash_of):
    """The control of a case whose keys are to crowd: those of as many random hashes pass less than one group."""
    def problems():
        steps = passed([hash_of(line) for line in b"".join(lines()).splitlines()])
        return [] if steps > 500 else [f"its keys pass {steps:.1f} groups each, and so don't crowd"]
    return problems


# ---- rule tables

BLANK = b"x = 1, y = 1, rule = Foo\n!\n"
ALL_STATES = b",".join(b"%d" % state for state in range(256))


def table(symmetry, *parts):
    return [b"@RULE Foo\n@TABLE\nn_states:256\nneighborhood:Moore\nsymmetries:%s\n" % symmetry, *parts]


def variables(names):
    """Variables of these names."""
    return lambda: gathered(b"var %s={0}\n" % name for name in names())


def by_table(name, rule, pattern, output, **more):
    return Case(name, "step input --table rule", output=output, files={"input": pattern, "rule": rule}, **more)


def sevens(count, apart=4, has_pair=False):
    """Cells of state 7, so many columns apart, each with eight other states around it, or with seven of which one stands twice."""
    order = random.Random(3)
    for i in range(count):
        around = order.sample(range(8, 256), 8)
        if has_pair:
            around[7] = around[0]
        for j, state in enumerate([*around[:4], 7, *around[4:]]):
            yield apart * i + j % 3, j // 3, state


FREE = [b"var %c={%s}\n" % (name, ALL_STATES) for name in b"abcdefi"]
# Of eight variables two can be the same neighbour alone, so that no order fits; and that is found last.
SEARCHED = [*FREE, b"var g={7}\nvar h={7}\n", (b"i,a,b,c,d,e,f,g,h,1\n", 500)]
# A variable that stands twice has to be the state of two neighbours, and no two have one but 0, which it can't be.
PAIRED = [*FREE[1:], b"var a={%s}\nvar g={%s}\n" % (ALL_STATES[2:], ALL_STATES), (b"i,b,c,d,e,f,g,a,a,1\n", 500)]
# Two of them have to be the states of two neighbours each, and there is one such state but 0.
TWICE = [*FREE[2:], b"var a={%s}\nvar b={%s}\n" % (ALL_STATES[2:], ALL_STATES[2:]), (b"i,c,d,e,f,a,a,b,b,1\n", 500)]
# Two neighbours side by side would have to be one state other than 0, and none are.
TURNED = [*FREE, b"var g={%s}\nvar h={%s}\n" % (ALL_STATES, ALL_STATES[2:]), (b"i,h,a,b,c,d,e,f,h,1\n", 2000)]
fifty = functools.partial(sevens, 50)
FIFTY, FIFTY_STEPPED = states_in_nodes(fifty), states_in_nodes(fifty, 1)
# No cell has two neighbours of one state but 0.
fifty_apart = functools.partial(sevens, 50, 5)
APART, APART_STEPPED = states_in_nodes(fifty_apart), states_in_nodes(fifty_apart, 1)
fifty_pairs = functools.partial(sevens, 50, 5, has_pair=True)
PAIRS, PAIRS_STEPPED = states_in_nodes(fifty_pairs), states_in_nodes(fifty_pairs, 1)
UNION = [b"var a={%s}\n" % ALL_STATES, (b"var b={" + b"a," * 500_000 + b"a}\n", 1)]


@once
def crowd_of_squares():
    return gathered(b"1 %d %d %d %d\n" % it for it in crowded_squares(73_000, 0x1E00))


@once
def crowd_of_names():
    return gathered(b"var %s={0}\n" % name for name in crowded_names(36_000, 0x0F00))


def last_of_the_crowd():
    yield b"".join(crowd_of_squares()).splitlines(keepends=True)[-1]


def plain_names():
    return (b"a%d" % number for number in range(1_000_000))


CHOSEN_KEYS = [
    accepted("73,000 squares that crowd in the set", [b"[M2]\n#R Foo\n", crowd_of_squares], [canonical(b"Foo"), last_of_the_crowd],
             control=crowds(crowd_of_squares, hash_of_square)),
    by_table("36,000 names that crowd in the map", table(b"none", crowd_of_names), BLANK, canonical(b"Foo", 1), times=20,
             control=crowds(crowd_of_names, hash_of_name)),
]

TABLES = [
    by_table("a million variables", table(b"none", variables(plain_names)), BLANK, canonical(b"Foo", 1), times=20),
    by_table("a list of half a million variables", table(b"none", *UNION), BLANK, canonical(b"Foo", 1)),
    by_table("2000 lines that give nothing, 450 cells", table(b"rotate8reflect", *TURNED), FIFTY, FIFTY_STEPPED),
    by_table("500 lines to search, 450 cells", table(b"permute", *SEARCHED), FIFTY, FIFTY_STEPPED),
    by_table("500 lines of a variable that stands twice, 450 cells", table(b"permute", *PAIRED), APART, APART_STEPPED),
    by_table("500 lines of two variables that stand twice, 450 cells", table(b"permute", *TWICE), PAIRS, PAIRS_STEPPED),
]


# ---- the run

CASES = [
    *FIRST_CASES, *LONG_LINES, *MANY_LINES, *RLE, *DEEP_SQUARES, *DEVICES, *JOBS, *STEPS, *SINKS, *SOURCES, *LONG_TEXTS, *CHANGES, *MISUSED, *DASHES, *ASKED,
    *LISTS, *LARGE_RLE, *FEW_LINES, *PHASES, *FORMS, *CHOSEN_KEYS, *TABLES, *LONGEST_INPUTS,
]


def copied(program, folder):
    """A copy of the program that nobody can run too."""
    copy = os.path.join(folder, "golly_canon")
    shutil.copyfile(program, copy)
    os.chmod(copy, 0o755)
    os.chmod(folder, 0o711)
    return copy


def main():
    if len(sys.argv) < 2:
        sys.exit("usage: tests/program/hostile.py PROGRAM")
    program = processes.program_of(sys.argv[1])
    if not os.access(CLOCK, os.X_OK):
        sys.exit(f"there is no program {CLOCK}: apt-get install time")
    if len({case.name for case in CASES}) < len(CASES):
        sys.exit("two cases have one name")
    with tempfile.TemporaryDirectory() as folder:
        for case, run, problems in results(CASES, copied(program, folder), folder):
            counting.row(case.name, problems, measured(run))
    return counting.ended()


if __name__ == "__main__":
    sys.exit(main())
