#!/usr/bin/env python3
"""What the built program, PROGRAM, writes of small files: each job with its files, its status, its standard output and its standard error. The texts were
worked out by hand from docs/FORMATS.md. The last line is 'N passed, M failed'.

usage: tests/program/tasks.py PROGRAM
"""

import os
import sys
import tempfile

sys.dont_write_bytecode = True  # nothing is left in tests/
sys.path.insert(0, os.path.dirname(os.path.dirname(os.path.abspath(__file__))))

from shared import counting, processes  # noqa: E402
from shared.fixtures import FILES, HEADER, LIFE, LINE_STEPPED, LONGEST, MANY_TEXT, PAIR_RLE, PAIR_SHOWN, PAIR_TEXT, SPREAD_STEPPED, canonical  # noqa: E402
from shared.processes import Answer  # noqa: E402

SAME, DIFFERENT = Answer(0, b"same\n"), Answer(1, b"different\n")

# A glider about the middle of a leaf, and one to the south and east of the origin.
GLIDER = b"[M2]\n#R B3/S23\n#C a glider\n$$..*$...*$.***$$$$\n"
EAST_GLIDER = b"x = 3, y = 3, rule = B3/S23\nbo$2bo$3o!\n"
# One whose bounding box begins at (0, 0), and the image of one whose moved text is least.
MOVED_GLIDER = LIFE + b"$$$$.....*$......*$....***$$\n"
TURNED_GLIDER = LIFE + b"$$$$....*$....*.*$....**$$\n"
# One in both corners of the plane, and its eight images.
NORTH_WEST = b"#CXRLE Pos=-2305843009213693952,-2305843009213693952\n" + EAST_GLIDER
SOUTH_EAST = b"#CXRLE Pos=2305843009213693949,2305843009213693949\n" + EAST_GLIDER
IMAGES = [
    b"x = 3, y = 3\n" + it
    for it in (b"bo$2bo$3o!\n", b"bo$o$3o!\n", b"3o$2bo$bo!\n", b"3o$o$bo!\n", b"2bo$obo$b2o!\n", b"o$obo$2o!\n", b"b2o$obo$2bo!\n", b"2o$obo$o!\n")
]
# Two cells in both formats, a row of three cells, and a pattern without a cell.
TWINS, TWINS_IN_RLE, LINE = FILES["pair.mc"], FILES["pair.rle"], FILES["line.rle"]
BLANK, BLANK_RLE = b"x = 0, y = 0, rule = 23/3\n!\n", b"#CXRLE Pos=0,0\nx = 0, y = 0, rule = B3/S23\n!\n"
# Patterns of a rule that is known by its name: two cells, no cell, and the states 255, 25 and 1 in two rows.
WIRES = b"#CXRLE Pos=-1,-1 Gen=7\nx = 2, y = 1, rule = WireWorld\nApA!\n"
WIRES_TEXT = canonical(b"WireWorld", 7) + b"1 1 25 0 0\n"
BLANK_WIRES = b"#CXRLE Gen=9\nx = 0, y = 0, rule = WireWorld\n!\n"
STATES = b"#CXRLE Pos=-3,-300 Gen=7\nx = 2, y = 1, rule = WireWorld\nyO.A$pA2.B!\n"
MOVED_STATES = canonical(b"WireWorld", 7) + b"1 255 0 25 0\n1 1 0 0 2\n2 1 2 0 0\n3 0 0 0 3\n"
TURNED_STATES = canonical(b"WireWorld", 7) + b"1 0 1 2 0\n1 0 255 0 25\n2 1 2 0 0\n3 0 0 0 3\n"
WHOLE_ROW = b"#CXRLE Pos=-2305843009213693952,0\nx = 1, y = 1\n4611686018427387904o!\n"
# One cell more than is counted, and as many. Turned, the row of the first is a column, since $ is less than *.
MANY, MOST = HEADER + b"1048577o!\n", HEADER + b"1048576o!\n"
TURNED_MANY = LIFE + b"*$" * 8 + b"\n" + b"".join(b"%d %d 0 %d 0\n" % (level, level - 3, level - 3) for level in range(4, 21))
TURNED_MANY += b"*$$$$$$$$\n" + b"".join(b"%d %d 0 0 0\n" % (level, level + 15) for level in range(4, 21)) + b"21 18 0 36 0\n22 0 0 0 37\n"
BAD, NONE = HEADER + b"B!\n", b"o!\n"
SPREAD, EITHER = FILES["spread.rule"], FILES["two.rule"]


def refused(line):
    """What a run answers that refuses a file with this line."""
    return Answer(2, b"", line + b"\n")


def of_one(words, texts):
    """Runs of one file, each of which writes its text."""
    return [(words, [file], Answer(0, text)) for file, text in texts]


def refusing(words, lines):
    """Runs that are refused, each with its line."""
    return [(words, files if isinstance(files, list) else [files], refused(line)) for files, line in lines]


CANON = [
    *of_one(["canon"], [
        (GLIDER, LIFE + b"$$..*$...*$.***$$$$\n"),
        (TWINS, PAIR_TEXT),
        (TWINS_IN_RLE, PAIR_TEXT),
        (WIRES, WIRES_TEXT),
        (b"[M2]\n#G 7", canonical(b"B3/S23", 7)),
        (b"[M2]\r\n#G 0\r\n", LIFE),
    ]),
    *refusing(["canon"], [
        (NONE, b"line 1: NoHeader"),
        (BAD, b"line 2: StateRange"),
        (b"", b"line 1: NoHeader"),
        (b"[M2]\n#R B3/S23\n....*$$$$$$$$\n4 0 0 0 9\n", b"line 4: BadChild"),
        (b"[M2]\n#FRAMES 10 0 1\n#R B3/S23\n", b"line 2: Timeline"),
    ]),
]

SAME_FILES = [
    (["same"], [LINE, b"x = 3, y = 1, rule = B3/S23\no2o!\n"], SAME),
    (["same"], [LINE, b"x = 3, y = 1, rule = Life\no2o!\n"], DIFFERENT),
    (["same"], [HEADER + b"o!\n", HEADER + b"o999999bo!\n"], DIFFERENT),
    (["same"], [HEADER + b"o!\n", b"#CXRLE Gen=1\n" + HEADER + b"o!\n"], DIFFERENT),
    (["same"], [TWINS, TWINS_IN_RLE], SAME),
    (["same"], [TWINS_IN_RLE, PAIR_TEXT], SAME),
    (["same"], [BLANK, b"[M2]"], SAME),
    *refusing(["same"], [
        ([BAD, b""], b"line 2: StateRange"),
        ([b"", BAD], b"line 1: NoHeader"),
        ([TWINS, BAD], b"line 2: StateRange"),
        ([HEADER + b"0o!\n", TWINS], b"line 2: ZeroCount"),
    ]),
]

CONVERTED = [
    *of_one(["convert", "--to", "rle"], [
        (TWINS, PAIR_RLE),
        (WIRES_TEXT, WIRES),
        (BLANK, BLANK_RLE),
        (b"x = 1, y = 1, rule = Foo\npA2$.C!", b"#CXRLE Pos=0,0\nx = 2, y = 3, rule = Foo\npA2$.C!\n"),
        (HEADER + b"ob" * 18 + b"\n" + b"ob" * 17 + b"o!", b"#CXRLE Pos=0,0\nx = 71, y = 1, rule = B3/S23\n" + b"ob" * 35 + b"\no!\n"),
        (HEADER + b"ob" * 18 + b"\n" + b"ob" * 18 + b"o!", b"#CXRLE Pos=0,0\nx = 73, y = 1, rule = B3/S23\n" + b"ob" * 35 + b"\nobo!\n"),
    ]),
    *of_one(["convert", "--to", "mc"], [(WIRES, WIRES_TEXT), (TWINS_IN_RLE, PAIR_TEXT)]),
    *refusing(["convert", "--to", "mc"], [(b"[M2]\n#FRAMES 10 0 1\n", b"line 2: Timeline")]),
    *refusing(["convert", "--to", "rle"], [(MANY, b"TooManyCells")]),
]

SHOWN = [
    *of_one(["show"], [
        (TWINS, PAIR_SHOWN),
        (EAST_GLIDER, b"rule B3/S23\ngeneration 0\npopulation 5\nbox 0 0 3 3\nnodes 1\n"),
        (BLANK, b"rule B3/S23\ngeneration 0\npopulation 0\nbox none\nnodes 0\n"),
        (WHOLE_ROW, b"rule B3/S23\ngeneration 0\npopulation 4611686018427387904\nbox -2305843009213693952 0 4611686018427387904 1\nnodes 60\n"),
        (WIRES, b"rule WireWorld\ngeneration 7\npopulation 2\nbox -1 -1 2 1\nnodes 1\n"),
    ]),
    *refusing(["show"], [(NONE, b"line 1: NoHeader")]),
    *of_one(["show", "--period", "4"], [
        (TWINS, PAIR_SHOWN + b"period none up to 4\n"),
        (EAST_GLIDER, b"rule B3/S23\ngeneration 0\npopulation 5\nbox 0 0 3 3\nnodes 1\nperiod 4 spaceship 1 1\n"),
        (BLANK, b"rule B3/S23\ngeneration 0\npopulation 0\nbox none\nnodes 0\nperiod 1 still life\n"),
        (FILES["last.rle"], b"rule B3/S23\ngeneration 18446744073709551615\npopulation 3\nbox 0 0 3 1\nnodes 1\nperiod 2 oscillator\n"),
    ]),
    *of_one(["show", "--period=1"], [
        (FILES["line.rle"], b"rule B3/S23\ngeneration 0\npopulation 3\nbox 0 0 3 1\nnodes 1\nperiod none up to 1\n"),
        (FILES["edge.rle"], b"rule B3/S23\ngeneration 0\npopulation 3\nbox 0 2305843009213693951 3 1\nnodes 60\nperiod none up to 1\n"),
    ]),
    *refusing(["show", "--period", "2"], [(NONE, b"line 1: NoHeader"), (WIRES, b"NeedsTable")]),
]


def in_form(form, glider, states, many):
    """The texts in a form, where those of a glider, of the states and of many cells are these. Files are read and judged before their forms are made."""
    words, both = ["canon", "--form", form], ["same", "--form", form]
    texts = [(NORTH_WEST, glider), (SOUTH_EAST, glider), (BLANK_WIRES, canonical(b"WireWorld", 9)), (STATES, states), (MANY, many)]
    return [
        *of_one(words, texts),
        (both, [MANY, TWINS], DIFFERENT),
        (both, [TWINS, MANY], DIFFERENT),
        (both, [MANY, MANY], SAME),
        *refusing(both, [([MANY, NONE], b"line 1: NoHeader"), ([HEADER + b"0o!\n", MANY], b"line 2: ZeroCount")]),
    ]


FLIPPED, LATER = b"x = 3, y = 3\nbo$o$3o!\n", b"#CXRLE Gen=1\nx = 3, y = 3\nbo$2bo$3o!\n"
# Two phases of a glider that aren't turns of each other, and of three cells in a row. Their one text is that of the phase above, and of a column, since $ is less
# than *. And three cells in a column at each side of the plane: lying, they are too wide for it.
NEXT, LINE_PHASES = b"#CXRLE Pos=-7,1000 Gen=77\nx = 3, y = 3\nobo$b2o$bo!\n", LIFE + b"$$$$....*$....*$....*$$\n"
WIDE = b"#CXRLE Pos=-2305843009213693952,0\nx = 1, y = 3\no4611686018427387902bo$o4611686018427387902bo$o4611686018427387902bo!\n"
PHASES, PHASES_OF = ["canon", "--form", "phases"], ["same", "--form", "phases"]
FORMS = [
    *of_one(["canon", "--form", "moved"], [(EAST_GLIDER, MOVED_GLIDER), (GLIDER, MOVED_GLIDER)]),
    *of_one(["canon", "--form", "turned"], [(image, TURNED_GLIDER) for image in IMAGES]),
    *[(["same", "--form", "turned"], [image, SOUTH_EAST], SAME) for image in IMAGES],
    *in_form("moved", MOVED_GLIDER, MOVED_STATES, MANY_TEXT),
    *in_form("turned", TURNED_GLIDER, TURNED_STATES, TURNED_MANY),
    (["same", "--form", "placed"], [NORTH_WEST, SOUTH_EAST], DIFFERENT),
    (["same", "--form", "moved"], [NORTH_WEST, SOUTH_EAST], SAME),
    (["same", "--form", "turned"], [NORTH_WEST, SOUTH_EAST], SAME),
    (["same", "--form", "moved"], [GLIDER, FLIPPED], DIFFERENT),
    (["same", "--form", "turned"], [GLIDER, FLIPPED], SAME),
    (["same", "--form", "moved"], [GLIDER, LATER], DIFFERENT),
    (["same", "--form", "turned"], [GLIDER, LATER], DIFFERENT),
    (["same", "--form", "turned"], [TWINS, GLIDER], DIFFERENT),
    (["same", "--form", "moved"], [MOST, MOST], SAME),
    *of_one(PHASES, [*((it, TURNED_GLIDER) for it in (*IMAGES, NEXT, LATER, GLIDER, SOUTH_EAST)), (LINE, LINE_PHASES), (FILES["last.rle"], LINE_PHASES),
                     (FILES["edge.rle"], LINE_PHASES), (BLANK, LIFE), (BLANK_WIRES, canonical(b"WireWorld")), (STATES, TURNED_STATES.replace(b"#G 7\n", b""))]),
    *of_one([*PHASES, "--within", "3"], [(EAST_GLIDER, TURNED_GLIDER), (LATER, TURNED_GLIDER)]),
    *of_one([*PHASES, "--within=18446744073709551615"], [(NEXT, TURNED_GLIDER), (FILES["last.rle"], LINE_PHASES)]),
    *refusing(PHASES, [(NONE, b"line 1: NoHeader"), (WIDE, b"OutOfPlane")]),
    *refusing(PHASES_OF, [([WIDE, LINE], b"OutOfPlane"), ([LINE, WIDE], b"OutOfPlane"), ([WIDE, BAD], b"line 2: StateRange")]),
    (PHASES_OF, [NEXT, SOUTH_EAST], SAME),
    ([*PHASES_OF, "--within", "4"], [NEXT, SOUTH_EAST], SAME),
    ([*PHASES_OF, "--within", "3"], [NEXT, SOUTH_EAST], DIFFERENT),
    (PHASES_OF, [GLIDER, LATER], SAME),
    (PHASES_OF, [GLIDER, LINE], DIFFERENT),
    (PHASES_OF, [WIRES, WIRES.replace(b"Gen=7", b"Gen=8")], SAME),
]

# A line that is too long is said to be the table's where it is the table's.
LONG = b"#" * (LONGEST + 1)
STEPPED = [
    *of_one(["step"], [
        (b"x = 1, y = 1, rule = b1s0v\no!\n", canonical(b"B1/S0V", 1) + b"$$$....*$...***$....*$$$\n"),
        (LINE, LINE_STEPPED),
        (b"#CXRLE Pos=0,2305843009213693951\nx = 3, y = 1\no!\n", canonical(b"B3/S23", 1)),
    ]),
    *refusing(["step"], [
        (WHOLE_ROW, b"TooManyCells"),
        (FILES["last.rle"], b"GenerationTooLarge"),
        (b"#CXRLE Gen=18446744073709551616\nx = 3, y = 1, rule = B3/S23\n3o!\n", b"line 1: TooLarge"),
        (FILES["edge.rle"], b"OutOfPlane"),
        (WIRES, b"NeedsTable"),
        (NONE, b"line 1: NoHeader"),
    ]),
    (["step", "--table"], [SPREAD, FILES["spread.rle"]], Answer(0, SPREAD_STEPPED)),
    *refusing(["step", "--table"], [
        ([EITHER, FILES["two.rle"]], b"table line 8: Ambiguous"),
        ([SPREAD, WIRES], b"RuleMismatch"),
        ([SPREAD, FILES["beyond.rle"]], b"StateBeyondTable"),
        ([SPREAD, NONE], b"line 1: NoHeader"),
        ([b"@RULE Spread\n", NONE], b"table line 2: NoTable"),
        ([b"", NONE], b"table line 1: NoRuleLine"),
        ([b"@RULE Spread\n@TABLE\nn_states:1\n", NONE], b"table line 3: BadDescriptor"),
        ([LONG, NONE], b"table line 1: LineTooLong"),
        ([SPREAD, LONG], b"line 1: LineTooLong"),
    ]),
]

# Three cells in a row, in generation 0 or another one, lie and stand by turns.
LYING, STANDING = b"$$$$....***$$$$\n", b"$$$.....*$.....*$.....*$$$\n"
LAST, LAST_WIRES = FILES["last.rle"], b"#CXRLE Gen=18446744073709551615\nx = 2, y = 1, rule = WireWorld\nA!\n"
LAST_EDGE = b"#CXRLE Pos=0,2305843009213693951 Gen=18446744073709551615\nx = 3, y = 1\n3o!\n"
SEED_TEXT = canonical(b"Spread") + b"1 0 0 0 2\n"


def later(number, *words):
    return ["step", "--generations", str(number), *words]


GENERATIONS = [
    *of_one(later(0), [(LINE, LIFE + LYING), (WIRES, WIRES_TEXT), (LAST, canonical(b"B3/S23", 2**64 - 1) + LYING), (MANY, MANY_TEXT)]),
    *of_one(later(1), [(LINE, LINE_STEPPED), (b"x = 1, y = 1, rule = b1s0v\no!\n", canonical(b"B1/S0V", 1) + b"$$$....*$...***$....*$$$\n")]),
    *of_one(later("0002"), [(LINE, canonical(b"B3/S23", 2) + LYING)]),
    *of_one(later(4), [(EAST_GLIDER, canonical(b"B3/S23", 4) + b"$$$$$......*$.......*$.....***$\n"), (BLANK, canonical(b"B3/S23", 4))]),
    *of_one(later(2**64 - 1), [(LINE, canonical(b"B3/S23", 2**64 - 1) + STANDING), (BLANK, canonical(b"B3/S23", 2**64 - 1))]),
    *refusing(later(0), [(NONE, b"line 1: NoHeader"), (BAD, b"line 2: StateRange")]),
    *refusing(later(1), [(NONE, b"line 1: NoHeader"), (WIRES, b"NeedsTable"), (LAST_WIRES, b"NeedsTable"), (LAST, b"GenerationTooLarge"),
                         (LAST_EDGE, b"GenerationTooLarge"), (FILES["edge.rle"], b"OutOfPlane")]),
    *refusing(later(2**64 - 1), [(FILES["edge.rle"], b"OutOfPlane"), (b"#CXRLE Gen=1\n" + LINE, b"GenerationTooLarge"), (WIRES, b"NeedsTable")]),
    # A glider goes on by one column and one row in four generations, and the plane ends after 2^61 of them.
    *refusing(later(2**63), [(EAST_GLIDER, b"OutOfPlane")]),
    *refusing(later(4), [(SOUTH_EAST, b"OutOfPlane")]),
    (later(0, "--table"), [SPREAD, FILES["spread.rle"]], Answer(0, SEED_TEXT)),
    (later(0, "--table"), [SPREAD, WIRES], Answer(0, WIRES_TEXT)),
    (later(1, "--table"), [SPREAD, FILES["spread.rle"]], Answer(0, SPREAD_STEPPED)),
    *refusing(later(0, "--table"), [([b"", NONE], b"table line 1: NoRuleLine"), ([SPREAD, NONE], b"line 1: NoHeader")]),
    *refusing(later(2, "--table"), [
        ([EITHER, FILES["two.rle"]], b"table line 8: Ambiguous"),
        ([EITHER, b"x = 4, y = 2, rule = Spread\nA2.B$.A!\n"], b"table line 8: Ambiguous"),
        ([SPREAD, LINE], b"RuleMismatch"),
        ([SPREAD, FILES["beyond.rle"]], b"StateBeyondTable"),
        ([SPREAD, b"#CXRLE Gen=18446744073709551614\n" + FILES["spread.rle"]], b"GenerationTooLarge"),
        ([b"@RULE Spread\n", NONE], b"table line 2: NoTable"),
    ]),
]


def answered(program, words, files):
    """What the program answers for files, of which the last is read from standard input, too. The answers have to be the same."""
    names = []
    for number, file in enumerate(files):
        names.append(f"file-{number}")
        with open(names[-1], "wb") as it:
            it.write(file)
    by_names = processes.run([program, *words, *names])
    return by_names, processes.run([program, *words, *names[:-1], "-"], files[-1])


def main(program):
    program = processes.program_of(program)
    with tempfile.TemporaryDirectory() as folder:
        os.chdir(folder)
        for words, files, wanted in [*CANON, *SAME_FILES, *CONVERTED, *SHOWN, *FORMS, *STEPPED, *GENERATIONS]:
            shown = b" beside ".join(file[:60] for file in files)
            for found in answered(program, words, files):
                counting.check(found == wanted, f"{' '.join(words)} of {shown!r}: {found}, not {wanted}")
        os.chdir("/")
    return counting.ended()


if __name__ == "__main__":
    if len(sys.argv) != 2:
        sys.exit("usage: tests/program/tasks.py PROGRAM")
    sys.exit(main(sys.argv[1]))
