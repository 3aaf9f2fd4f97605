"""Small files of both formats and small tables. Each is cut behind every byte, and each of its bytes is replaced by others."""

import os

EXAMPLES = os.path.join(os.path.dirname(os.path.abspath(__file__)), "../../../examples")


def example(name):
    with open(os.path.join(EXAMPLES, name), "rb") as it:
        return it.read()


# Pattern files under a B/S rule.
LIFE_FILES = {
    "a glider": b"x = 3, y = 3, rule = B3/S23\nbo$2bo$3o!\n",
    "lines that end by CR LF": b"#C\r\n#CXRLE Gen=3 Pos=-4,0\r\nx=9,y=1,rule=23/3\r\no7bo!\r\n",
    "a rule of four neighbours": b"#CXRLE Pos=-1,0\nx = 3, y = 2, rule = b13s024v\n3o$o!\n",
    "a row as wide as the plane": b"#CXRLE Pos=-2305843009213693952,0\nx = 1, y = 1\n4611686018427387904o!\n",
    "a row at the first edge": b"#CXRLE Pos=5,-2305843009213693952\nx=1,y=1\n3o!",
    "a row at the last edge": b"#CXRLE Pos=2305843009213693949,2305843009213693951\nx = 1, y = 1\n3o$!",
    "a column at the first edge": b"#CXRLE Pos=-2305843009213693952,5\nx=1,y=1\no$o$o!",
    "a column at the last edge": b"#CXRLE Pos=2305843009213693951,5\nx=1,y=1\no$o$o!",
    "the last generation of too many cells": b"#CXRLE Gen=18446744073709551615\nx=1,y=1\n1048577o!",
    "a root above its pattern": b"[M2] (golly 4.2)\n#R B3/S23\n....*$$$$$$$$\n4 1 0 0 0\n5 2 0 0 0\n6 3 0 0 0\n7 4 0 0 0\n8 5 0 0 0\n9 0 0 0 6\n",
    "squares below the leaves": b"[M2]\n1 1 0 0 0\n2 1 0 0 0\n3 0 2 0 0\n4 0 0 0 3\n",
    "a line twice and one that is not reached": b"[M2]\n#R B3/S23\n....*$$$$$$$$\n....*$$$$$$$$\n*$$$$$$$$\n4 0 0 1 2\n",
    "a quarter that is no earlier line": b"[M2]\n#R B3/S23\n....*$$$$$$$$\n4 0 0 0 9\n",
    "a late generation and a timeline": b"[M2]\n#G 18446744073709551615\n#R /\n*$\n#C\n#G 1\n#FRAMES 1\n",
    "the example glider.mc": example("glider.mc"),
}

# Pattern files under a name, each with the table by which it is stepped.
WIRE_TABLE = example("WireWorld.rule")
SPREAD_TABLE = b"@RULE Spread\n@TABLE\nn_states:3\nneighborhood:vonNeumann\nsymmetries:rotate4\nvar a={1,2}\n0,a,0,0,0,a\n"
NAMED_FILES = {
    "two states at the corner": (b"#CXRLE Pos=-1,-1 Gen=7\nx = 2, y = 1, rule = WireWorld\nApA!\n", WIRE_TABLE),
    "the example wire.rle": (example("wire.rle"), WIRE_TABLE),
    "a state that spreads": (b"x = 1, y = 1, rule = Spread\nB!\n", SPREAD_TABLE),
    "a state that spreads over the last row": (b"#CXRLE Pos=7,2305843009213693951\nx=1,y=1,rule=Spread\nA!", SPREAD_TABLE),
    "levels and leaves under a name": (b"[M2]\n#R Spread\n#G 7\n.*$\n1 0 2 0 1\n2 2 0 0 2\n3 0 3 0 0\n4 1 0 4 0\n", SPREAD_TABLE),
}

# Tables, each with the pattern that is stepped by it.
TABLES = {
    "a state that spreads by quarter turns": (SPREAD_TABLE, b"x = 1, y = 1, rule = Spread\nB!\n"),
    "two states for one cell": (
        b"@RULE Spread\n@TABLE\nn_states:3\nneighborhood:vonNeumann\nsymmetries:permute\nvar a={1,2}\nvar b={1,2}\n0,a,b,0,0,a\n",
        b"#CXRLE Pos=0,-1\nx = 2, y = 2, rule = Spread\nA$.B!\n",
    ),
    "entries without commas, other sections, and the symmetry first": (
        b"#C\n@RULE Turn\n\n@COLORS\n1 2\n@TABLE\n symmetries : rotate8reflect\nneighbourhood:Moore\nn_states:4 # four\nvar ab = { 1 , 2 }\n"
        b"var z={ab,3,0}\n0 z00 000 00 z\n1,ab,0,0,ab,0,0,0,0,3\n@TABLE\n:\n",
        b"x = 3, y = 2, rule = Turn\nA.B$2A!\n",
    ),
}
