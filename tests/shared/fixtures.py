"""Small files of both formats and small tables, and what is known of them: worked out by hand from docs/FORMATS.md."""

LIFE = b"[M2] (canonical 1)\n#R B3/S23\n"
LONGEST = 1 << 20  # bytes of a line
HEADER = b"x = 1, y = 1\n"  # of RLE, under B3/S23
ROWS = [f"{row:08b}".replace("0", ".").replace("1", "*").rstrip(".").encode() + b"$" for row in range(256)]  # of a leaf


def canonical(rule, generation=0):
    return b"[M2] (canonical 1)\n#R %s\n" % rule + (b"#G %d\n" % generation if generation else b"")


# Small files, by their names.
FILES = {
    "input": b"[M2]\n$\n",
    "pair.rle": b"#CXRLE Pos=-4,0\nx = 9, y = 1, rule = 23/3\no7bo!\n",
    "pair.mc": b"[M2]\n....*$\n....*$\n4 0 0 1 2\n",
    "named.rle": b"x = 1, y = 1, rule = Life\no!\n",
    "bad.rle": HEADER + b"B!\n",
    "many.rle": HEADER + b"1048577o!\n",
    "empty": b"",
    "line.rle": b"x = 3, y = 1, rule = B3/S23\n3o!\n",
    "spread.rle": b"x = 1, y = 1, rule = Spread\nB!\n",
    "beyond.rle": b"x = 1, y = 1, rule = Spread\nC!\n",
    "spread.rule": b"@RULE Spread\n@TABLE\nn_states:3\nneighborhood:vonNeumann\nsymmetries:rotate4\nvar a={1,2}\n0,a,0,0,0,a\n",
    "two.rule": b"@RULE Spread\n@TABLE\nn_states:3\nneighborhood:vonNeumann\nsymmetries:permute\nvar a={1,2}\nvar b={1,2}\n0,a,b,0,0,a\n",
    "two.rle": b"#CXRLE Pos=0,-1\nx = 2, y = 2, rule = Spread\nA$.B!\n",
    "bad.rule": b"@RULE Spread\n",
    "long.rule": b"#" * (LONGEST + 1) + b"\n",
    "last.rle": b"#CXRLE Gen=18446744073709551615\nx = 3, y = 1, rule = B3/S23\n3o!\n",
    "edge.rle": b"#CXRLE Pos=0,2305843009213693951\nx = 3, y = 1\n3o!\n",
    "still.rule": b"@RULE Still\n@TABLE\nn_states:2\nneighborhood:Moore\nsymmetries:none\n",
}
# Two blinkers as far from each other as the plane is wide: they leave it, wherever they begin.
WIDE = b"#CXRLE Pos=-2305843009213693952,0\nx = 1, y = 3\n" + b"$".join([b"o4611686018427387902bo"] * 3) + b"!\n"

# What the commands write of some of them.
PAIR_RLE = b"#CXRLE Pos=-4,0\nx = 9, y = 1, rule = B3/S23\no7bo!\n"
PAIR_TEXT = LIFE + b"....*$$$$$$$$\n4 0 0 1 1\n"
# A row of 2^20 + 1 cells: leaves that are full in their first row, in squares up to level 20, and behind them a cell alone.
MANY_TEXT = LIFE + b"********$$$$$$$$\n" + b"".join(b"%d %d %d 0 0\n" % (level, level - 3, level - 3) for level in range(4, 21))
MANY_TEXT += b"*$$$$$$$$\n" + b"".join(b"%d %d 0 0 0\n" % (level, level + 15) for level in range(4, 21)) + b"21 18 36 0 0\n22 0 0 0 37\n"
PAIR_SHOWN = b"rule B3/S23\ngeneration 0\npopulation 2\nbox -4 0 9 1\nnodes 2\n"
LINE_STEPPED = LIFE + b"#G 1\n$$$.....*$.....*$.....*$$$\n"
SPREAD_STEPPED = canonical(b"Spread", 1) + b"1 0 0 2 0\n1 0 2 0 0\n1 2 2 2 0\n2 0 1 2 3\n"
