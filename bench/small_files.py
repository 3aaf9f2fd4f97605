"""Small pattern files as collections have them, for bench/collection.py and bench/keys.py. Of a thousand files 750 are soups of 16 rows and columns
in RLE, 150 the same as an earlier one in another spelling or place, 80 small macrocells, and 20 no patterns."""
import random

SIDE = 16


def soup(source, number, place):
    """A random square in RLE, as collections have it, with comments before it. Its number alone says the cells."""
    cells = random.Random(number)
    rows = ["".join(cells.choice("bo") for _ in range(SIDE)) for _ in range(SIDE)]
    head = f"#N Pattern {number}\n#O somebody\n#C found on day {source.randrange(1000)}\n#CXRLE Pos={place},{place}\n"
    return (f"{head}x = {SIDE}, y = {SIDE}, rule = {source.choice(['B3/S23', '23/3', 'b3s23'])}\n" + "$\n".join(rows) + "!\n").encode()


def macrocell(source):
    """Four random leaves in a square of 16 cells."""
    leaves = ["".join("".join(source.choice(".*") for _ in range(8)) + "$" for _ in range(8)) for _ in range(4)]
    return ("[M2] (golly 4.2)\n#R B3/S23\n" + "\n".join(leaves) + "\n4 1 2 3 4\n").encode()


def file_of(source, number):
    """A file of the collection."""
    kind = number % 1000
    if kind < 750:
        return soup(source, number, 0)
    if kind < 900:
        return soup(source, source.randrange(number - kind, number - kind + 750), source.choice([0, 0, 100]))
    return macrocell(source) if kind < 980 else b"x = 16, y = 16, rule = B3/S23\n" + source.choice([b"0o!\n", b"3q\n", b"16o$16A!\n"])


def ending_of(number):
    """The ending of a file's name."""
    return "mc" if 900 <= number % 1000 < 980 else "rle"
