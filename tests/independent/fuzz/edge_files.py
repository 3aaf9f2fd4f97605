"""Small files at the limits of the formats: each is right, or is wrong by one step."""

import itertools

from .random_files import LONGEST_LINE

EDGE = 2**61
PLACES = [-EDGE - 1, -EDGE, -EDGE + 1, -1, 0, 1, EDGE - 1, EDGE]
COUNTS = [0, 1, 2, EDGE - 1, EDGE, EDGE + 1, 2 * EDGE - 1, 2 * EDGE, 2 * EDGE + 1]
GENERATIONS = ["0", "00", "7", str(2**64 - 1), "000" + str(2**64 - 1), str(2**64), "-1", "+1", "1 2", "x", "", "0x1"]
RULES = [
    "B3/S23", "b3/s23", "B3/s23", "S23/B3", "B3S23", "S23B3", "23/3", "/", "B/S", "BS", "S/B", "SB", "B3", "S3", "3", "23", "B3/S23/", "B3//S23", "/3",
    "3/", "B33/S2322", "B876/S", "B/S012345678", "B9/S", "B/S9", "B3S9", "B/S0", "SB0", "S0B", "S0/B1", "1/0", "0/1", "B0/S", "B0S", "B0", "B0/S9",
    "B3/S23V", "B3S23v", "B4/S4V", "B5/S4V", "B4/S5v", "B45/SV", "S23/B3V", "S2B3V", "23/3V", "23/3H", "/V", "V/", "B3/S23H", "b/sh", "BV", "BSV",
    "BSH", "V", "H", "vV", "B0/S23V", "B0S5V", "B0S9V", "B3/S23VV", "B3/S23X", "B3S23X", "B3/S23 V", "B3 /S23", "B2-a/S12", "BS/", "B3/2", "S3/2",
    "3/B2", "B1B2", "S1/S2", "B1/B2", "a:b", "B3/S23:T3", ":", "B0/S:", "Foo", "Foo/", "/Foo", "BS1S", "bs1/", "!", "~", "a" * 255, "a" * 256, "", " ",
    "B3/S23\t", "\x7f", "a\x00b", "\xe4", "B3/S23,", "#", "x", "x=",
]
FIELDS = [
    "", " ", " Pos", " Pos=", " Pos=1", " Pos=1,", " Pos=,1", " Pos=1,2,3", " Pos=-0,0", " Pos=--1,2", " Pos=+1,2", " Pos=-,2", " Pos= 1,2",
    " Pos=1, 2", " pos=1", " Pos=1,2 Pos=3,4", " Pos=3,4 Pos=", " Gen", " Gen=1 Gen=2", " Gen=1 Pos=9,9", " Gen=1,2", " X=Pos=1", "\tPos=0003,-0004\r",
    "x", "Pos=1,2", " Pos=1,x",
]
HEADERS = [
    "x", "x=", "x=1", "x=1,", "x=1,y", "x=1,y=", "x=1,y=1", "x = 1 , y = 1 ", "x=1,y=1,", "x=1,y=1,rule", "x=1,y=1,rule=", "x=1,y=1,rule=Foo",
    "x=1,y=1 ,  rule\t=\rFoo ", "x=-1,y=1", "x=1,y=-1", "x=,y=1", "x 1,y=1", "x=1 y=1", "x=1,Y=1", "X=1,y=1", " x=1,y=1", "x=1,y=1,rules=Foo",
    "x=1,y=1,Rule=Foo", "x=1,y=1;", "x=1,y=1,z=1", "x=1,y=1 rule=Foo", "x=99999999999999999999999999999,y=0", "xx=1,y=1", "x\t=1,y\t=1", "\tx=1,y=1",
]
LINES = [
    "x", "x=", "x ", "x\t", "xA", "x\r", "xB x", "#CXRLE", "#CXRLEs", "#CXRLE x", "#", "", " ", " x=1", "!", "o!x=", "o ! o", "1", "1 o", "p", "p A",
    "1$", "0$", "$0", "0o", "0q", "00o", "1q", "oo!",
]
LEAVES = [
    "", ".", "*", "$", "*$", "$*", ".......*", "........*", "*.......$", "*........$", "$$$$$$$*", "$$$$$$$*$", "$$$$$$$$", "$$$$$$$$$", "$$$$$$$$*",
    "$$$$$$$$.", "$$$$$$$$ ", "*x", "*.*$ .", "*$o", " *$", "\t*$\r", "........$........$........$........$........$........$........$........$",
    "$$$$$$$$\x0b",
]
NODES = [
    "1 0 0 0 0", "1 0 0 0 1", "1 0 0 0 2", "1 0 0 0 255", "1 0 0 0 256", "0 0 0 0 0", "2 0 0 0 0", "2 1 0 0 0", "62 0 0 0 0", "63 0 0 0 0",
    "64 0 0 0 0", "4 1 0 0 0", "4 0 0 0 2", "5 1 0 0 0", "3 1 0 0 0", "1 2 3 4", "1 2 3 4 5 6", "1", "a", "-1 0 0 0 0", "+1 0 0 0 0", "4\t0\r0 0  0",
    "004 0001 0 00 0", "4 18446744073709551616 0 0 0", "4 18446744073709551617 0 0 0", "18446744073709551620 0 0 0 0", "1.", "[M2]", "1 0 0 0 0 ",
    "1 0 0 0 0x",
]
NOTES = ["#R", "#R ", "#R\tFoo", "#RFoo", "#R Foo", "#r Foo", "#G", "#G 1", "#G1", "#FRAME", "#FRAMES 1", "#FRAM", "#C", "#", " #R Foo", "", " "]
FIRSTS = ["[M2]", "[M2]x", " [M2]", "[M2", "[m2]", "[M2] #R Foo", "[M2]\r", "", "x"]
DESCRIPTORS = [
    ["n_states:3", "neighborhood:Moore", "symmetries:rotate8"], ["symmetries:rotate8", "n_states:3", "neighborhood:vonNeumann"],
    ["neighborhood:vonNeumann", "symmetries:rotate8reflect", "n_states:3"], ["n_states:2", "n_states:2"],
    ["n_states:256", "neighbourhood : vonNeumann", "symmetries:none"], ["n_states:1"], ["n_states:257"], ["n_states:x"], ["n_states:"],
    ["n_states:0002", "neighborhood:Moore", "neighbourhood:Moore"], ["neighborhood:moore"], ["symmetries:"], ["symmetries:None"],
    ["symmetries:permute", "symmetries:permute"], [":"], ["states:2"], ["n_states:2:3"], ["0,0,0,0,0,0"], ["var a={0}"], ["n_states:3", "@x"],
]
TABLE_LINES = [
    "0,0,0,0,0,0", "000000", "0 0 0 0 0 0", "00000", "0000000", "0,0,0,0,0", "0,0,0,0,0,0,0", "0,0,0,0,0,1", "1,0,0,0,0,0", "1,0,0,0,0,2",
    "1,0,0,0,0,3", "3,0,0,0,0,0", "a,0,0,0,0,0", "a,0,0,0,0,a", "b,0,0,0,0,b", "0,a,0,0,0,b", "0,a,a,0,0,a", "b,b,b,b,b,b", "b,b,b,b,b,0",
    "b,b,b,b,b,1", "b0000b", "bbbbbb", "1,,0,0,0,0", "1, 0 ,0,0,0,0 # x", "var", "var ", "var c={0}", "var a={0}", "var c={}", "var c={1", "var c=1}",
    "var c={1},", "var c={3}", "var c={a,b}", "var c={c}", "var c = { 1 , 2 }", "var 1={0}", "var c:={0}", "var ={0}", "var c d={0}", "var c={0}}",
    "var c={{0}}", "varc={0}", "var\tc={0}", "var,0,0,0,0,0", "var\xe4={0}", "var c={0,}", "00,1,0,0,0,0", "@", " @", "#", " ",
]
RULE_LINES = [
    "@RULE Foo", "@RULE", "@RULE ", "@RULEFoo", "@RULE\tFoo ", "@RULE Foo Bar", "@RULE B3/S23", "@RULE a:b", "@rule Foo", " @RULE Foo", "# x", "", " ",
    "x",
]
TABLE_MARKS = ["@TABLE", "@TABLE x", "@TABLEx", " @TABLE", "@COLORS", "x"]


def rle(header="x = 1, y = 1", position="", data="o!"):
    front = f"#CXRLE{position}\n" if position else ""
    return f"{front}{header}\n{data}\n"


def rle_files():
    for place, count in itertools.product(PLACES, COUNTS):
        yield rle(position=f" Pos={place},0", data=f"{count}o!")
        yield rle(position=f" Pos={place},0", data=f"2.{count}.$o!")
        yield rle(position=f" Pos=0,{place}", data=f"{count}$o!")
        yield rle(position=f" Pos=0,{place}", data=f"o{count}$$!")
    for prefix, letter in itertools.product(["", *"1opqxyz"], "ABWXYZa@.b"):
        yield rle("x=1,y=1,rule=Foo", data=f"{prefix}{letter}!")
        yield rle(data=f"{prefix}{letter}!")
    for rule in RULES:
        yield rle(f"x = 1, y = 1, rule = {rule}")
    for header in HEADERS:
        yield rle(header)
    for field in [*FIELDS, *(f" Gen={it}" for it in GENERATIONS)]:
        yield rle(position=field)
    for line in LINES:
        yield rle(data=f"o\n{line}\no!")
        yield f"{line}\n{rle()}"
        yield f"#\n{line}"


def wide_files():
    """Patterns that are as wide or high as half the plane, one cell more, or the whole plane."""
    for side in (EDGE, EDGE + 1, 2 * EDGE):
        wide, high = f"A{side - 2}.B", f"A2.C{side - 1}$.B"
        for data in (f"{wide}$C!", f"{high}!", f"{wide}{side - 1}$C!"):
            yield rle("x=1,y=1,rule=Foo", position=f" Pos={-EDGE},{-EDGE}", data=data)
            yield rle("x=1,y=1,rule=Foo", position=f" Pos={EDGE - side},{EDGE - side}", data=data)


def macrocell(*lines):
    return "\n".join(["[M2]", *lines]) + "\n"


def macrocell_files():
    for rule in RULES:
        yield macrocell(f"#R {rule}", "*$")
    for generation in GENERATIONS:
        yield macrocell(f"#G {generation}", "*$")
    for note in NOTES:
        yield macrocell(note, "*$")
        yield macrocell("*$", note, "$*$")
    for line in [*LEAVES, *NODES]:
        yield macrocell(line)
        yield macrocell("*$", line)
        yield macrocell("#R Foo", "$*", line)
        yield macrocell("1 0 1 0 0", "2 1 1 0 1", line, "2 0 0 0 1")
    for first in FIRSTS:
        yield f"{first}\n*$"
        yield first
    for level in (3, 10, 61, 62, 63):
        yield macrocell("*$", *(f"{above} 0 {above - 3} 0 0" for above in range(4, level + 1)))


def long_files():
    """Pattern files with a line of 2^20 bytes, or of one more, in each place of a file."""
    for more in (0, 1):
        comment, blank, end = "#".ljust(LONGEST_LINE + more, "C"), " " * (LONGEST_LINE + more), "o!".ljust(LONGEST_LINE + more)
        for line in (comment, blank):
            yield f"{line}\n{rle()}"
            yield rle(data=f"o\n{line}\no!")
            yield rle(data=f"o!\n{line}")
            yield macrocell("*$", line)
        yield rle(data=end)
        yield rle(data=f"o!\n{end}")
        yield f"{'[M2]'.ljust(LONGEST_LINE + more)}\n*$"
        yield macrocell("#G 7".ljust(LONGEST_LINE + more - 1) + "\r")
        yield macrocell(f"4 {'0'.rjust(LONGEST_LINE + more - 8, '0')} 0 0 0")
        yield rle(position=f" Gen={'7'.rjust(LONGEST_LINE + more - 11, '0')}")


def pattern_files():
    """Pattern files at limits."""
    for text in [*rle_files(), *wide_files(), *macrocell_files(), *long_files()]:
        yield text.encode("latin-1")


def table(*lines, rule="@RULE Foo", mark="@TABLE", head=("n_states:3", "neighborhood:vonNeumann", "symmetries:none", "var a={1,2}", "var b={0,1}")):
    return "\n".join([rule, mark, *head, *lines])


def table_files():
    """Rule tables at limits, under the name Foo."""
    texts = [table(rule=it) for it in RULE_LINES] + [f"{it}\n{table()}" for it in RULE_LINES] + [f"{it}\n" for it in RULE_LINES]
    texts += [table(mark=it) for it in TABLE_MARKS] + [f"@RULE Foo\nx\n{it}" for it in TABLE_MARKS]
    texts += [table(head=it) for it in DESCRIPTORS]
    for line in TABLE_LINES:
        texts += [table(line), table("0,b,0,0,0,0", line), table("0,0,0,0,0,0", line, "0,a,0,0,0,a"), table(line, head=("n_states:2",))]
    for more in (0, 1):
        line = "#".ljust(LONGEST_LINE + more, "C")
        texts += [f"{line}\n{table()}", f"@RULE Foo\n{line}\n{table()}", table(line), table("@x", line)]
    return [text.encode("latin-1") for text in texts]
