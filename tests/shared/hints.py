"""Files that are accepted and were probably damaged, for each warning at least one, with words that only its sentence has; files without a warning; and files
that are refused because they are something else than a pattern. The tests of the library, of the Python module and of the module for browsers compare what
these say of the files with what the program says."""

import re

from shared import processes

#: The words of each warning.
RETURN, SQUARES, COMMENT = "line 1 has a carriage return inside it", "the file has no line of squares", "a line such as `#RB36/S23` or `#G7`"
CELLS, CUT, JOINED = "the header gives the pattern a size", "the file has no `!`", "another header follows the `!`"

WARNED = {
    "lost_all.mc": (b"[M2] (golly 4.2)\r#R B3/S23\r$$..*$...*$.***$\r", RETURN),
    "lost_some.mc": (b"[M2]\r#R B3/S23\n$$..*$\n", RETURN),
    "no_squares.mc": (b"[M2] (golly 4.2)\n#R B3/S23\n\n#C none\r\n  \n", SQUARES),
    "mark_alone.mc": (b"[M2]", SQUARES),
    "rule.mc": (b"[M2] (golly 4.2)\n#RB36/S23\n$$..*$\n", COMMENT),
    "generation.mc": (b"[M2]\n#C a\n#G7\r\n#R B3/S23\n$$..*$\n", COMMENT),
    "old_rule.mc": (b"[M2]\n#R23/3\n#C no squares\n", COMMENT),
    "at_the_end.mc": (b"[M2]\n#G7", SQUARES),
    "no_cells.rle": (b"x = 3, y = 3, rule = B3/S23\n3b$3b!\n", CELLS),
    "no_rows.rle": (b"#C none\nx = 0, y = 12\n", CELLS),
    "cut.rle": (b"x = 3, y = 3, rule = B3/S23\nbo$2bo$\n", CUT),
    "cut_at_count.rle": (b"x = 3, y = 30\n3o$\n#C $\n20$bo", CUT),
    "joined.rle": (b"x = 1, y = 1\no!\n\n x = 2, y = 1\n2o!\n", JOINED),
    "joined_in_line.rle": (b"x = 1, y = 1\no! x= 2, y = 1\n2o!\n", JOINED),
}

NOT_WARNED = {
    "glider.mc": b"[M2] (golly 4.2)\n#R B3/S23\n$$$$.....*$......*$....***$$\n",
    "cr_lf.mc": b"[M2]\r\r\n#R B36/S23\r\n#G 7\r\n$$..*$\r\n",
    "comments.mc": b"[M2]\n#Reflector\n#Generation\n#R B36/S23\n$$..*$\n#G7\n",
    "blanks.mc": b"[M2]\n\n \t$$..*$\n",
    "glider.rle": b"x = 3, y = 3, rule = 23/3\nbo$2bo$3o!\n",
    "blank.rle": b"x = 0, y = 0, rule = B3/S23\n!\n",
    "last_row.rle": b"x = 3, y = 12\n3o10$bo$\n#C $\n2o\n",
    "tall.rle": b"x = 3, y = 30\n3o!\n",
    "text.rle": b"#CXRLE Gen=1\n#G7\nx = 1, y = 1\no!\nx marks it: x\ny = 1\n",
}

#: Files that are refused, and what each of them is: the beginning of the sentence on it, or no text where nothing is known of it.
FOREIGN = {
    "packed.gz": (b"\x1f\x8b\x08\x00\n", "This is a gzip file"),
    "packed.zip": (b"PK\x03\x04\n", "This is a zip file"),
    "packed.tar": (b"glider.rle" + b"\0" * 247 + b"ustar\n", "This is a tar file"),
    "image.png": (b"\x89PNG\r\n\x1a\n", "This is an image"),
    "page.html": (b"\n <html>\n", "This is a web page"),
    "nothing": (b"", "The file is empty"),
    "marked.rle": (b"\xef\xbb\xbfx = 1, y = 1\no!\n", "The file begins with a UTF-8 byte order mark"),
    "old.lif": (b"#Life 1.05\n*\n", "This is a Life 1.05 file"),
    "spread.rule": (b"@RULE Spread\n", "This is a rule table"),
    "glider.cells": (b"!Name: glider\n.O.\n", "This is a plaintext file"),
    "headless.rle": (b"#C text\n\n3o$b2o!\n", "The header is missing"),
    "returns.rle": (b"x = 1, y = 1\ro!\r", "The lines end in a carriage return alone"),
    "text": (b"A glider.\nx = 3, y = 3\no!\n", ""),
    "letter.rle": (b"x = 3, y = 3\nbo$2bC$3o!\n", ""),
    "child.mc": (b"[M2]\n#R B3/S23\n....*$$$$$$$$\n4 0 0 0 9\n", ""),
}


def said_by(program, data):
    """What the program's `keys` says of a file: the warning, or an empty text, if it has a key; and if it is refused, why: the sentences after the kind."""
    error = processes.run([program, "keys", "-"], data).error.decode()
    found = re.fullmatch(r"-: (?:warning: |(?:line \d+: )?\w+: )(.*)\n", error)
    assert found or error == "", error
    return found[1] if found else ""
