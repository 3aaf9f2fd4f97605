#!/usr/bin/env python3
"""The Python module python/golly_canon.py: its example and that of docs/LIBRARY.md, worked rows and refusals, streams, the keys of files and of patterns that
come one after the other, its errors, and random files beside the program. The module is found by PYTHONPATH. The last line is 'N passed, M failed'.

usage: tests/library/module.py PROGRAM"""

import doctest
import hashlib
import io
import itertools
import os
import pathlib
import pickle
import random
import re
import subprocess
import sys
import tempfile
import textwrap
import threading
import warnings
import weakref

sys.path.insert(0, os.path.dirname(os.path.dirname(os.path.abspath(__file__))))

import golly_canon  # noqa: E402
from golly_canon import Box, PatternWarning, Refused, Shown, Stream  # noqa: E402
from independent.fuzz import random_files  # noqa: E402
from shared import hints, processes, streams  # noqa: E402
from shared.counting import check, ended  # noqa: E402
from shared.fixtures import FILES, LIFE, LINE_STEPPED, MANY_TEXT, PAIR_RLE, PAIR_SHOWN, PAIR_TEXT, SPREAD_STEPPED, WIDE  # noqa: E402

PAGE = os.path.join(os.path.dirname(os.path.abspath(__file__)), "../../docs/LIBRARY.md")
RANDOM_FILES = 200
# How many patterns `pattern_keys` takes, and how many more bytes of memory it may take for the last nine tenths of them.
PATTERNS, MORE_MEMORY = 100_000, 1_000_000
GLIDER = b"x = 3, y = 3, rule = 23/3\nbo$2bo$3o!\n"
GLIDER_TEXT = LIFE + b"$$$$.....*$......*$....***$$\n"
GLIDER_KEY = "6d49a09978fd167769af106a97e3186cee07cf07e2e4481424797f7ae40b5459"  # by sha256sum
ELSEWHERE = b"#CXRLE Pos=-12345,777\n" + GLIDER
# The glider, turned: of its eight images the one whose first row ends behind one cell.
TURNED_TEXT = LIFE + b"$$$$....*$....*.*$....**$$\n"
MIRRORED = b"x = 3, y = 3\n3o$2bo$bo!\n"
# The glider one generation later, and its text, turned, which is greater than that of the glider.
LATER = b"x = 3, y = 3\nobo$b2o$bo!\n"
LATER_TEXT = LIFE + b"$$$$....*$.....**$....**$$\n"
CHILD = b"[M2]\n#R B3/S23\n....*$$$$$$$$\n4 0 0 0 9\n"


def outcome_of(call, *arguments, **more):
    """What a call returns, or the kind, the line and the text of its refusal, or the name of another error."""
    try:
        return call(*arguments, **more)
    except Refused as why:
        return why.kind, why.line, why.in_table, str(why)
    except Exception as error:
        return type(error).__name__


def fed(chunks, gives="canon", form="placed"):
    """What a stream gives that is fed one chunk after another."""
    with Stream(gives, form=form) as it:
        for chunk in chunks:
            it.feed(chunk)
        return it.finish()


def after_closing():
    it = Stream()
    it.close()
    return it.finish()


def in_another_thread():
    """What a stream answers in another thread than its own."""
    with Stream() as it:
        found = []
        thread = threading.Thread(target=lambda: found.append(outcome_of(it.feed, GLIDER)))
        thread.start()
        thread.join()
        return found[0]


def twice():
    """A stream gives its text again, and then takes no chunk."""
    with Stream() as it:
        it.feed(GLIDER)
        return it.finish(), it.finish(), outcome_of(it.feed, b"x")


def refused_again():
    """A stream that has refused tells the same again."""
    with Stream() as it:
        return outcome_of(it.feed, CHILD), outcome_of(it.feed, b"$\n"), outcome_of(it.finish), outcome_of(it.finish_key)


def sentence_on(call, *arguments, **more):
    """What the error of a call says that isn't a refusal."""
    try:
        return call(*arguments, **more)
    except (TypeError, ValueError) as error:
        return str(error)


def keyed(chunks, gives="canon", form="placed"):
    """The key that a stream gives, which is fed one chunk after another; then its text, and the key again, which is the digest of the text; and that it
    takes no chunk then."""
    with Stream(gives, form=form) as it:
        for chunk in chunks:
            it.feed(chunk)
        first, text = it.finish_key(), it.finish()
        return first.hex(), first == it.finish_key() == hashlib.sha256(text).digest(), outcome_of(it.feed, b"x")


def key_after_closing():
    it = Stream()
    it.close()
    return it.finish_key()


def sentence_of_refusal():
    try:
        golly_canon.canon(CHILD)
    except Refused as why:
        return why.sentence


NO_CHILD = ("BadChild", 4, False, "line 4: BadChild")
SPENT = ("Spent", None, False, "Spent")

# A name, what comes of it, and what is wanted.
ROWS = [
    ("canon", outcome_of(golly_canon.canon, GLIDER), GLIDER_TEXT),
    ("canon of macrocell", outcome_of(golly_canon.canon, FILES["pair.mc"]), PAIR_TEXT),
    ("canon of a bytearray", outcome_of(golly_canon.canon, bytearray(GLIDER)), GLIDER_TEXT),
    ("canon of a part of a memoryview", outcome_of(golly_canon.canon, memoryview(b".." + GLIDER)[2:]), GLIDER_TEXT),
    ("canon, placed", outcome_of(golly_canon.canon, GLIDER, "placed"), GLIDER_TEXT),
    ("canon, moved", outcome_of(golly_canon.canon, ELSEWHERE, "moved"), GLIDER_TEXT),
    ("canon, turned", outcome_of(golly_canon.canon, MIRRORED, form="turned"), TURNED_TEXT),
    ("canon, phases", outcome_of(golly_canon.canon, LATER, "phases"), TURNED_TEXT),
    ("canon, phases up to the period", outcome_of(golly_canon.canon, LATER, "phases", within=4), TURNED_TEXT),
    ("canon, phases up to less", outcome_of(golly_canon.canon, LATER, "phases", within=3), LATER_TEXT),
    ("canon, phases up to the greatest number", outcome_of(golly_canon.canon, LATER, "phases", within=2**31 - 1), TURNED_TEXT),
    ("canon, phases, of a later generation", outcome_of(golly_canon.canon, b"#CXRLE Gen=7\n" + LATER, form="phases"), TURNED_TEXT),
    ("canon, phases, of a name", outcome_of(golly_canon.canon, b"#CXRLE Gen=7\n" + FILES["named.rle"], "phases"),
     golly_canon.canon(FILES["named.rle"], "turned")),
    ("canon, phases, of what leaves the plane", outcome_of(golly_canon.canon, WIDE, "phases"), ("OutOfPlane", None, False, "OutOfPlane")),
    ("canon of a blank plane, phases", outcome_of(golly_canon.canon, FILES["input"], "phases"), LIFE),
    ("canon of a blank plane, moved", outcome_of(golly_canon.canon, FILES["input"], "moved"), LIFE),
    ("key", outcome_of(golly_canon.key, GLIDER), hashlib.sha256(GLIDER_TEXT).digest()),
    ("key, moved", outcome_of(golly_canon.key, ELSEWHERE, "moved"), hashlib.sha256(GLIDER_TEXT).digest()),
    ("key, turned", outcome_of(golly_canon.key, bytearray(MIRRORED), form="turned"), hashlib.sha256(TURNED_TEXT).digest()),
    ("key, phases", outcome_of(golly_canon.key, LATER, "phases"), hashlib.sha256(TURNED_TEXT).digest()),
    ("key, phases up to less", outcome_of(golly_canon.key, LATER, "phases", within=1), hashlib.sha256(LATER_TEXT).digest()),
    ("the key of a stream of bytes", outcome_of(keyed, (GLIDER[at:at + 1] for at in range(len(GLIDER)))), (GLIDER_KEY, True, SPENT)),
    ("the key of a moved stream", outcome_of(keyed, [ELSEWHERE[:9], ELSEWHERE[9:]], form="moved"), (GLIDER_KEY, True, SPENT)),
    ("the key of a stream to RLE", outcome_of(keyed, [FILES["pair.mc"]], "to_rle"), (hashlib.sha256(PAIR_RLE).hexdigest(), True, SPENT)),
    ("the key of an open file", outcome_of(golly_canon.stream_key, io.BytesIO(ELSEWHERE), "moved"), bytes.fromhex(GLIDER_KEY)),
    ("the key of chunks, turned", outcome_of(golly_canon.stream_key, [MIRRORED, b""], form="turned"), hashlib.sha256(TURNED_TEXT).digest()),
    ("the key of chunks, phases", outcome_of(golly_canon.stream_key, [LATER], "phases"), hashlib.sha256(TURNED_TEXT).digest()),
    ("the key of chunks, phases up to less", outcome_of(golly_canon.stream_key, [LATER], "phases", within=3), hashlib.sha256(LATER_TEXT).digest()),
    ("the key of chunks that are refused", outcome_of(golly_canon.stream_key, [CHILD]), NO_CHILD),
    ("the key of chunks, many cells", outcome_of(golly_canon.stream_key, [FILES["many.rle"]], "moved"), hashlib.sha256(MANY_TEXT).digest()),
    ("the key of chunks, a limit of 0", outcome_of(golly_canon.stream_key, [GLIDER], limit=0), ("Full", None, False, "Full")),
    ("the key of chunks in another form", outcome_of(golly_canon.stream_key, [GLIDER], "shifted"), "ValueError"),
    ("the key of a closed stream", outcome_of(key_after_closing), SPENT),
    ("the sentence of a refusal", sentence_of_refusal(), "A child number doesn't refer to an earlier square one level down."),
    ("the sentence of a kind", outcome_of(golly_canon.sentence_of, "ZeroCount"), "A count is 0."),
    ("the sentence of no kind", outcome_of(golly_canon.sentence_of, "zero"), "ValueError"),
    ("the sentence of no name", outcome_of(golly_canon.sentence_of, ""), "ValueError"),
    ("to_rle", outcome_of(golly_canon.to_rle, FILES["pair.mc"]), PAIR_RLE),
    ("show", outcome_of(golly_canon.show, FILES["pair.rle"]), Shown("B3/S23", 0, 2, Box(-4, 0, 9, 1), 2)),
    ("show of a blank plane", outcome_of(golly_canon.show, FILES["input"]), Shown("B3/S23", 0, 0, None, 0)),
    ("same", outcome_of(golly_canon.same, FILES["pair.rle"], FILES["pair.mc"]), True),
    ("same of others", outcome_of(golly_canon.same, FILES["pair.rle"], FILES["named.rle"]), False),
    ("same, placed", outcome_of(golly_canon.same, GLIDER, ELSEWHERE, "placed"), False),
    ("same, moved", outcome_of(golly_canon.same, GLIDER, ELSEWHERE, "moved"), True),
    ("same of a mirrored one, moved", outcome_of(golly_canon.same, ELSEWHERE, MIRRORED, "moved"), False),
    ("same, turned", outcome_of(golly_canon.same, ELSEWHERE, MIRRORED, form="turned"), True),
    ("same of two phases, turned", outcome_of(golly_canon.same, GLIDER, LATER, "turned"), False),
    ("same, phases", outcome_of(golly_canon.same, GLIDER, LATER, "phases"), True),
    ("same, phases up to less", outcome_of(golly_canon.same, GLIDER, LATER, "phases", within=3), False),
    ("same, phases, of what leaves the plane", outcome_of(golly_canon.same, GLIDER, WIDE, "phases"), ("OutOfPlane", None, False, "OutOfPlane")),
    ("step", outcome_of(golly_canon.step, FILES["line.rle"]), LINE_STEPPED),
    ("step by one generation", outcome_of(golly_canon.step, FILES["line.rle"], generations=1), LINE_STEPPED),
    ("step by an odd number of generations", outcome_of(golly_canon.step, FILES["line.rle"], generations=2**40 + 1),
     LINE_STEPPED.replace(b"#G 1\n", b"#G %d\n" % (2**40 + 1))),
    ("step by no generation", outcome_of(golly_canon.step, GLIDER, generations=0), GLIDER_TEXT),
    ("a stream that is taken further", outcome_of(golly_canon.stream, [FILES["line.rle"]], "step", generations=1), LINE_STEPPED),
    ("generations below 0", outcome_of(golly_canon.step, GLIDER, generations=-1), "ValueError"),
    ("2^64 generations", outcome_of(golly_canon.step, GLIDER, generations=2**64), "ValueError"),
    ("generations of another text", outcome_of(Stream, "canon", generations=5), "ValueError"),
    ("generations by a table", outcome_of(golly_canon.step, FILES["spread.rle"], FILES["spread.rule"], generations=5), "ValueError"),
    ("generations of a name", outcome_of(golly_canon.step, FILES["spread.rle"], generations=5), ("NeedsTable", None, False, "NeedsTable")),
    ("step by a table", outcome_of(golly_canon.step, FILES["spread.rle"], FILES["spread.rule"]), SPREAD_STEPPED),
    ("a stream of bytes", outcome_of(fed, (GLIDER[at:at + 1] for at in range(len(GLIDER)))), GLIDER_TEXT),
    ("a stream of nothing and more", outcome_of(fed, [b"", GLIDER, b""]), GLIDER_TEXT),
    ("a stream to RLE", outcome_of(fed, [FILES["pair.mc"]], "to_rle"), PAIR_RLE),
    ("a stream that is shown", outcome_of(fed, [FILES["pair.mc"]], "show"), PAIR_SHOWN),
    ("a stream that is stepped", outcome_of(fed, [FILES["line.rle"]], "step"), LINE_STEPPED),
    ("a stream of a moved text", outcome_of(fed, (ELSEWHERE[at:at + 7] for at in range(0, len(ELSEWHERE), 7)), form="moved"), GLIDER_TEXT),
    ("an open file of a turned text", outcome_of(golly_canon.stream, io.BytesIO(MIRRORED), form="turned"), TURNED_TEXT),
    ("a stream of phases", outcome_of(fed, [LATER[:9], LATER[9:]], form="phases"), TURNED_TEXT),
    ("an open file of phases up to less", outcome_of(golly_canon.stream, io.BytesIO(LATER), form="phases", within=3), LATER_TEXT),
    ("a stream to RLE in a form", outcome_of(Stream, "to_rle", form="moved"), "ValueError"),
    ("a stream to RLE in phases", outcome_of(Stream, "to_rle", form="phases", within=4), "ValueError"),
    ("an open file", outcome_of(golly_canon.stream, io.BytesIO(GLIDER)), GLIDER_TEXT),
    ("an open file to RLE", outcome_of(golly_canon.stream, io.BytesIO(FILES["pair.mc"]), "to_rle"), PAIR_RLE),
    ("a long file", outcome_of(golly_canon.stream, io.BytesIO(b"#C a comment\n" * 20_000 + GLIDER)), GLIDER_TEXT),
    ("chunks", outcome_of(golly_canon.stream, [GLIDER[:9], GLIDER[9:]]), GLIDER_TEXT),
    ("a stream that is finished twice", outcome_of(twice), (GLIDER_TEXT, GLIDER_TEXT, SPENT)),
    ("the greatest limit", outcome_of(golly_canon.canon, GLIDER, limit=2**64), GLIDER_TEXT),
    ("a file that is refused", outcome_of(golly_canon.canon, CHILD), NO_CHILD),
    ("no bytes", outcome_of(golly_canon.canon, b""), ("NoHeader", 1, False, "line 1: NoHeader")),
    ("the first of two", outcome_of(golly_canon.same, CHILD, b""), NO_CHILD),
    ("the second of two", outcome_of(golly_canon.same, GLIDER, CHILD), NO_CHILD),
    ("too many cells", outcome_of(golly_canon.to_rle, FILES["many.rle"]), ("TooManyCells", None, False, "TooManyCells")),
    ("many cells in a form", outcome_of(golly_canon.canon, FILES["many.rle"], "moved"), MANY_TEXT),
    ("the key of many cells", outcome_of(golly_canon.key, FILES["many.rle"], "moved"), hashlib.sha256(MANY_TEXT).digest()),
    ("a file that is refused in a form", outcome_of(golly_canon.canon, CHILD, "moved"), NO_CHILD),
    ("a file that is refused for its key", outcome_of(golly_canon.key, CHILD), NO_CHILD),
    ("the second of two in a form", outcome_of(golly_canon.same, GLIDER, CHILD, "turned"), NO_CHILD),
    ("a limit of 0 in a form", outcome_of(golly_canon.canon, GLIDER, "moved", limit=0), ("Full", None, False, "Full")),
    ("another form", outcome_of(golly_canon.canon, GLIDER, "shifted"), "ValueError"),
    ("a key in another form", outcome_of(golly_canon.key, GLIDER, 1), "ValueError"),
    ("same in another form", outcome_of(golly_canon.same, GLIDER, GLIDER, None), "ValueError"),
    *((f"{name} within {within!r}", outcome_of(call, *given, "phases", within=within), error) for name, call, given in (
        ("canon", golly_canon.canon, [GLIDER]), ("key", golly_canon.key, [GLIDER]), ("same", golly_canon.same, [GLIDER, GLIDER]),
        ("keys", golly_canon.keys, [[]]), ("pattern_keys", golly_canon.pattern_keys, [[]]), ("stream_key", golly_canon.stream_key, [[]]))
      for within, error in ((0, "ValueError"), (-1, "ValueError"), (2**31, "ValueError"), (4.0, "TypeError"), ("4", "TypeError"))),
    *((f"{name} within a number in another form", sentence_on(call, *given, within=128), "within is for form='phases' alone") for name, call, given in (
        ("canon", golly_canon.canon, [GLIDER]), ("key", golly_canon.key, [GLIDER, "moved"]), ("same", golly_canon.same, [GLIDER, GLIDER, "turned"]),
        ("keys", golly_canon.keys, [[]]), ("pattern_keys", golly_canon.pattern_keys, [[], "turned"]), ("stream_key", golly_canon.stream_key, [[]]),
        ("stream", golly_canon.stream, [[]]), ("a stream", Stream, []), ("a stream to RLE", Stream, ["to_rle"]))),
    ("a name without its table", outcome_of(golly_canon.step, FILES["spread.rle"]), ("NeedsTable", None, False, "NeedsTable")),
    ("a table of another name", outcome_of(golly_canon.step, GLIDER, FILES["spread.rule"]), ("RuleMismatch", None, False, "RuleMismatch")),
    ("a refused table", outcome_of(golly_canon.step, GLIDER, FILES["bad.rule"]), ("NoTable", 2, True, "table line 2: NoTable")),
    ("a refused file behind a table", outcome_of(golly_canon.step, CHILD, FILES["spread.rule"]), NO_CHILD),
    ("two states for a cell", outcome_of(golly_canon.step, FILES["two.rle"], FILES["two.rule"]), ("Ambiguous", 8, True, "table line 8: Ambiguous")),
    ("a stream that refuses", outcome_of(refused_again), (NO_CHILD,) * 4),
    ("an open file that is refused", outcome_of(golly_canon.stream, io.BytesIO(CHILD)), NO_CHILD),
    ("a limit of 0", outcome_of(golly_canon.canon, GLIDER, limit=0), ("Full", None, False, "Full")),
    ("a limit below 0", outcome_of(golly_canon.canon, GLIDER, limit=-1), "ValueError"),
    ("a closed stream", outcome_of(after_closing), SPENT),
    ("a stream in another thread", in_another_thread(), "RuntimeError"),
    ("another thing to give", outcome_of(Stream, "mc"), "ValueError"),
    ("a text", outcome_of(golly_canon.canon, GLIDER.decode()), "TypeError"),
    ("a number", outcome_of(golly_canon.canon, 5), "TypeError"),
    ("a file that is open for text", outcome_of(golly_canon.stream, io.StringIO(GLIDER.decode())), "TypeError"),
    ("bytes for chunks", outcome_of(golly_canon.stream, GLIDER), "TypeError"),
]


def told(call, *arguments):
    """What a call comes to, as the program says it: its output and its standard error."""
    try:
        found = call(*arguments)
    except Refused as why:
        return b"", f"{why}\n".encode()
    return found, b""


def as_the_program(program, pattern, other, rule_table):
    """Whether each call answers as the program does on these files. What `show` returns is compared by the program's lines."""
    with tempfile.TemporaryDirectory() as folder:
        for name, data in (("pattern", pattern), ("other", other), ("table", rule_table)):
            with open(os.path.join(folder, name), "wb") as it:
                it.write(data)
        runs = [
            (["canon", "pattern"], told(golly_canon.canon, pattern)),
            (["convert", "pattern", "--to", "rle"], told(golly_canon.to_rle, pattern)),
            (["show", "pattern"], told(golly_canon.show, pattern)),
            (["step", "pattern"], told(golly_canon.step, pattern)),
            (["step", "pattern", "--table", "table"], told(golly_canon.step, pattern, rule_table)),
            (["same", "pattern", "other"], told(golly_canon.same, pattern, other)),
            (["canon", "pattern", "--form", "phases"], told(golly_canon.canon, pattern, "phases")),
            (["canon", "pattern", "--form", "phases", "--within", "2"], told(lambda it: golly_canon.canon(it, "phases", within=2), pattern)),
            (["same", "pattern", "other", "--form", "phases"], told(golly_canon.same, pattern, other, "phases")),
        ]
        for words, found in runs:
            answer = processes.run([program, *words], cwd=folder)
            wanted = answer.output, answer.error
            if words[0] == "show" and answer.output:
                wanted = Shown.of(answer.output), b""
            if words[0] == "same" and answer.output:
                wanted = answer.output == b"same\n", b""
            if found != wanted:
                return False
    return True


def random_triple(number):
    """A pattern file, another one and a rule table, which are right or nearly so."""
    source = random.Random(f"module {number}")
    rule, greatest = random_files.rule_text(source)
    name = random_files.name_text(source)
    table, states = random_files.table_file(source, name)
    if source.random() < 0.5:
        rule, greatest = name, min(255, states - 1)
    pattern = random_files.pattern_file(source, rule, greatest)
    return random_files.mutated(source, pattern), random_files.mutated(source, pattern), random_files.mutated(source, table, (0.7, 0.3))


def names_of_page():
    """What the example of docs/LIBRARY.md gives its names, beside the file that it opens."""
    with open(PAGE, encoding="utf-8") as it:
        example = re.search(r"^## From Python\n.*?\n\n((?:    [^\n]*\n)+)", it.read(), re.MULTILINE | re.DOTALL)[1]
    with tempfile.TemporaryDirectory() as folder:
        path = os.path.join(folder, "glider.rle")
        with open(path, "wb") as it:
            it.write(GLIDER)
        names = {}
        exec(textwrap.dedent(example).replace('open("glider.rle", "rb").read()', f"open({path!r}, 'rb').read()"), names)
    return names["text"], names["population"], names["is_duplicate"], names["key"]


# Macrocell files that seem to have lost their line ends: all of them, those of the first line, and the squares; and files that have not.
LOST = b"[M2] (golly 4.2)\r#R B3/S23\r$$..*$...*$.***$\r"
SOME_LOST = b"[M2]\r#R B3/S23\n$$..*$\n"
NO_SQUARES = b"[M2] (golly 4.2)\n#R B3/S23\n\n#C none\r\n  \n"
COMMENTED = [b"[M2] (golly 4.2)\n#RB36/S23\n$$..*$\n", b"[M2]\n#C a\n#G7\r\n#R B3/S23\n$$..*$\n", b"[M2]\n#R23/3\n#C no squares\n"]
WHOLE = [b"[M2]\n#Reflector\n#Generation\n#R B36/S23\n#G 7\n$$..*$\n", b"#CXRLE Gen=1\n#G7\nx = 1, y = 1\no!\n", GLIDER, FILES["pair.mc"], FILES["pair.mc"].replace(b"\n", b"\r\n"), b"[M2]\r\r\n$$..*$", b"[M2]\n\n \t$$..*$\n", b"x = 0, y = 0\n!\n"]


def warned(call, *arguments):
    """The warnings of a call, and whether they are issued for this file."""
    with warnings.catch_warnings(record=True) as found:
        warnings.simplefilter("always")
        outcome_of(call, *arguments)
    return [(it.category, str(it.message).split(":")[0].split(",")[0], os.path.basename(it.filename)) for it in found]


def of_line_ends():
    """Each call warns of a file that seems to have lost its line ends, or has a comment that Golly reads, and of no other, and answers what it would
    without."""
    own = os.path.basename(__file__)
    told = "line 1 has a carriage return inside it", "the file has no line of squares", "a line such as `#RB36/S23` or `#G7`"
    returned, squares, comment = [(PatternWarning, it, own) for it in told]
    for name in ("canon", "key", "to_rle", "show", "step"):
        call = getattr(golly_canon, name)
        for data, wanted in ((LOST, returned), (SOME_LOST, returned), (NO_SQUARES, squares), *((it, comment) for it in COMMENTED)):
            check(warned(call, data) == [wanted], f"{name} of {data!r} warns: {warned(call, data)}")
        check(not any(warned(call, it) for it in WHOLE), f"{name} doesn't warn of files with line ends")
    check(warned(golly_canon.same, GLIDER, LOST) == warned(golly_canon.same, LOST, GLIDER) == [returned], "same warns of either file")
    odd = [(LOST, returned), (SOME_LOST, returned), (NO_SQUARES, squares), *((it, comment) for it in COMMENTED)]
    for data, wanted in [*((data, [wanted]) for data, wanted in odd), *((data, []) for data in WHOLE)]:
        for size in (1, 3, 1000):
            pieces = [data[at:at + size] for at in range(0, len(data), size)]
            found, found_of_key = warned(golly_canon.stream, pieces), warned(golly_canon.stream_key, pieces)
            check(found == found_of_key == wanted, f"a stream of {data!r} in pieces of {size} warns: {found}, {found_of_key}")
    check(warned(golly_canon.canon, CHILD) == [], "a file that is refused has no warning")
    check(golly_canon.canon(LOST.split(b"\r")[0]) == LIFE, "what is read of it is the blank pattern")
    check(golly_canon.warning_of(GLIDER) is None and "line ends" in golly_canon.warning_of(bytearray(LOST)), "the warning of a file")


def of_hints(program):
    """The warning of a file, and what a refused file is: what the program says, by each call, whole and in pieces."""
    for name, (data, words) in {**hints.WARNED, **{name: (data, "") for name, data in hints.NOT_WARNED.items()}}.items():
        said = hints.said_by(program, data)
        check(words in said and bool(words) == bool(said), f"the program on {name}: {said!r}")
        check(golly_canon.warning_of(data) == (said or None), f"the warning of {name}")
        for pieces in ([data], [data[at:at + 1] for at in range(len(data))]):
            with warnings.catch_warnings(record=True) as found:
                warnings.simplefilter("always")
                golly_canon.stream(pieces)
            check([str(it.message) for it in found] == ([said] if said else []), f"the warning of a stream of {name}: {found}")
    for name, (data, words) in hints.FOREIGN.items():
        said = hints.said_by(program, data)
        for call in (golly_canon.canon, golly_canon.key, golly_canon.show, lambda it: golly_canon.same(it, GLIDER), lambda it: golly_canon.same(GLIDER, it)):
            try:
                check(call(data) is None, f"{name} is refused")
            except Refused as why:
                check(why.reason == said and (why.advice or "").startswith(words) and bool(words) == bool(why.advice), f"why {name} is refused: {why.reason}")
    packed = hints.FOREIGN["packed.gz"][0]
    try:
        check(golly_canon.same(CHILD, packed), "two files are refused")
    except Refused as why:
        check((why.kind, why.advice) == ("BadChild", None), f"the first of two files is the one that is refused: {why.reason}")
    try:
        check(golly_canon.step(GLIDER, packed), "a table is refused")
    except Refused as why:
        check((why.in_table, why.advice) == (True, "This is a gzip file: unpack it first, with gunzip."), f"what a rule table is: {why.advice}")
    try:
        Stream().feed(packed)
    except Refused as why:
        check(pickle.loads(pickle.dumps(why)).reason == why.reason, "a refusal can be sent")


def of_keys(program):
    """The keys of files by their paths, beside those that the program writes, and why a file has none."""
    files = {"a glider.rle": GLIDER, "-x": MIRRORED, "two\nlines": ELSEWHERE, "refused.mc": CHILD, "lost.mc": LOST, "pair.mc": FILES["pair.mc"], "empty": b""}
    with tempfile.TemporaryDirectory() as folder:
        for name, data in files.items():
            with open(os.path.join(folder, name), "wb") as it:
                it.write(data)
        paths = [os.path.join(folder, it) for it in files]
        paths += [os.path.join(folder, "absent"), folder, pathlib.Path(paths[0]), os.fsencode(paths[0])]
        for form in ("placed", "moved", "turned", "phases"):
            with warnings.catch_warnings(record=True) as issued:
                warnings.simplefilter("always")
                found = list(golly_canon.keys(iter(paths), form))
            words = ["keys", "--zero", "--form", form, "--", *paths[:len(files)]]
            wanted = {name[66:]: bytes.fromhex(name[:64].decode()) for name in processes.run([program, *words]).output.split(b"\0") if name}
            check([it.path for it in found] == paths and not issued, f"each path in its order, {form}")
            of_program = {os.fsencode(it.path): it.key for it in found[:len(files)] if it.key}
            check(of_program == wanted and len(wanted) == 5, f"the keys of the program, {form}: {found}")
            whys = [it.why and (str(it.why) if isinstance(it.why, Refused) else type(it.why).__name__) for it in found]
            check(whys == [None, None, None, "line 4: BadChild", None, None, "line 1: NoHeader", "FileNotFoundError", "IsADirectoryError", None, None],
                  f"why a file has no key, {form}: {whys}")
            check([it.warning is not None for it in found] == [it.path == paths[4] for it in found], f"the warning of a file, {form}")
            check(all((it.key is None) != (it.why is None) for it in found) and found[-1].key == found[-2].key == found[0].key, f"a key or a reason, {form}")
            check(all(it.why is None or it.why.__traceback__ is None for it in found), f"a reason holds no file, {form}")
    check(outcome_of(golly_canon.keys, ["absent"], "shifted") == "ValueError", "keys in another form")
    check(outcome_of(golly_canon.keys, ["absent"], limit=-1) == "ValueError", "keys within a limit below 0")
    for path in (__file__, os.fsencode(__file__), pathlib.Path(__file__)):
        check("paths" in misuse_of(golly_canon.keys, path), f"keys of one path: {path!r}")
    check([it.why.kind for it in golly_canon.keys([__file__, __file__], limit=0)] == ["NoHeader", "NoHeader"], "keys within a limit")


# Patterns by their periods: a block, a toad, a pulsar, a lightweight spaceship, and a figure eight.
PERIODIC = [(1, b"2o$2o!"), (2, b"b3o$3o!"), (3, b"2b3o3b3o2$o4bobo4bo$o4bobo4bo$o4bobo4bo$2b3o3b3o2$2b3o3b3o$o4bobo4bo$o4bobo4bo$o4bobo4bo2$2b3o3b3o!"),
            (4, b"bo2bo$o$o3bo$4o!"), (8, b"3o$3o$3o$3b3o$3b3o$3b3o!")]


def of_phases():
    """All phases of a pattern have one text, which is the least of their turned texts, in generation 0; and a lesser `within` leaves each its own."""
    for period, cells in PERIODIC:
        phases = [golly_canon.step(b"x = 0, y = 0\n" + cells, generations=number) for number in range(period)]
        turned = [golly_canon.canon(it, "turned").replace(b"#G %d\n" % number, b"") for number, it in enumerate(phases)]
        check({golly_canon.canon(it, "phases") for it in phases} == {min(turned)}, f"the text of the phases of a pattern of period {period}")
        check({golly_canon.canon(it, "phases", within=period) for it in phases} == {min(turned)}, f"the same up to its period {period}")
        found = [golly_canon.canon(it, "phases", within=period - 1) for it in phases] if period > 1 else turned
        check(found == turned, f"the texts of phases up to less than the period {period}")


def misuse_of(call, *arguments, **more):
    """The text of the `TypeError` that a call raises, or an empty one."""
    try:
        call(*arguments, **more)
    except TypeError as error:
        return str(error)
    return ""


def of_pattern_keys(program):
    """The keys of patterns that come one after the other, beside those that the program writes of the same stream, and why a pattern has none."""
    for form in ("placed", "moved", "turned", "phases"):
        wanted = streams.said_by(program, form)
        with warnings.catch_warnings(record=True) as issued:
            warnings.simplefilter("always")
            found = list(golly_canon.pattern_keys(iter(streams.PATTERNS), form))
        check([it.number for it in found] == [*range(1, len(wanted) + 1)] and not issued, f"each pattern in its order, {form}")
        own = [streams.Said(it.key.hex() if it.key else "", str(it.why or ""), it.why.reason if it.why else "", it.warning or "") for it in found]
        wrong = [(number, *pair) for number, pair in enumerate(zip(own, wanted), 1) if pair[0] != pair[1]]
        check(not wrong, f"what the program says of {len(wanted)} patterns, {form}: {wrong[:3]}")
        check(all((it.key is None) == isinstance(it.why, Refused) for it in found), f"a key or a refusal, {form}")
        counts = [sum(map(bool, parts)) for parts in zip(*wanted)]
        check(min(counts) > 10 and counts[0] + counts[1] == len(wanted), f"patterns with keys, refusals and warnings, {form}: {counts}")
    check([it.key for it in golly_canon.pattern_keys([bytearray(GLIDER), memoryview(GLIDER)])] == [bytes.fromhex(GLIDER_KEY)] * 2, "patterns in other bytes")
    check([*golly_canon.pattern_keys([])] == [], "no patterns")
    check([it.why.kind for it in golly_canon.pattern_keys([GLIDER], limit=0)] == ["Full"], "patterns within a limit")
    check(outcome_of(golly_canon.pattern_keys, [], "shifted") == outcome_of(golly_canon.pattern_keys, [], limit=-1) == "ValueError", "another form or limit")
    for given in (GLIDER.decode(), GLIDER, bytearray(GLIDER), memoryview(GLIDER), 5, None, io.BytesIO(GLIDER), open):
        said = misuse_of(golly_canon.pattern_keys, given)
        check(said.startswith("patterns are the bytes of one pattern after another, and not"), f"patterns that are {given!r:.30}: {said}")
    for odd in (GLIDER.decode(), 5, None, [GLIDER]):
        found = golly_canon.pattern_keys([GLIDER, odd, GLIDER])
        is_told = next(found).number == 1 and misuse_of(next, found) == f"patterns are bytes, and pattern 2 is {type(odd).__name__}"
        check(is_told, f"a pattern that is {odd!r:.30}")
    of_laziness()
    of_many_patterns()


class Piece(bytearray):
    """Bytes of which it can be seen whether they are still held."""


def of_laziness():
    """Each pattern is taken when it is its turn, and isn't held after it, also if it was refused; what the generator of the patterns raises comes through."""
    taken, held = [], []

    def pieces():
        for data in (GLIDER, CHILD):
            taken.append(len(held))
            piece = Piece(data)
            held.append(weakref.ref(piece))
            yield piece
            del piece
        raise OSError("no more")

    found = golly_canon.pattern_keys(pieces())
    check(taken == [], "no pattern is taken before it is asked for")
    first, second = next(found), next(found)
    check(first.key and second.why.kind == "BadChild" and taken == [0, 1], "a pattern is taken when it is asked for")
    check(outcome_of(next, found) == "OSError", "what the patterns' generator raises")
    check([it() for it in held] == [None, None], "no pattern is held")
    endless = golly_canon.pattern_keys(itertools.cycle([GLIDER, CHILD]))
    check([it.why is None for it in itertools.islice(endless, 5)] == [True, False, True, False, True] and next(endless).number == 6, "patterns without an end")


# Takes patterns from a generator that never ends, of which each third is refused and each has other bytes, and tells how much the peak of memory grew after
# the first tenth of them, how many keys and refusals there were, and whether all keys are right.
MANY = """
import golly_canon, itertools, resource, sys
count, key = int(sys.argv[1]), bytes.fromhex(sys.argv[2])
def patterns():
    for number in itertools.count():
        yield b"#C %d\\nx = 3, y = 3\\nbo$2bo$3%s!\\n" % (number, b"z" if number % 3 == 2 else b"o")
peak = lambda: 1024 * resource.getrusage(resource.RUSAGE_SELF).ru_maxrss
found = golly_canon.pattern_keys(patterns(), "moved")
keys = refusals = 0
for it in itertools.islice(found, count):
    keys, refusals = keys + (it.key == key), refusals + (it.why is not None and str(it.why) == "line 3: BadItem")
    if it.number == count // 10:
        before = peak()
print(peak() - before, keys, refusals, it.number)
"""


def of_many_patterns():
    """Many patterns of a generator that never ends take no more memory than some."""
    words = [sys.executable, "-B", "-c", MANY, str(PATTERNS), GLIDER_KEY]
    run = subprocess.run(words, capture_output=True, text=True, check=False)
    check(run.returncode == 0, f"{PATTERNS} patterns: {run.stderr[-300:]}")
    more, keys, refusals, number = map(int, run.stdout.split() or [MORE_MEMORY + 1, 0, 0, 0])
    check((keys, refusals, number) == (PATTERNS - PATTERNS // 3, PATTERNS // 3, PATTERNS), f"the keys of {PATTERNS} patterns: {keys}, {refusals}, {number}")
    check(more <= MORE_MEMORY, f"the memory of {PATTERNS} patterns: {more} bytes more than for the first tenth")


def without_library(path):
    """What the module says where the library isn't there."""
    given = {**os.environ, "GOLLY_CANON_LIBRARY": path}
    run = subprocess.run([sys.executable, "-B", "-c", "import golly_canon"], env=given, capture_output=True, text=True, check=False)
    return run.returncode, run.stderr.splitlines()[-1]


def main(program):
    program = processes.program_of(program)
    warnings.simplefilter("ignore", PatternWarning)  # but where they are looked for
    results = doctest.testmod(golly_canon)
    check(results.attempted == 5 and results.failed == 0, f"the example of the module: {results}")
    found = outcome_of(names_of_page)
    check(found == (GLIDER_TEXT, 5, True, hashlib.sha256(TURNED_TEXT).digest()), f"the example of docs/LIBRARY.md: {found}")
    for name, found, wanted in ROWS:
        check(found == wanted, f"{name}: {found!r} and not {wanted!r}")
    of_line_ends()
    of_hints(program)
    of_keys(program)
    of_phases()
    of_pattern_keys(program)
    wrong = [number for number in range(RANDOM_FILES) if not as_the_program(program, *random_triple(number))]
    check(not wrong, f"{RANDOM_FILES} random files as the program has them: {wrong[:5]}")
    version = processes.run([program, "--version"]).output.decode().split()[-1]
    check(golly_canon.__version__ == version, f"the version is the program's: {golly_canon.__version__} and not {version}")
    status, said = without_library("/nowhere/libgolly_canon.so.1")
    check(status == 1 and said.startswith("ImportError: the library of golly_canon isn't found. "), f"without the library: {said}")
    return ended()


if __name__ == "__main__":
    if len(sys.argv) != 2:
        sys.exit("usage: tests/library/module.py PROGRAM")
    sys.exit(main(sys.argv[1]))
