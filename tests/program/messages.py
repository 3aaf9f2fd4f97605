#!/usr/bin/env python3
"""Holds what the built program, PROGRAM, says besides its answers: which files `--recursive` finds in folders; which arguments are refused that aren't
UTF-8 text; what is said of `--stream` that is misused, and of a stream that can't be opened; what `--explain` adds to the line of a fault, and a terminal
without it; that nothing is said where the reader of a pipe leaves; of which files there are warnings; what a terminal gets at the end of `keys` and
`duplicates`; and what it gets of control characters. Every text was written by hand, but for the sentences of the kinds of fault, which are those of the man
page.

usage: tests/program/messages.py PROGRAM

The last line counts the checks.
"""

import json
import os
import pty
import re
import shutil
import socket
import subprocess
import sys
import tempfile
import tty

sys.dont_write_bytecode = True  # nothing is left in tests/
sys.path.insert(0, os.path.dirname(os.path.dirname(os.path.abspath(__file__))))

import keys  # noqa: E402
from keys import ABSENT, CELLS, COMMENT, CUT, FOLDER, JOINED, LEFT_OUT, LOCKED, NO_NAME, OTHER, RETURN, SQUARES  # noqa: E402
from keys import key_line, key_of, problems_of, sentences  # noqa: E402
from shared import counting, processes  # noqa: E402
from shared.fixtures import FILES, HEADER, LIFE, PAIR_TEXT, canonical  # noqa: E402
from shared.processes import Answer  # noqa: E402

PAIR, BLANK = key_of(PAIR_TEXT), key_of(LIFE)
# Who reads a folder that may not be read: root may read all.
NOBODY = {"user": 65534, "group": 65534, "extra_groups": []} if os.getuid() == 0 else {}


class Place(keys.Place):
    """A folder in which the program runs, with any command."""

    def told(self, words, source=b"", **how):
        return processes.run([self.program, *words], source, cwd=self.here, timeout=300, **how)

    def holds(self, name, words, answer, source=b"", **how):
        counting.row(name, problems_of(self.told(words, source, **how), answer))

    def path(self, name):
        return os.path.join(os.fsencode(self.here), name)


def lines_of(names, key=PAIR, is_zero=False):
    return b"".join(key_line(key, name, is_zero) for name in names)


# ---- folders

# What is in the folder `tree`, in the order in which it is read. `a` comes before `a.d`, and what is in `b` before `b.rle`.
IN_TREE = [b"a", b"a.d/y", b"b/d/e", b"b/x", b"b.rle", b"line\nfeed", b"z"]
LOSSY = "caf\ufffd".encode()


def plant(place):
    """Makes the folder `tree`: files, links, and what is neither."""
    for name in (b"tree/b/d", b"tree/a.d", b"tree/empty"):
        os.makedirs(place.path(name))
    for name in IN_TREE:
        place.put(b"tree/" + name, FILES["pair.rle"])
    place.put(b"pair", FILES["pair.mc"])
    place.put(b"tree/caf\xe9", FILES["pair.mc"])
    for link, to in (("l.rle", "../pair"), ("k.rle", "b.rle"), ("a.d/link", "../b"), ("around", ".."), ("dangling", "nowhere"), ("null", "/dev/null")):
        os.symlink(to, place.path(b"tree/" + link.encode()))
    os.mkfifo(place.path(b"tree/pipe"))
    with socket.socket(socket.AF_UNIX) as it:
        here = os.getcwd()
        os.chdir(place.here)  # the name of a socket is short
        it.bind("tree/socket")
        os.chdir(here)
    os.symlink("tree", place.path(b"link"))


def named_pipe_rows(place):
    """On a terminal a run says that a name is that of a pipe, since it waits there. One that a shell makes for a command has no such line."""
    os.mkfifo(place.path(b"pipe"))
    text = place.told(["canon", "pair"]).output
    for name, shown in ((b"pipe", keys.PIPE), (b"/dev/stdin", b"")):
        with subprocess.Popen(["sh", "-c", "cat pair > pipe"], cwd=place.here), subprocess.Popen(["cat", "pair"], cwd=place.here, stdout=subprocess.PIPE) as fed:
            if name != b"pipe":
                open(place.path(b"pipe"), "rb").close()
            found = from_stream(place, ["canon", name], fed.stdout)
        counting.row(f"a pipe on a terminal: {name!r}", problems_of(found, Answer(0, text, shown)))
    os.remove(place.path(b"pipe"))


def folder_rows(place):
    plant(place)
    lost = b"tree/%s: %s\n" % (LOSSY, NO_NAME.encode())
    # The pipe and the socket; links are passed over.
    devices = keys.DEVICES_LEFT_OUT % 2
    left_out = LEFT_OUT % 1 + devices
    found = lines_of([b"tree/" + name for name in IN_TREE])
    for word in ("-r", "--recursive"):
        place.holds(f"keys {word} of a folder", ["keys", word, "tree"], Answer(3, found, lost + left_out))
    lossy = json.dumps({"name": f"tree/{LOSSY.decode()}", "kind": "ReadFault", "reason": NO_NAME}, ensure_ascii=False, separators=(",", ":"))
    answer = place.told(["keys", "-r", "--json", "tree"])
    right = (answer.status, answer.error, lossy.encode() in answer.output.split(b"\n"), answer.output.count(b"\n")) == (3, left_out, True, len(IN_TREE) + 1)
    counting.row("keys -r --json of a folder", [] if right else [repr(answer)])
    names = b"".join(b"tree/%s\n" % keys.escaped(name) for name in IN_TREE)
    place.holds("duplicates -r of a folder", ["duplicates", "-r", "tree"], Answer(3, names, lost + left_out))
    place.holds("a slash after the folder", ["keys", "tree/", "-r"], Answer(3, found, lost + left_out))
    linked = lines_of([b"link/" + name for name in IN_TREE])
    place.holds("a link to the folder", ["keys", "-r", "link"], Answer(3, linked, lost.replace(b"tree", b"link") + left_out))
    words = ["keys", "-r", "pair", "tree/b", "-", "absent", "tree/a"]
    names = [b"pair", b"tree/b/d/e", b"tree/b/x", b"-", b"tree/a"]
    place.holds("folders among files", words, Answer(3, lines_of(names), b"absent: no such file\n"), PAIR_TEXT)
    zeros = lines_of([b"tree/b/d/e", b"tree/b/x"], is_zero=True)
    place.holds("names that end in NUL", ["keys", "--zero", "-r", "tree/b"], Answer(0, zeros))
    place.holds("an empty folder", ["keys", "-r", "tree/empty"], Answer(0))
    place.holds("a folder without the option", ["keys", "tree", "pair"], Answer(3, lines_of([b"pair"]), b"tree: is a folder\n"))
    place.put(b"list", b"tree\npair\n")
    place.holds("a folder in a list", ["keys", "-r", "--from", "list"], Answer(3, lines_of([b"pair"]), b"tree: is a folder\n"))
    place.put(b"tree/" + LOSSY, FILES["input"])
    place.holds("a file that has the name with U+FFFD", ["keys", "-r", "tree"], Answer(3, found, lost + lost + LEFT_OUT % 2 + devices))
    answer = Answer(3, lines_of([b"pair"]), b"\xff: %s\n" % NO_NAME.encode() + LEFT_OUT % 1)
    place.holds("a list, where folders are read", ["keys", "-r", "--from", "-"], answer, b"pair\n\xff\n")
    os.remove(place.path(b"tree/" + LOSSY))
    for name, mode in ((b"shut", 0), (b"hidden", 0o444)):
        os.makedirs(place.path(b"doors/" + name))
        place.put(b"doors/" + name + b"/x", FILES["pair.rle"])
        place.put(b"doors/open", FILES["pair.rle"])
        os.chmod(place.path(b"doors/" + name), mode)
    answer = Answer(3, lines_of([b"doors/open"]), b"doors/hidden/x: permission denied\ndoors/shut: permission denied\n")
    place.holds("folders that may not be read", ["keys", "-r", "doors"], answer, **NOBODY)
    for name in (b"shut", b"hidden"):
        os.chmod(place.path(b"doors/" + name), 0o755)
    # Many levels, which are no longer than a path may be.
    deep = b"deep" + b"/d" * 1500
    place.shell(f"mkdir -p {deep.decode()}")
    place.put(deep + b"/x", FILES["pair.rle"])
    place.holds("1,500 folders, each in the one before", ["keys", "-r", "deep"], Answer(0, lines_of([deep + b"/x"])))
    place.shell("rm -r deep")  # Python's own way would call itself too often
    os.mkdir(place.path(b"wide"))
    names = sorted(b"wide/%d" % number for number in range(3000))
    for name in names:
        place.put(name, FILES["pair.rle"])
    place.holds("3,000 files in a folder", ["keys", "-r", "wide"], Answer(0, lines_of(names)))
    answer = Answer(3, found + lines_of([b"pipe", b"pair"]), lost + keys.PIPE + b"\r9 of 10 files" + keys.CLEARED + left_out)
    run = keys.on_terminal(place, ["-r", "tree", "pipe", "pair"], keys.HELD)
    counting.row("progress knows how many files there are", problems_of(run, answer))


# ---- arguments that are no text

NO_TEXT = b"gl\xff\x1b"
SHOWN = "error: an argument isn't UTF-8 text: gl\ufffd\\x1b\n".encode()


def argument_rows(place):
    lossy = f"gl\ufffd\x1b: {NO_NAME}\n".encode()
    place.holds("a file among files", ["keys", NO_TEXT, "pair"], Answer(3, lines_of([b"pair"]), lossy))
    place.holds("a file among duplicates", ["duplicates", "pair", NO_TEXT, "pair"], Answer(3, b"pair\npair\n", lossy))
    place.holds("two files among files", ["keys", "pair", NO_TEXT, "pair", NO_TEXT], Answer(3, lines_of([b"pair"] * 2), lossy * 2))
    place.holds("a file among folders", ["keys", "-r", "tree/b", NO_TEXT], Answer(3, lines_of([b"tree/b/d/e", b"tree/b/x"]), lossy + LEFT_OUT % 1))
    place.put("gl\ufffd\x1b".encode(), FILES["pair.mc"])
    place.put(NO_TEXT, FILES["pair.mc"])
    place.holds("a file, where another has the name with U+FFFD", ["keys", NO_TEXT], Answer(3, b"", lossy))
    for words in (["canon", NO_TEXT], ["same", "pair", NO_TEXT], ["step", "--table", NO_TEXT, "pair"], ["keys", "--from", NO_TEXT, "pair"]):
        place.holds(f"no text: {words[0]!r} with {len(words)} words", words, Answer(5, b"", SHOWN))
    # Where the arguments are at fault in another way, that is what is reported.
    for words, said in (([NO_TEXT, "pair"], b"unrecognized subcommand"), (["keys", "--form", NO_TEXT, "pair"], b"the value of --form is"),
                        (["duplicates", "--form", NO_TEXT, "pair"], b"the value of --form is"), (["show", NO_TEXT, NO_TEXT + b"x"], b"unexpected argument"),
                        (["keys", "--frm", "turned", NO_TEXT], b"unexpected argument '--frm'"), (["keys", NO_TEXT, "-x"], b"unexpected argument '-x'")):
        found = place.told(words)
        counting.row(f"no text, and another fault: {words[0]!r} with {len(words)} words", [] if found.status == 5 and said in found.error else [repr(found)])
    found = place.told(["canon", NO_TEXT, "--help"])
    counting.row("no text, and --help", [] if found.status == 0 and b"Usage: golly_canon canon" in found.output else [repr(found)[:300]])


# ---- streams of patterns that are misused, or can't be opened

KEYS_CALL = "golly_canon keys [OPTIONS] [FILE]..."
# The man page: `--stream` can't be combined with files, `--from` or `-r`, a form has one of four names, and `--within` is for one of them.
NOT_ALONE = "--stream can't be used with a FILE, with --from or with -r"
NO_FORM = "the value of --form is placed, moved, turned or phases"
NO_MOST = "the value of --within is a number from 1 to 2^64 - 1"
NOT_WITHIN = "--within is for --form phases alone"
NO_FILES = "a FILE, --from LIST or --stream STREAM has to be given"


def usage(message, call=KEYS_CALL):
    """What is said of wrong arguments: what is wrong, how the command is called, and where to read more."""
    called = f"Usage: {call}\n\n" if call else ""
    return f"error: {message}\n\n{called}For more information, try '--help'.\n".encode()


# Words of `keys`, and what is said of them.
MISUSED_STREAMS = [
    *((words, usage(NOT_ALONE)) for words in (
        ["--stream", "-", "pair"], ["pair", "--stream", "-"], ["--stream=stream", "pair", "absent"], ["--stream", "-", "-"], ["--stream", "absent", "-"],
        ["--stream", "-", "--from", "list"], ["--from=-", "--stream", "-"], ["--stream", "-", "-r"], ["--recursive", "--stream", "tree"],
        ["-r", "--stream", "-", "tree", "--from", "list", "--json", "--zero"], ["--stream", "-", "--", "-r"])),
    *((["--stream", "-", "--form", form], usage(NO_FORM)) for form in ("mirrored", "PLACED", "place", "")),
    (["--form", "shifted", "--ignore-generation", "--stream", "absent"], usage(NO_FORM)),
    *((["--stream", "-", "--form", "phases", "--within", most], usage(NO_MOST)) for most in ("0", "", "x", "1e3", "18446744073709551616")),
    *((["--stream", "-", "--within", "9", *form], usage(NOT_WITHIN)) for form in ([], ["--form", "placed"], ["--form", "turned"])),
    (["--stream", "-", "-", "--from", "-"], b"TwoInputs\n"), (["-", "--stream", "stream", "-"], b"TwoInputs\n"),
    ([], usage(NO_FILES)), (["--json", "--zero", "-r"], usage(NO_FILES)),
    (["--stream"], usage("a value is required for '--stream <STREAM>' but none was supplied", None)),
    (["--stream", "-", "--form"], usage("a value is required for '--form <FORM>' but none was supplied", None)),
    (["--stream", "a", "--stream", "b"], usage("the argument '--stream <STREAM>' cannot be used multiple times")),
    (["--stream", "-", "--stream=-"], usage("the argument '--stream <STREAM>' cannot be used multiple times")),
    (["--stream", NO_TEXT], SHOWN), (["--stream", "-", NO_TEXT], None), (["--stream", "-", "--explain"], None), (["--streams", "-"], None),
]
# Streams that can't be opened, and why; as nobody.
UNOPENED_STREAMS = [("absent", ABSENT), ("absent/x", ABSENT), ("tree", FOLDER), ("tree/", FOLDER), ("pair/x", OTHER), ("pair/", OTHER), ("", ABSENT),
                    ("locked", LOCKED), ("odd\n\\\r", ABSENT), ("n" * 300, OTHER), ("glider*.rle", ABSENT), ("/dev/fd/999", ABSENT)]


def misused_stream_rows(place):
    """What is said of `--stream` with other words than it takes, and of a stream that can't be opened or read: the same on a terminal."""
    place.put(b"stream", PAIR_TEXT + b"\0")
    place.put(b"list", b"pair\n")
    place.put(b"locked", PAIR_TEXT)
    os.chmod(place.path(b"locked"), 0)
    twice = b"Only one of the files, or the list of them, may be -, standard input.\n"
    for words, said in MISUSED_STREAMS:
        found = place.told(["keys", *words], PAIR_TEXT)
        shown = on_terminal(place, ["keys", *words], PAIR_TEXT)
        if said is None:
            right = found.status == 5 and not found.output and re.match(rb"error: [^\n]+\n\n(?s:.*)For more information, try '--help'\.\n\Z", found.error)
            counting.row(f"a misused stream: {words}", [] if right and shown == found else [repr((found, shown))])
            continue
        counting.row(f"a misused stream: {words}", problems_of(found, Answer(5, b"", said)))
        counting.row(f"a misused stream on a terminal: {words}", problems_of(shown, Answer(5, b"", said + (twice if said == b"TwoInputs\n" else b""))))
    found = place.told(["duplicates", "--stream", "stream"])
    said = b"error: unexpected argument '--stream' found\n"
    counting.row("duplicates takes no stream", [] if (found.status, found.output) == (5, b"") and found.error.startswith(said) else [repr(found)])
    for name, why in UNOPENED_STREAMS:
        line = keys.escaped(name.encode()) + b": " + why.encode() + b"\n"
        for words in (["--stream", name], [f"--stream={name}", "--zero", "--form", "turned", "--ignore-generation"]):
            place.holds(f"a stream that can't be opened: {words!r:.80}", ["keys", *words], Answer(3, b"", line), **NOBODY)
        counting.row(f"it on a terminal: {name!r:.60}", problems_of(on_terminal(place, ["keys", "--stream", name], **NOBODY), Answer(3, b"", line)))
        said = json.dumps({"name": name, "kind": "ReadFault", "reason": why}, separators=(",", ":")).encode() + b"\n"
        place.holds(f"its object: {name!r:.60}", ["keys", "--json", "--stream", name], Answer(3, said), **NOBODY)
    unread = b"1: ReadFault: " + sentences()["ReadFault"].encode() + b"\n"
    place.holds("a stream that can't be read", ["keys", "--stream", "/proc/self/mem"], Answer(3, b"", unread))
    said = {"name": "1", "kind": "ReadFault", "reason": sentences()["ReadFault"]}
    place.holds("its object", ["keys", "--json", "--stream", "/proc/self/mem"], Answer(3, json.dumps(said, separators=(",", ":")).encode() + b"\n"))
    for end, said in (("<&-", OTHER), ("< .", FOLDER)):
        found = place.shell(f'"$program" keys --stream - {end}')
        counting.row(f"a stream that is standard input {end}", problems_of(found, Answer(3, b"", b"-: %s\n" % said.encode())))
    os.mkfifo(place.path(b"pipe"))
    with subprocess.Popen(["sh", "-c", "cat stream > pipe"], cwd=place.here):
        found = on_terminal(place, ["keys", "--stream", "pipe"])
    counting.row("a stream that is a pipe, on a terminal", problems_of(found, Answer(0, lines_of([b"1"]), keys.PIPE)))
    os.remove(place.path(b"pipe"))


# ---- explanations

GZIP = bytes.fromhex("1f8b0800000000000003ab50b0550800")
RULE = FILES["spread.rule"]
CHILD = b"[M2]\n#R B3/S23\n....*$$$$$$$$\n4 0 0 0 9\n"
LONG = HEADER + b"o" * 190 + "\u00e9\x1b\u009b".encode() + b"\xff\\Q" + b"o" * 200 + b"\n"
EXPLAINED = {
    b"child.mc": CHILD,
    b"bad.rle": b"x = 3, y = 3\r\nbo$2bC$3o!\r\n",
    b"packed.gz": GZIP,
    b"packed.zip": b"PK\x03\x04\x14\x00",
    b"old.lif": b"#Life 1.05\n#P 0 0\n*\n",
    b"new.lif": b"#Life 1.06\n0 0\n",
    b"named.cells": b"!Name: glider\n.O.\n..O\nOOO\n",
    b"rows.cells": b".O.\r\n..O\r\nOOO\r\n",
    b"page.html": b"\n<!DOCTYPE html>\n",
    b"empty": b"",
    b"marked": b"\xef\xbb\xbfx = 1, y = 1\no!\n",
    b"returns": b"x = 1, y = 1, rule = B3/S23\ro!\r",
    b"headless": b"o!\n",
    b"commented": b"#C text\n3o$b2o!\n",
    b"cell.mcl": b"#MCell 4.00\n#L A.A\n",
    b"packed.bz2": b"BZh91AY&SY",
    b"packed.xz": b"\xfd7zXZ\x00\x00",
    b"packed.tar": b"pair.rle".ljust(257, b"\0") + b"ustar\x0000",
    b"drawn.png": b"\x89PNG\r\n\x1a\n\0\0\0\rIHDR",
    b"drawn.gif": b"GIF89a\x03",
    b"drawn.jpg": b"\xff\xd8\xff\xe0\x00\x10JFIF",
    b"binary": b"\x7fELF\x02\x01\x01\x00\n",
    b"text": b"A glider.\nx = 3, y = 3\no!\n",
    b"capital": b"X = 3, y = 3\no!\n",
    b"table": RULE,
    b"long": LONG,
    b"item": b"x = 3, y = 3\nbo$ 2bo$3q2o!\n",
    b"tab": b"x = 3, y = 3\n3o$\t2 b!\n",
    b"far": b"x = 3, y = 3\n" + b"b" * 250 + b"z\n",
    b"cut": b"x = 3, y = 3\n" + b"b" * 199 + b"12oz\n",
    b"odd\x1b[31m\nname\\": CHILD,
    b"named.rle": FILES["named.rle"],
    b"spread.rle": FILES["spread.rle"],
    b"spread.rule": RULE,
    b"bad.rule": RULE.replace(b"{1,2}", b"{1,9}"),
    b"two.rule": FILES["two.rule"],
    b"two.rle": FILES["two.rle"],
    b"many.rle": FILES["many.rle"],
    b"pair": FILES["pair.mc"],
}
LOST = "A line was probably lost, added or changed: get the file again."
GOLLY = "open it in Golly, and save it as RLE or as a macrocell file."
WITHOUT = "The header is missing: put one before the items, such as x = 0, y = 0, rule = B3/S23."
HEADERS = "Let [M2] begin the file, or a line such as x = 0, y = 0, rule = B3/S23 come before the items; put # before text."
ITEMS = "Correct or remove what isn't a count, b, o, ., a letter of a state, $ or !; a count and its letter are on one line."
# Files, and what is said of them: the fault's own line, the place of the sentence, the text of the line, and what to do.
ALONE = [
    (b"child.mc", "line 4: BadChild", "child.mc, line 4", "4 0 0 0 9", LOST),
    (b"bad.rle", "line 2: StateRange", "bad.rle, line 2", "bo$2bC$3o!",
     "Under a B/S rule write b and o in lowercase, or give the header the rule that has these states."),
    (b"packed.gz", "line 1: NoHeader", "packed.gz, line 1", None, "This is a gzip file: unpack it first, with gunzip."),
    (b"packed.zip", "line 1: NoHeader", "packed.zip, line 1", None, "This is a zip file: unpack it first, with unzip."),
    (b"old.lif", "line 3: NoHeader", "old.lif, line 3", "*", f"This is a Life 1.05 file: {GOLLY}"),
    (b"new.lif", "line 2: NoHeader", "new.lif, line 2", "0 0", f"This is a Life 1.06 file: {GOLLY}"),
    (b"named.cells", "line 1: NoHeader", "named.cells, line 1", "!Name: glider", f"This is a plaintext file (.cells): {GOLLY}"),
    (b"rows.cells", "line 1: NoHeader", "rows.cells, line 1", ".O.", f"This is a plaintext file (.cells): {GOLLY}"),
    (b"page.html", "line 2: NoHeader", "page.html, line 2", "<!DOCTYPE html>", "This is a web page (HTML): download the file that it links to."),
    (b"empty", "line 1: NoHeader", "empty, line 1", None, "The file is empty: save it or download it again."),
    (b"marked", "line 1: NoHeader", "marked, line 1", "\ufeffx = 1, y = 1",
     "The file begins with a UTF-8 byte order mark: remove it, or save the file as UTF-8 without one."),
    (b"returns", "line 1: BadRule", "returns, line 1", "x = 1, y = 1, rule = B3/S23\\ro!",
     "The lines end in a carriage return alone: turn each into a line feed, with tr '\\r' '\\n'."),
    (b"headless", "line 1: NoHeader", "headless, line 1", "o!", WITHOUT),
    (b"commented", "line 2: NoHeader", "commented, line 2", "3o$b2o!", WITHOUT),
    (b"cell.mcl", "line 3: NoHeader", "cell.mcl, line 3", None, f"This is an MCell file: {GOLLY}"),
    (b"packed.bz2", "line 1: NoHeader", "packed.bz2, line 1", None, "This is a bzip2 file: unpack it first, with bunzip2."),
    (b"packed.xz", "line 1: NoHeader", "packed.xz, line 1", None, "This is an xz file: unpack it first, with unxz."),
    (b"packed.tar", "line 1: NoHeader", "packed.tar, line 1", None, "This is a tar file: unpack it first, with tar -xf."),
    (b"drawn.png", "line 1: NoHeader", "drawn.png, line 1", None, "This is an image, not a pattern file."),
    (b"drawn.gif", "line 1: NoHeader", "drawn.gif, line 1", None, "This is an image, not a pattern file."),
    (b"drawn.jpg", "line 1: NoHeader", "drawn.jpg, line 1", None, "This is an image, not a pattern file."),
    (b"binary", "line 1: NoHeader", "binary, line 1", None, "This isn't a text file, so it is no pattern file."),
    (b"text", "line 1: NoHeader", "text, line 1", "A glider.", HEADERS),
    (b"capital", "line 1: NoHeader", "capital, line 1", "X = 3, y = 3", HEADERS),
    (b"table", "line 1: NoHeader", "table, line 1", "@RULE Spread", "This is a rule table, not a pattern: name it after the option --table of step."),
    (b"long", "line 2: BadItem", "long, line 2", "o" * 190 + "\u00e9\\x1b\\xc2\\x9b\\xff\\\\Qoo ...\n" + " " * 194 + "^", ITEMS),
    (b"item", "line 2: BadItem", "item, line 2", "bo$ 2bo$3q2o!\n" + " " * 12 + "^", ITEMS),
    (b"tab", "line 2: BadItem", "tab, line 2", "3o$\\x092 b!\n" + " " * 11 + "^", ITEMS),
    (b"far", "line 2: BadItem", "far, line 2", "b" * 200 + " ...", ITEMS),
    (b"cut", "line 2: BadItem", "cut, line 2", "b" * 199 + "1 ...", ITEMS),
    (b"odd\x1b[31m\nname\\", "line 4: BadChild", "odd\\x1b[31m\\nname\\\\, line 4", "4 0 0 0 9", LOST),
]


def explained(fault, where, text, advice, meaning=None):
    """What is said of a fault: its own line, and what `--explain` adds, with the sentence of its kind if no other is given."""
    meaning = meaning or sentences()[fault.rpartition(" ")[2]]
    lines = [fault, f"{where}: {meaning}" if where else meaning, *([f"    {text}"] if text else []), *([advice] if advice else [])]
    return "".join(f"{line}\n" for line in lines).encode()


IN_PAIR = ("child.mc, line 4", "4 0 0 0 9", LOST)
IN_INPUT = ("standard input, line 4", None, LOST)
# Three cells in a column at each side of the plane: lying, they are too wide for it.
WIDE = b"#CXRLE Pos=-2305843009213693952,0\nx = 1, y = 3\no4611686018427387902bo$o4611686018427387902bo$o4611686018427387902bo!\n"
GROWS_OUT = "Before it is the same again, the pattern grows out of the plane, which goes from -2^61 to 2^61 - 1."
TURN_INSTEAD = "Take --form turned, or a smaller number after --within."
# Other commands, what they read from standard input, the status, the fault's own line, and what is said of it.
OTHERS = [
    (["convert", "--to", "rle", "child.mc"], b"", 2, "line 4: BadChild", IN_PAIR),
    (["show", "child.mc"], b"", 2, "line 4: BadChild", IN_PAIR),
    (["step", "child.mc"], b"", 2, "line 4: BadChild", IN_PAIR),
    (["canon", "-"], CHILD, 2, "line 4: BadChild", IN_INPUT),
    (["canon", "-"], b"x = 3, y = 1, rule = 345/2/4\n3o!\n", 2, "line 1: UnsupportedRule",
     ("standard input, line 1", None, "Remove a comma or other text after the rule. Another rule in its place would make another pattern of the file.")),
    (["same", "child.mc", "pair"], b"", 2, "line 4: BadChild", IN_PAIR),
    (["same", "pair", "child.mc"], b"", 2, "line 4: BadChild", IN_PAIR),
    (["same", "child.mc", "-"], PAIR_TEXT, 2, "line 4: BadChild", IN_PAIR),
    (["same", "pair", "-"], CHILD, 2, "line 4: BadChild", IN_INPUT),
    (["same", "-", "pair"], CHILD, 2, "line 4: BadChild", IN_INPUT),
    (["same", "-", "child.mc"], CHILD, 2, "line 4: BadChild", IN_INPUT),
    (["same", "child.mc", "bad.rle"], b"", 2, "line 4: BadChild", IN_PAIR),
    (["convert", "--to", "rle", "many.rle"], b"", 2, "TooManyCells", ("many.rle", None, "The commands canon and keys have no such limit.")),
    (["step", "named.rle"], b"", 2, "NeedsTable", ("named.rle", None, "Name the rule table: golly_canon step --table NAME.rule FILE.")),
    (["step", "--table", "bad.rule", "spread.rle"], b"", 2, "table line 6: BadVariable", ("bad.rule, line 6", "var a={1,9}", None)),
    (["step", "--table", "-", "spread.rle"], EXPLAINED[b"bad.rule"], 2, "table line 6: BadVariable", ("standard input, line 6", None, None)),
    (["step", "--table", "spread.rule", "child.mc"], b"", 2, "line 4: BadChild", IN_PAIR),
    (["step", "--table", "spread.rule", "named.rle"], b"", 2, "RuleMismatch",
     ("named.rle", None, "Take the table of that name; for a B/S rule leave --table out.")),
    (["step", "--table", "two.rule", "two.rle"], b"", 2, "table line 8: Ambiguous",
     ("two.rule, line 8", "0,a,b,0,0,a", "Split the line: write one for each value of its variable, in the order of the values.")),
    (["step", "--table", "two.rule", "two.rle", "--generations", "5"], b"", 2, "table line 8: Ambiguous",
     ("two.rule, line 8", "0,a,b,0,0,a", "Split the line: write one for each value of its variable, in the order of the values.")),
    (["step", "--table", "two.rule", "-", "--generations", "5"], b"x = 4, y = 2, rule = Spread\nA2.B$.A!\n", 2, "table line 8: Ambiguous",
     ("two.rule, line 8, after 1 generation", "0,a,b,0,0,a", "Split the line: write one for each value of its variable, in the order of the values.")),
    (["step", "--generations=9", "--table", "spread.rule", "-"], b"#CXRLE Gen=18446744073709551612\nx = 1, y = 1, rule = Spread\nA!\n", 2,
     "GenerationTooLarge", ("standard input, after 3 generations", None, None)),
    (["step", "--generations=9", "-"], b"#CXRLE Gen=18446744073709551612\nx = 3, y = 1\n3o!\n", 2, "GenerationTooLarge", ("standard input", None, None)),
    (["step", "named.rle", "--generations", "9"], b"", 2, "NeedsTable",
     ("named.rle", None, "Name the rule table: golly_canon step --table NAME.rule FILE.")),
    (["show", "--period", "9", "child.mc"], b"", 2, "line 4: BadChild", IN_PAIR),
    (["show", "--period", "9", "named.rle"], b"", 2, "NeedsTable",
     ("named.rle", None, "Leave --period out.", "The rule is a name, and a period is sought under a B/S rule alone.")),
    (["show", "--period", "9", "-"], WIDE, 2, "OutOfPlane",
     ("standard input", None, None, GROWS_OUT)),
    (["canon", "--form", "phases", "child.mc"], b"", 2, "line 4: BadChild", IN_PAIR),
    (["canon", "--form", "phases", "-"], WIDE, 2, "OutOfPlane", ("standard input", None, TURN_INSTEAD, GROWS_OUT)),
    (["canon", "--form", "phases", "--within", "1", "-"], WIDE, 2, "OutOfPlane", ("standard input", None, TURN_INSTEAD, GROWS_OUT)),
    (["canon", "--form", "phases", "wide.rle"], b"", 2, "OutOfPlane", ("wide.rle", None, TURN_INSTEAD, GROWS_OUT)),
    (["same", "--form", "phases", "pair", "-"], WIDE, 2, "OutOfPlane", ("standard input", None, TURN_INSTEAD, GROWS_OUT)),
    (["same", "--form", "phases", "wide.rle", "pair"], b"", 2, "OutOfPlane", ("wide.rle", None, TURN_INSTEAD, GROWS_OUT)),
    (["same", "--form", "phases", "wide.rle", "child.mc"], b"", 2, "line 4: BadChild", IN_PAIR),
    (["step", "--table", "packed.gz", "spread.rle"], b"", 2, "table line 1: NoRuleLine",
     ("packed.gz, line 1", None, "This is a gzip file: unpack it first, with gunzip.")),
    (["step", "--table", "named.cells", "spread.rle"], b"", 2, "table line 1: NoRuleLine",
     ("named.cells, line 1", "!Name: glider", "Let the file begin with the line @RULE NAME, and a line @TABLE come before the table.")),
]
# Files that can't be read, and the line that says so.
UNREAD = [
    (["canon", "absent"], f"absent: {ABSENT}"), (["canon", "tree"], f"tree: {FOLDER}"), (["same", "pair", "absent"], f"absent: {ABSENT}"),
    (["same", "absent", "tree"], f"absent: {ABSENT}"), (["step", "--table", "tree", "pair"], f"tree: {FOLDER}"),
    (["step", "pair", "--table", "absent"], f"absent: {ABSENT}"), (["step", "absent", "--table", "spread.rule"], f"absent: {ABSENT}"),
    (["convert", "absent", "--to", "rle"], f"absent: {ABSENT}"),
    (["show", "locked"], f"locked: {LOCKED}"), (["show", "pair/x"], "pair/x: can't be opened"),
]
TWICE = [
    (["same", "--explain", "-", "-"], b"TwoInputs\nOnly one of the two files may be -, standard input.\n"),
    (["step", "--table", "-", "-", "--explain"], b"TwoInputs\nOnly one of the two files may be -, standard input.\n"),
    (["same", "-", "-"], b"TwoInputs\n"), (["keys", "-", "-"], b"TwoInputs\n"),
]


# The line that `step --generations` or `show --period` shows and clears, which generations.py and periods.py of tests/program test.
MAKING = re.compile(rb"\r(?:making \d+ generations?|seeking a period up to \d+); [^\r\n]*\r\x1b\[K")


def on_terminal(place, words, source=b"", **how):
    """A run whose standard error alone is a terminal."""
    with tempfile.TemporaryFile() as given:
        given.write(source)
        given.seek(0)
        return from_stream(place, words, given, **how)


def from_stream(place, words, given, **how):
    """The same with this standard input."""
    end, terminal = pty.openpty()
    tty.setraw(terminal)  # no end of a line is turned into two bytes
    with tempfile.TemporaryFile() as output:
        with subprocess.Popen([place.program, *words], cwd=place.here, stdin=given, stdout=output, stderr=terminal, **how) as run:
            os.close(terminal)
            errors = keys.read_all(end)
        output.seek(0)
        return Answer(run.returncode, output.read(), MAKING.sub(b"", errors))


def explanation_rows(place):
    for name, data in EXPLAINED.items():
        place.put(name, data)
    place.put(b"wide.rle", WIDE)
    place.put(b"locked", PAIR_TEXT)
    os.chmod(place.path(b"locked"), 0)
    for name, fault, *said in ALONE:
        answer = Answer(2, b"", explained(fault, *said))
        shown = name.decode("ascii", "backslashreplace").replace("\x1b", "ESC").replace("\n", "LF")
        place.holds(f"canon --explain {shown}", ["canon", "--explain", name], answer)
        counting.row(f"canon {shown} on a terminal", problems_of(on_terminal(place, ["canon", name]), answer))
        place.holds(f"canon {shown} without either", ["canon", name], Answer(2, b"", f"{fault}\n".encode()))
    for words, source, status, fault, said in OTHERS:
        answer = Answer(status, b"", explained(fault, *said))
        place.holds(f"{' '.join(words)} --explain", [*words, "--explain"], answer, source)
        counting.row(f"{' '.join(words)} on a terminal", problems_of(on_terminal(place, words, source), answer))
        place.holds(f"{' '.join(words)} without either", words, Answer(status, b"", f"{fault}\n".encode()), source)
    for words, line in UNREAD:
        answer = Answer(3, b"", f"ReadFault\n{line}\n".encode())
        place.holds(f"{' '.join(words)} --explain", [*words, "--explain"], answer, **NOBODY)
        counting.row(f"{' '.join(words)} on a terminal", problems_of(on_terminal(place, words, **NOBODY), answer))
        place.holds(f"{' '.join(words)} without it", words, Answer(3, b"", b"ReadFault\n"), **NOBODY)
    for words, error in TWICE:
        place.holds(f"standard input twice: {' '.join(words)}", words, Answer(5, b"", error))
    answer = Answer(5, b"", b"TwoInputs\nOnly one of the files, or the list of them, may be -, standard input.\n")
    counting.row("standard input twice: keys on a terminal", problems_of(on_terminal(place, ["keys", "-", "--from", "-"]), answer))
    place.holds("a right file, explained", ["canon", "--explain", "pair"], Answer(0, PAIR_TEXT))
    place.holds("files that differ, explained", ["same", "--explain", "pair", "spread.rle"], Answer(1, b"different\n"))


def stream_rows(place):
    for name, script, answer in [
        ("a folder as standard input", '"$program" canon --explain - < tree', Answer(3, b"", b"ReadFault\nstandard input: is a folder\n")),
        ("a closed standard input", '"$program" canon --explain - <&-', Answer(3, b"", b"ReadFault\nstandard input: can't be opened\n")),
        ("a full output", '"$program" canon --explain pair > /dev/full', Answer(3, b"", b"WriteFault\nThe output can't be written.\n")),
        # A pipe is not opened again: nobody would write to it.
        ("a pipe by its name", 'mkfifo once; cat child.mc > once & "$program" canon --explain once; status=$?; rm once; exit $status',
         Answer(2, b"", explained("line 4: BadChild", "once, line 4", None, LOST))),
    ]:
        counting.row(name, problems_of(place.shell(script), answer))


# ---- readers that leave

# Scripts whose first program writes to a pipe that nobody reads by then.
LEFT = [
    ("canon", '"$program" canon pair'), ("same", '"$program" same --explain pair pair'), ("keys", '"$program" keys pair absent pair'),
    ("a warning", '"$program" canon --explain lost'),
    ("keys of a folder", '"$program" keys -r tree'), ("duplicates", '"$program" duplicates pair pair'), ("the help", '"$program" --help'),
    ("the help of a command", '"$program" canon --help'),
]


def pipe_rows(place):
    place.put(b"lost", b"[M2]\r#C\r")
    for name, script in LEFT:
        # The end of the pipe is closed before the program begins.
        found = place.shell(f"mkfifo out; exec 3<>out 4>out 3<&-; rm out; {{ {script}; }} >&4; exit $?")
        counting.row(f"a reader that has left: {name}", problems_of(found, Answer(3)))
    place.put(b"many", b"pair\nabsent\n" * 20_000)
    found = place.shell('"$program" keys --from many | head -n 1; exit ${PIPESTATUS[0]}')
    right = (found.status, found.output) == (3, lines_of([b"pair"])) and set(found.error.splitlines()) <= {b"absent: no such file"}
    counting.row("a reader that leaves after a line", [] if right else [repr(found)[:300]])


# ---- warnings

LEAF = b"....*$$$$$$$$\n"
# Files, and what is said of each.
WARNED = [
    (b"[M2] (golly 2.0)\r#R B3/S23\r....*$\r", RETURN), (b"[M2]\ra\n" + LEAF, RETURN), (b"[M2]\r\r \n", RETURN), (b"[M2]\r\n#R B3/S23\r\n" + LEAF, None),
    (b"[M2]\r\r\n" + LEAF, None), (b"[M2]\r\r\n", SQUARES), (b"[M2]", SQUARES), (b"[M2]\r", SQUARES), (b"[M2]\n#R B3/S23\n#G 5\n\n \t\n", SQUARES),
    (b"[M2]\n" + LEAF, None), (b"[M2]\n \t....*$\n", None), (b"[M2]\n#RB36/S23\n" + LEAF, COMMENT), (b"[M2]\n#G7\n" + LEAF, COMMENT),
    (b"[M2]\n#R/\n" + LEAF, COMMENT), (b"[M2]\n#R23/3\n" + LEAF, COMMENT), (b"[M2]\n#Rs2\n", COMMENT), (b"[M2]\n#R29/3\n" + LEAF, None),
    (b"[M2]\n#RB9\n#Rule\n#Gosper\n #G7\n#R23\n##R/\n" + LEAF, None), (b"[M2]\n" + LEAF + b"#G7\n", None), (b"[M2]\n#G7", SQUARES),
    (b"[M2]\n#" + b"C" * 70_000 + b"\n#G7\n" + LEAF, COMMENT), (b"x = 1, y = 1\no!\n", None), (b"x = 1, y = 1\r\no!\r\n", None), (b"[M2", None), (b"", None),
    (b"[M2]\n#R B36/S23\n" + LEAF, None), (b"[M2]\n#" + b"C" * 2**20 + b"\n", None), (b"[M2]\r#\n#R B0/S\n", None),
    (b"[M2]\n#G7\n#R B0/S\n", None), (b"[M2]\n#C\n#R B3/S23\n$\n", None),
    (b"x = 3, y = 3\n3b$3b!\n", CELLS), (b"x=0,y=10,rule=23/3\n", CELLS), (b"x = 3, y = 0, rule = Life", CELLS),
    (b"\n \n#C o\n#CXRLE Pos=1,1\nx = 007 , y = 0\n", CELLS),
    (b"x = 3, y = 3\n#C o!\n#o\n\n \t9$ 2.\r\n!o\nbo\n", CELLS), (b"x = 3, y = 3\n!", CELLS), (b"x = 3, y = 3, rule = A\n9$3b\n#", CELLS),
    (b"x = 0, y = 0\n!\n", None), (b"x = 00, y = 0, rule = 23/3\n3b!\n", None), (b"x = 0, y = 0\n2o!\n", None), (b"x = 0, y = 0", None),
    (b"#1\nx = 0, y = 0, rule = B36/S23\n!\n", None), (b"x = 3, y = 3\n3b$2bo!\n", None), (b"x = 3, y = 3, rule = A\n.$.X!\n", None),
    (b"x = 3, y = 3, rule = A\n.$.yO!\n", None), (b"x = 3, y = 3\n3b3\n", None), (b"#C x = 3, y = 3\n", None), (b"x = 3, z = 3\n!\n", None),
    (b"x = 5, y = 5, rule = B3/S23\n5o$\n", CUT), (b"x = 3, y = 3\no$o", CUT), (b"x = 3, y = 3\n3o$3o$\n", CUT), (b"x = 3, y = 2\n3o\n$\n\n", CUT),
    (b"x = 3, y = 007\n3o5$\n#C $\n#!$\n", CUT), (b"x = 3, y = 7\n3o5$ \t\r\n", CUT), (b"x=1,y=99999999999999999999999,rule=23/3\no2$o", CUT),
    (b"x = 3, y = 3, rule = y9\no$o\n", CUT), (b"x = 0, y = 2\no", CUT), (b"x = 2, y = 3\n2o$b$\n", CUT),
    (b"x = 3, y = 3\n3o$3o$3o\n", None), (b"x = 3, y = 3\n3o$3o$b", None), (b"x = 3, y = 3\n3o3$\n", None), (b"x = 3, y = 3\n3o2$\n \n3b", None),
    (b"x = 3, y = 7\n3o6$\n\n#C\nb\n", None), (b"x = 3, y = 7\n3o12$", None), (b"x = 3, y = 1, rule = B3/S23\n3o", None), (b"x = 3, y = 0\n3o$o", None),
    (b"x = 5, y = 5\n5o!", None), (b"x = 5, y = 5\n5o$!\n\n", None), (b"x = 3, y = 3, rule = y9\no$o$A\n", None),
    (b"x = 1, y = 1\no!\nx = 1, y = 1\no!\n", JOINED), (b"x = 1, y = 1\no! x=1\n", JOINED), (b"x = 0, y = 0\n!\n#N\n\nx\t = 3, y = 3\n3o!\n", JOINED),
    (b"x = 1, y = 2\no!\n#C\n\n \n  x=a\n", JOINED), (b"x = 1, y = 1\no!x =", JOINED), (b"x = 1, y = 1\no!" + b"\n" * 70_000 + b"#\nx" + b" " * 70_000 + b"=", JOINED),
    (b"x = 1, y = 1\n#C!\no!\n#x\nx\nx=\n", JOINED),
    (b"x = 1, y = 1\no! \t\r\n\n#C x = 1, y = 1\n#\n \t#o!\n\v\f\0\x1a", None), (b"x = 1, y = 1\no!# x=\n", None), (b"x = 0, y = 0\n!\n\n", None),
    (b"x = 1, y = 1\no!\nA pattern! So x = 1\nCB 1,1,1,1\nx\n= 1\nxx=1\nx y=1\nxy = 1\n", None), (b"x = 1, y = 1\no!!\nbo!\n", None),
    (b"x = 1, y = 1\no!\n#" + b"C" * 70_000 + b"x=\n", None), (b"x = 1, y = 1\no!" + b"\r\n" * 70_000, None),
]
# RLE of many pieces: with all its rows, without the last of them, and with text after it.
ROWS = b"x = 9, y = 160001\n" + b"3obo2b\n2o12$bo 8$\n" * 8_000
WARNED += [(ROWS + b"o", None), (ROWS, CUT), (ROWS + b"o!\n", None), (ROWS + b"o!\nx=", JOINED), (ROWS[:-30] + b"!", None)]


def warning_rows(place):
    for number, (data, warning) in enumerate(WARNED):
        place.put(b"warned", data)
        status, said = keys.outcome_of(data, "placed")
        line = b"" if warning is None else b"warned: warning: %s\n" % warning
        answer = Answer(status, b"", b"warned: %s\n" % said.encode()) if status else Answer(0, key_line(said, b"warned"), line)
        place.holds(f"warning {number}: {data[:40]!r}", ["keys", "warned"], answer)
        counting.check(status or keys.warning_of(data) == warning, f"the warning {number} by its lines")
    place.put(b"odd\n\\", b"[M2]\n")
    place.put(b"lost", b"[M2]\r#C\r")
    line = b"%s: warning: %s\n"
    said = line % (b"odd\\n\\\\", SQUARES) + b"absent: no such file\n" + line % (b"lost", RETURN) + line % (b"-", RETURN)
    answer = Answer(3, lines_of([b"odd\n\\", b"lost"], BLANK) + lines_of([b"pair"]) + lines_of([b"-"], BLANK), said)
    place.holds("warnings in their order", ["keys", "odd\n\\", "absent", "lost", "pair", "-"], answer, b"[M2]\rx")
    place.put(b"[M2]", b"[M2]\n" + LEAF)
    place.put(b"names", b"[M2]\n")
    place.holds("a list isn't watched", ["keys", "--from", "names"], Answer(0, lines_of([b"[M2]"], key_of(LIFE + LEAF))))
    place.holds("duplicates warns too", ["duplicates", "lost", "pair", "lost"], Answer(0, b"lost\nlost\n", line % (b"lost", RETURN) * 2))
    place.holds("keys warns of RLE too", ["keys", "-"], Answer(0, lines_of([b"-"], BLANK), line % (b"-", CELLS)), b"x = 3, y = 3\n")


# Files, and what is said of each.
ODD_FILES = [(b"lost", RETURN), (b"squareless", SQUARES), (b"commented.mc", COMMENT), (b"dead.rle", CELLS), (b"cut.rle", CUT), (b"joined.rle", JOINED),
             (b"pair", None), (b"od\x1bd\n\\", SQUARES)]
# The commands over one file, and over two, with what they answer and what is said, in its order.
SINGLE = [["canon"], ["canon", "--form", "turned"], ["canon", "--form", "phases", "--within", "9"], ["convert", "--to", "rle"], ["convert", "--to", "mc"], ["show"], ["show", "--period", "9"], ["step"],
          ["step", "--generations", "3"]]
DOUBLE = [
    (["same", "lost", "dead.rle"], Answer(0, b"same\n"), [(b"lost", RETURN), (b"dead.rle", CELLS)]),
    (["same", "dead.rle", "pair", "--form=moved"], Answer(1, b"different\n"), [(b"dead.rle", CELLS)]),
    (["same", "pair", "lost"], Answer(1, b"different\n"), [(b"lost", RETURN)]),
    (["same", "lost", "lost"], Answer(0, b"same\n"), [(b"lost", RETURN)]),
    (["same", "lost", "-"], Answer(0, b"same\n"), [(b"lost", RETURN), (b"standard input", CELLS)]),
    (["same", "-", "pair"], Answer(1, b"different\n"), [(b"standard input", CELLS)]),
    (["same", "pair", "pair"], Answer(0, b"same\n"), []),
    (["step", "dead.spread", "--table", "spread.rule"], Answer(0, canonical(b"Spread", 1)), [(b"dead.spread", CELLS)]),
]


def task_warning_rows(place):
    """The commands over one file and two warn after what they answer, where they explain a fault."""
    dead = b"x = 3, y = 3\n3b!\n"
    for name, data in ((b"squareless", b"[M2]\n"), (b"commented.mc", b"[M2]\n#G7\n" + LEAF), (b"dead.rle", dead), (b"cut.rle", b"x = 3, y = 3\n3o$\n"),
                       (b"joined.rle", b"x = 3, y = 1\n3o!\n" * 2), (b"od\x1bd\n\\", b"[M2]\n#C\n"),
                       (b"dead.spread", b"x = 1, y = 1, rule = Spread\n.!\n")):
        place.put(name, data)
    cases = list(DOUBLE)
    for words in SINGLE:
        for name, warning in ODD_FILES:
            shown = name.replace(b"\\", b"\\\\").replace(b"\x1b", b"\\x1b").replace(b"\n", b"\\n")
            cases.append(([*words, name], place.told([*words, name]), [] if warning is None else [(shown, warning)]))
    for words, answer, said in cases:
        explained_answer = answer._replace(error=b"".join(b"%s: warning: %s\n" % it for it in said))
        name = f"{words}"
        place.holds(f"{name} without a terminal", words, answer._replace(error=b""), dead)
        place.holds(f"{name} --explain", [*words, "--explain"], explained_answer, dead)
        counting.row(f"{name} on a terminal", problems_of(on_terminal(place, words, dead), explained_answer))
    refused = Answer(2, b"", explained("line 4: BadChild", *IN_PAIR))
    place.holds("no warning where another file is refused", ["same", "lost", "child.mc", "--explain"], refused)
    found = place.shell('"$program" canon --explain lost > /dev/full')
    counting.row("no warning where the output fails", problems_of(found, Answer(3, b"", b"WriteFault\nThe output can't be written.\n")))


# ---- files of other kinds

# Those of the files above that are something else than a pattern.
FOREIGN = [b"packed.gz", b"packed.zip", b"packed.bz2", b"packed.xz", b"packed.tar", b"drawn.png", b"drawn.gif", b"drawn.jpg", b"binary", b"empty", b"page.html",
           b"marked", b"old.lif", b"new.lif", b"cell.mcl", b"named.cells", b"rows.cells", b"table", b"headless", b"commented", b"returns"]


def foreign_rows(place):
    """`keys` and `duplicates` say of a refused file what it is, as `canon --explain` does, and say no more of one that is a pattern with a mistake."""
    lines, objects = [], []
    for name, fault, _, _, advice in ALONE:
        if name not in FOREIGN:
            continue
        line, kind = re.fullmatch(r"line (\d+): (\w+)", fault).groups()
        reason = f"{sentences()[kind]} {advice}"
        lines.append(b"%s: %s: %s\n" % (name, fault.encode(), reason.encode()))
        objects.append({"name": name.decode(), "kind": kind, "line": int(line), "reason": reason})
        place.holds(f"keys names {name.decode()}", ["keys", name], Answer(2, b"", lines[-1]))
        place.holds(f"keys names {name.decode()} from standard input", ["keys", "-"], Answer(2, b"", lines[-1].replace(name, b"-", 1)), EXPLAINED[name])
    counting.check(len(lines) == len(FOREIGN), "each file of another kind is one that canon explains")
    named = [json.loads(line)["name"].encode() for line in place.told(["keys", "--json", *FOREIGN]).output.splitlines()]
    counting.check(named == FOREIGN, "the objects of files of other kinds are in their order")
    found = [json.loads(line) for line in place.told(["keys", "--json", *(it["name"] for it in objects)]).output.splitlines()]
    counting.row("the objects of files of other kinds", [f"{a} and not {b}" for a, b in zip(found, objects) if a != b])
    names = b"".join(line.partition(b":")[0] + b"\n" for line in lines)
    place.holds("duplicates names files of other kinds in a list", ["duplicates", "--from", "-"], Answer(2, b"", b"".join(lines)), names)
    mistaken = b"child.mc: line 4: BadChild: " + sentences()["BadChild"].encode() + b"\n"
    place.holds("keys says no more of a pattern with a mistake", ["keys", "child.mc"], Answer(2, b"", mistaken))


# ---- the end of a run over files

ADD_FOLDERS = b"To read the files in a folder and below it, add -r.\n"
ADD_ZERO = b"The list has NUL bytes. If its names end in NUL, as those of find -print0, add --zero.\n"
LEAVE_ZERO = b"The list is one name with line feeds in it. If its names end in a line feed, leave out --zero.\n"
IS_FOLDER, IS_ABSENT, IS_OTHER = (b"%%s: %s\n" % it.encode() for it in (FOLDER, ABSENT, OTHER))
# Words of `keys`, its list, and what is said on a terminal: what is also said elsewhere, and a hint.
HINTED = [
    (["tree", "pair"], b"", IS_FOLDER % b"tree", ADD_FOLDERS), (["pair", "tree", "absent", "link"], b"",
     IS_FOLDER % b"tree" + IS_ABSENT % b"absent" + IS_FOLDER % b"link", ADD_FOLDERS),
    (["pair", "absent"], b"", IS_ABSENT % b"absent", b""), (["-r", "tree/b"], b"", b"", b""),
    (["--from", "-"], b"tree\npair\n", IS_FOLDER % b"tree", b""), (["-r", "--from", "-", "pair"], b"tree\n", IS_FOLDER % b"tree", b""),
    (["tree", "--from", "-"], b"pair\n", IS_FOLDER % b"tree", ADD_FOLDERS),
    (["--from", "-"], b"pair\0absent\0", IS_OTHER % b"pair\0absent\0", ADD_ZERO), (["--from", "-"], b"pair\nx\0y\n", IS_OTHER % b"x\0y", ADD_ZERO),
    (["tree", "--from", "-"], b"x\0", IS_FOLDER % b"tree" + IS_OTHER % b"x\0", ADD_FOLDERS + ADD_ZERO),
    (["--from", "-", "--zero"], b"pair\0absent\0", IS_ABSENT % b"absent", b""), (["--from", "-"], b"pair\nabsent\n", IS_ABSENT % b"absent", b""),
    (["--from", "-", "--zero"], b"pair\nabsent\n", IS_ABSENT % b"pair\\nabsent\\n", LEAVE_ZERO),
    (["--from", "-", "--zero"], b"pair\n\xff", b"pair\\n\xff: %s\n" % NO_NAME.encode(), LEAVE_ZERO),
    (["--from", "-", "--zero", "pair", "absent"], b"a\nb\n", IS_ABSENT % b"absent" + IS_ABSENT % b"a\\nb\\n", LEAVE_ZERO),
    (["--from", "-", "--zero"], b"two\nlines\0", b"", b""), (["--from", "-", "--zero"], b"a\nb\0absent\0", IS_ABSENT % b"a\\nb" + IS_ABSENT % b"absent", b""),
    (["--from", "absent"], b"", b"ReadFault\n", b""), (["--from", "tree", "tree"], b"", b"ReadFault\n", b""),
]


def hint_rows(place):
    """What `keys` and `duplicates` say on a terminal of arguments that are probably meant otherwise."""
    place.put(b"two\nlines", PAIR_TEXT)
    for words, source, said, hint in HINTED:
        plain = place.told(["keys", *words], source)
        name = f"keys {words} with {source!r}"
        counting.row(f"{name} without a terminal", problems_of(plain, plain._replace(error=said)))
        counting.row(f"{name} on a terminal", problems_of(on_terminal(place, ["keys", *words], source), plain._replace(error=said + hint)))
    folder = os.open(place.path(b"tree"), os.O_RDONLY)
    found = from_stream(place, ["keys", "-"], folder)
    os.close(folder)
    counting.row("a folder as standard input has no hint", problems_of(found, Answer(3, b"", IS_FOLDER % b"-")))
    found = on_terminal(place, ["duplicates", "tree"])
    answer = Answer(3, b"", IS_FOLDER % b"tree" + ADD_FOLDERS + b"There are no two files to compare (passed over: 1).\n")
    counting.row("duplicates of a folder on a terminal", problems_of(found, answer))


# Words of `duplicates`, its list, and what is said on a terminal after what is also said elsewhere.
CLOSED = [
    (["pair", "tree/a"], b"", b"2 of 2 files are in 1 group of duplicates.\n"), (["pair"], b"", b"There are no two files to compare.\n"),
    (["-r", "tree/empty"], b"", b"There are no two files to compare.\n"), (["pair", "absent"], b"", b"There are no two files to compare (passed over: 1).\n"),
    (["pair", "named.rle"], b"", b"No two of 2 files are the same pattern.\n"),
    (["child.mc", "pair", "absent", "named.rle", "child.mc"], b"", b"No two of 2 files are the same pattern (passed over: 3).\n"),
    (["lost", "pair", "named.rle", "tree/a", "lost", "pair"], b"", b"5 of 6 files are in 2 groups of duplicates.\n"),
    (["named.rle", "--from", "-"], b"pair\n\nabsent\npair\n\xff\nlost\nlost\nnamed.rle\ntwo.rle",
     b"6 of 7 files are in 3 groups of duplicates (passed over: 2).\n"),
    (["--zero", "--from", "-"], b"two\nlines\0pair\0\0lost\0lost\0named.rle", b"4 of 5 files are in 2 groups of duplicates.\n"),
    (["two\nlines", "two\nlines", "named.rle", "-r"], b"", b"2 of 3 files are in 1 group of duplicates.\n"),
    (["-r", "tree/b", "tree/a.d"], b"", b"3 of 3 files are in 1 group of duplicates.\n"), (["pair", "--from", "absent"], b"", b""),
]


def closing_rows(place):
    """What `duplicates` says at its end, on a terminal alone."""
    for words, source, said in CLOSED:
        plain = place.told(["duplicates", *words], source)
        name = f"duplicates {words} with {source!r}"
        found = on_terminal(place, ["duplicates", *words], source)
        counting.row(f"{name} on a terminal", problems_of(found, plain._replace(error=plain.error + said)))
        counting.check(b"files are" not in plain.error and b"no two files" not in plain.error, f"{name} without a terminal")
    found = whole_terminal(place, ["duplicates", "pair", "tree/a"])
    counting.row("duplicates where both are a terminal", problems_of(found, Answer(0, b"pair\ntree/a\n2 of 2 files are in 1 group of duplicates.\n")))
    found = on_terminal(place, ["keys", "pair", "pair"])
    counting.row("keys counts nothing at its end", problems_of(found, Answer(0, lines_of([b"pair", b"pair"]))))
    with open("/dev/full", "wb") as full:
        end, terminal = pty.openpty()
        tty.setraw(terminal)
        with subprocess.Popen([place.program, "duplicates", "pair", "pair"], cwd=place.here, stdin=subprocess.DEVNULL, stdout=full, stderr=terminal) as run:
            os.close(terminal)
            errors = keys.read_all(end)
    counting.row("nothing is counted where the output fails", problems_of(Answer(run.returncode, b"", errors), Answer(3, b"", b"WriteFault\n")))


def whole_terminal(place, words):
    """A run whose both outputs are one terminal."""
    end, terminal = pty.openpty()
    tty.setraw(terminal)  # no end of a line is turned into two bytes
    with subprocess.Popen([place.program, *words], cwd=place.here, stdin=subprocess.DEVNULL, stdout=terminal, stderr=terminal) as run:
        os.close(terminal)
        written = keys.read_all(end)
    return Answer(run.returncode, written, b"")


# Names with control characters, and how a terminal gets them: ESC, BEL, TAB, DEL, and one of two bytes; and with characters that turn the direction of text,
# of two bytes and of three, beside others that begin with the same bytes.
CONTROLS = {b"\x1b[31mred": b"\\x1b[31mred", b"bell\x07\ttab": b"bell\\x07\\x09tab", b"\x7fdel": b"\\x7fdel", b"c1\xc2\x9b2J": b"c1\\xc2\\x9b2J",
            "\u00e9t\u00e9".encode(): "\u00e9t\u00e9".encode(), "a\u202egnp.mc".encode(): b"a\\xe2\\x80\\xaegnp.mc",
            "\u061c\u200e\u200f".encode(): b"\\xd8\\x9c\\xe2\\x80\\x8e\\xe2\\x80\\x8f", "\u2028\u2029".encode(): b"\\xe2\\x80\\xa8\\xe2\\x80\\xa9",
            "\u2066\u2069".encode(): b"\\xe2\\x81\\xa6\\xe2\\x81\\xa9", "\u061b\u2027\u202f\u2065\u206a".encode(): "\u061b\u2027\u202f\u2065\u206a".encode()}


def control_rows(place):
    """No control character of a name reaches a terminal; a file and a pipe get each name as it is."""
    for name, shown in CONTROLS.items():
        place.put(name, FILES["pair.rle"])
        place.put(b"bad" + name, HEADER + b"?!\n")
        refused = b": line 2: BadItem: " + sentences()["BadItem"].encode() + b"\n"
        counting.row(f"a key on a terminal: {name!r}", problems_of(whole_terminal(place, ["keys", name]), Answer(0, PAIR.encode() + b"  " + shown + b"\n")))
        counting.row(f"a refusal on a terminal: {name!r}", problems_of(whole_terminal(place, ["keys", b"bad" + name]), Answer(2, b"bad" + shown + refused)))
        answer = Answer(0, (shown + b"\n") * 2 + b"2 of 2 files are in 1 group of duplicates.\n")
        counting.row(f"a group on a terminal: {name!r}", problems_of(whole_terminal(place, ["duplicates", name, name]), answer))
        found = processes.run([place.program, "keys", name, b"bad" + name], cwd=place.here, timeout=60)
        counting.row(f"both where there is no terminal: {name!r}",
                     problems_of(found, Answer(2, PAIR.encode() + b"  " + name + b"\n", b"bad" + name + refused)))


def split_control_rows(place):
    """Nor does one that is written in two pieces: of so many names some are split at the end of what is written at once."""
    names = ["n".encode() * length + "\u009b\u202e".encode() for length in range(1, 120)]
    for name in names:
        place.put(name, FILES["pair.rle"])
    found = whole_terminal(place, ["keys", *names])
    raw = [it for it in (b"\xc2\x9b", b"\xe2\x80\xae") if it in found.output]
    counting.row("119 keys on a terminal", [f"{it!r} is there" for it in raw] + ([] if found.status == 0 and found.output.count(b"\n") == 119 else [repr(found)]))


def argument_control_rows(place):
    """What is quoted of wrong arguments has no control character on a terminal, and each as it is elsewhere."""
    for words in (["\x1b[31mred"], ["keys", "--\x1b[31mred"], ["canon", "a", "b\x07"], ["canon", "a", "--form=\x1b[2J"]):
        for run in (whole_terminal, on_terminal):
            found = run(place, words)
            written = found.output + found.error
            controls = [byte for byte in written if (byte < 32 and byte != 10) or byte == 127]
            counting.row(f"{words!r} on a terminal, by {run.__name__}", [] if found.status == 5 and written and not controls else [repr(found)])
    found = processes.run([place.program, "\x1b[31mred"], cwd=place.here, timeout=60)
    counting.row("a wrong argument where there is no terminal", [] if found.status == 5 and b"\x1b[31mred" in found.error else [repr(found)])


def main():
    if len(sys.argv) != 2:
        sys.exit(__doc__)
    with tempfile.TemporaryDirectory() as folder:
        os.chmod(folder, 0o755)
        program = shutil.copy(processes.program_of(sys.argv[1]), os.path.join(folder, "golly_canon"))
        os.chmod(program, 0o755)
        os.mkdir(os.path.join(folder, "place"), 0o755)
        place = Place(program, os.path.join(folder, "place"))
        folder_rows(place)
        argument_rows(place)
        misused_stream_rows(place)
        named_pipe_rows(place)
        explanation_rows(place)
        foreign_rows(place)
        stream_rows(place)
        pipe_rows(place)
        warning_rows(place)
        task_warning_rows(place)
        hint_rows(place)
        closing_rows(place)
        control_rows(place)
        split_control_rows(place)
        argument_control_rows(place)
    return counting.ended()


if __name__ == "__main__":
    sys.exit(main())
