#!/usr/bin/env python3
"""What the tools around the library have in common with the program, PROGRAM: examples/collection.py, examples/duplicates.py and examples/golly_canon_key.lua
have its keys in all forms, its default form, its faults, what it says of files of other formats, and its names on a terminal; and examples/duplicates.py
and examples/canon.py end without a traceback where their output takes no more, its reader has left, or Ctrl-C comes. The module golly_canon is found by
PYTHONPATH. The last line is 'N passed, M failed'.

usage: tests/library/tools.py PROGRAM"""

import collections
import contextlib
import io
import os
import pty
import random
import re
import shutil
import signal
import sqlite3
import subprocess
import sys
import tempfile
import textwrap
import tty

sys.dont_write_bytecode = True  # nothing is left in tests/ and examples/
TOP = os.path.dirname(os.path.dirname(os.path.dirname(os.path.abspath(__file__))))
EXAMPLES = os.path.join(TOP, "examples")
sys.path[:0] = [EXAMPLES, os.path.join(TOP, "tests"), os.path.join(TOP, "tests", "program")]

import collection  # noqa: E402
import duplicates  # noqa: E402
import golly_canon  # noqa: E402
import messages  # noqa: E402
from independent.fuzz import random_files, small_files  # noqa: E402
from shared import processes  # noqa: E402
from shared.counting import check, ended  # noqa: E402
from shared.fixtures import FILES  # noqa: E402

FORMS = ("placed", "moved", "turned", "phases")
RANDOM_FILES = 300
GLIDER = b"x = 3, y = 3\nbo$2bo$3o!\n"
LATER = b"x = 3, y = 3\nobo$b2o$bo!\n"  # the glider, one generation later
# Names that are UTF-8 text, as the program shows them on a terminal; and others.
NAMES = [b"plain", b"a\x1b]0;t\x07\x1b[31mb", b"back\\slash", b"line\nfeed\r", "\u00e9\u4e2d\U0001f600\x9b".encode(), b"a = b", b"\x7f"]
TURNING = ["\u202egnp.rle", "\u061c\u200e\u2028\u2066\u2069"]
ODD = [*map(str.encode, TURNING), b"\xff4.rle", b"a\xe9", b"a\\xe9", b"\xed\xa0\x80", b"\xf0\x9f\x98", b" =", b"= ", b"=", b" = "]


def run_collection(*words, given=b""):
    """What collection.py answers, in this process alone."""
    return processes.run([sys.executable, "-B", os.path.join(EXAMPLES, "collection.py"), "--workers", "0", *words], given)


def run_duplicates(*words):
    """What duplicates.py answers."""
    return processes.run([sys.executable, "-B", os.path.join(EXAMPLES, "duplicates.py"), *words])


def random_file(number):
    """A pattern file, which is right or nearly so."""
    source = random.Random(f"tools {number}")
    rule, greatest = random_files.rule_text(source)
    return random_files.mutated(source, random_files.pattern_file(source, rule, greatest))


def files():
    """Files of both formats, with keys and without, by their names."""
    found = {f"fixed {name}": data for name, data in FILES.items()}
    found.update({f"small {name}": data for name, data in small_files.LIFE_FILES.items()})
    found.update({f"named {name}": data for name, (data, _) in small_files.NAMED_FILES.items()})
    found.update({f"random {number}": random_file(number) for number in range(RANDOM_FILES)})
    found.update({f"same {number}": random_file(number) for number in range(0, RANDOM_FILES, 7)})
    return found


def of_keys(program):
    """The table has the four keys that the program writes in its four forms, and the faults that it reports. The duplicates of each form, and those without
    a form, are those of the program's command `duplicates`, and so are those of duplicates.py."""
    os.mkdir("files")
    for name, data in files().items():
        with open(os.path.join("files", name.replace("/", "_")), "wb") as it:
            it.write(data)
    names = sorted(f"files/{it}" for it in os.listdir("files"))
    given = "".join(f"{it}\0" for it in names).encode()
    found = run_collection("--table", "all.sqlite", "--form", "phases", "--from", "-", given=given)
    check(found.status == 0, f"a table of {len(names)} files: {found}")
    with contextlib.closing(sqlite3.connect("all.sqlite")) as it:
        rows = it.execute(f"SELECT path, {', '.join(FORMS)}, why FROM file ORDER BY id").fetchall()
    check([collection.name_of(it[0]).decode() for it in rows] == names, "a row for each file")
    for at, form in enumerate(FORMS, 1):
        answer = processes.run([program, "keys", "--form", form, "--zero", "--from", "-"], given)
        wanted = {line[66:].decode(): line[:64].decode() for line in answer.output.split(b"\0") if line}
        own = {row[0]: row[at].hex() for row in rows if row[at]}
        check(own == wanted and len(own) > 100, f"the keys of {len(wanted)} files, {form}: {[it for it in names if own.get(it) != wanted.get(it)][:5]}")
        faults = dict(it.split(": ", 1) for it in answer.error.decode().splitlines() if ": warning: " not in it)
        said = {row[0]: (row[-1] or "").removeprefix(f"{form}: ") for row in rows if not row[at]}
        wrong = [(name, said.get(name), why) for name, why in faults.items() if not said.get(name, "").startswith(why)]
        check(not wrong and set(faults) == set(said) and len(faults) > 20, f"why {len(faults)} files have no key, {form}: {wrong[:3]}")
    for words in ([], *(["--form", form] for form in FORMS)):
        wanted = groups_of(processes.run([program, "duplicates", *words, "--zero", "--from", "-"], given).output)
        check(len(wanted) > 10, f"duplicates {words}: {len(wanted)} groups")
        own = run_collection("--table", "all.sqlite", "--from", "-", *words, given=given)
        check(groups_of_lines(own.output) == wanted, f"the duplicates of collection.py {words}: {own.output[:300]}")
        own = run_duplicates("files", *words[1:])
        check(groups_of_lines(own.output) == wanted, f"the duplicates of duplicates.py {words}: {own.output[:300]}")


def groups_of(output):
    """The groups of the program's output, whose names end in NUL."""
    return {frozenset(group.split(b"\0")) for group in output.rstrip(b"\0").split(b"\0\0") if group}


def groups_of_lines(output):
    """The groups of lines `FIRST = OTHER`."""
    found = collections.defaultdict(set)
    for line in output.decode().splitlines():
        first, other = map(collection.name_of, line.split(" = "))
        found[first] |= {first, other}
    return set(map(frozenset, found.values()))


def of_default(program):
    """Each tool says which form it takes if none is named."""
    check(collection.FORM == duplicates.FORM == "moved", "one default form")
    is_same = collection.WITHIN == golly_canon._WITHIN and re.search(rf"\b{collection.WITHIN}\b", processes.run([program, "keys", "-h"]).output.decode())
    check(is_same, f"one greatest period for phases if none is given, and not {collection.WITHIN}, {golly_canon._WITHIN} and that of the program's help")
    said = re.sub(r"\s+", " ", run_collection("--help").output.decode())
    check(f"{collection.FORM} if none is named" in said, f"collection.py says its default: {said}")
    with open(os.path.join(TOP, "packages", "debian", "golly_canon_collection.1"), encoding="utf-8") as it:
        page = it.read().replace("\\-", "-").replace("\\fB", " ").replace('"', "")
    options = re.findall(r"(?<!\w)--?\w+", said.partition("options:")[2].partition(" The status is ")[0])
    check(len(options) > 10 and not set(options) - set(re.findall(r"--?\w+", page)), f"the man page has each of {options}")
    said = duplicates.__doc__.replace("\n", " ")
    check(f"(`{duplicates.FORM}`, as the command `duplicates` of the program has it)" in said, f"duplicates.py says its default: {said}")
    said = processes.run([program, "duplicates", "--help"]).output.decode()
    said = re.sub(r"\s+", " ", said)
    check(f"{collection.FORM} (the default)" in said, f"the program says its default: {said}")
    with open(os.path.join(TOP, "docs", "COLLECTIONS.md"), encoding="utf-8") as it:
        check(f"Without `--form` it takes `{collection.FORM}`" in re.sub(r"\s+", " ", it.read()), "docs/COLLECTIONS.md says the default")


def advice_on(data):
    """What collection.py says of a file that is refused, and nothing of another one."""
    try:
        golly_canon.key(data)
    except golly_canon.Refused as why:
        return collection.advice_of(why.kind, why.advice, data).strip()
    return ""


def of_formats():
    """What collection.py says of files of other formats is what the program says by `--explain`."""
    advice = {name: text for name, _, _, _, text in messages.ALONE}
    named = {name: text for name, text in advice.items() if re.match("This is|The file|The header|The lines end", text)}
    wrong = []
    for name, data in messages.EXPLAINED.items():
        found = advice_on(data)
        wanted = named.get(name, "")
        if name in advice and (found != wanted if name not in (b"packed.zip", b"packed.tar") else not found.startswith(wanted)):
            wrong.append((name, found, wanted))
    check(not wrong and len(named) > 15, f"what is said of {len(named)} formats: {wrong}")


def on_terminal(program, names):
    """What the program writes on a terminal of files that are the same pattern."""
    own, its = pty.openpty()
    tty.setraw(its)
    with subprocess.Popen([program, "duplicates", "--", *names], stdin=subprocess.DEVNULL, stdout=its, stderr=subprocess.DEVNULL):
        os.close(its)
        found = b""
        with contextlib.suppress(OSError):  # the other end is closed
            while data := os.read(own, 4096):
                found += data
    os.close(own)
    return found


def of_names(program):
    """Names are written as the program writes them on a terminal, by each tool."""
    os.mkdir("names")
    names = [b"names/" + it for it in NAMES]
    for it in names:
        with open(it, "wb") as file:
            file.write(GLIDER)
    wanted = "".join(f"{collection.text_of(it)}\n" for it in names).encode()
    found = on_terminal(program, names)
    check(found == wanted, f"names on a terminal: {found} and not {wanted}")
    texts = {it: collection.text_of(it) for it in [*NAMES, *ODD]}
    check(all(duplicates.shown(it) == text for it, text in texts.items()), "names of duplicates.py")
    lines = "".join(f"{text}\n" for text in texts.values()).encode()
    script = "while IFS= read -r name; do printf '%b\\0' \"$name\"; done"
    found = processes.run(["bash", "-c", script], lines)
    check(found.output == b"".join(it + b"\0" for it in texts), f"bash turns names back, as docs/COLLECTIONS.md says: {found}")
    with open(os.path.join(TOP, "docs", "COLLECTIONS.md"), encoding="utf-8") as it:
        check(script in it.read(), "docs/COLLECTIONS.md has this script")
    every = [bytes([first, second]) for first in range(256) for second in range(256)]
    check(all(duplicates.shown(it) == collection.text_of(it) for it in every), "names of two bytes")
    for it in (it for it in ODD if b"/" not in it):
        with open(b"names/" + it, "wb") as file:
            file.write(GLIDER)
    found = run_duplicates("names")
    check(groups_of_lines(found.output) == {frozenset(b"names/" + it for it in [*NAMES, *ODD])} and not found.error, f"lines of duplicates.py: {found}")
    absent = [os.path.join(b"names", b"\xff\x1b.rle")]
    with open(absent[0], "wb") as file:
        file.write(b"\n")
    found = run_duplicates("names")
    check(found.error.startswith(b"names/\\xff\\x1b.rle: line 2: NoHeader: "), f"a line of duplicates.py: {found.error}")


# What stands for Golly in the script for it.
GOLLY = r"""
local pattern, folder = ...
function golly()
    return {
        empty = function() return false end, getalgo = function() return "QuickLife" end, getdir = function() return folder end,
        save = function(path) local file = io.open(path, "w"); file:write(pattern); file:close() end,
        exit = function(text) io.write("exit: ", text); os.exit(0) end, show = function(text) io.write(text) end,
    }
end
dofile(arg[1])
"""


def of_script(program):
    """The script for Golly shows the names of a table as the other tools write them."""
    lua = next(filter(shutil.which, ("lua5.4", "lua5.3", "lua")), None)
    if lua is None:
        print("skipped: the script for Golly, since Lua isn't installed")
        return
    names = [*NAMES, *ODD]
    with open("golly.lua", "w", encoding="ascii") as it:
        it.write(GOLLY.replace("= ...", f"= {GLIDER.decode()!r}, {os.getcwd() + '/'!r}", 1))
    settings = {**os.environ, "GOLLY_CANON": program, "GOLLY_CANON_KEYS": os.path.abspath("keys")}
    # The pattern of the table, its form, what more is set, and whether it is the open pattern.
    for given, form, more, is_same in ((GLIDER, "turned", {}, True), (LATER, "turned", {}, False), (LATER, "phases", {}, True),
                                       (LATER, "phases", {"GOLLY_CANON_WITHIN": "4"}, True), (LATER, "phases", {"GOLLY_CANON_WITHIN": "3"}, False)):
        within = [word for most in more.values() for word in ("--within", most)]
        key = processes.run([program, "keys", "--form", form, *within, "-"], given).output[:64].decode()
        with open("keys", "wb") as it:
            for name in names:
                plain = name.replace(b"\\", b"\\\\").replace(b"\n", b"\\n").replace(b"\r", b"\\r")
                it.write(b"\\" * (plain != name) + key.encode() + b"  " + plain + b"\n")
        found = processes.run([lua, "golly.lua", os.path.join(EXAMPLES, "golly_canon_key.lua")], env={**settings, "GOLLY_CANON_FORM": form, **more})
        wanted = f"This is the pattern ({form}) of {', '.join(map(collection.text_of, names))}" if is_same else f"No file of {os.path.abspath('keys')} is "
        check(found.output.startswith(wanted.encode()) and is_same == (found.output == wanted.encode()), f"the script for Golly: {found} and not {wanted}")


def of_new_patterns():
    """The example of docs/COLLECTIONS.md on patterns that are in no file: of a turned pattern of the table, a refused one and another one it names the last."""
    with open(os.path.join(TOP, "docs", "COLLECTIONS.md"), encoding="utf-8") as it:
        example = re.search(r"^## Patterns that are in no file\n.*?\n\n((?:(?:    [^\n]*)?\n)+)", it.read(), re.MULTILINE | re.DOTALL)[1]
    with open("known.rle", "wb") as it:
        it.write(GLIDER)
    check(run_collection("--table", "known.sqlite", "known.rle").status == 0, "a table of one file")
    names = {"soups": lambda: iter([b"x = 3, y = 3\n3o$2bo$bo!\n", b"x = 1, y = 1\n0o!\n", b"x = 2, y = 1\n2o!\n"])}
    with contextlib.redirect_stdout(io.StringIO()) as said:
        exec(textwrap.dedent(example).replace("all.sqlite", "known.sqlite"), names)
    names["table"].close()
    check(said.getvalue() == "pattern 3 is in no file\n", f"the example of docs/COLLECTIONS.md: {said.getvalue()!r}")


def begun(words, **how):
    """An example that runs while the test goes on. Ctrl-C reaches it also where the test was started without."""
    command = [sys.executable, "-B", os.path.join(EXAMPLES, words[0]), *words[1:]]
    return subprocess.Popen(command, stderr=subprocess.PIPE, **how)


def of_ends():
    """The examples in Python end without a traceback, whatever ends them: with one line where the disk is full, and without a word otherwise."""
    signal.signal(signal.SIGINT, signal.default_int_handler)
    os.mkdir("many")
    for number in range(1500):  # whose lines no pipe holds
        with open(os.path.join("many", f"{number:0150}"), "wb") as it:
            it.write(GLIDER)
    with open("glider", "wb") as it:
        it.write(GLIDER)
    for words, why in ((["duplicates.py", "many"], "the output can't be written: No space left on device"), (["canon.py"], "No space left on device")):
        with open("/dev/full", "wb") as full, open("glider", "rb") as given, begun(words, stdin=given, stdout=full) as run:
            said = run.communicate()[1].decode()
        check((run.returncode, said) == (1, f"{words[0]}: {why}\n"), f"{words[0]} on a full disk: status {run.returncode}, {said}")
        reader, writer = os.pipe()
        os.close(reader)
        with open("glider", "rb") as given, begun(words, stdin=given, stdout=writer) as run:
            os.close(writer)
            said = run.communicate()[1]
        check((run.returncode, said) == (-signal.SIGPIPE, b""), f"{words[0]}, whose reader has left: status {run.returncode}, {said}")
        found = processes.run(["bash", "-c", '"$@" >&-', "bash", sys.executable, "-B", os.path.join(EXAMPLES, words[0]), *words[1:]], GLIDER)
        check(found.status == 1 and b"Traceback" not in found.error and found.error.count(b"\n") == 1, f"{words[0]}, whose output is closed: {found}")
    with begun(["duplicates.py", "many"], stdout=subprocess.PIPE) as run:
        run.stdout.read(1)  # the rest waits for a reader
        run.send_signal(signal.SIGINT)
        run.wait()
        said = run.stderr.read()
    check((run.returncode, said) == (-signal.SIGINT, b""), f"Ctrl-C in duplicates.py: status {run.returncode}, {said}")
    with begun(["canon.py"], stdin=subprocess.PIPE, stdout=subprocess.PIPE) as run:
        run.stdin.write(b"#C a comment\n" * 50_000)  # which no pipe holds, so that some of it has been read
        run.stdin.flush()
        run.send_signal(signal.SIGINT)
        run.wait()
        said = run.stderr.read()
    check((run.returncode, said) == (-signal.SIGINT, b""), f"Ctrl-C in canon.py: status {run.returncode}, {said}")
    found = processes.run(["bash", "-c", '"$@" 2>&-', "bash", sys.executable, "-B", os.path.join(EXAMPLES, "duplicates.py"), "many", "placed"])
    check(found.status == 0 and found.output.count(b"\n") == 1499, f"duplicates.py with a closed standard error: status {found.status}")


def main(program):
    program = processes.program_of(program)
    with tempfile.TemporaryDirectory() as folder:
        os.chdir(folder)
        of_keys(program)
        of_default(program)
        of_formats()
        of_names(program)
        of_script(program)
        of_new_patterns()
        of_ends()
        os.chdir("/")
    return ended()


if __name__ == "__main__":
    if len(sys.argv) != 2:
        sys.exit("usage: tests/library/tools.py PROGRAM")
    sys.exit(main(sys.argv[1]))
