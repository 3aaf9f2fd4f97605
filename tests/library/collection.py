#!/usr/bin/env python3
"""examples/collection.py: its table, duplicates and refusals, of files and of archives; names that are hard to write; what it says of files of other
formats, and of those that can't be read; an output that takes no more; the same table from a cluster of this machine where a worker is killed in the
middle of a share, and where the scheduler is killed and another one starts; a share that is done twice, and one that kills each worker; and a run that
is cut off or interrupted, and goes on. A named pipe in the list holds a worker until the test writes the pattern into it, so nothing hangs on how fast
the machine is. Where no Python here has Dask, what takes it is skipped. The library is linked from ARCHIVE, which tests/library/library.sh leaves;
without one PYTHONPATH names the module golly_canon, and that finds the library. The last line is 'N passed, M failed'.

usage: tests/library/collection.py [ARCHIVE]"""

import contextlib
import errno
import gzip
import hashlib
import io
import os
import pickle
import random
import re
import shutil
import signal
import socket
import sqlite3
import subprocess
import sys
import tarfile
import tempfile
import time
import traceback
import types
import zipfile

sys.path.insert(0, os.path.dirname(os.path.dirname(os.path.abspath(__file__))))
EXAMPLES = os.path.join(os.path.dirname(os.path.abspath(__file__)), "../../examples")
sys.path.insert(0, EXAMPLES)

import collection  # noqa: E402
from shared.counting import check, ended  # noqa: E402
from shared.fixtures import LIFE, WIDE  # noqa: E402

PROGRAM = os.path.abspath(os.path.join(EXAMPLES, "collection.py"))
PAGE = os.path.abspath(os.path.join(EXAMPLES, "../docs/COLLECTIONS.md"))
TOP = os.path.abspath(os.path.join(EXAMPLES, ".."))
PATTERNS, SHARE = 100, "20"
PATIENCE = 240  # the most seconds for what is waited for, and for each run
GLIDER = b"x = 3, y = 3, rule = 23/3\nbo$2bo$3o!\n"
GLIDER_KEY = hashlib.sha256(LIFE + b"$$$$.....*$......*$....***$$\n").digest()
PHASES_KEY = hashlib.sha256(LIFE + b"$$$$....*$....*.*$....**$$\n").digest()  # of its phases
LATER = b"#CXRLE Gen=1\nx = 3, y = 3\nobo$b2o$bo!\n"  # the glider, one generation later
CHILD = b"[M2]\n#R B3/S23\n....*$$$$$$$$\n4 0 0 0 9\n"
HELD = "held.rle"  # the named pipe
WITHOUT_DASK = ["--workers", "0"]
running = []  # what was started, each in a session of its own, which ends with the test
ROWS = "SELECT path, member, placed, moved, turned, kind, line, why FROM file ORDER BY id"


# ---- the files: each pattern has a row of eight cells, and below it the bits of its number


def spellings(number):
    """Three files of a pattern. The first two lie in one place, the third lies in another one."""
    bits = "".join("bo"[number >> at & 1] for at in range(7)) + "o"
    plain = f"x = 8, y = 2, rule = B3/S23\n8o${bits}!\n".encode()
    other = f"#C another spelling\nx = 0, y = 0, rule = 23/3\n{'o' * 8}\n$\n{bits}\n!\n".encode()
    return plain, gzip.compress(other, mtime=0), b"#CXRLE Pos=%d,-7\n" % (number + 1) + plain


def made():
    """Makes the files, and returns their paths in the order of the list. The first file is a glider, and so is what comes out of the pipe; each 25th
    pattern has a file behind it that is refused."""
    files = {"glider.rle": GLIDER}
    for number in range(PATTERNS):
        for part, data in zip("abc", spellings(number)):
            files[f"{number:03}{part}.rle"] = data
        if number == PATTERNS // 2:
            files[HELD] = None
        if number % 25 == 0:
            files[f"{number:03}z.mc"] = CHILD
    for name, data in files.items():
        if data is not None:
            with open(name, "wb") as it:
                it.write(data)
    os.mkfifo(HELD)
    with open("list", "w", encoding="utf-8") as it:
        it.writelines(f"{name}\n" for name in files)
    return list(files)


# ---- running it


def rows(table):
    """The rows of the files in a table."""
    with contextlib.closing(sqlite3.connect(table, timeout=60)) as it:
        return it.execute(ROWS).fetchall()


def shares_done(table):
    """How many shares are done in a table, which may not be there yet."""
    try:
        with contextlib.closing(sqlite3.connect(f"file:{table}?mode=ro", uri=True, timeout=60)) as it:
            return it.execute("SELECT count(*) FROM share").fetchone()[0]
    except sqlite3.OperationalError:
        return 0


def begun(words, **how):
    """A process in a session of its own, with all that it starts."""
    process = subprocess.Popen(words, start_new_session=True, **how)
    running.append(process)
    return process


def killed(process):
    """Ends a process, and what it started."""
    if process in running:
        running.remove(process)
        with contextlib.suppress(ProcessLookupError):
            os.killpg(process.pid, signal.SIGKILL)
    process.wait()


def started(python, table, *words, **how):
    """The program on the list, which goes on while the test does."""
    command = [python, "-B", PROGRAM, "--from", "list", "--share", SHARE, "--table", table, *words]
    return begun(command, stdout=subprocess.PIPE, stderr=subprocess.PIPE, text=True, **how)


def end_of(run, held=None, given=None):
    """The status, the output and the errors of a run. The pattern goes into the pipe first, when a worker reads it."""
    own = until(lambda: run.poll() is None and opened(held) or run.poll() is not None and -1) if held else -1
    if own != -1:
        os.write(own, GLIDER)
        os.close(own)
    try:
        said = run.communicate(given, timeout=PATIENCE)
    except subprocess.TimeoutExpired:
        killed(run)
        said = run.communicate()
    killed(run)
    return (run.returncode, *said)


def ran(*words, python=sys.executable, program=PROGRAM, given=None, **environment):
    """A program in a Python, that of the test unless another is named, on these words."""
    streams = {"stdin": subprocess.PIPE, "stdout": subprocess.PIPE, "stderr": subprocess.PIPE}
    how = {"encoding": "utf-8", "errors": "surrogateescape", "env": {**os.environ, **environment}}
    return end_of(begun([python, "-B", program, *words], **streams, **how), given=given)


def until(what):
    """Waits until something is the case, and returns it."""
    last = time.monotonic() + PATIENCE
    while time.monotonic() < last:
        found = what()
        if found:
            return found
        time.sleep(0.05)
    raise TimeoutError("the test waited in vain")


def opened(pipe):
    """The pipe, open for writing, or None where nobody reads it."""
    try:
        return os.open(pipe, os.O_WRONLY | os.O_NONBLOCK)
    except OSError:
        return None


@contextlib.contextmanager
def reading(pipe):
    """The pipe, while somebody reads it."""
    own = until(lambda: opened(pipe))
    try:
        yield own
    finally:
        os.close(own)


def holds(pid, pipe):
    """Whether a process has the pipe open."""
    try:
        return any(os.path.realpath(f"/proc/{pid}/fd/{it}") == os.path.realpath(pipe) for it in os.listdir(f"/proc/{pid}/fd"))
    except OSError:
        return False


# ---- without Dask


def of_one_process(paths):
    """Returns the rows that this process comes to without Dask, which each other run has to come to."""
    status, output, errors = end_of(started(sys.executable, "alone.sqlite", *WITHOUT_DASK), HELD)
    check(status == 0, f"without Dask: status {status}, {errors}")
    found = rows("alone.sqlite")
    check([it[0] for it in found] == paths, "a row for each file, in the order of the list")
    keys = {it[0]: it[2:5] for it in found}
    check(keys["glider.rle"] == keys[HELD] and keys[HELD][:2] == (GLIDER_KEY, GLIDER_KEY), "the key of a glider is the SHA-256 of its text")
    patterns = [[keys[f"{number:03}{part}.rle"] for part in "abc"] for number in range(PATTERNS)]
    check(all(a == b and all(a) and a[0] != c[0] and a[1:] == c[1:] for a, b, c in patterns), "two files of a pattern, and the pattern elsewhere")
    check(all(len({it[form] for it, _, _ in patterns}) == PATTERNS for form in range(2)), "each pattern has keys of its own")
    refused = [it[1:] for it in found if it[0].endswith(".mc")]
    why = "line 4: BadChild: A child number doesn't refer to an earlier square one level down."
    check(refused == [(None, None, None, None, "BadChild", 4, why)] * 4, f"refusals: {refused}")
    wanted = ["glider.rle = held.rle"] + [f"{number:03}a.rle = {number:03}{part}.rle" for number in range(PATTERNS) for part in "bc"]
    check(output.splitlines() == wanted, f"the duplicates, wherever they are: {output[:200]}")
    counts = "collection: 306 files, 302 keys, 4 refused, 0 unread, 101 patterns, 101 groups in the form moved\n"
    check(errors == counts, f"the counts: {errors}")
    for at, form in enumerate(("placed", "moved", "turned"), 2):
        # No file is read again: nobody writes into the pipe.
        status, output, errors = end_of(started(sys.executable, "alone.sqlite", *WITHOUT_DASK, "--form", form))
        groups = {}
        for it in found:
            if it[at]:
                groups.setdefault(it[at], []).append(it[0])
        wanted = [f"{first} = {other}" for first, *others in groups.values() for other in others]
        check(status == 0 and output.splitlines() == wanted, f"the duplicates of the same table, {form}: status {status}, {output[:200]}")
        counted = f"{len(groups)} patterns, {sum(len(it) > 1 for it in groups.values())} groups in the form {form}"
        check(errors == f"collection: 306 files, 302 keys, 4 refused, 0 unread, {counted}\n", f"the counts, {form}: {errors}")
        with contextlib.closing(sqlite3.connect("alone.sqlite")) as it:
            names = it.execute("SELECT path FROM duplicates WHERE form = ? ORDER BY first, id", (form,)).fetchall()
        check([it for it, in names] == [it for group in groups.values() if len(group) > 1 for it in group], f"the view of the duplicates, {form}: {names}")
    return found


def of_archives(paths):
    """The same files in a zip and in two tars, and what is no archive."""
    names = [it for it in paths if it != HELD]
    tars = tarfile.open("all.tar", "w"), tarfile.open("all.tar.xz", "w:xz")
    with tars[0], tars[1], zipfile.ZipFile("all.zip", "w") as zipped:
        for it in names:
            tars[0].add(it)
            tars[1].add(it)
            zipped.write(it)
    archives = ["all.tar", "all.zip", "all.tar.xz"]
    status, output, errors = ran("--archive", "--form", "moved", "--table", "archives.sqlite", *WITHOUT_DASK, *archives)
    found = rows("archives.sqlite")
    check(status == 0 and len(found) == 3 * len(names), f"archives: status {status}, {len(found)} rows, {errors}")
    check([it[:2] for it in found] == [(archive, name) for archive in archives for name in names], "a row for each file of an archive")
    parts = [[it[2:] for it in found if it[0] == archive] for archive in archives]
    check(parts[0] == parts[1] == parts[2], "each archive gives the same keys and refusals")
    check("all.tar/007a.rle = all.tar/007c.rle" in output.splitlines(), "a pattern elsewhere is the same one, moved")
    check(f" {PATTERNS + 1} patterns, {PATTERNS + 1} groups" in errors, f"patterns, moved: {errors}")
    with open("all.tar", "rb") as whole, open("cut.tar", "wb") as cut:
        cut.write(whole.read(20_000))
    status, _, _ = ran("--archive", "--table", "cut_tar.sqlite", *WITHOUT_DASK, "cut.tar", "glider.rle", "no such.zip")
    kinds = [(it[0], it[5]) for it in rows("cut_tar.sqlite") if it[5] == "ReadFault"]
    check(status == 1 and kinds[-2:] == [("glider.rle", "ReadFault"), ("no such.zip", "ReadFault")], f"what is no archive: status {status}, {kinds}")
    check(kinds[0][0] == "cut.tar" and len(rows("cut_tar.sqlite")) > len(kinds), "an archive that is cut gives what stands before")
    with tarfile.open("links.tar", "w") as it:
        it.add("glider.rle")
        for name, kind in (("hard.rle", tarfile.LNKTYPE), ("soft.rle", tarfile.SYMTYPE)):
            link = tarfile.TarInfo(name)
            link.type, link.linkname = kind, "glider.rle"
            it.addfile(link)
    status, _, _ = ran("--archive", "--table", "links.sqlite", *WITHOUT_DASK, "links.tar")
    found, why = [(it[1], it[5], it[7]) for it in rows("links.sqlite")], "it is a link to glider.rle, which isn't followed"
    check(status == 1 and found == [("glider.rle", None, None), ("hard.rle", "ReadFault", why), ("soft.rle", "ReadFault", why)], f"links: {status} {found}")
    most, collection.MOST_BYTES = collection.MOST_BYTES, 10
    check(collection.unpacked(gzip.compress(b"o" * 100)) == b"o" * 11, "no more is unpacked than tells that a file is too long")
    collection.MOST_BYTES = most


def of_page():
    """The program of docs/COLLECTIONS.md, in which other processes do the shares."""
    with open(PAGE, encoding="utf-8") as it:
        program = re.search(r"^```python\n(.*?)^```$", it.read(), re.MULTILINE | re.DOTALL)[1]
    archives = ["all.tar", "all.zip", "all.tar.xz"]
    places = os.pathsep.join([os.path.abspath(EXAMPLES), os.environ.get("PYTHONPATH", "")])
    with open("page.py", "w", encoding="utf-8") as it:
        it.write(program)
    told = ran("page.sqlite", *archives, program="page.py", PYTHONPATH=places)
    status, _, errors = ran("--archive", "--form", "turned", "--table", "turned.sqlite", *WITHOUT_DASK, *archives)
    check(status == 0 and told[0] == 0 and rows("page.sqlite") == rows("turned.sqlite"), f"the page: {told} {errors}")


def of_unread():
    """A file that can't be read is tried again by the next run."""
    words = ["--table", "late.sqlite", *WITHOUT_DASK, "glider.rle", "late.rle"]
    status, _, errors = ran(*words)
    found = rows("late.sqlite")
    wanted = ("late.rle", None, None, None, None, "ReadFault", None, "no such file")
    check(status == 1 and found[1] == wanted, f"a file that isn't there: status {status}, {found}")
    said = ["collection: unread: late.rle: no such file", "collection: 2 files, 1 keys, 0 refused, 1 unread, 1 patterns, 0 groups in the form moved"]
    check(errors.splitlines() == said, f"why it isn't read: {errors}")
    shutil.copy("glider.rle", "late.rle")
    status, output, _ = ran(*words)
    check(status == 0 and output == "glider.rle = late.rle\n" and rows("late.sqlite")[1][2] == GLIDER_KEY, f"it is there: status {status}, {output}")
    os.mkdir("inner")
    os.symlink("round", "round")
    with open("cut.gz", "wb") as it:
        it.write(gzip.compress(GLIDER)[:20])
    status, _, errors = ran("--table", "unread.sqlite", *WITHOUT_DASK, "--from", "-", given="inner\nround\ncut.gz\nlate.rle/x\n")
    whys = ["is a folder", "Too many levels of symbolic links", "Compressed file ended before the end-of-stream marker was reached", "Not a directory"]
    said = [f"collection: unread: {name}: {why}" for name, why in zip(("inner", "round", "cut.gz", "late.rle/x"), whys)]
    check(status == 1 and errors.splitlines()[:-1] == said, f"why files aren't read: status {status}, {errors}")
    refused = collection.words_of_fault(OSError(errno.EILSEQ, "Invalid or incomplete multibyte or wide character"), b"\xff")
    check(refused == "the name isn't UTF-8 text", f"a name that the system refuses: {refused}")


# ---- names

# Names, and how they are written.
NAMES = {
    b"names/a\nb.rle": "names/a\\nb.rle",
    b"names/\xff.rle": "names/\\xff.rle",
    b"names/\\xff.rle": "names/\\\\xff.rle",
    b"names/\x1b]0;t\x07\x1b[31mx\r\x7f": "names/\\x1b]0;t\\x07\\x1b[31mx\\r\\x7f",
    "names/\u202egnp.rle \u2066\u061c\u200e\u2028\x9b":
        "names/\\xe2\\x80\\xaegnp.rle \\xe2\\x81\\xa6\\xd8\\x9c\\xe2\\x80\\x8e\\xe2\\x80\\xa8\\xc2\\x9b",
    "names/\u00e9 \u4e2d \U0001f600 \u200d": "names/\u00e9 \u4e2d \U0001f600 \u200d",
    b"names/a = b": "names/a = b",
    b"names/a =": "names/a =",
    b"names/a=b": "names/a=b",
    b"names/caf\xe9 = x": "names/caf\\xe9 = x",
}
NAMES = {name if isinstance(name, bytes) else name.encode(): text for name, text in NAMES.items()}


def of_names():
    """Names that are no text, or would do something to a terminal or to a line, of files and of members: the same in each locale. Each text says which name
    it was, and two names have two texts."""
    os.mkdir("names")
    for name in NAMES:
        shutil.copy("glider.rle", name)
    every = [bytes([first, second]) for first in range(256) for second in range(256)] + [*NAMES]
    texts = [collection.text_of(it) for it in every]
    check([collection.name_of(it) for it in texts] == every and len(set(texts)) == len(every), "a name is what its text says")
    check(not any(re.search("[\\0-\x1f\x7f-\x9f\u202e]", it) for it in texts), "no text has a control character")
    given, names = b"\0".join(NAMES), list(NAMES)
    locales = ({}, {"LC_ALL": "C", "PYTHONUTF8": "0", "PYTHONCOERCECLOCALE": "0"}, {"LC_ALL": "C.UTF-8"}, {"PYTHONUTF8": "1"}, {"PYTHONIOENCODING": "latin-1"})
    for number, variables in enumerate(locales):
        table = f"names{number}.sqlite"
        status, output, errors = ran("--table", table, "--from", "-", *WITHOUT_DASK, given=os.fsdecode(given), **variables)
        found = rows(table)
        is_right = [it[0] for it in found] == list(NAMES.values()) and all(it[2] == GLIDER_KEY for it in found)
        check(status == 0 and is_right, f"names, {variables}: {errors} {found}")
        parts = [line.split(" = ") for line in output.splitlines()]
        own = [tuple(map(collection.name_of, it)) for it in parts]
        check(own == [(names[0], it) for it in names[1:]], f"the lines of names, {variables}: {output}")
        command = [sys.executable, "-B", PROGRAM, "--table", table, "--from", "-", "--zero", *WITHOUT_DASK]
        own = subprocess.run(command, input=given, stdout=subprocess.PIPE, env={**os.environ, **variables}, check=False).stdout.split(b"\0")
        check(own == [part for it in names[1:] for part in (names[0], it)] + [b""], f"the names themselves, {variables}: {own}")
    status, _, errors = ran("--table", "absent.sqlite", "--from", "-", *WITHOUT_DASK, given=os.fsdecode(b"no/\xff\x1b\n"))
    check(status == 1 and errors.startswith("collection: unread: no/\\xff\\x1b: no such file\n"), f"a name that isn't there: {errors!r}")
    with tarfile.open("names.tar", "w", encoding="utf-8", errors="surrogateescape") as it:
        for name in NAMES:
            it.add(os.fsdecode(name))
    with zipfile.ZipFile("names.zip", "w") as it:
        it.write("glider.rle", "caf\u00e9\x1b.rle")
        it.write("glider.rle", "old.rle")
    with open("names.zip", "rb") as it:
        data = it.read()
    with open("oem.zip", "wb") as it:  # a name of which no flag says that it is UTF-8
        it.write(data.replace(b"old.rle", b"\x82ld.rle"))
    with zipfile.ZipFile("names_of_unix.zip", "w") as it:  # as Debian's zip writes them: names in UTF-8 and in Latin-1, without a flag
        it.write("glider.rle", "caf__.rle")
        it.write("glider.rle", "caf_.rle")
    with open("names_of_unix.zip", "rb") as it:
        unix = it.read().replace(b"caf__.rle", "caf\u00e9.rle".encode()).replace(b"caf_.rle", b"caf\xe9.rle")
    with open("names_of_unix.zip", "wb") as it:
        it.write(unix)
    at = unix.index(b"PK\1\2")
    with open("names_of_dos.zip", "wb") as it:  # the second name is in code page 437, of which no byte is UTF-8 text
        it.write(unix.replace(b"caf\xe9.rle", b"caf\x82.rle").replace(unix[at : at + 6], unix[at : at + 5] + b"\0"))
    with open("wrong.zip", "wb") as it:  # one that says so, and isn't
        it.write(data.replace("\u00e9".encode(), b"\xff\xfe"))
    status, _, errors = ran("--archive", "--table", "archived.sqlite", *WITHOUT_DASK, "names.tar", "oem.zip", "wrong.zip", "names.zip",
                            "names_of_unix.zip", "names_of_dos.zip")
    found = [it[:2] + it[5:] for it in rows("archived.sqlite")]
    wanted = [("names.tar", it) for it in NAMES.values()] + [("oem.zip", "caf\u00e9\\x1b.rle"), ("oem.zip", "\\x82ld.rle")]
    wanted = [(*it, None, None, None) for it in wanted] + [("wrong.zip", None, "ReadFault", None, "a name in the archive isn't UTF-8 text")]
    wanted += [("names.zip", it, None, None, None) for it in ("caf\u00e9\\x1b.rle", "old.rle")]
    wanted += [("names_of_unix.zip", it, None, None, None) for it in ("caf\u00e9.rle", "caf\\xe9.rle")]
    wanted += [("names_of_dos.zip", it, None, None, None) for it in ("caf\u00e9.rle", "caf\u00e9.rle")]
    check(status == 1 and found == wanted, f"names in archives: status {status}, {errors}, {found}")
    status, _, errors = ran("--table", "odd.sqlite", *WITHOUT_DASK, "glider.rle", "--\x1b[31mx")
    check(status == 2 and "\x1b" not in errors and "\\x1b[31mx" in errors, f"an argument that isn't understood: {errors!r}")


# ---- files of other formats

# Files, by their names, and what their row says at its end.
GOLLY = "open it in Golly, and save it as RLE or as a macrocell file."
FORMATS = {
    "packed.bz2": (b"BZh91AY&SY", "This is a bzip2 file: unpack it first, with bunzip2."),
    "packed.xz": (b"\xfd7zXZ\0\0", "This is an xz file: unpack it first, with unxz."),
    "packed.zst": (b"\x28\xb5\x2f\xfd\x04\0", "This is a zstd file: unpack it first, with unzstd."),
    "packed.7z": (b"7z\xbc\xaf'\x1c\0\x04", "This is a 7z file: unpack it first, with 7z."),
    "packed.rar": (b"Rar!\x1a\x07\x01\0", "This is a rar file: unpack it first, with unrar."),
    "twice.gz": (gzip.compress(gzip.compress(GLIDER)), "This is a gzip file: unpack it first, with gunzip."),
    "image.png": (b"\x89PNG\r\n\x1a\n\0\0\0\rIHDR", "This is an image, not a pattern file."),
    "image.gif": (b"GIF89a\x01\0", "This is an image, not a pattern file."),
    "image.jpg": (b"\xff\xd8\xff\xe0\0\x10JFIF", "This is an image, not a pattern file."),
    "image.bmp": (b"BM\x46\0\0\0\0\0", "This is an image, not a pattern file."),
    "image.webp": (b"RIFF\x1a\0\0\0WEBPVP8 ", "This is an image, not a pattern file."),
    "image.tif": (b"II*\0\x08\0", "This is an image, not a pattern file."),
    "paper.pdf": (b"%PDF-1.4\n", "This is a PDF file, so it is no pattern file."),
    "binary": (b"\x7fELF\x02\x01\x01\0\n", "This isn't a text file, so it is no pattern file."),
    "page.html": (b"\n<!DOCTYPE html>\n", "This is a web page (HTML): download the file that it links to."),
    "packed page": (gzip.compress(b"<html>"), "This is a web page (HTML): download the file that it links to."),
    "none": (b"", "The file is empty: save it or download it again."),
    "marked": (b"\xef\xbb\xbfx = 1, y = 1\no!\n", "The file begins with a UTF-8 byte order mark: remove it, or save the file as UTF-8 without one."),
    "old.lif": (b"#Life 1.05\n#P 0 0\n*\n", f"This is a Life 1.05 file: {GOLLY}"),
    "new.lif": (b"#Life 1.06\n0 0\n", f"This is a Life 1.06 file: {GOLLY}"),
    "cell.mcl": (b"#MCell 4.00\n#L A.A\n", f"This is an MCell file: {GOLLY}"),
    "spread.rule": (b"@RULE Spread\n", "This is a rule table, not a pattern: name it after the option --table of step."),
    "named.cells": (b"!Name: glider\n.O.\n..O\nOOO\n", f"This is a plaintext file (.cells): {GOLLY}"),
    "rows.cells": (b".O.\r\n..O\r\nOOO\r\n", f"This is a plaintext file (.cells): {GOLLY}"),
    "headless": (b"#C text\n\n3o$b2o!\n", "The header is missing: put one before the items, such as x = 0, y = 0, rule = B3/S23."),
    "returns": (b"x = 1, y = 1, rule = B3/S23\ro!\r", "The lines end in a carriage return alone: turn each into a line feed, with tr '\\r' '\\n'."),
    "text": (b"A glider.\nx = 3, y = 3\no!\n", ""),
    "letter": (b"x = 3, y = 3\nbo$2bC$3o!\n", ""),
}


def of_formats():
    """What isn't a pattern is named, also a zip and a tar that come without --archive."""
    os.mkdir("formats")
    for name, (data, _) in FORMATS.items():
        with open(os.path.join("formats", name), "wb") as it:
            it.write(data)
    wanted = {f"formats/{name}": what for name, (_, what) in FORMATS.items()}
    wanted["all.zip"] = "This is a zip file: unpack it first, with unzip. With --archive its files are read."
    wanted["all.tar"] = wanted["all.tar.gz"] = "This is a tar file: unpack it first, with tar -xf. With --archive its files are read."
    with open("all.tar", "rb") as whole, gzip.open("all.tar.gz", "wb") as packed:
        packed.write(whole.read())
    status, _, errors = ran("--table", "formats.sqlite", *WITHOUT_DASK, *wanted)
    found = {it[0]: it for it in rows("formats.sqlite")}
    check(status == 0 and f" {len(wanted)} refused, " in errors, f"files of other formats: status {status}, {errors}")
    for name, what in wanted.items():
        *_, kind, line, why = found[name]
        # After what the fault is: the line, the kind and a sentence.
        named = re.fullmatch(rf"line {line}: {kind}: [A-Z][^.]*(?:\.\.[^.]*)*\.( [A-Z].*|)", why)
        check(named and named[1].strip() == what, f"what is said of {name}: {why}")


# ---- what ends a run


def of_output():
    """An output that takes no more ends a run in a line, and one whose reader has left without a word. The table is whole, and the same command goes on."""
    words = ["--from", "list", "--share", SHARE, "--table", "alone.sqlite", *WITHOUT_DASK]
    full = "collection: standard output can't be written: No space left on device; the table is whole, and the same command writes the duplicates again\n"
    for name, script, wanted in [
        ("a full output", "> /dev/full", (1, full)),
        ("a full output and a full standard error", "> /dev/full 2>&1", (1, "")),
        ("a full standard error", "> out 2> /dev/full", (0, "")),
        ("a closed standard error", "> out 2>&-", (0, "")),
        ("a closed output", ">&-", (1, full.replace("No space left on device", "it is closed"))),
    ]:
        run = begun(["bash", "-c", f'"$@" {script}', "bash", sys.executable, "-B", PROGRAM, *words], stdout=subprocess.PIPE, stderr=subprocess.PIPE, text=True)
        status, _, errors = end_of(run)
        check((status, errors) == wanted, f"{name}: status {status}, {errors}")
    for more in ([], ["--zero"]):
        reader, writer = os.pipe()
        os.close(reader)
        run = begun([sys.executable, "-B", PROGRAM, *words, *more], stdout=writer, stderr=subprocess.PIPE, text=True)
        os.close(writer)
        status, _, errors = end_of(run)
        check((status, errors) == (141, ""), f"a reader who has left, {more}: status {status}, {errors}")
    with open("out", encoding="utf-8") as it:
        check(len(it.readlines()) == 2 * PATTERNS + 1, "a full standard error leaves the output as it is")
    run = begun(["bash", "-c", '"$@" > /dev/full', "bash", sys.executable, "-B", PROGRAM, "--help"], stdout=subprocess.PIPE, stderr=subprocess.PIPE, text=True)
    status, _, errors = end_of(run)
    said = "collection: standard output can't be written: No space left on device\n"
    check((status, errors) == (1, said), f"a help text on a full output: {status}, {errors}")


def of_older_tables():
    """A table of an earlier program, which has the keys of one form, is refused by name, and stays as it is."""
    with contextlib.closing(sqlite3.connect("older.sqlite")) as it:
        it.executescript("""
            CREATE TABLE run (list BLOB NOT NULL, form TEXT NOT NULL, shares INTEGER NOT NULL);
            CREATE TABLE share (number INTEGER PRIMARY KEY, files INTEGER NOT NULL, unread INTEGER NOT NULL);
            CREATE TABLE file (id INTEGER PRIMARY KEY, path TEXT NOT NULL, member TEXT, key BLOB, kind TEXT, line INTEGER, why TEXT);
            INSERT INTO run VALUES (x'00', 'turned', 1);""")
    with open("older.sqlite", "rb") as it:
        before = it.read()
    status, output, errors = ran("--table", "older.sqlite", *WITHOUT_DASK, "glider.rle")
    said = "collection: older.sqlite: it is a table of an older collection.py, with the keys of one form: name another table, or remove this one\n"
    with open("older.sqlite", "rb") as it:
        check((status, output, errors) == (2, "", said) and it.read() == before, f"an older table: status {status}, {errors}")


# What made a table before there were keys in the form phases.
SCHEMA = [
    "CREATE TABLE run (list BLOB NOT NULL, shares INTEGER NOT NULL)",
    "CREATE TABLE share (number INTEGER PRIMARY KEY, files INTEGER NOT NULL, unread INTEGER NOT NULL)",
    "CREATE TABLE file (id INTEGER PRIMARY KEY, path TEXT NOT NULL, member TEXT, placed BLOB, moved BLOB, turned BLOB, kind TEXT, line INTEGER, why TEXT)",
    "CREATE VIEW duplicates AS " + " UNION ALL ".join(
        f"SELECT '{form}' AS form, first, id, path, member, {form} AS key FROM "
        f"(SELECT {form}, min(id) AS first FROM file WHERE {form} IS NOT NULL GROUP BY {form} HAVING count(*) > 1) JOIN file USING ({form})"
        for form in ("placed", "moved", "turned")),
]
WITHOUT_PHASES = "it has no keys in the form phases: name another table, or remove this one"


def schema_of(table):
    """What makes the tables and the view in a table, without its indexes."""
    with contextlib.closing(sqlite3.connect(table)) as it:
        return [sql for sql, in it.execute("SELECT sql FROM sqlite_master WHERE type IN ('table', 'view')")]


def of_tables_without_phases():
    """A table that was made before there were keys in the form phases goes on as it is, and a new table without them is the same; a run that wants them is
    refused by name, and the table stays as it is."""
    names = ["glider.rle", "000a.rle"]
    with contextlib.closing(sqlite3.connect("three.sqlite")) as it:
        it.executescript(";".join(SCHEMA))
        with it:
            it.execute("INSERT INTO run VALUES (?, ?)", (collection.digest_of(collection.shares_of(names, False)), 1))
    for table in ("three.sqlite", "new.sqlite"):
        status, _, errors = ran("--table", table, *WITHOUT_DASK, *names)
        check(status == 0 and [it[0] for it in rows(table)] == names and rows(table)[0][2] == GLIDER_KEY, f"{table}: status {status}, {errors}")
        check(schema_of(table) == SCHEMA, f"{table}: {schema_of(table)}")
        with open(table, "rb") as it:
            before = it.read()
        for words in (["--form", "phases"], ["--within", "128"], ["--form", "phases", "--within", "9"]):
            found = ran("--table", table, *WITHOUT_DASK, *words, *names)
            with open(table, "rb") as it:
                check(found == (2, "", f"collection: {table}: {WITHOUT_PHASES}\n") and it.read() == before, f"{table}, {words}: {found}")


def of_phases():
    """A table that is made with keys in the form phases has them for each file, and says why a file has none. It goes on with these keys whichever form its
    duplicates are listed in later, and no file is read again for another form."""
    os.mkdir("phases")
    for name, data in {"glider.rle": GLIDER, "later.rle": LATER, "wide.rle": WIDE, "refused.mc": CHILD}.items():
        with open(f"phases/{name}", "wb") as it:
            it.write(data)
    names = [f"phases/{it}" for it in ("glider.rle", "later.rle", "wide.rle", "refused.mc", "last.rle")]
    words = ["--table", "phases.sqlite", *WITHOUT_DASK, *names]
    with contextlib.closing(sqlite3.connect("phases.sqlite")) as it:
        status, output, errors = ran(*words, "--form", "phases")
        found = it.execute("SELECT path, phases, kind, line, why, placed IS NULL FROM file ORDER BY id").fetchall()
        check(status == 1 and output == "phases/glider.rle = phases/later.rle\n", f"duplicates, phases: status {status}, {output}, {errors}")
        said = "5 files, 2 keys, 2 refused, 1 unread, 1 patterns, 1 groups in the form phases"
        check(errors.splitlines()[-1] == f"collection: {said}", f"the counts, phases: {errors}")
        check([row[1] for row in found] == [PHASES_KEY, PHASES_KEY, None, None, None], f"keys in the form phases: {found}")
        kinds, whys = [row[2:4] for row in found], [row[4] or "" for row in found]
        wanted = [(None, None), (None, None), ("OutOfPlane", None), ("BadChild", 4), ("ReadFault", None)]
        check(kinds == wanted and [row[5] for row in found] == [0, 0, 0, 1, 1], f"why files have no key in it: {found}")
        check(whys[2].startswith("phases: OutOfPlane: ") and whys[3].startswith("line 4: BadChild: "), f"what is said of them: {whys}")
        shutil.copy("phases/later.rle", "phases/last.rle")
        status, output, errors = ran(*words)
        check(status == 0 and output == "phases/later.rle = phases/last.rle\n", f"the same table, moved: status {status}, {output}, {errors}")
        check(it.execute("SELECT phases FROM file WHERE path = 'phases/last.rle'").fetchone() == (PHASES_KEY,), "it goes on with these keys")
        shutil.rmtree("phases")
        for more in ([], ["--within", "128"]):
            status, output, errors = ran(*words, "--form", "phases", *more)
            found = [f"phases/glider.rle = phases/{name}.rle" for name in ("later", "last")]
            check(status == 0 and output.splitlines() == found, f"no file is read again, {more}: status {status}, {output}, {errors}")
        found = it.execute("SELECT path FROM duplicates WHERE form = 'phases' ORDER BY id").fetchall()
        check([name for name, in found] == [names[0], names[1], names[4]], f"the view of the duplicates, phases: {found}")
        check(it.execute("SELECT within FROM run").fetchall() == [(128,)], "the greatest period that was sought")
    for form in ("phases", "moved"):
        said = "collection: phases.sqlite: it has the keys of phases within 128 generations: name another table, or remove this one\n"
        found = ran(*words, "--form", form, "--within", "3")
        check(found == (2, "", said), f"another greatest period: {found}")
    with open("later.rle", "wb") as it:
        it.write(LATER)
    words = ["--table", "within.sqlite", *WITHOUT_DASK, "glider.rle", "later.rle"]
    for more in (["--within", "3"], ["--form", "phases"]):
        status, output, errors = ran(*words, *more)
        said = f"2 files, 2 keys, 0 refused, 0 unread, 2 patterns, 0 groups in the form {more[1] if '--form' in more else 'moved'}"
        check((status, output, errors) == (0, "", f"collection: {said}\n"), f"a lesser greatest period, {more}: status {status}, {output}, {errors}")


LOST = b"[M2] (golly 4.2)\r#R B3/S23\r$$..*$...*$.***$\r"


def of_line_ends():
    """A macrocell file that seems to have lost its line ends has its key and a warning, in the table and on standard error, in an archive too."""
    names = ["lost\x1b[2J.mc", "whole.mc"]
    for name, data in zip(names, (LOST, LOST.replace(b"\r", b"\n"))):
        with open(name, "wb") as it:
            it.write(data)
    with zipfile.ZipFile("lost.zip", "w") as it:
        it.write(names[0], "inner.mc")
    for table, words, name in (("lost.sqlite", names, "lost\\x1b[2J.mc"), ("lost_zip.sqlite", ["--archive", "lost.zip"], "lost.zip/inner.mc")):
        status, _, errors = ran("--table", table, "--workers", "0", *words)
        found = rows(table)
        why = found[0][7] or ""
        check(status == 0 and found[0][2] is not None and "line ends" in why and "\x1b" not in errors, f"lost line ends: {found[0]}, {errors!r}")
        check(errors.splitlines()[0] == f"collection: warning: {name}: {why}", f"its warning: {errors!r}")
        key = hashlib.sha256(LIFE + b"$$..*$...*$.***$$$$\n").digest()
        check(len(found) == 1 or (found[1][2], *found[1][5:]) == (key, None, None, None), f"a file with line ends: {found[1:]}")


def interrupted(python, table, *words):
    """Interrupts a run as a terminal does by Ctrl-C, with all that it started, while a worker reads the pipe. Returns its status, its errors, and
    whether all that it started has ended too."""
    run = started(python, table, *words)
    with reading(HELD):
        os.killpg(run.pid, signal.SIGINT)
        try:
            _, errors = run.communicate(timeout=PATIENCE)
        except subprocess.TimeoutExpired:
            killed(run)
            errors = f"it goes on: {run.communicate()}"
    try:
        until(lambda: not any(session_of(it) == run.pid for it in filter(str.isdigit, os.listdir("/proc"))))
        is_over = True
    except TimeoutError:
        is_over = False
    killed(run)
    return run.returncode, errors, is_over


def session_of(process):
    """The session of a process, or None where there is none."""
    try:
        with open(f"/proc/{process}/stat", encoding="utf-8", errors="replace") as it:
            state, _, _, session = it.read().rpartition(") ")[2].split()[:4]
            return None if state == "Z" else int(session)
    except OSError:
        return None


def of_interrupt(python, wanted, *words):
    """Ctrl-C ends a run with one line and status 130, and the same command goes on."""
    table = f"interrupted{len(words)}.sqlite"
    status, errors, is_over = interrupted(python, table, *words)
    said = "collection: interrupted; the same command continues where it was\n"
    check(status == 130 and errors == said, f"Ctrl-C, {words}: status {status}, {errors!r}")
    check(is_over, f"what was started ends with it, {words}")
    status, _, errors = end_of(started(python, table, *words), HELD)
    check(status == 0 and rows(table) == wanted, f"the same command after Ctrl-C, {words}: status {status}, {errors}")


def of_words():
    """Words that can't be followed."""
    os.mkdir("folder")
    for words, said in [
        (["--table", "x.sqlite"], "name files, or a list by --from"),
        (["glider.rle"], "--table"),
        (["--table", "x.sqlite", "glider.rle", "folder"], "folder is a folder: name its files, as find folder -type f -print0 | collection.py --from - does"),
        (["--table", "x.sqlite", "--from", "no list"], "no list: No such file or directory"),
        (["--table", "x.sqlite", "--form", "shifted", "glider.rle"], "shifted"),
        (["--table", "x.sqlite", "--form", "phases", "--within", "0", "glider.rle"], "--within takes a number from 1 to 2^31 - 1"),
        (["--table", "x.sqlite", "--within", "2147483648", "glider.rle"], "--within takes a number from 1 to 2^31 - 1"),
        (["--table", "x.sqlite", "--within", "few", "glider.rle"], "--within"),
        (["--table", "x.sqlite", "--share", "0", "glider.rle"], "--share takes a number above 0"),
        (["--table", "x.sqlite", "--workers", "2", "--scheduler", "tcp://one:8786", "glider.rle"], "not allowed with"),
        (["--table", "alone.sqlite", *WITHOUT_DASK, "glider.rle"], "alone.sqlite: it is the table of another list or size of shares: name another table"),
        (["--table", "glider.rle", *WITHOUT_DASK, "glider.rle"], "glider.rle: file is not a database"),
        (["--table", "no/x.sqlite", *WITHOUT_DASK, "glider.rle"], "no/x.sqlite: unable to open database file"),
    ]:
        status, _, errors = ran(*words)
        check(status == 2 and said in errors and "Traceback" not in errors, f"{' '.join(words)}: status {status}, {errors}")
    check(not os.path.exists("x.sqlite"), "words that can't be followed make no table")
    status, _, said = ran("--table", "x.sqlite", *WITHOUT_DASK, "glider.rle", GOLLY_CANON_LIBRARY="/nowhere")
    check(status == 1 and "the library of golly_canon isn't found" in said and "Traceback" not in said, f"no library: {said}")


def of_lacking_dask():
    """Where Dask isn't installed, a run that needs it makes no table, so that the next one may be another."""
    own = sys.modules.get("distributed")
    sys.modules["distributed"] = None  # so Python finds none
    with contextlib.redirect_stderr(io.StringIO()) as told:
        status = collection.main(["--table", "undone.sqlite", "--workers", "2", "glider.rle"])
    del sys.modules["distributed"]
    if own is not None:
        sys.modules["distributed"] = own
    is_told = told.getvalue().startswith("collection: Dask isn't installed for ") and "--workers 0" in told.getvalue()
    check(status == 1 and is_told and not os.path.exists("undone.sqlite"), f"without Dask: status {status}, {told.getvalue()}")


def of_shares(paths):
    """Shares that are done twice, in another order, or not at all, by the module itself."""
    names = [it for it in paths if it != HELD]
    shares = collection.shares_of(names, False, 20)
    done = {share[0]: collection.rows_of(share) for share in shares}
    check(all(collection.rows_of(share) == done[share[0]] for share in shares), "a share that is done twice has the same rows")
    tables = [collection.Table(f"shares{which}.sqlite", shares) for which in (1, 2)]
    order = [share[0] for share in shares]
    for number in order:
        tables[0].take(number, done[number])
    for number in [*reversed(order), *order]:
        tables[1].take(number, done[number])
    tables[1].take(order[3], done[order[4]])  # a done share stays
    found = [rows(f"shares{which}.sqlite") for which in (1, 2)]
    check(found[0] == found[1] and len(found[0]) == len(names), "the order of shares, and shares done twice")
    check(tables[1].left(shares) == [], "nothing is left")
    some = collection.Table("shares3.sqlite", shares)
    with contextlib.redirect_stderr(io.StringIO()) as told:
        failed = collection.run(some, shares[:2], lambda given: iter([(0, "KilledWorker: it died"), (1, done[1])]))
    wanted = "share 0 (glider.rle to 005c.rle) isn't done: KilledWorker: it died"
    check(failed == [0] and wanted in told.getvalue() and some.left(shares[:2]) == shares[:1], f"a share that fails: {failed}, {told.getvalue()}")
    with contextlib.redirect_stderr(io.StringIO()):
        failed = collection.run(some, shares, lambda given: ((it[0], "no library") for it in given))
    check(len(failed) == collection.MOST_FAILED, f"a run ends behind {len(failed)} shares that fail")


class Handed:
    """What stands for a future of Dask: it raises something where its result is fetched, since the scheduler goes away, or hands it out."""

    key = "share"

    def __init__(self, found, is_cancelled=False, failed=None):
        self.found, self.is_cancelled, self.failed = found, is_cancelled, failed

    def exception(self):
        return self.failed

    def result(self):
        if isinstance(self.found, Exception):
            raise self.found
        return self.found

    def cancelled(self):
        return self.is_cancelled


def of_futures():
    """What is made of a future: rows, or why there are none; and a scheduler that goes away while they are fetched is no fault of the share."""

    class CancelledError(Exception):
        """Stands for that of Dask."""

    def made_of(future):
        try:
            return collection.found_of(future)
        except (CancelledError, OSError) as why:
            return type(why)

    own = sys.modules.get("distributed")
    sys.modules["distributed"] = types.SimpleNamespace(CancelledError=CancelledError)
    rows_of_share = [("glider.rle", None, GLIDER_KEY, None, None, None, None, None)]
    futures = [Handed(pickle.dumps(rows_of_share)), Handed(None, failed=ValueError("it died")), Handed(TypeError("no exception"), is_cancelled=True),
               Handed(CancelledError("share"), is_cancelled=True), Handed(OSError("the scheduler is away"))]
    found = [made_of(it) for it in futures]
    del sys.modules["distributed"]
    if own is not None:
        sys.modules["distributed"] = own
    check(found == [rows_of_share, "ValueError: it died", CancelledError, CancelledError, OSError], f"futures: {found}")


def of_two_runs(wanted):
    """A run is held in the middle of a share, and another one with the same words does all of them. Then the first goes on with what it had begun."""
    first = started(sys.executable, "both.sqlite", *WITHOUT_DASK)
    with reading(HELD) as own:
        until(lambda: holds(first.pid, HELD))
        os.rename(HELD, "pipe")
        shutil.copy("glider.rle", HELD)
        second = end_of(started(sys.executable, "both.sqlite", *WITHOUT_DASK))
        check(second[0] == 0 and rows("both.sqlite") == wanted, f"a second run on the table of the first: {second}")
        os.rename("pipe", HELD)
        os.write(own, GLIDER)
    status, _, errors = end_of(first)
    check(status == 0 and rows("both.sqlite") == wanted, f"the first run does shares that are done: status {status}, {errors}")


def of_parquet(wanted):
    """The rows as Parquet, where pyarrow is there."""
    words = ["--share", SHARE, "--table", "alone.sqlite", "--parquet", "alone.parquet", "--from", "list", *WITHOUT_DASK]
    status, _, errors = ran(*words)
    try:
        import pyarrow.parquet
    except ImportError:
        check(status == 2 and "--parquet takes pyarrow, which isn't installed" in errors, f"without pyarrow: status {status}, {errors}")
        print(f"skipped: Parquet, since pyarrow isn't installed for {sys.executable}")
        return
    found = [tuple(it.values()) for it in pyarrow.parquet.read_table("alone.parquet").to_pylist()]
    check(status == 0 and found == wanted, f"the rows as Parquet: status {status}, {errors}")


# ---- with Dask


def with_dask():
    """A Python here that has Dask, or None."""
    for python in dict.fromkeys([sys.executable, shutil.which("python3"), "/usr/bin/python3"]):
        looked = [python, "-c", "import importlib.util, sys; sys.exit(importlib.util.find_spec('distributed') is None)"]
        with contextlib.suppress(OSError, TypeError):
            if subprocess.run(looked, stderr=subprocess.DEVNULL, check=False).returncode == 0:
                return python
    return None


def free_port():
    """A port that nothing listens on, below those that the system gives to connections, so that none of these takes it while the scheduler is away."""
    with open("/proc/sys/net/ipv4/ip_local_port_range", encoding="ascii") as it:
        least = int(it.read().split()[0])
    while True:
        port = random.randrange(min(10_000, least // 2), least) if least > 2048 else 0
        with contextlib.suppress(OSError), socket.socket() as it:
            it.bind(("127.0.0.1", port))
            return it.getsockname()[1]


class Cluster:
    """A scheduler and workers of this machine, each a process. What it started it ends."""

    def __init__(self, python):
        self.port = free_port()
        self.python, self.address, self.processes = python, f"tcp://127.0.0.1:{self.port}", []

    def start(self, name, *words):
        with open(f"{name}.log", "ab") as log:
            it = begun([self.python, "-B", "-m", f"distributed.cli.dask_{name}", *words], stdout=log, stderr=log, cwd="/")
        self.processes.append(it)
        return it

    def scheduler(self):
        """A scheduler that answers. One that doesn't come up is started again, up to three times, and a line says so."""
        for number in (1, 2, 3):
            it = self.start("scheduler", "--host", "127.0.0.1", "--port", str(self.port), "--no-dashboard")
            until(lambda: it.poll() is not None or self.answers())
            if it.poll() is None:
                return it
            print(f"the scheduler did not start, {number} of 3: status {it.returncode}", flush=True)
        raise TimeoutError("no scheduler starts")

    def answers(self):
        """Whether something listens on the port."""
        try:
            socket.create_connection(("127.0.0.1", self.port), timeout=5).close()
        except OSError:
            return False
        return True

    def worker(self):
        folder = tempfile.mkdtemp(dir=os.getcwd())
        words = ["--no-nanny", "--no-dashboard", "--nthreads", "1", "--memory-limit", "0", "--local-directory", folder]
        return self.start("worker", self.address, *words)

    def __enter__(self):
        return self

    def __exit__(self, *_):
        for it in self.processes:
            killed(it)


def of_cluster(python, wanted):
    """A worker is killed in the middle of a share, then the scheduler, in one run; and another run is cut off, and goes on."""
    with Cluster(python) as cluster:
        scheduler, workers = cluster.scheduler(), [cluster.worker(), cluster.worker()]
        run = started(python, "cluster.sqlite", "--scheduler", cluster.address)
        with reading(HELD):
            victim = until(lambda: next((it for it in workers if holds(it.pid, HELD)), None))
            killed(victim)
        other = next(it for it in workers if it is not victim)
        with reading(HELD):
            check(until(lambda: holds(other.pid, HELD)), "the other worker does the share whose worker was killed")
            before = shares_done("cluster.sqlite")
            killed(scheduler)
            killed(other)
        check(run.poll() is None and 0 < before < len(wanted) / int(SHARE), f"the run waits for a scheduler, with {before} shares done")
        cluster.scheduler()
        last = cluster.worker()
        status, _, errors = end_of(run, HELD)
        check(status == 0 and "the scheduler is away" in errors and "Traceback" not in errors, f"another scheduler: status {status}, {errors}")
        check(rows("cluster.sqlite") == wanted, "a killed worker and a killed scheduler change nothing")

        run = started(python, "cut.sqlite", "--scheduler", cluster.address)
        with reading(HELD):
            until(lambda: holds(last.pid, HELD) and shares_done("cut.sqlite"))
            killed(run)
            run.communicate()
        until(lambda: not holds(last.pid, HELD))  # so that the pattern goes to the next run
        before = shares_done("cut.sqlite")
        check(0 < before < len(wanted) / int(SHARE), f"a run is cut off with {before} shares done")
        os.rename("glider.rle", "away")  # of a done share, which is not read again
        status, _, errors = end_of(started(python, "cut.sqlite", "--scheduler", cluster.address), HELD)
        os.rename("away", "glider.rle")
        check(status == 0 and rows("cut.sqlite") == wanted, f"a run that was cut off goes on: status {status}, {errors}")
    status, _, errors = end_of(started(python, "cut.sqlite", "--scheduler", cluster.address))
    check(status == 0 and rows("cut.sqlite") == wanted, f"a table in which all is done wants no scheduler: status {status}, {errors}")


def worker_of(run):
    """The process that has the pipe open, beside this one, where the program has started it."""
    for it in filter(str.isdigit, os.listdir("/proc")):
        if int(it) != os.getpid() and holds(int(it), HELD):
            with open(f"/proc/{it}/stat", encoding="utf-8") as status:
                return int(it) if int(status.read().rpartition(") ")[2].split()[1]) == run.pid else None
    return None


def of_local_workers(python, wanted):
    """Workers that the program starts itself: a share that kills its worker as often as Dask allows, here once, is left out, and is done when the run
    goes on."""
    run = started(python, "local.sqlite", "--workers", "1", env={**os.environ, "DASK_DISTRIBUTED__SCHEDULER__ALLOWED_FAILURES": "0"})
    with reading(HELD):
        os.kill(until(lambda: worker_of(run)), signal.SIGKILL)
        until(lambda: worker_of(run) is None)
    status, _, errors = end_of(run)
    place = next(number for number, it in enumerate(wanted) if it[0] == HELD) // int(SHARE)
    is_told = f"share {place} (" in errors and "KilledWorker" in errors
    check(status == 1 and is_told, f"a share that kills its worker: status {status}, {errors}")
    check(0 < shares_done("local.sqlite") < len(wanted) / int(SHARE), f"the other shares are done: {shares_done('local.sqlite')}")
    status, output, errors = end_of(started(python, "local.sqlite", "--workers", "1"), HELD)
    check(status == 0 and rows("local.sqlite") == wanted and output.startswith("glider.rle = held.rle\n"), f"it goes on: status {status}, {errors}")


def all_of(paths):
    wanted = of_one_process(paths)
    of_archives(paths)
    of_page()
    of_unread()
    of_names()
    of_formats()
    of_output()
    of_older_tables()
    of_tables_without_phases()
    of_phases()
    of_line_ends()
    of_words()
    of_lacking_dask()
    of_interrupt(sys.executable, wanted, *WITHOUT_DASK)
    of_shares(paths)
    of_futures()
    of_two_runs(wanted)
    of_parquet(wanted)
    python = with_dask()
    if python:
        of_cluster(python, wanted)
        of_local_workers(python, wanted)
        of_interrupt(python, wanted, "--workers", "2", "--share", SHARE)
    else:
        print("skipped: a cluster, since no Python here has Dask (apt-get install python3-distributed)")


def link(archive):
    """Links the library from an archive into this folder, and has the module take it from there. Ends the test where it can't."""
    words = ["sh", os.path.join(TOP, "scripts", "link_library"), archive, "library"]
    linked = subprocess.run(words, stdout=subprocess.PIPE, stderr=subprocess.STDOUT, text=True, check=False)
    if linked.returncode:
        raise OSError(f"the library is not linked from {archive}: {linked.stdout}")
    os.environ["GOLLY_CANON_LIBRARY"] = os.path.abspath("library/libgolly_canon.so")
    os.environ["PYTHONPATH"] = os.path.join(TOP, "python")
    sys.path.append(os.environ["PYTHONPATH"])


def main():
    archive = os.path.abspath(sys.argv[1]) if len(sys.argv) > 1 else None
    signal.signal(signal.SIGTERM, lambda *_: sys.exit(1))  # so that what was started ends with the test
    signal.signal(signal.SIGINT, signal.default_int_handler)  # so that what is started takes Ctrl-C, also where this test was started without
    with tempfile.TemporaryDirectory(ignore_cleanup_errors=True) as folder:
        os.chdir(folder)
        try:
            if archive:
                link(archive)
            all_of(made())
        except TimeoutError as why:
            check(False, f"{why}, with {len(running)} processes behind it")
        except Exception:  # so that the last line comes too
            check(False, traceback.format_exc())
        finally:
            for it in [*running]:
                killed(it)
            os.chdir("/")
    return ended()


if __name__ == "__main__":
    sys.exit(main())
