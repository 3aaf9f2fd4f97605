#!/usr/bin/env python3
"""The keys of a collection of pattern files, by the processes of a machine or by a cluster, in one table with its duplicates.

usage: collection.py --table OUT.sqlite [--form placed|moved|turned|phases] [--within MOST] [--zero] [--archive] [--workers N | --scheduler ADDRESS]
                     FILE.. | --from LIST

The table has the keys of each pattern in the forms placed, moved and turned; and in the form phases if the run that makes it is given `--form phases` or
`--within`. `--form` says in which of them the duplicates are listed: without it as the command `duplicates` of the program lists them, wherever a pattern is
(`moved`).

The list is cut into shares. A worker turns a share into rows and keeps nothing; this process alone writes, and a share's rows come into the table
all or none, with the mark that it is done. So a worker that dies, a share that is done twice and a scheduler that starts again change nothing, and a
run that was cut off continues when the same command is started again. docs/COLLECTIONS.md says more.
"""

from __future__ import annotations

import argparse
import errno
import functools
import gzip
import io
import hashlib
import importlib.util
import logging
import lzma
import os
import pickle
import re
import signal
import sqlite3
import sys
import tarfile
import time
import warnings
import zipfile
import zlib
from typing import Any, BinaryIO, Callable, Dict, Iterable, Iterator, List, Optional, Sequence, Tuple, Union

# Shares and rows are plain tuples, so that any system can send them.
# A share: its number; the folder from which its paths go, the paths, and whether they are archives; and the greatest period that is sought for the keys of
# the form phases, or None where these aren't wanted.
Share = Tuple[int, bytes, Tuple[bytes, ...], bool, Optional[int]]
Key = Optional[bytes]
Row = Tuple[Any, ...]  # as the columns of a row of the table
Done = Tuple[int, Union[List[Row], str]]  # the number of a share, and its rows or why it has none
Work = Callable[[Sequence[Share]], Iterator[Done]]

FORMS = ("placed", "moved", "turned", "phases")  # in each of which a pattern has a key; in the last one where that is asked for
PHASES = FORMS[-1]
FORM = "moved"  # in which duplicates are listed if none is named, here and by the command `duplicates` of the program
WITHIN = 128  # the greatest period that is sought for phases if none is named, here and by the program
MOST_WITHIN = 2**31 - 1
LEFT = 141  # the status where the reader of standard output has left, as a shell reports it of a program that SIGPIPE ends
SIZE = 1000  # of a share, in files; an archive is a share by itself
TRIES = 3  # of a share that raises
MOST_FAILED = 10  # shares, after which a run stops
PATIENCE = 300.0  # the most seconds without a scheduler
SPOKEN = 10.0  # the seconds between two lines that say how far the run is
UNSETTLED = ("Memory", "ReadFault")  # kinds that lie with the machine, so that the next run tries again
WITHOUT_DASK = (f"Dask isn't installed for {sys.executable}: install it (`apt-get install python3-distributed` for /usr/bin/python3, `pip install distributed` "
                "for another one), or do all in one process, with --workers 0")
UNFINISHED = ("Full", "Memory")  # kinds of a file that isn't read to its end
UNREAD = (OSError, EOFError, zlib.error, lzma.LZMAError, zipfile.BadZipFile, tarfile.TarError, RuntimeError, ValueError)

# How a file begins that the library says nothing of, and what it is. It is looked at no further than the library does.
HEAD = 512
# The most bytes that a pattern file has.
MOST_BYTES = 2**30
IMAGE = "This is an image, not a pattern file."
OTHERS = (
    (b"\\(\xb5/\xfd", "This is a zstd file: unpack it first, with unzstd."),
    (b"7z\xbc\xaf\x27\x1c", "This is a 7z file: unpack it first, with 7z."),
    (b"Rar!\x1a\x07", "This is a rar file: unpack it first, with unrar."),
    (b"BM(?s:.{4})\0|RIFF(?s:.{4})WEBP|II\\*\0|MM\0\\*", IMAGE),
    (b"%PDF-", "This is a PDF file, so it is no pattern file."),
)
FORMATS = [(re.compile(beginning), what) for beginning, what in OTHERS]
ARCHIVE = re.compile(b"PK|(?s:.{257}ustar)")

# What is escaped in a name: control characters, those that end a line or turn the direction of text, and bytes that are no UTF-8 text.
HIDDEN = "\\x00-\\x1f\\x7f-\\x9f\\u061c\\u200e\\u200f\\u2028-\\u202e\\u2066-\\u2069\\udc80-\\udcff"
HIDDEN_IN_TEXT, HIDDEN_IN_NAME = re.compile(f"[{HIDDEN}]"), re.compile(rf"[{HIDDEN}\\]")
ESCAPE = re.compile(rb"\\(?:x([0-9a-f]{2})|(.))")
EQUALS = re.compile("(?<= )=|=(?= )")  # which would look like the one between two names


# ---- names, as the table and all lines have them


def text_of(name: bytes) -> str:
    r"""A name as it is written, here and in the table, so that it is one line and does nothing to a terminal. It is what the program writes on a terminal: a
    backslash as \\, LF as \n, CR as \r, and each byte of another character of HIDDEN as \xHH. `name_of` turns it back."""
    return HIDDEN_IN_NAME.sub(escaped, name.decode("utf-8", "surrogateescape"))


def escaped(found: "re.Match[str]") -> str:
    """A character of a name as it is escaped."""
    short = {"\\": "\\\\", "\n": "\\n", "\r": "\\r"}.get(found[0])
    return short or "".join(f"\\x{byte:02x}" for byte in found[0].encode("utf-8", "surrogateescape"))


def name_of(text: str) -> bytes:
    """The name that is written as this text: its bytes, as the system has them."""
    return ESCAPE.sub(lambda it: bytes.fromhex(it[1].decode()) if it[1] else {b"n": b"\n", b"r": b"\r"}.get(it[2], it[2]), text.encode())


def line_of(first: str, other: str) -> bytes:
    r"""The line of two files, whose texts these are. A `=` in a name with a space next to it is written as \x3d, so that there is one ` = `."""
    first, other = (EQUALS.sub(r"\\x3d", it) for it in (first, other))
    return f"{first} = {other}\n".encode()


def names_of(first: str, other: str) -> bytes:
    r"""The names of two files, as the system has them, each ended by NUL. A NUL that a name in an archive has is written as \x00."""
    return b"".join(name_of(it).replace(b"\0", b"\\x00") + b"\0" for it in (first, other))


# ---- what a worker does: from a share to its rows, by nothing but the share and the files


def name_in_zip(entry: zipfile.ZipInfo) -> bytes:
    """The bytes of a name in a zip. A name that has no flag for UTF-8 text is in the bytes of the system that made the zip, which Python takes for those of
    code page 437. That is right for DOS alone; a name of another system has its own bytes."""
    if entry.flag_bits & 0x800:
        return entry.filename.encode()
    raw = entry.filename.encode("cp437")
    return entry.filename.encode() if entry.create_system == 0 and not is_text(raw) else raw


def not_followed(target: str) -> bytes:
    """What reads a link of a tar."""
    raise ValueError(f"it is a link to {target}, which isn't followed")


def unpacked(data: bytes) -> bytes:
    """What gzip packed, up to one byte more than a pattern file may have."""
    with gzip.GzipFile(fileobj=io.BytesIO(data)) as it:
        return it.read(MOST_BYTES + 1)


def members_of(path: bytes) -> Iterator[Tuple[bytes, Callable[[], bytes]]]:
    """The files of an archive, each with a call that reads it: of a zip, or of a tar, which gzip, bzip2 or xz may have packed."""
    with open(path, "rb") as whole:
        if zipfile.is_zipfile(whole):
            with zipfile.ZipFile(whole) as packed:
                for it in packed.infolist():
                    if not it.is_dir():
                        yield name_in_zip(it), functools.partial(packed.read, it)
            return
        whole.seek(0)
        with tarfile.open(fileobj=whole, mode="r|*", encoding="utf-8", errors="surrogateescape") as archive:
            for entry in archive:
                name = entry.name.encode("utf-8", "surrogateescape")
                file = archive.extractfile(entry) if entry.isfile() else None
                if file is not None:
                    yield name, file.read
                elif entry.issym() or entry.islnk():
                    yield name, functools.partial(not_followed, entry.linkname)
                archive.members = []  # type: ignore[attr-defined]  # which would hold every entry until the end


def contents(path: bytes) -> bytes:
    """The bytes of a file."""
    with open(path, "rb") as file:
        return file.read()


def row_of(path: str, member: Optional[str], within: Optional[int], read: Callable[[], bytes]) -> Row:
    """The row of a file: its keys, with a warning where it probably isn't what its author meant, or why it has none. A file that gzip packed is
    unpacked."""
    import golly_canon  # the process that starts the run needs no library

    try:
        data = read()
        data = unpacked(data) if data[:2] == b"\x1f\x8b" else data
        with warnings.catch_warnings():  # the row has the warning
            warnings.simplefilter("ignore", golly_canon.PatternWarning)
            keys, fault = keys_of(data, within)
    except MemoryError:
        return row_without_key(path, member, within, "Memory", "Memory")
    except UNREAD as why:
        return row_without_key(path, member, within, "ReadFault", words_of_fault(why, name_of(path)))
    kind, line, said = fault or (None, None, golly_canon.warning_of(data))
    return (path, member, *keys, kind, line, said)


def forms_of(within: Optional[int]) -> Tuple[str, ...]:
    """The forms in which a pattern has a key, by the greatest period that is sought for phases, if there is one."""
    return FORMS[:-1] if within is None else FORMS


def keys_of(data: bytes, within: Optional[int]) -> Tuple[List[Key], Optional[Tuple[str, Optional[int], str]]]:
    """The key of a file in each form; and the kind and the line of the first fault, with what is said of it. A file that is refused in its place is refused in
    the other forms too, and these may refuse more (`Full`, and `OutOfPlane` for phases)."""
    import golly_canon

    keys: List[Key] = []
    fault = None
    for form in forms_of(within):
        try:
            keys.append(golly_canon.key(data, form, within=within if form == PHASES else None))
        except golly_canon.Refused as why:
            if not any(keys):
                return [None for _ in forms_of(within)], (why.kind, why.line, f"{why}: {why.sentence}{advice_of(why.kind, why.advice, data)}")
            keys.append(None)
            fault = fault or (why.kind, why.line, f"{form}: {why}: {why.sentence}")
    return keys, fault


def advice_of(kind: str, said: Optional[str], data: bytes) -> str:
    """What a refused file is, with a space before it, if it is something else than a pattern: what the library says of it, or one of FORMATS."""
    head = data[:HEAD]
    what = said if kind in UNFINISHED else next((what for beginning, what in FORMATS if beginning.match(head)), said)
    if what is None:
        return ""
    return f" {what} With --archive its files are read." if ARCHIVE.match(head) else f" {what}"


def row_without_key(path: str, member: Optional[str], within: Optional[int], kind: str, why: str) -> Row:
    """The row of a file that isn't read."""
    return (path, member, *(None for _ in forms_of(within)), kind, None, why)


def words_of_fault(why: BaseException, name: bytes) -> str:
    """Why a file can't be read: in the words of the program, or else what the system says."""
    if isinstance(why, UnicodeError):
        return "a name in the archive isn't UTF-8 text"
    if isinstance(why, OSError) and why.errno in (errno.EILSEQ, errno.EINVAL) and not is_text(name):
        return "the name isn't UTF-8 text"
    for kind, words in ((FileNotFoundError, "no such file"), (PermissionError, "permission denied"), (IsADirectoryError, "is a folder")):
        if isinstance(why, kind):
            return words
    said = why.strerror if isinstance(why, OSError) else None
    return text_of(os.fsencode(said or str(why))) or type(why).__name__


def is_text(name: bytes) -> bool:
    """Whether a name is UTF-8 text."""
    try:
        name.decode()
    except UnicodeError:
        return False
    return True


def rows_of(share: Share) -> List[Row]:
    """The rows of a share, in their order: the same ones wherever and however often it is done, if the files are the same."""
    _, folder, paths, is_archive, within = share
    rows: List[Row] = []
    for path in paths:
        place, name = os.path.join(folder, path), text_of(path)
        if not is_archive:
            rows.append(row_of(name, None, within, functools.partial(contents, place)))
            continue
        try:
            rows.extend(row_of(name, text_of(member), within, read) for member, read in members_of(place))
        except UNREAD as why:  # after the members that could be read
            rows.append(row_without_key(name, None, within, "ReadFault", words_of_fault(why, path)))
    return rows


def packed_rows_of(share: Share) -> bytes:
    """The rows of a share in one piece: to send them as so many tuples takes Dask a third of the time in which they are made."""
    return pickle.dumps(rows_of(share))


# ---- who does the shares: each of these takes shares, and gives what came of them in any order


def by_this_process(shares: Sequence[Share]) -> Iterator[Done]:
    """Does the shares here, one after another, without Dask."""
    for share in shares:
        try:
            found: Union[List[Row], str] = rows_of(share)
        except ImportError:  # the library isn't there, for any share
            raise
        except Exception as why:  # as Dask has it
            found = f"{type(why).__name__}: {why}"
        yield share[0], found


def by_dask(connect: Callable[[], Any]) -> Work:
    """Has the shares done by Dask's workers. `connect` makes a client, and is called again where the scheduler went away: what had not come by then
    is asked for anew."""
    from distributed import CancelledError

    def done(shares: Sequence[Share]) -> Iterator[Done]:
        left = {share[0]: share for share in shares}
        alive = time.monotonic()
        while left:
            try:
                with connect() as client:
                    for number, found in in_one_session(client, list(left.values())):
                        alive = time.monotonic()
                        del left[number]
                        yield number, found
            except (OSError, CancelledError) as why:
                if time.monotonic() - alive > PATIENCE:
                    raise
                tell(f"the scheduler is away, and is asked again ({type(why).__name__})")
                time.sleep(1)

    return done


def in_one_session(client: Any, shares: Sequence[Share]) -> Iterator[Done]:
    """What Dask's workers make of shares, two of which wait for each worker that is there."""
    from distributed import wait

    left = iter(shares)
    running: Dict[Any, int] = {}
    share = next(left, None)
    if not client.nthreads():
        tell("the scheduler has no workers yet")
    while share or running:
        ahead = 2 * sum(client.nthreads().values()) + 2
        while share and len(running) < ahead:
            running[client.submit(packed_rows_of, share, retries=TRIES - 1, pure=False)] = share[0]
            share = next(left, None)
        for future in wait(list(running), return_when="FIRST_COMPLETED").done:
            yield running.pop(future), found_of(future)


def found_of(future: Any) -> Union[List[Row], str]:
    """What Dask hands out for a share: its rows, or why it has none. Raises CancelledError or OSError where the scheduler goes away meanwhile."""
    from distributed import CancelledError

    why = future.exception()
    if why is not None:
        return f"{type(why).__name__}: {why}"
    try:
        return pickle.loads(future.result())
    except Exception as what:
        if future.cancelled():  # in the middle of that, where Dask raises whatever it has at hand
            raise CancelledError(future.key) from what
        raise


def dask_on(address: Optional[str], workers: int) -> Work:
    """Dask at the address of a scheduler, or with so many workers of this machine, each a process."""
    try:
        import distributed
    except ImportError:
        tell(WITHOUT_DASK)
        sys.exit(1)
    logging.disable(logging.CRITICAL)  # a worker or a scheduler that is lost is no news here
    if address is not None:
        return by_dask(lambda: distributed.Client(address, timeout=5))
    how = {"n_workers": workers, "threads_per_worker": 1, "dashboard_address": None, "silence_logs": logging.CRITICAL}
    # An interrupt from a terminal goes to the workers too, which end with this process: they, and what Python starts to count their semaphores, leave it
    # to this one to say so.
    os.environ["PYTHONWARNINGS"] = ",".join(filter(None, [os.environ.get("PYTHONWARNINGS"), "ignore:resource_tracker"]))
    before = signal.signal(signal.SIGINT, signal.SIG_IGN)
    try:
        cluster = distributed.LocalCluster(**how)
    finally:
        signal.signal(signal.SIGINT, before)
    return by_dask(lambda: distributed.Client(cluster))


# ---- the table, which this process alone writes


class Table:
    """The result in one SQLite file, which also says which shares are done.

    `file` has a row for each file, in the order of the list. `duplicates` has the files of which there is another one, once for each form in which they are
    the same pattern, each with the number of the first of them. `within` is the greatest period that is sought for the keys of phases. It is None for a table
    without these keys, which has the columns that each table had before there was this form.
    """

    def __init__(self, path: str, shares: Sequence[Share], form: str = FORM, within: Optional[int] = None) -> None:
        """Opens the table of these shares, or makes it: with the keys of phases if that is the form, or if there is a greatest period to seek. Raises
        ValueError where the file is another table, or lacks the keys of phases that are wanted."""
        self.database = sqlite3.connect(path, timeout=60, isolation_level=None)
        with self.database as it:
            it.execute("BEGIN IMMEDIATE")
            mark = digest_of(shares)
            if not it.execute("SELECT 1 FROM sqlite_master").fetchone():
                make_table(it, mark, len(shares), WITHIN if within is None and form == PHASES else within)
            columns = {name for _, name, *_ in it.execute("PRAGMA table_info(run)")}
            if "form" in columns:
                raise ValueError("it is a table of an older collection.py, with the keys of one form: name another table, or remove this one")
            if "list" not in columns or it.execute("SELECT list FROM run").fetchone() != (mark,):
                raise ValueError("it is the table of another list or size of shares: name another table, or remove this one")
            self.within: Optional[int] = it.execute("SELECT within FROM run").fetchone()[0] if "within" in columns else None
            self.columns = ("path", "member", *forms_of(self.within), "kind", "line", "why")
            if self.within is None and (within is not None or form == PHASES):
                raise ValueError("it has no keys in the form phases: name another table, or remove this one")
            if within not in (None, self.within):
                raise ValueError(f"it has the keys of phases within {self.within} generations: name another table, or remove this one")

    def left(self, shares: Sequence[Share]) -> List[Share]:
        """The shares that are not done, or in which a file couldn't be read, with the keys that this table has."""
        done = {number for number, in self.database.execute("SELECT number FROM share WHERE unread = 0")}
        return [(number, folder, paths, is_archive, self.within) for number, folder, paths, is_archive, _ in shares if number not in done]

    def take(self, number: int, rows: Sequence[Row]) -> None:
        """Puts the rows of a share into the table, all or none. A share that is done stays as it is."""
        first, unread = number << 32, sum(row[-3] in UNSETTLED for row in rows)
        with self.database as it:
            it.execute("BEGIN IMMEDIATE")
            if it.execute("SELECT 1 FROM share WHERE number = ? AND unread = 0", (number,)).fetchone():
                return
            it.execute("DELETE FROM file WHERE id >= ? AND id < ?", (first, first + (1 << 32)))
            it.executemany(f"INSERT INTO file VALUES ({', '.join('?' * (len(self.columns) + 1))})", ((at, *row) for at, row in enumerate(rows, first)))
            it.execute("INSERT OR REPLACE INTO share VALUES (?, ?, ?)", (number, len(rows), unread))

    def counted(self, form: str = FORM) -> Dict[str, int]:
        """How many files there are, how many of them have a key in a form, are refused or could not be read, and how many patterns and groups of duplicates."""
        self.order(form)
        marks = ", ".join(f"'{it}'" for it in UNSETTLED)
        row = self.database.execute(f"""SELECT count(*), count({form}), coalesce(sum({form} IS NULL AND kind NOT IN ({marks})), 0),
            coalesce(sum({form} IS NULL AND kind IN ({marks})), 0), count(DISTINCT {form}),
            (SELECT count(DISTINCT first) FROM duplicates WHERE form = '{form}') FROM file""").fetchone()
        return dict(zip(("files", "keys", "refused", "unread", "patterns", "groups"), row))

    def duplicates(self, form: str = FORM) -> Iterator[Tuple[str, str]]:
        """Each file that is the same pattern as an earlier one, in a form, after the first such one."""
        self.order(form)
        first = ""
        for number, own, path, member in self.database.execute(
                "SELECT first, id, path, member FROM duplicates WHERE form = ? ORDER BY first, id", (form,)):
            name = whole_name(path, member)
            if number == own:
                first = name
            else:
                yield first, name

    def unread(self) -> Iterator[Tuple[str, str]]:
        """Each file that couldn't be read, and why."""
        for path, member, why in self.database.execute("SELECT path, member, why FROM file WHERE kind IN (?, ?) ORDER BY id", UNSETTLED):
            yield whole_name(path, member), why

    def order(self, form: str) -> None:
        """Orders the files by their keys in a form, so that equal ones are found."""
        if form not in forms_of(self.within):
            raise ValueError(f"a form of this table is {', '.join(forms_of(self.within))}, and not {form!r}")
        self.database.execute(f"CREATE INDEX IF NOT EXISTS file_by_{form} ON file ({form})")

    def write_parquet(self, path: str) -> None:
        """Writes the rows of the files as Parquet, by pyarrow. The file is there when it is whole."""
        import pyarrow
        import pyarrow.parquet

        special = {"line": pyarrow.int64(), **{form: pyarrow.binary(32) for form in FORMS}}
        kinds = {name: special.get(name, pyarrow.string()) for name in self.columns}
        rows = self.database.execute(f"SELECT {', '.join(kinds)} FROM file ORDER BY id")
        with pyarrow.parquet.ParquetWriter(f"{path}.new", pyarrow.schema(kinds)) as writer:
            for some in iter(lambda: rows.fetchmany(100_000), []):
                writer.write_table(pyarrow.table({name: pyarrow.array(column, kind) for (name, kind), column in zip(kinds.items(), zip(*some))}))
        os.replace(f"{path}.new", path)


def make_table(database: sqlite3.Connection, mark: bytes, shares: int, within: Optional[int]) -> None:
    """Makes the tables of a run over so many shares, and the view of the duplicates. Where keys of phases are wanted there is a column for them, and one for
    the greatest period."""
    forms = forms_of(within)
    database.execute(f"CREATE TABLE run (list BLOB NOT NULL, shares INTEGER NOT NULL{'' if within is None else ', within INTEGER NOT NULL'})")
    database.execute("CREATE TABLE share (number INTEGER PRIMARY KEY, files INTEGER NOT NULL, unread INTEGER NOT NULL)")
    keys = ", ".join(f"{form} BLOB" for form in forms)
    database.execute(f"CREATE TABLE file (id INTEGER PRIMARY KEY, path TEXT NOT NULL, member TEXT, {keys}, kind TEXT, line INTEGER, why TEXT)")
    database.execute("CREATE VIEW duplicates AS " + " UNION ALL ".join(
        f"SELECT '{form}' AS form, first, id, path, member, {form} AS key FROM "
        f"(SELECT {form}, min(id) AS first FROM file WHERE {form} IS NOT NULL GROUP BY {form} HAVING count(*) > 1) JOIN file USING ({form})"
        for form in forms))
    row = (mark, shares) if within is None else (mark, shares, within)
    database.execute(f"INSERT INTO run VALUES ({', '.join('?' * len(row))})", row)


def whole_name(path: str, member: Optional[str]) -> str:
    """The text of a file's name, or of that of an archive and of a file in it."""
    return path if member is None else f"{path}/{member}"


# ---- the run


def digest_of(shares: Sequence[Share]) -> bytes:
    """What is different for two different lists of shares, by their whole paths."""
    found = hashlib.sha256()
    for number, folder, paths, is_archive, _ in shares:
        found.update(f"{number} {is_archive}\0".encode())
        found.update(b"".join(os.path.join(folder, it) + b"\0" for it in paths))
    return found.digest()


def shares_of(paths: Sequence[Union[str, bytes]], is_archive: bool, size: int = SIZE) -> List[Share]:
    """A list in shares. An archive is one by itself, since its files are found by reading it."""
    size, folder = 1 if is_archive else size, os.getcwdb()
    return [(number, folder, tuple(map(os.fsencode, paths[at:at + size])), is_archive, None) for number, at in enumerate(range(0, len(paths), size))]


def listed(file: BinaryIO) -> List[bytes]:
    """The paths of a list: one on each line, or with a NUL after each, as `find -print0` writes them."""
    data = file.read()
    return [it for it in data.split(b"\0" if b"\0" in data else b"\n") if it]


def shown(argument: Union[str, bytes]) -> str:
    """A file that an argument or a list names, as it is written."""
    return text_of(os.fsencode(argument))


def tell(what: str) -> None:
    """Writes a line to standard error, as far as that takes it."""
    if sys.stderr is None:  # it was closed from the start
        return
    try:
        print(f"collection: {HIDDEN_IN_TEXT.sub(escaped, what)}", file=sys.stderr, flush=True)
    except OSError:
        sys.stderr = None  # type: ignore[assignment]  # so that nothing is tried again at the end


def run(table: Table, shares: Sequence[Share], work: Work) -> List[int]:
    """Does the shares that are left, and returns the numbers of those that failed, of which a run tolerates MOST_FAILED."""
    failed: List[int] = []
    start = spoken = time.monotonic()
    files = 0
    for count, (number, found) in enumerate(work(shares), 1):
        if isinstance(found, str):
            tell(f"share {number} ({shares_text(shares, number)}) isn't done: {found}")
            failed.append(number)
            if len(failed) == MOST_FAILED:
                break
        else:
            table.take(number, found)
            files += len(found)
            for path, member, *_, kind, _, why in found:
                if kind is None and why is not None:
                    tell(f"warning: {whole_name(path, member)}: {why}")
        if time.monotonic() - spoken > SPOKEN:
            spoken = time.monotonic()
            tell(f"{count} of {len(shares)} shares, {files} files, {files / (spoken - start):.0f} in a second")
    return failed


def shares_text(shares: Sequence[Share], number: int) -> str:
    """The first and the last path of a share."""
    paths = next(it[2] for it in shares if it[0] == number)
    return text_of(paths[0]) if len(paths) == 1 else f"{text_of(paths[0])} to {text_of(paths[-1])}"


def write_duplicates(table: Table, form: str, is_zero: bool) -> None:
    """Writes the duplicates in a form to standard output. Raises OSError where it takes no more."""
    if sys.stdout is None:  # it was closed from the start
        raise OSError(errno.EBADF, "it is closed")
    written = names_of if is_zero else line_of
    with open(sys.stdout.fileno(), "wb", closefd=False) as output:
        for first, other in table.duplicates(form):
            output.write(written(first, other))


def status_of_output(why: OSError, more: str) -> int:
    """The status where standard output takes no more, after a line that says so, unless its reader has left."""
    if isinstance(why, BrokenPipeError):
        return LEFT
    tell(f"standard output can't be written: {why.strerror}{more}")
    return 1


class Parser(argparse.ArgumentParser):
    """A parser whose errors show arguments as names are written. It ends quietly where its texts can't be written."""

    def error(self, message: str) -> Any:
        super().error(HIDDEN_IN_TEXT.sub(escaped, message))

    def _print_message(self, message: str, file: Any = None) -> None:
        if file is None:  # it was closed from the start
            return
        try:
            print(message, end="", file=file, flush=True)
        except OSError as why:
            if file is not sys.stdout:
                sys.stderr = None  # type: ignore[assignment]
                return
            sys.stdout = None  # type: ignore[assignment]  # so that nothing is tried again at the end
            sys.exit(status_of_output(why, ""))


def words_of(arguments: Optional[Sequence[str]]) -> argparse.Namespace:
    """The arguments."""
    program = os.path.basename(sys.argv[0])
    parser = Parser(
        prog=program, description="The keys and the duplicates of a collection of pattern files, in one SQLite table. Each duplicate is written as "
        "`FIRST = OTHER`.", epilog="The status is 0; 1 where a share isn't done, a file can't be read or the output can't be written; 2 for arguments "
        "that can't be followed; 130 after Ctrl-C; 141 where the reader of the output has left. The same command continues a run that was cut off, and tries "
        "again what couldn't be read. A file that seems to have lost its line ends, or has a line such as `#RB36/S23`, has a warning, here and in the "
        "column `why`.")
    parser.add_argument("files", nargs="*", metavar="FILE", help="a pattern file, which gzip may have packed; with --archive an archive of them")
    parser.add_argument("--from", dest="list", metavar="LIST", help="takes the paths from a file: one on a line, or a NUL after each; - is standard input")
    parser.add_argument("--archive", action="store_true", help="each FILE is a zip or a tar, also one that is packed by gzip, bzip2 or xz")
    parser.add_argument("--form", choices=FORMS, default=FORM, help="which files are duplicates: those of one pattern as it lies (placed), wherever it is "
                        f"(moved), however it is turned or reflected too (turned), or in whichever phase too (phases); {FORM} if none is named. The table "
                        "has the keys of the first three, and those of phases if it is made with --form phases or with --within")
    parser.add_argument("--within", type=int, metavar="MOST", help="makes the table with the keys of phases too, for which a period is sought up to MOST "
                        f"generations, from 1 to 2^31 - 1; {WITHIN} if --form phases is given without it")
    parser.add_argument("--zero", action="store_true", help="writes each duplicate as two names that each end in NUL, FIRST and OTHER, without escapes")
    parser.add_argument("--table", required=True, metavar="OUT.sqlite", help="the table, which is made, or goes on")
    parser.add_argument("--parquet", metavar="OUT.parquet", help="writes the rows of the files as Parquet too, which takes pyarrow")
    parser.add_argument("--share", type=int, default=SIZE, metavar="FILES", help=f"the files of a share, {SIZE} if no number is named")
    who = parser.add_mutually_exclusive_group()
    who.add_argument("--workers", type=int, metavar="N", help="so many processes of this machine, one for each processor if no number is named; 0 "
                     "does all in this one, without Dask")
    who.add_argument("--scheduler", metavar="ADDRESS", help="the workers of a Dask scheduler, as tcp://host:8786")
    words = parser.parse_args(arguments)
    if bool(words.files) == (words.list is not None):
        parser.error("name files, or a list by --from")
    folder = next(filter(os.path.isdir, words.files), None)
    if folder is not None:
        parser.error(f"{shown(folder)} is a folder: name its files, as find {shown(folder)} -type f -print0 | {program} --from - does")
    if words.share < 1 or (words.workers or 0) < 0:
        parser.error("--share takes a number above 0, and --workers one of 0 or more")
    if words.within is not None and not 1 <= words.within <= MOST_WITHIN:
        parser.error("--within takes a number from 1 to 2^31 - 1")
    if words.parquet is not None:
        try:
            import pyarrow.parquet  # noqa: F401
        except ImportError:
            parser.error("--parquet takes pyarrow, which isn't installed")
    if words.list is not None:
        try:
            with open(0 if words.list == "-" else words.list, "rb", closefd=words.list != "-") as it:
                words.files = listed(it)
        except OSError as why:
            parser.error(f"{shown(words.list)}: {why.strerror}")
    return words


def main(arguments: Optional[Sequence[str]] = None) -> int:
    words = words_of(arguments)
    shares = shares_of(words.files, words.archive, words.share)
    workers = os.cpu_count() or 1 if words.workers is None else words.workers
    wants_dask = words.scheduler is not None or workers > 0
    if wants_dask and not os.path.exists(words.table) and importlib.util.find_spec("distributed") is None:
        tell(WITHOUT_DASK)  # before there is a table, so that the next command may have another list
        return 1
    try:
        table = Table(words.table, shares, words.form, words.within)
    except (sqlite3.Error, ValueError) as why:
        tell(f"{shown(words.table)}: {why}")
        return 2
    left = table.left(shares)
    failed: List[int] = []
    try:
        if left:  # else no worker is wanted
            failed = run(table, left, dask_on(words.scheduler, workers) if wants_dask else by_this_process)
        counted = table.counted(words.form)
        if words.parquet is not None:
            table.write_parquet(words.parquet)
    except (ImportError, OSError, sqlite3.Error) as why:  # no library, no scheduler for long, or a disk that is full
        where = " (docs/LIBRARY.md says where it is looked for)" if isinstance(why, ImportError) else ""
        tell(f"{why}{where}; the same command continues where it was")
        return 1
    try:
        write_duplicates(table, words.form, words.zero)
    except OSError as why:
        return status_of_output(why, "; the table is whole, and the same command writes the duplicates again")
    for name, why_unread in table.unread():
        tell(f"unread: {name}: {why_unread}")
    tell(f"{', '.join(f'{number} {name}' for name, number in counted.items())} in the form {words.form}")
    return 1 if failed or counted["unread"] else 0


def command() -> int:
    """Does what the arguments of the process ask for, and returns the status. Ctrl-C ends the process with one line."""
    try:
        return main()
    except KeyboardInterrupt:
        tell("interrupted; the same command continues where it was")
        os._exit(130)  # at once: what Dask would say of its end helps nobody, and its workers end with this process


if __name__ == "__main__":
    sys.exit(command())
