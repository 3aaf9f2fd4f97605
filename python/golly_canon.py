"""One canonical text for each cellular-automaton pattern, by the proved library libgolly_canon.

A pattern file is bytes in extended RLE or in macrocell. Two files have the same canonical text exactly if they are the same pattern:

    >>> import golly_canon
    >>> golly_canon.canon(b"x = 3, y = 3, rule = 23/3\\nbo$2bo$3o!\\n")
    b'[M2] (canonical 1)\\n#R B3/S23\\n$$$$.....*$......*$....***$$\\n'
    >>> golly_canon.canon(b"[M2]\\n4 0 0 0 9\\n")
    Traceback (most recent call last):
      ...
    golly_canon.Refused: line 2: BadChild

A pattern has four forms, each with its canonical text: `placed`, as it lies; `moved`, with its bounding box at (0, 0), which two files share
exactly if they are one pattern wherever it is; `turned`, which they share exactly if they are one pattern however it is turned or reflected too; and `phases`,
which all phases of an oscillator or a spaceship share too. `key` is the SHA-256 of such a text, for a table of many files:

    >>> golly_canon.key(b"x = 3, y = 3\\nbo$2bo$3o!\\n", "turned") == golly_canon.key(b"#CXRLE Pos=9,9\\nx = 3, y = 3\\n3o$2bo$bo!\\n", "turned")
    True

For `phases` the period of a pattern under its B/S rule is sought up to `within` generations, or up to 128 if you don't give `within`. The text has no
generation. A pattern with no period up to there, or whose rule is a name, has its turned text in generation 0:

    >>> golly_canon.same(b"x = 3, y = 3\\nbo$2bo$3o!\\n", b"x = 3, y = 3\\nobo$b2o$bo!\\n", "phases")
    True

`keys` takes the paths of many files, and goes on where one of them is refused:

    for it in golly_canon.keys(["glider.mc", "glider.rle"], "turned"):
        print(it.path, it.why if it.key is None else it.key.hex())

`pattern_keys` does the same for patterns that are in no file, but come one after the other as bytes, any number of them.

A file that is refused raises `Refused`, which says what the file is, if it is no pattern but for example packed by gzip. A file that seems damaged, because it
has lost its line ends or its last rows, is read as the formats say, and a `PatternWarning` is issued. Threads may call at the same time; a `Stream` is used
and closed only by the thread that made it.

The library is found where the environment variable GOLLY_CANON_LIBRARY says, else beside this module, as in a wheel, else where the system looks for
it, else in PREFIX/lib of PREFIX/share/golly_canon, or in out/library of the repository. Where it isn't found, the import fails.
"""

import ctypes
import operator
import os
import secrets
import threading
import warnings
from typing import Any, BinaryIO, Callable, Iterable, Iterator, Literal, NamedTuple, Optional, Union

__all__ = ["Box", "Form", "Keyed", "KeyedPattern", "PatternWarning", "Refused", "Shown", "Stream", "SQUARES", "canon", "key", "keys", "pattern_keys", "same",
           "sentence_of", "show", "step", "stream", "stream_key", "to_rle", "warning_of"]
__version__ = "0.2.0"

Bytes = Union[bytes, bytearray, memoryview]
Path = Union[str, bytes, "os.PathLike[str]", "os.PathLike[bytes]"]
Form = Literal["placed", "moved", "turned", "phases"]

#: The limit of a call, if none is given: so many different squares, as the program has it. Beyond it a file is refused as `Full`. To read a file
#: `14 * length + 264` suffices, and for two files the sum of both; the squares of a next generation, and of a moved pattern, come on top.
SQUARES = 1 << 31

_NAME = "libgolly_canon.so.1"
_HERE = os.path.dirname(os.path.abspath(__file__))
_PLACES = [os.path.join(_HERE, _NAME), _NAME, os.path.join(_HERE, "..", "..", "lib", _NAME), os.path.join(_HERE, "..", "out", "library", _NAME)]
_CHUNK = 1 << 16
_FORMS = ("placed", "moved", "turned", "phases")  # by their numbers, but for the last one: its number is _PHASES and the greatest period that is sought
_PHASES, _WITHIN = 1 << 31, 128
_GIVEN = ("canon", "to_rle", "show", "step")
_AMBIGUOUS, _NO_ROOM = 43, 64
_HEAD = 512  # the bytes of a file by which the library says what it is
_SEED = secrets.randbits(64)  # so that no file can be made that takes long to read


class _Struct(ctypes.Structure):
    """A stream, as the header declares it."""

    _fields_ = [("is_open", ctypes.c_uint32), ("session", ctypes.c_void_p)]


# How the header declares each call.
_NUMBER, _FORM, _BYTES = ctypes.c_uint64, ctypes.c_uint32, [ctypes.c_char_p, ctypes.c_size_t]
_OUT = [ctypes.c_char_p, ctypes.c_size_t, ctypes.POINTER(ctypes.c_size_t)]
_LINE, _FLAG, _STREAM = ctypes.POINTER(ctypes.c_uint64), ctypes.POINTER(ctypes.c_uint32), ctypes.POINTER(_Struct)
_CALLS = {
    **{f"open_{it}": [_STREAM, _NUMBER, _NUMBER] for it in _GIVEN},
    "open_canon_form": [_STREAM, _FORM, _NUMBER, _NUMBER],
    "open_step_generations": [_STREAM, _NUMBER, _NUMBER, _NUMBER],
    "feed": [_STREAM, *_BYTES, _LINE],
    "finish": [_STREAM, *_OUT, _LINE],
    "finish_key": [_STREAM, *_OUT, _LINE],
    "close": [_STREAM],
    "key": [*_BYTES, _FORM, _NUMBER, _NUMBER, *_OUT, _LINE],
    "same_form": [*_BYTES, *_BYTES, _FORM, _NUMBER, _NUMBER, _FLAG, _LINE],
    "step_by_table": [*_BYTES, *_BYTES, _NUMBER, _NUMBER, *_OUT, _LINE, _FLAG],
    "advice": [ctypes.c_uint32, *_BYTES, ctypes.c_uint32, *_OUT],
    "warning": [*_BYTES, *_OUT],
    "stream_warning": [_STREAM, *_OUT],
    "status_name": [ctypes.c_uint32, *_OUT],
    "sentence": [ctypes.c_uint32, *_OUT],
    "version": _OUT,
}


def _loaded_from(place: str) -> ctypes.CDLL:
    """The library of a file. One whose calls could be others is refused: the first two numbers of its version are those of this module."""
    library = ctypes.CDLL(place)
    for name, arguments in _CALLS.items():
        call = getattr(library, f"golly_canon_{name}")
        call.argtypes, call.restype = arguments, None if name == "close" else ctypes.c_uint32
    version, needed = ctypes.create_string_buffer(32), ctypes.c_size_t()
    library.golly_canon_version(version, len(version), ctypes.byref(needed))
    if version.value.decode("ascii").split(".")[:2] != __version__.split(".")[:2]:
        raise OSError(f"its version is {version.value.decode('ascii')}, and that of the module {__version__}")
    return library


def _loaded() -> ctypes.CDLL:
    """The library, from the first place that has it."""
    named = os.environ.get("GOLLY_CANON_LIBRARY")
    tried = []
    for place in [named] if named else map(os.path.normpath, _PLACES):
        try:
            return _loaded_from(place)
        except (OSError, AttributeError) as why:
            tried.append(f"{place} ({why})")
    raise ImportError("the library of golly_canon isn't found. `make library` builds it, and GOLLY_CANON_LIBRARY can name its file. "
                      f"Tried: {'; '.join(tried)}")


_library = _loaded()


class Refused(Exception):
    """Why a file, a rule table or a pattern is refused.

    `kind` is the name of the kind of fault, as docs/FORMATS.md has it. `line` is the line of the file, counted from 1, or None where the fault is of
    no line. With `in_table` it is a line of the rule table. As a text it is the line that the program writes, as `line 4: BadChild`. `sentence` says in
    a sentence what the kind means. `advice` says what the file is, if it is something else than a pattern, and what to do: `This is a gzip file: unpack it
    first, with gunzip.` It is None for any other file. `reason` is both of them, as `golly_canon keys` writes them.
    """

    def __init__(self, kind: str, line: Optional[int] = None, in_table: bool = False, advice: Optional[str] = None) -> None:
        super().__init__(kind, line, in_table, advice)
        self.kind = kind
        self.line = line
        self.in_table = in_table
        self.advice = advice

    @property
    def sentence(self) -> str:
        """What the kind means, in a sentence: what `sentence_of` returns."""
        return sentence_of(self.kind)

    @property
    def reason(self) -> str:
        """The sentence, and the advice, if there is one."""
        return self.sentence if self.advice is None else f"{self.sentence} {self.advice}"

    def __str__(self) -> str:
        return self.kind if self.line is None else f"{'table ' if self.in_table else ''}line {self.line}: {self.kind}"


class PatternWarning(UserWarning):
    """A file is read as the formats say, and that probably isn't what its author meant: `warning_of` has the cases."""


class Keyed(NamedTuple):
    """What `keys` finds of a file: its path as it was given; its key, 32 bytes; or why it has none, a `Refused` or an `OSError`; and a warning."""

    path: Path
    key: Optional[bytes]
    why: Optional[Exception]
    warning: Optional[str]


class KeyedPattern(NamedTuple):
    """What `pattern_keys` finds of a pattern: its number, from 1 on; its key, 32 bytes; or why it has none, a `Refused`; and a warning."""

    number: int
    key: Optional[bytes]
    why: Optional[Refused]
    warning: Optional[str]


class Box(NamedTuple):
    """The bounding box of the cells that aren't 0. `top` is the row with the least number, as y grows downwards."""

    left: int
    top: int
    width: int
    height: int


class Shown(NamedTuple):
    """What a pattern file holds: the rule in its canonical form, the generation, how many cells aren't 0, their bounding box (None without
    such cells), and how many squares the canonical text has, a line each."""

    rule: str
    generation: int
    population: int
    box: Optional[Box]
    nodes: int

    @classmethod
    def of(cls, text: bytes) -> "Shown":
        """Reads the five lines that `show` of the program writes, and a stream that was opened for `show` gives."""
        rule, generation, population, box, nodes = (line.partition(" ")[2] for line in text.decode("ascii").splitlines())
        return cls(rule, int(generation), int(population), None if box == "none" else Box(*map(int, box.split())), int(nodes))


def _bytes_of(data: Bytes) -> bytes:
    """The bytes of what is given as a file."""
    return data if isinstance(data, bytes) else bytes(memoryview(data))


def warning_of(data: Bytes) -> Optional[str]:
    """What seems damaged in a file that is accepted, as `golly_canon keys` says it; None where nothing does. Of macrocell: the first line has a carriage return
    inside it, or there is no line of squares, as where the line ends were lost; or a line such as `#RB36/S23` or `#G7` before the squares is a comment, but a
    rule or a generation in Golly. Of RLE: the header gives a size, but no cell is alive; or there is no `!`, and fewer rows than the header says; or another
    header follows the `!`."""
    file = _bytes_of(data)
    return _text_of("warning", file, len(file)) or None


def _warn(warning: Optional[str], level: int) -> None:
    """Issues a warning, if there is one, for the caller of the function so many levels above."""
    if warning is not None:
        warnings.warn(warning, PatternWarning, stacklevel=level + 1)


def _text_of(call: str, *arguments: Any) -> str:
    """The name or the sentence that a call of the library gives."""
    text, needed = ctypes.create_string_buffer(256), ctypes.c_size_t()
    getattr(_library, f"golly_canon_{call}")(*arguments, text, len(text), ctypes.byref(needed))
    return text.raw[: needed.value].decode("ascii")


def _refused(status: int, line: int, file: bytes, table: Optional[bytes] = None) -> Refused:
    """What a status says of a file, or of the rule table, if the fault is of that one. The first bytes are enough."""
    it = file if table is None else table
    advice = _text_of("advice", status, it[:_HEAD], min(len(it), _HEAD), table is not None)
    return Refused(_text_of("status_name", status), line or None, bool(line) and table is not None, advice or None)


def sentence_of(kind: str) -> str:
    """What a kind of fault means, in a sentence of English, as `golly_canon keys` writes it after the kind: of `ZeroCount` it is `A count is 0.` That of `Full`
    speaks of the limit that the program has. A name that is no kind raises `ValueError`."""
    for status in range(1, _NO_ROOM):
        if kind and _text_of("status_name", status) == kind:
            return _text_of("sentence", status)
    raise ValueError(f"no kind of fault has the name {kind!r}")


class Stream:
    """A pattern file that comes in chunks, cut anywhere, which need not be held.

        with golly_canon.Stream() as file:
            for chunk in chunks:
                file.feed(chunk)
            text = file.finish()  # and file.finish_key()

    `gives` says what comes of it: `canon`, `to_rle`, `show` or `step`; `form` and `within` are those of the text of `canon`, and `generations` is how many
    `step` makes, as the function `step` has it. `limit` is the most different squares that it may store: `14 * length + 264` suffices to read, with the length
    of all that is fed.
    """

    _level = 2  # the caller of `finish`, to whom a warning goes

    def __init__(self, gives: str = "canon", *, form: Form = "placed", within: Optional[int] = None, generations: Optional[int] = None,
                 limit: int = SQUARES) -> None:
        self._head = b""
        self._struct, self._line, self._thread = _Struct(), ctypes.c_uint64(), threading.get_ident()
        if gives not in _GIVEN:
            raise ValueError(f"a stream gives canon, to_rle, show or step, and not {gives!r}")
        if generations is not None and gives != "step":
            raise ValueError(f"generations are for step, and not for {gives}")
        number = _number_of(form, within)
        if gives == "canon":
            status = _library.golly_canon_open_canon_form(self._own(), number, _limit_of(limit), _SEED)
        elif form != "placed":
            raise ValueError(f"{gives} takes a pattern as it lies")
        elif generations is not None:
            status = _library.golly_canon_open_step_generations(self._own(), _generations_of(generations), _limit_of(limit), _SEED)
        else:
            status = getattr(_library, f"golly_canon_open_{gives}")(self._own(), _limit_of(limit), _SEED)
        self._check(status)

    def _own(self) -> Any:
        """The stream as a call takes it, in the thread that made it."""
        if threading.get_ident() != self._thread:
            raise RuntimeError("a stream is used by the thread that made it alone")
        return ctypes.byref(self._struct)

    def _check(self, status: int) -> None:
        if status:
            raise _refused(status, self._line.value, self._head)

    def _warn(self) -> None:
        """Issues the warning of the file that has ended, for the caller of the function that ends it."""
        _warn(_text_of("stream_warning", self._own()) or None, self._level + 1)

    def feed(self, chunk: Bytes) -> None:
        """Takes the next chunk. A line is refused with the chunk in which it ends, and then each further chunk and the end are refused alike."""
        data = _bytes_of(chunk)
        if len(self._head) < _HEAD:
            self._head += data[: _HEAD - len(self._head)]
        self._check(_library.golly_canon_feed(self._own(), data, len(data), ctypes.byref(self._line)))

    def finish(self) -> bytes:
        """Ends the file, and returns the text. Called again it returns the same."""
        room, needed = 0, ctypes.c_size_t()
        status = _NO_ROOM
        while status == _NO_ROOM:  # the second time with the memory that the text needs
            text = ctypes.create_string_buffer(room)
            out = text, room, ctypes.byref(needed), ctypes.byref(self._line)
            status = _library.golly_canon_finish(self._own(), *out)
            room = needed.value
        self._check(status)
        self._warn()
        return text.raw

    def finish_key(self) -> bytes:
        """Ends the file, and returns the key of the text that `finish` returns: its SHA-256, 32 bytes. Both can be called, in any order and again."""
        digits, needed = ctypes.create_string_buffer(64), ctypes.c_size_t()
        self._check(_library.golly_canon_finish_key(self._own(), digits, len(digits), ctypes.byref(needed), ctypes.byref(self._line)))
        self._warn()
        return bytes.fromhex(digits.raw.decode("ascii"))

    def close(self) -> None:
        """Gives the memory of the stream back. A closed one refuses each further call as `Spent`."""
        _library.golly_canon_close(self._own())

    def __enter__(self) -> "Stream":
        return self

    def __exit__(self, *_: object) -> None:
        self.close()

    def __del__(self) -> None:
        if threading.get_ident() == self._thread:
            self.close()


def _limit_of(limit: int) -> int:
    """A limit as a call takes it."""
    if limit < 0:
        raise ValueError("a limit is a number of squares")
    return min(limit, 1 << 62)


def _generations_of(generations: int) -> int:
    """A number of generations as a call takes it."""
    if not 0 <= generations < 1 << 64:
        raise ValueError("generations are a number from 0 to 2^64 - 1")
    return generations


def _number_of(form: Form, within: Optional[int]) -> int:
    """The number of a form, which for `phases` has the greatest period that is sought."""
    if form not in _FORMS:
        raise ValueError(f"a form is placed, moved, turned or phases, and not {form!r}")
    if form != "phases":
        if within is not None:
            raise ValueError("within is for form='phases' alone")
        return _FORMS.index(form)
    most = _WITHIN if within is None else operator.index(within)
    if not 1 <= most < _PHASES:
        raise ValueError("within is a number of generations from 1 to 2^31 - 1")
    return _PHASES + most


def _chunks_of(source: Union[BinaryIO, Iterable[Bytes]]) -> Iterator[Bytes]:
    """The chunks of an open file, or the chunks that were given."""
    read = getattr(source, "read", None)
    return iter(source) if read is None else iter(lambda: read(_CHUNK), b"")


def stream(source: Union[BinaryIO, Iterable[Bytes]], gives: str = "canon", *, form: Form = "placed", within: Optional[int] = None,
           generations: Optional[int] = None, limit: int = SQUARES) -> bytes:
    """The text of a file that comes in chunks: of a file that is open for reading in binary, or of an iterable of chunks.

    `gives` is `canon`, `to_rle`, `show` or `step`; `form` and `within` are those of the text of `canon`, and `generations` is how many `step` makes. What it
    reads is not held. Raises `Refused`.
    """
    return _streamed(source, gives, 3, form=form, within=within, generations=generations, limit=limit)


def stream_key(source: Union[BinaryIO, Iterable[Bytes]], form: Form = "placed", *, within: Optional[int] = None, limit: int = SQUARES) -> bytes:
    """The key of a file that comes in chunks, as `stream` takes them: what `key` returns for the whole file. Raises `Refused`."""
    return _streamed(source, "canon", 3, Stream.finish_key, form=form, within=within, limit=limit)


def _streamed(source: Union[BinaryIO, Iterable[Bytes]], gives: str, level: int, end: Callable[[Stream], bytes] = Stream.finish, **options: Any) -> bytes:
    """What the end of a stream with these options gives, for a caller so many levels above."""
    with Stream(gives, **options) as file:
        file._level = level + 1
        for chunk in _chunks_of(source):
            file.feed(chunk)
        return end(file)


def canon(data: Bytes, form: Form = "placed", *, within: Optional[int] = None, limit: int = SQUARES) -> bytes:
    """The canonical text of the pattern of a file, in a form. Raises `Refused`, also of a pattern whose form has more than 2^21 different squares
    (`Full`), unless the form is `placed`; and for `phases` of a pattern that leaves the plane before its period is found (`OutOfPlane`). `within` is for
    `phases` alone: the greatest period that is sought, from 1 to 2^31 - 1, and 128 if none is given."""
    return _streamed([data], "canon", 3, form=form, within=within, limit=limit)


def key(data: Bytes, form: Form = "placed", *, within: Optional[int] = None, limit: int = SQUARES) -> bytes:
    """The SHA-256 of the text that `canon` gives, 32 bytes; `.hex()` is what `sha256sum` writes of it. Raises `Refused` as `canon` does."""
    file = _bytes_of(data)
    found = _key(file, _number_of(form, within), limit)
    _warn(warning_of(file), 2)
    return found


def _key(file: bytes, number: int, limit: int) -> bytes:
    """The same of the form with this number, without a warning."""
    found, needed, line = ctypes.create_string_buffer(32), ctypes.c_size_t(), ctypes.c_uint64()
    out = found, len(found), ctypes.byref(needed), ctypes.byref(line)
    status = _library.golly_canon_key(file, len(file), number, _limit_of(limit), _SEED, *out)
    if status:
        raise _refused(status, line.value, file)
    return found.raw


def keys(paths: Iterable[Path], form: Form = "placed", *, within: Optional[int] = None, limit: int = SQUARES) -> Iterator[Keyed]:
    """The key of each of these files, in their order: what `key` gives, or why the file has none. It goes on where a file is refused or can't be read, and
    holds one file at a time. Files with equal keys are duplicates:

        groups = {}
        for it in golly_canon.keys(paths, "turned"):
            if it.key is not None:
                groups.setdefault(it.key, []).append(it.path)

    Raises `TypeError` for a path alone in place of paths.
    """
    if isinstance(paths, (str, bytes, os.PathLike)):
        raise TypeError(f"paths are the paths of files, and not one path: {paths!r}")
    number, _ = _number_of(form, within), _limit_of(limit)  # refused here, and not in the middle of the files
    return (_keyed(path, number, limit) for path in paths)


def _keyed(path: Path, number: int, limit: int) -> Keyed:
    """The key of one file in the form with this number."""
    try:
        with open(path, "rb") as file:
            data = file.read()
        return Keyed(path, _key(data, number, limit), None, warning_of(data))
    except (OSError, Refused) as why:
        return Keyed(path, None, why.with_traceback(None), None)  # whose frames would hold the file


def pattern_keys(patterns: Iterable[Bytes], form: Form = "placed", *, within: Optional[int] = None, limit: int = SQUARES) -> Iterator[KeyedPattern]:
    """The key of each of these patterns, in their order: what `key` gives for the bytes of its file, or why it has none. `golly_canon keys --stream` writes the
    same. It goes on where a pattern is refused, takes each pattern when it is asked for its key, and holds one at a time, so `patterns` may be a generator
    that never ends:

        for it in golly_canon.pattern_keys(soups(), "turned"):
            print(it.number, it.why if it.key is None else it.key.hex())

    Raises `TypeError` where `patterns` isn't an iterable of bytes, such as one pattern alone, or an open file, which is an iterable of lines.
    """
    if isinstance(patterns, (str, bytes, bytearray, memoryview)):
        raise TypeError(f"patterns are the bytes of one pattern after another, and not one {type(patterns).__name__}: put it into a list")
    if hasattr(patterns, "read"):
        raise TypeError("patterns are the bytes of one pattern after another, and not an open file, which gives lines")
    try:
        given = iter(patterns)
    except TypeError:
        raise TypeError(f"patterns are the bytes of one pattern after another, and not {type(patterns).__name__}") from None
    number_of_form, _ = _number_of(form, within), _limit_of(limit)  # refused here, and not in the middle of the patterns
    return _pattern_keys(given, number_of_form, limit)


def _pattern_keys(patterns: Iterator[Bytes], number_of_form: int, limit: int) -> Iterator[KeyedPattern]:
    """The same without a look at what is given."""
    number = 0
    for data in patterns:
        number += 1
        found = _keyed_pattern(number, data, number_of_form, limit)
        del data  # it isn't held until there is another one
        yield found


def _keyed_pattern(number: int, data: Bytes, number_of_form: int, limit: int) -> KeyedPattern:
    """The key of the pattern with this number."""
    try:
        file = _bytes_of(data)
    except TypeError:
        raise TypeError(f"patterns are bytes, and pattern {number} is {type(data).__name__}") from None
    try:
        return KeyedPattern(number, _key(file, number_of_form, limit), None, warning_of(file))
    except Refused as why:
        return KeyedPattern(number, None, why.with_traceback(None), None)  # whose frames would hold the pattern


def to_rle(data: Bytes, *, limit: int = SQUARES) -> bytes:
    """The pattern of a file in extended RLE. Raises `Refused`, also of a pattern with more than 2^20 cells that aren't 0 (`TooManyCells`)."""
    return _streamed([data], "to_rle", 3, limit=limit)


def show(data: Bytes, *, limit: int = SQUARES) -> Shown:
    """What a pattern file holds. Raises `Refused`."""
    return Shown.of(_streamed([data], "show", 3, limit=limit))


def same(first: Bytes, second: Bytes, form: Form = "placed", *, within: Optional[int] = None, limit: int = SQUARES) -> bool:
    """Whether two files are one pattern, in a form: whether `canon` gives one text of them. Raises `Refused` for the first file where that is refused,
    and else for the second. Two turned patterns of different generations are different whatever their cells are."""
    one, other, number = _bytes_of(first), _bytes_of(second), _number_of(form, within)
    is_same, line = ctypes.c_uint32(), ctypes.c_uint64()
    answered = ctypes.byref(is_same), ctypes.byref(line)
    status = _library.golly_canon_same_form(one, len(one), other, len(other), number, _limit_of(limit), _SEED, *answered)
    if status:
        raise _refused(status, line.value, one if _is_refused(one, status, line.value, number, limit) else other)
    _warn(warning_of(one) or warning_of(other), 2)
    return bool(is_same.value)


def _is_refused(file: bytes, status: int, line: int, number: int, limit: int) -> bool:
    """Whether a file is refused with this status and line when its key is made alone, in the form with this number."""
    out = ctypes.create_string_buffer(32), 32, ctypes.byref(ctypes.c_size_t())
    at = ctypes.c_uint64()
    return _library.golly_canon_key(file, len(file), number, _limit_of(limit), _SEED, *out, ctypes.byref(at)) == status and at.value == line


def step(data: Bytes, table: Optional[Bytes] = None, *, generations: Optional[int] = None, limit: int = SQUARES) -> bytes:
    """The canonical text of the next generation of the pattern of a file: without a table by its B/S rule, and of a pattern under a name by the rule
    table of that name, the bytes of a .rule file. Raises `Refused`, also of a pattern that has no next generation.

    With `generations` it is the text so many generations later by the B/S rule, from 0 to 2^64 - 1, of any number of cells. A small file can be a machine that
    runs for ever: its time has no bound, and `limit` bounds its memory. A table makes one generation at a time."""
    if table is None:
        return _streamed([data], "step", 3, generations=generations, limit=limit)
    if generations is not None:
        raise ValueError("a table makes one generation at a time")
    file, rule, room, status = _bytes_of(data), _bytes_of(table), _CHUNK, _NO_ROOM
    needed, line, in_table = ctypes.c_size_t(), ctypes.c_uint64(), ctypes.c_uint32()
    while status == _NO_ROOM:  # the second time with the memory that the text needs
        text = ctypes.create_string_buffer(room)
        out = text, room, ctypes.byref(needed), ctypes.byref(line), ctypes.byref(in_table)
        status = _library.golly_canon_step_by_table(file, len(file), rule, len(rule), _limit_of(limit), _SEED, *out)
        room = needed.value
    if status:
        raise _refused(status, line.value, file, rule if in_table.value or status == _AMBIGUOUS else None)
    _warn(warning_of(file), 2)
    return text.raw[: needed.value]
