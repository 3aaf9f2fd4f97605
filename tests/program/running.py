"""What a case of tests/program/hostile.py is, how it is run, and what is wrong with a run."""

import glob
import os
import re
import shutil
import signal
import stat
import subprocess
import threading
from concurrent.futures import ThreadPoolExecutor
from dataclasses import dataclass, field

MEGABYTE = 1_000_000
CLOCK = "/usr/bin/time"

# The bounds of a case that names none of its own: seconds by the clock; seconds of processor time for each MB of input, beside those for the
# start; peak memory as a multiple of the input, and what a small input may take in bytes.
SECONDS = 10
SECONDS_AT_START = 0.5
SECONDS_EACH_MEGABYTE = 0.5
TIMES = 6
LITTLE = 6 * MEGABYTE

# How often a run that took too long is tried, so that what else the machine does is not taken for the program's.
TRIES = 3

ANY = re.compile(rb".", re.DOTALL)


@dataclass(frozen=True)
class Front:
    """An output that may end at any byte behind the first."""
    text: object


@dataclass(frozen=True)
class Piped:
    """A standard input that is a pipe. `writes` is given the pipe where the bytes are not written one after another."""
    text: object = b""
    writes: object = None


@dataclass(frozen=True)
class Case:
    """One run of the program: what it is given, and what it must do. A text is bytes, or a list of parts: bytes, a pair of bytes and how many
    times they stand there, or a function without arguments that yields bytes."""
    name: str
    words: object = "canon input"  # as a list, or as one text with spaces between them
    status: int = 0
    error: object = ""  # the line on standard error, or what is searched in it
    output: object = b""  # a text, what is searched in it, or a Front; None where standard output goes elsewhere
    files: dict = field(default_factory=dict)  # the text of each file that is there
    source: object = b""  # the text on standard input, or a Piped
    setup: str = ""  # what a shell does in the folder before
    by: str = ""  # what a shell does in place of "$@", the program and its words
    plays: object = None  # what is done with the program while it runs, given the process and the file for its output
    changes: bool = False  # whether a file changes while the program reads it
    control: object = None  # what says what is wrong where the input isn't what the case means it to be
    seconds: float = SECONDS
    start: float = SECONDS_AT_START
    each: float = SECONDS_EACH_MEGABYTE
    times: float = TIMES
    little: int = LITTLE


@dataclass
class Run:
    """What a run did."""
    status: int = 0
    elapsed: float = 0.0
    spent: float = 0.0
    memory: float = 0
    size: int = 0


def pieces(text):
    """The bytes of a text, in pieces of about 1 MB."""
    for part in [text] if isinstance(text, bytes) else text:
        if isinstance(part, bytes):
            yield part
        elif isinstance(part, tuple):
            once, count = part
            many = max(1, MEGABYTE // len(once))
            for _ in range(count // many):
                yield once * many
            yield once * (count % many)
        else:
            yield from part()


def is_large(text):
    """Whether a text is written once for all cases that have it, and its cases run alone."""
    return not isinstance(text, bytes) or len(text) > 300_000


def texts_of(case):
    """The texts that a case is given."""
    source = case.source.text if isinstance(case.source, Piped) else case.source
    return [*case.files.values(), source]


def runs_alone(case):
    return any(map(is_large, texts_of(case)))


def words_of(case):
    return case.words.split() if isinstance(case.words, str) else list(case.words)


class Texts:
    """The files of large texts. Each is made for the first case that has it and removed behind the last."""

    def __init__(self, folder, cases):
        self.folder = folder
        self.left = {}
        for text in (text for case in cases for text in texts_of(case) if is_large(text)):
            self.left[id(text)] = self.left.get(id(text), 0) + 1

    def put(self, text, path, stays=True):
        """Puts a text into a file, which is its own where it changes."""
        if not (is_large(text) and stays):
            write(text, path)
            return
        made = os.path.join(self.folder, str(id(text)))
        if not os.path.exists(made):
            write(text, made)
        os.link(made, path)

    def drop(self, case):
        for text in filter(is_large, texts_of(case)):
            self.left[id(text)] -= 1
            made = os.path.join(self.folder, str(id(text)))
            if self.left[id(text)] == 0 and os.path.exists(made):
                os.remove(made)


def write(text, path):
    with open(path, "wb") as file:
        for piece in pieces(text):
            file.write(piece)


def feed(pipe, source, run):
    """Writes the text of a Piped, as far as the program takes it."""
    try:
        if source.writes:
            source.writes(pipe)
            return
        for piece in pieces(source.text):
            run.size += len(piece)
            pipe.write(piece)
    except BrokenPipeError:
        pass
    finally:
        try:
            pipe.close()
        except BrokenPipeError:
            pass


def state_of(folder):
    """The names in a folder, each with what changes where its file is touched."""
    found = {name: os.lstat(os.path.join(folder, name)) for name in os.listdir(folder)}
    return {name: (it.st_ino, it.st_mode, it.st_size, stat.S_ISREG(it.st_mode) and it.st_mtime_ns) for name, it in found.items()}


class Place:
    """A fresh place for one case: the folder `here` with its files, and beside it what the run writes."""

    def __init__(self, top, number, case, texts):
        self.top = os.path.join(top, str(number))
        self.here = os.path.join(self.top, "here")
        os.makedirs(self.here)
        os.chmod(self.top, 0o755)
        for name, text in case.files.items():
            texts.put(text, os.path.join(self.here, name), not case.changes)
        if not isinstance(case.source, Piped):
            texts.put(case.source, self.path("from"))
        if case.setup:
            subprocess.run(["sh", "-c", case.setup], cwd=self.here, check=True)

    def path(self, name):
        return os.path.join(self.top, name)

    def text(self, name):
        with open(self.path(name), "rb") as file:
            return file.read()

    def size(self, case):
        sizes = [os.stat(path).st_size for path in glob.glob(os.path.join(self.here, "*")) if os.path.isfile(path)]
        return sum(sizes) + (0 if isinstance(case.source, Piped) else os.stat(self.path("from")).st_size)


def command(case, program, place):
    """The words of a run. GNU time measures it where nothing plays with the program itself."""
    words = [program, *words_of(case)]
    if case.by:
        words = ["sh", "-c", case.by, "sh", *words]
    return words if case.plays else [CLOCK, "-q", "-f", "%e %M %U %S", "-o", place.path("measured"), *words]


def started(case, program, place):
    """Starts a run: from the file `from` to the file `out`, or from and to pipes."""
    is_piped = isinstance(case.source, Piped)
    origin = os.devnull if is_piped else place.path("from")
    with open(origin, "rb") as source, open(place.path("out"), "wb") as out, open(place.path("err"), "wb") as err:
        pipes = {"stdin": subprocess.PIPE if is_piped else source, "stdout": subprocess.PIPE if case.plays else out, "stderr": err}
        return subprocess.Popen(command(case, program, place), cwd=place.here, start_new_session=True, **pipes)


def end(process):
    """Ends what was started for a case, if it runs."""
    try:
        os.killpg(process.pid, signal.SIGKILL)
    except ProcessLookupError:
        pass


def finished(case, process, place):
    """The status of a run, which is ended where it takes more than twice its time."""
    limit = threading.Timer(2 * case.seconds + 10, end, [process])
    limit.start()
    try:
        if case.plays:
            with open(place.path("out"), "ab") as out:
                case.plays(process, out)
        return process.wait()
    finally:
        limit.cancel()
        end(process)
        process.wait()


def run_of(case, program, place):
    """Runs a case."""
    run = Run(size=place.size(case))
    process = started(case, program, place)
    feeder = None
    if isinstance(case.source, Piped):
        feeder = threading.Thread(target=feed, args=(process.stdin, case.source, run))
        feeder.start()
    run.status = finished(case, process, place)
    if feeder:
        feeder.join()
    for pipe in (process.stdin, process.stdout):
        if pipe and not pipe.closed:
            pipe.close()
    if not case.plays:
        elapsed, kilobytes, user, system = map(float, (place.text("measured") or b"inf inf inf inf").split())
        run.elapsed, run.spent, run.memory = elapsed, user + system, 1024 * kilobytes
    return run


def is_output(path, wanted):
    """Whether a file holds what was wanted."""
    with open(path, "rb") as file:
        if isinstance(wanted, re.Pattern):
            return bool(wanted.search(file.read()))
        text = wanted.text if isinstance(wanted, Front) else wanted
        for piece in pieces(text):
            found = file.read(len(piece))
            if found != piece:
                return isinstance(wanted, Front) and piece.startswith(found) and file.tell() > 0 and not file.read(1)
        return not file.read(1)


def is_error(text, wanted):
    if isinstance(wanted, re.Pattern):
        return bool(wanted.search(text))
    return text == (wanted.encode() + b"\n" if wanted else b"")


def too_long(case, run):
    """What is wrong with the time of a run."""
    problems = []
    if run.elapsed >= case.seconds:
        problems.append(f"{run.elapsed} seconds")
    if run.spent > case.start + case.each * run.size / MEGABYTE:
        problems.append(f"{run.spent:.2f} seconds of processor time for {run.size} bytes of input")
    return problems


def too_large(case, run):
    """What is wrong with the memory of a run."""
    if run.memory > max(case.times * run.size, case.little):
        return [f"{run.memory:.0f} bytes of memory for {run.size} of input"]
    return []


def problems_of(case, run, place, before):
    """What a run did otherwise than it must."""
    problems = []
    if run.status != case.status:
        problems.append(f"status {run.status} and not {case.status}")
    error = place.text("err")
    if not is_error(error, case.error):
        problems.append(f"wrote {error[:200]!r} and not {case.error!r}")
    if case.output is not None and not is_output(place.path("out"), case.output):
        with open(place.path("out"), "rb") as out:
            problems.append(f"wrote {out.read(200)!r} to standard output")
    if not case.changes and state_of(place.here) != before:
        problems.append("touched a file")
    return problems + too_large(case, run)


def tried(case, number, program, top, texts):
    """Runs a case in a place of its own, and returns what happened and what is wrong beside its time."""
    place = Place(top, number, case, texts)
    try:
        before = state_of(place.here)
        run = run_of(case, program, place)
        return run, problems_of(case, run, place, before)
    finally:
        shutil.rmtree(place.top)


def result_of(case, number, program, top, texts):
    """Runs a case, again where it alone took too long, and returns what happened and what is wrong."""
    for _ in range(TRIES):
        run, problems = tried(case, number, program, top, texts)
        if problems or not too_long(case, run):
            break
    return run, problems + too_long(case, run) + (case.control() if case.control else [])


def measured(run):
    """What a run took, where it was measured."""
    return f" ({run.elapsed:.2f} s, {run.memory / 2**20:.0f} MB)" if run.memory else ""


def results(cases, program, top):
    """Runs all cases: the small ones side by side, then each of the others alone."""
    os.mkdir(os.path.join(top, "texts"))
    texts = Texts(os.path.join(top, "texts"), cases)

    def result(numbered):
        number, case = numbered
        answer = result_of(case, number, program, top, texts)
        texts.drop(case)
        return case, *answer

    numbered = list(enumerate(cases))
    with ThreadPoolExecutor(os.cpu_count()) as pool:
        yield from pool.map(result, [it for it in numbered if not runs_alone(it[1])])
    yield from map(result, [it for it in numbered if runs_alone(it[1])])
