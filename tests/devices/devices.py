#!/usr/bin/env python3
"""Lets each call of the system that the built program, PROGRAM, makes on a device fail in turn: each read, also the one behind the last byte, each
write, behind every front of the text, each opening, each look at a length, each closing, and each draw of random bytes. A call that fails is told by
its status and its line, what was written is a front of the text, and no file is touched. The last line is 'N passed, M failed'. It needs a C
compiler, for tests/devices/fail_calls.c.

usage: tests/devices/devices.py PROGRAM
"""

import errno
import hashlib
import os
import sys
import tempfile
from concurrent.futures import ThreadPoolExecutor
from dataclasses import dataclass
from typing import NamedTuple

sys.dont_write_bytecode = True  # nothing is left in tests/
sys.path.insert(0, os.path.dirname(os.path.dirname(os.path.abspath(__file__))))

from shared import counting, processes  # noqa: E402
from shared.fixtures import FILES, LINE_STEPPED, PAIR_RLE, PAIR_SHOWN, PAIR_TEXT, SPREAD_STEPPED  # noqa: E402
from shared.processes import Answer  # noqa: E402

SOURCE = os.path.join(os.path.dirname(os.path.abspath(__file__)), "fail_calls.c")
ALWAYS = 1_000_000_000
# A folder is opened for each standard stream, in case that it is closed. The program does without it.
HELD = 3


@dataclass(frozen=True)
class Failing:
    """Which calls fail: those of a name from number `first` to `last`, by an error, or by moving no byte where that is 0. The others move `piece`
    bytes at most, or any number where that is 0."""
    call: str
    first: int = 0
    last: int = 0
    error: int = 0
    piece: int = 0


class Job(NamedTuple):
    """The words, what is answered, standard input, and the name of the file where `keys` tells it with a fault."""
    words: str
    answer: Answer
    source: bytes
    name: bytes = b""

    def refusals(self, reason):
        """What is answered where a file can't be read, or can't be opened for this reason: in a list of `keys` that may be the list too."""
        told = Answer(3, b"", self.name + b": " + reason + b"\n")
        return [READ_FAULT] * (not self.name or "--from" in self.words) + [told] * bool(self.name)


READ_FAULT = Answer(3, b"", b"ReadFault\n")
UNREAD = b"ReadFault: A file can't be opened or read, or the system gives no random bytes."
UNOPENED = {errno.EACCES: b"permission denied", errno.EMFILE: b"can't be opened"}
REFUSED = Answer(2, b"", b"line 2: StateRange\n")
STATE_RANGE = b"bad.rle: line 2: StateRange: A state is above 1 under a B/S rule, or above 255 in a macrocell file.\n"
PAIR_KEY = hashlib.sha256(PAIR_TEXT).hexdigest().encode()

JOBS = [Job(*job) for job in [
    ("canon pair.mc", Answer(0, PAIR_TEXT), b""),
    ("canon pair.rle", Answer(0, PAIR_TEXT), b""),
    ("canon -", Answer(0, PAIR_TEXT), FILES["pair.rle"]),
    ("same pair.rle pair.mc", Answer(0, b"same\n"), b""),
    ("same named.rle -", Answer(1, b"different\n"), FILES["pair.mc"]),
    ("show pair.rle", Answer(0, PAIR_SHOWN), b""),
    ("show pair.rle --period 9", Answer(0, PAIR_SHOWN + b"period none up to 9\n"), b""),
    ("convert pair.mc --to rle", Answer(0, PAIR_RLE), b""),
    ("convert pair.rle --to mc", Answer(0, PAIR_TEXT), b""),
    ("step line.rle", Answer(0, LINE_STEPPED), b""),
    ("step spread.rle --table spread.rule", Answer(0, SPREAD_STEPPED), b""),
    ("step spread.rle --table -", Answer(0, SPREAD_STEPPED), FILES["spread.rule"]),
    ("step line.rle --generations 1", Answer(0, LINE_STEPPED), b""),
    ("step spread.rle --table spread.rule --generations 1", Answer(0, SPREAD_STEPPED), b""),
    ("canon bad.rle", REFUSED, b""),
    ("same bad.rle pair.mc", REFUSED, b""),
    ("keys pair.mc", Answer(0, PAIR_KEY + b"  pair.mc\n"), b"", b"pair.mc"),
    ("keys -", Answer(0, PAIR_KEY + b"  -\n"), FILES["pair.rle"], b"-"),
    ("keys --from -", Answer(0, PAIR_KEY + b"  pair.rle\n"), b"pair.rle", b"pair.rle"),
    ("keys bad.rle", Answer(2, b"", STATE_RANGE), b"", b"bad.rle"),
]]


class Runs:
    """Runs of the program in a folder with the small files."""

    def __init__(self, program, fail, folder):
        self.program, self.fail = program, fail
        self.here = os.path.join(folder, "here")
        os.mkdir(self.here)
        for name, text in FILES.items():
            with open(os.path.join(self.here, name), "wb") as file:
                file.write(text)
        self.before = self.state()

    def state(self):
        return {it.name: (it.stat().st_mtime_ns, it.stat().st_size) for it in os.scandir(self.here)}

    def run(self, job, failing):
        """What a job answers, how many of the calls there were, and how many failed."""
        settings = {"CALL": failing.call, "FIRST": failing.first, "LAST": failing.last, "ERROR": failing.error, "PIECE": failing.piece}
        words = [self.program, *job.words.split()]
        found, (calls, failed) = processes.preloaded(self.fail, words, settings, 2, job.source, cwd=self.here, timeout=60)
        return found, calls, failed


def is_read_fault(found, _failing, job):
    """A source that fails is told, whatever the bytes before it say."""
    return found in job.refusals(UNREAD)


def is_write_fault(found, failing, job):
    """An output that fails is told, behind a front of its text. Where nothing can be told, the status stays."""
    answer = job.answer
    if not answer.output:
        return found.status == answer.status and not found.output and found.error != answer.error and answer.error.startswith(found.error)
    taken = failing.piece * (failing.first - 1)
    return found == Answer(3, answer.output[:taken], b"" if failing.last > failing.first else b"WriteFault\n")


def is_open_fault(found, failing, job):
    """A file that can't be opened is told. An interrupted opening is tried again."""
    return found in ([job.answer] if failing.first <= HELD or failing.error == errno.EINTR else job.refusals(UNOPENED[failing.error]))


def is_told_alone(found, _failing, _job):
    """Without random bytes nothing is read."""
    return found == READ_FAULT


def is_as_ever(found, _failing, job):
    """The program does without what the call would have told."""
    return found == job.answer


# The calls, by what they fail (0: a write takes no byte), in pieces of which sizes, whether all behind fail too, and what a run must be.
CALLS = [
    ("read", (errno.EIO, errno.EINTR), (1, 0), (False,), is_read_fault),
    ("write", (errno.EINTR, errno.ENOSPC, 0), (1, 7), (False,), is_write_fault),
    ("write", (errno.EINTR, errno.EIO, errno.ENOSPC, 0), (0,), (False, True), is_write_fault),
    ("open", (errno.EACCES, errno.EMFILE, errno.EINTR), (0,), (False,), is_open_fault),
    ("statx", (errno.EIO,), (0,), (False, True), is_as_ever),
    ("close", (errno.EIO, errno.EINTR), (0,), (False, True), is_as_ever),
    ("getentropy", (errno.ENOSYS, errno.EIO), (0,), (False, True), is_told_alone),
]


def problems_of(runs, job, call, errors, piece, more, is_right):
    """How many calls of a name a job makes, and what is wrong where one of them fails."""
    problems = []
    found, total, _ = runs.run(job, Failing(call, piece=piece))
    if found != job.answer:
        problems.append(f"no failure: {found}")
    for number in range(1, total + 1):
        for error in errors:
            for behind in more:
                failing = Failing(call, number, ALWAYS if behind else number, error, piece)
                found, _, failed = runs.run(job, failing)
                if failed == 0:
                    problems.append(f"{failing}: no call failed")
                elif not is_right(found, failing, job):
                    problems.append(f"{failing}: {found}")
    return total, problems


def main(program):
    with tempfile.TemporaryDirectory() as folder, ThreadPoolExecutor(os.cpu_count()) as pool:
        runs = Runs(processes.program_of(program), processes.compiled(SOURCE, os.path.join(folder, "fail.so"), "-shared", "-fPIC"), folder)
        rows = [(job, call, errors, piece, more, is_right) for call, errors, pieces, more, is_right in CALLS for job in JOBS for piece in pieces]
        for row, (total, problems) in zip(rows, pool.map(lambda it: problems_of(runs, *it), rows)):
            job, call, _, piece, _, _ = row
            if total == 0 and call in ("read", "write", "open", "getentropy"):
                problems = [*problems, "no call was seen"]
            counting.row(f"{job.words}: each of {total} calls of {call}" + (f" in pieces of {piece}" if piece else ""), problems[:3])
        counting.row("no file is touched", [] if runs.state() == runs.before else ["a file was touched"])
    return counting.ended()


if __name__ == "__main__":
    if len(sys.argv) != 2:
        sys.exit("usage: tests/devices/devices.py PROGRAM")
    sys.exit(main(sys.argv[1]))
