"""How tests start programs."""

import os
import re
import resource
import shutil
import subprocess
import sys
import tempfile
from typing import NamedTuple

# Where the standard output and the standard error of `spawned` go, and how they are opened.
OUTPUT, ERRORS = "standard-output", "standard-error"
WRITTEN = os.O_WRONLY | os.O_CREAT | os.O_TRUNC


# The oldest version of Node in which the module runs.
NODE = 20


class Answer(NamedTuple):
    """What a run ends with."""
    status: int
    output: bytes = b""
    error: bytes = b""


def program_of(path):
    """A program that is to be tested, by its whole path. Where there is none, the test ends."""
    if not os.access(path, os.X_OK):
        sys.exit(f"there is no program {path}")
    return os.path.abspath(path)


def has_node(*more):
    """Whether Node is installed, in a version in which the module runs, and these programs with it."""
    if not all(map(shutil.which, ["node", *more])):
        return False
    said = subprocess.run(["node", "--version"], stdout=subprocess.PIPE, text=True, check=False).stdout
    version = re.match(r"v(\d+)\.", said)
    return bool(version) and int(version[1]) >= NODE


def answer_of(words, **how):
    found = subprocess.run(words, stdout=subprocess.PIPE, stderr=subprocess.PIPE, check=False, **how)
    return Answer(found.returncode, found.stdout, found.stderr)


def run(words, source=b"", **how):
    """Runs a program with this standard input, which comes through a pipe."""
    return answer_of(words, input=source, **how)


def spawned(words, given):
    """Runs a program with a file for its standard input. Its output goes to files of the folder: that takes a third of the time of pipes."""
    streams = [(0, given, os.O_RDONLY), (1, OUTPUT, WRITTEN), (2, ERRORS, WRITTEN)]
    actions = [(os.POSIX_SPAWN_OPEN, stream, name, flags, 0o600) for stream, name, flags in streams]
    pid = os.posix_spawn(words[0], words, {}, file_actions=actions)
    status = os.waitstatus_to_exitcode(os.waitpid(pid, 0)[1])
    return Answer(status, contents(OUTPUT), contents(ERRORS))


def contents(name):
    with open(name, "rb") as it:
        return it.read()


def processor_time(words):
    """The processor time of a run whose output nobody reads, and which must end well."""
    before = resource.getrusage(resource.RUSAGE_CHILDREN)
    subprocess.run(words, stdout=subprocess.DEVNULL, check=True)
    after = resource.getrusage(resource.RUSAGE_CHILDREN)
    return after.ru_utime + after.ru_stime - before.ru_utime - before.ru_stime


def compiled(source, path, *words):
    """Compiles a file in C. Where there is no compiler, the test ends."""
    try:
        subprocess.run([os.environ.get("CC") or "cc", *words, "-O2", "-o", path, source], check=True)
    except (OSError, subprocess.CalledProcessError):
        sys.exit("a C compiler is missing: apt-get install gcc libc6-dev")
    return path


def preloaded(shared_object, words, settings, count, source=b"", **how):
    """Runs a program whose calls of the C library go through a shared object first, with these settings for it. Returns what it answers, and so many
    numbers that the shared object reports, or zeros where it reports none. Standard input is a file: a pipe gives it in pieces that differ from run to run,
    and so do the calls that take them."""
    with tempfile.NamedTemporaryFile() as report, tempfile.TemporaryFile() as given:
        given.write(source)
        given.seek(0)
        variables = {name: str(it) for name, it in settings.items()}
        environment = {**os.environ, **variables, "REPORT": report.name, "LD_PRELOAD": shared_object}
        answer = answer_of(words, stdin=given, env=environment, **how)
        return answer, [int(it) for it in report.read().split()] or [0] * count
