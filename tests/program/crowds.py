#!/usr/bin/env python3
"""Holds the program, or the library, to files that are chosen against its hashers: squares of macrocell and names of a rule table that crowd in a
sixteenth of the table that finds them, where the words of the hasher are known. They may take one and a half times as long as as many random ones.
The files are of tests/program/crowds.c, 2 and 20 MB each. The last line is 'N passed, M failed'.

usage: tests/program/crowds.py PROGRAM|LIBRARY

LIBRARY is a shared object, whose name has `.so` in it. It needs a C compiler, and 200 MB of room for files."""

import ctypes
import os
import pathlib
import subprocess
import sys
import tempfile
import time

sys.path.insert(0, os.path.dirname(os.path.dirname(os.path.abspath(__file__))))

from shared import c_interface, counting, processes  # noqa: E402

SOURCE = pathlib.Path(__file__).parent / "crowds.c"
BLANK = b"x = 1, y = 1, rule = Foo\n!\n"

# How many keys are about 2 and 20 MB, how much longer than as many random ones they may take, and how often both are tried in turn: at least so
# often, and on until the least times are within that bound, since whatever else the machine does can only add to a time.
SIZES = {"squares": (147_000, 1_300_000), "nodes": (100_000, 900_000), "names": (115_000, 1_100_000)}
TIMES_AT_MOST = 1.5
TURNS, TURNS_AT_MOST = 3, 20

# What is tried: the keys, and what they are chosen against.
ATTACKS = [("squares", "fold"), ("squares", "zero"), ("nodes", "runs"), ("names", "fold"), ("names", "zero")]

# Nodes that are alike but for one of their four numbers, which all meet where a hasher leaves that number out.
QUARTERS = ["nw", "ne", "sw", "se"]

# Keys that crowd pass that many groups of the table on average at least, and others less than one.
GROUPS_OF_A_CROWD = 500

# So many keys, chosen against a seed that is known, take more than so many times as long as random ones.
FEW, TIMES_OF_A_CROWD = 36_000, 5

class Files:
    """Files of keys, each made once."""

    def __init__(self, folder):
        self.folder = folder
        self.maker = processes.compiled(SOURCE, folder / "crowds")
        self.groups = {}

    def path(self, keys, attack, count):
        """A file, and how many groups of a table its keys pass each."""
        path = self.folder / f"{keys}_{attack}_{count}"
        if path not in self.groups:
            with open(path, "wb") as out:
                run = subprocess.run([self.maker, keys, attack, str(count)], stdout=out, stderr=subprocess.PIPE, check=True)
            self.groups[path] = float(run.stderr)
        return path, self.groups[path]


class Program:
    """The built program."""

    def __init__(self, path, folder):
        self.path = processes.program_of(path)
        self.blank = folder / "blank.rle"
        self.blank.write_bytes(BLANK)

    def seconds(self, keys, path):
        """The processor time of a run."""
        words = ["step", self.blank, "--table", path] if keys == "names" else ["canon", path]
        return processes.processor_time([self.path, *words])


class Library:
    """The shared library, with a seed, or with a random one for each call."""

    def __init__(self, path):
        self.calls = c_interface.loaded(os.path.abspath(path))

    def seconds(self, keys, path, seed=None):
        """The processor time of a call."""
        file = path.read_bytes()
        number = int.from_bytes(os.urandom(8), "little") if seed is None else seed
        store = ctypes.c_uint64(c_interface.SQUARES), ctypes.c_uint64(number)
        out, needed, line = ctypes.create_string_buffer(4096), ctypes.c_size_t(), ctypes.c_uint64()
        answer = out, ctypes.c_size_t(4096), ctypes.byref(needed), ctypes.byref(line)
        start = time.process_time()
        if keys == "names":
            in_table = ctypes.c_uint32()
            given = BLANK, ctypes.c_size_t(len(BLANK)), file, ctypes.c_size_t(len(file))
            status = self.calls.golly_canon_step_by_table(*given, *store, *answer, ctypes.byref(in_table))
        else:
            status = self.calls.golly_canon_canon(file, ctypes.c_size_t(len(file)), *store, *answer)
        spent = time.process_time() - start
        assert status == 0
        return spent


def least(tried, keys, paths, at_most=TURNS_AT_MOST, **more):
    """The least processor times of two files that are tried in turns, until the first is within the bound of the second, or often enough."""
    chosen, plain = float("inf"), float("inf")
    for turn in range(at_most):
        if turn >= TURNS and chosen <= TIMES_AT_MOST * plain:
            break
        first, second = (tried.seconds(keys, path, **more) for path in paths)
        chosen, plain = min(chosen, first), min(plain, second)
    return chosen, plain


def check_attack(tried, files, keys, attack, count):
    """Chosen keys, each of which passes many groups by the hasher that they are chosen against, beside as many random ones."""
    (chosen, steps), (plain, steps_of_random) = files.path(keys, attack, count), files.path(keys, "random", count)
    what = f"{count} {keys}, {attack}"
    if attack in ("fold", "zero"):
        counting.named(steps > GROUPS_OF_A_CROWD and steps_of_random < 1, f"{what}: they crowd by a model ({steps:.1f} and {steps_of_random:.3f} groups)")
    spent, spent_on_random = least(tried, keys, (chosen, plain))
    counting.named(spent <= TIMES_AT_MOST * spent_on_random, f"{what}: {chosen.stat().st_size / 1e6:.1f} MB ({spent:.3f} and {spent_on_random:.3f} s)")


def check_known_seed(library, files, keys):
    """The control: under the seed that they are chosen against they do crowd."""
    paths = [files.path(keys, attack, FEW)[0] for attack in ("zero", "random")]
    spent, spent_on_random = least(library, keys, paths, at_most=TURNS, seed=0)
    counting.named(spent > TIMES_OF_A_CROWD * spent_on_random, f"{FEW} {keys} chosen against seed 0, with seed 0 ({spent:.3f} and {spent_on_random:.3f} s)")
    other, spent_on_random = least(library, keys, paths, seed=1)
    counting.named(other <= TIMES_AT_MOST * spent_on_random, f"{FEW} {keys} chosen against seed 0, with seed 1 ({other:.3f} and {spent_on_random:.3f} s)")


def main():
    if len(sys.argv) != 2:
        sys.exit("usage: tests/program/crowds.py PROGRAM|LIBRARY")
    with tempfile.TemporaryDirectory() as name:
        folder = pathlib.Path(name)
        files = Files(folder)
        is_library = ".so" in os.path.basename(sys.argv[1])
        tried = Library(sys.argv[1]) if is_library else Program(sys.argv[1], folder)
        for keys, attack in ATTACKS:
            for count in SIZES[keys]:
                check_attack(tried, files, keys, attack, count)
        for quarter in QUARTERS:
            check_attack(tried, files, "nodes", quarter, SIZES["nodes"][0])
        if is_library:
            for keys in ("squares", "names"):
                check_known_seed(tried, files, keys)
    return counting.ended()


if __name__ == "__main__":
    sys.exit(main())
