#!/usr/bin/env python3
"""Times the command `keys` in each form on many small files, beside `sha256sum` of the same files, beside a process for each file, and beside the Python
module where out/library is built.

usage: bench/keys.py PROGRAM FOLDER [FILES]    (100,000 files, if no number is named)

The files are made in FOLDER where they are not there, the same bytes each time (bench/small_files.py says what is in them). Each way takes three turns,
and the least time by the clock and the least processor time (user and system, of all its processes) count. All files are read once before, so that none
comes from the disk. A process for each file is started for 2,000 of them, and its times are scaled. So are those of the form phases, which takes many
times as long as the others. The keys of the program and of the module are compared. What is printed are the rows of a table in Markdown.
"""
import os
import random
import resource
import subprocess
import sys
import tempfile
import time

HERE = os.path.dirname(os.path.abspath(__file__))
TOP = os.path.dirname(HERE)
sys.path.insert(0, HERE)

from small_files import ending_of, file_of  # noqa: E402

TURNS = 3
FEW = 2000
IN_A_FOLDER = 1000
# A program of Python that writes what `keys --zero` does, of the names in a file.
MODULE = """
import sys
import golly_canon
for name in open(sys.argv[1], "rb").read().split(b"\\0")[:-1]:
    with open(name, "rb") as it:
        data = it.read()
    try:
        sys.stdout.buffer.write(golly_canon.key(data, sys.argv[2]).hex().encode() + b"  " + name + b"\\0")
    except golly_canon.Refused:
        pass
"""


def made(folder, count):
    """The names of the files, relative to FOLDER, which are made where they are not there."""
    names = [os.path.join("patterns", f"{number // IN_A_FOLDER:05}", f"{number:08}.{ending_of(number)}") for number in range(count)]
    for first in range(0, count, IN_A_FOLDER):
        source = random.Random(f"folder {first}")
        place = os.path.join(folder, os.path.dirname(names[first]))
        os.makedirs(place, exist_ok=True)
        for number in range(first, min(count, first + IN_A_FOLDER)):
            data, path = file_of(source, number), os.path.join(folder, names[number])
            if not os.path.exists(path) or os.path.getsize(path) != len(data):
                with open(path, "wb") as it:
                    it.write(data)
    return names


def taken(words, folder, given, **how):
    """The seconds of a command and of its processors, and what it writes."""
    before, start = resource.getrusage(resource.RUSAGE_CHILDREN), time.monotonic()
    with open(given, "rb") as source, tempfile.TemporaryFile() as out:
        run = subprocess.run(words, cwd=folder, stdin=source, stdout=out, stderr=subprocess.DEVNULL, check=False, **how)
        took, after = time.monotonic() - start, resource.getrusage(resource.RUSAGE_CHILDREN)
        if run.returncode not in (0, 2, 123):  # some files are refused, and xargs tells that as 123
            sys.exit(f"{' '.join(words)}: status {run.returncode}")
        out.seek(0)
        return took, after.ru_utime + after.ru_stime - before.ru_utime - before.ru_stime, out.read()


def row(name, words, folder, given, scale=1.0, files=1, **how):
    """Prints the row of a way, and returns what it writes."""
    turns = [taken(words, folder, given, **how) for _ in range(TURNS)]
    took, spent = (scale * min(turn[at] for turn in turns) for at in (0, 1))
    print(f"| {name} | {took:.2f} s | {spent:.2f} s | {files / took:,.0f} | {spent / files * 1e6:.0f} us |", flush=True)
    return turns[0][2]


def peak_of(words, folder):
    """The peak memory of a command in bytes."""
    with tempfile.NamedTemporaryFile("r") as told:
        subprocess.run(["/usr/bin/time", "-q", "-f", "%M", "-o", told.name, *words], cwd=folder, stdout=subprocess.DEVNULL, stderr=subprocess.DEVNULL,
                       check=False)
        return int(told.read()) * 1024


def main(words):
    if len(words) not in (3, 4):
        sys.exit(__doc__)
    program, folder = map(os.path.abspath, words[1:3])
    count = int(words[3]) if len(words) == 4 else 100_000
    names = made(folder, count)
    lists = {}
    for size in (count, min(count, FEW)):
        lists[size] = os.path.join(folder, f"list_{size}")
        with open(lists[size], "wb") as it:
            it.write(b"".join(name.encode() + b"\0" for name in names[:size]))
    all_names, few_names = lists[count], lists[min(count, FEW)]
    taken(["xargs", "-0", "cat"], folder, all_names)  # reads each file once
    print(f"| {count:,} small files | time | processor time | files in a second | processor time for a file |\n|---|---|---|---|---|")
    keys = {}
    for form in ("placed", "moved", "turned"):
        keys[form] = row(f"`keys --form {form}`", [program, "keys", "--zero", "--form", form, "--from", "-"], folder, all_names, files=count)
    few = min(count, FEW)
    phases = [program, "keys", "--zero", "--form", "phases", "--from", "-"]
    row(f"`keys --form phases` ({few:,} of them, scaled)", phases, folder, few_names, count / few, count)
    row("`sha256sum` of the files' bytes, by `xargs`", ["xargs", "-0", "sha256sum", "--zero"], folder, all_names, files=count)
    row(f"a process for each file ({few:,} of them, scaled)", ["xargs", "-0", "-n", "1", program, "keys"], folder, few_names, count / few, count)
    library = os.path.join(TOP, "out", "library", "libgolly_canon.so")
    if os.path.exists(library):
        where = {**os.environ, "PYTHONPATH": os.path.join(TOP, "python"), "GOLLY_CANON_LIBRARY": library}
        for form in ("placed", "turned"):
            found = row(f"the Python module, {form}", [sys.executable, "-c", MODULE, all_names, form], folder, all_names, files=count, env=where)
            if found != keys[form]:
                sys.exit(f"the module comes to other keys ({form})")
    print(f"\n`keys` takes {peak_of([program, 'keys', '--zero', '--from', all_names], folder) / 1e6:.1f} MB of memory.")
    for form, said in keys.items():
        lines = said.split(b"\0")[:-1]
        print(f"{form}: {len(lines):,} keys, {len({line[:64] for line in lines}):,} of them different.")


if __name__ == "__main__":
    main(sys.argv)
