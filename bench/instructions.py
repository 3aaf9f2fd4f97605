#!/usr/bin/env python3
"""Counts the instructions of golly_canon beside those of the plain program in C on the same work, by valgrind's callgrind: another run gives the
same, whatever else the machine does.

usage: bench/instructions.py PROGRAM FOLDER    (as bench/run.py; each input has a tenth of the size that its row there names)
"""
import math
import os
import re
import subprocess
import sys
import tempfile

os.environ["SMALL"] = "1"
from run import SOUPS, jobs, kinds, output, plain, soup_of, tree_of


def instructions(words):
    """The instructions of a command, in millions. The profile goes into a file of its own: callgrind replaces the file that it is told, so a run as
    root would put a plain file into the place of a device."""
    with tempfile.TemporaryDirectory() as folder:
        ran = subprocess.run(["valgrind", "--tool=callgrind", f"--callgrind-out-file={folder}/profile", *words], stdin=subprocess.DEVNULL,
                             stdout=subprocess.DEVNULL, stderr=subprocess.PIPE, text=True)
    found = re.search(r"Collected : (\d+)", ran.stderr)
    if not found:
        sys.exit(f"{' '.join(words)}: {ran.stderr}")
    return int(found[1]) / 1e6


def main():
    if len(sys.argv) != 3:
        sys.exit(__doc__)
    program, folder = map(os.path.abspath, sys.argv[1:])
    os.makedirs(folder, exist_ok=True)
    plain(folder, "generate")
    reference = plain(folder, "plain")
    rows = []
    for size in SOUPS[:2]:
        for path in (soup_of(folder, size), tree_of(folder, reference, size)):
            rows.append((f"canon, {os.path.basename(path)}", ["canon", path], ["canon", path]))
    rows += [(f"canon, {label}", ["canon", path], ["canon", path]) for label, path in kinds(folder)]
    rows += jobs(folder, reference)
    ratios = {}
    print("| work, a tenth of the sizes | millions of instructions | plain C | ratio |", "|---|---|---|---|", sep="\n")
    for label, words, others in rows:
        if output([program, *words]) != output([reference, *others]):
            sys.exit(f"{label}: the two programs write other bytes")
        ours, base = instructions([program, *words]), instructions([reference, *others])
        ratios.setdefault(words[0], []).append(ours / base)
        print(f"| {label} | {ours:.1f} | {base:.1f} | {ours / base:.2f} |", flush=True)
    for command, found in ratios.items():
        print(f"{command}: {math.exp(sum(map(math.log, found)) / len(found)):.2f} in the geometric mean of {len(found)}, {max(found):.2f} at most")


if __name__ == "__main__":
    main()
