#!/usr/bin/env python3
"""Times `step --generations` beside Golly's bgolly, which takes the same patterns as many generations further, and compares what both write.

usage: bench/generations.py PROGRAM FOLDER    (PROGRAM: the built golly_canon; FOLDER: where inputs are made)

Ten patterns are run beside bgolly's HashLife. Soups and methuselahs of less than 10,000 generations are run beside QuickLife, which is its fastest
algorithm for them. The commands take turns, five times each, and the medians of the processor times (user and system) count. The memory is the peak
resident size in one more run. Both programs read the pattern and write what comes of it as macrocell (QuickLife: as RLE). The patterns are those that come
with Golly, in the folder that PATTERNS in the environment names (/usr/share/golly/Patterns, if it doesn't). With SMALL=1 each command has one turn.
"""
import gzip
import os
import random
import shutil
import statistics
import subprocess
import sys

HERE = os.path.dirname(os.path.abspath(__file__))
sys.path.insert(0, HERE)

from run import IS_SMALL, peak_of, spent  # noqa: E402

PATTERNS = os.environ.get("PATTERNS", "/usr/share/golly/Patterns")
TURNS = 1 if IS_SMALL else 5
GUN = "x = 36, y = 9, rule = B3/S23\n24bo$22bobo$12b2o6b2o12b2o$11bo3bo4b2o12b2o$2o8bo5bo3b2o$2o8bo3bob2o4bobo$10bo5bo7bo$11bo3bo$12b2o!\n"
LONG = [
    ("a gun of gliders", GUN, 1 << 20),
    ("jagged", "HashLife/jagged.mc", 1 << 20),
    ("nick-gotts-2", "HashLife/nick-gotts-2.mc", 100_003),
    ("catacryst", "HashLife/catacryst.mc", 1 << 24),
    ("metapixel-galaxy", "HashLife/metapixel-galaxy.mc.gz", 4096),
    ("metapixel-p216-gun", "HashLife/metapixel-p216-gun.mc.gz", 1 << 16),
    ("hexadecimal", "HashLife/hexadecimal.mc.gz", 1 << 16),
    ("c4-diag-switch-engines", "Life/Breeders/c4-diag-switch-engines.rle", 1 << 14),
    ("blom", "Life/Methuselahs/blom.rle", 23_000),
    ("LWSS-breeder", "Life/Breeders/LWSS-breeder.rle", 100_000),
]
SHORT = [
    ("r-pentomino", "x = 3, y = 3, rule = B3/S23\nb2o$2o$bo!\n", 1103),
    ("acorn", "x = 7, y = 3, rule = B3/S23\nbo$3bo$2o2b3o!\n", 5206),
    ("rabbits", "x = 7, y = 3, rule = B3/S23\no3b3o$3o2bo$bo!\n", 9_000),
    ("a soup of 64 x 64 cells", 64, 3_000),
    ("a soup of 256 x 256 cells", 256, 2_000),
]


def soup(side):
    it = random.Random(side)
    rows = ["".join(it.choice("bo") for _ in range(side)) for _ in range(side)]
    return f"x = {side}, y = {side}, rule = B3/S23\n{'$'.join(rows)}!\n"


def given(folder, name, what):
    """The file of a pattern, unpacked."""
    if isinstance(what, int) or what.startswith("x = "):
        path = os.path.join(folder, f"{name.replace(' ', '_')}.rle")
        with open(path, "w", encoding="utf-8") as it:
            it.write(soup(what) if isinstance(what, int) else what)
        return path
    source = os.path.join(PATTERNS, what)
    if not source.endswith(".gz"):
        return source
    path = os.path.join(folder, os.path.basename(source)[:-3])
    with gzip.open(source) as packed, open(path, "wb") as it:
        shutil.copyfileobj(packed, it)
    return path


def generation_of(program, path):
    """The generation that a file names (bgolly counts from there)."""
    text = subprocess.run([program, "show", path], stdout=subprocess.PIPE, check=True, text=True).stdout
    return int(next(line.split()[1] for line in text.splitlines() if line.startswith("generation ")))


def row(program, folder, name, what, generations, algorithm):
    """A row of the table. Returns the ratios of the times and of the memory."""
    path, mine = given(folder, name, what), os.path.join(folder, "mine.mc")
    theirs = os.path.join(folder, "golly.mc" if algorithm == "HashLife" else "golly.rle")
    ours = [program, "step", path, "--generations", str(generations)]
    golly = ["bgolly", "-q", "-q", "-a", algorithm, "-m", str(generation_of(program, path) + generations), "-o", theirs, path]
    with open(mine, "wb") as it:
        subprocess.run(ours, stdout=it, check=True)
    subprocess.run(golly, stdout=subprocess.DEVNULL, stderr=subprocess.DEVNULL, check=True)
    if algorithm == "QuickLife":  # whose RLE lacks the generation
        with open(theirs, "r+b") as it:
            rle = it.read()
            it.seek(0)
            it.write(b"#CXRLE Gen=%d\n" % generations + rle)
    if subprocess.run([program, "same", "--form", "moved", mine, theirs], stdout=subprocess.DEVNULL, check=False).returncode:
        sys.exit(f"{name}, {generations} generations: {mine} and {theirs} aren't the same pattern")
    turns = [(spent(ours), spent(golly)) for _ in range(TURNS)]
    took, base = (max(statistics.median(it), 0.001) for it in zip(*turns))
    peak, base_peak = peak_of(ours), peak_of(golly)
    print(f"  {name:<26} {generations:>10,} {took:7.2f} s, {base:7.2f} s: {took / base:5.2f}; {peak / 1e6:5.0f} MB, {base_peak / 1e6:5.0f} MB:"
          f" {peak / base_peak:4.2f}", flush=True)
    return took / base, peak / base_peak


def main():
    if len(sys.argv) != 3:
        sys.exit(__doc__)
    program, folder = os.path.abspath(sys.argv[1]), os.path.abspath(sys.argv[2])
    if not shutil.which("bgolly"):
        print("skipped: bgolly isn't installed")
        return
    os.makedirs(folder, exist_ok=True)
    for algorithm, rows in (("HashLife", LONG), ("QuickLife", SHORT)):
        print(f"golly_canon step --generations beside bgolly's {algorithm}: pattern, generations, processor time of both, peak memory of both")
        found = [row(program, folder, *it, algorithm) for it in rows]
        times, peaks = zip(*found)
        print(f"  the mean of the ratios of time is {statistics.mean(times):.2f}, the greatest {max(times):.2f}; of memory {statistics.mean(peaks):.2f} and"
              f" {max(peaks):.2f}")


if __name__ == "__main__":
    main()
