#!/usr/bin/env python3
"""Holds the library's many generations against Golly: `bgolly` takes a pattern as many generations further, by HashLife, and the canonical text of what it
writes has to be the one that the library gives. The patterns are random soups under ten rules, a few that everybody knows, and large ones that come with Golly: whole texts
are compared. Of some the population is also the one that the literature names.

At the edge of the plane, which Golly's plane doesn't have, many generations are held against repeated single ones. Limits of squares from 0 on give the
answer, or `Full`. A text in pieces is the text of the whole file. A small file that grows for ever is refused in bounded time and memory. A run of many leaps
gets along with the squares of a few of them.

usage: tests/library/generations.py ARCHIVE [--golly BGOLLY] [--patterns FOLDER] [--cases N] [--seed SEED]

ARCHIVE is the library that tests/library/library.sh builds. The last line counts the checks."""

import argparse
import os
import random
import shutil
import subprocess
import sys
import tempfile
import warnings

sys.dont_write_bytecode = True  # nothing is left in tests/
TOP = os.path.dirname(os.path.dirname(os.path.dirname(os.path.abspath(__file__))))
sys.path.insert(0, os.path.join(TOP, "tests"))
sys.path.insert(0, os.path.join(TOP, "python"))

from shared import counting  # noqa: E402

# Half of the soups are of Conway's rule, in which patterns live longest.
RULES = ["B3/S23"] * 9 + ["B36/S23", "B2/S", "B35678/S5678", "B1357/S1357", "B3678/S34678", "B2/S0", "B34/S34", "B3/S012345678", "B1/S1"]
# The rules in which a soup grows as fast as it can: as many generations take as long as a large pattern.
EXPLODING = {"B2/S", "B1357/S1357", "B2/S0", "B34/S34", "B3/S012345678", "B1/S1"}
# Known patterns, so many generations later, and how many cells they have then, where the literature says so.
GUN = ("24bo$22bobo$12b2o6b2o12b2o$11bo3bo4b2o12b2o$2o8bo5bo3b2o$2o8bo3bob2o4bobo$10bo5bo7bo$11bo3bo$12b2o!")
KNOWN = [
    ("the r-pentomino", "b2o$2o$bo!", 1103, 116),
    ("the acorn", "bo$3bo$2o2b3o!", 5206, 633),
    ("the diehard", "6bo$2o$bo3b3o!", 130, 0),
    ("the pi-heptomino", "3o$obo$obo!", 173, None),
    ("a glider, far away", "bo$2bo$3o!", 1 << 40, 5),
    ("the gun of gliders", GUN, 30 * 40, 36 + 5 * 40),
    ("the gun of gliders, long after", GUN, 30 * 10_000, None),
    ("ten cells that grow for ever", "6bo$4bob2o$4bobo$4bo$2bo$obo!", 10_000, None),
]
# Patterns that come with Golly, each with its file and how many generations later.
COME_WITH_GOLLY = [
    ("a breeder", "Life/Breeders/LWSS-breeder.rle", 5_000),
    ("a space filler", "Life/Breeders/spacefiller.rle", 200),
    ("a galaxy of metapixels", "HashLife/metapixel-galaxy.mc.gz", 35_328),
    ("a pattern that jumps", "HashLife/jagged.mc", 100_000),
]
EDGE = 1 << 61  # the plane's coordinates go from -EDGE to EDGE - 1


class Golly:
    """Golly without a window."""

    def __init__(self, path, patterns):
        self.path, self.patterns = path, patterns

    def later(self, rle, generations, folder):
        """The macrocell that Golly writes of an RLE so many generations later."""
        given = os.path.join(folder, "given.rle")
        with open(given, "wb") as it:
            it.write(rle)
        return self.file_later(given, generations, folder)

    def file_later(self, given, generations, folder):
        """The macrocell that it writes of a file."""
        made = os.path.join(folder, "made.mc")
        words = [self.path, "-q", "-q", "-a", "HashLife", "-m", str(generations), "-o", made, given]
        subprocess.run(words, check=True, stdin=subprocess.DEVNULL, stdout=subprocess.DEVNULL, stderr=subprocess.DEVNULL, timeout=600)
        with open(made, "rb") as it:
            data = it.read()
        os.remove(made)
        return data


def soup(rule, it):
    width, height, density = it.randrange(1, 41), it.randrange(1, 41), it.choice([0.2, 0.35, 0.5])
    rows = ["".join("o" if it.random() < density else "b" for _ in range(width)) for _ in range(height)]
    return f"x = {width}, y = {height}, rule = {rule}\n{'$'.join(rows)}!\n".encode()


def problems_of(golly_canon, golly, rle, generations, folder, population=None):
    """Why the two don't agree. Golly puts an RLE one row further south than the program reads it."""
    golly_text = golly_canon.canon(golly.later(rle, generations, folder))
    # A macrocell of Golly whose root is a leaf, or that is blank, may lack its generation.
    ours = golly_canon.step(b"#CXRLE Pos=0,-1\n" + rle, generations=generations)
    counted = golly_canon.show(ours).population
    return ([] if ours == golly_text else [f"{len(ours)} bytes, and {len(golly_text)} of Golly's: {ours[:200]!r}, {golly_text[:200]!r}"]) + (
        [] if population in (None, counted) else [f"{counted} cells, and not {population}"])


def beside_golly(golly_canon, golly, cases, seed):
    it = random.Random(seed)
    with tempfile.TemporaryDirectory() as folder:
        wrong = []
        for number in range(cases):
            rule = it.choice(RULES)
            most = it.choice([20, 300, 600 if rule in EXPLODING else 5000])
            rle, generations = soup(rule, it), it.randrange(most)
            wrong += [f"{number}, {rule}, {generations}: {why}" for why in problems_of(golly_canon, golly, rle, generations, folder)]
        counting.row(f"{cases} soups beside Golly", wrong[:3])
        for name, cells, generations, population in KNOWN:
            rle = f"x = 1, y = 1, rule = B3/S23\n{cells}\n".encode()
            counting.row(f"{name}, {generations} generations later, beside Golly", problems_of(golly_canon, golly, rle, generations, folder, population))
        for name, file, generations in COME_WITH_GOLLY:
            path = os.path.join(golly.patterns, file)
            ours = golly_canon.step(golly.file_later(path, 0, folder), generations=generations)
            of_golly = golly_canon.canon(golly.file_later(path, generations, folder))
            counting.row(f"{name}, {generations} generations later, beside Golly", [] if ours == of_golly else [f"{len(ours)} bytes, and {len(of_golly)}"])


def singly(golly_canon, file, generations):
    """The text of a file by single generations, or the kind of the first refusal."""
    text = golly_canon.canon(file)
    for _ in range(generations):
        try:
            text = golly_canon.step(text)
        except golly_canon.Refused as why:
            return why.kind
    return text


def at_once(golly_canon, file, generations, **more):
    try:
        return golly_canon.step(file, generations=generations, **more)
    except golly_canon.Refused as why:
        return why.kind


def at_the_edge(golly_canon, seed):
    """Patterns within a few cells of a side or a corner of the plane, by single generations and at once. Some leave the plane, and some don't."""
    it, wrong, left = random.Random(seed), [], 0
    for number in range(60):
        rule, generations = it.choice(["B3/S23", "B36/S23", "B2/S", "B1357/S1357", "B3/S23V"]), it.randrange(1, 9)
        width, height = it.randrange(1, 7), it.randrange(1, 7)
        rows = ["".join(it.choice("ob") for _ in range(width)) for _ in range(height)]
        gap = it.randrange(5)
        places = [-EDGE + gap, EDGE - width - gap, it.randrange(-9, 9)], [-EDGE + gap, EDGE - height - gap, it.randrange(-9, 9)]
        column, row = it.choice(places[0]), it.choice(places[1][:2])
        file = f"#CXRLE Pos={column},{row}\nx = {width}, y = {height}, rule = {rule}\n{'$'.join(rows)}!\n".encode()
        one, many = at_once(golly_canon, file, generations), singly(golly_canon, file, generations)
        left += many == "OutOfPlane"
        wrong += [] if one == many else [f"{number}: {file!r} {generations}: {one!r:.100} and not {many!r:.100}"]
    counting.row(f"60 patterns at the edge of the plane, of which {left} leave it", wrong[:3] if 5 < left < 55 else [f"{left} leave it", *wrong[:2]])


def within_limits(golly_canon):
    """Each limit gives the answer or Full, and the answer from some limit on."""
    file = b"x = 3, y = 3\nb2o$2o$bo!\n"
    wanted = golly_canon.step(file, generations=60)
    found = [at_once(golly_canon, file, 60, limit=limit) for limit in range(4097)]
    enough = found.index(wanted) if wanted in found else len(found)
    others = [limit for limit, answer in enumerate(found) if answer != ("Full" if limit < enough else wanted)]
    counting.row(f"limits from 0 to 4,096 squares, of which {enough} suffice", [f"at {others[:5]}"] if others or not 10 < enough < 4000 else [])


# A soup of 64 x 64 cells under a rule by which it grows as fast as it can, 2^40 generations later, within 2^18 squares: the kind of its refusal, the seconds
# of processor time and the megabytes that it took.
GROWING = """
import random, resource, sys, time
sys.path.insert(0, sys.argv[1])
import golly_canon
it = random.Random(1)
cells = "$".join("".join(it.choice("ob") for _ in range(64)) for _ in range(64))
began, kind = time.process_time(), None
try:
    golly_canon.step(f"x = 64, y = 64, rule = {sys.argv[2]}\\n{cells}!\\n".encode(), generations=2**40, limit=2**18)
except golly_canon.Refused as why:
    kind = why.kind
print(kind, time.process_time() - began, resource.getrusage(resource.RUSAGE_SELF).ru_maxrss / 1024)
"""


def growing():
    """A small file that needs ever more squares is refused in bounded time and memory."""
    for rule in ("B34/S34", "B2/S", "B3/S012345678"):
        run = subprocess.run([sys.executable, "-B", "-c", GROWING, os.path.join(TOP, "python"), rule], capture_output=True, text=True, timeout=300)
        kind, seconds, megabytes = (run.stdout.split() + ["", "inf", "inf"])[:3]
        is_right = kind == "Full" and float(seconds) < 10 and float(megabytes) < 200
        counting.row(f"a soup that grows for ever under {rule} is refused", [] if is_right else [f"{run.stdout} {run.stderr[-300:]}"])


def in_stages(golly_canon, golly, folder):
    """A block at the corner of the plane makes each leap a single generation. One generation of the acorn beside it stores more than 300 squares: the limit of
    squares is far below those of all generations together, so that without a fresh store from time to time the run is refused."""
    acorn, far = "bo$3bo$2o2b3o", EDGE - 2
    file = f"#CXRLE Pos=0,0\nx = {EDGE}, y = {EDGE}, rule = B3/S23\n{acorn}{far - 2}${far}b2o${far}b2o!\n".encode()
    wanted = singly(golly_canon, file, 200)
    few = [at_once(golly_canon, file, 1, limit=limit) for limit in range(0, 2049, 64)]
    one = 64 * sum(answer == "Full" for answer in few)
    counting.row(f"one generation with a block at the edge, which needs more than {one - 64} squares", [] if 300 < one < 2048 else [str(one)])
    answer = at_once(golly_canon, file, 200, limit=1 << 14)
    counting.row("200 generations with a block at the edge, within 2^14 squares", [] if answer == wanted else [f"{answer!r:.200}"])
    if golly is not None:
        rle = f"x = 7, y = 3, rule = B3/S23\n{acorn}!\n".encode()
        population = golly_canon.show(golly_canon.canon(golly.later(rle, 3000, folder))).population + 4
        answer = at_once(golly_canon, file, 3000, limit=1 << 16)
        counted = None if answer == "Full" else golly_canon.show(answer).population
        counting.row(f"3,000 generations with a block at the edge, within 2^16 squares: {population} cells", [] if counted == population else [f"{counted} cells"])


def in_pieces(golly_canon):
    """A file in pieces, cut anywhere."""
    file = b"#CXRLE Gen=7\nx = 3, y = 3\nb2o$2o$bo!\n"
    wanted = golly_canon.step(file, generations=100)
    found = {golly_canon.stream([file[:at], file[at:]], "step", generations=100) for at in range(len(file))}
    counting.row("a file in two pieces", [] if found == {wanted} and b"#G 107\n" in wanted else [repr(found)[:200]])


def main():
    parser = argparse.ArgumentParser()
    parser.add_argument("archive")
    parser.add_argument("--golly", default=shutil.which("bgolly"))
    parser.add_argument("--patterns", default="/usr/share/golly/Patterns")
    parser.add_argument("--cases", type=int, default=200)
    parser.add_argument("--seed", type=int, default=1)
    given = parser.parse_args()
    with tempfile.TemporaryDirectory() as folder:
        subprocess.run(["sh", os.path.join(TOP, "scripts", "link_library"), os.path.abspath(given.archive), os.path.join(folder, "library")], check=True)
        os.environ["GOLLY_CANON_LIBRARY"] = os.path.join(folder, "library", "libgolly_canon.so")
        import golly_canon  # pylint: disable=import-outside-toplevel
        warnings.simplefilter("ignore", golly_canon.PatternWarning)  # of a blank pattern that Golly writes
        if given.golly is None:
            counting.check(False, "bgolly isn't installed")
        else:
            beside_golly(golly_canon, Golly(given.golly, given.patterns), given.cases, given.seed)
        at_the_edge(golly_canon, given.seed)
        within_limits(golly_canon)
        in_stages(golly_canon, None if given.golly is None else Golly(given.golly, given.patterns), folder)
        in_pieces(golly_canon)
        growing()
    return counting.ended()


if __name__ == "__main__":
    sys.exit(main())
