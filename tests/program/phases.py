#!/usr/bin/env python3
"""Holds the form `phases` of the built program, PROGRAM, against a calculation over sets of cells, and against the independent reader of tests/independent.

usage: tests/program/phases.py PROGRAM [--folder FOLDER] [--cases N] [--seed SEED]

FOLDER has Golly's Patterns; where none is named, it is share/golly beside the folder of bgolly. The rows are: still lifes, oscillators and spaceships that
everybody knows, in all their phases, in each of the eight ways in which they can lie, at random places, with the greatest period that is sought at their
period and one below; the oscillators and spaceships in Golly's collections of them, in the same way; patterns that become the same later, which are
different ones; mirror images; N random patterns, whose texts are compared with those of the reader; a folder of Golly's small patterns with altered copies of
them, and its groups; rules that are names, and rules that are refused; the edge of the plane; comparisons; streams; and generations. The last line counts
the checks."""

import argparse
import collections
import functools
import itertools
import json
import multiprocessing
import os
import random
import re
import shutil
import sys
import tempfile

sys.dont_write_bytecode = True  # nothing is left in tests/
sys.path.insert(0, os.path.dirname(os.path.dirname(os.path.abspath(__file__))))

import periods  # noqa: E402
from golly import collection  # noqa: E402
from independent import commands, forms  # noqa: E402
from independent.fuzz.random_files import respelled  # noqa: E402
from independent.phases import MOST  # noqa: E402
from independent.squares import cells_of  # noqa: E402
from keys import key_of, sentences  # noqa: E402
from periods import EDGE, KNOWN, WAYS, file_of, next_of  # noqa: E402
from shared import counting, processes  # noqa: E402

FORM = ["--form", "phases"]
# Golly's collections of oscillators and spaceships, and how many cells further one is from the others there at least. One of them is an object as a whole.
COLLECTIONS = {
    "billiard-table.rle": 2, "diagonal.rle": 2, "extensible-low-period.rle": 2, "growing-ship.rle": 2, "HighLife-replicator-spaceship.rle": 2,
    "honey-farm-hasslers.rle": 2, "low-period.rle": 2, "orthogonal.rle": 2, "period-52-glider-gun.rle": 2, "short-thin.rle": 2,
    "smallest-low-period.rle": 2, "spaceship-types.rle": 2, "unique-high-period.rle": 2, "corderships.rle": 24, "queen-bee-turn.rle": None,
}
# The least number of oscillators and spaceships of these files, the most cells of one that isn't a file, and how many phases of each are taken in all ways.
OBJECTS, MOST_OF_OBJECT, ALL_WAYS = 200, 400, 12
# Of how many cells in all its phases a pattern may be whose text the reader makes too.
MOST_READ = 1500
# The most cells of a pattern of the folder, how many oscillators and spaceships are in it at least, and how many altered copies are beside these.
MOST_OF_FOLDER, SEVERAL, COPIES = 250, 60, 500
PLACES = 1 << 60  # a random place has smaller coordinates


# ---- what is calculated


def at_corner(cells):
    """The cells, with the bounding box at (0, 0)."""
    left, top = min((x for x, _ in cells), default=0), min((y for _, y in cells), default=0)
    return frozenset((x - left, y - top) for x, y in cells)


def phases_of(cells, rule, most=MOST):
    """The phases of one period of these cells, or the cells alone where they have no period up to so many generations."""
    first, now, found = at_corner(cells), cells, []
    for _ in range(most):
        found.append(at_corner(now))
        now = next_of(now, rule)
        if not now or len(now) > 2 * len(first) + 60:
            break
        if at_corner(now) == first:
            return found
    return [first] if cells else [frozenset()]


def has_period(cells, rule, phases):
    """Whether the last of these phases is followed by the cells themselves."""
    return at_corner(next_of(phases[-1], rule)) == at_corner(cells)


def kind_of(cells):
    """What the cells have in common with their turns, reflections and shifts."""
    return min(tuple(sorted(at_corner({way(x, y) for x, y in cells}))) for way in WAYS)


def placed(source, cells, rule, way):
    """A file of these cells, turned and moved to a random place, in a random generation."""
    x, y = (source.choice([0, source.randrange(-50, 50), source.randrange(-PLACES, PLACES)]) for _ in range(2))
    turned = [way(*it) for it in cells]
    return in_generation(file_of({(x + a, y + b) for a, b in turned}, rule), source.choice([0, 0, 1, 77, 2**64 - 1]))


def in_generation(file, generation):
    """The file with a generation, where it has a place."""
    return file.replace(b"\nx", b" Gen=%d\nx" % generation, 1) if generation and file.startswith(b"#CXRLE") else file


class Program(periods.Program):
    """The program, in a folder of its own."""

    def text(self, file, most=None):
        """The text of a file in the form, or the line by which it is refused."""
        found = self.run(["canon", "-", *FORM, *within(most)], file)
        return found.output if found.status == 0 else found.error

    def keys(self, files, most=None):
        """The keys of these files in the form, by one stream, or what is wrong."""
        found = self.run(["keys", "--stream", "-", *FORM, *within(most)], b"\0".join(files) + b"\0")
        keys = [line[:64].decode() for line in found.output.splitlines()]
        return keys if found.status == 0 and len(keys) == len(files) else [repr(found)[:300]]


def within(most):
    return [] if most is None else ["--within", str(most)]


def read_text(file, most=MOST):
    """The text of a file in the form by the independent reader, or the line by which it is refused."""
    answer = commands.canon(commands.File(file), "phases", most)
    return answer.output if answer.status == 0 else answer.fault.encode()


# ---- oscillators and spaceships


def object_problems(program, source, rule, phases):
    """What is wrong with the keys of all phases of an object: there is to be one, and where one generation less is sought, one for each kind of phase."""
    files = [placed(source, cells, rule, way) for number, cells in enumerate(phases)
             for way in (WAYS if number < ALL_WAYS or len(phases) <= ALL_WAYS else [source.choice(WAYS)])]
    keys, period = program.keys(files), len(phases)
    problems = [] if len(set(keys)) == 1 else [f"{len(set(keys))} keys of {len(files)} files: {keys[0]}"]
    if program.keys(files[:3], period) != keys[:3]:
        problems.append(f"other keys up to {period}")
    if sum(map(len, phases)) <= MOST_READ:
        text = read_text(files[-1])
        problems += [] if key_of(text) == keys[0] else [f"the reader has {text[:300]!r}"]
    if period > 1:
        kinds = len(set(map(kind_of, phases)))
        few = len(set(program.keys([file_of(it, rule) for it in phases], period - 1)))
        problems += [] if few == kinds else [f"{few} keys up to {period - 1}, and {kinds} kinds of phases"]
    return keys[0], problems


def known(program, seed):
    """Patterns of the literature."""
    source = random.Random(seed)
    for name, rule, text, generations, _ in KNOWN:
        cells = periods.cells_of(text)
        phases = phases_of(cells, rule)
        if generations is None:
            words = ["canon", "-", "--form", "turned"]
            turned = program.run(words, file_of(cells, rule)).output
            found = {program.text(placed(source, cells, rule, way), 60) for way in WAYS}
            counting.row(f"{name}, which has no period", [] if found == {turned} else [repr(found)[:300]])
            continue
        right = len(phases) == generations
        problems = object_problems(program, source, rule, phases)[1] if cells else []
        counting.row(f"{name}, in {generations} phases", problems + ([] if right else [f"{len(phases)} phases"]))


def around_of(reach):
    return [(x, y) for x in range(-reach, reach + 1) for y in range(-reach, reach + 1) if x or y]


def groups_of(cells, reach):
    """The cells in groups that are further than this from one another."""
    left, around = set(cells), around_of(reach)
    while left:
        todo = [left.pop()]
        found = set(todo)
        while todo:
            x, y = todo.pop()
            if len(around) < len(left):
                near = {(x + a, y + b) for a, b in around} & left
            else:
                near = {it for it in left if max(abs(it[0] - x), abs(it[1] - y)) <= reach}
            left -= near
            found |= near
            todo.extend(near)
        yield found


def objects_of(given):
    """The oscillators and spaceships of a file, each with its rule and its phases."""
    name, data = given
    pattern, reach = commands.File(data).pattern, COLLECTIONS[name]
    cells, rule = {(x, y) for x, y, _ in cells_of(pattern.plane)}, pattern.rule.text.decode()
    groups = {at_corner(it) for it in groups_of(cells, reach)} if reach else [cells]
    found = []
    for group in sorted(groups, key=lambda it: (len(it), sorted(it))):
        if reach and len(group) > MOST_OF_OBJECT:
            continue
        phases = phases_of(group, rule)
        if len(phases) > 1 and has_period(group, rule, phases):
            found.append((name, rule, phases))
    return found


def tried(path, seed, given):
    """The key of an object, the kind of the first of its phases by the calculation, and what is wrong."""
    number, (name, rule, phases) = given
    with tempfile.TemporaryDirectory() as folder:
        key, problems = object_problems(Program(path, folder), random.Random(f"{seed} {number}"), rule, phases)
    return name, len(phases), key, (rule, min(map(kind_of, phases))), problems


def of_golly(path, patterns, pool, seed):
    """The oscillators and spaceships in Golly's collections of them."""
    files = [(name, data) for name, _, data in patterns if name in COLLECTIONS]
    objects = list(itertools.chain.from_iterable(pool.imap(objects_of, files, 1)))
    lengths, keys = collections.Counter(), {}
    for name, period, key, kind, problems in pool.imap(functools.partial(tried, path, seed), enumerate(objects), 4):
        counting.check(not problems, f"an object of {name}, of period {period}: {'; '.join(problems)}")
        lengths[period] += 1
        keys.setdefault(kind, set()).add(key)
    shown = ", ".join(f"{count} of {period}" for period, count in sorted(lengths.items()))
    counting.row(f"{len(objects)} oscillators and spaceships of Golly, by their periods: {shown}", [] if len(objects) >= OBJECTS else ["too few"])
    different = len(set().union(*keys.values()))
    counting.row(f"{len(keys)} of them are different, and so are their keys", [] if different == len(keys) else [f"{different} keys"])
    return objects


# ---- pairs of patterns

# Two patterns, of which the first becomes the second after so many generations, and isn't a phase of it.
MERGING = [
    ("three cells that become a block", "B3/S23", "2o$o!", "2o$2o!", 1),
    ("four cells in a row that become a beehive", "B3/S23", "4o!", "b2o$o2bo$b2o!", 2),
    ("an r-pentomino and its next generation", "B3/S23", "b2o$2o$bo!", "2o$o$3o!", 1),
    ("a cell that dies", "B3/S23", "o!", "!", 1),
    ("five cells in a row that become four blinkers", "B3/S23", "5o!", "2b3o2$o5bo$o5bo$o5bo2$2b3o!", 6),
    ("a blinker and a cell that dies beside it", "B3/S23", "3o5bo!", "o$o$o!", 1),
    ("a domino of Seeds, and what becomes of it", "B2/S", "2o!", "2o2$2o!", 1),
]
# Patterns that aren't their own mirror images, in any phase or in this one.
CHIRAL = [
    ("an eater", "B3/S23", "2o$obo$2bo$2b2o!"), ("a snake", "B3/S23", "2obo$ob2o!"), ("a glider", "B3/S23", "bo$2bo$3o!"),
    ("a lightweight spaceship", "B3/S23", "bo2bo$o$o3bo$4o!"), ("a toad", "B3/S23", "b3o$3o!"), ("an r-pentomino", "B3/S23", "b2o$2o$bo!"),
    ("an ark, which grows", "B3/S23", "27bo$28bo$29bo$28bo$27bo$29b3o18$o$bo$3b2o2$2b3o$3bo!"), ("a moon of Seeds", "B2/S", "bo$o$o$bo!"),
]


def of_pairs(program, seed):
    source = random.Random(f"pairs {seed}")
    for name, rule, first, second, generations in MERGING:
        one, other = periods.cells_of(first), periods.cells_of(second)
        later = one
        for _ in range(generations):
            later = next_of(later, rule)
        files = [placed(source, it, rule, source.choice(WAYS)) for it in (one, later, other)]
        keys = program.keys(files)
        is_right = len(keys) == 3 and keys[0] != keys[1] and keys[1] == keys[2] and kind_of(later) == kind_of(other)
        counting.row(f"{name}: two patterns, which become one", [] if is_right else [repr(keys)])
    for name, rule, text in CHIRAL:
        cells = periods.cells_of(text)
        mirrored = {(-x, y) for x, y in cells}
        files = [placed(source, it, rule, source.choice(WAYS)) for it in (cells, mirrored)]
        keys = program.keys(files)
        is_right = len(keys) == 2 and keys[0] == keys[1] == key_of(read_text(files[0]))
        counting.row(f"{name} and its mirror image: one pattern", [] if is_right else [repr(keys)])


# ---- random patterns


def random_finding(path, seed, number):
    """What is wrong with the text of a random pattern, for some numbers, and what it is."""
    source = random.Random(f"{seed} {number}")
    rule, cells = periods.random_pattern(source, number)
    if number % 3 == 0:
        cells = periods.random_cells(source, 6)
    phases = phases_of(cells, rule, 40)
    file = placed(source, cells, rule, source.choice(WAYS))
    is_found = bool(cells) and has_period(cells, rule, phases)
    period = len(phases)
    if source.random() < 0.3:
        file = respelled(source, file)
    numbers = {1, source.randrange(1, 30), *([period, max(1, period - 1), period + 1, MOST] if is_found else [])}
    problems = []
    with tempfile.TemporaryDirectory() as folder:
        program = Program(path, folder)
        for most in sorted(numbers):
            found, wanted = program.text(file, most), read_text(file, most)
            problems += [] if found == wanted else [f"{number} up to {most}: {file!r}: {found!r} and not {wanted!r}"]
    return f"of period {period}" if is_found and period < 3 else "of a greater period" if is_found else "without a period", len(numbers), problems


def at_random(path, pool, seed, cases):
    counts, runs, wrong = collections.Counter(), 0, []
    for kind, number, problems in pool.imap_unordered(functools.partial(random_finding, path, seed), range(cases), 8):
        counts[kind] += 1
        runs += number
        wrong += problems
        counting.check(not problems, "; ".join(problems))
    shown = ", ".join(f"{count} {kind}" for kind, count in sorted(counts.items()))
    is_mixed = len(counts) == 4 and min(counts.values()) > cases // 40
    counting.row(f"{cases} random patterns, {runs} texts: {shown}", wrong[:1] + ([] if is_mixed else ["too few of a kind"]))


# ---- a folder


def small_object(given):
    """The same of an oscillator or a spaceship, with its name and a file of it."""
    name, rule, phases = given
    data = file_of(phases[0], rule)
    file = commands.File(data)
    key = key_of(commands.canon(file, "phases").output)
    return name, data, (file.pattern.rule, [[(x, y, 1) for x, y in sorted(it)] for it in phases], key)


def small_pattern(data):
    """The rule, the cells with their states, and the phases of a small pattern, with its key by the reader; or nothing where it is refused or large."""
    file = commands.File(data)
    if len(data) > 20_000 or isinstance(file.reading, commands.Fault) or not 0 < file.pattern.plane.population <= MOST_OF_FOLDER:
        return None
    cells, rule = cells_of(file.pattern.plane), file.pattern.rule
    answer = commands.canon(file, "phases")
    phases = [cells]
    if rule.is_life:
        found = phases_of({(x, y) for x, y, _ in cells}, rule.text.decode())
        phases = [[(x, y, 1) for x, y in sorted(it)] for it in found]
    return rule, phases, key_of(answer.output)


def altered(source, program, small):
    """A file of the same pattern in another phase, at another place, turned, in another generation, in either format and spelling."""
    rule, phases, _ = small
    image = source.choice(list(forms.images(source.choice(phases))))
    x, y = source.randrange(-10**6, 10**6), source.randrange(-10**6, 10**6)
    cells = sorted(((a + x, b + y, state) for a, b, state in image), key=lambda it: (it[1], it[0]))
    file = commands.rle_text(rule, source.choice([0, 0, 5, 2**64 - 1]), cells)
    if source.random() < 0.5:
        file = program.run(["canon", "-"], file).output
    return respelled(source, file) if source.random() < 0.7 else file


def of_folder(program, patterns, objects, pool, seed):
    """Golly's small patterns, and altered copies of them: the groups of `duplicates` are those of the reader."""
    source, names = random.Random(f"folder {seed}"), {}
    small = [(name, data, it) for (name, _, data), it in zip(patterns, pool.map(small_pattern, [data for _, _, data in patterns], 4)) if it]
    small += pool.map(small_object, [it for it in objects[::3] if sum(map(len, it[2])) <= MOST_READ], 4)
    os.mkdir(os.path.join(program.folder, "folder"))
    for number, (name, data, it) in enumerate(small):
        names[f"{number:03}-{name.removesuffix('.gz')}"] = data, it[2]
    for number in range(COPIES):
        _, _, it = source.choice(small)
        names[f"copy-{number:03}"] = altered(source, program, it), it[2]
    groups = {}
    for name, (data, key) in sorted(names.items()):
        program.put(f"folder/{name}", data)
        groups.setdefault(key, []).append(f"folder/{name}\n")
    wanted = "\n".join("".join(group) for group in groups.values() if len(group) > 1).encode()
    found = program.run(["duplicates", "-r", "folder", *FORM])
    right, several = (found.status, found.output) == (0, wanted), sum(len(it[1]) > 1 for _, _, it in small)
    problems = [] if right and several >= SEVERAL else [f"status {found.status}: {found.output[:300]!r} and not {wanted[:300]!r} {found.error[:300]!r}"]
    count = sum(len(group) > 1 for group in groups.values())
    counting.row(f"{len(small)} of Golly's patterns, of which {several} have several phases, and {COPIES} altered copies: {count} groups", problems)


# ---- rules, the edge of the plane, comparisons, streams and generations

WIRES = b"#CXRLE Pos=-1,-1 Gen=7\nx = 2, y = 1, rule = WireWorld\nApA!\n"
OTHER_WIRES = b"#CXRLE Pos=90,1 Gen=8\nx = 1, y = 2, rule = WireWorld\npA$A!\n"
GLIDER = b"x = 3, y = 3\nbo$2bo$3o!\n"
NEXT_GLIDER = b"#CXRLE Pos=-9,70 Gen=12345\nx = 3, y = 3, rule = 23/3\nobo$b2o$bo!\n"
ROWS = 3  # of the pattern that leaves the plane


def wide(columns, rule=b"B3/S23"):
    """Two columns of three cells, so many columns from one another, both counted. Under B3/S23 each becomes a row, which is a column wider on each side."""
    row = b"o%dbo" % (columns - 2)
    return b"#CXRLE Pos=-%d,0\nx = %d, y = %d, rule = %s\n" % (columns // 2, columns, ROWS, rule) + b"$".join([row] * ROWS) + b"!\n"


LEAVING, STAYING = wide(1 << 62), wide((1 << 62) - 2)


def of_rules(program):
    for name, file in (("a rule that is a name", WIRES), ("the same, turned, in another generation", OTHER_WIRES),
                       ("a larger rule, which is a name", b"x = 2, y = 2, rule = R5,C0,M1,S34..58,B34..45,NM\nAB$.C!\n"),
                       ("no cell under a name", b"#CXRLE Gen=3\nx = 0, y = 0, rule = WireWorld\n!\n"), ("no cell", b"#CXRLE Gen=3\nx = 0, y = 0\n!\n"),
                       ("four neighbours", b"x = 2, y = 3, rule = B2/S12V\n2o$$2o!\n"),
                       ("a rule of Generations", b"x = 3, y = 1, rule = 345/2/4\nABC!\n"), ("a bounded grid", b"x = 3, y = 1, rule = B3/S23:T9,9\n3o!\n"),
                       ("births on 0", b"x = 3, y = 1, rule = B03/S23\n3o!\n"), ("a file without a header", b"3o!\n"), ("an empty file", b"")):
        for most in (None, 1, 2, 2**64 - 1):
            found, wanted = program.text(file, most), read_text(file, most or MOST)
            counting.row(f"{name}, up to {most}", [] if found == wanted else [f"{found!r} and not {wanted!r}"])
    found = program.text(WIRES)
    counting.row("under a name the text is that of the turned form, without the generation",
                 [] if found == b"[M2] (canonical 1)\n#R WireWorld\n1 0 1 0 25\n2 1 0 0 0\n" or found == read_text(OTHER_WIRES) else [repr(found)])


def at_edge(program, seed):
    """Patterns that leave the plane from its middle are refused, and others aren't, wherever they are."""
    fault, told = b"OutOfPlane\n", f"OutOfPlane: {sentences()['OutOfPlane']}\n".encode()
    for name, words, answer in (
        ("canon", ["canon", "leaving.rle"], (2, b"", fault)),
        ("canon of one that is refused in the first generation", ["canon", "leaving.rle", "--within", "1"], (2, b"", fault)),
        ("keys", ["keys", "leaving.rle"], (2, b"", b"leaving.rle: " + told)),
        ("same, the first", ["same", "leaving.rle", "glider.rle"], (2, b"", fault)),
        ("same, the second", ["same", "glider.rle", "leaving.rle"], (2, b"", fault)),
        ("same, both", ["same", "leaving.rle", "leaving.rle"], (2, b"", fault)),
        ("same, beside one that is refused when it is read", ["same", "leaving.rle", "bad.rle"], (2, b"", b"line 1: NoHeader\n")),
        ("duplicates", ["duplicates", "leaving.rle", "glider.rle", "next.rle"], (2, b"glider.rle\nnext.rle\n", b"leaving.rle: " + told)),
    ):
        found = program.run([*words, *FORM])
        counting.row(f"a pattern that leaves the plane: {name}", [] if tuple(found) == answer else [repr(found)])
    found = program.run(["keys", "--json", "leaving.rle", *FORM])
    said = {"name": "leaving.rle", "kind": "OutOfPlane", "reason": sentences()["OutOfPlane"]}
    counting.row("a pattern that leaves the plane: its object", [] if found.status == 2 and json.loads(found.output) == said else [repr(found)])
    # One that is sought no further than it stays on the plane, or is no wider than that, has a text; and so has one under a name.
    for name, file, most in (("one column less on each side", STAYING, None), ("the same, far to the east", STAYING.replace(b"Pos=-", b"Pos=-", 1), 2**64 - 1),
                             ("a pattern at the edge that dies", wide(1 << 62, b"B8/S8"), None), ("a name", wide(1 << 62, b"Life"), None),
                             ("a glider at the edge", b"#CXRLE Pos=%d,%d\n" % (EDGE - 3, EDGE - 3) + GLIDER, 2**64 - 1)):
        found, wanted = program.text(file, most), read_text(file, most or MOST)
        counting.row(f"a pattern that stays on the plane: {name}", [] if found == wanted and found.startswith(b"[M2]") else [f"{found!r} and not {wanted!r}"])
    source, wrong, left = random.Random(f"edge {seed}"), [], 0
    for number in range(80):
        rule, most, gap = source.choice(["B3/S23", "B36/S23", "B/S012345678", "B2/S", "B1357/S1357"]), source.randrange(1, 7), source.randrange(0, 8)
        first, second = periods.random_cells(source, 4), periods.random_cells(source, 4)
        one = {(x - EDGE, y) for x, y in first} | {(EDGE - 1 - gap - x, y + 5) for x, y in second}
        file = file_of(one if source.random() < 0.5 else {(y, x) for x, y in one}, rule)
        found, wanted = program.text(file, most), read_text(file, most)
        left += found == fault
        wrong += [] if found == wanted else [f"{number}: {file!r} up to {most}: {found!r} and not {wanted!r}"]
    counting.row(f"80 patterns as wide as the plane, of which {left} leave it", wrong[:2] + ([] if 5 < left < 75 else ["too few"]))


def compared(program, seed):
    """`same`: patterns that are one but for phase, place and orientation, and others."""
    block, blinker, later_blinker = b"x = 2, y = 2\n2o$2o!\n", b"x = 3, y = 1\n3o!\n", b"#CXRLE Pos=5,5 Gen=9\nx = 1, y = 3\no$o$o!\n"
    pairs = [("two phases of a glider", GLIDER, NEXT_GLIDER, 4), ("two phases of a blinker", blinker, later_blinker, 1),
             ("a glider and its opposite", GLIDER, b"x = 3, y = 3\n3o$o$bo!\n", 1), ("two rules", GLIDER, b"x = 3, y = 3, rule = B36/S23\nbo$2bo$3o!\n", None),
             ("a glider and a block", GLIDER, block, None), ("three cells and a block", b"x = 2, y = 2\n2o$o!\n", block, None),
             ("two patterns under a name", WIRES, OTHER_WIRES, 1), ("a pattern under a name and a glider", WIRES, GLIDER, None)]
    for name, one, other, least in pairs:
        for most in (1, 3, 4, None):
            wanted = least is not None and least <= (most or MOST)
            for first, second in ((one, other), (other, one)):
                program.put("first", first)
                found = program.run(["same", "first", "-", *FORM, *within(most)], second)
                reader = commands.same(commands.File(first), commands.File(second), "phases", most or MOST)
                right = (0, b"same\n") if wanted else (1, b"different\n")
                is_right = (found.status, found.output) == right == reader[:2] and not found.error
                counting.row(f"same: {name}, up to {most}", [] if is_right else [f"{found} {reader}"])
    source, wrong, counts = random.Random(f"same {seed}"), [], collections.Counter()
    for number in range(200):
        rule, cells = periods.random_pattern(source, number)
        cells = cells or {(0, 0)}
        later = periods.later_cells(cells, rule, source.randrange(4), 200) if number % 4 else periods.random_cells(source, 3)
        files = [placed(source, it, rule, source.choice(WAYS)) for it in (cells, later)]
        most = source.choice([1, 2, 4, 30])
        program.put("first", files[0])
        found = program.run(["same", "first", "-", *FORM, *within(most)], files[1])
        wanted = commands.same(*map(commands.File, files), "phases", most)
        counts[found.output] += 1
        wrong += [] if tuple(found) == (wanted.status, wanted.output, b"") else [f"{number}: {files} up to {most}: {found} and not {wanted}"]
    shown = ", ".join(f"{count} {it.decode().strip()}" for it, count in sorted(counts.items()))
    counting.row(f"200 random pairs: {shown}", wrong[:2] + ([] if len(counts) == 2 and min(counts.values()) > 20 else ["too few"]))


def of_streams(program):
    """The patterns of a stream, and what its lines are: keys, numbers, refusals; also as objects and with other options."""
    pieces = [GLIDER, NEXT_GLIDER, b"", WIRES, LEAVING, OTHER_WIRES, b"x = 3, y = 3\nbo$2bC$3o!\n", STAYING]
    said = [read_text(it) for it in pieces]
    wanted = b"".join(b"%s  %d\n" % (key_of(text).encode(), number) for number, text in enumerate(said, 1) if text.startswith(b"[M2]"))
    refused = [b"%d" % number for number, text in enumerate(said, 1) if not text.startswith(b"[M2]")]
    for more in ([], ["--ignore-generation"], ["--within", "128"], ["--within=4"]):
        found = program.run(["keys", "--stream", "-", *FORM, *more], b"\0".join(pieces))
        numbers = [line.split(b":")[0] for line in found.error.splitlines()]
        right = (found.status, found.output, numbers) == (2, wanted, refused)
        counting.row(f"a stream{' '.join(['', *more])}", [] if right else [f"{found!r} and not {wanted!r}"])
    found = program.run(["keys", "--stream", "-", "--json", *FORM], b"\0".join(pieces))
    objects = [json.loads(line) for line in found.output.splitlines()]
    kinds = [re.sub(rb"^line \d+: ", b"", text).strip().decode() for text in said if not text.startswith(b"[M2]")]
    keys = [it["key"] for it in objects if "key" in it], [it["kind"] for it in objects if "kind" in it]
    right = keys == ([line[:64].decode() for line in wanted.splitlines()], kinds)
    counting.row("the objects of a stream", [] if right and found.status == 2 else [repr(found)])


def of_generations(program):
    """The generation of a file doesn't count, and the text has none."""
    for name, file in (("a glider", GLIDER), ("a pattern without a period", b"x = 3, y = 3\nb2o$2o$bo!\n"),
                       ("a name", b"x = 2, y = 1, rule = WireWorld\nAB!\n"), ("no cell", b"x = 0, y = 0\n!\n")):
        texts = {program.text((b"#CXRLE Gen=%d\n" % generation if generation else b"") + file) for generation in (0, 1, 77, 2**64 - 1)}
        counting.row(f"one text in four generations: {name}", [] if texts == {read_text(file)} and b"#G" not in read_text(file) else [repr(texts)])
        text = texts.pop()
        again = program.text(text)
        counting.row(f"the text of the text is itself: {name}", [] if again == text else [repr(again)])


def words_of(program):
    """The arguments that are refused, with status 5, and nothing on standard output."""
    no_number, not_alone = "the value of --within is a number from 1 to 2^64 - 1", "--within is for --form phases alone"
    for words, said in (([*FORM, "--within", "0"], no_number), ([*FORM, "--within", "x"], no_number), ([*FORM, "--within", str(2**64)], no_number),
                        (["--within", "9"], not_alone), (["--form", "turned", "--within", "9"], not_alone),
                        (["--form", "phase"], "the value of --form is placed, moved, turned or phases")):
        for command in (["canon", "glider.rle"], ["same", "glider.rle", "next.rle"], ["keys", "glider.rle"], ["keys", "--stream", "glider.rle"],
                        ["duplicates", "glider.rle"]):
            found = program.run([*command, *words])
            right = (found.status, found.output) == (5, b"") and found.error.startswith(f"error: {said}".encode())
            counting.row(f"refused: {' '.join([*command, *words])}", [] if right else [repr(found)])


def main():
    parser = argparse.ArgumentParser(description=__doc__.split("\n", maxsplit=1)[0])
    parser.add_argument("program")
    parser.add_argument("--folder")
    parser.add_argument("--cases", type=int, default=2000)
    parser.add_argument("--seed", default="1")
    given = parser.parse_args()
    golly = shutil.which("bgolly")
    folder = given.folder or (golly and os.path.join(os.path.dirname(os.path.dirname(golly)), "share", "golly"))
    if not folder or not os.path.isdir(os.path.join(folder, "Patterns")):
        sys.exit("Golly's patterns are missing: apt-get install golly")
    path = processes.program_of(given.program)
    patterns = list(collection(folder))
    with tempfile.TemporaryDirectory() as here, multiprocessing.Pool(len(os.sched_getaffinity(0))) as pool:
        program = Program(path, here)
        for name, data in (("glider.rle", GLIDER), ("next.rle", NEXT_GLIDER), ("leaving.rle", LEAVING), ("bad.rle", b"o!\n")):
            program.put(name, data)
        known(program, given.seed)
        of_pairs(program, given.seed)
        of_rules(program)
        at_edge(program, given.seed)
        compared(program, given.seed)
        of_streams(program)
        of_generations(program)
        words_of(program)
        objects = of_golly(path, patterns, pool, given.seed)
        at_random(path, pool, given.seed, given.cases)
        of_folder(program, patterns, objects, pool, given.seed)
    return counting.ended()


if __name__ == "__main__":
    sys.exit(main())
