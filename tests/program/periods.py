#!/usr/bin/env python3
"""Holds `show --period` of the built program, PROGRAM, against the literature and against a calculation over sets of cells: still lifes, oscillators and
spaceships that everybody knows, in each of the eight ways in which they can lie; random patterns of many rules, at random places; patterns at the edge of the
plane, and as wide as the plane, of which some leave it; what is refused; and a soup that grows for ever, which ends where the memory that it may have ends.

On a terminal a line there says what is done until the answer comes, and Ctrl-C ends it at once, with nothing written.

usage: tests/program/periods.py PROGRAM [--seed SEED]

The last line counts the checks."""

import argparse
import os
import random
import re
import resource
import signal
import subprocess
import sys
import tempfile
import time

sys.dont_write_bytecode = True  # nothing is left in tests/
sys.path.insert(0, os.path.dirname(os.path.dirname(os.path.abspath(__file__))))

from shared import counting, processes, terminals  # noqa: E402

EDGE = 1 << 61  # the plane's coordinates go from -EDGE to EDGE - 1
GUN = "24bo$22bobo$12b2o6b2o12b2o$11bo3bo4b2o12b2o$2o8bo5bo3b2o$2o8bo3bob2o4bobo$10bo5bo7bo$11bo3bo$12b2o!"
# Known patterns: their rule, their cells, their period, and how far they move in it as LifeWiki says it, in either order and direction. Nothing: none.
KNOWN = [
    ("a block", "B3/S23", "2o$2o!", 1, (0, 0)),
    ("a beehive", "B3/S23", "b2o$o2bo$b2o!", 1, (0, 0)),
    ("no cell", "B3/S23", "!", 1, (0, 0)),
    ("a blinker", "B3/S23", "3o!", 2, (0, 0)),
    ("a toad", "B3/S23", "b3o$3o!", 2, (0, 0)),
    ("a beacon", "B3/S23", "2o$2o$2b2o$2b2o!", 2, (0, 0)),
    ("a pulsar", "B3/S23", "2b3o3b3o2$o4bobo4bo$o4bobo4bo$o4bobo4bo$2b3o3b3o2$2b3o3b3o$o4bobo4bo$o4bobo4bo$o4bobo4bo2$2b3o3b3o!", 3, (0, 0)),
    ("a pentadecathlon", "B3/S23", "2bo4bo$2ob4ob2o$2bo4bo!", 15, (0, 0)),
    ("a queen bee shuttle", "B3/S23", "9b2o$9bobo$4b2o6bo7b2o$2obo2bo2bo2bo7b2o$2o2b2o6bo$9bobo$9b2o!", 30, (0, 0)),
    ("a blinker and a pulsar", "B3/S23", "2b3o3b3o2$o4bobo4bo$o4bobo4bo$o4bobo4bo$2b3o3b3o10b3o2$2b3o3b3o$o4bobo4bo$o4bobo4bo$o4bobo4bo2$2b3o3b3o!", 6, (0, 0)),
    ("a glider", "B3/S23", "bo$2bo$3o!", 4, (1, 1)),
    ("a lightweight spaceship", "B3/S23", "bo2bo$o$o3bo$4o!", 4, (2, 0)),
    ("a middleweight spaceship", "B3/S23", "3bo$bo3bo$o$o4bo$5o!", 4, (2, 0)),
    ("a heavyweight spaceship", "B3/S23", "3b2o$bo4bo$o$o5bo$6o!", 4, (2, 0)),
    ("a copperhead", "B3/S23", "b2o2b2o$3b2o$3b2o$obo2bobo$o6bo2$o6bo$b2o2b2o$2b4o2$3b2o$3b2o!", 10, (1, 0)),
    ("two gliders that fly together", "B3/S23", "bo7bo$2bo7bo$3o5b3o!", 4, (1, 1)),
    ("a glider and a block, which it doesn't meet", "B3/S23", "2o$2o2$6bo$7bo$5b3o!", None, None),
    ("a gun of gliders", "B3/S23", GUN, None, None),
    ("an r-pentomino", "B3/S23", "b2o$2o$bo!", None, None),
    ("a pattern that dies", "B3/S23", "o!", None, None),
    ("a block of HighLife", "B36/S23", "2o$2o!", 1, (0, 0)),
    ("a glider of HighLife", "B36/S23", "bo$2bo$3o!", 4, (1, 1)),
    ("a replicator of HighLife", "B36/S23", "2b3o$bo2bo$o3bo$o2bo$3o!", None, None),
    ("a moon of Seeds", "B2/S", "bo$o$o$bo!", 1, (1, 0)),
    ("a domino of Seeds, which grows", "B2/S", "2o!", None, None),
    ("a cell with no births", "B/S012345678", "o!", 1, (0, 0)),
    ("a cell that is replicated", "B1357/S1357", "o!", None, None),
]
RULES = ["B3/S23", "B36/S23", "B3678/S34678", "B2/S", "B1357/S1357", "B368/S245", "B35678/S5678", "B/S012345678", "B3/S012345678", "B2/S345", "B2/S", "B2/S0", "B34/S", "B2/S02V", "B1/S1V", "B2/S013V",
         "B13/S012V", "B1357/S02468", "B25/S4"]
MOORE = [(x, y) for x in (-1, 0, 1) for y in (-1, 0, 1) if x or y]
VON_NEUMANN = [(0, -1), (1, 0), (0, 1), (-1, 0)]
# The eight ways in which a pattern can lie.
WAYS = [lambda x, y, a=a, b=b, swap=swap: (a * y, b * x) if swap else (a * x, b * y) for a in (1, -1) for b in (1, -1) for swap in (False, True)]
# Seconds of processor time, and megabytes, for a soup that grows for ever.
SECONDS, MEGABYTES = 60, 300
MOST = 64


class Program:
    """The program, in a folder of its own."""

    def __init__(self, path, folder):
        self.path, self.folder = path, folder

    def run(self, words, source=b""):
        return processes.run([self.path, *words], source, cwd=self.folder, timeout=600)

    def put(self, name, data):
        with open(os.path.join(self.folder, name), "wb") as it:
            it.write(data)

    def period(self, file, most):
        """The line of the period, or that of the refusal, where the lines before are those of `show` without a period."""
        found, lines = self.run(["show", "-", "--period", str(most)], file), self.run(["show", "-"], file)
        if found.status != 0:
            return found.error if found.output == b"" else b"something is written"
        return found.output[len(lines.output):] if found.output.startswith(lines.output) else b"other lines"


def cells_of(text):
    """The places of the live cells of RLE."""
    cells, x, y = set(), 0, 0
    for count, item in re.findall(r"(\d*)([bo$])", text):
        number = int(count or 1)
        if item == "$":
            x, y = 0, y + number
            continue
        if item == "o":
            cells.update((x + it, y) for it in range(number))
        x += number
    return cells


def file_of(cells, rule):
    """An extended RLE file of these cells, wherever they are."""
    if not cells:
        return f"x = 0, y = 0, rule = {rule}\n!\n".encode()
    left, top = min(x for x, _ in cells), min(y for _, y in cells)
    items, last_x, last_y = [], left, top
    for y, x in sorted((y, x) for x, y in cells):
        if y > last_y:
            items.append(f"{y - last_y}$")
            last_x, last_y = left, y
        if x > last_x:
            items.append(f"{x - last_x}b")
        items.append("o")
        last_x = x + 1
    lines = [""]
    for item in items:
        if len(lines[-1]) > 60:
            lines.append("")
        lines[-1] += item
    return f"#CXRLE Pos={left},{top}\nx = 1, y = 1, rule = {rule}\n".encode() + "\n".join(lines).encode() + b"!\n"


def next_of(cells, rule):
    """The next generation of these cells under a B/S rule."""
    births, survivals = ({int(digit) for digit in re.sub(r"\D", "", it)} for it in rule.split("/"))
    around = VON_NEUMANN if rule.endswith("V") else MOORE
    counts = {}
    for x, y in cells:
        for right, down in around:
            counts[x + right, y + down] = counts.get((x + right, y + down), 0) + 1
    return {it for it, count in counts.items() if it not in cells and count in births} | {it for it in cells if counts.get(it, 0) in survivals}


def line_of(generations, columns, rows):
    if columns or rows:
        return b"period %d spaceship %d %d\n" % (generations, columns, rows)
    return b"period 1 still life\n" if generations == 1 else b"period %d oscillator\n" % generations


def none_up_to(most):
    return b"period none up to %d\n" % most


def wanted_line(cells, rule, most):
    """The line by the definition: each generation is compared with the first one, cell by cell, for each shift that takes one cell of it to a cell."""
    if not cells:
        return line_of(1, 0, 0)
    left, right = min(x for x, _ in cells), max(x for x, _ in cells)
    top, bottom = min(y for _, y in cells), max(y for _, y in cells)
    first = {(x - (left + right + 1) // 2, y - (top + bottom + 1) // 2) for x, y in cells}  # in the middle of the plane
    now, one = first, next(iter(first))
    for generation in range(1, most + 1):
        now = next_of(now, rule)
        if not all(-EDGE <= x < EDGE and -EDGE <= y < EDGE for x, y in now):
            return b"OutOfPlane\n"
        for x, y in now if len(now) == len(first) else ():
            columns, rows = x - one[0], y - one[1]
            if all((x + columns, y + rows) in now for x, y in first):
                return line_of(generation, columns, rows)
    return none_up_to(most)


def known(program):
    """Patterns of the literature, in each of the eight ways, sought up to less than their period, up to it, and further."""
    for name, rule, text, generations, shift in KNOWN:
        problems = []
        for way in WAYS:
            cells = {way(x, y) for x, y in cells_of(text)}
            for most in [MOST] if generations is None else [it for it in (generations - 1, generations, MOST, 2**64 - 1) if it > 0]:
                found = program.period(file_of(cells, rule), most)
                if generations is None or most < generations:
                    problems += [] if found == none_up_to(most) else [f"{found!r} up to {most}"]
                    continue
                moves = [(a * x, b * y) for x, y in (shift, shift[::-1]) for a in (1, -1) for b in (1, -1)]
                problems += [] if found in [line_of(generations, *it) for it in moves] else [f"{found!r} up to {most}"]
                if most == MOST and found != wanted_line(cells, rule, most):
                    problems.append(f"{found!r} and not {wanted_line(cells, rule, most)!r}")
        counting.row(f"{name}: {none_up_to(MOST).decode().strip() if generations is None else line_of(generations, *shift).decode().strip()}", problems)


def of_directions(program):
    """A glider in its four directions."""
    glider = cells_of("bo$2bo$3o!")
    for columns, rows in ((1, 1), (1, -1), (-1, 1), (-1, -1)):
        for place in ((0, 0), (1 << 40, -(1 << 50)), (-EDGE + 4, EDGE - 9)):
            cells = {(place[0] + columns * x, place[1] + rows * y) for x, y in glider}
            found, wanted = program.period(file_of(cells, "B3/S23"), 4), line_of(4, columns, rows)
            counting.row(f"a glider that goes by {columns} {rows} from {place}", [] if found == wanted else [repr(found)])


def random_cells(it, most):
    """Random cells of a small box."""
    width, height, density = it.randrange(1, most), it.randrange(1, most), it.choice([0.2, 0.5, 0.8])
    return {(x, y) for x in range(width) for y in range(height) if it.random() < density}


def later_cells(cells, rule, generations, most_cells):
    """Some of the next generations of these cells: the last one that was made before there were more cells than these."""
    for _ in range(generations):
        now = next_of(cells, rule)
        if not now or len(now) > most_cells:
            break
        cells = now
    return cells


def random_pattern(it, number):
    """A random pattern: random cells; what is left of them after a time; or a known pattern in any of its phases and ways."""
    if number % 3 == 2:
        _, rule, text, _, _ = it.choice([it for it in KNOWN if it[3]])
        way = it.choice(WAYS)
        return rule, later_cells({way(x, y) for x, y in cells_of(text)}, rule, it.randrange(30), 200)
    rule = it.choice(RULES)
    cells = random_cells(it, it.choice([3, 4, 5, 8]))
    return rule, later_cells(cells, rule, it.randrange(60), 120) if number % 3 else cells


def at_random(program, seed):
    """Random patterns of random rules."""
    it, wrong, found_of = random.Random(seed), [], {}
    for number in range(300):
        rule, at_home = random_pattern(it, number)
        most = it.randrange(1, 31)
        place = [it.choice([0, it.randrange(-50, 50), it.randrange(-EDGE + 99, EDGE - 99)]) for _ in range(2)]
        cells = {(x + place[0], y + place[1]) for x, y in at_home}
        file = file_of(cells, rule)
        if it.random() < 0.5:
            file = program.run(["canon", "-"], file).output
        found, wanted = program.period(file, most), wanted_line(cells, rule, most)
        kind = found.decode().split()[2:3]
        found_of[str(kind)] = found_of.get(str(kind), 0) + 1
        wrong += [] if found == wanted else [f"{number}: {rule} {sorted(cells)} up to {most}: {found!r} and not {wanted!r}"]
    counts = ", ".join(f"{count} {kind}" for kind, count in sorted(found_of.items()))
    is_mixed = len(found_of) == 4 and min(found_of.values()) > 9
    counting.row(f"300 random patterns: {counts}", wrong[:3] + ([] if is_mixed else [f"only {counts}"]))


def as_wide_as_the_plane(program, seed):
    """Patterns whose box is as wide or as high as the plane, or a few cells less, so that there is little space about it even in the middle of the plane."""
    it, wrong, left, stayed = random.Random(seed), [], 0, 0
    for number in range(60):
        rule, most, gap = it.choice(["B3/S23", "B36/S23", "B/S012345678", "B2/S", "B1357/S1357"]), it.randrange(1, 7), it.randrange(0, 8)
        first, second = random_cells(it, 4), random_cells(it, 4)
        one = {(x - EDGE, y) for x, y in first} | {(EDGE - 1 - gap - x, y + 5) for x, y in second}
        cells = one if it.random() < 0.5 else {(y, x) for x, y in one}
        found, wanted = program.period(file_of(cells, rule), most), wanted_line(cells, rule, most)
        left, stayed = left + (found == b"OutOfPlane\n"), stayed + (found != b"OutOfPlane\n")
        wrong += [] if found == wanted else [f"{number}: {rule} {sorted(cells)} up to {most}: {found!r} and not {wanted!r}"]
    counting.row(f"60 patterns as wide as the plane, of which {left} leave it", wrong[:3] + ([] if left > 5 and stayed > 5 else [f"{left} leave it"]))


def refused(program):
    """What has no period that is sought."""
    for name, file, wanted in (
        ("a rule with births on 0", b"x = 1, y = 1, rule = B03/S23\no!\n", b"line 1: BirthOnZero\n"),
        ("a rule that is a name", b"x = 1, y = 1, rule = WireWorld\nA!\n", b"NeedsTable\n"),
        ("no cell under a rule that is a name", b"x = 0, y = 0, rule = WireWorld\n!\n", b"NeedsTable\n"),
        ("a file without a header", b"o!\n", b"line 1: NoHeader\n"),
    ):
        for most in (1, 2**64 - 1):
            found = program.period(file, most)
            counting.row(f"{name}, up to {most}", [] if found == wanted else [repr(found)])


def of_the_last_generation(program):
    """The generation of the file doesn't count: the period of a pattern of the last generation is sought too."""
    found = program.period(b"#CXRLE Pos=0,0 Gen=18446744073709551615\nx = 3, y = 1, rule = B3/S23\n3o!\n", 5)
    counting.row("a blinker of the last generation", [] if found == line_of(2, 0, 0) else [repr(found)])


def that_grows(program):
    """A soup that needs ever more squares ends with its memory."""
    it = random.Random(1)
    cells = "$".join("".join(it.choice("ob") for _ in range(64)) for _ in range(64))
    file = f"x = 64, y = 64, rule = B34/S34\n{cells}!\n".encode()
    most = MEGABYTES * 2**20
    limit = {"preexec_fn": lambda: resource.setrlimit(resource.RLIMIT_AS, (most, most))}
    before = resource.getrusage(resource.RUSAGE_CHILDREN).ru_utime
    run = subprocess.run([program.path, "show", "-", "--period", str(2**40)], input=file, capture_output=True, timeout=600, check=False, **limit)
    seconds = resource.getrusage(resource.RUSAGE_CHILDREN).ru_utime - before
    found = run.returncode, run.stdout, run.stderr
    counting.row(f"a soup that grows for ever, with {MEGABYTES} MB", [] if found == (4, b"", b"Memory\n") and seconds < SECONDS else [f"{found!r:.200}, {seconds:.1f} s"])


# ---- on a terminal

LINE = b"\rseeking a period up to %d; Ctrl-C stops, ulimit -v limits memory"
CLEARED = b"\r\x1b[K"


def on_terminal(program):
    """The line on a terminal, and what ends it."""
    glider = b"x = 3, y = 3\nbo$2bo$3o!\n"
    program.put("glider.rle", glider)
    program.put("named.rle", b"x = 1, y = 1, rule = WireWorld\nA!\n")
    shown = program.run(["show", "-"], glider).output
    for name, words, text, said in (
        ("a period", ["glider.rle", "--period", "40"], shown + line_of(4, 1, 1), LINE % 40 + CLEARED),
        ("no period", ["glider.rle", "--period", "3"], shown + none_up_to(3), LINE % 3 + CLEARED),
        ("no period asked for", ["glider.rle"], shown, b""),
        ("a rule that is a name", ["named.rle", "--period", "9"], b"", LINE % 9 + CLEARED + b"NeedsTable\n"),
    ):
        terminal = terminals.Terminal()
        with tempfile.TemporaryFile() as out:
            with terminal.start([program.path, "show", *words], cwd=program.folder, stdin=subprocess.DEVNULL, stdout=out) as run:
                heard = terminal.read()
            out.seek(0)
            found = out.read()
        os.close(terminal.end)
        right = found == text and heard.startswith(said) and (heard == said or said.endswith(b"NeedsTable\n"))
        counting.row(f"on a terminal: {name}", [] if right else [f"{found[:100]!r} {heard!r}"])
    interrupted(program)


def interrupted(program):
    """Ctrl-C ends a long search at once, by the signal, and nothing is written."""
    cells = "$".join("".join(random.Random(row).choice("ob") for _ in range(64)) for row in range(64))
    program.put("growing.rle", f"x = 64, y = 64, rule = B34/S34\n{cells}!\n".encode())
    path, most = os.path.join(program.folder, "written"), 2**40
    terminal = terminals.Terminal()
    with open(path, "wb") as out:
        with terminal.start([program.path, "show", "growing.rle", "--period", str(most)], cwd=program.folder, stdin=subprocess.DEVNULL, stdout=out) as run:
            heard = terminal.read(LINE % most)
            time.sleep(0.3)  # it is at work
            is_running = run.poll() is None
            began = time.monotonic()
            os.write(terminal.end, b"\x03")
            run.wait(60)
            seconds = time.monotonic() - began
    os.close(terminal.end)
    found = run.returncode, os.path.getsize(path)
    right = heard == LINE % most and is_running and found == (-signal.SIGINT, 0) and seconds < 5
    counting.row(f"Ctrl-C ends a long search in {seconds:.2f} s", [] if right else [f"{heard!r} {is_running} {found}"])


def main():
    parser = argparse.ArgumentParser()
    parser.add_argument("program")
    parser.add_argument("--seed", type=int, default=1)
    given = parser.parse_args()
    with tempfile.TemporaryDirectory() as folder:
        program = Program(processes.program_of(given.program), folder)
        known(program)
        of_directions(program)
        at_random(program, given.seed)
        as_wide_as_the_plane(program, given.seed)
        refused(program)
        of_the_last_generation(program)
        on_terminal(program)
        that_grows(program)
    return counting.ended()


if __name__ == "__main__":
    sys.exit(main())
