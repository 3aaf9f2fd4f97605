#!/usr/bin/env python3
"""Holds `step --generations` of the built program, PROGRAM, against Golly and against `step`: whole texts of patterns that everybody knows beside those that
`bgolly` makes of them; by a rule table, and at the edge of the plane, which Golly's plane doesn't have, beside repeated single steps; of more cells than `step`
takes, by how many there are; and a soup that grows for ever, which ends where the memory that it may have ends.

On a terminal a line there says what is done until the answer comes, and Ctrl-C ends it at once, with nothing written.

usage: tests/program/generations.py PROGRAM [--golly BGOLLY] [--seed SEED]

The last line counts the checks."""

import argparse
import os
import random
import resource
import shutil
import signal
import subprocess
import sys
import tempfile
import time

sys.dont_write_bytecode = True  # nothing is left in tests/
sys.path.insert(0, os.path.dirname(os.path.dirname(os.path.abspath(__file__))))

from shared import counting, processes, terminals  # noqa: E402
from shared.fixtures import FILES  # noqa: E402

GUN = ("24bo$22bobo$12b2o6b2o12b2o$11bo3bo4b2o12b2o$2o8bo5bo3b2o$2o8bo3bob2o4bobo$10bo5bo7bo$11bo3bo$12b2o!")
# Known patterns, so many generations later, and how many cells they have then, where the literature says so.
KNOWN = [
    ("the r-pentomino", "b2o$2o$bo!", 1103, 116),
    ("the acorn", "bo$3bo$2o2b3o!", 5206, 633),
    ("the diehard", "6bo$2o$bo3b3o!", 130, 0),
    ("a glider", "bo$2bo$3o!", 31, 5),
    ("a glider, far away", "bo$2bo$3o!", 1 << 40, 5),
    ("the gun of gliders", GUN, 30 * 40, 36 + 5 * 40),
    ("the gun of gliders, long after", GUN, 30 * 10_000, None),
]
EDGE = 1 << 61  # the plane's coordinates go from -EDGE to EDGE - 1
# The rule WireWorld: a head becomes a tail, a tail becomes wire, and wire becomes a head beside one head or two.
WIREWORLD = "".join([
    "@RULE WireWorld\n@TABLE\nn_states:4\nneighborhood:Moore\nsymmetries:permute\n", *(f"var {it}={{0,1,2,3}}\n" for it in "abcdefgh"),
    *(f"var {it}={{0,2,3}}\n" for it in "ijklmno"), "1,a,b,c,d,e,f,g,h,2\n2,a,b,c,d,e,f,g,h,3\n3,1,i,j,k,l,m,n,o,1\n3,1,1,i,j,k,l,m,n,1\n"]).encode()
# An electron that goes round a ring of wire.
RING = b"x = 5, y = 3, rule = WireWorld\n.AB.$C3.C$.3C!\n"
# Seconds of processor time, and megabytes, for a soup that grows for ever.
SECONDS, MEGABYTES = 60, 300


class Program:
    """The program, in a folder of its own."""

    def __init__(self, path, folder):
        self.path, self.folder = path, folder

    def run(self, words, source=b""):
        return processes.run([self.path, *words], source, cwd=self.folder, timeout=600)

    def put(self, name, data):
        with open(os.path.join(self.folder, name), "wb") as it:
            it.write(data)

    def text(self, words, source=b""):
        """What it writes, or the line of the refusal."""
        found = self.run(words, source)
        return found.output if found.status == 0 else found.error

    def later(self, file, number, words=()):
        return self.text(["step", "-", "--generations", str(number), *words], file)

    def singly(self, file, number, words=()):
        """The text of a file by single steps, or the line of the first refusal."""
        text = self.text(["canon", "-"], file)
        for _ in range(number):
            found = self.run(["step", "-", *words], text)
            if found.status != 0:
                return found.error
            text = found.output
        return text

    def population(self, text):
        return int(self.text(["show", "-"], text).split(b"\n")[2].split()[1])


def golly_later(golly, rle, number, folder):
    """The macrocell that Golly writes of an RLE so many generations later, by HashLife."""
    given, made = (os.path.join(folder, it) for it in ("given.rle", "made.mc"))
    with open(given, "wb") as it:
        it.write(rle)
    words = [golly, "-q", "-q", "-a", "HashLife", "-m", str(number), "-o", made, given]
    subprocess.run(words, check=True, stdin=subprocess.DEVNULL, stdout=subprocess.DEVNULL, stderr=subprocess.DEVNULL, timeout=600)
    with open(made, "rb") as it:
        return it.read()


def beside_golly(program, golly):
    """Golly puts an RLE one row further south than the program reads it."""
    for name, cells, number, population in KNOWN:
        rle = f"x = 1, y = 1, rule = B3/S23\n{cells}\n".encode()
        ours = program.later(b"#CXRLE Pos=0,-1\n" + rle, number)
        of_golly = program.text(["canon", "-"], golly_later(golly, rle, number, program.folder))
        problems = [] if ours == of_golly else [f"{ours[:200]!r}, and {of_golly[:200]!r} of Golly's"]
        counted = program.population(ours)
        counting.row(f"{name}, {number} generations later, beside Golly", problems + ([] if population in (None, counted) else [f"{counted} cells"]))


def beside_steps(program):
    """Patterns of any rule beside repeated single steps."""
    program.put("wires.rule", WIREWORLD)
    program.put("spread.rule", FILES["spread.rule"])
    for name, file, words, numbers in (
        ("a gun", f"x = 36, y = 9\n{GUN}\n".encode(), [], (0, 1, 2, 45)), ("a ring of wire", RING, ["--table", "wires.rule"], (0, 1, 2, 11)),
        ("a state that spreads", FILES["spread.rle"], ["--table", "spread.rule"], (0, 1, 2, 9))):
        for number in numbers:
            one, many = program.later(file, number, words), program.singly(file, number, words)
            counting.row(f"{name}, {number} generations later, beside single steps", [] if one == many else [f"{one[:200]!r} and not {many[:200]!r}"])
    moved = program.later(RING, 3, ["--table", "wires.rule"]) != program.later(RING, 4, ["--table", "wires.rule"])
    counting.row("the electron moves", [] if moved else ["it doesn't"])


def at_the_edge(program, seed):
    """Patterns within a few cells of a side or a corner of the plane, by single steps and at once. Some leave the plane, and some don't."""
    it, wrong, left = random.Random(seed), [], 0
    for number in range(40):
        rule, generations = it.choice(["B3/S23", "B36/S23", "B2/S", "B1357/S1357", "B3/S23V"]), it.randrange(1, 7)
        width, height = it.randrange(1, 7), it.randrange(1, 7)
        rows = ["".join(it.choice("ob") for _ in range(width)) for _ in range(height)]
        gap = it.randrange(5)
        column = it.choice([-EDGE + gap, EDGE - width - gap, it.randrange(-9, 9)])
        row = it.choice([-EDGE + gap, EDGE - height - gap])
        file = f"#CXRLE Pos={column},{row}\nx = {width}, y = {height}, rule = {rule}\n{'$'.join(rows)}!\n".encode()
        one, many = program.later(file, generations), program.singly(file, generations)
        left += many == b"OutOfPlane\n"
        wrong += [] if one == many else [f"{number}: {file!r} {generations}: {one!r:.100} and not {many!r:.100}"]
    counting.row(f"40 patterns at the edge of the plane, of which {left} leave it", wrong[:3] if 5 < left < 35 else [f"{left} leave it", *wrong[:2]])


def of_many_cells(program):
    """More cells than `step` takes: a row of n cells becomes three rows of n - 2. `step` refuses both."""
    for name, file, count in (("2^20 + 1 cells", FILES["many.rle"], 2**20 + 1),
                              ("a row of the whole plane", b"#CXRLE Pos=%d,0\nx = 1, y = 1\n%do!\n" % (-EDGE, 2 * EDGE), 2 * EDGE)):
        text, refused = program.later(file, 1), program.singly(file, 1)
        problems = [] if text.startswith(b"[M2]") and program.population(text) == 3 * (count - 2) else [repr(text[:100])]
        counting.row(f"a generation of {name}", problems + ([] if refused == b"TooManyCells\n" else [f"step: {refused[:100]!r}"]))


def that_grows(program):
    """A soup that needs ever more squares ends with its memory."""
    it = random.Random(1)
    cells = "$".join("".join(it.choice("ob") for _ in range(64)) for _ in range(64))
    file = f"x = 64, y = 64, rule = B34/S34\n{cells}!\n".encode()
    most = MEGABYTES * 2**20
    limit = {"preexec_fn": lambda: resource.setrlimit(resource.RLIMIT_AS, (most, most))}
    before = resource.getrusage(resource.RUSAGE_CHILDREN).ru_utime
    run = subprocess.run([program.path, "step", "-", "--generations", str(2**40)], input=file, capture_output=True, timeout=600, check=False, **limit)
    seconds = resource.getrusage(resource.RUSAGE_CHILDREN).ru_utime - before
    found = run.returncode, run.stdout, run.stderr
    counting.row(f"a soup that grows for ever, with {MEGABYTES} MB", [] if found == (4, b"", b"Memory\n") and seconds < SECONDS else [f"{found!r:.200}, {seconds:.1f} s"])


# ---- on a terminal

LINE = b"\rmaking %d generation%s; Ctrl-C stops, ulimit -v limits memory"
CLEARED = b"\r\x1b[K"


def line_of(number):
    return LINE % (number, b"" if number == 1 else b"s")


def on_terminal(program):
    """The line on a terminal, and what ends it."""
    glider, wanted = b"x = 3, y = 3\nbo$2bo$3o!\n", program.later(b"x = 3, y = 3\nbo$2bo$3o!\n", 40)
    program.put("glider.rle", glider)
    program.put("leaving.rle", b"#CXRLE Pos=%d,0\nx = 3, y = 3\nbo$2bo$3o!\n" % (EDGE - 3))
    program.put("wires.rule", WIREWORLD)
    program.put("ring.rle", RING)
    ring = program.later(RING, 11, ["--table", "wires.rule"])
    for name, words, text, shown in (
        ("40 generations", ["glider.rle", "--generations", "40"], wanted, line_of(40) + CLEARED),
        ("one generation", ["glider.rle", "--generations", "1"], program.later(glider, 1), line_of(1) + CLEARED),
        ("generations by a table", ["ring.rle", "--generations", "11", "--table", "wires.rule"], ring, line_of(11) + CLEARED),
        ("a cell that leaves the plane", ["leaving.rle", "--generations", "99"], b"", line_of(99) + CLEARED + b"OutOfPlane\n"),
        ("a step without a number", ["glider.rle"], program.text(["step", "-"], glider), b""),
    ):
        terminal = terminals.Terminal()
        with tempfile.TemporaryFile() as out:
            with terminal.start([program.path, "step", *words], cwd=program.folder, stdin=subprocess.DEVNULL, stdout=out) as run:
                said = terminal.read()
            out.seek(0)
            found = out.read()
        os.close(terminal.end)
        problems = [] if found == text and said.startswith(shown) and (shown.endswith(b"OutOfPlane\n") or said == shown) else [f"{found[:100]!r} {said!r}"]
        counting.row(f"on a terminal: {name}", problems)
    shared_terminal(program, glider, wanted)
    interrupted(program)


def shared_terminal(program, glider, wanted):
    """Where standard output is the same terminal, the line is cleared before the text."""
    terminal = terminals.Terminal()
    with terminal.start([program.path, "step", "-", "--generations", "40"], stdin=subprocess.PIPE, stdout=terminal.own) as run:
        run.stdin.write(glider)
        run.stdin.close()
        said = terminal.read()
    os.close(terminal.end)
    counting.row("on a terminal: the text too", [] if said == line_of(40) + CLEARED + wanted else [repr(said)])


def interrupted(program):
    """Ctrl-C ends a long run at once, by the signal, and nothing is written."""
    cells = "$".join("".join(random.Random(row).choice("ob") for _ in range(64)) for row in range(64))
    program.put("growing.rle", f"x = 64, y = 64, rule = B34/S34\n{cells}!\n".encode())
    path, number = os.path.join(program.folder, "written"), 2**40
    terminal = terminals.Terminal()
    with open(path, "wb") as out:
        with terminal.start([program.path, "step", "growing.rle", "--generations", str(number)], cwd=program.folder, stdin=subprocess.DEVNULL, stdout=out) as run:
            said = terminal.read(line_of(number))
            time.sleep(0.3)  # it is at work
            is_running = run.poll() is None
            began = time.monotonic()
            os.write(terminal.end, b"\x03")
            run.wait(60)
            seconds = time.monotonic() - began
    os.close(terminal.end)
    found = run.returncode, os.path.getsize(path)
    right = said == line_of(number) and is_running and found == (-signal.SIGINT, 0) and seconds < 5
    counting.row(f"Ctrl-C ends a long run in {seconds:.2f} s", [] if right else [f"{said!r} {is_running} {found}"])


def main():
    parser = argparse.ArgumentParser()
    parser.add_argument("program")
    parser.add_argument("--golly", default=shutil.which("bgolly"))
    parser.add_argument("--seed", type=int, default=1)
    given = parser.parse_args()
    with tempfile.TemporaryDirectory() as folder:
        program = Program(processes.program_of(given.program), folder)
        if given.golly is None:
            counting.check(False, "bgolly isn't installed")
        else:
            beside_golly(program, given.golly)
        beside_steps(program)
        at_the_edge(program, given.seed)
        of_many_cells(program)
        on_terminal(program)
        that_grows(program)
    return counting.ended()


if __name__ == "__main__":
    sys.exit(main())
