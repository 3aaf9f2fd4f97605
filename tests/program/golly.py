#!/usr/bin/env python3
"""Holds the built program against Golly: `bgolly`, which reads, steps and writes patterns without a window, and the patterns and rule tables that
come with it.

usage: tests/program/golly.py PROGRAM [--golly BGOLLY] [--folder FOLDER] [--cases N] [--seed SEED]

FOLDER has Golly's Patterns and Rules; where none is named, it is share/golly beside the folder of BGOLLY. Of each pattern there that the program
accepts, and of N random ones, it compares

- the population that `show` tells, and Golly's;
- the RLE that `convert` writes, and what Golly makes of it: one pattern, but for its place, which bgolly doesn't write;
- the canonical text, and the macrocell that Golly makes of it: one canonical text, but where a leaf is the root, which Golly reads as blank;
- the macrocell that Golly makes of an RLE: the same cells one row further north;
- the next generation by the rule or by the rule table, and Golly's: one pattern, but for its place.

Of each it also takes the forms `moved` and `turned`, however many cells the pattern has: the text of a form has the population that Golly tells, and that
text again in that form.

Of 200 other random patterns it saves each by Golly in both formats: the two files have one key in the form `moved`, and the program's `keys` tells those
of all files in one run.

Of a rule table in a zip file it compares the last of these for each pattern beside it. A table that the program refuses as BadVariable is mended by the
recipe of docs/RECIPES.md, and a line that is Ambiguous is split as it stands there.

What it refuses of them is of another format, or its rule is of a kind that docs/FORMATS.md leaves out. The last line counts the checks.
"""

import argparse
import collections
import gzip
import os
import random
import re
import shutil
import subprocess
import sys
import tempfile
import zipfile
from concurrent.futures import ThreadPoolExecutor

sys.path.insert(0, os.path.dirname(os.path.dirname(os.path.abspath(__file__))))

from shared import counting, processes  # noqa: E402

RECIPES = os.path.join(os.path.dirname(os.path.abspath(__file__)), "../../docs/RECIPES.md")
# The most cells of a pattern that is written as RLE or stepped.
MOST_CELLS = 2**20
# How many patterns are saved in both formats.
SAVED = 200
LIFE = re.compile(r"B[0-8]*/S[0-8]*V?")
# What a file of each ending may be refused by.
REFUSALS = {"rle": {"BoundedGrid", "UnsupportedRule", "BirthOnZero"}, "mc": set(), "mcl": {"NoHeader"}, "lif": {"NoHeader"}}
ENDINGS = tuple(f".{it}{packed}" for it in REFUSALS for packed in ("", ".gz"))


class Difference(Exception):
    """What the two say otherwise."""


class Golly:
    """Golly without a window."""

    def __init__(self, path, rules):
        self.path = path
        self.rules = rules

    def knows(self, rule):
        """Whether it has the rule: a B/S rule, or one of its rule files."""
        return bool(LIFE.fullmatch(rule)) or os.path.exists(os.path.join(self.rules, f"{rule}.rule"))

    def words_for(self, rule, is_macrocell):
        """Its words for an algorithm: for a B/S rule the one that reads the format, and else that of rule files."""
        if not LIFE.fullmatch(rule):
            return ["-a", "RuleLoader", "-s", os.path.join(self.rules, "")]
        return ["-h"] if is_macrocell else []

    def made(self, text, rule, ending, generations=0):
        """The population that Golly tells of a pattern after so many generations, and the file with this ending that it writes of it."""
        with tempfile.TemporaryDirectory() as folder:
            is_macrocell = text.startswith(b"[M2]")
            given, wanted = os.path.join(folder, "given.mc" if is_macrocell else "given.rle"), os.path.join(folder, f"made.{ending}")
            with open(given, "wb") as it:
                it.write(text)
            algorithm = self.words_for(rule, is_macrocell or ending == "mc")
            run = subprocess.run([self.path, *algorithm, "-m", str(generations), "-o", wanted, given], stdin=subprocess.DEVNULL,
                                 stdout=subprocess.PIPE, stderr=subprocess.STDOUT, timeout=300)
            told = re.findall(rb"^(\d+): ([\d,]+)$", run.stdout, re.MULTILINE)
            if run.returncode or not told or not os.path.exists(wanted):
                raise Difference(f"Golly answers {run.returncode}: {run.stdout[-200:]!r}")
            with open(wanted, "rb") as it:
                return int(told[-1][1].replace(b",", b"")), it.read()


class Program:
    """The program."""

    def __init__(self, path):
        self.path = path

    def run(self, *words, text):
        return processes.run([self.path, words[0], "-", *words[1:]], text, timeout=300)

    def answer(self, *words, text):
        """What it writes for a pattern that it has to take."""
        run = self.run(*words, text=text)
        if run.status:
            raise Difference(f"{' '.join(words)} refuses: {run.error.decode()!r}")
        return run.output


def placeless(rle):
    """What the program writes as RLE, without the line that says place and generation."""
    return rle.split(b"\n", 1)[1]


def one_row_north(rle):
    """What the program writes as RLE, with a place one row further north."""
    return re.sub(rb"Pos=(-?\d+),(-?\d+)", lambda at: b"Pos=%s,%d" % (at[1], int(at[2]) - 1), rle, count=1)


def equal(what, ours, golly):
    if ours != golly:
        raise Difference(f"{what}: {ours[:200]!r}, and of Golly's {golly[:200]!r}")


class Comparison:
    """The checks of one pattern, given by its text in either format."""

    def __init__(self, program, golly, text, rule, tables):
        self.program, self.golly, self.text, self.rule = program, golly, text, rule
        self.table = tables.get(rule)

    def checks(self):
        """The names of what was compared."""
        shown = dict(line.split(" ", 1) for line in self.program.answer("show", text=self.text).decode().splitlines())
        self.canonical = self.program.answer("canon", text=self.text)
        self.population = int(shown["population"])
        # Where the root is a leaf, or there is no line for it.
        self.is_small = int(shown["nodes"]) <= 1
        yield from self.texts()
        yield from self.forms()
        if 0 < self.population <= MOST_CELLS:
            self.rle = self.program.answer("convert", "--to", "rle", text=self.text)
            yield from self.conversions()
            yield from self.steps()

    def texts(self):
        if self.is_small:
            return
        population, made = self.golly.made(self.canonical, self.rule, "mc")
        equal("the population", str(self.population), str(population))
        yield "population"
        equal("the canonical text", self.canonical, self.program.answer("canon", text=made))
        yield "canonical text"

    def forms(self):
        for form in ("moved", "turned"):
            text = self.program.answer("canon", "--form", form, text=self.text)
            shown = self.program.answer("show", text=text).decode()
            equal(f"the population, {form}", f"population {self.population}", shown.splitlines()[2])
            equal(f"the text, {form}", text, self.program.answer("canon", "--form", form, text=text))
            yield f"form {form}"

    def conversions(self):
        population, made = self.golly.made(self.rle, self.rule, "rle")
        equal("the population in RLE", str(self.population), str(population))
        equal("the RLE", placeless(self.rle), placeless(self.program.answer("convert", "--to", "rle", text=made)))
        yield "RLE"
        _, made = self.golly.made(self.rle, self.rule, "mc")
        equal("the macrocell of the RLE", self.program.answer("canon", text=one_row_north(self.rle)), self.program.answer("canon", text=made))
        yield "macrocell one row north"

    def steps(self):
        words = ["step"]
        if not LIFE.fullmatch(self.rule):
            if not self.table:
                return
            words += ["--table", self.table]
        run = self.program.run(*words, text=self.rle)
        if run.status:
            raise Difference(f"the step is refused: {run.error.decode()!r}")
        ours = self.program.answer("convert", "--to", "rle", text=run.output)
        _, made = self.golly.made(self.rle, self.rule, "rle", generations=1)
        equal("the next generation", placeless(ours), placeless(self.program.answer("convert", "--to", "rle", text=made)))
        yield "step by a table" if self.table else "step"


def rule_of(text):
    return text.split(b"\n")[1][3:].decode()


def collection(folder):
    """The pattern files, unpacked, each with its name and ending."""
    for at, _, names in sorted(os.walk(os.path.join(folder, "Patterns"))):
        for name in sorted(it for it in names if it.endswith(ENDINGS)):
            with open(os.path.join(at, name), "rb") as it:
                data = it.read()
            if data.startswith(b"\x1f\x8b"):
                data = gzip.decompress(data)
            yield name, name.removesuffix(".gz").rpartition(".")[2], data


def rule_tables(folder):
    """The rule files that have a table, by the names of their rules, each with the number of its states."""
    found = {}
    for name in sorted(os.listdir(folder)):
        path = os.path.join(folder, name)
        if name.endswith(".rule"):
            with open(path, "rb") as it:
                data = it.read()
            states = re.search(rb"^@TABLE\b.*?^n_states *: *(\d+)", data, re.MULTILINE | re.DOTALL)
            if states:
                found[re.search(rb"^@RULE +(\S+)", data, re.MULTILINE)[1].decode()] = path, int(states[1])
    return found


def zipped_tables(folder):
    """The rule tables in zip files: the name of each, its text, and the patterns beside it."""
    for at, _, names in sorted(os.walk(os.path.join(folder, "Patterns"))):
        for name in sorted(it for it in names if it.endswith(".zip")):
            with zipfile.ZipFile(os.path.join(at, name)) as it:
                files = {name: it.read(name) for name in it.namelist()}
            for name, data in files.items():
                if name.endswith(".rule") and re.search(rb"^@TABLE\b", data, re.MULTILINE):
                    yield os.path.basename(name).removesuffix(".rule"), data, [text for name, text in files.items() if name.endswith((".rle", ".mc"))]


def mended(folder, table):
    """The table with its variables mended by the recipe."""
    with open(RECIPES, encoding="utf-8") as it:
        recipe = re.search(r"<!-- recipe: variables -->\n```sh\n(.*?)\n```", it.read(), re.DOTALL)[1]
    with open(os.path.join(folder, "Wind.rule"), "wb") as it:
        it.write(table)
    subprocess.run(["sh", "-c", recipe], cwd=folder, check=True)
    with open(os.path.join(folder, "mended.rule"), "rb") as it:
        return it.read()


def split(table, number):
    """The table with a line for each value of the output of this line, in the order of the variable's list."""
    lines = table.split(b"\n")
    entries = lines[number - 1].strip().split(b",")
    states = re.search(rb"^var %s = \{([^}]*)\}" % re.escape(entries[-1]), table, re.MULTILINE)[1].split(b",")
    lines[number - 1:number] = [b",".join(state if it == entries[-1] else it for it in entries) for state in states]
    return b"\n".join(lines)


class Zipped:
    """The checks of a rule table in a zip file."""

    def __init__(self, program, golly, folder):
        self.program, self.golly, self.folder = program, golly, folder

    def step(self, table, text):
        path = os.path.join(self.folder, "given.rule")
        with open(path, "wb") as it:
            it.write(table)
        return self.program.run("step", "--table", path, text=text)

    def checks(self, rule, table, patterns):
        with open(os.path.join(self.folder, f"{rule}.rule"), "wb") as it:
            it.write(table)
        blank = f"x = 0, y = 0, rule = {rule}\n!\n".encode()
        run = self.step(table, blank)
        yield "zipped table, refused as BadVariable" if run.error.endswith(b": BadVariable\n") else "zipped table"
        if run.status:
            table = mended(self.folder, table)
            run = self.step(table, blank)
            equal("the mended table", (run.status, run.error), (0, b""))
        for text in patterns:
            rle = self.program.answer("convert", "--to", "rle", text=text)
            run = self.step(table, rle)
            line = re.fullmatch(rb"table line (\d+): Ambiguous\n", run.error)
            if line:
                run = self.step(split(table, int(line[1])), rle)
                yield "ambiguous line, split"
            ours = self.program.answer("convert", "--to", "rle", text=run.output)
            _, made = self.golly.made(rle, rule, "rle", generations=1)
            equal("the next generation", placeless(ours), placeless(self.program.answer("convert", "--to", "rle", text=made)))
            yield "step by a zipped table"


def soup(rng, rule, states):
    """A random pattern of a rule as RLE, somewhere on the plane."""
    width, height, share = rng.randrange(1, 40), rng.randrange(1, 40), rng.choice([0.1, 0.3, 0.5])
    dead, *live = ["b", "o"] if LIFE.fullmatch(rule) else [".", *map(letters_of, range(1, states))]
    rows = "$\n".join("".join(rng.choice(live) if rng.random() < share else dead for _ in range(width)) for _ in range(height))
    x = rng.choice([0, rng.randrange(-50, 50), rng.randrange(-10**6, 10**6)])
    return f"#CXRLE Pos={x},{rng.randrange(-50, 50)}\nx = {width}, y = {height}, rule = {rule}\n{rows}!\n".encode()


def letters_of(state):
    """A state from 1 to 255 in RLE."""
    high, low = divmod(state - 1, 24)
    return ("" if high == 0 else chr(ord("p") + high - 1)) + chr(ord("A") + low)


def random_rule(rng):
    """A B/S rule of eight neighbours, or of four, without a birth on none."""
    most, letter = rng.choice([(8, ""), (8, ""), (4, "V")])
    births, survivals = [[digit for digit in range(first, most + 1) if rng.random() < 0.4] for first in (1, 0)]
    return f"B{''.join(map(str, births))}/S{''.join(map(str, survivals))}{letter}"


def random_patterns(tables, count, seed):
    """Random patterns: half of them under B/S rules, and half by the tables in turn."""
    rng = random.Random(seed)
    named = sorted(tables)
    for case in range(count):
        if case % 2 or not named:
            rule, states = random_rule(rng), 2
        else:
            rule = named[case // 2 % len(named)]
            states = tables[rule][1]
        yield f"random pattern {case} of {rule}", "rle", soup(rng, rule, states)


class Saved:
    """The keys of patterns that Golly saves in both formats."""

    def __init__(self, program, golly, folder):
        self.program, self.golly, self.folder = program, golly, folder

    def save(self, numbered):
        """Saves a pattern as NUMBER.rle and NUMBER.mc."""
        number, (_, _, text) = numbered
        rule = re.search(rb"rule = (\S+)", text)[1].decode()
        for ending in ("rle", "mc"):
            population, made = self.golly.made(text, rule, ending)
            with open(os.path.join(self.folder, f"{number}.{ending}"), "wb") as it:
                it.write(made)
        return population

    def checks(self, pool, patterns):
        """The names of what was compared, and what is wrong, if anything. A blank pattern has no place, and isn't counted."""
        populations = list(pool.map(self.save, enumerate(patterns)))
        names = [f"{number}.{ending}" for number in range(len(patterns)) for ending in ("rle", "mc")]
        run = processes.run([self.program.path, "keys", "--form", "moved", *names], cwd=self.folder, timeout=300)
        lines = [line.split("  ") for line in run.output.decode().splitlines()]
        if run.status or [name for _, name in lines] != names:
            yield None, f"keys of what Golly saved: status {run.status}, {run.error[:200]!r}, {len(lines)} lines"
            return
        for number, ((name, _, _), (one, other)) in enumerate(zip(patterns, zip(lines[::2], lines[1::2]))):
            if populations[number]:
                is_one = one[0] == other[0]
                yield ("one moved key of both formats", None) if is_one else (None, f"{name}: {one} and {other} are what Golly saved")
        # That the keys tell patterns apart: two of these are the same seldom.
        keys = {key for key, _ in lines}
        if 2 * len(keys) < len(patterns):
            yield None, f"{len(patterns)} patterns have {len(keys)} keys"


class Judge:
    """Runs the checks of each pattern."""

    def __init__(self, program, golly, tables):
        self.program, self.golly = program, golly
        self.tables = {rule: path for rule, (path, _) in tables.items()}

    def judged(self, given):
        """What was checked of a pattern, or why it was refused; and what is wrong, if anything."""
        name, ending, text = given
        done = []
        try:
            run = self.program.run("canon", text=text)
            if run.status:
                kind = run.error.decode().split()[-1]
                if run.status != 2 or kind not in REFUSALS[ending]:
                    raise Difference(f"refused: {run.error.decode()!r}")
                return [kind], None
            rule = rule_of(run.output)
            if not self.golly.knows(rule):
                return ["accepted, under a name without a rule file"], None
            for check in Comparison(self.program, self.golly, text, rule, self.tables).checks():
                done.append(check)
            return done, None
        except (Difference, subprocess.TimeoutExpired) as error:
            return done, f"{name}: {error}"

    def judged_zip(self, given):
        """What was checked of a rule table in a zip file, and what is wrong, if anything."""
        done = []
        try:
            with tempfile.TemporaryDirectory() as folder:
                for check in Zipped(self.program, Golly(self.golly.path, folder), folder).checks(*given):
                    done.append(check)
            return done, None
        except (Difference, subprocess.TimeoutExpired) as error:
            return done, f"{given[0]} in a zip file: {error}"


def main():
    words = argparse.ArgumentParser(description=__doc__.split("\n")[0])
    words.add_argument("program")
    words.add_argument("--golly", default=shutil.which("bgolly"))
    words.add_argument("--folder")
    words.add_argument("--cases", type=int, default=400)
    words.add_argument("--seed", type=int, default=1)
    given = words.parse_args()
    if not given.golly:
        sys.exit("bgolly is missing: apt-get install golly")
    folder = given.folder or os.path.join(os.path.dirname(os.path.dirname(given.golly)), "share", "golly")
    if not all(os.path.isdir(os.path.join(folder, it)) for it in ("Patterns", "Rules")):
        sys.exit(f"Golly's patterns and rules are missing in {folder}")
    tables = rule_tables(os.path.join(folder, "Rules"))
    judge = Judge(Program(processes.program_of(given.program)), Golly(given.golly, os.path.join(folder, "Rules")), tables)
    counts = collections.Counter()
    patterns = [*collection(folder), *random_patterns(tables, given.cases, given.seed)]
    with ThreadPoolExecutor(len(os.sched_getaffinity(0))) as pool:
        for done, problem in (*pool.map(judge.judged, patterns), *pool.map(judge.judged_zip, zipped_tables(folder))):
            counts.update(done)
            counting.count(len(done), 0)
            if problem:
                counting.check(False, problem)
        with tempfile.TemporaryDirectory() as saved:
            others = list(random_patterns(tables, SAVED, f"saved {given.seed}"))
            for what, problem in Saved(judge.program, judge.golly, saved).checks(pool, others):
                counts.update([what] if what else [])
                counting.check(not problem, problem)
    for what, count in sorted(counts.items()):
        print(f"ok      {what}: {count}")
    return counting.ended()


if __name__ == "__main__":
    sys.exit(main())
