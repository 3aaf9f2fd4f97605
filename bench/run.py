#!/usr/bin/env python3
"""Times golly_canon beside plain programs on the same work, in one run.

usage: bench/run.py PROGRAM FOLDER    (PROGRAM: the built golly_canon; FOLDER: where inputs and plain programs are made)

The plain program is bench/plain.c, compiled by gcc and by clang, as far as they are installed. OTHER in the environment names one more program, which takes
the command line of golly_canon. All of them take turns, nine times each, and the least processor time (user and system) of each counts. The ratio of a row is
to the fastest of the plain programs, and the row says which one that was. The bytes that they write are compared first: if OTHER refuses an input or writes
other bytes, then the row goes without it.

Golly's bgolly takes turns with golly_canon too, where it is installed. The memory is the peak resident size in one more run, which /usr/bin/time starts: what
this script starts itself is said to be as large as this script. With SMALL=1 in the environment each input has a tenth of the size that its row names, and
each program has three turns: that ends within three minutes.
"""
import math
import os
import shutil
import subprocess
import sys
import tempfile

HERE = os.path.dirname(os.path.abspath(__file__))
TOP = os.path.dirname(HERE)
IS_SMALL = os.environ.get("SMALL") == "1"
TURNS = 3 if IS_SMALL else 9
COMPILERS = ("gcc", "clang")
OTHER = os.environ.get("OTHER")


def peak_of(words):
    """The peak memory of a command in bytes."""
    with tempfile.NamedTemporaryFile("r") as told:
        subprocess.run(["/usr/bin/time", "-f", "%M", "-o", told.name, *words], stdin=subprocess.DEVNULL, stdout=subprocess.DEVNULL,
                       stderr=subprocess.DEVNULL, check=True)
        return int(told.read()) * 1024


def spent(words):
    """The processor seconds of a command. Its output is thrown away, so that the time to take it does not count; bgolly's standard error too, where
    it names the file that it writes."""
    with open(os.devnull, "wb") as sink:
        child = subprocess.Popen(words, stdin=subprocess.DEVNULL, stdout=sink, stderr=sink if words[0] == "bgolly" else None)
        _, status, usage = os.wait4(child.pid, 0)
    if os.waitstatus_to_exitcode(status) not in (0, 1):
        sys.exit(f"{' '.join(words)}: status {os.waitstatus_to_exitcode(status)}")
    return usage.ru_utime + usage.ru_stime


def in_turns(*commands):
    """The least processor seconds of each of some commands, which take turns."""
    return [min(times) for times in zip(*[[spent(words) for words in commands] for _ in range(TURNS)])]


def output(words):
    """What a command writes to standard output."""
    return subprocess.run(words, stdin=subprocess.DEVNULL, stdout=subprocess.PIPE, check=True).stdout


def writes(words, text):
    """Whether a command writes this text and ends well."""
    ran = subprocess.run(words, stdin=subprocess.DEVNULL, stdout=subprocess.PIPE, stderr=subprocess.DEVNULL, check=False)
    return ran.returncode in (0, 1) and ran.stdout == text


def plain(folder, name, compiler=None):
    """A program of bench/ in C, compiled."""
    path = os.path.join(folder, f"{name}_{compiler}" if compiler else name)
    subprocess.run([compiler or os.environ.get("CC", "cc"), "-O2", "-o", path, os.path.join(HERE, name + ".c")], check=True)
    return path


def plains(folder):
    """The plain program by each compiler that is installed: the compiler's name and the program. There is at least one."""
    found = [(it, plain(folder, "plain", it)) for it in COMPILERS if shutil.which(it)]
    return found or [("cc", plain(folder, "plain"))]


def made(folder, name, kind, size):
    """An input, made once; a tenth of the size where all is small."""
    size = size // 10 if IS_SMALL else size
    path = os.path.join(folder, f"{kind}_{size}{name}")
    if not os.path.exists(path):
        with open(path, "wb") as out:
            subprocess.run([os.path.join(folder, "generate"), kind, str(size)], stdout=out, check=True)
    return path


# The ratios of each command, to the fastest plain program and in memory to the least.
ratios = {}


def compared(label, program, words, references, others):
    """A row of the tables: a command of the program beside the plain ones, whose words may differ. Returns both processor times, ours and the least of the
    others."""
    text = output([program, *words])
    rivals = [(name, [reference, *others]) for name, reference in references]
    for name, rival in rivals:
        if not writes(rival, text):
            sys.exit(f"{label}: golly_canon and the plain program of {name} write other bytes")
    if OTHER and writes([OTHER, *words], text):
        rivals.append(("other", [OTHER, *words]))
    took, *times = in_turns([program, *words], *[rival for _, rival in rivals])
    base, fastest = min((time, rivals[number][0]) for number, time in enumerate(times))
    peak, base_peak = peak_of([program, *words]), peak_of(rivals[0][1])
    ratios.setdefault(words[0], []).append(took / base)
    print(f"  {label:<48} {took:6.3f} s, plain {base:6.3f} s ({fastest}): {took / base:4.2f}; memory {peak / 1e6:4.0f} MB, plain C {base_peak / 1e6:4.0f} MB:"
          f" {peak / base_peak:4.2f}; the same {len(text):,} bytes", flush=True)
    return took, base


SOUPS = (1_000_000, 10_000_000, 100_000_000)
MILLION = 2_140_000  # the bytes of a soup with some 2^20 cells that aren't 0


def megabytes(size):
    return f"{size // 1_000_000} MB"


def soup_of(folder, size):
    return made(folder, ".rle", "rle", size)


def tree_of(folder, reference, size):
    """The soup of a size as macrocell."""
    soup = soup_of(folder, size)
    path = soup + ".mc"
    if not os.path.exists(path):
        with open(path, "wb") as out:
            out.write(output([reference, "canon", soup]))
    return path


def kinds(folder):
    """The other inputs of `canon`: a label and a path each."""
    return [(label, made(folder, name, kind, size)) for label, name, kind, size in (
        ("random tree, 1,000,000 lines", ".mc", "macrocell", 1_000_000),
        ("random tree, 3,000,000 lines", ".mc", "macrocell", 3_000_000),
        ("named tree from level 1, 1,000,000 lines", ".mc", "named", 1_000_000),
        ("8 states, 10 MB", ".rle", "states8", 10_000_000),
        ("256 states, 10 MB", ".rle", "states256", 10_000_000),
        ("single cells in a square of 2^20, 7 MB", ".rle", "cells", 7_000_000),
        ("single cells in the whole plane, 1 MB", ".rle", "deep", 1_000_000),
        ("50,000 rows of 2^62 cells", ".rle", "rows", 50_000),
        ("50,000 rows of two cells, 8,000,000 columns apart", ".rle", "far", 50_000))]


def growth(what, times):
    """How the time of both programs grows from one soup to the next."""
    for shorter, longer in zip(SOUPS, SOUPS[1:]):
        ours, plains = (times[longer][of] / times[shorter][of] for of in (0, 1))
        print(f"  {what}: {megabytes(longer)} take {ours:.1f} times as long as {megabytes(shorter)}, in the plain program {plains:.1f} times")


def canonical(program, folder):
    print("golly_canon canon: processor time and peak memory beside the fastest plain program, which does the whole of the work and checks nothing")
    references, soups, trees = plains(folder), {}, {}
    reference = references[0][1]

    def row(label, path):
        return compared(label, program, ["canon", path], references, ["canon", path])

    for size in SOUPS:
        soups[size] = row(f"soup of {megabytes(size)}, RLE", soup_of(folder, size))
        trees[size] = row("the same soup, macrocell", tree_of(folder, reference, size))
    for size in (MILLION, *SOUPS[:2]):
        if output([program, "canon", soup_of(folder, size)]) != output([program, "canon", tree_of(folder, reference, size)]):
            sys.exit(f"a soup of {size} bytes has two canonical texts, one for each format")
    print("  both formats of a soup have one canonical text: 2^20 cells that aren't 0, 1 MB, 10 MB")
    for label, path in kinds(folder):
        row(label, path)
    growth("soups in RLE", soups)
    growth("the same as macrocell", trees)


def jobs(folder, reference):
    """The commands but `canon`: a label, the words for the program, and those for the plain one. What is converted and stepped has at most 2^20
    cells that aren't 0."""
    soup, tree = soup_of(folder, SOUPS[1]), tree_of(folder, reference, SOUPS[1])
    cells, states = soup_of(folder, MILLION), made(folder, ".rle", "states8", 2_000_000)
    listed = [(f"same, {label}", ["same", soup, other], ["same", soup, other])
              for label, other in (("RLE and macrocell", tree), ("RLE twice", soup))]
    listed += [(f"show, {label}", ["show", path], ["show", path]) for label, path in (("RLE", soup), ("macrocell", tree))]
    listed += [(f"convert --to rle, {label}", ["convert", path, "--to", "rle"], ["rle", path])
               for label, path in (("two states", cells), ("eight states", states))]
    listed += [(f"step, {label}", ["step", path], ["step", path])
               for label, path in (("RLE", cells), ("macrocell", tree_of(folder, reference, MILLION)))]
    for symmetry in ("rotate4", "permute"):
        table = os.path.join(folder, f"settled_{symmetry}.rule")
        with open(table, "wb") as out:
            subprocess.run([os.path.join(folder, "generate"), f"settled_{symmetry}", "300"], stdout=out, check=True)
        listed.append((f"step --table, 300 lines, {symmetry}", ["step", states, "--table", table], ["step", states, table]))
    return listed


def commands(program, folder):
    print(f"the other commands; soups of {megabytes(SOUPS[1])}, and what is converted and stepped has at most 2^20 cells that aren't 0")
    references = plains(folder)
    for label, words, others in jobs(folder, references[0][1]):
        compared(label, program, words, references, others)


def means():
    """The geometric mean and the largest ratio of each command."""
    for command, found in ratios.items():
        print(f"{command}: {math.exp(sum(map(math.log, found)) / len(found)):.2f} in the geometric mean of {len(found)}, {max(found):.2f} at most")


def beside_golly(program, folder):
    """Golly's own program without a window on what it takes of these inputs. It writes the same pattern by Golly's order of squares, or steps it, so
    bytes are not compared here (tests/program/golly.py compares what it reads)."""
    if not shutil.which("bgolly"):
        print("skipped: bgolly isn't installed")
        return
    print("beside bgolly, with HashLife, which reads a file and writes it as macrocell; the same for one generation")
    reference = plain(folder, "plain")
    soup, cells = soup_of(folder, SOUPS[1]), soup_of(folder, MILLION)
    paths = dict(kinds(folder))
    rows = [("canon, soup of 10 MB, RLE", ["canon", soup], 0), ("the same, macrocell", ["canon", tree_of(folder, reference, SOUPS[1])], 0)]
    rows += [(f"canon, {label}", ["canon", paths[label]], 0) for label in paths if label.startswith(("random tree", "single cells in a square"))]
    rows += [("step, RLE", ["step", cells], 1), ("step, macrocell", ["step", tree_of(folder, reference, MILLION)], 1)]
    with tempfile.TemporaryDirectory() as place:
        for label, words, generations in rows:
            golly = ["bgolly", "-q", "-q", "-a", "HashLife", "-m", str(generations), "-i", "1", "-o", f"{place}/out.mc", words[1]]
            took, other = in_turns([program, *words], golly)
            print(f"  {label:<48} {took:6.3f} s, bgolly {other:6.3f} s: {took / other:4.2f}", flush=True)


def main():
    if len(sys.argv) != 3:
        sys.exit(__doc__)
    program, folder = os.path.abspath(sys.argv[1]), os.path.abspath(sys.argv[2])
    os.makedirs(folder, exist_ok=True)
    plain(folder, "generate")
    if IS_SMALL:
        print("each input has a tenth of the size that its row names")
    canonical(program, folder)
    commands(program, folder)
    means()
    beside_golly(program, folder)


if __name__ == "__main__":
    main()
