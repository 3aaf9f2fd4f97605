#!/usr/bin/env python3
"""Holds the command `duplicates` of the built program, PROGRAM, to what docs/FORMATS.md says of it: the groups that follow from the keys of the
independent reader in tests/independent. What is said of files without a key is held to what `keys` says of them.

usage: tests/program/duplicates.py PROGRAM [--cases N] [--seed SEED]

The rows are: forms and the order of files and groups; folders; lists; odd names; files that are refused, and that can't be opened; the statuses; outputs
that fail; N random files of both formats; and 100,000 names in one process, within bounds of time and memory. The last line counts the checks.
"""

import argparse
import itertools
import multiprocessing
import os
import sys
import tempfile

sys.dont_write_bytecode = True  # nothing is left in tests/
sys.path.insert(0, os.path.dirname(os.path.dirname(os.path.abspath(__file__))))

from keys import (ABSENT, AT_START, CLOCK, DEVICES_LEFT_OUT, FOLDER, FORMS, LATER, MISUSED, NAMES, NO_NAME, NO_TEXT, ODD, ORDER, PHASE, RANDOM_FORMS,  # noqa: E402
                  SMALL, Place, escaped, listed, outcome_at_start, outcome_of, problems_of, random_outcomes, warned, words_of)
from shared import counting, processes  # noqa: E402
from shared.processes import Answer  # noqa: E402

# What a run over many names may take: processor time in seconds, and peak memory in bytes.
SECONDS, MOST = 20, 60_000_000


def text_of(groups, is_zero=False):
    """The text of groups of names."""
    end, line = (b"\0", bytes) if is_zero else (b"\n", escaped)
    return end.join(b"".join(line(name) + end for name in group) for group in groups)


def answer_of(named, is_zero=False):
    """The answer of a run over files, each a name with its status, and its key, or why it has none."""
    groups, statuses, errors = {}, [0], []
    for name, (status, said) in named:
        statuses.append(status)
        if status == 0:
            groups.setdefault(said, []).append(name)
        else:
            errors.append(b"%s: %s\n" % (escaped(name), said.encode()))
    groups = [group for group in groups.values() if len(group) > 1]
    return Answer(max(statuses) or (0 if groups else 1), text_of(groups, is_zero), b"".join(errors))


class Here(Place):
    """A folder in which the command runs."""

    def run(self, words, source=b"", **how):
        return processes.run([self.program, "duplicates", *words], source, cwd=self.here, timeout=300, **how)

    def wanted(self, names, form="moved", is_zero=False, outcome=outcome_of):
        return answer_of([(name, outcome(self.files.get(name, ABSENT), form)) for name in names], is_zero)


# What Golly writes of one pattern: its macrocell file is one row further north.
BY_GOLLY = {
    b"golly.rle": b"#CXRLE Pos=0,0\nx = 3, y = 3, rule = B3/S23\nbo$2bo$3o!\n",
    b"golly.mc": b"[M2] (golly 4.2)\n#R B3/S23\n$$$$$$$.*$\n..*$***$\n4 0 1 0 2\n",
}
# Words, and the groups that were worked out by hand.
WORKED = [
    ("nothing is alike", ["glider", "blank"], 1, []),
    ("one file", ["glider"], 1, []),
    ("one file, twice", ["glider", "glider"], 0, [[b"glider", b"glider"]]),
    ("two formats", ["pair.rle", "pair.mc", "--form", "placed"], 0, [[b"pair.rle", b"pair.mc"]]),
    ("what Golly writes", ["golly.mc", "golly.rle"], 0, [[b"golly.mc", b"golly.rle"]]),
    ("what Golly writes, as it lies", ["golly.mc", "golly.rle", "--form", "placed"], 1, []),
    ("a shift", ["glider", "shifted", "turned"], 0, [[b"glider", b"shifted"]]),
    ("a turn", ["glider", "shifted", "turned", "--form=turned"], 0, [[b"glider", b"shifted", b"turned"]]),
    ("another phase, turned", ["glider", "phase", "shifted", "turned", "--form=turned"], 0, [[b"glider", b"shifted", b"turned"]]),
    ("another phase", ["glider", "phase", "shifted", "turned", "--form=phases"], 0, [[b"glider", b"phase", b"shifted", b"turned"]]),
    ("another phase, of a period that isn't sought", ["glider", "phase", "--form=phases", "--within", "3"], 1, []),
    ("another phase, of one that is", ["glider", "phase", "--form=phases", "--within", "4"], 0, [[b"glider", b"phase"]]),
    ("the order of groups and names", ["blank", "pair.mc", "glider", "pair.rle", "shifted", "blank"], 0,
     [[b"blank", b"blank"], [b"pair.mc", b"pair.rle"], [b"glider", b"shifted"]]),
    ("a file in between that is alone", ["pair.mc", "named.rle", "pair.rle"], 0, [[b"pair.mc", b"pair.rle"]]),
]


def worked_rows(place):
    for name, words, status, groups in WORKED:
        place.row(f"by hand: {name}", words, Answer(status, text_of(groups)))
        place.row(f"by hand, ended by NULs: {name}", [*words, "--zero"], Answer(status, text_of(groups, is_zero=True)))
    for form in FORMS:
        place.row(f"the files in their order, {form}", [*ORDER, "--form", form], place.wanted(ORDER, form))
        place.row(f"the same, ended by NULs, {form}", ["--zero", *ORDER, f"--form={form}"], place.wanted(ORDER, form, is_zero=True))
    place.row("no form", ORDER, place.wanted(ORDER))
    for names in itertools.permutations([b"glider", b"shifted", b"pair.mc", b"pair.rle"]):
        place.row(f"in the order {b' '.join(names).decode()}", names, place.wanted(names))


def generation_rows(place):
    names = [b"pair.rle", b"later.rle", b"later.mc", b"last.rle", b"glider", b"none.mc"]
    for name in names:
        place.put(name, {**SMALL, **LATER}[name])
    pairs = [name for name in names if name != b"glider"]
    for form in FORMS:
        words = [*names, "--form", form]
        place.row(f"by hand: generations, {form}", words, Answer(0, text_of([pairs if form == "phases" else [b"pair.rle", b"none.mc"]])))
        place.row(f"by hand: generations that are ignored, {form}", [AT_START, *words], Answer(0, text_of([pairs])))
        place.row(f"the same, ended by NULs, {form}", ["--zero", *words, AT_START], Answer(0, text_of([pairs], is_zero=True)))
        place.row(f"files in their order without their generations, {form}", [AT_START, *ORDER, *words],
                  place.wanted([*ORDER, *names], form, outcome=outcome_at_start))
    place.row("by hand: generations that are ignored, and no duplicates", [AT_START, "later.rle", "glider"], Answer(1))


def refused_rows(place):
    for names in ([b"absent"], [b"child.mc"], [b"glider", b"absent", b"shifted"], [b"child.mc", b"glider", b"glider"], [b"absent", b"child.mc"],
                  [b"empty", b"empty"]):
        place.row(f"files without a key: {b' '.join(names).decode()}", names, place.wanted(names))
    place.row("a folder without -r", [".", "glider"], Answer(3, b"", b".: is a folder\n"))
    place.row("standard input", ["-", "glider"], answer_of([(b"-", outcome_of(SMALL[b"shifted"], "moved")), (b"glider", outcome_of(SMALL[b"glider"], "moved"))]),
              SMALL[b"shifted"])
    for words in ([], ["--form", "moved"], ["--zero"], ["-r"], ["--form", "still", "blank"], ["--within", "9", "blank"], ["--form", "phases", "--within", "0", "blank"], ["--from"], ["--from", "blank", "--from", "blank"],
                  ["blank", "--to", "mc"], ["--zero=yes", "blank"]):
        place.row(f"a command line that isn't understood: {' '.join(words)}", words, MISUSED)
    place.row("standard input twice", ["-", "-"], Answer(5, b"", b"TwoInputs\n"))
    found = place.run(["--help"])
    right = found.status == 0 and not found.error and b"Usage: golly_canon duplicates [OPTIONS]" in found.output
    counting.row("duplicates --help", [] if right else [repr(found)[:300]])


def list_rows(place):
    for end, more in itertools.product((b"\n", b"\0"), ([], ["glider", "child.mc"])):
        is_zero = end == b"\0"
        answer = place.wanted([*map(str.encode, more), *ORDER], is_zero=is_zero)
        words = [*more, *(["--zero"] if is_zero else []), "--from", "-"]
        place.row(f"a list, ends {end!r}, {len(more)} files before", words, answer, listed(ORDER, end))
        place.row(f"a list whose last name has no end, ends {end!r}, {len(more)} files before", words, answer, listed(ORDER, end)[:-1])
    place.row("an empty list", ["--from", "-"], Answer(1))
    place.row("a list that is absent", ["glider", "glider", "--from", "absent"], Answer(3, b"", b"ReadFault\n"))


def name_rows(place):
    for name in ODD:
        place.put(name, SMALL[b"pair.rle"])
    for is_zero in (False, True):
        words = [*(["--zero"] if is_zero else []), "--", *ODD]
        place.row(f"odd names{', ended by NULs' if is_zero else ''}", words, place.wanted(ODD, is_zero=is_zero))
    place.row("odd names in a list", ["--zero", "--from", "-"], place.wanted(ODD, is_zero=True), listed(ODD, b"\0"))
    place.put(NO_TEXT[0], SMALL[b"pair.rle"])
    shown = b"\xef\xbf\xbd"
    answer = answer_of([(b"*star", outcome_of(SMALL[b"pair.rle"], "moved")), (shown, (3, NO_NAME)), (b"\\n", outcome_of(SMALL[b"pair.rle"], "moved"))])
    place.row("a name that isn't UTF-8 is refused alone", ["*star", NO_TEXT[0], "\\n"], answer)


def with_pipe(answer):
    """The answer of a run that left out a pipe."""
    return answer._replace(error=answer.error + DEVICES_LEFT_OUT % 1)


def folder_rows(place):
    """Folders in folders, with links, which are passed over, and a pipe, which is left out and counted."""
    inner = {b"b/2": SMALL[b"glider"], b"b/10": SMALL[b"shifted"], b"b/c/x": SMALL[b"turned"], b"a": SMALL[b"pair.mc"], b"b.rle": SMALL[b"pair.rle"], b"z": b"?\n"}
    top = os.path.join(os.fsencode(place.here), b"top")
    for name in (b"", b"b", b"b/c", b"none"):
        os.mkdir(os.path.join(top, name))
    for name, data in inner.items():
        with open(os.path.join(top, name), "wb") as it:
            it.write(data)
    os.symlink(b"../a", os.path.join(top, b"b/link"))
    os.symlink(b".", os.path.join(top, b"b/again"))
    os.symlink(b"top", os.path.join(os.fsencode(place.here), b"to_top"))
    os.mkfifo(os.path.join(top, b"pipe"))
    # By their names, byte by byte, each folder at its place.
    order = [b"a", b"b/10", b"b/2", b"b/c/x", b"b.rle", b"z"]
    for word in (b"top", b"top/", b"./top", b"to_top"):
        named = [(word.rstrip(b"/") + b"/" + name, outcome_of(inner[name], "moved")) for name in order]
        place.row(f"all files of {word.decode()}", ["-r", word], with_pipe(answer_of(named)))
        place.row(f"the same before and after other files: {word.decode()}", ["glider", "--recursive", word, "blank"],
                  with_pipe(answer_of([(b"glider", outcome_of(SMALL[b"glider"], "moved")), *named, (b"blank", outcome_of(SMALL[b"blank"], "moved"))])))
    place.row("files alone, with -r", ["-r", "glider", "shifted"], place.wanted([b"glider", b"shifted"]))
    place.row("an empty folder", ["-r", "top/none"], Answer(1))
    place.row("a folder that is absent", ["-r", "absent"], Answer(3, b"", b"absent: no such file\n"))
    place.row("a folder in a list", ["-r", "--from", "-"], answer_of([(b"top", (3, FOLDER))]), b"top\n")


DEVICES = [
    ("a full output", '"$program" duplicates glider shifted > /dev/full', Answer(3, b"", b"WriteFault\n")),
    ("a closed output", '"$program" duplicates glider shifted >&-', Answer(3, b"", b"WriteFault\n")),
    ("a full standard error", '"$program" duplicates absent glider shifted 2> /dev/full', Answer(3, b"glider\nshifted\n")),
    ("a closed standard error", '"$program" duplicates child.mc glider shifted 2>&-', Answer(2, b"glider\nshifted\n")),
    ("a list from a closed standard input", '"$program" duplicates --from - <&-', Answer(3, b"", b"ReadFault\n")),
    ("a file that is removed while the run waits", """mkfifo pipe; cp glider gone
        "$program" duplicates pipe gone shifted & exec 3> pipe; rm gone pipe; cat glider >&3; exec 3>&-; wait $!""",
     Answer(3, b"pipe\nshifted\n", b"gone: no such file\n")),
]


def device_rows(place):
    for name, script, answer in DEVICES:
        counting.row(name, problems_of(place.shell(script), answer))


def random_rows(place, seed, count):
    with multiprocessing.Pool() as pool:
        found = pool.map(random_outcomes, [(seed, number) for number in range(count)], 8)
    files = {b"%d.%s" % (number, b"mc" if data.startswith(b"[M2]") else b"rle"): (data, outcomes) for number, (data, outcomes) in enumerate(found)}
    for name, (data, _) in files.items():
        place.put(name, data)
    for form in RANDOM_FORMS:
        named = [(name, outcomes[form]) for name, (_, outcomes) in files.items() if outcomes[form] is not None]
        told = [warned(name, files[name][0]) if status == 0 else b"%s: %s\n" % (name, said.encode()) for name, (status, said) in named]
        answer = answer_of(named)._replace(error=b"".join(told))
        groups = answer.output.count(b"\n\n") + 1
        run = place.run([*words_of(form), "--from", "-"], listed([name for name, _ in named]))
        counting.row(f"{len(named)} random files, {form}: {groups} groups", problems_of(run, answer) + ([] if groups > 3 else ["too few groups"]))


def many_rows(place, measured):
    """A list of many names of few files, and what it takes."""
    names = [name for name in SMALL if name != b"long"]
    few = [names[number % len(names)] for number in range(NAMES)]
    answer = place.wanted(few)
    place.put(b"list", listed(few))
    words = [CLOCK, "-q", "-f", "%e %M %U %S", "-o", measured, place.program, "duplicates", "--from", "list"]
    found = processes.run(words, cwd=place.here, timeout=300)
    counting.row(f"{NAMES} names of {len(names)} files", problems_of(found, answer))
    with open(measured, encoding="utf-8") as it:
        elapsed, kilobytes, user, system = map(float, it.read().split())
    took = f": {elapsed} s, {user + system:.2f} s of processor time, {kilobytes / 1024:.1f} MB"
    counting.row("the time that they take", [] if user + system < SECONDS else [took], took)
    counting.row("the memory that they take", [] if 1024 * kilobytes < MOST else [f"{took}, and {MOST} bytes are the bound"], took)


def main():
    parser = argparse.ArgumentParser(description=__doc__, formatter_class=argparse.RawDescriptionHelpFormatter)
    parser.add_argument("program")
    parser.add_argument("--cases", type=int, default=500)
    parser.add_argument("--seed", default="2")
    options = parser.parse_args()
    with tempfile.TemporaryDirectory() as folder:
        program = processes.program_of(options.program)
        places = []
        for name in ("small", "odd", "random"):
            os.mkdir(os.path.join(folder, name))
            places.append(Here(program, os.path.join(folder, name)))
        small, odd, some = places
        for name, data in (*SMALL.items(), *BY_GOLLY.items(), (b"phase", PHASE)):
            small.put(name, data)
        worked_rows(small)
        generation_rows(small)
        refused_rows(small)
        list_rows(small)
        name_rows(odd)
        folder_rows(small)
        device_rows(small)
        random_rows(some, options.seed, options.cases)
        many_rows(small, os.path.join(folder, "measured"))
    return counting.ended()


if __name__ == "__main__":
    sys.exit(main())
