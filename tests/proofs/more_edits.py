#!/usr/bin/env python3
"""Each edit in crates/*/more-must-fail can be applied: each of its lines is one that `rt` reads, and the text that it takes away occurs in its file
exactly once, where each pair of lines is applied to what the pairs before it have made. `make plants` tries these edits, and `rt ci` those in must-fail/.
The last line is 'N passed, M failed'.

usage: tests/proofs/more_edits.py
"""
import glob
import os
import sys

sys.dont_write_bytecode = True  # nothing is left in tests/
sys.path.insert(0, os.path.dirname(os.path.dirname(os.path.abspath(__file__))))

from shared import counting  # noqa: E402

TOP = os.path.dirname(os.path.dirname(os.path.dirname(os.path.abspath(__file__))))


def problems_of(path):
    """What keeps an edit from being applied."""
    crate = os.path.dirname(os.path.dirname(path))
    texts, name, old = {}, None, None
    with open(path, encoding="utf-8") as it:
        lines = it.read().splitlines()
    if not any(line.startswith("old: ") for line in lines):
        yield "no text is taken away"
    for line in lines:
        if line.startswith("file: "):
            name = line.removeprefix("file: ")
            with open(os.path.join(crate, name), encoding="utf-8") as it:
                texts.setdefault(name, it.read())
        elif line.startswith("old: ") and name is not None:
            old = line.removeprefix("old: ")
            count = texts[name].count(old)
            if count != 1:
                yield f"{old!r} occurs {count} times in {name}"
        elif (line.startswith("new: ") or line == "new:") and old is not None:
            texts[name], old = texts[name].replace(old, line.removeprefix("new:").removeprefix(" "), 1), None
        elif not line.startswith("note: "):
            yield f"{line!r} isn't a line of an edit"


def main():
    for path in sorted(glob.glob(os.path.join(TOP, "crates", "*", "more-must-fail", "*.edit"))):
        problems = list(problems_of(path))
        counting.check(not problems, f"{os.path.relpath(path, TOP)}: {'; '.join(problems)}")
    return counting.ended()


if __name__ == "__main__":
    sys.exit(main())
