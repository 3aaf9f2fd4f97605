"""Which functions a must-fail edit changes, read from the crate's files, which are in the layout of `rt fmt`."""

import os
import re

FUNCTION = re.compile(r"^(\s*)(?:pub(?:\([^)]*\))?\s+)?(?:const\s+)?(?:unsafe\s+)?(?:extern\s+\"C\"\s+)?fn\s+(\w+)")
CYCLE = re.compile(r"#\[cycle\((\w+)\)\]")
ABOVE = re.compile(r"\s*(#\[|//)")


def functions(text):
    """The number of the first and of the last line, and the name, of each function in a file."""
    lines, found = text.split("\n"), []
    for first, line in enumerate(lines):
        head = FUNCTION.match(line)
        if not head:
            continue
        last = first
        if not re.search(r"[;}]\s*$", line):  # (otherwise the function is one line)
            while last < len(lines) - 1 and lines[last].rstrip() != head[1] + "}":
                last += 1
        found.append((first, last, head[2]))
    return found


def cycles(folder):
    """The functions that call each other in a cycle, as sets of names: each cycle has one proof, so its functions fail together."""
    found = {}
    for at, _, names in os.walk(f"{folder}/src"):
        for name in names:
            with open(f"{at}/{name}", encoding="utf-8") as it:
                text = it.read()
            lines = text.split("\n")
            for first, _, function in functions(text):
                above = first
                while above and ABOVE.match(lines[above - 1]):
                    above -= 1
                for cycle in CYCLE.findall("\n".join(lines[above:first])):
                    found.setdefault(cycle, set()).add(function)
    return list(found.values())


def changed_functions(text, old, new):
    """The names of the functions that a pair of lines of an edit changes: the one around the text that it takes away, and any that its new text begins."""
    line = text.count("\n", 0, text.index(old) + len(old))
    around = [name for first, last, name in functions(text) if first <= line <= last]
    return {*around[-1:], *re.findall(r"\bfn (\w+)", new)}
