"""Must-fail edits as copies of functions: each edit changes a copy of its function, under another name, and the function itself stays as it is.

So no function waits for one that an edit has changed, and one check can try any number of edits, also of one function and of functions that call each other.
`Copied` makes the copies. An edit can be one if it changes the body of one function of `src/`, and nothing else. A function that calls itself, one of a cycle
of calls, and one that a trait or the C language names has no copy."""

import glob
import os
import re

from proving import source

BLOCK = re.compile(r"^(impl|trait|mod)\b(.*)\{$")
INHERENT = re.compile(r"(?:<.*?>)?\s*(\w+)(?:<.*>)?\s*(?:where.*)?$")


def parts_of(lines, first, last):
    """A function with its attributes and comments: what comes before its body, and its body, which is empty where the function is written in one line."""
    above = first
    while above and source.ABOVE.match(lines[above - 1]):
        above -= 1
    indent = re.match(r"\s*", lines[first])[0]
    begin = next((at + 1 for at in range(first, last) if lines[at] == indent + "{" or lines[at].endswith(" {")), None)
    return ("\n".join(lines[above:begin]), "\n".join(lines[begin : last + 1])) if begin else ("\n".join(lines[above : last + 1]), "")


def block_around(lines, first):
    """What stands around a function: an empty text at the top of a file, the name of the type of its `impl` block, or None if that is another block."""
    if not lines[first].startswith(" "):
        return ""
    head = next((it for it in reversed(lines[:first]) if it and not it.startswith((" ", "}", "#", "/"))), "")
    block = BLOCK.match(head)
    if not block or block[1] != "impl" or " for " in block[2]:
        return None
    named = INHERENT.fullmatch(block[2].strip())
    return named and named[1]


def module_of(path):
    """The names of the modules of a file below `src`."""
    names = path.removeprefix("src/").removesuffix(".rt").split("/")
    return [] if names in (["lib"], ["main"]) else names[:-1] if names[-1] == "mod" else names


class Copied:
    """An edit as a copy of its function: where the copy stands, and its text and proof files. `is_possible` says whether there is one."""

    def __init__(self, folder, edit, number, in_cycles):
        self.folder, self.edit = folder, edit
        self.is_possible = {it[0].startswith("src/") for it in edit.pairs} == {True} and len(edit.functions) == 1 and not edit.functions & in_cycles
        if self.is_possible:
            self.path, (self.function,) = edit.pairs[0][0], edit.functions
            self.name = f"{self.function}_edit_{number}"
            self.is_possible = all(it[0] == self.path for it in edit.pairs) and self.read()

    def read(self):
        """Finds the function in its file, and makes the text of the copy. Returns whether it can be one."""
        with open(f"{self.folder}/{self.path}", encoding="utf-8") as it:
            text = it.read()
        lines, line = text.split("\n"), text.count("\n", 0, text.find(self.edit.pairs[0][1]))
        first, self.last, name = next(it for it in reversed([(0, 0, ""), *source.functions(text)]) if it[0] <= line <= it[1] or not it[2])
        block, (head, body) = block_around(lines, first), parts_of(lines, first, self.last)
        if name != self.function or name == "main" or block is None or re.search(r"no_mangle|#\[test\]|extern \"C\"", head):
            return False
        self.place = [*module_of(self.path), *filter(None, [block])]
        changed = body
        for _, old, new in self.edit.pairs:
            if changed.count(old) != 1:
                return False
            changed = changed.replace(old, new)
        self.text = re.sub(rf"\bfn {name}\b", f"fn {self.name}", head, count=1) + "\n" + changed
        calls_itself = re.search(rf"\b{name}\b\s*(::<|\()", body + changed)
        return not calls_itself and self.has_its_proof()

    def has_its_proof(self):
        """Whether all proof files of the function are where they are looked for: no folder of its name stands elsewhere below that of the module."""
        place, name = f"{self.folder}/{self.proof_of(self.function)}", self.function
        others = glob.glob(f"{self.folder}/proofs/{'/'.join(module_of(self.path))}/*/{name}") if not os.path.isdir(place) else []
        return not others and not os.path.exists(f"{place}.antt")

    def proof_of(self, name):
        """The folder of the proof files of a function beside the edited one."""
        return "/".join(["proofs", *self.place, name])

    def files(self):
        """The proof files of the copy: those of the function, which name the copy."""
        below, found = f"{self.folder}/{self.proof_of(self.function)}", {}
        named, copy = (".".join([*self.place, it]) for it in (self.function, self.name))
        for name in os.listdir(below) if os.path.isdir(below) else []:
            with open(f"{below}/{name}", encoding="utf-8") as it:
                found[f"{self.proof_of(self.name)}/{name}"] = re.sub(rf"\.(proofs|contracts)\.{re.escape(named)}\b(?!-)", rf".\1.{copy}", it.read())
        return found


def copied(folder, edits, groups):
    """The edits that can be copies, and all files that have to be written for these copies."""
    in_cycles = set().union(*groups)
    found = [it for it in (Copied(folder, edit, at, in_cycles) for at, edit in enumerate(edits)) if it.is_possible]
    texts = {}
    for path in {it.path for it in found}:
        with open(f"{folder}/{path}", encoding="utf-8") as it:
            lines = it.read().split("\n")
        for copy in sorted((it for it in found if it.path == path), key=lambda it: -it.last):
            lines[copy.last + 1 : copy.last + 1] = ["", *copy.text.split("\n")]
        texts[path] = "\n".join(lines)
    for copy in found:
        texts |= copy.files()
    return found, texts
