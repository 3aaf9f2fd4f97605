"""Must-fail edits, many of them in one check.

A must-fail edit is a deliberate bug: the prover has to refuse the crate with it. `rt ci` tries them one after the other, each in a copy of the crate. But the
prover judges each function by itself. Its proof rests on its own body and on the contracts of the functions that it calls, and an edit changes no contract. So
one check (a round) can try many edits, over the work that the proof of the crate has left:

- The first round leaves all functions as they are, and has a copy of a function for each edit of its body, under another name, with the function's contract
  and proof files (scripts/proving/copies.py).
- Later rounds change the functions themselves: for edits that can't be such a copy, at most one edit of a function.

A round asks for the modules that it changes (`rattle check --only`), with whatever their functions call. For all else there is the proof of the crate, over
which the round is tried.

What makes a refusal count:

1. An edit is refused if the prover says that the copy, or a function which the edit changes, fails *by itself*: it isn't proved, and not because it calls
   another function that isn't; or it names a goal of this function that nothing proved; or a file of this function's own proof has an error.
   Functions that call each other in a cycle have one proof. If a round has edits of several of them, a goal named after the function has to fail.
2. If that function only waits for another one, or no such goal is named after it, the round says nothing of the edit, and a later round tries it again.
3. The control: every function of these modules that no edit changes has to be proved, or to wait for another one. If such a function fails by itself, nothing
   that this round said counts. Its edits are tried again, those of the first round as edits of the functions themselves, then in two halves, and in the end one
   by one by the toolchain's rule, `must_fail` of `rt`.
4. An edit whose function is still proved is tried alone, also by the toolchain's rule. Only that rule says that an edit isn't refused.

An edit that changes no function of `src/` is tried alone from the beginning."""

import contextlib
import json
import os
import re
import shutil
import subprocess
import tempfile

from proving import copies, source, toolchain

rt = toolchain.load()

# What the prover says of a function: its name, and whether it is proved.
VERDICT = re.compile(r"^(?:fn|impl|struct|enum) (\S+?): (.*)$")
# The last line of a check that ended with 0 or with 1.
VERDICTS = {0: re.compile(r"logic=proved |only=\d+ proved=\d+$"), 1: re.compile(r"logic=not-proved|only=\d+ proved=\d+$")}
# The verdicts that say that a function fails by itself.
FAILS = re.compile(r"not proved|no proof|.*`search` did not prove .*")
# An error in a proof file that only names what the edit took away.
NAMES = re.compile(r".*(has no field|is not in scope|has no `|was not admitted)")
ONLY_NAMES = "only because a proof file names what the edit took away, so this says little of the contract"


def unpack(checked, folder):
    """Puts the work that `rattle check -o` left in `checked` into a folder, in the form that `rattle check --incremental` takes."""
    with open(f"{checked}/toolchain/checked.json", encoding="utf-8") as it:
        parts = [json.loads(line) for line in it if line.strip()]
    with open(f"{checked}/toolchain/checked.a", "rb") as archive:
        for name, at, length in parts:
            if "/" in name:
                continue
            archive.seek(at)
            part = archive.read(length)
            kernel = re.search(rb"--@ kernel (\S+)", part[:600])[1].decode().replace("/", "_")
            os.makedirs(f"{folder}/{kernel}", exist_ok=True)
            with open(f"{folder}/{kernel}/{name}.oantt", "wb") as it:
                it.write(part)


def linked(path, to):
    """Copies a file of kept work: by a link if it is the proof of a module, which a check replaces and doesn't change."""
    return os.link(path, to) if path.endswith(".oantt") else shutil.copy2(path, to)


@contextlib.contextmanager
def copy_of(kept):
    """A copy of kept work, beside it, since a check adds to what it is given."""
    with tempfile.TemporaryDirectory(dir=os.path.dirname(kept)) as place:
        yield shutil.copytree(kept, f"{place}/kept", copy_function=linked)


def name_of(function):
    """The name that a function has in its source, where the prover gives its whole path. A closure belongs to the function around it."""
    parts = function.split("::")
    if "fn" in parts[:-1]:
        parts = parts[: parts.index("fn") + 2]
    return re.sub(r"\W.*", "", parts[-1])


class Edit:
    """An edit of a crate: its pairs of texts by file, the functions that it changes, of which it has texts of its `own` and which are in a cycle with these, and
    once it is decided whether it is refused, and what to say."""

    def __init__(self, path, crate, groups):
        self.path, self.folder = path, crate.folder
        self.label = f"must-fail {crate.name}/{os.path.basename(path)}"
        self.pairs, self.own, self.refused, self.said = [], set(), None, ""
        self.is_apart = False  # whether a round that had another edit of the same cycle of calls couldn't tell
        self.had_company = False  # whether a round that refused another edit had this one too
        _, problem = rt.read_edit(path, crate.folder)
        if problem:
            self.functions = set()
            self.decide(False, f"BAD EDIT: {problem}")
            return
        self.read()
        # the functions that it changes, and those of their cycles
        self.functions = self.own.union(*(it for it in groups if it & self.own))

    def read(self):
        texts, name, old = {}, None, None
        with open(self.path, encoding="utf-8") as it:
            lines = it.read().split("\n")
        for line in lines:
            if line.startswith("file: "):
                name = line.removeprefix("file: ").strip()
            elif line.startswith("old: "):
                old = line.removeprefix("old: ")
            elif line.startswith("new:"):
                new = line.removeprefix("new:").removeprefix(" ")
                text = self.text_of(name, texts)
                if name.startswith("src/"):
                    self.own |= source.changed_functions(text, old, new)
                texts[name] = text.replace(old, new)
                self.pairs.append((name, old, new))

    def text_of(self, name, texts):
        if name in texts:
            return texts[name]
        with open(f"{self.folder}/{name}", encoding="utf-8") as it:
            return it.read()

    def applied(self, texts):
        """The texts of changed files with this edit too, or None if an edit before it changed the same place."""
        texts = dict(texts)
        for name, old, new in self.pairs:
            text = self.text_of(name, texts)
            if text.count(old) != 1:
                return None
            texts[name] = text.replace(old, new)
        return texts

    def decide(self, refused, said):
        self.refused, self.said = refused, f"{self.label}: {said}"


def own_errors(function, lines):
    """The errors in the files of a function's own proof."""
    *path, last = function.split("::")[1:]
    inside = re.escape("".join(f"{it}/" for it in path)) + r"\+?" + re.escape(last)
    return [it for it in lines if re.match(rf"(\./)?proofs/{inside}/[^/]*:\d+:\d+: error", it)]


def asked_for(texts):
    """The words by which `rattle` checks the modules of changed files alone: none if the root of the crate is changed, or a definition."""
    modules = {"::".join(copies.module_of(it)) for it in texts if it.startswith("src/")}
    is_whole = "" in modules or any(it.startswith("specs/") for it in texts)
    return [] if is_whole else [word for it in sorted(modules) for word in ("--only", it)]


class Check:
    """One check of a crate with texts in place of its own, over a copy of kept work: what the prover says of each function of their modules. It says nothing if
    the prover couldn't read a file that an edit names. (A proof file of a copy is as readable as the one it is made from.)"""

    def __init__(self, crate, texts, edits, kept, flags):
        with copy_of(kept) as copy, tempfile.TemporaryDirectory(prefix=f"rt-edit-{os.getpid()}-") as place:
            for part in rt.rtlib.PARTS:
                if os.path.isdir(f"{crate.folder}/{part}"):
                    shutil.copytree(f"{crate.folder}/{part}", f"{place}/{part}")
            for path, text in texts.items():
                os.makedirs(os.path.dirname(f"{place}/{path}"), exist_ok=True)
                with open(f"{place}/{path}", "w", encoding="utf-8") as it:
                    it.write(text)
            words = [*rt.rtlib.guarded(), rt.rtlib.RATTLE, "check", *crate.words(flags, keeps=False), "--incremental", copy, *asked_for(texts)]
            ran = subprocess.run(words, cwd=place, stdin=subprocess.DEVNULL, stdout=subprocess.PIPE, stderr=subprocess.STDOUT, text=True, errors="replace",
                                 check=False)
        self.lines = ran.stdout.rstrip("\n").split("\n")
        self.verdicts = {it[1]: it[2] for it in map(VERDICT.match, self.lines) if it}
        named = {path for edit in edits for path, _, _ in edit.pairs}
        could_read = not any(rt.unread(it, named) for it in self.lines) and not rt.rtlib.STALE.search(ran.stdout)
        # (if no edit of a round is a bug, the crate is still proved)
        self.has_verdict = could_read and ran.returncode in VERDICTS and bool(VERDICTS[ran.returncode].match(self.lines[-1]))

    def fails(self, function):
        """Whether a function fails by itself."""
        verdict = self.verdicts[function]
        return bool(FAILS.fullmatch(verdict)) or (not verdict.startswith("proved") and bool(own_errors(function, self.lines)))

    def errors_of(self, failing):
        return [error for it in failing for error in own_errors(it, self.lines)]

    def names_goal_of(self, functions, failing):
        """Whether a goal that is named after one of these functions fails, of a cycle of calls that fails."""
        goals = re.findall(r"^(?:\./)?proofs/(?:\S*/)?\+[^/\s]+/[^/\s]+: error: `([^`]*)`:", "\n".join(self.lines), re.M)
        goals += [goal for it in failing for goal in re.findall(r"`([^`]*)`", self.verdicts[it].partition(" did not prove ")[2])]
        return any(goal.startswith(f"{it}-") for goal in goals for it in functions)

    def only_names(self, failing):
        """Whether these functions fail only because a proof file names what isn't there."""
        errors = self.errors_of(failing)
        return bool(errors) and all(map(NAMES.match, errors)) and not any("search" in self.verdicts[it] for it in failing)

    def refuses(self, edit, failing):
        """Decides that an edit is refused, by its functions that fail by themselves."""
        errors = self.errors_of(failing)
        real = [it for it in errors if not NAMES.match(it)]
        why = (real or errors or [f"{failing[0]}: {self.verdicts[failing[0]]}"])[0][:160]
        edit.decide(True, f"refused, as it must be{f' ({ONLY_NAMES})' if self.only_names(failing) else ''}: {why}")


class Round:
    """One check of a crate with several edits: those of `copied` as copies of their functions, whose texts are given, or others in the functions themselves. Of
    the edits of one function all but one are left for a later round then."""

    def __init__(self, crate, copied, texts, edits, kept, flags):
        self.functions_of, self.left = {it.edit: {it.name} for it in copied}, []
        self.copied, self.changed = {it.edit for it in copied}, {it.name for it in copied}
        for edit in edits:
            clashes = any(it.own & edit.own or it.functions & edit.functions and (it.is_apart or edit.is_apart) for it in self.functions_of)
            more = None if clashes else edit.applied(texts)
            if more is None:
                self.left.append(edit)
            else:
                texts, self.functions_of[edit] = more, edit.functions
                self.changed |= edit.functions
        self.edits = [*self.functions_of]
        self.check = Check(crate, texts, self.edits, kept, flags)
        self.counts = self.check.has_verdict and {it.name for it in copied} <= set(map(name_of, self.check.verdicts)) and not self.strays()

    def strays(self):
        """The functions that fail by themselves though no edit changes them."""
        return [it for it in self.check.verdicts if self.check.fails(it) and name_of(it) not in self.changed]

    def shares_a_cycle(self, edit):
        return edit not in self.copied and any(it is not edit and it.functions & edit.functions for it in self.edits)

    def judge(self, edit):
        """Decides the edit if the prover refuses it. Otherwise returns whether a later round may decide: its function waits, or fails only because a proof file
        of the copy names what isn't there, or it can't be told which function of a cycle of calls fails."""
        mine = [it for it in self.check.verdicts if name_of(it) in self.functions_of[edit]]
        failing = [it for it in mine if self.check.fails(it)]
        if failing and edit in self.copied and self.check.only_names(failing):
            return True
        if failing and self.shares_a_cycle(edit) and not self.check.names_goal_of(edit.own, failing):
            edit.is_apart = True
            return True
        if failing:
            self.check.refuses(edit, failing)
            return False
        return any(not self.check.verdicts[it].startswith("proved") for it in mine)


class Trial:
    """All edits of a crate, tried in rounds over the work in `kept`."""

    def __init__(self, crate, paths, kept, flags):
        self.groups = source.cycles(crate.folder)
        self.crate, self.kept, self.flags = crate, kept, flags
        self.edits = [Edit(it, crate, self.groups) for it in paths]
        self.checks = 0

    def run(self):
        """Decides each edit."""
        edits = [it for it in self.edits if it.refused is None and it.functions]
        copied, texts = copies.copied(self.crate.folder, edits, self.groups)
        again = self.round([it.edit for it in copied], copied, texts)
        # (what is still proved as a copy would be proved again)
        waiting = [[it for it in edits if it not in {other.edit for other in copied}] + sum(again, [])]
        while waiting:
            waiting += self.round(waiting.pop())
        for edit in self.edits:
            if edit.refused is None:
                self.alone(edit)
        return self.edits

    def round(self, edits, copied=(), texts=None):
        """Tries edits together, all as copies of their functions if there are copies, and returns the lists to try after that."""
        if not edits:
            return []
        made = Round(self.crate, copied, texts or {}, [] if copied else edits, self.kept, self.flags)
        self.checks += 1
        if not made.counts:
            half = len(made.edits) // 2
            return [edits] if copied else [made.left, made.edits[:half], made.edits[half:]] if half else [made.left]
        waits = [it for it in made.edits if made.judge(it)]
        some_refused = any(it.refused for it in made.edits)
        for edit in made.edits:
            edit.had_company = edit.had_company or some_refused
        # (a round of changed functions that decided nothing would say the same again)
        again = [it for it in waits if some_refused or copied or it.is_apart]
        return [[*made.left, *again]]

    def alone(self, edit):
        """Tries an edit by the toolchain's own rule."""
        self.checks += 1
        with copy_of(self.kept) as copy:
            outcome, edit.said = rt.must_fail(self.crate, edit.path, self.flags, copy)
        edit.refused = toolchain.is_refusal(outcome)
