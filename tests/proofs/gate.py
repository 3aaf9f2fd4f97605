#!/usr/bin/env python3
"""The gate itself, in a small repository of two crates: it passes what is right, and fails where its script loses an edit or a crate, refuses everything, or
is interrupted. Also what it checks again after a change, and that a toolchain which it doesn't know runs `rt ci`. The last line is 'N passed, M failed'.

usage: tests/proofs/gate.py"""

import glob
import os
import re
import signal
import subprocess
import sys
import tempfile

sys.dont_write_bytecode = True  # nothing is left in tests/
TOP = os.path.dirname(os.path.dirname(os.path.dirname(os.path.abspath(__file__))))
sys.path[:0] = [f"{TOP}/tests", f"{TOP}/scripts"]

from proving import source  # noqa: E402
from shared import counting  # noqa: E402

GATE = os.path.join(TOP, "scripts", "gate")

LIBRARY = """\
//! Four functions.
#![tactic(auto)]

mod numbers;

pub use numbers::{after, after_next, sum, ten};
"""
NUMBERS = """\
//! Numbers.

ghost use Rattle.std.specs.Prelude.{◌≡◌, ◌+◌, ◌<◌};

/// The number after this one.
pub fn after(number: u32) -> u64
    ensures { result ≡ number + 1 }
{
    u64::from(number) + 1
}

/// The number two after this one.
pub fn after_next(number: u32) -> u64
    requires { number < 100 }
    ensures { result ≡ number + 2 }
{
    after(number + 1)
}

/// The sum of two numbers.
pub fn sum(left: u32, right: u32) -> u64
    ensures { result ≡ left + right }
{
    u64::from(left) + u64::from(right)
}

/// Ten.
pub fn ten() -> u32
    ensures { result ≡ 10 }
{
    10
}
"""
# (with a bug in `sum`, `added` is false, and `returns` isn't tried)
SUM = """\
use Rattle.std.proofs.Common.{◌≡◌, ◌+◌, arith}
use Rattle.small.proofs.numbers.sum.Goals as goal
use Rattle.small.proofs.numbers.sum.Goals.{After-from-2}

added : (c : After-from-2) → c.from.result + c.from-2.result ≡ c.args.left + c.args.right
added c = omega (arith, c.from.ensures, c.from-2.ensures)

pub returns : goal.returns
returns c = added c
"""
HELLO = """\
//! Prints ten.
#![tactic(auto)]

use small::ten;
use std::rt::HostRuntime;

fn main(rt: HostRuntime) -> std::io::Result<()> {
    println!(rt; "{}", ten())?;
    Ok(())
}
"""
EDIT = "file: src/numbers.rt\nold: {}\nnew: {}\n"
FILES = {
    "HANDLES": "Handles allowed: none.\n",
    "crates.txt": "small:\nhello: small\n",
    "crates/small/src/lib.rt": LIBRARY,
    "crates/small/src/numbers.rt": NUMBERS,
    "crates/small/proofs/numbers/sum/Answers.antt": SUM,
    "crates/small/must-fail/after_is_two_more.edit": EDIT.format("    u64::from(number) + 1", "    u64::from(number) + 2"),
    # (edits of one function, and of one that calls it)
    "crates/small/must-fail/after_is_the_number.edit": EDIT.format("    u64::from(number) + 1", "    u64::from(number)"),
    "crates/small/must-fail/next_is_not_passed.edit": EDIT.format("    after(number + 1)", "    after(number)"),
    # (an edit that is no copy of a function, since it changes two)
    "crates/small/must-fail/two_functions.edit": EDIT.format("    u64::from(number) + 1", "    u64::from(number) + 3") + EDIT.format("    10", "    11"),
    "crates/small/must-fail/sum_of_one_number.edit": EDIT.format("    u64::from(left) + u64::from(right)", "    u64::from(left) + u64::from(left)"),
    "crates/hello/src/main.rt": HELLO,
    "crates/hello/stdout": "10\n",
    "tests/proofs/harmless/small/ten_in_hexadecimal.edit": EDIT.format("    10", "    0xA"),
}

# Runs scripts/gate with a change of its own code, which is the first argument.
BROKEN = f"""
import importlib.machinery, importlib.util, sys
loader = importlib.machinery.SourceFileLoader("gate", {GATE!r})
gate = importlib.util.module_from_spec(importlib.util.spec_from_loader("gate", loader))
sys.modules["gate"] = gate
loader.exec_module(gate)
exec(sys.argv[1])
sys.exit(gate.main(sys.argv[2:]))
"""
LOSES_AN_EDIT = "edits_of = gate.Gate.edits_of; gate.Gate.edits_of = lambda self, crate: edits_of(self, crate)[1:]"
LOSES_A_CRATE = "crates_of = gate.rt.crates_of; gate.rt.crates_of = lambda *given: crates_of(*given)[:1]"
# Changes a comment of a crate when the crate has just been checked, before its edits are tried.
CHANGES_A_FILE = """
checked = gate.Gate.check_again

def changed(self, crate, *given):
    found = checked(self, crate, *given)
    path = f"{crate.folder}/src/numbers.rt"
    if crate.name == "small":
        with open(path, encoding="utf-8") as it:
            text = it.read()
        with open(path, "w", encoding="utf-8") as it:
            it.write(text.replace("/// Ten.", "/// Ten, and no other number."))
    return found

gate.Gate.check_again = changed
"""
# An `rt` that has none of the parts that the gate calls.
OTHER_RT = "#!/usr/bin/env python3\nimport sys\n\nif __name__ == '__main__':\n    print('this is rt', *sys.argv[1:])\n"
REFUSES_ALL = """
gate.trials.Round.judge = lambda self, edit: edit.decide(True, 'refused, as it must be')
"""
# The same only for edits that aren't copies of functions.
REFUSES_CHANGED = """
gate.trials.Round.judge = lambda self, edit: edit.decide(True, 'refused, as it must be')
gate.trials.copies.copied = lambda *_: ([], {})
"""


def run(folder, *words, **variables):
    """Runs a command on the small repository, with these variables. Returns its status and what it said."""
    how = {"cwd": folder, "env": {**os.environ, "TOP": folder, **variables}, "stdin": subprocess.DEVNULL, "stdout": subprocess.PIPE, "stderr": subprocess.STDOUT}
    ran = subprocess.run([sys.executable, "-B", *words], text=True, errors="replace", check=False, **how)
    return ran.returncode, ran.stdout


def row(name, found, status, *wanted):
    """Whether a run ended with a status, and said each of these."""
    problems = [f"status {found[0]}, not {status}"] * (found[0] != status)
    problems += [f"no {it!r} in {found[1][-1500:]!r}" for it in wanted if not re.search(it, found[1], re.M)]
    counting.row(name, problems)


def unknown_toolchains(folder):
    """Whether the gate is `rt ci` with an `rt` of another name, and with one of a known name that lacks the parts that the gate calls."""
    for name, kit in (("another name", "some-other-kit"), ("a known name without the parts of rt", "rattle-kit-13f")):
        command = os.path.join(folder, kit, "bin", "rt")
        os.makedirs(os.path.dirname(command))
        for path, text in ((command, OTHER_RT), (os.path.join(folder, kit, "KIT-ID"), f"{kit} logic 0\n")):
            with open(path, "w", encoding="utf-8") as it:
                it.write(text)
        os.chmod(command, 0o755)
        row(f"a toolchain of {name}", run(folder, GATE, RT=command), 0, r"^scripts/gate doesn't know this rt of the toolchain .*: rt ci instead$", r"^this is rt ci$")


def cycles():
    """Whether each function of this repository that is marked as one of a cycle of calls is known to be one."""
    problems = []
    for folder in sorted(glob.glob(f"{TOP}/crates/*")):
        marks = 0
        for path in glob.glob(f"{folder}/src/**/*.rt", recursive=True):
            with open(path, encoding="utf-8") as it:
                marks += len(source.CYCLE.findall(it.read()))
        found = sum(map(len, source.cycles(folder)))
        problems += [f"{os.path.basename(folder)} has {marks} such functions, {found} of them known"] * (found != marks)
    counting.row("the functions of cycles of calls", problems)


def interrupted(folder):
    """Runs the gate, and interrupts it as soon as a crate is proved."""
    how = {"cwd": folder, "env": {**os.environ, "TOP": folder}, "stdin": subprocess.DEVNULL, "stdout": subprocess.PIPE, "stderr": subprocess.STDOUT}
    said = []
    with subprocess.Popen([sys.executable, "-B", GATE], text=True, errors="replace", **how) as gate:
        for line in gate.stdout:
            said.append(line)
            if line.startswith("small is proved "):
                gate.send_signal(signal.SIGINT)
    return gate.returncode, "".join(said)


def main():
    with tempfile.TemporaryDirectory(prefix="small-gate-") as folder:
        for name, text in FILES.items():
            path = os.path.join(folder, name)
            os.makedirs(os.path.dirname(path), exist_ok=True)
            with open(path, "w", encoding="utf-8") as it:
                it.write(text)
        subprocess.run(["git", "init", "-q", folder], check=True)
        os.chmod(folder, 0o755)
        row("what is right passes", run(folder, GATE), 0, r"^small: 5 of 5 edits refused in 3 checks, and 1 harmless not refused ",
            r"^hello is proved \(1 functions\) ", r"^rt: hello ran, and wrote what its file stdout has$", r"^\d+ passed, 0 failed$")
        changed = os.path.join(folder, "crates/small/src/numbers.rt")
        row("nothing changed", run(folder, GATE, "changed"), 0, r"^0 functions, 0 edits refused; ", r"^0 passed, 0 failed$")
        for name, text, is_seen in (("a comment of a crate", NUMBERS.replace("Ten.", "The number ten."), False),
                                    ("what others see of a crate", NUMBERS.replace("result ≡ 10 }", "result ≡ 5 + 5 }"), True)):
            with open(changed, "w", encoding="utf-8") as it:
                it.write(text)
            found = run(folder, GATE, "changed")
            row(f"{name} changed", found, 0, r"^small is proved over kept work, in ", r"^small: 5 of 5 edits refused in ", r"^\d+ passed, 0 failed$")
            counting.row(f"{name} changed: the crate above it", [] if ("hello is proved over kept work" in found[1]) == is_seen else [found[1][-900:]])
        with open(changed, "w", encoding="utf-8") as it:
            it.write(NUMBERS)
        row("a file that changes after its proof", run(folder, "-c", BROKEN, CHANGES_A_FILE, "changed"), 0, r"^small: 5 of 5 edits refused in ", r"^\d+ passed, 0 failed$")
        row("it is proved by the next run", run(folder, GATE, "changed"), 0, r"^small is proved over kept work, in ", r"^\d+ passed, 0 failed$")
        with open(changed, "w", encoding="utf-8") as it:
            it.write(f"{NUMBERS}\n#[cfg(test)]\nmod tests;\n")
        row("a file of tests is missing", run(folder, GATE, "changed"), 1, r"^FAILED  small isn't proved any more: ", r"^\d+ passed, [1-9]\d* failed$")
        with open(changed, "w", encoding="utf-8") as it:
            it.write(NUMBERS)
        row("a script that loses an edit", run(folder, "-c", BROKEN, LOSES_AN_EDIT, "edits"), 1,
            r"^FAILED  the edit small/after_is_the_number.edit isn't refused$", r"^\d+ passed, [1-9]\d* failed$")
        for name, text in (("everything", REFUSES_ALL), ("every edit that is no copy", REFUSES_CHANGED)):
            row(f"a script that refuses {name}", run(folder, "-c", BROKEN, text, "edits"), 1,
                r"^FAILED  must-fail small/ten_in_hexadecimal.edit: this harmless edit has to be proved", r"^\d+ passed, [1-9]\d* failed$")
        row("a script that loses a crate", run(folder, "-c", BROKEN, LOSES_A_CRATE), 1, r"^FAILED  the crate hello isn't proved$",
            r"^FAILED  the program hello didn't run", r"^\d+ passed, [1-9]\d* failed$")
        with tempfile.TemporaryDirectory(prefix="small-kits-") as kits:
            unknown_toolchains(kits)
        cycles()
        row("an interrupted run says what it saw", interrupted(folder), 1, r"^interrupted: until then 1 crates were proved and \d edits refused$",
            r"^\d+ passed, [1-9]\d* failed$")
    return counting.ended()


if __name__ == "__main__":
    sys.exit(main())
