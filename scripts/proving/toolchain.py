"""The toolchain's command `rt` as a module, so that the gate can use its parts: how it proves a crate, applies a must-fail edit, and runs a program."""

import importlib.machinery
import importlib.util
import inspect
import os
import shutil
import sys

# The toolchains whose lines about functions this package was written for. With any other one the gate is `rt ci` itself.
KITS = ("rattle-kit-13b", "rattle-kit-13f")
# The parts of `rt` that the gate calls or replaces, with how many parameters each has. Kits of one name can differ in them: in the older `rt` `must_fail_all`
# tries the edits of a crate, and in the newer one `add_edits` plans a task for each edit.
SHARED = {"read_edit": 2, "unread": 2, "checked": 4, "must_fail": 4, "need": 1, "processors": 0, "in_lanes": 1}
PARTS = ({**SHARED, "ci": 0, "must_fail_all": 3}, {**SHARED, "ci": 2, "add_edits": 9})


def path():
    """Where the command `rt` is, or the one that the variable RT names."""
    name = os.environ.get("RT") or "rt"
    return os.path.realpath(shutil.which(name) or name)


def kit():
    """The first word of what `rt version` prints."""
    try:
        with open(os.path.join(os.path.dirname(os.path.dirname(path())), "KIT-ID"), encoding="utf-8") as it:
            return (it.read().split() or [""])[0]
    except OSError:
        return ""


def is_known():
    """Whether the gate can use the parts of this toolchain's `rt`."""
    return kit() in KITS and any(all(has_part(*it) for it in parts.items()) for parts in PARTS)


def has_part(name, number):
    """Whether `rt` has a function of this name with so many parameters."""
    part = getattr(load(), name, None)
    return callable(part) and len(inspect.signature(part).parameters) == number


def plans_each_edit():
    """Whether `rt` is the newer one, which plans a task for each edit, and keeps what earlier runs passed."""
    return hasattr(load(), "add_edits")


def is_refusal(outcome):
    """Whether what `must_fail` of `rt` returned says that the prover refuses the edit. The older one returns that itself, and the newer one a word."""
    return outcome is True or outcome in ("refused", "limit")


def load():
    """Loads `rt` once, under the name `rt_module`."""
    if "rt_module" not in sys.modules:
        loader = importlib.machinery.SourceFileLoader("rt_module", path())
        made = importlib.util.module_from_spec(importlib.util.spec_from_loader("rt_module", loader))
        sys.modules["rt_module"] = made
        loader.exec_module(made)
    return sys.modules["rt_module"]
