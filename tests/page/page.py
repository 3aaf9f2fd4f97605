#!/usr/bin/env python3
"""The page and the module for browsers, which scripts/page builds here over what the gate has proved: what they are made of, and in a headless Chromium
that the module answers as PROGRAM does, and what the page does with files. A part of that is tried in WebKit (the engine of Safari), in Firefox and in
Node too. In Node the command of the package for npm is held to PROGRAM. Where a browser, its driver, Node, or what scripts/page needs beside the toolchain
isn't there, a line says what is skipped. A browser that dies is started again (browser.py).

usage: tests/page/page.py PROGRAM [--cases N] [--seed SEED] [--built FOLDER] [--keep FOLDER] [--pictures FOLDER]

With `--built` the page of that folder is tested in place of a new one, with `--keep` the new one is left in a folder for other checks, and with
`--pictures` the windows are saved there as pictures.
"""

import argparse
import os
import re
import shutil
import signal
import subprocess
import sys
import tempfile

HERE = os.path.dirname(os.path.abspath(__file__))
TOP = os.path.dirname(os.path.dirname(HERE))
sys.path[1:1] = [os.path.join(TOP, "tests"), os.path.join(TOP, "tests", "program")]

import browser as browsers  # noqa: E402
import of_command  # noqa: E402
import of_module  # noqa: E402
import of_page  # noqa: E402
from shared import counting, processes  # noqa: E402

# The most bytes of the page.
MOST = 400_000


def built(folder):
    """Builds the page into a folder. Returns why it can't be built here, if so."""
    words = [sys.executable, "-B", os.path.join(TOP, "scripts", "page"), folder]
    ran = subprocess.run(words, stdout=subprocess.PIPE, stderr=subprocess.STDOUT, text=True, check=False)
    print(ran.stdout, end="", flush=True)
    lacks = re.search(r"^scripts/page: there is no .*", ran.stdout, re.MULTILINE)
    if ran.returncode and lacks is None:
        counting.check(False, "scripts/page builds the page")
    return lacks[0] if lacks else None if ran.returncode == 0 else "it can't be built"


def types():
    """The module has types for what it exports, and for each call of the library."""
    texts = []
    for name in ("golly_canon.mjs", "golly_canon.d.ts"):
        with open(os.path.join(TOP, "web", name), encoding="utf-8") as it:
            texts.append(it.read())
    exported, typed = [set(re.findall(r"(?m)^export (?:async )?(?:function|class|const) (\w+)", it)) for it in texts]
    counting.row("types for what the module exports", [] if exported == typed else [f"{sorted(exported ^ typed)}"])
    calls = set(re.findall(r"(?m)^  (?:async )?(\w+)\(.*\{$", texts[0].split("class Library")[1])) - {"constructor"}
    typed = set(re.findall(r"(?m)^  (\w+)\(", texts[1].split("interface Library")[1].split("\n}")[0]))
    counting.row("types for the calls of the library", [] if calls == typed and len(calls) == 11 else [f"{sorted(calls)} and {sorted(typed)}"])


def made_of(folder):
    """What the page is made of: its size, its policy, and no address of another place."""
    with open(os.path.join(folder, "golly_canon.html"), encoding="utf-8") as it:
        page = it.read()
    counting.row(f"a page of {len(page)} bytes", [] if len(page) <= MOST else [f"it has more than {MOST}"])
    policy = re.search(r'Content-Security-Policy" content="([^"]*)"', page)
    is_strict = policy and policy[1].startswith("default-src 'none'; ") and not re.search("http|unsafe-inline|\\*", policy[1])
    counting.row("its policy", [] if is_strict else [str(policy and policy[1])])
    counting.row("no address of another place", re.findall(r"https?://[^\s\"'<]*", page))


def in_chromium(folder, program, options):
    """What the module answers, and what the page does."""
    with open(os.path.join(folder, "blank.html"), "w", encoding="utf-8") as it:
        it.write('<!doctype html><title>blank</title><link rel="icon" href="data:,">')

    def calls(browser):
        of_module.calls(browser, server.address)
        of_module.memory(browser, server.address)
        of_module.heap(browser, f"{server.address}/golly_canon.wasm")
        of_module.stacks(browser, server.address, folder)
        of_module.streams(browser, server.address)

    with browsers.Server(folder) as server:
        browsers.tested("answers of the module", browsers.Browser,
                        lambda it: of_module.compares(it, server.address, program, options.seed, options.cases))
        browsers.tested("what the module says of files", browsers.Browser, lambda it: of_module.hinted(it, server.address, program))
        browsers.tested("calls of the module", browsers.Browser, calls)
    of_page.rows(folder, program, options.pictures)


def in_webkit(folder, program, options):
    """A part of that in WebKit, where it is installed."""
    if not browsers.has_webkit():
        print(f"skipped: the same in WebKit, since there is no {browsers.WEBKIT_DRIVER} with its browser, or no {browsers.XVFB}", flush=True)
        return

    def some(browser):
        of_module.compares(browser, server.address, program, f"{options.seed} in WebKit", options.cases // 5, 10)
        of_module.calls(browser, server.address)
        of_module.memory(browser, server.address)
        of_module.heap(browser, f"{server.address}/golly_canon.wasm")
        of_module.stacks(browser, server.address, folder)
        of_module.streams(browser, server.address, 10_000)
        of_page.examples(browser, f"file://{folder}/golly_canon.html", "in WebKit")
        of_page.opening(browser, f"{server.address}/golly_canon.html", program, "in WebKit")
        with tempfile.TemporaryDirectory() as work:
            of_page.odd_files(browser, work, f"{server.address}/golly_canon.html", "in WebKit")
            of_page.vanishing(browser, work, f"{server.address}/golly_canon.html", "in WebKit")
        if not browsers.can_drag():
            print("skipped: files are dragged onto the page in WebKit, since there is no GTK 3 or no libXtst", flush=True)
            return
        for how, address in (("from the disk", f"file://{folder}"), ("from a web server", server.address)):
            with tempfile.TemporaryDirectory() as work:
                of_page.dragging(browser, work, f"{address}/golly_canon.html", f"in WebKit, {how}")

    with browsers.Server(folder) as server:
        browsers.tested("WebKit", browsers.WebKit, some)


def in_firefox(folder, program, options):
    """A smaller part in Firefox, where it is installed."""
    if not shutil.which(browsers.FIREFOX):
        print(f"skipped: the same in Firefox, since there is no {browsers.FIREFOX}", flush=True)
        return

    def some(browser):
        of_module.compares(browser, server.address, program, f"{options.seed} in Firefox", options.cases // 5, 10)
        of_module.memory(browser, server.address)
        of_module.heap(browser, f"{server.address}/golly_canon.wasm")
        of_page.examples(browser, f"file://{folder}/golly_canon.html", "in Firefox")

    with browsers.Server(folder) as server:
        browsers.tested("Firefox", browsers.Firefox, some)


def in_node(folder, program, options):
    """What the module and the command of the package for npm answer in Node, where it is installed."""
    if not processes.has_node():
        print(f"skipped: the module in Node, since there is no Node {processes.NODE}", flush=True)
        return
    shutil.copy(os.path.join(TOP, "packages", "npm", "node.mjs"), folder)

    def some(node):
        of_module.compares(node, f"file://{folder}", program, f"{options.seed} in Node", options.cases // 5, 10, ["Node"])
        of_module.hinted(node, f"file://{folder}", program, "Node")
        of_module.strictness(node)
        of_module.streams(node, f"file://{folder}", where="Node")
        of_module.forms(node)
        of_module.heap(node, f"file://{folder}/golly_canon.wasm")
        of_module.whole_memory(node, f"file://{folder}/golly_canon.wasm")

    browsers.tested("Node", browsers.Node, some)
    of_command.rows(folder, program, os.path.join(TOP, "packages", "npm"))


def main():
    parser = argparse.ArgumentParser(description=__doc__, formatter_class=argparse.RawDescriptionHelpFormatter)
    parser.add_argument("program")
    parser.add_argument("--cases", type=int, default=500)
    parser.add_argument("--seed", default="1")
    parser.add_argument("--built")
    parser.add_argument("--keep")
    parser.add_argument("--pictures")
    options = parser.parse_args()
    signal.signal(signal.SIGTERM, lambda *_: sys.exit(1))  # so that a browser ends with the test
    program = processes.program_of(options.program)
    types()
    with tempfile.TemporaryDirectory() as work:
        folder = os.path.join(work, "page")
        lacks = None
        if options.built:
            shutil.copytree(options.built, folder)
        else:
            lacks = built(folder)
        if lacks is not None:
            print(f"skipped: {lacks}", flush=True)
            return counting.ended()
        if options.keep:
            shutil.rmtree(options.keep, ignore_errors=True)
            shutil.copytree(folder, options.keep)
        made_of(folder)
        in_node(folder, program, options)
        if browsers.is_there():
            in_chromium(folder, program, options)
        else:
            print(f"skipped: the page in Chromium, since there is no {browsers.CHROMIUM} with its {browsers.DRIVER}", flush=True)
        in_webkit(folder, program, options)
        in_firefox(folder, program, options)
    return counting.ended()


if __name__ == "__main__":
    sys.exit(main())
