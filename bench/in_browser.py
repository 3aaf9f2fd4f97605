#!/usr/bin/env python3
"""Times the module for browsers in a headless Chromium beside the library for C, which it was compiled from: the least of so many runs of each call,
in milliseconds, on the inputs of `bench/generate.c`. Both are handed a whole file, and their answers have one length.

usage: bench/in_browser.py [PAGE LIBRARY] [--runs N]        out/page and out/library/libgolly_canon.so, if left out
"""

import argparse
import os
import subprocess
import sys
import tempfile
import time

TOP = os.path.dirname(os.path.dirname(os.path.abspath(__file__)))
sys.path[1:1] = [os.path.join(TOP, "tests", "page"), os.path.join(TOP, "tests"), os.path.join(TOP, "python")]
sys.dont_write_bytecode = True

import browser as browsers  # noqa: E402

INPUTS = {"soup of 1 MB in RLE": ("rle", 1_000_000), "soup of 10 MB in RLE": ("rle", 10_000_000), "tree of 100,000 lines": ("macrocell", 100_000)}
# The names of the calls here and in Python.
CALLS = {"canon": "canon", "show": "show", "toRle": "to_rle", "step": "step"}
TIMING = """
    const { load, Refused } = await import("./golly_canon.mjs");
    const golly = await load();
    const [name, calls, runs] = given;
    const file = new Uint8Array(await (await fetch(name)).arrayBuffer());
    const found = {};
    for (const call of calls) {
      let least = Infinity, length = 0;
      for (let run = 0; run < runs; run++) {
        const begun = performance.now();
        try { length = golly[call](file).length ?? 0; } catch (why) { if (!(why instanceof Refused)) throw why; length = why.message; }
        least = Math.min(least, performance.now() - begun);
      }
      found[call] = [least, length];
    }
    return found;"""


def native(library, data, call, runs):
    """The least time of a call of the Python module, which hands on to the library, and the length of its answer."""
    least, length = float("inf"), 0
    for _ in range(runs):
        begun = time.perf_counter()
        try:
            found = getattr(library, call)(data)
            length = len(found) if isinstance(found, bytes) else 0
        except library.Refused as why:
            length = str(why)
        least = min(least, 1000 * (time.perf_counter() - begun))
    return least, length


def main():
    parser = argparse.ArgumentParser(description=__doc__, formatter_class=argparse.RawDescriptionHelpFormatter)
    parser.add_argument("page", nargs="?", default=os.path.join(TOP, "out", "page"))
    parser.add_argument("library", nargs="?", default=os.path.join(TOP, "out", "library", "libgolly_canon.so"))
    parser.add_argument("--runs", type=int, default=7)
    options = parser.parse_args()
    os.environ["GOLLY_CANON_LIBRARY"] = os.path.abspath(options.library)
    import golly_canon

    with tempfile.TemporaryDirectory() as folder:
        subprocess.run(["cc", "-O2", "-o", f"{folder}/generate", os.path.join(TOP, "bench", "generate.c")], check=True)
        for name in ("golly_canon.mjs", "golly_canon.wasm"):
            with open(os.path.join(options.page, name), "rb") as source, open(os.path.join(folder, name), "wb") as it:
                it.write(source.read())
        with open(os.path.join(folder, "blank.html"), "w", encoding="ascii") as it:
            it.write("<!doctype html>")
        print("| call | browser | library | ratio |\n|---|---|---|---|")
        for what, (kind, size) in INPUTS.items():
            with open(os.path.join(folder, "input"), "wb") as it:
                subprocess.run([f"{folder}/generate", kind, str(size)], stdout=it, check=True)
            with open(os.path.join(folder, "input"), "rb") as it:
                data = it.read()
            with browsers.Server(folder) as server, browsers.Browser() as browser:
                browser.open(f"{server.address}/blank.html")
                found = browser.run(TIMING, "input", list(CALLS), options.runs)
            for call, name in CALLS.items():
                least, length = native(golly_canon, data, name, options.runs)
                if found[call][1] != length:
                    sys.exit(f"{call} of a {what} answers {found[call][1]} in the browser and {length} in the library")
                if isinstance(length, int):
                    print(f"| `{call}`, {what} | {found[call][0]:.1f} ms | {least:.1f} ms | {found[call][0] / least:.2f} |", flush=True)


if __name__ == "__main__":
    main()
