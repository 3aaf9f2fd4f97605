#!/usr/bin/env python3
"""The packages of a release, which scripts/packages builds here from PROGRAM, the library of ARCHIVE and the page in PAGE: built twice they have the same
bytes, and each is installed and used where nothing else of the project is. The packages for Debian are installed in a root over that of this machine,
which is gone afterwards; the wheel in a new environment; the package for npm in a folder; and the program of the archive runs in a root that has nothing
else. Where a tool isn't installed, or a root isn't allowed, a line says what is skipped.

usage: tests/packages/packages.py PROGRAM ARCHIVE PAGE
"""

import contextlib
import glob
import os
import re
import shutil
import subprocess
import sys
import tarfile
import tempfile

TOP = os.path.dirname(os.path.dirname(os.path.dirname(os.path.abspath(__file__))))
sys.path.insert(1, os.path.join(TOP, "tests"))

from shared import counting, fixtures, processes, streams  # noqa: E402

RT = os.environ.get("RT") or "rt"
GLIDER = os.path.join(TOP, "examples", "glider.mc")
# Nothing of the caller's environment reaches what is installed.
PLAIN = {"PATH": "/usr/sbin:/usr/bin:/sbin:/bin", "LC_ALL": "C.UTF-8"}


def skipped(what, why):
    print(f"skipped: {what}, since {why}", flush=True)


def ran(*words, **how):
    """What a command answers, as text: its status, and both of its outputs."""
    how = {"env": PLAIN, "stdin": subprocess.DEVNULL, **how}
    found = subprocess.run(words, stdout=subprocess.PIPE, stderr=subprocess.PIPE, text=True, errors="replace", check=False, **how)
    return found.returncode, found.stdout, found.stderr


def holds(name, found, wanted):
    counting.row(name, [] if found == wanted else [f"{found!r:.1500} and not {wanted!r:.1500}"])


def version():
    with open(os.path.join(TOP, "VERSION"), encoding="ascii") as it:
        return it.read().strip()


def build(program, library, page, folder, umask=0o022, **environment):
    """Builds the packages. The files that they are made from are other ones each time, of another date."""
    with tempfile.TemporaryDirectory() as work:
        copies = [os.path.join(work, it) for it in ("golly_canon", "library", "page")]
        shutil.copy(program, copies[0])
        for source, copy in ((library, copies[1]), (page, copies[2])):
            shutil.copytree(source, copy, symlinks=True, copy_function=shutil.copyfile)
        words = [sys.executable, "-B", os.path.join(TOP, "scripts", "packages"), folder]
        for option, copy in zip(("--program", "--library", "--page"), copies):
            words += [option, copy]
        return ran(*words, env={**os.environ, **environment}, cwd=work, umask=umask)


def contents(folder):
    found = {}
    for name in sorted(os.listdir(folder)):
        with open(os.path.join(folder, name), "rb") as it:
            found[name] = it.read()
    return found


def built(program, library, page, folder):
    """Whether the packages are built, twice with the same bytes, and have the sums that are listed."""
    status, _, error = build(program, library, page, folder)
    counting.row("the packages are built", [error] if status else [])
    if status:
        return False
    again = f"{folder}-again"
    build(program, library, page, again, 0o077, TZ="Pacific/Auckland", LC_ALL="C", HOME=again, SOURCE_DATE_EPOCH="1")
    first, second = contents(folder), contents(again)
    holds("built twice they have the same bytes", [it for it in {**first, **second} if first.get(it) != second.get(it)], [])
    status, said, error = ran("sha256sum", "--check", "--strict", "SHA256SUMS", cwd=folder)
    holds("their sums are listed", (status, said.count(": OK")), (0, len(first) - 1))
    with open(os.path.join(page, "golly_canon.html"), "rb") as it:
        counting.row("the page is the one that was built", [] if first.get(f"golly_canon-{version()}.html") == it.read() else ["it is another one"])
    without = [it for it in first if it != "SHA256SUMS" and version() not in it]
    holds("each name has the version", without, [])
    return True


# What golly_canon_collection says of two files of one pattern.
COUNTS = "collection: 2 files, 2 keys, 0 refused, 0 unread, 1 patterns, 1 groups in the form moved"


# ---- Debian

# What is done in a root of its own, whose upper layer is in memory. Its arguments are a folder and the commands.
IN_ROOT = """
    set -e
    mount -t tmpfs none "$1/layer"
    mkdir "$1/layer/upper" "$1/layer/work" "$1/layer/root"
    mount -t overlay -o "lowerdir=/,upperdir=$1/layer/upper,workdir=$1/layer/work" none "$1/layer/root"
    mount --rbind /dev "$1/layer/root/dev"
    mkdir "$1/layer/root/here"
    cp "$1"/files/* "$1/layer/root/here"
    exec chroot "$1/layer/root" /bin/sh -c "cd /here; $2"
"""
IN_DEBIAN = """
    exec 2>&1
    rm -f /usr/local/lib/libgolly_canon* && ldconfig
    dpkg --install ./*.deb > installed || cat installed
    golly_canon --version
    golly_canon keys glider.mc
    cp glider.mc copy.mc && golly_canon_collection --workers 0 --table all.sqlite glider.mc copy.mc
    ls /usr/share/man/man1/golly_canon_collection.1.gz
    ls /usr/share/man/man1/golly_canon.1.gz /usr/share/zsh/vendor-completions/_golly_canon /usr/share/fish/vendor_completions.d/golly_canon.fish
    bash -c '. /usr/share/bash-completion/completions/golly_canon && complete -p golly_canon' | grep -o 'golly_canon$'
    python3 -I -c 'import golly_canon; print(golly_canon.key(open("glider.mc", "rb").read()).hex(), golly_canon.__file__, golly_canon._library._name)'
    pkg-config --modversion golly_canon
    for it in canon pieces; do dpkg --fsys-tarfile libgolly-canon-dev_*.deb | tar -xO "./usr/share/doc/libgolly-canon-dev/examples/$it.c" > $it.c; done
    cc -o pieces pieces.c $(pkg-config --cflags --libs golly_canon) && ./pieces < glider.mc | cmp - canonical && echo pieces
    cc -o canon canon.c $(pkg-config --cflags --libs golly_canon) && ./canon < glider.mc
    cc -o static canon.c $(pkg-config --cflags golly_canon) -l:libgolly_canon.a && ./static < glider.mc | cmp - canonical && echo static
    dpkg --verify golly-canon libgolly-canon1 libgolly-canon-dev python3-golly-canon
    dpkg --purge golly-canon libgolly-canon1 libgolly-canon-dev python3-golly-canon > purged || cat purged
    find /usr /etc /var/lib/dpkg/info -xdev -path '*golly[_-]canon*' -newer glider.mc
    echo done
"""


def in_root(work, files, commands):
    """What commands say in a root over that of this machine, where these files are in the folder, or nothing where no such root is allowed."""
    folder = os.path.join(work, "root")
    os.makedirs(os.path.join(folder, "files"))
    os.makedirs(os.path.join(folder, "layer"))
    for it in files:
        shutil.copy(it, os.path.join(folder, "files"))
    unshare = ["unshare", "--mount", *([] if os.geteuid() == 0 else ["--map-root-user"])]
    if not shutil.which("unshare") or ran(*unshare, "sh", "-c", IN_ROOT, "", folder, "true")[0]:
        return None
    return ran(*unshare, "sh", "-c", IN_ROOT, "", folder, commands)[1]


def debian(folder, work, program):
    packages = sorted(glob.glob(f"{folder}/*.deb"))
    holds("four packages for Debian", len(packages), 4)
    if shutil.which("lintian"):
        words = ["lintian", "--fail-on", "error,warning", *(["--allow-root"] if os.geteuid() == 0 else [])]
        status, said, error = ran(*words, *packages)
        counting.row("lintian finds nothing in them", [said + error] if status else [])
    else:
        skipped("what lintian says of the packages for Debian", "it isn't installed")
    if not shutil.which("dpkg"):
        skipped("an install of the packages for Debian", "this is no Debian")
        return
    canonical = os.path.join(work, "canonical")
    text = processes.run([program, "canon", GLIDER]).output
    with open(canonical, "wb") as it:
        it.write(text)
    said = in_root(work, [*packages, GLIDER, canonical], IN_DEBIAN)
    if said is None:
        skipped("an install of the packages for Debian", "no root is allowed over that of this machine")
        return
    key = processes.run([program, "keys", GLIDER]).output.decode().split()[0]
    holds("the packages for Debian are installed, used and removed", said.splitlines(), [
        f"golly_canon {version()}", f"{key}  glider.mc", "glider.mc = copy.mc", COUNTS,
        "/usr/share/man/man1/golly_canon_collection.1.gz", "/usr/share/fish/vendor_completions.d/golly_canon.fish",
        "/usr/share/man/man1/golly_canon.1.gz", "/usr/share/zsh/vendor-completions/_golly_canon", "golly_canon",
        f"{key} /usr/lib/python3/dist-packages/golly_canon/__init__.py libgolly_canon.so.1",
        version(), "pieces", *text.decode().splitlines(), "static", "done"])


# ---- Python

IN_PYTHON = """
import golly_canon, os, sys
folder = os.path.dirname(golly_canon.__file__)
file = open(sys.argv[1], "rb").read()
assert folder.startswith(sys.prefix) and golly_canon._library._name == os.path.join(folder, "libgolly_canon.so.1"), golly_canon._library._name
assert os.path.isfile(os.path.join(folder, "py.typed"))
print(golly_canon.__version__, golly_canon.key(file).hex(), golly_canon.show(file).population)
try:
    golly_canon.canon(b"[M2]\\n4 0 0 0 9\\n")
except golly_canon.Refused as why:
    print(why)
"""


def python(folder, work, program):
    environment = os.path.join(work, "environment")
    if ran(sys.executable, "-m", "venv", environment)[0]:
        skipped("an install of the wheel", "this Python makes no environment with pip")
        return
    wheels = glob.glob(f"{folder}/*.whl")
    status, said, error = ran(f"{environment}/bin/pip", "install", "--no-index", "--disable-pip-version-check", *wheels)
    counting.row("pip installs the wheel, without a network", [said + error] if status else [])
    key = processes.run([program, "keys", GLIDER]).output.decode().split()[0]
    found = ran(f"{environment}/bin/python", "-I", "-c", IN_PYTHON, GLIDER, cwd=work)
    holds("the module finds the library in its wheel", found, (0, f"{version()} {key} 5\nline 2: BadChild\n", ""))
    words = ["--workers", "0", "--table", os.path.join(work, "wheel.sqlite"), GLIDER, GLIDER]
    found = ran(f"{environment}/bin/golly_canon_collection", *words, cwd=work)
    holds("the wheel has the command golly_canon_collection", found, (0, f"{GLIDER} = {GLIDER}\n", f"{COUNTS}\n"))
    _, said, _ = ran(f"{environment}/bin/pip", "show", "--disable-pip-version-check", "golly_canon")
    licence = re.search("(?m)^License: (.*)$", said)
    holds("pip shows that there is no licence yet", licence and licence[1].startswith("no licence yet"), True)
    ran(f"{environment}/bin/pip", "uninstall", "--yes", "--disable-pip-version-check", "golly_canon")
    left = glob.glob(f"{environment}/lib/*/site-packages/golly*") + glob.glob(f"{environment}/bin/golly*")
    holds("pip removes it", left, [])


# ---- npm

IN_NODE = """
import { readFileSync } from "node:fs";
import { Refused, isSupported, load } from "golly_canon";
const golly = await load();
const file = readFileSync(process.argv[2]);
console.log(golly.version, Buffer.from(golly.key(file)).toString("hex"), golly.show(file).population, isSupported());
try { golly.canon("[M2]\\n4 0 0 0 9\\n"); } catch (why) { console.log(why instanceof Refused, why.message); }
"""


def npm(folder, work, program):
    if not processes.has_node("npm"):
        skipped("an install of the package for npm", f"there is no Node {processes.NODE} with npm")
        return
    place, cache = os.path.join(work, "npm"), os.path.join(work, "cache")
    os.mkdir(place)
    how = {"cwd": place, "env": {**PLAIN, "PATH": os.environ["PATH"], "HOME": work, "npm_config_cache": cache, "npm_config_update_notifier": "false"}}
    status, said, error = ran("npm", "install", "--offline", "--no-audit", "--no-fund", *glob.glob(f"{folder}/*.tgz"), **how)
    counting.row("npm installs the package, without a network", [said + error] if status else [])
    with open(os.path.join(place, "used.mjs"), "w", encoding="ascii") as it:
        it.write(IN_NODE)
    key = processes.run([program, "keys", GLIDER]).output.decode().split()[0]
    holds("the module is imported in Node", ran("node", "used.mjs", GLIDER, **how), (0, f"{version()} {key} 5n true\ntrue line 2: BadChild\n", ""))
    commands = ran("npx", "--offline", "golly_canon", "keys", GLIDER, **how)
    holds("npx runs the command", commands, (0, f"{key}  {GLIDER}\n", ""))
    command(place, program, how)


# Commands on the small files of the tests, among them each way to be refused.
COMMANDS = ["canon pair.rle", "canon pair.rle --form moved", "canon pair.mc --form=turned", "canon bad.rle", "canon empty", "convert pair.mc --to rle",
            "convert many.rle --to rle", "convert pair.rle --to mc", "same pair.rle pair.mc", "same pair.rle line.rle", "same pair.rle bad.rle",
            "same named.rle line.rle --form turned", "show pair.rle", "show input", "show last.rle", "step line.rle", "step last.rle", "step edge.rle",
            "step spread.rle", "step spread.rle --table spread.rule", "step spread.rle --table bad.rule", "step beyond.rle --table spread.rule",
            "keys pair.rle pair.mc line.rle", "keys pair.rle pair.mc --form turned", "--version", "canon -"]
# Commands whose standard input is a stream of patterns, accepted and refused.
STREAMS = ["keys --stream -", "keys --stream - --form moved", "keys --form=turned --stream=-", "keys --json --stream -", "keys --zero --stream -"]
# A name that a line of `keys` has to escape.
ODD = "a\\b\nc\rd.rle"
# Commands of which only the status is the program's, since the words are others.
WRONG = ["canon", "canon pair.rle pair.mc", "canon pair.rle --form rotated", "convert pair.rle", "convert pair.rle --to cells", "same pair.rle",
         "same - -", "canon --nothing", "nothing", "", "keys", "canon no-file", "keys no-file", "keys bad.rle pair.rle"]


def command(place, program, how):
    """The command of the package for npm answers as the program does."""
    for name, data in {**fixtures.FILES, ODD: fixtures.FILES["pair.rle"]}.items():
        with open(os.path.join(place, name), "wb") as it:
            it.write(data)
    made = os.path.join(place, "node_modules", ".bin", "golly_canon")
    line = fixtures.FILES["line.rle"]
    runs = [*((it.split(), line, True) for it in COMMANDS), (["keys", ODD], line, True), *((it.split(), line, False) for it in WRONG)]
    runs += [*((it.split(), streams.STREAM, True) for it in STREAMS), (["keys", "--stream", "-", "pair.rle"], streams.STREAM, False)]
    with contextlib.chdir(place):
        problems = []
        for words, source, is_whole in runs:
            wanted, found = (processes.run([it, *words], source, env=how["env"]) for it in (program, made))
            is_equal = found == wanted if is_whole else (found.status, bool(found.error)) == (wanted.status, bool(wanted.error))
            problems += [] if is_equal else [f"{words}: {found!r:.700} and not {wanted!r:.700}"]
    counting.row(f"the command answers as the program does, {len(runs)} times", problems)


# ---- the archive


def archive(folder, work, program):
    place = os.path.join(work, "archive")
    with tarfile.open(glob.glob(f"{folder}/*.tar.gz")[0]) as it:
        it.extractall(place, **({"filter": "data"} if hasattr(tarfile, "data_filter") else {}))
    place = os.path.join(place, f"golly_canon-{version()}")
    static = os.path.join(place, "bin", "golly_canon")
    wanted = processes.run([program, "canon", GLIDER]).output.decode()
    problems = []
    for name, data in fixtures.FILES.items():
        for words in (["canon", "-"], ["show", "-"], ["keys", "-"], ["canon", "-", "--form", "turned"]):
            found, told = (processes.run([it, *words], data, env=PLAIN) for it in (static, program))
            problems += [] if found == told else [f"{name} {' '.join(words)}: {found} and not {told}"]
    counting.row("the program of the archive answers as the other one does", problems)
    empty = os.path.join(work, "empty")
    os.mkdir(empty)
    shutil.copy(static, empty)
    words = ["chroot", empty] if os.geteuid() == 0 else ["unshare", "--map-root-user", "chroot", empty]
    with open(GLIDER, encoding="ascii") as source:
        status, said, error = ran(*words, "/golly_canon", "canon", "-", stdin=source)
    if status and "permitted" in error:
        skipped("the program in a root that has nothing else", "no such root is allowed")
    else:
        holds("the program runs in a root that has nothing else", (status, said), (0, wanted))
    how = {"env": {**PLAIN, "PKG_CONFIG_PATH": f"{place}/lib/pkgconfig", "LD_LIBRARY_PATH": f"{place}/lib", "PYTHONPATH": f"{place}/share/golly_canon"}}
    made = os.path.join(work, "canon")
    status, said, error = ran("sh", "-c", f'cc -o "{made}" "{TOP}/examples/canon.c" $(pkg-config --cflags --libs golly_canon)', **how)
    counting.row("a program is compiled against its library", [said + error] if status else [])
    status, said, error = ran(sys.executable, "-B", f"{place}/share/golly_canon/collection.py", "--help", **how)
    counting.row("its program for collections starts", [] if status == 0 and "--table" in said else [said + error])
    for name, words in (("that program runs", [made]), ("its Python module finds its library", [sys.executable, "-B", f"{TOP}/examples/canon.py"])):
        with open(GLIDER, encoding="ascii") as source:
            holds(name, ran(*words, stdin=source, **how), (0, wanted, ""))
    for number, path in enumerate(("share/golly_canon/collection.py", "bin/golly_canon_collection")):
        words = ["--workers", "0", "--table", os.path.join(work, f"archive{number}.sqlite"), GLIDER, GLIDER]
        found = ran(*([sys.executable, "-B"] if path.endswith(".py") else []), os.path.join(place, path), *words, env=PLAIN)
        holds(f"{path} finds the module and the library", found, (0, f"{GLIDER} = {GLIDER}\n", f"{COUNTS}\n"))


def main():
    if len(sys.argv) != 4:
        sys.exit(__doc__[__doc__.index("usage: "):].strip())
    program, static, page = processes.program_of(sys.argv[1]), *map(os.path.abspath, sys.argv[2:])
    with tempfile.TemporaryDirectory() as work:
        library, folder = os.path.join(work, "library"), os.path.join(work, "packages")
        status, said, error = ran("sh", os.path.join(TOP, "scripts", "link_library"), static, library, env={**os.environ, "RT": RT})
        counting.row("the library is linked", [said + error] if status else [])
        if not os.path.isdir(page):
            nothing = os.path.join(work, "nothing")
            os.mkdir(nothing)
            status, _, error = build(program, library, nothing, folder)
            counting.row("there are no packages without the page", [] if status and "make page builds it" in error else [error])
            skipped("the packages", f"there is no page in {sys.argv[3]}")
        elif built(program, library, page, folder):
            for part in (debian, python, npm, archive):
                part(folder, work, program)
    return counting.ended()


if __name__ == "__main__":
    sys.exit(main())
