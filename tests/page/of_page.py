"""What the page does with files: opened from the disk, as by a double click, and from a web server."""

import base64
import bz2
import csv
import gzip
import hashlib
import io
import json
import lzma
import os
import random
import re
import tarfile
import tempfile
import time
import zipfile

import browser as browsers
import of_module
from shared import counting, fixtures, processes

GLIDER = b"x = 3, y = 3\nbo$2bo$3o!\n"
MOVED = b"#CXRLE Pos=-70,5\nx = 3, y = 3\nbo$2bo$3o!\n"
SPELLED = b"[M2] (golly 4.2)\n#R s23/b3\n.*$..*$***$\n4 0 0 0 1\n"
TURNED = b"x = 3, y = 3\nbo$o$3o!\n"
LATER = b"#CXRLE Gen=1\nx = 3, y = 3\nobo$b2o$bo!\n"  # the glider, one generation later
REFUSED = b"x = 3, y = 3\nbo$2bo$\n3oz!\n"
# A macrocell file that lost its line ends: it is one line, and so the blank pattern.
LOST = b"[M2] (golly 4.2)\r#R B3/S23\r$$..*$...*$.***$\r"
# The longest time for which the page may not answer while it reads 100 MB: in seconds, or as a share of the whole time, on a machine with other work to
# do; and how often that is measured, where it takes longer. A page that reads by itself doesn't answer at all meanwhile.
LONGEST_PAUSE, PAUSING_SHARE, MEASURED = 0.5, 1 / 8, 3
# The most seconds for reading these 100 MB.
LONG_WORK = 300


class Page:
    """The page in a window."""

    def __init__(self, browser, address):
        self.browser, self.address = browser, address
        browser.open("about:blank")
        browser.open(address)
        self.until("document.getElementById('said').textContent === ''")

    def until(self, condition, seconds=browsers.PATIENCE):
        self.browser.until(condition, seconds)

    def text(self, name):
        return self.browser.text(name)

    def hides(self, name):
        return self.browser.run("return document.getElementById(given[0]).hidden;", name)

    def click(self, name):
        self.browser.click(name)

    def rests(self, seconds=browsers.PATIENCE):
        """Waits until nothing is at work."""
        self.until("document.getElementById('working').hidden", seconds)

    def cleared(self):
        self.browser.run("const it = document.getElementById('clear'); if (!it.hidden) it.click();")

    def dropped(self, paths, condition="!document.getElementById('clear').hidden", seconds=browsers.PATIENCE):
        """Drops files where there are none yet, and waits till they are read."""
        self.cleared()
        self.browser.drop(paths)
        self.until(condition, seconds)
        self.rests(seconds)

    def example(self, index):
        self.browser.run("document.querySelectorAll('#examples button')[given[0]].click();", index)
        self.until("!document.getElementById('clear').hidden")
        self.rests()

    def summary(self):
        """What stands beside the picture, by its names. Numbers have no spaces."""
        found = self.browser.run("return [...document.querySelectorAll('#summary > *')].map(it => it.textContent);")
        words = [it.replace("\u202f", "") for it in found]
        return dict(zip(words[::2], words[1::2]))

    def compare_in(self, index):
        """Chooses the form with this number, and waits until the files are compared in it."""
        self.browser.run("document.querySelectorAll('#forms button')[given[0]].click();", index)
        self.until(f"document.querySelectorAll('#forms button')[{index}].ariaPressed === 'true'")
        self.rests()

    def forms(self):
        """The forms that can be chosen."""
        return self.browser.run("return [...document.querySelectorAll('#forms button')].map(it => it.textContent.replaceAll('\u202f', ''));")

    def list(self):
        """The rows of the list."""
        return self.browser.run("return [...document.querySelectorAll('#list tbody tr')].map(row => [...row.cells].map(cell => cell.innerText));")

    def saved(self, name):
        """What a button saves, and the file's name."""
        return self.browser.run("""
            const real = URL.createObjectURL;
            const click = HTMLAnchorElement.prototype.click;
            let blob, file;
            URL.createObjectURL = it => { blob = it; return real.call(URL, it); };
            HTMLAnchorElement.prototype.click = function () { file = this.download; };
            document.getElementById(given[0]).click();
            URL.createObjectURL = real;
            HTMLAnchorElement.prototype.click = click;
            return [await blob.text(), file];""", name)

    def key(self, key, code=None, **more):
        for kind in ("keyDown", "keyUp"):
            self.browser.command("Input.dispatchKeyEvent", type=kind, key=key, code=code or key, **more)


class Answers:
    """What the program writes."""

    def __init__(self, path, folder):
        self.path, self.folder = path, folder

    def of(self, *words):
        answer = processes.run([self.path, *words], cwd=self.folder)
        return answer.output.decode()


def put(folder, **files):
    """Writes files into a folder, by names in which `_` stands for the point, and returns their paths."""
    os.makedirs(folder, exist_ok=True)
    paths = []
    for name, data in files.items():
        paths.append(os.path.join(folder, name.replace("_", ".")))
        with open(paths[-1], "wb") as it:
            it.write(data)
    return paths


def holds(name, condition, found):
    """Counts a check, with what was found where it fails."""
    counting.row(name, [] if condition else [str(found)])


def differing(found, wanted):
    """What differs between what was found and what was wanted, both by names."""
    return [f"{name}: {found.get(name)!r} and not {wanted[name]!r}" for name in wanted if found.get(name) != wanted[name]]


# ---- what is dropped, opened and pasted


def comparing(page, folder):
    one, other, moved = put(folder, one_rle=GLIDER, other_mc=SPELLED, moved_rle=MOVED)
    page.dropped([one, other])
    counting.row("two files of one pattern are dropped", differing({"answer": page.text("answer"), "groups": [it[0] for it in page.list()]},
                                                                  {"answer": "Both files are one pattern.", "groups": ["1", "1"]}))
    page.dropped([one, moved])
    counting.row("two files of one pattern that is moved", differing(
        {"answer": page.text("answer"), "why": page.text("why")},
        {"answer": "Both files are one pattern, at different places.",
         "why": "The second one is 70 columns to the west and 5 rows to the south of the first."}))
    page.dropped([one, *put(folder, turned_rle=TURNED)])
    counting.row("two files of one pattern that is reflected", differing({"answer": page.text("answer")},
                                                                        {"answer": "Both files are one pattern, turned or reflected."}))
    third = put(folder, third_rle=b"x=1,y=1,rule=B36/S23\no!\n")[0]
    page.dropped([one, third])
    counting.row("two files of two patterns", differing(
        {"answer": page.text("answer"), "why": page.text("why")},
        {"answer": "The files are two patterns.", "why": "They have different rules: B3/S23 and B36/S23."}))
    page.cleared()
    page.browser.give("files", [one, other, third])
    page.until("document.querySelectorAll('#list tbody tr').length === 3")
    page.rests()
    counting.row("three files are opened", differing({"answer": page.text("answer"), "groups": [it[0] for it in page.list()]},
                                                    {"answer": "2 of 3 files are the same pattern as another file: 1 group.", "groups": ["1", "1", ""]}))


def pasting(page):
    page.cleared()
    page.click("paste")
    page.browser.run("document.getElementById('text').value = given[0]; document.querySelector('#typed button').click();", GLIDER.decode())
    page.until("!document.getElementById('shown').hidden")
    counting.row("a text that is typed", differing({"name": page.text("name"), **page.summary()},
                                                   {"name": "pasted 1", "Cells": "5", "Box": "3 \u00d7 3 at (0, 0)"}))
    page.click("paste")
    page.browser.run("""document.activeElement.blur(); const data = new DataTransfer(); data.setData("text/plain", given[0]);
        document.body.dispatchEvent(new ClipboardEvent("paste", { clipboardData: data, bubbles: true }));""", SPELLED.decode())
    page.until("!document.getElementById('compared').hidden")
    page.rests()
    counting.row("a text that is pasted", differing({"answer": page.text("answer")}, {"answer": "Both files are one pattern."}))


def showing(page, folder, answers):
    """Summary, key, texts, and what is refused."""
    source = random.Random(7)
    cells = "$\n".join("".join(source.choice("bo") for _ in range(60)) for _ in range(50))
    soup = put(folder, soup_rle=f"#CXRLE Pos=-31,12 Gen=5\nx = 60, y = 50, rule = B36/S23\n{cells}!\n".encode())[0]
    page.dropped([soup])
    lines = dict(it.split(" ", 1) for it in answers.of("show", soup).splitlines())
    left, top, width, height = lines["box"].split()
    canonical = answers.of("canon", soup)
    keys = {f"Key, {form}": hashlib.sha256(answers.of("canon", soup, "--form", form).encode()).hexdigest() for form in ("moved", "turned")}
    page.until("document.querySelectorAll('#summary .key').length === 3")
    counting.row("what a file holds", differing(page.summary(), {
        **keys,
        "Rule": lines["rule"], "Generation": lines["generation"], "Cells": lines["population"], "Box": f"{width} \u00d7 {height} at ({left}, {top})",
        "Squares in the text": lines["nodes"], "Key": hashlib.sha256(canonical.encode()).hexdigest()}))
    seen_text = page.browser.run("return document.getElementById('written').value;")
    counting.row("the canonical text", differing({"text": page.saved("save"), "seen": seen_text}, {"text": [canonical, "soup.mc"], "seen": canonical}))
    page.click("as-rle")
    page.until("document.getElementById('written').value.startsWith('#CXRLE')")
    counting.row("the text in RLE", differing({"text": page.saved("save")}, {"text": [answers.of("convert", soup, "--to", "rle"), "soup.rle"]}))
    refused = put(folder, refused_rle=REFUSED)[0]
    page.dropped([refused])
    counting.row("a file that is refused", differing(
        {"told": page.text("refused-reason"), "why": page.text("refused-why"), "line": page.text("refused-line")},
        {"told": "line 3: BadItem", "why": page.sentence("BadItem"), "line": "3: 3oz!"}))
    page.dropped([refused, soup])
    counting.row("a refused file in a list", differing({"rows": [it[2:] for it in page.list()][-1:]}, {"rows": [["line 3: BadItem"]]}))


def packing(page, folder):
    """Folders, zips and gzip, with duplicates; zips that are broken."""
    below = os.path.join(folder, "collection")
    put(below, a_rle=GLIDER, b_mc=SPELLED, c_rle=b"x=1,y=1\no!\n", d_txt=b"no pattern\n")
    put(os.path.join(below, "deeper"), e_rle=b"#C the same\nx=3,y=3\nbob$2bo$3o!\n", f_rle=b"x=2,y=1\n2o!\n", _formula_rle=b"x=2,y=1\noo!\n")
    page.dropped([below], "document.querySelectorAll('#list tbody tr').length === 7")
    groups = sorted((it[1], it[0]) for it in page.list())
    by_group = {}
    for name, group in groups:
        by_group.setdefault(group, set()).add(name)
    wanted_groups = {frozenset(f"collection/{it}" for it in some)
                     for some in (["a.rle", "b.mc", "deeper/e.rle"], ["deeper/.formula.rle", "deeper/f.rle"])}
    holds("a folder with duplicates", {frozenset(it) for group, it in by_group.items() if group} == wanted_groups and len(groups) == 7, groups)
    text, name = page.saved("save-table")
    table = list(csv.DictReader(io.StringIO(text, newline="")))
    by_key = {}
    for row in table:
        by_key.setdefault(row["key"], set()).add(row["file"])
    refused = [row for row in table if row["refused"]]
    duplicates = {frozenset(it) for it in by_key.values() if len(it) > 1}
    holds("its duplicates as a table", name == "patterns.csv" and len(table) == 7 and duplicates == wanted_groups, text)
    holds("what is refused in it", [(it["file"], it["refused"]) for it in refused] == [("collection/d.txt", "line 1: NoHeader")], refused)
    packed = os.path.join(folder, "packed.zip")
    with zipfile.ZipFile(packed, "w") as it:
        it.writestr("a.rle", GLIDER, zipfile.ZIP_DEFLATED)
        it.writestr("inner/", b"")
        it.writestr("inner/b.mc", SPELLED, zipfile.ZIP_STORED)
        it.writestr("inner/ä.rle", b"x=1,y=1\no!\n" + b"#" * 3000, zipfile.ZIP_DEFLATED)
        it.writestr("inner/c.rle.gz", gzip.compress(b"x=1,y=1\no!\n"), zipfile.ZIP_STORED)
        it.writestr("inner/d.rle.GZ", gzip.compress(GLIDER), zipfile.ZIP_DEFLATED)
        it.writestr("inner/no.gz", b"no gzip\n", zipfile.ZIP_DEFLATED)
    page.dropped([packed], "document.querySelectorAll('#list tbody tr').length === 6")
    counting.row("a zip with duplicates", differing({"rows": sorted((it[1], it[0]) for it in page.list())}, {"rows": [
        ("packed.zip/a.rle", "1"), ("packed.zip/inner/b.mc", "1"), ("packed.zip/inner/c.rle.gz", "2"), ("packed.zip/inner/d.rle.GZ", "1"),
        ("packed.zip/inner/no.gz", ""), ("packed.zip/inner/ä.rle", "2")]}))
    unmarked = os.path.join(folder, "unmarked.zip")  # as Debian's zip writes it: names in UTF-8 and in Latin-1, without a flag
    with zipfile.ZipFile(unmarked, "w") as it:
        it.writestr("caf__.rle", GLIDER)
        it.writestr("caf_.rle", b"x=1,y=1\no!\n")
    with open(unmarked, "rb") as it:
        data = it.read().replace(b"caf__.rle", "caf\u00e9.rle".encode()).replace(b"caf_.rle", b"caf\xe9.rle")
    with open(unmarked, "wb") as it:
        it.write(data)
    page.dropped([unmarked], "document.querySelectorAll('#list tbody tr').length === 2")
    names = sorted(it[1] for it in page.list())
    counting.row("names in a zip without a flag", differing({"names": names}, {"names": ["unmarked.zip/caf\\xe9.rle", "unmarked.zip/caf\u00e9.rle"]}))
    packed_alone = put(folder, glider_rle_gz=gzip.compress(GLIDER), other_mc=SPELLED)
    page.dropped(packed_alone, "document.querySelectorAll('#list tbody tr').length === 2")
    counting.row("a file that gzip packed", differing({"answer": page.text("answer")}, {"answer": "Both files are one pattern."}))
    with open(packed, "rb") as it:
        data = it.read()
    listed = data.index(b"PK\1\2")
    broken = {"its end is lacking": data[:-30], "a byte of a file is another one": data[:40] + bytes([data[40] ^ 255]) + data[41:],
              "the list is another one": data[: listed + 60] + b"\0" * 20 + data[listed + 80:], "half of it": data[: len(data) // 2],
              "gzip that is cut": gzip.compress(GLIDER * 50)[:-9], "gzip of another sum": gzip.compress(GLIDER)[:-6] + b"abcdef"}
    for what, bad in broken.items():
        name = "bad.rle.gz" if what.startswith("gzip") else "bad.zip"
        page.dropped(put(os.path.join(folder, "broken"), **{name.replace(".", "_"): bad}))
        said = page.browser.run("return document.body.innerText;")
        counting.row(f"a broken file: {what}", [] if "damaged" in said else [said])


# ---- folders with odd names


# Names of files, among them each that the handles of folders in Chromium hide.
ODD = [" lead.rle", ".hidden.rle", "CON", "a*b.rle", "a:b.rle", "a<b>.rle", "back\\slash.rle", "con.rle", "desktop.ini", "h#sh.rle", "new\nline.rle",
       "plain.rle", "q%41.rle", "til~", "trail ", "trail.", "what?.rle", "x \"y\".rle", "x.lnk", "x.local", "x.url", "x|y.rle", "~x.rle",
       "\u202egnp.rle", "\u00e4.rle", "esc\x1b[31m.rle", "deeper/in.rle", "dots. /in.rle"]
UNNAMED = "its name isn't UTF-8 text, so the browser can't open it: rename it, or drop a tar of the folder"


def odd_folder(folder):
    """A folder `odd` with a glider under each of these names, and under two that aren't UTF-8 text: that of a file, and that of a folder with a file."""
    top = os.path.join(folder, "odd")
    for name in [*map(os.fsencode, ODD), b"\xff4.rle", b"sub\xe9/in.rle"]:
        path = os.path.join(os.fsencode(top), name)
        os.makedirs(os.path.dirname(path), exist_ok=True)
        with open(path, "wb") as it:
            it.write(GLIDER)
    return top


def listed(page):
    """The files that the page read, and those that it didn't read, with the reason of each."""
    rows = table(page).items()
    return {name for name, row in rows if row["key"]}, {name: row["refused"] for name, row in rows if not row["key"]}


def folders(browser, folder, address, where):
    """Each file of a dropped folder is read, or listed with the reason why it isn't."""
    page = Page(browser, address)
    top = odd_folder(folder)
    whole = {f"odd/{name}" for name in ODD}
    page.dropped([top])
    read, unread = listed(page)
    counting.row(f"a folder of odd names is dropped {where}", differing(
        {"read": read, "unread": unread, "answer": page.text("answer")},
        {"read": whole, "unread": {"odd/?": UNNAMED, "odd/?/": UNNAMED},
         "answer": f"{len(ODD)} of {len(ODD) + 2} files are the same pattern as another file: 1 group."}))
    said = page.text("why")
    holds(f"the page says that a file wasn't read, and that a folder wasn't {where}", "1 file wasn't read" in said and "missing from 1 folder" in said, said)
    names = {row[1] for row in page.list()}
    wanted = {"odd/back\\\\slash.rle", "odd/new\\nline.rle", "odd/\\xe2\\x80\\xaegnp.rle", "odd/esc\\x1b[31m.rle"}
    holds(f"names are shown as the program writes them {where}", wanted <= names, names)
    hidden = [name for name in ODD if "/" not in name and name != "plain.rle"]
    page.dropped([os.path.join(folder, "odd", "deeper"), *(os.path.join(top, it) for it in hidden[:2])])
    read, unread = listed(page)
    counting.row(f"a folder and files are dropped {where}", differing({"read": read, "unread": unread}, {
        "read": {"deeper/in.rle", *hidden[:2]}, "unread": {}}))
    page.dropped([os.path.join(top, "plain.rle"), top])
    read, unread = listed(page)
    if address.startswith("file:"):
        missing = unread.pop("odd/", "")
        holds(f"a folder whose files may be missing, after a file {where}", "files may be missing" in missing and read < {"plain.rle", *whole}, [missing, read])
    else:
        counting.row(f"a folder after a file {where}", differing({"read": read}, {"read": {"plain.rle", *whole}}))
    holds(f"what isn't UTF-8 text there {where}", unread == {"odd/?": UNNAMED, "odd/?/": UNNAMED}, unread)
    os.makedirs(os.path.join(folder, "empty"))
    page.cleared()
    page.dropped([os.path.join(folder, "empty")])
    counting.row(f"an empty folder {where}", differing({"notes": page.text("notes")}, {"notes": "empty/ has no files."}))
    chosen_folder(page, top, where)


def chosen_folder(page, top, where):
    """A folder that is opened: the browser leaves out what isn't UTF-8 text, and the page says that it may have."""
    page.cleared()
    page.browser.give("folder", [top])
    page.until("!document.getElementById('compared').hidden")
    page.rests()
    read, unread = listed(page)
    said = page.text("notes")
    holds(f"a folder is opened {where}", read == {f"odd/{name}" for name in ODD} and not unread, [read, unread])
    holds(f"the page says that files may be missing from it {where}", f"odd/ has {len(ODD)} files, as far as the browser says." in said, said)


# A drop of two gliders as the page is told of it. No browser but Chromium lets its driver drop a file.
DROPPING = """const data = new DataTransfer();
    for (const name of ["a.rle", "b\\u202e.rle"]) data.items.add(new File([given[0]], name));
    document.body.dispatchEvent(new DragEvent("drop", { dataTransfer: data, bubbles: true, cancelable: true }));"""


def odd_files(browser, folder, address, where):
    """Files of odd names, a tar of them, and a folder that the driver hands over as a file, by what every driver can do."""
    page = Page(browser, address)
    top = odd_folder(folder)
    names = [it for it in ODD if "/" not in it and "\n" not in it]
    browser.give("files", [os.path.join(top, it) for it in names])
    page.until("!document.getElementById('compared').hidden")
    page.rests()
    counting.row(f"files of odd names are opened {where}", differing({"listed": listed(page), "answer": page.text("answer")}, {
        "listed": (set(names), {}), "answer": f"All {len(names)} files are one pattern."}))
    page.cleared()
    packed = os.path.join(folder, "odd.tar.gz")
    with tarfile.open(packed, "w:gz", encoding="utf-8", errors="surrogateescape") as archive:
        archive.add(top, "odd")
    browser.give("files", [packed])
    page.until("!document.getElementById('compared').hidden")
    page.rests()
    wanted = {f"odd.tar.gz/odd/{it}" for it in [*ODD, "\\xff4.rle", "sub\\xe9/in.rle"]}
    counting.row(f"a tar of a folder of odd names is opened {where}", differing({"listed": listed(page)}, {"listed": (wanted, {})}))
    page.cleared()
    browser.run(DROPPING, GLIDER.decode())
    page.until("!document.getElementById('compared').hidden")
    page.rests()
    counting.row(f"files of which the page is told that they were dropped {where}", differing(
        {"names": {it[1] for it in page.list()}, "answer": page.text("answer")},
        {"names": {"a.rle", "b\\xe2\\x80\\xae.rle"}, "answer": "Both files are one pattern."}))


def dragging(browser, folder, address, where):
    """Files and folders that are dragged onto the page with the pointer. The browser hands them to the page's input alone, and leaves out hidden files and
    names that aren't UTF-8 text, which the page says."""
    page = Page(browser, address)
    top = odd_folder(folder)
    one, other = put(os.path.join(folder, "some"), one_rle=GLIDER, other_mc=SPELLED)
    whole = {f"odd/{name}" for name in ODD if not name.startswith(".")}
    for name, paths, wanted in (("a folder of odd names", [top], whole), ("two files", [one, other], {"one.rle", "other.mc"}),
                                ("a file and a folder", [one, top], {"one.rle", *whole})):
        page.cleared()
        browser.drag(paths)
        page.until("!document.getElementById('compared').hidden")
        page.rests()
        counting.row(f"{name} is dragged {where}" if name.startswith("a folder") else f"{name} are dragged {where}", differing(
            {"listed": listed(page), "answer": page.text("answer")},
            {"listed": (wanted, {}), "answer": f"{'Both' if len(wanted) == 2 else f'All {len(wanted)}'} files are one pattern."}))
        said = page.text("notes")
        holds(f"the page says that some of {name} may be missing {where}", f"handed over {len(wanted)} files." in said, said)
    page.cleared()


def vanishing(browser, folder, address, where):
    """A chosen or dropped file that is gone when it is read is listed as such, and the others are compared."""
    page = Page(browser, address)
    source = random.Random(4)
    soup = b"x=0,y=0\n" + b"".join(bytes(source.choices(b"bo", k=1000)) + b"$\n" for _ in range(4000)) + b"!\n"
    ways = {"chosen": lambda paths: browser.give("files", paths)}
    if hasattr(browser, "drop"):
        ways["dropped"] = browser.drop
    for way, give in ways.items():
        first, *rest = put(os.path.join(folder, way), a_rle=soup, b_rle=GLIDER, c_rle=GLIDER, d_rle=GLIDER)
        page.cleared()
        give([first, *rest])
        os.remove(rest[1])
        page.until("!document.getElementById('compared').hidden")
        page.rests()
        rows = {row[1]: row for row in page.list()}
        gone = rows.get("c.rle", ["", "", ""])[-1]
        holds(f"a file that is {way} and gone {where}", [rows.get(it, [""])[0] for it in ("a.rle", "b.rle", "d.rle")] == ["", "1", "1"]
              and gone.startswith("it can't be read") and not gone.endswith("."), rows)


# ---- tar


def tarred(path, mode, kind, members):
    """Writes a tar of this mode and format. A member is bytes, or the name that it links to, with the kind of link."""
    with tarfile.open(path, mode, format=kind, encoding="utf-8", errors="surrogateescape") as archive:
        for name, data in members.items():
            it = tarfile.TarInfo(name)
            if isinstance(data, bytes):
                it.size = len(data)
                archive.addfile(it, io.BytesIO(data))
            else:
                it.type, it.linkname = data
                archive.addfile(it)
    return path


def tars(page, folder):
    """Archives of tar, as they are or packed by gzip, in the three formats that Python writes."""
    os.makedirs(folder, exist_ok=True)
    deep = "/".join(["a folder with a long name"] * 9) + "/a.rle"
    members = {"a.rle": GLIDER, "inner": (tarfile.DIRTYPE, ""), "inner/b.mc": SPELLED, "inner/\u00e4.rle": b"x=1,y=1\no!\n" + b"#" * 3000,
               "inner/c.rle.gz": gzip.compress(GLIDER), deep: GLIDER, "empty.rle": b"", "hard.rle": (tarfile.LNKTYPE, "a.rle"),
               "soft.rle": (tarfile.SYMTYPE, "a.rle"), "latin\udce9.rle": GLIDER}
    links = {f"packed.tar/{it}.rle": "it is a link to a.rle, which isn't followed" for it in ("hard", "soft")}
    ways = [("w", tarfile.USTAR_FORMAT), ("w:gz", tarfile.GNU_FORMAT), ("w:gz", tarfile.PAX_FORMAT), ("w", tarfile.GNU_FORMAT), ("w", tarfile.PAX_FORMAT)]
    for mode, kind in ways:
        path = tarred(os.path.join(folder, "packed.tar"), mode, kind, members)
        page.dropped([path])
        read, unread = listed(page)
        counting.row(f"a tar, {mode}, format {kind}", differing(
            {"read": read, "unread": unread, "answer": page.text("answer")},
            {"read": {f"packed.tar/{it}" for it in ("a.rle", "inner/b.mc", "inner/\u00e4.rle", "inner/c.rle.gz", deep, "latin\\xe9.rle")},
             "unread": {"packed.tar/empty.rle": "line 1: NoHeader", **links},
             "answer": "5 of 9 files are the same pattern as another file: 1 group."}))
    with open(path, "rb") as it:
        data = it.read()
    begin = data.index(b"x=1,y=1")  # within the third file
    packed = gzip.compress(data)
    broken = {"a tar that ends within a file": (data[: begin + 100], "ends within it"),
              "a tar whose second header is wrong": (data[:1024] + b"zzzz" + data[1028:], "files that follow in it aren't read"),
              "a packed tar that is cut": (packed[: len(packed) // 2], "can't be unpacked to its end"),
              "no file in a tar": (tarfile_of_nothing(), "it has no files"),
              "a tar that bzip2 packed": (bz2.compress(data), "packed by bzip2"), "a tar that xz packed": (lzma.compress(data), "packed by xz")}
    for name, (bad, wanted) in broken.items():
        page.dropped(put(os.path.join(folder, "broken"), bad_tar=bad))
        said = page.browser.run("return document.body.innerText;")
        holds(name, wanted in said, said)


def tarfile_of_nothing():
    """A tar with a folder alone."""
    found = io.BytesIO()
    with tarfile.open(fileobj=found, mode="w") as archive:
        it = tarfile.TarInfo("inner")
        it.type = tarfile.DIRTYPE
        archive.addfile(it)
    return found.getvalue()


def examples(browser, address, where):
    """What the examples of the page show."""
    page = Page(browser, address)
    seen = []
    for index, name in enumerate(("answer", "answer", "summary", "refused-reason")):
        page.example(index)
        seen.append(page.summary()["Box"] if name == "summary" else page.text(name))
    wanted = ["All 4 files are one pattern.", "Both files are one pattern, at different places.",
              f"{2 ** 40} \u00d7 {2 ** 40} at ({-2 ** 39}, {-2 ** 39})", "line 4: StateRange"]
    counting.row(f"the examples {where}", [] if seen == wanted else [str(seen)])


# ---- what is said and saved


# Notes what is said to who doesn't see the page.
HEARING = """window.heard = [];
    for (const it of document.querySelectorAll("[aria-live]")) {
      new MutationObserver(() => window.heard.push(it.textContent)).observe(it, { childList: true, subtree: true, characterData: true });
    }"""


def speaking(page, folder):
    """A live region says what one file is, good or refused, and what two are."""
    page.cleared()
    page.browser.run(HEARING)
    glider, refused, moved_one = put(folder, glider_rle=GLIDER, refused_rle=REFUSED, moved_rle=MOVED)
    wanted = {glider: "glider.rle: 5 cells, B3/S23, generation 0.", refused: f"refused.rle is refused: line 3: BadItem. {page.sentence('BadItem')}"}
    for path, said in wanted.items():
        page.dropped([path])
        page.until("document.getElementById('said').textContent !== ''", 5)
        heard = page.browser.run("return window.heard.splice(0);")
        holds(f"one file is said: {os.path.basename(path)}", said in heard, heard)
    page.dropped([glider, moved_one])
    heard = page.browser.run("return window.heard.splice(0);")
    holds("two files are said", any("Both files are one pattern" in it for it in heard), heard)
    page.browser.run("document.querySelectorAll('#list button')[1].click();")
    page.rests()
    page.until("document.getElementById('said').textContent !== ''", 5)
    counting.row("a file that is chosen is said", differing({"said": page.text("said")}, {"said": "moved.rle: 5 cells, B3/S23, generation 0."}))
    page.dropped([refused, *put(os.path.join(folder, "more"), other_rle=REFUSED)])
    counting.row("two refused files", differing({"answer": page.text("answer")}, {"answer": "None of the files is a pattern: all were refused."}))
    turning = put(folder, **{"\u202egnp_rle": GLIDER})
    page.dropped(turning)
    counting.row("a name that turns the direction of text", differing({"name": page.text("name")}, {"name": "\\xe2\\x80\\xaegnp.rle"}))


def large():
    """A square of 2^11 cells a side, all of them live: more cells than may be stepped."""
    return ("[M2]\n" + "********$" * 8 + "\n" + "".join(f"{level} {level - 3} {level - 3} {level - 3} {level - 3}\n" for level in range(4, 12))).encode()


def table(page):
    """The rows of the table that is saved, by the names of their files."""
    return {it["file"]: it for it in csv.DictReader(io.StringIO(page.saved("save-table")[0], newline=""))}


def saving(page, folder, answers):
    """The saved table has the keys of the form that is shown, as the program writes them."""
    paths = put(folder, one_rle=GLIDER, two_rle=MOVED, three_rle=TURNED, four_rle=LATER, large_mc=large())
    page.dropped(paths[:2])
    holds("the form of two files at different places", {it["form"] for it in table(page).values()} == {"moved"}, table(page))
    page.dropped(paths)
    for index, form in enumerate(("placed", "moved", "turned", "phases")):
        page.compare_in(index)
        rows = table(page)
        keys = {os.path.basename(path): answers.of("keys", path, "--form", form)[:64] for path in paths}
        found = {name: row["key"] for name, row in rows.items()}
        groups = {name: row["group"] for name, row in rows.items()}
        named = {row["form"] for row in rows.values()}
        shared = {name: [other for other in keys if keys[name] and keys[other] == keys[name]] for name in keys}
        in_groups = {name: [other for other in groups if groups[name] and groups[other] == groups[name]] or shared[name][:1] for name in groups}
        problems = differing({"keys": found, "form": named, "groups": in_groups}, {"keys": keys, "form": {form}, "groups": shared})
        counting.row(f"the table of files that are compared as {form}", problems)


IN_ANY_PHASE = "Moved, turned or reflected, in any phase"


def phasing(page, folder, answers):
    """The keys in the form phases are computed when that is chosen, and then of each file that comes; a file without one has a reason."""
    one, later, turned, wide, block = put(folder, one_rle=GLIDER, later_rle=LATER, turned_rle=TURNED, wide_rle=fixtures.WIDE, block_rle=b"x=2,y=2\n2o$2o!\n")
    page.dropped([one, later])
    counting.row("two phases of one pattern", differing(
        {"answer": page.text("answer"), "why": page.text("why"), "last": page.forms()[-1], "keys": sorted(it for it in page.summary() if "Key" in it)},
        {"answer": "The files are two patterns.", "why": "They have different generations: 0 and 1.", "last": IN_ANY_PHASE,
         "keys": ["Key", "Key, moved", "Key, turned"]}))
    page.compare_in(3)
    key = answers.of("keys", one, "--form", "phases")[:64]
    counting.row("two phases that are compared as such", differing(
        {"answer": page.text("answer"), "why": page.text("why"), "last": page.forms()[-1], "key": page.summary().get("Key, phases")},
        {"answer": "Both files are one pattern, in different phases or generations.",
         "why": "They name the same rule. Their phases and their generations don't count here.", "last": f"{IN_ANY_PHASE} (1 group)", "key": key}))
    page.browser.drop([turned, wide])
    page.until("document.querySelectorAll('#list tbody tr').length === 4")
    page.rests()
    rows = table(page)
    counting.row("more files that are compared as phases", differing(
        {"answer": page.text("answer"), "why": page.text("why"), "keys": {name: row["key"] for name, row in rows.items()}, "wide": rows["wide.rle"]["note"]},
        {"answer": "3 of 4 files are the same pattern as another file, wherever they are, however they are turned, and in any phase: 1 group.",
         "why": "1 file has no key for this form, and can't be compared.",
         "keys": {"one.rle": key, "later.rle": key, "turned.rle": key, "wide.rle": ""},
         "wide": "There is no key, because the pattern leaves the plane before its period is found."}))
    page.dropped([one, block])
    page.compare_in(3)
    counting.row("two patterns that are compared as phases", differing(
        {"answer": page.text("answer"), "why": page.text("why")},
        {"answer": "The files are two patterns, wherever they are, however they are turned, and in any phase.",
         "why": "They have the same rule, but the one isn't a phase of the other. Periods up to 128 generations are sought."}))
    page.dropped(put(folder, soup_rle=soup_of(500), other_rle=soup_of(499)))
    counting.row("the next files are compared as before", differing({"last": page.forms()[-1]}, {"last": IN_ANY_PHASE}))
    page.browser.run("document.querySelectorAll('#forms button')[3].click();")
    page.until("!document.getElementById('working').hidden")
    doing = page.text("doing")
    page.click("stop")
    page.until("document.getElementById('said').textContent === 'Stopped.'")
    pressed = page.browser.run("return document.querySelector('#forms [aria-pressed=true]').textContent;")
    counting.row("the search for periods is stopped", differing(
        {"doing": doing, "answer": page.text("answer"), "forms": [pressed, page.forms()[-1]], "rests": page.hides("working")},
        {"doing": "Seeking the period of soup.rle (1 of 2)", "answer": "The files are two patterns.", "forms": ["As placed (0 groups)", IN_ANY_PHASE],
         "rests": True}))


def warning(page, folder):
    """A macrocell file that seems to have lost its line ends, or has a comment that Golly reads, is read, with a warning; others have none."""
    one, two = put(folder, one_mc=LOST, two_mc=LOST.replace(b"..*", b"***"))
    page.dropped([one])
    page.until("document.getElementById('said').textContent !== ''", 5)
    holds("a file that lost its line ends", "lost its line ends" in page.text("warning") and "Warning" in page.text("said") and page.summary()["Cells"] == "0",
          [page.text("warning"), page.text("said")])
    page.dropped([one, two])
    said = [page.text("answer"), page.text("why"), *[it[1] for it in page.list()], *[it["note"] for it in table(page).values()]]
    holds("two files that lost their line ends", said[0] == "Both files are one pattern." and said[1].endswith("Warning: 2 files don't seem to hold "
          "the pattern that was meant; see the list.") and all("lost its line ends" in it for it in said[2:]), said)
    for data in (b"[M2]\n#RB36/S23\n$$..*$\n", b"[M2]\n#C a\n#G7\r\n#R B3/S23\n$$..*$\n", b"[M2]\n#R23/3\n"):
        page.dropped(put(folder, comment_mc=data))
        holds(f"a comment that is meant as a rule or a generation: {data}", "a comment here" in page.text("warning"), page.text("warning"))
    page.dropped(put(folder, blank_mc=b"[M2] (golly 4.2)\n#R B3/S23\n\n#C no squares\r\n"))
    holds("a file without squares", "no line of squares" in page.text("warning"), page.text("warning"))
    for name, data in {"cr_lf": b"[M2] (golly 4.2)\r\n#R B3/S23\r\n$$..*$...*$.***$\r\n", "cr_cr_lf": b"[M2]\r\r\n$$..*$\n",
                       "blank_rle": b"x = 0, y = 0\n!\n", "blanks": b"[M2]\n\n \t$$..*$\n",
                       "comments": b"[M2]\n#Reflector\n#Generation\n#R B36/S23\n#G 7\n$$..*$\n", "late": b"[M2]\n$$..*$\n#G7\n"}.items():
        page.dropped(put(folder, **{f"{name}_mc": data}))
        holds(f"no warning: {name}", page.hides("warning") or page.hides("shown"), page.text("warning"))


# The most seconds for 3,000 files, on a machine with other work to do: they take some 4 seconds on one that is idle.
MANY = 60


def many(page, folder):
    """3,000 files are read and listed in seconds: the list is made once, when all of them are read."""
    os.makedirs(folder, exist_ok=True)
    packed = os.path.join(folder, "many.zip")
    with zipfile.ZipFile(packed, "w") as it:
        for number in range(3000):
            it.writestr(f"{number}.rle", b"x=9,y=9\n%do$%db%do$o!\n" % (number % 60 + 1, number % 7 + 1, number % 11 + 1))
    page.cleared()
    page.browser.run("""window.lists = 0;
        new MutationObserver(() => window.lists++).observe(document.querySelector("#list tbody"), { childList: true });""")
    begun = time.monotonic()
    page.browser.drop([packed])
    page.until("document.querySelectorAll('#list tbody tr').length === 500", LONG_WORK)
    page.rests(LONG_WORK)
    took = time.monotonic() - begun
    counting.row(f"3,000 files in {took:.1f} s", differing(
        {"more": page.text("more").replace("\u202f", ""), "lists": page.browser.run("return window.lists;"), "soon": took < MANY},
        {"more": "And 2500 more, which the saved table has.", "lists": 1, "soon": True}))
    page.cleared()


# ---- steps


def stepping(page, folder, answers):
    soup = put(folder, rpentomino_rle=b"x=3,y=3\nb2o$2o$bo!\n")[0]
    page.dropped([soup])
    wanted = soup
    for number in range(1, 6):
        page.click("step")
        page.until(f"document.getElementById('summary').children[3].textContent === '{number}'")
        with open(os.path.join(folder, f"step{number}"), "w", encoding="ascii") as it:
            it.write(answers.of("step", wanted))
        wanted = it.name
    counting.row("five steps", differing({"text": page.saved("save")}, {"text": [answers.of("canon", wanted), "rpentomino at 5.mc"]}))
    for number in (4, 3):
        page.click("step-back")
        page.until(f"document.getElementById('summary').children[3].textContent === '{number}'", 5)
    with open(os.path.join(folder, "step3"), encoding="ascii") as it:
        counting.row("two steps back", differing({"text": page.saved("save")}, {"text": [it.read(), "rpentomino at 3.mc"]}))
    page.browser.run("for (let it = 0; it < 9; it++) document.getElementById('step-back').click();")
    counting.row("back to the first generation by steps", differing(
        {"generation": page.summary()["Generation"], "off": page.browser.run("return document.getElementById('step-back').disabled;")},
        {"generation": "0", "off": True}))
    page.browser.run("const it = document.getElementById('speed'); it.value = '1000';")
    page.click("run")
    page.until("document.getElementById('summary').children[3].textContent === '1'")
    page.browser.run("await new Promise(it => setTimeout(it, 500));")
    slow = page.summary()["Generation"]
    page.browser.run("document.getElementById('speed').value = '0';")
    page.until("Number(document.getElementById('summary').children[3].textContent) > 20")
    page.click("run")
    counting.row("slow and fast", [] if slow == "1" else [slow])
    page.browser.run("document.getElementById('speed').value = '60'; await new Promise(it => setTimeout(it, 200));")
    page.click("back")
    page.click("run")
    page.until("Number(document.getElementById('summary').children[3].textContent) > 30")
    page.click("run")
    generation = page.summary()["Generation"]
    page.browser.run("await new Promise(it => setTimeout(it, 400));")
    later = page.summary()["Generation"]
    counting.row(f"it runs and stops, at generation {later}", [] if int(later) <= int(generation) + 1 else [f"{generation}, and {later} later"])
    page.click("back")
    counting.row("back to the file", differing({"text": page.saved("save")}, {"text": [answers.of("canon", soup), "rpentomino.mc"]}))
    page.click("step")
    page.until("document.getElementById('summary').children[3].textContent === '1'")
    # The RLE comes behind the answer to the step.
    page.browser.run("for (const it of ['step', 'back', 'as-rle']) document.getElementById(it).click();")
    page.until("!document.getElementById('written').value.startsWith('[M2]')")
    counting.row("back to the file while a step is made", differing({"generation": page.summary()["Generation"], "text": page.saved("save")}, {
        "generation": "0", "text": [answers.of("convert", soup, "--to", "rle"), "rpentomino.rle"]}))
    named, table = put(folder, spread_rle=fixtures.FILES["spread.rle"], Spread_rule=fixtures.FILES["spread.rule"])
    page.dropped([named])
    holds("a step by a rule that is a name wants its table", page.browser.run("return document.getElementById('step').disabled;"), "it is there")
    page.browser.drop([table])
    page.until("!document.getElementById('step').disabled")
    page.rests()
    page.click("step")
    page.until("document.getElementById('summary').children[3].textContent === '1'")
    counting.row("a step by a table", differing({"text": page.saved("save")[0]}, {"text": fixtures.SPREAD_STEPPED.decode()}))
    page.cleared()
    colouring(page, folder)


# A gun of gliders, whose picture isn't the same after any number of generations.
GUN = b"x=36,y=9\n24bo$22bobo$12b2o6b2o12b2o$11bo3bo4b2o12b2o$2o8bo5bo3b2o$2o8bo3bob2o4bobo$10bo5bo7bo$11bo3bo$12b2o!\n"
# A glider that leaves the plane at its south-eastern corner.
LEAVING = b"#CXRLE Pos=%d,%d\nx=3,y=3\nbo$2bo$3o!\n" % (2 ** 61 - 24, 2 ** 61 - 24)

# A table by which two states spread until they meet.
MEET = b"@RULE Meet\n@TABLE\nn_states:3\nneighborhood:vonNeumann\nsymmetries:rotate4\nvar a={1,2}\n" + b"".join(
    b"var %c={0,1,2}\n" % it for it in b"bcd") + b"0,a,b,c,d,a\n"


def soup_of(size):
    """A soup with as many rows as columns, which grows for ever under its rule."""
    source = random.Random(size)
    return b"x=0,y=0,rule=B34/S34\n" + b"".join(bytes(source.choices(b"bo", k=size)) + b"$\n" for _ in range(size)) + b"!\n"


def given_generations(page, text):
    """Writes into the field how many generations a step has, as a user does."""
    page.browser.run("const it = document.getElementById('generations'); it.value = given[0]; it.dispatchEvent(new Event('change'));", text)


def now(page):
    """What is said beside the buttons of the steps. Numbers have no spaces."""
    return page.text("now").replace("\u202f", "")


def jumped(page, generation):
    """Makes a step, and waits until this generation is shown."""
    page.click("step")
    page.until(f"document.getElementById('summary').children[3].textContent.replaceAll('\u202f', '') === '{generation}'")


def jumping(page, folder, answers):
    """Steps of many generations: by a number, by a power of two, by a table, and those that there aren't."""
    pentomino = put(folder, rpentomino_rle=b"x=3,y=3\nb2o$2o$bo!\n")[0]
    page.dropped([pentomino])
    for text, before, generation in (("1103", 0, 1103), (" 2 ^ 30 ", 1103, 1103 + 2 ** 30), ("1", 1103 + 2 ** 30, 1104 + 2 ** 30)):
        given_generations(page, text)
        jumped(page, generation)
        counting.row(f"a step of {text.strip()} from generation {before}", differing({"text": page.saved("save")[0]}, {
            "text": answers.of("step", pentomino, "--generations", str(generation))}))
    wanted = f"Generation {generation}: 116 cells."
    counting.row("the generation and the cells are said", differing({"now": now(page), "cells": page.summary()["Cells"]}, {"now": wanted, "cells": "116"}))
    page.click("step-back")
    page.click("step-back")
    counting.row("a long step back", differing({"generation": page.summary()["Generation"]}, {"generation": "1103"}))
    page.click("back")
    found = []
    for text, name in (("1", "double"), ("3", "double"), ("524288", "double"), ("2^40", "halve"), ("7", "halve"), ("1", "halve"), ("2^63", "double")):
        given_generations(page, text)
        page.click(name)
        found.append(page.browser.run("return document.getElementById('generations').value;"))
    counting.row("twice and half as many generations", differing({"found": found}, {"found": ["2", "6", "2^20", "2^39", "3", "1", str(2 ** 64 - 1)]}))
    page.browser.run("const it = document.getElementById('generations'); it.focus(); it.select();")
    page.browser.command("Input.insertText", text="30")
    page.key("Enter", windowsVirtualKeyCode=13, text="\r")
    page.until("document.getElementById('summary').children[3].textContent === '30'")
    counting.row("the key Enter in the field makes a step", differing({"text": page.saved("save")[0]}, {
        "text": answers.of("step", pentomino, "--generations", "30")}))
    not_numbers(page)
    refusals(page, folder, answers)
    of_many_cells(page, folder, answers)


def not_numbers(page):
    """What is no number of generations is said, and no step is made."""
    problems = []
    for text in ("0", "", "-1", "1.5", "2^64", "ten", "2^", str(2 ** 64)):
        given_generations(page, text)
        page.click("step")
        page.click("run")
        found = page.browser.run("const it = document.getElementById('generations'); return [it.ariaInvalid, document.getElementById('run').textContent];")
        said = now(page)
        problems += [] if found == ["true", "Run"] and "Write how many generations" in said and "Generation 30:" in said else [f"{text}: {found} {said}"]
    given_generations(page, "1")
    found = page.browser.run("return document.getElementById('generations').ariaInvalid;")
    counting.row("what is no number of generations", problems + ([] if found == "false" else [found]))


def refusals(page, folder, answers):
    """Why there is no step, in words: a cell that leaves the plane, a generation that no file can name, and a table that decides nothing."""
    page.dropped(put(folder, leaving_rle=LEAVING))
    given_generations(page, "2^40")
    page.click("step")
    page.until("document.getElementById('now').textContent.includes('OutOfPlane')")
    wanted = f"Generation 0: 5 cells. There is no generation {2 ** 40}: OutOfPlane. {page.sentence('OutOfPlane')}"
    counting.row("a step that leaves the plane", differing({"now": now(page)}, {"now": wanted}))
    page.dropped(put(folder, late_rle=b"#CXRLE Gen=18446744073709551600\nx=3,y=1\n3o!\n"))
    given_generations(page, "16")
    page.click("step")
    page.until("document.getElementById('now').textContent.includes('There is no')")
    wanted = f"Generation {2 ** 64 - 16}: 3 cells. There is no generation {2 ** 64}: GenerationTooLarge. {page.sentence('GenerationTooLarge')}"
    counting.row("a step beyond the last generation", differing({"now": now(page)}, {"now": wanted}))
    with open(os.path.join(of_module.TOP, "examples", "WireWorld.rule"), "rb") as it:
        wires, ring = put(folder, WireWorld_rule=it.read(), ring_rle=b"x=5,y=3,rule=WireWorld\n.AB.$C3.C$.3C!\n")
    stepped_by(page, ring, wires, "11")
    page.until("document.getElementById('summary').children[3].textContent === '11'")
    counting.row("a step of 11 generations by a table", differing({"text": page.saved("save")[0]}, {
        "text": answers.of("step", ring, "--table", wires, "--generations", "11")}))
    stepped_by(page, *put(folder, meeting_rle=b"x=7,y=1,rule=Meet\nA5.B!\n", Meet_rule=MEET), "50")
    page.until("document.getElementById('now').textContent.includes('There is no')")
    wanted = f"Generation 0: 2 cells. There is no generation 50: table line 10: Ambiguous, after 2 generations. {page.sentence('Ambiguous')}"
    holds("a step by a table that decides nothing", now(page).startswith(wanted), [now(page), wanted])


def stepped_by(page, file, table, generations):
    """Drops a file and its table, and makes a step of so many generations."""
    page.dropped([file])
    page.browser.drop([table])
    page.until("!document.getElementById('step').disabled")
    page.rests()
    given_generations(page, generations)
    page.click("step")


def of_many_cells(page, folder, answers):
    """More cells than a step by a table may have, and a triangle whose sides have 2^40: what is drawn are squares, and not cells."""
    path = put(folder, large_mc=large())[0]
    page.dropped([path])
    given_generations(page, "3")
    jumped(page, 3)
    counting.row("a step of 2^22 cells", differing({"text": page.saved("save")[0]}, {"text": answers.of("step", path, "--generations", "3")}))
    page.example(2)
    triangle = put(folder, triangle_mc=page.saved("save")[0].encode())[0]
    given_generations(page, "64")
    jumped(page, 64)
    counting.row("a step of a triangle of 2^40 cells a side", differing({"text": page.saved("save")[0]}, {
        "text": answers.of("step", triangle, "--generations", "64")}))
    page.click("fit")
    drawn = page.browser.run("""await new Promise(requestAnimationFrame); await new Promise(requestAnimationFrame);
        const it = document.getElementById("picture");
        const pixels = new Uint32Array(it.getContext("2d").getImageData(0, 0, it.width, it.height).data.buffer);
        return pixels.filter(colour => colour !== pixels[0]).length;""")
    holds(f"{drawn} of its pixels are drawn", drawn > 1000, drawn)


def playing(page, folder, answers):
    """A run by steps of many generations, its pause, and its end by a refusal."""
    gun = put(folder, gun_rle=GUN)[0]
    page.dropped([gun])
    page.browser.run("document.getElementById('speed').value = '0';")
    given_generations(page, "64")
    page.click("run")
    live = page.browser.run("return document.getElementById('now').ariaLive;")
    page.until("Number(document.getElementById('summary').children[3].textContent.replaceAll('\u202f', '')) > 640")
    page.browser.run(HEARING)
    page.click("run")
    generation = page.summary()["Generation"]
    page.browser.run("await new Promise(it => setTimeout(it, 400));")
    later = page.summary()["Generation"]
    problems = [] if int(generation) % 64 == 0 and int(later) <= int(generation) + 64 else [f"{generation}, and {later} later"]
    counting.row(f"a run by 64 generations, at generation {later}", problems + differing({"text": page.saved("save")[0], "live": live}, {
        "text": answers.of("step", gun, "--generations", later), "live": "off"}))
    state = page.browser.run("return ['run', 'now'].map(it => document.getElementById(it)).flatMap(it => [it.textContent, it.ariaPressed, it.ariaLive]);")
    heard = page.browser.run("return window.heard.splice(0);")
    holds("its pause is said", state[:2] == ["Run", "false"] and state[5] == "polite" and any("Paused." in it for it in heard), [state, heard])
    given_generations(page, "1")
    page.click("run")
    given_generations(page, "2^10")
    page.until(f"Number(document.getElementById('summary').children[3].textContent.replaceAll('\u202f', '')) > {int(later) + 4096}")
    page.click("run")
    holds("a run whose steps become longer", page.browser.run("return document.getElementById('run').ariaPressed;") == "false", "it runs")
    page.dropped(put(folder, leaving_rle=LEAVING))
    given_generations(page, "8")
    page.click("run")
    page.until("document.getElementById('run').textContent === 'Run'")
    last = int(page.summary()["Generation"])
    wanted = f"Generation {last}: 5 cells. There is no generation {last + 8}: OutOfPlane. {page.sentence('OutOfPlane')}"
    counting.row(f"a run that leaves the plane after generation {last}", differing({"now": now(page), "far": last > 40}, {"now": wanted, "far": True}))
    stopping(page, folder)


def stopping(page, folder):
    """A step that takes long is stopped, and so is a run of such steps."""
    growing, small = put(folder, growing_rle=soup_of(64), small_rle=GLIDER)
    page.dropped([growing])
    given_generations(page, "2^40")
    for name in ("step", "run"):
        hidden = page.hides("stop-step")
        page.click(name)
        page.until("!document.getElementById('stop-step').hidden")
        said = now(page)
        page.click("stop-step")
        page.until("document.getElementById('stop-step').hidden")
        state = {"now": now(page), "said": page.text("said"), "run": page.text("run")}
        holds(f"a long {name} is stopped", hidden and "is being computed" in said, said)
        counting.row(f"what comes of the stopped {name}", differing(state, {"now": said.replace(" The next step is being computed.", ""), "said": "Stopped.",
                                                                            "run": "Run"}))
    page.dropped([small])
    given_generations(page, "4")
    jumped(page, 4)
    counting.row("a step after that", differing(page.summary(), {"Cells": "5", "Generation": "4"}))
    given_generations(page, "1")


# Golly's colours of WireWorld, and a gradient from red to green over the states 1 to 3.
COLOURS = {
    "colours": (b"0  48  48  48   dark grey\n# a comment\n1   0 128 255   light blue\n2 255 255 255   white\n3 255 128   0   orange\n\n@ICONS\n1 9 9 9\n",
                ["48,48,48", "0,128,255", "255,255,255", "255,128,0"]),
    "a gradient": (b"255 0 0  0 255 0\n", [None, "255,0,0", "128,128,0", "0,255,0"]),
    "none": (b"", [None, None, None, None]),
}


def colouring(page, folder):
    """The picture has the colours of a rule file, dropped before or after the pattern."""
    with open(os.path.join(of_module.TOP, "examples", "WireWorld.rule"), "rb") as it:
        rule = it.read()
    pattern = put(folder, wire_rle=b"x=4,y=1,rule=WireWorld\n.ABC!\n")[0]
    for name, (lines, wanted) in COLOURS.items():
        for order in ("after", "before"):
            coloured = put(folder, WireWorld_rule=rule + b"\n@COLORS\n" + lines)[0]
            page.cleared()
            for path in [pattern, coloured] if order == "after" else [coloured, pattern]:
                page.browser.drop([path])
                page.until("!document.getElementById('shown').hidden" if path == pattern else
                           "document.getElementById('said').textContent.includes('table of WireWorld')")
                page.rests()
            *found, sky = pixels(page, [[x, 0] for x in range(4)])
            problems = [f"{one} and not {other}" for one, other in zip(found, wanted) if other is not None and one != other]
            problems += [f"a blank cell is {found[0]}"] if wanted[0] is None and found[0] != sky else []
            problems += [] if len(set(found)) == 4 else [f"the states are {found}"]
            counting.row(f"{name} of a rule file that comes {order} the pattern", problems)
    page.cleared()


# ---- the picture


def seen(page, cells):
    """Whether the middles of cells about the cell in the middle of the canvas are drawn as live, at so many pixels a cell."""
    *found, sky = pixels(page, cells)
    return [it != sky for it in found]


def pixels(page, cells):
    """The colours of the middles of cells, and that of a blank one in the page's own style, each as three numbers in a text."""
    return page.browser.run("""
        const canvas = document.getElementById("picture");
        const place = document.getElementById("place").textContent.replaceAll("\\u202f", "");
        const [x, y, zoom] = /cell \\(([^,]*), ([^)]*)\\); (.*)\\./.exec(place).slice(1);
        const size = (zoom.startsWith("one") ? 1 : Number(/^\\d+/.exec(zoom)[0])) * devicePixelRatio;
        const context = canvas.getContext("2d");
        await new Promise(requestAnimationFrame);
        await new Promise(requestAnimationFrame);
        const style = getComputedStyle(document.documentElement).getPropertyValue("--sky");
        const sky = style.trim().slice(1).match(/../g).map(it => parseInt(it, 16)).join();
        return [...given[0].map(([column, row]) => {
          const at = [(column - Number(x) + 0.5) * size + canvas.width / 2, (row - Number(y) + 0.5) * size + canvas.height / 2].map(Math.floor);
          return context.getImageData(...at, 1, 1).data.slice(0, 3).join();
        }), sky];""", cells)


def moved(page, place):
    """Waits until the picture has moved from a place."""
    page.until("document.getElementById('place').textContent !== " + json.dumps(place))


def drawing(page, folder):
    source = random.Random(3)
    live = {(x, y) for x in range(-9, 14) for y in range(-6, 11) if source.random() < 0.4}
    rows = "$\n".join("".join("o" if (x, y) in live else "b" for x in range(-9, 14)) for y in range(-6, 11))
    page.dropped(put(folder, drawn_rle=f"#CXRLE Pos=-9,-6\nx=0,y=0\n{rows}!\n".encode()))
    area = [[x, y] for x in range(-10, 15) for y in range(-7, 12)]
    problems = []
    for _ in range(4):
        wrong = [cell for cell, found in zip(area, seen(page, area)) if found != (tuple(cell) in live)]
        problems += [f"{page.text('place')} {wrong[:5]}"] if wrong else []
        page.click("zoom-out")
    counting.row("the cells of the picture", problems)
    states = put(folder, states_rle=b"x=1,y=1,rule=Foo\nABC.yO$!\n")[0]
    page.dropped([states])
    found = seen(page, [[x, 0] for x in range(-1, 6)])
    holds("cells of several states", found == [False, True, True, True, False, True, False], found)
    page.dropped(put(folder, ends_rle=b"#CXRLE Pos=%d,%d\nx=1,y=1\no%dbo%d$o!\n" % (-2 ** 61, -2 ** 61, 2 ** 62 - 2, 2 ** 62 - 1)))
    place = page.text("place")
    page.click("plane")
    plane = page.text("place")
    counting.row("the whole plane", [] if place == plane and "2\u2075" in place else [place, plane])
    before = page.browser.run("return document.getElementById('picture').toDataURL();")
    page.browser.run("document.getElementById('picture').focus();")
    for key in ("+", "ArrowLeft", "ArrowUp", "+", "+", "-"):
        page.key(key)
    moved(page, plane)
    after = page.text("place")
    page.browser.run("await new Promise(requestAnimationFrame); await new Promise(requestAnimationFrame);")
    drawn = page.browser.run("return document.getElementById('picture').toDataURL();")
    holds("the keyboard moves the picture", after != plane and before != drawn, after)
    page.key("0")
    counting.row("0 shows the whole pattern", differing({"place": page.text("place")}, {"place": place}))
    page.example(2)
    place = page.text("place")
    for kind, x, y, buttons in (("mousePressed", 300, 600, 1), ("mouseMoved", 340, 620, 1), ("mouseReleased", 340, 620, 0)):
        page.browser.command("Input.dispatchMouseEvent", type=kind, x=x, y=y, button="left", buttons=buttons, clickCount=1)
    moved(page, place)
    dragged = page.text("place")
    page.browser.command("Input.dispatchMouseEvent", type="mouseWheel", x=340, y=620, deltaX=0, deltaY=-120)
    moved(page, dragged)
    turned = page.text("place")
    counting.row("drag and wheel", [] if len({place, dragged, turned}) == 3 else [f"{place}, {dragged} and {turned}"])
    page.click("fit")
    page.browser.run("document.getElementById('picture').scrollIntoView();")
    place = page.text("place")
    for kind, apart in (("touchStart", 20), ("touchMove", 40), ("touchMove", 90), ("touchEnd", 0)):
        points = [{"x": 300 + way * apart, "y": 200, "id": way} for way in (0, 1)] if apart else []
        page.browser.command("Input.dispatchTouchEvent", type=kind, touchPoints=points)
    moved(page, place)
    scale, pinched = (it.split(";")[1] for it in (place, page.text("place")))
    holds("two fingers", scale.startswith(" a pixel is 2\u00b3") and pinched.startswith(" a pixel is 2") and pinched != scale, f"{scale} and {pinched}")


# ---- long work


# Notes how long the page doesn't answer, and each place of the bar.
WATCHING = """
    window.pauses = []; window.bars = []; let last = performance.now();
    const tick = () => { const now = performance.now(); window.pauses.push(now - last); last = now; };
    const ticking = setInterval(tick, 10);
    const watching = new MutationObserver(() => { if (it.hasAttribute("value")) window.bars.push(it.value); });
    const it = document.getElementById("bar");
    watching.observe(it, { attributes: true });
    window.watched = () => { tick(); clearInterval(ticking); watching.disconnect(); return [window.pauses, window.bars]; };"""
# Stops the work when the bar has come to a tenth, as a user would by the button.
STOPPING = """
    const watching = new MutationObserver(() => {
      if (document.getElementById("bar").value > 0.1) { watching.disconnect(); document.getElementById("stop").click(); }
    });
    watching.observe(document.getElementById("bar"), { attributes: true });"""


def long_work(page, folder):
    """A text of 100 MB: it is read, the page answers all the while, and it can be stopped."""
    source = random.Random(5)
    block = "".join("".join(source.choice("bo") for _ in range(1000)) + "$\n" for _ in range(1000)).encode()
    path = os.path.join(folder, "long.rle")
    with open(path, "wb") as it:
        it.write(b"x = 0, y = 0\n" + block * 100 + b"!\n")
    longest, whole, bars = read_long(page, path)
    counting.row("100 MB are read", differing(page.summary(), {"Cells": str(100 * block.count(b"o"))}))
    is_rising = bars == sorted(bars) and len(set(bars)) > 20 and bars[-1] > 0.9
    holds(f"its bar goes from {bars[0]:.2f} to {bars[-1]:.2f} by {len(set(bars))} steps", is_rising, bars[:50])
    measured = [(longest, whole)]
    while longest >= max(LONGEST_PAUSE, PAUSING_SHARE * whole) and len(measured) < MEASURED:
        longest, whole, _ = read_long(page, path)
        measured.append((longest, whole))
    said = ", and ".join(f"{pause:.2f} s of {took:.1f} s" for pause, took in measured)
    holds(f"the page answers meanwhile: the longest pause is {said}", longest < max(LONGEST_PAUSE, PAUSING_SHARE * whole), "it is too long")
    page.cleared()
    page.browser.run(STOPPING)
    page.browser.drop([path])
    page.until("document.getElementById('said').textContent === 'Stopped.'", LONG_WORK)
    page.rests()
    holds("it is stopped", page.hides("shown"), "something is shown")
    page.dropped(put(folder, one_rle=GLIDER))
    counting.row("a file behind that", differing(page.summary(), {"Cells": "5"}))
    os.remove(path)


def read_long(page, path):
    """Drops a large file. Returns the longest pause of the page and the whole time, in seconds, and the places of the bar."""
    page.cleared()
    page.browser.run(WATCHING)
    page.browser.drop([path])
    page.until("!document.getElementById('shown').hidden", LONG_WORK)
    page.rests(LONG_WORK)
    pauses, bars = page.browser.run("return window.watched();")
    page.browser.run("return document.getElementById('picture').toDataURL().length;")
    return max(pauses) / 1000, sum(pauses) / 1000, bars


# ---- what goes wrong


def faults(browser, folder, work, address):
    """Too little memory, and too low a stack."""
    source = random.Random(9)
    soup = b"x=0,y=0\n" + b"".join(bytes(source.choices(b"bo", k=2000)) + b"$\n" for _ in range(1500)) + b"!\n"
    large, small = put(work, large_rle=soup, small_rle=GLIDER)
    page = Page(browser, f"{address}/golly_canon.html#memory=4")
    page.dropped([large])
    counting.row("memory that is refused", differing({"told": page.text("refused-reason"), "why": page.text("refused-why")},
                                                    {"told": "Memory", "why": page.sentence("Memory")}))
    page.dropped([small])
    counting.row("a file behind that", differing(page.summary(), {"Cells": "5"}))
    deep, shallow = put(work, deep_rle=of_module.DEEP.encode(), shallow_mc=of_module.SHALLOW.encode())
    page = Page(browser, f"{address}/golly_canon.html")
    page.dropped([large])
    counting.row("the memory that there is without that", differing(page.summary(), {"Cells": str(soup.count(b"o"))}))
    page.dropped([deep])
    counting.row("the stack as it is", differing(page.summary(), {"Cells": str(2 ** 62 - 1)}))
    with open(os.path.join(folder, "golly_canon.wasm"), "rb") as it:
        wasm = it.read()
    with open(os.path.join(folder, "golly_canon.html"), encoding="utf-8") as it:
        html = it.read()
    found = {}
    for stack in of_module.LOW_STACKS:
        packed = base64.b64encode(gzip.compress(of_module.patched(wasm, stack))).decode()
        low = os.path.join(folder, f"low{stack}.html")
        with open(low, "w", encoding="utf-8") as it:
            it.write(re.sub(r'(?<=id="module">)[^<]*', packed, html))
        page = Page(browser, f"file://{low}")
        page.dropped([deep])
        told = page.text("refused-reason"), page.text("refused-why")
        page.dropped([shallow])
        found[stack] = [told[0], "loaded anew" in told[1], page.summary().get("Cells")]
    holds("a stack that is too low is told as a fault, and the next file is read", ["Fault", True, "1"] in found.values(), found)


def quiet(browser, page_address, other_address):
    """What was asked for was the page itself, and what it has in it; a request to another place is refused, as a control that is looked for."""
    asked = [it for it in browser.requests() if not it.startswith(("blob:", "data:"))]
    outside = [it for it in asked if it.partition("#")[0] != page_address and not it.startswith("about:")]
    counting.row(f"no request leaves the page ({len(asked)} were for the page itself)", outside)
    errors = [it["message"] for it in browser.log("browser") if it["level"] == "SEVERE"]
    counting.row("no error of the page", errors)
    refused = browser.run("try { await fetch(given[0]); return 'sent'; } catch (why) { return why.name; }", f"{other_address}/blank.html")
    counting.row("a request is refused by the policy", [] if refused == "TypeError" else [refused])
    browser.log("browser")


def looks(browser, folder, pictures, name, width, height, scheme):
    """The page at a size, and in the light or the dark: nothing is wider than the window, and each control has a name."""
    browser.command("Emulation.setEmulatedMedia", features=[{"name": "prefers-color-scheme", "value": scheme}])
    if width < 600:
        browser.command("Emulation.setDeviceMetricsOverride", width=width, height=height, deviceScaleFactor=2, mobile=True)
    page = Page(browser, f"file://{folder}/golly_canon.html")
    problems = []
    for index, shown in enumerate(("glider", "golly", "triangle", "refused")):
        page.example(index)
        wide = browser.run("return document.documentElement.scrollWidth - innerWidth;")
        problems += [f"{shown} is {wide} pixels too wide"] if wide > 0 else []
        problems += rows_of_list(browser, width) if shown in ("glider", "golly") else []
        if pictures:
            tall = browser.run("return document.documentElement.scrollHeight;")
            browser.command("Emulation.setDeviceMetricsOverride", width=width, height=tall, deviceScaleFactor=1, mobile=width < 600)
            browser.run("await new Promise(it => setTimeout(it, 300));")
            browser.picture(os.path.join(pictures, f"{name}-{shown}.png"))
            browser.command("Emulation.setDeviceMetricsOverride", width=width, height=height, deviceScaleFactor=1, mobile=width < 600)
    names = browser.run("return ['zoom-in', 'zoom-out', 'fit', 'step-back', 'step', 'run'].map(it => document.getElementById(it)?.textContent);")
    problems += [] if names == ["Zoom in", "Zoom out", "Fit", "Step back", "Step", "Run"] else [f"buttons {names}"]
    names = browser.run("return ['generations', 'speed'].map(it => document.getElementById(it)?.labels[0]?.textContent);")
    problems += [] if names == ["Generations in a step", "Speed"] else [f"fields {names}"]
    problems += browser.run("""return [...document.querySelectorAll("button, input, select, textarea, canvas, progress")].filter(it => !it.hidden &&
        !(it.innerText.trim() || it.ariaLabel || it.labels?.length)).map(it => it.outerHTML);""")
    counting.row(f"the page, {name}", problems)


def rows_of_list(browser, width):
    """The list is a table with a name, whose rows have headings; on a narrow window each cell is seen, with the name of its column."""
    nodes = browser.command("Accessibility.getFullAXTree")["nodes"]
    named = [(it["role"]["value"], it.get("name", {}).get("value", "")) for it in nodes if not it["ignored"]]
    tables = [name for role, name in named if role == "table"]
    problems = [] if tables == ["The files; those that are the same pattern have the same group number"] else ["no table"]
    rows = browser.run("return document.querySelectorAll('#list tbody tr').length;")
    problems += [] if sum(role == "rowheader" for role, _ in named) == rows > 1 else ["rows without headings"]
    columns = [name for role, name in named if role == "columnheader"]
    problems += [] if columns == ["Group", "File", "Rule", "Generation", "Cells", "Box"] else [f"columns {columns}"]
    if width < 600:
        problems += browser.run("""return [...document.querySelectorAll("#list tbody :is(td, th)")].flatMap(it => {
            const { left, right, height } = it.getBoundingClientRect();
            const label = getComputedStyle(it, "::before").content;
            return left >= 0 && right <= innerWidth && height > 0 && label === `"${it.dataset.column}"` ? [] : [`${it.innerText}: ${left} ${right} ${label}`];
          });""")
    return problems


def sentence_of(script):
    """What the man page says of a kind, as scripts/page takes it."""
    sentences = script.sentences()
    return lambda self, kind: sentences[kind]


def working(browser, folder, work, answers, server):
    """What the page does with files. Nothing else may be tried in this window, since each request is looked at."""
    address = f"file://{folder}/golly_canon.html"
    browser.open("about:blank")
    browser.requests()  # those of the browser's own first page
    page = Page(browser, address)
    examples(browser, address, "in Chromium")
    comparing(page, os.path.join(work, "comparing"))
    pasting(page)
    showing(page, os.path.join(work, "showing"), answers)
    packing(page, os.path.join(work, "packing"))
    tars(page, os.path.join(work, "tars"))
    speaking(page, os.path.join(work, "speaking"))
    saving(page, os.path.join(work, "saving"), answers)
    phasing(page, os.path.join(work, "phasing"), answers)
    warning(page, os.path.join(work, "warning"))
    many(page, os.path.join(work, "many"))
    stepping(page, os.path.join(work, "stepping"), answers)
    jumping(page, os.path.join(work, "jumping"), answers)
    playing(page, os.path.join(work, "playing"), answers)
    drawing(page, os.path.join(work, "drawing"))
    long_work(page, work)
    quiet(browser, address, server.address)
    page = Page(browser, f"{server.address}/golly_canon.html")
    page.example(0)
    counting.row("the page from a web server", differing({"answer": page.text("answer")}, {"answer": "All 4 files are one pattern."}))


def opening(browser, address, program, where):
    """Three files are opened by the page's dialog, and one is stepped, also by many generations: by what every driver can do."""
    page = Page(browser, address)
    with tempfile.TemporaryDirectory() as work:
        answers = Answers(program, work)
        one, other, pentomino = put(work, one_rle=GLIDER, other_mc=SPELLED, pentomino_rle=b"x=3,y=3\nb2o$2o$bo!\n")
        browser.give("files", [one, other, pentomino])
        page.until("document.querySelectorAll('#list tbody tr').length === 3")
        page.rests()
        counting.row(f"three files are opened {where}", differing(
            {"answer": page.text("answer"), "groups": [it[0] for it in page.list()]},
            {"answer": "2 of 3 files are the same pattern as another file: 1 group.", "groups": ["1", "1", ""]}))
        page.cleared()
        browser.give("files", [pentomino])
        page.until("!document.getElementById('clear').hidden")
        page.rests()
        page.click("step")
        page.until("document.getElementById('summary').children[3].textContent === '1'")
        counting.row(f"a step {where}", differing({"text": page.saved("save")[0]}, {"text": answers.of("step", pentomino)}))
        given_generations(page, "2^10")
        jumped(page, 1025)
        counting.row(f"a step of 2^10 generations {where}", differing({"text": page.saved("save")[0]}, {
            "text": answers.of("step", pentomino, "--generations", "1025")}))
        page.click("run")
        page.until("Number(document.getElementById('summary').children[3].textContent.replaceAll('\u202f', '')) > 4096")
        page.click("run")
        generation = page.summary()["Generation"]
        counting.row(f"a run by 2^10 generations {where}", differing({"text": page.saved("save")[0]}, {
            "text": answers.of("step", pentomino, "--generations", generation)}))


def rows(folder, program, pictures):
    """All of it."""
    Page.sentence = sentence_of(of_module.page_script())
    with tempfile.TemporaryDirectory() as work, browsers.Server(folder) as server:
        answers = Answers(program, work)
        browsers.tested("the page", browsers.Browser, lambda it: working(it, folder, work, answers, server))
        for where, address in (("from the disk", f"file://{folder}"), ("from a web server", server.address)):
            browsers.tested(f"folders {where}", browsers.Browser,
                            lambda it: folders(it, os.path.join(work, f"folders {where}"), f"{address}/golly_canon.html", where))
        browsers.tested("files that vanish", browsers.Browser,
                        lambda it: vanishing(it, os.path.join(work, "vanishing"), f"file://{folder}/golly_canon.html", "in Chromium"))
        browsers.tested("its faults", browsers.Browser, lambda it: faults(it, folder, os.path.join(work, "faults"), server.address))
        for name, width, height, scheme in (("light", 1200, 900, "light"), ("dark", 1200, 900, "dark"), ("narrow", 390, 844, "light")):
            browsers.tested(f"the page, {name}", lambda: browsers.Browser(width, height),
                            lambda it: looks(it, folder, pictures, name, width, height, scheme))
