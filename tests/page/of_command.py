"""The command of the package for npm: it answers as PROGRAM does, where both have what is asked for; and how it ends where the program ends too."""

import json
import os
import pty
import shutil
import signal
import subprocess
import tempfile

from shared import counting, fixtures, processes, streams
from shared.processes import Answer

GLIDER = b"x = 3, y = 3\nbo$2bo$3o!\n"
LATER = b"#CXRLE Gen=1\nx = 3, y = 3\nobo$b2o$bo!\n"  # the glider, one generation later
# Files below the folder in which the commands run. Links and pipes in a folder are passed over.
BELOW = {b"top/a.rle": GLIDER, b"top/b/2.rle": b"#CXRLE Pos=9,9\nx = 3, y = 3\nbo$2bo$3o!\n", b"top/b/10.rle": GLIDER, b"top/b/bad.rle": b"x=1,y=1\n0o!\n",
         b"top/b.rle": b"x = 3, y = 3\n3o$2bo$bo!\n", b"top/c d/=x": b"", b"top/back\\slash.rle": GLIDER, b"top/new\nline.rle": GLIDER, b"top/cr\r.rle": b"?\n",
         b"top/quote\".rle": GLIDER, b"top/tab\t\x1b\x7f.rle": GLIDER, "top/\u00e4\u202e.rle".encode(): GLIDER, b"later.rle": LATER,
         b"wide.rle": fixtures.WIDE}
LIST = b"pair.rle\n\ntop/b/bad.rle\nabsent\ntop/new\\nline.rle\n-"
# Arguments, and standard input: the answer is that of the program, byte by byte.
SAME = [
    (["keys", "-r", "top"], b""), (["keys", "--recursive", "top/", "pair.mc"], b""), (["keys", "-r", "to_top", "--form", "turned"], b""),
    (["keys", "--json", "-r", "top"], b""), (["keys", "--json", "--zero", "-r", "top", "absent", "."], b""), (["keys", "--zero", "-r", "top"], b""),
    (["keys", "top", "pair.rle"], b""), (["keys", "-r", "pair.rle", "absent"], b""), (["keys", "-r", "-"], GLIDER), (["keys", "--from", "-"], LIST),
    (["keys", "--zero", "--from", "-", "pair.mc"], b"top/new\nline.rle\0\0pair.rle"), (["keys", "--from", "list"], b""), (["keys", "--from", "absent"], b""),
    (["keys", "--from", "-"], b"pair.rle\nno\0name\npair.mc\n"),
    (["keys", "--from", "top"], b""), (["keys", "--from", "-"], b""), (["keys", "--from", "-", "-"], b""), (["keys", "-", "-"], GLIDER),
    (["keys", "bad.rle", "pair.rle"], b""),
    (["keys", "--json", "bad.rle", "pair.rle", "empty", "absent", "pair.rle/x"], b""), (["keys", "--", "-r"], b""),
    (["duplicates", "-r", "top"], b""), (["duplicates", "-r", "top", "pair.rle", "pair.mc", "--form", "placed"], b""), (["duplicates", "top"], b""),
    (["duplicates", "--form", "turned", "-r", "top"], b""), (["duplicates", "--zero", "-r", "top", "pair.mc", "pair.rle"], b""),
    (["duplicates", "pair.rle", "line.rle"], b""), (["duplicates", "pair.rle"], b""), (["duplicates", "pair.rle", "pair.rle"], b""),
    (["duplicates", "absent", "pair.rle", "pair.mc"], b""), (["duplicates", "--from", "-"], LIST),
    (["duplicates", "--from", "-", "--zero"], b"pair.rle\0pair.mc\0"),
    (["duplicates", "-", "pair.mc"], fixtures.FILES["pair.rle"]),
    (["step", "line.rle"], b""), (["step", "line.rle", "--generations", "0"], b""), (["step", "--generations=0001000001", "-"], GLIDER),
    (["step", "line.rle", "--generations", "18446744073709551615"], b""), (["step", "last.rle", "--generations", "1"], b""),
    (["step", "edge.rle", "--generations", "3"], b""), (["step", "spread.rle", "--generations", "1"], b""), (["step", "spread.rle", "--generations", "0"], b""),
    (["step", "bad.rle", "--generations", "5"], b""),
    (["step", "spread.rle", "--table", "spread.rule"], b""), (["step", "spread.rle", "--table", "spread.rule", "--generations", "0"], b""),
    (["step", "spread.rle", "--table", "-", "--generations", "3"], fixtures.FILES["spread.rule"]),
    (["step", "line.rle", "--table", "spread.rule", "--generations", "0"], b""), (["step", "line.rle", "--table", "spread.rule", "--generations", "1"], b""),
    (["step", "two.rle", "--table", "two.rule", "--generations", "0"], b""), (["step", "two.rle", "--table", "two.rule", "--generations", "2"], b""),
    (["step", "spread.rle", "--table", "bad.rule", "--generations", "0"], b""),
]
# The same of the form phases.
SAME += [(words.split(), source) for words, source in (
    ("canon later.rle --form phases", b""), ("canon --form=phases --within=3 -", LATER), ("canon wide.rle --form phases", b""),
    ("canon later.rle --within 2147483647 --form phases", b""), ("canon named.rle --form phases", b""), ("canon last.rle --form phases --within 2", b""),
    ("canon bad.rle --form phases", b""), ("same top/a.rle later.rle --form phases", b""), ("same top/a.rle later.rle --form turned", b""),
    ("same --within 003 later.rle - --form phases", GLIDER), ("same wide.rle later.rle --form phases", b""), ("same later.rle wide.rle --form phases", b""),
    ("same - - --form phases --within 0", b""), ("keys -r top later.rle wide.rle --form phases", b""),
    ("keys --zero -r top later.rle --form phases --within 3", b""), ("keys --json later.rle wide.rle bad.rle --form phases --within 1000", b""),
    ("duplicates -r top later.rle --form phases", b""), ("duplicates wide.rle later.rle - --form phases --within 3", GLIDER))]
# The same of streams: patterns of each kind, accepted and refused, in each form, and odd streams.
SAME += [([*words, "--stream", "-"], streams.STREAM) for words in (
    ["keys"], ["keys", "--form", "moved"], ["keys", "--form=turned"], ["keys", "--form", "phases"], ["keys", "--form=phases", "--within=2"],
    ["keys", "--json"], ["keys", "--json", "--form", "turned", "--zero"], ["keys", "--zero"])]
SAME += [(["keys", "--stream", "-", *words], source) for words in ([], ["--json"]) for source in (
    b"", b"\0", b"\0\0\0", GLIDER, GLIDER + b"\0", GLIDER + b"\0\0" + GLIDER, streams.STREAM + b"\0", b"x = 3, y = 3\nbo$2b")]
SAME += [(["keys", *words], b"") for words in (
    ["--stream", "stream"], ["--zero", "--stream=stream"], ["--stream", "absent"], ["--json", "--stream", "absent"], ["--stream", "top"],
    ["--stream", "top\nb"], ["--json", "--stream", "top"], ["--stream", "pair.rle/x"], ["--stream", "./-"], ["--stream", "/proc/self/mem"],
    ["--json", "--stream", "/proc/self/mem"], ["--stream", "-", "--from", "-", "-"])]
# The status alone is that of the program, since the words are others.
MISUSED = ["keys", "keys --form moved", "keys -r", "duplicates", "duplicates --zero", "duplicates --form still pair.rle", "duplicates --json pair.rle",
           "keys --to mc pair.rle", "canon -r pair.rle", "keys --from", "canon --from list", "keys --zero=yes pair.rle", "keys --from list --from list",
           "keys --form moved --form moved pair.rle", "step line.rle --generations", "step line.rle --generations ten", "step line.rle --generations +1",
           "step line.rle --generations 18446744073709551616", "step line.rle --generations 1 --generations 1", "show line.rle --generations 1",
           "step - --table - --generations x", "keys --stream", "keys --stream - pair.rle", "keys pair.rle --stream -", "keys --stream stream -r",
           "keys --stream - --from list", "keys --stream - -", "keys --stream - --stream -", "keys --stream stream --form still", "duplicates --stream stream",
           "canon --stream stream", "canon --within 5 later.rle", "canon --form phases --within 0 later.rle", "canon --form phase later.rle",
           "same --form turned --within 5 later.rle wide.rle", "same --form phases --within 18446744073709551616 later.rle wide.rle",
           "keys --form phases --within later.rle", "keys --form phases later.rle --within", "keys --form phases --within x later.rle",
           "keys --form phases --within=-1 later.rle", "keys --form phases --within 1 --within 1 later.rle", "keys --stream stream --within 5",
           "duplicates --within 5 later.rle", "show --within 5 later.rle", "convert later.rle --to mc --within 5", "step later.rle --within 5"]
# How many patterns of a stream are taken, and how many more megabytes these may take than a tenth of them: Node collects what it holds no more when it likes.
MANY, MORE_MEGABYTES = 100_000, 25
# Endings that only a shell makes: the status, and what is on standard error.
ENDINGS = [
    ("a full output", '"$command" keys pair.rle pair.mc > /dev/full', Answer(3, b"", b"WriteFault\n")),
    ("a full output of a text", '"$command" canon pair.rle > /dev/full', Answer(3, b"", b"WriteFault\n")),
    ("a full output of objects", '"$command" keys --json absent > /dev/full', Answer(3, b"", b"WriteFault\n")),
    ("a full output of groups", '"$command" duplicates pair.rle pair.mc > /dev/full', Answer(3, b"", b"WriteFault\n")),
    ("a full output of help", '"$command" --help > /dev/full', Answer(3, b"", b"WriteFault\n")),
    ("a full output after a refused file", '"$command" keys bad.rle pair.rle 2> said > /dev/full; status=$?; tail -n 1 said >&2; exit $status',
     Answer(3, b"", b"WriteFault\n")),
    ("a closed output", '"$command" keys pair.rle >&-', Answer(3, b"", b"WriteFault\n")),
    ("a closed output that nothing is written to", '"$command" keys absent >&-', Answer(3, b"", b"absent: no such file\n")),
    ("an output that nobody wants", '"$command" keys pair.rle > /dev/null', Answer(0)),
    ("a closed input", '"$command" keys - absent <&-', Answer(3, b"", b"-: can't be opened\nabsent: no such file\n")),
    ("a list from a closed input", '"$command" keys --from - <&-', Answer(3, b"", b"ReadFault\n")),
    ("a reader that leaves", '"$command" keys --from many | head -n 1 > /dev/null; exit ${PIPESTATUS[0]}', Answer(3, b"", b"")),
    ("a full output of a stream's keys", '"$command" keys --stream stream > /dev/full', Answer(3, b"", b"WriteFault\n")),
    ("a stream from a closed input", '"$command" keys --stream - <&-', Answer(3, b"", b"-: can't be opened\n")),
    ("a stream that is a folder", '"$command" keys --stream - < top', Answer(3, b"", b"-: is a folder\n")),
    ("a reader that leaves a stream", '"$command" keys --stream stream 2> /dev/null | head -n 1 | wc -l; exit ${PIPESTATUS[0]}', Answer(3, b"1\n", b"")),
    ("a slow reader", '"$command" keys --from many | { sleep 1; wc -l; }; exit ${PIPESTATUS[0]}', Answer(0, b"5000\n", b"")),
]


def written(folder):
    """The files in the folder in which the commands run."""
    for name, data in {**{os.fsencode(it): data for it, data in fixtures.FILES.items()}, **BELOW, b"list": LIST, b"many": b"pair.rle\n" * 5000, b"-r": GLIDER,
                       b"-": GLIDER, b"stream": streams.STREAM + b"\0" + (GLIDER + b"\0") * 2000}.items():
        path = os.path.join(os.fsencode(folder), name)
        os.makedirs(os.path.dirname(path), exist_ok=True)
        with open(path, "wb") as it:
            it.write(data)
    os.makedirs(os.path.join(folder, "top", "empty"))
    os.symlink("../a.rle", os.path.join(folder, "top", "b", "link"))
    os.symlink(".", os.path.join(folder, "top", "b", "again"))
    os.symlink("top", os.path.join(folder, "to_top"))
    os.mkfifo(os.path.join(folder, "top", "pipe"))


def on_terminal(words, folder):
    """What a command writes to a terminal."""
    own, other = pty.openpty()
    with subprocess.Popen(words, cwd=folder, stdin=subprocess.DEVNULL, stdout=other, stderr=other) as run:
        os.close(other)
        found = b""
        try:
            while some := os.read(own, 1 << 16):
                found += some
        except OSError:  # the terminal is closed
            pass
    os.close(own)
    return run.returncode, found.replace(b"\r\n", b"\n")


def rows(built, program, package):
    """All of it, with the module of a folder, and the files of the package for npm."""
    with tempfile.TemporaryDirectory() as work:
        for name in ("golly_canon.mjs", "golly_canon.wasm"):
            shutil.copy(os.path.join(built, name), work)
        for name in ("command.mjs", "node.mjs"):
            shutil.copy(os.path.join(package, name), work)
        command = os.path.join(work, "command.mjs")
        os.chmod(command, 0o755)
        folder = os.path.join(work, "here")
        os.makedirs(folder)
        written(folder)
        for words, source in SAME:
            wanted, found = (processes.run([it, *words], source, cwd=folder) for it in (program, command))
            name = f"npm: {' '.join(words)!r}" + (f", {len(source)} bytes" if source else "")
            counting.row(name, [f"{its!r:.500} and not {ours!r:.500}" for its, ours in zip(found, wanted) if its != ours])
        for line in MISUSED:
            wanted, found = (processes.run([it, *line.split()], cwd=folder) for it in (program, command))
            counting.row(f"npm: {line}", [] if found.status == wanted.status == 5 and found.error and not found.output else [repr(found)])
        for name, script, wanted in ENDINGS:
            found = processes.run(["bash", "-c", script], cwd=folder, env={**os.environ, "command": command})
            counting.row(f"npm: {name}", [] if found == wanted else [f"{found} and not {wanted}"])
        found = processes.run([command, *"keys later.rle --form phases --within 2147483648".split()], cwd=folder)
        wanted = Answer(5, b"", b"golly_canon: the value of --within is a number from 1 to 2^31 - 1\n")
        counting.row("npm: a greater period than the library seeks", [] if found == wanted else [repr(found)])
        terminal(command, folder)
        not_text(command, folder)
        streamed(command, folder)
        helped(command, folder)


def terminal(command, folder):
    """On a terminal no name does anything but be shown, on either stream."""
    status, found = on_terminal([command, "keys", "-r", "top"], folder)
    shown = [b"tab\\x09\\x1b\\x7f.rle", "\u00e4\\xe2\\x80\\xae.rle".encode(), b"new\\nline.rle", b"cr\\r.rle: line 1: NoHeader"]
    problems = [f"{it} isn't there" for it in shown if it not in found] + ([] if status == 2 else [f"status {status}"])
    problems += [f"{it!r} is there" for it in (b"\x1b", b"\x7f", b"\t", "\u202e".encode()) if it in found]
    counting.row("npm: odd names on a terminal", problems)
    for text in ("\u0085", "\u061c", "\u200e", "\u200f", "\u2028", "\u2029", "\u202a", "\u2066", "\u2069", "\x01", "\x9b"):
        _, found = on_terminal([command, "keys", f"absent{text}"], folder)
        wanted = "".join(f"\\x{it:02x}" for it in text.encode())
        counting.row(f"npm: U+{ord(text):04X} on a terminal", [] if found == f"absent{wanted}: no such file\n".encode() else [repr(found)])
    _, found = on_terminal([command, "keys", "absent\u00e9\u2065\u202f"], folder)
    counting.row("npm: other characters on a terminal", [] if found == "absent\u00e9\u2065\u202f: no such file\n".encode() else [repr(found)])


def not_text(command, folder):
    """A file whose name isn't UTF-8 text is read from a list and in a folder; as an argument, which Node changes, it is reported as that."""
    place = os.path.join(os.fsencode(folder), b"latin")
    os.mkdir(place)
    with open(os.path.join(place, b"\xe9.rle"), "wb") as it:
        it.write(GLIDER)
    key = processes.run([command, "keys", "top/a.rle"], cwd=folder).output[:64]
    for words, source in ((["-r", "latin"], b""), (["--from", "-"], b"latin/\xe9.rle\n")):
        found = processes.run([command, "keys", *words], source, cwd=folder)
        counting.row(f"npm: a name that isn't UTF-8 text, {words[0]}", [] if found == Answer(0, key + b"  latin/\xe9.rle\n") else [repr(found)])
    found = processes.run([command, "keys", "--json", "-r", "latin"], cwd=folder)
    counting.row("npm: such a name in JSON", [] if json.loads(found.output)["name"] == "latin/\ufffd.rle" else [repr(found)])
    found = processes.run([command, "keys", b"latin/\xe9.rle"], cwd=folder)
    wanted = Answer(3, b"", "latin/\ufffd.rle: the name isn't UTF-8 text\n".encode())
    counting.row("npm: such a name as an argument", [] if found == wanted else [repr(found)])


def streamed(command, folder):
    """Each line is written as soon as its pattern has ended, also where the bytes come slowly; Ctrl-C ends a stream; and many patterns take no more memory than
    some."""
    key = processes.run([command, "keys", "top/a.rle"], cwd=folder).output[:64]
    with subprocess.Popen([command, "keys", "--stream", "-"], stdin=subprocess.PIPE, stdout=subprocess.PIPE, stderr=subprocess.PIPE, bufsize=0) as run:
        lines = []
        for _ in range(3):
            for part in (GLIDER[:9], GLIDER[9:], b"\0"):
                run.stdin.write(part)
            lines.append(run.stdout.readline())
        run.send_signal(signal.SIGINT)
        left = run.stdout.read() + run.stderr.read()
        status = run.wait(timeout=60)
    counting.row("npm: each key as soon as its pattern has ended", [] if lines == [b"%s  %d\n" % (key, number) for number in (1, 2, 3)] else [repr(lines)])
    counting.row("npm: a stream that is interrupted", [] if (status, left) == (-signal.SIGINT, b"") else [repr((status, left))])
    peaks = []
    for count in (MANY // 10, MANY):
        pieces = b"".join(b"#C %d\nx = 3, y = 3\nbo$2bo$3%s!\n\0" % (number, b"z" if number % 3 == 2 else b"o") for number in range(count))
        found = processes.run(["/usr/bin/time", "-q", "-f", "%M", "-o", "peak", command, "keys", "--stream", "-"], pieces, cwd=folder)
        right = b"".join(b"%s  %d\n" % (key, number) for number in range(1, count + 1) if number % 3)
        is_right = (found.status, found.output, found.error.count(b": line 3: BadItem: ")) == (2, right, count // 3)
        with open(os.path.join(folder, "peak"), encoding="ascii") as it:
            peaks.append(int(it.read()) / 1024)
        counting.row(f"npm: {count} patterns of a stream", [] if is_right else [f"status {found.status}, {found.output[:200]}, {found.error[:200]}"])
    took = f": {peaks[0]:.0f} MB, and {peaks[1]:.0f} MB for ten times as many"
    counting.row("npm: the memory that they take", [took] if peaks[1] > peaks[0] + MORE_MEGABYTES else [], took)


def helped(command, folder):
    """The help says what the command lacks, and what to do with many names by npx."""
    for words in (["--help"], ["-h"], ["help"], ["keys", "--help"], ["duplicates", "-h"]):
        found = processes.run([command, *words], cwd=folder)
        wanted = ["duplicates [OPTIONS]", "-r ", "--from LIST", "--zero", "--json", "--stream STREAM", "--within MOST",
                  "neither --explain, --ignore-generation nor --period", "status 249", "npx golly_canon keys --zero --from -"]
        problems = [f"{it} isn't there" for it in wanted if it not in found.output.decode()]
        counting.row(f"npm: {' '.join(words)}", problems if found.status == 0 and not found.error else [repr(found)])
