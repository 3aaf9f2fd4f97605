"""What the module answers in a browser, and in Node: the same as the program, byte by byte."""

import base64
import contextlib
import hashlib
import importlib.machinery
import importlib.util
import os
import tempfile

import compare
from independent import commands
from judged import Program
from shared import counting, fixtures, hints

# What a page and a worker run alike: it answers each case, as the texts in base64, or the lines of refusals.
ANSWERING = """
const bytes = text => Uint8Array.from(atob(text), it => it.charCodeAt(0));
const packed = found => btoa(Array.from(found, it => String.fromCharCode(it)).join(""));
const answer = act => {
  try {
    const found = act();
    return found instanceof Uint8Array ? `text ${packed(found)}` : typeof found === "boolean" ? (found ? "same" : "different") : found;
  } catch (why) {
    return why instanceof Refused ? `refused ${why.message}` : `fault ${why.stack}`;
  }
};
const lines = ({ rule, generation, population, box, nodes }) => `text ${packed(new TextEncoder().encode(
  `rule ${rule}\\ngeneration ${generation}\\npopulation ${population}\\nbox ${box ? Object.values(box).join(" ") : "none"}\\nnodes ${nodes}\\n`))}`;
const chunked = (golly, gives, data) => {
  const stream = golly.stream({ gives });
  try {
    const size = Math.floor(data.length / 8) + 1;
    for (let at = 0; at < data.length; at += size) stream.feed(data.subarray(at, at + size));
    return stream.finish();
  } finally {
    stream.close();
  }
};
const answersOf = (golly, it) => {
  const [pattern, other, table] = [it.pattern, it.other, it.table].map(text => text === null ? null : bytes(text));
  const found = { canon: answer(() => golly.canon(pattern)), show: answer(() => lines(golly.show(pattern))), rle: answer(() => golly.toRle(pattern)),
    step: answer(() => golly.step(pattern)), same: answer(() => golly.same(pattern, other)), chunks: answer(() => chunked(golly, "canon", pattern)),
    phases: answer(() => golly.canon(pattern, { form: "phases" })), alike: answer(() => golly.same(pattern, other, { form: "phases", within: 3 })) };
  if (table !== null) found.table = answer(() => golly.step(pattern, { table }));
  return found;
};
"""
BATCH = 50
TOP = os.path.dirname(os.path.dirname(os.path.dirname(os.path.abspath(__file__))))
# Bytes of a stack on which some calls have room, and those that go deep have none.
LOW_STACKS = [1 << 10, 1 << 11, 3 << 10, 1 << 12, 5 << 10, 6 << 10, 1 << 13, 3 << 12]


def told(answer):
    """An answer of the program as the browser tells it."""
    if answer.status == 1 or answer.output == b"same\n":
        return answer.output.decode().strip()
    return f"text {base64.b64encode(answer.output).decode()}" if answer.status == 0 else f"refused {answer.fault.strip()}"


def wanted_of(program, case):
    """What the program answers of a case."""
    program.put("pattern", case.pattern)
    program.put("other", case.other)
    runs = {"canon": ["canon", "pattern"], "show": ["show", "pattern"], "rle": ["convert", "pattern", "--to", "rle"], "step": ["step", "pattern"],
            "same": ["same", "pattern", "other"], "chunks": ["canon", "pattern"], "phases": ["canon", "pattern", "--form", "phases"],
            "alike": ["same", "pattern", "other", "--form", "phases", "--within", "3"]}
    if case.table is not None:
        program.put("table", case.table)
        runs["table"] = ["step", "pattern", "--table", "table"]
    return {name: told(program.answer(words, "pattern")) for name, words in runs.items()}


def packed(case):
    return {name: None if data is None else base64.b64encode(data).decode()
            for name, data in (("pattern", case.pattern), ("other", case.other), ("table", case.table))}


def cases_of(seed, count):
    """Random cases, and the small files of the tests with what is refused in each way."""
    for name, data in fixtures.FILES.items():
        if not name.endswith(".rule"):
            tables = [it for it in fixtures.FILES if it.endswith(".rule") and it.split(".")[0] == name.split(".")[0]]
            yield compare.Case(name, data, fixtures.FILES["pair.mc"], fixtures.FILES[tables[0]] if tables else None)
    for number in range(count):
        yield compare.random_case(seed, number)


def opened(browser, address, where):
    """A page with the module, and `golly` in it or in its worker, behind the function `asked`."""
    browser.open(f"{address}/blank.html")
    if where in ("page", "Node"):
        browser.run(f"""const it = await import("{address}/{'node' if where == 'Node' else 'golly_canon'}.mjs"); const Refused = it.Refused; {ANSWERING}
            const golly = await it.load(); window.golly = golly; window.asked = async cases => cases.map(one => answersOf(golly, one));""")
    else:
        program = f"""import {{ load, Refused }} from "{address}/golly_canon.mjs"; {ANSWERING}
            const golly = load(); self.onmessage = async event => self.postMessage(event.data.map(one => answersOf(golly_, one)));
            const golly_ = await golly; self.postMessage("ready");"""
        browser.run("""const worker = new Worker(URL.createObjectURL(new Blob([given[0]], { type: "text/javascript" })), { type: "module" });
            await new Promise((done, not) => { worker.onmessage = done; worker.onerror = event => not(new Error(event.message)); });
            window.asked = cases => new Promise((done, not) => {
              worker.onmessage = event => done(event.data);
              worker.onerror = not;
              worker.postMessage(cases);
            });""",
                    program)


def compares(browser, address, path, seed, count, least=20, places=("page", "worker")):
    """The page and a worker, or what is named instead, answer what the program answers: each of its share of the files."""
    cases = list(cases_of(seed, count))
    kinds, answers = set(), 0
    with tempfile.TemporaryDirectory() as folder, contextlib.chdir(folder):
        program = Program(path)
        for index, where in enumerate(places):
            some = cases[index::len(places)]
            opened(browser, address, where)
            problems, texts = [], set()
            for at in range(0, len(some), BATCH):
                batch = some[at: at + BATCH]
                for case, found in zip(batch, browser.run("return window.asked(given[0]);", [packed(it) for it in batch])):
                    wanted = wanted_of(program, case)
                    answers += len(wanted)
                    texts.add(found["canon"])
                    kinds.update(it.split()[-1] for it in wanted.values() if it.startswith("refused"))
                    problems += [f"{case.name}: {name} is {found.get(name)!r:.200} and not {wanted[name]!r:.200}" for name in wanted
                                 if found.get(name) != wanted[name]]
            problems += [] if len(texts) > len(some) / 3 else [f"there are only {len(texts)} different answers"]
            counting.row(f"{len(some)} files in {where if where == 'Node' else 'a ' + where} are answered as by the program", problems)
    print(f"{answers} answers, {len(kinds)} kinds of refusal: {' '.join(sorted(kinds))}", flush=True)
    counting.check(len(kinds) >= least, f"only {len(kinds)} kinds of refusal came up")


# What the module says of files: the warning of each, whole and byte by byte; or why it is refused, in sentences.
HINTING = """
const said = given.map(text => {
  const data = Uint8Array.from(atob(text), it => it.charCodeAt(0));
  const stream = window.golly.stream();
  try {
    for (let at = 0; at < data.length; at++) stream.feed(data.subarray(at, at + 1));
    stream.finish();
    return [window.golly.warningOf(data) ?? "", stream.warning() ?? ""];
  } catch {
    try {
      window.golly.key(data);
    } catch (why) {
      return [[window.golly.sentenceOf(why.kind), why.advice].filter(it => it !== null).join(" "), why.advice ?? ""];
    }
  } finally {
    stream.close();
  }
});
return said;"""


def hinted(browser, address, path, where="page"):
    """The warning of a file, and what a refused file is: what the program says."""
    opened(browser, address, where)
    known = {**hints.WARNED, **{name: (data, "") for name, data in hints.NOT_WARNED.items()}, **hints.FOREIGN}
    found = browser.run(HINTING, *(base64.b64encode(data).decode() for data, _ in known.values()))
    for (name, (data, words)), (said, more) in zip(known.items(), found):
        wanted = hints.said_by(path, data)
        is_right = said == wanted and (more.startswith(words) and bool(more) == bool(words) if name in hints.FOREIGN else more == said)
        counting.row(f"what is said of {name}, {where}", [] if is_right and words in said else [f"{said!r}, {more!r} and not {wanted!r}"])


# What a call says of an argument that it can't take: its name, what it has to be, and what it is.
FILE = "is a file: bytes (an ArrayBuffer or a view of one) or a string, and not"
GENERATIONS = "is a whole number from 0 to 2^64 - 1, above 2^53 - 1 a bigint, and not"
WITHIN = "is a whole number from 1 to 2^31 - 1, and not"
# The most memory that the heap takes: 4 GB but for the length of the stack.
MOST_MEMORY = 2 ** 32 - 2 ** 20
# Each call with options, and the members that they may have.
IN_FORM = "the members form, within and limit"
OPTIONS = {
    "canon('x=1,y=1', {})": IN_FORM, "key('x=1,y=1', {})": IN_FORM, "same('x=1,y=1', 'x=1,y=1', {})": IN_FORM, "toRle('x=1,y=1', {})": "the member limit",
    "show('x=1,y=1', {})": "the member limit", "step('x=1,y=1', {})": "the members table, generations and limit", "stream({})": "the members gives, generations, form, within and limit",
    "read(['x=1,y=1'], {})": "the members gives, generations, form, within, limit and onProgress",
    "readKey(['x=1,y=1'], {})": "the members form, within, limit and onProgress",
}
# What isn't the options of a call, and what a call says that it is.
NO_OPTIONS = {"'turned'": '"turned"', "null": "null", "7": "7", "['turned']": "object", "true": "boolean", "() => 0": "function"}
ERRORS = {
    "memory": ("await (await import(`${location.origin}/golly_canon.mjs`)).load(undefined, { memory: 1e6 })",
               f"RangeError: memory is a number of bytes from 2097152 to {MOST_MEMORY}, and not 1000000"),
    "memory, too much": ("await (await import(`${location.origin}/golly_canon.mjs`)).load(undefined, { memory: 5e9 })",
                         f"RangeError: memory is a number of bytes from 2097152 to {MOST_MEMORY}, and not 5000000000"),
    "memory, one byte too much": (f"await (await import(`${{location.origin}}/golly_canon.mjs`)).load(undefined, {{ memory: {MOST_MEMORY + 1} }})",
                                  f"RangeError: memory is a number of bytes from 2097152 to {MOST_MEMORY}, and not {MOST_MEMORY + 1}"),
    "memory, a text": ("await (await import(`${location.origin}/golly_canon.mjs`)).load(undefined, { memory: '4 GB' })",
                       "TypeError: memory is a number of bytes, and not string"),
    "data": ("golly.canon(7)", f"TypeError: data {FILE} 7"),
    "first": ("golly.same(null, '')", f"TypeError: first {FILE} null"),
    "second": ("golly.same('', undefined)", f"TypeError: second {FILE} undefined"),
    "table": ("golly.step('', { table: 7 })", f"TypeError: table {FILE} 7"),
    "chunk": ("golly.stream().feed({})", f"TypeError: chunk {FILE} object"),
    "source": ("await golly.read(7)", "TypeError: source is a stream, a blob, a response, bytes, a string or chunks, and not 7"),
    "generations": ("golly.step('', { generations: -1 })", f"RangeError: generations {GENERATIONS} -1"),
    "generations, a text": ("golly.step('', { generations: '5' })", "TypeError: generations is a number, and not string"),
    "generations, too many": ("golly.step('', { generations: 2n ** 64n })", f"RangeError: generations {GENERATIONS} {2 ** 64}"),
    "generations, not exact": ("golly.step('', { generations: 2 ** 53 })", f"RangeError: generations {GENERATIONS} {2 ** 53}"),
    "generations of another text": ("golly.stream({ generations: 5 })", "RangeError: generations are for step, and not for canon"),
    "generations by a table": ("golly.step('', { generations: 5, table: '' })", "RangeError: a table makes one generation at a time"),
    "within": ("golly.canon('', { form: 'phases', within: 0 })", f"RangeError: within {WITHIN} 0"),
    "within, below 0": ("golly.key('', { form: 'phases', within: -1n })", f"RangeError: within {WITHIN} -1"),
    "within, too much": ("golly.same('', '', { form: 'phases', within: 2 ** 31 })", f"RangeError: within {WITHIN} {2 ** 31}"),
    "within, not whole": ("golly.stream({ form: 'phases', within: 1.5 })", f"RangeError: within {WITHIN} 1.5"),
    "within, a text": ("await golly.readKey('', { form: 'phases', within: '5' })", "TypeError: within is a number, and not string"),
    "within, null": ("golly.canon('', { form: 'phases', within: null })", "TypeError: within is a number, and not null"),
    "within, another form": ("golly.key('', { form: 'turned', within: 5 })", "TypeError: within is for the form phases alone, and not for turned"),
    "within, no form": ("golly.same('', '', { within: 128 })", "TypeError: within is for the form phases alone, and not for placed"),
    "within, another text": ("await golly.read('', { gives: 'show', within: 5 })", "TypeError: within is for the form phases alone, and not for placed"),
    "limit": ("golly.canon('', { limit: 1.5 })", "RangeError: limit is a whole number of squares, 0 or more, and not 1.5"),
    "limit, below 0": ("golly.key('', { limit: -1n })", "RangeError: limit is a whole number of squares, 0 or more, and not -1"),
    "limit, a text": ("golly.key('', { limit: 'all' })", "TypeError: limit is a number of squares, and not string"),
}


def calls(browser, address):
    """What else the module does: forms, keys, reading what comes in chunks, limits, and what it is loaded from."""
    opened(browser, address, "page")
    rows = {
        "a version": ("return golly.version;", version()),
        "a limit of one square": ("try { golly.canon(given[0], { limit: 1 }); } catch (why) { return why.message; }", "Full"),
        "a stream of bytes": ("return text(await golly.read(new Blob([given[0]]).stream()));", None),
        "a blob": ("return text(await golly.read(new Blob([given[0]])));", None),
        "a response": ("return text(await golly.read(new Response(given[0])));", None),
        "chunks": ("return text(await golly.read([given[0].slice(0, 5), given[0].slice(5)]));", None),
        "a response that is compiled": (f"const it = await import('{address}/golly_canon.mjs'); "
                                        f"return text((await it.load(fetch('{address}/golly_canon.wasm'))).canon(given[0]));", None),
        "a buffer of an array": ("return text(golly.canon(new TextEncoder().encode('x' + given[0]).subarray(1)));", None),
        "what the module needs is there": (f"return (await import('{address}/golly_canon.mjs')).isSupported();", True),
        "what the module needs is lacking": (f"const it = await import('{address}/golly_canon.mjs'); const real = WebAssembly.Module; "
                                             "WebAssembly.Module = function () { throw new WebAssembly.CompileError(); }; "
                                             "try { await it.load(); } catch (why) { return why.message.split(':')[0]; } "
                                             "finally { WebAssembly.Module = real; }", "the library can't run here"),
        "a module that isn't there": (f"try {{ await (await import('{address}/golly_canon.mjs')).load('{address}/no.wasm'); }} "
                                      "catch (why) { return why.message.split('/').at(-1); }", "no.wasm can't be read: 404"),
        "what is no file": ("try { golly.canon(7); } catch (why) { return why.constructor.name; }", "TypeError"),
        "what is no form": ("try { golly.canon(given[0], { form: 'here' }); } catch (why) { return why.constructor.name; }", "RangeError"),
        **{f"an error names its argument: {name}": (f"try {{ {script}; }} catch (why) {{ return `${{why.name}}: ${{why.message}}`; }}", wanted)
           for name, (script, wanted) in ERRORS.items()},
        "many generations": ("return text(golly.step(given[0], { generations: 2 ** 40 + 1 }));", "later"),
        "many generations of a stream": ("return text(await golly.read([given[0]], { gives: 'step', generations: 2n ** 40n + 1n }));", "later"),
        "no generation": ("return text(golly.step(given[0], { generations: 0 }));", None),
        "generations beyond the last one": ("try { golly.step('#CXRLE Gen=1\\n' + given[0], { generations: 2n ** 64n - 1n }); } "
                                            "catch (why) { return why.message; }", "GenerationTooLarge"),
        "many generations within each limit of squares": (
            "const wanted = text(golly.step(given[0], { generations: 60 })); const found = new Set(); for (let limit = 0; limit < 200; limit++) { "
            "try { found.add(text(golly.step(given[0], { generations: 60, limit })) === wanted); } catch (why) { found.add(why.message); } } "
            "return [...found].join();", "Full,true"),
        "a cell that leaves the plane": ("try { golly.step(`#CXRLE Pos=${2n ** 61n - 3n},0\\nx=3,y=3\\nbo$2bo$3o!`, { generations: 2 ** 40 }); } "
                                         "catch (why) { return [why.name, why.kind, why.line, why.inTable].join(); }", "Refused,OutOfPlane,,false"),
        "a closed stream": ("const it = golly.stream(); it.close(); it.close(); "
                            "try { it.feed(given[0]); } catch (why) { return why.message; }", "Spent"),
        "a text that is asked for twice": ("const it = golly.stream(); it.feed(given[0]); it.finish(); const found = it.finish(); it.close(); "
                                           "return text(found);", None),
        "the key of chunks": ("return hex(await golly.readKey([given[0].slice(0, 5), given[0].slice(5)]));", "key"),
        "the key of a blob, moved": ("return hex(await golly.readKey(new Blob([given[0]]), { form: 'moved' })) === "
                                     "hex(golly.key(given[0], { form: 'moved' }));", True),
        "the key of what is refused": ("try { await golly.readKey(['x=1,y=1\\n', '0o!']); } catch (why) { return why.message; }", "line 2: ZeroCount"),
        "a key within a limit": ("try { await golly.readKey(given[0], { limit: 1 }); } catch (why) { return why.message; }", "Full"),
        "a key before the text and after it": ("const it = golly.stream(); it.feed(given[0]); const key = hex(it.finishKey()); it.finish(); "
                                               "const found = hex(it.finishKey()) === key; try { it.feed('x'); } catch (why) { it.close(); "
                                               "return found ? `${key} ${why.message}` : found; }", "key Spent"),
        "the key of a closed stream": ("const it = golly.stream(); it.close(); try { it.finishKey(); } catch (why) { return why.message; }", "Spent"),
        "a response that isn't there": (f"try {{ await golly.read(await fetch('{address}/no.rle')); }} catch (why) {{ return `${{why.name}} "
                                        "${why.message.split('/').at(-1)}`; }", "Error no.rle can't be read: 404"),
        "a response without a body": ("try { await golly.read(new Response(null, { status: 204 })); } catch (why) { return why.message; }", "line 1: NoHeader"),
        "progress that can't be told": ("try { await golly.read([given[0]], { onProgress: 7 }); } catch (why) { return `${why.name}: ${why.message}`; }",
                                        "TypeError: onProgress is a function, and not 7"),
        "no warning": ("return golly.warningOf(given[0]);", None.__class__),
        "a warning of a file that lost its line ends": ("return golly.warningOf('[M2]\\r#R B3/S23\\r').includes('lost its line ends');", True),
        "a warning of a comment": ("return golly.warningOf(new TextEncoder().encode('[M2]\\n#RB36/S23\\n$$..*$\\n')).includes('is a comment here');", True),
        "a warning of what is no file": ("try { golly.warningOf(7); } catch (why) { return why.message; }", f"data {FILE} 7"),
        "a sentence": ("return golly.sentenceOf('BadChild');", "A child number doesn't refer to an earlier square one level down."),
        "a sentence of no kind": ("return ['NoRoom', 'zero', ''].map(it => { try { return golly.sentenceOf(it); } "
                                  "catch (why) { return why.constructor.name; } }).join(' ');", "RangeError RangeError RangeError"),
        "progress of a key": ("let last; await golly.readKey(new Blob([given[0]]), { onProgress: it => last = it }); return last;", "length"),
        "progress": ("let last; await golly.read(new Blob([given[0]]), { onProgress: it => last = it }); return last;", "length"),
    }
    glider = fixtures.FILES["line.rle"].decode()
    text = commands.canon(commands.File(glider.encode())).output.decode()
    key = hashlib.sha256(text.encode()).hexdigest()
    # Three cells in a row, after an odd number of generations.
    later = fixtures.LINE_STEPPED.decode().replace("#G 1\n", f"#G {2 ** 40 + 1}\n")
    known = {None: text, "later": later, "key": key, "key Spent": f"{key} Spent", "length": len(glider)}
    given = "const text = it => new TextDecoder().decode(it); " \
            "const hex = it => Array.from(it, byte => byte.toString(16).padStart(2, '0')).join(''); const golly = window.golly; "
    for name, (script, wanted) in rows.items():
        wanted = None if wanted is None.__class__ else known.get(wanted, wanted)
        found = browser.run(given + script, glider)
        counting.row(name, [] if found == wanted else [f"{found!r} and not {wanted!r}"])
    strictness(browser)
    forms(browser)


def strictness(browser):
    """Each call refuses options that aren't an object, and those with a member that it doesn't know."""
    tried = "try { await window.golly.%s; return 'taken'; } catch (why) { return `${why.name}: ${why.message}`; }"
    for call, members in OPTIONS.items():
        for given, said in NO_OPTIONS.items():
            found = browser.run(tried % call.replace("{}", given))
            wanted = f"TypeError: options is an object that may have {members}, and not {said}"
            counting.row(f"options that are no object: {call.replace('{}', given)}", [] if found == wanted else [f"{found!r} and not {wanted!r}"])
        found = browser.run(tried % call.replace("{}", "{ limit: 9, from: 'moved' }"))
        wanted = f"TypeError: options may have {members}, and not from"
        counting.row(f"options with a member that isn't known: {call}", [] if found == wanted else [f"{found!r} and not {wanted!r}"])
        found = browser.run(tried % call.replace("{}", "{ limit: undefined }"))
        counting.row(f"options with a member that is undefined: {call}", [] if found == "taken" or "NoHeader" in found else [found])


# Makes streams, does something with each, and keeps none. Returns how many were refused because the module was out of memory, and the length of a key
# that is made after them.
STREAMING = """
    const golly = window.golly; const glider = "x = 3, y = 3\\nbo$2bo$3o!\\n"; const bad = "x=1,y=1\\n0o!\\n"; const [count, way] = given;
    const acts = {
      closed: stream => { stream.feed(glider); stream.finish(); stream.close(); },
      ended: stream => { stream.feed(glider); stream.finish(); },
      "ended with a key": stream => { stream.feed(glider); stream.finishKey(); },
      refused: stream => { try { stream.feed(bad); } catch {} },
      "refused at the end": stream => { stream.feed(bad.slice(0, -2)); try { stream.finish(); } catch {} },
      forgotten: stream => { stream.feed(glider); },
    };
    let refused = 0;
    for (let number = 0; number < count; number++) {
      try { acts[way](golly.stream()); } catch (why) { if (why.message !== "Memory") throw why; refused++; }
      if (number % 500 === 0) await new Promise(it => setTimeout(it)); // as a service that waits for its next file
    }
    return [refused, golly.key(glider).length];"""
# The most memory of the module for each way: with what a few streams take, all of them have to do. Forgotten ones are there until the engine collects them;
# all of them together would take 150 MB.
SMALL, LARGE = 2 ** 25, 2 ** 27
WAYS = {"closed": SMALL, "ended": SMALL, "ended with a key": SMALL, "refused": SMALL, "refused at the end": SMALL, "forgotten": LARGE}
# Ways of which a fifth of the streams has to do, so that the test takes less time.
RARER = ["ended with a key", "refused at the end"]


def streams(browser, address, count=100_000, where="page"):
    """So many streams, closed or not, refused or not, in little memory: none is kept by what was left of the ones before."""
    opened(browser, address, where)
    name = "node" if where == "Node" else "golly_canon"
    for way, most in WAYS.items():
        browser.run(f"window.golly = await (await import('{address}/{name}.mjs')).load(undefined, {{ memory: {most} }});")
        number = count // 5 if way in RARER else count
        found = browser.run(STREAMING, number, way)
        counting.row(f"{number} streams, {way}", [] if found == [0, 32] else [f"{found[0]} were refused"])
    tried = "const tried = act => { try { return act().length; } catch (why) { return why.message; } }; "
    script = tried + """const stream = window.golly.stream(); const bad = "x=1,y=1\\n0o!\\n";
        const found = [() => stream.feed(bad), () => stream.feed("o"), () => stream.finish(), () => stream.finishKey()].map(tried);
        stream.close(); return [...found, tried(() => stream.finish())];"""
    found = browser.run(script)
    counting.row("a refused stream says why, until it is closed", [] if found == ["line 2: ZeroCount"] * 4 + ["Spent"] else [repr(found)])
    script = tried + """const stream = window.golly.stream(); stream.feed("x=1,y=1\\no!"); const text = stream.finish(); text.fill(0);
        const found = [() => stream.feed("o"), () => stream.finish(), () => stream.finishKey()].map(tried);
        const isKept = stream.finish()[0] === 91; stream.close(); return [...found, isKept, tried(() => stream.finishKey())];"""
    found = browser.run(script)
    counting.row("an ended stream gives its text and its key, until it is closed", [] if found == ["Spent", 43, 32, True, "Spent"] else [repr(found)])


def version():
    """The version of this repository."""
    with open(os.path.join(TOP, "VERSION"), encoding="ascii") as it:
        return it.read().strip()


# A glider, the same elsewhere, the same reflected, the same one generation later, and another pattern.
GLIDERS = ["x=3,y=3\nbo$2bo$3o!", "#CXRLE Pos=-70,5\nx=3,y=3\nbo$2bo$3o!", "#CXRLE Pos=9,9\nx=3,y=3\nbo$o$3o!", "#CXRLE Gen=1\nx=3,y=3\nobo$b2o$bo!",
           "x=3,y=3\n3o$3o!"]
# The options of a form, and how many of these files, from the first one on, are one pattern in it.
IN_FORMS = [({"form": "placed"}, 1), ({"form": "moved"}, 2), ({"form": "turned"}, 3), ({"form": "phases"}, 4), ({"form": "phases", "within": 4}, 4),
            ({"form": "phases", "within": 3}, 3)]


def memory(browser, address):
    """Memory that is refused is told as such, and the calls give back what they take."""
    opened(browser, address, "page")
    small = f"const golly = await (await import('{address}/golly_canon.mjs')).load(undefined, {{ memory: 2 ** 22 }});"
    rows = {
        "memory that is there": ("return golly_.show(soup).rule;", "B3/S23"),
        "memory that is refused": ("try { golly.canon(soup); } catch (why) { return why.message; }", "Memory"),
        "a file behind it": ("try { golly.canon(soup); } catch {} return golly.show('x=1,y=1\\no!').nodes;", 1),
        "calls give their memory back": (
            "for (let i = 0; i < 500; i++) { golly.canon('x=1,y=1\\no!'); golly.same('[M2]', '[M2]'); "
            "try { golly.step('x=1,y=1\\nq'); } catch {} } return 0;", 0),
    }
    soup = "let seed = 1; const cell = () => 'bo'[(seed = (seed * 1103515245 + 12345) % 2147483648) >> 16 & 1]; " \
           "const row = () => Array.from({ length: 2000 }, cell).join('') + '$'; " \
           "const soup = 'x=1,y=1\\n' + Array.from({ length: 1000 }, row).join('\\n');"
    for name, (script, wanted) in rows.items():
        found = browser.run(small + "const golly_ = window.golly;" + soup + script)
        counting.row(name, [] if found == wanted else [f"{found!r} and not {wanted!r}"])


# Takes blocks of memory from the module until there is none. Returns the bytes of memory then, and how many blocks of what length there were.
TAKING = """const [address, most, lengths] = given;
    const memory = new WebAssembly.Memory({ initial: 32, maximum: most });
    const bytes = address.startsWith("file:") ? require("fs").readFileSync(new URL(address)) : await (await fetch(address)).arrayBuffer();
    const { malloc, free } = (await WebAssembly.instantiate(bytes, { env: { memory } })).instance.exports;
    const found = lengths.map(length => { let count = 0; while (malloc(BigInt(length)) !== 0n) count++; return count; });
    const last = malloc(1n);
    free(last);
    return [memory.buffer.byteLength, found, last !== 0n && malloc(1n) === last];"""
PAGE = 1 << 16
# Lengths whose addresses have no place in 32 bits: the lower half of each number is a length that has.
TOO_LONG = [str(it) for it in (2 ** 32 - 2 ** 20, 2 ** 32, 2 ** 32 + 1, 2 ** 32 + 2 ** 17, 2 ** 40, 2 ** 48 + 2 ** 16, 2 ** 63, 2 ** 64 - 1)]


def heap(browser, wasm):
    """The heap takes the memory that there may be, 1 MB at once, and refuses what is beyond it."""
    size, counts, is_sound = browser.run(TAKING, wasm, 64, [str(PAGE)])
    problems = [] if 48 * PAGE < size <= 64 * PAGE and is_sound and counts[0] * PAGE > size / 2 else [f"{counts} blocks in {size} bytes of memory"]
    counting.row("the heap takes memory up to its maximum, and no more", problems)
    size, counts, is_sound = browser.run(TAKING, wasm, 65536, TOO_LONG)
    problems = [] if size <= 48 * PAGE and is_sound and set(counts) == {0} else [f"{counts} blocks in {size} bytes of memory"]
    counting.row("the heap refuses lengths beyond 4 GB", problems)


def whole_memory(browser, wasm):
    """The heap fills 4 GB but for the length of the stack, which stays free so that a stack that overflows traps."""
    size, counts, is_sound = browser.run(TAKING, wasm, 65536, [str(2 ** 30), str(2 ** 26), str(2 ** 20)])
    problems = [] if 0 <= 2 ** 32 - 2 ** 20 - size < 2 ** 20 and is_sound and counts[0] == 3 else [f"{counts} blocks in {size} bytes of memory"]
    counting.row("the heap takes 4 GB, but for the length of the stack", problems)


def patched(wasm, stack):
    """The module with its stack this low: the first global is the top of the stack, below which there is nothing."""
    for section, at, data in page_script().sections(wasm):
        if section == 6:
            # One global, an i64 that changes, whose value is a number in LEB128: as long a number takes its place.
            end = data.index(0x0B)
            length = end - 4
            if data[:4] != b"\x01\x7e\x01\x42" or length < 3:
                raise ValueError(f"a section of globals {data!r}")
            number = bytes((stack >> 7 * it & 127) | (128 if it < length - 1 else 0) for it in range(length))
            return wasm[: at + 4] + number + wasm[at + 4 + length:]
    raise ValueError("no section of globals")


def page_script():
    """scripts/page as a module."""
    loader = importlib.machinery.SourceFileLoader("page_script", os.path.join(TOP, "scripts", "page"))
    spec = importlib.util.spec_from_loader("page_script", loader)
    module = importlib.util.module_from_spec(spec)
    loader.exec_module(module)
    return module


# Two files: the second goes down all levels of the plane.
SHALLOW = "[M2]\n*$\n"
DEEP = "#CXRLE Pos=-2305843009213693952,0\nx=1,y=1\n4611686018427387903o!"


def stacks(browser, address, folder):
    """A call that runs over the stack stops, and is told as a fault; the next one is made on a new module."""
    with open(os.path.join(folder, "golly_canon.wasm"), "rb") as it:
        wasm = it.read()
    opened(browser, address, "page")
    script = f"""const it = await import("{address}/golly_canon.mjs"); const [low, shallow, deep] = given;
        const golly = await it.load(Uint8Array.from(atob(low), one => one.charCodeAt(0)));
        const tried = act => {{ try {{ act(); return "done"; }} catch (why) {{ return why instanceof it.Fault ? "fault" : why.message; }} }};
        const open = golly.stream();
        const acts = [() => open.feed(shallow), () => golly.canon(shallow), () => golly.canon(deep), () => open.finish(), () => golly.canon(shallow)];
        const found = acts.map(tried);
        open.close();
        return found;"""
    found = {}
    for stack in LOW_STACKS:
        low = base64.b64encode(patched(wasm, stack)).decode()
        found[stack] = browser.run(script, low, SHALLOW, DEEP)
    counting.row("a stack that is too low", [] if ["done", "done", "fault", "fault", "done"] in found.values() else [repr(found)])
    full = browser.run(script, base64.b64encode(wasm).decode(), SHALLOW, DEEP)
    counting.row("the stack as it is", [] if full == ["done"] * 5 else [repr(full)])


def forms(browser):
    """Each form groups five files as it should, by texts, keys and comparisons; and a pattern that leaves the plane is refused for its phases."""
    for options, count in IN_FORMS:
        script = """const [files, options] = given; const golly = window.golly; const text = it => new TextDecoder().decode(it);
            const hex = it => Array.from(it, byte => byte.toString(16).padStart(2, "0")).join("");
            const texts = files.map(it => text(golly.canon(it, options)));
            for (const [index, it] of files.entries()) {
              if (text(await golly.read([it.slice(0, 7), it.slice(7)], options)) !== texts[index]) texts[index] = "other";
              if (hex(await golly.readKey([it], options)) !== hex(golly.key(it, options))) texts[index] = "other";
            }
            return { texts, keys: files.map(it => hex(golly.key(it, options))), same: files.map(it => golly.same(files[0], it, options)) };"""
        found = browser.run(script, GLIDERS, options)
        wanted = [number < count for number in range(len(GLIDERS))]
        digests = [hashlib.sha256(it.encode()).hexdigest() for it in found["texts"]]
        problems = [] if [it == found["texts"][0] for it in found["texts"]] == wanted else [f"texts {found['texts']}"]
        problems += [] if found["same"] == wanted else [f"same {found['same']}"]
        problems += [] if found["keys"] == digests else [f"keys {found['keys']}"]
        counting.row(f"patterns in the form {' within '.join(map(str, options.values()))}", problems)
    script = """const golly = window.golly; const [wide, glider] = given; const tried = act => { try { return act(); } catch (why) { return why.message; } };
        return [() => golly.key(wide, { form: "phases" }), () => golly.same(wide, glider, { form: "phases", within: 5n }),
          () => golly.same(glider, wide, { form: "phases", within: 1 })].map(tried);"""
    found = browser.run(script, fixtures.WIDE.decode(), GLIDERS[0])
    counting.row("phases that leave the plane", [] if found == ["OutOfPlane"] * 3 else [repr(found)])
