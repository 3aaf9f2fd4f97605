#!/usr/bin/env node
/**
 * The commands of the program golly_canon, over the library for Node. They write what the program writes, except for the lines on files of a command over one
 * file or two that can't be read, and on wrong arguments. USAGE says what they lack.
 */

import { fstatSync, openSync, readFileSync, readSync, readdirSync, readlinkSync, statSync, writeSync } from "node:fs";
import { isatty } from "node:tty";
import { parseArgs } from "node:util";
import { FORMS, Refused, load } from "./node.mjs";

const USAGE = `Usage: golly_canon COMMAND
  canon FILE [--form FORM]       the canonical text of a pattern file
  convert FILE --to rle|mc       the pattern in one of the formats; mc is the canonical text
  same A B [--form FORM]         whether two files are one pattern: same or different
  show FILE                      rule, generation, population, bounding box, and squares of the canonical text
  step FILE [--table RULE]       the next generation, under a B/S rule or by a rule table (a .rule file)
  step FILE [--table RULE] --generations N
                                 N generations further in place of one
  keys [OPTIONS] [FILE]..        a line for each file: the SHA-256 of its canonical text, and its name
  keys [OPTIONS] --stream STREAM the same for the patterns in a file, or in standard input (-), each of which ends in a NUL byte; their names are 1, 2, 3 ..
  duplicates [OPTIONS] [FILE]..  the groups of files that are the same pattern: a name a line, an empty line between groups
Options of keys and duplicates:
  --form FORM  what the same pattern is; if it isn't given, placed for keys, and moved for duplicates
  -r           a FILE that is a folder represents the files in it and below it; links in a folder are passed over
  --from LIST  a file, or - for standard input, that names further files, one a line
  --zero       the names of LIST end in NUL, and so do the lines of the output, whose names are written as they are
  --json       for keys: an object of JSON for each file, one a line, also for a file without a key
FORM is placed (the pattern as it lies), moved (up to translation), turned (up to rotation and reflection too) or phases (up to the phase of an oscillator or
a spaceship too). With --form phases, --within MOST sets the greatest period to seek: a number from 1 to 2^31 - 1, or 128 if it isn't given.
The file - is standard input.
Status: 0 done; 1 different, or no duplicates; 2 a file was refused; 3 it can't be read or written; 4 out of memory; 5 wrong arguments.

This command has neither --explain, --ignore-generation nor --period of the program, nor its line of progress and its hints on a terminal, nor the help of each
command. It takes more time, and at most 4 GB of memory, and it seeks no period above 2^31 - 1. What the program has beyond that is in its packages for Linux,
with its man page.
npx hands all arguments to a shell as one text. From some 128 KB on the system takes no such text, and npx ends with the status 249 and no message: the
command isn't even started. For so many files use -r or --from:
  find patterns -name '*.rle' -print0 | npx golly_canon keys --zero --from -`;

/** Wrong arguments. */
class Misused extends Error {}

/** A file of one or two that can't be read. */
class Unread extends Error {}

/** A write to standard output that failed. */
class Unwritten extends Error {
  constructor(why) {
    super("WriteFault");
    this.isLeft = why.code === "EPIPE"; // the reader has left, as `head` does
  }
}

const REASONS = { ENOENT: "no such file", EISDIR: "is a folder", EACCES: "permission denied" };
const STATUS = { Memory: 4, Full: 4, ReadFault: 3 };
/** The kinds of fault that the library doesn't know, which reads no files. */
const SENTENCES = {
  InputTooLong: "A file has more than 2^30 bytes.",
  ReadFault: "A file can't be opened or read, or the system gives no random bytes.",
};
const MOST_BYTES = 2 ** 30;
/** The greatest period that the library seeks. */
const MOST_PERIOD = 2n ** 31n - 1n;
const LINE_FEED = 10;
/** How many bytes of a stream are read at once. */
const CHUNK = 65536;
/** Milliseconds until a read or a write is tried again that would have to wait. */
const PAUSE = 5;

// ---- what is written

const ESCAPES = { "\\": "\\\\", "\n": "\\n", "\r": "\\r" };

/** What a terminal acts on, or what turns the direction of text, in UTF-8 that is taken for Latin-1: control characters but line feeds and NULs, and U+061C,
 * U+200E, U+200F, U+2028 to U+202E, and U+2066 to U+2069. */
const HIDDEN = /[\x01-\x09\x0b-\x1f\x7f]|\xc2[\x80-\x9f]|\xd8\x9c|\xe2\x80[\x8e\x8f\xa8-\xae]|\xe2\x81[\xa6-\xa9]/g;

/** Bytes with changes to the text that they are in Latin-1, where each character is a byte. */
const changed = (bytes, pattern, change) => Buffer.from(bytes.toString("latin1").replace(pattern, change), "latin1");

/** A name as the program writes it: a backslash, a line feed and a carriage return are escaped. */
const escaped = name => changed(name, /[\\\n\r]/g, it => ESCAPES[it]);

/** Bytes as a terminal may get them. */
const visible = bytes => changed(bytes, HIDDEN, some => some.replace(/[^]/g, it => `\\x${it.charCodeAt(0).toString(16).padStart(2, "0")}`));

/**
 * Whether a stream was closed when the command began: Node has then opened the null device in its place, to read and to write, as a shell doesn't. Only Linux
 * says so.
 */
function isClosed(descriptor) {
  try {
    const flags = /^flags:\s*([0-7]+)$/m.exec(readFileSync(`/proc/self/fdinfo/${descriptor}`, "latin1"));
    return (Number.parseInt(flags[1], 8) & 3) === 2 && readlinkSync(`/proc/self/fd/${descriptor}`) === "/dev/null";
  } catch {
    return false;
  }
}

const IS_CLOSED = [0, 1].map(isClosed);

/** What a call of the system gives, which is made again as long as it would have to wait. */
function waited(call) {
  for (;;) {
    try {
      return call();
    } catch (why) {
      if (why.code !== "EAGAIN") {
        throw why;
      }
      Atomics.wait(new Int32Array(new SharedArrayBuffer(4)), 0, 0, PAUSE);
    }
  }
}

/** Writes a text to a descriptor, to its end. */
function writeAll(descriptor, text) {
  const whole = Buffer.from(text);
  const bytes = isatty(descriptor) ? visible(whole) : whole;
  for (let at = 0; at < bytes.length;) {
    at += waited(() => writeSync(descriptor, bytes, at));
  }
}

function write(...texts) {
  try {
    if (IS_CLOSED[1]) {
      throw new Error("standard output is closed");
    }
    writeAll(1, Buffer.concat(texts.map(it => Buffer.from(it))));
  } catch (why) {
    throw new Unwritten(why);
  }
}

function report(...texts) {
  try {
    writeAll(2, Buffer.concat(texts.map(it => Buffer.from(it))));
  } catch {
    // Nobody can be told.
  }
}

// ---- what is read

/** Whether a name is that of standard input, which has to be open. */
function isInput(name) {
  const found = name.equals(Buffer.from("-"));
  if (found && IS_CLOSED[0]) {
    throw Object.assign(new Error("standard input is closed"), { code: "EBADF", syscall: "open" });
  }
  return found;
}

/** The bytes of a file, or of standard input. */
const contents = name => readFileSync(isInput(name) ? 0 : name);

/** Opens a file, or standard input, to be read piece by piece. A folder can't be. */
function opened(name) {
  const descriptor = isInput(name) ? 0 : openSync(name);
  if (fstatSync(descriptor).isDirectory()) {
    throw Object.assign(new Error("is a folder"), { code: "EISDIR", syscall: "open" });
  }
  return descriptor;
}

/** The same for a command over one file or two. */
function read(word) {
  try {
    return contents(Buffer.from(word));
  } catch (why) {
    throw new Unread(`${escaped(Buffer.from(word))}: ${reasonOf(Buffer.from(word), why)}`);
  }
}

/** Whether a name was changed on its way here, since Node hands over each argument as text. */
const isDamaged = name => name.includes("\ufffd");

/** Why a file can't be opened. */
function reasonOf(name, { code }) {
  return code === "ENOENT" && isDamaged(name) ? "the name isn't UTF-8 text" : REASONS[code] ?? "can't be opened";
}

/** The names of a list. */
function namesIn(from, end) {
  const list = contents(Buffer.from(from));
  if (list.length > MOST_BYTES) {
    throw new Refused("InputTooLong");
  }
  const names = [];
  for (let at = 0; at < list.length;) {
    const next = list.indexOf(end, at);
    const stop = next < 0 ? list.length : next;
    if (stop > at) {
      names.push(list.subarray(at, stop));
    }
    at = stop + 1;
  }
  return names;
}

/**
 * The files in a folder and below it, in the order of their names, byte by byte. A folder that can't be read has a `why`. Links are passed over; devices, pipes
 * and sockets are left out, and counted in `leftOut`.
 */
function* filesBelow(word, leftOut) {
  const left = [{ name: Buffer.from(word), isFolder: true }];
  while (left.length > 0) {
    const { name, isFolder } = left.pop();
    if (!isFolder) {
      yield { name };
      continue;
    }
    let entries;
    try {
      entries = readdirSync(name, { encoding: "buffer", withFileTypes: true });
    } catch (why) {
      yield { name, why };
      continue;
    }
    const slash = name.at(-1) === "/".charCodeAt(0) ? "" : "/";
    leftOut.devices += entries.filter(it => !it.isFile() && !it.isDirectory() && !it.isSymbolicLink()).length;
    const within = entries.filter(it => it.isFile() || it.isDirectory()).sort((one, other) => Buffer.compare(other.name, one.name));
    left.push(...within.map(it => ({ name: Buffer.concat([name, Buffer.from(slash), it.name]), isFolder: it.isDirectory() })));
  }
}

function isFolder(word) {
  try {
    return statSync(word).isDirectory();
  } catch {
    return false;
  }
}

/** The files of a command over any number of them, each with its name as bytes. In a list - is a name like any other. */
function* filesOf({ files, recursive }, listed, leftOut) {
  for (const word of files) {
    if (recursive && word !== "-" && isFolder(word)) {
      yield* filesBelow(word, leftOut);
    } else {
      yield { name: Buffer.from(word) };
    }
  }
  for (const name of listed) {
    yield name.equals(Buffer.from("-")) ? { name, path: Buffer.from("./-") } : { name };
  }
}

/** The pattern of a stream that has begun. The next one takes the same memory. */
class Pattern {
  #bytes = Buffer.allocUnsafeSlow(CHUNK);
  #length = 0;
  /** Why it has no bytes, if it hasn't. */
  #why = null;

  add(more) {
    if (this.#why !== null) {
      return;
    }
    const length = this.#length + more.length;
    if (length > MOST_BYTES) {
      this.#why = new Refused("InputTooLong");
      return;
    }
    if (length > this.#bytes.length) {
      try {
        const longer = Buffer.allocUnsafeSlow(Math.min(MOST_BYTES, 2 * length));
        this.#bytes.copy(longer, 0, 0, this.#length);
        this.#bytes = longer;
      } catch {
        this.#why = new Refused("Memory");
        return;
      }
    }
    more.copy(this.#bytes, this.#length);
    this.#length = length;
  }

  /** The stream can't be read further. */
  fail(why) {
    this.#why = why;
  }

  clear() {
    this.#length = 0;
    this.#why = null;
  }

  isEmpty() {
    return this.#length === 0 && this.#why === null;
  }

  bytes() {
    if (this.#why !== null) {
      throw this.#why;
    }
    return this.#bytes.subarray(0, this.#length);
  }
}

/** Each pattern of a stream as soon as it has ended. What follows the last NUL is one too, unless it is empty; and so is the one that can't be read on. */
function* patternsIn(descriptor) {
  const chunk = Buffer.allocUnsafeSlow(CHUNK);
  const pattern = new Pattern();
  let came;
  do {
    try {
      came = chunk.subarray(0, waited(() => readSync(descriptor, chunk)));
    } catch (why) {
      if (why.code !== "EOF") { // the end of a pipe on Windows
        pattern.fail(why);
      }
      break;
    }
    let at = 0;
    for (let end = came.indexOf(0); end >= 0; end = came.indexOf(0, at)) {
      pattern.add(came.subarray(at, end));
      yield pattern;
      pattern.clear();
      at = end + 1;
    }
    pattern.add(came.subarray(at));
  } while (came.length > 0);
  if (!pattern.isEmpty()) {
    yield pattern;
  }
}

// ---- arguments

const OPTIONS = { form: { type: "string" }, within: { type: "string" }, to: { type: "string" }, table: { type: "string" }, generations: { type: "string" },
  from: { type: "string" }, stream: { type: "string" }, zero: { type: "boolean" }, json: { type: "boolean" }, recursive: { type: "boolean", short: "r" } };
/** The options of a command that takes a pattern in a form. */
const IN_FORM = ["form", "within"];

/** The arguments of a command, which takes these options. */
function parsed(words, options) {
  let found;
  try {
    found = parseArgs({ args: words, allowPositionals: true, tokens: true, options: Object.fromEntries(options.map(it => [it, OPTIONS[it]])) });
  } catch (why) {
    throw new Misused(why.message);
  }
  const { positionals: files, values, tokens } = found;
  const named = tokens.filter(it => it.kind === "option").map(it => it.name);
  const twice = named.find((it, index) => named.indexOf(it) < index);
  if (twice !== undefined) {
    throw new Misused(`--${twice} can be given only once`);
  }
  if ([...files, values.table, values.from].filter(it => it === "-").length > 1) {
    throw new Misused("TwoInputs");
  }
  const { form, within } = values;
  if (within !== undefined && form !== "phases") {
    throw new Misused("--within is for --form phases alone");
  }
  if (form !== undefined && !FORMS.includes(form)) {
    throw new Misused("the value of --form is placed, moved, turned or phases");
  }
  return { ...values, files, within: within === undefined ? undefined : numberWithin("within", within, 1n, MOST_PERIOD, "2^31 - 1") };
}

/** The number that a word writes in digits, as the value of an option that takes one from `least` to `most`, which is written as `shown`. */
function numberWithin(option, word, least, most, shown) {
  const number = /^[0-9]+$/.test(word) ? BigInt(word) : null;
  if (number === null || number < least || number > most) {
    throw new Misused(`the value of --${option} is a number from ${least} to ${shown}`);
  }
  return number;
}

/** The arguments of a command over so many files. */
function taken(words, count, options) {
  const found = parsed(words, options);
  if (found.files.length !== count) {
    throw new Misused(`it takes ${count} ${count === 1 ? "file" : "files"}, and not ${found.files.length}`);
  }
  return found;
}

/** The arguments of a command over any number of files, which `what` has to be given of, or of `keys` over a stream. */
function takenAll(words, options, form, what) {
  const found = parsed(words, [...options, ...IN_FORM, "zero", "recursive", "from"]);
  const hasFiles = found.files.length > 0 || found.from !== undefined;
  if (found.stream !== undefined && (hasFiles || found.recursive)) {
    throw new Misused("--stream can't be used with a FILE, with --from or with -r");
  }
  if (found.stream === undefined && !hasFiles) {
    throw new Misused(`${what} has to be given`);
  }
  return { form, ...found };
}

// ---- commands

/** Why a file has no key, as a refusal: what the library refuses, a file that Node takes to be too long, one that can't be read, and memory that Node lacks. */
function refusalOf(error) {
  if (error instanceof Refused) {
    return error;
  }
  if (error.code === "ERR_FS_FILE_TOO_LARGE") {
    return new Refused("InputTooLong");
  }
  return error.syscall !== undefined ? new Refused("ReadFault") : error instanceof RangeError ? new Refused("Memory") : null;
}

/** Whether a file can't be opened. Node opens a folder, but can't read it, and takes no name with a NUL. */
const isUnopened = ({ code, syscall }) => code === "EISDIR" || code === "ERR_INVALID_ARG_VALUE" || (syscall !== undefined && syscall !== "read");

/** The bytes of a file of a command over any number of them. */
function bytesOf({ name, path = name, why }) {
  if (why !== undefined) {
    throw why;
  }
  const data = contents(path);
  if (data.length > MOST_BYTES) {
    throw new Refused("InputTooLong");
  }
  return data;
}

/** The key of what has this name, in a form; or why it has none: its status, its kind, a line and a reason. `give` gives its bytes. */
function outcomeOf(golly, name, { form, within }, give) {
  try {
    const data = give();
    return { key: Buffer.from(golly.key(data, { form, within })).toString("hex"), warning: golly.warningOf(data) };
  } catch (error) {
    if (isUnopened(error)) {
      return { status: 3, kind: "ReadFault", reason: reasonOf(name, error), said: reasonOf(name, error) };
    }
    const refusal = refusalOf(error);
    if (refusal === null) {
      const reason = `the library stopped (${error.message})`;
      return { status: 4, kind: "Fault", reason, said: reason };
    }
    const { kind, line, advice } = refusal;
    const meaning = SENTENCES[kind] ?? golly.sentenceOf(kind);
    const reason = advice === null ? meaning : `${meaning} ${advice}`;
    return { status: STATUS[kind] ?? 2, kind, line, reason, said: `${line === null ? "" : `line ${line}: `}${kind}: ${reason}` };
  }
}

/** Says what is to be said of what has this name, and returns its status. */
function noted(name, outcome, tell, take) {
  if (outcome.key === undefined) {
    tell(name, outcome);
  }
  take(name, outcome);
  if (outcome.warning) {
    report(escaped(name), `: warning: ${outcome.warning}\n`);
  }
  return outcome.status ?? 0;
}

/** Takes the files of a command, one after another, and says what is to be said of each. Returns the greatest status of a file. */
function takeFiles(golly, found, tell, take) {
  let listed;
  try {
    listed = found.from === undefined ? [] : namesIn(found.from, found.zero ? 0 : LINE_FEED);
  } catch (why) {
    report(`${why instanceof Refused ? why.kind : "ReadFault"}\n`);
    return why instanceof Refused ? 2 : 3;
  }
  let greatest = 0;
  const leftOut = { devices: 0 };
  for (const file of filesOf(found, listed, leftOut)) {
    const outcome = outcomeOf(golly, file.name, found, () => bytesOf(file));
    greatest = Math.max(greatest, noted(file.name, outcome, tell, take));
  }
  if (leftOut.devices > 0) {
    report(`Devices, pipes and sockets left out: ${leftOut.devices}.\n`);
  }
  return greatest;
}

/** The same of the patterns of a stream, whose names are their numbers. */
function takeStream(golly, found, tell, take) {
  const name = Buffer.from(found.stream);
  let descriptor;
  try {
    descriptor = opened(name);
  } catch (why) {
    const give = () => {
      throw why;
    };
    return noted(name, outcomeOf(golly, name, found, give), tell, take);
  }
  let greatest = 0;
  let count = 0;
  for (const pattern of patternsIn(descriptor)) {
    count += 1;
    const number = Buffer.from(`${count}`);
    greatest = Math.max(greatest, noted(number, outcomeOf(golly, number, found, () => pattern.bytes()), tell, take));
  }
  return greatest;
}

const tellReason = (name, { said }) => report(escaped(name), `: ${said}\n`);

/** The text of a file after so many single steps by a table. With none, only the table and the file can be refused. */
function steppedBy(golly, table, file, count) {
  if (count === 0n) {
    try {
      golly.step(file, { table });
    } catch (why) {
      if (!(why instanceof Refused) || (why.inTable && why.kind !== "Ambiguous")) {
        throw why;
      }
    }
    return golly.canon(file);
  }
  let text = file;
  for (let made = 0n; made < count; made += 1n) {
    text = golly.step(text, { table });
  }
  return text;
}

/** What each command does with its arguments. It returns the status, where that isn't 0. */
const COMMANDS = {
  canon(golly, words) {
    const { files, form, within } = taken(words, 1, IN_FORM);
    write(golly.canon(read(files[0]), { form, within }));
  },

  convert(golly, words) {
    const { files, to } = taken(words, 1, ["to"]);
    if (to !== "rle" && to !== "mc") {
      throw new Misused("--to is rle or mc");
    }
    write(to === "rle" ? golly.toRle(read(files[0])) : golly.canon(read(files[0])));
  },

  same(golly, words) {
    const { files, form, within } = taken(words, 2, IN_FORM);
    const isSame = golly.same(read(files[0]), read(files[1]), { form, within });
    write(isSame ? "same\n" : "different\n");
    return isSame ? 0 : 1;
  },

  show(golly, words) {
    const { rule, generation, population, box, nodes } = golly.show(read(taken(words, 1, []).files[0]));
    const place = box === null ? "none" : `${box.left} ${box.top} ${box.width} ${box.height}`;
    write(`rule ${rule}\ngeneration ${generation}\npopulation ${population}\nbox ${place}\nnodes ${nodes}\n`);
  },

  step(golly, words) {
    const { files, table, generations } = taken(words, 1, ["table", "generations"]);
    const count = generations === undefined ? undefined : numberWithin("generations", generations, 0n, 2n ** 64n - 1n, "2^64 - 1");
    if (table === undefined) {
      write(golly.step(read(files[0]), { generations: count }));
      return;
    }
    const rules = read(table);
    write(count === undefined ? golly.step(read(files[0]), { table: rules }) : steppedBy(golly, rules, read(files[0]), count));
  },

  keys(golly, words) {
    const found = takenAll(words, ["json", "stream"], "placed", "a FILE, --from LIST or --stream STREAM");
    const takeAll = found.stream === undefined ? takeFiles : takeStream;
    return takeAll(golly, found, found.json ? () => {} : tellReason, (name, { key, kind, line, reason }) => {
      if (found.json) {
        write(`${JSON.stringify({ name: name.toString(), key, kind, line: line ?? undefined, reason })}\n`);
      } else if (key !== undefined) {
        const shown = escaped(name);
        write(...(found.zero ? [`${key}  `, name, "\0"] : [shown.equals(name) ? "" : "\\", `${key}  `, shown, "\n"]));
      }
    });
  },

  duplicates(golly, words) {
    const found = takenAll(words, [], "moved", "a FILE or --from LIST");
    const groups = new Map();
    const status = takeFiles(golly, found, tellReason, (name, { key }) => {
      if (key !== undefined && !groups.get(key)?.push(name)) {
        groups.set(key, [name]);
      }
    });
    const end = found.zero ? "\0" : "\n";
    const several = [...groups.values()].filter(it => it.length > 1);
    for (const [index, group] of several.entries()) {
      write(index > 0 ? end : "", ...group.flatMap(name => [found.zero ? name : escaped(name), end]));
    }
    return status || (several.length > 0 ? 0 : 1);
  },
};

/** Writes why something failed, and returns the status of that. Nothing that fails has the status 1, which is that of two different patterns. */
function told(why) {
  if (why instanceof Unwritten) {
    report(why.isLeft ? "" : `${why.message}\n`);
    return 3;
  }
  if (why instanceof Refused) {
    report(`${why.message}\n`);
    return STATUS[why.kind] ?? 2;
  }
  if (why instanceof Misused && why.message === "TwoInputs") {
    report("TwoInputs\n");
    return 5;
  }
  report(`golly_canon: ${why.message ?? why}\n`);
  return why instanceof Unread ? 3 : why instanceof Misused ? 5 : why?.code === undefined ? 4 : 3;
}

/** Whether the words ask for help. */
function wantsHelp([name, ...words]) {
  const end = words.indexOf("--");
  const before = end < 0 ? words : words.slice(0, end);
  return ["--help", "-h", "help"].includes(name) || (Object.hasOwn(COMMANDS, name ?? "") && before.some(it => it === "--help" || it === "-h"));
}

async function main(words) {
  const [name, ...rest] = words;
  if (wantsHelp(words)) {
    write(`${USAGE}\n`);
    return 0;
  }
  const golly = await load();
  if (name === "--version" || name === "-V") {
    write(`golly_canon ${golly.version}\n`);
    return 0;
  }
  if (!Object.hasOwn(COMMANDS, name ?? "")) {
    report(`${USAGE}\n`);
    return 5;
  }
  return COMMANDS[name](golly, rest) ?? 0;
}

try {
  process.exitCode = await main(process.argv.slice(2));
} catch (why) {
  process.exitCode = told(why);
}
