/**
 * One canonical text for each cellular-automaton pattern, by the proved library golly_canon, compiled for WebAssembly.
 *
 *     import { load, Refused } from "./golly_canon.mjs";
 *     const golly = await load();
 *     golly.canon("x = 3, y = 3, rule = 23/3\nbo$2bo$3o!\n"); // bytes: [M2] (canonical 1) ..
 *
 * A file is bytes in extended RLE or in macrocell. golly_canon.d.ts says what each call takes and answers.
 */

/** The limit of a call, if none is given: so many different squares, as the program has it. */
export const SQUARES = 2 ** 31;

/** The forms of a pattern: where it lies, wherever it lies, also however it is turned or reflected, and also in whichever phase. */
export const FORMS = Object.freeze(["placed", "moved", "turned", "phases"]);
/** The number of the form of phases, without the greatest period that is sought, and that period, if none is given. */
const PHASES = 2 ** 31;
const WITHIN = 128;
/** What a stream can give, and the name of it in the library. */
const STREAMS = { canon: "canon", toRle: "to_rle", show: "show", step: "step" };
const AMBIGUOUS = 43;
const NO_ROOM = 64;
/** The bytes of a file by which the library says what it is. */
const HEAD = 512;
/** Bytes that are handed over at once, and bytes for an answer at first. */
const CHUNK = 1 << 20;
const FIRST_ROOM = 1 << 12;
/** The pages of memory that the module wants at first, and the most that its heap takes (web/heap.c), 64 KB each. */
const PAGE = 65536;
const PAGES = 32;
const MOST_PAGES = 65536 - 16;
/** The bytes that the engine counts for a stream (see `weight`): at least, for each byte that is fed, and at most. */
const LIGHTEST = 1 << 12;
const WEIGHT = 16;
const HEAVIEST = 1 << 24;
/** The members that the options of a call may have. */
const IN_FORM = ["form", "within", "limit"];
const OF_STREAM = ["gives", "generations", ...IN_FORM];
/** A small module that has what the library's module needs: its function `f` clears memory, extends a sign, and returns the bigint it is given. */
const NEEDED = Uint8Array.of(
  ...[0, 97, 115, 109, 1, 0, 0, 0, 1, 6, 1, 96, 1, 126, 1, 126, 3, 2, 1, 0, 5, 3, 1, 0, 1, 7, 5, 1, 1, 102, 0, 0],
  ...[10, 16, 1, 14, 0, 65, 0, 65, 0, 65, 0, 252, 11, 0, 32, 0, 196, 11],
);

/** Why a file, a rule table or a pattern is refused. As a text it is the line that the program writes, as `line 4: BadChild`. */
export class Refused extends Error {
  constructor(kind, line = null, inTable = false, advice = null) {
    super(line === null ? kind : `${inTable ? "table " : ""}line ${line}: ${kind}`);
    this.name = "Refused";
    this.kind = kind;
    this.line = line;
    this.inTable = inTable;
    this.advice = advice;
  }
}

/** The module stopped in a call, as where its stack is full. Nothing is known of the file; the next call is made on a new module. */
export class Fault extends Error {
  constructor(why) {
    super(why);
    this.name = "Fault";
  }
}

/** Whether the module can be loaded here: whether a small one that needs the same of WebAssembly runs. */
export function isSupported() {
  try {
    return new WebAssembly.Instance(new WebAssembly.Module(NEEDED)).exports.f(-1n) === -1n;
  } catch {
    return false;
  }
}

/** The library, from its module: the file beside this one, where none is given. */
export async function load(source, options) {
  const { memory } = optionsOf(options, ["memory"]);
  checkMemory(memory);
  if (!isSupported()) {
    throw new Error("the library can't run here: it needs WebAssembly with bulk memory operations and BigInt, and a page that allows WebAssembly");
  }
  return new Library(await moduleOf(source ?? new URL("golly_canon.wasm", import.meta.url)), memory);
}

/** The compiled module of a module, of bytes, of a response, or of an address. */
async function moduleOf(source) {
  const found = await source;
  if (found instanceof WebAssembly.Module) {
    return found;
  }
  if (found instanceof ArrayBuffer || ArrayBuffer.isView(found)) {
    return WebAssembly.compile(found);
  }
  const response = found instanceof Response ? found : await fetch(found);
  checkResponse(response);
  return WebAssembly.compile(await response.arrayBuffer());
}

/** Refuses a response that has something else than what was asked for, as the page of a server that says that there is no such file. */
function checkResponse(response) {
  if (!response.ok) {
    throw new Error(`${response.url || "the response"} can't be read: ${response.status}`);
  }
}

/** What a value is, for the message of an error. */
const shownValue = value => (typeof value === "bigint" || typeof value === "number" ? `${value}` : value === null ? "null" : typeof value);

/** The options of a call: an object without other members than these, so that no form is passed over that was given in another way. */
function optionsOf(options, members) {
  if (options === undefined) {
    return {};
  }
  const wanted = members.length === 1 ? `the member ${members[0]}` : `the members ${members.slice(0, -1).join(", ")} and ${members.at(-1)}`;
  if (typeof options !== "object" || options === null || Symbol.iterator in options) {
    throw new TypeError(`options is an object that may have ${wanted}, and not ${typeof options === "string" ? `"${options}"` : shownValue(options)}`);
  }
  for (const name in options) {
    if (!members.includes(name)) {
      throw new TypeError(`options may have ${wanted}, and not ${name}`);
    }
  }
  return options;
}

/** Refuses a number of bytes that can't be the most memory of the module. */
function checkMemory(memory) {
  const [least, most] = [PAGES * PAGE, MOST_PAGES * PAGE];
  if (memory !== undefined && typeof memory !== "number") {
    throw new TypeError(`memory is a number of bytes, and not ${shownValue(memory)}`);
  }
  if (memory !== undefined && !(memory >= least && memory <= most)) {
    throw new RangeError(`memory is a number of bytes from ${least} to ${most}, and not ${memory}`);
  }
}

/** Refuses what can't be told how far a file is read. */
function checkProgress(onProgress) {
  if (onProgress !== undefined && typeof onProgress !== "function") {
    throw new TypeError(`onProgress is a function, and not ${shownValue(onProgress)}`);
  }
}

/** Refuses what is no limit. */
function checkLimit(limit) {
  if (typeof limit !== "number" && typeof limit !== "bigint") {
    throw new TypeError(`limit is a number of squares, and not ${shownValue(limit)}`);
  }
  if (typeof limit === "number" ? !(Number.isInteger(limit) && limit >= 0) : limit < 0n) {
    throw new RangeError(`limit is a whole number of squares, 0 or more, and not ${limit}`);
  }
}

/** Refuses what gives no chunks. */
function checkChunks(source) {
  if (source === undefined || source === null || !(source[Symbol.iterator] ?? source[Symbol.asyncIterator])) {
    throw new TypeError(`source is a stream, a blob, a response, bytes, a string or chunks, and not ${shownValue(source)}`);
  }
}

/** The bytes of what is given as a file, as the argument of this name. */
function bytesOf(data, name = "data") {
  if (typeof data === "string") {
    return new TextEncoder().encode(data);
  }
  if (ArrayBuffer.isView(data)) {
    return new Uint8Array(data.buffer, data.byteOffset, data.byteLength);
  }
  if (data instanceof ArrayBuffer) {
    return new Uint8Array(data);
  }
  throw new TypeError(`${name} is a file: bytes (an ArrayBuffer or a view of one) or a string, and not ${shownValue(data)}`);
}

/** A limit as a call takes it. */
function limitOf(limit) {
  checkLimit(limit);
  const number = BigInt(limit);
  return number < 1n << 62n ? number : 1n << 62n;
}

/** A number of generations as a call takes it. */
function generationsOf(generations) {
  if (typeof generations !== "number" && typeof generations !== "bigint") {
    throw new TypeError(`generations is a number, and not ${shownValue(generations)}`);
  }
  const isExact = typeof generations === "bigint" || Number.isSafeInteger(generations);
  if (!isExact || generations < 0 || generations >= 1n << 64n) {
    throw new RangeError(`generations is a whole number from 0 to 2^64 - 1, above 2^53 - 1 a bigint, and not ${shownValue(generations)}`);
  }
  return BigInt(generations);
}

/** The number of a form, which for phases has the greatest period that is sought. */
function numberOf(form = "placed", within) {
  const number = FORMS.indexOf(form);
  if (number < 0) {
    throw new RangeError(`a form is one of ${FORMS.join(", ")}, and not ${form}`);
  }
  if (form === "phases") {
    return PHASES + periodOf(within);
  }
  if (within !== undefined) {
    throw new TypeError(`within is for the form phases alone, and not for ${form}`);
  }
  return number;
}

/** A greatest period as a call takes it. */
function periodOf(within = WITHIN) {
  if (typeof within !== "number" && typeof within !== "bigint") {
    throw new TypeError(`within is a number, and not ${shownValue(within)}`);
  }
  const number = Number(within);
  if (!Number.isInteger(number) || number < 1 || number >= PHASES) {
    throw new RangeError(`within is a whole number from 1 to 2^31 - 1, and not ${within}`);
  }
  return number;
}

/** What the five lines of `show` say. */
function shownOf(text) {
  const lines = new TextDecoder().decode(text).split("\n").map(line => line.slice(line.indexOf(" ") + 1));
  const [left, top, width, height] = lines[3] === "none" ? [] : lines[3].split(" ").map(BigInt);
  const box = lines[3] === "none" ? null : { left, top, width, height };
  return { rule: lines[0], generation: BigInt(lines[1]), population: BigInt(lines[2]), box, nodes: Number(lines[4]) };
}

/** The chunks of a stream of bytes, a blob, a response, bytes, or of what gives chunks one behind another. */
async function* chunksOf(source) {
  if (typeof source === "string" || source instanceof ArrayBuffer || ArrayBuffer.isView(source)) {
    yield source;
    return;
  }
  if (source instanceof Response) {
    checkResponse(source);
  }
  const chunks = source instanceof Blob ? source.stream() : source instanceof Response ? source.body ?? [] : source;
  if (!(chunks instanceof ReadableStream)) {
    checkChunks(chunks);
    yield* chunks;
    return;
  }
  const reader = chunks.getReader();
  try {
    for (let next = await reader.read(); !next.done; next = await reader.read()) {
      yield next.value;
    }
  } finally {
    await reader.cancel();
  }
}

/** The module with its memory. The module takes and returns addresses as bigints, though its memory has 32-bit addresses. */
class Instance {
  /** Whether it stopped in a call: then nothing is known of its memory. */
  isLost = false;
  #calls;
  #memory;
  #told;
  #room;
  /** Closes the streams that nobody has any more. */
  #forgotten = new FinalizationRegistry(struct => this.closed(struct));

  constructor(module, maximum) {
    this.#memory = new WebAssembly.Memory({ initial: PAGES, maximum });
    this.#calls = new WebAssembly.Instance(module, { env: { memory: this.#memory } }).exports;
    this.#told = this.take(24);
  }

  call(name, ...words) {
    if (this.isLost) {
      throw new Fault("this module has failed, and everything that was opened on it is lost");
    }
    try {
      return this.#calls[name](...words);
    } catch (why) {
      this.isLost = true;
      throw new Fault(why.message);
    }
  }

  /** The address of so many bytes. */
  take(length) {
    const at = this.call("malloc", BigInt(Math.max(length, 1)));
    if (at === 0n) {
      throw new Refused("Memory");
    }
    return at;
  }

  give(at) {
    if (!this.isLost) {
      this.call("free", at);
    }
  }

  /** These bytes. They are other ones behind the next call, since the memory may grow. */
  bytes(at, length) {
    return new Uint8Array(this.#memory.buffer, Number(at), length);
  }

  /** The address of the memory in which each stream is handed its next bytes. */
  room() {
    this.#room ??= this.take(CHUNK);
    return this.#room;
  }

  /** The address of the struct of a stream, opened by a call with these words. It is closed when `owner` is no longer there, if not before. */
  opened(owner, name, ...words) {
    const struct = this.take(16);
    this.bytes(struct, 16).fill(0);
    if (this.call(`golly_canon_open_${name}`, struct, ...words) !== 0) {
      this.give(struct);
      throw new Refused("Memory");
    }
    this.#forgotten.register(owner, struct, owner);
    return struct;
  }

  /** Gives back what a stream has in the module. */
  closed(struct, owner) {
    if (owner !== undefined) {
      this.#forgotten.unregister(owner);
    }
    if (!this.isLost) {
      this.call("golly_canon_close", struct);
      this.give(struct);
    }
  }

  /** The address of a number that a call writes: 0 for `needed`, 1 for `line`, 2 for a flag. */
  place(index) {
    return this.#told + BigInt(8 * index);
  }

  number(index) {
    return Number(new DataView(this.#memory.buffer).getBigUint64(Number(this.place(index)), true));
  }

  isFlagged() {
    return new DataView(this.#memory.buffer).getUint32(Number(this.place(2)), true) === 1;
  }

  /** What a call answers of copies of these files, whose addresses and lengths it is handed. */
  lent(files, use) {
    const places = [];
    try {
      for (const file of files) {
        const at = this.take(file.length);
        places.push(at);
        this.bytes(at, file.length).set(file);
      }
      return use(...files.flatMap((file, index) => [places[index], BigInt(file.length)]));
    } finally {
      places.forEach(at => this.give(at));
    }
  }

  /**
   * The text that a call gives. Its words are these, the text's memory, the text's length, and these places. It is called again where the
   * text doesn't fit. `files` are what the call reads: the file, and the rule table, if there is one.
   */
  text(name, words, places, files = [], room = FIRST_ROOM) {
    for (;;) {
      const out = this.take(room);
      try {
        this.bytes(out, room).fill(0);
        const status = this.call(`golly_canon_${name}`, ...words, out, BigInt(room), this.place(0), ...places.map(it => this.place(it)));
        if (status === 0) {
          return this.bytes(out, this.number(0)).slice();
        }
        if (status !== NO_ROOM) {
          throw this.refused(status, files, places.includes(2) && this.isFlagged());
        }
      } finally {
        this.give(out);
      }
      room = this.number(0);
    }
  }

  /** The sentence or the name that a call gives, which takes these words. */
  said(name, ...words) {
    return new TextDecoder().decode(this.text(name, words, []));
  }

  /** What a file is that was refused with a status, and what to do, or null if it is nothing that the library knows. */
  advice(status, file, isTable) {
    const head = file.subarray(0, HEAD);
    return this.lent([head], (...words) => this.said("advice", status, ...words, isTable ? 1 : 0)) || null;
  }

  /** What a status says of a file, or of the rule table, if the fault is of that one. */
  refused(status, [file, table], inTable = false, line = this.number(1)) {
    const isTable = inTable || status === AMBIGUOUS;
    const kind = this.said("status_name", status);
    const it = isTable ? table : file;
    return new Refused(kind, line || null, line > 0 && isTable, it === undefined ? null : this.advice(status, it, isTable));
  }
}

/**
 * Memory in place of what a stream has in the module after so many bytes. The engine doesn't count that, and would collect forgotten streams too late,
 * when the module is full. It counts this memory, which is never written, so that the system need not provide it.
 */
function weight(before, length) {
  const wanted = Math.min(WEIGHT * length, HEAVIEST);
  if (wanted <= 2 * before.byteLength) {
    return before;
  }
  try {
    return new ArrayBuffer(wanted);
  } catch {
    return before; // the system hands out no such memory
  }
}

/**
 * A file that comes in chunks, cut anywhere, which need not be held. What it has in the module is given back as soon as the file is refused or has ended:
 * then only the reason is kept, or the text with its key and its warning.
 */
class Stream {
  #instance;
  #gives;
  #wanted;
  #struct;
  /** How many bytes were fed, and memory that the engine counts as the stream's (see `weight`). */
  #length = 0;
  #weight = new ArrayBuffer(LIGHTEST);
  /** The first bytes of the file. */
  #head = new Uint8Array();
  /** Why the file is refused. */
  #refused = null;
  #text = null;
  #key = null;
  #warning = null;

  /** `words` are the name of the call that opens it, and what it takes first. Where only the text or only the key is `wanted`, the other one isn't made. */
  constructor(instance, gives, words, limit, seed, wanted = "both") {
    this.#instance = instance;
    this.#gives = gives;
    this.#wanted = wanted;
    instance.room(); // where there is no memory for it, the stream isn't opened
    this.#struct = instance.opened(this, ...words, limitOf(limit), seed);
  }

  #release() {
    if (this.#struct !== undefined) {
      this.#instance.closed(this.#struct, this);
      this.#struct = this.#weight = undefined;
    }
  }

  /** Makes a call of the stream. Where the file is refused, nothing of it is kept but why. */
  #called(act) {
    if (this.#refused !== null) {
      const { kind, line, inTable, advice } = this.#refused;
      throw new Refused(kind, line, inTable, advice);
    }
    if (this.#struct === undefined) {
      throw new Refused("Spent");
    }
    try {
      act(this.#instance, this.#struct);
    } catch (why) {
      if (why instanceof Refused) {
        this.#refused = why;
        this.#release();
      }
      throw why;
    }
  }

  feed(chunk) {
    const bytes = bytesOf(chunk, "chunk");
    this.#called((instance, struct) => {
      this.#length += bytes.length;
      this.#head = this.#head.length < HEAD ? Uint8Array.of(...this.#head, ...bytes.subarray(0, HEAD - this.#head.length)) : this.#head;
      this.#weight = weight(this.#weight, this.#length);
      for (let at = 0; at < bytes.length; at += CHUNK) {
        const piece = bytes.subarray(at, at + CHUNK);
        instance.bytes(instance.room(), piece.length).set(piece);
        const status = instance.call("golly_canon_feed", struct, instance.room(), BigInt(piece.length), instance.place(1));
        if (status !== 0) {
          throw instance.refused(status, [this.#head]);
        }
      }
    });
  }

  /** Ends the file, where it hasn't ended. */
  #end() {
    if (this.#text === null && this.#key === null) {
      this.#called((instance, struct) => {
        this.#key = this.#wanted === "text" ? null : instance.text("finish_key", [struct], [1], [this.#head]);
        this.#text = this.#wanted === "key" ? null : instance.text("finish", [struct], [1], [this.#head]);
        this.#warning = instance.said("stream_warning", struct) || null;
      });
      this.#release();
    }
  }

  finish() {
    this.#end();
    return this.#gives === "show" ? shownOf(this.#text) : this.#wanted === "text" ? this.#text : this.#text.slice();
  }

  finishKey() {
    this.#end();
    return Uint8Array.from(new TextDecoder().decode(this.#key).match(/../g), it => Number.parseInt(it, 16));
  }

  warning() {
    this.#end();
    return this.#warning;
  }

  close() {
    this.#release();
    this.#refused = this.#text = this.#key = this.#warning = null;
  }
}

/** The calls of the library, in one instance of its module, and in a new one where that stopped. */
class Library {
  #module;
  #maximum;
  #instance;
  #seed = crypto.getRandomValues(new BigUint64Array(1))[0]; // so that no file can be made that takes long to read

  constructor(module, memory) {
    this.#module = module;
    this.#maximum = memory === undefined ? undefined : Math.floor(memory / PAGE);
    this.version = new TextDecoder().decode(this.#here().text("version", [], []));
  }

  #here() {
    if (this.#instance === undefined || this.#instance.isLost) {
      this.#instance = new Instance(this.#module, this.#maximum);
    }
    return this.#instance;
  }

  /** A stream with these options, of which only so much is wanted. */
  #opened({ gives = "canon", form = "placed", within, generations, limit = SQUARES }, wanted) {
    if (!Object.hasOwn(STREAMS, gives) || (gives !== "canon" && form !== "placed")) {
      throw new RangeError(`gives is canon in any form, or ${Object.keys(STREAMS).slice(1).join(", ")} as placed, and not ${gives} ${form}`);
    }
    if (generations !== undefined && gives !== "step") {
      throw new RangeError(`generations are for step, and not for ${gives}`);
    }
    const number = numberOf(form, within);
    const words = generations !== undefined ? ["step_generations", generationsOf(generations)] : number === 0 ? [STREAMS[gives]] : ["canon_form", number];
    return new Stream(this.#here(), gives, words, limit, this.#seed, wanted);
  }

  /** What a stream gives of one file. */
  #whole(data, options) {
    const bytes = bytesOf(data);
    const file = this.#opened(options, "text");
    try {
      file.feed(bytes);
      return file.finish();
    } finally {
      file.close();
    }
  }

  canon(data, options) {
    return this.#whole(data, optionsOf(options, IN_FORM));
  }

  key(data, options) {
    const { form, within, limit = SQUARES } = optionsOf(options, IN_FORM);
    const here = this.#here();
    const file = bytesOf(data);
    return here.lent([file], (...words) => here.text("key", [...words, numberOf(form, within), limitOf(limit), this.#seed], [1], [file]));
  }

  same(first, second, options) {
    const { form, within, limit = SQUARES } = optionsOf(options, IN_FORM);
    const here = this.#here();
    const files = [bytesOf(first, "first"), bytesOf(second, "second")];
    const number = numberOf(form, within);
    return here.lent(files, (...words) => {
      const status = here.call("golly_canon_same_form", ...words, number, limitOf(limit), this.#seed, here.place(2), here.place(1));
      if (status === 0) {
        return here.isFlagged();
      }
      // The fault is that of the first file exactly if this one is refused alone.
      const line = here.number(1);
      const alone = here.call("golly_canon_key", words[0], words[1], number, limitOf(limit), this.#seed, 0n, 0n, here.place(0), here.place(1));
      throw here.refused(status, alone === status && here.number(1) === line ? files : files.slice(1), false, line);
    });
  }

  toRle(data, options) {
    return this.#whole(data, { ...optionsOf(options, ["limit"]), gives: "toRle" });
  }

  show(data, options) {
    return this.#whole(data, { ...optionsOf(options, ["limit"]), gives: "show" });
  }

  step(data, options) {
    const { table, generations, limit = SQUARES } = optionsOf(options, ["table", "generations", "limit"]);
    if (table === undefined) {
      return this.#whole(data, { gives: "step", generations, limit });
    }
    if (generations !== undefined) {
      throw new RangeError("a table makes one generation at a time");
    }
    const here = this.#here();
    const files = [bytesOf(data), bytesOf(table, "table")];
    return here.lent(files, (...words) => here.text("step_by_table", [...words, limitOf(limit), this.#seed], [1, 2], files));
  }

  stream(options) {
    return this.#opened(optionsOf(options, OF_STREAM));
  }

  async read(source, options) {
    return this.#ended(source, optionsOf(options, [...OF_STREAM, "onProgress"]), "text", file => file.finish());
  }

  async readKey(source, options) {
    return this.#ended(source, optionsOf(options, [...IN_FORM, "onProgress"]), "key", file => file.finishKey());
  }

  /** What the end of a stream gives that is fed what a source has. */
  async #ended(source, { onProgress, ...options }, wanted, end) {
    checkProgress(onProgress);
    const file = this.#opened(options, wanted);
    let length = 0;
    try {
      for await (const chunk of chunksOf(source)) {
        const bytes = bytesOf(chunk, "chunk");
        file.feed(bytes);
        length += bytes.length;
        onProgress?.(length);
      }
      return end(file);
    } finally {
      file.close();
    }
  }

  warningOf(data) {
    const here = this.#here();
    return here.lent([bytesOf(data)], (...file) => here.said("warning", ...file)) || null;
  }

  sentenceOf(kind) {
    const here = this.#here();
    for (let status = 1; status < NO_ROOM; status++) {
      if (kind !== "" && here.said("status_name", status) === kind) {
        return here.said("sentence", status);
      }
    }
    throw new RangeError(`kind is the name of a kind of fault, and not ${kind}`);
  }
}
