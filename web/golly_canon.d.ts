/** One canonical text for each cellular-automaton pattern, by the proved library golly_canon, compiled for WebAssembly. */

/** A file: its bytes, or a text that is read as UTF-8. */
export type Data = string | ArrayBuffer | ArrayBufferView;

/**
 * A form of a pattern: the pattern where it lies; wherever it lies; also however it is turned or reflected; or also in whichever phase, if it is an oscillator
 * or a spaceship. The rule counts in each, and the generation in all but the last. The last three may have up to 2^21 different squares.
 */
export type Form = "placed" | "moved" | "turned" | "phases";

/** The forms, from the one in which fewest patterns are one. */
export const FORMS: readonly Form[];

/** The limit of a call, if none is given: so many different squares. Beyond it a file is refused as `Full`. */
export const SQUARES: number;

/** The most different squares that a call may store; a square takes some 40 bytes. */
export interface Limited {
  limit?: number | bigint;
}

export interface InForm extends Limited {
  form?: Form;
  /**
   * For the form phases alone: up to how many generations the period is sought, from 1 to 2^31 - 1, and 128 if it isn't given. A pattern with no period up to
   * there, or whose rule is a name, has its turned form in generation 0. A pattern that leaves the plane before its period is found is refused as `OutOfPlane`.
   */
  within?: number | bigint;
}

/** The least box of the cells that aren't 0. `top` is the row with the least number, as y grows downwards. */
export interface Box {
  left: bigint;
  top: bigint;
  width: bigint;
  height: bigint;
}

/** What a file holds: its rule in the canonical spelling, its generation, how many cells aren't 0, their least box, the squares of the canonical text. */
export interface Shown {
  rule: string;
  generation: bigint;
  population: bigint;
  box: Box | null;
  nodes: number;
}

/** Why a file, a rule table or a pattern is refused. As a text it is the line that the program writes, as `line 4: BadChild`. */
export class Refused extends Error {
  /** The name of the kind of fault, as docs/FORMATS.md has it. */
  readonly kind: string;
  /** The line of the file, counted from 1, or null where the fault is of no line. */
  readonly line: number | null;
  /** Whether it is a line of the rule table. */
  readonly inTable: boolean;
  /** What the file is, if it is something else than a pattern, and what to do: `This is a gzip file: unpack it first, with gunzip.` It is null otherwise. */
  readonly advice: string | null;
  constructor(kind: string, line?: number | null, inTable?: boolean, advice?: string | null);
}

/** The module stopped in a call, as where its stack is full: nothing is said of the file. The next call is made on a new module. */
export class Fault extends Error {}

/** Whether the library can be loaded here. It needs WebAssembly with bulk memory operations and BigInt, and a page that allows WebAssembly. */
export function isSupported(): boolean;

/**
 * Loads the library: from golly_canon.wasm beside this file, or from what is given. `memory` is the most memory that it may take, in bytes:
 * from 2 MB to 4,293,918,720, which is 4 GB less 1 MB. So much it may also take if none is given.
 */
export function load(
  source?: WebAssembly.Module | BufferSource | Response | URL | string | Promise<WebAssembly.Module | BufferSource | Response>,
  options?: { memory?: number },
): Promise<Library>;

/**
 * The library. Each call throws `Refused`, or `Fault`; what it returns is the caller's. It throws a TypeError for options that aren't an object, or that have
 * a member that the call doesn't know, or `within` without the form phases.
 */
export interface Library {
  readonly version: string;
  /** The canonical text of the pattern of a file, in a form. */
  canon(data: Data, options?: InForm): Uint8Array;
  /** The SHA-256 of that text, 32 bytes. */
  key(data: Data, options?: InForm): Uint8Array;
  /** Whether two files are one pattern, in a form. It throws for the first file where that is refused, and else for the second. */
  same(first: Data, second: Data, options?: InForm): boolean;
  /** The pattern of a file in extended RLE, of up to 2^20 cells that aren't 0. */
  toRle(data: Data, options?: Limited): Uint8Array;
  show(data: Data, options?: Limited): Shown;
  /**
   * The canonical text of the next generation: by the B/S rule of the file, or by the rule table of its name, the bytes of a .rule file. With `generations`, from
   * 0 to 2^64 - 1, it is the text so many generations later by the B/S rule, of any number of cells. A small file can be a machine that runs for ever: its time
   * has no bound, and `limit` bounds its memory.
   */
  step(data: Data, options?: Limited & ({ table?: Data } | { generations?: number | bigint })): Uint8Array;
  /** A stream for a file that comes in chunks: of its canonical text, which has a form, of its RLE, of the next generation, or of what it holds. */
  stream(options?: InForm & { gives?: "canon" }): Stream<Uint8Array>;
  stream(options: Limited & { gives: "toRle" }): Stream<Uint8Array>;
  stream(options: Limited & { gives: "step"; generations?: number | bigint }): Stream<Uint8Array>;
  stream(options: Limited & { gives: "show" }): Stream<Shown>;
  /** What comes of a file that is read to its end and not held. A response that isn't `ok` is an Error: it has a page of the server, and not the file. */
  read(source: Source, options?: InForm & Told & { gives?: "canon" }): Promise<Uint8Array>;
  read(source: Source, options: Limited & Told & { gives: "toRle" }): Promise<Uint8Array>;
  read(source: Source, options: Limited & Told & { gives: "step"; generations?: number | bigint }): Promise<Uint8Array>;
  read(source: Source, options: Limited & Told & { gives: "show" }): Promise<Shown>;
  /** The key of a file that is read to its end and not held: what `key` returns for the whole file. */
  readKey(source: Source, options?: InForm & Told): Promise<Uint8Array>;
  /**
   * What a kind of fault means, in a sentence of English, as `golly_canon keys` writes it after the kind: of `ZeroCount` it is `A count is 0.` That of
   * `Full` speaks of the limit that the program has. It throws a RangeError for a name that is no kind.
   */
  sentenceOf(kind: string): string;
  /**
   * What seems damaged in a file that is accepted, in a sentence without a full stop, or null: the sentence that the program's `keys` writes. A macrocell file
   * may have lost its line ends, or have a comment such as `#RB36/S23` that is a rule in Golly; an RLE may have lost its rows, or hold several patterns.
   */
  warningOf(data: Data): string | null;
}

/** Who is told how many bytes of a file were read. */
export interface Told {
  onProgress?: (bytes: number) => void;
}

/** What a file is read from: a stream of bytes, a blob, a response, bytes, or chunks one behind another. */
export type Source = ReadableStream<Uint8Array> | Blob | Response | Data | Iterable<Data> | AsyncIterable<Data>;

/**
 * A file that comes in chunks, cut anywhere, which need not be held. Its memory in the module is given back as soon as the file is refused or has ended.
 * Then the stream keeps only the reason, or the text with its key and its warning.
 */
export interface Stream<Text> {
  /** Takes the next chunk. A line is refused with the chunk in which it ends; then each further chunk and the end are refused alike. */
  feed(chunk: Data): void;
  /** Ends the file, and returns what comes of it. Called again it returns the same. */
  finish(): Text;
  /** Ends the file, and returns the key of its text: its SHA-256, 32 bytes. It can be called before `finish`, after it, and again. */
  finishKey(): Uint8Array;
  /** Ends the file, and returns what `warningOf` returns for the whole file. */
  warning(): string | null;
  /** Gives the memory of the stream back. Where a stream is lost that is neither closed nor ended, the engine closes it when it collects the object. */
  close(): void;
}
