/**
 * Files in folders, in archives and by themselves, as sources that the worker reads: a name, a size, a blob or bytes, and how they are packed. What can't
 * be read has a `why`, so that each file is read or says why it isn't.
 */

const END_OF_ZIP = 0x06054b50;
const ENTRY_OF_ZIP = 0x02014b50;
const FILE_OF_ZIP = 0x04034b50;
/** The methods of a zip that a browser unpacks. */
const METHODS = { 0: undefined, 8: "deflate-raw" };
/** The bytes of a block of a tar, and the kinds of its entries that are files, folders and links. What follows x, g, L and K is about the next entry. */
const BLOCK = 512;
const FILES_OF_TAR = ["0", "\0", "7"];
const LINKS_OF_TAR = ["1", "2"];
const ABOUT_NEXT = ["x", "g", "L", "K"];
/** The first bytes of what is packed in a way that no browser unpacks. */
const UNKNOWN_PACKING = { bzip2: [66, 90, 104], xz: [253, 55, 122, 88, 90, 0], zstd: [40, 181, 47, 253] };
/** The most bytes of a file that is handed to the worker as bytes, which takes less time than a blob does, and of an archive that is held. */
const SMALL = 2 ** 20;
const MOST_HELD = 2 ** 28;
/** The most bytes of a tar that gzip packed. */
const MOST_UNPACKED = 2 ** 30;
/** The most milliseconds between the end of looking through a dropped folder and the browser's own list of its files. */
export const PATIENCE = 20000;

const UNNAMED = "its name isn't UTF-8 text, so the browser can't open it: rename it, or drop a tar of the folder";
const UNLISTED = "the browser hides some names of a dropped folder from a page that was opened from the disk, so files may be missing: take Open a folder, " +
  "drop the folder alone, or drop a tar or a zip of it";

/** An archive whose files can't be read, or not all. */
class BadArchive extends Error {}

/** What an error says, as the end of a sentence. */
const saidOf = why => `it can't be read: ${why.message.replace(/\.+$/, "") || why.name}`;

/** The parts of an archive: a part of what is held of it, or a part of its blob. */
class Packed {
  #held = null;
  #blob;

  constructor(blob) {
    this.#blob = blob;
  }

  async hold() {
    if (this.#blob.size <= MOST_HELD) {
      this.#held = new Uint8Array(await this.#blob.arrayBuffer());
    }
  }

  get size() {
    return this.#blob.size;
  }

  async bytes(from, to) {
    return this.#held?.subarray(Math.max(0, from), to) ?? new Uint8Array(await this.#blob.slice(Math.max(0, from), to).arrayBuffer());
  }

  async view(from, to) {
    const bytes = await this.bytes(from, to);
    return new DataView(bytes.buffer, bytes.byteOffset, bytes.byteLength);
  }

  /** A part as a source. */
  part(from, to) {
    return this.#held === null || to - from > SMALL ? { blob: this.#blob.slice(from, to) } : { bytes: this.#held.subarray(from, to) };
  }
}

/** The files of an archive, in its order. Where it is damaged, or has none, it is a file that can't be read, behind those that can. */
async function filesOfArchive(name, blob, filesOf) {
  const archive = new Packed(blob);
  const files = [];
  const left = why => files.push({ name, size: 0, why });
  try {
    await archive.hold();
    for await (const file of filesOf(archive)) {
      files.push({ ...file, name: `${name}/${file.name}` });
    }
    if (files.length === 0) {
      left("it has no files");
    }
  } catch (why) {
    left(why instanceof BadArchive ? why.message : saidOf(why));
  }
  return files;
}

// ---- zip

async function* filesOfZip(zip) {
  const entries = await listOfZip(zip);
  for (const entry of entries) {
    const file = await fileOfZip(zip, entry);
    yield { name: entry.name, size: entry.packed, ...(/\.gz$/i.test(entry.name) ? await withoutZip(file) : file) };
  }
}

/** A file of a zip that gzip packed before: as gzip made it, since the worker unpacks only once. */
async function withoutZip(file) {
  if (file.why !== undefined) {
    return file;
  }
  try {
    const stream = (file.blob ?? new Blob([file.bytes])).stream();
    const blob = await new Response(file.packed ? stream.pipeThrough(new DecompressionStream(file.packed)) : stream).blob();
    const [one, other] = new Uint8Array(await blob.slice(0, 2).arrayBuffer());
    return one === 31 && other === 139 ? { blob, packed: "gzip" } : file;
  } catch {
    return file; // the worker says that it is damaged
  }
}

/** The entries of the list of a zip that are files. */
async function listOfZip(zip) {
  const tail = await zip.view(zip.size - 65557, zip.size);
  let end = tail.byteLength - 22;
  while (end >= 0 && tail.getUint32(end, true) !== END_OF_ZIP) {
    end--;
  }
  if (end < 0) {
    throw new BadArchive("it is damaged: its list of files is lacking");
  }
  const [count, length, from] = [tail.getUint16(end + 10, true), tail.getUint32(end + 12, true), tail.getUint32(end + 16, true)];
  const list = await zip.view(from, from + length);
  if (count === 0xffff || list.byteLength !== length) {
    throw new BadArchive("it is damaged, or a zip of more than 65,534 files or 4 GB");
  }
  const entries = [];
  for (let at = 0, file = 0; file < count; file++) {
    const isEntry = at + 46 <= list.byteLength && list.getUint32(at, true) === ENTRY_OF_ZIP;
    const lengths = isEntry ? [28, 30, 32].map(it => list.getUint16(at + it, true)) : [];
    const next = at + 46 + lengths.reduce((sum, it) => sum + it, 0);
    if (!isEntry || next > list.byteLength) {
      throw new BadArchive("it is damaged: its list of files ends too early");
    }
    const [flags, method] = [8, 10].map(it => list.getUint16(at + it, true));
    const [sum, packed, size, place] = [16, 20, 24, 42].map(it => list.getUint32(at + it, true));
    const name = nameOfBytes(new Uint8Array(list.buffer, list.byteOffset + at + 46, lengths[0]));
    if (!name.endsWith("/")) {
      entries.push({ name, flags, method, sum, packed, size, place });
    }
    at = next;
  }
  return entries;
}

async function fileOfZip(zip, { flags, method, sum, packed, size, place }) {
  const head = await zip.view(place, place + 30);
  if (head.byteLength < 30 || head.getUint32(0, true) !== FILE_OF_ZIP) {
    return { why: "it is damaged: it isn't where the zip's list of files says" };
  }
  if (flags & 1) {
    return { why: "it is locked by a password" };
  }
  if (!Object.hasOwn(METHODS, method)) {
    return { why: `it is packed by method ${method}, which no browser unpacks` };
  }
  const from = place + 30 + head.getUint16(26, true) + head.getUint16(28, true);
  return { ...zip.part(from, from + packed), packed: METHODS[method], sum, length: size };
}

// ---- tar

/** The text of a field, which ends at its first NUL. */
function textOfField(block, from, length) {
  const field = block.subarray(from, from + length);
  const end = field.indexOf(0);
  return nameOfBytes(end < 0 ? field : field.subarray(0, end));
}

/** A name as text. If it isn't UTF-8 text, each byte that isn't ASCII stands as a lone half of a pair, from U+DC80 to U+DCFF, as Python has it. */
function nameOfBytes(bytes) {
  try {
    return new TextDecoder("utf-8", { fatal: true, ignoreBOM: true }).decode(bytes);
  } catch {
    return Array.from(bytes, it => String.fromCharCode(it < 0x80 ? it : 0xdc00 + it)).join("");
  }
}

/** The number in a field: octal digits, or where its first bit is set, the other bits. NaN where it has neither. */
function numberOfField(block, from, length) {
  if (block[from] & 0x80) {
    return block.subarray(from + 1, from + length).reduce((sum, it) => 256 * sum + it, block[from] & 0x7f);
  }
  const digits = /^ *([0-7]*)[ \0]*$/.exec(new TextDecoder("latin1").decode(block.subarray(from, from + length)));
  return digits === null ? NaN : Number.parseInt(digits[1] || "0", 8);
}

/** Whether a block is that of an entry of a tar: its sum is right. */
function isEntryOfTar(block) {
  if (block.length < BLOCK || block[0] === 0) {
    return false;
  }
  const wanted = numberOfField(block, 148, 8);
  if (!(wanted > 0)) {
    return false;
  }
  const rest = [...block.subarray(0, 148), ...new Uint8Array(8).fill(32), ...block.subarray(156, BLOCK)];
  const sums = [rest, rest.map(it => (it > 127 ? it - 256 : it))].map(some => some.reduce((sum, it) => sum + it, 0));
  return sums.includes(wanted);
}

/** The records of what pax says of an entry: LENGTH KEY=VALUE, each with a line feed. */
function recordsOf(bytes) {
  const found = {};
  for (let at = 0; at < bytes.length;) {
    const space = bytes.indexOf(32, at);
    const length = Number(new TextDecoder().decode(bytes.subarray(at, space)));
    if (space < 0 || !(length > 0)) {
      break;
    }
    const record = bytes.subarray(space + 1, at + length - 1);
    const equals = record.indexOf(61);
    found[nameOfBytes(record.subarray(0, equals))] = record.subarray(equals + 1);
    at += length;
  }
  return found;
}

/** The entries of a tar that are files, and its links, which aren't followed. */
async function* filesOfTar(tar) {
  let [common, next] = [{}, {}];
  for (let at = 0; at < tar.size;) {
    const block = await tar.bytes(at, at + BLOCK);
    if (block.every(it => it === 0)) {
      return; // the rest is padding
    }
    const told = { ...common, ...next };
    const length = told.size === undefined ? numberOfField(block, 124, 12) : Number(new TextDecoder().decode(told.size));
    const kind = String.fromCharCode(block[156]);
    if (!isEntryOfTar(block) || !Number.isSafeInteger(length)) {
      throw new BadArchive("it is damaged, so the files that follow in it aren't read");
    }
    let from = at + BLOCK;
    for (let isMore = kind === "S" && block[482] !== 0; isMore; from += BLOCK) {
      isMore = (await tar.bytes(from, from + BLOCK))[504] > 0; // more about where the parts of a sparse file are
    }
    const hasData = !["1", "2", "3", "4", "5", "6"].includes(kind);
    at = from + (hasData ? BLOCK * Math.ceil(length / BLOCK) : 0);
    if (ABOUT_NEXT.includes(kind)) {
      const about = await tar.bytes(from, from + length);
      if (kind === "g") {
        common = { ...common, ...recordsOf(about) };
      } else {
        const end = about.indexOf(0);
        const whole = end < 0 ? about : about.subarray(0, end);
        next = { ...next, ...(kind === "x" ? recordsOf(about) : kind === "L" ? { path: whole } : { linkpath: whole }) };
      }
      continue;
    }
    next = {};
    const prefix = textOfField(block, 257, 5) === "ustar" && block[262] === 0 ? textOfField(block, 345, 155) : "";
    const name = told.path === undefined ? [prefix, textOfField(block, 0, 100)].filter(it => it !== "").join("/") : nameOfBytes(told.path);
    if (FILES_OF_TAR.includes(kind) && !(kind === "\0" && name.endsWith("/"))) {
      yield { name, size: length, ...(await fileOfTar(tar, from, length, told)) };
    } else if (LINKS_OF_TAR.includes(kind)) {
      const target = told.linkpath === undefined ? textOfField(block, 157, 100) : nameOfBytes(told.linkpath);
      yield { name, size: 0, why: `it is a link to ${target}, which isn't followed` };
    } else if (kind !== "5" && kind !== "\0") {
      yield { name, size: 0, why: "it is a sparse file or a device, which the page doesn't read" };
    }
  }
}

async function fileOfTar(tar, from, length, told) {
  if (from + length > tar.size) {
    return { why: "it is damaged: the archive ends within it" };
  }
  if (Object.keys(told).some(it => it.startsWith("GNU.sparse."))) {
    return { why: "it is a sparse file, which the page doesn't read" };
  }
  const [one, other] = await tar.bytes(from, from + Math.min(length, 2));
  return { ...tar.part(from, from + length), packed: one === 31 && other === 139 ? "gzip" : undefined };
}

/** The bytes of a file that gzip packed: as many as there are, and why there are no more. */
async function unpackedBlob(blob) {
  const reader = blob.stream().pipeThrough(new DecompressionStream("gzip")).getReader();
  const chunks = [];
  let [size, why] = [0, null];
  try {
    for (let next = await reader.read(); !next.done; next = await reader.read()) {
      size += next.value.length;
      if (size > MOST_UNPACKED) {
        why = "it has more than 1 GB: unpack it first";
        await reader.cancel();
        break;
      }
      chunks.push(next.value);
    }
  } catch {
    why = "it is damaged: it can't be unpacked to its end";
  }
  return { whole: new Blob(chunks), why };
}

/** The first bytes of what gzip packed, or none where that is damaged. */
async function unpackedHead(blob) {
  const reader = blob.stream().pipeThrough(new DecompressionStream("gzip")).getReader();
  const head = new Uint8Array(BLOCK);
  let count = 0;
  try {
    for (let next = await reader.read(); !next.done && count < BLOCK; next = await reader.read()) {
      const some = next.value.subarray(0, BLOCK - count);
      head.set(some, count);
      count += some.length;
    }
    await reader.cancel();
  } catch {
    // The worker says that it is damaged.
  }
  return head.subarray(0, count);
}

/** The files in a tar that gzip packed. */
async function filesOfPackedTar(name, blob) {
  const { whole, why } = await unpackedBlob(blob);
  const files = await filesOfArchive(name, whole, filesOfTar);
  return why === null ? files : [...files.filter(it => it.name !== name), { name, size: 0, why }];
}

// ---- files

/** The files of a file that was given as a blob: itself, as a source, or those in it where it is an archive. */
export async function sourcesOf({ name, blob, why }) {
  if (why !== undefined) {
    return [{ name, size: 0, why }];
  }
  try {
    return await sourcesOfBlob(name, blob);
  } catch (error) {
    return [{ name, size: blob.size, why: saidOf(error) }];
  }
}

async function sourcesOfBlob(name, blob) {
  const isSmall = blob.size <= SMALL;
  const bytes = new Uint8Array(await (isSmall ? blob : blob.slice(0, BLOCK)).arrayBuffer());
  const begins = (...wanted) => wanted.every((byte, at) => bytes[at] === byte);
  if (begins(80, 75, 3, 4) || begins(80, 75, 5, 6)) {
    return filesOfArchive(name, blob, filesOfZip);
  }
  if (isEntryOfTar(bytes)) {
    return filesOfArchive(name, blob, filesOfTar);
  }
  const packing = Object.keys(UNKNOWN_PACKING).find(it => begins(...UNKNOWN_PACKING[it]));
  if (packing !== undefined) {
    return [{ name, size: blob.size, why: `it is packed by ${packing}, which no browser unpacks: unpack it, or pack it by gzip or as a zip` }];
  }
  const isPacked = begins(31, 139);
  if (isPacked && isEntryOfTar(await unpackedHead(blob))) {
    return filesOfPackedTar(name, blob);
  }
  return [{ name, size: blob.size, ...(isSmall ? { bytes } : { blob }), packed: isPacked ? "gzip" : undefined }];
}

// ---- folders

/** Sorted by the names that come first in each. */
const sortedByName = found => found.sort(([one], [other]) => (one < other ? -1 : one > other ? 1 : 0));

/** What is found in a folder, each with its name, or none of a name that the browser can't give. `folders` takes the paths of folders. */
async function* filesOfFolder(folder, path, folders) {
  folders?.add(path);
  let found;
  try {
    found = sortedByName(await folder.list());
  } catch (why) {
    yield { name: path, why: `${saidOf(why)}, so its files are missing` };
    return;
  }
  for (const [name, it] of found) {
    if (name === "") {
      yield { name: `${path}?${it.isFolder ? "/" : ""}`, why: UNNAMED };
    } else if (it.isFolder) {
      yield* filesOfFolder(it, `${path}${name}/`, folders);
    } else {
      yield await it.file().then(blob => ({ name: path + name, blob }), why => ({ name: path + name, why: saidOf(why) }));
    }
  }
}

/** A folder that a browser gives as an entry. */
class EntryFolder {
  isFolder = true;
  #entry;

  constructor(entry) {
    this.#entry = entry;
  }

  async list() {
    const reader = this.#entry.createReader();
    const found = [];
    for (;;) {
      const some = await new Promise((resolve, reject) => reader.readEntries(resolve, reject));
      if (some.length === 0) {
        return found;
      }
      found.push(...some.map(it => [it.name, it.isDirectory ? new EntryFolder(it)
        : { isFolder: false, file: () => new Promise((resolve, reject) => it.file(resolve, reject)) }]));
    }
  }
}

/** The same as a handle. Its list lacks names that the browser takes to be unsafe. */
class HandleFolder {
  isFolder = true;
  #handle;

  constructor(handle) {
    this.#handle = handle;
  }

  async list() {
    const found = [];
    for await (const [name, it] of this.#handle.entries()) {
      found.push([name, it.kind === "directory" ? new HandleFolder(it) : { isFolder: false, file: () => it.getFile() }]);
    }
    return found;
  }
}

/** The path of a file that the browser listed. There a backslash in its name is a slash. */
export function pathOf({ webkitRelativePath: path, name }) {
  return path === "" ? name : path.slice(0, path.length - name.length) + name;
}

/** The files of a dropped folder by its handle, and by the list of the browser, which comes later or not at all. The list has all names that are UTF-8 text. */
async function* filesOfHandle(handle, name, listed) {
  const folders = new Set();
  const walked = [];
  for await (const file of filesOfFolder(new HandleFolder(handle), name, folders)) {
    walked.push(file);
  }
  const list = await Promise.race([listed, new Promise(resolve => setTimeout(resolve, PATIENCE, null))]);
  const files = new Map((list ?? []).map(it => [pathOf(it), { name: pathOf(it), blob: it }]));
  const others = walked.filter(it => !files.has(it.name));
  yield* sortedByName([...files.values(), ...others].map(it => [it.name, it])).map(([, it]) => it);
  if (list === null) {
    yield { name, why: UNLISTED };
  }
  // Names that aren't UTF-8 text are known by the handle alone, and it hides some folders.
  const hidden = new Set([...files.keys()].map(it => it.slice(0, it.lastIndexOf("/") + 1)).filter(it => !folders.has(it)));
  if (hidden.size > 0) {
    const some = hidden.size === 1 ? [...hidden][0] : `${hidden.size} folders, as ${[...hidden][0]}`;
    yield { note: `Files whose names aren't UTF-8 text may be missing from ${some}, which the browser hides in part.` };
  }
}

/** The files of a dropped folder: by its entry where the browser reads that, or else by its handle. */
async function* filesOfDropped({ entry, handle, listed }) {
  const name = `${entry.name}/`;
  const folder = new EntryFolder(entry);
  const isReadable = await folder.list().then(() => true, () => false);
  const found = isReadable ? null : await handle;
  let count = 0;
  for await (const file of found ? filesOfHandle(found, name, listed) : filesOfFolder(folder, name)) {
    count++;
    yield file;
  }
  if (count === 0) {
    yield { note: `${name} has no files.` };
  }
}

/** Whether the browser reads dropped folders by their handles alone, as on a page that was opened from the disk. Then its own list of their files is wanted. */
export const wantsList = () => self.origin === "null" && typeof DataTransferItem.prototype.getAsFileSystemHandle === "function";

/**
 * The files that were dropped or pasted, and those below folders. What the browser says of them is gone with the event, so it is asked at once. `listed` is the
 * browser's own list of the files of the first one, which comes later, or null.
 */
export function filesOfTransfer(transfer, listed = null) {
  const items = [...transfer.items].filter(it => it.kind === "file").map((it, index) => {
    const entry = it.webkitGetAsEntry?.();
    if (!entry?.isDirectory) {
      return { file: it.getAsFile() };
    }
    return { entry, handle: it.getAsFileSystemHandle?.().catch(() => null), listed: index === 0 ? listed : null };
  });
  return (async function* () {
    for (const item of items) {
      if (item.file === undefined) {
        yield* filesOfDropped(item);
      } else {
        yield { name: item.file.name || "?", blob: item.file };
      }
    }
  })();
}
