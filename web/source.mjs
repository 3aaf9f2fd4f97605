/** A file as the worker reads it: a blob, which may be packed. */

const TABLE = Uint32Array.from({ length: 256 }, (_, byte) => {
  let sum = byte;
  for (let bit = 0; bit < 8; bit++) {
    sum = sum & 1 ? (sum >>> 1) ^ 0xedb88320 : sum >>> 1;
  }
  return sum;
});

/** The check sum of a zip over one more chunk. */
function added(sum, chunk) {
  let value = ~sum;
  for (let at = 0; at < chunk.length; at++) {
    value = (value >>> 8) ^ TABLE[(value ^ chunk[at]) & 255];
  }
  return ~value >>> 0;
}

/** A file whose content can't be had: it is damaged, or can't be read any more. */
export class Unreadable extends Error {}

/** A stream that counts the bytes that go through it. */
function counter(onProgress) {
  let length = 0;
  return new TransformStream({
    transform(chunk, controller) {
      length += chunk.length;
      onProgress?.(length);
      controller.enqueue(chunk);
    },
  });
}

/** Bytes, unpacked, as a stream. */
function unpacked(bytes, packed) {
  const { writable, readable } = new DecompressionStream(packed);
  const writer = writable.getWriter();
  for (const done of [writer.write(bytes), writer.close()]) {
    done.catch(() => {}); // the reader gets the error too
  }
  return readable;
}

/** The stream of a source as it is when it is unpacked. */
function streamOf({ blob, bytes, packed }, onProgress) {
  if (bytes !== undefined) {
    onProgress?.(bytes.length);
    return packed ? unpacked(bytes, packed) : new Response(bytes).body;
  }
  const stream = blob.stream().pipeThrough(counter(onProgress));
  return packed ? stream.pipeThrough(new DecompressionStream(packed)) : stream;
}

/**
 * The chunks of a source, which has a `blob` or `bytes`. `packed` is how it is packed: "gzip", "deflate-raw" or nothing. Where `sum` and `length` are
 * given its content has them.
 */
export async function* chunksOfSource(source, onProgress) {
  const { sum, length } = source;
  const reader = streamOf(source, onProgress).getReader();
  let found = 0;
  let size = 0;
  try {
    for (;;) {
      const { done, value } = await reader.read().catch(why => {
        throw new Unreadable(source.packed ? "it is damaged: it can't be unpacked" : `it can't be read: ${why.message}`);
      });
      if (done) {
        break;
      }
      if (sum !== undefined) {
        found = added(found, value);
        size += value.length;
      }
      yield value;
    }
  } finally {
    reader.cancel().catch(() => {}); // where nobody reads on
  }
  if (sum !== undefined && (found !== sum || size !== length)) {
    throw new Unreadable("it is damaged: its checksum doesn't match");
  }
}

/** Reads a compressed source to its end, where its checksum is. */
export async function checkSource(source) {
  if (source.packed !== undefined || source.sum !== undefined) {
    for await (const chunk of chunksOfSource(source)) {
      void chunk;
    }
  }
}

/** The front of a line of a source, by its number from 1, as text. */
export async function lineOf(source, number, most = 200) {
  let line = 1;
  const found = [];
  for await (const chunk of chunksOfSource(source)) {
    let at = 0;
    for (let end = chunk.indexOf(10); line < number && end >= 0; end = chunk.indexOf(10, at)) {
      at = end + 1;
      line++;
    }
    if (line === number) {
      const end = chunk.indexOf(10, at);
      found.push(...chunk.subarray(at, Math.min(end < 0 ? chunk.length : end, at + most + 1 - found.length)));
      if (end >= 0 || found.length > most) {
        break;
      }
    }
  }
  const text = new TextDecoder("latin1").decode(Uint8Array.from(found.slice(0, most))).replace(/[\0-\x08\x0b-\x1f\x7f]/g, "\u00b7");
  return found.length > most ? `${text} \u2026` : text;
}
