/** The worker: it answers one request after another, so that the page never waits for the library. */

import { Refused, load } from "./golly_canon.mjs";
import { sha256 } from "./sha256.mjs";
import { Unreadable, checkSource, chunksOfSource, lineOf } from "./source.mjs";
import { treeOf } from "./tree.mjs";

/** The most different squares: a store of so many takes some 2.5 GB. */
const LIMIT = 2 ** 26;
/** The other forms in which each file that is read gets a key. */
const OTHERS = ["moved", "turned"];
let golly = null;

/** The text of the file that was read last, where its other keys are lacking. */
let last = null;

/** The keys of a pattern in these forms, and of those that it has not the kind of fault that says why. */
function keysIn(forms, text) {
  const [keys, lacking] = [{}, {}];
  for (const form of forms) {
    try {
      keys[form] = sha256(golly.canon(text, { form, limit: LIMIT }));
    } catch (why) {
      if (!(why instanceof Refused)) {
        throw why;
      }
      lacking[form] = why.kind;
    }
  }
  return { keys, lacking };
}

/** The canonical text of a source, and the warning of its file, or an empty text. */
async function textOf(source, tell) {
  const file = golly.stream({ limit: LIMIT });
  try {
    for await (const chunk of chunksOfSource(source, tell)) {
      file.feed(chunk);
    }
    return { text: file.finish(), warning: file.warning() ?? "" };
  } finally {
    file.close();
  }
}

/** A canonical text, with what there is to see of it. */
function opened(text) {
  const summary = golly.show(text, { limit: LIMIT });
  return { text, summary, tree: treeOf(text) };
}

const acts = {
  async load({ module, memory }) {
    golly = await load(module, { memory });
    return {};
  },

  /** Reads a file: its summary and its keys, or where it is to be shown its key as it is placed, its text and its tree. */
  async read({ source, isShown }, tell) {
    let read;
    try {
      read = await textOf(source, tell);
    } catch (why) {
      if (why instanceof Refused) {
        await checkSource(source); // a file that is damaged is no file that is refused
        why.found = why.line === null ? "" : await lineOf(source, why.line);
      }
      throw why;
    }
    const { text, warning } = read;
    const found = isShown ? opened(text) : { summary: golly.show(text, { limit: LIMIT }) };
    last = isShown ? text.slice() : null;
    const others = isShown ? { keys: {}, lacking: {} } : keysIn(OTHERS, text);
    const keys = { placed: sha256(text), ...others.keys };
    return { ...found, keys, lacking: others.lacking, warning, lacksKeys: last !== null };
  },

  /** The other keys of the file that was read last, so that it is shown before they are there. */
  async keys() {
    return keysIn(OTHERS, last);
  },

  /** The key of a file in the form phases. It has an act of its own, since many generations may have to be computed for it. */
  async phases({ source }, tell) {
    return keysIn(["phases"], (await textOf(source, tell)).text);
  },

  async rle({ text }) {
    return { text: golly.toRle(text, { limit: LIMIT }) };
  },

  /** The pattern of a text so many generations later. By a table they are made one after the other, and a refusal has how many there were. */
  async step({ text, table, generations }) {
    if (table === undefined) {
      return opened(golly.step(text, { generations, limit: LIMIT }));
    }
    let later = text;
    for (let made = 0n; made < generations; made++) {
      try {
        later = golly.step(later, { table, limit: LIMIT });
      } catch (why) {
        throw why instanceof Refused ? Object.assign(why, { made }) : why;
      }
    }
    return opened(later);
  },
};

/** What the page is told of an error. */
function toldOf(why) {
  if (why instanceof Refused) {
    const { message, kind, line, inTable, advice, found = "", made = 0n } = why;
    return { refused: { reason: message, kind, line, inTable, advice, found, made } };
  }
  if (why instanceof Unreadable) {
    return { unreadable: why.message };
  }
  return { fault: why.message };
}

/** The memory that is handed over and not copied. */
function handedOver({ text, tree }) {
  return [text, tree?.levels, tree?.parts, tree?.populations].filter(it => it !== undefined).map(it => it.buffer);
}

self.onmessage = async ({ data }) => {
  const { id, act } = data;
  try {
    const done = await acts[act](data, progress => self.postMessage({ id, progress }));
    self.postMessage({ id, done }, handedOver(done));
  } catch (why) {
    self.postMessage({ id, ...toldOf(why) });
  }
};
