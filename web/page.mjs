/** The page: it takes files, has them read by the worker, and says which of them are one pattern. */

import { EXAMPLES } from "./examples.mjs";
import { Failed, Jobs, Stopped } from "./jobs.mjs";
import { Picture, coloursOfRule } from "./picture.mjs";
import { SENTENCES } from "./sentences.mjs";
import { PATIENCE, filesOfTransfer, pathOf, sourcesOf, wantsList } from "./archive.mjs";

const $ = id => document.getElementById(id);
/** What counts as one pattern: the words of each form. */
const FORMS = { placed: "As placed", moved: "Moved", turned: "Moved, turned or reflected", phases: "Moved, turned or reflected, in any phase" };
/** The greatest period that the library seeks for the form phases. */
const MOST_PERIOD = 128;
/** The columns of the list. */
const COLUMNS = ["Group", "File", "Rule", "Generation", "Cells", "Box"];
/** The most rows of the list, and the most bytes of a text, that are shown. */
const MOST_ROWS = 500;
const MOST_SHOWN = 1 << 16;
/** The most cells that aren't 0 for RLE and for a step by a rule table. */
const MOST_CELLS = 2n ** 20n;
/** The most generations in a step, which is the greatest number that the library takes. */
const MOST_GENERATIONS = 2n ** 64n - 1n;
/** After so many milliseconds of a step the page says that it is being made, and has a button that stops it. */
const LONG_STEP = 500;
/** The most generations, and the most bytes of their texts, that are kept for going back. */
const MOST_BACK = 1000;
const MOST_BACK_BYTES = 2 ** 26;

/** The most memory of the module, in MB: no more is ever taken. */
const MOST_MEMORY = 4095;

const memory = Number(new URLSearchParams(location.hash.slice(1)).get("memory"));
const jobs = new Jobs(memory > 0 ? Math.min(memory, MOST_MEMORY) * 2 ** 20 : undefined);
const picture = new Picture($("picture"), showPlace, showPoint);

/** The files, each with what is known of it: `summary`, `keys`, why keys are `lacking` and a `warning`, or `failed`. */
let files = [];
/** The rule tables, and the colours of their states, by the names of their rules. */
let tables = new Map();
let colours = new Map();
/** What is shown: its file, its text, its summary and its tree, those of the file itself, and those of the generations before. */
let shown = null;
let form = "placed";
let isChosen = false;
/** The run that goes on, an object of its own, or null. */
let currentRun = null;
/** The step that is being made: the text that it is made from, and its end. */
let currentStep = null;
/** How many generations a step has. */
let generations = 1n;
/** A number that is different after each stop, and each time all is cleared. */
let turn = 0;

// ---- words

/** A whole number, in groups of three digits. */
const grouped = number => number.toString().replace(/\B(?=(\d{3})+(?!\d))/g, "\u202f");

const counted = (number, one, many) => `${grouped(number)} ${number === 1 || number === 1n ? one : many}`;

function sizeOf(bytes) {
  return bytes < 1e6 ? `${grouped(Math.ceil(bytes / 1000))} KB` : `${(bytes / 1e6).toFixed(1)} MB`;
}

function boxOf({ box }) {
  return box === null ? "none" : `${grouped(box.width)} \u00d7 ${grouped(box.height)} at (${grouped(box.left)}, ${grouped(box.top)})`;
}

/** A power of two in words: its digits, or its exponent where it has many. */
function powerOf(k) {
  return k < 20 ? grouped(2 ** k) : `2${String(k).replace(/\d/g, it => "\u2070\u00b9\u00b2\u00b3\u2074\u2075\u2076\u2077\u2078\u2079"[it])}`;
}

/** What a kind of fault means, and what the file is, if it is something else than a pattern. The program has another limit of squares than the page. */
function sentenceOf(kind, advice = null) {
  const sentence = kind === "Full" ? `The pattern has more than ${powerOf(26)} different squares.` : (SENTENCES[kind] ?? "");
  return advice === null ? sentence : `${sentence} ${advice}`;
}

function showPlace({ x, y, zoom }) {
  const far = powerOf(Math.max(0, -zoom));
  const scale = zoom === 0 ? "one pixel per cell" : zoom > 0 ? `${2 ** zoom} pixels per cell` : `a pixel is ${far} \u00d7 ${far} cells`;
  $("place").textContent = `Centre: cell (${grouped(x)}, ${grouped(y)}); ${scale}.`;
}

function showPoint(point) {
  $("under").textContent = point === null ? "" : `Under the pointer: cell (${grouped(point.x)}, ${grouped(point.y)}), state ${point.state}.`;
}

function say(text) {
  $("said").textContent = text;
}

const ESCAPES = { "\\": "\\\\", "\n": "\\n", "\r": "\\r" };
/** Control characters, and those that turn the direction of text. */
const HIDDEN = /[\0-\x1f\x7f-\x9f\u061c\u200e\u200f\u2028-\u202e\u2066-\u2069]/g;
/** The bytes of a name that isn't UTF-8 text, as archive.mjs has them. */
const BYTES = /[\udc80-\udcff]/gu;

/** A text in which each such byte is written as `\xHH`. */
const readableText = text => text.replace(BYTES, it => hexadecimal(it.charCodeAt(0) & 0xff));

/** A text with hidden characters as the bytes that they have in UTF-8, each as `\xHH`. */
const shownText = text => readableText(text).replace(HIDDEN, it => ESCAPES[it] ?? Array.from(new TextEncoder().encode(it), hexadecimal).join(""));

const hexadecimal = byte => `\\x${byte.toString(16).padStart(2, "0")}`;

/** A file's name as it is shown, and as the program writes it on a terminal: a backslash, a line feed and a carriage return come after a backslash. */
const shownName = name => shownText(name.replaceAll("\\", ESCAPES["\\"]));

/** One file in a sentence, for who doesn't see the page. */
function spoken(file) {
  if (file.failed !== undefined) {
    const { refused, unreadable, message } = file.failed;
    return `${shownName(file.name)} ${unreadable === undefined ? "is refused" : "isn't read"}: ${message}.${refused ? ` ${sentenceOf(refused.kind, refused.advice)}` : ""}`;
  }
  const { rule, generation, population } = file.summary;
  const what = `${counted(population, "cell", "cells")}, ${rule}, generation ${grouped(generation)}`;
  return `${shownName(file.name)}: ${what}.${file.warning ? ` Warning: ${file.warning}.` : ""}`;
}

/** An element with a text and these properties. */
function made(name, text = "", properties = {}) {
  return Object.assign(document.createElement(name), { textContent: text, ...properties });
}

function button(text, onClick, properties = {}) {
  const it = made("button", text, { type: "button", ...properties });
  it.addEventListener("click", onClick);
  return it;
}

// ---- taking files

let taken = Promise.resolve();

/** Takes files after those that were given before. */
function take(source) {
  const mine = turn;
  taken = taken.then(() => (mine === turn ? takeNow(source, mine) : undefined));
}

async function takeNow(source, mine) {
  const given = [];
  try {
    say("");
    working("Looking at the files", null);
    for await (const file of source) {
      if (mine !== turn) {
        return;
      }
      if (file.note === undefined) {
        given.push(file);
      } else {
        note(file.note);
      }
    }
    await readAll(given, mine);
    if (isChosen && form === "phases") {
      await keyPhases(mine);
    }
  } catch (why) {
    if (!(why instanceof Stopped)) {
      say(`That did not work: ${why.message.replace(/\.+$/, "")}.`);
    }
  } finally {
    if (mine === turn) {
      notWorking();
      showCompared();
      if (files.length === 1 && given.length > 0 && (files[0].failed ?? files[0].keys) !== undefined && $("said").textContent === "") {
        say(spoken(files[0]));
      }
    }
  }
}

/** Reads files one after another, and those in zips, with a bar over the bytes of all of them. The first one that is a pattern is shown. */
async function readAll(given, mine) {
  const whole = given.reduce((sum, { blob }) => sum + (blob?.size ?? 0), 0);
  let before = 0;
  for (const [index, file] of given.entries()) {
    const sources = await sourcesOf(file);
    let within = 0; // a zip has some bytes beside those of its files
    for (const [place, source] of sources.entries()) {
      if (mine !== turn) {
        return;
      }
      const [number, count] = sources.length > 1 ? [place, sources.length] : [index, given.length];
      const name = shownName(source.name);
      const about = count > 1 ? `${name} (${grouped(number + 1)} of ${grouped(count)})` : name;
      const at = before + within;
      await readOne(source, bytes => working(`${bytes < source.size ? "Reading" : "Computing the canonical text of"} ${about}`, (at + bytes) / whole));
      within += source.size;
    }
    before += file.blob?.size ?? 0;
  }
}

/** Reads a source: a rule table, or a file that is a pattern or is refused. */
async function readOne(file, onProgress) {
  onProgress(0);
  if (isTable(file)) {
    await takeTable(file);
  } else {
    await readPattern(file, onProgress);
  }
}

async function readPattern(file, onProgress) {
  if (file.why !== undefined) {
    unread(file, file.why);
    return;
  }
  files.push(file);
  const isShown = shown === null;
  try {
    const found = await jobs.ask("read", { source: sourceOf(file), isShown }, onProgress);
    Object.assign(file, { summary: found.summary, keys: found.keys, lacking: found.lacking, warning: found.warning });
    if (isShown) {
      show(file, found);
    }
    if (found.lacksKeys) {
      working(`Computing the other keys of ${shownName(file.name)}`, null);
      const others = await jobs.ask("keys");
      Object.assign(file.keys, others.keys);
      Object.assign(file.lacking, others.lacking);
    }
    if (file === shown?.file) {
      showSummary();
    }
  } catch (why) {
    if (!(why instanceof Failed)) {
      files = files.filter(it => it !== file);
      throw why;
    }
    file.failed = why;
    if (files.length === 1) {
      showRefused(file);
    }
  }
}

/** Lists a file that isn't read, and why. */
function unread(file, why) {
  files.push(Object.assign(file, { failed: new Failed({ unreadable: why }) }));
  if (files.length === 1) {
    showRefused(file);
  }
}

/** A file as it is sent to the worker. */
function sourceOf({ blob, bytes, packed, sum, length }) {
  return { blob, bytes: bytes?.slice(), packed, sum, length };
}

/** Whether a file is a rule table, by its name or its first word. */
function isTable({ name, bytes, packed, why }) {
  return why === undefined && (/\.rule$/i.test(name) || (!packed && new TextDecoder().decode(bytes?.subarray(0, 5)) === "@RULE"));
}

async function takeTable(file) {
  const stream = (file.blob ?? new Blob([file.bytes])).stream();
  const unpacked = file.packed ? stream.pipeThrough(new DecompressionStream(file.packed)) : stream;
  let bytes;
  try {
    bytes = new Uint8Array(await new Response(unpacked).arrayBuffer());
  } catch (why) {
    unread(file, file.packed ? "it is damaged: it can't be unpacked" : `it can't be read: ${why.message}`);
    return;
  }
  const name = /^@RULE[ \t]+(\S+)/m.exec(new TextDecoder("latin1").decode(bytes.subarray(0, MOST_SHOWN)))?.[1];
  if (name === undefined) {
    unread(file, "it is no rule file: it has no line @RULE with a name");
    return;
  }
  tables.set(name, bytes);
  colours.set(name, coloursOfRule(bytes));
  const hasTable = /^@TABLE/m.test(new TextDecoder("latin1").decode(bytes));
  const isColoured = colours.get(name).size > 0;
  say(hasTable ? `Step and Run now use the rule table of ${name}${isColoured ? ", and the picture uses its colours" : ""}.`
    : `The rule file of ${name} has no @TABLE, so it can't be used for a step.${isColoured ? " The picture uses its colours." : ""}`);
  if (shown !== null) {
    picture.show(shown.tree, shown.summary.box, false, colours.get(shown.summary.rule));
  }
  showSteps();
}

function takeText(text, name) {
  take((async function* () {
    yield { name, blob: new Blob([text]) };
  })());
}

/** Says what a user has to know of the files that the browser gave. */
function note(said) {
  const notes = $("notes");
  const text = shownText(said);
  if (![...notes.children].some(it => it.textContent === text)) {
    notes.append(made("p", text));
  }
}

// ---- what is at work

function working(what, share) {
  $("working").hidden = false;
  $("doing").textContent = what;
  if (share === null || Number.isNaN(share)) {
    $("bar").removeAttribute("value");
  } else {
    $("bar").value = share;
  }
}

function notWorking() {
  $("working").hidden = true;
}

/** Ends what is at work. What was read stays. */
function stop() {
  turn++;
  jobs.stop();
  pause();
  notWorking();
  files = files.filter(it => it.keys !== undefined || it.failed !== undefined);
  say("Stopped.");
  if (shown !== null) {
    showNow();
  }
  showCompared();
}

function clear() {
  turn++;
  jobs.stop();
  pause();
  notWorking();
  files = [];
  tables = new Map();
  colours = new Map();
  shown = null;
  isChosen = false;
  say("");
  $("notes").replaceChildren();
  for (const id of ["compared", "refused", "shown"]) {
    $(id).hidden = true;
  }
  $("clear").hidden = true;
}

// ---- comparing

/** The files that are one pattern in a form, each group with two or more. */
function groupsIn(which) {
  const groups = new Map();
  for (const file of files) {
    const key = file.keys?.[which];
    if (key !== undefined && !groups.get(key)?.push(file)) {
      groups.set(key, [file]);
    }
  }
  return [...groups.values()].filter(it => it.length > 1);
}

/** The forms that can be chosen: those in which a file has a key, and phases, whose keys are computed when that is chosen. */
function formsThere() {
  return Object.keys(FORMS).filter(it => files.some(file => file.keys?.[it] !== undefined || (it === "phases" && file.keys !== undefined)));
}

/** Whether the key of a file in the form phases was computed, or refused; and whether that is still to be done. */
const isPhased = ({ keys, lacking }) => keys?.phases !== undefined || lacking?.phases !== undefined;
const lacksPhases = file => file.keys !== undefined && !isPhased(file);

/** Has the keys in the form phases computed of the files that lack them. */
async function keyPhases(mine) {
  const unkeyed = files.filter(lacksPhases);
  for (const [index, file] of unkeyed.entries()) {
    if (mine !== turn) {
      return;
    }
    const count = unkeyed.length > 1 ? ` (${grouped(index + 1)} of ${grouped(unkeyed.length)})` : "";
    working(`Seeking the period of ${shownName(file.name)}${count}`, index / unkeyed.length);
    try {
      const { keys, lacking } = await jobs.ask("phases", { source: sourceOf(file) });
      Object.assign(file.keys, keys);
      file.lacking = { ...file.lacking, ...lacking };
    } catch (why) {
      if (!(why instanceof Failed)) {
        throw why;
      }
      file.lacking = { ...file.lacking, phases: why.message };
    }
    if (file === shown?.file) {
      showSummary();
    }
  }
}

/** Compares the files in a form. Where that is phases, the keys that are lacking are computed first, after the files that are being taken. */
function compareIn(which) {
  const choose = () => {
    [form, isChosen] = [which, true];
    showCompared();
  };
  if (which !== "phases" || !files.some(lacksPhases)) {
    choose();
    return;
  }
  const mine = turn;
  taken = taken.then(async () => {
    try {
      await keyPhases(mine);
      if (mine === turn) {
        choose();
      }
    } catch (why) {
      if (!(why instanceof Stopped)) {
        say(`That did not work: ${why.message.replace(/\.+$/, "")}.`);
      }
    } finally {
      if (mine === turn) {
        notWorking();
      }
    }
  });
}

function showCompared() {
  $("clear").hidden = files.length === 0 && $("notes").childElementCount === 0;
  $("compared").hidden = files.length < 2;
  if (files.length < 2) {
    return;
  }
  const forms = formsThere();
  if (!isChosen) {
    form = forms.find(it => groupsIn(it).length > 0) ?? "placed";
  }
  const groups = groupsIn(form);
  $("answer").textContent = answerOf(groups);
  $("why").textContent = [whyOf(groups), warned()].filter(it => it !== "").join(" ");
  $("forms").replaceChildren(...forms.map(it => {
    const count = it === "phases" && files.some(lacksPhases) ? "" : ` (${counted(groupsIn(it).length, "group", "groups")})`;
    const choice = button(`${FORMS[it]}${count}`, () => compareIn(it));
    choice.ariaPressed = String(it === form);
    return choice;
  }));
  showList(groups);
}

/** What is added to a sentence on files that are one pattern in a form, and on those that are compared in it. */
const HOW = { placed: "", moved: ", at different places", turned: ", turned or reflected", phases: ", in different phases or generations" };
const WHATEVER = { placed: "", moved: ", wherever they are", turned: ", wherever they are and however they are turned",
  phases: ", wherever they are, however they are turned, and in any phase" };

/** The first form in which the files of a group are one pattern. */
const formOf = group => Object.keys(FORMS).find(it => group.every(file => file.keys[it] === group[0].keys[it]));

function answerOf(groups) {
  const patterns = files.filter(it => it.keys !== undefined);
  if (groups.length === 1 && groups[0].length === files.length) {
    return `${files.length === 2 ? "Both" : `All ${grouped(files.length)}`} files are one pattern${HOW[formOf(groups[0])]}.`;
  }
  if (groups.length === 0) {
    const what = patterns.length === 2 ? "The files are two patterns" : "No two files are the same pattern";
    const all = files.some(it => it.failed?.unreadable !== undefined) ? "each was refused or couldn't be read" : "all were refused";
    const few = patterns.length === 1 ? "Only one of the files is a pattern." : `None of the files is a pattern: ${all}.`;
    return patterns.length < 2 ? few : `${what}${WHATEVER[form]}.`;
  }
  const duplicates = groups.reduce((sum, it) => sum + it.length, 0);
  const how = `${WHATEVER[form]}: ${counted(groups.length, "group", "groups")}`;
  return `${grouped(duplicates)} of ${grouped(files.length)} files are the same pattern as another file${how}.`;
}

/** Whether files are probably meant otherwise than they are read, in a sentence. */
function warned() {
  const count = files.filter(it => it.warning).length;
  return count > 0 ? `Warning: ${counted(count, "file doesn't seem", "files don't seem")} to hold the pattern that was meant; see the list.` : "";
}

/** What two files differ in, or by how much the one is moved; of more files how many were refused, weren't read, or can't be compared in the form. */
function whyOf(groups) {
  const unread = files.filter(it => it.failed?.unreadable !== undefined);
  const folders = unread.filter(it => it.name.endsWith("/")).length;
  const unreadable = unread.length - folders;
  const refused = files.filter(it => it.failed !== undefined).length - unread.length;
  const without = files.filter(it => it.failed === undefined && it.keys[form] === undefined).length;
  if (files.length !== 2 || refused + unread.length + without > 0) {
    const said = [refused > 0 ? `${counted(refused, "file was", "files were")} refused.` : "",
      unreadable > 0 ? `${counted(unreadable, "file wasn't", "files weren't")} read; see the list.` : "",
      folders > 0 ? `Files are missing from ${counted(folders, "folder", "folders")}, or may be; see the list.` : "",
      without > 0 ? `${counted(without, "file has", "files have")} no key for this form, and can't be compared.` : ""];
    return said.filter(it => it !== "").join(" ");
  }
  const [one, other] = files.map(it => it.summary);
  if (groups.length === 0 && form === "phases" && one.rule === other.rule) {
    return `They have the same rule, but the one isn't a phase of the other. Periods up to ${MOST_PERIOD} generations are sought.`;
  }
  if (groups.length === 0) {
    const names = { rule: "rules", generation: "generations", population: "numbers of cells" };
    const differing = Object.keys(names).find(it => one[it] !== other[it]);
    if (differing) {
      return `They have different ${names[differing]}: ${one[differing]} and ${other[differing]}.`;
    }
    const boxes = [one, other].map(boxOf);
    return boxes[0] !== boxes[1] ? `Their boxes are ${boxes.join(" and ")}.` : "They have the same rule, generation and box, but different cells.";
  }
  const found = formOf(groups[0]);
  if (found === "placed") {
    return "They name the same rule and the same generation, and give each cell of the plane the same state.";
  }
  if (found === "moved") {
    const [right, down] = [other.box.left - one.box.left, other.box.top - one.box.top];
    const ways = [
      [right, "column", "columns", "east", "west"],
      [down, "row", "rows", "south", "north"],
    ].filter(([by]) => by !== 0n);
    const said = ways.map(([by, unit, units, there, back]) => `${counted(by > 0n ? by : -by, unit, units)} to the ${by > 0n ? there : back}`);
    return `The second one is ${said.join(" and ")} of the first.`;
  }
  return found === "phases" ? "They name the same rule. Their phases and their generations don't count here."
    : "They name the same rule and the same generation.";
}

/** A colour for a group, apart from those of the groups before it. */
const colourOf = index => `hsl(${(index * 137.5 + 40) % 360} 75% 72%)`;

function showList(groups) {
  const numbers = new Map(groups.flatMap((group, index) => group.map(file => [file, index])));
  const order = file => numbers.get(file) ?? (file.failed === undefined ? groups.length : groups.length + 1);
  const sorted = [...files].sort((one, other) => order(one) - order(other));
  $("list").tBodies[0].replaceChildren(...sorted.slice(0, MOST_ROWS).map(file => rowOf(file, numbers.get(file))));
  $("more").textContent = sorted.length > MOST_ROWS ? `And ${grouped(sorted.length - MOST_ROWS)} more, which the saved table has.` : "";
}

/** A cell of the list, under its column. */
function cellOf(kind, column, text, properties = {}) {
  const cell = made(kind, text, properties);
  cell.dataset.column = COLUMNS[column];
  return cell;
}

function rowOf(file, group) {
  const row = document.createElement("tr");
  row.setAttribute("role", "row");
  const mark = made("span", group === undefined ? "" : String(group + 1), { className: "group" });
  if (group !== undefined) {
    mark.style.setProperty("--of-group", colourOf(group));
  }
  const name = button(shownName(file.name), () => choose(file), { className: "link" });
  const cells = [cellOf("td", 0, "", { className: group === undefined ? "none" : "" }), cellOf("th", 1, "", { scope: "row" })];
  cells[0].append(mark);
  cells[1].append(name);
  if (file.failed !== undefined) {
    cells.push(cellOf("td", 2, file.failed.message, { className: "bad", colSpan: 4 }));
    cells[2].dataset.column = file.failed.unreadable === undefined ? "Refused" : "Not read";
  } else {
    const { rule, generation, population } = file.summary;
    cells.push(...[rule, grouped(generation), grouped(population), boxOf(file.summary)].map((it, index) => cellOf("td", index + 2, it)));
    if (file.warning) {
      cells[1].append(made("span", ` Warning: ${file.warning}.`, { className: "bad" }));
    }
  }
  for (const cell of cells) {
    cell.setAttribute("role", cell.tagName === "TH" ? "rowheader" : "cell");
  }
  if (file === shown?.file) {
    row.className = "chosen";
    name.ariaCurrent = "true";
  }
  row.append(...cells);
  return row;
}

/** Why a file has no key in a form, in words. */
function whyNoKey(file, which) {
  const kind = file.lacking?.[which];
  if (kind === undefined) {
    return "The key isn't computed yet, or its computation was stopped.";
  }
  if (which === "phases" && kind === "OutOfPlane") {
    return "There is no key, because the pattern leaves the plane before its period is found.";
  }
  if (kind === "Full") {
    const more = which === "phases" ? `, or seeking its period needs more than ${powerOf(26)}` : "";
    return `There is no key, because the moved pattern has more than ${powerOf(21)} different squares${more}.`;
  }
  return `There is no key: ${kind}. ${sentenceOf(kind)}`.trim();
}

/** The list as a table with commas: a line for each file, those of one pattern with one number, and its key in the form that is shown. */
function tableOf() {
  const numbers = new Map(groupsIn(form).flatMap((group, index) => group.map(file => [file, index + 1])));
  // A text that begins as a formula is none to a reader of tables where an apostrophe comes first. One comes before an apostrophe too, so that the first one
  // can always be taken away.
  const quoted = text => `"${(/^[=+\-@\t\r']/.test(text) ? `'${text}` : text).replaceAll('"', '""')}"`;
  const lines = files.map(file => {
    const { rule, generation, population, box } = file.summary ?? {};
    const place = box ? [box.left, box.top, box.width, box.height] : ["", "", "", ""];
    const key = file.keys?.[form] ?? "";
    const notes = [file.warning ? `${file.warning}.` : "", file.failed === undefined && key === "" ? whyNoKey(file, form) : ""].filter(it => it !== "").join(" ");
    return [numbers.get(file) ?? "", quoted(readableText(file.name)), quoted(rule ?? ""), generation ?? "", population ?? "", ...place, form, key,
      quoted(file.failed?.message ?? ""), quoted(notes)].join(",");
  });
  return ["group,file,rule,generation,population,left,top,width,height,form,key,refused,note", ...lines].join("\r\n") + "\r\n";
}

// ---- showing a file

async function choose(file) {
  if (file.failed !== undefined) {
    showRefused(file);
    say(spoken(file));
    return;
  }
  const mine = turn;
  const doing = `Reading ${shownName(file.name)}`;
  pause();
  working(doing, 0);
  try {
    const found = await jobs.ask("read", { source: sourceOf(file), isShown: true }, bytes => working(doing, bytes / file.size));
    show(file, found);
    showCompared();
    say(spoken(file));
  } catch (why) {
    if (why instanceof Failed) {
      say(`${shownName(file.name)} can't be read any more: ${why.message}.`);
    }
  } finally {
    if (mine === turn) {
      notWorking();
    }
  }
}

function showRefused(file) {
  const { refused, unreadable } = file.failed;
  $("shown").hidden = true;
  $("refused").hidden = false;
  $("refused-name").textContent = `${shownName(file.name)} ${unreadable === undefined ? "is refused" : "isn't read"}`;
  if (refused === undefined) {
    $("refused-reason").textContent = unreadable === undefined ? "Fault" : "Unreadable";
    $("refused-why").textContent = unreadable ?? `The library stopped (${file.failed.fault}); it was loaded anew. The page can't say what the file is.`;
  } else {
    $("refused-reason").textContent = refused.reason;
    $("refused-why").textContent = sentenceOf(refused.kind, refused.advice);
  }
  const line = refused?.found ?? "";
  $("refused-line").hidden = line === "";
  $("refused-line").textContent = line === "" ? "" : `${refused.line}: ${line}`;
}

/** Shows a file with what was read of it. */
function show(file, { text, summary, tree }) {
  shown = { file, text, summary, tree, first: { text, summary, tree }, before: [], isRle: false, rle: null };
  $("refused").hidden = true;
  $("shown").hidden = false;
  $("name").textContent = shownName(file.name);
  $("warning").hidden = !file.warning;
  $("warning").textContent = file.warning ? `Warning: ${file.warning}.` : "";
  showPattern(true);
}

/** Shows what is there of the pattern; it is a new one where it is of another file. */
function showPattern(isNew) {
  const { summary, tree } = shown;
  $("picture").ariaLabel = `Picture of the pattern: ${counted(summary.population, "cell", "cells")}, generation ${summary.generation}`;
  picture.show(tree, summary.box, isNew, colours.get(summary.rule));
  $("back").hidden = isOfFile();
  showSummary();
  showSteps();
  showNow();
  showText();
}

/** Whether what is shown is the pattern of the file, and not one after steps. */
const isOfFile = () => shown.text === shown.first.text;

function showSummary() {
  const { summary, file } = shown;
  const rows = [["Rule", summary.rule], ["Generation", grouped(summary.generation)], ["Cells", grouped(summary.population)], ["Box", boxOf(summary)],
    ["Squares in the text", grouped(summary.nodes)]];
  if (isOfFile()) {
    rows.push(["Key", file.keys.placed]);
    for (const it of isPhased(file) ? ["moved", "turned", "phases"] : ["moved", "turned"]) {
      rows.push(file.keys[it] === undefined ? [`No key, ${it}`, whyNoKey(file, it)] : [`Key, ${it}`, file.keys[it]]);
    }
  }
  const termOf = ([name, value]) => [made("dt", name), made("dd", value, { className: name.startsWith("Key") ? "key" : "" })];
  $("summary").replaceChildren(...rows.flatMap(termOf));
}

// ---- its text

async function showText() {
  const of = shown;
  const { text, summary, isRle } = shown;
  $("as-canonical").ariaPressed = String(!isRle);
  $("as-rle").ariaPressed = String(isRle);
  $("as-rle").disabled = summary.population > MOST_CELLS;
  if (isRle && shown.rle === null) {
    try {
      const rle = (await jobs.ask("rle", { text })).text;
      if (of !== shown || of.text !== text) {
        return;
      }
      shown.rle = rle;
    } catch (why) {
      if (why instanceof Failed) {
        $("written").value = why.message;
      }
      return;
    }
  }
  const bytes = isRle ? shown.rle : text;
  $("written").value = new TextDecoder().decode(bytes.subarray(0, MOST_SHOWN));
  $("written-note").textContent = bytes.length > MOST_SHOWN ? `The first 64 KB of ${sizeOf(bytes.length)}; Save has all of it.` : "";
  $("copy").disabled = bytes.length > 2 ** 24;
}

function written() {
  return shown.isRle ? shown.rle : shown.text;
}

function saved(name, bytes, type = "text/plain") {
  const address = URL.createObjectURL(new Blob([bytes], { type }));
  made("a", "", { href: address, download: name }).click();
  setTimeout(() => URL.revokeObjectURL(address), 60000);
}

async function copy() {
  const text = new TextDecoder().decode(written());
  try {
    await navigator.clipboard.writeText(text);
  } catch {
    // The browser has no clipboard on this page: the text is marked, and copied as by the keyboard.
    $("written").value = text;
    $("written").select();
    document.execCommand("copy");
  }
  say("Copied.");
}

function nameOfText() {
  const name = shown.file.name.split("/").at(-1).replace(/\.(gz|rle|mc|txt)$/gi, "");
  const generation = isOfFile() ? "" : ` at ${shown.summary.generation}`;
  return `${name}${generation}.${shown.isRle ? "rle" : "mc"}`;
}

// ---- steps

/** The rule table that a step takes: none under a B/S rule. */
function tableOfShown() {
  return tables.get(shown.summary.rule);
}

const isNamed = ({ rule }) => !/^B[0-8]*\/S[0-8]*V?$/.test(rule);

/** Takes the number of generations in a step from its field. Returns whether that has one. */
function takeGenerations() {
  const [, digits, exponent] = /^\s*(?:(\d+)|2\s*\^\s*(\d{1,2}))\s*$/.exec($("generations").value) ?? [];
  const number = exponent === undefined ? BigInt(digits ?? 0) : 2n ** BigInt(exponent);
  const isRight = number >= 1n && number <= MOST_GENERATIONS;
  $("generations").ariaInvalid = String(!isRight);
  if (isRight) {
    generations = number;
  } else {
    pause();
    showNow(`Write how many generations a step has: a whole number from 1 to ${powerOf(64)} \u2212 1, or a power of two such as 2^20.`);
  }
  return isRight;
}

/** Gives a step another number of generations, or the nearest one that it can have. */
function giveGenerations(number) {
  const within = number < 1n ? 1n : number > MOST_GENERATIONS ? MOST_GENERATIONS : number;
  const exponent = within.toString(2).length - 1;
  $("generations").value = exponent >= 20 && within === 2n ** BigInt(exponent) ? `2^${exponent}` : within.toString();
  takeGenerations();
}

function showSteps() {
  if (shown === null) {
    return;
  }
  const lacks = isNamed(shown.summary) && tableOfShown() === undefined;
  const isLarge = isNamed(shown.summary) && shown.summary.population > MOST_CELLS;
  for (const id of ["step", "run"]) {
    $(id).disabled = lacks || isLarge;
  }
  $("step-back").disabled = shown.before.length === 0;
  $("no-step").textContent = lacks
    ? `To step this pattern, drop the rule file of ${shown.summary.rule}, a .rule file with a @TABLE.`
    : isLarge ? `Only a pattern of up to ${powerOf(20)} cells can be stepped by a rule table.` : "";
}

/** Says which generation is shown, and more about it. */
function showNow(more = "") {
  const { generation, population } = shown.summary;
  $("now").textContent = [`Generation ${grouped(generation)}: ${counted(population, "cell", "cells")}.`, more].filter(it => it !== "").join(" ");
}

/** Makes a step, and says why if there is none. Returns whether there was one. */
async function step() {
  const why = await stepped();
  if (why !== null && why !== "") {
    pause();
    showNow(why);
  }
  return why === null;
}

/** Makes a step from what is shown, unless it is being made already. Returns null, or why there was none, or nothing where something else is shown since. */
function stepped() {
  const { text } = shown;
  if (currentStep?.text !== text) {
    const mine = { text };
    currentStep = mine;
    const late = setTimeout(() => {
      if (currentStep === mine && shown?.text === text) {
        $("stop-step").hidden = false;
        showNow("The next step is being computed.");
      }
    }, LONG_STEP);
    mine.end = stepNow(shown, generations).finally(() => {
      clearTimeout(late);
      if (currentStep === mine) {
        currentStep = null;
        $("stop-step").hidden ||= currentRun === null;
      }
    });
  }
  return currentStep.end;
}

async function stepNow(of, number) {
  const { text, summary, tree } = of;
  // Meanwhile another file, the pattern of the file again, or nothing may have come to be shown.
  const isShown = () => of === shown && of.text === text;
  try {
    const found = await jobs.ask("step", { text, table: tableOfShown(), generations: number });
    if (!isShown()) {
      return "";
    }
    keepBefore({ text, summary, tree });
    Object.assign(shown, found, { rle: null });
    showPattern(false);
    say("");
    return null;
  } catch (why) {
    return isShown() && why instanceof Failed ? whyNoStep(why, summary.generation + number) : "";
  }
}

/** Why there is no step to a generation, in words. */
function whyNoStep({ refused, fault }, generation) {
  if (refused === undefined) {
    return `The library stopped (${fault}); it was loaded anew.`;
  }
  const { kind, reason, advice, made } = refused;
  const sentence = kind === "Full" ? `The step needs more than ${powerOf(26)} different squares.` : sentenceOf(kind, advice);
  return `There is no generation ${grouped(generation)}: ${reason}${made > 0n ? `, after ${counted(made, "generation", "generations")}` : ""}. ${sentence}`;
}

/** Keeps a generation for going back, and drops the oldest ones where they come to too much. */
function keepBefore(generation) {
  const { before } = shown;
  before.push(generation);
  let bytes = before.reduce((sum, it) => sum + it.text.length, 0);
  while (before.length > MOST_BACK || (bytes > MOST_BACK_BYTES && before.length > 1)) {
    bytes -= before.shift().text.length;
  }
}

/** Shows the generation before, where it is kept. */
function stepBack() {
  pause();
  if (shown.before.length > 0) {
    Object.assign(shown, shown.before.pop(), { rle: null });
    showPattern(false);
  }
}

/** Notes the run that goes on, or that there is none. Meanwhile its generations aren't read out, and the button that stops a long step stays. */
function running(run) {
  currentRun = run;
  const isOn = run !== null;
  $("run").ariaPressed = String(isOn);
  $("run").textContent = isOn ? "Pause" : "Run";
  $("now").ariaLive = isOn ? "off" : "polite";
  $("stop-step").hidden ||= !isOn && currentStep === null;
}

/** Ends the run, if there is one. */
function pause() {
  running(null);
}

/** Makes one step after another, until the user pauses or there is no step. */
async function run() {
  const mine = {};
  const of = shown;
  running(mine);
  while (currentRun === mine && of === shown) {
    const begun = performance.now();
    if (!(await step())) {
      break;
    }
    await new Promise(resolve => setTimeout(resolve, Math.max(0, Number($("speed").value) - (performance.now() - begun))));
  }
  if (currentRun === mine) {
    pause();
  }
}

function back() {
  pause();
  Object.assign(shown, shown.first, { before: [], rle: null });
  showPattern(false);
}

// ---- what the user does

function chosen(input) {
  const given = [...input.files].map(it => ({ name: pathOf(it), blob: it }));
  input.value = "";
  take((async function* () {
    yield* given;
    if (input.webkitdirectory) {
      const whose = given.length === 0 ? "The folder" : `${given[0].name.split("/")[0]}/`;
      yield { note: `${whose} has ${counted(given.length, "file", "files")}, as far as the browser says. It may leave out files whose names aren't UTF-8 ` +
        "text: drop the folder, and each of them is listed." };
    }
  })());
}

function addListeners() {
  const acts = {
    open: () => $("files").click(),
    "open-folder": () => $("folder").click(),
    clear,
    stop,
    "zoom-in": () => picture.zoom(1),
    "zoom-out": () => picture.zoom(-1),
    fit: () => picture.fit(),
    plane: () => picture.plane(),
    "step-back": stepBack,
    step: () => takeGenerations() && step(),
    run: () => {
      if (currentRun !== null) {
        pause();
        showNow("Paused.");
      } else if (takeGenerations()) {
        run();
      }
    },
    halve: () => giveGenerations(generations / 2n),
    double: () => giveGenerations(generations * 2n),
    "stop-step": () => {
      stop();
      $("step").focus();
    },
    back,
    copy,
    save: () => saved(nameOfText(), written()),
    "save-table": () => saved("patterns.csv", tableOf(), "text/csv"),
    paste: () => {
      $("typed").hidden = !$("typed").hidden;
      $("paste").ariaExpanded = String(!$("typed").hidden);
      $("text").focus();
    },
    "as-canonical": () => {
      shown.isRle = false;
      showText();
    },
    "as-rle": () => {
      shown.isRle = true;
      showText();
    },
  };
  for (const [id, act] of Object.entries(acts)) {
    $(id).addEventListener("click", act);
  }
  $("files").addEventListener("change", event => chosen(event.target));
  $("folder").addEventListener("change", event => chosen(event.target));
  $("generations").addEventListener("change", takeGenerations);
  $("stepping").addEventListener("submit", event => {
    event.preventDefault();
    $("step").click();
  });
  $("typed").addEventListener("submit", event => {
    event.preventDefault();
    takeText($("text").value, nameOfPasted());
    $("text").value = "";
  });
  addDropping();
  document.addEventListener("paste", event => {
    if (event.target instanceof HTMLTextAreaElement && !event.target.readOnly) {
      return;
    }
    const transfer = event.clipboardData;
    if (transfer.files.length > 0) {
      take(filesOfTransfer(transfer));
    } else if (transfer.getData("text/plain") !== "") {
      takeText(transfer.getData("text/plain"), nameOfPasted());
    }
  });
}

function nameOfPasted() {
  return `pasted ${files.filter(it => it.name.startsWith("pasted ")).length + 1}`;
}

/** The files that the browser lists of what was dropped on the input for a folder. */
function listOfDropped() {
  return new Promise(resolve => {
    const input = $("dropped");
    input.addEventListener("change", () => {
      resolve([...input.files]);
      input.value = "";
    }, { once: true });
  });
}

/** Whether files are dragged that the browser hands to an input alone, and not to the page, as WebKit does on Linux. */
const isForInput = ({ types }) => types.includes("text/uri-list") && !types.includes("Files") && !types.includes("text/plain");

/** The files that come to the input for a folder, or that none come. */
async function* filesOfInput(listed) {
  const list = await Promise.race([listed, new Promise(resolve => setTimeout(resolve, PATIENCE, null))]);
  yield* (list ?? []).map(it => ({ name: pathOf(it), blob: it }));
  yield { note: list === null
    ? "The browser doesn't hand over what was dropped: use Open files or Open a folder."
    : `The browser handed over ${counted(list.length, "file", "files")}. It may leave out hidden files, and files whose names aren't UTF-8 text: ` +
      "drop a tar of them." };
}

function addDropping() {
  let depth = 0;
  const over = change => {
    depth = change === 0 ? 0 : Math.max(0, depth + change);
    $("dropping").hidden = depth === 0;
  };
  document.addEventListener("dragenter", event => {
    $("dropped").hidden = !wantsList() && !isForInput(event.dataTransfer);
    over(1);
  });
  document.addEventListener("dragleave", () => over(-1));
  document.addEventListener("dragover", event => {
    if (event.target !== $("dropped") || !isForInput(event.dataTransfer)) {
      event.preventDefault();
    }
  });
  document.addEventListener("drop", event => {
    const transfer = event.dataTransfer;
    const dropped = [...transfer.items].filter(it => it.kind === "file");
    // The browser lists the files of a folder itself, where it is dropped on an input for one.
    const isOnInput = event.target === $("dropped");
    const isListed = isOnInput && (isForInput(transfer) || dropped[0]?.webkitGetAsEntry?.()?.isDirectory);
    if (!isListed) {
      event.preventDefault();
    }
    setTimeout(over, 0, 0);
    if (isForInput(transfer)) {
      take(filesOfInput(isListed ? listOfDropped() : Promise.resolve(null)));
    } else if (dropped.length > 0) {
      take(filesOfTransfer(transfer, isListed ? listOfDropped() : null));
    } else if (transfer.getData("text/plain") !== "") {
      takeText(transfer.getData("text/plain"), nameOfPasted());
    }
  });
}

function addExamples() {
  $("examples").append(...Object.entries(EXAMPLES).map(([name, given]) => button(name, () => {
    clear();
    take((async function* () {
      for (const [file, text] of Object.entries(given)) {
        yield { name: file, blob: new Blob([text]) };
      }
    })());
  }, { className: "link" })));
}

addListeners();
addExamples();
try {
  await jobs.load();
  say("");
} catch (why) {
  say(`The page can't work here: ${why.message}`);
}
