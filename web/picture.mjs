/** A picture of a pattern on a canvas: any part of the plane, at any scale that is a power of two. */

import { drawTree, stateAt } from "./tree.mjs";

/** The greatest scale, in pixels for a cell, and the least: then the whole plane has 128 pixels a side. Both are exponents of two. */
const NEAREST = 5;
const FARTHEST = -55;
const EDGE = 2n ** 61n;
const SHADES = 64;
/** The most dots that are drawn: a larger canvas takes fewer, so that it follows the pointer. */
const MOST_DOTS = 1_500_000;

/** A colour of the style, as the number of a pixel. */
function pixelOf(red, green, blue) {
  return ((255 << 24) | (Math.round(blue) << 16) | (Math.round(green) << 8) | Math.round(red)) >>> 0;
}

function channels(text) {
  return [1, 3, 5].map(at => parseInt(text.slice(at, at + 2), 16));
}

/** A colour of a hue, of the full saturation and this lightness. */
function ofHue(hue, light) {
  const channel = n => {
    const k = (n + hue / 30) % 12;
    return 255 * (light - Math.min(light, 1 - light) * Math.max(-1, Math.min(k - 3, 9 - k, 1)) * 0.85);
  };
  return pixelOf(channel(0), channel(8), channel(4));
}

/**
 * The colours that a rule file gives its states below @COLORS, by their numbers, each as the number of a pixel: a line has a state and its colour, or
 * the first and the last colour of a gradient over the states that aren't 0. There are none without that section.
 */
export function coloursOfRule(bytes) {
  const lines = new TextDecoder("latin1").decode(bytes).split(/\r\n|\r|\n/);
  const colours = new Map();
  const count = Number(/^(?:n_states|num_states)[ \t]*[:=][ \t]*(\d+)/m.exec(lines.join("\n"))?.[1] ?? 256);
  const isColour = channel => channel >= 0 && channel <= 255;
  let isIn = false;
  for (const line of lines) {
    if (line.startsWith("@")) {
      isIn = line.startsWith("@COLORS");
    } else if (isIn) {
      const found = /^\s*(\d+(?:\s+\d+){3,5})(?!\S)/.exec(line)?.[1].trim().split(/\s+/).map(Number) ?? [];
      const [state, ...channels] = found;
      if (found.length === 6 && found.every(isColour)) {
        for (let it = 1; it < count && it < 256; it++) {
          const share = count > 2 ? (it - 1) / (count - 2) : 0;
          colours.set(it, pixelOf(...[0, 1, 2].map(at => found[at] + (found[at + 3] - found[at]) * share)));
        }
      } else if (found.length >= 4 && state < 256 && channels.slice(0, 3).every(isColour)) {
        colours.set(state, pixelOf(...channels.slice(0, 3)));
      }
    }
  }
  return colours;
}

const floorTo = (value, k) => (k > 0 ? value >> BigInt(k) : value);

export class Picture {
  #canvas;
  #tree = null;
  #box = null;
  #isAsked = false;
  #colours;
  #ofRule = new Map();
  #dots = document.createElement("canvas");
  #pointers = new Map();
  #spread = 0;
  #turned = 0;
  #onMove;
  #onPoint;
  /** The cell in the middle, and the exponent of the scale. */
  #x = 0n;
  #y = 0n;
  #zoom = 0;
  /** Parts of a dot that were dragged and are no whole dot yet. */
  #restX = 0;
  #restY = 0;

  /** `onMove` is told the cell in the middle and the scale, `onPoint` the cell under the pointer and its state, or nothing. */
  constructor(canvas, onMove, onPoint) {
    this.#canvas = canvas;
    this.#onMove = onMove;
    this.#onPoint = onPoint;
    this.#readColours();
    matchMedia("(prefers-color-scheme: dark)").addEventListener("change", () => {
      this.#readColours();
      this.ask();
    });
    new ResizeObserver(() => this.ask()).observe(canvas);
    canvas.addEventListener("pointerdown", event => this.#down(event));
    canvas.addEventListener("pointermove", event => this.#move(event));
    for (const name of ["pointerup", "pointercancel"]) {
      canvas.addEventListener(name, event => this.#pointers.delete(event.pointerId));
    }
    canvas.addEventListener("pointerleave", () => onPoint(null));
    canvas.addEventListener("wheel", event => this.#wheel(event), { passive: false });
    canvas.addEventListener("dblclick", event => this.zoom(1, event));
    canvas.addEventListener("keydown", event => this.#key(event));
  }

  /** Shows a tree, with the least box of its cells. The place stays, unless the pattern is a new one. `ofRule` has the colours of its rule. */
  show(tree, box, isNew, ofRule = new Map()) {
    this.#tree = tree;
    this.#box = box;
    this.#ofRule = ofRule;
    this.#readColours();
    if (isNew) {
      this.fit();
    }
    this.ask();
  }

  /** Shows the whole pattern. */
  fit() {
    const { left, top, width, height } = this.#box ?? { left: -8n, top: -8n, width: 16n, height: 16n };
    this.#x = left + width / 2n;
    this.#y = top + height / 2n;
    this.#fit(Number(width), Number(height), 4);
  }

  /** Shows the whole plane. */
  plane() {
    this.#x = this.#y = 0n;
    this.#fit(2 ** 62, 2 ** 62, NEAREST);
  }

  #fit(width, height, most) {
    const { clientWidth, clientHeight } = this.#canvas;
    const scale = Math.min((0.92 * clientWidth) / Math.max(width, 1), (0.92 * clientHeight) / Math.max(height, 1));
    this.#zoom = Math.max(FARTHEST, Math.min(most, Math.floor(Math.log2(scale))));
    this.#moved();
  }

  /** Goes so many steps nearer, or farther, about a place of the canvas, or its middle. */
  zoom(steps, event) {
    const zoom = Math.max(FARTHEST, Math.min(NEAREST, this.#zoom + steps));
    const [right, down] = event ? this.#fromMiddle(event) : [0, 0];
    const [x, y] = [this.#cells(right), this.#cells(down)];
    this.#zoom = zoom;
    this.#x += x - this.#cells(right);
    this.#y += y - this.#cells(down);
    this.#moved();
  }

  /** So many pixels in cells, rounded to the nearest where a pixel is a cell or more. */
  #cells(pixels) {
    return this.#zoom > 0 ? BigInt(Math.round(pixels / 2 ** this.#zoom)) : BigInt(Math.round(pixels)) << BigInt(-this.#zoom);
  }

  #fromMiddle(event) {
    const { left, top, width, height } = this.#canvas.getBoundingClientRect();
    return [event.clientX - left - width / 2, event.clientY - top - height / 2];
  }

  /** Moves the plane by so many pixels. */
  pan(right, down) {
    const unit = Math.max(1, 2 ** this.#zoom);
    this.#restX += right;
    this.#restY += down;
    const [columns, rows] = [Math.trunc(this.#restX / unit), Math.trunc(this.#restY / unit)];
    this.#restX -= columns * unit;
    this.#restY -= rows * unit;
    const k = BigInt(Math.max(0, -this.#zoom));
    this.#x -= BigInt(columns) << k;
    this.#y -= BigInt(rows) << k;
    this.#moved();
  }

  #moved() {
    const within = value => (value < -EDGE ? -EDGE : value >= EDGE ? EDGE - 1n : value);
    this.#x = within(this.#x);
    this.#y = within(this.#y);
    this.#onMove({ x: this.#x, y: this.#y, zoom: this.#zoom });
    this.ask();
  }

  // ---- what the user does

  #down(event) {
    this.#canvas.setPointerCapture(event.pointerId);
    this.#pointers.set(event.pointerId, event);
    this.#spread = this.#distance();
  }

  #point(event) {
    if (this.#tree !== null) {
      const unit = 2 ** this.#zoom;
      const [x, y] = this.#fromMiddle(event).map(it => (this.#zoom > 0 ? BigInt(Math.floor(it / unit)) : this.#cells(Math.floor(it))));
      this.#onPoint({ x: this.#x + x, y: this.#y + y, state: stateAt(this.#tree, this.#x + x, this.#y + y) });
    }
  }

  #distance() {
    const [one, other] = this.#pointers.values();
    return other ? Math.hypot(one.clientX - other.clientX, one.clientY - other.clientY) : 0;
  }

  #move(event) {
    const before = this.#pointers.get(event.pointerId);
    if (before === undefined) {
      this.#point(event);
      return;
    }
    this.#pointers.set(event.pointerId, event);
    const share = 1 / this.#pointers.size;
    this.pan((event.clientX - before.clientX) * share, (event.clientY - before.clientY) * share);
    const distance = this.#distance();
    if (distance > 0 && this.#spread > 0) {
      const steps = Math.round(Math.log2(distance / this.#spread));
      if (steps !== 0) {
        const [one, other] = this.#pointers.values();
        this.zoom(steps, { clientX: (one.clientX + other.clientX) / 2, clientY: (one.clientY + other.clientY) / 2 });
        this.#spread = distance;
      }
    }
  }

  #wheel(event) {
    event.preventDefault();
    this.#turned += event.deltaY * (event.deltaMode === 1 ? 30 : 1);
    const steps = Math.trunc(this.#turned / 90);
    if (steps !== 0) {
      this.#turned -= 90 * steps;
      this.zoom(-Math.max(-3, Math.min(3, steps)), event);
    }
  }

  #key(event) {
    const far = Math.round(this.#canvas.clientWidth / 8);
    const acts = {
      ArrowLeft: () => this.pan(far, 0),
      ArrowRight: () => this.pan(-far, 0),
      ArrowUp: () => this.pan(0, far),
      ArrowDown: () => this.pan(0, -far),
      "+": () => this.zoom(1),
      "=": () => this.zoom(1),
      "-": () => this.zoom(-1),
      0: () => this.fit(),
    };
    if (!event.ctrlKey && !event.metaKey && !event.altKey && Object.hasOwn(acts, event.key)) {
      event.preventDefault();
      acts[event.key]();
    }
  }

  // ---- drawing

  #readColours() {
    const style = getComputedStyle(document.documentElement);
    const [sky, cell, line] = ["--sky", "--cell", "--line"].map(it => channels(style.getPropertyValue(it).trim()));
    const isDark = sky[0] < 128;
    const channelsOf = pixel => [pixel & 255, (pixel >>> 8) & 255, (pixel >>> 16) & 255];
    const mixed = share => {
      const [none, one] = [channelsOf(states[0]), channelsOf(states[1])];
      return pixelOf(...none.map((it, index) => it + (one[index] - it) * share));
    };
    const states = new Uint32Array(256);
    for (let state = 0; state < 256; state++) {
      const own = state === 0 ? pixelOf(...sky) : state === 1 ? pixelOf(...cell) : ofHue((state * 137.5) % 360, isDark ? 0.62 : 0.42);
      states[state] = this.#ofRule.get(state) ?? own;
    }
    const shades = Uint32Array.from({ length: SHADES }, (_, index) => (index === 0 ? states[0] : mixed(0.5 + (0.5 * index) / (SHADES - 1))));
    this.#colours = { states, shades, line: `rgb(${line.join(" ")} / 60%)` };
  }

  /** Has the picture drawn with the next frame. */
  ask() {
    if (!this.#isAsked) {
      this.#isAsked = true;
      requestAnimationFrame(() => {
        this.#isAsked = false;
        this.draw();
      });
    }
  }

  draw() {
    const { clientWidth, clientHeight } = this.#canvas;
    if (this.#tree === null || clientWidth === 0) {
      return;
    }
    const finest = Math.min(devicePixelRatio, Math.sqrt(MOST_DOTS / (clientWidth * clientHeight)));
    const sharp = this.#zoom > 0 ? devicePixelRatio : 2 ** Math.max(0, Math.floor(Math.log2(finest)));
    const [width, height] = [Math.round(clientWidth * sharp), Math.round(clientHeight * sharp)];
    if (this.#canvas.width !== width || this.#canvas.height !== height) {
      [this.#canvas.width, this.#canvas.height] = [width, height];
    }
    // A dot is 2^k cells a side, and `size` pixels.
    const k = this.#zoom > 0 ? 0 : Math.max(0, -this.#zoom - Math.log2(sharp));
    const size = sharp * 2 ** (this.#zoom + k);
    const [columns, rows] = [width, height].map(it => 2 * (Math.ceil(it / size / 2) + 1));
    const [left, top] = [floorTo(this.#x, k) - BigInt(columns / 2), floorTo(this.#y, k) - BigInt(rows / 2)];
    const image = new ImageData(columns, rows);
    const dots = new Uint32Array(image.data.buffer).fill(this.#colours.states[0]);
    drawTree(this.#tree, dots, columns, left, top, k, this.#colours);
    [this.#dots.width, this.#dots.height] = [columns, rows];
    this.#dots.getContext("2d").putImageData(image, 0, 0);
    const context = this.#canvas.getContext("2d");
    const [x, y] = [width / 2 - (columns / 2) * size, height / 2 - (rows / 2) * size].map(Math.round);
    context.imageSmoothingEnabled = false;
    context.drawImage(this.#dots, x, y, columns * size, rows * size);
    if (this.#zoom >= 3) {
      this.#drawGrid(context, x, y, size);
    }
  }

  #drawGrid(context, x, y, size) {
    const { width, height } = this.#canvas;
    context.fillStyle = this.#colours.line;
    for (let at = x; at < width; at += size) {
      context.fillRect(Math.round(at), 0, 1, height);
    }
    for (let at = y; at < height; at += size) {
      context.fillRect(0, Math.round(at), width, 1);
    }
  }
}
