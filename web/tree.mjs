/** The quadtree that a canonical text writes down, and pictures of parts of it. */

const LINE_FEED = 10;
const HASH = 35;
const DOLLAR = 36;
const DOT = 46;
const ZERO = 48;
const NINE = 57;
const BRACKET = 91;

/** How many ones there are among 32 bits. */
function ones(bits) {
  let n = bits - ((bits >>> 1) & 0x55555555);
  n = (n & 0x33333333) + ((n >>> 2) & 0x33333333);
  return (((n + (n >>> 4)) & 0x0f0f0f0f) * 0x01010101) >>> 24;
}

/**
 * Reads a canonical text. Node n, from 1, has level `levels[n]` and the population `populations[n]`. Its quarters are `parts[4 * n]` and the three
 * after it: node numbers, 0 for a blank one, at level 1 states. A leaf, of level 3 where `hasLeaves`, has its rows there, a byte each from the lowest:
 * bit x is the cell of column x. The root is the last node.
 */
export function treeOf(text) {
  let at = 0;
  while (text[at] === BRACKET || text[at] === HASH) {
    at = text.indexOf(LINE_FEED, at) + 1;
  }
  let count = 0;
  for (let end = text.indexOf(LINE_FEED, at); end >= 0; end = text.indexOf(LINE_FEED, end + 1)) {
    count++;
  }
  const levels = new Uint8Array(count + 1);
  const parts = new Uint32Array(4 * count + 4);
  const populations = new Float64Array(count + 1);
  let hasLeaves = false;
  for (let node = 1; node <= count; node++) {
    const place = 4 * node;
    if (text[at] >= ZERO && text[at] <= NINE) {
      for (let word = 0; word < 5; word++) {
        let number = 0;
        for (; text[at] >= ZERO; at++) {
          number = 10 * number + text[at] - ZERO;
        }
        at++;
        if (word === 0) {
          levels[node] = number;
        } else {
          parts[place + word - 1] = number;
          populations[node] += levels[node] === 1 ? (number > 0 ? 1 : 0) : populations[number];
        }
      }
    } else {
      hasLeaves = true;
      levels[node] = 3;
      for (let row = 0, column = 0; text[at] !== LINE_FEED; at++) {
        if (text[at] === DOLLAR) {
          row++;
          column = 0;
        } else {
          if (text[at] !== DOT) {
            parts[place + (row >> 2)] |= 1 << (8 * (row & 3) + column);
          }
          column++;
        }
      }
      populations[node] = ones(parts[place]) + ones(parts[place + 1]);
      at++;
    }
  }
  return { count, levels, parts, populations, hasLeaves };
}

/** The cells of `size` x `size` of a leaf, from a column and a row on: how many are live. */
function liveOf(tree, node, column, row, size) {
  let count = 0;
  const mask = ((1 << size) - 1) << column;
  for (let y = row; y < row + size; y++) {
    count += ones((tree.parts[4 * node + (y >> 2)] >>> (8 * (y & 3))) & mask);
  }
  return count;
}

/** A square of more than 2^EXACT dots a side is placed by whole numbers of any length. */
const EXACT = 40;

/**
 * Draws a part of a tree into `dots`, `columns` to a row, each the colour of 2^k x 2^k cells. The upper left one begins at the cell (2^k left, 2^k top),
 * where both are whole numbers of any length. `colours.states` has the colour of each state of a cell, and `colours.shades` of the shares of live cells,
 * from none to all.
 */
export function drawTree(tree, dots, columns, left, top, k, colours) {
  const rows = dots.length / columns;
  const { levels, parts, populations, hasLeaves } = tree;
  const { states, shades } = colours;
  const last = shades.length - 1;
  const areas = Float64Array.from({ length: 63 }, (_, level) => 4 ** level);

  /** The colour of a dot in which so great a share is live. A single cell in it is seen. */
  const shade = share => shades[share <= 0 ? 0 : Math.min(last, 1 + Math.floor(last * Math.sqrt(share)))];

  const put = (x, y, colour) => {
    if (x >= 0 && x < columns && y >= 0 && y < rows) {
      dots[y * columns + x] = colour;
    }
  };

  /** Draws a leaf of 8 x 8 cells, of which a dot has 1, 4 or 16. */
  const leaf = (node, x, y) => {
    const size = 1 << k;
    for (let row = 0; row < 8; row += size) {
      const bits = parts[4 * node + (row >> 2)] >>> (8 * (row & 3));
      for (let column = 0; column < 8; column += size) {
        if (size === 1) {
          if ((bits >>> column) & 1) {
            put(x + column, y + row, states[1]);
          }
        } else {
          // The rows of a dot are a byte apart in one number.
          const live = ones((bits >>> column) & (size === 2 ? 0x0303 : 0x0f0f0f0f));
          if (live > 0) {
            put(x + (column >> k), y + (row >> k), shade(live / (size * size)));
          }
        }
      }
    }
  };

  /** Draws a node of a level, whose first dot is (x, y), and which has `size` dots a side. */
  const draw = (node, level, x, y, size) => {
    if (node === 0 || x >= columns || y >= rows || x + size <= 0 || y + size <= 0) {
      return;
    }
    if (level <= k) {
      put(x, y, level === 0 ? states[node] : shade(populations[node] / areas[level]));
    } else if (hasLeaves && level === 3) {
      leaf(node, x, y);
    } else {
      const half = size / 2;
      const place = 4 * node;
      draw(parts[place], level - 1, x, y, half);
      draw(parts[place + 1], level - 1, x + half, y, half);
      draw(parts[place + 2], level - 1, x, y + half, half);
      draw(parts[place + 3], level - 1, x + half, y + half, half);
    }
  };

  /** The same where a place may have more digits than a number of the machine. */
  const drawWide = (node, x, y) => {
    const level = levels[node];
    const size = level > k ? 1n << BigInt(level - k) : 1n;
    if (x >= BigInt(columns) || y >= BigInt(rows) || x + size <= 0n || y + size <= 0n) {
      return;
    }
    if (level - k <= EXACT) {
      draw(node, level, Number(x), Number(y), Number(size));
      return;
    }
    const half = size / 2n;
    for (let part = 0; part < 4; part++) {
      const next = parts[4 * node + part];
      if (next !== 0) {
        drawWide(next, part & 1 ? x + half : x, part >> 1 ? y + half : y);
      }
    }
  };

  const root = tree.count;
  if (root === 0) {
    return;
  }
  const level = levels[root];
  if (level > k) {
    const half = 1n << BigInt(level - k - 1);
    drawWide(root, -half - left, -half - top);
    return;
  }
  // The middle of the root is the corner of four dots.
  for (let part = 0; part < 4; part++) {
    const next = parts[4 * root + part];
    let live = level === 1 ? (next > 0 ? 1 : 0) : populations[next];
    if (hasLeaves && level === 3) {
      live = liveOf(tree, root, 4 * (part & 1), 4 * (part >> 1), 4);
    }
    if (live > 0) {
      put(Number(BigInt((part & 1) - 1) - left), Number(BigInt((part >> 1) - 1) - top), shade(live / 4 ** k));
    }
  }
}

/** The state of a cell. */
export function stateAt(tree, x, y) {
  const { count, levels, parts, hasLeaves } = tree;
  if (count === 0) {
    return 0;
  }
  let half = 1n << BigInt(levels[count] - 1);
  if (x < -half || x >= half || y < -half || y >= half) {
    return 0;
  }
  let [node, column, row] = [count, x + half, y + half];
  for (let level = levels[count]; node !== 0; level--) {
    if (hasLeaves && level === 3) {
      return (parts[4 * node + Number(row >> 2n)] >>> (8 * Number(row & 3n) + Number(column))) & 1;
    }
    node = parts[4 * node + (column >= half ? 1 : 0) + (row >= half ? 2 : 0)];
    if (level === 1) {
      return node;
    }
    column -= column >= half ? half : 0n;
    row -= row >= half ? half : 0n;
    half >>= 1n;
  }
  return 0;
}
