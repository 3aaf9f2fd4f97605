/** Examples: a name, and the files of each. */

/** Sierpinski's triangle, of 2^40 cells a side: each square of it is three of the next smaller one. */
function triangle() {
  const lines = ["[M2]", "#R B3/S23", "*$**$*.*$****$*...*$**..**$*.*.*.*$********$"];
  for (let level = 4; level <= 40; level++) {
    lines.push(`${level} ${level - 3} 0 ${level - 3} ${level - 3}`);
  }
  return `${lines.join("\n")}\n`;
}

const GLIDER = {
  "glider.rle": "x = 3, y = 3, rule = 23/3\nbo$2bo$3o!\n",
  "glider, commented.rle": "#N Glider\n#C Richard K. Guy, 1970\n#CXRLE Pos=0,0 Gen=0\nx = 3, y = 3, rule = b3s23\nbob$2bo$\n3o$$!\n",
  "glider.mc": "[M2] (golly 4.2)\n#R B3/S23\n$$$$.....*$......*$....***$\n",
  "glider in a larger square.mc": "[M2]\n#R S23/B3\n.*$..*$***$\n4 1 0 0 0\n5 0 0 0 2\n",
};

/** What Golly writes of one pattern: to it the middle of a macrocell is one row further north. */
const OF_GOLLY = {
  "blinker, saved by Golly.rle": "#CXRLE Pos=-1,0\nx = 3, y = 1, rule = B3/S23\n3o!\n",
  "blinker, saved by Golly.mc": "[M2] (golly 4.2)\n#R B3/S23\n$$$$$$$.......*$\n$$$$$$$**$\n4 1 2 0 0\n",
};

const REFUSED = {
  "refused.rle": "#C The header says two states, and the item B is state 2.\nx = 3, y = 2, rule = B3/S23\nbob$\noBo!\n",
};

export const EXAMPLES = {
  "a glider written in four ways": GLIDER,
  "Golly's two files of one pattern": OF_GOLLY,
  "a pattern 2\u2074\u2070 cells wide": { "triangle.mc": triangle() },
  "a file that is refused": REFUSED,
};
