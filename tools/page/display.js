"use strict";
// The display of the page: its segments, and the annunciators.

const SEGMENTS = {
  A: [5, 3, 29, 3], D: [5, 63, 29, 63], F: [3, 6, 3, 30], E: [3, 36, 3, 60], B: [31, 6, 31, 30], C: [31, 36, 31, 60],
  G: [6, 33, 15, 33], H: [19, 33, 28, 33], J: [17, 7, 17, 29], M: [17, 37, 17, 59],
  I: [7, 8, 14, 28], K: [27, 8, 20, 28], L: [14, 38, 7, 58], N: [20, 38, 27, 58],
};
const EVERY = Object.keys(SEGMENTS).join("");

// The segments of characters. A character that is not in this table lights all segments.
const SHAPES = {
  " ": "", 0: "ABCDEFKL", 1: "BC", 2: "ABDEGH", 3: "ABCDGH", 4: "BCFGH", 5: "ACDFGH", 6: "ACDEFGH", 7: "ABC", 8: "ABCDEFGH",
  9: "ABCDFGH", A: "ABCEFGH", B: "ABCDHJM", C: "ADEF", D: "ABCDJM", E: "ADEFG", F: "AEFG", G: "ACDEFH", H: "BCEFGH", I: "ADJM",
  J: "BCDE", K: "EFGKN", L: "DEF", M: "BCEFIK", N: "BCEFIN", O: "ABCDEF", P: "ABEFGH", Q: "ABCDEFN", R: "ABEFGHN", S: "ACDHI",
  T: "AJM", U: "BCDEF", V: "EFKL", W: "BCEFLN", X: "IKLN", Y: "IKM", Z: "ADKL", a: "DEGM", b: "DEFGN", c: "DEGH", d: "BCDHM",
  e: "DEGL", "!": "BC", '"': "BJ", "#": "BCDGHJM", $: "ACDFGHJM", "%": "CFGHJKLM", "&": "ADEGIJN", "'": "J", "(": "KN", ")": "IL",
  "*": "GHIJKLMN", "+": "GHJM", "-": "GH", "/": "KL", "<": "KN", "=": "DGH", ">": "IL", "?": "ABHM", "@": "ABDEFHJ", "[": "ADEF",
  "\\5C": "IN", "]": "ABCD", "^": "LN", _: "D", "`": "I", "|": "JM", "~": "ADIL", "\\7F": "EFG", "\\00": "A", "\\0D": "DL",
  "\\1D": "DGHKL",
};
const [CELLS, CELL_WIDTH] = [12, 49];
let [scrolling, displayed, displayedAt] = [null, null, 0];

// The shortest time in milliseconds between two texts while a program runs. So the display flashes at most three times a second.
const CALM = 170;
const mayChange = () => performance.now() - displayedAt >= CALM;

function drawDisplay() {
  for (let at = 0; at < CELLS; at++) {
    const lines = Object.entries({ ...SEGMENTS, ",": [39, 65, 36, 73] }).map(([name, [x1, y1, x2, y2]]) =>
      drawn("line", { "data-segment": name, x1, y1, x2, y2 }));
    const points = [[".", 63], [":", 42]].map(([name, cy]) => drawn("circle", { "data-segment": name, cx: 39, cy, r: 3 }));
    by("lcd").append(drawn("g", { class: "cell", transform: `translate(${22 + at * CELL_WIDTH} 16) skewX(-5)` }, ...lines, ...points));
  }
}

/** Splits a text into characters, each with the points after it: a point has no cell of its own. */
function cellsOf(text) {
  const cells = [];
  for (const character of text.match(/\\[0-9A-F]{2}|./g) || []) {
    const last = cells.at(-1);
    if (!".,:".includes(character)) cells.push([character, ""]);
    else if (last && !last[1]) last[1] = character;
    else cells.push([" ", character]);
  }
  return cells;
}

function light(cells) {
  [...by("lcd").children].forEach((cell, at) => {
    const [character, point] = cells[at] || [" ", ""];
    const shape = SHAPES[character] ?? EVERY;
    const isOn = (name) => name === "." ? point !== "" : ",:".includes(name) ? point === name : shape.includes(name);
    for (const segment of cell.children) segment.classList.toggle("on", isOn(segment.dataset.segment));
  });
}

/** Shows a text. A text that is longer than the display scrolls once, from its first character to its last. */
function showDisplay(text, isAgain = false) {
  if (text === displayed && !isAgain) return;
  [displayed, displayedAt] = [text, performance.now()];
  clearInterval(scrolling);
  const cells = cellsOf(text);
  const over = cells.length - CELLS;
  by("lcd").dataset.text = text;
  by("display").title = over > 0 ? text : "";
  const isTyped = text.endsWith("_") || matchMedia("(prefers-reduced-motion: reduce)").matches;
  let at = over > 0 && isTyped ? over : 0;
  light(cells.slice(at));
  if (over > at) {
    at -= 3;
    scrolling = setInterval(() => {
      at += 1;
      if (at > 0) light(cells.slice(at));
      if (at >= over) clearInterval(scrolling);
    }, 220);
  }
}

/** Returns the annunciators, and which are lit: those of flags, and SHIFT and PRGM. PRGM is lit in program mode, and while a program runs, also
    while it executes a function in microcode. None is lit while the display is off. */
function lightsOf(state) {
  const flags = state.flags[0].split(" ");
  const lit = (number) => flags.includes(number);
  const lights = [
    ["USER", lit("27")], ["GRAD", lit("42")], ["RAD", lit("43")], ["SHIFT", state.shift],
    ...["0", "1", "2", "3", "4"].map((number) => [number, lit(`0${number}`)]),
    ["PRGM", state.program || state.running], ["ALPHA", lit("48")],
  ];
  return lights.map(([name, isLit]) => [name, isLit && !state.off]);
}
