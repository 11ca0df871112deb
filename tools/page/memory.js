"use strict";
// The map of memory: each register is a cell that shows its digits on demand.

const STATUS_NAMES = ["T", "Z", "Y", "X", "L", "M", "N", "O", "P", "Q", "⊢", "a", "b", "c", "d", "e"];
const MAIN_START = 0xC0;
// How many cells a row has: the first of these numbers for which the rows are not wider than the panel.
const IN_A_ROW = [16, 8];
// What a cell shows of its kind, and how it is called.
const KINDS = { status: ["", "status register"], data: ["R", "data register"], program: ["p", "program"], end: ["E", "program with .END."],
  lost: ["?", "program, whose .END. was overwritten"],
  free: ["·", "free"], unknown: ["?", "not divided"] };

let cellShown = null;       // the address of the register whose digits are shown
let mapWidth = -1;          // the width of the map for which its rows were made

const hexadecimal = (number) => number.toString(16).toUpperCase().padStart(3, "0");

/** Returns the address of a register by its place in the list of all. */
const addressAt = (at) => at < STATUS_NAMES.length ? at : MAIN_START + at - STATUS_NAMES.length;

/** Returns what a register is, by what register c says. */
function kindOf(address, [, , curtain, end, isDivided, isSound]) {
  if (address < STATUS_NAMES.length) return "status";
  if (!isDivided) return "unknown";
  return address >= curtain ? "data" : address > end ? "program" : address < end ? "free" : isSound ? "end" : "lost";
}

/** Returns the name of a register, if it has one. */
function nameOf(address, kind, curtain) {
  if (kind === "status") return STATUS_NAMES[address];
  return kind === "data" ? registerName(address - curtain) : "";
}

/** Returns the rows of cells, from the highest address down, each with its first address. */
function rowsOf(count, most) {
  const rows = [];
  for (let first = 0; first < count; first += most) {
    const cells = Array.from({ length: Math.min(most, count - first) }, (_, at) => {
      const place = first + at;
      const cell = make("button", { type: "button", class: "cell", tabindex: place ? -1 : 0, "data-at": place });
      for (const kind of ["click", "focus"]) cell.addEventListener(kind, () => showCell(place));
      cell.addEventListener("mouseenter", () => showCell(place));
      return cell;
    });
    const place = make("span", { class: "place", "aria-hidden": "true" }, hexadecimal(addressAt(first)));
    rows.unshift(make("div", { class: "cells" }, place, ...cells));
  }
  return rows;
}

/** Makes the rows of the map. A cell must have room for a finger, and so a narrow panel has fewer cells in a row. */
function drawCells(count) {
  const map = by("map");
  for (const most of IN_A_ROW) {
    fill("map", ...rowsOf(count, most));
    if (map.scrollWidth <= map.clientWidth) break;
  }
  mapWidth = map.clientWidth;
}

/** Makes the rows of the map anew if its width has changed. */
const fitMap = new ResizeObserver(() => {
  if (past.length && isOpen("memory-panel") && by("map").clientWidth !== mapWidth) showMemory(...looked());
});

/** Shows the map, with what the last step changed. */
function showMemory(state, before) {
  const { memory, divided } = state;
  if (by("map").querySelectorAll(".cell").length !== memory.length || by("map").clientWidth !== mapWidth) drawCells(memory.length);
  for (const cell of by("map").querySelectorAll(".cell")) {
    const place = Number(cell.dataset.at);
    const [address, kind] = [addressAt(place), kindOf(addressAt(place), divided)];
    const isChanged = memory[place] !== before.memory[place];
    const isZero = /^0*$/.test(memory[place]);
    const classes = ["cell", kind, isZero && "zero", isChanged && "altered", address === divided[2] && "curtain"];
    const [sign, words] = KINDS[kind];
    const name = nameOf(address, kind, divided[2]);
    const label = [hexadecimal(address), name, words, isZero ? "zero" : memory[place], isChanged && "changed"];
    filled(cell, { class: classes.filter(Boolean).join(" "), "aria-label": label.filter(Boolean).join(", ") }, []);
    cell.textContent = isChanged ? "●" : kind === "status" ? name : sign;
  }
  showDivided(state);
  showCell(cellShown ?? STATUS_NAMES.indexOf("c"));
}

/** Draws what register c says, and whether memory is sound. The curtain is the address of R00, if there is a data register. */
function showDivided({ divided: [statistics, constant, curtain, end, , isSound], registers }) {
  const parts = [[statistics, "first statistics register"], [constant, isSound ? "memory is sound" : "memory is not sound"],
    [hexadecimal(curtain), `the curtain${registers.length ? ", R00" : ""}`], [hexadecimal(end), "the register of .END."]];
  fill("divided", ...parts.map(([digits, words]) => make("div", {}, make("dt", {}, digits), make("dd", {}, words))));
}

/** Shows the digits of a register, and those before the last step if it changed them. */
function showCell(place) {
  cellShown = place;
  const [state, before] = looked();
  const [now, old] = [state.memory[place], before.memory[place] ?? ""];
  const [address, kind] = [addressAt(place), kindOf(addressAt(place), state.divided)];
  const name = nameOf(address, kind, state.divided[2]);
  const value = kind === "data" ? state.values[address - state.divided[2]] : null;
  fill("cell", make("span", { class: "place" }, `${hexadecimal(address)} ${name} ${KINDS[kind][1]}`), " ",
    make("span", { class: "digits" }, ...digitsOf(now, old)), ...(value ? [` ${value}`] : []),
    ...(now !== old && old ? [make("span", { class: "place" }, ` before: ${old}`)] : []));
}

/** Moves from cell to cell by the arrow keys. */
function walkMap(event) {
  const rows = [...by("map").children].map((row) => [...row.querySelectorAll(".cell")]);
  if (moved(rows, event.target, event.key)) event.preventDefault();
}
