"use strict";
// The sheet that is printed: the calculator and the open panels, on one page of A4 or Letter. The page is laid out as the sheet before it is
// printed, so that it can be measured. A panel that does not fit shows as many whole lines as fit, and how many more there are.

// The height of the sheet in pixels: 254 mm, which is less than that of either paper without its margins. LEAST is how many lines a panel that
// is cut has at least, GAP the space after a panel, and NOTE the height of a note about lines or panels.
const [SHEET, LEAST, GAP, NOTE] = [254 * 96 / 25.4, 4, 4, 16];
// The classes that are for windows.
const OF_WINDOWS = ["large", "tall", "with-keys", "with-words"];

let sheet = null;           // how the page was before it was laid out as a sheet; null while it is not

/** Returns where the lines of text in a box are: the first and the last pixel of each, from the top of the box. */
function linesIn(box) {
  const [texts, range, top] = [document.createTreeWalker(box, NodeFilter.SHOW_TEXT), document.createRange(), box.getBoundingClientRect().top];
  const found = [];
  while (texts.nextNode()) {
    range.selectNodeContents(texts.currentNode);
    for (const one of range.getClientRects()) if (one.width && one.height) found.push([one.top - top, one.bottom - top]);
  }
  const lines = [];
  for (const [begin, end] of found.sort((one, other) => one[0] - other[0])) {
    const last = lines.at(-1);
    // Texts of several sizes are in one line.
    if (last && begin < last[1] - 1) last[1] = Math.max(last[1], end);
    else lines.push([begin, end]);
  }
  return lines;
}

/** Returns where a box can be cut without cutting a line: above its first line, between its lines, and below its last one. */
function edgesOf(box) {
  const lines = linesIn(box);
  const between = lines.slice(1).map(([begin], at) => (begin + lines[at][1]) / 2);
  return lines.length ? [0, ...between, box.getBoundingClientRect().height] : [0];
}

/** Returns the box of a panel that scrolls; null if the panel has none. */
const boxIn = (panel) => panel.querySelector(".scroll, #parts");

/** Returns the row of a box at which the part of it begins that is in view; null if this is its beginning. */
function firstInView(box) {
  const outer = getComputedStyle(box).overflowY === "visible" ? box.closest("details") : box;
  if (!outer.scrollTop) return null;
  const { top } = outer.getBoundingClientRect();
  return [...box.querySelectorAll("li, tr, .line, .cells, p")].find((row) => row.getBoundingClientRect().bottom > top + 2) ?? null;
}

/** Shows those lines of a box that fit into a height, from a row on if there is one, and says how many there are before them and after them. */
function cut(box, height, row) {
  const [edges, lines] = [edgesOf(box), linesIn(box)];
  const count = edges.length - 1;
  if (edges[count] <= height + 1) return;
  const start = row ? row.getBoundingClientRect().top - box.getBoundingClientRect().top : 0;
  let first = Math.max(0, edges.findLastIndex((edge) => edge <= start + 4));
  const room = () => height - NOTE * 2 + (first ? 0 : NOTE);
  let end = first;
  while (end < count && edges[end + 1] - edges[first] <= room()) end += 1;
  while (end === count && first && edges[end] - edges[first - 1] <= room()) first -= 1;
  const note = (number, words) => number ? [make("p", { class: "unprinted" }, `… ${number} ${words}`)] : [];
  // The background of the line before ends below its text.
  const top = first ? Math.max(edges[first], lines[first][0] - 1) : 0;
  box.style.setProperty("height", `${edges[end] - top}px`, "important");
  if (box.firstElementChild) box.firstElementChild.style.marginTop = `${-top}px`;
  box.before(...note(first, `line${first === 1 ? "" : "s"} before these`));
  box.after(...note(count - end, `more line${count - end === 1 ? "" : "s"}`));
}

/** Returns how high a panel is, and how high it is at least if its box is cut. */
function heightsOf(panel) {
  const [whole, box] = [panel.getBoundingClientRect().height + GAP, boxIn(panel)];
  if (!box) return { panel, box, whole, least: whole };
  const edges = edgesOf(box);
  const few = (edges[LEAST] ?? edges.at(-1)) + 2 * NOTE;
  return { panel, box, whole, least: Math.min(whole, whole - edges.at(-1) + few) };
}

/** Lays out the panels on the sheet. Those for which there is no room are named. The others get the rest of the room in equal parts, but none
    more than it needs. */
function fitPanels(panels, rows) {
  const [all, missing, chosen] = [panels.map(heightsOf), [], []];
  let rest = SHEET;
  // The names of the missing panels have at most three lines.
  if (all.reduce((sum, { least }) => sum + least, 0) > rest) rest -= 3 * NOTE;
  for (const one of all) {
    const isFitting = one.least <= rest;
    (isFitting ? chosen : missing).push(one);
    rest -= isFitting ? one.least : 0;
  }
  for (const { panel } of missing) panel.classList.add("omitted");
  if (missing.length) {
    const names = missing.map(({ panel }) => panel.querySelector("summary").textContent).join(", ");
    by("beside").append(make("p", { class: "unprinted" }, `Not printed, because the sheet has no room: ${names}`));
  }
  chosen.sort((one, other) => one.whole - one.least - (other.whole - other.least));
  chosen.forEach(({ box, whole, least }, at) => {
    const more = Math.min(whole - least, rest / (chosen.length - at));
    rest -= more;
    if (least + more < whole - 1) cut(box, box.getBoundingClientRect().height - (whole - least - more), rows.get(box));
  });
}

/** Lays out the page as the sheet. */
function layOut() {
  if (sheet) return;
  const [root, panels] = [document.documentElement, [...document.querySelectorAll("#beside details")].filter((one) => one.open)];
  const boxes = [...panels.map(boxIn).filter(Boolean), by("causes")];
  const rows = new Map(boxes.map((box) => [box, firstInView(box)]));
  const scrolled = [...document.querySelectorAll("main, main *")].filter((one) => one.scrollTop).map((one) => [one, one.scrollTop]);
  sheet = { boxes, scrolled, theme: root.dataset.theme, classes: OF_WINDOWS.filter((name) => document.body.classList.contains(name)) };
  document.body.classList.remove(...OF_WINDOWS);
  root.dataset.theme = "light";
  root.classList.add("printed");
  if (past.length && isOpen("memory-panel")) showMemory(...looked());
  const causes = by("causes").getBoundingClientRect().height;
  cut(by("causes"), SHEET - (by("calculator").getBoundingClientRect().height - causes), null);
  fitPanels(panels.filter((one) => one.checkVisibility()), rows);
}

/** Shows the page as it was before it was laid out as the sheet. */
function layOutAgain() {
  if (!sheet) return;
  const { boxes, scrolled, theme, classes } = sheet;
  sheet = null;
  for (const one of document.querySelectorAll(".unprinted")) one.remove();
  for (const one of document.querySelectorAll(".omitted")) one.classList.remove("omitted");
  for (const box of boxes) {
    box.style.removeProperty("height");
    box.firstElementChild?.style.removeProperty("margin-top");
  }
  document.documentElement.classList.remove("printed");
  document.documentElement.dataset.theme = theme;
  document.body.classList.add(...classes);
  show();
  for (const [one, place] of scrolled) one.scrollTop = place;
}

addEventListener("beforeprint", layOut);
addEventListener("afterprint", layOutAgain);
