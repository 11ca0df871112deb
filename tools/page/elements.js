"use strict";
// Elements of the page, and texts as bytes.

const by = (id) => document.getElementById(id);

function filled(element, attributes, children) {
  for (const [name, value] of Object.entries(attributes)) if (value !== null) element.setAttribute(name, value);
  element.append(...children);
  return element;
}

const make = (tag, attributes = {}, ...children) => filled(document.createElement(tag), attributes, children);
const drawn = (tag, attributes, ...children) => filled(document.createElementNS("http://www.w3.org/2000/svg", tag), attributes, children);

/** Redraws the content of a box. If a control in it has the focus, the new control of the same name gets it. */
function fill(id, ...children) {
  const name = by(id).contains(document.activeElement) && document.activeElement.dataset.at;
  by(id).replaceChildren(...children);
  if (name) by(id).querySelector(`[data-at="${name}"]`)?.focus();
}

// The content of boxes with controls. If it has not changed, it is not redrawn, so that a click during a run is not lost.
const drawings = {};
const isNew = (id, ...parts) => drawings[id] !== (drawings[id] = JSON.stringify(parts));

/** Scrolls a box, without scrolling the page, so that a part of it is visible as a whole, or as far as the box has room. On the large page
    its panel scrolls instead. */
function reveal(inner, part) {
  if (!part || !inner.checkVisibility()) return;
  const box = getComputedStyle(inner).overflowY === "visible" ? inner.closest("details") : inner;
  const { top, height } = part.getBoundingClientRect();
  const place = top - box.getBoundingClientRect().top + box.scrollTop;
  // The head of a lesson covers the start of its panel.
  const covered = box.querySelector("#lesson-head")?.offsetHeight ?? 0;
  const needed = Math.min(Math.max(height, 40), box.clientHeight - covered - 8);
  if (place >= box.scrollTop + covered && place + needed <= box.scrollTop + box.clientHeight) return;
  box.scrollTop = place - Math.max(covered + 8, Math.min(box.clientHeight / 3, box.clientHeight - needed - 8));
}

/** Moves the focus from one control to another by the arrow keys; `rows` are the controls as they are seen. Tab reaches one of them. */
function moved(rows, control, key) {
  const steps = { ArrowLeft: [0, -1], ArrowRight: [0, 1], ArrowUp: [-1, 0], ArrowDown: [1, 0] }[key];
  const row = rows.findIndex((controls) => controls.includes(control));
  if (!steps || row < 0) return false;
  const at = rows[row].indexOf(control);
  const nextRow = rows[(row + steps[0] + rows.length) % rows.length];
  const next = steps[0] ? nextRow[Math.round(at * (nextRow.length - 1) / Math.max(1, rows[row].length - 1))] :
    nextRow[(at + steps[1] + nextRow.length) % nextRow.length];
  control.tabIndex = -1;
  next.tabIndex = 0;
  next.focus();
  return true;
}

/** Converts characters, one for each byte, to bytes, and to the text that these bytes are in UTF-8. */
const bytesOf = (characters) => Uint8Array.from(characters, (one) => one.charCodeAt(0));
const textOf = (characters) => new TextDecoder().decode(bytesOf(characters));

/** Returns an address for a file that the page makes itself. */
const addressOf = (...parts) => URL.createObjectURL(new Blob(parts));

/** Returns a count with its noun, for example "1 step" or "2,000 steps". */
const counted = (count, noun) => `${count.toLocaleString("en")} ${noun}${count === 1 ? "" : "s"}`;

const moment = (milliseconds) => new Promise((done) => setTimeout(done, milliseconds));
