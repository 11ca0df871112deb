// An audit of the page that is shown, by rules as axe-core and WCAG 2.2 AA have them. It is the body of a function, and returns what is
// wrong.
const wrong = [];
const all = (selector) => [...document.querySelectorAll(selector)].filter((one) => one.checkVisibility());
const called = (one) => one.id || one.className || one.tagName;
const nameOf = (one) => one.getAttribute("aria-label") || one.labels?.[0]?.textContent.trim() || one.textContent.trim() || one.title;
const CONTROLS = "button, a, input, select, [tabindex='0']";

/** The document: a language, a title, and a page that can be enlarged. */
function judgeDocument() {
  if (!document.documentElement.lang) wrong.push("html-has-lang");
  if (!document.title) wrong.push("document-title");
  if (/user-scalable=no|maximum-scale/.test(document.querySelector("meta[name=viewport]").content)) wrong.push("meta-viewport");
}

/** Controls have names, none is in another one, and the order of Tab is that of the page. */
function judgeControls() {
  for (const one of all("button, a[href], input, select, textarea, summary, [role], [tabindex='0']")) {
    if (!nameOf(one) && !one.matches("[role=alert], [role=status]")) wrong.push(`name: ${one.outerHTML}`);
  }
  for (const one of all("[tabindex]")) if (one.tabIndex > 0) wrong.push(`tabindex: ${called(one)}`);
  for (const one of all("button, a, summary")) if (one.querySelector(CONTROLS)) wrong.push(`nested: ${called(one)}`);
  for (const one of document.querySelectorAll("[aria-hidden=true]")) if (one.querySelector(CONTROLS)) wrong.push(`hidden: ${called(one)}`);
}

/** Lists have the right children, headings follow each other, and all is in a region. */
function judgeStructure() {
  const hasOthers = (one, names) => [...one.children].some((child) => !names.includes(child.tagName));
  for (const one of all("ul, ol")) if (hasOthers(one, ["LI"])) wrong.push(`list: ${called(one)}`);
  for (const one of all("dl")) if (hasOthers(one, ["DT", "DD", "DIV"])) wrong.push(`dl: ${called(one)}`);
  let level = 1;
  for (const one of all("h1, h2, h3")) {
    const now = Number(one.tagName[1]);
    if (now > level + 1) wrong.push(`heading: ${one.textContent}`);
    level = now;
  }
  const outside = [...document.body.children].filter((one) => !one.matches("header, main, script, dialog, [hidden]"));
  for (const one of outside) wrong.push(`region: ${called(one)}`);
}

/** Each id is unique, and what is referred to exists. */
function judgeReferences() {
  const ids = [...document.querySelectorAll("[id]")].map((one) => one.id);
  for (const id of ids) if (ids.indexOf(id) !== ids.lastIndexOf(id)) wrong.push(`id: ${id}`);
  for (const one of document.querySelectorAll("[aria-labelledby], [for]")) {
    if (!document.getElementById(one.getAttribute("aria-labelledby") ?? one.getAttribute("for"))) wrong.push(`reference: ${one.outerHTML}`);
  }
}

// The roles that the page uses, the attributes of ARIA with their values, and the elements that have no name without a role.
const ROLES = ["alert", "group", "status"];
const IDS = (text) => text.split(" ").every((id) => document.getElementById(id));
const ARIA = { "aria-label": /\S/, "aria-hidden": /^true$/, "aria-live": /^polite$/, "aria-pressed": /^(true|false)$/, "aria-current": /^step$/ };
const UNNAMED = "div, span, p, code, pre, dd, dt, em, strong, dl, label";

/** Roles and attributes of ARIA are used as they are defined. */
function judgeRoles() {
  for (const one of document.querySelectorAll("*")) {
    for (const { name, value } of one.attributes) {
      if (name === "role" && !ROLES.includes(value)) wrong.push(`role ${value}: ${called(one)}`);
      if (!name.startsWith("aria-")) continue;
      const isGood = name === "aria-labelledby" ? IDS(value) : ARIA[name]?.test(value);
      if (!isGood) wrong.push(`${name}=${value}: ${called(one)}`);
    }
    const isNamed = one.matches("[aria-label], [aria-labelledby]");
    if (isNamed && one.matches(UNNAMED) && !one.hasAttribute("role")) wrong.push(`a name without a role: ${called(one)}`);
    if (one.hasAttribute("aria-pressed") && !one.matches("button")) wrong.push(`pressed: ${called(one)}`);
  }
}

/** What is printed on a control is a part of its name, if it is words; a sign may be called otherwise. */
function judgeLabels() {
  const plain = (text) => text.toLowerCase().replace(/\s/g, "");
  for (const one of all("button[aria-label], a[aria-label]")) {
    const seen = [...one.querySelectorAll("*"), one].filter((part) => !part.closest("[aria-hidden=true]"));
    const texts = seen.flatMap((part) => [...part.childNodes].filter((node) => node.nodeType === 3).map((node) => node.textContent));
    for (const text of texts.filter((words) => /[A-Z]{2}|[A-Z]\/[A-Z]|[a-z]{3}/.test(words))) {
      const word = plain(text.replace(/[^\x20-\x7e\u03a3\u207b\u00b9].*/, ""));
      if (!plain(one.getAttribute("aria-label")).includes(word)) wrong.push(`label ${text}: ${one.getAttribute("aria-label")}`);
    }
  }
  const purposes = [...document.querySelectorAll("input")].map((one) => one.type);
  const others = purposes.filter((type) => !["text", "checkbox", "range", "file"].includes(type));
  for (const type of others) wrong.push(`an input of type ${type}: has it a purpose of the user?`);
}

/** Pictures have a text or are hidden, and nothing is played. */
function judgePictures() {
  for (const one of document.querySelectorAll("img, svg, canvas")) {
    if (!one.closest("[aria-hidden=true]") && !one.getAttribute("alt") && !one.getAttribute("aria-label")) wrong.push(`picture: ${called(one)}`);
  }
  for (const one of document.querySelectorAll("audio, video, iframe, object, embed, marquee, blink")) wrong.push(`played: ${called(one)}`);
}

/** What scrolls can be reached by the keyboard. */
function judgeScrolling() {
  for (const one of all("*")) {
    const scrolls = one.scrollHeight > one.clientHeight + 2 && /auto|scroll/.test(getComputedStyle(one).overflowY);
    if (scrolls && one.tabIndex < 0 && !one.querySelector(`${CONTROLS}, textarea`)) wrong.push(`scroll: ${called(one)}`);
  }
}

/** Returns whether an element is in view in the box that it scrolls in. */
function isInView(one) {
  const [box, outer] = [one, one.closest(".scroll") ?? document.documentElement].map((of) => of.getBoundingClientRect());
  return box.top >= outer.top && box.bottom <= outer.bottom && box.left >= outer.left && box.right <= outer.right;
}

/** A target of less than 24 pixels has so much room that a circle of 24 pixels around its centre meets no other target. */
function judgeTargets() {
  const isLabel = (one) => one.type === "checkbox" && one.closest("label");
  const targets = all("button, select, input, textarea, summary, a.button").map((one) => isLabel(one) || one).filter(isInView);
  const boxes = targets.map((one) => one.getBoundingClientRect());
  boxes.forEach((box, at) => {
    if (Math.min(box.width, box.height) >= 24) return;
    const [x, y] = [box.left + box.width / 2, box.top + box.height / 2];
    const isNear = (other, of) => of !== at &&
      Math.hypot(Math.max(other.left - x, 0, x - other.right), Math.max(other.top - y, 0, y - other.bottom)) < 12;
    const near = boxes.findIndex(isNear);
    const size = `${box.width.toFixed()} by ${box.height.toFixed()}`;
    if (near >= 0) wrong.push(`target ${size}: ${called(targets[at])}, near ${called(targets[near])}`);
  });
}

const numbersIn = (colour) => colour.match(/[\d.]+/g).map(Number);
const opacityOf = (colour) => numbersIn(colour)[3] ?? 1;

function lightOf(colour) {
  const linear = (part) => part <= 0.03928 ? part / 12.92 : ((part + 0.055) / 1.055) ** 2.4;
  const [red, green, blue] = numbersIn(colour).slice(0, 3).map((part) => linear(part / 255));
  return 0.2126 * red + 0.7152 * green + 0.0722 * blue;
}

/** Returns a colour that is partly transparent, in front of another one. */
function mixed(front, back) {
  const [parts, others, opacity] = [numbersIn(front), numbersIn(back), opacityOf(front)];
  return `rgb(${[0, 1, 2].map((at) => parts[at] * opacity + others[at] * (1 - opacity)).join(", ")})`;
}

/** Returns the colour behind the text of an element; the first colour of a gradient. */
function behind(one) {
  if (!one) return "rgb(255, 255, 255)";
  const { backgroundColor, backgroundImage } = getComputedStyle(one);
  if (opacityOf(backgroundColor) === 1) return backgroundColor;
  const gradient = /rgb\([^)]*\)/.exec(backgroundImage);
  return gradient ? gradient[0] : mixed(backgroundColor, behind(one.parentElement));
}

function contrastOf(...colours) {
  const [high, low] = colours.map(lightOf).sort((a, b) => b - a);
  return (high + 0.05) / (low + 0.05);
}

/** Texts have a contrast of 4.5 at least, large ones of 3, and what has changed is seen without colours too. */
function judgeColours() {
  for (const one of all("*")) {
    const hasText = [...one.childNodes].some((node) => node.nodeType === 3 && node.textContent.trim());
    const { color, fontSize, fontWeight } = getComputedStyle(one);
    if (!hasText || opacityOf(color) < 0.1 || one.closest(":disabled, svg, option, optgroup")) continue;
    const isLarge = parseFloat(fontSize) >= (Number(fontWeight) >= 700 ? 18.66 : 24);
    const contrast = contrastOf(color, behind(one));
    if (contrast < (isLarge ? 3 : 4.5)) wrong.push(`contrast ${contrast.toFixed(1)}: ${called(one)} ${one.textContent.slice(0, 20)}`);
  }
  for (const one of all(".changed")) {
    if (!/underline/.test(getComputedStyle(one).textDecorationLine)) wrong.push(`only coloured: ${called(one)} ${one.textContent}`);
  }
}

/** The edges of controls have a contrast of 3 at least to what is around them; other buttons are seen by their text. */
function judgeEdges() {
  for (const one of all("button, a.button, select, textarea, input")) {
    const { borderTopWidth, borderTopColor } = getComputedStyle(one);
    if (one.matches(":disabled, .cell, .key, [type=checkbox], [type=range]")) continue;
    const [width, outer] = [parseFloat(borderTopWidth), behind(one.parentElement)];
    const isSeen = width >= 1 && contrastOf(borderTopColor, outer) >= 3 || contrastOf(behind(one), outer) >= 3;
    if (!isSeen && !(one.matches("button") && width === 0)) wrong.push(`edge: ${called(one)}`);
  }
}

const JUDGES = [judgeDocument, judgeControls, judgeStructure, judgeReferences, judgeRoles, judgeLabels, judgePictures, judgeScrolling,
  judgeTargets, judgeColours, judgeEdges];
for (const judge of JUDGES) judge();
return [...new Set(wrong)].slice(0, 12);
