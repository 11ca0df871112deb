// What .ci/page-access asks a page: functions by their names. It is the body of a function, whose first argument is a name and the others
// are the words of that function.
const all = (selector, from = document) => [...from.querySelectorAll(selector)].filter((one) => one.checkVisibility());
const called = (one) => one.id || one.dataset.key || one.dataset.at || one.className || one.tagName;
const ofText = (one) => [...one.childNodes].filter((node) => node.nodeType === 3 && node.textContent.trim());
const isHiddenOnPurpose = (one) => one.closest("#live, svg, option, optgroup") || getComputedStyle(one).clipPath !== "none";

/** Returns the box of the text of an element, without its descendants. */
function boxOf(one) {
  const range = document.createRange();
  const boxes = ofText(one).flatMap((node) => (range.selectNodeContents(node), [...range.getClientRects()]));
  return { left: Math.min(...boxes.map((box) => box.left)), right: Math.max(...boxes.map((box) => box.right)),
    top: Math.min(...boxes.map((box) => box.top)), bottom: Math.max(...boxes.map((box) => box.bottom)) };
}

const texts = (from) => all("*", from).filter((one) => ofText(one).length && !isHiddenOnPurpose(one));

const lightOf = (colour) => {
  const [red, green, blue] = colour.match(/[\d.]+/g).slice(0, 3).map((part) => part / 255)
    .map((part) => part <= 0.03928 ? part / 12.92 : ((part + 0.055) / 1.055) ** 2.4);
  return 0.2126 * red + 0.7152 * green + 0.0722 * blue;
};

/** Returns the first colour behind an element. */
function behind(one) {
  for (; one; one = one.parentElement) {
    const { backgroundColor, backgroundImage } = getComputedStyle(one);
    if (!/, 0(\.\d+)?\)$/.test(backgroundColor)) return backgroundColor;
    if (backgroundImage !== "none") return /rgb\([^)]*\)/.exec(backgroundImage)[0];
  }
  return "rgb(255, 255, 255)";
}

const functions = {
  /** Returns the controls that Tab must reach, in the order of the page, each by its number among all elements. */
  stops() {
    const every = [...document.querySelectorAll("*")];
    return all("a[href], button, input, select, textarea, summary, [tabindex='0']").filter((one) => one.tabIndex >= 0 && !one.disabled)
      .map((one) => every.indexOf(one));
  },

  /** Returns the number of the control that has the focus, and what is wrong with how it is seen. */
  focus() {
    const one = document.activeElement;
    if (!one || one === document.body) return [-1, []];
    const { left, right, top, bottom, width, height } = one.getBoundingClientRect();
    const at = (from, size, part) => from + size * part;
    const points = [0.1, 0.5, 0.9].flatMap((x) => [0.1, 0.5, 0.9].map((y) => [at(left, width, x), at(top, height, y)]));
    const isSeen = points.some(([x, y]) => one.contains(document.elementFromPoint(x, y)));
    const style = getComputedStyle(one);
    const colours = [style.outlineColor, behind(one.parentElement)].map(lightOf).sort((a, b) => b - a);
    const contrast = (colours[0] + 0.05) / (colours[1] + 0.05);
    const wrong = [!isSeen && "hidden", (style.outlineStyle === "none" || parseFloat(style.outlineWidth) < 2) && "no outline",
      contrast < 3 && `outline ${contrast.toFixed(1)}`, (right < 0 || bottom < 0 || left > innerWidth || top > innerHeight) && "outside"];
    return [[...document.querySelectorAll("*")].indexOf(one), wrong.filter(Boolean).map((why) => `${why}: ${called(one)}`)];
  },

  /** Lets the next Tab reach the first control. */
  start() {
    document.body.tabIndex = -1;
    document.body.focus();
    document.body.removeAttribute("tabindex");
    scrollTo(0, 0);
  },

  name: (number) => called([...document.querySelectorAll("*")][number]),

  /** Returns texts that are cut off: by their own box, or by one around them that does not scroll. */
  cut() {
    const wrong = [];
    for (const one of texts()) {
      const text = boxOf(one);
      for (let box = one; box && box !== document.body; box = box.parentElement) {
        const { overflowX, overflowY } = getComputedStyle(box);
        if (/auto|scroll/.test(overflowX + overflowY)) break;
        if (!/hidden|clip/.test(overflowX + overflowY)) continue;
        const { left, right, top, bottom } = box.getBoundingClientRect();
        const isCut = text.left < left - 2 || text.right > right + 2 || text.top < top - 3 || text.bottom > bottom + 3;
        const isElsewhere = one.id === "refusal" && by("causes").textContent.includes(one.textContent);
        if (isCut && !isElsewhere) wrong.push(`${called(one)}: ${one.textContent.trim().slice(0, 20)}`);
      }
    }
    return wrong.slice(0, 12);
  },

  /** Returns texts of keys that lie over each other. */
  overlaps() {
    const found = texts(by("keys")).map((one) => [one, boxOf(one)]);
    const wrong = [];
    found.forEach(([one, box], at) => found.slice(at + 1).forEach(([other, its]) => {
      const wide = Math.min(box.right, its.right) - Math.max(box.left, its.left);
      // The box of a text is a line, which is higher than its letters.
      const middle = [box, its].map(({ top, bottom }) => (top + bottom) / 2);
      const size = Math.max(...[one, other].map((of) => parseFloat(getComputedStyle(of).fontSize)));
      if (wide > 1 && Math.abs(middle[0] - middle[1]) < size * 0.75) wrong.push(`${one.textContent} over ${other.textContent}`);
    }));
    return wrong.slice(0, 12);
  },

  /** Returns the sizes of the letters of all texts, by what is called the same. */
  sizes() {
    const found = {};
    for (const one of texts()) found[`${called(one)} ${one.tagName}`] ??= parseFloat(getComputedStyle(one).fontSize);
    return found;
  },

  /** Sets the spacing of texts that WCAG names, or takes it away. */
  space(isOn) {
    const sheet = new CSSStyleSheet();
    sheet.replaceSync("* { line-height: 1.5 !important; letter-spacing: 0.12em !important; word-spacing: 0.16em !important; } " +
      "p { margin-bottom: 2em !important; }");
    document.adoptedStyleSheets = isOn ? [sheet] : [];
  },

  /** Returns what is wider than the page, but for what scrolls in its own box because it has two dimensions. */
  wide() {
    const wrong = document.documentElement.scrollWidth > innerWidth ? ["the page"] : [];
    const isOfItsOwn = (one) => one.closest(".scroll, #lcd, #map, #cell, #stack, #processor");
    for (const one of all("body *")) {
      const { right, left, width } = one.getBoundingClientRect();
      const isOut = width > 1 && (right > innerWidth + 1 || left < -1);
      if (isOut && !isOfItsOwn(one) && !isHiddenOnPurpose(one)) wrong.push(called(one));
    }
    return wrong.slice(0, 12);
  },

  /** Returns the middle of an element. */
  middle(selector) {
    const one = document.querySelector(selector);
    one.scrollIntoView({ block: "nearest" });
    const { left, top, width, height } = one.getBoundingClientRect();
    return [left + width / 2, top + height / 2];
  },

  /** Waits until the display has changed so many times. Returns when it changed, in milliseconds. */
  changes: (count) => new Promise((done) => {
    const times = [];
    new MutationObserver((_, observer) => {
      if (times.push(displayedAt) < count) return;
      observer.disconnect();
      done(times);
    }).observe(by("lcd"), { attributes: true, attributeFilter: ["data-text"] });
  }),

  /** Shows the text of the display again, with its timer called at once. Returns how often the text moves, and how many milliseconds that
      takes at the pace of the timer. */
  moves() {
    const { setInterval: begin, clearInterval: end } = window;
    let [move, pace, isOver, count] = [null, 0, false, 0];
    window.setInterval = (call, milliseconds) => ([move, pace] = [call, milliseconds], -1);
    window.clearInterval = (timer) => timer === -1 ? isOver = true : end.call(window, timer);
    showDisplay(displayed, true);
    for (isOver = false; move && !isOver && count < 1000; count++) move();
    Object.assign(window, { setInterval: begin, clearInterval: end });
    return [count, count * pace];
  },

  /** Changes each choice and box by its own event; returns those that move the focus, or open something. */
  inputs() {
    const wrong = [];
    for (const one of all("select, input[type=checkbox], input[type=range]")) {
      one.focus();
      const before = one.type === "checkbox" ? one.checked : one.value;
      if (one.type === "checkbox") one.checked = !before;
      else if (one.options?.length > 1) one.value = one.options[1].value;
      for (const kind of ["input", "change"]) one.dispatchEvent(new Event(kind, { bubbles: true }));
      if (one.checkVisibility() && document.activeElement !== one || by("sure").open) wrong.push(called(one));
      if (one.type === "checkbox") one.checked = before;
      else one.value = before;
      for (const kind of ["input", "change"]) one.dispatchEvent(new Event(kind, { bubbles: true }));
    }
    return wrong;
  },
};
return functions[arguments[0]](...[...arguments].slice(1));
