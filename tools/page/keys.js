"use strict";
// The keys of the page, and what the computer's keyboard types.

const FACES = {
  "SIGMA+": "Σ+", "S-": "Σ−", "1/X": "1/x", "Y^X": "yˣ", SQRT: "√x", "X^2": "x²", "10^X": "10ˣ", "E^X": "eˣ", "X<>Y": "x≷y",
  CLS: "CLΣ", RDN: "R↓", ASIN: "SIN⁻¹", ACOS: "COS⁻¹", ATAN: "TAN⁻¹", BACK: "←", ENTER: "ENTER ↑", CLX: "CLx", "X=Y?": "x=y?",
  "X<=Y?": "x≤y?", "X>Y?": "x>y?", "X=0?": "x=0?", "P-R": "P→R", "R-P": "R→P", PI: "π", LASTX: "LASTx", "*": "×", "/": "÷",
  "-": "−",
};
// How a screen reader says what is printed on the keys.
const SPOKEN = {
  "SIGMA+": "sigma plus", "S-": "sigma minus", "1/X": "one over x", "Y^X": "y to the power x", SQRT: "square root", "X^2": "x squared",
  LOG: "common logarithm", "10^X": "ten to the power x", LN: "natural logarithm", "E^X": "e to the power x", "X<>Y": "x exchange y",
  CLS: "clear sigma", RDN: "roll down", "%": "percent", SIN: "sine", ASIN: "arc sine", COS: "cosine", ACOS: "arc cosine", TAN: "tangent",
  ATAN: "arc tangent", XEQ: "execute", STO: "store", LBL: "label", RCL: "recall", GTO: "go to", SST: "single step", BST: "back step",
  CHS: "change sign", ISG: "increment and skip if greater", EEX: "enter exponent", RTN: "return", BACK: "correct", CLX: "clear x",
  "X=Y?": "x equal to y?", SF: "set flag", CF: "clear flag", "FS?": "is flag set?", "X<=Y?": "x less than or equal to y?",
  "P-R": "polar to rectangular", "R-P": "rectangular to polar", "X>Y?": "x greater than y?", FIX: "fixed", SCI: "scientific",
  ENG: "engineering", "X=0?": "x equal to zero?", PI: "pi", LASTX: "last x", VIEW: "view", "R/S": "run or stop", PRGM: "program",
  "+": "plus", "-": "minus", "*": "times", "/": "divide", ".": "point",
};
/** Returns how a key is called. Letters that are printed on it are a part of its name, so that they can be said to press it. */
function spoken(name) {
  const [words, face] = [SPOKEN[name] ?? name, FACES[name] ?? name];
  const plain = (text) => text.toLowerCase().replaceAll(" ", "");
  const isPrinted = /[A-Z]{2}|[A-Z]\/[A-Z]/.test(face) && !plain(words).includes(plain(face.replace(/ .*/, "")));
  return isPrinted ? `${face} ${words}` : words;
}

let letters = {};           // the key of each letter

function drawKeys(rows) {
  letters = {};
  const lines = rows.map((row) => make("div", { class: `keys keys-${row.length}` }, ...row.map(([name, shifted, letter]) => {
    if (letter) letters[letter] = name;
    const lacks = { face: unsupported[name], shifted: unsupported[`SHIFT ${name}`] };
    const means = [spoken(name) + (lacks.face ? " (not supported)" : ""),
      shifted && `shifted ${spoken(shifted)}${lacks.shifted ? " (not supported)" : ""}`,
      letter && `letter ${letter === " " ? "space" : letter}`];
    const kind = (of) => `${of}${lacks[of] ? " lacking" : ""}`;
    const button = make("button", { type: "button", class: "key", "data-key": name, tabindex: -1,
      title: [name, lacks.face, lacks.shifted].filter(Boolean).join("\n"), "aria-label": means.filter(Boolean).join(", ") },
    make("span", { class: kind("shifted") }, FACES[shifted] ?? shifted ?? ""), make("span", { class: kind("face") }, FACES[name] ?? name),
    make("span", { class: "letter" }, letter === " " ? "␣" : letter ?? ""));
    button.addEventListener("click", () => press([name]));
    return button;
  })));
  fill("keys", ...lines);
  by("keys").querySelector("[data-key='SIGMA+']").tabIndex = 0;
}

/** Moves the focus from one key to another by the arrow keys. */
function walk(event) {
  const rows = [...by("keys").children].map((row) => [...row.children]);
  if (moved(rows, event.target.closest(".key"), event.key)) event.preventDefault();
}

let pressing = Promise.resolve();

/** Presses keys after those that were pressed earlier. `names` may be a function, if the keys depend on what the earlier ones did. */
function press(names) {
  const before = pressing;
  pressing = act(() => before.then(() => pressNow(typeof names === "function" ? names() : names)));
  return pressing;
}

/** Sends each key as a command of its own. If a key starts a program, the program is run, if the user wants that. */
async function pressNow(names) {
  if (names.length) forget();
  for (const name of names) {
    if (isGone) return;
    if (name === "R/S" && isChanging()) await ask({ do: "stop" });
    const before = present();
    // While ALPHA is on or a prompt is open, a key with a letter has another meaning.
    const isOther = /ALPHA|prompt/.test(before.keys_if) && Object.values(letters).includes(name);
    reasons[entries.length] = isOther ? null : unsupported[before.shift ? `SHIFT ${name}` : name];
    await ask({ do: "give", deck: `key ${name}\n`, first: true });
    const { last } = present();
    flash(name, last[0] === `key ${name}` && last[1].length > 0);
    const isStarted = before.pos[0].startsWith("Idle") && !isIdle();
    if (isStarted && by("auto").checked) act(() => give(`run ${MOST_STEPS}\n`, { on: true }));
  }
}

let fading = null;

/** Lights a key for a moment. No key keeps this, because it would flash again whenever the keys are hidden and shown. */
function flash(name, isRefused) {
  const key = [...document.querySelectorAll(".key")].find((one) => one.dataset.key === name);
  const fade = () => document.querySelectorAll(".pressed, .refused").forEach((one) => one.classList.remove("pressed", "refused"));
  clearTimeout(fading);
  fade();
  void key.offsetWidth;
  key.classList.add(isRefused ? "refused" : "pressed");
  fading = setTimeout(fade, 600);
}

const TYPED = {
  Enter: "ENTER", Backspace: "BACK", ",": ".", e: "EEX", n: "CHS", s: "SHIFT", a: "ALPHA", p: "PRGM", r: "R/S", x: "XEQ", y: "X<>Y",
};
const OWN = "0123456789+-*/.";

/** Returns the calculator keys for a key of the computer; an empty list if there are none. */
function keysFor(pressed) {
  if (present().spells) {
    if (pressed === "Enter") return ["ALPHA"];
    if (pressed === "Backspace") return ["BACK"];
    const letter = pressed.length === 1 ? pressed.toUpperCase() : "";
    return OWN.includes(letter) && letter ? ["SHIFT", letter] : letters[letter] ? [letters[letter]] : [];
  }
  if (OWN.includes(pressed)) return [pressed];
  const name = TYPED[pressed.length === 1 ? pressed.toLowerCase() : pressed];
  return name ? [name] : [];
}

/** Does what a key of the computer means. What it means is decided when its turn comes, after the keys before it. */
function typed(event) {
  const commands = { "[": goBack, "]": goForth, F8: runOn, F9: step, Escape: stop };
  if (event.ctrlKey || event.metaKey || event.altKey || event.isComposing || by("sure").open) return;
  const { key, target } = event;
  const isTyped = !commands[key] && (key.length === 1 || key === "Enter" || key === "Backspace");
  if (!commands[key] && !isTyped) return;
  const isInField = target.closest("textarea, input:not([type=checkbox]), select");
  if (key.length === 1 && !by("letters").checked || (isTyped || key.length === 1) && isInField) return;
  // Enter and space press the control that has the focus, but a space may be a letter of the calculator.
  const isControl = target.closest("button, a, summary, label");
  if (isControl && (key === "Enter" || key === " " && !(present().spells && target.closest(".key")))) return;
  event.preventDefault();
  if (isTyped) press(() => keysFor(key));
  else begun(commands[key]);
}
