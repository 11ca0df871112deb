"use strict";
// Lessons, and questions about the next value.

let lessonNames = [];       // the names of all lessons, in their order
let question = null;        // what is asked before a step: the name of the value, and how the step is made
let asked = null;           // the question that the last action has answered or removed

/** Fills the list of lessons, in their groups, with their numbers. */
function listLessons(groups) {
  lessonNames = groups.flatMap(([, rows]) => rows.map(([name]) => name));
  const options = groups.map(([label, rows]) => make("optgroup", { label }, ...rows.map(([value, title]) =>
    make("option", { value }, `${lessonNames.indexOf(value) + 1}. ${title}`))));
  by("lessons").replaceChildren(make("option", { value: "" }, "Lessons"), ...options);
  chooseOpen();
}

/** Chooses the lesson that is open in the list. */
function chooseOpen() {
  by("lessons").value = lesson?.name ?? "";
  by("lessons").title = by("lessons").selectedOptions[0]?.textContent ?? "";
}

async function openLesson(name) {
  if (!await isSure()) return chooseOpen();
  await ask({ do: "lesson", name });
  forget();
  for (const id of ["trace-panel", "lesson"]) by(id).open = true;
  choosePanel("lesson");
  by("lesson").scrollIntoView({ block: "nearest" });
}

/** Opens the lesson before the current one, or the one after it. */
const openBeside = (step) => openLesson(lessonNames[lessonNames.indexOf(lesson.name) + step]);

/** Goes on with the lesson, after a question if there is one. While it is asked, the same button goes on without an answer. */
async function next(how) {
  if (how !== "all" && !asked && by("asking").checked && openQuestion({ kind: how }, currentCommand(), how === "step")) return;
  await makeNext(how);
}

async function makeNext(how) {
  await ask({ do: "next", how, ...pieces() });
  if (present().pos[0].startsWith("Micro")) for (const id of ["processor-panel", "listing-panel"]) by(id).open = true;
  if (how !== "step") await drive();
}

/** Returns whether a part of the lesson had been executed as a whole in a state. */
function isExecuted(number, state) {
  const entry = lesson.numbers[number];
  return entry !== null && entry < state.entries - (state.doing ? 1 : 0);
}

/** Returns the number of the part that is the next command of the lesson in a state; -1 at the end of the lesson. */
const nextIn = (state) => lesson.parts.findIndex(([, isCommand], number) => isCommand && !isExecuted(number, state));

/** Returns the text of the next command of the lesson; an empty text at its end. */
function currentCommand() {
  const current = nextIn(present());
  return current < 0 ? "" : lesson.parts[current][0].trim();
}

/** Returns a paragraph with the number of steps that had been made of the next command in a state, if it is executed in pieces. */
function stepsMade(number, state) {
  if (lesson.numbers[number] !== state.entries - 1) return [];
  const [all, made] = [lesson.parts[number][0], state.doing].map((one) => /^(?:step|trace) (\d+)$/.exec(one.trim())?.[1]);
  const verb = made === "1" ? "was" : "were";
  return all && made ? [make("p", { class: "none" }, `${made} of ${counted(Number(all), "step")} ${verb} made`)] : [];
}

// How many lines of a block or a reply a lesson shows at a time.
const LONG = 8;

/** Returns a block or a reply of a lesson. A long one scrolls within its own box, so that the explanations around it stay in view. */
function textIn(text, kind) {
  const count = text.split("\n").length;
  if (count <= LONG) return [make("pre", { class: kind }, text)];
  return [make("pre", { class: `${kind} long`.trim(), tabindex: "0", role: "group", "aria-label": `${count} lines` }, text),
    make("p", { class: "none" }, `${count} lines: scroll to see all`)];
}

/** Shows the lesson with its next command in a state. The buttons execute the next command in the last state. */
function showLesson(state) {
  // The large page with its lesson would have an empty half without one.
  if (!lesson && by("large").checked && by("panel").value === "lesson") return choosePanel("trace-panel");
  by("lesson").hidden = !lesson;
  // On the large page another panel may have its place.
  by("lesson-step").hidden = !lesson || !by("large").checked || by("panel").value === "lesson";
  if (!lesson) return;
  const number = lessonNames.indexOf(lesson.name);
  by("lesson").querySelector("h2").textContent = `${number + 1} of ${lessonNames.length}: ${lesson.title}`;
  const current = nextIn(state);
  fill("parts", ...lesson.parts.map(([text, isCommand, paragraphs], number) => {
    const entry = lesson.numbers[number] ?? -1;
    const reply = entry >= 0 && entry < sessionEnd(state) ? commandIn(state, entry).reply : [];
    const kinds = [!isCommand && "comment", isExecuted(number, state) && "done", number === current && "next"];
    return make("li", { class: kinds.filter(Boolean).join(" "), "aria-current": number === current ? "step" : null },
      ...(isCommand ? textIn(text.replace(/\n+$/, ""), "") : []),
      ...paragraphs.map((words) => make("p", { class: /^\s/.test(words) ? "set-in" : "" }, words)),
      ...(number === current ? stepsMade(number, state) : []),
      ...(reply.length ? textIn(reply.join("\n"), "reply") : []));
  }), ...(current < 0 ? [make("li", { class: "comment" }, make("p", {}, "This is the end of the lesson."))] : []));
  reveal(by("parts"), by("parts").querySelector(".next") || by("parts").lastElementChild);
  for (const id of ["next-step", "next-command", "next-all", "lesson-step"]) by(id).disabled = nextIn(present()) < 0 || isGone;
  by("lesson-before").disabled = number <= 0 || isGone;
  by("lesson-after").disabled = number < 0 || number === lessonNames.length - 1 || isGone;
}

// ---- Questions

/** Returns the value of a name in a state, as the page shows it. */
function valueOf(state, { name, isWord }) {
  if (name === "display") return state.display[0];
  if (name === "ALPHA") return state.alpha[0];
  if (state.pos[0].startsWith("Micro") || isWord) return partsOf(state.cpu)[name];
  const at = ["T", "Z", "Y", "X", "LAST X"].indexOf(name);
  return at >= 0 ? state.numbers[at] : state.values[Number(name.slice(1))];
}

/** Asks for the next value before a step or a command is executed. Returns whether there is a question about it. */
function openQuestion(how, command, isStep) {
  if (isGone) return false;
  const { asks, word, pos } = present();
  const isStepped = isStep && /^(step|trace)\b/.test(command) && asks;
  if (!isStepped && !/^key\s/.test(command)) return false;
  question = { ...how, name: isStepped ? asks : "display", isWord: isStepped && pos[0].startsWith("Micro") };
  if (by("large").checked) choosePanel("lesson");
  by("question").hidden = false;
  const what = asks === "RTN" ? "are the return addresses, RTN," : `is ${asks}`;
  by("question-text").textContent = isStepped ? `What ${what} after ${word}?` : `What does the display show after ${command}?`;
  by("answer").value = "";
  by("verdict").textContent = "";
  by("answer").focus();
  return true;
}

function closeQuestion() {
  question = null;
  by("question").hidden = true;
  by("verdict").textContent = "";
}

/** Returns an answer as the functions below read numbers: with a plain minus and no plus, without spaces around its E or between groups of
    three digits, and with an E for a power of ten such as `*10^4`. */
const plainNumber = (text) => text.replace(/[\u2010-\u2014\u2212]/g, "-").replace(/ *[×·*X] *10 *(?:\^|\*\*) */, "E").replace(/ *E */, "E")
  .replace(/^(-? *)10 *(?:\^|\*\*) */, (_, sign) => `${sign}1E`).replace(/^\+ *|(?<=E)\+/g, "").replace(/^- +/, "-").replace(/(?<=\d) (?=\d{3}(?!\d))/g, "");

/** Returns the number that a text spells with the separators of the display, which flag 28 chooses, and the place value of its last digit;
    NaN if it spells none. An exponent may follow a space, a minus or an E. */
function numberShown(text, flags) {
  const hasPoint = flags.split(" ").includes("28");
  const plain = hasPoint ? text : text.replace(/[.,]/g, (one) => one === "." ? "," : ".");
  const found = /^(-?)(\d{1,3}(?:,\d{3})+|\d*)(?:\.(\d*))?(?:(?: |E|(?=-))(-?\d{1,2}))?$/.exec(plain);
  if (!found || !found[2] && !found[3]) return [NaN, 0];
  const [, sign, whole, part = "", exponent = "0"] = found;
  return [Number(`${sign}${whole.replaceAll(",", "")}.${part}E${exponent}`), Number(`1E${Number(exponent) - part.length}`)];
}

/** Returns whether ALPHA mode is on. */
const isInAlpha = ({ flags: [flags] }) => flags.split(" ").includes("48");

/** Returns whether a text of the display is a number that is being typed. The display shows it with a point, whatever flag 28 is. */
const isTyping = (text, state) => !isInAlpha(state) && /^([-\d., E]+|(\d{2,3} )?NEG)_$/.test(text);

/** Returns whether the display shows numbers with a point or a comma. Only FIX 0 without flag 29 has none; flags 36 to 39 are its digits. */
function hasPointInDisplay(flags) {
  const set = flags.split(" ");
  return !set.includes("40") || ["29", "36", "37", "38", "39"].some((flag) => set.includes(flag));
}

/** Returns more than the display rounds a number by: one of the last digit that it shows. In ENG this digit is one of the mantissa, and zeros
    may follow it; flags 36 to 39 are how many follow the first one, and the display shows at most eight digits. The greatest number is cut and
    not rounded. */
function mostRounded(x, unit, flags) {
  const set = flags.split(" ");
  if (!set.includes("41") || x === 0) return unit;
  const digits = ["36", "37", "38", "39"].reduce((sum, flag) => 2 * sum + Number(set.includes(flag)), 0);
  return 10 ** (Math.floor(Math.log10(Math.abs(x))) - Math.min(digits, 7));
}

/** Returns the number that the display shows: that in X, perhaps rounded, or the one that is being typed; NaN if it shows a text, a message
    or a program line, even if it has digits. */
function numberInDisplay({ display: [text], flags: [flags], numbers, program }) {
  const shownText = text.trim();
  if (program || isInAlpha({ flags: [flags] })) return NaN;
  if (shownText.endsWith("_")) return numberShown(shownText.slice(0, -1).trim(), `${flags} 28`)[0];
  const isNumber = /[.,]/.test(shownText) || !hasPointInDisplay(flags);
  const [number, unit] = isNumber ? numberShown(shownText, flags) : [NaN, 0];
  const x = Number(numbers[3]);
  return number === x || Math.abs(number - x) < mostRounded(x, unit, flags) ? number : NaN;
}

/** Returns whether an answer spells a number: in any usual way, or as the display writes it. If the display shows this number in fewer
    digits, the answer may be that. */
function isSameNumber(given, wanted, name, state) {
  const { flags: [flags], display } = state;
  const plain = plainNumber(given);
  const answers = [/^[-.\d]/.test(plain) && !/^-?0[XBO]/.test(plain) ? Number(plain) : NaN, numberShown(plain, flags)[0]];
  const value = name === "display" ? numberInDisplay(state) : Number(wanted || NaN);
  if (answers.includes(value) && !Number.isNaN(value)) return true;
  if (name !== "X" || Number.isNaN(numberInDisplay(state))) return false;
  const [rounded, unit] = numberShown(display[0].trim(), flags);
  return answers.includes(rounded) && !Number.isNaN(rounded) && Math.abs(rounded - value) < mostRounded(value, unit, flags);
}

/** Returns a text without its quotes, if it has any, and without the spaces at its end, which the display does not show. */
const plainText = (text) => text.toUpperCase().replace(/^ *"(.*)" *$/, "$1").trimEnd();

/** Returns whether an answer names a value in a state: numbers may be written in other ways, digits without the zeros before them and in
    groups, return addresses without the empty ones after them, a number that is being typed without the `_` after it, texts without quotes
    and without the spaces at their end, and an empty text as "". */
function isSame(answer, value, { name, isWord }, state) {
  const [given, wanted] = [answer, value].map((text) => plainText(text.trim()));
  const mayBeText = name === "ALPHA" || name === "display" || value.startsWith('"');
  if (!mayBeText && /^ *".*" *$/.test(answer)) return false;
  if (plainText(answer) === plainText(value) || answer.trim() === '""' && value === "empty") return true;
  // A text is no number, even if it has digits, and the spaces before it belong to it.
  if (name === "ALPHA" || name !== "display" && value.startsWith('"')) return false;
  // A register that is neither a number nor a text is shown by its 14 digits, after "=" except in the display.
  if (name !== "display" && [wanted, wanted.replace(/^=/, "")].includes(given)) return true;
  if (name === "RTN") return given !== "" && given.split(/[ ,]+/).join(" ").padEnd(wanted.length, " 0000") === wanted;
  if (isWord) {
    const digits = given.replaceAll(" ", "").replace(/^0X(?=.)/, "");
    return /^[0-9A-F]+$/.test(digits) && digits.replace(/^0+(?=.)/, "") === wanted.replace(/^0+(?=.)/, "");
  }
  const typed = name === "display" && isTyping(wanted, state) ? wanted.slice(0, -1).trim() : null;
  return given !== "" && given === typed || isSameNumber(given, wanted, name, state);
}

/** Executes the step that was asked about, and compares the answer with what the bench shows then. */
async function answerQuestion() {
  const answered = asked;
  if (!answered) return;
  const given = by("answer").value;
  await makeNext(answered.kind);
  const value = valueOf(present(), answered) || "empty";
  const isGiven = given.trim() !== "";
  const [isRight, shownName] = [isGiven && isSame(given, value, answered, present()), answered.name === "display" ? "the display" : answered.name];
  const text = `${shownName} is ${value}${isGiven && !isRight ? `, and not ${given.trim()}` : ""}.`;
  by("verdict").textContent = isRight ? `Right: ${text}` : text.replace(/^t/, "T");
}
