"use strict";
// The page of the calculator. It sends requests to the server, which sends commands to the bench, and shows the replies. Nothing of
// the calculator is computed here. A state is what the bench showed at one time; `past` has the last states.

const [MOST_STEPS, MOST_STATES, MOST_ENTRIES, MOST_TRACED] = [9999999, 2000, 200, 60];
// The longest body of a request that the server accepts, in bytes.
const LONGEST_BODY = 8388608;
// How many bytes its files may have together: they are in base 64, which has 4 characters for 3 bytes, and have names.
const LONGEST_FILES = (LONGEST_BODY - 65536) / 4 * 3;

/** Returns a number of bytes for a message. */
const inBytes = (count) => counted(count, "byte");

let session = null;         // the number of the session that the page shows
let entries = [];           // its commands with their replies, as the server sent them, and whether they repeat those of a session before
let doing = null;           // the last command with the steps that were made, while it is executed in pieces
let past = [];              // the last states, the oldest first
let pastFirst = 0;          // the number of the first of them
let older = null;           // states before these that were found by executing the session again: their first number, and themselves
let shown = null;           // the number of the state that is shown; null means the last one
let lesson = null;          // the lesson: its name, its parts, and its position
let waits = 0;              // how many parts of decks wait to be executed
let driver = null;          // an object while this page has them executed; each start makes a new one
let isGone = false;         // whether the bench or the server has ended
let isServerGone = false;   // whether the server has ended
let told = -1;              // the number of the last change that the page knows
let since = 0;              // the first entry that the last action of the user made
let branches = [];          // the branches of the session that were left: their numbers, and what a list shows of them
let plugs = -1;             // how often pages were plugged or unplugged
let unsupported = {};       // why keys are not supported, by what is pressed
let reasons = {};           // why the keys of entries are not supported, by the number of the entry

// ---- The server

let line = Promise.resolve();   // requests are sent one after the other
let underway = 0;               // how many actions have not ended yet

/** Returns whether all actions have ended: no request, run or file is in progress, and no dialog is open. */
const isQuiet = () => underway === 0;

/** Performs an action of a key, a button or a file, and shows the error if it fails. An error without a text is shown already. */
async function act(call, tellWhy = tell) {
  underway += 1;
  try {
    await call();
  } catch (error) {
    if (error.message) tellWhy(error.message);
  } finally {
    underway -= 1;
  }
}

/** Performs an action that the user has begun. What was shown about the action before it goes away, and so does a question. */
function begun(call, tellWhy = tell) {
  forget();
  return act(call, tellWhy);
}

function forget() {
  since = entries.length;
  tell("");
  asked = question;
  closeQuestion();
}

/** Sends a request. It is repeated if no answer arrives, for example because the server had too many connections. The server executes
    a request with the same id only once. */
async function fetched(path, body) {
  const text = body && JSON.stringify({ ...body, id: `${Date.now()}-${Math.random()}` });
  const size = text ? new Blob([text]).size : 0;
  if (size > LONGEST_BODY) {
    throw new Error(`The request has ${inBytes(size)}: at most ${inBytes(LONGEST_BODY)} are allowed. Give fewer commands at a time, or use ./bench run.`);
  }
  const request = body && { method: "POST", headers: { "Content-Type": "application/json" }, body: text };
  for (let tries = 0; ; tries++) {
    const reply = await fetch(path, request).catch(() => null);
    if (reply) {
      if (!reply.ok) throw new Error((await reply.text()).trim());
      return reply;
    }
    if (tries === 4) break;
    await moment(100 << tries);
  }
  gone("tools/calculator has ended. Save the session here, then start tools/calculator again.", true);
  throw new Error("");
}

/** Sends a request after all earlier ones; without a body it only reads the state. The answer is stored and shown. */
function ask(body, path = "do") {
  const turn = line.then(async () => {
    const known = { session, since: entries.length, ...(past.length ? { at: pastFirst + past.length - 1 } : {}) };
    const reply = await (body ? fetched(path, { ...body, ...known }) : fetched(`state?${new URLSearchParams(known)}`));
    const answer = await reply.json();
    if (answer.states) take(answer, body === null);
    return answer;
  });
  line = turn.catch(() => {});
  return turn;
}

const OTHER_SESSION = "Another page of this calculator has begun another session: its last state is shown.";

/** Stores the states in an answer, and shows the last one. After an action of another page, an earlier state that is shown stays, unless it
    belongs to another session. */
function take(answer, isOther = false) {
  const isEarlier = isOther && (shown !== null || goal !== null);
  const isOver = isEarlier && answer.session !== session;
  const end = past.length ? lastNumber() : 0;
  if (answer.session !== session) {
    [session, entries, past, older, goal, lesson, since, reasons] = [answer.session, [], [], null, null, null, 0, {}];
    by("rate").textContent = "";
    tell("");
    tellOfFiles("", true);
  }
  if (answer.unsupported) unsupported = answer.unsupported;
  if (answer.keys) drawKeys(answer.keys);
  if (answer.lesson) lesson = { ...lesson, ...answer.lesson };
  if (answer.lessons) listLessons(answer.lessons);
  for (const [number, bytes, reply, isRepeated, refused] of answer.entries) {
    entries[number] = { bytes, text: textOf(bytes), reply, isRepeated, refused };
  }
  remember(answer.states);
  if (isEarlier && !isOver) stayEarlier(lastNumber() > end);
  else if (answer.version !== told) {
    [shown, goal, isPassed] = [null, null, false];
    closeQuestion();
  }
  [waits, told, doing, plugs, branches] = [answer.waits, answer.version, answer.doing, answer.plugs, answer.branches];
  gone(answer.ended, false);
  show();
  tellRefusals();
  if (isOver) tell(OTHER_SESSION, true);
  if (by("told").textContent === WAITING && answer.brought?.waits === 0) tellOfBrought(answer.brought);
}

/** Stays in an earlier state after an action of another page, whose refusals are not shown here. `hasStates` is whether the session has gone on.
    If the page has the state that is shown no more, it is found again. */
function stayEarlier(hasStates) {
  since = entries.length;
  isPassed ||= hasStates;
  const number = shown;
  if (number !== null && !isHeld(number)) act(() => goTo(() => number, true));
}

/** Returns the state after a change. Of long lists the change has only the items that differ. */
function changed(state, change) {
  const result = { ...state };
  for (const [name, value] of Object.entries(change)) {
    result[name] = value?.items ? [...state[name]] : value;
    for (const [at, one] of value?.items ?? []) result[name][at] = one;
  }
  return result;
}

/** Stores the states of an answer: a whole one if the page had none, and what each of the others changed. */
function remember({ at, base, changes }) {
  if (base) [past, pastFirst] = [[base], at];
  for (const change of changes) past.push(changed(past.at(-1), change));
  while (past.length > MOST_STATES) {
    past.shift();
    pastFirst += 1;
  }
}

// The controls that do something even if the bench has ended, and those of them that need the server.
const OF_SERVER = ["again", "begin", "open-deck", "lessons", "open-lesson", "open-branch"];
const WITHOUT_BENCH = [...OF_SERVER, "back", "forth", "moment", "now", "watched", "digit", "last-change", "branches", "zeros", "large", "tall",
  "letters", "theme", "panel", "asking", "yes", "no", "auto", "pace", "display"];

/** Disables the controls that could do nothing. */
function enable(isServer) {
  for (const control of document.querySelectorAll("button, select, textarea, input")) {
    const isAble = WITHOUT_BENCH.includes(control.id) && !(isServer && OF_SERVER.includes(control.id));
    control.disabled = isGone && !isAble && !control.closest("#trace, #map");
  }
}

/** Returns the session as the parts of a deck. Of a command that is being executed in pieces, it has the steps that were made. */
const deckParts = () => entries.map(({ bytes }, at) => bytesOf(`${at === entries.length - 1 && doing ? doing.trimEnd() : bytes}\n`));

/** Shows that the bench or the server has ended, and why; null if it has not. */
function gone(why, isServer) {
  const wasGone = isGone || isServerGone;
  [isGone, isServerGone] = [why !== null, isServer];
  if (isGone) driver = null;
  if (!isGone && !wasGone) return;
  by("ended").hidden = !isGone;
  document.body.classList.toggle("gone", isGone);
  by("ended").querySelector("p").textContent = why;
  by("again").hidden = isServer;
  enable(isServer);
  const deck = isServer ? addressOf(...deckParts()) : "deck";
  for (const link of document.querySelectorAll("a[download='session.deck']")) link.href = deck;
}

const TOO_MANY = "Too many pages of this calculator are open: this one is not updated. Close another one and reload.";

function listen(isAgain) {
  const events = new EventSource("events");
  events.onopen = () => by("refusal").textContent === TOO_MANY && tell("");
  events.onmessage = (event) => {
    const { version, ended } = JSON.parse(event.data);
    if (version <= told && (ended !== null) === isGone) return;
    // Another page has done something: what this page shows about its own last action is over.
    if (version > told && isQuiet() && shown === null) forget();
    act(() => ask(null));
  };
  events.onerror = () => {
    if (events.readyState !== EventSource.CLOSED) return fetched("state").catch(() => events.close());
    if (!isAgain) tell(TOO_MANY);
    return setTimeout(listen, 2000, true);
  };
}

// ---- Messages about an action

/** Shows a text below the display, with more about it below the keys; an empty text removes it. A note is no error. A text that is longer
    than its line is shown below the keys as a whole. */
function tell(text, isNote = false, ...more) {
  by("refusal").textContent = text;
  by("refusal").title = text;
  by("refusal").classList.toggle("note", isNote === true);
  const isCut = by("refusal").scrollWidth > by("refusal").clientWidth;
  const whole = isCut && !more.length ? [make("p", { class: isNote === true ? "note" : "" }, text)] : more;
  by("causes").hidden = !whole.length;
  by("causes").replaceChildren(...whole);
}

const isRefused = ({ text, reply }) => (reply.at(-1) ?? "").startsWith("! ") && !/^\s*show\s+(alpha|display)\s*$/.test(text);

/** Returns what was refused of an entry: its command, and before it the line, the instruction or the key that was refused. */
function refusedOf({ text, refused }) {
  const words = text.split("\n")[0];
  return refused ? `${refused} (${words})` : words;
}

/** Returns the refused commands that the last action executed, each with its number. The refusals of those that are repeated were shown
    before. */
const refusedNow = () => entries.map((entry, at) => [entry, at]).slice(since).filter(([entry]) => !entry.isRepeated && isRefused(entry));

/** Returns whether a key was refused because it is not supported: a function is then refused as 13, and another key as 18. In program mode
    lines of such functions are stored, and so a key is refused for another reason there. */
const isReason = (text, refusal) => text && refusal.startsWith(text.endsWith("the line is stored.") ? "! 13 " : "! 18 ");

/** Shows the refusals of the commands that the last action executed, with the usual causes of the last one. */
function tellRefusals() {
  const refused = refusedNow();
  if (!refused.length) return tellStop();
  const [entry, at] = refused.length > 1 ? refused[0] : refused.at(-1);
  const words = refusedOf(entry);
  const count = refused.length > 1 ? `${refused.length} commands were refused, the first is command ${commandNumber(at)}: ` : "";
  const later = refused.length === 1 && at < entries.length - 1 && !waits ? `command ${commandNumber(at)} was refused: ` : "";
  const why = isReason(reasons[at], entry.reply.at(-1)) ? `: ${reasons[at]}` : "";
  const text = `${count}${later}${entry.reply.at(-1)}  ${words}${why}`;
  if (by("refusal").textContent === text) return;
  tell(text);
  // A session that was saved as one page has no server that knows the causes.
  if (!isGone && !by("recorded")) act(() => tellCauses(text, at));
}

async function tellCauses(text, number) {
  const { line: place, causes } = await ask({ do: "causes", entry: number });
  if (by("refusal").textContent !== text || !causes) return;
  const list = make("dl");
  for (const [head, why] of causes.slice(0, 6)) list.append(make("dt", {}, head), make("dd", {}, why));
  tell(text, false, make("p", {}, text), ...(place ? [make("p", {}, place)] : []), list);
}

/** Shows why a run stopped, unless it ended by itself. */
function tellStop() {
  const entry = entries.at(-1);
  const isDone = since < entries.length && !entry.isRepeated && !waits;
  const reason = isDone && /^ran (\d+) (Break|Limit)$/.exec(entry.reply[0] ?? "");
  if (!reason) return;
  const why = reason[2] === "Break" ? "Stopped at a breakpoint" : `Stopped after ${counted(Number(reason[1]), "step")}`;
  tell(`${why}: Run goes on`, true);
}

// ---- Executing commands

/** Sends commands to be executed. */
async function give(deck, more = {}) {
  await ask({ do: "give", deck, ...more, ...pieces() });
  drive();
}

/** Returns the size of the next piece of a run. */
function pieces() {
  const pace = Number(by("pace").value);
  return pace ? { steps: Math.max(1, Math.round(pace / 20)) } : { seconds: 0.06 };
}

/** Has the commands that wait executed in pieces, and shows the state after each piece. */
const drive = () => act(async () => {
  if (driver) return;
  const own = driver = {};
  keep();
  try {
    while (driver === own && waits && !isGone) {
      const [pace, first] = [Number(by("pace").value), performance.now()];
      await ask({ do: "go", ...pieces() });
      const rest = first + (pace ? Math.max(50, 1000 / pace) : 0) - performance.now();
      if (rest > 0) await moment(rest);
      tellRate(performance.now() - first);
    }
  } finally {
    if (driver === own) driver = null;
    keep();
    show();
  }
});

/** Shows how fast the last piece of a run was. */
function tellRate(milliseconds) {
  const rate = present().made * 1000 / milliseconds;
  if (!rate || !entries.at(-1).text.startsWith("run ")) return;
  const digits = rate >= 100 ? Number(rate.toPrecision(2)).toLocaleString("en") : rate.toFixed(1);
  by("rate").textContent = `${digits} ${present().pos[0].startsWith("Micro") ? "words" : "lines"} per second`;
}

const isIdle = () => present().pos[0].startsWith("Idle");

/** Returns whether a button of the machine must not act, because the calculator is in program mode and nothing runs. */
function isProgramming(what) {
  const isOn = present().program && isIdle() && !waits;
  if (isOn) tell(`Program mode is on: press PRGM, then ${what}`, true);
  return isOn;
}

async function runOn() {
  if (isGone) return;
  if (waits) return drive();
  if (isProgramming("Run")) return;
  // Only a running program can be run further. If none runs, R/S starts one at the current position.
  if (isIdle()) await ask({ do: "give", deck: "key R/S\n" });
  if (!isIdle()) await give(`run ${MOST_STEPS}\n`, { on: true });
}

async function step() {
  if (isGone || isProgramming("Step")) return;
  driver = null;
  by("trace-panel").open = true;
  await ask(waits ? { do: "go", steps: 1 } : { do: "give", deck: "trace 1\n" });
}

async function stop() {
  driver = null;
  if (goal !== null) goal = null;
  else if (waits) await ask({ do: "stop" });
  else if (!isGone) isProgramming("Run");
}

// ---- The page

async function giveTyped() {
  const text = by("commands").value.replace(/\n*$/, "\n");
  if (!text.trim()) return;
  await give(text);
  by("commands").value = "";
}

function listenToControls() {
  const calls = {
    run: runOn, step, stop, back: goBack, forth: goForth, now: () => goTo(() => Infinity), give: giveTyped,
    again: () => ask({ do: "again" }).then(drive), branch: branchHere, "last-change": goToChange,
    "open-branch": () => branchFrom({ branch: Number(by("branches").value) }),
    "lesson-step": () => next("step"), "next-step": () => next("step"), "next-command": () => next("command"), "next-all": () => next("all"),
    "open-lesson": () => by("lessons").value && openLesson(by("lessons").value), "lesson-again": () => openLesson(lesson.name),
    "lesson-before": () => openBeside(-1), "lesson-after": () => openBeside(1),
    choose: () => by("files").click(), "open-deck": () => by("deck-file").click(),
    begin: async () => await isSure() && ask({ do: "begin" }),
  };
  for (const [id, call] of Object.entries(calls)) by(id).addEventListener("click", () => begun(call));
  by("display").addEventListener("click", () => showDisplay(displayed, true));
  by("export").addEventListener("click", () => begun(takeOut, tellOfFiles));
  by("moment").addEventListener("input", () => begun(() => goTo(() => Number(by("moment").value))));
  for (const id of ["list-page", "list-kind"]) by(id).addEventListener("change", () => begun(listPage));
  by("branches").addEventListener("change", linkBranch);
  by("commands").addEventListener("keydown", (event) => event.key === "Enter" && event.ctrlKey && begun(giveTyped));
  by("question").addEventListener("submit", (event) => {
    event.preventDefault();
    begun(answerQuestion);
  });
  for (const id of ["files", "deck-file"]) {
    by(id).addEventListener("change", () => {
      const files = [...by(id).files];
      if (files.length) begun(() => id === "files" ? bringIn(files) : openDeck(files[0]), tellOfFiles);
      by(id).value = "";
    });
  }
}

function listenToKeys() {
  by("keys").addEventListener("keydown", walk);
  by("map").addEventListener("keydown", walkMap);
  document.addEventListener("keydown", typed);
  // A clicked control must not receive the keys that are typed afterwards.
  document.addEventListener("mousedown", (event) => {
    const control = event.target.closest("button, a, summary, input[type=checkbox]");
    if (!control) return;
    event.preventDefault();
    // After a key of the calculator, what is typed is for the calculator, and not for the field in which was typed before.
    if (control.closest("#keys, #runs") && document.activeElement.matches("textarea, input, select")) document.activeElement.blur();
  });
  for (const kind of ["dragover", "dragleave", "drop"]) {
    document.addEventListener(kind, (event) => {
      event.preventDefault();
      by("drop").hidden = isGone || kind === "drop" || (kind === "dragleave" && !event.relatedTarget);
      const files = [...event.dataTransfer.files];
      if (kind === "drop" && files.length && !isGone) begun(() => bringIn(files), tellOfFiles);
    });
  }
}

/** Shows a session that was saved in this file, without a server. */
function replay(answer) {
  take({ ...answer, ended: null, waits: 0 });
  isGone = true;
  document.body.classList.add("recorded");
  by("trace-panel").open = true;
  by("needs").hidden = true;
  for (const link of document.querySelectorAll("a[download='session.deck']")) link.href = addressOf(...deckParts());
  shown = past.length > 1 ? pastFirst : null;
  tell("");
  enable(true);
  show();
}

function begin() {
  drawDisplay();
  const isDriven = restore();
  for (const id of ["page-in", "page-out"]) by(id).append(...[..."456789ABCDEF"].map((page) => make("option", { value: page }, page)));
  by("watched").addEventListener("change", showDigits);
  by("digit").append(...Array.from({ length: 14 }, (_, at) => make("option", { value: 13 - at }, `digit ${13 - at}`)));
  listenToSettings();
  listenToControls();
  listenToKeys();
  if (by("recorded")) return replay(JSON.parse(by("recorded").textContent));
  return act(async () => {
    await ask(null);
    forget();
    // A run that goes on may be refused yet.
    if (doing) since = entries.length - 1;
    listen();
    by("needs").hidden = true;
    const name = new URLSearchParams(location.search).get("lesson");
    // A reload keeps what was opened afterwards.
    if (name !== null) history.replaceState(null, "", location.pathname);
    if (name && !lessonNames.includes(name)) tell(`Unknown lesson '${name}': choose one from the list.`);
    else if (name && lesson?.name !== name) await openLesson(name);
    else if (isDriven && waits) drive();
  });
}

begin();
