"use strict";
// The time of the session: the trace, the slider, the last change of a value, branches, and runs to a line.

/** Returns what a step has changed, as short texts. */
function changesOf(state, before) {
  const found = [];
  const [now, old] = [partsOf(state.cpu), partsOf(before.cpu)];
  const compare = (name, is, was) => is !== was && was !== undefined && found.push(`${name} ${was} → ${is}`);
  for (const name of Object.keys(now)) if (name !== "PC") compare(name, now[name], old[name]);
  state.stack.forEach((row, at) => row !== before.stack[at] && compare(row[0], state.numbers[at], before.numbers[at]));
  state.values.forEach((value, at) => compare(registerName(at), value, before.values[at]));
  // Without a division of memory, SIZE is not known.
  if (state.divided[4] && before.divided[4]) compare("SIZE", state.registers.length, before.registers.length);
  compare("ALPHA", `"${state.alpha[0]}"`, `"${before.alpha[0]}"`);
  compare("flags", state.flags[0], before.flags[0]);
  const lines = linesChanged(state, before);
  return [...found, ...lines, ...memoryChanged(state, before, lines.length > 0)];
}

/** Returns where the lines of a program were inserted or deleted: the lines around them are the same in both states. If equal lines are side
    by side, it is the place that the calculator shows, after lines were inserted, and before a line was deleted. */
function placeChanged(longer, first, count, isAtEnd) {
  const text = (at) => longer.lines[at].slice(5);
  const isShown = (at) => longer.lines[at + (isAtEnd ? count - 1 : 0)].slice(0, 4) === longer.line[0];
  for (let at = first; ; at--) {
    if (isShown(at)) return at;
    if (!at || text(at - 1) !== text(at - 1 + count)) return first;
  }
}

/** Returns what a step has changed of the lines of programs, as one short text; an empty list if it has changed nothing of them. */
function linesChanged(state, before) {
  const [now, old] = [state, before].map(({ lines }) => lines.map((text) => text.slice(5)));
  if (now.join("\n") === old.join("\n")) return [];
  if (!now.length || !old.length) return [`program: ${now.length ? "its lines can be read again" : "no line can be read"}`];
  let [first, last] = [0, 0];
  const most = Math.min(now.length, old.length);
  while (first < most && now[first] === old[first]) first += 1;
  while (last < most - first && now.at(-1 - last) === old.at(-1 - last)) last += 1;
  const [added, lost] = [now.length - first - last, old.length - first - last];
  if (added && lost) {
    const number = before.coded[first][0];
    return [added === 1 && lost === 1 ? `program: line ${number}: ${old[first]} → ${now[first]}` :
      `program: ${lost} line${lost > 1 ? "s" : ""} replaced by ${added}, from line ${number} on`];
  }
  const [of, count, what] = added ? [state, added, "inserted"] : [before, lost, "deleted"];
  const at = placeChanged(of, first, count, added > 0);
  const number = of.coded[at][0];
  return [count === 1 ? `program: line ${number} ${what}: ${of.lines[at].slice(5)}` : `program: ${count} lines ${what}, from line ${number} on`];
}

/** Returns what a step has changed of the registers of memory that no other change names, as short texts. */
function memoryChanged(state, before, hasLines) {
  const [now, old] = [state.memory, before.memory];
  const named = state.alpha[0] === before.alpha[0] ? "TZYXLd" : "TZYXLMNOPd";
  const found = STATUS_NAMES.map((name, at) => [name, at]).filter(([name, at]) => now[at] !== old[at] && !named.includes(name))
    .map(([name, at]) => `${name} ${old[at]} → ${now[at]}`);
  const c = STATUS_NAMES.indexOf("c");
  if (hasLines || now[c] !== old[c]) return found;
  const isNamed = (address) => state.registers.length && address >= state.divided[2];
  const others = now.map((_, at) => at).filter((at) => at >= STATUS_NAMES.length && now[at] !== old[at] && !isNamed(addressAt(at)));
  if (others.length === 1) return [...found, `${hexadecimal(addressAt(others[0]))} ${old[others[0]]} → ${now[others[0]]}`];
  return others.length ? [...found, `${others.length} registers from ${hexadecimal(addressAt(others[0]))} on`] : found;
}

/** Returns the instruction or line that was executed between two states, as the bench listed it; null if it was not exactly one, or if the
    state before is not kept. */
function lineMade(state, before) {
  if (state.made !== 1 || state === before) return null;
  const [mode, place] = before.pos[0].split(" ");
  const found = mode === "Micro" ? before.listing.find(([at]) => at === place)?.[2].slice(9) : before.line[1];
  return found ? `${mode} ${place} ${found}` : null;
}

/** Returns the command of a run that is executed in pieces, with the lines or words that were executed up to a state; null if there is
    none. */
const runMade = (state) => /^run \d+/.exec(state.doing)?.[0] ?? null;

/** Returns what led to a state: a step, or a command and its reply. */
function ledTo(state, before) {
  const [bytes, reply] = state.last;
  const first = textOf(bytes).trim().split("\n")[0];
  // A command that was executed in pieces has a state for each: its name has the steps of this piece.
  const [, kind, count] = /^(step|trace) (\d+)$/.exec(first) ?? [];
  const isPiece = kind && state.made > 0 && state.made < Number(count) && !reply.at(-1)?.startsWith("! ");
  const head = isPiece ? `${kind} ${state.made}` : runMade(state) ?? first;
  return lineMade(state, before) ?? (reply.length === 1 && !head.startsWith("show") ? `${head}: ${reply[0]}` : head);
}

/** Returns the first of some changes, and how many more there are. */
const fewOf = (changes) => [...changes.slice(0, 6), ...(changes.length > 6 ? [`and ${changes.length - 6} more`] : [])];

function showTrace() {
  const at = shown ?? lastNumber();
  const [begin, end] = heldAround(at);
  const first = Math.max(begin + 1, Math.min(at - MOST_TRACED / 2, end - MOST_TRACED + 1));
  const rows = [];
  for (let number = first; number <= Math.min(end, first + MOST_TRACED - 1); number++) {
    const [one, before] = [stateAt(number), stateAt(number - 1)];
    const button = make("button", { type: "button", class: "step", "aria-current": number === at ? "step" : null, "data-at": number },
      make("code", {}, ledTo(one, before)), ...fewOf(changesOf(one, before)).map((text) => make("span", { class: "change" }, text)));
    button.addEventListener("click", () => begun(() => goTo(() => number)));
    rows.push(make("li", { class: number === at ? "next" : "" }, button));
  }
  fill("trace", ...rows);
  reveal(by("trace"), by("trace").querySelector(".next"));
  by("back").disabled = at <= firstNumber();
  by("forth").disabled = shown === null;
  showWatched();
  showBranches();
}

let isPassed = false;       // whether another page has gone on with the session while this one shows an earlier state

/** Shows the bar of an earlier state. A screen reader says its text when it changes, so that it has no number while another page goes on. */
function showPast() {
  by("past").hidden = shown === null;
  const [before, words] = [lastNumber() - (shown ?? 0), by("past").querySelector("span")];
  const text = isPassed ? "This is an earlier state. The session has gone on in another page." :
    `This is an earlier state: ${counted(before, "state")} before the last one.`;
  if (words.textContent !== text) words.textContent = text;
  Object.assign(by("moment"), { min: firstNumber(), max: lastNumber() });
  if (goal === null) by("moment").value = shown ?? lastNumber();
}

/** Returns the number of the first state that can be shown. States before those that the page has need the bench. */
const firstNumber = () => isGone ? pastFirst : 0;

/** Returns the first and the last number of the states around one that the page has without a gap. */
function heldAround(number) {
  const isJoined = older && older.first + older.states.length >= pastFirst;
  if (number >= pastFirst) return [isJoined ? older.first : pastFirst, lastNumber()];
  return [older.first, isJoined ? lastNumber() : older.first + older.states.length - 1];
}

/** Returns whether the page has a state, and the one before it. */
const isHeld = (number) => [number, Math.max(firstNumber(), number - 1)].every((at) =>
  at >= pastFirst || older && at >= older.first && at < older.first + older.states.length);

const REPEATING = "This state is not kept: the session is executed again up to it. Stop ends this.";

let goal = null;            // the number of the state that is looked for, while the session is executed again up to it

/** Stops a run, and shows another state. A function computes its number from the number of the state that is shown. A state that the page
    does not have is found first; if another one is asked for meanwhile, that one is shown. `isSame` is whether it is the one that is shown. */
async function goTo(place, isSame = false) {
  if (!isSame) [changeShown, isPassed] = [null, false];
  driver = null;
  closeQuestion();
  await line;
  const isUnderway = goal !== null;
  goal = Math.max(firstNumber(), Math.min(lastNumber(), place(goal ?? shown ?? lastNumber())));
  if (isUnderway) return;
  try {
    while (goal !== null && !isHeld(goal)) await find(goal);
    if (goal !== null) shown = goal >= lastNumber() ? null : goal;
  } finally {
    goal = null;
  }
  show();
}

/** Has the session executed again up to a state, for a moment. */
async function find(number) {
  const { found, reached } = await ask({ do: "past", state: number });
  if (found) return keepOlder(found);
  if (reached === undefined) throw new Error("");
  if (by("refusal").textContent !== REPEATING) tell(REPEATING, true);
  const [made, all] = [reached, entries.length].map((count) => commandNumber(count - 1));
  by("rate").textContent = `${made.toLocaleString("en")} of ${counted(all, "command")}`;
  return show();
}

/** Stores states that were found. If they follow those that were found before, these are kept too. */
function keepOlder({ at, base, changes }) {
  const states = [base];
  for (const change of changes) states.push(changed(states.at(-1), change));
  const isNext = older && at >= older.first && at <= older.first + older.states.length;
  const all = isNext ? [...older.states.slice(0, at - older.first), ...states] : states;
  const left = all.slice(-MOST_STATES);
  older = { first: at + states.length - left.length, states: left };
  by("rate").textContent = "";
  tell("");
}

const goBack = () => goTo((at) => at - 1);
const goForth = () => goTo((at) => at + 1);

// ---- The last change of a value

/** Returns the values that can be watched, by name: functions that read them from a state. */
function watchable(state) {
  const found = {};
  state.stack.forEach((row, at) => found[row[0] === "L" ? "LAST X" : row[0]] = (of) => of.stack[at].slice(2));
  found.display = (of) => of.display[0];
  found.ALPHA = (of) => of.alpha[0];
  for (const name of ["A", "B", "C", "M", "N", "G", "T", "ST", "P", "Q", "PT", "CY", "MODE", "RAM", "RTN"]) {
    found[`processor ${name}`] = (of) => partsOf(of.cpu)[name];
  }
  state.registers.forEach((_, at) => found[registerName(at)] = (of) => of.registers[at]);
  for (let at = 0; at < 56; at++) {
    const number = String(at).padStart(2, "0");
    found[`flag ${number}`] = (of) => String(of.flags[0].split(" ").includes(number));
  }
  return found;
}

/** Fills the list of values whose last change can be looked for. */
function showWatched() {
  const names = Object.keys(watchable(present()));
  if (isNew("watched", names)) {
    const chosen = by("watched").value;
    by("watched").replaceChildren(...names.map((name) => make("option", { value: name }, name)));
    by("watched").value = names.includes(chosen) ? chosen : "X";
  }
  showDigits();
}

/** Returns whether a value that can be watched is a register, one of whose digits can be chosen. */
const hasDigits = (name) => !/^(flag .*|display|ALPHA|processor (P|Q|PT|CY|MODE|RAM|RTN))$/.test(name);

/** Lets a digit be chosen if the chosen value is a register. */
const showDigits = () => by("digit").disabled = !hasDigits(by("watched").value);

let changeShown = null;     // the last change that was shown: its session, its value and its state, until another state is shown

/** Goes back to the state that the last change of the chosen value, or of one of its digits, led to: at most the state that is shown. If
    the page has shown this change already, goes back to the change before it. */
async function goToChange() {
  const name = by("watched").value;
  const digit = hasDigits(name) ? by("digit").value : "";
  const read = watchable(present())[name];
  const value = (number) => {
    const text = read(stateAt(number));
    if (text === undefined) return "no such register";
    return digit === "" ? text || "empty" : text[text.length - 1 - Number(digit)];
  };
  const what = digit === "" ? name : `digit ${digit} of ${name}`;
  const at = shown ?? lastNumber();
  const isShown = changeShown === `${session} ${what} ${at}`;
  let number = at - (isShown ? 1 : 0);
  const [first] = heldAround(at);
  while (number > first && value(number) === value(number - 1)) number -= 1;
  const which = isShown ? "before this one" : "up to this one";
  if (number <= first) return tell(first > firstNumber() ? `No state from state ${first} on, ${which}, changed ${what}: go to state ${first}` :
    `No state ${which} changed ${what}`, true);
  await goTo(() => number);
  changeShown = `${session} ${what} ${number}`;
  return tell(`${isShown ? "An earlier" : "The last"} change of ${what}: ${value(number - 1)} → ${value(number)}`, true);
}

// ---- Branches

/** Goes on from the state that is shown, which begins a branch. */
const branchHere = () => branchFrom({ state: shown ?? lastNumber() });

async function branchFrom(place) {
  driver = null;
  await ask({ do: "branch", ...place });
  await drive();
}

function showBranches() {
  by("branching").hidden = !branches.length;
  if (!isNew("branches", branches)) return;
  by("branches").replaceChildren(...branches.map(([number, words]) => make("option", { value: number }, words)));
  linkBranch();
}

const linkBranch = () => by("save-branch").href = `deck?branch=${by("branches").value}`;

// ---- Runs to a line

/** Runs until the machine is at a line or an instruction. A breakpoint that is not set is set for this run alone. */
async function runTo(kind, place) {
  if (isGone || isProgramming("run to a line")) return;
  const words = `${kind} ${kind === "l" ? Number(place) : place}\n`;
  const isSet = hasBreak(present(), kind, place);
  if (!isSet) await ask({ do: "give", deck: `break ${words}`, first: true });
  // If there are too many breakpoints, the refusal is shown, and nothing runs past the line.
  if (!hasBreak(present(), kind, place)) return;
  try {
    await runOn();
    while (isChanging()) await moment(50);
  } finally {
    if (!isSet) await ask({ do: "give", deck: `unbreak ${words}`, first: true });
  }
  // The refusal of the run is shown already.
  if (refusedNow().length) return;
  const at = present().pos[0].split(" ")[1];
  const wanted = `${kind === "p" ? "P" : ""}${place}`;
  tell(at === wanted ? `At ${placeName(kind, place)}` : `Stopped at ${at}, before ${wanted} was reached`, true);
}
