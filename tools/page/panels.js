"use strict";
// The panels beside the calculator.

const present = () => past.at(-1);
const lastNumber = () => pastFirst + past.length - 1;

/** Returns the state with a number; the nearest one if the page does not have it. */
function stateAt(number) {
  const [states, first] = number >= pastFirst || !older ? [past, pastFirst] : [older.states, older.first];
  return states[Math.max(0, Math.min(number - first, states.length - 1))];
}

/** Returns the state that is shown, and the one before it. */
const looked = () => [stateAt(shown ?? lastNumber()), stateAt((shown ?? lastNumber()) - 1)];

const isOpen = (id) => by(id).open;

/** Returns whether this page has commands executed, one piece after the other. Between the steps of a lesson, commands may wait too. */
const isChanging = () => driver !== null && waits > 0;

function show() {
  // The sheet that is being printed is measured already.
  if (!past.length || sheet) return;
  const [state, before] = looked();
  if (!isChanging() || mayChange()) showDisplay(state.display[0]);
  showLights(state);
  showPast();
  by("stop").disabled = !(waits || present().program || goal !== null) || isGone;
  by("run").textContent = waits && !driver ? "Continue" : "Run";
  by("pos").textContent = state.pos[0];
  document.body.classList.toggle("busy", isChanging());
  document.body.classList.toggle("micro", state.pos[0].startsWith("Micro"));
  showNext(state);
  showBreakpoints(state);
  showStack(state, before);
  showProgram(state);
  showReturns(state);
  askIfOff(state);
  if (isOpen("modules-panel")) showModules(state);
  if (isOpen("processor-panel")) showProcessor(state, before);
  if (isOpen("listing-panel")) showListing(state);
  if (isOpen("trace-panel")) showTrace();
  if (isOpen("memory-panel")) showMemory(state, before);
  if (isOpen("registers-panel")) showRegisters(state, before);
  if (isOpen("flags-panel")) showFlags(state, before);
  by("alpha").textContent = state.alpha[0];
  by("alpha").classList.toggle("changed", state.alpha[0] !== before.alpha[0]);
  showSession(state);
  showLesson(state);
}

/** Returns the sentence about what is executed next. If it depends on whether the display is off, there is one for each case. */
const sentenceOf = (state) => (state.off === null ? null : state.nexts[Number(state.off)]) ?? state.next;

/** Shows what is executed next, and whether this is only when a program runs. */
function showNext(state) {
  const text = [state.word, sentenceOf(state)].filter(Boolean).join(": ") || withoutModule(state);
  const isWaiting = text && state.pos[0].startsWith("Idle");
  by("next").replaceChildren(...(isWaiting ? [make("span", { class: "none" }, "When the program runs: ")] : []), text);
}

let saying = null;

/** Shows the annunciators. A screen reader gets the display and the lit ones when they have not changed for a moment. */
function showLights(state) {
  const lights = lightsOf(state);
  fill("lights", ...lights.map(([name, isLit]) => make("span", { class: isLit ? "lit" : "" }, name)));
  const lit = lights.filter(([, isLit]) => isLit).map(([name]) => name);
  const said = `${state.display[0].trim() || (state.off ? "display off" : "empty display")}${lit.length ? ` (${lit.join(" ")})` : ""}`;
  clearTimeout(saying);
  if (!isChanging() && by("live").textContent !== said) saying = setTimeout(() => by("live").textContent = said, 200);
}

/** Returns the digits of a register; digits that have changed, and those of a field, are highlighted. */
function digitsOf(now, old, isInField = () => false) {
  return [...now].map((digit, at) => make("span", {
    class: `${digit !== old[at] ? "changed " : ""}${isInField(now.length - 1 - at) ? "field" : ""}`.trim(),
  }, digit));
}

function showStack(state, before) {
  fill("stack", ...state.stack.map((row, at) => make("tr", {},
    make("th", { scope: "row" }, row[0] === "L" ? "LAST X" : row[0]),
    make("td", { class: "number" }, make("span", { class: row !== before.stack[at] ? "changed" : "" }, state.numbers[at])),
    make("td", { class: "digits" }, ...digitsOf(row.slice(2), before.stack[at].slice(2))))));
}

/** Returns whether a state has a breakpoint at a word or a line. */
const hasBreak = (state, kind, place) => state.breaks.some(([of, at]) => of === kind && at === place);

/** Returns the name of a place: of a word, or of the position of a line. */
const placeName = (kind, place) => `${kind === "w" ? "word " : kind === "l" ? "position " : "position P"}${place}`;

/** Returns a button that sets a breakpoint or removes it. It shows whether the breakpoint is set in the state that is shown. */
function breakpoint(kind, place, isNamed = false) {
  const isSet = hasBreak(looked()[0], kind, place);
  const name = placeName(kind, place);
  const button = make("button", { type: "button", class: "break", "aria-pressed": String(isSet), "data-at": kind + place,
    disabled: isGone ? "" : null, "aria-label": `breakpoint at ${name}` }, isSet ? "●" : "○", isNamed ? ` ${name}` : "");
  button.addEventListener("click", () => begun(() => setBreak(kind, place, !isSet)));
  return button;
}

/** Sets a breakpoint, or removes it. If a past state is shown, this is done in the present, unless it is done there already. */
async function setBreak(kind, place, isWanted) {
  if (hasBreak(present(), kind, place) === isWanted) {
    await goTo(() => Infinity);
    return tell(`The breakpoint at ${placeName(kind, place)} is ${isWanted ? "set" : "removed"} already in the present state`, true);
  }
  return ask({ do: "give", deck: `${isWanted ? "break" : "unbreak"} ${kind} ${kind === "l" ? Number(place) : place}\n`, first: true });
}

/** Returns a button that runs to a line or an instruction. */
function runningTo(kind, place) {
  const button = make("button", { type: "button", class: "break", title: "Run to here", "data-at": `to ${kind}${place}`,
    disabled: isGone ? "" : null, "aria-label": `run to ${kind === "p" ? "P" : ""}${place}` }, "⇥");
  button.addEventListener("click", () => begun(() => runTo(kind, place)));
  return button;
}

/** Returns a line of a list, with its breakpoint button. */
function stopping(kind, place, isNext, ...children) {
  const attributes = { class: `line${isNext ? " next" : ""}`, "aria-current": isNext ? "step" : null };
  return make("div", attributes, breakpoint(kind, place), runningTo(kind, place),
    make("span", { class: "sign", "aria-hidden": "true" }, isNext ? "▶" : ""), ...children);
}

/** Lists all breakpoints, including those of lines and words that are not visible. */
function showBreakpoints({ breaks }) {
  if (!isNew("breaks", breaks)) return;
  by("breaks").hidden = !breaks.length;
  fill("breaks", "Breakpoints", ...breaks.map(([kind, place]) => breakpoint(kind, place, true)));
}

/** Returns the lines of a program: the breakpoint, the number that program mode shows, the position, the text and the bytes of each. In
    program mode the keys that type the line follow, after the state that they need. `kind` is l for memory and p for a page. */
function programLines(kind, lines, next, keysIf = "", hasKeys = false) {
  return lines.map(([place, text, number, bytes, keys]) => stopping(kind, place, place === next, make("span", { class: "count" }, number),
    make("span", { class: "place" }, kind === "p" ? `P${place}` : place), make("code", {}, text), make("span", { class: "bytes" }, bytes),
    ...(hasKeys && keys ? [make("span", { class: "typing" }, `${keysIf && `${keysIf}: `}keys ${keys}`)] : [])));
}

/** Returns the lines of a program in memory, or while the position is in a page, those of the programs in this page; and the next one. */
function linesOf(state) {
  const isInPage = state.pos[0].split(" ")[1].startsWith("P");
  const lines = isInPage ? state.paged : state.lines.map((text, at) => [text.slice(0, 4), text.slice(5), ...state.coded[at]]);
  return [lines, lines.find(([at]) => at === state.line[0])];
}

/** Returns notes on bytes that are no line, before which programs end. */
const brokenLines = (kind, broken) => broken.map(([place, bytes]) => make("p", { class: "none" },
  `At ${kind === "p" ? "P" : ""}${place} the bytes ${bytes} are no program line: the lines end there.`));

/** Shows the lines in memory; while the position is in a page, those of the programs in this page. */
function showProgram(state) {
  const isInPage = state.pos[0].split(" ")[1].startsWith("P");
  const [lines, line] = linesOf(state);
  const next = line?.[0] ?? null;
  if (!isNew("program", isInPage, lines, next, state.broken, lines.length ? "" : state.next, state.breaks, isGone, state.program,
             state.keys_if)) return;
  const kind = isInPage ? "p" : "l";
  const why = state.pos[0].startsWith("Micro") ? "Memory has no line that can be read." : state.next;
  const none = lines.length ? [] : [make("p", { class: "none" }, why)];
  fill("program", ...programLines(kind, lines, next, state.keys_if, state.program), ...brokenLines(kind, state.broken), ...none);
  reveal(by("program"), by("program").querySelector(".next"));
}

let searching = null;       // what asks for the return addresses of a state

/** Returns whether the return addresses of a state are shown: not while a function in microcode runs, nor if no program is in memory. */
const hasReturns = (state) => !state.pos[0].startsWith("Micro") && (state.pos[0].split(" ")[1].startsWith("P") || linesOf(state)[0].length > 1);

/** Shows to which lines the program returns. They are asked for when the page has shown a state for a moment, because a second bench must
    execute the session again. Until it has answered, the page says that they are read. */
function showReturns(state) {
  const isFound = state.returns !== null;
  by("returns").hidden = !hasReturns(state) || isGone && !isFound;
  if (isNew("returns", state.returns, isChanging())) fill("returns", ...returnsTold(state.returns));
  clearTimeout(searching);
  if (isFound || isGone || isChanging() || !hasReturns(state)) return;
  const [of, number] = [session, shown ?? lastNumber()];
  searching = setTimeout(() => findReturns(of, number), 150);
}

/** Returns what is said of the return addresses and of the reason if they cannot be read; null if they are not known yet. */
function returnsTold(known) {
  if (known === null) return [`Return addresses: ${isChanging() ? "they are read when the run stops" : "reading …"}`];
  const [found, why] = known;
  if (!found) return [`Return addresses: they cannot be read${why && ", because " + why}`];
  if (!found.length) return ["No return address"];
  return ["RTN returns to ", ...found.flatMap((one, at) => [at ? ", then to " : "", make("code", {}, one.join(" ").trim())])];
}

/** Asks for the return addresses of a state until they are found, while it is shown. The state keeps them. */
async function findReturns(of, number) {
  const isShown = () => of === session && number === (shown ?? lastNumber()) && looked()[0].returns === null && !isChanging() && !isGone;
  while (isShown()) {
    const answer = await ask({ do: "returns", state: number, of }).catch(() => ({ returns: null, why: "" }));
    if (answer.done === false) continue;
    if (of !== session || number !== (shown ?? lastNumber())) break;
    looked()[0].returns = [answer.returns, answer.why];
    showReturns(looked()[0]);
    break;
  }
}

let deciding = null;        // what asks whether the display is off

/** Asks whether an empty display is off, when the page has shown a state for a moment. A second bench must execute the session again. */
function askIfOff(state) {
  clearTimeout(deciding);
  if (state.off !== null || isGone || isChanging()) return;
  const [of, number] = [session, shown ?? lastNumber()];
  deciding = setTimeout(() => findIfOff(of, number), 150);
}

async function findIfOff(of, number) {
  const isShown = () => of === session && number === (shown ?? lastNumber()) && looked()[0].off === null && !isChanging() && !isGone;
  while (isShown()) {
    const answer = await ask({ do: "display", state: number, of }).catch(() => ({ off: null }));
    if (answer.done === false) continue;
    if (answer.off === null || !isShown()) break;
    looked()[0].off = answer.off;
    show();
  }
}

let listing = null;         // the page that is listed: its page, its bank, how it is listed, and its rows
let plugsKnown = "";        // for which session and number of plugs the plugged banks are listed
let listedAt = -1;          // the number of the change after which the page was listed

/** Lists the page that is chosen in the panel. */
async function listPage() {
  const [page, bank] = by("list-page").value.split(" b");
  const kind = by("list-kind").value;
  listedAt = told;
  const { rows = [], broken = [] } = page ? await ask({ do: "list", page, bank, kind }) : {};
  listing = page ? { page, bank, kind, rows, broken } : null;
  show();
}

/** Returns whether instructions may have written to the bank since it was listed. */
const mayBeWritten = () => listing !== null && listedAt !== told && !isGone && !isChanging() &&
  present().writable.some(([page, bank]) => page === listing.page && bank === listing.bank);

/** Returns the address of the line or instruction that is executed next, if it is one of those that are listed; null if it is not. No
    view prints the active bank, so the listed bank must have the words that the bench lists around this address. */
function listedNext(state) {
  const [mode, place] = state.pos[0].split(" ");
  if ((listing.kind === "words") !== (mode === "Micro")) return null;
  if (mode === "Micro") {
    const held = new Map(listing.rows.map(([at, , words]) => [at, words]));
    // The second word of an instruction may be in the next page.
    const isSame = ([at, , text]) => !held.has(at) || held.get(at).startsWith(text.slice(0, at.endsWith("FFF") ? 3 : 9).trim());
    return held.has(place) && state.listing.every(isSame) ? place : null;
  }
  // Programs run in bank 1.
  const line = place.startsWith("P") && listing.bank === "1" && linesOf(state)[1];
  return line && listing.rows.some(([at, text]) => at === line[0] && text === line[1]) ? line[0] : null;
}

/** Shows the page that is listed, whether it runs or not, and what the pages contain. */
function showModules(state) {
  if (plugsKnown !== `${session} ${plugs}` && !isGone) {
    plugsKnown = `${session} ${plugs}`;
    act(findPages);
  } else if (mayBeWritten()) {
    act(listPage);
  }
  const names = state.functions.map((text) => text.replace(/^XROM /, ""));
  const plugged = state.plugged.map(([page, name]) => name ? `${page} (${name})` : page);
  const pages = `Pages ${plugged.join(", ")}${names.length ? `: ${names.join(", ")}` : ""}`;
  by("modules").textContent = plugged.length ? pages : "No module is plugged.";
  by("listed-when").hidden = shown === null || !listing;
  const next = listing && listedNext(state);
  const isNext = (place) => place === next;
  if (!isNew("listed", listing, next, state.breaks, isGone)) return;
  if (!listing) return fill("listed");
  if (listing.kind === "lines" && listing.bank !== "1") {
    return fill("listed", make("p", { class: "none" }, "Program lines are read in bank 1 only, whichever bank is active."));
  }
  const rows = listing.kind === "lines" ? programLines("p", listing.rows, next) :
    listing.rows.map(([at, label, words, text]) => wordLine([at, label, words, text], isNext(at)));
  const broken = brokenLines("p", listing.broken);
  fill("listed", ...(rows.length || broken.length ? [...rows, ...broken] : [make("p", { class: "none" }, "This page has no keystroke programs.")]));
  return reveal(by("listed"), by("listed").querySelector(".next"));
}

/** Fills the list of plugged banks, and lists the chosen one again. */
async function findPages() {
  const { pages } = await ask({ do: "pages" });
  const chosen = by("list-page").value;
  by("list-page").replaceChildren(make("option", { value: "" }, "none"), ...pages.map(([page, bank, name]) =>
    make("option", { value: `${page} b${bank}` }, `${page}, bank ${bank}${name ? `: ${name}` : ""}`)));
  by("list-page").value = pages.some(([page, bank]) => `${page} b${bank}` === chosen) ? chosen : "";
  await listPage();
}

/** Returns the values in the output of `show cpu`, by name. */
function partsOf(cpu) {
  const parts = cpu.slice(0, 4).join(" ").split(" ").map((text) => text.split("="));
  return { ...Object.fromEntries(parts), RTN: cpu[4].slice(4) };
}

/** Returns functions that decide whether a place is in the field of the last instruction, and whether the instruction names a register. */
function fieldOf(state, before) {
  const last = /^Micro [0-9A-F]{4} (\S+) (@R|S&X|R<|ALL|P-Q|XS|MS|M)$/.exec(lineMade(state, before) ?? "");
  if (!last) return [() => false, () => false, ""];
  const { P, Q, PT } = partsOf(before.cpu);
  const [p, q, active] = [P, Q, PT === "P" ? P : Q].map((digit) => parseInt(digit, 16));
  const [low, high] = { "@R": [active, active], "S&X": [0, 2], "R<": [0, active], ALL: [0, 13], "P-Q": [p, p > q ? 13 : q],
    XS: [2, 2], M: [3, 12], MS: [13, 13] }[last[2]];
  return [(place) => place >= low && place <= high, (name) => last[1].replace("SHF", "").includes(name), `${last[1]} ${last[2]}`];
}

function showProcessor(state, before) {
  const [now, old] = [partsOf(state.cpu), partsOf(before.cpu)];
  const [isInField, isNamed, text] = fieldOf(state, before);
  const places = [..."DCBA9876543210"];
  const rows = ["A", "B", "C", "M", "N"].map((name) => make("tr", {}, make("th", { scope: "row" }, name),
    make("td", { class: "digits" }, ...digitsOf(now[name], old[name], (place) => isNamed(name) && isInField(place)))));
  fill("processor", make("caption", {}, text || "the last instruction names no field"),
    make("tr", { class: "places", "aria-hidden": "true" }, make("th"), make("td", { class: "digits" },
      ...places.map((place) => make("span", {}, place)))), ...rows);
  const others = ["PC", "CY", "MODE", "P", "Q", "PT", "G", "T", "ST", "RAM", "KY", "KF", "RTN"];
  fill("cpu", ...others.map((name) => make("div", { class: now[name] !== old[name] ? "changed" : "" },
    make("dt", {}, name), make("dd", {}, now[name]))));
}

/** Returns a line of instructions; `label` is the last label and the offset to it. */
function wordLine([at, label, words, text], isNext) {
  return stopping("w", at, isNext, make("span", { class: "place" }, at), make("span", { class: "words" }, words), make("code", {}, text),
    make("span", { class: "label" }, /\+/.test(label) && !isNext ? "" : label));
}

/** Returns that a function runs in a page without a module; an empty text if none does. */
const withoutModule = ({ pos, listing }) =>
  pos[0].startsWith("Micro") && !listing.length ? `No module is plugged at ${pos[0].slice(6)}: a step is refused.` : "";

function showListing(state) {
  const place = state.pos[0].startsWith("Micro") ? state.pos[0].slice(6) : null;
  const lines = state.listing.map(([at, label, text]) => wordLine([at, label, text.slice(0, 9).trim(), text.slice(9)], at === place));
  const none = withoutModule(state) || "No function runs. The panel Modules lists each page.";
  fill("listing", ...(lines.length ? lines : [make("p", { class: "none" }, none)]));
  reveal(by("listing"), by("listing").querySelector(".next"));
}

const registerName = (at) => `R${String(at).padStart(2, "0")}`;

function showRegisters(state, before) {
  const rows = state.registers.map((digits, at) => {
    const isChanged = digits !== before.registers[at];
    if (/^0*$/.test(digits) && !isChanged && !by("zeros").checked) return null;
    return make("tr", { class: isChanged ? "changed" : "" }, make("th", { scope: "row" }, registerName(at)),
      make("td", { class: "number" }, state.values[at]), make("td", { class: "digits" }, digits));
  }).filter(Boolean);
  if (!rows.length) rows.push(make("tr", {}, make("td", { class: "none" }, `${state.registers.length} registers, all zero`)));
  fill("registers", ...rows);
}

function showFlags(state, before) {
  fill("flags", ...Array.from({ length: 56 }, (_, at) => {
    const number = String(at).padStart(2, "0");
    const [isSet, wasSet] = [state, before].map(({ flags }) => flags[0].split(" ").includes(number));
    return make("li", { class: `${isSet ? "set" : ""}${isSet !== wasSet ? " changed" : ""}`,
      "aria-label": `flag ${number} ${isSet ? "set" : "clear"}` }, number);
  }));
}

/** Joins lines into a text. If there are many, some in the middle are omitted. */
function shortened(lines, first, last) {
  const left = lines.length - first - last;
  return (left > 1 ? [...lines.slice(0, first), `… ${left} lines`, ...lines.slice(-last)] : lines).join("\n");
}

const isComment = ({ text }) => text.startsWith("#") || !text.trim();

/** Returns the number of an entry of the session among its commands: comments and empty lines are not counted. */
const commandNumber = (entry) => entries.slice(0, entry + 1).filter((one) => !isComment(one)).length;

/** Returns a button that goes on from the end of an entry of the session, which is the command with this number. */
function goingOn(entry, number) {
  const button = make("button", { type: "button", class: "break", title: "Go on from here", "data-at": `on ${entry}`,
    disabled: isGone ? "" : null, "aria-label": `go on from after command ${number}` }, "↶");
  button.addEventListener("click", () => begun(() => branchFrom({ entry })));
  return button;
}

/** Returns the number of commands that the session had in the state that is shown. */
const sessionEnd = (state) => shown === null ? entries.length : state.entries;

/** Returns a command of the session with its reply, as they were in the state that is shown. */
function commandIn(state, number) {
  const isLast = shown !== null && number === state.entries - 1;
  return isLast ? { text: runMade(state) ?? textOf(state.last[0]), reply: state.last[1] } : entries[number];
}

/** Shows the commands up to the state that is shown. */
function showSession(state) {
  const end = sessionEnd(state);
  const first = Math.max(0, end - MOST_ENTRIES);
  if (!isNew("session", first, end, entries.slice(first, end).at(-1), session, shown === null ? 0 : [state.last, state.doing])) return;
  const earlier = commandNumber(first - 1);
  let number = earlier;
  const rows = entries.slice(first, end).map((_, at) => {
    const { text, reply } = commandIn(state, first + at);
    const kind = `reply${reply.at(-1)?.startsWith("! ") ? " refusal" : ""}`;
    const isNote = isComment({ text });
    number += isNote ? 0 : 1;
    return make("li", { class: isNote ? "comment" : "" }, ...(isNote ? [] : [goingOn(first + at, number)]),
      make("pre", {}, shortened(text.trimEnd().split("\n"), 4, 2)),
      ...(reply.length ? [make("pre", { class: kind }, shortened(reply, 36, 1))] : []));
  });
  if (first) rows.unshift(make("li", { class: "comment" }, `${earlier} earlier commands are in the saved deck`));
  fill("session", ...rows);
  by("session").scrollTop = by("session").scrollHeight;
}
