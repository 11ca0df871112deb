"use strict";
// Settings, which a cookie keeps for the next calculator too: it has no port of its own. They are no secret.

const [KEPT, DRIVEN, A_YEAR] = ["bench-settings", "driven", 31536000];
const CHECKS = ["auto", "letters", "tall", "large", "zeros", "asking"];
const CHOICES = ["pace", "theme", "panel"];

let mayKeep = false;
let isLeaving = false;      // the page is about to be loaded again: its requests are cancelled, which must not look like the end of a run

addEventListener("beforeunload", () => {
  isLeaving = true;
  // (the user may decide to stay)
  setTimeout(() => { isLeaving = false; }, 2000);
});
addEventListener("pagehide", () => { isLeaving = true; });

const cookieOf = (name) => document.cookie.split("; ").find((part) => part.startsWith(`${name}=`))?.slice(name.length + 1);

/** Keeps the controls and the open panels, and for a reload whether a run was in progress. */
function keep() {
  if (!mayKeep) return;
  const open = [...document.querySelectorAll("details")].filter((panel) => panel.open).map((panel) => panel.id);
  const checks = CHECKS.filter((id) => by(id).checked);
  const choices = Object.fromEntries(CHOICES.map((id) => [id, by(id).value]));
  document.cookie = `${KEPT}=${encodeURIComponent(JSON.stringify({ open, checks, choices }))}; path=/; max-age=${A_YEAR}; samesite=strict`;
  if (!isLeaving) sessionStorage.setItem(DRIVEN, String(driver !== null));
}

function kept() {
  try {
    return JSON.parse(decodeURIComponent(cookieOf(KEPT) ?? "null"));
  } catch {
    return null;
  }
}

/** Sets the controls and the panels as they were. Returns whether a run was in progress when the page was loaded again. */
function restore() {
  const { open, checks, choices } = kept() ?? {};
  if (Array.isArray(open)) for (const panel of document.querySelectorAll("details")) panel.open = open.includes(panel.id);
  if (Array.isArray(checks)) for (const id of CHECKS) by(id).checked = checks.includes(id);
  for (const id of CHOICES) {
    if ([...by(id).options].some((one) => one.value === choices?.[id])) by(id).value = choices[id];
  }
  dress();
  mayKeep = true;
  return sessionStorage.getItem(DRIVEN) === "true";
}

const darkness = matchMedia("(prefers-color-scheme: dark)");

/** Shows the page in light or dark, and large for a projector: then it has the display, the program and one panel. While a function runs,
    its words have the place of the program. */
function dress() {
  const theme = by("theme").value;
  document.documentElement.dataset.theme = theme || (darkness.matches ? "dark" : "light");
  const isLarge = by("large").checked;
  document.body.classList.toggle("large", isLarge);
  document.body.classList.toggle("tall", by("tall").checked);
  by("panel").closest("label").hidden = !isLarge;
  const panel = by("panel").value;
  document.body.classList.toggle("with-keys", panel === "keys");
  document.body.classList.toggle("with-words", panel === "listing-panel");
  for (const one of document.querySelectorAll("#beside details")) {
    one.classList.toggle("chosen", one.id === panel);
    if (isLarge && (one.id === panel || one.closest("#next-panel, #program-panel, #listing-panel"))) one.open = true;
  }
  // What is next is in another place of the window now.
  for (const id of ["program", "listed"]) delete drawings[id];
  if (past.length) show();
}

/** Shows a panel as the one of the large page. */
function choosePanel(id) {
  by("panel").value = id;
  dress();
}

/** Keeps in view what is next in each panel, after the room for the panels has changed. */
function revealNext() {
  if (sheet) return;
  for (const id of ["program", "listing", "trace", "parts"]) reveal(by(id), by(id).querySelector(".next"));
}

/** Keeps the height of the bars at the bottom of the window. The panels end above them, and what is next in them stays in view. */
const measureBars = new ResizeObserver(() => {
  const [style, height] = [document.documentElement.style, `${by("bars").offsetHeight}px`];
  if (sheet || style.getPropertyValue("--bar") === height) return;
  style.setProperty("--bar", height);
  revealNext();
});

function listenToSettings() {
  measureBars.observe(by("bars"));
  addEventListener("resize", revealNext);
  fitMap.observe(by("map"));
  for (const id of CHECKS) by(id).addEventListener("change", keep);
  for (const id of CHOICES) by(id).addEventListener("change", keep);
  by("zeros").addEventListener("change", show);
  by("asking").addEventListener("change", closeQuestion);
  for (const id of ["large", "tall", "theme", "panel"]) by(id).addEventListener("change", dress);
  darkness.addEventListener("change", dress);
  for (const panel of document.querySelectorAll("details")) {
    panel.addEventListener("toggle", () => {
      keep();
      if (panel.open && past.length) show();
    });
  }
}
