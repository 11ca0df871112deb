"use strict";
// Files that are imported, opened and exported.

/** Refuses files that are too large for a request. */
function checkSize(files, advice) {
  const size = files.reduce((sum, file) => sum + file.size, 0);
  if (size <= LONGEST_FILES) return;
  const names = files.map((file) => file.name).join(", ");
  throw new Error(`${names}: found ${inBytes(size)}, expected at most ${inBytes(LONGEST_FILES)}: ${advice}.`);
}

/** Returns the bytes of a file in base 64. */
function base64Of(file) {
  return !file.size ? "" : new Promise((done, fail) => {
    const reader = new FileReader();
    reader.onload = () => done(reader.result.slice(reader.result.indexOf(",") + 1));
    reader.onerror = () => fail(new Error(`${file.name} cannot be read: ${reader.error.message}`));
    reader.readAsDataURL(file);
  });
}

async function bringIn(files) {
  const decks = files.filter((file) => /\.deck$/i.test(file.name));
  if (decks.length && files.length > 1) throw new Error(`${decks[0].name} is a deck, which cannot be opened together with other files: choose it alone.`);
  if (decks.length) return openDeck(decks[0]);
  by("files-panel").open = true;
  checkSize(files, files.length > 1 ? "import fewer files at a time" : "import it with tools/import");
  const given = await Promise.all(files.map(async (file) => ({ name: file.name, data: await base64Of(file) })));
  tellOfFiles("…", true);
  const answer = await ask({ files: given, page: by("page-in").value }, "import");
  if (!answer.good) return tellOfFiles(answer.told);
  // A file is in if the bench accepts the commands that tools/import made of it.
  let { brought } = await ask({ do: "go", ...pieces() });
  drive();
  while (brought?.waits && driver && !isGone) {
    await moment(50);
    ({ brought } = await ask(null));
  }
  // Another session has begun meanwhile.
  if (!brought) return tellOfFiles("");
  return tellOfBrought(brought);
}

const WAITING = "The commands of the files wait: press Continue.";

/** Shows what became of the files that were imported last. */
function tellOfBrought({ told: messages, waits: count, good }) {
  tellOfFiles(messages || (count ? WAITING : "All files were imported."), good);
}

async function openDeck(file) {
  checkSize([file], "run it with ./bench run");
  if (!await isSure()) return;
  await ask({ do: "open", data: await base64Of(file) });
  await drive();
}

async function takeOut() {
  const kind = by("kind").value;
  tellOfFiles("…", true);
  const ends = { raw: "raw", text: "lines", rom: "rom", source: "asm" };
  const reply = await fetched("export", { kind, page: by("page-out").value, label: by("label").value });
  const link = make("a", { href: addressOf(await reply.blob()), download: `bench.${ends[kind]}` });
  link.click();
  setTimeout(() => URL.revokeObjectURL(link.href), 10000);
  tellOfFiles(`bench.${ends[kind]} was saved.`, true);
}

function tellOfFiles(text, isGood = false) {
  by("told").textContent = text;
  by("told").tabIndex = text ? 0 : -1;
  by("told").classList.toggle("refusal", !isGood);
}

/** Asks whether the session may be replaced by another one. An empty session may always be replaced. */
function isSure() {
  const dialog = by("sure");
  return !entries.length || new Promise((done) => {
    for (const id of ["yes", "no"]) by(id).onclick = () => dialog.close(id);
    dialog.returnValue = "no";
    dialog.onclose = () => done(dialog.returnValue === "yes");
    dialog.showModal();
  });
}
