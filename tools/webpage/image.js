// What a patch changed in an image, and what an audit says of a second one. Changes by capability are counted
// from the images and the text, as armcaps-patch-diff does.
const CALLBACK = 0x8000, ENTRY = 12;

/** The entries of the table of alternatives, their places counted from the image's first byte. */
function* entriesOf(image, table) {
  const view = new DataView(image.buffer, image.byteOffset, image.length);
  for (let at = table.begin; at < table.begin + table.count * ENTRY; at += ENTRY) {
    const number = view.getUint16(at + 8, true);
    const site = at + view.getInt32(at, true), length = view.getUint8(at + 10);
    yield { site, number: number & ~CALLBACK, callback: number >= CALLBACK, length };
  }
}

/** Whether a number of the table is on, and its name. */
function decided(machine, report, number) {
  const told = machine.numbers.get(number);
  if (!told) return { name: `number ${number}`, isOn: false };
  return { name: told.name, isOn: told.given ?? report.capabilities.includes(told.name) };
}

/** Where words of four bytes differ. */
function changedWords(before, after) {
  const words = (bytes) => new Uint32Array(bytes.slice().buffer, 0, bytes.length >>> 2);
  const one = words(before), other = words(after);
  const places = new Set();
  for (let at = 0; at < one.length; at++) if (one[at] !== other[at]) places.add(4 * at);
  return places;
}

/** Entries, selected entries, words and changed words by name; a word counts for the last selected entry over it. */
function changesByName(machine, report, before, after) {
  const rows = new Map(), covered = new Map(), changed = changedWords(before, after);
  for (const entry of machine.table ? entriesOf(before, machine.table) : []) {
    const { name, isOn } = decided(machine, report, entry.number), key = entry.callback ? `${name} (callback)` : name;
    if (!rows.has(key)) rows.set(key, { name: key, entries: 0, selected: 0, words: 0, changed: 0 });
    const row = rows.get(key);
    row.entries++;
    if (!isOn) continue;
    row.selected++;
    for (let at = entry.site; at < entry.site + entry.length; at += 4) covered.set(at, row);
  }
  for (const [at, row] of covered) {
    row.words++;
    if (changed.has(at)) row.changed++;
  }
  return { rows: [...rows.values()].sort((one, other) => (one.name < other.name ? -1 : 1)), changed: changed.size };
}

function drawChanges({ rows, changed }, others) {
  const columns = ["entries", "selected", "words", "changed"];
  const sum = { name: "all" };
  for (const column of columns) sum[column] = rows.reduce((total, row) => total + row[column], 0);
  const line = (row) => element("tr", { "data-number": row.name }, element("th", { scope: "row" }, row.name),
    columns.map((column) => element("td", { class: "count" }, String(row[column]))));
  const head = element("tr", {}, ["capability", ...columns].map((column) => element("th", { scope: "col" }, column)));
  const table = element("table", {}, element("thead", {}, head), element("tbody", {}, [...rows, sum].map(line)));
  const astray = `${changed - sum.changed} changed words are ${others}.`;
  fill("patched", element("div", { class: "scroll" }, table), changed === sum.changed ? "" : element("p", {}, astray));
}

const ELF = [0x7f, 0x45, 0x4c, 0x46];
const isElf = (image) => ELF.every((byte, at) => image[at] === byte);

/** What is there of the image that the text names. A vmlinux is patched as such, unless another command is chosen. */
function drawImageNote() {
  const wanted = state.machine?.image ?? 0, hasImage = state.image !== null;
  $("image").hidden = wanted === 0 && !hasImage;
  $("image-note").textContent = hasImage
    ? `${state.imageName} has ${state.image.length} bytes; the text names ${wanted}.`
    : `The text names an image of ${wanted} bytes: open that file to patch it. Nothing else on this page needs it.`;
  $("patch").disabled = !hasImage || state.report === null;
  const wantsElf = hasImage && isElf(state.image);
  if (hasImage && wantsElf !== ($("command").value === "elf")) $("command").value = wantsElf ? "elf" : "patch";
  if (state.second) $("command").value = "audit";
  showCommand();
}

/** What the chosen command wants beside the image. */
function showCommand() {
  const command = $("command").value;
  $("labels-bar").hidden = command !== "jump";
  $("second-bar").hidden = command !== "audit";
  $("save-image").hidden = command === "audit";
  $("patch").textContent = command === "audit" ? "Judge" : "Patch";
}

function forgetPatch() {
  state.patched = null;
  $("save-image").disabled = true;
  for (const id of ["patch-answer", "patched"]) fill(id);
}

/** The words of the command that patches. */
function patchWords() {
  const command = $("command").value;
  return command === "jump" ? `jump ${$("labels").value.trim()}` : command;
}

async function patch() {
  const turn = ++state.turn;
  forgetPatch();
  $("stop").disabled = false;
  $("patch-answer").textContent = "The program runs.";
  const isAudit = $("command").value === "audit", parts = [textBytes(), state.image];
  const answer = await engine.run(patchWords(), isAudit ? [...parts, state.second ?? new Uint8Array(0)] : parts);
  if (turn !== state.turn) return;
  $("stop").disabled = true;
  if (isAudit && (answer.status === 0 || answer.status === 12)) showAudit(answer);
  else if (answer.status === 0) showPatched(answer.out);
  else $("patch-answer").textContent = `${answer.err}${remedyOfPatch(answer)}`;
  document.body.dataset.patched = String(turn);
}

/** Whether the second image is the patched one, or the first byte in which it is not. */
function showAudit({ status, err }) {
  const place = Number(err.match(/byte (\d+)$/)?.[1]), hex = (number) => `0x${number.toString(16)}`;
  const differs = () => `No: byte ${place} (${hex(place)}) is the first that differs from the patched image's. It is `
    + `${hex(state.second[place])} in the second image and ${hex(state.image[place])} in the first. ${siteAt(place)}`;
  $("patch-answer").textContent = status === 0 ? "Yes: the second image is the patched one, byte for byte." : differs();
}

/** In which site a byte lies: that of the last selected entry over it. */
function siteAt(place) {
  let found = "It lies in no site of a selected entry, so it should be as in the first image.", number = 0;
  for (const entry of state.machine.table ? entriesOf(state.image, state.machine.table) : []) {
    const { name, isOn } = decided(state.machine, state.report, entry.number), at = place - entry.site;
    if (isOn && at >= 0 && at < entry.length) found = `It is byte ${at} of the site of entry ${number}, ${name}.`;
    number++;
  }
  return found;
}

async function takeSecond() {
  const [file] = $("second").files;
  if (!file) return;
  forgetPatch();
  state.second = new Uint8Array(await file.arrayBuffer());
  $("patch-answer").textContent = `${file.name} has ${state.second.length} bytes.`;
}

function remedyOfPatch({ status, err }) {
  if (status === 3 && $("command").value === "audit") {
    return `. ${state.second ? "The second image wants as many bytes as the first" : "Open the second image too"}.`;
  }
  if (status === 2) return ". The jump labels want two numbers, OFFSET and COUNT: armcaps-kernel2text says both.";
  const found = err.match(/^armcaps: (patch|elf|jump): (?:entry \d+: )?kind (\d+)/);
  return found ? `. ${DATA.patching[found[1]][found[2]]}` : "";
}

function showPatched(patched) {
  state.patched = patched;
  $("save-image").disabled = false;
  const command = $("command").value, changes = changesByName(state.machine, state.report, state.image, patched);
  $("patch-answer").textContent = `${patched.length} bytes, ${changes.changed} words of four bytes changed.`;
  // the table of a vmlinux is in a section of its own, and not where a text would say
  if (command !== "elf") drawChanges(changes, command === "jump" ? "of jump labels" : "in no site of a selected entry");
}
