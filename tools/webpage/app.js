// What the page does on what is typed, chosen and dropped.

const LONGEST_TEXT = 1 << 20, LONGEST_POOL = 1 << 22, LONGEST_LINK = 16000, MOST_LINES = 20000, FIRST = "late-core";

/** The numbers of the editor's lines, that of a refused one marked. */
function drawGutter(refused) {
  const lines = $("text").value.split("\n").length, shown = Math.min(lines, MOST_LINES);
  const upTo = (from, to) => Array.from({ length: Math.max(0, to - from) }, (_, at) => `${from + at}\n`).join("");
  if (refused && refused <= shown) {
    fill("gutter", upTo(1, refused), element("b", {}, String(refused)), "\n", upTo(refused + 1, shown + 1));
    bringLine(refused);
  } else $("gutter").textContent = upTo(1, shown + 1);
  $("gutter").scrollTop = $("text").scrollTop;
}

/** Scrolls the editor to a line that is out of sight. */
function bringLine(line) {
  const text = $("text"), height = parseFloat(getComputedStyle(text).lineHeight), top = (line - 1) * height;
  const isSeen = top >= text.scrollTop && top <= text.scrollTop + text.clientHeight - 2 * height;
  if (!isSeen) text.scrollTop = Math.max(0, top - text.clientHeight / 3);
}

function goToLine(line) {
  const text = $("text"), lines = text.value.split("\n");
  const from = lines.slice(0, line - 1).reduce((sum, one) => sum + one.length + 1, 0);
  text.focus();
  text.setSelectionRange(from, from + (lines[line - 1] ?? "").length);
  bringLine(line);
}

const isExample = (text) => DATA.examples.some((one) => one.text === text);

/** Another text in the editor; a text of the user's own can be had back. */
function setText(bytes) {
  const text = $("text");
  if (text.value.trim() && !isExample(text.value)) {
    state.before = { bytes: ownBytes(), image: state.image, imageName: state.imageName };
    $("back").hidden = false;
  }
  text.value = decoder.decode(bytes);
  // what the editor would change stays as it is until the text is edited
  const isSame = asCharacters(encoder.encode(text.value)) === asCharacters(bytes);
  const loaded = isSame ? null : bytes;
  Object.assign(state, { loaded, image: null, imageName: "", second: null, commandLine: null, isEdit: false });
  $("cmdline").value = $("second").value = "";
  $("examples").value = DATA.examples.find((one) => one.text === text.value)?.name ?? "";
}

function back() {
  const { bytes, image, imageName } = state.before;
  setText(bytes);
  Object.assign(state, { image, imageName });
  note("");
  show();
}

function dropReturns() {
  setText(ownBytes().filter((byte) => byte !== 13));
  show();
}

function note(words) {
  $("file-note").textContent = words;
  $("file-note").hidden = !words;
}

/** Several files are machine texts of a pool, in the order of their names. */
async function takeAll(files) {
  if (files.length < 2) return files.length && take(files[0]);
  const byName = [...files].sort((one, other) => (one.name < other.name ? -1 : 1));
  const size = byName.reduce((sum, file) => sum + file.size, 0);
  if (size > LONGEST_POOL) return note(`The files have ${size} bytes: armcaps-fleet takes so many. ${KEPT}`);
  return take(new File(byName, "pool.txt"));
}

/** A file is texts, the image that a text names, or a text and its image. Of any other the page says what it is, and
 * goes on. */
async function take(file) {
  note("");
  const wanted = state.machine?.image ?? 0;
  if (wanted && file.size === wanted) return takeImage(file);
  const begin = new Uint8Array(await file.slice(0, LONGEST_TEXT).arrayBuffer()), isMany = isPool(textsIn(begin));
  const start = isMany ? new Uint8Array(await file.slice(0, LONGEST_POOL).arrayBuffer()) : begin;
  const cut = endOfText(start);
  const isText = asCharacters(start.subarray(0, 8)) === "armcaps ";
  if (!isText && start.includes(0)) return note(`${file.name} is no text. ${imageHint(file.size, wanted)} ${KEPT}`);
  if (cut === start.length && file.size > start.length) {
    const most = isMany ? `the texts of a pool here at most ${LONGEST_POOL}` : `a machine text at most ${LONGEST_TEXT}`;
    return note(`${file.name} has ${file.size} bytes, and ${most}. ${KEPT}`);
  }
  setText(start.subarray(0, cut));
  if (cut < file.size) takeImages(file.name, new Uint8Array(await file.slice(cut).arrayBuffer()));
  show();
}

/** What follows a text: its image, or that and a second one of the same length. */
function takeImages(name, images) {
  const wanted = readMachine($("text").value).image, isTwo = wanted > 0 && images.length === 2 * wanted;
  const image = isTwo ? images.subarray(0, wanted) : images, second = isTwo ? images.subarray(wanted) : null;
  Object.assign(state, { image, second, imageName: `${name}.image` });
}

const KEPT = "The text in the editor is kept.";

function imageHint(size, wanted) {
  if (wanted) return `It has ${size} bytes, and the text names an image of ${wanted}.`;
  return `If it is a kernel image, let the text end in image ${size}: armcaps-kernel2text writes such a text.`;
}

async function takeImage(file) {
  Object.assign(state, { image: new Uint8Array(await file.arrayBuffer()), imageName: file.name });
  show();
}

function save(name, bytes) {
  const link = element("a", { href: URL.createObjectURL(new Blob([bytes])), download: name });
  document.body.append(link);
  link.click();
  link.remove();
  setTimeout(() => URL.revokeObjectURL(link.href), 60000);
}

function load(name) {
  setText(encoder.encode(DATA.examples.find((one) => one.name === name).text));
  note("");
  show();
}

/** Ends what runs; what is drawn stays. */
function stop() {
  state.turn++;
  engine.stop();
  $("stop").disabled = true;
  note("Stopped. Any change runs the program again.");
  $("patch-answer").textContent = "";
}

function listen() {
  let soon = 0;
  const later = () => {
    clearTimeout(soon);
    soon = setTimeout(show, 250);
  };
  const on = (id, events, act) => events.split(" ").forEach((event) => $(id).addEventListener(event, act));
  on("examples", "change", () => $("examples").value && load($("examples").value));
  on("text", "input", () => {
    state.loaded = null;
    later();
  });
  on("text", "scroll", () => { $("gutter").scrollTop = $("text").scrollTop; });
  on("cmdline", "input", () => {
    state.commandLine = $("cmdline").value;
    later();
  });
  on("cmdline-off", "click", () => {
    state.commandLine = null;
    $("cmdline").value = "";
    show();
  });
  on("file", "change", async () => {
    await takeAll($("file").files);
    $("file").value = "";
  });
  on("command", "change", () => {
    forgetPatch();
    showCommand();
  });
  // a file that was written anew can be chosen again
  on("second", "click", () => { $("second").value = ""; });
  on("second", "change", takeSecond);
  on("quiet", "change", drawFields);
  on("find", "input", drawFields);
  on("mrs-core", "change", readUser);
  on("mrs-word", "change", readUser);
  on("mrs-register", "change", () => {
    $("mrs-word").value = mrsWord(registerByName.get($("mrs-register").value));
    readUser();
  });
  const clicks = {
    stop, back, patch, link: makeLink, "save-text": () => save("board.txt", textBytes()),
    "save-image": () => save(`${state.imageName || "image"}.patched`, state.patched),
    "save-report": () => save(state.pool ? "board.pool" : "board.report", $("report").textContent),
  };
  for (const [id, act] of Object.entries(clicks)) on(id, "click", act);
}

function listenToDrops() {
  const editor = document.querySelector(".editor");
  const over = (is) => (event) => {
    event.preventDefault();
    editor.classList.toggle("over", is);
  };
  document.addEventListener("dragover", over(true));
  document.addEventListener("dragleave", over(false));
  document.addEventListener("drop", (event) => {
    over(false)(event);
    takeAll(event.dataTransfer.files);
  });
}

async function begin() {
  const options = (id, rows) => $(id).append(...rows.map(([value, words]) => element("option", { value }, words)));
  const examples = DATA.examples.map(({ name, about }) => [name, `${name}: ${about}`]);
  options("examples", [["", "a text of your own"], ...examples]);
  options("aliases", DATA.aliases.map((alias) => [alias, ""]));
  options("mrs-register", DATA.registers.map(({ name }) => [name, name]));
  $("mrs-register").value = "id_aa64isar0_el1";
  $("mrs-word").value = mrsWord(registerByName.get("id_aa64isar0_el1"));
  listen();
  listenToDrops();
  const given = JSON.parse($("given").textContent), linked = await textOfLink();
  if (linked) {
    setText(linked);
    show();
  } else if (given) {
    document.title = `${given.name}: armcaps`;
    take(new File([asBytes(atob(given.data))], given.name));
  } else load(FIRST);
}

begin();
