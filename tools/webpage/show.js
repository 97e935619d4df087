// From the text in the editor to what the page shows of it: the program is run, and what it wrote is drawn.

/** What is shown: the document, a command line to try, and what the program wrote of the text that both make. */
const state = {
  loaded: null, image: null, imageName: "", commandLine: null, isEdit: false, before: null,
  second: null, machine: null, bytes: null, report: null, pool: null, kinds: [], rows: [], patched: null, turn: 0,
};
const MOST_KINDS = 64, MOST_PANICS = 64;

/** The text's bytes: those of the file until it is edited, since an editor keeps no carriage return and no odd byte. */
const ownBytes = () => state.loaded ?? encoder.encode($("text").value);
const textBytes = () => withCommandLine(ownBytes(), state.commandLine);

/** A text's input for a command that looks at no image: zeros stand in the image's place. */
function inputWithoutImage(bytes) {
  const wanted = readMachine(decoder.decode(bytes)).image, length = state.image ? state.image.length : wanted;
  return length ? [bytes, { zeros: length }] : [bytes];
}

const ask = (words, bytes) => engine.run(words, inputWithoutImage(bytes));

/** The output of a run as text, or null where it has none. */
async function textOf(words, bytes) {
  const answer = await ask(words, bytes);
  return answer.status === 0 ? decoder.decode(answer.out) : null;
}

/** Runs the program on the text and draws what it says; what is running for an earlier text ends. */
async function show() {
  const turn = ++state.turn;
  if (engine.isBusy) engine.stop();
  $("stop").disabled = false;
  const texts = textsIn(ownBytes()), isMany = isPool(texts);
  if (isMany !== document.body.classList.contains("pool")) forgetDrawn();
  document.body.classList.toggle("pool", isMany);
  await (isMany ? showPool(ownBytes(), texts) : showText(textBytes()));
  if (turn !== state.turn) return;
  drawImageNote();
  $("stop").disabled = true;
  state.isEdit = true;
  document.body.dataset.shown = String(turn);
}

/** Draws what the program says of one text. */
async function showText(bytes) {
  const turn = state.turn, report = await ask("report", bytes);
  if (turn !== state.turn) return;
  state.machine = readMachine(decoder.decode(bytes));
  forgetPatch();
  drawGutter(null);
  if (report.status === 0) await showMachine(bytes, bytes, report, []);
  else if (report.status === 7) await showPanic(bytes, report);
  else showRefusal(bytes, report);
}

/** Draws the machine of a text; `panics` are cores whose steps were left out, each with its cause. */
async function showMachine(given, bytes, answer, panics) {
  const turn = state.turn, output = decoder.decode(answer.out), report = readReport(output), machine = state.machine;
  const states = statesWith(report, panics), kinds = kindsOf(machine, states);
  const all = report.cores.map((core) => core.number);
  const trace = (await textOf("trace", bytes)) ?? "", initial = await textOf("report", withoutCores(bytes, all));
  const lost = await lostAgainst(kinds, given, report);
  if (turn !== state.turn) return;
  Object.assign(state, { report, pool: null, kinds, bytes });
  clearRefusal();
  $("report").textContent = output;
  $("trace").textContent = trace;
  showVerdict(machine, report, states, panics);
  drawTimeline(machine, stepsWithChanges(readTrace(trace), initial === null ? {} : readReport(initial).system));
  drawFeatures(report, lost);
  drawFields();
  readUser();
}

/** The states of the report, and of the cores whose steps were left out. */
function statesWith(report, panics) {
  return report.cores.map((core) => panics.find((panic) => panic.number === core.number) ?? core);
}

function showVerdict(machine, report, states, panics) {
  const count = (state) => states.filter((core) => core.state === state).length;
  const parts = [`${admittedIn(report).length} of ${states.length} cores admitted`];
  for (const kind of ["parked", "absent"]) if (count(kind)) parts.push(`${count(kind)} ${kind}`);
  const words = `${parts.join(", ")}; ${report.capabilities.length} capabilities, ${report.flags.length} flags.`;
  const away = panics.map((panic) => panic.number), when = `A kernel would panic when core ${away[0]} comes.`;
  const left = away.length ? `${when} What follows is the machine without ${coresInWords(away)}: ` : "";
  $("summary").textContent = left + words;
  $("summary").classList.toggle("bad", panics.length > 0);
  drawCores(machine, states);
}

/** A machine that a step stops has no report: the cores that stop it are left out, one after the other. */
async function showPanic(given, answer) {
  const panics = [], turn = state.turn;
  let bytes = given;
  while (answer.status === 7 && panics.length < MOST_PANICS) {
    const [, number, cause] = answer.err.match(/panic: core (\d+): (.*)$/);
    panics.push({ number: Number(number), state: "panic", cause });
    bytes = withoutCores(given, panics.map((one) => one.number));
    answer = await ask("report", bytes);
  }
  if (turn !== state.turn) return;
  if (answer.status === 0) await showMachine(given, bytes, answer, panics);
  else showRefusal(given, answer);
}

/** What cores would have alone, and the system has not: each name with those cores. */
async function lostAgainst(kinds, bytes, report) {
  const lost = { capabilities: new Map(), flags: new Map(), lengths: new Map() };
  const isFeature = (name) => DATA.capabilities.find((row) => row.name === name).class.includes("feature");
  for (const kind of kinds.filter((one) => !one.away).slice(0, MOST_KINDS)) {
    const output = await textOf("report", aloneText(bytes, state.machine, kind.core));
    if (output === null) continue;
    const alone = readReport(output);
    for (const part of ["capabilities", "flags", "lengths"]) {
      for (const name of alone[part]) {
        if (report[part].includes(name) || (part === "capabilities" && !isFeature(name))) continue;
        lost[part].set(name, [...(lost[part].get(name) ?? []), ...kind.numbers]);
      }
    }
  }
  return lost;
}

const PARTS = [
  "cores", "lanes", "events", "matrix", "detail", "holders", "capabilities", "folded", "report", "trace", "mrs-answer",
];

function forgetDrawn() {
  Object.assign(state, { report: null, pool: null, kinds: [], rows: [] });
  for (const id of PARTS) fill(id);
}

function clearRefusal() {
  fill("refusal");
  $("refusal").hidden = true;
  $("text").removeAttribute("aria-invalid");
  document.body.classList.remove("stale");
}

function showRefusal(bytes, answer) {
  if (answer.stopped) return;
  const said = answer.err.replace(/^armcaps: /, ""), at = said.match(/^line (\d+): kind (\d+)/);
  const remedy = at ? remedyOfKind(Number(at[2]), bytes) : remedyOfInput(said, bytes);
  tellRefusal(bytes, answer, at && Number(at[1]), remedy);
}

const buttonOf = (words, onclick) => element("button", { type: "button", onclick }, words);
const WHY = { 3: "the text is refused", 7: "a kernel would panic on a machine of the pool" };

/** A refused text: its line is marked, with its kind and what to do. What an edited text had is kept, in grey. */
function tellRefusal(bytes, answer, line, remedy, more = "") {
  if (!state.isEdit) forgetDrawn();
  const isKept = state.report !== null || state.pool !== null, why = WHY[answer.status] ?? "the run did not end";
  document.body.classList.toggle("stale", isKept);
  const what = document.body.classList.contains("pool") ? "baseline" : "machine";
  $("summary").textContent = `No ${what}: ${why}.${isKept ? " What follows is of the text before." : ""}`;
  $("summary").classList.add("bad");
  if (line) drawGutter(line);
  $("refusal").hidden = false;
  $("text").setAttribute("aria-invalid", "true");
  fill("refusal", element("strong", {}, answer.err), " ", remedy, " ",
    line ? buttonOf(`Go to line ${line}`, () => goToLine(line)) : "", " ",
    hasReturns(bytes) ? buttonOf("Drop the carriage returns", dropReturns) : "", more);
}

const hasReturns = (bytes) => bytes.includes(13);

function remedyOfKind(kind, bytes) {
  const isNone = kind === 1 || !bytes.length;
  return (isNone && whatItMayBe(bytes)) || DATA.kinds[kind] || "";
}

function remedyOfInput(said, bytes) {
  if (said.startsWith("image short")) return "The image is shorter than the text says: open the whole image.";
  if (said.startsWith("trailing")) return "The image is longer than the text says: open the one that it names.";
  if (/memory/.test(said)) return "The browser gives this page no more memory: close other pages, or use the program.";
  return whatItMayBe(bytes);
}

const NOTHING = [
  "All machines have the same in every field.",
  "All cores have the same in every field, and no field is overridden.",
];

/** The rows that are wanted, and what is told where the pointer or the focus is. */
function drawFields() {
  if (!state.report && !state.pool) return;
  const wanted = $("find").value.trim().toLowerCase(), all = $("quiet").checked || wanted !== "";
  const rows = state.pool ? poolRows() : DATA.fields.map((field) => fieldRow(field, state.kinds, state.report));
  const isFound = (row) => `${row.name} ${row.field.what}`.toLowerCase().includes(wanted);
  state.rows = rows.filter((row) => (all || !row.isQuiet) && isFound(row));
  fill("detail", element("p", {}, "Point at a value, or go to it by the arrow keys, to see what it means."));
  if (!state.pool) drawHolders(rows);
  const folded = rows.length - state.rows.length;
  $("folded").textContent = folded ? `${folded} fields are folded away.` : "";
  if (!state.rows.length) fill("matrix", element("p", {}, wanted ? "No such field." : NOTHING[Number(!state.pool)]));
  else if (state.pool) drawPool(state.rows);
  else drawMatrix(state.rows, state.kinds, explainField);
}

/** What is known of a field, and a button that leaves out those who hold it. */
function explainField(row) {
  const holders = holdersOf(row, state.kinds);
  fill("detail", fieldInWords(row, state.kinds), holders.length ? whatIfButton(holders) : "");
}

/** Who holds which fields where they are. */
function drawHolders(rows) {
  fill("holders", heldBy(rows, state.kinds).map(({ cores, names }) => {
    const few = names.slice(0, 12).join(", "), more = names.length > 12 ? ` and ${names.length - 12} more` : "";
    const words = `${coresInWords(cores)} ${cores.length > 1 ? "hold" : "holds"} ${few}${more}. `.replace("c", "C");
    return element("li", { "data-holders": cores.join(" ") }, words, whatIfButton(cores));
  }));
}

/** A button that runs the program again without some cores, and says below it what would be won. */
function whatIfButton(cores) {
  if (cores.includes(state.machine.boot)) return element("small", {}, "The boot core cannot stay away.");
  const told = element("p", { role: "status" });
  const ask = async () => { told.textContent = await wonWithout(cores); };
  const words = `What would be won without ${coresInWords(cores)}?`;
  return element("span", {}, element("button", { type: "button", onclick: ask }, words), told);
}

/** What the system has more without some cores. */
async function wonWithout(cores) {
  const output = await textOf("report", withoutCores(state.bytes, cores));
  if (output === null) return `Without ${coresInWords(cores)} there is no machine.`;
  const other = readReport(output), now = state.report;
  const won = ["capabilities", "flags"].flatMap((part) => other[part].filter((name) => !now[part].includes(name)));
  const value = (report, field) => fieldValue(field, report.system[field.register] ?? 0n);
  const fields = DATA.fields.filter((field) => value(other, field) !== value(now, field));
  const changes = fields.map((field) => `${nameOf(field)} ${value(other, field)} in place of ${value(now, field)}`);
  return `Won: ${won.join(", ") || "no capability and no flag"}. Fields: ${changes.join(", ") || "the same"}.`;
}

/** What a program reads by an MRS, and the fields of the word that are not 0. */
async function readUser() {
  const word = $("mrs-word").value.trim(), core = $("mrs-core").value.trim(), register = $("mrs-register").value;
  if (!state.report || !word) return fill("mrs-answer");
  const answer = await ask(`mrs ${core} ${word}`, state.bytes);
  if (answer.stopped) return;
  if (answer.status !== 0) return fill("mrs-answer", answer.err);
  const told = decoder.decode(answer.out).trim(), value = numberOf(told.split(" ")[1]) ?? 0n;
  const isNamed = word === mrsWord(registerByName.get(register));
  const isTold = (field) => isNamed && field.register === register && fieldValue(field, value) !== 0;
  const fields = DATA.fields.filter(isTold);
  const says = (field) => `${field.name} ${valueAndWords(field, fieldValue(field, value))}`;
  const words = fields.length ? `: ${fields.map(says).join("; ")}.` : "";
  fill("mrs-answer", element("span", { class: "mono" }, told), words);
}

/** The word of the MRS that reads a register into x0. */
function mrsWord({ op1, crn, crm, op2 }) {
  return `0x${(0xd5380000 + op1 * 65536 + crn * 4096 + crm * 256 + op2 * 32).toString(16)}`;
}
