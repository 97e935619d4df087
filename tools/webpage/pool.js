// Several machine texts in one input: what all the machines can keep to, and which of them limits each field.

/** The machine texts of an input, one behind the other: the bytes of each, and the line at which it begins. */
function textsIn(bytes) {
  const lines = asCharacters(bytes).split("\n"), texts = [];
  let begin = 0, place = 0, first = 0;
  lines.forEach((line, at) => {
    place = Math.min(place + line.length + 1, bytes.length);
    const [word] = line.split(" ").filter((token) => token);
    const isLast = at > first && (word === "end" || word === "image");
    if (!isLast && (at < lines.length - 1 || place === begin)) return;
    texts.push({ bytes: bytes.subarray(begin, place), line: first + 1 });
    begin = place;
    first = at + 1;
  });
  return texts;
}

/** Whether an input is a pool: behind the end of a text another one begins. */
const isPool = (texts) => texts.slice(1).some(({ bytes }) => /^armcaps /m.test(asCharacters(bytes)));

const joined = (texts) => asBytes(texts.map(({ bytes }) => asCharacters(bytes)).join(""));

/** A baseline's lines by their groups. */
function readPool(output) {
  const pool = { machines: 0, system: {}, limits: {} };
  for (const line of output.split("\n")) {
    const [word, first, second] = line.split(" ");
    if (word === "machines") pool.machines = Number(first);
    else if (word === "reg") pool.system[first] = BigInt(second);
    else if (word === "limit") pool.limits[first] = Number(second);
  }
  return pool;
}

/** Draws the baseline of a pool, or which machine it is refused for. */
async function showPool(bytes, texts) {
  const turn = state.turn, answer = await engine.run("pool", [bytes]);
  if (turn !== state.turn) return;
  drawGutter(null);
  if (answer.status !== 0) return showRefusedPool(bytes, texts, answer);
  const machines = [];
  for (const text of texts) {
    const output = await engine.run("report", [text.bytes]);
    machines.push({ ...text, report: readReport(decoder.decode(output.out)), number: machines.length });
  }
  if (turn !== state.turn) return;
  clearRefusal();
  $("report").textContent = decoder.decode(answer.out);
  const pool = { baseline: readPool($("report").textContent), machines, kinds: kindsOfMachines(machines) };
  Object.assign(state, { pool, report: null, machine: null });
  drawMachines();
  drawFields();
}

/** Machines by equal words of their systems, each kind by the first of them. */
function kindsOfMachines(machines) {
  const kinds = new Map();
  for (const machine of machines) {
    const key = TRACKED.map((register) => machine.report.system[register.name]).join(" ");
    if (!kinds.has(key)) kinds.set(key, { machine, numbers: [] });
    kinds.get(key).numbers.push(machine.number);
  }
  return [...kinds.values()];
}

const machinesInWords = (numbers) => `${numbers.length > 1 ? "machines" : "machine"} ${spans(numbers)}`;
const capitalised = (words) => words[0].toUpperCase() + words.slice(1);

/** The fields that a machine limits first: those in which machines differ, and whose value comes with it. */
const limitedBy = (numbers) => poolRows().filter((row) => row.differs && numbers.includes(row.limit));

function drawMachines() {
  const { kinds, baseline } = state.pool, differing = poolRows().filter((row) => row.differs).length;
  const fields = differing ? `they differ in ${differing} fields` : "all have the same in every field";
  $("summary").textContent = `${baseline.machines} machines; ${fields}.`;
  $("summary").classList.remove("bad");
  const cards = kinds.map(({ machine, numbers }) => {
    const limits = limitedBy(numbers).length, cores = admittedIn(machine.report).length;
    const own = readMachine(asCharacters(machine.bytes)), names = new Set(own.cores.map(processor));
    const look = () => lookAt(machine);
    return element("li", { class: `card ${limits ? "parked" : "admitted"}`, "data-machines": numbers.join(" ") },
      element("h3", {}, capitalised(machinesInWords(numbers))),
      element("p", { class: "mono" }, [...names].join(", ")),
      element("p", {}, `${cores} of ${own.cores.length} cores admitted.`,
        limits ? ` First to limit ${limits} fields.` : ""),
      element("p", {}, buttonOf(`Look at machine ${machine.number}`, look), " ", withoutButton(numbers)));
  });
  fill("cores", element("ul", { class: "cards" }, cards));
}

/** One machine of the pool alone; the pool can be had back. */
function lookAt(machine) {
  setText(machine.bytes);
  show();
}

/** A button that runs the program again without some machines, and says below it what would be won. */
function withoutButton(numbers) {
  const told = element("span", { role: "status" });
  const ask = async () => { told.textContent = ` ${await wonWithoutMachines(numbers)}`; };
  return [buttonOf(`What would be won without ${machinesInWords(numbers)}?`, ask), told];
}

async function wonWithoutMachines(numbers) {
  const left = state.pool.machines.filter((machine) => !numbers.includes(machine.number));
  if (!left.length) return "There would be no machine.";
  const answer = await engine.run("pool", [joined(left)]);
  if (answer.status !== 0) return answer.err;
  const other = readPool(decoder.decode(answer.out)), now = state.pool.baseline;
  const value = (pool, field) => fieldValue(field, pool.system[field.register] ?? 0n);
  const fields = DATA.fields.filter((field) => value(other, field) !== value(now, field));
  const changes = fields.map((field) => `${nameOf(field)} ${value(other, field)} in place of ${value(now, field)}`);
  return `Won: ${changes.join(", ") || "nothing"}.`;
}

/** How each field stands over the machines. */
function poolRows() {
  const { baseline, kinds } = state.pool;
  return DATA.fields.map((field) => {
    const name = nameOf(field), limit = baseline.limits[name];
    const value = (words) => fieldValue(field, words[field.register] ?? 0n);
    const values = kinds.map((kind) => value(kind.machine.report.system)), differs = new Set(values).size > 1;
    const system = value(baseline.system), isLimit = (at) => values[at] === system || kinds[at].numbers.includes(limit);
    const cells = kinds.map((_, at) => (!differs ? "equal" : isLimit(at) ? "limits" : "differs"));
    return { field, name, values, cells, differs, limit, system, isQuiet: !differs };
  });
}

/** The matrix of fields by machines. */
function drawPool(rows) {
  const { kinds } = state.pool, plain = (name) => element("th", { scope: "col" }, name);
  const heads = kinds.map(({ numbers }) => {
    return element("th", { scope: "col", "data-machines": numbers.join(" ") }, machinesInWords(numbers));
  });
  const cells = [...["field", "bits", "rule"].map(plain), ...heads, ...["all", "limited first by"].map(plain)];
  const lineOf = (row, index) => element("tr", { "data-field": row.name },
    element("th", { scope: "row" }, row.name),
    [bitsInWords(row.field), ruleInWords(row.field)].map((words) => element("td", {}, words)),
    row.values.map((value, at) => {
      const whose = machinesInWords(kinds[at].numbers);
      return valueCell({ name: row.name, index, at, value, kind: row.cells[at], whose }, POOL_WORDS);
    }),
    valueCell({ name: row.name, index, value: row.system, kind: "decided", whose: "all machines" }, POOL_WORDS),
    element("td", { "data-limit": row.limit }, row.differs ? `machine ${row.limit}` : ""));
  drawGrid("Fields by machines", element("thead", {}, element("tr", {}, cells)), rows.map(lineOf),
    (index) => fill("detail", poolFieldInWords(rows[index])));
}

const POOL_WORDS = { equal: "", differs: ", machines differ", limits: ", limits the pool", decided: "" };

/** What is told of a field over the machines. */
function poolFieldInWords(row) {
  const { field } = row, says = (value) => valueAndWords(field, value), { kinds } = state.pool;
  const each = kinds.map((kind, at) => `${machinesInWords(kind.numbers)}: ${says(row.values[at])}`);
  const own = row.differs ? capitalised(each.join("; ")) : `All machines: ${says(row.system)}`;
  const lines = [fieldTitle(field), `${own}. What all can keep to: ${says(row.system)}.`,
    `${ruleInWords(field)}: ${RULES[field.rule].replace(/cores/g, "machines").replace("core", "machine")}.`];
  if (row.differs) lines.push(`Machine ${row.limit} is the first with which it has this value.`);
  return element("div", {}, element("h3", { class: "mono" }, row.name), lines.map((line) => element("p", {}, line)));
}

/** A pool that has no baseline: the machine is named, and a line of its text is marked. */
function showRefusedPool(bytes, texts, answer) {
  if (answer.stopped) return;
  const said = answer.err.replace(/^armcaps: /, ""), [, number, more] = said.match(/^machine (\d+): (.*)$/) ?? [];
  const text = texts[Number(number)], at = more?.match(/^line (\d+): kind (\d+)/);
  const line = at && text ? text.line + Number(at[1]) - 1 : text?.line;
  const remedy = at ? remedyOfKind(Number(at[2]), text?.bytes ?? bytes) : remedyOfPool(answer, more ?? said, bytes);
  const look = text && answer.status === 7 ? buttonOf(`Look at machine ${number}`, () => lookAt(text)) : "";
  tellRefusal(bytes, answer, line ?? null, remedy, look);
}

function remedyOfPool(answer, said, bytes) {
  if (answer.status === 7) return "A kernel would panic on this machine. Look at it alone to see why, or leave it out.";
  if (said === "image") return "The texts of a pool have no image: end this one with end, or with image 0.";
  if (said.startsWith("more than 64")) return "Leave some out: armcaps-fleet takes any number of machines.";
  return remedyOfInput(said, bytes);
}
