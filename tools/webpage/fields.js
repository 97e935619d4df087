// The matrix of fields by distinct cores, and what is told of one field.
const nameOf = (field) => `${registerByName.get(field.register).short}.${field.name}`;

/** A value in words, where the tables have them; they do not for every value. */
function valueInWords(field, value) {
  const known = field.values[value] ?? field.values["*"];
  const more = { n: value, more: value + 1, bytes: 2 ** (value + 2) };
  return known === undefined ? "" : known.replace(/\{(\w+)\}/g, (_, name) => more[name]);
}

function valueAndWords(field, value) {
  const words = valueInWords(field, value);
  return words ? `${value} (${words})` : `${value}`;
}

/** How a field stands: the values, and what each cell shows. Only admitted cores count; others are `away`. */
function fieldRow(field, kinds, report) {
  const name = nameOf(field), note = report.notes[name];
  const values = kinds.map((kind) => fieldValue(field, kind.core.words[field.register] ?? 0n));
  const system = fieldValue(field, report.system[field.register] ?? 0n);
  const users = fieldValue(field, report.users[field.register] ?? 0n);
  const counted = values.filter((_, at) => !kinds[at].away), differs = new Set(counted).size > 1;
  const cells = values.map((value, at) => {
    if (kinds[at].away) return kinds[at].away.includes(name) ? "conflict" : "away";
    if (!differs) return "equal";
    return value === system && note !== "forced" && field.rule !== "Exact" ? "limits" : "differs";
  });
  const isQuiet = new Set(values).size === 1 && !note && values[0] === system;
  return { field, name, note, values, system, users, differs, cells, isQuiet };
}

/** The fields that a cause asks for, by their names. */
function fieldsOfCause(cause) {
  if (cause === "asid") return ["id_aa64mmfr0.asidbits"];
  const name = cause.split(" ").at(-1), tests = testsOf(DATA.capabilities, name) || testsOf(DATA.hwcaps, name);
  return [...tests.matchAll(/(\w+)_el[01]\.(\w+) >=/g)].map((found) => `${found[1]}.${found[2]}`);
}

/** The kinds of admitted cores, and behind them those of others, with the fields that keep them off. */
function kindsOf(machine, states) {
  const admitted = states.filter((core) => ADMITTED.has(core.state)).map((core) => core.number);
  const others = states.filter((core) => !ADMITTED.has(core.state));
  const causes = [...new Set(others.map((core) => `${core.state} ${core.cause}`))];
  const away = causes.flatMap((cause) => {
    const numbers = others.filter((core) => `${core.state} ${core.cause}` === cause).map((core) => core.number);
    const [state, ...rest] = cause.split(" ");
    return kindsOfCores(machine, numbers).map((kind) => ({ ...kind, state, away: fieldsOfCause(rest.join(" ")) }));
  });
  return [...kindsOfCores(machine, admitted), ...away];
}

const ruleInWords = (field) => (field.rule === "Exact" ? `Exact, else ${field.safe}` : field.rule);
const RULES = {
  Lower: "the system has the least of the cores' values",
  Higher: "the system has the greatest of the cores' values",
  HigherOrZero: "the system has 0 where some core has it, and else the greatest value",
  Exact: "the system has the cores' value where they agree, and else the safe one",
};
const NOTES = {
  forced: "The command line holds it.",
  ignored: "The command line asks for a value that the boot core cannot be held at, so it is ignored.",
  already: "The command line asks for the boot core's own value.",
};

function headOf(kinds) {
  const cores = kinds.map((kind) => {
    const told = { class: kind.away && "away", "data-cores": kind.numbers.join(" "), "data-away": Boolean(kind.away) };
    const small = element("small", {}, processor(kind.core), kind.away ? `, ${kind.state}` : "");
    return element("th", { scope: "col", ...told }, coresInWords(kind.numbers), element("br"), small);
  });
  const plain = (name) => element("th", { scope: "col" }, name);
  const row = element("tr", {}, ["field", "bits", "rule"].map(plain), cores, ["system", "users"].map(plain));
  return element("thead", {}, row);
}

const bitsInWords = ({ shift, width }) => (width === 1 ? `${shift}` : `${shift + width - 1}:${shift}`);
const CELL_WORDS = {
  equal: "", differs: ", cores differ", limits: ", holds the system", overridden: ", set by the command line",
  hidden: ", hidden", decided: "", away: ", does not count", conflict: ", keeps the core off",
};

/** A value of a field; `whose` it is and its kind are told to who does not see its colour. */
function valueCell({ name, index, at = null, value, kind, whose }, words = CELL_WORDS) {
  const told = `${name}, ${whose}: ${value}${words[kind]}`;
  const marked = { class: `value ${kind}`, tabindex: -1, "data-row": index, "data-at": at, "aria-label": told };
  return element("td", marked, String(value));
}

function rowOf(row, index, kinds) {
  const cell = (value, kind, whose) => valueCell({ name: row.name, index, value, kind, whose });
  const system = row.note === "forced" ? "overridden" : "decided", users = row.field.visible ? system : "hidden";
  return element("tr", { "data-field": row.name },
    element("th", { scope: "row" }, row.name),
    [bitsInWords(row.field), ruleInWords(row.field)].map((words) => element("td", {}, words)),
    row.values.map((value, at) => cell(value, row.cells[at], coresInWords(kinds[at].numbers))),
    cell(row.system, system, "system"), cell(row.users, users, "users"));
}

function drawMatrix(rows, kinds, onField) {
  drawGrid("Fields by cores", headOf(kinds), rows.map((row, index) => rowOf(row, index, kinds)),
    (index) => onField(rows[index]));
}

/** Draws rows of fields; one cell is in the order of tabs, and arrow keys move from it. */
function drawGrid(label, head, rows, onRow) {
  const table = element("table", { class: "matrix", role: "grid", "aria-label": label }, head,
    element("tbody", {}, rows));
  fill("matrix", table);
  const cellOf = ({ target }) => target.closest("td.value"), told = (cell) => cell && onRow(Number(cell.dataset.row));
  const gone = (cell) => {
    table.querySelector("td[tabindex='0']")?.setAttribute("tabindex", "-1");
    cell.setAttribute("tabindex", "0");
    cell.focus();
    told(cell);
  };
  table.querySelector("td.value").tabIndex = 0;
  table.addEventListener("mouseover", (event) => told(cellOf(event)));
  table.addEventListener("focusin", (event) => told(cellOf(event)));
  table.addEventListener("click", (event) => cellOf(event) && gone(cellOf(event)));
  table.addEventListener("keydown", (event) => {
    const cell = nextCell(table, event);
    if (!cell) return;
    gone(cell);
    event.preventDefault();
  });
}

const FAR = 1e6;
const MOVES = {
  ArrowLeft: [0, -1], ArrowRight: [0, 1], ArrowUp: [-1, 0], ArrowDown: [1, 0], Home: [0, -FAR], End: [0, FAR],
};

/** The cell that a key goes to, or null where the key is another. */
function nextCell(table, event) {
  const move = MOVES[event.key], row = event.target.closest("tr");
  if (!move || !row) return null;
  const rows = [...table.tBodies[0].rows], cells = (of) => [...of.querySelectorAll("td.value")];
  const within = (number, length) => Math.max(0, Math.min(length - 1, number));
  const to = rows[within(rows.indexOf(row) + move[0], rows.length)];
  return cells(to)[within(cells(row).indexOf(event.target) + move[1], cells(to).length)];
}

/** The cores that hold a field where it is, if some do and others do not. */
const holdersOf = (row, kinds) => kinds.filter((_, at) => row.cells[at] === "limits").flatMap((kind) => kind.numbers);

/** Who holds fields where they are: each set of cores that does, with those fields, the one with most fields first. */
function heldBy(rows, kinds) {
  const held = new Map();
  for (const row of rows) {
    const cores = holdersOf(row, kinds), key = cores.join(" ");
    if (cores.length) held.set(key, { cores, names: [...(held.get(key)?.names ?? []), row.name] });
  }
  return [...held.values()].sort((one, other) => other.names.length - one.names.length);
}

/** What a field is, and where it stands. */
function fieldTitle(field) {
  const what = field.what ? `${field.what}. ` : "", { title } = registerByName.get(field.register);
  return `${what}Bits ${bitsInWords(field)} of ${field.register.toUpperCase()}, ${title}.`;
}

/** What is told of a field: what it is, each value in words, who holds it, and what asks for it. */
function fieldInWords(row, kinds) {
  const { field } = row, holders = holdersOf(row, kinds), says = (value) => valueAndWords(field, value);
  const users = field.visible ? says(row.users) : `${row.users}, its safe value: it is hidden from them`;
  const each = kinds.map((kind, at) => `${coresInWords(kind.numbers)}: ${says(row.values[at])}`);
  const own = new Set(row.values).size > 1 ? each : [`All cores: ${says(row.values[0])}`];
  const lines = [
    fieldTitle(field),
    `${own.join("; ").replace(/^c/, "C")}. System: ${says(row.system)}. Users: ${users}.`,
    `${ruleInWords(field)}: ${RULES[field.rule]}. Cores ${field.strict ? "should not" : "may"} differ in it.`,
  ];
  if (row.note) lines.push(NOTES[row.note]);
  if (holders.length) lines.push(`Held at ${row.system} by ${coresInWords(holders)}.`);
  if (field.asked.length) lines.push(`Asked for by ${field.asked.join(", ")}.`);
  return element("div", {}, element("h3", { class: "mono" }, row.name), lines.map((line) => element("p", {}, line)));
}
