// What the page itself reads of a machine text, a report and a trace, to draw them. It decides nothing.
const bitsOf = (width) => (1n << BigInt(width)) - 1n;

/** The value of a field in a register's word, signed where the field is. */
function fieldValue(field, word) {
  const bits = (word >> BigInt(field.shift)) & bitsOf(field.width);
  const sign = 1n << BigInt(field.width - 1);
  return Number(field.signed && bits >= sign ? bits - 2n * sign : bits);
}

const numberOf = (token) => (/^(0x[0-9a-fA-F]{1,16}|[0-9]{1,20})$/.test(token ?? "") ? BigInt(token) : null);
const STEPS = new Set(["check", "local", "store", "online", "offline"]);

/** A machine text as far as it can be read: what a refused text says is drawn up to there. */
function readMachine(text) {
  const machine = {
    format: "1", cores: [], boot: null, commandLineAt: null, bootAt: null, steps: [], numbers: new Map(), table: null,
    image: 0, lastLine: null,
  };
  text.split("\n").forEach((line, at) => {
    const tokens = line.split(" ").filter((token) => token);
    if (at === 0) machine.format = tokens[1] === "2" ? "2" : "1";
    else if (tokens.length && !tokens[0].startsWith("#") && machine.lastLine === null) readLine(machine, tokens, at);
  });
  return machine;
}

function readLine(machine, [word, first, second, third], at) {
  const number = Number(numberOf(first) ?? 0n), core = machine.cores.at(-1);
  if (word === "core") machine.cores.push({ number: machine.cores.length, words: {}, lengths: 0 });
  else if (word === "boot") Object.assign(machine, { boot: number, bootAt: at });
  else if (word === "cmdline") machine.commandLineAt = at;
  else if (word === "sve_vl" && core) core.lengths = number;
  else if (STEPS.has(word)) machine.steps.push({ word, core: number, at });
  else if (word === "finalise") machine.steps.push({ word, core: null, at });
  else if (word === "number") machine.numbers.set(number, { name: second, given: null });
  else if (word === "given") machine.numbers.set(number, { name: second, given: third === "on" });
  else if (word === "table") machine.table = { begin: number, count: Number(numberOf(second) ?? 0n) };
  else if (word === "end") machine.lastLine = at;
  else if (word === "image") Object.assign(machine, { image: number, lastLine: at });
  else if (registerByName.has(word) && core) core.words[word] = numberOf(first) ?? 0n;
}

/** A report's lines by their groups. */
function readReport(output) {
  const report = {
    cores: [], system: {}, users: {}, varies: new Set(), notes: {}, capabilities: [], flags: [], lengths: [], words: {},
  };
  for (const line of output.split("\n")) {
    const [word, first, second, ...rest] = line.split(" ");
    if (word === "core") report.cores.push({ number: Number(first), state: second, cause: rest.join(" ") });
    else if (word === "reg") report.system[first] = BigInt(second);
    else if (word === "user") report.users[first] = BigInt(second);
    else if (word === "varies") report.varies.add(first);
    else if (word === "note") report.notes[first] = second;
    else if (word === "cap") report.capabilities.push(second);
    else if (word === "hwcap" || word === "hwcap2") report.words[word] = first;
    else if (word === "flags") report.flags = [first, second, ...rest].filter((flag) => flag);
    else if (word === "vl") report.lengths.push(Number(first));
  }
  return report;
}

const ADMITTED = new Set(["boot", "early", "late"]);
const admittedIn = (report) => report.cores.filter((core) => ADMITTED.has(core.state)).map((core) => core.number);

/** A trace's steps, each with its reply and the registers that it changed. */
function readTrace(output) {
  const steps = [];
  for (const line of output.split("\n")) {
    const tokens = line.split(" ");
    if (tokens[0] === "step") {
      const final = tokens[2] === "finalise";
      const reply = tokens.slice(final ? 3 : 4).join(" ");
      steps.push({ word: tokens[2], core: final ? null : Number(tokens[3]), reply, changed: [] });
    } else if (tokens[0] === "reg") steps.at(-1).changed.push({ register: tokens[1], word: BigInt(tokens[2]) });
  }
  return steps;
}

/** Numbers of cores in short, as 0-3, 6. */
function spans(numbers) {
  const parts = [];
  for (const number of [...numbers].sort((one, other) => one - other)) {
    const last = parts.at(-1);
    if (last && last[1] + 1 === number) last[1] = number;
    else parts.push([number, number]);
  }
  return parts.map(([low, high]) => (low === high ? `${low}` : `${low}-${high}`)).join(", ");
}

const coresInWords = (numbers) => `${numbers.length > 1 ? "cores" : "core"} ${spans(numbers)}`;

/** The cores of these numbers by equal registers and vector lengths, each kind by the first of them. */
function kindsOfCores(machine, numbers) {
  const kinds = new Map();
  for (const number of numbers) {
    const core = machine.cores[number];
    const words = TRACKED.map((register) => (core.words[register.name] ?? 0n).toString(16));
    const key = [...words, core.words.midr_el1 ?? 0n, core.words.revidr_el1 ?? 0n, core.lengths].join(" ");
    if (!kinds.has(key)) kinds.set(key, { core, numbers: [] });
    kinds.get(key).numbers.push(number);
  }
  return [...kinds.values()];
}

/** A processor by its MIDR, as Cortex-A53 r0p4. */
function processor(core) {
  const midr = Number((core.words.midr_el1 ?? 0n) & 0xffffffffn);
  if (midr === 0) return "no MIDR";
  const name = DATA.processors[(midr & 0xff0ffff0) >>> 0];
  return name ? `${name} r${(midr >>> 20) & 15}p${midr & 15}` : `MIDR 0x${midr.toString(16).padStart(8, "0")}`;
}
