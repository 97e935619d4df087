// Elements of the page, the verdict, and capabilities and flags, from what the program wrote.
const NS = "http://www.w3.org/2000/svg";
const DRAWN = new Set(["svg", "g", "line", "rect", "circle", "text", "path", "title"]);

/** An element with attributes and children; text is never taken for markup. */
function element(name, attributes = {}, ...children) {
  const made = DRAWN.has(name) ? document.createElementNS(NS, name) : document.createElement(name);
  for (const [key, value] of Object.entries(attributes)) {
    if (value === null || value === undefined || value === false) continue;
    if (key.startsWith("on")) made.addEventListener(key.slice(2), value);
    else made.setAttribute(key, value === true ? "" : value);
  }
  made.append(...children.flat().filter((child) => child !== null && child !== undefined));
  return made;
}

const fill = (id, ...children) => document.getElementById(id).replaceChildren(...children.flat());

const testsOf = (table, name) => table.find((row) => row.name === name)?.tests ?? "";

/** What the cause of a parked or panicking core says, in words. */
function causeInWords(cause) {
  const [kind, first, second] = cause.split(" ");
  if (kind === "asid") return "the boot core has address space numbers (ASIDs) of 16 bits, and this core of 8";
  if (kind === "vl") return `the system has vectors of ${first} bits, and this core has not`;
  if (kind === "hwcap") {
    return `programs were told of ${first} already, and this core has not got it (${testsOf(DATA.hwcaps, first)})`;
  }
  const row = DATA.capabilities.find((one) => one.name === second) ?? { class: "", tests: "" };
  if (row.tests.startsWith("erratum")) return `this core has the erratum of ${second}, and its workaround is off`;
  if (row.tests === "cache type") return "its type of cache differs from that before, and the workaround for it is off";
  if (row.class.includes("boot")) return `it has not got ${second} as the boot core has it (${row.tests})`;
  return `the system uses ${second}, and this core has not got it (${row.tests})`;
}

/** What helps a core that was parked or that stops the machine. */
function remedyInWords(state, cause) {
  const [kind, , name] = cause.split(" ");
  if (cause === "asid") return "Boot on a core with ASIDs of 8 bits.";
  const held = "hold the field down for all cores by the command line";
  const early = "Bring it up before finalise, so that it counts";
  if (state === "panic") return `Leave this core out (drop its steps), or ${held}.`;
  const row = DATA.capabilities.find((one) => one.name === name);
  if (kind === "cap" && row?.class.includes("boot")) return `Boot on this core, or ${held}.`;
  if (kind === "cap" && row?.class === "erratum") return `${early} and the workaround is on.`;
  return kind === "vl" ? `${early}; or turn SVE off for all by arm64.nosve.` : `${early}; or ${held}.`;
}

const STATE = {
  boot: "boot core", early: "came before finalise", late: "came after finalise", absent: "absent: it has no step",
  parked: "parked", panic: "stops the machine",
};
const shownAs = (state) => (ADMITTED.has(state) ? "admitted" : state);

/** The states of cores by cards: neighbours that are alike share one. */
function groupsOfStates(machine, states) {
  const groups = [];
  for (const state of states) {
    const core = machine.cores[state.number] ?? { words: {} };
    const key = [state.state, state.cause, processor(core)].join("|");
    if (groups.at(-1)?.key === key) groups.at(-1).numbers.push(state.number);
    else groups.push({ ...state, key, core, numbers: [state.number] });
  }
  return groups;
}

function drawCores(machine, states) {
  const cards = groupsOfStates(machine, states).map((group) => {
    const { state, cause, numbers } = group, isHeld = state === "parked" || state === "panic";
    const title = `${coresInWords(numbers)}: ${STATE[state]}${cause === "offline" ? ", offline now" : ""}`;
    const told = { "data-cores": numbers.join(" "), "data-state": state, "data-cause": cause };
    return element("li", { class: `card ${shownAs(state)}`, ...told },
      element("h3", {}, title[0].toUpperCase() + title.slice(1)),
      element("p", { class: "mono" }, processor(group.core)),
      isHeld ? element("p", {}, element("span", { class: "mono" }, cause), `: ${causeInWords(cause)}.`) : null,
      isHeld ? element("p", { class: "remedy" }, remedyInWords(state, cause)) : null);
  });
  fill("cores", element("ul", { class: "cards" }, cards));
}

/** Names as tags; those that some core has alone and the system has not are struck through. */
function tagsOf(names, lost) {
  const gone = [...lost].map(([name, numbers]) => {
    const told = { class: "lost", "data-lost": name, title: `${coresInWords(numbers)} alone would have it` };
    return element("li", told, element("del", {}, name), element("small", {}, ` ${spans(numbers)}`));
  });
  return element("ul", { class: "tags" }, names.map((name) => element("li", {}, name)), gone);
}

/** Capabilities, flags and vector lengths, each with what is lost against cores alone. */
function drawFeatures(report, lost) {
  const some = lost.capabilities.size + lost.flags.size + lost.lengths.size > 0;
  const legend = "Struck through: what an admitted core would have alone, with the numbers of such cores.";
  fill("capabilities", some ? element("p", {}, legend) : "",
    element("h3", {}, "Capabilities"), tagsOf(report.capabilities, lost.capabilities),
    element("h3", {}, "Flags of programs"), tagsOf(report.flags, lost.flags),
    element("p", { class: "mono" }, `AT_HWCAP ${report.words.hwcap}, AT_HWCAP2 ${report.words.hwcap2}`),
    report.lengths.length || lost.lengths.size
      ? [element("h3", {}, "Vector lengths in bits"), tagsOf(report.lengths.map(String), lost.lengths)] : "");
}
