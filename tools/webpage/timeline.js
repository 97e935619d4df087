// The steps of bring-up: a lane a core, a mark a step, a line where the system is settled.
const LANE = { left: 84, row: 26, top: 14 };
const MOST_STEPS = 6000, MOST_EVENTS = 500;

/** Each step with the fields that it changed, their values before and after, and whether its core is back by it. */
function stepsWithChanges(steps, initial) {
  const now = { ...initial }, gone = new Set();
  return steps.map((step) => {
    if (step.word === "offline") gone.add(step.core);
    const isBack = step.word === "store" && step.reply === "done" && gone.has(step.core);
    const fields = step.changed.flatMap(({ register, word }) => {
      const before = now[register];
      now[register] = word;
      return DATA.fields.filter((field) => field.register === register)
        .map((field) => ({ field, from: fieldValue(field, before), to: fieldValue(field, word) }))
        .filter(({ from, to }) => from !== to);
    });
    return { ...step, fields, isBack };
  });
}

/** A step with its reply and the fields that it changed, at most so many of them. */
function stepInWords(step, index, most) {
  const core = step.core === null ? "" : ` ${step.core}`, { fields } = step;
  const changes = fields.slice(0, most).map(({ field, from, to }) => `; ${nameOf(field)} ${from} to ${to}`);
  const more = fields.length > most ? `; ${fields.length - most} more fields` : "";
  const back = step.isBack ? "; the core is back" : "";
  return `step ${index + 1}: ${step.word}${core} ${step.reply}${changes.join("")}${more}${back}`;
}

function timelineInWords(steps) {
  const final = steps.findIndex((step) => step.word === "finalise") + 1;
  const isParked = (step) => step.reply.startsWith("parked");
  const parked = steps.filter(isParked).map((step) => `core ${step.core} ${step.reply}`);
  const lowering = steps.filter((step) => step.fields.length).length;
  const ends = parked.join("; ") || "no core is parked";
  return `${steps.length} steps; finalise is step ${final}; ${lowering} of them changed a field; ${ends}.`;
}

function drawTimeline(machine, steps) {
  const isTold = (step) => step.fields.length || step.isBack || step.word === "offline" || /^parked/.test(step.reply);
  const told = steps.filter(isTold);
  fill("events", told.slice(0, MOST_EVENTS).map((step) => element("li", {}, stepInWords(step, steps.indexOf(step), 6))),
    told.length > MOST_EVENTS ? element("li", {}, `${told.length - MOST_EVENTS} more, in the trace`) : "");
  if (steps.length <= MOST_STEPS) drawLanes(machine, steps);
  else fill("lanes", element("p", {}, `${steps.length} steps are too many for a picture: the trace has them all.`));
}

function drawLanes(machine, steps) {
  const stepping = new Set([machine.boot, ...steps.map((step) => step.core)]);
  const lanes = machine.cores.map((core) => core.number).filter((core) => stepping.has(core));
  const own = new Map();
  steps.forEach((step, at) => own.set(step.core, [...(own.get(step.core) ?? []), [step, at]]));
  const place = new Map(lanes.map((core, at) => [core, LANE.top + at * LANE.row])), y = (core) => place.get(core);
  const wide = Math.max(14, Math.min(46, 1000 / steps.length));
  const width = LANE.left + steps.length * wide + 30, height = (lanes.length + 1) * LANE.row + 16;
  const x = (index) => LANE.left + (index + 0.5) * wide;
  const size = { width, height, viewBox: `0 0 ${width} ${height}` };
  const svg = element("svg", { ...size, role: "img", "aria-label": timelineInWords(steps) });
  for (const core of lanes) {
    svg.append(element("text", { x: 0, y: y(core) + 4 }, `core ${core}`));
    svg.append(element("line", { class: "grid", x1: LANE.left, x2: width - 10, y1: y(core), y2: y(core) }));
    drawLane(svg, core === machine.boot, own.get(core) ?? [], x, y(core), width);
  }
  steps.forEach((step, index) => {
    const title = element("title", {}, stepInWords(step, index, 24));
    if (step.word === "finalise") {
      svg.append(element("line", { class: "final", x1: x(index), x2: x(index), y1: 2, y2: height - LANE.row }, title));
      svg.append(element("text", { x: Math.max(LANE.left, x(index) - 26), y: height - 8, class: "quiet" }, "finalise"));
    } else svg.append(markOf(step, x(index), y(step.core), title));
  });
  fill("lanes", svg);
}

/** A cross where a core is parked, a triangle where a store changed a field, rings where a core goes or is back. */
function markOf(step, x, y, title) {
  const marked = { "data-step": step.word, "data-core": step.core, "data-reply": step.reply };
  if (step.reply.startsWith("parked")) {
    const cross = `M${x - 6} ${y - 6}L${x + 6} ${y + 6}M${x + 6} ${y - 6}L${x - 6} ${y + 6}`;
    return element("path", { ...marked, class: "parkedmark", "stroke-width": 3, d: cross }, title);
  }
  if (step.reply === "skipped") return element("circle", { ...marked, cx: x, cy: y, r: 2, class: "quiet" }, title);
  if (step.fields.length) {
    const triangle = `M${x - 6} ${y - 5}L${x + 6} ${y - 5}L${x} ${y + 7}Z`;
    return element("path", { ...marked, class: "lowered", d: triangle }, title);
  }
  const kind = step.word === "offline" ? "ring" : step.isBack ? "back" : "dot";
  return element("circle", { ...marked, cx: x, cy: y, r: kind === "back" ? 5 : 4, class: kind }, title);
}

/** The line of a core: on its way from its check to its store, up from its store on, gone once offline. */
function drawLane(svg, isBoot, steps, x, y, width) {
  let from = LANE.left, kind = isBoot ? "up" : null;
  const close = (to) => {
    const place = { x1: from, x2: to, y1: y, y2: y };
    if (kind) svg.append(element("line", { class: kind, "stroke-width": kind === "gone" ? 2 : 4, ...place }));
  };
  for (const [step, index] of steps) {
    close(x(index));
    from = x(index);
    kind = step.reply === "done" ? { check: "flight", local: "flight", store: "up", offline: "gone" }[step.word] : null;
  }
  close(width - 14);
}
