"""What the page's elements show, beside what the program's report says."""

from armcaps_tools import fields, profile, text

# everything that is compared, read from the elements alone
READ = """(() => {
  const all = (selector, of = document) => [...of.querySelectorAll(selector)];
  const numbers = (text) => text.split(" ").map(Number);
  const head = all("#matrix thead th[data-cores]").map((cell) => numbers(cell.dataset.cores));
  const held = all("#holders li").map((item) => numbers(item.dataset.holders));
  const rows = all("#matrix tbody tr").map((row) =>
    [row.dataset.field, all("td.value", row).map((cell) => Number(cell.textContent))]);
  const machines = all("#matrix thead th[data-machines]").map((cell) => numbers(cell.dataset.machines));
  const limits = all("#matrix td[data-limit]").map((cell) => Number(cell.dataset.limit));
  const placesOf = (row) =>
    all("td.limits", row).map((cell) => Number(cell.dataset.at));
  const marked = all("#matrix tbody tr").map(placesOf);
  const tags = all("#capabilities ul").map((list) => all("li:not(.lost)", list).map((item) => item.textContent));
  return {
    cores: all("#cores .card[data-cores]").map(({ dataset }) =>
      [numbers(dataset.cores), dataset.state, dataset.cause]),
    lost: all("#capabilities .lost").map((item) => item.dataset.lost),
    machines, limits, marked, head, rows, tags, held,
    refusal: document.querySelector("#refusal strong")?.textContent ?? "",
    line: document.querySelector("#gutter b")?.textContent ?? null,
    steps: all("#lanes [data-step]").map(({ dataset }) => `${dataset.step} ${dataset.core} ${dataset.reply}`),
    report: document.getElementById("report").textContent, trace: document.getElementById("trace").textContent,
  };
})()"""


class Differs(Exception):
    """What is drawn is not what the program says."""


def same(what, drawn, said):
    if drawn != said:
        raise Differs(f"{what}: drawn is {drawn!r}, and the program says {said!r}")


def compare_states(drawn, report, panics):
    """The state and cause of each core, as its card has them; `panics` are those of cores that stop the machine."""
    states = {core: f"{state} {cause}".strip() for cores, state, cause in drawn["cores"] for core in cores}
    told = [panics.get(core.number, str(core)) for core in report.cores]
    same("states", [states.get(core.number) for core in report.cores], told)


def compare_fields(drawn, machine, report):
    """Each field of each core, and the system's and the users'."""
    rows = dict(drawn["rows"])
    same("fields", list(rows), [fields.name_of(field) for field in profile.fields()])
    for field in profile.fields():
        *own, system, users = rows[fields.name_of(field)]
        by_core = {core: value for cores, value in zip(drawn["head"], own) for core in cores}
        told = {core: field.value(words.get(field.register, 0)) for core, words in enumerate(machine.cores)}
        same(fields.name_of(field), by_core, told)
        same("system", system, field.value(report.system[field.register]))
        same("users", users, field.value(report.user[field.register]))


def compare_holders(drawn, machine, report):
    """Which cores hold fields where they are: those with the system's value, where admitted cores have others too."""
    admitted = [core.number for core in report.cores if core.is_admitted]
    wanted = set()
    for field in profile.fields():
        values = {core: field.value(machine.cores[core].get(field.register, 0)) for core in admitted}
        system = field.value(report.system[field.register])
        forced = report.notes.get(fields.name_of(field)) == "forced"
        if len(set(values.values())) > 1 and field.rule != "Exact" and not forced:
            wanted.add(tuple(core for core, value in values.items() if value == system))
    same("holders", {tuple(sorted(cores)) for cores in drawn["held"]}, wanted - {()})


def compare_machine(drawn, given, answer, trace, panics):
    """All that a page shows of a machine, beside what the program gave for it."""
    machine, report = text.machine(given), text.read_report(answer.stdout)
    same("refusal", drawn["refusal"], "")
    same("report", drawn["report"].encode(), answer.stdout)
    same("trace", drawn["trace"].encode(), trace.stdout)
    compare_states(drawn, report, panics)
    compare_fields(drawn, machine, report)
    compare_holders(drawn, machine, report)
    lengths = [list(map(str, report.vector_lengths))] if report.vector_lengths or len(drawn["tags"]) == 3 else []
    same("tags", drawn["tags"], [list(report.capabilities.values()), report.flags, *lengths])
    steps = [line.split(" ", 2)[2] for line in trace.stdout.decode().splitlines() if line.startswith("step ")]
    same("steps", drawn["steps"], [step for step in steps if not step.startswith("finalise")])


def compare_pool(drawn, answer, reports):
    """What a page shows of a pool, beside the baseline that the program gave and the reports of its machines."""
    baseline = text.read_pool(answer.stdout)
    same("refusal", drawn["refusal"], "")
    same("baseline", drawn["report"].encode(), answer.stdout)
    same("machines", sorted(number for numbers in drawn["machines"] for number in numbers), list(range(len(reports))))
    names = [fields.name_of(field) for field in profile.fields()]
    same("fields", [name for name, _ in drawn["rows"]], names)
    same("limits", drawn["limits"], [baseline.limits[name] for name in names])
    for field, (name, values), marked in zip(profile.fields(), drawn["rows"], drawn["marked"]):
        *own, common = values
        same(name, common, field.value(baseline.system[field.register]))
        told = [field.value(report.system[field.register]) for report in reports]
        by_machine = {number: value for numbers, value in zip(drawn["machines"], own) for number in numbers}
        same(name, [by_machine[number] for number in range(len(reports))], told)
        first = baseline.limits[name]
        limiting = [at for at, numbers in enumerate(drawn["machines"]) if own[at] == common or first in numbers]
        same(f"marked in {name}", marked, limiting if len(set(told)) > 1 else [])


def compare_refusal(drawn, answer):
    """The line of a refusal, and the mark of the text's line."""
    same("refusal", drawn["refusal"], answer.stderr.decode().strip())
    words = answer.stderr.split()
    same("marked line", drawn["line"], words[2].rstrip(b":").decode() if words[1] == b"line" else None)
