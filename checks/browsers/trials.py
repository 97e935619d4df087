"""What is tried with the page in a browser. Each trial ends with a line, or with what is not so."""

import base64
import re
import subprocess
import time

from armcaps_tools import profile, text

from . import documents, drawn, pictures

TOP = documents.TOP


class Trials:
    """All trials of one page, beside the program."""

    def __init__(self, page, program, path):
        self.page, self.program, self.path = page, program, path

    def run(self, words, data):
        return subprocess.run([self.program, *words.split()], input=data, capture_output=True, check=False)

    def same_run(self, words, data):
        """The module's status, output and line beside the program's."""
        program = self.run(words, data)
        said = program.returncode, program.stdout, program.stderr.decode().strip()
        drawn.same(words, self.page.run(words, data), said)
        return program

    def document(self, data):
        """All of a document without an image: runs of each command, and what is drawn."""
        report, trace = self.same_run("report", data), self.same_run("trace", data)
        for core, register in ((0, "id_aa64isar0_el1"), (1, "ctr_el0"), (2, "id_aa64pfr0_el1")):
            self.same_run(f"mrs {core} {mrs_word(register)}", data)
        self.page.put(data)
        status, panics = report.returncode, {}
        while report.returncode == 7:
            core, cause = re.match(r"armcaps: panic: core (\d+): (.*)\n", report.stderr.decode()).groups()
            panics[int(core)] = f"panic {cause}"
            rest = without(data, panics)
            report, trace = self.run("report", rest), self.run("trace", rest)
        if report.returncode == 0:
            drawn.compare_machine(self.page.drawn(), data, report, trace, panics)
        else:
            drawn.compare_refusal(self.page.drawn(), report)
        return status

    def examples(self):
        """Every example."""
        count = 0
        for path in sorted((TOP / "examples").glob("*.txt")):
            try:
                self.document(path.read_bytes())
            except drawn.Differs as difference:
                raise drawn.Differs(f"{path.name}: {difference}") from None
            count += 1
        return f"{count} examples, by report, trace and mrs, and as they are drawn"

    def random(self, count, first=0):
        """Documents from numbers."""
        pool, statuses = documents.known_cores(), {}
        for seed in range(first, first + count):
            try:
                status = self.document(documents.document(seed, pool))
            except drawn.Differs as difference:
                raise drawn.Differs(f"document {seed}: {difference}") from None
            statuses[status] = statuses.get(status, 0) + 1
        told = ", ".join(f"{number} with status {status}" for status, number in sorted(statuses.items()))
        return f"{count} random documents ({told}), by report, trace and mrs, and as they are drawn"

    def others(self):
        """What cores would have alone, and what would be won without some: each beside a run of the program."""
        paths = sorted((TOP / "examples").glob("*.txt"))
        for name, data in [(path.name, path.read_bytes()) for path in paths] + [("a board", pictures.board())]:
            report = self.run("report", data)
            if report.returncode == 0:
                self.page.put(data)
                lost = sorted(set(self.page.drawn()["lost"]))
                drawn.same(f"lost in {name}", lost, sorted(self.lost(data, text.read_report(report.stdout))))
        button = "document.querySelector('#holders li[data-holders=\"2\"] button')"
        self.page.ask(f"void {button}.click()")
        self.page.wait(f"{button}.parentNode.textContent.includes('Won:')")
        told = self.page.ask(f"{button}.parentNode.querySelector('p').textContent")
        now, other = (text.read_report(self.run("report", given).stdout) for given in (data, without(data, [2])))
        won = [name for part in ("capabilities", "flags") for name in set_apart(other, now, part)]
        drawn.same("won without core 2", told.split(". ")[0], f"Won: {', '.join(won)}")
        return "what cores would have alone, and what would be won without one"

    def lost(self, data, report):
        """The names that some admitted core would have alone, and the machine has not."""
        machine, found = text.machine(data), set()
        features = {row["name"] for row in profile.table("capabilities") if "feature" in row["class"]}
        for core in (core.number for core in report.cores if core.is_admitted):
            words = [f"{name} {word:#x}" for name, word in machine.cores[core].items()]
            first = data.split(b"\n")[0].decode()
            lines = [first, "core 0", *words, "boot 0", f"cmdline {machine.cmdline}", "finalise", "end", ""]
            alone = text.read_report(self.run("report", "\n".join(lines).encode()).stdout)
            found |= set(set_apart(alone, report, "capabilities")) & features | set(set_apart(alone, report, "flags"))
            found |= set(map(str, set_apart(alone, report, "vector_lengths")))
        return found

    def pools(self):
        """Pools of examples, refused ones, and one with a machine that a step stops; and a machine of a pool alone."""
        names = ("late-core", "a57-a53", "qemu-max", "late-core", "big-little")
        texts = [(TOP / f"examples/{name}.txt").read_bytes() for name in names]
        refused, panic = ((TOP / f"examples/{name}.txt").read_bytes() for name in ("refused", "panic"))
        for pool in (texts, texts[:2], texts[1:2] * 64, texts[1:2] * 65, [*texts, refused], [*texts, panic, *texts]):
            answer = self.same_run("pool", b"".join(pool))
            self.page.put(b"".join(pool))
            if answer.returncode == 0:
                reports = [text.read_report(self.run("report", machine).stdout) for machine in pool]
                drawn.compare_pool(self.page.drawn(), answer, reports)
            else:
                drawn.same("refusal", self.page.drawn()["refusal"], answer.stderr.decode().strip())
        line = sum(machine.count(b"\n") for machine in texts) + int(re.search(rb"line (\d+)", self.refusal(refused))[1])
        self.page.put(b"".join([*texts, refused]))
        drawn.same("marked line", self.page.drawn()["line"], str(line))
        self.page.put(b"".join([*texts, panic]))
        self.page.act("[...document.querySelectorAll('#refusal button')].at(-1).click()")
        drawn.same("machine alone", self.page.ask("document.getElementById('text').value").encode(), panic)
        self.page.act("document.getElementById('back').click()")
        return "6 pools: machines by fields, those that limit marked, refusals at their lines, and a machine alone"

    def refusal(self, data):
        return self.run("report", data).stderr

    def words(self):
        """Words that are no command, and `demo`, which reads nothing."""
        cases = ["", "report x", "mrs 0", "mrs 0 0xD5380600", "demo 7 12", "Report", "demo 0 65", "  report  "]
        for words in cases:
            program = self.run(words, b"")
            said = program.returncode, program.stdout, program.stderr.decode().strip()
            drawn.same(words, self.page.run(words, b""), said)
        return f"{len(cases)} lines of words"

    def saves(self):
        """The text and the report, as they are saved."""
        path = TOP / "examples/hotplug.txt"
        self.page.put(path.read_bytes())
        for button, name, wanted in (
            ("save-text", "board.txt", path.read_bytes()),
            ("save-report", "board.report", path.with_suffix(".report").read_bytes()),
        ):
            self.page.ask(f"void document.getElementById('{button}').click()")
            saved = self.page.browser.saved / name
            for _ in range(200):
                if saved.is_file() and saved.stat().st_size == len(wanted):
                    break
                time.sleep(0.05)
            drawn.same(name, saved.read_bytes() if saved.is_file() else None, wanted)
        return "the text and the report are saved as they are"

    def figures(self):
        """Times: the page opened and drawn, a first report with the module made ready, a warm one, and 512 cores."""
        late, many = (TOP / "examples/late-core.txt").read_bytes(), many_cores(512)
        anew = "new Engine(asBytes(atob($('module').textContent)), $('worker').textContent)"
        told = [f"opened and drawn in {self.page.seconds:.2f} s"]
        for what, engine, data, again in (
            ("first report of 4 cores", anew, late, 5),
            ("report of 4 cores", "engine", late, 20),
            ("report of 512 cores", "engine", many, 5),
        ):
            running = f"await ({engine}).run('report', [asBytes(atob('{encoded(data)}'))])"
            clock = f"const begin = performance.now(); {running}; return performance.now() - begin;"
            times = [self.page.ask(f"(async () => {{ {clock} }})()") for _ in range(again)]
            told.append(f"{what}: {sorted(times)[again // 2]:.1f} ms")
        self.same_run("report", many)
        told.append(f"512 cores read and drawn in {self.page.put(many):.2f} s")
        return "; ".join(told)

    def names(self):
        """A name for all that can be used."""
        names = self.page.ask(
            "[...document.querySelectorAll('button, input, select, textarea')].filter((one) => !one.textContent.trim() "
            "&& !one.getAttribute('aria-label') && !one.labels?.length).map((one) => one.id)"
        )
        drawn.same("elements without a name", names, [])
        return "every button and field has a name"

    def keys(self):
        """The matrix by keys alone."""
        self.page.put((TOP / "examples/big-little.txt").read_bytes())
        self.page.ask("void document.querySelector('#matrix td.value').focus()")
        for key in ("ArrowRight", "ArrowDown", "ArrowDown", "ArrowLeft"):
            self.page.browser.press(key)
        label = self.page.ask("document.activeElement.getAttribute('aria-label')")
        drawn.same("focus", label, "id_aa64pfr0.el2, cores 0-3: 0")
        drawn.same("detail", self.page.ask("document.querySelector('#detail h3').textContent"), "id_aa64pfr0.el2")
        return "the matrix is gone through by arrow keys, and what is focused is explained"


def set_apart(one, other, part):
    """What one report has in a list and the other has not."""
    has, lacks = (named(getattr(report, part)) for report in (one, other))
    return [name for name in has if name not in lacks]


def named(part):
    """The names of a report's part; capabilities are by number."""
    return list(part.values()) if isinstance(part, dict) else part


def without(data, cores):
    """A text without the steps of some cores."""
    steps = re.compile(rb"(?:check|local|store|online|offline) (\d+)")
    found = ((line, steps.fullmatch(line)) for line in data.split(b"\n"))
    return b"\n".join(line for line, step in found if not step or int(step[1]) not in cores)


def encoded(data):
    return base64.b64encode(data).decode()


def mrs_word(name):
    register = profile.by_name()[name]
    parts = register.op1 << 16 | register.crn << 12 | register.crm << 8 | register.op2 << 5
    return f"{0xD5380000 | parts:#x}"


def many_cores(count):
    """The cores of an example again and again, in format 2."""
    cores = text.machine((TOP / "examples/big-little.txt").read_bytes()).cores
    lines = ["armcaps 2"]
    for number in range(count):
        lines.append(f"core {number}")
        lines += [f"{name} {word:#x}" for name, word in cores[number % len(cores)].items()]
    lines += ["boot 0", *(f"online {number}" for number in range(1, count)), "finalise", "end", ""]
    return "\n".join(lines).encode()
