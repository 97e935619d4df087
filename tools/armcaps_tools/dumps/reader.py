"""One dump: its lines, tried in the shapes that are known, and the cores that they give."""

import re

from .. import text
from ..command import Refused
from . import headings, hints, objects, registers, source, tables
from .core import WORDS, Core, possible
from .memory import CORE_SIZE, Memory
from .numbers import Numbers, plural

OUTPUT = re.compile(r"^armcaps (?:report|trace) \d")
HEADER = re.compile(r"^armcaps [12]$")
JSON = re.compile(r"\s*(?:\{|\[\s*[{\"\]])")
STEPS = re.compile(
    r"^(armcaps [12]|boot \d+|cmdline\b.*|online \d+|check \d+|local \d+|store \d+|offline \d+|finalise|end)$"
)


class Dump:
    """One file: its cores by the number that it gives them."""

    def __init__(self, name, base, wide):
        self.name, self.numbers, self.wide = name, Numbers(base), wide
        self.cores, self.skipped, self.others = {}, [], []
        self.current, self.headings, self.memory = None, {}, {}
        self.pending, self.history = None, 0
        self.columns, self.strays, self.below, self.threads = {}, [], 0, set()
        self.of_text, self.is_text = 0, False

    def place(self, line):
        return f"{self.name}:{line.count}"

    def passed_over(self, name):
        if name not in self.others:
            self.others.append(name)

    def put(self, label, name, word, place):
        """Gives a register to a core; a second one is refused, with the lines that may have been headings."""
        if name == "sve_vl" and not self.wide:
            return
        core = self.cores.setdefault(label, Core(self.name, label))
        if name in core.words:
            raise Refused(self.twice(name, place, core))
        core.put(name, word, place)

    def twice(self, name, place, core):
        told = f"{place}: {name} stands twice in what would be one core, first at {core.places[name]}"
        lines = [f"{count}: {line[:50]}" for count, line in self.skipped[-3:]]
        between = f"; not understood: {'; '.join(lines)}" if lines else ""
        wanted = hints.of_headings([line for _, line in self.skipped]) or "a line `core 1`"
        again = "" if core.label is None else f" (core {core.label} had one)"
        return f"{told}: each core wants a heading of its own{again}: {wanted}{between}"

    def read(self, data):
        """Reads the bytes of the dump."""
        written = source.decoded(data, self.name)
        if JSON.match(written):
            objects.read(self, written)
        else:
            self.read_lines(source.lines(written))
            self.settle_memory()
        self.settle(written)

    def read_lines(self, lines):
        first = next((index for index, line in enumerate(lines) if line.text.strip()), 0)
        if tables.head(lines[first].text):
            tables.read(self, lines[first:])
            return
        if OUTPUT.match(lines[first].text):
            raise Refused(f"{self.name}: {hints.hint(lines[first].text)}")
        self.is_text = any(HEADER.match(line.text.strip()) for line in lines)
        for line in lines:
            if line.text.strip() and not self.line(line):
                self.skipped.append((line.count, line.text.strip()))
        if self.pending:
            self.skipped.append(self.pending[1:])
        last = lines[-1]
        if last.text.strip() and self.numbers.padded is None and not self.columns.get(True):
            found, _ = registers.registers_in(last.text)
            if found:
                raise Refused(
                    f"{self.place(last)}: the dump ends within this line, without a line feed: if it is whole, add that"
                )

    def line(self, line):
        """Takes a line, and answers whether anything was made of it."""
        place = self.place(line)
        if self.is_text and line.text.lstrip().startswith("#"):
            return True
        found, before = registers.registers_in(line.text)
        if found:
            return self.registers(line, found, before, place)
        if self.alone(line.text, place):
            return True
        if self.memory_line(line.text, place):
            return True
        number = headings.heading(line.text)
        if number is not None:
            if headings.is_cut(line.text):
                raise Refused(f"{place}: the heading lacks its end: are the lines cut at a column?")
            self.heading(number, headings.tells_cpu(line.text), place)
            return True
        if STEPS.match(line.text.strip()):
            self.of_text += 1
            return True
        return line.text.lstrip().startswith("#")

    def heading(self, number, cpu, place):
        """Takes a heading; gdb's all tell the CPU, or none does."""
        self.threads |= {cpu} - {None}
        if len(self.threads) > 1:
            raise Refused(f"{place}: one of gdb's headings tells the CPU and another does not: is the line cut?")
        self.current = number
        self.headings.setdefault(number, place)
        if number in self.memory:
            self.memory[number].fresh = True

    def registers(self, line, found, before, place):
        """Takes the registers that a line names."""
        label = headings.label(before, place)
        if label is None:
            label = line.caller if line.caller is not None and self.current is None else self.current
        for one in found:
            if one.written is not None:
                word = self.numbers.read(one.written, place, one.name)
                repeated = registers.second_column(one.behind, word, place, one.name)
                self.columns.setdefault(repeated, (place, one.name))
                self.put(label, one.name, word, place)
        if self.pending:
            self.skipped.append(self.pending[1:])
        self.pending = None
        if len(found) == 1 and found[0].written is None and not found[0].behind.strip(" )'\""):
            self.pending = (found[0].name, line.count, line.text.strip())
            return True
        return all(one.written is not None for one in found)

    def alone(self, line, place):
        """Takes a number that stands on the line below the name of its register."""
        pending, self.pending = self.pending, None
        match = registers.ALONE.match(line)
        if pending and not match:
            self.skipped.append(pending[1:])
        if not match:
            return False
        history, written = match.groups()
        if history is not None:
            self.in_order(int(history), place)
        if pending:
            if history is None and self.history:
                raise Refused(f"{place}: {written} has no `$N =`, as the numbers above have: is the line cut?")
            self.put(self.current, pending[0], self.numbers.read(written, place, pending[0]), place)
            self.below += 1
        elif history is None and written[:2] in ("0x", "0X"):
            self.strays.append(place)
        return pending is not None

    def in_order(self, history, place):
        """gdb counts what it prints."""
        if history <= self.history and history != 1:
            raise Refused(f"{place}: ${history} stands behind ${self.history}: lines are out of order")
        self.history = history

    def memory_line(self, line, place):
        memory = self.memory.get(self.current) or Memory(self.name)
        if not memory.command(line) and not memory.line(line, place):
            return False
        self.memory[self.current] = memory
        return True

    def settle_memory(self):
        """Gives the words of memory to cores."""
        for label, memory in self.memory.items():
            data = memory.data()
            if len(data) % CORE_SIZE or label is not None and len(data) not in (0, CORE_SIZE):
                raise Refused(
                    f"{self.name}: {len(data)} bytes of memory are not {CORE_SIZE} (17 registers) for each core"
                )
            count = len(data) // CORE_SIZE
            for number in range(count):
                core = number if label is None and count > 1 else label
                for index, name in enumerate(WORDS):
                    begin = number * CORE_SIZE + 8 * index
                    place = f"{self.name}, word {begin // 8} of the memory"
                    self.put(core, name, int.from_bytes(data[begin : begin + 8], "little"), place)

    def settle(self, written):
        """What is asked of the dump as a whole."""
        if not any(core.words for core in self.cores.values()):
            raise Refused(f"{self.name}: " + (hints.hint(written) or "has no register"))
        self.numbers.settle()
        if len(self.columns) > 1:
            (place, name), (other, _) = self.columns[False], self.columns[True]
            raise Refused(f"{place}: {name} has one number, and lines such as {other} have it twice: is the line cut?")
        if self.below and self.strays:
            raise Refused(f"{self.strays[0]}: a number alone, below no name of a register: is a line missing?")
        if self.is_text and not re.search(r"^(?:end|image \d+)\s*$", written, re.MULTILINE):
            raise Refused(f"{self.name}: is a machine text without a last line `end`: is it cut?")
        for number, place in self.headings.items():
            if number not in self.cores:
                raise Refused(f"{place}: core {number} has a heading, and no register")
        if None in self.cores and len(self.cores) > 1:
            where = next(iter(self.cores[None].places.values()))
            raise Refused(f"{where}: a register before the first core's heading, or in a line that names no core")
        for core in self.cores.values():
            possible(core)

    def remarks(self):
        """What was not taken."""
        if self.skipped:
            told = text.spans([count for count, _ in self.skipped])
            yield f"skipped {plural(len(self.skipped), 'line')} ({told}), as: {self.skipped[0][1][:60]}"
        if self.others:
            yield f"passed over {', '.join(self.others[:8])}: none of the 17 registers"
        if self.of_text:
            yield f"its header and steps are not kept ({plural(self.of_text, 'line')})"
