"""Which core a line speaks of: a heading for the lines below it, or a label before a register."""

import re

from ..command import Refused

# a core's number: cpu1, CPU#1, core 1, (cpu1), core=1
LABEL = re.compile(
    r"(?<![a-z0-9])(?:cpu|core|processor|hart)[\s#:_=.\"'-]*(?:no\.?\s*|number\s*)?(\d+)(?![a-z0-9]|\.\d)",
    re.IGNORECASE,
)
# gdb: its CPU counts, and where it tells none its own number of the thread
GDB_THREAD = re.compile(
    r"^\W*(?:switching to )?thread (\d+)\b(?!.*\breceived signal)(?:.*\bcpu\s*#(\d+)\b)?.*$", re.IGNORECASE
)
# OpenOCD's `targets NAME`, whose name ends with a number, as a debugger's prompt echoes it
TARGETS = re.compile(r"^(?:.*>\s*)?targets?\s+\S*(?:\.|cpu|core)(\d+)$", re.IGNORECASE)
# Lauterbach's CORE.select 1
SELECT = re.compile(r"^(?:.*>\s*)?core\.select\s+(\d+)\.?$", re.IGNORECASE)
SHORT = re.compile(r"^\W*\[c(\d+)\]\W*$", re.IGNORECASE)
# what may stand in a heading beside the core's number
BESIDE = re.compile(
    r"(?:id|system|sys|special|registers?|regs?|dump|of|on|for|from|the|at|to|now|read|reading|halted|selected|"
    r"switch(?:ed|ing)?|boot|primary|secondary|begin|start|arm|arm64|aarch64|cortex|neoverse|kryo|"
    r"a\d{2,3}\w*|x\d\w*|n\d|v\d|e\d|el[0-3]|state|online)",
    re.IGNORECASE,
)


# a line without one of these is no heading
PARTS = ("cpu", "core", "processor", "hart", "thread", "target", "[c")


def heading(line):
    """The number of the core that a line begins, or None."""
    lower = line.lower()
    if not any(part in lower for part in PARTS):
        return None
    for form in (TARGETS, SELECT, SHORT):
        match = form.match(line.strip())
        if match:
            return int(match.group(1))
    thread = GDB_THREAD.match(line)
    if thread:
        return int(thread.group(2) or thread.group(1))
    labels = list(LABEL.finditer(line))
    if len(labels) != 1:
        return None
    beside = line[: labels[0].start()] + " " + line[labels[0].end() :]
    words = re.findall(r"[A-Za-z0-9]+", beside)
    return int(labels[0].group(1)) if all(BESIDE.fullmatch(word) for word in words) else None


def is_cut(line):
    """Whether a heading of gdb's lacks its end."""
    return bool(GDB_THREAD.match(line)) and any(line.count(one) != line.count(other) for one, other in ("()", "[]"))


def tells_cpu(line):
    """Whether a heading of gdb tells the CPU beside its own number of the thread; None for another line."""
    thread = GDB_THREAD.match(line)
    return bool(thread.group(2)) if thread else None


def label(before, place):
    """The number of the core that the text before a register names, or None."""
    found = {int(match.group(1)) for match in LABEL.finditer(before)} or {
        int(match.group(1)) for match in re.finditer(r"\[c(\d+)\]", before, re.IGNORECASE)
    }
    if len(found) > 1:
        told = " and ".join(str(number) for number in sorted(found))
        raise Refused(f"{place}: the line names the cores {told}: leave one of them")
    return found.pop() if found else None
