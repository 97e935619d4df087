"""The program's answers beside a kernel's: hwcaps, what programs read, numbers, and the words of all sites."""

import collections
import dataclasses
import re
import subprocess

from armcaps_tools import kernel, machine, profile


@dataclasses.dataclass(frozen=True)
class Build:
    """A kernel's build: its version, its files, and what its numbers mean."""

    version: str
    image: object
    nm: object
    caps: object

    def kernel(self):
        return kernel.of_image(self.image.read_bytes(), kernel.symbols(self.nm.read_bytes()))

    def names(self):
        return kernel.numbers(self.caps.read_bytes())


def with_cmdline(given, line):
    """A machine text with a command line."""
    return re.sub(r"^(boot \d+)$", rf"\1\ncmdline {line}", given, count=1, flags=re.MULTILINE)


def asked(program, given, *words):
    """The lines that the program prints, or none where it refuses."""
    done = subprocess.run([program, *words], input=given, capture_output=True, check=False)
    return done.stdout.decode().splitlines() if done.returncode == 0 else []


def hwcaps(program, given, kernels):
    """The hwcaps that one side alone has, by name where armcaps has one, each with that side."""
    lines = [line.split() for line in asked(program, given, "report")]
    told = [int(line[1], 16) for line in lines if line[0] in ("hwcap", "hwcap2")]
    names = {(row["word"], int(row["bit"])): row["name"] for row in profile.table("hwcaps")}
    found = []
    for word, ours, theirs in zip(("HWCAP", "HWCAP2"), told, kernels):
        for bit in range(64):
            if (ours ^ theirs) >> bit & 1:
                side = "armcaps" if ours >> bit & 1 else "Linux"
                found.append(f"{names.get((word, bit), f'{word} bit {bit}')} of {side} alone")
    return found


def parts(word, ours, theirs):
    """What differs in a word that a process reads: its fields by name, and the bits of no field."""
    crm, op2 = word >> 8 & 15, word >> 5 & 7
    places = {(row.op1, row.crn, row.crm, row.op2): row for row in profile.registers()}
    register = places.get((0, 0, crm, op2))
    if ours is None or theirs is None:
        return [f"S3_0_C0_C{crm}_{op2} undefined for {'armcaps' if ours is None else 'Linux'} alone"]
    found, left = [], ours ^ theirs
    for field in profile.fields_of(register.name) if register else []:
        mask = ((1 << field.width) - 1) << field.shift
        if left & mask:
            found.append(f"{register.short}.{field.name} is {field.value(ours)}, of Linux {field.value(theirs)}")
            left &= ~mask
    name = register.short if register else f"S3_0_C0_C{crm}_{op2}"
    rest = [low for low in range(0, 64, 4) if left >> low & 15]
    return found + [f"{name} bits {low + 3}:{low} of Linux {theirs >> low & 15}" for low in rest]


def reads(program, given, kernels):
    """What differs in what a process reads on each core at each place, and how many reads were compared."""
    found = collections.Counter()
    for (core, word), theirs in sorted(kernels.items()):
        lines = asked(program, given, "mrs", str(core), f"{word:#x}")
        ours = int(lines[0].split()[1], 16) if lines else None
        if ours != theirs:
            found.update(parts(word, ours, theirs))
    return sorted(found), len(kernels)


def bitmap(found, memory):
    """The numbers that are on in a kernel's memory."""
    name = next(name for name in ("system_cpucaps", "cpu_hwcaps") if name in found.offsets)
    at = found.offset(name)
    word = int.from_bytes(memory[at : at + 16], "little")
    return {number for number in range(128) if word >> number & 1}


def word_at(data, place):
    return int.from_bytes(data[place : place + 4], "little")


@dataclasses.dataclass
class Sites:
    """The words of all sites: how many were compared, changed by the kernel, freed since, and what differs."""

    compared: int = 0
    changed: int = 0
    freed: int = 0
    callbacks: collections.Counter = dataclasses.field(default_factory=collections.Counter)
    strange: list = dataclasses.field(default_factory=list)
    rows: list = dataclasses.field(default_factory=list)

    def table(self):
        """Each word that differs: its place, ours, Linux's, and the callback whose site it is in."""
        return "".join(f"{place:#x}\t{ours:#010x}\t{theirs:#010x}\t{name}\n" for place, ours, theirs, name in self.rows)


def is_freed(found, place):
    """Whether a place is one of those that a kernel frees when it has booted: __init, and what is before _stext."""
    freed = [(found.offset("__init_begin"), found.offset("__init_end")), (0, found.offset("_stext"))]
    return any(begin <= place < end for begin, end in freed)


def sites(found, patched, memory):
    """Each word of each site in the patched image and in a kernel's memory.

    What the kernel frees when it has booted is not there any more.
    """
    names, total, seen = found.names_at(), Sites(), set()
    entries = list(found.entries())
    called = {
        place: names.get(entry.other, ["?"])[0].replace("__kvm_nvhe_", "")
        for entry in entries
        if entry.callback
        for place in range(entry.site, entry.site + entry.length, 4)
    }
    for place in (place for entry in entries for place in range(entry.site, entry.site + entry.length, 4)):
        if place in seen:
            continue
        seen.add(place)
        if is_freed(found, place):
            total.freed += 1
            continue
        ours, theirs = word_at(patched, place), word_at(memory, place)
        total.compared += 1
        total.changed += word_at(found.image, place) != theirs
        if ours != theirs:
            total.rows.append((place, ours, theirs, called.get(place, "")))
        if ours != theirs and place in called:
            total.callbacks[called[place]] += 1
        elif ours != theirs:
            total.strange.append(f"{place:#x}: {ours:#010x}, of Linux {theirs:#010x}")
    return total
