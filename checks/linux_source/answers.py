"""What each side says of a machine, in one form: fates, fields, capabilities, hwcaps, notes and what varies."""

import dataclasses
import re

from armcaps_tools import linux, profile

TRACKED = profile.tracked()
NAMES = [register.name for register in profile.registers()]


@dataclasses.dataclass
class Answer:
    """Fates by core as (kind, cause); words by register; sets of names; notes by field; reads by core and place."""

    fates: list
    system: dict
    user: dict
    capabilities: set
    hwcaps: set
    varies: set
    notes: dict
    reads: dict
    strange: list


def fields_of(words):
    """Each field's value, by register and name."""
    return {(field.register, field.name): field.value(words.get(field.register, 0)) for field in profile.fields()}


class Kernel:
    """What a kernel's program prints, with the kernel's own names."""

    def __init__(self, tables, names, hwcaps):
        self.names, self.hwcap_names = names, hwcaps
        self.rows = {}
        for line in tables.splitlines():
            tokens = line.split()
            if tokens[:1] == ["row"]:
                register, shift, width, sign, kind, visible, strict, safe = map(int, tokens[1:])
                self.rows.setdefault(NAMES[register], []).append((shift, width, sign, kind, visible, strict, safe))

    def row(self, field):
        """The kernel's row at a field's place, if it has one of that width."""
        return next((row for row in self.rows.get(field.register, []) if row[:2] == (field.shift, field.width)), None)

    def lacks_row(self, field):
        return self.row(field) is None

    def name(self, number):
        name = self.names.get(number, f"number {number}")
        return linux.SAME.get(name, name)

    def fate(self, told):
        """A core's fate by what the kernel printed."""
        how, _, why = told.partition(" ")
        if how not in ("parked", "panic"):
            return {"online": "up"}.get(how, how), ""
        conflict = re.search(r"conflict for capability (\d+)", why)
        if conflict:
            return how, "cap " + self.name(int(conflict.group(1)))
        if "missing HWCAP" in why:
            return how, "hwcap " + why.rpartition(": ")[2]
        return how, "asid" if "ASID" in why else "vl" if "SVE" in why else why

    def answer(self, lines):
        found = Answer([], {}, {}, set(), set(), set(), {}, {}, [])
        for line in lines:
            word, _, rest = line.partition(" ")
            tokens = rest.split()
            if word == "core":
                found.fates.append(self.fate(rest.partition(" ")[2]))
            elif word == "reg":
                name = NAMES[int(tokens[0])]
                found.system[name], found.user[name] = int(tokens[1], 16), int(tokens[2], 16)
            elif word == "cap":
                found.capabilities.add(self.name(int(tokens[0])))
            elif word == "hwcap":
                found.hwcaps = {
                    self.hwcap_names.get((index, bit), f"hwcap{index} bit {bit}")
                    for index, value in enumerate(tokens)
                    for bit in range(64)
                    if int(value, 16) >> bit & 1
                }
            elif word == "mrs":
                read = None if tokens[2] == "undefined" else int(tokens[2], 16)
                found.reads[int(tokens[0]), int(tokens[1])] = read
            elif word in ("warning", "died"):
                found.strange.append(line)
            elif word == "told":
                self.told(found, rest)
        return found

    def told(self, found, line):
        """A line of the kernel's log: what varies, and what became of overrides."""
        varies = re.match(r"SANITY CHECK: Unexpected variation in SYS_(\w+)\. ", line)
        if varies and varies.group(1).lower() in TRACKED:
            found.varies.add(varies.group(1).lower())
        note = re.match(r"SYS_(\w+)\[(\d+):(\d+)\]: (already set|forced|ignoring override)", line)
        if note:
            register, low = note.group(1).lower(), int(note.group(3))
            field = next((row for row in profile.fields_of(register) if row.shift == low), None)
            word = {"already set": "already", "ignoring override": "ignored"}.get(note.group(4), "forced")
            found.notes[f"{register[:-4]}.{field.name}" if field else f"{register} {low}"] = word


def of_report(done):
    """The program's answer, by its report, or by its line where a core panics."""
    found = Answer([], {}, {}, set(), set(), set(), {}, {}, [])
    if done.returncode == 7:
        panic = re.match(r"armcaps: panic: core (\d+): (?:cap \d+ (\w+)|(asid))", done.stderr.decode())
        found.fates = [("panic", int(panic.group(1)), "cap " + panic.group(2) if panic.group(2) else "asid")]
        return found
    if done.returncode:
        found.strange.append(f"status {done.returncode}: {done.stderr.decode().strip()}")
        return found
    for line in done.stdout.decode().splitlines()[1:-1]:
        word, _, rest = line.partition(" ")
        tokens = rest.split()
        if word == "core":
            found.fates.append(fate_of_report(tokens[1:]))
        elif word in ("reg", "user"):
            (found.system if word == "reg" else found.user)[tokens[0]] = int(tokens[1], 16)
        elif word == "varies":
            found.varies.add(rest)
        elif word == "note":
            found.notes[tokens[0]] = tokens[1]
        elif word == "cap":
            found.capabilities.add(tokens[1])
        elif word == "flags":
            found.hwcaps |= set(tokens)
    return found


def of_mrs(done, target):
    """What the program answers for one read: its value, None where the word is undefined, or what it says else."""
    told = (done.stdout if done.returncode == 0 else done.stderr).decode().strip()
    name, _, value = told.partition(" ")
    if done.returncode == 0 and name == ("xzr" if target == 31 else f"x{target}"):
        return int(value, 16)
    return None if done.returncode == 9 and told.endswith(" undefined") else told


def fate_of_report(tokens):
    """A core's fate by its state in the report, as `parked cap 18 HAS_WFXT` or `early offline`."""
    if tokens[0] == "parked":
        return "parked", f"{tokens[1]} {tokens[-1]}" if tokens[1] in ("cap", "hwcap") else tokens[1]
    return {"boot": "up", "early": "up", "late": "up"}.get(tokens[-1], tokens[-1]), ""
