"""Random machines, made of the registers of real cores."""

import copy
import random

from armcaps_tools import profile

NAMES = [register.name for register in profile.registers()]
# the fields that each Linux's command line knows by name, of those that armcaps has
BOTH = (
    "id_aa64mmfr1.vh id_aa64pfr0.sve id_aa64pfr1.bt id_aa64pfr1.mte id_aa64pfr1.sme id_aa64isar1.gpi id_aa64isar1.gpa "
    "id_aa64isar1.api id_aa64isar1.apa id_aa64isar2.gpa3 id_aa64isar2.apa3 id_aa64smfr0.fa64"
)
KNOWN = {"6.1": BOTH, "6.12": f"{BOTH} id_aa64pfr0.el0 id_aa64isar2.mops"}
ALIASES = {"6.1": "nosve nosme nobti nopauth nomte", "6.12": "nosve nosme nobti nopauth nomte nomops"}
# those of the errata, Neoverse N1, Cortex-A55, Neoverse V1 and Neoverse N2
PARTS = [0xD03, 0xD07, 0xD08, 0xD09, 0xD0B, 0xD0D, 0xD0C, 0xD05, 0xD40, 0xD49]
MODELS = [0x41 << 24 | 0xF0000 | part << 4 for part in PARTS]


PLACES = 128  # of op0 3, op1 0, CRn 0: CRm in the upper four bits, op2 in the lower three


class Machine:
    """Cores with their words and vector lengths, a command line, and steps."""

    def __init__(self, seed, version, bases):
        self.seed, self.draw = seed, random.Random(seed)
        base = self.draw.choice(bases)
        other = self.draw.choice(bases) if self.draw.random() < 0.25 else base
        base, other = self.changed(base, self.draw.randrange(7)), self.changed(other, self.draw.randrange(3))
        if self.draw.random() < 0.5:
            base["midr_el1"] = self.midr()
        count = self.draw.randrange(2, 6)
        self.cores = [self.core(base if self.draw.random() < 0.75 else other, number) for number in range(count)]
        self.cmdline = self.words(version)
        self.steps = self.order(count)

    def midr(self):
        return self.draw.choice(MODELS) | self.draw.randrange(5) << 20 | self.draw.randrange(5)

    def changed(self, core, count):
        core = dict(core)
        for _ in range(count):
            field = self.draw.choice(profile.fields())
            mask = ((1 << field.width) - 1) << field.shift
            value = self.draw.choice([0, 1, 2, 3, self.draw.randrange(1 << field.width)])
            core[field.register] = core[field.register] & ~mask | value << field.shift & mask
        return core

    def core(self, base, number):
        core = self.changed(base, self.draw.choice([0, 0, 0, 1, 1, 2]))
        if self.draw.random() < 0.1:
            core["midr_el1"] = self.midr()
        core["mpidr_el1"] = 1 << 31 | number
        full = base.get("sve_vl", 0xFFFF) or 0xFFFF
        if self.draw.random() < 0.15:
            full &= self.draw.randrange(1 << 16) | 1
        core["sve_vl"] = full if core["id_aa64pfr0_el1"] >> 32 & 15 else 0
        return core

    def words(self, version):
        found = ["quiet"]
        while self.draw.random() < 0.45:
            if self.draw.random() < 0.4:
                found.append("arm64." + self.draw.choice(ALIASES[version].split()))
            else:
                name = self.draw.choice(KNOWN[version].split())
                greatest = 2 if name.endswith("fa64") else 10
                found.append(f"{name}={self.draw.choice([0, 0, 1, 2, self.draw.randrange(greatest)])}")
        return " ".join(found)

    def order(self, count):
        early = [core for core in range(1, count) if self.draw.random() < 0.6]
        late = [core for core in range(1, count) if core not in early and self.draw.random() < 0.85]
        steps = [f"online {core}" for core in early] + ["finalise"] + [f"online {core}" for core in late]
        if early and self.draw.random() < 0.2:
            core = self.draw.choice(early)
            steps += [f"offline {core}"] + ([f"online {core}"] if self.draw.random() < 0.7 else [])
        return steps

    def reads(self, count):
        """Some reads by a program: the core, the place in the ID space and the register that gets the value."""
        draw = random.Random(f"reads {self.seed}")
        return [(draw.randrange(len(self.cores)), draw.randrange(PLACES), draw.randrange(32)) for _ in range(count)]

    def until(self, core):
        """The machine with its steps up to a core's coming up."""
        cut = copy.copy(self)
        cut.steps = self.steps[: self.steps.index(f"online {core}") + 1]
        cut.steps += [] if "finalise" in cut.steps else ["finalise"]
        return cut

    def text(self):
        """The machine text."""
        lines = ["armcaps 2"]
        for number, core in enumerate(self.cores):
            lines += [f"core {number}"] + [f"{name} {core[name]:#x}" for name in [*NAMES, "sve_vl"]]
        return "\n".join([*lines, "boot 0", f"cmdline {self.cmdline}", *self.steps, "end", ""]).encode()

    def lines(self):
        """What the kernel's program reads."""
        rows = [" ".join(f"{core[name]:x}" for name in [*NAMES, "sve_vl"]) for core in self.cores]
        return "\n".join([f"machine {len(self.cores)}", *rows, f"cmdline {self.cmdline}", *self.steps, "end", ""])
