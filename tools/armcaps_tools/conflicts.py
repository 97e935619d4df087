"""With which capabilities, hwcaps and vector lengths a core conflicts: all of them, where the report tells the first.

The rules are those of the proved crates (docs/REPORT.md, docs/CAPABILITIES.md), written again to explain; the tests
compare them with what the program answers.
"""

import dataclasses

from . import cmdline, profile

PANIC = "strict boot feature"
BOOT = {"boot feature", PANIC}


@dataclasses.dataclass
class Conflict:
    """A capability, hwcap or vector length in which a core does not fit: its class, what is asked and what it has."""

    name: str
    place: str
    lacks: bool
    panics: bool = False
    asks: str = ""

    def __str__(self):
        why = "the core lacks it" if self.lacks else "the core has it, and it is off"
        return f"{self.name} ({self.place}): {why}" + (f"; {self.asks}" if self.asks else "")


def asks(tests, view):
    """What tests ask, and what a core has."""
    found = []
    for test in tests:
        field = field_of(test)
        name = f"{profile.by_name()[field.register].short}.{field.name}"
        found.append(f"{name} is {view.value(field)}, and {test.least} is asked for")
    return " or ".join(found)


def merged(field, one, other):
    """What two cores keep of a field by its rule."""
    if one == other:
        return one
    if field.rule == "Exact":
        return field.safe
    if field.rule == "HigherOrZero" and 0 in (one, other):
        return 0
    return min(one, other) if field.rule == "Lower" else max(one, other)


class View:
    """A core's own view of fields, under the overrides of a command line."""

    def __init__(self, words, overrides):
        self.words, self.overrides = words, overrides

    def value(self, field):
        own = field.value(self.words.get(field.register, 0))
        key = (field.register, field.name)
        return merged(field, self.overrides[key], own) if key in self.overrides else own


def field_of(test):
    return cmdline.field_of(test.register, test.field)


def version(written):
    """A version rXpY as one number that orders them."""
    variant, revision = written[1:].split("p")
    return int(variant) << 4 | int(revision)


def has_erratum(name, words):
    """Whether a core has the erratum of a capability."""
    midr, revidr = words.get("midr_el1", 0), words.get("revidr_el1", 0)
    own = (midr >> 20 & 15) << 4 | midr & 15
    for erratum in profile.errata():
        of_model = erratum["name"] == name and int(erratum["midr"], 16) == midr & 0xFF0FFFF0
        if of_model and version(erratum["low"]) <= own <= version(erratum["high"]):
            fixes = [fix.split(":") for fix in erratum["mended"].split(",") if fix]
            return not any(own == version(at) and revidr & int(bits, 16) for at, bits in fixes)
    return False


def cache_differs(words, boot):
    fields = [field for field in profile.fields_of("ctr_el0") if field.strict]
    return any(field.value(words.get("ctr_el0", 0)) != field.value(boot.get("ctr_el0", 0)) for field in fields)


def has(row, tests, view, boot):
    """Whether a core has a capability, in its own view."""
    if row["tests"] == "always":
        return True
    if row["tests"] == "cache type":
        return cache_differs(view.words, boot.words)
    if row["tests"].startswith("erratum"):
        return has_erratum(row["name"], view.words)
    (test,) = tests
    value = view.value(field_of(test))
    same = "as the boot core" not in row["tests"] or value == boot.value(field_of(test))
    return value >= test.least and same


def conflict_of(name, row, tests, view, boot, enabled):
    """The conflict of a core with one capability, or None."""
    present = has(row, tests, view, boot)
    lacks = enabled and not present and row["may_lack"] == "no"
    if not lacks and not (present and not enabled and row["may_have"] == "no"):
        return None
    return Conflict(name, row["class"], lacks, row["stops"] == "yes", asks(tests, view) if lacks else "")


def at_check(machine, core):
    """The conflicts with the boot core, by these two alone."""
    overrides = cmdline.overrides(machine.cmdline)
    boot, view = (View(machine.cores[number], overrides) for number in (machine.boot, core))
    found = []
    bits = [view.words.get("id_aa64mmfr0_el1", 0) >> 4 & 15 for view in (boot, view)]
    if bits[0] == 2 and bits[1] != 2:
        found.append(Conflict("ASIDs of 16 bits", "as the boot core", True, True))
    for name, (row, tests) in profile.tests("capabilities").items():
        if row["class"] in BOOT:
            found.append(conflict_of(name, row, tests, view, boot, has(row, tests, boot, boot)))
    return [conflict for conflict in found if conflict]


def at_local(machine, report, core):
    """The conflicts with what the system was settled to have, for a core that comes after that."""
    overrides = cmdline.overrides(machine.cmdline)
    boot, view = (View(machine.cores[number], overrides) for number in (machine.boot, core))
    found = []
    for name, (row, tests) in profile.tests("capabilities").items():
        if row["class"] not in BOOT:
            found.append(conflict_of(name, row, tests, view, boot, name in report.capabilities.values()))
    for name, (row, tests) in profile.tests("hwcaps").items():
        met = row["tests"] == "always" or any(view.value(field_of(test)) >= test.least for test in tests)
        if name in report.flags and not met:
            found.append(Conflict(name, "hwcap", True, False, asks(tests, view)))
    own = view.words.get("sve_vl", 0)
    for length in report.vector_lengths:
        if not own >> (length // 128 - 1) & 1:
            found.append(Conflict(f"vectors of {length} bits", "vector length", True))
    return [conflict for conflict in found if conflict]
