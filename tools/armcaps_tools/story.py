"""A machine text beside its report: why each field has its value, and why cores are parked."""

from . import conflicts, fields, machine, profile, text

HEAD = ["field", "bits", "rule", "cores", "system", "users", "why"]
LEGEND = {
    "cores": "the admitted cores' own values; 0-6/2 are the cores 0, 2, 4 and 6, and 0-19:4/8 the first 4 of each 8",
    "cores differ": "the admitted cores differ, in a field in which the report says `varies`",
    "cores differ (allowed)": "they differ in a field that is not strict",
    "limited": "some admitted core has another value than the system's, which is what all can keep to",
    "hidden": "users see the field's safe value and not the system's",
    "override forced": "the command line holds the field at a value that the boot core has not",
    "override already": "the command line asks for the boot core's own value",
    "override ignored": "the command line asks for what the boot core cannot be held at",
}


def grouped(values):
    """The values of cores, as 0-3: 2, 4-5: 4; the plain value where all agree."""
    if len(set(values.values())) == 1:
        return str(next(iter(values.values())))
    cores = {}
    for core, value in values.items():
        cores.setdefault(value, []).append(core)
    return "; ".join(f"{text.spans(numbers)}: {value}" for value, numbers in cores.items())


class Story:
    """A text beside its report."""

    def __init__(self, given, report):
        self.given, self.machine, self.report = given, text.machine(given), report
        count = len(self.machine.cores)
        if count != len(report.cores):
            raise text.Unreadable(f"the text has {count} cores and the report {len(report.cores)}")
        boot = report.cores[self.machine.boot]
        if boot.state != "boot":
            raise text.Unreadable(f"the text's boot core is {self.machine.boot}, and the report says `{boot}` of it")
        self.admitted = [core.number for core in report.cores if core.is_admitted]
        self.parked = [core.number for core in report.cores if core.state == "parked"]

    def values(self, field, cores):
        return {core: field.value(self.machine.cores[core].get(field.register, 0)) for core in cores}

    def decided(self, field):
        """The system's value and the users'."""
        return [field.value(words.get(field.register, 0)) for words in (self.report.system, self.report.user)]

    def row(self, field, cores, why):
        system, user = self.decided(field)
        values = grouped(self.values(field, cores))
        name, rule = fields.name_of(field), fields.rule(field)
        return [name, field.bits, rule, values, str(system), str(user), ", ".join(why)]

    def reasons(self, field):
        """Why a field is told: what sets its values apart."""
        values = set(self.values(field, self.admitted).values())
        system, user = self.decided(field)
        note = self.report.notes.get(fields.name_of(field))
        why = [f"override {note}"] if note else []
        if len(values) > 1:
            why.append("cores differ" if field.strict else "cores differ (allowed)")
        if values != {system} and note != "forced":
            why.append("limited")
        if user != system and not field.visible:
            why.append("hidden")
        return why

    def rows(self, every=False, hidden=True):
        """The fields that something is to be told of, or every field: the row of each, and the reasons."""
        found = [(field, self.reasons(field)) for field in profile.fields()]
        kept = [(field, why) for field, why in found if every or why and (hidden or why != ["hidden"])]
        return [(self.row(field, self.admitted, why), why) for field, why in kept]

    def cause(self, core):
        """What a parked core's cause asks, and the fields that it names."""
        words = self.report.cores[core].cause.split(" ")
        name = words[-1]
        if words[0] == "vl":
            lengths = self.machine.cores[core].get("sve_vl", 0)
            own = ", ".join(str(128 * q) for q in range(1, 17) if lengths >> (q - 1) & 1) or "none"
            return f"the system has vectors of {name} bits, and the core's are: {own}", []
        row, tests = profile.tests("hwcaps" if words[0] == "hwcap" else "capabilities").get(name, ({}, []))
        if tests:
            asked = " or ".join(f"{fields.name_of(conflicts.field_of(test))} >= {test.least}" for test in tests)
            return f"{name} asks {asked}", [conflicts.field_of(test) for test in tests]
        if row.get("tests", "").startswith("erratum"):
            word = {name: f"{self.machine.cores[core].get(name, 0):#x}" for name in ("midr_el1", "revidr_el1")}
            return f"the core has the erratum {name}: midr_el1 {word['midr_el1']}, revidr_el1 {word['revidr_el1']}", []
        if row.get("tests") == "cache type":
            strict = [field for field in profile.fields_of("ctr_el0") if field.strict]
            differ = [field for field in strict if len(set(self.values(field, [self.machine.boot, core]).values())) > 1]
            return f"{name}: the cache type differs from that before", differ
        return self.report.cores[core].cause, []

    def conflicts(self, core):
        """All conflicts of a parked core: with the boot core, and where it came late with the settled system."""
        found = conflicts.at_check(self.machine, core)
        if core not in machine.begun_before_finalise(self.given):
            found += conflicts.at_local(self.machine, self.report, core)
        return found
