"""Compares both sides of a machine, and gives each difference a class. What has none is what the check looks for."""

from armcaps_tools import linux, profile

FIELDS = {(field.register, field.name): field for field in profile.fields()}
CAPABILITIES = {row["name"] for row in profile.table("capabilities")}
HWCAPS = {row["name"] for row in profile.table("hwcaps")}
ERRATA = {row["name"] for row in profile.table("errata")}
TESTS = {"cap": profile.tests("capabilities"), "hwcap": profile.tests("hwcaps")}
AARCH32 = range(16, 32)

LACKS = "Linux has no such row, number or hwcap (another release, or another choice of the profile)"
PROFILE_LACKS = "the profile has no such number or hwcap"
ROWS = "the row is another one: rule, safe value, sign, visibility or strictness"
LISTS = "Linux's list of the erratum is another one"
ORDER = "another conflict comes first by Linux's numbers"
PANICS = "another conflict comes first by Linux's numbers, and decides between panic and parking"
LENGTHS = "the core's greatest SVE length is less than the least greatest length of the early ones"
STRICT_BITS = "bits of no row here: Linux takes those as strict"
WEAK = "HW_DBM is always on in Linux, which decides it core by core"
SSBS = "Linux hides SSBS where the erratum 3194386 is worked around"
EXACT = "an override of an Exact field with the boot core's own value is 'ignoring override' in Linux"
LEAST = "HAS_EVT asks for 2 here and for 1 in Linux"
SVE_HWCAPS = "Linux tells the hwcaps of SVE only where there is SVE"
VIEW = "Linux takes an override as every core's value; here it is merged with the core's own, an ignored one too"
FOLLOWS = "follows from an early core's fate, which differs for one of the other reasons"
SVE_SME = "SVE at 0 takes SME along here alone"
AARCH32_READ = "mrs of the AArch32 ID registers and MVFR (CRm 2 and 3), which are left out here"
NO_ROW = "mrs shows bits that are no row here, at Linux's safe values (TGRAN4_2, TGRAN16_2, TGRAN64_2)"
DEPENDENTS = "Linux notes more fields, or others, where SVE or SME are at 0"


def row_parts(kernel, field):
    """What the kernel's row has otherwise: the name of each part with the kernel's value; None where it has no row."""
    row = kernel.row(field)
    if row is None:
        return None
    sign, kind, visible, strict, safe = row[2:]
    theirs = {
        "sign": "signed" if sign else "unsigned",
        "rule": ("Exact", "Lower", "Higher", "HigherOrZero")[kind],
        "users": "visible" if visible else "hidden",
        "strict": "strict" if strict else "not strict",
        "safe": f"safe {field.cut(safe)}",
    }
    ours = {
        "sign": "signed" if field.signed else "unsigned",
        "rule": field.rule,
        "users": "visible" if field.visible else "hidden",
        "strict": "strict" if field.strict else "not strict",
        "safe": f"safe {field.safe}",
    }
    return {name: value for name, value in theirs.items() if value != ours[name]}


def row_class(kernel, field):
    if kernel.lacks_row(field):
        return LACKS
    return ROWS if row_parts(kernel, field) else None


def row_differences(kernel):
    """Of each field whose row the kernel has otherwise or not at all, what it has."""
    found = {}
    for (register, name), field in FIELDS.items():
        parts = row_parts(kernel, field)
        if parts or parts is None:
            found[f"{register[:-4]}.{name}"] = "no row" if parts is None else ", ".join(parts.values())
    return found


def cause_class(kernel, machine, cause, is_linux):
    """The class of a cause that one side alone sees."""
    kind, _, name = cause.partition(" ")
    known = set(kernel.names.values()) | set(linux.SAME.values())
    if kind == "cap" and name in ERRATA:
        return LISTS
    if is_linux and (kind == "cap" and name not in CAPABILITIES or kind == "hwcap" and name not in HWCAPS):
        return PROFILE_LACKS
    hwcaps = kernel.hwcap_names.values()
    if not is_linux and (kind == "cap" and name not in known or kind == "hwcap" and name not in hwcaps):
        return LACKS
    if is_linux and kind == "vl":
        return LENGTHS
    if name == "ssbs":
        return SSBS
    if name == "HAS_EVT":
        return LEAST
    if name.lower().startswith("sme") and turns_sve_off(machine.cmdline):
        return SVE_SME
    if kind == "hwcap" and name.startswith("sve") and name != "sve":
        return SVE_HWCAPS
    return VIEW if is_overridden(machine, kind, name) else None


def is_overridden(machine, kind, name):
    """Whether the command line names a field that a capability or hwcap asks for, or that SVE or SME takes along."""
    _, tests = TESTS.get(kind, {}).get(name, (None, []))
    fields = {f"{test.register[:-4]}.{test.field}" for test in tests}
    words = machine.cmdline.split()
    named = {word.partition("=")[0] for word in words if "=" in word}
    for word in words:
        named |= {f"{register[:-4]}.{field}" for register, field in profile.aliases().get(word, [])}
    if {"id_aa64pfr0.sve", "id_aa64pfr1.sme"} & named:
        named |= {field for field in fields if field.startswith(("id_aa64zfr0", "id_aa64smfr0"))}
    return bool(fields & named)


def fates(kernel, machine, ours, theirs, ask):
    """Classes of differences of fates; none where they are the same. `ask` gives the program's answer for a machine."""
    panic = next(((core, fate[1]) for core, fate in enumerate(theirs.fates) if fate[0] == "panic"), None)
    if ours.fates and ours.fates[0][0] == "panic":
        _, core, cause = ours.fates[0]
        if panic == (core, cause):
            return []
        if not panic or panic[0] == core or comes_up(machine, core) < comes_up(machine, panic[0]):
            return [one_class(kernel, machine, ("panic", cause), theirs.fates[core])]
        ours = ask(machine.until(panic[0]))
    if panic:
        return [one_class(kernel, machine, ours.fates[panic[0]], ("panic", panic[1]))]
    found, is_early, follows = [], True, False
    for step in machine.steps:
        kind, _, core = step.partition(" ")
        is_early = is_early and kind != "finalise"
        if kind != "online" or ours.fates[int(core)] == theirs.fates[int(core)]:
            continue
        name = one_class(kernel, machine, ours.fates[int(core)], theirs.fates[int(core)])
        found.append(FOLLOWS if follows and name.startswith("unknown") else name)
        follows = follows or is_early
    return found


def comes_up(machine, core):
    """At which step a core comes up first."""
    return machine.steps.index(f"online {core}")


def comes_first(kernel, ours, theirs):
    """Whether of two capabilities each side sees the one first that has its own lower number."""
    kinds, names = zip(ours.split(" "), theirs.split(" ")) if " " in ours and " " in theirs else (("", ""), ("", ""))
    if kinds != ("cap", "cap"):
        return False
    here = {row["name"]: int(row["number"]) for row in profile.table("capabilities")}
    there = {linux.SAME.get(name, name): number for number, name in kernel.names.items()}
    return here[names[0]] < here[names[1]] and there[names[1]] < there[names[0]]


def one_class(kernel, machine, ours, theirs):
    """The class of two fates of one core."""
    stopped = [fate[0] in ("parked", "panic") for fate in (ours, theirs)]
    if stopped == [True, False]:
        found = cause_class(kernel, machine, ours[1], False)
    elif stopped == [False, True]:
        found = cause_class(kernel, machine, theirs[1], True)
    elif stopped == [False, False]:
        found = None
    else:
        found = cause_class(kernel, machine, theirs[1], True) or cause_class(kernel, machine, ours[1], False)
        if not found and comes_first(kernel, ours[1], theirs[1]):
            found = PANICS if ours[0] != theirs[0] else ORDER
    return found or f"unknown: fate {ours} here, {theirs} in Linux"


def words(kernel, ours, theirs, users):
    for key, field in FIELDS.items():
        mine, other = field.value(ours.get(field.register, 0)), field.value(theirs.get(field.register, 0))
        if mine != other:
            if users and (field.register, field.name) == ("id_aa64pfr1_el1", "ssbs"):
                yield SSBS
            else:
                kind = "user" if users else "reg"
                told = f"unknown: {kind} {field.register}.{field.name}: {mine}, in Linux {other}"
                yield row_class(kernel, field) or told


def covered(register):
    """The bits that the rows here have."""
    return sum(((1 << row.width) - 1) << row.shift for row in profile.fields_of(register))


def differences(kernel, machine, ours, theirs, ask, reads=()):
    """The class of each difference; `reads` has what the program says of some reads, where the fates are the same."""
    found = [f"unknown: {line}" for line in ours.strange + theirs.strange]
    found += fates(kernel, machine, ours, theirs, ask)
    if found or not ours.system or any(fate[0] == "panic" for fate in theirs.fates):
        return found
    found += overrides(kernel, machine, ours, theirs)
    if SVE_SME in found or turns_sve_off(machine.cmdline) and differ_in_sme(ours, theirs):
        return [*found, SVE_SME]
    found += words(kernel, ours.system, theirs.system, False)
    found += words(kernel, ours.user, theirs.user, True)
    found += sets(kernel, ours, theirs)
    found += varying(kernel, machine, ours, theirs)
    for core, place, told in reads:
        found += read(kernel, theirs, core, place, told)
    return found + list(places(machine, theirs))


def turns_sve_off(cmdline):
    return any(word == "arm64.nosve" or word.startswith("id_aa64pfr0.sve=0") for word in cmdline.split())


def differ_in_sme(ours, theirs):
    """Whether the system's words differ in what SVE at 0 takes along here alone."""
    smfr0 = "id_aa64smfr0_el1"
    sme = FIELDS["id_aa64pfr1_el1", "sme"]
    words = [(answer.system.get(smfr0), sme.value(answer.system.get(sme.register, 0))) for answer in (ours, theirs)]
    return words[0] != words[1]


def overrides(kernel, machine, ours, theirs):
    asked = machine.cmdline
    for name in sorted(set(ours.notes) | set(theirs.notes)):
        mine, other = ours.notes.get(name), theirs.notes.get(name)
        if mine == other:
            continue
        register, _, field = name.partition(".")
        row = FIELDS.get((f"{register}_el1", field))
        if name == "id_aa64pfr1.sme" and turns_sve_off(asked) or register == "id_aa64smfr0" and other is None:
            yield SVE_SME
        elif row is None or register in ("id_aa64zfr0", "id_aa64smfr0"):
            yield DEPENDENTS
        elif kernel.lacks_row(row):
            yield LACKS
        elif row.rule == "Exact" and (mine, other) == ("already", "ignored"):
            yield EXACT
        else:
            yield f"unknown: note {name}: {mine}, in Linux {other}, of {asked}"


def sets(kernel, ours, theirs):
    known = set(kernel.names.values()) | set(linux.SAME.values())
    for name in sorted((ours.capabilities ^ theirs.capabilities) & CAPABILITIES):
        if name not in known:
            yield LACKS
        elif name == "HW_DBM":
            yield WEAK
        elif name in ERRATA and name in theirs.capabilities:
            yield LISTS
        elif name == "HAS_EVT":
            yield LEAST
        else:
            yield f"unknown: cap {name} {'on here' if name in ours.capabilities else 'on in Linux'} alone"
    if theirs.capabilities - CAPABILITIES:
        yield PROFILE_LACKS
    for name in sorted(ours.hwcaps ^ theirs.hwcaps):
        if name in ours.hwcaps and name not in kernel.hwcap_names.values():
            yield LACKS
        elif name not in HWCAPS:
            yield PROFILE_LACKS
        elif name == "ssbs":
            yield SSBS
        elif name.startswith("sve") and name in ours.hwcaps and "sve" not in ours.hwcaps:
            yield SVE_HWCAPS
        else:
            yield f"unknown: hwcap {name} {'here' if name in ours.hwcaps else 'in Linux'} alone"


def varying(kernel, machine, ours, theirs):
    for register in sorted(ours.varies ^ theirs.varies):
        rows = profile.fields_of(register)
        if register not in kernel.rows:
            yield LACKS
            continue
        boot = machine.cores[0][register]
        differs = 0
        for core in machine.cores[1:]:
            differs |= core[register] ^ boot
        if differs & ~covered(register):
            yield STRICT_BITS
        elif any(differs >> row.shift & ((1 << row.width) - 1) and row_class(kernel, row) for row in rows):
            yield ROWS
        else:
            yield f"unknown: varies {register} {'here' if register in ours.varies else 'in Linux'} alone"


PLACES = {row.crm << 3 | row.op2: row.name for row in profile.registers() if (row.op1, row.crn) == (0, 0)}


def places(machine, theirs):
    """What Linux answers at each place, beside the page on mrs: the users' words, 0 at other places with CRm 4 to 7."""
    known = {0: machine.cores[0]["midr_el1"], 5: 0x80000000, 6: 0}
    for place in set(range(128)) - set(AARCH32):
        told = theirs.reads.get((0, place), 0)
        expected = theirs.user.get(PLACES.get(place), 0) if 32 <= place < 64 else known.get(place)
        if told != expected:
            yield f"unknown: S3_0_C0_C{place >> 3}_{place & 7} is {told} in Linux and not {expected}"


def read(kernel, theirs, core, place, told):
    """The class of what differs in one read by a program, of a machine whose fates are the same on both sides."""
    if theirs.fates[core][0] != "up":
        if told != f"armcaps: mrs: core {core} not admitted":
            yield f"unknown: mrs on core {core}, which is {theirs.fates[core][0]}: {told}"
        return
    expected = theirs.reads.get((core, place), 0)
    if told == expected:
        return
    if place in AARCH32:
        yield AARCH32_READ if told is None else f"unknown: mrs of S3_0_C0_C{place >> 3}_{place & 7}: {told}"
    elif place in PLACES and place >> 3 >= 4 and isinstance(told, int) and expected is not None:
        found = list(words(kernel, {PLACES[place]: told}, {PLACES[place]: expected}, True))
        rest = (told ^ expected) & ~covered(PLACES[place])
        if rest:
            known = sum(((1 << width) - 1) << shift for shift, width, *_ in kernel.rows.get(PLACES[place], []))
            found.append(f"unknown: mrs of {PLACES[place]}: bits {rest:#x} differ" if rest & ~known else NO_ROW)
        yield from found
    else:
        yield f"unknown: mrs of S3_0_C0_C{place >> 3}_{place & 7}: {told}, in Linux {expected}"
