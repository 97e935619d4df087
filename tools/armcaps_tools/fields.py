"""What fields say, in words: from tools/data/meanings.tsv, which is written by hand after the Arm manual (DDI 0487)."""

import difflib

from . import profile
from .command import Refused


def name_of(field):
    """A field's name as the command line and notes write it."""
    return f"{profile.by_name()[field.register].short}.{field.name}"


def rule(field):
    return f"Exact, safe {field.safe}" if field.rule == "Exact" else field.rule


def values_of(name):
    """The words for each value, and for any value."""
    row = profile.meanings().get(name, {"values": ""})
    return dict(part.split("=", 1) for part in row["values"].split("|") if part)


def words_for(field, value):
    """A value in words, or where to look for them."""
    known = values_of(name_of(field))
    if str(value) in known:
        return known[str(value)]
    if "*" in known:
        return known["*"].format(n=value, more=value + 1, bytes=4 << value)
    return f"see the Arm manual, {field.register.upper()}, bits {field.bits}"


def what(field):
    return profile.meanings().get(name_of(field), {"what": ""})["what"]


def named(written):
    """The fields that a name means: `id_aa64pfr0.sve`, `ID_AA64PFR0_EL1.SVE`, or `sve` for all of that name."""
    plain = written.lower().replace("sys_", "").replace("_el1.", ".").replace("_el0.", ".")
    found = [field for field in profile.fields() if plain in (name_of(field), field.name)]
    if found:
        return found
    names = [name_of(field) for field in profile.fields()] + [field.name for field in profile.fields()]
    near = difflib.get_close_matches(plain, names, 1, 0.6)
    raise Refused(f"no field {written}" + (f"; did you mean {near[0]}?" if near else "; docs/FIELDS.md has them all"))


def told(field):
    """What a field is and what its values say, as lines."""
    sign = "signed, " if field.signed else ""
    seen = "users see it" if field.visible else f"users see {field.safe}, its safe value"
    yield f"{name_of(field)}: {what(field)}"
    yield f"  {field.register.upper()}, bits {field.bits}, {sign}rule {rule(field)}, {seen}"
    for value, words in values_of(name_of(field)).items():
        yield f"  {value}: {words}" if value != "*" else "  the value n: " + formula(words)
    if "*" not in values_of(name_of(field)):
        yield f"  other values: see the Arm manual, {field.register.upper()}"
    asking = list(asked_by(field))
    if asking:
        yield f"  asked for by {', '.join(asking)}"


def asked_by(field):
    """The capabilities and hwcaps that ask for a field, each with the least value."""
    for table, what in (("capabilities", ""), ("hwcaps", "hwcap ")):
        for name, (_, tests) in profile.tests(table).items():
            for test in tests:
                if (test.register, test.field) == (field.register, field.name):
                    yield f"{what}{name} ({test.least})"


def formula(words):
    return words.replace("{n}", "n").replace("{more}", "n + 1").replace("{bytes}", "4 * 2^n")
