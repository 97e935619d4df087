"""The words of a kernel command line, as armcaps reads them (docs/OVERRIDES.md)."""

import re

from . import profile

REGISTERS = {register.short: register for register in profile.registers()}
# the registers that a word may name
NAMED = {
    short: register.name
    for short, register in REGISTERS.items()
    if short.startswith("id_") and register.name in profile.tracked()
}
ALIASES = profile.aliases()
# what a field at 0 sets to 0 as well: each field of these registers, and these fields
DEPENDENTS = {
    ("id_aa64pfr0_el1", "sve"): [("id_aa64zfr0_el1", None), ("id_aa64pfr1_el1", "sme"), ("id_aa64smfr0_el1", None)],
    ("id_aa64pfr1_el1", "sme"): [("id_aa64smfr0_el1", None)],
}


def words_of(line):
    return [word for word in re.split("[ \t]+", line) if word]


def field_of(register, name):
    return next((field for field in profile.fields_of(register) if field.name == name), None)


def value_of(digits):
    """The number that a value writes, or None."""
    base, digits = (16, digits[2:]) if digits.startswith("0x") else (10, digits)
    if not re.fullmatch("[0-9a-fA-F]+" if base == 16 else "[0-9]+", digits):
        return None
    plain = digits.lstrip("0") or "0"
    return int(plain, base) if len(plain) <= 20 and int(plain, base) < 1 << 64 else None


def assigned(register, name, number):
    """The fields that a number for a field sets, with their values."""
    field = field_of(register, name)
    found = {(register, name): field.cut(number)}
    if field.cut(number) == 0:
        for other, one in DEPENDENTS.get((register, name), []):
            found.update({(other, row.name): 0 for row in profile.fields_of(other) if one in (None, row.name)})
    return found


def parts_of(word):
    """The register, the field and the value that a word `REGISTER.FIELD=VALUE` names, or None for another word."""
    match = re.fullmatch(r"([^.=]*)\.([^=]*)=(.*)", word, re.DOTALL)
    return (NAMED[match.group(1)], *match.group(2, 3)) if match and match.group(1) in NAMED else None


def settings(word):
    """The fields that a word sets, with their values: none for a word that is passed over."""
    if word in ALIASES:
        found = {}
        for register, name in ALIASES[word]:
            found.update(assigned(register, name, 0))
        return found
    parts = parts_of(word)
    if not parts or not field_of(*parts[:2]) or value_of(parts[2]) is None:
        return {}
    return assigned(*parts[:2], value_of(parts[2]))


def overrides(line):
    """The fields that a command line overrides, with their values."""
    found = {}
    for word in words_of(line):
        if word == "--":
            break
        found.update(settings(word))
    return found
