"""What Linux makes of a word of the command line (arch/arm64/kernel/idreg-override.c, in 6.12 kernel/pi/).

The lists are those of Debian's sources of 6.1 and 6.12. Debian has no source of 6.6: what these two have in common is
taken to be so in 6.6 too, and where they differ the tool says so and does not choose.
"""

import dataclasses
import re

from . import cmdline

FIELDS = {
    "id_aa64mmfr1": ["vh"],
    "id_aa64pfr0": ["sve"],
    "id_aa64pfr1": ["bt", "mte", "sme"],
    "id_aa64isar1": ["gpi", "gpa", "api", "apa"],
    "id_aa64isar2": ["gpa3", "apa3"],
    "id_aa64smfr0": ["fa64"],
}
# the fields that later kernels add
ADDED = {
    "6.1": {},
    "6.12": {
        "id_aa64isar2": ["mops"],
        "id_aa64smfr0": ["smever"],
        "id_aa64pfr0": ["el0"],
        "id_aa64mmfr2": ["varange"],
    },
}
ALIASES = ["arm64.nosve", "arm64.nosme", "arm64.nobti", "arm64.nopauth", "arm64.nomte"]
ADDED_ALIASES = {
    "6.1": {"kvm_arm.mode=protected": "id_aa64mmfr1.vh=0"},
    "6.12": {
        "arm64.nomops": None,
        "arm64.nolva": "id_aa64mmfr2.varange=0",
        "arm64.no32bit_el0": "id_aa64pfr0.el0=1",
    },
}
# aliases of every version that armcaps does not have
OTHER = {"kvm_arm.mode=nvhe": "id_aa64mmfr1.vh=0"}
VERSIONS = ["6.1", "6.6", "6.12"]
WORD = 255


@dataclasses.dataclass
class Linux:
    """One version of Linux."""

    version: str

    def knows(self, register, field):
        return field in FIELDS.get(register, []) + ADDED[self.version].get(register, [])

    def value(self, digits, width):
        """The number that Linux reads in a value, cut to the field's width; None where it ignores the word."""
        if self.version == "6.12":
            match = re.fullmatch(r"(?:0[xX])?([0-9a-fA-F])", digits)
            return int(match.group(1), 16) & (1 << width) - 1 if match else None
        form = re.fullmatch(r"\+?(?:0[xX]([0-9a-fA-F]+)|(0[0-7]*)|([1-9][0-9]*))", digits)
        if not form:
            return None
        hexadecimal, octal, decimal = form.groups()
        number = int(hexadecimal, 16) if hexadecimal else int(octal, 8) if octal else int(decimal)
        return number & (1 << width) - 1 if number < 1 << 64 else None

    def reads(self, word):
        """The field and the number that Linux takes from a word `REGISTER.FIELD=VALUE`, or why it takes none."""
        register, _, rest = word.partition(".")
        field, _, value = rest.partition("=")
        if not self.knows(register, field):
            return f"knows no field {register}.{field}, and passes the word over"
        row = cmdline.field_of(f"{register}_el1", field)
        number = self.value(value, row.width)
        if number is None:
            one = "one hexadecimal digit" if self.version == "6.12" else "a number in C's form, octal after 0"
            return f"takes {one} as a value, and passes {value} over"
        if register == "id_aa64mmfr2" and number:
            return "takes no other value than 0 for id_aa64mmfr2.varange"
        return register, field, number

    def remark(self, word):
        """Where Linux makes something else of a word than armcaps, or None."""
        ours = cmdline.settings(word)
        if len(word.encode("utf-8", "surrogateescape")) > WORD and "=" in word and "." in word:
            return f"cuts a word at {WORD} bytes"
        plain = re.split(r"\s", word.replace("-", "_"))[0]
        if word in cmdline.ALIASES:
            return self.of_alias(word)
        if not cmdline.parts_of(plain):
            more = {**OTHER, **ADDED_ALIASES[self.version]}.get(plain)
            return f"takes it as {more}" if more else None
        read = self.reads(plain)
        if isinstance(read, str):
            return read if ours else None
        register, field, number = read
        row = cmdline.field_of(f"{register}_el1", field)
        if ours.get((row.register, field)) != row.cut(number):
            return f"sets {register}.{field} to {number}"
        return self.along(register, field, row.cut(number))

    def of_alias(self, word):
        if word not in ALIASES and word not in ADDED_ALIASES[self.version]:
            return f"has no alias {word}, and passes it over"
        return self.along("id_aa64pfr0", "sve", 0) if word == "arm64.nosve" and self.version != "6.1" else None

    def along(self, register, field, number):
        if (register, field, number) == ("id_aa64pfr0", "sve", 0):
            return "leaves SME as it is where SVE is off"
        return None


class Between:
    """A version between two whose sources are known."""

    def __init__(self, version, before, after):
        self.version, self.sides = version, [Linux(before), Linux(after)]

    def remark(self, word):
        """Where both make the same else of a word, that; where they differ, what each does."""
        before, after = (side.remark(word) for side in self.sides)
        if before == after:
            return before
        told = [f"{side.version} {side.remark(word) or 'takes it as armcaps does'}" for side in self.sides]
        return f"not known to this tool: {'; '.join(told)}"


def linux(version):
    """What is known of a version."""
    return Linux(version) if version in ADDED else Between(version, *ADDED)
