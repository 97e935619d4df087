"""Lines that name registers: NAME and number, several on a line, or a name whose number stands on the next line."""

import dataclasses
import re

from .. import profile
from ..command import Refused
from . import hints
from .numbers import HEXADECIMAL

REGISTER = re.compile(r"(?<![\w.])(?:sys_)?([a-z]\w*)(?![\w.])", re.IGNORECASE)
# what stands behind a name: perhaps its bits, as OpenOCD's `(/64)`, then the number
VALUE = re.compile(r"^(?:\s*\(/\d+\))?[\"')]*(?:\s|=>|->|[=:|,])+[\"']?([^\s,;\"'|]+)[\"']?")
NUMBER = re.compile(r"\d\S*|[0-9a-f_]+", re.IGNORECASE)
REMARK = re.compile(r"#|//|/\*|<--")
# Lauterbach's address of a register, the operands of OpenOCD's `aarch64 mrs`, and C's macros of Linux and KVM
SPR = re.compile(r"\bSPR:(?:0x)?([0-9a-f])([0-9a-f])([0-9a-f])([0-9a-f])([0-9a-f])\b", re.IGNORECASE)
MRS = re.compile(r"\bmrs\s+(\d+)\s+(\d+)\s+(\d+)\s+(\d+)\s+(\d+)", re.IGNORECASE)
SYS_REG = re.compile(r"\b(?:arm64_)?sys_reg\s*\(\s*" + r"\s*,\s*".join([r"(\d+)"] * 5) + r"\s*\)", re.IGNORECASE)
# the number alone, after gdb's `$1 = ` or not
ALONE = re.compile(r"^\s*(?:\$(\d+)\s*=\s*)?((?:0x)?[0-9a-f_]+)\s*$", re.IGNORECASE)


def names():
    """Every name by which a dump may call a register, in lower case."""
    found = {}
    for register in profile.registers():
        for name in (register.name, register.short, register.generic):
            found[name] = register.name
            found[f"{name}_reserved"] = register.name
    found["sve_vl"] = "sve_vl"
    return found


NAMES = names()
# a line without one of these names no register
PARTS = ("idr", "id_aa64", "ctr", "dczid", "sve_vl", "s3_", "spr:", "mrs", "sys_reg")


@dataclasses.dataclass
class Named:
    """A register that a line names, with its number as it is written, or None; and what stands behind that."""

    name: str
    written: str
    behind: str


def generic(match):
    op0, op1, crn, crm, op2 = (int(part, 16) for part in match.groups())
    return f"S{op0}_{op1}_C{crn}_C{crm}_{op2}"


def generic_mrs(match):
    op0, op1, crn, crm, op2 = (int(part) for part in match.groups())
    return f"mrs S{op0}_{op1}_C{crn}_C{crm}_{op2}"


def generic_macro(match):
    op0, op1, crn, crm, op2 = match.groups()
    return f"S{op0}_{op1}_C{crn}_C{crm}_{op2}"


def registers_in(line):
    """The registers that a line names, and what stands before the first of them."""
    lower = line.lower()
    if not any(part in lower for part in PARTS):
        return [], line
    line = SYS_REG.sub(generic_macro, MRS.sub(generic_mrs, SPR.sub(generic, line)))
    matches = [match for match in REGISTER.finditer(line) if match.group(1).lower() in NAMES]
    found = []
    for match, following in zip(matches, matches[1:] + [None]):
        segment = line[match.end() : following.start() if following else len(line)]
        value = VALUE.match(segment)
        written = value.group(1).rstrip(")") if value else None
        name = NAMES[match.group(1).lower()]
        if found and found[-1].written is None and found[-1].name == name:
            found.pop()  # a second name of the same register
        if written is not None and NUMBER.fullmatch(written):
            found.append(Named(name, written, segment[value.end() :]))
        else:
            found.append(Named(name, None, segment))
    return found, line[: matches[0].start()] if matches else line


def second_column(behind, word, place, name):
    """Whether the number stands behind itself once more, as gdb's in decimal. Another number is refused."""
    repeated = False
    for token in re.split(r"[\s,;|()\[\]{}\"'=:]+", REMARK.split(behind, maxsplit=1)[0]):
        if not HEXADECIMAL.fullmatch(token.lstrip("-")):
            continue
        if same(token, word):
            repeated = True
            continue
        halves = f"; of halves, {hints.JOINED}" if word < 1 << 32 and len(token) in (8, 10) else ""
        raise Refused(
            f"{place}: {token} stands behind the number of {name}, {word:#x}, and is not taken: "
            f"which one is its number? Write the whole number in one word, and `#` before a remark{halves}"
        )
    return repeated


def same(token, word):
    """Whether a number is this one once more, in hexadecimal or decimal; gdb's may be signed."""
    plain = token.replace("_", "")
    if plain[:2] in ("0x", "0X"):
        return int(plain, 16) == word
    return plain.lstrip("-").isdigit() and int(plain) in (word, word - (1 << 64), word - (1 << 32))
