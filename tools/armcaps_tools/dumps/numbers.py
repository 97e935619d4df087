"""The numbers that dumps write, and whether their digits are all there."""

import re

from ..command import Refused
from .hints import JOINED

# the registers that have 32 bits of their own, which some programs print in eight digits
NARROW = {"midr_el1", "mpidr_el1", "revidr_el1", "ctr_el0", "dczid_el0"}
# of these, those of which 0 is a value: their digits are as many as MIDR_EL1 and CTR_EL0 have
UNIFORM = NARROW - {"mpidr_el1"}
HEXADECIMAL = re.compile(r"(?:0[xX])?[0-9a-fA-F_]*[0-9a-fA-F]")


class Numbers:
    """The numbers of one dump. Where one is padded with zeros, all are, so that a cut one stands out."""

    def __init__(self, base):
        self.base, self.seen, self.padded = base, [], None

    def read(self, written, place, register=None):
        """The number that a dump writes for a register."""
        plain, base = written.replace("_", ""), self.base
        if re.fullmatch(r"0[xX][0-9a-fA-F]+", plain):
            base = 16
        elif not re.fullmatch(r"[0-9a-fA-F]+", plain):
            raise Refused(f"{place}: {written} is no number: a hexadecimal one is 0x and digits{halves(plain)}")
        elif plain.strip("0") == "" and (plain == "0" or len(plain) == 18):
            base = 16
            plain = plain if plain == "0" else plain[2:]
        elif base is None:
            raise Refused(f"{place}: {written} has no 0x: say --hex or --dec")
        elif base == 10 and not plain.isdigit():
            raise Refused(f"{place}: {written} is not decimal")
        word = int(plain, base)
        if word >= 1 << 64:
            raise Refused(f"{place}: {written} has more than 64 bits")
        if base == 16 and register is not None and register != "sve_vl":
            self.note(re.sub("^0[xX]", "", plain), place, register)
        return word

    def note(self, digits, place, register):
        self.seen.append((len(digits), place, register))
        if self.padded is None and len(digits) > 1 and digits[0] == "0":
            self.padded = place

    def settle(self):
        """Refuses a number with fewer digits than its register has, where others of the dump are padded."""
        if self.padded is None:
            return
        short = {length == 8 for length, _, register in self.seen if register in UNIFORM}
        for length, place, register in self.seen:
            if length == 16 or length == 8 and register in NARROW and (register not in UNIFORM or len(short) == 1):
                continue
            raise Refused(
                f"{place}: {register} has {plural(length, 'digit')}, and numbers are padded with zeros at "
                f"{self.padded}: is the line cut, or the upper half of the register not read? All have 16 digits then"
            )


def halves(written):
    """What to do with two halves of 32 bits that something stands between."""
    return f"; {JOINED}" if re.fullmatch(r"(?:0[xX])?[0-9a-fA-F]{1,8}[:.'](?:0[xX])?[0-9a-fA-F]{8}", written) else ""


def plural(count, word):
    return f"{count} {word}" if count == 1 else f"{count} {word}s"
