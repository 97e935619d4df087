"""A core as a dump gives it, and what no core can hold."""

from .. import profile
from ..command import Refused

WORDS = [register.name for register in profile.registers()]
ALL_ONES = {(1 << 32) - 1, (1 << 64) - 1}


class Core:
    """A core's registers, with where they were read, under the number that the dump gives it (None: no number)."""

    def __init__(self, dump, label):
        self.dump, self.label = dump, label
        self.words, self.places = {}, {}

    @property
    def origin(self):
        return self.dump if self.label is None else f"{self.dump}, core {self.label}"

    def put(self, name, word, place):
        self.words[name] = word
        self.places[name] = place


def bits(word, high, low):
    return word >> low & (1 << (high - low + 1)) - 1


def midr(word):
    if bits(word, 63, 32) or bits(word, 19, 16) != 0xF:
        return "bits 19:16 of MIDR_EL1 are 0xf and bits 63:32 are 0 on every arm64 core"
    return None


def mpidr(word):
    if not bits(word, 31, 31) or bits(word, 63, 40) or bits(word, 29, 25):
        return "bit 31 of MPIDR_EL1 is 1 and bits 63:40 and 29:25 are 0 on every arm64 core"
    return None


def pfr0(word):
    if bits(word, 3, 0) not in (1, 2) or bits(word, 7, 4) not in (1, 2):
        return "an arm64 core has EL0 and EL1, so that bits 3:0 and 7:4 are 1 or 2"
    if bits(word, 19, 16) != bits(word, 23, 20):
        return "bits 19:16 (FP) and 23:20 (AdvSIMD) are equal on every core"
    return None


def dfr0(word):
    return None if bits(word, 3, 0) >= 6 else "bits 3:0 (the debug architecture) are 6 or more on every arm64 core"


def mmfr0(word):
    return None if bits(word, 3, 0) <= 7 else "bits 3:0 (the physical addresses) are 7 or less on every arm64 core"


def ctr(word):
    if not bits(word, 31, 31) or bits(word, 63, 38):
        return "bit 31 is 1 and bits 63:38 are 0 on every arm64 core"
    return None


def dczid(word):
    return "bits 63:5 are 0 on every arm64 core" if bits(word, 63, 5) else None


# what the manual (DDI 0487) says of every core, where a slip would break it
RULES = {
    "midr_el1": midr,
    "mpidr_el1": mpidr,
    "id_aa64pfr0_el1": pfr0,
    "id_aa64dfr0_el1": dfr0,
    "id_aa64mmfr0_el1": mmfr0,
    "ctr_el0": ctr,
    "dczid_el0": dczid,
}


def impossible(name, word):
    """Why no core has this word in this register, or None."""
    if name in WORDS and word in ALL_ONES:
        return "all ones are what a bus or a debugger shows where nothing answers"
    return RULES[name](word) if name in RULES else None


def possible(core):
    """Refuses a core with a register that no core has."""
    for name, word in core.words.items():
        why = impossible(name, word)
        if why:
            raise Refused(
                f"{core.places[name]}: {name} {word:#x} is on no core ({why}): "
                "are its bytes and words in order, and was this core read?"
            )


def shown_to_users(core):
    """Whether a core's registers are those that Linux answers to user space: hidden fields have their safe values in
    all of them.
    """
    hidden = [field for field in profile.fields() if not field.visible]
    values = [(field.value(core.words[field.register]), field.safe) for field in hidden if field.register in core.words]
    return len(values) == len(hidden) and all(value == safe for value, safe in values)
