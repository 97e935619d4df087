"""The registers and fields that armcaps knows, from the tables in tools/data.

Those tables are written by tools/generate from the definitions of the proved crates, and tools/check compares them.
"""

import csv
import dataclasses
import functools
import pathlib
import re

DATA = pathlib.Path(__file__).resolve().parent.parent / "data"


class Missing(Exception):
    """A table that is not there: the tools are not whole."""


@dataclasses.dataclass(frozen=True)
class Register:
    """A register, by its name in texts, its name in overrides and notes, and its encoding."""

    name: str
    short: str
    op0: int
    op1: int
    crn: int
    crm: int
    op2: int
    title: str

    @property
    def generic(self):
        """The name that an assembler takes for any system register."""
        return f"s{self.op0}_{self.op1}_c{self.crn}_c{self.crm}_{self.op2}"


@dataclasses.dataclass(frozen=True)
class Field:
    """A field of a register, as the tables of armcaps_tables have it."""

    register: str
    name: str
    shift: int
    width: int
    signed: bool
    rule: str
    safe: int
    visible: bool
    strict: bool

    @property
    def bits(self):
        high = self.shift + self.width - 1
        return str(self.shift) if self.width == 1 else f"{high}:{self.shift}"

    def value(self, word):
        return self.cut(word >> self.shift)

    def cut(self, number):
        """A number cut to the field's width, and read as the field reads."""
        bits = number & ((1 << self.width) - 1)
        return bits - (1 << self.width) if self.signed and bits >> (self.width - 1) else bits


@dataclasses.dataclass(frozen=True)
class Test:
    """What a capability or a hwcap asks of a core: a field that is at least some value."""

    register: str
    field: str
    least: int


def table(name):
    try:
        with open(DATA / f"{name}.tsv", encoding="utf-8", newline="") as file:
            return list(csv.DictReader(file, delimiter="\t"))
    except OSError as error:
        raise Missing(f"{error.filename}: {error.strerror}: the tools are not whole, install them anew") from None


@functools.lru_cache(maxsize=None)
def registers():
    numbers = ("op0", "op1", "crn", "crm", "op2")
    return [
        Register(**{name: int(text) if name in numbers else text for name, text in row.items()})
        for row in table("registers")
    ]


@functools.lru_cache(maxsize=None)
def fields():
    return [
        Field(
            register=row["register"],
            name=row["field"],
            shift=int(row["shift"]),
            width=int(row["width"]),
            signed=row["signed"] == "yes",
            rule=row["rule"],
            safe=int(row["safe"]),
            visible=row["visible"] == "yes",
            strict=row["strict"] == "yes",
        )
        for row in table("fields")
    ]


@functools.lru_cache(maxsize=None)
def fields_of(register):
    return [field for field in fields() if field.register == register]


@functools.lru_cache(maxsize=None)
def tracked():
    """The names of the registers that have a system value, which are those with fields."""
    return [register.name for register in registers() if fields_of(register.name)]


@functools.lru_cache(maxsize=None)
def by_name():
    return {register.name: register for register in registers()}


@functools.lru_cache(maxsize=None)
def aliases():
    """What each alias of a command line sets to 0."""
    found = {}
    for row in table("aliases"):
        found.setdefault(row["alias"], []).append((row["register"], row["field"]))
    return found


@functools.lru_cache(maxsize=None)
def errata():
    """The models and versions that have each erratum."""
    return table("errata")


@functools.lru_cache(maxsize=None)
def meanings():
    """What each field says, and its values in words where the table has them."""
    return {row["field"]: row for row in table("meanings")}


@functools.lru_cache(maxsize=None)
def tests(name):
    """What each row of the capabilities or hwcaps asks: a list of tests, of which one is enough."""
    if not (DATA / f"{name}.tsv").exists():
        return {}
    found = {}
    for row in table(name):
        parts = [re.match(r"(\w+)\.(\w+) >= (-?\d+)", part) for part in row["tests"].split(" or ")]
        found[row["name"]] = (row, [Test(*part.group(1, 2), int(part.group(3))) for part in parts if part])
    return found
