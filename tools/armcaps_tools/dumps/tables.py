"""CSV, with `,`, `;` or tabs between its columns, in one of three layouts that its first line tells:

  core,midr_el1,mpidr_el1,..      a line for each core
  register,cpu0,cpu1,..           a line for each register
  core,register,value             a line for each number
"""

import re

from ..command import Refused
from .headings import LABEL
from .registers import NAMES

CORE = {"core", "cpu", "processor"}
REGISTER = {"register", "reg", "name"}


def cells(line, separator):
    return [cell.strip().strip("\"'").strip() for cell in line.split(separator)]


def head(line):
    """The separator and the cells of a first line that names columns, or None."""
    for separator in ",;\t":
        first, *others = cells(line.lstrip("#"), separator)
        of_core = first.lower() in CORE and any(register_of(cell) or cell.lower() in REGISTER for cell in others)
        of_register = first.lower() in REGISTER and any(LABEL.fullmatch(cell) or cell.isdigit() for cell in others)
        if of_core or of_register:
            return separator, [first, *others]
    return None


def register_of(cell):
    plain = re.sub("^(?:sys_)", "", cell.lower())
    return NAMES.get(plain)


def core_of(cell, place):
    match = LABEL.fullmatch(cell) or re.fullmatch(r"(\d+)", cell)
    if not match:
        raise Refused(f"{place}: {cell!r} is no number of a core")
    return int(match.group(1))


def read(dump, lines):
    """Reads the lines of a table whose first one is its head."""
    place = dump.place(lines[0])
    separator, columns = head(lines[0].text)
    rows = [(dump.place(line), cells(line.text, separator)) for line in lines[1:] if line.text.strip()]
    for row_place, row in rows:
        if len(row) != len(columns):
            raise Refused(f"{row_place}: has {len(row)} columns, and the first line {len(columns)}")
    lower = [column.lower() for column in columns]
    if len(set(lower)) != len(lower):
        raise Refused(f"{place}: a column stands twice")
    if lower[0] in REGISTER:
        by_register(dump, columns, rows, place)
    elif len(lower) == 3 and lower[1] in REGISTER and lower[2] == "value":
        for row_place, (core, register, value) in rows:
            put(dump, core_of(core, row_place), register, value, row_place)
    else:
        by_core(dump, columns, rows)


def by_register(dump, columns, rows, place):
    cores = [core_of(column, place) for column in columns[1:]]
    for row_place, (register, *values) in rows:
        for core, value in zip(cores, values):
            put(dump, core, register, value, row_place)


def by_core(dump, columns, rows):
    for row_place, (core, *values) in rows:
        number = core_of(core, row_place)
        for register, value in zip(columns[1:], values):
            put(dump, number, register, value, row_place)


def put(dump, core, register, value, place):
    """Puts one number, and passes over a column or line that names no register."""
    name = register_of(register)
    if name is None:
        dump.passed_over(register)
    elif not value:
        raise Refused(f"{place}: {name} of core {core} is empty")
    else:
        dump.put(core, name, dump.numbers.read(value, place, name), place)
