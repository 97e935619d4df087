"""JSON: a list of objects, one a core, or an object of them by the core's number or name.

  [{"core": 0, "midr_el1": "0x410fd034", ..}, ..]        {"cpu0": {"midr_el1": "0x410fd034", ..}, ..}

The registers may stand in an object "registers" of the core's, the list under "cores". A number is a string, or a
number of JSON below 2^53, which is decimal.
"""

import json
import re

from ..command import Refused
from .headings import LABEL
from .registers import NAMES

EXACT = 1 << 53


def unique(pairs):
    """An object whose names differ."""
    found = dict(pairs)
    if len(found) != len(pairs):
        names = [name for name, _ in pairs]
        raise Refused(f"{next(name for name in names if names.count(name) > 1)!r} stands twice in one object")
    return found


def no_fraction(written):
    raise Refused(f"{written} is no whole number")


def parsed(text, name):
    try:
        return json.loads(text, object_pairs_hook=unique, parse_float=no_fraction, parse_constant=no_fraction)
    except Refused as refusal:
        raise Refused(f"{name}: {refusal}") from None
    except ValueError as error:
        raise Refused(f"{name}: is no JSON: {error}: is it cut?") from None
    except RecursionError:
        raise Refused(f"{name}: is no dump: its objects lie in each other without end") from None


def read(dump, text):
    """Reads a whole dump that is JSON."""
    found = parsed(text, dump.name)
    if isinstance(found, dict) and isinstance(found.get("cores"), (list, dict)):
        found = found["cores"]
    if isinstance(found, list):
        cores = [(core.get("core", core.get("cpu")) if isinstance(core, dict) else None, core) for core in found]
        if len(cores) > 1 and any(number is None for number, _ in cores):
            raise Refused(f'{dump.name}: each core has to say its number, as "core": 0')
    elif any(isinstance(core, dict) for name, core in found.items() if name != "registers"):
        cores = [(name, core) for name, core in found.items() if isinstance(core, dict)]
        for name in found.keys() - {name for name, _ in cores}:
            dump.passed_over(name)
    else:
        cores = [(found.get("core", found.get("cpu")), found)]
    for number, core in cores:
        read_core(dump, number, core)


def read_core(dump, number, core):
    if not isinstance(core, dict):
        raise Refused(f"{dump.name}: a core is no object")
    label = None if number is None else label_of(number, dump.name)
    if label in dump.cores:
        raise Refused(f"{dump.name}: core {label} stands twice")
    place = f"{dump.name}, core {label}"
    for name, value in {**core, **core.get("registers", {})}.items():
        register = NAMES.get(re.sub("^sys_", "", name.lower()))
        if register is None:
            if name not in ("core", "cpu", "registers"):
                dump.passed_over(name)
        else:
            dump.put(label, register, number_of(dump, value, place, register), place)


def label_of(number, name):
    match = re.fullmatch(r"(\d+)", str(number)) or LABEL.fullmatch(str(number))
    if not match or isinstance(number, bool):
        raise Refused(f"{name}: {number!r} is no number of a core")
    return int(match.group(1))


def number_of(dump, value, place, register):
    if isinstance(value, str):
        return dump.numbers.read(value.strip(), place, register)
    if isinstance(value, int) and not isinstance(value, bool) and 0 <= value < EXACT:
        return value
    raise Refused(
        f"{place}: {register} is {value!r}: write numbers as strings with 0x, since some programs round them at 2^53"
    )
