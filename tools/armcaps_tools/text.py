"""Machine texts, as the tools read them. That a text is right is armcaps' to say: here only its facts are taken. Reports
are read by the package `armcaps` for Python."""

import dataclasses
import pathlib
import sys

from armcaps import Unreadable, read_pool, read_report

__all__ = ["Machine", "Unreadable", "load", "machine", "number", "read_pool", "read_report", "spans"]


def load(name):
    """The bytes of a file, or of standard input for `-`."""
    return sys.stdin.buffer.read() if name == "-" else pathlib.Path(name).read_bytes()


@dataclasses.dataclass
class Machine:
    """What a machine text says: each core's registers by name, the boot core and the command line."""

    cores: list
    boot: int
    cmdline: str


def number(token):
    return int(token, 16) if token.startswith("0x") else int(token)


def machine(data):
    """The facts of a machine text."""
    lines = data.split(b"\n")
    if lines[0].split() not in ([b"armcaps", b"1"], [b"armcaps", b"2"]):
        raise Unreadable("no machine text: line 1 is not `armcaps 1` or `armcaps 2`")
    found = Machine([], 0, "")
    for count, line in enumerate(lines[1:], 2):
        text = line.decode("utf-8", "replace").lstrip(" ")
        tokens = [token for token in text.split(" ") if token]
        if not tokens or tokens[0].startswith("#"):
            continue
        if tokens[0] in ("end", "image"):
            return found
        try:
            if tokens[0] == "core":
                found.cores.append({})
            elif tokens[0] == "boot":
                found.boot = number(tokens[1])
            elif tokens[0] == "cmdline":
                found.cmdline = text.partition(" ")[2]
            elif tokens[0].endswith(("_el0", "_el1")) or tokens[0] == "sve_vl":
                found.cores[-1][tokens[0]] = number(tokens[1])
        except (IndexError, ValueError):
            raise Unreadable(f"line {count} of the text has no number, or stands before the first core") from None
    raise Unreadable("the text has no line `end` or `image`")


def spans(numbers):
    """Rising numbers in short, as 0-3, 7; 0-6/2 for 0, 2, 4, 6; and 0-19:4/8, as in Linux's lists of CPUs, for the
    first 4 of each 8.
    """
    runs, found, at = runs_of(numbers), [], 0
    while at < len(runs):
        low, high = runs[at]
        count, step = alike(runs[at:])
        if count >= (3 if high > low else 4):
            used = f":{high - low + 1}" if high > low else ""
            found.append(f"{low}-{runs[at + count - 1][1]}{used}/{step}")
        else:
            count = 1
            found.append(f"{low}-{high}" if high > low else str(low))
        at += count
    return ", ".join(found)


def runs_of(numbers):
    """The first and the last number of each run without a gap."""
    runs = []
    for number in numbers:
        if runs and number == runs[-1][1] + 1:
            runs[-1] = runs[-1][0], number
        else:
            runs.append((number, number))
    return runs


def alike(runs):
    """How many runs from the first on are as long as it and equally far from each other, and how far."""
    (low, high), step = runs[0], runs[1][0] - runs[0][0] if len(runs) > 1 else 0
    count = 1
    while count < len(runs) and runs[count] == (low + count * step, high + count * step):
        count += 1
    return count, step
