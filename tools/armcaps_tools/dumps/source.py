"""From the bytes of a dump to its lines: the encoding, colour codes, and what a console or a log puts before a line."""

import dataclasses
import re

from ..command import Refused

ESCAPES = re.compile(r"\x1b(?:\[[0-?]*[ -/]*[@-~]|\][^\x07\x1b]*(?:\x07|\x1b\\)|[@-Z\\^_=>])")
# <6>[    0.123456], printk's [    C1] or [   T12] after it, or journald's date, host and `kernel:`
STAMP = re.compile(
    r"^(?:\w{3}\s+\d+\s[\d:]{8}\s\S+\s+kernel:\s*)?(?:<\d+>)?(?:\[\s*\d+\.\d+\]\s*)?"
    r"(?:\[\s*(?:C(?P<caller>\d+)|T\d+)\]\s*)?"
)


@dataclasses.dataclass
class Line:
    """A line of a dump: its number, its text without what a log puts before it, and the core whose log it is."""

    count: int
    text: str
    caller: int = None


def decoded(data, name):
    """The text of a dump, in UTF-8 or UTF-16."""
    if data[:2] in (b"\xff\xfe", b"\xfe\xff"):
        return data.decode("utf-16", "replace")
    if data[1:8:2] == bytes(len(data[1:8:2])) and len(data) >= 8:
        return data.decode("utf-16-le", "replace")
    if b"\0" in data:
        raise Refused(f"{name}: is binary and no dump in letters: show it by `hexdump -C` or `xxd`, and give that")
    return data.decode("utf-8-sig", "replace")


def cut(count, raw):
    plain = ESCAPES.sub("", raw) if "\x1b" in raw else raw
    plain = plain.replace("\b", "").rstrip("\r\t ")
    stamp = STAMP.match(plain)
    if stamp.end() == len(plain):
        return Line(count, plain)
    caller = stamp.group("caller")
    return Line(count, plain[stamp.end() :], int(caller) if caller else None)


def lines(text):
    return [cut(count, raw) for count, raw in enumerate(text.split("\n"), 1)]
