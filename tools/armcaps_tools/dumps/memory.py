"""Lines of memory: U-Boot's `md`, gdb's `x`, OpenOCD's `mdd`, Lauterbach's Data.dump, `hexdump -C`, `xxd` and `od`.

The words are the 17 registers of a core in the order of docs/FIELDS.md, 64 bits each, little-endian. Addresses and the
text beside the words are compared with them: a line that is missing, doubled, out of order or cut is refused.
"""

import dataclasses
import re

from ..command import Refused
from .core import WORDS

CORE_SIZE = 8 * len(WORDS)
LINE = re.compile(
    r"^\s*(?:[a-z]{1,5}:)?(?:0x)?([0-9a-f]{4,16})(?:(?:\s*<[^>]*>)?\s*(?::|\|>?)\s*|(?<=[0-9a-f]{6})\s+)"
    r"((?:0x)?[0-9a-f]{2,16})(?!\w)(.*)$",
    re.IGNORECASE,
)
LAST = re.compile(r"^([0-9a-f]{7,16})$", re.IGNORECASE)
GROUP = re.compile(r"\s+((?:0x)?[0-9a-f]+)(?![^\s|>])", re.IGNORECASE)
# U-Boot's and OpenOCD's `md`, gdb's `x`: the unit, where it begins, how much
MD = re.compile(
    r"(?:^|>|#|\$)\s*md(\.[bwlq]|[bhwd])?\s+(?:0x)?([0-9a-f]+)(?:\s+((?:0x)?[0-9a-f]+))?\s*$", re.IGNORECASE
)
EXAMINE = re.compile(r"(?:^|\))\s*x/(\d+)(?:x?([bhwg])x?)\s+(?:0x)([0-9a-f]+)\s*$", re.IGNORECASE)
UNIT = {None: 4, ".b": 1, ".w": 2, ".l": 4, ".q": 8, "b": 1, "h": 2, "w": 4, "d": 8, "g": 8}


@dataclasses.dataclass
class Piece:
    """The bytes of one line in either order of the bytes of a word, or None where the text beside it says otherwise."""

    address: int
    little: bytes
    big: bytes
    place: str
    proved: bool  # the text beside the words says the order


@dataclasses.dataclass
class Run:
    """Lines that go on from each other, with what the command before them asked for."""

    asked: tuple = None
    pieces: list = dataclasses.field(default_factory=list)

    @property
    def end(self):
        return self.pieces[-1].address + len(self.pieces[-1].little or self.pieces[-1].big)


def shown(data):
    """What the text column has for these bytes."""
    return "".join(chr(byte) if 0x20 <= byte < 0x7F else "." for byte in data)


def piece(line, place):
    """The bytes of a line of memory, or None where it is another line."""
    match = LINE.match(line)
    if not match:
        return None
    address, first, behind = match.groups()
    groups, ends = [first], [0]
    while True:
        more = GROUP.match(behind, ends[-1])
        if not more or len(more.group(1)) != len(first):
            break
        groups.append(more.group(1))
        ends.append(more.end())
    digits = len(re.sub("^0[xX]", "", first))
    if digits not in (2, 4, 8, 16):
        raise Refused(f"{place}: {first} is no word of 8, 16, 32 or 64 bits: is the line cut?")
    words = [bytes.fromhex(re.sub("^0[xX]", "", group)) for group in groups]
    found = Piece(int(address, 16), None, None, place, False)
    rests = [behind[end:] for end in ends]
    return weighed(found, words, rests, first[:2] in ("0x", "0X"), "|" in line[: match.start(2)])


def weighed(found, words, rests, prefixed, lauterbach):
    """A piece whose text column is compared with its words: how many there are, and the order of their bytes."""
    for count in range(len(words), 0, -1):
        rest = rests[count - 1].strip()
        little, big = (b"".join(word[::step] for word in words[:count]) for step in (-1, 1))
        if len(rest) >= 2 and rest[0] + rest[-1] in ("||", "><"):
            rest = rest[1:-1].strip()
        if not rest or lauterbach:
            found.little, found.big = little, None if prefixed or len(words[0]) == 8 else big
            return found
        fits = [shown(order).strip() == rest for order in (little, big)]
        if any(fits):
            found.little, found.big, found.proved = little if fits[0] else None, big if fits[1] else None, True
            return found
    raise Refused(
        f"{found.place}: the text beside the words of memory is not that of their bytes: "
        "is the line cut, or are words exchanged?"
    )


def asked_by(line):
    """Where the memory begins that a command shows, and how many bytes it may have; None for another line. U-Boot
    reads a count in hexadecimal, OpenOCD a bare one in decimal.
    """
    match, examine = MD.search(line), EXAMINE.search(line)
    if match:
        unit, begin, count = match.groups()
        counts = {int(count, 16)} if count else set()
        if count and count.isdigit():
            counts.add(int(count))
        return int(begin, 16), {number * UNIT[unit and unit.lower()] for number in counts}
    if examine:
        count, unit, begin = examine.groups()
        return int(begin, 16), {int(count) * UNIT[unit.lower()]}
    return None


class Memory:
    """The memory under one heading."""

    def __init__(self, name):
        self.name, self.runs, self.fresh = name, [], True

    def command(self, line):
        """Whether the line is the command that shows memory; what it asks for is kept."""
        asked = asked_by(line)
        if asked is None:
            return False
        self.runs.append(Run(asked))
        self.fresh = False
        return True

    def line(self, line, place):
        """Takes a line of memory, and answers whether it is one."""
        if line.strip() == "*" and self.runs and self.runs[-1].pieces:
            raise Refused(f"{place}: `*` stands for lines that are left out: say -v to hexdump and od")
        last = LAST.match(line.strip())
        if last and self.runs and self.runs[-1].pieces:
            return self.last(int(last.group(1), 16), place)
        found = piece(line, place)
        if found is None:
            return False
        if self.fresh or not self.runs:
            self.runs.append(Run())
        self.fresh = False
        self.append(self.runs[-1], found)
        return True

    def last(self, address, place):
        """The line of an address alone, with which hexdump and od end."""
        run = self.runs[-1]
        if address != run.end:
            raise Refused(
                f"{place}: the memory is said to end at {address:#x}, and it ends at {run.end:#x}: lines are missing"
            )
        self.fresh = True
        return True

    def append(self, run, found):
        if run.pieces and found.address != run.end:
            less = found.address < run.end
            raise Refused(
                f"{found.place}: the address {found.address:#x} follows, and {run.end:#x} is the next one: "
                + ("lines are doubled or out of order" if less else f"{found.address - run.end} bytes are missing")
                + "; cores have a heading `core N` each, or stand behind one another"
            )
        run.pieces.append(found)

    def data(self):
        """The bytes of all runs."""
        return b"".join(self.bytes_of(run) for run in self.runs if run.pieces)

    def bytes_of(self, run):
        little, big = ([getattr(piece, order) for piece in run.pieces] for order in ("little", "big"))
        told = any(piece.proved for piece in run.pieces)
        orders = [order for order in (little, big) if None not in order]
        if not orders:
            raise Refused(f"{run.pieces[0].place}: the text beside the words tells of both orders of their bytes")
        data = b"".join(orders[0])
        if told and len(orders) == 2 and b"".join(big) != data:
            raise Refused(f"{run.pieces[0].place}: the text beside the words does not tell the order of their bytes")
        self.compare(run, data)
        return data

    def compare(self, run, data):
        """Refuses memory that is not what the command asked for."""
        if run.asked is None:
            return
        begin, lengths = run.asked
        if run.pieces[0].address != begin or lengths and len(data) not in lengths:
            raise Refused(
                f"{run.pieces[0].place}: the command above asks for memory from {begin:#x}"
                + (f", {max(lengths):#x} bytes" if lengths else "")
                + f", and there are {len(data):#x} from {run.pieces[0].address:#x}: lines are missing, or too many"
            )
