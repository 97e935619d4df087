"""What a kernel's build left, as far as alternatives and jump labels go: names of numbers, symbols, tables."""

import dataclasses
import re
import struct

from . import descriptions
from .command import Refused

ENTRY = struct.Struct("<iiHBB")
JUMP = struct.Struct("<iiq")
CALLBACK = 0x8000
POINTER = 8
# by how many pointers what follows an array may begin later, for its alignment
SPARE = 8


def symbols(data):
    """Each symbol's address, by name, from what nm printed."""
    found = {}
    for line in data.decode("utf-8", "replace").splitlines():
        parts = line.split()
        if len(parts) >= 3 and re.fullmatch(r"[0-9a-f]{8,16}", parts[0]):
            found[parts[2]] = int(parts[0], 16)
    if "_text" not in found:
        raise Refused("the symbols have no _text: they are to be those of vmlinux, as `nm vmlinux` prints them")
    return found


def numbers(data):
    """The kernel's name for each number, from a C header (cpucap-defs.h, or cpucaps.h of an old kernel), or from the
    list arch/arm64/tools/cpucaps, whose names are numbered in their order."""
    text = data.decode("utf-8", "replace")
    found = re.findall(r"^[ \t]*#[ \t]*define[ \t]+(?:ARM64_)?(\w+)[ \t]+(\d+)\b", text, re.MULTILINE)
    if found:
        return {int(number): name for name, number in found if name != "NCAPS"}
    lines = [line.strip() for line in text.splitlines()]
    names = [line for line in lines if line and not line.startswith("#")]
    if not names or not all(re.fullmatch(r"\w+", name) for name in names):
        raise Refused("--caps is neither a header with `#define ARM64_NAME N` nor the list arch/arm64/tools/cpucaps")
    return dict(enumerate(bare(name) for name in names))


def how_many(data):
    """How many numbers such a header or list has, or None where a header does not say it."""
    told = re.search(rb"^[ \t]*#[ \t]*define[ \t]+(?:ARM64_)?NCAPS[ \t]+(\d+)", data, re.MULTILINE)
    if told:
        return int(told.group(1))
    return None if b"define" in data else len(numbers(data))


def bare(name):
    """A capability's name without the ARM64_ that C has."""
    return name[len("ARM64_") :] if name.startswith("ARM64_") else name


@dataclasses.dataclass(frozen=True)
class Entry:
    """An entry of the table of alternatives, its places counted from the image's first byte."""

    site: int
    other: int
    number: int
    callback: bool
    length: int


@dataclasses.dataclass(frozen=True)
class Kernel:
    """An image, the offsets of its symbols, and where its tables are."""

    image: bytes
    offsets: dict

    def offset(self, name):
        if name not in self.offsets:
            raise Refused(f"the symbols have no {name}: they are to be those of vmlinux")
        return self.offsets[name]

    def span(self, first, last, size, what):
        """Where a table begins, and how many entries it has."""
        begin, end = self.offset(first), self.offset(last)
        if not 0 <= begin <= end <= len(self.image) or (end - begin) % size:
            raise Refused(f"the {what}, {begin:#x} to {end:#x}, is not one of this image of {len(self.image)} bytes")
        return begin, (end - begin) // size

    def how_many_numbers(self):
        """For how many numbers the kernel has a pointer, up to what follows its array of them; None without symbols."""
        arrays = [self.offsets[name] for name in ("cpucap_ptrs", "cpu_hwcaps_ptrs") if name in self.offsets]
        if not arrays:
            return None
        after = [place for name, place in self.offsets.items() if place > arrays[0] and not name.startswith("$")]
        return (min(after) - arrays[0]) // POINTER if after else None

    def table(self):
        return self.span("__alt_instructions", "__alt_instructions_end", ENTRY.size, "table")

    def jump_table(self):
        """The table of jump labels, if the symbols have one."""
        if "__start___jump_table" not in self.offsets:
            return None
        return self.span("__start___jump_table", "__stop___jump_table", JUMP.size, "table of jump labels")

    def has_keys(self):
        """Whether the key of each jump label lies within the image: those in .bss lie beyond a file without it."""
        begin, count = self.jump_table()
        for place in range(begin, begin + count * JUMP.size, JUMP.size):
            key = place + 8 + (JUMP.unpack_from(self.image, place)[2] & ~3)
            if not 0 <= key <= len(self.image) - 4:
                return False
        return True

    def entries(self):
        return entries_of(self.image, *self.table())

    def names_at(self):
        """The symbols of each offset."""
        found = {}
        for name, offset in self.offsets.items():
            found.setdefault(offset, []).append(name)
        return found


def entries_of(image, begin, count):
    """The entries of a table of an image."""
    for place in range(begin, begin + count * ENTRY.size, ENTRY.size):
        site, other, number, length, _ = ENTRY.unpack_from(image, place)
        yield Entry(place + site, place + 4 + other, number & ~CALLBACK, bool(number & CALLBACK), length)


# what an image begins with that is none: ELF and compressed files, and Linux's image that unpacks itself
OTHERS = {
    b"\x7fELF": "is an ELF file: say --vmlinux, or make the image of it by `objcopy -O binary`",
    b"\x1f\x8b": "is compressed (gzip): unpack it first",
    b"\x28\xb5\x2f\xfd": "is compressed (zstd): unpack it first",
    b"\xfd7zXZ": "is compressed (xz): unpack it first",
    b"BZh": "is compressed (bzip2): unpack it first",
    b"MZ\0\0zimg": "unpacks itself (vmlinuz.efi): take arch/arm64/boot/Image, from which it was made",
}


def of_image(image, known):
    """The kernel of an image that begins at _text."""
    for begin, what in OTHERS.items():
        if image.startswith(begin):
            raise Refused(f"--image {what}")
    return Kernel(image, {name: address - known["_text"] for name, address in known.items()})


def names_of(caps, found, described):
    """The name of each number, where the kernel has as many numbers as these, and describes none otherwise."""
    count, slots = how_many(caps), found.how_many_numbers()
    if count is not None and slots is not None and not count <= slots < count + SPARE:
        raise Refused(f"--caps has {count} numbers, and this kernel {slots}: is --caps that of this build?")
    names = numbers(caps)
    ours = {name: number for number, name in names.items()}
    for told, number in described.items():
        name = descriptions.NAMES.get(told)
        if ours.get(name, number) != number:  # a name that --caps does not have may be another release's
            told = f"--caps has {name} as {ours[name]}, and this kernel {number}, {told!r}"
            raise Refused(f"{told}: is --caps that of this build?")
    return names
