"""The kernel's ELF64 file: its sections, its symbols, and the flat image of what it loads."""

import dataclasses
import struct

from .command import Refused

HEADER = struct.Struct("<16sHHIQQQIHHHHHH")
SECTION = struct.Struct("<IIQQQQIIQQ")
SYMBOL = struct.Struct("<IBBHQQ")
RELOCATION = struct.Struct("<QQQ")
NUMBER, POINTER = struct.Struct("<H"), struct.Struct("<Q")
MACHINE = 183
ALLOC, NOTHING, SYMBOLS, RELOCATIONS, NO_BYTES = 2, 0, 2, 4, 8
R_AARCH64_RELATIVE = 1027
DESCRIBED = ("arm64_features", "arm64_errata")
PAGE = 4096
ENTRY = 12
MOST = 134217728
DESCRIPTION = 100


@dataclasses.dataclass(frozen=True)
class Section:
    """A section of the file: where its bytes are in the file and in memory."""

    name: str
    kind: int
    flags: int
    address: int
    place: int
    size: int
    link: int

    @property
    def has_bytes(self):
        return self.kind not in (NOTHING, NO_BYTES)

    @property
    def is_loaded(self):
        return self.flags & ALLOC and self.has_bytes and self.size


def word_ending_at_zero(data, place):
    return data[place : data.index(b"\0", place)].decode("utf-8", "replace")


class Vmlinux:
    """A kernel's file that was linked for arm64."""

    def __init__(self, data, name="--vmlinux"):
        self.name = name
        if data[:7] != b"\x7fELF\x02\x01\x01" or len(data) < HEADER.size:
            raise Refused(f"{name} is no ELF64 file of low byte first")
        parts = HEADER.unpack_from(data)
        if parts[2] != MACHINE:
            raise Refused(f"{name} is for another machine than arm64")
        self.data = data
        place, count, names = parts[6], parts[12], parts[13]
        if place + count * SECTION.size > len(data) or names >= count:
            raise Refused(f"{name} has no table of sections within it: is it cut?")
        raw = [SECTION.unpack_from(data, place + index * SECTION.size) for index in range(count)]
        text = raw[names][4]
        try:
            self.sections = [Section(word_ending_at_zero(data, text + row[0]), *row[1:7]) for row in raw]
        except ValueError:
            raise Refused(f"{name} has a section whose name does not end in it: is it cut?") from None
        if any(section.place + section.size > len(data) for section in self.sections if section.has_bytes):
            raise Refused(f"{name} has a section that reaches beyond its end: is it cut?")

    def symbols(self):
        """Each symbol's address, by name."""
        return {name: address for name, (address, _) in self.spans().items()}

    def spans(self):
        """Each symbol's address and size, by name."""
        found = {}
        try:
            for section in (section for section in self.sections if section.kind == SYMBOLS):
                names = self.sections[section.link].place
                rows = self.data[section.place : section.place + section.size]
                for name, _, _, index, value, size in SYMBOL.iter_unpack(rows):
                    if name and index:
                        found[word_ending_at_zero(self.data, names + name)] = value, size
        except (IndexError, ValueError, struct.error):
            raise Refused(f"{self.name} has a table of symbols that cannot be read: is it cut?") from None
        if "_text" not in found:
            raise Refused(f"{self.name} has no symbol _text: it is to be a kernel's vmlinux that was not stripped")
        return found

    def described(self, image):
        """The number that the kernel's tables give each description; `image` is the flat image.

        An entry begins with a pointer to its description, and the number follows. The pointer stands in the entry, or
        in a relocation where the kernel can be loaded anywhere.
        """
        spans, base, found = self.spans(), self.base(), {}
        pointers = self.relocations()
        for begin, size in (spans[name] for name in DESCRIBED if name in spans):
            for address in range(begin, begin + size - POINTER.size - NUMBER.size + 1, POINTER.size):
                at = address - base
                text = (pointers.get(address) or POINTER.unpack_from(image, at)[0]) - base
                if 0 <= text < len(image):
                    end = image.find(b"\0", text, text + DESCRIPTION)
                    if end > text:
                        told = image[text:end].decode("latin-1")
                        found.setdefault(told, NUMBER.unpack_from(image, at + POINTER.size)[0])
        return found

    def relocations(self):
        """The address that the loader puts at each place, for a kernel that is loaded where it was linked."""
        found = {}
        for section in self.sections:
            if section.kind == RELOCATIONS and section.flags & ALLOC:
                size = section.size // RELOCATION.size * RELOCATION.size
                for place, kind, address in RELOCATION.iter_unpack(self.data[section.place : section.place + size]):
                    if kind == R_AARCH64_RELATIVE:
                        found[place] = address
        return found

    def loaded(self):
        return sorted((section for section in self.sections if section.is_loaded), key=lambda section: section.address)

    def base(self):
        """The least address of a loaded section, at a page's begin."""
        if not self.loaded():
            raise Refused(f"{self.name} has no loaded section: it is to be a kernel's vmlinux")
        return self.loaded()[0].address // PAGE * PAGE

    def table(self):
        """Where the table of alternatives begins in the flat image, and how many entries it has."""
        found = [section for section in self.loaded() if section.name == ".altinstructions"]
        if len(found) != 1:
            raise Refused(f"{self.name} has {len(found)} loaded sections .altinstructions, and a kernel has one")
        return found[0].address - self.base(), found[0].size // ENTRY

    def with_loaded(self, other):
        """The file with the loaded sections' bytes of another file of its length."""
        data = bytearray(self.data)
        for section in self.loaded():
            span = slice(section.place, section.place + section.size)
            data[span] = other[span]
        return bytes(data)

    def flat(self):
        """What is loaded, from the base on, with zeros where nothing is."""
        base, sections = self.base(), self.loaded()
        span = max(section.address + section.size for section in sections) - base
        if span > MOST:
            raise Refused(f"{self.name} has loaded sections over {span} bytes of memory, and armcaps takes {MOST}")
        image = bytearray(span)
        for section in sections:
            at = section.address - base
            image[at : at + section.size] = self.data[section.place : section.place + section.size]
        return bytes(image)
