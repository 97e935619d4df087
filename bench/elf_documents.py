#!/usr/bin/env python3
"""Documents of format 2 whose image is an ELF file like a kernel's, for elf_time.py.

usage: bench/elf_documents.py NAME [SHARE] > FILE     SHARE: one in how many of the entries and sections (1)

The loaded bytes are in sections of code with addresses that follow each other, then the replacements and the table; behind
them stands what isn't loaded, as debug information. Each entry has a site of two words, and its replacement a NOP and a BL.
"""
import random
import struct
import sys

BASE = 0xFFFF800080000000
MIB = 1 << 20
NOP = 0xD503201F
# how many bytes are loaded and how many there are, the entries, and the sections of code
DOCUMENTS = {
    "vmlinux": (32 * MIB, 300 * MIB, 30_000, 40),
    "entries": (126 * MIB, 300 * MIB, 1_048_576, 40),
    "sections": (32 * MIB, 64 * MIB, 30_000, 65_000),
}


class File:
    """An ELF file of 64 bits (System V ABI, "Object Files") that grows section by section."""

    def __init__(self):
        self.bytes, self.rows, self.names = bytearray(4096), [], b"\0"

    def add(self, name, flags, address, data):
        self.rows.append((len(self.names), 1 if flags else 3, flags, address, len(self.bytes), len(data)))
        self.names += name.encode() + b"\0"
        self.bytes += data
        self.bytes += bytes(-len(self.bytes) % 16)

    def finish(self):
        at = len(self.names)
        self.names += b".shstrtab\0"
        self.rows.append((at, 3, 0, 0, len(self.bytes), len(self.names)))
        self.bytes += self.names
        self.bytes += bytes(-len(self.bytes) % 8)
        count = len(self.rows) + 1
        head = (b"\x7fELF\x02\x01\x01", 2, 183, 1, BASE, 0, len(self.bytes), 0, 64, 0, 0, 64, count, count - 1)
        struct.pack_into("<16sHHIQQQIHHHHHH", self.bytes, 0, *head)
        self.bytes += bytes(64)
        for row in self.rows:
            self.bytes += struct.pack("<IIQQQQIIQQ", *row, 0, 0, 4, 0)


def code(rng, size):
    """So many bytes of instructions."""
    words = [NOP, 0x94000040, 0x14000004, 0x54000040, 0xF9400000, 0x91000400]
    piece = b"".join(struct.pack("<I", rng.choice(words)) for _ in range(1 << 16))
    return (piece * (size // len(piece) + 1))[:size]


def table(entries, span, replacements):
    """The entries, with their sites all over the code."""
    step, place = span // entries // 4 * 4, replacements + 8 * entries
    for index in range(entries):
        at = place + 12 * index
        yield struct.pack("<iiHBB", step * index - at, replacements + 8 * index - at - 4, 1 + index % 2 * 4, 8, 8)


def document(name, share=1):
    rng = random.Random(1)
    loaded, whole, entries, sections = DOCUMENTS[name]
    entries, sections = (entries if name == "sections" else entries // share), (sections // share if name == "sections" else sections)
    file, span = File(), loaded - 20 * entries
    each = span // sections // 16 * 16
    text = code(rng, each)
    for index in range(sections):
        file.add(f".text.{index}", 6, BASE + each * index, text)
    end = each * sections
    file.add(".altinstr_replacement", 6, BASE + end, b"".join(struct.pack("<II", NOP, 0x94000100) for _ in range(entries)))
    file.add(".altinstructions", 2, BASE + end + 8 * entries, b"".join(table(entries, end, end)))
    file.add(".debug_info", 0, 0, code(rng, max(16, whole - len(file.bytes))))
    file.finish()
    yield b"armcaps 2\ncore 0\nid_aa64isar0_el1 0x200000\nboot 0\nfinalise\nnumber 1 ALWAYS_SYSTEM\nnumber 5 HAS_LSE_ATOMICS\n"
    yield b"image %d\n" % len(file.bytes)
    yield file.bytes


if __name__ == "__main__":
    for piece in document(sys.argv[1], int(sys.argv[2]) if len(sys.argv) > 2 else 1):
        sys.stdout.buffer.write(piece)
