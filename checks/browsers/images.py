"""A large kernel image with its text, from a number."""

import random
import struct

from .documents import TOP

NOP = 0xD503201F
BASE_TEXT = TOP / "examples/qemu-neoverse-n1.txt"
NUMBERS = {1: "ALWAYS_SYSTEM", 7: "HAS_LSE_ATOMICS", 8: "HAS_CRC32", 20: "HAS_PAN", 36: "SVE", 43: "WORKAROUND_843419"}


def word(numbers):
    """A word of a replacement: nothing, an addition, or a branch and a page's address that have to be kept."""
    kind = numbers.randrange(4)
    far = numbers.randrange(-(1 << 18), 1 << 18)
    adrp = 0x90000000 | (far & 3) << 29 | (far >> 2 & 0xFFFF) << 5
    return (NOP, 0x91000000 | numbers.randrange(4096) << 10, 0x94000000 | far & 0x3FFFFFF, adrp)[kind]


def document(length, entries, seed):
    """A text and an image of this many bytes with a table of this many entries."""
    numbers = random.Random(seed)
    image = bytearray(numbers.randbytes(length))
    table, others = length // 4 * 3 & ~15, length // 2 & ~15
    for entry in range(entries):
        count = numbers.choice((1, 1, 2, 4))
        site, other, place = 64 * entry, others + 16 * entry, table + 12 * entry
        struct.pack_into(f"<{count}I", image, other, *(word(numbers) for _ in range(count)))
        number = numbers.choice(list(NUMBERS))
        struct.pack_into("<iiHBB", image, place, site - place, other - place - 4, number, 4 * count, 4 * count)
    text = BASE_TEXT.read_text(encoding="utf-8").removesuffix("end\n")
    text += "".join(f"number {number} {name}\n" for number, name in NUMBERS.items())
    return f"{text}table {table} {entries}\nimage {length}\n".encode(), bytes(image)


JUMP = struct.Struct("<iiq")


def with_jump_labels(image, place, count, seed):
    """The image with a table of this many jump labels in it: code among the sites, targets near, and keys anywhere."""
    numbers, labelled = random.Random(seed), bytearray(image)
    for entry in range(count):
        at = place + JUMP.size * entry
        code = 32 + 64 * numbers.randrange(len(image) // 256)
        key = numbers.randrange(0, place // 2, 4) - (at + 8) | numbers.randrange(2)
        JUMP.pack_into(labelled, at, code - at, code + 4 * numbers.randrange(-8, 64) - (at + 4), key)
    return bytes(labelled)


SECTION = struct.Struct("<IIQQQQIIQQ")
ALLOCATED, PROGBITS, STRTAB = 2, 1, 3


def vmlinux(image, table, entries):
    """An ELF file for arm64 whose loaded sections are an image: what is before its table, the table, and the rest."""
    names, base, head = b"\0.text\0.altinstructions\0.data\0.shstrtab\0", 0xFFFF800080000000, 64
    cuts = [0, table, table + 12 * entries, len(image)]
    headers = [SECTION.pack(*[0] * 10)]
    for name, begin, end in zip((b".text", b".altinstructions", b".data"), cuts, cuts[1:]):
        place = names.index(name + b"\0")
        headers.append(SECTION.pack(place, PROGBITS, ALLOCATED, base + begin, head + begin, end - begin, 0, 0, 4, 0))
    after = head + len(image)
    headers.append(SECTION.pack(names.index(b".shstrtab"), STRTAB, 0, 0, after, len(names), 0, 0, 1, 0))
    after += len(names)
    first = b"\x7fELF\x02\x01\x01" + bytes(9)
    rest = struct.pack("<HHIQQQIHHHHHH", 2, 183, 1, base, 0, after, 0, 64, 0, 0, 64, len(headers), len(headers) - 1)
    return first + rest + image + names + b"".join(headers)


def text_for(given, length):
    """The text for a vmlinux of this length: it has no line `table`, since the file has its own."""
    lines = given.decode().splitlines()
    kept = [line for line in lines if not line.startswith(("table ", "image "))]
    return "\n".join([*kept, f"image {length}", ""]).encode()
