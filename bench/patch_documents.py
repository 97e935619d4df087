#!/usr/bin/env python3
"""Documents with large tables of alternatives, made by seed: the same bytes for the same name, count and seed.

Each image begins with its table. Sites hold NOPs; replacements hold moves, calls, pages and NOPs, so that some words are corrected
and others copied. Every entry is selected, but of `none-selected`, and none is refused.

usage: bench/patch_documents.py NAME [COUNT [SEED [LENGTH]]] > DOCUMENT      without a name: lists the names
"""
import array
import random
import sys

MOST = 134_217_728
NOP = 0xD503201F
CALLBACKS = 1 << 26
TEXT = f"""armcaps 1
core 0
ctr_el0 0x84448004
boot 0
finalise
number 1 ALWAYS_SYSTEM
given 2 FIRMWARE_STATE on
given 3 FIRMWARE_LACK off
conduit hvc
callback {CALLBACKS} nops
callback {CALLBACKS + 1} final_ctr
callback {CALLBACKS + 2} conduit
callback {CALLBACKS + 3} keep
"""


class Image:
    """An image of words, whose table stands first; sites and replacements begin at an eighth and in the middle."""

    def __init__(self, length, seed):
        self.sites, self.replacements = length // 32 * 4, length // 8 * 4
        self.length = length
        self.words = array.array("I", bytes(length))
        self.bytes = memoryview(self.words).cast("B")
        self.draw = random.Random(seed)
        self.entries = []

    def words_at(self, place, words):
        self.words[place // 4 : place // 4 + len(words)] = array.array("I", words)

    def replacement(self, place, count, kinds=8):
        """Words of a replacement: a call and a page of every eight, moves and NOPs; of 2 kinds calls and pages alone."""
        made = []
        for word in range(count):
            draw = self.draw.getrandbits(24)
            kind = draw % kinds
            if kind == 0:
                target = self.sites + 4 * (draw >> 4 & 0xFFFF)
                made.append(0x94000000 | (target - place - 4 * word) // 4 & 0x3FFFFFF)
            elif kind == 1:
                made.append(0x90000000 | (draw >> 4 & 0x3FF) << 5)
            elif kind < 5:
                made.append(0x52800000 | (draw >> 4 & 0xFFFF) << 5)
            else:
                made.append(NOP)
        self.words_at(place, made)

    def entry(self, site, replacement, length, call=False, number=1):
        self.entries.append((site, replacement, number | call << 15, length, 0 if call else length))

    def document(self):
        place = 0
        table = array.array("I")
        for site, replacement, number, length, other in self.entries:
            numbers = (site - place, replacement - place - 4)
            table.extend((numbers[0] & 0xFFFFFFFF, numbers[1] & 0xFFFFFFFF, number | length << 16 | other << 24))
            place += 12
        self.words[: len(table)] = table
        return self.bytes


def apart(image, count, stride, kinds=8, lacking=False):
    """Sites of 4 to 16 bytes, so many bytes apart, each with a replacement of its own."""
    for number in range(count):
        length = 1 + image.draw.getrandbits(2)
        site, replacement = image.sites + stride * number, image.replacements + 16 * number
        image.words_at(site, [NOP] * length)
        image.replacement(replacement, length, kinds)
        image.entry(site, replacement, 4 * length, number=3 if lacking else 1 + number % 2)


def scattered(image, count):
    """Sites over most of the image."""
    apart(image, count, image.length * 3 // 8 // count // 4 * 4)


def disjoint(image, count):
    """Sites near one another."""
    apart(image, count, 32)


def shuffled(image, count):
    """The same, with a table in no order."""
    disjoint(image, count)
    image.draw.shuffle(image.entries)


def branches(image, count):
    """The same, with replacements of calls and pages alone."""
    apart(image, count, 32, kinds=2)


def lacking(image, count):
    """The same, of which no entry is selected."""
    apart(image, count, 32, lacking=True)


def layered(deep):
    """Sites of so many words, each 4 bytes after the one before, with replacements that overlap in the same way."""

    def fill(image, count):
        image.replacement(image.replacements, 65536)
        for number in range(count):
            image.entry(image.sites + 4 * number, image.replacements + 4 * (number % 60000), 4 * deep)

    return fill


def one_site(words):
    """One site of so many words that every entry names."""

    def fill(image, count):
        image.replacement(image.replacements, 65536)
        for number in range(count):
            image.entry(image.sites, image.replacements + 4 * (number % 60000), 4 * words)

    return fill


def callbacks(image, count):
    """Callbacks of all four kinds on sites of their own."""
    for number in range(count):
        kind = number % 4
        site = image.sites + 32 * number
        image.words_at(site, [0xD53B0023] + [NOP] * 3)
        image.entry(site, CALLBACKS + kind, 4 if kind == 2 else 16, call=True)


# name: how the image is filled, its length, the number of entries
DOCUMENTS = {
    "kernel": (scattered, 33 << 20, 30_000),
    "disjoint": (disjoint, MOST, 1_048_576),
    "sixteen-deep": (layered(16), MOST, 1_048_576),
    "63-deep": (layered(63), MOST, 1_048_576),
    "one-site": (one_site(4), MOST, 1_048_576),
    "one-long-site": (one_site(63), MOST, 1_048_576),
    "random-order": (shuffled, MOST, 1_048_576),
    "branches": (branches, MOST, 1_048_576),
    "none-selected": (lacking, MOST, 1_048_576),
    "callbacks": (callbacks, MOST, 1_048_576),
}


def document(name, count=None, seed=1, length=None):
    """The text and the image, of the name's usual count and length where none is given."""
    fill, usual_length, usual_count = DOCUMENTS[name]
    count, length = count or usual_count, (length or usual_length) // 4 * 4
    if 12 * count > length // 8 or 32 * count > length * 3 // 8:
        sys.exit(f"patch_documents: {count} entries do not fit into {length} bytes")
    image = Image(length, seed)
    fill(image, count)
    text = f"{TEXT}table 0 {count}\nimage {length}\n"
    return text.encode(), image.document()


def main():
    if len(sys.argv) < 2:
        print("\n".join(DOCUMENTS))
        return
    numbers = [int(number) for number in sys.argv[2:5]]
    text, image = document(sys.argv[1], *numbers)
    sys.stdout.buffer.write(text)
    sys.stdout.buffer.write(image)


if __name__ == "__main__":
    main()
