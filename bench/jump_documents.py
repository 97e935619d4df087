#!/usr/bin/env python3
"""Documents with large tables of jump labels, made by seed: the same bytes for the same name, count and seed.

Each image begins with its table of jump labels, after which its keys stand, and has no alternatives. Half of the keys
are on. No entry is refused.

usage: bench/jump_documents.py NAME [COUNT [SEED]] > DOCUMENT      without a name: lists the names
"""
import array
import random
import sys

MOST = 134_217_728
NOP = 0xD503201F
KEYS = 4096
TEXT = "armcaps 1\ncore 0\nctr_el0 0x84448004\nboot 0\nfinalise\n"


def in_order(draw, count, room):
    """Code places that rise, over all of the image."""
    return range(0, count * (room // count // 4 * 4), room // count // 4 * 4)


def shuffled(draw, count, room):
    """The same, in no order."""
    places = list(in_order(draw, count, room))
    draw.shuffle(places)
    return places


def one_place(draw, count, room):
    """One code place for all entries."""
    return [0] * count


# name: code places, the image's length, how many entries
DOCUMENTS = {
    "order": (in_order, MOST, 1_048_576),
    "no-order": (shuffled, MOST, 1_048_576),
    "one-place": (one_place, MOST, 1_048_576),
    "small-image": (shuffled, MOST // 4, 1_048_576),
}


def document(name, count, seed):
    places, length, _ = DOCUMENTS[name]
    draw = random.Random(seed)
    keys, codes = 16 * count, 16 * count + 4 * KEYS
    words = array.array("I", bytes(length))
    words[keys // 4 : keys // 4 + KEYS] = array.array("I", [index & 1 for index in range(KEYS)])
    table = array.array("I")
    for index, place in enumerate(places(draw, count, length - codes)):
        entry, code, drawn = 16 * index, codes + place, draw.getrandbits(32)
        key = keys + 4 * (drawn % KEYS) - entry - 8 | drawn >> 31
        target = code + 4 * ((drawn >> 12 & 0xFFFF) - 0x8000)
        table.extend((code - entry & 0xFFFFFFFF, target - entry - 4 & 0xFFFFFFFF, key & 0xFFFFFFFF, 0))
        words[code // 4] = NOP
    words[: len(table)] = table
    return words


def main():
    if len(sys.argv) < 2:
        for name, (places, length, count) in DOCUMENTS.items():
            print(f"{name}: {count} entries, image of {length} bytes. {places.__doc__}")
        return
    name = sys.argv[1]
    count = int(sys.argv[2]) if len(sys.argv) > 2 else DOCUMENTS[name][2]
    words = document(name, count, int(sys.argv[3]) if len(sys.argv) > 3 else 1)
    sys.stdout.buffer.write(f"{TEXT}image {4 * len(words)}\n".encode())
    words.tofile(sys.stdout.buffer)


if __name__ == "__main__":
    main()
