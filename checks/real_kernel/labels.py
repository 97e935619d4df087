"""Jump labels: the entries of a table, and what they say of an image or of a kernel's memory."""

import struct

JUMP = struct.Struct("<iiq")


class Label:
    """An entry of the table of jump labels, its places counted from the image's first byte."""

    def __init__(self, code, target, key, branch):
        self.code, self.target, self.key, self.branch = code, target, key, branch

    @staticmethod
    def of(image, place):
        code, target, key = JUMP.unpack_from(image, place)
        return Label(place + code, place + 4 + target, place + 8 + (key & ~3), bool(key & 1))

    def is_on(self, image):
        return int.from_bytes(image[self.key : self.key + 4], "little", signed=True) > 0


def of_table(image, begin, count):
    """The entries of a table."""
    return [Label.of(image, begin + JUMP.size * index) for index in range(count)]


def rest_of(image, places):
    """An image with 0 at each of some words."""
    rest = bytearray(image)
    for place in places:
        rest[place : place + 4] = bytes(4)
    return rest
