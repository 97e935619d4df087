"""Damages to dumps, as terminals, editors and pagers do them: lines dropped, exchanged, doubled and cut, words
exchanged, columns lost. Each takes a text and a random source, and answers another text, or None.

Left out is what no reader can tell, since a right dump would look the same: two lines exchanged that say one register
of two cores, or head two cores; two numbers, names or cores exchanged within a line; digits lost of a number that is
not padded and stands alone.
"""

import re

from armcaps_tools.dumps.headings import LABEL
from armcaps_tools.dumps.registers import registers_in

NUMBER = re.compile(r"[\"'|(]?(?:0x)?[0-9a-f_]+[\"',;|)\]}]*", re.IGNORECASE)
MEMORY = re.compile(
    r"^\s*(?:\w+:)?(?:0x)?[0-9a-f]{4,16}(?: <[^>]*>)?(?::|\|>?|\s)\s*(?:0x)?[0-9a-f]{2,16}\b", re.IGNORECASE
)


def speaks_of(line):
    """The registers of a line; a line of memory speaks of its address, and a name alone of the next line's number."""
    if MEMORY.match(line):
        return line.split()[0]
    found = registers_in(line)[0]
    return "a name" if found and found[0].written is None else tuple(sorted(named.name for named in found))


def dropped(lines, random):
    at = random.randrange(len(lines))
    return lines[:at] + lines[at + random.choice([1, 1, 1, 2, 3]) :]


def doubled(lines, random):
    at = random.randrange(len(lines))
    to = random.choice([at, random.randrange(len(lines))])
    return lines[:to] + lines[at : at + random.choice([1, 1, 2, 5])] + lines[to:]


def exchanged(lines, random):
    one = random.randrange(len(lines))
    other = random.choice([one + 1, random.randrange(len(lines))])
    if other >= len(lines) or speaks_of(lines[one]) == speaks_of(lines[other]):
        return None
    lines = list(lines)
    lines[one], lines[other] = lines[other], lines[one]
    return lines


def moved(lines, random):
    lines = list(lines)
    line = lines.pop(random.randrange(len(lines)))
    lines.insert(random.randrange(len(lines) + 1), line)
    return lines


def registers_of(word):
    return registers_in(word)[0]


def words_exchanged(lines, random):
    at = random.randrange(len(lines))
    parts = re.split(r"(\s+)", lines[at])
    if len(parts) < 3:
        return None
    one, other = random.sample(range(0, len(parts), 2), 2)
    for of_a_kind in (NUMBER.fullmatch, registers_of, LABEL.fullmatch):
        if of_a_kind(parts[one]) and of_a_kind(parts[other]):
            return None
    parts[one], parts[other] = parts[other], parts[one]
    return lines[:at] + ["".join(parts)] + lines[at + 1 :]


def line_cut(lines, random):
    at = random.randrange(len(lines))
    keep = random.randrange(len(lines[at]) + 1)
    return lines[:at] + [random.choice([lines[at][:keep], lines[at][keep:]])] + lines[at + 1 :]


def columns_lost(lines, random):
    width = max(map(len, lines))
    begin = random.randrange(width + 1)
    end = random.choice([begin + 1, random.randrange(begin, width + 1), width])
    return [line[:begin] + line[end:] for line in lines]


def end_lost(lines, random):
    text = "\n".join(lines)
    return text[: random.randrange(len(text))].split("\n")


def begin_lost(lines, random):
    text = "\n".join(lines)
    return text[random.randrange(len(text)) :].split("\n")


def firm(text):
    """Whether a number that lost digits stands out: it is padded, or stands twice, or memory has addresses."""
    padded = re.findall(r"0x0[0-9a-f]{7,15}", text, re.IGNORECASE)
    twice = re.search(r"0x[0-9a-f]+ +\d+$", text, re.MULTILINE)
    return len(padded) > 8 or bool(twice) or any(MEMORY.match(line) for line in text.split("\n"))


LINES = [dropped, doubled, exchanged, moved, words_exchanged]
CUTS = [line_cut, columns_lost, end_lost, begin_lost]
