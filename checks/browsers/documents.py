"""Machine texts from a number: cores of the examples and others beside them, steps in any order, and some damage."""

import pathlib
import random
import sys

TOP = pathlib.Path(__file__).resolve().parent.parent.parent
sys.path.insert(0, str(TOP / "tools"))
from armcaps_tools import fields, profile, text  # noqa: E402


def known_cores():
    """The cores of all examples that are machine texts."""
    found = []
    for path in sorted((TOP / "examples").glob("*.txt")):
        found += text.machine(path.read_bytes()).cores
    return found


class Maker:
    """Makes one document."""

    def __init__(self, seed):
        self.random = random.Random(seed)
        self.format = self.random.choice((1, 2))

    def core(self, pool):
        """A core as some example has it, sometimes with other values in some fields."""
        words = dict(self.random.choice(pool))
        for _ in range(self.random.choice((0, 0, 1, 2, 5))):
            field = self.random.choice(profile.fields())
            mask = (1 << field.width) - 1
            word = words.get(field.register, 0) & ~(mask << field.shift)
            words[field.register] = word | self.random.randint(0, min(mask, 5)) << field.shift
        words.pop("sve_vl", None)
        if self.format == 2:
            words["sve_vl"] = self.random.choice((0, 1, 3, 7))
        return words

    def cores(self, pool):
        """Some kinds of cores, of which each core is one, as on boards."""
        kinds = [self.core(pool) for _ in range(self.random.choice((1, 2, 2, 3)))]
        count = self.random.choice((1, 2, 4, 6, 8, 8, 12, 64))
        return [self.random.choice(kinds) if self.random.random() < 0.9 else self.core(pool) for _ in range(count)]

    def steps(self, cores, boot):
        """Steps of cores in turn, some before `finalise` and some after, some not at all."""
        left = [core for core in cores if core != boot and self.random.random() < 0.9]
        early = [core for core in left if self.random.random() < 0.6]
        late = [core for core in left if core not in early]
        yield from self.brought(early)
        yield "finalise"
        yield from self.brought(late)
        if self.format == 2:
            for core in self.random.sample(left, min(len(left), 2)):
                yield f"offline {core}"
                if self.random.random() < 0.5:
                    yield f"online {core}"

    def brought(self, cores):
        """The three steps of each core, one core's among another's."""
        ways = [[f"{word} {core}" for word in ("check", "local", "store")] for core in cores]
        if self.random.random() < 0.4:
            ways = [[f"online {core}"] for core in cores]
        while ways:
            way = self.random.choice(ways)
            yield way.pop(0)
            ways = [way for way in ways if way]

    def command_line(self):
        """Words that hold some fields, and words that do nothing."""
        words = ["quiet", self.random.choice(list(profile.aliases()))]
        for _ in range(2):
            field = self.random.choice(profile.fields())
            words.append(f"{fields.name_of(field)}={self.random.randint(0, 3)}")
        return " ".join(self.random.sample(words, self.random.randint(0, len(words))))

    def lines(self, pool):
        cores = self.cores(pool)
        boot = self.random.randrange(len(cores))
        yield f"armcaps {self.format}"
        for number, words in enumerate(cores):
            yield f"core {number}"
            yield from (f"{name} {word:#x}" for name, word in words.items())
        yield f"boot {boot}"
        if self.random.random() < 0.4:
            yield f"cmdline {self.command_line()}"
        yield from self.steps(range(len(cores)), boot)
        yield "end"

    def damaged(self, data):
        """The same with a fault in it."""
        lines, at = data.split(b"\n"), self.random.randrange(data.count(b"\n"))
        kind = self.random.randrange(6)
        if kind == 0:
            del lines[at]
        elif kind == 1:
            lines.insert(at, lines[self.random.randrange(len(lines))])
        elif kind == 2:
            lines[at] = self.random.randbytes(5)
        elif kind == 3:
            return data.replace(b"\n", b"\r\n")
        elif kind == 4:
            return data[: self.random.randrange(len(data))]
        else:
            return data + b"more"
        return b"\n".join(lines)


def document(seed, pool):
    """The bytes of the document that a number stands for."""
    maker = Maker(seed)
    data = "".join(f"{line}\n" for line in maker.lines(pool)).encode()
    return maker.damaged(data) if maker.random.random() < 0.2 else data
