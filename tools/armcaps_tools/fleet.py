"""The machines of a fleet: their texts, what is judged of each, and what all of them have in common."""

import collections
import concurrent.futures
import dataclasses
import functools
import hashlib
import os
import pathlib
import re
import sys
import time

from . import conflicts, fields, pool, profile, text
from .command import Refused

VERDICTS = ("machine", "refused", "stops")
HEAD = ["field", "rule", "value", "machines at it", "without them", "values", "first limited by"]


@dataclasses.dataclass
class Kind:
    """Machines of one text: its digest, the first one's name and how many have it; and what came of the text: `machine`
    and the words of its registers, or `refused` or `stops` and why."""

    digest: str
    name: str
    count: int = 0
    verdict: str = ""
    words: tuple = ()
    why: str = ""


def texts_in(path):
    """The files of a path: itself, or of a folder those whose names end with .txt, in the order of their names."""
    if not os.path.isdir(path):
        yield path
        return
    entries = sorted(os.scandir(path), key=lambda entry: entry.name)
    for entry in entries:
        if entry.is_dir():
            yield from texts_in(entry.path)
        elif entry.name.endswith(".txt"):
            yield entry.path


def listed(name, ending):
    """The paths that a file names, each ended by a line feed or a NUL byte."""
    return [os.fsdecode(path) for path in text.load(name).split(ending) if path]


def gathered(paths, told):
    """The kinds of the texts at these paths, in the order of their first ones."""
    found, count = {}, 0
    for path in paths:
        for name in texts_in(path):
            digest = digest_of(pathlib.Path(name).read_bytes())
            found.setdefault(digest, Kind(digest, name)).count += 1
            count += 1
            told(f"{count} texts read, {len(found)} of them different")
    return list(found.values())


def digest_of(data):
    return hashlib.sha256(data).hexdigest()


def judge(kind):
    """What the program says of one text, by itself."""
    given = pathlib.Path(kind.name).read_bytes()
    if digest_of(given) != kind.digest:
        raise Refused(f"{kind.name} was changed meanwhile: run again")
    try:
        found = pool.of(given)
        if found.machines != 1:
            raise text.Unreadable(f"it has {found.machines} machine texts, and each wants a file of its own")
    except text.Unreadable as refusal:
        kind.verdict = "stops" if isinstance(refusal, pool.Stops) else "refused"
        kind.why = re.sub("^machine 0: ", "", str(refusal))
        return
    kind.verdict, kind.words = "machine", tuple(found.system.values())


def judge_all(kinds, jobs, told):
    """Judges the text of each kind, so many side by side."""
    with concurrent.futures.ThreadPoolExecutor(jobs) as workers:
        for count, _ in enumerate(workers.map(judge, kinds), 1):
            told(f"{count} of {len(kinds)} different texts judged")


ESCAPES = {"\\": "\\\\", "\t": "\\t", "\n": "\\n"}


def escaped(name):
    return "".join(ESCAPES.get(letter, letter) for letter in name)


def plain(name):
    return re.sub(r"\\([\\tn])", lambda found: {"t": "\t", "n": "\n"}.get(found[1], found[1]), name)


def line_of(kind):
    """A kind that was judged, as one line."""
    what = " ".join(f"{word:#018x}" for word in kind.words) if kind.words else kind.why
    return "\t".join([kind.verdict, str(kind.count), kind.digest, what, escaped(kind.name)])


WORD = "0x[0-9a-f]{16}"
JUDGED = {
    "machine": re.compile(rf"machine\t(\d+)\t(\w+)\t({WORD}(?: {WORD})*)\t([^\t]+)"),
    "refused": re.compile(r"refused\t(\d+)\t(\w+)\t([^\t]+)\t([^\t]+)"),
    "stops": re.compile(r"stops\t(\d+)\t(\w+)\t([^\t]+)\t([^\t]+)"),
}


def kind_of(line):
    """The kind that such a line tells of."""
    for verdict, form in JUDGED.items():
        found = form.fullmatch(line)
        if found:
            count, digest, what, name = found.groups()
            words = tuple(int(word, 16) for word in what.split(" ")) if verdict == "machine" else ()
            if len(words) in (0, len(profile.tracked())):
                return Kind(digest, plain(name), int(count), verdict, words, "" if words else what)
    raise text.Unreadable(f"no line that --judge printed: {line[:60]}")


def joined(kinds):
    """Kinds of several runs, those of one text as one."""
    found = {}
    for kind in kinds:
        if kind.digest in found:
            found[kind.digest].count += kind.count
        else:
            found[kind.digest] = kind
    return list(found.values())


def fold(field, values):
    """The one value that a field's rule makes of some; in whatever order, and however often each comes."""
    return functools.reduce(functools.partial(conflicts.merged, field), sorted(set(values)))


class Fleet:
    """The machines that were taken, those of equal words as one: how many there are of each, and the first's name."""

    def __init__(self, kinds, told):
        self.counts, self.names = collections.Counter(), {}
        for kind in kinds:
            self.counts[kind.words] += kind.count
            self.names.setdefault(kind.words, kind.name)
        if not self.counts:
            raise Refused("no machine is left of which there is a baseline")
        self.machines = list(self.counts)
        self.words, self.limits = pool.baseline(self.machines, told)
        self.place = {name: place for place, name in enumerate(profile.tracked())}
        for field in profile.fields():
            if fold(field, self.values(field)) != self.value(field):
                raise Refused(f"the baseline's {fields.name_of(field)} is not what its rule makes of the values")

    def value(self, field):
        """The baseline's value of a field."""
        return field.value(self.words[self.place[field.register]])

    def values(self, field):
        """The values that machines have of a field, and how many have each."""
        found, place = collections.Counter(), self.place[field.register]
        for words, count in self.counts.items():
            found[field.value(words[place])] += count
        return found

    def row(self, field):
        """What is told of a field."""
        own, values = self.value(field), self.values(field)
        others = [value for value in values if value != own]
        without = str(fold(field, others)) if others and values[own] else "-"
        spread = ", ".join(f"{value}: {count}" for value, count in sorted(values.items()))
        first = self.names[self.machines[self.limits[fields.name_of(field)]]]
        return [fields.name_of(field), fields.rule(field), str(own), str(values[own]), without, spread, escaped(first)]

    def rows(self, every):
        """The rows of the fields in which machines differ, or of every field."""
        return [self.row(field) for field in profile.fields() if every or len(self.values(field)) > 1]


def progress():
    """A call that says how far the work is, on one line of the terminal, ten times a second at most."""
    if sys.stderr is None or not sys.stderr.isatty():
        return lambda what: None
    last = 0.0

    def told(what):
        nonlocal last
        now = time.monotonic()
        if not what or now - last > 0.1:
            last = now
            print(f"\r\033[K{what}", end="", file=sys.stderr, flush=True)

    return told
