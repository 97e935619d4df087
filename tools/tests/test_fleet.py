"""What fleet says of many machines: the baseline of `armcaps pool`, whatever the number of texts and the runs in
which they are judged, and which machine limits each field."""

import os
import pathlib
import random
import subprocess
import tempfile
import unittest

from common import PROGRAM, TOP, report, run, tool
from armcaps_tools import fields, fleet, pool, profile

from armcaps import read_pool, read_report

EXAMPLES = ["qemu-neoverse-n1", "nosve", "hotplug", "qemu-cortex-a72", "big-little", "one-core"]


def values(chance):
    """A random value of each field; most of them small, so that machines often agree."""
    found = {}
    for field in profile.fields():
        number = chance.getrandbits(field.width) if chance.random() < 0.2 else chance.choice((0, 1, 2, 2, 2))
        found[field] = field.cut(number)
    return found


def words_of(found):
    """The words of registers in which fields have these values."""
    words = dict.fromkeys(profile.tracked(), 0)
    for field, value in found.items():
        words[field.register] |= (value & ((1 << field.width) - 1)) << field.shift
    return tuple(words.values())


def folded(field, found):
    """The one value of a field that some values give, in the words of the rules."""
    if len(set(found)) == 1:
        return found[0]
    if field.rule == "HigherOrZero":
        return 0 if 0 in found else max(found)
    return {"Exact": field.safe, "Lower": min(found), "Higher": max(found)}[field.rule]


def table(out):
    """The rows that fleet printed, by field: its cells."""
    lines = out.decode().split("\n\n", 1)[1].splitlines()
    starts = [lines[0].index(head) for head in fleet.HEAD] + [1000]
    rows = [[line[begin:end].strip() for begin, end in zip(starts, starts[1:])] for line in lines[1:]]
    return {row[0]: dict(zip(fleet.HEAD, row)) for row in rows}


class Fleets(unittest.TestCase):
    """Folders of texts."""

    def setUp(self):
        folder = tempfile.TemporaryDirectory()
        self.addCleanup(folder.cleanup)
        self.folder = pathlib.Path(folder.name)

    def put(self, name, data):
        path = self.folder / name
        path.parent.mkdir(exist_ok=True)
        path.write_bytes(data)
        return path

    def examples(self):
        return [self.put(f"{name}.txt", (TOP / f"examples/{name}.txt").read_bytes()) for name in EXAMPLES]

    def ran(self, *arguments, status=0, **more):
        answer = tool("fleet", *arguments, **more)
        self.assertEqual(answer.returncode, status, answer.stderr)
        return answer

    def test_a_text_of_a_baseline_has_its_words(self):
        chance = random.Random(1)
        for _ in range(10):
            words = words_of(values(chance))
            self.assertEqual(tuple(read_report(report(pool.text_of(words))).system.values()), words)

    def test_a_few_machines_are_those_of_pool(self):
        paths = self.examples()
        whole = read_pool(run(PROGRAM, "pool", given=b"".join(path.read_bytes() for path in paths)).stdout)
        rows = table(self.ran("--all", *paths).stdout)
        self.assertEqual(list(rows), [fields.name_of(field) for field in profile.fields()])
        for name, place in whole.limits.items():
            self.assertEqual(rows[name]["first limited by"], str(paths[place]), name)
        for field in profile.fields():
            self.assertEqual(int(rows[fields.name_of(field)]["value"]), field.value(whole.system[field.register]))

    def test_many_machines(self):
        chance = random.Random(2)
        machines = [values(chance) for _ in range(135)]
        paths = [self.put(f"{place:03}.txt", pool.text_of(words_of(each))) for place, each in enumerate(machines)]
        rows = table(self.ran("--all", self.folder).stdout)
        for field in profile.fields():
            found = [each[field] for each in machines]
            row, own = rows[fields.name_of(field)], folded(field, found)
            first = next(place for place in range(len(found)) if folded(field, found[: place + 1]) == own)
            others = [value for value in found if value != own]
            without = str(folded(field, others)) if others and own in found else "-"
            told = [row[head] for head in ("value", "machines at it", "without them", "first limited by")]
            self.assertEqual(told, [str(own), str(found.count(own)), without, str(paths[first])], field)
            spread = ", ".join(f"{value}: {found.count(value)}" for value in sorted(set(found)))
            self.assertEqual(row["values"], spread)

    def test_equal_texts_are_judged_once(self):
        paths = self.examples()
        log, program = self.folder / "log", self.folder / "program"
        program.write_text(f'#!/bin/sh\necho "$@" >> "{log}"\nexec "{PROGRAM}" "$@"\n', encoding="utf-8")
        program.chmod(0o755)
        for copy in range(20):
            self.put(f"more/{copy}.txt", paths[copy % 2].read_bytes())
        answer = self.ran("--jobs", 3, self.folder, env={**os.environ, "ARMCAPS": str(program)})
        self.assertEqual(answer.stdout.splitlines()[0], b"26 machines of 6 different texts")
        self.assertEqual(log.read_text(encoding="utf-8"), "pool\n" * 7)

    def test_texts_that_are_left_out(self):
        good = self.put("a.txt", (TOP / "examples/one-core.txt").read_bytes())
        bad = {
            "b.txt": ((TOP / "examples/refused.txt").read_bytes(), "refused: line 10: kind 14 finalise"),
            "c.txt": ((TOP / "examples/panic.txt").read_bytes(), "stops: panic: core 1: cap 30 HAS_HCX"),
            "d.txt": (good.read_bytes() * 2, "refused: it has 2 machine texts, and each wants a file of its own"),
            "e.txt": (good.read_bytes().replace(b"end\n", b"image 4\n") + bytes(4), "refused: image"),
            "f.txt": (b"", "refused: line 1: kind 2 unfinished"),
        }
        for name, (data, _) in bad.items():
            self.put(name, data)
        self.put("g.txt", b"")
        answer = self.ran(self.folder)
        said = [f"fleet: {self.folder / name}: {why}" for name, (_, why) in bad.items()]
        said[-1] = said[-1].replace("f.txt", "f.txt (and 1 more of this text)")
        self.assertEqual(answer.stderr.decode().splitlines(), said)
        self.assertEqual(answer.stdout.splitlines()[0], b"1 machine of 1 different text; 5 refused, 1 stopped")
        answer = self.ran("--strict", self.folder, status=1)
        self.assertEqual((answer.stdout, answer.stderr.decode().splitlines()), (b"", said))
        good.unlink()
        self.assertIn(b"no machine is left", self.ran(self.folder, status=1).stderr)

    def test_judged_by_several_runs(self):
        paths = self.examples() + [self.put("z\t\\n.txt", (TOP / "examples/panic.txt").read_bytes())]
        paths.insert(1, self.put("again.txt", paths[0].read_bytes()))
        whole = self.ran("--text", self.folder / "whole", *paths)
        names = b"".join(os.fsencode(path) + b"\0" for path in paths)
        parts = [names.split(b"\0")[part : part + 3] for part in range(0, len(paths), 3)]
        lines = b"".join(self.ran("--judge", "--null", "--list", "-", given=b"\0".join(part)).stdout for part in parts)
        answer = self.ran("--text", self.folder / "parts", "--judged", "-", given=lines)
        self.assertEqual((answer.stdout, answer.stderr), (whole.stdout, whole.stderr))
        self.assertEqual((self.folder / "parts").read_bytes(), (self.folder / "whole").read_bytes())
        listed = self.ran("--list", "-", given=names.replace(b"\0", b"\n"))
        self.assertEqual(listed.stdout, whole.stdout)
        self.assertIn(b"no line that --judge printed", self.ran("--judged", "-", given=lines[1:], status=1).stderr)

    def test_the_baseline_written_stands_for_its_machines(self):
        paths = self.examples()
        first, last = self.folder / "first", self.folder / "last"
        self.ran("--text", first, *paths[:4])
        self.ran("--text", last, first, *paths[4:])
        self.assertEqual(last.read_bytes(), self.text_of_all(paths))

    def text_of_all(self, paths):
        whole = read_pool(run(PROGRAM, "pool", given=b"".join(path.read_bytes() for path in paths)).stdout)
        return pool.text_of(whole.system.values())

    def test_progress_is_for_a_terminal_alone(self):
        answer = self.ran(*self.examples())
        self.assertEqual(answer.stderr, b"")
        if not subprocess.run(["script", "--version"], capture_output=True, check=False).returncode:
            line = f"{TOP / 'tools/fleet'} {self.folder}"
            shown = subprocess.run(["script", "-qec", line, "/dev/null"], capture_output=True, check=False).stdout
            self.assertIn(b"texts read", shown)


if __name__ == "__main__":
    unittest.main()
