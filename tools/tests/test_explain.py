"""What explain tells of texts beside their reports."""

import random
import re
import tempfile
import unittest

from common import PROGRAM, TOP, report, run, tool

from armcaps_tools import conflicts, fields, profile, text


class Explained(unittest.TestCase):
    """Reports beside their texts, those of parked cores among them."""

    CORES = "core 0\nid_aa64isar0_el1 0x10211120\ncore 1\nid_aa64isar0_el1 0x11020\nmidr_el1 0x410fd034\n"
    TEXT = f"armcaps 1\n{CORES}boot 0\nfinalise\nonline 1\nend\n"

    def explained(self, state, given=TEXT, more=""):
        """What is told of a text whose core 1 has a state."""
        words = [f"{group} {name} 0x{0:016x}" for group in ("reg", "user") for name in profile.tracked()]
        words = "\n".join(words).replace(
            f"reg id_aa64isar0_el1 0x{0:016x}", f"reg id_aa64isar0_el1 0x{0x10211120:016x}"
        )
        lines = (
            f"armcaps report 1\ncore 0 boot\ncore 1 {state}\n{words}\n{more}hwcap 0x0\nhwcap2 0x0\nflags cpuid\nend\n"
        )
        with tempfile.NamedTemporaryFile("w", suffix=".txt") as file:
            file.write(given)
            file.flush()
            return tool("explain", file.name, "-", given=lines.encode())

    def rows(self, *arguments, **named):
        return [re.split(r" {2,}", line) for line in self.explained(*arguments, **named).stdout.decode().splitlines()]

    def test_fields(self):
        self.assertIn(
            ["id_aa64isar0.sha1", "11:8", "Lower", "0: 1; 1: 0", "1", "0", "cores differ, limited"], self.rows("late")
        )
        self.assertNotIn("id_aa64isar0.sha1", [row[0] for row in self.rows("absent")])

    def test_the_report_of_another_text(self):
        self.assertEqual(self.explained("early", given=self.TEXT.replace("boot 0", "boot 1")).returncode, 1)
        self.assertEqual(self.explained("early", given=self.TEXT.replace("boot 0", "core 2\nboot 0")).returncode, 1)

    @unittest.skipUnless(
        profile.tests("capabilities") and profile.tests("hwcaps"), "no tables of capabilities and hwcaps"
    )
    def test_parked_cores(self):
        rows = self.rows("parked cap 7 HAS_LSE_ATOMICS")
        self.assertIn(["core 1 is parked: HAS_LSE_ATOMICS asks id_aa64isar0.atomic >= 2"], rows)
        self.assertIn(["id_aa64isar0.atomic", "23:20", "Lower", "0: 2; 1: 0", "2", "0"], rows)
        self.assertIn(["core 1 is parked: sha1 asks id_aa64isar0.sha1 >= 1"], self.rows("parked hwcap sha1"))
        self.assertIn(
            ["id_aa64isar0.sha1", "11:8", "Lower", "0: 1; 1: 0"], [row[:4] for row in self.rows("parked hwcap sha1")]
        )
        erratum = next(row[0] for row in self.rows("parked cap 43 WORKAROUND_843419") if "is parked" in row[0])
        self.assertIn("midr_el1 0x410fd034, revidr_el1 0x0", erratum)
        cache = self.TEXT.replace("core 1\n", "ctr_el0 0x84448004\ncore 1\nctr_el0 0x84438004\n")
        self.assertIn(
            ["ctr.dminline", "19:16", "Lower", "0: 4; 1: 3", "0", "0"],
            self.rows("parked cap 42 MISMATCHED_CACHE_TYPE", given=cache),
        )

    def test_vector_lengths(self):
        given = self.TEXT.replace("armcaps 1", "armcaps 2").replace("core 1\n", "sve_vl 0x3\ncore 1\nsve_vl 0x1\n")
        told = "core 1 is parked: the system has vectors of 256 bits, and the core's are: 128"
        self.assertIn([told], self.rows("parked vl 256", given=given, more="vl 128\n"))


class Conflicts(unittest.TestCase):
    """The first of the conflicts that explain lists is the cause that the program gives, on random machines."""

    WORDS = ["arm64.nosve", "arm64.nopauth", "arm64.nomte"]
    WORDS += ["id_aa64isar0.sha1=0", "id_aa64pfr1.bt=0", "id_aa64mmfr1.hcx=1"]

    def machine(self, source):
        """Three cores that differ in some fields, the second one early, the third one late."""
        example = source.choice(["qemu-max", "a57-a53", "late-core"])
        cores = text.machine((TOP / f"examples/{example}.txt").read_bytes()).cores
        own = [dict(source.choice(cores), sve_vl=source.choice([1, 3, 7])) for _ in range(3)]
        for _ in range(source.randrange(6)):
            core, field = source.choice(own), source.choice(profile.fields())
            mask = (1 << field.width) - 1 << field.shift
            value = source.choice([0, 1, 2, source.randrange(1 << field.width)]) & (1 << field.width) - 1
            core[field.register] = core.get(field.register, 0) & ~mask | value << field.shift
        lines = ["armcaps 2"]
        for number, core in enumerate(own):
            lines += [f"core {number}"] + [f"{name} {word:#x}" for name, word in core.items()]
        words = " ".join(source.sample(self.WORDS, source.randrange(3)))
        return "\n".join([*lines, "boot 0", f"cmdline {words}", "online 1", "finalise", "online 2", "end", ""]).encode()

    def named(self, conflict):
        return conflict.name if conflict else None

    def test_the_first_conflict_is_the_cause(self):
        source, seen = random.Random(11), set()
        for _ in range(150):
            given = self.machine(source)
            answer, machine = run(PROGRAM, "report", given=given), text.machine(given)
            early = conflicts.at_check(machine, 1)
            if answer.returncode == 7:
                core, cause = re.search(rb"core (\d): (.*)$", answer.stderr.strip()).groups()
                first = conflicts.at_check(machine, int(core))[0]
                self.assertTrue(first.panics)
                self.assertEqual(self.cause(b"parked " + cause), first.name, given.decode())
                seen.add("panic")
                continue
            told = text.read_report(answer.stdout)
            for core, found in ((1, early), (2, conflicts.at_check(machine, 2) + conflicts.at_local(machine, told, 2))):
                with self.subTest(given=given.decode(), core=core):
                    self.assertEqual(self.cause(str(told.cores[core]).encode()), self.named(found[0] if found else None))
                    seen.add(told.cores[core].state)
        self.assertEqual(seen, {"panic", "parked", "early", "late"})

    def cause(self, state):
        """What a state of the report names, as the list of conflicts names it."""
        words = state.decode().split(" ")
        if words[0] != "parked":
            return None
        if words[1] == "asid":
            return "ASIDs of 16 bits"
        return f"vectors of {words[2]} bits" if words[1] == "vl" else words[-1]

    def test_all_conflicts_and_the_warning(self):
        told = tool("explain", "examples/parked-early.txt").stdout.decode()
        conflict = "  HAS_HCX (strict boot feature): the core lacks it"
        for line in [conflict, "warning: cores may not differ in HAS_HCX, BTI"]:
            self.assertIn(line, told)
        panic = tool("explain", "examples/panic.txt")
        self.assertEqual(panic.returncode, 1)
        self.assertIn(b"core 1 stops the machine: cap 30 HAS_HCX", panic.stdout)


class Options(unittest.TestCase):
    """What the options choose, and the words for values."""

    def lines(self, *words, given=None):
        answer = tool("explain", *words, given=given)
        self.assertEqual((answer.returncode, answer.stderr), (0, b""))
        return answer.stdout.decode().splitlines()

    def names(self, *words):
        return [line.split()[0] for line in self.lines(*words) if re.match(r"\w+\.\w+ ", line)]

    def test_which_fields(self):
        some, every = self.names("examples/big-little.txt"), self.names("--all", "examples/big-little.txt")
        self.assertEqual(every, [fields.name_of(field) for field in profile.fields()])
        self.assertEqual(self.names("--no-hidden", "examples/big-little.txt"), ["id_aa64mmfr0.parange", "ctr.l1ip"])
        self.assertLess(set(self.names("--no-hidden", "examples/big-little.txt")), set(some))

    def test_the_program_is_run_where_no_report_is_named(self):
        given = (TOP / "examples/late-core.txt").read_bytes()
        with tempfile.NamedTemporaryFile() as file:
            file.write(report(given))
            file.flush()
            self.assertEqual(self.lines("-", file.name, given=given), self.lines("-", given=given))

    def test_every_field_of_a_core(self):
        self.assertEqual(len(self.names("--core", "4", "examples/big-little.txt")), 123)

    def test_each_field_has_words(self):
        for field in profile.fields():
            self.assertTrue(fields.what(field), field.name)
            for value in fields.values_of(fields.name_of(field)):
                if value != "*":
                    self.assertEqual(field.cut(int(value)), int(value))
        self.assertEqual(self.lines("--what", "id_aa64pfr0.sve")[-1], "  asked for by SVE (1), hwcap sve (1)")
        self.assertIn(b"did you mean sve?", tool("explain", "--what", "svee").stderr)

    def test_strides(self):
        self.assertEqual(text.spans(range(0, 512, 2)), "0-510/2")
        self.assertEqual(text.spans([0, 1, 2, 3, 7]), "0-3, 7")
        self.assertEqual(text.spans([0, 2, 3, 5, 7, 9]), "0, 2-3, 5, 7, 9")
        self.assertEqual(text.spans([core for core in range(512) if core % 8 < 4]), "0-507:4/8")
        self.assertEqual(text.spans([0, 1, 4, 5, 8, 9, 13]), "0-9:2/4, 13")
        self.assertEqual(text.spans([0, 1, 4, 5, 9]), "0-1, 4-5, 9")
        self.assertEqual(text.spans([]), "")

    def test_short_lists_of_cores_are_those_cores(self):
        """Each list of cores below 10 in short stands for it, as Linux reads such lists (lib/bitmap-str.c)."""
        for bits in range(1 << 10):
            cores, found = [core for core in range(10) if bits >> core & 1], []
            for part in filter(None, text.spans(cores).split(", ")):
                span, _, stride = part.partition("/")
                low, _, rest = span.partition("-")
                high, _, used = rest.partition(":")
                step, width = int(stride or 1), int(used or 1)
                found += [core for core in range(int(low), int(high or low) + 1) if (core - int(low)) % step < width]
            self.assertEqual(found, cores)


if __name__ == "__main__":
    unittest.main()
