"""The package over the library: the examples have the outputs that stand beside them, and objects say what texts say.

ARMCAPS_LIBRARY names the library, EXAMPLES the folder of examples.
"""

import os
import pathlib
import unittest

import armcaps
from armcaps import _library

EXAMPLES = pathlib.Path(os.environ.get("EXAMPLES", pathlib.Path(__file__).resolve().parents[2] / "examples"))


def example(name):
    return (EXAMPLES / name).read_bytes()


class Calls(unittest.TestCase):
    def test_outputs_stand_beside_the_examples(self):
        for text in sorted(EXAMPLES.glob("*.txt")):
            for command in ("report", "trace"):
                expected = text.with_suffix("." + command)
                if expected.exists():
                    with self.subTest(text=text.name, command=command):
                        came = armcaps.run(command, text.read_bytes())
                        self.assertEqual(came, armcaps.Result(0, expected.read_bytes(), ""))

    def test_a_parked_core_has_its_cause(self):
        found = armcaps.report(example("late-core.txt"))
        self.assertEqual([core.state for core in found.cores], ["boot", "early", "parked", "late"])
        self.assertEqual(found.cores[2].cause, "cap 7 HAS_LSE_ATOMICS")
        self.assertEqual(found.system["id_aa64pfr0_el1"], 0x1100000010110012)
        self.assertEqual(found.capabilities[41], "HAS_FPSIMD")
        self.assertIn("atomics", found.flags)

    def test_a_trace_has_steps_and_what_they_changed(self):
        steps = armcaps.trace(example("interleaved.txt"))
        self.assertEqual([(step.event, step.reply) for step in steps][-2:], [("store 1", "done"), ("finalise", "done")])
        self.assertEqual(steps[5].changed["ctr_el0"], 0x84448004)

    def test_a_read_is_a_number_or_not_found(self):
        self.assertEqual(armcaps.mrs(example("big-little.txt"), 4, 0xD5380003), 0x410FD083)
        with self.assertRaises(armcaps.NotFound) as caught:
            armcaps.mrs(example("big-little.txt"), 4, 0xD53B0020)
        self.assertEqual(caught.exception.status, 9)
        self.assertEqual(caught.exception.line, "armcaps: mrs: word 0xd53b0020 undefined")

    def test_a_refusal_names_line_and_kind(self):
        with self.assertRaises(armcaps.Error) as caught:
            armcaps.report("armcaps 1\nbord 0\n")
        self.assertEqual((caught.exception.status, caught.exception.place, caught.exception.kind), (3, 2, 4))

    def test_words_that_are_no_command(self):
        self.assertEqual(armcaps.run("repport").status, 2)
        self.assertEqual(armcaps.run(b"report \xff"), armcaps.Result(1, b"", ""))

    def test_inputs_of_other_types(self):
        text = example("one-core.txt")
        whole = armcaps.run("report", text)
        for data in (text.decode(), bytearray(text), memoryview(text)):
            self.assertEqual(armcaps.run("report", data), whole)
        for words, data in ((["report"], text), ("report", None), ("report", 7)):
            with self.assertRaisesRegex(TypeError, "bytes-like"):
                armcaps.run(words, data)

    def test_kernels_that_are_none(self):
        text = example("one-core.txt")
        for call, status in ((armcaps.elf, 10), (lambda text: armcaps.jump(0, 1, text), 11)):
            with self.assertRaises(armcaps.Error) as caught:
                call(text)
            self.assertEqual(caught.exception.status, status)

    def test_an_image_that_is_given_apart(self):
        text = example("one-core.txt").replace(b"end\n", b"image 4\n")
        self.assertEqual(armcaps.patch(text, b"\x1f\x20\x03\xd5"), b"\x1f\x20\x03\xd5")

    def test_an_audit_names_the_first_byte_that_differs(self):
        text = example("one-core.txt").replace(b"end\n", b"image 4\n")
        self.assertIsNone(armcaps.audit(text, b"abcd", b"abcd"))
        self.assertEqual(armcaps.audit(text, b"abcd", b"abCd"), 2)
        with self.assertRaises(armcaps.Error) as caught:
            armcaps.audit(text, b"abcd", b"abc")
        self.assertEqual((caught.exception.status, caught.exception.place), (3, None))

    def test_a_pool_has_a_baseline_or_names_a_machine(self):
        names = "one-core", "late-core", "a57-a53"
        texts = [example(f"{name}.txt") for name in names]
        found = armcaps.pool(texts)
        own = [armcaps.report(text).system["id_aa64isar0_el1"] & 0xF0 for text in texts]
        self.assertEqual((found.machines, found.system["id_aa64isar0_el1"] & 0xF0), (3, min(own)))
        self.assertEqual(found.limits["id_aa64isar0.aes"], own.index(min(own)))
        with self.assertRaises(armcaps.Error) as caught:
            armcaps.pool([texts[0], b"x"])
        error = caught.exception
        self.assertEqual((error.status, error.machine, error.place, error.kind), (3, 1, 1, 2))

    def test_too_little_room_tells_how_much_is_wanted(self):
        text, whole = example("one-core.txt"), example("one-core.report")
        self.assertEqual(_library.call(b"report", text, len(whole) - 1), (5, b"", len(whole), b""))
        self.assertEqual(_library.call(b"report", text, len(whole)), (0, whole, len(whole), b""))


class Readers(unittest.TestCase):
    """Outputs that are read without the library."""

    POOL = b"armcaps pool 1\nmachines 2\nreg ctr_el0 0x0000000085448004\nlimit ctr.cwg 0\nlimit ctr.erg 1\nend\n"

    def test_a_baseline(self):
        found = armcaps.read_pool(self.POOL)
        self.assertEqual(found, armcaps.Baseline(2, {"ctr_el0": 0x85448004}, {"ctr.cwg": 0, "ctr.erg": 1}))

    def test_what_is_none(self):
        whole = example("one-core.report")
        for data in (b"", whole[:-5], b"x" + whole, whole.replace(b"core 0", b"core 1"), whole.replace(b"0x", b"0q")):
            with self.assertRaises(armcaps.Unreadable):
                armcaps.read_report(data)
        with self.assertRaises(armcaps.Unreadable):
            armcaps.read_trace(b"armcaps trace 1\nreg ctr_el0 0x0\nend\n")


if __name__ == "__main__":
    unittest.main()
