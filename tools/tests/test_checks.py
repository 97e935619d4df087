"""The parts of checks/ that want no kernel, on the small kernel of examples/patching. Run by tools/check, which names
the program by $ARMCAPS."""

import os
import pathlib
import subprocess
import sys
import tempfile
import types
import unittest

TOP = pathlib.Path(__file__).resolve().parent.parent.parent
sys.path[:0] = [str(TOP / "checks"), str(TOP / "tools")]
from linux_source import answers, classes, machines  # noqa: E402
from real_kernel import compare, labels, objects, reasons  # noqa: E402

PROGRAM = os.environ["ARMCAPS"]
TEXT = b"armcaps 1\ncore 0\nboot 0\nfinalise\nimage %d\n"


def run(*words, given=b""):
    return subprocess.run([str(word) for word in words], input=given, capture_output=True, check=False)


class Labels(unittest.TestCase):
    """What checks/real-kernel says of jump labels is what the program writes."""

    def test_keys_on_and_off(self):
        with tempfile.TemporaryDirectory() as folder:
            run(TOP / "examples/patching/make-kernel", "--labels", folder)
            image = bytearray((pathlib.Path(folder) / "kernel.img").read_bytes().ljust(0x5000, b"\0"))
        entries = labels.of_table(image, 0x3100, 3)
        self.assertEqual([(one.code, one.target, one.branch) for one in entries][0], (0x200, 0x240, False))
        for key in (0x3200, 0x4010):
            image[key] ^= 1
            out = run(PROGRAM, "jump", "0x3100", "3", given=TEXT % len(image) + image).stdout
            for one in entries:
                word = compare.word_at(out, one.code)
                jumps = one.is_on(image) != one.branch
                wanted = 0x14000000 | (one.target - one.code) // 4 if jumps else 0xD503201F
                self.assertEqual(word, wanted)
            places = {one.code for one in entries}
            self.assertEqual(labels.rest_of(out, places), labels.rest_of(image, places))


class Lines(unittest.TestCase):
    """Lines of other programs are read whole."""

    def test_objdump_and_readelf(self):
        line = "ffff800008010178:\t14000020 \tb\tffff8000080101f8 <gic_handle_irq+0x98>"
        self.assertEqual(objects.LINE.match(line).groups()[:2], ("ffff800008010178", "14000020"))
        line = "  [ 2] .text PROGBITS ffff800008010000 020000 ceeccc 00  AX  0   0 65536"
        self.assertEqual(objects.SECTION.match(line).groups(), ("ffff800008010000", "ceeccc", "AX"))

    def test_what_mrs_answers(self):
        done = types.SimpleNamespace
        self.assertEqual(answers.of_mrs(done(returncode=0, stdout=b"x3 0x0000000000000010\n", stderr=b""), 3), 16)
        self.assertEqual(answers.of_mrs(done(returncode=0, stdout=b"xzr 0x0000000000000010\n", stderr=b""), 31), 16)
        self.assertEqual(answers.of_mrs(done(returncode=0, stdout=b"x4 0x0000000000000010\n", stderr=b""), 3)[:2], "x4")
        undefined = done(returncode=9, stdout=b"", stderr=b"armcaps: mrs: word 0xd5380000 undefined\n")
        self.assertIsNone(answers.of_mrs(undefined, 0))


class Classes(unittest.TestCase):
    """A difference without a reason is told as such."""

    def test_reads(self):
        kernel = types.SimpleNamespace(rows={}, lacks_row=lambda field: True)
        theirs = types.SimpleNamespace(fates=[("up", ""), ("parked", "asid")], reads={(0, 0): 0x410FD034})
        read = lambda *words: list(classes.read(kernel, theirs, *words))  # noqa: E731
        self.assertEqual(read(0, 0, 0x410FD034), [])
        self.assertEqual(read(1, 0, "armcaps: mrs: core 1 not admitted"), [])
        self.assertTrue(read(0, 0, 0x410FD033)[0].startswith("unknown"))
        self.assertTrue(read(1, 0, 0x410FD034)[0].startswith("unknown"))
        self.assertEqual(read(0, 16, None), [classes.AARCH32_READ])

    def test_reasons(self):
        self.assertIsNone(reasons.reason("atomics of Linux alone"))
        self.assertIsNone(reasons.reason_of_number("HAS_LSE_ATOMICS"))

    def test_a_machine_reads_the_same_places_again(self):
        base = {**dict.fromkeys(machines.NAMES, 0), "midr_el1": 0x410FD034, "sve_vl": 0}
        one, other = (machines.Machine(7, "6.12", [base]) for _ in range(2))
        self.assertEqual(one.reads(5), other.reads(5))


if __name__ == "__main__":
    unittest.main()
