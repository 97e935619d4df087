"""What dump2text makes of dumps, and that it refuses rather than guesses."""

import importlib.machinery
import importlib.util
import os
import pathlib
import random
import re
import shlex
import tempfile
import unittest
from unittest import mock

from common import TOP, report, tool
import damage

from armcaps_tools import command, profile, text
from armcaps_tools.dumps import machine

EXAMPLES = sorted((TOP / "examples/dumps").glob("*.txt"))
FILES = TOP / "tools/tests/dumps"
# how many damages each dump is tried with; ARMCAPS_DAMAGES asks for more
DAMAGES = int(os.environ.get("ARMCAPS_DAMAGES", "12"))


def the_tool():
    loader = importlib.machinery.SourceFileLoader("dump2text", str(TOP / "tools/dump2text"))
    module = importlib.util.module_from_spec(importlib.util.spec_from_loader("dump2text", loader))
    loader.exec_module(module)
    return module


def expected(dump):
    """What is to come of a dump: beside DUMP.dump stands DUMP.expect, a line `WORD REST` for each fact."""
    facts = {"options": "", "says": []}
    for line in dump.with_suffix(".expect").read_text(encoding="utf-8").splitlines():
        word, _, rest = line.partition(" ")
        if word == "says":
            facts["says"].append(rest)
        else:
            facts[word] = rest
    return facts


def cores_of(name):
    return text.machine((FILES / "machines" / f"{name}.txt").read_bytes()).cores


def in_process(parse, words, data):
    """The status, the text and what is said, as the tool has them, without a process of its own."""
    told = []
    with mock.patch.object(text, "load", lambda name: data):
        try:
            return 0, machine.text_of(parse([*words, "-"]), told.append).encode(), told
        except command.Refused as refusal:
            return 1, b"", [*told, str(refusal)]
        except command.Misused as misuse:
            return 2, b"", [*told, f"{misuse}; --help"]


class Files(unittest.TestCase):
    """Each dump of tools/tests/dumps: its status, its registers, and what is said of it."""

    def judge(self, facts, status, out, told):
        self.assertEqual(status, int(facts["status"]), told)
        for said in facts["says"]:
            self.assertIn(said, told)
        if status:
            self.assertEqual(out, b"")
            return
        found = text.machine(out)
        self.assertEqual(found.cores, cores_of(facts["machine"]))
        self.assertEqual(found.boot, int(facts.get("boot", found.boot)))

    def test_files(self):
        dumps, parse = sorted(FILES.glob("*.dump")), the_tool().arguments
        self.assertGreaterEqual(len(dumps), 150)
        for dump in dumps:
            facts = expected(dump)
            with self.subTest(dump=dump.stem):
                status, out, told = in_process(parse, shlex.split(facts["options"]), dump.read_bytes())
                self.judge(facts, status, out, "\n".join(told))

    def test_files_by_the_command(self):
        for dump in sorted(FILES.glob("*.dump"))[::12]:
            facts = expected(dump)
            with self.subTest(dump=dump.stem):
                answer = tool("dump2text", *shlex.split(facts["options"]), "-", given=dump.read_bytes())
                self.judge(facts, answer.returncode, answer.stdout, answer.stderr.decode())

    def test_each_register_that_is_missing_is_refused(self):
        lines = EXAMPLES[0].read_text(encoding="utf-8").splitlines(True)
        for register in profile.registers():
            given = "".join(line for line in lines if register.name not in line.lower().split()).encode()
            with self.subTest(register=register.name):
                status, out, told = in_process(the_tool().arguments, [], given)
                self.assertEqual((status, out), (1, b""))
                self.assertIn(f"has no {register.name}", told[-1])
                self.assertEqual(in_process(the_tool().arguments, ["--partial"], given)[0], 0)


class Damaged(unittest.TestCase):
    """A damaged dump is refused, or gives the registers that the whole one gives; of cores whose lines are all gone
    nothing is given."""

    def tried(self, lines, words, whole, source):
        """One damage: whether it was one, and whether it was seen."""
        kinds = damage.LINES + (damage.CUTS if damage.firm("\n".join(lines)) else [])
        kind = source.choice(kinds)
        changed = kind(lines, source)
        if changed is None or changed == lines:
            return None
        data = "\n".join(changed).encode()
        status, out, _ = in_process(self.parse, words, data)
        remaining = iter(whole)
        if status == 0 and not all(any(core == other for other in remaining) for core in text.machine(out).cores):
            self.fail(f"{kind.__name__} gives other registers:\n{data.decode()}")
        return status != 0

    def test_no_damage_gives_other_registers(self):
        source, self.parse, refused = random.Random(5), the_tool().arguments, []
        for dump in sorted(FILES.glob("good-*.dump")):
            facts, data = expected(dump), dump.read_bytes()
            if b"\0" in data or b"\xfc" in data or re.search("partial|missing", facts["options"]):
                continue
            words, whole = shlex.split(facts["options"]), cores_of(facts["machine"])
            for _ in range(DAMAGES):
                with self.subTest(dump=dump.stem):
                    refused.append(self.tried(data.decode().split("\n"), words, whole, source))
        self.assertGreater(refused.count(True), refused.count(False))


class Forms(unittest.TestCase):
    """One machine in the forms of gdb, OpenOCD, U-Boot and a kernel's log."""

    def setUp(self):
        self.expected = report((TOP / "examples/big-little.txt").read_bytes())

    def test_each_form_gives_the_report_of_the_machine(self):
        self.assertEqual(len(EXAMPLES), 4)
        for dump in EXAMPLES:
            lines = dump.read_bytes()
            for options, given in [
                ((), lines),
                ((), lines.replace(b"\n", b"\r\n")),
                (("--hex",), re.sub(rb"\b0x([0-9a-f]+)( +\d+)?$", rb"\1", lines, flags=re.MULTILINE)),
            ]:
                with self.subTest(dump=dump.name, options=options):
                    self.assertEqual(report(tool("dump2text", *options, "-", given=given).stdout), self.expected)

    def test_one_file_a_core(self):
        with tempfile.TemporaryDirectory() as folder:
            files = []
            for number, core in enumerate((TOP / "examples/dumps/openocd.txt").read_text().split("=====")[1:]):
                files.append(pathlib.Path(folder) / f"{number}.log")
                files[-1].write_text(core.partition("\n")[2])
            self.assertEqual(report(tool("dump2text", *files).stdout), self.expected)
            late = tool("dump2text", "--boot", "1", "--late", "4-5", *files).stdout.decode()
            steps = ["boot 1", "online 0", "online 2", "online 3", "finalise", "online 4", "online 5", "end"]
            self.assertEqual(late.splitlines()[-8:], steps)

    def test_a_text_is_read_as_it_was_written(self):
        for example in (TOP / "examples").glob("qemu-*.txt"):
            given = example.read_bytes()
            again = tool("dump2text", example).stdout
            with self.subTest(example=example.name):
                self.assertEqual([line for line in again.splitlines() if line[:1] != b"#"], given.splitlines())

    def test_one_dump_for_two_cores_is_told(self):
        self.assertIn(b"cores 0, 6 have one mpidr_el1", tool("dump2text", EXAMPLES[0], EXAMPLES[0]).stderr)

    def test_a_number_that_two_dumps_give_is_none(self):
        answer = tool("dump2text", "--boot", "1", EXAMPLES[0], EXAMPLES[0])
        self.assertEqual((answer.returncode, answer.stdout), (1, b""))
        self.assertIn(b"2 dumps have a core 1", answer.stderr)

    def test_a_dump_of_user_space(self):
        answer = report((TOP / "examples/big-little.txt").read_bytes()).decode().splitlines()
        shown = "".join(line[len("user ") :] + "\n" for line in answer if line.startswith("user ")).encode()
        refused = tool("dump2text", "--partial", "-", given=shown)
        self.assertEqual((refused.returncode, refused.stdout), (1, b""))
        self.assertIn(b"what Linux shows to user space", refused.stderr)
        self.assertEqual(tool("dump2text", "--partial", "--user-space", "-", given=shown).returncode, 0)


class Steps(unittest.TestCase):
    """The steps that the options ask for."""

    def test_format_2(self):
        given = b"".join(b"core %d\nmidr_el1 0x410fd034\nsve_vl 0x3\n" % number for number in range(65))
        self.assertIn(b"format 1 has 64", tool("dump2text", "--partial", "-", given=given).stderr)
        answer = tool("dump2text", "--partial", "--format", "2", "-", given=given)
        self.assertEqual(answer.returncode, 0)
        self.assertEqual(answer.stdout.count(b"sve_vl 0x3\n"), 65)
        self.assertTrue(report(answer.stdout).startswith(b"armcaps report 1\n"))

    def test_a_command_line(self):
        answer = tool("dump2text", "--cmdline", "quiet arm64.nosve", EXAMPLES[0])
        self.assertIn(b"boot 0\ncmdline quiet arm64.nosve\n", answer.stdout)
        for line in ["a" * 2049, "a\nb"]:
            self.assertEqual(tool("dump2text", "--cmdline", line, EXAMPLES[0]).returncode, 2)


if __name__ == "__main__":
    unittest.main()
