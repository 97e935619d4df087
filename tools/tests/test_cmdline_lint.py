"""What cmdline-lint says of command lines, against the program."""

import random
import unittest

from common import report, tool

from armcaps_tools import profile


class CommandLines(unittest.TestCase):
    """What the lint says is set is what the program notes."""

    def setUp(self):
        self.random = random.Random(17)

    def word(self):
        draw = self.random.choice
        registers = [register.short for register in profile.registers()] + [
            "id_aa64pfr2",
            "ID_AA64PFR0",
            "id_aa64pfr0_el1",
        ]
        if self.random.random() < 0.2:
            return draw(
                [*profile.aliases(), "arm64.nosve ", "arm64.nosv", "arm64.nosve=1", "quiet", "console=ttyAMA0,115200"]
            )
        register = draw(registers)
        names = [field.name for field in profile.fields_of(f"{register}_el1")] or ["sve", "l1ip"]
        value = draw(
            [
                "0",
                "1",
                "2",
                "0x0",
                "0xF",
                "0X1",
                "16",
                "0x10",
                "",
                "-1",
                "00",
                "18446744073709551616",
                "1\r",
                "0x",
                "1g",
            ]
        )
        return f"{register}.{draw([*names, 'sev', ''])}{draw(['=', '=', '=', ''])}{value}"

    def test_fields_are_those_that_the_program_notes(self):
        for _ in range(40):
            line = " ".join(self.word() for _ in range(self.random.randrange(1, 12)))
            lines = tool("cmdline-lint", line).stdout.decode().splitlines()
            said = [row.split()[1] for row in lines if row.startswith("set ")]
            answer = report(f"armcaps 1\ncore 0\nboot 0\ncmdline {line}\nfinalise\nend\n".encode()).decode()
            noted = [row.split()[1] for row in answer.splitlines() if row.startswith("note ")]
            with self.subTest(line=line):
                self.assertEqual(said, noted)

    def test_values_are_those_that_the_program_takes(self):
        for register in profile.registers():
            fields = [(field, self.random.randrange(1, 1 << field.width)) for field in profile.fields_of(register.name)]
            if not register.short.startswith("id_") or not fields:
                continue
            words = [f"{register.short}.{field.name}={value + (1 << field.width)}" for field, value in fields]
            said = tool("cmdline-lint", " ".join(words)).stdout.decode().splitlines()
            sets = [f"set {register.short}.{field.name} {field.cut(value)}" for field, value in fields]
            self.assertEqual([row for row in said if row.startswith("set ")], sets)

    def test_hints(self):
        for word in [
            "arm64.nosvee",
            "id_aa64pfr0_el1.sve=0",
            "ID_AA64PFR0.sve=0",
            '"arm64.nosve"',
            "arm64.nosve\r",
            "ctr.l1ip=0",
            "-- arm64.nosve",
            "--arm64.nosve",
            "arm64.nosve\narm64.nomte",
            "id_aa64pfr1.mte=16",
            "id_aa64isar1.apa=010",
            "arm64.nolva",
        ]:
            with self.subTest(word=word):
                self.assertEqual(tool("cmdline-lint", word).returncode, 1)
        self.assertEqual(
            tool("cmdline-lint", "quiet arm64.nosve root=/dev/vda2 id_aa64pfr0.fp=15 -- init").returncode, 0
        )

    def remark(self, version, word):
        """What is said of a word under one version of Linux, and the status."""
        answer = tool("cmdline-lint", "--linux", version, word)
        found = [line for line in answer.stdout.decode().splitlines() if line.startswith("  linux")]
        return answer.returncode, found[0].partition(": ")[2] if found else ""

    def test_what_linux_ignores_or_reads_otherwise(self):
        for version, word, said in [
            ("6.1", "id_aa64isar0.aes=1", "knows no field id_aa64isar0.aes"),
            ("6.1", "arm64.nomops", "has no alias arm64.nomops"),
            ("6.1", "id_aa64isar2.mops=0", "knows no field id_aa64isar2.mops"),
            ("6.1", "id_aa64isar1.apa=012", "sets id_aa64isar1.apa to 10"),
            ("6.1", "id_aa64isar1.apa=08", "takes a number in C's form"),
            ("6.1", "id_aa64pfr1.mte=0X2", "sets id_aa64pfr1.mte to 2"),
            ("6.12", "id_aa64pfr1.mte=12", "takes one hexadecimal digit"),
            ("6.12", "id-aa64pfr1.mte=1", "sets id_aa64pfr1.mte to 1"),
            ("6.12", "id_aa64mmfr2.varange=1", "takes no other value"),
            ("6.12", "arm64.nolva", "takes it as id_aa64mmfr2.varange=0"),
            ("6.12", "arm64.nosve", "leaves SME as it is"),
            ("6.1", "kvm-arm.mode=nvhe", "takes it as id_aa64mmfr1.vh=0"),
            ("6.6", "id_aa64isar0.aes=1", "knows no field id_aa64isar0.aes"),
            ("6.6", "id_aa64isar2.mops=0", "not known to this tool: 6.1 knows no field id_aa64isar2.mops"),
            ("6.6", "arm64.nosve", "6.1 takes it as armcaps does; 6.12 leaves SME as it is"),
            ("6.6", "id_aa64isar1.apa=10", "6.12 takes one hexadecimal digit"),
        ]:
            with self.subTest(version=version, word=word):
                status, remark = self.remark(version, word)
                self.assertEqual(status, 1)
                self.assertIn(said, remark)
        for version, word in [("6.1", "arm64.nosve"), ("6.12", "id_aa64pfr0.el0=1"), ("6.6", "id_aa64pfr1.mte=0")]:
            self.assertEqual(self.remark(version, word), (0, ""))
        self.assertEqual(tool("cmdline-lint", "--linux", "5.4", "x").returncode, 2)


if __name__ == "__main__":
    unittest.main()
