"""The kinds of refusals that the pages tell of, and the check of pages itself."""

import re
import tempfile
import unittest

from common import TOP, tool


class Statuses(unittest.TestCase):
    """The tables of kinds in docs/STATUSES.md are those of the definitions, each in its order."""

    def named(self, specs):
        """The words of kinds that have a number each."""
        lines = (TOP / "crates" / specs).read_text(encoding="utf-8")
        words = dict(re.findall(r'^kind_word (\S+) = codes "([a-z-]+)"', lines, re.MULTILINE))
        numbers = re.findall(r"^kind_number (\S+) = (\d+)", lines, re.MULTILINE)
        self.assertEqual(len(words), len(numbers))
        self.assertEqual([number for _, number in numbers], [str(count + 1) for count in range(len(numbers))])
        return [words[kind] for kind, _ in numbers]

    def counted(self, specs, name):
        """The words of kinds that stand in their order in a definition."""
        lines = (TOP / "crates" / specs).read_text(encoding="utf-8")
        equation = re.search(rf"^{name} =.*?(?=^$|^--|\Z)", lines, re.MULTILINE | re.DOTALL)
        return re.findall(r'codes "([a-z-]+)"', equation.group())

    def test_kinds(self):
        defined = [self.named("armcaps_text/specs/Refusal.antt"), self.named("armcaps_alt/specs/Refusals.antt")]
        defined += [self.counted("armcaps_top/specs/ErrorLines.antt", "label_kind_word kind")]
        if (TOP / "crates/armcaps_top/specs/Elf.antt").exists():
            defined += [self.counted("armcaps_top/specs/Elf.antt", "elf_words")]
        told = []
        for number, word in re.findall(
            r"^\| (\d+) \| `([a-z-]+)` \|", (TOP / "docs/STATUSES.md").read_text(encoding="utf-8"), re.MULTILINE
        ):
            if number == "1":
                told.append([])
            told[-1].append(word)
            self.assertEqual(int(number), len(told[-1]))
        self.assertEqual(sorted(told), sorted(defined))


class Pages(unittest.TestCase):
    """A page that is off by one character is refused."""

    PAGE = "```console\n$ armcaps report < examples/one-core.txt | tail -n 2\n{0}\n{1}\n$ printf 'a b'\n{2}\n```\n"
    RIGHT = ("flags fp asimd aes pmull sha1 sha2 crc32 cpuid", "end", "a b")

    def check(self, *lines):
        with tempfile.NamedTemporaryFile("w", suffix=".md") as page:
            page.write(self.PAGE.format(*lines))
            page.flush()
            return tool("check-pages", page.name).returncode

    def test_the_right_page_passes(self):
        self.assertEqual(self.check(*self.RIGHT), 0)
        self.assertEqual(self.check("..", "end", "a b"), 0)

    def test_one_character(self):
        for index, line in enumerate(self.RIGHT):
            for changed in (line[:-1], line + " ", "y" + line[1:]):
                lines = list(self.RIGHT)
                lines[index] = changed
                with self.subTest(line=changed):
                    self.assertEqual(self.check(*lines), 1)


if __name__ == "__main__":
    unittest.main()
