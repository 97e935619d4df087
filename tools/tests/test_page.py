"""The page with a board in it, and what the page is made of. That it runs is tried in browsers: checks/page."""

import base64
import importlib.machinery
import importlib.util
import json
import pathlib
import re
import tempfile
import unittest

from common import TOP, tool

EMPTY = '<title>page</title><script type="application/json" id="given">null</script>'
BOARD = TOP / "examples/late-core.txt"


def made_by():
    """tools/webpage/make-page as a module."""
    loader = importlib.machinery.SourceFileLoader("make_page", str(TOP / "tools/webpage/make-page"))
    made = importlib.util.module_from_spec(importlib.util.spec_from_loader("make_page", loader))
    loader.exec_module(made)
    return made


class WithBoard(unittest.TestCase):
    """What tools/page writes."""

    def setUp(self):
        folder = tempfile.TemporaryDirectory()
        self.addCleanup(folder.cleanup)
        self.page = pathlib.Path(folder.name) / "page.html"
        self.page.write_text(EMPTY, encoding="utf-8")

    def given(self, text, **more):
        answer = tool("page", "--page", self.page, text, **more)
        self.assertEqual((answer.returncode, answer.stderr), (0, b""))
        found = re.search(r'id="given">(.*?)</script>', answer.stdout.decode())
        return json.loads(found[1])

    def test_the_board_is_in_it(self):
        self.assertEqual(self.given(BOARD)["name"], "late-core.txt")
        self.assertEqual(base64.b64decode(self.given(BOARD)["data"]), BOARD.read_bytes())

    def test_a_text_with_its_image_from_standard_input(self):
        board = BOARD.read_bytes().replace(b"\nend\n", b"\nimage 4\n") + b"\0\xff\r\n"
        self.assertEqual(base64.b64decode(self.given("-", given=board)["data"]), board)

    def test_a_name_is_no_markup(self):
        board = self.page.parent / "<script>alert(1)<"
        board.write_bytes(BOARD.read_bytes())
        answer = tool("page", "--page", self.page, board)
        self.assertNotIn(b"<script>alert", answer.stdout)
        self.assertEqual(self.given(board)["name"], board.name)

    def test_what_is_no_machine_text(self):
        answer = tool("page", "--page", self.page, "examples/dumps/gdb.txt")
        self.assertEqual((answer.returncode, answer.stdout), (1, b""))
        self.assertIn(b"armcaps-dump2text", answer.stderr)

    def test_what_is_no_page(self):
        answer = tool("page", "--page", BOARD, BOARD)
        self.assertEqual((answer.returncode, answer.stdout), (1, b""))


class Page(unittest.TestCase):
    """The page that make-page writes, whatever its module."""

    @classmethod
    def setUpClass(cls):
        cls.make = made_by()
        cls.page = cls.make.page(b"module", False)

    def test_nothing_is_loaded(self):
        self.assertIn("default-src 'none'", self.page)
        self.assertNotRegex(self.page, r'(?:src|href)="(?!#)')
        self.assertNotRegex(self.page, r"@import|url\(")

    def test_its_script_and_style_are_those_of_the_policy(self):
        for part, name in (("script", r"<script>(.*?)</script>"), ("style", "<style>(.*?)</style>")):
            with self.subTest(part=part):
                text = re.search(name, self.page, re.DOTALL)[1]
                self.assertIn(f"{part}-src {self.make.hash_of(text)}", self.page)

    def test_it_has_one_place_for_a_board(self):
        self.assertEqual(self.page.count('<script type="application/json" id="given">null</script>'), 1)

    def test_every_kind_has_a_remedy(self):
        data = self.make.data()
        self.assertEqual(sorted(data["kinds"]), list(range(1, 18)))
        kinds = {command: len(found) for command, found in data["patching"].items()}
        self.assertEqual(kinds, {"patch": 9, "elf": 12, "jump": 3})
        self.assertTrue(all(field["what"] for field in data["fields"]))

    def test_every_example_is_there_with_what_it_is(self):
        names = {path.stem for path in (TOP / "examples").glob("*.txt")}
        self.assertEqual({one["name"] for one in self.make.data()["examples"]}, names)
        self.assertTrue(all(one["about"] for one in self.make.data()["examples"]))


if __name__ == "__main__":
    unittest.main()
