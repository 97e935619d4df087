"""What tools/definitions reads: the definitions of files, with their comments, and which of them clauses rest on."""

import pathlib
import tempfile
import unittest

import common  # noqa: F401  (the tools' folder is found by it)
from armcaps_tools import theorem
from armcaps_tools.contracts import Citations, definitions_of

SPECS = """-- What users see.
use Rattle.std.specs.Prelude.{ℕ}
pub use Rattle.one.specs.Other.{passed}

-- the words that a user
-- reads
abbrev pub user_words : ℕ → ℕ
user_words n = user_word n

abbrev user_word : ℕ → ℕ
user_word n = used n

-- a comment of nothing

unfoldable pub used : ℕ → ℕ
used 0 = 0
used n = n

-- what is opened
abbrev pub opened : ℕ → ℕ
opened n = n

-- what users have
pub record UsersHave (n : ℕ) : Type 0 where
  -- each of them
  pub each : opened n ≡ n

-- a pair of numbers
pub record Pair : Type 0 where
  pub low : ℕ
  pub high : ℕ

abbrev pair : ℕ → ℕ → Pair
pair low high = record { low = low; high = high }

abbrev pub other_pair : ℕ → ℕ → Pair
other_pair low high = pair high low
"""
CODE = """pub fn user(n: u32) -> u32
    ensures { result ≡ user_words n }
{
    n
}
"""


class Reader(unittest.TestCase):
    def setUp(self):
        folder = tempfile.TemporaryDirectory()
        self.addCleanup(folder.cleanup)
        self.top = pathlib.Path(folder.name)
        specs, source = self.top / "crates/one/specs", self.top / "crates/one/src"
        specs.mkdir(parents=True)
        source.mkdir()
        (self.top / "crates.txt").write_text("one:\n", encoding="utf-8")
        (specs / "Users.antt").write_text(SPECS, encoding="utf-8")
        (source / "lib.rt").write_text("pub use user::user;\n", encoding="utf-8")
        uses = "ghost use Rattle.one.specs.Users.{user_words};\n\n"
        (source / "user.rt").write_text(uses + CODE, encoding="utf-8")
        self.file = specs / "Users.antt"

    def test_comments_are_those_directly_above(self):
        found = {one.name: one.comment for one in definitions_of(self.file, "one")}
        self.assertEqual(
            found,
            {
                "user_words": "the words that a user reads",
                "user_word": "",
                "used": "",
                "opened": "what is opened",
                "UsersHave": "what users have",
                "Pair": "a pair of numbers",
                "pair": "`Pair` of its parts: a pair of numbers",
                "other_pair": "",
            },
        )

    def test_names_that_begin_like_an_import(self):
        """An equation of `user_words` is none of a `use` line, and what it cites has to be believed."""
        citations = Citations(self.top)
        believed = {name for _, _, name in citations.closure(citations.calls)}
        self.assertEqual(believed, {"user_words", "user_word", "used"})

    def test_what_a_definition_rests_on_follows_it(self):
        found = theorem.in_order(Citations(self.top), ("one", "Users", "user_words"))
        self.assertEqual([one.name for one in found.values()], ["user_words", "user_word", "used"])
        self.assertEqual(theorem.lines_of(found["one", "Users", "used"])[1:], ["used 0 = 0", "used n = n"])


if __name__ == "__main__":
    unittest.main()
