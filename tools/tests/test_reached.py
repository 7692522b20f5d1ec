"""Which lines of proofs tools/measure_proofs counts for functions of an earlier revision."""

import pathlib
import sys
import tempfile
import unittest

sys.path.insert(0, str(pathlib.Path(__file__).resolve().parents[1]))

from reached import imports_in, lines_for  # noqa: E402

LEMMAS = """-- Three lemmas.
use Rattle.std.proofs.Common.{◌≡◌, ℕ}
use Rattle.std.proofs.Common.{◌<◌}

-- It is named by an answer.
pub old : (n : ℕ) → n ≡ n
old n = deep n

deep : (n : ℕ) → n ≡ n
deep n = refl

-- No goal of an old function leads to it.
pub new : (n : ℕ) → n < n
new n = old n
"""
FILES = {
    "a/src/lib.rt": "fn first() {}\n#[tactic(auto, using(crate::proofs::More::told))]\nfn third() {}\nfn second() {}\n",
    "a/proofs/Lib.antt": "pub mod Lemmas\npub mod More\n",
    "a/proofs/Lemmas.antt": LEMMAS,
    "a/proofs/More.antt": "pub told : ℕ\ntold = 3\n",
    "a/proofs/Last.antt": "-- Nothing of it is named.\n\npub last : ℕ\nlast = 3\n",
    "a/proofs/first/Answers.antt": "use Rattle.{a.proofs.{Lemmas.old}}\n\npub ends : goal.ends\nends c = old\n",
    "b/proofs/second/Answers.antt": "use Rattle.a.proofs.Lemmas.new\n\npub ends : goal.ends\nends c = new\n",
}


class Reached(unittest.TestCase):
    def lines(self, *functions: str) -> int:
        with tempfile.TemporaryDirectory() as folder:
            for name, text in FILES.items():
                path = pathlib.Path(folder, "crates", name)
                path.parent.mkdir(parents=True, exist_ok=True)
                path.write_text(text, encoding="utf-8")
            return lines_for(pathlib.Path(folder), set(functions))

    def test_what_goals_lead_to_counts(self) -> None:
        # Of Lemmas, what only the second function reads and the import for it are left out.
        self.assertEqual(self.lines("first"), 4 + (14 - 4 - 1))

    def test_a_lemma_that_another_names_counts(self) -> None:
        self.assertEqual(self.lines("second"), 4 + 14)

    def test_what_an_attribute_names_counts(self) -> None:
        self.assertEqual(self.lines("third"), 2)

    def test_nothing_counts_for_no_function(self) -> None:
        self.assertEqual(self.lines(), 0)

    def test_imports_are_read_with_braces_in_braces(self) -> None:
        text = "use Rattle.{a.b.{C, D.{e, f as g}},\n  h.I}\nuse Rattle.j as k\n"
        self.assertEqual([*imports_in(text)], [f"Rattle.{it}" for it in ("a.b.C", "a.b.D.e", "a.b.D.f", "h.I", "j")])
