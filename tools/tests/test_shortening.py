"""What tools/shorten_proofs reads of files of proofs, and how it writes their lines."""

import pathlib
import sys
import tempfile
import unittest

sys.path.insert(0, str(pathlib.Path(__file__).resolve().parents[1]))

from shortening.lines import refilled  # noqa: E402
from shortening.terms import Terms, bound_in, declarations, heads_in  # noqa: E402
from shortening.trial import Edit, Proofs, edited, imported, outermost, renamed  # noqa: E402
from shortening.unneeded import fewer_facts, fewer_lets, unread  # noqa: E402

FILE = """-- Two lemmas.
use Rattle.std.proofs.Common.{◌≡◌, ℕ, zero, suc}

pub low : (n : ℕ) → n < 3
    → n ≤ 3
low zero l = omega arith
low (suc n) l =
    let less : n < 3 = step (suc n) (omega arith) l in
    record {
      is = less;
      by = elim (cases n) [
        | inl e ↦ (e, refl)
        | inr ne ↦ high
            (suc n)
            less
      ]
    }
  where
    step : (k : ℕ) → n < k
    step k = omega arith

-- The other.
high : ℕ
high = 3
""".split("\n")


class Read(unittest.TestCase):
    def setUp(self):
        self.low, self.high = declarations(FILE)

    def test_declarations(self):
        self.assertEqual((self.low.name, self.low.first, self.low.clauses, self.low.end), ("low", 3, 5, 20))
        self.assertEqual(self.low.names, {"low": 0, "step": 4})
        self.assertEqual(self.high.lines, ["high : ℕ", "high = 3"])

    def test_right_sides(self):
        rights = [self.low.text[it.start : it.end].strip() for it in self.low.rights()]
        self.assertEqual([it.split()[0] for it in rights], ["omega", "let", "omega"])
        self.assertTrue(rights[1].endswith("}"))

    def test_terms_and_calls(self):
        right = list(self.low.rights())[1]
        terms = Terms(self.low.text[right.start : right.end]).read()
        found = {(it.kind, " ".join(terms.text[it.start : it.end].split())) for it in terms.spans}
        self.assertIn(("value of a let", "step (suc n) (omega arith) l"), found)
        self.assertIn(("field", "less"), found)
        self.assertIn(("branch", "high (suc n) less"), found)
        self.assertIn(("part", "refl"), found)
        calls = {it.name: [terms.text[a:b] for a, b in it.arguments] for it in terms.calls}
        self.assertEqual(calls["step"], ["(suc n)", "(omega arith)", "l"])
        self.assertEqual(calls["high"], ["(suc n)", "less"])

    def test_names_that_a_term_binds(self):
        text = "let (a, b) = f x in elim (cases n) [ inl e ↦ λ (k : ℕ). k | inr ne ↦ b.0 ]"
        self.assertTrue({"a", "b", "e", "k", "ne"} <= bound_in(text))
        self.assertFalse({"f", "x", "cases", "n"} & bound_in(text))
        self.assertEqual(heads_in("(b.0 e)"), {"b", "e"})


class Unneeded(unittest.TestCase):
    def without(self, text, word):
        terms = Terms(text)
        at = next(number for number, (found, _, _) in enumerate(terms.tokens) if found == word)
        changes = fewer_lets(terms, at) if word == "let" else fewer_facts(terms, at)
        return [text[:start] + put + text[end:] for start, end, put in changes]

    def test_facts(self):
        self.assertEqual(self.without("f (cc (a, b 1))", "cc"), [])
        self.assertEqual(self.without("omega (arith, a 1)", "omega"), ["omega arith"])
        self.assertEqual(self.without("omega (arith, a 1, b)", "omega"), ["omega (arith, b)", "omega (arith, a 1)"])
        self.assertEqual(self.without("cc (a, b, c)", "cc"), ["cc (b, c)", "cc (a, c)", "cc (a, b)"])

    def test_lets(self):
        self.assertEqual(self.without("let a : n < 3 = low in search rules", "let"), ["search rules"])
        self.assertEqual(self.without("let a = low n in f a.1 n", "let"), ["f (low n).1 n"])
        self.assertEqual(self.without("let a = low n in f a a", "let"), [])
        self.assertEqual(self.without("let a = low n in λ n. f a", "let"), [])
        self.assertEqual(self.without("let a = search rules in f a", "let"), [])

    def test_lemmas_that_nothing_names(self):
        with tempfile.TemporaryDirectory() as room:
            path = pathlib.Path(room) / "crates" / "two" / "proofs" / "Two.antt"
            path.parent.mkdir(parents=True)
            path.write_text("\n".join(FILE))
            self.assertEqual(list(unread(pathlib.Path(room), [path])), [(path, 4, "low")])


class Written(unittest.TestCase):
    def setUp(self):
        self.low, self.high = declarations(FILE)

    def test_lines_are_filled(self):
        lines = refilled(self.low, self.low.lines)
        self.assertEqual(lines[:5], self.low.lines[:5])
        self.assertEqual(
            lines[5], "    record { is = less; by = elim (cases n) [ inl e ↦ (e, refl) | inr ne ↦ high (suc n) less ] }"
        )
        self.assertEqual(lines[6:], self.low.lines[-3:])

    def test_wide_lines_are_broken(self):
        wide = ["high = f " + " ".join(f"(an_argument {n})" for n in range(12))]
        lines = refilled(self.high, wide)
        self.assertEqual(len(lines), 2)
        self.assertLessEqual(max(map(len, lines)), 120)
        self.assertEqual(" ".join(line.strip() for line in lines), wide[0])

    def test_texts_are_not_broken(self):
        wide = ["high = " + " ++ ".join('codes "a text of many words"' for n in range(5))]
        lines = refilled(self.high, wide)
        self.assertEqual([line.count('"') % 2 for line in lines], [0, 0])

    def test_edits(self):
        path = pathlib.Path("A.antt")
        search, blank = Edit(path, 0, 7, 8, ("low",)), Edit(path, 0, 0, 4, None)
        self.assertEqual(edited("high = 3", [search, blank]), "_ = search (rules, low)")
        self.assertEqual(outermost([search, Edit(path, 0, 5, 8, ())]), [Edit(path, 0, 5, 8, ())])

    def test_one_fact_that_is_left_stands_without_brackets(self):
        text, path = "cc (a,\n  b, c)", pathlib.Path("A.antt")
        drops = [Edit(path, 0, start, end, (), other=put) for start, end, put in fewer_facts(Terms(text), 0)]
        self.assertEqual(edited(text, drops[:2]), "cc c")

    def test_tactics(self):
        grind = Edit(pathlib.Path("A.antt"), 0, 7, 8, ("common_steps",), "grind")
        self.assertEqual(edited("high = 3", [grind], is_bounded=True)[7:], "grind (arith, common_steps) steps 250000")
        lines, shift = imported(["-- The rules.", FILE[1], "", "high = grind (arith, common_steps)"])
        self.assertEqual(shift, 1)
        self.assertEqual(lines[1], "use Rattle.std.proofs.lemmas.Grind.{common_steps}")
        self.assertEqual(lines[2], "use Rattle.std.proofs.Common.{arith, ◌≡◌, ℕ, zero, suc}")
        self.assertEqual(imported(["low = omega arith"])[0][0], "use Rattle.std.proofs.Common.{arith}")

    def test_copies_have_a_name_of_their_own(self):
        copy = renamed(self.low, "pub low : (low_of, low)", "tried1_low")
        self.assertEqual(copy, "tried1_low : (low_of, tried1_low)")


class Tried(unittest.TestCase):
    """What is said of trials, with a check that refuses what each test tells it to."""

    def setUp(self):
        room = tempfile.TemporaryDirectory()
        self.addCleanup(room.cleanup)
        self.path = pathlib.Path(room.name) / "Two.antt"
        self.path.write_text("\n".join(FILE))
        self.proofs = Proofs(self.path.parent, [self.path], {"step"})
        self.tactics = list(self.proofs.files[self.path].tactics())
        self.low = next(first for first, _, _ in self.tactics if first.facts)
        self.texts = []

    def check_says(self, *answers):
        answers = iter(answers)

        def check():
            self.texts.append(self.path.read_text())
            return [(self.path, *error) for error in next(answers)]

        self.proofs.check = check

    def test_grind_has_the_calls_of_a_term_as_far_as_they_bind_nothing(self):
        _, grind, search = self.tactics[0]
        self.assertEqual(grind.facts, ("common_steps", "step (suc n)", "cases n"))
        self.assertEqual(search.text(), "search (rules, step (suc n), cases n)")

    def test_copies_of_lemmas_stand_in_modules_of_their_own(self):
        folder = self.path.parent / "proofs"
        folder.mkdir()
        library, path = folder / "Lib.antt", folder / "Two.antt"
        library.write_text("mod Two\n")
        path.write_text("\n".join(FILE))
        proofs = Proofs(self.path.parent, [path], {"step"})
        low = next(first for first, _, _ in proofs.files[path].tactics() if first.facts)
        own, seen = folder / "Tried0.antt", []

        def check():
            seen.append((library.read_text(), "tried1_low" in own.read_text(), path.read_text()))
            return [(own, own.read_text().split("\n").index("tried0_low : (n : ℕ) → n < 3") + 1, "no proof")]

        proofs.check = check
        self.assertEqual(proofs.holding([[low], [low]]), {1})
        self.assertEqual(seen, [("mod Tried0\nmod Two\n", True, "\n".join(FILE))])
        self.assertEqual((library.read_text(), own.exists()), ("mod Two\n", False))

    def test_what_is_refused_by_name_does_not_hold(self):
        self.check_says([(1, "`tried1_low`: no proof")])
        self.assertEqual(self.proofs.holding([[self.low], [self.low]]), {0})
        self.assertIn("tried0_low (suc n) l =", self.texts[0])
        self.assertEqual(self.path.read_text(), "\n".join(FILE))

    def test_the_others_of_an_unread_file_are_tried_again(self):
        line = next(n for n, text in enumerate(FILE, 1) if text.startswith("    step k")) + 1
        self.check_says([(line, "expected `)`")], [])
        self.assertEqual(self.proofs.holding([[self.low], [self.low]]), {1})
        self.assertNotIn("tried0_low", self.texts[1])

    def test_where_a_file_is_unread_for_no_copy_nothing_of_it_holds(self):
        self.check_says([(1, "expected a declaration")])
        self.assertEqual(self.proofs.holding([[self.low], [self.low]]), set())


if __name__ == "__main__":
    unittest.main()
