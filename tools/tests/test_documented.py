"""What tools/documents finds in documents that are spoilt."""

import pathlib
import sys
import unittest

ROOT = pathlib.Path(__file__).resolve().parents[2]
sys.path.insert(0, str(ROOT / "tools"))
from documented import commands, limits, names, promises  # noqa: E402


class Spoilt(unittest.TestCase):
    def told_of(self, faults_of, file, old, new):
        """What is found in a document with one text exchanged; as it is, nothing."""
        text = limits.text_of(file)
        self.assertIn(old, text)
        self.assertEqual(list(map(str, faults_of(text))), [])
        return " ".join(it.what for it in faults_of(text.replace(old, new, 1)))

    def test_limits_are_the_constants(self):
        known = limits.constants()
        for file, old, new, told in (
            (limits.README, "larger than 512 MiB", "larger than 513 MiB", "MAX_BYTES makes this 536870912"),
            (limits.README, "262,144 patches", "262,145 patches", "MAX_TANGLE makes this 262144"),
            (limits.TEXT, "more than 2^21", "more than 2^22", "MAX_V_LINES makes this 2097152"),
            (limits.FIT, "4,000,000,000 thousandths", "400,000,000 thousandths", "MAX_TARGETS makes this 4000000000"),
            (limits.PROMISES, "65,537 bytes", "65,536 bytes", "MAX_LINE makes this 65537"),
            (limits.MAN_PAGE, "from 1 to 10,000", "from 1 to 1000", "MAX_SIZE makes this 10000"),
            (limits.README, "is above 33,554,432", "is over 33,554,432", "33,554,432 is no limit"),
        ):
            with self.subTest(new):
                self.assertIn(told, self.told_of(lambda it: limits.faults_of(file, it, known), file, old, new))
        found = list(limits.faults_of(limits.TEXT, limits.text_of(limits.TEXT), {**known, "MAX_F_LINES": 2**20 - 1}))
        self.assertEqual([it.what for it in found], ["MAX_F_LINES makes this 1048575, and here it is 2^20"])

    def test_what_the_usage_line_leaves_out_is_said(self):
        known = commands.by_definition()
        for file in (limits.README, limits.MAN_PAGE):
            text = file.read_text()
            self.assertEqual(commands.left_out(text, known), commands.UNNAMED)
            at = text.index("leaves out")
            self.assertNotEqual(commands.left_out(text[:at] + text[at:].replace("fit", "", 1), known), commands.UNNAMED)

    def test_names_are_defined_where_the_link_points(self):
        def found(text):
            return [*names.faults_of_links(file, text), *names.faults_of_cells(file, text)]

        for file, old, new, told in (
            (limits.PROMISES, "| `IsAcceptedLine`,", "| `IsAnyLine`,", "no definition `IsAnyLine`"),
            (limits.PROMISES, "`HoldsSize`, in [", "`HoldsSizes`, in [", "no definition `HoldsSizes`"),
            (limits.PROMISES, "[`RunsTo`]", "[`RunTo`]", "`RunTo` is not in ../crates/def_run/specs/Exits.antt"),
            (limits.README, "`HasLeastLengths`", "`HaveLeastLengths`", "no definition `HaveLeastLengths`"),
            (limits.README, "[`layout_law`]", "[`layouts_law`]", "`layouts_law` is not in crates/existence_laws/"),
            (limits.FIT, "[`one_cut_law`, ", "[`one_cuts_law`, ", "`one_cuts_law` is not in ../crates/patch_laws"),
        ):
            with self.subTest(new):
                self.assertIn(told, self.told_of(found, file, old, new))

    def test_promises_have_clauses_and_edits(self):
        for old, new, told in (
            ("Refused: `first_lengths_written`", "Refused: `others`", "there is no edit others in qm_top"),
            ("| `other_multiple` |", "| `same_multiple` |", "there is no edit same_multiple in qm_top"),
            ("`qm_net/must-fail`", "`qm_dart/must-fail`", "there is no edit qm_dart in qm_dart"),
            (": `usage`, `ran` |", ": `usage`, `runs` |", "`run` has no clause `runs`"),
            (": `small`, `tangled`. ", ": `small`, `large`. ", "`net_of` has no clause `large`"),
            ("[`no_fold_law`]", "[`no_folds_law`]", "`no_folds_law` is no public function or type there"),
            ("| each contract | | proved", "| | | proved", "nothing that is linked has a clause"),
        ):
            with self.subTest(new):
                self.assertIn(told, self.told_of(promises.faults_in, limits.PROMISES, old, new))


if __name__ == "__main__":
    unittest.main()
