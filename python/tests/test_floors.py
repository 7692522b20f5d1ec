"""Floors that rise: as certificates have them, by need where the program has rounds, and in words."""

import json
import pathlib
import tempfile
import unittest
from dataclasses import replace
from fractions import Fraction

import numpy as np

from quadq import Program, Refusal, read_obj, remesh
from quadq.__main__ import main
from quadq.floors import Floors, certified_lengths
from quadq.mesh import join
from quadq.notices import at_the_floor, why_no_shorter
from quadq.program import AUTO, Wish
from quadq.report import result_page

from .shapes import EXAMPLES, grid, moved, without_rounds
from .test_notices import band

WITH_ROUNDS = unittest.skipUnless(Program().has_rounds(), "this program has no rounds of floors")
FIT = b"#quadq 1 fit keep none patches traced aim scale:1/2 floor auto weight plain spacing even\nv 0 0 0\nf 1 1 1 1\n"
HALF = Fraction(1, 2)


class Texts(unittest.TestCase):
    def look(self, text: bytes, lengths: list, floors: list, rounds: int) -> None:
        found = certified_lengths(text)
        self.assertEqual((found.lengths.tolist(), found.floors.tolist(), found.rounds), (lengths, floors, rounds))

    def test_floors_are_those_of_each_arc(self):
        self.look(b"#quadq 1 remesh scale 1/2 floor 2 weight plain\nf 1 2 3 4\n#x 2\n#x 4\n#y 0 0\n", [2, 4], [2, 2], 1)
        auto = b"#quadq 1 remesh scale 1/2 floor auto weight plain\nf 1 2 3 4\n#f 1\n#x 1\n#x 4\n#y 0 0\n"
        self.look(auto, [1, 4], [1, 1], 1)
        self.look(auto + b"#f 3\n#x 3\n#x 4\n#y 0 0\n", [3, 4], [3, 3], 2)

    def test_those_of_rounds_rise_one_after_the_other(self):
        first = FIT + b"#f 1\n#x 1\n#x 1\n#x 5\n#y 0 0\n"
        self.look(first, [1, 1, 5], [1, 1, 1], 1)
        second = first + b"#r 1 2\n#r 2 2\n#x 2\n#x 2\n#x 5\n#y 0 0\n"
        self.look(second, [2, 2, 5], [2, 2, 1], 2)
        self.look(second + b"#r 2 3\n#x 2\n#x 3\n#x 4\n#y 0 0\n", [2, 3, 4], [2, 3, 1], 3)

    def test_no_other_text_has_any(self):
        with self.assertRaises(Refusal):
            certified_lengths(b"v 0 0 0\n")

    def test_what_is_said_of_them_is_true(self):
        found = [certified_lengths(FIT + b"#f 1\n#x 1\n#x 1\n#x 5\n#r 1 2\n#x 2\n#x 1\n#x 5\n")]
        some = Floors.of(found, True)
        self.assertEqual(some, Floors(3, 2, 1, 2, 2))
        self.assertEqual(some.in_words, "1 of 3, to 2 at most, in 2 rounds")
        self.assertEqual(why_no_shorter(some), "with the floor 1 an edge would be there twice, so 1 of 3 arcs have a "
                         "floor of up to 2, and arcs cannot be shorter")
        self.assertRegex(at_the_floor(some), "^2 of 3 arcs are as short as the floor allows: with the floor 1 an edge")
        self.assertIn("so all arcs have", why_no_shorter(replace(some, raised=3)))
        asked = Floors.of([certified_lengths(b"#quadq 1 remesh scale 1/2 floor 3 weight plain\n#x 3\n")], False)
        self.assertEqual((asked.in_words, why_no_shorter(asked)), ("", "arcs cannot be shorter than the floor 3"))
        self.assertEqual(at_the_floor(asked), "1 of 1 arcs are as short as the floor allows")
        self.assertEqual(Floors.of([], True), Floors())


@WITH_ROUNDS
class Rounds(unittest.TestCase):
    def test_floors_rise_only_where_an_edge_would_be_there_twice(self):
        tube = band(4, 1)
        result = remesh(tube, scale=HALF)
        report = result.report
        with without_rounds():
            other = remesh(tube, scale=HALF).report
        self.assertEqual((other.command, other.after.faces, other.arcs_raised, other.rounds), ("remesh", 9, 3, 2))
        self.assertEqual((report.command, report.after.faces, report.arcs_raised, report.rounds), ("fit", 3, 2, 2))
        self.assertEqual(sorted(result.written[0].certified.floors.tolist()), [1, 3, 3])
        self.assertIn(("floors that rose", "2 of 3, to 3 at most, in 2 rounds"), report.facts())
        self.assertEqual([it.kind for it in report.notices if it.kind == "more-faces"], [])

    def test_what_is_written_is_judged_by_check_and_as_a_remesh_where_no_edge_is_doubled(self):
        mesh = read_obj((EXAMPLES / "letter_q.obj").read_text())
        result = remesh(mesh, scale=HALF)
        program, part = result.program, result.parts[0]
        self.assertEqual(program.check(part.text, result.text), result.written[0].verdict)
        alone = program.remesh(part.text, Wish(HALF))
        self.assertEqual(result.text.partition(b"\n")[2], alone.partition(b"\n")[2])
        self.assertEqual((result.report.is_checked, result.report.arcs_raised, result.report.rounds), (True, 0, 1))
        self.assertNotIn("floors that rose", dict(result.report.facts()))
        sharp = remesh(band(4, 1), scale=HALF, keep=["lines"], coarse=True).report
        self.assertEqual((sharp.command, sharp.is_checked), ("fit", True))
        self.assertLess(sharp.after.faces, 9)

    def test_commands_by_name_and_floors_that_are_asked_for_stay(self):
        program, text = Program(), remesh(band(4, 1), scale=1).parts[0].text
        for command in ("remesh", "crease", "coarse"):
            wrote = program.remesh(text, Wish(HALF, command=command))
            self.assertTrue(wrote.startswith(f"#quadq 1 {command} ".encode()))
            self.assertEqual(set(certified_lengths(wrote).floors.tolist()), {3})
        report = remesh(band(4, 1), scale=HALF, floor="3").report
        self.assertEqual((report.command, report.arcs_raised, report.greatest_floor), ("remesh", 0, 3))
        self.assertEqual(program.best(Wish(HALF, 3, command="crease")).command, "crease")
        kept = program.best(Wish(HALF, AUTO, command="crease")), program.best(Wish(HALF, AUTO, command="coarse"))
        self.assertEqual([(it.command, it.keeps, it.is_merged) for it in kept],
                         [("fit", True, False), ("fit", False, True)])

    def test_small_parts_stay_together_and_none_is_finer_for_another(self):
        pieces = [moved(band(4, 1) if at % 3 else grid(4, 2), 10 * at) for at in range(40)]
        for wishes in ({"scale": HALF}, {"scale": HALF, "coarse": True}, {"edge": 3}):
            result = remesh(join(pieces), **wishes)
            self.assertEqual((len(result.parts), result.report.parts), (1, 40), wishes)
            alone = [remesh(it, **wishes).report for it in pieces[:2]]
            many = [14, 26]
            self.assertEqual(result.mesh.face_count, sum(n * it.after.faces for n, it in zip(many, alone)), wishes)
            self.assertEqual(result.report.arcs_raised, sum(n * it.arcs_raised for n, it in zip(many, alone)), wishes)

    def test_a_number_is_reached_that_floors_of_all_arcs_would_not_allow(self):
        report = remesh(band(4, 1), faces=3).report
        self.assertEqual((report.after.faces, report.because), (3, ""))
        fewer = remesh(band(4, 1), faces=2, mode="scale").report
        self.assertEqual(fewer.after.faces, 3)
        self.assertRegex(fewer.because, "an edge would be there twice, so 2 of 3 arcs have a floor of up to 3")

    def test_it_is_said_in_reports_logs_and_tables(self):
        result = remesh(band(4, 1), scale=HALF)
        told = json.loads(json.dumps(result.report.as_json()))
        names = ("arcs_at_floor", "arcs_raised", "greatest_floor", "rounds")
        self.assertEqual([told[it] for it in names], [3, 2, 3, 2])
        page = result_page("tube", result, result.program)
        self.assertIn("2 of 3, to 3 at most, in 2 rounds", page)
        self.assertIn("accepted by <code>quadq check</code>", page)
        with tempfile.TemporaryDirectory() as folder:
            room = pathlib.Path(folder)
            (room / "tube.obj").write_bytes(result.parts[0].text)
            words = [str(room / "tube.obj"), "--out", str(room / "out"), "--log", str(room / "log"), "--table",
                     str(room / "table.csv"), "--scale", "1/2", "--quiet"]
            self.assertEqual(main(words), 0)
            row = json.loads((room / "log").read_text())
            self.assertEqual((row["arcs_raised"], row["rounds"], row["deviation"]), (2, 2, 5))
            self.assertIn("arcs whose floor rose,rounds", (room / "table.csv").read_text())

    def test_the_lengths_of_the_last_round_are_those_of_the_mesh(self):
        result = remesh(band(4, 1), scale="1/10")
        self.assertEqual(result.report.rounds, 3)
        self.assertEqual(int(np.prod(np.sort(result.written[0].lengths)[1:])), 3 * result.mesh.face_count)


if __name__ == "__main__":
    unittest.main()
