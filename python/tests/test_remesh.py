"""The whole way over the program, and the command line."""

import contextlib
import csv
import hashlib
import io
import os
import pathlib
import subprocess
import sys
import tempfile
import unittest
from fractions import Fraction

import numpy as np

import quadq
from quadq import Mesh, Names, Program, Refusal, read_obj, remesh, write_obj
from quadq.__main__ import main
from quadq.mesh import join

from .shapes import EXAMPLES, grid, moved, written_by

TWO_FANS = EXAMPLES / "two_fans.obj"
CUBE = EXAMPLES / "cube.obj"
ROOT = pathlib.Path(__file__).resolve().parents[1]
LETTER = EXAMPLES / "letter_q.obj"


def read(path: pathlib.Path) -> Mesh:
    return read_obj(path.read_text())


def arcs_in(mesh: Mesh) -> list:
    """The lines of a mesh by their places, whatever their order and directions."""
    lines = [[tuple(it) for it in mesh.points[line].tolist()] for line in mesh.lines]
    return sorted(min(line, line[::-1]) for line in lines)


class Remesh(unittest.TestCase):
    def test_a_text_is_handed_over_as_the_program_wrote_it(self):
        text = LETTER.read_bytes()
        result = remesh(read(LETTER), scale="1/2", text=text)
        verdict = Program().check(text, result.text)
        self.assertEqual((verdict.faces, verdict.arcs), (result.mesh.face_count, result.report.arcs))
        self.assertEqual(result.report.after.irregular, result.report.before.irregular)
        self.assertEqual(result.report.scale, Fraction(1, 2))

    def test_parts_have_floors_of_their_own(self):
        square = grid(8, 8)
        pair = join([square, moved(read(CUBE), 30)])
        result = remesh(pair, scale=0.25)
        self.assertEqual((result.mesh.face_count, result.report.parts), (4 + 6, 2))
        self.assertIsNone(result.text)
        for part, written in zip(result.parts, result.written):
            self.assertEqual(Program().check(part.text, written.text), written.verdict)

    def test_a_name_of_a_whole_part_stays(self):
        text = write_obj(grid(2, 2)) + "o cube\n" + "".join(
            f"v {x} {y} 5\n" for y in (0, 1) for x in (0, 1)) + "f -4 -3 -1 -2\n"
        mesh = remesh(read_obj(text), scale=2).mesh
        names = [mesh.groups["o"].names[at] for at in mesh.groups["o"].of_face]
        self.assertEqual(names, [""] * 16 + ["cube"] * 4)

    def test_a_number_of_faces(self):
        report = remesh(grid(40, 30), faces=300).report
        self.assertAlmostEqual(report.after.faces, 300, delta=30)
        self.assertEqual(report.warnings == (), abs(report.after.faces - 300) <= 3)

    def test_a_mirrored_half(self):
        mesh = moved(grid(12, 6), -6)
        result = remesh(mesh, scale="1/2", mirror="x")
        self.assertEqual(result.mesh.face_count, 18)
        image = {tuple(it) for it in result.mesh.points * [-1, 1, 1]}
        self.assertEqual(image, {tuple(it) for it in result.mesh.points})

    def test_a_relaxed_mesh(self):
        square = grid(12, 12)
        bent = Mesh(square.points + np.sin(square.points[:, [1]]) * [[0.3, 0, 0]], square.corners, square.starts)
        result = remesh(bent, scale="1/2", relax=3)
        self.assertGreater(result.report.moves, 0)
        self.assertIsNone(result.text)
        self.assertIn("the mesh is relaxed", result.report.warnings[-1])

    def test_edges_of_one_length(self):
        report = remesh(grid(40, 30), edge=2.5).report
        self.assertEqual((report.after.faces, report.after.mean_edge, report.command), (16 * 12, 2.5, "fit"))
        self.assertEqual((report.warnings, report.deviation), ((), None))
        uneven = remesh(grid(3, 40), edge=7).report
        self.assertIn("edges are 5.", uneven.warnings[0])

    def test_sharp_edges_stay(self):
        roof = grid(9, 9)
        roof = Mesh(roof.points + np.abs(roof.points[:, [0]] - 4) * [[0, 0, 1]], roof.corners, roof.starts)
        ridge = {(4.0, float(y)) for y in range(10)}
        result = remesh(roof, scale="1/3", sharp=30)
        line = {tuple(result.mesh.points[it][:2]) for line in result.mesh.lines for it in line.tolist()}
        self.assertEqual({x for x, _ in line}, {4.0})
        self.assertLessEqual(line, ridge)
        self.assertLess(result.report.greatest_distance, 1e-6)
        self.assertGreater(remesh(roof, scale="1/3").report.greatest_distance, 0.1)
        self.assertEqual((result.report.command, result.report.marks), (written_by("crease"), "9 edges: 9 by angle"))

    def test_borders_of_materials_and_lines_stay_in_each_part(self):
        half = grid(8, 4)
        names = Names(("oak", "ash"), (half.points[half.quads].mean(axis=1)[:, 0] > 3).astype(np.int64))
        pair = join([Mesh(half.points, half.corners, half.starts, groups={"usemtl": names}), moved(read(CUBE), 30)])
        result = remesh(pair, scale="1/2", keep=["materials"])
        self.assertEqual([len(it.marks) for it in result.parts], [4, 0])
        self.assertEqual({it[0] for line in result.mesh.lines for it in result.mesh.points[line].tolist()}, {3.0})
        again = remesh(result.mesh, scale=1, keep=["lines"])
        self.assertEqual([it.tolist() for it in again.mesh.points[np.concatenate(again.mesh.lines)]],
                         [it.tolist() for it in result.mesh.points[np.concatenate(result.mesh.lines)]])

    def test_marks_that_are_written_are_marks_again(self):
        for name in ("cube_blender", "letter_q", "cylinder", "torus"):
            first = remesh(read(EXAMPLES / f"{name}.obj"), scale=1, sharp=30).written[0].mesh()
            again = remesh(first, scale=1, keep=["lines"], corners=False).written[0].mesh()
            self.assertEqual(arcs_in(again), arcs_in(first), name)

    def test_corners_stay_and_a_half_is_mirrored(self):
        bent = moved(grid(12, 6), -6)
        points = np.where(bent.points[:, [1]] > 3, bent.points + [0, 0, 4], bent.points)
        result = remesh(Mesh(points, bent.corners, bent.starts), scale="1/2", sharp=30, mirror="x", relax=1)
        whole = {tuple(it) for it in result.mesh.points}
        self.assertEqual(whole, {(0.0 - x, y, z) for x, y, z in whole})
        self.assertEqual(sum(len(it) - 1 for it in result.mesh.lines) % 2, 0)

    def test_merged_patches(self):
        result = remesh(read(LETTER), scale="1/2", coarse=True)
        self.assertEqual((result.report.arcs, result.report.command), (48, written_by("coarse")))
        self.assertEqual(result.report.after.irregular, result.report.before.irregular)
        self.assertRegex(result.text, b"^#quadq 1 (coarse|fit keep none patches merged aim) scale.1/2 floor (1|auto) ")
        ring = remesh(read(EXAMPLES / "torus.obj"), scale="1/2", coarse=True)
        self.assertEqual(set(ring.written[0].certified.floors.tolist()), {3})

    def test_polygons(self):
        text = "v 0 0 0\nv 1 0 0\nv 0 1 0\nv 1 1 0\nf 1 2 3\nf 2 4 3\n"
        with self.assertRaises(Refusal) as caught:
            remesh(read_obj(text), scale=1)
        self.assertEqual((caught.exception.status, caught.exception.faces), (4, (0, 1)))
        result = remesh(read_obj(text), scale=1, subdivide=True)
        self.assertEqual((result.mesh.face_count, result.report.warnings), (6, ()))

    def test_refusals_name_places_of_the_whole(self):
        pair = join([grid(3, 2), read(TWO_FANS)])
        with self.assertRaises(Refusal) as caught:
            remesh(pair, scale=1)
        self.assertEqual((caught.exception.status, caught.exception.vertices), (7, (12,)))
        self.assertTrue(str(caught.exception).startswith("vertex 13: two fans. "))
        turned = grid(2, 2)
        quads = turned.quads.copy()
        quads[3] = quads[3, ::-1]
        with self.assertRaises(Refusal) as caught:
            remesh(join([grid(3, 2), Mesh.of_quads(turned.points, quads)]), scale=1)
        self.assertEqual(caught.exception.faces, (7, 9))

    def test_nothing_and_no_numbers(self):
        with self.assertRaisesRegex(Refusal, "no faces"):
            remesh(Mesh.of_quads(np.zeros((0, 3)), np.zeros((0, 4))), scale=1)
        with self.assertRaises(Refusal):
            remesh(Mesh.of_quads(np.full((4, 3), np.nan), [[0, 1, 2, 3]]), scale=1)
        for wrong in ({}, {"scale": 1, "faces": 2}, {"scale": 0}, {"scale": "1/1001"}, {"faces": 0},
                      {"scale": 1, "floor": 4}, {"scale": 1, "mirror": "w"}, {"scale": 1, "weight": "x"},
                      {"scale": 1, "edge": 1}, {"edge": 0}, {"edge": 1e9}, {"edge": "long"},
                      {"scale": 1, "keep": ["uvs"]}, {"scale": 1, "sharp": -1}):
            with self.assertRaises(ValueError, msg=str(wrong)):
                remesh(grid(1, 1), **wrong)


class CommandLine(unittest.TestCase):
    def test_commands(self):
        self.assertLessEqual({"tidy", "remesh", "crease", "coarse", "size", "map"}, set(Program().commands()))

    def setUp(self):
        room = tempfile.TemporaryDirectory()
        self.addCleanup(room.cleanup)
        self.room = pathlib.Path(room.name)

    def run_words(self, *words):
        out, err = io.StringIO(), io.StringIO()
        with contextlib.redirect_stdout(out), contextlib.redirect_stderr(err):
            status = main([str(it) for it in words])
        return status, out.getvalue(), err.getvalue()

    def test_one_file(self):
        out = self.room / "out.obj"
        status, said, _ = self.run_words(LETTER, out, "--scale", "1/2", "--keep", self.room / "kept")
        self.assertEqual(status, 0)
        self.assertIn("least scaled Jacobian", said)
        Program().check(LETTER.read_bytes(), out.read_bytes())
        self.assertEqual((self.room / "kept/part-1.remeshed.obj").read_bytes(), out.read_bytes())

    def test_reports(self):
        page = self.room / "page.html"
        for source, status in ((CUBE, 0), (TWO_FANS, 7)):
            self.assertEqual(self.run_words(source, self.room / "o.obj", "--scale", "1", "--report", page)[0], status)
            self.assertIn(source.name, page.read_text())

    def test_words_for_features(self):
        out = self.room / "out.obj"
        marked = EXAMPLES / "marked_grid.obj"
        for words, head in (
            (["--scale", "2", "--lines"], "(crease scale 2/1 floor 1|fit keep lines .* floor auto) "),
            (["--scale", "2", "--lines", "--floor", "1"], "crease scale 2/1 floor 1 "),
            (["--faces", "16", "--sharp", "30", "--materials", "--no-corners"], "(crease|fit keep lines) "),
            (["--scale", "2", "--coarse"], "(coarse|fit keep none patches merged) "),
            (["--edge", ".25"], "fit keep none patches traced aim edge:0.25 floor (1|auto) weight"),
        ):
            page = self.room / "page.html"
            status, said, errors = self.run_words(marked, out, *words, "--report", page)
            # On a slow machine the progress is told.
            told = [it for it in errors.splitlines() if "warning" in it]
            lost = [] if "--lines" in words else [
                "quadq-remesh: warning: 1 line was dropped: --lines keeps those along edges"]
            self.assertEqual((status, told), (0, lost), words)
            self.assertRegex(out.read_text(), f"^#quadq 1 {head}", words)
            self.assertRegex(page.read_text(), "accepted by <code>quadq (map|check)</code>")
        self.assertIn("wished length of edges", said)

    def test_version(self):
        with self.assertRaises(SystemExit) as ended, contextlib.redirect_stdout(io.StringIO()) as said:
            main(["--version"])
        digest = hashlib.sha256(Program().path.read_bytes()).hexdigest()
        self.assertEqual(ended.exception.code, 0)
        self.assertEqual(quadq.__version__, (EXAMPLES.parent / "VERSION").read_text().strip())
        self.assertEqual(said.getvalue().splitlines(), [
            f"quadq-remesh {quadq.__version__}", f"program {Program().path}", f"SHA-256 {digest}"])

    def test_the_program_that_is_named_is_the_one_that_runs(self):
        here, other = self.room / "here", self.room / "other"
        for folder, text in ((here, f'#!/bin/sh\nexec {Program().path} "$@"\n'), (other, "#!/bin/sh\nexit 9\n")):
            folder.mkdir()
            (folder / "quadq").write_text(text)
            (folder / "quadq").chmod(0o755)
        digest = hashlib.sha256((here / "quadq").read_bytes()).hexdigest()
        way = f"{other}:{os.environ['PATH']}"
        for named in ("./quadq", "quadq"):
            ran = [subprocess.run([sys.executable, "-m", "quadq", *words], cwd=here, capture_output=True, check=False,
                                  text=True, env={**os.environ, "PYTHONPATH": str(ROOT), "QUADQ": named, "PATH": way})
                   for words in ((CUBE, "out.obj", "--scale", "1/2"), ("--version",))]
            self.assertEqual([it.returncode for it in ran], [0, 0], ran[0].stderr)
            self.assertEqual(ran[1].stdout.splitlines()[1:], [f"program {here / 'quadq'}", f"SHA-256 {digest}"])

    def test_wrong_words_are_told_by_the_name_of_the_command(self):
        with self.assertRaises(SystemExit), contextlib.redirect_stderr(io.StringIO()) as said:
            main(["--scale", "1/2"])
        self.assertTrue(said.getvalue().startswith("usage: quadq-remesh IN.obj OUT.obj "), said.getvalue())

    def test_a_refused_file_leaves_nothing(self):
        out = self.room / "out.obj"
        status, _, said = self.run_words(TWO_FANS, out, "--faces", "9", "--quiet")
        self.assertEqual((status, list(self.room.iterdir())), (7, []))
        self.assertTrue(said.startswith("quadq-remesh: vertex 1: two fans. "), said)
        wrong = self.room / "wrong.obj"
        wrong.write_text("v 0 0 0\nv 1 0,5 0\n")
        status, _, said = self.run_words(wrong, out, "--scale", "1", "--quiet")
        self.assertEqual((status, said), (3, "quadq-remesh: line 2: not an OBJ line of this profile\n"))
        self.assertEqual(self.run_words(self.room / "no.obj", out, "--scale", "1")[0], 12)
        self.assertEqual(self.run_words(CUBE, self.room / "no/out.obj", "--scale", "1")[0], 13)

    def test_many_files(self):
        table = self.room / "table.csv"
        status, said, errors = self.run_words(
            EXAMPLES, "--out", self.room / "half", "--scale", "1/2", "--jobs", "2", "--table", table)
        names = sorted(it.name for it in EXAMPLES.glob("*.obj"))
        self.assertEqual(status, 1)
        self.assertIn("two_fans.obj: vertex 1: two fans", errors)
        self.assertEqual(sorted(it.name for it in (self.room / "half").iterdir()), sorted({*names} - {"two_fans.obj"}))
        self.assertTrue(said.endswith("\n") and f"{len(names) - 1} files remeshed, 1 refused" in said)
        rows = list(csv.DictReader(table.read_text().splitlines()))
        self.assertEqual([pathlib.Path(it["file"]).name for it in rows], names)
        self.assertEqual({it["status"] for it in rows}, {"0", "7"})

    def test_other_formats(self):
        try:
            import meshio
        except ImportError:
            self.skipTest("meshio is not here")
        mesh = grid(4, 4)
        path = self.room / "grid.vtk"
        meshio.write_points_cells(str(path), mesh.points, [("quad", mesh.quads)])
        self.assertEqual(self.run_words(path, self.room / "out.obj", "--scale", "1/2")[0], 0)
        self.assertEqual(read(self.room / "out.obj").face_count, 4)

    def test_wrong_words(self):
        for words in ((CUBE, "--scale", "1"), (CUBE, CUBE, CUBE, "--scale", "1"), (CUBE, "x.obj", "--scale", "0"),
                      (EXAMPLES, "--out", EXAMPLES, "--scale", "1"),
                      (CUBE, "x.obj", "--edge", "one"),
                      (CUBE, "--out", "x", "--scale", "1", "--report", "x.html")):
            self.assertEqual(self.run_words(*words)[0], 2, words)


if __name__ == "__main__":
    unittest.main()
