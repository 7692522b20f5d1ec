"""Wishes by shape and wishes together, over a program that has `fit`."""

import contextlib
import io
import pathlib
import tempfile
import unittest
from unittest import mock

import numpy as np

import quadq
from quadq import Mesh, Program, Settings, WishError, read_obj, remesh, write_obj
from quadq.__main__ import main
from quadq.features import mark_features
from quadq.mesh import join

from .shapes import EXAMPLES, drum, grid, moved, plate
from .test_layout import one_layout

HAS_FIT = Program().has_fit()
WITH_FIT = unittest.skipUnless(HAS_FIT, "this program has no command `fit`")


def bent_sheet(count: int = 66) -> Mesh:
    """A sheet of so many squares along each side, which is rolled at one end."""
    mesh = grid(count, count)
    x = mesh.points[:, 0] / count
    turn = np.maximum(x - 0.5, 0) * 6
    along = np.minimum(x, 0.5) + np.sin(turn) / 6
    return Mesh.of_quads(np.column_stack([along, mesh.points[:, 1] / count, (1 - np.cos(turn)) / 6]), mesh.quads)


def distance(mesh: Mesh, **wishes) -> tuple:
    report = remesh(mesh, **wishes).report
    return report.greatest_distance, (report.to_old.mean + report.to_new.mean) / 2, report


@WITH_FIT
class ByShape(unittest.TestCase):
    def test_faces_go_where_a_sheet_bends(self):
        mesh = bent_sheet()
        wished = mesh.face_count // 9
        _, before, _ = distance(mesh, faces=wished, mode="scale")
        _, after, report = distance(mesh, faces=wished)
        self.assertLess(5 * after, before)
        self.assertLessEqual(abs(report.after.faces - wished), 0.01 * wished + 1)
        self.assertEqual((report.way, report.command, report.scale), ("by shape", "fit", None))
        self.assertIn("by shape", report.summary())

    def test_a_thin_rod_gives_its_faces_to_the_round(self):
        rod = drum(24, 80)
        rod = Mesh.of_quads(rod.points * [1, 20, 1], rod.quads)
        mesh = remesh(rod, faces=240).mesh
        self.assertEqual(len(np.unique(mesh.points[mesh.points[:, 1] > 19.99].round(6), axis=0)), 24)

    def test_what_comes_out_is_never_worse_than_one_scale(self):
        for mesh in (read_obj((EXAMPLES / "letter_q.obj").read_text()), drum(is_round=True), plate()):
            for share in (2, 5, 12):
                wished = max(1, mesh.face_count // share)
                by_scale = distance(mesh, faces=wished, mode="scale")[2]
                by_shape = distance(mesh, faces=wished)[2]
                self.assertLessEqual(by_shape.after.quality.inverted, by_scale.after.quality.inverted)
                self.assertLessEqual(by_shape.after.faces, mesh.face_count)
                self.assertLessEqual(abs(by_shape.after.faces - wished), abs(by_scale.after.faces - wished))

    def test_a_number_that_cannot_be_met_is_told_in_words(self):
        report = remesh(read_obj((EXAMPLES / "cube.obj").read_text()), faces=3).report
        self.assertEqual(report.after.faces, 6)
        self.assertIn("as short as the floor", report.because)
        self.assertTrue(any(it.kind == "faces" for it in report.notices))

    def test_parts_share_the_faces(self):
        pair = join([bent_sheet(24), moved(grid(12, 12), 5)])
        result = remesh(pair, faces=200)
        self.assertEqual(result.report.parts, 2)
        self.assertLessEqual(abs(result.mesh.face_count - 200), 4)

    def test_a_mirrored_half_has_half_of_the_faces(self):
        report = remesh(moved(grid(24, 12), -12), faces=72, mirror="x").report
        self.assertAlmostEqual(report.after.faces, 72, delta=4)


@WITH_FIT
class Together(unittest.TestCase):
    def test_features_go_with_merged_patches_lengths_and_numbers(self):
        mesh = read_obj((EXAMPLES / "letter_q.obj").read_text())
        marks = mark_features(mesh, 30.0).edges
        for wishes in ({"edge": 2 * np.linalg.norm(np.ptp(mesh.points[mesh.edges.ends[0]], axis=0))},
                       {"scale": "1/2"}, {"faces": 300}):
            result = remesh(mesh, sharp=30, coarse=True, **wishes)
            self.assertEqual(result.report.command, "fit")
            self.assertLess(result.mesh.face_count, mesh.face_count)
            layout = one_layout(mesh, marks, True)
            self.assertEqual(result.report.arcs, len(layout.old))
            self.assertEqual(result.report.sharp[0], 0)

    def test_layouts_have_the_arcs_of_the_program(self):
        for mesh in (read_obj((EXAMPLES / "letter_q.obj").read_text()), drum(12, 7), plate()):
            marks = mark_features(mesh, 30.0).edges
            for is_merged in (False, True):
                for sharp in (None, 30.0):
                    result = remesh(mesh, scale=1, sharp=sharp, coarse=is_merged)
                    layout = one_layout(mesh, marks if sharp else marks[:0], is_merged)
                    np.testing.assert_array_equal(result.written[0].lengths, layout.old)

    def test_even_edges(self):
        mesh = plate()
        edges = remesh(mesh, faces=200, mode="even").mesh
        before = remesh(mesh, faces=200, mode="scale").mesh

        def spread(one: Mesh) -> float:
            long = np.linalg.norm(np.diff(one.points[one.edges.ends], axis=1)[:, 0], axis=1)
            return float(long.std() / long.mean())

        self.assertLess(spread(edges), spread(before))

    def test_of_many_faces_one_scale_is_taken_where_still_more_are_wished(self):
        for many, is_one in ((100, True), (100_000, False)):
            with mock.patch("quadq.choosing.MANY", many):
                report = remesh(drum(24, 12), faces=1000).report
            self.assertEqual(report.way == "", is_one)
            self.assertAlmostEqual(report.after.faces, 1000, delta=60)
        with mock.patch("quadq.choosing.MANY", 100):
            self.assertNotEqual(remesh(drum(24, 12), faces=200).report.way, "")

    def test_within_a_distance(self):
        mesh = bent_sheet(40)
        for distance_wished in (0.002, 0.01):
            report = remesh(mesh, within=distance_wished).report
            self.assertLessEqual(report.greatest_distance, distance_wished)
            self.assertLess(report.after.faces, mesh.face_count / 4)
            self.assertIn(("wished distance", f"{distance_wished:.6g}"), report.facts())
        same = remesh(drum(12, 4), within=1e-9)
        self.assertLess(same.report.greatest_distance, 2e-6)
        self.assertEqual(same.mesh.face_count, 48)

    def test_a_unit_changes_nothing(self):
        mesh = bent_sheet(20)
        small = Mesh(mesh.points * 2.0 ** -12, mesh.corners, mesh.starts)
        one, other = remesh(mesh, within=0.01, rescale=True), remesh(small, within=0.01 * 2.0 ** -12)
        self.assertEqual(one.mesh.face_count, other.mesh.face_count)

    def test_faces_are_denser_where_it_is_wished(self):
        mesh = grid(30, 30)
        marks = mesh.edges.ends[np.all(mesh.points[mesh.edges.ends][:, :, 0] == 15, axis=1)]
        halved = Mesh(mesh.points, mesh.corners, mesh.starts, lines=tuple(marks))
        density = np.where(mesh.points[:, 0] > 15, 4.0, 1.0)
        new = remesh(halved, faces=200, keep=("lines",), density=density).mesh
        middles = new.points[new.quads].mean(axis=1)[:, 0]
        self.assertGreater(np.sum(middles > 15), 2.5 * np.sum(middles < 15))
        scaled = remesh(halved, scale="1/3", keep=("lines",), density=density).mesh
        self.assertGreater(scaled.face_count, 1.5 * 100)
        remesh(halved, edge=2, density=density)


class WithoutFit(unittest.TestCase):
    def test_what_needs_fit_is_refused_without(self):
        if HAS_FIT:
            return
        for wishes in ({"edge": 1, "sharp": 30}, {"scale": 2, "sharp": 30, "coarse": True}, {"within": 0.1},
                       {"faces": 9, "density": np.ones(25)}, {"faces": 9, "mode": "even"}):
            with self.assertRaisesRegex(WishError, "fit"):
                remesh(grid(4, 4), **wishes)

    def test_wishes_that_are_none(self):
        for wishes in ({"scale": 1, "within": 1.0}, {"within": -1.0}, {"faces": 3, "mode": "best"}):
            with self.assertRaises(WishError):
                Settings(**wishes)


@WITH_FIT
class CommandLine(unittest.TestCase):
    def test_a_file_in_a_number_and_a_file_out(self):
        with tempfile.TemporaryDirectory() as name:
            folder = pathlib.Path(name)
            (folder / "in.obj").write_text(write_obj(bent_sheet(20)))
            np.savetxt(folder / "density.txt", np.ones(441))
            for more in ((), ("--even",), ("--mode", "scale"), ("--density", f"{name}/density.txt"), ("--coarse",),
                         ("--sharp", "30", "--coarse", "--report", f"{name}/page.html")):
                out = io.StringIO()
                with contextlib.redirect_stdout(out), contextlib.redirect_stderr(io.StringIO()):
                    self.assertEqual(main([f"{name}/in.obj", f"{name}/out.obj", "--faces", "100", *more]), 0)
                count = quadq.read(folder / "out.obj").face_count
                self.assertLess(abs(count - 100), 9, more)
            self.assertIn("quadq fit", (folder / "page.html").read_text())


if __name__ == "__main__":
    unittest.main()
