"""New points that stand where they are wished along the arcs, and not at equal parts of the old edges."""

import contextlib
import csv
import io
import json
import pathlib
import tempfile
import unittest
from unittest import mock

import numpy as np

import quadq
from quadq import Mesh, Program, remesh, write_obj
from quadq.__main__ import main
from quadq.layout import layout_of
from quadq.mesh import Layer
from quadq.parts import split
from quadq.report import result_page
from quadq.spacing import MOST, divided
from quadq.thinning import bands_of, kept_points
from quadq.wishing import UNIT, Shape, by_bends

from .shapes import drum, grid, moved, written_by
from .test_shape import bent_sheet

WITH_SPACING = unittest.skipUnless(Program().has_spacing(), "this program has no `--spacing wished`")


def without_spacing():
    """A program that puts new points at equal parts of old edges alone."""
    return mock.patch.object(Program, "has_spacing", lambda self: False)


def shape_of(mesh: Mesh) -> Shape:
    part, = split(mesh)
    return Shape(part, layout_of(part, Program()))


def lengths_along(mesh: Mesh, at: np.ndarray) -> np.ndarray:
    """How long the edges are between chosen points (points,) bool, in the order of their first coordinate."""
    some = np.flatnonzero(at)
    some = some[np.argsort(mesh.points[some, 0])]
    return np.linalg.norm(np.diff(mesh.points[some], axis=0), axis=1)


class Dividing(unittest.TestCase):
    def test_wishes_of_edges_add_up_to_those_of_their_arcs(self):
        layout = shape_of(drum(10, 7)).layout
        random = np.random.default_rng(5)
        for many in (1, 20, 3000):
            totals = random.integers(0, UNIT * many, len(layout.old))
            found = divided(layout, totals, random.random(len(layout.edges_along)) ** 4)
            self.assertEqual(np.bincount(layout.arc_along, found).tolist(), totals.tolist())
            self.assertGreaterEqual(found.min(), 0)
            self.assertLessEqual(found.max(), MOST)

    def test_no_edge_wishes_more_than_there_may_be(self):
        layout = shape_of(grid(4, 4)).layout
        shares = np.tile([1.0, 0.0, 0.0, 0.0], len(layout.old))
        totals = np.full(len(layout.old), 2 * MOST)
        found = divided(layout, totals, shares)
        self.assertEqual(np.bincount(layout.arc_along, found).tolist(), totals.tolist())
        self.assertLessEqual(found.max(), MOST)
        equal = divided(layout, totals, np.zeros(len(shares)))
        self.assertEqual(np.unique(equal).tolist(), [MOST // 2])

    def test_more_is_wished_where_a_sheet_bends(self):
        shape = shape_of(bent_sheet(12))
        shares = by_bends(shape, shape.layout.old.astype(float))
        ends = shape.part.mesh.points[shape.layout.cut.steps]
        along = np.abs(ends[:, 1] - ends[:, 0])[:, 1] < 1e-9
        flat = along & (ends[:, :, 0].max(axis=1) < 0.4)
        self.assertGreater(shares[along & ~flat].max(), 2 * shares[flat].max())

    def test_points_that_stay_are_those_at_a_fold(self):
        mesh = grid(12, 3)
        x = mesh.points[:, 0]
        folded = Mesh.of_quads(np.column_stack([np.minimum(x, 5), mesh.points[:, 1], np.maximum(x - 5, 0)]), mesh.quads)
        layout = shape_of(folded).layout
        shares = kept_points(layout, bands_of(layout), np.where(layout.old == 12, 4, 3))
        for arc in np.flatnonzero(layout.old == 12).tolist():
            steps = layout.cut.steps[layout.arc_along == arc]
            ends = np.cumsum(shares[layout.arc_along == arc])
            is_fold = np.all(folded.points[steps[:, 1]][:, ::2] == [5, 0], axis=1)
            fold, = ends[is_fold]
            self.assertAlmostEqual(fold, round(fold))
            self.assertAlmostEqual(ends[-1], 4.0)


@WITH_SPACING
class BothSpacings(unittest.TestCase):
    def test_a_sheet_that_is_bent_at_one_end_is_nearer(self):
        mesh = bent_sheet(24)
        with without_spacing():
            even = remesh(mesh, faces=64)
        wished = remesh(mesh, faces=64)
        self.assertEqual((even.report.spacing, wished.report.spacing), ("even", "wished"))
        self.assertLess(wished.report.greatest_distance, even.report.greatest_distance)
        self.assertLessEqual(abs(wished.mesh.face_count - 64), 1)
        self.assertLessEqual(wished.report.after.quality.inverted, even.report.after.quality.inverted)

    def test_lengths_and_counts_are_those_of_even_points(self):
        mesh = bent_sheet(20)
        for wishes in ({"faces": 100, "mode": "even"}, {"faces": 100, "density": 1 + mesh.points[:, 0]},
                       {"edge": 0.12}, {"size": 0.05 + 0.1 * mesh.points[:, 0]}, {"scale": "1/3", "mode": "even"}):
            with without_spacing():
                even = remesh(mesh, **wishes)
            wished = remesh(mesh, **wishes)
            self.assertEqual((even.report.spacing, wished.report.spacing), ("even", "wished"), wishes)
            self.assertEqual(even.written[0].lengths.tolist(), wished.written[0].lengths.tolist(), wishes)
            np.testing.assert_array_equal(even.mesh.quads, wished.mesh.quads)

    def test_edges_of_an_arc_are_equally_long(self):
        mesh = grid(12, 4)
        mesh = Mesh.of_quads(mesh.points * [1, 1, 1] + np.column_stack([mesh.points[:, 0] ** 2, *np.zeros((2, 65))]),
                             mesh.quads)
        for wishes in ({"edge": 20}, {"faces": 24, "mode": "even"}, {"edge": 20, "sharp": 30}):
            new = remesh(mesh, **wishes).mesh
            long = lengths_along(new, new.points[:, 1] == 0)
            self.assertLess(np.ptp(long), 1e-3 * long.mean(), wishes)

    def test_points_stand_where_faces_are_to_be_dense(self):
        mesh = grid(24, 6)
        density = np.where(mesh.points[:, 0] > 12, 4.0, 1.0)
        result = remesh(mesh, faces=72, density=density)
        middles = result.mesh.points[result.mesh.quads].mean(axis=1)[:, 0]
        self.assertGreater(np.sum(middles > 12), 2.5 * np.sum(middles < 12))
        self.assertEqual(result.report.spacing, "wished")

    def test_outside_a_region_points_stay(self):
        mesh = grid(24, 6)
        region = mesh.points[mesh.quads].mean(axis=1)[:, 0] > 16
        result = remesh(mesh, scale="1/2", region=region)
        self.assertEqual(result.report.spacing, "wished")
        kept = np.unique(result.mesh.points[:, 0].round(6))
        self.assertLess(len(kept), 25)
        self.assertTrue(np.isin(np.arange(17.0), kept).all(), kept)

    def test_within_a_distance_takes_no_more_faces(self):
        mesh = bent_sheet(20)
        with without_spacing():
            even = remesh(mesh, within=0.01)
        wished = remesh(mesh, within=0.01)
        self.assertLessEqual(wished.report.greatest_distance, 0.01)
        self.assertLessEqual(wished.mesh.face_count, even.mesh.face_count)


@WITH_SPACING
class Beyond(unittest.TestCase):
    """What stands on the map of a mesh whose points are told by shares."""

    def test_what_is_carried_over_lies_where_its_points_do(self):
        mesh = bent_sheet(16)
        corners = mesh.points[mesh.corners]
        textured = Mesh(mesh.points, mesh.corners, mesh.starts, extra=mesh.points.copy(),
                        texture=Layer(corners[:, :2].copy(), np.arange(len(corners))))
        result = remesh(textured, edge=0.13, carry=True)
        self.assertEqual(result.report.spacing, "wished")
        texts = [result.program.map(part.text, it.text) for part, it in zip(result.parts, result.written)]
        self.assertTrue(any(b"\nshare " in it for it in texts))
        new = result.mesh
        np.testing.assert_allclose(new.extra, new.points, atol=3e-6)
        np.testing.assert_allclose(new.texture.values[new.texture.rows][:, :2], new.points[new.corners][:, :2],
                                   atol=1e-2)
        np.testing.assert_allclose(quadq.transfer(result, mesh.points), new.points, atol=3e-6)

    def test_a_mesh_stays_its_own_mirror_image(self):
        mesh = moved(grid(16, 6), -8)
        bent = Mesh.of_quads(mesh.points + np.abs(mesh.points[:, :1]) ** 2 * [[0, 0, 0.05]], mesh.quads)
        for wishes in ({"faces": 36}, {"edge": 2.2, "symmetry": "x"}):
            result = remesh(bent, **wishes)
            self.assertEqual((result.report.symmetry, result.report.mirrors), ("x", ""), wishes)
            places = {tuple(it) for it in result.mesh.points.round(5) + 0.0}
            self.assertEqual(places, {tuple(it) for it in (result.mesh.points * [-1, 1, 1]).round(5) + 0.0})
            page = result_page("a sheet", result, result.program)
            self.assertIn(result.report.spacing, page)

    def test_points_are_put_on_a_round_surface(self):
        tube = drum(16, 6)
        result = remesh(tube, edge=0.31, round=True)
        self.assertEqual(result.report.spacing, "wished")
        away = np.linalg.norm(result.mesh.points[:, ::2], axis=1)
        np.testing.assert_allclose(away, 1.0, atol=2e-3)


@WITH_SPACING
class Told(unittest.TestCase):
    def test_the_spacing_stands_in_the_page_the_log_and_the_table(self):
        with tempfile.TemporaryDirectory() as name:
            folder = pathlib.Path(name)
            (folder / "in").mkdir()
            (folder / "in/sheet.obj").write_text(write_obj(bent_sheet(12)))
            words = [f"{name}/in", "--out", f"{name}/out", "--edge", "0.2", "--log", f"{name}/log", "--table",
                     f"{name}/table.csv", "--report", f"{name}/pages"]
            with contextlib.redirect_stdout(io.StringIO()), contextlib.redirect_stderr(io.StringIO()):
                self.assertEqual(main(words), 0)
            self.assertEqual(json.loads((folder / "log").read_text().splitlines()[0])["spacing"], "wished")
            row, = csv.DictReader((folder / "table.csv").read_text().splitlines())
            self.assertEqual((row["spacing"], row["command"]), ("wished", "fit"))
        result = remesh(bent_sheet(12), edge=0.2)
        self.assertIn(("spacing", "wished"), result.report.facts())
        self.assertRegex(result_page("sheet", result, result.program), r"spacing</t[hd]>\s*<td[^>]*>wished")
        self.assertIn(("spacing", "even"), remesh(grid(4, 4), scale="1/2").report.facts())


class Without(unittest.TestCase):
    def test_without_spacing_all_is_as_before(self):
        mesh = bent_sheet(12)
        with without_spacing():
            for wishes, command in (({"edge": 0.2}, written_by("size")), ({"scale": "1/2"}, written_by("remesh"))):
                report = remesh(mesh, **wishes).report
                self.assertEqual((report.command, report.spacing), (command, "even"))
            if Program().has_fit():
                for wishes in ({"faces": 36}, {"faces": 36, "mode": "even"}, {"edge": 0.2, "coarse": True}):
                    self.assertEqual(remesh(mesh, **wishes).report.spacing, "even", wishes)

    def test_a_program_is_asked_once(self):
        program = Program()
        program.has_spacing()
        with mock.patch("quadq.program.run_program", side_effect=AssertionError):
            self.assertIsInstance(program.has_spacing(), bool)


if __name__ == "__main__":
    unittest.main()
