"""Wishes by shape, by arrays alone: how meshes bend, what is wished of arcs, and chords."""

import unittest

import numpy as np

from quadq import Mesh, Program, WishError, read_obj
from quadq.bending import sags
from quadq.chords import chords_of
from quadq.darts import Darts
from quadq.density import density_of
from quadq.layout import layout_of
from quadq.local import Local
from quadq.parts import split
from quadq.wishing import BENT, EVEN, UNIT, Shape

from .shapes import EXAMPLES, drum, grid
from .test_layout import one_layout


def rolled(wide: int = 12, high: int = 4, radius: float = 5.0) -> Mesh:
    """A flat grid that is bent round one axis."""
    mesh = grid(wide, high)
    turn = mesh.points[:, 0] / radius
    places = np.stack([radius * np.sin(turn), mesh.points[:, 1], radius * np.cos(turn)], axis=1)
    return Mesh.of_quads(places, mesh.quads)


class Bending(unittest.TestCase):
    def test_a_flat_sheet_does_not_bend(self):
        mesh = grid(6, 4)
        none = np.zeros(len(mesh.edges.ends), dtype=bool)
        self.assertLess(sags(Darts(mesh), none).max(), 1e-12)

    def test_edges_round_an_axis_have_the_height_of_their_bow(self):
        mesh = rolled()
        edges = mesh.edges.ends
        found = sags(Darts(mesh), np.zeros(len(edges), dtype=bool))
        along = mesh.points[edges[:, 0], 1] == mesh.points[edges[:, 1], 1]
        bow = 5.0 * (1 - np.cos(0.5 / 5.0))
        np.testing.assert_allclose(found[along], bow, rtol=2e-2)
        self.assertLess(found[~along].max(), 1e-12)

    def test_a_run_does_not_go_over_a_kept_line(self):
        mesh = grid(8, 3)
        folded = np.where(mesh.points[:, :1] > 4, [[0.0, 0.0, 1.0]], 0.0) * (mesh.points[:, :1] - 4)
        mesh = Mesh.of_quads(mesh.points + folded, mesh.quads)
        edges = mesh.edges.ends
        fold = np.all(mesh.points[edges][:, :, 0] == 4, axis=1)
        self.assertGreater(sags(Darts(mesh), np.zeros(len(edges), dtype=bool)).max(), 0.05)
        self.assertLess(sags(Darts(mesh), fold).max(), 1e-9)


class Wishes(unittest.TestCase):
    def shape(self, mesh: Mesh, **more) -> Shape:
        part, = split(mesh)
        return Shape(part, layout_of(part, Program()), **more)

    def test_all_ways_have_as_many_faces_as_there_are(self):
        for mesh in (drum(is_round=True), rolled(), read_obj((EXAMPLES / "letter_q.obj").read_text())):
            shape = self.shape(mesh)
            self.assertAlmostEqual(shape.layout.faces(shape.lengths(EVEN)), mesh.face_count, places=6)
        self.assertTrue(self.shape(grid(4, 4)).is_flat)

    def test_more_is_wished_where_it_bends(self):
        shape = self.shape(rolled(12, 12))
        lengths = shape.lengths(BENT)
        points = shape.part.mesh.points
        ends = points[shape.layout.cut.arcs[:, :2]]
        is_round = ends[:, 0, 1] == ends[:, 1, 1]
        self.assertGreater(lengths[is_round].min(), 1.3 * lengths[~is_round].max())

    def test_lines_of_a_text_add_up_to_what_is_wished(self):
        shape = self.shape(drum(10, 7))
        lengths = np.random.default_rng(1).random(len(shape.layout.old)) * 20
        part = shape.wished(lengths)
        edges = part.mesh.edges
        told = [list(map(int, it.split()[1:])) for it in part.text.decode().splitlines() if it.startswith("#w ")]
        wishes = {(one - 1, other - 1): wish for one, other, wish in told}
        for arc in range(len(lengths)):
            some = np.flatnonzero(shape.layout.arc_of_edge == arc)
            total = sum(wishes[tuple(it)] for it in edges.ends[some].tolist())
            self.assertEqual(total, round(UNIT * lengths[arc]))

    def test_what_is_denser_wishes_more(self):
        mesh = grid(8, 8)
        dense = self.shape(mesh, local=Local(density=np.where(mesh.points[:, 0] > 4, 3.0, 1.0)))
        plain = self.shape(mesh)
        self.assertTrue(np.all(dense.lengths(BENT) > plain.lengths(BENT) * 1.2))

    def test_where_a_density_stands(self):
        mesh = grid(2, 2)
        coloured = Mesh(mesh.points, mesh.corners, mesh.starts, extra=np.ones((9, 3)) * [0.25, 0.5, 1.0])
        self.assertEqual(density_of(coloured, "green").tolist(), [0.5] * 9)
        for where, given in (("red", None), ("given", np.ones(3)), ("given", -np.ones(9)), ("no/file", None)):
            with self.assertRaises(WishError):
                density_of(mesh, where, given)


class ChordsOfLayouts(unittest.TestCase):
    def test_sides_fit_each_other_when_a_chord_is_changed(self):
        for mesh in (drum(10, 7), grid(5, 6), *(read_obj((EXAMPLES / f"{name}.obj").read_text())
                                                for name in ("letter_q", "cube", "torus", "notched_square"))):
            layout = one_layout(mesh, mesh.edges.ends[:0])
            lengths = 2 * layout.old
            found = chords_of(layout, lengths, lengths.astype(float), np.ones_like(lengths))
            self.assertGreater(len(found), 0)
            for it in found:
                long = layout.cut.side_lengths(lengths + it.change)
                np.testing.assert_array_equal(long[:, :2], long[:, 2:])
                self.assertGreaterEqual((lengths + it.change).min(), 1)

    def test_an_arc_at_the_floor_gets_no_shorter(self):
        layout = one_layout(grid(1, 4), np.zeros((0, 2), dtype=np.int64))
        old, ones = layout.old, np.ones_like(layout.old)
        changes = [it.change for it in chords_of(layout, old, old.astype(float), ones)]
        self.assertTrue(all(np.all(old + it >= 1) for it in changes))
        self.assertTrue(any(it.min() < 0 for it in changes))
        others = [it.change for it in chords_of(layout, old, old.astype(float), np.where(old > 1, 4, ones))]
        self.assertTrue(others)
        self.assertFalse(any(it.min() < 0 for it in others), "each arc has a floor of its own")


if __name__ == "__main__":
    unittest.main()
