"""Quality, distance, parts, scales, subdivision and mirrors by themselves: no program is run."""

import io
import time
import unittest
from fractions import Fraction
from unittest import mock

import numpy as np

from quadq import Mesh, Refusal, distance_between, quality_of, read_obj, scaled_jacobians, subdivide
from quadq.mirror import half, with_image
from quadq.progress import Progress
from quadq.relaxing import relax
from quadq.surface import irregular_counts, part_of_face
from quadq.targets import Counted, as_scale, nearest_scale

from .shapes import EXAMPLES, grid, moved


class Measures(unittest.TestCase):
    def test_scaled_jacobians(self):
        shapes = {"square": ([0, 0], [2, 0], [2, 2], [0, 2]), "rhombus": ([0, 0], [2, 0], [3, 3**0.5], [1, 3**0.5]),
                  "triangle": ([0, 0], [1, 0], [2, 0], [0, 2]), "arrow": ([0, 0], [4, 0], [1, 1], [0, 4])}
        flat = np.array(list(shapes.values()), dtype=float).reshape(-1, 2)
        mesh = Mesh.of_quads(np.column_stack([flat, 0 * flat[:, 0]]), np.arange(16).reshape(4, 4))
        found = scaled_jacobians(mesh)
        np.testing.assert_allclose(found[:3], [1, 3**0.5 / 2, 0], atol=1e-12)
        self.assertLess(found[3], 0)
        self.assertEqual(quality_of(mesh).inverted, 1)

    def test_distances(self):
        flat = grid(7, 5)
        self.assertEqual(distance_between(flat, flat).greatest, 0)
        self.assertAlmostEqual(distance_between(moved(flat, 0, 0, 0.25), flat).mean, 0.25)
        beside = distance_between(moved(grid(1, 1), 10, 8), flat)
        self.assertAlmostEqual(beside.greatest, (4**2 + 4**2) ** 0.5)

    def test_distances_are_those_of_all_faces(self):
        ball = read_obj((EXAMPLES / "letter_q.obj").read_text())
        probes = Mesh.of_quads(np.random.default_rng(7).normal(size=(12, 3)), np.arange(12).reshape(3, 4))
        alone = [distance_between(probes, ball.faces_of(np.array([at]))[0]) for at in range(0, ball.face_count, 40)]
        chosen, _ = ball.faces_of(np.arange(0, ball.face_count, 40))
        self.assertLessEqual(distance_between(probes, chosen).greatest, min(it.greatest for it in alone) + 1e-12)

    def test_parts(self):
        two = Mesh(*[getattr(grid(2, 1), name) for name in ("points", "corners", "starts")])
        apart = Mesh.of_quads(np.tile(two.points, (2, 1)), np.concatenate([two.quads, two.quads + 6])[[0, 2, 1, 3]])
        self.assertEqual(part_of_face(apart).tolist(), [0, 1, 0, 1])
        self.assertEqual(part_of_face(grid(30, 20)).max(), 0)

    def test_irregular_points(self):
        for name, counts in (("cube", (8, 0)), ("notched_square", (0, 8)), ("torus", (0, 0))):
            mesh = read_obj((EXAMPLES / f"{name}.obj").read_text())
            self.assertEqual(irregular_counts(mesh), counts, name)

    def test_subdivision(self):
        mesh = read_obj("v 0 0 0\nv 3 0 0\nv 0 3 0\nvt 0 0\nvt 1 0\nvt 0 1\nusemtl oak\nf 1/1 2/2 3/3\n")
        fine = subdivide(mesh)
        self.assertEqual((fine.face_count, len(fine.points)), (3, 7))
        np.testing.assert_allclose(fine.points[6], [1, 1, 0])
        np.testing.assert_allclose(fine.texture.values[fine.texture.rows] * 3, fine.points[fine.corners, :2])
        self.assertEqual(fine.groups["usemtl"].of_face.tolist(), [1, 1, 1])
        lined = subdivide(read_obj("v 0 0 0\nv 3 0 0\nv 0 3 0\nv 9 9 9\nf 1 2 3\nl 2 1 3\nl 3 4 1\nl 1 2\n"))
        self.assertEqual([it.tolist() for it in lined.lines], [[1, 4, 0, 5, 2], [0, 4, 1]])
        self.assertEqual(subdivide(Mesh.of_quads(np.zeros((0, 3)), np.zeros((0, 4)))).face_count, 0)

    def test_relaxed_points_make_nothing_worse(self):
        flat = grid(9, 7)
        rng = np.random.default_rng(5)
        inner = np.all((flat.points[:, :2] > 0) & (flat.points[:, :2] < [9, 7]), axis=1)
        points = flat.points + np.where(inner[:, None], rng.uniform(-0.6, 0.6, flat.points.shape) * [1, 1, 0], 0)
        rough = Mesh(points, flat.corners, flat.starts)
        nodes = 40
        now, times = rough, 0
        for _ in range(4):
            then = now
            now, moves = relax(then, flat, nodes, 1)
            times += moves
            self.assertGreaterEqual(quality_of(now).least, quality_of(then).least)
        self.assertGreater(quality_of(now).mean, quality_of(rough).mean)
        self.assertGreater(times, 10)
        stay = ~inner
        stay[:nodes] = True
        np.testing.assert_array_equal(now.points[stay], rough.points[stay])
        self.assertEqual(np.abs(now.points[:, 2]).max(), 0)
        self.assertEqual(relax(Mesh.of_quads(np.zeros((0, 3)), np.zeros((0, 4))), flat, 0, 2)[1], 0)

    def test_features_stay_when_relaxed(self):
        cube = read_obj((EXAMPLES / "cube.obj").read_text())
        fine = subdivide(subdivide(cube))
        self.assertEqual(relax(fine, cube, 0, 2)[0].points.tolist(), fine.points.tolist())

    def test_progress(self):
        said = io.StringIO()
        progress = Progress(said)
        for step, done, total in (("reading", 0, 1), ("remeshing", 1, 3), ("remeshing", 2, 3)):
            progress.tell(step, done, total)
            if done != 1:
                progress.show()
                progress.show()
        progress.end()
        self.assertEqual(said.getvalue(), "quadq-remesh: reading\nquadq-remesh: remeshing 2 of 3\n")
        said.isatty = lambda: True
        progress = Progress(said)
        progress.tell("checking", 1, 2)
        progress.show()
        progress.end()
        self.assertIn(f"checking [{'#' * 15}{' ' * 15}] 1 of 2", said.getvalue())

    def test_a_long_step_is_shown_by_itself(self):
        said = io.StringIO()
        with mock.patch("quadq.progress.FIRST_SECONDS", 0.01):
            progress = Progress(said)
            progress.tell("measuring", 0, 1)
            until = time.monotonic() + 30
            while not said.getvalue() and time.monotonic() < until:
                time.sleep(0.01)
            progress.end()
        self.assertEqual(said.getvalue(), "quadq-remesh: measuring\n")

    def test_mirror(self):
        one, faces, _ = half(moved(grid(4, 3), -2), 0)
        self.assertEqual(faces.tolist(), [2, 3, 6, 7, 10, 11])
        whole = with_image(one, 0)
        self.assertEqual((whole.face_count, len(whole.points)), (12, 20))
        self.assertEqual(whole.edges.uses.max(), 2)
        with self.assertRaises(Refusal) as caught:
            half(moved(grid(3, 2), -1.5), 0)
        self.assertEqual(caught.exception.faces, (1, 4))


class Targets(unittest.TestCase):
    def test_scales(self):
        for value, wanted in ((0.5, "1/2"), (2, "2"), (1e-9, "1/1000"), (1e9, "1000"), (1 / 3, "1/3"), (2.5, "5/2")):
            self.assertEqual(as_scale(value), Fraction(wanted))

    def test_a_number_that_is_reached(self):
        reached = nearest_scale(250, 1000, lambda scale: Counted(round(1000 * float(scale) ** 2)))
        self.assertEqual((reached.scale, reached.faces, reached.because), (Fraction(1, 2), 250, ""))

    def test_numbers_between_which_nothing_lies(self):
        reached = nearest_scale(500, 1000, lambda scale: Counted(400 if scale < Fraction(2, 3) else 900))
        self.assertEqual(reached.faces, 400)
        self.assertIn("it has 400 faces at scale", reached.because)

    def test_numbers_out_of_reach(self):
        self.assertIn("already at scale 1/1000", nearest_scale(5, 1000, lambda scale: Counted(800)).because)

        def count(scale):
            if scale > 2:
                raise Refusal(10, "too fine: 9999999 faces")
            return Counted(round(1000 * float(scale) ** 2))

        self.assertAlmostEqual(nearest_scale(3900, 1000, count).faces, 3900, delta=39)


if __name__ == "__main__":
    unittest.main()
