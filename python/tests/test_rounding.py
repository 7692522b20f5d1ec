"""Points on a curved surface behind the old polygons."""

import unittest

import numpy as np

from quadq import Layer, Mesh, WishError, remesh
from quadq.rounding import curved

from .shapes import drum, grid, moved

NONE = np.zeros((0, 2), dtype=np.int64)


def area_of(mesh: Mesh) -> float:
    corners = mesh.points[mesh.quads]
    middle = corners.mean(axis=1)
    return sum(float(np.linalg.norm(np.cross(
        corners[:, (at + 1) % 4] - corners[:, at], middle - corners[:, at]), axis=1).sum()) / 2 for at in range(4))


def ball(count: int) -> Mesh:
    """A cube of so many squares along each edge, blown up."""
    places: dict = {}
    quads = []
    across = np.tan(np.linspace(-np.pi / 4, np.pi / 4, count + 1))
    for axis in range(3):
        for sign in (1, -1):
            for i, j in np.ndindex(count, count):
                quad = []
                for a, b in ((i, j), (i + 1, j), (i + 1, j + 1), (i, j + 1)):
                    place = np.zeros(3)
                    place[[axis, (axis + 1) % 3, (axis + 2) % 3]] = sign, sign * across[a], across[b]
                    place = tuple(np.round(place / np.linalg.norm(place), 6))
                    quad.append(places.setdefault(place, len(places)))
                quads.append(quad)
    return Mesh.of_quads(np.array(list(places)), np.array(quads))


class Rounding(unittest.TestCase):
    def test_a_finer_tube_is_rounder(self):
        tube, true = drum(24, 6), 4 * np.pi
        before = abs(area_of(tube) - true)
        for factor, better in ((2, 3.5), (4, 14), (8, 50)):
            result = remesh(tube, scale=factor, round=True)
            self.assertLess(abs(area_of(result.mesh) - true) * better, before)
            self.assertIsNone(result.text)
            self.assertTrue(any(it.kind == "round" for it in result.report.notices))

    def test_a_finer_ball_has_better_normals(self):
        mesh = ball(4)

        def greatest_turn(one: Mesh) -> float:
            a, b, c, d = one.points[one.quads].transpose(1, 0, 2)
            facing, middle = np.cross(c - a, d - b), (a + b + c + d) / 4
            along = np.sum(facing * middle, axis=1)
            return float(np.degrees(np.arccos(np.clip(
                along / np.linalg.norm(facing, axis=1) / np.linalg.norm(middle, axis=1), -1, 1))).max())

        for factor in (2, 4):
            fine = remesh(mesh, scale=factor, round=True).mesh
            self.assertLess(greatest_turn(fine), greatest_turn(mesh))
            self.assertGreater(greatest_turn(remesh(mesh, scale=factor).mesh), 3 * greatest_turn(mesh))
            np.testing.assert_allclose(np.linalg.norm(fine.points, axis=1), 1, atol=4e-3)

    def test_flat_faces_and_sharp_edges_stay(self):
        flat = grid(4, 3)
        np.testing.assert_allclose(remesh(flat, scale=2, round=True).mesh.points[:, 2], 0, atol=1e-12)
        places = np.where(flat.points[:, :1] > 2, [[1.0, 0.0, 0.0]], 0.0) * (2 - flat.points[:, :1])
        folded = Mesh.of_quads(flat.points + places - places[:, ::-1], flat.quads)
        fine = remesh(folded, scale=2, round=True).mesh.points
        np.testing.assert_allclose(fine[fine[:, 2] > 1e-9][:, 0], 2, atol=1e-9)
        self.assertLessEqual(fine[:, 0].max(), 2 + 1e-9)

    def test_a_marked_edge_is_flat_across(self):
        tube = drum(12, 4)
        edges = tube.edges.ends
        upright = edges[np.abs(tube.points[edges][:, :, 1].ptp(axis=1)) > 0.1]
        surface = curved(tube, upright)
        darts = np.arange(0, len(tube.corners), 4)
        middle = surface.at(darts, np.full(len(darts), 0.5), np.full(len(darts), 0.5))
        np.testing.assert_allclose(middle, tube.points[tube.quads].mean(axis=1), atol=0.04)

    def test_the_normals_of_a_file_count(self):
        tube = drum(8, 2)
        normals = tube.points[tube.corners] * [1, 0, 1]
        told = Mesh(tube.points, tube.corners, tube.starts, normal=Layer(normals, np.arange(len(normals))))
        fine = remesh(told, scale=4, round=True).mesh.points
        np.testing.assert_allclose(np.hypot(fine[:, 0], fine[:, 2]), 1, atol=2e-2)

    def test_a_mirrored_half_meets_its_image(self):
        tube = drum(24, 6)
        result = remesh(tube, scale=2, round=True, mirror="x")
        self.assertEqual(result.mesh.face_count, 4 * tube.face_count)
        np.testing.assert_allclose(np.hypot(result.mesh.points[:, 0], result.mesh.points[:, 2]), 1, atol=1e-2)

    def test_parts_and_wishes(self):
        pair = remesh(Mesh.of_quads(*_pair(drum(12, 3))), scale=2, round=True)
        self.assertEqual(pair.report.parts, 2)
        with self.assertRaises(WishError):
            remesh(drum(), scale=2, round=True, relax=1)


def _pair(mesh: Mesh) -> tuple:
    other = moved(mesh, 5)
    return np.concatenate([mesh.points, other.points]), np.concatenate([mesh.quads, other.quads + len(mesh.points)])


if __name__ == "__main__":
    unittest.main()
