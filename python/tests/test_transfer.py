"""Fields on the new mesh: exact where they are linear, kept in sum where they are to be."""

import unittest
from dataclasses import replace

import numpy as np

from quadq import MeshError, WishError, areas, areas_under, edges_under, remesh, transfer
from quadq.overlaps import areas_in_square

from .shapes import drum, grid, moved, plate

WAYS = ({"scale": "2/3"}, {"scale": "3/2"}, {"scale": "1/2", "coarse": True}, {"edge": 1.7},
        {"scale": "3/5", "sharp": 30})


def slanted():
    """A plate whose patches have arcs that are not in proportion to those across."""
    mesh = plate(18, 4)
    part, _ = mesh.faces_of(np.flatnonzero(mesh.points[mesh.quads].mean(axis=1)[:, 0] < 15))
    return part


class Points(unittest.TestCase):
    def test_linear_fields_are_exact(self):
        for mesh in (plate(), slanted(), drum()):
            for way in WAYS:
                result = remesh(mesh, **way)
                found = transfer(result, mesh.points @ [1.0, -2.0, 3.0] + 4)
                np.testing.assert_allclose(found, result.mesh.points @ [1.0, -2.0, 3.0] + 4, atol=5e-6)

    def test_vectors_keep_their_shape(self):
        result = remesh(plate(), scale="1/2")
        np.testing.assert_allclose(transfer(result, result.old.points), result.mesh.points, atol=2e-6)

    def test_old_points_keep_their_value_beside_what_is_no_number(self):
        mesh = grid(4, 4)
        values = np.where(np.arange(25) == 12, np.nan, 1.0)
        found = transfer(remesh(mesh, scale="1/2"), values)
        self.assertEqual(int(np.isnan(found).sum()), 1)

    def test_of_a_divided_mesh_and_of_several_parts(self):
        mesh = grid(6, 4)
        result = remesh(mesh, scale="1/2", subdivide=True)
        np.testing.assert_allclose(transfer(result, mesh.points[:, 0]), result.mesh.points[:, 0], atol=1e-9)
        both = np.concatenate([mesh.points, moved(mesh, 20).points])
        quads = np.concatenate([mesh.quads, mesh.quads + len(mesh.points)])
        pair = replace(mesh, points=both, corners=quads.ravel(), starts=np.arange(0, quads.size + 1, 4))
        result = remesh(pair, scale="1/2")
        np.testing.assert_allclose(transfer(result, both[:, 0]), result.mesh.points[:, 0], atol=1e-9)

    def test_a_mirror_image_has_what_its_half_has(self):
        mesh = moved(grid(8, 4), -4)
        result = remesh(mesh, scale="1/2", mirror="x")
        np.testing.assert_allclose(transfer(result, np.abs(mesh.points[:, 0])), np.abs(result.mesh.points[:, 0]))
        heights = transfer(result, mesh.points[mesh.quads].mean(axis=1)[:, 1], "faces")
        np.testing.assert_allclose(heights, result.mesh.points[result.mesh.quads].mean(axis=1)[:, 1])

    def test_where_a_symmetry_is_kept_each_half_has_its_own(self):
        mesh = moved(grid(8, 4), -4)
        mesh = replace(mesh, face_fields={"n": np.arange(32.0)})
        result = remesh(mesh, scale="3/2", symmetry="x", carry=True)
        np.testing.assert_allclose(transfer(result, mesh.points @ [1, 2, 0]), result.mesh.points @ [1, 2, 0], atol=1e-5)
        found = result.mesh.face_fields["n"]
        self.assertAlmostEqual(areas_under(result) @ found, areas(mesh) @ mesh.face_fields["n"], 9)
        at = result.mesh.points[result.mesh.quads].mean(axis=1)[:, 0]
        columns = transfer(result, np.arange(32) % 8, "faces", "sample")
        self.assertLess(np.abs(columns - (at + 3.5)).max(), 0.6)
        rim = result.mesh.edges.uses == 1
        over = result.made.under.overlaps
        new, old = (it.points[it.edges.ends[it.edges.of_corner[darts]]].mean(axis=1)
                    for it, darts in ((result.mesh, over.darts), (mesh, over.under)))
        of_rim = rim[result.mesh.edges.of_corner[over.darts]]
        self.assertLess(np.abs(new - old)[of_rim].max(), 0.9)


class Faces(unittest.TestCase):
    def test_the_sum_is_kept_and_a_constant_stays(self):
        for mesh in (plate(), slanted(), drum()):
            values = np.random.default_rng(1).random((mesh.face_count, 2)) + 1
            for way in WAYS:
                result = remesh(mesh, **way)
                found = transfer(result, values, "faces", "conserve")
                before, after = areas(mesh) @ values, areas_under(result) @ found
                np.testing.assert_allclose(after, before, rtol=1e-12)
                for how in ("mean", "conserve", "sample"):
                    same = transfer(result, np.full(mesh.face_count, 7.5), "faces", how)
                    np.testing.assert_allclose(same, 7.5, rtol=1e-12)

    def test_polygons_that_were_divided(self):
        mesh = grid(6, 4)
        values = np.arange(24.0)
        result = remesh(mesh, scale="1/3", subdivide=True)
        found = transfer(result, values, "faces", "conserve")
        self.assertAlmostEqual(areas_under(result) @ found, areas(mesh) @ values, 9)
        bent = replace(mesh, points=mesh.points + np.sin(mesh.points[:, :1] * mesh.points[:, 1:2]) * [0, 0, 1])
        result = remesh(bent, scale="1/2", subdivide=True)
        found = transfer(result, values, "faces", "conserve")
        self.assertAlmostEqual(areas_under(result) @ found / (areas(bent) @ values), 1, 12)

    def test_each_edge_of_the_boundary_knows_the_old_edges_under_it(self):
        mesh = grid(6, 4)
        result = remesh(mesh, scale="1/2")
        new, old, spans = edges_under(result)
        for (one, other), (begin, end), (low, high) in zip(new, old, spans):
            ends = result.mesh.points[[one, other]]
            places = mesh.points[begin] + np.outer([low, high], mesh.points[end] - mesh.points[begin])
            self.assertTrue(np.all(places >= ends.min(axis=0)) and np.all(places <= ends.max(axis=0)))
        edges = result.mesh.edges
        at = edges.numbers_of(np.sort(new, axis=1))
        np.testing.assert_array_equal(np.bincount(at, minlength=len(edges.ends))[edges.uses == 1], 2)

    def test_halves_of_faces_are_weighed_by_area(self):
        mesh = grid(2, 1)
        mesh = replace(mesh, points=np.where(mesh.points == 2, 4, mesh.points))
        result = remesh(mesh, scale="1/2")
        self.assertEqual(transfer(result, [1.0, 5.0], "faces", "mean").tolist(), [3.0])
        self.assertEqual(transfer(result, [1.0, 5.0], "faces", "conserve").tolist(), [(1 + 3 * 5) / 4])

    def test_whole_numbers_are_those_of_one_face(self):
        result = remesh(grid(6, 4), scale="1/2")
        found = transfer(result, np.arange(24), "faces")
        self.assertEqual(found.dtype.kind, "i")
        self.assertLessEqual(set(found.tolist()), set(range(24)))

    def test_squares_and_what_lies_beyond_them(self):
        corners = np.array([[[-1, -1], [0.5, -1], [0.5, 2], [-1, 2]], [[0.5, 0], [1, 0.5], [0.5, 1], [0, 0.5]],
                            [[2, 2], [3, 2], [3, 3], [2, 3]], [[-1, -1], [3, -1], [3, 3], [-1, 3]]], dtype=float)
        np.testing.assert_allclose(areas_in_square(corners), [0.5, 0.5, 0, 1])


class Defaults(unittest.TestCase):
    def test_fields_of_a_mesh_come_over_by_themselves(self):
        mesh = plate()
        of_faces = {"q": np.ones(mesh.face_count), "region": np.arange(mesh.face_count)}
        mesh = replace(mesh, point_fields={"T": mesh.points[:, 0]}, face_fields=of_faces)
        result = remesh(mesh, scale="1/2")
        np.testing.assert_allclose(result.mesh.point_fields["T"], result.mesh.points[:, 0], atol=2e-6)
        np.testing.assert_allclose(result.mesh.face_fields["q"], 1)
        self.assertEqual(result.report.fields, "T (points), q (faces, conserved), region (faces, sampled)")
        np.testing.assert_array_equal(transfer(result, "T"), result.mesh.point_fields["T"])
        self.assertFalse(any("field" in it for it in result.report.warnings))
        self.assertTrue(any("field" in it for it in remesh(mesh, scale="1/2", relax=1).report.warnings))

    def test_what_is_no_wish(self):
        result = remesh(grid(4, 4), scale=1)
        for count, *wish in ((25, "nodes"), (25, "points", "mean"), (16, "faces", "nearest")):
            with self.assertRaises(WishError):
                transfer(result, np.ones(count), *wish)
        for values in (np.ones(24), "T", 1.0, ["a"] * 25):
            with self.assertRaises(MeshError):
                transfer(result, values)


if __name__ == "__main__":
    unittest.main()
