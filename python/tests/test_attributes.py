"""What meshes carry over to their remeshes."""

import sys
import unittest
from dataclasses import replace

import numpy as np

from quadq import Layer, Mesh, Names, read_obj, remesh
from quadq.attributes import dressed_as
from quadq.carried import carried
from quadq.mesh import join

from .shapes import grid, moved

# What `remesh --scale 2/3` makes of three squares in a row, and the map of it.
NEW = "v 0 0 0\nv 3 0 0\nv 0 1 0\nv 3 1 0\nv 1.5 0 0\nv 1.5 1 0\nf 1 5 6 3\nf 5 2 4 6\n"
MAP = b"""quadq map 1
vertices 6 faces 2
vertex 1
vertex 4
vertex 5
vertex 8
edge 2 3 1 2
edge 7 6 1 2
cell 1 1 0 0 6442450944 0 6442450944 4294967296 0 4294967296
cell 3 1 -2147483648 0 4294967296 0 4294967296 4294967296 -2147483648 4294967296
"""


def dressed(mesh: Mesh) -> Mesh:
    """A flat mesh with a tenth of its places as texture, a normal, a colour and a material for the left and right."""
    middle = mesh.points[mesh.quads, 0].mean(axis=1)
    return replace(
        mesh,
        texture=Layer(mesh.points[:, :2] / 10, mesh.corners),
        normal=Layer(np.array([[0.0, 0.0, 1.0]]), np.zeros(len(mesh.corners), dtype=np.int64)),
        groups={"usemtl": Names(("left", "right"), (middle > 2).astype(np.int64))},
        extra=mesh.points * 2,
        libraries=("both.mtl",),
    )


class Attributes(unittest.TestCase):
    def test_a_strip(self):
        mesh, over = dressed_as(dressed(grid(3, 1)), read_obj(NEW), MAP)
        np.testing.assert_array_equal(mesh.texture.values[mesh.texture.rows], mesh.points[mesh.corners, :2] / 10)
        np.testing.assert_array_equal(mesh.normal.values, [[0, 0, 1]])
        np.testing.assert_array_equal(mesh.extra, mesh.points * 2)
        self.assertEqual(mesh.groups["usemtl"].of_face.tolist(), [0, 1])
        self.assertEqual((mesh.libraries, over), (("both.mtl",), 1))

    def test_a_seam(self):
        old = dressed(grid(3, 1))
        values = np.concatenate([old.texture.values, old.texture.values + 0.5])
        rows = old.corners + np.repeat([0, len(old.points), len(old.points)], 4)
        mesh, over = dressed_as(replace(old, texture=Layer(values, rows)), read_obj(NEW), MAP)
        at = mesh.texture.values[mesh.texture.rows]
        np.testing.assert_allclose(at[mesh.corners == 4], [[0.15, 0], [0.65, 0.5]])
        self.assertEqual(over, 2)

    def test_a_mesh_that_carries_nothing(self):
        mesh, over = dressed_as(grid(3, 1), read_obj(NEW), MAP)
        self.assertEqual((mesh.texture, mesh.normal, mesh.extra, mesh.groups, over), (None, None, None, {}, 0))

    def test_further_layers_and_points_of_all_kinds(self):
        old = dressed(grid(9, 7))
        layers = {"first": Layer(old.points[:, [0]], old.corners), "second": Layer(old.points[:, :2], old.corners)}
        mesh = remesh(replace(old, layers=layers), scale="3/4", carry=True).mesh
        for name, width in (("first", 1), ("second", 2)):
            values = mesh.layers[name].values[mesh.layers[name].rows]
            np.testing.assert_allclose(values, mesh.points[mesh.corners, :width], atol=2e-6)
        np.testing.assert_allclose(mesh.extra, mesh.points * 2, atol=2e-6)

    def test_scripts_leave_no_traces(self):
        path = sys.path[:]
        for name in ("obj_text", "mark_features"):
            self.assertIs(carried(name), sys.modules[f"quadq.carried.{name}"])
            self.assertNotIn(name, sys.modules)
        self.assertEqual(sys.path, path)

    def test_a_map_of_another_mesh(self):
        with self.assertRaisesRegex(ValueError, "boundary of the old mesh|old mesh does not have"):
            dressed_as(grid(2, 1), read_obj(NEW), MAP)

    def test_the_whole_way(self):
        pair = join([grid(8, 8), moved(grid(4, 4), 30)])
        whole = dressed(pair)
        result = remesh(whole, scale="1/2", carry=True)
        mesh = result.mesh
        np.testing.assert_allclose(mesh.texture.values[mesh.texture.rows], mesh.points[mesh.corners, :2] / 10)
        np.testing.assert_allclose(mesh.extra, mesh.points * 2)
        self.assertEqual(mesh.libraries, ("both.mtl",))
        self.assertIsNone(result.text)

    def test_a_mirror_image_carries_what_its_half_does(self):
        old = dressed(moved(grid(8, 4), -4))
        result = remesh(replace(old, normal=Layer(np.array([[0.6, 0.0, 0.8]]), old.normal.rows)), scale="1/2",
                        carry=True, mirror="x")
        mesh = result.mesh
        there = mesh.points[mesh.corners]
        np.testing.assert_allclose(mesh.texture.values[mesh.texture.rows], np.abs(there[:, :2]) / 10)
        np.testing.assert_allclose(mesh.extra, np.abs(mesh.points) * 2)
        on_the_left = np.repeat(mesh.points[mesh.quads, 0].mean(axis=1) < 0, 4)
        np.testing.assert_allclose(mesh.normal.values[mesh.normal.rows, 0], np.where(on_the_left, -0.6, 0.6))
        self.assertEqual((mesh.face_count, result.report.over_seams), (8, 0))


if __name__ == "__main__":
    unittest.main()
