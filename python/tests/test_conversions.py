"""Meshes of other packages, plain arrays, and what notebooks show. trimesh and pyvista are played by classes that have
their arrays."""

import sys
import types
import unittest
from dataclasses import replace
from unittest import mock

import numpy as np

import quadq
from quadq import Mesh, MeshError, Names, remesh

from .shapes import grid, plate
from .test_formats import full, groups_of, meshio


class PolyData:
    """What of pyvista's class is used."""

    def __init__(self, points, faces):
        self.points, self.faces, self.point_data, self.cell_data = points, faces, {}, {}


class Trimesh:
    """What of trimesh's class is used."""

    def __init__(self, vertices, faces, face_attributes, process):
        self.vertices, self.faces, self.face_attributes, self.process = vertices, faces, face_attributes, process


class UnstructuredGrid:
    def __init__(self, points, cells, celltypes):
        self.points, self.cells, self.celltypes = points, np.array(cells), np.array(celltypes)
        self.point_data, self.cell_data = {}, {}


class Arrays(unittest.TestCase):
    def test_pairs_of_arrays_are_meshes(self):
        mesh = grid(8, 4)
        for pair in ((mesh.points, mesh.quads), [mesh.points.tolist(), mesh.quads.tolist()],
                     (mesh.points[:, :2], mesh.quads)):
            self.assertEqual(remesh(pair, scale="1/2").mesh.face_count, 8)
        self.assertEqual(quadq.refine((mesh.points, mesh.quads), 2).face_count, 128)
        self.assertEqual(len(quadq.blocks((mesh.points, mesh.quads))), 1)
        self.assertEqual(len(quadq.graph((mesh.points, mesh.quads)).sizes), 1)
        odd = quadq.as_mesh((mesh.points, [[0, 1, 9], [1, 2, 11, 10]]))
        self.assertEqual(odd.sides.tolist(), [3, 4])

    def test_what_is_no_mesh(self):
        points = grid(1, 1).points
        for given in (3, "a.obj", None, (points, [[0, 1]]), (points, [[0, 1, 9]]), (points[:, :1], [[0, 1, 2]]),
                      ("a", "b"), (points, [["x", 1, 2]])):
            with self.assertRaises(MeshError):
                quadq.as_mesh(given)


class Others(unittest.TestCase):
    def test_pyvista(self):
        mesh = replace(plate(), point_fields={"T": plate().points[:, 0]}, face_fields={"q": np.arange(540.0)})
        with mock.patch.dict(sys.modules, pyvista=types.SimpleNamespace(PolyData=PolyData)):
            given = quadq.to_pyvista(mesh)
        self.assertEqual(given.faces[:5].tolist(), [4, *mesh.quads[0].tolist()])
        again = quadq.from_pyvista(given)
        np.testing.assert_array_equal(again.quads, mesh.quads)
        self.assertEqual((list(again.point_fields), list(again.face_fields)), (["T"], ["q"]))
        result = remesh(given, scale="1/2")
        np.testing.assert_allclose(result.mesh.point_fields["T"], result.mesh.points[:, 0], atol=2e-6)

    def test_grids_of_pyvista(self):
        given = UnstructuredGrid(grid(2, 1).points, [4, 0, 1, 4, 3, 2, 0, 1, 4, 1, 2, 5, 4, 1, 0], [9, 3, 9, 1])
        given.cell_data["n"] = np.arange(4)
        mesh = quadq.as_mesh(given)
        self.assertEqual((mesh.quads.tolist(), mesh.face_fields["n"].tolist()), ([[0, 1, 4, 3], [1, 2, 5, 4]], [0, 2]))
        self.assertEqual(mesh.notes, ("cells of VTK's type 1 were left out",))

    def test_trimesh(self):
        mesh = plate()
        with mock.patch.dict(sys.modules, trimesh=types.SimpleNamespace(Trimesh=Trimesh)):
            given = quadq.to_trimesh(mesh)
        self.assertEqual((given.faces.shape, given.process), ((1080, 3), False))
        np.testing.assert_array_equal(np.bincount(given.face_attributes["quad"]), 2)
        self.assertEqual(remesh(given, scale="1/2", subdivide=True).report.before.faces, 1080)

    @unittest.skipIf(meshio is None, "meshio is not here")
    def test_meshio(self):
        mesh = full()
        given = quadq.to_meshio(mesh)
        again = quadq.from_meshio(given)
        self.assertEqual(groups_of(again), groups_of(mesh))
        result = remesh(given, scale="2/1")
        self.assertEqual(groups_of(result.mesh)["left"], 24)


class Notebooks(unittest.TestCase):
    def test_short_words(self):
        mesh = replace(full(), groups={"g": Names(("steel",), np.zeros(540, dtype=np.int64))})
        told = "groups steel, left, right, bottom, top, hole; fields T, shift, flux, group:hot"
        self.assertEqual(repr(mesh), f"<quadq.Mesh: 540 quads, 600 points; {told}>")
        result = remesh(plate(), scale="1/2")
        self.assertRegex(repr(result), r"^<quadq.Result: faces 540 -> \d+, scale 1/2")

    def test_pictures(self):
        page = plate()._repr_html_()
        self.assertIn("data:image/png;base64,", page)
        self.assertIn("540 quads", page)
        empty = Mesh(np.zeros((0, 3)), np.zeros(0, dtype=np.int64), np.zeros(1, dtype=np.int64))
        self.assertNotIn("<img", empty._repr_html_())
        self.assertIn("<iframe", remesh(grid(4, 4), scale="1/2")._repr_html_())


if __name__ == "__main__":
    unittest.main()
