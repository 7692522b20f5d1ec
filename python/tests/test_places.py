"""What is wished of single places: lengths of edges point by point, and regions that change alone."""

import os
import pathlib
import subprocess
import sys
import tempfile
import unittest

import numpy as np

from quadq import Mesh, Names, WishError, read_obj, remesh, write_obj
from quadq.backgrounds import read_background
from quadq.density import region_of, size_of
from quadq.program import Program

from .shapes import drum, grid

VIEW = """View "size" {
SP(0,0,0){0.25};
ST(0,0,0,8,0,0,8,8,0){1,2,2};
SQ(0,0,0,8,8,0,0,8,0,0,4,0){1,2,1,1};
};
"""


def lengths(mesh: Mesh) -> np.ndarray:
    return np.linalg.norm(np.diff(mesh.points[mesh.edges.ends], axis=1)[:, 0], axis=1)


def torus(around: int = 48, across: int = 24) -> Mesh:
    """A torus with the radii 3 and 1, whose axis is z."""
    at, by = np.meshgrid(np.arange(around), np.arange(across), indexing="ij")
    a, b = 2 * np.pi * at / around, 2 * np.pi * by / across
    places = np.stack([(3 + np.cos(b)) * np.cos(a), (3 + np.cos(b)) * np.sin(a), np.sin(b)], -1)

    def number(i, j):
        return (i % around) * across + j % across

    quads = [number(at, by), number(at + 1, by), number(at + 1, by + 1), number(at, by + 1)]
    return Mesh.of_quads(places.reshape(-1, 3), np.stack(quads, -1).reshape(-1, 4))


def middles(mesh: Mesh) -> np.ndarray:
    return mesh.points[mesh.quads].mean(axis=1)


class Places(unittest.TestCase):
    @classmethod
    def setUpClass(cls):
        if not Program().has_fit():
            raise unittest.SkipTest("this program has no command fit")


class Sizes(Places):
    def test_edges_are_as_long_as_is_wished_at_each_point(self):
        mesh = grid(40, 20)
        for unit in (1.0, 1e-4):
            scaled = Mesh.of_quads(mesh.points * unit, mesh.quads)
            result = remesh(scaled, size=lambda at: np.full(len(at), 0.5 * unit))
            self.assertEqual(result.mesh.face_count, 80 * 40)
            self.assertEqual(result.report.sized, 1.0)
            self.assertIn(("edges within a fifth of their wish", "100%"), result.report.facts())

    def test_what_is_wished_in_parts_is_met_in_parts(self):
        # Lines of groups cut the plate in two, so that both halves have arcs of their own.
        mesh = grid(24, 12)
        of_face = (middles(mesh)[:, 0] > 12).astype(np.int64)
        halved = Mesh(mesh.points, mesh.corners, mesh.starts, groups={"usemtl": Names(("a", "b"), of_face)})
        result = remesh(halved, size=np.where(mesh.points[:, 0] < 12, 0.5, 2.0), keep=("materials",))
        new, is_right = result.mesh, result.mesh.points[:, 0] > 12 - 1e-6
        ends = new.edges.ends
        along = np.abs(new.points[ends[:, 0], 1] - new.points[ends[:, 1], 1]) < 1e-9
        self.assertAlmostEqual(lengths(new)[along & is_right[ends].all(axis=1)].mean(), 2.0, delta=0.3)
        self.assertAlmostEqual(lengths(new)[along & ~is_right[ends].any(axis=1)].mean(), 0.5, delta=0.1)

    def test_a_wish_that_cannot_be_met_is_said(self):
        mesh = grid(6, 6)
        report = remesh(mesh, size=np.where(mesh.points[:, 0] < 3, 0.01, 10.0)).report
        self.assertIn("edges", [it.kind for it in report.notices])
        self.assertLess(report.sized, 0.5)

    def test_where_a_size_stands(self):
        mesh = grid(8, 8)
        with tempfile.TemporaryDirectory() as room:
            folder = pathlib.Path(room)
            np.save(folder / "size.npy", np.full(81, 0.5))
            self.assertEqual(size_of(mesh, str(folder / "size.npy")).tolist(), [0.5] * 81)
            view = folder / "size.pos"
            view.write_text(VIEW)
            found = size_of(mesh, str(view))
            right = mesh.points[:, 0] >= mesh.points[:, 1]
            np.testing.assert_allclose(found[right][1:], 1 + mesh.points[right, 0][1:] / 8, atol=1e-9)
            view.write_text('View "vectors" {\nVP(0,0,0){1,0,0};\n};\n')
            for wrong in (view, folder / "none.pos", folder / "none.txt"):
                with self.assertRaisesRegex(WishError, wrong.name):
                    size_of(mesh, str(wrong))
        fielded = Mesh(mesh.points, mesh.corners, mesh.starts, point_fields={"h": np.ones(81)})
        self.assertEqual(size_of(fielded, "h").tolist(), [1.0] * 81)
        for wrong in (np.zeros(81), np.ones(3), np.full(81, np.nan)):
            with self.assertRaises(WishError):
                remesh(mesh, size=wrong)
        for more in ({"faces": 3}, {"density": np.ones(81)}):
            with self.assertRaises(WishError):
                remesh(mesh, size=np.ones(81), **more)

    def test_a_background_of_gmsh_and_of_meshio(self):
        try:
            import meshio
        except ImportError:
            self.skipTest("meshio is not installed")
        points = np.array([[0.0, 0, 0], [4, 0, 0], [4, 4, 0], [0, 4, 0]])
        cells = [("triangle", np.array([[0, 1, 2], [0, 2, 3]]))]
        with tempfile.TemporaryDirectory() as room:
            for name, kind in (("h.msh", "gmsh"), ("h.msh", "gmsh22"), ("h.vtu", None)):
                path = pathlib.Path(room) / name
                meshio.Mesh(points, cells, point_data={"h": np.array([1.0, 3, 3, 1])}).write(path, kind)
                at = np.array([[0.0, 0, 0], [2, 1, 0], [1, 3, 5], [9, 2, 0]])
                np.testing.assert_allclose(read_background(path).at(at), [1, 2, 1.5, 3])
            meshio.Mesh(points, cells).write(path)
            with self.assertRaisesRegex(WishError, "0 fields"):
                read_background(path)

    def test_from_the_command_line(self):
        with tempfile.TemporaryDirectory() as room:
            folder = pathlib.Path(room)
            (folder / "in.obj").write_text(write_obj(grid(8, 8)))
            (folder / "size.pos").write_text('View "half" {\nSP(0,0,0){0.5};\n};\n')
            ran = subprocess.run([sys.executable, "-m", "quadq", "in.obj", "out.obj", "--size", "size.pos"],
                                 cwd=folder, capture_output=True, text=True,
                                 env={**os.environ, "PYTHONPATH": str(pathlib.Path(__file__).parents[1])})
            self.assertEqual(ran.returncode, 0, ran.stderr)
            self.assertIn("edges within a fifth of their wish", ran.stdout)
            self.assertEqual(read_obj((folder / "out.obj").read_text()).face_count, 256)


class Regions(Places):
    def test_the_faces_of_a_region_change_alone(self):
        mesh = torus()
        region = middles(mesh)[:, 0] > 0
        for wishes, inside in (
                ({"share": 2}, 1152), ({"faces": 288}, 288), ({"scale": "2/1"}, 1152), ({"edge": 0.1}, None),
                ({"within": 0.05}, None), ({"size": lambda at: np.full(len(at), 0.1)}, None)):
            result = remesh(mesh, region=region, **wishes)
            there = middles(result.mesh)[:, 0] > 0
            self.assertEqual(int(np.sum(~there)), 576, wishes)
            self.assertNotEqual(int(there.sum()), 576, wishes)
            if inside is not None:
                self.assertEqual(int(there.sum()), inside, wishes)
            old, new = (it.points[it.points[:, 0] < -1e-6] for it in (mesh, result.mesh))
            np.testing.assert_allclose(new[np.lexsort(np.round(new, 4).T)], old[np.lexsort(np.round(old, 4).T)],
                                       atol=2e-6)
            self.assertEqual(result.report.beyond[0], 0)
            self.assertTrue("size" in wishes or "edges" not in [it.kind for it in result.report.notices], wishes)

    def test_rows_that_run_on_outside_are_said(self):
        mesh = grid(12, 12)
        region = np.abs(middles(mesh)[:, :2] - 6).max(axis=1) < 5
        report = remesh(mesh, region=region, scale="3/1").report
        if report.after.faces != 144:
            self.assertIn("region", [it.kind for it in report.notices])

    def test_a_region_is_told_by_faces_or_by_a_group(self):
        mesh = drum()
        of_face = (middles(mesh)[:, 1] > 0).astype(np.int64)
        named = Mesh(mesh.points, mesh.corners, mesh.starts, groups={"usemtl": Names(("low", "high"), of_face)},
                     face_fields={"group:rim": of_face})
        some = np.flatnonzero(of_face)
        for where, given in (("high", None), ("rim", None), ("given", some), ("given", of_face == 1)):
            np.testing.assert_array_equal(np.flatnonzero(region_of(named, where, given)), some)
        for where, given in (("none", None), ("given", np.array([-1])), ("given", np.array([True])), ("given", None)):
            with self.assertRaises(WishError):
                region_of(named, where, given)
        with self.assertRaises(WishError):
            remesh(named, scale=1, region="high", mirror="x")

    def test_a_symmetric_region_keeps_the_mesh_symmetric(self):
        mesh = torus()
        for wished, axis in (("auto", "x"), ("x", "x"), ("y", "y")):
            report = remesh(mesh, region=np.abs(middles(mesh)[:, 0]) > 2, share=2, symmetry=wished).report
            self.assertEqual(report.symmetry, axis)
        region = (middles(mesh) > 0).all(axis=1)
        for wished in ("auto", "x"):
            report = remesh(mesh, region=region, share=2, symmetry=wished).report
            self.assertEqual((report.symmetry, report.mirrors), ("", ""))
            self.assertEqual("asymmetric" in [it.kind for it in report.notices], wished == "x")

    def test_triangles_are_divided_first(self):
        result = remesh(drum(), region=np.arange(24), scale=2, subdivide=True)
        self.assertEqual(result.report.beyond[0], 0)
        self.assertEqual(result.mesh.face_count, 48 * 24 + 48 * 2)


class PaintedDensity(Places):
    def test_what_is_painted_on_one_side_is_not_mirrored_away(self):
        mesh = torus()
        density = np.where(mesh.points[:, 0] < -2, 4.0, 1.0)
        result = remesh(mesh, faces=600, density=density, symmetry="auto")
        self.assertNotEqual(result.report.symmetry, "x")
        left, right = (np.sum(sign * middles(result.mesh)[:, 0] > 0) for sign in (-1, 1))
        self.assertGreater(left, right)


if __name__ == "__main__":
    unittest.main()
