"""Files of other formats: what stands in them comes in, what can goes out, and what does not is named."""

import contextlib
import io
import pathlib
import subprocess
import tempfile
import unittest
from dataclasses import replace

import numpy as np

from quadq import Mesh, Names, Refusal, WishError, read, remesh, write
from quadq.__main__ import main
from quadq.groups import edges_by_group, length_of

from .shapes import grid, plate
from .test_groups import grouped, sides_of

try:
    import meshio
except ImportError:
    meshio = None

PLATE = """SetFactory("OpenCASCADE");
Rectangle(1) = {0, 0, 0, 4, 4}; Disk(2) = {0, 0, 0, 1};
BooleanDifference(3) = { Surface{1}; Delete; }{ Surface{2}; Delete; };
Physical Surface("steel plate") = {3}; Physical Curve("hole") = {1}; Physical Curve("left") = {2};
Physical Curve("outer") = {2, 3, 4, 5}; Mesh.RecombineAll = 1; Mesh.MeshSizeMax = 0.5;
"""


def full():
    """A mesh with all that a file may have."""
    mesh = plate()
    is_left = mesh.points[mesh.quads].mean(axis=1)[:, 0] < 9
    mesh = grouped(mesh, sides_of(mesh, 0, 24), Names(("steel", "soft iron"), np.where(is_left, 0, 1)))
    return replace(mesh, point_fields={"T": mesh.points[:, 0], "shift": mesh.points * 0.5},
                   face_fields={"flux": np.arange(540.0), "group:hot": (np.arange(540) < 40).astype(np.int32)})


def groups_of(mesh: Mesh):
    found = {name: round(length_of(mesh, some), 9) for name, some in edges_by_group(mesh).items()}
    if "usemtl" in mesh.groups:
        it = mesh.groups["usemtl"]
        found.update({it.names[at]: int(np.sum(it.of_face == at)) for at in np.unique(it.of_face)})
    return found


class Room(unittest.TestCase):
    def setUp(self):
        room = tempfile.TemporaryDirectory()
        self.addCleanup(room.cleanup)
        self.room = pathlib.Path(room.name)


class Off(Room):
    def test_there_and_back(self):
        mesh = plate()
        self.assertEqual(write(self.room / "a.off", mesh), ())
        again = read(self.room / "a.off")
        np.testing.assert_array_equal(again.points, mesh.points)
        np.testing.assert_array_equal(again.corners, mesh.corners)

    def test_what_others_write(self):
        (self.room / "a.off").write_text("COFF # colours\n4 2 0\n0 0 0 9 9 9\n1 0 0 9 9 9\n# here\n1 1 0 9 9 9\n"
                                         "0 1 0 9 9 9\n\n3 0 1 2 0.5 0 0\n3 0 2 3\n")
        mesh = read(self.room / "a.off")
        self.assertEqual((mesh.face_count, len(mesh.notes)), (2, 1))

    def test_what_is_none(self):
        for text, words in (("ply\n", "no OFF"), ("4OFF 1 1 0\n", "no OFF"), ("OFF\n", "missing"),
                            ("OFF 3 1 0\n", "0 lines"), ("OFF 1 0 0\n0 x 0\n", "line 2"),
                            ("OFF 1 1 0\n0 0 0\n3 0 0 1\n", "line 3"), ("OFF 1 0 0\n0 0 0\n", "no faces")):
            (self.room / "a.off").write_text(text)
            with self.assertRaises(Refusal) as caught:
                read(self.room / "a.off")
            self.assertIn(words, str(caught.exception))


@unittest.skipIf(meshio is None, "meshio is not here")
class Through(Room):
    def test_groups_and_fields_stand_in_files(self):
        mesh = full()
        for name in ("a.msh", "a.vtk", "a.vtu", "a.inp"):
            self.assertEqual(len(write(self.room / name, mesh)), 1 if name == "a.inp" else 0, name)
            again = read(self.room / name)
            self.assertEqual(groups_of(again), groups_of(mesh), name)
            np.testing.assert_array_equal(again.face_fields["group:hot"], mesh.face_fields["group:hot"])
            if name != "a.inp":
                np.testing.assert_allclose(again.point_fields["shift"], mesh.point_fields["shift"])
                np.testing.assert_allclose(again.face_fields["flux"], mesh.face_fields["flux"])

    def test_both_versions_of_gmsh_are_written_where_that_is_asked(self):
        mesh = full()
        for form, version in ((None, b"2.2"), ("gmsh22", b"2.2"), ("gmsh", b"4.1")):
            self.assertEqual(write(self.room / "a.msh", mesh, format=form), ())
            self.assertEqual((self.room / "a.msh").read_bytes().split()[1], version)
            again = read(self.room / "a.msh")
            self.assertEqual(groups_of(again), groups_of(mesh))
            np.testing.assert_allclose(again.point_fields["T"], again.points[:, 0])
            self.assertEqual(sorted(again.face_fields["flux"]), sorted(mesh.face_fields["flux"]))
        write(self.room / "in.msh", mesh)
        out = str(self.room / "out.msh")
        with contextlib.redirect_stdout(io.StringIO()):
            self.assertEqual(main([str(self.room / "in.msh"), out, "--scale", "1/2", "--format", "gmsh"]), 0)
        self.assertEqual(pathlib.Path(out).read_bytes().split()[1], b"4.1")
        for name in ("a.obj", "a.vtu"):
            with self.assertRaises(WishError):
                write(self.room / name, mesh, format="gmsh")

    def test_a_group_of_edges_without_a_point_of_its_own_is_refused_in_version_4(self):
        mesh = grid(1, 1)
        edge = mesh.edges.ends[0]
        named = replace(mesh, lines=(edge,) * 3, line_names=("a", "b", "c"))
        self.assertEqual(write(self.room / "a.msh", named), ())
        with self.assertRaisesRegex(Refusal, "no point that is in no other group"):
            write(self.room / "a.msh", named, format="gmsh")

    def test_they_are_there_after_a_remesh(self):
        for name in ("a.msh", "a.vtk", "a.vtu", "a.inp"):
            write(self.room / name, full())
            result = remesh(read(self.room / name), scale="2/1")
            write(self.room / name, result.mesh)
            again = read(self.room / name)
            found = groups_of(again)
            self.assertEqual((found["steel"] + found["soft iron"], found["left"]), (again.face_count, 24), name)
            if name != "a.inp":
                np.testing.assert_allclose(again.point_fields["T"], again.points[:, 0], atol=1e-5)

    def test_elements_of_abaqus_are_plain_ones(self):
        write(self.room / "a.inp", full())
        text = (self.room / "a.inp").read_text()
        for line in ("*ELEMENT, TYPE=S4\n", "*ELEMENT, TYPE=T3D2\n", "*ELSET, ELSET=soft iron\n"):
            self.assertTrue(line in text, line)

    def test_node_sets_are_groups_of_edges(self):
        mesh = meshio.Mesh(grid(4, 4).points, [("quad", grid(4, 4).quads)],
                           point_sets={"fixed": np.arange(5), "load": np.array([12])})
        mesh.write(self.room / "a.inp")
        found = read(self.room / "a.inp")
        self.assertEqual(groups_of(found), {"fixed": 4.0})
        self.assertTrue(any("load" in it for it in found.notes))

    def test_formats_without_quads_or_groups_say_so(self):
        mesh = full()
        for name, words in (("a.stl", "two triangles"), ("a.ply", "the field shift"), ("a.off", "the field flux"),
                            ("a.obj", "the field T"), ("a.mesh", "numbers")):
            self.assertTrue(any(words in it for it in write(self.room / name, mesh)), name)
            count = mesh.face_count * (2 if name == "a.stl" else 1)
            self.assertEqual(read(self.room / name, polygons=True).face_count, count)
        self.assertIn("g hole\nl ", (self.room / "a.obj").read_text())

    def test_formats_that_lose_quads_are_refused(self):
        for name in ("a.xdmf", "a.tetgen.node", "a.su2"):
            with self.assertRaises((Refusal, WishError)):
                write(self.room / name, full())
            self.assertFalse((self.room / name).exists())

    def test_polygons_and_triangles_are_not_dropped(self):
        corners = np.array([0, 1, 6, 5, 1, 2, 7, 2, 3, 9, 8, 7, 1, 7, 6])
        mesh = Mesh(grid(4, 4).points, corners, np.array([0, 4, 7, 12, 15]))
        for name in ("a.vtu", "a.vtk", "a.ply", "a.off"):
            write(self.room / name, mesh)
            self.assertEqual(read(self.room / name, polygons=True).face_count, 4, name)
            with self.assertRaises(Refusal) as caught:
                remesh(read(self.room / name), scale=1)
            self.assertEqual((caught.exception.status, len(caught.exception.faces)), (4, 3))

    def test_a_face_that_is_there_for_each_group_is_one(self):
        quads, tags = grid(2, 1).quads, np.array([1, 2, 3])
        cells = meshio.Mesh(grid(2, 1).points, [("quad", quads[[0, 1, 0]])], cell_data={
            "gmsh:physical": [tags], "gmsh:geometrical": [tags]}, field_data={
                "one": np.array([1, 2]), "other": np.array([2, 2]), "again": np.array([3, 2])})
        cells.write(self.room / "a.msh", "gmsh22")
        mesh = read(self.room / "a.msh")
        self.assertEqual((mesh.face_count, groups_of(mesh)), (2, {"one": 1, "other": 1}))
        self.assertEqual(mesh.face_fields["group:again"].tolist(), [1, 0])

    def test_groups_of_one_name(self):
        mesh = grid(4, 4)
        mesh = grouped(mesh, sides_of(mesh, 0, 4), Names(("left", "7"), (np.arange(16) > 3).astype(int)))
        self.assertTrue(any(".edges" in it for it in write(self.room / "a.msh", mesh)))
        self.assertEqual(groups_of(read(self.room / "a.msh"))["left.edges"], 4)
        self.assertEqual(groups_of(read(self.room / "a.msh"))["7"], 12)

    def test_the_command_line_says_what_is_lost(self):
        write(self.room / "a.vtu", full())
        err = io.StringIO()
        with contextlib.redirect_stdout(io.StringIO()) as out, contextlib.redirect_stderr(err):
            self.assertEqual(main([str(self.room / "a.vtu"), str(self.room / "b.off"), "--scale", "1/2"]), 0)
        self.assertIn("warning: not in .off files, and left out: groups of faces", err.getvalue())
        self.assertIn("fields carried over", out.getvalue())


@unittest.skipIf(meshio is None, "meshio is not here")
class OfGmsh(Room):
    def made(self, name, *words):
        (self.room / "plate.geo").write_text(PLATE)
        try:
            subprocess.run(["gmsh", "-2", "-v", "1", *words, "plate.geo", "-o", name], cwd=self.room, check=True,
                           capture_output=True, timeout=60)
        except FileNotFoundError:
            self.skipTest("gmsh is not here")
        return read(self.room / name)

    def test_both_versions_and_abaqus(self):
        wanted = {"hole": 1.560722576, "left": 3.0, "outer": 14.0}
        for name, *words in (("a.msh", "-format", "msh22"), ("b.msh", "-format", "msh41"),
                             ("c.msh", "-format", "msh22", "-bin"), ("d.msh", "-format", "msh41", "-bin"), ("e.inp",)):
            mesh = self.made(name, *words)
            found = groups_of(mesh)
            self.assertEqual({it: found[it] for it in wanted}, wanted, name)
            self.assertEqual(found["steel_plate" if name == "e.inp" else "steel plate"], mesh.face_count)
            new = remesh(mesh, scale="2/1").mesh
            after = groups_of(new)
            self.assertEqual({it: after[it] for it in ("left", "outer")}, {"left": 3.0, "outer": 14.0})

    def test_gmsh_reads_what_is_written(self):
        write(self.room / "new.msh", remesh(self.made("a.msh"), scale="3/2").mesh)
        ran = subprocess.run(["gmsh", "-0", "-v", "3", "new.msh", "-format", "msh22", "-o", "again.msh"], cwd=self.room,
                             capture_output=True, text=True, timeout=60)
        self.assertNotIn("Error", ran.stdout + ran.stderr)
        self.assertEqual(groups_of(read(self.room / "again.msh")), groups_of(read(self.room / "new.msh")))


if __name__ == "__main__":
    unittest.main()
