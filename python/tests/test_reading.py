"""What the package makes of texts and arrays: the program judges, and refusals are its own, at its places."""

import pathlib
import tempfile
import unittest
from dataclasses import replace
from fractions import Fraction

import numpy as np

from quadq import FormatError, Mesh, MeshError, Program, Refusal, read, read_obj, remesh, subdivide, write
from quadq.carried import carried
from quadq.mesh import join
from quadq.obj import Unlike, scan
from quadq.reading import in_fours, read_judged

from .shapes import EXAMPLES, SEEDS, grid, moved

SQUARE = "v 0 0 0\nv 1 0 0\nv 1 1 0\nv 0 1 0\n"
SHIFTED = "v 9 9 9\nv 8 9 9\nv 8 8 9\nv 9 8 9\n"


def mesh_of(text: str) -> Mesh:
    return read_judged(text.encode("utf-8", "surrogateescape"), Program())


def refusal_of(text: str, polygons: bool = False) -> Refusal:
    try:
        read_judged(text.encode("utf-8", "surrogateescape"), Program(), polygons)
    except Refusal as said:
        return said
    raise AssertionError(f"{text!r} was taken")


class Lines(unittest.TestCase):
    def test_a_comment_that_ends_in_a_backslash_does_not_go_on(self):
        for text in ("# C:\\models\\\n" + SQUARE + "f 1 2 3 4\n", SQUARE + "# C:\\models\\\nf 1 2 3 4\n",
                     SQUARE + "f 1 2 3 4 # C:\\models\\\nf 2 1 4 3\n".replace("f 2 1 4 3\n", "")):
            self.assertEqual(mesh_of(text).quads.tolist(), [[0, 1, 2, 3]], text)

    def test_names_have_signs_of_comments(self):
        text = SQUARE + "usemtl Color_#ff0000 # red\nf 1 2 3 4\nusemtl #00ff00\nf 4 3 2 1\n"
        self.assertEqual(read_obj(text).groups["usemtl"].names, ("", "Color_#ff0000", "#00ff00"))
        tool = carried("obj_text")
        self.assertEqual([it[2] for it in tool.read_obj(text).names], ["Color_#ff0000", "#00ff00"])

    def test_lines_end_at_line_feeds_alone(self):
        for sign in ("\x0c", "\x0b", "\x1c", "\x85", "\u2028", "\r"):
            text = f"o a{sign}b\n{SQUARE}f 1 2 3 4\n"
            self.assertEqual(mesh_of(text).face_count, 1, repr(sign))
            self.assertEqual(read_obj(text).groups["o"].names[1], f"a{sign}b")

    def test_what_the_program_refuses_is_refused_in_its_words_in_files_of_several_parts(self):
        two = SQUARE + "f 1 2 3 4\n" + SHIFTED
        for line, status in (("v 1 1", 3), ("v 1_0 0 0", 3), ("v \u0661 0 0", 3), ("v 1\x0b0 0", 3), ("f 5 6 7 99", 5),
                             ("f -1 0 -3 -4", 5), ("v nan 0 0", 3), ("v inf 0 0", 3), ("v 1e400 0 0", 5),
                             ("f 5 6 7 18446744073709551615", 5), ("f -99 6 7 8", 5), ("f 5 6 7", 4), ("f a b c d", 3)):
            text = f"{two}{line}\nf 5 6 7 8\n"
            said = refusal_of(text)
            self.assertEqual(said.status, status, line)
            with self.assertRaises(Refusal) as own:
                Program().tidy(text.encode())
            self.assertEqual((own.exception.status, own.exception.line), (said.status, said.line))
            self.assertTrue(said.line.startswith("line 10: "), said.line)

    def test_corners_may_name_texture_that_is_not_there(self):
        mesh = mesh_of(SQUARE + "f 1/1 2/2 3/0 4/99999999999999999999\n")
        self.assertEqual((mesh.face_count, mesh.texture, mesh.notes),
                         (1, None, ("4 corners name vt lines that are not there, and have no texture coordinates",)))
        mixed = mesh_of(SQUARE + "vt 0 0\nvt 1,5 0\nvt 1 1\nf 1/1 2/2 3/3 4/4\n")
        self.assertEqual(mixed.texture.rows.tolist(), [0, -1, 1, -1])

    def test_texts_that_are_none(self):
        page = "<!DOCTYPE html>\n<html><head><title>404</title></head></html>\n"
        for data, status, words in (
            (b"", 4, "no faces"), (page.encode(), 4, "no faces"),
            ((SQUARE + "f 1 2 3 4\n").encode("utf-16"), 3, "UTF-16"),
            (b"\xef\xbb\xbf" + (SQUARE + "f 1 2 3 4\n").encode(), 3, "byte order mark"), (b"\0\0\0", 3, "no text"),
        ):
            with self.assertRaises(Refusal) as caught:
                read_judged(data, Program())
            self.assertEqual(caught.exception.status, status)
            self.assertIn(words, caught.exception.line)
        marked = b"\xef\xbb\xbf# made by hand\n" + (SQUARE + "f 1 2 3 4\n").encode()
        self.assertEqual(read_judged(marked, Program()).face_count, 1)

    def test_all_readers_agree_on_the_seeds(self):
        tool = carried("obj_text")
        for path in sorted(SEEDS.glob("*.obj")):
            text = path.read_bytes()
            try:
                obj = tool.read_obj(text, polygons=True)
            except tool.ObjError as error:
                with self.assertRaises(FormatError) as caught:
                    read_obj(text)
                self.assertEqual((caught.exception.status, caught.exception.line), (error.status, error.line))
                continue
            mesh = read_obj(text)
            self.assertEqual(mesh.corners.tolist(), [it.vertex for face in obj.faces for it in face], path.name)
            try:
                self.assertEqual(scan(text).mesh().corners.tolist(), mesh.corners.tolist())
            except Unlike:
                pass


class Arrays(unittest.TestCase):
    def test_arrays_that_are_no_mesh(self):
        points = np.zeros((4, 3))
        for wrong in ([[0, 1, 2]] * 4, [[0, 1, 2, 4]], [[0, 1, 2, -1]], [0, 1, 2, 3]):
            with self.assertRaises(MeshError, msg=str(wrong)):
                Mesh.of_quads(points, wrong)
        with self.assertRaises(MeshError):
            Mesh.of_quads(np.zeros((4, 2)), [[0, 1, 2, 3]])
        strange = grid(2, 2)
        with self.assertRaisesRegex(MeshError, "names the point"):
            remesh(replace(strange, corners=strange.corners + 7), scale=1)

    def test_a_text_of_another_mesh(self):
        with self.assertRaisesRegex(MeshError, "another mesh"):
            remesh(grid(2, 2), scale=1, text=(EXAMPLES / "cube.obj").read_bytes())

    def test_the_name_of_a_file_is_no_text(self):
        with self.assertRaisesRegex(MeshError, "quadq.read"):
            read_obj("a.obj")
        self.assertEqual(read(EXAMPLES / "cube.obj").face_count, 6)

    def test_places_out_of_range(self):
        mesh = join([grid(2, 2), moved(grid(1, 1), 9)])
        points = mesh.points.copy()
        points[11, 1] = np.nan
        with self.assertRaises(Refusal) as caught:
            remesh(replace(mesh, points=points), scale=1)
        self.assertEqual((caught.exception.status, caught.exception.vertices), (3, (11,)))


class Polygons(unittest.TestCase):
    BOOK = SQUARE + "v 2 0 0\nv 2 1 0\nv 1 2 0\n"

    def test_lines_of_texts_with_polygons(self):
        for text, words in ((self.BOOK + "f 1 2 3\nf 1 3\n", "line 9: face with 2 corners"),
                            (self.BOOK + "f 1 2 3\nv 0 0 x\n", "line 9: not an OBJ line of this profile"),
                            (self.BOOK + "f 1 2 3 4 5 \\\n 99\n", "line 8: number out of range"),
                            (self.BOOK + "# one\nf 1 2 3\n\nf 1 -9 3 4\n", "line 11: number out of range")):
            self.assertEqual(refusal_of(text, polygons=True).line, words)
        fours, numbers = in_fours(b"v 0 0 0\n\nf 1 2 3 4 5 6 7\\\n 8 9\nf 1 2 3 4\n")
        self.assertEqual((fours.count(b"f "), numbers), (4, [1, 2, 3, 3, 3, 5]))

    def test_a_corner_that_is_a_long_word(self):
        text = self.BOOK + "f 1 2 3 4 " + "0" * 60_000 + "5\n"
        self.assertEqual(read_judged(text.encode(), Program(), polygons=True).sides.tolist(), [5])
        near = "f 1 2 " + "0" * (65_536 - 7) + "3\n"
        self.assertEqual(read_judged((self.BOOK + near).encode(), Program(), polygons=True).sides.tolist(), [3])
        said = refusal_of(self.BOOK + near.replace("f ", "f  "), polygons=True)
        self.assertEqual((said.status, said.line), (6, "line 8: limit: line"))
        said = refusal_of(self.BOOK + "f 1 2 3 4 " + "9" * 60_000 + "\n", polygons=True)
        self.assertEqual((said.status, said.line), (5, "line 8: number out of range"))

    def test_a_backslash_before_a_blank_joins_no_lines(self):
        for line in ("v 0 0 0 \\ ", "v 0 0 0\\ ", "f 1 2 3\\ ", "f 1 2 3 4 5 \\ ", "f 1 2 3 \\ 4 5 6"):
            for after in ("f 1 2 3\n", "\nf 1 2 3\n", "# one\nf 1 2 3\n"):
                said = refusal_of(f"{self.BOOK}{line}\n{after}", polygons=True)
                self.assertEqual((said.status, said.line), (3, "line 8: not an OBJ line of this profile"), line)

    def test_refusals_name_old_faces(self):
        turned = self.BOOK + "f 1 2 3 4\nf 2 3 6 5\nf 4 3 7\n"
        for text, words, faces in (
            (turned, "edge 2 3: faces 1 and 2", (0, 1)),
            (self.BOOK + "f 1 2 3 4\nf 5 6 2 2\nf 3 6 7\n", "face 2: vertex 2 repeated", (1,)),
            (self.BOOK + "v 3 3 0\nv 3 4 0\nf 1 2 3\nf 3 8 9\n", "vertex 3: two fans", ()),
        ):
            with self.assertRaises(Refusal) as caught:
                remesh(read_judged(text.encode(), Program(), polygons=True), scale=1, subdivide=True)
            self.assertEqual((caught.exception.status, caught.exception.line), (7, words))
            self.assertEqual(caught.exception.faces, faces)

    def test_all_that_are_no_quads_are_told(self):
        said = refusal_of(self.BOOK + "f 1 2 3 4\nf 2 5 6\nf 2 6 3\n")
        self.assertEqual((said.line, said.faces), ("line 9: face with 3 corners", (1, 2)))
        self.assertIn("1 more faces are no quads", str(said))

    def test_quads_and_triangles_are_divided(self):
        mesh = read_judged((self.BOOK + "f 1 2 3 4\nf 2 5 6\nf 2 6 3\n").encode(), Program(), polygons=True)
        self.assertEqual(remesh(mesh, scale=1, subdivide=True).mesh.face_count, subdivide(mesh).face_count)


class Units(unittest.TestCase):
    def test_small_and_great_units_are_scaled_and_it_is_said(self):
        for factor in (1e-6, 2.0 ** -20, 1e9):
            ball = read_obj((EXAMPLES / "letter_q.obj").read_text())
            small = replace(ball, points=ball.points * factor)
            result = remesh(small, scale="1/2")
            plain = remesh(ball, scale="1/2")
            self.assertEqual(result.mesh.quads.tolist(), plain.mesh.quads.tolist())
            np.testing.assert_allclose(result.mesh.points / factor, plain.mesh.points, atol=2e-6)
            self.assertIn("scaled", [it.kind for it in result.report.notices])
            self.assertAlmostEqual(result.report.after.mean_edge / factor, plain.report.after.mean_edge, 5)
            self.assertIsNone(result.text)

    def test_a_file_of_micrometres(self):
        with tempfile.TemporaryDirectory() as room:
            path = pathlib.Path(room) / "small.obj"
            mesh = grid(8, 8)
            write(path, replace(mesh, points=mesh.points * 1e-7))
            self.assertEqual(read(path).points.max(), 8e-7)
            self.assertAlmostEqual(remesh(read(path), scale="1/2").mesh.points.max(), 8e-7, 15)

    def test_lengths_of_edges_go_with_the_unit(self):
        mesh = grid(40, 30)
        report = remesh(replace(mesh, points=mesh.points * 2.0 ** -22), edge=2.5 * 2.0 ** -22).report
        self.assertEqual((report.after.faces, float(report.edge)), (16 * 12, 2.5 * 2.0 ** -22))
        self.assertEqual(remesh(mesh, scale=Fraction(1, 2), rescale=True).mesh.face_count, 300)


class Formats(unittest.TestCase):
    def setUp(self):
        try:
            import meshio
        except ImportError:
            self.skipTest("meshio is not here")
        self.meshio = meshio
        room = tempfile.TemporaryDirectory()
        self.addCleanup(room.cleanup)
        self.room = pathlib.Path(room.name)

    def written(self, name, cells, **more):
        points = np.array([[x, y, 0.0] for y in range(5) for x in range(5)])
        self.meshio.Mesh(points, cells, **more).write(self.room / name, "gmsh22" if name.endswith(".msh") else None)
        return self.room / name

    def test_triangles_beside_quads_are_not_dropped(self):
        quads = grid(4, 4).quads
        path = self.written("both.msh", [("quad", quads[:-1]), ("triangle", np.array([[18, 19, 24], [18, 24, 23]]))])
        with self.assertRaises(Refusal) as caught:
            remesh(read(path), scale=1)
        self.assertEqual((caught.exception.status, caught.exception.faces), (4, (15, 16)))
        self.assertEqual(remesh(read(path, polygons=True), scale=1, subdivide=True).mesh.face_count, 15 * 4 + 2 * 3)

    def test_groups_and_lines_come_and_go(self):
        tags = [np.array([7] * 8 + [9] * 8), np.array([1, 1])]
        path = self.written("named.msh", [("quad", grid(4, 4).quads), ("line", np.array([[0, 1], [1, 2]]))],
                            cell_data={"gmsh:physical": tags, "gmsh:geometrical": tags},
                            field_data={"wall": np.array([7, 2]), "lid": np.array([9, 2])})
        mesh = read(path)
        self.assertEqual(sorted(mesh.groups["g"].names), ["lid", "wall"])
        self.assertEqual(len(mesh.lines), 2)
        write(self.room / "out.msh", mesh)
        again = read(self.room / "out.msh")
        self.assertEqual([again.groups["g"].names[it] for it in again.groups["g"].of_face],
                         [mesh.groups["g"].names[it] for it in mesh.groups["g"].of_face])
        np.testing.assert_array_equal(again.quads, mesh.quads)

    def test_what_cannot_be_read(self):
        (self.room / "broken.msh").write_text("$MeshFormat\nnonsense\n")
        (self.room / "a.fbx").write_bytes(b"Kaydara FBX Binary")
        curved = self.written("curved.vtk", [("quad8", np.arange(8).reshape(1, 8))])
        for path, status in ((self.room / "broken.msh", 3), (self.room / "a.fbx", 3), (self.room / "no.msh", 12),
                             (curved, 4), (self.room / "no.obj", 12)):
            with self.assertRaises(Refusal) as caught:
                read(path)
            self.assertEqual(caught.exception.status, status, path.name)

    def test_what_is_written_is_as_its_name_says(self):
        for name in ("out.msh", "out.ply", "out.vtk", "out.obj", "out"):
            write(self.room / name, grid(3, 2))
            if name != "out":
                self.assertEqual(read(self.room / name).face_count, 6, name)
        with self.assertRaises(ValueError):
            write(self.room / "out.fbx", grid(1, 1))
        self.assertFalse((self.room / "out.fbx").exists())


if __name__ == "__main__":
    unittest.main()
