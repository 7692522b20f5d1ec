"""Reading and writing OBJ."""

import pathlib
import unittest
from dataclasses import replace

import numpy as np

from quadq import FormatError, Names, left_out, read_obj, write_obj
from quadq.obj_writing import changed_names

TEXT = """mtllib wood.mtl
o board
v 0 0 0 0.5 0.25 1
v 1 0 0 0.5 0.25 1
v 1 1.5 0 0.5 0.25 1
v 0 1 0 0.5 0.25 0
v 2 0 -1e-3 0.5 0.25 0
v 2 1 0 0.5 0.25 0
vt 0 0
vt 1 0
vn 0 0 1
usemtl oak
f 1/1/1 2/2/1 3/2/1 4/1/1
usemtl ash
s 1
f 2//1 5//1 6//1 3//1
l 2 3
"""


class Obj(unittest.TestCase):
    def test_what_is_read_is_written_again(self):
        self.assertEqual(write_obj(read_obj(TEXT)).replace("-0.001", "-1e-3"), TEXT.replace("o board\n", "").replace(
            "usemtl oak", "usemtl oak\no board"))

    def test_forms_of_lines(self):
        for text in ("v 0 0 0\nv 1 0 0\nv 1 1 0\nv 0 1 0\nf 1 2 3 4\n",
                     "v 0 0 0\r\nv\t1 0 0\r\nv 1 1 \\\r\n 0\r\n v 0 1 0 # note\r\nf -4 -3 -2 -1",
                     "v 0 0 0\nv 1 0 0\nf 1/ 2// 3 4\nv 1 1 0\nv 0 1 0"):
            mesh = read_obj(text)
            self.assertEqual(mesh.quads.tolist(), [[0, 1, 2, 3]])
            self.assertEqual(mesh.points[:, :2].tolist(), [[0, 0], [1, 0], [1, 1], [0, 1]])

    def test_no_obj(self):
        for text in ("v 0 0\n", "v 0 0 x\n", "v 0 0 0\nf 1 1 1 2\n", "v 0 0 0\nf 0 1 1 1\n", "v\n", "v 1 1 0,5\n",
                     "v 0 0 0\nf -2 1 1 1\n", "f a b c d\n"):
            with self.assertRaises(FormatError, msg=text):
                read_obj(text)

    def test_corners_are_read_together_or_one_by_one(self):
        values = "v 0 0 0\nv 1 0 0\nv 1 1 0\nv 0 1 0\nv 2 0 0\nvt 0 0\nvt 1 0\nvn 0 0 1\nvn 0 1 0\nvn 1 0 0\n"
        for faces, rows in (
            ("f 1/1/1 2/2/1 3/2/1 4/1/1\nf 2//1 5//1 3//1\n", [0, 1, 1, 0, -1, -1, -1]),
            ("f 1/1 2/2 3/2 4/1\r\nf 2/1 5/2 3/1 \r\n", [0, 1, 1, 0, 0, 1, 0]),
            ("f 1/1 2/1/3 3 4/1\nf 2/1 5/2 3/1\n", [0, 0, -1, 0, 0, 1, 0]),
            ("f\t1/1  2/2 3/2\t4/ # a face\nf -4/-2 -1/-1 -3/-2\n", [0, 1, 1, -1, 0, 1, 0]),
            ("f 1/1/ 2/2/ 3/2/ 4/1/\nf 2/1/ 5/2/ 3/1/", [0, 1, 1, 0, 0, 1, 0]),
        ):
            mesh = read_obj(values + faces)
            self.assertEqual(mesh.corners.tolist(), [0, 1, 2, 3, 1, 4, 2], faces)
            self.assertEqual(mesh.texture.rows.tolist(), rows, faces)
            self.assertEqual(read_obj((values + faces).encode()).corners.tolist(), mesh.corners.tolist())

    def test_numbers_without_a_blank_between_them(self):
        for text in ("v 1.5.5 0\n", "v 1-2 0\n", "v 0 0 0\nv 0 1-1\n", "v 0 0 0\nf 1-1 1 1\n", "v 1 2 --3\n"):
            with self.assertRaises(FormatError, msg=text):
                read_obj(text)

    def test_what_stands_between_lines_of_one_kind(self):
        text = "".join(f"v {at} {at % 2} 0\ng row {at // 4}\n" for at in range(8)) + "v 9 9 9 1\n"
        mesh = read_obj(text + "f 1 2 3 4\ng row 0\ns off\nf 5 6 7 8\ng row 0\nf 5 6 7 9\n")
        self.assertEqual([mesh.groups["g"].names[it] for it in mesh.groups["g"].of_face], ["row 1", "row 0", "row 0"])
        self.assertEqual(mesh.extra.tolist(), [[0.0]] * 8 + [[1.0]])
        self.assertEqual(write_obj(mesh).count("g row"), 2)

    def test_names_are_written_so_that_the_same_are_read(self):
        square = "v 0 0 0\nv 1 0 0\nv 1 1 0\nv 0 1 0\nv 2 0 0\nv 2 1 0\n"
        text = square + "mtllib a\\ # b\nusemtl a\\ # b\ns \ra\r #\nf 1 2 3 4\ng a#b\\ #c\nf 2 5 6 3\n"
        mesh = read_obj(text)
        self.assertEqual((mesh.groups["usemtl"].names[1], mesh.groups["g"].names[1]), ("a\\", "a#b\\"))
        self.assertEqual(mesh.groups["s"].names[1], "\ra\r")
        again = read_obj(write_obj(mesh))
        self.assertEqual((again.face_count, again.libraries), (2, ("a\\",)))
        self.assertEqual({word: it.names for word, it in again.groups.items()},
                         {word: it.names for word, it in mesh.groups.items()})
        self.assertEqual(changed_names(mesh), [])
        for name, written in (("a\nv 9 9 9", "a v 9 9 9"), ("x #y", "x _#y"), ("#", "_#"), ("a  b\t", "a b")):
            other = replace(mesh, groups={"usemtl": Names(("", name), np.array([1, 1]))}, libraries=())
            again = read_obj(write_obj(other))
            self.assertEqual((again.groups["usemtl"].names[1], again.face_count, len(again.points)), (written, 2, 6))
            self.assertEqual(changed_names(other), [name])
            self.assertIn(repr(name), left_out(pathlib.Path("a.obj"), other)[0])

    def test_an_index_that_reaches_back_before_the_first_line_is_said(self):
        square = "v 0 0 0\nv 1 0 0\nv 1 1 0\nv 0 1 0\n"
        for faces in ("f -4/-1 -3/-1 -2/-1 -1/-1\nvt 0 0\n", "vt 0 0\nf 1/-2 2/-2 3/-2 4/-2\n"):
            mesh = read_obj(square + faces)
            self.assertEqual([it.split()[0] for it in mesh.notes], ["4"], faces)

    def test_numbers_that_are_too_large(self):
        mesh = read_obj("v 0 0 0 1e400\nv 1 0 0 1e305\nv 1 1 0 1e200\nv 0 1 0 7\nvt 1e400 0\nvt 0 1\nvn 0 0 1e301\n"
                        "f 1/1/1 2/2/1 3/2/1 4/2/1\n")
        self.assertEqual((mesh.extra.tolist(), mesh.normal), ([[0.0], [0.0], [1e200], [7.0]], None))
        self.assertEqual(mesh.texture.rows.tolist(), [-1, 0, 0, 0])
        self.assertEqual([it.split()[0] for it in mesh.notes], ["1", "4", "2"])

    def test_nothing(self):
        mesh = read_obj("# an empty file\n")
        self.assertEqual((mesh.face_count, len(mesh.points), write_obj(mesh)), (0, 0, ""))

    def test_faces_of_different_sides(self):
        mesh = read_obj("v 0 0 0\nv 1 0 0\nv 1 1 0\nv 0 1 0\nv 2 0 0\nf 1 2 3 4\nf 2 5 3\n")
        self.assertEqual(mesh.sides.tolist(), [4, 3])
        np.testing.assert_array_equal(mesh.next_corners(), [1, 2, 3, 0, 5, 6, 4])


if __name__ == "__main__":
    unittest.main()
