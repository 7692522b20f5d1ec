"""What tools/mark_features.py marks on small meshes, each with one feature."""

import pathlib
import subprocess
import sys
import tempfile
import unittest

ROOT = pathlib.Path(__file__).resolve().parents[2]
SCRIPT = ROOT / "tools/mark_features.py"

# Two squares side by side; the second line of vertices is that between them.
PAIR = """v 0 0 0
v 0 1 0
v 1 0 0
v 1 1 0
v 2 0 0
v 2 1 0
"""

# Two by two squares, whose middle line turns by 39 degrees at vertex 5 and goes straight on from face to face.
BENT_GRID = """v 0 0 0
v 1 0 0
v 2 0 0
v 0 1 0
v 1 1 0
v 2 1 0
v 0 2 0
v 1.8 2 0
v 2 2 0
usemtl left
f 1 2 5 4
f 4 5 8 7
usemtl right
f 2 3 6 5
f 5 6 9 8
"""


def marked(text, *words):
    """The marked edges, and what was said of them."""
    with tempfile.TemporaryDirectory() as folder:
        path = pathlib.Path(folder) / "in.obj"
        path.write_text(text)
        ran = subprocess.run([sys.executable, SCRIPT, path, *words], capture_output=True, text=True, check=True)
    kept = text if text.endswith("\n") else text + "\n"
    assert ran.stdout.startswith(kept), "the text was changed"
    lines = ran.stdout[len(kept):].splitlines()
    assert all(line.startswith("l ") for line in lines), lines
    return [tuple(map(int, line.split()[1:])) for line in lines], ran.stderr


class MarkFeatures(unittest.TestCase):
    def test_edges_of_a_cube_are_sharp(self):
        edges, said = marked((ROOT / "examples/cube.obj").read_text())
        self.assertEqual(len(edges), 12)
        self.assertEqual(said, "mark_features: marked 12 edges: 12 by angle\n")
        self.assertEqual(marked((ROOT / "examples/cube.obj").read_text(), "--angle", "100")[0], [])

    def test_borders_of_groups(self):
        for word in ("usemtl", "g", "o"):
            text = PAIR + f"{word} one\nf 1 3 4 2\n{word} other\nf 3 5 6 4"
            self.assertEqual(marked(text, "--groups")[0], [(3, 4)])
            self.assertEqual(marked(text)[0], [])

    def test_seams_are_where_values_differ_and_not_numbers(self):
        values = "vt 0 0\nvt 1 0\nvt 1 1\nvt 0 1\nvt 1 0\n"
        same = PAIR + values + "f 1/1 3/2 4/3 2/4\nf 3/5 5/1 6/4 4/3\n"
        self.assertEqual(marked(same, "--seams")[0], [])
        other = same.replace("4/3\n", "4/1\n")
        self.assertEqual(marked(other, "--seams")[0], [(3, 4)])
        self.assertEqual(marked(other)[0], [])

    def test_normals_count_where_a_face_is_smooth(self):
        values = "vn 0 0 1\nvn 0 1 0\nvn 1 0 0\n"
        flat = PAIR + values + "f 1//1 3//1 4//1 2//1\nf 3//2 5//2 6//2 4//2\n"
        self.assertEqual(marked(flat, "--normals")[0], [])
        smooth = flat.replace("5//2", "5//3")
        self.assertEqual(marked(smooth, "--normals")[0], [(3, 4)])

    def test_a_corner_of_the_boundary_with_two_faces(self):
        bent = PAIR.replace("v 2 0 0\nv 2 1 0", "v 1 -1 0\nv 2 1 0") + "f 1 3 4 2\nf 3 5 6 4\n"
        edges, said = marked(bent)
        self.assertEqual(edges, [(3, 4)])
        self.assertIn("1 at corners of the boundary", said)
        self.assertEqual(marked(bent, "--no-corners")[0], [])

    def test_a_line_that_turns_from_face_to_face(self):
        edges, said = marked(BENT_GRID, "--groups")
        self.assertEqual(edges, [(2, 5), (4, 5), (5, 8)])
        self.assertIn("1 at turns of lines", said)
        self.assertEqual(marked(BENT_GRID, "--groups", "--angle", "50")[0], [(2, 5), (5, 8)])


if __name__ == "__main__":
    unittest.main()
