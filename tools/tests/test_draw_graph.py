"""What tools/layout_text.py reads of a layout, and what tools/draw_graph.py draws of it."""

import os
import pathlib
import subprocess
import sys
import tempfile
import unittest

ROOT = pathlib.Path(__file__).resolve().parents[2]
sys.path.insert(0, str(ROOT / "tools"))
from draw_graph import read_lengths, read_mesh  # noqa: E402
from layout_text import cut_options, patches_of, read_layout  # noqa: E402

PROGRAM = os.environ.get("QUADQ", str(ROOT / "dist/quadq"))
CUBE, LETTER, MARKED = (ROOT / f"examples/{name}.obj" for name in ("cube", "letter_q", "marked_grid"))
COARSE = ["coarse", "--scale", "1/2", "--floor", "3", "--weight", "plain"]


def ran(words, path):
    """What the program writes for a mesh."""
    with open(path, "rb") as text:
        return subprocess.run([PROGRAM, *words], stdin=text, capture_output=True, text=True, check=True).stdout


def layout(path, kept="none", patches="traced"):
    return ran(["layout", "--keep", kept, "--patches", patches], path)


class Drawing(unittest.TestCase):
    def setUp(self):
        if not os.access(PROGRAM, os.X_OK):
            self.skipTest("the program is not there")

    def draw(self, mesh, *texts, status=0):
        """The SVG, or what the script says. After the layout stand options, with texts in place of paths."""
        with tempfile.TemporaryDirectory() as folder:
            words = [sys.executable, str(ROOT / "tools/draw_graph.py"), str(mesh)]
            for at, text in enumerate(texts):
                path = pathlib.Path(folder) / str(at)
                path.write_text(text)
                words.append(text if text.startswith("--") else str(path))
            done = subprocess.run(words, capture_output=True, text=True)
        self.assertEqual(done.returncode, status, done.stderr)
        return done.stderr if status else done.stdout

    def test_patches_of_a_cube_that_merge(self):
        _, faces, _ = read_mesh(CUBE)
        for patches, count, arcs in (("traced", 6, 12), ("merged", 3, 9)):
            cut = read_layout(layout(CUBE, patches=patches))
            self.assertEqual((len(cut.sides), cut.old_lengths()), (count, [1] * arcs))
            self.assertEqual(len(patches_of(faces, cut.edges())[1]), count)
        self.assertEqual(cut.sizes([2] * 9), [(2, 8), (2, 2), (2, 2)])
        with self.assertRaises(ValueError):
            cut.sizes([1])

    def test_faces_lie_in_patches_as_large_as_the_text_says(self):
        _, faces, lines = read_mesh(MARKED)
        self.assertEqual((len(faces), lines), (4, {(3, 4)}))
        cuts = (LETTER, "none", "traced"), (LETTER, "none", "merged"), (MARKED, "lines", "traced")
        for path, kept, patches in cuts:
            cut, (_, faces, _) = read_layout(layout(path, kept, patches)), read_mesh(path)
            of_face, neighbours = patches_of(faces, cut.edges())
            sizes = [of_face.count(it) for it in range(len(neighbours))]
            self.assertEqual(sizes, [wide * high for wide, high in cut.sizes(cut.old_lengths())])

    def test_what_is_drawn(self):
        traced, merged = layout(LETTER), layout(LETTER, patches="merged")
        faces = LETTER.read_text().count("\nf ")
        gone = len(read_layout(traced).edges() - read_layout(merged).edges())
        for svg, dashed in ((self.draw(LETTER, traced), 0), (self.draw(LETTER, merged, "--before", traced), gone)):
            self.assertLessEqual(svg.count('<path class="c'), faces)
            self.assertEqual(svg.count('class="d"') > 0, dashed > 0)
        new = ran(COARSE, LETTER)
        svg = self.draw(LETTER, merged, "--written", new)
        self.assertLessEqual(svg.count('<path class="c'), new.count("\nf "))
        self.assertIn("has 84 arcs, and the text 48", self.draw(LETTER, traced, "--written", new, status=1))
        self.assertIn("begins with `quadq layout 1`", self.draw(LETTER, "quadq graph 1\n", status=1))

    def test_the_lengths_of_a_text_are_those_of_its_last_certificate(self):
        with tempfile.TemporaryDirectory() as folder:
            path = pathlib.Path(folder) / "out.obj"
            for text, lengths in (("#x 1\n#x 2\n", [1, 2]), ("#f 1\n#x 1\n#x 2\n#f 3\n#x 3\n#x 4\n", [3, 4]),
                                  ("#f 1\n#x 1\n#r 1 2\n#x 2\n#y 0 0\n#r 1 3\n#x 3\n#y 0 0\n", [3])):
                path.write_text(text)
                self.assertEqual(read_lengths(path), lengths)

    def test_the_cut_of_a_text(self):
        for head, kept, patches in (
            ("#quadq 1 remesh scale 1/2 floor 1 weight plain", "none", "traced"),
            ("#quadq 1 crease scale 1/2 floor 1 weight plain", "lines", "traced"),
            ("#quadq 1 coarse scale 1/2 floor 1 weight plain", "none", "merged"),
            ("#quadq 1 fit keep lines patches conforming aim lines floor 1 weight plain", "lines", "conforming"),
        ):
            self.assertEqual(cut_options(f"{head}\n"), ["--keep", kept, "--patches", patches])


if __name__ == "__main__":
    unittest.main()
