"""Several levels of detail in one run."""

import contextlib
import io
import pathlib
import tempfile
import unittest

from quadq import WishError, read_obj, remesh, write_obj
from quadq.__main__ import main
from quadq.levels import path_of, shares_of

from .shapes import EXAMPLES, drum


class Levels(unittest.TestCase):
    def run_with(self, *words: str) -> tuple:
        out, err = io.StringIO(), io.StringIO()
        with contextlib.redirect_stdout(out), contextlib.redirect_stderr(err):
            status = main(list(words))
        return status, out.getvalue(), err.getvalue()

    def test_a_file_for_each_level_from_the_original(self):
        with tempfile.TemporaryDirectory() as name:
            folder = pathlib.Path(name)
            mesh = drum(32, 16)
            (folder / "in.obj").write_text(write_obj(mesh))
            status, out, _ = self.run_with(
                f"{name}/in.obj", f"{name}/out.obj", "--lods", "1/2,1/4,1/8", "--report", f"{name}/page.html")
            self.assertEqual(status, 0)
            for level, share in enumerate((2, 4, 8), 1):
                path = folder / f"out.lod{level}.obj"
                self.assertIn(str(path), out)
                count = read_obj(path.read_text()).face_count
                self.assertLess(abs(count * share / mesh.face_count - 1), 0.2)
                self.assertTrue((folder / f"page.lod{level}.html").exists())
            self.assertFalse((folder / "out.obj").exists())

    def test_wrong_words_and_refusals(self):
        with tempfile.TemporaryDirectory() as name:
            folder = pathlib.Path(name)
            (folder / "bad.obj").write_text("v 0 0 0\nf 1 2 3 4\n")
            (folder / "out.lod1.obj").write_text("old")
            self.assertNotEqual(self.run_with(f"{name}/bad.obj", f"{name}/out.obj", "--lods", "1/2")[0], 0)
            self.assertFalse((folder / "out.lod1.obj").exists())
            for words in (("--lods", "half"), ("--lods", ","), ("--lods", "1/2", "--out", name)):
                self.assertEqual(self.run_with(f"{name}/bad.obj", f"{name}/out.obj", *words)[0], 2)

    def test_parts_of_the_faces_in_python(self):
        mesh = read_obj((EXAMPLES / "letter_q.obj").read_text())
        report = remesh(mesh, share="1/4").report
        self.assertEqual(report.wished, round(mesh.face_count / 4))
        self.assertEqual(str(path_of(pathlib.Path("a/b.vtk"), 2)), "a/b.lod2.vtk")
        self.assertEqual(len(shares_of("1/2, 1/3")), 2)
        with self.assertRaises(WishError):
            remesh(mesh, share=0)


if __name__ == "__main__":
    unittest.main()
