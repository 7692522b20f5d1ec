"""Many files checked: every fault of a part in its line, in forms for people, scripts and code hosts."""

import contextlib
import io
import json
import os
import pathlib
import tempfile
import unittest

from quadq import WishError, check, write
from quadq.__main__ import main

from .shapes import EXAMPLES, grid
from .test_formats import meshio

FANS = (EXAMPLES / "two_fans.obj").read_text()
SCENE = """o good
v 0 0 0
v 1 0 0
v 1 1 0
v 0 1 0
f 1 2 3 4
o triangles
v 5 0 0
v 6 0 0
v 6 1 0
v 5 1 0
f 5 6 7
f 5 7 8
o turned
v 9 0 0
v 10 0 0
v 10 1 0
v 9 1 0
v 11 0 0
v 11 1 0
f 9 10 11 12
f 10 11 14 13
o twice
v 20 0 0
v 21 0 0
v 21 1 0
f 15 16 17 \\
  17
"""
LINES = "v 0 0 0\nv 1,5 0 0\nv 1 1 0\nv 0 1 0\nf 1 2 3 4\nf 1 2 3 9\nf 1 2 x 4\nv 0 0 2e9\n"


class Room(unittest.TestCase):
    def setUp(self):
        room = tempfile.TemporaryDirectory()
        self.addCleanup(room.cleanup)
        self.room = pathlib.Path(room.name)

    def put(self, name, text):
        path = self.room / name
        path.parent.mkdir(parents=True, exist_ok=True)
        path.write_text(text)
        return path

    def run_words(self, *words):
        out, err = io.StringIO(), io.StringIO()
        with contextlib.redirect_stdout(out), contextlib.redirect_stderr(err):
            status = main(["check", *map(str, words)])
        return status, out.getvalue(), err.getvalue()


class Faults(Room):
    def test_the_first_of_each_part(self):
        (found,) = check(self.put("scene.obj", SCENE))
        told = [(it.status, it.line, it.words, it.part) for it in found.faults]
        self.assertEqual(told, [
            (4, 12, "line 12: face with 3 corners", "triangles"),
            (7, 22, "edge 10 11: faces 4 and 5", "turned"),
            (7, 27, "face 6: vertex 17 repeated", "twice")])
        self.assertEqual([it.count for it in found.faults], [2, 1, 1])
        self.assertEqual((found.status, found.faults[1].faces, found.faults[1].vertices), (4, (3, 4), (9, 10)))

    def test_every_line_that_is_wrong(self):
        (found,) = check(self.put("lines.obj", LINES))
        self.assertEqual([(it.line, it.status) for it in found.faults], [(2, 3), (7, 3), (8, 5), (6, 5)])

    def test_two_fans_and_the_same_words_as_the_program(self):
        (found,) = check(EXAMPLES / "two_fans.obj")
        self.assertEqual([(it.words, it.line, it.vertices) for it in found.faults], [("vertex 1: two fans", 1, (0,))])

    def test_what_is_no_mesh(self):
        self.put("empty.obj", "# nothing\n")
        (self.room / "wide.obj").write_bytes("v 0 0 0".encode("utf-16"))
        found = check([self.room / "empty.obj", self.room / "wide.obj", self.room / "gone.obj"])
        self.assertEqual([it.status for it in found], [4, 3, 12])

    def test_many_faults_are_counted(self):
        (found,) = check(self.put("many.obj", "v 0 0\n" * 250))
        self.assertEqual((len(found.faults), found.more), (100, 150))

    @unittest.skipIf(meshio is None, "meshio is not here")
    def test_other_formats(self):
        write(self.room / "good.msh", grid(3, 2))
        write(self.room / "odd.stl", grid(3, 2))
        found = check(self.room)
        self.assertEqual([(it.path.name, it.status, it.faces) for it in found],
                         [("good.msh", 0, 6), ("odd.stl", 4, 12)])
        self.assertEqual([(it.words, it.count) for it in found[1].faults], [("face 1: 3 corners", 12)])


class Files(Room):
    def test_folders_and_patterns(self):
        for name in ("a.obj", "sub/b.OBJ", "sub/c.txt", ".hidden/d.obj"):
            self.put(name, FANS)
        names = [it.path.relative_to(self.room).as_posix() for it in check(self.room)]
        self.assertEqual(names, ["a.obj", "sub/b.OBJ"])
        self.assertEqual(len(check(self.room / "**" / "*.obj")), 1)
        self.assertEqual(len(check(self.room, pattern="c.*")), 1)
        self.assertEqual(len(check([self.room, self.room / "a.obj"])), 2)
        with self.assertRaises(WishError):
            check(self.room / "*.ply")

    def test_statuses_are_those_of_the_program(self):
        good, bad = self.put("good.obj", "v 0 0 0\nv 1 0 0\nv 1 1 0\nv 0 1 0\nf 1 2 3 4\n"), self.put("bad.obj", FANS)
        odd = self.put("odd.obj", SCENE)
        self.assertEqual([self.run_words(*it)[0] for it in ([good], [bad], [odd], [good, bad], [bad, odd])],
                         [0, 7, 4, 7, 1])
        self.assertEqual(self.run_words(self.room / "*.ply")[0], 2)

    def test_words_for_people(self):
        path = self.put("scene.obj", SCENE)
        status, out, err = self.run_words(path)
        words = "face with 3 corners, and 1 more of its part are no quads (triangles)"
        self.assertTrue(out.startswith(f"{path}:12: {words}"))
        self.assertTrue(out.endswith("1 file checked, 1 with faults; 0 faces in those without\n"))
        self.assertEqual((status, err), (4, ""))

    def test_json(self):
        self.put("scene.obj", SCENE)
        _, out, _ = self.run_words("--json", self.room)
        (file,) = json.loads(out)["files"]
        self.assertEqual(file["faults"][1]["faces"], [4, 5])
        self.assertEqual([it["line"] for it in file["faults"]], [12, 22, 27])

    def test_sarif(self):
        self.put("a b/scene.obj", SCENE)
        before = os.getcwd()
        os.chdir(self.room)
        try:
            _, out, _ = self.run_words("--sarif", "a b")
        finally:
            os.chdir(before)
        run = json.loads(out)["runs"][0]
        rules = [it["id"] for it in run["tool"]["driver"]["rules"]]
        self.assertEqual(rules, ["quadq/not-a-quad", "quadq/not-a-manifold"])
        self.assertEqual([it["ruleId"] for it in run["results"]],
                         ["quadq/not-a-quad", "quadq/not-a-manifold", "quadq/not-a-manifold"])
        place = run["results"][0]["locations"][0]["physicalLocation"]
        self.assertEqual(place, {"artifactLocation": {"uri": "a%20b/scene.obj", "uriBaseId": "%SRCROOT%"},
                                 "region": {"startLine": 12}})

    def test_a_thousand_files(self):
        for at in range(1000):
            self.put(f"{at % 10}/{at}.obj", FANS if at == 500 else "v 0 0 0\nv 1 0 0\nv 1 1 0\nv 0 1 0\nf 1 2 3 4\n")
        found = check(self.room)
        self.assertEqual((len(found), sum(bool(it.faults) for it in found)), (1000, 1))


if __name__ == "__main__":
    unittest.main()
