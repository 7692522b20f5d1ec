"""Pictures and pages."""

import base64
import re
import struct
import tempfile
import unittest
import zlib
from dataclasses import replace
from fractions import Fraction
from pathlib import Path

import numpy as np

from quadq import Program, Refusal, find_features, read_obj, refusal_page, remesh, result_page
from quadq.canvas import Canvas
from quadq.floors import certified_lengths
from quadq.graphs import cut_of
from quadq.index import Index
from quadq.layout import Layout
from quadq.looks import Looks, places_of, shown_of
from quadq.mesh import join
from quadq.patches import colours_of, paint
from quadq.program import Wish
from quadq.rows import Row, facts_of, settings_in_words
from quadq.scene import in_script, irregular_points, scene_of
from quadq.settings import Settings

from .shapes import EXAMPLES, grid, moved


def pixels_of(png: bytes) -> np.ndarray:
    """(high, wide, 3): the colours of a PNG that has one piece of data."""
    wide, high = struct.unpack(">II", png[16:24])
    size = struct.unpack(">I", png[33:37])[0]
    rows = np.frombuffer(zlib.decompress(png[41:41 + size]), dtype=np.uint8).reshape(high, 1 + 3 * wide)
    return rows[:, 1:].reshape(high, wide, 3)


class Pictures(unittest.TestCase):
    def test_what_is_nearer_hides_what_is_behind(self):
        far = [[1, 1, 0], [9, 1, 0], [1, 9, 0]]
        near = [[1, 1, 1], [5, 1, 1], [1, 5, 1]]
        for order in (0, 1):
            canvas = Canvas(10, 10)
            both = np.array([far, near][::1 - 2 * order], dtype=float)
            canvas.triangles(both, np.array([[200, 0, 0], [0, 0, 200]][::1 - 2 * order], dtype=float))
            seen = pixels_of(canvas.png())
            self.assertEqual(seen[2, 2].tolist(), [0, 0, 200])
            self.assertEqual(seen[6, 2].tolist(), [200, 0, 0])
            self.assertEqual(seen[8, 8].tolist(), [255, 255, 255])

    def test_a_triangle_has_the_pixels_inside(self):
        rng = np.random.default_rng(3)
        for _ in range(20):
            corners = np.column_stack([rng.uniform(-3, 23, (3, 2)), [0, 0, 0]])
            canvas = Canvas(20, 20)
            canvas.triangles(corners[None], np.zeros((1, 3)))
            drawn = (canvas.colours == 0).reshape(40, 40)
            x, y = np.meshgrid((np.arange(40) + 0.5) / 2, (np.arange(40) + 0.5) / 2)
            turns = [
                (q[0] - p[0]) * (y - p[1]) - (q[1] - p[1]) * (x - p[0])
                for p, q in zip(corners, np.roll(corners, -1, axis=0))
            ]
            inside = np.all(np.array(turns) > 0, axis=0) | np.all(np.array(turns) < 0, axis=0)
            self.assertEqual(int(np.sum(inside != drawn)), 0)

    def test_quads_of_all_sizes_leave_no_holes_and_hide_what_is_behind(self):
        for count in (3, 20, 45, 90, 200):
            mesh = grid(count, count)
            turn = np.radians(count)
            axes = [[np.cos(turn), np.sin(turn), 0], [-np.sin(turn), np.cos(turn), 0], [0, 0, 1]]
            places = (mesh.points * 30 / count - [15, 15, 0]) @ axes + [20, 20, 0]
            for order in (1, -1):
                canvas = Canvas(40, 40)
                for depth, colour in ((0.0, 90.0), (1.0, 200.0))[::order]:
                    canvas.quads(places + [0, 0, depth], mesh.quads, np.full((len(mesh.quads), 3), colour))
                seen = pixels_of(canvas.png())[:, :, 0]
                x, y = np.meshgrid(np.arange(40) - 19.5, np.arange(40) - 19.5)
                u, v = np.abs(np.cos(turn) * x + np.sin(turn) * y), np.abs(np.cos(turn) * y - np.sin(turn) * x)
                inside = np.maximum(u, v)
                self.assertTrue(np.all(seen[inside < 14] == 200), count)
                self.assertTrue(np.all(seen[inside > 16.5] == 255), count)

    def test_lines_and_dots(self):
        canvas = Canvas(10, 10)
        canvas.lines(np.array([[[1.25, 5.25, 0], [8.75, 5.25, 0]]]), (0, 0, 0), 1.0)
        canvas.dots(np.array([[5, 2, -9.0]]), (255, 0, 0), 3)
        seen = pixels_of(canvas.png())
        self.assertLess(seen[5, 4].max(), 200)
        self.assertEqual(seen[2, 5].tolist(), [255, 0, 0])


class Pages(unittest.TestCase):
    def test_a_warning_stands_in_place_of_the_green_sentence(self):
        cube = read_obj((EXAMPLES / "cube.obj").read_text())
        for wishes, is_green in (({"scale": 1}, True), ({"faces": 1}, False)):
            page = result_page("cube", remesh(cube, **wishes), Program())
            self.assertEqual('<p class="good">' in page, is_green)
            self.assertIn("no whole lengths are nearer", page)

    def test_patches(self):
        program = Program()
        for name in ("letter_q", "notched_square", "torus", "cylinder"):
            text = (EXAMPLES / f"{name}.obj").read_bytes()
            mesh, cut = read_obj(text.decode()), cut_of(program, text)
            of_face = cut.patches_of(mesh)
            self.assertEqual(np.bincount(of_face).tolist(), cut.sizes.prod(axis=1).tolist(), name)
            wanted = program.remesh(text, Wish())
            self.assertEqual(Layout(mesh, cut).faces(certified_lengths(wanted).lengths), wanted.count(b"\nf "))
            tints = colours_of(mesh, of_face, 8)
            self.assertLess(tints.max(initial=0), 8)

    def test_patches_of_other_cuts(self):
        program = Program()
        for name, wishes, count in (
            ("letter_q", {}, 40), ("letter_q", {"coarse": True}, 13), ("cube", {"coarse": True}, 3),
            ("letter_q", {"sharp": 30}, 68), ("marked_grid", {"keep": ["lines"]}, 4), ("torus", {"sharp": 30}, 4),
        ):
            result = remesh(read_obj((EXAMPLES / f"{name}.obj").read_text()), scale="1/2", **wishes)
            painted = paint(result.parts, result.written, program)
            self.assertEqual(len(painted.of_new), result.mesh.face_count, name)
            self.assertEqual((painted.of_old.max() + 1, painted.of_new.max() + 1), (count, count), name)

    def test_a_page_of_a_remesh_stands_alone(self):
        pair = join([moved(grid(6, 6), -20), read_obj((EXAMPLES / "cube_blender.obj").read_text())])
        page = result_page("a <pair>", remesh(pair, scale="1/2"), Program())
        self.assertEqual(page.count('src="data:image/png;base64,'), 2)
        self.assertEqual(re.findall(r"https?://", page), [])
        self.assertIn("a &lt;pair&gt;", page)
        self.assertIn("default-src 'none'; img-src data:;", page)
        self.assertIn("Each of 2 parts", page)

    def test_a_page_of_a_refusal_shows_the_place(self):
        mesh = join([grid(3, 2), read_obj((EXAMPLES / "two_fans.obj").read_text())])
        with self.assertRaises(Refusal) as caught:
            remesh(mesh, scale=1)
        page = refusal_page("fans", mesh, caught.exception)
        self.assertEqual(page.count('src="data:image/png;base64,'), 2)
        self.assertIn("vertex 13: two fans", page)

    def test_what_a_page_shows_is_what_there_is(self):
        mesh = read_obj((EXAMPLES / "letter_q.obj").read_text())
        result, program = remesh(mesh, scale="1/2"), Program()
        before, after = shown_of(result, Looks.of(result, program), program)
        scene = scene_of((before, after), "y")
        self.assertEqual([it["faces"] for it in scene["meshes"]], [960, 240])
        places = np.frombuffer(base64.b64decode(scene["meshes"][0]["points"]), dtype="<u2").reshape(-1, 3)
        low = np.concatenate([mesh.points, result.mesh.points]).min(axis=0)
        side = float(np.ptp(np.concatenate([mesh.points, result.mesh.points]), axis=0).max())
        self.assertLess(np.abs(low + places * side / 65535 - mesh.points).max(), side / 65535)
        self.assertEqual(np.bincount(after.homes, minlength=960).sum(), 240)
        self.assertEqual(before.patches[after.homes].tolist(), after.patches.tolist())
        self.assertAlmostEqual(max(before.distances.max(), after.distances.max()), result.report.greatest_distance)
        divided = remesh(mesh, scale="1/2", subdivide=True)
        numbers = shown_of(divided, Looks.of(divided, program), program)[0].numbers
        self.assertEqual(numbers.tolist(), np.repeat(np.arange(960), 4).tolist())
        self.assertNotIn("<", in_script({"</script>": "&"}))

    def test_an_index_of_a_thousand_files_is_small(self):
        """Of a mesh with many lines, which is drawn again and again."""
        result = remesh(read_obj((EXAMPLES / "letter_q.obj").read_text()), scale="1/2")
        settings = settings_in_words(Settings(scale=Fraction(1, 2)))
        warnings = tuple({"kind": "sharp", "count": it, "words": 20 * "a warning "} for it in range(3))
        with tempfile.TemporaryDirectory() as folder:
            page = Path(folder) / "letter_q.html"
            page.write_text(result_page("letter_q", result, Program(), "z"))
            index = Index(Path(folder) / "pages", "a batch")
            facts = facts_of(result.report)
            rows = [(Row(f"scans/{it}.obj", "", 0, "", settings, facts=facts, warnings=warnings), page)
                    for it in range(1_000)]
            for row in rows:
                index.add(*row)
            sizes = [index.path.stat().st_size]
            index.close(rows, is_hasty=True)
            sizes.append(index.path.stat().st_size)
            self.assertEqual(index.path.read_text().count("data:image/png"), 2_000)
        self.assertLess(max(sizes), 15_000_000)

    def test_each_warning_leads_to_its_place_or_says_why_not(self):
        """Of all kinds that a remesh tells, and of those that only a file or its settings have."""
        program, letter = Program(), read_obj((EXAMPLES / "letter_q.obj").read_text())
        torus, lines = (read_obj((EXAMPLES / f"{it}.obj").read_text()) for it in ("torus", "marked_grid"))
        kinds = ("distance", "edges", "inverted", "irregular", "least-quality", "lines", "loose", "mirror",
                 "not-written", "over-seams", "relaxed", "rounded", "scaled", "sharp", "unread")
        for mesh, wishes in ((letter, {"scale": "1/2"}), (torus, {"edge": 3.0}), (lines, {"faces": 1})):
            told = remesh(mesh, **wishes)
            for kind in kinds:
                told = told.with_words(kind, [f"of the kind {kind}"])
            shown = shown_of(told, Looks.of(told, program), program)
            places = places_of(told, shown)
            for it in places.values():
                self.assertLess(it.face, shown[it.mesh].mesh.face_count)
            warnings = re.findall('<li class="warning">(.*?)</li>', result_page("all", told, program))
            self.assertEqual(len(warnings), len(told.report.notices))
            for notice, warning in zip(told.report.notices, warnings):
                is_link = warning.startswith('<a href="#viewer" data-mesh=')
                self.assertEqual(is_link, notice.kind in places)
                self.assertTrue(is_link or re.search(r"\((of the whole mesh|not shown): .*\)$", warning), warning)

    def test_a_warning_leads_to_the_place_that_it_means(self):
        program, mesh = Program(), read_obj((EXAMPLES / "marked_grid.obj").read_text())
        result = remesh(mesh, scale="1/2")
        places = places_of(result, shown_of(result, Looks.of(result, program), program))
        self.assertTrue(set(mesh.quads[places["lines"].face]) & set(np.concatenate(mesh.lines)))
        torn = remesh(read_obj((EXAMPLES / "letter_q.obj").read_text()), scale="1/2")
        point, points = int(irregular_points(torn.mesh)[0][3]), torn.mesh.points.copy()
        points[point] += [0, 0, 99]
        moved_away = replace(torn, mesh=replace(torn.mesh, points=points))
        told = moved_away.with_words("irregular", ["irregular points were lost or made"])
        place = places_of(told, shown_of(told, Looks.of(told, program), program))["irregular"]
        self.assertIn(point, torn.mesh.quads[place.face])

    def test_a_notebook_has_a_small_page(self):
        shown = remesh(grid(4, 4), scale="1/2")._repr_html_()
        self.assertTrue(shown.startswith('<iframe srcdoc="&lt;!DOCTYPE html&gt;'))
        self.assertIn("sandbox", shown)

    def test_features(self):
        cube = read_obj((EXAMPLES / "cube.obj").read_text())
        self.assertEqual(set(find_features(cube).values()), {"by angle"})
        self.assertEqual((len(find_features(cube)), find_features(cube, angle=100)), (12, {}))
        text = "v 0 0 0\nv 1 0 0\nv 2 0 0\nv 0 1 0\nv 1 1 0\nv 2 1 0\nusemtl a\nf 1 2 5 4\nusemtl b\nf 2 3 6 5\n"
        self.assertEqual(find_features(read_obj(text), kinds=["materials"]), {(1, 4): "between groups"})
        other = read_obj(text.replace("usemtl", "o") + "l 2 5 4\nl 1 6\n")
        self.assertEqual(find_features(other, kinds=["materials"]), {})
        self.assertEqual(find_features(other, kinds=["groups"]), {(1, 4): "between groups"})
        self.assertEqual(find_features(other, None, kinds=["lines"]), {(1, 4): "by lines"})


if __name__ == "__main__":
    unittest.main()
