"""Pages in a browser: turned, clicked, coloured, one over the other. Pictures go to the folder that SHOTS names.

`tools/test_report` runs this where there is a Chromium.
"""

from __future__ import annotations

import os
import tempfile
import unittest
from dataclasses import replace
from fractions import Fraction
from pathlib import Path
from typing import Any

import numpy as np

from quadq import (
    Books, Mesh, Program, Refusal, Result, Settings, read_obj, refusal_page, remesh, remesh_files, result_page)
from quadq.mesh import join
from quadq.pages import page_of, viewer
from quadq.pictures import View
from quadq.scene import Shown, scene_of

from .browser import Browser
from .shapes import EXAMPLES, drum, grid, moved, plate

SHOTS = os.environ.get("SHOTS")
HOSTILE = "</script><script>throw 1</script><img src=x onerror=throw(2)>&\udc80.obj"


COLOURED = """(() => {
  const gl = viewer.painter.gl, colour = %s;
  viewer.draw();
  const bytes = new Uint8Array(4 * gl.drawingBufferWidth * gl.drawingBufferHeight);
  gl.readPixels(0, 0, gl.drawingBufferWidth, gl.drawingBufferHeight, gl.RGBA, gl.UNSIGNED_BYTE, bytes);
  let count = 0;
  for (let at = 0; at < bytes.length; at += 4) {
    if (bytes[at + 3] === 255 && colour.every((it, part) => Math.abs(bytes[at + part] - it) < 40)) count += 1;
  }
  return count;
})()"""
"""How many pixels of the meshes have about a colour."""


class Pages(unittest.TestCase):
    browser: Browser
    room: tempfile.TemporaryDirectory[str]

    @classmethod
    def setUpClass(cls) -> None:
        cls.browser = Browser(1200, 1000)
        cls.room = tempfile.TemporaryDirectory()

    @classmethod
    def tearDownClass(cls) -> None:
        cls.browser.close()
        cls.room.cleanup()

    def shown(self, name: str, page: str, address: str = "") -> None:
        path = Path(self.room.name) / f"{name}.html"
        path.write_text(page, encoding="utf-8")
        self.browser.open(path, address)
        self.assertTrue(self.browser.value("viewer !== null && !document.getElementById('viewer').hidden"))
        self.quiet()

    def quiet(self) -> None:
        self.assertEqual(self.browser.said(), [])

    def shot(self, name: str) -> None:
        if SHOTS:
            self.browser.wait_for("typeof viewer === 'undefined' || !viewer.isQuick || viewer.fingers.size > 0")
            self.browser.settle()
            Path(SHOTS, f"{name}.png").write_bytes(self.browser.picture())

    def view(self) -> Any:
        return self.browser.value("viewer.view")

    def pixels(self, red: int, green: int, blue: int) -> int:
        return int(self.browser.value(COLOURED % [red, green, blue]))

    def chosen(self) -> str:
        return str(self.browser.value("document.querySelector('output').textContent"))

    def test_a_letter_is_turned_and_a_face_is_clicked(self) -> None:
        self.shown("letter", result_page(HOSTILE, letter(), Program(), "z"))
        self.shot("letter")
        box, before = self.browser.box("canvas"), self.view()
        self.browser.drag(box["x"] + 300, box["y"] + 300, 100, 40)
        turned = self.view()
        self.assertAlmostEqual(turned["az"], before["az"] - 40, places=3)
        self.assertAlmostEqual(turned["el"], before["el"] + 16, places=3)
        self.browser.mouse("mouseWheel", box["x"] + 300, box["y"] + 300, deltaX=0, deltaY=-400)
        self.browser.settle()
        self.assertGreater(self.view()["zoom"], 1.5)
        self.shot("letter_turned")
        for key, name in (("0", "az"), ("ArrowLeft", "az"), ("p", "straight"), ("w", None), ("o", None)):
            self.browser.key(key)
        self.assertTrue(self.view()["straight"])
        self.assertEqual(self.browser.value("[viewer.shown.wire, viewer.over]"), [False, 0.5])
        self.assertIn("straight=1", self.browser.value("location.hash"))
        self.shot("letter_over")
        self.assertEqual(self.browser.value("document.title"), HOSTILE.replace("\udc80", "?"))
        self.quiet()

    def test_a_click_names_the_face_that_is_seen(self) -> None:
        """Of each of some faces the middle is clicked, as it is shown."""
        result = letter()
        page = result_page("letter", result, Program(), "z")
        for straight in (0, 1):
            self.shown("clicks", page, f"#az=20&el=15&zoom=1&straight={straight}")
            box = self.browser.box("canvas")
            hits = 0
            for face in range(0, result.mesh.face_count, 23):
                x, y, is_seen = self.browser.value(SPOT % face)
                if not is_seen:
                    continue
                hits += 1
                self.browser.click(box["x"] + x, box["y"] + y)
                self.assertIn(f"after: face {face + 1} ·", self.chosen())
            self.assertGreater(hits, 2)
        self.assertRegex(self.chosen(), r"scaled Jacobian \d\.\d+ · up to .* from the other mesh · patch \d+ · "
                         r"it lies in old face \d+$")
        self.shot("letter_clicked")

    def test_a_sphere_that_became_a_drum(self) -> None:
        result = remesh(ball(), scale="1/8")
        kinds = {it.kind for it in result.report.notices}
        self.assertIn("distance", kinds)
        self.shown("drum", result_page("ball.obj", result, Program()))
        self.browser.value("document.querySelector('a[data-colours=distance]').click()")
        self.browser.settle()
        self.assertEqual(self.browser.value("viewer.colours"), "distance")
        self.assertIn("from the other mesh", self.chosen())
        self.browser.value("document.querySelector('[data-from=first]').click()")
        self.browser.settle()
        self.shot("drum_distance")
        # The scale of colours beside goes as far as the report says.
        told = float(self.browser.value("document.querySelector('[data-tick]').textContent"))
        self.assertAlmostEqual(told / result.report.greatest_distance, 1, delta=0.01)
        self.assertGreater(self.pixels(253, 231, 37), 15)
        self.quiet()

    def test_a_plate_whose_hole_moved(self) -> None:
        old = plate()
        result = remesh(old, scale="1/4")
        self.shown("plate", result_page("plate.obj", result, Program()), "#colours=distance")
        self.shot("plate_distance")
        self.assertGreater(self.browser.value("viewer.told.greatest"), 0)
        self.quiet()

    def test_inverted_faces_are_red_and_striped(self) -> None:
        result = remesh(drum(), scale="1/3")
        folded = with_a_fold(result)
        self.shown("folded", result_page("folded.obj", folded, Program()))
        self.assertGreater(self.pixels(195, 30, 30), 500)
        self.shot("folded")
        self.quiet()

    def test_a_hundred_thousand_faces_are_turned_at_the_price_of_few(self) -> None:
        """While they move, few faces are drawn, and a quarter of the pixels; then all of them."""
        balls = [drum(316, 158, is_round=True)] * 2
        patches = np.arange(balls[0].face_count) // 1_000
        shown = [Shown(label, it, None, patches, np.arange(50) % 8) for label, it in zip(("before", "after"), balls)]
        page = page_of("balls", [viewer(("before", "after"), "irregular points", "")], scene_of(shown, "y"))
        self.shown("balls", page)
        count, width = sum(it.face_count for it in balls), self.browser.value("viewer.canvas.clientWidth")
        drawn = f"viewer.pieces === {count} && viewer.canvas.width === {width}"
        self.browser.wait_for(drawn)
        box, before = self.browser.box("canvas"), self.view()
        self.browser.mouse("mousePressed", box["x"] + 300, box["y"] + 300, button="left", buttons=1, clickCount=1)
        for step in range(1, 6):
            self.browser.mouse("mouseMoved", box["x"] + 300 + 20 * step, box["y"] + 300, button="left", buttons=1)
        self.browser.settle()
        self.assertAlmostEqual(self.view()["az"], before["az"] - 40, places=3)
        self.assertLess(self.browser.value("viewer.pieces"), 8_001)
        self.assertLess(self.browser.value("viewer.canvas.width"), 0.51 * width)
        self.shot("balls_turned")
        # Near by, the few are smaller.
        far = self.browser.value(NEAR_BY)
        self.browser.value("viewer.view = { ...viewer.view, at: viewer.models[1].place(30000, 0), zoom: 8 }, 1")
        self.browser.value("viewer.turn(3, 0)")
        self.browser.settle()
        self.assertLess(self.browser.value("viewer.pieces"), 8_001)
        self.assertGreater(self.browser.value(NEAR_BY), 4 * far)
        self.shot("balls_near")
        self.browser.mouse("mouseReleased", box["x"] + 400, box["y"] + 300, button="left", clickCount=1)
        self.browser.value("viewer.turn(3, 0)")
        self.browser.wait_for(drawn)
        self.shot("balls")
        self.quiet()

    def test_each_warning_turns_the_view_to_its_place(self) -> None:
        torus = read_obj((EXAMPLES / "torus.obj").read_text())
        self.shown("warnings", result_page("torus", remesh(torus, edge=3.0), Program()))
        links = self.browser.value("document.querySelectorAll('.warnings a').length")
        self.assertGreaterEqual(links, 3)
        for at in range(links):
            self.browser.value("viewer.look('first')")
            place = self.browser.value(
                f"(() => {{ const it = document.querySelectorAll('.warnings a')[{at}]; it.click();"
                " return [+it.dataset.mesh, +it.dataset.face]; })()")
            self.browser.settle()
            self.assertEqual(self.browser.value("viewer.picked"), place)
            self.assertEqual(self.view()["at"], self.browser.value(
                f"viewer.models[{place[0]}].spot(viewer.models[{place[0]}].piece({place[1]})).middle"))
        self.quiet()

    def test_a_refusal_shows_its_place(self) -> None:
        mesh = join([moved(grid(9, 7), -12), read_obj((EXAMPLES / "two_fans.obj").read_text())])
        with self.assertRaises(Refusal) as caught:
            remesh(mesh, scale=1)
        self.shown("refused", refusal_page("fans", mesh, caught.exception))
        self.shot("refused")
        self.browser.value("document.querySelector('a[data-mesh]').click()")
        self.browser.settle()
        self.shot("refused_place")
        self.assertGreater(self.pixels(209, 33, 33), 15)
        triangles = Mesh(np.array([[0, 0, 0], [1, 0, 0], [1, 1, 0], [0, 1, 0], [2, 0, 0], [2.5, 1, 0], [2, 2, 0.0]]),
                         np.array([0, 1, 2, 3, 1, 4, 2, 4, 5, 6, 3, 2]), np.array([0, 4, 7, 12]))
        with self.assertRaises(Refusal) as caught:
            remesh(triangles, scale=1)
        self.shown("polygons", refusal_page("polygons", triangles, caught.exception))
        self.shot("polygons")
        self.quiet()

    def test_in_the_dark_and_on_paper(self) -> None:
        self.browser.ask("Emulation.setEmulatedMedia", features=[{"name": "prefers-color-scheme", "value": "dark"}])
        self.shown("dark", result_page("letter", letter(), Program(), "z"), "#colours=jacobian")
        self.shot("dark")
        self.browser.ask("Emulation.setEmulatedMedia", media="print", features=[])
        self.assertEqual(self.browser.value("getComputedStyle(document.getElementById('viewer')).display"), "none")
        self.shot("print")
        self.browser.ask("Emulation.setEmulatedMedia", media="", features=[])

    def test_the_index_of_a_batch(self) -> None:
        room = Path(self.room.name)
        (room / "in").mkdir()
        for name in ("cube", "letter_q", "torus", "two_fans"):
            (room / "in" / f"{name}.obj").write_bytes((EXAMPLES / f"{name}.obj").read_bytes())
        (room / "in" / "<b>#1%41 'x'.obj").write_text("v 0 0 0\nf 1 1 1\n")
        remesh_files(room / "in", room / "out", Settings(scale=Fraction(1, 2), jobs=2),
                     books=Books(report=room / "pages"))
        self.browser.open(room / "pages/index.html")
        self.assertEqual(self.browser.value("document.getElementById('count').textContent"), "5 files")
        self.assertEqual(self.names()[2:], ["cube.obj", "letter_q.obj", "torus.obj"])
        self.shot("index")
        self.browser.value("document.querySelector('[title=\"faces before\"]').click()")
        self.browser.settle()
        self.assertEqual(self.names()[:3], ["cube.obj", "torus.obj", "letter_q.obj"])
        self.browser.open(room / "pages/index.html", "#show=refused&filter=fans")
        self.assertEqual(self.names(), ["two_fans.obj"])
        self.shot("index_filtered")
        self.quiet()
        self.browser.open(room / "pages/index.html", "#filter=%25")
        page = self.browser.value("document.querySelector('#files tbody a').href")
        self.browser.ask("Page.navigate", url=page)
        self.browser.wait_for("document.querySelector('h1')?.textContent === \"<b>#1%41 'x'.obj\"")
        self.quiet()

    def names(self) -> list[str]:
        """The names of the files that the index shows, in their order."""
        named = "[...document.querySelectorAll('#files tbody td:first-child')].map((it) => it.textContent)"
        return [it.rpartition("/")[2] for it in self.browser.value(named)]


NEAR_BY = """(() => {
  const { model, few } = viewer.drawn[1];
  const near = [...few.pieces].filter((it) => Math.hypot(...sum(model.place(it, 0), model.place(30000, 0), -1)) < 0.1);
  return near.length;
})()"""
"""How many of the few faces that are drawn lie near the face 30,000."""
SPOT = """(() => {
  const face = %d, spot = viewer.models[1].spot(viewer.models[1].piece(face)), frame = viewer.panes()[1];
  const m = matrixOf(viewer.view, frame.wide / frame.high), p = [...spot.middle, 1];
  const row = (at) => m[at] * p[0] + m[4 + at] * p[1] + m[8 + at] * p[2] + m[12 + at] * p[3];
  const [x, y] = [row(0) / row(3), row(1) / row(3)];
  const ray = rayOf(viewer.view, frame.wide / frame.high, x, y);
  return [frame.x + (x + 1) / 2 * frame.wide, viewer.canvas.height - frame.y - (y + 1) / 2 * frame.high,
    viewer.models[1].hit(ray) === face];
})()"""
"""Where the middle of a face of the new mesh is shown, and whether nothing hides it."""


def letter() -> Result:
    return remesh(read_obj((EXAMPLES / "letter_q.obj").read_text()), scale="1/2")


def ball() -> Mesh:
    """A ball of three bands around its axis: few patches, whose sides are round."""
    return drum(24, 24, is_round=True)


def with_a_fold(result: Result) -> Result:
    """The same, with a corner of the face that is nearest to the eye beyond its middle."""
    mesh = result.mesh
    points = mesh.points.copy()
    toward = View.of(points).axes[2]
    face = mesh.quads[int((points[mesh.quads].mean(axis=1) @ toward).argmax())]
    points[face[0]] += 0.8 * (points[face[2]] - points[face[0]])
    return replace(result, mesh=replace(mesh, points=points))


if __name__ == "__main__":
    unittest.main()
