#!/usr/bin/env python3
"""Measures how a page of two meshes opens and turns in a headless Chromium, whose WebGL is software.

usage: bench/report.py [--faces N] [--seconds S]

The meshes are two balls of N faces in all, 100,000 if not given. `open` is how long the page takes until its first
picture is drawn, `settled` until all faces are; `pictures` is how many of each second are drawn while the meshes turn
for S seconds, 5 if not given, each when the one before is on the screen; `empty` is the same where nothing is drawn,
which is what the browser itself can show on this machine. It needs numpy and Chromium.
"""
import argparse
import pathlib
import sys
import tempfile
import time

ROOT = pathlib.Path(__file__).resolve().parent.parent
sys.path.insert(0, str(ROOT / "python"))

TURNS = """(async () => {
  const begun = performance.now();
  let pictures = 0;
  while (performance.now() - begun < 1000 * %f) {
    %s;
    await new Promise(requestAnimationFrame);
    await new Promise((done) => viewer.painter.finished(done));
    pictures += 1;
  }
  return 1000 * pictures / (performance.now() - begun);
})()"""


def page_of_balls(count):
    """A page of two balls with so many faces in all."""
    import numpy as np
    from quadq.pages import page_of, viewer
    from quadq.scene import Shown, scene_of
    from tests.shapes import drum

    high = round((count / 4) ** 0.5)
    ball = drum(2 * high, high, is_round=True)
    patches = np.arange(ball.face_count) // 1_000
    colours = np.arange(patches[-1] + 1) % 8
    shown = [Shown(label, ball, None, patches, colours) for label in ("before", "after")]
    page = page_of("balls", [viewer(("before", "after"), "irregular points", "")], scene_of(shown, "y"))
    return page, ball.face_count


def main():
    parser = argparse.ArgumentParser(description=__doc__, formatter_class=argparse.RawDescriptionHelpFormatter)
    parser.add_argument("--faces", type=int, default=100_000)
    parser.add_argument("--seconds", type=float, default=5.0)
    asked = parser.parse_args()
    from tests.browser import Browser

    page, each = page_of_balls(asked.faces)
    browser = Browser(1200, 1000)
    with tempfile.TemporaryDirectory() as room:
        path = pathlib.Path(room) / "balls.html"
        path.write_text(page)
        browser.ask("Page.navigate", url=path.as_uri())
        begun = time.monotonic()
        browser.wait_for("typeof viewer === 'object' && viewer.pictures > 0")
        opened = time.monotonic() - begun
        browser.wait_for(f"viewer.pieces === {2 * each}")
        settled = time.monotonic() - begun
        turned = browser.value(TURNS % (asked.seconds, "viewer.turn(3, 0)"))
        empty = browser.value(TURNS % (asked.seconds, "viewer.painter.clear()"))
    browser.close()
    print("| faces | MB of page | open s | settled s | pictures a second | empty |\n|---|---|---|---|---|---|")
    print(f"| {2 * each:,} | {len(page) / 1e6:.1f} | {opened:.2f} | {settled:.2f} | {turned:.1f} | {empty:.1f} |")


if __name__ == "__main__":
    main()
