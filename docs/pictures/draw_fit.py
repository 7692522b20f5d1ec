#!/usr/bin/env python3
"""Draws what `quadq fit` makes of a mesh whose sharp edges stay, whose patches merge, and whose new edges are to have
one length: the new mesh with its own patches, and the lines that were kept in red.

usage: docs/pictures/draw_fit.py MESH.obj LENGTH [--angle DEGREES] [OPTIONS of tools/draw_graph.py] >picture.svg

QUADQ may name the program; if not, it is dist/quadq.
"""

import argparse
import os
import pathlib
import subprocess
import sys
import tempfile

ROOT = pathlib.Path(__file__).resolve().parent.parent.parent
PROGRAM = os.environ.get("QUADQ", str(ROOT / "dist/quadq"))


def ran(words, text=b""):
    """What a command prints of a text."""
    return subprocess.run(list(map(str, words)), input=text, stdout=subprocess.PIPE, check=True).stdout


def tool(name, *words):
    return [sys.executable, ROOT / "tools" / name, *words]


def main():
    parser = argparse.ArgumentParser(description=__doc__, formatter_class=argparse.RawDescriptionHelpFormatter)
    parser.add_argument("mesh", type=pathlib.Path)
    parser.add_argument("length")
    parser.add_argument("--angle", default="30", metavar="DEGREES")
    words, options = parser.parse_known_args()
    asked = ["--keep", "lines", "--patches", "merged", "--aim", f"edge:{words.length}", "--floor", "1"]
    asked += ["--weight", "length"]
    marked = ran(tool("mark_features.py", "--angle", words.angle, words.mesh))
    made = ran([PROGRAM, "fit", *asked, "--spacing", "even"], marked)
    with tempfile.TemporaryDirectory() as room:
        new, layout = pathlib.Path(room) / "new.obj", pathlib.Path(room) / "layout.txt"
        new.write_bytes(b"".join(line for line in made.splitlines(True) if not line.startswith(b"#")))
        layout.write_bytes(ran([PROGRAM, "layout", "--keep", "none", "--patches", "traced"], new.read_bytes()))
        sys.stdout.buffer.write(ran(tool("draw_graph.py", new, layout, *options)))


main()
