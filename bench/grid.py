#!/usr/bin/env python3
"""Writes an OBJ grid of N by N quads to standard output, in plain lines or as Blender writes them."""
import sys

n = int(sys.argv[1])
blender = len(sys.argv) > 2 and sys.argv[2] == "blender"
out = sys.stdout
if blender:
    out.write("# Blender\nmtllib grid.mtl\no Grid\n")
for j in range(n + 1):
    if blender:
        out.write("".join(f"v {i / 16:.6f} {(i * j % 97) / 1024:.6f} {-j / 16:.6f}\n" for i in range(n + 1)))
    else:
        out.write("".join(f"v {i} {j} {(i * j % 97) / 8}\n" for i in range(n + 1)))
if blender:
    out.write("".join(f"vn 0.0000 {1 - k / 1000:.4f} {k / 1000:.4f}\n" for k in range(100)))
    for j in range(n + 1):
        out.write("".join(f"vt {i / n:.6f} {j / n:.6f}\n" for i in range(n + 1)))
    out.write("s 0\nusemtl Material\n")
for j in range(n):
    row = []
    for i in range(n):
        a = 1 + i + j * (n + 1)
        corners = (a, a + 1, a + n + 2, a + n + 1)
        row.append("f " + " ".join(f"{c}/{c}/{1 + (i + j) % 100}" if blender else str(c) for c in corners) + "\n")
    out.write("".join(row))
