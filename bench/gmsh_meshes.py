#!/usr/bin/env python3
"""Remeshes eight meshes of gmsh, and measures what of their groups, sizes and fields comes back.

usage: bench/gmsh_meshes.py [FOLDER]

Makes the meshes with gmsh (Debian: gmsh, python3-meshio), in FOLDER where it is given, and prints a table in Markdown.
Each mesh is remeshed at twice and at half the scale, to edges of 1.5 and of a third times its mean length, and to a
field of sizes, from a fifth of the mean length at the least x to three fifths at the greatest.

- groups: how many groups of faces and edges come back: those of edges with the same ends and, within a thousandth, the
  same length, those of faces with the same area within a thousandth.
- sizes: the share of edges within 20% of the wished length, with edges of 1.5 times the mean, of a third, and with the
  field; in brackets that of the old mesh with each edge divided in three, which has about as many edges.
- points: the greatest error of a smooth field at the new points, in parts of its range; what a linear field has is that
  of rounding to millionths.
- integral: by how much the integral of a field of faces differs, in parts of it.
"""

from __future__ import annotations

import pathlib
import subprocess
import sys
import tempfile

ROOT = pathlib.Path(__file__).resolve().parent.parent
sys.dont_write_bytecode = True
sys.path.insert(0, str(ROOT / "python"))
import numpy as np  # noqa: E402
import quadq  # noqa: E402
from quadq.groups import edges_by_group, length_of  # noqa: E402

OCC = 'SetFactory("OpenCASCADE"); Mesh.RecombineAll = 1;\n'
MESHES = {
    "a plate with a hole": OCC + """
Rectangle(1) = {0, 0, 0, 4, 3}; Disk(2) = {2, 1.5, 0, 0.6};
BooleanDifference(3) = { Surface{1}; Delete; }{ Surface{2}; Delete; };
Physical Surface("plate") = {3};
Physical Curve("hole") = Curve In BoundingBox {1.3, 0.8, -1, 2.7, 2.2, 1};
Physical Curve("left") = Curve In BoundingBox {-0.1, -0.1, -1, 0.1, 3.1, 1};
Physical Curve("right") = Curve In BoundingBox {3.9, -0.1, -1, 4.1, 3.1, 1};
Mesh.MeshSizeMax = 0.12; Mesh.MeshSizeFromCurvature = 96;
""",
    "a plate with three holes, two materials": OCC + """
Rectangle(1) = {0, 0, 0, 3, 3}; Rectangle(2) = {3, 0, 0, 3, 3};
Disk(11) = {1.5, 1.5, 0, 0.5}; Disk(12) = {4, 1, 0, 0.4}; Disk(13) = {5, 2, 0, 0.4};
BooleanDifference(3) = { Surface{1}; Delete; }{ Surface{11}; Delete; };
BooleanDifference(4) = { Surface{2}; Delete; }{ Surface{12, 13}; Delete; };
BooleanFragments{ Surface{3}; Delete; }{ Surface{4}; Delete; }
Physical Surface("steel") = {3}; Physical Surface("copper") = {4};
Physical Curve("weld") = Curve In BoundingBox {2.9, -0.1, -1, 3.1, 3.1, 1};
Physical Curve("fixed") = Curve In BoundingBox {0.9, 0.9, -1, 2.1, 2.1, 1};
bolts() = Curve In BoundingBox {3.5, 0.5, -1, 4.5, 1.5, 1}; bolts() += Curve In BoundingBox {4.5, 1.5, -1, 5.5, 2.5, 1};
Physical Curve("bolts") = {bolts()};
Mesh.MeshSizeMax = 0.12; Mesh.MeshSizeFromCurvature = 96;
""",
    "a tee": OCC + """
Rectangle(1) = {0, 0, 0, 6, 1}; Rectangle(2) = {2.5, 1, 0, 1, 3};
BooleanUnion(3) = { Surface{1}; Delete; }{ Surface{2}; Delete; };
Physical Surface("fluid") = Surface{:};
Physical Curve("inlet") = Curve In BoundingBox {-0.1, -0.1, -1, 0.1, 1.1, 1};
Physical Curve("outlet") = Curve In BoundingBox {5.9, -0.1, -1, 6.1, 1.1, 1};
Physical Curve("branch") = Curve In BoundingBox {2.4, 3.9, -1, 3.6, 4.1, 1};
Mesh.MeshSizeMax = 0.1;
""",
    "a fillet": """
lc = 0.1; Mesh.RecombineAll = 1;
Point(1) = {0, 0, 0, lc}; Point(2) = {4, 0, 0, lc}; Point(3) = {4, 1, 0, lc}; Point(4) = {2, 1, 0, lc};
Point(5) = {2, 2, 0}; Point(6) = {1, 2, 0, lc}; Point(7) = {1, 4, 0, lc}; Point(8) = {0, 4, 0, lc};
Line(1) = {1, 2}; Line(2) = {2, 3}; Line(3) = {3, 4}; Circle(4) = {4, 5, 6}; Line(5) = {6, 7}; Line(6) = {7, 8};
Line(7) = {8, 1}; Curve Loop(1) = {1:7}; Plane Surface(1) = {1};
Physical Surface("part") = {1}; Physical Curve("clamped") = {2}; Physical Curve("loaded") = {6};
Physical Curve("fillet") = {4}; Transfinite Curve {4} = 31;
""",
    "a bracket": OCC + """
Box(1) = {0, 0, 0, 3, 2, 0.3}; Box(2) = {0, 0, 0.3, 0.3, 2, 1.7};
Cylinder(3) = {2, 1, -1, 0, 0, 2, 0.4}; Cylinder(4) = {-1, 1, 1.2, 2, 0, 0, 0.3};
BooleanUnion(5) = { Volume{1}; Delete; }{ Volume{2}; Delete; };
BooleanDifference(6) = { Volume{5}; Delete; }{ Volume{3, 4}; Delete; };
foot() = Surface In BoundingBox {-0.1, -0.1, -0.1, 3.1, 2.1, 0.1};
back() = Surface In BoundingBox {-0.1, -0.1, -0.1, 0.1, 2.1, 2.1};
Physical Surface("foot") = {foot()}; Physical Surface("back") = {back()};
rest() = Surface{:}; rest() -= {foot(), back()}; Physical Surface("rest") = {rest()};
Physical Curve("bore") = Curve In BoundingBox {1.5, 0.5, 0.2, 2.5, 1.5, 0.4};
Mesh.MeshSizeMax = 0.15; Mesh.MeshSizeFromCurvature = 84; Mesh.Smoothing = 10;
""",
    "a nozzle": """
Mesh.RecombineAll = 1;
Point(1) = {0, 0, 0}; Point(2) = {3, 0, 0}; Point(3) = {6, 0, 0}; Point(4) = {6, 1.2, 0}; Point(5) = {3, 0.5, 0};
Point(6) = {0, 1.5, 0}; Point(7) = {1, 1.5, 0}; Point(8) = {2, 0.5, 0}; Point(9) = {4, 0.5, 0}; Point(10) = {5, 1.0, 0};
Line(1) = {1, 2}; Line(2) = {2, 3}; Line(3) = {3, 4}; Spline(4) = {4, 10, 9, 5}; Spline(5) = {5, 8, 7, 6};
Line(6) = {6, 1}; Line(7) = {2, 5}; Curve Loop(1) = {1, 7, 5, 6}; Plane Surface(1) = {1};
Curve Loop(2) = {2, 3, 4, -7}; Plane Surface(2) = {2};
Transfinite Curve {1, 2, 4, 5} = 61; Transfinite Curve {3, 6, 7} = 25; Transfinite Surface {1, 2};
Physical Surface("converging") = {1}; Physical Surface("diverging") = {2}; Physical Curve("inlet") = {6};
Physical Curve("outlet") = {3}; Physical Curve("axis") = {1, 2}; Physical Curve("wall") = {4, 5};
Physical Curve("throat") = {7};
""",
    "an o-grid": """
Mesh.RecombineAll = 1; r = 1; R = 3; h = Sqrt(2) / 2;
Point(1) = {0, 0, 0}; Point(2) = {r*h, r*h, 0}; Point(3) = {-r*h, r*h, 0}; Point(4) = {-r*h, -r*h, 0};
Point(5) = {r*h, -r*h, 0}; Point(6) = {R, R, 0}; Point(7) = {-R, R, 0}; Point(8) = {-R, -R, 0}; Point(9) = {R, -R, 0};
Circle(1) = {2, 1, 3}; Circle(2) = {3, 1, 4}; Circle(3) = {4, 1, 5}; Circle(4) = {5, 1, 2};
Line(5) = {6, 7}; Line(6) = {7, 8}; Line(7) = {8, 9}; Line(8) = {9, 6};
Line(9) = {2, 6}; Line(10) = {3, 7}; Line(11) = {4, 8}; Line(12) = {5, 9};
Curve Loop(1) = {1, 10, -5, -9}; Plane Surface(1) = {-1}; Curve Loop(2) = {2, 11, -6, -10}; Plane Surface(2) = {-2};
Curve Loop(3) = {3, 12, -7, -11}; Plane Surface(3) = {-3}; Curve Loop(4) = {4, 9, -8, -12}; Plane Surface(4) = {-4};
Transfinite Curve {1:8} = 41; Transfinite Curve {9:12} = 25 Using Progression 1.08; Transfinite Surface {1:4};
Physical Surface("air") = {1:4}; Physical Curve("cylinder") = {1:4}; Physical Curve("inflow") = {6};
Physical Curve("far") = {5, 7, 8};
""",
    "ribs": OCC + """
Box(1) = {0, 0, 0, 5, 2, 0.3}; Box(2) = {0.5, 0, 0.3, 0.2, 2, 0.8}; Box(3) = {2.4, 0, 0.3, 0.2, 2, 0.8};
Box(4) = {4.3, 0, 0.3, 0.2, 2, 0.8}; BooleanUnion(5) = { Volume{1}; Delete; }{ Volume{2, 3, 4}; Delete; };
base() = Surface In BoundingBox {-0.1, -0.1, -0.1, 5.1, 2.1, 0.1}; Physical Surface("base") = {base()};
tops() = Surface In BoundingBox {-0.1, -0.1, 1.0, 5.1, 2.1, 1.2}; Physical Surface("tops") = {tops()};
rest() = Surface{:}; rest() -= {base(), tops()}; Physical Surface("cooled") = {rest()};
Physical Curve("rim") = Curve In BoundingBox {-0.1, -0.1, -0.1, 5.1, 2.1, 0.1};
Mesh.MeshSizeMax = 0.1;
""",
}
SAME = 1e-3
"""How near lengths and areas have to be, in parts of them."""
NEAR = 0.2
"""An edge has its wished length where it differs by no more, in parts of that."""


def made(name: str, text: str, folder: pathlib.Path) -> quadq.Mesh:
    """The mesh that gmsh makes of a geometry."""
    stem = name.replace(",", "").replace(" ", "_")
    (folder / f"{stem}.geo").write_text(text)
    ran = subprocess.run(["gmsh", "-2", "-v", "1", f"{stem}.geo", "-o", f"{stem}.msh"], cwd=folder, capture_output=True,
                         text=True)
    if ran.returncode:
        raise SystemExit(f"gmsh fails at {name}: {ran.stdout}{ran.stderr}")
    return quadq.read(folder / f"{stem}.msh", polygons=True)


def groups_kept(old: quadq.Mesh, new: quadq.Mesh) -> tuple[int, int]:
    """How many groups come back, and how many there are."""
    before, after = edges_by_group(old), edges_by_group(new)
    kept = [name in after and ends_of(old, some) == ends_of(new, after[name])
            and is_near(length_of(old, some), length_of(new, after[name])) for name, some in before.items()]
    areas = [areas_of(it) for it in (old, new)]
    kept += [is_near(it, areas[1].get(name, 0.0)) for name, it in areas[0].items()]
    return sum(kept), len(kept)


def is_near(one: float, other: float) -> bool:
    return abs(one - other) <= SAME * one


def ends_of(mesh: quadq.Mesh, edges: np.ndarray) -> set[tuple[float, ...]]:
    """Where the edges of a group end or fork."""
    degree = np.bincount(mesh.edges.ends[edges].ravel(), minlength=len(mesh.points))
    return {tuple(it) for it in (np.round(mesh.points[(degree > 0) & (degree != 2)], 4) + 0.0).tolist()}


def areas_of(mesh: quadq.Mesh) -> dict[str, float]:
    it, areas = mesh.groups["usemtl"], quadq.areas(mesh)
    return {name: float(areas[it.of_face == at].sum()) for at, name in enumerate(it.names)}


def smooth(points: np.ndarray) -> np.ndarray:
    return np.sin(points[:, 0]) + np.cos(0.7 * points[:, 1]) + 0.3 * points[:, 2]


def errors(result: quadq.Result) -> tuple[float, float]:
    """Of a field at points the greatest error, and of one of faces that of its integral."""
    old, new = result.old, result.mesh
    wanted = smooth(new.points)
    at_points = np.abs(quadq.transfer(result, smooth(old.points)) - wanted).max() / np.ptp(wanted)
    values = 1 + smooth(np.add.reduceat(old.points[old.corners], old.starts[:-1]) / old.sides[:, None]) ** 2
    kept = quadq.areas_under(result) @ quadq.transfer(result, values, "faces", "conserve")
    return float(at_points), float(abs(kept / (quadq.areas(old) @ values) - 1))


def lengths(mesh: quadq.Mesh) -> np.ndarray:
    return np.linalg.norm(np.diff(mesh.points[mesh.edges.ends], axis=1)[:, 0], axis=1)


def row(name: str, mesh: quadq.Mesh) -> str:
    """A row of the table."""
    is_odd = not mesh.is_quads()
    results = [quadq.remesh(mesh, scale=scale, subdivide=is_odd) for scale in ("2/1", "1/2")]
    ready = results[0].ready
    mean = float(lengths(ready).mean())
    sized = [met(quadq.remesh(mesh, edge=round(times * mean, 6), subdivide=is_odd).mesh, times * mean)
             for times in (1.5, 1 / 3)]
    low, wide = mesh.points[:, 0].min(), np.ptp(mesh.points[:, 0])

    def field(points: np.ndarray) -> np.ndarray:
        return np.asarray(mean * (0.2 + 0.4 * (points[:, 0] - low) / wide))

    fine = quadq.refine(ready, 3)
    sized += [met(it, field(it.points)[it.edges.ends].mean(axis=1))
              for it in (quadq.remesh(mesh, size=field, subdivide=is_odd).mesh, fine)]
    cells = [name + (", divided" if is_odd else ""), f"{mesh.face_count:,}"]
    for result in results:
        kept, count = groups_kept(mesh, result.mesh)
        at_points, of_faces = errors(result)
        cells += [f"{result.mesh.face_count:,}", f"{kept} of {count}", f"{at_points:.1e}", f"{of_faces:.0e}"]
    told = [f"{100 * it:.0f}%" for it in sized]
    return "| " + " | ".join([*cells, *told[:2], f"{told[2]} ({told[3]})"]) + " |"


def met(mesh: quadq.Mesh, wished: np.ndarray | float) -> float:
    """The share of edges that have their wished length."""
    return float(np.mean(np.abs(lengths(mesh) / wished - 1) <= NEAR))


def main(words: list[str]) -> int:
    if len(words) > 1 or words[:1] == ["--help"]:
        print(__doc__, file=sys.stderr)
        return 2
    with tempfile.TemporaryDirectory() as room:
        folder = pathlib.Path(words[0] if words else room)
        folder.mkdir(parents=True, exist_ok=True)
        print("| mesh | faces | at 2/1 | groups | points | integral | at 1/2 | groups | points | integral "
              "| edges 3/2 | edges 1/3 | a field |")
        print("|---|---|---|---|---|---|---|---|---|---|---|---|---|")
        for name, text in MESHES.items():
            print(row(name, made(name, text, folder)), flush=True)
    return 0


if __name__ == "__main__":
    sys.exit(main(sys.argv[1:]))
