"""Features as the package finds them, compared with those that the script finds, which holds the rules."""

import os
import pathlib
import unittest
from dataclasses import replace

import numpy as np

from quadq import Layer, Mesh, Names, find_features, read_obj
from quadq.carried import carried
from quadq.features import KINDS, mark_features
from quadq.mesh import NONE

from .shapes import EXAMPLES, grid

FOLDERS = [EXAMPLES, *map(pathlib.Path, filter(None, os.environ.get("QUADQ_MESHES", "").split(os.pathsep)))]
"""Besides the examples, QUADQ_MESHES may name folders: their meshes are compared too, in `NAME.obj` or `NAME/in`."""
WAYS = ((30.0, ()), (0.0, ("materials",)), (None, ("groups", "seams")), (12.5, ("normals", "lines")),
        (90.0, tuple(KINDS)))
SLOW = 4_000
"""Larger files are compared in one way, with all kinds."""


def by_script(mesh: Mesh, angle, kinds, corners=True) -> dict:
    """What the script finds in a mesh of the package."""
    tool = carried("mark_features")
    columns = [names_of(mesh, word, word == "usemtl" or "groups" in kinds) for word in ("usemtl", "g", "o")]
    named = list(zip(mesh.corners.tolist(), rows_of(mesh, mesh.texture), rows_of(mesh, mesh.normal)))
    ways = list(zip(mesh.starts.tolist(), mesh.starts.tolist()[1:]))
    faces = [tool.Face([tool.Corner(*it) for it in named[a:b]], names) for (a, b), names in zip(ways, zip(*columns))]
    points = list(map(tuple, mesh.points.tolist()))
    features = tool.Features(tool.Mesh(points, values_of(mesh.texture), values_of(mesh.normal), faces))
    if angle is not None:
        features.mark_angles(angle)
    if "materials" in kinds or "groups" in kinds:
        features.mark_groups()
    if "seams" in kinds:
        features.mark_seams()
    if "normals" in kinds:
        features.mark_normals()
    if "lines" in kinds:
        inner = {edge for edge, _, _ in features.inner_edges()}
        pairs = [pair for line in mesh.lines for pair in zip(line.tolist(), line.tolist()[1:])]
        for edge in (it for it in ((min(pair), max(pair)) for pair in pairs) if it in inner):
            features.mark(edge, "by lines")
    if corners:
        features.mark_boundary_corners(30.0 if angle is None else angle)
        features.mark_turns(30.0 if angle is None else angle)
    return features.why


def names_of(mesh: Mesh, word: str, is_asked: bool) -> list:
    """The name of each face."""
    if word not in mesh.groups or not is_asked:
        return [""] * mesh.face_count
    return [mesh.groups[word].names[it] for it in mesh.groups[word].of_face.tolist()]


def rows_of(mesh: Mesh, layer) -> list:
    rows = [NONE] * len(mesh.corners) if layer is None else layer.rows.tolist()
    return [None if it == NONE else it for it in rows]


def values_of(layer) -> list:
    return [] if layer is None else list(map(tuple, layer.values.tolist()))


def any_mesh(seed: int) -> Mesh:
    """A rough part of a grid, or of a box of cubes, of which some faces are missing, with some of all that tells of
    features, its points and faces in any order."""
    rng = np.random.default_rng(seed)
    wide, high = rng.integers(2, 12, 2)
    flat = grid(int(wide), int(high))
    points = flat.points + rng.choice([0.0, 0.2, 1.0], (len(flat.points), 3)) * rng.normal(size=(len(flat.points), 3))
    if seed % 3 == 0:
        points[:, 2] = rng.integers(0, 2, len(points))
    kept = np.flatnonzero(rng.random(flat.face_count) < 0.9)
    order = rng.permutation(len(points))
    quads = np.argsort(order)[flat.quads[rng.permutation(kept)]]
    quads = np.stack([np.roll(quad, turn) for quad, turn in zip(quads, rng.integers(0, 4, len(quads)))]) if len(kept) \
        else np.zeros((0, 4), dtype=np.int64)
    mesh = Mesh.of_quads(points[order], quads)
    pairs = mesh.edges.ends[rng.random(len(mesh.edges.ends)) < 0.3]
    return replace(
        mesh,
        texture=any_layer(rng, mesh, 2), normal=any_layer(rng, mesh, 3),
        groups={word: Names(("", "one", "other"), rng.integers(0, 3, mesh.face_count) * (rng.random() < 0.5))
                for word in ("usemtl", "g", "o")},
        lines=tuple(pairs[:, ::-1]) + (np.array([0, len(points) - 1, 0]),))


def any_layer(rng, mesh: Mesh, width: int) -> Layer:
    """Values that are mostly the same around a point, some of them there twice."""
    values = np.tile(rng.integers(0, 3, (len(mesh.points), width)).astype(float), (2, 1))
    values[len(mesh.points):][rng.random(len(mesh.points)) < 0.2] += 1
    rows = mesh.corners + len(mesh.points) * (rng.random(len(mesh.corners)) < 0.3)
    return Layer(values, np.where(rng.random(len(rows)) < 0.03, NONE, rows))


class Features(unittest.TestCase):
    def compare(self, mesh: Mesh, angle, kinds, corners=True, name="") -> int:
        found = find_features(mesh, angle, kinds=kinds, corners=corners)
        self.assertEqual(found, by_script(mesh, angle, kinds, corners), (name, angle, kinds, corners))
        return len(found)

    def test_any_meshes(self):
        reasons = set()
        for seed in range(60):
            mesh = any_mesh(seed)
            for angle, kinds in WAYS:
                self.compare(mesh, angle, kinds, corners=True, name=seed)
                reasons.update(find_features(mesh, angle, kinds=kinds).values())
            self.compare(mesh, 20.0, tuple(KINDS), corners=False, name=seed)
        self.assertEqual(len(reasons), 7, reasons)

    def test_files(self):
        for folder in FOLDERS:
            for path in sorted([*folder.glob("*.obj"), *folder.glob("*/in")]):
                try:
                    mesh = read_obj(path.read_bytes())
                except ValueError:
                    continue
                for angle, kinds in WAYS if mesh.face_count <= SLOW else WAYS[-1:]:
                    self.compare(mesh, angle, kinds, name=path)

    def test_angles_that_are_nearly_the_wished_one(self):
        # Rows of faces, each turned out of the one before by one angle up to the last digits.
        for wished in (10.0, 30.0, 45.0, 60.0):
            turns = np.cumsum(np.full(300, np.radians(wished)))
            steps = np.stack([np.cos(turns), 0 * turns, np.sin(turns)], axis=1)
            rim = np.concatenate([np.zeros((1, 3)), np.cumsum(steps, axis=0)])
            quads = np.stack([np.array([2 * at, 2 * at + 2, 2 * at + 3, 2 * at + 1]) for at in range(300)])
            mesh = Mesh.of_quads(np.stack([rim, rim + [0, 1, 0]], axis=1).reshape(-1, 3), quads)
            marked = self.compare(mesh, wished, ())
            self.assertTrue(0 < marked < 299, marked)

    def test_faces_without_a_direction(self):
        # Three faces in a plane whose direction is below 0 along all axes; the middle one has no area.
        along = np.array([[0, 0], [0, 1], [-1, 0], [-1, 1], [-1, 0], [-1, 1], [-2, 0], [-2, 1]])
        flat = Mesh.of_quads(along @ [[1, -1, 0], [0.5, 0.5, -1]], [[0, 2, 3, 1], [2, 4, 5, 3], [4, 6, 7, 5]])
        self.assertEqual(self.compare(flat, 30.0, ()), 0)
        cube = read_obj((EXAMPLES / "cube.obj").read_text())
        for factor in (1e-81, 1e-75, 1e75, 1e200):
            self.compare(Mesh(cube.points * factor, cube.corners, cube.starts), 60.0, ())
        self.assertEqual(self.compare(Mesh.of_quads(np.zeros((0, 3)), np.zeros((0, 4))), 30.0, tuple(KINDS)), 0)

    def test_words(self):
        mesh = read_obj((EXAMPLES / "cube_blender.obj").read_text())
        told = carried("mark_features").summary(by_script(mesh, 30.0, tuple(KINDS)))
        self.assertEqual("marked " + mark_features(mesh, 30.0, kinds=tuple(KINDS)).in_words(), told)


if __name__ == "__main__":
    unittest.main()
