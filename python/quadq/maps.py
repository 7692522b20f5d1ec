"""Maps as tables: where each point and each face of a new mesh lies in the old one. docs/MAP.md says what the texts
have."""

from __future__ import annotations

from dataclasses import dataclass
from typing import Sequence, Union

import numpy as np

from .arrays import Array
from .errors import MeshError
from .mesh import NONE
from .plain import strange

ONE = 1 << 32
"""The side of an old face, in the parts in which a map counts."""
SOUTH, EAST, NORTH, WEST = range(4)
"""The sides of an old face as its patch sees it, counterclockwise."""
AT_VERTEX, ON_EDGE, IN_FACE = range(3)
"""Where a new point lies."""
HEAD = b"quadq map 1"
VERTEX, EDGE, SHARE, FACE, CELL = range(5)
"""What a line of a map tells, by its first letter: a share is a place on an old edge, in parts of `ONE`."""
WORDS = b"vesfc"
NUMBERS = np.array([1, 4, 3, 4, 10])
"""How many numbers stand in each such line."""
KIND = np.array([AT_VERTEX, ON_EDGE, ON_EDGE, IN_FACE])
LETTERS = bytes(range(ord("a"), ord("z") + 1))


@dataclass(frozen=True)
class Map:
    """Where a new mesh of quads lies in an old one. All numbers count from 0."""

    kinds: Array
    """(new points,) int64: AT_VERTEX, ON_EDGE or IN_FACE."""
    points: Array
    """(new points, 4) int64: the old points between which each lies."""
    weights: Array
    """(new points, 4) float64: how much of each it is; they sum to 1."""
    darts: Array
    """(new points,) int64: of one in a face, the corner from which its place is told: four times the face and the
    corner, whose point is the first of its four. Else NONE."""
    homes: Array
    """(new faces,) int64: the old face in which the middle of each lies."""
    turns: Array
    """(new faces,) int64: the corner of that at which its south side begins."""
    places: Array
    """(new faces, 4, 2) int64: how far to the east and to the north of that corner its corners lie, in parts of `ONE`,
    in the order of its corners."""

    @property
    def souths(self) -> Array:
        """(new faces,) int64: the south side of each home, as a dart: four times the face and a corner."""
        return np.asarray(4 * self.homes + self.turns)

    def at_points(self, values: Array) -> Array:
        """(new points, ..): values of old points (old points, ..) at the new ones. What has no weight does not count,
        even where it is no number."""
        weights = self.weights.reshape(len(self.points), 4, *(1,) * (values.ndim - 1))
        return np.asarray(sum(np.where(weights[:, at] == 0, 0, values[self.points[:, at]]) * weights[:, at]
                              for at in range(4)))

    def nearest_points(self) -> Array:
        """(new points,) int64: the old point that counts most for each, the first of several."""
        return np.asarray(self.points[np.arange(len(self.points)), self.weights.argmax(axis=1)])

    def nearest_corners(self) -> Array:
        """(4 * new faces,) int64: the corner of its face's home that is nearest to each corner, as a dart."""
        east, north = (2 * self.places > ONE).transpose(2, 0, 1)
        ways = np.where(north, np.where(east, NORTH, WEST), np.where(east, EAST, SOUTH))
        return along(np.repeat(self.souths, 4), ways.ravel())

    def moved(self, points: Array, faces: Array) -> Map:
        """The same, where the old mesh is a part of another, in which its points and faces have these numbers."""
        darts = np.where(self.darts == NONE, NONE, 4 * faces[self.darts // 4] + self.darts % 4)
        return Map(self.kinds, points[self.points], self.weights, darts, faces[self.homes], self.turns, self.places)

    def with_image(self, points: Array, darts: Array, is_own: Array) -> Map:
        """The map of a new mesh with its mirror image behind it. The image lies in the mirror image of the old mesh:
        `points` (old points,) has the one for each old point, and `darts` (darts,) the way back along each edge there.
        Those of the new points that `is_own` (new points,) names have no image of their own."""
        inside = (self.kinds == IN_FACE)[~is_own]
        # Seen from a corner of the image, what lay to the east lies to the north.
        order = np.where(inside[:, None], [0, 3, 2, 1], np.arange(4))
        corners = np.where(inside, along(darts[self.darts[~is_own]], EAST), NONE)
        south = darts[self.souths]
        places = self.places[:, ::-1].copy()
        places[:, :, 0] = ONE - places[:, :, 0]
        return joined([self, Map(
            self.kinds[~is_own], np.take_along_axis(points[self.points[~is_own]], order, axis=1),
            np.take_along_axis(self.weights[~is_own], order, axis=1), corners, south // 4, south % 4, places)])

    def with_copy(self, is_own: Array) -> Map:
        """The same, where the image lies where its half does."""
        return joined([self, Map(self.kinds[~is_own], self.points[~is_own], self.weights[~is_own], self.darts[~is_own],
                                 self.homes, self.turns, self.places[:, ::-1])])


def along(darts: Array, ways: Union[int, Array]) -> Array:
    """Other sides of the faces that have these darts to the south."""
    return np.asarray(darts - darts % 4 + (darts + ways) % 4)


def beyond(darts: Array, way: int, twins: Array) -> Array:
    """The south darts of the next faces over a side of the faces with these south darts. `twins` has for each dart the
    one back along its edge. Raises a `MeshError` at the boundary."""
    back = twins[along(darts, way)]
    if np.any(back == NONE):
        raise MeshError("the map leads over the boundary of the old mesh")
    return along(back, -way - 2)


def joined(maps: Sequence[Map]) -> Map:
    """Maps into one old mesh, of new meshes that are put side by side."""
    if len(maps) == 1:
        return maps[0]
    tables = zip(*((it.kinds, it.points, it.weights, it.darts, it.homes, it.turns, it.places) for it in maps))
    return Map(*(np.concatenate(it) for it in tables))


def read_map(text: bytes, quads: Array) -> Map:
    """The map that a text tells, into a mesh of these quads (faces, 4). Raises a `Refusal` where it is none, and a
    `MeshError` where it is of another mesh. Linear in the text."""
    head, counts, rest = (text.split(b"\n", 2) + [b""] * 3)[:3]
    words = counts.split(b" ")
    if head != HEAD or words[::2] != [b"vertices", b"faces"] or len(words) != 4:
        raise strange("what the program wrote is no map")
    points, faces = int(words[1]), int(words[3])
    letters = np.frombuffer(rest, dtype=np.uint8)
    begins = np.concatenate([[0], np.flatnonzero(letters == ord("\n")) + 1])[:-1]
    of_letter = np.full(256, NONE)
    of_letter[list(WORDS)] = range(len(WORDS))
    lines = of_letter[letters[begins]]
    numbers: Array = np.fromstring(rest.translate(None, LETTERS), dtype=np.int64, sep=" ")
    is_cell = lines == CELL
    if len(lines) != points + faces or np.any(lines == NONE) or np.any(is_cell[:points]) or not np.all(
            is_cell[points:]) or len(numbers) != NUMBERS[lines].sum():
        raise strange("the map has other lines than maps have")
    split = int(NUMBERS[lines[:points]].sum())
    cells = numbers[split:].reshape(-1, NUMBERS[CELL])
    _refuse_beyond(cells[:, 0], len(quads))
    return Map(KIND[lines[:points]], *_spots(lines[:points], numbers[:split], quads), cells[:, 0] - 1, cells[:, 1] - 1,
               cells[:, 2:].reshape(-1, 4, 2))


def _refuse_beyond(numbers: Array, count: int) -> None:
    if np.any((numbers < 1) | (numbers > count)):
        raise MeshError("the map names what the old mesh does not have")


def _spots(lines: Array, numbers: Array, quads: Array) -> tuple[Array, Array, Array]:
    """The old points (new points, 4) of each new point, their weights, and the corner from which one in a face is told.
    """
    begins = np.cumsum(NUMBERS[lines]) - NUMBERS[lines]
    points, darts = np.repeat(numbers[begins][:, None], 4, axis=1), np.full(len(lines), NONE)
    weights = np.zeros((len(lines), 4))
    weights[:, 0] = 1
    for word in (EDGE, SHARE):
        some = np.flatnonzero(lines == word)
        points[some[:, None], [1, 3]] = numbers[begins[some] + 1][:, None]
        steps = numbers[begins[some] + 3] if word == EDGE else ONE
        weights[some, 1] = numbers[begins[some] + 2] / steps
        weights[some, 0] = 1 - weights[some, 1]
    some = np.flatnonzero(lines == FACE)
    face, corner, *ways = (numbers[begins[some] + at] for at in range(4))
    _refuse_beyond(face, len(quads))
    darts[some] = 4 * (face - 1) + corner - 1
    points[some] = quads[(face - 1)[:, None], (corner[:, None] - 1 + np.arange(4)) % 4] + 1
    east, north = (it / float(ONE) for it in ways)
    weights[some] = np.column_stack([(1 - east) * (1 - north), east * (1 - north), east * north, (1 - east) * north])
    _refuse_beyond(points, int(quads.max(initial=-1)) + 1)
    return points - 1, weights, darts
