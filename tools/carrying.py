"""What corners and vertices of a mesh name, carried over to a new mesh by a map, the text of docs/MAP.md.

A layer has values at the corners of faces, such as texture coordinates. A **seam** is an edge whose two faces name
other values at one of its ends. The map names for each new face its **home**, the old face in which its middle lies,
and where its corners lie as seen from there. Its **box** is the old faces from the home as far as the corners lie. Of
these, **reached** are those to which steps away from the home lead over no seam. A corner takes the value of the old
face where it lies, if that is reached; else it is carried on from the nearest face that is.

`tools/carry.py` uses this on texts, and the Python package on meshes in memory.
"""

from __future__ import annotations

from dataclasses import dataclass, field
from operator import mul
from typing import Hashable, Iterable, Iterator, Optional, Sequence

Value = tuple[float, ...]
Place = tuple[int, int]
"""A column and a row of old faces, counted from a home: to the east and to the north they are above 0."""

ONE = 1 << 32
"""The side of an old face, in the parts in which a map counts."""
SOUTH, EAST, NORTH, WEST = range(4)
"""The sides of an old face as its patch sees it, counterclockwise."""
DIGITS = 6
"""What is carried over has so many digits behind the point."""
NEAR = 2e-6
"""Values at one vertex that differ by no more are one."""


class CarryError(ValueError):
    """A map, and the meshes that it is said to be of, do not belong together."""


@dataclass(frozen=True)
class Cell:
    """Where a new face lies."""

    home: int
    """The dart of its home that is the south side there. A dart is four times a face plus a corner, from 0."""
    corners: tuple[tuple[int, int], ...]
    """How far to the east and to the north of the beginning of that dart its four corners lie, in parts of `ONE`."""


@dataclass(frozen=True)
class Spot:
    """Where a new vertex lies: the word and the numbers of its line."""

    kind: str
    numbers: tuple[int, ...]

    def is_within(self, vertices: int, faces: int) -> bool:
        """Whether what it names is among so many old vertices and faces."""
        if self.kind == "face":
            return 0 < self.numbers[0] <= faces
        return all(0 < it <= vertices for it in self.numbers[:1 if self.kind == "vertex" else 2])


@dataclass(frozen=True)
class Map:
    """What a map says: a spot for each new vertex, and a cell for each new face."""

    spots: list[Spot]
    cells: list[Cell]


NUMBERS = {"vertex": 1, "edge": 4, "share": 3, "face": 4, "cell": 10}
"""How many numbers stand behind the words of a map."""


def read_map(text: str) -> Map:
    lines = text.splitlines()
    head = lines[1].split() if len(lines) > 1 else []
    if lines[:1] != ["quadq map 1"] or head[::2] != ["vertices", "faces"]:
        raise CarryError("the map does not begin as maps do")
    if not all(it.isdecimal() for it in head[1::2]):
        raise CarryError("line 2 of the map has no numbers")
    vertices, faces = int(head[1]), int(head[3])
    if len(lines) != 2 + vertices + faces:
        raise CarryError(f"the map has {len(lines) - 2} lines for {vertices} vertices and {faces} faces")
    told = [_read_line(number, line, number > 2 + vertices) for number, line in enumerate(lines[2:], 3)]
    return Map([Spot(*it) for it in told[:vertices]], [_cell_of(*numbers) for _, numbers in told[vertices:]])


def _read_line(number: int, line: str, is_cell: bool) -> tuple[str, tuple[int, ...]]:
    kind, *words = line.split() or [""]
    is_told = (kind == "cell") == is_cell and len(words) == NUMBERS.get(kind)
    if not is_told or not all(it.lstrip("-").isdecimal() for it in words):
        raise CarryError(f"line {number} of the map is none that may stand there")
    return kind, tuple(map(int, words))


def _cell_of(face: int, corner: int, *places: int) -> Cell:
    return Cell(4 * (face - 1) + corner - 1, tuple(zip(places[::2], places[1::2])))


class Surface:
    """The quads of the old mesh, and how they hang together."""

    def __init__(self, corners: Sequence[int]) -> None:
        """`corners` has the four vertices of each face, one face behind the other."""
        self.corners = corners
        self.twins: list[Optional[int]] = [None] * len(corners)
        alone: dict[tuple[int, int], int] = {}
        for dart, start in enumerate(corners):
            end = corners[side(dart, EAST)]
            twin = alone.pop((end, start), None)
            if twin is None:
                alone[start, end] = dart
            else:
                self.twins[dart], self.twins[twin] = twin, dart

    def beyond(self, dart: int, way: int) -> int:
        """The south dart of the next face over a side of the face with this south dart."""
        twin = self.twins[side(dart, way)]
        if twin is None:
            raise CarryError("the map leads over the boundary of the old mesh")
        return side(twin, -way - 2)

    def box(self, cell: Cell) -> dict[Place, int]:
        """The old faces from the home as far as the corners lie, by their south darts, those nearer to it first."""
        columns, rows = (_range_over(it) for it in zip(*cell.corners))
        box = {(0, 0): cell.home}
        for column in columns:
            if column:
                box[column, 0] = self.beyond(box[_nearer(column), 0], EAST if column > 0 else WEST)
            for row in rows[1:]:
                box[column, row] = self.beyond(box[column, _nearer(row)], NORTH if row > 0 else SOUTH)
        return box


def side(dart: int, way: int) -> int:
    """A side of the face with this south dart."""
    return dart - dart % 4 + (dart + way) % 4


def _range_over(places: Sequence[int]) -> list[int]:
    """The columns or rows from the home as far as these places: 0, those to the one side, those to the other."""
    least, most = min(places) // ONE, -(-max(places) // ONE)
    return [*range(max(most, 1)), *range(-1, min(least, 0) - 1, -1)]


def _nearer(at: int) -> int:
    """The next column or row toward the home."""
    return at - 1 if at > 0 else at + 1


@dataclass
class Layer:
    """Values, and for each dart, or for each corner of the new mesh, the place of the one that it names, or None."""

    values: list[Value] = field(default_factory=list)
    rows: list[Optional[int]] = field(default_factory=list)
    are_directions: bool = False
    """Whether the values have length 1, as normals have."""

    def seams(self, surface: Surface) -> bytearray:
        """1 for each dart at whose edge two faces name other values."""
        marks = bytearray(len(surface.corners))
        if not self.values:
            return marks
        numbers: dict[Optional[Value], int] = {}
        ids = [numbers.setdefault(None if row is None else self.values[row], len(numbers)) for row in self.rows]
        for dart, twin in enumerate(surface.twins):
            if twin is not None and (ids[dart] != ids[side(twin, EAST)] or ids[side(dart, EAST)] != ids[twin]):
                marks[dart] = 1
        return marks

    def at(self, dart: int, east: float, north: float) -> Optional[Value]:
        """The value in the face with this south dart, between its four corners or carried on beyond them; None where a
        corner names none."""
        rows = [self.rows[side(dart, way)] for way in (SOUTH, EAST, NORTH, WEST)]
        weights = ((1 - east) * (1 - north), east * (1 - north), east * north, (1 - east) * north)
        values = [self.values[row] for row in rows if row is not None]
        return mixed(values, weights) if len(values) == 4 else None


def direction_of(value: Value) -> Value:
    """The value with length 1, where it has a direction."""
    size = sum(it * it for it in value) ** 0.5
    return tuple(it / size for it in value) if size else value


def mixed(values: Sequence[Value], weights: Sequence[float]) -> Value:
    """The sum of values with these weights, as far as all of them go."""
    return tuple([sum(map(mul, column, weights)) for column in zip(*values)])


def value_at(spot: Spot, at_vertices: Layer) -> Value:
    """The value at a new vertex: that of an old one, or mixed of those at the ends of its edge or in its face. The
    layer has a value for each old vertex, and each dart names that of its own."""
    if spot.kind == "face":
        face, corner, east, north = spot.numbers
        return at_vertices.at(4 * (face - 1) + corner - 1, east / ONE, north / ONE) or ()
    # A vertex is as far as nothing along an edge from itself; the places of a share are told in parts of `ONE`.
    first, last, some, parts = {"vertex": (*spot.numbers * 2, 0, 1), "share": (*spot.numbers, ONE)}.get(
        spot.kind, spot.numbers)
    return mixed((at_vertices.values[first - 1], at_vertices.values[last - 1]), (1 - some / parts, some / parts))


def reached_in(box: dict[Place, int], seams: bytearray) -> dict[Place, int]:
    """The faces of a box to which steps away from the home lead over no seam."""
    found = {(0, 0): box[0, 0]}
    for column, row in box:
        steps = []
        if column:
            steps.append(((_nearer(column), row), EAST if column > 0 else WEST))
        if row:
            steps.append(((column, _nearer(row)), NORTH if row > 0 else SOUTH))
        if any(before in found and not seams[side(found[before], way)] for before, way in steps):
            found[column, row] = box[column, row]
    return found


def nearest(faces: Iterable[Place], corner: tuple[int, int]) -> tuple[int, Place]:
    """The square of how far a corner lies from the nearest of these faces, and that face."""

    def distance(place: Place) -> int:
        return sum(max(it * ONE - at, 0, at - (it + 1) * ONE) ** 2 for it, at in zip(place, corner))

    far, _, place = min((distance(it), abs(it[0]) + abs(it[1]), it) for it in faces)
    return far, place


def place_of(corner: tuple[int, int]) -> Place:
    """The face of a box in which a corner lies: of several, the one that is nearest to the home."""
    east, north = corner
    return _cell_with(east), _cell_with(north)


def _cell_with(at: int) -> int:
    return at // ONE if at < 0 else (at - 1) // ONE if at else 0


class Carrying:
    """A layer on its way to the corners of the new mesh."""

    def __init__(self, surface: Surface, layer: Layer, cells: Sequence[Cell], vertices: Sequence[int]) -> None:
        """`vertices` has the four vertices of each new face, one face behind the other."""
        self.surface, self.layer, self.cells, self.vertices = surface, layer, cells, vertices
        self.seams = layer.seams(surface)
        self.values: list[Optional[Value]] = []
        """For each corner of the new mesh."""
        self.over: list[int] = []
        """The new faces that lie over a seam."""
        self.beyond: list[int] = []
        """The corners that were carried on."""

    def take(self, box: dict[Place, int]) -> None:
        """The values at the corners of the next new face, whose box this is."""
        face = len(self.values) // 4
        if not self.layer.values:
            self.values += [None] * 4
            return
        reached = reached_in(box, self.seams) if len(box) > 1 else box
        if len(reached) < len(box):
            self.over.append(face)
        for corner in self.cells[face].corners:
            far, place = 0, place_of(corner)
            if place not in reached:
                far, place = nearest(reached, corner)
            if far:
                self.beyond.append(len(self.values))
            east, north = ((at - it * ONE) / ONE for at, it in zip(corner, place))
            self.values.append(self.layer.at(reached[place], east, north))

    def result(self) -> Layer:
        """The layer of the new mesh, when all faces are taken, with each value once."""
        self._settle_carried_on()
        self._unite()
        numbers: dict[Value, int] = {}
        rows = [None if it is None else numbers.setdefault(self._final(it), len(numbers)) for it in self.values]
        return Layer(list(numbers), rows, self.layer.are_directions)

    def _final(self, value: Value) -> Value:
        return tuple(round(it, DIGITS) for it in (direction_of(value) if self.layer.are_directions else value))

    def _settle_carried_on(self) -> None:
        """Corners that were carried on take the value of one at their vertex that was reached and hangs together with
        them, one after the other; where there is none, the mean of those that do. What was reached keeps its value."""
        around: dict[int, list[int]] = {self.vertices[it]: [] for it in self.beyond}
        for corner, vertex in enumerate(self.vertices):
            if vertex in around:
                around[vertex].append(corner)
        carried_on = set(self.beyond)
        known: dict[int, set[int]] = {}
        for corners in around.values():
            for face in (it // 4 for it in corners):
                if face not in known:
                    known[face] = self._reached_from(face)
            faces = {it: known[it // 4] for it in corners}
            waiting = [it for it in corners if it in carried_on]
            for corner, after in self._chain([it for it in corners if it not in carried_on], waiting, faces):
                self.values[after] = self.values[corner]
            while waiting:
                group = [waiting.pop(0)]
                group += [after for _, after in self._chain(group[:], waiting, faces)]
                value = self._mean_of(group)
                for corner in group:
                    self.values[corner] = value

    def _chain(
        self, settled: list[int], waiting: list[int], faces: dict[int, set[int]]
    ) -> Iterator[tuple[int, int]]:
        """Takes each waiting corner that hangs together with a settled one, behind that one, and settles it."""
        for corner in settled:
            for after in [it for it in waiting if self._hang_together(faces[corner], faces[it])]:
                waiting.remove(after)
                settled.append(after)
                yield corner, after

    def _hang_together(self, some: set[int], others: set[int]) -> bool:
        """Whether two sets of faces are in part the same, or side by side over no seam."""
        darts = (dart for face in some for dart in range(4 * face, 4 * face + 4) if not self.seams[dart])
        twins = (self.surface.twins[it] for it in darts)
        return bool(some & others) or any(it is not None and it // 4 in others for it in twins)

    def _reached_from(self, face: int) -> set[int]:
        return {it // 4 for it in reached_in(self.surface.box(self.cells[face]), self.seams).values()}

    def _mean_of(self, corners: list[int]) -> Optional[Value]:
        values = [it for it in (self.values[corner] for corner in corners) if it is not None]
        return mixed(values, [1 / len(values)] * len(values)) if values else None

    def _unite(self) -> None:
        """Values at one vertex that are near each other become one."""
        kept: dict[int, list[Value]] = {}
        for corner, value in enumerate(self.values):
            if value is not None:
                known = kept.setdefault(self.vertices[corner], [])
                same = next((it for it in known if _are_near(it, value)), value)
                self.values[corner] = same
                if same is value:
                    known.append(value)


def _are_near(some: Value, other: Value) -> bool:
    return len(some) == len(other) and all(abs(a - b) <= NEAR for a, b in zip(some, other))


@dataclass(frozen=True)
class Carried:
    """What came over to the new mesh."""

    layers: list[Layer]
    over_seams: list[list[int]]
    """For each layer the new faces that lie over one of its seams."""
    homes: list[int]
    """The old face whose names each new face has."""
    over_borders: list[int]
    """The new faces that lie over a border of names."""


def carry(
    surface: Surface, layers: Sequence[Layer], names: Sequence[Hashable], given: Map, vertices: Sequence[int]
) -> Carried:
    """Layers and names of old faces, carried over to new faces that have these vertices, four a face. Linear in the
    faces and in their boxes. Raises a `CarryError` where the map is not of these meshes."""
    _refuse_strange(surface, given, vertices)
    on_their_way = [Carrying(surface, it, given.cells, vertices) for it in layers]
    over_borders = []
    for face, cell in enumerate(given.cells):
        box = surface.box(cell)
        for it in on_their_way:
            it.take(box)
        if len({names[dart // 4] for dart in box.values()}) > 1:
            over_borders.append(face)
    return Carried(
        [it.result() for it in on_their_way],
        [it.over for it in on_their_way],
        [it.home // 4 for it in given.cells],
        over_borders,
    )


def _refuse_strange(surface: Surface, given: Map, vertices: Sequence[int]) -> None:
    new, old = max(vertices, default=-1) + 1, max(surface.corners, default=-1) + 1
    if (len(given.spots), 4 * len(given.cells)) != (new, len(vertices)):
        raise CarryError(f"the map is of {len(given.spots)} vertices and {len(given.cells)} faces, and the new mesh "
                         f"has {new} and {len(vertices) // 4}")
    for number, spot in enumerate(given.spots, 3):
        if not spot.is_within(old, len(surface.corners) // 4):
            raise CarryError(f"line {number} of the map names what the old mesh does not have")
    for face, cell in enumerate(given.cells, 1):
        if not 0 <= cell.home < len(surface.corners):
            raise CarryError(f"the map names a home of face {face} that the old mesh does not have")
