"""The way of a mesh through the crates: way.txt read, and its arrows led between the boxes.

Lengths are in pixels, and y grows downward. A row stands below its channel, in which arrows run from side to side; a
gutter, in which they run up and down, is left of each column, and one is right of the last.
"""

import re
from collections import defaultdict
from collections.abc import Iterable, Mapping, Sequence
from dataclasses import dataclass, field
from itertools import groupby
from pathlib import Path

FILE = Path(__file__).resolve().parent / "way.txt"
FLOW = 5
BOX, HIGH, GAP, SIDE_GAP, MARGIN = 118, 32, 46, 8, 24
# Between two arrows of a channel, of a gutter, and at a box.
LANE, TRACK, PORT = 11, 6, 12


@dataclass(frozen=True)
class Arrow:
    way: str
    start: str
    end: str
    value: str


@dataclass
class Row:
    """A row of boxes, by name or `.`, of a layer; laws have no arrows."""

    layer: str
    names: list[str]
    is_laws: bool
    top: float = 0.0


@dataclass
class Way:
    """What way.txt says."""

    rows: list[Row] = field(default_factory=list)
    names: dict[str, str] = field(default_factory=dict)
    arrows: list[Arrow] = field(default_factory=list)

    def layers(self) -> list[tuple[str, list[str]]]:
        """Each layer with its crates: those that do something, then definitions, then laws."""
        layers = groupby(self.rows, lambda it: it.layer)
        return [(layer, sorted(crates_of(rows), key=kind_of)) for layer, rows in layers]

    def wrong(self, crates: set[str]) -> list[str]:
        """What does not go together with the crates that there are."""
        placed = crates_of(self.rows)
        wrong = [f"{it} has no place" for it in crates - set(placed)]
        wrong += [f"{it} is no crate" for it in {*placed, *self.names} - crates]
        wrong += [f"{it} has two places" for it in set(placed) if placed.count(it) > 1]
        wrong += [f"{it} has no name of three words" for it in crates if len(self.names.get(it, "").split()) != 3]
        ends = {end for it in self.arrows for end in (it.start, it.end)}
        wrong += [f"an arrow is at {it}, which is no crate" for it in ends - crates]
        return [f"docs/pictures/way.txt: {it}" for it in sorted(wrong)]


def crates_of(rows: Iterable[Row]) -> list[str]:
    return [name for row in rows for name in row.names if name != "."]


def kind_of(name: str) -> int:
    return 1 if name.startswith("def_") else 2 if name.endswith("_laws") else 0


def read_way(file: Path = FILE) -> Way:
    way, layer = Way(), ""
    for line in file.read_text().splitlines():
        first, _, rest = line.partition(" ")
        if first == "layer":
            layer = rest
        elif first in ("row", "laws"):
            way.rows.append(Row(layer, rest.split(), first == "laws"))
        elif found := re.fullmatch(r"(\w+): (\w+) > (\w+) (.*)", line):
            way.arrows.append(Arrow(*found.groups()))
        elif found := re.fullmatch(r"(\w+): (.*)", line):
            way.names[found[1]] = found[2]
    return way


def left_of(column: int) -> float:
    """Where the boxes of a column begin."""
    side = max(0, column - FLOW)
    return MARGIN + GAP + (BOX + GAP) * (column - side) + (BOX + SIDE_GAP) * side


WIDE = left_of(FLOW + 2) - SIDE_GAP + MARGIN


@dataclass
class Route:
    """How an arrow runs: over one channel, over two with a gutter between them, or with none straight to the side."""

    arrow: Arrow
    start: tuple[int, int]
    end: tuple[int, int]
    channels: list[int]
    gutter: int = -1

    def has_gutter(self) -> bool:
        return self.gutter >= 0

    def sides(self) -> tuple[str, str]:
        """At which side of its first box it begins, and of its last it ends."""
        if not self.channels:
            return ("right", "left") if self.start[1] < self.end[1] else ("left", "right")
        first = "bottom" if self.channels[0] > self.start[0] else "top"
        return first, "top" if self.channels[-1] <= self.end[0] else "bottom"


class Plan:
    """The boxes of a way in their places, and its arrows as polylines."""

    def __init__(self, way: Way) -> None:
        self.way = way
        boxes = [(name, (at, column)) for at, row in enumerate(way.rows) for column, name in enumerate(row.names)]
        self.place = {name: where for name, where in boxes if name != "."}
        self.routes = [self.route(it) for it in way.arrows]
        self.ports = self.ports_of_all()
        self.tracks = lanes({(it.gutter, i): it.channels for i, it in enumerate(self.routes) if it.has_gutter()})
        self.lanes = lanes(self.spans(), 6)
        self.high = self.put_rows()

    def is_free(self, column: int, first: int, last: int) -> bool:
        """Whether no box lies in a column between two rows."""
        first, last = sorted((first, last))
        return all(row.names[column] == "." for at, row in enumerate(self.way.rows) if first < at < last)

    def route(self, arrow: Arrow) -> Route:
        (a, left), (b, right) = start, end = self.place[arrow.start], self.place[arrow.end]
        if a == b:
            between = range(min(left, right) + 1, max(left, right))
            is_free = all(self.way.rows[a].names[it] == "." for it in between)
            return Route(arrow, start, end, [] if is_free else [a])
        first, last = (a + 1, b) if a < b else (a, b + 1)
        if first == last or self.is_free(right, a, b):
            return Route(arrow, start, end, [first])
        if self.is_free(left, a, b):
            return Route(arrow, start, end, [last])
        return Route(arrow, start, end, [first, last], right if left <= right and right else right + 1)

    def ports_of_all(self) -> dict[tuple[int, bool], float]:
        """How far from the middle of a side each route begins (False) or ends (True), by its number."""
        at_side = defaultdict(list)
        for i, route in enumerate(self.routes):
            both = [(route.start, route.end, False), (route.end, route.start, True)]
            for (box, other, is_end), side in zip(both, route.sides()):
                at_side[box, side].append((other[1], abs(other[0] - box[0]), i, is_end))
        ports = {
            (i, is_end): PORT * (nth - (len(ends) - 1) / 2)
            for ends in at_side.values()
            for nth, (_, _, i, is_end) in enumerate(sorted(ends))
        }
        for ends in at_side.values():
            self.straighten(ports, [(i, is_end) for _, _, i, is_end in ends])
        return ports

    def straighten(self, ports: dict[tuple[int, bool], float], side: list[tuple[int, bool]]) -> None:
        """Moves where an arrow begins over where it ends, if both are in one column and there is room."""
        for i, is_end in side:
            route = self.routes[i]
            if not is_end and route.start[1] == route.end[1] and not route.has_gutter():
                others = [ports[it] for it in side if it != (i, is_end)]
                if all(abs(it - ports[i, True]) > PORT / 3 for it in others):
                    ports[i, is_end] = ports[i, True]

    def port_at(self, i: int, is_end: bool) -> float:
        """Where a route begins or ends, from the left."""
        _, column = self.routes[i].end if is_end else self.routes[i].start
        return left_of(column) + BOX / 2 + self.ports[i, is_end]

    def gutter_at(self, i: int) -> float:
        gutter = self.routes[i].gutter
        return left_of(gutter) - GAP / 2 + TRACK * (self.tracks[gutter, i] - 1.5)

    def stops(self, i: int) -> list[float]:
        """From left to right or back: where a route begins, its gutter, and where it ends."""
        between = [self.gutter_at(i)] if self.routes[i].has_gutter() else []
        return [self.port_at(i, False), *between, self.port_at(i, True)]

    def spans(self) -> dict[tuple[int, int], list[float]]:
        """From where to where a route runs in each of its channels."""
        spans: dict[tuple[int, int], list[float]] = {}
        for i, route in enumerate(self.routes):
            stops = self.stops(i)
            for nth, channel in enumerate(route.channels):
                if abs(stops[nth] - stops[nth + 1]) > 1:
                    spans[channel, i] = [stops[nth], stops[nth + 1]]
        return spans

    def put_rows(self) -> float:
        """Gives each row its place, below a channel with room for its arrows, and says how high all is."""
        top = 0.0
        for at, row in enumerate(self.way.rows):
            is_first = at == 0 or self.way.rows[at - 1].layer != row.layer
            used = [lane for (channel, _), lane in self.lanes.items() if channel == at]
            crossed = any(at in it.channels for it in self.routes)
            top += 26 * is_first + (LANE * (max(used, default=-1) + 1) + 20 if used or crossed else 8)
            row.top = top
            top += HIGH
        return top + MARGIN

    def begin_of(self, first: int) -> float:
        """Where a layer begins whose first row is given."""
        above = self.way.rows[first - 1]
        return above.top + HIGH + 8 if first else 4.0

    def channel_at(self, channel: int, i: int) -> float:
        return self.way.rows[channel].top - 16 - LANE * self.lanes.get((channel, i), 0)

    def points(self, i: int) -> list[tuple[float, float]]:
        """The corners of an arrow."""
        route, stops = self.routes[i], self.stops(i)
        (a, left), (b, right) = route.start, route.end
        first, last = self.way.rows[a].top, self.way.rows[b].top
        if not route.channels:
            by, forth = HIGH / 2 + self.ports[i, False], left < right
            return [(left_of(left) + BOX * forth, first + by), (left_of(right) + BOX * (not forth), first + by)]
        sides = route.sides()
        corners = [(stops[0], first + HIGH * (sides[0] == "bottom"))]
        for nth, channel in enumerate(route.channels):
            corners += [(stops[nth], self.channel_at(channel, i)), (stops[nth + 1], self.channel_at(channel, i))]
        return [*corners, (stops[-1], last + HIGH * (sides[1] == "bottom"))]


def lanes(spans: Mapping[tuple[int, int], Sequence[float]], apart: float = 0) -> dict[tuple[int, int], int]:
    """A lane for each span, by its road and route: the longest first, and those that overlap on different lanes."""
    taken: dict[tuple[int, int], int] = {}
    for (road, i), span in sorted(spans.items(), key=lambda it: min(it[1]) - max(it[1])):
        near = set()
        for (other, j), lane in taken.items():
            apart_by = max(min(span) - max(spans[other, j]), min(spans[other, j]) - max(span))
            if other == road and apart_by <= apart:
                near.add(lane)
        taken[road, i] = min(set(range(len(near) + 1)) - near)
    return taken
