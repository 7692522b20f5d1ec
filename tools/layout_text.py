"""The text of `quadq layout` for scripts: the cut of a quad mesh into patches, and where it lies in the faces.

Vertices and faces count from 0, and a face is a list of four vertices. The text is that of the mesh at hand.
"""

from __future__ import annotations

import itertools
from dataclasses import dataclass, field
from typing import Iterable, Sequence

SIDES = ("south", "east", "north", "west")
COUNTED = ("singular", "corner", "reflex")
Edge = tuple[int, int]


def edge_of(one: int, other: int) -> Edge:
    """The edge between two vertices, as the pair of them in rising order."""
    return (one, other) if one < other else (other, one)


def edges_along(vertices: Sequence[int]) -> list[Edge]:
    return [edge_of(*pair) for pair in zip(vertices, vertices[1:])]


@dataclass
class Layout:
    """The lines of a text."""

    irregular: dict[int, str] = field(default_factory=dict)
    """The word of each irregular vertex: singular, corner or reflex."""
    arcs: list[list[int]] = field(default_factory=list)
    """The vertices along each arc."""
    sides: list[list[list[int]]] = field(default_factory=list)
    """The arcs on the south, east, north and west side of each patch."""

    def edges(self) -> set[Edge]:
        return {edge for arc in self.arcs for edge in edges_along(arc)}

    def old_lengths(self) -> list[int]:
        return [len(arc) - 1 for arc in self.arcs]

    def sizes(self, lengths: Sequence[int]) -> list[tuple[int, int]]:
        """The width and the height of each patch where the arcs have these lengths."""
        if len(lengths) != len(self.arcs):
            raise ValueError(f"the cut has {len(self.arcs)} arcs, and the text {len(lengths)} lengths")
        return [(sum(lengths[arc] for arc in south), sum(lengths[arc] for arc in east))
                for south, east, _, _ in self.sides]


def read_layout(text: str) -> Layout:
    """The cut that a text of `quadq layout` tells. Raises a `ValueError` where it is none."""
    lines = text.splitlines()
    if not text.startswith("quadq layout 1 "):
        raise ValueError("the text of a layout begins with `quadq layout 1`")
    found = Layout()
    for line in lines[2:]:
        word, *numbers = line.split()
        if word in COUNTED:
            found.irregular[int(numbers[0]) - 1] = word
        elif word in ("arc", "marked"):
            found.arcs.append([int(it) - 1 for it in numbers[2:]])
        elif word in SIDES:
            found.sides[-1].append([int(it) - 1 for it in numbers])
        elif word == "patch":
            found.sides.append([])
    return found


def cut_options(written: str) -> list[str]:
    """The options of `quadq layout` for the cut over which the program wrote a text."""
    words = written.partition("\n")[0].split()[2:]
    if words[0] == "fit":
        kept, patches = words[2], words[4]
    else:
        kept, patches = "lines" if words[0] == "crease" else "none", "merged" if words[0] == "coarse" else "traced"
    return ["--keep", kept, "--patches", patches]


def patches_of(faces: Sequence[Sequence[int]], cut: Iterable[Edge]) -> tuple[list[int], list[set[int]]]:
    """For each face the number of its patch between the edges of a cut, and for each patch its neighbours. Patches
    count in the order of their first faces."""
    beside: dict[Edge, list[int]] = {}
    for at, face in enumerate(faces):
        for edge in edges_along([*face, face[0]]):
            beside.setdefault(edge, []).append(at)
    on_cut = set(cut)
    inside: list[list[int]] = [[] for _ in faces]
    for edge, pair in beside.items():
        if len(pair) == 2 and edge not in on_cut:
            inside[pair[0]].append(pair[1])
            inside[pair[1]].append(pair[0])
    patch, numbers = [-1] * len(faces), itertools.count()
    for first in range(len(faces)):
        if patch[first] < 0:
            patch[first] = next(numbers)
            waiting = [first]
            for at in waiting:
                fresh = [it for it in inside[at] if patch[it] < 0]
                for it in fresh:
                    patch[it] = patch[first]
                waiting += fresh
    neighbours: list[set[int]] = [set() for _ in range(next(numbers))]
    for pair in beside.values():
        if len(pair) == 2 and patch[pair[0]] != patch[pair[1]]:
            neighbours[patch[pair[0]]].add(patch[pair[1]])
            neighbours[patch[pair[1]]].add(patch[pair[0]])
    return patch, neighbours
