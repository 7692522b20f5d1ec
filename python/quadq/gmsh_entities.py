"""Cells in blocks of one entity each, as version 4.1 of gmsh's format has them."""

from __future__ import annotations

from dataclasses import replace

import numpy as np

from .arrays import Array
from .incoming import GEOMETRICAL, PHYSICAL
from .outgoing import Pieces

DIM_TAGS = "gmsh:dim_tags"
"""The name by which meshio has the entity of each point: its dimension and its number."""
NODES = {"line": 1, "triangle": 2, "quad": 2}
"""The dimensions of cells."""


def by_entities(pieces: Pieces, count: int) -> tuple[Pieces, Array]:
    """What is handed to meshio with a block of cells for each entity, whose cells are in one physical group; and the
    order in which the points, of which there are so many, stand entity by entity. Each entity has a point of its own,
    without which meshio does not write it. Raises a `ValueError` where there are too few for that."""
    cells, chosen, numbers = [], [], []
    taken: dict[int, set[int]] = {1: set(), 2: set()}
    for place, (kind, data) in enumerate(pieces.cells):
        for some, tag in _entities(pieces, place, len(data)):
            free = taken[NODES.get(kind, 2)]
            number = tag if tag > 0 and tag not in free else max(free, default=0) + 1
            free.add(number)
            cells.append((kind, data[some]))
            chosen.append((place, some))
            numbers.append(number)
    columns = {name: [values[place][some] for place, some in chosen] for name, values in pieces.cell_data.items()}
    columns[GEOMETRICAL] = [np.full(len(data), it, dtype=np.int32) for (_, data), it in zip(cells, numbers)]
    columns.setdefault(PHYSICAL, [np.zeros(len(data), dtype=np.int32) for _, data in cells])
    of_points = _of_points(cells, numbers, count)
    order = np.lexsort((of_points[:, 1], of_points[:, 0]))
    now_at = np.empty(count, dtype=np.int64)
    now_at[order] = np.arange(count)
    point_data = {name: it[order] for name, it in {**pieces.point_data, DIM_TAGS: of_points}.items()}
    made = replace(pieces, cells=[(kind, now_at[data]) for kind, data in cells], cell_data=columns,
                   point_data=point_data)
    return made, order


def _entities(pieces: Pieces, place: int, count: int) -> list[tuple[Array, int]]:
    """The cells of each entity of a block, and the number of the entity in gmsh, or 0."""
    none = np.zeros(count, dtype=np.int64)
    tags = [pieces.cell_data[name][place].astype(np.int64) if name in pieces.cell_data else none
            for name in (PHYSICAL, GEOMETRICAL)]
    pairs, of_cell = np.unique(np.column_stack(tags), axis=0, return_inverse=True)
    return [(np.flatnonzero(of_cell.reshape(-1) == at), int(tag)) for at, (_, tag) in enumerate(pairs.tolist())]


def _of_points(cells: list[tuple[str, Array]], numbers: list[int], count: int) -> Array:
    """(points, 2) int: the entity of each point: of one of the cells that it is in, lines first."""
    entities = np.array([[NODES.get(kind, 2), number] for (kind, _), number in zip(cells, numbers)])
    owner = np.full(count, -1)
    order = sorted(range(len(cells)), key=lambda at: (entities[at, 0], len(cells[at][1])))
    for at in order:
        free = np.unique(cells[at][1])
        free = free[owner[free] < 0]
        if not len(free):
            raise ValueError("a group of edges has no point that is in no other group: version 2.2 can have it")
        owner[free[:1]] = at
    for at in order:
        own = cells[at][1].ravel()
        owner[own[owner[own] < 0]] = at
    owner[owner < 0] = order[-1]
    return np.asarray(entities[owner])
