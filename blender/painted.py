"""What is painted on a mesh, as a number from 0 to 1 at each vertex: the weights of a vertex group, or colours."""

from __future__ import annotations

from typing import Any, Iterator, Optional

import numpy as np

from .arrays import column, name_of
from .quadq.arrays import Array


def names_of(source: Any) -> Iterator[str]:
    """The names of what may be painted on an object: its vertex groups, and the colour attributes of its mesh."""
    yield from map(name_of, source.vertex_groups)
    yield from map(name_of, source.data.color_attributes)


def painted(source: Any, data: Any, name: str) -> Optional[Array]:
    """(vertices,) float64: what is painted under a name on an object, whose mesh this is, or that as it looks; None
    where there is nothing of that name. A vertex group goes before a colour attribute; of a colour the mean of red,
    green and blue counts, and of corners the mean at a vertex."""
    for it in source.vertex_groups:
        if name_of(it) == name:
            return _weights(data, it.index)
    for it in data.color_attributes:
        if name_of(it) == name:
            values = column(it.data, "color", np.float32, 4)[:, :3].astype(float).mean(axis=1)
            return values if it.domain == "POINT" else _at_vertices(data, values)
    return None


def _weights(data: Any, group: int) -> Array:
    found = np.zeros(len(data.vertices))
    told = [(it.index, one.weight) for it in data.vertices for one in it.groups if one.group == group]
    at, weight = np.array(told, dtype=float).reshape(-1, 2).T
    found[at.astype(np.int64)] = weight
    return found


def _at_vertices(data: Any, values: Array) -> Array:
    corners, count = column(data.loops, "vertex_index", np.int32), len(data.vertices)
    sums = np.bincount(corners, values, minlength=count)
    return np.asarray(sums / np.maximum(np.bincount(corners, minlength=count), 1))
