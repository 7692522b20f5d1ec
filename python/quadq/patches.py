"""Which patch of the cut each face lies in, before and after a remesh."""

from __future__ import annotations

from dataclasses import dataclass
from typing import Sequence

import numpy as np

from .arrays import Array
from .layout import layout_of
from .mesh import Mesh
from .parts import Part, Written
from .program import Program


@dataclass(frozen=True)
class Painted:
    """Which patch each face of a remesh lies in: patches count from 0, over all parts."""

    of_old: Array
    """(old faces,) int64: of the parts side by side."""
    of_new: Array
    """(new faces,) int64: of what the program wrote for them."""

    def of_all(self, mesh: Mesh) -> Array:
        """(faces,) int64: of the new mesh. A mirror image lies in the patches of its half."""
        return np.tile(self.of_new, mesh.face_count // max(len(self.of_new), 1))

    def most_of(self, values: Array) -> Array:
        """(patches,) int64: of values at old faces (old faces,), which count from 0, the one that most faces of each
        patch have, and of several the least."""
        wide = int(values.max(initial=0)) + 1
        counts = np.bincount(self.of_old * wide + values, minlength=wide * (int(self.of_old.max(initial=-1)) + 1))
        return np.asarray(counts.reshape(-1, wide).argmax(axis=1))


def paint(parts: Sequence[Part], written: Sequence[Written], program: Program) -> Painted:
    """The patches of each part before and after its remesh."""
    none = np.zeros(0, dtype=np.int64)
    old, new, count = [none], [none], 0
    for part, it in zip(parts, written):
        patches = patches_under(part, it, program)
        old.append(count + patches.of_old)
        new.append(count + np.repeat(np.arange(len(patches.sizes)), patches.sizes))
        count += len(patches.sizes)
    return Painted(np.concatenate(old), np.concatenate(new))


@dataclass(frozen=True)
class Patches:
    """The patches over which a part was remeshed. The program writes its faces patch by patch."""

    of_old: Array
    """(faces,) int64: the patch of each face of the part. Patches count from 0, in the order of their first faces."""
    sizes: Array
    """(patches,) int64: how many new faces each has."""
    nodes: int
    """How many ends of arcs there are: they are the first points that the program writes."""


def patches_under(part: Part, written: Written, program: Program) -> Patches:
    """The patches of a part: those of its cut, beside its marks, and merged where that was wished."""
    layout = layout_of(part, program, written.is_merged)
    return Patches(layout.cut.patches_of(part.mesh), layout.widths(written.lengths).prod(axis=1).astype(np.int64),
                   len(layout.cut.nodes))


def borders(mesh: Mesh, patches: Array) -> Array:
    """(edges, 2): the edges between patches (faces,) and at the boundary, as pairs of points in rising order."""
    edges = mesh.edges
    return np.asarray(edges.ends[(edges.uses == 1) | (patches[edges.rising // 4] != patches[edges.falling // 4])])


def colours_of(mesh: Mesh, patches: Array, colours: int) -> Array:
    """(patches,) int64: a colour for each patch, from 0, that no neighbour has where there are enough colours."""
    inner = mesh.edges.uses == 2
    pairs = patches[np.column_stack([mesh.edges.rising, mesh.edges.falling])[inner] // 4]
    pairs = np.unique(np.sort(pairs[pairs[:, 0] != pairs[:, 1]], axis=1), axis=0)
    taken = np.zeros(int(patches.max(initial=-1)) + 1, dtype=np.int64)
    found = np.zeros(len(taken), dtype=np.int64)
    both = np.concatenate([pairs, pairs[:, ::-1]])
    both = both[np.argsort(both[:, 0], kind="stable")]
    starts = np.searchsorted(both[:, 0], np.arange(len(taken) + 1))
    for patch in range(len(taken)):
        free = [it for it in range(colours) if not taken[patch] >> it & 1] or list(range(colours))
        found[patch] = free[patch % len(free)]
        taken[both[starts[patch]:starts[patch + 1], 1]] |= 1 << int(found[patch])
    return found
