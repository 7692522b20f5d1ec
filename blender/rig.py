"""What moves the vertices of an object: the weights of its vertex groups, and its shape keys."""

from __future__ import annotations

from dataclasses import dataclass
from itertools import islice
from typing import Any, Iterator, Optional

import bmesh
import bpy
import numpy as np

from .arrays import column, name_of
from .quadq.arrays import Array
from .quadq.carrier import Carrier

LEAST = 1e-6
"""A vertex with a smaller weight is not in the group."""
AT_A_TIME = 50_000
"""How many weights are set before the window gets a turn."""
SETTINGS = ("interpolation", "mute", "slider_min", "slider_max", "value", "vertex_group")
"""What a shape key has besides its places. The range comes before the value."""


@dataclass(frozen=True)
class Groups:
    """The vertex groups of an object."""

    names: list[str]
    locked: list[bool]
    active: int
    members: list[Array]
    """For each group (members,) int64, and (members,) float64: the vertices and their weights."""
    weights: list[Array]
    count: int
    """How many vertices there are."""

    @staticmethod
    def of(source: Any, data: Any) -> Groups:
        """Those of an object, whose mesh this is."""
        groups = source.vertex_groups
        told = [(it.index, one.group, one.weight) for it in data.vertices for one in it.groups] if len(groups) else []
        at, group, weight = np.array(told, dtype=float).reshape(-1, 3).T
        chosen = [np.flatnonzero(group == it) for it in range(len(groups))]
        return Groups(list(map(name_of, groups)), [it.lock_weight for it in groups], groups.active_index,
                      [at[it].astype(np.int64) for it in chosen], [weight[it] for it in chosen], len(data.vertices))

    def carried(self, carrier: Carrier, axis: Optional[int]) -> Groups:
        """The groups of the remesh. With an axis, the vertices below 0 are a mirror image, where groups of left and
        right change places."""
        count = len(carrier.new.points)
        image = np.zeros(count, dtype=bool) if axis is None else carrier.new.points[:, axis] < 0
        place = {name: at for at, name in enumerate(self.names)}
        mixed = [self._mixed(carrier, at) for at in range(len(self.names))]
        flipped = [mixed[place.get(bpy.utils.flip_name(it), at)] for at, it in enumerate(self.names)]
        weights = [np.where(image, there, own) for own, there in zip(mixed, flipped)]
        members = [np.flatnonzero(it > LEAST) for it in weights]
        kept = [it[at] for it, at in zip(weights, members)]
        return Groups(self.names, self.locked, self.active, members, kept, count)

    def _mixed(self, carrier: Carrier, group: int) -> Array:
        values = np.zeros((self.count, 1))
        values[self.members[group], 0] = self.weights[group]
        return carrier.mixed(values)[:, 0] if values.any() else np.zeros(len(carrier.new.points))

    def put_weights(self, data: Any) -> Iterator[None]:
        """Gives a mesh that has vertices and nothing else their weights, some at a time. Blender has no table of them,
        and this way is the fastest."""
        work = bmesh.new(use_operators=False)
        try:
            work.from_mesh(data)
            work.verts.ensure_lookup_table()
            vertices, layer = work.verts, work.verts.layers.deform.verify()
            for group, (members, weights) in enumerate(zip(self.members, self.weights)):
                pairs = zip(members.tolist(), weights.tolist())
                while some := list(islice(pairs, AT_A_TIME)):
                    for vertex, weight in some:
                        vertices[vertex][layer][group] = weight
                    yield
            work.to_mesh(data)
        finally:
            work.free()

    def put(self, target: Any) -> Iterator[None]:
        """Gives an object, whose mesh has the weights, the groups."""
        for name, is_locked in zip(self.names, self.locked):
            target.vertex_groups.new(name=name).lock_weight = is_locked
            yield
        if self.names:
            target.vertex_groups.active_index = min(self.active, len(self.names) - 1)


@dataclass(frozen=True)
class ShapeKeys:
    """The shape keys of a mesh, with where each moves its vertices."""

    key: Any
    """Blender's, of the old mesh."""
    names: list[str]
    moves: list[Array]
    """For each key (vertices, 3) float64: how far from the mesh's own place."""

    @staticmethod
    def of(data: Any) -> Optional[ShapeKeys]:
        """Those of a mesh of Blender, or None."""
        key = data.shape_keys
        if key is None:
            return None
        places = column(data.vertices, "co", np.float32, 3).astype(float)
        blocks = list(key.key_blocks)
        moves = [column(it.data, "co", np.float32, 3).astype(float) - places for it in blocks]
        return ShapeKeys(key, list(map(name_of, blocks)), moves)

    def carried(self, carrier: Carrier, axis: Optional[int]) -> ShapeKeys:
        """The keys of the remesh. With an axis, the vertices below 0 are a mirror image, and so are their moves."""
        moves = [carrier.mixed(it) for it in self.moves]
        if axis is not None:
            for it in moves:
                it[carrier.new.points[:, axis] < 0, axis] *= -1
        return ShapeKeys(self.key, self.names, moves)

    def put(self, target: Any) -> Iterator[None]:
        """Gives an object whose mesh has none yet these keys, with their settings, drivers and action."""
        places = column(target.data.vertices, "co", np.float32, 3)
        for name, move in zip(self.names, self.moves):
            block = target.shape_key_add(name=name, from_mix=False)
            block.data.foreach_set("co", (places + move).astype(np.float32).ravel())
            yield
        new = target.data.shape_keys
        olds = list(self.key.key_blocks)
        for block, old in zip(new.key_blocks, olds):
            for name in SETTINGS:
                setattr(block, name, getattr(old, name))
            block.relative_key = new.key_blocks[olds.index(old.relative_key)]
        new.use_relative, new.eval_time = self.key.use_relative, self.key.eval_time
        copy_animation(self.key, new)


def copy_animation(old: Any, new: Any) -> None:
    """Gives a block of Blender's data the action and the drivers of another."""
    given = old.animation_data
    if given is None:
        return
    made = new.animation_data_create()
    if given.action is not None:
        made.action = given.action
    for it in given.drivers:
        made.drivers.from_existing(src_driver=it)
