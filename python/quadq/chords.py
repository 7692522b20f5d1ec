"""Chords: rows of opposite arcs through patches, which get an edge more or less together.

Where lengths fit each other, opposite sides of patches being as long, they do so too when all arcs of a chord are
longer by one, or shorter.
"""

from __future__ import annotations

import heapq
from dataclasses import dataclass
from typing import Iterator, Optional

import numpy as np

from .arrays import Array
from .layout import Layout

START = 0.02
"""What each arc of a chord costs, besides how much farther from its wish it comes."""
MOST, BUDGET = 150, 60_000
"""Through how many arcs chords are looked for at most, and how many arcs are looked at for that, about."""
BOUNDARY = -1
State = tuple[int, int, int]
"""An arc, the place of its use whose patch comes next, and whether it gets longer: 1, or shorter: -1."""


@dataclass(frozen=True)
class Chord:
    """Arcs that get longer or shorter together."""

    change: Array
    """(arcs,) int64."""
    cost: float
    """How much farther from their wishes arcs come, as parts of these."""


class Chords:
    """The chords through the arcs of a layout, for lengths that fit each other."""

    def __init__(self, layout: Layout, lengths: Array, wished: Array, floors: Array) -> None:
        self.lengths, self.wished, self.floors = lengths, np.maximum(wished, 1e-9), floors
        self.arc_of_use = layout.cut.uses.tolist()
        self.side_of_use = layout.side_of_use.tolist()
        self.first = np.concatenate([[0], np.cumsum(layout.cut.uses_of_sides)]).tolist()
        uses: list[list[int]] = [[] for _ in range(len(lengths))]
        for use, arc in enumerate(self.arc_of_use):
            uses[arc].append(use)
        self.uses = uses

    def through(self, arc: int, sign: int) -> Optional[Chord]:
        """The chord of least cost in which an arc gets longer by one (1) or shorter (-1), if there is one."""
        if not self._may(arc, sign):
            return None
        change = np.zeros(len(self.lengths), dtype=np.int64)
        change[arc] += sign
        ends: tuple[Optional[int], ...] = tuple(self.uses[arc]) if len(self.uses[arc]) == 2 else (self.uses[arc][0],)
        found = self._way(arc, ends[0], sign, ends[1] if len(ends) == 2 else None)
        if found is None:
            return None
        path, is_round = found
        for it, _, way in path:
            change[it] += way
        if len(ends) == 2 and not is_round:
            other = self._way(arc, ends[1], sign, None)
            if other is None:
                return None
            for it, _, way in other[0]:
                change[it] += way
        if np.any(self.lengths + change < np.minimum(self.floors, self.lengths)):
            return None
        return Chord(change, self._cost_of(change))

    def _cost_of(self, change: Array) -> float:
        before, after = np.abs(self.lengths - self.wished), np.abs(self.lengths + change - self.wished)
        return float(((after - before) / self.wished).sum() + START * np.abs(change).sum())

    def _may(self, arc: int, sign: int) -> bool:
        return sign > 0 or bool(self.lengths[arc] > self.floors[arc])

    def _step_cost(self, arc: int, sign: int) -> float:
        before, wished = self.lengths[arc], self.wished[arc]
        return max(START, START + float(abs(before + sign - wished) - abs(before - wished)) / float(wished))

    def _way(self, arc: int, use: Optional[int], sign: int, back: Optional[int]) -> Optional[tuple[list[State], bool]]:
        """The arcs behind one, over the patch of a use of it, up to the boundary or round to its other use `back`; and
        whether it came round."""
        assert use is not None
        start: State = (arc, use, sign)
        best: dict[State, float] = {start: 0.0}
        before: dict[State, State] = {}
        waiting: list[tuple[float, State]] = [(0.0, start)]
        while waiting:
            cost, state = heapq.heappop(waiting)
            if cost > best[state]:
                continue
            for used, way in self._over(state):
                it = self.arc_of_use[used]
                if used == back and way == sign:
                    return _path(state, before, start), True
                if it == arc or not self._may(it, way):
                    continue
                # At the boundary there is no other use. It is the end when nothing costs less.
                ahead = [one for one in self.uses[it] if one != used] or [BOUNDARY]
                more = cost + self._step_cost(it, way)
                now: State = (it, ahead[0], way)
                if more < best.get(now, float("inf")):
                    best[now], before[now] = more, state
                    heapq.heappush(waiting, (more, now))
            if state[1] == BOUNDARY:
                return _path(state, before, start), False
        return None

    def _over(self, state: State) -> Iterator[tuple[int, int]]:
        """The uses over the patch ahead by which its sides stay equally long, and how their arcs change."""
        _, use, sign = state
        if use == BOUNDARY:
            return
        side = self.side_of_use[use]
        # Of the four sides of a patch the second behind or before.
        across = side ^ 2
        for it in range(self.first[across], self.first[across + 1]):
            yield it, sign
        for it in range(self.first[side], self.first[side + 1]):
            if it != use:
                yield it, -sign


def _path(state: State, before: dict[State, State], start: State) -> list[State]:
    path = []
    while state != start:
        path.append(state)
        state = before[state]
    return path


def chords_of(layout: Layout, lengths: Array, wished: Array, floors: Array) -> list[Chord]:
    """Chords through arcs all over a layout, each once, those of least cost first. No arc (arcs,) gets shorter than its
    floor, or than it is."""
    finder = Chords(layout, lengths, wished, floors)
    found: dict[bytes, Chord] = {}
    most = max(1, min(MOST, BUDGET // max(1, len(lengths))))
    for arc in range(0, len(lengths), max(1, -(-len(lengths) // most))):
        for sign in (1, -1):
            it = finder.through(arc, sign)
            if it is not None:
                found.setdefault(it.change.tobytes(), it)
    return sorted(found.values(), key=lambda it: it.cost)
