"""The rounds of `quadq fit --floor auto` on small meshes, against those that trying all lists of lengths allows.

The program is that of the variable QUADQ, or dist/quadq.
"""

import itertools
import os
import pathlib
import subprocess
import sys
import unittest
from dataclasses import dataclass
from typing import Iterator, Sequence

ROOT = pathlib.Path(__file__).resolve().parents[2]
sys.path.insert(0, str(ROOT / "tools"))
from layout_text import Layout, edges_along, patches_of, read_layout  # noqa: E402

PROGRAM = os.environ.get("QUADQ", str(ROOT / "dist/quadq"))
GREATEST = 3
"""No floor is higher."""
CUT = ["--keep", "none", "--patches", "merged"]
SCALES = [(1, 10), (1, 3), (1, 2), (2, 3)]
Point = tuple[object, ...]
Run = tuple[int, ...]
Round = tuple[list[int], list[tuple[int, int]]]
"""The lengths of a round, and the floors that rise behind it: arcs from 0."""


def ran(words: Sequence[str], text: str) -> str:
    """What the program writes."""
    return subprocess.run([PROGRAM, *words], input=text, capture_output=True, text=True, check=True).stdout


def rolled(wide: int, high: int, closed: bool) -> str:
    """A grid whose first column follows the last one, and with `closed` the first row the last one: its places do not
    matter."""
    rows = high if closed else high + 1
    lines = [f"v {x} {y} {x * y % 5}" for y in range(rows) for x in range(wide)]
    for y, x in itertools.product(range(high), range(wide)):
        low, up, right = y * wide, (y + 1) % rows * wide, (x + 1) % wide
        lines.append(f"f {low + x + 1} {low + right + 1} {up + right + 1} {up + x + 1}")
    return "\n".join(lines) + "\n"


def pillow(side: int) -> str:
    """Two square grids that share their border."""
    at = [(x, y, z) for z in (0, 1) for y in range(side + 1) for x in range(side + 1)
          if not z or 0 < x < side and 0 < y < side]
    number = {it: k + 1 for k, it in enumerate(at)}
    lines = [f"v {x} {y} {z}" for x, y, z in at]
    for z, y, x in itertools.product((0, 1), range(side), range(side)):
        ring = [(x, y), (x + 1, y), (x + 1, y + 1), (x, y + 1)]
        lines.append("f " + " ".join(str(number.get((i, j, z), number.get((i, j, 0)))) for i, j in ring[::1 - 2 * z]))
    return "\n".join(lines) + "\n"


@dataclass
class Patches:
    """A cut into patches, with the direction in which each side of a patch takes its arcs."""

    layout: Layout
    sides: list[list[list[tuple[int, bool]]]]

    @classmethod
    def of(cls, text: str) -> "Patches":
        layout = read_layout(ran(["layout", *CUT], text))
        faces = [[int(it) - 1 for it in line.split()[1:]] for line in text.splitlines() if line[0] == "f"]
        whose, _ = patches_of(faces, layout.edges())
        face_at = {pair: f for f, face in enumerate(faces) for pair in zip(face, face[1:] + face[:1])}
        used: set[int] = set()
        sides = []
        for patch, four in enumerate(layout.sides):
            sides.append([])
            for arcs in four:
                sides[-1].append([(arc, cls._is_forward(layout, face_at, whose, patch, arc, used)) for arc in arcs])
        return cls(layout, sides)

    @staticmethod
    def _is_forward(layout: Layout, face_at: dict[tuple[int, int], int], whose: list[int], patch: int, arc: int,
                    used: set[int]) -> bool:
        """Whether the face on the left of the arc is in the patch. Of a patch on both sides the first use is so."""
        left = face_at.get((layout.arcs[arc][0], layout.arcs[arc][1]))
        forward = left is not None and whose[left] == patch and arc not in used
        if forward:
            used.add(arc)
        return forward

    def on_arc(self, arc: int, lengths: Sequence[int], at: int) -> Point:
        vertices = self.layout.arcs[arc]
        return ("node", vertices[0 if at == 0 else -1]) if at in (0, lengths[arc]) else ("arc", arc, at)

    def along(self, side: Sequence[tuple[int, bool]], lengths: Sequence[int]) -> list[Point]:
        """The points along a side of a patch."""
        points: list[Point] = []
        for arc, forward in side:
            steps = range(lengths[arc] + 1) if forward else range(lengths[arc], -1, -1)
            points += [self.on_arc(arc, lengths, at) for at in steps][1 if points else 0:]
        return points

    def edges(self, lengths: Sequence[int]) -> Iterator[tuple[Point, Point, list[Run]]]:
        """Each edge of the new mesh: its ends, and the runs of arcs along it, the arc on which it lies or those on each
        of the two sides of its patch."""
        for arc, length in enumerate(lengths):
            for at in range(length):
                yield self.on_arc(arc, lengths, at), self.on_arc(arc, lengths, at + 1), [(arc,)]
        for patch, four in enumerate(self.sides):
            south, east, north, west = (self.along(side, lengths) for side in four)
            lower, upper = ([tuple(arc for arc, _ in four[side]) for side in (k, k + 2)] for k in (0, 1))
            wide, high = len(south) - 1, len(east) - 1
            inside = [[("patch", patch, i, j) for j in range(1, high)] for i in range(1, wide)]
            columns = [[low, *between, up] for low, between, up in zip(south[1:], inside, north[-2:0:-1])]
            rows = zip(west[-2:0:-1], *(column[1:-1] for column in columns), east[1:])
            for runs, lines in ((upper, columns), (lower, rows)):
                yield from ((one, other, runs) for line in lines for one, other in zip(line, line[1:]))

    def doubled(self, lengths: Sequence[int]) -> list[list[Run]]:
        """The runs along all edges of each doubled pair: that join the same points as another, or a point with
        itself."""
        found: dict[frozenset[Point], list[list[Run]]] = {}
        for one, other, runs in self.edges(lengths):
            found.setdefault(frozenset([one, other]), []).append(runs)
        return [[run for runs in twice for run in runs] for ends, twice in found.items()
                if len(twice) > 1 or len(ends) == 1]

    def are_equal(self, lengths: Sequence[int]) -> bool:
        """Whether opposite sides have equal sums."""
        return all(sum(lengths[arc] for arc in one) == sum(lengths[arc] for arc in other)
                   for south, east, north, west in self.layout.sides for one, other in ((south, north), (east, west)))


def rounds_of(written: str) -> list[Round]:
    """The rounds of a text with the floor `auto`."""
    found: list[Round] = [([], [])]
    for line in written.splitlines():
        word, *numbers = line.split()
        if word == "#r":
            found[-1][1].append((int(numbers[0]) - 1, int(numbers[1])))
        elif word == "#x":
            if found[-1][1]:
                found.append(([], []))
            found[-1][0].append(int(numbers[0]))
    return found


@dataclass
class Wishes:
    """What is wished of the arcs: `p / q` times their old lengths, by weights."""

    p: int
    q: int
    old: list[int]
    weights: list[int]

    def off(self, arc: int, length: int) -> int:
        """How far an arc of this length is from its wish."""
        return self.weights[arc] * abs(self.q * length - self.p * self.old[arc])

    def deviation(self, lengths: Sequence[int]) -> int:
        return sum(self.off(arc, length) for arc, length in enumerate(lengths))

    def price(self, run: Run, lengths: Sequence[int]) -> int:
        """What one edge more costs on each short arc of a run."""
        return sum(self.off(arc, lengths[arc] + 1) - self.off(arc, lengths[arc]) for arc in run
                   if lengths[arc] < GREATEST)


class TestRounds(unittest.TestCase):
    """Each round has lengths that are least among all with its floors, and floors rise where an edge is doubled, along
    the cheapest run of each doubled pair."""

    MESHES = {"cylinder": rolled(5, 3, False), "torus": rolled(4, 3, True), "pillow": pillow(3),
              "long": rolled(7, 2, False)}

    def least(self, patches: Patches, floors: Sequence[int], wishes: Wishes) -> list[list[int]]:
        """All lists of least deviation."""
        ranges = [range(floor, max(GREATEST, wishes.p * long // wishes.q + 1) + 2)
                  for floor, long in zip(floors, wishes.old)]
        off = {lengths: wishes.deviation(lengths)
               for lengths in itertools.product(*ranges) if patches.are_equal(lengths)}
        return [list(lengths) for lengths, far in off.items() if far == min(off.values())]

    def assert_risen(self, patches: Patches, lengths: Sequence[int], rises: Sequence[tuple[int, int]],
                     wishes: Wishes) -> None:
        """From each doubled pair a cheapest run of those with a short arc is taken: its short arcs rise by one. Where
        there is none, all short arcs rise to the greatest."""
        pairs = patches.doubled(lengths)
        self.assertTrue(pairs and rises)
        self.assertEqual(rises, sorted(set(rises)))
        short = {arc for arc, length in enumerate(lengths) if length < GREATEST}
        cheapest = []
        for runs in pairs:
            prices = {run: wishes.price(run, lengths) for run in runs if short & set(run)}
            cheapest.append([short & set(run) for run, price in prices.items() if price == min(prices.values())])
        if not any(cheapest):
            self.assertEqual(rises, [(arc, GREATEST) for arc in sorted(short)])
            return
        rising = {arc for arc, _ in rises}
        self.assertEqual(rises, [(arc, lengths[arc] + 1) for arc in sorted(rising)])
        taken = [[arcs for arcs in choices if arcs <= rising] for choices in cheapest if choices]
        self.assertTrue(all(taken))
        self.assertEqual(rising, set().union(*itertools.chain.from_iterable(taken)))

    def test_all_lists(self) -> None:
        risen = 0
        for (name, text), (p, q), weight in itertools.product(self.MESHES.items(), SCALES, ("plain", "length")):
            patches = Patches.of(text)
            old = patches.layout.old_lengths()
            self.assertLessEqual(len(old), 10)
            wishes = Wishes(p, q, old, old if weight == "length" else [1] * len(old))
            words = ["fit", *CUT, "--aim", f"scale:{p}/{q}", "--floor", "auto", "--weight", weight, "--spacing", "even"]
            with self.subTest(mesh=name, scale=(p, q), weight=weight):
                written = ran(words, text)
                floors = [1] * len(old)
                for lengths, rises in rounds_of(written):
                    self.assertIn(lengths, self.least(patches, floors, wishes))
                    if rises:
                        risen += 1
                        self.assert_risen(patches, lengths, rises, wishes)
                        for arc, floor in rises:
                            floors[arc] = floor
                    else:
                        self.assertEqual(patches.doubled(lengths), [])
                        faces = sum(wide * high for wide, high in patches.layout.sizes(lengths))
                        self.assertEqual(written.count("\nf "), faces)
        self.assertGreater(risen, 10)


if __name__ == "__main__":
    unittest.main()
