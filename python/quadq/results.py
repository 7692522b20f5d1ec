"""What a remesh comes to, in numbers and in words."""

from __future__ import annotations

import math
import os
from dataclasses import asdict, dataclass, replace
from decimal import Decimal
from fractions import Fraction
from functools import cached_property
from typing import Any, Optional, Sequence, Union

import numpy as np

from .arrays import Array
from .attributes import map_of
from .carrier import Carrier
from .distance import Distance
from .floors import Floors
from .mesh import Mesh
from .notices import Notice, notices_of
from .parts import Part, Workshop, Written
from .program import Program
from .quality import Quality, quality_of
from .scaling import mean_edge
from .subdivision import in_quads
from .surface import irregular_counts
from .symmetry import Image
from .under import Made, under_of


@dataclass(frozen=True)
class Counts:
    """A mesh in numbers."""

    points: int
    faces: int
    irregular: tuple[int, int]
    """Points inside with another number of faces than four, and on the boundary with another than two; of polygons
    they are counted once these are divided into quads."""
    quality: Quality
    mean_edge: float
    """The mean length of its edges, in the unit of the mesh."""

    @staticmethod
    def of(mesh: Mesh) -> Counts:
        quads = in_quads(mesh)
        return Counts(len(mesh.used), mesh.face_count, irregular_counts(quads), quality_of(quads), mean_edge(mesh))


@dataclass(frozen=True)
class Report:
    """What was asked, what was reached, and how good it is. Distances are in the unit of the mesh."""

    before: Counts
    after: Counts
    ready: int
    """How many faces the mesh had when it was remeshed: after it was subdivided, where that was wished."""
    wished: Optional[int]
    """The number of faces that was asked for, if it was."""
    because: str
    """Why it came no nearer to that number, or nothing."""
    scale: Optional[Fraction]
    """None where edges of one length were asked for."""
    edge: Optional[Decimal]
    """The length of edges that was asked for, if it was."""
    command: str
    """The command of the program that wrote the parts."""
    marks: str
    """How many edges were marked to stay, and why, or nothing."""
    floor: Union[int, str]
    weight: str
    parts: int
    arcs: int
    arcs_at_floor: int
    deviation: Optional[int]
    """The sum over all parts: in each it is the least that there is, as `check` has found. None where `map` has judged
    them."""
    to_old: Distance
    """From the new mesh to the old surface."""
    to_new: Distance
    """From the old mesh to the new surface: what was lost at corners and edges shows here."""
    moves: int = 0
    """How often a point was moved: where it is not 0, the certificates hold for the counts, not for the places."""
    is_round: bool = False
    """Whether points were put on a curved surface behind the old one: certificates hold for the counts alone."""
    over_seams: int = 0
    """How many new faces lie over a seam of the texture or a border of names, where these were carried over."""
    arcs_raised: int = 0
    """How many arcs have a greater floor than 1 though none was asked for, since an edge would be there twice."""
    greatest_floor: int = 1
    """The greatest floor of an arc."""
    rounds: int = 1
    """How many certificates there are for a part, at most: where floors rise, each round has its own."""
    diagonal: float = 0.0
    """How long the diagonal of the old mesh's box is."""
    sharp: tuple[int, int] = (0, 0)
    """How many sharp edges of the old mesh no new edge follows, and how many it had."""
    angle: Optional[float] = None
    """The degrees above which edges were asked to stay, if they were."""
    mirrors: str = ""
    """The axes along which the old mesh was its own mirror image, and the new one is not."""
    symmetry: str = ""
    """The axis along which the mesh was its own mirror image and has stayed so by being remeshed in halves."""
    dropped: tuple[tuple[str, str], ...] = ()
    """What the old mesh had and the new one does not: kinds of notices, and their words."""
    fields: str = ""
    """The fields of the old mesh that came over, or nothing."""
    within: Optional[float] = None
    """The distance that was asked for, if it was."""
    sized: Optional[float] = None
    """Where lengths of edges were asked for point by point: how many of the edges have that length within a fifth, as a
    part of them."""
    way: str = ""
    """How lengths were wished, where more than one way was tried."""
    strayed: Optional[float] = None
    """By how many edges all arcs differ from what was wished at first, where lengths were wished arc by arc."""
    beyond: Optional[tuple[int, int]] = None
    """Where a region was to change alone: how many arcs outside have another number of edges, and how many there are.
    """
    spacing: str = "even"
    """How new points stand along arcs: at equal parts of their old edges, or where they are `wished`."""
    factor: float = 1.0
    """How many times as large the mesh was made for the program, which rounds to millionths."""

    @property
    def is_checked(self) -> bool:
        """Whether `check` has judged each part, and told its deviation. If not, `map` has judged each."""
        return self.deviation is not None

    @property
    def floors(self) -> Floors:
        """The least lengths that arcs could have."""
        return Floors(self.arcs, self.arcs_at_floor, self.arcs_raised, self.greatest_floor, self.rounds)

    @property
    def greatest_distance(self) -> float:
        """From either mesh to the surface of the other."""
        return max(self.to_old.greatest, self.to_new.greatest)

    def times(self, factor: float) -> Report:
        """The same where lengths are so many times as long: in another unit."""

        def longer(it: Distance) -> Distance:
            return replace(it, mean=it.mean * factor, greatest=it.greatest * factor)

        before, after = (replace(it, mean_edge=it.mean_edge * factor) for it in (self.before, self.after))
        edge = None if self.edge is None else self.edge * Decimal(factor)
        return replace(
            self, before=before, after=after, edge=edge,
            within=None if self.within is None else self.within * factor,
            diagonal=self.diagonal * factor, factor=self.factor / factor,
            to_old=longer(self.to_old), to_new=longer(self.to_new))

    @property
    def notices(self) -> tuple[Notice, ...]:
        """What a user should know, as the command line, the report, the log and the add-on say it."""
        return notices_of(self)

    @property
    def warnings(self) -> tuple[str, ...]:
        """The same in words."""
        return tuple(it.words for it in self.notices)

    def as_json(self) -> dict[str, Any]:
        """All of it for `json.dumps`, by the names of its values, with the warnings; fractions are texts."""
        return {**plain_of(asdict(self)), "warnings": [asdict(it) for it in self.notices]}

    def table(self) -> list[tuple[str, str, str]]:
        """Rows of a label, the old mesh's value and the new one's."""
        before, after = self.before, self.after
        return [
            ("faces", str(before.faces), str(after.faces)),
            ("points", str(before.points), str(after.points)),
            ("mean length of edges", f"{before.mean_edge:.6g}", f"{after.mean_edge:.6g}"),
            ("irregular points inside", str(before.irregular[0]), str(after.irregular[0])),
            ("irregular points on the boundary", str(before.irregular[1]), str(after.irregular[1])),
            ("inverted faces", str(before.quality.inverted), str(after.quality.inverted)),
            ("least scaled Jacobian", f"{before.quality.least:.3f}", f"{after.quality.least:.3f}"),
            ("mean scaled Jacobian", f"{before.quality.mean:.3f}", f"{after.quality.mean:.3f}"),
            ("greatest distance to the other", f"{self.to_new.greatest:.6g}", f"{self.to_old.greatest:.6g}"),
            ("mean distance to the other", f"{self.to_new.mean:.6g}", f"{self.to_old.mean:.6g}"),
        ]

    def facts(self) -> list[tuple[str, str]]:
        """What was asked and done, as labels and values."""
        told: list[tuple[str, Optional[str]]] = [
            ("wished faces", None if self.wished is None else str(self.wished)),
            ("wished length of edges", None if self.edge is None else f"{self.edge:f}"),
            ("wished distance", None if self.within is None else f"{self.within:.6g}"),
            ("edges within a fifth of their wish", None if self.sized is None else f"{self.sized:.0%}"),
            ("lengths", self.way or None),
            ("scale", None if self.scale is None else f"{self.scale.numerator}/{self.scale.denominator}"),
            ("command", self.command if self.command != "remesh" else None),
            ("spacing", self.spacing),
            ("edges that stay", self.marks or None),
            ("symmetric along", self.symmetry or None),
            ("floor", str(self.floor)),
            ("weight", self.weight if self.edge is None else None),
            ("parts, each checked" if self.is_checked else "parts", str(self.parts)),
            ("arcs", str(self.arcs)),
            ("arcs at the floor", str(self.arcs_at_floor)),
            ("floors that rose", self.floors.in_words or None),
            ("deviation, least in each part", None if self.deviation is None else str(self.deviation)),
            ("fields carried over", self.fields or None),
            ("edges off from the first wishes", None if self.strayed is None else f"{self.strayed:.1f}"),
            ("moves of points", str(self.moves) if self.moves else None),
            ("made larger for the program", f"{self.factor:g} times" if self.factor != 1 else None),
        ]
        return [(label, value) for label, value in told if value is not None]

    def summary(self) -> str:
        """One line."""
        quality = self.after.quality
        wish = f"edges of {self.edge:f}" if self.edge is not None else (
            self.way or "by wishes" if self.scale is None else f"scale {self.scale}")
        done = f"parts {self.parts} checked, deviation {self.deviation}" if self.is_checked else (
            f"parts {self.parts} by {self.command}")
        return (f"faces {self.before.faces} -> {self.after.faces}, {wish}, {done}, "
                f"least scaled Jacobian {quality.least:.3f}, distance {self.greatest_distance:.3g}")


def plain_of(value: Any) -> Any:
    """What JSON has a word for, in place of values that it has none for; nothing in place of what is no number."""
    if isinstance(value, dict):
        return {name: plain_of(it) for name, it in value.items()}
    if isinstance(value, (tuple, list)):
        return [plain_of(it) for it in value]
    if isinstance(value, np.generic):
        value = value.item()
    if isinstance(value, float) and not math.isfinite(value):
        return None
    return str(value) if isinstance(value, (Fraction, Decimal)) else value


@dataclass(frozen=True)
class Result:
    """A remeshed mesh, with what can be said of it."""

    mesh: Mesh
    report: Report
    text: Optional[bytes]
    """What the program wrote, with its certificate, where the mesh is that and nothing else: one part, as it came."""
    parts: tuple[Part, ...]
    written: tuple[Written, ...]
    """What the program wrote for each part, accepted by `check`, or by `map` where another command wrote it."""
    old: Mesh
    """What was remeshed."""
    ready: Mesh
    """The same in quads: divided, where that was wished."""
    program: Program
    owners: Optional[Array] = None
    """(quads,) int64: of a mesh that was divided, the face of the file that each is a piece of."""
    carrier: Optional[Carrier] = None
    """What carries further values over, where it was wished that the mesh carries its own."""
    over_seams: Optional[Array] = None
    """(faces,) bool: which faces of the new mesh lie over a seam of the texture or a border of names, where that was
    wished."""
    image: Optional[Image] = None
    """The old mesh's image in itself, where its symmetry was kept."""

    @cached_property
    def made(self) -> Made:
        """Both meshes, and where the new one lies in the old one, by the maps of its parts."""
        given = map_of(self.parts, self.written, Workshop(self.program, os.cpu_count() or 1))
        return Made(self.mesh, self.old, self.ready, self.owners, under_of(given, self.mesh, self.ready, self.image))

    def __repr__(self) -> str:
        return f"<quadq.Result: {self.report.summary()}>"

    def _repr_html_(self) -> str:
        """What a notebook shows: a small page with both meshes, which can be turned."""
        from .report import notebook_view
        return notebook_view(self)

    def with_words(self, kind: str, words: Sequence[str]) -> Result:
        """The same with more to be known, of such a kind."""
        dropped = (*self.report.dropped, *((kind, it) for it in words))
        return replace(self, report=replace(self.report, dropped=dropped)) if words else self

    def times(self, factor: float) -> Result:
        """The same where lengths are so many times as long. What the program has read and written stays."""
        if factor == 1:
            return self

        def longer(mesh: Mesh) -> Mesh:
            return mesh.changed(points=mesh.points * factor)

        return replace(self, mesh=longer(self.mesh), report=self.report.times(factor), text=None,
                       parts=tuple(replace(it, mesh=longer(it.mesh)) for it in self.parts), old=longer(self.old),
                       ready=longer(self.ready))
