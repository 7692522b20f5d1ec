"""How a mesh is to be remeshed."""

from __future__ import annotations

import os
import re
from dataclasses import dataclass, replace
from decimal import Decimal, InvalidOperation
from fractions import Fraction
from pathlib import Path
from typing import Optional, Union

from . import mirror as mirroring
from .errors import WishError
from .features import KINDS
from .program import FIT, LARGEST, Wish

FAR = Decimal(10) ** 9
"""Edges are shorter than this."""
SYMMETRIES = (*mirroring.AXES, "auto", "off")
MODES = ("shape", "scale", "even")
GIVEN = "given"
"""Stands in settings for an array."""
PART = re.compile(r"[+-]?[0-9]{0,20}(?:/[0-9]{1,20}|(?:\.[0-9]{0,20})?(?:[eE][+-]?[0-9]{1,2})?)")
"""The words for a part of something: `1/2` or `0.5`."""
LEAST = Decimal("0.000001")
"""The shortest length of edges that the program takes."""


@dataclass(frozen=True)
class Settings:
    """How a mesh is to be remeshed. One of `scale`, `faces`, `share`, `edge`, `within` and `size` is given."""

    scale: Optional[Fraction] = None
    faces: Optional[int] = None
    share: Optional[Fraction] = None
    """Which part of its faces the mesh is to have: a level of detail."""
    edge: Optional[Decimal] = None
    """How long edges are to be, in the unit of the mesh."""
    within: Optional[float] = None
    """How far the new mesh may be from the old one, about, in the unit of the mesh: the coarsest is looked for."""
    mode: str = "shape"
    """Of a number of faces or a distance: `shape`, more faces where the surface bends, if the program takes such
    wishes, and one scale for all where that is better; `scale`, one scale for all; `even`, edges of one length."""
    size: Optional[str] = None
    """How long edges are to be at each point, in the unit of the mesh: a field of the points, or a file."""
    density: Optional[str] = None
    """How many times denser faces are to be at each point: a field or a colour of the points, or a file with a number
    for each."""
    region: Optional[str] = None
    """The group of the faces that alone are to change. A number of faces, a part of them, a scale or a length is wished
    of these; all other edges wish to stay as long as they are, and those between stay lines of the new mesh."""
    floor: Union[int, str] = "auto"
    weight: str = "plain"
    sharp: Optional[float] = None
    """Edges stay whose faces meet at more than so many degrees."""
    keep: tuple[str, ...] = ()
    """What else tells that edges stay: some of `features.KINDS`."""
    corners: bool = True
    """Whether edges stay besides that keep the corners of the boundary and of such lines, where any edge stays."""
    coarse: bool = False
    """Whether patches are merged where they have a whole side in common."""
    subdivide: bool = False
    mirror: Optional[str] = None
    """The axis, x, y or z: the half where that coordinate is above 0 is remeshed, and mirrored."""
    symmetry: Optional[str] = None
    """The axis, or auto for the first: where the mesh is its own mirror image along it, it stays so. One half is
    remeshed, and each half carries what it did. `off` for never; None for auto where lengths are wished by shape."""
    round: bool = False
    """Whether new points are put on a curved surface behind the old polygons, which is flat across edges that stay or
    are sharp."""
    relax: int = 0
    """How many times points are moved along the old surface, where no face becomes worse by it."""
    jobs: int = 0
    """How many parts are remeshed at a time; 0 for one a processor."""
    folder: Optional[Path] = None
    """Where the old and new text of each part are kept."""
    carry: bool = False
    """Whether what corners, points and faces carry comes over: texture, normals, colours, names within parts. A mirror
    image carries what its half does."""
    free_groups: bool = False
    """Whether the borders of groups, which a mesh has as those of gmsh, may move; else they stay, where the command can
    keep edges."""
    form: Optional[str] = None
    """How files are written whose name may stand for several formats: `gmsh22` or `gmsh`, versions 2.2 and 4.1."""
    rescale: bool = False
    """Whether the mesh is brought to one size for the program, which rounds to millionths, and back, whatever its unit
    is; else that is done only where the unit is too small or too great."""

    def __post_init__(self) -> None:
        if self.scale is not None and not isinstance(self.scale, Fraction):
            object.__setattr__(self, "scale", as_scale_wish(self.scale))
        if self.edge is not None:
            object.__setattr__(self, "edge", as_length(self.edge))
        if self.share is not None and not isinstance(self.share, Fraction):
            object.__setattr__(self, "share", as_scale_wish(self.share))
        if [self.scale, self.faces, self.share, self.edge, self.within, self.size].count(None) != 5:
            raise WishError("one of scale, faces, share, edge, within and size has to be given")
        if self.size is not None and self.density is not None:
            raise WishError("a size of edges or a density is wished at points, and not both")
        if self.region is not None and self.mirror is not None:
            raise WishError("a region changes alone, or the mesh is mirrored, and not both")
        if self.share is not None and not 0 < self.share <= LARGEST:
            raise WishError(f"a level of detail has to be a part of the faces above 0, and is {self.share}")
        if self.mode not in MODES:
            raise WishError(f"the mode has to be of {', '.join(MODES)}, and is {self.mode}")
        if self.within is not None and not 0 < self.within < float(FAR):
            raise WishError(f"the distance has to be above 0 and below {FAR:f}, and is {self.within}")
        if self.faces is not None and self.faces < 1:
            raise WishError("the number of faces has to be 1 or more")
        scale = self.scale
        if scale is not None and not (1 <= scale.numerator <= LARGEST and scale.denominator <= LARGEST):
            raise WishError(f"the scale has to be P/Q, with whole numbers from 1 to {LARGEST}, and is {scale}")
        if self.edge is not None and not 0 < self.edge < FAR:
            raise WishError(f"the length of an edge has to be above 0 and below {FAR:f}, and is {self.edge}")
        if str(self.floor) not in ("1", "2", "3", "auto"):
            raise WishError(f"the floor has to be 1, 2, 3 or auto, and is {self.floor}")
        if self.weight not in ("plain", "length"):
            raise WishError(f"the weight has to be plain or length, and is {self.weight}")
        if self.relax < 0:
            raise WishError("points are relaxed 0 times or more")
        if self.round and self.relax:
            raise WishError("points are relaxed along the old surface or put on a round one, and not both")
        if self.mirror is not None and self.mirror not in tuple(mirroring.AXES):
            raise WishError(f"the mirror axis has to be x, y or z, and is {self.mirror}")
        if self.symmetry is not None and self.symmetry not in SYMMETRIES:
            raise WishError(f"the axis of a symmetry has to be x, y, z, auto or off, and is {self.symmetry}")
        if self.symmetry not in (None, "off") and self.mirror is not None:
            raise WishError("a mesh is mirrored, or keeps its symmetry, and not both")
        self._check_features()

    def _check_features(self) -> None:
        unknown = [it for it in self.keep if it not in KINDS]
        if unknown:
            raise WishError(f"what is kept has to be of {', '.join(KINDS)}, and is {unknown[0]}")
        if self.sharp is not None and not 0 <= self.sharp <= 180:
            raise WishError(f"the angle of sharp edges has to be from 0 to 180 degrees, and is {self.sharp}")
        if self.edge is not None and self.weight != "plain" and self.command == "size":
            raise WishError("with a length of edges the weight is plain")

    @property
    def files(self) -> tuple[Path, ...]:
        """The files that it may name, beside the mesh."""
        named = [it for it in (self.size, self.density) if it is not None and it != GIVEN]
        return tuple(Path(it) for it in named if os.path.isfile(it))

    @property
    def is_creased(self) -> bool:
        """Whether edges stay: those at an angle, of a kind, or around a region."""
        return self.sharp is not None or bool(self.keep) or self.region is not None

    @property
    def command(self) -> str:
        """The command of the program that does this: `fit` where no other does."""
        if self.needs_fit:
            return FIT
        if self.edge is not None:
            return "size"
        return "crease" if self.is_creased else "coarse" if self.coarse else "remesh"

    @property
    def needs_fit(self) -> bool:
        """Whether wishes go together, or lengths are wished arc by arc."""
        is_even = self.mode == "even" and self.edge is None
        return [self.is_creased, self.coarse, self.edge is not None].count(True) > 1 or is_even or (
            [self.within, self.size, self.density, self.region].count(None) < 4)

    @property
    def is_by_shape(self) -> bool:
        """Whether lengths are wished by shape, if the program takes such wishes."""
        return self.mode == "shape" and (self.faces is not None or self.within is not None)

    @property
    def in_words(self) -> str:
        """What of it wants the command `fit`."""
        told = [("edges that stay", self.is_creased), ("merged patches", self.coarse), ("a length of edges", self.edge),
                ("a distance", self.within), ("a size of edges", self.size), ("a density", self.density),
                ("a region", self.region), ("even edges", self.mode == "even")]
        return " and ".join(name for name, is_asked in told if is_asked)

    def for_faces(self, count: int) -> Settings:
        """The same where a mesh has so many faces: a part of them is a number."""
        if self.share is None:
            return self
        return replace(self, share=None, faces=max(1, round(self.share * count)))

    def times(self, factor: float) -> Settings:
        """The same for a mesh that is so many times as large. Raises a `WishError` where its edges are too short."""
        if self.within is not None:
            return replace(self, within=self.within * factor)
        if self.edge is None:
            return self
        edge = self.edge * Decimal(factor)
        if not LEAST <= edge < FAR:
            raise WishError(f"the length of an edge has to be from {LEAST / Decimal(factor):f} to below "
                            f"{FAR / Decimal(factor):f} for this mesh, and is {self.edge}")
        return replace(self, edge=edge)

    def wish(self, scale: Optional[Fraction]) -> Wish:
        return Wish(Fraction(1) if scale is None else scale, self.floor, self.weight, self.command, self.edge,
                    self.is_creased, self.coarse and self.command == FIT)


def as_length(value: Union[Decimal, float, str]) -> Decimal:
    """A length as a decimal. Raises a `WishError` where it is none."""
    try:
        found = Decimal(str(value))
    except InvalidOperation as error:
        raise WishError(f"the length of an edge has to be a number, and is {value}") from error
    if found.is_nan():
        raise WishError(f"the length of an edge has to be a number, and is {value}")
    return found


def as_scale_wish(value: Union[Fraction, float, str]) -> Fraction:
    """A scale as a fraction. Raises a `WishError` where it is none."""
    try:
        if isinstance(value, str) and not PART.fullmatch(value.strip()):
            raise ValueError(value)
        return Fraction(value) if isinstance(value, str) else Fraction(value).limit_denominator(10**6)
    except (ValueError, ZeroDivisionError, OverflowError) as error:
        raise WishError(f"the scale has to be P/Q, with whole numbers from 1 to {LARGEST}, and is {value}") from error
