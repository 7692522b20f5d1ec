"""What of the old mesh lies under a new one, over all parts of a remesh, by the map of the program."""

from __future__ import annotations

from dataclasses import dataclass
from typing import Optional

import numpy as np

from .arrays import Array
from .maps import Map
from .mesh import Mesh
from .overlaps import Overlaps, overlaps_of
from .surface import twins_of
from .symmetry import Image


@dataclass(frozen=True)
class Under:
    """Where a new mesh lies in the quads of the old one. Of a mirrored mesh the image lies where its half does."""

    map: Map
    """Over the whole new mesh, by the numbers of the old quads and their points."""
    overlaps: Overlaps


@dataclass(frozen=True)
class Made:
    """A new mesh, and the old one that it was made of."""

    mesh: Mesh
    old: Mesh
    ready: Mesh
    """The old mesh in quads: divided, where it had other faces."""
    owners: Optional[Array]
    """(quads,) int64: of a mesh that was divided, the face of the old one that each quad is a piece of."""
    under: Under


def under_of(given: Map, new: Mesh, ready: Mesh, image: Optional[Image] = None) -> Under:
    """What lies under a new mesh, by its map into the old one in quads; or by that of the half of which it and the
    mirror image behind it were made. The image lies where its half does, or in the image of the old mesh, where that
    has one."""
    half, twins = len(given.homes), twins_of(ready)
    if half == new.face_count:
        return Under(given, overlaps_of(given, twins))
    is_own = np.zeros(len(new.points), dtype=bool)
    is_own[new.quads[half:]] = True
    is_own = is_own[:len(given.kinds)]
    if image is not None:
        whole = given.with_image(image.points, image.darts, is_own)
        return Under(whole, overlaps_of(whole, twins))
    over = overlaps_of(given, twins)
    # The corners of the image come the other way round, and so do its sides.
    darts = over.darts - over.darts % 4 + (2 - over.darts) % 4
    copy = Overlaps(over.new, over.old, over.parts, darts, over.under, 1 - over.spans[:, ::-1])
    return Under(given.with_copy(is_own), over.followed_by(copy, half, 0))
