"""The texts that the program writes, which are of one plain form."""

from __future__ import annotations

import re
import warnings

import numpy as np

from .arrays import Array
from .mesh import Mesh
from .refusal import STRANGE, Refusal

LINE = re.compile(rb"^l ([0-9 ]+)$", re.M)


def strange(words: str) -> Refusal:
    """What is said where the program and this package do not agree."""
    return Refusal(STRANGE, f"{words}: please report this file")


def canonical(text: bytes) -> tuple[Array, Array]:
    """The places (points, 3) and the faces (faces, 4) of a text that `tidy` wrote."""
    if not text:
        return np.zeros((0, 3)), np.zeros((0, 4), dtype=np.int64)
    points, _, faces = text.partition(b"\nf ")
    if not points.startswith(b"v ") or not faces.endswith(b"\n"):
        raise strange("what the program wrote is no mesh")
    with warnings.catch_warnings():
        warnings.simplefilter("ignore", DeprecationWarning)
        places = np.fromstring(points[2:].replace(b"\nv ", b" "), dtype=np.float64, sep=" ")
        corners = np.fromstring(faces[:-1].replace(b"\nf ", b" "), dtype=np.int64, sep=" ") - 1
    counts = 3 * (points.count(b"\n") + 1), 4 * faces.count(b"\n")
    is_mesh = (len(places), len(corners)) == counts and bool(np.all(np.isfinite(places)))
    if not is_mesh or corners.min() < 0 or corners.max() >= len(places) // 3:
        raise strange("what the program wrote is no mesh")
    return places.reshape(-1, 3), corners.reshape(-1, 4)


def written_mesh(text: bytes) -> Mesh:
    """The mesh of a text that a command wrote which remeshes, with the lines along its marked arcs. Raises a `Refusal`
    where there is none."""
    first, last = text.find(b"\nv "), text.rfind(b"\nf ")
    end = text.find(b"\n", last + 1) + 1
    if first < 0 or last < first or not end:
        raise strange("what the program wrote is no mesh")
    points, quads = canonical(text[first + 1:end])
    lines = [np.array(it[1].split(), dtype=np.int64) - 1 for it in LINE.finditer(text, end)]
    return Mesh(points, quads.reshape(-1), np.arange(0, quads.size + 1, 4), lines=tuple(lines))
