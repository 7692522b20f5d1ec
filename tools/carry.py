#!/usr/bin/env python3
"""Carries over what a remesh loses: texture coordinates, normals, materials, groups and colours.

usage: { cat IN.obj; echo; cat OUT.obj; } | quadq map >MAP
       tools/carry.py IN.obj OUT.obj MAP >NEW.obj

OUT.obj is what `remesh`, `crease`, `coarse`, `size` or `refine` wrote for IN.obj, and MAP says where its vertices and
faces came from. NEW.obj has the vertices, faces and `l` lines of OUT.obj, in their order, with

  vt, vn                    of the old face in which each corner of a new face lies,
  usemtl, g, o, s, mtllib   of the old face in which the middle of each new face lies,
  colours                   and whatever else stands behind the place in `v` lines.

A seam is an edge whose two faces name other values at one of its ends. A new face belongs to one side of it: that of
its middle. Where it lies over a seam, its corners beyond are carried on from its own side; a line on standard error
says how many such faces there are. There are none where the seams are lines of the new mesh:

  tools/mark_features.py --seams --groups IN.obj >MARKED.obj
  quadq crease .. <MARKED.obj >OUT.obj
"""

from __future__ import annotations

import argparse
import sys
from dataclasses import dataclass, field
from typing import Iterator, Optional, Sequence, Union

from carrying import DIGITS, Carried, Layer, Map, Surface, Value, carry, read_map, value_at
from obj_text import NAMES, logical_lines, name_line, read_obj

LONG = 1e16
"""Greater numbers have no digits behind the point."""
BORDERS = slice(0, 3)
"""Those at whose borders `mark_features.py --groups` marks edges."""


@dataclass
class Old:
    """What there is to carry over."""

    libraries: list[str] = field(default_factory=list)
    extras: list[Value] = field(default_factory=list)
    """What stands behind the place of each vertex."""
    corners: list[int] = field(default_factory=list)
    """The vertex of each dart."""
    texture: Layer = field(default_factory=Layer)
    normal: Layer = field(default_factory=lambda: Layer(are_directions=True))
    names: list[tuple[str, ...]] = field(default_factory=list)
    """What each face belongs to, by the words of `NAMES`: the empty name where it is not said."""
    notes: list[str] = field(default_factory=list)
    """What could not be read and was left out."""


def read_old(text: Union[bytes, str]) -> Old:
    """What the text of a mesh of quads has. Raises an `ObjError` where the program refuses its lines."""
    obj = read_obj(text)
    corners = [corner for face in obj.faces for corner in face]
    return Old(
        obj.libraries,
        [tuple(map(float, words[3:])) for words in obj.points],
        [it.vertex for it in corners],
        Layer(obj.textures, [it.texture for it in corners]),
        Layer(obj.normals, [it.normal for it in corners], are_directions=True),
        obj.names,
        obj.notes,
    )


@dataclass
class New:
    """What the program wrote: what stands behind `v` and `l`, and the vertices of faces, four a face."""

    places: list[str] = field(default_factory=list)
    corners: list[int] = field(default_factory=list)
    lines: list[str] = field(default_factory=list)


def read_new(text: Union[bytes, str]) -> New:
    new = New()
    for line in logical_lines(text if isinstance(text, bytes) else text.encode()):
        kind, *rest = (it.decode() for it in line.words or [b""])
        if kind == "v":
            new.places.append(" ".join(rest))
        elif kind == "f":
            new.corners.extend(int(it) - 1 for it in rest)
        elif kind == "l":
            new.lines.append(" ".join(rest))
    return new


def carried_over(old: Old, new: New, given: Map) -> Carried:
    """The layers `vt` and `vn` and the names of faces, carried over."""
    borders = [it[BORDERS] for it in old.names]
    return carry(Surface(old.corners), [old.texture, old.normal], borders, given, new.corners)


def words_of(value: Value) -> str:
    """Without zeros at the end of what is behind the point, and never longer than a decimal may be."""
    return " ".join(repr(it) if abs(it) > LONG else
                    f"{it:.{DIGITS}f}".rstrip("0").rstrip(".") if round(it, DIGITS) else "0" for it in value)


def new_lines(old: Old, new: New, given: Map, carried: Carried) -> Iterator[str]:
    """The lines of the new mesh."""
    yield from (name_line("mtllib", it) for it in old.libraries)
    extras = Layer(old.extras, list(old.corners))
    for place, spot in zip(new.places, given.spots):
        yield f"v {place} {words_of(value_at(spot, extras))}".rstrip()
    for kind, layer in zip(("vt", "vn"), carried.layers):
        yield from (f"{kind} {words_of(it)}" for it in layer.values)
    yield from face_lines(old, new, carried)
    yield from (f"l {it}" for it in new.lines)


def face_lines(old: Old, new: New, carried: Carried) -> Iterator[str]:
    now: dict[str, str] = dict.fromkeys(NAMES, "")
    rows: list[Sequence[Optional[int]]] = [new.corners, *(it.rows for it in carried.layers)]
    corners = ["/".join("" if it is None else str(it + 1) for it in named).rstrip("/") for named in zip(*rows)]
    for face, home in enumerate(carried.homes):
        for kind, name in zip(NAMES, old.names[home]):
            if now[kind] != name:
                now[kind] = name
                yield name_line(kind, name or ("off" if kind == "s" else ""))
        yield "f " + " ".join(corners[4 * face:4 * face + 4])


def summary(carried: Carried) -> str:
    """How many faces lie over seams, and what to do about it."""
    places = ("a seam of vt", carried.over_seams[0]), ("a border of names", carried.over_borders)
    told = [f"{len(faces)} over {place}" for place, faces in places if faces]
    if not told:
        return f"none of {len(carried.homes)} faces lies over a seam"
    remedy = "`mark_features.py --seams --groups` and `quadq crease` leave none"
    return f"of {len(carried.homes)} faces, {' and '.join(told)}: {remedy}"


def read(path: str) -> bytes:
    with open(path, "rb") as file:
        return file.read()


def main() -> None:
    parser = argparse.ArgumentParser(description=__doc__, formatter_class=argparse.RawDescriptionHelpFormatter)
    for name in ("IN.obj", "OUT.obj", "MAP"):
        parser.add_argument(name)
    paths = vars(parser.parse_args())
    try:
        old, new = read_old(read(paths["IN.obj"])), read_new(read(paths["OUT.obj"]))
        given = read_map(read(paths["MAP"]).decode(errors="replace"))
        carried = carried_over(old, new, given)
    except (ValueError, OSError) as error:
        sys.exit(f"carry: {error}")
    out = open(sys.stdout.fileno(), "w", encoding="utf-8", errors="surrogateescape", newline="", closefd=False)
    out.writelines(line + "\n" for line in new_lines(old, new, given, carried))
    out.flush()
    for said in [summary(carried), *old.notes]:
        print(f"carry: {said}", file=sys.stderr)


if __name__ == "__main__":
    main()
