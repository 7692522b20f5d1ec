"""Files of meshes: OBJ, OFF, and what meshio reads and writes where that is installed."""

from __future__ import annotations

import contextlib
import io
import tempfile
from pathlib import Path
from typing import Any, Callable, Optional
from urllib.parse import unquote

import numpy as np

from .carried import carried
from .errors import WishError
from .files import read_whole
from .gmsh_entities import by_entities
from .incoming import mesh_of
from .mesh import Mesh
from .obj_writing import write_obj
from .off import read_off, write_off
from .outgoing import fault_of, lost_in, pieces_of, with_plain_elements
from .program import Program
from .reading import read_judged
from .refusal import READ_FAULT, SYNTAX, WRITE_FAULT, Refusal

FORMATS = {".msh": "gmsh22"}
"""What is written under a name of several formats, if nothing is said."""
BY_ENTITIES = "gmsh"
"""Version 4.1 of gmsh's format, by the name that meshio has for it."""
FORMS = {"gmsh22": (".msh",), BY_ENTITIES: (".msh",)}
"""The formats that may be named besides the file, and the names that such files have."""
OWN = ("", ".obj", ".off")
"""The formats for which meshio is not needed."""


def read_file(path: Path, program: Program, polygons: bool = False) -> tuple[Mesh, Optional[bytes]]:
    """The mesh of a file, and its text where it is OBJ; other formats are read by meshio, where that is installed.

    Its vertices and faces are those that the program reads. With `polygons` faces may have any number of corners.
    Raises a `Refusal`.
    """
    suffix = path.suffix.lower()
    if suffix in ("", ".obj"):
        text = read_whole(path, carried("obj_text").MAX_BYTES)
        return read_judged(text, program, polygons), text
    if suffix == ".off":
        return read_off(read_whole(path), path.name), None
    _refuse_closed(path)
    return _read_other(path), None


def _refuse_closed(path: Path) -> None:
    """Raises a `Refusal` where a file cannot be opened, of which meshio would say something else, or cannot be read
    twice."""
    try:
        if path.exists() and not path.is_file():
            raise OSError(0, "no regular file")
        with open(path, "rb"):
            pass
    except OSError as error:
        raise Refusal(READ_FAULT, f"read fault: {path}: {error.strerror}") from error


def _read_other(path: Path) -> Mesh:
    read = read_raw(path)
    if path.suffix.lower() == ".vtk":
        read.point_data = {unquote(name): it for name, it in read.point_data.items()}
        read.cell_data = {unquote(name): it for name, it in read.cell_data.items()}
    return mesh_of(read, path.name)


def read_raw(path: Path) -> Any:
    """What meshio reads from a file. Raises a `Refusal`."""
    tool = meshio()
    if tool is None:
        raise Refusal(SYNTAX, f"{path.name} is no .obj file; meshio, which reads others, is not installed")
    gmsh = getattr(getattr(tool, "gmsh", None), "_gmsh22", None)
    if hasattr(gmsh, "cell_data_from_raw"):
        setattr(gmsh, "cell_data_from_raw", _divided_by_blocks)
    return _quietly(lambda: tool.read(path), SYNTAX, f"{path.name} cannot be read by meshio")


def _divided_by_blocks(cells: Any, fields: dict[str, Any]) -> dict[str, Any]:
    """Fields of all cells divided among the blocks of cells. In meshio 5.0 this counts wrongly for gmsh's version 2.2,
    which so has no fields of cells."""
    counts = [len(it[1]) if isinstance(it, tuple) else len(it.data) for it in cells]
    for name, values in fields.items():
        if len(values) != sum(counts):
            raise ValueError(f"the field {name} is not of all cells: save all cells, or as version 4.1")
    return {name: np.split(values, np.cumsum(counts)[:-1]) for name, values in fields.items()}


def _quietly(work: Callable[[], Any], status: int, words: str) -> Any:
    """What meshio makes, without what it says; where it fails, a `Refusal` with that. It ends the whole process where
    it knows no way to read a file."""
    said = io.StringIO()
    try:
        with contextlib.redirect_stdout(said), contextlib.redirect_stderr(said):
            return work()
    except (SystemExit, Exception) as error:
        why = " ".join(said.getvalue().split()) or str(error) or type(error).__name__
        raise Refusal(status, f"{words}: {why}") from error


def refuse_format(path: Path, form: Optional[str] = None) -> None:
    """Raises a `WishError` where a file of this name is of no format that is written, or not of one that is named."""
    suffix = path.suffix.lower()
    if suffix in OWN:
        if form is not None:
            raise WishError(f"{path.name} has one format, and is not written as {form}")
        return
    tool = meshio()
    if tool is None:
        raise WishError(f"{path.name} is no .obj file; meshio, which writes others, is not installed")
    if not set(tool.extension_to_filetypes.get(suffix, ())).intersection(tool._helpers._writer_map):
        raise WishError(f"{path.name} is of no format that is written: take .obj, .msh, .vtk, .vtu, .inp, .ply, .off "
                        "or .stl")
    known = [it for it, suffixes in FORMS.items() if suffix in suffixes]
    if form is not None and form not in known:
        raise WishError(f"{path.name} is not written as {form}" + (f": take {' or '.join(known)}" if known else ""))


def bytes_of(path: Path, mesh: Mesh, text: Optional[bytes] = None, form: Optional[str] = None) -> bytes:
    """What stands in a file of a mesh, in the format that its name says; `text` is that of OBJ, if it is at hand, and
    `form` is one of `FORMS`. Raises a `Refusal` where that fails."""
    suffix = path.suffix.lower()
    refuse_format(path, form)
    if suffix == ".off":
        return write_off(mesh)
    if suffix not in OWN:
        return _other_text(path, mesh, form)
    return write_obj(mesh).encode("utf-8", "surrogateescape") if text is None else text


def left_out(path: Path, mesh: Mesh) -> tuple[str, ...]:
    """What of a mesh a file of this name has no word for."""
    return tuple(lost_in(mesh, path.suffix.lower()))


def _other_text(path: Path, mesh: Mesh, form: Optional[str]) -> bytes:
    """A mesh as meshio writes it in the format of this name."""
    tool, suffix = meshio(), path.suffix.lower()
    assert tool is not None
    pieces = pieces_of(mesh, suffix)
    with tempfile.TemporaryDirectory() as folder:
        place = Path(folder) / f"mesh{suffix}"

        def write() -> str:
            every = np.arange(len(mesh.points))
            it, order = by_entities(pieces, len(every)) if form == BY_ENTITIES else (pieces, every)
            made = tool.Mesh(mesh.points[order], it.cells, point_data=it.point_data, cell_data=it.cell_data,
                             field_data=it.field_data, cell_sets=it.cell_sets)
            made.write(place, form or FORMATS.get(suffix))
            return fault_of(tool, place, mesh)

        words = f"write fault: {path.name} cannot be written by meshio"
        fault = _quietly(write, WRITE_FAULT, words)
        if fault:
            raise Refusal(WRITE_FAULT, f"{words}: {fault}")
        return with_plain_elements(place.read_bytes(), pieces) if suffix == ".inp" else place.read_bytes()


def meshio() -> Any:
    """The package meshio, if it is there."""
    try:
        import meshio as tool
    except ImportError:
        return None
    return tool
