"""Meshes from the text of Wavefront OBJ.

The rules are those of the script `obj_text.py`. A text of the plainest form, as programs write it, is read here by
whole tables; any other is left to the script, word by word. `tests/test_obj.py` compares the two, and both with the
program.
"""

from __future__ import annotations

import os
import re
import warnings
from dataclasses import dataclass, field
from typing import Any, Optional, Union

import numpy as np

from .arrays import Array
from .carried import carried
from .errors import FormatError, MeshError
from .mesh import NONE, Layer, Mesh, Names

GROUPS = ("usemtl", "g", "o", "s")
TABLES = ("v", "f", "vt", "vn")
"""The words of lines that are read as whole tables."""
OTHER, NOTE = len(TABLES), len(TABLES) + 1
"""What else a line may be: one that is read by itself, or one in which nothing stands."""
WIDTHS = {"v": (3, 4, 6, 7), "vt": (1, 2, 3), "vn": (1, 2, 3)}
"""How many numbers stand behind a word."""
NOTES = re.compile(rb"#[^\n]*")
JOINTS = re.compile(rb"#[^\n]*|\\\n")
DIGITS = b"0123456789-"
LAST = 1 << 31
"""Stands behind the corners of each face while they are read: no corner names so many lines."""
SURE = 999_999_999.0
"""A coordinate below is in range, however it is rounded."""


class Unlike(Exception):
    """A text that is not of the plainest form."""


def read_obj(text: Union[str, bytes]) -> Mesh:
    """The mesh of an OBJ text: v, vt, vn, f, l, usemtl, g, o, s and mtllib lines; others are ignored.

    Raises a `FormatError` with the program's status and words where it refuses the lines, but for faces that are no
    quads. What the program passes over is never refused: what of it cannot be read is left out, and `notes` says so.
    """
    if isinstance(text, str):
        if "\n" not in text and (text.lower().endswith(".obj") or os.path.isfile(text)):
            raise MeshError(f"{text!r} is the name of a file, and no text: quadq.read takes names")
        text = text.encode("utf-8", "surrogateescape")
    try:
        return scanned_mesh(scan(text), text)
    except Unlike:
        return word_by_word(text)


def scanned_mesh(found: Scan, text: bytes) -> Mesh:
    """The mesh of a text whose lines were looked at. Raises a `FormatError` as `read_obj` does."""
    try:
        return found.mesh()
    except Unlike:
        return word_by_word(text)


def scan(text: bytes) -> Scan:
    """The lines of a text by their words. Raises `Unlike` where that takes more than a look at them."""
    tool = carried("obj_text")
    if len(text) > tool.MAX_BYTES:
        raise Unlike
    text = _joined(text)
    letters = np.frombuffer(text, dtype=np.uint8)
    starts = np.concatenate([[0], np.flatnonzero(letters == ord("\n")) + 1])
    if int(np.diff(starts).max(initial=0)) > tool.MAX_LINE + 1:
        raise Unlike
    kinds = _kinds_of(letters, starts[:-1])
    firsts = np.flatnonzero(np.concatenate([[True], kinds[1:] != kinds[:-1]])).tolist()
    found = Scan()
    for first, last in zip(firsts, [*firsts[1:], len(kinds)]):
        if kinds[first] == OTHER:
            bounds = starts[first:last + 1].tolist()
            for start, end in zip(bounds, bounds[1:]):
                found.take(text[start:end - 1], tool)
        elif kinds[first] != NOTE:
            found.add(TABLES[kinds[first]], text[starts[first]:starts[last]], last - first)
    if found.counts["v"] > tool.MAX_VERTICES or found.counts["f"] > tool.MAX_FACES:
        raise Unlike
    return found


def _joined(text: bytes) -> bytes:
    """A text of which each line is a logical one, with its comment, and ends."""
    if b"\r" in text:
        text = text.replace(b"\r\n", b"\n")
        text = text[:-1] if text.endswith(b"\r") else text
    if not text.endswith(b"\n"):
        text += b"\n"
    if b"\\\n" in text:
        text = JOINTS.sub(lambda it: it[0] if it[0] != b"\\\n" else b" ", text)
        text = text if text.endswith(b"\n") else text + b"\n"
    return text


def _kinds_of(letters: Array, starts: Array) -> Array:
    """(lines,) int8: for lines that begin at these letters the places of their words in `TABLES`, `OTHER` or `NOTE`."""
    one, two, three = (letters[np.minimum(starts + at, len(letters) - 1)] for at in range(3))
    kinds = np.full(len(starts), OTHER, dtype=np.int8)
    kinds[(one == ord("#")) | (one == ord("\n"))] = NOTE
    for kind, word in enumerate(TABLES):
        is_word = one == ord(word[0])
        kinds[is_word & ((two == ord(" ")) if len(word) == 1 else (two == ord(word[1])) & (three == ord(" ")))] = kind
    return kinds


@dataclass
class Scan:
    """The lines of a text: those of each table as they stand, which are converted together."""

    blocks: dict[str, list[bytes]] = field(default_factory=lambda: {word: [] for word in TABLES})
    """Whole lines, each of which begins with the word and one blank."""
    counts: dict[str, int] = field(default_factory=lambda: dict.fromkeys(TABLES, 0))
    """How many lines these are."""
    relative: list[tuple[int, int, tuple[int, ...]]] = field(default_factory=list)
    """Faces of which some name lines by negative numbers: the first of them, the first behind them, and how many v, vt
    and vn lines stand before them."""
    lines: list[list[int]] = field(default_factory=list)
    wrong_lines: int = 0
    libraries: list[str] = field(default_factory=list)
    names: dict[str, dict[str, int]] = field(default_factory=lambda: {word: {"": 0} for word in GROUPS})
    switches: dict[str, list[tuple[int, int]]] = field(default_factory=lambda: {word: [] for word in GROUPS})

    def add(self, word: str, block: bytes, count: int) -> None:
        if b"#" in block:
            block = NOTES.sub(b"", block)
        if word == "f" and b"-" in block:
            before = tuple(self.counts[it] for it in ("v", "vt", "vn"))
            self.relative.append((self.counts["f"], self.counts["f"] + count, before))
        self.blocks[word].append(block)
        self.counts[word] += count

    def take(self, line: bytes, tool: Any) -> None:
        words = tool.WORDS.findall(line.partition(b"#")[0])
        kind = words[0].decode("latin-1") if words else ""
        if kind in self.names:
            place = self.names[kind].setdefault(tool.name_in(line), len(self.names[kind]))
            self.switches[kind].append((self.counts["f"], place))
        elif kind == "l":
            self._take_line(words[1:], tool)
        elif kind == "mtllib":
            self.libraries.append(tool.name_in(line))
        elif kind in TABLES:
            self.add(kind, b" ".join(words) + b"\n", 1)

    def _take_line(self, words: list[bytes], tool: Any) -> None:
        found = [tool.LINE_CORNER.fullmatch(it) for it in words]
        places = [tool.place_of(tool.whole_number(it[1]), self.counts["v"]) for it in found if it is not None]
        run = [it for it in places if it is not None and it >= 0]
        if len(run) < max(len(words), 2):
            self.wrong_lines += 1
        else:
            self.lines.append(run)

    @property
    def is_plain(self) -> bool:
        """Whether nothing but places and faces stands in the text."""
        told = self.counts["vt"] or self.counts["vn"] or self.libraries or self.lines or self.wrong_lines
        if told or any(self.switches.values()) or any(b"/" in it for it in self.blocks["f"]):
            return False
        return sum(it.count(b" ") + it.count(b"\t") for it in self.blocks["v"]) == 3 * self.counts["v"]

    def mesh(self) -> Mesh:
        """Raises `Unlike` where some line is not of the plainest form."""
        points, textures, normals = (self._table(word) for word in ("v", "vt", "vn"))
        if not np.all(np.abs(points[:, :3]) < SURE):
            raise Unlike
        starts, rows = self._corner_table()
        if len(rows) and (rows[:, 0].min() < 0 or rows[:, 0].max() >= self.counts["v"]):
            raise Unlike
        missing = [_drop_missing(rows[:, 1 + at], len(it)) for at, it in enumerate((textures, normals))]
        lines = [it for it in self.lines if max(it) < len(points)]
        wrong = self.wrong_lines + len(self.lines) - len(lines)
        return Mesh(
            points[:, :3].copy() if len(points) else np.zeros((0, 3)),
            rows[:, 0].copy(),
            starts,
            Layer(textures, rows[:, 1].copy()) if len(textures) else None,
            Layer(normals, rows[:, 2].copy()) if len(normals) else None,
            self.groups(),
            points[:, 3:].copy() if points.shape[1] > 3 else None,
            tuple(np.array(it, dtype=np.int64) for it in lines),
            tuple(self.libraries),
            notes=tuple(carried("obj_text").notes_of(*missing, wrong)),
        )

    def _table(self, word: str) -> Array:
        """The numbers of all lines of a word, one row a line."""
        count = self.counts[word]
        if not count:
            return np.zeros((0, 3))
        text, head = b"".join(self.blocks[word]), f"{word} ".encode()
        width = len(text[len(head):text.index(b"\n")].split())
        if width not in WIDTHS[word]:
            raise Unlike
        table = numbers_of(text[len(head):-1].replace(b"\n" + head, b" nan ") + b" nan", b"0123456789-+.eEna")
        if len(table) != count * (width + 1):
            raise Unlike
        table = table.reshape(count, width + 1)
        largest = carried("obj_text").LARGEST
        if not np.all(np.isnan(table[:, width])) or not np.all(np.abs(table[:, :width]) <= largest):
            raise Unlike
        return table[:, :width]

    def _corner_table(self) -> tuple[Array, Array]:
        """Where the corners of each face begin, and (corners, 3) what each names: point, texture, normal, or below 0.
        """
        sides, table = corner_rows(b"".join(self.blocks["f"]), self.counts["f"])
        starts = np.concatenate([[0], np.cumsum(sides)])
        for first, last, counts in self.relative:
            rows = table[starts[first]:starts[last]]
            is_relative = rows < 0
            rows += is_relative * (np.array(counts) + 1)
            # An index that reaches back before the first line is none of those that stand for nothing.
            if np.any(is_relative & (rows <= 0)):
                raise Unlike
        return starts, table - 1

    def groups(self) -> dict[str, Names]:
        groups = {}
        for word, switches in self.switches.items():
            if switches:
                marks = [0, *(first for first, _ in switches), self.counts["f"]]
                names = np.array([0, *(name for _, name in switches)], dtype=np.int64)
                groups[word] = Names(tuple(self.names[word]), np.repeat(names, np.diff(marks)))
        return groups


def _drop_missing(rows: Array, count: int) -> int:
    """Makes rows (corners,) that name no value name none, and returns how many these were."""
    beyond = rows >= count
    rows[beyond] = NONE
    return int(np.sum(beyond))


def corner_rows(text: bytes, count: int) -> tuple[Array, Array]:
    """How many corners each of so many lines `f ..` has, and (corners, 3) the indices as they stand in the text, 0
    where there is none. Raises `Unlike` where faces have less than three corners, or corners are not all alike."""
    if not count:
        return np.zeros(0, dtype=np.int64), np.zeros((0, 3), dtype=np.int64)
    text = text.replace(b" \n", b"\n")
    plain = text[2:-1].replace(b"\nf ", b" %d " % LAST) + b" %d " % LAST
    has_slashes = b"/" in plain
    width = text.split(None, 2)[1].count(b"/") + 1 if has_slashes else 1
    if has_slashes and (b"/0" in plain or b"/-" in plain and b"/-0" in plain):
        raise Unlike
    numbers = numbers_of(
        plain.replace(b"//", b"/0/").replace(b"/ ", b"/0 ").replace(b"/", b" ") if width > 1 else plain,
        DIGITS, np.int64)
    ends = np.flatnonzero(numbers == LAST)
    counts = np.diff(np.concatenate([[-1], ends])) - 1
    if len(ends) != count or np.any(np.abs(numbers) > LAST) or np.any(counts % width != 0):
        raise Unlike
    sides = counts // width
    if np.any(sides < 3) or not _are_alike(plain, sides, width):
        raise Unlike
    rows = np.zeros((int(counts.sum()) // width, 3), dtype=np.int64)
    rows[:, :width] = numbers[numbers != LAST].reshape(-1, width)
    if np.any(rows[:, 0] == 0):
        raise Unlike
    return sides, rows


def _are_alike(plain: bytes, sides: Array, width: int) -> bool:
    """Whether each corner of faces with so many sides has as many numbers: where no digits stand, slashes and blanks
    are then left as they should."""
    if width == 1:
        return b"/" not in plain
    if width > 3:
        return False
    told = {side: b" ".join([b"/" * (width - 1)] * side) + b"  " for side in np.unique(sides).tolist()}
    return plain.translate(None, DIGITS) == b"".join([told[side] for side in sides.tolist()])


def numbers_of(text: bytes, letters: bytes, kind: type = np.float64) -> Array:
    """All numbers of a text. Raises `Unlike` where it has other letters than these, or a word that is not one number,
    or is longer than a decimal may be."""
    if text.translate(None, letters + b" \t\n"):
        raise Unlike
    with warnings.catch_warnings():
        warnings.simplefilter("ignore", DeprecationWarning)
        numbers: Array = np.fromstring(text, dtype=kind, sep=" ")
    blanks = np.flatnonzero(np.frombuffer(text, dtype=np.uint8) <= ord(" "))
    gaps = np.diff(np.concatenate([[-1], blanks, [len(text)]]))
    if len(numbers) != int(np.sum(gaps > 1)) or int(gaps.max()) > carried("obj_text").MAX_WORD + 1:
        raise Unlike
    return np.asarray(numbers)


def word_by_word(text: bytes) -> Mesh:
    """The mesh of a text of any form. Raises a `FormatError` as `read_obj` does."""
    tool = carried("obj_text")
    try:
        obj = tool.read_obj(text, polygons=True)
    except tool.ObjError as error:
        raise FormatError(error.status, error.line) from error
    corners = [it for face in obj.faces for it in face]
    table = np.array([[NONE if it is None else it for it in corner] for corner in corners], dtype=np.int64)
    table = table.reshape(-1, 3)
    columns = list(zip(*obj.names)) if obj.names else [()] * len(tool.NAMES)
    width = max([3, *map(len, obj.points)])
    points = np.array([[*map(float, it), *[0.0] * (width - len(it))] for it in obj.points]).reshape(-1, width)
    return Mesh(
        points[:, :3].copy(),
        table[:, 0].copy(),
        np.concatenate([[0], np.cumsum([len(it) for it in obj.faces], dtype=np.int64)]),
        _layer(obj.textures, table[:, 1]),
        _layer(obj.normals, table[:, 2]),
        {word: _names(column) for word, column in zip(tool.NAMES, columns) if any(column)},
        points[:, 3:] if width > 3 else None,
        tuple(np.array(it, dtype=np.int64) for it in obj.lines),
        tuple(obj.libraries),
        notes=tuple(obj.notes),
    )


def _layer(values: list[tuple[float, ...]], rows: Array) -> Optional[Layer]:
    width = max(map(len, values), default=0)
    if not values:
        return None
    return Layer(np.array([[*it, *[0.0] * (width - len(it))] for it in values]), rows.copy())


def _names(column: tuple[str, ...]) -> Names:
    place: dict[str, int] = {"": 0}
    of_face = [place.setdefault(it, len(place)) for it in column]
    return Names(tuple(place), np.array(of_face, dtype=np.int64))
