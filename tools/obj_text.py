"""The text of Wavefront OBJ as quadq reads it: lines, words, numbers and refusals as docs/TEXT.md says, and beside them
what quadq passes over: texture coordinates, normals, names and lines.

The scripts of tools/ read through this module, and the Python package reads what is not of the plainest form. What it
refuses it refuses with the status and the words of the program. What the program passes over is never refused: where
that cannot be read, it is left out, and `Obj.notes` says so.
"""

from __future__ import annotations

import re
from dataclasses import dataclass, field
from typing import Iterator, NamedTuple, Optional, Union

Value = tuple[float, ...]

SYNTAX, NOT_QUAD, RANGE, LIMIT = 3, 4, 5, 6
"""The program's statuses for texts."""
MAX_BYTES, MAX_LINE, MAX_VERTICES, MAX_FACES = 512 << 20, 65_536, 1 << 21, 1 << 20
MAX_WORD = 64
"""The longest decimal."""
FARTHEST = 999_999_999_999_999
"""The largest coordinate, in millionths."""
LARGEST = 1e300
"""The largest number that is kept of what the program passes over."""
FAR = 1 << 64
"""Stands for any index that is larger."""
NAMES = ("o", "g", "usemtl", "s")
"""The words that name what the faces behind them belong to."""

WORDS = re.compile(rb"[^ \t]+")
DECIMAL = re.compile(rb"([+-]?)([0-9]*)\.?([0-9]*)(?:[eE]([+-]?[0-9]+))?")
CORNER = re.compile(rb"([+-]?[0-9]+)(?:/([+-]?[0-9]+)?(?:/([+-]?[0-9]+)?)?)?")
LINE_CORNER = re.compile(rb"([+-]?[0-9]+)(?:/(?:[+-]?[0-9]+)?)?")


class ObjError(ValueError):
    """Why a text is refused: the program's status and its words."""

    def __init__(self, status: int, line: str) -> None:
        super().__init__(line)
        self.status = status
        self.line = line

    def __reduce__(self) -> tuple[type[ObjError], tuple[int, str]]:
        return type(self), (self.status, self.line)


class Line(NamedTuple):
    """A logical line: a physical line with all that is joined to it."""

    number: int
    """That of its first physical line."""
    size: int
    """Its length, before it is cut at `#`."""
    text: bytes
    """What stands before `#`."""
    whole: bytes
    """What stands there, with the comment."""

    @property
    def words(self) -> list[bytes]:
        return WORDS.findall(self.text)

    @property
    def name(self) -> str:
        """What stands behind the first word. A `#` within a word belongs to it: a name may have one."""
        return name_in(self.whole)


class Corner(NamedTuple):
    """What a corner of a face names: a vertex, and places in the lists of texture coordinates and normals, from 0."""

    vertex: int
    texture: Optional[int]
    normal: Optional[int]


def logical_lines(text: bytes) -> Iterator[Line]:
    """All logical lines of a text. Linear."""
    pieces = text.split(b"\n")
    if not pieces[-1]:
        pieces.pop()
    first, size, cut, whole = 0, 0, b"", b""
    goes_on = False
    for number, piece in enumerate(pieces, 1):
        piece = piece[:-1] if piece.endswith(b"\r") else piece
        if not goes_on:
            first, size, cut, whole = number, 0, b"", b""
        before, comment, _ = piece.partition(b"#")
        goes_on = not comment and piece.endswith(b"\\")
        size += len(piece)
        cut += piece[:-1] + b" " if goes_on else before
        whole += piece[:-1] + b" " if goes_on else piece
        if not goes_on:
            yield Line(first, size, cut, whole)
    if goes_on:
        yield Line(first, size, cut, whole)


def name_in(line: bytes) -> str:
    """The name that a line has behind its first word, without a comment. A comment begins a word; the first word of
    the name is none where more than `#` stands there."""
    words = WORDS.findall(line)[1:]
    end = next((at for at, it in enumerate(words) if it == b"#" or (at and it.startswith(b"#"))), len(words))
    return b" ".join(words[:end]).decode("utf-8", "surrogateescape")


def name_line(word: str, name: str) -> str:
    """A line from which a name is read again. Where no line of OBJ has such a name, one that is like it."""
    words = list(filter(None, name.replace("\n", " ").replace("\t", " ").split(" ")))
    words = [f"_{it}" if it == "#" or (at and it.startswith("#")) else it for at, it in enumerate(words)]
    line = " ".join([word, *words])
    # A backslash at the end would join the next line to this one, and a CR would belong to the end of this one.
    is_open = line.endswith("\r") or (line.endswith("\\") and "#" not in line)
    return f"{line} #" if is_open else line


def end_of(text: bytes) -> bytes:
    """What has to stand behind a text so that what follows is a line of its own."""
    last = text[text.rfind(b"\n", 0, len(text) - 1) + 1:].rstrip(b"\n")
    last = last[:-1] if last.endswith(b"\r") else last
    goes_on = b"#" not in last and last.endswith(b"\\")
    return (b"" if text.endswith(b"\n") or not text else b"\n") + (b"\n" if goes_on else b"")


def whole_number(word: bytes) -> int:
    """The number of an index, or one beyond all others where it is larger than any."""
    digits = word.lstrip(b"+-").lstrip(b"0")
    size = min(int(digits or b"0"), FAR) if len(digits) <= 20 else FAR
    return -size if word.startswith(b"-") else size


def is_decimal(word: bytes) -> bool:
    """Whether a word has the form of a decimal."""
    found = DECIMAL.fullmatch(word) if len(word) <= MAX_WORD else None
    return found is not None and bool(found[2] or found[3])


def is_beyond(word: bytes) -> bool:
    """Whether a decimal is larger than what is kept."""
    return not abs(float(word)) <= LARGEST


def millionths(word: bytes) -> int:
    """A decimal as a whole number of millionths, halves away from zero; one past `FARTHEST` where it is farther."""
    found = DECIMAL.fullmatch(word)
    if found is None:
        raise ValueError(f"{word!r} is no decimal")
    digits = int(found[2] + found[3] or b"0")
    shift = (0 if found[4] is None else int(found[4])) - len(found[3]) + 6
    if shift >= 0:
        size = int(digits * 10 ** min(shift, MAX_WORD))
    else:
        part = int(10 ** min(-shift, 2 * MAX_WORD))
        size = (2 * digits + part) // (2 * part)
    return min(size, FARTHEST + 1) * (-1 if found[1] == b"-" else 1)


def place_of(number: int, count: int) -> Optional[int]:
    """Where the line stands, from 0, that an index names behind so many lines, if it names one; below 0 where it
    reaches back before the first."""
    return number - 1 if number > 0 else count + number if number else None


@dataclass
class Obj:
    """What an OBJ text has. Places count from 0."""

    points: list[list[bytes]] = field(default_factory=list)
    """The words behind each `v`: three are the place."""
    textures: list[Value] = field(default_factory=list)
    normals: list[Value] = field(default_factory=list)
    faces: list[list[Corner]] = field(default_factory=list)
    names: list[tuple[str, ...]] = field(default_factory=list)
    """What each face belongs to, by the words of `NAMES`: the empty name where it is not said."""
    lines: list[list[int]] = field(default_factory=list)
    """The vertices along each `l` line."""
    libraries: list[str] = field(default_factory=list)
    notes: list[str] = field(default_factory=list)
    """What could not be read and was left out."""

    def place(self, vertex: int) -> tuple[float, float, float]:
        """Where a vertex lies, in the unit of the file."""
        x, y, z = map(float, self.points[vertex][:3])
        return x, y, z


def read_obj(text: Union[bytes, str], polygons: bool = False) -> Obj:
    """What a text has. Raises an `ObjError` for the first refusal of the first line that has one, as the program has
    it; with `polygons` triangles and faces of more than four corners are taken. Manifolds are not looked at."""
    if isinstance(text, str):
        text = text.encode("utf-8", "surrogateescape")
    if len(text) > MAX_BYTES:
        raise ObjError(LIMIT, "limit: bytes")
    reader = _Reader(polygons)
    for line in logical_lines(text):
        reader.take(line)
    return reader.result()


@dataclass
class Survey:
    """What a text has, and each of its lines that is refused."""

    obj: Obj
    errors: list[ObjError] = field(default_factory=list)
    """In the order in which the program would come to them: each line's first one."""
    vertex_lines: list[int] = field(default_factory=list)
    """The number of the line of each vertex."""
    face_lines: list[int] = field(default_factory=list)
    """That of each face."""


def survey(text: bytes) -> Survey:
    """What a text has with all lines that are refused, not only the first. Triangles and polygons are taken. A `v` line
    that is refused counts as a vertex, so that others keep their numbers, and a face that is refused is left out."""
    reader, found = _Reader(True), Survey(Obj())
    for line in logical_lines(text):
        is_vertex = line.words[:1] == [b"v"]
        try:
            reader.take(line)
        except ObjError as error:
            found.errors.append(error)
            if error.status == LIMIT and not error.line.endswith("line"):
                break
            if is_vertex:
                reader.obj.points.append([b"0"] * 3)
        if is_vertex:
            found.vertex_lines.append(line.number)
    found.errors += reader.drop_missing()
    found.face_lines, found.obj = reader.face_lines, reader.result()
    return found


class _Reader:
    """What was read so far."""

    def __init__(self, polygons: bool) -> None:
        self.obj = Obj()
        self.polygons = polygons
        self.now = dict.fromkeys(NAMES, "")
        self.places: dict[str, list[Optional[Value]]] = {"vt": [], "vn": []}
        """The values of `vt` and `vn` lines, or None where one cannot be read."""
        self.corners: list[list[Corner]] = []
        """As they stand in the text, but that indices below 0 are counted from the first line."""
        self.face_lines: list[int] = []
        self.wrong_lines = self.wrong_numbers = 0

    def take(self, line: Line) -> None:
        if line.size > MAX_LINE:
            raise ObjError(LIMIT, f"line {line.number}: limit: line")
        words = line.words
        kind = words[0] if words else b""
        if kind == b"v":
            self.take_vertex(line.number, words[1:])
        elif kind == b"f":
            self.take_face(line.number, words[1:])
        elif kind in (b"vt", b"vn"):
            is_told = 1 < len(words) <= 4 and all(map(is_decimal, words[1:]))
            self.places[kind.decode()].append(
                tuple(map(float, words[1:])) if is_told and not any(map(is_beyond, words[1:])) else None)
        elif kind.decode("latin-1") in self.now:
            self.now[kind.decode()] = line.name
        elif kind == b"mtllib":
            self.obj.libraries.append(line.name)
        elif kind == b"l":
            self.take_line(words[1:])

    def take_vertex(self, number: int, words: list[bytes]) -> None:
        if len(self.obj.points) == MAX_VERTICES:
            raise ObjError(LIMIT, f"line {number}: limit: vertices")
        if len(words) not in (3, 4, 6, 7) or not all(map(is_decimal, words)):
            raise ObjError(SYNTAX, f"line {number}: not an OBJ line of this profile")
        if any(abs(millionths(it)) > FARTHEST for it in words[:3]):
            raise ObjError(RANGE, f"line {number}: number out of range")
        self.wrong_numbers += sum(map(is_beyond, words[3:]))
        self.obj.points.append(words[:3] + [b"0" if is_beyond(it) else it for it in words[3:]])

    def take_face(self, number: int, words: list[bytes]) -> None:
        if len(self.corners) == MAX_FACES:
            raise ObjError(LIMIT, f"line {number}: limit: faces")
        found = [CORNER.fullmatch(it) for it in words]
        given = [it.groups() for it in found if it is not None]
        if len(given) < len(words):
            raise ObjError(SYNTAX, f"line {number}: not an OBJ line of this profile")
        if len(words) != 4 and (len(words) < 3 or not self.polygons):
            raise ObjError(NOT_QUAD, f"line {number}: face with {len(words)} corners")
        counts = len(self.obj.points), len(self.places["vt"]), len(self.places["vn"])
        corners = []
        for numbers in given:
            vertex, texture, normal = (
                None if it is None else place_of(whole_number(it), count) for it, count in zip(numbers, counts))
            if vertex is None or vertex < 0:
                raise ObjError(RANGE, f"line {number}: number out of range")
            corners.append(Corner(vertex, self.is_there(texture, numbers[1]), self.is_there(normal, numbers[2])))
        self.corners.append(corners)
        self.face_lines.append(number)
        self.obj.names.append(tuple(self.now.values()))

    @staticmethod
    def is_there(place: Optional[int], word: Optional[bytes]) -> Optional[int]:
        """The place; beyond all where a word stands there that names no line."""
        return FAR if word is not None and (place is None or place < 0) else place

    def take_line(self, words: list[bytes]) -> None:
        found = [LINE_CORNER.fullmatch(it) for it in words]
        places = [place_of(whole_number(it[1]), len(self.obj.points)) for it in found if it is not None]
        run = [it for it in places if it is not None and it >= 0]
        if len(run) < max(len(words), 2):
            self.wrong_lines += 1
        else:
            self.obj.lines.append(run)

    def drop_missing(self) -> list[ObjError]:
        """Leaves out the faces that name vertices that are not there, and says why."""
        count = len(self.obj.points)
        kept = [at for at, it in enumerate(self.corners) if all(corner.vertex < count for corner in it)]
        errors = [ObjError(RANGE, f"line {self.face_lines[at]}: number out of range")
                  for at in sorted(set(range(len(self.corners))) - set(kept))]
        if errors:
            self.corners = [self.corners[at] for at in kept]
            self.face_lines = [self.face_lines[at] for at in kept]
            self.obj.names = [self.obj.names[at] for at in kept]
        return errors

    def result(self) -> Obj:
        obj = self.obj
        for number, corners in zip(self.face_lines, self.corners):
            if any(it.vertex >= len(obj.points) for it in corners):
                raise ObjError(RANGE, f"line {number}: number out of range")
        texture, normal = (Table(word, places) for word, places in self.places.items())
        obj.textures, obj.normals = texture.values, normal.values
        obj.faces = [[Corner(it.vertex, texture.row(it.texture), normal.row(it.normal)) for it in corners]
                     for corners in self.corners]
        known = [it for it in obj.lines if max(it) < len(obj.points)]
        self.wrong_lines += len(obj.lines) - len(known)
        obj.lines = known
        obj.notes = notes_of(texture.missing, normal.missing, self.wrong_lines, self.wrong_numbers)
        return obj


class Table:
    """The values of the lines of a word, without those that cannot be read, and how many corners name none of them."""

    def __init__(self, word: str, places: list[Optional[Value]]) -> None:
        self.word = word
        self.values = [it for it in places if it is not None]
        self.missing = 0
        self.rows: list[Optional[int]] = []
        count = 0
        for it in places:
            self.rows.append(None if it is None else count)
            count += it is not None

    def row(self, place: Optional[int]) -> Optional[int]:
        if place is None:
            return None
        found = self.rows[place] if place < len(self.rows) else None
        self.missing += found is None
        return found


def notes_of(textures: int, normals: int, lines: int, numbers: int = 0) -> list[str]:
    """What was left out: corners that name no `vt` or `vn` line that could be read, `l` lines, and numbers behind the
    places of points."""
    said = [(textures, "corners name vt lines that are not there, and have no texture coordinates"),
            (normals, "corners name vn lines that are not there, and have no normal"),
            (lines, "l lines name no vertices that are there, and were left out"),
            (numbers, "numbers behind the places of vertices are too large, and are 0")]
    return [f"{count} {words}" for count, words in said if count]
