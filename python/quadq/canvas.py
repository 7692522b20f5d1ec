"""Pictures of faces, lines and dots, drawn by numpy alone, as PNG."""

from __future__ import annotations

import struct
import zlib

import numpy as np

from .arrays import Array

FINE = 2
"""Each pixel is drawn as so many by so many, and their mean is shown."""
AT_A_TIME = 1 << 22
"""How many pixels are filled together: it bounds the memory."""
SPACING = 0.9
"""So far apart samples of a surface lie at most, in fine pixels, both ways, so that each of its pixels has one."""
MOST_SAMPLES = 4
"""Of quads that would need more along a side triangles are filled."""


class Canvas:
    """A white picture with a depth for each pixel. Places are (.., 3): to the right and downward in pixels, and how
    near; what is nearer hides what is behind."""

    def __init__(self, wide: int, high: int) -> None:
        self.wide, self.high = wide * FINE, high * FINE
        self.colours = np.full(self.wide * self.high, 0xffffff)
        """(pixels,) int64: red, green and blue, a byte each."""
        self.depths = np.full(self.wide * self.high, -np.inf)

    def show(self, colours: Array) -> None:
        """Colours all fine pixels (high, wide, 3), from 0 to 255."""
        self.colours = _packed(colours.reshape(-1, 3))

    def triangles(self, places: Array, colours: Array) -> None:
        """Fills triangles (n, 3, 3) with colours (n, 3) from 0 to 255."""
        places = places * [FINE, FINE, 1]
        size = _over_corners(np.maximum, places)[:, :2] - _over_corners(np.minimum, places)[:, :2]
        packed = _packed(colours)
        batch = (np.cumsum((size[:, 0] + 2) * (size[:, 1] + 2)) / AT_A_TIME).astype(np.int64)
        for now in np.unique(batch):
            some = batch == now
            self._fill(places[some], packed[some])

    def _fill(self, places: Array, colours: Array) -> None:
        """Fills triangles, whose first two numbers are in fine pixels, row by row."""
        (ax, ay, az), (bx, by, bz), (cx, cy, cz) = places.transpose(1, 2, 0)
        area = (bx - ax) * (cy - ay) - (by - ay) * (cx - ax)
        first = np.ceil(np.clip(_over_corners(np.minimum, places[:, :, 1]), 0, self.high) - 0.5).astype(np.int64)
        last = np.floor(np.clip(_over_corners(np.maximum, places[:, :, 1]), 0, self.high) - 0.5).astype(np.int64)
        who, row = _ranges(first, np.where(area == 0, first - 1, last))
        start, end = self._spans(places[who], np.sign(area)[who], row + 0.5)
        at, x = _ranges(start, end)
        who, y = who[at], row[at]
        whole = np.where(area == 0, 1.0, area)
        right = ((bz - az) * (cy - ay) - (cz - az) * (by - ay)) / whole
        down = ((cz - az) * (bx - ax) - (bz - az) * (cx - ax)) / whole
        depths = az[who] + right[who] * (x + 0.5 - ax[who]) + down[who] * (y + 0.5 - ay[who])
        pixels = y * self.wide + x
        self._put(pixels, depths, colours, who)

    def _put(self, pixels: Array, depths: Array, colours: Array, who: Array) -> None:
        """Colours pixels (n,), where these depths (n,) are nearer, with those of the colours that `who` (n,) names."""
        near = np.flatnonzero(depths >= self.depths[pixels])
        while len(near):
            # Of pixels that are there several times the last one stays; those that are nearer come again.
            self.depths[pixels[near]] = depths[near]
            self.colours[pixels[near]] = colours[who[near]]
            near = near[depths[near] > self.depths[pixels[near]]]

    def quads(self, places: Array, quads: Array, colours: Array) -> None:
        """Fills quads (n, 4) over places (points, 3) with colours (n, 3): small ones by samples, others as the
        triangles between their sides and their middle."""
        corners = [(places[:, at] * scale)[quads.T] for at, scale in enumerate((FINE, FINE, 1))]
        lengths = np.maximum(*(np.max(it, axis=0) - np.min(it, axis=0) for it in corners[:2]))
        steps, packed = np.maximum(np.ceil(lengths / SPACING), 1), _packed(colours)
        for count in range(1, MOST_SAMPLES + 1):
            some = np.flatnonzero(steps == count)
            self._sample([it[:, some] for it in corners], packed[some], count)
        large = np.flatnonzero(steps > MOST_SAMPLES)
        sides = places[quads[large]]
        middles = np.broadcast_to(sides.mean(axis=1, keepdims=True), sides.shape)
        triangles = np.stack([sides, np.roll(sides, -1, axis=1), middles], axis=2).reshape(-1, 3, 3)
        self.triangles(triangles, np.repeat(colours[large], 4, axis=0))

    def _sample(self, corners: list[Array], colours: Array, count: int) -> None:
        """Colours the pixels in which so many times so many samples of quads lie. The corners (4, n) are to the right
        and downward, in fine pixels, and how near."""
        for at in range(count):
            t = (at + 0.5) / count
            ends = [(west + t * (north - west), east + t * (corner - east)) for west, east, corner, north in corners]
            steps = [(last - first) / count for first, last in ends]
            x, y, depth = (first + step / 2 for (first, _), step in zip(ends, steps))
            for _ in range(count):
                self._put_inside(x, y, depth, colours)
                x, y, depth = (it + step for it, step in zip((x, y, depth), steps))

    def _put_inside(self, x: Array, y: Array, depths: Array, colours: Array) -> None:
        """Colours the pixels of places (n,) that are in the picture."""
        who = np.arange(len(x))
        if len(x) and (min(x.min(), y.min()) < 0 or x.max() >= self.wide or y.max() >= self.high):
            who = np.flatnonzero((x >= 0) & (x < self.wide) & (y >= 0) & (y < self.high))
        self._put(y[who].astype(np.int64) * self.wide + x[who].astype(np.int64), depths[who], colours, who)

    def _spans(self, places: Array, turn: Array, y: Array) -> tuple[Array, Array]:
        """The first and the last pixel of each triangle in its row: between the sides that go up and that go down."""
        start, end = np.zeros(len(y)), np.full(len(y), float(self.wide))
        for corner in range(3):
            px, py = places[:, corner, 0], places[:, corner, 1]
            qx, qy = places[:, (corner + 1) % 3, 0], places[:, (corner + 1) % 3, 1]
            rise = turn * (qy - py)
            x = px + (qx - px) * (y - py) / np.where(qy == py, 1.0, qy - py)
            end = np.where(rise > 0, np.minimum(end, x), end)
            start = np.where(rise < 0, np.maximum(start, x), start)
        return np.ceil(start - 0.5).astype(np.int64), np.floor(end - 0.5).astype(np.int64)

    def lines(self, places: Array, colour: tuple[int, int, int], width: float, strength: float = 1.0) -> None:
        """Draws lines between pairs of places (n, 2, 3), as wide as so many pixels, over what is as near."""
        places = places * [FINE, FINE, 1]
        steps = np.ceil(np.abs(places[:, 1, :2] - places[:, 0, :2]).max(axis=1)).astype(np.int64) + 1
        who = np.repeat(np.arange(len(places)), steps)
        along = (np.arange(len(who)) - np.repeat(np.cumsum(steps) - steps, steps)) / np.maximum(steps[who] - 1, 1)
        self._stamp(places[who, 0] + along[:, None] * (places[who, 1] - places[who, 0]), colour, width, strength)

    def dots(self, places: Array, colour: tuple[int, int, int], width: float) -> None:
        """Draws round dots at places (n, 3), over everything."""
        self._stamp(places * [FINE, FINE, 1] + [0, 0, 1e300], colour, width, 1.0)

    def _stamp(self, spots: Array, colour: tuple[int, int, int], width: float, strength: float) -> None:
        """Presses a round stamp on each spot that is not hidden."""
        reach = width * FINE / 2
        offsets = np.arange(-int(reach), int(reach) + 1)
        marked = np.zeros(len(self.depths), dtype=bool)
        x, y = np.floor(spots[:, 0]).astype(np.int64), np.floor(spots[:, 1]).astype(np.int64)
        for right in offsets:
            for down in offsets:
                if right**2 + down**2 > reach**2:
                    continue
                inside = (x + right >= 0) & (x + right < self.wide) & (y + down >= 0) & (y + down < self.high)
                pixels = (y[inside] + down) * self.wide + x[inside] + right
                marked[pixels[spots[inside, 2] >= self.depths[pixels]]] = True
        below = _unpacked(self.colours[marked])
        self.colours[marked] = _packed(below + strength * (np.array(colour) - below))

    def pixels(self) -> Array:
        """(high, wide, 3) float64: the colours of the fine pixels, from 0 to 255."""
        return _unpacked(self.colours).reshape(self.high, self.wide, 3)

    def png(self, parts: int = 1, step: int = 1) -> bytes:
        """The picture as a PNG file; on wish with so many pixels as one, both ways, which have to divide it, and with
        colours that are multiples of a step, a part of 255, which makes it smaller."""
        fine = FINE * parts
        high, wide = self.high // fine, self.wide // fine
        colours = self.pixels().reshape(high, fine, wide, fine, 3)
        means = ((colours.mean(axis=(1, 3)) / step).round() * step).astype(np.uint8)
        rows = np.concatenate([np.zeros((high, 1), dtype=np.uint8), means.reshape(high, -1)], axis=1)
        head = struct.pack(">IIBBBBB", wide, high, 8, 2, 0, 0, 0)
        return b"\x89PNG\r\n\x1a\n" + b"".join(
            _chunk(*it) for it in ((b"IHDR", head), (b"IDAT", zlib.compress(rows.tobytes(), 9)), (b"IEND", b"")))


def _packed(colours: Array) -> Array:
    """(n,) int64: colours (n, 3) from 0 to 255, a byte each."""
    return np.asarray(np.rint(colours).astype(np.int64) @ [1 << 16, 1 << 8, 1])


def _unpacked(colours: Array) -> Array:
    """(n, 3) float64: the colours that were packed."""
    return np.asarray(np.stack([colours >> 16, colours >> 8 & 255, colours & 255], axis=-1).astype(float))


def _over_corners(function: np.ufunc, places: Array) -> Array:
    """A function of two values over the three corners of triangles (n, 3, ..)."""
    return np.asarray(function(function(places[:, 0], places[:, 1]), places[:, 2]))


def _ranges(first: Array, last: Array) -> tuple[Array, Array]:
    """All numbers of ranges, range by range, each with the place of its range."""
    counts = np.maximum(last - first + 1, 0)
    who = np.repeat(np.arange(len(first)), counts)
    return who, np.arange(len(who)) - np.repeat(np.cumsum(counts) - counts, counts) + first[who]


def _chunk(name: bytes, data: bytes) -> bytes:
    return struct.pack(">I", len(data)) + name + data + struct.pack(">I", zlib.crc32(name + data))
