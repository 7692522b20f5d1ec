"""Ways to spoil an OBJ text by chance: pieces in it, its lines, and the whole of it. `fuzz_texts.py` takes them."""

from __future__ import annotations

import random
from typing import Callable

MAX_LINE = 65_536
"""The longest line."""
PIECES = [
    b"#", b"\\\n", b"\\\r\n", b"\\", b"\\ \n", b"\\\\\n", b"\r\n", b"\r", b"\n", b"\t", b" ", b"/", b"//", b"/0", b"+",
    b"-", b".", b"e", b"E5", b"1_0", b"nan", b"inf", b"0x1", b"\x0b", b"\x0c", b"\x1c", b"\x85", b"\xa0", b"\xc2\xa0",
    b"\xd9\xa1", b"\xe2\x80\xa8", b"\0", b"0", b"1", b"9", b"-1", b"usemtl a#b\n", b"usemtl a\\ # b\n", b"g\n",
    b"g # a\n", b"o #ff0000\n", b"s off\n", b"mtllib a b.mtl\n", b"# C:\\models\\\n", b"# a \\\r\n", b"#w 1 2 3000\n",
    b"\xef\xbb\xbf", b"\xff\xfe", b"x" * 70,
]
NUMBERS = [
    b"999999999.9999994", b"999999999.9999995", b"-999999999.9999994", b"999999999.99999949999999999999999999999999",
    b"9999999999999999e-7", b"0.0000005", b"-0.0000005", b"0.00000049999999999999999999999999999999999999999999999",
    b"4.9999999999999999e-7", b"1e400", b"1e-400", b"0e999999", b"0e99999999999999999999", b"1e-2147483649",
    b"1e+0000000000000000000000001", b"0" * 63 + b"1", b"0" * 64 + b"1", b"0" * 65, b".5", b"5.", b".", b"+.5", b"-.e1",
    b"--1", b"1e", b"1e+", b"1.2.3", b"1,5", b"1f", b"-0", b"+0.0",
]
"""Decimals, and what is nearly one."""
CORNERS = [
    b"1", b"+1", b"01", b"-1", b"-0", b"0", b"1/", b"1//", b"/1", b"//1", b"1/1", b"1/1/1", b"1//1", b"1/1/", b"1/1/1/",
    b"1/1/1/1", b"1/-1", b"-1/-1/-1", b"1/+1", b"1/x", b"1/1.0", b"1.0", b"1/0/0", b"2147483648", b"4294967297",
    b"18446744073709551615", b"18446744073709551617", b"-9223372036854775809", b"9" * 65, b"0" * 80 + b"1",
    b"1/18446744073709551615", b"1/1/-99",
]
"""Corners of faces and lines, and what is nearly one."""
LINES = [
    b"v", b"v 1 1", b"v 1 1 1", b"v 1 1 1 1", b"v 1 1 1 1 1", b"v 1 1 1 1 1 1", b"v 1 1 1 1 1 1 1",
    b"v 1 1 1 1 1 1 1 1", b"V 1 1 1", b"v1 1 1", b"vt", b"vt 0", b"vt 0 0", b"vt 0 0 0", b"vt 0 0 0 0", b"vt 0 nan",
    b"vn 0 0 1", b"vn 1", b"vp 0 0", b"f", b"f 1", b"f 1 2", b"f 1 2 3", b"f 1 2 3 4", b"f 4 3 2 1", b"f 1 2 3 4 5",
    b"f 1 2 3 4 5 6 7", b"f 1 2 2 3", b"f 1/1 2/2 3/3 4/4", b"f -4 -3 -2 -1", b"F 1 2 3 4", b"fo 1 2 3 4", b"l 1 2",
    b"l 1", b"l 1/1 2/2", b"l -1 -2", b"l 1 99", b"l 1 x", b"p 1", b"call a.obj", b"csh echo", b"\tv 1 1 1",
    b" f 1 2 3 4 ", b"f\t1\t2\t3\t4",
]
FILLS = [b" ", b"#", b"x", b"0", b"# \\"]
"""Of what a line is made long."""


def with_piece(data: bytearray, rng: random.Random) -> None:
    at = rng.randrange(len(data) + 1)
    data[at:at] = rng.choice(PIECES)


def with_other_piece(data: bytearray, rng: random.Random) -> None:
    at = rng.randrange(len(data) + 1)
    data[at:at + rng.randint(1, 5)] = rng.choice(PIECES)


def without_some(data: bytearray, rng: random.Random) -> None:
    at = rng.randrange(len(data) + 1)
    del data[at:at + rng.randint(1, 8)]


def with_other_byte(data: bytearray, rng: random.Random) -> None:
    if data:
        data[rng.randrange(len(data))] = rng.randrange(256)


def with_line_again(data: bytearray, rng: random.Random) -> None:
    lines = bytes(data).split(b"\n")
    lines.insert(rng.randrange(len(lines)), rng.choice(lines))
    data[:] = b"\n".join(lines)


def with_line(data: bytearray, rng: random.Random) -> None:
    lines = bytes(data).split(b"\n")
    lines.insert(rng.randrange(len(lines)), rng.choice(LINES))
    data[:] = b"\n".join(lines)


def without_line(data: bytearray, rng: random.Random) -> None:
    lines = bytes(data).split(b"\n")
    lines.pop(rng.randrange(len(lines)))
    data[:] = b"\n".join(lines)


def with_lines_changed_about(data: bytearray, rng: random.Random) -> None:
    lines = bytes(data).split(b"\n")
    one, other = rng.randrange(len(lines)), rng.randrange(len(lines))
    lines[one], lines[other] = lines[other], lines[one]
    data[:] = b"\n".join(lines)


def with_other_word(data: bytearray, rng: random.Random) -> None:
    """A number or a corner of a line in place of another."""
    lines = bytes(data).split(b"\n")
    at = rng.randrange(len(lines))
    words = lines[at].split(b" ")
    if len(words) > 1:
        words[rng.randrange(1, len(words))] = rng.choice(CORNERS if words[0] in (b"f", b"l") else NUMBERS)
        lines[at] = b" ".join(words)
        data[:] = b"\n".join(lines)


def with_long_line(data: bytearray, rng: random.Random) -> None:
    """A line about as long as one may be: as it stands, as a comment, or joined of two."""
    lines = bytes(data).split(b"\n")
    at = rng.randrange(len(lines))
    fill = rng.choice(FILLS)
    missing = max(MAX_LINE + rng.randint(-2, 2) - len(lines[at]), 0)
    long = (fill * missing)[:missing]
    half = rng.randrange(missing + 1)
    joint = rng.choice([b"", b"\\\n", b"\\\r\n", b"\n"])
    lines[at] += long[:half] + joint + long[half:]
    data[:] = b"\n".join(lines)


def in_other_words(data: bytearray, rng: random.Random) -> None:
    """Other blanks between words, or lines that are joined."""
    gap = rng.choice([b"  ", b"\t", b" \t ", b" \\\n "])
    data[:] = bytes(data).replace(b" ", gap)


def with_other_ends(data: bytearray, rng: random.Random) -> None:
    data[:] = bytes(data).replace(b"\n", rng.choice([b"\r\n", b"\r", b"\n\r", b"\\\n", b" \\\n\n", b"\n\n", b"#\\\n"]))


def with_other_end(data: bytearray, rng: random.Random) -> None:
    data[:] = bytes(data).rstrip(b"\n") + rng.choice([b"", b"\\", b"\r", b"\\\r\n", b"\\\n", b"#\\", b"\n\\", b"\0"])


def in_other_letters(data: bytearray, rng: random.Random) -> None:
    letters = rng.choice(["utf-16", "utf-16-le", "utf-16-be", "utf-32", "utf-8-sig", "cp037"])
    data[:] = bytes(data).decode("latin-1").encode(letters, "replace")


def twice(data: bytearray, rng: random.Random) -> None:
    """Several objects, of which the second may name its points from behind."""
    more = bytes(data)
    data += rng.choice([b"", b"\n", b"o second\n", b"\0", b"\xef\xbb\xbf"]) + more


def from_behind(data: bytearray, rng: random.Random) -> None:
    """Corners below 0."""
    lines = bytes(data).split(b"\n")
    data[:] = b"\n".join(it.replace(b" ", b" -") if it.startswith(b"f ") else it for it in lines)


Way = Callable[[bytearray, random.Random], None]
OFTEN: list[Way] = [with_piece, with_other_piece, with_other_word, with_line]
NOW_AND_THEN: list[Way] = [without_some, with_other_byte, with_line_again, without_line, with_lines_changed_about]
SELDOM: list[Way] = [
    with_long_line, in_other_words, with_other_ends, with_other_end, in_other_letters, twice, from_behind]


def spoilt(text: bytes, rng: random.Random) -> bytes:
    """A text with one to four changes, and now and then with one of the whole."""
    data = bytearray(text)
    for _ in range(rng.randint(1, 4)):
        rng.choice(OFTEN if rng.random() < 0.7 else NOW_AND_THEN)(data, rng)
    if rng.random() < 0.15:
        rng.choice(SELDOM)(data, rng)
    return bytes(data)
