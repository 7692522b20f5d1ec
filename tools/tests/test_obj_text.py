"""What tools/obj_text.py reads of texts of all forms, compared with what the program reads: that of dist/, or that
which QUADQ names."""

import os
import pathlib
import subprocess
import sys
import unittest

ROOT = pathlib.Path(__file__).resolve().parents[2]
sys.path.insert(0, str(ROOT / "tools"))
from obj_text import ObjError, end_of, logical_lines, millionths, name_in, read_obj, whole_number  # noqa: E402

PROGRAM = os.environ.get("QUADQ", str(ROOT / "dist/quadq"))
TEXTS = [*sorted((ROOT / "python/tests/seeds").glob("*.obj")), *sorted((ROOT / "examples").glob("*.obj"))]
SQUARE = b"v 0 0 0\nv 1 0 0\nv 1 1 0\nv 0 1 0\n"
NO_MANIFOLD = 7


def by_program(text):
    """The status, and the words or the lines of the plain form."""
    ran = subprocess.run([PROGRAM, "tidy"], input=text, capture_output=True, check=False)
    if ran.returncode:
        return ran.returncode, ran.stderr.decode()[len("quadq: "):-1]
    return 0, ran.stdout.decode().splitlines()


def decimal(number):
    """A number of millionths as the plain form has it."""
    whole, rest = divmod(abs(number), 10**6)
    return ("-" if number < 0 else "") + (f"{whole}.{rest:06}".rstrip("0") if rest else str(whole))


def by_script(text):
    try:
        obj = read_obj(text)
    except ObjError as error:
        return error.status, error.line
    used = sorted({it.vertex for face in obj.faces for it in face})
    number = {vertex: at for at, vertex in enumerate(used, 1)}
    lines = ["v " + " ".join(decimal(millionths(it)) for it in obj.points[vertex][:3]) for vertex in used]
    return 0, lines + ["f " + " ".join(str(number[it.vertex]) for it in face) for face in obj.faces]


class ObjTexts(unittest.TestCase):
    def test_texts_are_read_as_the_program_reads_them(self):
        if not os.access(PROGRAM, os.X_OK):
            self.skipTest("the program is not there")
        wrong = [SQUARE + line + b"\nf 1 2 3 4\n" for line in (
            b"v 1 1", b"v 1_0 0 0", b"v \xd9\xa1 0 0", b"v 1\x0b0 0", b"v nan 0 0", b"f 1 2 3 99", b"f -9 1 2 3",
            b"f 0 1 2 3", b"f 1 2 3", b"f 1/1/1/1 2 3 4", b"f 1 2 3 18446744073709551615", b"# C:\\models\\",
            b"v 1e400 0 0", b"v 999999999.9999995 0 0", b"v 999999999.9999994 0 0", b" " * 65_537, b"f", b"v", b"\r",
            b"f 1 2 3 4\r\r", b"v " + b"0" * 64 + b" 0 0", b"v " + b"0" * 65 + b" 0 0")]
        for text in [*(it.read_bytes() for it in TEXTS), *wrong]:
            wanted, found = by_program(text), by_script(text)
            if wanted[0] != NO_MANIFOLD:
                self.assertEqual(found, wanted, text[:300])

    def test_lines(self):
        told = [(it.number, it.size, it.text) for it in logical_lines(b"a\\\nb#c\\\n\r\nd\\")]
        self.assertEqual(told, [(1, 6, b"a b"), (3, 0, b""), (4, 2, b"d ")])

    def test_names(self):
        for line, name in ((b"usemtl Color_#ff0000", "Color_#ff0000"), (b"g a b # c", "a b"), (b"g # c", ""),
                           (b"usemtl #ff0000 #c", "#ff0000"), (b"o", ""), (b"o \xe9", "\udce9")):
            self.assertEqual(name_in(line), name)

    def test_ends(self):
        for text in (b"", b"f 1 2 3 4", b"f 1 2 3 4 \\", b"f 1 2 3 4 \\\n", b"# c \\", b"f 1 \\\r\n"):
            lines = list(logical_lines(text + end_of(text) + b"l 1 2"))
            self.assertEqual(lines[-1].words, [b"l", b"1", b"2"], text)

    def test_numbers(self):
        self.assertEqual([millionths(it) for it in (b"1.", b".5", b"1.5e-7", b"0.0000005", b"-12.34", b"0e999999")],
                         [10**6, 500_000, 0, 1, -12_340_000, 0])
        self.assertEqual(whole_number(b"+" + b"0" * 5_000 + b"7"), 7)


if __name__ == "__main__":
    unittest.main()
