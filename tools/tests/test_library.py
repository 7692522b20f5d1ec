"""Programs in C that call quadq: the example over the program itself and over libquadq.a, where that is built, both
compared with the program; small buffers, and threads."""

import concurrent.futures
import contextlib
import ctypes
import os
import pathlib
import shutil
import subprocess
import sys
import tempfile
import unittest
import unittest.mock

ROOT = pathlib.Path(__file__).resolve().parents[2]
sys.path.insert(0, str(ROOT / "tools"))

import build_library  # noqa: E402

PROGRAM = os.environ.get("QUADQ", str(ROOT / "quadq"))
EXAMPLES = sorted(ROOT.glob("examples/*.obj"))
LETTER = (ROOT / "examples/letter_q.obj").read_bytes()
HALF = ["remesh", "--scale", "1/2", "--floor", "auto", "--weight", "plain"]
LINES = [
    ["tidy"],
    ["graph"],
    ["refine", "--by", "3"],
    ["size", "--edge", "0.4", "--floor", "1"],
    ["coarse", "--scale", "1/1", "--floor", "1", "--weight", "plain"],
    ["check"],
    ["remesh", "--scale", "1/2"],
    ["refine", "--by", "0"],
    ["", ""],
    ["no", "\u00e9"],
    ["bench", "--size", "9"],
]
LINE_ROOM = 384
FLAGS = ["-std=c11", "-pedantic", "-Wall", "-Wextra", "-Werror", "-D_POSIX_C_SOURCE=200809L", f"-I{ROOT}/include"]


class Ran(ctypes.Structure):
    _fields_ = [("status", ctypes.c_uint8), ("written", ctypes.c_size_t), ("said", ctypes.c_size_t)]


def compiled(out, *words):
    subprocess.run(["cc", *FLAGS, "-o", out, *map(str, words)], check=True)
    return out


def by_process(words, text):
    """The status of the program and both its outputs."""
    it = subprocess.run([PROGRAM, *words], input=text, capture_output=True)
    return it.returncode, it.stdout, it.stderr


class OverTheProcess(unittest.TestCase):
    """The example, and the call, where examples/quadq_process.c stands for the library."""

    @classmethod
    def linked(cls):
        return ROOT / "examples/quadq_process.c"

    @classmethod
    def shared(cls):
        return ["-shared", "-fPIC", cls.linked()]

    @classmethod
    def setUpClass(cls):
        if not shutil.which("cc"):
            raise unittest.SkipTest("there is no C compiler here")
        with contextlib.ExitStack() as kept:
            folder = kept.enter_context(tempfile.TemporaryDirectory())
            kept.enter_context(unittest.mock.patch.dict(os.environ, {"QUADQ": PROGRAM}))
            cls.example = compiled(f"{folder}/remesh", ROOT / "examples/remesh.c", cls.linked())
            cls.call = ctypes.CDLL(compiled(f"{folder}/quadq.so", *cls.shared())).quadq_run
            cls.addClassCleanup(kept.pop_all().close)
        cls.call.restype = Ran
        cls.call.argtypes = [ctypes.c_char_p, ctypes.c_size_t] * 4

    def ran(self, words, text, room, line=LINE_ROOM):
        """What came of a call with so much room for its output: its status and whole lengths, and both buffers."""
        said = "".join(f"{it}\n" for it in words).encode()
        out, err = ctypes.create_string_buffer(b"~" * (room + 1)), ctypes.create_string_buffer(b"~" * (line + 1))
        it = self.call(said, len(said), text, len(text), ctypes.cast(out, ctypes.c_char_p), room,
                       ctypes.cast(err, ctypes.c_char_p), line)
        return (it.status, it.written, it.said), out.raw[:room + 1], err.raw[:line + 1]

    def test_the_example_does_what_the_program_does(self):
        for file in EXAMPLES:
            text = file.read_bytes()
            it = subprocess.run([self.example], input=text, capture_output=True)
            self.assertEqual((it.returncode, it.stdout, it.stderr), by_process(HALF, text), file)
            for words in LINES:
                it = subprocess.run([self.example, *words], input=text, capture_output=True)
                self.assertEqual((it.returncode, it.stdout, it.stderr), by_process(words, text), (file, words))

    def test_an_output_larger_than_its_first_buffer_is_whole(self):
        it = subprocess.run([self.example, "refine", "--by", "9"], input=LETTER, capture_output=True)
        self.assertGreater(len(it.stdout), 1 << 17)
        self.assertEqual((it.returncode, it.stdout, it.stderr), by_process(["refine", "--by", "9"], LETTER))

    def test_a_small_buffer_has_the_front_and_nothing_behind_it_is_touched(self):
        status, whole, _ = by_process(["tidy"], LETTER)
        for room in (0, 1, 100, len(whole) - 1, len(whole), len(whole) + 9):
            told, out, _ = self.ran(["tidy"], LETTER, room)
            self.assertEqual(told, (status, len(whole), 0))
            self.assertEqual(out, whole[:room] + b"~" * (room + 1 - len(whole[:room])))

    def test_a_refusal_is_told_by_its_status_and_its_line(self):
        text = (ROOT / "examples/two_fans.obj").read_bytes()
        status, _, line = by_process(["tidy"], text)
        self.assertNotEqual(status, 0)
        for room in (0, 7, len(line), 99):
            told, out, err = self.ran(["tidy"], text, 5, room)
            self.assertEqual(told, (status, 0, len(line)))
            self.assertEqual((out, err), (b"~" * 6, line[:room] + b"~" * (room + 1 - len(line[:room]))))

    def test_the_last_word_may_lack_its_line_feed(self):
        _, whole, _ = by_process(["tidy"], LETTER)
        out = ctypes.create_string_buffer(len(whole))
        it = self.call(b"tidy", 4, LETTER, len(LETTER), ctypes.cast(out, ctypes.c_char_p), len(whole), b"", 0)
        self.assertEqual((it.status, out.raw), (0, whole))

    def test_threads_do_not_disturb_each_other(self):
        tasks = [(words, file.read_bytes()) for words in LINES for file in EXAMPLES] * 2
        with concurrent.futures.ThreadPoolExecutor(8) as pool:
            found = list(pool.map(lambda it: self.ran(*it, 1 << 21), tasks))
        for (words, text), (told, out, err) in zip(tasks, found):
            status, whole, line = by_process(words, text)
            self.assertEqual((told, out[:len(whole)], err[:len(line)]), ((status, len(whole), len(line)), whole, line))


class OverTheLibrary(OverTheProcess):
    """The same over the proved library."""

    @classmethod
    def linked(cls):
        return build_library.ARCHIVE

    @classmethod
    def shared(cls):
        return ["-shared", "-Wl,--whole-archive", cls.linked(), "-Wl,--no-whole-archive"]

    @classmethod
    def setUpClass(cls):
        if not build_library.is_current():
            raise unittest.SkipTest("build/libquadq.a is not of these sources: tools/build_library.py builds it")
        super().setUpClass()


class WithoutAProgram(unittest.TestCase):
    def test_a_program_that_is_not_there_is_told_by_the_status(self):
        if not shutil.which("cc"):
            self.skipTest("there is no C compiler here")
        with tempfile.TemporaryDirectory() as folder:
            files = [ROOT / "examples/remesh.c", ROOT / "examples/quadq_process.c"]
            example = compiled(f"{folder}/remesh", *files)
            it = subprocess.run([example], input=LETTER, capture_output=True, env={"QUADQ": f"{folder}/none"})
            self.assertEqual((it.returncode, it.stdout), (127, b""))


if __name__ == "__main__":
    unittest.main()
