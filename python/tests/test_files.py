"""Files that are whole or as they were, and nothing beside what was named."""

import contextlib
import io
import os
import pathlib
import stat
import subprocess
import sys
import tempfile
import threading
import unittest

from quadq import Refusal
from quadq.__main__ import main
from quadq.files import remove_stale, write_whole, write_within

from .shapes import EXAMPLES

ROOT = pathlib.Path(__file__).resolve().parents[1]
CUBE, TWO_FANS = EXAMPLES / "cube.obj", EXAMPLES / "two_fans.obj"


class Room(unittest.TestCase):
    def setUp(self):
        room = tempfile.TemporaryDirectory()
        self.addCleanup(room.cleanup)
        self.room = pathlib.Path(room.name)

    def names(self):
        return sorted(os.listdir(self.room))

    def run_words(self, *words):
        out, err = io.StringIO(), io.StringIO()
        with contextlib.redirect_stdout(out), contextlib.redirect_stderr(err):
            status = main([str(it) for it in words])
        return status, out.getvalue(), err.getvalue()


class Files(Room):
    def test_modes_and_links_stay(self):
        path, link = self.room / "a", self.room / "link"
        write_whole(path, b"one")
        self.assertEqual(stat.S_IMODE(path.stat().st_mode), 0o666 & ~umask())
        path.chmod(0o640)
        link.symlink_to("a")
        write_whole(link, b"two")
        self.assertEqual((path.read_bytes(), link.is_symlink()), (b"two", True))
        self.assertEqual(stat.S_IMODE(path.stat().st_mode), 0o640)
        self.assertEqual(self.names(), ["a", "link"])

    def test_a_link_to_nothing_is_made_true(self):
        (self.room / "link").symlink_to("a")
        write_whole(self.room / "link", b"one")
        self.assertEqual(((self.room / "a").read_bytes(), self.names()), (b"one", ["a", "link"]))

    def test_pipes_and_devices_are_written_through(self):
        pipe = self.room / "pipe"
        os.mkfifo(pipe)
        got = []
        reader = threading.Thread(target=lambda: got.append(pipe.read_bytes()))
        reader.start()
        write_whole(pipe, b"one" * 100_000)
        reader.join()
        self.assertEqual((got, stat.S_ISFIFO(pipe.stat().st_mode)), ([b"one" * 100_000], True))
        before = os.stat("/dev/null")
        self.assertEqual(self.run_words(CUBE, "/dev/null", "--scale", "1", "--quiet")[0], 0)
        after = os.stat("/dev/null")
        self.assertEqual((before.st_mode, before.st_ino), (after.st_mode, after.st_ino))

    def test_a_full_disk_leaves_what_was_there(self):
        with self.assertRaises(Refusal) as caught:
            write_whole(pathlib.Path("/dev/full"), b"one")
        self.assertEqual(caught.exception.status, 13)
        out = self.room / "out.obj"
        out.write_text("old")
        limit = "import resource; resource.setrlimit(resource.RLIMIT_FSIZE, (8, 8)); " \
                "import signal; signal.signal(signal.SIGXFSZ, signal.SIG_IGN); " \
                "from quadq.files import write_whole, write_within; from pathlib import Path; import sys; "
        for call in ("write_whole(Path(sys.argv[1]), b'much too long')",
                     "write_within(Path(sys.argv[1]).parent, 'out.obj', b'much too long')"):
            self.assertNotEqual(run_python(limit + call, str(out)), 0)
            self.assertEqual((out.read_text(), self.names()), ("old", ["out.obj"]))

    def test_texts_that_are_kept_go_nowhere_else(self):
        outside, kept = self.room / "outside", self.room / "kept"
        outside.write_text("mine")
        kept.mkdir()
        (kept / "part-1.obj").symlink_to(outside)
        (kept / "part-7.remeshed.obj").write_text("of an earlier run")
        write_within(kept, "part-2.obj", b"two")
        self.assertEqual(self.run_words(CUBE, self.room / "o.obj", "--scale", "1", "--keep", kept)[0], 0)
        self.assertEqual(outside.read_text(), "mine")
        self.assertEqual(sorted(os.listdir(kept)), ["part-1.obj", "part-1.remeshed.obj"])

    def test_a_file_of_dots_keeps_its_texts_in_its_folder(self):
        source = self.room / "in"
        source.mkdir()
        (source / "...obj").write_bytes(CUBE.read_bytes())
        words = (source, "--out", self.room / "out", "--keep", self.room / "kept", "--scale", "1")
        self.assertEqual(self.run_words(*words)[0], 0)
        self.assertEqual(self.names(), ["in", "kept", "out"])
        self.assertEqual((os.listdir(self.room / "kept"), os.listdir(self.room / "out")), (["...obj"], ["...obj"]))

    def test_a_refused_file_leaves_no_output_of_an_earlier_run(self):
        out, page = self.room / "out.obj", self.room / "page.html"
        for source, status in ((TWO_FANS, 7), (self.room / "no.obj", 12)):
            out.write_text("old")
            page.write_text("old")
            self.assertEqual(self.run_words(source, out, "--scale", "1", "--report", page)[0], status)
            self.assertEqual(self.names(), ["page.html"] if status == 7 else [])
        own = self.room / "own.obj"
        own.write_bytes(TWO_FANS.read_bytes())
        self.assertEqual(self.run_words(own, own, "--scale", "1")[0], 7)
        self.assertEqual(own.read_bytes(), TWO_FANS.read_bytes())
        remove_stale(pathlib.Path("/dev/null"))
        self.assertTrue(pathlib.Path("/dev/null").exists())

    def test_a_page_of_a_refusal_behind_a_division(self):
        source, page = self.room / "in.obj", self.room / "page.html"
        source.write_text("v 0 0 0\nv 1 0 0\nv 1 1 0\nv 0 1 0\nv 2 0 0\nv 2 1 0\nv 1 2 0\n"
                          "f 1 2 3 4\nf 2 3 6 5\nf 4 3 7\n")
        status, _, said = self.run_words(
            source, self.room / "out.obj", "--scale", "1", "--subdivide", "--report", page)
        self.assertEqual((status, said.splitlines()[-1].split(". ")[0]), (7, "quadq-remesh: edge 2 3: faces 1 and 2"))
        self.assertEqual(page.read_text().count('src="data:image/png'), 2)

    def test_a_reader_that_has_gone(self):
        words = [sys.executable, "-m", "quadq", str(CUBE), str(self.room / "out.obj"), "--scale", "1"]
        inward, outward = os.pipe()
        os.close(inward)
        ran = subprocess.run(words, cwd=ROOT, stdout=outward, stderr=subprocess.PIPE, check=False)
        os.close(outward)
        self.assertEqual((ran.returncode, b"Traceback" in ran.stderr), (13, False))
        self.assertTrue((self.room / "out.obj").exists())

    def test_formats_by_their_names(self):
        for name, status in (("out.fbx", 2), ("no/out.obj", 13)):
            self.assertEqual(self.run_words(CUBE, self.room / name, "--scale", "1")[0], status)
        self.assertEqual(self.names(), [])


def umask() -> int:
    mask = os.umask(0)
    os.umask(mask)
    return mask


def run_python(text: str, *words: str) -> int:
    ran = subprocess.run([sys.executable, "-c", text, *words], cwd=ROOT, stderr=subprocess.DEVNULL, check=False)
    return ran.returncode


if __name__ == "__main__":
    unittest.main()
