"""What is said: it is read, or it is an error, and it never stands in a mesh."""

import json
import os
import pathlib
import subprocess
import sys
import unittest

from quadq import read

from .shapes import written_by
from .test_files import CUBE, ROOT, TWO_FANS, Room

HEAD = f"#quadq 1 {written_by('remesh')} ".encode()


class Streams(Room):
    def run_in_shell(self, words: str, **more: str) -> subprocess.CompletedProcess:
        """Runs the command line with redirections, as a shell has them."""
        return subprocess.run(["sh", "-c", f"{sys.executable} -m quadq {words}"], cwd=self.room, capture_output=True,
                              check=False, env={**os.environ, "PYTHONPATH": str(ROOT), **more})

    def test_a_mesh_on_standard_output_has_no_figures_in_it(self):
        out = self.room / "out.obj"
        for name in ("/dev/stdout", "/dev/fd/1", "/proc/self/fd/1"):
            ran = self.run_in_shell(f"{CUBE} {name} --scale 1/2 >out.obj")
            self.assertEqual((ran.returncode, b"parts, each checked" in ran.stderr), (0, True), name)
            self.assertTrue(out.read_bytes().startswith(HEAD), name)
            self.assertTrue(out.read_bytes().endswith(b"#y 0 0\n"), name)
            self.assertEqual(read(out).face_count, 6)
        ran = self.run_in_shell(f"{CUBE} /dev/stdout --scale 1/2 | cat")
        self.assertEqual(ran.stdout, out.read_bytes())

    def test_what_stands_in_a_file_behind_standard_output_stays(self):
        (self.room / "out.obj").write_text("# mine\n")
        self.assertEqual(self.run_in_shell(f"{CUBE} /dev/stdout --scale 1/2 >>out.obj").returncode, 0)
        self.assertTrue((self.room / "out.obj").read_bytes().startswith(b"# mine\n" + HEAD))

    def test_a_log_on_standard_output_is_json_alone(self):
        ran = self.run_in_shell(f"{CUBE} --out out --scale 1/2 --log /dev/stdout")
        self.assertEqual([json.loads(it)["status"] for it in ran.stdout.splitlines()], [0])
        os.mkfifo(self.room / "pipe")
        ran = self.run_in_shell(f"{CUBE} --out out --scale 1/2 --quiet --log pipe & cat pipe; wait $!")
        self.assertEqual((json.loads(ran.stdout.splitlines()[0])["status"], ran.returncode), (0, 0))

    def test_streams_that_are_closed_or_full(self):
        for words, status, said in ((">&-", 0, b""), ("2>&-", 0, b""), ("<&- >&- 2>&-", 0, b""),
                                    (">/dev/full", 13, b"write fault: standard output: No space left"),
                                    ("2>/dev/full >&2", 13, b"")):
            ran = self.run_in_shell(f"{CUBE} out.obj --scale 1/2 {words}")
            self.assertEqual(ran.returncode, status, words)
            self.assertIn(said, ran.stderr)
            self.assertNotIn(b"Traceback", ran.stderr + ran.stdout)
            self.assertEqual(read(self.room / "out.obj").face_count, 6)
        for words, status in (("--help >/dev/full", 13), ("--version >/dev/full", 13), ("check --help >/dev/full", 13),
                              ("--help | head -c 1", 0), ("--help >&-", 0), ("2>/dev/full", 13)):
            ran = self.run_in_shell(words)
            self.assertEqual((ran.returncode, b"Traceback" in ran.stderr, b"ignored" in ran.stderr),
                             (status, False, False), words)
        ran = self.run_in_shell(f"{CUBE} /dev/stdout --scale 1/2 >&-")
        self.assertEqual((ran.returncode, b"write fault: /dev/stdout: Bad file descriptor" in ran.stderr), (13, True))

    def test_names_in_letters_that_a_stream_has_not(self):
        inward = self.room / "in"
        inward.mkdir()
        for name in ("ünï.obj".encode(), b"x\xffy.obj"):
            pathlib.Path(os.fsdecode(os.fsencode(inward) + b"/" + name)).write_bytes(CUBE.read_bytes())
        for letters in ("ascii", "utf-8:strict"):
            ran = self.run_in_shell("in --out out --scale 1/2", PYTHONIOENCODING=letters)
            self.assertEqual((ran.returncode, len(os.listdir(self.room / "out"))), (0, 2))

    def test_a_name_of_two_lines_is_said_in_one(self):
        inward = self.room / "in"
        inward.mkdir()
        for name, text in (("good\na.obj", CUBE), ("bad\x1b[2J\ra.obj", TWO_FANS)):
            (inward / name).write_bytes(text.read_bytes())
        ran = self.run_in_shell("in --out out --scale 1/2 --log log")
        self.assertTrue(ran.stdout.startswith(rb"in/good\na.obj: faces 6 -> 6"), ran.stdout)
        self.assertEqual(sorted(it[:35] for it in ran.stderr.splitlines()),
                         [rb"quadq-remesh: in/bad\x1b[2J\ra.obj:", rb"quadq-remesh: in/good\na.obj: warni"])
        self.assertEqual({json.loads(it)["input"] for it in (self.room / "log").read_text().splitlines()},
                         {"in/good\na.obj", "in/bad\x1b[2J\ra.obj"})
        ran = self.run_in_shell("check in")
        self.assertTrue(ran.stdout.startswith(rb"in/bad\x1b[2J\ra.obj:1: vertex 1: two fans"), ran.stdout)
        ran = self.run_in_shell("'in/no\nfile.obj' out.obj --scale 1/2")
        self.assertEqual((ran.returncode, ran.stderr.splitlines()),
                         (12, [rb"quadq-remesh: read fault: in/no\nfile.obj: No such file or directory"]))


if __name__ == "__main__":
    unittest.main()
