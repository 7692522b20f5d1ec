"""Nothing is written over what is read, over what is written besides, or in vain; and words that are none are refused.
"""

import os
import pathlib
import threading
import unittest
from unittest import mock

from quadq import Books, Program, Refusal, Settings, WishError, jobs, remesh, remesh_files, write
from quadq.files import read_whole
from quadq.logs import Log, read_log

from .shapes import grid, written_by
from .test_batch import HALF, BatchRoom
from .test_files import CUBE, TWO_FANS, Room


class OneFile(Room):
    def setUp(self):
        super().setUp()
        self.source, self.out = self.room / "in.obj", self.room / "out.obj"
        self.source.write_bytes(CUBE.read_bytes())

    def refused(self, *words):
        status, _, said = self.run_words(*words, "--scale", "1/2")
        self.assertEqual(self.source.read_bytes(), CUBE.read_bytes())
        return status, said.splitlines()[-1].partition(": ")[2]

    def test_what_is_read_stays(self):
        (self.room / "part-2.obj").write_bytes(CUBE.read_bytes())
        (self.room / "link.html").symlink_to("in.obj")
        for words, said in (
            ((self.source, self.out, "--report", self.source), "--report would be written over"),
            ((self.source, self.out, "--report", self.room / "link.html"), "--report would be written over"),
            ((self.source, self.out, "--report", self.out), "--report would be written over OUT"),
            ((self.source, self.source, "--report", self.source), "--report would be written over OUT"),
            ((self.room / "part-2.obj", self.out, "--keep", self.room), "the texts that --keep writes would take"),
            ((self.source, self.room / "part-1.obj", "--keep", self.room), "the texts that --keep writes would take"),
        ):
            status, told = self.refused(*words)
            self.assertEqual((status, told[:len(said)]), (2, said))
        self.assertEqual((self.room / "part-2.obj").read_bytes(), CUBE.read_bytes())
        numbers = self.room / "numbers.txt"
        numbers.write_text("1\n" * 8)
        status, _, said = self.run_words(self.source, numbers, "--size", numbers)
        self.assertEqual((status, numbers.read_text()), (2, "1\n" * 8), said)
        level = self.room / "a.lod1.obj"
        level.write_bytes(CUBE.read_bytes())
        self.assertEqual(self.run_words(level, self.room / "a.obj", "--lods", "1/2")[0], 2)
        self.assertEqual(self.run_words(self.source, "/dev/null", "--lods", "1/2")[0], 2)
        self.assertFalse(os.path.exists("/dev/null.lod1"))

    def test_a_file_may_be_replaced_by_its_remesh(self):
        self.assertEqual(self.run_words(self.source, self.source, "--scale", "1/2")[0], 0)
        self.assertTrue(self.source.read_bytes().startswith(f"#quadq 1 {written_by('remesh')} ".encode()))

    def test_where_nothing_can_be_written_is_known_before_the_work(self):
        (self.room / "circle.obj").symlink_to("circle.obj")
        with mock.patch("quadq.__main__.one_file", side_effect=AssertionError):
            for words, said in (((self.source, self.room / "no/out.obj"), "No such file"),
                                ((self.source, self.room), "Is a directory"),
                                ((self.source, self.room / "circle.obj"), "Too many levels"),
                                ((self.source, self.out, "--report", self.room / "no/page.html"), "No such file")):
                status, told = self.refused(*words)
                self.assertEqual((status, said in told), (13, True), told)
        self.assertTrue((self.room / "circle.obj").is_symlink())

    def test_whatever_fails_is_told_in_a_line_and_leaves_nothing_stale(self):
        for error, status in ((MemoryError(), 14), (OverflowError("too large"), 70), (WishError("no"), 2),
                              (Refusal(9, "search limit"), 9)):
            self.out.write_text("old")
            with mock.patch("quadq.jobs.run", side_effect=error):
                found, _, said = self.run_words(self.source, self.out, "--scale", "1/2")
            self.assertEqual((found, self.out.exists(), len(said.splitlines())), (status, False, 1))
        self.out.write_text("old")
        self.assertEqual(self.run_words(self.source, self.out, "--size", "nowhere")[0], 2)
        self.assertFalse(self.out.exists())

    def test_a_refusal_is_told_before_what_stays_of_an_earlier_run(self):
        self.out.write_text("old")
        with mock.patch("quadq.files.remove_stale", side_effect=Refusal(13, "it stays")):
            status, told = self.refused(TWO_FANS, self.out)
        self.assertEqual((status, told[:31]), (7, "vertex 1: two fans (it stays). "))

    def test_values_that_are_none(self):
        for words in (("--scale", "1/0"), ("--scale", "1e999999999"), ("--scale", "nan"), ("--scale", ""),
                      ("--edge", "nan"), ("--edge", "inf"), ("--edge", "1e99999999999999999999"), ("--within", "nan"),
                      ("--lods", "1/0"), ("--lods", "1e99999999"), ("--lods", ""), ("--lods", "1/2,,1/4"),
                      ("--faces", "0"),
                      ("--scale", "1", "--timeout", "-1"), ("--scale", "1", "--timeout", "0"),
                      ("--scale", "1", "--timeout", "inf"), ("--scale", "1", "--timeout", "nan"),
                      ("--scale", "1", "--sharp", "nan"), ("--scale", "1", "--relax", "-1")):
            status, _, said = self.run_words(self.source, self.out, *words)
            self.assertEqual((status, len(said.splitlines())), (2, 1), words)
        for seconds in (0.0, -1.0, float("nan"), float("inf")):
            with self.assertRaises(WishError):
                remesh(grid(2, 2), scale=1, timeout=seconds)
            with self.assertRaises(WishError):
                remesh_files(self.source, self.room / "out", HALF, timeout=seconds)

    def test_a_name_of_a_folder_is_none_of_a_file(self):
        for words in ((f"{self.source}/",), (f"{self.source}/.",), (f"{self.room}/new/",), ("",),
                      (self.out, "--report", f"{self.room}/page/"), (self.out, "--report", ""),
                      (self.out, "--keep", ""), ("--out", ""),
                      ("--out", self.room / "new", "--log", f"{self.room}/log/"),
                      ("--out", self.room / "new", "--table", f"{self.room}/table/")):
            self.assertEqual(self.refused(self.source, *words)[0], 2, words)
        for words in (("", self.out), (f"{self.source}/", self.out), ("", "--out", self.room / "new")):
            self.assertEqual(self.refused(*words)[0], 2, words)
        self.assertEqual(self.run_words("blocks", self.source, f"{self.room}/a.vtm/")[0], 2)
        self.assertEqual(self.run_words("check", "")[0], 2)
        with self.assertRaises(WishError):
            write(f"{self.room}/new/", grid(1, 1))
        self.assertEqual(self.names(), ["in.obj"])

    def test_a_device_without_an_end(self):
        with self.assertRaises(Refusal) as caught:
            read_whole(pathlib.Path("/dev/zero"), 1 << 20)
        self.assertEqual((caught.exception.status, caught.exception.line), (6, "limit: bytes"))
        large = self.room / "large.obj"
        with large.open("wb") as file:
            file.truncate((512 << 20) + 1)
        status, told = self.refused(large, self.out)
        self.assertEqual((status, told.partition(".")[0]), (6, "limit: bytes"))


class Many(BatchRoom):
    def test_books_that_are_something_else(self):
        source, log = self.inward / "a.obj", self.room / "log"
        for books in (Books(log=source), Books(table=source), Books(log, log), Books(log=self.out / "a.obj"),
                      Books(log=self.room, resume=True)):
            with self.assertRaises(WishError, msg=str(books)):
                remesh_files(self.inward, self.out, HALF, books=books)
        for folder in (source, "/dev/null"):
            with self.assertRaisesRegex(WishError, "into a folder"):
                remesh_files(self.inward, folder, HALF)
        (self.inward / "part-1.obj").write_bytes(CUBE.read_bytes())
        with self.assertRaises(WishError):
            remesh_files(self.room / "in/part-1.obj", self.out, Settings(scale="1/2", folder=self.room), books=Books(
                table=self.room / "part-1.obj/part-3.obj"))
        with self.assertRaises(Refusal) as caught:
            remesh_files(self.inward, self.out, HALF, books=Books(table=self.room / "no/table"))
        self.assertEqual((caught.exception.status, self.out.exists()), (13, False))
        self.assertEqual(source.read_bytes(), CUBE.read_bytes())

    def test_a_log_has_one_run_at_a_time(self):
        path = self.room / "log"
        remesh_files(self.inward, self.out, HALF, books=Books(path))
        before, held = path.read_bytes(), Log(path, is_new=False)
        for resume in (False, True):
            with self.assertRaisesRegex(Refusal, "another run"):
                remesh_files(self.inward, self.room / "other", HALF, books=Books(path, resume=resume))
        held.close()
        self.assertEqual((path.read_bytes(), (self.room / "other").exists()), (before, False))

    def test_lines_that_are_none_of_a_log(self):
        path = self.room / "log"
        remesh_files(self.inward / "a.obj", self.out, HALF, books=Books(path))
        line = path.read_bytes()
        strange = [b"[1]", b"{}", b"7", b"[" * 100_000, b"\xff", line.replace(b'"status": 0', b'"status": "x"'),
                   *(line.replace(b'"status": 0', b'"status": ' + it) for it in (b"0.9", b"1e400", b"false")),
                   *(line.replace(b'"faces_before": 6', b'"faces_before": ' + it) for it in (b'"x"', b"true", b"6.5")),
                   line.replace(b'"parts": 1', b'"parts": [1]'), line.replace(b'"seconds": ', b'"seconds": "0", "x": '),
                   line.replace(b'"warnings": [', b'"warnings": [{"words": 5}, '),
                   line.replace(b'"input": ', b'"input": [], "more": '),
                   line.replace(b'"warnings": [', b'"warnings": [7, '), line[:40]]
        self.assertEqual(len({*strange} - {line}), len(strange))
        path.write_bytes(b"\n".join(strange))
        self.assertEqual(read_log(path), {})

    def test_what_a_run_has_written_is_not_read_by_the_next(self):
        below = self.inward / "half"
        for _ in range(2):
            rows = remesh_files(self.inward, below, HALF, recursive=True)
            self.assertEqual(len(rows), 4)
        with self.assertRaises(WishError):
            remesh_files(self.inward, self.inward, HALF)

    def test_a_file_of_numbers_that_has_changed_is_another_setting(self):
        numbers, log = self.room / "numbers.txt", self.room / "log"
        wishes = Settings(size=str(numbers))
        for value, is_as_before in (("1", False), ("1", True), ("0.5", False)):
            numbers.write_text(f"{value}\n" * 8)
            (row,) = remesh_files(self.inward / "a.obj", self.out, wishes, books=Books(log, resume=True))
            self.assertEqual((row.status, row.is_as_before), (0, is_as_before))

    def test_texts_that_are_to_be_kept_are_not_taken_for_kept(self):
        log, kept = self.room / "log", self.room / "kept"
        for folder, is_as_before in ((None, False), (kept, False), (kept, True)):
            (row,) = remesh_files(self.inward / "a.obj", self.out, Settings(scale="1/2", folder=folder),
                                  books=Books(log, resume=True))
            self.assertEqual(row.is_as_before, is_as_before)
        self.assertEqual(sorted(os.listdir(kept / "a.obj")), ["part-1.obj", "part-1.remeshed.obj"])

    def test_a_file_that_changes_while_it_is_read(self):
        one_file = jobs.one_file

        def changed(source, *more):
            done = one_file(source, *more)
            source.write_bytes(TWO_FANS.read_bytes())
            return done

        self.out.mkdir()
        with mock.patch("quadq.jobs.one_file", changed):
            row = jobs.done(jobs.Job(self.inward / "a.obj", self.out / "a.obj", HALF, Program().path, ""))
        self.assertEqual((row.status, "was changed" in row.words, os.listdir(self.out)), (12, True, []))

    def test_processors_go_to_files_and_then_to_parts(self):
        given = []

        def rows(self, some, share):
            given.extend((many, share(some[0], many).settings.jobs) for many in (1, 2, 4))
            return ((it, it.row(0, "")) for it in some)

        with mock.patch("quadq.batch.Workers.rows", rows):
            remesh_files(self.inward, self.out, Settings(scale="1/2", jobs=4))
        self.assertEqual(given, [(1, 4), (2, 2), (4, 1)])

    def test_the_text_of_a_file_goes_through_the_program_once(self):
        with mock.patch.object(Program, "tidy", autospec=True, side_effect=Program.tidy) as tidy:
            self.assertEqual(self.run_words(CUBE, self.room / "out.obj", "--scale", "1/2")[0], 0)
        self.assertEqual(tidy.call_count, 1)

    def test_names_that_are_too_long(self):
        name = self.room / ("a" * 300 + ".obj")
        (row,) = remesh_files(name, self.out, HALF)
        self.assertEqual((row.status, "too long" in row.words), (12, True))
        long, table, pages = self.room / ("a" * 250 + ".obj"), self.room / "table", self.room / "pages"
        long.write_bytes(CUBE.read_bytes())
        rows = remesh_files([long, self.inward / "a.obj"], self.out, HALF, books=Books(None, table, report=pages))
        self.assertEqual([it.status for it in rows], [13, 0])
        self.assertEqual(rows[0].words, f"write fault: {pages / long.name}.html: File name too long")
        self.assertEqual((os.listdir(self.out), len(table.read_text().splitlines())), (["a.obj"], 3))
        self.assertEqual((pages / "index.html").read_text().count("<tr data-kind="), 2)

    def test_a_table_is_written_also_where_the_index_cannot_be(self):
        table = self.room / "table"
        with mock.patch("quadq.index.Index.close", side_effect=Refusal(13, "write fault: the index")):
            with self.assertRaises(Refusal):
                remesh_files(self.inward, self.out, HALF, books=Books(None, table, report=self.room / "pages"))
        self.assertEqual(len(table.read_text().splitlines()), 5)

    def test_names_of_files_that_are_checked(self):
        name = self.room / ("a" * 300 + ".obj")
        self.assertEqual(self.run_words("check", name, "--jobs", "-1")[0], 12)
        status, _, said = self.run_words("check", self.room / "*.off")
        self.assertEqual((status, said.partition(": ")[0]), (2, "quadq-check"))

    def test_files_of_numbers_that_are_none(self):
        for name, data in (("empty.npy", b""), ("cut.npy", b"\x93NUMPY\x01"), ("empty.txt", b""),
                           ("words.txt", b"1\nx\n"), ("few.txt", b"1\n2\n"), ("none.txt", b"nan\n" * 8)):
            (self.room / name).write_bytes(data)
            status, _, said = self.run_words(CUBE, self.room / "out.obj", "--size", self.room / name)
            self.assertEqual((status, len(said.splitlines())), (2, 1), name)

    def test_numbers_may_come_from_a_pipe_and_not_without_an_end(self):
        out, pipe = self.room / "out.obj", self.room / "pipe"
        os.mkfifo(pipe)
        threading.Thread(target=pipe.write_text, args=["0.5\n" * 8]).start()
        self.assertEqual(self.run_words(CUBE, out, "--size", pipe)[0], 0)
        with mock.patch("quadq.density.read_whole", side_effect=Refusal(6, "limit: bytes")) as asked:
            self.assertEqual(self.run_words(CUBE, out, "--size", "/dev/zero")[0], 6)
        self.assertEqual(asked.call_args.args, (pathlib.Path("/dev/zero"), 512 << 20))

    def test_a_pipe_of_another_format_is_no_file(self):
        os.mkfifo(self.room / "pipe.msh")
        for name in ("quadq-remesh", "quadq-check"):
            words = ["check"] if name == "quadq-check" else []
            more = [] if words else [str(self.room / "out.obj"), "--scale", "1"]
            status, out, said = self.run_words(*words, self.room / "pipe.msh", *more)
            self.assertEqual((status, "no regular file" in out + said), (12, True), name)


if __name__ == "__main__":
    unittest.main()
