"""Many files: each end is accounted for, and what was done is not done again."""

import contextlib
import csv
import errno
import json
import os
import pathlib
import signal
import subprocess
import sys
import time
import unittest
import warnings
from concurrent.futures import ThreadPoolExecutor
from unittest import mock

from quadq import Books, Program, Refusal, Settings, WishError, remesh_files
from quadq.inputs import inputs_of
from quadq.jobs import checksum
from quadq.logs import Log, read_log
from quadq.rows import Row
from quadq.workers import Worker

from .shapes import EXAMPLES
from .test_files import CUBE, TWO_FANS, Room

ROOT = pathlib.Path(__file__).resolve().parents[1]
HALF = Settings(scale="1/2", jobs=2)
STUBS = {
    "hangs": "exec sleep 600\n", "crashes": "kill -SEGV $$\n", "babbles": "head -c 3000 /dev/urandom; exit 0\n",
    "says no": "echo 'quadq: ' >&2; exit 99\n", "wants memory": "echo 'quadq: out of memory' >&2; exit 14\n",
}
"""Programs that are none, as scripts of the shell."""
PLAINLY = ["env", "setpriv", "--bounding-set=-dac_override,-dac_read_search", "--inh-caps=-all"]
"""Before a command of root: it has the rights of an owner alone."""


class BatchRoom(Room):
    """A folder of three good files and a bad one."""

    def setUp(self):
        super().setUp()
        self.inward, self.out = self.room / "in", self.room / "out"
        self.inward.mkdir()
        for name in ("a.obj", "a[1].obj", "a1.obj"):
            (self.inward / name).write_bytes(CUBE.read_bytes())
        (self.inward / "bad.obj").write_bytes(TWO_FANS.read_bytes())

    def stub(self, name: str) -> Program:
        """A program that does something else, but for the question what it can."""
        path = self.room / f"{name}.sh"
        path.write_text(f"#!/bin/sh\n{STUBS[name]}")
        path.chmod(0o755)
        return Program(path)

    def processes(self) -> list[int]:
        """Those that a run of this room has begun."""
        sign, found = f"ROOM={self.room}".encode(), []
        for it in pathlib.Path("/proc").iterdir():
            with contextlib.suppress(OSError):
                if it.name.isdigit() and sign in (it / "environ").read_bytes():
                    found.append(int(it.name))
        return found


class Batch(BatchRoom):
    def test_names_are_as_they_are(self):
        rows = remesh_files(self.inward / "a[1].obj", self.out, HALF)
        self.assertEqual([pathlib.Path(it.target).name for it in rows], ["a[1].obj"])
        self.assertEqual(os.listdir(self.out), ["a[1].obj"])

    def test_folders(self):
        below = self.inward / "below"
        below.mkdir()
        (below / "a.obj").write_bytes(CUBE.read_bytes())
        os.mkfifo(self.inward / "pipe.obj")
        self.assertEqual([it.path.name for it in inputs_of([self.inward])], ["a.obj", "a1.obj", "a[1].obj", "bad.obj"])
        self.assertEqual([it.path.name for it in inputs_of([self.inward], "a?.obj")], ["a1.obj"])
        rows = remesh_files(self.inward, self.out, HALF, recursive=True, pattern="a.obj")
        self.assertEqual([it.target for it in rows], [str(self.out / "a.obj"), str(self.out / "below/a.obj")])
        (row,) = remesh_files([self.inward / "pipe.obj"], self.out, HALF)
        self.assertEqual((row.status, "no regular file" in row.words), (12, True))
        with self.assertRaises(WishError):
            remesh_files([self.inward / "a.obj", below], self.out, HALF)

    def test_what_a_folder_has_and_what_cannot_be_read_is_a_row(self):
        (self.inward / "gone.obj").symlink_to("nowhere")
        (self.inward / "circle.obj").symlink_to("circle.obj")
        rows = {pathlib.Path(it.source).name: it.status for it in remesh_files(self.inward, self.out, HALF)}
        self.assertEqual((len(rows), rows["gone.obj"], rows["circle.obj"]), (6, 12, 12))

    @unittest.skipIf(os.getuid() == 0 and subprocess.run([*PLAINLY, "true"], capture_output=True).returncode != 0,
                     "root reads all, and cannot be kept from it here")
    def test_folders_that_cannot_be_read(self):
        below, plain = self.inward / "below", PLAINLY if os.getuid() == 0 else []
        below.mkdir()
        (below / "a.obj").write_bytes(CUBE.read_bytes())
        for mode, words, status, said in (
                (0o000, ("--out", self.out, "--scale", "1/2", "--recursive"), 2, "cannot be read: Permission denied"),
                (0o444, ("--out", self.out, "--scale", "1/2", "--recursive"), 1, "read fault"), (0o000, (), 2, "read")):
            below.chmod(mode)
            self.addCleanup(below.chmod, 0o755)
            command = [*plain, sys.executable, "-m", "quadq", *([] if words else ["check"]), self.inward, *words]
            ran = subprocess.run([str(it) for it in command], cwd=ROOT, capture_output=True, text=True, check=False)
            self.assertEqual((ran.returncode, said in ran.stderr), (status, True), ran.stderr)

    def test_log_and_table(self):
        log, table = self.room / "log.jsonl", self.room / "table.csv"
        rows = remesh_files(self.inward, self.out, HALF, books=Books(log, table))
        told = {it["input"]: it for it in map(json.loads, log.read_text().splitlines())}
        self.assertEqual(sorted(told), sorted(str(it) for it in self.inward.iterdir()))
        for row in rows:
            line = told[row.source]
            self.assertEqual((line["status"], line["input_sha256"]),
                             (7 if "bad" in row.source else 0, checksum(pathlib.Path(row.source).read_bytes())))
            if row.is_good:
                self.assertEqual(line["output_sha256"], checksum(pathlib.Path(row.target).read_bytes()))
        told = csv.DictReader(table.read_text().splitlines())
        self.assertEqual([it["status"] for it in told], ["0", "0", "0", "7"])

    def test_wishes_that_one_file_cannot_have(self):
        small = self.inward / "small.obj"
        small.write_text("".join(f"v {x}e-9 {y}e-9 0\n" for x, y in ((0, 0), (1, 0), (1, 1), (0, 1))) + "f 1 2 3 4\n")
        rows = remesh_files([CUBE, small], self.out, Settings(edge="0.5"))
        self.assertEqual([it.status for it in rows], [0, 2])
        rows = remesh_files([CUBE, self.inward / "a.obj"], self.out, Settings(edge="1e-7"))
        self.assertEqual([it.status for it in rows], [2, 2])
        self.assertEqual(os.listdir(self.out), [])

    def test_going_on(self):
        log = self.room / "log.jsonl"
        remesh_files(self.inward, self.out, HALF, books=Books(log))
        with log.open("ab") as file:
            file.write(b'{"input": "cut off')
        (self.out / "a1.obj").write_text("spoilt")
        (self.inward / "a.obj").write_bytes((EXAMPLES / "torus.obj").read_bytes())
        rows = remesh_files(self.inward, self.out, HALF, books=Books(log, resume=True))
        self.assertEqual([it.is_as_before for it in rows], [False, False, True, True])
        # What is done again is told so before it begins: were the run killed, no line of an earlier run would be false.
        told = [json.loads(it)["status"] for it in log.read_text().splitlines()]
        self.assertEqual((sorted(told[:4]), told[4:]), ([0, 0, 0, 7], [None, None, 0, 0]))
        log.write_text("".join(log.read_text().splitlines(True)[:6]))
        again = remesh_files(self.inward, self.out, HALF, books=Books(log, resume=True))
        self.assertEqual([it.is_as_before for it in again], [False, False, True, True])
        other = remesh_files(self.inward, self.out, Settings(scale="1/3"), books=Books(log, resume=True))
        self.assertFalse(any(it.is_as_before for it in other))
        with self.assertRaises(WishError):
            remesh_files(self.inward, self.out, HALF, books=Books(resume=True))

    def test_programs_that_are_none(self):
        for name, status in (("hangs", 124), ("crashes", 139), ("babbles", 70), ("says no", 99)):
            (self.out / "a.obj").parent.mkdir(exist_ok=True)
            (self.out / "a.obj").write_text("old")
            rows = remesh_files([self.inward / "a.obj", self.inward / "a1.obj"], self.out, HALF,
                                program=self.stub(name), timeout=10 if name != "hangs" else 2)
            self.assertEqual([it.status for it in rows], [status] * 2, name)
            self.assertEqual(os.listdir(self.out), [], name)

    def test_a_program_that_fails_once_decides_for_one_file(self):
        whole = remesh_files([self.inward / "a.obj"], self.room / "whole", HALF)[0].written
        for name, status in (("crashes", 139), ("wants memory", 14), ("babbles", 0)):
            once, program = self.room / f"{name} once", self.stub(name)
            program.path.write_text(f'#!/bin/sh\nif [ "$1" = fit ] && mkdir "{once}"; then\n{STUBS[name]}fi\n'
                                    f'exec {Program().path} "$@"\n')
            rows = [remesh_files([self.inward / "a.obj"], self.out, HALF, program=program)[0] for _ in range(2)]
            self.assertEqual([it.status for it in rows], [status, 0], name)
            self.assertEqual(rows[1].written, whole, name)

    def test_a_worker_that_is_killed_is_one_row(self):
        hangs = self.stub("hangs")
        hangs.path.write_text("#!/bin/sh\ncase $PPID in *) kill -KILL $PPID; sleep 9;; esac\n")
        rows = remesh_files([self.inward / "a.obj", self.inward / "a1.obj"], self.out, HALF, program=hangs)
        self.assertEqual([it.status for it in rows], [137, 137])

    def test_as_many_workers_as_the_system_lets_begin(self):
        begun, table = iter((Worker, None, None, Worker)), self.room / "table"

        def one() -> Worker:
            made = next(begun)
            if made is None:
                raise OSError(errno.EMFILE, os.strerror(errno.EMFILE))
            return made()

        with mock.patch("quadq.workers.Worker", side_effect=one):
            rows = remesh_files(self.inward, self.out, HALF)
            self.assertEqual([it.status for it in rows], [0, 0, 0, 7])
            with self.assertRaises(Refusal) as caught:
                remesh_files(self.inward, self.out, HALF, books=Books(None, table))
        self.assertEqual((caught.exception.status, str(caught.exception)),
                         (126, "no worker can be started: Too many open files"))
        self.assertEqual(len(table.read_text().splitlines()), 5)

    def test_want_of_memory_and_an_overflow_are_rows(self):
        log, table = self.room / "log.jsonl", self.room / "table.csv"
        for error, status in ((MemoryError(), 14), (OverflowError("too large"), 70)):
            self.out.mkdir(exist_ok=True)
            (self.out / "a.obj").write_text("old")
            with mock.patch("quadq.jobs.one_file", side_effect=error), ThreadPoolExecutor(1) as pool:
                rows = remesh_files(self.inward, self.out, HALF, books=Books(log, table), executor=pool)
            self.assertEqual([it.status for it in rows], [status] * 4)
            self.assertEqual([json.loads(it)["status"] for it in log.read_text().splitlines()], [status] * 4)
            self.assertEqual([it["status"] for it in csv.DictReader(table.read_text().splitlines())], [str(status)] * 4)
            self.assertEqual(os.listdir(self.out), [])

    def test_a_file_of_another_format_that_is_none_is_one_row(self):
        try:
            import meshio  # noqa: F401
        except ImportError:
            self.skipTest("meshio is not here")
        (self.inward / "broken.msh").write_text("$MeshFormat\nnonsense\n")
        (self.inward / "b.fbx").write_bytes(b"Kaydara FBX Binary")
        files = [self.inward / it for it in ("broken.msh", "a.obj", "b.fbx", "no.msh", "a1.obj")]
        self.assertEqual([it.status for it in remesh_files(files, self.out, HALF)], [3, 0, 3, 12, 0])

    def test_a_log_that_cannot_be_written(self):
        log = Log(self.room / "log", is_new=True)
        row = Row("a", "b", 0, "good")
        log.add(row)
        os.close(log.file)
        log.file = os.open(self.room / "log", os.O_RDONLY)
        with self.assertRaises(Exception):
            log.add(row)
        self.assertEqual(list(read_log(self.room / "log")), ["a"])

    def test_executors(self):
        with ThreadPoolExecutor(2) as pool:
            rows = remesh_files(self.inward, self.out, HALF, executor=pool)
        self.assertEqual([it.status for it in rows], [0, 0, 0, 7])

    def test_dask(self):
        try:
            from distributed import Client
        except ImportError:
            self.skipTest("Dask is not here")
        with warnings.catch_warnings():
            warnings.simplefilter("ignore")
            with Client(n_workers=1, threads_per_worker=1, processes=False, dashboard_address=None) as client:
                rows = remesh_files(self.inward, self.out, HALF, executor=client.get_executor())
        self.assertEqual([it.status for it in rows], [0, 0, 0, 7])

    def test_mpi(self):
        ran = subprocess.run([sys.executable, "-c", "import mpi4py.futures"], capture_output=True, check=False)
        if ran.returncode:
            self.skipTest("mpi4py is not here")
        text = (
            "import sys, quadq\nfrom mpi4py.futures import MPICommExecutor\nfrom mpi4py import MPI\n"
            "with MPICommExecutor(MPI.COMM_WORLD, root=0) as pool:\n"
            "    if pool is not None:\n"
            "        rows = quadq.remesh_files(sys.argv[1], sys.argv[2], quadq.Settings(scale='1/2'), executor=pool)\n"
            "        assert [it.status for it in rows] == [0, 0, 0, 7], rows\n")
        ran = subprocess.run([sys.executable, "-c", text, self.inward, self.out], cwd=ROOT, capture_output=True,
                             text=True, check=False, timeout=300,
                             env={**os.environ, "OMPI_ALLOW_RUN_AS_ROOT": "1", "OMPI_ALLOW_RUN_AS_ROOT_CONFIRM": "1"})
        self.assertEqual(ran.returncode, 0, ran.stderr)


# A stub does not answer the question for the commands.
BEGIN = """import sys
from quadq import __main__ as it
it.refuse_missing = lambda settings, program: None
sys.exit(it.main(sys.argv[1:]))
"""


class Ends(BatchRoom):
    """What ends the work from outside."""

    def begin(self, *words: object) -> subprocess.Popen:
        """A run over a program that hangs, when that is under way."""
        stub = self.stub("hangs")
        ran = subprocess.Popen(
            [sys.executable, "-c", BEGIN, *map(str, words), "--scale", "1/2", "--jobs", "2"], cwd=ROOT,
            stdout=subprocess.PIPE, stderr=subprocess.PIPE, text=True,
            env={**os.environ, "QUADQ": str(stub.path), "ROOM": str(self.room)})
        # The run, and a program; of a batch two workers besides, with a program each.
        while len(self.processes()) < (5 if "--out" in words else 2) and ran.poll() is None:
            time.sleep(0.05)
        return ran

    @staticmethod
    def end(ran: subprocess.Popen, number: signal.Signals) -> None:
        """Sends a signal, and waits for the end."""
        ran.send_signal(number)
        ran.communicate(timeout=60)

    def test_signals_end_a_batch_and_leave_nothing(self):
        log, table = self.room / "log", self.room / "table"
        for number, status in ((signal.SIGINT, 130), (signal.SIGTERM, 143), (signal.SIGHUP, 129), (signal.SIGKILL, -9)):
            ran = self.begin(self.inward, "--out", self.out, "--log", log, "--table", table)
            self.end(ran, number)
            self.assertEqual(ran.returncode, status)
            for _ in range(200):
                if not self.processes():
                    break
                time.sleep(0.05)
            self.assertEqual((self.processes(), self.out.exists()), ([], False), number)
            self.assertEqual(read_log(log), {})
            if number != signal.SIGKILL:
                rows = list(csv.DictReader(table.read_text().splitlines()))
                self.assertEqual([(it["status"], it["said"]) for it in rows], [("", "not reached")] * 4)

    def test_signals_end_one_file(self):
        out = self.room / "one.obj"
        for number, status in ((signal.SIGINT, 130), (signal.SIGTERM, 143)):
            out.write_text("old")
            ran = self.begin(CUBE, out)
            self.end(ran, number)
            self.assertEqual((ran.returncode, out.exists()), (status, False))
        ran = self.begin(CUBE, out, "--timeout", "1")
        ran.communicate(timeout=60)
        self.assertEqual(ran.returncode, 124)

    def test_an_interrupt_while_modules_are_loaded_has_no_traceback(self):
        # Over a program that hangs, since a batch with a bad file may else end by itself, with 1.
        hangs = {**os.environ, "QUADQ": str(self.stub("hangs").path), "ROOM": str(self.room)}
        for at in range(6):
            ran = subprocess.Popen(
                [sys.executable, "-m", "quadq", str(self.inward), "--out", str(self.out), "--scale", "1/2"],
                cwd=ROOT, stdout=subprocess.DEVNULL, stderr=subprocess.PIPE, text=True, env=hangs)
            modules = pathlib.Path(f"/proc/{ran.pid}/maps")
            while at and "multiarray" not in modules.read_text():
                time.sleep(0.002)
            time.sleep(0.02 * at)
            ran.send_signal(signal.SIGINT)
            said = ran.communicate(timeout=60)[1]
            if at:
                self.assertNotIn("Traceback", said)
            # Before any module of the package is loaded it is Python that ends, with 1 where it has not begun itself.
            self.assertIn(ran.returncode, (130, -signal.SIGINT) if at else (130, -signal.SIGINT, 1))

    def tearDown(self):
        # What a stub has begun is no part of what is tried.
        for it in self.processes():
            with contextlib.suppress(OSError):
                os.kill(it, signal.SIGKILL)


if __name__ == "__main__":
    unittest.main()
