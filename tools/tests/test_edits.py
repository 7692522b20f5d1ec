"""What tools/edits records of must-fail edits, and when it takes an edit for one whose refusal is known."""

import os
import pathlib
import shutil
import subprocess
import sys
import tempfile
import unittest

ROOT = pathlib.Path(__file__).resolve().parents[2]
LOG = """rt: low proved
rt: must-fail low/first.edit: refused, as it must be: src/lib.rt:1:1: error
rt: must-fail low/second.edit: NOT REFUSED: the crate is still proved with this edit
rt: must-fail high/third.edit: refused, as it must be (only by a limit of the prover)
"""


def write(path, text):
    path.parent.mkdir(parents=True, exist_ok=True)
    path.write_text(text)


class Recorded(unittest.TestCase):
    def setUp(self):
        room = tempfile.TemporaryDirectory()
        self.addCleanup(room.cleanup)
        self.room = pathlib.Path(room.name)
        write(self.room / "tools/edits", (ROOT / "tools/edits").read_text())
        write(self.room / "crates.txt", "# Two crates\n\nlow: thiserror\nhigh: low\nalone:\n")
        write(self.room / "HANDLES", "Handles allowed: none.\n")
        for crate in ("low", "high", "alone"):
            for part in ("src/lib.rt", "specs/Lib.antt", "proofs/Lib.antt"):
                write(self.room / "crates" / crate / part, "a word\n")
        for edit in ("low/first", "low/second", "high/third"):
            crate, name = edit.split("/")
            write(self.room / f"crates/{crate}/must-fail/{name}.edit", "file: src/lib.rt\nold: a\nnew: the\n")
        self.kit("a kit")
        write(self.room / "log", LOG)

    def kit(self, name):
        rt = self.room / "bin/rt"
        write(rt, f"#!/bin/sh\necho {name}\n")
        rt.chmod(0o755)

    def edits(self, *words):
        path = f"{self.room / 'bin'}:{os.environ['PATH']}"
        return subprocess.run([sys.executable, self.room / "tools/edits", *words], capture_output=True, text=True,
                              check=True, env={**os.environ, "PATH": path}).stdout.split()

    def known(self, but=0):
        return [pathlib.Path(it).stem for it in self.edits("--recorded", str(but))]

    def test_what_was_refused_is_known_until_a_text_below_changes(self):
        self.assertEqual(self.known(), [])
        self.edits("--record", str(self.room / "log"))
        self.assertEqual(self.known(), ["third", "first"])
        write(self.room / "crates/alone/src/lib.rt", "other words\n")
        self.assertEqual(self.known(), ["third", "first"])
        write(self.room / "crates/high/proofs/Lib.antt", "other words\n")
        self.assertEqual(self.known(), ["first"])
        write(self.room / "crates/high/proofs/Lib.antt", "a word\n")
        write(self.room / "crates/low/specs/More.antt", "other words\n")
        self.assertEqual(self.known(), [])

    def test_the_edit_the_kit_and_the_handles_count(self):
        self.edits("--record", str(self.room / "log"))
        write(self.room / "crates/low/must-fail/first.edit", "file: src/lib.rt\nold: a\nnew: no\n")
        self.assertEqual(self.known(), ["third"])
        self.kit("another kit")
        self.assertEqual(self.known(), [])
        self.kit("a kit")
        write(self.room / "HANDLES", "Handles allowed: Net.\n")
        self.assertEqual(self.known(), [])

    def test_chance_chooses_some_that_are_tried_all_the_same(self):
        self.edits("--record", str(self.room / "log"))
        self.assertEqual(len(self.known(1)), 1)
        self.assertEqual(self.known(5), [])

    def test_a_later_record_keeps_what_holds_and_drops_what_does_not(self):
        self.edits("--record", str(self.room / "log"))
        shutil.rmtree(self.room / "crates/high/must-fail")
        write(self.room / "log", LOG.replace("second.edit: NOT REFUSED", "second.edit: refused, as it must be"))
        self.edits("--record", str(self.room / "log"))
        self.assertEqual(self.known(), ["first", "second"])
        names = [it.split()[0] for it in (self.room / "tools/refused_edits.txt").read_text().splitlines()]
        self.assertEqual(names, ["low/first.edit", "low/second.edit"])


if __name__ == "__main__":
    unittest.main()
