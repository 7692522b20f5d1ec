"""The command line `quadq-check FILES..`, or `python3 -m quadq check`: many files checked, for people, scripts and code
hosts."""

from __future__ import annotations

import argparse
import json
import sys
from typing import Any

from .checking import Checked, Fault, check, status_of
from .notices import counted
from .program import Program
from .sarif import sarif_of
from .streams import in_a_line

NAME = "quadq-check"


def parser_of_check() -> argparse.ArgumentParser:
    parser = argparse.ArgumentParser(
        prog=NAME, description="Checks whether quadq takes meshes: the first fault of each part of each file.",
        usage=f"{NAME} FILES, FOLDERS AND PATTERNS.. [..]")
    parser.add_argument("paths", nargs="+", metavar="FILE", help="files, folders and patterns such as 'parts/**/*.obj'")
    parser.add_argument("--pattern", metavar="'*.obj'", help="which files of folders are taken; else all known ones")
    form = parser.add_mutually_exclusive_group()
    form.add_argument("--json", action="store_true", help="write what is found as JSON")
    form.add_argument("--sarif", action="store_true", help="write what is found as SARIF 2.1.0, for code hosts")
    parser.add_argument("--jobs", type=int, default=0, metavar="N", help="how many files at a time; 0: one a processor")
    parser.add_argument("--quiet", action="store_true", help="say nothing of files that are taken")
    return parser


def check_asked(asked: argparse.Namespace) -> int:
    """Does what the words ask, and returns the exit status."""
    is_told = not (asked.json or asked.sarif)
    found = check(asked.paths, pattern=asked.pattern, jobs=asked.jobs, program=Program(),
                  say=_tell if is_told else lambda it: None)
    if asked.json:
        print(json.dumps(as_json(found), indent=1))
    elif asked.sarif:
        print(json.dumps(sarif_of(found), indent=1))
    elif not asked.quiet:
        wrong = sum(1 for it in found if it.faults)
        print(f"{counted(len(found), 'file')} checked, {wrong} with faults; {sum(it.faces for it in found)} faces in "
              "those without")
    sys.stdout.flush()
    return status_of(found)


def _tell(it: Checked) -> None:
    """Each fault in a line that editors and people can follow."""
    for fault in it.faults:
        print(in_a_line(in_words(it, fault)), flush=True)
    if it.more:
        print(in_a_line(f"{it.path}: and {it.more} more faults"), flush=True)


def in_words(it: Checked, fault: Fault) -> str:
    place, words = f"{it.path}", fault.words
    if fault.line is not None:
        place, words = f"{place}:{fault.line}", words.replace(f"line {fault.line}: ", "", 1)
    more = f", and {fault.count - 1} more of its part are no quads" if fault.count > 1 else ""
    part = f" ({fault.part})" if fault.part else ""
    return f"{place}: {words}{more}{part}. {fault.advice}".rstrip()


def as_json(found: list[Checked]) -> dict[str, Any]:
    """What is found, for scripts: lines, faces and vertices count from 1, as in the words."""
    return {"version": 1, "status": status_of(found), "files": [{
        "path": str(it.path), "status": it.status, "faces": it.faces, "more": it.more, "faults": [{
            "status": fault.status, "words": fault.words, "advice": fault.advice, "line": fault.line,
            "part": fault.part, "count": fault.count, "faces": [at + 1 for at in fault.faces],
            "vertices": [at + 1 for at in fault.vertices],
        } for fault in it.faults]} for it in found]}


def main() -> int:
    """The command `quadq-check`."""
    from .__main__ import main as run
    return run(["check", *sys.argv[1:]])
