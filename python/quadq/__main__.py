"""The command line: `python3 -m quadq IN.obj OUT.obj --scale 1/2`, or many files into a folder."""

from __future__ import annotations

import argparse
import contextlib
import os
import sys
import traceback
from pathlib import Path
from typing import Callable, Iterator, NamedTuple, Optional, Sequence

from .batch import Books, remesh_files
from .blocks_command import parser_of_blocks, write_asked
from .check_command import check_asked, parser_of_check
from .errors import WishError
from .features import KINDS
from .files import is_through, nothing_stale, refuse_closed, write_whole
from .formats import FORMS, refuse_format
from .inputs import file_named, folder_named, refuse_kept_clashes, refuse_overwriting
from .jobs import one_file
from .levels import level_files, path_of, shares_of
from .program import Program
from .progress import NAME, Progress
from .refusal import MEMORY, READ_FAULT, STRANGE, WRITE_FAULT, Refusal
from .report import refused_page, result_page
from .results import Report, Result
from .rows import Row, summary_of
from .running import refuse_time
from .settings import MODES, SYMMETRIES, Settings, as_length

from .stopping import Stopped, stopped_by_signals
from .streams import beside, close_output, in_a_line, open_streams
from .version import VERSION, version_lines

USAGE = 2


class Command(NamedTuple):
    """What the first word of a command line may name, if it is no file."""

    parser: Callable[[], argparse.ArgumentParser]
    done: Callable[[argparse.Namespace], int]


COMMANDS = {"blocks": Command(parser_of_blocks, write_asked), "check": Command(parser_of_check, check_asked)}


def parser_of_words() -> argparse.ArgumentParser:
    parser = argparse.ArgumentParser(
        prog=NAME, description="Remeshes quad meshes with the proved program quadq, and checks each part.",
        usage=f"{NAME} IN.obj OUT.obj (--faces N | --scale P/Q | --edge D | --size NAME | --within E | --lods ..) ..\n"
              f"       {NAME} FILES AND FOLDERS.. --out FOLDER (..) [..]")
    parser.add_argument("paths", nargs="+", metavar="FILE", help="IN and OUT; with --out files and folders")
    wish = parser.add_mutually_exclusive_group(required=True)
    wish.add_argument("--scale", metavar="P/Q", help="how long edges of patches are to be, of the old")
    wish.add_argument("--faces", type=int, metavar="N", help="how many faces the mesh is to have")
    wish.add_argument("--edge", metavar="D", help="how long edges are to be, in the unit of the file")
    wish.add_argument("--lods", metavar="P/Q,P/Q", help="a file for each part of the faces: OUT.lod1.obj and so on")
    wish.add_argument("--within", type=float, metavar="E",
                      help="how far the mesh may be from the old one, about, in the unit of the file")
    wish.add_argument("--size", metavar="NAME|FILE", help="how long edges are to be at each point: a field of the "
                      "points, a view of gmsh in .pos or .msh, or a file with a number for each point")
    parser.add_argument("--mode", default="shape", choices=MODES,
                        help="where faces go: where the surface bends, unless one scale for all is better; by one "
                        "scale for all; or so that edges are as long as each other")
    parser.add_argument("--even", dest="mode", action="store_const", const="even", help="the same as --mode even")
    parser.add_argument("--density", metavar="NAME|FILE", help="how many times denser faces are to be: a field of the "
                        "points, red, green or blue of their colours, or a file with a number for each point")
    parser.add_argument("--region", metavar="GROUP", help="remesh the faces of this group alone, as far as their rows "
                        "allow; --faces, --lods, --scale, --edge and --size are for these")
    parser.add_argument("--floor", default="auto", choices=["1", "2", "3", "auto"], help="the least length of an arc")
    parser.add_argument("--weight", default="plain", choices=["plain", "length"], help="how deviations count")
    stay = parser.add_argument_group("edges that stay lines of the new mesh")
    stay.add_argument("--sharp", type=float, metavar="DEGREES", help="where faces meet at more than this")
    for kind, meaning in KINDS.items():
        stay.add_argument(f"--{kind}", dest="keep_edges", action="append_const", const=kind, help=meaning)
    stay.add_argument("--no-corners", dest="corners", action="store_false",
                      help="leave out the edges that keep corners of the boundary and of these lines")
    stay.add_argument("--free-groups", action="store_true",
                      help="let go the borders of groups that the file has, as gmsh writes them, which else stay")
    parser.add_argument("--coarse", action="store_true", help="merge patches where they have a whole side in common")
    parser.add_argument("--subdivide", action="store_true", help="divide all faces into quads first")
    parser.add_argument("--mirror", choices=["x", "y", "z"], help="remesh the half above 0, and mirror it")
    parser.add_argument("--symmetry", choices=SYMMETRIES, help="whether a mesh that is its own mirror image about 0 "
                        "stays so, each half with what it carries; where faces go by shape it does if nothing is said")
    parser.add_argument("--round", action="store_true", help="put new points on a curved surface behind the old faces")
    parser.add_argument("--relax", type=int, default=0, metavar="N", help="move points so many times along the surface")
    parser.add_argument("--keep", metavar="FOLDER", help="keep the old and new text of each part there")
    parser.add_argument("--report", metavar="FILE.html",
                        help="a page with both meshes, to be turned; with --out a folder of pages with an index")
    parser.add_argument("--up", choices=["y", "z"], default="y", help="the axis that points upward in pictures")
    parser.add_argument("--carry", action="store_true", help="keep texture coordinates, normals, names and colours")
    parser.add_argument("--format", choices=[*FORMS], help="how .msh is written: gmsh22 is version 2.2, which is taken "
                        "if nothing is said, and gmsh version 4.1")
    parser.add_argument("--out", metavar="FOLDER", help="where the remeshed files go, by the same names")
    parser.add_argument("--table", metavar="FILE.csv", help="a table of all files")
    parser.add_argument("--log", metavar="FILE.jsonl", help="a line of JSON for each file as it ends")
    parser.add_argument("--resume", action="store_true", help="leave out what the log has of the same")
    parser.add_argument("--recursive", action="store_true", help="take the folders below folders, too")
    parser.add_argument("--pattern", metavar="'*.msh'", help="which files of folders are taken; else those in .obj")
    parser.add_argument("--timeout", type=float, metavar="SECONDS", help="how long a file may take")
    parser.add_argument("--jobs", type=int, default=0, metavar="N", help="how much at a time; 0: one a processor")
    parser.add_argument("--quiet", action="store_true", help="say only what is refused")
    parser.add_argument("--version", action=TellVersion, help="say which version this is, and which program it runs")
    return parser


class TellVersion(argparse.Action):
    """Says the version, and the program with its checksum, and ends."""

    def __init__(self, option_strings: Sequence[str], dest: str, help: Optional[str] = None) -> None:
        super().__init__(option_strings, argparse.SUPPRESS, nargs=0, help=help)

    def __call__(self, parser: argparse.ArgumentParser, *_: object) -> None:
        try:
            said = version_lines(Program().path)
        except OSError as error:
            print(f"{NAME} {VERSION}")
            parser.exit(USAGE, f"{NAME}: {error}\n")
        print(said)
        parser.exit()


def main(words: Optional[Sequence[str]] = None) -> int:
    """Does what the words of a command line ask, and returns the exit status."""
    open_streams()
    given = sys.argv[1:] if words is None else [*words]
    command = COMMANDS.get(given[0]) if given and not os.path.exists(given[0]) else None
    parser = parser_of_words() if command is None else command.parser()
    try:
        asked = _parsed(parser, given if command is None else given[1:])
        status, said = _ended(asked, command)
        if said:
            print(in_a_line(f"{parser.prog}: {said}"), file=sys.stderr)
        return status
    except OSError as error:
        # Files are read and written through `files`: this is what is said.
        close_output()
        if not isinstance(error, BrokenPipeError):
            with contextlib.suppress(OSError):
                where = error.filename or "standard output"
                print(in_a_line(f"{parser.prog}: write fault: {where}: {error.strerror}"), file=sys.stderr)
        return WRITE_FAULT


def _parsed(parser: argparse.ArgumentParser, words: Sequence[str]) -> argparse.Namespace:
    """What the words ask. What is said in place of that, such as the help, is said at once."""
    try:
        return parser.parse_args(words)
    finally:
        sys.stdout.flush()


def _ended(asked: argparse.Namespace, command: Optional[Command]) -> tuple[int, str]:
    """The exit status, and why it is not that of success, as far as that was not said."""
    try:
        if command is None:
            refuse_time(asked.timeout)
        with stopped_by_signals(None if command is not None or asked.out else asked.timeout):
            status = _done(asked) if command is None else command.done(asked)
            sys.stdout.flush()
            return status, ""
    except Stopped as stopped:
        return stopped.status, stopped.words
    except Refusal as said:
        return said.status, str(said)
    except MemoryError:
        return MEMORY, "out of memory"
    except (ValueError, FileNotFoundError) as error:
        return USAGE, str(error)
    except OSError:
        raise
    except Exception as error:
        last = traceback.extract_tb(error.__traceback__)[-1]
        place = f"{os.path.basename(last.filename)}, line {last.lineno}"
        return STRANGE, f"this package failed: {type(error).__name__}: {error} ({place}): please report this file"


def _done(asked: argparse.Namespace) -> int:
    _take_names(asked)
    program = Program()
    settings = settings_of(asked)
    refuse_missing(settings, program)
    if asked.out is None:
        if len(asked.paths) != 2:
            raise WishError("two files are needed, IN and OUT, or --out FOLDER")
        if asked.log or asked.resume or asked.table or asked.recursive or asked.pattern:
            raise WishError("--log, --resume, --table, --recursive and --pattern go with --out FOLDER")
        with beside([asked.paths[1], asked.report]):
            return _single(asked, settings, program)
    if asked.lods:
        raise WishError("--lods goes with two files, IN and OUT")
    if asked.report is not None and asked.report.suffix.lower() in (".html", ".htm"):
        raise WishError("with --out the reports are a page for each file: --report FOLDER")
    with beside([asked.log, asked.table]):
        return _batch(asked, settings, program)


def _take_names(asked: argparse.Namespace) -> None:
    """Puts paths where names stand. Raises a `WishError` for names of something else."""
    with_out = asked.out is not None
    kinds = {"out": folder_named, "keep": folder_named, "report": folder_named if with_out else file_named,
             "log": file_named, "table": file_named}
    for it, named in kinds.items():
        if getattr(asked, it) is not None:
            setattr(asked, it, named(getattr(asked, it)))
    asked.paths = [folder_named(it) if with_out else file_named(it) for it in asked.paths]


def settings_of(asked: argparse.Namespace) -> Settings:
    """What the words of a command line ask. Raises a `WishError` for what does not go together."""
    return Settings(
        scale=asked.scale, faces=asked.faces, share=None if asked.lods is None else shares_of(asked.lods)[0],
        edge=None if asked.edge is None else as_length(asked.edge), within=asked.within, mode=asked.mode,
        size=asked.size, density=asked.density, region=asked.region, floor=asked.floor, weight=asked.weight,
        sharp=asked.sharp, keep=tuple(asked.keep_edges or ()), corners=asked.corners, coarse=asked.coarse,
        subdivide=asked.subdivide, mirror=asked.mirror, symmetry=asked.symmetry, round=asked.round, relax=asked.relax,
        jobs=asked.jobs, folder=asked.keep, carry=asked.carry, free_groups=asked.free_groups, form=asked.format)


def refuse_missing(settings: Settings, program: Program) -> None:
    """Raises a `WishError` for a command that the program does not have."""
    is_plain = settings.command == "remesh" and not (settings.carry or settings.round or program.has_fit())
    needed = {settings.command} if is_plain else {settings.command, "map"}
    for command in sorted(needed.difference(program.commands())):
        raise WishError(f"this needs the command `{command}`, which this program does not have")


def _single(asked: argparse.Namespace, settings: Settings, program: Program) -> int:
    source, out = asked.paths
    refuse_format(out, settings.form)
    pages = _refuse_clashes(asked, source, out, settings)
    progress = Progress(is_quiet=asked.quiet)
    told: list[tuple[Path, Report]] = []
    try:
        with nothing_stale(pages, source):
            for path, result in _results(asked, source, out, settings, program, progress):
                told.append((path, result.report))
                if pages:
                    progress.tell("drawing pictures", 0, 1)
                    write_whole(pages[0], result_page(source.name, result, program, asked.up).encode())
                    pages.pop(0)
    except Refusal as said:
        # Of files that cannot be read or written there is no page.
        if asked.report is not None and said.status not in (READ_FAULT, WRITE_FAULT):
            write_whole(asked.report, refused_page(source, said, asked.up).encode())
        raise
    finally:
        progress.end()
        for path, report in told:
            _say(path if asked.lods else None, report, asked.quiet)
    return 0


def _refuse_clashes(asked: argparse.Namespace, source: Path, out: Path, settings: Settings) -> list[Path]:
    """Refuses what would be written over something else, or in vain; a file may be replaced by its remesh. Returns
    where pages go."""
    levels = range(1, len(shares_of(asked.lods)) + 1) if asked.lods else range(0)
    through = [it for it in (out, asked.report) if it is not None and is_through(it)]
    if levels and through:
        raise WishError(f"levels of detail are files beside each other, and {through[0]} is none")
    outs = [path_of(out, it) for it in levels] or [out]
    pages = [] if asked.report is None else [path_of(asked.report, it) for it in levels] or [asked.report]
    is_in_place = outs == [out] and os.path.realpath(out) == os.path.realpath(source)
    read = [*([] if is_in_place else [source]), *settings.files]
    refuse_overwriting(read, [*(("OUT", it) for it in outs), *(("--report", it) for it in pages)])
    if settings.folder is not None:
        refuse_kept_clashes([settings.folder], [source, *settings.files, *outs, *pages])
    for it in (*outs, *pages):
        refuse_closed(it)
    return pages


def _results(
    asked: argparse.Namespace, source: Path, out: Path, settings: Settings, program: Program, progress: Progress
) -> Iterator[tuple[Path, Result]]:
    """The files that are written, each with its remesh."""
    if asked.lods:
        yield from level_files(source, out, shares_of(asked.lods), settings, program, progress.tell)
    else:
        yield out, one_file(source, out, settings, program, progress.tell)[0]


def _say(path: Optional[Path], report: Report, is_quiet: bool) -> None:
    """Prints what a remesh came to; of several with the name of its file."""
    if not is_quiet:
        if path is not None:
            print(in_a_line(str(path)))
        for label, value in report.facts():
            print(f"{label:<34}{value:>12}")
        for label, before, after in report.table():
            print(f"{label:<34}{before:>12}{after:>14}")
    for warning in report.warnings:
        print(in_a_line(f"{NAME}: warning: {warning}"), file=sys.stderr)


def _batch(asked: argparse.Namespace, settings: Settings, program: Program) -> int:
    told: list[Row] = []

    def say(it: Row) -> None:
        told.append(it)
        if not it.is_good:
            print(in_a_line(f"{NAME}: {it.source}: {it.words}"), file=sys.stderr, flush=True)
        elif not asked.quiet:
            print(in_a_line(f"{it.source}: {it.words}"), flush=True)
            for warning in it.warnings:
                words = in_a_line(f"{NAME}: {it.source}: warning: {warning['words']}")
                print(words, file=sys.stderr, flush=True)

    try:
        rows = remesh_files(
            asked.paths, asked.out, settings, program=program, timeout=asked.timeout, pattern=asked.pattern,
            recursive=asked.recursive, say=say,
            books=Books(asked.log, asked.table, asked.resume, asked.report, asked.up))
    except (Stopped, Refusal):
        print(f"{summary_of(told)}; not all were reached", flush=True)
        raise
    print(summary_of(rows))
    return 0 if all(it.is_good for it in rows) else 1


if __name__ == "__main__":
    sys.exit(main())
