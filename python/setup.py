"""Builds the package with the proved program, the scripts and the papers that it carries inside it.

Wheel and source archive are the same bytes whenever they are made of the same files by the same setuptools: their times
are SOURCE_DATE_EPOCH, or the first that a zip file can have.
"""

from __future__ import annotations

import gzip
import os
import pathlib
import shutil
import tarfile

from setuptools import Distribution, setup
from setuptools.command.build_py import build_py
from setuptools.command.sdist import sdist

try:
    from setuptools.command.bdist_wheel import bdist_wheel
except ImportError:
    from wheel.bdist_wheel import bdist_wheel

HERE = pathlib.Path(__file__).resolve().parent
CARRIED = HERE / "carried"
AROUND = CARRIED if CARRIED.is_dir() else HERE.parent
"""Where the files come from that the package carries: the folder beside this file in a source archive, else the
checkout."""
SCRIPTS = ("obj_text", "mark_features")
INSIDE = {
    "dist/quadq": "bin/quadq", **{it: it for it in ("VERSION", "THIRD_PARTY.md", "CHANGELOG.md")},
    **{f"tools/{it}.py": f"{it}.py" for it in SCRIPTS},
}
"""Each file that is carried, and where it stands in the package."""
PLATFORM = "manylinux_2_34_x86_64"
"""What the program needs: the GNU C library 2.34 or later, on x86-64 Linux."""
EPOCH = "315532800"
"""The beginning of 1980."""


def copy_in(source: pathlib.Path, target: pathlib.Path) -> None:
    """Copies a file with its bytes and its right to be run, and no more."""
    if not source.is_file():
        raise SystemExit(f"setup.py: {source} is not there")
    target.parent.mkdir(parents=True, exist_ok=True)
    shutil.copyfile(source, target)
    target.chmod(0o755 if source.name == "quadq" else 0o644)


class OfPlatform(Distribution):
    """A package whose place is that of packages for one platform."""

    def has_ext_modules(self) -> bool:
        return True


class BuildWithProgram(build_py):
    """Puts what the package carries into it. What an earlier build has left is no part of it."""

    def run(self) -> None:
        if getattr(self, "editable_mode", False):
            super().run()
            return
        package = pathlib.Path(self.build_lib) / "quadq"
        shutil.rmtree(package, ignore_errors=True)
        super().run()
        for path in package.rglob("*"):
            path.chmod(0o755 if path.is_dir() else 0o644)
        for source, target in INSIDE.items():
            copy_in(AROUND / source, package / target)


class WheelOfPlatform(bdist_wheel):
    """A wheel for any Python 3 on the platform of the program."""

    def get_tag(self) -> tuple[str, str, str]:
        return "py3", "none", PLATFORM


class SourceArchive(sdist):
    """A source archive that installs from any place: it has what the package carries."""

    def make_release_tree(self, base_dir: str, files: list[str]) -> None:
        super().make_release_tree(base_dir, files)
        for source in INSIDE:
            copy_in(AROUND / source, pathlib.Path(base_dir, "carried", source))

    def make_archive(self, base_name: str, format: str, root_dir: str | None = None, base_dir: str | None = None,
                     owner: str | None = None, group: str | None = None) -> str:
        """Writes the archive with names in order, one time and no owner."""
        folder, name = pathlib.Path(base_dir or "."), f"{base_name}.tar.gz"
        with open(name, "wb") as raw, gzip.GzipFile("", "wb", 9, raw, int(os.environ["SOURCE_DATE_EPOCH"])) as packed:
            with tarfile.open(fileobj=packed, mode="w", format=tarfile.USTAR_FORMAT) as out:
                for path in sorted(it for it in folder.rglob("*") if it.is_file()):
                    out.add(path, filter=plain_entry)
        return name


def plain_entry(entry: tarfile.TarInfo) -> tarfile.TarInfo:
    entry.uid = entry.gid = 0
    entry.uname = entry.gname = ""
    entry.mtime = int(os.environ["SOURCE_DATE_EPOCH"])
    entry.mode = 0o755 if entry.mode & 0o100 else 0o644
    return entry


os.umask(0o022)
os.environ.setdefault("SOURCE_DATE_EPOCH", EPOCH)
setup(
    distclass=OfPlatform,
    version=(AROUND / "VERSION").read_text().strip(),
    packages=["quadq"],
    package_data={"quadq": ["py.typed", "page/*"]},
    cmdclass={"build_py": BuildWithProgram, "bdist_wheel": WheelOfPlatform, "sdist": SourceArchive},
)
