"""Files, read and written as wholes.

A file is written under no name first, or under another one where the folder knows no such files, and takes its name
when it is whole and on the disk: at any moment there is the old file or the new one, and nothing else. Links are
resolved, and the file that is replaced keeps its mode. What is no regular file, such as a device or a pipe, is written
through; what is open already, as `/dev/stdout`, is written where it stands.
"""

from __future__ import annotations

import contextlib
import errno
import hashlib
import os
import re
import stat
from io import FileIO
from pathlib import Path
from typing import Callable, Iterator, Optional, Sequence

from .refusal import LIMIT, READ_FAULT, WRITE_FAULT, Refusal

STREAMS = ("/dev/fd/", "/proc/")
"""What lies there is open already, and is written through even where it is a file."""
HELD = {"/dev/stdin": 0, "/dev/stdout": 1, "/dev/stderr": 2}
OWN = re.compile(r"/(?:dev|proc/self)/fd/(\d{1,9})")
"""What this process holds open, by its number."""
PIECE = 1 << 24
"""So many bytes are read at a time of what may have no end."""
NO_SUCH_FILES = (errno.EOPNOTSUPP, errno.EISDIR, errno.EINVAL, errno.ENOENT, errno.ENOSYS)
"""What a folder answers that knows no files without a name."""


def read_whole(path: Path, most: Optional[int] = None) -> bytes:
    """What stands in a file. Raises a `Refusal` where it cannot be read, and that of the program where it has more than
    so many bytes: a device may have no end."""
    try:
        with open(path, "rb", buffering=0) as file:
            found = os.fstat(file.fileno())
            if most is None or (stat.S_ISREG(found.st_mode) and found.st_size <= most):
                text = file.readall()
            elif stat.S_ISREG(found.st_mode):
                raise Refusal(LIMIT, "limit: bytes")
            else:
                text = b"".join(_pieces(file, most + 1))
    except OSError as error:
        raise Refusal(READ_FAULT, f"read fault: {path}: {error.strerror}") from error
    if most is not None and len(text) > most:
        raise Refusal(LIMIT, "limit: bytes")
    return text


def _pieces(file: FileIO, most: int) -> Iterator[bytes]:
    while most > 0 and (some := file.read(min(PIECE, most))):
        most -= len(some)
        yield some


def checksum_of(path: Path) -> str:
    """The SHA-256 of what stands in a file. Raises a `Refusal` where it cannot be read."""
    found = hashlib.sha256()
    try:
        with open(path, "rb", buffering=0) as file:
            while some := file.read(PIECE):
                found.update(some)
    except OSError as error:
        raise Refusal(READ_FAULT, f"read fault: {path}: {error.strerror}") from error
    return found.hexdigest()


def write_whole(path: Path, data: bytes, is_hasty: bool = False) -> None:
    """Writes a file so that there is never a part of it; in haste, without waiting for the disk. Raises a `Refusal`
    where it cannot be written; then all is as it was."""
    try:
        if is_through(path):
            _write_through(path, data)
        else:
            _replace(_behind_links(path), data, is_hasty)
    except OSError as error:
        raise Refusal(WRITE_FAULT, f"write fault: {path}: {error.strerror}") from error


def refuse_closed(path: Path) -> None:
    """Raises a `Refusal` where it is plain before the work that a file cannot be written there."""
    try:
        number = 0
        if path.is_dir():
            number = errno.EISDIR
        elif not is_through(path):
            folder = _behind_links(path).parent
            os.close(os.open(folder, os.O_RDONLY | os.O_DIRECTORY))
            if not os.access(folder, os.W_OK | os.X_OK):
                number = errno.EROFS if os.statvfs(folder).f_flag & os.ST_RDONLY else errno.EACCES
        if number:
            raise OSError(number, os.strerror(number))
    except OSError as error:
        raise Refusal(WRITE_FAULT, f"write fault: {path}: {error.strerror}") from error


def _behind_links(path: Path) -> Path:
    """The path of what is written, where a path may be a link. Raises an `OSError` where links lead in a circle."""
    place = os.path.realpath(path)
    if os.path.islink(place):
        raise OSError(errno.ELOOP, os.strerror(errno.ELOOP))
    return Path(place)


def make_folder(path: Path) -> None:
    """Makes a folder, with those around it, where it is not there. Raises a `Refusal` where that fails."""
    try:
        path.mkdir(parents=True, exist_ok=True)
    except OSError as error:
        raise Refusal(WRITE_FAULT, f"write fault: the folder {path}: {error.strerror}") from error


def write_within(folder: Path, name: str, data: bytes) -> None:
    """Writes a file of a folder. A link that has its name is replaced, and not followed."""
    try:
        folder.mkdir(parents=True, exist_ok=True)
        _replace(Path(os.path.realpath(folder)) / name, data)
    except OSError as error:
        raise Refusal(WRITE_FAULT, f"write fault: {folder / name}: {error.strerror}") from error


def remove_stale(path: Path, source: Optional[Path] = None) -> None:
    """Removes the file that an earlier run wrote, where this one writes none; but not the source itself, and nothing
    that is no regular file."""
    try:
        if is_through(path) or not os.path.exists(path) or (source is not None and is_same(path, source)):
            return
        Path(os.path.realpath(path)).unlink()
    except OSError as error:
        raise Refusal(WRITE_FAULT, f"write fault: {path} is of an earlier run: {error.strerror}") from error


@contextlib.contextmanager
def nothing_stale(paths: Sequence[Path], source: Path) -> Iterator[None]:
    """Where what is done within fails, no file of an earlier run is left at those of these paths that are there then.
    """
    try:
        yield
    except BaseException as error:
        for path in [*paths]:
            try:
                remove_stale(path, source)
            except Refusal as other:
                if isinstance(error, Refusal):
                    raise Refusal(error.status, f"{error.line} ({other.line})", error.faces, error.vertices) from other
                raise other from error
        raise


def is_same(one: Path, other: Path) -> bool:
    """Whether two paths lead to one file."""
    try:
        return os.path.samefile(one, other)
    except OSError:
        return os.path.realpath(one) == os.path.realpath(other)


def is_through(path: Path) -> bool:
    """Whether a path is written through: it leads to something that is no regular file, or is open already."""
    text = os.fspath(path)
    if text in HELD or text.startswith(STREAMS):
        return True
    try:
        return not stat.S_ISREG(os.stat(path).st_mode)
    except OSError:
        return False


def held_number(path: Path) -> Optional[int]:
    """By which number this process holds open what a path names, if the path says so."""
    text = os.fspath(path)
    found = OWN.fullmatch(text)
    return HELD[text] if text in HELD else int(found[1]) if found is not None else None


def _write_through(path: Path, data: bytes) -> None:
    number = held_number(path)
    if number is not None:
        # To open it again would begin at its first byte, and cut off what others have written.
        _write_all(number, data)
        return
    with open(path, "wb", buffering=0) as file:
        _write_all(file.fileno(), data)


def _replace(path: Path, data: bytes, is_hasty: bool = False) -> None:
    """Replaces a regular file, or a link, that has this name, or makes it."""
    mode = _mode_of(path)
    held = os.open(path.parent, os.O_RDONLY | os.O_DIRECTORY)
    try:
        try:
            file = os.open(path.parent, os.O_TMPFILE | os.O_WRONLY, 0o666)
        except OSError as error:
            if error.errno not in NO_SUCH_FILES or not path.parent.is_dir():
                raise
            _replace_by_name(path, data, mode)
        else:
            _fill(file, data, mode, is_hasty, lambda: _give_name(file, path, held))
        if not is_hasty:
            os.fsync(held)
    finally:
        os.close(held)


def _mode_of(path: Path) -> Optional[os.stat_result]:
    try:
        found = os.lstat(path)
    except FileNotFoundError:
        return None
    return found if stat.S_ISREG(found.st_mode) else None


def _fill(
    file: int, data: bytes, old: Optional[os.stat_result], is_hasty: bool, finish: Callable[[], None]
) -> None:
    """Writes all into an open file, with the mode and the owner of the old one, and finishes when it is on the disk, or
    at once where it is in haste."""
    try:
        _write_all(file, data)
        if old is not None:
            _keep_owner(file, old)
            os.fchmod(file, stat.S_IMODE(old.st_mode))
        if not is_hasty:
            os.fsync(file)
        finish()
    finally:
        os.close(file)


def _keep_owner(file: int, old: os.stat_result) -> None:
    now = os.fstat(file)
    if (now.st_uid, now.st_gid) != (old.st_uid, old.st_gid):
        try:
            os.fchown(file, old.st_uid, old.st_gid)
        except PermissionError:
            pass


def _write_all(file: int, data: bytes) -> None:
    view = memoryview(data)
    while view:
        view = view[os.write(file, view):]


def _give_name(file: int, path: Path, folder: int) -> None:
    """Gives a file without a name this one: at once where there is no such file, else by way of another name."""
    source = f"/proc/self/fd/{file}"
    try:
        # Only with a folder does Python follow the link.
        os.link(source, path, src_dir_fd=folder, follow_symlinks=True)
    except FileExistsError:
        other = _other_name(path)
        _unlink(other)
        os.link(source, other, src_dir_fd=folder, follow_symlinks=True)
        _rename(other, path)


def _replace_by_name(path: Path, data: bytes, old: Optional[os.stat_result]) -> None:
    other = _other_name(path)
    _unlink(other)
    file = os.open(other, os.O_CREAT | os.O_EXCL | os.O_WRONLY | os.O_NOFOLLOW, 0o666)
    try:
        _fill(file, data, old, False, lambda: None)
    except BaseException:
        _unlink(other)
        raise
    _rename(other, path)


def _other_name(path: Path) -> Path:
    """A name beside a file, of this process alone."""
    return path.parent / f".quadq-{os.getpid()}-{path.name[:100]}"


def _rename(other: Path, path: Path) -> None:
    try:
        os.replace(other, path)
    except BaseException:
        _unlink(other)
        raise


def _unlink(path: Path) -> None:
    try:
        path.unlink()
    except FileNotFoundError:
        pass
