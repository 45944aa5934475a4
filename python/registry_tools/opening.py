"""Opens what lies in a folder of days: the one way to it, on which no link is followed.

Whoever may write such a folder may put a link in the place of a file or folder in it: else what others then read, empty
or replace would be what it leads to, with their rights. So each name below a guarded folder is opened in the folder
before it, and refused by its path if it is a link, or no plain file. The way to the folder itself may have links:
whoever names the folder chooses them. Elsewhere files are opened as ever.
"""
import contextlib
import errno
import fcntl
import os
import stat
from collections.abc import Iterator
from pathlib import Path

from registry_tools.elsewhere import bounds, must_be_here
from registry_tools.errors import FileFault

FOLDER = os.O_RDONLY | os.O_DIRECTORY
# What the system says of a link where none is followed.
OF_LINKS = (errno.ELOOP, errno.ENOTDIR)
# The folders of days that this process works on, by each of their names.
guarded: dict[str, None] = {}


class LinkFault(FileFault):
    """Something in a folder of days is a link, or no plain file."""

    code, remedy = "link", "take it away, once it is known who put it there"

    def __init__(self, path: str | Path, found: str = "a link") -> None:
        super().__init__(path, 0, "", found, "a file or folder of its own", "look who put it there, and take it away")


def guard(folder: str | Path) -> None:
    """Has no link be followed below a folder, as long as this process runs."""
    guarded.update(dict.fromkeys((os.path.abspath(folder), os.path.realpath(folder))))


def below(path: str | Path) -> tuple[str, list[str]] | None:
    """The guarded folder in which a path lies, and the names from there; None, if it lies in none."""
    whole = os.path.abspath(path)
    root = next((top for top in guarded if whole.startswith(f"{top}/")), None)
    return None if root is None else (root, whole[len(root) + 1 :].split("/"))


def must_be_within(path: str | Path) -> None:
    """Ends a command of somebody elsewhere at a path in no guarded folder. Raises OSError."""
    if bounds.is_for_others and below(path) is None:
        must_be_here(path)


@contextlib.contextmanager
def at(path: str | Path) -> Iterator[tuple[int | None, str]]:
    """The folder in which a path lies, opened, and its name there; of a path in no guarded folder, None and the path.
    Raises OSError or LinkFault."""
    found = below(path)
    must_be_within(path)
    if found is None:
        yield None, os.fspath(path)
        return
    root, names = found
    folder = os.open(root, FOLDER)
    try:
        for place, name in enumerate(names[:-1], 1):
            inner = open_in(folder, name, FOLDER, os.path.join(root, *names[:place]))
            os.close(folder)
            folder = inner
        yield folder, names[-1]
    finally:
        os.close(folder)


def open_in(folder: int, name: str, flags: int, path: str | Path, mode: int = 0o666) -> int:
    """Opens what has this name in an open folder, if it is no link. Raises OSError or LinkFault."""
    try:
        return os.open(name, flags | os.O_NOFOLLOW | os.O_NONBLOCK, mode, dir_fd=folder)
    except OSError as error:
        if error.errno in OF_LINKS and is_link(folder, name):
            raise LinkFault(path) from None
        raise


def is_link(folder: int | None, name: str) -> bool:
    """Whether something is a link."""
    with contextlib.suppress(OSError):
        return stat.S_ISLNK(os.stat(name, dir_fd=folder, follow_symlinks=False).st_mode)
    return False


def open_file(path: str | Path, flags: int, mode: int = 0o666) -> int:
    """Opens a file or, with FOLDER, a folder. What is no plain file in a guarded folder is refused. Raises OSError or
    LinkFault."""
    with at(path) as (folder, name):
        if folder is None:
            return os.open(name, flags, mode)
        file = open_in(folder, name, flags, path, mode)
    about = os.fstat(file)
    if stat.S_ISREG(about.st_mode) or stat.S_ISDIR(about.st_mode):
        return file
    os.close(file)
    raise LinkFault(path, "no plain file")


def create(path: str | Path, mode: int = 0o666) -> int:
    """Opens a file that is made now, in place of what an interrupted command left under its name. Raises OSError or
    LinkFault."""
    flags = os.O_WRONLY | os.O_CREAT | os.O_EXCL | os.O_NOFOLLOW
    with at(path) as (folder, name):
        try:
            return os.open(name, flags, mode, dir_fd=folder)
        except FileExistsError:
            if folder is not None and is_link(folder, name):
                raise LinkFault(path) from None
            os.unlink(name, dir_fd=folder)
            return os.open(name, flags, mode, dir_fd=folder)


def read(path: str | Path) -> bytes:
    """The bytes of a file. Raises OSError or LinkFault."""
    file = open_file(path, os.O_RDONLY)
    try:
        if stat.S_ISDIR(os.fstat(file).st_mode):
            raise IsADirectoryError(errno.EISDIR, os.strerror(errno.EISDIR))
        with open(file, "rb", buffering=0, closefd=False) as stream:
            return stream.read()
    finally:
        os.close(file)


def listed(path: str | Path) -> list[str]:
    """The names in a folder. Raises OSError or LinkFault."""
    folder = open_file(path, FOLDER)
    try:
        return sorted(os.listdir(folder))
    finally:
        os.close(folder)


def must_have_locks(path: str | Path) -> None:
    """Ends the command if the disk on which a file lies keeps no locks. (SQLite would take that for another command
    that has the file locked, and wait.)"""
    file = open_file(path, os.O_RDONLY)
    try:
        with telling_of_locks(path), contextlib.suppress(BlockingIOError):
            fcntl.lockf(file, fcntl.LOCK_SH | fcntl.LOCK_NB)
    finally:
        os.close(file)


@contextlib.contextmanager
def telling_of_locks(path: str | Path) -> Iterator[None]:
    """Has an error of a lock in the block be told as that of a disk that keeps none; not that somebody else has it."""
    try:
        yield
    except BlockingIOError:
        raise
    except OSError as error:
        found = f"a disk that keeps no locks: {error.strerror}"
        raise FileFault(path, 0, "", found, "a local disk: without locks two commands would write at once") from None
