"""Writes files whole: what is written appears under its name only when all of it is there."""
import contextlib
import errno
import os
import re
import shutil
import stat
import sys
from pathlib import Path
from collections.abc import Iterator
from types import TracebackType

from registry_tools import opening, steps
from registry_tools.elsewhere import Elsewhere, must_be_here
from registry_tools.errors import FileFault, UnwrittenFault, of_file
from registry_tools.layout import must_not_be_of_folder
from registry_tools.notes import LOOK
from registry_tools.opening import LinkFault

# How the name of a file or folder ends that is being written: `.NAME.PROCESS` stands before it.
UNFINISHED = ".day-unfinished"
# What SQLite writes beside a database, by how its name ends.
BESIDE = ("-journal", "-wal", "-shm")
LEFT = re.compile(rf"\..*\.([0-9]{{1,9}}){re.escape(UNFINISHED)}({'|'.join(BESIDE)})?", re.DOTALL)
ANYBODY_WRITES = stat.S_IWUSR | stat.S_IWGRP | stat.S_IWOTH


def cannot(path: Path, error: OSError) -> FileFault:
    """The fault of a file that cannot be written."""
    return UnwrittenFault(path, 0, "", f"it cannot be written: {error.strerror}", "")


@contextlib.contextmanager
def writing(path: Path) -> Iterator[None]:
    """Has an error of the system in the block be the fault that this file cannot be written."""
    try:
        yield
    except OSError as error:
        raise cannot(path, error) from None


def write_all(file: int, content: bytes) -> None:
    """Writes all bytes to an open file. Raises OSError."""
    while content:
        content = content[os.write(file, content) :]


def must_be_writable(path: str | Path) -> None:
    """Ends the command if a file may not be written, before any work is done for it. (Of one elsewhere, that is known
    there.)"""
    if isinstance(path, Elsewhere):
        return
    must_be_here(path)
    must_be_no_link(path)
    must_not_be_of_folder(path)
    place = Path(path)
    if place.exists() and not place.is_file():
        raise of_file(path, f"it cannot be written: it is {'a folder' if place.is_dir() else 'no file'}")
    # (to the superuser each file is open, also one that nobody may write)
    if place.exists() and (not place.stat().st_mode & ANYBODY_WRITES or not os.access(place, os.W_OK)):
        raise of_file(path, "it may not be written")
    if not place.parent.is_dir():
        is_file = place.parent.exists() or not_a_folder(place.parent)
        why = "Not a directory" if is_file else f"there is no folder {place.parent}"
        raise of_file(path, f"it cannot be written: {why}")
    if not os.access(place.parent, os.W_OK | os.X_OK):
        raise of_file(path, "it cannot be written: its folder may not be written")


def must_be_no_link(path: str | Path) -> None:
    """Ends the command if a link has the name that an answer is to get: in a folder that others may write, somebody
    else chose where it leads. (The way to that folder may have links: whoever names it chooses them.)"""
    if Path(path).is_symlink():
        raise LinkFault(path)


def not_a_folder(path: Path) -> bool:
    """Whether a file stands where a folder has to be."""
    return any(parent.exists() and not parent.is_dir() for parent in path.parents)


def name_beside(name: str) -> str:
    """The name of what is written before it gets its own."""
    return f".{name}.{os.getpid()}{UNFINISHED}"


def remove_left(folder: Path) -> None:
    """Removes what commands left in a folder that were killed while they wrote there."""
    with contextlib.suppress(OSError):
        for path in [*folder.iterdir()]:
            left = LEFT.fullmatch(path.name)
            if left and not is_running(int(left[1])):
                if path.is_dir():
                    shutil.rmtree(path, ignore_errors=True)
                else:
                    path.unlink(missing_ok=True)


def is_running(process: int) -> bool:
    """Whether a process with this number is there."""
    try:
        os.kill(process, 0)
    except OverflowError:
        return False
    except OSError as error:
        return error.errno != errno.ESRCH
    return True


def keep_name(path: Path) -> None:
    """Has the name that a file or folder just got be kept, also if the machine stops. What was done is done: if the
    disk does not say so, that is told, and no fault."""
    try:
        folder = os.open(path.parent, opening.FOLDER)
        try:
            os.fsync(folder)
        finally:
            os.close(folder)
    except OSError as error:
        why = f"it is there, and the disk does not say that it stays if the machine stops now: {error.strerror}"
        print(f"{LOOK}: {path}: {why}", file=sys.stderr)


@contextlib.contextmanager
def made_aside(path: str | Path, mode: int = 0o666) -> Iterator[Path]:
    """A new file, which the block fills by its own ways, as SQLite does. It gets the name `path` behind the block, also
    if the machine stops then, if nothing goes wrong there; or it is sent. Raises FileFault if it can't be written."""
    if isinstance(path, Elsewhere):
        made = path.caller.aside / "made"
        yield made
        path.caller.write(path, made)
        return
    place = Path(path)
    beside = place.absolute().parent / name_beside(place.name)
    remove_left(beside.parent)
    try:
        with writing(place):
            os.close(opening.create(beside, mode))
        opening.must_have_locks(beside)
        yield beside
        with writing(place):
            steps.hold()
            os.replace(beside, place)
        keep_name(place)
    except BaseException:
        for end in ("", *BESIDE):
            with contextlib.suppress(OSError):
                os.unlink(f"{beside}{end}")
        raise


class NewFolder:
    """A folder that is not there yet, or empty. Its files are written aside, and get their names at the end of the
    block: with the folder, or if it is there already, also as `.`, in it."""

    def __init__(self, path: str | Path) -> None:
        must_be_no_link(path)
        self.path = Path(path)
        self.is_there = self.path.is_dir()
        name = name_beside(self.path.name or "new")
        self.beside = self.path / name if self.is_there else self.path.parent / name

    def __enter__(self) -> "NewFolder":
        opening.must_be_within(self.path)
        must_not_be_of_folder(self.path)
        remove_left(self.beside.parent)
        # (of a process that had the number of this one)
        shutil.rmtree(self.beside, ignore_errors=True)
        expected = "a folder that is not there yet, or is empty"
        if self.is_there and any(self.path.iterdir()):
            raise FileFault(self.path, 0, "", "a folder with files in it", expected)
        if self.path.exists() and not self.is_there:
            raise FileFault(self.path, 0, "", "a file", expected)
        if not self.path.parent.exists() and not not_a_folder(self.path.parent):
            raise of_file(self.path, f"it cannot be written: there is no folder {self.path.parent}")
        with writing(self.path):
            self.beside.mkdir()
        return self

    def make(self, name: str) -> None:
        """Makes a folder inside."""
        with writing(self.path / name):
            (self.beside / name).mkdir()

    def make_all(self, name: str) -> None:
        """Makes a folder inside, with those before it, as far as they lack."""
        with writing(self.path / name):
            (self.beside / name).mkdir(parents=True, exist_ok=True)

    def write(self, name: str, text: str) -> None:
        """Writes a file of the folder."""
        self.write_bytes(name, text.encode("utf-8", "surrogateescape"))

    def write_bytes(self, name: str, content: bytes) -> None:
        """Writes a file of the folder."""
        # (there may be 100,000 of them: no stream is made for each)
        with writing(self.path / name):
            file = opening.create(f"{self.beside}/{name}")
            try:
                write_all(file, content)
            finally:
                os.close(file)

    def __exit__(self, kind: type | None, _error: BaseException | None, _traceback: TracebackType | None) -> None:
        try:
            with writing(self.path):
                if kind is None:
                    self.keep()
        finally:
            shutil.rmtree(self.beside, ignore_errors=True)

    def have_all_there(self) -> None:
        """Has all that was written so far be where it goes, under another name still."""

    def keep(self) -> None:
        """Puts the folder in its place, or what is in it into a folder that is there. Raises OSError."""
        steps.hold()
        if not self.is_there:
            try:
                os.replace(self.beside, self.path)
            except OSError:
                steps.let_go()
                raise
            return
        kept = []
        try:
            for made in sorted(self.beside.iterdir()):
                os.rename(made, self.path / made.name)
                kept.append(made.name)
        except BaseException:
            for name in kept:
                os.rename(self.path / name, self.beside / name)
            steps.let_go()
            raise


class SentFolder(NewFolder):
    """A folder that is made elsewhere: its files are written aside here, and sent before it gets its name there."""

    def __init__(self, path: Elsewhere) -> None:
        super().__init__(path.caller.aside / "made")
        self.elsewhere, self.is_sent = path, False

    def have_all_there(self) -> None:
        """Sends all that was written. Raises OSError if that cannot be."""
        if not self.is_sent:
            self.elsewhere.caller.write_folder(self.elsewhere, self.beside)
            self.is_sent = True

    def keep(self) -> None:
        """Gives it its name there. Raises OSError."""
        self.have_all_there()
        self.elsewhere.caller.keep_folder(self.elsewhere)


def new_folder(path: str | Path) -> NewFolder:
    """A folder that is made at a path, or elsewhere."""
    return SentFolder(path) if isinstance(path, Elsewhere) else NewFolder(path)


class NewFile:
    """A file that is written beside its name, and gets its name by `keep`. If that is never called, nothing has
    changed. A file that was there before keeps its mode."""

    def __init__(self, path: str | Path, text: str | bytes) -> None:
        must_be_writable(path)
        self.path = Path(path)
        self.beside = self.path.parent / name_beside(self.path.name)
        remove_left(self.path.parent)
        try:
            self.write(text if isinstance(text, bytes) else text.encode("utf-8", "surrogateescape"))
        except BaseException as error:
            self.forget()
            if isinstance(error, OSError):
                raise cannot(self.path, error) from None
            raise

    def write(self, content: bytes) -> None:
        """Writes the file, as a new one: whoever may write there may have put a link under its name. Raises OSError."""
        file = opening.create(self.beside)
        try:
            if self.path.is_file() and not self.path.is_symlink():
                os.fchmod(file, stat.S_IMODE(self.path.stat().st_mode))
            write_all(file, content)
        finally:
            os.close(file)

    def keep(self) -> None:
        """Puts the file in its place. Raises FileFault if that cannot be done."""
        steps.hold()
        try:
            os.replace(self.beside, self.path)
        except OSError as error:
            steps.let_go()
            self.forget()
            raise cannot(self.path, error) from None

    def forget(self) -> None:
        """Takes the file away that was not kept."""
        with contextlib.suppress(OSError):
            self.beside.unlink()


class SentFile(NewFile):
    """A file that is written elsewhere."""

    def __init__(self, path: Elsewhere, text: str | bytes) -> None:
        self.elsewhere = path
        self.content = text if isinstance(text, bytes) else text.encode("utf-8", "surrogateescape")

    def keep(self) -> None:
        """Sends it. Raises OSError if that cannot be."""
        self.elsewhere.caller.write(self.elsewhere, self.content)

    def forget(self) -> None:
        """Does nothing: what was not sent is not there."""


def new_file(path: str, text: str | bytes) -> NewFile:
    """A file that is written at a path, or elsewhere."""
    return SentFile(path, text) if isinstance(path, Elsewhere) else NewFile(path, text)


def write_answer(text: str, to: str | None, *others: NewFile) -> None:
    """Writes what a command answers: to standard output, or whole to a file. The other files get their names if that
    could be written, and else stay as they were."""
    files = [*others]
    try:
        if to is None:
            sys.stdout.write(text)
            sys.stdout.flush()
        else:
            files.append(new_file(to, text))
        for file in files:
            file.keep()
    except BaseException:
        # (of a file that has its name already, nothing is left beside it)
        for file in files:
            file.forget()
        raise
