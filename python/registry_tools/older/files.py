"""Reading the files of a folder of version 1.1."""
import os
import stat
from pathlib import Path

from registry_tools import opening
from registry_tools.errors import FileFault, of_file

OTHERS_WRITE = stat.S_IWGRP | stat.S_IWOTH


def bytes_in(path: Path) -> bytes:
    """The bytes of a file, as they lie there."""
    try:
        return opening.read(path)
    except OSError as error:
        raise of_file(path, f"it cannot be read: {error.strerror}") from None


def paths_in(path: Path) -> list[Path]:
    """What lies in a folder, by name."""
    try:
        return [path / name for name in opening.listed(path)]
    except OSError as error:
        raise of_file(path, f"it cannot be read: {error.strerror}") from None


def owned(path: Path) -> tuple[bytes, int]:
    """The bytes of a file that nobody but its owner may write, and the number of that user. Raises FileFault."""
    try:
        file = opening.open_file(path, os.O_RDONLY | os.O_NOFOLLOW)
        try:
            about = os.fstat(file)
            content = b""
            if stat.S_ISREG(about.st_mode):
                with open(file, "rb", closefd=False) as stream:
                    content = stream.read()
        finally:
            os.close(file)
    except OSError as error:
        raise of_file(path, f"it cannot be read: {error.strerror}") from None
    if not stat.S_ISREG(about.st_mode) or about.st_mode & OTHERS_WRITE:
        raise FileFault(path, 0, "", "a file that others may write", "one that its owner alone may write")
    return content, about.st_uid
