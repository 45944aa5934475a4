"""The words of a command that name files, and files that lie with whoever gives a command to a desk from elsewhere.

A parser says of each word what the command does with the file that it names. So whoever gives a command to a desk sends
what it reads, and takes what it writes, by these words alone; and the desk has the words in what it tells, and opens
none of them: `Elsewhere` takes their place.
"""
import errno
import os
from collections.abc import Callable
from pathlib import Path
from typing import Protocol


class FileWord(str):
    """A word that names a file or folder of whoever gives the command."""


class Source(FileWord):
    """A file that is read; `-` is standard input."""


class Target(FileWord):
    """A file that is written."""


class Grown(Source, Target):
    """A file that is written, with what it has if it is there already."""


class Program(FileWord):
    """A program that is run."""


class NewPlace(FileWord):
    """A folder that is made."""


class Caller(Protocol):
    """Whoever gives a command from elsewhere. Each call raises OSError if they are gone."""

    # Where the command may put what it makes before it is sent.
    aside: Path

    def write(self, path: str, content: bytes | Path) -> None:
        """Has a file written there, with this content or that of a file."""

    def write_folder(self, path: str, made: Path) -> None:
        """Has the files of a folder written there, under another name still, and waits until they are."""

    def keep_folder(self, path: str) -> None:
        """Gives such a folder its name."""


class Elsewhere(str):
    """What a word names, which lies elsewhere: what is read of it was sent with the words, and what is written to it is
    sent back. `content` raises OSError if it could not be read there."""

    def __new__(cls, word: str, _content: Callable[[], bytes], _caller: Caller) -> "Elsewhere":
        return super().__new__(cls, word)

    def __init__(self, _word: str, content: Callable[[], bytes], caller: Caller) -> None:
        super().__init__()
        self.content, self.caller = content, caller

    def there(self) -> bytes | None:
        """What it has; nothing, if it is not there. Raises OSError if it cannot be read."""
        try:
            return self.content()
        except FileNotFoundError:
            return None


class Bounds:
    """Whether this process works for somebody elsewhere: then it opens nothing but what lies in the folder of days, and
    what it makes itself. And whether it changes nothing, as a desk that only looks."""

    is_for_others = is_look = False


bounds = Bounds()


def must_be_here(path: str | Path) -> None:
    """Ends the command at a path that a word says, where the words are those of somebody elsewhere. Raises OSError."""
    if bounds.is_for_others:
        raise PermissionError(errno.EPERM, "it was not sent with the command", os.fspath(path))
