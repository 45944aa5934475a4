"""Gives a command at the socket of a desk, which carries it out: the words and the files that they name are sent there,
and what it writes, prints and answers comes back. Files are read and written here, with the rights of whoever gives the
command, and no others than the words name.
"""
import argparse
import contextlib
import os
import signal
import socket
import sys
from collections.abc import Iterator
from pathlib import PurePosixPath
from types import FrameType
from typing import BinaryIO

from registry_tools import frames, streams, tables
from registry_tools.elsewhere import Grown, NewPlace, Source, Target
from registry_tools.errors import FILE, WordsFault, shown
from registry_tools.frames import Broken
from registry_tools.office import people
from registry_tools.cli.desks import Desk
from registry_tools.cli.options import words_of_files
from registry_tools.output import NewFile, NewFolder, must_be_writable
from registry_tools.progress import progress
from registry_tools.texts.rows import named_bytes

# Behind the path of a desk's socket, that at which commands are given.
COMMANDS = ".day"
# So many bytes may come at a time.
MOST_BYTES = 1 << 34
SIGNALS = (signal.SIGINT, signal.SIGTERM, signal.SIGHUP)


def ask(desk: Desk, name: str, arguments: list[str], words: argparse.Namespace) -> int:
    """Gives a command at a desk, and answers its status. Raises FileFault or WordsFault."""
    for file in words_of_files(words, Grown):
        must_be_writable(file)
    files = dict.fromkeys(words_of_files(words, Source))
    sent = [(str(file), read_here(file)) for file in files]
    told = {
        "version": tables.VERSION, "called": streams.names["./day"], "words": [name, *arguments],
        "is_terminal": sys.stdout.isatty() and not os.environ.get("NO_COLOR") and os.environ.get("TERM") != "dumb",
        "shows_progress": progress.is_shown,
        "files": [[file, None if isinstance(got, bytes) else [got.errno, got.strerror]] for file, got in sent],
    }  # fmt: skip
    try:
        with connected(desk) as connection, connection.makefile("rb") as stream:
            answers = Answers(connection, stream, words)
            first = frames.take(stream, MOST_BYTES)
            if first[0] == frames.GO:
                # (a desk that takes no more of it says why)
                with contextlib.suppress(Broken):
                    frames.send(connection, frames.WORDS, frames.said(told))
                    for content in (got for _, got in sent if isinstance(got, bytes)):
                        frames.send(connection, frames.CONTENT, content)
            else:
                answers.take(*first)
            with answers.heard():
                return answers.follow()
    except Broken as fault:
        left = f"the desk at {desk.path} told no end: {fault}. It may have done it: look before you give it again"
        print(left, file=sys.stderr)
        return FILE


def read_here(path: str) -> bytes | OSError:
    """What a file has, or why it cannot be read: whoever carries the command out tells it at its place."""
    try:
        return named_bytes(path)
    except OSError as error:
        return error


@contextlib.contextmanager
def connected(desk: Desk) -> Iterator[socket.socket]:
    """A connection to the socket of commands of a desk, for the block. Raises WordsFault, also if somebody else answers
    there than may."""
    with socket.socket(socket.AF_UNIX) as connection:
        try:
            connection.connect(f"{desk.path}{COMMANDS}")
        except (OSError, ValueError) as error:
            raise WordsFault(f"the desk at {desk.path}: nobody answers there: {shown(str(error))}") from None
        user = frames.user_at(connection)
        if desk.owner is not None and user not in (desk.owner, 0):
            raise WordsFault(f"the desk at {desk.path}: {people.login_of(user)} answers there, and not its owner")
        yield connection


class Answers:
    """What comes back of a command, as it comes."""

    def __init__(self, connection: socket.socket, stream: BinaryIO, words: argparse.Namespace) -> None:
        self.connection, self.stream = connection, stream
        self.may_write = {*words_of_files(words, Target), *words_of_files(words, NewPlace)}
        self.folder: NewFolder | None = None
        self.status: int | None = None
        self.is_stopped = False

    @contextlib.contextmanager
    def heard(self) -> Iterator[None]:
        """In the block, Ctrl-C is passed on: the command ends, and tells how. Given twice it ends this one."""
        try:
            before = {number: signal.signal(number, self.stop) for number in SIGNALS}
        except ValueError:
            # (not the first thread: others hear them)
            before = {}
        try:
            yield
        finally:
            for number, handler in before.items():
                signal.signal(number, handler)

    def stop(self, _number: int, _frame: FrameType | None) -> None:
        """Passes on that somebody interrupts the command."""
        if self.is_stopped:
            raise KeyboardInterrupt
        self.is_stopped = True
        with contextlib.suppress(OSError):
            frames.send(self.connection, frames.STOP)

    def follow(self) -> int:
        """Shows and writes what comes, and answers the status. Raises FileFault if a file cannot be written here."""
        try:
            while self.status is None:
                self.take(*frames.take(self.stream, MOST_BYTES))
            return self.status
        finally:
            if self.folder is not None:
                # (the command has ended without it)
                self.folder.__exit__(Broken, None, None)

    def take(self, kind: bytes, content: bytes) -> None:
        """Takes a frame."""
        if kind in (frames.OUT, frames.ERRORS):
            stream = sys.stdout if kind == frames.OUT else sys.stderr
            stream.write(content.decode("utf-8", "surrogateescape"))
            stream.flush()
        elif kind == frames.STATUS:
            self.status = int.from_bytes(content, "big") & 0xFF
        elif kind == frames.FILE:
            NewFile(self.let(content), self.content()).keep()
        elif kind == frames.FOLDER and self.folder is None:
            self.folder = NewFolder(self.let(content)).__enter__()
        elif self.folder is not None:
            self.take_of_folder(self.folder, kind, content)
        else:
            raise Broken("a frame that nobody awaits")

    def take_of_folder(self, made: NewFolder, kind: bytes, content: bytes) -> None:
        """Takes a frame of a folder that is made here."""
        if kind == frames.ROOM:
            made.make_all(inside(content))
        elif kind == frames.INSIDE:
            made.write_bytes(inside(content), self.content())
        elif kind == frames.ALL:
            frames.send(self.connection, frames.THERE)
        elif kind == frames.KEEP:
            self.folder = None
            made.__exit__(None, None, None)
        else:
            raise Broken("a frame that nobody awaits")

    def let(self, content: bytes) -> str:
        """The path that is to be written, if the words name it. Raises Broken."""
        path = str(frames.heard(content))
        if path not in self.may_write:
            raise Broken(f"it would write {shown(path)}, which the words do not name")
        return path

    def content(self) -> bytes:
        """The content of a file. Raises Broken."""
        kind, content = frames.take(self.stream, MOST_BYTES)
        if kind != frames.CONTENT:
            raise Broken("a file without its content")
        return content


def inside(content: bytes) -> str:
    """The name of something in a folder, if it leads to nowhere else. Raises Broken."""
    name = str(frames.heard(content))
    parts = PurePosixPath(name).parts
    if not parts or ".." in parts or parts[0].startswith("/") or "\0" in name:
        raise Broken(f"it would write {shown(name)} in a folder")
    return name
