"""Carries out a command of somebody who gives it at the socket of a desk: a process of its own, which has the
connection. The words come from there, with the files that they name; who it is has been told by the system.

No path of these words is opened here: what they name is `Elsewhere`. Nothing that is sent waits for whoever reads it,
so that nobody holds the folder by reading slowly.
"""
import contextlib
import errno
import functools
import io
import os
import queue
import shutil
import signal
import socket
import struct
import sys
import threading
from pathlib import Path
from typing import TYPE_CHECKING, BinaryIO, NamedTuple, TextIO, cast

from registry_tools import elsewhere, frames, opening, steps, streams, tables
from registry_tools.cli import main, placing
from registry_tools.door import log
from registry_tools.errors import WORDS, WordsFault
from registry_tools.frames import Broken
from registry_tools.progress import progress

if TYPE_CHECKING:
    from _typeshed import ReadableBuffer

# The words of a command have so many bytes at most, and its files in all.
MOST_WORDS, MOST_SENT = 1 << 20, 1 << 28
# So long a caller has to say them, in seconds.
MOST_SECONDS = 300
CALLED = ("./day", "registry-day")
INTERRUPTED = 130


class Job(NamedTuple):
    """Whose command it is, on which folder, and where it may put what it makes; and whether the desk changes nothing.
    """

    folder: str
    login: str
    aside: str
    is_look: bool


class Asked(NamedTuple):
    """The words of a command, with what each file has that they name, or why it could not be read."""

    words: list[str]
    files: dict[str, bytes | OSError]
    called: str
    is_terminal: bool
    shows_progress: bool


def begin(words: list[str]) -> int:
    """Carries out what somebody asks by the connection of this descriptor, for this folder and login, with this place
    for what is made. Answers the exit status."""
    number, folder, login, aside, is_look = words
    connection, job = socket.socket(fileno=int(number)), Job(folder, login, aside, is_look == "look")
    log.begin()
    # (whoever starts a desk behind & has its processes pass over Ctrl-C)
    for each in steps.SIGNALS:
        signal.signal(each, signal.default_int_handler)
    status = WORDS
    try:
        signal.alarm(MOST_SECONDS)
        frames.send(connection, frames.GO)
        stream = connection.makefile("rb")
        asked = read(stream)
        signal.alarm(0)
        status = carry_out(connection, stream, asked, job)
    except (Broken, WordsFault) as fault:
        log.refused(f"the login {login}", "a command", "", WORDS, str(fault))
        frames.refuse(connection, str(fault))
    finally:
        shutil.rmtree(aside, ignore_errors=True)
    return status


# What is asked.


def read(stream: BinaryIO) -> Asked:
    """What somebody asks. Raises Broken if it is nothing that a caller sends, and WordsFault if it is too much."""
    kind, content = frames.take(stream, MOST_WORDS)
    told = frames.heard(content)
    try:
        version, words, files = told["version"], [*map(str, told["words"])], told["files"]
        called, flags = str(told["called"]), (told["is_terminal"] is True, told["shows_progress"] is True)
        named = [(str(path), None if error is None else OSError(int(error[0]), str(error[1]))) for path, error in files]
    except (KeyError, TypeError, ValueError, IndexError):
        raise Broken("words that are none") from None
    if kind != frames.WORDS or called not in CALLED or not words:
        raise Broken("words that are none")
    if version != tables.VERSION:
        raise WordsFault(f"the desk is of version {tables.VERSION}, and the command of another one")
    got, left = dict[str, bytes | OSError](), MOST_SENT
    for path, error in named:
        got[path] = error or content_of(stream, path, left)
        left -= 0 if error else len(cast(bytes, got[path]))
    return Asked(words, got, called, *flags)


def content_of(stream: BinaryIO, path: str, most: int) -> bytes:
    """The content of a file that comes with the words. Raises Broken or WordsFault."""
    kind, length = frames.HEAD.unpack(frames.bytes_from(stream, frames.HEAD.size))
    if kind != frames.CONTENT:
        raise Broken("a file without its content")
    if length > most:
        raise WordsFault(f"{path}: the files of a command have at most {MOST_SENT:,} bytes in all at a desk")
    return frames.bytes_from(stream, length)


# What is answered.


class There:
    """Whoever gives the command: all that goes to them, and whether they are there still."""

    def __init__(self, connection: socket.socket, stream: BinaryIO, aside: Path) -> None:
        self.connection, self.stream, self.aside = connection, stream, aside
        # (behind the last frame stands nothing)
        self.queue: queue.SimpleQueue[bytes | Path | None] = queue.SimpleQueue()
        self.written, self.is_over, self.is_gone = threading.Event(), False, False
        # (a signal goes to the thread that does the work)
        self.worker = threading.get_ident()
        signal.pthread_sigmask(signal.SIG_BLOCK, steps.SIGNALS)
        self.threads = [threading.Thread(target=own_part, daemon=True) for own_part in (self.pass_on, self.listen)]
        for thread in self.threads:
            thread.start()
        signal.pthread_sigmask(signal.SIG_UNBLOCK, steps.SIGNALS)

    def pass_on(self) -> None:
        """Sends what waits, one after another."""
        while (kind := self.queue.get()) is not None:
            try:
                if isinstance(kind, Path):
                    kind = frames.frame(frames.CONTENT, kind.read_bytes())
                self.connection.sendall(kind)
            except OSError:
                self.end_early()
                return

    def listen(self) -> None:
        """Hears what comes: that a folder is written, or that it is enough."""
        try:
            while True:
                kind, _ = frames.take(self.stream, 0)
                if kind != frames.THERE:
                    break
                self.written.set()
        except Broken:
            self.is_gone = True
        self.end_early()

    def end_early(self) -> None:
        """Interrupts the command, as Ctrl-C does at a terminal."""
        self.written.set()
        if not self.is_over:
            signal.pthread_kill(self.worker, signal.SIGINT)

    def send(self, kind: bytes, content: bytes = b"") -> None:
        """Has a frame be sent. Raises OSError if nobody is there any more."""
        if self.is_gone:
            raise BrokenPipeError(errno.EPIPE, os.strerror(errno.EPIPE))
        self.queue.put(frames.frame(kind, content))

    def write(self, path: str, content: bytes | Path) -> None:
        """Has a file written there."""
        self.send(frames.FILE, frames.said(str(path)))
        if isinstance(content, Path):
            self.queue.put(content)
        else:
            self.send(frames.CONTENT, content)

    def write_folder(self, path: str, made: Path) -> None:
        """Has a folder written there, and waits until it is."""
        self.send(frames.FOLDER, frames.said(str(path)))
        for inside in sorted(made.rglob("*")):
            name = frames.said(str(inside.relative_to(made)))
            self.send(frames.ROOM if inside.is_dir() else frames.INSIDE, name)
            if not inside.is_dir():
                self.queue.put(inside)
        self.written.clear()
        self.send(frames.ALL)
        self.written.wait()

    def keep_folder(self, path: str) -> None:
        """Gives the folder its name."""
        self.send(frames.KEEP)

    def end(self, status: int) -> None:
        """Tells the status, and waits until all is sent."""
        self.queue.put(frames.frame(frames.STATUS, bytes([status])))
        self.queue.put(None)
        self.threads[0].join()


class Stream(io.RawIOBase):
    """A standard stream of a command, which goes to whoever gives it."""

    def __init__(self, caller: There, kind: bytes, is_terminal: bool = False) -> None:
        super().__init__()
        self.caller, self.kind, self.is_terminal = caller, kind, is_terminal

    def writable(self) -> bool:
        """That it may be written."""
        return True

    def isatty(self) -> bool:
        """Whether a terminal shows it."""
        return self.is_terminal

    def fileno(self) -> int:
        """A descriptor that leads nowhere: this process has no standard streams of its own."""
        return 0

    def write(self, content: "ReadableBuffer") -> int:
        """Sends what is written. Raises OSError."""
        part = bytes(content)
        self.caller.send(self.kind, part)
        return len(part)


def stream_of(caller: There, kind: bytes, is_terminal: bool = False) -> TextIO:
    """A standard stream of text."""
    raw = cast(BinaryIO, Stream(caller, kind, is_terminal))
    return io.TextIOWrapper(raw, "utf-8", "surrogateescape", "\n", write_through=True)


def carry_out(connection: socket.socket, stream: BinaryIO, asked: Asked, job: Job) -> int:
    """Carries a command out, and answers its status."""
    # (whoever waits for the end of a command says nothing)
    connection.setsockopt(socket.SOL_SOCKET, socket.SO_RCVTIMEO, struct.pack("ll", 0, 0))
    caller = There(connection, stream, Path(job.aside))
    streams.names["./day"] = asked.called
    sys.stdout = stream_of(caller, frames.OUT, asked.is_terminal)
    sys.stderr = cast(TextIO, streams.Quiet(stream_of(caller, frames.ERRORS)))
    progress.stream, progress.is_shown = sys.stderr, asked.shows_progress
    opening.guard(job.aside)
    elsewhere.bounds.is_for_others = True
    elsewhere.bounds.is_look = job.is_look
    name, *words = asked.words
    log.begun(name, job.login, f"the login {job.login}, by words")
    status = INTERRUPTED
    giver = placing.Giver(job.folder, job.login, asked.files, caller)
    with contextlib.suppress(KeyboardInterrupt):
        status = main.carry_out(name, functools.partial(placing.run, name, words, giver))
    caller.is_over = True
    log.told(f"./day {name} of {job.login} ended with status {status}")
    caller.end(status)
    return status


if __name__ == "__main__":
    sys.exit(begin(sys.argv[1:]))
