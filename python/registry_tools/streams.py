"""The standard streams: what a tool writes to them, all of it, and what it says where that cannot be."""
import contextlib
import io
import os
import sys
from typing import Any, TextIO, cast


# How the commands of a checkout are called in what is said, and in an installation.
names = {"./day": "./day"}


def in_help(text: str) -> str:
    """A help, which is written for a checkout, by the name under which the command was started."""
    return text if names["./day"] == "./day" else text.replace("./day", names["./day"])


class Quiet:
    """Standard error, to whom it matters not whether somebody takes what is said: the answer and the exit status are
    the same."""

    def __init__(self, stream: TextIO) -> None:
        self.stream = stream

    def write(self, text: str) -> int:
        """Writes, and passes over a stream that takes nothing."""
        with contextlib.suppress(OSError, ValueError):
            self.stream.write(text)
            self.stream.flush()
        return len(text)

    def flush(self) -> None:
        """Flushes, and passes over a stream that takes nothing."""
        with contextlib.suppress(OSError, ValueError):
            self.stream.flush()

    def __getattr__(self, name: str) -> Any:
        return getattr(self.stream, name)


def is_open(stream: TextIO | None) -> bool:
    """Whether a standard stream is open: Python has None in place of one that was closed when it began."""
    return stream is not None


def open_nothing() -> TextIO:
    """A stream that takes all and shows nothing, in place of standard error that is closed: else a file that is opened
    would come there."""
    nothing = os.open(os.devnull, os.O_WRONLY)
    while nothing < 2:
        nothing = os.dup(nothing)
    return open(nothing, "w")


def make_ready(name: str, failed: int) -> None:
    """Has both streams write UTF-8 and line feeds. Ends the tool of this name with the status `failed` if standard
    output is closed: a file that it opens would come in its place."""
    if name.endswith("-day"):
        names["./day"] = name
    errors = sys.stderr or open_nothing()
    sys.stderr = cast(TextIO, Quiet(errors))
    if not can_be_written(name):
        sys.exit(failed)
    for stream in (sys.stdout, errors):
        cast(io.TextIOWrapper, stream).reconfigure(encoding="utf-8", errors="surrogateescape", newline="\n")


def can_be_written(name: str) -> bool:
    """Whether standard output is open; says so if it is not."""
    if not is_open(sys.stdout):
        print(f"{name}: standard output cannot be written: it is closed", file=sys.stderr)
    return is_open(sys.stdout)


def let_go(stream: TextIO) -> None:
    """Gives up what a stream did not take: else the interpreter tries it again at its end, and ends with a status of
    its own."""
    os.dup2(os.open(os.devnull, os.O_WRONLY), stream.fileno())


def cannot_be_written(name: str, error: OSError) -> None:
    """Says that standard output cannot be written. Who closed it wants no more of it, and is told nothing."""
    let_go(sys.stdout)
    if not isinstance(error, BrokenPipeError):
        print(f"{name}: standard output cannot be written: {error.strerror}", file=sys.stderr)


def write(name: str, text: str, failed: int) -> int:
    """Writes a text, and answers the exit status of the tool of this name: 0, or `failed`."""
    if not can_be_written(name):
        return failed
    try:
        sys.stdout.write(text)
        sys.stdout.flush()
        return 0
    except OSError as error:
        cannot_be_written(name, error)
        return failed
