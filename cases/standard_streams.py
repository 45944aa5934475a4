"""Runs a program whose standard streams fail, are closed, or bring what they bring in another way."""
from __future__ import annotations

import contextlib
import os
import resource
import subprocess
from collections.abc import Callable, Iterable, Sequence
from pathlib import Path
from typing import IO

from harness import MOST_SECONDS, Answer, Word

# It takes no byte.
FULL = Path("/dev/full")


class Closed:
    """Stands for a stream that is closed."""


CLOSED = Closed()
# A text, a file or folder by its path, a descriptor, or a closed stream; and for outputs nothing, if they are wanted.
Input = bytes | Path | int | Closed
Output = Path | int | Closed | None


def answer_on(
    command: Sequence[Word],
    stdin: Input,
    stdout: Output = None,
    stderr: Output = None,
    room: Callable[[], None] | None = None,
) -> Answer:
    """What a command writes on these streams, and its status. An output that goes elsewhere is empty."""
    closed = [number for number, stream in enumerate((stdin, stdout, stderr)) if isinstance(stream, Closed)]

    def prepare() -> None:
        for number in closed:
            os.close(number)
        if room:
            room()

    with contextlib.ExitStack() as files:

        def opened(stream: Input | Output, mode: int) -> int:
            if isinstance(stream, Path):
                file = os.open(stream, mode)
                files.callback(os.close, file)
                return file
            if isinstance(stream, int):
                return stream
            # (a closed stream is closed by the process itself)
            return subprocess.DEVNULL if isinstance(stream, Closed) else subprocess.PIPE

        run = subprocess.run(
            command,
            stdin=None if isinstance(stdin, bytes) else opened(stdin, os.O_RDONLY),
            input=stdin if isinstance(stdin, bytes) else None,
            stdout=opened(stdout, os.O_WRONLY),
            stderr=opened(stderr, os.O_WRONLY),
            # (it must not be asked for where threads run)
            preexec_fn=prepare if closed or room else None,
            timeout=MOST_SECONDS,
            check=False,
        )
    return run.stdout or b"", run.stderr or b"", run.returncode


def fed(
    command: Sequence[Word], pieces: Iterable[bytes], stdout: IO[bytes], stderr: IO[bytes], *, flags: int = 0,
    room: Callable[[], None] | None = None,
) -> int:
    """Runs a command on a pipe into which these pieces are written one after another, and answers its status. What it
    writes goes to two files."""
    theirs, ours = os.pipe2(flags | os.O_CLOEXEC)
    with subprocess.Popen(command, stdin=theirs, stdout=stdout, stderr=stderr, preexec_fn=room) as run:
        os.close(theirs)
        with contextlib.suppress(BrokenPipeError), open(ours, "wb", buffering=0) as pipe:
            for piece in pieces:
                pipe.write(piece)
        return run.wait(MOST_SECONDS)


def room_of(most_bytes: int, stack: int | None = None) -> Callable[[], None]:
    """What a process does first that is to have so much memory, and so much of it as the stack of each thread."""

    def limit() -> None:
        if stack is not None:
            resource.setrlimit(resource.RLIMIT_STACK, (stack, stack))
        resource.setrlimit(resource.RLIMIT_AS, (most_bytes, most_bytes))

    return limit


def differs_from(answer: Answer, stdout: bytes, stderr: bytes, status: int) -> str | None:
    """What is wrong with an answer that has to be this one."""
    wrong = []
    if answer[2] != status:
        wrong.append(f"{name_of_status(answer[2])}, not {status}")
    if answer[0] != stdout:
        wrong.append("other output")
    if answer[1] != stderr:
        wrong.append(f"standard error {answer[1][:200]!r}, not {stderr!r}")
    return ", ".join(wrong) or None


def name_of_status(status: int) -> str:
    return f"ended by signal {-status}" if status < 0 else f"status {status}"
