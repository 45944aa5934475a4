"""Commands that are killed, end, fail or are interrupted at one of their calls that change files, and how a folder of
days stands then."""
from __future__ import annotations

import ctypes
import errno
import os
import shutil
import signal
import subprocess
import sys
import tempfile
import time
import traceback
from collections.abc import Callable
from pathlib import Path
from typing import NoReturn

from harness import TOP
from offices import FILE, fault_of_file, state_of

from registry_tools import main

KILLED, FELL = 137, 70
FAILURES = (errno.ENOSPC, errno.EROFS, errno.ENOMEM, errno.EIO)


# Interrupted commands.


class Interrupted:
    """Runs commands in processes of their own, which end, or fail, at a call that changes files, or are killed at a
    moment."""

    def __init__(self, library: str, work: Path) -> None:
        self.calls, self.work = ctypes.CDLL(library), work
        self.calls.interrupt_count.restype = ctypes.c_long

    def run(self, words: list[str], number: int = 0, error: int = 0) -> tuple[int, int, str]:
        """The status of a command, how many calls it made, and what it said."""
        told = self.work / "told"
        told.unlink(missing_ok=True)
        status = self.ended(self.begun(words, number, error))
        told_text = told.read_text() if told.exists() else ""
        return status, int(told_text or 0), self.says()

    def killed_after(self, words: list[str], seconds: float) -> tuple[int, str]:
        """The status of a command that is killed after this time, if it has not come to its end, and what it said."""
        child = self.begun(words, 0, 0)
        time.sleep(seconds)
        os.kill(child, signal.SIGKILL)
        return self.ended(child), self.says()

    def without_locks(self, words: list[str]) -> tuple[int, str]:
        """The status of a command on a disk that keeps no locks, and what it said."""
        self.calls.interrupt_locks(errno.ENOLCK)
        try:
            return self.ended(self.begun(words)), self.says()
        finally:
            self.calls.interrupt_locks(0)

    def begun(self, words: list[str], number: int = 0, error: int = 0) -> int:
        """The process in which a command runs."""
        child = os.fork()
        if child == 0:
            self.run_here(words, number, error)
        return child

    def ended(self, child: int) -> int:
        """The status of a process, once it has ended: that of one that was killed is KILLED."""
        status = os.waitstatus_to_exitcode(os.waitpid(child, 0)[1])
        return KILLED if status == -signal.SIGKILL else status

    def says(self) -> str:
        """What the last command said."""
        return (self.work / "says").read_text(errors="replace")

    def run_here(self, words: list[str], number: int, error: int) -> NoReturn:
        """Runs a command in this process, and ends it."""
        try:
            with open(self.work / "says", "w", encoding="utf-8") as stream:
                with open(self.work / "told", "wb", buffering=0) as count:
                    os.dup2(stream.fileno(), 1)
                    os.dup2(stream.fileno(), 2)
                    # (as the script that starts the commands does it; what runs behind a shell may ignore an interrupt)
                    for each in (signal.SIGINT, signal.SIGTERM):
                        signal.signal(each, signal.default_int_handler)
                    self.calls.interrupt_at(ctypes.c_long(number), error)
                    status = main.main(words)
                    sys.stdout.flush()
                    made = self.calls.interrupt_count()
                    self.calls.interrupt_at(ctypes.c_long(0), 0)
                    count.write(str(made).encode())
                    os._exit(status)
        except BaseException:
            # (what this process has of the other one is not its own)
            traceback.print_exc()
            sys.stderr.flush()
            os._exit(FELL)


def with_library(script: Path, run: Callable[[str], int]) -> int:
    """Runs a script behind the library that interrupts."""
    there = os.environ.get("INTERRUPT")
    if there:
        return run(there)
    with tempfile.TemporaryDirectory() as work:
        library = f"{work}/interrupt.so"
        made = ["cc", "-shared", "-fPIC", "-O1", "-o", library, str(TOP / "tools/interrupt.c"), "-ldl"]
        subprocess.run(made, check=True)
        more = {"INTERRUPT": library, "LD_PRELOAD": library}
        words = [sys.executable, str(script), *sys.argv[1:]]
        return subprocess.run(words, env={**os.environ, **more}, check=False).returncode


def restore(office: Path, kept: Path) -> None:
    shutil.rmtree(office, ignore_errors=True)
    if kept.exists():
        shutil.copytree(kept, office)


def interrupted_trial(
    runs: Interrupted,
    office: Path,
    words: list[str],
    number: int,
    error: int,
    states: tuple[object, object],
    done: int = 0,
) -> str | None:
    """A command that ends, or fails, at this call: its folder is in one of two states then, of which the next command
    says nothing; and the same command leads from the first to the second, with the status of one that is done."""
    begun, ended = states
    status, _, says = runs.run(words, number, error)
    if "Traceback" in says or status not in ((done, 3) if error else (KILLED,)):
        return f"status {status}: {says}"
    if begun is not None or (office / FILE).exists():
        looked, _, saw = runs.run(["status", "--office", str(office)])
        wrong = saw if looked else fault_of_file(office)
        if wrong:
            return f"behind it: {wrong}"
    now = state_of(office)
    if now not in (begun, ended):
        return f"neither as before nor as after: {says}"
    if status == done and now != ended:
        return f"said to be done, and is not: {says}"
    if status == 3 and now == ended != begun:
        return f"said not to be done, and is: {says}"
    if begun == ended or now != ended:
        status, _, says = runs.run(words)
        if status != done or state_of(office) != ended:
            return f"again: status {status}: {says}"
    return None
