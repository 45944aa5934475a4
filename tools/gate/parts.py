"""Parts of a check: commands whose last line is 'N passed, M failed'. They run before all eyes, or side by side."""
from __future__ import annotations

import contextlib
import os
import re
import signal
import subprocess
import sys
import time
from collections.abc import Iterator, Mapping, Sequence
from dataclasses import dataclass, field
from pathlib import Path
from typing import IO, NoReturn

from gate import TOP

COUNT = re.compile(r"([0-9]+) passed, ([0-9]+) failed")
SECONDS_BETWEEN_LOOKS = 0.1
# Bounds that nothing comes to: of what ends by itself when it is asked, and of what is ended with all it started.
NEVER, FAR = float("inf"), 1e18
SIGNALS = (signal.SIGINT, signal.SIGTERM, signal.SIGHUP)
# The status of a part that took too long, as of `timeout`.
TOOK_TOO_LONG = 124
SECONDS_TO_END = 30
Word = str | Path


def say(line: str = "") -> None:
    print(line, flush=True)


def time_of(seconds: float) -> str:
    """A number of seconds, in minutes and seconds."""
    whole = int(seconds)
    return f"{whole} s" if whole < 60 else f"{whole // 60} min {whole % 60} s"


def processors() -> int:
    """How many processors there are for this check."""
    return len(os.sched_getaffinity(0))


def stop(processes: Sequence[subprocess.Popen[bytes]]) -> None:
    """Asks processes to end, and waits for them. When `rt` ends, all that it has started ends too."""
    for process in processes:
        process.terminate()
    for process in processes:
        process.wait()


def stop_groups(processes: Sequence[subprocess.Popen[bytes]]) -> None:
    """Ends processes and what each has started, and waits for them."""
    for process in processes:
        with contextlib.suppress(ProcessLookupError):
            os.killpg(process.pid, signal.SIGTERM)
    for process in processes:
        with contextlib.suppress(subprocess.TimeoutExpired):
            process.wait(SECONDS_TO_END)
        if process.poll() is None:
            with contextlib.suppress(ProcessLookupError):
                os.killpg(process.pid, signal.SIGKILL)
            process.wait()


@dataclass
class Side:
    """A part that runs beside others. Its output waits in a file."""

    name: str
    process: subprocess.Popen[bytes]
    output: Path
    begun: float
    # When it is ended, if it has not ended by then; never for one that waits for others.
    until: float = NEVER
    begun_at: float = field(default_factory=time.time)
    has_hung: bool = False

    @property
    def has_bound(self) -> bool:
        return self.until != NEVER

    def status(self) -> int | None:
        """How it ended, if it has."""
        if self.process.poll() is None and time.monotonic() > self.until:
            self.has_hung = True
            stop_groups([self.process])
        status = self.process.poll()
        if status is None:
            return None
        return TOOK_TOO_LONG if self.has_hung else status if status >= 0 else 128 - status


@dataclass
class Parts:
    """What runs and what has run, with what passed and failed of it."""

    work: Path
    most_minutes: float = field(default_factory=lambda: float(os.environ.get("MOST_MINUTES_OF_PART", "45")))
    seconds_between_words: float = field(default_factory=lambda: float(os.environ.get("SECONDS_BETWEEN_WORDS", "120")))
    most_at_once: int = field(default_factory=lambda: processors())
    passed: int = 0
    failed: int = 0
    begun: float = field(default_factory=time.monotonic)
    # The part that runs now before all eyes, if one does.
    shown: Side | None = None
    side: list[Side] = field(default_factory=list)
    # How long each part took.
    seconds: dict[str, float] = field(default_factory=dict)

    # Counts.

    def count_said(self, name: str, status: int, output: bytes) -> None:
        """Adds the counts of the last line that a part has printed. One that fails, or has no such line, counts as one
        failure at least."""
        last = output.rstrip(b"\n").rpartition(b"\n")[2].decode(errors="replace")
        found = COUNT.fullmatch(last)
        passed, failed = (int(found[1]), int(found[2])) if found else (0, 1)
        if not found:
            why = f": it took more than {self.most_minutes:g} minutes, and was ended" if status == TOOK_TOO_LONG else ""
            say(f"check: {name} ended without its count{why}")
        if status != 0 and failed == 0:
            say(f"check: {name} ended with status {status}")
            failed = 1
        self.passed += passed
        self.failed += failed

    def count(self, has_passed: bool) -> bool:
        """Counts one thing."""
        self.passed += has_passed
        self.failed += not has_passed
        return has_passed

    def took(self, name: str, seconds: float) -> None:
        self.seconds[name] = seconds
        say(f"check: {name} took {time_of(seconds)}")

    # Before all eyes.

    def run(self, name: str, *words: Word, folder: Path = TOP, environment: Mapping[str, str] | None = None) -> None:
        """Runs a part, shows what it prints as it comes, keeps it in the file `said`, and counts it."""
        said, begun = self.work / "said", time.monotonic()
        with open(said, "wb", buffering=0) as kept:
            with starting():
                process = subprocess.Popen(
                    words, cwd=folder, stdin=subprocess.DEVNULL, stdout=subprocess.PIPE, stderr=subprocess.STDOUT,
                    env={**os.environ, **(environment or {})}, start_new_session=True,
                )  # fmt: skip
                self.shown = Side(name, process, said, begun)
            show_as_it_comes(process, kept)
        self.shown = None
        self.count_said(name, process.returncode, said.read_bytes())
        self.took(name, time.monotonic() - begun)

    def quietly(self, *words: Word, folder: Path = TOP, said: Path | None = None,
                environment: Mapping[str, str] | None = None) -> int:
        """Runs a command, whose words go to a file, and answers its status."""
        with open(said or self.work / "said", "wb") as stream:
            with starting():
                process = subprocess.Popen(
                    words, cwd=folder, stdin=subprocess.DEVNULL, stdout=stream, stderr=subprocess.STDOUT,
                    env={**os.environ, **(environment or {})}, start_new_session=True,
                )  # fmt: skip
                self.shown = Side("", process, self.work / "said", time.monotonic())
            status = process.wait()
        self.shown = None
        return status

    def wait_for(self, process: subprocess.Popen[bytes], whole_group: bool = False) -> int:
        """Waits for a command that writes before all eyes, and answers its status. An interrupt ends it, or all that it
        has started."""
        self.shown = Side("", process, self.work / "said", time.monotonic(), FAR if whole_group else NEVER)
        status = process.wait()
        self.shown = None
        return status

    # Side by side.

    def begin(self, name: str, *words: Word, has_bound: bool = True) -> None:
        """Starts a part beside the others, once a processor is free. One that takes longer than its bound is ended."""
        while len(self.running()) >= self.most_at_once:
            time.sleep(SECONDS_BETWEEN_LOOKS)
        output = self.work / f"part.{len(self.side)}"
        begun = time.monotonic()
        until = begun + 60 * self.most_minutes if has_bound else NEVER
        with starting(), open(output, "wb") as stream:
            process = subprocess.Popen(
                words, cwd=TOP, stdin=subprocess.DEVNULL, stdout=stream, stderr=subprocess.STDOUT,
                start_new_session=True,
            )  # fmt: skip
            self.side.append(Side(name, process, output, begun, until))

    def running(self) -> list[Side]:
        return [part for part in self.side if part.status() is None]

    def finish(self) -> None:
        """Waits for the parts that were started, and shows and counts each, in the order in which they were."""
        said = time.monotonic()
        for part in self.side:
            while (status := part.status()) is None:
                time.sleep(SECONDS_BETWEEN_LOOKS)
                if time.monotonic() - said >= self.seconds_between_words:
                    said = time.monotonic()
                    names = " ".join(each.name.rpartition("/")[2] for each in self.running())
                    say(f"check: still running after {time_of(said - self.begun)}: {names}")
            said = time.monotonic()
            output = part.output.read_bytes()
            write(output)
            self.count_said(part.name, status, output)
            # (it ended when it wrote its last line)
            self.took(part.name, part.output.stat().st_mtime - part.begun_at)
        self.side = []

    # Interrupted.

    def say_running(self) -> None:
        """Says which parts have not ended yet. What those beside others have printed so far is not shown."""
        for part in [*([self.shown] if self.shown and self.shown.name else []), *self.running()]:
            say(f"check: {part.name} was still running, after {time_of(time.monotonic() - part.begun)}")

    def stop(self) -> None:
        running = [*([self.shown] if self.shown else []), *self.running()]
        stop([part.process for part in running if not part.has_bound])
        stop_groups([part.process for part in running if part.has_bound])


def write(output: bytes) -> None:
    """Writes what a part has printed."""
    sys.stdout.flush()
    sys.stdout.buffer.write(output)
    sys.stdout.buffer.flush()


def show_as_it_comes(process: subprocess.Popen[bytes], kept: IO[bytes]) -> None:
    """Shows what a process prints, and keeps it, until it has ended."""
    assert process.stdout
    with process.stdout as stream:
        while read := os.read(stream.fileno(), 1 << 16):
            kept.write(read)
            write(read)
    process.wait()


class Interrupted(BaseException):
    """Somebody has asked for the end."""


# How many things are being started, and whether somebody asked for the end meanwhile.
HELD = {"starting": 0, "asked": 0}


def end_now() -> NoReturn:
    for each in SIGNALS:
        signal.signal(each, signal.SIG_IGN)
    raise Interrupted


def raise_interrupts() -> None:
    """Has each signal that asks for the end raise `Interrupted`, but those that are ignored, as `nohup` has it."""

    def come(_number: int, _frame: object) -> None:
        HELD["asked"] += 1
        if not HELD["starting"]:
            end_now()

    for each in SIGNALS:
        if signal.getsignal(each) != signal.SIG_IGN:
            signal.signal(each, come)


@contextlib.contextmanager
def starting() -> Iterator[None]:
    """Something is started, and noted, before an interrupt comes: what nobody knows of nobody would end."""
    HELD["starting"] += 1
    try:
        yield
    finally:
        HELD["starting"] -= 1
    if HELD["asked"] and not HELD["starting"]:
        end_now()
