"""What the scripts of this folder share: they try things, show each that fails, and end with 'N passed, M failed'.

A trial is a name and what is wrong, if something is. A part that cannot be tried on this machine is left out, which a
line says: it counts neither as passed nor as failed.

Only this, bench/beside.py, tools/ and `./day` change where Python looks for modules: the scripts have no ending, so
that they are started by their names, and are in no package. They, and those of bench/, find the package of python/ and
the modules of this folder.
"""
from __future__ import annotations

import contextlib
import io
import os
import signal
import subprocess
import sys
from collections.abc import Callable, Iterable, Sequence
from concurrent.futures import ThreadPoolExecutor
from pathlib import Path
from typing import Any, TypeVar

sys.dont_write_bytecode = True
CASES = Path(__file__).resolve().parent
TOP = CASES.parent
TOOLS = TOP / "tools"
PYTHON = TOP / "python"
sys.path[:0] = [str(folder) for folder in (PYTHON, CASES, TOOLS) if str(folder) not in sys.path]
# (a checkout may belong to another login than the one that tries it: its programs are run all the same)
os.environ.setdefault("REGISTRY_PROGRAMS", str(TOP))

if signal.getsignal(signal.SIGINT) == signal.SIG_IGN:
    # (behind `nohup` and `&` an interrupt is ignored, also by all that is started, and a desk that a trial ends so would
    # never end: this process goes on ignoring it, and what it starts does not)
    signal.signal(signal.SIGINT, lambda *_: None)

from listening import empty_parts, keep_parts_apart, listener, place_of, raised  # noqa: E402

# A run that takes longer hangs, and fails: no machine is so busy that an answer of some milliseconds takes as long.
MOST_SECONDS = 600
# By this status tools/with-memory says that there was too little memory.
NO_MEMORY = 75

Word = str | bytes | Path
Answer = tuple[bytes, bytes, int]
# What makes a trial: it takes nothing. (A lambda that keeps a value as its default has parameters, for mypy.)
Trial = Callable[..., object]
T = TypeVar("T")


class LeftOut(Exception):
    """Says why something is not tried here."""


class Trials:
    """Counts what passed and failed, and shows what failed. A trial that raises has failed, and the others go on."""

    def __init__(self) -> None:
        self.passed = self.failed = self.told = 0
        self.listener = listener()
        keep_parts_apart(LeftOut)

    def add(self, name: str, wrong: object) -> None:
        """Counts a trial. `wrong` says what is wrong, if something is."""
        self.told += 1
        if self.listener:
            self.listener.tell(name, wrong=f"{wrong}" if wrong else None)
        if not wrong:
            self.passed += 1
            return
        self.failed += 1
        if not self.listener:
            print("FAILED:", f"{name}: {wrong}".removeprefix(": ").replace(": \n", ":\n", 1), flush=True)

    def leave_out(self, name: str, why: object) -> None:
        self.told += 1
        if self.listener:
            self.listener.tell(name, left_out=f"{why}")
        else:
            print(f"LEFT OUT: {name}: {why}", flush=True)

    def wants(self, name: str) -> bool:
        """Whether a trial is to be made: by hand each is, and pytest chooses."""
        return not self.listener or self.listener.wants(name)

    def add_all(self, said: Iterable[tuple[str, object]]) -> None:
        """Counts trials that say by themselves what is wrong."""
        try:
            for name, wrong in said:
                self.add(name, wrong)
        except LeftOut:
            raise
        except Exception:
            self.add(getattr(said, "__name__", "trials"), raised())

    def make(self, named: Iterable[tuple[str, Trial]]) -> None:
        """Makes each trial and counts it."""
        for name, trial in named:
            if not self.wants(name):
                continue
            if self.listener:
                self.listener.place = place_of(trial) or self.listener.place
            try:
                self.add(name, trial())
            except LeftOut as why:
                self.leave_out(name, why)
            except Exception:
                self.add(name, raised())

    def make_at_once(self, named: Sequence[tuple[str, T]], wrong_with: Callable[[T], object]) -> None:
        """Asks what is wrong with each thing, as many at once as there are processors, and counts it in their order."""

        def wrong(thing: T) -> object:
            try:
                return wrong_with(thing)
            except Exception:
                return raised()

        chosen = [(name, thing) for name, thing in named if self.wants(name)]
        with ThreadPoolExecutor(os.cpu_count()) as pool:
            self.add_all(zip((name for name, _ in chosen), pool.map(wrong, [thing for _, thing in chosen])))

    def end(self) -> int:
        """Writes the last line, and answers the exit status: 0 only if none failed and at least one passed. A part that
        was entered has to have had a trial."""
        for name in empty_parts():
            self.add(name, "it has no trial")
        print(f"{self.passed} passed, {self.failed} failed", flush=True)
        return 0 if self.passed and not self.failed else 1


def differs(found: object, wanted: object) -> str | None:
    return None if found == wanted else f"found {found}, wanted {wanted}"


def program_of(word: str) -> Path:
    """The program that a word of the command line names. Ends the script if it is none."""
    program = Path(word).resolve()
    if not os.access(program, os.X_OK) or program.is_dir():
        sys.exit(f"{Path(sys.argv[0]).name}: {program} is no program")
    return program


def answer_of(command: Sequence[Word], text: bytes = b"", seconds: float | None = MOST_SECONDS, **more: Any) -> Answer:
    """What a command writes to standard output and standard error, and its status."""
    run = subprocess.run(command, input=text, capture_output=True, timeout=seconds, check=False, **more)
    return run.stdout, run.stderr, run.returncode


def with_memory(gigabytes: float) -> list[Word]:
    """The words before a command that takes so much memory: it starts once that is free, alone of such commands."""
    return [TOOLS / "with-memory", str(gigabytes)]


def must_have_memory(answer: Answer) -> Answer:
    """The answer of a command behind `with_memory`, if there was memory for it."""
    if answer[2] == NO_MEMORY:
        raise LeftOut(answer[1].decode().strip())
    return answer


def day_command(words: Iterable[object]) -> int | str | None:
    """Runs a command of `./day` in this process, and answers its status."""
    from registry_tools import main

    try:
        status: int = main.main([*map(str, words)])
        return status
    except SystemExit as end:
        return end.code


class Said:
    """What a command of `./day` said, which is run in this process: its status, standard output and standard error."""

    def __init__(self, *arguments: object) -> None:
        output, errors = io.StringIO(), io.StringIO()
        with contextlib.redirect_stdout(output), contextlib.redirect_stderr(errors):
            self.status = day_command(arguments)
        self.output, self.errors = output.getvalue(), errors.getvalue()

    def __str__(self) -> str:
        return f"status {self.status}: {self.output[-600:]}{self.errors[-600:]}"

    __repr__ = __str__
