"""What `pytest cases` runs beside functions: the cases that are kept as files, and the scripts of trials.

Each file and each line of a table is an item. A script is an item of its own, `SCRIPT::*`, which runs it, and gives a
report for each trial that the script tells of (listening.py): `SCRIPT::NAME`.
"""
from __future__ import annotations

import json
import os
import re
import select
import signal
import subprocess
import sys
import tempfile
from collections import Counter
from collections.abc import Callable, Iterator
from pathlib import Path
from typing import Any, NamedTuple

import pytest

from listening import ASKED_BY
from stored import Tried, trials_of_file

TOP = Path(__file__).resolve().parent.parent
EVERY = "*"
# More of what a trial has written is not shown.
MOST_SHOWN = 20_000


class CaseFile(pytest.File):
    """A day text with what the program must answer, or a table of changes of such a text."""

    def collect(self) -> Iterator[pytest.Item]:
        for name, tried in trials_of_file(self.path):
            yield StoredCase.from_parent(self, name=name, tried=tried)


class StoredCase(pytest.Item):
    """One run of the program, and all that must come of it."""

    def __init__(self, tried: Tried, **more: Any) -> None:
        super().__init__(**more)
        self.tried = tried

    def runtest(self) -> None:
        if isinstance(self.tried, Exception):
            raise Told(str(self.tried))
        lines = self.tried.differences(program_of(self.config))
        if lines:
            raise Told("\n".join(lines))

    def repr_failure(self, excinfo: Any, style: Any = None) -> Any:
        return shown_failure(self, excinfo)

    def reportinfo(self) -> tuple[Path, None, str]:
        return self.path, None, self.name


class Told(Exception):
    """Says by itself what is wrong, so that no traceback is shown."""


def shown_failure(item: pytest.Item, excinfo: Any) -> Any:
    if isinstance(excinfo.value, Told):
        return str(excinfo.value)
    return pytest.Item.repr_failure(item, excinfo)


class Program(NamedTuple):
    """What a script tries: the word of its usage, and where it is built."""

    word: str
    built: tuple[str, ...]
    made_by: str


PROGRAMS = (
    Program("PROGRAM", ("out/registry", "out/registry.unproved"), "./run settle < DAY"),
    Program("REFUSALS", ("crates/test_refusals/out/test_refusals",), "./check test_refusals"),
    Program("WORKERS", ("crates/bench_workers/out/bench_workers",), "./check bench_workers"),
    Program("EMBED", ("crates/example_embed/out/example_embed",), "./check example_embed"),
    Program("ONE_BY_ONE", ("crates/example_one_by_one/out/example_one_by_one",), "./check example_one_by_one"),
    Program("LIBRARY", ("out/library",), "tools/library out/library"),
)
# What a script is given for an unproved build, which is slow or lacks something.
FOR_UNPROVED = {"run-streams": ["--short"], "run-second-answer": ["--days", "100"]}


def option_of(program: Program) -> str:
    return program.word.lower().replace("_", "-")


def found(program: Program, config: pytest.Config) -> Path:
    """Where the program is that is tried. A trial that needs one is skipped where there is none."""
    named = config.getoption(option_of(program).replace("-", "_"))
    for path in [Path(named)] if named else [TOP / each for each in program.built]:
        if os.access(path, os.X_OK):
            return path.resolve()
    if named:
        raise Told(f"{named} is no program")
    pytest.skip(f"there is no {program.built[0]}: --{option_of(program)} names one, and {program.made_by} makes one")


def program_of(config: pytest.Config) -> Path:
    """The program itself."""
    return found(PROGRAMS[0], config)


def words_of(script: Path, config: pytest.Config) -> list[str | Path]:
    """The words that a script is given: the programs that its usage names."""
    usage = re.search(r"^usage: .*", script.read_text(encoding="utf-8"), re.MULTILINE)
    by_word = {program.word: program for program in PROGRAMS}
    words: list[str | Path] = []
    for word in re.findall(r"\w+", usage[0].replace("REGISTRY", "PROGRAM")) if usage else ():
        words += [found(by_word[word], config)] if word in by_word else []
    is_unproved = program_of(config).name.endswith(".unproved") if words else False
    return [*(FOR_UNPROVED.get(script.name, []) if is_unproved else []), *words]


class ScriptFile(pytest.File):
    """A script of trials. One that is named with `::NAME` gives this trial alone."""

    def collect(self) -> Iterator[pytest.Item]:
        asked = [word.partition("::")[2] for word in self.config.args if names_trial(self.config, word, self.path)]
        for name in asked or [EVERY]:
            yield Script.from_parent(self, name=name)


def names_trial(config: pytest.Config, word: str, script: Path) -> bool:
    path, _, name = word.partition("::")
    return bool(name) and (config.invocation_params.dir / path).resolve() == script


class Script(pytest.Item):
    """A run of a script, which reports each of its trials."""

    def __init__(self, **more: Any) -> None:
        super().__init__(**more)
        self.wanted: Callable[[str], bool] = lambda name: self.name in (EVERY, name)
        # The words after -k, for which a trial may not be there.
        self.words = ""
        self.names: list[str] = []
        self.outcomes: Counter[str] = Counter()

    def reportinfo(self) -> tuple[Path, None, str]:
        return self.path, None, self.name

    def repr_failure(self, excinfo: Any, style: Any = None) -> Any:
        return shown_failure(self, excinfo)

    def runtest(self) -> None:
        words = words_of(self.path, self.config)
        told, tell = os.pipe()
        hear, answer = os.pipe()
        with tempfile.TemporaryFile("w+b") as written, open(told, "rb", buffering=0) as stream:
            run = subprocess.Popen(
                [sys.executable, "-B", self.path, *words], cwd=TOP, stdin=subprocess.DEVNULL, stdout=written,
                stderr=subprocess.STDOUT, pass_fds=(tell, hear), start_new_session=True,
                env={**os.environ, ASKED_BY: f"{tell} {hear}"},
            )  # fmt: skip
            os.close(tell)
            os.close(hear)
            try:
                self.listen(run, stream, answer, written)
            finally:
                os.close(answer)
                end(run)
            if not (self.session.shouldfail or self.session.shouldstop):
                self.look_at_end(run.returncode, written)

    def listen(self, run: subprocess.Popen[bytes], stream: Any, answer: int, written: Any) -> None:
        """Answers what the script asks, and reports what it tells, until it ends."""
        shown = 0
        for line in lines_of(stream, run):
            said = json.loads(line)
            if "asked" in said:
                os.write(answer, b"yes\n" if self.wanted(named(said["asked"])) else b"no\n")
                continue
            self.outcomes[outcome_of(said)] += 1
            if self.wanted(named(said["name"])):
                output = os.pread(written.fileno(), said["written"] - shown, shown)[-MOST_SHOWN:]
                self.report(said, output.decode(errors="replace"))
            shown = said["written"]
            if self.session.shouldfail or self.session.shouldstop:
                return
        run.wait()

    def report(self, said: dict[str, Any], output: str) -> None:
        """Reports a trial under a name of its own, for `pytest_runtest_logreport` (conftest.py) to make its id of."""
        name = named(said["name"])
        self.names.append(name)
        times = self.names.count(name)
        file, line = said["place"]
        place = (os.path.relpath(file, TOP), line - 1, name)
        wrong, left_out = said.get("wrong"), said.get("left_out")
        longrepr: Any = f"{place[0]}:{line}: {name}: {wrong}" if wrong else None
        if left_out:
            longrepr = (str(self.path), line, f"Skipped: {left_out}")
        sections = [("Captured stdout call", output)] if output else []
        report = pytest.TestReport(
            self.nodeid, place, dict.fromkeys(self.listnames(), 1), outcome_of(said), longrepr, "call", sections,
            said["seconds"], trial=name if times == 1 else f"{name} ({times})",
        )  # fmt: skip
        with self.config.pluginmanager.getplugin("capturemanager").global_and_fixture_disabled():
            self.ihook.pytest_runtest_logreport(report=report)

    def look_at_end(self, status: int, written: Any) -> None:
        """Fails if the script did not end as its trials say, or had none, but for words that no name has."""
        size = os.fstat(written.fileno()).st_size
        last = os.pread(written.fileno(), MOST_SHOWN, max(0, size - MOST_SHOWN)).decode(errors="replace").rstrip()
        wanted = 0 if self.outcomes["passed"] and not self.outcomes["failed"] else 1
        if not re.search(r"(?:^|\n)\d+ passed, \d+ failed$", last) or status != wanted:
            raise Told(f"it ended with status {status}, and not with {wanted} and the count of its trials:\n{last}")
        if not self.names and self.words and self.name == EVERY:
            pytest.skip(f"its text has {self.words}, and no name of its trials")
        if not self.outcomes:
            raise Told("it has no trial")
        if not self.names and self.name != EVERY:
            raise Told(f"it has no trial of the name {self.name}")


def outcome_of(said: dict[str, Any]) -> Any:
    return "failed" if said.get("wrong") else "skipped" if said.get("left_out") else "passed"


def named(name: str) -> str:
    """A trial's name as a part of an id."""
    return " ".join(name.replace("::", ":").split()) or "trial"


def lines_of(stream: Any, run: subprocess.Popen[bytes]) -> Iterator[bytes]:
    """The lines that a process writes, until it has ended: others that it started may hold the stream for longer."""
    held = b""
    while True:
        if not select.select([stream], [], [], 1)[0]:
            if run.poll() is not None:
                return
            continue
        read = stream.read(1 << 16)
        if not read:
            return
        *whole, held = (held + read).split(b"\n")
        yield from whole


def end(run: subprocess.Popen[bytes]) -> None:
    """Ends a script that still runs, and what it has started."""
    if run.poll() is None:
        os.killpg(run.pid, signal.SIGTERM)
        try:
            run.wait(10)
        except subprocess.TimeoutExpired:
            os.killpg(run.pid, signal.SIGKILL)
            run.wait()
