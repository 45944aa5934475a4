#!/usr/bin/env -S python3 -B
"""Runs the program, and the calls of test_refusals, under valgrind's memcheck, helgrind and drd.

usage: valgrind.py [--program PROGRAM] [--refusals REFUSALS] [--tool TOOL] [--jobs N] [--show]

PROGRAM is out/registry, unless another is named. It settles small days by four workers: the examples, those of
cases/run-refusals, one that is read by several parts and written in several pieces, which the other commands answer
too, and one of which all workers have something to run. With REFUSALS each call of cases/run-refusals is made once,
with nothing refused. TOOL is one of the three (left out: each in turn).

What valgrind takes for an error and is none stands in valgrind.supp, with the reason. A run fails if valgrind tells
another error, or if the answer is another one than without valgrind. With --show the errors are shown. N runs go on at
once (left out: 1). The last line is 'N passed, M failed'; the exit status is 0 only if none failed and at least one
passed.
"""
import argparse
import functools
import subprocess
import sys
import tempfile
from collections.abc import Iterator
from concurrent.futures import ThreadPoolExecutor
from dataclasses import dataclass
from pathlib import Path
from random import Random

import beside  # noqa: F401 (it finds the modules of cases/)
from harness import TOP, Trials, program_of

import days
import mutations
from refusing import LOGGED, cases_of

TOOLS: dict[str, list[str]] = {"memcheck": ["--leak-check=no"], "helgrind": ["--history-level=none"], "drd": []}
SUPPRESSIONS = TOP / "bench" / "valgrind.supp"
WORKERS = 4
TRANSFERS = 2_000
# The exit status of a run in which valgrind tells an error.
TOLD = 99
MOST_SECONDS = 300


@dataclass(frozen=True)
class Run:
    """A program with its words and its input."""

    name: str
    words: tuple[str, ...]
    text: bytes


def runs(program: Path, refusals: Path | None) -> Iterator[Run]:
    """All runs: those of the program, and those of the calls."""
    settle = (str(program), "settle", "--workers", str(WORKERS))
    for path in sorted((TOP / "examples").glob("*.csv")):
        yield Run(path.stem, settle, path.read_bytes())
    large = large_day()
    yield Run("a day of several parts and pieces", settle, large)
    for command in ("plan", "figures", "totals", "statement 1"):
        yield Run(f"{command} of this day", (str(program), *command.split()), large)
    yield Run("many transfers", settle, "\n".join(days.day_text(600, TRANSFERS, 2)).encode())
    for case in cases_of("", "", str(refusals or ""), str(program)):
        called = case.program
        if refusals or called.path == str(program):
            yield Run(case.name, (called.path, *called.words), called.text)


def large_day() -> bytes:
    """A day of some 200 KB, with more log rows than one thread spells."""
    rows = LOGGED.text.splitlines()
    mutations.grow(Random(1), rows)
    return b"\n".join([*rows, b""])


def difference(tool: str, run: Run) -> tuple[str, str]:
    """What is wrong with a run, and what valgrind tells of it."""
    plain = subprocess.run(run.words, input=run.text, capture_output=True)
    with tempfile.NamedTemporaryFile() as log:
        # With `--fair-sched` each thread has its turn; otherwise one worker is done before the next has begun.
        valgrind = ["valgrind", f"--tool={tool}", *TOOLS[tool], "--fair-sched=yes", "--quiet"]
        valgrind += [f"--error-exitcode={TOLD}", f"--log-file={log.name}", f"--suppressions={SUPPRESSIONS}"]
        try:
            under = subprocess.run([*valgrind, *run.words], input=run.text, capture_output=True, timeout=MOST_SECONDS)
        except subprocess.TimeoutExpired:
            return f"no answer in {MOST_SECONDS} seconds", ""
        told = Path(log.name).read_text(errors="replace")
    if under.returncode == TOLD:
        return "valgrind tells an error", told
    if (under.returncode, under.stdout, under.stderr) != (plain.returncode, plain.stdout, plain.stderr):
        return f"it answers otherwise, with status {under.returncode}", told
    return "", told


def main() -> int:
    parser = argparse.ArgumentParser(description=__doc__, formatter_class=argparse.RawDescriptionHelpFormatter)
    parser.add_argument("--program", type=program_of, default=str(TOP / "out" / "registry"))
    parser.add_argument("--refusals", type=program_of)
    parser.add_argument("--tool", choices=TOOLS)
    parser.add_argument("--jobs", type=int, default=1)
    parser.add_argument("--show", action="store_true")
    words = parser.parse_args()
    trials, every = Trials(), [*runs(words.program, words.refusals)]
    for tool in [words.tool] if words.tool else TOOLS:
        with ThreadPoolExecutor(words.jobs) as pool:
            for run, (said, told) in zip(every, pool.map(functools.partial(difference, tool), every)):
                trials.add(f"{tool}: {run.name}", said and f"{said}\n{told if words.show else ''}".rstrip())
    return trials.end()


if __name__ == "__main__":
    sys.exit(main())
