"""The cases that are kept as files: run-cases tells how. Other scripts take their texts, too."""
from __future__ import annotations

import difflib
import os
import re
import subprocess
from collections.abc import Iterator
from dataclasses import dataclass, replace
from pathlib import Path

from harness import MOST_SECONDS

from registry_tools import proof

# More lines of a difference are not shown.
MOST_LINES = 12
# A case of plain `settle` is tried with these numbers of workers too.
MORE_WORKERS = (b"1", b"2", b"8")
# The exit status that goes with a fault line in a table.
FAULT_STATUS = 3
PARTS = (".csv", ".args", ".stdout", ".stderr", ".status")
# What the scripts of a folder share, and what Python makes of it.
MODULES = (".py", ".pyc", ".java")
# And these belong to scripts.
OF_SCRIPTS = {"README.md", "version-1-folders.tar.xz"}
ESCAPES = {b"n": b"\n", b"r": b"\r", b"\\": b"\\"}


class Wrong(Exception):
    """Says what is wrong with a file of the cases."""


@dataclass(frozen=True)
class Case:
    text: bytes
    arguments: tuple[bytes, ...]
    stdout: bytes
    stderr: bytes
    status: int

    def differences(self, program: Path) -> list[str]:
        """Runs the program, and answers lines that say how the runs differ from the case."""
        lines = self.differences_with(program, self.arguments)
        if self.arguments == (b"settle",):
            for workers in MORE_WORKERS:
                more = self.differences_with(program, (*self.arguments, b"--workers", workers))
                lines += [f"with {workers.decode()} workers:"] + more if more else []
        return lines

    def differences_with(self, program: Path, arguments: tuple[bytes, ...]) -> list[str]:
        """Runs the program with these arguments, and answers lines that say how the run differs from the case."""
        try:
            run = subprocess.run([program, *arguments], input=self.text, capture_output=True, timeout=MOST_SECONDS)
        except subprocess.TimeoutExpired:
            return [f"no answer in {MOST_SECONDS} seconds"]
        lines = differing_lines("standard output", self.stdout, run.stdout)
        lines += differing_lines("standard error", self.stderr, run.stderr.removeprefix(added_by(program)))
        if run.returncode != self.status:
            lines.append(f"status {run.returncode}, wanted {self.status}")
        return lines


def added_by(program: Path) -> bytes:
    """The line that an unproved build adds beside its version: what its note at the end begins with."""
    own = proof.read(program)[1]
    begin = own.find(proof.NOT_PROVED.encode())
    return own[begin : own.find(b"\n", begin) + 1] if begin >= 0 else b""


@dataclass(frozen=True)
class Copies:
    one: Path
    other: Path

    def differences(self, _program: Path) -> list[str]:
        try:
            return differing_lines(
                f"{self.other}, compared with {self.one}", self.one.read_bytes(), self.other.read_bytes()
            )
        except OSError as error:
            return [str(error)]


# A case, or what is wrong with its files.
Tried = Case | Copies | Exception


def differing_lines(name: str, wanted: bytes, written: bytes) -> list[str]:
    if wanted == written:
        return []
    # `ascii` makes line ends, blanks and odd bytes visible.
    shown = [[ascii(line.decode("latin-1")) for line in text.splitlines(True)] for text in (wanted, written)]
    lines = list(difflib.unified_diff(shown[0], shown[1], n=0, lineterm=""))[2:]
    return [f"{name} (- wanted, + written):"] + ["  " + line for line in lines[:MOST_LINES]]


def case_of_files(csv: Path) -> Case:
    def part(suffix: str) -> bytes | None:
        path = csv.with_suffix(suffix)
        return path.read_bytes() if path.exists() else None

    if not csv.exists():
        raise Wrong("there is no such text")
    arguments, stdout, stderr, status = (part(suffix) for suffix in PARTS[1:])
    if stdout is None and stderr is None and status is None:
        raise Wrong("nothing to compare")
    words = (b"settle" if arguments is None else arguments).split(b"\n")
    if not words[-1]:
        words.pop()
    if not re.fullmatch(rb"[0-9]+\n?", status or b"0"):
        raise Wrong("the status is no number")
    return Case(
        text=csv.read_bytes(),
        arguments=tuple(words),
        stdout=stdout or b"",
        stderr=stderr or b"",
        status=int(status or b"0"),
    )


def unescaped(replacement: bytes) -> bytes:
    def byte(match: re.Match[bytes]) -> bytes:
        return bytes([int(match[2], 16)]) if match[2] else ESCAPES[match[1]]

    return re.sub(rb"\\(n|r|\\|x([0-9a-f]{2}))", byte, replacement)


def case_of_line(common: Case, row: int, replacement: bytes, answer: bytes) -> Case:
    rows = common.text.splitlines(True)
    if not 1 <= row <= len(rows):
        raise Wrong(f"the text has no row {row}")
    rows[row - 1 : row] = [unescaped(replacement) + b"\n"] if replacement else []
    case = replace(common, text=b"".join(rows))
    if answer == b"settled":
        return case
    return replace(case, stdout=b"", stderr=answer + b"\n", status=FAULT_STATUS)


def trials_of_table(table: Path) -> Iterator[tuple[str, Case | Exception]]:
    """Gives each line's name and its case, or what is wrong with the line."""
    common: Case | None = None
    names: set[str] = set()
    for number, line in enumerate(table.read_bytes().splitlines(), 1):
        if not line.strip() or line.startswith(b"#"):
            continue
        name = f"line {number}"
        try:
            if line.startswith(b"text "):
                name, common = os.fsdecode(line[5:].strip()), None
                common = case_of_files(table.parent / (name + ".csv"))
                continue
            fields = line.split(b" | ")
            if common is None or len(fields) != 4 or not fields[1].strip().isdigit():
                raise Wrong("this is no line of a table, or no text stands before it")
            name, row, answer = os.fsdecode(fields[0].strip()), int(fields[1]), fields[3].strip()
            if not name or name in names or not answer:
                raise Wrong("its name stands twice or is missing, or there is no answer")
            names.add(name)
            yield name, case_of_line(common, row, fields[2], answer)
        except (Wrong, OSError) as wrong:
            yield name, wrong
    if not names:
        yield "the whole table", Wrong("it has no case")


def trials_of_copies(copies: Path) -> Iterator[tuple[str, Copies]]:
    for line in copies.read_text().splitlines():
        one, other = line.split()
        yield f"{one} and {other}", Copies(copies.parent / one, copies.parent / other)


def trials_of_file(path: Path) -> Iterator[tuple[str, Tried]]:
    """Gives the name of each trial that begins with this file, and the trial, or what is wrong with it."""
    if path.suffix == ".csv":
        try:
            yield path.stem, case_of_files(path)
        except Wrong as wrong:
            yield path.stem, wrong
    elif path.suffix == ".table":
        for name, trial in trials_of_table(path):
            yield f"{path.stem}/{name}", trial
    elif path.name == "copies":
        yield from trials_of_copies(path)
    elif path.suffix in PARTS:
        if not path.with_suffix(".csv").exists():
            yield path.name, Wrong("it belongs to no case")
    elif path.name not in OF_SCRIPTS and path.suffix not in MODULES and not path.name.startswith("run-"):
        yield path.name, Wrong("it belongs to no case")


def trials_of_folder(folder: Path) -> Iterator[tuple[str, Tried]]:
    for path in sorted(folder.rglob("*")):
        if not path.is_dir():
            for name, trial in trials_of_file(path):
                yield str(path.parent.relative_to(folder) / name), trial
