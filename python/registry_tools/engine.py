"""Settles a day text by the proved engine: by a program that was named, or else by the library, where `./run --prove`
or `tools/library` has built it, or an installation has it. Where nobody asks for the engine, and the library is there,
`./day try` and all that shows determined figures ask it too, and say so if it answers otherwise. The second answer
(rules.py, faults.py) calls neither.
"""
import importlib
import importlib.util
import os
import subprocess
import sys
from pathlib import Path
from types import ModuleType
from typing import Literal, Protocol

from registry_tools import installed, streams
from registry_tools.errors import FileFault, WordsFault, of_file
from registry_tools.progress import progress
from registry_tools.texts.day_text import DayText
from registry_tools.texts.report import Report
from registry_tools.texts.rows import text_of_rows

TOP = Path(__file__).resolve().parents[2]
LIBRARY = TOP / "out/library/lib/libregistry.so.1"
CALLS = TOP / "examples/python/src/registry/native.py"
# How memory is taken, as `./run` says it: a full day takes new memory all the time, and gets it sooner in large pages.
TUNABLES = ("GLIBC_TUNABLES", "glibc.malloc.hugetlb=1:glibc.malloc.mmap_threshold=131072")
NO_LIBRARY = "there is no library that is as new as its sources", "name a program, or run tools/library out/library"


# What programs have said on standard error so far.
told: set[str] = set()


def tell_once(sentence: bytes) -> None:
    """Passes on what a program says beside its text, such as that it is not proved: each word of it once."""
    words = sentence.decode("utf-8", "replace").strip()
    if words and words not in told:
        told.add(words)
        progress.clear()
        print(words, file=sys.stderr)


def nothing_beside() -> tuple[str, str]:
    """What an installation lacks that settles by no library, and the way out."""
    return f"there is no program and no library beside {streams.names['./day']}", "name a program"


class NotSettled(Exception):
    """The engine gives no text: why, in its own words."""


class Settler(Protocol):
    """What settles a day again."""

    name: str

    def settle(self, day: bytes) -> bytes:
        """The report of a day text. Raises NotSettled."""


def run_settle(program: str, day: bytes) -> subprocess.CompletedProcess[bytes]:
    """Runs `settle` of a program on a day text, which it has as a file in memory: a file is read in pieces by several
    threads, and a pipe by one. Raises OSError if the program cannot be run."""
    with os.fdopen(os.memfd_create("day"), "w+b") as text:
        text.write(day)
        text.seek(0)
        tuned = {TUNABLES[0]: TUNABLES[1], **os.environ}
        return subprocess.run([program, "settle"], stdin=text, capture_output=True, env=tuned, check=False)


class Program:
    """A program that settles as `registry` does."""

    def __init__(self, name: str, option: str) -> None:
        self.name, self.option = name, option

    def settle(self, day: bytes) -> bytes:
        """The report of a day. Raises NotSettled if the program does not settle it, and WordsFault if it cannot be
        run."""
        try:
            # (a name without a slash is looked for on the PATH alone, as by a shell: whoever leaves a file where
            # somebody works has it run otherwise)
            run = run_settle(self.name, day)
        except OSError as error:
            is_here = os.sep not in self.name and os.path.isfile(self.name)
            here = f"; ./{self.name} is the file of this folder" if is_here else ""
            raise WordsFault(f"{self.option} {self.name} cannot be run: {error.strerror}{here}") from None
        if run.returncode:
            errors = run.stderr.decode(errors="replace").strip()
            raise NotSettled(f"{self.name} settle ends with status {run.returncode}: {errors}")
        tell_once(run.stderr)
        return run.stdout


class Library:
    """The library, by its calls."""

    name = "the library"

    def __init__(self, calls: ModuleType) -> None:
        self.calls = calls

    def settle(self, day: bytes) -> bytes:
        """The report of a day. Raises NotSettled."""
        return self.asked("settle", day)

    def log(self, day: bytes) -> list[str]:
        """The log rows of a day. Raises NotSettled."""
        return rows_written(self.asked("attempt", day))

    def figures(self, day: bytes) -> list[str]:
        """The figures that are determined after a day, as rows, and the row `end`. Raises NotSettled."""
        return rows_written(self.asked("figures", day))

    def asked(self, command: str, day: bytes) -> bytes:
        """The text that a command of the library writes of a day. Raises NotSettled."""
        try:
            return bytes(getattr(self.calls, command)(day))
        except (self.calls.Fault, MemoryError) as fault:
            raise NotSettled(f"{self.name}: {fault}") from None


def rows_written(text: bytes) -> list[str]:
    """The rows of a text that the program wrote."""
    return text.decode("ascii").split("\n")[:-1]


def is_new(library: Path) -> bool:
    """Whether the library is there, and no source is newer. Folders count too, so that a removed file is noticed."""
    if not library.exists():
        return False
    made = library.stat().st_mtime
    for folder in [*(TOP / "crates").glob("reg*/src"), *(TOP / "crates").glob("reg*/specs"), TOP / "include"]:
        for path, _, files in os.walk(folder):
            if any(os.stat(os.path.join(path, file)).st_mtime > made for file in ["", *files]):
                return False
    return True


def find_library() -> Library | None:
    """The library that REGISTRY_LIBRARY names, or the one of this repository, if it was built and is new, or of this
    installation."""
    if not os.environ.get("REGISTRY_LIBRARY"):
        path = LIBRARY if is_new(LIBRARY) else installed.library()
        if path is None:
            return None
        os.environ["REGISTRY_LIBRARY"] = str(path)
    try:
        return Library(calls_of_library())
    except (OSError, ImportError, AttributeError) as error:
        # (an older library lacks a call, and an attribute is then missing)
        raise WordsFault(f"the library cannot be used: {error}") from None


def calls_of_library() -> ModuleType:
    """The calls of the library in Python: of this repository, or else of the package that was installed for them."""
    spec = importlib.util.spec_from_file_location("registry_native", CALLS)
    if not CALLS.exists() or not spec or not spec.loader:
        return importlib.import_module("registry.native")
    calls = importlib.util.module_from_spec(spec)
    spec.loader.exec_module(calls)
    return calls


def settler_of(program: str | Literal[True], option: str) -> Settler:
    """The program that an option names, or the library if the option stands alone; without a library the program of an
    installation."""
    if isinstance(program, str):
        return Program(program, option)
    library, beside = find_library(), installed.program()
    if library is None and beside is None:
        why, way = NO_LIBRARY if installed.is_checkout() else nothing_beside()
        raise WordsFault(f"{option}: {why}", way)
    return library or Program(str(beside), option)


def confirm_figures(day: DayText, report: Report) -> None:
    """Compares the determined figures of a report with those of the library, if it was built. Raises FileFault at the
    first account whose figures differ."""
    library = find_library()
    if library is None:
        return
    try:
        engine = library.figures(text_of_rows(day.source.rows))
    except NotSettled as fault:
        raise of_file(day.source.path, str(fault)) from None
    wanted = figures_by_account(engine)
    for number, block in report.book.items():
        rows = [row.split(",") for row in block.list_rows if row.startswith("figure,")]
        found = {int(year): int(figure) for _, year, figure in rows}
        expected = wanted.get(number, {})
        if found != expected:
            field, expectation = f"figures of account {number}", f"{words_of(expected)}, as the library gives them"
            raise FileFault(report.source.path, block.line, field, words_of(found), expectation)


def figures_by_account(rows: list[str]) -> dict[int, dict[int, int]]:
    """Of each account that has some its figures by year, of the rows of the command `figures`."""
    figures: dict[int, dict[int, int]] = {}
    for row in rows[:-1]:
        _, account, year, figure = row.split(",")
        figures.setdefault(int(account), {})[int(year)] = int(figure)
    return figures


def words_of(figures: dict[int, int]) -> str:
    """Figures in words, by rising year."""
    return ", ".join(f"{figure} for {year}" for year, figure in sorted(figures.items())) or "none"
