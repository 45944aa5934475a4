"""`./check` and `./check --edits`: `rt ci` proves and tests all crates, and then all cases are tried."""
from __future__ import annotations

import os
import shutil
import time
from collections.abc import Mapping
from pathlib import Path

from gate import TOP, library, program, trials
from gate.costs import Costs
from gate.parts import Parts, Word, say
from gate.program import crates

# The time of this file says when all cases passed last.
CASES_PASSED = TOP / "out/cases-passed"
# What `rt ci` writes into or tries of a crate, and what the proofs do not stand on.
NOT_COPIED = ("out", "must-fail", "wrong-bodies")
LEFT_OUT = "The edits that must be refused were not tried: ./check --edits tries them too."


def copy_without_edits(folder: Path) -> None:
    """Copies what `rt ci` reads into a folder, without the edits. It tries all edits that it finds, and the proofs do
    not stand on them. What passes there is kept as if it had passed here."""
    # (so that it is the top of a repository)
    (folder / ".git").mkdir(parents=True)
    for name in ("crates.txt", "HANDLES"):
        shutil.copy(TOP / name, folder)
    for crate in sorted(path for path in (TOP / "crates").iterdir() if path.is_dir()):
        (folder / "crates" / crate.name).mkdir(parents=True)
        for part in crate.iterdir():
            if part.name not in NOT_COPIED:
                copy_part(part, folder / "crates" / crate.name / part.name)


def copy_part(part: Path, copy: Path) -> None:
    if part.is_dir():
        shutil.copytree(part, copy)
    else:
        shutil.copy(part, copy)


def try_all(parts: Parts, programs: Mapping[str, Path], folder: Path) -> None:
    """Tries all cases with these programs, of which the library is built in a folder, and waits for what else was
    started."""
    begun, failed = time.time_ns(), parts.failed
    library.begin(parts, folder, programs["PROGRAM"])
    trials.begin(parts, [each for each in trials.every() if {*each.needs} <= {*programs}], programs, trials.PROVED)
    parts.finish()
    CASES_PASSED.parent.mkdir(exist_ok=True)
    CASES_PASSED.unlink(missing_ok=True)
    if parts.failed == failed:
        CASES_PASSED.touch()
        os.utime(CASES_PASSED, ns=(begun, begun))
        trials.keep_seconds(parts.seconds)


class Whole:
    """A check of all crates, with the edits or without."""

    def __init__(self, parts: Parts, has_edits: bool, anew: list[str]) -> None:
        self.parts, self.has_edits, self.anew = parts, has_edits, anew
        self.costs, self.begun = Costs(parts.work), parts.work / "begun"
        self.seconds_of_rt = 0.0
        # Whether `rt ci` runs here, and sets aside what earlier checks kept.
        self.is_here = False

    def run(self) -> None:
        source = program.source()
        if self.has_edits:
            self.with_edits(source)
        else:
            self.without_edits(source)

    def with_edits(self, source: str) -> None:
        self.costs.begin()
        self.is_here = True
        self.begin_edits()
        self.prove(TOP)
        (self.parts.work / "ended").touch()
        self.is_here = False
        self.try_cases(TOP, source)
        self.parts.finish()
        self.costs.end()
        self.costs.show()
        self.say_times()

    def without_edits(self, source: str) -> None:
        self.parts.run("tools/layout", TOP / "tools/layout")
        copy_without_edits(self.parts.work / "copy")
        self.prove(self.parts.work / "copy")
        self.try_cases(self.parts.work / "copy", source)
        self.say_times()
        say(LEFT_OUT)

    def begin_edits(self) -> None:
        """Judges the edits of each crate as soon as the `rt ci` that prints the file `said` has proved it."""
        behind: list[Word] = ["--behind", self.parts.work / "said", self.parts.work / "ended"]
        self.parts.begin("tools/edits", "tools/edits", *self.anew, *behind, *crates("all"), has_bound=False)

    def prove(self, folder: Path) -> None:
        """Proves all in a folder, except what `rt ci` has kept. The folders that rt makes for a while lie in the work
        folder, so that they go with it."""
        rooms, begun = self.parts.work / "rt", time.monotonic()
        self.begun.touch()
        rooms.mkdir()
        rooms.chmod(0o711)
        environment = {"PYTHONUNBUFFERED": "1", "TMPDIR": str(rooms)}
        self.parts.run("rt ci", "rt", "ci", *self.anew, folder=folder, environment=environment)
        self.seconds_of_rt = time.monotonic() - begun

    def is_new(self, built: Path) -> bool:
        """Whether this program was built in this check: the cases say nothing of an older one."""
        if os.access(built, os.X_OK) and built.stat().st_mtime_ns > self.begun.stat().st_mtime_ns:
            return True
        say(f"check: {built.name} was not built, so nothing was tried on it")
        self.parts.failed += 1
        return False

    def try_cases(self, folder: Path, source: str) -> None:
        """Tries the programs that were built in a folder. After a check that passed, ./run starts at once."""
        built = {word: path for word, path in trials.built_in(folder).items() if word != "LIBRARY"}
        if not self.is_new(built["PROGRAM"]):
            return
        new = {word: path for word, path in built.items() if word == "PROGRAM" or self.is_new(path)}
        try_all(self.parts, new, folder)
        if not self.parts.failed:
            program.keep(self.begun, source, folder)

    def say_times(self) -> None:
        self.costs.say_times(self.seconds_of_rt, time.monotonic() - self.parts.begun)

    def stop(self) -> None:
        self.costs.end()
