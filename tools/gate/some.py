"""`./check CRATE..`: some crates and those above them, over what earlier checks kept."""
from __future__ import annotations

import re
import subprocess
import time
from collections.abc import Iterable, Sequence
from pathlib import Path

from gate import TOP, library, program, trials
from gate.parts import Parts, processors, say, stop, time_of
from gate.program import crates
from gate.whole import CASES_PASSED, try_all

# What the cases are made of, beside the program.
OF_THE_CASES = ("run", "day", "demo", "cases", "examples", "include", "docs", "README.md", "tools")
GB_OF_EDITS = 3.0
TEST = re.compile(r"#\s*\[[^]]*\btest\b")
EDIT_REFUSED = re.compile(r"^rt: must-fail (\S+?)/.*: refused, as it must be", re.MULTILINE)
# By what else is tried: the crates of which one has to be proved, those whose programs are built, and what is said.
MORE = (
    ("the refusals", ("test_refusals",), "run-refusals", ("test_refusals",)),
    ("workers that are delayed", ("bench_workers",), "run-workers", ("bench_workers",)),
    ("the examples of programs", ("example_embed", "example_one_by_one"), "run-embed",
     ("example_embed", "example_one_by_one")),
)  # fmt: skip


def edits_of(crate: str) -> list[Path]:
    """The edits of a crate that are tried one by one."""
    return [*(TOP / "crates" / crate / "must-fail").rglob("*.edit")]


def has_tests(crate: str) -> bool:
    sources = (path for path in (TOP / "crates" / crate / "src").rglob("*") if path.is_file())
    return any(TEST.search(path.read_text(encoding="utf-8")) for path in sources)


def most_at_once(gigabytes: float) -> int:
    """How many checks may run side by side, each with so much free memory, and at least one."""
    free = re.search(r"^MemAvailable: +(\d+)", Path("/proc/meminfo").read_text(encoding="ascii"), re.MULTILINE)
    by_memory = int(int(free[1]) / 1_000_000 / gigabytes) if free else 1
    return max(1, min(by_memory, processors()))


class Some:
    """A check of some crates."""

    def __init__(self, parts: Parts, asked: Sequence[str]) -> None:
        self.parts, self.crates = parts, crates("above", *asked)
        self.unproved: set[str] = set()
        self.proved: list[str] = []
        self.lanes: list[subprocess.Popen[bytes]] = []
        self.left_out: list[str] = []

    def run(self) -> None:
        say(f"check: {' '.join(self.crates)}")
        say("tools/layout: the files and the edits of all crates ..")
        self.parts.run("tools/layout", TOP / "tools/layout")
        self.prove_and_test()
        self.try_edits()
        cases = self.try_cases()
        library = self.try_library(has_cases=not cases)
        more = [self.try_more(*each) for each in MORE]
        self.say_what_was_left_out([cases, *more[:2], library, *more[2:]])

    # Crates.

    def try_rt(self, crate: str, what: str, *words: str) -> bool:
        """Runs `rt` in a crate's folder, counts it as one, and shows what it printed only if it failed."""
        begun = time.monotonic()
        print(f"{crate}: {what} ..", end="", flush=True)
        status = self.parts.quietly("rt", *words, folder=TOP / "crates" / crate)
        say(f" passed, {time_of(time.monotonic() - begun)}" if status == 0 else " FAILED")
        if status != 0:
            for line in (self.parts.work / "said").read_text(encoding="utf-8", errors="replace").splitlines():
                if not re.fullmatch(r"fn .*: proved", line):
                    say(line)
        return self.parts.count(status == 0)

    def prove_and_test(self) -> None:
        """Proves the crates and runs their tests, the lowest crate first. A crate above one that is not proved fails
        with it."""
        for crate in self.crates:
            lacking = [each for each in crates("below", crate) if each in self.unproved]
            if lacking:
                say(f"{crate}: not tried, since {lacking[0]} is not proved")
                self.parts.failed += 1
            elif not self.try_rt(crate, "proof", "check"):
                self.unproved.add(crate)
            elif not has_tests(crate) or self.try_rt(crate, "tests", "test"):
                self.proved.append(crate)

    def try_edits(self) -> None:
        """Tries the edits of the crates that were proved: those that are judged together, and then each other one,
        several crates side by side."""
        if self.proved:
            self.parts.run("tools/edits", TOP / "tools/edits", *self.proved)
        most, tried = most_at_once(GB_OF_EDITS), [crate for crate in self.proved if edits_of(crate)]
        for crate in tried:
            while sum(lane.poll() is None for lane in self.lanes) >= most:
                time.sleep(0.1)
            say(f"{crate}: trying its other edits ({len(edits_of(crate))}) ..")
            with open(self.parts.work / f"edits.{crate}", "wb") as stream:
                self.lanes.append(subprocess.Popen(
                    ["rt", "must-fail", crate], cwd=TOP, stdin=subprocess.DEVNULL, stdout=stream,
                    stderr=subprocess.STDOUT, start_new_session=True,
                ))  # fmt: skip
        for lane in self.lanes:
            lane.wait()
        for crate in tried:
            self.count_edits(crate, (self.parts.work / f"edits.{crate}").read_text(encoding="utf-8", errors="replace"))

    def count_edits(self, crate: str, told: str) -> None:
        """Counts the edits that were refused as they must be, and each other one as a failure, which it shows."""
        every = len(edits_of(crate))
        refused = sum(name == crate for name in EDIT_REFUSED.findall(told))
        say(f"{crate}: {refused} of its {every} other edits refused")
        self.parts.passed += refused
        self.parts.failed += every - refused
        for line in told.splitlines() if refused != every else []:
            if ": refused, as it must be" not in line:
                say(line)

    # Programs. Each answers why something was left out, if it was.

    def try_cases(self) -> str:
        """Builds the program if a source is newer, and tries the cases if they have not passed on it yet."""
        if len(self.proved) != len(self.crates):
            return "the cases, since not all of these crates passed"
        if "registry" not in self.crates:
            return "the cases, since the program uses none of these crates"
        why = program.reason_to_build()
        if why:
            say(f"check: {why}. The program is built now.")
            if not program.build(self.parts):
                self.parts.failed += 1
                program.show_build_log()
                return "the cases, since the program was not built"
        if have_cases_passed(program.PROGRAM):
            return "the cases, since they and the program are as they were when all of them passed"
        try_all(self.parts, {"PROGRAM": program.PROGRAM}, TOP)
        return ""

    def try_library(self, has_cases: bool) -> str:
        """Tries the library for other languages, if its crate was proved and the cases were left out."""
        if "registry_c" not in self.proved:
            return "the library, since registry_c is not one of these crates, or was not proved"
        if has_cases:
            return ""
        if not program.PROGRAM.exists():
            return "the library, since there is no program beside which it is tried"
        library.begin(self.parts, TOP, program.PROGRAM)
        self.parts.finish()
        return ""

    def try_more(self, what: str, any_of: tuple[str, ...], script: str, built: tuple[str, ...]) -> str:
        """Builds programs, and tries what needs them."""
        if not {*any_of} & {*self.proved}:
            told = f"{any_of[0]} is not one of these crates, or was not proved"
            return f"{what}, since {told if len(any_of) == 1 else 'none is one of these crates, or none was proved'}"
        if what == "the refusals" and not program.PROGRAM.exists():
            return f"{what}, since there is no program"
        if not all(self.try_rt(crate, "building the program", "run") for crate in built):
            return f"{what}, since {f'{built[0]} was not built' if len(built) == 1 else 'one of them was not built'}"
        programs = {**trials.built_in(TOP), "PROGRAM": program.PROGRAM}
        names = (script, "run-seams") if script == "run-refusals" else (script,)
        trials.begin(self.parts, [each for each in trials.every() if each.name in names], programs, trials.PROVED)
        self.parts.finish()
        return ""

    def say_what_was_left_out(self, why: Iterable[str]) -> None:
        """Says what a whole check does beside."""
        others = " ".join(crate for crate in crates("all") if crate not in self.crates)
        say()
        say("check: this was not the whole check. Left out:")
        beside = "proofs from nothing, and what else only rt ci looks at"
        for line in filter(None, [f"the crates {others}" if others else "", *why, beside]):
            say(f"  {line}")

    def stop(self) -> None:
        stop([lane for lane in self.lanes if lane.poll() is None])


def have_cases_passed(made: Path) -> bool:
    """Whether all cases have passed on this program since it was built, and as they are now."""
    if not CASES_PASSED.exists() or made.stat().st_mtime_ns > CASES_PASSED.stat().st_mtime_ns:
        return False
    return program.newer([TOP / part for part in OF_THE_CASES if (TOP / part).exists()], CASES_PASSED) is None
