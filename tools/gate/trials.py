"""Which trials there are in cases/, what each needs, and about how long it takes.

A script says by its line `usage:` which programs it is given: PROGRAM, REFUSALS and so on, in brackets if it does
without. A new one is tried without a word here. A file of functions, `test_..py`, is tried by pytest.
"""
from __future__ import annotations

import json
import re
import sys
from collections.abc import Iterable, Mapping
from dataclasses import dataclass
from pathlib import Path

from gate import TOP
from gate.parts import Parts, Word, processors, say, time_of
from gate.program import said

CASES = TOP / "cases"
# What a script may ask for, and where `rt` builds it in a folder of crates.
PROGRAMS = {
    "PROGRAM": "crates/registry/out/registry",
    "REFUSALS": "crates/test_refusals/out/test_refusals",
    "WORKERS": "crates/bench_workers/out/bench_workers",
    "EMBED": "crates/example_embed/out/example_embed",
    "ONE_BY_ONE": "crates/example_one_by_one/out/example_one_by_one",
    "LIBRARY": "out/library",
}
# These are run by hand, or by what else is tried.
BY_HAND = {"run-planted"}
# What a script is given before its programs: for a proved one, and for an unproved one, or none.
PROVED, UNPROVED = 0, 1
WORDS: Mapping[str, tuple[list[str], list[str]]] = {
    "run-first-answers": (["--try"], []),
    "run-second-answer": ([], ["--days", "100"]),
    "run-streams": ([], ["--short"]),
}
# Too slow for daily work: these are left to the whole check.
SLOW = {
    "run-large-cases", "run-edits", "run-library", "run-callers", "run-refusals", "run-seams", "run-workers",
    "run-embed",
}  # fmt: skip
# The seconds that each takes alone, about, of a proved and of an unproved program, until a check has measured it here.
SECONDS: Mapping[str, float] = {
    "run-first-answers": 200, "run-second-answer": 200, "run-cases": 60, "run-streams": 120, "run-decision-table": 60,
    "run-desk": 150, "run-door": 80, "run-office": 200, "run-forms": 120, "run-day": 150, "run-intake": 60,
    "run-misuse": 60,
    "run-release": 90, "run-large-cases": 60, "run-tools": 70, "run-pages": 60, "run-audit": 60, "run-prefixes": 30,
    "run-documents": 30, "run-words": 30, "run-trust": 40, "run-handover": 20, "run-explain": 20, "run-attacks": 60,
    "run-kills": 60, "run-bytes": 30, "run-upgrade": 20,
}  # fmt: skip
SECONDS_OF_OTHERS = 15.0
NO_PYTEST = "pytest is not installed (python3-pytest)"
# What earlier checks have measured.
MEASURED = TOP / "out/seconds-of-trials.json"


@dataclass(frozen=True)
class Trials:
    """Some trials: what they are called, the programs that they need, and those that they take if there are any."""

    name: str
    needs: tuple[str, ...] = ()
    takes: tuple[str, ...] = ()

    @property
    def is_slow(self) -> bool:
        return self.name in SLOW

    @property
    def is_of_office(self) -> bool:
        """Whether neither program nor kit is needed."""
        return not self.needs and not self.is_slow

    @property
    def shown(self) -> str:
        return self.name if "/" in self.name else f"cases/{self.name}"

    def command(self, programs: Mapping[str, Path], kind: int) -> list[Word]:
        """What tries them, with these programs, of which `kind` says whether they are proved."""
        if self.name.endswith(".py"):
            options = [f"--{word.lower().replace('_', '-')}={path}" for word, path in programs.items()]
            return [*pytest_command(), "--count", "-q", self.shown, *options]
        given = [programs[word] for word in (*self.needs, *self.takes) if word in programs]
        behind = ["cases"] if self.name == "run-cases" else []
        return [self.shown, *WORDS.get(self.name, ([], []))[kind], *given, *behind]


def usage_of(script: Path) -> str:
    found = re.search(r"^usage: .*", script.read_text(encoding="utf-8"), re.MULTILINE)
    return found[0].replace("REGISTRY", "PROGRAM") if found else ""


def trials_of(script: Path) -> Trials:
    usage = usage_of(script)
    words = [word for word in re.findall(r"\[?\b[A-Z_]+\b\]?", usage) if word.strip("[]") in PROGRAMS]
    needs = tuple(word for word in words if word[0] != "[")
    return Trials(script.name, needs, tuple(word.strip("[]") for word in words if word[0] == "["))


def every() -> list[Trials]:
    """All trials: the scripts, the files of functions, and the types of the Python."""
    scripts = [path for path in sorted(CASES.glob("run-*")) if path.name not in BY_HAND]
    functions = [Trials(path.name, takes=tuple(PROGRAMS)) for path in sorted(CASES.glob("test_*.py"))]
    return [*map(trials_of, scripts), *functions, Trials("tools/types")]


def pytest_command() -> list[Word]:
    """What starts pytest: by the Python on the PATH, or by that of the system. Without it, a line says what is left
    out."""
    for python in (sys.executable, "/usr/bin/python3"):
        if said(python, "-c", "import pytest; print('yes')") == "yes":
            return [python, "-B", "-m", "pytest"]
    return ["sh", "-c", f'echo "LEFT OUT: $3: {NO_PYTEST}"; echo "0 passed, 0 failed"', "sh"]


# How long they take.


def seconds_measured() -> dict[str, float]:
    try:
        found = json.loads(MEASURED.read_text(encoding="utf-8"))
        return {name: float(seconds) for name, seconds in found.items()}
    except (OSError, ValueError, AttributeError, TypeError):
        return {}


def keep_seconds(seconds: Mapping[str, float]) -> None:
    MEASURED.parent.mkdir(exist_ok=True)
    MEASURED.write_text(json.dumps({**seconds_measured(), **seconds}, indent=1) + "\n", encoding="utf-8")


def seconds_of(trials: Trials, measured: Mapping[str, float]) -> float:
    return measured.get(trials.shown, SECONDS.get(trials.name, SECONDS_OF_OTHERS))


def longest_first(trials: Iterable[Trials], measured: Mapping[str, float]) -> list[Trials]:
    return sorted(trials, key=lambda each: (-seconds_of(each, measured), each.name))


def seconds_in_all(trials: Iterable[Trials], measured: Mapping[str, float], lanes: int) -> float:
    """How long they take side by side, if each begins once a processor is free."""
    busy = [0.0] * lanes
    for each in longest_first(trials, measured):
        busy[busy.index(min(busy))] += seconds_of(each, measured)
    return max(busy)


def tell(trials: Iterable[Trials], left: Iterable[Trials]) -> None:
    """Says which are tried and which are left to the whole check, and about how long it takes."""
    measured, chosen, left = seconds_measured(), [*trials], [*left]
    about = seconds_in_all(chosen, measured, processors())
    order = longest_first(chosen, measured)
    say(f"check: {len(chosen)} scripts and files of trials, in about {time_of(about)}, the longest first:")
    say("  " + " ".join(each.name.removeprefix("run-") for each in order))
    if left:
        say("  left to the whole check: " + " ".join(each.name.removeprefix("run-") for each in left))


def built_in(folder: Path) -> dict[str, Path]:
    """The programs that `rt` has built in a folder of crates."""
    return {word: folder / path for word, path in PROGRAMS.items()}


def begin(parts: Parts, trials: Iterable[Trials], programs: Mapping[str, Path], kind: int) -> None:
    """Starts trials side by side, the longest first."""
    for each in longest_first(trials, seconds_measured()):
        parts.begin(each.shown, *each.command(programs, kind))
