"""How a script of trials tells pytest of each trial, and how one trial that raises loses no other one.

`pytest cases` starts a script with two descriptors in its environment: by one it hears of each trial, by the other it
answers whether a trial is wanted (collecting.py). A script that is started by hand tells nobody.
"""
from __future__ import annotations

import functools
import inspect
import json
import os
import re
import sys
import time
import traceback
from collections.abc import Callable, Iterator
from pathlib import Path
from types import ModuleType
from typing import Any

CASES = Path(__file__).resolve().parent
# What the environment says: the descriptor to tell by, and the one to hear by.
ASKED_BY = "TRIALS_ASKED_BY"
# What is answered by functions that give trials: a name, and what makes the trial, or what came of it.
PART = re.compile(
    r"Iterator\[(Told|tuple\[str, (object|bool|str \| None|Trial|[\w.]*Callable\[\.\.\., object\])\])\]"
)
Part = Callable[..., Iterator[tuple[str, Any]]]
# How many trials each part had that was entered.
TRIALS_OF: dict[str, int] = {}


class Listener:
    """Who hears of each trial."""

    def __init__(self, told: int, heard: int) -> None:
        for descriptor in (told, heard):
            os.set_inheritable(descriptor, False)
        self.told, self.heard = told, os.fdopen(heard, encoding="utf-8")
        self.since = time.monotonic()
        # Where the trial stands that is made now.
        self.place: tuple[str, int] | None = None

    def say(self, **said: object) -> None:
        line = json.dumps(said).encode() + b"\n"
        while line:
            line = line[os.write(self.told, line) :]

    def wants(self, name: str) -> bool:
        """Whether a trial of this name is to be made."""
        self.say(asked=name)
        return self.heard.readline() == "yes\n"

    def tell(self, name: str, **said: object) -> None:
        """Tells what came of a trial, with its place, how long it took, and how much was written up to its end."""
        sys.stdout.flush()
        sys.stderr.flush()
        now, place = time.monotonic(), self.place or caller()
        self.say(name=name, place=place, seconds=now - self.since, written=os.fstat(1).st_size, **said)
        self.since, self.place = now, None


@functools.cache
def listener() -> Listener | None:
    """Who hears of each trial, if somebody does."""
    descriptors = os.environ.pop(ASKED_BY, "")
    return Listener(*map(int, descriptors.split())) if descriptors else None


def caller() -> tuple[str, int]:
    """The line of a script that has come to a trial."""
    frame = sys._getframe()
    while frame.f_back and Path(frame.f_code.co_filename).name in ("listening.py", "harness.py"):
        frame = frame.f_back
    return frame.f_code.co_filename, frame.f_lineno


def place_of(trial: object) -> tuple[str, int] | None:
    """Where the function stands that makes a trial."""
    while isinstance(trial, functools.partial):
        trial = trial.func
    code = getattr(trial, "__code__", None)
    return (code.co_filename, code.co_firstlineno) if code else None


def raised() -> str:
    """What was raised just now, as a failed trial shows it."""
    return "\n" + traceback.format_exc().rstrip()


def failing(kind: str, why: str) -> object:
    """What a part gives with a name, for a trial that has failed: what is wrong, what makes the trial, or no."""

    def fail() -> None:
        raise AssertionError(why)

    if kind == "bool":
        print(why)
        return False
    return fail if kind == "Trial" or "Callable" in kind else why


def apart(part: Part, kind: str, left_out: type[Exception]) -> Part:
    """The part of a script as one that fails by itself: where it raises, this is a failed trial."""

    @functools.wraps(part)
    def kept(*given: object, **named: object) -> Iterator[tuple[str, object]]:
        made = part(*given, **named)
        TRIALS_OF.setdefault(part.__name__, 0)
        try:
            for said in made:
                TRIALS_OF[part.__name__] += 1
                heard, frame = listener(), getattr(made, "gi_frame", None)
                if heard and frame and not heard.place:
                    heard.place = frame.f_code.co_filename, frame.f_lineno
                yield said
        except left_out:
            # (what is left out is told so, and is no part without a trial)
            if not TRIALS_OF[part.__name__]:
                del TRIALS_OF[part.__name__]
            raise
        except Exception:
            TRIALS_OF[part.__name__] += 1
            yield part.__name__, failing(kind, raised())

    return kept


def adding_apart(part: Callable[..., None], left_out: type[Exception]) -> Callable[..., None]:
    """The part of a script that adds its trials itself, as one that fails by itself."""

    @functools.wraps(part)
    def kept(*given: Any, **named: Any) -> None:
        trials = [each for each in (*given, *named.values()) if type(each).__name__ == "Trials"][0]
        before = trials.told
        try:
            part(*given, **named)
        except left_out:
            raise
        except Exception:
            trials.add(part.__name__, raised())
        TRIALS_OF[part.__name__] = TRIALS_OF.get(part.__name__, 0) + trials.told - before

    return kept


def empty_parts() -> list[str]:
    """The parts that were entered, and had no trial."""
    return [name for name, count in TRIALS_OF.items() if count == 0]


def keep_parts_apart(left_out: type[Exception]) -> None:
    """Has each part of the scripts that are loaded fail by itself."""
    for module in [*sys.modules.values()]:
        file = getattr(module, "__file__", None)
        if file and Path(file).resolve().parent == CASES and Path(file).name not in ("listening.py", "harness.py"):
            keep_module(module, left_out)


def keep_module(module: ModuleType, left_out: type[Exception]) -> None:
    for name, function in [*vars(module).items()]:
        if not inspect.isfunction(function) or hasattr(function, "__wrapped__"):
            continue
        kinds = {key: str(kind) for key, kind in function.__annotations__.items()}
        answers = kinds.pop("return", "")
        part = PART.search(answers)
        if part and inspect.isgeneratorfunction(function):
            setattr(module, name, apart(function, part[2] or "object", left_out))
        elif answers == "None" and any(re.search(r"\bTrials\b", kind) for kind in kinds.values()):
            setattr(module, name, adding_apart(function, left_out))
