"""What is asked of the kit, whose command is `rt`."""
from __future__ import annotations

import re
import shutil
import subprocess
from pathlib import Path

from gate import TOP
from gate.parts import say

ASIDE = TOP / ".git/rt-aside"
# What `rt ci` sets aside of a crate's folder out/ while it runs.
SET_ASIDE = ("incremental", "rlib")
NO_RT = """\
The command rt is not on the PATH. It proves and builds the program: install the Rattle kit
that README.md names, or put the folder of its rt on the PATH. Without it, ./demo shows what Python
alone can do, and tools/rules.py settle < DAY gives the second answer."""


def is_there() -> bool:
    """Whether there is `rt`. If there is none, it says so."""
    if shutil.which("rt"):
        return True
    say(NO_RT)
    return False


def rt_said(*words: str, folder: Path = TOP) -> str:
    """What `rt` writes on both streams."""
    run = subprocess.run(
        ["rt", *words], cwd=folder, stdin=subprocess.DEVNULL, stdout=subprocess.PIPE, stderr=subprocess.STDOUT,
        check=False,
    )  # fmt: skip
    return run.stdout.decode(errors="replace")


def help_of_ci() -> str:
    """What the kit's own help says of `rt ci`, if it says something: its lines up to those of another command."""
    is_ci, lines = False, []
    for line in rt_said("help").splitlines():
        if re.match(r" *rt ", line):
            is_ci = bool(re.match(r" *rt ci( |$)", line))
        if not line.strip():
            is_ci = False
        lines += [line] if is_ci else []
    return "\n".join(lines)


def word_for_anew(work: Path) -> list[str]:
    """The word by which `rt ci` proves all from nothing, if it takes one: the kit's own help of `rt ci` tells it. A kit
    that keeps nothing always does so. Where the help does not tell the word, it is tried where there is nothing to
    prove: a kit that does not take it shows how rt is used."""
    if "--anew" not in help_of_ci():
        none = work / "none"
        none.mkdir()
        if rt_said("ci", "--anew", folder=none).startswith("usage:"):
            return []
    return ["--anew"]


def put_back() -> None:
    """Puts back what earlier checks kept, and an `rt ci` here set aside that did not come to its end: by the kit's own
    step, and where a kit tells of none, by this."""
    rt = shutil.which("rt")
    if not ASIDE.is_dir() or not rt:
        return
    words = [TOP / "tools/put-back", Path(rt).resolve(), ASIDE.relative_to(TOP)]
    if subprocess.run(words, cwd=TOP, capture_output=True, stdin=subprocess.DEVNULL, check=False).returncode == 0:
        return
    for kept in (path for part in SET_ASIDE for path in ASIDE.glob(f"*/{part}") if path.is_dir()):
        place = TOP / "crates" / kept.parent.name / "out" / kept.name
        place.parent.mkdir(parents=True, exist_ok=True)
        shutil.rmtree(place, ignore_errors=True)
        if not place.exists():
            kept.rename(place)
