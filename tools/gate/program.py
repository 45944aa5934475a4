"""What is built at the top of the repository, as `./run` builds and keeps it: tools/program.sh and tools/unproved.sh
say how."""
from __future__ import annotations

import os
import subprocess
from collections.abc import Iterable
from pathlib import Path

from gate import TOP
from gate.parts import Parts, Word

# Where `rt` builds the program in a folder, and where `./run` keeps it, and the unproved build.
BUILT = Path("crates/registry/out/registry")
PROGRAM, UNPROVED = TOP / "out/registry", TOP / "out/registry.unproved"
BUILD_LOGS = TOP / "out/proofs"
FIRST = TOP / "examples/first-transfer.csv"
# Calls a function of these scripts. `$BUILT` is where the program was built, `$WORK` a folder for a while.
CALL = """
set -euo pipefail
top=$1
shift
say() { printf 'check: %s\\n' "$*"; }
for part in common program unproved; do . "$top/tools/$part.sh"; done
[ -z "${BUILT-}" ] || built=$BUILT
work=${WORK-}
"$@"
"""


def shell(function: str, *words: Word) -> list[Word]:
    """The command that calls a function of the scripts."""
    return ["bash", "-c", CALL, "bash", TOP, function, *words]


def answer(function: str, *words: Word, **environment: Word) -> tuple[str, bool]:
    """What a function writes, and whether it went well."""
    run = subprocess.run(
        shell(function, *words), stdin=subprocess.DEVNULL, stdout=subprocess.PIPE, text=True, check=False,
        env={**os.environ, **{name: str(value) for name, value in environment.items()}},
    )  # fmt: skip
    return run.stdout.rstrip("\n"), run.returncode == 0


def said(*words: Word) -> str:
    """What a command writes, without its last line end."""
    return subprocess.run(words, capture_output=True, text=True, check=False, stdin=subprocess.DEVNULL).stdout.strip()


def crates(*words: str) -> list[str]:
    """What `tools/crates` lists."""
    return said(TOP / "tools/crates", *words).split()


def newer(parts: Iterable[Path], made: Path) -> Path | None:
    """One of these files and folders that is newer than what was made, if one is. Folders count too, so that a removed
    file is noticed."""
    time = made.stat().st_mtime_ns
    for part in parts:
        for path in (part, *(part.rglob("*") if part.is_dir() else ())):
            if path.lstat().st_mtime_ns > time:
                return path
    return None


def reason_to_build() -> str:
    """Why the program has to be built; nothing if it is there, and what was proved of the sources as they are."""
    return answer("reason_to_build")[0]


def source() -> str:
    """Which commit the sources of the program are, and whether they were changed since."""
    return answer("source_of")[0]


def keep(begun: Path, of: str, folder: Path = TOP) -> bool:
    """Puts a copy of the program that `rt` has built in a folder into its place. The file `begun` was made before the
    build: what was changed since is newer."""
    return answer("keep_program", begun, of, BUILT=folder / BUILT)[1]


def build(parts: Parts) -> bool:
    """Proves all that the program uses, and builds and keeps it."""
    BUILD_LOGS.mkdir(parents=True, exist_ok=True)
    begun, of = parts.work / "build-begun", source()
    begun.touch()
    with open(FIRST, "rb") as day:
        words: list[Word] = [TOP / "tools/prove", "registry", BUILD_LOGS]
        status = parts.wait_for(subprocess.Popen(words, cwd=TOP, stdin=day, start_new_session=True))
    return status == 0 and keep(begun, of)


def show_build_log() -> None:
    """Shows the end of what rt said last in a build that failed, and where it lies."""
    subprocess.run(shell("show_build_log"), stdin=subprocess.DEVNULL, check=False)


# The unproved build.


def is_unproved_current() -> bool:
    """Whether there is an unproved build of these sources."""
    return answer("is_unproved_current")[1]


def note_of_unproved() -> str:
    """What it is, and from what it was made."""
    return answer("note_of_unproved")[0]


def keep_unproved(parts: Parts) -> bool:
    """Makes the unproved build. Answers whether it could be kept; what rt said is in the work folder."""
    environment = {**os.environ, "WORK": str(parts.work)}
    process = subprocess.Popen(
        shell("keep_unproved"), stdin=subprocess.DEVNULL, env=environment, start_new_session=True
    )
    return parts.wait_for(process, whole_group=True) == 0


def forget() -> None:
    """Removes what an interrupted build left."""
    for path in [*(TOP / "out").glob("registry.[0-9]*"), *(TOP / "out").glob("registry.unproved.[0-9]*")]:
        path.unlink(missing_ok=True)
