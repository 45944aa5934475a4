"""Builds the library for other languages in a folder in which its crates are proved, and tries it beside a program.

usage: python3 -m gate.library FOLDER WORK PROGRAM

FOLDER has the crates, WORK is a folder for what lies there for a while. The last line is that of cases/run-library; the
status tells also of cases/run-callers.
"""
from __future__ import annotations

import subprocess
import sys
from pathlib import Path

from gate import TOP
from gate.parts import Parts, say

# If the libraries below were proved again, this would take an hour: it is ended before.
MINUTES = 20
# A proof takes much memory: see tools/with-memory, and the status by which it says that there was too little.
GIGABYTES = 6
NO_MEMORY = 75
LINES_SHOWN = 20


def begin(parts: Parts, folder: Path, program: Path) -> None:
    """Starts this beside other parts."""
    python = ["env", f"PYTHONPATH={TOP / 'tools'}", sys.executable, "-B", "-m", "gate.library"]
    parts.begin("check_library", *python, folder, parts.work, program, has_bound=False)


def build(folder: Path, log: Path) -> int:
    """Has `rt` build it, and answers the status."""
    crate = folder / "crates/registry_c"
    with log.open("wb") as stream:
        noted = subprocess.run([TOP / "tools/note-libraries", folder], stdout=stream, stderr=stream, check=False)
        if noted.returncode != 0:
            return noted.returncode
        words: list[str | Path] = [TOP / "tools/with-memory", str(GIGABYTES), "timeout", f"{MINUTES}m", "rt", "lib"]
        return subprocess.run(words, cwd=crate, stdout=stream, stderr=stream, check=False).returncode


def main(folder: Path, work: Path, program: Path) -> int:
    log = work / "library.log"
    status = build(folder, log)
    lines = log.read_text(encoding="utf-8", errors="replace").splitlines()
    if status == NO_MEMORY:
        say(f"LEFT OUT: the library for other languages: {lines[-1]}")
        say("0 passed, 0 failed")
        return 0
    if status != 0:
        say("\n".join(lines[-LINES_SHOWN:]))
        return 1
    archive, made = folder / "crates/registry_c/out/libregistry_c.a", work / "library"
    if subprocess.run([TOP / "tools/library", "--from", archive, made], check=False).returncode != 0:
        return 1
    callers = subprocess.run([TOP / "cases/run-callers", made], check=False).returncode
    return subprocess.run([TOP / "cases/run-library", made, program], check=False).returncode or callers


if __name__ == "__main__":
    sys.exit(main(*map(Path, sys.argv[1:])))
