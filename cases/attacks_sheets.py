"""Tables and texts that are made to take all memory or hours, and the like (hostile_tables.py). Each must be told by
what is too much or wrong in it, within a gigabyte of memory and a minute of the processor."""
from __future__ import annotations

import random
import resource
import subprocess
from collections.abc import Iterator
from pathlib import Path

from harness import TOP

from hostile_tables import CELLS, CSV, GOOD, HANDED, OPEN_DOCUMENTS, WORKBOOKS, cell, ods, row
from opened import open_document, written

Attempts = Iterator[tuple[str, object]]
# What one command may take, as docs/FORMATS.md says.
MOST_MEMORY, MOST_PROCESSOR_SECONDS = 1 << 30, 60
DRAWN = 100


def bounded() -> None:
    """Lets a command take no more than it may."""
    resource.setrlimit(resource.RLIMIT_AS, (MOST_MEMORY, MOST_MEMORY))
    resource.setrlimit(resource.RLIMIT_CPU, (MOST_PROCESSOR_SECONDS, MOST_PROCESSOR_SECONDS))


def told_of(path: Path, wanted: str, *command: object) -> object:
    """What is wrong with what a command says of a file, if it has to say this."""
    words = [str(word) for word in command or ("import", path)]
    said = subprocess.run([TOP / "day", *words], capture_output=True, check=False, preexec_fn=bounded)
    told = said.stderr.decode("utf-8", "surrogateescape")
    is_so = said.returncode == 3 and wanted in told and str(path) in told and not said.stdout
    return None if is_so and not unseen(told) else f"status {said.returncode}: {told[-700:]!r}"


def unseen(told: str) -> str:
    """What a message must show by a number, and does not."""
    return "".join(letter for letter in told if letter != "\n" and not letter.isprintable())


def table_attempts(work: Path) -> Attempts:
    """Each table as a file that somebody imports."""
    for ending, own in (("ods", OPEN_DOCUMENTS), ("xlsx", WORKBOOKS), ("csv", CSV)):
        for what, (make, wanted) in own.items():
            path = work / f"table.{ending}"
            path.write_bytes(make())
            yield f"{ending}: {what}", told_of(path, wanted)
            path.unlink()
    small = ods(row(cell("x", 16_384), times=1_048_576))
    yield "the smallest of them has some hundred bytes", None if len(small) < 600 else len(small)


def handed_attempts(work: Path) -> Attempts:
    """Each text as a file that somebody hands in."""
    office = work / "office"
    first, program = TOP / "examples/week/monday.csv", TOP / "tools/rules.py"
    init: list[str | Path] = [TOP / "day", "init", office, first, "--program", program]
    subprocess.run(init, check=True, capture_output=True)
    for what, (name, make, wanted) in HANDED.items():
        path = work / name
        path.write_bytes(make())
        yield f"handed in: {what}", told_of(path, wanted, "hand-in", path, "--office", office)
        path.unlink()
    path = work / "table.ods"
    path.write_bytes(OPEN_DOCUMENTS["one cell for all of a sheet"][0]())
    yield "handed in: one cell for all of a sheet", told_of(path, CELLS, "hand-in", path, "--office", office)
    names = ["label", "--file", path, "--why", "x", "--office", office]
    yield "names: one cell for all of a sheet", told_of(path, CELLS, *names)


def drawn_attempts(work: Path) -> Attempts:
    """Good tables of which some bytes are others: each is read, or told, and nothing else."""
    draw = random.Random(0)
    good = {"ods": open_document(GOOD), "xlsx": written("xlsx", GOOD), "csv": written("csv", GOOD)}
    for place in range(DRAWN):
        ending = draw.choice([*good])
        content = bytearray(good[ending])
        for _ in range(draw.choice((1, 1, 2, 5, 50))):
            at = draw.randrange(len(content))
            how = draw.randrange(4)
            if how == 0:
                content[at] = draw.randrange(256)
            elif how == 1:
                del content[at : at + draw.randrange(1, 40)]
            elif how == 2:
                content[at:at] = draw.choice(PUT_IN)
            else:
                content[at:at] = content[draw.randrange(len(content)) :][:60]
        path = work / f"drawn.{ending}"
        path.write_bytes(content)
        said = subprocess.run([TOP / "day", "import", path], capture_output=True, check=False, preexec_fn=bounded)
        is_so = said.returncode in (0, 3) and (said.returncode or said.stdout) and b"Traceback" not in said.stderr
        told = said.stderr.decode("utf-8", "surrogateescape")
        yield f"drawn {place}, {ending}", None if is_so and not unseen(told) else f"{said.returncode}: {told[-700:]!r}"


# What is put between the bytes of a good table.
PUT_IN = (b"\0", b"\xff" * 4, b"9" * 40, b"<a>", b"&x;", b'"', b"PK\x05\x06", b"\n" * 9)
PARTS = (
    ("hostile tables", table_attempts),
    ("hostile texts", handed_attempts),
    ("drawn tables", drawn_attempts),
)
