#!/usr/bin/env -S python3 -B
"""Measures how long a day takes through the library, beside the program with one worker.

usage: library.py [--library FOLDER] [--repeat N] [DAY ..]

FOLDER is what `tools/library` has made (left out: out/library). Each DAY is settled by calls of `registry_settle` in
one process, with the text and the room in memory, and by `out/registry settle --workers 1`, which also reads and
writes. Both take turns, N times (left out: 15). Without DAY, a full day is settled, once without and once with the
lists of four years.

Prints for each day the least processor time (user and system) of a call and of the program, what the first divided by
the second is, and the time of the first call of a process, to which the system has given no memory yet. It needs a C
compiler, `cc`.
"""
import argparse
import os
import subprocess
import tempfile
from collections.abc import Iterator
from pathlib import Path

import days
import measure

TOP = Path(__file__).resolve().parent.parent
CALLS_A_TURN = 3
WRAPS = "-Wl,--wrap=malloc,--wrap=realloc,--wrap=free"


def build(library: Path, folder: Path) -> Path:
    """The program that calls the library."""
    program = folder / "calls"
    words = ["cc", "-D_GNU_SOURCE", "-O2", "-pthread", str(TOP / "tools" / "calls.c")]
    words += [f"-I{library}/include", WRAPS, f"{library}/lib/libregistry.a", "-o", str(program)]
    subprocess.run(words, check=True)
    return program


def made_days(folder: Path) -> Iterator[Path]:
    for years in (0, 4):
        path = folder / f"day-{years}.csv"
        with path.open("w", encoding="ascii") as text:
            text.writelines(f"{row}\n" for row in days.day_text(days.MOST_ACCOUNTS, days.MOST_INSTRUCTIONS, years))
        yield path


def calls_of(program: Path, path: Path) -> tuple[float, float]:
    """The milliseconds of the first call, and of the fastest one."""
    day = path.read_bytes()
    call = b"settle 0 %d\n%s" % (len(day), day)
    run = subprocess.run([program, "time", str(CALLS_A_TURN)], input=call, stdout=subprocess.PIPE, check=True)
    first, least = map(float, run.stdout.split())
    return first, least


def main() -> None:
    parser = argparse.ArgumentParser(description=__doc__, formatter_class=argparse.RawDescriptionHelpFormatter)
    parser.add_argument("--library", default=TOP / "out/library", type=Path)
    parser.add_argument("--repeat", default=15, type=int)
    parser.add_argument("days", metavar="DAY", nargs="*", type=Path)
    words = parser.parse_args()
    os.environ.setdefault("GLIBC_TUNABLES", "glibc.malloc.hugetlb=1")
    settle = [measure.OWN_PROGRAM, "settle", "--workers", "1"]
    with tempfile.TemporaryDirectory(prefix="registry-bench-") as name:
        folder = Path(name)
        calls = build(words.library.resolve(), folder)
        for path in words.days or made_days(folder):
            firsts, leasts, costs = [], [], []
            for _ in range(words.repeat):
                first, least = calls_of(calls, path)
                firsts.append(first)
                leasts.append(least)
                costs.append(1000 * measure.run(settle, path, os.devnull).seconds)
            call, program = min(leasts), min(costs)
            shown = f"a call {call:.0f} ms, the program {program:.0f} ms: {call / program:.2f}"
            print(f"{path.name}: {shown}; a first call {min(firsts):.0f} ms", flush=True)


if __name__ == "__main__":
    main()
