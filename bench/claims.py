#!/usr/bin/env -S python3 -B
"""Measures how long it takes to claim all places of a claim table from eight threads.

usage: claims.py [--repeat N]

It starts crates/test_claims/out/test_claims, which `cd crates/test_claims && rt run` builds. Each run makes
a table of 16,384 places. Eight threads with two seats each try every place: 262,144 claims, of which 16,384 are the
first of their place. Each output is compared with crates/test_claims/stdout: each place claimed once, and all
finished. Prints the least and the middle of all repeats: processor time, and the time that passed.
"""

import argparse
import resource
import statistics
import subprocess
import sys
import time
from pathlib import Path

CRATE = Path(__file__).resolve().parent.parent / "crates" / "test_claims"
PROGRAM = CRATE / "out" / "test_claims"


def run(wanted: bytes) -> tuple[float, float]:
    """The processor time of one run, and the time that passed, in milliseconds."""
    before = resource.getrusage(resource.RUSAGE_CHILDREN)
    began = time.monotonic()
    output = subprocess.run([PROGRAM], stdin=subprocess.DEVNULL, stdout=subprocess.PIPE, check=True).stdout
    passed = time.monotonic() - began
    after = resource.getrusage(resource.RUSAGE_CHILDREN)
    if output != wanted:
        sys.exit(f"claims.py: {output!r} in place of {wanted!r}")
    used = after.ru_utime + after.ru_stime - before.ru_utime - before.ru_stime
    return 1000 * used, 1000 * passed


def main() -> None:
    parser = argparse.ArgumentParser(description=__doc__.splitlines()[0])
    parser.add_argument("--repeat", type=int, default=1000, metavar="N", help="how many runs (1000)")
    repeat = max(1, parser.parse_args().repeat)
    wanted = (CRATE / "stdout").read_bytes()
    runs = [run(wanted) for _ in range(repeat)]
    print(f"{repeat} runs, each place claimed once in all of them")
    for name, times in zip(("processor time", "time that passed"), zip(*runs)):
        print(f"{name}: least {min(times):.1f} ms, middle {statistics.median(times):.1f} ms")


if __name__ == "__main__":
    main()
