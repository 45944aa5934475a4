#!/usr/bin/env -S python3 -B
"""Tries workers that steal on drawn batches, and measures all ways of settling a day beside each other.

usage: workers.py [--repeat N] [--samples N] [--processors N] [--seed N]

It starts crates/bench_workers/out/bench_workers, which `cd crates/bench_workers && rt run` builds.

Tries
  - batches of one to sixty drawn transfers by one to eight workers, each batch ten times with one worker held up before
    each run, and ten times with delays of all workers that are drawn; each run on copies, and then by regions of the
    book. It must give the day that settling one instruction after another gives, have each instruction in one shift,
    once, and let the workers enter the gate in a legal order, each with the places of its shift. With
    --processors N the program has that many processors.
Measures, for 16,384 transfers that are wide (no two share an account), chained (each touches an account of the one
before it) and mixed (random pairs of 2,000 accounts), the milliseconds of processor time and of the clock, least of
all repeats, without those of reading the text: of settling plainly, in batch order on values of their own, level by
level, by workers that steal and by workers that own regions of the book, the last three for each number of workers.
`regions` settles a book in one list, which is cut before, and `list-regions` one in the lists in which the program's
threads leave it. All of them in turn, in one run.
"""

import argparse
import itertools
import os
import resource
import subprocess
import time
from pathlib import Path
from random import Random

import days
from orders import draw_pairs

PROGRAM = Path(__file__).resolve().parent.parent / "crates" / "bench_workers" / "out" / "bench_workers"
WORKERS = range(1, 9)
# No worker has this number, so none is held up.
NOBODY = 9


def program(data: bytes, *words: object) -> tuple[list[str], float, float]:
    """What the program writes, its milliseconds of processor time, and those of the clock."""
    before = resource.getrusage(resource.RUSAGE_CHILDREN)
    begun = time.monotonic()
    done = subprocess.run([PROGRAM, *map(str, words)], input=data, stdout=subprocess.PIPE, check=True, timeout=120)
    passed = time.monotonic() - begun
    after = resource.getrusage(resource.RUSAGE_CHILDREN)
    used = after.ru_utime + after.ru_stime - before.ru_utime - before.ru_stime
    return done.stdout.decode().splitlines(), 1000 * used, 1000 * passed


def try_samples(samples: int, chance: Random) -> None:
    """Drawn batches by workers that are delayed."""
    tried = 0
    for _ in range(samples):
        accounts = chance.randint(2, 12)
        transfers = draw_pairs(accounts + 1, chance.randint(1, 60), chance)
        data = days.of_transfers(accounts, transfers)
        workers = chance.choice(WORKERS)
        held_up, seed = chance.randrange(workers), chance.randrange(1, 2**31)
        for delays in ((held_up, 0), (NOBODY, seed)):
            lines, _, _ = program(data, "try", workers, *delays, 10)
            if lines != ["same"] * 10:
                raise SystemExit(f"workers.py: {workers} workers, delays {delays}, {transfers}: {lines}")
            tried += 10
    wanted = "the plain day, each place in one shift, in a legal order"
    print(f"{tried} runs of {samples} drawn batches, in both ways, gave {wanted}")


def shapes(chance: Random) -> dict[str, bytes]:
    """The three days, by name."""
    most = 16_384
    wide = days.of_transfers(2 * most, [(2 * k + 1, 2 * k + 2) for k in range(most)])
    chained = days.of_transfers(most + 1, [(k + 1, k + 2) for k in range(most)])
    mixed = days.of_transfers(2_000, draw_pairs(2_000, most, chance))
    return {"wide": wide, "chained": chained, "mixed": mixed}


def ways() -> list[tuple[object, ...]]:
    """All ways of settling, as the program's words."""
    several = ("levels", "stealing", "regions", "list-regions")
    return [("plain",), ("place",), ("order",), *itertools.product(several, WORKERS)]


def reading_of(words: tuple[object, ...]) -> tuple[object, ...]:
    """The words that read the text as these do, and do nothing else."""
    return ("lists", *words[1:]) if words[0] == "list-regions" else ("read",)


def measure(repeat: int, chance: Random) -> None:
    """The least times of each way, without those of reading."""
    for name, data in shapes(chance).items():
        least: dict[tuple[object, ...], tuple[float, float]] = {}
        for _ in range(repeat):
            for words in dict.fromkeys([*map(reading_of, ways()), *ways()]):
                _, used, passed = program(data, *words)
                old = least.get(words, (used, passed))
                least[words] = (min(old[0], used), min(old[1], passed))
        read = least[("read",)]
        print(f"\n{name}: reading takes {read[0]:.0f} ms of processor time, {read[1]:.0f} ms of the clock")
        print("| way | processor time | clock |\n|---|---|---|")
        for words in ways():
            (used, passed), read = least[words], least[reading_of(words)]
            print(f"| {' '.join(map(str, words))} | {used - read[0]:.1f} ms | {passed - read[1]:.1f} ms |")


def main() -> None:
    parser = argparse.ArgumentParser(description=__doc__, formatter_class=argparse.RawDescriptionHelpFormatter)
    parser.add_argument("--repeat", type=int, default=9)
    parser.add_argument("--samples", type=int, default=100)
    parser.add_argument("--processors", type=int)
    parser.add_argument("--seed", type=int, default=1)
    words = parser.parse_args()
    if words.processors:
        os.sched_setaffinity(0, sorted(os.sched_getaffinity(0))[: words.processors])
    chance = Random(words.seed)
    try_samples(words.samples, chance)
    if words.repeat:
        measure(words.repeat, chance)


if __name__ == "__main__":
    main()
