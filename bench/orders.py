#!/usr/bin/env -S python3 -B
"""Tries orders of a batch and schedules of workers, and measures how long planning and running take.

usage: orders.py [--repeat N] [--samples N] [--seed N]

It starts crates/bench_workers/out/bench_workers, which `cd crates/bench_workers && rt run` builds.

Tries
  - batches of up to six instructions: every permutation of the places. As many must give the day that
    settling one instruction after another gives as there are legal orders, counted here by brute force
    from the accounts that the instructions touch, and each other one must be refused with its first fault;
  - a batch of twenty instructions with thirty arrows or more: legal orders drawn at random, which must all
    give that day, and other lists drawn at random (permutations, repeated numbers, numbers that are no
    place, another length), which must be refused with their first fault;
  - schedules of one to eight workers, whose events are drawn, of batches of one to sixty instructions: each must
    end, and give that day.
Measures, for 16,384 transfers that are chained (each touches an account of the one before it), wide (no two
share an account) and mixed (random pairs of 2,000 accounts), the seconds of processor time, least of all
repeats, of reading the text, settling it, making its plan, running it in batch order and by a schedule of four workers.
"""

import argparse
import itertools
import resource
import subprocess
import sys
from collections.abc import Sequence
from pathlib import Path
from random import Random

import days
from days import Transfer

PROGRAM = Path(__file__).resolve().parent.parent / "crates" / "bench_workers" / "out" / "bench_workers"


def program(data: bytes, *words: str) -> tuple[list[str], float]:
    """What the program writes, and its processor time."""
    before = resource.getrusage(resource.RUSAGE_CHILDREN)
    done = subprocess.run([PROGRAM, *words], input=data, stdout=subprocess.PIPE, check=True)
    after = resource.getrusage(resource.RUSAGE_CHILDREN)
    used = after.ru_utime + after.ru_stime - before.ru_utime - before.ru_stime
    return done.stdout.decode().splitlines(), used


def arrows(transfers: Sequence[Transfer]) -> dict[int, list[tuple[int, int]]]:
    """For each place its inward arrows, as pairs of tail and account: by the accounts alone."""
    inward: dict[int, list[tuple[int, int]]] = {}
    for place, touched in enumerate(transfers, 1):
        found = []
        for account in set(touched):
            before = [p for p in range(1, place) if account in transfers[p - 1]]
            if before:
                found.append((before[-1], account))
        inward[place] = sorted(found)
    return inward


def answer(transfers: Sequence[Transfer], order: Sequence[int]) -> str:
    """What the program must write for an order."""
    inward = arrows(transfers)
    if len(order) != len(transfers):
        return "the order has another length than the batch"
    came: set[int] = set()
    for at, place in enumerate(order, 1):
        if not 1 <= place <= len(transfers):
            return f"the number at position {at} is no place"
        if place in came:
            return f"the number at position {at} has come already"
        for tail, _ in inward[place]:
            if tail not in came:
                return f"instruction {place} comes before {tail}"
        came.add(place)
    return "same"


def is_legal(transfers: Sequence[Transfer], order: Sequence[int]) -> bool:
    """Whether of two instructions that share an account the earlier one always comes first."""
    at = {place: k for k, place in enumerate(order)}
    return all(
        at[p] < at[q]
        for p, q in itertools.combinations(range(1, len(transfers) + 1), 2)
        if set(transfers[p - 1]) & set(transfers[q - 1])
    )


def draw_legal(transfers: Sequence[Transfer], chance: Random) -> list[int]:
    """A legal order: at random one of the instructions that may be next."""
    inward = arrows(transfers)
    order: list[int] = []
    while len(order) < len(transfers):
        ready = [p for p in inward if p not in order and all(t in order for t, _ in inward[p])]
        order.append(chance.choice(ready))
    return order


def draw_other(transfers: Sequence[Transfer], chance: Random) -> list[int]:
    """A list that is hardly ever a legal order."""
    order = draw_legal(transfers, chance)
    kind = chance.randrange(5)
    if kind == 0:
        chance.shuffle(order)
    elif kind == 1:
        order[chance.randrange(len(order))] = chance.randrange(0, len(order) + 3)
    elif kind == 2:
        order = order[:-1] if chance.random() < 0.5 else order + [1]
    elif kind == 3:
        i, j = chance.sample(range(len(order)), 2)
        order[i], order[j] = order[j], order[i]
    else:
        order[chance.randrange(len(order))] = order[0]
    return order


def draw_pairs(accounts: int, count: int, chance: Random) -> list[Transfer]:
    drawn = (chance.sample(range(1, accounts + 1), 2) for _ in range(count))
    return [(source, target) for source, target in drawn]


def try_lists(name: str, accounts: int, transfers: Sequence[Transfer], lists: Sequence[Sequence[int]]) -> int:
    """Tries lists, and answers how many of them gave the settled day."""
    words = [",".join(map(str, order)) for order in lists]
    lines, _ = program(days.of_transfers(accounts, transfers), "orders", *words)
    wanted = [answer(transfers, order) for order in lists]
    for order, line, want in zip(lists, lines, wanted, strict=True):
        if line != want:
            sys.exit(f"orders.py: {name}: {transfers} in the order {order}: {line!r} in place of {want!r}")
    return lines.count("same")


def try_small(chance: Random) -> None:
    """Every permutation of small batches."""
    for count in range(1, 7):
        for _ in range(8):
            accounts = chance.randrange(2, 8)
            transfers = draw_pairs(accounts, count, chance)
            lists = list(itertools.permutations(range(1, count + 1)))
            legal = sum(is_legal(transfers, order) for order in lists)
            if try_lists("small", accounts, transfers, lists) != legal:
                sys.exit(f"orders.py: {transfers} has {legal} legal orders")
    print("small batches: every permutation answered as counted")


def count_arrows(transfers: Sequence[Transfer]) -> int:
    return sum(len(inward) for inward in arrows(transfers).values())


def try_samples(samples: int, chance: Random) -> None:
    """Drawn lists of a batch of twenty instructions with thirty arrows or more."""
    transfers: list[Transfer] = []
    while (count := count_arrows(transfers)) < 30:
        transfers = draw_pairs(10, 20, chance)
    legal = [draw_legal(transfers, chance) for _ in range(samples)]
    other = [draw_other(transfers, chance) for _ in range(samples)]
    same = try_lists("legal", 10, transfers, legal)
    mixed = try_lists("other", 10, transfers, other)
    print(f"20 instructions, {count} arrows: {same} of {samples} legal orders gave the settled day; "
          f"of {samples} other lists {samples - mixed} were refused with their first fault, and {mixed} were legal")


def try_schedules(samples: int, chance: Random) -> None:
    """Drawn schedules of drawn batches."""
    tried = 0
    while tried < samples:
        accounts, count = chance.randrange(2, 20), chance.randrange(1, 61)
        transfers = draw_pairs(accounts, count, chance)
        words = [f"{chance.randrange(1, 9)}:{chance.randrange(2 ** 32)}" for _ in range(20)]
        lines, _ = program(days.of_transfers(accounts, transfers), "orders", *words)
        for word, line in zip(words, lines, strict=True):
            if line != "same":
                sys.exit(f"orders.py: {transfers} by the schedule {word}: {line!r}")
        tried += len(words)
    print(f"schedules of one to eight workers: all of {tried} gave the settled day")


def measure(repeat: int, chance: Random) -> None:
    """Seconds of processor time."""
    most = days.MOST_INSTRUCTIONS
    batches = {
        "chained": (2_000, [(1 + k % 2_000, 1 + (k + 1) % 2_000) for k in range(most)]),
        "wide": (2 * most, [(2 * k + 1, 2 * k + 2) for k in range(most)]),
        "mixed": (2_000, draw_pairs(2_000, most, chance)),
    }
    words = ("read", "plain", "plan", "order", "schedule")
    print(f"{'':9}{''.join(f'{word:>9}' for word in words)}   (seconds; the last four without reading)")
    for name, (accounts, transfers) in batches.items():
        data = days.of_transfers(accounts, transfers)
        least = {word: min(program(data, word)[1] for _ in range(repeat)) for word in words}
        rest = "".join(f"{least[word] - least['read']:9.3f}" for word in words[1:])
        print(f"{name:9}{least['read']:9.3f}{rest}")


def main() -> None:
    parser = argparse.ArgumentParser(description="Tries and measures orders of a batch.")
    parser.add_argument("--repeat", type=int, default=9)
    parser.add_argument("--samples", type=int, default=1_000)
    parser.add_argument("--seed", type=int, default=1)
    words = parser.parse_args()
    chance = Random(words.seed)
    try_small(chance)
    try_samples(words.samples, chance)
    try_schedules(words.samples, chance)
    measure(words.repeat, chance)


if __name__ == "__main__":
    main()
