#!/usr/bin/env -S python3 -B
"""Tries the program for hours: many drawn days, seams at every row, files that change meanwhile, days at every limit at
once, and a gigabyte.

usage: long.py days|orders|seams|changing|limits|gigabyte [--program PROGRAM] [--workers WORKERS] [--refusals REFUSALS]
               [--minutes N] [--count N] [--seed N] [--jobs N] [--folder FOLDER]

PROGRAM is out/registry, unless another is named. WORKERS and REFUSALS are the programs bench_workers and
test_refusals, which `cd crates/NAME && rt run` builds.

days      draws days, of both versions and all acts, damaged ones among them, some so large that they are read by
          several parts, and some with so many instructions that threads carry them out. Each is settled by one to
          eight workers on one, two and four processors in turn. Of each second run the threads are held up at random
          at their start and where they take memory (`delay.c`, which needs a C compiler, `cc`). Every answer must be
          that of the second answer (`registry_tools`). With WORKERS each day is also settled by workers that are held
          up at random at the gate.
orders    draws days, and of each many more, whose instructions are some of its own in another order, one of them
          several times now and then. PROGRAM settles each by one worker and by a drawn number of them, on one, two and
          four processors, and both must write the same. If WORKERS is named, it settles all of them in one process in
          the place of PROGRAM, by one to eight workers, of whom one is held up and the others are delayed at random: on
          copies of accounts, and then by regions of the book. Each must be the day that its instructions give one after
          another. The report of one of them must be the second answer. So far more days are tried in the same time than
          by `days`.
seams     draws such texts, and texts of cases/ that were changed (`mutations.py`). Behind drawn lines of each it puts
          so many empty ones that the program reads it by several parts, each of which begins at the next account, or
          where none follows at the next instruction. Every answer must be that of the second answer. REFUSALS, if it is
          named, reads each text by one to eight parts, and by so many that each account and each instruction begins
          one: the day, or the first fault, must be that of one thread.
changing  settles a day of 7 MB from a file that somebody cuts short, or adds rows to, at a drawn moment of the run, by
          one to eight workers in turn. The answer must be the report of the whole text, or a fault and no output. At
          its end it says how often which came; both must have come.
limits    settles days at every limit at once, by one to eight workers: 100,000 accounts with 64 representatives, 256
          trusted accounts and 7 correction factors each, 64 administrators, every day of all years, 16,384 instructions
          up to the last record number; and 1,000 accounts with 4,096 surrenders each besides. What must come out is
          made here.
gigabyte  settles such a day of 2^30 bytes, with emissions of each year, by one, four and eight workers, and refuses one
          byte more.

`days`, `orders`, `seams` and `changing` end after N minutes (left out: 10) or N texts; the same seed gives the same
texts. FOLDER is where `limits` and `gigabyte` put their texts, of up to a gigabyte, and where texts on which an answer
differs are kept (left out: out/long). N jobs run at once (left out: 1); `orders` mostly waits, so four times as many as
there are processors are right. The last line is 'N passed, M failed', which counts texts, or runs by `changing`,
`limits` and `gigabyte`.
"""
import argparse
import datetime
import functools
import itertools
import os
import re
import subprocess
import sys
import tempfile
import time
from collections.abc import Iterable, Iterator, Sequence
from concurrent.futures import ProcessPoolExecutor
from dataclasses import dataclass
from pathlib import Path
from random import Random

import beside  # noqa: F401 (it finds the modules of cases/)
from harness import TOP, Trials, program_of

from registry_tools.second import faults
import days
import fuzz
import mutations
from registry_tools.second import rules
from compared import Expected
from drawing import PAIRS, damaged_rows, drawn_rows, text_of

WORKERS = range(1, 9)
PROCESSORS = (1, 2, 4)
# Of each drawn day so many more are made, and of one with so many rows fewer: most of these are its working days, which
# are read again with each.
MORE_DAYS, FEW_MORE_DAYS, MANY_ROWS = 63, 7, 2_000
# One of so many drawn days grows until it has several parts.
ONE_GROWS = 25
# One of so many has so many instructions that threads carry them out, though there are few accounts.
ONE_IS_FULL = 5
MANY_INSTRUCTIONS = 1_024
# So many parts cut a drawn text at each of its accounts and instructions.
EACH_ROW = 300
# A text is read by so many numbers of workers, each time with other seams.
SEAMED = 3
# One of so many of these texts is drawn, and the others are changed texts of cases/; one of so many drawn ones is
# damaged.
ONE_IS_DRAWN, ONE_IS_DAMAGED = 4, 4
MOST_SECONDS, MOST_SECONDS_OF_MANY = 60, 300
MOST_INPUT = 2**30
ROUND = 64
DATE, LAST_RECORD, MOST_INSTRUCTIONS = "2025-03-31", 10**15, 16_384
# A file that changes has so many accounts, and a change comes at most so many seconds behind the start of a run.
ACCOUNTS_OF_LONG, LONGEST_WAIT = 70_000, 0.02
# What is told of an input that has a fault, or that can't be read to its end.
FAULT = re.compile(rb"(row \d+: [a-z -]+|read failed)\n")
# How many passed, and how many failed.
Tally = tuple[int, int]


@dataclass
class Words:
    """The words of the command line, and what they name."""

    part: str
    program: Path
    workers: Path | None
    refusals: Path | None
    minutes: float
    count: float
    seed: int
    jobs: int
    folder: Path
    # The library that holds threads up, which only `days` has.
    delay: Path | None = None


# The words, the number of a text, and the texts of cases/ that may be changed.
Task = tuple[Words, int, list[bytes]]


# Drawn texts.


def with_many_instructions(rows: list[str]) -> list[str]:
    """A day whose instructions come again and again, if it has some."""
    own = [place for place, row in enumerate(rows) if row.startswith("do,")]
    if not own:
        return rows
    first, behind = own[0], own[-1] + 1
    again = MANY_INSTRUCTIONS // (behind - first) + 1
    return rows[:first] + rows[first:behind] * again + rows[behind:]


def drawn_text(seed: int, chance: Random, is_damaged: bool) -> bytes:
    """A drawn day as bytes, seldom a large one."""
    rows = (damaged_rows if is_damaged else drawn_rows)(seed)
    if chance.randrange(ONE_IS_FULL) == 0:
        rows = with_many_instructions(rows)
    if chance.randrange(ONE_GROWS):
        return text_of(rows, seed)
    grown = [row.encode() for row in rows]
    mutations.grow(chance, grown)
    return b"\n".join([*grown, b""])


def expected_of(text: bytes) -> Expected:
    """What `settle` has to answer: output, line and status."""
    fault = faults.first_fault(text)
    return ("", fault, 3) if fault else (rules.answers(text)["settle"], "", 0)


def on_processors(count: int, chance: Random) -> None:
    """Lets what is started from now on run on so many processors, or on all there are."""
    os.sched_setaffinity(0, chance.sample(ALL_PROCESSORS, min(count, len(ALL_PROCESSORS))))


ALL_PROCESSORS = sorted(os.sched_getaffinity(0))


def settled_wrongly(words: Words, text: bytes, seed: int) -> tuple[int, str]:
    """How many runs of the program there were, and what is wrong with one of them."""
    chance, expected = Random(f"runs {seed}"), expected_of(text)
    for workers in WORKERS:
        on_processors(PROCESSORS[(seed + workers) % len(PROCESSORS)], chance)
        if words.delay and (seed + workers) // len(PROCESSORS) % 2:
            os.environ.update(LD_PRELOAD=str(words.delay), DELAY_SEED=str(chance.randrange(2**32)))
        said = fuzz.difference(words.program, f"settle --workers {workers}", text, expected)
        os.environ.pop("LD_PRELOAD", None)
        if said:
            return workers, said
    if words.workers and not expected[2]:
        return len(WORKERS) + 1, gated_wrongly(words.workers, text, seed, chance)
    return len(WORKERS), ""


def gated_wrongly(workers_program: Path, text: bytes, seed: int, chance: Random) -> str:
    """What is wrong with a day that is settled by workers that are held up at the gate."""
    workers = 1 + seed % len(WORKERS)
    on_processors(PROCESSORS[seed % len(PROCESSORS)], chance)
    arguments = ["try", workers, chance.randrange(workers), chance.randrange(1, 2**31), 2]
    lines, status = answer_of(workers_program, arguments, text)
    return "" if (lines, status) == (["same"] * 2, 0) else f"{arguments}: status {status}, {lines}"


def in_other_orders(chance: Random, rows: list[str]) -> Iterator[bytes]:
    """The texts of days: that of these rows, and many with some of its instructions in another order, seldom one of
    them several times."""
    first = next((place for place, row in enumerate(rows) if row.startswith("do,")), len(rows) - 1)
    start, own = "\n".join([*rows[:first], ""]).encode(), [f"{row}\n".encode() for row in rows[first:-1]]
    yield b"".join([start, *own, b"end\n"])
    for _ in range(MORE_DAYS if len(rows) < MANY_ROWS else FEW_MORE_DAYS):
        is_repeated = own and chance.random() < 0.2
        drawn = chance.choices(own, k=len(own)) if is_repeated else chance.sample(own, chance.randint(0, len(own)))
        yield b"".join([start, *drawn, b"end\n"])


def ordered_wrongly(words: Words, rows: list[str], number: int) -> tuple[bytes, int, int, str]:
    """What is wrong with the days that come of these rows, of which the first one is as it is: the texts of all of
    them, or of the one that differs; how many days and runs there were; and what is said."""
    chance = Random(f"orders {number}")
    texts = [*in_other_orders(chance, rows)]
    on_processors(PROCESSORS[number % len(PROCESSORS)], chance)
    said = all_at_once(words.workers, texts, chance) if words.workers else one_by_one(words.program, texts, chance)
    if said:
        return b"".join(texts), len(texts), 0, said
    text, workers = texts[number % len(texts)], 1 + number % len(WORKERS)
    said = fuzz.difference(words.program, f"settle --workers {workers}", text, expected_of(text))
    return text, len(texts), 2 * len(texts) + 1, said


def all_at_once(workers_program: Path, texts: list[bytes], chance: Random) -> str:
    """What is wrong with days that WORKERS settles in one process."""
    arguments = ["each", chance.randrange(1, 2**31), len(texts)]
    lines, status = answer_of(workers_program, arguments, b"".join(texts), MOST_SECONDS_OF_MANY)
    if (lines, status) == (["same"] * len(texts), 0):
        return ""
    others = [(place, line) for place, line in enumerate(lines, 1) if line != "same"]
    return f"{arguments}: status {status}, {len(lines)} lines, others than same: {others}"


def one_by_one(program: Path, texts: list[bytes], chance: Random) -> str:
    """What is wrong with a day that PROGRAM settles by one worker, and by several."""
    for place, text in enumerate(texts, 1):
        workers = chance.choice(WORKERS[1:])
        one, several = (answer_of(program, ["settle", "--workers", count], text) for count in (1, workers))
        if one != several or one[1] != 0:
            differ = [pair for pair in itertools.zip_longest(one[0], several[0]) if len({*pair}) > 1]
            return f"day {place}, {workers} workers: status {one[1]} and {several[1]}, {differ[:1]}"
    return ""


def answer_of(
    program: Path, arguments: Sequence[object], text: bytes, most_seconds: int = MOST_SECONDS
) -> tuple[list[str], int | None]:
    """The lines that a program writes, and its status, if it answers in time."""
    try:
        run = subprocess.run([program, *map(str, arguments)], input=text, capture_output=True, timeout=most_seconds)
    except subprocess.TimeoutExpired:
        return [f"no answer in {most_seconds} seconds"], None
    return run.stdout.decode(errors="replace").splitlines(), run.returncode


def padded(chance: Random, text: bytes, parts: int) -> bytes:
    """The text with empty lines behind some of its lines, so many that it is read by so many parts, if it has that many
    accounts or instructions."""
    places = [found.end() for found in re.finditer(b"\n", text)]
    cuts = sorted(chance.choices(places, k=2 * parts)) if places else []
    pieces = [text[first:last] for first, last in zip([0, *cuts], [*cuts, len(text)])]
    return (b"\n" * (fuzz.PART * parts // max(1, len(cuts)) + 1)).join(pieces)


def seamed_wrongly(words: Words, text: bytes, seed: int) -> tuple[int, str]:
    """What is wrong with a text that is read by parts, with other seams for each number of workers."""
    chance = Random(f"seams {seed}")
    # Empty lines change nothing where there are no quotes.
    expected = None if b'"' in text else expected_of(text)
    for workers in chance.sample(WORKERS[1:], SEAMED):
        longer = padded(chance, text, workers)
        said = fuzz.difference(words.program, f"settle --workers {workers}", longer, expected or expected_of(longer))
        if said:
            return workers, said
    if words.refusals:
        return SEAMED + len(WORKERS) + 1, read_wrongly(words.refusals, text)
    return SEAMED, ""


def read_wrongly(refusals: Path, text: bytes) -> str:
    """What is wrong with a text that test_refusals reads by parts."""
    calls = [f"read_day_of_pieces:{parts}" for parts in [*WORKERS, EACH_ROW]]
    lines, status = answer_of(refusals, calls, text)
    wanted = [line for call in calls for line in (call, "begin", "end", "done", "right")]
    return "" if (lines, status) == (wanted, 0) else f"status {status}, {[*set(lines) - set(wanted)]}"


def try_text(task: Task) -> tuple[bytes, int, int, str]:
    """Draws a text and tries it, or many at once: the bytes of one that differs, how many texts and runs there were,
    and what is wrong."""
    words, seed, cases = task
    chance = Random(f"long {words.seed} {seed}")
    number = 10_000_000 * words.seed + seed
    if words.part == "orders":
        return ordered_wrongly(words, drawn_rows(number), number)
    if words.part == "seams" and seed % ONE_IS_DRAWN:
        text = mutations.mutated(chance, chance.choice(cases), chance.choice(cases), False)
    else:
        text = drawn_text(number, chance, chance.randrange(ONE_IS_DAMAGED) == 0)
    runs, said = (seamed_wrongly if words.part == "seams" else settled_wrongly)(words, text, number)
    return text, 1, runs, said


def try_drawn(words: Words) -> Tally:
    """Tries drawn texts until the time is over, and says once a minute how many. Answers how many passed and failed."""
    until, passed, failed, runs, said_at = time.monotonic() + 60 * words.minutes, 0, 0, 0, time.monotonic()
    cases, seeds = (fuzz.first_texts() if words.part == "seams" else []), itertools.count()
    with ProcessPoolExecutor(words.jobs) as pool:
        while time.monotonic() < until and passed + failed < words.count:
            tasks = [(words, seed, cases) for seed in itertools.islice(seeds, ROUND)]
            for text, texts, count, said in pool.map(try_text, tasks):
                passed, failed, runs = passed + texts - bool(said), failed + bool(said), runs + count
                if said:
                    print(f"DIFFERS: {fuzz.Corpus.save(words.folder, text)}: {said[:400]}", flush=True)
            if time.monotonic() - said_at > fuzz.SAY_AFTER:
                said_at = time.monotonic()
                print(f"{passed + failed} texts, {runs} runs, {failed} differ", flush=True)
    print(f"{passed + failed} texts, {runs} runs")
    return passed, failed


# Files that change meanwhile.


@functools.cache
def long_day() -> tuple[bytes, bytes]:
    """A day text of some MB, and its report."""
    text = "".join(f"{row}\n" for row in days.day_text(ACCOUNTS_OF_LONG, 1_000)).encode()
    return text, rules.answers(text)["settle"].encode()


def change(chance: Random, path: Path) -> None:
    """Cuts a file short somewhere, or adds a row or an empty line to it."""
    if chance.random() < 0.5:
        os.truncate(path, chance.randrange(path.stat().st_size))
    else:
        with path.open("ab") as file:
            file.write(chance.choice([b"\n", b"end\n"]))


def changed_meanwhile(task: Task) -> tuple[bool, str]:
    """Whether the file was read before somebody changed it, and what is wrong with the answer."""
    words, number, _ = task
    chance, (text, report) = Random(f"changing {words.seed} {number}"), long_day()
    workers = str(WORKERS[number % len(WORKERS)])
    with tempfile.TemporaryDirectory() as folder:
        path = Path(folder, "day.csv")
        path.write_bytes(text)
        with path.open("rb") as file, subprocess.Popen(
            [words.program, "settle", "--workers", workers], stdin=file, stdout=subprocess.PIPE, stderr=subprocess.PIPE
        ) as run:
            time.sleep(chance.random() * LONGEST_WAIT)
            change(chance, path)
            output, errors = run.communicate(timeout=MOST_SECONDS)
    is_whole = (output, errors, run.returncode) == (report, b"", 0)
    is_refused = not output and run.returncode in (3, 5) and FAULT.fullmatch(errors)
    said = f"{workers} workers, run {number}: status {run.returncode}, {len(output)} bytes, {errors[:100]!r}"
    return is_whole, "" if is_whole or is_refused else said


def try_changing(words: Words) -> Tally:
    """Tries files that change until the time is over. Answers how many runs passed and failed."""
    until, whole, failed, runs = time.monotonic() + 60 * words.minutes, 0, 0, 0
    with ProcessPoolExecutor(words.jobs) as pool:
        while time.monotonic() < until and runs < words.count:
            for is_whole, said in pool.map(changed_meanwhile, [(words, runs + place, []) for place in range(ROUND)]):
                runs, whole, failed = runs + 1, whole + is_whole, failed + bool(said)
                if said:
                    print(f"DIFFERS: {said}", flush=True)
    faults_told = runs - whole - failed
    print(f"{runs} runs: {whole} had read the text before, {faults_told} told a fault")
    return runs - failed, failed + (not whole) + (not faults_told)


# Days at every limit.


def heading(is_whole: bool) -> Iterator[str]:
    """The rows before the accounts: as many as there may be of each kind."""
    yield f"format,2\nday,{DATE},{LAST_RECORD - MOST_INSTRUCTIONS + 1}\n"
    yield "".join(f"period,{year},{year}\n" for year in range(2021, 2029)) + "current,8\nlags,0,1000,1000,1000\n"
    yield "".join(f"surrender,{pair}\n" for pair in PAIRS)
    yield "".join(f"admin,{number}\n" for number in range(901, 965))
    first, count = datetime.date(2021, 1, 1), 29_219 if is_whole else 2_000
    yield "".join(f"work,{first + datetime.timedelta(place)}\n" for place in range(count))


FACTORS = "".join(f"correction,{period},{-LAST_RECORD + period}\n" for period in range(2, 9))
USERS = "".join(f"user,{number},both\n" for number in range(101, 165))
TRUSTED = "".join(f"trusted,{number},{DATE}\n" for number in range(1, 257))
EMISSIONS = "".join(f"emissions,{year},1000000000000\n" for year in range(2021, 2101))


class TransferDay:
    """16,384 transfers, each from another account to one of the 256 that all accounts trust."""

    accounts, receivers = 100_000, 256

    def __init__(self, lists: str = "") -> None:
        self.lists = FACTORS + USERS + TRUSTED + lists

    def source(self, place: int) -> int:
        return self.receivers + 1 + 5 * place

    def account(self, number: int, held: int) -> str:
        return f"account,{number},trading,{number},open,no,no,0,{held},0\n{self.lists}"

    def instruction(self, place: int) -> str:
        return f"{DATE},101,164,transfer,{self.source(place)},{1 + place % self.receivers},general,{1 + place}"

    def opening(self, number: int) -> int:
        return 0 if number <= self.receivers else 10**15

    def text(self) -> Iterator[str]:
        yield from heading(True)
        yield from (self.account(number, self.opening(number)) for number in range(1, self.accounts + 1))
        yield from (f"do,{self.instruction(place)}\n" for place in range(MOST_INSTRUCTIONS))
        yield "end\n"

    def report(self) -> Iterator[str]:
        held = {number: self.opening(number) for number in range(1, self.accounts + 1)}
        for place in range(MOST_INSTRUCTIONS):
            source, to = self.source(place), 1 + place % self.receivers
            held[source] -= 1 + place
            held[to] += 1 + place
            record = LAST_RECORD - MOST_INSTRUCTIONS + 1 + place
            yield f"log,{record},{DATE},{self.instruction(place)},done,,{source},{held[source]},0,{to},{held[to]},0\n"
        yield f"book,{LAST_RECORD + 1}\n"
        yield from (self.account(number, held[number]) for number in range(1, self.accounts + 1))
        yield f"totals,general,{sum(held.values())},0,0\ntotals,aviation,0,0,0\nend\n"


class ReversalDay(TransferDay):
    """16,384 reversals on a thousand accounts that have surrendered as often as an account can."""

    accounts, rows = 1_000, 4_096

    def opening(self, number: int) -> int:
        return 0

    def account(self, number: int, held: int, reversed_rows: int = 0) -> str:
        flags = enumerate(["yes"] * reversed_rows + ["no"] * (self.rows - reversed_rows), 1)
        rows = "".join(f"retired,{record},surrender,general,7,{DATE},{flag},8\n" for record, flag in flags)
        held += 7 * reversed_rows
        return f"account,{number},operator,{number},open,no,no,0,{held},0\n{FACTORS}{USERS}{TRUSTED}{rows}"

    def instruction(self, place: int) -> str:
        return f"{DATE},901,964,reverse,{1 + place % self.accounts},{1 + place // self.accounts}"

    def report(self) -> Iterator[str]:
        for place in range(MOST_INSTRUCTIONS):
            number, record = 1 + place % self.accounts, LAST_RECORD - MOST_INSTRUCTIONS + 1 + place
            held = 7 * (1 + place // self.accounts)
            yield f"log,{record},{DATE},{self.instruction(place)},done,,{number},{held},0\n"
        yield f"book,{LAST_RECORD + 1}\n"
        each, more = divmod(MOST_INSTRUCTIONS, self.accounts)
        yield from (self.account(number, 0, each + (number <= more)) for number in range(1, self.accounts + 1))
        left = 7 * (self.rows * self.accounts - MOST_INSTRUCTIONS)
        yield f"totals,general,{7 * MOST_INSTRUCTIONS},{left},0\ntotals,aviation,0,0,0\nend\n"


def write_text(path: Path, day: TransferDay, bytes_wanted: int = 0) -> int:
    """Writes a day to a file, and answers its size; behind its row `end` empty lines, up to so many bytes."""
    with open(path, "wb", buffering=1 << 20) as file:
        for piece in day.text():
            file.write(piece.encode())
        size = file.tell()
        if size > bytes_wanted > 0:
            raise SystemExit(f"long.py: the day has {size} bytes, more than {bytes_wanted}")
        for at in range(size, bytes_wanted, 1 << 20):
            file.write(b"\n" * min(1 << 20, bytes_wanted - at))
    return path.stat().st_size


def differs(program: Path, arguments: list[str], path: Path, wanted: Iterable[str]) -> str:
    """What is wrong with a run on the text of a file; `wanted` gives its output piece by piece."""
    with open(path, "rb") as text, subprocess.Popen(
        [program, *arguments], stdin=text, stdout=subprocess.PIPE, stderr=subprocess.DEVNULL, bufsize=1 << 20
    ) as run:
        assert run.stdout is not None
        said = ""
        for number, piece in enumerate(wanted, 1):
            found = run.stdout.read(len(piece))
            if found != piece.encode():
                said = f"piece {number} is {found[:200]!r}, and has to be {piece[:200]!r}"
                break
        if not said and run.stdout.read(1):
            said = "more is written than there has to be"
        if said:
            run.kill()
    return said or (f"status {run.returncode}" if run.returncode else "")


def totals_of(day: TransferDay) -> list[str]:
    """The last rows of a report: what the command `totals` writes."""
    return [piece for piece in day.report() if piece.startswith("totals,")]


def try_day(
    words: Words, name: str, day: TransferDay, counts: Iterable[int], bytes_wanted: int = 0
) -> tuple[Path, Tally]:
    """Runs a day by these numbers of workers, and `totals`. Answers how many runs passed and failed."""
    path = words.folder / f"{name}.csv"
    size, passed, failed = write_text(path, day, bytes_wanted), 0, 0
    for workers in [*counts, 0]:
        arguments = ["settle", "--workers", str(workers)] if workers else ["totals"]
        begun = time.monotonic()
        said = differs(words.program, arguments, path, day.report() if workers else totals_of(day))
        passed, failed = passed + (not said), failed + bool(said)
        took = f"{time.monotonic() - begun:.0f} s"
        print(f"{name}, {size} bytes, {' '.join(arguments)}: {said or 'as it has to be'}, {took}", flush=True)
    return path, (passed, failed)


def try_limits(words: Words) -> Tally:
    passed = failed = 0
    for name, day in (("transfers", TransferDay()), ("reversals", ReversalDay())):
        path, tally = try_day(words, name, day, WORKERS)
        path.unlink()
        passed, failed = passed + tally[0], failed + tally[1]
    return passed, failed


def try_gigabyte(words: Words) -> Tally:
    path, (passed, failed) = try_day(words, "gigabyte", TransferDay(EMISSIONS), (1, 4, 8), MOST_INPUT)
    with open(path, "ab") as file:
        file.write(b"\n")
    with open(path, "rb") as text:
        run = subprocess.run([words.program, "settle"], stdin=text, capture_output=True)
    path.unlink()
    is_refused = (run.returncode, run.stdout, run.stderr) == (5, b"", b"read failed\n")
    print(f"one byte more: {'refused' if is_refused else run.stderr[:200]}")
    return passed + is_refused, failed + (not is_refused)


def arguments() -> Words:
    parser = argparse.ArgumentParser(description=__doc__, formatter_class=argparse.RawDescriptionHelpFormatter)
    parser.add_argument("part", choices=["days", "orders", "seams", "changing", "limits", "gigabyte"])
    parser.add_argument("--program", type=program_of, default=str(TOP / "out" / "registry"))
    parser.add_argument("--workers", type=program_of)
    parser.add_argument("--refusals", type=program_of)
    parser.add_argument("--minutes", type=float, default=10)
    parser.add_argument("--count", type=float, default=float("inf"))
    parser.add_argument("--seed", type=int, default=1)
    parser.add_argument("--jobs", type=int, default=1)
    parser.add_argument("--folder", type=Path, default=TOP / "out" / "long")
    words = Words(**vars(parser.parse_args()))
    words.folder.mkdir(parents=True, exist_ok=True)
    return words


def main() -> int:
    words, trials = arguments(), Trials()
    with tempfile.TemporaryDirectory() as work:
        if words.part == "days":
            words.delay = Path(work, "delay.so")
            source = TOP / "bench" / "delay.c"
            subprocess.run(["cc", "-shared", "-fPIC", "-O1", "-o", words.delay, source, "-ldl"], check=True)
        parts = {"changing": try_changing, "limits": try_limits, "gigabyte": try_gigabyte}
        trials.passed, trials.failed = parts.get(words.part, try_drawn)(words)
    return trials.end()


if __name__ == "__main__":
    sys.exit(main())
