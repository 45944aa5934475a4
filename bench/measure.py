#!/usr/bin/env -S python3 -B
"""Measures how much processor time and memory the program takes, and how they grow.

usage: measure.py [--repeat N] [--commands | PROGRAM ARGUMENT ..]

PROGRAM with its arguments reads a day text on standard input and writes the log rows or the report.
Without PROGRAM, the program of this repository is measured: out/registry settle.

Prints
  - for a full day (100,000 accounts, 16,384 transfers) the seconds of processor time and the peak
    of resident memory;
  - the same for 1,000 to 100,000 accounts, and for 1,000 to 16,384 transfers, with the exponent of
    each axis: the power of the size by which the time grew over the last step. The time of a day
    with almost nothing on that axis is subtracted first. 1 is linear;
  - with --commands, in place of both: each command of the program on a full day without lists, on
    one in which each operator has the surrenders, emissions and figures of four years, and on one in
    which these are of eight periods, and each operator has a correction factor for each later one.
Times are the least of all repeats, memory is the greatest. The texts or commands take turns, so that
a busy moment of the machine affects all of them. Each output is looked through: every transfer must
have its row, and be done, and the totals, if they are written, must be the sums of the text.
"""

import argparse
import math
import os
import subprocess
import sys
import tempfile
from collections.abc import Mapping, Sequence
from pathlib import Path
from typing import NamedTuple

import days

OWN_PROGRAM = str(Path(__file__).resolve().parent.parent / "out" / "registry")

SECONDS_ALLOWED = 300  # of processor time, to one run


class Day(NamedTuple):
    """How large a day is."""

    accounts: int
    instructions: int
    years: int = 0
    periods: int = 1


FULL_DAY = Day(100_000, 16_384)
FULL_DAY_WITH_LISTS = Day(100_000, 16_384, 4)
FULL_DAY_OF_PERIODS = Day(100_000, 16_384, 4, days.MOST_PERIODS)
FEW_TRANSFERS = 500  # on each text of the first axis; 1,000 accounts are 500 distinct pairs
MANY_ACCOUNTS = 32_768  # on each text of the second axis; 16,384 distinct pairs
BY_ACCOUNTS = [Day(accounts, FEW_TRANSFERS) for accounts in (days.FEWEST_ACCOUNTS, 1_000, 10_000, 100_000)]
BY_INSTRUCTIONS = [Day(MANY_ACCOUNTS, instructions) for instructions in (0, 1_000, 4_096, 16_384)]
COMMANDS = [["settle"], ["plan"], ["statement", str(days.number(0))], ["figures"], ["totals"]]


class Task(NamedTuple):
    """What is measured: a program with its arguments, on a day."""

    words: tuple[str, ...]
    day: Day


class Cost(NamedTuple):
    """Processor seconds and megabytes."""

    seconds: float
    megabytes: float


# Runs in a process of its own that is as small as Python can be: no run can show less memory than
# the process that started it had.
ONE_RUN = """
import os, resource, sys
seconds, text, output, *words = sys.argv[1:]
resource.setrlimit(resource.RLIMIT_CPU, (int(seconds), int(seconds)))
made = os.O_WRONLY | os.O_CREAT | os.O_TRUNC
files = [(os.POSIX_SPAWN_OPEN, 0, text, os.O_RDONLY, 0), (os.POSIX_SPAWN_OPEN, 1, output, made, 0o600)]
child = os.posix_spawnp(words[0], words, os.environ, file_actions=files)
_, status, used = os.wait4(child, 0)
print(os.waitstatus_to_exitcode(status), used.ru_utime + used.ru_stime, used.ru_maxrss)
"""


def run(words: Sequence[str | Path], text: str | Path, output: str | Path) -> Cost:
    """The cost of one run; ends the script where the run fails."""
    starter: list[str | Path] = [sys.executable, "-I", "-S", "-c", ONE_RUN, str(SECONDS_ALLOWED), text, output, *words]
    told = subprocess.run(starter, stdout=subprocess.PIPE, check=True).stdout.split()
    if told[0] != b"0":
        sys.exit(f"measure.py: {words[0]} ended with status {told[0].decode()} on {Path(text).name}")
    return Cost(float(told[1]), int(told[2]) / 1024)


def look_through(output: Path, task: Task) -> None:
    """Ends the script where the output is not what this day has to give."""
    rows = output.read_text(encoding="ascii").splitlines()
    found = {"log": 0, "task": 0, "determined": 0}
    for row in rows:
        tag = row.split(",", 1)[0]
        if tag in found:
            found[tag] += tag != "log" or ",done,," in row
    written = {tag: count for tag, count in found.items() if count}
    if task.words[-1] == "plan":
        wanted = {"task": task.day.instructions}
    elif task.words[-1] == "figures":
        wanted = {"determined": task.day.years * sum(map(days.has_years, range(task.day.accounts)))}
    elif task.words[-1] == "totals":
        wanted = {}
    elif task.words[-2:-1] == ("statement",):
        wanted = {"log": 1}
    else:
        wanted = {"log": task.day.instructions}
    if written != {tag: count for tag, count in wanted.items() if count}:
        sys.exit(f"measure.py: rows that were written: {written}, wanted: {wanted}")
    totals = [row for row in rows if row.startswith("totals,")]
    if totals and totals != days.totals(task.day.accounts, task.day.years):
        sys.exit("measure.py: the totals are not the sums of the text")


def measure(tasks: Sequence[Task], repeat: int) -> dict[Task, Cost]:
    """The least seconds and the greatest megabytes of each task."""
    with tempfile.TemporaryDirectory(prefix="registry-bench-") as folder:
        texts: dict[Day, Path] = {}
        output = Path(folder, "output")
        for task in tasks:
            if task.day not in texts:
                path = Path(folder, f"day-{len(texts)}.csv")
                with path.open("w", encoding="ascii") as text:
                    text.writelines(f"{row}\n" for row in days.day_text(*task.day))
                texts[task.day] = path
            run(task.words, texts[task.day], output)
            look_through(output, task)
        runs: dict[Task, list[Cost]] = {task: [] for task in tasks}
        for _ in range(repeat):
            for task in tasks:
                runs[task].append(run(task.words, texts[task.day], os.devnull))
    return {
        task: Cost(min(cost.seconds for cost in costs), max(cost.megabytes for cost in costs))
        for task, costs in runs.items()
    }


def growth(title: str, axis: int, sizes: Sequence[Day], found: Mapping[Day, Cost]) -> None:
    """Prints one axis: the days by rising size, the first of which is what is taken off."""
    least, *steps = sizes
    base = found[least].seconds
    print(f"\n{title}")
    print(f"  {'':>9}  {'seconds':>8}  {'MB':>6}  {'seconds less the first':>22}")
    for size in sizes:
        cost = found[size]
        more = "" if size == least else f"{cost.seconds - base:22.4f}"
        print(f"  {size[axis]:9,}  {cost.seconds:8.4f}  {cost.megabytes:6.1f}  {more}".rstrip())
    small, large = (found[size].seconds - base for size in steps[-2:])
    if min(small, large) <= 0:
        print("  exponent of the last step: none, the times are too small to tell")
        return
    exponent = math.log(large / small) / math.log(steps[-1][axis] / steps[-2][axis])
    print(f"  exponent of the last step: {exponent:.2f}")


def show_growth(words: tuple[str, ...], repeat: int) -> None:
    """Measures the full day and both axes."""
    sizes = dict.fromkeys([FULL_DAY, *BY_ACCOUNTS, *BY_INSTRUCTIONS])
    found = {task.day: cost for task, cost in measure([Task(words, size) for size in sizes], repeat).items()}
    cost = found[FULL_DAY]
    print(f"\na full day, {FULL_DAY.accounts:,} accounts and {FULL_DAY.instructions:,} transfers: "
          f"{cost.seconds:.4f} seconds of processor time, {cost.megabytes:.1f} MB")
    growth(f"accounts, {FEW_TRANSFERS:,} transfers each", 0, BY_ACCOUNTS, found)
    growth(f"transfers, {MANY_ACCOUNTS:,} accounts each", 1, BY_INSTRUCTIONS, found)


def show_commands(repeat: int) -> None:
    """Measures each command, on a full day without lists, with lists, and with those of several periods."""
    for day in (FULL_DAY, FULL_DAY_WITH_LISTS, FULL_DAY_OF_PERIODS):
        found = measure([Task((OWN_PROGRAM, *command), day) for command in COMMANDS], repeat)
        lists = f", and {day.years} years of surrenders, emissions and figures of each operator" if day.years else ""
        periods = f", in {day.periods} periods" if day.periods > 1 else ""
        print(f"\n{day.accounts:,} accounts and {day.instructions:,} transfers{lists}{periods}")
        print(f"  {'':14}  {'seconds':>8}  {'MB':>6}")
        for task, cost in found.items():
            print(f"  {' '.join(task.words[1:]):14}  {cost.seconds:8.4f}  {cost.megabytes:6.1f}")


def main() -> None:
    words = argparse.ArgumentParser(
        description=__doc__, formatter_class=argparse.RawDescriptionHelpFormatter)
    words.add_argument("--repeat", type=int, default=9, help="runs of each text (default 9)")
    words.add_argument("--commands", action="store_true", help="measure each command on a full day")
    words.add_argument("program", nargs=argparse.REMAINDER, metavar="PROGRAM ARGUMENT ..")
    given = words.parse_args()
    program = tuple(given.program) or (OWN_PROGRAM, "settle")
    if given.commands and given.program:
        sys.exit("measure.py: --commands measures the program of this repository alone")
    if not os.access(program[0], os.X_OK):
        sys.exit(f"measure.py: there is no program {program[0]}; ./run --prove builds it")
    if given.repeat < 1:
        sys.exit("measure.py: repeat at least once")

    floor = run(["true"], os.devnull, os.devnull).megabytes
    print(f"program: {program[0] if given.commands else ' '.join(program)}")
    print(f"least of {given.repeat} runs, load {os.getloadavg()[0]:.1f} on {os.cpu_count()} cores; "
          f"no process shows less than {floor:.1f} MB here")
    if given.commands:
        show_commands(given.repeat)
    else:
        show_growth(program, given.repeat)


if __name__ == "__main__":
    main()
