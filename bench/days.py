#!/usr/bin/env python3
"""Writes a large day text: accounts, and transfers between different pairs of them.

usage: days.py [--accounts N] [--instructions N] [--years N] [--periods N] > day.csv

The same arguments always give the same bytes. Each account has a user who proposes and one who
approves. Each transfer is done: it is due, and the account holds enough. The pairs are all different
if there are twice as many accounts as instructions; with fewer accounts they repeat. With --years,
each operator and aircraft operator has that many surrenders, emissions and determined figures. With
--periods, there are that many periods, of a year each but the last: then each of these accounts has a
correction factor for each later period, and its surrenders are for the periods of their years.
"""

import argparse
import datetime
import math
import sys
from collections.abc import Iterator, Sequence

# Two accounts: from and to.
Transfer = tuple[int, int]

SETTLEMENT_DAY = datetime.date(2025, 3, 31)
FIRST_RECORD = 100_000_001
KINDS = ("operator", "aircraft", "trading")

FIRST_YEAR, LAST_YEAR = 2021, 2030

# The limits of a day text, and what is written where nothing is said.
FEWEST_ACCOUNTS, MOST_ACCOUNTS = 2, 100_000
MOST_INSTRUCTIONS = 16_384
MOST_YEARS = 10  # from the first to the last
MOST_PERIODS = 8


def number(index: int) -> int:
    """The number of the account at an index; numbers rise and have gaps."""
    return 1_000 + 7 * index


def holding(index: int) -> int:
    """The general allowances that the account at an index begins with."""
    return 1_000_000 + index * 104_729 % 1_000_000_000


def amount(place: int) -> int:
    """The amount of the transfer at a place, far below every holding."""
    return 1 + place * 613 % 1_000


def period_of(year: int, periods: int) -> int:
    """The number of the period of a year, where there are so many."""
    return min(year - FIRST_YEAR + 1, periods)


def heading(periods: int) -> Iterator[str]:
    """The rows before the accounts. Every weekday of 2025 is a working day."""
    yield f"format,{1 if periods == 1 else 2}"
    yield f"day,{SETTLEMENT_DAY},{FIRST_RECORD}"
    for year in range(FIRST_YEAR, FIRST_YEAR + periods):
        yield f"period,{year},{year if period_of(year, periods) < periods else LAST_YEAR}"
    if periods > 1:
        yield f"current,{period_of(SETTLEMENT_DAY.year, periods)}"
    yield "lags,0,2,2,60"
    first = datetime.date(2025, 1, 1)
    for days in range(365):
        day = first + datetime.timedelta(days)
        if day.weekday() < 5:
            yield f"work,{day}"


def account(index: int) -> str:
    """The row of one account. Aircraft operators hold aviation allowances too."""
    kind = KINDS[index % 3]
    aviation = holding(index) if kind == "aircraft" else 0
    return f"account,{number(index)},{kind},{index + 1},open,yes,no,0,{holding(index)},{aviation}"


def users(index: int) -> tuple[int, int]:
    """The users who propose and approve for the account at an index."""
    return 3 * index + 1_001, 3 * index + 1_002


def representatives(index: int) -> Iterator[str]:
    """The rows of these users."""
    proposer, approver = users(index)
    yield f"user,{proposer},propose"
    yield f"user,{approver},approve"


def has_years(index: int) -> bool:
    """Whether the account at an index has surrenders, emissions and figures."""
    return KINDS[index % 3] != "trading"


def surrendered(place: int) -> int:
    """What each of these accounts surrendered in the year at a place: what it emitted."""
    return 10_000 + 37 * place


def correction(period: int) -> int:
    """The correction factor of each of these accounts for a period."""
    return 0 if period == 1 else period


def corrections(index: int, periods: int) -> Iterator[str]:
    """The rows of the correction factors of one account."""
    if has_years(index):
        for period in range(2, periods + 1):
            yield f"correction,{period},{correction(period)}"


def lists(index: int, years: int, periods: int) -> Iterator[str]:
    """The rows of the lists of one account. Each of its figures is the correction factor of its period."""
    if has_years(index):
        for place in range(years):
            period = period_of(FIRST_YEAR + place, periods)
            row = f"retired,{1 + MOST_YEARS * index + place},surrender,general,{surrendered(place)},2025-03-03,no"
            yield row if period == 1 else f"{row},{period}"
        for place in range(years):
            yield f"emissions,{FIRST_YEAR + place},{surrendered(place)}"
        for place in range(years):
            year = FIRST_YEAR + place
            yield f"figure,{year},{correction(period_of(year, periods))}"


def pairs(accounts: int) -> Iterator[Transfer]:
    """The indices of from and to, without end: all accounts once, in a mixed order, then again."""
    even = accounts - accounts % 2
    stride = next(step for step in range(even * 5 // 8 + 1, 2 * even + 2) if math.gcd(step, even) == 1)
    place = 0
    while True:
        yield place * stride % even, (place + 1) * stride % even
        place += 2


def transfer(place: int, source: int, target: int) -> str:
    """The row of one transfer, proposed one to three weeks before the settlement day."""
    proposed = SETTLEMENT_DAY - datetime.timedelta(7 + place % 13)
    proposer, approver = users(source)
    return (f"do,{proposed},{proposer},{approver},"
            f"transfer,{number(source)},{number(target)},general,{amount(place)}")


def day_text(accounts: int, instructions: int, years: int = 0, periods: int = 1) -> Iterator[str]:
    """The rows of a whole day text."""
    yield from heading(periods)
    for index in range(accounts):
        yield account(index)
        yield from corrections(index, periods)
        yield from representatives(index)
        yield from lists(index, years, periods)
    for place, (source, target) in zip(range(instructions), pairs(accounts)):
        yield transfer(place, source, target)
    yield "end"


def totals(accounts: int, years: int = 0) -> list[str]:
    """The rows of totals. Transfers leave them as they are."""
    general = sum(holding(index) for index in range(accounts))
    aviation = sum(holding(index) for index in range(accounts) if KINDS[index % 3] == "aircraft")
    gone = sum(map(surrendered, range(years))) * sum(map(has_years, range(accounts)))
    return [f"totals,general,{general},{gone},0", f"totals,aviation,{aviation},0,0"]


def of_transfers(accounts: int, transfers: Sequence[Transfer]) -> bytes:
    """The day text of these transfers between accounts 1 to `accounts`."""
    rows = ["format,1", f"day,{SETTLEMENT_DAY},1", "period,2021,2030", "lags,0,1,1,2", f"work,{SETTLEMENT_DAY}"]
    # Accounts of one holder trust each other.
    both = "user,101,propose\nuser,102,approve"
    rows += [f"account,{n},trading,1,open,no,no,0,100,0\n{both}" for n in range(1, accounts + 1)]
    rows += [f"do,{SETTLEMENT_DAY},101,102,transfer,{a},{b},general,{1 + k % 60}" for k, (a, b) in enumerate(transfers)]
    return "\n".join(rows + ["end", ""]).encode()


def main() -> None:
    words = argparse.ArgumentParser(
        description=__doc__, formatter_class=argparse.RawDescriptionHelpFormatter)
    words.add_argument("--accounts", type=int, default=MOST_ACCOUNTS)
    words.add_argument("--instructions", type=int, default=MOST_INSTRUCTIONS)
    words.add_argument("--years", type=int, default=0)
    words.add_argument("--periods", type=int, default=1)
    given = words.parse_args()
    if not FEWEST_ACCOUNTS <= given.accounts <= MOST_ACCOUNTS:
        sys.exit(f"days.py: accounts are {FEWEST_ACCOUNTS} to {MOST_ACCOUNTS}")
    if not 0 <= given.instructions <= MOST_INSTRUCTIONS:
        sys.exit(f"days.py: instructions are 0 to {MOST_INSTRUCTIONS}")
    if not 0 <= given.years <= MOST_YEARS:
        sys.exit(f"days.py: years are 0 to {MOST_YEARS}")
    if not 1 <= given.periods <= MOST_PERIODS:
        sys.exit(f"days.py: periods are 1 to {MOST_PERIODS}")
    rows = day_text(given.accounts, given.instructions, given.years, given.periods)
    sys.stdout.writelines(f"{row}\n" for row in rows)


if __name__ == "__main__":
    main()
