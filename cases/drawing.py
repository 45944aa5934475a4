"""Draws days: their texts have both versions, up to 20 accounts, 8 periods and 40 instructions of all acts. The same
seed gives the same day. Most parts of a drawn instruction are as they have to be, so that each check is reached.
"""
from __future__ import annotations

import codecs
import datetime
import random

import harness  # noqa: F401 (it finds the modules of python/)
from registry_tools import tables
from registry_tools.second import rules
from collections.abc import Iterator

MOST_RECORD = 10**15
LARGEST_AMOUNT = 2**64 - 1

PAIRS = ["operator,general", "operator,aviation", "aircraft,general", "aircraft,aviation"]
ADMINS = range(900, 910)
USERS = range(100, 106)
# Each of these as often as it stands here.
ACCOUNT_KINDS = ["operator"] * 4 + ["aircraft", "trading", "allocation"] * 2 + ["total"]
STATUSES = ["open"] * 17 + ["blocked", "excluded", "closed"]
RIGHTS = ["propose", "approve", "both", "both"]
ACTS = (
    ["transfer"] * 4 + ["surrender"] * 3 + ["distribute"] * 3 + ["reverse"] * 3 + ["central", "assess", "delete"] * 2
    + ["return", "create", "trust", "untrust", "status", "emissions"]
)  # fmt: skip
# What stands in place of a field: numbers and dates at their limits and past them, other spellings, words of other
# fields.
STRANGE = [
    "",
    "0",
    "1",
    "2",
    "3",
    "8",
    "9",
    "00",
    "01",
    "+1",
    " 1",
    "1x",
    "-0",
    "-1",
    "999999999",
    "1000000000",
    "2020",
    "2021",
    "2100",
    "2101",
    "1000",
    "1001",
    "1000000000000",
    "1000000000001",
    "1000000000000000",
    "1000000000000001",
    "1000000000000002",
    "-1000000000000000",
    "-1000000000000001",
    "4000000000000000",
    "4000000000000001",
    "18446744073709551615",
    "18446744073709551616",
    "-18446744073709551615",
    "-18446744073709551616",
    "2025-02-29",
    "2024-02-29",
    "2027-4-01",
    "0000-02-29",
    "0000-02-30",
    "2020-12-31",
    "2021-01-01",
    "2100-12-31",
    "2101-01-01",
    "open",
    "Open",
    "general",
    "aviation",
    "operator",
    "trading",
    "yes",
    "no",
    "surrender",
    "deletion",
    "both",
    "transfer",
    "opening",
    "distribute",
    "end",
    "do",
    "account",
    "current",
    "period",
    "correction",
    "retired",
    "10",
    "é",
]
FIRST_KINDS = {act: {first for first, _ in pairs} for act, pairs in rules.BETWEEN.items()} | rules.OF_KINDS


class Heading:
    """The rules of a day: what stands before its accounts."""

    def __init__(self, chance: random.Random) -> None:
        self.version = chance.choice([1, 2, 2])
        first_day = datetime.date(2027, 3, 1) + datetime.timedelta(chance.randrange(60))
        self.working_days = [first_day + datetime.timedelta(days) for days in range(70) if chance.random() < 0.7]
        self.day = (
            chance.choice(self.working_days[15:30]) if chance.random() < 0.9 else first_day + datetime.timedelta(20)
        )
        # Sometimes the calendar ends on the settlement day, or soon after it.
        if chance.random() < 0.15:
            self.working_days = [
                date for date in self.working_days if date <= self.day + datetime.timedelta(chance.randrange(4))
            ]
        self.next_record = chance.choice([200, 10_000, MOST_RECORD - 100])
        self.periods = [(2021, 2030)] if self.version == 1 else [*drawn_periods(chance)]
        self.current = chance.randint(1, len(self.periods))
        self.admins = sorted(chance.sample(ADMINS, 5))

    def rows(self, chance: random.Random) -> Iterator[str]:
        yield f"format,{self.version}"
        yield f"day,{self.day},{self.next_record}"
        yield from (f"period,{first},{last}" for first, last in self.periods)
        if self.version == 2:
            yield f"current,{self.current}"
        lags = [chance.choice([0, 0, 0, 1, 2]) for _ in range(3)]
        yield f"lags,{lags[0]},{lags[1]},{lags[2]},{chance.choice([0, 2, 5, 30])}"
        yield from (f"surrender,{pair}" for pair in PAIRS if chance.random() < 0.85)
        yield from (f"admin,{user}" for user in self.admins)
        yield from (f"work,{day}" for day in self.working_days)

    def years(self) -> list[int]:
        """The years of all periods, and one behind each: which may be in none."""
        return sorted({year for first, last in self.periods for year in range(first, last + 2)})


def drawn_periods(chance: random.Random) -> Iterator[tuple[int, int]]:
    year = 2021
    for _ in range(chance.randint(1, 8)):
        last = year + chance.randrange(4)
        yield year, last
        year = last + chance.choice([1, 1, 2])


class Account:
    """An account, and the rows of its block."""

    def __init__(self, chance: random.Random, heading: Heading, number: int, records: list[int]) -> None:
        self.number = number
        self.kind = chance.choice(ACCOUNT_KINDS)
        self.users = {user: chance.choice(RIGHTS) for user in sorted(chance.sample(USERS, 4))}
        # Such an account holds, and has surrendered or deleted, nearly as much as it may.
        self.is_large = chance.random() < 0.15
        self.records = records
        self.rows = [self.row(chance), *self.list_rows(chance, heading)]

    def row(self, chance: random.Random) -> str:
        holder = chance.choice([11, 12, 13, *[100 + self.number] * 3])
        outside, waiver = chance.choice(["yes", "no", "no"]), chance.choice(["yes", "no"])
        general, aviation = (self.holding(chance) for _ in rules.KINDS)
        start = f"account,{self.number},{self.kind},{holder},{chance.choice(STATUSES)}"
        return f"{start},{outside},{waiver},{chance.choice([0, 0, 7, -7])},{general},{aviation}"

    def holding(self, chance: random.Random) -> int:
        return tables.MOST_HELD - chance.randrange(60) if self.is_large else chance.choice([0, 50, 200, 1_000])

    def list_rows(self, chance: random.Random, heading: Heading) -> Iterator[str]:
        later = range(2, len(heading.periods) + 1)
        yield from (f"correction,{period},{chance.choice([-30, 4, 90])}" for period in later if chance.random() < 0.4)
        yield from (f"user,{user},{right}" for user, right in self.users.items())
        is_full = chance.random() < 0.04
        some = sorted(chance.sample(range(1, 42), chance.choice([0, 4, 15])))
        others = range(500, 500 + tables.MOST_TRUSTED) if is_full else some
        for other in others:
            yield f"trusted,{other},{heading.day + datetime.timedelta(chance.choice([-20, -1, 0, 1]))}"
        yield from self.retired_rows(chance, heading)
        yield from self.year_rows(chance, heading)

    def retired_rows(self, chance: random.Random, heading: Heading) -> Iterator[str]:
        if chance.random() < 0.03 and heading.next_record > 2 * tables.MOST_ROWS:
            self.records = [*range(1_000, 1_000 + tables.MOST_ROWS)]
        for place, record in enumerate(self.records):
            what = chance.choice(["surrender", "surrender", "deletion"])
            is_most = self.is_large and place == 0 and len(self.records) < 10
            amount = tables.MOST_RETIRED - 3_000 if is_most else chance.choice([1, 10, 90, 500])
            date = heading.day - datetime.timedelta(chance.choice([0, 1, 3, 10]))
            period = chance.randint(1, len(heading.periods))
            later_period = f",{period}" if what == "surrender" and period > 1 else ""
            is_reversed = rules.yes_or_no(chance.random() < 0.2)
            yield f"retired,{record},{what},{chance.choice(rules.KINDS)},{amount},{date},{is_reversed}{later_period}"

    def year_rows(self, chance: random.Random, heading: Heading) -> Iterator[str]:
        """Emissions of the first years of each period, seldom with a gap, and figures of some years."""
        entered = [year for first, last in heading.periods for year in range(first, chance.randint(first, last) + 1)]
        yield from (f"emissions,{year},{chance.choice([0, 1, 10, 60])}" for year in entered if chance.random() < 0.95)
        yield from (f"figure,{year},{chance.choice([0, 5, -5])}" for year in heading.years() if chance.random() < 0.25)


class Instructions:
    """Draws the instructions of a day. Each part of an instruction is now and then another one than it has to be."""

    def __init__(self, chance: random.Random, heading: Heading, accounts: list[Account]) -> None:
        self.chance, self.heading, self.accounts = chance, heading, accounts
        self.records = {account.number: [*account.records][:6] for account in accounts}
        self.large = {account.number for account in accounts if account.is_large}
        self.next_record = heading.next_record

    def slips(self, probability: float = 0.04) -> bool:
        return self.chance.random() < probability

    def account(self, kinds: set[str], other_than: int | None = None) -> int:
        """The number of an account of one of these kinds, if there is one."""
        every = [account.number for account in self.accounts]
        fitting = [
            account.number for account in self.accounts if account.kind in kinds and account.number != other_than
        ]
        if self.slips(0.03):
            return self.chance.choice([*every, 77])
        return self.chance.choice(fitting or every)

    def amount(self, first: int) -> int:
        if self.slips():
            return self.chance.choice([0, 40, tables.MOST_HELD, LARGEST_AMOUNT])
        return self.chance.choice([1, 60, 5_000] if first in self.large else [1, 2, 5, 10, 60, 90])

    def receivers(self, act: str, first: int) -> list[int]:
        """The accounts that receive; a distribution has several, each once."""
        of = {account.number: account.kind for account in self.accounts}
        kinds = {to for kind, to in rules.BETWEEN[act] if kind == of.get(first)} or {"operator"}
        count = self.chance.randint(1, 8) if act == "distribute" else 1
        drawn = [self.account(kinds, first) for _ in range(count)]
        return drawn if self.slips() else [*dict.fromkeys(drawn)]

    def act_fields(self, act: str, first: int) -> list[int | str]:
        """The fields of the act behind FROM, or behind its account."""
        kind = self.chance.choice(["general", "general", "aviation"])
        if act == "distribute":
            return [kind, *(part for to in self.receivers(act, first) for part in (to, self.amount(first)))]
        if act in rules.BETWEEN:
            return [*self.receivers(act, first), kind, self.amount(first)]
        if act in ("surrender", "delete", "create"):
            self.records.setdefault(first, []).append(self.next_record)
            return [kind, self.amount(first)]
        if act == "reverse":
            return [self.chance.choice(self.records.get(first) or [1]) if not self.slips() else self.next_record]
        if act in ("trust", "untrust"):
            return [self.account(rules.HOLDERS, first)]
        if act == "status":
            return [self.chance.choice(["open"] * 5 + ["blocked", "excluded", "closed"])]
        year = self.chance.choice(self.heading.years())
        if act == "assess":
            return [year]
        tonnes = [tables.MOST_TONNES + 1, LARGEST_AMOUNT] if self.slips() else [0, 10, 60, tables.MOST_TONNES]
        return [year, self.chance.choice(tonnes)]

    def users(self, act: str, first: int) -> tuple[int, int | str]:
        """A proposer and an approver."""
        if act in rules.BY_ADMINISTRATORS:
            proposers = approvers = self.heading.admins
        else:
            rights: dict[int, str] = next((account.users for account in self.accounts if account.number == first), {})
            proposers = [user for user, right in rights.items() if right != "approve"]
            approvers = [user for user, right in rights.items() if right != "propose"]
        proposer = (
            self.chance.choice(proposers or [1]) if not self.slips(0.03) else self.chance.choice([*USERS, *ADMINS])
        )
        others = [user for user in approvers if user != proposer]
        approver = (
            self.chance.choice(others or [2])
            if not self.slips(0.03)
            else self.chance.choice([*USERS, *ADMINS, proposer])
        )
        return proposer, "" if self.slips(0.06) else approver

    def row(self) -> str:
        act = self.chance.choice(ACTS)
        first = self.account(FIRST_KINDS.get(act, rules.HOLDERS))
        fields = self.act_fields(act, first)
        proposer, approver = self.users(act, first)
        later = self.chance.choice([1, 2, 60]) if self.slips(0.05) else self.chance.choice([0, 0, -1, -4])
        self.next_record += 1
        proposed = self.heading.day + datetime.timedelta(later)
        return ",".join(map(str, ["do", proposed, proposer, approver, act, first, *fields]))


def drawn_book(chance: random.Random, heading: Heading) -> Iterator[Account]:
    """The accounts of a day."""
    records = chance.sample(range(1, 200), 100)
    numbers = sorted(chance.sample(range(1, 42), chance.choice([1, 5, 10, 15, 20])))
    for place, number in enumerate(numbers):
        own = records[5 * place : 5 * place + chance.choice([0, 3, 5])]
        yield Account(chance, heading, number, sorted(own))


def drawn_rows(seed: int) -> list[str]:
    """The rows of a day text."""
    chance = random.Random(seed)
    heading = Heading(chance)
    accounts = [*drawn_book(chance, heading)]
    instructions = Instructions(chance, heading, accounts)
    rows = [*heading.rows(chance), *(row for account in accounts for row in account.rows)]
    rows += [instructions.row() for _ in range(chance.choice([0, 10, 25, 40]))]
    return [*rows, "end"]


def damaged_rows(seed: int) -> list[str]:
    """The rows of a drawn day, of which a few are others than they were."""
    chance = random.Random(-seed)
    rows = drawn_rows(seed)
    for _ in range(chance.choice([1, 1, 1, 2])):
        damage(chance, rows)
    return rows


def damage(chance: random.Random, rows: list[str]) -> None:
    """Changes a row, leaves it out, writes it again or moves it; rows of each tag are as likely."""
    tags = [row.split(",")[0] for row in rows]
    tag = chance.choice(sorted({*tags}))
    place = chance.choice([place for place, each in enumerate(tags) if each == tag])
    fields = rows.pop(place).split(",")
    way = chance.choice(["other field"] * 7 + ["more fields", "fewer fields", "left out", "again", "elsewhere"])
    if way == "other field":
        fields[chance.randrange(len(fields))] = chance.choice(STRANGE)
    elif way == "more fields":
        fields.append(chance.choice(STRANGE))
    elif way == "fewer fields":
        del fields[-1:]
    row = ",".join(fields)
    if way == "again":
        rows.insert(place, row)
    if way == "elsewhere":
        place = chance.randint(0, len(rows))
    if way != "left out":
        rows.insert(place, row)


def text_of(rows: list[str], seed: int) -> bytes:
    """A text with these rows, as bytes. One of four has quotes, some line ends, empty lines and a byte order mark."""
    chance = random.Random(f"text {seed}")
    if chance.random() < 0.75:
        return "\n".join([*rows, ""]).encode()
    mark = chance.choice([b"", codecs.BOM_UTF8])
    lines = []
    for row in rows:
        lines += [""] * chance.choice([0, 0, 0, 0, 1])
        lines.append(",".join(f'"{field}"' if chance.random() < 0.2 else field for field in row.split(",")))
    line_end = chance.choice(["\n", "\r\n", "\r"])
    return mark + (line_end.join(lines) + chance.choice([line_end, ""])).encode()
