"""Draws days for the tests of pages: each amount, holding, holder and user is a number that stands nowhere else in the
day.

So a number on a page tells whose it is.
"""
import datetime
import random
from collections.abc import Iterator

KINDS = ("general", "aviation")
ACTS = (
    "transfer", "return", "surrender", "delete", "reverse", "create", "central", "distribute", "trust", "untrust",
    "status", "emissions", "assess",
)  # fmt: skip
DAY = datetime.date(2027, 3, 10)
# All drawn numbers have so many digits, and nothing else in a day has.
LOW, HIGH = 10_000_000, 99_999_999


class Numbers:
    """Numbers of which each is drawn once."""

    def __init__(self, chance: random.Random) -> None:
        self.chance = chance
        self.used: set[int] = set()

    def any(self) -> int:
        return self.next()

    def small(self) -> int:
        return self.next(1_000_000, 4_999_999)

    def next(self, low: int = LOW, high: int = HIGH) -> int:
        while True:
            number = self.chance.randint(low, high)
            if number not in self.used:
                self.used.add(number)
                return number


class Account:
    """An account and its rows. `own` has the numbers that belong to it alone."""

    def __init__(
        self, chance: random.Random, numbers: Numbers, number: int, kind: str, periods: list[tuple[int, int]]
    ) -> None:
        self.number, self.kind = number, kind
        self.own: set[int] = set()
        self.holder = self.drawn(numbers)
        self.users = sorted(self.drawn(numbers) for _ in range(3))
        self.held = {held: self.drawn(numbers) for held in KINDS}
        self.records: list[int] = []
        self.trusted: list[int] = []
        self.rows = [*self.list_rows(chance, numbers, periods)]

    def drawn(self, numbers: Numbers) -> int:
        number = numbers.next()
        self.own.add(number)
        return number

    def row(self, status: str) -> str:
        held = f"{self.held['general']},{self.held['aviation']}"
        return f"account,{self.number},{self.kind},{self.holder},{status},no,no,0,{held}"

    def list_rows(self, chance: random.Random, numbers: Numbers, periods: list[tuple[int, int]]) -> Iterator[str]:
        yield from (f"user,{user},{right}" for user, right in zip(self.users, ("propose", "approve", "both")))
        for place, what in enumerate(chance.choices(["surrender", "deletion"], k=3)):
            record = 100 * (self.number % 1_000) + place + 1
            self.records.append(record)
            period = f",{len(periods)}" if what == "surrender" and len(periods) > 1 and chance.random() < 0.5 else ""
            day = DAY - datetime.timedelta(chance.choice([0, 1, 40]))
            yield f"retired,{record},{what},{chance.choice(KINDS)},{self.drawn(numbers)},{day},no{period}"
        if self.kind in ("operator", "aircraft"):
            for first, last in periods:
                for year in range(first, min(last, DAY.year - 1) + chance.choice([0, 1, 1])):
                    yield f"emissions,{year},{self.drawn(numbers)}"


class Day:
    """A drawn day: its text, and its accounts by number."""

    def __init__(self, seed: int, count: int = 40) -> None:
        self.chance = chance = random.Random(seed)
        numbers = self.numbers = Numbers(chance)
        self.periods = [(2021, 2030)] if seed % 2 else [(2021, 2025), (2026, 2030)]
        self.admins = sorted(numbers.next() for _ in range(3))
        kinds = ["operator", "operator", "aircraft", "aircraft", "trading", "trading", "allocation", "total"]
        self.accounts = {
            number: Account(chance, numbers, number, kind, self.periods)
            for number, kind in zip(sorted(chance.sample(range(101_001, 101_900), len(kinds))), kinds)
        }
        for account in self.accounts.values():
            account.trusted = sorted(chance.sample(sorted(self.accounts.keys() - {account.number}), 4))
        self.do_rows = [self.do_row() for _ in range(count)]

    def of_kinds(self, *kinds: str) -> Account:
        return self.chance.choice([account for account in self.accounts.values() if account.kind in kinds])

    def fields(self, act: str) -> tuple[Account, list[object]]:
        """The first account of an act, and its fields."""
        kind = self.chance.choice(KINDS)
        amount = self.numbers.any if self.chance.random() < 0.1 else self.numbers.small
        if act in ("transfer", "trust", "untrust"):
            first = self.of_kinds("operator", "aircraft", "trading")
            others = first.trusted if act != "trust" else [*self.accounts.keys() - {first.number}]
            other = self.chance.choice(sorted(others))
            return first, [first.number, other, *([kind, amount()] if act == "transfer" else [])]
        if act in ("return", "central", "distribute"):
            first = self.of_kinds("operator", "aircraft") if act == "return" else self.of_kinds("allocation")
            if act == "distribute":
                operators = [own.number for own in self.accounts.values() if own.kind in ("operator", "aircraft")]
                shares = self.chance.sample(operators, self.chance.randint(2, 4))
                return first, [first.number, kind, *(part for to in shares for part in (to, amount()))]
            to = self.of_kinds("allocation") if act == "return" else self.of_kinds("operator", "aircraft", "total")
            return first, [first.number, to.number, kind, amount()]
        first = self.of_kinds("total") if act == "create" else self.of_kinds("operator", "aircraft")
        more: dict[str, list[object]] = {
            "reverse": [self.chance.choice(first.records)],
            "status": [self.chance.choice(["open", "open", "blocked", "excluded", "closed"])],
            "emissions": [self.chance.choice([2021, 2024, 2026]), amount()],
            "assess": [self.chance.choice([2021, 2022, 2026])],
        }
        return first, [first.number, *more.get(act, [kind, amount()])]

    def do_row(self) -> str:
        act = self.chance.choice(ACTS)
        first, fields = self.fields(act)
        is_own = act in ("transfer", "return", "surrender", "delete", "trust", "untrust")
        proposer, approver = first.users[:2] if is_own else self.admins[:2]
        if self.chance.random() < 0.08:
            proposer = self.chance.choice([*self.accounts.values()]).users[0]
        later = self.chance.choice([0, 0, 0, -1, 1])
        return ",".join(map(str, ["do", DAY + datetime.timedelta(later), proposer, approver, act, *fields]))

    def heading(self) -> Iterator[str]:
        yield f"format,{1 if len(self.periods) == 1 else 2}"
        yield f"day,{DAY},700001"
        yield from (f"period,{first},{last}" for first, last in self.periods)
        if len(self.periods) > 1:
            yield f"current,{len(self.periods)}"
        yield "lags,0,1,1,3"
        yield from (f"surrender,{pair}" for pair in ("operator,general", "aircraft,general", "aircraft,aviation"))
        yield from (f"admin,{user}" for user in self.admins)
        yield from (
            f"work,{DAY + datetime.timedelta(days)}" for days in range(-60, 10) if (DAY.weekday() + days) % 7 < 5
        )

    def text(self) -> str:
        rows = [*self.heading()]
        for account in self.accounts.values():
            rows.append(account.row(self.chance.choice(["open"] * 6 + ["blocked", "excluded"])))
            lists = {
                tag: [row for row in account.rows if row.startswith(tag)] for tag in ("user", "retired", "emissions")
            }
            effective = [
                (other, DAY + datetime.timedelta(self.chance.choice([-9, -9, 1]))) for other in account.trusted
            ]
            trusted = [f"trusted,{other},{day}" for other, day in effective]
            rows += [*lists["user"], *trusted, *lists["retired"], *lists["emissions"]]
        return "\n".join([*rows, *self.do_rows, "end", ""])
