"""The rules of docs/RULES.md once more, in plain Python: what becomes of a day, and what has to be written of it.

It was written from the rules in words, and not from the program or its definitions: so it is a second answer, to
compare the program with. Only names and limits come from the tables. It reads only day texts without a fault; `faults`
tells the first fault of another one. `answers` has all texts of a day.

This is what others ask: what a day is stands in `days`, what a check decides in `checks`, and what an act does here.
"""
import datetime
from dataclasses import dataclass
from typing import Iterable, Iterator

from registry_tools import tables
from registry_tools.second.checks import (
    BETWEEN, BY_ADMINISTRATORS, CHECKS, LEAVES, OF_KINDS, RETIRES_AS, Asked, Passing, asked_for, name_of, not_due,
    outside_calendar, unknown_account,
)  # fmt: skip
from registry_tools.second.days import (
    HOLDERS, KINDS, OPERATORS, Account, Day, Instruction, Row, account_of, day_in, day_of_fields, fields_in, known,
    read_instruction,
)  # fmt: skip

__all__ = [
    "BETWEEN", "BY_ADMINISTRATORS", "CHECKS", "HOLDERS", "KINDS", "LEAVES", "OF_KINDS", "OPERATORS", "RETIRES_AS",
    "Account", "Asked", "Day", "Instruction", "Logged", "Row", "account_of", "account_rows", "answers", "asked_for",
    "carry_out", "day_in", "day_of_fields", "fields_in", "known", "log_by_account", "name_of", "named", "not_due",
    "outside_calendar", "plan", "read_instruction", "report", "settle", "statement", "totals", "touched",
    "unknown_account", "yes_or_no",
]  # fmt: skip


# Settling.


def named(i: Instruction) -> list[int]:
    """The accounts that the act moves allowances between, or is about, in order."""
    return [*dict.fromkeys([i.first, *(to for to, _ in i.shares)])]


def touched(day: Day, i: Instruction) -> list[int]:
    """The accounts that the instruction reads or changes, in order."""
    return [] if any(number not in day.accounts for number in asked_for(i)) else named(i)


def carry_out(day: Day, i: Instruction, record: int) -> int | None:
    """Makes the changes of an act that no check refuses. Answers the figure that it determines, if it does."""
    first = day.accounts[i.first]
    if i.act in LEAVES:
        first.held[known(i.kind)] -= sum(i.amounts)
    for to, amount in i.shares:
        day.accounts[to].held[known(i.kind)] += amount
    if i.act in RETIRES_AS:
        period = day.current if i.act == "surrender" else None
        first.rows[record] = Row(RETIRES_AS[i.act], known(i.kind), i.amounts[0], day.date, False, period)
    elif i.act == "create":
        first.held[known(i.kind)] += i.amounts[0]
    elif i.act == "reverse":
        row = first.rows[known(i.number)]
        row.is_reversed = True
        first.held[row.kind] += row.amount
    elif i.act == "trust":
        first.trusted[known(i.other)] = known(day.due(day.date, day.lags["list"]))
    elif i.act == "untrust":
        del first.trusted[known(i.other)]
    elif i.act == "status":
        first.status = known(i.status)
    elif i.act == "emissions":
        first.emissions[known(i.year)] = known(i.tonnes)
    elif i.act == "assess":
        year = known(i.year)
        first.figures[year] = known(day.figure(first, year))
        return first.figures[year]
    return None


@dataclass
class Logged:
    """A log row, the accounts that its instruction touched, what they held then, if it was done, its due day, if there
    is one, and what was found, if it was refused and that is asked."""

    line: str
    touched: list[int]
    held: dict[int, dict[str, int]]
    due: datetime.date | None
    passing: Passing | None = None


def settle(day: Day, tells: bool = False) -> Iterator[Logged]:
    """Settles the instructions one after another, and gives their log rows. `tells`: also what was found where one is
    refused, and what would pass."""
    if tells:
        # (most who settle a day ask for no more)
        from registry_tools.second.passing import passing
    for record, i in enumerate(day.instructions, day.next_record):
        asked = Asked(day, i)
        due = None if unknown_account(asked) else asked.due()
        place = next((place for place, check in enumerate(CHECKS) if check(asked)), None)
        start = f"log,{record},{day.date},{','.join(i.fields)}"
        if place is not None:
            name = tables.CHECKS[place].name
            found = passing(asked, name) if tells else None
            yield Logged(f"{start},refused,{place + 1},{name}", touched(day, i), {}, due, found)
            continue
        figure = carry_out(day, i, record)
        held = {number: dict(day.accounts[number].held) for number in touched(day, i)}
        closing = "".join(f",{number},{amounts['general']},{amounts['aviation']}" for number, amounts in held.items())
        yield Logged(f"{start},done,{'' if figure is None else figure}{closing}", touched(day, i), held, due)


# Writing.


def yes_or_no(is_so: bool) -> str:
    """A switch as a field says it."""
    return "yes" if is_so else "no"


def account_rows(account: Account) -> Iterator[str]:
    """The rows of an account in the book."""
    switches = f"{yes_or_no(account.outside)},{yes_or_no(account.waiver)}"
    numbers = f"{account.corrections[1]},{account.held['general']},{account.held['aviation']}"
    yield f"account,{account.number},{account.kind},{account.holder},{account.status},{switches},{numbers}"
    yield from (f"correction,{period},{factor}" for period, factor in sorted(account.corrections.items()) if period > 1)
    yield from (f"user,{user},{right}" for user, right in sorted(account.users.items()))
    yield from (f"trusted,{other},{date}" for other, date in sorted(account.trusted.items()))
    for number, row in sorted(account.rows.items()):
        fate = yes_or_no(row.is_reversed) + (f",{row.period}" if (row.period or 1) > 1 else "")
        yield f"retired,{number},{row.what},{row.kind},{row.amount},{row.date},{fate}"
    yield from (f"emissions,{year},{tonnes}" for year, tonnes in sorted(account.emissions.items()))
    yield from (f"figure,{year},{figure}" for year, figure in sorted(account.figures.items()))


def totals(accounts: Iterable[Account]) -> Iterator[str]:
    """The `totals` rows of accounts."""
    for kind in KINDS:
        held = sum(account.held[kind] for account in accounts)
        surrendered, deleted = (
            sum(account.retired(what, kind) for account in accounts) for what in ("surrender", "deletion")
        )
        yield f"totals,{kind},{held},{surrendered},{deleted}"


def plan(day: Day) -> Iterator[str]:
    """Each instruction with its level, and the arrows that lead to it."""
    last: dict[int, int] = {}
    levels: list[int] = []
    for place, i in enumerate(day.instructions, 1):
        accounts = touched(day, i)
        arrows = sorted((last[number], number) for number in accounts if number in last)
        levels.append(1 + max((levels[tail - 1] for tail, _ in arrows), default=0))
        yield f"task,{place},{levels[-1]}"
        yield from (f"arrow,{tail},{place},{number}" for tail, number in arrows)
        last.update(dict.fromkeys(accounts, place))


def log_by_account(accounts: Iterable[int], log: Iterable[Logged]) -> dict[int, list[Logged]]:
    """For each account the log rows of the instructions that touched it."""
    of_account: dict[int, list[Logged]] = {number: [] for number in accounts}
    for logged in log:
        for number in logged.touched:
            of_account[number].append(logged)
    return of_account


def statement(number: int, opening: dict[str, int], own_log: Iterable[Logged]) -> Iterator[str]:
    """The statement of an account, by what it held before and its log rows."""
    held = opening
    yield f"opening,{number},{opening['general']},{opening['aviation']}"
    for logged in own_log:
        yield logged.line
        held = logged.held.get(number, held)
    yield f"closing,{number},{held['general']},{held['aviation']}"


def report(day: Day, log: list[Logged]) -> Iterator[str]:
    """The rows of the report, without its last one, of a day that was settled with this log."""
    accounts = [account for _, account in sorted(day.accounts.items())]
    yield from (logged.line for logged in log)
    yield f"book,{day.next_record + len(log)}"
    for account in accounts:
        yield from account_rows(account)
    yield from totals(accounts)


def answers(text: bytes) -> dict[str, str]:
    """What the program has to write of a day text, which is given as bytes, by the words of each command; of
    `statement`, for each account."""
    day = day_in(text)
    opening = {number: dict(account.held) for number, account in day.accounts.items()}
    waits = [*plan(day)]
    log = [*settle(day)]
    own_logs = log_by_account(day.accounts, log)
    accounts = [account for _, account in sorted(day.accounts.items())]
    figures = [
        f"determined,{account.number},{year},{tonnes}"
        for account in accounts
        for year, tonnes in sorted(account.figures.items())
    ]
    texts = {
        "settle": [*report(day, log)],
        "plan": waits,
        "figures": figures,
        "totals": [*totals(accounts)],
        **{f"statement {number}": [*statement(number, held, own_logs[number])] for number, held in opening.items()},
    }
    return {words: "\n".join([*lines, "end", ""]) for words, lines in texts.items()}
