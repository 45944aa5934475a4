"""Writes day texts from typed rows: the rules of a day, its accounts and its instructions.

    import registry

    day = registry.Day(open("day.csv", "rb").read())
    text = registry.write_day(day.rules(), day.accounts(), day.instructions())

The library reads what is written here as what was given. It decides also whether it is a day: what is outside a limit
is written all the same, and a call with it raises `Fault`, with the row, the field and what is wanted there.
"""
from __future__ import annotations

from dataclasses import dataclass, field
from datetime import date, datetime
from typing import Iterable, Iterator, Optional, Sequence

from registry.native import number_of
from registry.rows import FIELDS, Account, Act, Instruction, Retired

# The words of the texts, in the order in which their rows rise.
KINDS = ("general", "aviation")
ACCOUNT_KINDS = ("operator", "aircraft", "trading", "allocation", "total")
STATUSES = ("open", "blocked", "excluded", "closed")
RIGHTS = ("propose", "approve", "both")
RETIRED_AS = ("surrender", "deletion")
# A number without a sign has at most so many bits.
BITS = 64


@dataclass
class Rules:
    """The rows before the accounts of a day text. A lag is a number of working days."""

    day: date
    # The record number of its first instruction.
    next_record: int
    # The first and the last year of each period, from period 1 on.
    periods: list[tuple[int, int]]
    trusted_lag: int
    other_lag: int
    list_lag: int
    reversal_window: int
    # The current period. A text in version 1 has one period.
    current: int = 1
    # From which kinds of accounts which kinds of allowances may be surrendered.
    surrender: list[tuple[str, str]] = field(default_factory=list)
    admins: list[int] = field(default_factory=list)
    working_days: list[date] = field(default_factory=list)
    # The version of the text.
    version: int = 2

    @classmethod
    def of(cls, rows: Iterable[Sequence[str]]) -> Rules:
        """What the rows of a day text say before its first account."""
        found: dict[str, list[Sequence[str]]] = {}
        for tag, *fields in rows:
            if tag in ("account", "do", "end"):
                break
            found.setdefault(tag, []).append(fields)
        day, number = found["day"][0]
        trusted, other, on_list, reversal = (int(lag) for lag in found["lags"][0])
        periods = [(int(first), int(last)) for first, last in found["period"]]
        own = cls(date.fromisoformat(day), int(number), periods, trusted, other, on_list, reversal)
        own.version = int(found["format"][0][0])
        own.current = int(found["current"][0][0]) if "current" in found else 1
        own.surrender = [(account, kind) for account, kind in found.get("surrender", [])]
        own.admins = [int(user) for user, in found.get("admin", [])]
        own.working_days = [date.fromisoformat(each) for each, in found.get("work", [])]
        return own


def write_day(rules: Rules, accounts: Iterable[Account], instructions: Iterable[Instruction] = ()) -> bytes:
    """The text of a day. Accounts, and the rows of lists, are written by their rising keys. Raises `TypeError` for a
    value of another type, and `ValueError` for a word or a number that no text has."""
    if not isinstance(rules, Rules):
        raise TypeError(f"the rules of a day are Rules, and not of the type {type(rules).__name__}")
    rows = [*rows_of_rules(rules)]
    for account in sorted(accounts, key=lambda own: number_of(own.number, "an account")):
        rows += rows_of_account(account, rules.version)
    rows += [f"do,{','.join(fields_of(instruction))}" for instruction in instructions]
    return "\n".join([*rows, "end", ""]).encode("ascii")


def rows_of_rules(rules: Rules) -> Iterator[str]:
    """The rows before the accounts."""
    if rules.version not in (1, 2):
        raise ValueError(f"a text has version 1 or 2, and not {rules.version!r}")
    yield f"format,{rules.version}"
    yield f"day,{_date(rules.day)},{_number(rules.next_record)}"
    for first, last in rules.periods:
        yield f"period,{_number(first)},{_number(last)}"
    if rules.version == 2:
        yield f"current,{_number(rules.current)}"
    elif rules.current != 1 or len(rules.periods) != 1:
        raise ValueError("a text in version 1 has one period")
    lags = (rules.trusted_lag, rules.other_lag, rules.list_lag, rules.reversal_window)
    yield f"lags,{','.join(map(_number, lags))}"
    pairs = [(_word(account, ACCOUNT_KINDS), _word(kind, KINDS)) for account, kind in rules.surrender]
    for account, kind in sorted(pairs, key=lambda pair: (ACCOUNT_KINDS.index(pair[0]), KINDS.index(pair[1]))):
        yield f"surrender,{account},{kind}"
    yield from (f"admin,{_number(user)}" for user in sorted(rules.admins))
    yield from (f"work,{_date(day)}" for day in sorted(rules.working_days))


def rows_of_account(own: Account, version: int = 2) -> Iterator[str]:
    """The row of an account, and those of its lists."""
    head = [_number(own.number), _word(own.kind, ACCOUNT_KINDS), _number(own.holder), _word(own.status, STATUSES)]
    head += [_yes(own.allows_outside), _yes(own.has_waiver), _signed(own.corrections.get(1, 0))]
    yield ",".join(["account", *head, _number(own.general), _number(own.aviation)])
    later = {period: factor for period, factor in own.corrections.items() if period != 1}
    if later and version == 1:
        raise ValueError("a text in version 1 has one period")
    yield from (f"correction,{_number(period)},{_signed(later[period])}" for period in sorted(later))
    yield from (f"user,{_number(user)},{_word(own.users[user], RIGHTS)}" for user in sorted(own.users))
    yield from (f"trusted,{_number(other)},{_date(own.trusted[other])}" for other in sorted(own.trusted))
    yield from (_retired(each, version) for each in sorted(own.retired, key=lambda each: each.record))
    yield from (f"emissions,{_number(year)},{_number(own.emissions[year])}" for year in sorted(own.emissions))
    yield from (f"figure,{_number(year)},{_signed(own.figures[year])}" for year in sorted(own.figures))


def _retired(own: Retired, version: int) -> str:
    fields = [_number(own.record), _word(own.what, RETIRED_AS), _word(own.kind, KINDS), _number(own.amount)]
    fields += [_date(own.day), _yes(own.is_reversed)]
    # (the first period is not written)
    if own.period not in (None, 1):
        if version == 1 or own.what == "deletion":
            raise ValueError("a surrender of version 2 alone names a later period")
        fields.append(_number(own.period))
    return ",".join(["retired", *fields])


def fields_of(own: Instruction) -> list[str]:
    """The fields of an instruction behind its tag, as `do` and `log` rows have them."""
    if not isinstance(own.act, Act):
        raise TypeError(f"an act is an Act, and not of the type {type(own.act).__name__}")
    names = FIELDS[own.act]
    named = [name for name in ("from_account", "to", "kind", "amount", "year", "status", "record_named")
             if getattr(own, name) is not None and not (name == "amount" and own.shares)]  # fmt: skip
    if sorted(named) != sorted(names):
        raise ValueError(f"{own.act.value} names {', '.join(names)}, and not {', '.join(named) or 'nothing'}")
    if bool(own.shares) != (own.act is Act.DISTRIBUTE):
        raise ValueError("a distribution has shares, and no other act has some")
    words = {"kind": KINDS, "status": STATUSES}
    given = {name: getattr(own, name) for name in names}
    values = [_word(value, words[name]) if name in words else _number(value) for name, value in given.items()]
    shares = [_number(value) for share in own.shares for value in (share.to, share.amount)]
    approver = "" if own.approver is None else _number(own.approver)
    return [_date(own.proposed), _number(own.proposer), approver, own.act.value, *values, *shares]


def _number(value: Optional[int]) -> str:
    number = number_of(value, "a number of a day text")
    if not 0 <= number < 2**BITS:
        raise ValueError(f"a number of a day text is from 0 to {2**BITS - 1}, and not {number}")
    return str(number)


def _signed(value: int) -> str:
    number = number_of(value, "a number of tonnes")
    return f"-{_number(-number)}" if number < 0 else _number(number)


def _date(value: date) -> str:
    if not isinstance(value, date) or isinstance(value, datetime):
        raise TypeError(f"a day is a datetime.date, and not of the type {type(value).__name__}")
    return value.isoformat()


def _yes(value: bool) -> str:
    if not isinstance(value, bool):
        raise TypeError(f"yes or no is a bool, and not of the type {type(value).__name__}")
    return "yes" if value else "no"


def _word(value: str, words: Sequence[str]) -> str:
    if not isinstance(value, str):
        raise TypeError(f"a word is a str, and not of the type {type(value).__name__}")
    if value not in words:
        raise ValueError(f"one of the words {', '.join(words)} is wanted, and not {value!r}")
    return value
