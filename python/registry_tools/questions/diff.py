"""In what two settled days differ: their rules, what accounts are, what they hold, and what came of instructions. The
days may be of one folder or of two."""
import datetime
from collections import Counter
from collections.abc import Iterator
from dataclasses import dataclass

from registry_tools.pairs.differing import outcome_or_wait
from registry_tools.questions.days import Days
from registry_tools.questions.records import logged
from registry_tools.texts.rows import rows_of

RULE, ACCOUNT, BALANCE, INSTRUCTION = WHAT = ("rule", "account", "balance", "instruction")
# Of an account that only one of the days has, all of it is told in one row.
WHOLE = "account"
# What is asked of each table of the accounts: what it tells, by which name, and the columns that say it.
FIELDS = ("kind", "holder", "status", "outside", "waiver", "correction")
ROWS = (
    (ACCOUNT, "'correction ' || period", "factor", "corrections"),
    (ACCOUNT, "'user ' || user", "right", "users"),
    (ACCOUNT, "'trusted ' || other", "effective", "trusted"),
    (ACCOUNT, "what || ' ' || record", "kind || ' ' || amount || ', ' || made || iif(is_reversed, ', reversed', '')"
     " || iif(period > 1, ', of period ' || period, '')", "surrenders"),
    (ACCOUNT, "'emissions ' || year", "tonnes", "emissions"),
    (ACCOUNT, "'figure ' || year", "figure", "figures"),
    (BALANCE, "'general'", "general", "accounts_by_day"),
    (BALANCE, "'aviation'", "aviation", "accounts_by_day"),
)  # fmt: skip
NOW = (
    "WITH now AS (SELECT account, max(date) AS date FROM accounts_by_day WHERE date <= :date GROUP BY account)"
    " SELECT account, {0} FROM {1} JOIN now USING (account, date)"
)
OF_ACCOUNT = "kind, holder, status, iif(outside, 'yes', 'no'), iif(waiver, 'yes', 'no'), correction"
# The rows of the rules that stand once; of all others each is one of a list.
SINGLE = ("current", "lags")
Key = tuple[str, int | None, str]


@dataclass(frozen=True)
class Side:
    """A settled day, among the days that have it."""

    days: Days
    date: datetime.date


@dataclass(frozen=True)
class Difference:
    """Something that two days do not have alike: what it is, of which account, its name, and what each day has; None,
    where a day has nothing of the kind."""

    what: str
    account: int | None
    field: str
    first: str | None
    second: str | None


def differences_of_days(first: Side, second: Side) -> list[Difference]:
    """All in which two days differ, by what it is, and by account; nothing, if they are alike."""
    was, becomes = facts_after(first), facts_after(second)
    accounts = accounts_of(first), accounts_of(second)
    found = [*of_accounts(*accounts)]
    for key in dict.fromkeys([*was, *becomes]):
        if was.get(key) != becomes.get(key):
            found.append(Difference(*key, was.get(key), becomes.get(key)))
    return sorted(found, key=lambda difference: (WHAT.index(difference.what), difference.account or 0))


def accounts_of(side: Side) -> dict[int, tuple[str, ...]]:
    """The fields of each account after a day, but what it holds."""
    asked = side.days.database.execute(NOW.format(OF_ACCOUNT, "accounts_by_day"), {"date": str(side.date)})
    return {number: tuple(map(str, fields)) for number, *fields in asked}


def of_accounts(was: dict[int, tuple[str, ...]], becomes: dict[int, tuple[str, ...]]) -> Iterator[Difference]:
    """In what accounts differ; of an account that one day lacks, all fields in one."""
    for number in was.keys() | becomes.keys():
        old, new = was.get(number), becomes.get(number)
        if old is None or new is None:
            one, other = (None if fields is None else ",".join(fields) for fields in (old, new))
            yield Difference(ACCOUNT, number, WHOLE, one, other)
            continue
        pairs = zip(FIELDS, old, new)
        yield from (Difference(ACCOUNT, number, field, was, now) for field, was, now in pairs if was != now)


def facts_after(side: Side) -> dict[Key, str]:
    """What a day has, by what it is, by account and name: its rules, the lists and balances of its accounts, and what
    came of its instructions."""
    date = {"date": str(side.date)}
    found: dict[Key, str] = {(RULE, None, name): column for name, column in rules_of(side)}
    for what, name, column, table in ROWS:
        for account, field, value in side.days.database.execute(NOW.format(f"{name}, {column}", table), date):
            found[what, account, field] = str(value)
    times: Counter[str] = Counter()
    for done in logged(side.days, ["i.date = :date"], date):
        row = ",".join(done.instruction.fields)
        times[row] += 1
        name = row if times[row] == 1 else f"{row} ({times[row]})"
        found[INSTRUCTION, done.instruction.first, name] = f"record {done.record}: {outcome_or_wait(done)}"
    return found


def rules_of(side: Side) -> Iterator[tuple[str, str]]:
    """The rows before the accounts, each with its name, and the next record number."""
    periods = 0
    for row in rows_of(side.days.pairs[side.date].day).rows:
        tag, _, fields = row.partition(",")
        if tag in ("account", "do", "end"):
            return
        if tag == "day":
            yield "next record", fields.partition(",")[2]
        elif tag == "period":
            periods += 1
            yield f"period {periods}", fields
        elif tag in SINGLE:
            yield tag, fields
        elif tag != "format":
            yield f"{tag} {fields}", "yes"
