"""What a day becomes that is closed once more, as a difference: what comes of its instructions, what accounts hold
then, who is compliant, and what waits."""
import itertools
from typing import Iterator

from registry_tools.errors import Fault
from registry_tools.notes import first_of
from registry_tools.calendars.due_days import NOT_DUE
from registry_tools.pairs.compliance import last_year_over, standings
from registry_tools.second import rules
from registry_tools.texts.accounts import Block
from registry_tools.texts.books import Sums, sums_of
from registry_tools.texts.day_text import DayText
from registry_tools.texts.in_words import grouped, instruction_in_words
from registry_tools.texts.report import LogRow, Report

# So many lines of each kind are shown.
MOST_SHOWN = 30
# The fields of an account that it holds, and rows that other record numbers change.
HELD, OF_RECORDS = 2, ("retired,",)


Settled = tuple[DayText, Report]


def all_differences(before: Settled, after: Settled) -> list[str]:
    """All that differs, in words; nothing, if a day becomes what it was."""
    parts = (
        of_instructions(before[1], after[1]), of_accounts(before[1], after[1]),
        of_compliance(before, after), of_waiting(before[1], after[1]),
    )  # fmt: skip
    return [line for part in parts for line in first_of([*part], MOST_SHOWN)]


# Instructions.


def of_instructions(before: Report, after: Report) -> Iterator[str]:
    """What comes of each instruction that is new, left out, or has another outcome."""
    old, new = by_row(before), by_row(after)
    others = 0
    for row in dict.fromkeys([*old, *new]):
        for was, becomes in itertools.zip_longest(old.get(row, []), new.get(row, [])):
            if was is None:
                yield f"record {becomes.record}, new: {instruction_of(becomes)}: {outcome_or_wait(becomes)}"
            elif becomes is None:
                yield f"record {was.record}, left out: {instruction_of(was)}: {outcome_or_wait(was)}"
            elif outcome_or_wait(was) != outcome_or_wait(becomes):
                number = f"record {was.record}" + ("" if was.record == becomes.record else f", now {becomes.record}")
                yield f"{number}: {instruction_of(was)}: {outcome_or_wait(was)} before, {outcome_or_wait(becomes)} now"
            else:
                others += was.record != becomes.record
    if others:
        yield f"of the others get another record number: {others}"


def by_row(report: Report) -> dict[str, list[LogRow]]:
    """The log rows, by what was to be done."""
    found: dict[str, list[LogRow]] = {}
    for row in report.log:
        found.setdefault(",".join(row.instruction.fields), []).append(row)
    return found


def instruction_of(logged: LogRow) -> str:
    """An instruction in words."""
    return instruction_in_words(logged.instruction)


def outcome_or_wait(logged: LogRow) -> str:
    """What came of an instruction."""
    if logged.is_done:
        return "done" if logged.figure is None else f"done, figure {grouped(logged.figure)}"
    return "waits" if logged.name == NOT_DUE else f"refused: {logged.name}"


# Accounts.


def of_accounts(before: Report, after: Report) -> Iterator[str]:
    """Which accounts hold something else after the day, or have other rows."""
    for number in sorted({*before.book, *after.book}):
        old, new = before.book.get(number), after.book.get(number)
        if old is not None and new is not None and old.rows == new.rows:
            continue
        yield from of_account(number, old, new)


def of_account(number: int, old: Block | None, new: Block | None) -> Iterator[str]:
    """What differs of an account."""
    was, becomes = sums_of(old.rows if old else []), sums_of(new.rows if new else [])
    for kind in rules.KINDS:
        told = [*of_sums(was[kind], becomes[kind])]
        if told:
            yield f"account {number}, {kind}: {', '.join(told)}"
    rows_before, rows_after = other_rows(old), other_rows(new)
    for sign, rows in (("-", rows_before - rows_after), ("+", rows_after - rows_before)):
        yield from (f"account {number}: {sign} {row}" for row in sorted(rows))


def of_sums(was: Sums, becomes: Sums) -> Iterator[str]:
    """Which sums are other ones."""
    for name, old, new in zip(Sums._fields, was, becomes):
        if old != new:
            yield f"{name} {grouped(old)} before, {grouped(new)} now"


def other_rows(block: Block | None) -> set[str]:
    """The rows of an account without what it holds, and without record numbers."""
    if block is None:
        return set()
    account = block.rows[0].rsplit(",", HELD)[0]
    return {account, *(row for row in block.list_rows if not row.startswith(OF_RECORDS))}


# Compliance, and what waits.


def of_compliance(before: Settled, after: Settled) -> Iterator[str]:
    """Whose standing is another one, for the last year that is over."""
    old, new = verdicts(*before), verdicts(*after)
    for number in sorted({*old, *new}):
        was, becomes = old.get(number, "not there"), new.get(number, "not there")
        if was != becomes:
            yield f"account {number}: {was} before, {becomes} now"


def verdicts(day: DayText, report: Report) -> dict[int, str]:
    """The standing of each operator, in words; nothing, if no year is over."""
    try:
        year = last_year_over(day.head)
        found = standings(day, report, year)
        return {standing.account.number: f"{standing.verdict_in_words} for {year}" for standing in found}
    except Fault:
        return {}


def of_waiting(before: Report, after: Report) -> Iterator[str]:
    """How many instructions of the day wait, if that differs."""
    old, new = (sum(row.name == NOT_DUE for row in report.log) for report in (before, after))
    if old != new:
        yield f"waiting of this day: {old} before, {new} now"
