"""What an account may see of the log of a day: its holder learns what belongs to the account, and nothing of others.

  done                 what the act did to the account; the users who represent it; its own part of a distribution
  refused, its own     all of it, also if there is no such account as the one that it names
  refused, of another  that names this account: that it was refused, and nothing else, if the proposer represents one of
                       the two accounts. What a stranger tries shows nowhere
"""
from typing import Callable, NamedTuple

from registry_tools.second import rules
from registry_tools.texts.accounts import Block
from registry_tools.texts.day_text import DayText
from registry_tools.texts.report import LogRow, Report


class OwnRow(NamedTuple):
    """A log row of an account: its holder may see all of it that belongs to the account, or only that it was
    refused."""

    logged: LogRow
    is_whole: bool


def users_of(block: Block | None) -> set[str]:
    """The representatives of an account, as they are spelled; there are none where there is no account."""
    return {row.split(",")[1] for row in block.list_rows if row.startswith("user,")} if block else set()


def own_log(day: DayText, report: Report) -> dict[int, list[OwnRow]]:
    """The log rows of each account of a day, as far as its holder may see them."""
    log: dict[int, list[OwnRow]] = {}
    for logged in report.log:
        for number in rules.named(logged.instruction):
            row = own_row_of(logged, number, lambda other: users_of(day.book.get(other)))
            if row and number in day.book:
                log.setdefault(number, []).append(row)
    return log


def own_row_of(logged: LogRow, number: int, users: Callable[[int], set[str]]) -> OwnRow | None:
    """A log row as the holder of an account that it names may see it; None, if he may not see that there is one.
    `users` tells the representatives of an account on the day."""
    i = logged.instruction
    is_own = logged.is_done or number == i.first
    return OwnRow(logged, is_own) if is_own or i.fields[1] in users(number) | users(i.first) else None


def own_fields(i: rules.Instruction, number: int) -> list[str]:
    """The fields of an instruction, without users and amounts of others."""
    if i.act != "distribute" or i.first == number:
        return i.fields[3:]
    shares = [str(part) for to, amount in i.shares if to == number for part in (to, amount)]
    return [i.act, str(i.first), rules.known(i.kind), *shares]


def own_instruction(i: rules.Instruction, number: int, users: set[str]) -> list[str]:
    """The fields of an instruction as an account may see them. `users` are its representatives."""
    fields = i.fields
    return [fields[0], *(user if user in users else "" for user in fields[1:3]), *own_fields(i, number)]


def own_row(row: OwnRow, number: int, users: set[str]) -> str:
    """A log row as an account may see it."""
    logged = row.logged
    if not row.is_whole:
        return f"refused,{logged.record},{logged.date}"
    start = ["log", logged.record, logged.date, *own_instruction(logged.instruction, number, users)]
    if logged.is_done:
        figure = "" if logged.figure is None else logged.figure
        end = ["done", figure, number, *logged.held[number].values()]
    else:
        end = ["refused", logged.code, logged.name]
    return ",".join(map(str, start + end))
