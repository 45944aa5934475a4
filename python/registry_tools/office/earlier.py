"""What a folder has had before: instructions and what came of them, accounts, and files, of all settled days."""
import re
from collections import defaultdict
from collections.abc import Iterator
from dataclasses import dataclass

from registry_tools import voice
from registry_tools.office import intake
from registry_tools.office.intake import CHANGES, begins_item
from registry_tools.office.office import Office
from registry_tools.store.events import HANDED, Event
from registry_tools.texts.rows import rows_of_text

# A log row: its record number, the fields of the instruction, and for a refused one the name of the check.
LOGGED = re.compile(r"log,([0-9]+),[^,]*,(.*?),(?:done|refused,[^,]*,([^,]*))(?:,.*)?")
# What settled days had of an account that was proposed on one of some dates.
OF_ACCOUNT = (
    "SELECT DISTINCT date, proposed, CAST(proposer AS TEXT), act FROM instructions"
    " WHERE account = ? AND proposed BETWEEN ? AND ?"
)


@dataclass(frozen=True)
class Had:
    """An instruction that a settled day has had."""

    date: str
    record: str
    # The name of the check that refused it; nothing, if it is done.
    refused: str

    def __str__(self) -> str:
        how = f"refused as record {self.record}, {self.refused}" if self.refused else f"done as record {self.record}"
        return f"{self.date} has {how}"


def instructions_had(office: Office, rows: set[str]) -> dict[str, Had]:
    """Which of these `do` rows settled days have had, and what came of them: done on some day, or else refused by the
    last that had it. Logs are read of days alone that may have one of them."""
    found: dict[str, Had] = {}
    asked = dates_of(office, rows)
    for event in office.events.days:
        for row, had in logged_of(office, event, asked.get(str(event.date), set())):
            if row not in found or found[row].refused:
                found[row] = had
    return found


def dates_of(office: Office, rows: set[str]) -> dict[str, set[str]]:
    """The dates of settled days that may have had some of these `do` rows, and which: days that had an instruction of
    the same account, act, proposer and date."""
    by_account, found = defaultdict[str, list[tuple[str, ...]]](list), defaultdict[str, set[str]](set)
    for row in rows:
        _, proposed, proposer, _, act, account, *_ = row.split(",")
        by_account[account].append((proposed, proposer, act, row))
    for account, wanted in by_account.items():
        dates = [each[0] for each in wanted]
        for date, *like in office.store.tables.execute(OF_ACCOUNT, (account, min(dates), max(dates))):
            found[date] |= {each[-1] for each in wanted if each[:-1] == tuple(like)}
    return found


def logged_of(office: Office, event: Event, rows: set[str]) -> Iterator[tuple[str, Had]]:
    """What the log of a day says of these `do` rows."""
    if not rows:
        return
    for line in office.store.texts.lines(event.report):
        logged = LOGGED.fullmatch(line)
        if logged is None:
            return
        if f"do,{logged[2]}" in rows:
            yield f"do,{logged[2]}", Had(str(event.date), logged[1], logged[3] or "")


def accounts_had(office: Office) -> dict[tuple[str, ...], str]:
    """The blocks of accounts that settled days have had, each with the last of these days."""
    found = {}
    for event in office.events.days:
        for item in intake.for_a_day(office.store, event).items(CHANGES):
            found[tuple(item.rows)] = str(event.date)
    return found


def file_had(office: Office, sum_of_file: str) -> str:
    """Where a file with this sum was handed in before, in words; nothing, if it never was."""
    if not any(event.text == sum_of_file for event in office.events.named(HANDED)):
        return ""
    for event in office.events.days:
        for part in intake.for_a_day(office.store, event).parts:
            if part.sum == sum_of_file:
                return f"for {event.date}, by {part.who} at {voice.time(part.at)} as {part.name}"
    return ""


def items_of_text(kind: str, content: bytes) -> Iterator[list[str]]:
    """The things of a text, each as its rows."""
    rows = [row for row in rows_of_text("", content.decode("utf-8-sig", "surrogateescape")).rows if row != "end"]
    starts = [place for place, row in enumerate(rows) if begins_item(kind, row)]
    for start, end in zip(starts, [*starts[1:], len(rows)]):
        yield rows[start:end]
