"""Takes the last day of a folder back: what it was made of is handed in again, before what was handed in since. The
folder keeps that it was filed, its texts, who took it back, and why."""
import datetime
from dataclasses import dataclass

from registry_tools import voice
from registry_tools.errors import WordsFault
from registry_tools.office import approvals, intake, trial
from registry_tools.office.approvals import AskedFor
from registry_tools.office.intake import HandedIn
from registry_tools.office.office import By, Office
from registry_tools.office.waits import waits_of
from registry_tools.store import daybook
from registry_tools.store.events import UNDONE, Event


@dataclass(frozen=True)
class Undo:
    """What is undone: the last day, and the earlier one that was meant, if it was closed for a wrong date."""

    date: datetime.date | None
    why: str
    meant: datetime.date | None = None


@dataclass(frozen=True)
class Undone:
    """A day is undone: what it was made of is handed in again from place 1 to before END, for the date AGAIN or
    later."""

    date: datetime.date
    again: datetime.date
    end: int


def undo(office: Office, by: By, asked: Undo) -> Undone | AskedFor:
    """Takes the last day back. Raises WordsFault if it is another one, or was released."""
    with office.changing("undo", by):
        last = last_of(office, asked.date)
        again = date_again(office, last, asked.meant)
        words = f"--why {asked.why}" if again == last.date else f"--date {again} --why {asked.why}"
        approved = approvals.let_through(office, "undo", last.date, words, last.line)
        if isinstance(approved, AskedFor):
            return approved
        end = taken_back(office, last, again, asked.why, approved)
        office.must_be_as_shown(by, comes_again(office))
        return Undone(last.date, again, end)


def comes_again(office: Office) -> list[str]:
    """What is handed in and waits, in lines, behind a day that was taken back."""
    items = approvals.handed_in_of(office).items(*intake.KINDS)
    return [*(row for item in items for row in item.rows), *(waiting.instruction.row for waiting in waits_of(office))]


def last_of(office: Office, named: datetime.date | None) -> Event:
    """The last day, which has to be named: typed again the same words would take back the day before it too."""
    last = office.last()
    undone = office.events.undone(named) if named else None
    if named and undone and office.events.day_of(named) is None:
        raise WordsFault(f"{named} is undone: {undone.who} took it back at {voice.time(undone.at)}")
    if last is None:
        raise WordsFault(f"{voice.path(office.path)} has no settled day")
    if office.events.is_released():
        corrects = "enter an instruction that corrects what was done"
        raise WordsFault(f"{last.date} was released, and is not undone", corrects)
    if named is None:
        raise WordsFault("name the day", f"{voice.command('undo', last.date)} takes back the last one")
    if named != last.date:
        raise WordsFault(f"{named} is not the last day, and only {last.date}, which is, can be undone")
    return last


def date_again(office: Office, last: Event, meant: datetime.date | None) -> datetime.date:
    """The first day that has again what the last day was made of: that day, or the earlier one that was meant."""
    before = office.events.days[:-1]
    if meant is not None and not before:
        raise WordsFault(f"{voice.option('date', meant)}: the first text of this folder is that of {last.date}")
    date = meant or last.date
    if before and date <= before[-1].date:
        raise WordsFault(f"{voice.option('date', date)} is not later than {before[-1].date}, the day before")
    return date


def taken_back(office: Office, last: Event, again: datetime.date, why: str, approved: str) -> int:
    """Takes the last day back, in a change of the folder, and hands in again what it was made of, for this date or
    later, and what was handed in since. Answers the place behind what the day was made of."""
    since, filed = approvals.handed_in_of(office), intake.for_a_day(office.store, last)
    office.add(UNDONE, of=last.id, date=last.date, first=last.first, next=last.next, why=why, approved=approved)
    daybook.remove_day(office.store.db, last.date)
    trial.forget(office)
    handed_in = HandedIn(office.store)
    intake.put_left(office, handed_in, filed, filed.parts, again)
    end = handed_in.end
    intake.put_left(office, handed_in, since, since.parts)
    return end
