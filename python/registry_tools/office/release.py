"""Says that others know of a day of a folder now: from then on it is not undone any more, and no day before it."""
import datetime
from dataclasses import dataclass

from registry_tools import voice
from registry_tools.errors import WordsFault
from registry_tools.office import approvals
from registry_tools.office.approvals import AskedFor
from registry_tools.office.office import By, Office
from registry_tools.store.events import RELEASED, Event
from registry_tools.texts import settler


@dataclass(frozen=True)
class Release:
    """What is released: a settled day; with YES also one that no proved engine has settled."""

    date: datetime.date | None
    why: str
    yes: bool = False


@dataclass(frozen=True)
class Released:
    """A day is released, by this event."""

    event: Event


@dataclass(frozen=True)
class Unproved:
    """A day is not released: why nothing proves its report."""

    date: datetime.date
    doubt: str


def release(office: Office, by: By, asked: Release) -> Released | Unproved | AskedFor:
    """Releases a day. Raises WordsFault if there is none of this date, or if it was released before."""
    with office.changing("release", by):
        filed = day_to_release(office, asked.date)
        doubt = doubt_of(filed)
        if doubt and not asked.yes:
            return Unproved(filed.date, doubt)
        return made_known(office, filed, asked.why)


def release_if_there(office: Office, by: By, filed: Event, why: str) -> Released | AskedFor | None:
    """Releases a day that was read before, if it was not released meanwhile. Raises WordsFault if it was undone."""
    with office.changing("release", by):
        filed_now = office.events.day_of(filed.date)
        if filed_now is None or filed_now.line != filed.line:
            raise WordsFault(f"{filed.date} was undone meanwhile", "look once more")
        return None if office.events.is_released(filed_now) else made_known(office, filed_now, why)


def made_known(office: Office, filed: Event, why: str) -> Released | AskedFor:
    """Releases a day, in a change of the folder, or asks for it if it has to wait for another login."""
    approved = approvals.let_through(office, "release", filed.date, f"--why {why}", filed.line)
    if isinstance(approved, AskedFor):
        return approved
    # (others would know of something else)
    for text_sum in (filed.text, filed.report):
        office.store.texts.get(text_sum)
    of_day = {"of": filed.id, "date": filed.date, "first": filed.first, "next": filed.next}
    return Released(office.add(RELEASED, why=why, approved=approved, **of_day))


def doubt_of(filed: Event) -> str:
    """Why nothing proves the report of a day, in words; nothing, if a proved engine settled it."""
    engine = settler.engine_named(filed.engine)
    if engine is None:
        return "was settled before the journal told by which engine, or by one that it does not name"
    return "" if engine.is_proved else f"was settled by {engine}"


def day_to_release(office: Office, date: datetime.date | None) -> Event:
    """The day that is named, which was not released yet."""
    last = office.last()
    if last is None:
        raise WordsFault(f"{voice.path(office.path)} has no settled day")
    named = last if date is None else office.events.day_of(date)
    if named is None:
        raise WordsFault(f"{date} is no settled day of {voice.path(office.path)}: the last one is {last.date}")
    if office.events.is_released(named):
        raise WordsFault(f"{named.date} was released before")
    if date is None:
        raise WordsFault("name the day", f"{voice.command('release', last.date)} releases the last one")
    return named
