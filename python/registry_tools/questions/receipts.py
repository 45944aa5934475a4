"""What was handed in for settled days, and what was taken back of that, and of what is there for the next day."""
import datetime
from collections.abc import Iterator
from typing import NamedTuple

from registry_tools.office import approvals, intake
from registry_tools.office.intake import HandedIn, Item, Part, Taken
from registry_tools.office.office import Office
from registry_tools.questions.changes import NEXT
from registry_tools.store.events import RELEASED, Event
from registry_tools.texts import settler

FIRST_TEXT = "the first text, with instructions"


class TakenBack(NamedTuple):
    """Something that was taken back, with the part in which it came, and as it was handed in, if that is known."""

    taken: Taken
    part: Part | None
    item: Item | None = None


def of(handed_in: HandedIn) -> Iterator[TakenBack]:
    """What was taken back of what was handed in."""
    gone = {taken.place for taken in handed_in.taken}
    parts = [part for part in handed_in.parts if any(part.start <= place < part.end for place in gone)]
    items = {item.place: item for part in parts for item in handed_in.items_of(part)}
    return (TakenBack(taken, handed_in.part_at(taken.place), items.get(taken.place)) for taken in handed_in.taken)


def of_day(office: Office, date: datetime.date) -> Iterator[TakenBack]:
    """What was taken back before a settled day; nothing, if there is none of this date."""
    event = office.events.day_of(date)
    return of(intake.for_a_day(office.store, event)) if event else iter(())


def of_all(office: Office) -> Iterator[tuple[str, TakenBack]]:
    """The same of all days, the next one last, each with its day."""
    for event in office.events.days:
        yield from ((str(event.date), taken) for taken in of_day(office, event.date))
    yield from ((NEXT, taken) for taken in of(approvals.handed_in_of(office)))


def files_of(office: Office, event: Event) -> Iterator[tuple[str, str, str, str]]:
    """What was handed in for a settled day: the name, what is left of it, who did so, and when."""
    filed = intake.for_a_day(office.store, event)
    seconds = {approval.place: approval.login for approval in filed.approved}
    for part in filed.parts:
        left, who = len(filed.left_of(part)), who_and_second(office, part.who, part.login, seconds.get(part.start, ""))
        of = "" if left == part.count else f" of {part.count}"
        yield part.name, f"{intake.NAMES.get(part.kind, FIRST_TEXT)} {left}{of}", who, part.at


def days_told(office: Office) -> Iterator[tuple[Event, str, str]]:
    """The days of a folder, the last one first, each with what settled it and whether others know of it, in words."""
    released = {event.date for event in office.events.named(RELEASED)}
    last = max(released, default=datetime.date.min)
    for filed in reversed(office.events.days):
        yield filed, str(settler.engine_named(filed.engine) or "not told"), "yes" if filed.date <= last else "no"


def who_and_second(office: Office, who: str, login: str, approved: str) -> str:
    """Who did something, and who approved it, if somebody had to."""
    second = f", approved by {office.people.in_words(approved)}" if approved else ""
    return f"{approvals.who_did(office, who, login)}{second}"
