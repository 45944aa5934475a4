"""What was handed in for the next day of a folder, or for one that is settled: by the events of its file.

A `handed` event has the KIND of what was handed in: `first` instructions of the first day text, `do` instructions,
`changes` accounts, `edits` differences (office/changes/edits.py), whose name is the reason, `work` working days. Places
count the things of all events from 1, also those that were taken back, so a place stays what it is. What is left when a
day is filed or undone is handed in again behind that, with the event that handed it in first: who did it is what that
one says. The date of such an event is that of an undone day of which it was: it comes into no earlier one."""
import datetime
from collections.abc import Iterable, Iterator
from dataclasses import dataclass, field
from typing import Any, NamedTuple

from registry_tools.office.office import Office
from registry_tools.store.events import APPROVED, HANDED, NO_DATE, SOURCE, TAKEN, Event
from registry_tools.store.file import Store
from registry_tools.texts.day_text import DayText, day_of
from registry_tools.texts.rows import Rows, rows_of_text, text_of_rows

FIRST, DO, CHANGES, EDITS, WORK = KINDS = ("first", "do", "changes", "edits", "work")
# What is one file of each kind of a settled day.
MERGED = (DO, CHANGES, EDITS, WORK)
# What the things of a kind are called.
NAMES = {DO: "instructions", CHANGES: "accounts", EDITS: "changes", WORK: "working days"}
# What rows were made of: a table, and a mapping that tells how it was written.
TABLE, MAPPING = "table", "mapping"


class Original(NamedTuple):
    """Something that was handed in and made into rows: what it is, the ending of its name, its content, and its
    name."""

    what: str
    ending: str
    content: bytes
    name: str


@dataclass(frozen=True)
class Part:
    """What was handed in together: the event that hands it in for this day, the one that handed it in first, and what
    its rows were made of, if it was a table."""

    event: Event
    origin: Event
    sources: tuple[Event, ...]
    # When it was handed in, by whom, by the name that was given, and by which login; nothing, if nobody knows it.
    at: str
    who: str
    login: str
    # What its things are, and what it was called; of differences, the reason.
    kind: str
    name: str
    # The place of its first thing, how many it has, and the place behind its last thing.
    start: int
    count: int
    end: int
    # The sum of its rows.
    sum: str
    # The date of the undone day of which it was, if there is one: it comes into no earlier one.
    earliest: datetime.date | None

    def is_of_later(self, date: datetime.date) -> bool:
        """Whether it is meant for a day behind this one."""
        return self.earliest is not None and self.earliest > date


def places(start: int, end: int) -> str:
    """The places from one on and before another one, in words."""
    return f"places {start} to {end - 1}" if end > start + 1 else f"place {start}"


class Taken(NamedTuple):
    """Something that was taken back."""

    at: str
    who: str
    place: int
    why: str
    login: str = ""


class Approved(NamedTuple):
    """Who approved something that was handed in, by the place of its first thing."""

    at: str
    who: str
    place: int
    login: str


@dataclass
class Item:
    """Something that was handed in: an instruction, an account, or a working day, as the rows that tell it."""

    place: int
    part: Part
    rows: list[str]
    # The line of each row in the file.
    lines: list[int]


@dataclass
class HandedIn:
    """What was handed in for a day."""

    store: Store
    parts: list[Part] = field(default_factory=list)
    taken: list[Taken] = field(default_factory=list)
    # Of what is here, what was approved; and what does not count before another login approves it.
    approved: list[Approved] = field(default_factory=list)
    waiting: list[Part] = field(default_factory=list)
    # What was read before, by its sum.
    rows_of: dict[str, Rows] = field(default_factory=dict)
    firsts: dict[str, DayText] = field(default_factory=dict)

    @property
    def end(self) -> int:
        """The place that the next thing gets."""
        return max((part.end for part in self.parts), default=1)

    def part_at(self, place: int) -> Part | None:
        """What has a thing at this place; None if nothing has."""
        return next((part for part in self.parts if part.start <= place < part.end), None)

    def of(self, parts: list[Part]) -> "HandedIn":
        """The same with these parts alone."""
        taken = [each for each in self.taken if any(part.start <= each.place < part.end for part in parts)]
        approved = [each for each in self.approved if any(part.start == each.place for part in parts)]
        waiting = [part for part in self.waiting if part in parts]
        return HandedIn(self.store, parts, taken, approved, waiting, self.rows_of, self.firsts)

    def until(self, date: datetime.date) -> "HandedIn":
        """What comes into the text of a day: all but what was of a later day, which was undone, and what waits for
        another login."""
        return self.of([part for part in self.parts if not self.is_left(part, date)])

    def is_left(self, part: Part, date: datetime.date) -> bool:
        """Whether a part stays here when this day is filed."""
        return part.is_of_later(date) or part in self.waiting

    def left_of(self, part: Part) -> list[int]:
        """The places of a part that were not taken back."""
        gone = {taking.place for taking in self.taken}
        return [place for place in range(part.start, part.end) if place not in gone]

    def rows(self, part: Part) -> Rows:
        """The rows of a part, as they were handed in."""
        if part.sum not in self.rows_of:
            text = self.store.texts.get(part.sum).decode("utf-8-sig", "surrogateescape")
            self.rows_of[part.sum] = rows_of_text(part.name, text)
        return self.rows_of[part.sum]

    def items_of(self, part: Part) -> Iterator[Item]:
        """All things of a part, with the line on which each begins."""
        source = self.rows(part)
        if part.kind == FIRST:
            first = next(place for place, row in enumerate(source.rows) if row == "end" or row.startswith("do,"))
            starts = [*range(first, first + part.count)]
        else:
            starts = [place for place, row in enumerate(source.rows) if begins_item(part.kind, row)]
        ends = [*starts[1:], None]
        # (of settled days, version 1.1 kept no rows of what was taken back before)
        own_places = range(part.start, part.end) if len(starts) >= part.count else self.left_of(part)
        for place, start, end in zip(own_places, starts, ends):
            behind = (end or len(source.rows)) if part.kind == CHANGES else start + 1
            indexes = [index for index in range(start, behind) if source.rows[index] != "end"]
            yield Item(place, part, [source.rows[index] for index in indexes], [*map(source.line, indexes)])

    def items(self, *kinds: str) -> Iterator[Item]:
        """What counts of these kinds, in order."""
        for part in self.parts:
            if part.kind in kinds:
                yield from self.items_left(part)

    def items_left(self, part: Part) -> Iterator[Item]:
        """What counts of a part."""
        left = {*self.left_of(part)}
        return (item for item in self.items_of(part) if item.place in left)

    @property
    def first(self) -> Part | None:
        """The first day text, if it is here."""
        return next((part for part in self.parts if part.kind == FIRST), None)

    def first_text(self) -> DayText | None:
        """The first day text, if it is here, read once."""
        part = self.first
        if part is None:
            return None
        if part.sum not in self.firsts:
            # (reading takes the row `end` away)
            rows = self.rows(part)
            self.firsts[part.sum] = day_of(Rows(rows.path, [*rows.rows], rows.lines))
        return self.firsts[part.sum]

    def merged(self) -> dict[str, Rows]:
        """What counts, as the rows of one text of each kind."""
        counting = {kind: [row for item in self.items(kind) for row in item.rows] for kind in MERGED}
        return {kind: Rows(f"{kind}.csv", rows, range(1, len(rows) + 1)) for kind, rows in counting.items()}


def begins_item(kind: str, row: str) -> bool:
    """Whether a row is the first one of a thing."""
    begins = {DO: ("do,",), CHANGES: ("account,",), EDITS: ("account,", "rules,"), WORK: ("work,",)}
    return row.startswith(begins[kind])


# By the events.


def for_the_next_day(store: Store) -> HandedIn:
    """What was handed in since the last day was filed or undone."""
    return behind(store, store.events.base)


def for_a_day(store: Store, filed: Event) -> HandedIn:
    """What came into a settled day: what stood before it, without what was handed in again behind it."""
    all_in = behind(store, filed.base)
    again = {event.origin for event in store.events.since(filed.id) if event.what == HANDED}
    return all_in.of([part for part in all_in.parts if part.origin.id not in again])


def behind(store: Store, base: int) -> HandedIn:
    """What was handed in behind an event that filed or undid a day, and before the next one."""
    since = store.events.since(base)
    given = [event for event in since if event.what == HANDED]
    last = next((event for event in reversed(given) if event.kind == FIRST), None)
    parts = [part_by(store, event) for event in given if event.kind != FIRST or event is last]
    gone = [event for event in since if event.what == TAKEN and not event.kind]
    taken = [Taken(event.at, event.who, event.start, event.why, event.login) for event in gone]
    handed_in, until = HandedIn(store, parts, taken), since[-1].id if since else base
    for part in parts:
        by = approval_of(store, part, until)
        if by and handed_in.left_of(part):
            handed_in.approved.append(Approved(by.at, by.who, part.start, by.login))
    return handed_in


def approval_of(store: Store, part: Part, until: int) -> Event | None:
    """The last approval of a part, up to an event; of what is another thing since, because some of it was taken back,
    none. (A day that is corrected is closed once more with what was approved before.)"""
    looks = store.events.looked_at.get(part.origin.id, [])
    last = next((look for look in reversed(looks) if look.id <= until), None)
    return store.events.of_id(last.id) if last and last.what == APPROVED else None


def part_by(store: Store, event: Event) -> Part:
    """A part, with the event that handed it in first, and what its rows were made of."""
    events = store.events
    origin = events.of_id(event.origin)
    sources = []
    for source in events.behind(origin.id):
        if source.what != SOURCE or source.of != origin.id:
            break
        sources.append(source)
    return Part(
        event, origin, tuple(sources), origin.at, origin.who, origin.login, event.kind, event.name, event.start,
        event.count, event.start + event.count, event.text, None if event.date == NO_DATE else event.date,
    )  # fmt: skip


# Handing in.


def put(office: Office, handed_in: HandedIn, kind: str, content: bytes, count: int, name: str,
        originals: Iterable[Original] = (), **more: Any) -> Part:  # fmt: skip
    """Hands something in, in a change of the file, with what it was made of."""
    store = office.store
    start = 1 if kind == FIRST else handed_in.end
    event = office.add(HANDED, kind=kind, name=name, start=start, count=count, text=store.texts.put(content), **more)
    for original in originals:
        text = store.texts.put(original.content)
        office.add(SOURCE, of=event.id, kind=f"{original.what}{original.ending}", name=original.name, text=text)
    part = part_by(store, event)
    handed_in.parts.append(part)
    return part


def put_again(
    office: Office, handed_in: HandedIn, old: Part, content: bytes, count: int, earliest: datetime.date | None
) -> Part:
    """Hands in again what was handed in before: behind a day that was filed or undone."""
    return put(office, handed_in, old.kind, content, count, old.name, of=old.origin.id, date=earliest or NO_DATE)


def put_left(
    office: Office, handed_in: HandedIn, old: HandedIn, parts: Iterable[Part], date: datetime.date | None = None
) -> None:
    """Hands in again what was not taken back of these parts, for this date or later, if one is named."""
    for part in parts:
        left = [*old.items_left(part)]
        if part.kind == FIRST:
            put_again(office, handed_in, part, office.store.texts.get(part.sum), part.count, date)
        elif left:
            content = text_of_rows([row for item in left for row in item.rows])
            put_again(office, handed_in, part, content, len(left), date or part.earliest)
