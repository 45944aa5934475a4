"""An open folder of days: its settings, its file, and who works with it."""
import contextlib
import re
from collections.abc import Iterable, Iterator
from dataclasses import dataclass, field
from pathlib import Path
from typing import Any

from registry_tools.elsewhere import bounds
from registry_tools.errors import Fault, LateFault, RightsFault, WordsFault, shown
from registry_tools.office import people
from registry_tools.office.people import People
from registry_tools.office.settings import Settings
from registry_tools.output import remove_left
from registry_tools.store.events import APPROVED, ASKED, HANDED, LABELLED, NO_DATE, OF_DAYS, TAKEN, Event, Events
from registry_tools.store.file import Store
from registry_tools.store.texts import sum_of
from registry_tools.texts import namebook
from registry_tools.texts.day_text import DayText
from registry_tools.texts.namebook import Labels
from registry_tools.texts.report import Report
from registry_tools.texts.rows import rows_of_text

# What somebody is told who looked at the folder before somebody else changed it.
CAME_LATE = "somebody changed the folder since it was looked at, and nothing was done"
FIRST = "first"
# The line of an event, as `--seen` says it.
STATE = re.compile("[0-9a-f]{64}")


@dataclass(frozen=True)
class By:
    """By whom something is done: the login of the process, the name that was given, and, if that is asked, the state of
    the folder that somebody has seen before, and the sum of what would have come of it then: that counts alone."""

    login: str
    who: str
    seen: str | None = None
    shown: str | None = None


def by_of(known_people: People, who: str, whom: str | None = None, seen: str | None = None) -> By:
    """By whom something is done, of the people that a folder knows: by the login of the process, or the one for which
    it may speak. Raises WordsFault."""
    return By(people.login_for(known_people, whom), people.one_line("who", who), seen)


@dataclass
class Office:
    """An open folder."""

    path: Path
    settings: Settings
    store: Store
    # The login that changes it, and the name that was given; and what is told if that came late.
    login: str = ""
    who: str = ""
    late: str = CAME_LATE
    # The last day with its report, by the line of its event, if somebody has read it before: nobody changes either.
    last_read: tuple[str, DayText, Report] | None = field(default=None, init=False)

    @property
    def events(self) -> Events:
        """What was done to its days."""
        return self.store.events

    @property
    def people(self) -> People:
        """Who may do what."""
        return self.settings.people

    def __enter__(self) -> "Office":
        return self

    def __exit__(self, *_error: object) -> None:
        self.store.close()

    def last(self) -> Event | None:
        """The last day that is filed."""
        return self.events.last()

    def names(self) -> Labels:
        """The names of users, holders and accounts: what commands have added, one after another."""
        text = self.text_of_names().decode("utf-8-sig", "surrogateescape")
        return namebook.that_count(rows_of_text(self.store.path, text))

    def text_of_names(self) -> bytes:
        """All rows by which names were given or taken away."""
        return b"".join(self.store.texts.get(event.text) for event in self.events.named(LABELLED))

    def add(self, what: str, **values: Any) -> Event:
        """Adds an event, in a change, by the login that makes it."""
        return self.store.add(Event(what, login=self.login, who=self.who, people=self.people.sum(), **values))

    @contextlib.contextmanager
    def changing(self, command: str, by: By) -> Iterator[None]:
        """The block changes the folder, whole or not at all. Ends the command if somebody has `seen` the folder in
        another state than it is in now, or if office.ini does not allow the command to this login."""
        with self.store.change():
            self.let_in(command, by)
            remove_left(self.path)
            try:
                yield
            except Fault as fault:
                # (what others did in between may be why)
                raise fault if self.late in (CAME_LATE, str(fault)) else LateFault(f"{self.late}; {fault}") from None

    @contextlib.contextmanager
    def trying(self, command: str, by: By) -> Iterator[None]:
        """The same, and what the block changes is taken back at its end."""
        with self.store.trying():
            self.let_in(command, by)
            yield

    def let_in(self, command: str, by: By) -> None:
        """Ends the command if this login may not give it now; what it does from here on is its own."""
        if bounds.is_look:
            raise RightsFault("this desk shows all, and changes nothing")
        self.login, self.who, self.late = by.login, by.who, CAME_LATE
        people.must_be_allowed(self.people, self.login, command)
        if by.seen is not None and by.seen != self.state():
            self.late = f"{CAME_LATE}: {'; '.join(self.done_since(by.seen))}"
            if by.shown is None or by.seen not in self.events.lines:
                raise LateFault(self.late)

    def must_be_as_shown(self, by: By, outcome: Iterable[str]) -> None:
        """Ends the command, in its change, if something else comes of it than was shown to who looked before."""
        if by.shown not in (None, sum_of_outcome(outcome)):
            raise LateFault(self.late)

    def state(self) -> str:
        """What a change builds on: after each change it is another one."""
        return self.events.last_line

    def done_since(self, state: str) -> Iterator[str]:
        """What was done behind a state of the folder that somebody has seen, in words."""
        if not STATE.fullmatch(state):
            raise WordsFault(f"{shown(state)} is no state of a folder, and nothing was done", "look once more")
        lines = self.events.lines
        if state not in lines:
            yield "it was a state of another folder, or of another history of this one"
        for event in self.events.behind(lines.index(state) + 1) if state in lines else ():
            if event.of is None or event.what != HANDED:
                yield from told_of(event)


def sum_of_outcome(outcome: Iterable[str]) -> str:
    """The sum of what comes of something, in lines."""
    return sum_of("\n".join(outcome).encode("utf-8", "surrogateescape"))


def told_of(event: Event) -> Iterator[str]:
    """What somebody else did, in words; of a table that came with rows, nothing."""
    if event.what in OF_DAYS:
        yield f"{event.date} was {event.what} by {event.who}{f': {event.why}' if event.why else ''}"
    elif event.what == HANDED:
        yield "another first text stands there" if event.kind == FIRST else f"{event.name} was handed in by {event.who}"
    elif event.what == TAKEN:
        yield f"{event.name or f'place {event.start}'} was taken back by {event.who}: {event.why}"
    elif event.what == ASKED:
        yield f"{event.name if event.date == NO_DATE else f'{event.kind} {event.date}'} was asked for by {event.who}"
    elif event.what == APPROVED:
        yield f"{event.name} was approved by {event.who}"
