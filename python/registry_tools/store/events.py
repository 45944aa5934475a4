"""What was done to a folder of days: events in a chain. Each has the sum of the one before it and its own, so whoever
kept the line of one sees later whether the folder has grown from there.

The line of an event is the SHA-256 of `json_array(before, what, at, ..)`, as SQLite writes it: of all columns but `id`
and `line`. schema.sql says what each kind of event has."""
import bisect
import contextlib
import datetime
import json
import sqlite3
from collections.abc import Iterable, Iterator
from dataclasses import dataclass, fields, replace
from pathlib import Path
from typing import Any, NamedTuple

from registry_tools.errors import FileFault, raise_first, shown, visible
from registry_tools.store.texts import sum_of

HANDED, SOURCE, TAKEN, ASKED, APPROVED, FILED, UNDONE, RELEASED, LABELLED, UPGRADED = (
    "handed", "source", "taken", "asked", "approved", "filed", "undone", "released", "labelled", "upgraded",
)  # fmt: skip
# Behind these stands what was handed in since.
CHANGING = (FILED, UNDONE)
# These change nothing: what is asked for still would be done as it was asked.
ASKING = (ASKED, APPROVED)
# What a journal of days has: what is not of the next day alone.
OF_DAYS = (FILED, UNDONE, RELEASED, LABELLED)
# Of an event without a day.
NO_DATE = datetime.date.min
# So many digits of the last line are the short name of a folder as it stands.
HEAD_DIGITS = 12
BACK = "somebody changed the file by other ways than commands: put it back from a copy"


def now() -> str:
    """The present time, as events have it."""
    return datetime.datetime.now(datetime.timezone.utc).strftime("%Y-%m-%dT%H:%M:%SZ")


@dataclass(frozen=True)
class Event:
    """Something that was done. What a kind of event does not have is empty."""

    what: str
    at: str = ""
    login: str = ""
    who: str = ""
    why: str = ""
    base: int = 0
    date: datetime.date = NO_DATE
    of: int | None = None
    kind: str = ""
    name: str = ""
    start: int = 0
    count: int = 0
    text: str = ""
    report: str = ""
    waiting: str = ""
    waits: str = ""
    first: int = 0
    next: int = 0
    engine: str = ""
    sum: str = ""
    beside: str = ""
    approved: str = ""
    people: str = ""
    before: str = ""
    line: str = ""
    id: int = 0

    @property
    def origin(self) -> int:
        """Of something handed in, the event that handed it in first."""
        return self.id if self.of is None else self.of


def line_of(values: tuple[object, ...]) -> str:
    """The line of an event, by all that its columns have between `id` and `line`. Raises TypeError or ValueError if
    they can't have that."""
    text = json.dumps(values, ensure_ascii=False, separators=(",", ":"))
    return sum_of(text.encode("utf-8", "surrogateescape"))


# The columns between `before` and `line`.
COLUMNS = tuple(column.name for column in fields(Event))[:-3]
ALL = ("id", "before", *COLUMNS, "line")
# Those that are numbers.
NUMBERS = ("id", "base", "of", "start", "count", "first", "next")
# The columns that have nothing in place of an empty text.
MAY_LACK = ("text", "report", "waiting", "waits")


def value_of(name: str, value: object) -> object:
    """A value as its column has it."""
    if isinstance(value, datetime.date):
        return None if value == NO_DATE else str(value)
    if name in MAY_LACK:
        return value or None
    # (a line has no letter that nobody sees, and a name may be no UTF-8)
    return "".join(map(visible, value)) if isinstance(value, str) and not value.isprintable() else value


def event_of(row: sqlite3.Row | tuple[object, ...]) -> Event:
    """The event of a row, with all columns in their order. Raises ValueError or TypeError if it can't be one."""
    columns = dict(zip(ALL, row))
    for name, value in columns.items():
        if value is None and name not in ("date", "of", *MAY_LACK):
            raise TypeError(f"nothing as {name}")
        if value is not None and type(value) is not (int if name in NUMBERS else str):
            raise TypeError(f"{type(value).__name__} as {name}")
    texts = {name: columns[name] or "" for name in MAY_LACK}
    date = NO_DATE if columns["date"] is None else datetime.date.fromisoformat(str(columns["date"]))
    values: dict[str, Any] = {**columns, **texts, "date": date}
    return Event(**values)


class Row(NamedTuple):
    """An event that nobody has asked for yet: `columns` has those between `id` and `line`, as JSON."""

    id: int
    before: str
    what: str
    base: int
    origin: int
    columns: str
    line: str

    def event(self) -> Event:
        """The event. Raises ValueError or TypeError if it can't be one."""
        return event_of((self.id, *json.loads(self.columns), self.line))


LINES = f"SELECT id, before, what, base, coalesce(of, id), json_array({', '.join(ALL[1:-1])}), line FROM events"


class Events:
    """The events of a file, and what they say of its days. An event is made of its row when somebody asks for it."""

    def __init__(self, path: Path, rows: Iterable[Event | Row] = ()) -> None:
        self.path = path
        self.rows: list[Event | Row] = []
        # The days that count, by rising date.
        self.days: list[Event] = []
        # The last event that filed or undid a day; 0 before the first one. And where all of them stand.
        self.base = 0
        self.changing: list[int] = []
        # What was approved or taken back of what was handed in, by the event that handed it in first.
        self.looked_at: dict[int, list[Event | Row]] = {}
        for row in rows:
            self.append(row)

    def append(self, row: Event | Row) -> None:
        """Takes up an event behind the others."""
        self.rows.append(row)
        if row.what in CHANGING:
            self.base = row.id
            self.changing.append(len(self.rows) - 1)
        if row.what == FILED:
            self.days.append(self.of_id(len(self.rows)))
        elif row.what == UNDONE and self.days:
            self.days.pop()
        elif row.what in (APPROVED, TAKEN) and 0 < row.origin < len(self.rows):
            self.looked_at.setdefault(self.rows[row.origin - 1].origin, []).append(row)

    @property
    def all(self) -> list[Event]:
        """All of them."""
        return [*self.behind(0)]

    def behind(self, number: int, end: int | None = None) -> Iterator[Event]:
        """Those behind one, up to another one or to the last."""
        return map(self.of_id, range(number + 1, (len(self.rows) if end is None else end) + 1))

    def named(self, *what: str) -> list[Event]:
        """Those of some kinds."""
        return [self.of_id(number) for number, row in enumerate(self.rows, 1) if row.what in what]

    def last_line_of(self, *what: str) -> str:
        """The line of the last one of some kinds."""
        return next((row.line for row in reversed(self.rows) if row.what in what), "")

    @property
    def lines(self) -> list[str]:
        """The lines of all of them."""
        return [row.line for row in self.rows]

    @property
    def last_line(self) -> str:
        """The line behind which the next event stands."""
        return self.rows[-1].line if self.rows else ""

    @property
    def head(self) -> str:
        """The short name of the folder as it stands, by which people tell it from others."""
        return self.last_line[:HEAD_DIGITS]

    @property
    def state(self) -> str:
        """The line of the last event that changed something: what is asked for builds on it."""
        return next((row.line for row in reversed(self.rows) if row.what not in ASKING), "")

    def since(self, base: int) -> list[Event]:
        """The events that stand behind an event that filed or undid a day, and before the next such one."""
        end = bisect.bisect_left(self.changing, base)
        return [*self.behind(base, self.changing[end] if end < len(self.changing) else None)]

    def of_id(self, number: int) -> Event:
        """The event with this number. Raises FileFault if its row can't be one."""
        row = self.rows[number - 1]
        if isinstance(row, Row):
            try:
                row = self.rows[number - 1] = row.event()
            except (ValueError, TypeError) as error:
                raise FileFault(self.path, 0, f"event {number}", shown(str(error)), "an event", BACK) from None
        return row

    def last(self) -> Event | None:
        """The last day that counts."""
        return self.days[-1] if self.days else None

    def is_released(self, day: Event | None = None) -> bool:
        """Whether a day, or else the last one, may not be undone any more: it was released, or a later one was."""
        asked = day or self.last()
        return asked is not None and any(event.date >= asked.date for event in self.named(RELEASED))

    def day_of(self, date: datetime.date) -> Event | None:
        """The day of this date, if it counts."""
        return next((day for day in reversed(self.days) if day.date == date), None)

    def undone(self, date: datetime.date) -> Event | None:
        """The last event that took a day of this date back."""
        return next((event for event in reversed(self.named(UNDONE)) if event.date == date), None)


def read(db: sqlite3.Connection, path: Path, first: Events | None = None) -> Events:
    """The events of a file, of which the first ones may have been read before. Ends the command at the first one that
    is not what it must be."""
    for events in (Events(path, first.rows if first else ()), Events(path)):
        with contextlib.suppress(sqlite3.DatabaseError, ValueError, TypeError):
            if takes_up(db, events):
                return events
    raise_first(faults_of(db, events := Events(path)))
    return events


def takes_up(db: sqlite3.Connection, events: Events) -> bool:
    """Takes up what a file has behind these events, and says whether it has these, and each of the others is what it
    must be. (SQLite writes what a line is the sum of in a fraction of the time that Python takes.)"""
    count, last = len(events.rows), events.last_line
    rows = [*map(Row._make, db.execute(f"{LINES} WHERE id >= ? ORDER BY id", (count or -(2**63),)).fetchall())]
    for row in rows[1:] if count else rows:
        if (row.id, row.before, row.line) != (len(events.rows) + 1, events.last_line, sum_of(row.columns.encode())):
            return False
        made: Event | Row = row.event() if row.what in (*CHANGING, RELEASED) else row
        if does_not_follow(events, made):
            return False
        events.append(made)
    return not count or [row.line for row in rows[:1]] == [last]


def faults_of(db: sqlite3.Connection, events: Events) -> Iterator[FileFault]:
    """What is wrong with the events of a file. Those that can be read are taken up, as far as they follow from each
    other."""
    # (a question that is left half answered would keep others from changing the file)
    rows = db.execute(f"SELECT {', '.join(ALL)} FROM events ORDER BY id").fetchall()
    for place, row in enumerate(rows, 1):
        where = f"event {row[0]}"
        try:
            event, line = event_of(row), line_of(row[1:-1])
        except (ValueError, TypeError) as error:
            yield FileFault(events.path, 0, where, shown(str(error)), "an event", BACK)
            continue
        if event.id != place:
            yield FileFault(events.path, 0, where, str(event.id), f"{place}, the number behind the event before", BACK)
        if event.before != events.last_line:
            expected = events.last_line or "nothing"
            yield FileFault(events.path, 0, f"{where}, before", shown(event.before), expected, BACK)
        if event.line != line:
            yield FileFault(events.path, 0, f"{where}, line", shown(event.line), line, BACK)
        wrong = does_not_follow(events, event)
        if wrong:
            yield FileFault(events.path, 0, where, event.what, wrong)
        events.append(event)


def does_not_follow(events: Events, event: Event | Row) -> str:
    """Why an event cannot stand behind those before it; nothing, if it can."""
    last = events.last()
    if event.base != events.base:
        return f"the base {events.base}"
    if isinstance(event, Row):
        return ""
    if event.what == FILED:
        if event.date == NO_DATE or (last and event.date <= last.date):
            return f"a day after {last.date}" if last else "a day"
        if last and event.first != last.next:
            return f"the first record {last.next}"
    elif event.what == UNDONE:
        told = event.of, event.date, event.first, event.next
        if last is None or told != (last.id, last.date, last.first, last.next):
            return f"{last.date}, the last day" if last else "a day that was filed before"
        if events.is_released():
            return f"no undoing of {last.date}, which was released"
    elif event.what == RELEASED:
        day = next((filed for filed in events.days if filed.id == event.of), None)
        if day is None or (event.date, event.first, event.next) != (day.date, day.first, day.next):
            return "a day that is filed, with its records"
    return ""


def add(db: sqlite3.Connection, events: Events, event: Event) -> Event:
    """Adds an event behind the others, in a change of the file, and answers it as it is kept."""
    behind = replace(event, at=event.at or now(), base=events.base)
    values = events.last_line, *(value_of(name, getattr(behind, name)) for name in COLUMNS)
    added = event_of((len(events.rows) + 1, *values, line_of(values)))
    marks = ", ".join("?" * len(ALL))
    db.execute(f"INSERT INTO events ({', '.join(ALL)}) VALUES ({marks})", (added.id, *values, added.line))
    events.append(added)
    return added
