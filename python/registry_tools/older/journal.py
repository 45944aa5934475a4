"""The journal of a folder of version 1.1: what was done to its days, one line an event, each with the sum of the line
before it and its own.

  event,at,who,login,approved,people,date,first,next,day,report,do,changes,edits,work,waiting,handed,labels,engine,why,
  before,line

EVENT is `filed`, `undone`, `released` or `labelled`. DAY to HANDED are the SHA-256 of the files of the day as they lie
there, LABELS that of labels.csv. Older journals lack some columns; behind a later heading stand lines with more.
"""
import csv
import datetime
import functools
import io
from collections.abc import Iterator
from dataclasses import dataclass, field
from pathlib import Path

from registry_tools.errors import FileFault, shown
from registry_tools.texts.rows import sum_of

FILED, UNDONE, RELEASED, LABELLED = EVENTS = ("filed", "undone", "released", "labelled")
# Behind these stands what was handed in since.
CHANGING = (FILED, UNDONE)
# The files of a day, by the columns that have their sums.
FILES = {
    "day": "day.csv.gz", "report": "report.csv.gz", "do": "do.csv", "changes": "changes.csv", "edits": "edits.csv",
    "work": "work.csv",
    "waiting": "waiting.csv", "handed": "handed-in.csv",
}  # fmt: skip
COLUMNS = (
    "event", "at", "who", "login", "approved", "people", "date", "first", "next", *FILES, "labels", "engine", "why",
    "before", "line",
)  # fmt: skip
HEADING = ",".join(COLUMNS)
# The columns of folders that were made before a line said by which login it was written, and before a day said by which
# engine it was settled. A later heading may stand behind an earlier one.
ENGINE_COLUMNS = tuple(name for name in COLUMNS if name not in ("login", "approved", "people"))
OLD_COLUMNS = tuple(name for name in ENGINE_COLUMNS if name not in ("labels", "engine"))
HEADINGS = {",".join(columns): columns for columns in (OLD_COLUMNS, ENGINE_COLUMNS, COLUMNS)}
ROW_END = "\r\n"


def csv_row(fields: list[str]) -> str:
    """Fields as a row of csv, without its end. (One with a line end inside is quoted if the writer has both of its
    letters at the ends of rows.)"""
    buffer = io.StringIO()
    csv.writer(buffer, lineterminator=ROW_END).writerow(fields)
    return buffer.getvalue().removesuffix(ROW_END)


@dataclass
class Event:
    """A line of the journal."""

    event: str
    at: str
    who: str
    date: datetime.date
    first: int
    next: int
    # The sums of the files of the day, by the keys of FILES.
    sums: dict[str, str]
    why: str
    before: str
    # The sum of the file of names, and what settled the day.
    labels: str = ""
    engine: str = ""
    # By which login, who approved it, and the sum of the people that office.ini named.
    login: str = ""
    approved: str = ""
    people: str = ""
    columns: tuple[str, ...] = COLUMNS

    @functools.cached_property
    def body(self) -> str:
        """All of its line but the last field."""
        values = {**dict.fromkeys(FILES, ""), **self.sums, **vars(self)}
        return csv_row([str(values[name]) for name in self.columns[:-1]])

    @functools.cached_property
    def line(self) -> str:
        """The sum of the line, which the next one has."""
        return sum_of(self.body.encode("utf-8", "surrogateescape"))

    def row(self) -> str:
        """The line of the journal."""
        return f"{self.body},{self.line}"


@dataclass
class Journal:
    """The journal of a folder. `text` is what lies in the file."""

    path: Path
    text: str
    # The columns by which the next line would be read.
    columns: tuple[str, ...] = COLUMNS
    events: list[Event] = field(default_factory=list)
    # The days that are in the folder behind these events, by rising date.
    days: list[Event] = field(default_factory=list)

    def add(self, event: Event) -> None:
        """Adds an event behind the others."""
        self.events.append(event)
        if event.event == FILED:
            self.days.append(event)
        elif event.event == UNDONE and self.days:
            self.days.pop()

    @property
    def last_line(self) -> str:
        """The sum with which the next line begins."""
        return self.events[-1].line if self.events else self.beginning

    @property
    def beginning(self) -> str:
        """What stands before the first event."""
        return sum_of(self.text.partition("\n")[0].encode("utf-8", "surrogateescape"))

    @property
    def last_change(self) -> str:
        """The line of the last event that filed or undid a day: behind it stands what was handed in since."""
        return next((event.line for event in reversed(self.events) if event.event in CHANGING), self.beginning)

    def filed(self) -> list[Event]:
        """The days that are in the folder, by rising date."""
        return self.days

    def is_released(self, day: Event | None = None) -> bool:
        """Whether a day, or else the last one, may not be undone any more: it was released, or a later one was. A
        released day stays for good, whatever was filed and undone behind it."""
        asked = day or (self.days[-1] if self.days else None)
        return asked is not None and any(event.event == RELEASED and event.date >= asked.date for event in self.events)


def faults_of(journal: Journal) -> Iterator[FileFault]:
    """What is wrong with the lines of a journal. Lines that can be read are its events, as far as they follow from each
    other."""
    path, lines = journal.path, journal.text.split("\n")
    if lines[0] not in HEADINGS:
        yield FileFault(path, 1, "heading", shown(lines[0]), shown(HEADING))
    journal.columns = HEADINGS.get(lines[0], COLUMNS)
    if lines[-1] != "":
        yield FileFault(path, len(lines), "line", "no line end", "a line end: the file may be cut")
    for number, line in enumerate(lines[1:-1], 2):
        if len(HEADINGS.get(line, ())) > len(journal.columns):
            journal.columns = HEADINGS[line]
            continue
        event = event_of(line, journal.columns)
        if isinstance(event, str):
            yield FileFault(path, number, "line", shown(line), event)
            continue
        if event.before != journal.last_line:
            expected = f"{journal.last_line}, the sum of line {number - 1}"
            yield FileFault(path, number, "before", shown(event.before), expected)
        wrong = does_not_follow(journal, event)
        if wrong:
            yield FileFault(path, number, "event", f"{event.event} {event.date}", wrong)
        journal.add(event)


def event_of(line: str, columns: tuple[str, ...]) -> Event | str:
    """What a line says by these columns, or what it should be."""
    try:
        fields: list[str] = next(csv.reader([line]), [])
    except csv.Error:
        fields = []
    if len(fields) != len(columns):
        return f"{len(columns)} fields: {','.join(columns)}"
    values = dict(zip(columns, fields))
    try:
        event = Event(
            values["event"], values["at"], values["who"], datetime.date.fromisoformat(values["date"]),
            int(values["first"]), int(values["next"]), {file: values[file] for file in FILES if values[file]},
            values["why"], values["before"],
            values.get("labels", ""), values.get("engine", ""), values.get("login", ""), values.get("approved", ""),
            values.get("people", ""), columns,
        )  # fmt: skip
    except ValueError:
        return f"a date and two numbers: {','.join(columns)}"
    if event.event not in EVENTS:
        return f"one of the events {', '.join(EVENTS)}"
    # (a line is what it says, to the letter)
    return event if event.row() == line else f"a line whose sum is {event.line}: something in it was changed"


def does_not_follow(journal: Journal, event: Event) -> str:
    """Why an event cannot stand behind those before it; nothing, if it can."""
    filed = journal.filed()
    last = filed[-1] if filed else None
    if event.event == FILED:
        if last and event.date <= last.date:
            return f"a day after {last.date}"
        if last and event.first != last.next:
            return f"the first record {last.next}"
    elif event.event == LABELLED and last is None:
        return "" if (event.first, event.next) == (0, 0) else "no records: no day is settled"
    elif last is None:
        return "a day that was filed before"
    elif event.event == RELEASED:
        day = next((day for day in filed if day.date == event.date), None)
        if day is None or (event.first, event.next) != (day.first, day.next):
            return f"a day that is filed, up to {last.date}, with its records"
    elif (event.date, event.first, event.next) != (last.date, last.first, last.next):
        return f"{last.date}, the last day, with the records from {last.first} to before {last.next}"
    elif event.event == UNDONE and journal.is_released():
        return f"no undoing of {last.date}, which was released"
    return ""
