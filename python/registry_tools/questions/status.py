"""How a folder of days stands: the last day, what waits, what was handed in for the next day, and whether a command
works on it."""
import datetime
from collections.abc import Iterator
from dataclasses import dataclass

from registry_tools import tables, voice
from registry_tools.calendars.working_days import days_in_words
from registry_tools.errors import FileFault
from registry_tools.notes import LOOK, counted
from registry_tools.office import approvals
from registry_tools.pairs import naming
from registry_tools.office.intake import KINDS, HandedIn, Item
from registry_tools.texts.namebook import Labels
from registry_tools.office.office import Office
from registry_tools.office.waits import waits_of
from registry_tools.questions.due import missed_days, next_dates
from registry_tools.showing import Cell
from registry_tools.texts import settler

# More of what was handed in, or waits, is only counted.
MOST_SHOWN = 20
# So many of the next dates are shown; ./day due shows all, with the accounts.
MOST_SOON = 3


# For programs: what it is, and what is known of it.
COLUMNS = tables.COLUMNS["status"]
LAST, LOGIN, ENGINE, HEAD, MISSED, WAITS, HANDED, TAKEN, SECOND, IN_USE, FAULT = (
    "last day", "login", "engine", "head", "working day without a settlement", "waiting", "handed in", "taken back",
    "for another login", "in use", "fault",
)  # fmt: skip


# Of days that were settled before the journal had the engine.
NOBODY_KNOWS = "not known: the journal does not say it"
CHANGING = "a command changes the folder now"


@dataclass(frozen=True)
class Status:
    """How a folder stands: with what was handed in, and what is wrong with the texts of the last day."""

    office: Office
    handed_in: HandedIn
    faults: list[FileFault]

    @property
    def rows(self) -> Iterator[list[Cell]]:
        """What programs are told: a row for each thing."""
        return rows_for_programs(self.office, self.handed_in, self.faults)

    @property
    def lines(self) -> list[tuple[str, str]]:
        """What people are told: of what, and what; of lines that go on, nothing and what."""
        names = self.office.names()
        lines = [*last_lines(self.office, self.handed_in), *waiting_lines(self.office, names)]
        lines += [*handed_lines(self.handed_in, names), *second_lines(self.office, self.handed_in)]
        return [*lines, *lock_lines(self.office)]


def status(office: Office) -> Status:
    """How a folder stands. What is wrong with the texts of the last day is in it. Raises FileFault if what was handed
    in can't be read."""
    return Status(office, approvals.handed_in_of(office), [*faults_of_last(office)])


def faults_of_last(office: Office) -> Iterator[FileFault]:
    """What is wrong with the texts of the last day, and with what its rows were made of."""
    last, texts = office.last(), office.store.texts
    if last is None:
        return
    sources = (event.text for event in office.events.since(last.base) if event.what == "source")
    yield from filter(None, map(texts.fault_of, (last.text, last.report, last.waiting, last.waits, *sources)))


def rows_for_programs(office: Office, handed_in: HandedIn, faults: list[FileFault]) -> Iterator[list[Cell]]:
    """What programs are told: a row for each thing, with nothing in the columns that it does not have."""
    last = office.last()
    if last:
        released = "released" if office.events.is_released() else "not released"
        yield [LAST, str(last.date), last.next, None, last.who, last.at, released]
        yield [LOGIN, str(last.date), None, None, last.who, last.at, last.login or None]
        yield [ENGINE, str(last.date), None, None, None, None, last.engine or NOBODY_KNOWS]
        yield [HEAD, str(last.date), None, None, None, None, office.events.last_line]
        for date in missed_days(office):
            yield [MISSED, str(date), None, None, None, None, None]
    for waits in waits_of(office):
        yield [WAITS, str(waits.due) if waits.due else None, waits.record, None, None, None, waits.instruction.row]
    for item in handed_in.items(*KINDS):
        day = str(item.part.earliest) if item.part.earliest else None
        yield [HANDED, day, None, item.place, item.part.who, item.part.at, "\n".join(item.rows)]
    yield from ([TAKEN, None, None, taking.place, taking.who, taking.at, taking.why] for taking in handed_in.taken)
    for _, what in second_lines(office, handed_in):
        yield [SECOND, None, None, None, None, None, what]
    for _, what in lock_lines(office):
        yield [IN_USE, None, None, None, None, None, what]
    for fault in faults:
        yield [FAULT, None, None, None, None, None, str(fault)]


def last_lines(office: Office, handed_in: HandedIn) -> Iterator[tuple[str, str]]:
    """What is told of the last day."""
    last, first = office.last(), handed_in.first_text()
    if first:
        settles = f"{voice.command('close', '--date', first.head.date)} settles the first text"
        yield "last day", f"none is settled yet; {settles}"
    if last is None:
        return
    not_released = f"not released: {voice.command('undo', last.date)} takes it back"
    released = "released" if office.events.is_released() else not_released
    approved = f", approved by {office.people.in_words(last.approved)}" if last.approved else ""
    who = approvals.who_did(office, last.who, last.login)
    yield "last day", f"{last.date}, filed by {who} at {last.at}{approved}, {released}"
    yield "settled by", str(settler.engine_named(last.engine) or NOBODY_KNOWS)
    yield "next record", str(last.next)
    yield "head", office.events.head
    today = datetime.date.today()
    passed = missed_days(office)
    yield "since then", counted((today - last.date).days, "day", "days") if today > last.date else "no day has passed"
    if passed:
        yield "working days without a settlement", days_in_words(passed)
    for date, what in next_dates(office, MOST_SOON):
        yield "next", f"{date}: {what}"


def waiting_lines(office: Office, names: Labels) -> Iterator[tuple[str, str]]:
    """What waits, by due day."""
    waiting = sorted(waits_of(office), key=lambda waits: (waits.due is None, str(waits.due)))
    yield "waiting", str(len(waiting)) if waiting else "nothing"
    for waits in waiting[:MOST_SHOWN]:
        row = waits.instruction.row
        yield "", f"{waits.due or 'no due day in the calendar'}  {row}{named_in(row, names)}"
    yield from more(len(waiting))


def handed_lines(handed_in: HandedIn, names: Labels) -> Iterator[tuple[str, str]]:
    """What is told of what was handed in."""
    items = [*handed_in.items(*KINDS)]
    yield "handed in", str(len(items)) if items else "nothing"
    for item in items[:MOST_SHOWN]:
        yield "", f"{item.place:>4}  {item_line(item)}{named_in(item.rows[0], names)}"
    yield from more(len(items))
    for taken in handed_in.taken[:MOST_SHOWN]:
        yield "", f"{taken.place:>4}  taken back by {taken.who} at {taken.at}: {taken.why}"
    yield from more(len(handed_in.taken))


def second_lines(office: Office, handed_in: HandedIn) -> Iterator[tuple[str, str]]:
    """What waits for another login, and what nobody could approve."""
    for second in approvals.all_waiting(office, handed_in):
        yield SECOND, f"{second.told}: {second.way}"
    for command in office.people.without_second():
        yield SECOND, f"{LOOK}: {command} waits for a second one, and office.ini names fewer than two who may give it"


def more(count: int) -> Iterator[tuple[str, str]]:
    """The line that counts what is not shown."""
    if count > MOST_SHOWN:
        yield "", f"and {count - MOST_SHOWN} more"


def item_line(item: Item) -> str:
    """An item that was handed in, as a line."""
    rest = f" and {len(item.rows) - 1} rows" if len(item.rows) > 1 else ""
    day = f", not before {item.part.earliest}" if item.part.earliest else ""
    return f"{item.rows[0]}{rest} ({item.part.name}, {item.part.who}{day})"


def named_in(row: str, names: Labels) -> str:
    """The names of what a row has, to stand behind it; nothing, if nothing of it has one."""
    told = naming.in_row(row, names)
    return f" [{', '.join(told)}]" if told else ""


def lock_lines(office: Office) -> Iterator[tuple[str, str]]:
    """That a command changes the folder, if one does."""
    if office.store.is_changing():
        yield "in use", CHANGING
