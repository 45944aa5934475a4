"""Makes the text of the next day of a folder: of the last day with its report, and of what was handed in since."""
import contextlib
import datetime
import itertools
import re
from collections.abc import Iterator
from dataclasses import dataclass, field, replace

from registry_tools import tables, voice
from registry_tools.calendars import working_days as calendars
from registry_tools.errors import FileFault, WordsFault, shown
from registry_tools.notes import BY_HAND, LOOK, Notes
from registry_tools.pairs import edits, next as next_day
from registry_tools.pairs.edits import Edit, EditFault
from registry_tools.office.intake import CHANGES, DO, EDITS, FIRST, KINDS, NAMES, WORK, HandedIn, Item
from registry_tools.office.office import Office
from registry_tools.second import faults, rules
from registry_tools.store import past
from registry_tools.store.events import Event
from registry_tools.store.texts import sum_of
from registry_tools.texts import pending
from registry_tools.texts.accounts import Accounts, Reader
from registry_tools.texts.day_text import DayText, day_of
from registry_tools.texts.repeated import tell_dates
from registry_tools.texts.report import Report
from registry_tools.texts.rows import Rows, rows_of_text, text_of_rows

# How a row begins behind which the rows of an account stand.
ACCOUNT = re.compile("account,([0-9]{1,9}),")
# How the text that is made is called.
NEXT_DAY = "the next day"


@dataclass
class NextDay:
    """The next day as it stands: its text, what waits behind it, and what is to be told."""

    date: datetime.date
    # Its first record number.
    first: int
    text: bytes
    waiting: list[pending.Waiting]
    # The instructions that waited and are due now: they stand before those that were handed in.
    entered: list[pending.Waiting]
    # The instructions that were handed in, in order.
    new: list[Item]
    notes: list[str] = field(default_factory=list)
    # The day before it, if there is one.
    before: tuple[DayText, Report] | None = None

    @property
    def made(self) -> pending.Made:
        """With which text its pending file is written: this one."""
        return pending.Made(self.date, self.first)

    def waiting_text(self) -> bytes:
        """The pending file of the day."""
        return pending.text_of(self.waiting, self.made).encode("utf-8", "surrogateescape")

    def pending_file(self) -> pending.PendingFile:
        """The same as if it had been read."""
        return pending.PendingFile(NEXT_DAY, self.made, [(waits, line) for line, waits in enumerate(self.waiting, 2)])

    def sum(self) -> str:
        """The sum of all that it is made of: what comes of it is the same as long as this is."""
        return sum_of(self.text + self.waiting_text())

    def day(self, path: str = NEXT_DAY) -> DayText:
        """The text, read again with all checks. A fault names the path."""
        accounts = self.before[1].known(self.before[0]) if self.before else None
        return day_of(rows_of_text(path, self.text.decode("utf-8", "surrogateescape")), accounts)


def settlement_date(office: Office, handed_in: HandedIn) -> datetime.date:
    """The settlement day that comes next: the first working day behind the last day."""
    first = handed_in.first_text()
    if first:
        return first.head.date
    last = office.last()
    assert last is not None  # (without a filed day there is the first text)
    # (what waited for another login when an undone day was closed once more keeps the date of that day)
    of_later = (item.part.earliest for item in handed_in.items(*KINDS) if item.part.is_of_later(last.date))
    undone = [date for date in of_later if date]
    if undone:
        return min(undone)
    later = [date for date in working_days(office, last, handed_in) if date > last.date]
    if later:
        return later[0]
    # (behind the end of the calendar, the next day serves to show what would come of it)
    following = last.date + datetime.timedelta(1)
    if following.year > tables.LAST_YEAR:
        no_more = f"no text has a later date: {voice.path(office.path)} has no next day"
        raise WordsFault(f"{last.date} is settled, and {no_more}")
    return following


def not_later(office: Office, handed_in: HandedIn, date: datetime.date) -> WordsFault:
    """That a date cannot be the next one: who closed it, which one comes next, and what takes the last one back."""
    last, event = last_day(office), office.events.day_of(date)
    closed = f": {event.who} closed {date} at {voice.time(event.at)}" if event else ""
    comes = f"{closed}; the next one is {settlement_date(office, handed_in)}"
    back = "" if office.events.is_released() else f"{voice.command('undo', last.date)} takes the last one back"
    why = f"{voice.option('date', date)} is not later than {last.date}, the last day{comes}"
    return WordsFault(why, back, ", and ")


def working_days(office: Office, last: Event, handed_in: HandedIn) -> list[datetime.date]:
    """The calendar with the working days that were handed in."""
    new = [datetime.date.fromisoformat(item.rows[0].split(",")[1]) for item in handed_in.items(WORK)]
    return sorted({*filed_calendar(office, last), *new})


def last_day(office: Office) -> Event:
    """The last day of a folder. Ends the command if no day is settled yet."""
    last = office.last()
    if last is None:
        way = f"{voice.command('init')} puts another first text there"
        raise WordsFault(f"{voice.path(office.path)} has no settled day yet", way)
    return last


def last_pair(office: Office, has_book: bool = True) -> tuple[DayText, Report]:
    """The last day of a folder, and its report; without the accounts before the day, if nobody asks for them."""
    last = last_day(office)
    if office.last_read is not None and office.last_read[0] == last.line:
        return office.last_read[1:]
    return past.read(office.store.pair_of(last), None, has_book)


def filed_calendar(office: Office, event: Event) -> list[datetime.date]:
    """The working days of a filed day. Only its first rows are unpacked."""
    lines = office.store.texts.lines(event.text)
    rows = itertools.takewhile(lambda row: not row.startswith(("account,", "do,", "end")), lines)
    return [datetime.date.fromisoformat(row.split(",")[1]) for row in rows if row.startswith("work,")]


@contextlib.contextmanager
def telling_the_way_out() -> Iterator[None]:
    """Says of something that was handed in and that the next day can't have how it is taken back."""
    try:
        yield
    except FileFault as fault:
        if fault.place is not None and fault.expected:
            fault.add_way(f"{voice.command('take-back', fault.place)} takes it back")
        raise


def compose(office: Office, handed_in: HandedIn, date: datetime.date) -> NextDay:
    """The next day, as it stands."""
    first, today = handed_in.first_text(), datetime.date.today()
    made = first_day(first, handed_in, date) if first else later_day(office, handed_in, date)
    if date > today:
        made.notes.append(f"{LOOK}: {date} has not come yet: today is {today}, by the clock of this machine")
    return made


def first_day(first: DayText, handed_in: HandedIn, date: datetime.date) -> NextDay:
    """The first day: its text as it is, and behind its instructions those that were handed in."""
    if date != first.head.date:
        raise WordsFault(f"{voice.option('date', date)}: the first text of this folder is that of {first.head.date}")
    for kind in (CHANGES, EDITS, WORK):
        item = next(handed_in.items(kind), None)
        if item:
            way = f"correct the first text by {voice.command('init')} in its place"
            raise WordsFault(f"place {item.place}: {kind} are for later days", way, "; ")
    new = [*handed_in.items(DO)]
    next_day.check_count(first.head.next_record, len(first.instructions) + len(new))
    rows = [*first.source.rows[:-1], *(row for item in new for row in item.rows), "end"]
    items, notes = [*handed_in.items(FIRST), *new], [*about_first(first, new)]
    return NextDay(date, first.head.next_record, text_of_rows(rows), [], [], items, notes)


def about_first(first: DayText, new: list[Item]) -> Iterator[str]:
    """What is to be told of the first day, as of a later one: of its date, its calendar, and what was handed in."""
    notes = Notes()
    notes.warn(*next_day.about_date(None, first.head.date, first.head.working_days))
    more = f"{voice.command('init')} takes a first text with more work rows"
    calendars.look_at_calendar(first.head, first.book, notes, more)
    for name, items in itertools.groupby(new, lambda item: item.part.name):
        about = [*items]
        rows = [row for item in about for row in item.rows], [line for item in about for line in item.lines]
        tell_dates(Rows(name, *rows), first.head, notes)
    yield from notes.lines


def later_day(office: Office, handed_in: HandedIn, date: datetime.date) -> NextDay:
    """A later day, as `./day next` writes it."""
    last = last_day(office)
    day, report = last_pair(office, has_book=False)
    if date <= last.date:
        raise not_later(office, handed_in, date)
    name = voice.path(f"{office.store.path}/next")
    merged = Merged(name, handed_in)
    try:
        composed = later_text(day, report, date, handed_in.merged(), office.store.kept(last, "waiting"), name)
    except FileFault as fault:
        if str(fault.path).startswith(f"{name}/"):
            item, _ = merged.item(str(fault.path), fault.line)
            fault.place = item.place if item else None
            fault.path, fault.line = merged.origin(str(fault.path), fault.line)
        raise
    except EditFault as fault:
        place = next((item.place for item in handed_in.items(EDITS) if item.rows[0] == fault.edit.row()), None)
        raise EditFault(fault.edit, fault.why, place) from None
    composed.notes = [*map(merged.named_in, composed.notes)]
    return replace(composed, new=[*handed_in.items(DO)], before=(day, report))


def later_text(
    day: DayText, report: Report, date: datetime.date, merged: dict[str, Rows], waits: str, name: str
) -> NextDay:
    """The text of a later day, made of what was handed in: rows of each kind. A fault or note names `name`/KIND.csv."""
    given = {kind: replace(rows, path=f"{name}/{kind}.csv") for kind, rows in merged.items()}
    notes = Notes()
    calendar = calendars.next_calendar(day, given[WORK] or None, notes)
    made = edits_in(given[EDITS])
    heading = [*next_day.heading_of(day, date, report.next_record, calendar)]
    of_rules = [edit for edit in made if not edit.number]
    if of_rules:
        heading = edits.edited_heading(of_rules, heading)
    head = head_of(heading)
    changes = edited_changes(made, report, given[CHANGES], name) if made or given[CHANGES] else None
    book = next_day.book_with_changes(day, report, changes, notes, head.periods)
    notes.lines += [
        f"{BY_HAND}: the rules: {difference}"
        for difference in (edits.rows_gone_and_come(day.heading, heading) if of_rules else ())
        if not difference[2:].startswith(("day,", "work,"))
    ]
    head = replace(head, accounts=Accounts(book))
    notes.warn(*next_day.about_date(day.head.date, date, head.working_days), *about_past(day, calendar, head))
    calendars.look_at_calendar(head, book, notes)
    waiting = next_day.waiting_after(day, report, pending.read_pending(waits), date, notes)
    entered = next_day.enter_due(head, waiting, notes)
    new = next_day.new_instructions(given[DO] or None, report, len(entered))
    tell_dates(new, head, notes)
    next_day.check_count(report.next_record, len(entered) + len(new))
    rows = heading
    rows += report.book_rows if book is report.book else [row for block in book.values() for row in block.rows]
    rows += [*(waits.instruction.row for waits in entered), *new.rows, "end"]
    return NextDay(date, report.next_record, text_of_rows(rows), waiting, entered, [], notes.lines)


def about_past(before: DayText, calendar: list[datetime.date], head: rules.Day) -> Iterator[str]:
    """Tells if a hand changes the working days before the day."""
    dates = [date for date in sorted({*calendar} ^ {*head.working_days}) if date <= before.head.date]
    if dates:
        changed = calendars.days_in_words(dates)
        yield f"the calendar of settled days changes, and with it due days and windows: {changed}"


def head_of(heading: list[str]) -> rules.Day:
    """The rules that these rows say, without accounts. Ends the command at the first row that cannot stand there."""
    reader = Reader(Rows("the first rows of the next day", heading, range(1, len(heading) + 1)), faults.Reading())
    for place in range(len(heading)):
        reader.add(place)
    return rules.day_of_fields(row.split(",") for row in heading)


# What was handed in, as the rows of each kind.


class Merged:
    """The texts that are merged of what was handed in. Nobody finds them later: a message names what was handed in,
    with its line."""

    def __init__(self, name: str, handed_in: HandedIn) -> None:
        self.rows = {
            f"{name}/{kind}.csv": [(item, line) for item in handed_in.items(kind) for line in item.lines]
            for kind in (DO, CHANGES, WORK)
        }
        self.path = re.compile(rf"({re.escape(name)}/(?:\w+/)?\w+\.csv)(?::([0-9]+))?")

    def origin(self, path: str, line: int) -> tuple[str, int]:
        """Where a row of a merged text came from. A block of several changes has no single line."""
        item, number = self.item(path, line)
        if item:
            return item.part.name, number
        return f"the {NAMES[path.rpartition('/')[2].removesuffix('.csv')]} handed in", 0

    def item(self, path: str, line: int) -> tuple[Item | None, int]:
        """What was handed in that has a row of a merged text, and the line where it has it."""
        rows = self.rows.get(path, [])
        return rows[line - 1] if 0 < line <= len(rows) else (None, 0)

    def named_in(self, note: str) -> str:
        """A note with the names of what was handed in; one that asks somebody to look at a row has its place, too, by
        which it is taken back."""

        def where(found: re.Match[str]) -> str:
            path, row = found[1], int(found[2] or 0)
            name, line = self.origin(path, row)
            item, _ = self.item(path, row)
            place = f" (place {item.place})" if item and note.startswith(LOOK) else ""
            return f"{name}:{line}{place}" if line else name

        return self.path.sub(where, note)


def edits_in(given: Rows) -> list[Edit]:
    """The differences that rows say, which a command of the folder wrote: each other row is a fault."""
    made = []
    for place, row in enumerate(given.rows):
        try:
            made.append(edits.edit_of(row))
            edits.must_be_readable(made[-1])
        except WordsFault:
            expected = f"a change by hand, as {voice.command('change')} writes it"
            raise given.fault(place, "row", shown(row), expected) from None
    return made


def blocks_in(given: Rows) -> dict[int, list[str]]:
    """The rows of each account, which need not rise."""
    blocks: dict[int, list[str]] = {}
    block: list[str] | None = None
    for place, row in enumerate(given.rows):
        begins = ACCOUNT.match(row)
        if begins:
            block = blocks[int(begins[1])] = []
        if block is None or (row.startswith("account,") and not begins):
            raise given.fault(place, "row", shown(row), "accounts, as they were handed in")
        block.append(row)
    return blocks


def edited_changes(made: list[Edit], report: Report, given: Rows, name: str) -> Rows | None:
    """The accounts that are changed by hand: by whole blocks, and by differences. Without differences, the rows of
    blocks as they are, if the accounts rise."""
    blocks = blocks_in(given)
    if not any(edit.number for edit in made) and [*blocks] == sorted(blocks):
        return given or None
    changed = [row for block in edits.edited_blocks(made, report, blocks).values() for row in block]
    return Rows(f"{name}/edited/{CHANGES}.csv", changed, range(1, len(changed) + 1)) if changed else None
