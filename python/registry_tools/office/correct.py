"""Corrects a settled day that nobody else knows of yet: closes it once more without an instruction, or with others, and
all days behind it. Each day is made of what was handed in for it, with who handed it in and when.

A day that is closed once more has other record numbers behind what was left out. A reversal that names one of them
would reverse something else: that is refused."""
import datetime
from dataclasses import dataclass, field

from registry_tools import voice
from registry_tools.calendars.due_days import NOT_DUE, head_after
from registry_tools.errors import Fault, WordsFault
from registry_tools.notes import LOOK
from registry_tools.office import approvals, close, composing, hand_in, intake, incoming, people, trial
from registry_tools.pairs import differing
from registry_tools.office.approvals import AskedFor
from registry_tools.office.close import Settled
from registry_tools.pairs.edits import place_of_row
from registry_tools.office.hand_in import Here
from registry_tools.office.intake import CHANGES, DO, FIRST, HandedIn, Item, Part
from registry_tools.office.incoming import Given, Incoming
from registry_tools.office.office import By, Office
from registry_tools.office.waits import waits_of
from registry_tools.progress import progress
from registry_tools.store import daybook, past
from registry_tools.store.events import UNDONE, Event
from registry_tools.store.past import PastDay
from registry_tools.store.texts import sum_of
from registry_tools.texts.report import LogRow, Report
from registry_tools.texts.rows import text_of_rows

REVERSE = "reverse"
# Of the day before, the report as it was and as it becomes.
Reports = tuple[Report, Report]
# What corrects what was done, if others know of it: as docs/RULES.md says it.
LAW = {
    "transfer": "a transfer back, from the account that received",
    "return": "a central move of the same amount, from the allocation account to the operator",
    "surrender": "a reversal, as long as its window is not over",
    "delete": "a reversal, as long as its window is not over",
    "reverse": "the surrender or deletion again, which gets a row of its own",
    "central": "a central move back, or a return of excess by each account that received",
    "distribute": "a return of excess by each account that received",
    "create": "no act takes it back",
    "trust": "a removal, which takes effect after the lag LIST",
    "untrust": "an addition, which takes effect after the lag LIST",
    "status": "another change of the status, except if it was set to closed",
    "emissions": "another entry for the same year, and then the assessments again",
    "assess": "another assessment of the year, after what made it wrong was corrected",
}  # fmt: skip
OF_REVERSALS = ("surrender", "delete")


@dataclass(frozen=True)
class Correct:
    """What is corrected: a settled day, without these records of it or of later days, with these files; and how it is
    settled. It counts with YES."""

    date: datetime.date
    why: str
    without: tuple[int, ...] = ()
    files: tuple[Given, ...] = ()
    by_second: bool = False
    verifies: bool = False
    yes: bool = False


@dataclass(frozen=True)
class Shown:
    """What each day becomes, in words; and what is to be told of how the new days were made."""

    days: list[tuple[datetime.date, list[str]]]
    notes: list[str]


@dataclass(frozen=True)
class Corrected:
    """Days are closed once more: which, what they become, and the last of them."""

    days: list[datetime.date]
    shown: Shown
    last: Settled


def correct(office: Office, by: By, asked: Correct) -> Corrected | Shown | tuple[Shown, AskedFor]:
    """Corrects a day, or shows what would become of it and of the days behind it. Raises WordsFault if it was released
    or if a reversal would name another record, and a fault if a day can't be closed so: `behind` says if it is a later
    day than the corrected one."""
    if not asked.without and not asked.files:
        ways = voice.either("--without RECORD or --with FILE", "a record that is left out, or a file,")
        raise WordsFault("nothing to correct", f"{ways} says what is wrong")
    with office.changing("correct", by) if asked.yes else office.trying("correct", by):
        must_be_open(office, asked.date, asked.without)
        added = [incoming.read(each) for each in asked.files]
        # (what it adds needs what ./day hand-in and ./day change need: the right, and the second one)
        beside = sorted({approvals.COMMAND_OF[incoming.kind] for incoming in added})
        for command in beside:
            people.must_be_allowed(office.people, office.login, command)
        correction = Correction(office, asked, added)
        dates = [event.date for event in correction.days]
        if asked.yes and not approvals.waits(office, "correct", *beside):
            settled = correction.made("")
            return Corrected(dates, correction.shown(settled), settled[-1])
        with office.store.trying():
            settled = correction.made("")
        shown = correction.shown(settled)
        if not asked.yes:
            return shown
        result = sum_of(b"".join(day.composed.text + day.report_text for day in settled))
        approved = approvals.let_through(office, "correct", asked.date, asked_words(asked, added), result, beside)
        if isinstance(approved, AskedFor):
            return shown, approved
        settled = correction.made(approved)
        return Corrected(dates, shown, settled[-1])


def asked_words(asked: Correct, added: list[Incoming]) -> str:
    """What is asked for, so that somebody else can look at it: the files with their rows."""
    parts = [f"--without {record}" for record in asked.without]
    parts += [f"--with {incoming.given.name} ({'; '.join(incoming.rows.rows)})" for incoming in added]
    return " ".join([*parts, *(["--second"] if asked.by_second else []), f"--why {asked.why}"])


# Days that stay.


def must_be_open(office: Office, date: datetime.date, without: tuple[int, ...]) -> None:
    """Ends the command if there is no such day, or if others know of it."""
    filed = office.events.day_of(date)
    if filed is None:
        raise WordsFault(f"{date} is no settled day of {voice.path(office.path)}")
    if not office.events.is_released(filed):
        return
    law = [line for record in without for line in law_of(office, record)]
    more = "; ".join(law or ["hand in for the next day what was left out"])
    raise WordsFault(f"{date} was released, and is not corrected: others know of it", f"By the rules, {more}", ". ")


def law_of(office: Office, record: int) -> list[str]:
    """What corrects a record that others know of."""
    event = next((each for each in office.events.days if each.first <= record < each.next), None)
    if event is None:
        return []
    day, report = past.read(office.store.pair_of(event))
    logged = report.log[record - event.first]
    if not logged.is_done:
        return [f"record {record} needs none: it was refused"]
    fields = logged.instruction.fields
    what = f"record {record}, {fields[3]}, is corrected by {LAW[fields[3]]}"
    if fields[3] not in OF_REVERSALS:
        return [what]
    head = head_after(day, report)
    end = head.due(day.head.date, head.lags["reversal"])
    until = f"until {end}" if end else "with no end that the calendar has"
    return [f"{what}, {until}: reverse {fields[4]}, {record}"]


# Days that are closed once more.


@dataclass
class Correction:
    """The days from a date on, without some records, with some files."""

    office: Office
    asked: Correct
    added: list[Incoming]
    # The days as they are, with their reports, and what was handed in for each and since.
    days: list[Event] = field(default_factory=list)
    before: list[PastDay] = field(default_factory=list)
    filed: list[HandedIn] = field(default_factory=list)
    # What is to be told of how the new days were made.
    notes: list[str] = field(default_factory=list)

    def __post_init__(self) -> None:
        store = self.office.store
        self.all_days = [*store.events.days]
        self.since = approvals.handed_in_of(self.office)
        self.waits = waits_of(self.office)
        self.days = [event for event in self.all_days if event.date >= self.asked.date]
        self.filed = [intake.for_a_day(store, event) for event in self.days]
        self.before = [*past.read_all([store.pair_of(event) for event in self.days])]
        for record in self.asked.without:
            self.logged(record)

    def logged(self, record: int) -> tuple[Event, LogRow]:
        """The log row of a record, with the event of its day."""
        for event, past_day in zip(self.days, self.before):
            if event.first <= record < event.next:
                return event, past_day.report.log[record - event.first]
        first, last = self.days[0], self.days[-1]
        range_told = f"{first.date} has the records {first.first} to {first.next - 1}"
        option = voice.option("without", record)
        raise WordsFault(f"{option}: {range_told}, and the days behind it have them up to {last.next - 1}")

    def waited(self, record: int) -> WordsFault:
        """That a record waited since an earlier day, with the words by which it is left out of that one."""
        event, logged = self.logged(record)
        row = logged.instruction.row
        why = f"{voice.option('without', record)}: it waited since an earlier day, which it was handed in for: {row}"
        for earlier in reversed([day for day in self.all_days if day.date < event.date]):
            _, report = past.read(self.office.store.pair_of(earlier))
            not_due = (logged for logged in report.log if logged.name == NOT_DUE)
            waited = [logged.record for logged in not_due if logged.instruction.row == row]
            if waited:
                way = f"{voice.command('correct', earlier.date, '--without', waited[0])} leaves it out"
                return WordsFault(why, way, "; ")
        return WordsFault(why)

    # The days once more.

    def made(self, approved: str) -> list[Settled]:
        """Takes the days back and closes them once more, in a change of the folder."""
        self.notes.clear()
        self.take_back(approved)
        settled = list[Settled]()
        for place, event in enumerate(self.days):
            progress.tell("closing the days once more", place, len(self.days))
            reports = (self.before[place - 1].report, settled[-1].report) if place else None
            settled.append(self.closed(place, event, reports))
            close.file_day(self.office, settled[-1], approved)
        progress.clear()
        close.hand_in_again(self.office, self.since, self.since.parts)
        self.must_name_the_same(settled)
        return settled

    def take_back(self, approved: str) -> None:
        """Takes the days back, the last one first."""
        office = self.office
        for last in reversed(self.days):
            values = {"of": last.id, "date": last.date, "first": last.first, "next": last.next}
            office.add(UNDONE, why=self.asked.why, approved=approved, **values)
            daybook.remove_day(office.store.db, last.date)
        trial.forget(office)

    def closed(self, place: int, event: Event, reports: Reports | None) -> Settled:
        """A day once more, behind another report than before."""
        try:
            handed_in = self.handed_again(place, event, reports)
            composed = composing.compose(self.office, handed_in, event.date)
            return close.settle(self.office, composed, self.asked.by_second, self.asked.verifies)
        except Fault as fault:
            fault.behind = event.date if event.date != self.asked.date else None
            raise

    def handed_again(self, place: int, event: Event, reports: Reports | None) -> HandedIn:
        """Hands in again what was handed in for a day, without what is left out, and with what is added."""
        filed, handed_in = self.filed[place], HandedIn(self.office.store)
        gone = self.left_out(filed, event)
        for part in filed.parts:
            self.hand_in_again(handed_in, filed, part, gone, event.date, reports)
        if event.date == self.asked.date:
            here = Here(handed_in)
            for each in self.added:
                hand_in.add(self.office, here, each)
        return handed_in

    def left_out(self, filed: HandedIn, event: Event) -> set[int]:
        """The places of what is left out of what was handed in for a day."""
        # (what waited stands before what was handed in)
        items = [*filed.items(FIRST, DO)]
        begin, gone = event.next - len(items), set[int]()
        for record in self.asked.without:
            if event.first <= record < begin:
                raise self.waited(record)
            if begin <= record < event.next:
                gone.add(items[record - begin].place)
        return gone

    def hand_in_again(
        self, handed_in: HandedIn, filed: HandedIn, part: Part, gone: set[int], date: datetime.date,
        reports: Reports | None,
    ) -> None:  # fmt: skip
        """Hands a part in again, without the places that are left out."""
        left = [item for item in filed.items_left(part) if item.place not in gone]
        rows = [row for item in left for row in self.rows_again(item, date, reports)]
        if part.kind == FIRST:
            others = (row for row in filed.rows(part).rows if not row.startswith(("do,", "end")))
            rows = [*others, *rows, "end"]
        elif not left:
            return
        intake.put_again(self.office, handed_in, part, text_of_rows(rows), len(left), date)

    def rows_again(self, item: Item, date: datetime.date, reports: Reports | None) -> list[str]:
        """The rows of something that is handed in again. Of an account that was handed in as a whole, what a hand
        changed is laid over the account as it stands now: so it has what it holds by then."""
        if item.part.kind != CHANGES or reports is None:
            return item.rows
        old, new = reports
        number = int(item.rows[0].split(",")[1])
        if number not in old.book or number not in new.book:
            return item.rows
        rows = laid_over(item.rows, old.book[number].rows, new.book[number].rows)
        if rows != item.rows:
            whole = "was handed in as a whole, and comes with what it holds by then"
            self.notes.append(f"{date}: account {number} {whole}")
        return rows

    def shown(self, settled: list[Settled]) -> Shown:
        """What each day becomes."""
        days = []
        for before, after in zip(self.before, settled):
            notes = [note for note in after.composed.notes if note.startswith(LOOK)]
            others = differing.all_differences((before.day, before.report), (after.day, after.report))
            days.append((before.date, [*others, *notes]))
        return Shown(days, [*dict.fromkeys(self.notes)])

    # What it would make of the numbers of records.

    def must_name_the_same(self, settled: list[Settled]) -> None:
        """Ends the command if a reversal names a record that becomes another one."""
        old = {row.record: row for past_day in self.before for row in past_day.report.log}
        new = {row.record: row for day in settled for row in day.report.log}
        rows = [row.instruction.row for day in settled for row in day.report.log]
        rows += [row for item in self.since.items(DO) for row in item.rows]
        rows += [waiting.instruction.row for waiting in self.waits]
        for row in dict.fromkeys(rows):
            fields = row.split(",")
            if fields[4] != REVERSE or not (fields[6].isascii() and fields[6].isdigit()):
                continue
            number = int(fields[6])
            was, becomes = old.get(number), new.get(number)
            if (was and was.instruction.row) != (becomes and becomes.instruction.row):
                what = "leave that reversal out too, and hand it in once more for a later day"
                raise WordsFault(f"record {number} would be another one, and {row} names it: {what}")


def laid_over(block: list[str], old: list[str], new: list[str]) -> list[str]:
    """The rows of an account with what a hand changed: what differs between `old` and the block."""
    fields = [
        given if given != before else now
        for given, before, now in zip(block[0].split(","), old[0].split(","), new[0].split(","))
    ]
    gone, come = {*old[1:]} - {*block[1:]}, [row for row in block[1:] if row not in old[1:]]
    left = [row for row in new[1:] if row not in gone and row not in come]
    return [",".join(fields), *sorted([*left, *come], key=place_of_row)]
