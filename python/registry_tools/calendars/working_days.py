"""The working days of a calendar: whether the calendars of days agree, and none of them brings back a window for a
reversal that was over, or delays a due day; which weekdays it leaves out, holidays or rows that somebody forgot: no
rule knows which; and the calendar of the next day."""
import bisect
import datetime
import itertools
from collections.abc import Sequence

from registry_tools import tables, voice
from registry_tools.errors import FileFault
from registry_tools.findings import Findings
from registry_tools.notes import LEFT_OUT, Notes
from registry_tools.second import faults, rules
from registry_tools.texts.accounts import Block
from registry_tools.texts.books import Retired, open_by_late_begin, retired_of
from registry_tools.texts.day_text import DayText, read_rows_of
from registry_tools.texts.rows import Rows

# More of them are only counted.
MOST_TOLD = 5
MONDAY_TO_FRIDAY = range(5)
# (the window of a reversal ends; all other lags begin something)
LAGS = {name.lower(): name for name in tables.LAGS if name != "REVERSAL"}


class Calendars:
    """The working days that were named so far, as the last calendar that has them says it: the next one is compared
    with them."""

    def __init__(self) -> None:
        self.days: list[datetime.date] = []

    def look_at(self, day: DayText, found: Findings) -> None:
        """Compares the calendar of a day with those before it."""
        new = day.head.working_days
        if self.days and new:
            self.compare(day, new, found)
        if self.days:
            self.look_at_begin(day, found)
        else:
            look_at_first_calendar(day, found)
        # (what was told of this calendar is not told of the next one, which is made of it)
        before = (date for date in self.days if not new or date < new[0] or date > new[-1])
        self.days = sorted({*before, *new})

    def compare(self, day: DayText, new: list[datetime.date], found: Findings) -> None:
        """The two agree from the later of their first days to the earlier of their last ones."""
        first, last = max(self.days[0], new[0]), min(self.days[-1], new[-1])
        old_days, new_days = ({date for date in days if first <= date <= last} for days in (self.days, new))
        for other in sorted(old_days ^ new_days):
            line = day.line_of(f"work,{new[bisect.bisect_left(new, other)]}")
            if other in new_days:
                fault = FileFault(day.path, line, "work", other, "no working day: the days before have none")
            else:
                fault = FileFault(day.path, line, "work", f"no row work,{other}", "it, as the days before have it")
            found.add(fault)

    def look_at_begin(self, day: DayText, found: Findings) -> None:
        """Whether a calendar that begins later than those before it brings a window back, or delays a due day."""
        head = day.head
        first = head.working_days[0] if head.working_days else datetime.date.max
        if first <= self.days[0]:
            return
        longer = rules.Day(head.date, 0, working_days=sorted({*self.days, *head.working_days}))
        place = next((place for place, i in enumerate(day.instructions) if delays(longer, head, i.proposed)), None)
        if place is not None:
            why = f"{day.path}:{day.line_of_instruction(place)} was proposed then"
            found.add(begins_late(day, day.instructions[place].proposed, why))
        for block in day.book.values():
            for row in retired_of(block):
                if row.is_reversed == "no" and row.date < str(first) and opens(longer, head, row):
                    why = f"{day.path}:{block.line_of(row.place)} can be reversed again, and its window was over"
                    found.add(begins_late(day, row.date, why))


def look_at_first_calendar(day: DayText, found: Findings) -> None:
    """Whether the calendar of the first day begins so late that something older can be reversed; tells the first of
    them."""
    for block, place in itertools.islice(open_by_late_begin(day.head, day.book), 1):
        why = f"{day.path}:{block.line_of(place)} can be reversed on {day.head.date}, whenever its window ended"
        found.add(begins_late(day, block.rows[place].split(",")[5], why))


def begins_late(day: DayText, date: datetime.date | str, why: str) -> FileFault:
    """That a calendar has to begin on a date, or before it."""
    days = day.head.working_days
    has = f"a calendar that begins on {days[0]}" if days else "no calendar"
    return FileFault(day.path, day.line_of_tag("work"), "work", has, f"the working days from {date} on: {why}")


def delays(longer: rules.Day, head: rules.Day, proposed: datetime.date) -> bool:
    """Whether a longer calendar has another first working day for an instruction."""
    return longer.due(proposed, 0) not in (None, head.due(proposed, 0))


def opens(longer: rules.Day, head: rules.Day, row: Retired) -> bool:
    """Whether the window of a row is over by the longer calendar, and not by that of the day."""
    date, window = datetime.date.fromisoformat(row.date), head.lags["reversal"]
    end, longer_end = head.due(date, window), longer.due(date, window)
    return longer_end is not None and longer_end < head.date and (end is None or end >= head.date)


# The weekdays that a calendar leaves out.


def left_out(working_days: Sequence[datetime.date]) -> list[datetime.date]:
    """The weekdays without a `work` row between the first and the last one."""
    if not working_days:
        return []
    dates, first, last = {*working_days}, working_days[0], working_days[-1]
    every = (first + datetime.timedelta(place) for place in range((last - first).days))
    return [day for day in every if day.weekday() in MONDAY_TO_FRIDAY and day not in dates]


def days_in_words(days: Sequence[datetime.date]) -> str:
    """Days as a message tells them."""
    more = [f"{len(days) - MOST_TOLD} more"] if len(days) > MOST_TOLD else []
    return ", ".join([*(f"{day:%A} {day}" for day in days[:MOST_TOLD]), *more])


# The calendar of the next day.


def next_calendar(day: DayText, given: str | Rows | None, notes: Notes) -> list[datetime.date]:
    """The working days of the next day's text: those of the day, and those of a file of `work` rows, or of rows that
    were read. Raises FileFault if there are other rows."""
    old = day.head.working_days
    if given is None:
        return old
    source = read_rows_of("work", given, faults.Reading(last="lags"))
    new = [datetime.date.fromisoformat(row.split(",")[1]) for row in source.rows]
    added = sorted({*new} - {*old})
    between = [date for date in added if old and date < old[-1]]
    if between:
        place = f"{source.path}:{source.line(new.index(between[0]))}: {between[0]}"
        goes_on = f"whose calendar goes on to {old[-1]}: due days change"
        notes.warn(f"{place} was no working day in {day.path}, {goes_on}")
    notes.add(f"calendar: {len(added)} working days added, {len(new) - len(added)} repeated left out")
    every = sorted([*old, *added])
    missing = [date for date in left_out(every) if not old or date > old[-1]]
    if missing:
        notes.add(f"{LEFT_OUT}: {days_in_words(missing)}")
    return every


def look_at_calendar(head: rules.Day, book: dict[int, Block], notes: Notes, more: str = "") -> None:
    """Warns where the calendar is too short for what may be proposed or done on the day; `more` says how it gets more
    days."""
    by_rows = f"add work rows ({voice.command('next', '--work')}, {voice.command('hand-in')})"
    way = more or voice.either(by_rows, "add working days (Change, the rules)")
    last = head.working_days[-1] if head.working_days else None
    end = f"the calendar ends on {last}" if last else "the calendar is empty"
    lag, name = max((head.lags[key], name) for key, name in LAGS.items())
    if head.due(head.date, lag) is None:
        notes.warn(f"{end}, before the due day of {head.date} with the lag {name} of {lag}: {way}")
    window = head.lags["reversal"]
    if head.due(head.date, window) is None:
        window_ends = f"the window REVERSAL of {window} working days from {head.date} is over"
        notes.warn(f"{end}, before {window_ends}: {way}")
    warn_of_late_begin(head, book, notes)


def warn_of_late_begin(head: rules.Day, book: dict[int, Block], notes: Notes) -> None:
    """Warns of surrenders and deletions from before the calendar, whose window seems not to be over only because it
    begins so late."""
    early = [*open_by_late_begin(head, book)]
    if early:
        block, place = early[0]
        first = f"the calendar begins on {head.working_days[0]}: {len(early)} surrenders and deletions are older"
        such = f"{block.source.path}:{block.line_of(place)}"
        notes.warn(f"{first}, and can be reversed on {head.date}, whenever their window ended, such as {such}")
