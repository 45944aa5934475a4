"""The working days of a year: all weekdays but some, as holidays that somebody types, or that a calendar of another
program has (iCalendar, RFC 5545)."""
import datetime
import re
from collections.abc import Collection, Iterator

from registry_tools.calendars.dates import date_of
from registry_tools.calendars.working_days import MONDAY_TO_FRIDAY
from registry_tools.errors import WordsFault
from registry_tools.tables import FIRST_YEAR, LAST_YEAR

# What may stand between dates; and how a calendar names a whole day.
BETWEEN, DAY = re.compile(r"[\s,;]+"), re.compile("([0-9]{4})([0-9]{2})([0-9]{2})(?:T[0-9]{6}Z?)?")
# An entry of a calendar is not longer, in days; and a calendar has not more entries.
LONGEST, MOST_ENTRIES = 366, 10_000
NO_CALENDAR = "expected a calendar as .ics, whose entries have a DTSTART"


def weekdays_but(year: int, left_out: Collection[datetime.date]) -> list[datetime.date]:
    """All weekdays of a year but these. Raises WordsFault if no text has such a year."""
    if not FIRST_YEAR <= year <= LAST_YEAR:
        raise WordsFault(f"Year: found {year}; expected one from {FIRST_YEAR} to {LAST_YEAR}")
    first = datetime.date(year, 1, 1)
    every = (first + datetime.timedelta(place) for place in range((datetime.date(year + 1, 1, 1) - first).days))
    return [day for day in every if day.weekday() in MONDAY_TO_FRIDAY and day not in left_out]


def dates_in(words: str) -> list[datetime.date]:
    """The dates that somebody types, with blanks or commas between them. Raises WordsFault at one that is none."""
    return [date_of("a day that is left out", word) for word in BETWEEN.split(words.strip()) if word]


def days_of_ics(content: bytes) -> list[datetime.date]:
    """The days that the entries of a calendar cover, each once, rising. Raises WordsFault if it is no calendar, or has
    an entry that comes again: such a one says no days."""
    lines = re.sub("\r?\n[ \t]", "", content.decode("utf-8-sig", "replace")).splitlines()
    if "BEGIN:VCALENDAR" not in lines:
        raise WordsFault(NO_CALENDAR)
    found = set[datetime.date]()
    for count, entry in enumerate(entries_of(lines), 1):
        if count > MOST_ENTRIES:
            raise WordsFault(f"the calendar has more than {MOST_ENTRIES:,} entries")
        found.update(days_of_entry(entry))
    return sorted(found)


def entries_of(lines: list[str]) -> Iterator[dict[str, str]]:
    """What the properties of each entry say, by their names."""
    fields: dict[str, str] | None = None
    for line in lines:
        if line == "BEGIN:VEVENT":
            fields = {}
        elif line == "END:VEVENT" and fields is not None:
            yield fields
            fields = None
        elif fields is not None:
            name, _, value = line.partition(":")
            fields.setdefault(name.partition(";")[0].upper(), value)


def days_of_entry(entry: dict[str, str]) -> Iterator[datetime.date]:
    """The days of an entry: up to its end, which is the day behind its last one, if it is of whole days."""
    named = f"the entry {entry.get('SUMMARY', '')[:40]!r}"
    if "RRULE" in entry or "RDATE" in entry:
        raise WordsFault(f"{named} comes again by a rule", "save the calendar with each day as an entry of its own")
    begin = day_said(entry.get("DTSTART", ""))
    if begin is None:
        raise WordsFault(f"{named} has no day: {NO_CALENDAR}")
    end = day_said(entry.get("DTEND", "")) or begin
    is_whole = "T" not in entry.get("DTEND", "")
    count = (end - begin).days + (0 if is_whole and end > begin else 1)
    if not 0 < count <= LONGEST:
        raise WordsFault(f"{named} goes from {begin} to {end}: expected at most {LONGEST} days")
    yield from (begin + datetime.timedelta(place) for place in range(count))


def day_said(word: str) -> datetime.date | None:
    """The day that a value of a calendar names."""
    found = DAY.fullmatch(word)
    try:
        return datetime.date(*map(int, found.groups())) if found else None
    except ValueError:
        return None
