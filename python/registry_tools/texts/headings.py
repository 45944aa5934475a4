"""In what the first rows of a day differ from those of the day before. Only people change them: each difference is one
by hand."""
from typing import Iterator

from registry_tools.errors import FileFault, shown
from registry_tools.texts.changes import NO_ROW
from registry_tools.texts.day_text import DayText

# Rows that stand once, and rows of lists. Periods and calendars have rules of their own.
SINGLE, LISTS = ("format", "current", "lags"), ("surrender", "admin")


def rows_with_tag(day: DayText, tag: str) -> list[str]:
    """The rows with this tag before the accounts."""
    return [row for row in day.heading if row.partition(",")[0] == tag]


def heading_differences(before: DayText, day: DayText) -> Iterator[FileFault]:
    """What was changed by hand, each as a fault of the later text."""
    for tag in SINGLE:
        old, new = rows_with_tag(before, tag), rows_with_tag(day, tag)
        if old != new:
            found, expected = (shown(rows[0]) if rows else NO_ROW for rows in (new, old))
            where = f"{expected}, as {before.path}:{before.line_of_tag(tag)}"
            yield FileFault(day.path, day.line_of_tag(tag), tag, found, where)
    for tag in LISTS:
        old, new = rows_with_tag(before, tag), rows_with_tag(day, tag)
        for row in (added for added in new if added not in old):
            yield FileFault(day.path, day.line_of(row), tag, shown(row), f"{NO_ROW}: {before.path} has none")
        for row in (lost for lost in old if lost not in new):
            where = f"{shown(row)}, as {before.path}:{before.line_of(row)}"
            yield FileFault(day.path, day.line_of_tag(tag), tag, NO_ROW, where)
    yield from new_periods(before, day)


def new_periods(before: DayText, day: DayText) -> Iterator[FileFault]:
    """The periods that the day before does not have, as faults."""
    count = len(before.head.periods)
    for row in rows_with_tag(day, "period")[count:]:
        wanted = f"{NO_ROW}: {before.path} has {count} periods"
        yield FileFault(day.path, day.line_of(row), "period", shown(row), wanted)


def lost_period(before: DayText, day: DayText) -> FileFault | None:
    """The first period of the day before that the day does not have, if there is one: no period may go."""
    old, new = before.head.periods, day.head.periods
    for place, period in enumerate(old):
        years = new[place] if place < len(new) else None
        if years != period:
            line = day.line_of(rows_with_tag(day, "period")[place]) if years else day.line_of_tag("lags")
            was = f"period {place + 1} of {before.path}, {period[0]} to {period[1]}"
            kept = f"{was}: periods are kept, and only added to"
            return FileFault(day.path, line, "period", f"{years[0]} to {years[1]}" if years else NO_ROW, kept)
    return None
