"""What waits behind the last day of a folder, and comes into a text by itself."""
import datetime

from registry_tools.calendars.due_days import due_day_after, head_after
from registry_tools.notes import Notes
from registry_tools.pairs import next as next_day
from registry_tools.office.office import Office
from registry_tools.texts import pending
from registry_tools.texts.day_text import DayText
from registry_tools.texts.report import Report


def waits_of(office: Office) -> list[pending.Waiting]:
    """What waits behind the last day, with its due days: it comes into a text by itself. It is kept when that day is
    filed."""
    last = office.last()
    return pending.read_waits(office.store.kept(last, "waits")) if last else []


def waiting_behind(office: Office, date: datetime.date) -> list[pending.Waiting]:
    """What waited behind a settled day: the text of the next one says it, or what is kept with the last one."""
    later, last = next((event for event in office.events.days if event.date > date), None), office.last()
    if later:
        path = office.store.kept(later, "waiting")
    elif last:
        path = office.store.kept(last, "waits")
    else:
        return []
    return [waiting for waiting, _ in pending.read_pending(path).rows]


def waits_text(day: DayText, report: Report, file: pending.PendingFile) -> bytes:
    """What waits behind a day, with the due days by the calendar and the accounts after the day. `file` is the pending
    file of the day."""
    waiting = next_day.waiting_after(day, report, file, datetime.date.max, Notes())
    head = head_after(day, report)
    for each in waiting:
        each.due, each.entered = due_day_after(head, each.instruction), None
    made = pending.Made(day.head.date, report.next_record)
    return pending.text_of(waiting, made).encode("utf-8", "surrogateescape")
