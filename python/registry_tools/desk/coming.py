"""The page of what is due: as a table, and as a file or a calendar for other programs."""
import datetime
import functools

import flask
from werkzeug.wrappers import Response

from registry_tools import tables, voice
from registry_tools.calendars.dates import date_of
from registry_tools.desk import gate
from registry_tools.desk.gate import Served
from registry_tools.desk.questions import download, rows_file
from registry_tools.desk.reading import Reading
from registry_tools.desk.shown import asked, show_page
from registry_tools.pages.html import Cells, link, tag
from registry_tools.questions import due

COLUMNS = ["Day", "What", "Account", "Record", "More"]
CALENDAR = "text/calendar; charset=utf-8"


def page(served: Served) -> Response:
    """The page of what is due, and of what is overdue, once a day is settled."""
    reading = served.reading
    if reading.office().last() is None:
        return gate.said(400, gate.NO_DAY)
    (found, until), dates = found_until(reading), reading.office().settings.due
    rows = [(str(it.date), it.what, it.account, it.record, it.text) for it in due.folded(found)]
    return show_page(
        "due", "Due", rows=rows, columns=COLUMNS, until=until, shown_row=functools.partial(cells_of, reading),
        overdue=sum(it.what == due.OVERDUE for it in found), has_dates=any((dates.surrender, dates.emissions)),
        query=flask.request.query_string.decode("ascii", "replace"),
    )  # fmt: skip


def found_until(reading: Reading) -> tuple[list[due.Due], datetime.date]:
    """What is due up to the day of the address, or as many days ahead as the office says; and that day."""
    office, word = reading.office(), asked("until")
    until = date_of("Up to the day", word) if word else due.last_shown(office)
    settled = reading.settled()
    assert settled is not None  # (who asks has looked)
    pair = settled.day, settled.report
    # (what nothing changes that is handed in is kept)
    tasks = reading.once(("due", voice.is_desk()), reading.state_of_days(),
                     lambda: due.of_days(office, *pair, lambda *of: reading.standings(of[-1])))
    state = f"{reading.all_states()} {datetime.date.today()}"
    return reading.once(("due", until, voice.is_desk()), state, lambda: due.with_calendar(office, until, tasks)), until


def cells_of(reading: Reading, row: tuple[str, str, int | None, int | None, str]) -> Cells:
    """The cells of what is due, its account with a link and its name."""
    date, what, account, *more = row
    named = link(f"/accounts/{account}", reading.names().account(account)) if account else ""
    return date, tag("strong", what) if what == due.OVERDUE else what, named, *more


def as_file(served: Served, kind: str) -> Response:
    """What is due as a table with all columns of ./day due, or as a calendar."""
    if served.reading.office().last() is None:
        return gate.said(400, gate.NO_DAY)
    # (other programs get what the command gives them)
    with voice.speaking(voice.TERMINAL):
        found, until = found_until(served.reading)
    if kind == "ics":
        return download(due.as_calendar(found, until).encode(), CALENDAR, "due.ics")
    return rows_file(served, kind, "due", tables.COLUMNS["due"], [task.cells() for task in found])
