"""The pages of questions: accounts, names, compliance, days together, the journal, audits, packages and answers."""
import datetime
import functools
import io
import tempfile
import zipfile
from collections.abc import Callable, Iterator, Sequence
from dataclasses import replace
from pathlib import Path

import flask
from werkzeug.exceptions import NotFound
from werkzeug.wrappers import Response

from registry_tools import tables, voice
from registry_tools.calendars.dates import date_of
from registry_tools.calendars.due_days import NOT_DUE
from registry_tools.cli.asked import number_said
from registry_tools.desk import gate
from registry_tools.desk.gate import Served
from registry_tools.desk.jobs import COPIES
from registry_tools.desk.reading import Reading
from registry_tools.desk.shown import Part, TYPED, asked, number_asked, places_shown, row_of_taken, show_page
from registry_tools.errors import FOUND, WordsFault
from registry_tools.notes import BY_HAND
from registry_tools.pages import compliance as standing
from registry_tools.pages.month_standing import until_in_words
from registry_tools.pages.beside import item_in_words, words_of_row
from registry_tools.pages.html import Cells, Markup, link
from registry_tools.pages.month import Month
from registry_tools.pages.settled import REFUSED, WAITS, Settled, joined_words, outcome_in_words, record_in_words
from registry_tools.pairs import compliance as answers
from registry_tools.questions import changes, receipts, rewrites
from registry_tools.questions.days import Days
from registry_tools.questions.find import Find, accounts_meant, cells_of as cells_found, count_found, find as found_by
from registry_tools.questions.history import history
from registry_tools.questions.month import month
from registry_tools.questions.unpack import row_of
from registry_tools.second import faults, rules
from registry_tools.cli import form
from registry_tools.store.events import ALL, NUMBERS, OF_DAYS as OF_JOURNAL
from registry_tools.sheets.writing import Written, write_workbook
from registry_tools.showing import Cell, as_csv, as_json
from registry_tools.tables import Columns
from registry_tools.texts.in_words import grouped
from registry_tools.texts.namebook import ACCOUNT, KINDS, USER, Labels
from registry_tools.texts.report import LogRow

WORKBOOK = "application/vnd.openxmlformats-officedocument.spreadsheetml.sheet"
# Reads log rows: all that are meant, or those at some places of them.
Read = Callable[..., Sequence[LogRow]]
# An account: its number, kind, holder and status, what it holds, its name, and the number of its holder.
AccountRow = tuple[int, str, str, str, int, int, str, int]
# A log row: its day and record, what it asks for, the accounts and users that it names, and what came of it.
LogCells = tuple[str, int, str, str, str, str]
# Where somebody goes on behind a command.
BEHIND = dict.fromkeys(("hand-in", "change", "take-back"), ("/next", "To the next day"))
BEHIND |= {"label": ("/names", "To the names"), "settings": ("/office", "To the office")}
# What the dates of an address are called.
NAMES_OF_DATES = {"from": "From the day", "to": "Up to the day", "deadline": "Deadline"}
# What files tell of an account.
OF_ACCOUNTS = tables.columns("#account kind #holder status #general #aviation")
# What files tell of events, of settled days, and of what came of each.
OF_EVENTS = tables.Columns(ALL, frozenset(NUMBERS))
OF_DAYS = tables.columns("date who at #first #next engine released")
OF_MONTH = tables.columns("date #done #refused #waiting #general #aviation")
# What is told of an operator.
COLUMNS = ["Account", "Holder", "Surrendered", "Emissions", "Surrendered of emissions", "Figure now", "Verdict"]


def accounts(served: Served) -> Response:
    """The page of all accounts, or of those that a word finds."""
    settled, word = served.reading.settled(), asked("q")
    rows = [*account_rows(settled, word)] if settled else []
    return show_page("accounts", "Accounts", rows=rows, q=word, settled=settled, shown_row=cells_of_account)


def account_rows(settled: Settled, word: str) -> Iterator[AccountRow]:
    """What is shown of the accounts that have the word as their number, kind, holder or status, or in a name."""
    for block in settled.report.book.values():
        row = block.rows[0].split(",")
        holder, label = settled.names.holder(row[3]), settled.names.name_of(ACCOUNT, row[1])
        if not word or word in row[1:5] or any(word.casefold() in name.casefold() for name in (holder, label)):
            yield int(row[1]), row[2], holder, row[4], int(row[8]), int(row[9]), label, int(row[3])


def accounts_file(served: Served, kind: str) -> Response:
    """The accounts that the page shows, as a file, with numbers in place of names."""
    settled = served.reading.settled()
    if settled is None:
        return gate.said(400, gate.NO_DAY)
    rows = [(number, of, holder, status, general, aviation)
            for number, of, _, status, general, aviation, _, holder in account_rows(settled, asked("q"))]  # fmt: skip
    return rows_file(served, kind, "accounts", OF_ACCOUNTS, rows)


def cells_of_account(row: AccountRow) -> Cells:
    """The cells of an account, its number with a link."""
    number, kind, holder, status, general, aviation, name, _ = row
    shown = joined_words(link(f"/accounts/{number}", number), name)
    return shown, kind, holder, status, grouped(general), grouped(aviation)


def account(served: Served, number: int) -> Response:
    """The page of an account; NotFound if there is none."""
    parts = served.reading.account(number)
    if parts is None:
        raise NotFound(f"there is no account {number}: the page Accounts has all that there are")
    reading = served.reading
    rows = reading.of_days(lambda days: history(days, number)) if asked("history") else None
    return show_page(
        "account", f"Account {number}", own=parts, number=number,
        history=None if rows is None else [*map(row_of_history, rows)],
        shown_row=lambda row: (*row[:3], reading.outcome(str(row[0]), row[1], row[3]), *row[4:]),
    )  # fmt: skip


def history_file(served: Served, number: int, kind: str) -> Response:
    """What became of an account with all columns of ./day history, as a file; NotFound if there is none."""
    rows = served.reading.of_days(lambda days: history(days, number))
    if not rows:
        raise NotFound(f"no day has had an account {number}")
    return rows_file(served, kind, "history", tables.COLUMNS["history"], rows)


def row_of_history(row: Sequence[Cell]) -> Cells:
    """What became of an account, as it is shown: rows that somebody changed in words, and numbers in groups."""
    day, record, what, outcome, *held = row[0], row[1], str(row[2]), str(row[3]), *row[4:]
    if outcome == BY_HAND:
        how, _, changed = what.rpartition(" ")
        what = f"{how} {words_of_row(changed)}"
    elif outcome != "done":
        outcome = WAITS if outcome == NOT_DUE else f"{REFUSED}{outcome}"
    return day, record, what, outcome, *("" if amount is None else grouped(amount) for amount in held)


def names(served: Served) -> Response:
    """The page of the names of users, holders and accounts."""
    rows = [(*label[:3], voice.time(label.at), *label[4:]) for label in served.reading.names().named.values()]
    return show_page("names", "Names", rows=sorted(rows, key=lambda row: (row[0], int(row[1]))), kinds=KINDS)


def names_file(served: Served, kind: str) -> Response:
    """The names there are with all columns of ./day label, as a file."""
    labels = sorted(served.reading.names().named.values(), key=lambda one: (one.kind, int(one.number)))
    rows = [(one.kind, int(one.number), one.name, one.at or None, one.who or None, one.why or None) for one in labels]
    return rows_file(served, kind, "names", tables.COLUMNS["label"], rows)


def compliance(served: Served) -> Response:
    """The page of compliance for a year, once a day is settled."""
    reading, settled = served.reading, served.reading.settled()
    if settled is None:
        return gate.said(400, gate.NO_DAY)
    year, word = number_asked("year") or answers.last_year_over(settled.head), asked("deadline")
    office = reading.office()
    deadline = date_of(NAMES_OF_DATES["deadline"], word) if word else office.settings.due.surrender_of(year)
    rows = reading.standings(year)
    return show_page(
        "compliance", f"Compliance for {year}", year=year, rows=[*map(row_of_standing, rows)], columns=COLUMNS,
        counts=standing.counts_table(rows) if rows else "", until=until_in_words(settled.head.date, deadline),
        missing=sum(standing.missing or 0 for standing in rows), date=settled.head.date,
        shown_row=lambda row: cells_of_standing(settled, row[-1]),
    )  # fmt: skip


def compliance_file(served: Served, kind: str) -> Response:
    """Compliance for a year with all columns of ./day compliance, as a file."""
    settled = served.reading.settled()
    if settled is None:
        return gate.said(400, gate.NO_DAY)
    year = number_asked("year") or answers.last_year_over(settled.head)
    rows = [*map(answers.cells, answers.standings(settled.day, settled.report, year))]
    return rows_file(served, kind, "compliance", answers.COLUMNS, rows)


def row_of_standing(row: answers.Standing) -> tuple[object, ...]:
    """What a row is sorted by."""
    account, share = row.account, row.surrendered - row.emissions
    figures = row.surrendered, row.emissions, share, row.figure or ""
    return account.number, account.holder, *figures, row.verdict, row


def cells_of_standing(settled: Settled, row: answers.Standing) -> Cells:
    """The cells of an operator, its account with a link."""
    cells = dict(zip(standing.COLUMNS, standing.operator_cells(settled, row)))
    return [cells[name] for name in COLUMNS]


def month_page(served: Served) -> Response:
    """Several days on one page, as ./day month makes it."""
    last = served.reading.office().last()
    if last is None:
        return gate.said(400, gate.NO_DAY)
    # (without a word, the month of the last day)
    begin, end = (date_asked("from") or last.date.replace(day=1)), (date_asked("to") or last.date)
    month = Month(begin, end, number_asked("year"), date_asked("deadline"))
    title, lead, parts = served.reading.month(month)
    return show_page("month", title, lead=lead, own=parts, begin=begin, end=end)


def date_asked(name: str) -> datetime.date | None:
    """The date that a word of the address says, if it is there. Raises WordsFault if it is none."""
    return date_of(NAMES_OF_DATES[name], asked(name)) if asked(name) else None


def wanted(names: Labels) -> Find:
    """Which log rows the address asks for. Raises WordsFault if nothing has a name that it says."""
    act, begin, end = asked("act") or None, date_asked("from"), date_asked("to")
    if act not in (None, *faults.ACT_WORDS):
        raise WordsFault(f"{act}: there is no such act")
    found = Find(
        number_or_name("account", names), None, number_or_name("user", names, USER), act, bool(asked("refused")),
        bool(asked("no_waiting")), begin or datetime.date.min, end or datetime.date.max,
    )  # fmt: skip
    if found.begin > found.end:
        raise WordsFault(f"the first day {begin} is later than the last day {end}")
    if not asked("name"):
        return found
    label = names.one(asked("name"))
    if getattr(found, label.kind) not in (None, int(label.number)):
        raise WordsFault(f"name {asked('name')} is {label}, and {label.kind} another one")
    return replace(found, **{label.kind: int(label.number)})


def number_or_name(word: str, names: Labels, kind: str = ACCOUNT) -> int | None:
    """The number that a word of the address says, or that of what it names; None, if it is not there."""
    return number_said(word.capitalize(), asked(word), names, kind) if asked(word) else None


def find(served: Served) -> Response:
    """The page of log rows over all days."""
    reading, rows = served.reading, None
    if flask.request.args and TYPED not in flask.request.args:
        found = wanted(reading.names())
        rows = rows_of_log(reading, ("found", found), functools.partial(count_found, asked=found),
                           functools.partial(found_by, asked=found))  # fmt: skip
    query = flask.request.query_string.decode("ascii", "replace")
    return show_page("find", "Find", rows=rows, query=query, shown_row=lambda row: cells_of_log(reading, row))


def rows_of_log(reading: Reading, key: object, count: Callable[[Days], int], read: Read) -> Sequence[LogCells]:
    """Log rows as a table shows them: those of its page alone, or all, if they are sorted otherwise."""
    if flask.request.args.get("sort", "-") not in ("-", ""):
        state = reading.state_of_days()
        return reading.once(key, state, lambda: reading.of_days(lambda days: [*map(row_of_log, read(days))]))

    def part(days: Days) -> Part[LogCells]:
        found = count(days)
        places = places_shown(found)
        return Part(found, places.start, [*map(row_of_log, read(days, places=places))])

    return reading.of_days(part)


def row_of_log(logged: LogRow) -> LogCells:
    """A log row as texts, with its record."""
    i = logged.instruction
    named = ", ".join(map(str, dict.fromkeys(rules.named(i))))
    by = ", ".join(str(user) for user in (i.proposer, i.approver) if user is not None)
    return str(logged.date), logged.record, record_in_words(logged), named, by, outcome_in_words(logged)


def cells_of_log(reading: Reading, row: LogCells) -> Cells:
    """The cells of a log row, its day and its accounts with links, and its users with their names."""
    day, record, words, named, by, outcome = row
    by = ", ".join(map(reading.names().user, by.split(", ")))
    accounts = Markup(", ".join(link(f"/accounts/{number}", number) for number in named.split(", ") if number))
    return link(f"/days/{day}", day), record, words, accounts, by, reading.outcome(day, record, outcome)


def find_file(served: Served, kind: str) -> Response:
    """What was found, with all columns of ./day find, as a file."""
    reading, found = served.reading, wanted(served.reading.names())
    logged, meant = reading.of_days(lambda days: (found_by(days, found), accounts_meant(days, found)))
    cells = [row for each in logged for row in cells_found(each, meant)]
    return rows_file(served, kind, "found", tables.COLUMNS["find"], cells)


def table_file(served: Served, kind: str) -> Response:
    """An empty table for instructions or accounts; its workbook says what each column holds."""
    what = asked("of")
    if what not in form.WHAT:
        raise WordsFault(f"{what}: there is no table of it")
    told = [*form.columns_told(what)]
    return file_of(served, kind, Written(what, [[name for name, _ in told]]), Written("columns", [form.HEAD, *told]))


def rows_file(served: Served, kind: str, name: str, columns: Columns, rows: Sequence[Sequence[Cell]]) -> Response:
    """Rows under their columns as csv, as a workbook, or as JSON."""
    if kind == "json":
        # (a byte of a name that is no UTF-8 is told as JSON tells it)
        content = as_json(columns.names, rows).encode("utf-8", "backslashreplace")
        return Response(content, content_type="application/json")
    texts = (["" if cell is None else str(cell) for cell in row] for row in rows)
    return file_of(served, kind, Written(name, [columns.names, *texts]))


def file_of(served: Served, kind: str, *sheets: Written) -> Response:
    """The first of these sheets as csv, or all as a workbook."""
    name = f"{sheets[0].name}.{kind}"
    if kind == "csv":
        head, *rows = sheets[0].rows
        return download(as_csv(head, rows).encode("utf-8", "surrogateescape"), "text/csv; charset=utf-8", name)
    with tempfile.TemporaryDirectory(dir=served.jobs.private) as place:
        write_workbook(f"{place}/{name}", *sheets)
        return download(Path(place, name).read_bytes(), WORKBOOK, name)


def download(content: bytes, kind: str, name: str) -> Response:
    """A file for the browser to keep."""
    return Response(content, content_type=kind, headers={"Content-Disposition": f'attachment; filename="{name}"'})


def journal_file(served: Served, kind: str) -> Response:
    """All that was done, an event a row, as a file: what ./day unpack writes as events.csv."""
    events = served.reading.office().events.all
    return rows_file(served, kind, "journal", OF_EVENTS, [[*map(cell_of, row_of(event))] for event in events])


def cell_of(value: object) -> Cell:
    """A value of an event; nothing, if it has none."""
    return value if isinstance(value, int) else str(value) or None


def days_file(served: Served, kind: str) -> Response:
    """All settled days, as a file."""
    told = reversed([*receipts.days_told(served.reading.office())])
    rows: list[Sequence[Cell]] = [(str(each.date), each.who, each.at, each.first, each.next, engine, is_out)
                                  for each, engine, is_out in told]  # fmt: skip
    return rows_file(served, kind, "days", OF_DAYS, rows)


def month_file(served: Served, kind: str) -> Response:
    """What came of each of several days, as a file."""
    begin, end = date_asked("from") or datetime.date.min, date_asked("to") or datetime.date.max
    found = served.reading.of_days(lambda days: month(days, begin, end))
    rows: list[Sequence[Cell]] = [(str(day.date), day.done, day.refused.total(), day.waiting,
                                   *(day.allowances[kind] for kind in rules.KINDS)) for day in found]  # fmt: skip
    return rows_file(served, kind, "month", OF_MONTH, rows)


def journal(served: Served) -> Response:
    """The page of what was done in the folder, and changed by hand."""
    office = served.reading.office()
    who = functools.partial(receipts.who_and_second, office)
    events = [(voice.time(each.at), each.what, str(each.date), who(each.who, each.login, each.approved), each.why)
              for each in reversed(office.events.named(*OF_JOURNAL))]  # fmt: skip
    by_hand = [(day, voice.time(item.part.at), who(item.part.who, item.part.login, second), item.part.name,
                item_in_words(item)) for day, item, second in changes.items_of(office)]  # fmt: skip
    gone = [(day, *row_of_taken(taken)) for day, taken in receipts.of_all(office)][::-1]
    others = rewrites.rows(office)
    return show_page("journal", "Journal", events=events, by_hand=by_hand[::-1], taken=gone, others=others)


def audit(served: Served) -> Response:
    """The page of audits."""
    return show_page("audit", "Audit", jobs=served.jobs.of("audit"))


def send(served: Served) -> Response:
    """The page of packages for holders."""
    office = served.reading.office()
    dates = [event.date for event in reversed(office.events.days)]
    return show_page("send", "Send", dates=dates, is_released=office.events.is_released(), jobs=served.jobs.of("send"))


def job(served: Served, number: str) -> Response:
    """The page of what a command does or did. Raises WordsFault if the desk has forgotten it."""
    begun = served.jobs.jobs.get(number)
    if begun is None:
        raise WordsFault("the desk knows nothing of this any more: Today and the journal say what was done")
    date = next((word.partition("=")[2] for word in begun.words if word.startswith("--date=")), "")
    leads = ("/", "Today") if begun.is_fault() else BEHIND.get(begun.command, ("/", "Today"))
    if begun.status == 0 and begun.command == "close":
        leads = (f"/days/{date}", "To the day")
    if begun.status in (0, FOUND) and begun.made():
        leads = (f"/jobs/{number}/packages.zip", "Download the packages")
    if begun.status == 0 and begun.command in COPIES:
        leads = (f"/office/{number}/{COPIES[begun.command]}", "Download it")
    asked_for = served.jobs.asked_for("/hand-in", begun.back.rpartition("/")[2].partition("?")[0])
    act = asked_for.first().get("act", "") if asked_for and begun.status in (0, FOUND) else ""
    ended = "at work" if begun.status is None else "nothing was done" if begun.is_fault() else "done"
    return show_page(
        "job", f"{voice.page_of(begun.command)}: {ended}", job=begun, act=act, status=begun.status, leads=leads,
        has_changed=bool(begun.seen) and begun.seen != flask.g.state, refresh=2 if begun.status is None else None,
    )  # fmt: skip


def packages(served: Served, number: str) -> Response:
    """What `send` has made, as one file."""
    begun = served.jobs.jobs.get(number)
    if begun is None or begun.status not in (0, FOUND) or not begun.made():
        raise NotFound
    content = io.BytesIO()
    with zipfile.ZipFile(content, "w", zipfile.ZIP_DEFLATED) as archive:
        for path in begun.made():
            archive.write(path, path.name)
    return download(content.getvalue(), "application/zip", "packages.zip")
