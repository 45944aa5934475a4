"""The desk of a login that office.ini ties to a holder: a few pages of its own, of the accounts of this holder alone.

No other page is reached by such a login: whatever else it asks for is answered alike, whether it is there or not. What
is shown comes from holders/own.py, and what is asked for goes to holders/asking.py."""
import functools
from collections.abc import Callable, Mapping, Sequence

import flask
from werkzeug.exceptions import HTTPException
from werkzeug.routing import Map, Rule
from werkzeug.wrappers import Response

from registry_tools import tables
from registry_tools.desk import forms, gate, looks
from registry_tools.desk.forms import CHOICES, Field
from registry_tools.desk.gate import Served
from registry_tools.desk.questions import COLUMNS, OF_ACCOUNTS, rows_file
from registry_tools.desk.reading import DAYS_OF_STATEMENT
from registry_tools.desk.shown import asked, form, number_asked, show_page
from registry_tools.desk.words import label
from registry_tools.door import log
from registry_tools.errors import Fault, FileFault
from registry_tools.holders import asking
from registry_tools.holders.own import Own, NotTaken, OwnStatement
from registry_tools.office.incoming import TableFault
from registry_tools.office.people import HOLDER, USER, Person
from registry_tools.pages import compliance as standing, letter
from registry_tools.pages.html import link
from registry_tools.pages.statement import KINDS
from registry_tools.pairs import compliance as answers
from registry_tools.second import passing
from registry_tools.showing import Cell
from registry_tools.sheets import columns as sheets
from registry_tools.texts.in_words import grouped

GROUPS = {"Your accounts": {"/": "Today", "/compliance": "Compliance", "/hand-in": "Ask for something"}}
NOTHING = "No page of this desk has this address."
OF_STATEMENT = tables.columns("date kind entry by #in #out #balance")
OF_WAITING = tables.columns("#account instruction proposed by state")
Statements = dict[int, OwnStatement]


def answer(served: Served) -> Response | None:
    """What a login is answered that is tied to a holder; nothing, if it is another login."""
    person = gate.tied()
    if person is None:
        return None
    try:
        name, words = ADDRESSES.bind("").match(flask.request.path, method=flask.request.method)
    except HTTPException:
        return gate.said(404, NOTHING)
    view = VIEWS[name]
    try:
        if flask.request.method == "POST":
            return gate.said(403, asking.LOOKS) if served.is_look else view(served, person, **words)
        with served.reading.moment():
            return view(served, person, **words)
    except NotTaken as fault:
        return gate.said(400, f"{fault}.")
    except (Fault, OSError) as error:
        log.told(f"{person} is told nothing of: {error}")
        return gate.said(500, gate.NOT_NOW)


def of_all(_served: Served, _person: Person) -> None:
    """Nothing: it is a page of the desk that has nothing of the folder, and everybody gets it."""


def own_of(served: Served, person: Person) -> Own:
    """The accounts of the holder. Raises NotTaken if no day is settled yet."""
    settled = served.reading.settled_for_holders()
    if settled is None:
        raise NotTaken("no day is settled yet")
    return Own(settled, person.tied_to(HOLDER) or 0, served.reading.accounts_of_holders())


def statements_of(served: Served, of_holder: Own) -> Statements:
    """The statements of all accounts of the holder."""
    return served.reading.of_days(lambda days: of_holder.statements(days, DAYS_OF_STATEMENT))


# What is shown.


def today(served: Served, person: Person) -> Response:
    """The page of what is to be done, what waits, and what was refused."""
    of_holder, office = own_of(served, person), served.reading.office()
    statements, name, date = statements_of(served, of_holder), office.settings.name, of_holder.settled.head.date
    refused = [(number, *row[:1], *row[2:]) for number, each in statements.items() for row in each.refused]
    waits = [(number, *row[1:]) for number, each in statements.items() for row in each.waiting()]
    return show_page(
        "own_today", f"{name}, today" if name else "Today", tasks=of_holder.tasks(office.settings.due), date=date,
        holder=of_holder.settled.names.holder(of_holder.holder), accounts=account_rows(of_holder),
        refused=[*reversed(refused)], waits=waits, handed=of_holder.handed_in(office, gate.by(served).login),
        next=asking.next_day(office, of_holder),
        shown_account=lambda row: (link(f"/accounts/{row[0]}", row[0]), *row[1:4], *map(grouped, row[4:])),
        may_ask=person.tied_to(USER) and not served.is_look,
    )  # fmt: skip


def account_rows(of_holder: Own) -> list[tuple[int, str, str, str, int, int]]:
    """The accounts of the holder."""
    rows = (block.rows[0].split(",") for block in of_holder.book.values())
    return [(int(row[1]), of_holder.settled.names.name_of("account", row[1]), row[2], row[4], int(row[8]), int(row[9]))
            for row in rows]  # fmt: skip


def account(served: Served, person: Person, number: int) -> Response:
    """The page of an account, with its statement."""
    of_holder = own_of(served, person)
    if number not in of_holder.book:
        return gate.said(404, NOTHING)
    told = [*letter.parts_of(of_holder.settled, statements_of(served, of_holder)[number])]
    return show_page("own_account", f"Account {number}", own=told, number=number, may_ask=person.tied_to(USER))


def compliance(served: Served, person: Person) -> Response:
    """The page of compliance for a year."""
    of_holder, year, rows = standings_asked(served, person)
    cells = [dict(zip(standing.COLUMNS, standing.operator_cells(of_holder.settled, each))) for each in rows]
    return show_page("own_compliance", f"Compliance for {year}", year=year, columns=COLUMNS,
                     rows=[[each[name] for name in COLUMNS] for each in cells])  # fmt: skip


def standings_asked(served: Served, person: Person) -> tuple[Own, int, list[answers.Standing]]:
    """How the accounts stand for the year of the address."""
    of_holder = own_of(served, person)
    head, word = of_holder.settled.head, asked("year")
    if word and not (word.isascii() and word.isdigit() and head.period_of(int(word[:5])) is not None):
        raise NotTaken(f"Year: expected one of the periods of the registry, as {head.date.year - 1}")
    year = number_asked("year") or answers.last_year_over(head)
    return of_holder, year, of_holder.standings(year)


def file(served: Served, person: Person, what: str, kind: str, number: int = 0) -> Response:
    """A table of the accounts, as a file."""
    of_holder = own_of(served, person)
    if what == "accounts":
        rows: list[Sequence[Cell]] = [(row[0], row[2], of_holder.holder, *row[3:]) for row in account_rows(of_holder)]
        return rows_file(served, kind, what, OF_ACCOUNTS, rows)
    if what == "compliance":
        return rows_file(served, kind, what, answers.COLUMNS, [*map(answers.cells, standings_asked(served, person)[2])])
    if what == "waiting":
        handed = of_holder.handed_in(served.reading.office(), gate.by(served).login)
        told = [(each.account, each.words, each.proposed, each.by, each.waits or "counts") for each in handed]
        return rows_file(served, kind, what, OF_WAITING, told)
    if number not in of_holder.book:
        return gate.said(404, NOTHING)
    entries = statements_of(served, of_holder)[number].entries
    rows = [(str(row[0]), of, str(row[2]), str(row[3]), *(int(str(cell).replace(",", "") or 0) for cell in row[4:]))
            for of in KINDS for row in entries[of]]  # fmt: skip
    return rows_file(served, kind, "statement", OF_STATEMENT, rows)


# What is asked for.


def hand_in(served: Served, person: Person) -> Response:
    """The form of an instruction, and the look at what it says."""
    asking.own_user(person)
    of_holder, act, word = own_of(served, person), asked("act"), asked("account")
    may_be = act in asking.ACTS and word in map(str, of_holder.book)
    fields = fields_of(of_holder, person, act, int(word)) if may_be else []
    answers = {name: asked(name) for name in flask.request.args}
    row, wrong = row_asked(served, of_holder, person, answers) if fields and asked("look") else (b"", [])
    return look_at(of_holder, person, answers, fields, row, wrong)


def look_at(
    of_holder: Own, person: Person, answers: Mapping[str, str], fields: list[Field], row: bytes, wrong: list[str],
    had: str = "",
) -> Response:  # fmt: skip
    """The page of the form, with what it says."""
    act, number = answers.get("act", ""), answers.get("account", "")
    code = 400 if wrong and flask.request.method == "POST" else 200
    users = asking.approvers(of_holder, person, act, int(number)) if fields else []
    return show_page(
        "own_hand_in", "Ask for something", code, act=act, acts=asking.ACTS, account=number,
        accounts=[*of_holder.book], fields=fields, wrong=wrong, had=had, said=answers,
        row="" if wrong or not row else of_holder.words_of(row.decode().splitlines()[0]),
        users=[*map(of_holder.settled.names.user, users)],
    )  # fmt: skip


def fields_of(of_holder: Own, person: Person, act: str, number: int) -> list[Field]:
    """What the form of an instruction asks for, beside its account."""
    users = ["", *asking.approvers(of_holder, person, act, number)]
    names = [name for name in sheets.columns_of_act(act) if name != passing.FIRST[act]]
    return [*(Field(name, label(name), "", CHOICES.get(name, ())) for name in names),
            Field("approver", "User who approves", "", users)]  # fmt: skip


def row_asked(served: Served, of_holder: Own, person: Person, answers: Mapping[str, str]) -> tuple[bytes, list[str]]:
    """The row that a form says, and what is wrong with it."""
    date = asking.next_day(served.reading.office(), of_holder)
    row = forms.rows_of_instruction(asking.words_asked(of_holder, person, answers, date))
    try:
        asking.read(row)
    except TableFault as fault:
        return row, looks.faults_of_table(fault, True)
    except FileFault:
        raise NotTaken("what was typed cannot be read") from None
    return row, []


def ask(served: Served, person: Person) -> Response:
    """Hands in what the form says."""
    of_holder, answers = own_of(served, person), flask.request.form.to_dict()
    row, wrong = row_asked(served, of_holder, person, answers)
    fields = fields_of(of_holder, person, answers["act"], int(answers["account"]))
    if wrong:
        return look_at(of_holder, person, answers, fields, row, wrong)
    try:
        with served.jobs.looking, served.reading.anew() as office:
            asking.ask(office, gate.by(served), of_holder, row, bool(form("again")))
    except asking.AskedBefore as fault:
        return look_at(of_holder, person, answers, fields, row, [], str(fault))
    log.begun("hand-in", str(person), gate.head().peer)
    return flask.redirect("/#handed", 303)


def approve(served: Served, person: Person) -> Response:
    """Approves what another login of the holder asked for."""
    of_holder = own_of(served, person)
    with served.jobs.looking, served.reading.anew() as office:
        asking.approve_own(office, gate.by(served), of_holder, form("key"))
    log.begun("approve", str(person), gate.head().peer)
    return flask.redirect("/#handed", 303)


FILES = "<any(csv, xlsx, json):kind>"
# What answers an address: nothing, where it is one of everybody.
View = Callable[..., Response | None]
GET: dict[str, View] = {
    "/": today, "/accounts/<int:number>": account, "/compliance": compliance, "/hand-in": hand_in,
    **{f"/{what}.{FILES}": functools.partial(file, what=what) for what in ("accounts", "compliance", "waiting")},
    f"/accounts/<int:number>/statement.{FILES}": functools.partial(file, what="statement"),
    **dict.fromkeys(("/style.css", "/rules.html", "/formats.html"), of_all),
}  # fmt: skip
POST: dict[str, View] = {"/hand-in": ask, "/approve": approve}
VIEWS = {f"{method} {path}": view for method, views in (("GET", GET), ("POST", POST)) for path, view in views.items()}
RULES = [Rule(name.partition(" ")[2], endpoint=name, methods=[name.partition(" ")[0]]) for name in VIEWS]
ADDRESSES = Map(RULES, strict_slashes=True, redirect_defaults=False, merge_slashes=False)
