"""The page of the office: what office.ini says, and another one to ask for; copies to take along."""
import datetime
import re
from collections.abc import Iterator

import flask
from werkzeug.exceptions import NotFound
from werkzeug.wrappers import Response

from registry_tools import opening
from registry_tools.desk import gate, posts
from registry_tools.desk.gate import Served
from registry_tools.desk.jobs import COPIES, MADE
from registry_tools.desk.questions import download
from registry_tools.desk.shown import asked, form, show_page
from registry_tools.errors import FileFault, WordsFault
from registry_tools.layout import SETTINGS
from registry_tools.office import approvals, people, rewriting, settings
from registry_tools.office.office import Office
from registry_tools.office.settings import Settings
from registry_tools.questions import kept_heads
from registry_tools.texts import sections

WHO = ["Login", "Name", "May"]
# As a form sends what stands between lines.
LINE_END = re.compile("\r?\n")


def refused(served: Served) -> Response | None:
    """The page of who has not all rights; nothing, if they have, or nobody is named."""
    people_here, who = served.reading.office().people, gate.known_name(served)
    if served.door is None and served.proxy is None:
        # (a name that is typed is no login)
        who = people.system_login()
    if people_here.may(who, people.REWRITE):
        return None
    who_may = " or ".join(people_here.with_all()) or "nobody"
    return gate.said(403, f"This page is for who may do all: {who_may}.")


def page(served: Served) -> Response:
    """The page, with the lines that somebody would write into office.ini."""
    refusal = refused(served)
    if refusal:
        return refusal
    office, lines = served.reading.office(), [*lines_asked()]
    now = office.settings
    rows = [(login, each.name, ", ".join(sorted(each.rights))) for login, each in now.people.named.items()]
    wrong, told = rows_asked(office, lines) if lines else ("", [])
    return show_page("office", "The office", facts=told_in_words(now), rows=rows, columns=WHO, wrong=wrong,
                     told=told, lines=lines, is_alone=len(now.people.with_all()) < 2,
                     waiting=[event.id for event in approvals.all_rewrites(office)],
                     four_eyes=now.people.four_eyes, may_wait=people.MAY_WAIT)  # fmt: skip


def rows_asked(office: Office, lines: list[str]) -> tuple[str, list[str]]:
    """What is wrong with lines that somebody types, or else what would go and come in office.ini."""
    path = office.path / SETTINGS
    if not all(map(str.isprintable, lines)):
        return "each field has one line", []
    try:
        old = sections.letters_of(opening.read(path))
        return "", rewriting.rows_wanted(office, path, old, sections.with_lines(old, lines))[0]
    except FileFault as fault:
        where = f"{fault.field}: " if fault.field else ""
        return f"{where}found {fault.found}" + (f"; expected {fault.expected}" if fault.expected else ""), []
    except WordsFault as fault:
        return str(fault), []


def told_in_words(told: Settings) -> list[tuple[str, object]]:
    """What office.ini says beside its people, each with the line that says it. Where something lies is left out."""
    due = [f"{day[0]:02}-{day[1]:02}" if day else "none" for day in (told.due.surrender, told.due.emissions)]
    return [
        ("Name of the office (name)", told.name or "none"), ("Deadline of surrenders (surrender)", due[0]),
        ("Deadline of emissions (emissions)", due[1]), ("Days that Due looks ahead (lead)", told.due.lead),
        ("Program that settles (program)", told.program.rpartition("/")[2] or "the one that was built, or the library"),
        ("Whether it works out all accounts (verify)", settings.words_of(told.verifies)),
        ("Who letters come from ([sender])", told.letters_from),
        ("A key signs anchors ([anchor] key)", settings.words_of(told.key is not None)),
        ("A program is run behind a close ([hooks])", settings.words_of(bool(told.after_close))),
        ("What waits for a second login ([four eyes])", ", ".join(told.people.four_eyes) or "nothing"),
    ]  # fmt: skip


def lines_asked() -> Iterator[str]:
    """The lines of office.ini that the address asks for, each with its section. Somebody without a name goes."""
    yield from (f"[due] {name} = {asked(name)}" for name in ("surrender", "emissions", "lead") if asked(name))
    person = f"{asked('name')}: {asked('rights')}" if asked("name") or asked("rights") else ""
    yield from [f"[people] {asked('login')} = {person}"] if asked("login") else []
    commands = flask.request.args.getlist("commands")
    yield from [f"[four eyes] commands = {', '.join(commands)}"] if commands else []
    yield from [asked("line")] if asked("line") else []


def ask(served: Served) -> Response:
    """Asks for another office.ini, by the lines that were shown."""
    return refused(served) or posts.do_with_why(served, people.REWRITE, "--", *LINE_END.split(form("lines")))


def take_back(served: Served) -> Response:
    """Takes back what was asked for."""
    return refused(served) or posts.do_with_why(served, "take-back", "--", people.REWRITE, form("event"))


def begin(served: Served, command: str) -> Response:
    """Has a copy made. The one before is taken away: nobody fills the disk by copies."""
    refusal = refused(served)
    if refusal:
        return refusal
    for ended in (job for job in served.jobs.of(*COPIES) if job.status is not None):
        (ended.out / MADE).unlink(missing_ok=True)
    return posts.begin(served, command, makes=True)


def copy(served: Served, number: str, name: str) -> Response:
    """A copy that was made, piece by piece."""
    refusal, job = refused(served), served.jobs.jobs.get(number)
    if refusal:
        return refusal
    if job is None or COPIES.get(job.command) != name or job.status != 0 or not (job.out / MADE).is_file():
        raise NotFound
    return flask.send_file(job.out / MADE, "application/vnd.sqlite3", as_attachment=True, download_name=name)


def anchor(served: Served) -> Response:
    """The head of the folder, as a line to be kept elsewhere."""
    line = f"{kept_heads.anchor_of(served.reading.office()).row()}\n"
    return refused(served) or download(line.encode(), "text/csv; charset=utf-8", f"anchor-{datetime.date.today()}.csv")
