"""The statements and pages that `close` makes of a day, if office.ini asks for them, in FOLDER/days/DATE. They are made
of what is filed: whoever undoes the day removes them."""
import contextlib
import datetime
import io
import shutil
from pathlib import Path

from registry_tools.office import intake
from registry_tools.layout import PAPERS
from registry_tools.office.office import Office
from registry_tools.questions import statements
from registry_tools.store.events import Event
from registry_tools.store import past

STATEMENTS, PAGES = "statements", "pages"


def folder_of(office: Office, date: datetime.date) -> Path:
    """Where the papers of a day lie."""
    return office.path / PAPERS / str(date)


def remove(office: Office, date: datetime.date) -> None:
    """Removes the papers of a day that is undone."""
    shutil.rmtree(folder_of(office, date), ignore_errors=True)
    with contextlib.suppress(OSError):
        (office.path / PAPERS).rmdir()


def make_papers(office: Office, filed: Event) -> None:
    """Makes the papers that office.ini asks for of a day that was just filed."""
    wanted = office.settings
    if not wanted.makes_statements and not wanted.makes_pages:
        return
    place = folder_of(office, filed.date)
    shutil.rmtree(place, ignore_errors=True)
    place.mkdir(parents=True)
    pair = office.store.pair_of(filed)
    if wanted.makes_statements:
        statements.make(*past.read(pair), place / STATEMENTS, None, False)
    if wanted.makes_pages:
        with contextlib.redirect_stderr(io.StringIO()):
            make_pages(office, filed, place / PAGES)


def make_pages(office: Office, filed: Event, place: Path) -> None:
    """Makes the pages of a filed day, with what the folder knows of it beside its pair."""
    # (most folders have no pages made)
    from registry_tools.pages import page
    from registry_tools.pages.page import Page
    from registry_tools.pages.settled import told_by

    store = office.store
    pair, earlier = store.pair_of(filed), [event for event in store.events.days if event.date < filed.date]
    before = store.pair_of(earlier[-1]) if earlier else None
    told = told_by(intake.for_a_day(store, filed).items(intake.CHANGES, intake.EDITS))
    pages = Page(
        pair.day, pair.report, before=(before.day, before.report) if before else None,
        pending=store.kept(filed, "waiting"), told=told,
    )  # fmt: skip
    page.make(place, pages)


def make_again(office: Office, dates: list[datetime.date]) -> None:
    """Makes the papers of days that were closed once more."""
    for date in dates:
        filed = office.events.day_of(date)
        if filed:
            make_papers(office, filed)
