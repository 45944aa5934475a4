"""Says that others know of a day of a folder now: from then on it is not undone any more, and no day before it. The
folder keeps who said so, and why.

A day whose report nothing proves, since no proved engine settled it, is released with --yes.

exit status: 0 if the day is released, 1 if --yes has to say so.
"""
import argparse

from registry_tools import voice
from registry_tools.calendars import dates
from registry_tools.cli import words
from registry_tools.errors import FOUND
from registry_tools.notes import LOOK
from registry_tools.office import folder, release
from registry_tools.office.approvals import AskedFor
from registry_tools.office.release import Release, Unproved
from registry_tools.pairs import settlement
from registry_tools.store.events import HEAD_DIGITS

EXAMPLE = './day release 2025-09-24 --why "statements were sent" --office out/office'


def add_words(parser: argparse.ArgumentParser) -> None:
    """Tells a parser the words of the command."""
    words.add_day(parser, "a settled day")
    parser.add_argument("--yes", action="store_true", help="also a day that no proved engine has settled")
    words.add_office(parser)
    words.add_who(parser)
    words.add_why(parser)


def run(said: argparse.Namespace) -> int:
    """Runs the command, and answers the exit status."""
    why = words.one_line("why", said.why)
    date = None if said.day is None else dates.date_of("DATE", said.day)
    with folder.opened(said.office) as office:
        came = release.release(office, words.by(said, office), Release(date, why, said.yes))
        filed = office.events.day_of(date) if date else None
        doubt = settlement.doubt_of_sum(filed.engine, office.settings.program) if filed else ""
    if isinstance(came, AskedFor):
        return words.tell_asked_for(came)
    if isinstance(came, Unproved):
        print(f"{LOOK}: {came.date} {came.doubt}\n{came.date} is not released, without {voice.option('yes')}")
        return FOUND
    if doubt:
        words.to_errors(f"{came.event.date} was settled by {doubt}")
    words.to_errors(f"head: {came.event.line[:HEAD_DIGITS]}")
    print(f"{came.event.date} is released: it is not undone any more")
    return 0
