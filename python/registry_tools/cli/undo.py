"""Takes the last day of a folder back: what it was made of is handed in again, before what was handed in since, and the
day and its report do not count any more. The folder keeps them, that the day was filed, who took it back, and why.

What is handed in again comes into the text of that day or a later one. If the day was closed for a date that is too
late, --date names the right one.

A day that was released is not taken back: what others know of stays. Then another instruction corrects what was done.
"""
import argparse

from registry_tools import voice
from registry_tools.calendars import dates
from registry_tools.cli import papers, words
from registry_tools.office import folder, undo
from registry_tools.office.approvals import AskedFor
from registry_tools.office.intake import places
from registry_tools.office.undo import Undo

EXAMPLE = './day undo 2025-09-24 --why "a surrender was entered for the wrong account" --office out/office'


def add_words(parser: argparse.ArgumentParser) -> None:
    """Tells a parser the words of the command."""
    words.add_day(parser, "the last day")
    words.add_office(parser)
    parser.add_argument("--date", metavar="DATE", help="the earlier day that was meant")
    words.add_who(parser)
    words.add_why(parser)


def run(said: argparse.Namespace) -> int:
    """Runs the command, and answers the exit status."""
    why = words.one_line("why", said.why)
    date = None if said.day is None else dates.date_of("DATE", said.day)
    meant = None if said.date is None else dates.date_of(voice.option("date"), said.date)
    with folder.opened(said.office) as office:
        came = undo.undo(office, words.by(said, office), Undo(date, why, meant))
        if isinstance(came, AskedFor):
            return words.tell_asked_for(came)
        papers.remove(office, came.date)
    again = f"what it was made of is handed in again, {places(1, came.end)}, for {came.again} or later"
    print(f"{came.date} is undone: {again if came.end > 1 else 'nothing had been handed in for it'}")
    return 0
