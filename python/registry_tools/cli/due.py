"""Shows what is due from the last settled day on, up to DATE, and what is overdue, in the order of the dates:

  deadline          by when an operator has to have surrendered what is missing for a year, or by when its emissions
                    of a year have to be entered
  overdue           a deadline that is over, if the operator still has not done that
  reversal ends     the last day on which a surrender or a deletion may still be reversed
  list takes effect when an account that was added to a trusted list may be used
  waiting           when an instruction that waits is due
  working day       one that is over and has no settlement
  calendar ends     the last working day that the text knows

Deadlines are those of office.ini; no rule of a day text tells one. Without --until it shows as many days ahead as
office.ini says under [due] lead; without that, 30. An operator whose surrendered allowances suffice is not shown; one
whose emissions lack behind their deadline is shown with that for surrenders. Years of all periods count, whichever is
the current one: what is missing stays missing until it is surrendered.

People are shown the first working days that are over, and how many more; programs all of them.
--ics writes the same as a calendar (iCalendar), which other programs take in.
"""
import argparse

from registry_tools import tables
from registry_tools.cli import answers, asked, words
from registry_tools.elsewhere import Target
from registry_tools.office import folder
from registry_tools.output import new_file
from registry_tools.questions import due

EXAMPLE = "./day due --until 2025-10-31 --office out/office"
COLUMNS = tables.COLUMNS["due"]


def add_words(parser: argparse.ArgumentParser) -> None:
    """Tells a parser the words of the command."""
    parser.add_argument("--until", metavar="DATE", help="the last day that is shown")
    parser.add_argument("--ics", metavar="FILE", type=Target, help="write a calendar to this file")
    words.add_office(parser)
    answers.add_words(parser)


def run(said: argparse.Namespace) -> int:
    """Runs the command, and answers the exit status."""
    with folder.opened(said.office) as office:
        until = asked.date_or("--until", said.until, due.last_shown(office))
        found, names = due.due_until(office, until), office.names()
    if said.ics is not None:
        new_file(said.ics, due.as_calendar(found, until)).keep()
        print(f"{said.ics}: entries {len(found)}")
        return 0
    rows = [task.cells() for task in (found if answers.is_for_programs(said) else due.folded(found))]
    answers.show(said, COLUMNS, asked.rows_shown(said, COLUMNS, rows, names))
    return 0
