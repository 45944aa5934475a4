"""Corrects a settled day that nobody else knows of yet: closes it once more without an instruction, or with others, and
all days behind it.

  ./day correct 2025-09-23 --without 61009 --why ".."            without this record
  ./day correct 2025-09-23 --with right.csv --why "..."          with what this file has, behind what was handed in

Both may stand there, and --without more than once, also with records of a later day. First it shows what each day
becomes, as a difference: what comes of its instructions, what accounts hold, who is compliant. It counts with --yes, in
one step: the folder then has an event for each day that is taken back and for each that is closed again, and what was
handed in since stays handed in.

Records behind one that is left out get other numbers. If a reversal names one of them, nothing is done.

A day that was released is not corrected: others know of it. The command says what corrects it by the rules.

exit status: 0 if it is done, 1 if --yes or another login is still needed.
"""
import argparse

from registry_tools import voice
from registry_tools.calendars import dates
from registry_tools.cli import files, papers, words
from registry_tools.elsewhere import Source
from registry_tools.errors import FOUND, Fault
from registry_tools.office import folder
from registry_tools.office.correct import Correct, Corrected, Shown, correct

EXAMPLE = './day correct 2025-09-23 --without 61009 --why "entered twice" --second --office out/office'


def add_words(parser: argparse.ArgumentParser) -> None:
    """Tells a parser the words of the command."""
    parser.add_argument("date", metavar="DATE", help="the settled day that is wrong")
    without = "a record that is left out, of this day or a later one"
    parser.add_argument("--without", metavar="RECORD", type=int, nargs=1, action="extend", default=[], help=without)
    more = "do rows, account blocks or work rows that are handed in for this day as well"
    parser.add_argument(
        "--with", dest="files", metavar="FILE", type=Source, nargs=1, action="extend", default=[], help=more
    )
    parser.add_argument("--verify", action="store_true", help="work out all accounts once more")
    parser.add_argument("--second", action="store_true", help="settle by the second answer, without the program")
    parser.add_argument("--yes", action="store_true", help="make it count")
    files.add_named(parser)
    words.add_office(parser)
    words.add_who(parser)
    words.add_why(parser)


def run(said: argparse.Namespace) -> int:
    """Runs the command, and answers the exit status."""
    why, date = words.one_line("why", said.why), dates.date_of("DATE", said.date)
    without, given = tuple(dict.fromkeys(said.without)), files.given(said.files, said.called)
    asked = Correct(date, why, without, given, said.second, said.verify, said.yes)
    with folder.opened(said.office) as office:
        try:
            came = correct(office, words.by(said, office), asked)
        except Fault as fault:
            if fault.behind:
                words.to_errors(f"{fault.behind}, which stands behind it, can't be closed so:")
            raise
        if isinstance(came, Corrected):
            tell(came.shown)
            for each in came.days:
                papers.remove(office, each)
            words.to_errors(f"settled by {came.last.engine}\nhead: {office.events.head}")
            print(f"{date} is corrected: closed once more: {', '.join(map(str, came.days))}")
            papers.make_again(office, came.days)
            return 0
    if isinstance(came, Shown):
        tell(came)
        print(f"{date} would be corrected so; nothing is, without {voice.option('yes')}")
        return FOUND
    shown, asked_for = came
    tell(shown)
    return words.tell_asked_for(asked_for)


def tell(shown: Shown) -> None:
    """Shows what each day becomes."""
    for date, lines in shown.days:
        print(f"{date}:{'' if lines else ' as it was'}")
        print("".join(f"  {line}\n" for line in lines), end="")
    print("".join(f"{note}\n" for note in shown.notes), end="")
