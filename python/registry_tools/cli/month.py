"""Makes one page of several days for a director: how many operators are compliant, who is missing how much until which
deadline, the totals as lines over the days, what was refused and why, what waits, and what was changed by hand.

FILE is an HTML page that leads nowhere and prints. Compliance is that of --year; without it, of the last year
that is over, of any period. No rule of a day text tells a deadline: --deadline names it, or office.ini.
Of an account without emissions of some year nobody knows how much is missing: its bar has a frame without an end.
"""
import argparse

from registry_tools.cli import asked
from registry_tools.elsewhere import Target
from registry_tools.errors import WordsFault
from registry_tools.cli.options import is_same_file
from registry_tools.output import new_file
from registry_tools.pages import month
from registry_tools.pages.month import Month

EXAMPLE = "./day month out/september.html --from 2025-09-01 --deadline 2025-09-30 --office out/office"


def add_words(parser: argparse.ArgumentParser) -> None:
    """Tells a parser the words of the command."""
    parser.add_argument("file", metavar="FILE", type=Target, help="the page that is written")
    parser.add_argument("--from", dest="begin", metavar="DATE", help="the first day")
    parser.add_argument("--to", dest="end", metavar="DATE", help="the last day")
    parser.add_argument("--year", type=int, metavar="Y", help="the year of compliance")
    parser.add_argument("--deadline", metavar="DATE", help="until when what is missing has to be surrendered")
    asked.add_words(parser)


def run(said: argparse.Namespace) -> int:
    """Runs the command, and answers the exit status."""
    wanted = Month(*asked.span_of(said), said.year, asked.date_or("--deadline", said.deadline, None))
    if any(is_same_file(path, said.file) for path in said.pairs or ()):
        raise WordsFault(f"{said.file} is one of the files that the command reads")
    with asked.opened(said) as opened:
        lead, text = month.page_of(opened.days, opened.office, opened.names, wanted)
    new_file(said.file, text).keep()
    print(f"{said.file}: days {lead.removeprefix('Days: ').partition('.')[0]}")
    return 0
