"""Shows which operators and aircraft operators are compliant for a year: a row each, and counts at the end.

  holder, status  of the account
  surrendered     what it has surrendered for the period of the year, on or before the day
  emissions       what was entered of this period, up to and including the year
  correction      its correction factor of the period
  determined      the figure as it was last determined; empty if it was not
  figure          the figure as it would be determined now; empty if emissions are missing
  verdict         one of these:
    compliant               the determined figure is 0 or more, and so is the one of now
    missing N               N allowances are missing now
    emissions missing       of the years that are named there is no entry, so there is no figure
    short but not assessed  allowances are missing now, and no figure of the year was determined
    not assessed            no figure of the year was determined, and nothing is missing
    surrendered since       the determined figure is below 0, and as much was surrendered since, also for later years:
                            assess the year again
    outdated                emissions up to the year, or the correction factor, changed after the figure was determined:
                            assess the year again
    excluded                no figure is determined for an excluded account

Without --year it is the last year that is over on the day, of any period. REPORT must be that of DAY.

exit status: 0 if each account that is open is compliant, else 1. An excluded or closed account counts as it is; a
blocked one counts as an open one.
"""
import argparse
import sys

from registry_tools.errors import FOUND
from registry_tools.cli import answers, named
from registry_tools.cli.options import add_pair
from registry_tools.pairs import compliance
from registry_tools.pairs.compliance import COLUMNS
from registry_tools.texts.follows import read_pair

EXAMPLE = "./day compliance examples/week/monday.csv examples/week/monday-report.csv --year 2024"


def add_words(parser: argparse.ArgumentParser) -> None:
    """Tells a parser the words of the command."""
    add_pair(parser)
    parser.add_argument("--year", type=int, metavar="Y", help="the year; its period is the one that has it")
    named.add_words(parser)
    answers.add_words(parser)


def run(said: argparse.Namespace) -> int:
    """Runs the command, and answers the exit status."""
    day, report = read_pair(said.day, said.report)
    year = compliance.last_year_over(day.head) if said.year is None else said.year
    rows = [*compliance.standings(day, report, year)]
    names = named.labels_of(said)
    shown = map(compliance.cells, rows)
    answers.show_or_tell(said, COLUMNS, shown, lambda: compliance.as_table(day, rows, year, names))
    if answers.is_for_programs(said):
        print("\n".join(compliance.counts(rows)), file=sys.stderr)
    return FOUND if any(map(compliance.is_open, rows)) else 0
