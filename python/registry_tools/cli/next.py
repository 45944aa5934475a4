"""Writes the next day's text, from a day and its report.

  heading       that of DAY, with --date and the next record number of REPORT
  calendar      every work row of DAY, and those of --work, rising; a repeated one is left out
  accounts      the book of REPORT; whole account blocks of --changes are added, or put in place of those of the book
  instructions  what DAY refused as NotDue, and what waits in the --pending file, with their old dates, as far as they
                are due on --date; then those of --do. The others go to the pending file, each with its due day

REPORT must be what follows from DAY. --work, --do and --changes have only such rows, with or without a row end.
--pending-new makes the pending file, and --pending reads it and writes it anew; the command may be run again for the
same day. Standard error tells each change by hand, what to look at, and the counts.

Nothing is written if something is wrong.

exit status: 0 if the text was written, 1 if it was written and something is to be looked at.
"""
import argparse
import sys

from registry_tools.calendars.dates import date_of
from registry_tools.elsewhere import Grown, Source
from registry_tools.errors import FOUND
from registry_tools.pairs.next import Next, next_text
from registry_tools.cli.options import add_pair, add_to
from registry_tools.output import NewFile, write_answer

EXAMPLE = (
    "./day next examples/week/monday.csv examples/week/monday-report.csv --date 2025-09-23 "
    "--do examples/week/tuesday-do.csv --pending-new out/waiting.csv --to out/tuesday.csv"
)


def add_words(parser: argparse.ArgumentParser) -> None:
    """Tells a parser the words of the command."""
    add_pair(parser)
    parser.add_argument("--date", required=True, metavar="DATE", help="the next settlement day")
    parser.add_argument("--do", metavar="FILE", type=Source, help="the new instructions: do rows")
    again = "new instructions may stand in DAY, in the pending file or twice in --do"
    parser.add_argument("--again", action="store_true", help=again)
    parser.add_argument("--work", metavar="FILE", type=Source, help="more working days: work rows")
    blocks = "accounts that are new, or changed by hand: whole account blocks"
    parser.add_argument("--changes", metavar="FILE", type=Source, help=blocks)
    parser.add_argument("--pending", metavar="FILE", type=Grown, help="the instructions that wait for their due day")
    new = "the same, for the first time: the file is made"
    parser.add_argument("--pending-new", metavar="FILE", type=Grown, help=new)
    add_to(parser)


def run(said: argparse.Namespace) -> int:
    """Runs the command, and answers the exit status."""
    date = date_of("--date", said.date)
    asked = Next(
        said.day, said.report, date, said.do, said.work, said.changes, said.pending, said.pending_new, said.again
    )  # fmt: skip
    came = next_text(asked)
    write_answer(came.text, said.to, *([NewFile(*came.pending)] if came.pending else []))
    print("\n".join(came.notes.lines), file=sys.stderr)
    return FOUND if came.notes.has_warnings else 0
