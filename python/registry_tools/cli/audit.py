"""Looks whether a folder of days is what it was: nothing in it was changed, and each day follows from the one before
it.

  the file       SQLite finds nothing wrong in it, and its tables and triggers are those of a new one
  the events     each has its own line and that of the event before, and can follow
  the texts      each has its sum
  each pair      the report is that of the day, and its totals are the sums over its accounts
  the tables     they have of each day what its texts make
  each seam      the day's text is, to the letter, what the day before, its report and what was handed in make; so is
                 what waits
  the names      each row is one

With --settle each day is settled once more by the program, and must give the same bytes; with --second by the second
answer. With --from the pairs before that date are not read; file, events and texts are always looked at as a whole.

With --since HEAD it says also whether the folder has grown from the state that had that head (./day status shows the
head), with --date DATE where it left the one whose last day was DATE; with --anchors FILE of each line of ./day anchor.
A signature is looked at if office.ini names a key.

With --csv or --json, a row for each difference.

exit status: 0 if nothing was found, else 1.
"""
import argparse
import datetime
import sys

from registry_tools import showing, tables
from registry_tools.cli import answers, asked, words
from registry_tools.elsewhere import Source
from registry_tools.errors import FOUND
from registry_tools.notes import LOOK
from registry_tools.office import folder
from registry_tools.questions import audit
from registry_tools.questions.audit import Audit

EXAMPLE = "./day audit --second --office out/office"
COLUMNS = tables.COLUMNS["audit"]


def add_words(parser: argparse.ArgumentParser) -> None:
    """Tells a parser the words of the command."""
    parser.add_argument("--settle", action="store_true", help="settle each day once more by the program")
    parser.add_argument("--second", action="store_true", help="settle each day once more by the second answer")
    parser.add_argument("--from", dest="begin", metavar="DATE", help="read the pairs from this day on")
    parser.add_argument("--since", metavar="HEAD", help="look whether the folder has grown from this head")
    parser.add_argument("--date", metavar="DATE", help="the last day of the state with the head of --since")
    anchors = "look whether it has grown from each of these anchors"
    parser.add_argument("--anchors", metavar="FILE", type=Source, help=anchors)
    words.add_office(parser)
    answers.add_words(parser)


def run(said: argparse.Namespace) -> int:
    """Runs the command, and answers the exit status."""
    path = folder.folder_of(said.office)
    begin, date = asked.date_or("--from", said.begin, datetime.date.min), asked.date_or("--date", said.date, None)
    found = audit.audit(path, Audit(said.settle, said.second, begin, said.since, date, said.anchors))
    rows = map(showing.fault_row, found.faults)
    told = [*map(str, found.faults), found.summary(), ""]
    answers.show_or_tell(said, COLUMNS, rows, lambda: "\n".join(told))
    events, program = found.office.events, found.office.settings.program
    beside = *audit.clock_told(events), *audit.people_told(events), *found.rewrites
    for line in (*audit.engines_told(events, program), *beside):
        print(line, file=sys.stderr)
    if found.faults and audit.has_changed(path, found.office.events):
        meanwhile = f"another command changed {path} meanwhile, of which this may come: audit again"
        print(f"{LOOK}: {meanwhile}", file=sys.stderr)
    return FOUND if found.faults else 0
