"""Compares somebody's list of balances, or of other things that accounts have, with the accounts after a day: what
differs, and which accounts only one of both has.

FILE is csv, .xlsx or .ods, as ./day import reads it. Its first row names its columns: no (or account) and at least one
of kind, holder, status, outside, waiver, correction, general, aviation, corrections, users, trusted, retired, emissions
and figures, as ./day export --accounts writes them; only those that it has are compared. --mapping names others, as for
./day hand-in. An empty cell says that there is nothing. With --listed nothing is told of accounts that it does not
have. A wrong cell is told, and nothing is compared.

exit status: 0 if all is alike, 1 if something is not.
"""
import argparse
import sys

from registry_tools import showing, tables
from registry_tools.elsewhere import Source
from registry_tools.errors import FILE, FOUND
from registry_tools.cli import answers
from registry_tools.cli.options import add_pair
from registry_tools.showing import Cell
from registry_tools.sheets import importing, reconciling, sheets
from registry_tools.texts.follows import read_pair

EXAMPLE = (
    "./day export examples/week/monday.csv examples/week/monday-report.csv --accounts --to out/accounts.csv\n"
    "  ./day reconcile out/accounts.csv examples/week/tuesday.csv examples/week/tuesday-report.csv"
)
COLUMNS = tables.COLUMNS["reconcile"]


def add_words(parser: argparse.ArgumentParser) -> None:
    """Tells a parser the words of the command."""
    parser.add_argument("file", metavar="FILE", type=Source, help="csv, .xlsx or .ods")
    add_pair(parser)
    parser.add_argument("--mapping", metavar="FILE", type=Source, help="the columns and words of a table of others")
    parser.add_argument("--listed", action="store_true", help="pass over accounts that FILE does not have")
    answers.add_words(parser)


def run(said: argparse.Namespace) -> int:
    """Runs the command, and answers the exit status."""
    found = reconciling.listed(sheets.read(said.file), importing.read_mapping(said.mapping))
    if found.wrong:
        print("\n".join(importing.told([*found.wrong], "nothing was compared")), file=sys.stderr)
        return FILE
    day, report = read_pair(said.day, said.report)
    unlike = reconciling.unlike_accounts(found, report.book)
    rows: list[list[Cell]] = [
        [each.what, each.account, each.field, each.file, each.day]
        for each in unlike if not (said.listed and each.what == reconciling.ONLY_DAY)
    ]  # fmt: skip
    alike = f"alike after {day.head.date}: accounts {len(found.accounts)}, of each {', '.join(found.columns)}\n"
    as_table = showing.as_table(COLUMNS.names, rows, COLUMNS.numbers)
    answers.show_or_tell(said, COLUMNS, rows, lambda: as_table if rows else alike)
    return FOUND if rows else 0
