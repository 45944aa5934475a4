"""Makes instructions, or accounts, as rows of a day text, of a table that a spreadsheet saved. Standard output gets the
rows, standard error a preview.

FILE is csv with commas, semicolons or tabs, in UTF-8 or UTF-16, or .xlsx or .ods, whose first sheet is read. Its first
row names the columns, in any order; ./day form makes an empty table. Columns that nobody knows are refused, empty rows
are passed over. Dates are as 2026-12-14, or as --dates shows the last day of 2026: 31.12.2026, 12/31/2026. A number
with a separator is refused, and nothing is guessed: neither what a formula without a stored value would give, nor which
day a time belongs to. ./day hand-in takes such tables too, and keeps them.

The file of --mapping tells how others write it, a line each:

  [columns]           headings, and the columns that they are; one with nothing behind = is passed over
  Betrag = amount
  Bemerkung =
  [act]               of a column, words and what they are
  Ausbuchung = surrender
  [always]            what all rows have in a column that is not there
  kind = general
  [form]              how the last day of 2026 is written, and the number 1234567
  dates = 31.12.2026
  amounts = 1.234.567

Nothing is written if a cell is wrong: then the first 100 are told, each with what was found and what is expected.
"""
import argparse
import sys

from registry_tools.cli.options import add_to
from registry_tools.elsewhere import Source
from registry_tools.errors import FILE
from registry_tools.output import write_answer
from registry_tools.sheets import importing, sheets
from registry_tools.texts import in_words

EXAMPLE = (
    "./day export examples/week/monday.csv examples/week/monday-report.csv --instructions --xlsx out/new.xlsx\n"
    "  ./day import out/new.xlsx > out/new.csv"
)
MOST_SHOWN = 5


def add_words(parser: argparse.ArgumentParser) -> None:
    """Tells a parser the words of the command."""
    parser.add_argument("file", metavar="FILE", type=Source, help="csv, .xlsx or .ods")
    kinds = parser.add_mutually_exclusive_group()
    kinds.add_argument("--instructions", action="store_true", help="the rows are instructions")
    kinds.add_argument("--accounts", action="store_true", help="the rows are accounts, as with a column no")
    add_forms(parser)
    add_to(parser)


def add_forms(parser: argparse.ArgumentParser) -> None:
    """The words that tell how a table is written."""
    parser.add_argument("--dates", metavar="31.12.2026", help="how the last day of 2026 is written in this file")
    parser.add_argument("--mapping", metavar="FILE", type=Source, help="the columns and words of a table of others")


def run(said: argparse.Namespace) -> int:
    """Runs the command, and answers the exit status."""
    mapping = importing.read_mapping(said.mapping)
    are_accounts = said.accounts if said.accounts or said.instructions else None
    made = importing.imported(sheets.read(said.file), are_accounts, said.dates, mapping)
    if made.wrong:
        print("\n".join(importing.told(made.wrong, "nothing was written")), file=sys.stderr)
        return FILE
    preview(made.rows, made.are_accounts)
    print("".join(f"{line}\n" for line in made.hidden), end="", file=sys.stderr)
    write_answer("".join(f"{row}\n" for row in made.rows), said.to)
    return 0


def preview(rows: list[str], are_accounts: bool) -> None:
    """Tells what was read, in words."""
    if are_accounts:
        count = sum(row.startswith("account,") for row in rows)
        print(f"accounts {count}, rows {len(rows)}", file=sys.stderr)
        return
    for row in rows[:MOST_SHOWN]:
        _, proposed, proposer, approver, act, *fields = row.split(",")
        approval = f", approved by {approver}" if approver else ""
        print(f"{in_words.words_of(act, fields)}, proposed on {proposed} by {proposer}{approval}", file=sys.stderr)
    more = f", of which {MOST_SHOWN} are shown" if len(rows) > MOST_SHOWN else ""
    print(f"instructions {len(rows)}{more}", file=sys.stderr)
