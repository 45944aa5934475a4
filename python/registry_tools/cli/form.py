"""Writes an empty table for somebody who hands things in: the columns of an act, of all acts (instructions), of
accounts that are new or changed, or of labels.

  ./day form transfer --xlsx out/transfer.xlsx

It is csv on standard output, or with --xlsx FILE a workbook, whose second sheet says what each column holds; of csv
standard error says it. Filled in, ./day hand-in takes it (labels: ./day label --file), and ./day import reads it.
"""
import argparse
import sys
from collections.abc import Iterator

from registry_tools import showing
from registry_tools.elsewhere import Target
from registry_tools.errors import WordsFault
from registry_tools.texts.namebook import COLUMNS as LABEL_COLUMNS
from registry_tools.texts.namebook import KINDS as LABEL_KINDS
from registry_tools.cli.options import add_to
from registry_tools.output import write_answer
from registry_tools.second import faults
from registry_tools.sheets import columns, writing
from registry_tools.sheets.writing import Written

EXAMPLE = "./day form transfer > out/transfer.csv"
INSTRUCTIONS, ACCOUNTS, LABELS = "instructions", "accounts", "labels"
WHAT = (*faults.ACT_WORDS, INSTRUCTIONS, ACCOUNTS, LABELS)
# The fields of a correction factor, whose limits depend on the day.
OF_PERIODS = ["PERIOD", "FACTOR"]
HEAD = ("column", "what stands in it")
OF_LABELS = {"kind": ", ".join(LABEL_KINDS), "number": "its number", "name": "its name; nothing: it has none any more"}


def add_words(parser: argparse.ArgumentParser) -> None:
    """Tells a parser the words of the command."""
    parser.add_argument("what", metavar="ACT", choices=WHAT, help=f"one of {', '.join(WHAT)}")
    parser.add_argument("--xlsx", metavar="FILE", type=Target, help="write a workbook")
    add_to(parser)


def run(said: argparse.Namespace) -> int:
    """Runs the command, and answers the exit status."""
    if said.xlsx is not None and said.to is not None:
        raise WordsFault("--xlsx names the file already: --to is for csv")
    told = [*columns_told(said.what)]
    names = [name for name, _ in told]
    if said.xlsx is not None:
        writing.write_workbook(said.xlsx, Written(said.what, [names]), Written("columns", [HEAD, *told]))
        return 0
    write_answer(showing.as_csv(names, []), said.to)
    width = max(map(len, names))
    print("\n".join(f"{name.ljust(width)}  {what}" for name, what in told), file=sys.stderr)
    return 0


def columns_told(what: str) -> Iterator[tuple[str, str]]:
    """The columns of a table, each with what stands in it."""
    if what == LABELS:
        yield from ((name, OF_LABELS[name]) for name in LABEL_COLUMNS)
    elif what == ACCOUNTS:
        expected = {field.name.lower(): field.expected for field in faults.FIELDS["account"]}
        yield from ((name, expected[name]) for name in columns.ACCOUNT_FIELDS)
        yield from ((column, rows_told(tag)) for tag, column in columns.LISTS.items())
    elif what == INSTRUCTIONS:
        yield from ((name, name_told(name)) for name in columns.INSTRUCTION_COLUMNS)
    else:
        names = [*columns.PROPOSAL, *columns.columns_of_act(what)]
        yield from ((name, what if name == "act" else name_told(name)) for name in names)


def name_told(name: str) -> str:
    """What stands in a column of instructions."""
    fields = {field.name.lower(): field for row in (faults.PROPOSAL, *faults.ACTS.values()) for field in row}
    if name == "act":
        return f"one of {', '.join(faults.ACT_WORDS)}"
    field = fields[name.rstrip("2345678")]
    return f"{field.expected}; of a later account that receives" if name[-1].isdigit() else field.expected


def rows_told(tag: str) -> str:
    """What stands in a column of a list of an account."""
    names = [field.name for field in faults.FIELDS[tag]] if tag in faults.FIELDS else OF_PERIODS
    return f"the rows of the list with blanks between them, each {columns.BETWEEN_FIELDS.join(names)}"
