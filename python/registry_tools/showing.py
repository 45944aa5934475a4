"""Rows as people or programs are shown them: as a text table, csv, or JSON. docs/FORMATS.md states the columns of each
command."""
import csv
import io
import json
import re
from collections.abc import Iterable, Sequence, Set

from registry_tools.errors import FileFault
from registry_tools.tables import COLUMNS
from registry_tools.texts import in_words

Cell = str | int | None
# The columns of a fault.
FAULT = COLUMNS["audit"].names
# How a cell of a csv begins that a spreadsheet takes for a formula, if it is no number; and what makes it text.
FORMULA, NUMBER, QUOTE = re.compile("'*[=+\\-@\t]"), re.compile("-[0-9]+"), "'"


def as_text(cell: str) -> str:
    """A cell of a csv that a spreadsheet shows, and never takes for a formula."""
    return QUOTE + cell if FORMULA.match(cell) and not NUMBER.fullmatch(cell) else cell


def as_it_was(cell: str) -> str:
    """What a cell of a csv said before it was made text."""
    return cell.removeprefix(QUOTE) if cell.startswith(QUOTE) and FORMULA.match(cell) else cell


def as_csv(columns: Sequence[str], rows: Iterable[Sequence[object]]) -> str:
    """Rows as csv with a header. What a spreadsheet would take for a formula is text there."""
    stream = io.StringIO()
    writer = csv.writer(stream, lineterminator="\n")
    writer.writerow(columns)
    writer.writerows([as_text(cell) if isinstance(cell, str) else cell for cell in row] for row in rows)
    return stream.getvalue()


def as_json(columns: Sequence[str], rows: Sequence[Sequence[Cell]]) -> str:
    """Rows as a JSON list of objects."""
    objects = [dict(zip(columns, row)) for row in rows]
    return json.dumps(objects, indent=1, ensure_ascii=False) + "\n"


def as_table(columns: Sequence[str], rows: Sequence[Sequence[Cell]], numbers: Set[str]) -> str:
    """Rows as a text table; numbers stand at the right, those that name nothing with commas."""
    grouped = numbers - NAMES
    shown = [
        ["" if cell is None else f"{cell:,}" if name in grouped and type(cell) is int else str(cell)
         for name, cell in zip(columns, row)]
        for row in rows
    ]
    return "\n".join([*in_words.table_lines([*columns], shown, numbers), ""])


# Numbers that name something: they are not grouped.
NAMES = {"record", "account", "year", "user", "code", "proposer", "approver", "from", "to", "place", "line", "number"}


def fault_row(fault: FileFault | None) -> list[Cell]:
    """A fault as a row of FAULT, its way out behind what is expected; of none, nothing. If the whole file is meant,
    `found` says all."""
    if fault is None:
        return [None] * len(FAULT)
    way = f"{fault.joint}{fault.way}" if fault.way else ""
    found, expected = (str(fault.found), f"{fault.expected}{way}") if fault.expected else (f"{fault.found}{way}", "")
    return [str(fault.path), fault.line or None, *(part or None for part in (str(fault.field), found, expected))]
