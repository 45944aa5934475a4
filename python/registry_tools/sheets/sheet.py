"""A table as it is read of a file: its rows, and where its cells stand."""
import re
from collections.abc import Sequence
from dataclasses import dataclass

from registry_tools.errors import FileFault, visible

# So much of the name of a sheet is told, which a spreadsheet lets have 31 letters.
LONGEST_NAME = 80
# A longer number is none that a spreadsheet stores.
LONGEST_NUMBER = 400
# So many hidden rows are told by their numbers.
MOST_HIDDEN = 10


class Stored(str):
    """A number as a workbook stores it: a point in it is no separator that somebody wrote."""


@dataclass
class Sheet:
    """A table: the path and the name of the sheet, the rows of its cells, and the places of those that a spreadsheet
    hides."""

    path: str
    name: str
    rows: Sequence[Sequence[str]]
    hidden: Sequence[int] = ()

    def hidden_told(self) -> list[str]:
        """That rows count which nobody sees in the spreadsheet; nothing, if there are none."""
        if not self.hidden:
            return []
        more = len(self.hidden) - MOST_HIDDEN
        rows = ", ".join(f"{place + 1}" for place in self.hidden[:MOST_HIDDEN])
        return [f"{self.path}: the spreadsheet hides {len(self.hidden):,} of its rows, which count all the same: row "
                f"{rows}{f' and {more:,} more' if more > 0 else ''}"]  # fmt: skip

    def fault(self, row: int, column: int, field: str, found: str, expected: str) -> FileFault:
        """What is wrong with a cell. Rows and columns count from 0."""
        return self.fault_at(f"cell {name_of_cell(row, column)}", field, found, expected)

    def fault_at(self, place: str, field: str, found: str, expected: str) -> FileFault:
        """The fault of a place in the sheet."""
        name = "".join(map(visible, self.name[:LONGEST_NAME]))
        sheet = f"sheet {name}, " if name else ""
        return FileFault(f"{self.path}, {sheet}{place}", 0, field, found, expected)


def name_of_column(column: int) -> str:
    """The letters of a column: A, B, .., Z, AA, .."""
    letters = ""
    column += 1
    while column:
        column, rest = divmod(column - 1, 26)
        letters = chr(65 + rest) + letters
    return letters


def name_of_cell(row: int, column: int) -> str:
    """The name of a cell, such as B7."""
    return f"{name_of_column(column)}{row + 1}"


def whole(value: str) -> str:
    """A number as a spreadsheet stores it, in plain digits if it is whole."""
    if len(value) > LONGEST_NUMBER or re.fullmatch(r"-?[0-9]+", value, re.ASCII):
        return value
    number = float(value)
    return str(int(number)) if number.is_integer() and abs(number) < 2**53 else value
