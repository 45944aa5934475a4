"""Tables of a day and its report, for a spreadsheet: its instructions, the accounts after it, what came of each
instruction, how operators stand, and the figures that were determined."""
from collections.abc import Iterable, Iterator, Sequence

from registry_tools.pairs import compliance, log
from registry_tools.sheets import columns
from registry_tools.showing import Cell
from registry_tools.texts.day_text import DayText
from registry_tools.texts.report import Report

FIGURE_COLUMNS = ["account", "year", "figure"]
WHAT = ("instructions", "accounts", "log", "compliance", "figures")
Table = tuple[Sequence[str], Iterable[Sequence[str]]]


def table_of(what: str, day: DayText, report: Report, year: int | None = None) -> Table:
    """The columns and the rows of a table; `year` is that of compliance."""
    if what == "instructions":
        return columns.INSTRUCTION_COLUMNS, map(columns.cells_of_instruction, day.instructions)
    if what == "accounts":
        return columns.ACCOUNT_COLUMNS, map(columns.cells_of_account, report.book.values())
    if what == "figures":
        return FIGURE_COLUMNS, figures_of(report)
    if what == "log":
        return log.COLUMNS.names, map(as_texts, log.log([report], [day]))
    standings = compliance.standings(day, report, compliance.last_year_over(day.head) if year is None else year)
    return compliance.COLUMNS.names, map(as_texts, map(compliance.cells, standings))


def as_texts(row: Iterable[Cell]) -> list[str]:
    """A row as csv has it."""
    return ["" if cell is None else str(cell) for cell in row]


def figures_of(report: Report) -> Iterator[list[str]]:
    """The determined figures of all accounts, as rows."""
    for block in report.book.values():
        for row in block.list_rows:
            if row.startswith("figure,"):
                yield [str(block.number), *row.split(",")[1:]]
