"""What commands answer: rows under their columns, as the words ask for them, on standard output or in a file."""
import argparse
from collections.abc import Callable, Iterable, Sequence

from registry_tools import showing
from registry_tools.cli.options import add_to
from registry_tools.output import write_answer
from registry_tools.showing import Cell, as_csv, as_json
from registry_tools.tables import Columns


def add_forms(parser: argparse.ArgumentParser) -> None:
    """The options by which a command writes for programs."""
    forms = parser.add_mutually_exclusive_group()
    forms.add_argument("--csv", action="store_true", help="write csv with a header row")
    forms.add_argument("--json", action="store_true", help="write JSON: a list of objects whose names are the columns")


def add_words(parser: argparse.ArgumentParser) -> None:
    """Tells a parser the words of the command."""
    add_forms(parser)
    add_to(parser)


def is_for_programs(said: argparse.Namespace) -> bool:
    """Whether the words ask for csv or JSON."""
    return bool(said.csv or said.json)


def for_programs(said: argparse.Namespace, columns: Sequence[str], rows: Sequence[Sequence[Cell]]) -> str:
    """Rows as the words ask for them: as JSON, or else as csv."""
    return as_json(columns, rows) if said.json else as_csv(columns, rows)


def show(said: argparse.Namespace, columns: Columns, rows: Sequence[Sequence[Cell]]) -> None:
    """Writes rows under their columns."""
    show_or_tell(said, columns, rows, lambda: showing.as_table(columns.names, rows, columns.numbers))


def show_or_tell(
    said: argparse.Namespace, columns: Columns, rows: Iterable[Sequence[Cell]], text: Callable[[], str]
) -> None:
    """Writes rows for programs, or else what people are told."""
    write_answer(for_programs(said, columns.names, [*rows]) if is_for_programs(said) else text(), said.to)
