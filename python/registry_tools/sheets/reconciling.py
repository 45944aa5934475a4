"""Compares somebody's list of accounts, as a table has it, with the accounts after a day: each column that the list
has, and which accounts only one of both has."""
from collections.abc import Iterator, Mapping as Known, Sequence
from dataclasses import dataclass, replace

from registry_tools.errors import FileFault, shown
from registry_tools.second import faults
from registry_tools.sheets import columns, importing
from registry_tools.sheets.mapping import Mapping
from registry_tools.sheets.sheet import Sheet
from registry_tools.sheets.table import Table
from registry_tools.texts.accounts import Block

DIFFERS, ONLY_DAY, ONLY_FILE = "differs", "not in the file", "not in the day"
NUMBER, *OTHERS = columns.ACCOUNT_COLUMNS
# How lists of others call it, too.
ALSO = {"account": NUMBER}
FIELDS = dict(zip(columns.ACCOUNT_FIELDS, faults.FIELDS["account"]))
Cells = dict[str, str]


@dataclass(frozen=True)
class Unlike:
    """Something of an account that a list and a day do not have alike; None, where one of them has no such account."""

    what: str
    account: int
    field: str
    file: str | None
    day: str | None


@dataclass(frozen=True)
class Listed:
    """What a list says: the columns that it has, and the cells of each account; or all that is wrong with it."""

    columns: Sequence[str]
    accounts: Known[int, Cells]
    wrong: Sequence[FileFault]


def listed(sheet: Sheet, mapping: Mapping = Mapping()) -> Listed:
    """The accounts that a table lists, with the words and amounts that a day text has."""
    table = Table(sheet, columns.ACCOUNT_COLUMNS, None, replace(mapping, columns={**ALSO, **mapping.columns}))
    wrong = [*table.wrong_heading(), *lacking(table)]
    found = [] if wrong else [*importing.found_in(accounts_in(table))]
    wrong += [each for each in found if isinstance(each, FileFault)]
    has = [name for name in OTHERS if name in table.columns or name in mapping.always]
    return Listed(has, dict(each for each in found if not isinstance(each, FileFault)), wrong)


def lacking(table: Table) -> Iterator[FileFault]:
    """What is wrong with a list that names no accounts, or says nothing of them."""
    columns = {*table.columns, *table.mapping.always}
    if NUMBER not in columns or not columns & {*OTHERS}:
        expected = f"a column {NUMBER}, and at least one of {', '.join(OTHERS)}"
        yield table.sheet.fault_at("row 1", "heading", shown(", ".join(table.headings)), expected)


def accounts_in(table: Table) -> Iterator[tuple[int, Cells] | FileFault]:
    """The cells of each account, or what is wrong with them."""
    rows: dict[str, int] = {}
    for row, cells in table.rows():
        fields = table.with_always(cells)
        number = fields.get(NUMBER, "")
        if rows.setdefault(number, row) != row:
            yield table.fault(row, NUMBER, shown(number), f"another account than in row {rows[number] + 1}")
            continue
        wrong = [*wrong_cells(table, row, fields)]
        yield from wrong
        if not wrong:
            yield int(number), fields


def wrong_cells(table: Table, row: int, cells: Cells) -> Iterator[FileFault]:
    """The cells that are not what a day text may have. An empty one says that the account has nothing there."""
    for name, field in FIELDS.items():
        word = cells.get(name, "")
        try:
            if word or name == NUMBER:
                field.read(word)
        except faults.Fault:
            yield importing.told_of(table, row, name, shown(word), field.expected, word)


def unlike_accounts(found: Listed, book: Known[int, Block]) -> list[Unlike]:
    """All in which a list and the accounts after a day are not alike, by account."""
    numbers = sorted({*found.accounts, *book})
    return [unlike for number in numbers for unlike in of_account(found, number, book.get(number))]


def of_account(found: Listed, number: int, block: Block | None) -> Iterator[Unlike]:
    """What is not alike of an account that the list or the day has."""
    of_file = found.accounts.get(number)
    has = dict(zip(columns.ACCOUNT_COLUMNS, columns.cells_of_account(block))) if block else None
    what = DIFFERS if of_file and has else ONLY_FILE if of_file else ONLY_DAY
    for name in found.columns:
        one, other = (None if cells is None else cells.get(name, "") for cells in (of_file, has))
        if what != DIFFERS or as_compared(name, one) != as_compared(name, other):
            yield Unlike(what, number, name, one, other)


def as_compared(name: str, cell: str | None) -> object:
    """A cell as it is compared: what is a list in it, in any order."""
    return sorted((cell or "").split()) if name not in FIELDS else cell
