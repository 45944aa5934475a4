"""Names in what commands show: a folder of days has some, paths have none."""
from collections.abc import Mapping, Sequence

from registry_tools.texts.namebook import ACCOUNT, HOLDER, USER, Labels
from registry_tools.showing import Cell
from registry_tools.texts.in_words import ACTS, OF_ACCOUNTS

# What the numbers of a column name.
KIND_OF: Mapping[str, str] = {
    "account": ACCOUNT, "from": ACCOUNT, "to": ACCOUNT, "holder": HOLDER, "proposer": USER, "approver": USER,
}  # fmt: skip


def with_names(columns: Sequence[str], rows: Sequence[Sequence[Cell]], names: Labels) -> Sequence[Sequence[Cell]]:
    """Rows of these columns with names beside the numbers."""
    if not names.named:
        return rows
    return [[named(name, cell, names) for name, cell in zip(columns, row)] for row in rows]


def named(column: str, cell: Cell, names: Labels) -> Cell:
    """A cell of a column, with the name of what it names."""
    if cell in (None, "") or column not in KIND_OF:
        return cell
    words = names.words(KIND_OF[column], cell)
    return cell if words == str(cell) else words


def in_row(row: str, names: Labels) -> list[str]:
    """The names of the users, holders and accounts that a `do` row or an `account` row has, each with its number."""
    if not names.named:
        return []
    tag, *fields = row.split(",")
    numbers: list[tuple[str, str]] = []
    if tag == "do" and len(fields) > 3 and fields[3] in ACTS:
        numbers += [(USER, fields[1]), (USER, fields[2])]
        kinds = ACTS[fields[3]].fields.split()
        # (the last two fields of a distribution repeat)
        kinds += kinds[-2:] * ((len(fields) - 4 - len(kinds)) // 2)
        numbers += [(ACCOUNT, number) for name, number in zip(kinds, fields[4:]) if name in OF_ACCOUNTS]
    elif tag == "account" and fields:
        numbers += [(ACCOUNT, fields[0]), *([(HOLDER, fields[2])] if len(fields) > 8 else [])]
    told = (names.words(kind, number) for kind, number in dict.fromkeys(numbers) if (kind, number) in names.named)
    return [*told]
