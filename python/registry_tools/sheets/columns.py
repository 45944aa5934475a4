"""Instructions and accounts as tables: which columns they have, and how a row of a table and rows of a text become each
other.

An instruction has a column for each field of a `do` row by its name, in small letters; the second to eighth receiver of
a distribution have to2, amount2 and so on. An account has the fields of its `account` row, and a column for each of its
lists: in a cell the rows of the list with blanks between them, of each its fields with colons between them, as
5201:approve 5204:both.
"""
from typing import Iterator

from registry_tools import tables
from registry_tools.second import faults
from registry_tools.second.rules import Instruction
from registry_tools.texts.accounts import Block

LATER_SHARES = range(2, tables.MOST_SHARES + 1)
FIELD_NAMES = {word: [field.name.lower() for field in fields] for word, fields in faults.ACTS.items()}
SHARES = [f"{name}{share}" for share in LATER_SHARES for name in ("to", "amount")]
DISTRIBUTION = ["from", "kind", "to", "amount", *SHARES]
PROPOSAL = ["proposed", "proposer", "approver", "act"]
OF_ACTS = dict.fromkeys(name for names in [*FIELD_NAMES.values(), DISTRIBUTION] for name in names)
INSTRUCTION_COLUMNS = [*PROPOSAL, *OF_ACTS]
ACCOUNT_FIELDS = [field.name.lower() for field in faults.FIELDS["account"]]
# The columns of the lists, by the tags of their rows.
LISTS = {tag: f"{tag}s" if tag in ("correction", "user", "figure") else tag for tag in faults.BLOCK[1:]}
ACCOUNT_COLUMNS = [*ACCOUNT_FIELDS, *LISTS.values()]
BETWEEN_FIELDS, BETWEEN_ROWS = ":", " "


def columns_of_act(act: str) -> list[str]:
    """The columns of the fields of an act, in the order of a `do` row; all that it may have."""
    return DISTRIBUTION if act == "distribute" else FIELD_NAMES[act]


def cells_of_instruction(i: Instruction) -> list[str]:
    """The cells of an instruction, in the order of the columns."""
    cells = dict(zip([*PROPOSAL, *columns_of_act(i.act)], i.fields))
    return [cells.get(column, "") for column in INSTRUCTION_COLUMNS]


def cells_of_account(block: Block) -> list[str]:
    """The cells of an account, in the order of the columns."""
    lists: dict[str, list[str]] = {tag: [] for tag in LISTS}
    for row in block.list_rows:
        tag, *fields = row.split(",")
        lists[tag].append(BETWEEN_FIELDS.join(fields))
    return [*block.rows[0].split(",")[1:], *(BETWEEN_ROWS.join(lists[tag]) for tag in LISTS)]


def rows_of_account(cells: dict[str, str]) -> Iterator[list[str]]:
    """The rows of an account of a table, each as its fields, with the column of each field."""
    yield ["account", *(cells.get(field, "") for field in ACCOUNT_FIELDS)]
    for tag, column in LISTS.items():
        for row in cells.get(column, "").split():
            yield [tag, *row.split(BETWEEN_FIELDS)]


def fields_of_instruction(cells: dict[str, str]) -> list[tuple[str, str]]:
    """The fields of a `do` row of a table, each with its column. Of a distribution, as many receivers as there are."""
    act = cells.get("act", "")
    columns = columns_of_act(act) if act in faults.ACT_WORDS else []
    fields = [(column, cells.get(column, "")) for column in columns]
    if act == "distribute":
        while len(fields) > 4 and not fields[-1][1] and not fields[-2][1]:
            fields = fields[:-2]
    return [*((fields, cells.get(fields, "")) for fields in PROPOSAL), *fields]
