"""What a table says: instructions, or accounts, as rows of a day text; or all that is wrong with its cells."""
import itertools
import re
from dataclasses import dataclass
from typing import Callable, Iterator, TypeVar

from registry_tools import voice
from registry_tools.errors import FileFault, shown
from registry_tools.second import faults
from registry_tools.sheets import columns, limits, mapping as mappings
from registry_tools.sheets.mapping import Mapping
from registry_tools.sheets.sheet import Sheet
from registry_tools.sheets.table import Table
from registry_tools.texts.day_text import reading_of_any_day

MOST_TOLD = 100
# What the desk expects of an amount.
PLAIN_AMOUNT = "a whole number without separators, as 1000"
Found = TypeVar("Found")
# How somebody writes a number with separators.
PARTED = re.compile(rf"-?[0-9]{{1,3}}(?:[.,'{mappings.BLANKS}][0-9]{{3}})+(?:[.,][0-9]+)?", re.ASCII)


@dataclass(frozen=True)
class Made:
    """The rows that a row of a table makes, with the number of that row, which counts from 1."""

    line: int
    rows: list[str]


@dataclass(frozen=True)
class Imported:
    """What a table says: accounts or instructions; or all that is wrong with it."""

    are_accounts: bool
    made: list[Made]
    wrong: list[FileFault]
    # That the spreadsheet hides some of them.
    hidden: list[str]

    @property
    def rows(self) -> list[str]:
        """The rows of a day text."""
        return [row for each in self.made for row in each.rows]

    @property
    def lines(self) -> list[int]:
        """For each of them the row of the table."""
        return [each.line for each in self.made for _ in each.rows]


def instructions_of(table: Table) -> Iterator[Made | FileFault]:
    """The `do` row of each row, or all that is wrong with it."""
    for number, cells in table.rows():
        fields = columns.fields_of_instruction(table.with_always(cells))
        act = dict(fields).get("act", "")
        used = {name for name, _ in fields}
        wrong = [*unused(table, number, cells, act, used), *wrong_cells(table, number, fields)]
        yield from wrong
        if not wrong:
            yield Made(number + 1, [",".join(["do", *(word for _, word in fields)])])


def wrong_cells(table: Table, number: int, fields: list[tuple[str, str]]) -> Iterator[FileFault]:
    """What is wrong in the cells of an instruction."""
    words = [word for _, word in fields]
    try:
        expected = faults.Reading(last="do").fields("do", words if len(words) > 4 else [*words, ""])
    except faults.Fault:
        # (the act is none, so nobody knows which other fields there are)
        expected = [*faults.PROPOSAL, faults.act]
    for (name, word), of_field in zip(fields, expected):
        try:
            of_field.read(word)
        except faults.Fault:
            yield told_of(table, number, name, shown(word), of_field.expected, word)


def unused(table: Table, number: int, cells: dict[str, str], act: str, used: set[str]) -> Iterator[FileFault]:
    """Cells with something that the act does not have."""
    for name, word in cells.items():
        if word and name not in used and act in faults.ACT_WORDS:
            yield table.fault(number, name, shown(word), f"nothing: {act} has no {name.upper()}")


def told_of(table: Table, number: int, name: str, found: str, expected: str, word: str, field: str = "") -> FileFault:
    """What is wrong with a word of a cell, or with a field of it: what is expected of a date in the form that was told,
    and else how another form is told, also of an amount."""
    wanted, way = expected, ""
    if "in plain digits" in expected and table.mapping.amounts is None and PARTED.fullmatch(word):
        wanted = voice.either(expected, PLAIN_AMOUNT)
        way = voice.either("amounts of --mapping tells the separators", "")
    elif table.dates is not None:
        wanted = expected.replace("YYYY-MM-DD", f"as {table.dates}")
    elif "date" in expected and re.fullmatch(r"[0-9]{1,4}[./-][0-9]{1,2}[./-][0-9]{1,4}", word):
        way = voice.either("--dates tells another form", "another form is chosen with the file")
    fault = table.fault(number, name, found, f"{field}{wanted}")
    fault.way = way
    return fault


def accounts_of(table: Table) -> Iterator[Made | FileFault]:
    """The rows of each account, or all that is wrong with it."""
    numbers: dict[str, int] = {}
    for number, cells in table.rows():
        fields = table.with_always(cells)
        first = numbers.setdefault(fields.get("no", ""), number)
        if first != number:
            yield table.fault(number, "no", shown(fields.get("no", "")), f"another account than in row {first + 1}")
            continue
        rows = [with_dates(row, table.read_date) for row in columns.rows_of_account(fields)]
        wrong = [*wrong_rows(table, number, fields, rows)]
        yield from wrong
        if not wrong:
            yield Made(number + 1, [",".join(row) for row in rows])


def with_dates(row: list[str], read_date: Callable[[str], str]) -> list[str]:
    """A row of an account, whose dates are those of a day text."""
    places = {place for place, field in enumerate(faults.FIELDS.get(row[0], []), 1) if field.name == "DATE"}
    return [read_date(word) if place in places else word for place, word in enumerate(row)]


def wrong_rows(table: Table, number: int, cells: dict[str, str], rows: list[list[str]]) -> Iterator[FileFault]:
    """What is wrong with an account: each field of its rows, and else the first thing of each row that does not fit the
    others."""
    reading = reading_of_any_day()
    for row in rows:
        wrong = [*wrong_fields(reading, row)]
        if wrong:
            # (the rows behind it are looked at as if it stood there without a fault)
            reading.last = row[0]
        else:
            # (a row whose fields have no fault may not fit those before it)
            try:
                reading.add(row)
            except faults.Fault as fault:
                wrong = [fault]
        yield from (fault_of(table, number, cells, row, fault) for fault in wrong)


def wrong_fields(reading: faults.Reading, row: list[str]) -> Iterator[faults.Fault]:
    """The faults of a row: each field that is not what it must be."""
    tag, *words = row
    try:
        fields = reading.fields(tag, words)
    except faults.Fault as fault:
        yield fault
        return
    for place, (field, word) in enumerate(zip(fields, words), 2):
        try:
            faults.read_field(field, word, place)
        except faults.Fault as fault:
            yield fault


def fault_of(table: Table, number: int, cells: dict[str, str], row: list[str], fault: faults.Fault) -> FileFault:
    """A fault of a row of an account, at the cell that has it."""
    if row[0] != "account":
        found = columns.BETWEEN_FIELDS.join(row[1:])
        name = f"{fault.name}: " if fault.name else ""
        wrong = row[fault.place - 1] if fault.place else ""
        return told_of(table, number, columns.LISTS[row[0]], shown(found), fault.expected, wrong, name)
    name = columns.ACCOUNT_FIELDS[fault.place - 2] if fault.place >= 2 else "no"
    word = cells.get(name, "")
    return told_of(table, number, name, shown(word), fault.expected, word)


def imported(sheet: Sheet, are_accounts: bool | None, dates: str | None, mapping: Mapping = Mapping()) -> Imported:
    """What a table says, or else all that is wrong with it. If no word says whether its rows are accounts, its headings
    do."""
    headings = {mapping.column(heading) or heading.strip().lower() for heading in (sheet.rows or [[]])[0]}
    if are_accounts is None:
        are_accounts = columns.ACCOUNT_FIELDS[0] in headings
    table = Table(sheet, columns.ACCOUNT_COLUMNS if are_accounts else columns.INSTRUCTION_COLUMNS, dates, mapping)
    wrong = [*itertools.islice(table.wrong_heading(), limits.MOST_WRONG)]
    # (under a heading that is wrong, nobody knows what a cell is)
    made = [] if wrong else [*found_in((accounts_of if are_accounts else instructions_of)(table))]
    wrong += [each for each in made if isinstance(each, FileFault)]
    right = [] if wrong else [each for each in made if isinstance(each, Made)]
    if are_accounts:
        # (as a day text has them)
        right.sort(key=lambda each: int(each.rows[0].split(",")[1]))
    return Imported(are_accounts, right, wrong, sheet.hidden_told())


def found_in(made: Iterator[Found | FileFault]) -> Iterator[Found | FileFault]:
    """What was found in a table, up to so many faults: nobody reads more, and each takes memory."""
    wrong = 0
    for each in made:
        yield each
        wrong += isinstance(each, FileFault)
        if wrong == limits.MOST_WRONG:
            return


def told(wrong: list[FileFault], end: str) -> list[str]:
    """What is wrong with the cells of a table, in lines, as far as somebody reads them; and how many there are."""
    more = [f"and {len(wrong) - MOST_TOLD} more"] if len(wrong) > MOST_TOLD else []
    count = f"{len(wrong)}{' or more' if len(wrong) >= limits.MOST_WRONG else ''}"
    return [*map(str, wrong[:MOST_TOLD]), *more, f"cells that are wrong: {count}; {end}"]


def read_mapping(path: str | None) -> Mapping:
    """The mapping that a word names; without it one that says nothing."""
    if path is None:
        return Mapping()
    return mappings.read(path, dict.fromkeys([*columns.INSTRUCTION_COLUMNS, *columns.ACCOUNT_COLUMNS]))
