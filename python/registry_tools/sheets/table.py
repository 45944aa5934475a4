"""The rows of a sheet under its columns: as they are named there, or as a mapping names them."""
import datetime
import re
from collections.abc import Callable, Iterator, Sequence

from registry_tools import voice
from registry_tools.errors import FileFault, WordsFault, shown
from registry_tools.sheets import mapping as mappings
from registry_tools.sheets.mapping import Mapping
from registry_tools.sheets.sheet import Sheet

DATE_COLUMNS = {"proposed"}
# (of a distribution, each receiver has its amount)
AMOUNTS = re.compile("amount[2-8]?|tonnes|correction|general|aviation", re.ASCII)
SHOWN_DAY = ("31", "12", "2026")
# A column that a mapping passes over.
PASSED_OVER = ""


def other_headings() -> str:
    """How somebody tells what his headings mean."""
    help_of_import = voice.command("import", "--help")
    by_mapping = f"--mapping names other headings, as {help_of_import} shows"
    return voice.either(by_mapping, "the page Hand in has empty tables")


def date_reader(example: str | None) -> Callable[[str], str]:
    """Turns a date as it is written into that of a day text. What is no such date stays as it is, and is told later."""
    if example is None:
        return lambda word: word
    parts = re.split("([0-9]+)", example)
    if sorted(part for part in parts if part.isdigit()) != sorted(SHOWN_DAY):
        asked = voice.option("dates", example)
        raise WordsFault(f"{asked} is not the last day of 2026 in digits, as 31.12.2026 or 12/31/2026")
    names = {"31": "(?P<day>[0-9]{1,2})", "12": "(?P<month>[0-9]{1,2})", "2026": "(?P<year>[0-9]{4})"}
    pattern = re.compile("".join(names.get(part, re.escape(part)) for part in parts))

    def read(word: str) -> str:
        match = pattern.fullmatch(word)
        try:
            return str(datetime.date(*(int(match[part]) for part in ("year", "month", "day")))) if match else word
        except ValueError:
            return word

    return read


class Table:
    """The rows of a sheet under its columns."""

    def __init__(self, sheet: Sheet, names: Sequence[str], dates: str | None, mapping: Mapping = Mapping()) -> None:
        self.sheet, self.names, self.mapping = sheet, names, mapping
        if dates is not None and mapping.dates is not None:
            raise WordsFault(f"{voice.option('dates', dates)}: {mapping.path} says how dates are written already")
        self.dates = dates or mapping.dates
        self.read_date = date_reader(self.dates)
        self.read_amount = mappings.amount_reader(mapping.amounts, mapping.path)
        self.headings = [*sheet.rows[0]] if sheet.rows else []
        while self.headings and not self.headings[-1].strip():
            self.headings.pop()
        self.columns = [*map(self.column_of, self.headings)]

    def column_of(self, heading: str) -> str:
        """The column that a heading names; nothing, if the mapping passes it over."""
        mapped = self.mapping.column(heading)
        return heading.strip().lower() if mapped is None else mapped

    def wrong_heading(self) -> Iterator[FileFault]:
        """What is wrong with the names of the columns, and with cells that stand under none."""
        if not self.columns:
            yield self.sheet.fault(0, 0, "heading", "nothing", f"the names of columns: {', '.join(self.names)}")
        expected = f"one of {', '.join(self.names)}; {other_headings()}"
        for place, name in enumerate(self.columns):
            if self.mapping.column(self.headings[place]) == PASSED_OVER:
                continue
            if name not in self.names:
                yield self.sheet.fault(0, place, "heading", shown(self.headings[place]), expected)
                expected = "one of the same names"
            elif name in self.columns[:place]:
                yield self.sheet.fault(0, place, "heading", f"a second column {name}", "each column once")
            elif name in self.mapping.always:
                none = f"no such column, or none under [{mappings.ALWAYS}] of {self.mapping.path}"
                yield self.sheet.fault(0, place, "heading", f"a column {name}", none)
        for number, cells in enumerate(self.sheet.rows[1:], 1):
            for place, cell in enumerate(cells[len(self.columns) :], len(self.columns)):
                if cell and self.columns:
                    yield self.sheet.fault(number, place, "", shown(cell), "nothing in a column without a name")

    def rows(self) -> Iterator[tuple[int, dict[str, str]]]:
        """The rows that are not empty, each with its number, as cells by column: words, dates and amounts as a day text
        has them."""
        for number, cells in enumerate(self.sheet.rows[1:], 1):
            values = {name: self.cell(name, cell) for name, cell in zip(self.columns, cells) if name != PASSED_OVER}
            if any(values.values()):
                yield number, values

    def cell(self, name: str, cell: str) -> str:
        """What a cell of a column says."""
        word = self.mapping.word(name, cell)
        if name in DATE_COLUMNS:
            return self.read_date(word)
        return self.read_amount(word) if AMOUNTS.fullmatch(name) else word

    def with_always(self, cells: dict[str, str]) -> dict[str, str]:
        """The cells of a row, with what the mapping says of each row."""
        return {**self.mapping.always, **cells}

    def fault(self, number: int, name: str, found: str, expected: str) -> FileFault:
        """What is wrong in a column of a row; of a column that is not there, in the row."""
        if name in self.mapping.always:
            where = f"[{mappings.ALWAYS}] {name}"
            return FileFault(self.mapping.path, 0, where, found, expected)
        if name not in self.columns:
            return self.sheet.fault_at(f"row {number + 1}", name, "no such column", expected)
        return self.sheet.fault(number, self.columns.index(name), name, found, expected)
