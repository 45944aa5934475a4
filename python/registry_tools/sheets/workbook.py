"""Reads the first sheet of a workbook of Excel (.xlsx): formulas by their stored values, of a cell with a date format
the date as 2026-12-14, and of any other number its plain digits, if it is whole."""
import datetime
import re

from registry_tools.sheets import limits
from registry_tools.sheets.limits import Grid
from registry_tools.sheets.parts import Elements, Parts, count_in
from registry_tools.sheets.sheet import Sheet, Stored, whole

MAIN = "http://schemas.openxmlformats.org/spreadsheetml/2006/main}"
RELATION = "http://schemas.openxmlformats.org/officeDocument/2006/relationships}id"
PACKAGE = "http://schemas.openxmlformats.org/package/2006/relationships}"
ROW, CELL, FORMULA, VALUE, TEXT = (f"{MAIN}{name}" for name in ("row", "c", "f", "v", "t"))
# A text of the table of texts; and what says how a text is read aloud.
ITEM, ALOUD = f"{MAIN}si", f"{MAIN}rPh"
# The built-in formats of dates.
DATE_FORMATS = {*map(str, (*range(14, 18), 22))}
DAY_LETTERS = re.compile("[dmy]")
# (what is opened and never closed goes on to the end: so a format is looked through once)
QUOTED = re.compile(r'"[^"]*(?:"|$)|\[[^]]*(?:\]|$)|\\.')
FIRST_DAYS = {False: datetime.date(1899, 12, 30), True: datetime.date(1904, 1, 1)}
TRUE_FALSE, TRUE = {"0": "FALSE", "1": "TRUE"}, ("1", "true")
NAME_OF_CELL = re.compile("([A-Z]{1,3})[0-9]{1,9}", re.ASCII)


def workbook_sheet(path: str, content: bytes) -> Sheet:
    """The first sheet of a workbook. What is no workbook raises what unpacking and reading it raises."""
    parts = Parts(path, content)
    book, links, texts, styles = Book(), Links(path), Texts(path), Styles(path)
    parts.read("xl/workbook.xml", book)
    if book.link is None:
        raise ValueError("no sheet")
    parts.read("xl/_rels/workbook.xml.rels", links)
    for name, elements in (("xl/sharedStrings.xml", texts), ("xl/styles.xml", styles)):
        if name in parts.names:
            parts.read(name, elements)
    target = links.targets[book.link]
    rows = Rows(path, texts.texts, styles, FIRST_DAYS[book.begins_1904])
    parts.read(target.lstrip("/") if target.startswith("/") else f"xl/{target}", rows)
    return Sheet(path, book.name, rows.grid.rows, rows.grid.hidden)


class Book(Elements):
    """What a workbook says of its first sheet: its name and its link; and with which year its days begin."""

    def __init__(self) -> None:
        super().__init__()
        self.name, self.begins_1904 = "", False
        self.link: str | None = None

    def begin(self, name: str, of: dict[str, str]) -> None:
        """An element begins."""
        if name == f"{MAIN}workbookPr":
            self.begins_1904 = of.get("date1904") in TRUE
        elif name == f"{MAIN}sheet" and self.link is None and self.open[-1:] == [f"{MAIN}sheets"]:
            self.name, self.link = of.get("name", ""), of.get(RELATION, "")


class Links(Elements):
    """Which part each link leads to."""

    def __init__(self, path: str) -> None:
        super().__init__()
        self.path, self.targets = path, dict[str, str]()

    def begin(self, name: str, of: dict[str, str]) -> None:
        """An element begins. Raises FileFault at a limit."""
        if name == f"{PACKAGE}Relationship":
            self.targets[of.get("Id", "")] = of.get("Target", "")
        if len(self.targets) > limits.MOST_PARTS:
            raise limits.too_much(self.path, "links", limits.MOST_PARTS)


class Styles(Elements):
    """For each style whether it shows a date."""

    def __init__(self, path: str) -> None:
        super().__init__()
        self.path, self.formats, self.numbers = path, dict[str, str](), list[str]()

    def begin(self, name: str, of: dict[str, str]) -> None:
        """An element begins."""
        if name == f"{MAIN}numFmt":
            self.formats[of.get("numFmtId", "")] = of.get("formatCode", "")
        elif name == f"{MAIN}xf" and self.open[-1:] == [f"{MAIN}cellXfs"]:
            self.numbers.append(of.get("numFmtId", "0"))
        if max(len(self.formats), len(self.numbers)) > limits.MOST_STYLES:
            raise limits.too_much(self.path, "styles", limits.MOST_STYLES)

    def is_date(self, style: int) -> bool:
        """Whether a style shows a date."""
        if style >= len(self.numbers):
            return False
        number = self.numbers[style]
        if number in DATE_FORMATS:
            return True
        # (it is looked through once)
        pattern = self.formats.get(number, "")
        is_so = bool(DAY_LETTERS.search(QUOTED.sub("", pattern).lower()))
        self.formats[number] = "d" if is_so else ""
        return is_so


class Texts(Elements):
    """The table of texts, to which cells point. How to read one aloud is left out."""

    def __init__(self, path: str) -> None:
        super().__init__()
        self.path, self.texts, self.parts = path, list[str](), list[str]()

    def begin(self, name: str, of: dict[str, str]) -> None:
        """An element begins."""
        if name == ITEM:
            self.parts = []

    def end(self, name: str) -> None:
        """An element ends."""
        if name == ITEM:
            self.texts.append("".join(self.parts))
            if len(self.texts) > limits.MOST_CELLS:
                raise limits.too_much(self.path, "texts", limits.MOST_CELLS)

    def text(self, letters: str) -> None:
        """Letters stand in the element that is open."""
        if self.open[-1] == TEXT and ALOUD not in self.open:
            self.parts.append(letters)


class Rows(Elements):
    """The rows of a sheet, also those that were left out, and so their cells."""

    def __init__(self, path: str, texts: list[str], styles: Styles, first_day: datetime.date) -> None:
        super().__init__()
        self.grid, self.texts, self.styles, self.first_day = Grid(path), texts, styles, first_day
        self.cells: list[str] = []
        self.is_hidden = False
        # The attributes of the cell that is open, whether it has a formula, and what stands in it by its element.
        self.of: dict[str, str] = {}
        self.has_formula = False
        self.parts: dict[str, list[str]] = {}

    def begin(self, name: str, of: dict[str, str]) -> None:
        """An element begins. Raises FileFault at a limit."""
        if name == ROW:
            number = count_in(of.get("r"), len(self.grid.rows) + 1)
            self.cells, self.is_hidden = [], of.get("hidden") in TRUE
            self.grid.add((), max(number - 1 - len(self.grid.rows), 0))
        elif name == CELL:
            column = column_of(of["r"]) if of.get("r") else len(self.cells)
            if column >= limits.MOST_COLUMNS:
                raise limits.too_much(self.grid.path, "columns", limits.MOST_COLUMNS)
            self.cells += [""] * (column - len(self.cells))
            self.of, self.has_formula, self.parts = of, False, {FORMULA: [], VALUE: [], TEXT: []}
        elif name == FORMULA:
            self.has_formula = True

    def text(self, letters: str) -> None:
        """Letters stand in the element that is open."""
        if self.open[-1] in self.parts and ALOUD not in self.open:
            self.parts[self.open[-1]].append(letters)

    def end(self, name: str) -> None:
        """An element ends. Raises FileFault at a limit."""
        if name == CELL:
            value = self.value_of()
            if len(value) > limits.MOST_LETTERS:
                raise limits.too_much(self.grid.path, "letters of a cell", limits.MOST_LETTERS)
            self.cells.append(value)
        elif name == ROW:
            self.grid.add(self.cells, is_hidden=self.is_hidden)

    def value_of(self) -> str:
        """What the cell shows that has ended."""
        formula, value, text = ("".join(self.parts[name]) for name in (FORMULA, VALUE, TEXT))
        kind = self.of.get("t", "n")
        if self.has_formula and not value and kind != "str":
            # (nobody saved what it gives: as text it is told as what it is)
            return f"={formula}"
        if kind == "b":
            return TRUE_FALSE.get(value, value)
        if kind == "s":
            return self.texts[count_in(value, 0)]
        if kind == "inlineStr":
            return text
        if kind != "n" or not value:
            return value
        return self.date_of(value) if self.styles.is_date(count_in(self.of.get("s"), 0)) else Stored(whole(value))

    def date_of(self, value: str) -> str:
        """A date; one with a time keeps it, and is no date of a day text then. Of a number that is that of no day, the
        number."""
        days, start = float(value), datetime.datetime.combine(self.first_day, datetime.time())
        try:
            moment = start + datetime.timedelta(seconds=round(days * 86_400))
        except (OverflowError, ValueError):
            return value
        return str(moment.date()) if days.is_integer() else moment.isoformat(" ")


def column_of(name: str) -> int:
    """The number of the column that the name of a cell begins with, counted from 0. Raises ValueError if it is none."""
    letters = NAME_OF_CELL.fullmatch(name)
    if letters is None:
        raise ValueError(f"a cell {name[:20]}")
    column = 0
    for letter in letters[1]:
        column = column * 26 + ord(letter) - 64
    return column - 1
