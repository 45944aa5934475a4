"""Reads the first sheet of an OpenDocument workbook (.ods): formulas by their stored values, dates as 2026-12-14, and
other numbers in plain digits, if they are whole."""
from registry_tools.sheets import limits
from registry_tools.sheets.limits import Grid
from registry_tools.sheets.parts import Elements, Enough, Parts, count_in
from registry_tools.sheets.sheet import Sheet, Stored, whole

SPACE = "urn:oasis:names:tc:opendocument:xmlns:{name}:1.0}}"
TABLE, OFFICE, TEXT = (SPACE.format(name=name) for name in ("table", "office", "text"))
# LibreOffice says by this what is an error; the value is empty then.
ERROR = "urn:org:documentfoundation:names:experimental:calc:xmlns:calcext:1.0}value-type"
NUMBERS = ("float", "currency", "percentage")
SHEET, ROW, PARAGRAPH = f"{TABLE}table", f"{TABLE}table-row", f"{TEXT}p"
# Rows that are hidden together; and how a row says that it is hidden by itself.
GROUP, HIDDEN = f"{TABLE}table-row-group", ("collapse", "filter")
CELLS = (f"{TABLE}table-cell", f"{TABLE}covered-table-cell")
# What stands in the text of a cell and is no letter.
BLANKS = {f"{TEXT}tab": "\t", f"{TEXT}line-break": "\n", f"{TEXT}s": " "}


def open_document_sheet(path: str, content: bytes) -> Sheet:
    """The first sheet of a workbook. What is no workbook raises what unpacking and reading it raises."""
    rows = Rows(path)
    Parts(path, content).read("content.xml", rows)
    if rows.name is None:
        raise ValueError("no sheet")
    return Sheet(path, rows.name, rows.grid.rows, rows.grid.hidden)


class Rows(Elements):
    """The rows of the first sheet, each up to its last cell that has something."""

    def __init__(self, path: str) -> None:
        super().__init__()
        self.grid = Grid(path)
        self.name: str | None = None
        # How many empty rows stand before this one, and how many empty cells before the next cell: a sheet ends with a
        # million empty rows, which are one.
        self.empty_rows = self.empty_cells = self.times = 0
        self.cells: list[str] = []
        # At which depths groups of rows are open that nobody sees, and whether the row is hidden by itself.
        self.closed: list[int] = []
        self.is_hidden = False
        # The attributes of the cell that is open, at which depth it is, and its letters and paragraphs so far.
        self.of: dict[str, str] = {}
        self.depth = self.letters = 0
        self.paragraphs: list[list[str]] = []

    def begin(self, name: str, of: dict[str, str]) -> None:
        """An element begins. Raises FileFault at a limit."""
        if self.depth:
            self.begin_in_cell(name, of)
        elif name == SHEET and self.name is None:
            self.name = of.get(f"{TABLE}name", "")
        elif self.name is None:
            return
        elif name == GROUP and of.get(f"{TABLE}display") == "false":
            self.closed.append(len(self.open))
        elif name == ROW:
            self.cells, self.empty_cells, self.times = [], 0, count_in(of.get(f"{TABLE}number-rows-repeated"), 1)
            self.is_hidden = of.get(f"{TABLE}visibility") in HIDDEN
        elif name in CELLS and self.open[-1] == ROW:
            self.of, self.depth, self.letters, self.paragraphs = of, len(self.open) + 1, 0, []

    def begin_in_cell(self, name: str, of: dict[str, str]) -> None:
        """An element begins in a cell. (Notes that somebody wrote to it are no paragraphs of its own.)"""
        if name == PARAGRAPH and len(self.open) == self.depth:
            self.paragraphs.append([])
        elif name in BLANKS and self.is_in_paragraph():
            times = count_in(of.get(f"{TEXT}c"), 1)
            self.must_have_room(times)
            self.paragraphs[-1].append(BLANKS[name] * times)

    def must_have_room(self, letters: int) -> None:
        """Counts letters of the cell that is open. Raises FileFault if they are too many."""
        self.letters += letters
        if self.letters > limits.MOST_LETTERS:
            raise limits.too_much(self.grid.path, "letters of a cell", limits.MOST_LETTERS)

    def is_in_paragraph(self) -> bool:
        """Whether a paragraph of the cell is open."""
        return self.open[self.depth : self.depth + 1] == [PARAGRAPH]

    def text(self, letters: str) -> None:
        """Letters stand in the element that is open."""
        if self.depth and self.is_in_paragraph():
            self.must_have_room(len(letters))
            self.paragraphs[-1].append(letters)

    def end(self, name: str) -> None:
        """An element ends. Raises FileFault at a limit, and Enough behind the first sheet."""
        if self.depth and len(self.open) + 1 == self.depth:
            self.depth = 0
            times = count_in(self.of.get(f"{TABLE}number-columns-repeated"), 1)
            self.end_cell(cell_value(self.of, self.paragraphs), times)
        elif self.depth or self.name is None:
            return
        elif name == ROW:
            self.end_row()
        elif name == GROUP and self.closed[-1:] == [len(self.open)]:
            self.closed.pop()
        elif name == SHEET:
            raise Enough

    def end_cell(self, value: str, times: int) -> None:
        """A cell stands there so often."""
        if value == "":
            self.empty_cells += times
            return
        self.letters = 0
        self.must_have_room(len(value))
        if len(self.cells) + self.empty_cells + times > limits.MOST_COLUMNS:
            raise limits.too_much(self.grid.path, "columns", limits.MOST_COLUMNS)
        self.cells += [""] * self.empty_cells + [value] * times
        self.empty_cells = 0

    def end_row(self) -> None:
        """A row has ended."""
        if not self.cells:
            self.empty_rows += self.times
            return
        self.grid.add((), self.empty_rows)
        self.grid.add(self.cells, self.times, self.is_hidden or bool(self.closed))
        self.empty_rows = 0


def cell_value(of: dict[str, str], paragraphs: list[list[str]]) -> str:
    """What a cell holds, by its attributes and its paragraphs."""
    kind, text = of.get(f"{OFFICE}value-type", ""), "\n".join(map("".join, paragraphs))
    if of.get(ERROR) == "error":
        return text
    if kind in NUMBERS:
        return Stored(whole(of.get(f"{OFFICE}value", "")))
    if kind == "date":
        # (one with a time keeps it, and is no date of a day text then)
        return of.get(f"{OFFICE}date-value", "").replace("T", " ").removesuffix(" 00:00:00")
    if kind == "time":
        return of.get(f"{OFFICE}time-value", "")
    if kind == "boolean":
        return of.get(f"{OFFICE}boolean-value", "").upper()
    value = of.get(f"{OFFICE}string-value") or text
    # (nobody saved what the formula gives: as text it is told as what it is)
    return value or (of.get(f"{TABLE}formula", "").partition(":")[2] if not kind else "")
