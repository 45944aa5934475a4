"""What somebody hands in: rows of a day text, or a table of which rows are made. A table is a workbook, a csv whose
first row names columns, or whatever is handed in with a mapping."""
import csv
import os
from collections.abc import Sequence
from dataclasses import dataclass, replace

from registry_tools import voice
from registry_tools.errors import FileFault, shown
from registry_tools.office.intake import CHANGES, DO, MAPPING, TABLE, WORK, Original, begins_item
from registry_tools.second import faults
from registry_tools.sheets import columns, importing, limits, sheets
from registry_tools.sheets.mapping import Mapping
from registry_tools.sheets.table import other_headings
from registry_tools.texts.day_text import read_blocks, read_rows_of, reading_of_any_day
from registry_tools.texts.rows import Rows, packed_bytes_of, rows_of_text, text_of_rows, unpacked

UTF_16 = (b"\xff\xfe", b"\xfe\xff")
TAGS = ("do", "work", "account")
COLUMNS = {*columns.INSTRUCTION_COLUMNS, *columns.ACCOUNT_COLUMNS}
# The first row of a table is not longer.
FIRST_BYTES = 65_536
EXPECTED = "rows do, work or account in the first row: what is to be handed in; or the names of columns: "


@dataclass(frozen=True)
class Given:
    """A file as somebody gave it: where it lies, and its other name, if it is called otherwise. The desk keeps uploads
    under names of its own, so that no name that somebody chose stands on its disk; what is told and kept has the name
    that the file came with."""

    path: str
    named: str = ""

    @property
    def told(self) -> str:
        """How it is called in what is told of it."""
        return self.named or self.path

    @property
    def name(self) -> str:
        """How it is called in what is kept of it."""
        return os.path.basename(self.told)


@dataclass(frozen=True)
class Forms:
    """How tables are written."""

    mapping: Mapping = Mapping()
    dates: str | None = None
    are_accounts: bool | None = None


@dataclass(frozen=True)
class Incoming:
    """A file that is handed in: what it has, its rows with the lines or the rows of the table where they stand, how
    many things it has, the content that is kept, what it was made of, and that some of that is hidden."""

    given: Given
    kind: str
    rows: Rows
    count: int
    content: bytes
    originals: Sequence[Original] = ()
    hidden: Sequence[str] = ()

    @property
    def path(self) -> str:
        """What the file is called in what is told of it."""
        return self.given.told

    @property
    def begun(self) -> list[int]:
        """The lines on which something begins."""
        rows = self.rows
        return [rows.line(place) for place, row in enumerate(rows.rows) if begins_item(self.kind, row)]


class TableFault(FileFault):
    """Cells of a table are wrong: its `parts()` are a fault of a file for each of them."""

    code, remedy = "table", "mend these cells"

    def __init__(self, path: str, wrong: list[FileFault], end: str = "nothing was handed in") -> None:
        super().__init__(path, 0, "", "", "")
        self.wrong, self.end = wrong, end

    def __str__(self) -> str:
        return "\n".join(importing.told(self.wrong, self.end))

    def parts(self) -> Sequence[FileFault]:
        """What is wrong with each of these cells."""
        return self.wrong[: importing.MOST_TOLD]


def read(given: Given, forms: Forms = Forms()) -> Incoming:
    """What a file hands in. Ends the command at the first fault of a row, or with all those of a table's cells."""
    content = packed_bytes_of(given.path)
    if forms.mapping.path or is_table(content):
        return read_table(given, content, forms)
    content = text_handed_in(given, content)
    source = rows_of_text(given.told, content.decode("utf-8-sig", "surrogateescape"))
    kind = kind_of_rows(source)
    # (checking takes the row `end` away)
    count = checked_count(replace(source, rows=[*source.rows]), kind)
    return Incoming(given, kind, source, count, content)


def text_handed_in(given: Given, content: bytes) -> bytes:
    """The text that a file with this content hands in. Raises FileFault if it is too long."""
    limits.must_have_room(given.told, content)
    text = unpacked(given.told, content, limits.MOST_BYTES)
    limits.must_have_lines(given.told, text)
    return text


def read_table(given: Given, content: bytes, forms: Forms) -> Incoming:
    """What a table hands in."""
    path = given.told
    made = importing.imported(sheets.read_content(path, content), forms.are_accounts, forms.dates, forms.mapping)
    if made.wrong:
        raise TableFault(path, made.wrong)
    kind = CHANGES if made.are_accounts else DO
    if not made.made:
        raise FileFault(path, 0, "", "no row below the names of the columns", "at least one")
    rows = Rows(path, made.rows, made.lines)
    originals = [Original(TABLE, ending_of(content), content, given.name)]
    if forms.mapping.path:
        mapping = Given(forms.mapping.path)
        originals.append(Original(MAPPING, ".ini", packed_bytes_of(mapping.path), mapping.name))
    checked_count(Rows(path, [*rows.rows], rows.lines), kind)
    return Incoming(given, kind, rows, len(made.made), text_of_rows(made.rows), originals, made.hidden)


def is_table(content: bytes) -> bool:
    """Whether a file is a table, and not rows of a day text: a workbook, or a csv whose first row names columns."""
    if sheets.is_workbook(content) or content.startswith(UTF_16):
        return True
    first = rows_of_text("", content[:FIRST_BYTES].partition(b"\n")[0].decode("utf-8-sig", "replace")).rows[:1]
    for separator in sheets.SEPARATORS:
        fields = [cell.strip().lower() for cell in next(csv.reader(first, delimiter=separator), [])]
        is_row = len(fields) > 1 and fields[0] in TAGS and fields[1][:1].isdigit()
        if is_row or not fields or fields[0] == "format":
            return False
        if len(fields) > 1 and COLUMNS & {*fields}:
            return True
    return False


def ending_of(content: bytes) -> str:
    """The ending of a table's name, by what it is: names may say anything."""
    return sheets.ending_of(content) if sheets.is_workbook(content) else ".csv"


def kind_of_rows(source: Rows) -> str:
    """What a file has to hand in, by its first row."""
    tag = source.rows[0].partition(",")[0] if source.rows else ""
    for kind in (DO, CHANGES, WORK):
        if begins_item(kind, f"{tag},"):
            return kind
    makes = f"{voice.command('form')} makes an empty table, and "
    empty = f"{voice.either(makes, '')}{other_headings()}"
    raise source.fault(0, "tag", shown(tag), f"{EXPECTED}{empty}")


def checked_count(source: Rows, kind: str) -> int:
    """How many items a file has, each of which has no fault. Ends the command at the first fault."""
    if kind == DO:
        return len(read_rows_of("do", source, faults.Reading(last="do")))
    if kind == WORK:
        return len(read_rows_of("work", source, faults.Reading(last="lags")))
    return len(read_blocks(source, reading_of_any_day()))
