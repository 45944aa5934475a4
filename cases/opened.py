"""Tables as spreadsheets write them, for trials: csv in several spellings, .xlsx and .ods."""
import csv
import io
import itertools
import re
import tempfile
import zipfile
from collections.abc import Sequence
from pathlib import Path
from xml.sax.saxutils import escape

from registry_tools.sheets.writing import Written, write_workbook

CSV = "csv"
FORMS = (CSV, "semicolons.csv", "utf-16.csv", "xlsx", "ods")
# Marks that nobody sees, and that show other letters than those that are there.
MARKS = ("\u200e", "\u200f", "\u202e", "\u2066", "\u200b", "\ufeff", "\u061c")
Cells = Sequence[Sequence[str]]
SPACES = " ".join(
    f'xmlns:{name}="urn:oasis:names:tc:opendocument:xmlns:{name}:1.0"' for name in ("office", "table", "text")
)
KIND = "application/vnd.oasis.opendocument.spreadsheet"


def table_of(rows: Sequence[dict[str, str]]) -> list[list[str]]:
    """Rows under the names of all their columns."""
    names = [*dict.fromkeys(name for row in rows for name in row)]
    return [names, *([row.get(name, "") for name in names] for row in rows)]


def written(form: str, cells: Cells) -> bytes:
    """A table in one of the forms."""
    if form == "xlsx":
        with tempfile.TemporaryDirectory() as work:
            path = Path(work) / "table.xlsx"
            write_workbook(str(path), Written("orders", cells))
            return with_fractions(path.read_bytes())
    if form == "ods":
        return open_document(cells)
    stream = io.StringIO()
    csv.writer(stream, delimiter=";" if form.startswith("semi") else ",").writerows(cells)
    return stream.getvalue().encode("utf-16" if form.startswith("utf-16") else "utf-8")


def with_fractions(content: bytes) -> bytes:
    """A workbook in which fractions are numbers, as a spreadsheet keeps what somebody types."""
    made = io.BytesIO()
    with zipfile.ZipFile(io.BytesIO(content)) as old, zipfile.ZipFile(made, "w", zipfile.ZIP_DEFLATED) as new:
        for name in old.namelist():
            new.writestr(name, FRACTION.sub(r"><v>\1</v></c>", old.read(name).decode()))
    return made.getvalue()


FRACTION = re.compile(r' t="inlineStr"><is><t xml:space="preserve">([0-9]+\.[0-9]+)</t></is></c>')


def shown_mark(mark: str) -> str:
    """A mark as messages show it."""
    return "<byte order mark>" if mark == "\ufeff" else f"<U+{ord(mark):04X}>"


def open_document(cells: Cells) -> bytes:
    """An OpenDocument workbook, with a note to a cell, and with the empty rows and cells with which a sheet ends."""
    rows = "".join(rows_of(list(row), sum(1 for _ in equal)) for row, equal in itertools.groupby(cells))
    table = f'<table:table table:name="orders">{rows}{EMPTY_ROWS}</table:table>'
    second = '<table:table table:name="other"><table:table-row><table:table-cell/></table:table-row></table:table>'
    sheets = f"<office:body><office:spreadsheet>{table}{second}</office:spreadsheet></office:body>"
    text = f'<?xml version="1.0" encoding="UTF-8"?><office:document-content {SPACES}>{sheets}</office:document-content>'
    content = io.BytesIO()
    with zipfile.ZipFile(content, "w") as archive:
        archive.writestr("mimetype", KIND)
        archive.writestr("content.xml", text, zipfile.ZIP_DEFLATED)
    return content.getvalue()


def rows_of(row: list[str], times: int) -> str:
    """So many equal rows, whose equal cells stand there once."""
    cells = "".join(cell_of(cell, sum(1 for _ in equal)) for cell, equal in itertools.groupby(row))
    return f"<table:table-row{repeated('rows', times)}>{cells}{EMPTY_CELLS}</table:table-row>"


def repeated(what: str, times: int) -> str:
    """How often something stands there, as LibreOffice writes it."""
    return f' table:number-{what}-repeated="{times}"' if times > 1 else ""


EMPTY_CELLS = '<table:table-cell table:number-columns-repeated="16000"/>'
EMPTY_ROWS = (
    '<table:table-row table:number-rows-repeated="1048000"><table:table-cell '
    'table:number-columns-repeated="16384"/></table:table-row>'
)
NOTE = "<office:annotation><text:p>a note</text:p></office:annotation>"


def cell_of(cell: str, times: int) -> str:
    """So many equal cells as LibreOffice writes them."""
    if cell == "":
        return f"<table:table-cell{repeated('columns', times)}/>"
    number = cell.replace(".", "", 1)
    if number.isascii() and number.isdigit() and not cell.startswith("0"):
        value = f'office:value-type="float" office:value="{float(cell):g}"' if "." in cell else (
            f'office:value-type="float" office:value="{cell}"'
        )
    elif len(cell) == 10 and cell[4] == cell[7] == "-":
        value = f'office:value-type="date" office:date-value="{cell}"'
    else:
        value = 'office:value-type="string"'
    start = f"<table:table-cell{repeated('columns', times)} {value}>"
    return f"{start}{NOTE}<text:p>{escape(cell)}</text:p></table:table-cell>"
