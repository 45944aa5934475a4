"""Writes tables as workbooks (.xlsx)."""
import io
import re
import zipfile
from collections.abc import Iterable, Iterator, Sequence
from typing import NamedTuple
from xml.sax.saxutils import escape

from registry_tools.errors import FileFault
from registry_tools.output import new_file
from registry_tools.sheets.limits import MOST_LETTERS
from registry_tools.sheets.sheet import name_of_cell

SHEET_TYPE = (
    '<Override PartName="/xl/worksheets/sheet{number}.xml" '
    'ContentType="application/vnd.openxmlformats-officedocument.spreadsheetml.worksheet+xml"/>'
)
CONTENT_TYPES = (
    '<?xml version="1.0" encoding="UTF-8"?><Types xmlns="http://schemas.openxmlformats.org/package/2006/content-types">'
    '<Default Extension="rels" ContentType="application/vnd.openxmlformats-package.relationships+xml"/>'
    '<Default Extension="xml" ContentType="application/xml"/>'
    '<Override PartName="/xl/workbook.xml" '
    'ContentType="application/vnd.openxmlformats-officedocument.spreadsheetml.sheet.main+xml"/>'
    "{sheets}</Types>"
)
RELATION = (
    '<Relationship Id="rId{number}" '
    'Type="http://schemas.openxmlformats.org/officeDocument/2006/relationships/{kind}" Target="{target}"/>'
)
RELATIONS = (
    '<?xml version="1.0" encoding="UTF-8"?>'
    '<Relationships xmlns="http://schemas.openxmlformats.org/package/2006/relationships">{relations}</Relationships>'
)
BOOK_SHEET = '<sheet name="{name}" sheetId="{number}" r:id="rId{number}"/>'
BOOK = (
    '<?xml version="1.0" encoding="UTF-8"?><workbook xmlns="http://schemas.openxmlformats.org/spreadsheetml/2006/main" '
    'xmlns:r="http://schemas.openxmlformats.org/officeDocument/2006/relationships"><sheets>{sheets}</sheets></workbook>'
)
SHEET = (
    '<?xml version="1.0" encoding="UTF-8"?>'
    '<worksheet xmlns="http://schemas.openxmlformats.org/spreadsheetml/2006/main"><sheetData>',
    "</sheetData></worksheet>",
)
DIGITS = re.compile("0|-?[1-9][0-9]{0,14}")


class Written(NamedTuple):
    """A sheet that is written: its name, and the cells of its rows."""

    name: str
    rows: Iterable[Sequence[str]]


def write_workbook(path: str, *sheets: Written) -> None:
    """Writes a workbook with these sheets. Numbers of up to 15 digits are numbers, all else is text: a spreadsheet
    keeps no more."""
    numbers = range(1, len(sheets) + 1)
    targets = "".join(
        RELATION.format(number=number, kind="worksheet", target=f"worksheets/sheet{number}.xml") for number in numbers
    )
    book = RELATION.format(number=1, kind="officeDocument", target="xl/workbook.xml")
    names = (BOOK_SHEET.format(number=number, name=escape(sheet.name)) for number, sheet in zip(numbers, sheets))
    parts = {
        "[Content_Types].xml": CONTENT_TYPES.format(sheets="".join(SHEET_TYPE.format(number=each) for each in numbers)),
        "_rels/.rels": RELATIONS.format(relations=book),
        "xl/workbook.xml": BOOK.format(sheets="".join(names)),
        "xl/_rels/workbook.xml.rels": RELATIONS.format(relations=targets),
        **{
            f"xl/worksheets/sheet{number}.xml": "".join(sheet_text(path, sheet.rows))
            for number, sheet in zip(numbers, sheets)
        },
    }
    content = io.BytesIO()
    with zipfile.ZipFile(content, "w", zipfile.ZIP_DEFLATED) as archive:
        for part, text in parts.items():
            archive.writestr(zipfile.ZipInfo(part), text, zipfile.ZIP_DEFLATED)
    new_file(path, content.getvalue()).keep()


def sheet_text(path: str, rows: Iterable[Sequence[str]]) -> Iterator[str]:
    """The text of a sheet, in parts."""
    yield SHEET[0]
    for number, row in enumerate(rows):
        yield f'<row r="{number + 1}">'
        for column, cell in enumerate(row):
            yield cell_text(path, number, column, cell)
        yield "</row>"
    yield SHEET[1]


def cell_text(path: str, row: int, column: int, cell: str) -> str:
    """A cell; nothing, if nothing is in it."""
    if cell == "":
        return ""
    name = name_of_cell(row, column)
    if len(cell) > MOST_LETTERS:
        most = f"at most {MOST_LETTERS} in a cell: export it as csv"
        raise FileFault(path, 0, f"cell {name}", f"{len(cell)} letters", most)
    if DIGITS.fullmatch(cell):
        return f'<c r="{name}"><v>{cell}</v></c>'
    return f'<c r="{name}" t="inlineStr"><is><t xml:space="preserve">{escape(cell)}</t></is></c>'
