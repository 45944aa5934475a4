"""Reads tables as spreadsheets keep them: csv with commas, semicolons or tabs, in UTF-8 or UTF-16, .xlsx, and .ods
(sheets/open_document.py).

Of a workbook the first sheet is read, formulas by their stored values. A cell is a text; of a cell with a date format,
the date as 2026-12-14; of any other number, its plain digits, if it is whole.
"""
import codecs
import csv
import io
import sys
import zipfile
import zlib
from xml.parsers import expat

from registry_tools.errors import FileFault, of_file, shown
from registry_tools.sheets import limits, open_document, workbook
from registry_tools.sheets.limits import Grid
from registry_tools.sheets.sheet import Sheet
from registry_tools.showing import as_it_was
from registry_tools.texts.rows import packed_bytes_of

# How a file begins that is packed, and how the workbooks do that are not read.
PACKED, OLD = b"PK\x03\x04", b"\xd0\xcf\x11\xe0"
OLD_WORKBOOK = "a workbook of an older kind (.xls), or one with a password"
# (the kind of an OpenDocument file is its first part)
OPEN_DOCUMENT, MOST_MIMETYPE = b"mimetypeapplication/vnd.oasis.opendocument.", 200
SPREADSHEET = b"spreadsheet"
SAVE_AS = "a table that is saved as .xlsx, as .ods, or as CSV in UTF-8"
SEPARATORS = ",;\t"
# What reading a workbook raises that is damaged, locked, or packed or spelled in a way that nobody knows.
DAMAGED = (
    zipfile.BadZipFile, zlib.error, EOFError, RuntimeError, expat.ExpatError, LookupError, ValueError, OverflowError,
)  # fmt: skip
# In so many letters the first line of a csv tells what stands between its cells.
FIRST_LETTERS = 1 << 16


def is_workbook(content: bytes) -> bool:
    """Whether a file is a workbook, also one that is not read."""
    return content.startswith((PACKED, OLD))


def ending_of(content: bytes) -> str:
    """How the name of a workbook ends."""
    if content.startswith(OLD):
        return ".xls"
    return ".ods" if OPEN_DOCUMENT in content[:MOST_MIMETYPE] else ".xlsx"


def read(path: str) -> Sheet:
    """The table of a file. Raises FileFault if it has none."""
    return read_content(path, packed_bytes_of(path))


def read_content(path: str, content: bytes) -> Sheet:
    """The table of a file with this content. Raises FileFault, also at the first limit of tables."""
    limits.must_have_room(path, content)
    if content.startswith(OLD):
        raise FileFault(path, 0, "", OLD_WORKBOOK, SAVE_AS)
    return read_workbook(path, content) if content.startswith(PACKED) else read_csv(path, content)


def read_csv(path: str, content: bytes) -> Sheet:
    """The sheet of a text with commas, semicolons or tabs. Raises FileFault."""
    encoding = "utf-16" if content.startswith((codecs.BOM_UTF16_LE, codecs.BOM_UTF16_BE)) else "utf-8-sig"
    # (a cell may have all 4,096 surrenders of an account)
    csv.field_size_limit(sys.maxsize)
    grid = Grid(path)
    try:
        text = io.TextIOWrapper(io.BytesIO(content), encoding, newline="")
        separator = max(SEPARATORS, key=text.read(FIRST_LETTERS).partition("\n")[0].count)
        text.seek(0)
        if content.count(separator.encode()) > limits.MOST_SEPARATORS:
            # (all cells of a row are made before it can be looked at)
            raise limits.too_much(path, "cells", limits.MOST_CELLS)
        for cells in csv.reader(text, delimiter=separator, strict=True):
            grid.add([*map(as_it_was, cells)])
    except UnicodeDecodeError as error:
        raise not_decoded(path, content, encoding) or error from None
    except csv.Error as error:
        raise of_file(path, f"this is no table: {error}") from None
    return Sheet(path, "", grid.rows)


def not_decoded(path: str, content: bytes, encoding: str) -> FileFault | None:
    """The first byte of a file that stands for nothing in its encoding."""
    try:
        content.decode(encoding)
    except UnicodeDecodeError as error:
        line, byte = content.count(b"\n", 0, error.start) + 1, content[error.start]
        as_windows = bytes([byte]).decode("cp1252", "replace")
        found = f"the byte {byte:02X}, which is {shown(as_windows)} in Windows-1252 and nothing in UTF-8"
        return FileFault(path, line, "", found, f"{SAVE_AS}, or in UTF-16 with a byte order mark")
    return None


def read_workbook(path: str, content: bytes) -> Sheet:
    """The first sheet of a workbook. Raises FileFault."""
    kind = content[:MOST_MIMETYPE].partition(OPEN_DOCUMENT)[2]
    if kind and not kind.startswith(SPREADSHEET):
        raise FileFault(path, 0, "", "an OpenDocument file that is no table", SAVE_AS)
    read = open_document.open_document_sheet if kind else workbook.workbook_sheet
    try:
        return read(path, content)
    except DAMAGED as error:
        raise of_file(path, f"this is no workbook that can be read: {error}") from None
