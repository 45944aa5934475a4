"""Tables and texts that are made to take all memory, to take hours, to be read otherwise than they are shown, or to
have something else read: each with how it is made and with what must be told of it."""
from __future__ import annotations

import gzip
import io
import zipfile
from collections.abc import Callable

from opened import written

SPACES = " ".join(
    f'xmlns:{name}="urn:oasis:names:tc:opendocument:xmlns:{name}:1.0"' for name in ("office", "table", "text")
)
MAIN = 'xmlns="http://schemas.openxmlformats.org/spreadsheetml/2006/main"'
SHEET, TEXTS, STYLES = "xl/worksheets/sheet1.xml", "xl/sharedStrings.xml", "xl/styles.xml"
BOOK, LINKS = "xl/workbook.xml", "xl/_rels/workbook.xml.rels"
GOOD = [["proposed", "proposer", "approver", "act", "from", "kind", "amount"],
        ["2025-09-23", "5101", "5102", "surrender", "100210", "general", "5"]]  # fmt: skip
LAUGHS = '<!DOCTYPE x [<!ENTITY a "ha">{}]>'.format(
    "".join(f'<!ENTITY {chr(98 + place)} "{f"&{chr(97 + place)};" * 20}">' for place in range(12))
)
OUTSIDE = '<!DOCTYPE x [<!ENTITY a SYSTEM "file:///etc/passwd">]>'
# Marks that nobody sees, or that turn letters round.
MARKS = "\0\u202e\u2066\u200b\ufeff\x1b[2J\r\n"


# Workbooks of OpenDocument.


def packed(parts: dict[str, str | bytes], how: int = zipfile.ZIP_DEFLATED) -> bytes:
    made = io.BytesIO()
    with zipfile.ZipFile(made, "w", how) as archive:
        for name, text in parts.items():
            kind = zipfile.ZIP_STORED if name == "mimetype" else how
            archive.writestr(zipfile.ZipInfo(name), text, kind)
    return made.getvalue()


def ods(rows: str, before: str = "", name: str = "in", **more: str | bytes) -> bytes:
    """A workbook with these rows in its first sheet."""
    text = (
        f"<?xml version='1.0'?>{before}<office:document-content {SPACES}><office:body><office:spreadsheet>"
        f'<table:table table:name="{name}">{rows}</table:table></office:spreadsheet></office:body>'
        "</office:document-content>"
    )
    kind = "application/vnd.oasis.opendocument.spreadsheet"
    return packed({"mimetype": kind, "content.xml": text, **more})


def row(*cells: str, times: object = 1) -> str:
    return f'<table:table-row table:number-rows-repeated="{times}">{"".join(cells)}</table:table-row>'


def cell(text: str, times: object = 1) -> str:
    return f'<table:table-cell table:number-columns-repeated="{times}"><text:p>{text}</text:p></table:table-cell>'


LONG = "x" * 60_000_000
SMALL = "<table:table-row><table:table-cell><text:p>x</text:p></table:table-cell></table:table-row>"
CELLS, LETTERS = "cells: found more than 2,097,152", "letters of a cell: found more than 32,767"
NONE = "this is no workbook that can be read"
OPEN_DOCUMENTS: dict[str, tuple[Callable[[], bytes], str]] = {
    "one cell for all of a sheet": (lambda: ods(row(cell("x", 16_384), times=1_048_576)), CELLS),
    "one cell for too many columns": (lambda: ods(row(cell("x", 999_999_999))), "columns: found more than 16,384"),
    "one row for too many": (lambda: ods(row(cell("x"), times=999_999_999)), "rows: found more than 1,048,576"),
    "a million rows, packed small": (lambda: ods(SMALL * 1_048_577), "rows: found more than 1,048,576"),
    "a long cell in all rows": (
        lambda: ods(row(cell("x" * 30_000), times=100_000)),
        "letters of all cells: found more",
    ),
    "a blank that stands a billion times": (lambda: ods(row(cell('<text:s text:c="999999999"/>'))), LETTERS),
    "blanks that stand 30,000 times each": (lambda: ods(row(cell('<text:s text:c="30000"/>' * 100_000))), LETTERS),
    "elements in elements": (lambda: ods(row(cell("<text:span>" * 500_000))), "elements in each other"),
    "a row in a cell in a row": (lambda: ods(("<table:table-row><table:table-cell>") * 300_000), "in each other"),
    "entities that laugh": (lambda: ods(row(cell("&m;")), LAUGHS), "found a DOCTYPE; expected none"),
    "an entity from the disk": (lambda: ods(row(cell("&a;")), OUTSIDE), "found a DOCTYPE; expected none"),
    "an entity that is not there": (lambda: ods(row(cell("&nothing;"))), NONE),
    "a count below nothing": (lambda: ods(row(cell("x", -5))), f"{NONE}: the number '-5'"),
    "a count of a million digits": (lambda: ods(row(cell("x", "9" * 1_000_000))), f"{NONE}: the number '999"),
    "a count that is no number": (lambda: ods(row(cell("x", "1e9"))), f"{NONE}: the number '1e9'"),
    "an attribute of 60 MB": (lambda: ods(f'<table:table-row table:style-name="{LONG}"/>'), "of one element"),
    "a remark of 60 MB": (lambda: ods(f"<!--{LONG}-->"), "bytes of one element of 'content.xml'"),
    "blanks of 200 MB": (lambda: ods(" " * 200_000_000), "bytes of its parts, unpacked: found more than 134,217,728"),
    "ten million elements": (lambda: ods("<text:x/>" * 10_000_000), "elements: found more than 8,388,608"),
    "20,000 parts": (
        lambda: ods("", **{f"part-{place}": "" for place in range(20_000)}),
        "parts: found more than 10,000",
    ),
    "a name with a NUL": (
        lambda: with_name_of(ods(row(cell("x")), **{"content.xml?x": "y"})),
        "twice; expected each part",
    ),
    "parts above all folders": (lambda: packed({"mimetype": ods("")[38:84], "../../content.xml": "x"}), NONE),
    "packed by lzma": (lambda: ods_packed(zipfile.ZIP_LZMA), "found packing 14; expected a part that is stored"),
    "packed by bzip2": (lambda: ods_packed(zipfile.ZIP_BZIP2), "found packing 12; expected a part that is stored"),
    "a length that is none": (lambda: with_length(ods(row(cell("x" * 9_000)))), NONE),
    "a name of a sheet with marks": (
        lambda: ods(row(cell("x")), name="a&#x202e;&#x200b;&#10;" + "y" * 500), "sheet a<U+202E><U+200B><line feed>yyy"
    ),
    "a cell with marks": (
        lambda: ods(row(cell("a\u202e\u2066\u200b&#13;"))),
        "found 'a<U+202E><U+2066><U+200B><carriage",
    ),
    "no sheet": (lambda: packed({"mimetype": ods("")[38:84], "content.xml": "<x/>"}), NONE),
    "no part at all": (lambda: b"PK\x05\x06" + bytes(18), "heading: found"),
    "the start of a zip alone": (lambda: b"PK\x03\x04", NONE),
}  # fmt: skip


def ods_packed(how: int) -> bytes:
    made = io.BytesIO()
    with zipfile.ZipFile(io.BytesIO(ods(row(cell("x"))))) as old, zipfile.ZipFile(made, "w") as new:
        for name in old.namelist():
            new.writestr(name, old.read(name), zipfile.ZIP_STORED if name == "mimetype" else how)
    return made.getvalue()


def with_name_of(content: bytes) -> bytes:
    """A zip with a NUL in the name of a part: most programs end the name there."""
    return content.replace(b"content.xml?x", b"content.xml\0x")


def with_length(content: bytes) -> bytes:
    """A zip that says of a part that it is shorter than it is."""
    at = content.find(b"content.xml") - 30
    made = bytearray(content)
    made[at + 22 : at + 26] = (5).to_bytes(4, "little")
    at = content.rfind(b"content.xml") - 46
    made[at + 24 : at + 28] = (5).to_bytes(4, "little")
    return bytes(made)


# Workbooks of Excel.


def xlsx(rows: str, **more: str) -> bytes:
    """A workbook with these rows in its first sheet, and with other parts in place of its own."""
    with zipfile.ZipFile(io.BytesIO(written("xlsx", [["x"]]))) as archive:
        parts: dict[str, str | bytes] = {name: archive.read(name) for name in archive.namelist()}
    names = {"texts": TEXTS, "styles": STYLES, "book": BOOK, "links": LINKS}
    sheet = f"<worksheet {MAIN}><sheetData>{rows}</sheetData></worksheet>"
    return packed({**parts, SHEET: sheet, **{names[name]: own for name, own in more.items()}})


def good_with(amount: str, **more: str) -> bytes:
    """A table whose last cell is this one."""
    head = "".join(f'<c t="inlineStr"><is><t>{name}</t></is></c>' for name in GOOD[0])
    own = "".join(f'<c t="inlineStr"><is><t>{word}</t></is></c>' for word in GOOD[1][:-1])
    return xlsx(f"<row>{head}</row><row>{own}{amount}</row>", **more)


def texts(*own: str) -> str:
    return f"<sst {MAIN}>{''.join(f'<si><t>{text}</t></si>' for text in own)}</sst>"


def styles(*formats: str) -> str:
    numbers = "".join(f'<numFmt numFmtId="{200 + place}" formatCode="{own}"/>' for place, own in enumerate(formats))
    xfs = "".join(f'<xf numFmtId="{200 + place}"/>' for place in range(len(formats)))
    return f"<styleSheet {MAIN}><numFmts>{numbers}</numFmts><cellXfs>{xfs}</cellXfs></styleSheet>"


def links_to(target: str) -> str:
    space = "http://schemas.openxmlformats.org/package/2006/relationships"
    return f'<Relationships xmlns="{space}"><Relationship Id="rId1" Target="{target}"/></Relationships>'


TEXT_CELL = '<c t="s"><v>0</v></c>'
WORKBOOKS: dict[str, tuple[Callable[[], bytes], str]] = {
    "the last cell of each row": (
        lambda: xlsx("".join(f'<row r="{row}"><c r="XFD{row}"><v>1</v></c></row>' for row in range(1, 200))), CELLS
    ),
    "the last row of a sheet, and one more": (
        lambda: xlsx('<row r="1048576"><c><v>1</v></c></row><row><c><v>1</v></c></row>'),
        "rows: found more than 1,048,576",
    ),
    "a row of nine digits": (lambda: xlsx('<row r="999999999"/>'), "rows: found more than 1,048,576"),
    "a row of a million digits": (lambda: xlsx(f'<row r="{"9" * 1_000_000}"/>'), f"{NONE}: the number '999"),
    "a row below nothing": (lambda: xlsx('<row r="-7"><c><v>1</v></c></row>'), f"{NONE}: the number '-7'"),
    "a column behind the last": (
        lambda: xlsx('<row><c r="XFE1"><v>1</v></c></row>'),
        "columns: found more than 16,384",
    ),
    "a column of a million letters": (lambda: xlsx(f'<row><c r="{"A" * 1_000_000}1"/></row>'), f"{NONE}: a cell AAA"),
    "two million cells": (lambda: xlsx(f"<row>{'<c/>' * 9_000}</row>" * 300), CELLS),
    "a million empty rows": (lambda: xlsx("<row/>" * 1_048_577), "rows: found more than 1,048,576"),
    "one text for all cells": (
        lambda: xlsx(f"<row>{TEXT_CELL * 5_000}</row>", texts=texts("x" * 32_000)),
        "letters of all cells: found more than",
    ),
    "texts that nobody asks for": (
        lambda: xlsx("", texts=texts(*[""] * 2_100_000)),
        "texts: found more than 2,097,152",
    ),
    "a text before the first": (
        lambda: xlsx('<row><c t="s"><v>-1</v></c></row>', texts=texts("x")),
        f"{NONE}: the number '-1",
    ),
    "a text behind the last": (lambda: xlsx('<row><c t="s"><v>7</v></c></row>', texts=texts("x")), NONE),
    "a style before the first": (
        lambda: good_with('<c s="-1"><v>5</v></c>', styles=styles("d")),
        f"{NONE}: the number '-1'",
    ),
    "100,000 styles": (lambda: xlsx("", styles=styles(*["0"] * 100_000)), "styles: found more than 65,536"),
    "a format that opens and never closes": (
        lambda: good_with('<c s="0"><v>-5</v></c>', styles=styles("[" * 900_000)), "cell G2: amount: found '-5'"
    ),
    "a day behind all days": (
        lambda: good_with('<c s="0"><v>1e308</v></c>', styles=styles("d")),
        "cell G2: amount: found '1e308'",
    ),
    "a day that is no number": (
        lambda: good_with('<c s="0"><v>nan</v></c>', styles=styles("d")),
        "cell G2: amount: found 'nan'",
    ),
    "an endless number": (lambda: good_with("<c><v>inf</v></c>"), "cell G2: amount: found 'inf'"),
    "a number of 30,000 digits": (lambda: good_with(f"<c><v>{'9' * 30_000}</v></c>"), "cell G2: amount: found '999"),
    "a number of 40,000 digits": (lambda: good_with(f"<c><v>{'9' * 40_000}</v></c>"), LETTERS),
    "a number with a tail": (lambda: good_with("<c><v>5e-324</v></c>"), "cell G2: amount: found '5e-324'"),
    "entities that laugh": (lambda: xlsx("", texts=f"{LAUGHS}{texts('&m;')}"), "found a DOCTYPE; expected none"),
    "an entity from the disk": (
        lambda: xlsx("", book=f"{OUTSIDE}<workbook {MAIN}/>"),
        "found a DOCTYPE; expected none",
    ),
    "elements in elements": (lambda: xlsx("", styles="<a>" * 1_000_000), "elements in each other in 'xl/styles.xml'"),
    "a sheet above all folders": (lambda: xlsx("", links=links_to("../../../etc/passwd")), NONE),
    "a sheet of the disk": (lambda: xlsx("", links=links_to("/etc/passwd")), NONE),
    "a sheet of another machine": (lambda: xlsx("", links=links_to("http://127.0.0.1:1/x")), NONE),
    "100,000 links": (
        lambda: xlsx("", links=links_to("x").replace("/></R", "/>" + "".join(
            f'<Relationship Id="r{place}"/>' for place in range(100_000)) + "</R")), "links: found more than 10,000"
    ),
    "a formula without a value": (lambda: good_with("<c><f>HYPERLINK(1)</f></c>"), "found '=HYPERLINK(1)'"),
}  # fmt: skip

# Texts.

HEAD = ",".join(GOOD[0]) + "\n"
CSV: dict[str, tuple[Callable[[], bytes], str]] = {
    "200 MB": (lambda: HEAD.encode() + b"x" * 200_000_000, "bytes: found more than 134,217,728"),
    "commas alone": (lambda: HEAD.encode() + b"," * 130_000_000, CELLS),
    "fewer commas": (lambda: HEAD.encode() + b"," * 16_000_000, "columns: found more than 16,384"),
    "commas in many lines": (lambda: HEAD.encode() + (b"," * 16_000 + b"\n") * 8_000, CELLS),
    "lines alone": (lambda: HEAD.encode() + b"\n" * 100_000_000, "rows: found more than 1,048,576"),
    "a cell of 100 MB": (lambda: HEAD.encode() + b'"' + b"x" * 100_000_000, "this is no table"),
    "a heading of 100 MB": (lambda: b"proposed," + b"x" * 100_000_000, "heading: found 'xxx"),
    "cells that are all wrong": (
        lambda: HEAD.encode() + b"x,x,x,x,x,x,x\n" * 200_000,
        "cells that are wrong: 100000 or",
    ),
    "marks in cells": (
        lambda: f"{HEAD}{MARKS[:6]},1,2,surrender,3,general,4\n".encode(),
        "<U+202E><U+2066><U+200B><byte",
    ),
    "marks in headings": (
        lambda: f"proposed,{MARKS[1:5]}\n1,2\n".encode(),
        "found '<U+202E><U+2066><U+200B><byte order",
    ),
    "a sign of a terminal": (lambda: f"{HEAD}\x1b[2J,1,2,surrender,3,general,4\n".encode(), "found '<U+001B>[2J'"),
    "half a letter": (lambda: HEAD.encode() + b"\xe2\x80", "the byte E2"),
    "half a letter of two bytes": (lambda: HEAD.encode("utf-16") + b"\x00", "nothing in UTF"),
    "a formula": (lambda: f"{HEAD}=cmd|'/c calc'!A0,1,2,surrender,3,general,4\n".encode(), "found '=cmd|"),
}  # fmt: skip
HANDED: dict[str, tuple[str, Callable[[], bytes], str]] = {
    "a text of 200 MB": ("a.csv", lambda: b"do," + b"x" * 200_000_000, "bytes: found more than 134,217,728"),
    "lines alone": ("a.csv", lambda: b"do,1\n" + b"\n" * 9_000_000, "lines: found more than 8,388,608"),
    "other lines alone": ("a.csv", lambda: b"do,1\r" + b"\r" * 9_000_000, "lines: found more than 8,388,608"),
    "packed lines": ("a.csv.gz", lambda: gzip.compress(b"do,1\n" + b"\n" * 9_000_000), "lines: found more than 8,388"),
    "200 MB, packed": ("a.csv.gz", lambda: gzip.compress(b"do," + bytes(200_000_000)), "bytes, unpacked: found more"),
    "marks": ("a.csv", lambda: f"do,{MARKS[1:5]}\n".encode(), "in 'do,<U+202E><U+2066><U+200B><byte order mark>'"),
    "packed twice, cut": ("a.csv.gz", lambda: gzip.compress(b"do,1\n")[:-4], "it cannot be unpacked"),
}  # fmt: skip
