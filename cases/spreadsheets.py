"""Trials of spreadsheets: the instructions and the accounts of drawn days as csv and as .xlsx, read again; tables as
others write them; and cells that are wrong."""
import csv
import io
import json
import random
import re
import subprocess
import zipfile
from collections.abc import Iterator
from pathlib import Path

from harness import TOP, Said, differs

from registry_tools.second import rules
from registry_tools.sheets import columns as tables
from registry_tools.sheets.sheets import read_content
from registry_tools.sheets.writing import Written, write_workbook
from registry_tools.showing import as_csv

from drawing import drawn_rows
from offices import must_do
from opened import open_document

DRAWN_DAYS = 12


def drawn_pair(work: Path, seed: int) -> tuple[Path, Path]:
    """A drawn day and its report by the second answer."""
    day, report = work / f"{seed}.csv", work / f"{seed}.report"
    day.write_text("\n".join([*drawn_rows(seed), ""]))
    report.write_text(rules.answers(day.read_bytes())["settle"])
    return day, report


def round_trips(work: Path) -> Iterator[tuple[str, object]]:
    for seed in range(DRAWN_DAYS):
        day, report = drawn_pair(work, seed)
        for what, path, tags in (("instructions", day, ("do",)), ("accounts", report, ("account", *tables.LISTS))):
            expected = [row for row in path.read_text().splitlines() if row.split(",")[0] in tags]
            for ending in ("csv", "xlsx"):
                table = work / f"table.{ending}"
                said = Said("export", day, report, f"--{what}", *(["--xlsx", table] if ending == "xlsx" else []))
                if ending == "csv":
                    table.write_text(said.output)
                again = Said("import", table, f"--{what}")
                yield (
                    f"day {seed}, {what} as {ending}",
                    None if again.output.splitlines() == expected and not again.status else again,
                )


def shuffled_trips(work: Path) -> Iterator[tuple[str, object]]:
    """As offices elsewhere keep a table: columns in another order, empty rows, semicolons, UTF-16, dates of another
    form."""
    chance = random.Random(1)
    for seed in range(DRAWN_DAYS):
        day, report = drawn_pair(work, seed)
        for what, path, tags in (("instructions", day, ("do",)), ("accounts", report, ("account", *tables.LISTS))):
            expected = [row for row in path.read_text().splitlines() if row.split(",")[0] in tags]
            columns, *rows = csv.reader(io.StringIO(Said("export", day, report, f"--{what}").output))
            places = chance.sample(range(len(columns)), len(columns))
            dates, encoding, separator = chance.choice(OTHER_FORMS)
            written = [[as_others(row[place], dates) for place in places] for row in rows]
            # (accounts may stand in any order, and are sorted)
            written = chance.sample(written, len(written)) if what == "accounts" else written
            stream = io.StringIO()
            writer = csv.writer(stream, delimiter=separator)
            writer.writerows([[columns[place] for place in places], [], *written, [""] * len(places)])
            table = work / "shuffled.csv"
            table.write_bytes(stream.getvalue().encode(encoding))
            said = Said("import", table, f"--{what}", "--dates", dates)
            yield (
                f"day {seed}, {what}, {encoding}, {dates}",
                None if said.output.splitlines() == expected and not said.status else said,
            )


OTHER_FORMS = (
    ("31.12.2026", "utf-16", ";"), ("12/31/2026", "utf-16", "\t"), ("31/12/2026", "utf-8-sig", ","),
    ("2026.12.31", "utf-8", ";"),
)  # fmt: skip
ISO = re.compile(r"\b([0-9]{4})-([0-9]{2})-([0-9]{2})\b")


def as_others(cell: str, dates: str) -> str:
    """A cell whose dates are written as this form shows."""
    return ISO.sub(lambda each: dates.replace("2026", each[1]).replace("12", each[2]).replace("31", each[3]), cell)


def as_others_write_it(work: Path) -> Iterator[tuple[str, object]]:
    """A table with semicolons, in UTF-16, with its columns the other way round, with dates of another form, and as
    spreadsheets keep it."""
    rows = [
        ["2025-09-23", "901", "902", "assess", "100210", "2024"],
        ["2025-09-24", "5101", "5102", "surrender", "100210", "general", "5"],
    ]
    expected = "do,2025-09-23,901,902,assess,100210,2024\ndo,2025-09-24,5101,5102,surrender,100210,general,5\n"
    columns = ["amount", "kind", "from", "year", "account", "act", "approver", "proposer", "proposed"]
    table = [
        ["", "", "", "2024", "100210", "assess", "902", "901", "23.9.2025"],
        ["5", "general", "100210", "", "", "surrender", "5102", "5101", "24.09.2025"],
    ]
    assert len(rows) == len(table)
    text = "\r\n".join(";".join(row) for row in [columns, *table]) + "\r\n"
    path = work / "other.csv"
    for encoding in ("utf-8-sig", "utf-16", "utf-8"):
        path.write_bytes(text.encode(encoding))
        said = Said("import", path, "--dates", "31.12.2026")
        yield f"semicolons, {encoding}", None if said.output == expected and not said.status else said
    path = work / "kept.xlsx"
    write_kept(path)
    said = Said("import", path)
    yield "a workbook with dates, shared texts and a formula", None if said.output == expected.splitlines()[
        1
    ] + "\n" else said

    yield from kept_otherwise(path, expected.splitlines()[1])


# A table whose cells and rows are equal to those beside them: a spreadsheet keeps each once, and how often.
EQUAL = [
    ["proposed", "proposer", "approver", "act", "from", "kind", "to", "amount", "to2", "amount2"],
    *[["2025-09-23", "901", "901", "distribute", "900001", "general", "7", "7", "8", "8"]] * 3,
]


def kept_otherwise(path: Path, expected: str) -> Iterator[tuple[str, object]]:
    """Dates of each format and of each first day, equal cells and rows, a sign, and half of a share."""
    for number in (14, 15, 16, 17, 22):
        write_kept(path)
        replace_in(path, "xl/styles.xml", 'numFmtId="14"', f'numFmtId="{number}"')
        yield f"a date of the format {number}", differs(Said("import", path).output, f"{expected}\n")
    for word in ("1", "true"):
        write_kept(path)
        replace_in(path, "xl/workbook.xml", "<sheets>", f'<workbookPr date1904="{word}"/><sheets>')
        later = expected.replace("2025-09-24", "2029-09-25")
        yield f"days from 1904: {word}", differs(Said("import", path).output, f"{later}\n")
    table = path.with_suffix(".ods")
    table.write_bytes(open_document(EQUAL))
    row = "do,2025-09-23,901,901,distribute,900001,general,7,7,8,8\n"
    yield "equal cells and rows", differs(Said("import", table).output, row * 3)
    for place, told in ((8, "cell I2: to2: found nothing"), (9, "cell J2: amount2: found nothing")):
        cells = [EQUAL[0], [cell if at != place else "" for at, cell in enumerate(EQUAL[1])]]
        path = path.with_name("half.csv")
        path.write_text(as_csv(cells[0], iter(cells[1:])))
        said = Said("import", path)
        yield f"half of a share: {told}", None if said.status == 3 and told in said.errors else said
    mapping = path.with_suffix(".ini")
    mapping.write_text("[form]\namounts = 1.234.567\n")
    path.write_text(as_csv(ACCOUNT[:9], iter([["1", "operator", "11", "open", "no", "no", "-1.250", "2.000", "0"]])))
    said = Said("import", path, "--accounts", "--mapping", mapping)
    yield "a sign before an amount", differs(said.output, "account,1,operator,11,open,no,no,-1250,2000,0\n")


def replace_in(path: Path, name: str, old: str, new: str) -> None:
    """Puts something else into a part of a workbook."""
    with zipfile.ZipFile(path) as archive:
        parts = {part: archive.read(part).decode() for part in archive.namelist()}
    assert old in parts[name], parts[name]
    with zipfile.ZipFile(path, "w") as archive:
        for part, text in parts.items():
            archive.writestr(part, text.replace(old, new) if part == name else text)


# Cells that a spreadsheet would take for formulas, and cells that are what they are.
FORMULAS = ("=1+1", "+x", "-x", "@SUM(A1)", "'=1", "''-x", "\t=1", "-1.250", "--5")
PLAIN = ("-5", "5", "a=b", "'a", "''", "2025-09-22", "", " =1")
NAME = '=HYPERLINK("http://x/","Glas")'


def cells_as_text(work: Path) -> Iterator[tuple[str, object]]:
    """What a spreadsheet would take for a formula is text in a csv, and what it was when the csv is read again."""
    for cell in (*FORMULAS, *PLAIN):
        text = as_csv(["a", "b"], [[cell, "x"]])
        quoted = next(row for row in csv.reader(io.StringIO(text, newline="")) if row[1] == "x")[0]
        yield f"as text: {cell!r}", differs(quoted, f"'{cell}" if cell in FORMULAS else cell)
        yield f"as it was: {cell!r}", differs(read_content("t", text.encode()).rows[1][0], cell)
    own = ["--office", str(work / "named")]
    must_do(["init", own[1], str(TOP / "examples" / "week" / "monday.csv")])
    must_do(["label", "holder", "5501", NAME, "--why", "a letter", *own])
    (named,) = csv.DictReader(io.StringIO(Said("label", "--csv", *own).output))
    yield "a name in a csv", differs(named["name"], f"'{NAME}")
    yield "a name in JSON", differs(json.loads(Said("label", "--json", *own).output)[0]["name"], NAME)
    table = work / "names.csv"
    table.write_text(as_csv(["kind", "number", "name"], [["holder", "5501", NAME], ["holder", "5502", "+Glas"]]))
    said = Said("label", "--file", table, "--why", "a list", *own)
    yield "a table of names is read as it was written", None if "5501" not in said.output and "+Glas" in said.output \
        else said


def hidden_rows(work: Path) -> Iterator[tuple[str, object]]:
    """Rows that a spreadsheet hides are told where they are handed in."""
    path, own = work / "hidden.xlsx", ["--office", str(work / "hidden")]
    first, closed = str(TOP / "examples" / "week" / "monday.csv"), ["--date", "2025-09-22", "--second", "--yes"]
    must_do(["init", own[1], first], ["close", *closed, *own])
    for word in ("1", "true"):
        write_kept(path)
        replace_in(path, SHEET_PART, '<row r="2">', f'<row r="2" hidden="{word}">')
        yield f"a hidden row of a workbook, {word}", told_hidden(Said("import", path), path, "1 of its rows", "row 2")
    said = Said("hand-in", path, *own)
    yield "is told where it is handed in", None if "hidden.xlsx: the spreadsheet hides 1" in said.output else said
    write_kept(path)
    yield "none is hidden", None if "hides" not in Said("import", path).errors else "told"
    table = path.with_suffix(".ods")
    row, group = "<table:table-row", "<table:table-row-group"
    text = '<table:table-row table:visibility="filter"'
    for what, old, new in (
        ("filtered", f"{row} table:number-rows-repeated", f"{text} table:number-rows-repeated"),
        ("in a closed group", f'{row} table:number-rows-repeated="3"',
         f'{group} table:display="false">{row} table:number-rows-repeated="3"'),
    ):  # fmt: skip
        table.write_bytes(open_document(EQUAL))
        replace_in(table, "content.xml", old, new)
        if what != "filtered":
            replace_in(table, "content.xml", f'{row} table:number-rows-repeated="1048000"',
                       f'{group[:1]}/{group[1:]}>{row} table:number-rows-repeated="1048000"')  # fmt: skip
        yield f"rows that are {what}", told_hidden(Said("import", table), table, "3 of its rows", "row 2, 3, 4")


def told_hidden(said: Said, path: Path, *words: str) -> object:
    """Whether it is told that a table hides rows; else what was said."""
    line = next((line for line in said.errors.splitlines() if "hides" in line), "")
    return None if not said.status and line.startswith(f"{path}: ") and all(own in line for own in words) else said


def damaged_workbooks(work: Path) -> Iterator[tuple[str, object]]:
    """Workbooks that are damaged, locked, or packed or spelled in a way that nobody knows: each is told."""
    path = work / "damaged.xlsx"
    write_kept(path)
    with zipfile.ZipFile(path) as archive:
        parts = {name: archive.read(name) for name in archive.namelist()}
    content = path.read_bytes()
    for what, place, byte, wanted in (
        ("locked", 6, 1, NONE), ("packed in an unknown way", 8, 97, "found packing 97; expected a part that is stored"),
        ("no packed bytes", 8, 8, NONE),
    ):  # fmt: skip
        path.write_bytes(with_byte_of_headers(content, place, byte))
        yield f"a workbook: {what}", told_of_workbook(path, wanted)
    for name, old, new, wanted in OTHER_PARTS:
        with zipfile.ZipFile(path, "w") as archive:
            for part, text in parts.items():
                archive.writestr(part, text.replace(old, new) if part == name else text)
        yield f"a workbook with {new.decode()}", told_of_workbook(path, wanted)


NONE = "this is no workbook that can be read: "


def told_of_workbook(path: Path, wanted: str) -> object:
    """What is wrong with how a workbook that cannot be read is told, if something is."""
    said = Said("import", path)
    is_so = said.status == 3 and said.errors.startswith(f"{path}: ") and wanted in said.errors
    return None if is_so else said


def with_byte_of_headers(content: bytes, place: int, byte: int) -> bytes:
    """An archive with another byte in the header of each part, and in its copy at the end."""
    made = bytearray(content)
    for start, shift in ((b"PK\x03\x04", 0), (b"PK\x01\x02", 2)):
        for found in re.finditer(start, content):
            made[found.start() + place + shift] = byte
    return bytes(made)


SHEET_PART = "xl/worksheets/sheet1.xml"
# A part of a workbook, what stands in it, what stands in its place that no spreadsheet writes, and what is told then.
OTHER_PARTS = (
    ("xl/workbook.xml", b'encoding="UTF-8"', b'encoding="none-such"', NONE),
    (SHEET_PART, b'<row r="2">', b'<row r="1048577">', "rows: found more than 1,048,576; expected at most 1,048,576"),
    (SHEET_PART, b'<c r="B2">', b'<c r="XFE2">', "columns: found more than 16,384; expected at most 16,384"),
)


def write_kept(path: Path, approver: str = '<c r="C2"><v>5102</v></c>', start: str = "") -> None:
    """A workbook as a spreadsheet keeps it: a date as a number with a style, shared texts, and a formula with its
    value."""
    write_workbook(str(path), Written("in", [[]]))
    main_space = 'xmlns="http://schemas.openxmlformats.org/spreadsheetml/2006/main"'
    names = ["proposed", "proposer", "approver", "act", "from", "kind", "amount", "surrender", "general"]
    texts = "".join(f"<si><t>{name}</t></si>" for name in names)
    head = "".join(f'<c r="{chr(65 + place)}1" t="s"><v>{place}</v></c>' for place in range(7))
    cells = f'<c r="A2" s="1"><v>45924</v></c><c r="B2"><v>5101</v></c>{approver}<c r="D2" t="s"><v>7</v></c>'
    cells += '<c r="E2"><v>100210</v></c><c r="F2" t="s"><v>8</v></c><c r="G2"><f>2+3</f><v>5</v></c>'
    with zipfile.ZipFile(path) as archive:
        parts = {name: archive.read(name).decode() for name in archive.namelist()}
    parts["xl/sharedStrings.xml"] = f"{start}<sst {main_space}>{texts}</sst>"
    parts[
        "xl/styles.xml"
    ] = f'<styleSheet {main_space}><cellXfs><xf numFmtId="0"/><xf numFmtId="14"/></cellXfs></styleSheet>'
    parts[
        SHEET_PART
    ] = f'<worksheet {main_space}><sheetData><row r="1">{head}</row><row r="2">{cells}</row></sheetData></worksheet>'
    with zipfile.ZipFile(path, "w") as archive:
        for name, text in parts.items():
            archive.writestr(name, text)


GOOD = {
    "proposed": "2025-09-23",
    "proposer": "901",
    "approver": "902",
    "act": "emissions",
    "account": "100210",
    "year": "2024",
    "tonnes": "5",
}
# Cells that are wrong, by what is told of them.
WRONG_CELLS = {
    "cell G2: tonnes: found '1,000'": {"tonnes": "1,000"},
    "cell A2: proposed: found '23.9.2025'": {"proposed": "23.9.2025"},
    "cell D2: act: found 'emission'": {"act": "emission"}, "cell B2: proposer: found 'x'": {"proposer": "x"},
    "cell F2: year: found '2019'": {"year": "2019"},
    "cell H2: kind: found 'general'; expected nothing": {"kind": "general"},
    "cell E2: account: found nothing": {"account": ""}, "found 'colour'; expected one of": {"colour": "red"},
}  # fmt: skip


def wrong_cells(work: Path) -> Iterator[tuple[str, object]]:
    path = work / "wrong.csv"
    for told, changed in WRONG_CELLS.items():
        row = {**GOOD, **changed}
        path.write_text(as_csv([*row], iter([[*row.values()]])))
        said = Said("import", path)
        yield f"told: {told}", None if said.status == 3 and told in said.errors and not said.output else said
    path.write_text(as_csv([*GOOD], iter([["31.2.2026", *[*GOOD.values()][1:]]])))
    said, wanted_form = Said("import", path, "--dates", "31.12.2026"), "expected a date as 31.12.2026 that exists"
    yield "a date that does not exist", None if said.status == 3 and wanted_form in said.errors else said
    for what, kind, columns, rows, places in ALL_AT_ONCE:
        path.write_text(as_csv(columns, iter(rows)))
        said = Said("import", path, kind)
        cells = re.findall(r"cell ([A-Z]+[0-9]+): ", said.errors)
        yield f"all at once: {what}", None if cells == places and said.status == 3 and not said.output else said
    lacking = {name: word for name, word in GOOD.items() if name not in ("account", "tonnes")}
    path.write_text(as_csv([*lacking], iter([[*lacking.values()]])))
    wanted = [f"wrong.csv, row 2: {name}: found no such column; expected a number" for name in ("account", "tonnes")]
    said = Said("import", path)
    is_so = all(line in said.errors for line in wanted) and not said.output
    yield "columns that are not there", None if is_so else said
    path.write_text(as_csv([*GOOD], iter([[*{**GOOD, "year": "x"}.values()]] * 102)))
    said = Said("import", path)
    many = said.errors.splitlines()
    is_so = len(many) == 102 and many[-2:] == ["and 2 more", "cells that are wrong: 102; nothing was written"]
    yield "many wrong cells", None if is_so else said
    good = work / "good.csv"
    good.write_text(as_csv([*GOOD], iter([[*GOOD.values()]])))
    order = subprocess.run(
        [TOP / "day", "import", good], stdout=subprocess.PIPE, stderr=subprocess.STDOUT, text=True, check=False
    ).stdout
    piped = subprocess.run([TOP / "day", "import", "-"], input=good.read_bytes(), capture_output=True, check=False)
    yield "from standard input", None if piped.stdout.decode() == order.splitlines(True)[-1] else piped
    yield "the preview comes first", None if re.fullmatch("emissions .*\ninstructions 1\ndo,.*\n", order) else order
    for cell, told in CELLS_OF_WORKBOOKS.items():
        write_kept(work / "cells.xlsx", cell)
        said = Said("import", work / "cells.xlsx")
        yield f"a cell {cell}", None if said.status == 3 and told in said.errors and not said.output else said
    yield from damaged_workbooks(work)
    write_kept(work / "cells.xlsx", start='<?xml version="1.0" encoding="none"?>')
    said = Said("import", work / "cells.xlsx")
    yield "letters that nobody knows", None if said.status == 3 and "this is no workbook" in said.errors else said
    yield "an account of many rows", many_rows(work)
    day, report = drawn_pair(work, 3)
    before = day.read_bytes()
    said = Said("export", day, report, "--log", "--xlsx", day)
    yield "never over a file that is read", None if said.status == 2 and day.read_bytes() == before else said


def many_rows(work: Path) -> str | None:
    """Whether an account with the most surrenders is read from the table that was written of it."""
    day, report, table = work / "many.csv", work / "many-report.csv", work / "many-accounts.csv"
    own = "".join(f"retired,{number},surrender,general,1,2024-09-25,no\n" for number in range(1, 4097))
    text = (TOP / "examples" / "first-transfer.csv").read_text().replace("day,2025-03-31,1", "day,2025-03-31,5000")
    day.write_text(text.replace("account,2,", f"{own}account,2,"))
    report.write_text(rules.answers(day.read_bytes())["settle"])
    written = Said("export", day, report, "--accounts", "--to", table)
    read = Said("import", "--accounts", table)
    return None if not written.status and not read.status and own in read.output else f"{written}{read}"


ACCOUNT = [
    "no",
    "kind",
    "holder",
    "status",
    "outside",
    "waiver",
    "correction",
    "general",
    "aviation",
    "users",
    "trusted",
]
ALL_AT_ONCE = (
    (
        "four cells of two rows", "--instructions", [*GOOD],
        [[*{**GOOD, "tonnes": "x", "year": "y"}.values()]] * 2, ["F2", "G2", "F3", "G3"],
    ),
    (
        "an act that is none, and a date", "--instructions", [*GOOD],
        [[*{**GOOD, "act": "x", "proposed": "y"}.values()]], ["A2", "D2"],
    ),
    (
        "headings", "--instructions", ["colour", "act", "act", "size"],
        [["1", "2", "3", "4", "5"]], ["A1", "C1", "D1", "E2"],
    ),
    (
        "cells of an account", "--accounts", ACCOUNT,
        [
            ["1", "x", "11", "open", "maybe", "no", "0", "1.000", "0", "5:all 6:both 7:none", "2:1.2.2027"],
            ["2", "trading", *"123456789"],
        ],
        ["B2", "E2", "H2", "J2", "J2", "K2", "D3", "E3", "F3", "J3", "K3"],
    ),
    (
        "rows that do not rise", "--accounts", ACCOUNT,
        [["1", "trading", "11", "open", "no", "no", "0", "0", "0", "6:both 5:both 5:both", ""]], ["J2", "J2"],
    ),
)  # fmt: skip
# What stands in a cell of a workbook where an approver or an amount is expected, and what is told of it.
CELLS_OF_WORKBOOKS = {
    '<c r="C2"><f>B2+1</f></c>': "cell C2: approver: found '=B2+1'",
    '<c r="C2" t="b"><v>1</v></c>': "cell C2: approver: found 'TRUE'",
    '<c r="C2" t="e"><v>#REF!</v></c>': "cell C2: approver: found '#REF!'",
    '<c r="C2"><v>5102.5</v></c>': "cell C2: approver: found '5102.5'",
    '<c r="C2" s="1"><v>45924</v></c>': "cell C2: approver: found '2025-09-24'",
    '<c r="C2" s="1"><v>45924.5</v></c>': "found '2025-09-24 12:00:00'",
}
