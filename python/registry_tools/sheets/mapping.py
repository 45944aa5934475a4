"""What somebody else's table says by other headings and words: a mapping file, as settings are written.

  [columns]         a heading of the table, and the column that it is; one with nothing behind = is passed over
  Betrag = amount
  Bemerkung =
  [act]             of a column, a word of the table, and the word that it is
  Übertragung = transfer
  [always]          what each row has in a column that the table does not have
  proposer = 5101
  [form]            how the last day of 2026, and the number 1234567, are written
  dates = 31.12.2026
  amounts = 1.234.567

Headings and words are found whatever their capitals and the blanks around them are. Only `amounts` says that a
separator is one: a number of a cell that a workbook stores as a number never has any, and so keeps its point.
"""
import configparser
import re
from collections.abc import Callable, Iterable
from dataclasses import dataclass, field

from registry_tools.errors import FileFault, must_be_known, of_file, shown
from registry_tools.sheets.sheet import Stored
from registry_tools.texts.namebook import as_looked_up
from registry_tools.texts.rows import packed_bytes_of

COLUMNS, ALWAYS, FORM = "columns", "always", "form"
DATES, AMOUNTS = "dates", "amounts"
# How 1234567 is written: behind it there may be a decimal sign with zeros.
EXAMPLE = re.compile(r"1(?P<between>\D?)234(?P=between)567(?:(?P<point>\D)0+)?")
AN_EXAMPLE = "1234567 as it is written there: 1.234.567, 1,234,567.00, 1 234 567"
# The blanks by which a spreadsheet parts thousands look the same.
BLANKS = "  \N{NO-BREAK SPACE}\N{NARROW NO-BREAK SPACE}\N{THIN SPACE}"


@dataclass(frozen=True)
class Mapping:
    """What a mapping file says. One without a file says nothing."""

    path: str = ""
    columns: dict[str, str] = field(default_factory=dict)
    words: dict[str, dict[str, str]] = field(default_factory=dict)
    always: dict[str, str] = field(default_factory=dict)
    dates: str | None = None
    amounts: str | None = None

    def column(self, heading: str) -> str | None:
        """The column that a heading names; nothing, if it is passed over; None, if the mapping does not know it."""
        return self.columns.get(as_looked_up(heading))

    def word(self, column: str, cell: str) -> str:
        """What a cell of a column says."""
        return self.words[column].get(as_looked_up(cell), cell) if column in self.words else cell


def read(path: str, column_names: Iterable[str]) -> Mapping:
    """The mapping of a file. Raises FileFault at the first thing in it that is none."""
    parser = configparser.ConfigParser(
        interpolation=None, delimiters=("=",), comment_prefixes=("#",), default_section="", empty_lines_in_values=False
    )
    parser.optionxform = as_looked_up  # type: ignore[assignment]
    try:
        parser.read_string(packed_bytes_of(path).decode("utf-8-sig"), path)
    except UnicodeDecodeError:
        raise FileFault(path, 0, "", "a byte that is nothing in UTF-8", "a mapping that is saved in UTF-8") from None
    except configparser.Error as error:
        raise of_file(path, f"this is no mapping: {error}".replace("\n", " ")) from None
    columns = [*column_names]
    sections = {name: dict(parser[name]) for name in parser.sections()}
    for name, section in sections.items():
        look_at(path, name, section, columns)
    form = sections.pop(FORM, {})
    always, headings = sections.pop(ALWAYS, {}), sections.pop(COLUMNS, {})
    return Mapping(path, headings, sections, always, form.get(DATES), form.get(AMOUNTS))


def look_at(path: str, name: str, section: dict[str, str], columns: list[str]) -> None:
    """Ends the command if a section says something that no table has."""
    if name == FORM:
        must_be_known(path, f"[{name}]", section, (DATES, AMOUNTS), f"{DATES} or {AMOUNTS}")
        if AMOUNTS in section:
            amount_reader(section[AMOUNTS], path)
        return
    if name not in (COLUMNS, ALWAYS, *columns):
        expected = f"[{COLUMNS}], [{ALWAYS}], [{FORM}], or the name of a column: {', '.join(columns)}"
        raise FileFault(path, 0, "section", shown(name), expected)
    named = [*section.values()] if name == COLUMNS else section if name == ALWAYS else ()
    allowed = [*columns, *([""] if name == COLUMNS else [])]
    passed = ", or nothing behind =, which passes the column over" if name == COLUMNS else ""
    must_be_known(path, f"[{name}]", named, allowed, f"one of {', '.join(columns)}{passed}")


def amount_reader(example: str | None, path: str) -> Callable[[str], str]:
    """Takes the separators out of an amount, as an example shows them. What is written otherwise stays as it is, and is
    told later."""
    if example is None:
        return lambda word: word
    found = EXAMPLE.fullmatch(example)
    if found is None:
        raise FileFault(path, 0, f"[{FORM}] {AMOUNTS}", shown(example), AN_EXAMPLE)
    between, point = found["between"], found["point"]
    thousands = f"[{BLANKS}]" if between and between in BLANKS else re.escape(between)
    grouped = rf"[0-9]{{1,3}}(?:{thousands}[0-9]{{3}})+|" if between else ""
    pattern = re.compile(rf"(-?)({grouped}[0-9]+)" + (rf"(?:{re.escape(point)}0+)?" if point else ""), re.ASCII)

    def read_amount(word: str) -> str:
        match = None if isinstance(word, Stored) else pattern.fullmatch(word.strip())
        return match[1] + re.sub("[^0-9]", "", match[2]) if match else word

    return read_amount
