"""Mends what a spreadsheet or an editor does to a day text: UTF-16, semicolons or tabs in place of commas, blanks round
fields, and empty fields or rows that only pad a table. No value is guessed: no such thing is a part of any value."""
import csv
import io
import re
from dataclasses import dataclass, field

from registry_tools.errors import FileFault
from registry_tools.texts.rows import Rows, bytes_of, records_of, rows_of_text

# What stands at the start of a text of 16 bits a character, and how it is read.
MARKS = {b"\xff\xfe": "utf-16-le", b"\xfe\xff": "utf-16-be"}
# What nobody sees round a field, beside blanks: a byte order mark, and characters without width.
UNSEEN = "\ufeff\u200b\u200c\u200d\u2060"
CONTROLS = {*range(32)} - {*b"\t\r\n"}
SEPARATORS = {";": "semicolons", "\t": "tabs"}
# Where this is nowhere in a text with commas, there is nothing to mend.
MAY_BE_MENDED = re.compile(rf'[^\S\r\n]|[{UNSEEN}]|^,|,$|,\r|,""', re.MULTILINE)
# So many rows say whether a text has another separator.
ROWS_LOOKED_AT = 1_000


# What was changed: the first line of it, and what in words.
Change = tuple[int, str]


@dataclass
class Mended:
    """A text as it has to be: its rows, the fields as they stand in the file, and what was changed, each with the first
    line."""

    source: Rows
    # The fields of each row as they stand in the file; nothing if they stand so already.
    raw: list[list[str]] | None
    changes: list[Change] = field(default_factory=list)
    is_plain: bool = True

    def raw_fields(self, index: int) -> list[str]:
        """The fields of a row as they stand in the file."""
        return self.raw[index] if self.raw is not None else self.source.fields(index)

    def text(self) -> str:
        """The rows as a text of the program."""
        stream = io.StringIO()
        writer = csv.writer(stream, lineterminator="\n")
        writer.writerows(self.source.fields(index) for index in range(len(self.source)))
        return stream.getvalue()


def is_text(start: bytes) -> bool:
    """Whether a file with this start may be a text: nearly all of its bytes, or of 16 bits a character every other one,
    stand for letters."""
    return any(sum(byte in CONTROLS for byte in half) * 20 <= len(half) for half in (start[::2], start[1::2]))


def decoded(path: str, content: bytes) -> tuple[str, str]:
    """A text, and the name of its encoding if it is not the one that it must have. Raises FileFault if it is none."""
    for mark, encoding in MARKS.items():
        if content.startswith(mark):
            return content[len(mark) :].decode(encoding, "replace"), "UTF-16"
    start = content[:200]
    if not is_text(start):
        raise FileFault(path, 0, "", "bytes that stand for no letters: it is no text", "a text, such as a day text")
    if start.count(0) * 3 > len(start):
        encoding = "utf-16-le" if start[1:2] == b"\0" else "utf-16-be"
        return content.decode(encoding, "replace"), "UTF-16"
    return content.decode("utf-8-sig", "surrogateescape"), ""


def separator_of(text: str) -> str:
    """What stands between the fields, by most of the rows."""
    rows = [row for row in text[: 100 * ROWS_LOOKED_AT].splitlines() if row.strip()][:ROWS_LOOKED_AT]
    for separator in SEPARATORS:
        has = sum(separator in row for row in rows)
        if has * 2 > len(rows) and has > 2 * sum("," in row for row in rows):
            return separator
    return ","


def stripped(word: str) -> str:
    """A field without what nobody sees round it."""
    while word != (word := word.strip().strip(UNSEEN)):
        pass
    return word


def mended(path: str) -> Mended:
    """The text of a file, mended."""
    text, encoding = decoded(path, bytes_of(path))
    changes: list[Change] = []
    if encoding:
        changes.append((1, f"the file is {encoding}, and must be UTF-8 or plain ASCII"))
    separator = separator_of(text)
    if separator == "," and not MAY_BE_MENDED.search(text):
        return Mended(rows_of_text(path, text), None, changes, is_plain='"' not in text)
    if separator == ",":
        source = rows_of_text(path, text)
        raw, lines = [source.fields(index) for index in range(len(source))], [*source.lines]
    else:
        records = [*records_of(text, separator)]
        raw, lines = [fields for _, fields in records], [line for line, _ in records]
        changes.append((lines[0], f"{SEPARATORS[separator]} stand between the fields, and must be commas"))
    return Mended(*tidied(path, raw, lines, changes), changes, is_plain='"' not in text)


def tidied(path: str, raw: list[list[str]], lines: list[int], changes: list[Change]) -> tuple[Rows, list[list[str]]]:
    """The rows without blanks and padding, and the fields of each as they stand in the file. Adds what was changed."""
    numbers: list[int] = []
    source = Rows(path, [], numbers)
    kept: list[list[str]] = []
    padded, blank, empty = list[int](), list[int](), list[int]()
    for line, fields in zip(lines, raw):
        words = [*map(stripped, fields)]
        if words != fields:
            blank.append(line)
        while words and not words[-1]:
            words.pop()
        if not words:
            empty.append(line)
            continue
        if len(words) < len(fields):
            padded.append(line)
        if any("," in word or "\n" in word or "\r" in word for word in words):
            source.unplain[len(source.rows)] = words
        source.rows.append(",".join(words))
        numbers.append(line)
        kept.append(fields)
    for found, what in (
        (blank, "blanks or characters that nobody sees stand round fields"),
        (padded, "empty fields stand at the ends of rows"),
        (empty, "rows have only empty fields"),
    ):
        if found:
            changes.append((found[0], f"{what}, in {len(found)} rows"))
    return source, kept
