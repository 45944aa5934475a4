"""The rows of a file, each with the line on which it begins, and reading files at all: all commands read by this
module."""
import csv
import errno
import functools
import gzip
import hashlib
import io
import os
import re
import sys
import zlib
from collections.abc import Callable, Iterator, Sequence
from dataclasses import dataclass, field
from pathlib import Path

from registry_tools import opening, streams
from registry_tools.elsewhere import Elsewhere, must_be_here
from registry_tools.errors import FileFault, of_file
from registry_tools.progress import progress

# No text is longer, as the program takes none that is.
MOST_TEXT = 1 << 30
# Packed bytes are unpacked so much at a time.
PIECE = 1 << 20
# How the files begin that spreadsheets save by themselves, which are no texts.
WORKBOOKS = (b"PK\x03\x04", b"\xd0\xcf\x11\xe0")
NEWLINE = re.compile("\r\n|\r")
# In so many bytes the first row of a text begins.
FIRST_BYTES = 4_096
# A comma or a line end inside a field: such a field is faulty wherever it stands.
UNPLAIN = re.compile("[,\r\n]")


@dataclass
class Rows:
    """The rows of a file, each as its fields with commas between them, and the line on which each begins, counted from
    1."""

    path: str | Path
    rows: list[str]
    lines: Sequence[int]
    # The fields of the rows in which a field has a comma or a line end inside.
    unplain: dict[int, list[str]] = field(default_factory=dict)

    def __len__(self) -> int:
        return len(self.rows)

    def line(self, index: int) -> int:
        """The line of a row; behind the last row, the line behind it."""
        if index < len(self.lines):
            return self.lines[index]
        return self.lines[-1] + 1 if self.lines else 1

    def fields(self, index: int) -> list[str]:
        """The fields of a row."""
        return self.unplain.get(index) or self.rows[index].split(",")

    def fault(self, index: int, name: str, found: str, expected: str, way: str = "") -> FileFault:
        """What is wrong with a row of another text than a day text, for somebody who has the file open."""
        return FileFault(self.path, self.line(index), name, found, expected, way)


class KeptText(str):
    """The name of a text that lies in no file of its own, as faults tell it: `content` is asked whenever the text is
    read by this name."""

    def __new__(cls, name: str, _content: Callable[[], bytes]) -> "KeptText":
        return super().__new__(cls, name)

    def __init__(self, _name: str, content: Callable[[], bytes]) -> None:
        super().__init__()
        self.content = content


@functools.lru_cache(maxsize=None)
def read_once(path: str) -> bytes:
    """The content of what can be read only once: standard input, whose name is `-`, or a pipe."""
    if path == "-":
        if not streams.is_open(sys.stdin):
            raise OSError(errno.EBADF, "it is closed")
        return sys.stdin.buffer.read()
    return opening.read(path)


def named_bytes(path: str | Path) -> bytes:
    """The content of what a word names, as it is there. Raises OSError."""
    if isinstance(path, Elsewhere):
        return path.content()
    must_be_here(path)
    return opening.read(path) if is_file(path) else read_once(str(path))


def packed_bytes_of(path: str | Path) -> bytes:
    """The content of a file, or of standard input, whose name is `-`, as it is there."""
    progress.tell(f"reading {path}")
    if isinstance(path, KeptText):
        return path.content()
    try:
        return named_bytes(path)
    except OSError as error:
        raise of_file(path, f"it cannot be read: {error.strerror}") from None


def bytes_of(path: str | Path) -> bytes:
    """The text that a file or standard input has, or one that is kept."""
    return path.content() if isinstance(path, KeptText) else unpacked(path, packed_bytes_of(path))


def unpacked(path: str | Path, content: bytes, most: int = MOST_TEXT) -> bytes:
    """The text of a file with this content, which is packed if its name says so: so many bytes at most."""
    if Path(path).suffix == ".gz":
        content = unzipped(path, content, most)
    if content.startswith(WORKBOOKS):
        way = "let the spreadsheet save the table as CSV in UTF-8"
        raise FileFault(path, 0, "", "a workbook of a spreadsheet", "a text", way)
    return content


def unzipped(path: str | Path, content: bytes, most: int) -> bytes:
    """What gzip packed: piece by piece, since some bytes may unpack to a thousand times as many."""
    pieces, count = list[bytes](), 0
    try:
        with gzip.open(io.BytesIO(content)) as stream:
            while piece := stream.read(PIECE):
                pieces.append(piece)
                count += len(piece)
                if count > most:
                    raise FileFault(path, 0, "bytes, unpacked", f"more than {most:,}", f"at most {most:,}")
    except (OSError, EOFError, zlib.error) as error:
        raise of_file(path, f"it cannot be unpacked: {error}") from None
    return b"".join(pieces)


def is_file(path: str | Path) -> bool:
    """Whether a path names a file that can be read again and again, or a text that is kept."""
    return isinstance(path, KeptText) or (str(path) != "-" and Path(path).is_file())


def is_there(path: str) -> bool:
    """Whether something has the name that a word says."""
    try:
        return path.there() is not None if isinstance(path, Elsewhere) else os.path.exists(path)
    except OSError:
        return True


def begins_with(path: str | Path, starts: tuple[str, ...]) -> bool:
    """Whether the first row of a file begins so; of one that cannot be read, nobody knows."""
    try:
        if isinstance(path, (KeptText, Elsewhere)):
            start = path.content()[:FIRST_BYTES]
        elif is_file(path):
            with open(opening.open_file(path, os.O_RDONLY), "rb") as file:
                start = file.read(FIRST_BYTES)
        else:
            start = read_once(str(path))[:FIRST_BYTES]
    except OSError:
        return False
    return start.decode("utf-8-sig", "replace").lstrip("\r\n").startswith(starts)


def sum_of(content: bytes) -> str:
    """The SHA-256 of some bytes, in hexadecimal digits."""
    return hashlib.sha256(content).hexdigest()


def rows_of(path: str | Path) -> Rows:
    """The rows of a file, which may be no text of the program at all."""
    return rows_of_text(path, bytes_of(path).decode("utf-8-sig", "surrogateescape"))


def text_of_rows(rows: Sequence[str]) -> bytes:
    """Rows as the content of a file; nothing, if there are none."""
    return "\n".join([*rows, ""]).encode("utf-8", "surrogateescape")


def rows_of_text(path: str | Path, text: str) -> Rows:
    """The rows of a text, each with its line."""
    if '"' in text:
        return rows_with_quotes(path, text)
    rows = NEWLINE.sub("\n", text).split("\n") if "\r" in text else text.split("\n")
    if "" not in rows[:-1]:
        if not rows[-1]:
            rows.pop()
        return Rows(path, rows, range(1, len(rows) + 1))
    lines = [number for number, row in enumerate(rows, 1) if row]
    return Rows(path, [*filter(None, rows)], lines)


def rows_with_quotes(path: str | Path, text: str) -> Rows:
    """The rows of a text in which a quote stands: a row may then go on in the next line."""
    rows, lines, unplain = list[str](), list[int](), dict[int, list[str]]()
    try:
        for line, fields in records_of(text):
            if any(UNPLAIN.search(word) for word in fields):
                unplain[len(rows)] = fields
            rows.append(",".join(fields))
            lines.append(line)
    except csv.Error as error:
        behind = lines[-1] + 1 if lines else 1
        raise FileFault(path, behind, "", str(error), "rows of fields with commas between them") from None
    return Rows(path, rows, lines, unplain)


def records_of(text: str, delimiter: str = ",") -> Iterator[tuple[int, list[str]]]:
    """The records of a text that are not empty, each with the line on which it begins."""
    csv.field_size_limit(sys.maxsize)
    # (an older reader refuses the character 0: another one that stands nowhere in the text takes its place)
    stand_in = next(free for free in map(chr, range(0xE000, 0xF8FF)) if free not in text) if "\0" in text else ""
    reader = csv.reader(io.StringIO(text.replace("\0", stand_in), newline=""), delimiter=delimiter)
    last = 0
    for fields in reader:
        line, last = last + 1, reader.line_num
        if fields:
            yield line, [word.replace(stand_in, "\0") for word in fields] if stand_in else fields
