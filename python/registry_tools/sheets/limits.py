"""How large a table may be, whatever it is kept in, and what is told if it is larger. Without limits some hundred bytes
take all memory and hours: cells that are repeated, parts that unpack to a thousand times their size, elements in
elements. A full book of 100,000 accounts, or a full day, fits with room to spare."""
from collections.abc import Sequence
from pathlib import Path

from registry_tools.errors import FileFault

# The bytes of a file; those of all parts of a workbook that are read, unpacked; and the letters of all its cells, each
# as often as it stands there.
MOST_BYTES = 1 << 27
# A sheet has no more rows and columns, and a cell of a workbook no more letters.
MOST_ROWS, MOST_COLUMNS, MOST_LETTERS = 1_048_576, 16_384, 32_767
# The cells of a table, with the empty ones before another one; the commas, semicolons or tabs of a csv, of which some
# may stand in cells; and the lines of a text.
MOST_CELLS, MOST_SEPARATORS, MOST_LINES = 1 << 21, 1 << 24, 1 << 23
# The elements of the parts of a workbook; how many of them lie in each other; and the bytes of one.
MOST_ELEMENTS, MOST_DEPTH, MOST_ELEMENT = 1 << 23, 100, 1 << 20
# The parts and the styles of a workbook.
MOST_PARTS, MOST_STYLES = 10_000, 1 << 16
# So many wrong cells are found before nobody looks further.
MOST_WRONG = 100_000


def too_much(path: str | Path, what: str, most: int) -> FileFault:
    """The fault of a file that has more than so many of something."""
    return FileFault(path, 0, what, f"more than {most:,}", f"at most {most:,}")


def must_have_room(path: str | Path, content: bytes) -> None:
    """Ends the command at a file of too many bytes."""
    if len(content) > MOST_BYTES:
        raise too_much(path, "bytes", MOST_BYTES)


def must_have_lines(path: str | Path, content: bytes) -> None:
    """Ends the command at a text of too many lines: each of its rows takes more memory than it has bytes."""
    if content.count(b"\n") + content.count(b"\r") > MOST_LINES:
        raise too_much(path, "lines", MOST_LINES)


class Grid:
    """The rows of a table as they are read, within the limits."""

    def __init__(self, path: str) -> None:
        self.path = path
        self.rows: list[Sequence[str]] = []
        # The places of rows that have something, and that the spreadsheet does not show.
        self.hidden: list[int] = []
        self.cells = self.letters = 0

    def add(self, cells: Sequence[str], times: int = 1, is_hidden: bool = False) -> None:
        """Puts a row behind the others, as often as it stands there. Raises FileFault at the first limit."""
        self.cells += len(cells) * times
        self.letters += sum(map(len, cells)) * times
        for what, found, most in (
            ("rows", len(self.rows) + times, MOST_ROWS), ("columns", len(cells), MOST_COLUMNS),
            ("cells", self.cells, MOST_CELLS), ("letters of all cells", self.letters, MOST_BYTES),
        ):  # fmt: skip
            if found > most:
                raise too_much(self.path, what, most)
        if is_hidden and any(cells):
            self.hidden += range(len(self.rows), len(self.rows) + times)
        # (nobody changes a row: the same one stands there several times)
        self.rows += [cells] * times
