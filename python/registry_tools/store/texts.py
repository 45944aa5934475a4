"""The texts of a folder of days, each by the SHA-256 of its bytes: what people gave, and what days became."""
import hashlib
import sqlite3
import zlib
from collections.abc import Iterator
from dataclasses import dataclass
from pathlib import Path

from registry_tools import voice
from registry_tools.errors import FileFault, of_file
from registry_tools.texts.rows import MOST_TEXT, KeptText, sum_of as sum_of

# How hard zlib tries: a higher level takes three times as long for a tenth less.
LEVEL = 6
# So many packed bytes are unpacked at a time; and so many unpacked ones, where only the first lines are asked for.
PIECE, PIECE_OF_LINES = 1 << 15, 1 << 16
# SQLite keeps no longer value.
MOST_PACKED = 1_000_000_000
# What is kept of a settled day, by the columns of its event, as `./day unpack` names it.
FILES = {"text": "day.csv", "report": "report.csv", "waiting": "waiting.csv", "waits": "waits.csv"}


@dataclass(frozen=True)
class Pair:
    """A day text and its report, by their paths, or by the names under which they are kept."""

    day: str
    report: str

    @property
    def is_filed(self) -> bool:
        """Whether it is kept: then it was looked at when it was filed, and has the sums that it had then."""
        return isinstance(self.day, KeptText)


def put_back() -> str:
    """What is done with a file that somebody changed."""
    return f"put the file back from a copy: {voice.command('audit', '--anchors')} tells whether it is the right one"


@dataclass(frozen=True)
class Texts:
    """The texts of a file, or of what is tried in it: then its own are `below`. A fault names the path of the file."""

    db: sqlite3.Connection
    path: Path
    below: "Texts | None" = None

    def of_file(self) -> "Texts":
        """Those of the file, of which these may be what is tried."""
        return self.below.of_file() if self.below else self

    def put(self, content: bytes) -> str:
        """Keeps a text, and answers its sum. Raises FileFault if it is too long to be kept."""
        text_sum = sum_of(content)
        if not self.db.execute("SELECT 1 FROM texts WHERE sum = ?", (text_sum,)).fetchone():
            packed = zlib.compress(content, LEVEL)
            if len(packed) > MOST_PACKED:
                raise of_file(self.path, f"a text of {len(content):,} bytes is longer than such a file can keep")
            self.db.execute("INSERT INTO texts VALUES (?, ?, ?)", (text_sum, len(content), packed))
        return text_sum

    def get(self, text_sum: str) -> bytes:
        """The text with this sum. Raises FileFault if it is not there, or another one."""
        return b"".join(self.pieces(text_sum))

    def pieces(self, text_sum: str) -> Iterator[bytes]:
        """The same piece by piece: what is wrong may be raised behind the last one."""
        packed, size = self.packed(text_sum)
        unpacker, found, left = zlib.decompressobj(), hashlib.sha256(), size
        try:
            for place in range(0, len(packed), PIECE):
                # (some bytes may unpack to a thousand times as many)
                piece = unpacker.decompress(packed[place : place + PIECE])
                found.update(piece)
                left -= len(piece)
                if left < 0:
                    break
                yield piece
        except zlib.error as error:
            raise self.fault(text_sum, f"bytes that cannot be unpacked: {error}") from None
        if left:
            raise self.fault(text_sum, f"{'more' if left < 0 else 'fewer'} bytes than its size, {size}")
        if found.hexdigest() != text_sum:
            raise self.fault(text_sum, found.hexdigest())
        if not unpacker.eof or unpacker.unused_data:
            raise self.fault(text_sum, "packed bytes that are cut, or go on behind the text")

    def fault_of(self, text_sum: str) -> FileFault | None:
        """What is wrong with a text, if something is. (Its pieces are let go: that takes a third of the time.)"""
        try:
            for _ in self.pieces(text_sum):
                pass
        except FileFault as fault:
            return fault
        return None

    def lines(self, text_sum: str) -> Iterator[str]:
        """The lines of a text: only what is asked for is unpacked. Nobody has compared their sum."""
        unpacker, (left, _), rest = zlib.decompressobj(), self.packed(text_sum), b""
        try:
            while left and not unpacker.eof:
                rest += unpacker.decompress(left, PIECE_OF_LINES)
                left = unpacker.unconsumed_tail
                *lines, rest = rest.split(b"\n")
                yield from (line.decode("utf-8", "surrogateescape") for line in lines)
        except zlib.error as error:
            raise self.fault(text_sum, f"bytes that cannot be unpacked: {error}") from None
        if rest:
            yield rest.decode("utf-8", "surrogateescape")

    def packed(self, text_sum: str) -> tuple[bytes, int]:
        """The packed bytes of a text, and how many it has unpacked."""
        row = self.db.execute("SELECT packed, size FROM texts WHERE sum = ?", (text_sum,)).fetchone()
        if row is None and self.below:
            return self.below.packed(text_sum)
        if row is None:
            raise self.fault(text_sum, "no such text")
        packed, size = row
        if not isinstance(packed, bytes) or not isinstance(size, int) or not 0 <= size <= MOST_TEXT:
            raise self.fault(text_sum, "no packed bytes with a size")
        return packed, size

    def fault(self, text_sum: str, found: str) -> FileFault:
        """What is wrong with a text."""
        expected = f"the text with the SHA-256 {text_sum}"
        return FileFault(self.path, 0, f"text {str(text_sum)[:12]}", found, expected, put_back())
