"""What goes wrong: each fault ends a command with a line on standard error and an exit status. `tools/tables` makes the
table of all of them in docs/FORMATS.md of what the classes say."""
import datetime
from collections.abc import Collection, Iterable, Sequence
from pathlib import Path
from typing import Any

from registry_tools import voice

FOUND, WORDS, FILE = 1, 2, 3
# As in the program: standard output did not take all.
NOT_WRITTEN = 5
# No value of a message is longer.
MOST_SHOWN = 160


class Fault(Exception):
    """Why nothing was done: a sentence, as a text.

    `code` is the word by which programs know what kind of fault it is, `status` the exit status of a command that ends
    so, `remedy` what is done about such a one, and `way` what is done about this one, in the words of the commands, or
    nothing. `behind` is the day behind a corrected one that can't be closed so, if it is a fault of that day."""

    status = WORDS
    code = remedy = ""
    # (behind the sentence stands the `joint`, and then the way)
    way, joint = "", "; "
    behind: datetime.date | None = None

    def parts(self) -> "Sequence[Fault]":
        """The faults that it tells: itself, or several that were found together."""
        return (self,)

    def without_way(self) -> str:
        """What is wrong, without the way out: who shows it otherwise has another one."""
        return str(self)


class WordsFault(Fault):
    """The words of the command do not fit together, or do not fit the files: `why`."""

    code, remedy = "words", "give the words that the sentence names"

    def __init__(self, why: str, way: str = "", joint: str = ": ") -> None:
        # (between both stands the `joint`)
        super().__init__(f"{why}{joint}{way}" if way else why)
        self.why, self.way, self.joint = why, way, joint

    def without_way(self) -> str:
        """The same without the way out."""
        return self.why


class LateFault(WordsFault):
    """Somebody else changed the folder first: what was asked for may still be wanted."""

    code, remedy = "late", "look at the folder once more, and ask again"


class RightsFault(WordsFault):
    """Who asks may not do it: `why` says so."""

    code, remedy = "rights", "let somebody do it whom the sentence names"

    def __init__(self, why: str, end: str = "") -> None:
        super().__init__(f"{why}{end}")
        self.why = why


class FileFault(Fault):
    """A file is not what it must be: `path`, which also names the cell of a table, `line`, `field`, what was `found`
    there, and what was `expected`. If the whole file is meant, `found` says all. `place` is that of something that was
    handed in before, if it is a fault of that."""

    status = FILE
    code, remedy = "file", "put there what is expected"
    place: int | None = None

    def __init__(
        self, path: str | Path, line: int, field: str, found: object, expected: str, way: str = "", joint: str = ": "
    ) -> None:
        super().__init__(path, line, field, found, expected)
        self.path, self.line, self.field, self.found, self.expected = path, line, field, found, expected
        if way:
            self.way, self.joint = way, joint

    def __str__(self) -> str:
        return f"{self.without_way()}{self.joint}{self.way}" if self.way else self.without_way()

    def add_way(self, way: str) -> None:
        """Tells one more thing that is done about it."""
        self.way = f"{self.way}; {way}" if self.way else way

    def parts(self) -> "Sequence[FileFault]":
        """The faults that it tells: itself, or several that were found together."""
        return (self,)

    def without_way(self) -> str:
        """The same without the way out."""
        path = voice.path(self.path)
        place = f"{path}:{self.line}" if self.line else path
        if not self.expected:
            return f"{place}: {self.found}"
        field = f"{self.field}: " if self.field else ""
        return f"{place}: {field}found {self.found}; expected {self.expected}"


class UnwrittenFault(FileFault):
    """A file that a command writes cannot be written: nothing is wrong with what it reads."""

    code, remedy = "unwritten", "make room, or name another place"


class RowFault(FileFault):
    """A row of a text has a fault: its `number` and the `cause`, [as the program says it](FORMATS.md#faults)."""

    code, remedy = "row", "mend the row"

    def __init__(self, number: int, cause: str, *parts: Any) -> None:
        super().__init__(*parts)
        self.number, self.cause = number, cause

    def as_program(self) -> str:
        """The fault as the program tells it."""
        return f"row {self.number}: {self.cause}"


def of_file(path: str | Path, found: str, way: str = "", joint: str = ": ") -> FileFault:
    """The fault of a whole file: `found` says all of it, but what is done about it."""
    return FileFault(path, 0, "", found, "", way, joint)


def raise_first(faults: Iterable[FileFault | None]) -> None:
    """Ends the command at the first of these faults, if there is one."""
    for fault in filter(None, faults):
        raise fault


def must_be_known(
    path: str | Path, field: str, words: Iterable[str], allowed: Collection[str], expected: str = ""
) -> None:
    """Ends the command at the first of these words of a file that is none of the known ones."""
    for word in words:
        if word not in allowed:
            raise FileFault(path, 0, field, shown(word), expected or f"one of {', '.join(allowed)}")


def shown(word: str) -> str:
    """A field as a message shows it: between quotes, with what nobody sees made visible."""
    if word == "":
        return "nothing"
    cut = word if len(word) <= MOST_SHOWN else word[:MOST_SHOWN] + ".."
    return f"'{''.join(map(visible, cut))}'"


def visible(character: str) -> str:
    """A character that everybody sees, or what it is."""
    is_seen = character.isprintable() and (character == " " or not character.isspace())
    return character if is_seen else escaped(character)


def escaped(character: str) -> str:
    """A character that nobody sees, by its name or its number."""
    names = {
        "\0": "<NUL>", "\t": "<tab>", "\n": "<line feed>", "\r": "<carriage return>",
        "\ufeff": "<byte order mark>", "\xa0": "<no-break space>",
    }  # fmt: skip
    if character in names:
        return names[character]
    number = ord(character)
    # (a byte that is no UTF-8 is read as one of these)
    return f"<byte {number - 0xDC00:02X}>" if 0xDC80 <= number <= 0xDCFF else f"<U+{number:04X}>"
