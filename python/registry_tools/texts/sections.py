"""The lines of a text with sections, as office.ini is one: what it says, with other lines in it, and what differs."""
import configparser
import re
from collections.abc import Iterable
from pathlib import Path

from registry_tools.errors import FileFault, WordsFault, of_file, shown, visible
from registry_tools.texts import changes

# Another text has at most so many letters, and so many in a line.
MOST_LETTERS, MOST_IN_LINE = 100_000, 500
LINE = re.compile(r"\[([^][]+)\] *([^=:\s][^=:]*?) *= *(.*)")


def letters_of(content: bytes) -> str:
    """A text as letters."""
    return content.decode("utf-8-sig", "surrogateescape")


def parsed(path: str | Path, text: str, has_capitals: bool = False) -> configparser.ConfigParser:
    """The sections of a text, with small letters in names, or with those that are there. Raises FileFault."""
    parser = configparser.ConfigParser(interpolation=None)
    if has_capitals:
        setattr(parser, "optionxform", str)
    try:
        parser.read_string(text, str(path))
    except configparser.Error as error:
        raise of_file(path, f"these are no settings: {error}".replace("\n", " ")) from None
    return parser


def must_be_lines(path: Path, text: str) -> None:
    """Ends the command if a text is too long, or if a line of it is, or has a letter that nobody sees."""
    if len(text) > MOST_LETTERS:
        raise of_file(path, f"it has {len(text):,} letters; expected at most {MOST_LETTERS:,}")
    for number, line in enumerate(text.split("\n"), 1):
        unseen = next((letter for letter in line.removesuffix("\r") if not is_of_line(letter)), "")
        if unseen or len(line) > MOST_IN_LINE:
            expected = f"a line of at most {MOST_IN_LINE} letters that everybody sees"
            raise FileFault(path, number, "", visible(unseen) if unseen else f"{len(line):,} letters", expected)


def is_of_line(letter: str) -> bool:
    """Whether a letter may stand in a line; also a byte that is no UTF-8, as in a name."""
    return letter.isprintable() or letter == "\t" or "\udc80" <= letter <= "\udcff"


def with_lines(text: str, asked: Iterable[str]) -> str:
    """A text with these lines in it, each `[SECTION] NAME = VALUE`; without a value, the line is left out. Raises
    WordsFault."""
    lines = text.replace("\r\n", "\n").split("\n")
    for word in asked:
        found = LINE.fullmatch(word)
        if found is None or "\n" in word:
            raise WordsFault(f"found {shown(word)}; expected [SECTION] NAME = VALUE, or no VALUE to leave the line out")
        section, name, value = found.groups()
        if f"[{section}]" not in lines:
            lines[len(lines) - (lines[-1] == "") :] = [f"[{section}]", ""]
        begin = lines.index(f"[{section}]") + 1
        end = next((number for number in range(begin, len(lines)) if lines[number].startswith("[")), len(lines))
        named = [number for number in range(begin, end) if re.match(rf"{re.escape(name)}[ \t]*[=:]", lines[number])]
        last = max((number + 1 for number in range(begin, end) if lines[number].strip()), default=begin)
        place = named[0] if named else last
        lines[place : place + len(named[:1])] = [f"{name} = {value}"] * bool(value)
    return "\n".join(lines)


def lines_between(path: Path, old: str, new: str) -> list[str]:
    """The lines that go and come between two texts, each with its section."""
    return [change.words for change in changes.rows_changed(None, rows_in(path, old), rows_in(path, new))]


def rows_in(path: Path, text: str) -> list[str]:
    """What a text says, line by line, each with its section."""
    parser = parsed(path, text, True)
    rows = (f"[{section}] {name} = {value}" for section in parser for name, value in parser[section].items())
    return ["".join(map(visible, row)) for row in rows]
