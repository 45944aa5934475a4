"""What `./day next` tells on standard error, if all goes well: what it did, and what to look at."""
from typing import Iterable

# Of more lines about the same thing the first ones are told, and the others counted.
MOST_TOLD = 3
# How a line begins that somebody has to look at, and one that tells a change by hand. Its rows stand behind it.
LOOK, BY_HAND, ROW = "LOOK AT THIS", "by hand", "  "
# How the line begins about weekdays that a new calendar leaves out.
LEFT_OUT = "calendar: weekdays without a work row"


def first_ones(lines: Iterable[str], more: str) -> list[str]:
    """The first of these lines; of more, a last line tells how many: `more` says of what."""
    every = [*lines]
    left = len(every) - MOST_TOLD
    return every if left <= 0 else [*every[:MOST_TOLD], f"and {left:,} more {more}"]


def first_of(lines: list[str], most: int) -> list[str]:
    """The first of these lines, at most so many, and a last one that tells how many more there are."""
    left = len(lines) - most
    return lines if left <= 0 else [*lines[:most], f"and {left} more"]


def counted(number: int, one: str, many: str) -> str:
    """A number with its word."""
    return f"{number} {one if number == 1 else many}"


def worth_telling(lines: Iterable[str]) -> list[str]:
    """Of the lines about a text, those that whoever settles it has to know."""
    return [line for line in lines if line.startswith((LOOK, BY_HAND, ROW, LEFT_OUT))]


class Notes:
    """Lines in the order in which they came. A warning asks somebody to look at something: then the exit status is
    1."""

    def __init__(self) -> None:
        self.lines: list[str] = []
        self.has_warnings = False

    def add(self, line: str) -> None:
        """Adds a line."""
        self.lines.append(line)

    def warn(self, *lines: str) -> None:
        """Adds lines that somebody has to look at."""
        for line in lines:
            self.lines.append(f"{LOOK}: {line}")
            self.has_warnings = True
