"""What settled a day, as its event names it: as five words, such as `program 1.0 2cc76628abcd proved`, and a SHA-256
behind them.

  program, library, second   what settled the day
  its version                of the program; - if nothing tells it
  the commit of its sources  with a + behind it if they had changes; - if nothing tells it
  proved, unproved           whether its bytes were proved, by the note of its build
  the SHA-256 of its bytes   - of the second answer, and in journals of before
"""
from typing import NamedTuple

PROGRAM, LIBRARY, SECOND = "program", "library", "second"
PROVED, UNPROVED, UNKNOWN = "proved", "unproved", "-"
IN_WORDS = {PROGRAM: "the program", LIBRARY: "the library", SECOND: "the second answer alone"}


class Engine(NamedTuple):
    """What settled a day."""

    what: str
    version: str = UNKNOWN
    commit: str = UNKNOWN
    proof: str = UNPROVED
    sum: str = UNKNOWN

    def row(self) -> str:
        """The words by which the journal names it."""
        return " ".join(self)

    @property
    def is_proved(self) -> bool:
        """Whether it was proved."""
        return self.proof == PROVED

    def __str__(self) -> str:
        version = "" if self.version == UNKNOWN else f" {self.version}"
        commit = "" if self.commit == UNKNOWN else f" of commit {self.commit.replace('+', ' with changes')}"
        return f"{IN_WORDS.get(self.what, self.what)}{version}{commit}, {'' if self.is_proved else 'not '}proved"


SECOND_ANSWER = Engine(SECOND)


def engine_named(row: str) -> Engine | None:
    """The engine that a line of the journal names, if it names one."""
    words = row.split(" ")
    # (the sum came later than the others)
    return Engine(*words) if 0 <= len(Engine._fields) - len(words) <= 1 else None


def is_proved(row: str) -> bool:
    """Whether a line of the journal names a proved engine."""
    engine = engine_named(row)
    return engine is not None and engine.is_proved
