"""Says on a terminal what a command is doing, from its second second on."""
import os
import sys
import time
from collections.abc import Iterable, Iterator
from typing import TextIO, TypeVar

T = TypeVar("T")

FIRST, NEXT = 2.0, 0.2
# By this variable a command tells also where standard error is no terminal.
ASKED = "DAY_PROGRESS"


class Progress:
    """A line on standard error that says how far a piece of work is; nothing where standard error is no terminal."""

    def __init__(self, stream: TextIO | None = None) -> None:
        self.stream = stream or sys.stderr
        # (whoever started the command reads its lines, and says so)
        # (of a standard error that is closed Python has none)
        self.is_shown = self.stream is not None and (self.stream.isatty() or bool(os.environ.get(ASKED)))
        self.next_time = time.monotonic() + FIRST
        self.has_line = False

    def tell(self, what: str, done: int = 0, of: int = 0) -> None:
        """Says what is done, and how much of it, if the time for the next line has come."""
        now = time.monotonic() if self.is_shown else 0
        if not self.is_shown or now < self.next_time:
            return
        self.next_time, self.has_line = now + NEXT, True
        share = f" {100 * done // of} %" if of else ""
        print(f"\r\033[K{what} ..{share}", end="", file=self.stream, flush=True)

    def over(self, items: Iterable[T], what: str, of: int, step: int = 1_000) -> Iterator[T]:
        """Gives the items, and says now and then how many of them are done."""
        for place, item in enumerate(items):
            if place % step == 0:
                self.tell(what, place, of)
            yield item

    def clear(self) -> None:
        """Takes the line away again."""
        if self.has_line:
            print("\r\033[K", end="", file=self.stream, flush=True)
            self.has_line = False


progress = Progress()
