"""A day whose instructions come one at a time."""
from __future__ import annotations

from typing import Optional

from registry import native
from registry.rows import Instruction, LogRow
from registry.texts import Day, Report
from registry.writing import fields_of

_END = b"end\n"


class Session:
    """An open day: each instruction is answered as it comes, and the day is asked in between.

        with registry.Session(text) as session:
            row = session.apply(instruction)
            print(row.record, row.outcome, session.day().totals())
            report = session.report()

    What it keeps is the day text with the instructions so far. By the proof the last row of its log is what applying
    the last instruction to the book gives. So each instruction takes the time of a trial of the whole text. One thread
    at a time calls a session.
    """

    def __init__(self, day: native.Text) -> None:
        """Opens the day that these bytes describe, with the instructions that they have. Raises `Fault` if they are no
        day text."""
        rows = Day(bytes(native.bytes_of(day))).rows
        self._day: Optional[Day] = Day("".join(f"{','.join(row)}\n" for row in rows).encode("ascii"))

    def __enter__(self) -> Session:
        self.day()
        return self

    def __exit__(self, *_error: object) -> None:
        self.close()

    def __repr__(self) -> str:
        return f"<registry.Session of {len(self._day.text)} bytes>" if self._day else "<registry.Session, closed>"

    def apply(self, instruction: Instruction) -> LogRow:
        """Adds an instruction behind those so far, and answers what becomes of it. If it raises, as `Fault` does for
        what is outside a limit, the day is as before."""
        row = f"do,{','.join(fields_of(instruction))}\n".encode("ascii")
        day = Day(self.day().text[: -len(_END)] + row + _END)
        last = day.attempt()[-1]
        self._day = day
        return last

    def day(self) -> Day:
        """The day with the instructions so far, and all of its questions."""
        if self._day is None:
            raise ValueError("this session is closed")
        return self._day

    def report(self) -> Report:
        """The report of the day with the instructions so far."""
        return self.day().settle()

    def close(self) -> None:
        """Lets the day go. Each later call raises `ValueError`, except this one, which does nothing again."""
        self._day = None
