"""Tries commands in a row on a folder of days, which hypothesis draws. What has to come of them is a model in plain
Python: the days that are filed, with the transfers of each, and what was handed in for the next one.

A command may be killed at a drawn moment: the folder is then as before it or as after it.
"""
from __future__ import annotations

import csv
import datetime
import io
import os
import shutil
import signal
import sys
import tempfile
import time
from dataclasses import dataclass, replace
from pathlib import Path

import pytest

pytest.importorskip("hypothesis", reason="hypothesis is not installed (python3-hypothesis)")

from hypothesis import settings
from hypothesis import strategies as st
from hypothesis.stateful import (
    RuleBasedStateMachine, initialize, invariant, precondition, rule, run_state_machine_as_test,
)  # fmt: skip

from harness import TOP, Said, day_command

FIRST = TOP / "examples/first-transfer.csv"
DATES = [datetime.date(2025, 3, 31) + datetime.timedelta(days) for days in range(5)]
# What stands in the first text: who holds what, and its transfer.
OPENING, FIRST_TRANSFER = {1: 100, 2: 0}, (1, 2, 40)
USERS = {1: "101,102", 2: "201,202"}
# After so many milliseconds a command may be killed: it takes some hundred.
KILLS = st.one_of(st.none(), st.integers(0, 150))
Transfer = tuple[int, int, int]
TRANSFERS = st.sampled_from([(source, 3 - source, amount) for source in (1, 2) for amount in (1, 30, 70, 500)])


@dataclass(frozen=True)
class Model:
    """How a folder stands: the transfers of each filed day, of how many days others know, what is handed in."""

    filed: tuple[tuple[Transfer, ...], ...] = ((FIRST_TRANSFER,),)
    released: int = 0
    handed: tuple[Transfer, ...] = ()

    def held(self) -> dict[int, int]:
        held = dict(OPENING)
        for source, to, amount in (transfer for day in self.filed for transfer in day):
            if amount <= held[source]:
                held[source] -= amount
                held[to] += amount
        return held

    def closed(self) -> Model:
        return replace(self, filed=(*self.filed, self.handed), handed=())

    def undone(self) -> Model:
        return replace(self, filed=self.filed[:-1], handed=(*self.filed[-1], *self.handed))

    def without(self, day: int, place: int) -> Model:
        rows = self.filed[day]
        return replace(self, filed=(*self.filed[:day], (*rows[:place], *rows[place + 1 :]), *self.filed[day + 1 :]))


def row_of(transfer: Transfer, date: datetime.date) -> str:
    source, to, amount = transfer
    return f"do,{date},{USERS[source]},transfer,{source},{to},general,{amount}"


def transfer_of(row: str) -> Transfer:
    fields = row.split(",")
    return int(fields[5]), int(fields[6]), int(fields[8])


class Office(RuleBasedStateMachine):
    """A folder of days, and what it has to be."""

    @initialize()
    def begin(self) -> None:
        self.work = Path(tempfile.mkdtemp())
        self.office, self.model = self.work / "office", Model()
        self.must("init", self.office, FIRST, office=False)
        self.must("close", "--date", DATES[0], "--second", "--yes")

    def words(self, *words: object) -> list[object]:
        return [*words, "--office", self.office]

    def must(self, *words: object, office: bool = True) -> None:
        said = Said(*(self.words(*words) if office else words))
        assert said.status in (0, 1), f"{words}: {said}"

    def must_not(self, *words: object) -> None:
        said = Said(*self.words(*words))
        assert said.status not in (0, 130), f"{words}: {said}"

    def give(self, after: Model, kill: int | None, *words: object) -> None:
        """Gives a command, which may be killed after a while: the folder is then as before or as after."""
        if kill is None:
            self.must(*words)
            self.model = after
            return
        child = os.fork()
        if child == 0:
            with open(os.devnull, "w", encoding="utf-8") as nothing:
                sys.stdout = sys.stderr = nothing
                try:
                    day_command(self.words(*words))
                finally:
                    os._exit(0)
        time.sleep(kill / 1_000)
        os.kill(child, signal.SIGKILL)
        os.waitpid(child, 0)
        found = self.seen()
        assert found in (self.model, after), f"{words} was killed after {kill} ms: {found}"
        self.model = found

    def seen(self) -> Model:
        """How the folder stands, by its own words."""
        rows = [*csv.DictReader(io.StringIO(Said(*self.words("status", "--csv")).output))]
        last = next(row for row in rows if row["what"] == "last day")
        handed = tuple(transfer_of(row["text"]) for row in rows if row["what"] == "handed in")
        filed, released = [], 0
        for place, date in enumerate(DATES[: DATES.index(datetime.date.fromisoformat(last["date"])) + 1], 1):
            log = [*csv.DictReader(io.StringIO(Said(*self.words("log", "--day", date)).output))]
            filed.append(tuple((int(row["from"]), int(row["to"]), int(row["amount"])) for row in log))
        released = self.model.released if last["text"] == "not released" else len(filed)
        return Model(tuple(filed), released, handed)

    @property
    def next_date(self) -> datetime.date:
        return DATES[len(self.model.filed)]

    @precondition(lambda self: len(self.model.filed) < len(DATES))
    @rule(transfers=st.lists(TRANSFERS, min_size=1, max_size=3), kill=KILLS)
    def hand_in(self, transfers: list[Transfer], kill: int | None) -> None:
        path = self.work / "handed.csv"
        rows = [row_of(transfer, self.next_date) for transfer in transfers]
        path.write_text("".join(f"{row}\n" for row in rows))
        again = [word for line in range(1, len(rows) + 1) for word in ("--again", f"{path}:{line}")]
        self.give(replace(self.model, handed=(*self.model.handed, *transfers)), kill, "hand-in", path, *again)

    @precondition(lambda self: len(self.model.filed) < len(DATES))
    @rule(kill=KILLS)
    def close(self, kill: int | None) -> None:
        self.give(self.model.closed(), kill, "close", "--date", self.next_date, "--second", "--yes")

    @precondition(lambda self: len(self.model.filed) > 1)
    @rule(kill=KILLS)
    def undo(self, kill: int | None) -> None:
        words = ["undo", DATES[len(self.model.filed) - 1], "--why", "a slip"]
        if len(self.model.filed) > self.model.released:
            self.give(self.model.undone(), kill, *words)
        else:
            self.must_not(*words)

    @precondition(lambda self: any(self.model.filed[1:]))
    @rule(data=st.data())
    def correct(self, data: st.DataObject) -> None:
        days = [day for day, rows in enumerate(self.model.filed) if day and rows]
        day = data.draw(st.sampled_from(days))
        place = data.draw(st.integers(0, len(self.model.filed[day]) - 1))
        record = 1 + sum(map(len, self.model.filed[:day])) + place
        words = ["correct", DATES[day], "--without", record, "--second", "--yes", "--why", "a slip"]
        if day >= self.model.released:
            self.give(self.model.without(day, place), None, *words)
        else:
            self.must_not(*words)

    @rule()
    def release(self) -> None:
        last = DATES[len(self.model.filed) - 1]
        if self.model.released < len(self.model.filed):
            after = replace(self.model, released=len(self.model.filed))
            self.give(after, None, "release", last, "--yes", "--why", "sent")

    @precondition(lambda self: len(self.model.filed) < len(DATES))
    @rule()
    def attempt(self) -> None:
        self.must("try", "--date", self.next_date)

    @invariant()
    def stands_as_the_model(self) -> None:
        if hasattr(self, "office"):
            assert self.seen() == self.model
            for account, held in self.model.held().items():
                rows = csv.DictReader(io.StringIO(Said(*self.words("balance", account, "--csv")).output))
                assert [row["held"] for row in rows if row["kind"] == "general"] == [str(held)]

    def teardown(self) -> None:
        if hasattr(self, "office"):
            try:
                said = Said(*self.words("audit", "--second"))
                assert said.status == 0, said
            finally:
                shutil.rmtree(self.work)


def test_commands_in_a_row() -> None:
    run_state_machine_as_test(  # type: ignore[no-untyped-call]
        Office, settings=settings(max_examples=24, stateful_step_count=12)
    )


setattr(test_commands_in_a_row, "machine", Office)
