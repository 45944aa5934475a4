"""Months that are drawn, and lived in a folder of days by one login: each day and report must be what the same files
give by paths. cases/months_of_three.py has those of three people. For cases/run-office."""
from __future__ import annotations

import datetime
import random
import shutil
from collections.abc import Iterator
from pathlib import Path

from drawing import Heading, Instructions, drawn_book
from harness import Said
from interrupted import FAILURES, Interrupted, interrupted_trial, restore
from offices import rows_of, state_of, text_of

from registry_tools.second import rules
from registry_tools.texts.report import read_report

DAYS = 20
# Of so many commands of a month one is interrupted.
INTERRUPTED = 20


class Month:
    """Drawn days, which go through a folder, and by paths through `./day next` and the second answer."""

    def __init__(self, work: Path, seed: int, runs: Interrupted) -> None:
        self.work, self.chance, self.runs = work, random.Random(seed), runs
        self.name, self.office = f"month {seed}", work / "office"
        self.heading = Heading(self.chance)
        self.heading.next_record = 10_000
        self.accounts = [*drawn_book(self.chance, self.heading)]
        self.drawer = Instructions(self.chance, self.heading, self.accounts)
        self.pairs: list[tuple[Path, Path]] = []
        self.wrong: str | None = None
        # How many commands were given, and how many of them were interrupted.
        self.given = self.interrupted = 0
        work.mkdir()

    def run(self, *words: object, wanted: tuple[int, ...] = (0, 1)) -> str | None:
        """Gives a command; what is wrong, if something is."""
        self.given += 1
        if self.chance.randrange(INTERRUPTED) == 0:
            return self.run_interrupted([*map(str, words), "--office", str(self.office)], wanted)
        said = Said(*words, "--office", self.office)
        return None if said.status in wanted else f"{words}: {said}"

    def run_interrupted(self, words: list[str], wanted: tuple[int, ...]) -> str | None:
        """The command to its end, then from the same folder to a drawn call, and on from there."""
        runs, kept, begun = self.runs, self.work / "kept", state_of(self.office)
        shutil.rmtree(kept, ignore_errors=True)
        shutil.copytree(self.office, kept)
        status, count, says = runs.run(words)
        if status not in wanted:
            return f"{words}: {status}: {says}"
        ended = state_of(self.office)
        if not count:
            return None
        self.interrupted += 1
        restore(self.office, kept)
        number, error = self.chance.randint(1, count), self.chance.choice([0, 0, *FAILURES])
        wrong = interrupted_trial(runs, self.office, words, number, error, (begun, ended), status)
        return wrong and f"{words}: {'fails' if error else 'ends'} at call {number} of {count}: {wrong}"

    def instructions(self) -> list[str]:
        return [self.drawer.row() for _ in range(self.chance.choice([0, 2, 6]))]

    def first_rows(self) -> Iterator[str]:
        """The first text."""
        yield from self.heading.rows(self.chance)
        yield from (row for account in self.accounts for row in account.rows)
        yield from self.instructions()
        yield "end"

    def begin(self) -> str | None:
        first = self.work / "0.csv"
        first.write_text("\n".join([*self.first_rows(), ""]))
        said = Said("init", self.office, first)
        if said.status:
            return str(said)
        more = self.hand_in(0, "do", self.instructions())
        text = first.read_text().splitlines()[:-1]
        first.write_text("\n".join([*text, *(more.read_text().splitlines() if more else []), "end", ""]))
        return self.close(0, self.heading.day, first)

    def hand_in(self, place: int, kind: str, rows: list[str]) -> Path | None:
        """Hands in a file of rows, if there are some; and one more, which is taken back."""
        if not rows:
            return None
        path = self.work / f"{place}.{kind}"
        path.write_text("".join(f"{row}\n" for row in rows))
        again = [word for line in range(1, len(rows) + 1) for word in ("--again", f"{path}:{line}")]
        again = again if kind == "do" else []
        self.wrong = self.wrong or self.run("hand-in", path, *again)
        if kind == "do" and self.chance.random() < 0.3:
            first = self.first_place()
            self.wrong = self.wrong or self.run("hand-in", path, *again)
            places = range(first, first + len(rows))
            self.wrong = self.wrong or self.run("take-back", *places, "--why", "twice")
        return path

    def first_place(self) -> int:
        """The place behind all that was handed in."""
        ((first,),) = rows_of(self.office, "SELECT coalesce(max(start + count), 1) FROM handed_for_the_next_day")
        return int(first)

    def next(self, place: int) -> str | None:
        """One more day: by paths, and by the folder."""
        self.wrong = None
        day, report = self.pairs[-1]
        self.heading.day += datetime.timedelta(self.chance.choice([1, 1, 2, 3]))
        self.drawer.next_record = read_report(report).next_record
        words: list[object] = ["next", report, day, "--date", self.heading.day, "--again"]
        words += ["--pending" if place > 1 else "--pending-new", self.work / "pending.csv"]
        # (working days come first: without one after the last day nothing else can be handed in)
        kinds = {"work": self.more_work(place), "do": self.instructions(), "changes": self.changes(place, report)}
        for kind, rows in kinds.items():
            path = self.hand_in(place, kind, rows)
            if path:
                words += [f"--{kind}", path]
        by_paths = Said(*words)
        if self.wrong or by_paths.status not in (0, 1):
            return self.wrong or str(by_paths)
        text = self.work / f"{place}.csv"
        text.write_text(by_paths.output)
        return self.close(place, self.heading.day, text)

    def more_work(self, place: int) -> list[str]:
        if place >= 4:
            return []
        last = self.heading.working_days[-1]
        self.heading.working_days += [last + datetime.timedelta(days) for days in range(1, 4)]
        return [f"work,{date}" for date in self.heading.working_days[-4:]]

    def changes(self, place: int, report: Path) -> list[str]:
        """A new account."""
        if place % 7 != 3:
            return []
        number = max(read_report(report).book) + 1
        return [f"account,{number},trading,78,open,no,no,0,0,0", "user,101,both"]

    def close(self, place: int, date: datetime.date, text: Path) -> str | None:
        """Closes the day in the folder, and compares it with its text by paths, and its report with the second
        answer."""
        report = self.work / f"{place}.report"
        report.write_text(rules.answers(text.read_bytes())["settle"])
        self.pairs.append((text, report))
        for time in range(self.chance.choice([1, 1, 1, 2])):
            wrong = self.run("undo", date, "--why", "once more") if time else None
            wrong = wrong or self.run("close", "--yes", "--date", date, "--second") or self.compare(date, text, report)
            if wrong:
                return wrong
        return None

    def compare(self, date: datetime.date, text: Path, report: Path) -> str | None:
        for column, expected in (("text", text), ("report", report)):
            if text_of(self.office, str(date), column) != expected.read_bytes():
                return f"the {column} of {date} is not {expected}"
        return None

    def trial(self) -> str | None:
        wrong = self.begin()
        for place in range(1, DAYS):
            wrong = wrong or self.next(place)
        said = Said("audit", "--second", "--office", self.office)
        return wrong or (str(said) if said.status else None)
