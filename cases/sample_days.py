"""Days that several scripts of this folder try: texts, pairs of a day and its report, a folder with files that are
handed in, and how a row of them is changed. The reports are those of the second answer (tools/rules.py).
"""
from __future__ import annotations

import dataclasses
import datetime
import random
from collections.abc import Collection, Mapping
from pathlib import Path

from harness import TOP, Said

from registry_tools import tables
from registry_tools.second import faults, rules

# Users 201 and 202 propose and approve for account 2. The transfer to account 4, which it trusts, is due on the day;
# the one to account 3 on the next day but one.
MONDAY = """format,1
day,2025-05-12,40
period,2021,2030
lags,0,2,1,2
surrender,operator,general
admin,901
admin,902
work,2025-05-05
work,2025-05-06
work,2025-05-07
work,2025-05-08
work,2025-05-09
work,2025-05-12
work,2025-05-13
work,2025-05-14
work,2025-05-15
work,2025-05-16
work,2025-05-19
work,2025-05-20
work,2025-05-21
work,2025-05-22
account,2,operator,12,open,yes,no,0,500,0
user,201,both
user,202,both
trusted,4,2025-03-03
account,3,trading,13,open,yes,no,0,10,0
user,301,both
user,302,both
account,4,trading,14,open,yes,no,0,0,0
account,9,total,1,open,no,no,0,0,0
do,2025-05-12,201,202,transfer,2,4,general,30
do,2025-05-12,201,202,transfer,2,3,general,7
do,2025-05-12,201,202,surrender,2,aviation,5
end
"""

# Two periods, and instructions of both.
MONDAY_OF_TWO_PERIODS = """format,2
day,2025-05-12,40
period,2021,2025
period,2026,2030
current,1
lags,0,1,1,2
surrender,operator,general
admin,901
admin,902
work,2022-03-01
work,2022-03-02
work,2022-03-03
work,2022-03-04
work,2025-05-12
work,2025-05-13
work,2025-05-14
work,2025-05-15
work,2025-05-16
account,2,operator,12,open,no,no,0,500,0
user,201,both
user,202,both
retired,7,deletion,general,60,2022-03-01,no
account,3,trading,13,open,no,no,0,10,0
account,9,total,1,open,no,no,0,0,0
do,2025-05-12,901,902,create,9,general,100000
end
"""


class Pair:
    """A day text and its report, as files."""

    def __init__(self, work: Path, name: str, text: str) -> None:
        self.day, self.report = work / f"{name}.csv", work / f"{name}.report"
        self.day.write_text(text)
        self.report.write_text(rules.answers(text.encode())["settle"])


def example(work: Path, name: str) -> Pair:
    return Pair(work, name, (TOP / "examples" / f"{name}.csv").read_text())


class Office:
    """A folder with Monday, its report, and files that are handed in."""

    def __init__(self, work: Path, name: str) -> None:
        self.work = work / name
        self.work.mkdir()
        self.pair = Pair(self.work, "monday", MONDAY)

    def file(self, name: str, *rows: str) -> Path:
        path = self.work / name
        path.write_text("".join(f"{row}\n" for row in rows))
        return path

    def next(self, *words: Path | str, pair: Pair | None = None, date: str = "2025-05-13") -> Said:
        pair = pair or self.pair
        return Said("next", pair.day, pair.report, "--date", date, *words)

    def settled(self, name: str, said: Said) -> Pair:
        """The next day as a pair, from what `next` said."""
        return Pair(self.work, name, said.output)


def is_told(said: Said, status: int, *parts: str) -> str | None:
    """What is wrong with what a command said; nothing if the status is this one, and one line has all these parts."""
    lines = [line for line in (said.output + said.errors).splitlines() if all(part in line for part in parts)]
    return None if said.status == status and lines else f"status {status} and a line with {parts} are wanted: {said}"


def due_behind(head: rules.Day, accounts: Mapping[int, rules.Account], i: rules.Instruction) -> datetime.date | None:
    """The first working day behind a day on which an instruction is due, by asking the rules on each of them."""
    for day in (date for date in head.working_days if date > head.date):
        due = rules.Asked(dataclasses.replace(head, date=day, accounts=accounts), i).due()
        if due is not None and due <= day:
            return day
    return None


def change_field(chance: random.Random, path: Path, changed: Path, tags: Collection[str]) -> str:
    """Writes a text in which one field of a row with one of these tags is another one; says which. Rows of each tag are
    as likely."""
    rows = path.read_text().splitlines()
    places = [place for place, row in enumerate(rows) if row.partition(",")[0] in tags]
    tag = chance.choice(sorted({rows[place].partition(",")[0] for place in places}))
    place = chance.choice([place for place in places if rows[place].partition(",")[0] == tag])
    fields = rows[place].split(",")
    field = chance.randrange(1, len(fields))
    fields[field] = other_word(chance, fields[field])
    rows[place] = ",".join(fields)
    changed.write_text("\n".join([*rows, ""]))
    return f"{path.name}:{place + 1}, field {field + 1}: {rows[place]}"


def other_word(chance: random.Random, word: str) -> str:
    """Another word of the same kind."""
    if word.lstrip("-").isdigit():
        return str(int(word) + chance.choice([1, -1]))
    if word[:2] == "20" and "-" in word:
        return str(datetime.date.fromisoformat(word) + datetime.timedelta(chance.choice([1, -1])))
    for words in (tables.YES_NO, rules.KINDS, faults.STATUSES, faults.ACCOUNT_KINDS, tables.RIGHTS, tables.RETIRED_AS):
        if word in words:
            return chance.choice([each for each in words if each != word])
    return word + "1"
