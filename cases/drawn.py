"""What hypothesis draws: day texts from their rows on, texts that were damaged, and tables as others write them.

A drawn day is small where it can be: what is left after a failure is the smallest text that hypothesis found.
"""
from __future__ import annotations

import datetime
from collections.abc import Callable
from typing import Any

from hypothesis import strategies as st

from drawing import ACTS, STRANGE
from registry_tools import tables
from registry_tools.second import rules
from registry_tools.second.checks import BETWEEN, BY_ADMINISTRATORS

Draw = Callable[[st.SearchStrategy[Any]], Any]
DAY = datetime.date(2027, 3, 10)
WORK = [DAY + datetime.timedelta(days) for days in range(-6, 8)]
ADMINS = (901, 902, 903)
USERS = {101: "both", 102: "both", 103: "propose", 104: "approve"}
NUMBERS = (1, 2, 3, 5, 8)
KINDS = ("trading", "operator", "aircraft", "allocation", "total")
STATUSES = ("open", "open", "open", "blocked", "excluded", "closed")
SURRENDERS = ("operator,general", "operator,aviation", "aircraft,general", "aircraft,aviation")
AMOUNTS = st.sampled_from([1, 2, 5, 60, 40, 0, tables.MOST_HELD])
HOLDINGS = st.sampled_from([0, 60, 100, tables.MOST_HELD - 1, tables.MOST_HELD])


@st.composite
def headings(draw: Draw) -> list[str]:
    """The rows before the accounts."""
    version = draw(st.sampled_from([1, 2]))
    periods = [(2021, 2030)] if version == 1 else [(2021, 2025), (2026, 2030)][: draw(st.integers(1, 2))]
    rows = [f"format,{version}", f"day,{DAY},{draw(st.sampled_from([200, 10**15 - 2]))}"]
    rows += [f"period,{first},{last}" for first, last in periods]
    rows += [f"current,{draw(st.integers(1, len(periods)))}"] if version == 2 else []
    lags = [*(draw(st.integers(0, 2)) for _ in range(3)), draw(st.sampled_from([0, 5]))]
    rows.append(",".join(map(str, ["lags", *lags])))
    rows += [f"surrender,{pair}" for pair in SURRENDERS if draw(st.booleans())]
    rows += [f"admin,{user}" for user in ADMINS]
    return rows + [f"work,{date}" for date in WORK]


@st.composite
def accounts(draw: Draw, number: int, periods: int) -> list[str]:
    """The rows of an account."""
    kind, status = draw(st.sampled_from(KINDS)), draw(st.sampled_from(STATUSES))
    words = [draw(st.sampled_from(["no", "yes"])) for _ in range(2)]
    held = [draw(HOLDINGS) for _ in range(2)]
    rows = [f"account,{number},{kind},{10 + number % 3},{status},{words[0]},{words[1]},{draw(st.integers(-7, 7))}"]
    rows[0] += f",{held[0]},{held[1]}"
    rows += [f"correction,{period},{draw(st.integers(-30, 90))}" for period in range(2, periods + 1)]
    rows += [f"user,{user},{right}" for user, right in USERS.items()]
    trusted = draw(st.lists(st.sampled_from(NUMBERS), unique=True, max_size=3))
    rows += [f"trusted,{other},{DAY - datetime.timedelta(draw(st.integers(-1, 1)))}" for other in sorted(trusted)]
    for record in range(10 * number, 10 * number + draw(st.integers(0, 2))):
        what, days = draw(st.sampled_from(["surrender", "deletion"])), draw(st.integers(0, 10))
        rows.append(f"retired,{record},{what},{draw(st.sampled_from(rules.KINDS))},{draw(st.integers(1, 90))}")
        rows[-1] += f",{DAY - datetime.timedelta(days)},{draw(st.sampled_from(['no', 'yes']))}"
    rows += [f"emissions,{year},{draw(st.integers(0, 60))}" for year in range(2021, 2021 + draw(st.integers(0, 3)))]
    years = draw(st.lists(st.integers(2021, 2024), unique=True, max_size=2))
    return rows + [f"figure,{year},{draw(st.integers(-5, 5))}" for year in sorted(years)]


@st.composite
def instructions(draw: Draw, numbers: list[int]) -> str:
    """An instruction, most of whose parts are as they have to be."""
    act, known = draw(st.sampled_from(sorted({*ACTS}))), st.sampled_from(numbers or [77])
    first, other = draw(known), draw(st.one_of(known, st.just(77)))
    kind = draw(st.sampled_from(rules.KINDS))
    if act == "distribute":
        fields = [kind, *(part for _ in range(draw(st.integers(1, 3))) for part in (draw(known), draw(AMOUNTS)))]
    elif act in BETWEEN:
        fields = [other, kind, draw(AMOUNTS)]
    else:
        fields = {
            "reverse": [draw(st.sampled_from([10, 20, 11, 50, 200]))], "trust": [other], "untrust": [other],
            "status": [draw(st.sampled_from(STATUSES))], "assess": [draw(st.integers(2021, 2031))],
            "emissions": [draw(st.integers(2021, 2027)), draw(st.integers(0, 60))],
        }.get(act, [kind, draw(AMOUNTS)])  # fmt: skip
    users = ADMINS if act in BY_ADMINISTRATORS else tuple(USERS)
    proposer, approver = draw(st.sampled_from(users)), draw(st.sampled_from([*users[::-1], "", 901, 101]))
    date = DAY - datetime.timedelta(draw(st.integers(-1, 4)))
    return ",".join(map(str, ["do", date, proposer, approver, act, first, *fields]))


@st.composite
def days(draw: Draw) -> list[str]:
    """The rows of a day text."""
    heading = draw(headings())
    numbers = sorted(draw(st.lists(st.sampled_from(NUMBERS), unique=True, max_size=4)))
    periods = sum(row.startswith("period,") for row in heading)
    rows = [*heading, *(row for number in numbers for row in draw(accounts(number, periods)))]
    return [*rows, *draw(st.lists(instructions(numbers), max_size=6)), "end"]


@st.composite
def damaged(draw: Draw) -> list[str]:
    """The rows of a day text, of which one or two are others than they were."""
    rows: list[str] = draw(days())
    for _ in range(draw(st.integers(1, 2))):
        place = draw(st.integers(0, len(rows) - 1))
        way = draw(st.sampled_from(["field", "more", "fewer", "out", "move"]))
        fields = rows.pop(place).split(",")
        if way == "field":
            fields[draw(st.integers(0, len(fields) - 1))] = draw(st.sampled_from(STRANGE))
        elif way == "more":
            fields.append(draw(st.sampled_from(STRANGE)))
        elif way == "fewer":
            del fields[-1:]
        elif way == "move":
            place = draw(st.integers(0, len(rows)))
        rows[place:place] = [] if way == "out" else [",".join(fields)]
    return rows


@st.composite
def spelled(draw: Draw, rows: st.SearchStrategy[list[str]]) -> bytes:
    """The text of rows, with the line ends, quotes and marks that a text may have."""
    end, mark = draw(st.sampled_from(["\n", "\r\n", "\r"])), draw(st.sampled_from([b"", b"\xef\xbb\xbf"]))
    lines: list[str] = draw(rows)
    if lines and draw(st.booleans()):
        place = draw(st.integers(0, len(lines) - 1))
        lines[place] = ",".join(f'"{field}"' for field in lines[place].split(","))
    return bytes(mark + end.join([*lines, ""]).encode())


@st.composite
def arranged(draw: Draw, cells: list[list[str]]) -> list[list[str]]:
    """A table whose columns stand in another order, with empty rows between others."""
    places = draw(st.permutations(range(len(cells[0]))))
    rows = [[row[place] for place in places] for row in cells]
    for _ in range(draw(st.integers(0, 2))):
        rows.insert(draw(st.integers(1, len(rows))), [""] * len(places))
    return rows
