"""`./day reconcile`: somebody's list, in each form in which spreadsheets save it, beside the accounts after a day."""
from __future__ import annotations

import csv
import io
import json
import random
from pathlib import Path

import pytest

from harness import TOP, Said
from offices import must_do
from opened import FORMS, written

WEEK = TOP / "examples/week"
MONDAY, TUESDAY = ([WEEK / f"{name}.csv", WEEK / f"{name}-report.csv"] for name in ("monday", "tuesday"))


def accounts_of(pair: list[Path]) -> list[list[str]]:
    """The accounts after a day as a table, from its report: what each is, and what it holds."""
    rows = [row.split(",")[1:] for row in pair[1].read_text().splitlines() if row.startswith("account,")]
    return [["no", "kind", "holder", "status", "outside", "waiver", "correction", "general", "aviation"], *rows]


def told(path: Path, *words: object) -> list[tuple[str, ...]]:
    said = Said("reconcile", path, *words, "--csv")
    rows = [tuple(row) for row in csv.reader(io.StringIO(said.output))]
    assert rows[:1] == [("what", "account", "field", "file", "day")] and said.status == bool(rows[1:]), said
    return rows[1:]


@pytest.mark.parametrize("form", FORMS)
def test_each_form(tmp_path: Path, form: str) -> None:
    """A list of the same day is alike, in any order of its rows and columns; of another day each cell differs that the
    reports have otherwise, and no other one."""
    table, path = accounts_of(MONDAY), tmp_path / f"list.{form}"
    order, rows = [*range(len(table[0]))], table[1:]
    drawn = random.Random(7)
    drawn.shuffle(order)
    drawn.shuffle(rows)
    path.write_bytes(written(form, [[row[place] for place in order] for row in [table[0], *rows]]))
    assert told(path, *MONDAY) == []
    assert Said("reconcile", path, *MONDAY).output.startswith("alike after 2025-09-22: accounts 6, of each kind, ")
    later = {row[0]: row for row in accounts_of(TUESDAY)[1:]}
    expected = {(row[0], name, cell, other) for row in table[1:]
                for name, cell, other in zip(table[0], row, later[row[0]]) if cell != other}  # fmt: skip
    assert {own[1:] for own in told(path, *TUESDAY)} == expected and expected
    assert {own[0] for own in told(path, *TUESDAY)} == {"differs"}


def test_accounts_that_one_side_lacks(tmp_path: Path) -> None:
    """Both are told, with what the other side has; --listed passes over those that the list does not have."""
    path, table = tmp_path / "list.csv", accounts_of(MONDAY)
    path.write_text("account,general\n7,\n" + "".join(f"{row[0]},{row[7]}\n" for row in table[2:]))
    gone = table[1]
    assert told(path, *MONDAY, "--listed") == [("not in the day", "7", "general", "", "")]
    assert told(path, *MONDAY) == [
        ("not in the day", "7", "general", "", ""), ("not in the file", gone[0], "general", "", gone[7]),
    ]  # fmt: skip
    rows = json.loads(Said("reconcile", path, *MONDAY, "--json").output)
    assert [(row["file"], row["day"]) for row in rows] == [("", None), (None, gone[7])]


def test_lists_of_an_account(tmp_path: Path) -> None:
    """All columns of `./day export --accounts`; what is a list in a cell may stand there in any order."""
    path = tmp_path / "accounts.csv"
    assert Said("export", *MONDAY, "--accounts", "--to", path).status == 0
    assert told(path, *MONDAY) == []
    rows = [*csv.reader(io.StringIO(path.read_text()))]
    place = rows[0].index("users")
    rows[1][place] = " ".join(reversed(rows[1][place].split()))
    rows[2][place] += " 77:both"
    path.write_bytes(written("csv", rows))
    was = rows[2][place].removesuffix(" 77:both")
    assert told(path, *MONDAY) == [("differs", rows[2][0], "users", rows[2][place], was)]


def test_a_list_of_others(tmp_path: Path) -> None:
    """With the mapping of `./day hand-in`, beside a day of a folder."""
    office = ["--office", str(tmp_path / "office")]
    must_do(["init", office[1], str(MONDAY[0])], ["close", "2025-09-22", "--second", *office])
    path, mapping = tmp_path / "list.csv", tmp_path / "mapping.ini"
    path.write_text("Konto;Art;Menge;Bemerkung\n100210;Betreiber;38.400;x\n100377;Betreiber;12.001;\n")
    mapping.write_text("[columns]\nKonto = no\nArt = kind\nMenge = general\nBemerkung =\n[kind]\nBetreiber = operator\n"
                       "[form]\namounts = 1.234.567\n")  # fmt: skip
    words = ["--mapping", mapping, "--day", "2025-09-22", "--listed", *office]
    assert told(path, *words) == [("differs", "100377", "general", "12001", "12000")]


@pytest.mark.parametrize("text, said", {
    "no,general\n1,1.000\n": "cell B2: general: found '1.000'; expected a number from 0",
    "no,general\n1,-1\n": "cell B2: general: found '-1'; expected a number from 0",
    "no,general\n,5\n": "cell A2: no: found nothing; expected",
    "no,general\n1,5\n1,5\n": "cell A3: no: found '1'; expected another account than in row 2",
    "no,kind\n1,bank\n": "cell B2: kind: found 'bank'; expected",
    "no\n1\n": "row 1: heading: found 'no'; expected a column no, and at least one of",
    "general\n1\n": "row 1: heading: found 'general'; expected a column no",
    "no,account,general\n1,1,5\n": "a second column no",
    "no,balance\n1,5\n": "found 'balance'; expected one of no, kind",
    "no,general\n1,5,6\n": "found '6'; expected nothing in a column without a name",
    "": "heading: found nothing; expected the names of columns",
}.items())  # fmt: skip
def test_a_wrong_list(tmp_path: Path, text: str, said: str) -> None:
    """Each wrong cell is told, and nothing is compared."""
    path = tmp_path / "list.csv"
    path.write_text(text)
    found = Said("reconcile", path, *MONDAY)
    assert (found.status, found.output) == (3, "") and said in found.errors, found
    assert found.errors.endswith("; nothing was compared\n")


def test_a_report_of_another_day(tmp_path: Path) -> None:
    """Nothing is compared with a report that does not follow from its day."""
    path = tmp_path / "list.csv"
    path.write_text("no,general\n100210,1\n")
    found = Said("reconcile", path, MONDAY[0], TUESDAY[1])
    assert (found.status, found.output) == (3, ""), found
