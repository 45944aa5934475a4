"""`./day diff`: in what two days differ, against what their reports say; of one folder, of two, by paths."""
from __future__ import annotations

import csv
import io
import itertools
import json
from pathlib import Path

import pytest

from harness import TOP, Said
from offices import changed, must_do, must_do_either

WEEK = TOP / "examples/week"
NAMES = ("monday", "tuesday", "wednesday")
DATES = ("2025-09-22", "2025-09-23", "2025-09-24")
HANDED_IN = ((), ("tuesday-do", "tuesday-work"), ("wednesday-do", "wednesday-changes"))


def lived(work: Path, name: str, own_rows: str = "") -> list[str]:
    """The words that name a folder with three days of the week; on the last one with these rows, too."""
    office = ["--office", str(work / name)]
    must_do(["init", office[1], str(WEEK / "monday.csv")])
    (work / "own.csv").write_text(own_rows)
    for date, files in zip(DATES, HANDED_IN):
        paths = [str(WEEK / f"{file}.csv") for file in files]
        paths += [str(work / "own.csv")] if own_rows and date == DATES[-1] else []
        must_do_either(*([["hand-in", *paths, *office]] if paths else []))
        must_do(["close", date, "--second", "--yes", *office])
    return office


@pytest.fixture(scope="module")
def office(tmp_path_factory: pytest.TempPathFactory) -> list[str]:
    return lived(tmp_path_factory.mktemp("diff"), "office")


def rows_of(*words: object) -> list[dict[str, str]]:
    said = Said("diff", *words, "--csv")
    assert said.status in (0, 1) and bool(said.status) == (said.output.count("\n") > 1), said
    return [*csv.DictReader(io.StringIO(said.output))]


def blocks_of(name: str) -> dict[str, list[str]]:
    """The rows of each account of a report, as they stand there."""
    found: dict[str, list[str]] = {}
    own: list[str] = []
    for row in (WEEK / f"{name}-report.csv").read_text().splitlines():
        if row.startswith("account,"):
            own = found.setdefault(row.split(",")[1], [])
        if not row.startswith(("log,", "book,", "totals,", "end")):
            own.append(row)
    return found


@pytest.mark.parametrize("first, second", itertools.permutations(range(3), 2))
def test_days_of_a_folder(office: list[str], first: int, second: int) -> None:
    """Each account that differs in the reports is named, with what it holds in each; and each instruction of both."""
    found = rows_of(DATES[first], DATES[second], *office)
    was, becomes = blocks_of(NAMES[first]), blocks_of(NAMES[second])
    others = {number for number in was.keys() | becomes.keys() if was.get(number) != becomes.get(number)}
    assert {row["account"] for row in found if row["what"] in ("account", "balance")} == others
    for place, kind in ((-2, "general"), (-1, "aviation")):
        held = [{number: rows[0].split(",")[place] for number, rows in own.items()} for own in (was, becomes)]
        expected = {n: (held[0].get(n, ""), held[1].get(n, "")) for n in others if held[0].get(n) != held[1].get(n)}
        told = {row["account"]: (row["first"], row["second"]) for row in found
                if (row["what"], row["field"]) == ("balance", kind)}  # fmt: skip
        assert told == expected
    logs = sum((WEEK / f"{NAMES[place]}-report.csv").read_text().count("log,") for place in (first, second))
    told_rows = [row for row in found if row["what"] == "instruction"]
    assert sum(bool(row["first"]) + bool(row["second"]) for row in told_rows) == logs
    swapped = rows_of(DATES[second], DATES[first], *office)
    assert sorted((*row.values(),) for row in found) == sorted(
        (row["what"], row["account"], row["field"], row["second"], row["first"]) for row in swapped
    )


def test_a_day_and_itself(office: list[str]) -> None:
    assert rows_of(DATES[1], DATES[1], *office) == []
    assert rows_of(DATES[1], *office, "--with", office[1]) == rows_of(*office, "--with", office[1]) == []


def test_paths_are_told_as_a_folder(office: list[str]) -> None:
    paths = [WEEK / f"{name}{end}.csv" for name in NAMES[:2] for end in ("", "-report")]
    assert rows_of("--pairs", *paths) == rows_of(*DATES[:2], *office)
    said = Said("diff", "--pairs", *paths, "--json")
    assert [{name: str(value or "") for name, value in row.items()} for row in json.loads(said.output)] == rows_of(
        "--pairs", *paths
    )


def test_paths_of_the_later_day_first(office: list[str]) -> None:
    paths = [WEEK / f"{name}{end}.csv" for name in NAMES[1::-1] for end in ("", "-report")]
    assert rows_of("--pairs", *paths) == rows_of(*DATES[1::-1], *office)


def test_two_folders_with_another_instruction(office: list[str], tmp_path: Path) -> None:
    """What one more creation makes of a day, and nothing else."""
    row = "2025-09-24,901,902,create,900009,general,7"
    other = lived(tmp_path, "other", f"do,{row}\n")
    assert rows_of(DATES[1], *office, "--with", other[1]) == []
    before = next(own[0].split(",")[-2] for own in [blocks_of(NAMES[-1])["900009"]])
    assert [(*own.values(),) for own in rows_of(*office, "--with", other[1])] == [
        ("balance", "900009", "general", before, str(int(before) + 7)),
        ("instruction", "900009", row, "", "record 61018: done"),
    ]


def test_rules_of_two_folders(office: list[str], tmp_path: Path) -> None:
    """A rule that was changed by hand before the last day."""
    other = lived(tmp_path, "other")
    must_do(["undo", DATES[-1], "--why", "x", *other], ["change", "--admin", "+903", "--why", "x", "--yes", *other])
    must_do(["close", DATES[-1], "--second", "--yes", *other])
    assert [(*row.values(),) for row in rows_of(*office, "--with", other[1])] == [("rule", "", "admin 903", "", "yes")]


def test_words_that_name_no_two_days(office: list[str], tmp_path: Path) -> None:
    pair = [WEEK / "monday.csv", WEEK / "monday-report.csv"]
    refused: list[tuple[list[object], str]] = [
        ([*office], "found 0 dates; expected two"), ([DATES[0], *office], "found 1 dates; expected two"),
        ([*DATES, *office], "found 3 dates"), ([DATES[0], "2025-09-25", *office], "2025-09-25: "),
        ([DATES[0], "2025-9-24", *office], "DATE 2025-9-24 is not a date"),
        (["--pairs", *pair], "--pairs takes DAY REPORT DAY"),
        (["--pairs", *pair, *pair, *office], "--pairs stands in place of --office"),
        ([DATES[0], *office, "--with", tmp_path], "is no folder of days"),
    ]  # fmt: skip
    for words, told in refused:
        said = Said("diff", *words)
        assert (said.status, told in said.errors, said.output) == (2, True, ""), said


def test_a_folder_that_was_changed_otherwise(tmp_path: Path) -> None:
    """Tables that do not have what the days have are a fault of their file, and no traceback."""
    office = lived(tmp_path, "office")
    changed(tmp_path / "office", "UPDATE log SET code = 99, is_done = 0 WHERE record = 61003")
    said = Said("diff", *DATES[:2], *office)
    assert said.status == 3 and "audit" in said.errors, said
