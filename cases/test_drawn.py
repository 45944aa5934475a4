"""Tries the program, the second answer and the office on drawn days: hypothesis draws them, and makes what fails small.

What fails is kept in out/drawn as a case, with what the second answer says of it; who has worked out by hand which of
both is wrong moves it into a folder of cases/.
"""
from __future__ import annotations

import csv
import io
import tempfile
from pathlib import Path

import pytest

pytest.importorskip("hypothesis", reason="hypothesis is not installed (python3-hypothesis)")

from hypothesis import assume, given
from hypothesis import strategies as st

from compared import Expected, difference
from drawn import arranged, damaged, days, spelled
from harness import TOP, Said
from opened import FORMS, written
from registry_tools.errors import FileFault
from registry_tools.second import faults, rules
from registry_tools.texts.day_text import read_day
from registry_tools.texts.report import read_report

KEPT = TOP / "out/drawn"


def keep(name: str, text: bytes, expected: Expected) -> Path:
    """Keeps a text that shows a failure as a case. (The last one that is kept is the smallest.)"""
    KEPT.mkdir(parents=True, exist_ok=True)
    case = KEPT / f"{name}.csv"
    parts = {".csv": text, ".stdout": expected[0].encode(), ".stderr": expected[1].encode()}
    for suffix, part in {**parts, ".status": b"%d\n" % expected[2]}.items():
        case.with_suffix(suffix).write_bytes(part)
    return case


def agrees(program: Path, name: str, text: bytes) -> None:
    """Whether the program answers as the second answer does, by any number of workers."""
    fault = faults.first_fault(text)
    answers = {} if fault else rules.answers(text)
    workers = [f"settle --workers {count}" for count in (1, 2, 5)]
    for words in workers if fault else [*workers, *(words for words in answers if words != "settle")]:
        expected = ("", fault, 3) if fault else (answers[words.partition(" --")[0]], "", 0)
        said = difference(program, words, text, expected)
        assert not said, f"{said}\nthe text is kept as {keep(name, text, expected)}:\n{text.decode()}"


@given(text=spelled(days()))
def test_program_settles_as_the_second_answer(program: Path, text: bytes) -> None:
    agrees(program, "settled-otherwise", text)


@given(text=spelled(damaged()))
def test_program_finds_the_fault_of_the_second_answer(program: Path, text: bytes) -> None:
    agrees(program, "another-fault", text)


@given(text=spelled(damaged()))
def test_fault_is_explained(text: bytes) -> None:
    """Whether explain names the row of the first fault, or finds none where there is none."""
    fault = faults.first_fault(text)
    with tempfile.TemporaryDirectory() as work:
        day = Path(work) / "day.csv"
        day.write_bytes(text)
        said = Said("explain", day)
    told = said.output + said.errors
    assert said.status == (1 if fault else 0), f"{fault}: {told}"
    assert not fault or fault.split(":")[0].removeprefix("row ") in told, f"{fault}: {told}"


@given(rows=days())
def test_next_day_follows(rows: list[str]) -> None:
    """Whether the day that is made of a day and its report follows from them, and is a day text."""
    text = "\n".join([*rows, ""])
    assume(not faults.first_fault(text.encode()))
    with tempfile.TemporaryDirectory() as folder:
        work = Path(folder)
        day, report, second = work / "day.csv", work / "day.report", work / "next.csv"
        day.write_text(text)
        report.write_text(rules.answers(text.encode())["settle"])
        made = Said("next", day, report, "--date", "2027-03-11")
        assert made.status in (0, 1), made
        second.write_text(made.output)
        assert not faults.first_fault(second.read_bytes())
        after = work / "next.report"
        after.write_text(rules.answers(second.read_bytes())["settle"])
        chain = Said("chain", day, report, second, after)
        assert chain.status == 0, chain
        assert read_report(after).next_record >= read_report(report).next_record


def test_book_of_two_periods_is_looked_at_again_for_one(tmp_path: Path) -> None:
    """What is known of a text says nothing of one that has fewer periods, and the same accounts."""
    day, other = TOP / "cases/periods/a-day-in-the-second-of-two-periods.csv", tmp_path / "other.csv"
    other.write_text(day.read_text().replace("period,2025,2030\ncurrent,2\n", "current,1\n"))
    with pytest.raises(FileFault, match="PERIOD: found '2'"):
        read_day(other, read_day(day).known())


@given(rows=days(), form=st.sampled_from(FORMS), data=st.data())
def test_table_is_read_as_it_was_written(rows: list[str], form: str, data: st.DataObject) -> None:
    """Whether instructions come back from a table in each form, whatever the order of its columns."""
    wanted = [row for row in rows if row.startswith("do,")]
    assume(not faults.first_fault("\n".join([*rows, ""]).encode()))
    with tempfile.TemporaryDirectory() as folder:
        work = Path(folder)
        day, report, table = work / "day.csv", work / "day.report", work / f"table.{form}"
        day.write_text("\n".join([*rows, ""]))
        report.write_text(rules.answers(day.read_bytes())["settle"])
        cells = [*csv.reader(io.StringIO(Said("export", day, report, "--instructions").output))]
        table.write_bytes(written(form, data.draw(arranged(cells))))
        said = Said("import", table, "--instructions")
    assert (said.output.splitlines(), said.status) == (wanted, 0), said
