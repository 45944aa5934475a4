"""Tries the package registry_office, by which programs of others use a folder of days: what it names, what it says of
each name, and that a call ends nothing and holds back no signal."""
from __future__ import annotations

import ast
import datetime
import inspect
import itertools
import os
import re
import signal
import subprocess
import sys
import threading
from collections.abc import Callable, Iterator
from pathlib import Path
from unittest import mock

import pytest

import registry_office as office
from harness import PYTHON, TOP, Word, answer_of
from offices import FIRST, chained_anew, changed, content_of, without_triggers

from registry_tools.pairs import compliance
from registry_tools.store import events, past
from registry_tools.store.past import PastDay
from registry_tools.texts.rows import sum_of

DATE = datetime.date(2025, 3, 31)
FUNCTIONS = [name for name in office.__all__ if inspect.isfunction(getattr(office, name))]
CLASSES = [name for name in office.__all__ if inspect.isclass(getattr(office, name))]
TOLD = """\
2025-09-22: done 4, refused Counter({'KindNotAllowed': 1}), waiting 2
2025-09-23: done 5, refused Counter({'UnknownAccount': 1}), waiting 1
words: 2025-09-22 is not the last day, and only 2025-09-23, which is, can be undone
2025-09-23 100210 general 200 158700 0
2025-09-23 100210 aviation 0 0 0
differences: 0
"""


@pytest.fixture
def folder(tmp_path: Path) -> Iterator[office.Office]:
    """A folder of days with its first text, which is not settled."""
    office.make_folder(office.Init(tmp_path / "office", str(FIRST)), "ana")
    with office.open_folder(tmp_path / "office") as opened:
        yield opened


def closed(folder: office.Office, **more: bool) -> office.Closed | office.Doubts | office.AskedFor:
    return office.close(folder, office.caller(folder, "ana"), office.Close(DATE, by_second=True, **more))


def test_example_runs(tmp_path: Path) -> None:
    """As a program of somebody else: it finds the packages, and no cases."""
    command: list[Word] = [sys.executable, "-B", TOP / "examples/python/office.py", tmp_path / "office"]
    assert answer_of(command, cwd=TOP, env={**os.environ, "PYTHONPATH": str(PYTHON)}) == (TOLD.encode(), b"", 0)


def test_all_is_what_it_names() -> None:
    tree = ast.parse(Path(str(office.__file__)).read_text("utf-8"))
    given = {alias.asname or alias.name for node in tree.body if isinstance(node, ast.ImportFrom)
             for alias in node.names if (node.module or "").startswith("registry_tools")}  # fmt: skip
    made = {node.name for node in tree.body if isinstance(node, ast.FunctionDef)}
    inside = {"SETTINGS", "People", "at_one_moment", "by_of", "copies", "folder", "opening", "progress"}
    assert sorted((given | made) - inside) == sorted(office.__all__)


@pytest.mark.parametrize("name", FUNCTIONS)
def test_each_function_says_what_it_raises_and_has_types(name: str) -> None:
    function = getattr(office, name)
    signature = inspect.signature(function)
    untyped = [each for each, own in signature.parameters.items() if own.annotation is own.empty]
    assert "Raises" in (function.__doc__ or ""), f"{name} does not say what it raises"
    assert not untyped and signature.return_annotation is not signature.empty


@pytest.mark.parametrize("name", CLASSES)
def test_each_class_says_what_it_is(name: str) -> None:
    assert (getattr(office, name).__doc__ or "").strip()


def test_values_cannot_be_changed_behind_what_was_asked() -> None:
    asked = office.Close(DATE)
    with pytest.raises(AttributeError):
        asked.date = None  # type: ignore[misc]


def test_nothing_is_printed_and_day_is_filed(folder: office.Office, capfd: pytest.CaptureFixture[str]) -> None:
    came = closed(folder)
    assert isinstance(came, office.Closed) and came.outcome.done == 1
    assert capfd.readouterr() == ("", "") and [own.date for own in folder.events.days] == [DATE]


def test_signals_come_again_behind_a_change(folder: office.Office) -> None:
    """A command holds them back until its end; a program goes on."""
    before = signal.pthread_sigmask(signal.SIG_BLOCK, ())
    closed(folder)
    assert signal.pthread_sigmask(signal.SIG_BLOCK, ()) == before


Asking = Callable[[], object]


def no_such_folder(folder: office.Office) -> Asking:
    return lambda: office.open_folder(folder.path / "none")


def another_day(folder: office.Office) -> Asking:
    return lambda: office.close(folder, office.caller(folder, "ana"), office.Close(datetime.date(2025, 4, 1)))


def too_late(folder: office.Office) -> Asking:
    ben = office.caller(folder, "ben", folder.state())
    closed(folder)
    return lambda: office.undo(folder, ben, office.Undo(DATE, "a slip"))


def handing_in(folder: office.Office, giver: str) -> Asking:
    row = folder.path.with_name("row.csv")
    row.write_text(f"do,2025-03-31,101,102,transfer,{giver},2,general,40\n")
    return lambda: office.hand_in(folder, office.caller(folder, "ben"), office.HandIn((office.Given(str(row)),)))


def twice(folder: office.Office) -> Asking:
    closed(folder)
    return handing_in(folder, "1")


def no_row(folder: office.Office) -> Asking:
    return handing_in(folder, "x")


def no_name(folder: office.Office) -> Asking:
    return lambda: office.caller(folder, "ana\nben")


@pytest.mark.parametrize(
    "ask, code, says",
    [
        (no_such_folder, "file", "no such file"), (another_day, "words", "2025-03-31"), (too_late, "late", "changed"),
        (twice, "had", "2025-03-31 has done"), (no_row, "row", "found 'x'"), (no_name, "words", "in one line"),
    ],
)  # fmt: skip
def test_fault_has_its_code_and_changes_nothing(
    folder: office.Office, ask: Callable[[office.Office], Asking], code: str, says: str
) -> None:
    asking = ask(folder)
    before = content_of(folder.path)
    with pytest.raises(office.Fault, match=says) as raised:
        asking()
    assert raised.value.code == code and [own.code for own in raised.value.parts()]
    assert content_of(folder.path) == before and not folder.store.db.in_transaction


def test_a_fault_behind_a_late_one_is_its_own(folder: office.Office) -> None:
    with pytest.raises(office.LateFault):
        too_late(folder)()
    with pytest.raises(office.RowFault) as raised:
        no_row(folder)()
    assert (raised.value.code, raised.value.line, raised.value.found) == ("row", 1, "'x'")


def test_a_day_that_is_not_settled_is_told(folder: office.Office) -> None:
    closed(folder)
    with office.days_of(folder) as days:
        assert days.day(DATE).date == DATE
        with pytest.raises(office.WordsFault, match="2025-04-01 is not settled here"):
            days.day(datetime.date(2025, 4, 1))


def test_fault_has_its_way_out_apart(folder: office.Office) -> None:
    with pytest.raises(office.WordsFault) as raised:
        office.close(folder, office.caller(folder, "ana"), office.Close(None))
    way = "./day close --date 2025-03-31 closes the next one"
    assert (raised.value.without_way(), raised.value.way) == ("name the day", way)
    assert str(raised.value) == f"name the day: {way}"


@pytest.mark.parametrize(
    "change, field, expected",
    [
        ("date = 'today'", "event 1", "an event"),
        ("id = 9", "event 9", "1, the number behind the event before"),
        ("before = 'x'", "event 1, before", "nothing"),
        ("who = 'eve'", "event 1, line", None),
    ],
)
def test_fault_of_an_event_has_its_way_out_apart(
    folder: office.Office, change: str, field: str, expected: str | None
) -> None:
    changed(folder.path, f"UPDATE events SET {change} WHERE id = 1")
    with pytest.raises(office.FileFault) as raised, office.open_folder(folder.path):
        pass
    fault = raised.value
    # (the line that it would have is the sum of all that it says)
    assert fault.field == field and (fault.expected == expected or re.fullmatch("[0-9a-f]{64}", fault.expected))
    assert fault.way.endswith("put it back from a copy") and str(fault) == f"{fault.without_way()}: {fault.way}"


def test_copy_and_questions_have_what_was_done(folder: office.Office, tmp_path: Path) -> None:
    closed(folder)
    made = office.backup(folder, tmp_path / "copy.sqlite")
    with office.days_of(folder) as days:
        (row,) = office.find(days, office.Find(account=1))
        held = office.balance(days, 2)
    assert (made.days, made.head, row.is_done) == (1, folder.events.head, True)
    assert held[0] == ["2025-03-31", 2, "general", 40, 0, 0]


def test_copy_takes_the_place_of_an_earlier_one_alone(folder: office.Office, tmp_path: Path) -> None:
    """A copy of another state, another folder's, or what is no copy, would be lost."""
    copy, other, text = tmp_path / "copy.sqlite", tmp_path / "other", tmp_path / "text.sqlite"
    office.make_folder(office.Init(other, str(FIRST)), "ben")
    (other / "registry.sqlite").rename(tmp_path / "other.sqlite")
    text.write_text("mine\n")
    assert office.backup(folder, copy).days == 0
    closed(folder)
    assert office.backup(folder, copy).days == 1
    for path in (tmp_path / "other.sqlite", text):
        before = path.read_bytes()
        with pytest.raises(office.FileFault, match="no earlier copy of this folder"):
            office.backup(folder, path)
        assert path.read_bytes() == before


def test_other_login_is_refused(folder: office.Office) -> None:
    """A folder that others may write is no folder of this login alone."""
    folder.path.chmod(0o777)
    with pytest.raises(office.FileFault, match="chmod"):
        office.open_folder(folder.path)


def test_forged_line_is_refused(folder: office.Office) -> None:
    closed(folder)
    changed(folder.path, "UPDATE events SET who = 'eve' WHERE id = 2")
    with pytest.raises(office.FileFault, match="somebody changed"):
        office.open_folder(folder.path)


def test_event_behind_another_one_is_refused(folder: office.Office) -> None:
    """An event that names another one before it, with a line that fits, so that only the chain tells it."""
    closed(folder)
    with without_triggers(folder.path) as db:
        columns = ", ".join(("before", *events.COLUMNS))
        last = db.execute(f"SELECT {columns} FROM events ORDER BY id DESC LIMIT 1").fetchone()
        forged = "0" * 64, *last[1:]
        change = "UPDATE events SET before = ?, line = ? WHERE before = ?"
        db.execute(change, (forged[0], events.line_of(forged), last[0]))
    with pytest.raises(office.FileFault, match=r"event 2, before: found '?0{64}"):
        office.open_folder(folder.path)


def test_look_hands_nothing_in(folder: office.Office, tmp_path: Path) -> None:
    closed(folder)
    row, before = tmp_path / "row.csv", content_of(folder.path)
    row.write_text("do,2025-04-01,101,102,transfer,1,2,general,7\n")
    ben, asked = office.caller(folder, "ben"), office.HandIn((office.Given(str(row)),))
    looked = office.look_at(folder, ben, asked)
    assert [own.do_row for own in looked.looked] == [row.read_text().strip()]
    assert content_of(folder.path) == before and office.status(folder).handed_in.parts == []
    assert [part.count for part in office.hand_in(folder, ben, asked).parts] == [1]
    assert [own.do_row for own in office.try_next(folder).looked] == [row.read_text().strip()]


def test_status_counts_the_rows_of_an_account(folder: office.Office, tmp_path: Path) -> None:
    closed(folder)
    account, rows = tmp_path / "new.csv", "account,4,trading,12,open,no,no,0,0,0\nuser,401,both\nuser,402,both\n"
    account.write_text(rows)
    office.hand_in(folder, office.caller(folder, "ben"), office.HandIn((office.Given(str(account)),)))
    told = [what for _, what in office.status(folder).lines]
    assert f"{rows.splitlines()[0]} and 2 rows (new.csv, ben)" in "\n".join(told)


def test_status_tells_programs_when_what_waits_is_due(tmp_path: Path) -> None:
    office.make_folder(office.Init(tmp_path / "week", str(TOP / "examples/week/monday.csv")), "ana")
    with office.open_folder(tmp_path / "week") as week:
        office.close(week, office.caller(week, "ana"), office.Close(datetime.date(2025, 9, 22), True, yes=True))
        rows = [row[:3] for row in office.status(week).rows if row[0] == "waiting"]
    assert rows == [["waiting", "2025-09-23", 61004], ["waiting", "2025-09-24", 61005]]


def test_status_tells_a_text_of_the_last_day_that_is_gone(folder: office.Office) -> None:
    assert office.status(folder).faults == []
    closed(folder)
    assert office.status(folder).faults == []
    changed(folder.path, "DELETE FROM texts WHERE sum = (SELECT report FROM events WHERE what = 'filed')")
    told = [str(fault) for fault in office.status(folder).faults]
    assert len(told) == 1 and "no such text" in told[0], told


def test_who_looks_lets_go_of_no_lock(folder: office.Office) -> None:
    """While a process changes a folder, and looks at it in another thread, no other process changes it."""
    command: list[Word] = [TOP / "day", "label", "user", "1", "x", "--why", "x", "--office", folder.path]
    with folder.store.change():
        looks = threading.Thread(target=folder.store.is_changing)
        looks.start()
        looks.join()
        said = answer_of(command)
    assert b"another command changes it just now" in said[1] and said[2] == 3, said
    assert answer_of(command)[2] == 0


def test_folder_of_a_program_is_read_by_another_process(folder: office.Office) -> None:
    closed(folder)
    said = subprocess.run(
        [TOP / "day", "audit", "--second", "--office", folder.path], capture_output=True, text=True, check=False
    )
    assert said.returncode == 0 and "days 1, pairs read 1: 0 differences" in said.stdout


def test_command_makes_those_events_alone_that_it_asks_for(folder: office.Office) -> None:
    """Who opens a folder compares each line, and makes events of days; who has it open reads what is new."""
    closed(folder)
    for number in range(60):
        name = office.one_name("user", str(1_000 + number), f"User {number}")
        office.keep_names(folder, office.caller(folder, "ben"), [name], "new")
    known, made = len(folder.events.all), events.event_of
    with office.open_folder(folder.path) as other, mock.patch.object(events, "event_of", wraps=made) as making:
        with office.open_folder(folder.path) as third:
            assert [own.line for own in third.events.days] == [folder.events.days[0].line] and making.call_count == 1
        office.keep_names(other, office.caller(other, "eve"), [office.one_name("user", "7", "Eve")], "new")
        with mock.patch.object(events, "sum_of", wraps=sum_of) as comparing, folder.store.reading():
            assert comparing.call_count == 1
        assert [own.who for own in folder.events.behind(known)] == ["eve"] and folder.events.all == other.events.all


def test_who_knows_a_folder_sees_that_its_end_is_another_one(folder: office.Office) -> None:
    """With all sums of the chain made anew, and more behind it."""
    closed(folder)
    changed(folder.path, "UPDATE events SET who = 'eve' WHERE id = 2")
    chained_anew(folder.path)
    with office.open_folder(folder.path) as other:
        office.keep_names(other, office.caller(other, "ben"), [office.one_name("user", "7", "Eve")], "new")
    with folder.store.reading():
        assert [own.who for own in folder.events.all] == ["ana", "eve", "ben"]


@pytest.fixture(scope="module")
def six_days(tmp_path_factory: pytest.TempPathFactory) -> list[PastDay]:
    """Six days of 400 accounts, with emissions and surrenders among 30 instructions a day."""
    path = tmp_path_factory.mktemp("days") / "office"
    asked = ["--days", "6", "--accounts", "400", "--instructions", "30"]
    subprocess.run([sys.executable, "-B", TOP / "bench/folder.py", path, *asked], check=True, capture_output=True)
    with office.open_folder(path) as made:
        return [*past.read_all([made.store.pair_of(event) for event in made.events.days])]


def test_who_stands_as_before_is_not_worked_out_again(six_days: list[PastDay]) -> None:
    """How operators stand is the same, whatever day it is worked out by; of those alone that may have changed."""
    for before, after in itertools.permutations(six_days, 2):
        stood = compliance.Stood(before.day, before.report, [*compliance.standings(before.day, before.report, 2024)])
        wanted = [*compliance.standings(after.day, after.report, 2024)]
        with mock.patch.object(compliance, "standing_of", wraps=compliance.standing_of) as working:
            assert [*compliance.standings(after.day, after.report, 2024, stood)] == wanted
        again = {call.args[1].number for call in working.call_args_list}
        told = {log.instruction.first for own in (before, after) for log in own.report.log
                if log.is_done and log.instruction.act == "emissions"}  # fmt: skip
        assert told and told & {own.account.number for own in wanted} <= again and len(again) < len(wanted)
