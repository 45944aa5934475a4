"""Trials of what goes wrong in an office: words that are typed again, days that nobody meant, and tables that no
spreadsheet saved so."""
import hashlib
import io
import os
import re
import shutil
import subprocess
import zipfile
from collections.abc import Iterable, Iterator
from pathlib import Path
from unittest import mock

from damaged_office import CLOSE, DAY, ROW, Trial, Words, two_days
from harness import TOP, Said, differs
from offices import (
    FIRST, chained_anew, events_of, must_do, must_do_either, new_office, text_of, told, unchanged, without_triggers,
)  # fmt: skip

from registry_tools.office import close as closing
from registry_tools.pairs import settlement
from registry_tools.second import rules
from registry_tools.texts import settler
from registry_tools.texts.day_text import read_day
from registry_tools.calendars.due_days import due_day_after

FIRST_DAY = "2025-03-31"


def faulty_trials(work: Path) -> Iterator[Trial]:
    work.mkdir()
    for trials in (
        named_day_trials, looked_trials, closing_trials, clock_trials, again_trials, engine_trials, left_trials,
        figure_trials, due_trials, saved_trials, sent_trials,
    ):  # fmt: skip
        yield from trials(work)


# Days that are named.


def named_day_trials(work: Path) -> Iterator[Trial]:
    """What takes a day back, or says that others know of it, names the day: typed again it changes no other one."""
    office, own = two_days(work, "named")
    why, third = ["--why", "a slip", *own], "2025-04-02"
    must_do([*CLOSE, third, *own])
    for command, does in (("undo", "takes back"), ("release", "releases")):
        has = [f"name the day: ./day {command} {third} {does} the last one"]
        yield f"{command} of no day", unchanged(office, 2, has, command, *why)
        yield f"{command} of a form", unchanged(office, 2, ["DATE 2.4.2025 is not a date"], command, "2.4.2025", *why)
    has = [f"{DAY} is not the last day, and only {third}, which is, can be undone"]
    yield "undo of another day", unchanged(office, 2, has, "undo", DAY, *why)
    yield "undo", told(0, [f"{third} is undone"], "undo", third, *why)
    yield "undo once more", unchanged(office, 2, [f"{third} is undone: "], "undo", third, *why)
    yes = ["--yes", *why]
    yield "release of no settled day", unchanged(office, 2, [f"{third} is no settled day of"], "release", third, *yes)
    yield "release", told(0, [f"{DAY} is released"], "release", DAY, "--yes", *why)
    yield "release once more", unchanged(office, 2, [f"{DAY} was released before"], "release", DAY, "--yes", *why)
    yield "release of a day before it", unchanged(office, 2, [" was released before"], "release", FIRST_DAY, *yes)
    must_do([*CLOSE, third, *own], [*CLOSE, "2025-04-03", *own])
    yield "release of a day behind which one stands", told(0, [f"{third} is released"], "release", third, "--yes", *why)
    yield "undo of what stands behind it", told(0, ["2025-04-03 is undone"], "undo", "2025-04-03", *why)
    yield "undo of it", unchanged(office, 2, [f"{third} was released"], "undo", third, *why)
    must_do([*CLOSE, "2025-04-03", *own], ["undo", "2025-04-03", "--who", "Ben", *why])
    has = ["2025-04-03 is undone: Ben took it back at"]
    yield "undo once more behind a second one", unchanged(office, 2, has, "undo", "2025-04-03", *why)
    yield "audit of all this", told(0, [": 0 differences"], "audit", *own)


def looked_trials(work: Path) -> Iterator[Trial]:
    """A day with something to look at is not filed before somebody says so."""
    office, own = two_days(work, "looked")
    close: Words = ["close", "--second", "--date"]
    slip = ["LOOK AT THIS: working days that are passed over", "2026-04-02 is not filed, without --yes"]
    yield "close for another year", unchanged(office, 1, slip, *close, "2026-04-02", *own)
    yield "close with nothing to look at", told(0, ["2025-04-02 is settled"], *close, "2025-04-02", *own)
    must_do(["undo", "2025-04-02", "--why", "a slip", *own])
    rows = work / "later.csv"
    rows.write_text(ROW.format(9).replace(DAY, "2025-04-02"))
    must_do(["hand-in", str(rows), *own], [*CLOSE, "2025-04-03", *own], ["undo", "2025-04-03", "--why", "it", *own])
    left = ["not in this day, and handed in for 2025-04-03 or later: 1", "2025-04-02 is not filed, without --yes"]
    yield "close without what is of a later day", unchanged(office, 1, left, *close, "2025-04-02", *own)
    yield "close with --yes", told(0, ["2025-04-02 is settled"], *close, "2025-04-02", "--yes", *own)


# What comes again.


# A transfer that waits, what an operator lacks, and two accounts that are closed.
CLOSING = [
    "201,202,transfer,2,1,general,5", *(f"901,902,emissions,1,{year},{tonnes}" for year, tonnes in
                           ((2021, 10), (2022, 10), (2023, 10), (2024, 500))),
    "901,902,status,2,closed", "901,902,status,1,closed",
]  # fmt: skip


def closing_trials(work: Path) -> Iterator[Trial]:
    """An account that still holds something is not closed before somebody says so; an empty one is."""
    close: Words = ["close", "--second", "--date", DAY]
    for name, rows in (("full", CLOSING), ("empty", ["901,902,status,2,closed"])):
        first, handed, office = work / f"{name}-first.csv", work / f"{name}.csv", work / name
        text = FIRST.read_text().replace("lags,0,", "lags,1,")
        first.write_text(text if name == "full" else re.sub("do,.*\n", "", text))
        own = ["--office", str(office)]
        must_do(["init", str(office), str(first)], [*CLOSE, FIRST_DAY, *own])
        handed.write_text("".join(f"do,{DAY},{row}\n" for row in rows))
        must_do(["hand-in", str(handed), *own])
        if name == "empty":
            yield "an empty account", told(0, ["is settled"], *close, *own)
            continue
        waits = "1 instruction that names it waits"
        has = [
            f"LOOK AT THIS: account 2 is closed for good: it holds 40 general allowances, {waits}",
            f"account 1 is closed for good: it holds 60 general allowances, {waits}, 530 are missing for 2024",
        ]
        yield "accounts that hold something", unchanged(office, 1, [*has, "is not filed"], *close, *own)
        yield "the same with --yes", told(0, [*has, "is settled"], *close, "--yes", *own)


def clock_trials(work: Path) -> Iterator[Trial]:
    """A day that has not come yet is looked at, and a clock that went back is told, also by audit."""
    office, own = new_office(work, "clock")
    has = ["LOOK AT THIS: 2099-01-04 has not come yet: today is "]
    yield "a day in the future", unchanged(office, 1, has, "close", "--second", "--date", "2099-01-04", *own)
    with without_triggers(office) as db:
        db.execute("UPDATE events SET at = '2099-01-01T00:00:00Z' WHERE id = (SELECT max(id) FROM events)")
    chained_anew(office)
    handed = work / "clock.csv"
    handed.write_text(ROW.format(7))
    has = ["LOOK AT THIS: the clock of this machine says ", "and the last event is of 2099-01-01"]
    yield "a clock that went back", told(0, has, "hand-in", handed, *own)
    last = len(events_of(office, "id"))
    has = [f"a clock went back: event {last} is of ", "and the one before it of 2099-01-01T00:00:00Z"]
    yield "audit of it", told(0, has, "audit", *own)


def again_trials(work: Path) -> Iterator[Trial]:
    """What a day refused comes again by itself, and is told; what is done comes again if its row is named, and no other
    one with it."""
    office, own = two_days(work, "again")
    rows, done = work / "refused.csv", work / "two.csv"
    good, bad = ROW.format(5).replace(DAY, "2025-04-02"), ROW.format(5000).replace(DAY, "2025-04-02")
    rows.write_text(good + bad)
    must_do_either(["hand-in", str(rows), *own], [*CLOSE, "2025-04-02", *own])
    whole = [f"{rows}: file: found the same as was handed in for 2025-04-02", f"another file; --again {rows}:1"]
    yield "a file of which a row is done", unchanged(office, 3, whole, "hand-in", rows, *own)
    rows.write_text(bad)
    again = [f"again: {rows}:1: one that 2025-04-02 has refused as record 5, NotEnough: do,"]
    yield "a row that was refused", told(1, again, "hand-in", rows, *own)
    twice = [f"{rows}: file: found the same as was handed in by "]
    yield "the row once more", unchanged(office, 3, twice, "hand-in", rows, *own)
    yield "the row once more, by its place", told(1, ["instructions 1, place 2"], "hand-in", rows, "--again", 1, *own)
    must_do(["take-back", "1", "2", "--why", "a slip", *own])
    rows.write_text(bad + good)
    has = [f"{rows}:2: do row: found one that 2025-04-02 has done as record 4: do,", f"--again {rows}:2 hands in once"]
    for words in (["hand-in", rows], ["hand-in", rows, "--again", f"{rows}:1"], ["hand-in", rows, "--again", 7]):
        yield f"a row that is done, {words[2:]}", unchanged(office, 3, has, *words, *own)
    has = [f"again: {rows}:1: one that 2025-04-02 has refused", f"again: {rows}:2: one that 2025-04-02 has done"]
    yield "the row that is named", told(1, has, "hand-in", rows, "--again", f"{rows}:2", *own)
    two = [f"--again {done}:9: no instruction or account begins there"]
    for word, has in ((f"{done}:9", two), ("x.csv:1", ["found no FILE:LINE"]), ("all", ["found no FILE:LINE"])):
        yield f"--again {word}", unchanged(office, 2, has, "hand-in", done, "--again", word, *own)
    yield from first_again_trials(work)


def first_again_trials(work: Path) -> Iterator[Trial]:
    """Instructions of the first text, and accounts that a day has had."""
    office, own = two_days(work, "first-again")
    first, block = work / "first.csv", work / "block.csv"
    first.write_text(ROW.format(40).replace(DAY, FIRST_DAY))
    has = [f"{first}:1: do row: found one that {FIRST_DAY} has done as record 1: do,"]
    yield "an instruction of the first text", unchanged(office, 3, has, "hand-in", first, *own)
    block.write_text("account,12,trading,78,open,no,no,0,0,0\nuser,101,both\n")
    must_do(["hand-in", str(block), *own], [*CLOSE, "2025-04-02", *own])
    block.write_text(f"{block.read_text()}account,13,trading,78,open,no,no,0,0,0\n")
    has = [f"{block}:1: account: found the rows that 2025-04-02 has had of this account"]
    yield "an account with the same rows", unchanged(office, 3, has, "hand-in", block, *own)
    yield "the account that is named", told(0, ["accounts 2"], "hand-in", block, "--again", f"{block}:1", *own)


# The engine of a day.

COMMIT = "0123456789ab"


def engine_trials(work: Path) -> Iterator[Trial]:
    """The journal says what settled a day, and a day that no proved engine settled is released with --yes."""
    why = ["--why", "it was sent"]
    office, own = new_office(work, "engine")
    said = [f"{FIRST_DAY} was settled by the second answer alone, not proved", "is not released, without --yes"]
    yield "release behind --second", unchanged(office, 1, said, "release", FIRST_DAY, *why, *own)
    yield "status of it", told(0, ["settled by: the second answer alone, not proved"], "status", *own)
    has = [f"settled by no proved engine, as far as the journal says: 1, last {FIRST_DAY}"]
    yield "audit of it", told(0, has, "audit", *own)
    program, note = work / "program", work / "program.source"
    program.write_text(f"#!/bin/sh\n[ $1 != --version ] || exec echo registry 1.9\nexec {TOP}/tools/rules.py \"$@\"\n")
    program.chmod(0o755)
    settings = office / "office.ini"
    settings.write_text(settings.read_text().replace("program =", f"program = {program}"))
    proved = "proved and built with kit 1\n"
    own_sum = f"sha256: {hashlib.sha256(program.read_bytes()).hexdigest()} program\n"
    other_sum = f"sha256: {hashlib.sha256(b'other').hexdigest()} program\n"
    sum_of_it = own_sum.split()[1]
    for text, row, words in (
        ("", "program 1.9 - unproved", "the program 1.9, not proved"),
        (f"source: commit {COMMIT}, with changes\n{proved}{own_sum}", f"program 1.9 {COMMIT}+ proved",
         f"the program 1.9 of commit {COMMIT} with changes, proved"),
        (f"source: commit {COMMIT}\n{proved}", f"program 1.9 {COMMIT} unproved",
         f"the program 1.9 of commit {COMMIT}, not proved"),
        (f"source: commit {COMMIT}\n{proved}{other_sum}", f"program 1.9 {COMMIT} unproved",
         f"the program 1.9 of commit {COMMIT}, not proved"),
        (f"source: commit {COMMIT}\nNOT PROVED: linked\n", f"program 1.9 {COMMIT} unproved",
         f"the program 1.9 of commit {COMMIT}, not proved"),
    ):  # fmt: skip
        note.write_text(text)
        yield f"close by {row}", told(0, [f"settled by {words}\n"], "close", "--date", DAY, *own)
        engine = f"{row} {sum_of_it}"
        yield f"its engine, {row}", differs(events_of(office, "engine", what="filed")[-1], engine)
        status, says = (0, "is released") if row.endswith(" proved") else (1, f"{DAY} was settled by {words}")
        copy = shutil.copytree(office, work / "copy")
        yield f"release behind {row}", told(status, [says], "release", DAY, *why, "--office", copy)
        note.write_text("")
        doubts = [f"settled by a program whose SHA-256 begins {sum_of_it[:12]}, which no note of a build here has"]
        asked: list[list[str]] = [] if status else [["release", DAY, *why], ["audit"]]
        for command in asked:
            shutil.rmtree(copy)
            shutil.copytree(office, copy)
            yield f"{command[0]} without the note of {row}", told(0, doubts, *command, "--office", copy)
        shutil.rmtree(copy)
        must_do(["undo", DAY, *why, *own])
    yield "a program that says no version", engine_fault(work)


def engine_fault(work: Path) -> object:
    """What is wrong with the engine of a program that takes no --version, if something is."""
    program = work / "silent"
    program.write_text("#!/bin/sh\nexit 2\n")
    program.chmod(0o755)
    engine = settlement.engine_of(str(program))
    return differs(engine.row(), f"program - - unproved {hashlib.sha256(program.read_bytes()).hexdigest()}")


# What is left beside an answer.


def left_trials(work: Path) -> Iterator[Trial]:
    """What a killed command left beside its answer is taken away by the next one that writes there; what another one
    writes just now is not, and nothing that is not theirs."""
    _, own = two_days(work, "left")
    there = work / "beside"
    there.mkdir()
    child = subprocess.Popen(["true"])
    child.wait()
    gone = [there / f".{name}.{child.pid}.day-unfinished" for name in ("sent", "month.html", "days.sqlite")]
    kept = [there / f".sent.{os.getppid()}.day-unfinished", there / f".sent.{child.pid}", there / ".note"]
    for path in (gone[0], kept[0]):
        path.mkdir()
        (path / "5501.html").write_text("a letter\n")
    for path in (*gone[1:], *kept[1:]):
        path.write_text("mine\n")
    must_do_either(["send", str(there / "sent"), *own])
    yield "what is left", differs(sorted(path.name for path in there.iterdir()), sorted([*names(kept), "sent"]))


def names(paths: Iterable[Path]) -> list[str]:
    return sorted(path.name for path in paths)


# Figures and days.


def figure_trials(work: Path) -> Iterator[Trial]:
    """Nobody knows the emissions of an excluded account that lacks them: a page of a month adds none of its figures."""
    first, own = work / "excluded.csv", ["--office", str(work / "excluded")]
    text = FIRST.read_text().replace(f"day,{FIRST_DAY},1", f"day,{FIRST_DAY},10")
    rows = "retired,5,surrender,general,551,2025-03-03,no\nemissions,2021,557\n"
    text = text.replace("account,1,operator,11,open", "account,1,operator,11,excluded")
    first.write_text(text.replace("account,2,", f"{rows}account,2,"))
    must_do(["init", own[1], str(first)], [*CLOSE, FIRST_DAY, *own], ["month", str(work / "month.html"), *own])
    page = (work / "month.html").read_text()
    # (the head that stands on the page may have these digits too, among others)
    yield "figures of an excluded account", re.findall(r"\b55[17]\b", page)


def due_trials(work: Path) -> Iterator[Trial]:
    """The due day of what waits is what the rules say, whatever lag they have."""
    office, _ = two_days(work, "due")
    text = work / "due.csv"
    text.write_bytes(text_of(office, DAY))
    day = read_day(str(text))
    i = rules.read_instruction(f"{DAY},101,102,surrender,1,general,1".split(","))

    def with_new_lag(asked: rules.Asked) -> object:
        return asked.day.due(asked.i.proposed, 3)

    with mock.patch.object(rules.Asked, "due", with_new_lag):
        found = due_day_after(day.day(), i)
    yield "a lag that was added to the rules", differs(str(found), "2025-04-04")


# Words.


def saved_trials(work: Path) -> Iterator[Trial]:
    """Of a table that a spreadsheet saved in a way that is not read, what to save it as."""
    as_what = "expected a table that is saved as .xlsx, as .ods, or as CSV in UTF-8"
    tables = {
        "old.xls": (b"\xd0\xcf\x11\xe0\xa1\xb1\x1a\xe1", "old.xls: found a workbook of an older kind (.xls)"),
        "open.odt": (open_document("text"), "open.odt: found an OpenDocument file that is no table"),
        "german.csv": ("act\nüber\n".encode("cp1252"), "german.csv:2: found the byte FC, which is 'ü' in Windows-1252"),
    }  # fmt: skip
    for name, (content, has) in tables.items():
        path = work / name
        path.write_bytes(content)
        yield f"import of {name}", told(3, [has, as_what], "import", path)
    path.write_bytes(open_document("spreadsheet"))
    yield "a table without its content", told(3, ["this is no workbook that can be read"], "import", path)


def open_document(kind: str) -> bytes:
    """The beginning of an OpenDocument file of a kind, as each program writes it."""
    content = io.BytesIO()
    with zipfile.ZipFile(content, "w") as archive:
        archive.writestr("mimetype", f"application/vnd.oasis.opendocument.{kind}")
        archive.writestr("content.xml", "<office/>")
    return content.getvalue()


def sent_trials(work: Path) -> Iterator[Trial]:
    """Letters of a day that may still be undone, and with names that were changed since."""
    office, own = two_days(work, "sent")
    has = [f"LOOK AT THIS: {DAY} is not released: it may be undone behind its letters"]
    yield "send of a day that is not released", told(1, has, "send", work / "sent-1", *own)
    doubt = [f"--release: {DAY} was settled by the second answer alone, not proved; ./day release {DAY} --yes"]
    letters: Words = ["send", "--release", *own]
    yield "send --release of what nothing proves", unchanged(office, 2, doubt, *letters, work / "sent-2")
    why = ["--why", "a letter", *own]
    must_do(["label", "holder", "11", "Stahl", *why], ["label", "holder", "12", "Handel", *why])
    with mock.patch.object(closing, "SECOND_ANSWER", settler.Engine("program", "1.0", COMMIT, settler.PROVED)):
        must_do([*CLOSE, "2025-04-02", *own])
    yield "audit of it", told(0, [": 0 differences"], "audit", *own)
    yield "send --release into a folder with files", told(3, [" a folder with files in it"], *letters, work)
    yield "it releases nothing", told(0, ["not released"], "status", *own)
    has = ["2025-04-02 is released: it is not undone any more", "packages "]
    yield "send --release", told(0, has, *letters, work / "sent-4")
    yield "the day behind it", told(2, ["2025-04-02 was released"], "undo", "2025-04-02", "--why", "a slip", *own)
    yield "letters once more", told(0, ["packages "], *letters, work / "sent-5")
