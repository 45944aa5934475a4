"""What a desk (`./day desk`) shows at a second look, and what comes twice: names and changes that are new since the
first look, another year, uploads of one name, and a form that is sent twice at once. For
cases/run-desk."""
from __future__ import annotations

import io
import re
import threading
import time
from collections.abc import Iterator
from pathlib import Path
from typing import cast

import desks
from harness import TOP, Said, differs
from offices import must_do
from sample_days import MONDAY_OF_TWO_PERIODS

from registry_tools.desk.jobs import Job, Jobs
from registry_tools.door.commands import Started
from registry_tools.desk.words import label
from registry_tools.texts.checks import IN_FORMS

WEEK, RULES = TOP / "examples" / "week", TOP / "tools" / "rules.py"
MONDAY, TUESDAY, WEDNESDAY = (f"2025-09-{day}" for day in (22, 23, 24))
WHY = ["--why", "a slip"]
ROW = f"do,{TUESDAY},5101,5102,transfer,100210,300118,general,"
Told = tuple[str, object]


def second_look_trials(work: Path) -> Iterator[Told]:
    """All trials of this file."""
    work.mkdir()
    for trials in (
        changed_trials, named_trials, year_trials, found_trials, period_trials, undo_trials,
        look_only_trials, upload_trials, at_once_trials, said_trials, reason_trials,
    ):  # fmt: skip
        yield from trials(work / trials.__name__)


def desk_of(work: Path, first: Path = WEEK / "monday.csv", date: str = MONDAY) -> tuple[desks.Desk, list[str]]:
    """A desk of somebody over a folder with one settled day, and the words that name the folder."""
    work.mkdir()
    own = ["--office", str(work / "office")]
    must_do(["init", own[1], str(first), "--program", str(RULES)], close(date, own))
    desk = desks.Desk(work / "office", work / "private", who="ana")
    desk.served.jobs.begin = desks.at_once
    return desk, own


def close(date: str, own: list[str]) -> list[str]:
    return ["close", "--date", date, "--second", "--yes", *own]


def has(answer: desks.Answer, *words: str) -> object:
    lacking = [own for own in words if own not in answer.text]
    return f"{lacking} lack in {answer.page.text[-900:]}" if lacking else None


# What is new since the first look.


def changed_trials(work: Path) -> Iterator[Told]:
    """A day that was undone and closed again shows what was changed by hand before it; and who comes late is told."""
    desk, own = desk_of(work)
    ana, caption = desk.person(), "What people changed before"
    form = ana.get("/close").page.form("/close/settle")
    must_do(close(TUESDAY, own))
    late = ana.follow(ana.post("/close/settle", {**form.fields, "second": "1"}))
    yield "who comes late", has(late, "It ended with a fault, and the folder has changed since you looked")
    yield "nothing was changed", [own for own in ana.get(f"/days/{TUESDAY}").page.tables if own.caption == caption]
    change = ["change", "100377", "--holder", "5504", *WHY, "--yes", *own]
    must_do(["undo", TUESDAY, *WHY, *own], change, close(TUESDAY, own))
    rows = ana.get(f"/days/{TUESDAY}").page.table(caption).rows
    yield "what was changed since", differs([row[0] for row in rows], ["account 100377"])


def named_trials(work: Path) -> Iterator[Told]:
    """Names that somebody writes into the folder are shown at once."""
    desk, _ = desk_of(work)
    ana = desk.person()
    for name, path in (("Kalkwerk", "/accounts"), ("Zement", "/month?year=2024"), ("Glas", f"/days/{MONDAY}")):
        before = ana.get(path)
        desks.name(desk.office, f"holder,5501,{name}", f"account,100210,{name} 1")
        wrong = has(ana.get(path), name)
        yield f"a name on {path}", wrong if name not in before.text else "it was there before"
    offered = ana.get("/hand-in?act=transfer")
    yield "an account is offered by its name", has(offered, "<li>100210: Glas 1, operator of Glas")


def year_trials(work: Path) -> Iterator[Told]:
    """Another year has its own standings."""
    desk, _ = desk_of(work)
    ana, ben = desk.person(), desks.Desk(desk.office, work / "other", who="ben").person()
    paths = [f"/compliance?year={year}" for year in (2024, 2023)]
    shown = [ana.get(path).page.tables[-1].rows for path in paths]
    wanted = [ben.get(path).page.tables[-1].rows for path in reversed(paths)]
    yield "two years", differs(shown, wanted[::-1]) or (shown[0] == shown[1] and "they are the same")


def found_trials(work: Path) -> Iterator[Told]:
    """Accounts are found by each word of their row that is told."""
    desk, _ = desk_of(work)
    ana = desk.person()
    for word, count in (("100210", 1), ("operator", 2), ("9004", 1), ("open", 6), ("closed", 0)):
        tables = ana.get(f"/accounts?q={word}").page.tables
        yield f"accounts by {word}", differs(sum(len(own.rows) for own in tables), count)


def period_trials(work: Path) -> Iterator[Told]:
    """The form of an account has the correction factor of each period."""
    first = work.with_suffix(".csv")
    first.write_text(MONDAY_OF_TWO_PERIODS)
    desk, _ = desk_of(work, first, "2025-05-12")
    form = desk.person().get("/change?account=2").page.form("/change/look")
    found = [own for own in form.fields if own.startswith("correction-")]
    yield "corrections", differs(found, ["correction-1", "correction-2"])


def undo_trials(work: Path) -> Iterator[Told]:
    """A day that was closed for a date that is too late is taken back for the one that was meant."""
    desk, own = desk_of(work)
    rows = work / "rows.csv"
    rows.write_text(f"{ROW}1\n")
    must_do(["hand-in", str(rows), *own], close(WEDNESDAY, own))
    ana = desk.person()
    days = [form.choices["date"] for form in ana.get("/undo").page.forms if "date" in form.choices]
    yield "the days that may be meant", differs(days, [[WEDNESDAY, TUESDAY]])
    told = ana.follow(ana.send(f"/undo?date={TUESDAY}", "/undo/yes", why="the wrong day"))
    yield "undone", has(told, f"{WEDNESDAY} is undone")
    status = Said("status", *own).output
    yield "for the day that was meant", None if f"not before {TUESDAY}" in status else status


def look_only_trials(work: Path) -> Iterator[Told]:
    """A desk that only looks makes letters, and releases no day with them; a link that is refused leads to no other
    host; a row of no file is none."""
    desk, _ = desk_of(work)
    only = desks.Desk(desk.office, work / "look", is_look=True)
    only.served.jobs.begin = desks.at_once
    eve, begun = only.person(), desks.bytes_of(desk.office)
    form = {**eve.get("/send").page.form("/send/begin").fields, "release": "1", "who": "eve"}
    form["state"] = desk.person().get("/send").page.form("/send/begin").fields["state"]
    told = eve.post("/send/begin", form)
    yield "no release", differs(told.status, 400) or has(told, "this desk releases no day")
    yield "nothing has changed", differs(desks.bytes_of(desk.office), begun)
    for path in ("/%2Fexample.org/days", "/%5Cexample.org/days"):
        hrefs = desks.Person(desk).get(path).page.hrefs
        yield f"where {path} leads", [own for own in hrefs if own[:2] in ("//", "/\\") or own[0] != "/"] or not hrefs
    ana = desk.person()
    looked = ana.send("/hand-in", "/hand-in/look", {"rows.csv": f"{ROW}1\n".encode()})
    taken = {**looked.page.form("/hand-in/take").fields, "again": "1:1"}
    yield "a row of no file", differs(ana.look("/hand-in/look", taken).status, 400)


# What comes twice.


def upload_trials(work: Path) -> Iterator[Told]:
    """Two files of one name are two files."""
    desk, own = desk_of(work)
    ana = desk.person()
    form = ana.get("/hand-in").page.form("/hand-in/look")
    files = [(io.BytesIO(f"{ROW}{amount}\n".encode()), "rows.csv") for amount in (1, 2)]
    looked = ana.look("/hand-in/look", {**form.fields, "files": files})
    told = ana.yes(looked, "/hand-in/take")
    yield "two files of one name", has(told, "handed in: rows.csv", "handed in: 1 rows.csv")
    status = Said("status", *own).output
    yield "both are there", None if f"{ROW}1 (rows.csv" in status and f"{ROW}2 (1 rows.csv" in status else status
    must_do(["take-back", "2", *WHY, *own])
    gone = "Place 2, transfer of 2 general, 100210 to 300118, was taken back by"
    yield from ((f"the first of a file was taken back, {path}", has(ana.get(path), gone)) for path in ("/", "/next"))


def at_once_trials(work: Path) -> Iterator[Told]:
    """A form that is sent twice at once begins one command."""
    begun, both = list[list[str]](), threading.Barrier(2)

    def begin(line: list[str], _folder: Path, _out: Path) -> Started:
        begun.append(line)
        time.sleep(0.3)
        return cast(Started, desks.Done(0))

    def send() -> None:
        both.wait()
        jobs.start("0" * 16, "close", [], "", "", False)

    work.mkdir()
    jobs = Jobs(work, work, begin)
    threads = [threading.Thread(target=send) for _ in range(2)]
    for thread in threads:
        thread.start()
    for thread in threads:
        thread.join()
    yield "a form that is sent twice at once", differs(len(begun), 1)


def said_trials(work: Path) -> Iterator[Told]:
    """Of a line of progress that was written over, what stands there at last is told."""
    work.mkdir()
    (work / "stderr").write_bytes(b"\r\033[Kreading 1/2\r\033[Kreading 2/2\r\033[Knot filed\n\r\033[K")
    job = Job("1", "close", [], work, cast(Started, desks.Done(2)), "", "")
    yield "a line of progress", differs(job.said("stderr"), ["not filed"])


# Why an instruction is refused.

# Rows that are refused, with what their reasons and the advice say in the words of the forms.
REFUSED = (f"do,{TUESDAY},5101,5102,surrender,100210,general,999999999\n"
           f"do,{TUESDAY},5101,5102,transfer,100210,100210,general,1\n")  # fmt: skip
REASONS = ("The account that gives holds less than the amount. A distribution: less than the sum of the amounts.",
           "The account that gives and the account that receives are the same account.")  # fmt: skip
ADVICE = "Lower the amount, or let the account that gives receive allowances first."
OF_TEXTS = re.compile(r"\b(FROM|TO|ACCOUNT|OTHER)\b")


def reason_trials(work: Path) -> Iterator[Told]:
    """Reasons and advice are said in the words of the forms, before the yes, behind it and on the pages of the day."""
    for word, called in IN_FORMS.items():
        wanted = f"the {label(word.lower()).lower().removeprefix('the ')}"
        yield f"{word} by the label of its field", differs(called, wanted)
    desk, own = desk_of(work)
    ana = desk.person()
    looked = ana.send("/hand-in", "/hand-in/look", {"rows.csv": REFUSED.encode()})
    yield "the look before it is handed in", in_forms(looked, *REASONS, ADVICE)
    yield "it is handed in", in_forms(ana.yes(looked, "/hand-in/take"), *REASONS, ADVICE)
    yield "the next day", in_forms(ana.get("/next"), *REASONS, ADVICE)
    commands = Said("try", *own)
    yield "who gives commands writes texts", None if ": FROM holds less" in commands.output else commands
    asked = ana.get("/close")
    yield "the look before it is closed", in_forms(asked, *REASONS)
    yield "it is closed", in_forms(ana.yes(asked, "/close/settle", second="1", yes="1"), *REASONS)
    for path in ("/", f"/days/{TUESDAY}", "/accounts/100210", "/month"):
        yield path, in_forms(ana.get(path), *([ADVICE] if path[:2] in ("/d", "/a") else []))
    yield "the rules say what they define", has(ana.get("/rules.html"), "FROM holds less than the amount.")


def in_forms(answer: desks.Answer, *words: str) -> object:
    """What is wrong with a page that has to say this, and nothing in the words of texts."""
    shown = re.sub("<[^>]*>", "", answer.text)
    return has(answer, *words) or [shown[max(own.start() - 60, 0) : own.end() + 60] for own in OF_TEXTS.finditer(shown)]
