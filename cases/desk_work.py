"""What somebody works with at a desk (`./day desk`): lists that are cut, what a spreadsheet hides, and what is there
behind a restart. For cases/run-desk."""
from __future__ import annotations

import csv
import io
import os
import re
import time
import urllib.parse
from collections.abc import Iterator
from pathlib import Path
from typing import Any
from unittest import mock

import desks
from desk_looks import MONDAY, TUESDAY, WEEK, WHY, Told, close, desk_of, has
from harness import Said, differs
from offices import must_do, must_do_either
from second_login import desk as named, with_lines
from spreadsheets import SHEET_PART, replace_in, write_kept

from registry_tools.desk import forms
from registry_tools.door.door import Links
from registry_tools.door.heads import SECRET_HEADER
from registry_tools.door.kept import KEPT, Kept
from registry_tools.pages import pictures

WORKBOOK = "instructions.xlsx"


def work_trials(work: Path) -> Iterator[Told]:
    """All trials of this file."""
    work.mkdir()
    for trials in (
        list_trials, hidden_trials, restart_trials, kept_trials, today_trials, tick_trials, search_trials,
        figure_trials, approve_trials, instruction_trials,
    ):  # fmt: skip
        yield from trials(work / trials.__name__)


def list_trials(work: Path) -> Iterator[Told]:
    """A list that is cut says so, and how the others are found; one that is whole does not."""
    ana = desk_of(work)[0].person()
    for page in ("/hand-in?act=transfer", "/change"):
        yield f"a whole list, {page}", "offered here" in ana.get(page).text or None
        with mock.patch.object(forms, "MOST_OFFERED", 2):
            cut = ana.get(page)
        yield f"a cut list, {page}", has(cut, "The first 2 of 6 accounts are offered here", 'href="/accounts"')


def hidden_trials(work: Path) -> Iterator[Told]:
    """Before the yes it is told that a spreadsheet hides rows, and behind it, too."""
    ana = desk_of(work)[0].person()
    path = work / WORKBOOK
    write_kept(path)
    replace_in(path, SHEET_PART, '<row r="2">', '<row r="2" hidden="1">')
    told = f"{WORKBOOK}: the spreadsheet hides 1 of its rows, which count all the same: row 2"
    look = ana.send("/hand-in", "/hand-in/look", {WORKBOOK: path.read_bytes()})
    yield "a hidden row before the yes", has(look, told)
    yield "and behind it", has(ana.yes(look, "/hand-in/take"), told)


# Behind a restart.


def started_anew(ana: desks.Person, work: Path, **more: object) -> desks.Person:
    """The same browser at a desk over the same folder that was started anew."""
    other = desks.Desk(ana.desk.office, work, **more)
    other.served.jobs.begin = desks.at_once
    ana.desk, ana.client.application = other, other.app
    return ana


def restart_trials(work: Path) -> Iterator[Told]:
    """Whom a proxy names stays in, and a form that was being filled in is taken; whom a link let in needs a new one."""
    office = desk_of(work)[0].office
    desk = desks.Desk(office, work / "first", header="X-User")
    ana = desk.person(**{"X-User": "ana"})
    form = ana.get("/change?account=100377").page.form("/change/look")
    typed: dict[str, Any] = {"act": "surrender", "proposer": "5101", "approver": "5102", "from": "100210"}
    typed["amount"] = "7"
    looked = ana.send("/hand-in", "/hand-in/look", **typed, kind="general", other_day="2025-09-19")
    files = ana.send("/hand-in", "/hand-in/look", {"a.csv": b"work,2025-10-06\n"})
    started_anew(ana, work / "second", header="X-User")
    yield "who came in is in", differs(ana.get("/").status, 200)
    other = ana.post("/change/look", {**form.fields, "holder": "5599", "token": "x"})
    yield "a form of another time", differs(other.status, 403) or has(other, "holder=5599", "Back to what was typed")
    changed = ana.look("/change/look", {**form.fields, "holder": "5599"})
    yield "a form that was being filled in", has(changed, "5599", "Yes, change it")
    yield "and its yes", has(ana.yes(changed, "/change/make", why="a letter"), "handed in for 2025-09-23")
    back = ana.get(looked.path)
    yield "a look leads to what was typed", differs(back.status, 302)
    fields = next(each.fields for each in ana.get(back.headers["Location"]).page.forms if "amount" in each.fields)
    yield "which is there again", differs({name: fields[name] for name in typed}, typed)
    yield "a look at files leads to their form", has(ana.get(files.path), "knows nothing of this look any more")
    ana.headers["X-User"] = "ben"
    yield "nobody else is in by it", differs(ana.get("/").status, 403)
    ana.headers["X-User"] = "ana"
    with mock.patch.object(desks, "SECRET", "another-secret-of-these-trials"):
        ana.headers |= {SECRET_HEADER: desks.SECRET}
        started_anew(ana, work / "third", header="X-User")
        yield "with another secret nobody is in", differs(ana.get("/").status, 403)
    ben = desks.Desk(office, work / "fourth").person()
    yield "who came by a link is not in", differs(started_anew(ben, work / "fifth").get("/").status, 403)


def kept_trials(work: Path) -> Iterator[Told]:
    """What a desk at a socket keeps counts behind a restart, and nothing that somebody else could have written."""
    work.mkdir(parents=True)
    socket = str(work / "desk.sock")
    links = Links(Kept(socket))
    (key, _), (ended, _) = links.make("anna"), links.make("bert")
    links.end("bert")
    again, name = Links(Kept(socket)), next(iter(links.links))
    yield "a link counts", None if again.counts(name, "anna") else "it does not"
    yield "for its login alone", again.counts(name, "bert") and "it does for another one"
    yield "one that was ended does not", differs([*again.links], [name])
    assert again.kept is not None and links.kept is not None
    signed = links.kept.key
    yield "cookies are signed by the same", differs(again.kept.key, signed)
    own = Path(f"{socket}{KEPT}")
    yield "nobody else may read it", differs(own.stat().st_mode & 0o777, 0o600)
    text = own.read_text()
    yield "no key of a link stands there", [word for word in (key, ended) if word in text] or None
    with mock.patch("time.time", return_value=time.time() + 9 * 3_600):
        late = Links(Kept(socket))
        yield "one that is over does not count", late.counts(name, "anna") and "it does"
    for what in ("no JSON", "a list", "a short key", "one that others read", "a link to one", "a pipe"):
        own.unlink(missing_ok=True)
        own.write_text({"no JSON": "x", "a list": "[1]", "a short key": '{"key": "00", "links": {}}'}.get(what, text))
        own.chmod(0o640 if what == "one that others read" else 0o600)
        if what == "a link to one":
            own.rename(work / "other")
            own.symlink_to("other")
        elif what == "a pipe":
            own.unlink()
            os.mkfifo(own, 0o600)
        yield f"{what} is not believed", Kept(socket).key == signed and "it is"
        yield f"{what}: what is kept now counts", differs(Kept(socket).key, Kept(socket).key)


# Today, and what one field finds.


def today_trials(work: Path) -> Iterator[Told]:
    """Today has the figures of the next day, what all accounts hold as a picture and in words, and who lacks what."""
    desk, own = desk_of(work)
    ana = desk.person()
    rows = work / "rows.csv"
    row = f"do,{TUESDAY},5101,5102,surrender,100210,general,"
    rows.write_text(f"{row}7\n{row}999999999\ndo,{TUESDAY},5101,5102,transfer,100210,300118,general,5\n")
    must_do_either(["hand-in", str(rows), *own])
    page = ana.get("/")
    figures = dict(re.findall('<dt><a href="[^"]*">([^<]*)</a></dt><dd>([^<]*)</dd>', page.text))
    tried = Said("try", *own).output.splitlines()[-1]
    wanted = {f"would {name}": count for name, count in zip(
        ("be done", "wait", "be refused"), re.findall("[a-z]+ ([0-9]+)", tried.partition(": ")[2]))}  # fmt: skip
    yield "figures", differs({name: figures[name] for name in wanted}, wanted)
    totals = sum_held(own)
    yield "what is held, in a sentence", has(page, f"all accounts hold {totals['general']} general")
    (picture,) = re.findall('<svg [^>]*viewBox="0 0 640 220".*?</svg>', page.text, re.DOTALL)
    yield "the picture says the sentence", None if "all accounts hold" in picture.partition(">")[0] else picture[:300]
    yield "its axes have labels", None if ">0</text>" in picture and ">22 Sep</text>" in picture else picture
    standings = csv.DictReader(io.StringIO(Said("compliance", "--day", MONDAY, "--csv", *own).output))
    lacking = sorted((f"{int(own['missing']):,}" for own in standings if own["missing"] not in ("", "0")), reverse=True)
    found = [cells[1] for cells in page.page.table("Missing for 2024").rows]
    yield "who is missing how much", differs(sorted(found, reverse=True), lacking) if lacking else "nobody"
    with (work / "office" / "office.ini").open("a") as settings:
        settings.write("[due]\nsurrender = 09-30\n")
    yield "by when", has(ana.get("/"), "Missing for 2024, by Tuesday 30 September 2025")
    text = (work / "office" / "office.ini").read_text()
    (work / "office" / "office.ini").write_text(text.replace("[office]\n", "[office]\nname = Registry of <b>\n", 1))
    yield "the name of the office", has(ana.get("/"), "<h1>Registry of &lt;b&gt;, today</h1>")
    yield "four groups of pages", differs(len(re.findall("<span id=.group-", page.text)), 4)
    must_do_either(["take-back", "1", "2", "3", *WHY, *own], close(TUESDAY, own))
    again = ana.get("/accounts/100210")
    yield "days that changed nothing are no rows", has(again, "On 1 other day it stayed as it was.")


def sum_held(own: list[str]) -> dict[str, str]:
    """What all accounts hold by kind, as the statements of accounts say it."""
    found = {"general": 0, "aviation": 0}
    for number in re.findall("^account,([0-9]+)", (WEEK / "monday.csv").read_text(), re.MULTILINE):
        for row in csv.DictReader(io.StringIO(Said("balance", number, "--csv", *own).output)):
            found[row["kind"]] += int(row["held"])
    return {kind: f"{held:,}" for kind, held in found.items()}


def tick_trials(_work: Path) -> Iterator[Told]:
    """An axis begins at 0, ends at or behind the largest amount, and has a few labels with equal steps between them."""
    for most in (0, 1, 3, 4, 5, 7, 9, 99, 100, 101, 924_000, 10**6, 10**15, 2 * 10**20 + 1):
        ticks = pictures.ticks_of(most)
        steps = {after - before for before, after in zip(ticks, ticks[1:])}
        is_so = ticks[0] == 0 and ticks[-1] >= most > ticks[-2] - (most == 0) and len(steps) == 1 and len(ticks) <= 6
        yield f"an axis up to {most}", None if is_so else ticks


def search_trials(work: Path) -> Iterator[Told]:
    """One field finds accounts, holders, users, names, records, amounts and checks."""
    desk, own = desk_of(work)
    must_do(["label", "holder", "5501", "Kalkwerk <Nord>", *WHY, *own])
    ana = desk.person()
    for word, wanted in (
        ("100210", 'href="/accounts/100210"'), ("5501", 'href="/accounts?q=5501"'), ("5101", 'href="/find?user=5101"'),
        ("kalk", 'href="/accounts?q=5501">Holder Kalkwerk &lt;Nord&gt; (5501)</a>'),
        ("notenough", 'href="/rules.html#'), ("<script>", "Nothing was found."), ("9" * 40, "Nothing was found."),
        ("\u00b2", "Nothing was found."),
    ):  # fmt: skip
        told = ana.get("/search?q=" + urllib.parse.quote(word))
        yield f"search {word}", told.page.faults or has(told, wanted)
    rows = [*csv.DictReader(io.StringIO(Said("find", "--csv", *own).output))]
    for row in rows:
        words = [row["record"], *([row["amount"], f"{int(row['amount']):,}"] if row["amount"] else [])]
        for word in words:
            told = ana.get(f"/search?q={word}")
            records = [cells[1] for cells in told.page.table("Log rows").rows]
            yield f"search {word}", None if row["record"] in records else records
    yield "nothing is asked", differs(ana.get("/search").page.tables, [])


def figure_trials(work: Path) -> Iterator[Told]:
    """A refusal says what was found: before the yes, behind it, in `try`, in the log and the letter of the day, and of
    a day text that nobody keeps."""
    desk, own = desk_of(work)
    ana = desk.person()
    row = f"do,{TUESDAY},5101,5102,surrender,100210,general,999999999\n".encode()
    found = "Account 100210 holds 38,400 general, 999,999,999 are asked: 999,961,599 lack."
    looked = ana.send("/hand-in", "/hand-in/look", {"a.csv": row})
    yield "before the yes", has(looked, found)
    yield "behind it", has(ana.yes(looked, "/hand-in/take"), found)
    yield "the next day", has(ana.get("/next"), found)
    tried = Said("try", *own).output
    yield "try", None if f"\n1: {found}\n" in tried else tried
    must_do(close(TUESDAY, own))
    logged = Said("log", "--refused", "--day", TUESDAY, *own).output
    yield "log", None if f"{found} Lower the amount" in logged else logged
    must_do_either(["send", str(work / "letters"), "--holder", "5501", *own])
    letter = next((work / "letters").glob("*.html")).read_text()
    yield "the letter of its holder", None if found in letter else letter[-900:]
    must_do(["unpack", str(work / "unpacked"), *own])
    told = Said("explain", work / "unpacked" / TUESDAY / "day.csv").output
    yield "explain", None if f"would be refused, NotEnough: {found}" in told else told


def approve_trials(work: Path) -> Iterator[Told]:
    """What is approved is shown as a whole, several at once; from a page of before it is approved only if it is the
    same still, and what is not any more leads back to where it is asked again."""
    first, own = desk_of(work)
    with_lines(first.office, named(), "hand-in, change, close")
    desk = desks.Desk(first.office, work / "approve", header="X-User")
    desk.served.jobs.begin = desks.at_once
    anna, bert = (desk.person(**{"X-User": login}) for login in ("anna", "bert"))
    row = f"do,{TUESDAY},5101,5102,surrender,100210,general,"
    for place, amount in enumerate((7, 999999999)):
        (work / f"{place}.csv").write_text(f"{row}{amount}\n")
        must_do_either(["hand-in", str(work / f"{place}.csv"), "--for", "anna", *own])
    must_do_either(["change", "100377", "--holder", "5599", "--yes", *WHY, "--for", "anna", *own])
    page = bert.get("/approve")
    wanted = ("surrender of 7 general from 100210: done", "lack.", "holder: 5502", "holder: 5599")
    yield "all is shown", has(page, *wanted)
    form = page.page.form("/approve")
    yield "each may be chosen", differs(len(form.choices["place"]), 3)
    yield "not by who asked", has(anna.get("/approve"), "For somebody else")
    yield "nothing is chosen", differs(bert.post("/approve", form.fields).status, 400)
    one, two, three = form.choices["place"]
    must_do_either(["label", "holder", "5501", "Kalkwerk", *WHY, "--for", "anna", *own])
    told = bert.follow(bert.post("/approve", {**form.fields, "place": [one, two]}))
    yield "several at once, whatever else was done", has(told, "approved: place 1", "approved: place 2", "Done.")
    yield "one is left", differs(bert.get("/approve").page.form("/approve").choices["place"], [three])
    late = bert.get("/approve").page.form("/approve")
    must_do_either(["change", "100377", "--user=+5299:both", "--yes", *WHY, "--for", "bert", *own],
                   ["approve", "4", "--for", "anna", *own],
                   ["take-back", three, *WHY, "--for", "anna", *own])  # fmt: skip
    told = bert.follow(bert.post("/approve", {**late.fields, "place": three}))
    yield "what is not there any more", has(told, "somebody changed the folder", "nothing was done", "Look once more")
    must_do_either(["close", "--date", TUESDAY, "--second", "--yes", "--for", "anna", *own])
    asked = bert.get("/approve").page.form("/approve")
    must_do_either(["change", "100377", "--holder", "5598", "--yes", *WHY, "--for", "anna", *own],
                   ["approve", "5", "--for", "bert", *own])  # fmt: skip
    told = bert.follow(bert.post("/approve", asked.fields))
    yield "a close that is another one leads to where it is asked", has(told, f'href="/close?date={TUESDAY}"')


def instruction_trials(work: Path) -> Iterator[Told]:
    """An instruction from the page of an account to its yes and to the next one: who may propose and approve, what the
    account holds, names in place of numbers, and what would come of it with its figures."""
    desk, own = desk_of(work)
    must_do(["label", "account", "100210", "Kalkwerk Nord", *WHY, *own], ["label", "user", "5101", "Ana", *WHY, *own],
            ["label", "user", "5102", "Ben", *WHY, *own])  # fmt: skip
    ana = desk.person()
    yield "an account leads there", has(ana.get("/accounts/100210"), 'href="/hand-in?of=100210#one"')
    for of in ("100210", "Kalkwerk+Nord"):
        page = ana.get(f"/hand-in?act=surrender&of={of}")
        yield f"the account is told, {of}", page.page.faults or has(
            page, "Kalkwerk Nord, operator of 5501, open: general 38,400, aviation 0", "<dd>Ana (5101)", "Ben (5102)"
        )
        form = next(each for each in page.page.forms if "amount" in each.fields)
        yield f"and is filled in, {of}", differs(form.fields["from"], "100210")
    lists = re.findall('<datalist id="(propose|approve)">(.*?)</datalist>', page.text, re.DOTALL)
    rows = [row.split(",") for row in (WEEK / "monday.csv").read_text().splitlines()]
    users, is_own = {"propose": set[str](), "approve": set[str]()}, False
    for row in rows:
        is_own = row[1] == "100210" if row[0] == "account" else is_own
        for right in users if is_own and row[0] == "user" else ():
            users[right] |= {row[1]} if row[2] in (right, "both") else set()
    found = {right: {*re.findall('value="([0-9]+)"', own)} for right, own in lists}
    yield "who may propose and approve", differs(found, users)
    yield "who may not approve is told", has(ana.get("/hand-in?act=trust&of=900001"), "Nobody may approve this")
    typed: dict[str, Any] = {"act": "surrender", "proposer": "Ana", "approver": "Ben", "from": "Kalkwerk Nord"}
    typed |= {"kind": "general", "amount": "40000"}
    looked = ana.send("/hand-in", "/hand-in/look", **typed, other_day=TUESDAY)
    yield "with its figures", has(looked, "Account 100210 holds 38,400 general, 40,000 are asked: 1,600 lack.")
    less: dict[str, Any] = {**typed, "amount": "400"}
    looked = ana.send("/hand-in", "/hand-in/look", **less, other_day=TUESDAY)
    done = ana.yes(looked, "/hand-in/take")
    yield "and a next one", has(done, "Done.", 'href="/hand-in?act=surrender#one"')
    less["from"] = "Kalk <b>"
    wrong = ana.send("/hand-in", "/hand-in/look", **less, other_day=TUESDAY)
    yield "a name of nothing", has(wrong, "Account that gives: ", "Back to what was typed")
