"""What whoever has all rights does at the desk beside a day's work: looks at office.ini and asks for another one,
corrects a settled day, takes copies along, and hands in a year's working days and tables of somebody else. For
cases/run-desk."""
from __future__ import annotations

import datetime
import sqlite3
from collections.abc import Iterator
from pathlib import Path

import desks
from desk_of_holders import has, monday, office_in, person
from harness import Said, differs
from offices import events_of, handed_now, must_do, must_do_either, text_of

from registry_tools.calendars import years
from registry_tools.errors import WordsFault

MONDAY, TUESDAY = "2025-09-22", "2025-09-23"
ROW = "do,2025-09-23,5101,5102,surrender,100210,general,7"
HOLIDAYS = b"""BEGIN:VCALENDAR\r
VERSION:2.0\r
BEGIN:VEVENT\r
SUMMARY:New\r
  Year\r
DTSTART;VALUE=DATE:20270101\r
DTEND;VALUE=DATE:20270102\r
END:VEVENT\r
BEGIN:VEVENT\r
SUMMARY:Closed\r
DTSTART;VALUE=DATE:20271227\r
DTEND;VALUE=DATE:20280101\r
END:VEVENT\r
END:VCALENDAR\r
"""
TABLE = "Tag;Wer;Wer noch;Was;Konto;Art;Betrag\n23.09.2025;5101;5102;Abgabe;100210;general;1.234\n".encode()
MAPPING = """[columns]
Tag = proposed
Wer = proposer
Wer noch = approver
Was = act
Konto = from
Art = kind
Betrag = amount
[act]
Abgabe = surrender
[form]
dates = 31.12.2026
amounts = 1.234.567
""".encode()
Told = tuple[str, object]


def settings_page_trials(work: Path) -> Iterator[Told]:
    """All trials of this file."""
    yield from year_trials()
    office = office_in(work, monday(), "change")
    desk = desks.Desk(office, work / "private", header="X-User")
    desk.served.jobs.begin = desks.at_once
    anna, bert, gerd = (person(desk, login) for login in ("anna", "bert", "gerd"))
    yield from office_trials(office, anna, gerd, person(desk, "cora"))
    yield from ask_trials(office, anna, bert)
    yield from copy_trials(work, office, anna, gerd)
    yield from calendar_trials(office, anna)
    yield from year_of_instruction_trials(anna)
    yield from mapping_trials(office, anna)
    yield from correct_trials(office, anna, bert, gerd)


# office.ini.


def office_trials(office: Path, anna: desks.Person, gerd: desks.Person, cora: desks.Person) -> Iterator[Told]:
    """What office.ini says, and what to write: the page writes nothing, and tells what would be no line of it."""
    begun = desks.bytes_of(office)
    page = anna.get("/office")
    yield "who may do what", has(page, "Anna Berg", "holder 5501, user 5101", "waits for a second login", "rules.py")
    is_silent = str(office.parent) not in page.text and "/tools/" not in page.text
    yield "no path of the disk", None if is_silent else page.text
    lines = "+ [due] surrender = 09-30\n+ [due] emissions = 03-31\n+ [due] lead = 40"
    for words, told in (
        ("surrender=09-30&emissions=03-31&lead=40", lines), ("login=bert", "- [people] bert = Bert Kohl: all\n"),
        ("login=eva&name=Eva+Nord&rights=hand+in,+close", "+ [people] eva = Eva Nord: hand in, close"),
        ("login=eva&name=Eva&rights=holder+5501,+user+5101", "+ [people] eva = Eva: holder 5501, user 5101"),
        ("commands=change&commands=close", "- [four eyes] commands = change\n+ [four eyes] commands = change, close"),
        ("line=[office]+name+=+Here", "+ [office] name = Here"),
    ):  # fmt: skip
        page = anna.get(f"/office?{words}")
        yield f"what it changes: {words}", has(page, told) or page.page.form("/office/ask") is None
    for words, told in (
        ("surrender=30.9.", "surrender: found"), ("lead=x", "lead: found 'x'"),
        ("login=eva&name=Eva&rights=sell", "eva: found"),
        ("login=eva&name=Eva&rights=holder+5501,+all", "eva: found"), ("commands=sell", "[four eyes]: found 'sell'"),
        ("login=x%0Ay&name=Eva&rights=all", "each field has one line"),
        ("login=eva&name=a%0A[four+eyes]&rights=all", "each field has one line"),
        ("surrender=09-30%0Aprogram+=+/tmp/x", "each field has one line"),
        ("line=[office]+program+=+/tmp/x", "[office] program: found '/tmp/x'; expected what stands"),
        ("line=lead", "expected [SECTION] NAME"),
        ("login=anna&name=Anna&rights=all,+proxy", "an editor of the owner alone changes it"),
        ("commands=change", "nothing would be changed"),
    ):  # fmt: skip
        answer = anna.get(f"/office?{words}")
        yield f"what is no line: {words}", has(answer, told) or ("<pre>" in answer.text and answer.text)
    for who, name in ((gerd, "gerd"), (cora, "cora")):
        for path in ("/office", "/office?surrender=09-30", "/office/anchor.csv"):
            yield f"{path} for {name}", wrong(who.get(path), 403)
        for path in ("/office/db", "/office/backup"):
            fields = {"token": token(who), "once": "0" * 16}
            yield f"{path} for {name}", wrong(who.post(path, fields), 403)
        for path in ("/office/ask", "/office/take-back"):
            fields = {"token": token(who), "once": "0" * 16, "state": "0" * 64, "why": "x", "lines": "[due] lead = 3"}
            yield f"{path} for {name}", wrong(who.post(path, fields), 403)
    yield "nothing was written", None if desks.bytes_of(office) == begun else "it was"
    yield "no form writes it", [form.action for form in anna.get("/office").page.forms if form.method == "post"] != [
        "/office/backup", "/office/db"]  # fmt: skip


def ask_trials(office: Path, anna: desks.Person, bert: desks.Person) -> Iterator[Told]:
    """What one asks for at the page, another one approves at theirs; who asked does not, in any browser."""
    ini, other = office / "office.ini", person(anna.desk, "anna")
    begun, query = ini.read_text(), "/office?surrender=09-30&login=eva&name=Eva+Nord&rights=hand+in"
    form = anna.get(query).page.form("/office/ask")
    yield "its lines", differs(form.fields["lines"], "[due] surrender = 09-30\n[people] eva = Eva Nord: hand in")
    sent = {**form.fields, "lines": form.fields["lines"].replace("\n", "\r\n"), "why": "she begins"}
    asked = anna.follow(anna.post("/office/ask", sent))
    told = "It is asked for, and waits for somebody else.", "+ [people] eva = Eva Nord: hand in", "Bert Kohl (bert)"
    yield "it is asked for", has(asked, *told)
    once = anna.follow(anna.post("/office/ask", sent))
    yield "sent again, it is the same", differs(len(events_of(office, "id", what="asked")), 1) or has(once, *told)
    yield "nothing is written yet", differs(ini.read_text(), begun)
    for path in ("/", "/approve"):
        yield f"{path} shows it", has(bert.get(path), "another office.ini", "she begins", "+ [due] surrender = 09-30")
    for who, name in ((anna, "who asked"), (other, "who asked, in another browser")):
        yield f"{name} approves", has(approve(who), "asked for it: another login approves it", "Nothing was done")
    number = bert.get("/approve").page.form("/approve").fields["day"]
    forged = {**bert.get("/approve").page.form("/approve").fields, "token": token(anna), "who": "bert"}
    yield "by another name", has(anna.follow(anna.post("/approve", forged)), "another login approves it")
    for word in ("0", "x", "", "99999999999", f"{number} 1"):
        answer = bert.follow(
            bert.post("/approve", {**forged, "token": token(bert), "day": word, "once": "%016x" % len(word)})
        )
        yield f"event {word!r}", None if "it is written" not in answer.text and answer.status in (200, 400) else answer
    yield "still nothing is written", differs(ini.read_text(), begun)
    yield "another login approves", has(approve(bert), "Done.", "it is written")
    yield "it lies there", [
        line for line in ("surrender = 09-30", "eva = Eva Nord: hand in") if line not in ini.read_text()
    ]
    yield "it counts at once", has(person(anna.desk, "eva").get("/hand-in"), "Hand in")
    yield "the page says it", has(anna.get("/office"), "Eva Nord", "09-30")
    yield "the journal keeps it", has(
        anna.get("/journal"), "she begins", "approved by Bert Kohl (bert)", "+ [due] surrender"
    )
    anna.follow(anna.post("/office/ask", {**anna.get("/office?lead=9").page.form("/office/ask").fields, "why": "x"}))
    back = anna.yes(anna.get("/office"), "/office/take-back", why="a slip")
    yield "it is taken back", has(back, "Done.", "taken back: event")
    yield "and waits no longer", "lead = 9" in bert.get("/approve").text
    late = anna.get("/office?lead=9").page.form("/office/ask").fields
    ini.write_text(ini.read_text().replace("anna = Anna Berg: all", "anna = Anna Berg: look"))
    yield "who may no longer", wrong(anna.post("/office/ask", {**late, "why": "x"}), 403)
    ini.write_text(begun)


def approve(who: desks.Person) -> desks.Answer:
    return who.yes(who.get("/approve"), "/approve")


def token(who: desks.Person) -> str:
    with who.client.session_transaction(base_url=f"http://{desks.HOST}") as session:
        return str(session["token"])


def wrong(answer: desks.Answer, status: int) -> object:
    return None if answer.status == status else f"{answer.status}: {answer.content[:300]!r}"


# Copies.


def copy_trials(work: Path, office: Path, anna: desks.Person, gerd: desks.Person) -> Iterator[Told]:
    """Copies and a database of all days, for who has all rights, one at a time; and the head of the folder."""
    for command, name, table in (("backup", "registry.sqlite", "events"), ("db", "days.sqlite", "days")):
        page = anna.yes(anna.get("/office"), f"/office/{command}")
        yield f"{command} is made", has(page, "Done.", "Download it")
        number = next(own for own in anna.desk.served.jobs.jobs.values() if own.command == command).number
        path = f"/office/{number}/{name}"
        answer = anna.get(path)
        (work / name).write_bytes(answer.content)
        with sqlite3.connect(work / name) as db:
            count = db.execute(f"SELECT count(*) FROM {table}").fetchone()[0]
        yield f"{command} is a database", None if count else count
        yield f"{command} for who only looks", wrong(gerd.get(path), 403)
        for other in (f"/office/{number}/x", f"/office/x/{name}", f"/office/{number}/..%2Fmade"):
            yield f"no copy {other}", wrong(anna.get(other), 404)
    yield "a copy is as the folder", differs((work / "registry.sqlite").read_bytes()[:16], b"SQLite format 3\0")
    first = anna.get("/office/x/registry.sqlite")
    yield "one that is not there", wrong(first, 404)
    (job,) = anna.desk.served.jobs.of("backup")
    yield "the one before is gone", wrong(anna.get(f"/office/{job.number}/registry.sqlite"), 404)
    line = anna.get("/office/anchor.csv").text
    kept = work / "anchors.csv"
    kept.write_text(line)
    said = Said("audit", "--anchors", kept, "--office", office)
    yield "the head counts", None if said.status == 0 and line.startswith("anchor,") else (line, said)


# The working days of a year.


def year_trials() -> Iterator[Told]:
    """All weekdays but some."""
    days = years.weekdays_but(2027, {datetime.date(2027, 1, 1)})
    yield "weekdays of 2027", differs([len(days), str(days[0]), str(days[-1])], [260, "2027-01-04", "2027-12-31"])
    wanted = ["2027-01-01", *(f"2027-12-{day}" for day in range(27, 32))]
    yield "days of a calendar", differs([*map(str, years.days_of_ics(HOLIDAYS))], wanted)
    begin, end = b"BEGIN:VCALENDAR\nBEGIN:VEVENT\n", b"\nEND:VEVENT\nEND:VCALENDAR\n"
    for what, lines in (
        ("one day without an end", b"DTSTART:20270101"),
        ("by the hour", b"DTSTART:20270101T080000Z\nDTEND:20270101T090000Z"),
    ):  # fmt: skip
        yield f"an entry: {what}", differs([*map(str, years.days_of_ics(begin + lines + end))], ["2027-01-01"])
    for what, content in (
        ("no calendar", b"Date;Name\n"), ("no day", begin + b"SUMMARY:x" + end),
        ("13 months", begin + b"DTSTART:20271301" + end),
        ("again each year", begin + b"DTSTART:20270101\nRRULE:FREQ=YEARLY" + end),
        ("a hundred years", begin + b"DTSTART:20270101\nDTEND:21270101" + end),
        ("an end before its begin", begin + b"DTSTART;VALUE=DATE:20270105\nDTEND;VALUE=DATE:20270101" + end),
        ("an end on the day before", begin + b"DTSTART;VALUE=DATE:20270105\nDTEND;VALUE=DATE:20270104" + end),
        ("too many", b"BEGIN:VCALENDAR\n" + b"BEGIN:VEVENT\nDTSTART:20270101\nEND:VEVENT\n" * 10_001),
    ):  # fmt: skip
        try:
            yield f"a calendar: {what}", [*years.days_of_ics(content)] or "it was taken"
        except WordsFault:
            yield f"a calendar: {what}", None


def calendar_trials(office: Path, anna: desks.Person) -> Iterator[Told]:
    """A year's working days, by what is typed and by a calendar: looked at, and handed in as any rows."""
    looked = send_year(anna, "2027", "2027-05-06, 2027-05-17", HOLIDAYS)
    yield "the look", has(looked, "working days of 2027.csv: working days 253", "Yes, hand it in")
    told = anna.yes(looked, "/hand-in/take")
    yield "it is handed in", has(told, "Done.", "working days 253")
    (_, name, content), *_ = [own for own in handed_now(office) if own[0] == "work"]
    rows = content.decode().split()
    gone = ("2027-01-01", "2027-05-06", "2027-05-17", "2027-12-27", "2027-12-31", "2027-01-02")
    yield "its rows", differs([name, len(rows), rows[0]], ["working days of 2027.csv", 253, "work,2027-01-04"])
    yield "without these", [day for day in gone if f"work,{day}" in rows]
    for year, but, calendar, has_words in (
        ("27", "", b"", "Year: found '27'"), ("1999", "", b"", "Year: found 1999"), ("2027", "1.5.2027", b"", "is not"),
        ("2027", "", b"x", "expected a calendar as .ics"), ("\u0662\u0660\u0662\u0667", "", b"", "Year: found"),
    ):  # fmt: skip
        yield f"wrong: {year} {but} {calendar!r}", has(send_year(anna, year, but, calendar), has_words)


def year_of_instruction_trials(anna: desks.Person) -> Iterator[Told]:
    """The year of an instruction is none whose working days are handed in."""
    said = {"act": "emissions", "account": "100210", "year": "2025", "tonnes": "5", "proposed": "2025-09-23",
            "proposer": "901", "approver": "902"}  # fmt: skip
    looked = anna.send("/hand-in?act=emissions", "/hand-in/look", {}, **said)
    words = "emissions of 100210 in 2025: 5 tonnes", "typed at the desk.csv: instructions 1"
    yield "emissions of a year", has(looked, *words)


def send_year(anna: desks.Person, year: str, but: str, calendar: bytes) -> desks.Answer:
    """The look at the working days of a year."""
    form = next(own for own in anna.get("/hand-in").page.forms if "weekdays_of" in own.fields)
    files = {"calendar": desks.uploads({"a.ics": calendar})["files"][0]} if calendar else {}
    return anna.look("/hand-in/look", {**form.fields, "weekdays_of": year, "but": but, **files})


# Tables of somebody else.


def mapping_trials(office: Path, anna: desks.Person) -> Iterator[Told]:
    """A table by other headings, with the mapping that tells what they mean: kept beside its rows."""
    fields = {"token": token(anna), "once": "0" * 16, **desks.uploads({"bank.csv": TABLE})}
    yield "without a mapping", has(anna.look("/hand-in/look", {**fields}), "It cannot be taken as it is")
    for what, mapping in (("no mapping", b"x"), ("an unknown column", b"[columns]\nTag = day\n")):
        own = {**fields, **desks.uploads({"bank.csv": TABLE}), "mapping": desks.uploads({"m.ini": mapping})["files"][0]}
        answer = anna.look("/hand-in/look", own)
        yield what, has(answer, "the mapping") or wrong(answer, 409)
    own = {**fields, **desks.uploads({"bank.csv": TABLE}), "mapping": desks.uploads({"m.ini": MAPPING})["files"][0]}
    looked = anna.look("/hand-in/look", own)
    yield "with its mapping", has(looked, "surrender of 1,234 general from 100210", "Yes, hand it in")
    yield "it is handed in", has(anna.yes(looked, "/hand-in/take"), "Done.", "bank.csv")
    kinds = {kind: content for kind, _, content in handed_now(office)}
    yield "its row", differs(kinds["do"], b"do,2025-09-23,5101,5102,surrender,100210,general,1234\n")
    yield "table and mapping are kept", differs([kinds["table.csv"], kinds["mapping.ini"]], [TABLE, MAPPING])


# Correcting.


def correct_trials(office: Path, anna: desks.Person, bert: desks.Person, gerd: desks.Person) -> Iterator[Told]:
    """A settled day without a record, and with a file: shown first, and done by a yes to what was shown."""
    begun = text_of(office, MONDAY)
    for fields, told in (
        ({"why": "x"}, "nothing to correct"), ({"why": "x", "without": "a"}, "Records that are left out"),
        ({"why": "x", "without": "99"}, "Nothing was done"), ({"why": "", "without": "61007"}, "has to be"),
    ):  # fmt: skip
        yield f"wrong: {fields}", has(correct(anna, {}, **fields), told)
    yield "who may not", has(correct(gerd, without="61007", why="x"), "may look, and not close")
    looked = correct(anna, without="61007", why="entered twice")
    yield "what it becomes", has(looked, "Nothing is corrected yet", "2025-09-22:", "Yes, correct it so")
    yield "nothing is done by looking", None if text_of(office, MONDAY) == begun else "it was"
    (form,) = [own for own in looked.page.forms if own.action == "/correct/make"]
    for fields in ({"job": "0" * 16}, {"job": ""}, {"state": "0" * 64}):
        answer = anna.follow(anna.post("/correct/make", {**form.fields, **fields, "once": "%016x" % len(str(fields))}))
        is_so = text_of(office, MONDAY) == begun and "corrected:" not in answer.text
        yield f"another yes: {fields}", None if is_so else answer
    answer = bert.follow(bert.post("/correct/make", {**form.fields, "token": token(bert), "once": "2" * 16}))
    who = events_of(office, "who", what="filed")[-1]
    yield "a yes of somebody else is theirs", has(answer, "is corrected: closed once more") or differs(who, "bert")
    now = text_of(office, MONDAY)
    yield "the record is gone", None if b"surrender,100210,aviation,38200" not in now else now
    answer = anna.follow(anna.post("/correct/make", {**form.fields, "once": "3" * 16}))
    yield "somebody who comes late", None if "is corrected" not in answer.text else answer.text
    must_do_either(["close", "--date", TUESDAY, "--second", "--yes", "--for", "bert", "--office", str(office)])
    with_file = correct(anna, {"more.csv": f"{ROW}\n".encode()}, why="forgotten", day=TUESDAY)
    yield "with a file", has(with_file, "Nothing is corrected yet")
    yield "it is done", has(anna.yes(with_file, "/correct/make"), "is corrected: closed once more")
    yield "and the file is in it, by its name", None if ROW in text_of(office, TUESDAY).decode() else "not"
    names = events_of(office, "name", what="handed")
    is_named = "more.csv" in names and not any("upload" in own for own in names)
    yield "by the name that it came with", None if is_named else names
    must_do(["release", TUESDAY, "--why", "x", "--yes", "--for", "anna", "--office", str(office)])
    yield "a released day", has(anna.get("/correct"), "No day is settled, or all are released.")


def correct(who: desks.Person, files: dict[str, bytes] | None = None, **said: str) -> desks.Answer:
    """What a correction would make, or why it is none."""
    form = who.get("/correct").page.form("/correct/look")
    fields = {**form.fields, "second": "1", **said, **desks.uploads(files or {})}
    return who.follow(who.post("/correct/look", fields))
