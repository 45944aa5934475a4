"""The desk of a login that office.ini ties to a holder: it sees and asks for the accounts of this holder alone. Two
folders that differ in what belongs to others give it the same bytes, and an attacker with such a login gets nothing.
For cases/run-desk."""
from __future__ import annotations

import html
import re
import shutil
from collections.abc import Iterator
from pathlib import Path

import desks
from harness import TOP, Said, differs
from offices import events_of, must_do, must_do_either, text_of
from second_login import with_lines

from registry_tools.desk import app, own
from registry_tools.holders import asking
from registry_tools.holders.own import NotTaken, Own
from registry_tools.office import approvals, folder
from registry_tools.office.office import By
from registry_tools.office.people import system_login

WEEK, RULES = TOP / "examples" / "week", TOP / "tools" / "rules.py"
MONDAY, TUESDAY, WEDNESDAY, THURSDAY = (f"2025-09-{day}" for day in (22, 23, 24, 25))
PEOPLE = {
    "anna": "Anna Berg: all", "bert": "Bert Kohl: all", "gerd": "Gerd Pohl: look", "cora": "Cora Lund: hand in, close",
    "hanna": "Hanna Holt: holder 5501, user 5101", "hugo": "Hugo Holt: holder 5501, user 5102",
    "hedy": "Hedy Holt: holder 5501", "otto": "Otto Ohm: holder 5502, user 5203", "nora": "Nora Nil: holder 4711",
    "ossi": "Ossi Ohm: holder 5502, user 5102",
    system_login(): "The desk: proxy",
}  # fmt: skip
ROW = f"do,{TUESDAY},5101,5102,surrender,100210,general,100"
# What each form has anew.
ANEW = re.compile(rb'name="(?:token|once)" value="[^"]*"')
# What belongs to others, before and after it is replaced in the first text: accounts, what they hold, who they are.
OTHERS = (
    ("day,2025-09-22,61001", "day,2025-09-22,88001"),
    ("account,100377,operator,5502,open,no,no,0,3000,0", "account,100377,operator,5502,blocked,yes,yes,7,9100,55"),
    ("user,5201,approve\nuser,5203,propose", "user,5203,both\nuser,5299,both"),
    ("emissions,2021,14200\nemissions,2022,14700", "emissions,2021,99\nemissions,2022,98"),
    ("account,200045,aircraft,7301,open,no,no,-250,3000,61500", "account,200045,aircraft,7399,open,yes,no,4,88,1"),
    ("account,300118,trading,9004,open,yes,no,0,250000,12000", "account,300118,trading,9009,open,no,no,0,777777,3"),
    ("account,900001,allocation,1,open,no,no,0,4000,25000",
     "account,400001,operator,5599,open,no,no,0,1,1\nuser,9999,both\naccount,900001,allocation,1,open,no,no,0,4,5"),
    ("do,2025-09-22,901,902,create", "do,2025-09-22,9999,,surrender,400001,general,1\n"
     "do,2025-09-22,5299,5203,surrender,100377,general,5\n"
     # (of this one a letter says that there was one)
     "do,2025-09-22,5203,5299,transfer,100377,100210,general,9\ndo,2025-09-22,901,902,create"),
)  # fmt: skip
# The pages of a holder's desk, and what a holder may type into them, right and wrong.
PAGES = (
    "/", "/?sort=Due&waits-sort=Account", "/accounts/100210", "/compliance", "/compliance?year=2023", "/hand-in",
    "/hand-in?account=100210", "/style.css", "/rules.html", "/formats.html",
    *(f"/{name}.{kind}" for name in ("accounts", "compliance", "waiting", "accounts/100210/statement")
      for kind in ("csv", "xlsx", "json")),
    *(f"/hand-in?account=100210&act={act}" for act in asking.ACTS),
    "/hand-in?account=100210&act=transfer&to=100377&kind=general&amount=5&approver=5102&look=1",
    "/hand-in?account=100210&act=transfer&to=400001&kind=general&amount=5&look=1",
    "/hand-in?account=100210&act=surrender&kind=general&amount=999999999&approver=5102&look=1",
)  # fmt: skip
REFUSED = (
    "/accounts/100377", "/accounts/400001", "/accounts/999999", "/accounts/100377/statement.csv", "/accounts/0",
    "/accounts/400001/statement.json", "/compliance?year=1", "/compliance?year=x", "/compliance.csv?year=2099",
    "/hand-in?account=100377&act=surrender&look=1", "/hand-in?account=400001&act=surrender",
    "/hand-in?account=100210&act=create", "/hand-in?account=100210&act=surrender&kind=x&amount=y&look=1",
    "/hand-in?account=100210&act=transfer&to=&kind=general&amount=-1&look=1",
    "/hand-in?account=100210&act=surrender&kind=general&amount=1&approver=5203&look=1",
    "/hand-in?account=100210&act=surrender&kind=general&amount=1&approver=5299&look=1",
)  # fmt: skip
# What an attacker asks for that is there for others, with what is there for nobody.
OF_OFFICE = (
    "/next", "/close", "/undo", "/release", "/names", "/days", "/days/2025-09-22", "/month", "/find", "/find?refused=1",
    "/journal", "/audit", "/send", "/search?q=100377", "/due", "/due.ics", "/approve", "/change",
    "/change?account=100377",
    "/find.csv", "/names.json", "/journal.json", "/days.xlsx", "/month.csv", "/due.csv", "/table.csv?of=transfer",
    "/accounts", "/accounts?q=5502", "/accounts/100210/history.csv", "/accounts/100377/history.json", "/jobs/1",
    "/jobs/1/packages.zip", "/status.json", "/try.json", "/hand-in.json", "/link", "/end", "/name", "/office",
    "/hand-in/look/00000000000000000000000000000000", "/../office.ini", "//accounts/100377", "/accounts/100210/",
    "/static/x", "/%2e%2e/registry.sqlite", "/accounts/100210%00", "/ACCOUNTS/100210",
)  # fmt: skip
Told = tuple[str, object]


def holder_trials(work: Path) -> Iterator[Told]:
    """All trials of this file."""
    work.mkdir()
    yield from settings_trials(work)
    yield from others_trials(work / "others")
    yield from attacks(work / "attacks")
    yield from asking_trials(work / "asking")
    yield from four_eyes_trials(work / "four-eyes")


def office_in(work: Path, first: str, four_eyes: str = "", **more: str) -> Path:
    """A folder with a settled Monday, by a first text, and these people."""
    work.mkdir(parents=True, exist_ok=True)
    office, text = work / "office", work / "first.csv"
    text.write_text(first)
    must_do(["init", str(office), str(text), "--program", str(RULES)])
    must_do_either(["close", "--date", MONDAY, "--second", "--yes", "--office", str(office)])
    with_lines(office, {**PEOPLE, **more}, four_eyes)
    return office


def monday() -> str:
    return (WEEK / "monday.csv").read_text()


def desk_of(office: Path, private: Path) -> desks.Desk:
    desk = desks.Desk(office, private, header="X-User")
    desk.served.jobs.begin = desks.at_once
    return desk


def person(desk: desks.Desk, login: str) -> desks.Person:
    return desk.person(**{"X-User": login})


def gives(office: Path, login: str, *words: object) -> None:
    said = Said(*words, "--for", login, "--office", office)
    assert said.status in (0, 1), said


# What office.ini says.


def settings_trials(work: Path) -> Iterator[Told]:
    """A login is tied to one holder, and perhaps to one user, and has no right beside."""
    office = office_in(work / "settings", monday())
    kept = (office / "office.ini").read_text()
    for rights in ("user 5101", "holder 5501, close", "holder 5501, all", "holder 5501, holder 5502", "holder x",
                   "holder 5501, user 5101, user 5102", "holder 0", "holder 5501, look", "holder"):  # fmt: skip
        (office / "office.ini").write_text(kept.replace("holder 4711", rights))
        said = Said("status", "--office", office)
        yield f"nora is {rights}", None if said.status == 3 and "nora: found" in said.errors else said
    (office / "office.ini").write_text(kept)
    commands: list[tuple[str, list[object]]] = [
        ("hanna", ["change", "100210", "--waiver", "yes", "--why", "x", "--yes"]),
        ("hanna", ["close", "--date", TUESDAY]),
        ("hanna", ["hand-in", WEEK / "tuesday-do.csv"]), ("hugo", ["approve", "close", "--date", TUESDAY]),
        ("hedy", ["label", "holder", "5501", "X", "--why", "x"]), ("hanna", ["take-back", "1", "--why", "x"]),
    ]  # fmt: skip
    for login, words in commands:
        said = Said(*words, "--for", login, "--office", office)
        yield f"no command of {login}: {words[0]}", None if said.status == 2 and "may " in said.errors else said


# Nothing of others.


def two_offices(work: Path) -> tuple[Path, Path]:
    """Two folders that differ in what belongs to others alone: accounts, names, instructions, records, what waits, who
    did what."""
    first = monday()
    other = first
    for before, after in OTHERS:
        assert before in other, before
        other = other.replace(before, after)
    here, there = office_in(work / "here", first), office_in(work / "there", other)
    for office in (here, there):
        gives(office, "anna", "label", "holder", 5501, "Kalkwerk Nord", "--why", "x")
        gives(office, "anna", "label", "user", 5102, "Ben Ost", "--why", "x")
    gives(there, "bert", "label", "holder", 5502, "Glas & Co", "--why", "y")
    gives(there, "bert", "label", "account", 300118, "Börse", "--why", "y")
    gives(there, "bert", "change", "100377", "--outside", "no", "--why", "y", "--yes")
    return here, there


def handed(work: Path, name: str, *rows: str) -> Path:
    path = work / name
    path.write_text("\n".join([*rows, ""]))
    return path


def others_trials(work: Path) -> Iterator[Told]:
    """All that a holder's login gets is the same bytes of both folders, on three days and with rows that wait."""
    here, there = two_offices(work)
    both = [desk_of(office, office.parent / "private") for office in (here, there)]
    yield from compared(both, "Monday", ("hanna", "nora"))
    own_rows = ["do,2025-09-23,5101,5102,surrender,100210,general,38200",
                "do,2025-09-23,5101,,surrender,100210,general,1",
                "do,2025-09-23,5101,5102,transfer,100210,300118,general,5"]  # fmt: skip
    mine = handed(work, "own.csv", *own_rows)
    more = handed(work, "more.csv", "do,2025-09-23,9999,,surrender,400001,general,1",
                  "do,2025-09-23,4101,4102,transfer,300118,100377,general,9")  # fmt: skip
    gives(there, "bert", "hand-in", more)
    for office in (here, there):
        gives(office, "anna", "hand-in", mine)
    for desk in both:
        hanna = person(desk, "hanna")
        fields = {"account": "100210", "act": "surrender", "kind": "general", "amount": "77", "approver": "5102"}
        assert post(hanna, "/hand-in", fields).status == 303
    yield from compared(both, "Tuesday, with rows that wait", ("hanna", "hugo", "hedy", "nora"))
    for office in (here, there):
        gives(office, "bert", "close", "--date", TUESDAY, "--second", "--yes")
    yield from compared(both, "behind Tuesday", ("hanna",))
    gives(there, "anna", "change", "300118", "--holder", "5501", "--why", "sold", "--yes")
    gives(there, "bert", "change", "300118", "--holder", "5598", "--why", "no", "--yes")
    gives(there, "bert", "close", "--date", "2025-09-24", "--second", "--yes")
    gives(here, "anna", "close", "--date", "2025-09-24", "--second", "--yes")
    yield from compared(both, "behind Wednesday", ("hanna", "hedy"))
    for office in (here, there):
        settings = office / "office.ini"
        settings.write_text(settings.read_text() + "[due]\nsurrender = 09-30\n")
    yield from compared(both, "with a deadline", ("hanna",))
    gives(there, "bert", "release", "2025-09-24", "--why", "x", "--yes")
    gives(there, "bert", "hand-in", handed(work, "late.csv", "do,2025-09-25,9999,,surrender,400001,general,3"))
    yield from compared(both, "released", ("hanna",))
    # (what would be told if it was broken: others are on the pages of the office)
    anna = person(both[1], "anna")
    yield "others are on other pages", None if "400001" in anna.get("/accounts").text else "they are not"


def post(who: desks.Person, path: str, fields: dict[str, str], **more: str) -> desks.Answer:
    """A form with the token of this browser."""
    return who.post(path, {"token": token_of(who), "once": "0" * 16, **fields, **more})


def token_of(who: desks.Person) -> str:
    with who.client.session_transaction(base_url=f"http://{desks.HOST}") as session:
        return str(session["token"])


def compared(both: list[desks.Desk], when: str, logins: tuple[str, ...]) -> Iterator[Told]:
    """Whether each answer is the same."""
    for login in logins:
        pair = [person(desk, login) for desk in both]
        for path in (*PAGES, *REFUSED, *OF_OFFICE):
            answers = [told(who.get(path)) for who in pair]
            yield f"{when}, {login}: {path}", None if answers[0] == answers[1] else differs(*map(str, answers))
        for path, fields in POSTS:
            answers = [told(post(who, path, fields)) for who in pair]
            what = f"{when}, {login}: POST {path} {fields}"
            yield what, None if answers[0] == answers[1] else differs(*map(str, answers))


POSTS: tuple[tuple[str, dict[str, str]], ...] = (
    ("/hand-in", {"account": "100377", "act": "surrender", "kind": "general", "amount": "1"}),
    ("/hand-in", {"account": "400001", "act": "surrender", "kind": "general", "amount": "1"}),
    ("/hand-in", {"account": "100210", "act": "create", "kind": "general", "amount": "1"}),
    ("/hand-in", {"account": "100210", "act": "surrender", "kind": "general", "amount": "x"}),
    ("/hand-in", {"account": "100210", "act": "surrender", "kind": "general", "amount": "1", "approver": "5203"}),
    ("/hand-in", {}), ("/approve", {"key": "0" * 64}), ("/approve", {"place": "1"}), ("/approve", {}),
    ("/close/settle", {"date": TUESDAY}), ("/next/take-back", {"places": "1"}), ("/nothing", {}),
    ("/change/make", {"account": "100377"}), ("/hand-in/take", {"look": "0" * 32}), ("/send/begin", {}),
)  # fmt: skip


def told(answer: desks.Answer) -> tuple[int, dict[str, str], bytes]:
    """What somebody gets, but what each page has anew."""
    headers = {name: word for name, word in answer.headers.items() if name not in ("Date", "Set-Cookie")}
    return answer.status, headers, ANEW.sub(b"", answer.content)


# An attacker.


def attacks(work: Path) -> Iterator[Told]:
    """Who has a holder's login gets nothing else by it."""
    office = office_in(work, monday())
    desk = desk_of(office, work / "private")
    hanna, otto, hedy, nora, anna = (person(desk, login) for login in ("hanna", "otto", "hedy", "nora", "anna"))
    begun = desks.bytes_of(office)
    nothing = told(hanna.get("/there/is/nothing"))
    yield "what is not there", differs(nothing[0], 404)
    for path in OF_OFFICE:
        yield f"{path} is as what is not there", None if told(hanna.get(path)) == nothing else hanna.get(path)
    for path in (path for path in app.GET if "<" not in path and path not in own.GET):
        yield f"the page {path}", None if told(hanna.get(path)) == nothing else hanna.get(path)
    for path in app.POST:
        if path not in own.POST:
            answer = post(hanna, path, {"who": "anna", "why": "x", "state": "0" * 64, "places": "1", "shown": "0" * 64})
            yield f"the form {path}", None if told(answer) == nothing else answer
    for path in ("/accounts/100377", "/accounts/300118/statement.csv", "/accounts/999999"):
        yield f"{path} of others", None if told(hanna.get(path)) == nothing else hanna.get(path)
    for who, name in ((hanna, "hanna"), (hedy, "hedy"), (nora, "nora")):
        for path in PAGES[:6]:
            answer = who.get(path)
            yield f"{name}: {path}", found_others(answer) or answer.status == 500 and answer
    text = otto.get("/").text
    yield "a page of somebody else", None if "100377" in text and "100210" not in text else text
    for fields in (
        {"account": "100377", "act": "surrender", "kind": "general", "amount": "1"},
        {"account": "300118", "act": "transfer", "to": "100210", "kind": "general", "amount": "1"},
        {"account": "100210", "from": "100377", "act": "transfer", "to": "100377", "kind": "general", "amount": "y"},
        {"account": "100210,100377", "act": "surrender", "kind": "general", "amount": "1"},
        {"account": "100210", "act": "surrender", "kind": "general", "amount": "1", "approver": "4102"},
        {"account": "100210", "act": "surrender", "kind": "general\n", "amount": "1\ndo,2025-09-23,4101,4102,delete,1"},
        {"account": "100210", "act": "reverse", "number": "61001"}, {"account": "900009", "act": "create"},
        {"account": "100210", "act": "central"}, {"account": "\u0661", "act": "surrender"}, {"act": "surrender"},
    ):  # fmt: skip
        answer = post(hanna, "/hand-in", fields)
        yield f"{fields}", None if answer.status == 400 else answer
    for who, name in ((hedy, "hedy"), (nora, "nora")):
        answer = post(who, "/hand-in", {"account": "100210", "act": "surrender", "kind": "general", "amount": "1"})
        yield f"{name} asks for nothing", None if answer.status == 400 else answer
    yield "without a token", None if hanna.post("/hand-in", {"account": "100210"}).status == 403 else "it was taken"
    yield "nothing was done", None if desks.bytes_of(office) == begun else "it was"
    # (what others wrote is typed as a key or a place)
    gives(office, "anna", "hand-in", handed(work, "x.csv", "do,2025-09-23,5101,5102,surrender,100377,general,1"))
    for fields in ({"place": "8"}, {"key": "8"}, {"key": approvals.sum_of_words("8")}):
        yield f"approving {fields}", None if post(hanna, "/approve", fields).status == 400 else "it was approved"
    yield "a row of others with a user of theirs", found_others(hanna.get("/"), "100377")
    settings = (office / "office.ini").read_text()
    (office / "office.ini").write_text(settings + "[due]\nsurrender = x\n")
    answer = hanna.get("/")
    is_silent = answer.status == 500 and "surrender" not in answer.text
    yield "a wrong office.ini tells nothing", None if is_silent else answer
    (office / "office.ini").write_text(settings.replace("hanna = Hanna Holt: holder 5501, user 5101\n", ""))
    yield "who is not tied any more", None if hanna.get("/").status == 403 else hanna.get("/")
    (office / "office.ini").write_text(settings.replace("holder 5501, user 5101", "holder 5502, user 5101"))
    yield "who is tied to another one", None if "100377" in hanna.get("/").text else hanna.get("/")
    (office / "office.ini").write_text(settings)
    yield "the office sees all", None if "100377" in anna.get("/accounts").text else "not"
    with desk.served.reading.anew() as there:
        yield "no event of theirs", differs([own.login for own in there.events.all if "hanna" in own.login], [])


def found_others(answer: desks.Answer, *more: str) -> object:
    """Which numbers and names of others an answer has."""
    words = more or ("100377", "300118 ", "5502", "9004", "4101", "5203", "6100", "Anna Berg", "Bert")
    return [own for own in words if own in answer.text] or None


# Asking.


def asking_trials(work: Path) -> Iterator[Told]:
    """An instruction of a holder: who may propose and approve it, and what becomes of it."""
    office = office_in(work, monday())
    desk = desk_of(office, work / "private")
    hanna, hugo, otto, ossi, anna = (person(desk, own) for own in ("hanna", "hugo", "otto", "ossi", "anna"))
    look = "/hand-in?account=100210&act=surrender&kind=general&amount=100&approver=5102&look=1"
    looked = hanna.get(look)
    yield "the look says it", has(looked, "account 100210, Surrender, 100 general", "Yes, hand it in")
    (form,) = [own for own in looked.page.forms if own.method == "post"]
    early = {"proposed": MONDAY, "other_day": MONDAY, "proposer": "5102"}
    answer = hanna.post("/hand-in", {**form.fields, **early})
    yield "it is handed in", None if answer.status == 303 else answer
    yield "and told", has(hanna.get("/"), "Surrender, 100 general", "waits for 5102, or for the office")
    again = hanna.post("/hand-in", {**form.fields, "once": "1" * 16})
    yield "once", has(again, "This was handed in before, or is done", "It is meant once more")
    (event,) = [own for own in rows_handed(office)]
    yield "its event", differs([event[0].partition(":")[2], *event[1:]], ["hanna", "hanna", ROW])
    yield "it waits", differs(waiting(office), ["hanna"])
    yield "the office is told", has(anna.get("/approve"), "hand-in by Hanna Holt (hanna)")
    key = hugo.get("/").page.form("/approve").fields["key"]
    # (ossi is the same user, and tied to another holder)
    for who, name in ((hanna, "hanna"), (otto, "otto"), (ossi, "ossi")):
        yield f"{name} does not approve it", None if post(who, "/approve", {"key": key}).status == 400 else "she does"
    with folder.at(office) as there:
        (part,) = approvals.handed_in_of(there).waiting
        logins = "hugo", "ossi", "bert"
        by_login = {own: approvals.commands_for(there, part, f"{system_login()}:{own}") for own in logins}
    yield "whose yes counts", differs(by_login, {"hugo": ("own",), "ossi": ("hand-in",), "bert": ("hand-in",)})
    yield "hanna has no button for it", None if "/approve" not in hanna.get("/").text else "she has"
    yield "who it names does", None if post(hugo, "/approve", {"key": key}).status == 303 else "not"
    yield "nothing waits", differs(waiting(office), [])
    yield "once more", None if post(hugo, "/approve", {"key": key}).status == 400 else "it was"
    with folder.at(office) as there:
        before = own.own_of(desk.served, there.people.named["hanna"])
    must_do_either(["close", "--date", TUESDAY, "--second", "--yes", "--for", "anna", "--office", str(office)])
    late = before, f"do,{WEDNESDAY},5101,,surrender,100210,general,9\nend\n".encode()
    yield "who looked before another day was settled", asked_late(office, *late)
    yield "nobody chooses the day or another user", None if ROW in text_of(office, TUESDAY).decode() else "they do"
    yield "and done", has(hanna.get("/accounts/100210"), "Surrender")
    yield from waiting_trials(office, hanna, hugo, anna)
    audited = Said("audit", "--second", "--office", office)
    yield "audit finds nothing", None if audited.status == 0 else audited


def waiting_trials(office: Path, hanna: desks.Person, hugo: desks.Person, anna: desks.Person) -> Iterator[Told]:
    """What names nobody else counts by itself; what waits stays when a day is closed, and the office may approve it;
    and what office.ini no longer says does not count."""
    fields = {"account": "100210", "act": "surrender", "kind": "general", "amount": "3"}
    yield "by oneself", None if post(hanna, "/hand-in", fields).status == 303 else "not"
    yield "it counts", differs(waiting(office), []) or has(hanna.get("/"), "it comes into the next day")
    with_two = {**fields, "amount": "4", "approver": "5102"}
    yield "one more", None if post(hanna, "/hand-in", with_two).status == 303 else "not"
    kept = (office / "office.ini").read_text()
    (office / "office.ini").write_text(kept.replace("hanna = Hanna Holt: holder 5501, user 5101\n", ""))
    yield "of who is gone nothing counts", differs(waiting(office), ["hanna", "hanna"])
    (office / "office.ini").write_text(kept.replace("holder 5501, user 5101", "holder 5501, user 5199"))
    yield "nor of who has another user", differs(waiting(office), ["hanna", "hanna"])
    (office / "office.ini").write_text(kept)
    gives(office, "bert", "close", "--date", WEDNESDAY, "--second", "--yes")
    yield "what waits is left", differs(waiting(office), ["hanna"])
    page = anna.get("/approve")
    place = page.page.form("/approve").choices["place"][0]
    shown = page.page.form("/approve").fields
    answer = anna.follow(anna.post("/approve", {**shown, "place": place}))
    yield "the office approves it, too", has(answer, "approved: place") or differs(waiting(office), [])
    gives(office, "bert", "close", "--date", THURSDAY, "--second", "--yes")
    yield "it came", None if ",5101,5102,surrender,100210,general,4" in text_of(office, THURSDAY).decode() else "not"


def four_eyes_trials(work: Path) -> Iterator[Told]:
    """Where two logins of the office stand behind what is handed in, those of a holder are none of them."""
    office = office_in(work, monday(), "hand-in")
    desk = desk_of(office, work / "private")
    hanna, hugo = (person(desk, login) for login in ("hanna", "hugo"))
    fields = {"account": "100210", "act": "surrender", "kind": "general", "amount": "3", "approver": "5102"}
    yield "it is taken", None if post(hanna, "/hand-in", fields).status == 303 else "not"
    yield "it waits for the office", has(hugo.get("/"), "waits for")
    yield "hugo has no button", None if "/approve" not in hugo.get("/").text else hugo.get("/").text
    (place,) = events_of(office, "max(start)", what="handed")
    said = Said("approve", place, "--for", "bert", "--office", office)
    yield "the office approves it", None if said.status == 0 and not waiting(office) else said
    shutil.rmtree(office)


def asked_late(office: Path, before: Own, row: bytes) -> object:
    """What becomes of a row that somebody asks for who knows the accounts of an earlier day."""
    with folder.at(office) as there:
        by = By(f"{system_login()}:hanna", "hanna")
        try:
            asking.ask(there, by, before, row, False)
            return "it was taken"
        except NotTaken as why:
            return None if "look once more" in str(why) else why


def rows_handed(office: Path) -> Iterator[tuple[str, str, str]]:
    """The login, the name and the row of what holders handed in."""
    with folder.at(office) as there:
        for event in there.events.all:
            if event.what == "handed" and event.name == "at the desk of holders":
                yield event.login, event.who, there.store.texts.get(event.text).decode().split("\n")[0]


def waiting(office: Path) -> list[str]:
    """Of whom something waits for another login."""
    with folder.at(office) as there:
        return [part.login.rpartition(":")[2] for part in approvals.handed_in_of(there).waiting]


def has(answer: desks.Answer, *words: str) -> object:
    """What an answer lacks of these words."""
    text = html.unescape(re.sub("<[^>]*>", "", answer.text))
    lacking = [word for word in words if word not in answer.text and word not in text]
    return (lacking, text[-1500:]) if lacking else None
