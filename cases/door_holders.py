"""What a login tries at the socket of a desk that office.ini ties to a holder: it has the pages of this holder, and
gives no command and asks as no program for anything else. For cases/run-door."""
from __future__ import annotations

from collections.abc import Iterator
from pathlib import Path
from typing import TYPE_CHECKING

from logins import Login

if TYPE_CHECKING:
    from door_trials import Visitor

Told = Iterator[tuple[str, object]]
TABLE = Path(__file__).resolve().parents[1] / "examples" / "week" / "tuesday-do.csv"
OF_HOLDER = "who is tied to a holder works in a browser"
JSON = ("Content-Type", "application/json")
ASKED = {"account": "100210", "act": "surrender", "kind": "general", "amount": "2", "approver": "5102"}


def holder_trials(work: Path, holder: Login, path: Path, own: "list[Visitor]", at_links: "Visitor") -> Told:
    """The browsers `own` came in by a link and by a proxy; `at_links` is a program of the login."""
    commands: list[list[object]] = [
        ["status"], ["find", "--refused"], ["hand-in", TABLE], ["approve"], ["history", 100377], ["due"],
        ["unpack", work / "out"], ["send", work / "out"], ["take-back", 1, "--why", "x"],
        ["close", "--date", "2025-09-23"],
    ]  # fmt: skip
    for words in commands:
        status, said = holder.day("--desk", path, *words)
        yield f"a holder gives no command: {words[0]}", None if status == 2 and OF_HOLDER in said else (status, said)
    for visitor, way in zip(own, ("link", "proxy")):
        page = visitor.get("/")
        is_own = page.status == 200 and "100210" in page.text and "100377" not in page.text
        yield f"the page of a holder by a {way}", None if is_own else page
        nothing = visitor.get("/nothing")
        for where in ("/accounts", "/accounts/100377", "/journal", "/find.json?refused=1", "/status.json", "/day"):
            there = visitor.get(where)
            is_same = (there.status, there.text) == (nothing.status, nothing.text) and there.status == 404
            yield f"{where} by a {way}", None if is_same else there
    for where in ("/status.json", "/try.json", "/find.json?refused=1", "/journal.json", "/names.json", "/days.json"):
        yield f"a program of a holder, {where}", at_links.get(where).wrong(404)
    sent = b'{"files": [{"name": "x", "text": "do,2025-09-23,5101,5102,surrender,100210,general,1"}]}'
    yield "nor does it hand in", at_links.ask("POST", "/hand-in.json", sent, [JSON]).wrong(404)
    there = at_links.get("/accounts.json")
    yield "its own accounts as JSON", None if there.status == 200 and "100377" not in there.text else there
    looked = own[0].get("/hand-in?look=1&" + "&".join(f"{name}={word}" for name, word in ASKED.items()))
    token = looked.text.partition('name="token" value="')[2].partition('"')[0]
    answer = own[0].post("/hand-in", {**ASKED, "token": token, "once": "0" * 16})
    yield "a holder asks for something", answer.wrong(303)
    page = own[0].get("/")
    yield "and it waits", None if "Surrender, 2 general" in page.text and "waits for" in page.text else page
