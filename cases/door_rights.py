"""What somebody tries who may hand in, and nothing else: by commands at the desk, as a program, and in a browser.
Nothing is done that this login has no right to, and each attempt is in the log of the desk. For cases/run-door."""
from __future__ import annotations

import os
import re
from collections.abc import Callable, Iterator, Sequence
from pathlib import Path
from typing import TYPE_CHECKING

from door_commands import Giver, has, request
from door_machines import JSON, ROW, sent
from door_many import events_of
from harness import differs

if TYPE_CHECKING:
    from door_trials import SocketDesk, Visitor
    from logins import Login
    from real_desk import Answer

Told = Iterator[tuple[str, object]]
DAY, NEXT = "2025-09-22", "2025-09-23"
NO_CLOSE, NO_CHANGE = "may hand in, and not close", "may hand in, and not change"
NO_RELEASE = "may hand in, and not release"
ACCOUNT = "account,100999,trading,5503,open,no,no,0,0,0\n"
WHY = ("--why", "x")


def by_words(place: str, files: Path, other: str) -> Iterator[tuple[list[object], str]]:
    """Commands that are given at the desk, each with what is told. `place` is that of a change that waits."""
    own, account = files / "own.csv", files / "account.csv"
    yield ["close", "--date", NEXT, "--second", "--yes"], NO_CLOSE
    yield ["undo", DAY, *WHY], NO_CLOSE
    yield ["correct", DAY, "--without", "61001", *WHY, "--second", "--yes"], NO_CLOSE
    yield ["correct", DAY, "--with", own, *WHY, "--second", "--yes"], NO_CLOSE
    yield ["correct", DAY, "--with", account, *WHY, "--second", "--yes"], NO_CLOSE
    yield ["release", DAY, *WHY, "--yes"], NO_RELEASE
    yield ["send", files / "sent", "--release"], "./day release"
    yield ["change", "100210", "--holder", "5503", *WHY, "--yes"], NO_CHANGE
    yield ["change", "100210", "--waiver", "yes", *WHY, "--yes", "--who", other], NO_CHANGE
    yield ["label", "user", "1", "x", *WHY], NO_CHANGE
    yield ["label", "account", "100210", "--remove", *WHY], NO_CHANGE
    yield ["hand-in", account], NO_CHANGE
    yield ["hand-in", own, account], NO_CHANGE
    yield ["take-back", place, *WHY], NO_CHANGE
    yield ["take-back", "--handed-by", other, *WHY], NO_CHANGE
    yield ["approve", place], NO_CHANGE
    yield ["approve", "close", "--date", NEXT], "nobody asked for close"
    yield ["settings", "[due] lead = 3", *WHY], "may hand in, and not all"
    yield ["hand-in", own, "--for", other], "the system says for whom"


def by_bytes(home: Path, files: Path, other: str) -> Iterator[tuple[str, bytes, str]]:
    """Bytes that the command line does not send, each with what is told."""
    yield "somebody else's words", request("close", "--date", NEXT, "--second", "--yes", "--who", other), NO_CLOSE
    yield "another name in front", request("change", "100210", "--holder", "1", "--yes", called=other), "words that are"
    yield "a login beside the words", request("undo", DAY, *WHY, login=other), NO_CLOSE
    yield "a file of the desk", request("hand-in", str(home / "office/office.ini")), "it was not sent"
    yield "a first text", request("init", str(home / "office"), "x", sent={"x": b""}), "no command of a desk"
    yield "another folder", request("close", "--office", str(home / "week"), "--date", NEXT), NO_CLOSE
    yield "a program", request("verify", "--day", DAY, "--program", "/bin/sh"), "runs no program"


def by_program(own: Visitor, other: str) -> Iterator[tuple[str, tuple[int, object], int]]:
    """What a program asks, with the status and the status that is wanted."""
    files = [{"name": "a.csv", "text": ACCOUNT}]
    yield "an account as a program", sent(own, {"files": files}), 403
    both = {"files": [{"name": "o.csv", "text": ROW.format(8_001)}, *files]}
    yield "an account behind instructions", sent(own, both), 403
    yield "an account for somebody else", sent(own, {"files": files, "login": other, "who": other, "for": other}), 403
    yield "an account by a header", sent(own, {"files": files}, JSON, ("X-Remote-User", other)), 403
    for where in ("/close.json", "/change.json", "/approve.json", "/undo.json", "/close/settle", "/approve"):
        yield where, (own.ask("POST", where, b"{}", [JSON]).status, ""), 404


def in_browser(own: Visitor, other: Visitor, place: str) -> Iterator[tuple[str, Answer, str]]:
    """What forms are sent, each with what comes back, and what of it has to be told."""
    form = {**other.get("/undo").fields("/undo/yes"), **own.get("/hand-in").fields("/hand-in/look")}
    del form["shown"]
    said = {
        **form, "why": "x", "yes": "1", "second": "1", "date": NEXT, "places": place, "kind": "user", "number": "1",
        "name": "x", "of": "rules", "place": place, "who": other.login.name,
    }  # fmt: skip
    for action, wanted in (
        ("/close/settle", NO_CLOSE), ("/undo/yes", NO_CLOSE), ("/release/yes", NO_RELEASE), ("/approve", NO_CHANGE),
        ("/change/make", "Nothing was done"), ("/names/give", "Nothing was done"), ("/next/take-back", NO_CHANGE),
        ("/nothing", "has this address"),
    ):  # fmt: skip
        answer = own.post(action, {**said, "once": os.urandom(8).hex()})
        yield action, own.job(answer) if answer.status == 303 else answer, wanted


class Log:
    """The log of a desk, of which each attempt has lines of its own."""

    def __init__(self, desk: SocketDesk, name: str) -> None:
        self.desk, self.name, self.read = desk, name, len(desk.said())

    def wrong(self, fault: object) -> object:
        """What is wrong with an attempt: what came back, or that the log does not tell whose it was."""
        told = self.desk.said()[self.read :]
        self.read += len(told)
        return fault or (None if self.name in told else f"the log does not tell it: {told[-300:]}")


def all_trials(
    path: Path, home: Path, files: Path, people: Sequence[Login], visit: Callable[[Login], Visitor], desk: SocketDesk
) -> Told:
    """`visit` gives a browser of a login."""
    login, other = people
    giver, log = Giver(login, path), Log(desk, login.name)
    (files / "own.csv").write_text(ROW.format(8_000))
    (files / "account.csv").write_text(ACCOUNT)
    waits = Giver(other, path).gives("change", "100210", "--holder", "5504", *WHY, "--yes")
    yield "somebody else's change waits", has(waits, "waits for")
    place = re.findall(r"place (\d+)", waits[1])[0]
    own, browser, program = visit(login).came_in(), visit(other).came_in(), visit(login)
    program.path = Path(f"{path}.link")
    before = events_of(home / "office")
    log.wrong(None)
    for words, wanted in by_words(place, files, other.name):
        yield f"who may hand in gives {words[0]}", log.wrong(has(giver.gives(*words), "(2, ", wanted))
    for what, content, wanted in by_bytes(home, files, other.name):
        yield f"who may hand in sends {what}", log.wrong(has(giver.sends(content), wanted))
    for what, (status, told), code in by_program(program, other.name):
        yield f"who may hand in asks {what}", log.wrong(None if status == code else (status, told))
    for what, answer, wanted in in_browser(own, browser, place):
        yield f"who may hand in, {what}", log.wrong(has(answer.text, wanted))
    yield "nothing was done", differs(events_of(home / "office"), before)
    yield "the change is taken back", has(Giver(other, path).gives("take-back", place, *WHY), "(0, ")
