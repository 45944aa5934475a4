"""Ten people at once at a desk at a socket, each with a login of their own. What they ask is drawn: by commands, as
programs and in browsers; and the server is killed meanwhile. For cases/run-door, which starts each person as a process:

usage: door_many.py SOCKET NAME PLACE FROM COUNT DATE
"""
from __future__ import annotations

import contextlib
import datetime
import http.client
import io
import json
import os
import re
import socket
import sqlite3
import subprocess
import sys
import tempfile
import threading
import time
import zlib
from collections import Counter
from collections.abc import Iterator, Sequence
from pathlib import Path
from random import Random
from typing import TYPE_CHECKING

from harness import day_command, differs

if TYPE_CHECKING:
    from door_trials import SocketDesk
    from logins import Login

Told = Iterator[tuple[str, object]]
# The logins of ten people.
PEOPLE = tuple("abcdefghij")
# Each of them has so many amounts and numbers of users, and asks so often between two days that are closed.
OF_EACH, OF_A_DAY = 10_000, 50
# Whoever is not answered goes on asking for so many seconds.
MOST_WAITING = 600
TABLES = "status journal days accounts find due".split()
# What may be drawn, each as often as it stands here.
DRAWN = "words words words program program program taken named looked looked page".split()


class Person:
    """Somebody who asks, one thing after another, each until it is told as done: a killed server is no answer."""

    def __init__(self, room: Path, path: str, name: str, place: int, first: int) -> None:
        self.room, self.path, self.name, self.first = room, path, name, OF_EACH * (place + 1)
        self.chance, self.waits, self.cookie = Random(f"{place} {first}"), list[int](), ""

    def asks(self, number: int, date: str) -> tuple[str, int]:
        """Asks for one thing, and gives what it was."""
        what = self.chance.choice(DRAWN)
        if what == "taken" and not self.waits:
            what = "words"
        amount = self.first + number
        if what in ("words", "program"):
            row = f"do,{date},5101,5102,transfer,100210,300118,general,{amount}\n"
            self.until(what, "handed in", "handed_in", "handed_by", of=(amount, row))
            self.waits.append(amount)
            return "handed", amount
        if what == "taken":
            amount = self.waits.pop(self.chance.randrange(len(self.waits)))
        wanted = {"taken": ("taken back", "nothing"), "named": ("is named", "named", "nothing"), "looked": ("[",)}
        self.until(what, *wanted.get(what, (f"You are {self.name}",)), of=(amount, ""))
        return what, amount

    def until(self, what: str, *wanted: str, of: tuple[int, str]) -> None:
        until, said = time.monotonic() + MOST_WAITING, ""
        while True:
            with contextlib.suppress(OSError, http.client.HTTPException):
                said = getattr(self, what)(*of)
            if any(words in said for words in wanted):
                return
            assert time.monotonic() < until, (what, of, said[-900:])
            time.sleep(0.2)

    def words(self, amount: int, row: str) -> str:
        file = self.room / f"{self.name}-{amount}.csv"
        file.write_text(row)
        return self.command("--desk", self.path, "hand-in", str(file))

    def taken(self, amount: int, _: str) -> str:
        return self.command("--desk", self.path, "take-back", "--file", f"{self.name}-{amount}.csv", "--why", "x")

    def named(self, amount: int, _: str) -> str:
        return self.command("--desk", self.path, "label", "user", str(amount), f"{self.name} {amount}", "--why", "x")

    def command(self, *words: str) -> str:
        said = io.StringIO()
        with contextlib.redirect_stdout(said), contextlib.redirect_stderr(said):
            day_command(words)
        return said.getvalue()

    def program(self, amount: int, row: str) -> str:
        sent = json.dumps({"files": [{"name": f"{self.name}-{amount}.csv", "text": row}]})
        return self.request(".link", "POST", "/hand-in.json", sent, {"Content-Type": "application/json"})[0]

    def looked(self, *_: object) -> str:
        return self.request(".link", "GET", f"/{self.chance.choice(TABLES)}.json")[0]

    def page(self, *_: object) -> str:
        """The first page in a browser, which has a link of its own."""
        if not self.cookie:
            key = re.search(r"key=[\w-]+", self.command("link", "--socket", self.path))
            self.cookie = self.request("", "GET", f"/?{key[0]}")[1].partition(";")[0] if key else ""
        said = self.request("", "GET", "/", "", {"Cookie": self.cookie})[0]
        if f"You are {self.name}" not in said:
            self.cookie = ""
        return said

    def request(
        self, behind: str, method: str, where: str, body: str = "", headers: dict[str, str] | None = None
    ) -> tuple[str, str]:
        """What comes back, and its cookie."""
        own = http.client.HTTPConnection("localhost")
        with socket.socket(socket.AF_UNIX) as there:
            there.settimeout(MOST_WAITING)
            there.connect(self.path + behind)
            own.sock = there
            own.request(method, where, body or None, headers or {})
            answer = own.getresponse()
            return answer.read().decode(), answer.headers.get("Set-Cookie", "")


def many_trials(path: Path, office: Path, people: Sequence[Login], desk: SocketDesk, count: int) -> Told:
    """Each person asks `count` times, and days are closed in between: nothing is lost, nothing stands twice, and each
    line of the chain is of the login that asked for it."""
    begun, kills, asked = last_event(office), 0, Counter[tuple[str, str, int]]()
    day = datetime.date(2025, 9, 23)
    for first in range(0, count, OF_A_DAY):
        often = min(OF_A_DAY, count - first)
        told = Killing(desk, office, often)
        with told:
            wrong = [*asked_by(path, people, first, often, str(day), asked)]
        kills += told.kills
        yield f"ten people who ask {often} times on {day}", wrong
        said = people[first // OF_A_DAY % len(people)].day(
            "--desk", path, "close", "--date", day, "--second", "--yes"
        )
        yield f"{day} is closed", None if f"{day} is settled" in said[1] else said
        day += datetime.timedelta(3 if day.weekday() == 4 else 1)
    yield "the server was killed", kills == 0
    found = Counter(done_since(office, begun))
    yield "each line once, by its login", [*((found - asked) + (asked - found)).elements()][:9]
    wanted = {amount for what, _, amount in asked if what == "handed"}
    wanted -= {amount for what, _, amount in asked if what == "taken"}
    yield "each instruction once in a day, or it waits", differs(sorted(instructions_of(office)), sorted(wanted))


class Killing:
    """Kills the server of a desk, time and again, during the block: each time when `often` more things are done, or up
    to twice as many."""

    def __init__(self, desk: SocketDesk, office: Path, often: int) -> None:
        self.desk, self.office, self.often, self.kills = desk, office, often, 0
        self.ended, self.thread = threading.Event(), threading.Thread(target=self.kill)

    def kill(self) -> None:
        chance, last = Random(0), last_event(self.office)
        more = chance.randint(self.often, 2 * self.often)
        while not self.ended.wait(0.1):
            if last_event(self.office) >= last + more:
                self.desk.kill_server()
                last, more, self.kills = last + more, chance.randint(self.often, 2 * self.often), self.kills + 1

    def __enter__(self) -> None:
        self.thread.start()

    def __exit__(self, *_: object) -> None:
        self.ended.set()
        self.thread.join()


def asked_by(
    path: Path, people: Sequence[Login], first: int, count: int, date: str, asked: Counter[tuple[str, str, int]]
) -> Iterator[str]:
    """Has each person ask so often, counts what each of them told, and says what is wrong."""
    begun = [
        subprocess.Popen(
            login.line(sys.executable, "-B", __file__, path, login.name, place, first, count, date),
            stdout=subprocess.PIPE, stderr=subprocess.PIPE, text=True, cwd="/", env={**os.environ, "TMPDIR": "/tmp"},
        )
        for place, login in enumerate(people)
    ]  # fmt: skip
    for login, process in zip(people, begun):
        told, errors = process.communicate()
        for line in told.splitlines():
            what, amount = json.loads(line)
            if what in ("handed", "taken", "named"):
                asked[what, login.name, amount] += 1
        if process.returncode or len(told.splitlines()) != count:
            yield f"{login.name}: {told[-300:]} {errors[-900:]}"


def asked_file(office: Path) -> contextlib.closing[sqlite3.Connection]:
    there = f"file:{office}/registry.sqlite?mode=ro"
    return contextlib.closing(sqlite3.connect(there, timeout=MOST_WAITING, uri=True))


def last_event(office: Path) -> int:
    with asked_file(office) as db:
        (last,) = db.execute("SELECT max(id) FROM events").fetchone()
        return int(last)


def events_of(office: Path) -> list[tuple[str, str, str]]:
    """What each event is, its login and its name."""
    with asked_file(office) as db:
        return [*db.execute("SELECT what, login, who FROM events ORDER BY id")]


def done_since(office: Path, begun: int) -> Iterator[tuple[str, str, int]]:
    """What people did behind an event: each with its login, and the amount or number by which it is known."""
    there = """
        SELECT own.what, own.login, first.name, packed FROM events AS own
        LEFT JOIN events AS first ON own.what = 'taken' AND first.id = own.of LEFT JOIN texts ON own.text = texts.sum
        WHERE own.id > ? AND (own.what IN ('taken', 'labelled') OR own.what = 'handed' AND own.of IS NULL)
    """
    with asked_file(office) as db:
        for what, login, name, packed in db.execute(there, (begun,)):
            text = zlib.decompress(packed).decode() if packed else ""
            known = {"handed": r"general,(\d+)", "labelled": r"user,(\d+)", "taken": ""}[what]
            told = re.findall(known, text) if known else re.findall(r"-(\d+)\.csv", name)
            yield {"labelled": "named"}.get(what, what), login.rpartition(":")[2], int(told[0])


def instructions_of(office: Path) -> Iterator[int]:
    """The amounts of the instructions above that a day has done or refused, or that wait."""
    settled = """
        SELECT amount FROM instructions JOIN log USING (record)
        WHERE account = 100210 AND proposed > '2025-09-22' AND amount >= ? AND (is_done OR name <> 'NotDue')
    """
    with asked_file(office) as db:
        yield from (int(amount) for (amount,) in db.execute(settled, (OF_EACH,)))
        waiting = "SELECT packed FROM filed JOIN texts ON texts.sum = waits ORDER BY date DESC LIMIT 1"
        for (packed,) in db.execute(waiting):
            for amount in re.findall(r",100210,300118,general,(\d{5,})", zlib.decompress(packed).decode()):
                yield int(amount)


def ask_often(path: str, name: str, place: int, first: int, count: int, date: str) -> None:
    """What a person does."""
    with tempfile.TemporaryDirectory() as room:
        person = Person(Path(room), path, name, place, first)
        for number in range(first, first + count):
            print(json.dumps(person.asks(number, date)), flush=True)


if __name__ == "__main__":
    ask_often(sys.argv[1], sys.argv[2], int(sys.argv[3]), int(sys.argv[4]), int(sys.argv[5]), sys.argv[6])
