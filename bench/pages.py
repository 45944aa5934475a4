#!/usr/bin/env -S python3 -B
"""Measures by the clock how soon a desk answers, while somebody closes a day of the same folder.

usage: pages.py FOLDER [--port N] [--instructions N]

FOLDER is one of `bench/folder.py`. It is changed: its next day gets N instructions (1000), and is closed by a command
`./day close --second`, as somebody at a terminal would. Meanwhile the desk is asked for one page after another, by
HTTP, over and over until the day is filed. A line for each page says in seconds how long it took: the first time, while
the day was closed (least, median and most, and how often it was asked), and the first time behind it. What is measured
hangs on what else the machine does, so say that.
"""
import argparse
import datetime
import http.client
import re
import statistics
import subprocess
import sys
import tempfile
import time
from pathlib import Path
from urllib.parse import urlsplit

import beside  # noqa: F401
import folder as made_days

from registry_tools.office import folder

DAY = made_days.TOP / "day"
PAGES = (
    "/", "/search?q=NotEnough", "/search?q=4711", "/find?refused=on", "/find?act=surrender", "/journal", "/days",
    "/accounts?by=general", "/compliance", "/due", "/next", "/close", "/status.json",
)  # fmt: skip


class Desk:
    """A desk of a folder at a port, and somebody's browser."""

    def __init__(self, path: Path, port: int) -> None:
        words = [str(DAY), "desk", "--office", str(path), "--port", str(port), "--who", "anna"]
        self.server = subprocess.Popen(words, stdout=subprocess.PIPE, text=True)
        assert self.server.stdout is not None
        links = (found for line in self.server.stdout if (found := re.search(r"http://\S+", line)))
        self.link = urlsplit(next(links)[0])
        self.cookie = ""
        answer = self.answer(f"{self.link.path}?{self.link.query}")
        self.cookie = (answer.getheader("Set-Cookie") or "").split(";")[0]

    def answer(self, path: str) -> http.client.HTTPResponse:
        """The answer to a request, read whole."""
        connection = http.client.HTTPConnection(self.link.hostname or "", self.link.port, timeout=600)
        connection.request("GET", path, headers={"Cookie": self.cookie} if self.cookie else {})
        answer = connection.getresponse()
        answer.read()
        connection.close()
        return answer

    def seconds(self, path: str) -> float:
        """How long a page takes. Ends the measuring if it is none."""
        since = time.monotonic()
        answer = self.answer(path)
        if answer.status != 200:
            sys.exit(f"pages.py: {path}: status {answer.status}")
        return time.monotonic() - since


def hand_in(path: Path, count: int) -> datetime.date:
    """Hands in the instructions of the next working day, and answers its date."""
    with folder.at(path) as office:
        last = office.last()
        assert last is not None and last.date is not None
        dates = [date for date in made_days.calendar_until(last.date) if date > last.date]
        accounts = count_accounts(office.store.texts.get(last.report))
    with tempfile.TemporaryDirectory() as name:
        rows = Path(name) / "do.csv"
        rows.write_bytes(made_days.text_of(made_days.instructions(dates[0], accounts, count)))
        said = subprocess.run([DAY, "hand-in", rows, "--office", path], stdout=subprocess.DEVNULL, check=False)
    # (1: something of it would be refused)
    if said.returncode > 1:
        sys.exit("pages.py: the next day was not handed in")
    return dates[0]


def count_accounts(report: bytes) -> int:
    return report.count(b"\naccount,")


def measure(path: Path, port: int, count: int) -> None:
    """Prints a line for each page."""
    date = hand_in(path, count)
    desk = Desk(path, port)
    try:
        first = {page: desk.seconds(page) for page in PAGES}
        while_closed: dict[str, list[float]] = {page: [] for page in PAGES}
        since = time.monotonic()
        words = [str(DAY), "close", "--second", "--yes", "--date", str(date), "--office", str(path)]
        with subprocess.Popen(words, stdout=subprocess.DEVNULL, stderr=subprocess.DEVNULL) as closes:
            while closes.poll() is None:
                for page in PAGES:
                    while_closed[page].append(desk.seconds(page))
        took = time.monotonic() - since
        behind = {page: desk.seconds(page) for page in PAGES}
    finally:
        desk.server.terminate()
        desk.server.wait()
    print(f"{date} was closed in {took:.1f} s, status {closes.returncode}")
    for page, seconds in while_closed.items():
        told = f"{min(seconds):.2f} {statistics.median(seconds):.2f} {max(seconds):.2f} of {len(seconds)}"
        print(f"{page}: first {first[page]:.2f}; while it is closed {told}; behind it {behind[page]:.2f}")


if __name__ == "__main__":
    parser = argparse.ArgumentParser(description="Measures how soon a desk answers while a day is closed.")
    parser.add_argument("folder", type=Path)
    parser.add_argument("--port", type=int, default=8499)
    parser.add_argument("--instructions", type=int, default=1_000)
    said = parser.parse_args()
    measure(said.folder, said.port, said.instructions)
