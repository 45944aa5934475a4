"""A week that somebody lives in an installation. For cases/run-release."""
from __future__ import annotations

import os
import pwd
import shutil
from pathlib import Path
from typing import Any

from harness import TOP, Word, answer_of
from standins import RULES, VERSION

WEEK = TOP / "examples" / "week"
# The days of the week, and what is handed in before each.
DAYS: tuple[tuple[str, list[str]], ...] = (
    ("22", []), ("23", ["tuesday-do.csv", "tuesday-work.csv"]), ("24", ["wednesday-do.csv", "wednesday-changes.csv"]),
    ("25", ["thursday-do.csv"]), ("26", ["friday-do.csv"]),
)  # fmt: skip
LAST = "2025-09-26"
NOBODY = "nobody"


class Somebody:
    """Who lives in an installation: with an empty environment, and as another user than who installed it, if may be."""

    def __init__(self, folder: Path, is_other: bool = True) -> None:
        self.folder = folder
        folder.mkdir(parents=True)
        self.more: dict[str, Any] = {"cwd": folder, "env": {}}
        if is_other and os.getuid() == 0:
            other: dict[str, Any] = {"user": NOBODY, "group": pwd.getpwnam(NOBODY).pw_gid, "extra_groups": []}
            # (where the repository or the folder is closed to others, nobody else can live there)
            if all(answer_of(["test", "-r", path], **other)[2] == 0 for path in (folder, RULES)):
                shutil.chown(folder, NOBODY)
                self.more |= other

    def run(self, *words: Word) -> tuple[bytes, bytes, int]:
        return answer_of(words, **self.more)


def week_fault(day: Path, who: Somebody, engine: str) -> object:
    """What is wrong with a week that somebody lives by a command, settled by this engine without a word of it."""
    own: list[Word] = ["--office", "office"]
    said = who.run(day, "init", "office", WEEK / "monday.csv")
    if said[2]:
        return f"init: {said}"
    for date, names in DAYS:
        if names and (said := who.run(day, "hand-in", *(WEEK / name for name in names), *own))[2] not in (0, 1):
            return f"hand-in: {said}"
        said = who.run(day, "close", "--date", f"2025-09-{date}", "--yes", *own)
        if said[2] or b"./day" in said[0] + said[1]:
            return f"close: {said}"
    told = who.run(day, "status", "--json", *own)
    if f"{engine} {VERSION}".encode() not in told[0]:
        return f"status tells another engine than {engine}: {told}"
    for words in (["audit"], ["verify", "--program", "--day", LAST], ["find", "--refused"], ["month", "m.html"],
                  ["page", "--day", LAST, "pages"], ["send", "letters"], ["db", "all.db"], ["due"],
                  ["backup", "copy.sqlite"], ["unpack", "plain", "--day", LAST]):  # fmt: skip
        said = who.run(day, *words, *own)
        if said[2] not in (0, 1) or b"./day" in said[0] + said[1] or b"Traceback" in said[1]:
            return f"{words}: {said}"
    report = who.folder / "plain" / LAST / "report.csv"
    found, wanted = report.read_bytes(), (WEEK / "friday-report.csv").read_bytes()
    return None if found[:40] == wanted[:40] else f"another report: {found[:200]!r}"
