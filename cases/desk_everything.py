"""Each page of a desk with each filter, over folders that hold every act, outcome, check and status of an account, and
rows without an approver: no page fails. For cases/run-desk."""
from __future__ import annotations

from collections.abc import Iterator
from pathlib import Path

import desks
from harness import CASES
from offices import must_do

from registry_tools.second import faults
from registry_tools.texts.checks import checks_told

FILTERS = ("refused=1", "no_waiting=1", "user=101", "account=1", "from=2025-01-01", "to=2026-12-31", "name=x")
SORTED = {
    "/find?no_waiting=": ("Day", "Record", "Instruction", "Accounts", "By", "Outcome"),
    "/accounts?q=": ("Account", "Kind", "Holder", "Status", "General", "Aviation"),
    "/due?until=2026-12-31": ("Date", "What", "Account"),
    "/compliance?year=2025": ("Account", "Holder", "Figure", "Verdict"),
}
PAGES = (
    "/", "/hand-in", "/next", "/next?only=refused", "/change?of=rules", "/change?of=new", "/close", "/undo", "/release",
    "/names", "/days", "/month", "/journal", "/audit", "/send",
    "/correct", "/office", "/office/anchor.csv", "/find.csv?refused=", "/find.xlsx?refused=",
)  # fmt: skip
Told = tuple[str, object]


def everything_trials(work: Path) -> Iterator[Told]:
    """All pages over each of these folders."""
    work.mkdir()
    seen = set[str]()
    for place, (path, has) in enumerate(texts()):
        seen |= has
        office, date = work / f"office-{place}", path.read_text().split("\nday,", 1)[1][:10]
        own = ["--office", str(office)]
        must_do(["init", str(office), str(path)], ["close", "--date", date, "--second", "--yes", *own])
        ana = desks.Desk(office, work / f"private-{place}", who="ana").person()
        said = ((each, ana.get(each).status) for each in pages_of(path, date))
        yield f"all pages over {path.relative_to(CASES)}", [own for own in said if own[1] not in (200, 400)]
    lacking = {*faults.ACT_WORDS, *checks_told(), "done", "no approver", *STATUSES} - seen - NOT_HERE
    yield "every act, outcome and status is there", lacking or None


# (an account with 4,096 surrenders is in no case)
NOT_HERE = {"RowsFull"}
STATUSES = {f"account {status}" for status in ("open", "blocked", "excluded", "closed")}


def texts() -> Iterator[tuple[Path, set[str]]]:
    """Cases, each with what it holds that those before it do not."""
    seen = set[str]()
    for path in sorted(CASES.glob("*/*.stdout")):
        has = {own for row in path.read_text().splitlines() for own in held_by(row.split(","))}
        if path.with_suffix(".csv").exists() and has - seen:
            seen |= has
            yield path.with_suffix(".csv"), has


def held_by(fields: list[str]) -> Iterator[str]:
    """What a row of a report shows: its act, its outcome, that it has no approver; the status of an account."""
    if fields[0] == "account":
        yield f"account {fields[4]}"
    elif fields[0] == "log" and len(fields) > 7:
        yield fields[6]
        yield from (["no approver"] if not fields[5] else [])
        yield fields[-1] if "refused" in fields else "done"


def pages_of(path: Path, date: str) -> Iterator[str]:
    """The addresses that are asked for: pages, filters one by one, and orders both ways."""
    yield from PAGES
    yield from (f"/days/{date}{more}" for more in ("", "?only=refused"))
    yield from (f"/find?{own}" for own in FILTERS)
    yield from (f"/find?act={act}&{own}" for act in faults.ACT_WORDS for own in ("refused=1", "refused="))
    for begin, columns in SORTED.items():
        yield from (f"{begin}&sort={sign}{own}" for own in columns for sign in ("", "-"))
    for row in path.read_text().splitlines():
        if row.startswith("account,"):
            number = row.split(",")[1]
            yield from (f"/accounts/{number}", f"/accounts/{number}?history=1", f"/change?account={number}")
