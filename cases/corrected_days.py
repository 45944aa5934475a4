"""Settled days that are corrected: each is what the same days become that are taken back and closed once more by other
commands; what could not be is refused, and changes nothing."""
import re
import shutil
from collections.abc import Iterator
from pathlib import Path

from harness import TOP, Said, differs
from offices import FILE, changed, events_of, handed_to, must_do, rows_of, text_of, told, unchanged

from registry_tools.office import correct, folder, intake, people
from registry_tools.texts.rows import text_of_rows

WEEK, RULES = TOP / "examples" / "week", TOP / "tools" / "rules.py"
MONDAY, TUESDAY, WEDNESDAY, THURSDAY = (f"2025-09-{day}" for day in (22, 23, 24, 25))
WHY = ["--why", "a slip"]
# Who may do what with account 100377 from Wednesday on.
USERS = ["user,5203,propose", "user,5204,approve"]
HANDED: dict[str, list[str]] = {
    MONDAY: [], TUESDAY: ["tuesday-do.csv", "tuesday-work.csv"],
    WEDNESDAY: ["wednesday-do.csv", "wednesday-changes.csv"],
}  # fmt: skip
Told = tuple[str, object]


def corrected_trials(work: Path) -> Iterator[Told]:
    """All trials of this file."""
    work.mkdir()
    base = work / "base"
    made(base)
    for trials in (
        same_trials, shown_trials, refused_trials, law_trials, later_trials, asked_trials,
    ):  # fmt: skip
        yield from trials(work, base)
    yield from first_trials(work)


def made(office: Path) -> None:
    """A folder with three days of the week, and something handed in since."""
    own = ["--office", str(office)]
    must_do(["init", str(office), str(WEEK / "monday.csv"), "--program", str(RULES)])
    for date, names in HANDED.items():
        if names:
            Said("hand-in", *(WEEK / name for name in names), *own)
        must_do(["close", "--date", date, *own])
    since = file_of(office.parent, "since.csv", "do,2025-09-25,5101,5102,transfer,100210,300118,general,11")
    must_do(["hand-in", str(since), *own])


def file_of(work: Path, name: str, *rows: str) -> Path:
    path = work / name
    path.write_text("".join(f"{row}\n" for row in rows))
    return path


def copy_of(base: Path, name: str) -> tuple[Path, list[str]]:
    office = base.with_name(name)
    shutil.rmtree(office, ignore_errors=True)
    shutil.copytree(base, office)
    return office, ["--office", str(office)]


def texts_of(office: Path) -> dict[str, bytes]:
    """What counts of each day: its texts, and what came into it."""
    days = [date for (date,) in rows_of(office, "SELECT date FROM filed")]
    columns = ("text", "report", "waiting", "waits")
    found = {f"{date} {own}": text_of(office, date, own) for date in days for own in columns}
    with folder.at(office) as there:
        for event in there.events.days:
            parts = intake.for_a_day(there.store, event).merged()
            found.update({f"{event.date} {kind}": text_of_rows(part.rows) for kind, part in parts.items()})
    return found


# What it becomes.


def same_trials(work: Path, base: Path) -> Iterator[Told]:
    """The same days as by undo, take-back, hand-in and close, and what was handed in since is there."""
    more = file_of(work, "more.csv", "do,2025-09-23,5101,5102,surrender,100210,general,150")
    wanted_words: list[tuple[str, list[str], str, list[Path]]] = [
        ("without one", ["--without", "61010"], "2", []), ("with one", ["--with", str(more)], "", [more]),
        ("with one in place of another", ["--without", "61010", "--with", str(more)], "2", [more]),
        ("without what was refused", ["--without", "61013"], "5", []),
    ]  # fmt: skip
    for name, words, place, files in wanted_words:
        by_hand, its = copy_of(base, "by-hand")
        must_do(["take-back", "1", *WHY, *its], ["undo", WEDNESDAY, *WHY, *its])
        changes = "wednesday-changes.csv"
        places = [line.split()[0] for line in Said("status", *its).output.splitlines() if changes in line]
        must_do(["take-back", *places, *WHY, *its], ["undo", TUESDAY, *WHY, *its])
        if place:
            must_do(["take-back", place, *WHY, *its])
        for path in files:
            Said("hand-in", path, *its)
        must_do(["close", "--date", TUESDAY, "--yes", *its], ["close", "--date", WEDNESDAY, "--yes", *its])
        office, own = copy_of(base, "office")
        without_block(office, own)
        said = Said("correct", TUESDAY, *words, *WHY, "--yes", *own)
        yield name, None if said.status == 0 and "is corrected" in said.output else said
        there, wanted = texts_of(office), texts_of(by_hand)
        yield f"{name}: each text", [key for key in {*there, *wanted} if there.get(key) != wanted.get(key)]
        yield f"{name}: audit", told(0, ["days 3", "0 differences"], "audit", "--second", "--settle", *own)
        yield f"{name}: handed in since", told(0, ["handed in: 1", "general,11 (since.csv"], "status", *own)
        events = [own for own in events_of(office, "what") if own in ("filed", "undone")][-4:]
        yield f"{name}: its lines", differs(events, ["undone", "undone", "filed", "filed"])
        yield f"{name}: then as any other", told(0, [f"{THURSDAY} is settled"], "close", "--date", THURSDAY, *own)


def without_block(office: Path, own: list[str]) -> None:
    """Takes the account that was handed in as a whole out of the last day."""
    must_do(["take-back", "1", *WHY, *own], ["undo", WEDNESDAY, *WHY, *own])
    lines = [line.split() for line in Said("status", *own).output.splitlines() if "wednesday-changes.csv" in line]
    must_do(["take-back", *(line[0] for line in lines), *WHY, *own], ["close", "--date", WEDNESDAY, "--yes", *own])
    since = file_of(office.parent, "since.csv", "do,2025-09-25,5101,5102,transfer,100210,300118,general,11")
    must_do(["hand-in", str(since), *own])


def shown_trials(_work: Path, base: Path) -> Iterator[Told]:
    """The difference is shown, and nothing changes, without --yes."""
    office, own = copy_of(base, "office")
    has = [
        "record 61010, left out: surrender of 38,200 general from 100210: done",
        "record 61012, now 61011: assessment of 100210 for 2024: done, figure 0 before, done, figure -38,200 now",
        "account 100210, general: held 200 before, 38,400 now, surrendered 158,700 before, 120,500 now",
        "account 100210: compliant for 2024 before, missing 38,200 for 2024 now",
        "record 61014, now 61013: transfer of 1,000 general, 100210 to 200045: refused: NotEnough before, done now",
        "account 200045, general: held 5,400 before, 6,400 now",
        f"{WEDNESDAY}: account 100377 was handed in as a whole, and comes with what it holds by then",
        f"{TUESDAY} would be corrected so; nothing is, without --yes",
    ]
    yield "the difference", unchanged(office, 1, has, "correct", TUESDAY, "--without", "61010", *WHY, *own)
    has = [f"{TUESDAY}: as it was", "left out: assessment of 100377 for 2024"]
    later = ["--without", "61016", "--without", "61017"]
    yield "records of a later day", unchanged(office, 1, has, "correct", TUESDAY, *later, *WHY, *own)


def later_trials(work: Path, base: Path) -> Iterator[Told]:
    """The first day, an account that was handed in as a whole, also for an earlier day, and two records at once."""
    office, own = copy_of(base, "office")
    words = ["correct", MONDAY, "--without", "61007", "--without", "61013", *WHY, "--yes", *own]
    yield "the first text", told(0, [f"closed once more: {MONDAY}, {TUESDAY}, {WEDNESDAY}"], *words)
    yield "audit", told(0, ["days 3", "0 differences"], "audit", "--second", *own)
    found = Said("find", "--refused", "--csv", "--to", TUESDAY, *own).output
    yield "both are left out", None if "KindNotAllowed" not in found and "UnknownAccount" not in found else found
    block = handed_to(office, WEDNESDAY, "changes").decode().splitlines()
    yield "the account has its own numbers", None if any(row.startswith("retired,61010,") for row in block) else block
    yield "who changed it", told(0, ["wednesday-changes.csv"], "changes", *own)
    office, own = copy_of(base, "office")
    account = (WEEK / "monday-report.csv").read_text().partition("account,100377,")[2].partition("account,")[0]
    path = file_of(work, "block.csv", *f"account,100377,{account}".splitlines())
    text = path.read_text().replace("user,5201,approve\n", "").replace("trusted,", "user,5204,approve\ntrusted,")
    path.write_text(text)
    words = ["correct", TUESDAY, "--with", str(path), *WHY, "--yes", *own]
    yield "what a later day changes too", told(0, [f"{WEDNESDAY}: account 100377 was", "is corrected"], *words)
    block = handed_to(office, WEDNESDAY, "changes").decode().splitlines()
    yield "it is there once", differs(sorted(row for row in block if row.startswith("user,52")), USERS)


def first_trials(work: Path) -> Iterator[Told]:
    """What was handed in for the first day, behind the instructions of its text: what is left out is taken back at its
    own place, and who approved what stays is told at the place that it gets."""
    office = work / "first"
    own, login = ["--office", str(office)], people.system_login()
    speaks = f"[people]\n{login} = The desk: all, proxy\nbert = Bert: all\neva = Eva: all\n"
    must_do(["init", str(office), str(WEEK / "monday.csv"), "--program", str(RULES)])
    settings = office / "office.ini"
    settings.write_text(settings.read_text() + speaks + "[four eyes]\ncommands = hand-in\n")
    row = f"do,{MONDAY},5101,5102,transfer,100210,300118,general,"
    for place, by in zip(range(8, 12), ("bert", "", "bert", "eva")):
        must_do(["hand-in", str(file_of(work, f"{place}.csv", f"{row}{place}")), *own])
        must_do(["approve", str(place), "--for", by, *own] if by else ["take-back", str(place), *WHY, *own])
    must_do(["close", "--date", MONDAY, *own])
    without = ["--without", "61009", "--without", "61008", "--without", "61003"]
    yield "the first day", told(0, ["is corrected"], "correct", MONDAY, *without, *WHY, "--yes", *own)
    with folder.at(office) as there:
        filed = intake.for_a_day(there.store, there.events.days[0])
        stays = [(part.start, part.name) for part in filed.parts]
        yield "what stays", differs(stays, [(1, "monday.csv"), (7, "11.csv")])
        yield "who approved it", differs([(each.place, each.login) for each in filed.approved], [(7, f"{login}:eva")])
        yield "its rows", differs(filed.merged()["do"].rows, [f"{row}11"])
    yield "the first day: audit", told(0, ["0 differences"], "audit", "--second", *own)


def asked_trials(_work: Path, base: Path) -> Iterator[Told]:
    """Questions over all days are answered of the new days."""
    office, own = copy_of(base, "office")
    must_do(["balance", "100210", *own], ["correct", TUESDAY, "--without", "61010", *WHY, "--yes", *own])
    said = Said("balance", "100210", *own).output
    yield "the new balance", None if "37,400" in said or "37400" in said else said


# What is refused.


def refused_trials(work: Path, base: Path) -> Iterator[Told]:
    """What can't be done is told, and nothing has changed."""
    office, own = copy_of(base, "office")
    bad, wrong = file_of(work, "bad.csv", "do,2025-09-23,x"), ["--without", "61010"]
    done = file_of(work, "done.csv", "do,2025-09-23,901,902,emissions,100377,2024,12600")
    for name, status, has, words in (
        ("nothing", 2, "nothing to correct", [TUESDAY]),
        ("no settled day", 2, "2025-09-21 is no settled day", ["2025-09-21", *wrong]),
        ("no date", 2, "DATE x is not a date", ["x", *wrong]),
        ("a record before it", 2, f"{TUESDAY} has the records 61008 to 61013", [TUESDAY, "--without", "61007"]),
        ("a record behind all", 2, "up to 61017", [TUESDAY, "--without", "61018"]),
        ("what waited", 2, f"; ./day correct {MONDAY} --without 61004 leaves", [TUESDAY, "--without", "61008"]),
        ("a file that is none", 3, "bad.csv:1", [TUESDAY, "--with", str(bad)]),
        ("no file", 3, "none.csv", [TUESDAY, "--with", str(work / "none.csv")]),
        ("what a day has done", 3, "done.csv:1: do row: found one that", [TUESDAY, "--with", str(done)]),
    ):  # fmt: skip
        yield name, unchanged(office, status, [has], "correct", *words, *WHY, "--yes", *own)
    yield "no reason", unchanged(office, 2, ["--why"], "correct", TUESDAY, *wrong, "--yes", *own)
    changed(office, f"DELETE FROM texts WHERE sum = (SELECT report FROM filed WHERE date = '{TUESDAY}')")
    words = ["correct", TUESDAY, *wrong, *WHY, "--yes", *own]
    yield "a text that is gone", unchanged(office, 3, [FILE, "no such text"], *words)
    yield from reversal_trials(work, base)


def reversal_trials(work: Path, base: Path) -> Iterator[Told]:
    """A reversal names a record: if that becomes another one, nothing is done."""
    office, own = copy_of(base, "office")
    must_do(["take-back", "1", *WHY, *own])
    rows = file_of(work, "reverse.csv", f"do,{THURSDAY},901,902,reverse,100377,61011")
    Said("hand-in", rows, *own)
    words = ["correct", TUESDAY, *WHY, "--yes", *own]
    has = ["record 61011 would be another one, and do,2025-09-25,901,902,reverse,100377,61011 names it"]
    yield "a reversal that was handed in", unchanged(office, 2, has, *words, "--without", "61010")
    Said("close", "--date", THURSDAY, "--yes", *own)
    yield "one that is settled", unchanged(office, 2, has, *words, "--without", "61010")
    also = ["--without", "61010", "--without", "61018"]
    yield "one that is left out, too", told(0, ["is corrected"], *words, *also)
    office, own = copy_of(base, "office")
    Said("hand-in", rows, *own)
    words = ["correct", TUESDAY, *WHY, "--yes", "--without", "61012", *own]
    yield "a record before the change", told(0, ["is corrected"], *words)


def law_trials(_work: Path, base: Path) -> Iterator[Told]:
    """A day that was released stays; what corrects it is said, as the rules have it."""
    office, own = copy_of(base, "office")
    must_do(["release", TUESDAY, "--yes", *WHY, *own])
    released = f"{TUESDAY} was released, and is not corrected: others know of it. By the rules, "
    for record, has in (
        ("61010", "61010, surrender, is corrected by a reversal, as long as its window is not over, until 2025-09-25"),
        ("61009", "record 61009, emissions, is corrected by another entry for the same year, and then"),
        ("61013", "record 61013 needs none: it was refused"),
        ("61008", "is corrected by a transfer back, from the account"),
    ):  # fmt: skip
        words = ["correct", TUESDAY, "--without", record, *WHY, "--yes", *own]
        yield f"released: {record}", unchanged(office, 2, [released, has], *words)
    yield "a day before it", unchanged(office, 2, ["was released"], "correct", MONDAY, "--without", "61006", *WHY, *own)
    more = ["correct", WEDNESDAY, "--without", "61017", *WHY, "--yes", *own]
    yield "the day behind it", told(0, [f"{WEDNESDAY} is corrected"], *more)
    law = (TOP / "docs" / "RULES.md").read_text().partition("## To correct a mistake")[2].partition("## Limits")[0]
    law = re.sub(r"\[([^]]*)\]\([^)]*\)", r"\1", law)
    for act, words_of in correct.LAW.items():
        parts = [part.removeprefix("or ") for part in words_of.split(", ")]
        yield f"the rules say it of {act}", [part for part in parts if part not in law]
