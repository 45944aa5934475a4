"""Trials of folders that somebody has touched by hand, and of names: no command writes an answer over a file of the
folder, and what is wrong is told where it stands."""
import shutil
from collections.abc import Iterator
from pathlib import Path

from harness import Said
from offices import FILE, FIRST, inside, must_do, new_office, text_of, told, unchanged

ROW = "do,2025-04-01,101,102,transfer,1,2,general,{}\n"
DAY = "2025-04-01"
CLOSE, UNDO = ["close", "--yes", "--second", "--date"], ["undo", DAY, "--why", "a slip"]
UNDO_FIRST = ["undo", "2025-03-31", "--why", "a slip"]
STRANGE_NAMES = {
    "a\nb.csv": "a<line feed>b.csv", "a\r\nb.csv": "a<carriage return><line feed>b.csv",
    "a\rb.csv": "a<carriage return>b.csv", "a\u2028b.csv": "a<U+2028>b.csv", "a\x85b.csv": "a<U+0085>b.csv",
    'a\v",b.csv': 'a<U+000B>",b.csv',
}  # fmt: skip
Trial = tuple[str, object]
Words = list[object]


def two_days(work: Path, name: str) -> tuple[Path, list[str]]:
    """A folder with two days, of whose second two instructions were handed in."""
    office, own = new_office(work, name)
    rows = work / "two.csv"
    rows.write_text(ROW.format(7) + ROW.format(1))
    must_do(["hand-in", str(rows), *own], [*CLOSE, DAY, *own])
    return office, own


def damaged_trials(work: Path) -> Iterator[Trial]:
    work.mkdir()
    for trials in (
        moved_trials, target_trials, message_trials, settings_trials, name_trials, first_text_trials,
    ):  # fmt: skip
        yield from trials(work)
    with inside(work):
        yield from dash_trials()


def moved_trials(work: Path) -> Iterator[Trial]:
    """A file of the folder that is gone, that lies elsewhere, or that others may write; and what somebody put there."""
    office, own = two_days(work, "moved")
    path, kept = office / FILE, work / "kept"
    path.rename(kept)
    commands: list[Words] = [["status"], ["find"], ["audit"], [*CLOSE, "2025-04-02"], ["history", 1]]
    for words in commands:
        has = [f"{path}: it is not there: put it back from a copy"]
        yield f"{words[0]} without the file", told(3, has, *words, *own)
    yield "nothing was made", "something is there" if path.exists() else None
    kept.rename(path)
    (office / "note.txt").write_text("mine\n")
    yield "a note beside it", told(0, ["2025-04-02 is settled"], *CLOSE, "2025-04-02", *own)
    yield "the note stays", None if (office / "note.txt").read_text() == "mine\n" else "it is gone"
    for what, mode in ((path, 0o620), (office, 0o770)):
        before = what.stat().st_mode & 0o777
        what.chmod(mode)
        yield f"{what.name} that others may write", told(3, [f"{what}: found ", "chmod go-w"], "status", *own)
        what.chmod(before)
    yield "as it was", told(0, [": 0 differences"], "audit", *own)


def target_trials(work: Path) -> Iterator[Trial]:
    """No answer is written over a file of the folder, nor over one that is read."""
    office, own = two_days(work, "target")
    has = ["found a name of a folder of days itself; expected another name"]
    commands: list[Words] = [
        ["month", office / FILE], ["balance", "1", "--to", office / FILE], ["db", office / FILE],
        ["history", "1", "--to", office / f"{FILE}-journal"], ["status", "--to", office / "office.ini"],
        ["export", "--log", "--day", DAY, "--xlsx", office / FILE], ["backup", office / FILE],
    ]  # fmt: skip
    for words in commands:
        yield f"{words[0]} into the folder's own", unchanged(office, 3, has, *words, *own)
    text, report = work / "day.csv", work / "day.report"
    text.write_bytes(FIRST.read_bytes())
    report.write_bytes(text_of(office, "2025-03-31", "report"))
    is_read = [f"{text} is one of the files that the command reads"]
    before = text.read_bytes()
    yield "month over a pair", told(2, is_read, "month", text, "--pairs", text, report)
    yield "the pair is as it was", None if text.read_bytes() == before else "it is another one"
    papers = office / "papers"
    yield "papers of a day in it", told(0, [], "statements", "--day", DAY, papers, *own)
    yield "audit of them", told(0, [": 0 differences"], "audit", *own)
    yield "a page at the top", told(0, ["days 2"], "month", office / "month.html", *own)


def message_trials(work: Path) -> Iterator[Trial]:
    """A fault of something that was handed in names its file and line, and one of a report whose it is."""
    office, own = new_office(work, "messages")
    new, wrong = work / "new.csv", work / "wrong.csv"
    new.write_text("account,11,trading,78,open,no,no,0,0,0\nuser,101,both\n")
    wrong.write_text("account,12,trading,78,open,no,no,0,5,0\nuser,101,both\n")
    must_do(["hand-in", str(new), *own])
    yield "the second file has a fault", told(3, ["wrong.csv:1: GENERAL of account 12"], "hand-in", wrong, *own)
    late = work / "late.csv"
    late.write_text("".join(f"do,2025-04-0{day},101,102,transfer,1,2,general,9\n" for day in range(2, 8)))
    more = "more rows of the instructions handed in that were proposed later"
    has = ["late.csv:1 (place 2): PROPOSED: found 2025-04-02", more]
    said = Said("hand-in", late, *own)
    lacking = [part for part in has if part not in said.errors + said.output]
    yield "rows that are late", str(said) if lacking or "/tmp" in said.errors + said.output else None
    settings = office / "office.ini"
    settings.write_text(settings.read_text().replace("program =", "program = /bin/true"))
    close = ["close", "--yes", "--date", DAY, *own]
    yield "a program without a report", unchanged(office, 3, ["the report of /bin/true:1: book: found"], *close)
    settings.write_text(settings.read_text().replace("/bin/true", "/bin/false"))
    must_do([*CLOSE, DAY, *own])
    days = [f"{office}/{FILE}/{date}/day.csv" for date in ("2025-03-31", DAY)]
    has = [*(f"/bin/false: settle of {path} ends with status 1" for path in days), ": 2 differences"]
    yield "audit by a program that fails", unchanged(office, 1, has, "audit", "--settle", *own)


def settings_trials(work: Path) -> Iterator[Trial]:
    """office.ini as an editor leaves it."""
    office, own = two_days(work, "settings")
    settings = office / "office.ini"
    content = settings.read_bytes()
    settings.write_bytes(b"\xef\xbb\xbf" + content)
    yield "settings with a byte order mark", told(0, ["last day: "], "status", *own)
    settings.write_bytes(b"")
    yield "settings without a word", told(3, ["office.ini: found no row [office]; expected"], "status", *own)
    settings.write_bytes(content)


def name_trials(work: Path) -> Iterator[Trial]:
    """Names of files with line ends, or with what other readers take for them, are told so that they can be seen, and
    do no harm to a folder."""
    for number, (name, shown) in enumerate(STRANGE_NAMES.items()):
        path, office = work / name, work / f"named-{number}"
        path.write_bytes(FIRST.read_bytes())
        own = ["--office", str(office)]
        must_do(["init", str(office), str(path)], ["close", "--yes", "--date", "2025-03-31", "--second", *own])
        path.write_text(ROW.format(7))
        yield f"hand-in of {shown}", told(0, [f"handed in: {shown}: instructions 1, "], "hand-in", path, *own)
        must_do([*CLOSE, DAY, *own], [*UNDO, *own])
        yield f"status behind {shown}", told(0, [f"({shown}, "], "status", *own)
        must_do([*CLOSE, DAY, *own])
        yield f"audit behind {shown}", told(0, [": 0 differences"], "audit", *own)


def dash_trials() -> Iterator[Trial]:
    """Names that begin with a dash are no options, in whatever order the words stand."""
    own, day = ["--office=-office"], ["--day", "2025-03-31"]
    must_do(["init", "--", "-office", str(FIRST)], ["close", "--yes", "--date", "2025-03-31", "--second", *own])
    for words in (["log"], ["verify"], ["explain"], ["export", "--log"]):
        yield f"{words} of such a folder", told(0, [], *words, *day, *own)
    for name in ("-pages", "-statements"):
        yield f"{name} of it", told(0, [], name[1:].replace("pages", "page"), *day, *own, "--", name)
    shutil.copyfile(FIRST, "-day.csv")
    Path("-report.csv").write_bytes(text_of(Path("-office"), "2025-03-31", "report"))
    for table, has in (("--log", "1,2025-03-31,"), ("--compliance --year=2024", "1,operator,")):
        yield f"a table of {table}", told(0, [has], "export", *table.split(), "--", "-day.csv", "-report.csv")


def first_text_trials(work: Path) -> Iterator[Trial]:
    """Another first text takes nothing away that was handed in since, of whatever kind it is."""
    office, own = new_office(work, "first")
    rows, blocks, calendar = (work / f"{name}.csv" for name in ("rows", "blocks", "calendar"))
    rows.write_text(ROW.format(7))
    blocks.write_text("account,11,trading,78,open,no,no,0,0,0\n")
    calendar.write_text("work,2025-04-07\n")
    change: Words = ["change", "2", "--holder", "7", "--why", "a letter", "--yes"]
    commands: list[Words] = [["hand-in", rows], ["hand-in", blocks], ["hand-in", calendar], change]
    for words in commands:
        said = [Said(*words, *own), Said(*UNDO_FIRST, *own)]
        yield f"{words[0]} and undo", next((str(each) for each in said if each.status), None)
        has = ["take back first what was handed in"]
        yield "init behind it", unchanged(office, 2, has, "init", office, FIRST)
        must_do(["take-back", "2", "--why", "a slip", *own], [*CLOSE, "2025-03-31", *own])
