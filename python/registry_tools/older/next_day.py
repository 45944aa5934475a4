"""What was handed in for the next day of a folder of version 1.1, with who says so, what was asked for, and what
approves something: each file of next/ by itself."""
import csv
import re
from pathlib import Path

from registry_tools import voice
from registry_tools.errors import FileFault, shown
from registry_tools.office import people
from registry_tools.office.people import PROXY, People
from registry_tools.older.files import bytes_in, owned, paths_in
from registry_tools.older.intake import (
    FILE, LOOKED, NAME, SOURCE, WAITS, Approval, Asked, HandedIn, Part, changed_source, items_in, read_journal,
)  # fmt: skip
from registry_tools.older.journal import Journal, csv_row
from registry_tools.texts.rows import sum_of

SAID = re.compile(r"said-[0-9a-f]{16}\.csv", re.ASCII)
OWN_FILE = re.compile(rf"{FILE.pattern}|{SOURCE.pattern}|{SAID.pattern}|\..*\.new")
OF_APPROVALS = re.compile(r"(asked|approved)-[0-9a-z-]+\.csv", re.ASCII)
ASKED_FORM = "asked,AT,WHO,LOGIN,COMMAND,DATE,WORDS,STATE,RESULT"
APPROVED_FORM = "approved,AT,WHO,LOGIN,SUM,WHAT"
# So many digits of a sum are the name of a file.
NAME_DIGITS = 16



def read_next(folder: Path, journal: Journal, named: People) -> HandedIn:
    """What was handed in for the next day, if each file is what it was then, and it stands behind the last day of the
    journal. Raises FileFault at the first one that is not."""
    path = folder / NAME
    handed = read_journal(path)
    believe(handed, path)
    for part in handed.parts:
        content = bytes_in(folder / part.file)
        if sum_of(content) != part.sum:
            expected = f"{part.sum}: somebody changed it after it was handed in"
            raise FileFault(folder / part.file, 0, "SHA-256", sum_of(content), expected)
        count = sum(1 for _ in items_in(part.kind, folder / part.file, content))
        if count != part.count:
            raise FileFault(path, 0, "COUNT", f"{part.count} for {part.file}", f"{count}: so many stand in it")
    for source in handed.sources():
        fault = changed_source(folder / source.file, source)
        if fault:
            raise fault
    must_be_of_commands(handed)
    if handed.base != journal.last_change:
        expected = f"{journal.last_change}, the last filed or undone line of {journal.path}"
        raise FileFault(path, 1, "base", shown(handed.base), expected)
    read_approvals(handed, journal, named)
    return handed


def must_be_of_commands(handed: HandedIn) -> None:
    """Ends the command if a file lies here that no command has made."""
    named = {NAME, LOOKED, WAITS, *(part.file for part in handed.parts), *(source.file for source in handed.sources())}
    for path in paths_in(handed.folder):
        if path.name not in named and not OF_APPROVALS.fullmatch(path.name) and not OWN_FILE.fullmatch(path.name):
            way = f"move it to another folder, and {voice.command('hand-in')} takes it from there"
            raise FileFault(path, 0, "", "a file that nobody handed in", "no such file", way)


def name_said(login: str) -> str:
    """The name of the file in which a login says what it handed in and took back."""
    return f"said-{sum_of(login.encode('utf-8', 'surrogateescape'))[:NAME_DIGITS]}.csv"


def believe(handed: HandedIn, path: Path) -> None:
    """Forgets each login that no file of its own says, and notes these. (The last commits before the file was there had
    logins say it.)"""
    if not any(SAID.fullmatch(file.name) for file in paths_in(handed.folder)):
        return
    rows = rows_said(handed)
    for part in handed.parts:
        part.login = believed(handed, path, part.row(), part.login, rows)
    handed.taken = [
        taken._replace(login=believed(handed, path, taken.row(), taken.login, rows)) for taken in handed.taken
    ]


def believed(handed: HandedIn, path: Path, row: str, login: str, rows: set[tuple[str, str]]) -> str:
    """A login, if a file of its own says the row."""
    owner = people.owner_of(login)
    if not owner or (row, owner) in rows:
        return login
    expected = f"one that says the same in its own file, {name_said(owner)}: nobody knows who did it"
    handed.unsaid.append(FileFault(path, 0, "LOGIN", shown(login), expected))
    return ""


def rows_said(handed: HandedIn) -> set[tuple[str, str]]:
    """The rows that logins say in files of their own, each with the login of the system."""
    found = set[tuple[str, str]]()
    for path in paths_in(handed.folder):
        if not SAID.fullmatch(path.name):
            continue
        try:
            content, user = owned(path)
        except FileFault:
            continue
        first, *rows = content.decode("utf-8", "surrogateescape").split("\n")
        login = people.login_of(user)
        if path.name == name_said(login) and first == f"base,{handed.base}":
            found |= {(row, login) for row in rows}
    return found


def row_in(path: Path, content: bytes, tag: str, form: str, more: int = 0) -> list[str]:
    """The fields of the one row of a file, behind its tag: those of its form, and perhaps so many more."""
    rows: list[list[str]] = []
    try:
        rows += [*csv.reader(content.decode("utf-8", "surrogateescape").splitlines())]
    except csv.Error:
        rows.clear()
    count = form.count(",") + 1
    if len(rows) != 1 or not count <= len(rows[0]) <= count + more or rows[0][0] != tag:
        raise FileFault(path, 0, "row", shown(content[:80].decode("utf-8", "replace")), form)
    return rows[0][1:]


def read_approvals(handed: HandedIn, journal: Journal, named: People) -> None:
    """Adds what was asked for and still would be done as it was asked, and the approvals that count."""
    state = f"{journal.last_line} {sum_of(bytes_in(handed.folder / NAME))}"
    for path in paths_in(handed.folder):
        if not OF_APPROVALS.fullmatch(path.name):
            continue
        try:
            content, user = owned(path)
            if path.name.startswith("asked-"):
                asked = Asked(*row_in(path, content, "asked", ASKED_FORM, more=1))
                is_own = people.login_of(user) == people.owner_of(asked.login)
                if is_own and path.name == f"asked-{asked.command}-{asked.date}.csv" and asked.state == state:
                    handed.asked.append(asked)
            else:
                approval = Approval(*row_in(path, content, "approved", APPROVED_FORM))
                must_be_its_own(path, approval, people.login_of(user), named)
                handed.approvals.append(approval)
        except FileFault as fault:
            if path.name.startswith("approved-"):
                handed.unapproved.append(fault)


def must_be_its_own(path: Path, approval: Approval, owner: str, named: People) -> None:
    """Ends the command if an approval is not a file of the login that it names, or of another name."""
    owner_of_login = people.owner_of(approval.login)
    if owner != owner_of_login:
        found = f"an approval of {people.person_of(approval.login)} that {owner} has written"
        raise FileFault(path, 0, "LOGIN", found, f"a file of {owner_of_login}: nobody approves for somebody else")
    if owner_of_login != approval.login and not named.may_speak(owner_of_login):
        raise FileFault(path, 0, "LOGIN", shown(approval.login), f"a login: {owner_of_login} has no right {PROXY}")
    digits = sum_of(approval.login.encode("utf-8", "surrogateescape"))[:NAME_DIGITS]
    if path.name != f"approved-{approval.sum[:NAME_DIGITS]}-{digits}.csv":
        raise FileFault(path, 0, "SUM", shown(approval.sum), "the sum of the name of the file")


def sum_of_part(handed: HandedIn, part: Part) -> str:
    """The sum by which a file that was handed in was approved."""
    items = [*items_in(part.kind, handed.folder / part.file, bytes_in(handed.folder / part.file))]
    left = {*handed.left_of(part)}
    rows = [row for place, item in enumerate(items, part.start) if place in left for row in item]
    cells = [handed.base, part.kind, part.at, part.who, part.login, str(part.start), part.name, *rows]
    return sum_of(csv_row(cells).encode("utf-8", "surrogateescape"))
