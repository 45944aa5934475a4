"""Another office.ini, which a login asks for and a second one approves. Both may do all, by the office.ini that stands.

An event `asked` has the new text, and as its sum that of the one that lay there: of another one nothing is approved.
The event `approved` is kept before office.ini is written, so nothing counts of which nobody knows who approved it. If
the command is killed between both, it is asked for once more."""
import contextlib
import os
from collections.abc import Iterator
from dataclasses import dataclass
from pathlib import Path

from registry_tools import opening, voice
from registry_tools.errors import FileFault, WordsFault
from registry_tools.layout import SETTINGS
from registry_tools.office import approve, people, settings
from registry_tools.office.init import sync
from registry_tools.office.office import By, Office
from registry_tools.office.people import People
from registry_tools.office.settings import Settings
from registry_tools.output import made_aside, writing
from registry_tools.store import file
from registry_tools.store.events import APPROVED, ASKED, TAKEN, Event
from registry_tools.store.texts import sum_of
from registry_tools.texts import sections
from registry_tools.texts.rows import bytes_of

NAMED = f"another {SETTINGS}"


@dataclass(frozen=True)
class Rewrite:
    """Another office.ini: lines that are laid into the one that stands, or a file with all of it; and the reason."""

    why: str
    lines: tuple[str, ...] = ()
    path: str | None = None


def ask(office: Office, by: By, asked: Rewrite) -> tuple[Event, list[str]]:
    """Asks for another office.ini, and answers the lines that go and come. Raises FileFault if it can't be one, or
    changes what an editor alone changes, and WordsFault if nothing is changed."""
    path = office.path / SETTINGS
    with office.changing(people.REWRITE, by):
        before = opening.read(path)
        old, given, put = sections.letters_of(before), path, office.store.texts.put
        stands(office, old)
        people.must_be_allowed(office.people, office.login, people.REWRITE)
        if asked.path is None:
            new = sections.with_lines(old, asked.lines)
        else:
            given, new = Path(asked.path), sections.letters_of(bytes_of(asked.path))
        rows = look_at(office, given, old, new)
        kept = {"sum": put(before), "text": put(new.encode("utf-8", "surrogateescape"))}
        return office.add(ASKED, kind=people.REWRITE, name=NAMED, why=asked.why, **kept), rows


def approve_rewrite(office: Office, by: By, number: int) -> Event:
    """Approves another office.ini, and writes it. Raises WordsFault if it does not wait, or if this login may not
    approve it, and FileFault if another one lies there by now."""
    path, lock, done = office.path / SETTINGS, contextlib.ExitStack(), list[Event]()
    with telling_of(done), lock, made_aside(path, file.MODE) as beside:
        with office.changing("approve", by):
            asked = one_asked(office, number)
            old = must_be_as_asked(office, asked)
            stands(office, old)
            approve.must_be_other(office, (people.REWRITE,), asked.who, asked.login)
            must_be_alone(office, asked)
            content = office.store.texts.get(asked.text)
            look_at(office, path, old, sections.letters_of(content))
            with writing(path):
                beside.write_bytes(content)
                os.chmod(beside, os.stat(path).st_mode & 0o777)
                sync(beside)
            kept = {"text": asked.text, "sum": asked.line, "name": f"event {number}, {NAMED}"}
            done.append(office.add(APPROVED, of=asked.id, kind=people.REWRITE, **kept))
        # (until it is written, nobody else approves another one)
        lock.enter_context(office.store.change(file.MOST_WAIT))
        must_be_as_asked(office, asked)
    office.settings = settings.read(path)
    return done[0]


@contextlib.contextmanager
def telling_of(done: list[Event]) -> Iterator[None]:
    """Has a fault in the block tell that the event is kept, if it is."""
    try:
        yield
    except FileFault as fault:
        if done:
            fault.add_way(f"event {done[0].id} approves what is not written: ask for it once more")
        raise


def take_back_rewrite(office: Office, by: By, number: int, why: str) -> Event:
    """Takes back that another office.ini was asked for. Raises WordsFault if it does not wait."""
    with office.changing(people.REWRITE, by):
        asked = one_asked(office, number)
        return office.add(TAKEN, of=asked.id, kind=people.REWRITE, why=why, name=f"event {number}, {NAMED}")


def one_asked(office: Office, number: int) -> Event:
    """The event that asks for another office.ini, which nobody has approved or taken back."""
    found = next((event for event in office.events.named(ASKED) if event.id == number), None)
    if found is None or found.kind != people.REWRITE or number in office.events.looked_at:
        way = f"{voice.command('settings')} shows what waits"
        raise WordsFault(f"event {number} asks for no {SETTINGS}, or waits no longer", way)
    return found


def stands(office: Office, text: str) -> None:
    """Takes the rights that the office.ini says that stands now. Ends the command if nobody could be the second one."""
    office.settings = settings.read_text(office.path / SETTINGS, text)
    must_be_two(office.path / SETTINGS, office.people)


def look_at(office: Office, path: Path, old: str, new: str) -> list[str]:
    """The lines that go and come, if the new text may be, and two could change it back."""
    rows, wanted = rows_wanted(office, path, old, new)
    must_be_two(path, wanted.people)
    return rows


def rows_wanted(office: Office, path: Path, old: str, new: str) -> tuple[list[str], Settings]:
    """The lines that go and come, and what the new text says. Raises FileFault if it may not be, or WordsFault if
    nothing is changed."""
    wanted = settings.must_be_open(path, old, new, people.login_of(os.stat(office.path).st_uid))
    rows = sections.lines_between(path, old, new)
    if not rows:
        raise WordsFault("nothing would be changed: it is so already")
    return rows, wanted


def must_be_two(path: Path, people_here: People) -> None:
    """Ends the command if nobody could be the second one."""
    may = people_here.with_all()
    if len(may) < 2:
        expected = "two: the owner of the folder names a second one, by an editor"
        found = f"{' and '.join(may) or 'nobody'} who may do all"
        raise FileFault(path, 0, f"[{people.SECTION}]", found, expected)


def must_be_alone(office: Office, asked: Event) -> None:
    """Ends the command if who asked and who approves are one, since one speaks for the other."""
    second, first = office.login.split(people.SPEAKS_FOR), asked.login.split(people.SPEAKS_FOR)
    if second[-1] in first or first[-1] in second:
        raise WordsFault(f"{second[-1]} and {first[-1]} are one here: one of them speaks for the other")


def must_be_as_asked(office: Office, asked: Event) -> str:
    """The office.ini that stands. Raises FileFault if it is another one than it was when the new one was asked for."""
    content = opening.read(office.path / SETTINGS)
    if sum_of(content) != asked.sum:
        expected = f"{asked.sum[:12]}, which it was when event {asked.id} asked for another one: ask once more"
        raise FileFault(office.path / SETTINGS, 0, "SHA-256", sum_of(content)[:12], expected)
    return sections.letters_of(content)
