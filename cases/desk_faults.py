"""What may befall a desk (`./day desk`) in a process of its own: it is killed while a day is closed, or the command
that closes it is; the disk is full; somebody moves the folder. For cases/run-desk."""
from __future__ import annotations

import contextlib
import http.cookiejar
import os
import random
import shutil
import signal
import subprocess
import time
import urllib.error
import urllib.parse
import urllib.request
from collections.abc import Callable, Iterator
from pathlib import Path

from desk_in_browser import Server
from desks import Answer, Fields, without_times
from harness import LeftOut, Said


DAY, BEFORE = "2025-09-23", "2025-09-22"
# So many closings are killed, and so many see their folder moved, each at another moment of the time that one takes.
KILLED, MOVED, MOST_SECONDS = 9, 3, 120
WHOM = ("the desk", "the command", "both")
# The size of a disk that runs full, and what is left free on it at each try, in bytes.
DISK, FREE = "2m", (0, 8_192, 16_384, 40_960)
FULL = ("No space left on device", "database or disk is full", "disk I/O error")
# How the folder stands, by what a desk says of a command that has ended.
SAID = {"Nothing was done.": BEFORE, "the folder has changed": DAY, "Done.": DAY}


class Visitor:
    """Somebody who comes to a desk by its link, as a browser does: with cookies, and led on to the answer."""

    def __init__(self, server: Server) -> None:
        self.base = server.base
        cookies = urllib.request.HTTPCookieProcessor(http.cookiejar.CookieJar())
        self.opener = urllib.request.build_opener(urllib.request.ProxyHandler({}), cookies)
        assert self.get(server.link.removeprefix(self.base)).status == 200

    def ask(self, path: str, content: bytes | None = None) -> Answer:
        try:
            with self.opener.open(self.base + path, content, MOST_SECONDS) as answer:
                return Answer(answer.status, dict(answer.headers.items()), answer.read())
        except urllib.error.HTTPError as error:
            return Answer(error.code, dict(error.headers.items()), error.read())

    def get(self, path: str) -> Answer:
        return self.ask(path)

    def send(self, page: str, action: str, **said: object) -> Answer:
        """Opens a page, and sends its form with some fields changed."""
        fields: Fields = {**self.get(page).page.form(action).fields, **said}
        return self.ask(action, urllib.parse.urlencode(fields).encode())

    def ended(self, answer: Answer) -> Answer:
        """The page of a command that has come to its end."""
        end = time.monotonic() + MOST_SECONDS
        while "At work" in answer.text and time.monotonic() < end:
            time.sleep(0.05)
            answer = self.get(next(own for own in answer.page.hrefs if own.startswith("/jobs/")))
        return answer

    def close(self) -> Answer:
        return self.send("/close", "/close/settle", date=DAY, second="1")


class Folders:
    """A folder before its second day is closed, and what it is behind that, from which each trial begins anew."""

    def __init__(self, office: Path, work: Path) -> None:
        self.kept, self.office = office, work / "office"
        self.states = [plain(office)]
        with Server(self.begin(), "--who", "ana") as server:
            ana, start = Visitor(server), time.monotonic()
            closed = ana.ended(ana.close())
            # How long a closing takes on this machine now, in seconds.
            self.longest = time.monotonic() - start
        assert "is settled" in closed.text, closed.text
        self.states.append(plain(self.office))

    def begin(self) -> Path:
        shutil.rmtree(self.office, ignore_errors=True)
        shutil.copytree(self.kept, self.office)
        return self.office

    def stands(self, office: Path) -> str | None:
        """How a folder stands that is whole: as before the day or as behind it; None if it is otherwise."""
        states = {str(state): name for state, name in zip(self.states, (BEFORE, DAY))}
        return states.get(str(plain(office)))


def plain(office: Path) -> dict[str, object]:
    """All files of a folder that say something of its days."""
    return without_times(office)


def until(is_so: Callable[[], bool]) -> None:
    end = time.monotonic() + MOST_SECONDS
    while not is_so():
        assert time.monotonic() < end, "it did not come to that"
        time.sleep(0.02)


# Kills.


def commands_of(server: Server) -> list[int]:
    """The processes of the commands that a desk has started."""
    path = Path(f"/proc/{server.process.pid}/task/{server.process.pid}/children")
    children = [Path(own) for own in Path(f"/proc/{server.process.pid}/task").glob("*/children")]
    return [int(word) for own in children or [path] for word in own.read_text().split()]


def is_at_work(number: int) -> bool:
    """Whether a process still works, and is not only waited for."""
    with contextlib.suppress(OSError):
        return Path(f"/proc/{number}/stat").read_text().rpartition(")")[2].split()[0] not in "ZX"
    return False


def killed_closing(folders: Folders, whom: str, moment: float) -> object:
    """Kills somebody while a day is closed. The folder is then as before it or as behind it, and the next desk says
    which."""
    office = folders.begin()
    server = Server(office, "--who", "ana")
    ana = Visitor(server)
    answer = ana.close()
    time.sleep(moment)
    commands = commands_of(server)
    if whom != "the desk":
        for number in commands:
            os.kill(number, signal.SIGKILL)
    told = ana.ended(answer).text if whom == "the command" else ""
    server.end(signal.SIGKILL if whom != "the command" else signal.SIGINT)
    until(lambda: not any(map(is_at_work, commands)))
    return said_later(folders, office, next((day for words, day in SAID.items() if words in told), None))


def said_later(folders: Folders, office: Path, said: str | None = None) -> object:
    """What is wrong with what the next desk says of a folder in which a command was ended, and with the folder. `said`
    is how it stands by what the desk before has said."""
    with Server(office, "--who", "ben") as server:
        ben = Visitor(server)
        today = ben.get("/")
        if "A command was interrupted" in today.text:
            right = ben.ended(ben.send("/", "/put-right"))
            if "Done." not in right.text:
                return f"it is not put right: {right.text}"
            today = ben.get("/")
        stands = folders.stands(office)
        if not stands or f'<a href="/days/{stands}">' not in today.text or today.page.faults:
            return f"it stands as {stands}, and the desk says {today.page.text}"
        if said not in (stands, None):
            return f"it stands as {stands}, and the desk said so of {said}"
        last = "" if stands == DAY else ben.ended(ben.close()).text
    audit = Said("audit", "--second", "--office", office)
    if ": 0 differences" not in audit.output:
        return audit
    return None if not last or "is settled" in last else f"it cannot be closed then: {last}"


def killed_trials(folders: Folders, count: int = KILLED, seed: int = 0) -> Iterator[tuple[str, object]]:
    draw = random.Random(seed)
    for place in range(count):
        whom, moment = WHOM[place % len(WHOM)], draw.uniform(0, folders.longest)
        yield f"{whom} is killed {moment:.3f} s into closing", killed_closing(folders, whom, moment)


# A full disk.


@contextlib.contextmanager
def small_disk(place: Path) -> Iterator[Path]:
    """A disk of its own that is soon full, where somebody may have one."""
    place.mkdir()
    words = ["mount", "-t", "tmpfs", "-o", f"size={DISK}", "tmpfs", str(place)]
    if os.getuid() or subprocess.run(words, capture_output=True, check=False).returncode:
        raise LeftOut("nobody may mount a small disk here")
    try:
        yield place
    finally:
        subprocess.run(["umount", "-l", str(place)], check=False)


def fill(place: Path, free: int) -> Path:
    """Fills a disk but for so many bytes."""
    own = place / "full"
    there = os.statvfs(place)
    most = max(there.f_bavail * there.f_frsize - free, 0)
    with contextlib.suppress(OSError), open(own, "wb", buffering=0) as stream:
        stream.write(b"x" * most)
    return own


def full_closing(folders: Folders, disk: Path, free: int) -> object:
    """Closes a day on a disk with so many bytes free. The page says it, the folder is whole, and with room again the
    day can be closed."""
    office = disk / "office"
    shutil.rmtree(office, ignore_errors=True)
    shutil.copytree(folders.kept, office)
    with Server(office, "--who", "ana") as server:
        ana = Visitor(server)
        own = fill(disk, free)
        closed, handed = ana.ended(ana.close()), ana.get("/hand-in?act=assess")
        today = ana.get("/")
        own.unlink()
    wrong = [page.page.faults or page.text for page in (handed, today) if page.status != 200 or page.page.faults]
    stands = folders.stands(office)
    if "is settled" not in closed.text and not tells(closed):
        return f"nothing is said of the disk: {closed.page.text}"
    if "is settled" in closed.text and stands not in (DAY, None):
        return f"said to be done, and it stands as {stands}"
    return wrong or said_later(folders, office)


def tells(answer: Answer) -> bool:
    """Whether a page says that there is no room."""
    return any(words in answer.text for words in FULL)


def full_private(office: Path, disk: Path) -> Iterator[tuple[str, object]]:
    """The disk of the desk's own folder is full, and that of the days is not."""
    os.environ["TMPDIR"] = str(disk)
    try:
        with Server(office, "--who", "ana") as server:
            ana = Visitor(server)
            own = fill(disk, 0)
            begun = plain(office)
            for path in ("/close", "/next", "/hand-in?act=assess"):
                answer = ana.get(path)
                is_shown = answer.status == 200 and not answer.page.faults
                yield f"{path} needs no room", None if is_shown else answer.text
            ended = ana.ended(ana.send("/audit", "/audit/begin"))
            # (its answer lies on the same disk)
            is_told = tells(ended) or "Its exit status is 5" in ended.text or "Nothing was found." in ended.text
            yield "an audit without room", None if is_told and not ended.page.faults else ended.page.text
            look = ana.send("/hand-in", "/hand-in/look", act="assess", account="100377")
            yield "a look without room", None if tells(look) and not look.page.faults else look.page.text
            yield "the folder of the days", None if plain(office) == begun else "it is another one"
            own.unlink()
            yield "with room again", None if ana.get("/").status == 200 else ana.get("/").text
    finally:
        del os.environ["TMPDIR"]


def full_trials(folders: Folders, work: Path) -> Iterator[tuple[str, object]]:
    with small_disk(work / "disk") as disk:
        for free in FREE:
            yield f"closing with {free} bytes free", full_closing(folders, disk, free)
        shutil.rmtree(disk / "office")
        yield from full_private(folders.begin(), disk)


# A folder that is moved.


def moved_trials(folders: Folders, work: Path, count: int = MOVED, seed: int = 0) -> Iterator[tuple[str, object]]:
    draw = random.Random(seed)
    for _ in range(count):
        moment = draw.uniform(0, folders.longest)
        yield f"the folder is moved {moment:.3f} s into closing", moved_closing(folders, work / "elsewhere", moment)
    yield from other_in_its_place(folders, work / "elsewhere")


def moved_closing(folders: Folders, elsewhere: Path, moment: float) -> object:
    """Moves the folder while a day is closed: it is whole where it is then, and its desk says that it is gone."""
    shutil.rmtree(elsewhere, ignore_errors=True)
    office = folders.begin()
    with Server(office, "--who", "ana") as server:
        ana = Visitor(server)
        answer = ana.close()
        time.sleep(moment)
        office.rename(elsewhere)
        answer = ana.ended(answer)
        gone = ana.get("/")
    if "is no folder of days" not in gone.text or gone.page.faults or answer.page.faults:
        return f"it does not say that it is gone: {gone.text}"
    if office.exists():
        return f"something was made where it was: {sorted(office.rglob('*'))}"
    return said_later(folders, elsewhere)


def other_in_its_place(folders: Folders, elsewhere: Path) -> Iterator[tuple[str, object]]:
    """Another folder is put where the one was: what was asked for of the first is not done in it."""
    shutil.rmtree(elsewhere, ignore_errors=True)
    office = folders.begin()
    with Server(office, "--who", "ana") as server:
        ana = Visitor(server)
        form = ana.get("/close").page.form("/close/settle")
        office.rename(elsewhere)
        shutil.copytree(elsewhere, office)
        assert Said("take-back", "1", "--why", "a slip", "--who", "ben", "--office", office).status == 0
        begun = plain(office)
        content = urllib.parse.urlencode({**form.fields, "second": "1"}).encode()
        answer = ana.ended(ana.ask("/close/settle", content))
        told = "somebody changed the folder since it was looked at" in answer.text
        yield "another folder in its place", None if told and plain(office) == begun else answer.text
        shutil.rmtree(office)
        elsewhere.rename(office)
        yield "and the first one again", None if "is settled" in ana.ended(ana.close()).text else ana.get("/").text


def trials(office: Path, work: Path) -> Iterator[tuple[str, object]]:
    """All of them, of a folder whose second day waits to be closed."""
    work.mkdir()
    folders = Folders(office, work)
    yield from killed_trials(folders)
    yield from moved_trials(folders, work)
    try:
        yield from full_trials(folders, work)
    except LeftOut as why:
        print(f"LEFT OUT: a full disk: {why}", flush=True)
