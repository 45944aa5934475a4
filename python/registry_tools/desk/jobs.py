"""What the desk has a command do: each change, and what takes long. A command is a process of its own, as somebody at a
terminal would start it, with its lock, its working folder, its streams and its end. Uploads and the answers of commands
lie in a private folder: nobody else can read it, and it is gone when the desk ends. What a killed desk left, the next
one takes away."""
import contextlib
import fcntl
import os
import re
import secrets
import shutil
import signal
import subprocess
import tempfile
import threading
import time
from dataclasses import dataclass, field
from pathlib import Path
from typing import Callable, Iterator

from registry_tools import isolated, opening, outcomes
from registry_tools.cli.main import FOR_DESK
from registry_tools.door.commands import MOST_SECONDS, Started
from registry_tools.errors import FOUND, WordsFault
from registry_tools.office.incoming import Given
from registry_tools.outcomes import Kind
from registry_tools.progress import ASKED
from registry_tools.streams import names

COMMAND = isolated.command_by()
# So many answers are kept, and so long (in seconds) an upload waits for its yes.
MOST_JOBS, UPLOAD_AGE = 200, 3_600
# So many things are asked for at a time, in forms of so many letters each.
MOST_ASKED, MOST_LETTERS = 1_000, 1 << 16
# So many uploads wait at a time, of so many bytes in all, and each has so many files at most.
MOST_WAITING, MOST_BYTES_WAITING, MOST_FILES = 100, 1 << 30, 1_000
# Where a command tells what came of it.
OUTCOME = "outcome.json"
# How a line of progress begins, and what a name of an upload may have.
PROGRESS, LONGEST_NAME = "\r\033[K", 60
# Where a command puts files that somebody takes with him; the private folder of a desk, and its lock.
MADE, PREFIX, LOCK = "made", "day-desk-", "lock"
# The copies that a command makes for a browser, by its name.
COPIES = {"db": "days.sqlite", "backup": "registry.sqlite"}
# The commands whose status says what they found, and not that they did nothing.
FINDING = ("hand-in", "audit", "try", "status", "send")
NOTHING = "Nothing was done."
KEY = re.compile("[0-9a-f]{32}")
FORGOTTEN = "the desk knows nothing of this look any more"


@dataclass
class Job:
    """A command that was started."""

    number: str
    command: str
    # The words behind the command, and the folder of its answer.
    words: list[str]
    out: Path
    process: Started
    # In which state whoever asked for it has seen the folder, and where the form is that asked for it, as it was typed.
    seen: str
    back: str
    at: float = field(default_factory=time.time)

    @property
    def status(self) -> int | None:
        """Its exit status; None as long as it is at work."""
        return self.process.poll()

    def said(self, stream: str) -> list[str]:
        """The lines of a stream. Of a line that was written over, what it says last."""
        # (as bytes: reading a text would make line ends of what begins a line of progress)
        text = (self.out / stream).read_bytes().decode("utf-8", "replace")
        return [line for line in (written.split(PROGRESS)[-1] for written in text.split("\n")) if line.strip()]

    def outcome(self) -> str:
        """What came of it, in a sentence."""
        status = self.status
        if status is None:
            return "At work"
        if self.asks_yes():
            return "Nothing is corrected yet. This is what would become of it:"
        if status == 0 or status == FOUND and self.command in FINDING:
            is_audit = self.command == "audit"
            return "Done." if not is_audit else "Something was found." if status else "Nothing was found."
        return "It is asked for, and waits for somebody else." if self.kind() is Kind.ASKED_FOR else NOTHING

    def asks_yes(self) -> bool:
        """Whether it only showed what a correction would make."""
        return self.command == "correct" and self.status == FOUND and "--yes" not in self.words

    def kind(self) -> Kind:
        """How it ended, as it has told it; one that was killed has done nothing, as far as anybody knows."""
        told = outcomes.read(self.out / OUTCOME)
        return told.kind if told else Kind.NOTHING

    def came_late(self) -> bool:
        """Whether it did nothing, since somebody else was quicker: what was typed for it may still be wanted."""
        return self.kind() is Kind.LATE

    def is_fault(self) -> bool:
        """Whether it ended without doing what it was asked for."""
        return self.outcome() == NOTHING

    def end_in_words(self) -> str:
        """How it ended, where it said nothing of a fault: it was killed, or its answer had no room."""
        status = self.status
        if status is None or status in (0, FOUND) or self.said("stderr"):
            return ""
        return f"It was ended by signal {-status}." if status < 0 else f"Its exit status is {status}, without a word."

    def made(self) -> list[Path]:
        """The files that it made for whoever asked."""
        folder = self.out / MADE
        return sorted(folder.iterdir()) if folder.is_dir() else []


@dataclass
class Asked:
    """What somebody asks for and looks at before a yes: the page of its form, what the form says, and the upload with
    its files. Of its yes, the number of the form that said it, and the reason."""

    page: str
    fields: dict[str, list[str]]
    place: str
    number: str = ""
    why: str = ""

    def first(self) -> dict[str, str]:
        """What each field says; of several, the first one."""
        return {name: words[0].strip() for name, words in self.fields.items()}


def begin(line: list[str], folder: Path, out: Path) -> Started:
    """Starts a command in a folder, and has its streams written into files."""
    with open(out / "stdout", "wb") as stdout, open(out / "stderr", "wb") as stderr:
        # (a group of its own: what the command has started is ended with it)
        return subprocess.Popen(
            line, cwd=folder, stdin=subprocess.DEVNULL, stdout=stdout, stderr=stderr, start_new_session=True,
            env={**os.environ, ASKED: "1"},
        )  # fmt: skip


class Jobs:
    """All commands that were started, by the number of the form that asked for them: sent twice, a form starts one."""

    def __init__(self, office: Path, private: Path, begin: Callable[[list[str], Path, Path], Started] = begin) -> None:
        self.office, self.private, self.lock, self.begin = office, private, threading.Lock(), begin
        # Files are looked at one upload after another: each may take as much memory as a file may.
        self.looking = threading.Lock()
        self.jobs: dict[str, Job] = {}
        # The files of uploads in the order in which they came: it decides who is first.
        self.uploads: dict[str, list[Given]] = {}
        # How many bytes came with each, and which may go first, since nothing comes of them as they are.
        self.sizes: dict[str, int] = {}
        self.spent: set[str] = set()
        # What is asked for, by what stands in the address of its look.
        self.asked: dict[str, Asked] = {}

    def start(self, number: str, command: str, words: list[str], seen: str, back: str, makes: bool) -> Job:
        """Starts a command, or gives the one that this form has started. It works in a folder of its own, where nothing
        of others lies; and a command that makes a folder makes it there."""
        with self.lock:
            if number in self.jobs:
                return self.jobs[number]
            out = Path(tempfile.mkdtemp(prefix="job-", dir=self.private))
            goes_to = [MADE] if makes else []
            told = [FOR_DESK, str(self.office), str(out / OUTCOME)]
            line = [*COMMAND, names["./day"], *told, command, *goes_to, "--office", str(self.office), *words]
            job = Job(number, command, words, out, self.begin(line, out, out), seen, back)
            self.jobs[number] = job
            # (the first ones of many are forgotten, with what they wrote)
            for old in [*self.jobs.values()][: max(len(self.jobs) - MOST_JOBS, 0)]:
                if old.status is not None:
                    shutil.rmtree(self.jobs.pop(old.number).out, ignore_errors=True)
        return job

    def of(self, *commands: str) -> list[Job]:
        """The jobs of these commands, the last one first."""
        return [job for job in reversed([*self.jobs.values()]) if job.command in commands]

    def end(self) -> None:
        """Ends what is at work, and waits: a command that is told to end leaves the folder as it was, or as it will
        be. (A desk that a script has started behind & cannot pass Ctrl-C on.)"""
        for job in self.jobs.values():
            if job.status is None:
                with contextlib.suppress(ProcessLookupError):
                    os.killpg(job.process.pid, signal.SIGTERM)
        for job in self.jobs.values():
            with contextlib.suppress(subprocess.TimeoutExpired):
                job.process.wait(MOST_SECONDS)

    # What is asked for.

    def ask(self, asked: Asked) -> str:
        """Keeps what somebody asks for, and answers by what it is found again. Raises WordsFault if it is too long."""
        if sum(len(word) for words in asked.fields.values() for word in words) > MOST_LETTERS:
            raise WordsFault("the form is too long")
        with self.lock:
            key = secrets.token_hex(16)
            self.asked[key] = asked
            for old in [*self.asked][: max(len(self.asked) - MOST_ASKED, 0)]:
                del self.asked[old]
        return key

    def asked_for(self, page: str, key: str) -> Asked | None:
        """What was asked for on a page; None, if the desk knows nothing of it."""
        asked = self.asked.get(key)
        return asked if asked is not None and asked.page == page else None

    # Uploads.

    def new_upload(self, size: int) -> Path:
        """A folder for files of so many bytes that somebody looks at before they are taken. Those that waited too long
        are removed. Raises WordsFault if too much waits."""
        with self.lock:
            for name in [*self.uploads]:
                old = self.private / name
                if not old.is_dir() or old.stat().st_mtime < time.time() - UPLOAD_AGE:
                    self.forget_upload(name)
            waiting = sum(self.sizes.values())
            if len(self.uploads) >= MOST_WAITING or waiting + size > MOST_BYTES_WAITING:
                for name in [*self.spent]:
                    self.forget_upload(name)
            waiting = sum(self.sizes.values())
            if len(self.uploads) >= MOST_WAITING:
                raise too_many("uploads", len(self.uploads), MOST_WAITING)
            if waiting + size > MOST_BYTES_WAITING:
                raise too_many("bytes", waiting, MOST_BYTES_WAITING)
            path = self.private / secrets.token_hex(16)
            path.mkdir(mode=0o700)
            self.uploads[path.name], self.sizes[path.name] = [], size
        return path

    def forget_upload(self, name: str) -> None:
        """Takes an upload away."""
        self.uploads.pop(name, None)
        self.sizes.pop(name, None)
        self.spent.discard(name)
        shutil.rmtree(self.private / name, ignore_errors=True)

    def place_for(self, folder: Path, name: str) -> Path:
        """Where an upload with this name lies: under one of the desk. Its own is kept as what is told of it, as far as
        it is one of a file."""
        plain = "".join(" " if letter in "/\\" or not letter.isprintable() else letter for letter in name)
        plain = plain.strip(" .")[-LONGEST_NAME:].strip(" .") or "file"
        files = self.uploads[folder.name]
        if len(files) >= MOST_FILES:
            raise WordsFault(f"files: found more than {MOST_FILES:,}; expected at most {MOST_FILES:,} at a time")
        free = plain if plain not in (given.name for given in files) else f"{len(files)} {plain}"
        path = folder / f"upload-{len(files) + 1}"
        files.append(Given(str(path), free))
        return path

    def upload(self, name: str) -> list[Given]:
        """The files of an upload, in their order."""
        if name not in self.uploads:
            raise WordsFault("the files are not here any more", "choose them again")
        return [*self.uploads[name]]


def too_many(what: str, found: int, most: int) -> WordsFault:
    """More waits for a yes than may wait."""
    way = f"hand in or take what waits: it goes by itself after {UPLOAD_AGE // 60} minutes"
    return WordsFault(f"{what} that wait for a yes at this desk: found {found:,}; expected at most {most:,}", way, "; ")


@contextlib.contextmanager
def private_folder() -> Iterator[Path]:
    """A new folder for the time of the block, whose lock is held: so another desk leaves it alone."""
    remove_left_folders(Path(tempfile.gettempdir()))
    with tempfile.TemporaryDirectory(prefix=PREFIX, ignore_cleanup_errors=True) as folder:
        with open(Path(folder) / LOCK, "wb") as lock:
            with opening.telling_of_locks(folder):
                fcntl.flock(lock, fcntl.LOCK_EX)
            yield Path(folder)


def remove_left_folders(place: Path) -> None:
    """Removes the folders of desks that were killed: nobody holds their locks."""
    for folder in place.glob(f"{PREFIX}*"):
        with contextlib.suppress(OSError):
            file = os.open(folder / LOCK, os.O_RDWR | os.O_NOFOLLOW)
            try:
                fcntl.flock(file, fcntl.LOCK_EX | fcntl.LOCK_NB)
                shutil.rmtree(folder, ignore_errors=True)
            finally:
                os.close(file)
