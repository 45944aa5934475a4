"""A folder of days that one login owns, and other logins on the machine, for trials of what hostile ones can do."""
from __future__ import annotations

import hashlib
import shutil
import subprocess
from dataclasses import dataclass, field, replace
from pathlib import Path

from harness import TOP
from logins import Login

WEEK, RULES = TOP / "examples" / "week", TOP / "tools" / "rules.py"
MONDAY, TUESDAY = "2025-09-22", "2025-09-23"
ACT = "do,2025-09-23,5101,5102,surrender,100210,general,{}\n"


@dataclass
class Owned:
    """A folder of bert's, with one settled day; anna is in his group, and cora in no group of his."""

    path: Path
    work: Path
    anna: Login
    bert: Login
    cora: Login
    # The variables with which everybody works.
    let: dict[str, str] = field(default_factory=dict)

    @property
    def own(self) -> list[str]:
        return ["--office", str(self.path)]

    def copy(self, name: str) -> Owned:
        """The same folder once more, with the owners of its files."""
        path = self.path.parent / name
        shutil.rmtree(path, ignore_errors=True)
        must_run("cp", "-a", str(self.path), str(path))
        return replace(self, path=path)

    def file(self, name: str, text: str) -> str:
        """A file that all may read."""
        path = self.work / name
        path.write_text(text)
        path.chmod(0o644)
        return str(path)

    def gets(self, login: Login, status: int, has: list[str], *words: object) -> object:
        """What is wrong with what a command says, if something is."""
        ended, says = login.day(*words, *self.own, **self.let)
        lacking = [part for part in has if part not in says]
        return f"status {ended}, {lacking} lack: {says[-900:]}" if lacking or ended != status else None

    def stands(self) -> dict[str, bytes]:
        """All that the folder has."""
        files = (path for path in self.path.rglob("*") if path.is_file() and not path.is_symlink())
        return {str(path.relative_to(self.path)): path.read_bytes() for path in files}

    def refuses(self, login: Login, has: list[str], *words: object) -> object:
        """What is wrong, if a command is not refused with these words, tells something of a day, or changes it."""
        before, (ended, says) = self.stands(), login.day(*words, *self.own, **self.let)
        lacking = [part for part in has if part not in says]
        if ended not in (2, 3) or lacking or "Traceback" in says or "records 610" in says:
            return f"status {ended}, {lacking} lack: {says[-900:]}"
        return None if self.stands() == before else "something has changed"


def must_run(*words: str) -> None:
    """Runs a command as this process."""
    subprocess.run(words, check=True)


def owned(work: Path, logins: tuple[Login, ...]) -> Owned:
    """A folder that bert made, in a folder of his in which others may look around."""
    anna, bert, cora = logins[:3]
    work.chmod(0o755)
    place = work / "bert"
    shutil.rmtree(place, ignore_errors=True)
    place.mkdir()
    shutil.chown(place, bert.user, bert.group)
    place.chmod(0o755)
    made = Owned(place / "office", work, anna, bert, replace(cora, group=65_534))
    must_get(without_folder(bert.day("init", made.path, WEEK / "monday.csv", "--program", RULES)))
    must_get(without_folder(bert.day("close", "--date", MONDAY, "--second", *made.own)))
    return made


def without_folder(said: tuple[int, str]) -> str | None:
    return None if said[0] == 0 else f"status {said[0]}: {said[1]}"


def sum_of(text: str) -> str:
    return hashlib.sha256(text.encode()).hexdigest()


def must_get(wrong: object) -> None:
    """What has to go well before an attempt."""
    assert wrong is None, wrong
