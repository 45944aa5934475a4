"""Logins of the system that trials make and take away again: colleagues in one group, and a stranger outside of it.

That takes root, useradd and setpriv: where one of them is missing, LeftOut says so.
"""
from __future__ import annotations

import contextlib
import grp
import os
import pwd
import re
import shutil
import subprocess
import time
from collections.abc import Iterator, Sequence
from dataclasses import dataclass
from pathlib import Path

from harness import MOST_SECONDS, TOP, LeftOut

# The names of all that is made here: `rgy`, the process that made it, and who it is.
MADE = re.compile("rgy([0-9]+)[a-z]+")
NEEDED = ("useradd", "userdel", "groupadd", "groupdel", "setpriv")
# Two that make logins at once wait for each other so often, for a second.
TIMES = 20


@dataclass(frozen=True)
class Login:
    """A login of the system."""

    name: str
    user: int
    group: int

    def line(self, *command: object) -> list[str]:
        """The words that start a command as this login."""
        return ["setpriv", f"--reuid={self.user}", f"--regid={self.group}", "--clear-groups", *map(str, command)]

    def run(self, command: Sequence[str | Path], **more: str) -> subprocess.CompletedProcess[str]:
        """Runs a command as this login, as one of a group that may write what the others make."""
        own = self.line(*command)
        said = {"PATH": os.environ["PATH"], "HOME": "/nonexistent", "LC_ALL": "C.UTF-8", **more}
        return subprocess.run(
            own, cwd="/", env=said, umask=0o002, capture_output=True, text=True, timeout=MOST_SECONDS, check=False
        )

    def day(self, *words: object, **more: str) -> tuple[int, str]:
        """The status of a command of ./day that this login gives, and what it says."""
        said = self.run([TOP / "day", *map(str, words)], **more)
        return said.returncode, said.stdout + said.stderr

    def does(self, code: str, *words: object) -> None:
        """Has this login run lines of Python, by hand."""
        said = self.run(["/usr/bin/env", "python3", "-I", "-c", f"import os, sys\n{code}", *map(str, words)])
        assert said.returncode == 0, said.stderr

    def writes(self, path: Path, content: str) -> None:
        """Has this login put a file of its own in the place of whatever is there."""
        self.does("p, c = sys.argv[1:]\nos.path.lexists(p) and os.unlink(p)\nopen(p, 'w').write(c)", path, content)


@contextlib.contextmanager
def made(*names: str) -> Iterator[tuple[Login, ...]]:
    """Logins of these names in one group, for the block. Raises LeftOut where none can be made."""
    lacking = [word for word in NEEDED if not shutil.which(word)]
    if os.getuid() != 0 or lacking:
        raise LeftOut(f"no login can be made here: that takes root and {', '.join(lacking or NEEDED)}")
    remove_left()
    group = f"rgy{os.getpid()}g"
    must_run("groupadd", "--system", group)
    try:
        for name in names:
            words = "--system", "--no-create-home", "--no-user-group", "--gid", group, "--shell", "/bin/false"
            must_run("useradd", *words, f"rgy{os.getpid()}{name}")
        found = [pwd.getpwnam(f"rgy{os.getpid()}{name}") for name in names]
        logins = tuple(Login(own.pw_name, own.pw_uid, own.pw_gid) for own in found)
        status, says = logins[0].day("--version")
        if status:
            raise LeftOut(f"another login can't run ./day here: {says.strip()[:200]}")
        yield logins
    finally:
        remove(os.getpid())


def must_run(*words: str) -> None:
    """Runs a command that changes who there is; if another one does so now, waits for it."""
    for _ in range(TIMES):
        said = subprocess.run(words, capture_output=True, text=True, check=False)
        if not said.returncode:
            return
        if "lock" not in said.stderr:
            break
        time.sleep(1)
    raise LeftOut(f"{words[0]} does not make a login here: {said.stderr.strip()}")


def there() -> Iterator[tuple[str, str, int]]:
    """The logins and groups that were made, each with the command that takes it away, and the process that made it."""
    named = [("userdel", own.pw_name) for own in pwd.getpwall()] + [("groupdel", own.gr_name) for own in grp.getgrall()]
    for command, name in named:
        found = MADE.fullmatch(name)
        if found:
            yield command, name, int(found[1])


def remove(process: int) -> None:
    """Takes the logins and the group away that a process made."""
    for command, name, own in [*there()]:
        if own == process:
            must_run(command, name)


def remove_left() -> None:
    """Takes away what processes left here that were killed."""
    for process in {own for _, _, own in there()}:
        if not Path(f"/proc/{process}").exists():
            remove(process)
