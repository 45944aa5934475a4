"""The programs that office.ini names. A command runs one with the rights of whoever gives the command: so it does only
if nobody else could have named or changed it but them, the owner of the folder and root.

Whoever may write a folder on the way may put another program there, and whoever may write FOLDER another office.ini.
The variable REGISTRY_PROGRAMS names programs, and folders of programs, that are run all the same."""
import grp
import os
import pwd
import shutil
import stat
from collections.abc import Iterator
from pathlib import Path

from registry_tools.errors import FileFault
from registry_tools.office import people
from registry_tools.office.office import Office
from registry_tools.layout import SETTINGS

VARIABLE = "REGISTRY_PROGRAMS"
ROOT = 0
# A path that leads over more links is none, as for the system.
MOST_LINKS = 40


def named_program(office: Office) -> str:
    """The program that office.ini names; nothing, if it names none. Raises FileFault if others could have named or
    changed it."""
    must_be_ours(office, "program", office.settings.program)
    return office.settings.program


def must_be_ours(office: Office, name: str, named: str) -> None:
    """Raises FileFault if others could have named or changed the program that office.ini names by this name."""
    if not named or is_let(named):
        return
    trusted = {os.getuid(), os.stat(office.path).st_uid, ROOT}
    for path in (office.path / SETTINGS, Path(shutil.which(named) or named)):
        for step in way_to(path):
            who = others_at(step, trusted)
            if who:
                out = f"take that right away, or {VARIABLE}={named} lets you run it"
                expected = f"one that nobody else can change, and {step} may be written by {who}"
                raise FileFault(office.path / SETTINGS, 0, name, named, expected, out)


def is_let(named: str) -> bool:
    """Whether the variable lets a program be run."""
    real = os.path.realpath(shutil.which(named) or named)
    let = (os.path.realpath(path) for path in os.environ.get(VARIABLE, "").split(os.pathsep) if path)
    return any(real == path or real.startswith(f"{path}/") for path in let)


def way_to(path: Path) -> Iterator[str]:
    """All that decides what a path leads to: each folder and link on the way, and the file."""
    left, here, links = [part for part in os.path.abspath(path).split("/") if part], "/", 0
    yield here
    while left:
        step = os.path.join(here, left.pop(0))
        if step.endswith("/.."):
            here = os.path.dirname(here)
            continue
        yield step
        if os.path.islink(step) and links < MOST_LINKS:
            links += 1
            target = os.readlink(step)
            left = [part for part in target.split("/") if part not in ("", ".")] + left
            step = "/" if target.startswith("/") else here
        here = step


def others_at(step: str, trusted: set[int]) -> str:
    """Who may change what has this path, beside those who are trusted, in words; nothing, if nobody may."""
    try:
        about = os.lstat(step)
    except OSError:
        return ""
    if about.st_uid not in trusted:
        return people.login_of(about.st_uid)
    # (in such a folder nobody takes away what others own, and what is on the way is looked at by itself)
    is_sticky = stat.S_ISDIR(about.st_mode) and about.st_mode & stat.S_ISVTX
    if stat.S_ISLNK(about.st_mode) or is_sticky:
        return ""
    if about.st_mode & stat.S_IWOTH:
        return "everybody"
    is_shared = about.st_mode & stat.S_IWGRP and not members_of(about.st_gid) <= trusted
    return f"the group {group_name(about.st_gid)}" if is_shared else ""


def members_of(group: int) -> set[int]:
    """The users of a group."""
    members = {each.pw_uid for each in pwd.getpwall() if each.pw_gid == group}
    try:
        named = grp.getgrgid(group).gr_mem
    except KeyError:
        # (nobody knows who is in a group without a name)
        return members | {-1}
    for name in named:
        try:
            members.add(pwd.getpwnam(name).pw_uid)
        except KeyError:
            members.add(-1)
    return members


def group_name(group: int) -> str:
    """The name of a group, or its number."""
    try:
        return grp.getgrgid(group).gr_name
    except KeyError:
        return str(group)
