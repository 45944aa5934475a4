"""What links do where somebody gives commands at a desk: as files that are read or written, as the socket, and as the
folder that names it; also links that somebody else exchanges meanwhile. For cases/run-door."""
from __future__ import annotations

import contextlib
import os
import shutil
import subprocess
import sys
from collections.abc import Iterator, Sequence
from pathlib import Path

from door_commands import WEEK, Giver, answered_by, has
from door_machines import ROW
from harness import PYTHON, differs
from logins import Login

Told = Iterator[tuple[str, object]]
# What a login does until it is ended: a name is a link to one thing, and then to another one, or a file with a text.
EXCHANGES = """
import os, sys
name, one, other, text = sys.argv[1:]
print('x', flush=True)
while os.getppid() != 1:
    for target in (one, other):
        beside = name + '.beside'
        os.path.lexists(beside) and os.unlink(beside)
        if target:
            os.symlink(target, beside)
        else:
            open(beside, 'w').write(text)
        try:
            os.rename(beside, name)
        except OSError:
            pass
"""
SECRET = "a secret of somebody else\n"


@contextlib.contextmanager
def exchanging(login: Login, name: Path, one: object, other: object, text: str = "") -> Iterator[None]:
    """In the block a login exchanges what a name leads to; nothing stands for a file with a text."""
    line = login.line(sys.executable, "-I", "-c", EXCHANGES, name, one, other, text)
    with subprocess.Popen(line, stdout=subprocess.PIPE, stdin=subprocess.DEVNULL) as process:
        assert process.stdout is not None
        process.stdout.readline()
        try:
            yield
        finally:
            process.kill()
    clear(name)


def clear(name: Path) -> None:
    """Takes away what has a name."""
    if name.is_dir() and not name.is_symlink():
        shutil.rmtree(name)
    else:
        name.unlink(missing_ok=True)


def read_trials(shared: Path, own: Path, giver: Giver, secrets: dict[str, Path], other: Login) -> Told:
    """Links in place of files that are read: as whoever gives the command may read them, and never as the desk may."""
    links = {
        "a secret of the desk": (secrets["desk"], "cannot be read: Permission denied"),
        "a secret of somebody else": (secrets["other"], "cannot be read: Permission denied"),
        "nothing": (shared / "none", "cannot be read: No such file"),
        "itself": (shared / "itself", "cannot be read: Too many levels"),
        "a folder": (own, "cannot be read: Is a directory"),
    }  # fmt: skip
    for what, (target, wanted) in links.items():
        link = shared / (target.name if what == "itself" else "link.csv")
        link.symlink_to(target)
        for words in (["hand-in", link], ["label", "--file", link, "--why", "x"]):
            yield f"{words[0]} of a link to {what}", has(giver.gives(*words), "(3, ", wanted)
        link.unlink()
    (own / "own.csv").write_text(ROW.format(9_001))
    link = own / "link.csv"
    link.symlink_to(own / "own.csv")
    yield "a link of one's own to a file of one's own", has(giver.gives("hand-in", link), "handed in: ", "link.csv")
    told = giver.gives("take-back", "--file", "link.csv", "--why", "x")
    yield "it has the name of the link", has(told, "(0, ")
    name = shared / "exchanged.csv"
    with exchanging(other, name, secrets["desk"], "", "no row\n"):
        each = [giver.gives("hand-in", name) for _ in range(6)]
    yield "a file that is exchanged for a link to a secret", SECRET.strip() in str(each) and each
    yield "it is refused each time", [told for told in each if told[0] != 3]


def written_trials(shared: Path, own: Path, giver: Giver, other: Login) -> Told:
    """Links under names that are written: what they lead to stays."""
    precious = own / "precious.csv"
    login = giver.login
    login.writes(precious, "precious\n")
    login.does("os.mkdir(sys.argv[1])", own / "kept")
    words: list[list[object]] = [
        ["label", "--csv", "--to", shared / "out"], ["month", shared / "out"], ["unpack", shared / "out"],
        ["send", shared / "out"], ["export", "--day", "2025-09-22", "--log", "--xlsx", shared / "out"],
    ]  # fmt: skip
    for target in (precious, own / "kept", own / "none"):
        (shared / "out").symlink_to(target)
        for given in words:
            yield f"{given[0]} to a link to {target.name}", has(giver.gives(*given), "(3, ", "link")
        (shared / "out").unlink()
    for place, given in enumerate(words):
        with exchanging(other, shared / "out", own / "kept" if place in (2, 3) else precious, own / "none"):
            each = [giver.gives(*given) for _ in range(3)]
        yield f"{given[0]} to a link that is exchanged", [told for told in each if told[0] not in (0, 3)]
    yield "what links led to is as it was", differs(
        (precious.read_text(), sorted(path.name for path in own.iterdir()), [*(own / "kept").iterdir()]),
        ("precious\n", ["kept", "link.csv", "own.csv", "precious.csv"], []),
    )


def socket_trials(shared: Path, path: Path, office: Path, people: Sequence[Login]) -> Told:
    """A socket that is a link, and a folder that is one, in the folder and in office.ini."""
    owner, anna, other = people
    link = shared / "linked.sock"
    behind = Path(f"{link}.day")
    behind.symlink_to(f"{path}.day")
    yield "a socket that is a link", has(anna.day("--desk", link, "status"), "(0, ", "last day")
    told = owner.day("desk", "--office", office, "--socket", link)
    yield "no desk begins at a link", has(told, "(2, ")
    kept = (office / "office.ini").read_text()
    office.chmod(0o755)
    (office / "office.ini").chmod(0o644)
    (office / "office.ini").write_text(kept.replace("[office]\n", f"[office]\ndesk = {link}\n"))
    folder = shared / "folder"
    folder.symlink_to(office)
    for what, named in (("a folder", office), ("a link to it", folder)):
        told = anna.day("status", "--office", named)
        yield f"{what} that names a socket that is a link", has(told, "(0, ", "last day")
    behind.unlink()
    behind.symlink_to(shared / "other.sock.day")
    told = answered_by(shared / "other.sock", other, anna, "status", "--office", str(office))
    yield "the link leads to somebody else's socket", has(told, "(2, ", "and not its owner")
    behind.unlink()
    with heard(other, shared / "other.sock.day") as words:
        with exchanging(other, behind, f"{path}.day", shared / "other.sock.day"):
            told_all = [anna.day("status", "--office", folder) for _ in range(9)]
        yield "a socket that is exchanged", [each for each in told_all if not is_one(each)]
    yield "somebody else's socket hears no word", b"status" in words and bytes(words)
    (office / "office.ini").write_text(kept)
    office.chmod(0o700)
    folder.unlink()
    place = shared / "theirs"
    place.mkdir()
    os.chown(place, other.user, other.group)
    (place / "office.ini").symlink_to(office / "office.ini")
    yield "office.ini that is a link", "last day" in str(anna.day("status", "--office", place))


def is_one(told: tuple[int, str]) -> bool:
    """Whether a command was answered by the desk, or not given at all."""
    said = str(told)
    return (told[0] == 0 and "last day" in said) or "and not its owner" in said or "nobody answers there" in said


@contextlib.contextmanager
def heard(login: Login, path: Path) -> Iterator[bytearray]:
    """In the block a login listens at a socket: what it hears."""
    code = (
        f"import os, socket, sys, threading; sys.path.insert(0, {str(PYTHON)!r}); from registry_tools import frames\n"
        f"path = {str(path)!r}; os.path.lexists(path) and os.unlink(path)\n"
        f"own = socket.socket(socket.AF_UNIX); own.bind(path); os.chmod(path, 0o666); own.listen()\n"
        "print('x', flush=True)\n"
        "while True:\n"
        "    there = own.accept()[0]; there.settimeout(1)\n"
        "    try:\n"
        "        there.sendall(frames.frame(frames.GO)); sys.stdout.buffer.write(there.recv(9999) or b'')\n"
        "    except OSError: pass\n"
        "    sys.stdout.flush(); there.close()\n"
    )
    words = bytearray()
    with subprocess.Popen(
        login.line(sys.executable, "-I", "-c", code), stdout=subprocess.PIPE, stdin=subprocess.DEVNULL
    ) as listens:
        assert listens.stdout is not None
        listens.stdout.readline()
        try:
            yield words
        finally:
            listens.kill()
            words += listens.stdout.read()


def all_trials(work: Path, path: Path, home: Path, people: Sequence[Login]) -> Told:
    """`people` are the login of the desk, one who may do all, and one whom office.ini does not name."""
    owner, anna, other = people
    shared, own = work / "shared", work / "of-anna"
    shared.mkdir()
    shared.chmod(0o777)
    own.mkdir()
    os.chown(own, anna.user, anna.group)
    secrets = {"desk": home / "secret.csv", "other": work / "secret-of-other.csv"}
    for login, name in ((owner, secrets["desk"]), (other, secrets["other"])):
        name.write_text(SECRET)
        os.chown(name, login.user, login.group)
        name.chmod(0o600)
    giver = Giver(anna, path)
    yield from read_trials(shared, own, giver, secrets, other)
    yield from written_trials(shared, own, giver, other)
    yield from socket_trials(shared, path, home / "office", people)
    secrets["desk"].unlink()
