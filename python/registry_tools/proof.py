"""Says of a program or a library whether it is the file that was proved, byte for byte.

`./run --prove` and `tools/library` write a note beside what they build: from which sources, proved by which kit, and a
line `sha256: SUM NAME` for each file. A file is proved if its note says so and has the SHA-256 of its bytes. A build
that was not proved has NOT PROVED in its last lines, wherever it lies.
"""
import hashlib
import re
from pathlib import Path
from typing import NamedTuple

NOT_PROVED = "NOT PROVED"
# An unproved build says so in so many bytes at its end, and a file is read in parts of so many.
END, PART = 512, 1 << 20
PROVED_LINE = re.compile(r"^proved and built with \S", re.MULTILINE)
SUM_LINE = re.compile(r"^sha256: ([0-9a-f]{64}) \S+$", re.MULTILINE)
# So many digits of a sum tell one file from another, for people.
DIGITS = 12


class Build(NamedTuple):
    """A program or a library that lies somewhere: the SHA-256 of its bytes, and why nothing proves them; nothing, if
    they were proved."""

    sum: str
    doubt: str

    @property
    def is_proved(self) -> bool:
        """Whether these bytes were proved."""
        return not self.doubt


def build_of(path: Path | str, note: Path | str) -> Build:
    """A program or a library at a path, by the note of its build."""
    program, noted = Path(path), Path(note)
    try:
        own_sum, end = read(program)
    except OSError as error:
        return Build("", f"{program} cannot be read: {error.strerror}")
    return Build(own_sum, doubt_of(program, own_sum, end, noted))


def says_proved(told: str) -> bool:
    """Whether a note of a build says that it was proved, and not that it was not."""
    return NOT_PROVED.lower() not in told.lower() and PROVED_LINE.search(told) is not None


def sums_in(told: str) -> list[str]:
    """The SHA-256 of each file of a note of a build."""
    return SUM_LINE.findall(told)


def read(path: Path) -> tuple[str, bytes]:
    """The SHA-256 of a file, and its last bytes."""
    digest, end = hashlib.sha256(), b""
    with path.open("rb") as file:
        while part := file.read(PART):
            digest.update(part)
            end = (end + part)[-END:]
    return digest.hexdigest(), end


def doubt_of(path: Path, own_sum: str, end: bytes, note: Path) -> str:
    """Why nothing proves a file with this sum and these last bytes."""
    if NOT_PROVED.encode() in end:
        return f"{path} says in its last lines that it is {NOT_PROVED}"
    try:
        told = note.read_text(encoding="utf-8", errors="replace")
    except OSError as error:
        return f"the note of its build, {note}, cannot be read: {error.strerror}"
    if not says_proved(told):
        return f"{note} does not say that {path} was proved"
    sums = sums_in(told)
    if not sums:
        return f"{note} has no SHA-256 of what was built: an older version wrote it"
    if own_sum not in sums:
        begins = f"its SHA-256 begins {own_sum[:DIGITS]}"
        return f"{path} is not the file that was proved: {begins}, which {note} does not have"
    return ""
