"""What came of a command, as data: for whoever has started it and shows it otherwise than a terminal does, as the desk
does. What a terminal is told are sentences, which nobody has to read for this.

`./day --for-desk FOLDER FILE COMMAND ..` writes it into FILE, as JSON.
"""
import enum
import json
from dataclasses import asdict, dataclass
from pathlib import Path

from registry_tools import errors
from registry_tools.errors import FOUND, FileFault, LateFault


class Kind(enum.Enum):
    """How a command ended."""

    DONE = "done"
    # It was done, and has something to look at: what was found, or what would be refused.
    FOUND = "found"
    # It waits for another login.
    ASKED_FOR = "asked for"
    # Nothing was done, since somebody else was quicker.
    LATE = "late"
    # Nothing was done, for what its faults say, or since it was interrupted.
    NOTHING = "nothing"


@dataclass(frozen=True)
class Fault:
    """What is wrong: of which kind it is, the file, the line (0: the whole file), the field, what was found and what is
    expected there, and the way out. A fault of words has no file."""

    code: str
    file: str
    line: int
    field: str
    found: str
    expected: str
    way: str


@dataclass(frozen=True)
class Outcome:
    """What came of a command: how it ended, its exit status, and what was wrong."""

    kind: Kind
    status: int
    faults: tuple[Fault, ...] = ()


class Telling:
    """What is known of the command that this process carries out."""

    def __init__(self) -> None:
        self.is_asked_for = self.is_late = False
        self.faults: list[Fault] = []

    def outcome(self, status: int) -> Outcome:
        """What came of it, by its exit status."""
        kind = Kind.NOTHING
        if self.is_asked_for and status == FOUND:
            kind = Kind.ASKED_FOR
        elif self.is_late:
            kind = Kind.LATE
        elif status in (0, FOUND):
            kind = Kind.FOUND if status else Kind.DONE
        return Outcome(kind, status, tuple(self.faults))


telling = Telling()


def keep(fault: errors.Fault) -> None:
    """Keeps what ended the command."""
    telling.is_late = isinstance(fault, LateFault)
    telling.faults += map(data_of, fault.parts())


def data_of(fault: errors.Fault) -> Fault:
    """A fault as data."""
    if isinstance(fault, FileFault):
        found, expected = str(fault.found), str(fault.expected)
        return Fault(fault.code, str(fault.path), fault.line, fault.field, found, expected, fault.way)
    return Fault(fault.code, "", 0, "", fault.without_way(), "", fault.way)


def asked_for() -> None:
    """What was asked for waits for another login."""
    telling.is_asked_for = True


def write(path: Path, status: int) -> None:
    """Writes what came of the command."""
    values = asdict(telling.outcome(status))
    path.write_text(json.dumps({**values, "kind": values["kind"].value}, indent=1) + "\n", encoding="ascii")


def read(path: Path) -> Outcome | None:
    """What a command wrote of itself; nothing, if it was killed before."""
    try:
        values = json.loads(path.read_text(encoding="ascii"))
        return Outcome(Kind(values["kind"]), values["status"], tuple(Fault(**fault) for fault in values["faults"]))
    except (OSError, ValueError, KeyError, TypeError):
        return None
