"""What `./day chain` found. One mistake is one line: of many equal differences the first ones are told, and the others
counted."""
import re
from dataclasses import dataclass, field

from registry_tools.errors import FileFault
from registry_tools.notes import BY_HAND, MOST_TOLD

# What equal differences may have that is not equal: numbers, and what stands between quotes.
OWN = re.compile(r"'[^']*'|[0-9]+")


@dataclass
class Kind:
    """Equal differences: how many there are, and in which file."""

    path: str
    count: int = 0

    def __str__(self) -> str:
        return f"{self.path}: and {self.count - MOST_TOLD:,} more like these"


@dataclass
class Findings:
    """What was found, in order: `by_hand` counts what somebody may have changed on purpose, `agreed` what stands in a
    file of changes."""

    lines: list[str | Kind] = field(default_factory=list)
    faults: int = 0
    by_hand: int = 0
    agreed: int = 0
    kinds: dict[tuple[str, ...], Kind] = field(default_factory=dict)

    def add(self, fault: FileFault) -> None:
        """Takes up a fault."""
        self.faults += 1
        self.tell("", fault)

    def add_by_hand(self, fault: FileFault, agreed_in: str = "") -> None:
        """Takes up what somebody changed by hand, as a file of changes says, if one does."""
        if agreed_in:
            self.agreed += 1
            self.tell(f"{BY_HAND}, as {agreed_in} says: ", fault)
        else:
            self.by_hand += 1
            self.tell(f"{BY_HAND}: ", fault)

    def tell(self, start: str, fault: FileFault) -> None:
        """Tells a fault as a line, or counts it where equal ones were told."""
        parts = (start, str(fault.field), str(fault.found), str(fault.expected), fault.way)
        # (a file is named by its path, also if numbers stand in it)
        key = (str(fault.path), *(OWN.sub("#", part) for part in parts))
        kind = self.kinds.setdefault(key, Kind(str(fault.path)))
        kind.count += 1
        if kind.count <= MOST_TOLD:
            self.lines.append(f"{start}{fault}")
        elif kind.count == MOST_TOLD + 1:
            self.lines.append(kind)
