"""How many allowances there are over several days, and what changed that."""
from dataclasses import dataclass

from registry_tools.errors import FileFault
from registry_tools.findings import Findings
from registry_tools.texts.books import Movements
from registry_tools.texts.report import Report


@dataclass
class Balance:
    """How many allowances of a kind there are, held and surrendered together, and what changed that."""

    begin: int
    created: int = 0
    deleted: int = 0
    undeleted: int = 0
    by_hand: int = 0
    # How many more than expected there are, or fewer, as was told before.
    told: int = 0

    @property
    def expected(self) -> int:
        """What there has to be at the end."""
        return self.begin + self.created - self.deleted + self.undeleted + self.by_hand

    def in_words(self, kind: str, end: int) -> str:
        """The line that tells a balance, and whether it is what is there at the end."""
        changes = f"+ {self.created:,} created - {self.deleted:,} deleted + {self.undeleted:,} undeleted"
        by_hand = f"{'+' if self.by_hand >= 0 else '-'} {abs(self.by_hand):,} by hand"
        sentence = f"{kind}: {self.begin:,} before {changes} {by_hand} = {self.expected:,}"
        return sentence if self.expected == end else f"{sentence}, but there are {end:,}"


def count_changes(report: Report, balances: dict[str, Balance]) -> None:
    """Adds what the log of a day created, deleted and undeleted."""
    moved = Movements(report)
    for kind, balance in balances.items():
        balance.created += moved.created[kind]
        balance.deleted += moved.deleted[kind]
        balance.undeleted += moved.undeleted[kind]


def look_at_allowances(balances: dict[str, Balance], report: Report, end: dict[str, int], found: Findings) -> None:
    """Whether the allowances of a report are those that there have to be. What is wrong once is told once."""
    for kind, balance in balances.items():
        if end[kind] != balance.expected + balance.told:
            expected = f"{balance.expected + balance.told} by the days so far: {balance.in_words(kind, end[kind])}"
            line = report.totals_line(kind)
            found.add(FileFault(report.path, line, "HELD and SURRENDERED", end[kind], expected))
            balance.told = end[kind] - balance.expected
