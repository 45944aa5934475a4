"""An account of a book, as the block of its rows in a text."""
from dataclasses import dataclass

from registry_tools.second import rules
from registry_tools.texts.rows import Rows


@dataclass
class Block:
    """An account of a book: its number, and where its rows stand."""

    __slots__ = ("number", "source", "index", "count")
    number: int
    source: Rows
    index: int
    count: int

    @property
    def rows(self) -> list[str]:
        """The rows of the account."""
        return self.source.rows[self.index : self.index + self.count]

    @property
    def list_rows(self) -> list[str]:
        """The rows behind the `account` row."""
        return self.source.rows[self.index + 1 : self.index + self.count]

    @property
    def kind(self) -> str:
        """The kind of the account."""
        return self.source.rows[self.index].split(",", 3)[2]

    @property
    def holder(self) -> int:
        """The holder of the account."""
        return int(self.source.rows[self.index].split(",", 4)[3])

    @property
    def held_fields(self) -> list[str]:
        """What the account holds, as its row says it: general and aviation."""
        return self.source.rows[self.index].split(",", 10)[8:10]

    @property
    def line(self) -> int:
        """The line of its first row."""
        return self.source.line(self.index)

    def line_of(self, place: int) -> int:
        """The line of a row of the block, whose first row has the place 0."""
        return self.source.line(self.index + place)

    @property
    def behind(self) -> int:
        """The place of the row behind the account."""
        return self.index + self.count

    def account(self) -> rules.Account:
        """The account that the rows tell."""
        return rules.account_of(row.split(",") for row in self.rows)
