"""Turns the Markdown of docs/ into HTML: headings, paragraphs, lists, tables, code, links and emphasis, and nothing
else."""
import re
from collections.abc import Callable

from registry_tools.pages.html import Markup, joined, markup, tag

HEADING = re.compile(r"(#{1,4}) (.+)")
POINT = re.compile(r"(-|[0-9]+\.) +(.*)")
CELLS = re.compile(r"(?<!\\)\|")
CODE_INDENT = "    "
# Tables of more columns are stacked in narrow windows, and those of many have small letters.
FEW, MANY = 2, 12
INLINE = re.compile(
    r"`(?P<code>[^`]+)`|!?\[(?P<words>[^\]]*)\]\((?P<target>[^)\s]*)\)|\*\*(?P<bold>[^*]+)\*\*"
    r"|\*(?P<stressed>[^*\s][^*]*)\*"
)


# What answers the id of a row of a table, from the cells of the head and of the row.
RowId = Callable[[list[str], list[str]], str | None]


def anchor_of(words: str) -> str:
    """The name by which links find a heading."""
    return re.sub(r"[^\w\- ]", "", words.lower()).replace(" ", "-")


class Markdown:
    """A text in Markdown. `target_of` answers where a link of it leads now, or None if its words stand there alone."""

    def __init__(self, text: str, target_of: Callable[[str], str | None]) -> None:
        without_comments = re.sub(r"<!--.*?-->\n?", "", text, flags=re.DOTALL)
        self.lines, self.target_of = without_comments.split("\n"), target_of
        self.place = 0

    # Words.

    def inline(self, words: str) -> Markup:
        """The words of a paragraph or a cell."""
        parts: list[str] = []
        behind = 0
        for match in INLINE.finditer(words):
            parts += [markup(words[behind : match.start()]), self.element(match)]
            behind = match.end()
        return Markup("".join([*parts, markup(words[behind:])]))

    def element(self, match: re.Match[str]) -> Markup:
        if match["code"]:
            return tag("code", match["code"])
        if match["bold"]:
            return tag("strong", self.inline(match["bold"]))
        if match["stressed"]:
            return tag("em", self.inline(match["stressed"]))
        target = self.target_of(match["target"])
        return tag("a", self.inline(match["words"]), href=target) if target else self.inline(match["words"])

    # Blocks.

    def peek(self) -> str | None:
        return self.lines[self.place] if self.place < len(self.lines) else None

    def take_while(self, fits: Callable[[str], bool]) -> list[str]:
        """The next lines that fit."""
        begun = self.place
        while (line := self.peek()) is not None and fits(line):
            self.place += 1
        return self.lines[begun : self.place]

    def html(self, row_id: RowId = lambda head, cells: None) -> Markup:
        """The whole text."""
        self.row_id = row_id
        blocks: list[Markup] = []
        while (line := self.peek()) is not None:
            if not line.strip():
                self.place += 1
            else:
                blocks.append(self.block(line))
        return joined(*blocks)

    def block(self, line: str) -> Markup:
        heading = HEADING.fullmatch(line)
        if heading:
            self.place += 1
            return tag(f"h{len(heading[1])}", self.inline(heading[2]), id=anchor_of(heading[2]))
        if line.startswith("```"):
            return self.fenced()
        if line.startswith(CODE_INDENT):
            rows = self.take_while(lambda line: line.startswith(CODE_INDENT))
            return tag("pre", "\n".join(row[len(CODE_INDENT) :] for row in rows))
        if line.startswith("|"):
            return self.table()
        if POINT.fullmatch(line):
            return self.points(is_numbered=not line.startswith("-"))
        return tag("p", self.inline(" ".join(self.take_while(self.is_of_paragraph))))

    def is_of_paragraph(self, line: str) -> bool:
        return bool(line.strip()) and not line.startswith(("|", "```", "#")) and not POINT.fullmatch(line)

    def fenced(self) -> Markup:
        self.place += 1
        rows = self.take_while(lambda line: not line.startswith("```"))
        self.place += 1
        return tag("pre", "\n".join(rows))

    def points(self, is_numbered: bool) -> Markup:
        points = []
        while point := POINT.fullmatch(self.peek() or ""):
            self.place += 1
            more = self.take_while(lambda line: line.startswith("  ") and bool(line.strip()))
            points.append(tag("li", self.inline(" ".join([point[2], *map(str.strip, more)]))))
            self.take_while(lambda line: not line.strip())
        return tag("ol" if is_numbered else "ul", *points)

    def table(self) -> Markup:
        head, rule, *rows = map(cells_of, self.take_while(lambda line: line.startswith("|")))
        columns = tag("thead", tag("tr", *(tag("th", self.inline(cell), scope="col") for cell in head)))
        body = tag("tbody", *(self.row(head, row) for row in rows))
        kind = "many small" if len(head) > MANY else "small" if len(head) > FEW else None
        return tag("table", columns, body, class_=kind)

    def row(self, head: list[str], cells: list[str]) -> Markup:
        labels = [re.sub(r"[*`]", "", cell) for cell in head]
        first = tag("th", self.inline(cells[0]), scope="row", data_label=labels[0])
        more = (tag("td", self.inline(cell), data_label=label) for cell, label in zip(cells[1:], labels[1:]))
        return tag("tr", first, *more, id=self.row_id(head, cells))


def cells_of(line: str) -> list[str]:
    """The cells of a line of a table."""
    return [cell.strip().replace("\\|", "|") for cell in CELLS.split(line.strip()[1:-1])]
