"""Reads HTML pages back, for the tests: whether they are well formed, and what their tables, links and pictures say."""
import re
from collections.abc import Iterator
from dataclasses import dataclass, field
from html.parser import HTMLParser

# The attributes of an element, as the parser gives them, and by name. One without a value counts as empty.
Attributes = list[tuple[str, str | None]]
Named = dict[str, str]
# A rectangle, or a straight step: the places of its two ends.
Box = tuple[float, float, float, float]

VOID = {"meta", "link", "br", "hr", "img", "input"}
# What a page that stands alone never has: scripts, and what would be fetched.
FORBIDDEN = {"script", "iframe", "object", "embed", "link", "img", "form"}
PATH_STEP = re.compile(r"([MHV])(-?[0-9.]+)(?:,(-?[0-9.]+))?")


@dataclass
class Table:
    """A table: its caption, the words of its head, and the words of the cells of its rows."""

    caption: str = ""
    head: list[str] = field(default_factory=list)
    rows: list[list[str]] = field(default_factory=list)

    def columns(self, *names: str) -> list[tuple[str, ...]]:
        """The cells of these columns, a tuple for each row."""
        places = [self.head.index(name) for name in names]
        return [tuple(row[place] for place in places) for row in self.rows]


@dataclass
class Group:
    """A band of a picture: the rectangles of its boxes, and the steps of its arrows as pairs of points."""

    boxes: list[Box] = field(default_factory=list)
    steps: list[Box] = field(default_factory=list)


class Page(HTMLParser):
    """A page that was read. `faults` says what is wrong with its form."""

    forbidden = FORBIDDEN

    def __init__(self, text: str) -> None:
        super().__init__(convert_charrefs=True)
        self.faults: list[str] = []
        # The elements that are open, the innermost last.
        self.open: list[str] = []
        self.ids: list[str] = []
        self.hrefs: list[str] = []
        self.words: list[str] = []
        self.headings: list[str] = []
        self.tables: list[Table] = []
        self.pictures = 0
        self.groups: list[Group] = []
        # The row of a table that is open, and the words of its cell.
        self.row: list[str] = []
        self.cell: list[str] | None = None
        self.scope: str | None = None
        if not text.startswith("<!DOCTYPE html>\n"):
            self.faults.append("no <!DOCTYPE html>")
        self.feed(text)
        self.close()
        self.faults += [f"<{name}> is not closed" for name in self.open]
        self.faults += [f"the id {name} stands twice" for name in {*self.ids} if self.ids.count(name) > 1]
        for table in self.tables:
            self.look_at_table(table)

    def look_at_table(self, table: Table) -> None:
        if not table.head:
            self.faults.append(f"the table {table.caption!r} has no head")
        if any(len(row) != len(table.head) for row in table.rows):
            self.faults.append(f"a row of {table.caption!r} has not as many cells as its head")

    @property
    def text(self) -> str:
        return " ".join(" ".join(self.words).split())

    @property
    def text_by_tags(self) -> list[str]:
        """The words of the page that stand between two tags each."""
        return [" ".join(word.split()) for word in self.words if word.strip()]

    @property
    def text_by_lines(self) -> str:
        """The text of the page, with the lines that its source has."""
        return "\n".join(" ".join(line.split()) for line in "".join(self.words).splitlines())

    def table(self, start: str) -> Table:
        """The one table whose caption begins so."""
        found = [table for table in self.tables if table.caption.startswith(start)]
        if len(found) != 1:
            raise AssertionError(f"{len(found)} tables are called {start!r}: {[own.caption for own in self.tables]}")
        return found[0]

    # Elements.

    def handle_starttag(self, name: str, attributes: Attributes) -> None:
        of = named(attributes)
        if name in self.forbidden or any(attribute.startswith("on") or attribute == "src" for attribute in of):
            self.faults.append(f"<{name}> with {[*of]}")
        if name == "a" and "a" in self.open:
            self.faults.append(f"a link to {of.get('href')} in a link")
        if "id" in of:
            self.ids.append(of["id"])
        if "href" in of:
            self.hrefs.append(of["href"])
        if name not in VOID:
            self.open.append(name)
        own = getattr(self, f"begin_{name}", None)
        if own:
            own(of)

    def handle_startendtag(self, name: str, attributes: Attributes) -> None:
        # (only elements of pictures are written so)
        if "svg" not in self.open:
            self.faults.append(f"<{name}/> outside of a picture")
        self.draw(name, named(attributes))

    def handle_endtag(self, name: str) -> None:
        if not self.open or self.open[-1] != name:
            self.faults.append(f"</{name}> closes <{self.open[-1] if self.open else 'nothing'}>")
        else:
            self.open.pop()
        if name in ("td", "th", "caption", "h1", "h2", "h3"):
            self.end_cell(name)

    def handle_data(self, data: str) -> None:
        if self.open and self.open[-1] == "style":
            return
        if "style" not in self.open:
            self.words.append(data)
        if self.cell is not None:
            self.cell.append(data)

    def begin_table(self, _: Named) -> None:
        self.tables.append(Table())

    def begin_tr(self, _: Named) -> None:
        self.row = []

    def begin_cell(self, of: Named) -> None:
        self.cell, self.scope = [], of.get("scope")

    begin_td = begin_th = begin_caption = begin_h1 = begin_h2 = begin_h3 = begin_cell

    def end_cell(self, name: str) -> None:
        words = " ".join("".join(self.cell or []).split())
        self.cell = None
        if name.startswith("h"):
            self.headings.append(words)
        elif name == "caption":
            self.tables[-1].caption = words
        elif "thead" in self.open:
            self.tables[-1].head.append(words)
            if name != "th" or self.scope != "col":
                self.faults.append(f"a head {words!r} without its scope")
        else:
            if name == "th" and self.scope != "row":
                self.faults.append(f"a head {words!r} without its scope")
            if not self.row:
                self.tables[-1].rows.append(self.row)
                if name != "th":
                    self.faults.append(f"a row begins with {words!r}, which is no head")
            self.row.append(words)

    # Pictures.

    def begin_svg(self, of: Named) -> None:
        self.pictures += 1
        self.is_titled = False
        if of.get("role") != "img":
            self.faults.append("a picture without its role")

    def begin_title(self, _: Named) -> None:
        self.is_titled = True

    def begin_g(self, of: Named) -> None:
        if "transform" in of:
            self.groups.append(Group())

    def draw(self, name: str, of: Named) -> None:
        if not self.is_titled:
            self.faults.append("a picture without a title")
        if name == "rect" and of.get("class") == "box" and self.groups:
            x, y, width, height = (float(of[name]) for name in ("x", "y", "width", "height"))
            self.groups[-1].boxes.append((x, y, x + width, y + height))
        elif name == "path" and of.get("class") == "arrow" and self.groups:
            self.groups[-1].steps += steps_of(of["d"])

    def arrows_behind_boxes(self) -> list[tuple[Box, Box]]:
        """The steps of arrows that run through a box."""
        return [
            (step, box)
            for group in self.groups
            for step in group.steps
            for box in group.boxes
            if runs_through(step, box)
        ]


def named(attributes: Attributes) -> Named:
    return {name: value or "" for name, value in attributes}


def steps_of(path: str) -> Iterator[Box]:
    """The straight steps of a path, each as its two ends."""
    x = y = 0.0
    for letter, first, second in PATH_STEP.findall(path):
        before = (x, y)
        if letter == "M":
            x, y = float(first), float(second)
            continue
        x, y = (float(first), y) if letter == "H" else (x, float(first))
        yield *before, x, y


def runs_through(step: Box, box: Box) -> bool:
    """Whether a step passes through the inside of a box."""
    x, y, to_x, to_y = step
    left, top, right, bottom = box
    return (
        max(x, to_x) > left + 0.5
        and min(x, to_x) < right - 0.5
        and max(y, to_y) > top + 0.5
        and min(y, to_y) < bottom - 0.5
    )
