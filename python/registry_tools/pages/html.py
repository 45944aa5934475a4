"""HTML in Python: elements whose texts are escaped, tables with heads, and the frame that all pages have."""
import functools
import re
from collections.abc import Callable, Collection, Iterable, Mapping, Sequence
from html import escape
from pathlib import Path

SPECIAL = re.compile("[&<>\"']")
TAGS = re.compile("<[^>]*>")
SIGNED = re.compile("[-+]?[0-9]{1,30}")
# A table with so few letters beside each other fits everywhere. The rows of another one are stacked, with the name of
# the column before each cell, where the window is too narrow: by the class of the table, for how many letters it is,
# and in which windows. The rows of a table with still more letters are stacked everywhere.
FITS, BETWEEN = 38, 2
ROOMS = {"small": (60, "44rem"), "middle": (92, "62rem"), "dense": (145, "78rem")}
EVERYWHERE = "everywhere"
MANY_ROWS = 100
# A word that is longer, and neither a number nor a date, is broken where there is no room, so that somebody's long name
# stacks no table.
LONGEST_WORD = 40
# Cells of these columns are not broken.
DATES = {"Day", "At", "Proposed", "Due", "In effect from"}


# The cells of a row: texts, elements, or what else has words.
Cells = Sequence[object]


class Markup(str):
    """A text that is HTML already."""

    def __html__(self) -> str:
        """Tells it to those who ask before they escape a text."""
        return self


def markup(words: object) -> str:
    """A text as HTML: escaped, if it is not HTML already."""
    if type(words) is Markup:
        return words
    text = str(words)
    # (most texts have nothing to escape, and looking is quicker)
    return escape(text) if SPECIAL.search(text) else text


def attributes_of(attributes: Mapping[str, object]) -> str:
    """The attributes of a start tag. `class_` is class, `_` is a hyphen; those without a value are left out."""
    written = ((name.rstrip("_").replace("_", "-"), value) for name, value in attributes.items())
    return "".join(f' {name}="{escape(str(value))}"' for name, value in written if value is not None)


def tag(name: str, *children: object, **attributes: object) -> Markup:
    """An element with these children: texts, or elements."""
    inner = "".join(map(markup, children))
    return Markup(f"<{name}{attributes_of(attributes) if attributes else ''}>{inner}</{name}>")


@functools.lru_cache(maxsize=1_000)
def heading(words: str) -> Markup:
    """The heading of a section."""
    return tag("h2", words)


def joined(*parts: object) -> Markup:
    """Elements one after another, a line each."""
    return Markup("\n".join(map(markup, parts)))


def link(target: str, words: object, **attributes: object) -> Markup:
    """A link."""
    return tag("a", words, href=target, **attributes)


def paragraph(*children: object, **attributes: object) -> Markup:
    """A paragraph."""
    return tag("p", *children, **attributes)


def items(rows: Iterable[object]) -> Markup:
    """A list of points."""
    return tag("ul", *(tag("li", row) for row in rows))


def facts(pairs: Iterable[tuple[object, object]]) -> Markup:
    """Names and what they are, a line each. Pairs without a value are left out."""
    shown = (tag("div", tag("dt", name), tag("dd", value)) for name, value in pairs if value not in (None, ""))
    return tag("dl", *shown)


def words_in_cell(cell: object) -> str:
    """The words of a cell."""
    return TAGS.sub("", cell) if type(cell) is Markup else str(cell)


def sort_key(cell: object) -> tuple[bool, int, str]:
    """Numbers by what they are, and behind them words."""
    text = words_in_cell(cell)
    digits = text.replace(",", "")
    return (False, int(digits), "") if SIGNED.fullmatch(digits) else (True, 0, text)


def letters_of(columns: Sequence[str], right: Collection[str], rows: Sequence[Cells]) -> int:
    """How many letters stand beside each other in the row of a table: all of a number, and of another cell the longest
    word, as far as it is not broken."""
    # Numbers differ from row to row. Of other cells the first and the last ones show how long they are.
    looked_at, needed = [*rows[:MANY_ROWS], *rows[-MANY_ROWS:]], 0
    for place, name in enumerate(columns):
        cells = {words_in_cell(row[place]) for row in (rows if name in right else looked_at)}
        is_whole = name in right or name in DATES
        words = cells if is_whole else {word[:LONGEST_WORD] for cell in cells for word in cell.split()}
        needed += max(map(len, {*words, *name.split()})) + BETWEEN
    return needed


def room_of(letters: int) -> str | None:
    """The class of a table with so many letters beside each other; nothing if it fits everywhere."""
    if letters <= FITS:
        return None
    return next((name for name, (most, _) in ROOMS.items() if letters <= most), EVERYWHERE)


class Table:
    """The head of a table: its columns, of which those of `right` hold numbers. The first column names each row."""

    def __init__(
        self, columns: Sequence[str], right: Collection[str] = (), is_short: bool = False,
        heads: Sequence[object] | None = None,
    ) -> None:  # fmt: skip
        """`heads` stand over the columns in place of their names."""
        self.columns, self.right, self.is_short = columns, right, is_short
        kinds = ("n" if column in right else None for column in columns)
        cells = [tag("th", head, scope="col", class_=kind) for kind, head in zip(kinds, heads or columns)]
        self.head = tag("thead", tag("tr", *cells))
        self.starts = [self.start(place, column) for place, column in enumerate(columns)]
        self.end = "</td>" if len(columns) > 1 else "</th>"

    def start(self, place: int, column: str) -> str:
        """The end tag of the cells of the column before, and the start tag of those of a column."""
        name, scope = ("th", "row") if place == 0 else ("td", None)
        kind = "n" if column in self.right else "d" if column in DATES else None
        end = "" if place == 0 else "</th>" if place == 1 else "</td>"
        return f"{end}<{name}{attributes_of({'scope': scope, 'class': kind, 'data_label': column})}>"

    def row(self, cells: Cells) -> str:
        """A row of the table."""
        pairs = zip(self.starts, cells)
        return f"<tr>{''.join([start + markup(cell) for start, cell in pairs])}{self.end}</tr>"

    def of(self, caption: object, rows: Iterable[Cells], foot: Sequence[Cells] = ()) -> Markup:
        """The whole table. `rows` and `foot` hold the cells of each row."""
        rows = [*rows]
        room = room_of(letters_of(self.columns, self.right, [*rows, *foot]))
        classes = " ".join(filter(None, ["short" if self.is_short else "", room]))
        attributes = f' class="{classes}"' if classes else ""
        body = "\n".join(self.row(cells) for cells in rows)
        last = f"\n<tfoot>{''.join(self.row(cells) for cells in foot)}</tfoot>" if foot else ""
        of_caption = f"<caption>{markup(caption)}</caption>"
        return Markup(f"<table{attributes}>{of_caption}{self.head}\n<tbody>{body}</tbody>{last}</table>")


def table(
    caption: object, columns: Sequence[str], rows: Iterable[Cells], right: Collection[str] = (),
    foot: Sequence[Cells] = (), is_short: bool = False,
) -> Markup:  # fmt: skip
    """A table that is drawn once. A short one has only as much room as a paragraph."""
    return Table(columns, right, is_short).of(caption, rows, foot)


@functools.lru_cache(maxsize=None)
def style_of(*names: str) -> str:
    """Style sheets of this folder, without blanks that say nothing."""
    text = " ".join(Path(__file__).with_name(f"{name}.css").read_text(encoding="utf-8") for name in names)
    return re.sub(r"\s*([{};,])\s*", r"\1", " ".join(text.split()))


def stacked(name: str, page: str = "body") -> str:
    """The style of tables of this class, whose rows are stacked. A page with the widest tables is as wide as they
    are: `page` selects it."""
    rules = style_of("stack").replace(".stack", f".{name}")
    if name == EVERYWHERE:
        return rules
    width = ROOMS[name][1]
    wider = f"@media screen{{{page}{{max-width:{width}}}}}" if name == "dense" else ""
    return f"{wider}@media screen and (max-width:{width}){{{rules}}}"


# What only some pages need: by a word that stands on such a page, its style.
PARTS: dict[str, Callable[[], str]] = {
    "<svg": lambda: style_of("picture"),
    **{f'{name}"': functools.partial(stacked, name) for name in (*ROOMS, EVERYWHERE)},
}


class Frame:
    """What all pages of a folder have around them: the links to each other, and the style. Nothing is fetched, and no
    script runs: the policy in the head forbids it."""

    def __init__(self, sections: Sequence[tuple[str, str]]) -> None:
        """`sections` has the file and the name of each page that all pages link to."""
        self.sections = sections
        self.starts: dict[tuple[object, ...], str] = {}

    def navigation(self, root: str, current: str | None) -> Markup:
        """The links to the sections, of which one is the current one."""
        rows = ((f"{root}{file}", name, "page" if file == current else None) for file, name in self.sections)
        links = (tag("li", link(file, name, aria_current=page)) for file, name, page in rows)
        return tag("nav", tag("ul", *links), aria_label="Pages")

    def start(self, root: str, current: str | None, parts: Sequence[str], is_across: bool) -> str:
        """What stands between the title and the content."""
        key = (root, current, is_across, *parts)
        if key not in self.starts:
            style = style_of("colours", "style") + "".join(PARTS[part]() for part in parts)
            body = f"<body{ACROSS if is_across else ''}>\n{SKIP}\n{self.navigation(root, current)}\n"
            self.starts[key] = f"<style>{style}</style>\n</head>\n{body}"
        return self.starts[key]

    def page(
        self, title: object, *body: object, root: str = "", current: str | None = None, note: object = "",
        is_across: bool = False,
    ) -> str:  # fmt: skip
        """A page of the folder; `root` leads from it to the folder. It prints on A4, and if it is so, across."""
        content = joined(*body)
        behind = self.start(root, current, [part for part in PARTS if part in content], is_across)
        name = markup(title)
        foot = f"<footer>{paragraph(note)}</footer>\n" if note else ""
        main = f'<main id="main">\n<h1>{name}</h1>\n{content}\n</main>\n'
        return f"{HEAD}<title>{name}</title>\n{behind}{main}{foot}</body>\n</html>\n"


HEAD = """<!DOCTYPE html>
<html lang="en">
<head>
<meta charset="utf-8">
<meta name="viewport" content="width=device-width, initial-scale=1">
<meta name="color-scheme" content="light dark">
<meta http-equiv="Content-Security-Policy" content="default-src 'none'; style-src 'unsafe-inline'">
"""
SKIP, ACROSS = '<a class="skip" href="#main">To the content</a>', ' class="across"'
