"""How a page is shown, and what of its address is asked for. Tables go on in pages and are sorted by their columns.
Page and order stand in the address, so that a link shows the same to a colleague."""
import re
import urllib.parse
from collections.abc import Callable, Collection, Iterable, Sequence
from typing import TypeVar, overload

import flask
from werkzeug.wrappers import Response

from registry_tools import voice
from registry_tools.desk import words
from registry_tools.desk.jobs import KEY
from registry_tools.errors import WordsFault
from registry_tools.office import trial
from registry_tools.pages.beside import item_in_words
from registry_tools.pages.html import Cells, Markup, Table, joined, link, markup, paragraph, sort_key, tag
from registry_tools.questions import receipts

# A row of a table, as far as it is sorted by its cells: what is shown of it may be more.
Row = TypeVar("Row", bound=Cells)
# The word of an address that only fills the form of a page with what was typed.
TYPED = "typed"
NUMBER = re.compile("[1-9][0-9]{0,8}", re.ASCII)
# What is expected of a number.
EXPECTED = {"account": "the number of an account", "year": "a year, as 2024"}
# The words of a form that its page makes; those of a look; and so much of a field is kept in the way back.
OF_PAGE, OF_LOOKS, LONGEST_FIELD = {"token", "once", "state", "shown"}, {"look", "again"}, 200
# Where a command is asked for once more, and by which word of its page, if it cannot be approved any more.
ASKED_AGAIN = {"close": "date", "undo": "day", "release": "day"}
# How many rows of a table a page shows, and how many pages are named beside it.
ROWS, NEAR = 100, 4


def show_page(template: str, title: str, code: int = 200, /, **more: object) -> Response:
    """A page of this template."""
    is_in = "token" in flask.session
    text = flask.render_template("base.html", page=f"{template}.html", title=title, is_in=is_in, **more)
    if 'class="dense' in text or ' dense"' in text:
        # (a page with the widest tables is as wide as they are)
        text = text.replace("<body>", '<body class="broad">', 1)
    return flask.make_response(words.in_sight(text), code)


def asked(name: str) -> str:
    """What a word of the address says, without blanks around it; nothing, if it only fills the form."""
    word: str = flask.request.args.get(name, "")
    return "" if TYPED in flask.request.args else word.strip()


def number_asked(name: str) -> int | None:
    """The number that a word of the address says, if it is there. Raises WordsFault if it is none."""
    word = asked(name)
    if word and not NUMBER.fullmatch(word):
        raise WordsFault(f"{name.capitalize()}: found {word!r}; expected {EXPECTED[name]}")
    return int(word) if word else None


def address(**more: object) -> str:
    """The address of this page with other words in it; with None, without this word."""
    return address_of(flask.request.path, {**flask.request.args.to_dict(), **more})


def address_of(path: str, args: dict[str, object]) -> str:
    """The address of a page with these words in it; with None, without this word."""
    # (not by url_for: words of the address such as _external would be its own)
    given = {key: value for key, value in args.items() if value is not None}
    query = urllib.parse.urlencode(given, True, errors="replace")
    return urllib.parse.quote(path) + (f"?{query}" if query else "")


def form(name: str) -> str:
    """What a field of the form has, without blanks around it."""
    typed: str = flask.request.form.get(name, "")
    return typed.strip()


def back_of_form() -> str:
    """The address of the form that was sent, with what was typed; of a yes, that of the look that it was said to."""
    page = "/" + flask.request.path.split("/")[1]
    if KEY.fullmatch(form("look")):
        return f"{page}/look/{form('look')}"
    if page == "/approve" and form("command") in ASKED_AGAIN:
        # (what is not so any more is asked for once more)
        return address_of(f"/{form('command')}", {ASKED_AGAIN[form("command")]: form("day")})
    fields = flask.request.form.to_dict(flat=False)
    typed = {name: values for name, values in fields.items() if name not in OF_PAGE | OF_LOOKS and any(values)}
    kept = {name: [word[:LONGEST_FIELD] for word in words] for name, words in typed.items()}
    return address_of(page, {**kept})


def outcome(tried: trial.Looked) -> object:
    """The outcome of an instruction; strong, if it is refused, and with what was found."""
    return Markup(f"{tag('strong', tried.said())} {markup(tried.why)}") if tried.is_refused else tried.said()


def row_of_taken(taken: receipts.TakenBack) -> tuple[object, ...]:
    """What was taken back: its place, what it was or, behind the close, its file, who did it, when and why."""
    what = item_in_words(taken.item) if taken.item else f"a row of {taken.part.name}" if taken.part else ""
    return taken.taken.place, what, taken.taken.who, voice.time(taken.taken.at), taken.taken.why


class Part(Sequence[Row]):
    """The rows of a long table of which only those of the page were read, which begin at a place."""

    def __init__(self, length: int, begin: int, rows: Sequence[Row]) -> None:
        self.length, self.begin, self.rows = length, begin, rows

    def __len__(self) -> int:
        return self.length

    @overload
    def __getitem__(self, places: int) -> Row: ...

    @overload
    def __getitem__(self, places: slice) -> Sequence[Row]: ...

    def __getitem__(self, places: int | slice) -> Row | Sequence[Row]:
        if isinstance(places, slice):
            return self.rows[places.start - self.begin : places.stop - self.begin]
        return self.rows[places - self.begin]


def page_of_table(count: int, name: str = "") -> tuple[int, int]:
    """Which page of a table with so many rows the address asks for, and how many there are."""
    last = max(-(-count // ROWS), 1)
    return min(max(flask.request.args.get(f"{name}page", 1, type=int), 1), last), last


def places_shown(count: int) -> range:
    """The places of the rows that the page of the address shows, of so many."""
    number, _ = page_of_table(count)
    return range((number - 1) * ROWS, min(number * ROWS, count))


def sorted_table(
    caption: str,
    columns: Sequence[str],
    rows: Sequence[Row],
    right: Collection[str] = (),
    show: Callable[[Row], Cells] = lambda row: row,
    name: str = "",
    empty: str = "",
) -> Markup:
    """A table; without rows the words that say so, if there are some. `show` makes the cells of rows that are shown.
    Where a page has several, each but the first has a name, which begins its words of the address."""
    if not rows:
        return paragraph(empty) if empty else joined()
    sort, page = f"{name}sort", f"{name}page"
    word = flask.request.args.get(sort, "")
    by = word.removeprefix("-")
    if by in columns:
        place = [*columns].index(by)
        rows = sorted(rows, key=lambda row: sort_key(row[place]), reverse=word.startswith("-"))
    number, last = page_of_table(len(rows), name)
    part = [["" if cell is None else cell for cell in show(row)] for row in rows[(number - 1) * ROWS : number * ROWS]]
    ways = {name: address(**{sort: f"-{name}" if word == name else name, page: None}) for name in columns}
    heads = [link(ways[name], name) if name else name for name in columns] if len(rows) > 1 else None
    counted = f"{caption} ({len(rows):,})" if last > 1 else caption
    table = Table(columns, right, heads=heads).of(counted, part)
    return joined(table, pages_of(page, number, last)) if last > 1 else table


def pages_of(page: str, number: int, last: int) -> Markup:
    """Links to the other pages of a table: the first, the last, and those near."""
    places: Iterable[int] = (place for place in range(1, last + 1) if place in (1, last) or abs(place - number) <= NEAR)
    ways = (tag("strong", place) if place == number else link(address(**{page: place}), place) for place in places)
    return tag("nav", tag("ol", *(tag("li", way) for way in ways)), aria_label="Pages of the table", class_="parts")
