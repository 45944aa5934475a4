"""A band of a picture of boxes and arrows: where each box and each arrow of it lies, and how it is drawn."""
from collections import Counter, defaultdict
from collections.abc import Iterator, Mapping, Sequence
from dataclasses import dataclass
from typing import Hashable, TypeVar

from registry_tools.pages.html import markup

BOX_WIDTH, LINE, PADDING = 136, 14, 6
LETTER = 6.0
# The ports of a box: where arrows leave it, and where they reach it, so that none of the first has the height of one of
# the second.
PORT, FIRST_OUT, FIRST_IN = 14, 7, 14
TRACK, STREET, BAND, MARGIN, CAPTION, UNDER = 7, 12, 18, 2, 16, 8


@dataclass
class Box:
    """A box at a column and a row, both counted from 0, with lines of text. `note` is told where the pointer rests on
    it."""

    column: int
    row: int
    lines: list[str]
    note: str
    name: str
    is_refused: bool = False


@dataclass
class Arrow:
    """An arrow between two boxes, named by their keys, with a label at its head."""

    tail: int
    head: int
    label: str
    note: str


@dataclass
class Names:
    """The names of all rows, or of all columns, if they have names."""

    rows: Sequence[str] = ()
    columns: Sequence[str] = ()


Key = TypeVar("Key", bound=Hashable)
# An arrow by its place among all arrows, and whether the span is at its tail or at its head.
End = tuple[int, str]


def tracks(spans: Mapping[Key, tuple[float, float]]) -> tuple[dict[Key, int], int]:
    """A track for each span, by its key, such that no two on the same track meet; and how many tracks there are."""
    ends: list[float] = []
    track_of: dict[Key, int] = {}
    for key, (low, high) in sorted(spans.items(), key=lambda span: (span[1], str(span[0]))):
        track = next((track for track, end in enumerate(ends) if end < low), len(ends))
        ends[track:] = [high] if track == len(ends) else [high, *ends[track + 1 :]]
        track_of[key] = track
    return track_of, len(ends)


def shifted(place: float) -> str:
    """A place, as a drawing spells it."""
    return f"{place:g}"


class Band:
    """Some columns of a picture: where each of its boxes and arrows lies."""

    def __init__(self, boxes: dict[int, Box], arrows: Sequence[Arrow], columns: range, names: Names) -> None:
        self.boxes, self.row_names, self.column_names = boxes, names.rows, names.columns
        self.first, self.columns = columns.start, len(columns)
        self.rows = len(self.row_names) or 1 + max(box.row for box in boxes.values())
        reaching = {place: arrow for place, arrow in enumerate(arrows) if arrow.head in boxes}
        self.whole = {place: arrow for place, arrow in reaching.items() if arrow.tail in boxes}
        self.short = {place: arrow for place, arrow in reaching.items() if arrow.tail not in boxes}
        self.set_ports()
        self.set_streets()
        self.set_rows()
        self.set_gaps()

    def column(self, key: int) -> int:
        """The column of a box in the band."""
        return self.boxes[key].column - self.first

    def set_ports(self) -> None:
        """Numbers the arrows at each box: those that leave it, and those that reach it."""
        self.port_out, self.port_in = dict[int, int](), dict[int, int]()
        out, into = Counter[int](), Counter[int]()
        for place, arrow in sorted({**self.whole, **self.short}.items()):
            self.port_in[place] = into[arrow.head]
            into[arrow.head] += 1
        for place, arrow in sorted(self.whole.items()):
            self.port_out[place] = out[arrow.tail]
            out[arrow.tail] += 1
        self.ports = {key: max(out[key], into[key]) for key in self.boxes}

    def set_streets(self) -> None:
        """Chooses the street of each arrow that passes a column, and its track there."""
        spans: defaultdict[int, dict[int, tuple[float, float]]] = defaultdict(dict)
        self.street: dict[int, int] = {}
        for place, arrow in self.whole.items():
            left, right = self.column(arrow.tail) + 1, self.column(arrow.head)
            if left < right:
                row, to = self.boxes[arrow.tail].row, self.boxes[arrow.head].row
                street = to + 1 if to < row else to
                self.street[place] = street
                spans[street][place] = (left, right)
        self.street_track: dict[int, int] = {}
        self.street_tracks: Counter[int] = Counter()
        for street, in_street in spans.items():
            track_of, self.street_tracks[street] = tracks(in_street)
            self.street_track.update(track_of)

    def set_rows(self) -> None:
        """The heights of rows and streets, from the top of the band."""
        self.tops, self.streets, self.heights = list[int](), list[int](), list[int]()
        y = CAPTION if self.column_names else 0
        for row in range(self.rows + 1):
            self.streets.append(y)
            name = CAPTION if self.row_names and row < self.rows else 0
            y += name + STREET + TRACK * self.street_tracks[row]
            if row < self.rows:
                in_row = [key for key, box in self.boxes.items() if box.row == row]
                lines = max((len(self.boxes[key].lines) for key in in_row), default=3)
                ports = max((self.ports[key] for key in in_row), default=0)
                self.tops.append(y)
                self.heights.append(max(2 * PADDING + LINE * lines, FIRST_IN + PORT * ports + 2))
                y += self.heights[-1] + (UNDER if self.row_names else 0)
        self.height = y

    def is_straight(self, arrow: Arrow) -> bool:
        """Whether the arrow leads to the next box of its row."""
        tail, head = self.boxes[arrow.tail], self.boxes[arrow.head]
        return (head.column, head.row) == (tail.column + 1, tail.row)

    def y_out(self, place: int, arrow: Arrow) -> float:
        """How high an arrow leaves its box."""
        if self.is_straight(arrow):
            return self.y_in(place, arrow)
        return self.tops[self.boxes[arrow.tail].row] + FIRST_OUT + PORT * self.port_out[place]

    def y_in(self, place: int, arrow: Arrow) -> float:
        """How high an arrow enters its box."""
        return self.tops[self.boxes[arrow.head].row] + FIRST_IN + PORT * self.port_in[place]

    def y_street(self, place: int) -> float:
        """How high an arrow runs in its street."""
        street = self.street[place]
        name = CAPTION if self.row_names and street < self.rows else 0
        return self.streets[street] + name + STREET / 2 + TRACK * self.street_track[place]

    def set_gaps(self) -> None:
        """The tracks of each gap, and how wide the gap is: the tracks, and behind them the labels of the arrows'
        heads."""
        spans: defaultdict[int, dict[End, tuple[float, float]]] = defaultdict(dict)
        labels: Counter[int] = Counter()
        for place, arrow in self.whole.items():
            left, right = self.column(arrow.tail) + 1, self.column(arrow.head)
            start, end = self.y_out(place, arrow), self.y_in(place, arrow)
            if left == right and start != end:
                spans[left][place, "out"] = (min(start, end), max(start, end))
            elif left != right:
                street = self.y_street(place)
                spans[left][place, "out"] = (min(start, street), max(start, street))
                spans[right][place, "in"] = (min(end, street), max(end, street))
            labels[right] = max(labels[right], len(arrow.label))
        for place, arrow in self.short.items():
            column = self.column(arrow.head)
            labels[column] = max(labels[column], len(arrow.label))
        self.track_of: dict[End, float] = {}
        self.starts: list[float] = []
        x = 0.0
        for gap in range(self.columns):
            track_of, count = tracks(spans[gap])
            for key, track in track_of.items():
                self.track_of[key] = x + 8 + TRACK * track
            between = 8 + TRACK * count if gap else 0
            x += between + (14 + LETTER * labels[gap] if labels[gap] else 14 if gap else 0)
            self.starts.append(x)
            x += BOX_WIDTH
        self.width = x

    # Drawing.

    def path(self, place: int, arrow: Arrow) -> str:
        """The way of an arrow."""
        if self.is_straight(arrow):
            left, right = self.starts[self.column(arrow.tail)] + BOX_WIDTH, self.starts[self.column(arrow.head)]
            return f"M{shifted(left)},{shifted(self.y_in(place, arrow))}H{shifted(right)}"
        start = f"M{shifted(self.starts[self.column(arrow.tail)] + BOX_WIDTH)},{shifted(self.y_out(place, arrow))}"
        way = f"{start}H{shifted(self.track_of[place, 'out'])}"
        if place in self.street:
            way += f"V{shifted(self.y_street(place))}H{shifted(self.track_of[place, 'in'])}"
        return f"{way}V{shifted(self.y_in(place, arrow))}H{shifted(self.starts[self.column(arrow.head)])}"

    def arrow(self, place: int, edge: Arrow, way: str) -> str:
        """An arrow on its way, with its label."""
        x, y = self.starts[self.column(edge.head)], self.y_in(place, edge)
        head = f'<path class="head" d="M{shifted(x)},{shifted(y)}l-6,-3v6z"/>'
        place_of_label = f'x="{shifted(x - 8)}" y="{shifted(y - 3)}"'
        label = f'<text class="small" {place_of_label} text-anchor="end">{markup(edge.label)}</text>'
        return f'<g><title>{markup(edge.note)}</title><path class="arrow" d="{way}"/>{head}{label}</g>'

    def short_way(self, place: int, arrow: Arrow) -> str:
        """The way of an arrow from a box that is not in the band."""
        x = self.starts[self.column(arrow.head)]
        return f"M{shifted(x - 10 - LETTER * len(arrow.label))},{shifted(self.y_in(place, arrow))}H{shifted(x)}"

    def box(self, box: Box) -> str:
        """A box with its lines."""
        x, y = self.starts[box.column - self.first], self.tops[box.row]
        height = self.heights[box.row]
        middle, top = x + BOX_WIDTH / 2, y + PADDING + 10
        drawn = (line_of(text, middle, top + LINE * place, not place) for place, text in enumerate(box.lines))
        frame = f'<rect class="box" x="{shifted(x)}" y="{shifted(y)}" width="{BOX_WIDTH}" height="{height}" rx="3"/>'
        kind = ' class="refused"' if box.is_refused else ""
        return f"<g{kind}><title>{markup(box.note)}</title>{frame}{''.join(drawn)}</g>"

    def lanes(self) -> Iterator[str]:
        """The lane behind each row that has a name."""
        for row, name in enumerate(self.row_names):
            top, bottom = self.streets[row] + 2, self.tops[row] + self.heights[row] + UNDER - 2
            size = f'width="{shifted(self.width)}" height="{shifted(bottom - top)}"'
            yield f'<rect class="lane" x="0" y="{shifted(top)}" {size}/>'
            yield f'<text x="4" y="{shifted(top + 12)}">{markup(name)}</text>'

    def heads(self) -> Iterator[str]:
        """The name above each column."""
        for place, x in enumerate(self.starts if self.column_names else ()):
            name = markup(self.column_names[self.first + place])
            yield f'<text class="small" x="{shifted(x + BOX_WIDTH / 2)}" y="12" text-anchor="middle">{name}</text>'

    def parts(self) -> Iterator[str]:
        """All that is drawn, what lies below first."""
        yield from self.lanes()
        yield from self.heads()
        yield from (self.arrow(place, arrow, self.path(place, arrow)) for place, arrow in self.whole.items())
        yield from (self.arrow(place, arrow, self.short_way(place, arrow)) for place, arrow in self.short.items())
        yield from (self.box(box) for _, box in sorted(self.boxes.items(), key=lambda box: str(box[0])))


def line_of(text: str, x: float, y: float, is_first: bool) -> str:
    """A line of a box; a long one is drawn closer, so that it fits."""
    room = BOX_WIDTH - 2 * PADDING
    fitted = f' textLength="{room}" lengthAdjust="spacingAndGlyphs"' if len(text) * LETTER > room else ""
    first = ' class="first"' if is_first else ""
    return f'<text{first} x="{shifted(x)}" y="{shifted(y)}" text-anchor="middle"{fitted}>{markup(text)}</text>'
