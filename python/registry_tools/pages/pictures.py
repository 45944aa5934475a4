"""Pictures of a desk: what all accounts held over the last days, and who is missing how much. Each is told in a
sentence, too, and no colour tells anything alone."""
import datetime
import math
from collections.abc import Iterator, Mapping, Sequence

from registry_tools.pages.html import Markup, joined, paragraph, tag
from registry_tools.pages.settled import long_date
from registry_tools.second import rules
from registry_tools.texts.in_words import grouped

# The size of a plot, with room for the labels of its axes, in points; so many ticks an axis has at most; and how wide a
# letter of a label is.
WIDTH, HEIGHT, TOP, BOTTOM, RIGHT, TICKS, LETTER = 640, 220, 14, 26, 96, 5, 10
# The lines of kinds, by how they are drawn.
DRAWN = ("line", "line dashed")
BAR = 100
Days = Sequence[tuple[datetime.date, Mapping[str, int]]]


def ticks_of(most: int) -> list[int]:
    """Round numbers from 0 up to at least the largest one, as labels of an axis."""
    rough = max(most, TICKS - 1) / (TICKS - 1)
    power = 10 ** math.floor(math.log10(rough))
    step = next(int(power * of) for of in (1, 2, 2.5, 5, 10) if power * of >= rough and power * of % 1 == 0)
    return [step * place for place in range(-(-max(most, 1) // step) + 1)]


def holdings(days: Days) -> Markup:
    """What all accounts held after each of these days, by kind, as lines over days, in a picture with its sentence."""
    most = max(held for _, amounts in days for held in amounts.values())
    ticks = ticks_of(most)
    left = max(len(grouped(ticks[-1])) * LETTER + 10, 40)

    def across(place: int) -> float:
        return left + (WIDTH - RIGHT - left) * (place / max(len(days) - 1, 1))

    def up(held: int) -> float:
        return HEIGHT - BOTTOM - (HEIGHT - BOTTOM - TOP) * held / ticks[-1]

    parts = [*axis_of_amounts(ticks, left, up), *axis_of_days([date for date, _ in days], across)]
    for drawn, kind in zip(DRAWN, rules.KINDS):
        places = [(across(place), up(amounts[kind])) for place, (_, amounts) in enumerate(days)]
        parts.append(tag("polyline", points=" ".join(f"{x:.1f},{y:.1f}" for x, y in places), class_=drawn))
        for (x, y), (date, amounts) in zip(places, days):
            title = tag("title", f"{kind} after {date}: {grouped(amounts[kind])}")
            parts.append(tag("circle", title, cx=f"{x:.1f}", cy=f"{y:.1f}", r="3", class_="bar"))
        x, y = places[-1]
        parts.append(tag("text", kind, x=f"{x + 8:.1f}", y=f"{y + 4:.1f}", class_="first"))
    told = sentence_of(days)
    picture = tag("svg", *parts, viewBox=f"0 0 {WIDTH} {HEIGHT}", role="img", aria_label=told)
    return joined(tag("figure", tag("figcaption", "What all accounts hold, in allowances"), picture), paragraph(told))


def axis_of_amounts(ticks: list[int], left: float, up: object) -> Iterator[Markup]:
    """The axis of amounts, a line for each of its labels."""
    assert callable(up)
    for amount in ticks:
        y = up(amount)
        yield tag("path", d=f"M{left:.1f},{y:.1f}H{WIDTH - RIGHT}", class_="axis")
        yield tag("text", grouped(amount), x=f"{left - 6:.1f}", y=f"{y + 4:.1f}", text_anchor="end", class_="small")


def axis_of_days(dates: list[datetime.date], across: object) -> Iterator[Markup]:
    """The axis of days, of which some have labels."""
    assert callable(across)
    last = len(dates) - 1
    for place in sorted({round(last * tick / (TICKS - 1)) for tick in range(TICKS)}):
        x = across(place)
        yield tag("path", d=f"M{x:.1f},{HEIGHT - BOTTOM}V{HEIGHT - BOTTOM + 4}", class_="axis")
        label = f"{dates[place].day} {dates[place]:%b}"
        yield tag("text", label, x=f"{x:.1f}", y=HEIGHT - BOTTOM + 17, text_anchor="middle", class_="small")


def sentence_of(days: Days) -> str:
    """What the picture of holdings shows, in words."""
    (first, before), (last, after) = days[0], days[-1]
    told = (f"{grouped(after[kind])} {kind}{change_of(after[kind] - before[kind], first) if len(days) > 1 else ''}"
            for kind in rules.KINDS)  # fmt: skip
    return f"After {long_date(last)} all accounts hold {' and '.join(told)}."


def change_of(change: int, first: datetime.date) -> str:
    """How much more or less that is than after the first day."""
    since = f"after {long_date(first)}"
    if not change:
        return f" (as {since})"
    return f" ({grouped(abs(change))} {'more' if change > 0 else 'less'} than {since})"


def length_of(amount: int, most: int) -> Markup:
    """A bar as long as an amount is of the largest one."""
    frame = tag("rect", x="0.5", y="0.5", width=BAR - 1, height="9", class_="frame")
    bar = tag("rect", x="0", y="0", width=f"{max(BAR * amount / max(most, 1), 1):.1f}", height="10", class_="bar")
    return tag("svg", bar, frame, viewBox=f"0 0 {BAR} 10", preserveAspectRatio="none", class_="length", role="img",
               aria_label=f"{grouped(amount)} of {grouped(most)}")  # fmt: skip
