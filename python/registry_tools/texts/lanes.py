"""Lanes: what each worker executed, in its order, as `bench_workers lanes WORKERS` writes it."""
from collections import deque
from collections.abc import Iterable
from dataclasses import dataclass, field

WORDS = {"own": False, "stolen": True}
MOST_DIGITS = 20


class LanesFault(ValueError):
    """A line is no lane: its number, what was found, and what was expected."""

    def __init__(self, line: int, found: str, expected: str) -> None:
        super().__init__(f"this is no lane of worker {line - 1}: {found}")
        self.line, self.found, self.expected = line, found, expected


@dataclass
class Region:
    """A region that a worker owned: its places in order, whether it came from another worker's deque, and how many
    microseconds it took, if that is told."""

    stolen: bool | None = None
    places: list[int] = field(default_factory=list)
    took: int | None = None

    def in_words(self) -> str:
        """How the worker came by it, and how long it took."""
        whose = "" if self.stolen is None else "stolen" if self.stolen else "own"
        return ", ".join(filter(None, [whose, "" if self.took is None else f"{self.took / 1000:,.3f} ms"]))


def number_of(word: str) -> int | None:
    """The number that a word is."""
    return int(word) if word.isascii() and word.isdigit() and len(word) <= MOST_DIGITS else None


def regions_of(words: list[str]) -> list[Region] | None:
    """The regions of a lane: behind `own` or `stolen` the places of one, and then `took` with its microseconds, or else
    places alone. None if the words say something else."""
    regions: list[Region] = []
    rest = iter(words)
    for word in rest:
        place = number_of(word)
        if word in WORDS:
            regions.append(Region(WORDS[word]))
        elif word == "took" and regions and regions[-1].took is None:
            regions[-1].took = number_of(next(rest, ""))
            if regions[-1].took is None:
                return None
        elif place is not None and (not regions or regions[-1].took is None):
            if not regions:
                regions.append(Region())
            regions[-1].places.append(place)
        else:
            return None
    return regions


def read_regions(text: str) -> list[list[Region]]:
    """The regions of each worker, in the order in which it owned them. Workers count from 0."""
    lanes: list[list[Region]] = []
    for line in text.splitlines():
        number, colon, rest = line.partition(":")
        regions = regions_of(rest.split())
        if not colon or number_of(number) != len(lanes) or regions is None:
            expected = f"worker {len(lanes)}: its number, a colon, and the places that it executed"
            raise LanesFault(len(lanes) + 1, line, expected)
        lanes.append(regions)
    return lanes


def places_of(regions: list[Region]) -> list[int]:
    """The places of a worker, in its order."""
    return [place for region in regions for place in region.places]


def columns_of_lanes(lanes: list[list[int]], arrows: Iterable[tuple[int, int]]) -> dict[int, int] | None:
    """The column of each place: behind those that it waits for, and behind the one before it in its lane. None if the
    lanes do not follow the arrows, which are pairs of a tail and a head."""
    before = [*arrows, *((first, then) for lane in lanes for first, then in zip(lane, lane[1:]))]
    waits = {place: 0 for lane in lanes for place in lane}
    behind: dict[int, list[int]] = {place: [] for place in waits}
    for tail, head in before:
        if tail not in waits or head not in waits:
            return None
        waits[head] += 1
        behind[tail].append(head)
    column = {}
    ready = deque((place, 0) for place, count in waits.items() if not count)
    least = dict.fromkeys(waits, 0)
    while ready:
        place, level = ready.popleft()
        column[place] = level
        for head in behind[place]:
            waits[head] -= 1
            least[head] = max(least[head], level + 1)
            if not waits[head]:
                ready.append((head, least[head]))
    return column if len(column) == len(waits) else None
