"""The page of the workers: who owned and executed what. Which worker executes what differs from run to run, and is in
no report: it comes from a text of lanes, with a line for each worker, which has the regions that it owned."""
from collections import Counter
from collections.abc import Iterator

from registry_tools.errors import FileFault, shown
from registry_tools.pages.grid import Box, Names
from registry_tools.pages.html import Markup, paragraph, table, tag
from registry_tools.pages.plan import MOST_BOXES, Task, arrows_of, bars, both, box_of, figure, plan_of
from registry_tools.pages.rulebook import ACTS
from registry_tools.pages.settled import Settled, count_of, outcome_in_words, record_in_words
from registry_tools.texts.in_words import grouped
from registry_tools.texts.lanes import LanesFault, Region, columns_of_lanes, places_of, read_regions
from registry_tools.texts.rows import bytes_of


def bundles_of(tasks: dict[int, Task]) -> list[list[int]]:
    """The bundles of a day, each as its records in order: instructions that touch a common account, directly or over
    others. Each bundle is in one region, and so in one lane."""
    bundles: dict[int, list[int]] = {}
    label: dict[int, int] = {}
    for record, task in sorted(tasks.items()):
        found = sorted({label[tail] for tail, _ in task.tails})
        first = found[0] if found else record
        for other in found[1:]:
            label.update(dict.fromkeys(bundles[other], first))
            bundles[first] += bundles.pop(other)
        bundles.setdefault(first, []).append(record)
        label[record] = first
    return [sorted(bundle) for bundle in bundles.values()]


def lanes_of(path: str, settled: Settled, tasks: dict[int, Task]) -> tuple[list[list[Region]], dict[int, int]]:
    """The regions that each worker owned, in its order, with records in the place of places, and the column of each
    record."""
    try:
        lanes = read_regions(bytes_of(path).decode())
    except UnicodeDecodeError as error:
        raise FileFault(path, 0, "", f"no file that can be read ({error})", "lanes: a line for each worker") from None
    except LanesFault as fault:
        raise FileFault(path, fault.line, "", shown(fault.found), fault.expected) from None
    first = settled.head.next_record
    owned = [
        [Region(region.stolen, [first + place - 1 for place in region.places], region.took) for region in lane]
        for lane in lanes
    ]
    records = [places_of(lane) for lane in owned]
    found = sorted(record for lane in records for record in lane)
    if found != [*tasks]:
        expected = f"each place from 1 to {len(tasks)} once, as {settled.day.path} has them"
        raise FileFault(path, 0, "", f"{len(found)} places", expected)
    arrows = [(tail, head) for head, task in tasks.items() for tail, _ in task.tails]
    column = columns_of_lanes(records, arrows)
    if column is None:
        why = "an order in which an instruction does not wait for another one"
        raise FileFault(path, 0, "", why, "an order that follows the plan")
    owner = owners_of(records)
    for bundle in bundles_of(tasks):
        if len({owner[record] for record in bundle}) > 1:
            places = ", ".join(str(record - first + 1) for record in bundle)
            raise FileFault(path, 0, "", f"places {places} in several lanes", "instructions on common accounts in one")
    return owned, column


def owners_of(records: list[list[int]]) -> dict[int, int]:
    """The worker that executed each record."""
    return {record: worker for worker, lane in enumerate(records) for record in lane}


def name_of(worker: int) -> str:
    """The name of a worker."""
    return f"worker {worker}"


def boxes_of(tasks: dict[int, Task], owned: list[list[Region]], column: dict[int, int]) -> dict[int, Box]:
    """The boxes of the lanes. The first of a region says whether it was stolen, and how long it took."""
    boxes = {}
    for worker, lane in enumerate(owned):
        for region in lane:
            for record in region.places:
                boxes[record] = box_of(tasks[record].logged, column[record], worker)
            if region.places and region.in_words():
                boxes[region.places[0]].lines.append(region.in_words())
    return boxes


def lanes_parts(tasks: dict[int, Task], owned: list[list[Region]], column: dict[int, int]) -> Iterator[Markup]:
    """The lanes as a picture, with the arrows of the plan, and as a table."""
    boxes = boxes_of(tasks, owned, column)
    records = [places_of(lane) for lane in owned]
    names = Names(rows=[name_of(worker) for worker in range(len(records))])
    caption = f"A lane for each of {count_of(len(records), 'worker', 'workers')}, with the arrows of the plan"
    yield figure(caption, both(caption, boxes, [*arrows_of(tasks, tasks)], names))
    rows = (
        (name_of(worker), place, record, record_in_words(tasks[record].logged), outcome_in_words(tasks[record].logged))
        for worker, lane in enumerate(records)
        for place, record in enumerate(lane, 1)
    )
    columns = ["Worker", "Its turn", "Record", "Instruction", "Outcome"]
    yield table("The lanes in words", columns, rows, right=("Its turn",))


def owned_parts(tasks: dict[int, Task], owned: list[list[Region]]) -> Iterator[Markup]:
    """Which worker owned which region, and if it is told, whether it was stolen, and how long it took; and where the
    instructions of which bundle were executed."""
    told = [(worker, region) for worker, lane in enumerate(owned) for region in lane if region.stolen is not None]
    if told:
        regions = (
            (name_of(worker), region.in_words(), ", ".join(map(str, region.places)), grouped(len(region.places)))
            for worker, region in told
        )
        columns = ["Worker", "Region", "Records", "Instructions"]
        title = "Who owned which region, whether it was stolen from another worker, and how long it took"
        yield table(title, columns, regions, right=("Instructions",))
    owner = owners_of([places_of(lane) for lane in owned])
    bundles = sorted(bundles_of(tasks), key=lambda bundle: (owner[bundle[0]], -len(bundle)))
    rows = ((name_of(owner[each[0]]), ", ".join(map(str, each)), grouped(len(each))) for each in bundles)
    columns = ["Worker", "Records", "Instructions"]
    yield table("Who owned which instructions that belong together", columns, rows, right=("Instructions",))


def shares_parts(tasks: dict[int, Task], records: list[list[int]]) -> Iterator[Markup]:
    """How many instructions of each act each worker executed."""
    counts = [Counter(tasks[record].logged.instruction.act for record in lane) for lane in records]
    caption = "Instructions by worker"
    yield figure(caption, bars(caption, [(name_of(worker), len(lane)) for worker, lane in enumerate(records)]))
    acts = [act for act in ACTS if any(count[act] for count in counts)]
    columns = ["Worker", *acts, "all"]
    rows = (
        (name_of(worker), *(grouped(count[act]) for act in acts), grouped(count.total()))
        for worker, count in enumerate(counts)
    )
    yield table("Instructions by worker and act", columns, rows, right=columns[1:])


def workers_page(settled: Settled, files: dict[str, str], path: str, note: str) -> str:
    """The page of who executed what."""
    tasks = plan_of(settled.log)
    owned, column = lanes_of(path, settled, tasks)
    records = [places_of(lane) for lane in owned]
    lead = paragraph(
        f"{count_of(len(records), 'worker', 'workers')} settled {count_of(len(tasks), 'instruction', 'instructions')}. "
        "Workers count from 0. Each owns regions of the book while it settles them, so instructions on common accounts "
        "are in one lane. A worker that is done with its own regions steals others. Another run may give other lanes, "
        "but always the same report.",
        class_="lead",
    )
    parts = [*shares_parts(tasks, records)] if tasks else []
    if 0 < len(tasks) <= MOST_BOXES:
        parts += [*owned_parts(tasks, owned), tag("h2", "Lanes"), *lanes_parts(tasks, owned, column)]
    title = f"Who executed what on {settled.head.date}"
    return settled.frame.page(title, lead, *parts, current=files["workers"], note=note)
