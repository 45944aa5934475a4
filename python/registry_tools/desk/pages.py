"""The pages of the day's work: today, what is handed in, the next day, a change by hand, closing, and the days."""
import contextlib
import itertools
import os
from collections import Counter
from collections.abc import Callable, Iterator, Mapping
from dataclasses import replace

import flask
from werkzeug.exceptions import NotFound
from werkzeug.wrappers import Response

from registry_tools import voice
from registry_tools.calendars.dates import date_of
from registry_tools.cli.close import compliant_told
from registry_tools.desk import asks, forms, gate, looks, shown
from registry_tools.desk.gate import Served
from registry_tools.desk.reading import Reading
from registry_tools.desk.shown import asked, number_asked, row_of_taken, show_page, sorted_table
from registry_tools.errors import Fault, WordsFault
from registry_tools.notes import LOOK
from registry_tools.office import approvals, approve, intake, release as releasing, undo as undoing
from registry_tools.office.office import Office
from registry_tools.office.trial import Looked, whys
from registry_tools.office.waits import waits_of
from registry_tools.pages import pictures, summary
from registry_tools.pages.beside import item_in_words
from registry_tools.pages.html import Cells, Markup, link, paragraph, tag
from registry_tools.pages.plan import plan_parts
from registry_tools.pages.settled import (
    OUTCOMES, Settled, by_hand_parts, joined_words, kind_of, long_date, outcome_in_words, record_in_words,
)  # fmt: skip
from registry_tools.pairs import settlement
from registry_tools.pairs.compliance import last_year_over
from registry_tools.questions import due, receipts
from registry_tools.second import faults, passing, rules
from registry_tools.cli import form
from registry_tools.texts.books import Sums, sums_of, sums_told
from registry_tools.texts.in_words import grouped, instruction_in_words
from registry_tools.texts.report import LogRow

DAYS = ["Day", "Who", "At", "Records", "Settled by", "Released"]
TAKEN = ["Place", "What", "Who took it back", "At", "Why"]
HANDED_IN, FILES = ["Place", "What", "File or reason", "Who"], ["File or reason", "What", "Who", "At"]
WAITING = ["Due", "Record", "Instruction"]
# What there are empty tables of.
EMPTY = [what for what in form.WHAT if what != form.LABELS]
SECOND = "by the second answer alone: then nothing is proved"
# So many dates are told that come next, and over so many days holdings are shown.
MOST_COMING, DAYS_HELD = 5, 22
RELEASED = (
    "Released says that others know of a day: letters were sent, or somebody was told what it has. From then on it is "
    "not undone any more, and that is not taken back: what is wrong in it, an instruction of a later day corrects."
)


def today(served: Served) -> Response:
    """The page of what is to be done today."""
    reading = served.reading
    office, handed_in = reading.office(), reading.handed_in()
    last = office.last()
    items = [
        (item.place, item_in_words(item), item.part.name, item.part.who, voice.time(item.part.at))
        for item in handed_in.items(*intake.KINDS)
    ]
    waits = [
        (str(w.due or "no due day in the calendar"), w.record, instruction_in_words(w.instruction))
        for w in waits_of(office)
    ]
    looked: list[Looked] = []
    # (where the next day cannot be made, its own page says why)
    with contextlib.suppress(WordsFault):
        looked = reading.tried(None)[1] if items or waits else []
    seconds = [looks.look_at_waiting(reading, handed_in, waits) for waits in approvals.all_waiting(office, handed_in)]
    for_reader = [each for each in seconds if is_for(served, office, each.waits)]
    name = office.settings.name
    return show_page(
        "today", f"{name}, today" if name else "Today", last=last, is_released=office.events.is_released(),
        items=items, waits=waits, came=reading.came,
        missed=due.missed_days(office), taken=[*map(row_of_taken, receipts.of(handed_in))],
        coming=due.next_dates(office, MOST_COMING), dates=reading.dates(), doubts=due.doubts_of_last(office),
        new=[tried for tried in looked if tried.is_new], mine=for_reader, figures=figures_of(looked, len(seconds)),
        seconds=[each for each in seconds if each not in for_reader], **standing_now(reading),
    )  # fmt: skip


def approve_page(served: Served) -> Response:
    """The page of what waits for another login, each as a whole, of which who may approve several chooses some."""
    reading = served.reading
    office, handed_in = reading.office(), reading.handed_in()
    seconds = [looks.look_at_waiting(reading, handed_in, waits) for waits in approvals.all_waiting(office, handed_in)]
    for_reader = {each.waits.words for each in seconds if is_for(served, office, each.waits)}
    return show_page("approve", "Approve", there=seconds, mine=for_reader)


def figures_of(looked: list[Looked], seconds: int) -> list[tuple[str, int, str]]:
    """The figures of the next day as it stands, each with what shows more."""
    return [
        ("would be done", sum(tried.outcome == "done" for tried in looked), "/next"),
        ("would be refused", sum(tried.is_refused for tried in looked), "/next?only=refused"),
        ("would wait", sum(tried.waits for tried in looked), "/next?only=waiting"),
        ("wait for another login", seconds, "/approve"),
    ]


def is_for(served: Served, office: Office, waits: approvals.Waits) -> bool:
    """Whether who is at this browser may approve it."""
    if waits.part is None or served.is_look:
        return False
    with contextlib.suppress(WordsFault):
        as_reader = replace(office, login=gate.by(served).login)
        commands = approvals.commands_for(office, waits.part, as_reader.login)
        approve.must_be_other(as_reader, commands, waits.part.who, waits.part.login)
        return True
    return False


def standing_now(reading: Reading) -> dict[str, object]:
    """What all accounts hold, and who is missing how much by when, after the last day, if there is one."""
    settled = reading.settled()
    if settled is None:
        return {}
    year, held = last_year_over(settled.head), reading.held_over(DAYS_HELD)
    lacking = [standing for standing in reading.standings(year) if standing.missing]
    missing = [(each.account.number, int(each.missing or 0), each.account.holder) for each in lacking]
    until, most = reading.office().settings.due.surrender_of(year), max((row[1] for row in missing), default=0)

    def cells(row: tuple[int, int, int]) -> Cells:
        account = link(f"/accounts/{row[0]}", reading.names().account(row[0]))
        return joined_words(account, reading.names().holder(row[2])), grouped(row[1]), pictures.length_of(row[1], most)

    return {"held": pictures.holdings(held), "year": year, "until": long_date(until) if until else "",
            "missing": sorted(missing, key=lambda row: -int(row[1])), "shown_missing": cells}  # fmt: skip


def hand_in(served: Served) -> Response:
    """The page with the forms for instructions and files."""
    act, reading = asked("act") if asked("act") in faults.ACT_WORDS else "", served.reading
    # (behind a no, the field has what was typed)
    word = flask.request.args.get(passing.FIRST.get(act, "of"), "") or flask.request.args.get("of", "")
    of = forms.account_meant(reading, word.strip()) if word else None
    return show_page(
        "hand_in", "Hand in", act=act, fields=forms.instruction_fields(reading, act, of) if act else [], empty=EMPTY,
        of=of, of_account=forms.told_of_account(reading, of) if of else "",
        users=forms.users_entitled(reading, act, of),
        known=forms.accounts_offered(reading) if act else [], cut=forms.cut_told(reading) if act else "",
        dates=forms.DATES, later=forms.LATER, look=asked("look"), chosen=asks.chosen(served, asked("look")),
    )  # fmt: skip


def next_day(served: Served) -> Response:
    """The page of the next day as it stands."""
    following, looked, otherwise = served.reading.tried(asked("date") or None)
    kinds: dict[str, Callable[[Looked], bool]] = {
        "": lambda tried: True, "refused": lambda tried: tried.is_refused, "waiting": lambda tried: tried.waits,
        "new": lambda tried: tried.is_new,
    }  # fmt: skip
    only = asked("only") if asked("only") in kinds else ""
    rows = [(tried.place or 0, tried.words, tried.said(), tried) for tried in looked if kinds[only](tried)]
    handed_in = served.reading.handed_in()
    items, gone = handed_in.items(intake.CHANGES, intake.EDITS, intake.WORK), receipts.of(handed_in)
    counts = {name: sum(map(is_so, looked)) for name, is_so in kinds.items()}

    def cells(row: tuple[int, str, str, Looked]) -> Cells:
        place, outcome, _, tried = row
        return box(served, place) if place else "waited", outcome, shown.outcome(tried), "new" if tried.is_new else ""

    return show_page(
        "next", "The next day", date=following.date, rows=rows, shown_row=cells, only=only, counts=counts,
        views=views_of("/next?only={}", counts), whys=whys([row[3] for row in rows]),
        notes=[*following.notes, *otherwise],
        others=[(item.place, item_in_words(item), item.part.name, item.part.who) for item in items], columns=HANDED_IN,
        shown_other=lambda row: (box(served, row[0]), *row[1:]), taken=[*map(row_of_taken, gone)],
    )  # fmt: skip


def views_of(path: str, counts: Mapping[str, int]) -> list[tuple[str, str, str]]:
    """The links to what of its rows a page shows: all of them, which are called so, or those of a kind."""
    return [(name, path.format(name), f"{name or 'all'} ({count:,})") for name, count in counts.items()]


def box(served: Served, place: int) -> object:
    """The place of something that was handed in, by which it is chosen."""
    if served.is_look:
        return place
    is_chosen = " checked" if str(place) in flask.request.args.getlist("places") else ""
    field = Markup(f'<input type="checkbox" name="places" value="{place}"{is_chosen}>')
    return tag("label", field, f" {place}", class_="check")


def change(served: Served) -> Response:
    """The form of an account, of the rules, or of a new account, once a day is settled. Raises WordsFault if there is
    no such account."""
    number, reading = number_asked("account"), served.reading
    of = asked("of") if asked("of") in ("rules", "new") and number is None else "account"
    if reading.office().last() is None:
        other = f"Until then another first text, by {voice.command('init')}, is in place of a change."
        return gate.said(400, f"{gate.NO_DAY} {other}")
    day = reading.text_of_next()
    if number is not None and number not in day.book:
        raise WordsFault(f"there is no account {number} in the next day's text")
    fields = [*forms.rule_fields(day)] if of == "rules" else forms.OF_NEW
    if number is not None:
        fields = [*forms.account_fields(day.book[number], len(day.head.periods))]
    accounts = forms.accounts_offered(reading) if of == "account" and number is None else []
    return show_page("change", "Change", account=number, of=of, date=day.head.date, fields=fields, known=accounts,
                     cut=forms.cut_told(reading))  # fmt: skip


def close(served: Served) -> Response:
    """The page that asks whether the next day is settled."""
    reading, why, outcome_of, comes = served.reading, "", None, ""
    dates, program = reading.dates(), reading.office().settings.program
    # (by its name alone: where a program lies on the disk is nothing for a page)
    settler = settlement.settler_in_words(os.path.basename(program))
    is_built = settler == settlement.BY_RUN
    named = f"{settlement.RUN.name}, {settlement.BUILDS}" if is_built else settler
    engines = [("", f"by {named}, and compared with the second answer")] if settler else []
    date = asked("other") or asked("date") or str(dates[0])
    try:
        (outcome_of, comes), left = reading.closing(date)
        notes = [*outcome_of.notes, *left, *compliant_told(outcome_of)]
    except Fault as fault:
        why, notes = str(fault), []
    return show_page(
        "close", "Close", date=date, dates=dates, why=why, own=outcome_of,
        notes=[note for note in notes if not note.startswith(LOOK)],
        alerts=[note.removeprefix(f"{LOOK}: ") for note in notes if note.startswith(LOOK)],
        totals=totals_of(outcome_of.before, outcome_of.after) if outcome_of else "",
        engines=[*engines, ("1", SECOND)], engine="" if settler and not is_built else "1",
        shown=comes,
    )  # fmt: skip


def totals_of(before: Mapping[str, Sums], after: Mapping[str, Sums]) -> Markup:
    """The sums over all accounts before and after something is done."""
    rows = []
    for kind, name in itertools.product(rules.KINDS, ("held", "surrendered", "deleted")):
        old, new = (getattr(sums[kind], name) for sums in (before, after))
        rows.append((kind, name, grouped(old), grouped(new), f"{new - old:+,}" if new != old else ""))
    columns = ["Kind", "What", "Before", "After", "Difference"]
    return sorted_table("Totals", columns, rows, columns[2:], name="totals-")


def day_rows(served: Served) -> list[tuple[str, str, str, int, str, str]]:
    """All settled days, the last one first."""
    told = receipts.days_told(served.reading.office())
    return [(str(each.date), each.who, voice.time(each.at), each.next - each.first, engine, is_out)
            for each, engine, is_out in told]  # fmt: skip


def days(served: Served) -> Response:
    """The page of all settled days."""
    office, rows = served.reading.office(), day_rows(served)
    return show_page("days", "Days", rows=rows, last=office.last(), is_released=office.events.is_released(),
                     columns=DAYS, shown_row=lambda row: (link(f"/days/{row[0]}", row[0]), *row[1:]))  # fmt: skip


def undo(served: Served) -> Response:
    """The page that asks whether the last day is taken back, and says what that does. WordsFault if it can't be."""
    reading, by = served.reading, gate.by(served)
    with reading.moment():
        office = reading.office()
        filed = office.last()
        last = undoing.last_of(office, filed.date if filed else None)
        date = undoing.date_again(office, last, date_of("the day", asked("date")) if asked("date") else None)
        settled, before = reading.settled(last.date), [event.date for event in office.events.days[:-1]][-1:]
        assert settled is not None  # (it is the last day)
    again, waits, comes = reading.of_next("undo", date, lambda: looks.look_at_undo(reading, by, last.date, date))
    earlier = [each for each in settled.head.working_days if before and before[0] < each < last.date]
    count, name = Counter(map(kind_of, settled.log)), long_date(last.date)
    told = ", ".join(f"{count[kind]} {kind}" for kind in OUTCOMES)
    records = f"its records {last.first} to {last.next - 1} ({told})" if settled.log else "no record, since it has none"
    return show_page(
        "yes", f"Undo {name}", lead=f"{name} is not undone yet. If it is, the day goes with its report, and with it "
        f"{records}. What it was made of is handed in again for {long_date(date)}, and can be closed once more.",
        told=[sorted_table("Handed in then", HANDED_IN, again, ["Place"], empty="Nothing is handed in then."),
              sorted_table("Waiting then", WAITING, waits, ["Record"], name="waits-", empty="Nothing waits then."),
              totals_of(sums_told(settled.report), sums_of(settled.day.book_rows))],
        action="/undo/yes", button=f"Yes, undo {name}", no="/days", shown=comes,
        choices=[last.date, *reversed(earlier)],
        fields=[("day", last.date), *([("date", date)] if date != last.date else [])], chosen=("date", date),
        words="For which day it is handed in again: an earlier one, if it was closed for a date that is too late",
    )  # fmt: skip


def release(served: Served) -> Response:
    """The page that asks whether a day is released, and says what that means. WordsFault if it can't be."""
    office, rows = served.reading.office(), [row for row in day_rows(served) if row[-1] == "no"]
    last = office.last()
    named = date_of("the day", asked("day")) if asked("day") else None
    day = releasing.day_to_release(office, named or (last.date if last else None))
    touched, name = [row for row in rows if row[0] <= str(day.date)], long_date(day.date)
    doubt = releasing.doubt_of(day)
    return show_page(
        "yes", f"Release {name}", lead=f"{name} is not released yet. If it is, so are all days before it.",
        told=[paragraph(RELEASED), sorted_table("Released then", DAYS[:5], [row[:5] for row in touched], ["Records"])],
        action="/release/yes", button=f"Yes, release {name}", no="/days", doubt=doubt and f"it {doubt}",
        fields=[("day", day.date)], choices=[date_of("the day", row[0]) for row in rows], chosen=("day", day.date),
        words="Up to which day",
    )  # fmt: skip


def day(served: Served, word: str) -> Response:
    """The page of a day: what the pages of ./day page say, with its log as one table. NotFound if it is not settled."""
    date, reading = date_of("the day", word), served.reading
    settled = reading.settled(date)
    if settled is None:
        raise NotFound(f"no day {date} is settled: the page Days has all that are")
    only = asked("only") if asked("only") in OUTCOMES else ""
    log = [row for row in settled.log if only in ("", kind_of(row))]
    rows = [(row.record, record_in_words(row), rules.named(row.instruction), outcome_in_words(row), row) for row in log]
    count = Counter(kind for row in settled.log for kind in ("", kind_of(row)))
    accounts_of, found = settled.accounts_of, settled.found

    def cells(row: tuple[int, str, list[int], str, LogRow]) -> Cells:
        outcome = reading.outcome(word, row[0], row[3])
        why = found.get(row[0]) if kind_of(row[4]) == "refused" else None
        return *row[:2], accounts_of(row[4]), joined_words(outcome, why) if why else outcome

    counts = {kind: count[kind] for kind in ("", *OUTCOMES)}
    return show_page(
        "day", long_date(date), above=[*parts_of(settled, reading)], rows=rows, only=only, counts=counts,
        shown_row=cells,
        views=views_of(f"/days/{date}?only={{}}#log", counts), plan=plan_parts(settled) if settled.log else [],
    )  # fmt: skip


def parts_of(settled: Settled, reading: Reading) -> Iterator[Markup]:
    """What stands above the log."""
    book = settled.rulebook
    refused = [
        (book.check_link(code), len(logged), book.words(book.checks[code].advice))
        for code, logged in settled.refused().items()
    ]
    office, event = reading.office(), reading.office().events.day_of(settled.head.date)
    gone = [*map(row_of_taken, receipts.of_day(office, settled.head.date))]
    files = [(*row, voice.time(at)) for *row, at in receipts.files_of(office, event)] if event else []
    yield summary.lead(settled)
    if settled.log:
        yield summary.acts_table(settled)
    yield sorted_table("Refused", ["Check", "How many", "What to do"], refused, ["How many"], name="why-")
    yield sorted_table("Waiting", summary.WAITING_COLUMNS, summary.waiting_rows(settled), name="waits-")
    yield sorted_table("Handed in before", FILES, files, name="files-")
    yield sorted_table("Taken back before", TAKEN, gone, ["Place"], name="taken-")
    yield from (*summary.totals_parts(settled), tag("h2", "Changed by hand"))
    by_hand = reading.by_hand(settled.head.date)
    yield from [paragraph("This is the first day.")] if by_hand.rows is None else by_hand_parts(settled, by_hand)


def correct_page(served: Served) -> Response:
    """The form of what is corrected in a settled day that is not released."""
    days = [row[0] for row in day_rows(served) if row[-1] == "no"]
    return show_page("correct", "Correct", days=days)


def name(served: Served) -> Response:
    """The page that asks who sits at the desk."""
    return show_page("name", "Your name", known=gate.known_name(served))
