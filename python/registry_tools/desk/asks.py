"""What somebody asks for by a form, and looks at before a yes: each look has an address, so that it is there again
behind Back, and is taken again as the folder is then. Its yes counts as long as the same comes of it."""
import re

import flask
from werkzeug.exceptions import NotFound
from werkzeug.wrappers import Response

from registry_tools.desk import forms, gate, looks
from registry_tools.desk.gate import Served
from registry_tools.desk.jobs import FORGOTTEN, Asked
from registry_tools.desk.shown import (
    LONGEST_FIELD, OF_PAGE, ROWS, address_of, form, outcome, show_page, sorted_table,
)  # fmt: skip
from registry_tools.desk.words import LAGS
from registry_tools.errors import FileFault, WordsFault
from registry_tools.office import intake, label, trial
from registry_tools.office.incoming import Forms, Given
from registry_tools.office.office import sum_of_outcome
from registry_tools.office.trial import Looked, whys
from registry_tools.pages.beside import BESIDE, side_by_side
from registry_tools.sheets.importing import read_mapping
from registry_tools.sheets.mapping import Mapping
from registry_tools.texts.rows import KeptText

AGAIN = re.compile("([0-9]{1,3}):([1-9][0-9]{0,8})")
# Under this name a mapping lies beside the files of an upload.
MAPPING = "mapping"
NOT_WHOLE = "the form is not whole: nothing was done"
# What a form of a look says beside what it asks for.
OF_ASKING = OF_PAGE | {"who", "why", "look"}


# What is asked for.


def ask(served: Served) -> Response:
    """Keeps what a form asks for, and goes to its look. Raises WordsFault if it asks for nothing."""
    page, fields = page_of_form(), flask.request.form.to_dict(flat=False)
    fields = {name: words for name, words in fields.items() if name not in OF_ASKING}
    earlier = served.jobs.asked_for(page, form("look"))
    if form("look") and earlier is None:
        raise WordsFault(FORGOTTEN)
    # (what was chosen once is not chosen again)
    place = earlier.place if earlier else uploaded(served, page, fields)
    asked = Asked(page, {**(earlier.fields if earlier else {}), **fields}, place, why=form("why"))
    # (a desk that was started anew knows what was typed by the address alone)
    typed = {} if is_of_files(asked) else typed_in(asked)
    return flask.redirect(address_of(f"{page}/look/{served.jobs.ask(asked)}", {**typed}), 303)


def page_of_form() -> str:
    """The page of the form, or of the look, that is asked for."""
    return f"/{flask.request.path.split('/')[1]}"


def uploaded(served: Served, page: str, fields: dict[str, list[str]]) -> str:
    """The name of a new upload with the files of the form, or with the instruction that it says; nothing, if a change
    or a name needs none. Raises WordsFault if an instruction needs one."""
    chosen, year = [file for file in flask.request.files.getlist("files") if file.filename], form("weekdays_of")
    is_typed = page == "/hand-in" and any(fields.get("act", ()))
    typed = forms.numbers_in(Asked(page, fields, "").first(), served.reading.names()) if is_typed else {}
    rows = forms.rows_of_instruction(typed) if is_typed else b""
    if page == "/hand-in" and year:
        calendar = flask.request.files.get("calendar")
        rows = forms.rows_of_year(year, form("but"), calendar.read() if calendar else b"")
    if not chosen and not rows:
        if page == "/hand-in":
            raise WordsFault("no file was chosen")
        return ""
    place = served.jobs.new_upload(flask.request.content_length or 0)
    if is_typed:
        served.jobs.place_for(place, looks.TYPED).write_bytes(rows)
    if year:
        served.jobs.place_for(place, f"working days of {year}.csv").write_bytes(rows)
    for file in [] if is_typed or year else chosen:
        file.save(served.jobs.place_for(place, file.filename or ""))
    mapping = flask.request.files.get("mapping")
    if mapping and mapping.filename:
        mapping.save(place / MAPPING)
    return place.name


def looked_for(served: Served, key: str) -> Asked:
    """What the look of this address is of. Raises NotFound if the desk knows nothing of it."""
    asked = served.jobs.asked_for(page_of_form(), key)
    if asked is None:
        raise NotFound(f"{FORGOTTEN}: the page {page_of_form()} has its form")
    return asked


def is_of_files(asked: Asked) -> bool:
    """Whether it is of files that were chosen, and not of what was typed."""
    return bool(asked.place) and "act" not in asked.fields


def typed_in(asked: Asked) -> dict[str, list[str]]:
    """What was typed, as far as it stands in an address."""
    return {name: [word[:LONGEST_FIELD] for word in words] for name, words in asked.fields.items()
            if any(words) and name != "again"}  # fmt: skip


def back_to(asked: Asked) -> str:
    """The address of the form, with what was typed."""
    return f"{address_of(asked.page, {**typed_in(asked)})}{'#one' if 'act' in asked.fields else ''}"


def done_by(served: Served, asked: Asked) -> Response | None:
    """The way to what was done by the yes of this look; nothing, if nothing was."""
    job = served.jobs.jobs.get(asked.number)
    return flask.redirect(f"/jobs/{job.number}") if job is not None and not job.is_fault() else None


def look(served: Served, key: str) -> Response:
    """The page of the look at what a form asks for."""
    typed = flask.request.args.to_dict(flat=False)
    if typed and served.jobs.asked_for(page_of_form(), key) is None:
        # (it was typed before the desk was started anew)
        return flask.redirect(back_to(Asked(page_of_form(), typed, "")))
    asked = looked_for(served, key)
    pages = {"/hand-in": page_of_files, "/change": page_of_change, "/names": page_of_names}
    try:
        return done_by(served, asked) or pages[asked.page](served, key, asked)
    except (WordsFault, FileFault) as fault:
        code, told = 409 if isinstance(fault, FileFault) else 400, with_label(str(fault))
        return gate.said(code, told, back=back_to(asked), title="It cannot be done so")


def with_label(told: str) -> str:
    """What is wrong, with the label of the field of a lag, of which all make one row of the rules."""
    name, _, more = told.partition(": ")
    return f"{LAGS[name.lower()]}: {more}" if name.lower() in LAGS and name.isupper() else told


# Files, and instructions that were typed.


def page_of_files(served: Served, key: str, asked: Asked) -> Response:
    """What would come of files or an instruction."""
    files, dates = served.jobs.upload(asked.place), asked.first().get("dates", "")
    reading, by = served.reading, gate.by(served)
    again = meant_again(asked, len(files))
    with served.jobs.looking:
        forms_of = Forms(mapping_of(served, asked), dates or None)
        look = reading.once(("look", key, by.login), reading.all_states(),
                           lambda: looks.look_at_incoming(reading, by, files, again, forms_of))  # fmt: skip
    if look.faults and not look.meant:
        served.jobs.spent.add(asked.place)
    again += [look.meant] if look.meant else []
    return show_page(
        "look", "A look before it is handed in", own=look, whys=whys(look.looked), no=back_of_files(key, asked),
        key=key, is_typed=looks.is_typed(files), again=[("again", f"{file}:{line}") for file, line in again],
        dates=forms.DATES, choose=address_of("/hand-in", {"dates": dates or None}), now_dates=dates,
        shown=sum_of_outcome(look.added.outcome()) if look.added else "",
        counts=[(i.name, f"{intake.NAMES[i.kind]} {i.count}") for i in look.added.parts] if look.added else [],
        rows=[(i.place, i.words, *proposal(served, i), i.said(), i) for i in refused_first(look.looked)],
        outcomes=trial.counts_of(look.looked),
        shown_row=lambda row: (*row[:4], outcome(row[5])), names=[given.name for given in files],
    )  # fmt: skip


def mapping_of(served: Served, asked: Asked) -> Mapping:
    """The mapping that came with files, if one did. Raises FileFault if it is none."""
    path = served.jobs.private / asked.place / MAPPING
    return read_mapping(KeptText("the mapping", path.read_bytes)) if path.is_file() else Mapping()


def back_of_files(key: str, asked: Asked) -> str:
    """Where a no leads: to what was typed, or to the files that were chosen."""
    return address_of("/hand-in", {"look": key}) if is_of_files(asked) else back_to(asked)


def refused_first(looked: list[Looked]) -> list[Looked]:
    """What would come of instructions: of more than a page shows, those first that would be refused."""
    return looked if len(looked) <= ROWS else sorted(looked, key=lambda tried: not tried.is_refused)


def proposal(served: Served, tried: Looked) -> tuple[str, str]:
    """When an instruction was proposed, and by whom it was and was approved."""
    _, proposed, *users = tried.do_row.split(",")[:4]
    return proposed, ", ".join(map(served.reading.names().user, filter(None, users)))


def meant_again(asked: Asked, count: int) -> list[tuple[int, int]]:
    """The rows that are meant once more: the place of the file among so many, and its line."""
    words_said = asked.fields.get("again", [])
    words = [AGAIN.fullmatch(word) for word in words_said]
    pairs = [(int(word[1]), int(word[2])) for word in words if word and int(word[1]) < count]
    if len(pairs) != len(words_said):
        raise WordsFault(NOT_WHOLE)
    return pairs


def chosen(served: Served, key: str) -> list[str]:
    """The names of the files of a look that are still here."""
    asked = served.jobs.asked_for("/hand-in", key)
    files: list[Given] = served.jobs.uploads.get(asked.place, []) if asked else []
    return [given.name for given in files if not looks.is_typed(files)]


def names_told(files: list[Given]) -> list[str]:
    """The words that say how files are called, which lie under names of the desk."""
    return [f"--named={given.name}" for given in files]


# Changes by hand, and names.


def page_of_change(served: Served, key: str, asked: Asked) -> Response:
    """What a change by hand would change."""
    edits = looks.edits_asked([*forms.words_of_change(asked.first(), served.reading)])
    changed = looks.look_at_change(served.reading, gate.by(served), edits)
    return show_page(
        "yes", "A look before it is changed", fields=[("look", key)], notes=changed.notes,
        shown=sum_of_outcome(changed.rows),
        lead=f"Nothing is changed yet. For {changed.date} this would be:", action="/change/make", typed_why=asked.why,
        told=[sorted_table("Before and after", BESIDE, side_by_side(changed.rows))], no=back_to(asked),
        button="Yes, change it",
    )  # fmt: skip


def page_of_names(served: Served, key: str, asked: Asked) -> Response:
    """What would be named how, by the form or by a file."""
    with served.jobs.looking:
        new, before, doubts = looks.look_at_names(served.reading, words_of_names(served, asked))
    rows = [(f"{label.kind} {label.number}", before.name_of(*label[:2]), label.name) for label in new]
    return show_page(
        "yes", "A look before it is named", lead="Nothing is named yet. This would be:", notes=doubts,
        told=[sorted_table("Before and after", BESIDE, rows)], action="/names/give", button="Yes, name it so",
        fields=[("look", key)], shown=sum_of_outcome(label.named_so(new, before)), no=back_to(asked),
        typed_why=asked.why,
    )  # fmt: skip


def words_of_names(served: Served, asked: Asked) -> list[str]:
    """The words of ./day label that a form says: a name, or the file of an upload."""
    if asked.place:
        first = served.jobs.upload(asked.place)[:1]
        return [f"--file={first[0].path}", *names_told(first)]
    fields = asked.first()
    named = [*(fields.get(name, "") for name in ("kind", "number")), *filter(None, [fields.get("name", "")])]
    return [*(["--remove"] if len(named) == 2 else []), "--", *named]
