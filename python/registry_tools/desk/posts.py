"""The forms that have something done: each starts a command that is told what was seen before."""
import re

import flask
from werkzeug.wrappers import Response

from registry_tools.cli.words import one_line
from registry_tools.desk import asks, forms, gate
from registry_tools.desk.asks import NOT_WHOLE
from registry_tools.desk.gate import Served
from registry_tools.desk.jobs import FORGOTTEN, Asked
from registry_tools.desk.shown import form, back_of_form
from registry_tools.door import log
from registry_tools.errors import WordsFault
from registry_tools.office.incoming import Given
from registry_tools.office.office import sum_of_outcome
from registry_tools.office.people import MAY_WAIT, REWRITE

ONCE, STATE = re.compile("[0-9a-f]{16}"), re.compile("[0-9a-f]{64}")
PLACE = re.compile("[1-9][0-9]{0,8}")
# What may stand between numbers.
BETWEEN = re.compile(r"[\s,;]+")


def once() -> str:
    """The number of the form, by which it is known if it is sent again. Raises WordsFault if it has none."""
    if not ONCE.fullmatch(form("once")):
        raise WordsFault(NOT_WHOLE)
    return form("once")


def do(served: Served, command: str, *more: str, makes: bool = False) -> Response:
    """Has a command do it, for somebody who saw the folder in the state of the form; and goes to its answer. Raises
    WordsFault if the form has no state."""
    who, state = gate.name(served), form("state")
    if not STATE.fullmatch(state):
        raise WordsFault(NOT_WHOLE)
    whom, shown = gate.speaks_for(served, who), form("shown")
    words = [f"--who={who}", f"--seen={state}", *([f"--for={whom}"] if whom is not None else [])]
    words += [f"--shown={shown}"] if STATE.fullmatch(shown) else []
    words += more
    return begin(served, command, *words, seen=state, makes=makes)


def do_with_why(served: Served, command: str, *more: str) -> Response:
    """The same, with the reason that the form gives. Raises WordsFault if it gives none."""
    return do(served, command, f"--why={one_line('why', form('why'))}", *more)


def begin(served: Served, command: str, *words: str, seen: str = "", makes: bool = False) -> Response:
    """Has a command work, and goes to its answer. Raises WordsFault if the form has what no command can be told."""
    if any("\0" in word for word in words):
        raise WordsFault(NOT_WHOLE)
    job = served.jobs.start(once(), command, [*words], seen, back_of_form(), makes)
    log.begun(command, gate.known_name(served), gate.head().peer)
    return flask.redirect(f"/jobs/{job.number}", 303)


def name(served: Served) -> Response:
    """Keeps the name of who sits at the desk."""
    flask.session.pop("who", None)
    gate.name(served)
    return flask.redirect("/", 303)


def looked_at(served: Served, page: str) -> Asked:
    """What the yes is said to. Raises WordsFault if the desk knows nothing of it."""
    asked = served.jobs.asked_for(page, form("look"))
    if asked is None:
        raise WordsFault(FORGOTTEN)
    asked.number, asked.why = once(), form("why")
    return asked


def take(served: Served) -> Response:
    """Has the files of an upload handed in."""
    asked = looked_at(served, "/hand-in")
    files, dates = served.jobs.upload(asked.place), asked.first().get("dates")
    more = [f"--again={files[place].path}:{line}" for place, line in asks.meant_again(asked, len(files))]
    more += [f"--dates={dates}"] if dates else []
    mapping = served.jobs.private / asked.place / asks.MAPPING
    more += [f"--mapping={mapping}"] if mapping.is_file() else []
    return do(served, "hand-in", *more, *asks.names_told(files), "--", *(given.path for given in files))


def take_back(served: Served) -> Response:
    """Has rows taken back. Raises WordsFault if none was chosen."""
    places = flask.request.form.getlist("places")
    if not places or not all(map(PLACE.fullmatch, places)):
        raise WordsFault("no row was chosen")
    return do_with_why(served, "take-back", "--", *places)


def make_change(served: Served) -> Response:
    """Has a change by hand made."""
    fields = looked_at(served, "/change").first()
    words = (word for _, word in forms.words_of_change(fields, served.reading))
    return do_with_why(served, "change", "--yes", *words)


def give_names(served: Served) -> Response:
    """Has the names given that were looked at."""
    return do_with_why(served, "label", *asks.words_of_names(served, looked_at(served, "/names")))


def settle(served: Served) -> Response:
    """Has the next day settled and filed. What is to be looked at first wants a yes of its own."""
    return do(served, "close", f"--date={form('date')}", *(f"--{name}" for name in ("second", "yes") if form(name)))


def undo(served: Served) -> Response:
    """Has the last day taken back."""
    return do_with_why(served, "undo", *([f"--date={form('date')}"] if form("date") else []), "--", form("day"))


def look_at_correction(served: Served) -> Response:
    """Has it shown what a settled day and those behind it would become."""
    records, files = BETWEEN.split(form("without")) if form("without") else [], list[Given]()
    if not all(map(PLACE.fullmatch, records)):
        raise WordsFault("Records that are left out: expected numbers with blanks between them")
    chosen = [file for file in flask.request.files.getlist("files") if file.filename]
    if chosen:
        place = served.jobs.new_upload(flask.request.content_length or 0)
        for file in chosen:
            file.save(served.jobs.place_for(place, file.filename or ""))
        files = served.jobs.upload(place.name)
    left_out, added = [f"--without={record}" for record in records], [f"--with={given.path}" for given in files]
    words = [*left_out, *added, *asks.names_told(files)]
    return do_with_why(served, "correct", *words, *(["--second"] if form("second") else []), "--", form("day"))


def make_correction(served: Served) -> Response:
    """Has a day corrected as it was shown. Raises WordsFault if nothing was."""
    job = served.jobs.jobs.get(form("job"))
    if job is None or not job.asks_yes():
        raise WordsFault(FORGOTTEN)
    begins = ("--who=", "--seen=", "--for=", "--shown=")
    return do(served, "correct", "--yes", *(word for word in job.words if not word.startswith(begins)))


def release(served: Served) -> Response:
    """Has a day released."""
    return do_with_why(served, "release", *(["--yes"] if form("yes") else []), "--", form("day"))


def approve(served: Served) -> Response:
    """Has what waits for another login approved, as it was shown. Who is named by a word alone approves as the login of
    the desk. Raises WordsFault if nothing was chosen."""
    places, command, date = flask.request.form.getlist("place"), form("command"), form("day")
    if places and all(map(PLACE.fullmatch, places)):
        shown = sum_of_outcome(form(f"shown-{place}") for place in places)
        return do(served, "approve", f"--shown={shown}", "--", *places)
    if form("several"):
        raise WordsFault("nothing was chosen")
    if command == REWRITE and PLACE.fullmatch(date):
        return do(served, "approve", "--", command, date)
    if command not in MAY_WAIT:
        raise WordsFault(NOT_WHOLE)
    return do(served, "approve", f"--date={date}", "--", command)


def audit(served: Served) -> Response:
    """Has the folder audited."""
    how = form("how")
    return begin(served, "audit", *([f"--{how}"] if how in ("second", "settle") else []))


def send(served: Served) -> Response:
    """Has packages made, for one download. Raises WordsFault if the words of the form are none of the command."""
    holders = BETWEEN.split(form("holders")) if form("holders") else []
    for holder in holders:
        if not PLACE.fullmatch(holder):
            raise WordsFault(f"Only these holders: found {holder!r}; expected numbers with blanks between them")
    options = [*(f"--{name}={form(name)}" for name in ("from", "day") if form(name))]
    options += ["--holder", *holders] if holders else []
    if not form("release"):
        return begin(served, "send", *options, makes=True)
    if served.is_look:
        raise WordsFault("this desk releases no day")
    return do(served, "send", "--release", *options, makes=True)
