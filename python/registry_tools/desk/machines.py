"""What programs ask at the socket of links of a desk, where the system says who comes: JSON goes in and comes
out, by the functions behind the commands. Nothing that a browser sends by itself is taken there for a wish."""
import base64
import binascii
import contextlib
import json
from collections.abc import Callable, Sequence
from dataclasses import asdict

import flask
from werkzeug.wrappers import Response

from registry_tools import outcomes, tables
from registry_tools.desk import gate
from registry_tools.desk.gate import Served
from registry_tools.desk.questions import rows_file
from registry_tools.desk.shown import asked
from registry_tools.door import log
from registry_tools.errors import FOUND, FileFault, RightsFault, WordsFault
from registry_tools.notes import worth_telling
from registry_tools.office import hand_in as handing, intake, trial
from registry_tools.office.hand_in import HandIn
from registry_tools.office.incoming import Forms, Given
from registry_tools.questions.status import status as how_it_stands
from registry_tools.texts.rows import KeptText

KIND = "application/json"
# What each thing is that a program may send.
WORDS = "files, each with name and text, or base64; and where wanted again, dates and seen"
# What becomes of a request by its fault.
CODES: tuple[tuple[type[Exception], int], ...] = ((RightsFault, 403), (FileFault, 409), (WordsFault, 400))


def answer(value: object, code: int = 200) -> Response:
    """An answer as JSON. (A byte of a name that is no UTF-8 is told as JSON tells it.)"""
    content = json.dumps(value, indent=1, ensure_ascii=False) + "\n"
    return Response(content.encode("utf-8", "backslashreplace"), code, content_type=KIND)


def told(view: Callable[[Served], Response], served: Served) -> Response:
    """What a view answers, or its fault as data."""
    try:
        return view(served)
    except (FileFault, WordsFault) as fault:
        code = next(code for kind, code in CODES if isinstance(fault, kind))
        log.told(f"{gate.known_name(served)} asked {flask.request.path}: {code}")
        faults = [asdict(outcomes.data_of(each)) for each in fault.parts()]
        return answer({"status": fault.status, "faults": faults}, code)


def standing(served: Served) -> Response:
    """How the folder stands, with the columns of ./day status."""
    return rows_file(served, "json", "status", tables.COLUMNS["status"], [*how_it_stands(served.reading.office()).rows])


def try_next(served: Served) -> Response:
    """What would come of the next day, or of a date. Unlike ./day try it is kept nowhere that somebody looked."""
    next_day, looked, otherwise = served.reading.tried(asked("date") or None)
    return answer(as_data(str(next_day.date), looked, next_day.notes) | {"otherwise": otherwise})


def hand_in(served: Served) -> Response:
    """Hands in what a program sends, as ./day hand-in does."""
    sent = sent_by()
    files = [*map(given, list_of(sent["files"]))]
    by = gate.by(served, str(sent["seen"]) if "seen" in sent else None)
    again, dates = tuple(map(str, list_of(sent.get("again", [])))), sent.get("dates")
    log.begun("hand-in", gate.known_name(served), gate.head().peer)
    with served.jobs.looking, served.reading.anew() as office:
        came = handing.hand_in(office, by, HandIn(tuple(files), again, Forms(dates=str(dates) if dates else None)))
    parts = [{"name": part.name, "what": intake.NAMES[part.kind], "count": part.count, "first": part.start,
              "last": part.end - 1} for part in came.parts]  # fmt: skip
    looked = [tried for tried in came.looked if tried.place in came.places()]
    more = {"handed_in": parts, "waits": came.waits, "again": came.again}
    return answer(as_data(str(came.next_day.date), looked, came.next_day.notes) | more)


def sent_by() -> dict[str, object]:
    """The JSON that a program sends. Raises WordsFault if it is none that has files."""
    with contextlib.suppress(RecursionError):
        sent: object = flask.request.get_json(silent=True)
        if isinstance(sent, dict) and list_of(sent.get("files", [])):
            return sent
    raise WordsFault(f"expected JSON: an object with {WORDS}")


def list_of(value: object) -> list[object]:
    """A list that a program sends. Raises WordsFault if it is none."""
    if not isinstance(value, list):
        raise WordsFault(f"expected a list: {WORDS}")
    return value


def given(file: object) -> Given:
    """A file that a program sends, under the name that it gives it. Raises WordsFault."""
    try:
        if not isinstance(file, dict):
            raise TypeError
        name = str(file["name"])
        content: bytes = file["text"].encode() if "text" in file else base64.b64decode(file["base64"], validate=True)
    except (KeyError, TypeError, AttributeError, ValueError, binascii.Error):
        raise WordsFault(f"expected {WORDS}") from None
    if not name.strip() or not name.isprintable():
        raise WordsFault("a file needs a name in one line")
    return Given(KeptText(name, lambda: content), name)


def as_data(date: str, looked: Sequence[trial.Looked], notes: Sequence[str]) -> dict[str, object]:
    """What would come of instructions, as data; `status` is the exit status of the command."""
    rows = [{"place": each.place, "row": each.do_row, "words": each.words,
             "outcome": "waits" if each.waits else "refused" if each.is_refused else "done",
             "check": each.outcome if each.is_refused else None, "due": each.due or None}
            for each in looked]  # fmt: skip
    return {
        "status": FOUND if any(each.is_refused for each in looked) else 0, "date": date, "instructions": rows,
        "notes": [*worth_telling(notes)],
    }  # fmt: skip
