"""People at a desk (`./day desk`), for trials: browsers without a window by Flask's test client, which read pages and
send their forms, and a folder whose bytes are watched."""
from __future__ import annotations

import contextlib
import gc
import html
import io
import os
import re
from collections.abc import Iterator
from dataclasses import dataclass, field
from pathlib import Path
from typing import Any, cast

from harness import TOP, Said
from reread import FORBIDDEN, Attributes, Page, named

from registry_tools.desk import app
from registry_tools.desk.gate import Served
from registry_tools.desk.jobs import COMMAND
from registry_tools.door.commands import Started
from registry_tools.door.heads import SECRET_HEADER, Proxy
from registry_tools.store import file
from registry_tools.store.events import LABELLED, MAY_LACK, Event, now
from registry_tools.store.file import Store

HOST, SECRET = "127.0.0.1:8424", "a-secret-of-these-trials-alone"
# What no page says: commands, their options, and paths of the disk. Documents tell of commands; and what the trials
# type into forms is shown as it was typed.
OF_COMMANDS = re.compile(
    r".{0,60}(?:(?<![-\w])--[a-z]|\./day |/dev/shm/|/tmp/|" + re.escape(f"{TOP}/") + r"|[A-Z]\.md\b).{0,60}"
)
DOCUMENTS, TYPED = ("/rules.html", "/formats.html"), ("--to=/tmp/x", "/tmp/x")
# The places where a page said so, by the first line of its request.
said_of_commands: dict[str, str] = {}
Fields = dict[str, Any]


@dataclass
class Form:
    """A form of a page: where it leads, what it says if nothing is changed, and what may be chosen."""

    action: str
    method: str
    fields: Fields = field(default_factory=dict)
    choices: dict[str, list[str]] = field(default_factory=dict)


class DeskPage(Page):
    """A page of the desk: it has forms, and its style comes from an address. A field without a label is a fault."""

    forbidden = FORBIDDEN - {"form", "link"}
    value: str | None = None
    is_chosen = False

    def __init__(self, text: str) -> None:
        self.forms: list[Form] = []
        self.select: str | None = None
        self.labelled: set[str] = set()
        self.unlabelled: set[str] = set()
        # What somebody can fill in, by its id; and what each label and button says.
        self.fields: set[str] = set()
        self.spoken: list[str] = []
        self.alerts: list[str] = []
        super().__init__(text)
        self.faults += [f"the field {name} has no label" for name in self.unlabelled - self.labelled]
        self.faults += [f"a label is for {name}, which is no field" for name in self.labelled - {"", *self.fields}]

    def form(self, action: str) -> Form:
        found = [form for form in self.forms if form.action == action]
        assert found, f"no form leads to {action}: {self.text}"
        return found[0]

    def begin_form(self, of: dict[str, str]) -> None:
        self.forms.append(Form(of["action"], of["method"]))

    def begin_label(self, of: dict[str, str]) -> None:
        self.labelled.add(of.get("for", ""))
        self.spoken.append("")

    def begin_button(self, _: dict[str, str]) -> None:
        self.spoken.append("")

    def handle_endtag(self, name: str) -> None:
        super().handle_endtag(name)
        if name in ("label", "button") and not self.spoken[-1].strip():
            self.faults.append(f"a {name} says nothing")

    def look_at_label(self, of: dict[str, str]) -> None:
        self.fields.add(of.get("id", ""))
        if "label" not in self.open:
            self.unlabelled.add(of.get("id", f"{of.get('name')} without an id"))

    def begin_input(self, of: dict[str, str]) -> None:
        kind, name = of.get("type", "text"), of.get("name", "")
        if kind != "hidden":
            self.look_at_label(of)
        if kind in ("checkbox", "radio"):
            self.forms[-1].choices.setdefault(name, []).append(of["value"])
        if kind in ("checkbox", "radio") and "checked" not in of:
            return
        if kind != "file":
            self.forms[-1].fields[name] = of.get("value", "")

    def begin_select(self, of: dict[str, str]) -> None:
        self.look_at_label(of)
        self.select = of["name"]

    def begin_option(self, of: dict[str, str]) -> None:
        if "datalist" in self.open:
            return
        form, name = self.forms[-1], self.select or ""
        self.value = of.get("value")
        if self.value is not None:
            self.choose(form, name, self.value, "selected" in of)

    def choose(self, form: Form, name: str, value: str, is_chosen: bool) -> None:
        form.choices.setdefault(name, []).append(value)
        if is_chosen or name not in form.fields:
            form.fields[name] = value

    def handle_starttag(self, name: str, attributes: Attributes) -> None:
        super().handle_starttag(name, attributes)
        if name == "option":
            self.is_chosen = "selected" in named(attributes)

    def handle_data(self, data: str) -> None:
        super().handle_data(data)
        if {"label", "button"} & {*self.open}:
            self.spoken[-1] += data
        if self.open and self.open[-1] == "option" and "datalist" not in self.open and self.value is None:
            self.choose(self.forms[-1], self.select or "", data, self.is_chosen)


@dataclass
class Answer:
    """What the desk answered."""

    status: int
    headers: dict[str, str]
    content: bytes
    path: str = ""

    @property
    def text(self) -> str:
        return self.content.decode()

    @property
    def page(self) -> DeskPage:
        return DeskPage(self.text)


@dataclass
class Done:
    """A command that was run in this process, in place of a process of its own."""

    status: int | str | None
    pid: int = 0

    def poll(self) -> int:
        return self.status if isinstance(self.status, int) else 2

    def wait(self, timeout: float | None = None) -> int:
        return self.poll()


def at_once(line: list[str], folder: Path, out: Path) -> Started:
    """Does a command in this process, as a process of its own would."""
    before = os.getcwd()
    os.chdir(folder)
    try:
        said = Said(*line[len(COMMAND) + 1 :])
    finally:
        os.chdir(before)
        # (a command is done with its memory at its end, and this process goes on)
        gc.enable()
    (out / "stdout").write_text(said.output, "utf-8", "replace")
    (out / "stderr").write_text(said.errors, "utf-8", "replace")
    return cast(Started, Done(said.status))


class Desk:
    """A desk over a folder, and how many people come to it."""

    def __init__(self, office: Path, private: Path, **more: Any) -> None:
        who, header, is_look = more.get("who"), more.get("header"), more.get("is_look", False)
        private.mkdir(parents=True, exist_ok=True)
        proxy = Proxy(header, SECRET) if header else None
        self.office, self.served = office, Served(office, HOST, private, who, proxy, is_look)
        self.app = app.make(self.served)
        # (a fault in the desk is one here, and not a page that says so)
        self.app.config["PROPAGATE_EXCEPTIONS"] = True

    def person(self, **headers: str) -> "Person":
        """Somebody who came by the link."""
        own = Person(self, headers)
        assert own.get(f"/?key={self.served.key}").status == 200
        return own


class Person:
    """A browser without a window."""

    def __init__(self, desk: Desk, headers: dict[str, str] | None = None) -> None:
        self.desk, self.client = desk, desk.app.test_client()
        self.headers = {"Host": HOST, **({SECRET_HEADER: SECRET} if desk.served.proxy else {}), **(headers or {})}

    def ask(self, method: str, path: str, headers: dict[str, str] | None = None, **more: Any) -> Answer:
        own = {**self.headers, **(headers or {})}
        # (without redirects: where one leads is looked at)
        answer = self.client.open(path, method=method, headers=own, **more)
        # (what was typed stands in the address to which a form leads)
        if answer.mimetype == "text/html" and path not in DOCUMENTS and answer.status_code != 303:
            look_for_commands(f"{method} {path}", answer.data.decode())
        return Answer(answer.status_code, dict(answer.headers), answer.data, path)

    def get(self, path: str) -> Answer:
        return self.ask("GET", path)

    def post(self, path: str, fields: Fields) -> Answer:
        return self.ask("POST", path, data=fields, content_type="multipart/form-data")

    def send(self, page: str, action: str, files: dict[str, bytes] | None = None, **said: Any) -> Answer:
        """Opens a page, and sends its form with some fields changed, and with files; if it leads to a look, to that."""
        form = self.get(page).page.form(action)
        return self.look(action, {**form.fields, **said, **uploads(files or {})})

    def look(self, action: str, fields: Fields) -> Answer:
        """Sends a form, and goes to the look to which it leads, if it leads to one."""
        answer = self.post(action, fields)
        return self.follow(answer) if "/look/" in answer.headers.get("Location", "") else answer

    def yes(self, answer: Answer, action: str, **said: Any) -> Answer:
        """Sends the form of an answer, and gives the page to which it leads."""
        form = answer.page.form(action)
        return self.follow(self.post(action, {**form.fields, **said}))

    def follow(self, answer: Answer) -> Answer:
        if answer.status != 303:
            return answer
        return self.get(answer.headers["Location"])


def look_for_commands(what: str, text: str) -> None:
    """Keeps where a page has words of commands, or paths of the disk."""
    shown = html.unescape(re.sub("<[^>]*>", "|", text))
    for own in TYPED:
        shown = shown.replace(own, "")
    found = OF_COMMANDS.search(shown)
    if found:
        said_of_commands[what] = found[0]


def uploads(files: dict[str, bytes]) -> Fields:
    return {"files": [(io.BytesIO(content), name) for name, content in files.items()]} if files else {}


# The folder.


def bytes_of(office: Path) -> dict[str, bytes | None]:
    """All files of a folder."""
    with contextlib.suppress(FileNotFoundError):
        return {
            str(path.relative_to(office)): path.read_bytes() if path.is_file() else None
            for path in sorted(office.rglob("*"))
        }
    return bytes_of(office)


@contextlib.contextmanager
def changing(office: Path) -> Iterator[Store]:
    """A folder that somebody else changes in the block."""
    with contextlib.closing(file.opened(office)) as store:
        with store.change():
            yield store


def name(office: Path, *names: str) -> None:
    """Gives names that no command would take, as a folder of an older version may have them."""
    rows = "".join(f"{own},{now()},ana,a list\n" for own in names)
    with changing(office) as store:
        date = store.events.days[-1].date
        store.add(Event(LABELLED, who="ana", date=date, why="a list", text=store.texts.put(rows.encode())))


TIMES = re.compile(rb"[0-9]{4}-[0-9]{2}-[0-9]{2}T[0-9:]{8}Z")
# What times make of an event.
OF_TIMES = {"at", "before", "line"}


def without_times(office: Path) -> dict[str, object]:
    """All that a folder has, without the times of events and the sums that they make."""
    with contextlib.closing(file.opened(office)) as store:
        told = [{**vars(event), **dict.fromkeys(OF_TIMES)} for event in store.events.all]
        found: dict[str, object] = {"office.ini": (office / "office.ini").read_bytes()}
        for event in store.events.all:
            for name in MAY_LACK:
                sum_of_text = getattr(event, name)
                content = store.texts.get(sum_of_text) if sum_of_text else b""
                found[f"{event.id} {event.what} {name}"] = TIMES.sub(b"AT", content)
        for own in told:
            # (a text of names has times, and what was approved has the line of an event)
            own.update(dict.fromkeys((*MAY_LACK, "sum"), None))
        found |= {f"event {own['id']}": own for own in told}
        for (name,) in store.db.execute("SELECT name FROM sqlite_schema WHERE type = 'table'").fetchall():
            if name not in ("events", "texts"):
                found[f"table {name}"] = store.db.execute(f'SELECT * FROM "{name}"').fetchall()
    return found
