"""What programs ask at the socket of links of a desk, in JSON, and what each must get. For cases/run-door."""
from __future__ import annotations

import json
import sys
from collections.abc import Iterator, Sequence
from pathlib import Path
from typing import TYPE_CHECKING, Any

from harness import TOP, differs
from logins import Login

if TYPE_CHECKING:
    from door_trials import Visitor

Told = Iterator[tuple[str, object]]
CLIENT = TOP / "examples" / "python" / "at_a_desk.py"
JSON = ("Content-Type", "application/json")
ROW = "do,2025-09-23,5101,5102,transfer,100210,300118,general,{}\n"
TABLES = "status journal days month find due names accounts compliance accounts/100210/history".split()


def sent(own: Visitor, value: object, *headers: tuple[str, str]) -> tuple[int, Any]:
    """The status that a program gets which hands something in, and the JSON."""
    body = value if isinstance(value, bytes) else json.dumps(value).encode()
    answer = own.ask("POST", "/hand-in.json", body, headers or [JSON])
    try:
        return answer.status, json.loads(answer.text)
    except ValueError:
        return answer.status, answer.text[-300:]


def file_of(amount: int, name: str = "orders.csv") -> dict[str, Any]:
    return {"files": [{"name": name, "text": ROW.format(amount)}]}


def machine_trials(programs: Sequence[Visitor], browser: Visitor) -> Told:
    """Programs of somebody who may do all, of one who may only look, of a proxy and of a stranger, at the socket of
    links; and a browser at its own."""
    own, looks, proxy, stranger = programs
    for name in TABLES:
        answer = own.get(f"/{name}.json")
        is_so = answer.status == 200 and isinstance(json.loads(answer.text), list)
        yield f"{name} as JSON", None if is_so else answer
    tried = json.loads(own.get("/try.json").text)
    yield "try as JSON", differs(sorted(tried), ["date", "instructions", "notes", "otherwise", "status"])
    status, came = sent(own, file_of(71))
    part = came["handed_in"][0] if status == 200 else {}
    yield "a file is handed in", differs((status, part.get("name"), part.get("count")), (200, "orders.csv", 1))
    yield "what would come of it", differs([row["place"] for row in came["instructions"]], [part["first"]])
    status, again = sent(own, file_of(71, "again.csv"))
    yield "it is refused when it comes again", differs((status, again["faults"][0]["code"]), (409, "had"))
    status, again = sent(own, {**file_of(71, "again.csv"), "again": ["again.csv:1"]})
    yield "unless it is meant", differs((status, len(again.get("handed_in", []))), (200, 1))
    status, again = sent(own, {**file_of(72), "seen": "0" * 64})
    yield "in another state than was seen", differs((status, again["faults"][0]["code"]), (400, "late"))
    status, refused = sent(looks, file_of(73))
    yield "who may only look", differs((status, refused["faults"][0]["code"]), (403, "rights"))
    for what, value in (
        ("no object", []), ("no files", {}), ("files that are none", {"files": {"name": "x"}}), ("no JSON", b"{"),
        ("a file without text", {"files": [{"name": "x"}]}), ("no name", {"files": [{"name": " ", "text": "x"}]}),
        ("a name of marks", {"files": [{"name": "a\x1bb", "text": "x"}]}), ("deep lists", b"[" * 90_000),
        ("no base64", {"files": [{"name": "x", "base64": "?"}]}), ("rows again", {**file_of(74), "again": "x"}),
        ("a number", {"files": [{"name": "x", "text": 1}]}),
        ("half a letter", {"files": [{"name": "x", "text": "\ud800"}]}),
    ):  # fmt: skip
        yield f"what is handed in has {what}", differs(sent(own, value)[0], 400)
    status, came = sent(own, {"files": [{"name": "/etc/shadow", "text": "x"}]})
    yield "a name that is a path is only a name", differs((status, came["faults"][0]["found"] != ""), (409, True))
    form = ("Content-Type", "text/plain")
    yield "a form of a browser", differs(sent(own, file_of(75), form)[0], 415)
    yield "no kind at all", differs(sent(own, file_of(75), ("Accept", "*/*"))[0], 415)
    yield "a proxy", differs(sent(proxy, file_of(76))[0], 404)
    yield "a proxy that reads", proxy.get("/journal.json").wrong(404)
    yield "a stranger", differs(sent(stranger, file_of(76))[0], 403)
    yield "a browser at its own socket", differs(sent(browser, file_of(77))[0], 403)
    yield "pages are not shown there", own.get("/journal").wrong(404)
    page = browser.get("/journal").text
    yield "a page leads to its JSON", 'href="/journal.json"' not in page and page[-600:]
    yield "where it is had", browser.get("/journal.json").wrong(200)


def client_trials(path: Path, work: Path, anna: Login, looks: Login) -> Told:
    """The example of a program that hands in."""
    file = work / "of-client.csv"
    file.write_text(ROW.format(81))
    said = anna.run([sys.executable, "-I", CLIENT, path, file])
    is_so = said.returncode in (0, 1) and "81 general" in said.stdout
    yield "the client hands a file in", None if is_so else (said.returncode, said.stdout, said.stderr)
    said = anna.run([sys.executable, "-I", CLIENT, path, file])
    yield "and tells a fault", differs((said.returncode, said.stdout.split(":")[0]), (3, file.name))
    said = looks.run([sys.executable, "-I", CLIENT, path, file])
    yield "and who may not", differs((said.returncode, "may look, and not hand in" in said.stdout), (2, True))
