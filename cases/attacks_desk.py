"""What somebody tries who has the link of a desk, knows where it listens, or leaves a file where others work: modules
of the names of Python's own, strangers' bodies, headers that name another one. Each attempt says what it must get."""
from __future__ import annotations

import html
import os
import re
import shutil
import socket
import subprocess
import urllib.parse
from collections.abc import Iterator
from pathlib import Path

from harness import MOST_SECONDS, TOP, Said, differs
from hostile_tables import CSV, OPEN_DOCUMENTS, WORKBOOKS
from real_desk import Browser, RealDesk

from registry_tools import outcomes, voice
from registry_tools.desk import jobs
from registry_tools.desk.jobs import MOST_BYTES_WAITING, MOST_FILES, MOST_WAITING
from registry_tools.errors import WordsFault
from registry_tools.main import FOR_DESK
from registry_tools.office.office import CAME_LATE

Attempts = Iterator[tuple[str, object]]
WEEK = TOP / "examples" / "week"
RULES = TOP / "tools" / "rules.py"
# Modules of Python's own that some command or tool imports, and those of the office.
NAMES = (
    "argparse", "collections", "configparser", "csv", "dataclasses", "datetime", "difflib", "flask", "gzip", "hashlib",
    "inspect", "itertools", "json", "logging", "re", "registry", "registry_tools", "runpy", "shutil", "sqlite3",
    "subprocess", "tempfile", "textwrap", "threading", "typing", "waitress", "xml", "zipfile", "zlib",
)  # fmt: skip
# Each tells that it was run, and ends what has run it.
PLANTED = "import os, posix\nposix.close(posix.open({mark!r}, posix.O_CREAT | posix.O_WRONLY))\nos._exit(99)\n"


def plant(folder: Path, mark: Path) -> list[Path]:
    """Puts modules into a folder that leave a mark if anybody runs them."""
    folder.mkdir(parents=True, exist_ok=True)
    planted = [folder / f"{name}.py" for name in NAMES]
    for path in planted:
        assert not path.exists(), path
        path.write_text(PLANTED.format(mark=str(mark)))
    return planted


def was_run(mark: Path) -> str | None:
    """Whether a planted module was run since the last look."""
    if not mark.exists():
        return None
    mark.unlink()
    return "what was planted was run"


def office_of(work: Path) -> Path:
    """A folder with the first day of the week, settled by the second answer."""
    office = work / "office"
    for words in (("init", office, WEEK / "monday.csv", "--program", RULES),
                  ("close", "--date", "2025-09-22", "--office", office)):  # fmt: skip
        said = Said(*words)
        assert said.status in (0, 1), said
    return office


# Modules and programs where somebody works.


def scripts_of(top: Path) -> list[Path]:
    """All that a checkout starts by Python, but trials and measurements."""
    found = [top / "day", top / "check", *sorted((top / "tools").iterdir()), *sorted((top / "packaging").iterdir())]
    return [path for path in found if path.is_file() and b"python3" in path.open("rb").readline()]


def working_folder_attempts(work: Path) -> Attempts:
    """A module of a standard name lies where a command is typed: in a folder of others, or beside the command."""
    top, mark, elsewhere = work / "top", work / "mark", work / "elsewhere"
    for own in ("python", "tools", "packaging"):
        shutil.copytree(TOP / own, top / own, ignore=shutil.ignore_patterns("__pycache__"))
    for own in ("day", "check", "VERSION", "crates.txt", "pyproject.toml"):
        shutil.copy2(TOP / own, top / own)
    plant(elsewhere, mark)
    empty = {**os.environ, "PYTHONPATH": f":{work / 'nothing'}"}
    for path in scripts_of(top):
        name = path.relative_to(top)
        ask = [str(path), "--help"]
        for how, environment in (("", None), (", with an empty word in PYTHONPATH", empty)):
            said = subprocess.run(ask, cwd=elsewhere, env=environment, capture_output=True, check=False)
            yield f"{name}, modules where somebody works{how}", was_run(mark) or said.returncode == 99
        planted = plant(path.parent, mark)
        said = subprocess.run(ask, cwd=path.parent, capture_output=True, check=False)
        yield f"{name}, modules beside it", was_run(mark) or said.returncode == 99
        for module in planted:
            module.unlink()
    yield from program_attempts(elsewhere, mark)


def program_attempts(folder: Path, mark: Path) -> Attempts:
    """A program where somebody works has the bare name that an option names."""
    program = folder / "registry-of-others"
    program.write_text(f"#!/bin/sh\ntouch {mark}\n")
    program.chmod(0o755)
    pair = [str(WEEK / "monday.csv"), str(WEEK / "monday-report.csv")]
    for words in (["verify", *pair, "--program"], ["chain", *pair, "--settle"]):
        said = subprocess.run(
            [TOP / "day", *words, program.name], cwd=folder, capture_output=True, text=True, check=False
        )
        is_told = said.returncode == 2 and f"./{program.name} is the file of this folder" in said.stderr
        yield f"{words[0]}, a program by its bare name", was_run(mark) or (None if is_told else said)


# Files that somebody sends to a desk.


def upload_attempts(work: Path) -> Attempts:
    """Whoever sends modules has none of them run: neither by the command that takes them, nor by the desk itself."""
    office, mark, elsewhere = office_of(work), work / "mark", work / "elsewhere"
    plant(elsewhere, mark)
    try:
        begun = RealDesk(office, work / "log", "--who", "ana", cwd=elsewhere)
    finally:
        # (what is run so may say that Flask is missing)
        yield "a desk that is started among planted modules", was_run(mark)
    with begun as desk:
        browser = Browser(desk).came_in()
        module = PLANTED.format(mark=str(mark)).encode()
        files = [("names.csv", b"holder,5501,Kalkwerk\n"), *((f"{name}.py", module) for name in NAMES),
                 ("__main__.py", module), ("sitecustomize.py", module), ("registry", module)]  # fmt: skip
        looked = browser.send("/names", "/names/look", files)
        yield "a look at modules beside a table", was_run(mark) or looked.wrong(200)
        (upload,) = uploads_of(Path(desk_folder(desk)))
        for action in ("/hand-in/take", "/names/give", "/hand-in/look"):
            fields = {**looked.fields("/names/give"), "why": "x", "once": os.urandom(8).hex()}
            answer = browser.post(action, fields)
            said = browser.job(answer) if answer.status == 303 else answer
            yield f"{action} of modules", was_run(mark)
            yield f"{action} of modules: pages name no folder of the desk", upload.name in said.text
        yield from name_attempts(browser, Path(desk_folder(desk)))


def desk_folder(desk: RealDesk) -> str:
    """The private folder of a desk that is at work: the one whose lock it holds."""
    files = Path(f"/proc/{desk.process.pid}/fd").iterdir()
    (found,) = {os.path.dirname(os.readlink(own)) for own in files if os.readlink(own).endswith("/lock")}
    return found


STRANGE = (
    "../../x.csv", "/etc/passwd", "a\\..\\b.csv", ".hidden", "-o.csv", "--again=1.csv", "CON", "a:1.csv", "x" * 300,
    "\u202egpj.csv", "\ufeffa.csv", "a%00.csv", "upload-1", "lock", "stdout",
)  # fmt: skip


def uploads_of(private: Path) -> list[Path]:
    """The folders of the uploads of a desk."""
    return [path for path in private.iterdir() if re.fullmatch("[0-9a-f]{32}", path.name)]


def name_attempts(browser: Browser, private: Path) -> Attempts:
    """Whatever a file is called, it lies under a name of the desk, and is told by the name that it came with."""
    row = "do,2025-09-23,5101,5102,surrender,100210,general,{}\n"
    for place, name in enumerate(STRANGE):
        looked = browser.send("/hand-in", "/hand-in/look", [(name, row.format(place + 1).encode())])
        upload = max(uploads_of(private), key=lambda path: path.stat().st_mtime_ns)
        lies = sorted(path.name for path in upload.iterdir())
        yield f"a file called {name!r:.30} lies under another name", differs(lies, ["upload-1"])
        there = browser.job(browser.post("/hand-in/take", {**looked.fields("/hand-in/take")}))
        yield f"a file called {name!r:.30} is handed in", None if "handed in: " in there.text else there.text[-600:]
    faulty = ("mine & yours.csv", b"do,2025-09-23,1,2,surrender,x,general,1\n")
    told = browser.send("/hand-in", "/hand-in/look", [faulty]).text
    yield "a fault names the file as it came", None if "<li>mine &amp; yours.csv:1: " in told else told[-900:]


# Tables that take all memory.


def table_attempts(work: Path) -> Attempts:
    """Whoever sends the smallest table of the largest sheet is told so, and the desk goes on."""
    with RealDesk(office_of(work), work / "log", "--who", "ana") as desk:
        browser = Browser(desk).came_in()
        for ending, (make, wanted) in (
            ("ods", OPEN_DOCUMENTS["one cell for all of a sheet"]), ("xlsx", WORKBOOKS["one text for all cells"]),
            ("csv", CSV["commas in many lines"]),
        ):  # fmt: skip
            for page in ("/hand-in", "/names"):
                told = browser.send(page, f"{page}/look", [(f"table.{ending}", make())])
                is_so = f"table.{ending}: {wanted}" in told.text
                yield f"{page}, a table for all memory, {ending}", None if is_so else (told.status, told.text[-900:])
        yield "the desk goes on", browser.get("/").wrong(200)


# Strangers, and others than the proxy.

LONG = "Content-Length: 60000000"
FORM_TYPE = "Content-Type: application/x-www-form-urlencoded"


def head_alone(desk: RealDesk, *lines: str, seconds: float = MOST_SECONDS) -> bytes:
    """What a desk answers to the head of a request, behind which nothing comes: nothing, if it waits for the body."""
    with socket.create_connection(("127.0.0.1", desk.port), timeout=seconds) as own:
        own.sendall("\r\n".join([*lines, "", ""]).encode())
        try:
            return own.recv(1 << 16)
        except TimeoutError:
            return b"nothing"


def body_attempts(work: Path) -> Attempts:
    """Nobody has a desk keep what it did not ask for: a body is refused by the head before it."""
    with RealDesk(office_of(work), work / "log", "--who", "ana") as desk:
        browser = Browser(desk).came_in()
        host = f"Host: {desk.host}"
        cookie = "Cookie: " + "; ".join(f"{name}={word}" for name, word in browser.cookies.items())
        look, own = "POST /hand-in/look HTTP/1.1", [host, cookie, FORM_TYPE]
        forged = cookie[:-4] + "AAAA"
        for what, status, lines in (
            ("nothing but a length", 400, [look, LONG]), ("another host", 400, [look, "Host: example.org", LONG]),
            ("two hosts", 400, [look, host, "Host: example.org", LONG]), ("no cookie", 403, [look, host, LONG]),
            ("a forged cookie", 403, [look, host, forged, LONG]),
            ("the key in a form", 403, [f"POST /?key={desk.key} HTTP/1.1", host, LONG]),
            ("a body that is looked for", 403, [f"GET /?key={desk.key} HTTP/1.1", host, LONG]),
            ("another method", 405, ["PUT / HTTP/1.1", *own, LONG]),
            ("pieces without a length", 411, [look, *own, "Transfer-Encoding: chunked"]),
            ("a form that sends no files", 413, ["POST /close/settle HTTP/1.1", *own, LONG]),
            ("more than a file may have", 413, [look, *own, "Content-Length: 9999999999"]),
            ("a form of another page", 403, [look, *own, "Origin: http://example.org", LONG]),
            ("a form of another site", 403, [look, *own, "Sec-Fetch-Site: cross-site", LONG]),
            ("a form of the same machine", 403, [look, *own, "Sec-Fetch-Site: same-site", LONG]),
            ("somebody who waits for a yes", 403, [look, host, "Expect: 100-continue", LONG]),
        ):  # fmt: skip
            told = head_alone(desk, *lines)
            yield f"a body behind {what}", None if told.startswith(f"HTTP/1.1 {status}".encode()) else told[:300]
        told = head_alone(desk, look, host, LONG, "", "GET / HTTP/1.1", host, cookie)
        yield "a request in a body", None if told.count(b"HTTP/1.1 ") == 1 and b"Today" not in told else told[:900]
        yield "a body of the browser that came in", differs(head_alone(desk, look, *own, LONG, seconds=3), b"nothing")
        yield "the log says so", desk.logged("refused 403: POST '/hand-in/look'")
        yield "with its reason", desk.logged("it did not come by the link; its body was not read")
        yield "the log says who came in", desk.logged("came in from this machine as ana")
        yield "an address with marks", browser.get("/a%0Ab%1B%E2%80%AE").wrong(404)
        yield from secret_attempts(desk, browser)


def secret_attempts(desk: RealDesk, *browsers: Browser) -> Attempts:
    """Whoever reads the log can't come in by it."""
    words = [desk.key, *(word for own in browsers for word in own.cookies.values())]
    words += [own.get("/names").fields("/names/look")["token"] for own in browsers]
    yield "no key, cookie or token in the log", [word for word in words if word in desk.said()]
    log = [line for line in desk.said().splitlines() if " desk: " not in line and "started by" not in line]
    yield "each line of the log is one of the desk", log


def proxy_attempts(work: Path) -> Attempts:
    """Who asks is who the proxy says, and nobody else says it; a browser stays who it was."""
    office, file, secret = office_of(work), work / "secret", os.urandom(16).hex()
    file.write_text(f"{secret}\n")
    own = ["--proxy-user", "X-User", "--proxy-secret", file]
    link, short = work / "link", work / "short"
    link.symlink_to(file)
    short.write_text("x")
    short.chmod(0o600)
    for what, mode, words in (
        ("a file that others may read", 0o644, own), ("that a group may read", 0o640, own),
        ("a link", 0o600, [*own[:3], link]), ("a short word", 0o600, [*own[:3], short]),
        ("no file", 0o600, [*own[:3], work / "none"]), ("a folder", 0o600, [*own[:3], work]),
        ("a header without a secret", 0o600, own[:2]), ("a secret without a header", 0o600, own[2:]),
    ):  # fmt: skip
        file.chmod(mode)
        said = Said("desk", "--office", office, *words)
        yield f"the secret of a proxy: {what}", None if said.status == 2 and secret not in said.errors else said
    file.chmod(0o600)
    with RealDesk(office, work / "log", *own) as desk:
        proxy = {"X-Desk-Secret": secret}
        link_of = f"/?key={desk.key}"
        nobody = Browser(desk)
        for what, headers in (
            ("no secret", {"X-User": "anna"}), ("another secret", {"X-User": "anna", "X-Desk-Secret": secret[::-1]}),
            ("half of it", {"X-User": "anna", "X-Desk-Secret": secret[:16]}), ("no name", proxy),
            ("a name with marks", {**proxy, "X-User": "an\x1bna"}),
            ("a name of 90 letters", {**proxy, "X-User": "a" * 90}),
        ):  # fmt: skip
            yield f"{what}, with the link", nobody.get(link_of, **headers).wrong(400, 403)
        anna, bert = (Browser(desk, **proxy, **{"X-User": name}).came_in() for name in ("anna", "bert"))
        yield "who the proxy names", None if "You are anna" in anna.get("/").text else anna.get("/").text[-600:]
        yield "one cookie under another name", anna.get("/", **{"X-User": "bert"}).wrong(403)
        form = anna.get("/names").fields("/names/look")
        named = {**form, "kind": "user", "number": "1", "name": "x"}
        sent = anna.post("/names/look", named, headers={"X-User": "bert"})
        yield "a form under another name", sent.wrong(403)
        yield "the cookie of another one", anna.get("/", Cookie=cookie_of(bert)).wrong(403)
        alone = Browser(desk, **{"X-User": "anna"})
        yield "a cookie without the proxy", alone.get("/", Cookie=cookie_of(anna)).wrong(403)
        yield "it is logged", desk.logged("it came in as anna, and is bert now")
        yield "that it was not the proxy is logged", desk.logged("not from the proxy: it lacks the secret")
        by_tls = {"X-Forwarded-Proto": "https"}
        cases: list[tuple[str, dict[str, str], bool]] = [
            ("by TLS", by_tls, True), ("without it", {}, False),
            ("by TLS, as a stranger says", {**by_tls, "X-Desk-Secret": "x"}, False),
        ]  # fmt: skip
        for what, more, is_so in cases:
            told = Browser(desk, **{**proxy, "X-User": "anna", **more}).get(link_of)
            cookie = told.headers.get("Set-Cookie", "")
            yield f"a cookie {what}", differs("Secure" in cookie, is_so)
        yield "the secret is not in the log", secret in desk.said()
        yield from secret_attempts(desk, anna, bert)
    with RealDesk(office, work / "alone", "--who", "ana") as desk:
        told = Browser(desk, **{"X-Forwarded-Proto": "https"}).get(f"/?key={desk.key}")
        yield "TLS that nobody who is a proxy tells", "Secure" in told.headers.get("Set-Cookie", "")


def cookie_of(browser: Browser) -> str:
    return "; ".join(f"{name}={word}" for name, word in browser.cookies.items())


# What a page says, and what a command says of itself.


def page_attempts(work: Path) -> Attempts:
    """Where a folder lies changes no page, and no sentence says to the desk what came of a command."""
    desk_voice = voice.Desk(Path("/days"))
    for path, wanted in (
        ("/days/next", "next"), ("/days", "the folder"), ("/srv/days/x", "/srv/days/x"), ("/daysx", "/daysx"),
        ("/days.old", "/days.old"),
    ):  # fmt: skip
        yield f"the file {path} of the folder /days", differs(desk_voice.path(path), wanted)
    office = office_of(work)
    table = work / "table.csv"
    table.write_text("proposed,proposer,act,from,kind,amount\n2025-09-23,1,surrender,x,general,y\n")
    lines: list[tuple[str, int, str, list[str], list[object]]] = [
        ("done", 0, "done", [], ["status"]),
        ("a file that is not there", 3, "nothing", ["file"], ["hand-in", work / "none.csv"]),
        ("cells that are wrong", 3, "nothing", ["file", "file"], ["hand-in", table]),
        ("words that do not fit", 2, "nothing", ["words"], ["undo", "2025-09-21", "--why", "x"]),
        ("late", 2, "late", ["late"], ["release", "2025-09-22", "--why", "x", "--yes", "--seen", "0" * 64]),
        ("words as if it was late", 2, "nothing", ["words"], ["undo", f"{CAME_LATE}", "--why", "x"]),
    ]  # fmt: skip
    for what, status, kind, codes, line in lines:
        file = work / "outcome.json"
        plain, said = Said(*line, "--office", office), Said(FOR_DESK, office, file, *line, "--office", office)
        own = outcomes.read(file)
        told = [fault.code for fault in own.faults] if own else None
        is_so = own and (own.kind.value, own.status, told) == (kind, status, codes)
        yield f"what came of a command: {what}", None if is_so else (own, said)
        yield f"its status is the same: {what}", differs(said.status, plain.status)
    yield from typed_attempts(office, work)
    yield from waiting_attempts(work / "waiting")


def typed_attempts(office: Path, work: Path) -> Attempts:
    """What somebody types comes back as it is, and the ways of a page stay, whatever the folder is called."""
    days = office.with_name("days")
    office.rename(days)
    with RealDesk(days, work / "days-log", "--who", "ana") as desk:
        browser = Browser(desk).came_in()
        typed = f"{days}/x of {days} by ./day undo --date"
        told = browser.get(f"/find?typed=1&name={urllib.parse.quote(typed)}").text
        yield "a path that was typed", None if f'value="{html.escape(typed)}"' in told else told[-900:]
        yield "the ways of the page", None if 'href="/days"' in told else told[:900]
    days.rename(office)


def waiting_attempts(work: Path) -> Attempts:
    """Nobody fills the disk of a desk by files that wait for a yes."""
    work.mkdir()
    for what, sizes in (("uploads", [1] * (MOST_WAITING + 1)), ("bytes", [MOST_BYTES_WAITING // 2 + 1] * 2)):
        own = jobs.Jobs(work, work)
        kept = [own.new_upload(size) for size in sizes[:-1]]
        try:
            own.new_upload(sizes[-1])
            yield f"too many {what}", "they were taken"
        except WordsFault as fault:
            yield f"too many {what}", None if str(fault).startswith(f"{what} that wait for a yes") else fault
        own.forget_upload(kept[0].name)
        yield f"behind a yes there is room for more {what}", not own.new_upload(sizes[-1]).is_dir()
    own = jobs.Jobs(work, work)
    place = own.new_upload(1)
    try:
        for number in range(MOST_FILES + 1):
            own.place_for(place, f"{number}.csv")
        yield "too many files at a time", "they were taken"
    except WordsFault as fault:
        yield "too many files at a time", None if str(fault).startswith("files: found more than 1,000") else fault


def outcome_attempts(work: Path) -> Attempts:
    """Nobody makes a desk believe what came of a command by words that they choose."""
    office = office_of(work)
    with RealDesk(office, work / "log", "--who", "ana") as desk:
        browser = Browser(desk).came_in()
        fields = browser.get("/release").fields("/release/yes")
        late = {**fields, "why": CAME_LATE, "state": "0" * 64, "yes": "1"}
        told = browser.job(browser.post("/release/yes", late))
        yield "somebody who comes late", None if "Back to what was typed" in told.text else told.text[-900:]
        typed = {**fields, "why": "is asked for, and waits for", "once": os.urandom(8).hex(), "day": "2025-09-21"}
        told = browser.job(browser.post("/release/yes", typed))
        yield "a reason as what the desk looks for", "It is asked for, and waits" in told.text
        named = {**fields, "kind": "user", "number": "1", "name": "a\0b", "why": "x", "once": os.urandom(8).hex()}
        yield "a name with a NUL", browser.post("/names/give", named).wrong(400)


PARTS = (
    ("pages and outcomes", page_attempts),
    ("words as those of a command", outcome_attempts),
    ("modules where somebody works", working_folder_attempts),
    ("files that are sent to a desk", upload_attempts),
    ("tables that are sent to a desk", table_attempts),
    ("bodies of strangers", body_attempts),
    ("others than the proxy", proxy_attempts),
)
