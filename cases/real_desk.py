"""A desk as a process of its own, and browsers that speak HTTP to it: what a client of Flask in the same process does
not show, such as what is refused before a body is read, and what a desk says in its log."""
from __future__ import annotations

import html
import http.client
import re
import secrets
import signal
import socket
import subprocess
import time
from collections.abc import Mapping, Sequence
from dataclasses import dataclass
from pathlib import Path
from typing import Any

from harness import TOP, LeftOut

HIDDEN = re.compile(r'<input type="hidden" name="([^"]*)" value="([^"]*)">')
FORM = r'<form[^>]* action="{}"[^>]*>(.*?)</form>'
MOST_SECONDS = 60
File = tuple[str, bytes]


@dataclass
class Answer:
    """What a desk answered."""

    status: int
    headers: http.client.HTTPMessage
    text: str

    def fields(self, action: str) -> dict[str, str]:
        """The hidden fields of the form that leads to an address."""
        found = re.search(FORM.format(re.escape(action)), self.text, re.DOTALL)
        assert found, f"no form leads to {action}: {self.text[-2000:]}"
        return {html.unescape(name): html.unescape(value) for name, value in HIDDEN.findall(found[1])}

    def wrong(self, *statuses: int) -> object:
        """What is wrong, if the status is none of these."""
        return None if self.status in statuses else f"status {self.status}: {self.text[:300]!r}"


class RealDesk:
    """`./day desk` at work. Its log goes to a file."""

    def __init__(self, office: Path, log: Path, *words: object, cwd: Path | None = None, **more: Any) -> None:
        with socket.socket() as free:
            free.bind(("127.0.0.1", 0))
            self.port = free.getsockname()[1]
        self.log = log
        line = [TOP / "day", "desk", "--office", office, "--port", self.port, *words]
        with log.open("wb") as errors:
            self.process = subprocess.Popen(
                [*map(str, line)], cwd=cwd, stdin=subprocess.DEVNULL, stdout=subprocess.PIPE, stderr=errors, text=True,
                **more,
            )  # fmt: skip
        assert self.process.stdout is not None
        said = [self.process.stdout.readline() for _ in range(2)]
        self.key = said[1].strip().partition("/?key=")[2]
        if "it needs" in self.said():
            raise LeftOut(self.said().strip())

    @property
    def host(self) -> str:
        return f"127.0.0.1:{self.port}"

    def said(self) -> str:
        """What the desk has logged so far."""
        return self.log.read_text("utf-8", "replace")

    def logged(self, words: str) -> object:
        """Whether its log says so within some seconds; what it says, if not."""
        until = time.monotonic() + MOST_SECONDS
        while time.monotonic() < until:
            if words in self.said():
                return None
            time.sleep(0.05)
        return f"no {words!r} in the log: {self.said()[-1000:]}"

    def __enter__(self) -> "RealDesk":
        return self

    def __exit__(self, *_: object) -> None:
        self.process.send_signal(signal.SIGINT)
        try:
            self.process.wait(MOST_SECONDS)
        except subprocess.TimeoutExpired:
            self.process.kill()
            self.process.wait()
        assert self.process.stdout is not None
        self.process.stdout.close()


class Browser:
    """Somebody who asks a desk, with cookies."""

    def __init__(self, desk: RealDesk, **headers: str) -> None:
        self.desk, self.headers, self.cookies = desk, headers, dict[str, str]()

    def came_in(self) -> "Browser":
        """This browser, once it has opened the link."""
        answer = self.get(f"/?key={self.desk.key}")
        assert answer.status == 200, answer
        return self

    def get(self, path: str, **headers: str) -> Answer:
        return self.ask("GET", path, b"", headers)

    def ask(self, method: str, path: str, body: bytes, headers: Mapping[str, str]) -> Answer:
        connection = http.client.HTTPConnection("127.0.0.1", self.desk.port, timeout=MOST_SECONDS)
        own = {"Host": self.desk.host, **self.headers, **headers}
        if self.cookies and "Cookie" not in own:
            own["Cookie"] = "; ".join(f"{name}={value}" for name, value in self.cookies.items())
        try:
            connection.request(method, path, body or None, {name.replace("_", "-"): own[name] for name in own})
            there = connection.getresponse()
            for cookie in there.headers.get_all("Set-Cookie", []):
                name, _, value = cookie.partition(";")[0].partition("=")
                self.cookies[name] = value
            return Answer(there.status, there.headers, there.read().decode("utf-8", "replace"))
        finally:
            connection.close()

    def post(
        self, path: str, fields: Mapping[str, str], files: Sequence[File] = (), headers: Mapping[str, str] | None = None
    ) -> Answer:
        kind, body = form_of(fields, files)
        own = {"Content-Type": kind, "Origin": f"http://{self.desk.host}", **(headers or {})}
        return self.ask("POST", path, body, own)

    def send(self, page: str, action: str, files: Sequence[File] = (), **said: str) -> Answer:
        """Opens a page, and sends its form with fields filled in, and with files."""
        answer = self.post(action, {**self.get(page).fields(action), **said}, files)
        place = answer.headers.get("Location", "")
        return self.get(place) if "/look/" in place else answer

    def job(self, answer: Answer) -> Answer:
        """The page of a command that was begun, once it has ended."""
        assert answer.status == 303, answer
        until = time.monotonic() + MOST_SECONDS
        while True:
            there = self.get(answer.headers["Location"])
            if "At work" not in there.text or time.monotonic() > until:
                return there
            time.sleep(0.1)


def form_of(fields: Mapping[str, str], files: Sequence[File] = ()) -> tuple[str, bytes]:
    """The type and the body of a form."""
    edge = secrets.token_hex(8)
    parts = [f'--{edge}\r\nContent-Disposition: form-data; name="{name}"\r\n\r\n{value}\r\n'.encode()
             for name, value in fields.items()]  # fmt: skip
    for name, content in files:
        head = f'--{edge}\r\nContent-Disposition: form-data; name="files"; filename="{name}"\r\n\r\n'
        parts.append(head.encode() + content + b"\r\n")
    return f"multipart/form-data; boundary={edge}", b"".join([*parts, f"--{edge}--\r\n".encode()])
