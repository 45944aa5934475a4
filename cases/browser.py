"""Opens pages in a browser without a window, for the tests: chromium, which is told what to do over two pipes.

What is said over the pipes is the DevTools protocol: JSON texts with a zero byte behind each.
"""
import base64
import json
import os
import select
import shutil
import subprocess
import tempfile
import time
from collections.abc import Iterator
from typing import Any

NAME = "chromium"
# So long it may take until it tells something: a loaded machine starts it in a minute.
MOST_SECONDS = 180


def find() -> str | None:
    """The browser of the PATH; None if there is none."""
    return shutil.which(NAME)


class BrowserFault(Exception):
    """The browser did not do what it was told."""


class Browser:
    """A running browser with one page. Use it as a context."""

    def __enter__(self) -> "Browser":
        self.home = tempfile.TemporaryDirectory()
        to_browser, self.out = os.pipe()
        self.into, from_browser = os.pipe()
        words = [
            NAME, "--headless", "--no-sandbox", "--disable-gpu", "--disable-dev-shm-usage", "--hide-scrollbars",
            "--disable-background-networking", "--no-first-run", "--remote-debugging-pipe",
            f"--user-data-dir={self.home.name}",
        ]  # fmt: skip
        # The browser reads from descriptor 3, and writes to descriptor 4.
        script = f'exec "$@" 3<&{to_browser} 4>&{from_browser}'
        self.process = subprocess.Popen(
            ["bash", "-c", script, "bash", *words],
            pass_fds=(to_browser, from_browser),
            stdin=subprocess.DEVNULL,
            stdout=subprocess.DEVNULL,
            stderr=subprocess.DEVNULL,
            env={**os.environ, "HOME": self.home.name},
        )
        os.close(to_browser)
        os.close(from_browser)
        self.number, self.rest = 0, b""
        self.session: str | None = None
        self.events: list[dict[str, Any]] = []
        target = self.do("Target.createTarget", url="about:blank")["targetId"]
        self.session = self.do("Target.attachToTarget", targetId=target, flatten=True)["sessionId"]
        for part in ("Page", "Runtime", "Log", "Network"):
            self.do(f"{part}.enable")
        return self

    def __exit__(self, *_: object) -> None:
        try:
            self.do("Browser.close", of_page=False)
        except BrowserFault:
            pass
        os.close(self.out)
        try:
            self.process.wait(10)
        except subprocess.TimeoutExpired:
            self.process.kill()
            self.process.wait()
        os.close(self.into)
        try:
            self.home.cleanup()
        except OSError:
            pass

    def do(self, method: str, of_page: bool = True, **arguments: Any) -> Any:
        """Does one thing, and gives its answer. What the browser tells meanwhile goes to `events`."""
        self.number += 1
        said = {"id": self.number, "method": method, "params": arguments}
        if self.session and of_page:
            said["sessionId"] = self.session
        try:
            os.write(self.out, json.dumps(said).encode() + b"\0")
        except OSError as error:
            raise BrowserFault(f"{method}: {error.strerror}") from None
        while True:
            answer = self.read(method)
            if answer.get("id") != self.number:
                self.events.append(answer)
            elif "error" in answer:
                raise BrowserFault(f"{method}: {answer['error']['message']}")
            else:
                return answer["result"]

    def read(self, method: str) -> Any:
        """The next thing that the browser tells."""
        end = time.monotonic() + MOST_SECONDS
        while b"\0" not in self.rest:
            ready, _, _ = select.select([self.into], [], [], max(0, end - time.monotonic()))
            more = os.read(self.into, 1 << 20) if ready else b""
            if not more:
                raise BrowserFault(f"{method}: no answer")
            self.rest += more
        text, _, self.rest = self.rest.partition(b"\0")
        return json.loads(text)

    def open(self, url: str, width: int, is_dark: bool = False, height: int = 900) -> None:
        """Opens a page in a window of this width, and waits until all of it is there."""
        self.do("Emulation.setDeviceMetricsOverride", width=width, height=height, deviceScaleFactor=1, mobile=False)
        scheme = "dark" if is_dark else "light"
        self.do("Emulation.setEmulatedMedia", features=[{"name": "prefers-color-scheme", "value": scheme}])
        self.events = []
        answer = self.do("Page.navigate", url=url)
        if "errorText" in answer:
            raise BrowserFault(f"{url}: {answer['errorText']}")
        while not any(event.get("method") == "Page.loadEventFired" for event in self.events):
            self.events.append(self.read(url))

    def log(self) -> Iterator[str]:
        """The errors and warnings that the browser told of the page that is open."""
        for event in self.events:
            if event.get("method") == "Log.entryAdded":
                yield event["params"]["entry"]["text"]
            elif event.get("method") == "Runtime.exceptionThrown":
                yield event["params"]["exceptionDetails"]["text"]

    def fetched(self) -> list[str]:
        """The addresses of all that was loaded for the page."""
        return [
            event["params"]["request"]["url"]
            for event in self.events
            if event.get("method") == "Network.requestWillBeSent"
        ]

    def value(self, expression: str) -> Any:
        """The value of a script's expression in the page."""
        answer = self.do("Runtime.evaluate", expression=expression, returnByValue=True)
        if "exceptionDetails" in answer:
            raise BrowserFault(f"{expression}: {answer['exceptionDetails']['text']}")
        return answer["result"].get("value")

    def picture(self) -> bytes:
        """The whole page, as a PNG."""
        return base64.b64decode(self.do("Page.captureScreenshot", captureBeyondViewport=True, **self.whole())["data"])

    def whole(self) -> dict[str, Any]:
        size = self.do("Page.getLayoutMetrics")["cssContentSize"]
        # (a picture has at most so many rows of points)
        return {"clip": {"x": 0, "y": 0, "width": size["width"], "height": min(size["height"], 8_000), "scale": 1}}

    def printed(self) -> bytes:
        """The page as it prints, as a PDF on A4."""
        return base64.b64decode(self.do("Page.printToPDF", printBackground=False, preferCSSPageSize=True)["data"])
