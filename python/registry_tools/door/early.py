"""Asks of each request that has a body whether it is refused, as soon as its head was read: waitress would keep the
whole body before it asks the desk, on the disk if it is long."""
from collections.abc import Callable, Mapping
from typing import Protocol, TypeAlias, cast

import flask
import itsdangerous
from flask.sessions import SecureCookieSessionInterface
from waitress import channel, parser, server, utilities
from werkzeug.http import parse_cookie

from registry_tools.door import heads, log
from registry_tools.door.heads import Head, Refusal

# What waitress makes to serve a port.
Server: TypeAlias = server.MultiSocketServer | server.BaseWSGIServer


class Asked(Protocol):
    """A request whose head waitress has read."""

    command: str
    path: str
    headers: Mapping[str, str]
    content_length: int
    chunked: bool


def watch(made: Server, app: flask.Flask, host: str, proxy: heads.Proxy | None, most: int, most_form: int) -> None:
    """Has a server of waitress refuse bodies of strangers unread."""

    def refusal_of(asked: Asked) -> Refusal | None:
        head = head_of(asked)
        found = (
            heads.refusal_of_address(host, head) or heads.refusal_of_proxy(proxy, head)
            or heads.refusal_of_browser(proxy, head, session_of(app, head))
            or heads.refusal_of_body(head, asked.content_length, asked.chunked, most, most_form)
        )  # fmt: skip
        if found:
            log.refused(head.peer, head.method, head.path, found.code, f"{found.why}; its body was not read")
        return found

    parser = type("EarlyParser", (EarlyParser,), {"refusal_of": staticmethod(refusal_of)})
    # (the stubs of waitress take it for a channel)
    setattr(made, "channel_class", type("EarlyChannel", (channel.HTTPChannel,), {"parser_class": parser}))


class EarlyParser(parser.HTTPRequestParser):
    """A request of which nothing but the head is read, if it is refused by its head."""

    refusal_of: Callable[[Asked], Refusal | None]
    error: utilities.Error | None

    def received(self, data: bytes) -> int:
        """Takes some bytes, and answers how many."""
        was_in_head = self.body_rcv is None
        taken: int = super().received(data)
        if was_in_head and self.body_rcv is not None and not self.error:
            refusal = self.refusal_of(cast(Asked, self))
            if refusal:
                self.error = error_of(refusal)
                self.completed, self.expect_continue, self.connection_close = True, False, True
                # (what stands behind the head is no other request)
                return len(data)
        return taken


def error_of(refusal: Refusal) -> utilities.Error:
    """What waitress answers of a refusal."""
    reason = {400: "Bad Request", 403: "Forbidden", 405: "Method Not Allowed", 411: "Length Required"}
    error = utilities.Error(refusal.text)
    error.code, error.reason = refusal.code, reason.get(refusal.code, "Request Entity Too Large")
    return error


def head_of(asked: Asked) -> Head:
    """The head of a request as waitress has read it."""
    headers = {name.replace("_", "-").lower(): word for name, word in asked.headers.items()}
    return Head(asked.command, asked.path, headers, "this machine")


def session_of(app: flask.Flask, head: Head) -> dict[str, object]:
    """What the cookie of a browser says, if this desk has signed it."""
    cookies = app.session_interface
    assert isinstance(cookies, SecureCookieSessionInterface)  # (those of the gate)
    signer = cookies.get_signing_serializer(app)
    assert signer is not None  # (a desk has a secret)
    cookie = parse_cookie(head.of("Cookie")).get(app.config["SESSION_COOKIE_NAME"], "")
    try:
        found: dict[str, object] = signer.loads(cookie)
    except itsdangerous.BadData:
        return {}
    return found
