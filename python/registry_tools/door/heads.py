"""What is refused by the head of a request alone, before a byte of its body is kept: else whoever knows where a desk
listens fills its disk. The address, the proxy, the browser and its name are known then; the token of a form is not."""
import hmac
import os
import secrets
import stat
from collections.abc import Mapping
from dataclasses import dataclass
from pathlib import Path

from registry_tools.errors import WordsFault

# The header by which a proxy shows that it is the one that was told the secret, and the one by which it says how the
# browser asked it.
SECRET_HEADER, TLS_HEADER = "X-Desk-Secret", "X-Forwarded-Proto"
# A secret has 128 bits at least, in the letters that somebody writes it with.
FEWEST_LETTERS, LONGEST_NAME = 22, 80
# A form without files is much smaller than a file.
MOST_FORM = 1 << 20
# The forms that send files.
OF_FILES = {"/hand-in/look", "/names/look", "/correct/look"}
# Where a browser that says so sends a form from: a page of the desk, or nowhere, as by a link.
OWN_SITES = {"same-origin", "none"}
NO_LINK = "Open the link that the desk printed at its start. If you were in already, go on to this page:"


@dataclass(frozen=True)
class Proxy:
    """The proxy before a desk: the header by which it names who works at it, and its secret."""

    header: str
    secret: str


@dataclass(frozen=True)
class Head:
    """The head of a request: its method, its path, a header by its name in small letters, and where it comes from."""

    method: str
    path: str
    headers: Mapping[str, str]
    peer: str

    def of(self, name: str) -> str:
        """What a header says; nothing, if it is not there. (Other blanks than these are part of it.)"""
        return self.headers.get(name.lower(), "").strip(" \t")


@dataclass(frozen=True)
class Refusal:
    """Why a request is refused: the status, what the page says, what the log says, and whether the page leads on."""

    code: int
    text: str
    why: str
    is_again: bool = False


def is_of(proxy: Proxy, head: Head) -> bool:
    """Whether a request comes from the proxy: it alone knows the secret."""
    return hmac.compare_digest(head.of(SECRET_HEADER).encode("utf-8", "replace"), proxy.secret.encode())


def name_in(proxy: Proxy, head: Head) -> str:
    """Who works at the browser, as its proxy says it; nothing, if it says none, or if somebody else says it."""
    return plain_name(head.of(proxy.header)) if is_of(proxy, head) else ""


def plain_name(name: str) -> str:
    """A name that a proxy tells; nothing, if it can be none."""
    return name if name.isprintable() and len(name) <= LONGEST_NAME else ""


def says_tls(head: Head) -> bool:
    """Whether a request says that the browser asked by TLS."""
    return head.of(TLS_HEADER).lower() == "https"


def is_by_tls(proxy: Proxy | None, head: Head) -> bool:
    """Whether the browser asked its proxy by TLS: the proxy alone is believed."""
    return proxy is not None and is_of(proxy, head) and says_tls(head)


def refusal_of_address(host: str, head: Head) -> Refusal | None:
    """Why a request to another address, or of another page, is refused."""
    if head.of("Host") != host:
        return Refusal(400, "This is another address than that of the desk.", "another host")
    return refusal_of_site(host, head)


def refusal_of_site(host: str, head: Head) -> Refusal | None:
    """Why a form of another page is refused, at a desk that is asked by this address."""
    site, origin = head.of("Sec-Fetch-Site"), head.of("Origin")
    # (a browser says nothing of where a form stands that it sends without a referrer, and a proxy has another address)
    is_own = site in OWN_SITES if site else True
    sites = "", "null", f"http://{host}", f"https://{host}"
    if head.method == "POST" and not (is_own and (site or origin in sites)):
        return Refusal(403, "The form is of another page than one of this desk.", "a form of another page")
    return None


def refusal_of_proxy(proxy: Proxy | None, head: Head) -> Refusal | None:
    """Why a request that does not come from the proxy, or names nobody, is refused."""
    if proxy is None:
        return None
    if not is_of(proxy, head):
        return Refusal(403, "This desk answers its proxy alone.", "not from the proxy: it lacks the secret")
    if not name_in(proxy, head):
        told = "The proxy before this desk has to say who you are, and it does not."
        return Refusal(403, told, "the proxy names nobody")
    return None


def refusal_of_browser(proxy: Proxy | None, head: Head, session: Mapping[str, object]) -> Refusal | None:
    """Why a browser is refused that did not come by the link, or that came as somebody else."""
    if "token" not in session:
        return Refusal(403, NO_LINK, "it did not come by the link", is_again=True)
    if proxy is not None and session.get("name") != name_in(proxy, head):
        text = "You came in under another name: open the link once more."
        return Refusal(403, text, f"it came in as {session.get('name')}, and is {name_in(proxy, head)} now")
    return None


def refusal_of_body(head: Head, length: int, is_chunked: bool, most: int, most_form: int) -> Refusal | None:
    """Why a body is refused of which the head says so much."""
    if head.method != "POST":
        return Refusal(405, "That is no method of this desk.", "a body that no form sends")
    if is_chunked:
        return Refusal(411, "How long the form is has to be said before it.", "a body without its length")
    if length > (most if head.path in OF_FILES else most_form):
        return Refusal(413, "The form is too long.", f"a body of {length:,} bytes")
    return None


def read_secret(path: str) -> str:
    """The secret of a proxy, in a file that nobody else may read. Raises WordsFault."""
    try:
        file = os.open(path, os.O_RDONLY | os.O_NOFOLLOW | os.O_NONBLOCK)
    except OSError as error:
        raise WordsFault(f"--proxy-secret {path}: it cannot be read: {error.strerror}") from None
    try:
        status = os.fstat(file)
        if not stat.S_ISREG(status.st_mode) or status.st_mode & 0o077 or status.st_uid not in (os.geteuid(), 0):
            expected = "expected a file of the mode 0600 of this login"
            raise WordsFault(f"--proxy-secret {path}: others may read it; {expected}")
        secret = os.read(file, 1 << 12).decode("utf-8", "replace").strip()
    finally:
        os.close(file)
    if len(secret) < FEWEST_LETTERS or not (secret.isascii() and secret.isprintable()):
        made = f"printf %s {secrets.token_urlsafe(24)} > {Path(path).name}"
        raise WordsFault(f"--proxy-secret {path}: expected a line of {FEWEST_LETTERS} letters or more, as: {made}")
    return secret
