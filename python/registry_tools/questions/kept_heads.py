"""Heads of a folder, and the lines that keep them elsewhere.

The head is the line of the last event; its first 12 digits are its short name. Whoever kept it can tell later whether a
folder has grown from there: each event holds the line of the one before it, so a folder that was restored from a
backup, or a copy that went another way, does not have that line.

  anchor,AT,DATE,HEAD,ENGINE,SIGNATURE

AT is when the line was made, in UTC; DATE is the last day; HEAD is the whole sum; ENGINE is what settled that day.
SIGNATURE is empty, or what `ssh-keygen -Y sign` made of all before it, in one line.
"""
import base64
import binascii
import datetime
import re
import subprocess
import tempfile
from collections.abc import Iterator
from dataclasses import dataclass, replace
from pathlib import Path

from registry_tools.errors import FileFault, WordsFault, shown
from registry_tools.office import composing
from registry_tools.office.office import Office
from registry_tools.output import must_be_writable, new_file
from registry_tools.store.events import UPGRADED, Event, Events, now
from registry_tools.store.file import Store
from registry_tools.texts.rows import bytes_of, is_there, rows_of

TAG, FORM = "anchor", "anchor,AT,DATE,HEAD,ENGINE,SIGNATURE"
FEWEST_DIGITS = 12
HEAD = re.compile(f"[0-9a-f]{{{FEWEST_DIGITS},64}}")
WHOLE = re.compile("[0-9a-f]{64}")
# For what ssh-keygen signs: a signature of something else is none of an anchor.
NAMESPACE, SIGNER = "registry-anchor", "anchor"
BEGIN, END = "-----BEGIN SSH SIGNATURE-----", "-----END SSH SIGNATURE-----"
COLUMNS_OF_ARMOUR = 70


@dataclass(frozen=True)
class Anchor:
    """A head that is kept elsewhere."""

    at: str
    date: datetime.date
    head: str
    engine: str
    signature: str = ""

    def signed_text(self) -> str:
        """What a signature is made of: all fields before it."""
        return ",".join([TAG, self.at, str(self.date), self.head, self.engine])

    def row(self) -> str:
        """Its line."""
        return f"{self.signed_text()},{self.signature}"


def read(path: str | Path) -> Iterator[tuple[int, Anchor]]:
    """The anchors of a file, each with its line. Raises FileFault at the first line that is none."""
    source = rows_of(path)
    for index in range(len(source)):
        fields = source.fields(index)
        try:
            tag, at, date, head, engine, signature = fields
            anchor = Anchor(at, datetime.date.fromisoformat(date), head, engine, signature)
            if tag != TAG or not WHOLE.fullmatch(head):
                raise ValueError
        except ValueError:
            raise source.fault(index, "row", shown(",".join(fields)), FORM) from None
        yield source.line(index), anchor


def head_of(word: str) -> str:
    """A head as somebody typed it."""
    if not HEAD.fullmatch(word):
        raise WordsFault(f"--since {word} is no head: it has {FEWEST_DIGITS} to 64 digits, 0 to 9 and a to f")
    return word


def lines_of(store: Store) -> Iterator[str]:
    """The lines of all events; before them those of the journal of an older version, if the file was made of one."""
    for event in store.events.all:
        if event.what == UPGRADED:
            yield from (line.rpartition(",")[2] for line in store.texts.lines(event.text))
        yield event.line


def not_grown(store: Store, head: str, date: datetime.date | None) -> FileFault | None:
    """What shows that a folder has not grown from a head, whose last day was `date`; nothing, if it has."""
    events = store.events
    if any(line.startswith(head) for line in lines_of(store)):
        return None
    last = events.last()
    found = f"no line with the head {head[:FEWEST_DIGITS]}"
    if date is None:
        way = "--date tells its last day"
        return FileFault(events.path, 0, "head", found, "a file that has grown from it", way, "; ")
    if last is None or last.date < date:
        ends = f"its last day is {last.date}" if last else "no day is settled"
        expected = f"the day {date}, after which the head was taken: this is an earlier state, or another folder"
        return FileFault(events.path, 0, "head", f"{found}: {ends}", expected)
    expected = f"another history up to {date}: {parting(events, date)}"
    return FileFault(events.path, 0, "head", found, expected)


def parting(events: Events, date: datetime.date) -> str:
    """Up to when a folder and one with another head may have gone together."""
    event: Event | None = next((filed for filed in reversed(events.days) if filed.date <= date), None)
    return f"here {event.date} was filed by {event.who} at {event.at}" if event else "here no day is filed up to then"


# Keeping them.


def anchor_of(office: Office) -> Anchor:
    """The anchor of a folder as it stands. Raises FileFault if a text of its last day is not what it was."""
    last = composing.last_day(office)
    # (a head that is kept says of these texts that they are right)
    for kept in (last.text, last.report, last.waiting, last.waits):
        office.store.texts.get(kept)
    anchor = Anchor(now(), last.date, office.events.last_line, last.engine)
    key = office.settings.key
    return signed(anchor, key) if key else anchor


def keep(path: str, anchor: Anchor) -> int:
    """Puts an anchor behind those of a file, and answers how many there are."""
    must_be_writable(path)
    before = bytes_of(path) if is_there(path) else b""
    if before and not before.endswith(b"\n"):
        raise FileFault(path, 0, "", "no line end behind the last line", "a line end: the file may be cut")
    count = sum(1 for _ in read(path)) if before else 0
    new_file(path, before + f"{anchor.row()}\n".encode("utf-8", "surrogateescape")).keep()
    return count + 1


# Signatures, by ssh-keygen.


def signed(anchor: Anchor, key: Path) -> Anchor:
    """An anchor with its signature by the key."""
    armoured = keygen("sign", ["-f", str(key)], anchor.signed_text(), key)
    return replace(anchor, signature="".join(line for line in armoured.split("\n") if not line.startswith("-----")))


def wrong_signature(anchor: Anchor, key: Path) -> str:
    """Why a signature is not that of the key; nothing, if it is."""
    if not anchor.signature:
        return "no signature"
    try:
        base64.b64decode(anchor.signature, validate=True)
    except (binascii.Error, ValueError):
        return f"a signature that is none: {shown(anchor.signature[:20])}"
    public = key if key.suffix == ".pub" else key.with_name(key.name + ".pub")
    with tempfile.TemporaryDirectory() as folder:
        signers, signature = Path(folder) / "signers", Path(folder) / "signature"
        try:
            signers.write_text(f"{SIGNER} {public.read_text(encoding='utf-8').strip()}\n", encoding="utf-8")
        except (OSError, UnicodeDecodeError) as error:
            raise FileFault(public, 0, "", f"it cannot be read: {error}", "the public key of the anchors") from None
        signature.write_text(armour(anchor.signature), encoding="ascii")
        words = ["-f", str(signers), "-I", SIGNER, "-s", str(signature)]
        try:
            keygen("verify", words, anchor.signed_text(), public)
        except FileFault:
            return "a signature by another key, or of another line"
    return ""


def armour(signature: str) -> str:
    """A signature in lines, as ssh-keygen reads it."""
    parts = [signature[at : at + COLUMNS_OF_ARMOUR] for at in range(0, len(signature), COLUMNS_OF_ARMOUR)]
    return "\n".join([BEGIN, *parts, END, ""])


def keygen(what: str, words: list[str], text: str, key: Path) -> str:
    """What `ssh-keygen -Y` answers of a text."""
    command = ["ssh-keygen", "-Y", what, "-n", NAMESPACE, *words]
    try:
        ran = subprocess.run(command, input=text.encode("utf-8", "surrogateescape"), capture_output=True, check=False)
    except OSError as error:
        raise FileFault("ssh-keygen", 0, "", f"it cannot be run: {error.strerror}", "OpenSSH's, which signs") from None
    if ran.returncode:
        errors = ran.stderr.decode("utf-8", "replace").strip().replace("\n", " ")
        raise FileFault(key, 0, "key", f"ssh-keygen -Y {what}: {errors}", "a key that signs anchors")
    return ran.stdout.decode("ascii", "replace")
