"""The package of a holder as a message for a mail program, which opens it as a draft: nothing is sent from here.

No name stands in the head of a message: only numbers, dates, and addresses and a sender that were looked at. So nobody
whose name is told can put a line there.
"""
import email.policy
from collections.abc import Mapping, Sequence
from email.headerregistry import Address
from email.message import EmailMessage
from pathlib import Path

from registry_tools.errors import FileFault, shown
from registry_tools.texts.sender import Sender, must_be_address
from registry_tools.texts.rows import rows_of, sum_of

BODY = """\
{sender}

{title}
{lead}

What to do

{tasks}

{page} has the statements of all accounts, to read and to print. They are tables in {tables}.
"""


def message(
    holder: int, days: str, sender: Sender, to: Sequence[str], told: tuple[str, str, Sequence[object]],
    files: Mapping[str, str],
) -> bytes:  # fmt: skip
    """A message to a holder of these days. `told` has the title, the lead and the tasks of its page, which is the first
    of the files that are attached, each by its name."""
    title, lead, tasks = told
    page, *tables = files
    mail = EmailMessage(email.policy.SMTP)
    mail["Subject"] = f"Registry: statements of holder {holder}, {days}"
    if sender.mail:
        mail["From"] = Address(sender.name, addr_spec=sender.mail)
    if to:
        mail["To"] = [Address(addr_spec=address) for address in to]
    # (a mail program opens it to be sent, and not as one that came)
    mail["X-Unsent"] = "1"
    words = "\n".join(f"- {task}" for task in tasks)
    mail.set_content(
        BODY.format(sender=f"From {sender}.", title=title, lead=lead, tasks=words, page=page, tables=", ".join(tables))
    )
    for name, text in files.items():
        # (as bytes: the page tells the sum of each table, and a text would get other line ends)
        kind = "html" if name == page else "csv"
        mail.add_attachment(text.encode(), "text", kind, filename=name, params={"charset": "utf-8"})
    mail.set_boundary(f"registry-{sum_of(''.join(files.values()).encode())[:40]}")
    return mail.as_bytes()


def addresses_of(path: str | Path) -> dict[int, list[str]]:
    """The addresses of holders that a file says: rows HOLDER,ADDRESS, several of a holder one below another. Raises
    FileFault."""
    source, found = rows_of(path), dict[int, list[str]]()
    for place in range(len(source)):
        fields = source.fields(place)
        if len(fields) != 2 or not (fields[0].isascii() and fields[0].isdigit()):
            raise source.fault(place, "row", shown(source.rows[place]), "HOLDER,ADDRESS")
        must_be_address(source.path, source.line(place), fields[1])
        found.setdefault(int(fields[0]), []).append(fields[1])
    return found


def must_be_of(path: str, has: Mapping[int, object], found: Mapping[int, object]) -> None:
    """Raises FileFault if a file has an address for what is no holder."""
    for holder in found:
        if holder not in has:
            raise FileFault(path, 0, "HOLDER", holder, "the number of a holder of an account")
