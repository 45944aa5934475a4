"""How the desk says things to people: fields, lags, and what nobody sees."""
import datetime
import re

from registry_tools.errors import escaped
from registry_tools.pages.html import markup

# What the fields of an instruction are called.
FIELDS = {
    "proposed": "Proposed on", "proposer": "User who proposes", "approver": "User who approves", "act": "Act",
    "from": "Account that gives", "to": "Account that receives", "account": "Account", "other": "The other account",
    "kind": "Kind of allowance", "amount": "Amount", "number": "Record of the surrender or deletion",
    "status": "New status", "year": "Year", "tonnes": "Tonnes",
}  # fmt: skip
# What the lags are called.
LAGS = {
    "trusted": "Working days that a transfer to an account of the trusted list waits",
    "other": "Working days that another transfer waits",
    "list": "Working days until an addition to a trusted list is in effect",
    "reversal": "Working days in which a surrender or a deletion can be reversed",
}  # fmt: skip
# What nobody sees, or turns the order of letters round: a page shows it by its number. (UTF-8 has no surrogates.)
UNSEEN = re.compile(
    "[\0-\x08\x0b\x0c\x0e-\x1f\x7f-\x9f\u061c\u200b-\u200f\u2028-\u202e\u2060-\u2069\ufeff\ud800-\udfff]"
)


def zone() -> str:
    """The zone of all times, with how far it is from UTC now."""
    now = datetime.datetime.now().astimezone()
    return f"{now:%Z} (UTC{now:%z})" if f"{now:%Z}" != "UTC" else "UTC"


def label(name: str) -> str:
    """What a column of an instruction is called; the later receivers have a number."""
    base, number = re.fullmatch("([a-z]*)([0-9]*)", name).groups()  # type: ignore[union-attr]
    return f"Receiver {number}" if number and base == "to" else f"Amount {number}" if number else FIELDS[base]


def in_sight(text: str) -> str:
    """The text of a page as it goes out: what nobody sees is made visible."""
    return UNSEEN.sub(lambda found: markup(escaped(found[0])), text)
