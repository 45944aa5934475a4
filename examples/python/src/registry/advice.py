"""What to do after a refusal. `tools/tables` writes this file of the table of checks."""
from __future__ import annotations

# By the codes of the checks, from the code 1 on.
_ADVICE = (
    "Check the account numbers.",
    "Name different accounts.",
    "Use accounts of these kinds.",
    "Use another account, or ask an administrator to change the status of FROM. A closed account stays closed.",
    "Use another account.",
    "Let a representative with this right propose it. An act of administrators: let a user propose it who stands "
    "in an admin row of the day. See docs/RULES.md#users-who-may-not-do-it.",
    "Enter it again with an approver: a second representative. An act of administrators: a second administrator.",
    "Let another representative approve it. An act of administrators: let another administrator.",
    "Let a representative with this right approve it. An act of administrators: let a user approve it who stands "
    "in an admin row of the day. See docs/RULES.md#users-who-may-not-do-it.",
    "Put TO on the trusted list of FROM, and wait until the entry takes effect.",
    "Put more working days into the calendar, by work rows, and enter the instruction again.",
    "registry-day next and registry-day close enter the same row again on its due day, with its old date of "
    "proposal. Without them, enter the row so by hand.",
    "Surrender allowances of an allowed kind.",
    "Give an amount of at least 1.",
    "Check the account and the record number.",
    "Nothing is left to do. If you meant another one, check the record number.",
    "It cannot be reversed any more.",
    "Lower the amount, or let FROM receive allowances first.",
    "Lower the amount, or use another account. Before a reversal, let the account transfer allowances.",
    "Lower the amount.",
    "Use another account.",
    "Surrender enough allowances first. They count only if the period of this surrender is the current one: see "
    "docs/RULES.md#periods-and-years.",
    "Nothing. If the entry is not in effect yet, wait until it is.",
    "Check the account number.",
    "Remove an entry first.",
    "Check the year, and the period rows of the day: see docs/RULES.md#periods-and-years.",
    "Check the number of tonnes.",
    "Enter the emissions of every year from the first year of its period up to this one. A year in which nothing "
    "was emitted takes an entry of 0 tonnes. Years of earlier periods need no entry.",
)


def advice_for(code: int) -> str:
    """What to do after a refusal by the check with this code. Another code has the empty text."""
    return _ADVICE[code - 1] if 1 <= code <= len(_ADVICE) else ""
