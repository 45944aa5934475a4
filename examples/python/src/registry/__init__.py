"""The settlement engine of an emission allowance registry.

    import registry

    report = registry.settle(open("day.csv", "rb").read())
    for row in report.log.refused():
        print(row.record, row.instruction.act.value, row.outcome.name)

`settle` answers a `Report`, or raises `Fault` with the first faulty row and its cause. `Day` has all other questions:
statements, totals, figures, the plan, and what the text itself says. `write_day` makes the text of a day from its
rules, accounts and instructions. A `Session` takes instructions one at a time.
"""
from __future__ import annotations

from registry import native
from registry.native import (
    Cause, Fault, NoAccount, NoNextDate, Text, engine_version, fault_sentence, field_name, refusal_sentence,
    refusal_word, report_most,
)  # fmt: skip
from registry.rows import (
    Account, Act, Determined, Done, Holding, Instruction, LogRow, Refused, RefusedRow, Retired, Share, Task, Totals,
)  # fmt: skip
from registry.sessions import Session
from registry.texts import Day, Log, Report, Statement, refusals
from registry.writing import Rules, write_day

__all__ = [
    "Account", "Act", "Cause", "Day", "Determined", "Done", "Fault", "Holding", "Instruction", "Log", "LogRow",
    "NoAccount", "NoNextDate", "Refused", "RefusedRow", "Report", "Retired", "Rules", "Session", "Share", "Statement",
    "Task", "Totals", "engine_version", "fault_sentence", "field_name", "refusal_sentence", "refusal_word", "refusals",
    "report_most", "settle", "write_day",
]  # fmt: skip

# The version of the engine that this package was made with.
__version__ = "1.2"


def settle(day: Text) -> Report:
    """The report of the day that these bytes describe. What is not like bytes, such as a path, is a `TypeError`."""
    return Report(native.settle(day))


# (whoever meets one of these in a traceback finds it under the name by which it is imported)
for _name in __all__:
    if isinstance(globals()[_name], type):
        globals()[_name].__module__ = __name__
