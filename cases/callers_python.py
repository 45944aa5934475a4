"""What the Python package tells of texts, for cases/run-callers: a line for each trial, with a tab and what is wrong.

usage: callers_python.py TEXTS

REGISTRY_LIBRARY names the library, and PYTHONPATH has the package.
"""
import datetime
import pickle
import random
import sys
from collections.abc import Callable, Iterator
from dataclasses import replace
from pathlib import Path
from typing import Any

import registry
from harness import TOP, differs

from registry_tools.second.days import fields_in

import placed

Trial = tuple[str, str | None]
DAY = (TOP / "examples/first-transfer.csv").read_bytes()
BUILT, SEED = 300, 103
MONDAY = datetime.date(2025, 3, 31)


def texts_in(path: Path) -> Iterator[bytes]:
    """The texts of a file: lines LENGTH, each with so many bytes behind it."""
    rest = path.read_bytes()
    while rest:
        length, _, rest = rest.partition(b"\n")
        yield rest[: int(length)]
        rest = rest[int(length) :]


def again(text: bytes) -> bytes:
    """The text that its typed rows make, in a session that takes the instructions one at a time."""
    day = registry.Day(text)
    with registry.Session(registry.write_day(day.rules(), day.accounts())) as session:
        rows = [session.apply(asked) for asked in day.instructions()]
        if rows != [*day.attempt()] or session.report() != day.settle():
            return b"one at a time gives something else"
        return session.day().text


def text_fault(text: bytes) -> str | None:
    """What is wrong with what the package says of a text."""
    wanted = placed.told_by_rows(text)
    try:
        written = again(text)
    except registry.Fault as fault:
        found = placed.Told(fault.row, str(fault.cause), fault.field, fault.name)
        return differs((found, fault.sentence.endswith(".")), (wanted, True))
    plain = "".join(f"{','.join(row)}\n" for row in fields_in(text)).encode()
    return differs((written, wanted), (plain, None))


# ---- wrong values


def refused(call: Callable[[], object], kind: type[Exception], *words: str) -> str | None:
    """What is wrong, if a call does not raise this kind of error with these words."""
    try:
        return f"it gives {call()!r}"
    except kind as error:
        return None if all(word in str(error) for word in words) else str(error)


def wrong_values() -> dict[str, tuple[Callable[[], object], type[Exception], str]]:
    own = registry.Day(DAY)
    rules, (account, *_), (asked, *_) = own.rules(), [*own.accounts()], [*own.instructions()]
    # (what is asked here has no type that fits)
    day: Any = own
    untyped: Any = registry

    def written(*instructions: Any, head: Any = rules, book: Any = (account,)) -> Callable[[], object]:
        return lambda: registry.write_day(head, book, instructions)

    injected = "general\nadmin,1"
    return {
        "an account in a text": (lambda: day.statement("1"), TypeError, "whole number"),
        "an account with decimals": (lambda: day.statement(1.5), TypeError, "whole number"),
        "yes as an account": (lambda: day.statement(True), TypeError, "whole number"),
        "a day in a text": (lambda: day.next_day("2025-05-15"), TypeError, "datetime.date"),
        "a time as a day": (lambda: day.next_day(datetime.datetime(2025, 5, 15, 9)), TypeError, "datetime.date"),
        "a code that is too large": (lambda: registry.refusal_word(2**32 + 1), ValueError, "4294967295"),
        "a code below 0": (lambda: registry.refusal_sentence(-1), ValueError, "4294967295"),
        "a code in a text": (lambda: untyped.refusal_word("1"), TypeError, "whole number"),
        "a length in a text": (lambda: untyped.report_most("1"), TypeError, "whole number"),
        "a path as rules": (lambda: untyped.write_day("x", []), TypeError, "Rules"),
        "a row in a word": (written(replace(asked, kind=injected)), ValueError, "general, aviation"),
        "a number in a text": (written(replace(asked, amount="40")), TypeError, "whole number"),
        "a number below 0": (written(replace(asked, amount=-1)), ValueError, "from 0"),
        "a number of 65 bits": (written(replace(asked, amount=2**64)), ValueError, "from 0"),
        "an act without an account": (written(replace(asked, to=None)), ValueError, "to"),
        "an act with a year": (written(replace(asked, year=2025)), ValueError, "year"),
        "an act in a text": (written(replace(asked, act="transfer")), TypeError, "Act"),
        "shares of a transfer": (written(replace(asked, shares=(registry.Share(1, 2),))), ValueError, ""),
        "a status": (written(book=[replace(account, status="shut")]), ValueError, "open, blocked"),
        "a right": (written(book=[replace(account, users={1: "all"})]), ValueError, "propose, approve"),
        "a switch": (written(book=[replace(account, has_waiver="no")]), TypeError, "bool"),
        "a version": (written(head=replace(rules, version=3)), ValueError, "version 1 or 2"),
        "two periods in version 1": (
            written(head=replace(rules, version=1, periods=[(2021, 2030), (2031, 2040)])), ValueError, "one period",
        ),
    }  # fmt: skip


def trials_of_values() -> Iterator[Trial]:
    for name, (call, kind, word) in wrong_values().items():
        yield name, refused(call, kind, word)
    shown = [repr(each) for each in (registry.Day(DAY), registry.settle(DAY), registry.settle(DAY).log)]
    yield "what is shown is short", None if all(len(own) < 80 for own in shown) else f"{shown}"
    kinds = [own for own in map(registry.__dict__.get, registry.__all__) if isinstance(own, type)]
    yield "names are those of the package", differs({own.__module__ for own in kinds}, {"registry"})
    try:
        registry.settle(b"x")
    except registry.Fault as fault:
        yield "a fault is pickled", differs(vars(pickle.loads(pickle.dumps(fault))), vars(fault))


# ---- sessions


def refused_instruction_fault() -> str | None:
    """What is wrong with a session after an instruction that is outside a limit."""
    session = registry.Session(DAY)
    (asked,) = session.day().instructions()
    before = session.report()
    wrong = refused(lambda: session.apply(replace(asked, proposer=2**32)), registry.Fault, "row 29: limit")
    return wrong or differs((session.report(), session.apply(asked).record), (before, 2))


def closed_fault() -> str | None:
    """What is wrong with a session that is closed, and closed again."""
    session = registry.Session(DAY)
    (asked,) = session.day().instructions()
    session.close()
    session.close()
    calls: list[Callable[[], object]] = [lambda: session.apply(asked), session.day, session.report, session.__enter__]
    return "; ".join(filter(None, (refused(call, ValueError, "closed") for call in calls))) or None


def trials_of_sessions() -> Iterator[Trial]:
    yield "an instruction outside a limit changes nothing", refused_instruction_fault()
    yield "a closed session answers nothing", closed_fault()
    yield "a session of no day text", refused(lambda: registry.Session(b"x"), registry.Fault, "row 1: tag")
    path: Any = "day.csv"
    yield "a session of a path", refused(lambda: registry.Session(path), TypeError, "bytes")


# ---- days that are built


def drawn_act(drawn: random.Random) -> dict[str, Any]:
    act = drawn.choice([*registry.Act])
    values: dict[str, Any] = {"kind": drawn.choice(["general", "aviation"]), "status": drawn.choice(["open", "closed"])}
    values |= {"year": drawn.randint(2021, 2100), "record_named": drawn.randint(1, 99)}
    values |= {name: drawn.randint(1, 9) for name in ("from_account", "to", "amount")}
    own = {name: values[name] for name in registry.rows.FIELDS[act]}
    if act is registry.Act.DISTRIBUTE:
        pairs = [(drawn.randint(1, 9), drawn.randint(0, 99)) for _ in range(drawn.randint(1, 8))]
        own["shares"] = tuple(registry.Share(*pair) for pair in pairs)
        own["amount"] = sum(share.amount for share in own["shares"])
    return {"act": act, **own}


def drawn_account(drawn: random.Random, number: int) -> Any:
    def day() -> datetime.date:
        return MONDAY + datetime.timedelta(days=drawn.randint(0, 999))

    def years(low: int) -> dict[int, int]:
        own = drawn.sample(range(2021, 2041), drawn.randint(0, 4))
        return {year: drawn.randint(low, 999) for year in sorted(own)}

    retired = []
    for record in range(1, drawn.randint(1, 5)):
        period = drawn.choice([None, 1, 2])
        what, amount = "surrender" if period else "deletion", drawn.randint(1, 999)
        retired.append(registry.Retired(record, what, "general", amount, day(), drawn.random() < 0.5, period))
    kind, status = drawn.choice(["operator", "trading"]), drawn.choice(["open", "blocked", "excluded", "closed"])
    held, allows = drawn.randint(0, 10**6), drawn.random() < 0.5
    own = registry.Account(number, kind, 7, status, allows, False, held, 5, {1: -3, 2: 4})
    own.users = {user: drawn.choice(["propose", "approve", "both"]) for user in range(101, 101 + drawn.randint(0, 4))}
    own.trusted = {other: day() for other in range(301, 301 + drawn.randint(0, 4))}
    own.retired, own.emissions, own.figures = retired, years(0), years(-999)
    return own


def built_fault(drawn: random.Random) -> str | None:
    """What is wrong with a day that was built of drawn rows and is read again."""
    lags = [drawn.randint(0, 9) for _ in range(4)]
    rules = registry.Rules(MONDAY, 100, [(2021, 2030), (2031, 2040)], lags[0], lags[1], lags[2], lags[3], current=2)
    rules.surrender = [("operator", "aviation"), ("aircraft", "general")]
    rules.admins, rules.working_days = [*range(1, drawn.randint(1, 5))], [MONDAY, MONDAY + datetime.timedelta(days=1)]
    accounts = [drawn_account(drawn, number) for number in range(1, drawn.randint(1, 6))]
    count = drawn.randint(0, 6)
    asked = [registry.Instruction(MONDAY, 101, drawn.choice([None, 102]), **drawn_act(drawn)) for _ in range(count)]
    text = registry.write_day(rules, reversed(accounts), asked)
    day = registry.Day(text)
    return differs((day.rules(), [*day.accounts()], [*day.instructions()]), (rules, accounts, asked))


def trials(texts: Path) -> Iterator[Trial]:
    for number, text in enumerate(texts_in(texts)):
        yield f"text {number}", text_fault(text)
    yield from trials_of_values()
    yield from trials_of_sessions()
    drawn = random.Random(SEED)
    yield from ((f"built day {number}", built_fault(drawn)) for number in range(BUILT))


if __name__ == "__main__":
    for name, fault in trials(Path(sys.argv[1])):
        print(f"{name}\t{(fault or '').replace(chr(10), ' ')}")
