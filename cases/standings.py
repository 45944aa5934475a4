"""Trials of what `compliance` says: who is compliant, which figure is outdated, and what a closed account means."""
from collections.abc import Iterator
from pathlib import Path

from harness import TOP, Said

from sample_days import MONDAY, MONDAY_OF_TWO_PERIODS, Pair


def compliance_trials(work: Path) -> Iterator[tuple[str, object]]:
    yield from closed_trial(work)
    yield from closed_alone_trial(work)
    yield from standing_trials(work)


def closed_trial(work: Path) -> Iterator[tuple[str, object]]:
    """Whether `compliance` says of a closed account that nothing can be done about its verdict, and of no other."""
    text = (TOP / "examples" / "compliance-year.csv").read_text()
    line = "closed: no act is done on a closed account, so that stays\n"
    for name, expected in (("open", ""), ("blocked", ""), ("closed", f"1 account that is not compliant is {line}")):
        pair = Pair(
            work,
            f"is-{name}",
            text.replace("account,100377,operator,5502,blocked,", f"account,100377,operator,5502,{name},"),
        )
        said = Said("compliance", pair.day, pair.report)
        yield f"an account that is {name}", None if said.output.endswith(expected) and said.output.count(line) == bool(
            expected
        ) else str(said)


def closed_alone_trial(work: Path) -> Iterator[tuple[str, object]]:
    """Whether an operator that is not compliant makes the exit status 1, and not if it is closed."""
    account = "account,2,operator,12,open,"
    for name, status in (("open", 1), ("blocked", 1), ("closed", 0)):
        pair = Pair(work, f"alone-{name}", MONDAY.replace(account, account.replace("open", name)))
        said = Said("compliance", pair.day, pair.report, "--year", 2024)
        yield f"one operator, which is {name}", None if said.status == status else str(said)


# The rows of an operator whose figure of 2024 was determined, what is done on the day, and the verdict on 2024.
STANDINGS = {
    "a surrender for a later year": (
        ["retired,7,surrender,general,60,2025-03-01,no", "retired,8,surrender,general,40,2025-05-01,no"],
        60, 0, "", "compliant",
    ),
    "a deletion": (
        ["retired,7,surrender,general,60,2025-03-01,no", "retired,8,deletion,general,40,2025-05-01,no"],
        60, 0, "", "compliant",
    ),
    "a reversed surrender": (
        ["retired,7,surrender,general,60,2025-03-01,no", "retired,8,surrender,general,5,2025-05-01,yes"],
        60, 5, "", "compliant",
    ),
    "other emissions before the day": (["retired,7,surrender,general,60,2025-03-01,no"], 61, 0, "", "outdated"),
    "other emissions on the day": (
        ["retired,7,surrender,general,60,2025-03-01,no"],
        60, 0, "do,2025-05-12,901,902,emissions,2,2024,59", "outdated",
    ),
    "emissions of a later year": (
        ["retired,7,surrender,general,60,2025-03-01,no"],
        60, 0, "do,2025-05-12,901,902,emissions,2,2025,9", "compliant",
    ),
    "other emissions behind an assessment of the day": (
        ["retired,7,surrender,general,60,2025-03-01,no"],
        60, 0, "do,2025-05-12,901,902,assess,2,2024\ndo,2025-05-12,901,902,emissions,2,2024,59", "outdated",
    ),
    "a first entry of a year, of no tonnes": (
        ["retired,7,surrender,general,60,2025-03-01,no"],
        60, -60, "do,2025-05-12,901,902,emissions,2,2023,0", "outdated",
    ),
    "a surrender behind the assessment": (
        ["retired,7,surrender,general,60,2025-03-01,no"], 60, -60, "", "surrendered since",
    ),
    "none, too small a surrender": (
        ["retired,7,surrender,general,50,2025-03-01,no"], 60, None, "", "short but not assessed",
    ),
    "none, and nothing missing": (["retired,7,surrender,general,60,2025-03-01,no"], 60, None, "", "not assessed"),
    "too small a surrender": (["retired,7,surrender,general,50,2025-03-01,no"], 60, -60, "", "missing"),
}  # fmt: skip


def standing_trials(work: Path) -> Iterator[tuple[str, object]]:
    """Whether a figure is outdated only if emissions up to its year changed after it was determined."""
    for name, (retired, tonnes, figure, row, verdict) in STANDINGS.items():
        years = [f"emissions,{year},0" for year in range(2021, 2024) if f",emissions,2,{year}," not in row]
        account = [
            "account,2,operator,12,open,no,no,0,500,0",
            "user,201,both",
            "user,202,both",
            *retired,
            *years,
            f"emissions,2024,{tonnes}",
            *([] if figure is None else [f"figure,2024,{figure}"]),
        ]
        text = MONDAY_OF_TWO_PERIODS.replace(
            MONDAY_OF_TWO_PERIODS[
                MONDAY_OF_TWO_PERIODS.index("account,2,") : MONDAY_OF_TWO_PERIODS.index("account,3,")
            ],
            "\n".join([*account, ""]),
        )
        pair = Pair(work, "standing", f"{text.split('do,')[0]}{row}\nend\n")
        said = Said("compliance", pair.day, pair.report, "--year", 2024, "--csv")
        yield f"a figure and {name}", None if f",{verdict}," in said.output else str(said)
