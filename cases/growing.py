"""Days whose reports are long for their texts."""
from collections.abc import Iterator


def day_of_long_report() -> bytes:
    """A day of less than 64 KiB with a report of more than 256 KiB: each of its distributions names eight accounts."""
    held = "100000000000000"
    rows = ["format,1", f"day,2025-03-31,{held}", "period,2021,2025", "lags,0,0,0,0", "admin,1", "admin,2"]
    rows += ["work,2025-03-31", f"account,1,allocation,1,open,no,no,0,{held},{held}"]
    rows += [f"account,{number},operator,1,open,no,no,0,{held},{held}" for number in range(2, 10)]
    rows += ["do,2025-03-31,1,2,distribute,1,general" + "".join(f",{number},1" for number in range(2, 10))] * 800
    return "\n".join([*rows, "end"]).encode()


def day_of_growing_accounts() -> bytes:
    """A day after which holdings of one digit have up to sixteen, and lists that were empty have rows."""
    much, by, operators = 10**15, "do,2025-03-31,1,2,", range(3, 11)
    rows = ["format,1", f"day,2025-03-31,{much - 999}", "period,2021,2025", "lags,0,0,0,0"]
    rows += ["surrender,operator,general", "admin,1", "admin,2", "work,2025-03-31"]
    rows += ["account,1,total,1,open,no,no,0,0,0", "account,2,allocation,1,open,no,no,0,0,0"]
    for number in operators:
        rows += [f"account,{number},operator,1,open,no,no,0,0,0", "user,1,both", "user,2,both"]
    for kind in ("general", "aviation"):
        rows += [f"{by}create,1,{kind},{much}", f"{by}central,1,2,{kind},{much}"]
    rows.append(f"{by}distribute,2,general" + "".join(f",{number},{much // 10}" for number in operators))
    for number in operators:
        rows += [f"{by}surrender,{number},general,{much // 100}"] * 2 + [f"{by}delete,{number},general,1"]
        rows += [f"{by}trust,{number},{other}" for other in (1, 2)]
        rows += [f"{by}emissions,{number},{year},0" for year in range(2021, 2025)]
        rows += [f"{by}assess,{number},{year}" for year in range(2021, 2025)]
    return "\n".join([*rows, "end"]).encode()


def growing_days() -> Iterator[tuple[str, bytes]]:
    yield "eight shares", day_of_long_report()
    yield "growing accounts", day_of_growing_accounts()
