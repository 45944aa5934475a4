"""Closes two days of a folder, and asks what came of them: a program over the package registry_office."""
import datetime
import sys
from pathlib import Path

import registry_office as office

WEEK = Path("examples/week")


def close(folder: office.Office, date: datetime.date) -> None:
    """Closes a day, whatever is to be looked at, by the rules in Python: without `by_second`, the engine settles it."""
    came = office.close(folder, office.caller(folder, "ana"), office.Close(date, by_second=True, yes=True))
    if isinstance(came, office.Closed):
        print(f"{date}: done {came.outcome.done}, refused {came.outcome.refused}, waiting {came.outcome.waiting}")
    else:
        print(f"{date} is not closed: {came}")


def main(place: str) -> None:
    """Makes a folder, and lives two days in it."""
    office.make_folder(office.Init(Path(place), str(WEEK / "monday.csv")), "ana")
    with office.open_folder(place) as folder:
        close(folder, datetime.date(2025, 9, 22))
        office.hand_in(
            folder, office.caller(folder, "ben"), office.HandIn((office.Given(str(WEEK / "tuesday-do.csv")),))
        )
        close(folder, datetime.date(2025, 9, 23))
        try:
            office.undo(folder, office.caller(folder, "ben"), office.Undo(datetime.date(2025, 9, 22), "a slip"))
        except office.Fault as fault:
            print(f"{fault.code}: {fault}")
        with office.days_of(folder) as days:
            for date, account, kind, *amounts in office.balance(days, 100210):
                print(date, account, kind, *amounts)
    found = office.audit(Path(place), office.Audit(by_second=True))
    print("differences:", len(found.faults))


if __name__ == "__main__":
    main(sys.argv[1])
