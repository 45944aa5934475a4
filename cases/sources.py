"""What cases compare documents with: the table of the checks, as the code has it."""
import re
import sys
from pathlib import Path

CHECKS = Path(__file__).resolve().parent.parent / "crates/reg_base/src/refusals.rt"
# A row of the table: the code of a check, its variant and its name.
ROW = re.compile(r'^ +(\d+) (\w+) b"(\w+)",$', re.MULTILINE)


def checks_of_code() -> dict[int, str]:
    """The names of the checks by their codes, in their order."""
    rows = ROW.findall(CHECKS.read_text(encoding="utf-8"))
    checks = {int(code): name for code, _, name in rows}
    if not rows or [*checks] != [*range(1, len(rows) + 1)]:
        sys.exit(f"{CHECKS}: no table of checks whose codes count up from 1")
    return checks
