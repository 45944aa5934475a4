"""Compares what a program answers with what it has to answer."""
import subprocess
from pathlib import Path

from harness import MOST_SECONDS

# An output, a fault line and a status.
Expected = tuple[str, str, int]


def difference(program: Path | str, words: str, text: bytes, expected: Expected) -> str:
    """Where an answer (output, fault line, status) is another one than it has to be."""
    try:
        run = subprocess.run([program, *words.split()], input=text, capture_output=True, timeout=MOST_SECONDS)
    except subprocess.TimeoutExpired:
        return f"{words}: no answer in {MOST_SECONDS} seconds"
    written = (run.stdout.decode(errors="replace"), run.stderr.decode(errors="replace"), run.returncode)
    if written == expected:
        return ""
    pairs = zip([*written[0].splitlines(), ""], [*expected[0].splitlines(), ""])
    place, pair = next(((place, pair) for place, pair in enumerate(pairs, 1) if pair[0] != pair[1]), (0, ("", "")))
    rows = f"row {place} is {pair[0]!r}, and has to be {pair[1]!r}; " if place else ""
    return f"{words}: {rows}fault line and status are {written[1:]}, and have to be {expected[1:]}"
