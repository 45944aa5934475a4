"""Words that a tool at the top does not know are refused by name, and nothing is done; and words of `./day` that are
taken as they are typed."""
import subprocess
from pathlib import Path

import pytest

from harness import TOP, Said

from registry_tools import errors

MORNING = TOP / "examples/first-transfer.csv"
# What is typed, and how the first line of standard error has to begin.
REFUSED = {
    "tools/rules.py setle": "tools/rules.py: there is no command setle: write settle",
    "tools/rules.py nothing": "tools/rules.py: there is no command nothing\n",
    "tools/rules.py settle --workers 4": "tools/rules.py: settle takes no other word, and not --workers 4",
    "tools/rules.py statement x": "tools/rules.py: statement takes the number of one account, and not x",
    "tools/rules.py statement": "tools/rules.py: statement takes the number of one account\n",
    "tools/calls nothing": "tools/calls: it takes no word, such as nothing",
    "tools/types nothing": "tools/types: it takes no word, such as nothing",
    "tools/library": "library: it proves the engine first, which takes some 30 minutes the first time: name a folder",
    "tools/library --nothing": "library: there is no option --nothing.",
    "tools/prove nothing /nowhere": "prove: nothing is no crate of crates.txt",
    "tools/prove registr": "prove: registr is no crate of crates.txt: write registry\n",
    "tools/prove registry": "prove: name the folder of the logs, too",
    "day -C": "./day: -C takes a folder, and has nothing behind it",
    "day -C /nowhere status": "./day: -C /nowhere: No such file or directory",
    "day --office": "./day: there is no command behind --office\n",
    "day --office /nowhere": "./day: there is no command behind --office /nowhere",
    "day --office /nowhere status": "./day status: --office /nowhere is no folder of days",
    "day --office /nowhere xyz": "./day: there is no command xyz",
    "day close 2025-09-22 --date 2025-09-23": "./day close: the day stands twice",
}


@pytest.mark.parametrize("typed", REFUSED)
def test_a_word_that_no_tool_knows(typed: str) -> None:
    program, *words = typed.split()
    with MORNING.open("rb") as day:
        run = subprocess.run([TOP / program, *words], stdin=day, capture_output=True, text=True, check=False)
    assert run.stdout == ""
    assert run.stderr.startswith(REFUSED[typed])
    assert run.returncode != 0


def test_words_as_they_are_typed(tmp_path: Path) -> None:
    """The folder of days before the command, a folder to run it in, and the day of `close` without its option."""
    in_folder, of_folder = ["-C", str(tmp_path / "office")], ["--office", str(tmp_path / "office")]
    assert Said("init", of_folder[1], str(MORNING)).status == 0
    assert Said(*of_folder, "close", "2025-03-31", "--second").status == 0
    for words in (of_folder, [f"--office={of_folder[1]}"], in_folder, ["-C", str(tmp_path), "--office", "office"]):
        run = subprocess.run([TOP / "day", *words, "status"], capture_output=True, text=True, check=False)
        assert (run.stdout.startswith("last day: 2025-03-31, "), run.stderr, run.returncode) == (True, "", 0)


def test_letters_of_a_day_that_may_be_undone(tmp_path: Path) -> None:
    """They are made, and the exit status says that there is something to look at."""
    office = ["--office", str(tmp_path / "office")]
    assert Said("init", office[1], str(MORNING)).status == 0
    assert Said("close", "2025-03-31", "--second", *office).status == 0
    first, second = Said("send", tmp_path / "first", *office), Said("send", tmp_path / "second", "--release", *office)
    assert (first.status, first.errors.startswith("LOOK AT THIS: 2025-03-31 is not released")) == (1, True)
    assert second.status == 2 and Said("release", "2025-03-31", "--why", "x", "--yes", *office).status == 0
    assert Said("send", tmp_path / "third", *office).status == 0
    made = [sorted(path.name for path in (tmp_path / name).iterdir()) for name in ("first", "third")]
    assert made[0] == made[1] and made[0]


def test_pages_over_earlier_pages(tmp_path: Path) -> None:
    """The way out is told, and the earlier pages stay."""
    pair, pages = (TOP / "examples/week/monday.csv", TOP / "examples/week/monday-report.csv"), tmp_path / "my pages"
    assert Said("page", *pair, pages, "--only", "100210").status == 0
    before = (pages / "index.html").stat()
    again = Said("page", *pair, pages)
    assert (again.status, f"or take these away first: rm -r '{pages}'" in again.errors) == (3, True)
    assert (pages / "index.html").stat() == before
    (tmp_path / "other").mkdir()
    (tmp_path / "other/index.html").write_text("mine")
    assert "rm -r" not in Said("page", *pair, tmp_path / "other").errors


@pytest.mark.parametrize("mend", [[], ["--mend"]])
def test_a_file_that_is_no_text(tmp_path: Path, mend: list[str]) -> None:
    """A program or a picture is told to be no text; one in UTF-16, and one with a NUL, is explained as ever."""
    for path in ("/bin/sh", str(TOP / "docs/desk.png")):
        said = Said("explain", path, *mend)
        assert (said.status, said.errors) == (3, f"{path}: found bytes that stand for no letters: it is no text; "
                                                 "expected a text, such as a day text\n")  # fmt: skip
    text = MORNING.read_text()
    others = {"16": text.encode("utf-16-le"), "big": text.encode("utf-16-be"), "nul": b"\0" + text.encode()}
    for name, content in others.items():
        (tmp_path / name).write_bytes(content)
        assert "it is no text" not in Said("explain", tmp_path / name, *mend).errors


@pytest.mark.parametrize(
    ("letter", "shown"),
    [
        ("\udc80", "<byte 80>"), ("\udcff", "<byte FF>"), ("\udc7f", "<U+DC7F>"), ("\udd00", "<U+DD00>"),
        ("\0", "<NUL>"), ("\x01", "<U+0001>"), ("\u202e", "<U+202E>"), ("\xa0", "<no-break space>"),
        (" ", " "), ("\u00c4", "\u00c4"), ("'", "'"),
    ],
)  # fmt: skip
def test_a_letter_that_nobody_sees(letter: str, shown: str) -> None:
    assert errors.visible(letter) == shown
