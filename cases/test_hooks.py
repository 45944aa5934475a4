"""The program that office.ini has run behind `close`: what it is told, what goes wrong, and when it is not run."""
from __future__ import annotations

import os
import re
import signal
import subprocess
from pathlib import Path

import pytest

from harness import TOP, Said
from offices import must_do

MONDAY, CLOSE = TOP / "examples/week/monday.csv", ("close", "2025-09-22", "--second")
# It says what it was told, and asks the folder that it finds.
TELLS = """#!/bin/sh
echo "$# $1 $2"
"{day}" status | head -n 1 | cut -c 1-20
"""


def office_with(work: Path, script: str | None, named: str = "") -> list[str]:
    """The words that name a folder whose office.ini names this script."""
    office = ["--office", str(work / "office")]
    must_do(["init", office[1], str(MONDAY)])
    program = work / "hook"
    if script is not None:
        program.write_text(script)
        program.chmod(0o700)
    with (work / "office/office.ini").open("a") as settings:
        settings.write(f"[hooks]\nafter_close = {named or program}\n")
    return office


def test_what_it_is_told(tmp_path: Path) -> None:
    """Its arguments are the day and the head of the folder, which it finds by a variable; what it says is no answer."""
    office = office_with(tmp_path, TELLS.format(day=TOP / "day"))
    said = Said(*CLOSE, *office)
    assert said.status == 0 and said.output.startswith("2025-09-22 is settled")
    found = re.search(r"\n2 2025-09-22 ([0-9a-f]{64})\nlast day: 2025-09-22\n", said.errors)
    assert found and f"head: {found[1][:12]}\n" in said.errors, said
    assert "2025-09-22" not in said.output.replace("2025-09-22 is settled", "")


def test_what_it_leaves_at_work(tmp_path: Path) -> None:
    """Nobody waits for what it has started, and of much that it says the begin is told."""
    os.mkfifo(tmp_path / "never")
    many = "head -c 1000000 /dev/zero | tr '\\0' a"
    office = office_with(tmp_path, f"#!/bin/sh\n(read word < {tmp_path}/never) &\n{many}\n")
    said = Said(*CLOSE, *office)
    assert said.status == 0 and said.errors.endswith("a" * (1 << 16) + "\n")
    (tmp_path / "never").write_text("\n")


@pytest.mark.parametrize("script, why", [
    ("#!/bin/sh\necho half; exit 7\n", "ends with status 7"), ("#!/bin/sh\nkill -9 $$\n", "ends with status -9"),
    ("no script", "cannot be run: Exec format error"), (None, "cannot be run: No such file or directory"),
])  # fmt: skip
def test_that_it_goes_wrong(tmp_path: Path, script: str | None, why: str) -> None:
    """It is told, and the day is filed."""
    office = office_with(tmp_path, script)
    said = Said(*CLOSE, *office)
    line = f"LOOK AT THIS: after_close of office.ini: {tmp_path}/hook {why}; 2025-09-22 is filed all the same\n"
    assert said.status == 0 and said.errors.endswith(line), said
    assert Said("status", *office).output.startswith("last day: 2025-09-22")


def test_that_it_changes_the_folder(tmp_path: Path) -> None:
    """The folder is not locked meanwhile: it may hand something in."""
    (tmp_path / "do.csv").write_text("do,2025-09-23,901,902,create,900009,general,7\n")
    office = office_with(tmp_path, f'#!/bin/sh\n"{TOP}/day" hand-in {tmp_path}/do.csv >/dev/null\n')
    assert Said(*CLOSE, *office).status == 0
    assert "do,2025-09-23,901,902,create,900009,general,7" in Said("status", *office).output


def test_an_interrupt(tmp_path: Path) -> None:
    """It ends a program that hangs, and the day stays filed: the status says so."""
    os.mkfifo(tmp_path / "begun")
    os.mkfifo(tmp_path / "never")
    office = office_with(tmp_path, f"#!/bin/sh\necho > {tmp_path}/begun\nread word < {tmp_path}/never\n")
    command: list[str | Path] = [TOP / "day", *CLOSE, *office]
    with subprocess.Popen(command, stderr=subprocess.PIPE, text=True, start_new_session=True) as run:
        (tmp_path / "begun").read_text()
        os.killpg(run.pid, signal.SIGINT)
        _, errors = run.communicate(timeout=600)
    assert run.returncode == 0 and "hook was interrupted; 2025-09-22 is filed all the same" in errors, errors


@pytest.mark.parametrize("words", [(*CLOSE, "--date", "2025-09-23"), ("close", "2025-09-23", "--second"), ("status",)])
def test_that_it_is_not_run(tmp_path: Path, words: tuple[str, ...]) -> None:
    """Where nothing is filed, and behind other commands."""
    office = office_with(tmp_path, f"#!/bin/sh\necho > {tmp_path}/was-run\n")
    Said(*words, *office)
    assert not (tmp_path / "was-run").exists()
    assert Said(*CLOSE, *office).status == 0 and (tmp_path / "was-run").exists()


def test_a_program_that_others_may_write(tmp_path: Path, monkeypatch: pytest.MonkeyPatch) -> None:
    """Nothing is done, and it is told who could have written it; a list of programs lets it be run."""
    office = office_with(tmp_path, f"#!/bin/sh\necho > {tmp_path}/was-run\n")
    (tmp_path / "hook").chmod(0o757)
    said = Said(*CLOSE, *office)
    assert said.status == 3 and "office.ini: after_close: found " in said.errors and "everybody" in said.errors, said
    assert "2025-09-22, filed" not in Said("status", *office).output
    assert not (tmp_path / "was-run").exists()
    monkeypatch.setenv("REGISTRY_PROGRAMS", str(tmp_path / "hook"))
    assert Said(*CLOSE, *office).status == 0 and (tmp_path / "was-run").exists()


def test_another_name_below_hooks(tmp_path: Path) -> None:
    office = office_with(tmp_path, "#!/bin/sh\n")
    settings = tmp_path / "office/office.ini"
    settings.write_text(settings.read_text().replace("after_close", "after_undo"))
    said = Said(*CLOSE, *office)
    assert said.status == 3 and "[hooks]: found 'after_undo'; expected one of after_close" in said.errors, said
