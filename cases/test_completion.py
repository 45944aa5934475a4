"""Completion with values: acts, commands, dates and accounts of the folder, in each shell that is here."""
from __future__ import annotations

import os
import shutil
import subprocess
from pathlib import Path

import pytest

from harness import TOP, Said
from offices import must_do

from registry_tools import tables
from registry_tools.cli import completion

MONDAY = TOP / "examples/week/monday.csv"
ACTS = [act.word for act in tables.ACTS]
ACCOUNTS = ["100210", "100377", "200045", "300118", "900001", "900009"]


@pytest.fixture(scope="module")
def office(tmp_path_factory: pytest.TempPathFactory) -> Path:
    path = tmp_path_factory.mktemp("completion") / "office"
    must_do(["init", str(path), str(MONDAY)], ["close", "2025-09-22", "--second", "--office", str(path)])
    return path


@pytest.mark.parametrize("line, wanted", [
    ("balance --office OFFICE ''", ACCOUNTS), ("balance --office OFFICE 9", ["900001", "900009"]),
    ("--office OFFICE balance --on ''", ["2025-09-22"]), ("-C OFFICE diff ''", ["2025-09-22"]),
    ("-C PARENT --office office undo ''", ["2025-09-22"]), ("compliance --office=OFFICE --day ''", ["2025-09-22"]),
    ("close --office OFFICE --date ''", ["2025-09-23", "2025-09-24", "2025-09-25", "2025-09-26"]),
    ("find --act ''", ACTS), ("find --name ''", [check.name for check in tables.CHECKS]),
    ("completion ''", ["bash", "zsh", "fish", "line"]), ("find --act --", ["--account", "--act", "--csv"]),
    ("form --", ["--help", "--to", "--xlsx"]), ("balance --office /nowhere ''", []),
    ("balance --office ''", []), ("--office ''", []), ("nonsense ''", []),
    ("-C /nowhere balance ''", []),
])  # fmt: skip
def test_words_of_a_line(office: Path, line: str, wanted: list[str]) -> None:
    words = ["" if word == "''" else word.replace("OFFICE", str(office)).replace("PARENT", str(office.parent))
             for word in line.split()]  # fmt: skip
    said = Said("completion", "line", "--", *words)
    found = said.output.split()
    assert (found[: len(wanted)] if line.endswith("--") else found, said.errors) == (wanted, ""), said


def test_commands() -> None:
    found = Said("completion", "line", "--", "cl").output.split()
    assert {"close", "diff", "reconcile", "-C", "--office", "--help"} <= {*found} and "" not in found


def test_a_folder_of_somebody_else(office: Path, tmp_path: Path) -> None:
    """One that others may write is not asked, and nothing is said in the middle of a line."""
    copy = tmp_path / "copy"
    shutil.copytree(office, copy)
    copy.chmod(0o777)
    said = Said("completion", "line", "--", "balance", "--office", copy, "")
    assert (said.output, said.errors, said.status) == ("", "", 0)


def in_shell(shell: str, work: Path, line: str) -> list[str]:
    """The words with which a shell goes on behind a line of ./day, in a folder where another program lies under this
    name."""
    if shutil.which(shell) is None:
        pytest.skip(f"{shell} is not here")
    (work / "day").write_text(f"#!/bin/sh\ntouch {work}/was-run\n")
    (work / "day").chmod(0o755)
    script = work / "completion"
    script.write_text(Said("completion", shell).output)
    words = f"./day {line}".split(" ")
    if shell == "fish":
        asked = f"source {script}; complete -C '{TOP}/day {line}'"
    else:
        setting = f"COMP_WORDS=({' '.join(word or repr('') for word in words)}); COMP_CWORD={len(words) - 1}"
        asked = f"source {script}; {setting}; _registry_day; printf '%s\\n' \"${{COMPREPLY[@]}}\""
    run = subprocess.run([shell, "-c", asked], cwd=work, capture_output=True, text=True, check=False, timeout=600)
    assert not (work / "was-run").exists()
    return [own.split("\t")[0] for own in run.stdout.splitlines()]


@pytest.mark.parametrize("shell", ["bash", "fish"])
def test_in_a_shell(office: Path, tmp_path: Path, shell: str) -> None:
    """The words of the folder come, and the program of the checkout is asked, not what lies where somebody stands."""
    assert in_shell(shell, tmp_path, f"balance --office {office} 90000") == ["900001", "900009"]
    assert {*in_shell(shell, tmp_path, f"--office {office} undo 2025")} == {"2025-09-22"}
    assert in_shell(shell, tmp_path, "find --act rev") == ["reverse"]
    assert {"--account", "--act"} <= {*in_shell(shell, tmp_path, "find --ac")}
    assert "close" in in_shell(shell, tmp_path, "clo")


@pytest.mark.parametrize("name", [name for name in completion.files() if "registry-day" in name])
def test_files_of_an_installation(office: Path, tmp_path: Path, name: str) -> None:
    """What a package puts where shells look, beside a registry-day on the PATH; a shell that is there reads it."""
    text, shell = completion.files()[name], name.partition("-")[0].partition("/")[0]
    if shutil.which(shell) is None:
        pytest.skip(f"{shell} is not here")
    (tmp_path / "registry-day").symlink_to(TOP / "day")
    (tmp_path / "file").write_text(text)
    path = {**os.environ, "PATH": f"{tmp_path}:{os.environ['PATH']}", "REGISTRY_OFFICE": str(office)}
    asked = {
        "bash": "source ./file; COMP_WORDS=(registry-day balance 90000); COMP_CWORD=2; _registry_day;"
                " echo ${COMPREPLY[@]}",
        "zsh": "compadd() { shift; print -- $@ }; _files() { : }; words=(registry-day balance 90000); CURRENT=3;"
               " . ./file",
        "fish": "source ./file; complete -C 'registry-day balance 90000'",
    }[shell]  # fmt: skip
    run = subprocess.run([shell, "-c", asked], cwd=tmp_path, env=path, capture_output=True, text=True, check=False)
    assert {"900001", "900009"} <= {*run.stdout.split()}, run


@pytest.mark.parametrize("shell", completion.SHELLS)
def test_no_bare_word(shell: str) -> None:
    """Neither `day` nor `run`, which others may have, too, is completed by these words."""
    lines = [line.split() for line in Said("completion", shell).output.splitlines() if line.startswith("complete ")]
    assert lines and not any({"day", "run"} & {*line} for line in lines)


def test_words_behind_a_shell() -> None:
    said = Said("completion", "bash", "x")
    assert (said.status, said.output) == (2, "") and "bash takes no other word, and not x" in said.errors
