"""What pip and pipx install of an archive and of the repository, without a network. For cases/run-release."""
from __future__ import annotations

import os
import re
import shutil
import subprocess
import sys
import zipfile
from pathlib import Path

from harness import TOP, LeftOut, Word, answer_of, differs
from lived_weeks import WEEK, Somebody, week_fault
from notebooks import script_of
from standins import VERSION

from registry_tools import main

PYTHON = TOP / "examples" / "python"
TOLD = "import registry, sys; print(registry.__version__, len(registry.settle(sys.stdin.buffer.read()).log))"
CALLER = """\
from pathlib import Path

import registry


def refused(path: Path) -> dict[str, int]:
    report = registry.settle(path.read_bytes())
    for account in report.accounts():
        print(account.number + report.next_record)
    for row in report.log.refused():
        print(row.outcome.sentence, row.outcome.what_to_do)
    return registry.refusals(report.log)
"""


def new_room(place: Path, *wanted: Word) -> Path:
    """A place of its own for packages, into which pip has put these without a network."""
    if subprocess.run([sys.executable, "-m", "venv", place], capture_output=True, check=False).returncode:
        raise LeftOut("this Python makes no place to install into")
    offline = {**os.environ, "PIP_NO_INDEX": "1", "PIP_FIND_LINKS": "", "PIP_DISABLE_PIP_VERSION_CHECK": "1"}
    made = answer_of([place / "bin/pip", "install", *wanted], env=offline)
    assert made[2] == 0, made
    return place


def editable_fault(room: Path, sources: Path) -> object:
    """Whether `pip install -e` takes the package where it lies: a change of it is seen at once."""
    place = new_room(room, "-e", sources)
    tables = sources / "python/registry_tools/tables.py"
    before = tables.read_text()
    tables.write_text(before + "\nVERSION = '9.9'\n")
    said = answer_of([place / "bin/registry-day", "--version"], cwd=room, env={})
    tables.write_text(before)
    return differs(said, (b"registry-day of registry 9.9\n", b"", 0))


def told_fault(folder: Path) -> object:
    """What is wrong with what wheels say of themselves: a description, extras, and on which machines they run."""
    wheels = sorted(folder.glob("python/*.whl"))
    said = "".join(zipfile.Path(each, own).read_text() for each in wheels for own in named_in(each, "METADATA"))
    wanted = ("Provides-Extra: desk", 'Requires-Dist: flask; extra == "desk"', "Provides-Extra: sheets",
              "Description-Content-Type: text/markdown", "# registry-tools", "# The engine in Python")  # fmt: skip
    lacking = [words for words in wanted if words not in said]
    if lacking or not re.search(r"-py3-none-(manylinux_2_[0-9]+|linux)_\w+\.whl", wheels[0].name):
        return f"{lacking} {wheels[0].name}"
    if shutil.which("twine"):
        checked = answer_of(["twine", "check", "--strict", *wheels])
        return checked if checked[2] else None
    return None


def named_in(wheel: Path, name: str) -> list[str]:
    """The files of a wheel with this name."""
    with zipfile.ZipFile(wheel) as archive:
        return [each for each in archive.namelist() if each.endswith(f"/{name}")]


def room_of_pipx(place: Path, wanted: Word) -> Path:
    """A place of its own, into which pipx has put this without a network: its commands lie in `bin`, too."""
    if shutil.which("pipx") is None:
        raise LeftOut("pipx is not here")
    place.mkdir()
    own = {"PIPX_HOME": str(place / "home"), "PIPX_BIN_DIR": str(place / "bin"), "PIPX_MAN_DIR": str(place / "man")}
    made = answer_of(["pipx", "install", wanted], env={**os.environ, **own, "PIP_NO_INDEX": "1", "PIP_FIND_LINKS": ""})
    assert made[2] == 0, made
    return place


def commands_fault(room: Path, *asked: str) -> object:
    """What of the commands does not run in a place where pip has put them, and nothing else is."""
    elsewhere = room / "elsewhere"
    elsewhere.mkdir()
    day = room / "bin/registry-day"
    for name in asked or [*main.COMMANDS, *main.OFFICE_COMMANDS]:
        said = answer_of([day, name, "--help"], cwd=elsewhere)
        if said[2] or b"./day" in said[0] or not said[0].startswith(f"usage: registry-day {name} ".encode()):
            return f"{name}: {said}"
    monday: list[Word] = ["--office", "nb"]
    close: list[Word] = ["close", "--date", "2025-09-22", *monday]
    lived: list[list[Word]] = [
        ["init", "nb", WEEK / "monday.csv"], close, [*close, "--second"], ["audit", *monday],
    ]  # fmt: skip
    for words in lived:
        said = answer_of([day, *words], cwd=elsewhere, env={})
        is_refused = words[0] == "close" and "--second" not in words
        if (said[2] != 2 or b"no program is named" not in said[1]) if is_refused else said[2]:
            return f"{words}: {said}"
    report, rules = (WEEK / "monday-report.csv").read_bytes(), room / "bin/registry-rules"
    text = (WEEK / "monday.csv").read_bytes()
    return differs(answer_of([rules, "settle"], text, cwd=elsewhere), (report, b"", 0))


def wheels_fault(folder: Path, room: Path) -> object:
    """Both wheels together: the office settles by the library that the engine's package has."""
    place = new_room(room / "venv", *sorted(folder.glob("python/*.whl")))
    # (the Python of such a place may be one that another user can't run)
    wrong = week_fault(place / "bin/registry-day", Somebody(room / "somebody", is_other=False), "library")
    return wrong or engine_fault(place) or office_fault(place) or notebook_fault(place, folder / "src/python")


def office_fault(place: Path) -> object:
    """The office in Python as pip has put it, with its types."""
    said = answer_of([place / "bin/python", "-c", "import registry_office; print(registry_office.__version__)"], env={})
    typed = [*place.glob("lib/python*/site-packages/registry_*/py.typed")]
    return said if (said[0].decode().strip(), said[2], len(typed)) != (VERSION, 0, 2) else None


def notebook_fault(place: Path, folder: Path) -> object:
    """What is wrong with the notebook of an archive, which is run in its folder."""
    script = script_of(folder / "notebook.ipynb")
    said = answer_of([place / "bin/python", "-B", "-c", script], cwd=folder, env={})
    return None if said[2] == 0 and b"outcomes change" in said[0] else said


def engine_fault(place: Path) -> object:
    """The engine in Python as pip has put it."""
    said = answer_of([place / "bin/python", "-c", TOLD], (WEEK / "monday.csv").read_bytes(), cwd=place, env={})
    if said[0].split()[:1] != [VERSION.encode()] or said[2]:
        return f"the engine in Python: {said}"
    if not [*place.glob("lib/python*/site-packages/registry/py.typed")]:
        return "py.typed is not there"
    return None


def folder_fault(sources: Path, room: Path) -> object:
    """The folder that `tools/library --python` makes, as pip installs it."""
    made = room / "made"
    made.mkdir(parents=True)
    lib = sources / "out/library/lib"
    script = "import sys; from pathlib import Path; import packing; packing.put_python(*map(Path, sys.argv[1:]))"
    words: list[Word] = [sys.executable, "-B", "-c", script, made, lib / "libregistry.so.1", lib / "registry.source"]
    said = answer_of(words, cwd=sources / "tools")
    assert said[2] == 0, said
    return engine_fault(new_room(room / "venv", made)) or types_fault(made, room)


def types_fault(made: Path, room: Path) -> object:
    """What mypy says of the package, and of programs that call it."""
    if not shutil.which("mypy"):
        return None
    callers = {"caller": CALLER, "first": (PYTHON / "first.py").read_text()}
    callers["notebook"] = script_of(PYTHON / "notebook.ipynb")
    for name, text in callers.items():
        (room / f"{name}.py").write_text(text)
    words: list[Word] = ["mypy", "--strict", "--cache-dir", room / "cache", "--python-version", "3.10"]
    looked_at: list[list[Word]] = [["-p", "registry"]]
    looked_at += [[room / f"{name}.py"] for name in callers]
    for paths in looked_at:
        said = answer_of([*words, *paths], cwd=made, env={**os.environ, "MYPYPATH": str(made)})
        if said[2]:
            return f"mypy of {paths}: {said}"
    return None
