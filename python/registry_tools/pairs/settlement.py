"""Settles a day text: by a program, by the library, or by the second answer (tools/rules.py); and finds out which of
them it was."""
import os
import re
import shutil
import subprocess
from collections.abc import Iterator
from pathlib import Path

from registry_tools import engine, installed, proof, voice
from registry_tools.engine import NotSettled, find_library, run_settle, tell_once
from registry_tools.errors import WordsFault, of_file
from registry_tools.progress import progress
from registry_tools.pairs.verify import expected_rows
from registry_tools.texts.day_text import DayText
from registry_tools.texts.rows import text_of_rows
from registry_tools.texts.settler import LIBRARY, PROGRAM, PROVED, UNKNOWN, UNPROVED, Engine, engine_named

RUN = installed.SCRIPT
# What ./run starts: the program that was proved, with its note, or a build that was not; and the note of a library.
BUILT, UNPROVED_BUILD = (RUN.parent / "out" / name for name in ("registry", "registry.unproved"))
NOTE_OF_BUILT, NOTE_OF_LIBRARY = BUILT.with_name("registry.source"), "registry.source"
BUILDS = "which builds the program first if it is not there"
BY_RUN = f"{RUN}, {BUILDS}"
# How many seconds a program has to tell its version.
MOST_SECONDS = 60


def engine_of(named: str) -> Engine:
    """What `by_engine` settles by, by its own word for its version, and the note of its build."""
    program = named or installed.program() or ""
    if not program and find_library() is not None:
        lies = Path(os.path.realpath(os.environ["REGISTRY_LIBRARY"]))
        note = lies.with_name(NOTE_OF_LIBRARY)
        return engine_by(LIBRARY, text_in(note), proof.build_of(lies, note))
    command = program or str(RUN)
    try:
        output = subprocess.run([command, "--version"], capture_output=True, timeout=MOST_SECONDS, check=False).stdout
    except (OSError, subprocess.TimeoutExpired):
        return Engine(PROGRAM)
    path = shutil.which(command) or command
    is_script = os.path.exists(path) and RUN.exists() and RUN.samefile(path)
    told = output.decode("utf-8", "replace")
    if is_script:
        # (it compares the program that it starts with the note of its build)
        started = BUILT if proof.says_proved(told) else UNPROVED_BUILD
        return engine_by(PROGRAM, told, proof.build_of(started, NOTE_OF_BUILT))
    note = installed.note_of(path)
    return engine_by(PROGRAM, f"{told}\n{text_in(note)}", proof.build_of(path, note))


def engine_by(what: str, told: str, build: proof.Build) -> Engine:
    """An engine by what is told of it, its version and the commit of its sources, and by its bytes."""
    version = re.search(r"^registry ([0-9]\S*)$", told, re.MULTILINE)
    commit = re.search(r"^source: commit ([0-9a-f]+)(, with changes)?$", told, re.MULTILINE)
    sources = commit[1] + ("+" if commit[2] else "") if commit else UNKNOWN
    is_so = PROVED if build.is_proved else UNPROVED
    return Engine(what, version[1] if version else UNKNOWN, sources, is_so, build.sum or UNKNOWN)


def doubt_of_sum(row: str, named: str) -> str:
    """Of an engine that a line of the journal calls proved, that no note of a build here has its SHA-256, in words;
    nothing, if one has, or if the journal tells none. `named` is the program that the folder names, which has a note,
    too. (It may be the note of an older build that lacks.)"""
    engine = engine_named(row)
    if engine is None or not engine.is_proved or engine.sum in (UNKNOWN, *sums_here(named)):
        return ""
    return f"a program whose SHA-256 begins {engine.sum[: proof.DIGITS]}, which no note of a build here has"


def sums_here(named: str) -> Iterator[str]:
    """The SHA-256 of all programs and libraries that the notes of builds here say are proved."""
    programs = filter(None, (named and (shutil.which(named) or named), installed.program()))
    libraries = filter(None, (engine.LIBRARY, installed.library()))
    of_libraries = (library.with_name(NOTE_OF_LIBRARY) for library in libraries)
    notes = [NOTE_OF_BUILT, *map(installed.note_of, programs), *of_libraries]
    for told in map(text_in, notes):
        yield from proof.sums_in(told) if proof.says_proved(told) else ()


def text_in(path: Path) -> str:
    """The text of a file; of one that is not there, nothing."""
    try:
        return path.read_text(encoding="utf-8", errors="replace")
    except OSError:
        return ""


def by_rules(day: DayText) -> bytes:
    """The report of a day by the second answer."""
    return text_of_rows([*expected_rows(day)])


def by_engine(named: str, text: bytes, path: str | Path = "") -> bytes:
    """The report of a day text by a program; if none is named, by the one of the installation, by the library if it was
    built, and else by `./run`. A fault names the path of the text, if it has one."""
    program = named or installed.program() or ""
    library, whose = None if program else find_library(), f" of {path}" if str(path) else ""
    if library is None:
        return by_program(program, text, whose)
    progress.tell("settling by the library")
    try:
        return library.settle(text)
    except NotSettled as fault:
        raise of_file(library.name, f"settle{whose}: {fault}") from None


def settler_in_words(named: str) -> str:
    """What settles a day by these words, for people; nothing, if only the second answer does."""
    program = named or installed.program()
    if program:
        return f"the program {program}"
    if find_library():
        return "the library"
    return BY_RUN if installed.is_checkout() else ""


def by_program(program: str, text: bytes, whose: str) -> bytes:
    """The report that a program writes of a day text."""
    if not program and not RUN.exists():
        way = f"put `program = PATH` into office.ini, or have {voice.option('second')} settle"
        raise WordsFault("no program is named", way)
    name = program or str(RUN)
    progress.tell(f"settling by {name}")
    try:
        run = run_settle(name, text)
    except OSError as error:
        raise of_file(name, f"it cannot be run: {error.strerror}") from None
    if run.returncode:
        errors = run.stderr.decode("utf-8", "replace").strip()
        way = voice.either("--second has the second answer settle", "the second answer may settle")
        ends = f"settle{whose} ends with status {run.returncode}: {errors}"
        raise of_file(name, ends, f"without the program, {way}", "\n")
    tell_once(run.stderr)
    return run.stdout
