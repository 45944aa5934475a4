"""What an archive of a version is good for: unpacked, installed below a folder, and for programs in Java and Rust. For
cases/run-release."""
from __future__ import annotations

import hashlib
import json
import os
import re
import shutil
import tarfile
from collections.abc import Iterator
from datetime import datetime, timezone
from functools import partial
from pathlib import Path

import changed_archives
import debian_packages
from by_pip import commands_fault, editable_fault, folder_fault, new_room, room_of_pipx, told_fault, wheels_fault
from harness import TOP, LeftOut, Trial, answer_of, differs
from lived_weeks import Somebody, week_fault
from standins import VERSION

PARTS = [
    "bin/registry", "bin/registry-day", "bin/registry-rules", "lib/libregistry.a", "lib/libregistry.so",
    "lib/libregistry.so.1", "lib/pkgconfig/registry.pc", "include/registry.h", "share/man/man1/registry.1",
    "share/man/man1/registry-day.1", "share/man/man3/registry.3", "share/man/man5/registry-day-text.5",
    "share/bash-completion/completions/registry", "share/bash-completion/completions/registry-day",
    "share/fish/vendor_completions.d/registry-day.fish",
    "share/zsh/site-functions/_registry", "share/zsh/site-functions/_registry-day", "share/doc/registry/RULES.md",
    "src/rust/Cargo.toml", "src/java/registry_jni.c", "src/python/notebook.ipynb", "src/first-transfer.csv", "README",
    "INSTALL", "CHANGELOG.md", "MANIFEST", "SHA256SUMS", "install", "registry.spdx.json",
    "share/man/man1/registry-rules.1", "share/man/man1/registry-day-close.1", "share/doc/registry/THEOREMS.md",
]  # fmt: skip
KIT = "rattle-kit-of-this-case"
# The files that are made behind the bill of materials, and itself.
BESIDE_THE_BILL = {"./registry.spdx.json", "./SHA256SUMS"}
MANIFEST = (
    f"registry {VERSION} for ", "source: commit 0123456789ab", "proved and built with rattle-kit-of-this-case",
    "crates: ", "Only tested: ",
)  # fmt: skip


def unpacked(made: Path, room: Path) -> Path:
    (path,) = made.glob("*.tar.gz")
    with tarfile.open(path) as archive:
        archive.extractall(room)
    (folder,) = room.iterdir()
    return folder


def content_fault(folder: Path) -> object:
    """What is not in the archive, or not said in it."""
    lacking = [part for part in PARTS if not (folder / part).exists()]
    lacking += [name for name in ("registry", "registry_tools") if not [*folder.glob(f"python/{name}-{VERSION}-*.whl")]]
    if lacking or not folder.name.startswith(f"registry-{VERSION}-"):
        return f"{folder.name} lacks {lacking}"
    manifest = (folder / "MANIFEST").read_text()
    untold = [words for words in MANIFEST if words not in manifest]
    sums = answer_of(["sha256sum", "--quiet", "-c", "SHA256SUMS"], cwd=folder)
    named = {line.split("  ")[1] for line in (folder / "SHA256SUMS").read_text().splitlines()}
    files = {str(path.relative_to(folder)) for path in folder.rglob("*") if path.is_file() and not path.is_symlink()}
    return untold or (sums if sums[2] else None) or files - named - {"SHA256SUMS"} or None


def manual_fault(folder: Path) -> object:
    """What is wrong with a manual page: one without a synopsis, or of which man says something."""
    for path in sorted(folder.glob("share/man/man*/*")):
        text = path.read_text()
        name = path.stem.replace("-", "\\-")
        if f".SH NAME\n{name} \\- " not in text or ".SH SYNOPSIS\n" not in text or "./day" in text:
            return f"{path.name}: {text[:300]}"
        if f' "{datetime.fromtimestamp(path.stat().st_mtime, timezone.utc).date()}" ' not in text.split("\n")[0]:
            return f"{path.name}: {text[:100]} has not the date of the archive"
        if path.parent.name == "man1" and path.stem != "registry-day" and ".SH EXAMPLES\n" not in text:
            return f"{path.name} has no examples"
        if shutil.which("mandoc"):
            looked = answer_of(["mandoc", "-T", "lint", "-W", "warning", path])
            if looked[0] or looked[2]:
                return f"{path.name}: mandoc says {looked[0].decode()[:300]}"
        if shutil.which("groff"):
            said = answer_of(["groff", "-man", "-Tutf8", "-K", "utf8", "-ww", "-z", path])[1]
            # (a long word in a narrow column)
            wrong = [line for line in said.splitlines() if not re.search(b"cannot (adjust|break) line", line)]
            if wrong:
                return f"{path.name}: {wrong[:3]}"
    return None


def documents_fault(folder: Path) -> object:
    """What is wrong with the documents: a link that leads nowhere, or the name of a command as a checkout has it."""
    for path in sorted([*folder.glob("share/doc/registry/**/*.md"), folder / "CHANGELOG.md"]):
        text = path.read_text()
        if "./day" in text:
            return f"{path.name} speaks of ./day"
        for target in re.findall(r"\]\(([^)\s]+)\)", text):
            name, _, anchor = target.partition("#")
            there = path.parent / name if name else path
            if not re.match("[a-z]+:", target) and not (there.exists() and has_heading(there, anchor)):
                return f"{path.name}: {target} leads nowhere"
    return None


def has_heading(path: Path, anchor: str) -> bool:
    """Whether a document has the heading that a link names, if it names one."""
    heads = re.findall("(?m)^#+ (.*)$", path.read_text()) if anchor else []
    return not anchor or anchor in [re.sub(r"[^\w\- ]", "", head.lower()).replace(" ", "-") for head in heads]


def bill_fault(folder: Path) -> object:
    """What is wrong with the bill of materials: it has each file but itself and the sums, and each crate of the kit."""
    told = json.loads((folder / "registry.spdx.json").read_text())
    wanted = {
        f"./{path.relative_to(folder)}": hashlib.sha256(path.read_bytes()).hexdigest()
        for path in folder.rglob("*") if path.is_file() and not path.is_symlink()
    }  # fmt: skip
    found = {each["fileName"]: each["checksums"][1]["checksumValue"] for each in told["files"]}
    fault = differs({**wanted, **found}, wanted) or differs(wanted.keys() - found.keys(), BESIDE_THE_BILL)
    names = {each["name"]: each["versionInfo"] for each in told["packages"]}
    kit = {"csv": KIT, "clap": KIT, "rattle-kit": KIT, "registry": VERSION}
    fault = fault or differs({name: names.get(name) for name in kit}, kit)
    ids = [each["SPDXID"] for each in (*told["packages"], *told["files"])]
    named = {each[key] for each in told["relationships"] for key in ("spdxElementId", "relatedSpdxElement")}
    return fault or differs((len({*ids}), named - {*ids}), (len(ids), {"SPDXRef-DOCUMENT"}))


def completion_fault(folder: Path) -> object:
    """What bash completes, and whether zsh reads its files, where it is there."""
    for command, begun, wanted in (("registry-day", "hand", "hand-in"), ("registry", "sett", "settle")):
        file = folder / f"share/bash-completion/completions/{command}"
        script = (
            f"source {file}; COMP_WORDS=({command} {begun}); COMP_CWORD=1; "
            f"$(complete -p {command} | sed 's/.*-F \\([^ ]*\\) .*/\\1/') ; echo \"${{COMPREPLY[*]}}\""
        )
        # (the words of ./day are asked of the program)
        said = answer_of(["env", f"PATH={folder}/bin:{os.environ['PATH']}", "bash", "-c", script])
        if said[0].split()[:1] != [wanted.encode()]:
            return f"{command}: {said}"
        if shutil.which("zsh"):
            read = answer_of(["zsh", "-n", folder / f"share/zsh/site-functions/_{command}"])
            if read[2]:
                return f"zsh: {read}"
    return None


def install_fault(folder: Path, room: Path) -> object:
    """What is wrong with an installation below a folder, and with taking it away."""
    prefix = room / "prefix"
    prefix.mkdir(parents=True)
    (prefix / "other").write_text("of somebody else")
    # (twice: the second is a new version over the old one)
    for _ in range(2):
        said = answer_of([folder / "install", "--prefix", prefix], env={})
        if said[2]:
            return f"install: {said}"
    wrong = week_fault(prefix / "bin/registry-day", Somebody(room / "somebody"), "program")
    if wrong:
        return wrong
    said = answer_of([folder / "install", "--remove", "--prefix", prefix], env={})
    left = [str(path.relative_to(prefix)) for path in prefix.rglob("*")]
    return differs((said[2], left), (0, ["other"]))


# What an archive has for Java and Rust.


def java_fault(folder: Path, room: Path) -> object:
    """What is wrong with the jar: beside it Java asks for nothing but the source of a program."""
    jars = [*folder.glob(f"share/java/registry-{VERSION}.jar")]
    if not jars or not shutil.which("java"):
        raise LeftOut("there is no JDK or no C compiler here, so the archive has no jar")
    room.mkdir(parents=True)
    day, report = folder / "src/first-transfer.csv", TOP / "cases/examples/first-transfer.stdout"
    said = answer_of(["java", "-cp", jars[0], folder / "src/java/Settle.java", day], cwd=room)
    return differs((said[0], said[2]), (report.read_bytes(), 0))


def rust_fault(folder: Path, room: Path) -> object:
    """What is wrong with the crate of an archive, which links the library of that archive without a word."""
    if not shutil.which("cargo"):
        raise LeftOut("cargo is not here")
    own = {**os.environ, "CARGO_TARGET_DIR": str(room)}
    own.pop("REGISTRY_FOLDER", None)
    # (the stand-in for the library tells no words of faults and checks)
    words = ["cargo", "test", "--doc", "--offline", "--locked", "--", "settle", "accounts", "LogRow"]
    said = answer_of(words, cwd=folder / "src/rust", env=own)
    return None if said[2] == 0 and b"3 passed; 0 failed" in said[0] else said


def trials(made: Path, sources: Path, room: Path, is_built: bool) -> Iterator[tuple[str, Trial]]:
    """Trials of what `tools/release` has made in a folder, of sources in another one."""
    for name, trial in own_trials(made, sources, room, is_built):
        yield name, partial(tried, trial)


def built(is_built: bool) -> object:
    """Leaves a trial out that asks the library, where its stand-in could not be compiled."""
    if not is_built:
        raise LeftOut("there is no C compiler, so the library is none")
    return None


def tried(trial: Trial) -> object:
    """What is wrong, also if something that has to be there is not."""
    try:
        return trial()
    except (AssertionError, OSError, ValueError) as fault:
        return f"{type(fault).__name__}: {fault}"


def own_trials(made: Path, sources: Path, room: Path, is_built: bool) -> Iterator[tuple[str, Trial]]:
    room.mkdir()
    # (a folder for the time of a case is closed to others: another user comes through it)
    room.parent.chmod(0o755)
    place: list[Path] = []

    def folder() -> Path:
        place[:] = place or [unpacked(made, room / "unpacked")]
        return place[0]

    yield "what an archive has", lambda: content_fault(folder())
    yield "manual pages", lambda: manual_fault(folder())
    yield "documents", lambda: documents_fault(folder())
    yield "a bill of materials", lambda: bill_fault(folder())
    yield "completion", lambda: completion_fault(folder())
    day = "bin/registry-day"
    yield "a week in an archive", lambda: built(is_built) or week_fault(
        folder() / day, Somebody(room / "unpacked-week"), "program"
    )
    yield from changed_archives.trials(folder, made, room)
    yield "installed below a folder", lambda: built(is_built) or install_fault(folder(), room / "installed")
    yield "the commands by pip", lambda: commands_fault(new_room(room / "tools", *folder().glob("python/registry_t*")))
    yield "the top of the repository by pip", lambda: commands_fault(new_room(room / "top", sources), "close")
    yield "the top of the repository, edited where it is", lambda: editable_fault(room / "edited", sources)
    yield "what wheels say of themselves", lambda: told_fault(folder())
    by_pipx = {"archive": lambda: [*folder().glob("python/registry_t*")][0], "top of the repository": lambda: sources}
    for name, wanted in by_pipx.items():
        yield f"the commands of the {name} by pipx", lambda each=(name, wanted): commands_fault(
            room_of_pipx(room / f"pipx-{each[0].split()[0]}", each[1]()), "close"
        )
    if is_built:
        yield "both wheels", lambda: wheels_fault(folder(), room / "wheels")
        yield "the folder for Python", lambda: folder_fault(sources, room / "of-python")
        yield "the jar", lambda: java_fault(folder(), room / "java")
        yield "the Rust crate", lambda: rust_fault(folder(), room / "rust")
    yield from debian_packages.trials(made, room)
