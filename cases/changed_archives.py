"""Archives that somebody has changed on the way: each change is told by the name of the file. For cases/run-release."""
from __future__ import annotations

import base64
import hashlib
import re
import shutil
import zipfile
from collections.abc import Callable, Iterator
from functools import partial
from pathlib import Path

from harness import Trial, Word, answer_of

from registry_tools import proof

Change = Callable[[Path], object]
# What is told of a file that is not the one that was packed.
BY_SUMS, BY_MANIFEST = "is not the file that SHA256SUMS tells", "is not the file that MANIFEST tells"


def sum_of(path: Path) -> str:
    return hashlib.sha256(path.read_bytes()).hexdigest()


def append(folder: Path, name: str) -> None:
    path = folder / name
    path.write_bytes(path.read_bytes() + b"# other\n")


def with_sums(folder: Path, name: str) -> None:
    """Changes a file, and SHA256SUMS with it."""
    before = sum_of(folder / name)
    append(folder, name)
    replace_in(folder, "SHA256SUMS", before, sum_of(folder / name))


def with_manifest(folder: Path, name: str) -> None:
    """Changes a file that was proved, and both lists with it."""
    before = sum_of(folder / name)
    with_sums(folder, name)
    old = sum_of(folder / "MANIFEST")
    replace_in(folder, "MANIFEST", before, sum_of(folder / name))
    replace_in(folder, "SHA256SUMS", old, sum_of(folder / "MANIFEST"))


def replace_in(folder: Path, name: str, old: str, new: str) -> None:
    path = folder / name
    text = path.read_text()
    assert old in text, (name, old)
    path.write_text(text.replace(old, new))


def forge_note(folder: Path) -> None:
    """A note that tells the sum of a program of somebody else."""
    append(folder, "bin/registry")
    note = folder / "share/registry/registry.source"
    note.write_text(re.sub("[0-9a-f]{64}", sum_of(folder / "bin/registry"), note.read_text()))


def add_module(folder: Path) -> None:
    (folder / "share/registry/registry_tools/added.py").write_text("pass\n")


def link_outside(folder: Path) -> None:
    path = folder / "lib/libregistry.so"
    path.unlink()
    path.symlink_to("/tmp/libregistry.so")


def wheel_in(folder: Path) -> Path:
    (path,) = folder.glob("python/registry-*.whl")
    return path


def change_wheel(folder: Path) -> None:
    """A wheel whose library is another one, with a list of its own that fits it."""
    path = wheel_in(folder)
    with zipfile.ZipFile(path) as archive:
        parts = {name: archive.read(name) for name in archive.namelist()}
    own = parts["registry/libregistry.so"] = parts["registry/libregistry.so"] + b"\0"
    told = base64.urlsafe_b64encode(hashlib.sha256(own).digest()).decode().rstrip("=")
    record = next(name for name in parts if name.endswith("/RECORD"))
    line = f"registry/libregistry.so,sha256={told},{len(own)}"
    parts[record] = re.sub(rb"registry/libregistry.so,.*", line.encode(), parts[record])
    with zipfile.ZipFile(path, "w") as archive:
        for name, content in parts.items():
            archive.writestr(name, content)


# How an archive is changed, which file is named, and what is told of it.
WAYS: dict[str, tuple[Change, str, str]] = {
    "the program": (partial(append, name="bin/registry"), "bin/registry", BY_SUMS),
    "the program and SHA256SUMS": (partial(with_sums, name="bin/registry"), "bin/registry", BY_MANIFEST),
    "the program, SHA256SUMS and MANIFEST": (
        partial(with_manifest, name="bin/registry"), "bin/registry",
        "is not the file that share/registry/registry.source tells",
    ),
    "the program and its note": (forge_note, "share/registry/registry.source", BY_SUMS),
    "the library": (partial(append, name="lib/libregistry.so.1"), "lib/libregistry.so.1", BY_SUMS),
    "the static library and SHA256SUMS": (
        partial(with_sums, name="lib/libregistry.a"), "lib/libregistry.a", BY_MANIFEST,
    ),
    "the library, SHA256SUMS and MANIFEST": (
        partial(with_manifest, name="lib/libregistry.so.1"), "lib/libregistry.so.1",
        "is not the file that lib/registry.source tells",
    ),
    "MANIFEST": (partial(append, name="MANIFEST"), "MANIFEST", BY_SUMS),
    "a module of the office": (
        partial(append, name="share/registry/registry_tools/main.py"), "share/registry/registry_tools/main.py", BY_SUMS,
    ),
    "a module more": (add_module, "share/registry/registry_tools/added.py", "is not in SHA256SUMS"),
    "a page less": (
        lambda folder: (folder / "share/man/man1/registry.1").unlink(), "share/man/man1/registry.1", BY_SUMS,
    ),
    "a link out of the folder": (link_outside, "./lib/libregistry.so", "is a link out of its folder"),
    "the header": (partial(append, name="include/registry.h"), "include/registry.h", BY_SUMS),
    "a wheel": (change_wheel, "python/registry-", BY_SUMS),
}  # fmt: skip


def told_fault(folder: Path, room: Path, change: Change, name: str, told: str) -> object:
    """What is wrong with what is told of an archive that was changed so, and whether it is installed all the same."""
    copy = room / "copy"
    shutil.copytree(folder, copy, symlinks=True)
    change(copy)
    asked: list[list[Word]] = [["--verify"], ["--prefix", room / "prefix"]]
    for words in asked:
        output, errors, status = answer_of([copy / "install", *words], env={})
        lines = [line for line in errors.decode().splitlines() if line.startswith(name) and line.endswith(told)]
        if output or status != 1 or not lines:
            return f"{words}: {output!r} {errors.decode()} {status}"
    left = [path for path in (room / "prefix").rglob("*") if not path.is_dir()]
    return f"it installed {left}" if left else None


def untouched_fault(folder: Path) -> object:
    said = answer_of([folder / "install", "--verify"], env={})
    return None if said[2] == 0 and b"all that lies here is what was packed" in said[0] else said


def archive_fault(made: Path, room: Path) -> object:
    """Whether one byte of the archive itself is told by the sum beside it."""
    shutil.copytree(made, room)
    (path,) = room.glob("*.tar.gz")
    own = bytearray(path.read_bytes())
    own[len(own) // 2] ^= 1
    path.write_bytes(bytes(own))
    said = answer_of(["sha256sum", "-c", f"{path.name}.sha256"], cwd=room)
    return None if said[2] and f"{path.name}: FAILED".encode() in said[0] else said


def installed_wheel_fault(folder: Path, room: Path) -> object:
    """Whether the library of a wheel that was changed is none that was proved: its note tells another sum."""
    copy = room / "copy"
    shutil.copytree(folder, copy, symlinks=True)
    change_wheel(copy)
    with zipfile.ZipFile(wheel_in(copy)) as archive:
        archive.extractall(room / "packages")
    own = room / "packages/registry"
    told = proof.build_of(own / "libregistry.so", own / "registry.source")
    return None if "libregistry.so is not the file that was proved" in told.doubt else f"{told}"


def trials(folder: Callable[[], Path], made: Path, room: Path) -> Iterator[tuple[str, Trial]]:
    """Trials of an unpacked archive, and of the archive that lies in a folder."""
    yield "an archive as it was packed", lambda: untouched_fault(folder())
    for number, (name, (change, file, told)) in enumerate(WAYS.items()):
        place = room / f"changed-{number}"
        yield f"changed on the way: {name}", lambda place=place, change=change, file=file, told=told: told_fault(
            folder(), place, change, file, told
        )
    yield "changed on the way: the archive", lambda: archive_fault(made, room / "changed-archive")
    yield "changed on the way: a wheel, installed", lambda: installed_wheel_fault(folder(), room / "changed-wheel")
