"""Puts together in a folder what the archive of a version holds: what was proved and built, the commands, what is read
beside them, wheels, sources for other languages, and what tells of all of it.

usage: packing.py FOLDER PLATFORM

PLATFORM is such as x86_64-linux. `tools/release` calls it, behind its looks at what is there.
"""
import hashlib
import os
import re
import shutil
import stat
import subprocess
import sys
import tempfile
from collections.abc import Iterator
from pathlib import Path

sys.path.append(str(Path(__file__).resolve().parent))
import bill
import build_package
import documents
import jars
import manual
import package  # noqa: F401
import versions
from registry_tools import streams
from registry_tools.cli import completion, man

sys.path.insert(0, str(Path(__file__).resolve().parent.parent / "packaging"))
import build_registry  # noqa: E402

TOP = Path(__file__).resolve().parent.parent
PACKAGING = TOP / "packaging"
OUT = TOP / "out"
LIBRARY = OUT / "library"
SHARED, DOCUMENTS = "share/registry", "share/doc/registry"
PYTHON = TOP / "examples/python/src/registry"
# The sources of the bindings, without what a build leaves, and without tests, which read cases.
SOURCES = {f"src/{name}": f"examples/{name}" for name in ("c", "java", "python", "rust")}
LEFT_OUT = shutil.ignore_patterns("target", "out", "tests", "__pycache__", "*.class", "*.so", "*.jar", "*.pyc")
# The day texts that the examples among these read.
READ = ("first-transfer.csv", "morning-batch.csv", "compliance-year.csv", "wrong-date.csv")
# Where else the library is.
AGAIN = "The wheel of the engine has lib/libregistry.so.1, too, and the jar links lib/libregistry.a."
# What is in the archive and was only tested.
ONLY_TESTED = "registry-day, registry-rules, the Python packages, the Rust crate, the Java binding, pages, completion"


def copy(source: Path, target: Path, mode: int | None = None) -> None:
    target.parent.mkdir(parents=True, exist_ok=True)
    shutil.copy(source, target, follow_symlinks=False)
    if mode is not None:
        target.chmod(mode)


def write(target: Path, text: str) -> None:
    target.parent.mkdir(parents=True, exist_ok=True)
    target.write_text(text, encoding="utf-8")


def put_programs(folder: Path) -> None:
    copy(OUT / "registry", folder / "bin/registry", 0o755)
    copy(OUT / "registry.source", folder / SHARED / "registry.source")
    for name in ("registry-day", "registry-rules"):
        copy(PACKAGING / name, folder / "bin" / name, 0o755)
    copy(PACKAGING / "install", folder / "install", 0o755)
    for path in build_package.files():
        copy(path, folder / SHARED / path.relative_to(TOP / "python"))
    for path in sorted([*PYTHON.glob("*.py"), PYTHON / "py.typed"]):
        copy(path, folder / SHARED / "registry" / path.name)


def put_library(folder: Path) -> None:
    for part in ("lib", "include"):
        shutil.copytree(LIBRARY / part, folder / part, symlinks=True)


def put_manuals(folder: Path) -> None:
    """The manual pages, and what shells complete."""
    pages = folder / "share/man"
    streams.names["./day"] = "registry-day"
    write(pages / "man1/registry.1", manual.of_program(said(OUT / "registry", "--help")))
    write(pages / "man1/registry-rules.1", manual.of_rules(said(folder / "bin/registry-rules", "--help")))
    for name, text in man.pages().items():
        write(pages / "man1" / name, text)
    write(pages / "man3/registry.3", manual.of_library(manual.read(TOP / "include/registry.h")))
    write(pages / "man5/registry-day-text.5", manual.of_text(documents.in_installation("FORMATS.md")))
    for name, text in completion.files().items():
        write(folder / "share" / name, text)


def said(*words: str | Path) -> str:
    """What a command writes."""
    return subprocess.run(words, stdin=subprocess.DEVNULL, capture_output=True, check=True).stdout.decode()


def put_documents(folder: Path) -> None:
    documents.put(folder / DOCUMENTS)
    for source in (PACKAGING / "README", PACKAGING / "INSTALL"):
        copy(source, folder / source.name)
    write(folder / "CHANGELOG.md", documents.at_top(documents.in_installation("CHANGELOG.md"), DOCUMENTS))


def put_sources(folder: Path) -> None:
    """Wheels for pip, the jar where there is a JDK, and the sources of the bindings."""
    for target, source in SOURCES.items():
        shutil.copytree(TOP / source, folder / target, ignore=LEFT_OUT)
    for name in READ:
        copy(TOP / "examples" / name, folder / "src" / name)
    made = folder / "python"
    made.mkdir()
    build_package.build_wheel(str(made))
    with tempfile.TemporaryDirectory() as place:
        put_python(Path(place), LIBRARY / "lib/libregistry.so.1", LIBRARY / "lib/registry.source")
        build_registry.wheel_of(Path(place), made)
    jdk = jars.folder_of_jdk()
    if jdk is None:
        print("release: there is no javac with the headers of its JDK, so the archive has no jar", file=sys.stderr)
    else:
        jars.make(LIBRARY, folder / "share/java", jdk)


def put_python(folder: Path, library: Path, source: Path) -> None:
    """The package of the engine for Python with its library, and what pip needs to install it."""
    for path in sorted([*PYTHON.glob("*.py"), PYTHON / "py.typed"]):
        copy(path, folder / "registry" / path.name)
    copy(library, folder / "registry/libregistry.so")
    copy(source, folder / "registry/registry.source")
    copy(PACKAGING / "build_registry.py", folder / "build_registry.py")
    copy(TOP / "examples/python/README.md", folder / "README.md")
    write(folder / "pyproject.toml", build_registry.PROJECT)


# What tells of all of it.


def note(path: Path) -> dict[str, str]:
    """What a note of a build says: the commit of its sources, and by what it was proved."""
    text = path.read_text(encoding="utf-8")
    commit, kit = re.search("(?m)^source: (.*)$", text), re.search("(?m)^proved and built with (.*)$", text)
    return {"source": commit[1] if commit else "not known", "kit": kit[1] if kit else ""}


def commit_here() -> str:
    """The commit of all that is no source of the program."""
    if shutil.which("git") is None:
        return "not known, since git is not here"
    run = subprocess.run(["git", "-C", TOP, "rev-parse", "--short=12", "HEAD"], capture_output=True, check=False)
    return run.stdout.decode().strip() or "no commit of git"


def crates(name: str) -> str:
    """The crates that a crate is made of."""
    return " ".join(said(TOP / "tools/crates", "below", name).split())


def sum_of(path: Path) -> str:
    return hashlib.sha256(path.read_bytes()).hexdigest()


def manifest(folder: Path, version: str, platform: str) -> str:
    """What was proved, by which kit, at which commit; and what was only tested."""
    program, library = note(OUT / "registry.source"), note(LIBRARY / "lib/registry.source")
    proved = (("bin/registry", program, "registry"), ("lib/libregistry.so.1", library, "registry_c"),
              ("lib/libregistry.a", library, "registry_c"))  # fmt: skip
    lines = [f"registry {version} for {platform}", f"archive made at commit {commit_here()}", "", "Proved:"]
    for path, told, crate in proved:
        lines += [
            f"  {path}", f"    source: {told['source']}", f"    proved and built with {told['kit']}",
            f"    crates: {crates(crate)}", f"    sha256: {sum_of(folder / path)}",
        ]  # fmt: skip
    return "\n".join([*lines, "", AGAIN, "", f"Only tested: {ONLY_TESTED}.", ""])


def sums(folder: Path) -> Iterator[str]:
    """The sum of each file, in the form of sha256sum."""
    for path in sorted(folder.rglob("*")):
        if path.is_file() and not path.is_symlink() and path.name != "SHA256SUMS":
            yield f"{sum_of(path)}  {path.relative_to(folder)}\n"


def fill(folder: Path, platform: str) -> None:
    version = versions.version_of(TOP)
    os.umask(0o022)
    folder.mkdir(parents=True)
    put_programs(folder)
    put_library(folder)
    put_manuals(folder)
    put_documents(folder)
    put_sources(folder)
    write(folder / "MANIFEST", manifest(folder, version, platform))
    for path in folder.rglob("*"):
        if not path.is_symlink():
            path.chmod(0o755 if path.is_dir() or path.stat().st_mode & stat.S_IXUSR else 0o644)
    kit, used = note(OUT / "registry.source")["kit"], {*crates("registry").split(), *crates("registry_c").split()}
    write(folder / bill.NAME, bill.of_archive(folder, version, kit, used, build_package.moment()))
    write(folder / "SHA256SUMS", "".join(sums(folder)))


if __name__ == "__main__":
    fill(Path(sys.argv[1]), sys.argv[2])
