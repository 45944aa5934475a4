"""Makes the wheel of the engine that lies beside this file, in the folder `registry`: pip calls this by pyproject.toml.

It needs the standard library alone: so an installation asks no network for another tool that builds packages.
"""
import base64
import hashlib
import os
import re
import sysconfig
import time
import zipfile
from pathlib import Path

HERE = Path(__file__).resolve().parent
PACKAGE, LIBRARY = "registry", "registry/libregistry.so"
SUMMARY = "The proved settlement engine of an emission allowance registry"
# What the folder needs beside this file to be installed.
PROJECT = """\
[build-system]
requires = []
build-backend = "build_registry"
backend-path = ["."]
"""
NEEDED = ">=3.9"
# A zip has no time before this one.
EARLIEST = (1980, 1, 1, 0, 0, 0)
# What a shared library asks of the C library.
GLIBC = re.compile(rb"GLIBC_([0-9]+)\.([0-9]+)")
LINK = re.compile(r"\[([^\]]*)\]\([^)]*\)")
LEFT_OUT = {"__pycache__", ".pyc"}


def version(folder: Path) -> str:
    """What the package tells of itself."""
    text = (folder / PACKAGE / "__init__.py").read_text(encoding="utf-8")
    found = re.search(r'(?m)^__version__ = "([0-9.]+)"$', text)
    if found is None:
        raise ValueError("the package registry tells no version")
    return found[1]


def time_of_files() -> tuple[int, int, int, int, int, int]:
    """The time of each file, so that equal files give equal bytes: SOURCE_DATE_EPOCH, which a release sets to that of its
    commit."""
    told = os.environ.get("SOURCE_DATE_EPOCH", "")
    own = time.gmtime(int(told) if told.isdigit() else 0)
    return max((own.tm_year, own.tm_mon, own.tm_mday, own.tm_hour, own.tm_min, own.tm_sec), EARLIEST)


def tag(library: bytes) -> str:
    """For which machines it is: those of this kind, with the C library that the shared library asks for or a later one."""
    own = sysconfig.get_platform().replace("-", "_").replace(".", "_")
    asked = max(((int(major), int(minor)) for major, minor in GLIBC.findall(library)), default=None)
    return f"manylinux_{asked[0]}_{asked[1]}_{own.removeprefix('linux_')}" if asked else own


def parts(folder: Path) -> dict[str, bytes]:
    """What an installation has: each file by its name, the list of them at the end."""
    own = sorted(path for path in (folder / PACKAGE).iterdir() if path.is_file() and path.suffix not in LEFT_OUT)
    made = {f"{PACKAGE}/{path.name}": path.read_bytes() for path in own}
    about = f"{PACKAGE}-{version(folder)}.dist-info"
    made |= {
        f"{about}/METADATA": metadata(folder).encode(),
        f"{about}/WHEEL": (
            "Wheel-Version: 1.0\nGenerator: build_registry\nRoot-Is-Purelib: false\n"
            f"Tag: py3-none-{tag(made[LIBRARY])}\n"
        ).encode(),
    }  # fmt: skip
    record = "".join(f"{name},sha256={sum_of(content)},{len(content)}\n" for name, content in made.items())
    made[f"{about}/RECORD"] = f"{record}{about}/RECORD,,\n".encode()
    return made


def metadata(folder: Path) -> str:
    """What the package says of itself: README.md, whose links lead nowhere from here."""
    told = (folder / "README.md").read_text(encoding="utf-8")
    return (
        f"Metadata-Version: 2.1\nName: {PACKAGE}\nVersion: {version(folder)}\nSummary: {SUMMARY}\n"
        f"Requires-Python: {NEEDED}\nProvides-Extra: frames\nRequires-Dist: pandas; extra == \"frames\"\n"
        f"Description-Content-Type: text/markdown\n\n{LINK.sub(lambda found: found[1], told)}"
    )


def sum_of(content: bytes) -> str:
    return base64.urlsafe_b64encode(hashlib.sha256(content).digest()).decode().rstrip("=")


def build_wheel(wheel_directory: str, config_settings: object = None, metadata_directory: object = None) -> str:
    """Makes the file that is installed, and answers its name."""
    return wheel_of(HERE, Path(wheel_directory))


def wheel_of(folder: Path, target: Path) -> str:
    """Makes the wheel of the package in a folder, and answers its name."""
    name = f"{PACKAGE}-{version(folder)}-py3-none-{tag((folder / LIBRARY).read_bytes())}.whl"
    with zipfile.ZipFile(target / name, "w", zipfile.ZIP_DEFLATED) as archive:
        for part, content in parts(folder).items():
            file = zipfile.ZipInfo(part, time_of_files())
            file.external_attr = (0o755 if part.endswith(".so") else 0o644) << 16
            archive.writestr(file, content, zipfile.ZIP_DEFLATED)
    return name
