"""Makes what `pip install .` installs: the packages of python/, with their commands. pip calls this by pyproject.toml.

It needs the standard library alone: so an installation asks no network for another tool that builds packages.
"""
import base64
import configparser
import gzip
import hashlib
import io
import os
import re
import sys
import tarfile
import time
import zipfile
from pathlib import Path

TOP = Path(__file__).resolve().parent.parent
PACKAGES = ("registry_office", "registry_tools")
# What a source package has, beside the packages themselves.
SOURCES = ("pyproject.toml", "packaging/TOOLS.md", "tools/build_package.py")
# A zip has no time before this one.
EARLIEST = (1980, 1, 1, 0, 0, 0)


def project() -> configparser.ConfigParser:
    """pyproject.toml. (Python 3.10 has no reader of TOML: what is read here stands in one line each.)"""
    parser = configparser.ConfigParser(interpolation=None, strict=False)
    parser.read(TOP / "pyproject.toml", encoding="utf-8")
    return parser


def named(key: str) -> str:
    """What pyproject.toml says of the project."""
    return project()["project"][key].strip('"')


def version() -> str:
    sys.path.insert(0, str(TOP / "python"))
    from registry_tools.tables import VERSION

    return VERSION


def moment() -> int:
    """The time of each file, so that equal sources give equal bytes: SOURCE_DATE_EPOCH, which a release sets to that of
    its commit."""
    told = os.environ.get("SOURCE_DATE_EPOCH", "")
    return int(told) if told.isdigit() else 0


def time_of_files() -> tuple[int, int, int, int, int, int]:
    """The same as a zip has it."""
    own = time.gmtime(moment())
    return max((own.tm_year, own.tm_mon, own.tm_mday, own.tm_hour, own.tm_min, own.tm_sec), EARLIEST)


def files() -> list[Path]:
    """The files of the packages, also those that are no Python."""
    own = (path for name in PACKAGES for path in (TOP / "python" / name).rglob("*"))
    return sorted(path for path in own if path.is_file() and path.suffix != ".pyc")


def metadata() -> str:
    head = (
        f"Metadata-Version: 2.1\nName: {named('name')}\nVersion: {version()}\nSummary: {named('description')}\n"
        f"Requires-Python: {named('requires-python')}\n"
    )
    for extra, needs in project()["project.optional-dependencies"].items():
        head += f"Provides-Extra: {extra}\n"
        head += "".join(f'Requires-Dist: {need}; extra == "{extra}"\n' for need in re.findall('"([^"]+)"', needs))
    about = (TOP / named("readme")).read_text(encoding="utf-8")
    return f"{head}Description-Content-Type: text/markdown\n\n{about}"


def parts(own: dict[str, bytes]) -> dict[str, bytes]:
    """What an installation has beside its own files: each by its name, the list of all at the end."""
    made = dict(own)
    folder = f"{named('name').replace('-', '_')}-{version()}.dist-info"
    scripts = "".join(f"{name} = {call.strip(chr(34))}\n" for name, call in project()["project.scripts"].items())
    made |= {
        f"{folder}/METADATA": metadata().encode(),
        f"{folder}/WHEEL": b"Wheel-Version: 1.0\nGenerator: build_package\nRoot-Is-Purelib: true\nTag: py3-none-any\n",
        f"{folder}/entry_points.txt": f"[console_scripts]\n{scripts}".encode(),
    }
    record = "".join(f"{name},sha256={sum_of(content)},{len(content)}\n" for name, content in made.items())
    made[f"{folder}/RECORD"] = f"{record}{folder}/RECORD,,\n".encode()
    return made


def sum_of(content: bytes) -> str:
    return base64.urlsafe_b64encode(hashlib.sha256(content).digest()).decode().rstrip("=")


def build_wheel(wheel_directory: str, config_settings: object = None, metadata_directory: object = None) -> str:
    """Makes the file that is installed, and answers its name."""
    return wheel_of({str(path.relative_to(TOP / "python")): path.read_bytes() for path in files()}, wheel_directory)


def build_editable(wheel_directory: str, config_settings: object = None, metadata_directory: object = None) -> str:
    """Makes the file that `pip install -e .` installs: it names the folder of the package, which stays where it is."""
    return wheel_of({"registry_tools.pth": f"{TOP / 'python'}\n".encode()}, wheel_directory)


def wheel_of(own: dict[str, bytes], folder: str) -> str:
    name = f"{named('name').replace('-', '_')}-{version()}-py3-none-any.whl"
    with zipfile.ZipFile(Path(folder) / name, "w", zipfile.ZIP_DEFLATED) as archive:
        for part, content in parts(own).items():
            archive.writestr(zipfile.ZipInfo(part, time_of_files()), content, zipfile.ZIP_DEFLATED)
    return name


def build_sdist(sdist_directory: str, config_settings: object = None) -> str:
    """Makes an archive of the sources of the package, and answers its name."""
    folder = f"{named('name').replace('-', '_')}-{version()}"
    parts_of_it = {str(path.relative_to(TOP)): path.read_bytes() for path in (*map(TOP.joinpath, SOURCES), *files())}
    parts_of_it["PKG-INFO"] = metadata().encode()
    made = io.BytesIO()
    with tarfile.open(fileobj=made, mode="w") as archive:
        for name, content in sorted(parts_of_it.items()):
            about = tarfile.TarInfo(f"{folder}/{name}")
            about.size, about.mtime = len(content), moment()
            archive.addfile(about, io.BytesIO(content))
    (Path(sdist_directory) / f"{folder}.tar.gz").write_bytes(gzip.compress(made.getvalue(), mtime=moment()))
    return f"{folder}.tar.gz"
