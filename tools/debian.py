"""Makes packages for Debian of an unpacked archive of a version, by dpkg-deb: registry, libregistry1, libregistry-dev,
python3-registry and registry-desk. The last one makes the login of a desk when it is installed, and no other one has a
script that runs then; before they go, those with Python let what Python has made of it be taken away.

usage: debian.py ARCHIVE FOLDER
"""
import gzip
import hashlib
import os
import re
import shutil
import subprocess
import sys
import tempfile
import time
from collections.abc import Iterator
from dataclasses import dataclass
from pathlib import Path

sys.path.append(str(Path(__file__).resolve().parent))
import package  # noqa: F401
import versions

TOP = Path(__file__).resolve().parent.parent
REVISION = "1"
MAINTAINER = "Duqisway maintainers <maintainers@users.noreply.duqisway.example>"
PYTHON = "usr/lib/python3/dist-packages"
# What the commands find useful beside them.
ASKS = "Recommends: python3-registry\nSuggests: python3-flask, python3-waitress, python3-gunicorn\n"
# What makes the login of a desk, where systemd is not there to do it.
LOGINS = "systemd | systemd-standalone-sysusers, systemd | systemd-standalone-tmpfiles"
# The long lines of a description.
ENGINE = """\
 It settles one day of an allowance registry: who gets which allowances, what
 is refused and why, and whether an operator has surrendered enough. Each
 function of the engine is proved to do what its contract says.
"""


@dataclass(frozen=True)
class Package:
    """A package: what it is called, on what it depends, in which section it is, and what it says of itself."""

    name: str
    section: str
    depends: str
    what: str
    more: str
    is_for_all: bool = False


def asked(*words: str | Path) -> str:
    return subprocess.run(words, stdin=subprocess.DEVNULL, capture_output=True, text=True, check=True).stdout.strip()


def libraries_of(path: Path) -> str:
    """The libraries that a file asks for, by their packages. (A script asks for none.)"""
    is_binary = path.read_bytes()[:4] == b"\x7fELF"
    said, wanted = (asked("objdump", words, path) for words in ("-T", "-p")) if is_binary else ("", "")
    found = [tuple(map(int, own.split("."))) for own in re.findall(r"GLIBC_([0-9]+[.][0-9]+)", said)]
    major, minor = max(found, default=(2, 34))
    return f"libc6 (>= {major}.{minor})" + (", libgcc-s1" if "libgcc_s.so.1" in wanted else "")


def packages(archive: Path, full: str) -> Iterator[Package]:
    program, library = (libraries_of(archive / name) for name in ("bin/registry", "lib/libregistry.so.1"))
    same = f"libregistry1 (= {full})"
    yield Package(
        "registry", "science", f"{program}, python3 (>= 3.10)", "settlement engine of an emission allowance registry",
        ENGINE + " .\n This package has the program registry, and registry-day, the office round it.\n",
    )  # fmt: skip
    yield Package(
        "libregistry1", "libs", library, "settlement engine of an allowance registry: library",
        ENGINE + " .\n This package has the shared library.\n",
    )  # fmt: skip
    yield Package(
        "libregistry-dev", "libdevel", same, "settlement engine of an allowance registry: for C compilers",
        ENGINE + " .\n This package has the header, the static library and its manual page.\n",
    )  # fmt: skip
    yield Package(
        "python3-registry", "python", f"{same}, python3 (>= 3.9)",
        "settlement engine of an allowance registry: calls for Python",
        ENGINE + " .\n This package has the calls of the library for Python.\n",
    )  # fmt: skip
    yield Package(
        "registry-desk", "science", f"registry (= {full}), python3-flask, python3-waitress, python3-gunicorn, {LOGINS}",
        "desk of an emission allowance registry, as a service",
        " Several people work at one registry: the system says who comes to a socket.\n .\n"
        " This package has the login of the desk and its service of systemd, which has no\n"
        " network, no homes and one folder that it writes. It is started by hand.\n", True,
    )  # fmt: skip


class Tree:
    """The files of a package before it is made."""

    def __init__(self, own: Package, folder: Path, archive: Path, full: str) -> None:
        self.own, self.folder, self.archive, self.full = own, folder, archive, full
        self.multiarch = asked("gcc", "-print-multiarch") or f"{os.uname().machine}-linux-gnu"

    def put(self, source: str, target: str) -> None:
        """Copies a file or a folder of the archive."""
        path = self.folder / target
        path.parent.mkdir(parents=True, exist_ok=True)
        if (self.archive / source).is_dir():
            shutil.copytree(self.archive / source, path, symlinks=True)
        else:
            shutil.copy(self.archive / source, path, follow_symlinks=False)

    def write(self, target: str, text: str | bytes) -> None:
        path = self.folder / target
        path.parent.mkdir(parents=True, exist_ok=True)
        path.write_bytes(text.encode() if isinstance(text, str) else text)

    def zip(self, source: str, target: str) -> None:
        content = (self.archive / source).read_bytes()
        self.write(f"{target}.gz", gzip.compress(content, mtime=0))

    def fill(self) -> None:
        getattr(self, f"fill_{self.own.name.replace('-', '_')}")()
        doc = f"usr/share/doc/{self.own.name}"
        self.zip("CHANGELOG.md", f"{doc}/changelog")
        told = (self.archive / "CHANGELOG.md").read_text(encoding="utf-8")
        self.write(f"{doc}/changelog.Debian.gz", gzip.compress(changelog(told).encode(), mtime=0))
        self.write(f"{doc}/copyright", COPYRIGHT.format(year=time.gmtime(moment()).tm_year))

    def fill_registry(self) -> None:
        for name in ("registry", "registry-day", "registry-rules"):
            self.put(f"bin/{name}", f"usr/bin/{name}")
        for name in ("registry-day", "registry-rules"):
            path = self.folder / f"usr/bin/{name}"
            # (Debian's own Python, and no other one of the PATH)
            path.write_text(re.sub(r"^#!.*", "#!/usr/bin/python3 -IB", path.read_text(), count=1))
        for name in ("registry_tools", "registry_office"):
            self.put(f"share/registry/{name}", f"usr/share/registry/{name}")
        self.put("share/registry/registry.source", "usr/share/registry/registry.source")
        for shell in ("bash-completion", "zsh", "fish"):
            self.put(f"share/{shell}", f"usr/share/{shell}")
        zsh = self.folder / "usr/share/zsh"
        (zsh / "site-functions").rename(zsh / "vendor-completions")
        for path in sorted(self.archive.glob("share/man/man[15]/*")):
            page = path.relative_to(self.archive)
            self.zip(str(page), f"usr/{page}")
        for path in sorted(self.archive.glob("share/doc/registry/*")):
            if path.name != "CHANGELOG.md":
                self.put(f"share/doc/registry/{path.name}", f"usr/share/doc/registry/{path.name}")
        self.write("DEBIAN/prerm", PRERM.format(name=self.own.name, folder="usr/share/registry"))
        self.put("MANIFEST", "usr/share/doc/registry/MANIFEST")
        self.write("usr/share/doc/registry/README.Debian", README)
        overrides = "registry: unstripped-binary-or-object [usr/bin/registry]\n"
        # (the program is the file that was built behind its proof, byte for byte)
        self.write("usr/share/lintian/overrides/registry", overrides)

    def fill_libregistry1(self) -> None:
        self.put("lib/libregistry.so.1", f"usr/lib/{self.multiarch}/libregistry.so.1")
        self.write("DEBIAN/shlibs", f"libregistry 1 libregistry1 (>= {versions.version_of(TOP)})\n")
        self.write("DEBIAN/triggers", "activate-noawait ldconfig\n")
        self.write(
            "usr/share/lintian/overrides/libregistry1",
            f"libregistry1: unstripped-binary-or-object [usr/lib/{self.multiarch}/libregistry.so.1]\n"
            "libregistry1: no-symbols-control-file *\n",
        )

    def fill_libregistry_dev(self) -> None:
        room = f"usr/lib/{self.multiarch}"
        self.put("lib/libregistry.a", f"{room}/libregistry.a")
        self.put("lib/libregistry.so", f"{room}/libregistry.so")
        self.put("include/registry.h", "usr/include/registry.h")
        self.zip("share/man/man3/registry.3", "usr/share/man/man3/registry.3")
        text = (self.archive / "lib/pkgconfig/registry.pc").read_text()
        text = text.replace("prefix=${pcfiledir}/../..", "prefix=/usr").replace("-L${prefix}/lib ", "")
        self.write(f"{room}/pkgconfig/registry.pc", text.replace("Cflags: -I${prefix}/include\n", ""))

    def fill_python3_registry(self) -> None:
        self.put("share/registry/registry", f"{PYTHON}/registry")
        about = f"{PYTHON}/registry-{versions.version_of(TOP)}.dist-info"
        self.write(f"{about}/METADATA", f"Metadata-Version: 2.1\nName: registry\nVersion: {versions.version_of(TOP)}\n")
        self.write(f"{about}/INSTALLER", "debian\n")
        self.write("DEBIAN/prerm", PRERM.format(name=self.own.name, folder=f"{PYTHON}/registry"))

    def fill_registry_desk(self) -> None:
        source = "share/doc/registry/examples/desk"
        self.put(f"{source}/registry-desk.service", "usr/lib/systemd/system/registry-desk.service")
        for name in ("README.md", "nginx.conf"):
            self.put(f"{source}/{name}", f"usr/share/doc/registry-desk/{name}")
        self.write("usr/lib/sysusers.d/registry-desk.conf", SYSUSERS)
        self.write("usr/lib/tmpfiles.d/registry-desk.conf", TMPFILES)
        self.write("DEBIAN/postinst", POSTINST)
        self.write("DEBIAN/prerm", PRERM_OF_DESK)

    def control(self, architecture: str) -> str:
        size = sum(path.lstat().st_size for path in self.folder.rglob("*") if not path.is_dir())
        same = "Multi-Arch: same\n" if self.own.name.startswith("lib") else ""
        asks = ASKS if self.own.name == "registry" else ""
        return (
            f"Package: {self.own.name}\nVersion: {self.full}\nArchitecture: {architecture}\nMaintainer: {MAINTAINER}\n"
            f"Installed-Size: {-(-size // 1024)}\nDepends: {self.own.depends}\n{asks}{same}"
            f"Section: {self.own.section}\nPriority: optional\nDescription: {self.own.what}\n{self.own.more}"
        )

    def sums(self) -> str:
        files = sorted(path for path in self.folder.rglob("*") if path.is_file() and not path.is_symlink())
        own = [path for path in files if path.relative_to(self.folder).parts[0] != "DEBIAN"]
        lines = (f"{hashlib.md5(path.read_bytes()).hexdigest()}  {path.relative_to(self.folder)}\n" for path in own)
        return "".join(lines)

    def settle_modes(self) -> None:
        """Each file may be read by all, and only programs run; all have one time, so that equal files make equal
        packages."""
        for path in [*self.folder.rglob("*"), self.folder]:
            if not path.is_symlink():
                runs = path.is_dir() or path.parent.name == "bin" or path.name in ("postinst", "prerm")
                path.chmod(0o755 if runs else 0o644)
            os.utime(path, (moment(), moment()), follow_symlinks=False)


COPYRIGHT = """\
Format: https://www.debian.org/doc/packaging-manuals/copyright-format/1.0/
Upstream-Name: registry

Files: *
Copyright: {year} the owner of registry
License: none-yet
 The owner has not chosen a licence yet.
"""
README = """\
registry for Debian

A first day, from a folder of your own:

  cp -r /usr/share/doc/registry/examples/week .
  registry settle < week/monday.csv                             # settles a day
  registry-day init office week/monday.csv                      # a folder that remembers its days
  registry-day close --date 2025-09-22 --office office          # settles and files it
  registry-day page --day 2025-09-22 --office office pages      # its pages, for a browser

MANIFEST beside this file says what is proved, by which kit, and at which
commit. registry(1) and registry-day(1) are the manuals, registry-day-text(5)
tells the texts. For the desk: apt install python3-flask python3-waitress.
The package registry-desk has several people work at it, by a service of
systemd: examples/desk/README.md.
"""
# What Python has made of its modules goes, so that nothing is left behind.
PRERM = """\
#!/bin/sh
set -e
if command -v py3clean >/dev/null; then
  py3clean -p {name} /{folder}
else
  find /{folder} -depth -name __pycache__ -exec rm -rf {{}} +
fi
"""
# The login of a desk, and its folder, which nobody else opens.
SYSUSERS = 'u registry - "The desk of an allowance registry" /var/lib/registry\n'
TMPFILES = "d /var/lib/registry 0700 registry registry -\n"
POSTINST = """\
#!/bin/sh
set -e
if [ "$1" = configure ]; then
  systemd-sysusers registry-desk.conf
  systemd-tmpfiles --create registry-desk.conf
  if [ -d /run/systemd/system ]; then
    systemctl daemon-reload
  fi
fi
"""
# (the folder and the login stay: what is registered is there)
PRERM_OF_DESK = """\
#!/bin/sh
set -e
if [ "$1" = remove ] && [ -d /run/systemd/system ]; then
  deb-systemd-invoke stop registry-desk.service
  # (whoever enabled it did so by hand)
  rm -f /etc/systemd/system/*.wants/registry-desk.service
fi
"""
# The head of a version in CHANGELOG.md, with its day.
VERSION = re.compile(r"(?m)^## ([0-9.]+), ([0-9]{4}-[0-9]{2}-[0-9]{2})$")


def moment() -> int:
    """The time of all that is made: that of the commit, which `tools/release` tells."""
    return int(os.environ.get("SOURCE_DATE_EPOCH", "0"))


def changelog(told: str) -> str:
    """What Debian keeps of the versions, as CHANGELOG.md tells them."""
    entries = []
    for version, day in VERSION.findall(told):
        at = time.strftime("%a, %d %b %Y %H:%M:%S +0000", time.strptime(day, "%Y-%m-%d"))
        entries.append(
            f"registry ({version}-{REVISION}) unstable; urgency=medium\n\n"
            f"  * Version {version}: changelog.gz tells what it brings.\n\n -- {MAINTAINER}  {at}\n"
        )
    return "\n".join(entries)


def make(own: Package, archive: Path, folder: Path, full: str) -> None:
    architecture = "all" if own.is_for_all else asked("dpkg", "--print-architecture")
    with tempfile.TemporaryDirectory() as place:
        tree = Tree(own, Path(place) / own.name, archive, full)
        (tree.folder / "DEBIAN").mkdir(parents=True)
        tree.fill()
        tree.write("DEBIAN/md5sums", tree.sums())
        tree.write("DEBIAN/control", tree.control(architecture))
        tree.settle_modes()
        target = folder / f"{own.name}_{full}_{architecture}.deb"
        asked("dpkg-deb", "--root-owner-group", "-Zxz", "--build", tree.folder, target)


def main(archive: Path, folder: Path) -> None:
    os.umask(0o022)
    full = f"{versions.version_of(TOP)}-{REVISION}"
    for own in packages(archive, full):
        make(own, archive, folder, full)


if __name__ == "__main__":
    main(Path(sys.argv[1]), Path(sys.argv[2]))
