"""What packages of Debian are good for, unpacked. For cases/run-release."""
from __future__ import annotations

import os
import re
import shutil
import sys
from collections.abc import Iterator, Sequence
from pathlib import Path

from by_pip import TOLD
from harness import TOP, LeftOut, Trial, Word, answer_of, differs
from lived_weeks import WEEK, Somebody, week_fault
from standins import VERSION


# The scripts of the packages that have some: with modules of Python, and with a login of their own.
DESK = "registry-desk"
WANTED = {"registry": [b"prerm"], "python3-registry": [b"prerm"], DESK: [b"postinst", b"prerm"]}
# What a root of one's own takes.
NEEDED = ("unshare", "chroot", "systemd-sysusers", "systemd-tmpfiles", "useradd", "runuser", "setpriv")
PAGE = TOP / "examples/desk/README.md"
SERVICE = "usr/lib/systemd/system/registry-desk.service"
# What root and two people do by the page, in a root that is that of this machine below and nothing of it above:
# the packages, the page's first lines, its lines of office.ini, the desk as its service starts it, and the second pair
# of eyes.
FOLLOWED = """\
set -e
mount -t tmpfs none "$1"
mkdir "$1/upper" "$1/work" "$1/root"
mount -t overlay none -o "lowerdir=/,upperdir=$1/upper,workdir=$1/work" "$1/root"
mount -t proc none "$1/root/proc"
mount --rbind /dev "$1/root/dev"
mkdir -p "$1/root/packages"
cp "$2"/registry_*.deb "$2"/registry-desk_*.deb "$1/root/packages"
cat > "$1/root/packages/page"
exec chroot "$1/root" /bin/sh -e /packages/page
"""
# Whether such a root can be had.
OVERLAY = """\
set -e
mount -t tmpfs none "$1"
mkdir "$1/upper" "$1/work" "$1/root"
mount -t overlay none -o "lowerdir=/,upperdir=$1/upper,workdir=$1/work" "$1/root"
"""
BEHIND_THE_LINES = """\
for one in anna bert; do id $one >/dev/null 2>&1 || useradd --no-create-home $one; done
mkdir -p /run/registry && chown registry /run/registry && chmod 755 /run/registry
setpriv --reuid=registry --regid=registry --clear-groups {service} >/packages/log 2>&1 &
desk=$!
tries=0
while [ ! -S /run/registry/desk.sock.day ] && [ $tries -lt 600 ]; do tries=$((tries + 1)); sleep 0.1; done
export REGISTRY_DESK=/run/registry/desk.sock
cd /usr/share/doc/registry/examples/week
runuser -u anna -- registry-day close --date 2025-09-22 --second --yes && exit 9 || true
runuser -u anna -- registry-day approve close --date 2025-09-22 && exit 9 || true
runuser -u bert -- registry-day approve close --date 2025-09-22
runuser -u anna -- registry-day close --date 2025-09-22 --second --yes
runuser -u anna -- registry-day hand-in tuesday-do.csv tuesday-work.csv || true
runuser -u nobody -- registry-day status && exit 9 || true
runuser -u bert -- registry-day status
kill -INT $desk
wait $desk
"""


def packages_in(made: Path) -> list[Path]:
    """The packages that were made."""
    packages = sorted(made.glob("*.deb"))
    if not packages:
        raise LeftOut("dpkg-deb or a C compiler is not here, so no package was made")
    return packages


def trials(made: Path, room: Path) -> Iterator[tuple[str, Trial]]:
    """All that is tried of packages."""
    yield "packages of Debian", lambda: debian_fault(packages_in(made), room / "debian")
    yield "the service of packages", lambda: service_fault(room / "debian/root")
    yield "the page of a desk, followed from packages on", lambda: packages_in(made) and followed_fault(
        made, room / "followed"
    )
    yield "packages by lintian", lambda: lintian_fault(packages_in(made))


def debian_fault(packages: Sequence[Path], room: Path) -> object:
    """What is wrong with the packages: their names and scripts, and a day that is lived in them."""
    names = [path.name.partition("_")[0] for path in packages]
    if names != ["libregistry-dev", "libregistry1", "python3-registry", DESK, "registry"]:
        return f"these are the packages: {names}"
    root = room / "root"
    root.mkdir(parents=True)
    for path in packages:
        control = answer_of(["dpkg-deb", "--ctrl-tarfile", path])[0]
        scripts = re.findall(rb"\./(preinst|postinst|prerm|postrm|config)\0", control)
        wanted = WANTED.get(path.name.partition("_")[0], [])
        if scripts != wanted or answer_of(["dpkg-deb", "-x", path, root])[2]:
            return f"{path.name}: {scripts}"
    wrong = week_fault(root / "usr/bin/registry-day", Somebody(room / "somebody"), "program")
    return wrong or calls_fault(root) or cleaning_fault(packages, root, room)


def service_fault(root: Path) -> object:
    """What is wrong with the service of a desk, unpacked: it is that of the page, and may do little."""
    unit, program = root / SERVICE, shutil.which("systemd-analyze")
    if not unit.exists():
        raise LeftOut("no package was unpacked here")
    if unit.read_bytes() != (PAGE.parent / "registry-desk.service").read_bytes():
        return "the package has another service than the page"
    if not program:
        raise LeftOut("systemd-analyze is not here")
    said = answer_of([program, "security", "--offline=true", "--no-pager", "--threshold=10", unit])
    counted = re.findall(r"exposure level[^:]*: ([0-9.]+)", said[0].decode())
    told = re.findall("counts ([0-9.]+)", PAGE.read_text())
    return None if said[2] == 0 and counted[:1] == [own.rstrip(".") for own in told] else (counted, told)


def followed_fault(made: Path, room: Path) -> object:
    """What is wrong with the page of a desk, if somebody follows it from the packages to the second pair of eyes; where
    a root of their own can be had."""
    lacking = [name for name in NEEDED if not shutil.which(name)]
    if os.getuid() != 0 or lacking:
        raise LeftOut(f"no root of its own can be had here: that takes root and {', '.join(lacking or NEEDED)}")
    if answer_of(["/usr/bin/python3", "-I", "-c", "import flask, gunicorn"])[2]:
        raise LeftOut("the Python of the system has no Flask or no gunicorn")
    room.mkdir()
    said = answer_of(["unshare", "-m", "sh", "-c", OVERLAY, "sh", room])
    if said[2]:
        raise LeftOut(f"no root of its own can be had here: {said[1].decode().strip()[-200:]}")
    blocks = re.findall(r"```\n(.*?)```", PAGE.read_text(), re.DOTALL)
    lines = blocks[0].splitlines()
    if not lines[0].startswith("apt install ") or not blocks[1].startswith("[people]"):
        return f"the page begins otherwise: {lines} {blocks[1]}"
    service = re.findall("(?m)^ExecStart=/usr/bin/(.*)$", (PAGE.parent / "registry-desk.service").read_text())[0]
    script = [
        "dpkg -i --force-depends /packages/*.deb", "cd /usr/share/doc/registry/examples/week", *lines[1:],
        f"cat >> /var/lib/registry/office/office.ini <<'END'\n{blocks[1]}END",
        "test \"$(stat -c '%U %a' /var/lib/registry)\" = 'registry 700'", BEHIND_THE_LINES.format(service=service),
    ]  # fmt: skip
    said = answer_of(["unshare", "-m", "sh", "-c", FOLLOWED, "sh", room, made], "\n".join(script).encode())
    told = (said[0] + said[1]).decode("utf-8", "replace")
    wanted = ("waits for", "another login approves it", "approved: ", "is settled by the second answer and filed",
              "does not know you", "filed by Anna Berg (anna), as registry says")  # fmt: skip
    lacking = [words for words in wanted if words not in told]
    return None if said[2] == 0 and not lacking else f"status {said[2]}, {lacking} lack: {told[-3000:]}"


def cleaning_fault(packages: Sequence[Path], root: Path, room: Path) -> object:
    """What Python has made of the modules, and the scripts of the packages leave behind, where there is no py3clean."""
    answer_of([sys.executable, "-m", "compileall", "-q", root])
    if not [*root.rglob("*.pyc")]:
        return "nothing was compiled"
    for path in packages:
        control = room / f"control-{path.name}"
        answer_of(["dpkg-deb", "-e", path, control])
        if (control / "prerm").exists():
            script = (control / "prerm").read_text().replace("py3clean", "no-py3clean")
            said = answer_of(["sh", "-c", script.replace(" /usr/", f" {root}/usr/")])
            if said[2]:
                return f"{path.name}: {said}"
    return [str(path) for path in root.rglob("*.pyc")] or None


def calls_fault(root: Path) -> object:
    """What is wrong with the library in unpacked packages: for Python, and for a C compiler."""
    (lib,) = root.glob("usr/lib/*-linux-gnu*")
    found = {"PYTHONPATH": str(root / "usr/lib/python3/dist-packages"), "LD_LIBRARY_PATH": str(lib)}
    said = answer_of(["/usr/bin/python3", "-B", "-c", TOLD], (WEEK / "monday.csv").read_bytes(), env=found)
    if said[0].split()[:1] != [VERSION.encode()] or said[2]:
        return f"python3-registry: {said}"
    source, program = root / "tried.c", root / "tried"
    source.write_text(
        '#include <registry.h>\n#include <stdio.h>\n'
        "int main(void) { printf(\"%s %u\\n\", REGISTRY_VERSION_STRING, registry_version()); }\n"
    )
    words: list[Word] = ["cc", f"-I{root / 'usr/include'}", f"-L{lib}", "-o", program, source, "-lregistry"]
    made = answer_of(words)
    said = answer_of([program], env=found) if made[2] == 0 else made
    return differs(said, (f"{VERSION} 1\n".encode(), b"", 0))


def lintian_fault(packages: Sequence[Path]) -> object:
    if not shutil.which("lintian"):
        raise LeftOut("lintian is not here")
    root = ["--allow-root"] if os.getuid() == 0 else []
    said = answer_of(["lintian", *root, "--fail-on", "warning", *packages])
    # (what it says of less than a warning is of the stand-ins: a script, and a library built without Debian's flags)
    return f"lintian: {said[0].decode()}" if said[2] else None
