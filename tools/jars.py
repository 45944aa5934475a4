"""Makes the jar of the engine for Java: its classes and sources, and the native part with the static library in it.

usage: jars.py LIBRARY FOLDER

LIBRARY is a folder that `tools/library` has made. The jar is FOLDER/registry-VERSION.jar, and beside it is what Maven
asks for, FOLDER/registry-VERSION.pom; equal files give equal ones.
It needs javac and the headers of its JDK, of 17 or later, and a C compiler, cc.
"""
import os
import shutil
import subprocess
import sys
import tempfile
import zipfile
from collections.abc import Iterator
from pathlib import Path

sys.path.append(str(Path(__file__).resolve().parent))
import build_package
import versions

TOP = Path(__file__).resolve().parent.parent
JAVA = TOP / "examples" / "java"
# The oldest Java that reads the classes.
RELEASE = "17"
# How Maven calls the jar: `mvn install:install-file -Dfile=registry-VERSION.jar -DpomFile=registry-VERSION.pom`.
PROJECT = "META-INF/maven/registry/registry/pom.xml"
POM = """\
<?xml version="1.0" encoding="UTF-8"?>
<project xmlns="http://maven.apache.org/POM/4.0.0">
  <modelVersion>4.0.0</modelVersion>
  <groupId>registry</groupId>
  <artifactId>registry</artifactId>
  <version>{version}</version>
  <packaging>jar</packaging>
  <name>registry</name>
  <description>The proved settlement engine of an emission allowance registry</description>
  <properties><maven.compiler.release>{release}</maven.compiler.release></properties>
</project>
"""
# What Java calls a machine that `uname -m` calls otherwise.
MACHINES = {"x86_64": "amd64"}


def folder_of_jdk() -> Path | None:
    """The JDK whose javac is on the PATH; None, if there is none with headers for C, or no C compiler."""
    javac = shutil.which("javac")
    if javac is None or shutil.which("cc") is None:
        return None
    home = Path(os.path.realpath(javac)).parent.parent
    return home if (home / "include/jni.h").exists() else None


def compile_classes(folder: Path) -> None:
    sources = sorted((JAVA / "registry").glob("*.java"))
    subprocess.run(["javac", "--release", RELEASE, "-Xlint:all", "-d", folder, *sources], check=True)


def compile_shim(library: Path, jdk: Path, target: Path) -> None:
    """The native part. It shows the names that Java asks for alone."""
    target.parent.mkdir(parents=True)
    words: list[str | Path] = ["cc", "-shared", "-fPIC", "-O2", "-Wl,--exclude-libs,ALL", "-Wl,-z,relro,-z,now"]
    words += [f"-I{library / 'include'}", f"-I{jdk / 'include'}", f"-I{jdk / 'include/linux'}"]
    words += [JAVA / "registry_jni.c", library / "lib/libregistry.a", "-o", target]
    subprocess.run(words, check=True)


def platform() -> str:
    """The folder of the native part in the jar, as Shim.java asks for it."""
    system = os.uname()
    return f"{system.sysname.lower()}-{MACHINES.get(system.machine, system.machine)}"


def parts(library: Path, jdk: Path, work: Path) -> Iterator[tuple[str, bytes]]:
    """What the jar has: each file by its name."""
    version = versions.version_of(TOP)
    yield "META-INF/MANIFEST.MF", (
        "Manifest-Version: 1.0\r\nImplementation-Title: registry\r\n"
        f"Implementation-Version: {version}\r\nAutomatic-Module-Name: registry\r\n\r\n"
    ).encode()
    yield PROJECT, POM.format(version=version, release=RELEASE).encode()
    compile_classes(work / "classes")
    compile_shim(library, jdk, work / "classes/registry" / platform() / "libregistry_jni.so")
    for path in sorted(path for path in (work / "classes").rglob("*") if path.is_file()):
        yield str(path.relative_to(work / "classes")), path.read_bytes()
    for path in [*sorted((JAVA / "registry").glob("*.java")), JAVA / "registry_jni.c"]:
        yield f"registry/{path.name}", path.read_bytes()


def make(library: Path, folder: Path, jdk: Path) -> Path:
    """Makes the jar, and answers its path."""
    folder.mkdir(parents=True, exist_ok=True)
    made = folder / f"registry-{versions.version_of(TOP)}.jar"
    made.with_suffix(".pom").write_text(POM.format(version=versions.version_of(TOP), release=RELEASE), encoding="utf-8")
    with tempfile.TemporaryDirectory() as work, zipfile.ZipFile(made, "w", zipfile.ZIP_DEFLATED) as archive:
        for name, content in parts(library, jdk, Path(work)):
            archive.writestr(zipfile.ZipInfo(name, build_package.time_of_files()), content, zipfile.ZIP_DEFLATED)
    return made


def main(library: Path, folder: Path) -> int:
    jdk = folder_of_jdk()
    if jdk is None:
        print("library: a jar needs javac of 17 or later with the headers of its JDK, and cc.", file=sys.stderr)
        return 1
    make(library, folder, jdk)
    return 0


if __name__ == "__main__":
    sys.exit(main(Path(sys.argv[1]).resolve(), Path(sys.argv[2])))
