"""The bill of materials of an archive, in SPDX 2.3: each of its files with its sums, and what they stand on: the kit
that proved and built program and library, its crates that were linked, the C library, and Python.
"""
import hashlib
import json
import time
from collections.abc import Iterable, Iterator
from dataclasses import dataclass
from pathlib import Path

TOP = Path(__file__).resolve().parent.parent
NAME = "registry.spdx.json"
UNKNOWN = "NOASSERTION"
# What is asked of the machine: nothing of it is in the archive.
SYSTEM = {
    "libc6": "the C library of the machine", "python3": "Python 3.10 or later, for registry-day and registry-rules",
}  # fmt: skip


@dataclass(frozen=True)
class File:
    """A file of the archive, by its place among them, with its sums."""

    place: int
    name: str
    sha1: str
    sha256: str

    @property
    def id(self) -> str:
        return f"SPDXRef-File-{self.place}"

    def told(self) -> dict[str, object]:
        sums = {"SHA1": self.sha1, "SHA256": self.sha256}
        return {
            "SPDXID": self.id, "fileName": f"./{self.name}", "licenseConcluded": UNKNOWN, "copyrightText": UNKNOWN,
            "checksums": [{"algorithm": name, "checksumValue": value} for name, value in sums.items()],
        }  # fmt: skip


def kit_crates(of: Iterable[str]) -> list[str]:
    """The crates of the kit that these crates use."""
    used: dict[str, list[str]] = {}
    for line in (TOP / "crates.txt").read_text(encoding="utf-8").splitlines():
        name, _, uses = line.partition(":")
        if name and not line.startswith("#"):
            used[name.split()[0]] = uses.split()
    return sorted({each for name in of for each in used[name] if each not in used})


def package(name: str, version: str, comment: str) -> dict[str, object]:
    return {
        "SPDXID": f"SPDXRef-{name.replace('_', '-')}", "name": name, "versionInfo": version, "comment": comment,
        "downloadLocation": UNKNOWN, "filesAnalyzed": False, "licenseConcluded": UNKNOWN, "licenseDeclared": UNKNOWN,
        "copyrightText": UNKNOWN,
    }  # fmt: skip


def files_in(folder: Path) -> Iterator[File]:
    paths = sorted(path for path in folder.rglob("*") if path.is_file() and not path.is_symlink())
    for place, path in enumerate(paths):
        own = path.read_bytes()
        name = str(path.relative_to(folder))
        yield File(place, name, hashlib.sha1(own).hexdigest(), hashlib.sha256(own).hexdigest())


def sum_of_sums(files: Iterable[File]) -> str:
    """What SPDX calls the verification code of a package: the sum of the sums of its files."""
    return hashlib.sha1("".join(sorted(each.sha1 for each in files)).encode()).hexdigest()


def relation(one: object, kind: str, other: object) -> dict[str, object]:
    return {"spdxElementId": one, "relationshipType": kind, "relatedSpdxElement": other}


def of_archive(folder: Path, version: str, kit: str, crates: Iterable[str], moment: int) -> str:
    """The text of the bill of a folder. `kit` is what proved and built what is in it, of these crates."""
    files, linked = [*files_in(folder)], kit_crates(crates)
    own = package("registry", version, "the proved settlement engine, and the office round it")
    code = sum_of_sums(files)
    own |= {"filesAnalyzed": True, "packageVerificationCode": {"packageVerificationCodeValue": code}}
    others = [package("rattle-kit", kit, "the prover and the compiler")]
    others += [package(name, kit, "a crate of the kit, linked into program and library") for name in linked]
    others += [package(name, "", comment) for name, comment in SYSTEM.items()]
    relations = [relation("SPDXRef-DOCUMENT", "DESCRIBES", own["SPDXID"])]
    relations += [relation(own["SPDXID"], "CONTAINS", each.id) for each in files]
    relations += [relation(own["SPDXID"], "DEPENDS_ON", each["SPDXID"]) for each in others[1:]]
    relations.append(relation("SPDXRef-rattle-kit", "BUILD_TOOL_OF", own["SPDXID"]))
    return json.dumps({
        "spdxVersion": "SPDX-2.3", "dataLicense": "CC0-1.0", "SPDXID": "SPDXRef-DOCUMENT", "name": folder.name,
        "documentNamespace": f"urn:registry:{folder.name}:{code}",
        "creationInfo": {
            "created": time.strftime("%Y-%m-%dT%H:%M:%SZ", time.gmtime(moment)), "creators": ["Tool: registry-release"],
        },
        "packages": [own, *others], "files": [each.told() for each in files],
        "relationships": relations,
    }, indent=1) + "\n"  # fmt: skip
