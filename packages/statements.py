#!/usr/bin/env python3
"""Writes the bill of materials and the provenance of the packages in a directory. Called by packages/build.sh.

    packages/statements.py DIR

Writes two JSON files, reproducibly: hidlog-VERSION.spdx.json, a bill of materials in SPDX 2.3, and
hidlog-VERSION.provenance.json, an in-toto statement with SLSA provenance. Neither is signed. The data is from
release/BUILD, the commit, and checksums of the sources of the Python and npm packages; the timestamp is
SOURCE_DATE_EPOCH.
"""

from __future__ import annotations

import datetime
import hashlib
import json
import os
import subprocess
import sys
from pathlib import Path
from typing import Any

TOP = Path(__file__).resolve().parent.parent
# Crates of the toolchain that the program and the library use. For each crate, the version of the Rust crate on which
# it is based, according to its README, and the license.
CRATES = {
    "arrayvec": ("0.7.8", "MIT OR Apache-2.0"),
    "base64": ("0.23.1", "MIT OR Apache-2.0"),
    "byteorder": ("1.5.0", "MIT"),
    "clap": ("4.6.7", "MIT OR Apache-2.0"),
    "hex": ("0.4.3", "MIT OR Apache-2.0"),
    "itoa": ("1.0.18", "MIT OR Apache-2.0"),
    "memchr": ("2.8.3", "MIT"),
    "sha2": ("0.11.1", "MIT OR Apache-2.0"),
    "thiserror": ("2.0.21", "MIT OR Apache-2.0"),
}
# Debian's versions of libc6-dev and libc6-dev-arm64-cross, by the prefix of the checksum of libc.a in release/BUILD.
LIBC = {"8e5252c4b87e3d58": "2.36-9+deb12u14", "e8e575befa51c934": "2.36-8cross1"}
# The C libraries that are linked into the programs, by the name of the linker's line in release/BUILD: name, and Debian
# package.
LIBRARIES = {"linker": ("glibc", "libc6-dev"), "linker for aarch64": ("glibc-arm64", "libc6-dev-arm64-cross")}
# Sets of package sources outside release/: directories and files.
OTHER_SOURCES = {
    "python": ("bindings/python", "dissector", "conformance/hidlog_conformance", "bindings/web/dist/security_key.js"),
    "npm": ("bindings/web/dist", "bindings/web/core.js", "packages/npm"),
    "uhid": ("bridges/uhid", "bridges/ssh/state.c", "bridges/ssh/state.h", "examples/c", "packages/uhid"),
    "go": ("bindings/go",),
    "rust": ("bindings/rust",),
    "docs": ("docs", "packages/readme", "examples"),
    "arm64": ("packages/arm64",),
    "portable": ("bindings/c",),
}
# The sets of sources of each package, by the prefix of the package's name. The first match is used.
PACKAGE_SOURCES = (
    ("hidlog-uhid_", ("uhid", "docs")),
    ("python3-hidlog_", ("python", "docs")),
    ("libhidlog", ("docs",)),
    ("hidlog_VERSION_arm64", ("arm64", "docs")),
    ("hidlog_", ("docs",)),
    ("hidlog-go-", ("go", "portable")),
    ("hidlog-sys-", ("rust", "portable")),
    ("hidlog-portable-", ("portable",)),
    ("hidlog-VERSION-windows-", ("portable",)),
    ("hidlog-VERSION-py3-none-win_amd64", ("python", "portable")),
    ("hidlog-VERSION.crate", ("rust",)),
    ("hidlog-VERSION.tgz", ("npm",)),
    ("hidlog-VERSION-linux-aarch64", ("arm64", "docs")),
    ("hidlog-VERSION-linux-", ("uhid", "docs")),
    ("hidlog-VERSION-py3-none-manylinux_2_17_aarch64", ("python", "arm64")),
    ("hidlog-VERSION.tar.gz", ("python", "arm64", "portable")),
    ("hidlog-VERSION", ("python",)),
)
# Packages with the program, which includes parts of the C library.
PACKAGES_WITH_PROGRAM = (
    "hidlog_",
    "hidlog-VERSION.tgz",
    "hidlog-VERSION-linux-",
    "hidlog-VERSION-py3-none-manylinux_2_17_",
)
# The source package for Python, which has the programs for both processors.
SDIST_PATTERN = "hidlog-VERSION.tar.gz"
# Identifiers, not URLs.
BUILD_TYPE, BUILDER = "urn:x-hidlog:packages:1", "urn:x-hidlog:release-build:1"
COMMANDS = ("rt ci", "packages/build_release.sh", "packages/build.sh DIR")
Json = dict[str, Any]


def read_build_info() -> dict[str, str]:
    """Returns the lines of release/BUILD by name."""
    lines = (TOP / "release" / "BUILD").read_text(encoding="utf-8").splitlines()
    return {name: value for name, _, value in (line.partition(": ") for line in lines)}


def run_git(*words: str) -> str:
    """Returns git's output for this repository, or "" if there is none."""
    try:
        ran = subprocess.run(["git", "-C", str(TOP), *words], capture_output=True, text=True, check=True)
    except (OSError, subprocess.CalledProcessError):
        return ""
    return ran.stdout.strip()


def read_commit() -> list[Json]:
    """Returns the current commit, and whether a file differs from the commit. Returns an empty list in an unpacked
    archive."""
    if not (TOP / ".git").exists() or not (name := run_git("rev-parse", "HEAD")):
        return []
    is_changed = run_git("status", "--porcelain", "--untracked-files=no") != ""
    return [{"name": "commit", "digest": {"gitCommit": name}, "annotations": {"changed": is_changed}}]


def compute_sha256(paths: tuple[str, ...]) -> str:
    """Returns a SHA-256 sum of several files: the hash of the output of sha256sum for the files."""
    files = sorted(
        source for path in paths for source in ([TOP / path] if (TOP / path).is_file() else (TOP / path).rglob("*"))
    )
    kept = (file for file in files if file.is_file() and "__pycache__" not in file.parts and file.suffix != ".pyc")
    lines = (f"{hashlib.sha256(source.read_bytes()).hexdigest()}  {source.relative_to(TOP)}\n" for source in kept)
    return hashlib.sha256("".join(lines).encode()).hexdigest()


def hash_packages(folder: Path, version: str) -> dict[str, str]:
    """Returns the SHA-256 sums of the packages of this version."""
    found = (package for package in sorted(folder.iterdir()) if version in package.name and package.suffix != ".json")
    return {package.name: hashlib.sha256(package.read_bytes()).hexdigest() for package in found}


def make_spdx_package(name: str, version: str, licence: str, **more: Any) -> Json:
    """Returns an SPDX package. Its identifier is derived from its name."""
    letters = "".join(letter if letter.isalnum() or letter in ".-" else "-" for letter in name)
    return {
        "SPDXID": f"SPDXRef-{letters}",
        "name": name,
        "versionInfo": version,
        "downloadLocation": "NOASSERTION",
        "filesAnalyzed": False,
        "licenseConcluded": licence,
        "licenseDeclared": licence,
        "copyrightText": "NOASSERTION",
        **more,
    }


def list_materials(facts: dict[str, str]) -> list[Json]:
    """Returns the materials: the sources, the toolchain's crates, and the linked C library."""
    kit = facts["kit"].split(" ")[0]
    sums = {
        "sources": facts["sources"],
        **{f"sources-{name}": compute_sha256(paths) for name, paths in OTHER_SOURCES.items()},
    }
    sources = (
        make_spdx_package(
            f"hidlog-{name}",
            facts["version"],
            "MIT OR Apache-2.0",
            checksums=[{"algorithm": "SHA256", "checksumValue": digest}],
        )
        for name, digest in sums.items()
    )
    crates = (
        make_spdx_package(f"{kit}-{name}", version, licence, comment=f"Of the kit {kit}, after the Rust crate {name}.")
        for name, (version, licence) in CRATES.items()
    )
    libraries = (
        make_spdx_package(
            name,
            LIBC.get(facts[line].split(" ")[-2], "NOASSERTION"),
            "LGPL-2.1-or-later",
            comment=f"Debian's {package}, linked into the program alone ({facts[line]}).",
            supplier="Organization: Debian",
        )
        for line, (name, package) in LIBRARIES.items()
        if line in facts
    )
    return [*sources, make_spdx_package(kit, facts["kit"], "NOASSERTION"), *crates, *libraries]


def list_package_materials(name: str, version: str, parts: list[Json]) -> list[Json]:
    """Returns the materials of a package: all crates, the package's own sources, and the C library of its program."""
    plain = name.replace(version, "VERSION")
    sets = next(found for front, found in PACKAGE_SOURCES if plain.startswith(front))
    own = {f"hidlog-sources-{name}" for name in OTHER_SOURCES if name not in sets}
    own |= {library for library, _ in LIBRARIES.values()}
    if plain == SDIST_PATTERN:
        own -= {"glibc", "glibc-arm64"}
    elif plain.startswith(PACKAGES_WITH_PROGRAM):
        own.remove("glibc-arm64" if "arm64" in sets else "glibc")
    return [part for part in parts if part["name"] not in own]


def make_relationships(packages: list[Json], parts: list[Json], version: str) -> list[Json]:
    """Returns the relationships: the document describes the packages, and each package is generated from its
    materials."""

    def make_relation(first: str, kind: str, second: str) -> Json:
        return {"spdxElementId": first, "relationshipType": kind, "relatedSpdxElement": second}

    described = [make_relation("SPDXRef-DOCUMENT", "DESCRIBES", package["SPDXID"]) for package in packages]
    made = (
        (package["SPDXID"], of["SPDXID"])
        for package in packages
        for of in list_package_materials(package["name"], version, parts)
    )
    return described + [make_relation(one, "GENERATED_FROM", other) for one, other in made]


def make_spdx(facts: dict[str, str], sums: dict[str, str]) -> Json:
    """Returns the SPDX document."""
    version, parts = facts["version"], list_materials(facts)
    packages = [
        make_spdx_package(
            name,
            version,
            "MIT OR Apache-2.0",
            packageFileName=name,
            checksums=[{"algorithm": "SHA256", "checksumValue": digest}],
        )
        for name, digest in sums.items()
    ]
    namespace = hashlib.sha256(json.dumps([sums, facts["sources"]]).encode()).hexdigest()
    moment = datetime.datetime.fromtimestamp(int(os.environ["SOURCE_DATE_EPOCH"]), datetime.timezone.utc)
    return {
        "spdxVersion": "SPDX-2.3",
        "dataLicense": "CC0-1.0",
        "SPDXID": "SPDXRef-DOCUMENT",
        "name": f"hidlog-{version}",
        "documentNamespace": f"urn:x-hidlog:spdx:{version}:{namespace}",
        "creationInfo": {"created": f"{moment:%Y-%m-%dT%H:%M:%SZ}", "creators": ["Tool: packages/statements.py"]},
        "packages": packages + parts,
        "relationships": make_relationships(packages, parts, version),
    }


def make_provenance(facts: dict[str, str], sums: dict[str, str]) -> Json:
    """Returns the provenance: the sources of the packages, and the build commands."""
    return {
        "_type": "https://in-toto.io/Statement/v1",
        "subject": [{"name": name, "digest": {"sha256": digest}} for name, digest in sums.items()],
        "predicateType": "https://slsa.dev/provenance/v1",
        "predicate": {
            "buildDefinition": {
                "buildType": BUILD_TYPE,
                "externalParameters": {"version": facts["version"], "commands": COMMANDS},
                "internalParameters": {
                    fact: facts[fact] for fact in sorted(facts) if fact not in ("version", "sources", "kit")
                },
                "resolvedDependencies": [
                    *read_commit(),
                    {"name": "sources", "digest": {"sha256": facts["sources"]}},
                    *(
                        {"name": f"sources-{name}", "digest": {"sha256": compute_sha256(paths)}}
                        for name, paths in OTHER_SOURCES.items()
                    ),
                    {"name": facts["kit"]},
                ],
            },
            "runDetails": {"builder": {"id": BUILDER}},
        },
    }


def main() -> int:
    words = sys.argv[1:]
    if len(words) != 1 or not Path(words[0]).is_dir():
        print((__doc__ or "").strip(), file=sys.stderr)
        return 2
    folder, facts = Path(words[0]), read_build_info()
    sums = hash_packages(folder, facts["version"])
    for kind, made in (("spdx", make_spdx(facts, sums)), ("provenance", make_provenance(facts, sums))):
        text = json.dumps(made, indent=2) + "\n"
        (folder / f"hidlog-{facts['version']}.{kind}.json").write_text(text, encoding="utf-8")
    return 0


if __name__ == "__main__":
    sys.exit(main())
