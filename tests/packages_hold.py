#!/usr/bin/env python3
"""Checks the packages: licences, files named by the man page, links, READMEs, and the bill of materials and provenance.

    tests/packages_hold.py FOLDER       the folder that packages/build.sh wrote

Exit status: 1 if a check fails.
"""

from __future__ import annotations

import hashlib
import io
import json
import os
import re
import subprocess
import sys
import tarfile
import tempfile
import zipfile
from pathlib import Path

TOP = Path(__file__).resolve().parent.parent
FOLDER = Path(sys.argv[1])
# The programs, by the names of their C libraries in the statements.
PROGRAMS = {
    library: path.read_bytes()
    for library, path in (("glibc", TOP / "release/hidlog"), ("glibc-arm64", TOP / "release/aarch64/hidlog"))
    if path.exists()
}
Files = dict[str, bytes]


def read_tar(data: bytes) -> Files:
    """Returns the files of a tar archive by name. Links have no bytes."""
    with tarfile.open(fileobj=io.BytesIO(data)) as archive:
        found = {
            member.name.removeprefix("./"): archive.extractfile(member) if member.isfile() else None
            for member in archive
        }
        return {name: file.read() if file else b"" for name, file in found.items()}


def read_package(path: Path) -> Files:
    """Returns the files of a package by name."""
    data = path.read_bytes()
    if path.suffix in (".whl", ".zip"):
        with zipfile.ZipFile(io.BytesIO(data)) as archive:
            return {name: archive.read(name) for name in archive.namelist()}
    if path.suffix == ".deb":
        with tempfile.TemporaryDirectory() as folder:
            subprocess.run(["dpkg-deb", "-x", str(path), folder], check=True)
            files = (path for path in Path(folder).rglob("*") if path.is_file() and not path.is_symlink())
            return {str(file.relative_to(folder)): file.read_bytes() for file in files}
    return read_tar(data)


PACKAGES = {
    path.name: read_package(path)
    for path in sorted(FOLDER.iterdir())
    if path.suffix != ".json" and not path.name.endswith("SUMS")
}


def find_packages_with(program: bytes) -> set[str]:
    """Returns the packages that contain a program, which is found by its bytes."""
    return {name for name, files in PACKAGES.items() if program in files.values()}


def find_packages_with_any_program() -> set[str]:
    return set().union(*(find_packages_with(program) for program in PROGRAMS.values()))


def check_licences() -> None:
    """Checks that each package contains both licences or Debian's copyright file, and that packages with the program
    also contain the C library's licence."""
    for name, files in PACKAGES.items():
        texts = b"".join(data for file, data in files.items() if re.search(r"LICENSE|NOTICE|copyright$", file))
        assert b"Permission is hereby granted" in texts, f"{name} has no MIT licence"
        assert b"Apache License" in texts or b"common-licenses/Apache-2.0" in texts, f"{name} has no Apache licence"
        if name in find_packages_with_any_program():
            assert (
                b"Free Software" in texts and b"LGPL" in texts or b"Lesser General" in texts
            ), f"{name} has no licence of the C library"
    for library, program in PROGRAMS.items():
        found = find_packages_with(program)
        assert {"hidlog_", "hidlog-"} == {name[:7] for name in found}, found
        assert len(found) == {"glibc": 5, "glibc-arm64": 4}[library], found


def check_man_page_paths() -> None:
    """Checks that the files named by the man page are in the Debian package and in the tarball."""
    page = (TOP / "docs" / "use" / "hidlog.1").read_text(encoding="utf-8")
    named = re.findall(
        r"^\.(?:It )?Pa (\w+/\S+)", page.partition(".Sh FILES")[2].partition(".Sh EXIT")[0], re.MULTILINE
    )
    assert len(named) >= 7, named
    for package, root in (("hidlog_", "usr/share/doc/hidlog/"), ("linux-x86_64", "hidlog-[^/]*/")):
        files = next(found for name, found in PACKAGES.items() if package in name)
        for path in named:
            pattern = re.compile(root + re.escape(path).replace(r"\*", "[^/]*") + "$")
            assert any(
                pattern.match(file) for file in files
            ), f"the man page names {path}, which {package} does not have"


def check_links() -> None:
    """Checks that each link from a page to a file leads to a file of the same package."""
    count = 0
    for name, files in PACKAGES.items():
        folders = {str(parent) for file in files for parent in Path(file).parents}
        for page in (file for file in files if file.endswith(".md") and "CHANGELOG" not in file):
            for target in re.findall(r"\]\(([^)#\s]+)", files[page].decode("utf-8")):
                if "://" not in target:
                    path = os.path.normpath(f"{Path(page).parent}/{target}")
                    assert path in files or path in folders, f"{name}: {page} links to {target}, which does not exist"
                    count += 1
    assert count >= 20, count


def check_readmes() -> None:
    """Checks that each package for direct use contains a README."""
    readmes = {name: [file for file in files if file.endswith("README.md")] for name, files in PACKAGES.items()}
    for name in (
        "hidlog_",
        "libhidlog-dev_",
        "hidlog-uhid_",
        "python3-hidlog_",
        "linux-x86_64",
        ".tgz",
        "-go-",
        "crate",
    ):
        assert any(found for package, found in readmes.items() if name in package), f"{name} has no README"


def check_statements() -> None:
    """Checks that both statements list each package, with its checksum and its parts."""
    sums = {package: hashlib.sha256((FOLDER / package).read_bytes()).hexdigest() for package in PACKAGES}
    (spdx,), (provenance,) = FOLDER.glob("*.spdx.json"), FOLDER.glob("*.provenance.json")
    document = json.loads(spdx.read_text())
    listed = document["packages"]
    assert {
        package["packageFileName"]: package["checksums"][0]["checksumValue"]
        for package in listed
        if "packageFileName" in package
    } == sums
    named = {subject["name"]: subject["digest"]["sha256"] for subject in json.loads(provenance.read_text())["subject"]}
    assert named == sums
    names = {package["SPDXID"]: package["name"] for package in listed}
    made: dict[str, set[str]] = {name: set() for name in sums}
    for relation in document["relationships"]:
        if relation["relationshipType"] == "GENERATED_FROM":
            made[names[relation["spdxElementId"]]].add(names[relation["relatedSpdxElement"]])
    for library, program in PROGRAMS.items():
        assert {name for name, parts in made.items() if library in parts} == find_packages_with(program), library
    for name in find_packages_with(PROGRAMS.get("glibc-arm64", b"none")):
        assert "hidlog-sources-arm64" in made[name] and "hidlog-sources-uhid" not in made[name], (name, made[name])
    for word, part in (("go-", "go"), (".crate", "rust"), (".tgz", "npm"), (".whl", "python"), ("uhid", "uhid")):
        for name in (package for package in sums if word in package):
            assert f"hidlog-sources-{part}" in made[name], (name, made[name])
    assert "hidlog-sources-npm" not in made[next(name for name in sums if name.endswith(".whl"))]
    # The toolchain's crates in the bill of materials are those that crates.txt names, each with a version.
    uses = {
        word
        for line in (TOP / "crates.txt").read_text().splitlines()
        if not line.startswith("#")
        for word in line.partition(":")[2].split()
    }
    kit = {
        package["name"].rpartition("-")[2]: package["versionInfo"]
        for package in listed
        if " Rust crate " in package.get("comment", "")
    }
    assert set(kit) == {crate for crate in uses if not (TOP / "crates" / crate).is_dir()}, sorted(kit)
    assert all(re.fullmatch(r"[0-9]+[.][0-9]+[.][0-9]+", version) for version in kit.values()), kit
    assert ".example" not in spdx.read_text() + provenance.read_text()


def check_commit() -> None:
    """Checks that the commit is that of the git repository."""
    (provenance,) = FOLDER.glob("*.provenance.json")
    made = json.loads(provenance.read_text())["predicate"]["buildDefinition"]["resolvedDependencies"]
    head = subprocess.run(["git", "-C", str(TOP), "rev-parse", "HEAD"], capture_output=True, text=True).stdout.strip()
    assert [material["digest"]["gitCommit"] for material in made if material["name"] == "commit"] == (
        [head] if head else []
    ), made
    assert {"sources", *(f"sources-{part}" for part in ("python", "npm", "uhid", "go", "rust", "docs"))} <= {
        material["name"] for material in made
    }


def main() -> int:
    failed = 0
    for test in (
        check_licences,
        check_man_page_paths,
        check_links,
        check_readmes,
        check_statements,
        check_commit,
    ):
        try:
            test()
        except AssertionError as wrong:
            print(f"FAILED   {test.__name__}: {wrong}")
            failed += 1
    print(f"tests/packages_hold.py: {len(PACKAGES)} packages, {failed} faults")
    return 1 if failed else 0


if __name__ == "__main__":
    sys.exit(main())
