#!/usr/bin/env python3
"""Builds the packages of the conformance tests, without a toolchain: conformance/packages/build.py FOLDER

    hidlog_conformance-VERSION-py3-none-any.whl    the runner, the sessions, the reference authenticator
    hidlog-conformance_VERSION_all.deb             the same for Debian, if dpkg-deb is installed

The builds are reproducible.
"""

from __future__ import annotations

import base64
import gzip
import hashlib
import os
import shutil
import subprocess
import sys
import tempfile
import zipfile
from typing import Dict, List

HERE = os.path.dirname(os.path.abspath(__file__))
CORPUS = os.path.join(HERE, "..")
TOP = os.path.join(CORPUS, "..")
sys.path.insert(0, CORPUS)

from hidlog_conformance import __version__  # noqa: E402
from hidlog_conformance.cases.all_cases import build_session_texts  # noqa: E402

TIMESTAMP = (2026, 11, 26, 0, 0, 0)
EPOCH = 1795651200
SUMMARY = "Conformance tests for CTAP 2.1 over USB HID, for authenticators and clients"
MAINTAINER = "Cogtzil maintainers <maintainers@users.noreply.cogtzil.example>"
METADATA = f"""Metadata-Version: 2.1
Name: hidlog-conformance
Version: {__version__}
Summary: {SUMMARY}
License: Apache-2.0 OR MIT
Requires-Python: >=3.9
Requires-Dist: cryptography
Description-Content-Type: text/markdown

"""
DESCRIPTION = """Sessions of a host and of a device, with the responses that CTAP 2.1 requires. The runner plays them against
an authenticator or a client, and reports violations.

The tests were written from knowledge of the standard and have not been checked against its text line by line. This is
not a FIDO certification, whose tools test more: metadata, NFC, BLE and others.
"""
SCRIPT = "#!/usr/bin/python3\nimport sys\n\nfrom hidlog_conformance.run import main_installed\n\nsys.exit(main_installed())\n"


def list_files() -> Dict[str, bytes]:
    """Returns the package's files, by path: modules, sessions, which are generated here, and client sessions."""
    found = {f"hidlog_conformance/sessions/{name}.log": text.encode() for name, text in build_session_texts().items()}
    folders = {
        "hidlog_conformance": ".py",
        "clients": ".sessions",
        "fuzzed": ".logs",
        "recorded": ".log",
    }
    for folder, ending in folders.items():
        inside = "" if folder == "hidlog_conformance" else f"hidlog_conformance/{folder}"
        for place, _, names in os.walk(os.path.join(CORPUS, folder)):
            rest = os.path.relpath(place, os.path.join(CORPUS, folder))
            for name in names:
                if name.endswith(ending):
                    path = os.path.normpath(os.path.join(inside or folder, rest, name))
                    with open(os.path.join(place, name), "rb") as file:
                        found[path] = file.read()
    return dict(sorted(found.items()))


def read_file(name: str) -> bytes:
    """Returns a file of the repository."""
    with open(os.path.join(TOP, name), "rb") as file:
        return file.read()


def build_wheel(folder: str) -> str:
    """Writes the wheel."""
    info = f"hidlog_conformance-{__version__}.dist-info"
    found = list_files()
    found[f"{info}/METADATA"] = (METADATA + DESCRIPTION).encode()
    found[f"{info}/WHEEL"] = b"Wheel-Version: 1.0\nGenerator: hidlog\nRoot-Is-Purelib: true\nTag: py3-none-any\n"
    found[
        f"{info}/entry_points.txt"
    ] = b"[console_scripts]\nhidlog-conformance = hidlog_conformance.run:main_installed\n"
    for name in ("LICENSE-APACHE", "LICENSE-MIT"):
        found[f"{info}/{name}"] = read_file(name)
    record = []
    for name, data in found.items():
        digest = base64.urlsafe_b64encode(hashlib.sha256(data).digest()).rstrip(b"=").decode()
        record.append(f"{name},sha256={digest},{len(data)}\n")
    found[f"{info}/RECORD"] = ("".join(record) + f"{info}/RECORD,,\n").encode()
    path = os.path.join(folder, f"hidlog_conformance-{__version__}-py3-none-any.whl")
    with zipfile.ZipFile(path, "w", zipfile.ZIP_DEFLATED) as archive:
        for name, data in found.items():
            entry = zipfile.ZipInfo(name, TIMESTAMP)
            entry.external_attr = 0o644 << 16
            archive.writestr(entry, data, zipfile.ZIP_DEFLATED)
    return path


def write_file(root: str, name: str, data: bytes, mode: int = 0o644) -> None:
    """Writes a file of the Debian package."""
    path = os.path.join(root, name)
    os.makedirs(os.path.dirname(path), exist_ok=True)
    with open(path, "wb") as file:
        file.write(data)
    os.chmod(path, mode)


def write_documents(root: str) -> None:
    """Writes the licence and the changelog of the Debian package."""
    start = "Format: https://www.debian.org/doc/packaging-manuals/copyright-format/1.0/\nUpstream-Name: hidlog-conformance\n\n"
    who = "Files: *\nCopyright: 2026 Cogtzil maintainers\nLicense: Apache-2.0 or Expat\n\n"
    apache = "License: Apache-2.0\n On Debian systems the text is in /usr/share/common-licenses/Apache-2.0.\n\n"
    text = read_file("LICENSE-MIT").decode().splitlines()[4:]
    expat = "License: Expat\n" + "".join(f" {line or '.'}\n" for line in text)
    place = "usr/share/doc/hidlog-conformance"
    write_file(root, f"{place}/copyright", (start + who + apache + expat).encode())
    change = f"hidlog-conformance ({__version__}) unstable; urgency=low\n\n  * Version {__version__}.\n\n"
    change += f" -- {MAINTAINER}  Thu, 26 Nov 2026 00:00:00 +0000\n"
    write_file(root, f"{place}/changelog.gz", gzip.compress(change.encode(), 9, mtime=0))


def build_deb(folder: str) -> str:
    """Writes the Debian package."""
    path = os.path.join(folder, f"hidlog-conformance_{__version__}_all.deb")
    with tempfile.TemporaryDirectory() as root:
        found = list_files()
        for name, data in found.items():
            write_file(root, f"usr/lib/python3/dist-packages/{name}", data)
        write_file(root, "usr/bin/hidlog-conformance", SCRIPT.encode(), 0o755)
        write_documents(root)
        size = sum(map(len, found.values())) // 1024
        control = f"Package: hidlog-conformance\nVersion: {__version__}\nArchitecture: all\nMaintainer: {MAINTAINER}\n"
        control += f"Section: utils\nPriority: optional\nInstalled-Size: {size}\n"
        control += "Depends: python3 (>= 3.9), python3-cryptography\n"
        control += f"Description: {SUMMARY.lower().replace('ctap', 'CTAP').replace('usb hid', 'USB HID')}\n"
        control += "".join(f" {line or '.'}\n" for line in DESCRIPTION.splitlines())
        write_file(root, "DEBIAN/control", control.encode())
        for place, folders, names in os.walk(root):
            os.chmod(place, 0o755)
            for name in folders + names:
                os.utime(os.path.join(place, name), (EPOCH, EPOCH))
        environment = {**os.environ, "SOURCE_DATE_EPOCH": str(EPOCH)}
        words = ["dpkg-deb", "--root-owner-group", "-Zxz", "--build", root, path]
        subprocess.run(words, check=True, stdout=subprocess.DEVNULL, env=environment)
    return path


def main(words: List[str]) -> int:
    """Builds both packages."""
    if len(words) != 1:
        print(__doc__, file=sys.stderr)
        return 2
    os.makedirs(words[0], exist_ok=True)
    print(build_wheel(words[0]))
    if shutil.which("dpkg-deb"):
        print(build_deb(words[0]))
    return 0


if __name__ == "__main__":
    sys.exit(main(sys.argv[1:]))
