"""The wheel and the sdist after installation."""

from __future__ import annotations

import os
import re
import subprocess
import sys
import tarfile
import zipfile
from importlib import metadata
from pathlib import Path

import hidlog

DIST = Path(os.environ["HIDLOG_DIST"])
TOP = Path(os.environ["HIDLOG_EXAMPLES"]).resolve().parent
CHANGELOG_VERSIONS = re.findall(r"^## (\d[\d.]*)", (TOP / "CHANGELOG.md").read_text(encoding="utf-8"), re.MULTILINE)
VERSION = CHANGELOG_VERSIONS[0]
PROCESSOR_TAG = re.compile(r"x86_64|aarch64")


def test_the_installed_package_is_tested() -> None:
    assert Path(hidlog.__file__).is_relative_to(sys.prefix)
    assert hidlog.__version__ == metadata.version("hidlog") == VERSION
    assert (Path(hidlog.__file__).parent / "py.typed").exists()


def test_each_public_name_is_there() -> None:
    found = {name: getattr(hidlog, name) for name in hidlog.__all__}
    errors = {result for result in found.values() if isinstance(result, type) and issubclass(result, Exception)}
    assert len(errors) >= 24 and all(issubclass(error, hidlog.HidlogError) for error in errors)


def test_the_version_is_the_same_everywhere() -> None:
    assert f"\nversion: {VERSION}\n" in (TOP / "CITATION.cff").read_text(encoding="utf-8")
    assert f"\nVersion: {VERSION}\n" in (TOP / "release" / "hidlog.pc").read_text(encoding="utf-8")
    said = subprocess.run([TOP / "release" / "hidlog", "--version"], check=True, capture_output=True, text=True)
    assert said.stdout == f"hidlog {VERSION}\n"


def test_the_sdist_makes_the_same_wheels(tmp_path: Path) -> None:
    (sdist,), wheels = DIST.glob("*.tar.gz"), sorted(DIST.glob("*.whl"))
    subprocess.run(["tar", "-xf", sdist, "-C", tmp_path], check=True)
    (folder,) = tmp_path.iterdir()
    for wheel in wheels:
        variables = {
            **os.environ,
            "HIDLOG_PROCESSOR": PROCESSOR_TAG.findall(wheel.name)[0],
            "SOURCE_DATE_EPOCH": "315532800",
        }
        words = ["/usr/bin/python3", "-m", "hatchling", "build", "-t", "wheel", "-d", str(tmp_path / "made")]
        subprocess.run(words, cwd=folder, env=variables, check=True, capture_output=True)
        assert (tmp_path / "made" / wheel.name).read_bytes() == wheel.read_bytes()


def test_the_sdist_holds_each_file_once() -> None:
    (sdist,) = DIST.glob("*.tar.gz")
    with tarfile.open(sdist) as archive:
        names = [element.name.partition("/")[2] for element in archive]
        assert all(item.isfile() for item in archive) and len(set(names)) == len(names)
    assert {"LICENSE-MIT", "LICENSE-APACHE", "NOTICE", "README.md", "hatch_build.py", "src/hidlog/py.typed"} <= set(
        names
    )


def test_a_wheel_holds_what_its_record_says() -> None:
    for wheel in DIST.glob("*.whl"):
        with zipfile.ZipFile(wheel) as archive:
            record = archive.read(f"hidlog-{VERSION}.dist-info/RECORD").decode().splitlines()
            assert sorted(item.split(",")[0] for item in record) == sorted(archive.namelist())
            names = {name.rpartition("/")[2] for name in archive.namelist()}
            assert {"LICENSE-MIT", "LICENSE-APACHE", "NOTICE", "libhidlog.so.1", "BUILD"} <= names
            assert "hidlog" in names


def test_the_licences_are_those_of_the_repository() -> None:
    for name in ("LICENSE-MIT", "LICENSE-APACHE"):
        assert (TOP / "bindings" / "python" / name).read_bytes() == (TOP / name).read_bytes()


def test_the_metadata_says_what_a_registry_shows() -> None:
    said = metadata.metadata("hidlog")
    assert said["Requires-Python"] == ">=3.9" and said["License"] == "MIT OR Apache-2.0"
    assert "Framework :: Pytest" in said.get_all("Classifier", [])
    assert len(said.get_all("Project-URL", [])) == 3 and "webauthn" in said["Keywords"]


def test_logs_need_no_other_package() -> None:
    words = [sys.executable, "-I", "-S", "-c"]
    code = f"import sys; sys.path.insert(0, {str(Path(hidlog.__file__).parent.parent)!r}); import hidlog; "
    code += (
        "assert hidlog.check(b't 1\\n').text == b'same 1 inputs 0 packets\\n'; assert 'cryptography' not in sys.modules"
    )
    subprocess.run([*words, code], check=True)


def test_an_editable_install(tmp_path: Path) -> None:
    """An editable install does not change the clone, and imports the files of the clone."""
    subprocess.run(["/usr/bin/python3", "-m", "venv", "--system-site-packages", tmp_path / "venv"], check=True)
    words = [
        "install",
        "--quiet",
        "--no-index",
        "--no-build-isolation",
        "--no-deps",
        "-e",
        str(TOP / "bindings" / "python"),
    ]
    subprocess.run([str(tmp_path / "venv/bin/pip"), *words], check=True)
    code = "import hidlog; hidlog.SecurityKey().close(); print(hidlog.__file__)"
    ran = subprocess.run([str(tmp_path / "venv/bin/python"), "-c", code], check=True, capture_output=True, text=True)
    assert Path(ran.stdout.strip()) == TOP / "bindings" / "python" / "src" / "hidlog" / "__init__.py"


def test_nothing_is_imported_before_it_is_asked_for() -> None:
    """The package imports its modules only when they are needed, because each pytest process imports the plugin."""
    words = "import sys, hidlog; print([name for name in sys.modules if name.startswith('hidlog.')], hidlog.check, hidlog.errors)"
    said = subprocess.run([sys.executable, "-c", words], capture_output=True, text=True, check=True)
    assert said.stdout.startswith("[] <function check")
    assert set(hidlog.__all__) == set(hidlog._MODULE_OF)
