"""Files of the release for the wheel and the sdist: the version, the program and the C library.

They are in ../../release in a clone, and in prebuilt/ in an sdist. A wheel is for the processor in HIDLOG_PROCESSOR
[default: this machine's]: x86_64 or aarch64 for Linux, win_amd64, whose library mingw-w64 compiles, or portable. On
systems other than Linux on x86_64 and aarch64, the portable library is compiled with $CC, cc, gcc, clang or cl, and the
wheel has no program. The library's sources are in prebuilt/portable in an sdist; in a clone wabt generates them.
HIDLOG_PORTABLE is another folder with the sources, and with hidlog.dll if it is compiled already.
"""

from __future__ import annotations

import os
import platform
import re
import shutil
import subprocess
import sys
import sysconfig
from pathlib import Path

TOP = Path(__file__).resolve().parent
# The modules of the conformance tests that `hidlog import` and `hidlog judge` use.
CORPUS = "hidlog_conformance"
LIBRARY = "libhidlog.so.1"
PAGE_SCRIPT = "security_key.js"
DISSECTOR = "ctaphid.lua"
# The program and the library do not depend on a C library, so both run on any Linux of their processor.
TAG = "py3-none-manylinux_2_17_{0}.manylinux2014_{0}.musllinux_1_1_{0}"
WINDOWS, PORTABLE = "win_amd64", "portable"
# Paths, in a clone, of the files in prebuilt/PROCESSOR, by processor.
FILES = {
    "x86_64": {"hidlog": "../../release/hidlog", LIBRARY: f"../../release/{LIBRARY}"},
    "aarch64": {"hidlog": "../../release/aarch64/hidlog", "libhidlog.a": "../../release/aarch64/libhidlog.a"},
}


def find_release_file(processor: str, name: str) -> Path:
    """Returns the path of a file of the release."""
    for path in (TOP / "prebuilt" / processor / name, TOP / FILES[processor][name]):
        if path.is_file():
            return path
    raise SystemExit(f"bindings/python: {name} not found in prebuilt/{processor} or at {FILES[processor][name]}")


def find_build_info() -> Path:
    """Returns the path of the file with the version and the sources of the release."""
    found = [place for place in (TOP / "prebuilt" / "BUILD", TOP.parents[1] / "release" / "BUILD") if place.is_file()]
    if not found:
        raise SystemExit("bindings/python: BUILD not found in prebuilt or ../../release")
    return found[0]


def list_corpus_files() -> list[Path]:
    """Returns the modules of the conformance tests."""
    for folder in (TOP / "prebuilt" / CORPUS, TOP.parents[1] / "conformance" / CORPUS):
        if folder.is_dir():
            return sorted(folder.glob("*.py"))
    raise SystemExit(f"bindings/python: {CORPUS} not found in prebuilt or ../../conformance")


def find_page_script() -> Path:
    """Returns the key's script for pages, which `hidlog webdriver` uses."""
    for path in (TOP / "prebuilt" / PAGE_SCRIPT, TOP.parent / "web" / "dist" / PAGE_SCRIPT):
        if path.is_file():
            return path
    raise SystemExit(f"bindings/python: {PAGE_SCRIPT} not found in prebuilt or ../web/dist")


def find_dissector() -> Path:
    """Returns the path of the Wireshark dissector, which `hidlog export --dissector-path` prints."""
    for path in (TOP / "prebuilt" / DISSECTOR, TOP.parents[1] / "dissector" / DISSECTOR):
        if path.is_file():
            return path
    raise SystemExit(f"bindings/python: {DISSECTOR} not found in prebuilt or ../../dissector")


def version() -> str:
    """Returns the version of the release."""
    lines = find_build_info().read_text(encoding="utf-8").splitlines()
    return next(line[len("version: ") :] for line in lines if line.startswith("version: "))


def detect_processor() -> str:
    """Returns the processor of the wheel, or PORTABLE if the library has to be compiled."""
    named = os.environ.get("HIDLOG_PROCESSOR")
    if named and named not in (*FILES, WINDOWS, PORTABLE):
        allowed = f"{', '.join(FILES)}, {WINDOWS} or {PORTABLE}"
        raise SystemExit(f"bindings/python: HIDLOG_PROCESSOR is {named}; it must be {allowed}")
    is_linux = platform.system() == "Linux"
    return named or (platform.machine() if is_linux and platform.machine() in FILES else PORTABLE)


def find_tag(processor: str) -> str:
    """Returns the tag of a wheel."""
    if processor in FILES:
        return TAG.format(processor)
    return f"py3-none-{WINDOWS if processor == WINDOWS else re.sub('[-.]', '_', sysconfig.get_platform())}"


def find_portable_sources(folder: Path) -> Path:
    """Returns the folder with the portable library's sources. In a clone they are generated in `folder`."""
    named = os.environ.get("HIDLOG_PORTABLE")
    for path in (Path(named) if named else TOP / "prebuilt" / PORTABLE, folder / PORTABLE):
        if (path / "hidlog.c").is_file():
            return path
    script = TOP.parent / "c" / "sources.sh"
    if not script.is_file() or shutil.which("wasm2c") is None:
        reason = "the portable library's sources are missing: install wabt, or build from the sdist"
        raise SystemExit(f"bindings/python: {reason}")
    subprocess.run([str(script), str(folder / PORTABLE)], check=True)
    return folder / PORTABLE


def find_compiler(processor: str) -> str:
    """Returns the compiler of the portable library."""
    is_cross = processor == WINDOWS and platform.system() != "Windows"
    names = ["x86_64-w64-mingw32-gcc"] if is_cross else [os.environ.get("CC", "cc"), "gcc", "clang", "cl"]
    for name in names:
        if shutil.which(name.split()[0]):
            return name
    raise SystemExit(f"bindings/python: a C compiler is missing (tried {', '.join(names)}): install one, or set CC")


def compile_library(processor: str, folder: Path) -> Path:
    """Compiles the portable library, which takes about a minute. Returns its path."""
    sources = find_portable_sources(folder)
    is_windows = processor == WINDOWS or platform.system() == "Windows"
    name = "hidlog.dll" if is_windows else "libhidlog.dylib" if platform.system() == "Darwin" else LIBRARY
    if is_windows and (sources / name).is_file():
        return sources / name
    library, compiler = folder / name, find_compiler(processor).split()
    source, exports = str(sources / "hidlog.c"), str(sources / "hidlog.def")
    if compiler[0] == "cl":
        words = ["/nologo", "/std:c11", "/O2", "/LD", source, f"/Fe:{library}", "/link", f"/DEF:{exports}"]
    else:
        options = ["-s", "-Wl,--no-insert-timestamp", exports] if is_windows else ["-fPIC"]
        words = ["-std=c11", "-O2", "-shared", "-o", str(library), source, *options]
    subprocess.run([*compiler, *words], check=True, cwd=folder)
    return library


def link_library(archive: Path, folder: Path) -> Path:
    """Links the shared library for aarch64."""
    own = ["ld"] if platform.machine() == "aarch64" else []
    linker = next((command for command in ("ld.lld", "aarch64-linux-gnu-ld", *own) if shutil.which(command)), None)
    if linker is None:
        raise SystemExit("bindings/python: a linker for aarch64 is missing: install lld, or binutils-aarch64-linux-gnu")
    words = ["-m", "aarch64linux", "-shared", "-soname", LIBRARY, "-z", "relro", "-z", "now", "--strip-all"]
    library = folder / LIBRARY
    subprocess.run([linker, *words, "-o", library, "--whole-archive", archive], check=True)
    return library


def list_sdist_files(folder: Path) -> dict[Path, str]:
    """Returns the sdist's files that are not sources, with their paths in the sdist. The portable library's sources are
    generated in the folder."""
    files = {find_build_info(): "prebuilt/BUILD", find_page_script(): f"prebuilt/{PAGE_SCRIPT}"}
    files[find_dissector()] = f"prebuilt/{DISSECTOR}"
    files.update({path: f"prebuilt/{CORPUS}/{path.name}" for path in list_corpus_files()})
    for processor, names in FILES.items():
        files.update({find_release_file(processor, name): f"prebuilt/{processor}/{name}" for name in names})
    try:
        portable = find_portable_sources(folder)
    except SystemExit as error:
        print(f"{error}; the sdist has none", file=sys.stderr)
    else:
        files.update(
            {path: f"prebuilt/{PORTABLE}/{path.name}" for path in sorted(portable.iterdir()) if is_source(path)}
        )
    return files


def is_source(path: Path) -> bool:
    """Returns whether a file of the portable library is a source file."""
    return path.suffix in (".c", ".h", ".def")


def list_wheel_files(processor: str, folder: Path) -> dict[Path, str]:
    """Returns the wheel's files that are not sources, with their paths in the wheel. The linked or compiled library is
    written to the folder."""
    files = {find_build_info(): "hidlog/BUILD", find_page_script(): f"hidlog/webdriver/{PAGE_SCRIPT}"}
    files[find_dissector()] = f"hidlog/captures/{DISSECTOR}"
    files.update({path: f"hidlog/corpus/{CORPUS}/{path.name}" for path in list_corpus_files()})
    if processor == "aarch64":
        files[link_library(find_release_file(processor, "libhidlog.a"), folder)] = f"hidlog/{LIBRARY}"
        files[find_release_file(processor, "hidlog")] = "hidlog/hidlog"
    elif processor not in FILES:
        library = compile_library(processor, folder)
        files[library] = f"hidlog/{library.name}"
    else:
        files.update({find_release_file(processor, name): f"hidlog/{name}" for name in FILES[processor]})
    return files
