#!/usr/bin/env bash
# Builds the wheels and the source distribution (sdist) of the Python package hidlog in DIR: bindings/python/build.sh
# DIR
#
# Builds are reproducible. Needs hatchling (apt-get install python3-hatchling). The wheel for aarch64 needs lld or
# binutils-aarch64-linux-gnu. The wheel for Windows needs the environment variable HIDLOG_PORTABLE: a folder with the
# portable library's sources and hidlog.dll, such as SOURCES_DIR of bindings/c/build.sh. A wheel is skipped if what it
# needs is missing.
set -euo pipefail
[ $# = 1 ] || { echo "usage: bindings/python/build.sh DIR" >&2; exit 2; }
mkdir -p "$1"
to=$(cd "$1" && pwd)
cd "$(dirname "${BASH_SOURCE[0]}")"
for python in python3 /usr/bin/python3; do
    if "$python" -c 'import hatchling' 2>/dev/null; then break; fi
    python=
done
[ -n "$python" ] ||
    { echo "bindings/python/build.sh: hatchling is missing (apt-get install python3-hatchling)" >&2; exit 3; }
# Give all files in the packages this timestamp, so that builds are reproducible.
export SOURCE_DATE_EPOCH="${SOURCE_DATE_EPOCH:-315532800}" PYTHONDONTWRITEBYTECODE=1
umask 022

build_distribution() {
    "$python" -m hatchling build -d "$to" "$@"
}

build_distribution -t sdist
HIDLOG_PROCESSOR=x86_64 build_distribution -t wheel
if command -v ld.lld >/dev/null || command -v aarch64-linux-gnu-ld >/dev/null; then
    HIDLOG_PROCESSOR=aarch64 build_distribution -t wheel
else
    echo "bindings/python/build.sh: skipping the wheel for aarch64, since no linker for aarch64 was found (apt-get install lld)" >&2
fi
if [ -e "${HIDLOG_PORTABLE-}/hidlog.dll" ]; then
    HIDLOG_PROCESSOR=win_amd64 build_distribution -t wheel
fi
chmod 644 "$to"/hidlog-*.whl "$to"/hidlog-*.tar.gz
