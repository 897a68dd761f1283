#!/usr/bin/env bash
# Tests the installed package hidlog: builds the wheel, installs it into a new virtual environment, and runs the tests
# in this directory. Exits with 3 if a Debian package is missing.
#
#     tests/python/run.sh [--library FILE] [ARG ..]     with another C library; ARG .. is for pytest
set -euo pipefail
tests=$(cd "$(dirname "${BASH_SOURCE[0]}")" && pwd)
top=$tests/../..
library=()
if [ "${1-}" = --library ]; then
    library=("HIDLOG_LIBRARY=$(realpath "$2")")
    shift 2
fi
python=/usr/bin/python3
if ! "$python" -c 'import cryptography, fido2.server, hatchling, pytest, venv' 2>/dev/null; then
    echo "tests/python/run.sh: python-fido2, cryptography, hatchling, pytest or venv is missing (tests/run --install); nothing was run" >&2
    exit 3
fi
work=$(mktemp -d)
trap 'rm -rf "$work"' EXIT
"$top/bindings/python/build.sh" "$work/dist"
"$python" -m venv --system-site-packages "$work/venv"
"$work/venv/bin/pip" install --quiet --no-index --no-deps "$work"/dist/*x86_64.whl
# Run the tests in a folder outside of the clone, so that Python finds only the installed package, not its sources.
cp "$tests"/*.py "$tests"/*.json "$work"
export HIDLOG_EXAMPLES=$top/examples HIDLOG_DIST=$work/dist
export PYTHONDONTWRITEBYTECODE=1
cd "$work"
env -u PYTHONPATH -u HIDLOG_PROGRAM -u HIDLOG_LIBRARY "${library[@]}" PATH="$work/venv/bin:/usr/bin:/bin" "$work/venv/bin/python" -m pytest -q -p no:cacheprovider "$@" .
