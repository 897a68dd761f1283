#!/usr/bin/env bash
# Tests the examples of the Python package: installs the package hidlog into a new virtual environment, as the README
# does, and runs the example first.py and the tests in this folder. Then checks the recorded logs in examples/ with
# hidlog.
#
#     examples/python/run.sh [DIR]        saves the recordings of failed tests in DIR [default: doesn't save them]
#
# Needs the Debian packages python3-fido2, python3-cryptography and python3-pytest. Exits with 3 if they are missing.
# HIDLOG_PROGRAM is the path of the program [default: ./hidlog].
set -euo pipefail
here=$(cd "$(dirname "${BASH_SOURCE[0]}")" && pwd)
HIDLOG_PROGRAM=$(realpath "${HIDLOG_PROGRAM:-$here/../../hidlog}")
export HIDLOG_PROGRAM PYTHONDONTWRITEBYTECODE=1
python=/usr/bin/python3
if ! "$python" -c 'import cryptography, pytest, venv, fido2; assert fido2.__version__.startswith("0.9")' 2>/dev/null; then
    echo "examples/python/run.sh: python-fido2 0.9, cryptography, pytest or venv is missing (tests/run --install installs them); nothing was run" >&2
    exit 3
fi
work=$(mktemp -d)
trap 'rm -rf "$work"' EXIT
"$here/../../bindings/python/build.sh" "$work/dist" >/dev/null
"$python" -m venv --system-site-packages "$work/venv"
"$work/venv/bin/pip" install --quiet --no-index --no-deps "$work"/dist/*x86_64.whl
(cd "$work" && env -u HIDLOG_PROGRAM "$work/venv/bin/python" "$here/first.py" && "$HIDLOG_PROGRAM" check <session.log)
keep=()
if [ $# -gt 0 ]; then
    keep=(--security-key-log "$1")
fi
env -u HIDLOG_PROGRAM "$work/venv/bin/python" -m pytest -q -p no:cacheprovider "${keep[@]}" "$here"

# Check that each recorded log passes `hidlog check`, and that `hidlog replay` and `hidlog live` write it unchanged.
for log in "$here"/../service_*.log; do
    load=()
    if [ "${log##*/}" = service_after_restart.log ]; then
        load=(--load "$here/../service.snapshot")
    fi
    result=$("$HIDLOG_PROGRAM" check "${load[@]}" <"$log")
    echo "${log##*/}: $result"
    "$HIDLOG_PROGRAM" replay "${load[@]}" <"$log" | cmp - "$log"
    "$HIDLOG_PROGRAM" live "${load[@]}" <"$log" | cmp - "$log"
done
