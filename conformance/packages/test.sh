#!/usr/bin/env bash
# Tests the packages of the conformance tests, a wheel and a deb. Builds them twice and expects the same files. Then
# runs a few conformance tests against the reference authenticator, with the wheel in a virtual environment and with the
# unpacked deb, so that no file of this clone is used. Exits with 3 if a tool is missing.
set -euo pipefail
top=$(cd "$(dirname "${BASH_SOURCE[0]}")/../.." && pwd)
work=$(mktemp -d)
trap 'rm -rf "$work"' EXIT
for tool in dpkg-deb python3; do
    command -v "$tool" >/dev/null || { echo "conformance/packages/test.sh: $tool is missing; nothing was run" && exit 3; }
done
python=$("$top/tests/with_fido2.sh" -c 'import sys; print(sys.executable)')
for folder in one two; do
    "$python" "$top/conformance/packages/build.py" "$work/$folder" >/dev/null
done
diff -r "$work/one" "$work/two"

# Runs a few conformance tests with a command, and prints the command's version: run_tests COMMAND ..
run_tests() {
    local summary
    summary=$("$@" --device "$reference" --touch-line touch --only ping/bytes_00 --report text 2>/dev/null | tail -1)
    [[ $summary =~ ^[1-9][0-9]*\ passed,\ 0\ failed ]] || { echo "$*: $summary" && exit 1; }
    "$@" --device "$reference" --touch-line touch --only pin/registers --report html 2>/dev/null |
        grep "<h2>By section</h2>" >/dev/null
    "$@" --device "$reference" --touch-line touch --reset --only pin/registers 2>/dev/null | tail -1
    "$@" --version
}

cd "$work"
"$python" -m venv --system-site-packages "$work/venv" >/dev/null
"$work/venv/bin/python" -m pip install --quiet --no-index --no-deps --disable-pip-version-check "$work"/one/*.whl
reference="$work/venv/bin/python -m hidlog_conformance.reference"
echo "the wheel: $(run_tests "$work/venv/bin/hidlog-conformance" | tr '\n' ' ')"
dpkg-deb -x "$work"/one/*.deb "$work/root"
export PYTHONPATH=$work/root/usr/lib/python3/dist-packages
reference="$python -m hidlog_conformance.reference"
echo "the deb: $(run_tests "$python" "$work/root/usr/bin/hidlog-conformance" | tr '\n' ' ')"
! "$work/venv/bin/python" -c 'import keys, report, rules' 2>/dev/null || { echo "the wheel installs a module with a common name: keys, report or rules" && exit 1; }
if command -v lintian >/dev/null; then
    lintian --fail-on error "$work"/one/*.deb
fi
echo passed
