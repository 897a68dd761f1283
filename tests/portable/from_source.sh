#!/usr/bin/env bash
# Tests the Python package on a system without a wheel: installs it from its sdist into an empty environment, so that
# the portable C library is compiled. Then checks a log and signs in with the package. At the end, prints pip's
# processor time.
#
# Needs python3-hatchling, python3-venv, python3-cryptography, gcc and wabt; exits with 3 if one is missing.
set -euo pipefail
top=$(cd "$(dirname "${BASH_SOURCE[0]}")/../.." && pwd)
python=/usr/bin/python3
if ! "$python" -c 'import hatchling, venv, cryptography' 2>/dev/null || ! command -v wasm2c >/dev/null ||
        ! command -v gcc >/dev/null; then
    echo "tests/portable/from_source.sh: hatchling, venv, cryptography, wabt or gcc is missing (tests/run --install); nothing was run" >&2
    exit 3
fi
work=$(mktemp -d)
trap 'rm -rf "$work"' EXIT
export PYTHONDONTWRITEBYTECODE=1
unset PYTHONPATH HIDLOG_PROGRAM HIDLOG_LIBRARY HIDLOG_PORTABLE
(cd "$top/bindings/python" && "$python" -m hatchling build -d "$work" -t sdist >/dev/null)
"$python" -m venv --system-site-packages "$work/venv"
TIMEFORMAT="%U %S"
{ time HIDLOG_PROCESSOR=portable "$work/venv/bin/pip" install --quiet --no-index --no-deps --no-build-isolation \
    "$work"/hidlog-*.tar.gz; } 2>"$work/time" || { cat "$work/time" >&2 && exit 1; }
result=$("$work/venv/bin/hidlog" check "$top/examples/sign_in.log")
[ "$result" = "same 14 inputs 22 packets" ] || { echo "FAILED: expected hidlog check to print 'same 14 inputs 22 packets', not '$result'" && exit 1; }
cd "$work"
"$work/venv/bin/python" - "$top/release/libhidlog.so.1" <<'PYTHON'
import sys
from pathlib import Path

import hidlog
from hidlog.webauthn_json import b64url_encode

library = Path(hidlog.__file__).with_name("libhidlog.so.1").read_bytes()
assert library != Path(sys.argv[1]).read_bytes(), "the installed library is the proved one: it was not compiled"
options = {
    "rp": {"name": "Example"}, "challenge": b64url_encode(bytes(32)), "user": {"id": "AQ", "name": "a", "displayName": "A"},
    "pubKeyCredParams": [{"type": "public-key", "alg": -7}], "authenticatorSelection": {"residentKey": "required"},
}
with hidlog.SecurityKey(process=False) as key:
    browser = key.browser("http://localhost:5000")
    assert browser.create(options)["id"] == browser.get({"challenge": b64url_encode(bytes(32))})["id"]
PYTHON
awk '{ printf "installed from source with %.0f s of processor time, checked a log and signed in\n", $1 + $2 }' "$work/time"
