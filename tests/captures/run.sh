#!/usr/bin/env bash
# Tests the import and export of USB captures, the Wireshark dissector, the command `hidlog judge`, and keys that replay a
# recorded session (`SecurityKey.from_recording`). Exits with 3 if a Debian package is missing.
#
#     tests/captures/run.sh [ARGUMENT ..]      arguments of pytest
set -euo pipefail
cd "$(dirname "${BASH_SOURCE[0]}")"
python=/usr/bin/python3
if ! "$python" -c 'import cryptography, fido2.server, pytest' 2>/dev/null || ! command -v tshark >/dev/null; then
    echo "tests/captures/run.sh: python-fido2, cryptography, pytest or tshark is missing (tests/run --install); nothing was run" >&2
    exit 3
fi
export PYTHONPATH=$PWD/../../bindings/python/src:$PWD/../../conformance PYTHONDONTWRITEBYTECODE=1
exec "$python" -m pytest -q -p no:cacheprovider "$@"
