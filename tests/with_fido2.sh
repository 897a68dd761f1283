#!/usr/bin/env bash
# Runs a Python script with python3 or /usr/bin/python3, whichever has the packages fido2 and cryptography; Debian's
# packages are for /usr/bin/python3. Exits with 3 if neither has both.
#
#     tests/with_fido2.sh SCRIPT [ARG ..]
set -euo pipefail
for python in python3 /usr/bin/python3; do
    if command -v "$python" >/dev/null && "$python" -c 'import cryptography, fido2.server' 2>/dev/null; then
        exec "$python" "$@"
    fi
done
echo "tests/with_fido2.sh: python-fido2 or cryptography is missing (apt-get install python3-fido2 python3-cryptography); nothing was run" >&2
exit 3
