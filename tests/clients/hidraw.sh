#!/usr/bin/env bash
# Runs the conformance tests in a virtual machine, against a Linux kernel device /dev/hidrawN that the bridge of
# bridges/uhid creates. The bridge simulates the user's touches, and hidraw_vm.sh unplugs and plugs in the key. Exits
# with 3 if a dependency is missing. machine.sh starts the virtual machine, and documents its environment variables.
#
#     tests/clients/hidraw.sh                runs five cases with power cycles, in a minute
#     tests/clients/hidraw.sh all            runs all cases, in a quarter of an hour; set HIDLOG_SECONDS=3600, the time
#                                            limit in seconds
#     tests/clients/hidraw.sh ARGUMENT ..    runs conformance/run.py with these arguments
# shellcheck disable=SC1091,SC2154 # top, name, root, work and image are set by common.sh and machine.sh
set -euo pipefail
source "$(dirname "${BASH_SOURCE[0]}")/common.sh"
source "$(dirname "${BASH_SOURCE[0]}")/machine.sh"
/usr/bin/python3 -c 'import cryptography' 2>/dev/null ||
    exit_skipped "cryptography is missing (apt-get install python3-cryptography)"

build_initramfs hidraw_vm.sh
copy_python "$top/conformance" <<'END'
from hidlog_conformance import keys
from hidlog_conformance import run
maker = keys.KeyMaker()
name, x, y = maker.make()
assert run and keys.is_valid_signature({3: -7, -2: x, -3: y}, b"a", maker.sign(name, b"a"))
END
copy_programs "$(command -v nice)"
mkdir -p "$root/conformance"
cp "$top"/conformance/*.py "$root/conformance"
cp -r "$top/conformance/hidlog_conformance" "$root/conformance"
PYTHONDONTWRITEBYTECODE=1 "$top/conformance/make.py" --output "$root/conformance/hidlog_conformance/sessions"
[ $# -gt 0 ] || set -- --only power/c
[ "$*" != all ] || set --
printf '%s\n' "$@" >"$root/words"
echo "$name: ${image##*/}, $(/usr/bin/python3 --version), run.py --device /dev/hidrawN --touch --reset $*"
boot_machine "${HIDLOG_SECONDS:-1500}"
