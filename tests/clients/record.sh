#!/usr/bin/env bash
# Records how clients use a security key, for the conformance tests. The clients run in a virtual machine with a key
# that is a kernel device: libfido2's tools, python-fido2, OpenSSH and pam-u2f. Each recording is a log of the bridge of
# bridges/uhid, and starts with a key without credentials. Exits with 3 if a dependency is missing. machine.sh starts
# the virtual machine, and documents its environment variables.
#
#     tests/clients/record.sh FOLDER    write trimmed recordings FOLDER/NAME.log, as in conformance/recorded
# shellcheck disable=SC1091,SC2154 # top, name, root, work and image are set by common.sh and machine.sh
set -euo pipefail
source "$(dirname "${BASH_SOURCE[0]}")/common.sh"
folder=${1:?"usage: tests/clients/record.sh FOLDER"}
source "$(dirname "${BASH_SOURCE[0]}")/machine.sh"
require_commands fido2-token fido2-tools ssh-keygen openssh-client pamtester pamtester
[ -x /usr/lib/openssh/ssh-sk-helper ] || exit_skipped "ssh-sk-helper is missing (apt-get install openssh-client)"
pam=$(dpkg -L libpam-u2f 2>/dev/null | grep '/pam_u2f\.so$') || exit_skipped "pam_u2f.so is missing (apt-get install libpam-u2f)"
/usr/bin/python3 -c 'import fido2.server' 2>/dev/null ||
    exit_skipped "python-fido2 is missing (apt-get install python3-fido2)"

build_initramfs record_vm.sh
copy_python "$top/conformance/recorded" "$top/conformance" <<'END'
import fido2.hid.linux
import python_fido2
from hidlog_conformance import keys
maker = keys.KeyMaker()
name, x, y = maker.make()
assert keys.is_valid_signature({3: -7, -2: x, -3: y}, b"a", maker.sign(name, b"a"))
END
copy_programs "$(command -v fido2-token)" "$(command -v fido2-cred)" "$(command -v fido2-assert)" \
    "$(command -v ssh-keygen)" /usr/lib/openssh/ssh-sk-helper "$(command -v pamtester)" "$pam" \
    "$(dpkg -L python3-fido2 | grep 'public_suffix_list.dat$')"
cp "$top/conformance/recorded/python_fido2.py" "$root/root"
echo "$name: ${image##*/}, libfido2 $(print_version libfido2-1), python-fido2 $(print_version python3-fido2)," \
    "OpenSSH $(print_version openssh-client), pam-u2f $(print_version libpam-u2f)"
boot_machine "${HIDLOG_SECONDS:-1500}"
mkdir -p "$folder"
for log in $(tr -d '\r' <"$work/console" | sed -n 's/^@log \([a-z0-9_]*\) .*/\1/p' | sort -u); do
    tr -d '\r' <"$work/console" | sed -n "s/^@log $log //p" >"$folder/$log.log"
    "$library/hidlog" check <"$folder/$log.log" | sed "s,^,$name: $log: ,"
    "$top/conformance/recorded/trim.py" "$folder/$log.log"
done
