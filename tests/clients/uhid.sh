#!/usr/bin/env bash
# Tests the key as a Linux kernel device: builds the bridge of bridges/uhid and runs it in a virtual machine, where
# libfido2's tools, ssh-keygen and pam-u2f register and sign in with the key. uhid_vm.sh has the test cases, and
# machine.sh starts the virtual machine. This machine's own /dev/uhid is not used. Takes 90 s on an idle machine. Exits
# with 3 if a dependency is missing.
# shellcheck disable=SC1091,SC2154 # top, name, library, root and image are set by common.sh and machine.sh
set -euo pipefail
source "$(dirname "${BASH_SOURCE[0]}")/common.sh"
source "$(dirname "${BASH_SOURCE[0]}")/machine.sh"
require_commands fido2-token fido2-tools ssh-keygen openssh-client
[ -x /usr/lib/openssh/ssh-sk-helper ] || exit_skipped "ssh-sk-helper is missing (apt-get install openssh-client)"

build_initramfs uhid_vm.sh
copy_programs "$(command -v fido2-token)" "$(command -v fido2-cred)" "$(command -v fido2-assert)" "$(command -v ssh-keygen)" \
    /usr/lib/openssh/ssh-sk-helper /usr/bin/setpriv
pam=$(dpkg -L libpam-u2f 2>/dev/null | grep '/pam_u2f\.so$' || true)
if [ -n "$pam" ] && command -v pamtester >/dev/null && command -v pamu2fcfg >/dev/null; then
    copy_programs "$(command -v pamtester)" "$(command -v pamu2fcfg)" "$pam"
    versions=", pam-u2f $(print_version libpam-u2f)"
else
    echo "$name: pam-u2f was not run (apt-get install libpam-u2f pamtester pamu2fcfg)"
fi
echo "$name: ${image##*/}, libfido2 $(print_version libfido2-1), OpenSSH $(print_version openssh-client)${versions-}"
boot_machine 1500
